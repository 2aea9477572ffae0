"""Reads the pages: their blocks of code, links, headings and sentences."""
import ast
import re
import textwrap

from tests.lib import programs

ROOT = programs.ROOT
# The languages of blocks for a shell, and of what programs print.
SHELLS = ("", "sh", "console", "text", "bash")
# Folders whose files a page may name in a line for a shell, and `bench`, which isn't there.
FOLDERS = ("scripts", "tests", "benches", "bench", "fuzz", "examples", "python", "rust")


def read(name):
    """Returns the text of a page, whose name is relative to the repository's root."""
    return (ROOT / name).read_text(encoding="utf-8")


def names():
    """Returns the names of all pages: those in the root and those in docs."""
    return [str(it.relative_to(ROOT)) for folder in (ROOT, ROOT / "docs") for it in sorted(folder.glob("*.md"))]


def blocks(text, language):
    """Returns the fenced blocks of a language."""
    return [part.split("\n```")[0].strip("\n") for part in text.split(f"```{language}\n")[1:]]


def unmarked(text):
    """Returns the blocks that name no language: indented ones, and those fenced as sh, console, text or nothing."""
    fenced = [block for language, block in re.findall(r"(?ms)^```(\w*)\n(.*?)\n```$", text) if language in SHELLS]
    found, last = [[]], ""
    for line in re.sub(r"(?ms)^```.*?^```$", "", text).split("\n"):
        # A block begins after an empty line. Empty lines may be in it.
        if line.startswith("    ") and (found[-1] or not last.strip()) or found[-1] and not line.strip():
            found[-1].append(line)
        elif found[-1]:
            found.append([])
        last = line
    return fenced + [textwrap.dedent("\n".join(lines)).strip("\n") for lines in found if lines]


def is_python(block):
    """Returns true if a block that names no language is a program in Python over the package `bolt`."""
    try:
        ast.parse(block)
    except SyntaxError:
        return False
    return re.search(r"\bbolt\.\w+\(", block) is not None


def python_blocks(text):
    """Returns the programs in Python of a page, each with the lines that the page says it prints.

    These lines are the indented block after the words "It prints". If there is none, they come from the comments of the
    program: `print(..)  # SAID: MORE` says that SAID is printed.
    """
    found = [(block, commented(block) if said is None else said) for block, said in programs_of(text, "python")]
    return found + [(it, commented(it)) for it in unmarked(text) if is_python(it)]


def programs_of(text, language):
    """Returns the fenced programs in a language, with the lines of the block after "It prints", or None."""
    found = []
    for part in text.split(f"```{language}\n")[1:]:
        block, _, after = part.partition("\n```")
        said = re.match(r"\s*It prints[^\n]*\n\n((?:    .*\n)+)", after)
        found.append((block, textwrap.dedent(said[1]).splitlines() if said else None))
    return found


def commented(block):
    """Returns what the comments of a program in Python say that it prints."""
    return [it.partition(":")[0].strip() for it in re.findall(r"(?m)^[^#\n]*\bprint\(.*\)\s+# (.*)$", block)]


def at_port(block, port):
    """Returns a block whose server is at another port than 7687."""
    return re.sub(r"\b7687\b", str(port), block)


def commands(text):
    """Returns the lines of the page's blocks in which a shell may run a file of the repository."""
    return [line for block in unmarked(text) if not is_python(block) for line in block.split("\n")]


def files(text):
    """Returns the words of a line for a shell that name a file of the repository, such as ./demo or scripts/gate."""
    folders = "|".join(FOLDERS)
    found = re.findall(rf"(?<![\w./-])(\./[\w./-]+|(?:{folders})/[\w./-]+)", text.partition(" # ")[0])
    return [it.rstrip(".") for it in found]


def examples(source):
    """Returns the blocks of Rust in the doc comments of a source file."""
    lines = (line.strip() for line in source.split("\n"))
    return blocks("\n".join(line.removeprefix("///").removeprefix(" ") if line.startswith("///") else ""
                            for line in lines), "rust")


def is_lines_of(block, source):
    """Returns true if the source has the lines of the block one after another, at any indentation."""
    wanted, lines = block.split("\n"), source.split("\n")
    # Most positions are ruled out by their first line.
    starts = (at for at, line in enumerate(lines) if line.strip() == wanted[0].strip())
    return any(textwrap.dedent("\n".join(lines[at:at + len(wanted)])) == block for at in starts)


def inline(text, start):
    """Returns the code in double backquotes that begins so, or None."""
    found = re.search(rf"``({re.escape(start)}.*?)``", text)
    return found and found[1]


def answer(text):
    """Returns the bytes that the page has `bolt answer` read, and the lines that it prints for them."""
    command, _, after = text.partition("answer 6060B017")[2].partition("\n")
    lines = [line.strip() for line in after.split("\n") if line.startswith("    ")][:2]
    return ["6060B017" + command, *lines]


def talk(text):
    """Returns the requests that the page gives `bolt shell`, and what it prints for them."""
    found = re.search(r"printf '([^']*)' \| [^\n]*\bshell\b", text)
    requests = found[1].replace("\\n", "\n") if found else ""
    return requests, "".join(f"{line.strip()}\n" for line in text.split("\n") if line.startswith("    heard "))


def crate_rows(text):
    """Returns the names in the table of crates of MAP.md, in its order."""
    table = text.partition("\n| crate |")[2].partition("\n\n")[0]
    return re.findall(r"(?m)^\| `(\w+)` \|", table)


def crates():
    """Returns the crates of crates.txt in their order, each with the libraries that it uses."""
    lines = [line.partition(":") for line in read("crates.txt").split("\n") if not line.startswith("#")]
    return {name.split()[0]: libraries.split() for name, _, libraries in lines if name}


def sentences(text):
    """Returns the sentences of a page without its code. Each cell of a table and each item of a list is apart."""
    text = re.sub(r"(?ms)^```.*?^```$|^    .*?$", "", text)
    parts = re.split(r"\n\s*\n|\n(?=[-|#>])|\n\d+\. |(?<!\\)\|", text)
    return [it.strip() for part in parts for it in re.split(r"(?<=[.!?:;])\s+(?=[A-Z`*])", part.replace("\n", " "))
            if it.strip(" -#>*")]


def anchors(text):
    """Returns the names of a page's headings, as links have them."""
    return {re.sub(r"[^\w\- ]", "", it).strip().lower().replace(" ", "-") for it in re.findall(r"(?m)^#+ (.*)$", text)}


def links(text):
    """Returns the targets of a page's links."""
    return re.findall(r"\]\(([^)\s]+)\)", text)


def is_dead(name, target):
    """Returns true if a link of the page to a file of the repository, or to a heading, leads nowhere."""
    file, _, anchor = target.partition("#")
    path = ((ROOT / name).parent / file).resolve() if file else ROOT / name
    if "://" in target:
        return False
    return not path.exists() or bool(anchor) and anchor not in anchors(path.read_text(encoding="utf-8"))
