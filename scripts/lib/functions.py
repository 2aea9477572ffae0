"""Finds the functions in the source files of a crate, as `rt fmt` lays them out."""

import glob
import itertools
import os
import re

VISIBLE = r"(?:pub(?:\([^)]*\))? )?"
FUNCTION = re.compile(rf"( *){VISIBLE}(?:const |unsafe |extern \"C\" )*fn (\w+)")
BLOCK = re.compile(rf"( *){VISIBLE}(?:unsafe )?(impl|trait)\b")
TYPE = re.compile(rf"(?m)^{VISIBLE}(?:struct|enum) (\w+)")
CONSTANT = re.compile(rf"{VISIBLE}const (\w+):")
# A clause or a ghost item in a body, or a function or an attribute of its own: what is not the body's code.
GHOST = re.compile(r"\b(?:ghost|requires|ensures)\b.*|\bfn \w+|#!?\[.*")
# A constant with its value.
VALUE = re.compile(rf"(?ms)^( *{VISIBLE}const \w+:[^=;]*=)(.*?);$")
# A literal or a comment of Rattle.
LITERAL_OR_COMMENT = re.compile(
    r"""r(?P<hashes>\#*)".*?"(?P=hashes)|"(?:[^"\\]|\\.)*"|'(?:[^'\\\n]|\\(?:u\{\w+\}|x\w\w|.))'"""
    r"""|(?P<comment>//[^\n]*|/\*.*?\*/)""",
    re.DOTALL,
)


class Function:
    """A function: its file, its lines with its attributes, and its path as a check prints it."""

    def __init__(self, file, rows, at, block):
        indent, name = FUNCTION.match(rows[at]).groups()
        self.file, self.name, self.first = file, name, at
        while rows[self.first - 1].startswith(f"{indent}#["):
            self.first -= 1
        self.last = end_of(rows, at, indent)
        head = rows[self.first : at]
        self.cycle = next((it.strip()[8:-2] for it in head if it.strip().startswith("#[cycle(")), "")
        self.is_of_trait, self.type, owner = block or (False, "", "")
        self.path = [*module_of(file), *([owner] if owner else []), name]
        self.text = "\n".join(rows[self.first : self.last + 1])
        # The module of the proof that the functions of its cycle of calls share.
        self.home = module_of(file)

    def lies_in(self, module):
        """Moves the function into another module's path, that of its type."""
        self.path[: len(module_of(self.file))] = module

    def proof_folder(self):
        """Returns the folder of the function's proof. The functions of a cycle of calls share one."""
        return "/".join(["proofs", *([*self.home, f"+{self.cycle}"] if self.cycle else self.path)])

    def names(self, name):
        """Returns true if the function's text has this name, besides the function's own head."""
        return bool(re.search(rf"\b{name}\b", self.text.replace(f"fn {self.name}", "")))

    def hangs_on(self, other):
        """Returns true if both are one function, or lie in one cycle of calls, or this one calls the other."""
        return self is other or "" != self.cycle == other.cycle or self.names(other.name)


def body_of(rows, at, indent):
    """Returns the line on which the body of the function at this line opens, and its last line."""
    last = end_of(rows, at, indent)
    clauses = next((n for n in range(at, last + 1) if re.match(r"\s*(?:requires|ensures)\b", rows[n])), last + 1)
    for n in range(at, last + 1):
        if rows[n] in (f"{indent}{{", f"{indent}{{}}") or n < clauses and rows[n].endswith(("{", "}")):
            return n, last
    return None, last


def end_of(rows, at, indent):
    """Returns the line that closes what opens at this line. It may be the same line."""
    closes = lambda row: row == f"{indent}}}" or row.endswith("{}") and re.match(rf"{indent}\S", row)
    return next((n for n in range(at, len(rows)) if closes(rows[n])), at)


def is_closed(rows):
    """Returns true if the rows of a body end at the brace that closes it, and not before."""
    code = re.sub(r"\"(?:[^\"\\]|\\.)*\"|'(?:[^'\\]|\\.)'|//.*", "", "\n".join(rows))
    code = code[code.find("{") :]
    depths = [*itertools.accumulate((it == "{") - (it == "}") for it in code)]
    return 0 not in depths[:-1] and depths[-1] == 0


def frame_of(text):
    """Returns what no wrong body may change in a source file: all but code of bodies and values of constants."""
    rows, frame, at = text.split("\n"), [], 0
    while at < len(rows):
        opens = FUNCTION.match(rows[at])
        first, last = body_of(rows, at, opens[1]) if opens else (None, at)
        if first is None:
            frame.append(rows[at])
            at += 1
            continue
        head, _, inside = rows[first].partition("{")
        ghosts = GHOST.findall("\n".join([inside, *rows[first + 1 : last + 1]]))
        frame += [*rows[at:first], f"{head}{{}}", *(it.strip() for it in ghosts)]
        frame += [] if is_closed(rows[first : last + 1]) else ["a body that ends before its last line"]
        at = last + 1
    return VALUE.sub(lambda it: f"{it[1]} {' '.join(GHOST.findall(it[2]))};", "\n".join(frame))


def module_of(file):
    """Returns the path of the module that a source file holds."""
    inside = file.removeprefix("src/").removesuffix(".rt").removesuffix("/mod")
    return [] if inside in ("lib", "main") else inside.split("/")


def word_of(of_type):
    """Returns the word of a reference or a slice in a path, as RefSliceU8 of &[u8]."""
    words = {"&": "Ref", "[": "Slice"}
    return "".join(words.get(it, it[:1].upper() + it[1:]) for it in re.findall(r"[&\[]|(?<!')\b\w+", of_type))


def block_of(head):
    """Reads the head of an `impl` or a trait: whether its methods are a trait's, its type, and its word in a path."""
    words = head.replace("->", "").partition("{")[0].partition(" where ")[0].split("impl", 1)[-1]
    if words.startswith("<"):
        depth = [words[: n + 1].count("<") - words[: n + 1].count(">") for n in range(len(words))]
        words = words[depth.index(0) + 1 :]
    of_trait, is_for, of_type = words.rpartition(" for ")
    found = re.search(r"(\w+)\s*(?:<.*)?$", re.sub(r"<.*", "", of_type.replace("trait ", "")).strip())
    name = found[1] if found else word_of(of_type)
    if not is_for:
        return "trait " in head.partition("{")[0], name, name
    trait = re.search(r"(\w+)(?:<(\w+).*>)?$", of_trait.strip())
    return True, name, name + trait[1] + (trait[2] or "")


def functions_of(folder):
    """Returns the functions of the crate in this folder, without those of its tests."""
    found, homes, tests, files = [], {}, set(), {}
    for it in sorted(glob.glob(f"{glob.escape(folder)}/src/**/*.rt", recursive=True)):
        with open(it, encoding="utf-8") as lines:
            files[os.path.relpath(it, folder)] = lines.read()
    for file, text in files.items():
        homes.update({it: module_of(file) for it in TYPE.findall(text)})
        tests |= {(*module_of(file), it) for it in re.findall(r"#\[cfg\(test\)\]\s*(?:pub )?mod (\w+);", text)}
    for file, text in files.items():
        if tuple(module_of(file)) in tests:
            continue
        rows, ends, block = text.split("\n"), -1, None
        for at, row in enumerate(rows):
            opens = BLOCK.match(row)
            if opens:
                body = next(n for n in range(at, len(rows)) if "{" in rows[n])
                ends = end_of(rows, body, opens[1])
                block = block_of(" ".join(it.strip() for it in rows[at : body + 1]))
            if FUNCTION.match(row):
                found.append(Function(file, rows, at, block if at <= ends else None))
    # A method has the path of its type, wherever its block is. A trait's method has the path of its block.
    for it in found:
        if it.type in homes and not it.is_of_trait:
            it.lies_in(homes[it.type])
        above = [it.home[:n] for n in range(len(it.home), -1, -1)]
        kept = (home for home in above if os.path.isdir("/".join([folder, "proofs", *home, f"+{it.cycle}"])))
        it.home = next(kept, it.home)
    return found


def without_comments(path, text):
    """Returns the lines of a file that say something: no comments, no empty lines, no spaces at the end of a line."""
    if path.endswith(".rt"):
        # (a line break in a literal stays apart from the breaks between lines)
        text = LITERAL_OR_COMMENT.sub(lambda it: " " if it["comment"] else it[0].replace("\n", "\0"), text)
    elif not any(it.count('"') % 2 for it in text.split("\n")):
        text = "\n".join(it for it in text.split("\n") if not re.match(r"\s*--(?: |$)", it))
    return "\n".join(it.rstrip() for it in text.split("\n") if it.strip())
