"""Sums of what a check reads of the built libraries below a crate.

A built library holds the modules that the prover made and checked, in `toolchain/checked.a`, and an interface without
bodies. Both are the same, byte for byte, if only comments differ. A module cites another one's items by their sums.
"""

import functools
import hashlib
import json
import mmap
import os
import re

# The parts of a function's proof that the kit makes. No other crate can see into the first two.
CODE = (".Code", ".TheLink")
THEOREM = {
    # (the sum of the cited code, then the statement's own)
    ".Statement": re.compile(rb"(\x05\.code|\tstatement)(?s:.{32})"),
    # (the sum of the cited statement, then those of the theorem itself)
    ".Met": re.compile(
        rb"(\n\.statement|\x03met|\x05\{met\})(?s:.{32})|(\x13met\.where\.unfolding)(?s:.{32}\x01.{32})"
    ),
}
# Lines of a library's list that hold sums of whole files.
SUMS = re.compile(rb"(?m)^(?:needs|over|checked|sum) .*\n")
# A sum of the bytes that follow it in a module's file.
DIGEST = re.compile(rb"(?m)^--@ digest .*\n")


class Library:
    """The modules of a built library, each with its sum."""

    def __init__(self, folder):
        self.folder = folder
        with open(f"{folder}/toolchain/checked.json", encoding="utf-8") as it:
            rows = [json.loads(row) for row in it.read().split("\n") if row]
        self.places = {row[0].removeprefix("part/"): (row[1], row[2]) for row in rows}
        with open(f"{folder}/toolchain/checked.a", "rb") as it:
            self.bytes = mmap.mmap(it.fileno(), 0, access=mmap.ACCESS_READ)
        # The sum of all modules, under a name that no module has.
        self.places[whole_name(os.path.basename(folder).removesuffix(".rlib"))] = self.places["sum/all"]
        self.known = {}

    def sum_of(self, module):
        """Returns a sum of what another crate's check can see of a module, or nothing if there is no such module."""
        if module not in self.places:
            return ""
        if module not in self.known:
            start, length = self.places[module]
            self.known[module] = hashlib.sha256(self.seen(module, self.bytes[start : start + length])).hexdigest()[:32]
        return self.known[module]

    def seen(self, module, text):
        """Returns a module's bytes without the sums of a function's code.

        The body of a function is private to its own proof: another function's proof cites the theorem `met`, which
        says that some code meets the contract. So a body that changed changes no other function's goals.
        """
        text = DIGEST.sub(b"", text)
        path, _, last = module.rpartition(".")
        if not self.is_function(path):
            return text
        if f".{last}" in CODE:
            return b""
        sums = THEOREM.get(f".{last}")
        return sums.sub(lambda it: it[1] or it[2], text) if sums else text

    def is_function(self, path):
        """Returns true if the kit made the modules at this path, for a function, and none is a file of proofs."""
        of_proofs, _, inside = path.partition("-proofs.")
        file = f"{self.folder}/lang/antt/proofs/{inside.replace('.', '/')}"
        is_made = all(f"{path}{it}" in self.places for it in CODE)
        has_contract = f"{of_proofs}-specs.contracts.{inside}" in self.places
        return is_made and has_contract and not any(os.path.exists(f"{file}/{it[1:]}.antt") for it in (*CODE, *THEOREM))


def whole_name(crate):
    return f"Rattle-{crate}:all"


@functools.cache
def library(folder, _written):
    """Returns the library in this folder, which was written at this time."""
    return Library(folder)


def library_of(crate):
    """Returns the built library of a crate."""
    return library(crate.rlib, os.stat(f"{crate.rlib}/format").st_mtime_ns)


def interface_of(crate):
    """Returns a sum of what the front end reads of the crates below this one."""
    total = hashlib.sha256()
    if crate.makes_rlib():
        read = [(it, ("interface", "below")) for it in crate.deps]
    else:
        # (for a program it reads the whole interface, and links the code, which no function's goals depend on)
        read = [(it, ("interface", "below", "lang/src")) for it in crate.below()]
    for it, parts in read:
        for file in [f"{it.rlib}/format", *files_in(f"{it.rlib}/{part}" for part in parts)]:
            with open(file, "rb") as opened:
                text = opened.read()
            text = SUMS.sub(b"", text) if os.path.basename(file) == "format" else text
            total.update(repr((it.name, os.path.relpath(file, it.rlib), text)).encode())
    return total.hexdigest()


def files_in(places):
    """Returns these files, and all files in these folders."""
    found = []
    for place in places:
        found += [place] if os.path.isfile(place) else []
        found += [f"{at}/{it}" for at, _, files in os.walk(place) for it in files]
    return sorted(found)


def whole_libraries(crate):
    """Returns a sum of all modules of each library below the crate."""
    return {whole_name(it.name): library_of(it).sum_of(whole_name(it.name)) for it in crate.below()}


def modules_read(kept, crate):
    """Returns the modules of libraries below the crate that checks over this kept folder loaded, each with its sum."""
    libraries = {it.name: library_of(it) for it in crate.below()}
    found = {}
    for file in files_in([kept]):
        if os.path.basename(file) == "judged-with-holes":
            with open(file, "rb") as it:
                pieces = it.read().split(b"Rattle-")[1:]
            for piece in pieces:
                name = "Rattle-" + piece[:400].decode("utf-8", "replace")
                library = libraries.get(re.match(r"Rattle-(\w*)", name)[1])
                # (after the name comes the length of the next one)
                while library and name and name not in library.places:
                    name = name[:-1]
                if library and name:
                    found[name] = library.sum_of(name)
    return found
