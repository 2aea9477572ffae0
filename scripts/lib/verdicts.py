"""Reads what a check of the prover says of functions.

A wrong body is refused if the check says that its function isn't proved, and reports an open goal in the lines of that
function or an error in the function's own proof. For a law the goal or error may be in the lemmas that it cites too.
An error that only says that a name isn't there refuses nothing. Neither does a text that can't be read.
"""

import collections
import re

# A line of a check about a function, and one about a place in a file.
VERDICT = re.compile(r"(?m)^fn (\S+?): (.*)")
PLACE = re.compile(r"(?:note: )?(?:\./)?(\S+?):(\d+):\d+: (.*)")
# How a check reports an open goal.
OPEN = ("it is not proved that ", "`search` found no proof")
# An error of a proof about a name that isn't there, or about a cited item that was refused. An edit can cause such an
# error by taking a name away, so it says nothing about the contract.
NAMES = re.compile(
    r"has no (?:field|constructor|module|projection|item|`)|\((?:nearest|did you mean)[: ]|(?:is|are) not in scope"
    r"|was not admitted|stands by its signature alone|projects from a record, but|is no (?:name|module|child of)"
    r"|is not a (?:name|module|constructor)|names (?:nothing|no )|no (?:module|item) (?:is found|has that path)"
    r"|no line brings it in|cannot be named|is private to|not found: `"
)
# How a check reports a proof that cites a refused one.
CITES = re.compile(r"error: \d+ declarations? that depends? on `")
# How a check ends that asked for some functions, and its counts of modules.
ENDED = re.compile(r"(?m)^only=\d+ holes=")
COUNTS = re.compile(r"(?m)^(\w+) (\w+): modules loaded=(\d+) checked=(\d+)$")


class Told(collections.namedtuple("Told", "goal line missed")):
    """A check's report on a function: the goal or error that refuses it, its line, and an error about names alone."""

    def is_proved(self):
        return not self.goal and self.line.startswith(("no holes", "depends on a hole in"))


def places_of(said):
    """Yields the rows of a check that name a place, each with its file, its line and its text."""
    for row in said.split("\n"):
        place = PLACE.match(row)
        if place:
            yield row.removeprefix("note: ").removeprefix("./"), place[1], int(place[2]), place[3]


def is_refusal(text):
    """Returns true if a line of a check reports an open goal, or an error that isn't about names alone."""
    if text.startswith(OPEN):
        return True
    said = re.sub(r"`[^`]*`", "``", text.removeprefix("error: "))
    return text.startswith("error: ") and not CITES.match(text) and not NAMES.search(said)


def lies_in(function, file, line):
    """Returns true if this line of a file, counted from 1, is one of the function's."""
    return file == function.file and function.first < line <= function.last + 1


def told_of(function, crate, said, has_proof=True):
    """Returns what a check says of a function. `has_proof` is false if its proof also holds another wrong body."""
    path = "::".join([crate.name, *function.path])
    lines = [text for name, text in VERDICT.findall(said) if name == path]
    if len(lines) != 1:
        return Told("", f"the check has {len(lines)} lines of this function", "")
    if not lines[0].startswith(("not proved", "no proof")):
        return Told("", lines[0], "")
    missed = ""
    for row, file, line, text in places_of(said):
        is_open = lies_in(function, file, line) and text.startswith(OPEN)
        is_own = has_proof and file.startswith(f"{function.proof_folder()}/") and text.startswith("error: ")
        if is_open or is_own and is_refusal(text):
            return Told(row, lines[0], missed)
        missed = missed or row * is_own
    return Told("", lines[0], missed)


def modules_in(said, crate):
    """Returns how many of the crate's own modules a check took from kept work, and how many it checked."""
    return next(((int(it[2]), int(it[3])) for it in COUNTS.findall(said) if it[:2] == ("crate", crate.name)), (0, 0))


def libraries_in(said):
    """Returns the libraries of which a check read modules, each with how many it took and how many it checked."""
    return {it[1]: (int(it[2]), int(it[3])) for it in COUNTS.findall(said) if it[0] != "crate"}
