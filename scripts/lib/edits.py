"""Reads wrong bodies: the files `crates/NAME/wrong/*.edit`.

A file has lines `file: `, each followed by pairs of lines `old: ` and `new: `. Every old text has to be there once.
An edit changes the body of one function of src/, or the value of a constant there. It fails if it changes a contract,
a ghost item, an import, an attribute, a proof or the number of functions.

The wrong body of a law has a line `law: ` with the path of the law's function. It changes definitions in specs/, and at
most their bodies.
"""

import os
import re

from lib.functions import CONSTANT, frame_of
from lib.kit import rt
from lib.verdicts import OPEN, is_refusal, lies_in, places_of, told_of


class WrongBody:
    """A wrong body: its places in the files of the crate, and the functions that it is held to."""

    def __init__(self, file, crate, functions):
        self.file, self.name = file, f"{crate.name}/{os.path.relpath(file, f'{crate.folder}/wrong')}"
        self.places, self.functions, self.law, self.is_constant, self.texts = [], [], "", False, {}
        self.fault = self.read(crate, functions)

    def read(self, crate, functions):
        """Reads the file. Returns why its edit can't be tried, or nothing."""
        if not re.fullmatch(r"[\w-]+/[\w.-]+\.edit", self.name) or os.path.islink(self.file):
            return "NO EDIT: wrong/ holds files *.edit and nothing else"
        self.texts, why = rt.read_edit(self.file, crate.folder)
        if why:
            return f"CAN'T BE APPLIED: {why}"
        path, old, around = "", "", set()
        with open(self.file, encoding="utf-8") as it:
            for row in it.read().split("\n"):
                if row.startswith("file: "):
                    path = row.removeprefix("file: ").strip()
                elif row.startswith("law: "):
                    self.law = row.removeprefix("law: ").strip()
                elif row.startswith("old: "):
                    old = row.removeprefix("old: ")
                elif row.startswith("new:"):
                    new = row.removeprefix("new:").removeprefix(" ")
                    around.add(self.add(f"{crate.folder}/{path}", path, old, new, functions))
                elif row:
                    return f"BAD: a line is none of file:, law:, old: and new: {row[:80]}"
        return self.beyond(crate.folder) or self.held(around, functions)

    def beyond(self, folder):
        """Returns what the edit changes that no wrong body may change, or nothing."""
        for path, text in self.texts.items():
            with open(f"{folder}/{path}", encoding="utf-8") as it:
                before = it.read()
            if with_places(before, [it for it in self.places if it[0] == path]) != text:
                return f"BAD: it changes a text of {path} that it made itself"
            if path.startswith("specs/") and self.law:
                continue
            if not path.startswith("src/"):
                return f"BAD: it changes {path}, and not a body{' or a definition' if self.law else ''}"
            old, new = ([*dict.fromkeys(frame_of(it).split("\n"))] for it in (before, text))
            if frame_of(before) != frame_of(text):
                changed = [*(it for it in old if it not in new), *(it for it in new if it not in old)]
                row = next((it.strip() for it in changed), "the order of lines")
                return f"BAD: it changes more of {path} than bodies and values of constants: {row[:120]}"
        if self.law and not any(it.startswith("specs/") for it in self.texts):
            return "BAD: it has a law, and changes no definition"
        return ""

    def held(self, around, functions):
        """Finds the functions that the edit is held to. Returns why there are none, or nothing."""
        if self.law:
            self.functions = [it for it in functions if "::".join(it.path) == self.law]
            count = len(self.functions)
            return "" if count == 1 else f"BAD: the crate has {count} functions {self.law}"
        place = around.pop()
        if around or place is None:
            return "BAD: its places are not all in one function or constant"
        self.is_constant = isinstance(place, str)
        self.functions = [it for it in functions if it.names(place)] if self.is_constant else [place]
        return "" if self.functions else f"BAD: no function names {place}"

    def has_check_to_itself(self):
        return self.is_constant or bool(self.law)

    def add(self, file, path, old, new, functions):
        """Adds a place. Returns the function that holds it, or the name of the constant."""
        with open(file, encoding="utf-8") as it:
            text = it.read()
        if text.count(old) != 1:
            return None
        at = text.index(old)
        self.places.append((path, at, at + len(old), new))
        line = text.count("\n", 0, at)
        constant = CONSTANT.match(text.split("\n")[line])
        around = (it for it in reversed(functions) if it.file == path and it.first <= line <= it.last)
        return next(around, constant and constant[1])

    def hangs_on(self, others):
        """Returns true if a function of this wrong body hangs on a function of another one."""
        others = [two for it in others if it is not self for two in it.functions]
        return any(one.hangs_on(two) for one in self.functions for two in others)

    def lies_at(self, row):
        """Returns true if a row of a check names a place in a function of this wrong body."""
        return any(lies_in(it, file, line) for _, file, line, _ in places_of(row) for it in self.functions)

    def misses(self, crate, said):
        """Returns true if the proof of a function has an error about a name that isn't there."""
        return any(told_of(it, crate, said).missed for it in self.functions)

    def told(self, crate, said, others):
        """Returns the goal for which a check refuses this wrong body, and else why it surely doesn't refuse it.

        Both are empty if the check can't tell, because the function hangs on another wrong body of the check.
        """
        if self.law:
            return self.told_of_law(crate, said)
        mates = {it.cycle for body in others if body is not self for it in body.functions} - {""}
        told = [told_of(it, crate, said, it.cycle not in mates) for it in self.functions]
        goal = next((it.goal for it in told if it.goal), "")
        if goal or self.hangs_on(others):
            return goal, ""
        if all(it.is_proved() for it in told):
            return "", "NOT REFUSED: it is still proved with this edit"
        missed = next((it.missed for it in told if it.missed), "")
        return "", f"BAD: only a name is missed that it took away: {missed[:200]}" if missed else ""

    def told_of_law(self, crate, said):
        """Returns the same of a law's wrong body, whose goal or error is in the law, its proof or a file of lemmas."""
        law = self.functions[0]
        places = [*places_of(said)]
        errors = (it for it in places if it[1].startswith(("src/", "specs/")) and it[3].startswith("error"))
        unread = next((it[0] for it in errors), "")
        if unread:
            return "", f"BAD: it can't be read: {unread[:200]}"
        line = told_of(law, crate, said).line
        if not line.startswith(("not proved", "no proof")):
            return "", f"NOT REFUSED: {self.law}: {line[:200]}"
        told = [
            (row, is_refusal(text))
            for row, file, line, text in places
            if (file.startswith("proofs/") or lies_in(law, file, line)) and text.startswith(("error: ", *OPEN))
        ]
        goal = next((row for row, is_goal in told if is_goal), "")
        first = told[0][0][:200] if told else said[-200:]
        return goal, "" if goal else f"BAD: only a name is missed that it took away: {first}"


def with_places(text, places):
    """Returns a text with these places of it replaced."""
    for _, start, end, new in sorted(places, reverse=True):
        text = text[:start] + new + text[end:]
    return text


def files_of_wrong(folder):
    """Returns all files and links of a crate's folder wrong/."""
    walked = os.walk(f"{folder}/wrong")
    found = [(f"{at}/{it}", it in files) for at, inside, files in walked for it in [*files, *inside]]
    return sorted(it for it, is_file in found if is_file or os.path.islink(it))
