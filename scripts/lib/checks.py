"""Checks wrong bodies: as many of a crate in one check of the prover as its functions allow.

A function is proved from the contracts of those that it calls. So a check takes the wrong bodies of many functions, and
gives all others a hole for a proof and no body. What it says of one wrong body doesn't depend on another one.

A law has its own check, without holes. So has a constant, which is refused if a function that names it is. If a
check has no line of a function, the whole crate is checked.
"""

import collections
import copy
import functools
import os
import re
import sys
import tempfile

from lib.edits import WrongBody, files_of_wrong, with_places
from lib.functions import BLOCK, FUNCTION, body_of, end_of, functions_of
from lib.kit import rt, run
from lib.libraries import modules_read, whole_libraries
from lib.verdicts import ENDED, Told, is_refusal, libraries_in, lies_in, modules_in, places_of, told_of

# Names that are imported together from a module.
GROUP = re.compile(r"use (\S+)\.\{([^}]*)\}")
# The end of the name of a copy, before its number.
COPY = "_body"

# What a check said, a row that says why it can't be read, and each wrong body as it was placed in the check.
Said = collections.namedtuple("Said", "text unread placed")
# Whether a wrong body is refused, what to print, which library modules the check read (None: it isn't sure), and
# whether it was a check of the whole crate.
Verdict = collections.namedtuple("Verdict", "is_refused text modules is_alone", defaults=[None, False])


class Trial:
    """The wrong bodies of a crate and the checks of them, over work that the checks keep for one another."""

    def __init__(self, crate, kept):
        self.crate, self.kept, self.solo = crate, kept, set()
        self.checks, self.seconds, self.taken, self.checked = 0, 0.0, 0, 0
        # The modules of libraries that checks of functions as they are read.
        self.modules = {}
        self.texts = texts_of(crate.folder)
        self.functions = functions_of(crate.folder)
        self.bodies = [WrongBody(it, crate, self.functions) for it in files_of_wrong(crate.folder)]
        self.stubs = {it: stub_of(self.texts[it.file].split("\n"), it) for it in self.functions}
        proofs = {it: whole_names(text) for it, text in self.texts.items() if it.endswith(".antt")}
        self.named = {it.proof_folder() for it in self.functions if is_named(it, proofs)}

    def holes(self, checked):
        """Returns the proof folders that get a hole in a check of these functions.

        No hole is for a method of a trait, or for a proof of which another file names a module.
        """
        checked = {it.proof_folder() for it in checked}
        holes = {it.proof_folder(): None for it in self.functions if not it.is_of_trait}
        return [it for it in holes if it not in checked | self.named]

    def room(self, bodies, checked, has_holes, copies):
        """Returns the texts of a copy of the crate with these wrong bodies, for a check of these functions.

        Each function with a hole for its proof gets the body `loop {}`, so the check doesn't walk what it calls. No
        line moves, so a place that the check names is one of the crate too. Copies of functions come last in a file.
        """
        texts, holes = dict(self.texts), self.holes(checked)
        changes = [it for body in bodies if body not in copies for it in body.places]
        if has_holes or all(is_empty(it) for it in checked):
            stubs = [stub for it, stub in self.stubs.items() if stub and it.proof_folder() in holes]
            # (a law may change a body too)
            changes += [it for it in stubs if not any(overlap(it, one) for one in changes)]
        for path in {it[0] for it in changes}:
            texts[path] = with_places(texts[path], [it for it in changes if it[0] == path])
        for body, it in copies.items():
            self.add_copy(texts, body, it)
        for folder in holes if has_holes else []:
            for file in ("Answers.antt", "Invariants.antt"):
                texts.pop(f"{folder}/{file}", None)
            texts[f"{folder}/Proof.antt"] = hole(self.crate.name, folder)
        return texts

    def add_copy(self, texts, body, it):
        """Adds a wrong body of a function that has another one in the check, as a function of another name.

        The copy comes last in its file, a method in a block of its own. It gets the proof files of the function.
        """
        of = body.functions[0]
        text = self.texts[of.file]
        rows = text.split("\n")
        start = sum(len(row) + 1 for row in rows[: of.first])
        places = [(path, begin - start, end - start, new) for path, begin, end, new in body.places]
        part = with_places("\n".join(rows[of.first : of.last + 1]), places)
        part = re.sub(rf"\bfn {of.name}\b", f"fn {it.name}", part, count=1)
        head = block_around(rows, of)
        made = texts[of.file].rstrip("\n")
        it.first = made.count("\n") + 2 + len(head)
        it.last, it.text = it.first + part.count("\n"), part
        texts[of.file] = "\n".join([made, "", *head, part, *(["}"] if head else []), ""])
        old, new = of.proof_folder(), it.proof_folder()
        for path in [path for path in self.texts if path.startswith(f"{old}/")]:
            proof = self.texts[path].replace(f"{old.replace('/', '.')}.", f"{new.replace('/', '.')}.")
            proof = proof.replace(f"contracts.{'.'.join(of.path)}.", f"contracts.{'.'.join(it.path)}.")
            texts[new + path.removeprefix(old)] = proof.replace(f"{of.name}_spec", f"{it.name}_spec")

    def can_be_copied(self, body):
        """Returns true if further wrong bodies of the function can be tried in copies of it."""
        it = body.functions[0]
        is_alone = not body.has_check_to_itself() and len(body.functions) == 1 and it.proof_folder() not in self.named
        is_plain = not it.is_of_trait and not it.cycle and it.name != "main" and "no_mangle" not in it.text
        is_new = not any(COPY in text and f"{it.name}{COPY}" in text for text in self.texts.values())
        return is_alone and is_plain and is_new and not it.names(it.name)

    def check(self, bodies, checked, has_holes=True):
        """Checks these functions with these wrong bodies."""
        copies = copies_of(bodies)
        with tempfile.TemporaryDirectory(prefix="wrong-") as room:
            write(room, self.room(bodies, checked, has_holes, copies))
            words = [rt.rtlib.RATTLE, "check", *self.crate.words(["--jobs", "1"], keeps=False), "--allow-holes"]
            words += ["--incremental", self.kept]
            for it in [*checked, *copies.values()]:
                words += ["--only", "::".join(it.path)]
            said, seconds = run(words, room)
        taken, made = modules_in(said, self.crate)
        self.checks, self.seconds = self.checks + 1, self.seconds + seconds
        self.taken, self.checked = self.taken + taken, self.checked + made
        changed = {it[0] for body in bodies for it in body.places}
        bad = (it for it in said.split("\n") if rt.unread(it, changed) or rt.rtlib.STALE.search(it))
        unread = next(bad, "")
        if not unread and not ENDED.search(said):
            errors = (row for row, _, _, text in places_of(said) if text.startswith("error"))
            unread = next(errors, said[-200:] or "nothing")
        placed = {it: placed_as(it, copies.get(it)) for it in bodies}
        return Said(said, unread.removeprefix("./"), placed)

    def unproved(self, bodies):
        """Returns those functions of these wrong bodies that aren't proved as they are, each with what a check says."""
        told = {}
        laws = {it.functions[0]: None for it in bodies if it.law}
        left = [*{it: None for body in bodies if not body.law for it in body.functions}]
        while left:
            alike = []
            for it in left:
                if not any(it.hangs_on(other) or other.hangs_on(it) for other in alike):
                    alike.append(it)
            self.look(alike, True, told)
            left = [it for it in left if it not in told]
        for law in laws:
            if law not in told:
                self.look([law], False, told)
        unproved = {it: one.goal or one.line for it, one in told.items() if not one.is_proved()}
        if any(it.startswith("the check has") for it in unproved.values()):
            # If the check has no line of a function, a check of the whole crate decides.
            text = "".join(self.whole({}))
            unproved = {it: text for it in unproved if text}
        return {it: unproved[one] for it in bodies for one in it.functions if one in unproved}

    def look(self, checked, has_holes, told):
        """Adds what a check says of these functions as they are."""
        said = self.check([], checked, has_holes).text
        self.modules.update(modules_read(self.kept, self.crate))
        holes = self.holes(checked) if has_holes else []
        for it in checked:
            row = self.own_hole(it, said, holes)
            told[it] = Told(row, "", "") if row else told_of(it, self.crate, said)

    def own_hole(self, function, said, holes):
        """Returns the row of a hole in the function's own proof or in a file of lemmas, or nothing."""
        places = [(row, file) for row, file, _, text in places_of(said) if text.endswith("is not admitted: has-holes")]
        own = function.proof_folder()
        others = {f"{it.proof_folder()}/" for it in self.functions if it.proof_folder() != own}
        known = (*others, *(f"{it}/" for it in holes))
        return next((row for row, file in places if not file.startswith(known)), "")

    def whole(self, texts):
        """Checks the whole crate with these texts. Returns why it can't tell, and the goal that refuses it."""
        said = rt.checked(self.crate, texts, ["--jobs", "1"], f"{self.kept}-whole").stdout
        self.checks += 1
        rows = said.rstrip("\n").split("\n")
        unread = next((it for it in rows if rt.unread(it, texts) or rt.rtlib.STALE.search(it)), "")
        if unread or not rows[-1].startswith(("logic=proved", "logic=not-proved")):
            return f"it can't be read: {(unread or rows[-1])[:200]}", ""
        if rows[-1].startswith("logic=proved"):
            return "", ""
        goal = next((row for row, _, _, text in places_of(said) if is_refusal(text)), "")
        return "" if goal else "only a name is missed that it took away", goal

    def batch(self, first, left):
        """Chooses wrong bodies for one check.

        A law or a constant has a check to itself. One of `first` goes without the others on which it hangs. Further
        wrong bodies of a function go into copies of it.
        """
        batch, is_one = [], lambda it: it.has_check_to_itself() or it in self.solo
        for it in [*first, *left]:
            is_taken = any(one.functions == it.functions or is_one(one) or is_one(it) for one in batch)
            hangs = it.hangs_on(batch) and it in first or any(one.hangs_on([it]) for one in batch if one in first)
            if not is_taken and not hangs:
                batch.append(it)
        if is_one(batch[0]):
            return batch
        for it in left:
            is_free = it not in batch and it not in first and not is_one(it) and self.can_be_copied(it)
            is_further = any(one.functions == it.functions for one in batch)
            if is_free and is_further and not any(one.hangs_on([it]) for one in batch if one in first):
                batch.append(it)
        return batch

    def run(self, asked, is_checked_first):
        """Returns the verdict on each of these wrong bodies."""
        verdicts = {it: Verdict(False, it.fault) for it in asked if it.fault}
        left = [it for it in asked if not it.fault]
        if is_checked_first and left:
            for it, row in self.unproved(left).items():
                verdicts[it] = Verdict(False, f"NOT PROVED AS IT STANDS: {row[:200]}")
        # Laws come last, because what a check keeps for others hangs on the definitions.
        again, left = [], sorted((it for it in left if it not in verdicts), key=lambda it: bool(it.law))
        while left:
            batch = self.batch(again, left)
            checked = [*{it: None for body in batch for it in body.functions}]
            said = self.check(batch, checked, not batch[0].law)
            if is_cut(said):
                # The system may have killed it for memory. What it kept serves the second try.
                print(f"{self.crate.name}: a check ended without a verdict, once more: {said.unread}", file=sys.stderr)
                said = self.check(batch, checked, not batch[0].law)
            if said.unread:
                at_fault = [it for it in batch if len(batch) == 1 or said.placed[it].lies_at(said.unread)]
                text = f"BAD: it can't be read: {said.unread[:200]}"
                verdicts.update({it: Verdict(False, text) for it in at_fault})
                self.solo.update([] if at_fault else batch)
            else:
                self.judge(batch, said, verdicts, again)
            left = [it for it in left if it not in verdicts]
            again = [it for it in again if it not in verdicts]
        return verdicts

    def judge(self, batch, said, verdicts, again):
        """Adds the verdicts of a check that could be read, and to `again` what has to be tried without the others."""
        others = [*said.placed.values()]
        modules = functools.cache(lambda: modules_of(self.kept, self.crate, said.text, self.modules))
        for it in batch:
            placed = said.placed[it]
            goal, why = placed.told(self.crate, said.text, others)
            if placed is not it and (why.startswith("BAD") or goal and placed.misses(self.crate, said.text)):
                # A copy that misses a name may miss its own old name: the function itself has to tell.
                again.append(it)
            elif goal or why:
                goal = restored(goal, placed.functions[0], it.functions[0])
                verdicts[it] = Verdict(bool(goal), f"refused: {goal[:200]}" if goal else why, modules())
            elif placed.hangs_on(others):
                again.append(it)
            else:
                verdicts[it] = self.alone(it)

    def alone(self, body):
        """Returns the verdict of a check of the whole crate."""
        why, row = self.whole(body.texts)
        if row:
            return Verdict(True, f"refused alone: {row[:200]}", whole_libraries(self.crate), True)
        return Verdict(False, f"BAD: {why}" if why else "NOT REFUSED: the crate is still proved with this edit")


def is_cut(said):
    """Returns true if a check ended before its last line, without an error that says why."""
    return not ENDED.search(said.text) and not any(text.startswith("error") for _, _, _, text in places_of(said.text))


def texts_of(folder):
    """Returns the texts of a crate's code, definitions and proofs, by path."""
    texts = {}
    for part in rt.rtlib.PARTS:
        for at, _, files in os.walk(f"{folder}/{part}"):
            for file in files:
                with open(f"{at}/{file}", encoding="utf-8", newline="") as it:
                    texts[os.path.relpath(it.name, folder)] = it.read()
    return texts


def write(room, texts):
    """Writes texts into files of a folder."""
    for path, text in texts.items():
        os.makedirs(os.path.dirname(f"{room}/{path}"), exist_ok=True)
        with open(f"{room}/{path}", "w", encoding="utf-8", newline="") as it:
            it.write(text)


def whole_names(text):
    """Returns a text, and the whole name of each item that it imports in a group."""
    named = (f"{module}.{it.strip()}" for module, names in GROUP.findall(text) for it in names.split(","))
    return "\n".join([text, *named])


def is_named(function, proofs):
    """Returns true if a file of specs or proofs outside the function's own folder names a module of its proof."""
    folder = function.proof_folder()
    modules = (".".join(["proofs", *function.path, ""]), folder.replace("/", ".") + ".")
    return any(it in text for path, text in proofs.items() if not path.startswith(f"{folder}/") for it in modules)


def is_empty(function):
    """Returns true if the function has no code, as a law."""
    return function.text.endswith("\n{}") or function.text.endswith(" {}")


def hole(crate, folder):
    """Returns the text of a proof that is a hole."""
    name = os.path.basename(folder)
    module = f"Rattle.{crate}.{folder.replace('/', '.')}{'' if name.startswith('+') else '.Statement'}"
    return f"use {module}.{{statement}}\n\npub {name}_spec : {{M : Type 1}} → statement M\n{name}_spec = ?\n"


def stub_of(rows, function):
    """Returns the place of a function's body with `loop {}` for it, or nothing if the body has to stay."""
    at = next(n for n in range(function.first, function.last + 1) if FUNCTION.match(rows[n]))
    first, last = body_of(rows, at, FUNCTION.match(rows[at])[1])
    if first is None or last <= first or rows[first].count("{") != 1:
        return None
    if "const fn" in rows[at] or function.is_of_trait or function.cycle:
        return None
    start = sum(len(it) + 1 for it in rows[:first]) + rows[first].index("{")
    end = sum(len(it) + 1 for it in rows[: last + 1]) - 1
    return function.file, start, end, "{ loop {} }" + "\n" * (last - first)


def overlap(one, two):
    """Returns true if two places of files overlap."""
    return one[0] == two[0] and one[1] < two[2] and two[1] < one[2]


def block_around(rows, function):
    """Returns the lines of the head of the block that the function is in, and what it uses there, or none."""
    for at in range(function.first, -1, -1):
        opens = BLOCK.match(rows[at])
        if opens:
            body = next(n for n in range(at, len(rows)) if "{" in rows[n])
            used = [row for row in rows[body + 1 : function.first] if row.startswith(f"{opens[1]}    ghost use ")]
            return [*rows[at : body + 1], *used] if end_of(rows, body, opens[1]) >= function.last else []
    return []


def copies_of(bodies):
    """Returns the copies for those wrong bodies whose function has another one before them."""
    counts, copies = collections.Counter(), {}
    for body in bodies:
        of = body.functions[0]
        counts[of] += 1
        if counts[of] > 1:
            it = copies[body] = copy.copy(of)
            it.name = f"{of.name}{COPY}{counts[of]}"
            it.path = [*of.path[:-1], it.name]
    return copies


def placed_as(body, function):
    """Returns the wrong body as it was placed: in its own functions, or in this copy."""
    if function is None:
        return body
    placed = copy.copy(body)
    placed.functions = [function]
    return placed


def restored(row, made, of):
    """Returns a row of a check about a copy of a function, with the place in the function itself."""
    if made is of or not row:
        return row
    if row.startswith(f"{made.proof_folder()}/"):
        return of.proof_folder() + row.removeprefix(made.proof_folder())
    for row, file, line, _ in places_of(row):
        if lies_in(made, file, line):
            return row.replace(f"{file}:{line}:", f"{file}:{line - made.first + of.first}:", 1)
    return row


def modules_of(kept, crate, said, others):
    """Returns the modules of libraries that the check read, and these others, or nothing if they aren't sure."""
    found, libraries = {**others, **modules_read(kept, crate)}, libraries_in(said)
    for it in crate.below():
        taken, checked = libraries.get(it.name, (0, 0))
        if checked or taken > sum(name.startswith((f"Rattle-{it.name}-", f"Rattle-{it.name}.")) for name in found):
            return None
    return found
