"""Keeps verdicts between runs on one machine, each by what it depends on.

A verdict depends on the text of its check: the wrong body, the function's proof, the definitions, lemmas and contracts
of the crate, without comments. It depends on the interfaces of the crates below, and on the modules of theirs that the
check read. The prover lists these modules, and a library holds them as they were checked. So a comment below changes
nothing, nor does another function's body. It also depends on the kit and on these scripts.
"""

import functools
import glob
import gzip
import hashlib
import json
import os
import re
import tempfile
import time

from lib.functions import without_comments
from lib.kit import sum_of, sums_of_kit
from lib.libraries import interface_of, library_of

# Seconds after which an unused mark goes, and the most bytes of all marks of a kind.
LONGEST, LARGEST = 60 * 86400, 200_000_000


def marks_of(kind):
    """Returns the folder that holds marks of a kind."""
    return f"{os.environ.get('XDG_CACHE_HOME') or os.path.expanduser('~/.cache')}/nalzhotur/{kind}"


def write_mark(file, content):
    """Writes a mark, so that another process reads all of it or nothing."""
    os.makedirs(os.path.dirname(file), exist_ok=True)
    with tempfile.NamedTemporaryFile("wb", dir=os.path.dirname(file), delete=False) as it:
        it.write(content)
    os.replace(it.name, file)


class Verdicts:
    """The kept verdicts of wrong bodies that were refused. `is_anew` is true if none is to be read."""

    def __init__(self, is_anew):
        self.folder, self.is_read = marks_of("refused"), not is_anew
        here = os.path.dirname(os.path.realpath(__file__))
        scripts = [f"{os.path.dirname(here)}/wrong_bodies", *sorted(glob.glob(f"{glob.escape(here)}/*.py"))]
        self.sums = [*sums_of_kit(), *map(sum_of, scripts)]
        self.of_set = functools.cache(self.is_same)

    def keys(self, trial):
        """Returns sums of what each wrong body depends on in the crate itself and in the interfaces below.

        The first is of its check beside others, the second of a check of the whole crate.
        """
        stripped = functools.cache(without_comments)
        first = repr([self.sums, trial.crate.said, interface_of(trial.crate)]).encode()
        keys = {}
        for body in trial.bodies:
            if not body.fault:
                keys[body] = []
                for room in (trial.room([body], body.functions, not body.law, {}), {**trial.texts, **body.texts}):
                    total = hashlib.sha256(first)
                    rows = [(path, stripped(path, text)) for path, text in sorted(room.items())]
                    total.update(repr([rows, [it.path for it in body.functions], body.law]).encode())
                    keys[body].append(total.hexdigest())
        return keys

    def text(self, keys, crate):
        """Returns what was printed of the wrong body when it was refused, or nothing."""
        files = [it for key in keys for it in glob.glob(f"{glob.escape(self.folder)}/{key}.*")] if self.is_read else []
        for file in files:
            try:
                with open(file, encoding="utf-8") as it:
                    text = it.read()
                if self.of_set(file.rpartition(".")[2], crate):
                    os.utime(file)
                    return text
            except OSError:
                continue
        return ""

    def is_same(self, name, crate):
        """Returns true if all modules of a set have the sums that they had."""
        libraries = {it.name: library_of(it) for it in crate.below()}
        file = f"{self.folder}/modules/{name}"
        try:
            with gzip.open(file, "rt", encoding="utf-8") as it:
                modules = json.load(it)
            os.utime(file)
        except (OSError, ValueError):
            return False
        named = {it: libraries.get(re.match(r"Rattle-(\w*)", it)[1]) for it in modules}
        return all(named[it] and named[it].sum_of(it) == wanted for it, wanted in modules.items())

    def add(self, keys, verdict):
        """Keeps the verdict on a wrong body that was refused, with the modules that its check read."""
        key, text = keys[verdict.is_alone], verdict.text
        content = json.dumps(verdict.modules, sort_keys=True).encode()
        name = hashlib.sha256(content).hexdigest()[:32]
        if not os.path.isfile(f"{self.folder}/modules/{name}"):
            write_mark(f"{self.folder}/modules/{name}", gzip.compress(content, mtime=0))
        write_mark(f"{self.folder}/{key}.{name}", text.encode())

    def prune(self):
        """Removes marks that no run used for long, and the oldest if all are too large. Returns count and size."""
        found, now = [], time.time()
        for at, _, files in os.walk(self.folder):
            for it in files:
                try:
                    stat = os.stat(f"{at}/{it}")
                    found.append((stat.st_mtime, stat.st_size, f"{at}/{it}"))
                except OSError:
                    continue
        found.sort()
        size = sum(it[1] for it in found)
        while found and (found[0][0] < now - LONGEST or size > LARGEST):
            size -= found[0][1]
            os.remove(found.pop(0)[2])
        return len(found), size
