#!/usr/bin/env python3
"""Drives the built programs `test_player` and `bolt` by random events, damaged bytes and refused allocations.

usage: fuzz/fuzz.py [SECONDS [SEED]]      60 seconds of processor time, from seed 1

It stops with a line and status 1 if
- a report isn't what clients may rely on, also with allocations refused from the first event on,
- a program ends by a signal, with a status over 3, or not within ten seconds of processor time,
- a client uses no damaged bytes, or goes on after a bad answer,
- a value decoded from damaged bytes isn't the same after encoding.
"""
import contextlib
import os
import pathlib
import random
import resource
import signal
import socket
import subprocess
import sys
import tempfile
import threading

ROOT = pathlib.Path(__file__).resolve().parent.parent
sys.path.insert(0, str(ROOT))
sys.dont_write_bytecode = True

from tests.data import shells  # noqa: E402
from tests.lib import model, plays, preloads, programs  # noqa: E402

HANDSHAKE = "6060B01700000105" + "00" * 12
# A RUN of 65,536 bytes in two chunks, with a list of 65,524 small numbers: no request of its length takes more memory.
DEAREST = "FFFFB31080A18178D60000FFF4" + "01" * 65_524 + "0001A00000"
EVENTS = 400
# Of so many allocations in a row before the first event, each play needs one: it doesn't begin if that is refused.
TOLERATED = 2
# How many seconds of processor time a program may take, and after how many seconds by the clock it counts as blocked.
LONGEST, BLOCKED = 10, 300


class Fault(Exception):
    """A run that went wrong."""


def processor_time():
    """Returns the seconds of processor time that this process and its ended children used."""
    used = [resource.getrusage(who) for who in (resource.RUSAGE_SELF, resource.RUSAGE_CHILDREN)]
    return sum(it.ru_utime + it.ru_stime for it in used)


def ended(program, words, settings, asked=""):
    """Runs a program to its end. Returns what it printed, and its status, which is 0 to 3."""
    command = [str(programs.built(program)), *words]
    with subprocess.Popen(command, stdin=subprocess.PIPE, stdout=subprocess.PIPE, stderr=subprocess.DEVNULL,
                          text=True, env={**os.environ, **settings}) as process:
        with contextlib.suppress(ProcessLookupError):
            resource.prlimit(process.pid, resource.RLIMIT_CPU, (LONGEST, LONGEST + 1))
        try:
            told, _ = process.communicate(asked, timeout=BLOCKED)
        except subprocess.TimeoutExpired:
            process.kill()
            raise Fault(f"{command} isn't at its end after {BLOCKED} seconds") from None
    if process.returncode in (-signal.SIGXCPU, -signal.SIGKILL):
        raise Fault(f"{command} takes more than {LONGEST} seconds of processor time")
    if not 0 <= process.returncode <= 3:
        raise Fault(f"{command} ends with status {process.returncode}")
    return told, process.returncode


class Fuzz:
    """Runs by seed, and how much of them was played."""

    def __init__(self):
        self.machine = model.Machine(programs.built("test_player"))
        self.allocations = preloads.Allocations()
        # Plays, those of them with refused allocations, and the events of all.
        self.plays, self.refusing, self.events = 0, 0, 0
        # About how many allocations were refused from the first events on.
        self.refused = 0

    def __enter__(self):
        return self

    def __exit__(self, *_):
        self.allocations.close()

    def run(self, seed):
        """Does all that belongs to a seed. Raises a Fault that names the seed."""
        odds = (0, 0, 100, 7)[seed % 4]
        settings = {"LD_PRELOAD": str(self.allocations.library), "ODDS": str(odds), "CHANCE": str(seed)} if odds else {}
        try:
            self.plays_events(seed, odds, settings)
            self.hears_torn(seed, settings)
            self.feeds_torn(seed, settings)
            self.reads_torn(seed, settings)
        except Fault as fault:
            raise Fault(f"seed {seed}: {fault}") from None

    def plays_events(self, seed, odds, settings):
        """Plays random events, and checks each report. If allocations are refused, they are from the first event on."""
        script = plays.Chance(seed).script(EVENTS)
        # `replay`, by which `mixed` ends, has no chance if one allocation in seven is refused. `brought` leaves it out.
        asked = f"{'brought' if odds == 7 else 'mixed'} 32\n{script}"
        if odds:
            told = self.played_refusing(asked, odds, settings)
        else:
            told, status = ended("test_player", [], {}, asked)
            if status:
                raise Fault(f"the play ends with status {status}")
        if not told.endswith("\n.\n"):
            raise Fault(f"the play ends with {told[-200:]!r}")
        if odds:
            # Each try of `replay` may find an allocation refused.
            told = told.replace("not replayed\n", "")
        play, reports = model.Play(script), 0
        for number in play.goes(told.removesuffix(".\n")):
            reports += 1
            if fault := model.fault_in(self.machine, play):
                raise Fault(f"after line {number}: {fault}")
        if reports < EVENTS // 32:
            raise Fault(f"{reports} reports on {EVENTS} events")
        self.plays, self.refusing, self.events = self.plays + 1, self.refusing + bool(odds), self.events + EVENTS

    def played_refusing(self, asked, odds, settings):
        """Returns the output of a play that is refused allocations from its first event on."""
        # It is also refused some from the start of the program on. Then it may not begin.
        told, status = ended("test_player", [], settings, asked)
        if status == 0 and told != "not begun\n" and not told.endswith("\n.\n"):
            raise Fault(f"the play refused from its start on ends with {told[-200:]!r}")
        after = self.begins(asked)
        for _ in range(100):
            told, status, asked_for = self.counted(asked, settings, AFTER=str(after))
            if status:
                raise Fault(f"the play ends with status {status}")
            if told != "not begun\n":
                self.refused += max(0, asked_for - after) // odds
                return told
            # An allocation before the first event was refused after all.
            after = max(after + 1, asked_for)
        raise Fault("the play doesn't begin")

    def counted(self, asked, settings=(), **more):
        """Plays under the library.

        Returns the output, the status, and how many allocations were asked for, or 0 if that isn't known.
        """
        self.allocations.count.unlink(missing_ok=True)
        settings = {"LD_PRELOAD": str(self.allocations.library), "COUNT": str(self.allocations.count), **dict(settings)}
        told, status = ended("test_player", [], {**settings, **more}, asked)
        # The library can't write its counts if its own allocation for the file is refused.
        known = self.allocations.count.exists()
        return told, status, int(self.allocations.count.read_text().split()[0]) if known else 0

    def begins(self, asked):
        """Returns how many allocations a play asks for before its first event.

        A play doesn't begin if one of the last of them is refused.
        """
        def is_before(number):
            """Returns whether a play doesn't begin that is refused one of the few allocations from this number on."""
            tries = (self.counted(asked, REFUSED=str(number + at))[:2] for at in range(TOLERATED))
            return any(status or told == "not begun\n" for told, status in tries)

        # A script whose last line can't be read doesn't begin either, after fewer allocations.
        least, step = self.counted(asked + "none\n")[2], 32
        while is_before(least + step):
            least, step = least + step, 2 * step
        most = least + step
        while least + 1 < most:
            middle = (least + most) // 2
            least, most = (middle, most) if is_before(middle) else (least, middle)
        return least + TOLERATED - 1

    def hears_torn(self, seed, settings):
        """Runs a shell whose server sends damaged bytes."""
        chance = random.Random(seed)
        version, *others = map(bytes.fromhex, shells.ANSWERS)
        answers = [version, *[plays.torn(chance, it) for it in others]]
        with socket.create_server(("127.0.0.1", 0)) as listener:
            server = threading.Thread(target=answer, args=(listener, answers), daemon=True)
            server.start()
            try:
                ended("bolt", ["shell", "127.0.0.1", str(listener.getsockname()[1])], settings,
                      "hello\nlogon\nrun ROWS A1816E03\npull 2\npull 2\n")
            finally:
                # The shell may have ended before it connected.
                with contextlib.suppress(OSError):
                    listener.shutdown(socket.SHUT_RDWR)
                server.join()

    def feeds_torn(self, seed, settings):
        """Feeds damaged bytes to clients in pieces."""
        chance = random.Random(seed)
        answers = bytes.fromhex("".join(shells.ANSWERS[1:]))
        asked = [f"hears {chance.randrange(1, 41)}\nforeign 0 {plays.torn(chance, answers).hex() or '00'}"
                 for _ in range(4)]
        told, status = ended("test_player", [], settings, "\n.\n".join(asked))
        lines, right = told.rstrip("\n").split("\n"), ["hears: held", *["hears: not begun"] * bool(settings)]
        if status == 0 and (len(lines) != len(asked) or any(it not in right for it in lines)):
            raise Fault(f"{asked}: {told!r}")
        if status and not settings:
            raise Fault(f"{asked}: status {status}")

    def reads_torn(self, seed, settings):
        """Gives the program damaged bytes as words."""
        chance = random.Random(seed)
        words = plays.torn(chance, chance.choice(plays.SAID)[2:-2] or b"\xA0").hex()
        ended("bolt", ["answer", HANDSHAKE + words], settings)
        for version in ("4.4", "5.1"):
            said, status = ended("bolt", ["check", version, words], settings)
            again = said.split()[-1:] if said.startswith("ok ") else []
            if again and not settings and ended("bolt", ["check", version, *again], settings) != (said, 0):
                raise Fault(f"{words} is decoded to another value when it is encoded again")


def answer(listener, answers):
    """Answers one shell, and ends when it is silent."""
    with contextlib.suppress(OSError):
        peer, _ = listener.accept()
        with peer:
            peer.settimeout(0.2)
            peer.recv(20, socket.MSG_WAITALL)
            for it in answers:
                peer.sendall(it)
                if not peer.recv(65536):
                    return


def hoarded(requests):
    """Returns the most memory, in MB, of a world in which so many of the dearest requests of one session wait."""
    script = f"play 1000\nopen foreign\nforeign 0 {HANDSHAKE}\n" + f"foreign 0 {DEAREST}\n" * requests
    with tempfile.TemporaryFile("w+") as asked, tempfile.TemporaryFile("w+") as told:
        asked.write(script)
        asked.seek(0)
        process = subprocess.Popen([str(programs.built("test_player"))], stdin=asked, stdout=told)
        _, status, usage = os.wait4(process.pid, 0)
        process.returncode = os.waitstatus_to_exitcode(status)
        told.seek(0)
        taken = told.read().count("what: Message")
    if (process.returncode, taken) != (0, requests):
        raise Fault(f"status {process.returncode}, and {taken} of {requests} requests were taken")
    return usage.ru_maxrss / 1024


def main(seconds=60, first=1):
    """Runs seed after seed until so many seconds of processor time are used. Returns the status."""
    seed = first
    with Fuzz() as fuzz:
        try:
            one, many = hoarded(1), hoarded(32)
            print(f"a world with 1 waiting request of 65,536 bytes takes at most {one:.0f} MB, with 32 {many:.0f} MB; "
                  "the script is part of it")
            begun = processor_time()
            while processor_time() - begun < seconds:
                fuzz.run(seed)
                seed += 1
        except Fault as fault:
            print(fault)
            return 1
        finally:
            print(f"seeds from {first} to below {seed}: {fuzz.plays} plays, {fuzz.events} events; {fuzz.refusing} of "
                  f"the plays were refused allocations from the first event on, about {fuzz.refused} or more")
    return 0


if __name__ == "__main__":
    if len(sys.argv) > 3 or not all(it.isdecimal() for it in sys.argv[1:]):
        print("usage: fuzz/fuzz.py [SECONDS [SEED]]", file=sys.stderr)
        sys.exit(2)
    sys.exit(main(*map(int, sys.argv[1:])))
