"""Servers that act randomly, and rounds of `until_known` at them: each fate is compared with what was committed."""
import asyncio
import contextlib
import gc
import random
import socket
import subprocess
import threading
import time

import paths  # noqa: F401
import bolt
import support
from bolt import aio
from fakes import CLASH, CODES, NEO4J, OURS, Broke, Fake, Serving
from tests.lib import proxy

USER = ("user", "pass")
# The fates that are true of a transaction, by how often it is committed.
TRUE = {0: {bolt.ABSENT, bolt.REFUSED, bolt.OPEN}, 1: {bolt.STANDS, bolt.OPEN}}
COMMITS = ("answered", "lost", "unheard", "late", "fails")
TRIES = 5


class Own(Exception):
    """The exception of a work."""


class ByChance(Serving):
    """A connection that randomly ends, refuses a query or loses an answer."""

    def __init__(self, fake, client, number):
        super().__init__(fake, client, number)
        self.name = fake.chance.choice(fake.names)
        self.keeps = self.name == OURS

    def _answer(self, tag, fields):
        if self.fake.chance.random() < 0.03:
            raise Broke
        super()._answer(tag, fields)

    def _run(self, text, parameters, extra):
        if self.fake.chance.random() < 0.05:
            return self._fail(self.fake.chance.choice(sorted(CODES.values())))
        super()._run(text, parameters, extra)

    def _pull(self, tag, count):
        if self.fake.chance.random() < 0.02:
            self.rest = [("x" * 70_000,)]
        super()._pull(tag, count)

    def _commit(self):
        chance, what = self.fake.chance, self.fake.chance.choice(COMMITS)
        if what == "unheard":
            raise Broke
        if what == "fails":
            if not self.keeps and chance.random() < 0.5:
                self._keep()
            return self._fail(chance.choice([*CODES.values(), *(() if self.keeps else (CLASH, ""))]))
        if what == "late":
            # The client sees the end, and the COMMIT is done later.
            self.client.shutdown(socket.SHUT_RDWR)
            time.sleep(chance.uniform(0, 0.02))
        self._keep()
        if what in ("lost", "late"):
            raise Broke
        self.in_transaction = False
        self._put(0x70, {"bookmark": "b:1"})

    def _keep(self):
        with self.fake.lock:
            if not (self.keeps and self.token in self.fake.kept):
                self.fake.commits.append(self.token)
                self.fake.kept.update({self.token} if self.keeps else ())


class Chancy(Fake):
    """A server of these names, a random one for each connection. The one that keeps tokens has `OURS`."""

    serving = ByChance

    def __init__(self, seed, names=(NEO4J,)):
        self.chance, self.kept = random.Random(seed), set()
        super().__init__(names=names)


def now(_):
    return 0


class ByPython:
    """Sends by `bolt.until_known`. Randomly the work or an interrupt ends it, or a connection is closed meanwhile."""

    def __init__(self, chance):
        self.chance = chance

    def send(self, port, token, key, texts=(), **how):
        """Returns the fate, and whether the transaction may be sent again."""
        what = self.chance.choices(("none", "raises", "closes", "interrupt", "closed"), (6, 1, 1, 2, 1))[0]
        connections = []

        def connect():
            connections.append(bolt.connect("127.0.0.1", port, auth=USER, timeout=30))
            return connections[-1]

        def work(tx):
            tx.run("PUT", key=key, value=1)
            for text in texts:
                tx.run(text)
            if what == "raises" and self.chance.random() < 0.5:
                raise Own
            if what == "closes" and self.chance.random() < 0.5:
                connections[-1].close()

        def closes():
            for it in connections[-1:]:
                it.close()

        line = self.chance.randrange(1, 2000) if what == "interrupt" else 0
        timer = threading.Timer(self.chance.uniform(0, 0.02), closes)
        timer.daemon = True
        if what == "closed":
            timer.start()
        try:
            with support.AtLine(line, (KeyboardInterrupt,)) if line else contextlib.nullcontext():
                known = bolt.until_known(connect, work, token, tries=TRIES, pause=now, **how)
        except (Own, KeyboardInterrupt, bolt.NotSent) as why:
            # If an interrupt comes before the first line that can send anything, it has no `known`.
            unsent = bolt.OPEN if how.get("in_doubt") else bolt.ABSENT
            known = getattr(why, "known", None) or bolt.Known("none" if connections else unsent, token)
            why.__traceback__ = None
        finally:
            timer.cancel()
            if what == "closed":
                timer.join()
            if line:
                # An interrupt of a close leaves the connection open, up to a second close or its finalizer.
                closes()
                gc.collect()
        return known.fate, known.may_repeat


class ByAsyncio(ByPython):
    """Sends by `aio.until_known`. Randomly the work or a cancellation ends it."""

    def send(self, port, token, key, texts=(), **how):
        what = self.chance.choices(("none", "raises", "closes", "cancelled"), (6, 1, 1, 2))[0]

        async def work(tx):
            await tx.run("PUT", key=key, value=1)
            for text in texts:
                await tx.run(text)
            if what == "raises" and self.chance.random() < 0.5:
                raise Own
            if what == "closes" and self.chance.random() < 0.5:
                await tx._connection.close()

        async def until():
            try:
                return await aio.until_known(lambda: aio.connect("127.0.0.1", port, auth=USER, timeout=30), work, token,
                                             tries=TRIES, pause=now, **how)
            except (Own, asyncio.CancelledError, bolt.NotSent) as why:
                return why.known

        async def main():
            sending = asyncio.ensure_future(until())
            if what == "cancelled":
                await asyncio.wait({sending}, timeout=self.chance.uniform(0.001, 0.02))
                sending.cancel()
            return await sending

        known = asyncio.run(main())
        return known.fate, known.may_repeat


class ByRust:
    """Sends by a program over `bolt::until_known_with`."""

    def __init__(self, program):
        self.process = subprocess.Popen([program], stdin=subprocess.PIPE, stdout=subprocess.PIPE, text=True)

    def __enter__(self):
        return self

    def __exit__(self, *_):
        self.process.stdin.close()
        self.process.wait()
        self.process.stdout.close()

    def send(self, port, token, key, texts=(), in_doubt=False, keeps_tokens=None):
        before = "InDoubt" if in_doubt else "Nothing"
        retry = {None: "Detect", True: "Tokens", False: "Never"}[keeps_tokens]
        self.process.stdin.write(" ".join(map(str, (port, token, key, TRIES, before, retry, *texts))) + "\n")
        self.process.stdin.flush()
        fate = self.process.stdout.readline().split()[0].upper()
        # A request that can't be sent leaves nothing committed. Rust doesn't say which server left it in doubt.
        return {"NOTSENT": bolt.ABSENT}.get(fate, fate), False


def at_fake(sender, seed, names):
    """Sends a transaction to a server that keeps no tokens, or to one of several. Returns what was false."""
    token, false = f"token{seed}", []
    with Chancy(seed, names) as fake:
        first, may_repeat = sender.send(fake.port, token, "a")
        second = None
        if first == bolt.OPEN and (may_repeat or OURS not in names):
            second, _ = sender.send(fake.port, token, "a", in_doubt=True)
        elif first == bolt.OPEN:
            before = fake.connections
            second, _ = sender.send(fake.port, token, "a", in_doubt=True, keeps_tokens=False)
            if fake.connections != before:
                false.append("a connection after a doubt without tokens")
    count = fake.commits.count(token)
    told = {first, second} - {None}
    if not told <= TRUE.get(count, set()) or second in (bolt.ABSENT, bolt.REFUSED):
        false.append((sorted(told), count, fake.asked))
    return false, first, second


def cuts(chance):
    """Returns cuts of up to six connections, at random bytes. In some rounds all are cut near the COMMIT."""
    is_near, made = chance.random() < 0.3, []
    for _ in range(6 if is_near else chance.randrange(0, 7)):
        way, (commit, end) = chance.choice((("told", (100, 140)), ("asked", (190, 220))))
        made.append({way: chance.randrange(commit if is_near else 0, end), "resets": chance.random() < 0.3})
    return made


def at_server(sender, chance, port, number):
    """Sends a transaction through cuts to a server of this product. Returns what was false."""
    key, token, false = f"key{number}", f"token{number}", []
    texts = ("NOPE",) if chance.random() < 0.2 else ()
    has_clash = chance.random() < 0.1
    before = support.entries(port)
    if has_clash:
        with support.connected(port) as other, other.transaction(token=token) as tx:
            tx.run("PUT", key=f"other{number}", value=2)
        before += 1
    with proxy.Door(port, cuts(chance)) as door:
        first, may_repeat = sender.send(support.port_of(door.listener), token, key, texts)
        second = None
        if first == bolt.OPEN:
            second, _ = sender.send(support.port_of(door.listener), token, key, texts, in_doubt=True)
    if bolt.OPEN in (first, second):
        # The server may still have bytes of an end that the client has seen.
        time.sleep(0.05)
    count, values = support.entries(port) - before - 1, support.value_of(port, key)
    told = {first, second} - {None}
    true = TRUE.get(count, set()) | ({bolt.CLASH} if has_clash and count == 0 else set())
    if not told <= true or second in (bolt.ABSENT, bolt.REFUSED) or values != [1] * count or count == has_clash == 1:
        false.append((sorted(told), count, values, texts, has_clash))
    return false, first, second
