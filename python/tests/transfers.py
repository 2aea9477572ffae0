"""transfers.py PORT ROUNDS SEED: moves amounts between accounts at a server, through cuts and interrupts.

Each transfer has a token, and is sent again until it is known. Most attempts go through a proxy that cuts them after a
random number of bytes, in either direction. In half of them a signal raises an exception at a random moment. Another
connection checks what the client reports of each attempt. At the end each transfer is in the ledger once. The last
line is `ok: ...` or `FAILED: ...`. test_transfers.py runs this as a process, whose main thread takes the signals.
"""
import paths  # noqa: F401

import collections
import random
import signal
import sys
import time
import traceback

import bolt
import support
from tests.lib import proxy

ACCOUNTS, ATTEMPTS = 8, 60


class Alarm(Exception):
    """An interrupt that is an Exception."""


INTERRUPTS = KeyboardInterrupt, Alarm, TimeoutError


def in_one(connection, token, writes):
    """Sends a transfer as one pipeline."""
    connection.ask_begin(token=token)
    for key, value in writes:
        connection.ask_run("PUT", {"key": key, "value": value})
    connection.ask_commit()
    connection.settle()


def by_steps(connection, token, writes):
    """Sends a transfer, one request after another."""
    connection.begin(token=token)
    for key, value in writes:
        connection.run("PUT", {"key": key, "value": value})
    connection.commit()


def alone(connection, token, writes):
    """Sends a deposit: one write outside a transaction."""
    connection.run("PUT", dict(zip(("key", "value"), writes[0])), token=token)


WORKS = in_one, by_steps, alone


class Bank:
    """Accounts. Each has its balance, and the number of its last transfer."""

    def __init__(self, port, seed):
        self.port, self.seed = port, seed
        self.chance, self.kinds = random.Random(seed), random.Random(seed)
        self.accounts = {f"account {number}": [1000, -1] for number in range(ACCOUNTS)}
        self.entries, self.told, self.spans = 0, collections.Counter(), [0.01, 0.01]
        signal.signal(signal.SIGALRM, self.ring)
        # Python drops an interrupt that comes while it frees something, and would print it.
        sys.unraisablehook = lambda _: None

    def ring(self, *_):
        """Raises an interrupt, as the handler of a signal."""
        raise self.kinds.choice(INTERRUPTS)

    def look(self, *words):
        """Runs a query over another connection. Returns its rows, and the number of the entry that it adds."""
        with support.opened(self.port) as connection:
            asked = connection.ask_run(*words)
            connection.settle()
        self.entries += 1
        return asked.rows, int(asked.metadata["bookmark"].split(":")[1])

    def has(self, key, value):
        """Returns true if the key has the value."""
        return self.look("GET", {"key": key}, False)[0] == [[value]]

    def timed(self, part, moments):
        """Sets the alarm if it is to come in this part of an attempt: 0 is connecting, 1 is the work."""
        if part in moments:
            signal.setitimer(signal.ITIMER_REAL, self.chance.uniform(1e-6, self.spans[part]))
        return time.monotonic()

    def attempt(self, work, token, writes, cut):
        """Tries a transfer once. Returns the outcome of the request that commits, and what was raised."""
        way, held, raised = proxy.Proxy(self.port, **cut), [], None
        moments = self.chance.choice(((), (), (0,), (1,)))
        way.arm()
        try:
            try:
                times = [self.timed(0, moments)]
                with support.opened(way.port, timeout=20) as connection:
                    held.append(connection)
                    times.append(self.timed(1, moments))
                    work(connection, token, writes)
                times.append(time.monotonic())
            finally:
                signal.setitimer(signal.ITIMER_REAL, 0)
        except (bolt.Broken, OSError, *INTERRUPTS) as why:
            raised = why
        if not raised:
            spans = zip(self.spans, times, times[1:])
            self.spans = [0.9 * span + 0.12 * (end - start) for span, start, end in spans]
        for connection in held:
            connection.close()
        way.end()
        requests = [it for connection in held for it in connection.requests]
        if not all(it.outcome in bolt.OUTCOMES for it in requests):
            raise AssertionError(f"no outcome: {requests}")
        if held and isinstance(raised, bolt.Broken):
            told, wanted = ([it.outcome for it in these] for these in (raised.requests, requests))
            if told != wanted[:len(told)]:
                raise AssertionError(f"{raised} and {requests}")
        return support.of_commit(work, requests), raised

    def transfer(self, number):
        """Sends a transfer until it is known to be committed."""
        work = WORKS[number % len(WORKS)]
        first, second = self.chance.sample(sorted(self.accounts), 2)
        amount = self.chance.randrange(1, 100)
        writes = [(first, [self.accounts[first][0] - amount, number]),
                  (second, [self.accounts[second][0] + amount, number])]
        writes = writes[:1] if work is alone else writes
        stood = False
        for tried in range(ATTEMPTS):
            cut = self.chance.choice(({}, {"asked": self.chance.randrange(400)}, {"told": self.chance.randrange(340)}))
            outcome, raised = self.attempt(work, f"transfer {number} of {self.seed}", writes, cut)
            stands = self.has(*writes[0])
            self.told[f"{outcome}, {type(raised).__name__}"] += 1
            # An unknown transfer may be committed. An attempt that isn't reported as committed or unknown adds nothing.
            is_true = stands if outcome == bolt.COMMITTED else stands == stood or outcome == bolt.UNKNOWN and stands
            if not is_true:
                raise AssertionError(f"transfer {number}, attempt {tried} {cut}: {outcome} and {raised!r}, "
                                     f"but it {'is committed' if stands else 'is missing'}")
            if outcome == bolt.COMMITTED:
                self.accounts.update(writes)
                return
            stood = stands
        raise AssertionError(f"transfer {number} isn't known after {ATTEMPTS} attempts")

    def play(self, rounds):
        """Sends so many transfers, and checks the balances and the number of entries."""
        for key, value in self.accounts.items():
            _, before = self.look("PUT", {"key": key, "value": value})
        self.entries = 0
        for number in range(rounds):
            self.transfer(number)
        wrong = [it for it in self.accounts.items() if not self.has(*it)]
        _, after = self.look("ONE", {}, False)
        if wrong or after - before != rounds + self.entries:
            raise AssertionError(f"{rounds} transfers and {self.entries} other requests made {after - before} entries;"
                                 f" wrong balances: {wrong}")


def main(port, rounds, seed):
    bank = Bank(int(port), int(seed))
    try:
        bank.play(int(rounds))
    except BaseException as why:
        signal.setitimer(signal.ITIMER_REAL, 0)
        traceback.print_exc(file=sys.stdout)
        print(f"FAILED: seed {seed}: {type(why).__name__}: {why}")
        return 1
    print(", ".join(f"{what}: {count}" for what, count in sorted(bank.told.items())))
    print(f"ok: {rounds} transfers, each once, in {sum(bank.told.values())} attempts")
    return 0


if __name__ == "__main__":
    if len(sys.argv) != 4:
        sys.exit(__doc__)
    sys.exit(main(*sys.argv[1:]))
