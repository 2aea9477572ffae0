"""Kills of `lasting_server` at random times, while clients send each transaction until it is known."""
import random
import threading
import time
import unittest

from tests.lib import ledgers, programs
from tests.lib.client import CLASH, LONGEST, Client

CLIENTS, SEED = 4, 1
# The server runs so many seconds at most before it is killed.
LONGEST_RUN = 0.35
# Every second kill comes after so many transactions were reported committed to the clients.
COMMITS = 4


class Callers:
    """Clients that send transactions under tokens to whichever server is there, each until it is known."""

    def __init__(self):
        self.told, self.wrong, self.repeats, self.retries = {}, [], 0, 0
        self.port, self.is_over, self.is_stopped, self.lock = None, False, False, threading.Lock()
        self.threads = [threading.Thread(target=self.work, args=(f"{SEED}.{number}",), daemon=True)
                        for number in range(CLIENTS)]

    def work(self, name):
        """Runs one client. An exception that no lost connection explains is kept."""
        try:
            self.call(name, random.Random(name))
        except Exception as error:
            self.wrong.append(f"client {name}: {error!r}")

    def call(self, name, chance):
        """Sends one transaction after the other, over connections of one to five transactions each."""
        number, client, left, tries = 0, None, 0, 0
        while not self.is_stopped and not (self.is_over and tries == 0):
            key = f"key {name} {number}"
            try:
                if not left:
                    if client:
                        client.close()
                    client, left = Client(self.port), chance.randrange(1, 6)
                tries += 1
                place = client.commit(f"{name}.{number}", key, str(number))
                with self.lock:
                    self.told[f"{name}.{number}"] = place, key, str(number)
                self.retries += tries > 1
                number, tries, left = number + 1, 0, left - 1
                if chance.randrange(4) == 0:
                    self.repeat(client, name, chance.randrange(number), chance.randrange(4) == 0)
            except OSError:
                left = 0
                time.sleep(0.005)
        if client:
            client.close()

    def repeat(self, client, name, number, is_other):
        """Sends an older transaction again, or other writes under its token."""
        token = f"{name}.{number}"
        place, key, value = self.told[token]
        again = client.commit(token, key, "another" if is_other else value)
        self.repeats += 1
        wanted = CLASH if is_other else place
        if again != wanted:
            self.wrong.append(f"{token} sent again: {wanted} is wanted, {again} came")

    def start(self):
        """Starts the clients."""
        for thread in self.threads:
            thread.start()

    def come_to(self, count):
        """Waits until so many transactions are reported committed, but not forever. Returns how many are."""
        until = time.monotonic() + LONGEST
        while len(self.told) < count and time.monotonic() < until:
            time.sleep(0.01)
        return len(self.told)

    def finish(self):
        """Waits until each client's last transaction is known, but not forever. Returns how many clients still wait."""
        self.is_over = True
        until = time.monotonic() + 2 * LONGEST
        for thread in self.threads:
            thread.join(timeout=max(0, until - time.monotonic()))
        return sum(thread.is_alive() for thread in self.threads)

    def stop(self):
        """Ends the clients at once."""
        self.is_stopped = True
        for thread in self.threads:
            if thread.ident:
                thread.join(timeout=LONGEST)


class Kills(ledgers.LedgerTest):
    def test_reported_transactions_stand_once_after_each_kill(self):
        kills = programs.count(50, 8)
        file, chance, callers, before, slowest = self.folder / "ledger.db", random.Random(SEED), Callers(), [], 0
        self.addCleanup(callers.stop)
        for kill in range(kills + 1):
            begun = time.monotonic()
            with ledgers.Server(file) as server:
                if server.port is None:
                    self.fail(f"after {kill} kills the server doesn't serve the file: {server.ended()}")
                slowest = max(slowest, time.monotonic() - begun)
                callers.port = server.port
                if kill == 0:
                    callers.start()
                if kill < kills:
                    if kill % 2:
                        wanted = len(callers.told) + COMMITS
                        self.assertGreaterEqual(callers.come_to(wanted), wanted, "transactions reported committed")
                    time.sleep(chance.random() * LONGEST_RUN)
                else:
                    self.assertEqual(0, callers.finish(), "clients whose transaction doesn't come to be known")
            with callers.lock:
                told = dict(callers.told)
            with self.subTest(kill=kill + 1):
                before = self.check_file(file, before, told)
        self.assertEqual([], callers.wrong)
        # Many kills hit a transaction only if many transactions were sent.
        self.assertGreaterEqual(len(callers.told), 2 * kills, "transactions reported committed")
        print(f"{kills} kills: {len(callers.told)} transactions reported committed, {callers.retries} of them "
              f"after a retry, {callers.repeats} sent again, {len(before)} entries, slowest start {slowest:.2f} s")


if __name__ == "__main__":
    unittest.main()
