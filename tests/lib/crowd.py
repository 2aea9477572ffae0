"""`bolt_server` as a test watches it, and its peers: clients, strangers, and one who never reads."""
import contextlib
import os
import pathlib
import random
import re
import select
import signal
import socket
import subprocess
import threading
import time
import unittest

from tests.lib import programs, proxy, servers
from tests.lib.client import HANDSHAKE, HELLO, LOGON, LONGEST, PULL, Client, begin, framed, run, text

# docs/SAFETY.md: a session holds a request of 6.4 MB, and 131,077 bytes to send. These may be there twice.
# The program itself takes 16 MB.
MOST_KB = (16 * (6_400_000 + 2 * 131_077) + 16_000_000) // 1024
VERSION_5_1 = bytes.fromhex("00000105")
OPENING = HANDSHAKE + framed(HELLO) + framed(LOGON)
# A query of one row, with its PULL.
ONE = framed(run("ONE")) + framed(PULL)
# A transaction that puts a text of 60,000 bytes, and a query that reads it in the same transaction.
LARGE_TEXT = bytes([0xD1]) + (60_000).to_bytes(2, "big") + b"v" * 60_000
LARGE = framed(begin("a large one")) + framed(run("PUT", key=text("large"), value=LARGE_TEXT)) + framed(PULL)
AGAIN = framed(run("GET", key=text("large"))) + framed(PULL)


class Server(servers.ManyServer):
    """`bolt_server`, with what it printed and what the system reports of its process."""

    def __init__(self, *words, **how):
        super().__init__(*words, **{"stderr": subprocess.PIPE, **how})

    def ends(self, count):
        """Waits until the server printed so many lines, and returns all its lines in order.

        A line is a pair: the number of a connection, and the code that says why it ended.
        """
        until = time.monotonic() + LONGEST
        while len(self.lines) < count and time.monotonic() < until:
            time.sleep(0.02)
        return sorted(pair_of(line) for line in list(self.lines))

    def causes(self, count):
        """Waits until so many connections ended, and returns why they ended."""
        return sorted(cause for _, cause in self.ends(count))

    def fields(self):
        """Returns what the system reports of the process after its name, in /proc/PID/stat."""
        return pathlib.Path(f"/proc/{self.process.pid}/stat").read_text().rpartition(")")[2].split()

    def comes_to(self, state):
        """Waits until the process is in a state: S if it waits, T if it is stopped."""
        until = time.monotonic() + LONGEST
        while (now := self.fields()[0]) != state:
            if time.monotonic() > until:
                raise TimeoutError(f"the process comes to the state {now}, not {state}")
            time.sleep(0.01)

    def ticks(self):
        """Returns how much processor time the process used, in ticks of the system's clock."""
        fields = self.fields()
        return int(fields[11]) + int(fields[12])

    def most_memory(self):
        """Returns the most memory that the process had, in KB."""
        status = pathlib.Path(f"/proc/{self.process.pid}/status").read_text()
        return int(re.search(r"VmHWM:\s+(\d+) kB", status)[1])

    def killed(self):
        """Kills the process, and returns what it wrote to standard error."""
        self.kill()
        return self.process.stderr.read()

    def stopped_for(self, seconds):
        """Stops the process once it waits, and has another thread continue it after some seconds."""
        self.comes_to("S")
        os.kill(self.process.pid, signal.SIGSTOP)
        self.comes_to("T")
        later = threading.Timer(seconds, self.process.send_signal, (signal.SIGCONT,))
        later.daemon = True
        later.start()


def pair_of(line):
    """Returns the number and the cause of a line `conn NUMBER CAUSE`. Another line comes back with the number -1."""
    found = re.fullmatch(r"conn (\d+) (E[1-8])\n", line)
    return (int(found[1]), found[2]) if found else (-1, line)


class ManyTest(unittest.TestCase):
    """A test of `bolt_server`."""

    maxDiff = None

    def setUp(self):
        programs.built("bolt_server")

    def assert_each_end_is_printed_once(self, server, count):
        """Fails if the server didn't print one line for each of so many connections, and no other line."""
        self.assertEqual(list(range(count)), [number for number, _ in server.ends(count)], server.lines[-5:])

    def assert_one_is_served(self, server):
        """Fails if a client's transaction doesn't commit."""
        self.assertIsInstance(transact(server, 0), int)


def connect(server):
    """Connects to the server, and sends nothing."""
    return socket.create_connection(("127.0.0.1", server.port), timeout=LONGEST)


def rest(stream):
    """Reads all that comes until the connection ends or is reset."""
    said = b""
    with contextlib.suppress(ConnectionResetError):
        while piece := stream.recv(65536):
            said += piece
    return said


def at_once(count, call):
    """Makes so many calls at once, each with its number, and returns their results in order.

    In place of a result stands the exception that the call raised, as a text, or that it didn't end.
    """
    results = ["it doesn't end"] * count

    def one(number):
        try:
            results[number] = call(number)
        except Exception as error:
            results[number] = repr(error)

    threads = [threading.Thread(target=one, args=(number,), daemon=True) for number in range(count)]
    for it in threads:
        it.start()
    until = time.monotonic() + 5 * LONGEST
    for it in threads:
        it.join(timeout=max(0, until - time.monotonic()))
    return list(results)


def transact(server, number):
    """Has a client commit one transaction, and returns the entry's place in the ledger."""
    with Client(server.port) as client:
        return client.commit(f"t{number}", f"k{number}", "v")


def unanswered(server, stream, asking):
    """Returns what the server sent to a stream by the time that it answered three later queries of another client.

    The server's loop sees the stream's bytes before it reads the last of those queries.
    """
    for _ in range(3):
        asking.socket.sendall(ONE)
        asking.summary()
        asking.summary()
    server.comes_to("S")
    is_readable, _, _ = select.select([stream], [], [], 0)
    return stream.recv(100) if is_readable else b""


def asks_and_never_reads(stream, is_over):
    """Queries a large value until the server takes no more bytes."""
    stream.sendall(OPENING + LARGE)
    stream.settimeout(0.3)
    with contextlib.suppress(socket.timeout):
        while not is_over():
            stream.sendall(AGAIN * 20)


class Strangers:
    """Connections that come and go without sending sense, and one that sends queries and never reads."""

    def __init__(self, server, count, chance):
        self.server, self.is_over, self.came = server, threading.Event(), 0
        self.threads = [threading.Thread(target=self.come_and_go, args=(chance.random(),), daemon=True)
                        for _ in range(count)]
        self.threads.append(threading.Thread(target=self.ask_on, daemon=True))

    def come_and_go(self, seed):
        """Connects again and again, sends a part of a handshake, and waits until the server ends the connection."""
        chance = random.Random(seed)
        while not self.is_over.is_set():
            with contextlib.suppress(OSError), connect(self.server) as stream:
                self.came += 1
                stream.sendall(HANDSHAKE[:chance.randrange(21)])
                self.is_over.wait(chance.random() * 0.2)
                # It waits for its end, so no more connections wait than there are strangers.
                stream.shutdown(socket.SHUT_WR)
                rest(stream)

    def ask_on(self):
        """Sends queries until the server takes no more, and keeps the connection."""
        with contextlib.suppress(OSError), connect(self.server) as stream:
            self.came += 1
            asks_and_never_reads(stream, self.is_over.is_set)
            self.is_over.wait()

    def __enter__(self):
        for it in self.threads:
            it.start()
        return self

    def __exit__(self, *_):
        self.is_over.set()
        for it in self.threads:
            it.join(timeout=LONGEST)


def sends(server, places, name, count, seed):
    """Has a client send so many transactions, each until it is known, and adds their places by their tokens.

    A proxy cuts some of the connections at a random byte, either way.
    It raises a TimeoutError if a transaction isn't known after 60 tries.
    """
    chance = random.Random(seed)
    for number in range(count):
        token, tries = f"{name}.{number}", 0
        while token not in places:
            tries += 1
            cut = {}
            if chance.random() < 0.5:
                cut = {chance.choice(["told", "asked"]): chance.randrange(1, 500), "resets": chance.random() < 0.3}
            passing = proxy.Proxy(server.port, **cut)
            passing.arm()
            try:
                with Client(passing.port) as client:
                    places[token] = client.commit(token, f"key {token}", f"{token} {number}")
            except OSError:
                pass
            passing.end()
            if tries > 60:
                raise TimeoutError(f"{token} isn't known after {tries} tries")


def ledger(server):
    """Returns the encoded value of each encoded key, and the place of the entry that this look adds to the ledger."""
    found = {}
    with Client(server.port) as client:
        client.socket.sendall(framed(run("KEYS")) + framed(PULL))
        client.message()
        while (message := client.message())[1:2] == b"\x71":
            found[message[3:]] = None
        place = int(re.search(rb"bk:(\d+)", message)[1])
        for key in found:
            client.socket.sendall(framed(run("GET", key=key)) + framed(PULL))
            client.message()
            found[key] = client.message()[3:]
            client.message()
    return found, place
