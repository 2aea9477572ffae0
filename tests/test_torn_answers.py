"""Feeds libbolt the answers of a server with bytes randomly changed, removed or inserted."""
import ctypes
import random
import unittest

from tests.lib import plays, programs, tables

SEEDS = 1000
BAD_PEER = 6
# The requests of a client at 5.1: HELLO, LOGON, a transaction, and a result of one row.
REQUESTS = [
    tables.HELLO, tables.LOGON, bytes.fromhex("B111A0"), bytes.fromhex("B31083505554A2836B6579816B8576616C756501A0"),
    tables.PULL, bytes.fromhex("B012"), bytes.fromhex("B31084524F5753A1816E03A0"), tables.PULL]
ANSWERS = bytes.fromhex("0003B170A00000" * 6 + "0016B170A2866669656C647391816987745F6669727374000000"
                        "0004B17191010000" "0003B170A00000")


class Standing(ctypes.Structure):
    """The struct `bolt_standing` of include/bolt.h."""

    _fields_ = [("first", ctypes.c_uint64), ("pending", ctypes.c_uint32), ("phase", ctypes.c_uint32),
                ("version", ctypes.c_uint32), ("has_ended", ctypes.c_uint32), ("awaits", ctypes.c_uint32),
                ("padding", ctypes.c_uint32)]


class Client:
    """A client of libbolt. Each call returns the code of the C call."""

    def __init__(self, library, rows):
        self.library, self.handle, self.asked = library, ctypes.c_void_p(), (ctypes.c_uint64 * 3)()
        self.opened = library.bolt_open(ctypes.byref(self.handle), 51, ctypes.c_size_t(rows))

    def ask(self, message):
        return self.library.bolt_ask(ctypes.byref(self.handle), message, ctypes.c_size_t(len(message)), self.asked)

    def feed(self, piece):
        """Returns the code, and how many bytes were used."""
        used = ctypes.c_size_t()
        code = self.library.bolt_feed(ctypes.byref(self.handle), piece, ctypes.c_size_t(len(piece)), ctypes.byref(used))
        return code, used.value

    def state(self):
        standing = Standing()
        return self.library.bolt_state(ctypes.byref(self.handle), ctypes.byref(standing)), standing

    def rows(self, ordinal):
        """Returns the code, and how many rows are held."""
        held, left = ctypes.c_uint64(), ctypes.c_uint64()
        counts = ctypes.byref(held), ctypes.byref(left)
        return self.library.bolt_rows(ctypes.byref(self.handle), ctypes.c_uint64(ordinal), *counts), held.value

    def drop_rows(self, ordinal):
        return self.library.bolt_drop_rows(ctypes.byref(self.handle), ctypes.c_uint64(ordinal))

    def close(self):
        self.library.bolt_close(ctypes.byref(self.handle))


def setUpModule():
    global library
    library = ctypes.CDLL(str(programs.built("libbolt.so")))


class TestTornAnswers(unittest.TestCase):
    def test_each_piece_is_used_or_ends_the_client(self):
        ended = 0
        for seed in range(SEEDS):
            with self.subTest(seed=seed):
                chance = random.Random(seed)
                client = Client(library, chance.choice((0, 1, 9)))
                try:
                    ended += self.feed_torn(client, chance)
                finally:
                    client.close()
        # Each of both ends is common. If it were not, most rows would test nothing.
        self.assertGreater(ended, SEEDS // 10, "clients that ended by a bad answer")
        self.assertGreater(SEEDS - ended, SEEDS // 10, "clients that used all bytes")

    def feed_torn(self, client, chance):
        """Feeds pieces of 1 to 40 bytes until all are used or the client has ended. Returns true if it has."""
        self.assertEqual(0, client.opened)
        self.assertEqual((0, 4), client.feed(bytes([0, 0, 1, 5])))
        self.assertEqual([0] * len(REQUESTS), [client.ask(it) for it in REQUESTS])
        rest = plays.torn(chance, ANSWERS)
        while rest:
            piece = rest[:chance.randrange(1, 41)]
            code, used = client.feed(piece)
            state, standing = client.state()
            self.assertEqual(0, state)
            self.assertLessEqual(used, len(piece))
            if code:
                self.assertEqual((BAD_PEER, 1), (code, standing.has_ended))
                return True
            held, rows = client.rows(standing.first)
            self.assertEqual(0, held)
            if used < len(piece):
                # The client takes no more only if one request waits and its rows are held.
                self.assertEqual(1, standing.pending)
                self.assertGreater(rows, 0)
            self.assertEqual(0, client.drop_rows(standing.first))
            rest = rest[used:]
        return False


if __name__ == "__main__":
    unittest.main()
