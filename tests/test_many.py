"""Many clients and strangers at once at the built `bolt_server`."""
import contextlib
import random
import socket
import struct
import unittest

from tests.lib import crowd, programs
from tests.lib.client import CLASH, HANDSHAKE, Client, framed, text
from tests.lib.crowd import (
    AGAIN, LARGE, MOST_KB, ONE, OPENING, VERSION_5_1, Server, at_once, connect, ledger, rest, sends, transact)


class Crowds(crowd.ManyTest):
    def test_transactions_of_16_cut_clients_stand_once_beside_strangers(self):
        clients, transactions, places = 16, programs.count(12, 4), {}
        chance = random.Random(1)
        with Server("--arrival", "2") as server:
            with crowd.Strangers(server, 15, chance):
                seeds = [f"{number} {chance.random()}" for number in range(clients)]
                ends = at_once(clients, lambda at: sends(server, places, f"client {at}", transactions, seeds[at]))
            self.assertEqual([None] * clients, ends)
            found, place = ledger(server)
            self.assertNotIn(CLASH, places.values())
            self.assertEqual([*range(1, clients * transactions + 1)], sorted(places.values()))
            self.assertEqual(clients * transactions + 1, place, "the ledger has another number of entries")
            wanted = {text(f"key {token}"): text(f"{token} {token.rpartition('.')[2]}") for token in places}
            self.assertEqual(wanted, found)
            self.assertLess(server.most_memory(), MOST_KB)

    def test_17_at_once_are_served(self):
        with Server() as server:
            self.assertEqual({*range(1, 18)}, {*at_once(17, lambda number: transact(server, number))})
            self.assert_each_end_is_printed_once(server, 17)

    def test_100_at_once_are_served(self):
        with Server() as server:
            self.assertEqual({*range(1, 101)}, {*at_once(100, lambda number: transact(server, number))})
            self.assert_each_end_is_printed_once(server, 100)

    def test_17th_is_answered_after_another_goes(self):
        with Server() as server, contextlib.ExitStack() as held:
            clients = [held.enter_context(Client(server.port)) for _ in range(16)]
            self.check_last_waits(server, clients)
            held.close()
            self.assert_each_end_is_printed_once(server, 17)

    def test_third_is_answered_after_another_goes_with_two_sessions(self):
        with Server("--sessions", "2") as server, contextlib.ExitStack() as held:
            clients = [held.enter_context(Client(server.port)) for _ in range(2)]
            self.check_last_waits(server, clients)
            held.close()
            self.assert_each_end_is_printed_once(server, 3)

    def check_last_waits(self, server, clients):
        """Fails if one more than the server takes is answered before a client goes, or isn't answered after that."""
        with connect(server) as last:
            last.sendall(OPENING)
            self.assertEqual(b"", crowd.unanswered(server, last, clients[0]))
            clients.pop().close()
            self.assertEqual(VERSION_5_1, last.recv(4))

    def test_1000_connections_of_rubbish_end_and_are_printed(self):
        def bring(server, number):
            chance = random.Random(number)
            with connect(server) as stream, contextlib.suppress(ConnectionResetError, BrokenPipeError):
                opening = [b"", HANDSHAKE, OPENING, OPENING + ONE][number % 4]
                many = chance.randbytes(chance.choice([1, 30, 400, 5000]))
                # A message of these bytes, the bytes without a frame, or a message past the limit.
                stream.sendall(opening + [framed(many), many, bytes([0xFF]) * 70_000][chance.randrange(3)])
                # The server may have closed the connection by now.
                with contextlib.suppress(OSError):
                    stream.shutdown(socket.SHUT_WR)
                rest(stream)

        with Server() as server:
            ends = at_once(20, lambda number: [bring(server, number * 50 + at) for at in range(50)])
            self.assertEqual([[None] * 50] * 20, ends)
            self.assert_each_end_is_printed_once(server, 1000)
            self.assertEqual({"E1", "E3", "E4"}, {"E1", "E3", "E4"} & {*server.causes(1000)})
            self.assert_one_is_served(server)

    def test_200_peers_that_reset_before_they_are_answered_end(self):
        with Server() as server:
            for _ in range(200):
                with connect(server) as stream:
                    stream.sendall(OPENING + LARGE + AGAIN * 20)
                    stream.setsockopt(socket.SOL_SOCKET, socket.SO_LINGER, struct.pack("ii", 1, 0))
            self.assert_each_end_is_printed_once(server, 200)
            self.assert_one_is_served(server)

    def test_client_that_closes_its_half_is_answered_whole(self):
        with Server() as server:
            with connect(server) as stream:
                stream.sendall(OPENING + ONE * 300)
                stream.shutdown(socket.SHUT_WR)
                said = rest(stream)
            self.assertEqual(300, said.count(bytes.fromhex("B1719101")))
            self.assertEqual([(0, "E8")], server.ends(1))

    def test_16_that_never_read_take_bounded_memory(self):
        with Server() as server, contextlib.ExitStack() as held:
            for _ in range(16):
                stream = held.enter_context(connect(server))
                crowd.asks_and_never_reads(stream, lambda: server.most_memory() >= MOST_KB)
            self.assertLess(server.most_memory(), MOST_KB)


if __name__ == "__main__":
    unittest.main()
