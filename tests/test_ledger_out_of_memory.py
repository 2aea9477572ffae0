"""Refused allocations of `lasting_server`, which keeps what it reported committed."""
import unittest

from tests.lib import ledgers, preloads, programs
from tests.lib.ledgers import Server


class RefusedAllocations(ledgers.LedgerTest):
    def test_transactions_survive_refused_allocations(self):
        library = preloads.compiled("allocations", self.folder)
        step = programs.count(37, 185)
        felt, idle, number = 0, 0, 1
        # If nobody felt a refusal among so many numbers, there are no more allocations.
        while idle * step < 740 and number < 20_000:
            with self.subTest(refused=number):
                idle += 1
                if self.feels(library, number):
                    felt, idle = felt + 1, 0
            number += step
        self.assertGreater(felt * step, 1000, f"{felt} refused allocations were felt, each {step}th was refused")

    def feels(self, library, number):
        """Refuses the allocation of this number. Returns whether the server didn't begin, or its client was lost."""
        file, told = self.folder / f"starves{number}.db", {}
        with Server(file, env=preloads.env(library, REFUSED=number)) as server:
            if server.port is None:
                status, said = server.ended()
                self.assertEqual((1, 1), (status, said.count("\n")), said)
                # A server that doesn't begin reports nothing.
                self.check_next_server(file, told)
                return True
            self.send_five(server.port, told)
        self.check_next_server(file, told)
        return len(told) < 5


if __name__ == "__main__":
    unittest.main()
