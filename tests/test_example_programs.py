"""Runs examples/commit.py against the server, through a cut, and at a server that refuses and forges lines."""
import os
import subprocess
import sys
import unittest

from tests.lib import fake_servers, modules, programs, proxy, servers, tables

EXAMPLE = programs.ROOT / "examples" / "commit.py"
BEFORE = "BEGIN: DONE\nRUN PUT: DONE\nPULL of PUT: DONE\n"


def setUpModule():
    global library, server
    library = programs.built("libbolt.so")
    server = modules.enter(servers.OneServer())


def run(port, key):
    """Runs the example; its status and its output."""
    words = [sys.executable, "-B", str(EXAMPLE), "127.0.0.1", str(port), key]
    environment = {**os.environ, "BOLT_SO": str(library)}
    done = subprocess.run(words, env=environment, stdout=subprocess.PIPE, text=True, timeout=120)
    return done.returncode, done.stdout


def run_through(key, **cut):
    """Runs the example through a proxy that cuts. Returns what `run` does, and how many bytes of the server passed."""
    one = proxy.Proxy(server.port, **cut)
    one.arm()
    ended = run(one.port, key)
    one.over.join()
    return ended, one.passed["told"]


class TestCommit(unittest.TestCase):
    def test_each_outcome_is_printed(self):
        self.assertEqual((0, f"{BEFORE}COMMIT: COMMITTED\n"), run(server.port, "whole"))
        self.assertEqual([1], tables.table(server.port).get("whole"))

    def test_commit_whose_last_answer_is_cut_is_unknown(self):
        whole, passed = run_through("measured")
        self.assertEqual((0, f"{BEFORE}COMMIT: COMMITTED\n"), whole)
        wanted = f"the connection broke: the server closed the connection\n{BEFORE}COMMIT: UNKNOWN\n"
        self.assertEqual((0, wanted), run_through("broken", told=passed - 1)[0])
        self.assertEqual([1], tables.table(server.port).get("broken"))

    def test_line_breaks_of_a_refusal_are_escaped(self):
        failure = fake_servers.failure("COMMIT", "COMMITTED\nCOMMIT: COMMITTED")
        login = fake_servers.told(*[fake_servers.DONE] * 2)
        refused = fake_servers.told(failure, *[fake_servers.IGNORED] * 3)
        reset = fake_servers.told(fake_servers.DONE)
        with fake_servers.Server([(fake_servers.V51, login, refused, reset)]) as fake:
            ended = run(fake.port, "refused")
        wanted = ("refused: COMMIT: COMMITTED\\nCOMMIT: COMMITTED\n"
                  "BEGIN: REFUSED\nRUN PUT: IGNORED\nPULL of PUT: IGNORED\nCOMMIT: IGNORED\n")
        self.assertEqual((0, wanted), ended)


if __name__ == "__main__":
    unittest.main()
