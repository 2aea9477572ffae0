"""Runs rust/examples/commit.rs against servers that answer, refuse or don't answer, and with words that it refuses."""
import subprocess
import time
import unittest

from tests.lib import crates, fake_servers, modules, pauses, programs, servers, tables

LIMIT = 120
HELLO_AND_LOGON = 2
# What a LOGON has at its beginning.
LOGON = bytes.fromhex("B16A")
BEFORE = "BEGIN: Done\nRUN PUT: Done\nPULL of PUT: Done\n"


def setUpModule():
    global program, server
    library = programs.built("libbolt.a")
    program = crates.Crate(modules.folder()).build_example("commit", library.parent)
    server = modules.enter(servers.OneServer())


def run(*words, **how):
    """Runs the example; its status, its output and what it wrote to standard error."""
    how = {"stdout": subprocess.PIPE, **how}
    done = subprocess.run([program, *words], stderr=subprocess.PIPE, text=True, timeout=LIMIT, **how)
    return done.returncode, done.stdout, done.stderr


class TestCommit(unittest.TestCase):
    def test_each_outcome_is_printed(self):
        self.assertEqual((0, f"{BEFORE}COMMIT: Committed\n", ""), run("127.0.0.1", str(server.port), "whole"))
        self.assertEqual([1], tables.table(server.port).get("whole"))

    def test_full_output_is_reported(self):
        with open("/dev/full", "w") as full:
            status, _, error = run("127.0.0.1", str(server.port), "full", stdout=full)
        self.assertEqual(1, status)
        self.assertRegex(error, r"\Astandard output failed: .*\n\Z")


class TestServers(unittest.TestCase):
    def test_address_with_colons_is_an_address(self):
        status, said, error = run("::1", "1", "key")
        self.assertEqual((2, ""), (status, said))
        self.assertRegex(error, r"\Ano server: .* \(os error \d+\)\n\Z")

    def test_silent_server_is_given_up_after_ten_seconds_though_example_was_stopped(self):
        with fake_servers.Server([fake_servers.V51], ends=False) as fake:
            begun = time.monotonic()
            process = subprocess.Popen([program, "127.0.0.1", str(fake.port), "key"], stdout=subprocess.PIPE, text=True)
            with process:
                try:
                    pauses.wait_for_bytes(fake, LOGON)
                    pauses.stop_and_continue(process)
                    said, _ = process.communicate(timeout=LIMIT)
                finally:
                    process.kill()
            taken = time.monotonic() - begun
        self.assertRegex(said, r"\Atime-out: .*\nHELLO: Lost\nLOGON: Lost\n\Z")
        self.assertGreater(taken, 9)

    def test_line_breaks_of_a_refusal_are_escaped(self):
        failure = fake_servers.failure("COMMIT", "Committed\nCOMMIT: Committed\u2028COMMIT: Committed")
        login = fake_servers.told(*[fake_servers.DONE] * HELLO_AND_LOGON)
        refused = fake_servers.told(failure, *[fake_servers.IGNORED] * 3)
        with fake_servers.Server([(fake_servers.V51, login, refused)]) as fake:
            _, said, _ = run("127.0.0.1", str(fake.port), "key")
        wanted = ("refused: COMMIT: Committed\\nCOMMIT: Committed\\u{2028}COMMIT: Committed\n"
                  "BEGIN: Refused\nRUN PUT: Ignored\nPULL of PUT: Ignored\nCOMMIT: Ignored\n")
        self.assertEqual(wanted, said)


class TestWords(unittest.TestCase):
    def test_key_that_is_no_text_is_refused(self):
        self.assertEqual((2, "", "commit ADDRESS PORT KEY\n"), run("127.0.0.1", str(server.port), b"\xFF"))


if __name__ == "__main__":
    unittest.main()
