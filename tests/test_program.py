"""Tests what `bolt` prints for words of its command line, for values and messages in hex, and for scripts."""
import os
import pathlib
import random
import re
import tempfile

from tests.data import scripts
from tests.data import words as rows
from tests.lib import cases, pages, plays, programs

# A dictionary of a list and a number.
FIELDS = bytes.fromhex("A2866669656C64739181698774" "5F666972737400")
# The system's reason for a failure.
REASON = "[^\\n]+"
# A file name that would print a forged line and move the cursor, and how it is printed.
FORGED_FILE = ("no\nentry 0 4 1\x1b[31m", r"no\nentry 0 4 1\u{1b}[31m")


def setUpModule():
    programs.built("bolt")


class Help(cases.ProgramTest):
    def setUp(self):
        _, self.help, _ = self.ran([])

    def test_wrong_words_are_named_before_the_help(self):
        for words, line in rows.WRONG:
            with self.subTest(" ".join(words)):
                self.assert_prints(words, "", f"{line}\n{self.help}", 2)

    def test_help_is_printed_alone(self):
        for words in rows.HELPED:
            with self.subTest(" ".join(words)):
                self.assert_prints(words, "", self.help, 2)

    def test_word_that_is_not_utf_8_is_refused(self):
        self.assert_prints([os.fsdecode(b"\xC3\x28")], "", f"error: a word is not UTF-8\n{self.help}", 2)

    def test_help_begins_with_the_name_and_ends_with_the_last_fault(self):
        self.assertRegex(self.help, r"\Abolt: (?s:.*)\(fault I3\)\n\Z")

    def test_help_has_each_command_example_and_status(self):
        for line in rows.HELP:
            with self.subTest(line):
                self.assertIn(line, self.help)

    def test_page_has_the_line_for_a_port_past_the_last(self):
        line = pages.inline(pages.read("docs/PROGRAM.md"), "error: ")
        self.assert_prints(["serve", "99999", "1"], "", f"{line}\n{self.help}", 2)


class Hex(cases.ProgramTest):
    def assert_same(self, wanted, said):
        """Compares what was wanted for each of many texts with what came. A failure shows those that differ."""
        differ = {text: {"wanted": it, "came": said[text]} for text, it in wanted.items() if it != said[text]}
        self.assertEqual({}, differ)

    def test_answer_prints_the_bytes_and_the_state(self):
        for name, text, out, state in rows.ANSWERED:
            with self.subTest(name):
                self.assert_prints(["answer", text], f"{out}\n{state}\n")

    def test_page_has_an_answer_and_its_state(self):
        command, *lines = pages.answer(pages.read("docs/PROGRAM.md"))
        self.assertEqual(2, len(lines), lines)
        self.assert_prints(["answer", command], "".join(f"{line}\n" for line in lines))

    def test_check_prints_the_shortest_encoding_or_the_fault(self):
        for version, text, line, status in rows.CHECKED:
            with self.subTest(f"{version} {text}"):
                self.assert_prints(["check", version, text], f"{line}\n", status=status)

    def test_check_of_messages_and_parameters(self):
        for name, whole, line in rows.WHOLE:
            with self.subTest(name):
                self.assert_prints(["check", "5.1", whole], f"{line}\n", status=int(line.startswith("refused")))

    def test_each_proper_prefix_is_too_short(self):
        for name, whole, _ in rows.WHOLE:
            with self.subTest(name):
                came = {whole[:end]: self.ran(["check", "5.1", whole[:end]]) for end in range(0, len(whole), 2)}
                said = {text: (re.sub(r"\d+\n$", "N\n", out), err, status) for text, (out, err, status) in came.items()}
                self.assert_same({text: ("refused P1 at N\n", "", 1) for text in came}, said)

    def test_bad_hex_is_a_fault(self):
        for words in rows.NO_HEX:
            with self.subTest(" ".join(words)):
                self.assert_prints(words, "", "fault I4\n", 2)

    def test_values_read_from_torn_bytes_read_back_unchanged(self):
        taken, wanted, said = 0, {}, {}
        for seed in range(1000):
            torn = plays.torn(random.Random(seed), FIELDS).hex() or "c0"
            out, err, status = came = self.ran(["check", "5.1", torn])
            if re.fullmatch(r"ok [0-9a-f]+\n", out):
                taken += 1
                wanted[torn] = (out, "", 0), (out, "", 0)
                said[torn] = came, self.ran(["check", "5.1", out.split()[1]])
            else:
                wanted[torn] = "refused CODE at INDEX\n", "", 1
                said[torn] = re.sub(r"\A(refused) [A-Z]\d+ (at) \d+\n\Z", r"\1 CODE \2 INDEX\n", out), err, status
        self.assert_same(wanted, said)
        self.assertGreater(taken, 0, "no torn bytes were read as a value")

    def test_vectors_pass(self):
        self.assert_prints(["vectors"], "".join(f"pass V{number}\n" for number in range(1, 17)))


class Scripts(cases.ProgramTest):
    def replay(self, script, out, err="", status=0):
        with tempfile.TemporaryDirectory() as folder:
            file = pathlib.Path(folder) / "script"
            file.write_bytes(script)
            self.assert_prints(["replay", file], out, err, status)

    def test_replay_prints_the_report(self):
        for name, script, out in scripts.REPLAYED:
            with self.subTest(name):
                self.replay("".join(script).encode(), "".join(out))

    def test_unreadable_line_is_named_and_nothing_runs(self):
        for name, script, line in scripts.UNREADABLE:
            with self.subTest(name):
                self.replay(script, "", f"line {line} unreadable\n{scripts.EXPECTED}", 2)

    def test_missing_file_is_named(self):
        self.assert_prints_pattern(["replay", "no such file"], "", f"fault I1\nno such file: {REASON}\n", 1)

    def test_name_of_missing_file_is_escaped(self):
        name, printed = FORGED_FILE
        self.assert_prints_pattern(["replay", name], "", f"fault I1\n{re.escape(printed)}: {REASON}\n", 1)

    def test_folder_is_no_script(self):
        self.assert_prints_pattern(["replay", programs.ROOT], "", "fault I1\n(?:[^\\n]*\\n)*", 1)


class Output(cases.ProgramTest):
    def test_full_output_is_a_fault(self):
        with open("/dev/full", "wb") as full:
            process = self.started(["vectors"], stdout=full)
            self.assert_run(("", "fault I2\n", 1), self.ended(process))

    def test_closed_output_is_a_fault(self):
        self.assert_prints(["vectors"], "", "fault I2\n", 1, **cases.closing(1))
