"""Reports on worlds, compared with what clients may rely on.

The program `test_player` plays scripts with each loss after each line, transactions sent again under a token,
and random events.
The check of `tests.lib.model` also has to find a wrong report of each kind.
"""
import dataclasses
import unittest

from tests.lib import model, plays, programs

SEEDS, EVENTS, BETWEEN = 30, 300, 32


def setUpModule():
    global PROGRAM, MACHINE
    PROGRAM = programs.built("test_player")
    MACHINE = model.Machine(PROGRAM)


def played(scripts):
    """Plays scripts, each in its way and with a report after so many lines. Returns each with its output."""
    told = model.told_by(PROGRAM, "\n.\n".join(f"{how} {every}\n{script}" for how, every, script in scripts))
    return [(model.Play(script), text) for (_, _, script), text in zip(scripts, told.split("\n.\n")[:-1], strict=True)]


def fault_of(play, told, is_all_taken=False):
    """Returns the first fault of a play, with its line and the report there, or None."""
    number, fault = 0, None
    try:
        for number in play.goes(told):
            fault = model.fault_in(MACHINE, play) or (is_all_taken and play.is_refused and model.UNPLAYED) or None
            if fault:
                return f"after line {number}: {fault}: {play.report.connections} {play.report.entries}"
    except (ValueError, AttributeError, IndexError) as why:
        return f"after line {number}: {model.UNPLAYED}: {why!r}"
    return None if play.report else model.UNPLAYED


def ended(script, how="play"):
    """Returns a play at its end."""
    (play, told), = played([(how, 1000, script)])
    for _ in play.goes(told):
        pass
    return play


class Reports(unittest.TestCase):
    maxDiff = None

    def check(self, scripts, is_all_taken=False):
        """Fails for each named script that has a fault after a line."""
        names, scripts = [name for name, *_ in scripts], [it[1:] for it in scripts]
        for name, (play, told) in zip(names, played(scripts), strict=True):
            with self.subTest(name):
                self.assertEqual(None, fault_of(play, told, is_all_taken))

    def test_each_loss_after_each_line_is_reported_truly(self):
        self.check([(name, "play", 1, script) for name, script in plays.with_losses()], is_all_taken=True)

    def test_transactions_sent_again_are_reported_truly(self):
        self.check([(name, how, 1, script) for name, (how, script) in plays.NAMED.items()])

    def test_random_events_are_reported_truly(self):
        self.check([(f"{EVENTS} events of seed {seed}", "mixed", BETWEEN, plays.Chance(seed).script(EVENTS))
                    for seed in range(SEEDS)])

    def test_first_session_writes_as_many_summaries_as_the_row_says(self):
        for number, (script, count) in enumerate(plays.WROTE, 1):
            with self.subTest(row=number):
                connections = ended(script).report.connections
                self.assertEqual(count, len(connections[0].wrote) if connections else 0, script)

    def test_writes_that_the_engine_brought_stay_alone_under_their_token(self):
        how, script = plays.REPEATED["brought"]
        play = ended(script, how)
        told, = play.report.connections
        heard = ["Unauth", "Ready", "TxReady", "TxStreaming", "TxReady", "Ready"]
        self.assertEqual([(at, it, "Committed" if at == 5 else "Done") for at, it in enumerate(heard)], told.read)
        self.assertEqual((6, [], 0), (len(told.wrote), told.lost, told.waits))
        self.assertEqual(("Stands", "Ready"), told.standing)
        self.assertEqual([(2 ** 64 - 1, 1)], [(it.conn, len(it.writes)) for it in play.report.entries])


def changed(pairs, at, place, value):
    """Returns the pairs with a member of one of them changed."""
    return [(*it[:place], value, *it[place + 1:]) if number == at else it for number, it in enumerate(pairs)]


def outcome(at, value):
    """Returns a change of the outcome of a request that was read."""
    return lambda told: {"read": changed(told.read, at, 2, value)}


def phase(at, value):
    """Returns a change of the phase of a request that was read."""
    return lambda told: {"read": changed(told.read, at, 1, value)}


def loss(at, value):
    """Returns a change of the outcome of a lost request."""
    return lambda told: {"lost": changed(told.lost, at, 1, value)}


def ends(cause):
    """Returns a change of the end of the session."""
    return lambda told: {"standing": ("Ended", cause)}


def unread(told):
    """Leaves out the last summary that was read, and has its request wait."""
    return {"read": told.read[:-1], "waits": told.waits + 1}


def undelivered(told):
    """Adds the first summary that was written as read, with no loss of its request."""
    return {"read": [*told.read, (*told.wrote[0], "Done")], "lost": told.lost[1:]}


def waits(told):
    """Has one request less wait."""
    return {"waits": told.waits - 1}


def unwritten(told):
    """Leaves out the last summary that was written."""
    return {"wrote": told.wrote[:-1]}


OF_ALL = plays.with_line(plays.TRANSACTION, 1, "noop 0")
OF_RESETS = plays.with_line(plays.RESETS, 1, "noop 0")
LATE = plays.with_line(plays.TRANSACTION, 11, "clientlost 0")
EARLY = plays.with_line(plays.TRANSACTION, 9, "clientlost 0")
CUT = plays.with_line(plays.TRANSACTION, 9, "cut 0")
# A name, a script, a wrong report on it, and the fault that the check finds.
# Two kinds are missing: rows have a test of their own, and no fixed table has two entries under one token.
LIES = [
    ("LOGON refused", OF_ALL, outcome(1, "Refused"), model.OUTCOME),
    ("LOGON ignored", OF_ALL, outcome(1, "Ignored"), model.OUTCOME),
    ("LOGON unknown", OF_ALL, outcome(1, "Unknown"), model.OUTCOME),
    ("PULL committed", OF_ALL, outcome(4, "Committed"), model.OUTCOME),
    ("COMMIT done", OF_ALL, outcome(5, "Done"), model.OUTCOME),
    ("COMMIT unknown", OF_ALL, outcome(5, "Unknown"), model.OUTCOME),
    ("interrupted PULL done", OF_RESETS, outcome(3, "Done"), model.OUTCOME),
    ("interrupted PULL refused", OF_RESETS, outcome(3, "Refused"), model.OUTCOME),
    ("RUN to Ready", OF_ALL, phase(3, "Ready"), model.READ),
    ("the last summary unread", OF_ALL, unread, model.READ),
    ("ended by a malformed message", OF_ALL, ends("Malformed"), model.END),
    ("ended by no version", OF_ALL, ends("NoVersion"), model.END),
    ("lost PULL unknown", EARLY, loss(4, "Unknown"), model.OUTCOME),
    ("COMMIT in doubt lost", EARLY, loss(5, "Lost"), model.OUTCOME),
    ("lost HELLO done", EARLY, loss(0, "Done"), model.OUTCOME),
    ("an undelivered summary read", LATE, undelivered, model.READ),
    ("one request less waits", CUT, waits, model.NUMBERS),
    ("the last summary unwritten", LATE, unwritten, model.LEDGER),
]


class WrongReports(unittest.TestCase):
    def test_wrong_report_is_found(self):
        for name, script, lie, wanted in LIES:
            with self.subTest(name):
                play = ended(script)
                told = play.report.connections[0]
                self.assertEqual(None, model.fault_of(MACHINE, play, 0, told))
                self.assertEqual(wanted, model.fault_of(MACHINE, play, 0, dataclasses.replace(told, **lie(told))))

    def test_row_that_is_not_delivered_is_found(self):
        for number, wanted in ((1, None), (2, model.ROWS)):
            with self.subTest(row=number):
                play = ended(plays.ROW_ON_ITS_WAY)
                play.heard[0].hears(play.sent[0], f"row [Int({number})]")
                self.assertEqual(wanted, model.fault_in(MACHINE, play))


if __name__ == "__main__":
    unittest.main()
