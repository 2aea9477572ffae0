"""Rows of public calls at a connection in memory, and the checks of what each reports.

The rows are for the blocking calls and for those of asyncio. What a call has to report comes from rules.py."""
import paths  # noqa: F401

import unittest
import warnings

import bolt
import memory
import rules
from fakes import CODES, VERSION, Table

# The rows of each query, and how many are pulled at once.
ROWS, FETCH = tuple((it,) for it in range(5)), 2


class Own(Exception):
    """An exception that leaves a block."""


class Row:
    """Calls by their names, and the requests that they ask.

    `rounds` are the requests that go out together, as "PULL, RUN PULL". A RESET that follows a FAILURE is written
    after `+`: it is among the requests of its round. `before` prepares the connection. `leaves` is the type of what
    `call` raises if all is answered. If `hides` is true, the end of the connection isn't raised in the last round."""

    def __init__(self, calls, rounds, call, before=None, leaves=type(None), hides=False, failed=None):
        self.calls, self.call, self.before, self.leaves = calls.split(), call, before, leaves
        self.hides, self.failed, self.name = hides, failed, f"{calls}: {rounds}"
        self.rounds = [it.replace("+", " ").split() for it in rounds.split(",")]
        # How many requests of the last round the caller hasn't asked.
        self.added = len(rounds.partition("+")[2].split())


class Stage:
    """A connection in memory for a call, at most with a transaction and a result that are open.

    `ways` has a function for each name that a row uses for what blocking calls and those of asyncio write otherwise."""

    tx = result = block = asked = None
    ways = {}

    def __init__(self, row):
        # At a server that keeps tokens a FAILURE of COMMIT commits nothing.
        self.row, self.table = row, Table(rows=ROWS, failed=row.failed, keeps=True)
        self.line = memory.Line(self.table)
        self.connection = self.connect()
        self.session = self.connection.session
        why = row.before and self.raised(row.before)
        assert why is None, why
        self.first, self.said, self.sent = len(self.line.talk.requests), len(self.line.talk.said), self.line.gone

    @classmethod
    def opening(cls, line):
        """Returns what a connection raises while it is opened, None if it is open then."""
        raise NotImplementedError

    def way(self, name):
        return self.ways[name](self)

    def connect(self):
        """Returns a connection over the line."""
        raise NotImplementedError

    def raised(self, call):
        """Returns what a call of this raises, None if it returns."""
        try:
            call(self)
        except BaseException as why:
            return why
        return None

    def run(self, **cut):
        """Does the call at a connection with an end. Returns what it raises."""
        self.line.arm(**cut)
        return self.raised(self.row.call)


def by(name):
    """Returns a call that is written otherwise for asyncio."""
    return lambda it: it.way(name)


def asks(call):
    def both(it):
        call(it.session)
        return it.session.settle()
    return both


PULLED = "RUN PULL"
UNREAD_BY_SESSION = asks(lambda it: it.ask_run("PUT", count=FETCH))
BEGUN, UNREAD, UNREAD_IN_TX = by("begun"), by("unread"), by("unread_in_transaction")
CALLS = (
    Row("Connection.run", PULLED, lambda it: it.connection.run("PUT")),
    Row("Connection.run", "RUN PULL + RESET", lambda it: it.connection.run("NOPE"), leaves=bolt.Refused),
    Row("Connection.run", "PULL, RUN PULL", lambda it: it.connection.run("PUT"), UNREAD),
    Row("Connection.read", PULLED, lambda it: it.connection.read("GET")),
    Row("Connection.reset", "RESET", lambda it: it.connection.reset()),
    Row("Connection.reset", "RESET", lambda it: it.connection.reset(), UNREAD_IN_TX),
    Row("Connection.close Session.close", "DISCARD", lambda it: it.connection.close(), UNREAD, hides=True),
    Row("Connection.close", "DISCARD", by("leave_connection"), UNREAD, hides=True),
    Row("Connection.transaction", "BEGIN", BEGUN),
    Row("Connection.transaction", "PULL, BEGIN", BEGUN, UNREAD),
    Row("Connection.transaction Transaction.run Transaction.commit", "BEGIN, RUN PULL, PULL, COMMIT", by("block")),
    Row("Connection.transaction", "BEGIN, RUN PULL, RESET", by("left_block"), leaves=Own, hides=True),
    Row("Connection.pipeline Pipeline.begin Pipeline.run Pipeline.commit", "BEGIN RUN PULL COMMIT", by("pipeline")),
    Row("Connection.pipeline Pipeline.rollback", "RUN PULL BEGIN RUN PULL ROLLBACK", by("pipeline_of_two")),
    Row("Connection.pipeline", "PULL, BEGIN RUN PULL COMMIT", by("pipeline"), UNREAD),
    Row("Transaction.run", PULLED, lambda it: it.tx.run("PUT"), BEGUN),
    Row("Transaction.run", "PULL, RUN PULL", lambda it: it.tx.run("PUT"), UNREAD_IN_TX),
    Row("Transaction.run", "RUN PULL + RESET", lambda it: it.tx.run("NOPE"), BEGUN, bolt.Refused),
    Row("Transaction.commit", "COMMIT", lambda it: it.tx.commit(), BEGUN),
    Row("Transaction.commit", "PULL, COMMIT", lambda it: it.tx.commit(), UNREAD_IN_TX),
    Row("Transaction.commit", "COMMIT + RESET", lambda it: it.tx.commit(), BEGUN, bolt.Refused,
        failed={1: CODES["BUSY"]}),
    Row("Transaction.rollback", "ROLLBACK", lambda it: it.tx.rollback(), BEGUN),
    Row("Transaction.rollback", "PULL, ROLLBACK", lambda it: it.tx.rollback(), UNREAD_IN_TX),
    Row("Result.next", "PULL", by("next"), by("two_read")),
    Row("Result.data", "PULL, PULL", lambda it: it.result.data(), UNREAD),
    Row("Result.values", "PULL, PULL", lambda it: it.result.values(), UNREAD_IN_TX),
    Row("Result.single", "PULL", lambda it: it.result.single(), by("four_read")),
    Row("Result.consume", "PULL", lambda it: it.result.consume(), UNREAD),
    Row("Result.summary", "PULL", by("summary"), UNREAD_IN_TX),
    Row("Session.run", PULLED, lambda it: it.session.run("PUT")),
    Row("Session.begin", "BEGIN", lambda it: it.session.begin()),
    Row("Session.commit", "COMMIT", lambda it: it.session.commit(), BEGUN),
    Row("Session.rollback", "ROLLBACK", lambda it: it.session.rollback(), BEGUN),
    Row("Session.reset", "RESET", lambda it: it.session.reset(), BEGUN),
    Row("Session.ask_begin Session.settle", "BEGIN", asks(lambda it: it.ask_begin())),
    Row("Session.ask_run Session.settle", PULLED, asks(lambda it: it.ask_run("PUT"))),
    Row("Session.ask_pull Session.settle", "PULL", asks(lambda it: it.ask_pull("PUT")), UNREAD_BY_SESSION),
    Row("Session.ask_commit Session.settle", "COMMIT", asks(lambda it: it.ask_commit()), BEGUN),
    Row("Session.ask_rollback Session.settle", "ROLLBACK", asks(lambda it: it.ask_rollback()), BEGUN),
    Row("Session.ask_reset Session.settle", "RESET", asks(lambda it: it.ask_reset())),
    Row("Session.ask Session.settle", "DISCARD", asks(lambda it: it.ask("DISCARD", 0x2F, {"n": -1})),
        UNREAD_BY_SESSION),
)
# One more call. Those of a transaction, a result and the records of a pipeline are done if there are any.
AGAIN = {
    "Connection.run": lambda it: it.connection.run("PUT"),
    "Connection.read": lambda it: it.connection.read("GET"),
    "Connection.reset": lambda it: it.connection.reset(),
    "Connection.transaction": by("enter_transaction"),
    "Connection.pipeline": by("enter_pipeline"),
    "Session.run": lambda it: it.session.run("PUT"),
    "Session.begin": lambda it: it.session.begin(),
    "Session.commit": lambda it: it.session.commit(),
    "Session.rollback": lambda it: it.session.rollback(),
    "Session.reset": lambda it: it.session.reset(),
    "Session.settle": lambda it: it.session.settle(),
    "Session.ask": lambda it: it.session.ask("BEGIN", 0x11, {}),
    "Session.ask_begin": lambda it: it.session.ask_begin(),
    "Session.ask_run": lambda it: it.session.ask_run("PUT"),
    "Session.ask_pull": lambda it: it.session.ask_pull("PUT"),
    "Session.ask_commit": lambda it: it.session.ask_commit(),
    "Session.ask_rollback": lambda it: it.session.ask_rollback(),
    "Session.ask_reset": lambda it: it.session.ask_reset(),
    "Transaction.run": lambda it: it.tx.run("PUT"),
    "Transaction.commit": lambda it: it.tx.commit(),
    "Transaction.rollback": lambda it: it.tx.rollback(),
    "Result.next": by("rest"),
    "Result.data": lambda it: it.result.data(),
    "Result.values": lambda it: it.result.values(),
    "Result.single": lambda it: it.result.single(),
    "Result.consume": lambda it: it.result.consume(),
    "Result.summary": by("summary"),
    "Deferred.iter": lambda it: list(it.asked),
}
# These exchange nothing.
SILENT = {"Connection.keeps_tokens", "Connection.server", "Connection.timeout", "Connection.version", "Result.keys",
          "Deferred.result", "Session.keeps_tokens", "Session.server", "Session.timeout", "Transaction.bookmark",
          "Transaction.is_open", "Transaction.outcome"}
# A close may be called again. What a pipeline asks goes out with its block.
NOT_AGAIN = {"Connection.close", "Session.close", "Pipeline.begin", "Pipeline.run", "Pipeline.commit",
             "Pipeline.rollback"}


def told(requests):
    return [(it.ordinal, it.kind, it.outcome) for it in requests]


def wanted(whole, there):
    """Returns the requests that a call has to report by the rules, if all are answered, and if no round follows.

    `whole` is the stage of the same call without an end. `there` is the line of this one."""
    requests, first, row = whole.line.talk.requests, whole.first, whole.row
    outcomes = rules.outcomes(requests, there.heard, there.handed)
    for number, kinds in enumerate(row.rounds, 1):
        asked = range(first, first + len(kinds))
        is_answered, is_last = all(requests[it].told <= there.heard for it in asked), number == len(row.rounds)
        first += len(kinds)
        if not is_answered or is_last:
            break
    # The RESET isn't asked before the FAILURE came.
    of_caller = asked[:len(asked) - row.added] if is_last else asked
    if any(requests[it].told > there.heard for it in of_caller):
        asked = of_caller
    return [(it, requests[it].kind, outcomes[it]) for it in asked], is_answered, is_last


def result_of(whole, there):
    """Returns the kind and outcome of the request that ended the first query's result. None if it isn't ended.

    A result ends with the last of its rows, or with a PULL or DISCARD whose answer didn't come."""
    requests = whole.line.talk.requests
    outcomes = rules.outcomes(requests, there.heard, there.handed)
    first, (last, _, _) = [it.kind for it in requests].index("PULL"), wanted(whole, there)[0][-1]
    for it, outcome in zip(requests[first:last + 1], outcomes[first:]):
        if it.kind not in ("PULL", "DISCARD"):
            return None
        if it.told > there.heard or not it.has_more:
            return it.kind, outcome
    return None


class Calls(unittest.TestCase):
    """Checks of the reports of each row. A subclass has the stage and the rows."""

    maxDiff = None
    stage, rows = Stage, CALLS

    def setUp(self):
        # The connections that end aren't closed.
        there = warnings.catch_warnings()
        there.__enter__()
        self.addCleanup(there.__exit__, None, None, None)
        warnings.simplefilter("ignore", ResourceWarning)

    def whole(self, row):
        """Does a call at a connection that doesn't end, and compares what it asks with the row."""
        stage = self.stage(row)
        why = stage.run()
        kinds = [it.kind for it in stage.line.talk.requests[stage.first:]]
        self.assertEqual([it for kinds in row.rounds for it in kinds], kinds)
        self.check(stage, stage, why)
        return stage

    def check(self, whole, stage, why, interrupt=None):
        """Compares what a call reports with the rules, and with what the server has committed."""
        row, end = whole.row, stage.line
        asked, is_answered, is_last = wanted(whole, end)
        raised = bolt.Broken if not is_answered and not (row.hides and is_last) else row.leaves
        self.assertEqual(raised if not interrupt else type(interrupt), type(why), repr(why))
        # After a FAILURE that is raised, the RESET isn't among the requests.
        reported = asked[:len(asked) - row.added] if type(why) is bolt.Refused else asked
        self.assertEqual(reported, told(stage.session.requests))
        if isinstance(why, bolt.errors.Told):
            self.assertEqual(reported, told(why.requests))
        outcomes = rules.outcomes(whole.line.talk.requests[:asked[-1][0] + 1], end.heard, end.handed)
        committed, unknown = outcomes.count(bolt.COMMITTED), outcomes.count(bolt.UNKNOWN)
        self.assertIn(len(stage.table.commits), range(committed, committed + unknown + 1))
        return asked

    def check_again(self, whole, stage, asked, why):
        """Does each further call after the end of a connection, then closes it, and does each again.

        Each raises the end again. What is known of a result is read without the connection."""
        for is_closed in (False, True):
            for name, call in AGAIN.items():
                kind, _, part = name.partition(".")
                there = {"Transaction": stage.tx, "Result": stage.result, "Deferred": stage.asked,
                         "Session": hasattr(stage.session, part), "Connection": True}
                if not there[kind]:
                    continue
                ended = result_of(whole, stage.line) if kind == "Result" else None
                is_held = ended in (("PULL", bolt.DONE), ("PULL", bolt.COMMITTED))
                again, what = stage.raised(call), (name, is_closed)
                if ended and (is_held or part in ("summary", "consume")):
                    self.assertNotIsInstance(again, bolt.BoltError, what)
                    self.assertEqual(ended[1], stage.result._summary().outcome, what)
                else:
                    said = told(again.requests) if isinstance(again, bolt.Broken) else repr(again)
                    self.assertEqual((asked, why), (said, getattr(again, "why", None)), what)
            self.assertIsNone(stage.raised(lambda it: it.connection.close()))

    def check_ends(self, ways):
        """Ends the connection after each byte, each way. `ways` says how a send fails after the client's last byte."""
        for row in self.rows:
            whole = self.whole(row)
            ends = [("told", at, True) for at in range(len(whole.line.talk.said) - whole.said)]
            ends += [("asked", at, by_system) for at in range(whole.line.gone - whole.sent) for by_system in ways]
            for way, at, by_system in ends:
                with self.subTest(row.name, way=way, at=at, by_system=by_system):
                    stage = self.stage(row)
                    why = stage.run(**{way: at}, by_system=by_system)
                    asked = self.check(whole, stage, why)
                    # Some of the ends are enough for all further calls.
                    if at % 16 == 0:
                        self.check_again(whole, stage, asked, bolt.GONE)

    def check_openings(self, ways):
        """Ends a connection after each byte of its opening."""
        whole = memory.Line(Table())
        self.assertIsNone(self.stage.opening(whole))
        ends = [("told", at, True) for at in range(len(whole.talk.said))]
        ends += [("asked", at, by_system) for at in range(whole.gone) for by_system in ways]
        for way, at, by_system in ends:
            with self.subTest(way=way, at=at, by_system=by_system):
                line = memory.Line(Table())
                line.arm(**{way: at}, by_system=by_system)
                why = self.stage.opening(line)
                # Nothing is asked before the version is known.
                requests = whole.talk.requests if line.heard >= len(VERSION) else []
                outcomes = rules.outcomes(requests, line.heard, line.handed)
                asked = [(ordinal, it.kind, outcomes[ordinal]) for ordinal, it in enumerate(requests)]
                self.assertEqual((bolt.Broken, bolt.GONE, asked), (type(why), why.why, told(why.requests)))

    def check_failures(self, kind, reason):
        """Has each call of the socket raise an exception, before or after it did its work."""
        for row in self.rows:
            whole = self.whole(row)
            for number in range(whole.line.calls):
                for is_after in (False, True):
                    with self.subTest(row.name, call=number, is_after=is_after):
                        stage, failure = self.stage(row), kind()
                        why = stage.run(fails=(number, is_after, failure))
                        asked = self.check(whole, stage, why, failure if reason == bolt.INTERRUPTED else None)
                        if stage.session._why == reason:
                            self.check_again(whole, stage, asked, reason)

    def check_names(self, prefix, *kinds):
        """Compares the rows with the public names of classes."""
        names = {f"{it.__name__[len(prefix):]}.{name}" for it in kinds for name in dir(it) if not name.startswith("_")}
        done = {it for row in self.rows for it in row.calls}
        self.assertEqual(names - SILENT, {it for it in done if it in names})
        self.assertEqual(names - SILENT - NOT_AGAIN, {it for it in AGAIN if it in names})
