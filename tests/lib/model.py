"""A check of what is seen of a world's events, and reported of it, against what clients may rely on.

The program `test_player` plays scripts on a world, and prints both.
The check doesn't decode bytes: which messages were delivered whole, it takes from what is seen of each event.
It counts the queries that a summary commits by the phases that the summaries lead to.
"""
import dataclasses
import re
import subprocess

# The faults that the check finds.
READ = "the client read other summaries than those that were delivered whole to it"
ROWS = "the client received a row that its query doesn't have at that index, or not all rows"
NUMBERS = "summaries, losses and waiting requests aren't numbered in order, or aren't all that was sent"
LEDGER = "the ledger has other entries than the summaries that commit under new tokens, or other writes"
TOKEN = "two entries have one token"
OUTCOME = "an outcome doesn't follow from its summary or from the loss, or isn't true of the ledger"
END = "the session ended because of bytes that a client of this product doesn't send"
TORN = "a refused event changed what is reported"
UNPLAYED = "a line was refused, or the output can't be read"

STATES = ("Fresh", "Unauth", "Ready", "Streaming", "TxReady", "TxStreaming", "Failed", "Interrupted", "Defunct")
VERDICTS = ("Success", "More", "Failure", "Ignored", "Invalid", "Gone")
INTERRUPTIBLE = ("Ready", "Streaming", "TxReady", "TxStreaming", "Failed")
BAD_ENDS = ("BadMagic", "NoVersion", "TooBig", "Malformed", "Invalid")
# A cell that is no number and no text.
OTHER = object()


@dataclasses.dataclass(frozen=True)
class Request:
    """A request of a script's line."""
    kind: str
    text: str = ""
    params: tuple = ()
    count: int = -1
    token: str = None

    def named(self, name):
        """Returns a parameter, or None."""
        return dict(self.params).get(name)


def request_of(words):
    """Returns the request of a line's words."""
    kind = words[0].capitalize()
    first = 3 if kind == "Run" else 1
    token = words[words.index("token", first) + 1] if "token" in words[first:] else None
    if kind == "Run":
        return Request(kind, words[1], tuple(params_of(bytes.fromhex(words[2]))), token=token)
    return Request(kind, count=int(words[1]) if kind in ("Pull", "Discard") else -1, token=token)


def params_of(bytes_):
    """Yields the parameters of an encoded dictionary of texts, small numbers and nulls."""
    at, count = 1, bytes_[0] & 15
    for _ in range(count):
        size = bytes_[at] & 15
        name, at = bytes_[at + 1:at + 1 + size].decode(), at + 1 + size
        head = bytes_[at]
        if head >> 4 == 8:
            size = head & 15
            yield name, bytes_[at + 1:at + 1 + size].decode()
            at += 1 + size
        else:
            yield name, head if head < 128 else OTHER
            at += 1


def is_same(one, other):
    """Returns false if two numbers or two texts differ."""
    return one == other if type(one) is type(other) and type(one) in (int, str) else True


def cell_of(text):
    """Returns the cell of its printed text."""
    number, word = re.fullmatch(r"Int\((-?\d+)\)", text), re.fullmatch(r'Text\("(.*)"\)', text)
    return int(number[1]) if number else word[1] if word else OTHER


def row_count(run):
    """Returns how many rows a query has, or None if that depends on the table."""
    return {"ONE": 1, "ECHO": 1, "WALK": 1, "PUT": 0, "ROWS": run.named("n")}.get(run.text)


def is_row(run, passed, text):
    """Returns true if a query may have this row after so many others, whatever the table holds."""
    cells = re.fullmatch(r"\[(Int\(-?\d+\)|Text\(\"[^\"]*\"\)|Null|Path\(.*\))\]", text)
    count = row_count(run)
    if not cells or isinstance(count, int) and passed >= count:
        return False
    cell, is_path = cell_of(cells[1]), cells[1].startswith("Path(")
    echoes = "x" in dict(run.params) and is_same(cell, run.named("x"))
    return {"ONE": cell == 1, "ROWS": cell == passed + 1, "ECHO": echoes, "WALK": is_path,
            "KEYS": isinstance(cell, str), "GET": passed == 0}.get(run.text, False)


class Listening:
    """The rows and summaries that a client was seen to receive, compared with what its session was seen to write."""

    def __init__(self, is_deaf):
        self.told, self.rows_left, self.wrote, self.open = [], 0, 0, None
        self.is_deaf, self.are_rows_wrong, self.is_short = is_deaf, False, False

    def ends(self):
        """Notes that all bytes that the session wrote were delivered."""
        self.is_short |= not self.is_deaf and (self.rows_left > 0 or len(self.told) != self.wrote)

    def hears(self, sent, told):
        """Notes a row or a summary that the client received."""
        if row := re.fullmatch(r"row (.*)", told):
            self.hears_row(sent, row[1])
        elif summary := re.fullmatch(r"summary (\d+) (\w+) (.*)", told):
            ordinal, response = int(summary[1]), summary[3]
            self.closes(sent, ordinal, response)
            self.told.append((ordinal, summary[2], response.partition("(")[0].partition(" ")[0]))

    def hears_row(self, sent, text):
        """Notes a row, which must be the next of the open result."""
        self.are_rows_wrong |= self.rows_left == 0 or self.open is None
        self.rows_left = max(0, self.rows_left - 1)
        if self.open is not None:
            run, passed = self.open
            self.are_rows_wrong |= run >= len(sent) or not is_row(sent[run], passed, text)
            self.open = run, passed + 1

    def closes(self, sent, ordinal, response):
        """Notes a summary, which opens a result, leaves it open, or closes it."""
        was, self.open = self.open, None
        if not response.startswith("Success") or ordinal >= len(sent):
            return
        request, is_partial = sent[ordinal], '("has_more", Bool(true))' in response
        if request.kind == "Run":
            self.open = ordinal, 0
        elif was and request.kind == "Pull":
            if is_partial:
                self.open = was
            else:
                wanted = row_count(sent[was[0]])
                self.are_rows_wrong |= isinstance(wanted, int) and wanted != was[1]
        elif was and request.kind == "Discard" and is_partial and request.count >= 0:
            self.open = was[0], was[1] + request.count


class Account:
    """The queries since the last end of a transaction or a result, and their token."""

    def __init__(self):
        self.clear()

    def clear(self):
        """Forgets the queries."""
        self.runs, self.token = [], None

    def commits(self, request, phase):
        """Notes that a request was answered, with the phase that its summary leads to.

        Returns true if that commits the queries that are kept.
        """
        if (request.kind, phase) in (("Run", "Streaming"), ("Begin", "TxReady")):
            self.runs, self.token = [request] if request.kind == "Run" else [], request.token
        elif (request.kind, phase) == ("Run", "TxStreaming"):
            self.runs.append(request)
        elif request.kind in ("Pull", "Discard", "Commit") and phase == "Ready":
            return True
        elif not (phase in ("Streaming", "TxStreaming") or request.kind in ("Pull", "Discard") and phase == "TxReady"):
            self.clear()
        return False

    def is_entry(self, entry):
        """Returns true if an entry has just the writes of the queries that are kept, under their token."""
        puts = [(it.named("key"), it.named("value")) for it in self.runs
                if it.text == "PUT" and isinstance(it.named("key"), str)]
        return entry.token == self.token and len(puts) == len(entry.writes) and all(
            key == held and is_same(value, cell) for (key, value), (held, cell) in zip(puts, entry.writes))


@dataclasses.dataclass(frozen=True)
class Entry:
    """An entry of the ledger."""
    conn: int
    ordinal: int
    token: str
    writes: list


@dataclasses.dataclass(frozen=True)
class Connection:
    """The report on a connection. `version` is None for a stranger; `standing` has the state, or why it ended."""
    version: str
    waits: int
    standing: tuple
    wrote: list
    read: list
    lost: list


def members(pattern, text):
    """Returns the groups of each match. A group of digits comes back as a number."""
    return [tuple(int(it) if it.isdigit() else it for it in found) for found in re.findall(pattern, text)]


class Report:
    """The report on a world, of the lines that `test_player` prints."""

    def __init__(self, lines):
        self.is_torn, self.connections, self.entries = lines[0] != "report false", [], []
        rows = [line for line in lines[1:] if not line.startswith("entry ")]
        for told, wrote, read, lost in zip(*[iter(rows)] * 4):
            peer, waits, is_ended, where = re.fullmatch(r"conn (\S+) (\d+) (Stands|Ended)\((\w+)\)", told).groups()
            version = None if peer == "Foreign" else (re.search(r"V\d+", peer) or ["V51"])[0]
            self.connections.append(Connection(
                version, int(waits), (is_ended, where),
                members(r"Wrote \{ ordinal: (\d+), phase: (\w+) \}", wrote),
                members(r"Read \{ ordinal: (\d+), phase: (\w+), outcome: (\w+) \}", read),
                members(r"\((\d+), (\w+)\)", lost)))
        for line in lines[len(rows) + 1:]:
            conn, ordinal, token, writes = re.fullmatch(
                r'entry Entry \{ id: EntryId \{ conn: (\d+), ordinal: (\d+) \}, token: (?:None|Some\("(.*?)"\)), '
                r'writes: \[(.*)\] \}', line).groups()
            pairs = re.findall(r'Write \{ key: "(.*?)", value: (.*?) \}', writes)
            held = [(key, cell_of(cell)) for key, cell in pairs]
            self.entries.append(Entry(int(conn), int(ordinal), token, held))
        if len(self.connections) * 4 + len(self.entries) + 1 != len(lines):
            raise ValueError(lines)


class Doubt:
    """The phases that a session may be in after requests whose answers were not delivered.

    It begins with the phase of the last delivered summary, and follows the machine's rows.
    From each state it takes the rows of all verdicts.
    """

    def __init__(self, machine, version, phase):
        self.machine, self.version, self.phases = machine, version, {phase}

    def may_commit(self, request):
        """Returns true if the request commits in one of the phases."""
        return {"Pull": "Streaming", "Discard": "Streaming", "Commit": "TxReady"}.get(request.kind) in self.phases

    def passes(self, request):
        """Moves to the phases after the request."""
        states = [it for it in STATES if self.machine.phases[it] in self.phases]
        states += ["Interrupted"] * any(it in INTERRUPTIBLE for it in states)
        is_partial = request.kind in ("Pull", "Discard") and request.count >= 0
        rows = (self.machine.rows.get((self.version, state, request.kind, verdict))
                for state in states for verdict in VERDICTS if verdict != "More" or is_partial)
        self.phases = {self.machine.phases[it] for it in rows if it}


class Machine:
    """The rows of the state machine, as `test_player` prints them."""

    def __init__(self, program):
        lines = [line.split() for line in told_by(program, "rows\n").split("\n")]
        self.phases = {it[0]: it[1] for it in lines if len(it) == 2}
        self.rows = {tuple(it[:4]): it[4] for it in lines if len(it) == 5}
        if {*self.phases} != {*STATES} or len(self.rows) < 100:
            raise ValueError(lines)


def told_by(program, asked, **how):
    """Returns what a program prints about its input."""
    how = {"stdout": subprocess.PIPE, "stderr": subprocess.DEVNULL, "text": True, "timeout": 600, **how}
    return subprocess.run([str(program)], input=asked, **how).stdout


class Play:
    """A script as it is played: what is seen of each event in order."""

    def __init__(self, script):
        self.lines = script.split("\n")
        self.sent, self.heard, self.report, self.is_refused = [], [], None, False

    def sees(self, number, told):
        """Notes what is seen of the event of a line."""
        words = self.lines[number - 1].split()
        self.is_refused |= re.fullmatch(r"V\d|out of memory", told) is not None
        conn = int(words[1]) if words[0] != "open" else len(self.sent)
        if words[0] == "open" and told == f"opened {conn}":
            self.sent.append([])
            self.heard.append(Listening(words[1] == "foreign"))
        elif words[0] == "submit" and told.startswith("submitted Ok("):
            self.sent[conn].append(request_of(words[2:]))
        elif gave := re.fullmatch(r"gave (\d+) (.*)", told):
            self.heard[conn].hears(self.sent[conn], gave[2])
            if gave[1] == "0" and words[2] != "0":
                self.heard[conn].ends()
        elif told.startswith("worked "):
            self.heard[conn].rows_left += told == "worked Row"
            self.heard[conn].wrote += told.startswith("worked Wrote")
        elif words[0] in ("cut", "clientlost") and told == "nothing":
            self.heard[conn].is_deaf = True

    def goes(self, told):
        """Reads the output up to each report in turn, and yields the number of the line before the report."""
        number, rows = 0, []
        for line in [*told.rstrip("\n").split("\n"), "0 end"]:
            seen = re.fullmatch(r"(\d+) (.*)", line)
            if rows and (seen or line.startswith("report ")):
                self.report, rows = Report(rows), []
                yield number
            if not seen:
                rows.append(line)
            elif seen[1] != "0":
                number = int(seen[1])
                self.sees(number, seen[2])


class Ledger:
    """The ledger as one connection sees it."""

    def __init__(self, entries, conn):
        self.entries, self.conn = entries, conn

    def of(self, ordinal):
        """Returns the entries of the connection's request of this number."""
        return [it for it in self.entries if (it.conn, it.ordinal) == (self.conn, ordinal)]


def fault_in(machine, play):
    """Returns the first fault of a world after the lines that were played so far, or None.

    Each of our connections numbers its requests in order, and its client read just what was delivered whole to it.
    The ledger has one entry for each summary that commits, or had it before under the token. Each token is there once.
    Each outcome follows from its summary, or from the loss, and is true of the ledger.
    """
    tokens = [it.token for it in play.report.entries if it.token is not None]
    if len({*tokens}) != len(tokens):
        return TOKEN
    if len(play.report.connections) != len(play.sent):
        return NUMBERS
    if play.report.is_torn:
        return TORN
    faults = (fault_of(machine, play, conn, told) for conn, told in enumerate(play.report.connections))
    return next((it for it in faults if it), None)


def fault_of(machine, play, conn, told):
    """Returns the first fault of a report on a connection, or None."""
    if told.version is None:
        return None
    sent, heard, ledger = play.sent[conn], play.heard[conn], Ledger(play.report.entries, conn)
    if heard.is_short or not reads_what_was_heard(heard, told):
        return READ
    if heard.are_rows_wrong:
        return ROWS
    if not numbers_in_turn(sent, told):
        return NUMBERS
    if told.standing[0] == "Ended" and told.standing[1] in BAD_ENDS:
        return END
    repeats = repeats_of(sent, told, ledger)
    if repeats is None:
        return LEDGER
    if not tells_the_truth(told, ledger, repeats):
        return OUTCOME
    is_right = tells_of_summaries(sent, heard, told) and tells_of_the_loss(machine, sent, told)
    return None if is_right else OUTCOME


def reads_what_was_heard(heard, told):
    """Returns true if the client read just the summaries it received, which are the first that the session wrote."""
    read = [it[:2] for it in told.read]
    return read == [it[:2] for it in heard.told] and read == told.wrote[:len(read)]


def numbers_in_turn(sent, told):
    """Returns true if summaries are numbered from 0, losses follow them, and with those that wait they are all."""
    heard = len(told.read)
    return ([it[0] for it in told.wrote] == [*range(len(told.wrote))]
            and [it[0] for it in told.lost] == [*range(heard, heard + len(told.lost))]
            and heard + len(told.lost) + told.waits == len(sent)
            and len(told.wrote) <= len(sent) and (not told.lost or told.waits == 0))


def repeats_of(sent, told, ledger):
    """Returns the requests whose commit added nothing, because their token was already used.

    Returns None if the ledger doesn't have one entry of this connection for each other summary that commits.
    It also returns None if an entry has other writes or another token.
    """
    account, repeats, commits = Account(), [], 0
    for request, (ordinal, phase) in zip(sent, told.wrote):
        if not account.commits(request, phase):
            continue
        own = ledger.of(ordinal)
        found = own if account.token is None else [it for it in ledger.entries if it.token == account.token]
        if len(own) > 1 or not found or not account.is_entry(found[0]):
            return None
        account.clear()
        if found[0] in own:
            commits += 1
        else:
            repeats.append(ordinal)
    return repeats if commits == sum(it.conn == ledger.conn for it in ledger.entries) else None


def is_true(outcome, entries):
    """Returns true if an outcome is true of a request with so many entries."""
    return entries == 1 if outcome == "Committed" else entries <= 1 if outcome == "Unknown" else entries == 0


def tells_the_truth(told, ledger, repeats):
    """Returns true if each outcome is true of the ledger.

    A committed request has one entry, or its token has. One that is done, refused, ignored or lost has none.
    One that is unknown or waits has at most one.
    """
    heard = [(ordinal, outcome) for ordinal, _, outcome in told.read
             if outcome != "Committed" or ordinal not in repeats]
    waiting = range(len(told.read), len(told.read) + told.waits)
    return (all(is_true(outcome, len(ledger.of(ordinal))) for ordinal, outcome in heard + told.lost)
            and all(len(ledger.of(it)) <= 1 for it in waiting))


def tells_of_summaries(sent, heard, told):
    """Returns true if each outcome that was read follows from its summary.

    SUCCESS is Committed if it commits, and else Done. FAILURE is Refused, and IGNORED is Ignored.
    """
    account, wanted = Account(), []
    for request, (_, phase, _), (_, _, answer) in zip(sent, told.read, heard.told):
        commits = account.commits(request, phase)
        wanted.append({"Failure": "Refused", "Ignored": "Ignored"}.get(answer, "Committed" if commits else "Done"))
    return wanted == [it[2] for it in told.read]


def tells_of_the_loss(machine, sent, told):
    """Returns true if each outcome at the loss is Unknown if the request may have committed, and else Lost."""
    doubt = Doubt(machine, told.version, told.read[-1][1] if told.read else "Fresh")
    for request, (_, outcome) in zip(sent[len(told.read):], told.lost):
        if outcome != ("Unknown" if doubt.may_commit(request) else "Lost"):
            return False
        doubt.passes(request)
    return True
