"""Scripts that the program `test_player` plays, and random events and bytes."""
import random

from tests.data import scripts as rows

# Results and resets in a pipeline, and a transaction.
RESETS = rows.READY + rows.RESETS
TRANSACTION = rows.PIPELINE + rows.SERVER + rows.WORK + rows.CLIENT
# A COMMIT reaches the server, and the client is lost before the answer reaches it. Then another connection opens.
LOST_COMMIT = rows.COMMIT + "server 0 6\nclientlost 0\nopen 5.1\nwork 0 all\n"
# A RUN of three rows: the first is written and not delivered.
ROW_ON_ITS_WAY = rows.READY + """submit 0 run ROWS A1816E03
submit 0 pull -1
server 0 all
work 0
work 0
client 0 65536
"""
SCRIPTS = (RESETS, TRANSACTION, LOST_COMMIT)


def attempt(conn, value=1):
    """Returns a client at 5.1 whose pipeline holds all requests of a transaction under a token."""
    asked = ("hello", "logon", "begin token t1", f"run PUT A2836B657981618576616C7565{value:02}", "pull -1", "commit")
    lines = "".join(f"submit {conn} {it}\n" for it in asked)
    return f"open 5.1\nserver {conn} all\nclient {conn} all\n{lines}"


def answered(conn, value=1):
    """Returns the same with its answers."""
    return attempt(conn, value) + f"server {conn} all\nwork {conn} all\nclient {conn} all\n"


LOST, ARRIVES, WORKED = rows.CLIENT_LOST, rows.SERVER, rows.WORK + rows.CLIENT
# The same transaction by a foreign peer on connection 1.
STRANGER = "open foreign\n" + "".join(f"foreign 1 {it}\n" for it in (
    "6060B01700000105000000000000000000000000", "0012B101A18A757365725F6167656E7483742F310000",
    "0030B16AA386736368656D65856261736963897072696E636970616C84757365728B63726564656E7469616C7384706173730000",
    "0019B111A18B74785F6D65746164617461A185746F6B656E8274310000", "0015B31083505554A2836B657981618576616C756501A00000",
    "0006B13FA1816EFF0000", "0002B0120000")) + "work 1 all\n"
# A transaction that is sent again under its token after its client was lost with the COMMIT.
# The second attempt is answered after the first, before it, or has another value.
# A foreign peer commits the same in between, or the engine brings the entry.
REPEATED = {
    "repeated": ("play", attempt(0) + LOST + ARRIVES + WORKED + answered(1)),
    "overtaken": ("play", attempt(0) + LOST + ARRIVES + answered(1) + WORKED),
    "clashing": ("play", attempt(0) + LOST + ARRIVES + WORKED + answered(1, 2)),
    "taken": ("play", attempt(0) + LOST + STRANGER + answered(2) + ARRIVES + WORKED),
    "brought": ("brought", attempt(0) + ARRIVES + WORKED),
}
NAMED = {"resets": ("play", RESETS), "transaction": ("play", TRANSACTION), "lost commit": ("play", LOST_COMMIT),
         **REPEATED}
# Scripts, and how many summaries the session of the first connection wrote.
# One COMMIT is delivered whole before the client is lost, and of another only a part.
# At the end each loss comes at each point of a pipeline's moves.
MOVES = (rows.SERVER, rows.WORK, rows.CLIENT)
WROTE = [("", 0), (RESETS, 7), (rows.READY + rows.REFUSED + rows.CLIENT, 6), (LOST_COMMIT, 6),
         (LOST_COMMIT.replace("server 0 6", "server 0 5"), 5)]
for event, counts in ((rows.CLIENT_LOST, (6, 6, 6, 6)), (rows.CUT, (0, 6, 6, 6)), (rows.SERVER_LOST, (0, 0, 6, 6))):
    WROTE += [(rows.PIPELINE + "".join((*MOVES[:at], event, *MOVES[at:])), count) for at, count in enumerate(counts)]
EVENTS = ("cut 0", "clientlost 0", "serverlost 0")


def with_line(script, after, line):
    """Returns the script with a line put in after so many lines."""
    lines = script.split("\n")
    return "\n".join([*lines[:after], line, *lines[after:]])


def with_losses():
    """Returns each script with each loss after each of its lines, and a name for each."""
    return [(f"{event} after line {after} of script {at}", with_line(script, after, event))
            for at, script in enumerate(SCRIPTS) for after in range(1, script.count("\n") + 1) for event in EVENTS]


# The bytes that a stranger sends: a handshake for 5.1 and 4.4, HELLO, LOGON, RESET, BEGIN without a token and with one,
# COMMIT, ROLLBACK, GOODBYE, RUN PUT of a number, RUN ROWS of three, PULL of all, DISCARD of all, LOGOFF, a no-op.
SAID = [bytes.fromhex(it) for it in (
    "6060B01700000105000004040000000000000000", "0012B101A18A757365725F6167656E7483742F310000",
    "0030B16AA386736368656D65856261736963897072696E636970616C84757365728B63726564656E7469616C7384706173730000",
    "0002B00F0000", "0003B111A00000",
    "0019B111A18B74785F6D65746164617461A185746F6B656E8274310000", "0002B0120000", "0002B0130000", "0002B0020000",
    "0015B31083505554A2836B657981618576616C756501A00000", "000CB31084524F5753A1816E03A00000", "0006B13FA1816EFF0000",
    "0006B12FA1816EFF0000", "0002B06B0000", "0000")]
AMOUNTS = (0, 1, 2, 7, 64, 500, *["all"] * 6)
REQUESTS = ["hello", "logon", "logoff", "goodbye", *["reset"] * 4, *["begin"] * 7, *["commit"] * 8, *["rollback"] * 3,
            *["discard"] * 4, *["pull"] * 15, *["run"] * 15]
TEXTS = ("ONE", "ROWS", "PUT", "PUT", "PUT", "GET", "KEYS", "ECHO", "WALK", "NOPE")


def torn(chance, said):
    """Returns the bytes with some of them changed, taken out or put in."""
    odds, out = chance.randrange(2, 22) * 3, bytearray()
    for byte in said:
        way = chance.randrange(odds)
        if way == 0:
            out.append(chance.randrange(256))
        elif way == 2:
            out += bytes([byte, chance.randrange(256)])
        elif way != 1:
            out.append(byte)
    return bytes(out)


class Chance:
    """Random events on the last connections of a world, or on one that wasn't opened: the same for the same seed.

    Its scripts are for `mixed`: a HELLO on a line of an odd number is one of another version.
    """

    def __init__(self, seed):
        self.chance, self.peers, self.said, self.line = random.Random(seed), [], [], 0
        # How many bytes of the handshake, and of the version answer, have moved on each connection.
        self.up, self.down = [], []

    def script(self, events):
        """Returns so many more events, one a line."""
        return "".join(f"{self.event()}\n" for _ in range(events))

    def event(self):
        """Returns the next event."""
        chance = self.chance
        self.line += 1
        if not self.peers or chance.randrange(60) == 0:
            self.peers.append(chance.choice(("newest", "4.4", "5.0", "5.1", "foreign", "foreign")))
            for counts in (self.said, self.up, self.down):
                counts.append(0)
            return f"open {self.peers[-1]}"
        conn = len(self.peers) - 1 - chance.randrange(min(4, len(self.peers)))
        way = chance.randrange(1000)
        if way < 6:
            return (f"cut {conn}", f"clientlost {conn}", f"serverlost {conn}", f"work {len(self.peers)}",
                    f"submit {conn} {self.request(9)}", f"foreign {conn} {self.bytes(9)}")[way]
        if way < 500:
            return f"noop {conn}" if way < 20 else f"work {conn}" if way < 350 else self.moves("client", conn)
        self.said[conn] += 1
        if self.peers[conn] == "foreign":
            return f"foreign {conn} {self.bytes(self.said[conn] - 1)}"
        if chance.randrange(2):
            self.said[conn] -= 1
            return self.moves("server", conn)
        request = self.request(self.said[conn] - 1)
        # The client refuses what comes before the version is delivered, and a HELLO of another version.
        self.said[conn] -= self.down[conn] < 4 or request == "hello" and self.line % 2
        return f"submit {conn} {request}"

    def moves(self, to, conn):
        """Returns an event that moves bytes to the server or to the client."""
        amount = self.chance.choice(AMOUNTS)
        count = 65_536 if amount == "all" else amount
        if to == "server":
            self.up[conn] += count
        elif self.up[conn] >= 20:
            self.down[conn] += count
        return f"{to} {conn} {amount}"

    def request(self, asked):
        """Returns a request of a client that has sent so many: HELLO first, and often LOGON next."""
        chance = self.chance
        word = "hello" if asked == 0 else "logon" if asked == 1 and chance.randrange(2) else chance.choice(REQUESTS)
        mode = chance.choice(("", "", " r")) + chance.choice((" token t1", " token t2", *[""] * 4))
        if word == "run":
            key, number = chance.choice((b"a", b"b", b"c")), chance.randrange(5)
            value = bytes([number])
            params = b"\xA4\x83key\x81" + key + b"\x85value" + value + b"\x81n" + value + b"\x81x\xC0"
            return f"run {chance.choice(TEXTS)} {params.hex()}{mode}"
        if word in ("pull", "discard"):
            return f"{word} {chance.choice((-1, -1, 1, 2, 0))}"
        return word + mode * (word == "begin")

    def bytes(self, said):
        """Returns what a stranger sends after so many pieces: a handshake or a message, and sometimes a damaged one."""
        at = 2 if said == 2 else 1
        if said == 0 or said > 2:
            at = self.chance.randrange(2 if said == 0 else len(SAID))
        return (torn(self.chance, SAID[at]) if self.chance.randrange(12) == 0 else SAID[at]).hex() or "00"
