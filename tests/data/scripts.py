"""Scripts for `bolt replay`, and what the program prints for each."""

# A client at 5.1 that has logged on.
READY = """open 5.1
server 0 all
client 0 all
submit 0 hello
submit 0 logon
server 0 all
work 0 all
client 0 all
"""
READY_TOLD = """conn 0
heard 0 Done Unauth
heard 1 Done Ready
"""
# A RESET interrupts between two rows, and another RESET comes after a RUN.
RESETS = """submit 0 run ROWS A1816E03
submit 0 pull -1
server 0 all
work 0
work 0
submit 0 reset
submit 0 run ONE A0
submit 0 reset
server 0 all
work 0 all
client 0 all
"""
RESETS_TOLD = """heard 2 Done Streaming
heard 3 Ignored Halted
heard 4 Done Ready
heard 5 Ignored Halted
heard 6 Done Ready
server Ready
"""
# A transaction with one write: its answers were read, and then its COMMIT was submitted.
COMMIT = """open 5.1
server 0 all
client 0 all
submit 0 hello
submit 0 logon
submit 0 begin
submit 0 run PUT A2836B657981618576616C756501
submit 0 pull -1
server 0 all
work 0 all
client 0 all
submit 0 commit
"""
COMMIT_TOLD = """conn 0
heard 0 Done Unauth
heard 1 Done Ready
heard 2 Done TxReady
heard 3 Done TxStreaming
heard 4 Done TxReady
lost 5 Unknown
"""
# A pipeline whose RUN is refused.
REFUSED = """submit 0 begin
submit 0 run NOPE A0
submit 0 pull -1
submit 0 commit
server 0 all
work 0 all
"""
REFUSED_TOLD = """heard 2 Done TxReady
heard 3 Refused Halted
"""
# A whole transaction in one pipeline. Three further lines (SERVER, WORK, CLIENT) move it to its end.
PIPELINE = """open 5.1
server 0 all
client 0 all
submit 0 hello
submit 0 logon
submit 0 begin
submit 0 run PUT A2836B657981618576616C756501
submit 0 pull -1
submit 0 commit
"""
SERVER = "server 0 all\n"
WORK = "work 0 all\n"
CLIENT = "client 0 all\n"
CLIENT_LOST = "clientlost 0\n"
CUT = "cut 0\n"
SERVER_LOST = "serverlost 0\n"
ALL_LOST = """conn 0
lost 0 Lost
lost 1 Lost
lost 2 Lost
lost 3 Lost
lost 4 Lost
lost 5 Unknown
"""
ALL_WAIT = """conn 0
waits 0
waits 1
waits 2
waits 3
waits 4
waits 5
"""
ALL_HEARD = """conn 0
heard 0 Done Unauth
heard 1 Done Ready
heard 2 Done TxReady
heard 3 Done TxStreaming
heard 4 Done TxReady
heard 5 Committed Ready
"""
COMMITTED = "server Ready\nentry 0 5 1\n"
ENDED = "server ended E8\n"
ENDED_AFTER = "server ended E8\nentry 0 5 1\n"
# The same pipeline under the token `t1`.
UNDER_TOKEN = """open 5.1
server 0 all
client 0 all
submit 0 hello
submit 0 logon
submit 0 begin token t1
submit 0 run PUT A2836B657981618576616C756501
submit 0 pull -1
submit 0 commit
"""
# The same transaction on the next connection, without a loss.
AGAIN = """open 5.1
server 1 all
client 1 all
submit 1 hello
submit 1 logon
submit 1 begin token t1
submit 1 run PUT A2836B657981618576616C756501
submit 1 pull -1
submit 1 commit
server 1 all
work 1 all
client 1 all
"""
AGAIN_HEARD = """conn 1
heard 0 Done Unauth
heard 1 Done Ready
heard 2 Done TxReady
heard 3 Done TxStreaming
heard 4 Done TxReady
heard 5 Committed Ready
server Ready
"""
# A transaction with another value under the same token.
OTHER = """open 5.1
server 1 all
client 1 all
submit 1 hello
submit 1 logon
submit 1 begin token t1
submit 1 run PUT A2836B657981618576616C756502
submit 1 pull -1
submit 1 commit
server 1 all
work 1 all
client 1 all
"""
OTHER_HEARD = """conn 1
heard 0 Done Unauth
heard 1 Done Ready
heard 2 Done TxReady
heard 3 Done TxStreaming
heard 4 Done TxReady
heard 5 Refused Halted
server Failed
"""
# The same transaction by a foreign peer, and then by a client of ours.
FOREIGN_FIRST = """open foreign
foreign 1 6060B01700000105000000000000000000000000
foreign 1 0012B101A18A757365725F6167656E7483742F310000
foreign 1 0030B16AA386736368656D65856261736963897072696E636970616C84757365728B63726564656E7469616C7384706173730000
foreign 1 0019B111A18B74785F6D65746164617461A185746F6B656E8274310000
foreign 1 0015B31083505554A2836B657981618576616C756501A00000
foreign 1 0006B13FA1816EFF0000
foreign 1 0002B0120000
work 1 all
open 5.1
server 2 all
client 2 all
submit 2 hello
submit 2 logon
submit 2 begin token t1
submit 2 run PUT A2836B657981618576616C756501
submit 2 pull -1
submit 2 commit
server 2 all
work 2 all
client 2 all
"""
FOREIGN_FIRST_HEARD = """conn 1
server Ready
conn 2
heard 0 Done Unauth
heard 1 Done Ready
heard 2 Done TxReady
heard 3 Done TxStreaming
heard 4 Done TxReady
heard 5 Committed Ready
server Ready
"""
SIXTEEN_FRESH = "".join(f"conn {number}\nserver Fresh\n" for number in range(16))
# A foreign peer that agreed on 5.1.
FOREIGN = "open foreign\nforeign 0 6060B01700000105000000000000000000000000\n"
A_RESET = "foreign 0 0002B00F0000\n"
ONE_ENTRY = "entry 0 5 1 token 7431\n"
# A name, a script in parts, and what is printed for it, in parts.
REPLAYED = [
    ("an empty script", [], []),
    ("RESET between two rows, and RESET after RUN", [READY, RESETS], [READY_TOLD, RESETS_TOLD]),
    ("the client is lost after the server has all of COMMIT",
     [COMMIT, "server 0 6\nclientlost 0\nopen 5.1\nwork 0 all\n"],
     [COMMIT_TOLD, "server Ready\nconn 1\nserver Fresh\nentry 0 5 1\n"]),
    ("the client is lost after the server has a part of COMMIT",
     [COMMIT, "server 0 5\nclientlost 0\nopen 5.1\nwork 0 all\n"],
     [COMMIT_TOLD, "server TxReady\nconn 1\nserver Fresh\n"]),
    ("requests after a failure are ignored", [READY, REFUSED, CLIENT],
     [READY_TOLD, REFUSED_TOLD, "heard 4 Ignored Halted\nheard 5 Ignored Halted\nserver Failed\n"]),
    ("the client is lost after it read the failure",
     [READY, REFUSED, "client 0 65536\nclient 0 65536\nclientlost 0\n"],
     [READY_TOLD, REFUSED_TOLD, "lost 4 Lost\nlost 5 Lost\nserver Failed\n"]),
    ("the client is lost before it read the failure", [READY, REFUSED, CLIENT_LOST],
     [READY_TOLD, "lost 2 Lost\nlost 3 Lost\nlost 4 Lost\nlost 5 Unknown\nserver Failed\n"]),
    # Each loss at each point between the pipeline's moves.
    ("the client is lost before the server read", [PIPELINE, CLIENT_LOST, SERVER, WORK, CLIENT], [ALL_LOST, COMMITTED]),
    ("the client is lost after the server read", [PIPELINE, SERVER, CLIENT_LOST, WORK, CLIENT], [ALL_LOST, COMMITTED]),
    ("the client is lost after the server answered", [PIPELINE, SERVER, WORK, CLIENT_LOST, CLIENT],
     [ALL_LOST, COMMITTED]),
    ("the client is lost after it read the answers", [PIPELINE, SERVER, WORK, CLIENT, CLIENT_LOST],
     [ALL_HEARD, COMMITTED]),
    ("a cut before the server read", [PIPELINE, CUT, SERVER, WORK, CLIENT], [ALL_WAIT, "server Fresh\n"]),
    ("a cut after the server read", [PIPELINE, SERVER, CUT, WORK, CLIENT], [ALL_WAIT, COMMITTED]),
    ("a cut after the server answered", [PIPELINE, SERVER, WORK, CUT, CLIENT], [ALL_WAIT, COMMITTED]),
    ("a cut after the client read the answers", [PIPELINE, SERVER, WORK, CLIENT, CUT], [ALL_HEARD, COMMITTED]),
    ("the server is lost before it read", [PIPELINE, SERVER_LOST, SERVER, WORK, CLIENT], [ALL_WAIT, ENDED]),
    ("the server is lost after it read", [PIPELINE, SERVER, SERVER_LOST, WORK, CLIENT], [ALL_WAIT, ENDED]),
    ("the server is lost after it answered", [PIPELINE, SERVER, WORK, SERVER_LOST, CLIENT], [ALL_HEARD, ENDED_AFTER]),
    ("the server is lost after the client read the answers", [PIPELINE, SERVER, WORK, CLIENT, SERVER_LOST],
     [ALL_HEARD, ENDED_AFTER]),
    # A transaction that is sent again under its token after a loss commits once.
    ("sent again under its token, the first attempt is processed first",
     [UNDER_TOKEN, CLIENT_LOST, SERVER, WORK, CLIENT, AGAIN], [ALL_LOST, "server Ready\n", AGAIN_HEARD, ONE_ENTRY]),
    ("sent again under its token, the second attempt is processed first",
     [UNDER_TOKEN, CLIENT_LOST, SERVER, CLIENT, AGAIN, WORK],
     [ALL_LOST, "server Ready\n", AGAIN_HEARD, "entry 1 5 1 token 7431\n"]),
    ("sent again under its token, after a foreign peer committed the same",
     [UNDER_TOKEN, CLIENT_LOST, FOREIGN_FIRST, SERVER, WORK],
     [ALL_LOST, "server Ready\n", FOREIGN_FIRST_HEARD, "entry 1 5 1 token 7431\n"]),
    ("other writes under the token clash",
     [UNDER_TOKEN, CLIENT_LOST, SERVER, WORK, CLIENT, OTHER], [ALL_LOST, "server Ready\n", OTHER_HEARD, ONE_ENTRY]),
    ("a request at the wrong time, an unknown connection, and the wrong peer",
     ["open 5.1\nsubmit 0 commit\nsubmit 3 reset\n\nopen foreign\nsubmit 1 reset\n"],
     ["line 2 C1\nline 3 V1\nline 6 V2\nconn 0\nserver Fresh\nconn 1\nserver Fresh\n"]),
    ("a count that can't be sent, and a request after its client was lost",
     [READY, "submit 0 run ROWS A1816E03\nsubmit 0 pull 0\nclientlost 0\nsubmit 0 reset\n"],
     ["line 10 C7\nline 12 C4\n", READY_TOLD, "lost 2 Lost\nserver Ready\n"]),
    ("the last of 17 openings finds 16 sessions", ["open foreign\n" * 17], ["line 17 V3\n", SIXTEEN_FRESH]),
    ("the last of 33 RESETs of a foreign peer finds its queue full", [FOREIGN, A_RESET * 33, "work 0 all"],
     ["line 35 Full\nconn 0\nserver ended E5\n"]),
    ("LOGON with other credentials is refused",
     ["open 5.1\nserver 0 all\nclient 0 all\nsubmit 0 hello\nsubmit 0 logon bad\n", SERVER, WORK, CLIENT],
     ["conn 0\nheard 0 Done Unauth\nheard 1 Refused Defunct\nserver ended E6\n"]),
    ("HELLO at 4.4 has the login",
     ["open 4.4\nserver 0 all\nclient 0 all\nsubmit 0 hello\n", SERVER, WORK, CLIENT],
     ["conn 0\nheard 0 Done Ready\nserver Ready\n"]),
    ("HELLO at 5.0 has the login, and there is no LOGON",
     ["open 5.0\nserver 0 all\nclient 0 all\nsubmit 0 logon\nsubmit 0 hello\n", SERVER, WORK, CLIENT],
     ["line 4 C1\nconn 0\nheard 0 Done Ready\nserver Ready\n"]),
    ("a message of a list of 4,294,967,295 values is malformed",
     ["open foreign\nforeign 0 6060B01700000105000004040000000000000000\nforeign 0 0005D6FFFFFFFF0000\n", WORK],
     ["conn 0\nserver ended E4\n"]),
    ("a message that is no request ends its own session alone",
     ["open newest\nopen foreign\nforeign 1 6060B01700000105000004040000000000000000\nforeign 1 0002B03F0000\n",
      "work 1 all\n"],
     ["conn 0\nserver Fresh\nconn 1\nserver ended E4\n"]),
    ("a 33rd request while 32 are pending, and RESET before HELLO",
     ["open foreign\nforeign 0 6060B01700000105000004040000000000000000\n", A_RESET * 33, WORK],
     ["line 35 Full\nconn 0\nserver ended E5\n"]),
    ("a stranger ends in the middle of a transaction, which commits",
     [COMMIT.removesuffix("submit 0 commit\n"),
      "open foreign\nforeign 1 6060B01700000105000004040000000000000000\nforeign 1 0002B03F0000\nwork 1 all\n",
      "serverlost 1\nsubmit 0 commit\n", SERVER, WORK, CLIENT],
     [ALL_HEARD, "server Ready\nconn 1\nserver ended E4\nentry 0 5 1\n"]),
    ("another protocol, no common version, and bytes after the end",
     ["open foreign\nforeign 0 474554202F20485454502F312E310D0A0D0A0D0A\nforeign 0 00\n",
      "open foreign\nforeign 1 6060B01700000003000000000000000000000000\nforeign 1 00\nwork 0\nwork 1\n"],
     ["conn 0\nserver ended E1\nconn 1\nserver ended E2\n"]),
    ("events that the connection doesn't take",
     ["open foreign\nsubmit 0 hello\nserver 0 1\nclientlost 0\nforeign 1 00\nopen 5.1\nforeign 1 00\nwork 7\n"],
     ["line 2 V2\nline 3 V2\nline 4 V2\nline 5 V1\nline 7 V2\nline 8 V1\n",
      "conn 0\nserver Fresh\nconn 1\nserver Fresh\n"]),
    ("10,000 lines", [READY, "work 0 all\nsubmit 0 commit\n" * 5000],
     ["".join(f"line {number} C1\n" for number in range(10, 10009, 2)), READY_TOLD, "server Ready\n"]),
    ("a refused line", ["open 5.1\nsubmit 0 commit\nopen foreign\n"],
     ["line 2 C1\nconn 0\nserver Fresh\nconn 1\nserver Fresh\n"]),
]
# A name, a script with a line that can't be read, and the number of that line. The program runs nothing of it.
UNREADABLE = [
    ("an unknown version", b"open 5.1\n\nopen 6.0\nwork 0 all all\n", 3),
    ("a line without its version", b"open 5.1\nopen", 2),
    ("bytes that are not UTF-8", b"\xFF", 1),
]
# What the program prints after the number of such a line.
EXPECTED = (
    "expected open newest, open 4.4, open 5.0, open 5.1, open foreign, submit K REQUEST, server K BYTES, "
    "client K BYTES, work K [all], noop K, cut K, clientlost K, serverlost K or foreign K HEX; "
    "BYTES is a number or all; REQUEST is hello, logon [bad], logoff, goodbye, reset, run TEXT HEX [r] [token T], "
    "begin [r] [token T], commit, rollback, discard N or pull N\n")
