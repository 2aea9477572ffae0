"""Answers of a server to `examples query`, and the fate of its transaction or the rows and error of its query."""
from tests.lib.fake_servers import (BEFORE, BUSY, CLASH, CLOSED, DONE, IGNORED, REFUSED, ROW, UNAUTHORIZED, V50, V51,
                                    failure, told)

STANDS = V51 + told(*BEFORE, DONE)
LOST = V51 + told(*BEFORE)
REFUSED_LOGIN = failure(UNAUTHORIZED)

# What the server does, its answer to each connection (the last one also to all later ones), the number of tries, and
# the fate if the program may send again after a doubt (its word `tokens`). The query that the program runs after the
# transaction takes the next connection.
ATTEMPTS = [
    ("closes without an answer", [CLOSED], 2, "Absent"),
    ("takes no version", [bytes(4)], 2, "Absent"),
    ("takes a version that wasn't offered", [bytes.fromhex("00000205")], 2, "Absent"),
    ("speaks another protocol", [b"HTTP/1.1 400 Bad Request\r\n\r\n"], 2, "Absent"),
    ("closes after the version", [V51], 1, "Open"),
    ("refuses HELLO", [V51 + told(failure(REFUSED))], 3, "Refused"),
    ("refuses HELLO with the login", [V50 + told(REFUSED_LOGIN)], 3, "Refused"),
    ("refuses LOGON", [V51 + told(DONE, REFUSED_LOGIN)], 3, "Refused"),
    ("refuses RUN", [V51 + told(*BEFORE[:3], failure(REFUSED), IGNORED, IGNORED)], 3, "Refused"),
    ("refuses RUN, and closes", [V51 + told(*BEFORE[:3], failure(REFUSED))], 3, "Refused"),
    ("refuses BEGIN for now", [V51 + told(*BEFORE[:2], failure(BUSY), IGNORED, IGNORED, IGNORED)], 2, "Absent"),
    ("refuses BEGIN for now, and then commits",
     [V51 + told(*BEFORE[:2], failure(BUSY), IGNORED, IGNORED, IGNORED), STANDS], 2, "Stands"),
    ("refuses COMMIT for other writes", [V51 + told(*BEFORE, failure(CLASH))], 3, "Clash"),
    ("refuses COMMIT for good", [V51 + told(*BEFORE, failure(REFUSED))], 3, "Refused"),
    ("refuses COMMIT for now", [V51 + told(*BEFORE, failure(BUSY))], 2, "Absent"),
    ("closes before COMMIT is answered", [LOST], 2, "Open"),
    ("answers COMMIT with a request", [LOST + told(bytes.fromhex("B101A0"))], 1, "Open"),
    ("answers COMMIT with a text that isn't UTF-8", [LOST + told(bytes.fromhex("B170A181FF01"))], 1, "Open"),
    ("answers DISCARD with a row", [V51 + told(*BEFORE[:4], ROW, DONE, DONE)], 1, "Open"),
    ("refuses after a doubt", [LOST, V51 + told(*BEFORE[:3], failure(REFUSED), IGNORED, IGNORED)], 2, "Open"),
    ("refuses for other writes after a doubt", [LOST, V51 + told(*BEFORE, failure(CLASH))], 3, "Clash"),
    ("commits after a doubt", [LOST, LOST, STANDS], 5, "Stands"),
    ("commits", [STANDS], 5, "Stands"),
]
# Those rows in which it would send again after a doubt. Without the word `tokens` it doesn't, and the fate is Open.
DOUBTS = {"closes before COMMIT is answered", "refuses after a doubt", "refuses for other writes after a doubt",
          "commits after a doubt"}
# Tokens that no request can carry.
TOKENS = [("of no byte", ""), ("of 65 bytes", "t" * 65)]
# The server's answers to a query after a committed transaction (to HELLO and LOGON, then to RUN and PULL), the rows
# that the program prints, and the error.
IN = (V51, told(DONE, DONE))
QUERIES = [
    ("that is refused", (*IN, told(failure(REFUSED, "no such text"), IGNORED)), [], f"{REFUSED}: no such text"),
    ("that is refused with a text of two lines", (*IN, told(failure(REFUSED, "no\nAbsent"), IGNORED)), [],
     f"{REFUSED}: no\\nAbsent"),
    ("whose login is refused", V51 + told(DONE, failure(UNAUTHORIZED, "who")), [], f"{UNAUTHORIZED}: who"),
    ("of 999 rows", (*IN, told(DONE, *[ROW] * 999, DONE)), ["row [Int(1)]"] * 999, ""),
    ("of 1,000 rows, the most that are kept", (*IN, told(DONE, *[ROW] * 1000, DONE)), [], "broken off"),
    ("with a row before its columns", (*IN, told(ROW, DONE)), [], "broken off"),
    ("without an answer", IN, [], "broken off"),
    ("with half an answer", (*IN, told(DONE, ROW)), [], "broken off"),
]
# The exit status of the program by its fate. It is 3 after `Stands` if something failed later.
STATUS = {"Stands": (0, 3), "Clash": (4,), "Refused": (5,), "Open": (6,), "Absent": (7,)}
# The line on standard error for each fate but `Stands`.
MEANING = {
    "Clash": "Clash: other writes have the token",
    "Refused": "Refused: the server refused it; no attempt committed, and none will",
    "Open": "Open: an attempt may have committed, once or not at all",
    "Absent": "Absent: no attempt committed, and none will",
}
