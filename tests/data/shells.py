"""Answers of a server to `bolt shell`, and what the shell prints for them."""

V51, SUCCESS = "00000105", "0003B170A00000"
ROW_1, ROW_2, ROW_3 = "0004B17191010000", "0004B17191020000", "0004B17191030000"
HAS_MORE = "000DB170A1886861735F6D6F7265C30000"
UNKNOWN_TEXT = ("0044B17FA284636F6465D0254E656F2E436C69656E744572726F722E53746174656D656E742E556E6B6E6F776E54657874"
                "876D6573736167658C756E6B6E6F776E20746578740000")
# To the handshake, HELLO, LOGON, RUN, two PULLs (two rows and that there are more; then the last row) and RUN of an
# unknown text.
ANSWERS = [V51, SUCCESS, SUCCESS, SUCCESS, ROW_1 + ROW_2 + HAS_MORE, ROW_3 + SUCCESS, UNKNOWN_TEXT]
# To the handshake, HELLO, LOGON and BEGIN. COMMIT gets no answer, the beginning of one, or a RECORD in its place.
GONE = [V51, SUCCESS, SUCCESS, SUCCESS]
GONE_IN_AN_ANSWER = [V51, SUCCESS, SUCCESS, SUCCESS + "0003B1"]
BAD = [*GONE, ROW_1]
LINES = "hello\nlogon\n\nrun ROWS A1816E03\npull 2\npull 2\npull 1\nrun NOPE A0\nnothing\nreset"
PRINTED = (
    "heard 0 Done Unauth\nheard 1 Done Ready\nheard 2 Done Streaming\nrow 9101\nrow 9102\nheard 3 Done Streaming\n"
    "row 9103\nheard 4 Committed Ready\nline 7 C1\nheard 5 Refused Halted\n"
    "fault Neo.ClientError.Statement.UnknownText unknown text\n")
COMMITS = "hello\nlogon\nbegin\ncommit\n"
BEGUN = "heard 0 Done Unauth\nheard 1 Done Ready\nheard 2 Done TxReady\n"
REQUESTS = ("hello, logon [bad], logoff, goodbye, reset, run TEXT HEX [r] [token T], begin [r] [token T], commit, "
            "rollback, discard N or pull N\n")
# The beginning of standard error if the server takes a version, and if it takes none.
GREETED = f"version 5.1; each line is a request: {REQUESTS}"
NOT_GREETED = "the server took no version\nno conversation\n"
# A name; the server's answers; whether it then resets the connection or closes it; the lines of standard input; the
# beginning of standard error; standard output; the end of standard error; the status.
SHELLS = [
    ("rows, a refused RUN, and a line that can't be read", ANSWERS, False, LINES, GREETED, PRINTED,
     f"line 9 unreadable\nexpected {REQUESTS}", 2),
    ("no line", ANSWERS[:1], False, "", GREETED, "", "", 0),
    ("empty lines", ANSWERS[:2], False, "\n\nhello", GREETED, "heard 0 Done Unauth\n", "", 0),
    # The client has ended by GOODBYE, so nothing is lost.
    ("a line after GOODBYE", ANSWERS[:1], False, "goodbye\nreset", GREETED, "line 2 C4\n", "", 0),
    ("a reset in place of the version", [], True, LINES, "", "", "fault I1\n", 1),
    ("a reset in place of an answer", ANSWERS[:2], True, LINES, GREETED, "heard 0 Done Unauth\n",
     "lost 1 Lost\nfault I1\n", 1),
    # The server may have committed, however the connection ended.
    ("the server closes after COMMIT", GONE, False, COMMITS, GREETED, BEGUN,
     "lost 3 Unknown\nthe server is gone\n", 0),
    ("the server closes in the answer to COMMIT", GONE_IN_AN_ANSWER, False, COMMITS, GREETED, BEGUN,
     "lost 3 Unknown\nthe server is gone\n", 0),
    ("the server answers COMMIT with a row", BAD, False, COMMITS, GREETED, BEGUN,
     "lost 3 Unknown\nthe server's answer can't be: C6\n", 0),
    ("the server resets after COMMIT", GONE, True, COMMITS, GREETED, BEGUN, "lost 3 Unknown\nfault I1\n", 1),
    # RUN can't have committed, and COMMIT isn't sent.
    ("the server closes after RUN", GONE, False, "hello\nlogon\nbegin\nrun PUT A0\ncommit\n", GREETED,
     BEGUN + "line 5 C4\n", "lost 3 Lost\nthe server is gone\n", 0),
    ("the server takes no version", ["00000000"], False, "hello", NOT_GREETED, "line 1 C4\n", "", 0),
]
# The text of a FAILURE, and how it is printed.
ESCAPES = [
    ("unknown text", "unknown text"),
    ("", ""),
    ("no\nheard 4 Committed Ready", "no\\nheard 4 Committed Ready"),
    ("\x1b[2J\r", "\\u{1b}[2J\\u{0d}"),
    # U+2028 separates lines, and U+202E turns the direction of the text.
    ("no\u2028heard 3 Committed Ready\u202eydaeR", "no\\u{2028}heard 3 Committed Ready\\u{202e}ydaeR"),
    # A backslash stays as it is.
    ("a\\n", "a\\n"),
    # Of each range that is escaped: the character before it, its first, its last, and the character after it.
    ("\0\x1f\x20", "\\u{00}\\u{1f}\x20"),
    ("\x7e\x7f\x9f\xa0", "\x7e\\u{7f}\\u{9f}\xa0"),
    ("\u061b\u061c\u061d", "\u061b\\u{61c}\u061d"),
    ("\u200a\u200b\u200f\u2010", "\u200a\\u{200b}\\u{200f}\u2010"),
    ("\u2027\u2028\u202e\u202f", "\u2027\\u{2028}\\u{202e}\u202f"),
    ("\u205f\u2060\u2064\u2065", "\u205f\\u{2060}\\u{2064}\u2065"),
    ("\u2065\u2066\u206f\u2070", "\u2065\\u{2066}\\u{206f}\u2070"),
    ("\ufefe\ufeff\uff00", "\ufefe\\u{feff}\uff00"),
    ("\U000e0000\U000e0001\U000e0002", "\U000e0000\\u{e0001}\U000e0002"),
    ("\U000e001f\U000e0020\U000e007f\U000e0080", "\U000e001f\\u{e0020}\\u{e007f}\U000e0080"),
]


def failure(message):
    """Returns a FAILURE of the code X with a text of at most 255 bytes, in one chunk, in hex."""
    text = message.encode()
    body = bytes.fromhex("B17FA284636F64658158876D657373616765D0") + bytes([len(text)]) + text
    return (len(body).to_bytes(2, "big") + body + b"\0\0").hex()
