"""The bytes that official drivers send at 5.1, 5.0 and 4.4, and the answers to them.

They are written by hand. The requests follow the public Bolt specification ("Handshake", "Bolt Protocol message
specification"), with the entries that the drivers for Python, JavaScript and Java send. The answers follow
docs/PROFILE.md. In a row, hexadecimal digits are bytes, and a text in quotes is its ASCII. Blanks only separate them.
"""
import re


def data(row):
    """Returns the bytes of a row."""
    parts = re.findall(r'"[^"]*"|[0-9A-Fa-f ]+', row)
    return b"".join(it[1:-1].encode() if it[0] == '"' else bytes.fromhex(it) for it in parts)


NOTHING = "B170A0"
AUTH = '86"scheme" 85"basic" 89"principal" 84"user" 8B"credentials" 84"pass"'
AGENTS = 'd0 1F"neo4j-python/5.28.1 Python/3.12"'
GREETED = 'B170 A2 86"server" 8B"BoltTable/1" 8D"connection_id" 86"bolt-0"'
ONE_RUN, ONE_ROW = 'B170 A2 86"fields" 91 83"one" 87"t_first" 00', "B171 91 01"

# A name; the handshake and its answer; each message, and the messages that answer it.
TRANSCRIPTS = [
    (
        "5.1, a transaction of a driver that offers a manifest and a range of eight minor versions first",
        "6060B017 000001FF 00080805 00020404 00000003", "00000105",
        [
            # HELLO
            (f'B101 A4 8A"user_agent" {AGENTS} 8A"bolt_agent" A3 87"product" d0 13"neo4j-python/5.28.1"'
             ' 88"platform" 8B"Linux 6.8.0" 88"language" 8D"Python/3.12.3"'
             ' 87"routing" C0 d0 1E"notifications_minimum_severity" 87"WARNING"', [GREETED]),
            (f"B16A A3 {AUTH}", [NOTHING]),
            # BEGIN
            ('B111 A4 89"bookmarks" 91 84"bk:0" 82"db" 85"neo4j" 8A"tx_timeout" C97530 84"mode" 81"r"', [NOTHING]),
            ('B310 83"ONE" A0 A0', [ONE_RUN]),
            ('B13F A1 81"n" C903E8', [ONE_ROW, 'B170 A2 84"type" 81"r" 86"t_last" 00']),
            ("B012", ['B170 A1 88"bookmark" 84"bk:1"']),
            # RESET, as a connection goes back to its pool, and GOODBYE
            ("B00F", [NOTHING]),
            ("B002", []),
        ],
    ),
    (
        "5.0, two auto-commits of a driver, the second refused, and what is ignored behind it",
        "6060B017 00000005 00020404 00000104 00000003", "00000005",
        [
            (f'B101 A5 8A"user_agent" {AGENTS} 87"routing" C0 {AUTH}', [GREETED]),
            ('B310 83"PUT" A2 83"key" 81"a" 85"value" C97530 A3 89"bookmarks" 90 82"db" 85"neo4j"'
             ' 8B"tx_metadata" A1 83"app" 84"shop"', ['B170 A2 86"fields" 90 87"t_first" 00']),
            ('B13F A2 81"n" C903E8 83"qid" FF', ['B170 A3 88"bookmark" 84"bk:1" 84"type" 81"w" 86"t_last" 00']),
            ('B310 8D"MATCH (n) ..." A0 A1 84"mode" 81"r"',
             ['B17F A2 84"code" d0 25"Neo.ClientError.Statement.UnknownText" 87"message" 8C"unknown text"']),
            ('B13F A1 81"n" C903E8', ["B07E"]),
            ("B00F", [NOTHING]),
            ('B310 83"GET" A1 83"key" 81"a" A1 84"mode" 81"r"', ['B170 A2 86"fields" 91 85"value" 87"t_first" 00']),
            ('B13F A1 81"n" C903E8', ["B171 91 C97530", 'B170 A3 88"bookmark" 84"bk:2" 84"type" 81"r" 86"t_last" 00']),
            ("B002", []),
        ],
    ),
    (
        "4.4, a transaction of a driver that writes, rolled back, and one that stands",
        "6060B017 00020404 00000104 00000004 00000003", "00000404",
        [
            (f'B101 A6 8A"user_agent" {AGENTS} 87"routing" C0 8A"patch_bolt" 91 83"utc" {AUTH}', [GREETED]),
            ('B111 A1 82"db" 85"neo4j"', [NOTHING]),
            ('B310 83"PUT" A2 83"key" 81"a" 85"value" 01 A0', ['B170 A2 86"fields" 90 87"t_first" 00']),
            ('B12F A1 81"n" FF', ['B170 A2 84"type" 81"w" 86"t_last" 00']),
            ("B013", [NOTHING]),
            ("B00F", [NOTHING]),
            ('B111 A2 89"bookmarks" 90 8A"tx_timeout" C91388', [NOTHING]),
            ('B310 84"KEYS" A0 A0', ['B170 A2 86"fields" 91 83"key" 87"t_first" 00']),
            ('B13F A1 81"n" C903E8', ['B170 A2 84"type" 81"r" 86"t_last" 00']),
            ("B012", ['B170 A1 88"bookmark" 84"bk:1"']),
            ("B002", []),
        ],
    ),
]
