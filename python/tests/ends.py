"""Servers that end a connection while it is opened, and the errors that a client must raise for each."""
import paths  # noqa: F401

import concurrent.futures
import contextlib
import socket
import struct
import time

import bolt
import support

# What a server at 5.1 sends: the version, and an empty SUCCESS.
TOOK, SUCCESS = bytes([0, 0, 1, 5]), bytes.fromhex("0003B170A00000")
BEFORE, BOTH = "before any request", "HELLO: LOST, LOGON: LOST"
# What a server sends after each read, what it then sends again and again, and if it then closes, resets or waits;
# the text of the error, and the type of its cause.
ENDS = (
    ((bytes(4),), b"", "waits", f"{BEFORE} ({bolt.NO_VERSION})", None),
    ((b"HTTP/1.1 400 Bad Request\r\n\r\n",), b"", "closes", f"{BEFORE} ({bolt.NOT_BOLT})", None),
    ((bytes([0, 0, 3, 4]),), b"", "waits", f"{BEFORE} ({bolt.NOT_BOLT})", None),
    ((), b"", "closes", f"{BEFORE} ({bolt.GONE})", None),
    ((), b"", "resets", f"{BEFORE} ({bolt.GONE})", ConnectionResetError),
    ((), b"", "waits", f"{BEFORE} ({bolt.TIMED_OUT})", TimeoutError),
    ((TOOK,), b"", "waits", f"{BOTH} ({bolt.TIMED_OUT})", TimeoutError),
    ((TOOK,), b"\0\0", "waits", f"{BOTH} ({bolt.TIMED_OUT})", TimeoutError),
    ((TOOK, bytes.fromhex("4000B170A18178D13FF0")), b"x", "waits", f"{BOTH} ({bolt.TIMED_OUT})", TimeoutError),
    ((TOOK, SUCCESS), b"", "closes", f"HELLO: DONE, LOGON: LOST ({bolt.GONE})", None),
    ((TOOK, bytes.fromhex("0001000000")), b"", "waits", f"{BOTH} ({bolt.BAD_ANSWER})", None),
)
# Seconds: the timeout of a client whose time should run out, and that of any other.
SHORT, LONG = 5, 2 * support.PATIENCE
# The client must give up before SOON. Until ON_AND_ON the server sends again and again.
SOON, ON_AND_ON = SHORT + support.PATIENCE, SHORT + 2 * support.PATIENCE


def ending(listener, said, again, how):
    """Serves one connection so."""
    peer, _ = listener.accept()
    with peer, contextlib.suppress(OSError):
        peer.recv(20, socket.MSG_WAITALL)
        for place, piece in enumerate(said):
            peer.sendall(piece)
            if place < len(said) - 1:
                peer.recv(4096)
        over = time.monotonic() + ON_AND_ON
        while again and time.monotonic() < over:
            peer.sendall(again)
            time.sleep(0.02)
        if how == "resets":
            peer.setsockopt(socket.SOL_SOCKET, socket.SO_LINGER, struct.pack("ii", 1, 0))
        while how == "waits" and not again and peer.recv(4096):
            pass


def outcome(connect, said, again, how, text):
    """Connects to such a server. Returns what was raised, and after how many seconds."""
    with support.listening() as listener:
        server = support.in_thread(ending, listener, said, again, how)
        began = time.monotonic()
        why = support.raised(lambda: connect(support.port_of(listener), SHORT if bolt.TIMED_OUT in text else LONG))
        took = time.monotonic() - began
        server.join()
    return why, took


def check(test, connect):
    """Checks that each end is reported with its reason, in time. `connect` takes a port and a timeout."""
    with concurrent.futures.ThreadPoolExecutor(len(ENDS)) as pool:
        told = list(pool.map(lambda row: outcome(connect, *row[:4]), ENDS))
    for (said, again, how, text, cause), (why, took) in zip(ENDS, told):
        with test.subTest(said=said, again=again, how=how):
            # The detail says what to do. test_mistakes.py compares it.
            test.assertEqual((bolt.Broken, text), (type(why), str(why).replace(f": {why.detail})", ")")))
            test.assertEqual(text.partition("(")[2].rstrip(")"), why.why)
            test.assertEqual(cause or type(None), type(why.__cause__))
            test.assertLess(took, SOON, "seconds")
