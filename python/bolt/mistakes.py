"""Says what to do when a connection can't be made, or a server refuses a request."""
from __future__ import annotations

import socket
import ssl

TLS = (
    "the TLS handshake failed. If the server speaks no TLS at this port, connect without it: "
    "by bolt:// in place of bolt+s://, or without `tls`"
)
CERTIFICATE = (
    "the server's certificate isn't trusted. Give `tls` a context of ssl that knows its CA, "
    "or use bolt+ssc:// to trust any certificate"
)
UNKNOWN_NAME = "no address was found for this host. Check its name, and this machine's network"
NOBODY = (
    "no server listens at this port. Check that the server runs, "
    "and that this is its port: 7687 if none was chosen"
)
SILENT = (
    "nothing answered in time. Check the host and the port, and whether a firewall drops packets"
)
NO_TLS = ". If the server speaks no TLS at this port, connect without it"
OTHER = "check the host, the port, and this machine's network"
NO_ANSWER = (
    "the server didn't answer the handshake. It may have as many connections as it takes, "
    "16 at bolt_server: close some, or make the pool smaller. Or it speaks TLS at this port: "
    "then use bolt+s:// or `tls`"
)
# How asyncio says that no address of a host takes connections.
SEVERAL = "Multiple exceptions: [Errno 111]"
# How the first bytes of a server of another protocol begin, and what to do.
PROTOCOLS = (
    (b"HTTP/", "this is HTTP. Give the port of Bolt, 7687 if none was chosen"),
    (b"\x15\x03", "this is TLS. Use bolt+s://, or give `tls`"),
    (b"\x16\x03", "this is TLS. Use bolt+s://, or give `tls`"),
    (b"SSH-", "this is SSH. Give the port of Bolt, 7687 if none was chosen"),
)
LOGIN = {
    "Neo.ClientError.Security.Unauthorized": "Check the user and the password of `auth`",
    "Neo.ClientError.Security.AuthenticationRateLimit": "Wait some seconds, then check `auth`",
}
TRANSIENT = "Neo.TransientError."
# These begin like codes that pass, but the client itself asked for the end.
STOPPED = (
    "Neo.TransientError.Transaction.Terminated",
    "Neo.TransientError.Transaction.LockClientStopped",
)
# Codes of members of a cluster that can't write.
ELSEWHERE = (
    "Neo.ClientError.Cluster.NotALeader",
    "Neo.ClientError.General.ForbiddenOnReadOnlyDatabase",
    "Neo.ClientError.Security.AuthorizationExpired",
)


def is_passing(code: str) -> bool:
    """Returns true if a FAILURE of this code calls for another try."""
    return code.startswith(TRANSIENT) and code not in STOPPED or code in ELSEWHERE


def refused(code: str) -> str:
    """Returns what to do after a FAILURE of this code, as the rest of a sentence; often nothing."""
    return f". {LOGIN[code]}" if code in LOGIN else ""


def unreached(failed: OSError, is_tls: bool) -> str:
    """Returns the text of a socket's error while it connects, and what to do."""
    if isinstance(failed, ssl.SSLCertVerificationError):
        what = CERTIFICATE
    elif isinstance(failed, socket.gaierror):
        what = UNKNOWN_NAME
    elif isinstance(failed, ConnectionRefusedError) or SEVERAL in str(failed):
        what = NOBODY
    elif isinstance(failed, (TimeoutError, socket.timeout)):
        what = SILENT + (NO_TLS if is_tls else "")
    elif is_tls and isinstance(failed, (ssl.SSLError, ConnectionError)):
        what = TLS
    else:
        what = OTHER
    return f"{failed or type(failed).__name__}: {what}"


def unopened(piece: bytes) -> str:
    """Returns what to do if a server chooses no version, from the first bytes that it sends.

    No bytes mean that it sent none before the end."""
    if not piece:
        return NO_ANSWER
    found = [what for begins, what in PROTOCOLS if piece.startswith(begins)]
    return f"it begins with {piece[:12]!r}: {found[0]}" if found else ""
