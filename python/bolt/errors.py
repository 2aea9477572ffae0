"""Outcomes of requests, reasons why a connection is gone, and the exceptions: one tree under `BoltError`."""
from __future__ import annotations

from typing import Any, Optional, Protocol, Sequence

from . import mistakes

OUTCOMES = ("DONE", "COMMITTED", "REFUSED", "IGNORED", "LOST", "UNKNOWN")
DONE, COMMITTED, REFUSED, IGNORED, LOST, UNKNOWN = OUTCOMES

# Why a connection is gone.
NO_VERSION = "the server took no version"
NOT_BOLT = "not Bolt: the answer isn't a version that was offered"
TIMED_OUT = "time-out"
GONE = "the server closed the connection"
FAILED = "the socket failed"
UNREACHED = "the server can't be reached"
BAD_ANSWER = "the server sent what no server may"
TOO_LARGE = "a message of the server takes more than 65,536 bytes"
NO_MEMORY = "out of memory"
INTERRUPTED = "interrupted"
CLOSED_HERE = "closed"
ENDED = "a FAILURE ended the session"  # raised as Refused
# After these, another connection may succeed.
PASSING = TIMED_OUT, GONE, FAILED, UNREACHED

FAULTS = {1: "the request isn't allowed here", 2: "no room among the 32 requests that may wait",
          3: "the message is too long", 4: "the client has ended", 5: "out of memory",
          6: "the server sent what no server may", 7: "the request can't be written", 8: "no request of this version",
          9: "nothing was heard", 10: "no version has this number", 11: "no value is there", 12: TOO_LARGE,
          100: "the connection is closed"}


class Account(Protocol):
    """The account of the outcomes of requests: the client of the library."""

    def outcome(self, ordinal: int, begins: int) -> Optional[str]: ...


class Request:
    """A request with its outcome once it is known, from the library's account, and with its summary and rows.

    `kind` is the name of its message, as COMMIT. `ordinal` is its number among the requests of its connection, from 0,
    which is that of HELLO. It is None if the request was never asked."""

    def __init__(self, text: str, outcome: Optional[str] = None, metadata: Optional[dict[str, Any]] = None,
                 rows: Optional[list[list[Any]]] = None, kind: str = "", ordinal: Optional[int] = None, *,
                 account: Optional[Account] = None, begins: int = 0) -> None:
        self.text, self.kind, self.ordinal, self._begins = text, kind, ordinal, begins
        self.metadata: dict[str, Any] = {} if metadata is None else metadata
        self.rows: list[list[Any]] = [] if rows is None else rows
        self._outcome, self._account = outcome, account

    @property
    def outcome(self) -> Optional[str]:
        """One of OUTCOMES, None as long as it isn't known."""
        account, ordinal = self._account, self.ordinal
        if account is not None and ordinal is not None and (told := account.outcome(ordinal, self._begins)):
            # This is final: the client isn't needed for it after this.
            self._outcome, self._account = told, None
        return self._outcome

    def _shown(self) -> tuple[str, Optional[str], dict[str, Any], list[list[Any]], str, Optional[int]]:
        return self.text, self.outcome, self.metadata, self.rows, self.kind, self.ordinal

    def __eq__(self, other: object) -> bool:
        return isinstance(other, Request) and self._shown() == other._shown()

    __hash__ = None  # type: ignore[assignment]

    def __reduce__(self) -> tuple[Any, ...]:
        return Request, self._shown()

    def __repr__(self) -> str:
        return "Request(text={!r}, outcome={!r}, metadata={!r}, rows={!r}, kind={!r}, ordinal={!r})".format(
            *self._shown())


def committed(requests: Sequence[Request]) -> Optional[str]:
    """Returns what became of the commits among requests.

    It is UNKNOWN if one is unknown or waits, else COMMITTED if one is, else LOST; None if there are no requests."""
    outcomes = [it.outcome or UNKNOWN for it in requests]
    return next((it for it in (UNKNOWN, COMMITTED) if it in outcomes), LOST if outcomes else None)


class BoltError(Exception):
    """The base of the exceptions of this package.

    Arguments that can't be packed raise TypeError, ValueError or RecursionError, which change nothing."""

    def is_retryable(self) -> bool:
        """Returns true if the same work may succeed later, and nothing of it is committed or in doubt."""
        return False


class NotSent(BoltError):
    """A call was refused, and it sent nothing. Earlier requests keep their outcomes, which `session.requests` has.

    `code` is that of bolt.h. `rule` is the one that the message breaks, as `M5`. `place` is where, as bolt.h counts it:
    a byte of the message (P) or a structure of the parameters (S). It is None for a rule without a place."""

    def __init__(self, code: int, rule: str = "", place: Optional[int] = None, hint: str = "") -> None:
        super().__init__(code, rule, place, hint)
        self.code, self.rule, self.place, self.hint = code, rule, place, hint

    def __str__(self) -> str:
        broken = self.rule if self.place is None else f"{self.rule} at {self.place}"
        return ": ".join(it for it in (FAULTS.get(self.code, str(self.code)), broken, self.hint) if it)


class Told(BoltError):
    """The base of exceptions with `requests`: those asked since all were settled, in order.

    Each has its `ordinal`, its `kind` and its `outcome`."""

    requests: list[Request]

    @property
    def outcomes(self) -> list[tuple[str, Optional[str]]]:
        """Each request's text with its outcome, in order."""
        return [(it.text, it.outcome) for it in self.requests]

    @property
    def outcome(self) -> Optional[str]:
        """UNKNOWN if a commit of the requests is unknown, else COMMITTED if one is, else LOST. None if there are none.

        If there are several commits, as in a pipeline, read `outcomes`."""
        return committed(self.requests)


class Refused(Told):
    """The server's FAILURE, by its code and message.

    A transaction that was open is gone, and the session is ready again if it lives on."""

    def __init__(self, code: str, message: str, requests: list[Request]) -> None:
        super().__init__(code, message, requests)
        self.code, self.message, self.requests = code, message, requests

    def __str__(self) -> str:
        return f"{self.code}: {self.message}{mistakes.refused(self.code)}"

    def is_retryable(self) -> bool:
        """Returns true for a code that calls for another try, if no commit of the requests is known or in doubt."""
        return mistakes.is_passing(self.code) and self.outcome not in (COMMITTED, UNKNOWN)


class Broken(Told):
    """The connection broke, was given up, or was never made. Each call after that raises it again.

    `why` is one of the reasons NO_VERSION to CLOSED_HERE. `__cause__` is the socket's own error if there is one. If the
    connection couldn't be made, `detail` has the text of that error, and what to do."""

    def __init__(self, requests: list[Request], why: str, detail: str = "") -> None:
        super().__init__(requests, why, *([detail] if detail else []))
        self.requests, self.why, self.detail = requests, why, detail

    def __str__(self) -> str:
        told = ", ".join(f"{it.text}: {it.outcome}" for it in self.requests) or "before any request"
        return f"{told} ({self.why}: {self.detail})" if self.detail else f"{told} ({self.why})"

    def is_retryable(self) -> bool:
        """Returns true if the server can't be reached or is gone, and no commit is known or in doubt."""
        return self.why in PASSING and self.outcome not in (COMMITTED, UNKNOWN)


def unreached(failed: OSError, is_tls: bool) -> Broken:
    """Returns the exception for a server that can't be reached: the text of the socket's own error, and what to do."""
    return Broken([], UNREACHED, mistakes.unreached(failed, is_tls))
