"""Sends a transaction under its token until it is known what became of it."""
from __future__ import annotations

import contextlib
import dataclasses
import logging
import random
import secrets
import time
from typing import Any, AsyncIterator, Awaitable, Callable, Iterator, Optional, Sequence

from .connection import Connection, Transaction
from .core import LAZY, LONGEST
from .errors import (COMMITTED, DONE, TOO_LARGE, UNKNOWN, BoltError, Broken, NotSent, Refused, Request, Told,
                     committed)
from .library import NO_REQUEST, UNSENDABLE
from .queries import Transacting
from .results import Pulled

LOG = logging.getLogger("bolt")

STANDS, CLASH, REFUSED, OPEN, ABSENT = FATES = ("STANDS", "CLASH", "REFUSED", "OPEN", "ABSENT")
CLASHES = "Neo.ClientError.Transaction.TokenClash"
FINAL = "Neo.ClientError."
LONGEST_TOKEN = 64
# Lazy values are looked for in these, and in the values of a dict.
HOLD = list, tuple, set, frozenset


@dataclasses.dataclass(frozen=True)
class Known:
    """The fate of a transaction.

    - STANDS: it is committed, once. After a doubt that needs a server that keeps tokens.
    - CLASH: other writes are committed under the token. If a try was in doubt, they may be its own, from other data.
    - REFUSED: the server refuses it, and no try has committed.
    - OPEN: it may be committed, or may yet be.
    - ABSENT: no more tries are made, and none has committed.

    `value` is what the work returned in the last try. `error` is what the last try that failed raised.

    `may_repeat` is True of an OPEN transaction if each server that left it in doubt keeps tokens. It may then be sent
    again under its token, with `in_doubt=True`."""
    fate: str
    token: str
    value: Any = None
    bookmark: Optional[str] = None
    error: Optional[Exception] = None
    may_repeat: bool = False

    @property
    def stands(self) -> bool:
        return self.fate == STANDS


def pause(tried: int) -> float:
    """Returns the seconds to wait after so many tries.

    They double each time, up to five, and are randomly cut to no less than half of that."""
    return float(min(5.0, 0.05 * 2 ** min(tried, 7))) * random.uniform(0.5, 1)


def check_token(token: str) -> None:
    """Refuses a token that no request can carry."""
    if not (isinstance(token, str) and 1 <= len(token.encode("utf8", "replace")) <= LONGEST_TOKEN):
        raise NotSent(NO_REQUEST, "M5", hint=f"a token is a text of 1 to {LONGEST_TOKEN} bytes")


class Tries:
    """The tries of a transaction under a token, and what is known from how they ended.

    Of the last try it has the transaction, the value of the work, and what is known if no other try follows."""

    found: Optional[Transacting] = None
    value: Any = None
    known: Optional[Known] = None

    def __init__(self, token: Optional[str], tries: int, within: Optional[float], pause: Callable[[int], float],
                 in_doubt: bool, keeps_tokens: Optional[bool]) -> None:
        self.token = secrets.token_hex(16) if token is None else token
        self._tries, self._within, self._pause = tries, within, pause
        self._until: Optional[float] = None
        self._tried, self._error = 0, None  # type: int, Optional[Exception]
        self._is_doubtful, self._keeps_tokens = in_doubt, keeps_tokens
        # False if a second commit under the token would count at the server that answered last.
        self._is_harmless = self._may_repeat = keeps_tokens is not False

    def begin(self) -> None:
        """Refuses wrong arguments before a connection is opened, as a pause that is no function."""
        check_token(self.token)
        if not callable(self._pause):
            raise TypeError("pause is called with how many tries were made")
        is_told = self._keeps_tokens is None or isinstance(self._keeps_tokens, bool)
        if not (isinstance(self._is_doubtful, bool) and is_told):
            raise TypeError("in_doubt is True or False, and keeps_tokens True, False or None")
        if self._within is not None:
            self._until = time.monotonic() + min(self._within, LONGEST)

    def may_send(self, keeps_tokens: bool) -> bool:
        """Returns true if the transaction may be sent to a server, by what that one says of tokens.

        After a try that may have committed, another is harmless only if the server keeps tokens."""
        if self._keeps_tokens is None:
            self._is_harmless = keeps_tokens
        return self._is_harmless or not self._is_doubtful

    def sends(self, found: Transacting) -> None:
        """Takes the transaction of this try, before its work is done. The work has to ask a query."""
        self.found = found
        found._begun.has_to_ask = True

    def pause(self) -> Optional[float]:
        """Returns the seconds to wait before the next try, None if there is none."""
        if self._tried >= self._tries or self._is_doubtful and not self._is_harmless:
            return None
        self._tried += 1
        # A pause that waits by itself returns None.
        return (self._pause(self._tried - 1) or 0) if self._tried > 1 else 0

    @property
    def is_late(self) -> bool:
        return self._until is not None and self._tried > 1 and time.monotonic() > self._until

    @contextlib.contextmanager
    def attempt(self) -> Iterator[None]:
        """A try."""
        self.found = self.value = self.known = None
        try:
            yield
        except BoltError as why:
            self.known = self._failed(why)
        else:
            self.known = self._ended()

    def _said(self, why: Optional[Exception]) -> Optional[Known]:
        """Returns what the answer to COMMIT says, None if it says nothing final.

        Only a server that keeps tokens can say that other writes have the token."""
        found = self.found
        if found and found.outcome == COMMITTED:
            return Known(STANDS, self.token, self.value, found.bookmark, why)
        is_clash = found and self._is_harmless and found._failure == CLASHES
        return Known(CLASH, self.token, error=why) if is_clash else None

    def _failed(self, why: BoltError) -> Optional[Known]:
        """Returns what is known after a try that failed so, None if another try may follow."""
        LOG.debug("%s, try %s: %s", self.token, self._tried, why)
        self._error = why
        if said := self._said(why):
            return said
        # What the work asked outside of its transaction, or of another connection, isn't under this token.
        self._doubt(why.requests if isinstance(why, Told) else [])
        if isinstance(why, Told):
            # A FAILURE counts, whether or not the connection goes on.
            codes = [why.code] if isinstance(why, Refused) else [
                it.metadata.get("code", "") for it in why.requests if it.outcome == REFUSED]
            if any(it.startswith(FINAL) for it in codes) and not self._is_doubtful:
                return Known(REFUSED, self.token, error=why)
        if isinstance(why, NotSent) and not self._is_doubtful:
            raise why
        # Neither a request that can't be written nor an answer that is too large changes by another try.
        is_unsendable = isinstance(why, NotSent) and why.code in UNSENDABLE
        return self.over() if is_unsendable or isinstance(why, Broken) and why.why == TOO_LARGE else None

    def _ended(self) -> Optional[Known]:
        """Returns what is known after a try that raised nothing.

        The work may have ended the transaction itself, and ignored how that went."""
        if said := self._said(self._error):
            return said
        found = self.found
        self._doubt(found._connection.session.requests if found else [])
        # After a ROLLBACK that the work asked for, nothing is left to do.
        return None if found and found.outcome not in (None, DONE) else self.over()

    def _doubt(self, requests: Sequence[Request]) -> None:
        """Notes if a try that isn't known to have committed may have: by its own end, else by what was asked last."""
        if self.found:
            self._note(self.found, self.found.outcome or committed(requests))

    def _note(self, found: Transacting, outcome: Optional[str]) -> None:
        """Notes if a transaction of this outcome may be committed.

        A FAILURE of COMMIT says that it isn't only at a server that keeps tokens."""
        if outcome in (COMMITTED, UNKNOWN) or found._failure is not None and not self._is_harmless:
            self._is_doubtful, self._may_repeat = True, self._may_repeat and self._is_harmless

    def over(self) -> Known:
        """Returns what is known if no other try follows."""
        if self._is_doubtful:
            return Known(OPEN, self.token, error=self._error, may_repeat=self._may_repeat)
        return Known(ABSENT, self.token, error=self._error)

    def ends_by(self, why: BaseException) -> None:
        """Gives an exception that ends the tries, also an interrupt, the token and what is known so far."""
        found = self.found
        if found and found._last:
            self._note(found, found.outcome or UNKNOWN)
        error = None if self._error is why else self._error
        known = dataclasses.replace(self.known or self._said(error) or self.over(), error=error)
        for name, told in (("token", self.token), ("known", known)):
            try:
                setattr(why, name, told)
            except Exception:
                # The exception takes no attributes.
                vars(why)[name] = told


def is_lazy(value: Any) -> bool:
    """Returns true if a value runs code when it is read or awaited. The result of a query doesn't: it was run."""
    return isinstance(value, (Iterator, Awaitable, AsyncIterator)) and not isinstance(value, Pulled)


def eager(value: Any, found: Transacting) -> Any:
    """Returns what the work returned.

    It is an error if the work left queries for later: they would run after the commit, or never."""
    items = value.values() if isinstance(value, dict) else value if isinstance(value, HOLD) else ()
    if found.is_open and (found._begun.is_unasked or is_lazy(value) or any(map(is_lazy, items))):
        raise TypeError(LAZY)
    return value


def until_known(connect: Callable[[], Connection], work: Callable[[Transaction], Any], token: Optional[str] = None, *,
                tries: int = 10, within: Optional[float] = None, pause: Callable[[int], float] = pause,
                in_doubt: bool = False, keeps_tokens: Optional[bool] = None) -> Known:
    """Does the work in a transaction under the token until it is known what became of it.

    Each try has a new connection. At most `tries` are made, and none begins after `within` seconds. Without a token one
    is made.

    After a try that may have committed, the transaction is sent again only to a server that keeps tokens. Else the fate
    is OPEN at once. `keeps_tokens` says if each server does; None goes by what the one that is about to get it says.
    A COMMIT that is answered by a FAILURE may have committed, unless the server keeps tokens.

    `in_doubt` says that an earlier call ended OPEN at servers that keep tokens: see `Known.may_repeat`. The fate is
    never REFUSED or ABSENT then.

    The work has to run its queries before it returns. An exception that ends the tries has the `token` and `known`."""
    sent = Tries(token, tries, within, pause, in_doubt, keeps_tokens)
    try:
        sent.begin()
        while (seconds := sent.pause()) is not None:
            time.sleep(seconds)
            if sent.is_late:
                break
            with sent.attempt(), connect() as connection:
                if sent.may_send(connection.keeps_tokens):
                    with connection.transaction(token=sent.token) as found:
                        sent.sends(found)
                        sent.value = eager(work(found), found)
            if sent.known:
                return sent.known
        return sent.over()
    except BaseException as why:
        sent.ends_by(why)
        raise
