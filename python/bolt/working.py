"""Sessions and transactions of a driver as flows, for `drivers` and `aiodrivers`."""
from __future__ import annotations

import functools
import weakref
from typing import Any, Callable, Generic, Optional, Type, TypeVar

from . import options, retry, seam
from .errors import BoltError, NotSent, Told
from .exceptions import ITS_OWN, ClientError, IncompleteCommit, SessionError, TransactionError
from .flows import Flow, told
from .hydration import sent
from .pool import Pool, Slot
from .queries import Given, named
from .reading import Owner, Reading
from .summaries import Bookmarks, ServerInfo

Read = TypeVar("Read", bound=Reading)
# How often a transaction is sent at most. Its time ends before.
MANY = 1 << 30
CLOSED = "the session is closed: take a new one by driver.session()"
ENDED = "the transaction has ended: begin another one"
FAILED = "the transaction failed, and nothing of it is kept: begin another one"
OPEN = "a transaction is open in this session: run the query in it, or end it first"
BUSY = f"another call of this session goes on: {ITS_OWN}"
LAZY = (
    "the work returned a generator, an iterator or a coroutine, which would run after the "
    "commit. Return a value, and give asyncio's sessions a coroutine function"
)


def server_of(pool: Pool, slot: Slot) -> ServerInfo:
    """Returns what is known of a connection's server."""
    version = divmod(slot.connection.version, 10)
    said, address = slot.server, (pool.address.host, pool.address.port)
    return ServerInfo(
        address, version, str(said.get("server", "")), str(said.get("connection_id", ""))
    )


class Running(Owner, Generic[Read]):
    """The common part of sessions and transactions: they run queries."""

    results: Type[Read]
    pool: Pool

    def read(
        self, slot: Slot, query: Any, given: Given, more: dict[str, Any], call: Callable[..., Any]
    ) -> Flow[Read]:
        """Runs a query by a call with its text and its parameters."""
        text, parameters = options.text_of(query), named(given, more)
        packed = {name: sent(it, slot.connection.version) for name, it in parameters.items()}
        raw = yield from told(lambda: call(text, packed))
        return self.results(self, raw, text, parameters, server_of(self.pool, slot))


class TransactionWork(Running[Read]):
    """A transaction."""

    def __init__(self, session: SessionWork[Read], slot: Slot, raw: seam.AnyTransaction) -> None:
        self.results, self.pool = session.results, session.pool
        self._session, self._raw = session, raw
        # A session holds the slot. This object is in a cycle with its results, and may live longer.
        self._slot = weakref.ref(slot)
        self._reads: list[Read] = []
        self._over = ""

    @property
    def outcome(self) -> Optional[str]:
        """The outcome of its COMMIT or ROLLBACK, as UNKNOWN. None if neither was sent."""
        return self._raw.outcome

    def closed(self) -> bool:
        """Returns true if it has ended."""
        return bool(self._over)

    def _check(self) -> None:
        if self._over or seam.is_ended(self._raw):
            raise TransactionError(hint=self._over or FAILED)

    def _running(self, query: Any, given: Given, more: dict[str, Any]) -> Flow[Read]:
        self._check()
        slot = self._slot()
        assert slot
        found = yield from self.read(
            slot, query, given, more, lambda text, it: seam.run(self._raw, text, it)()
        )
        self._reads.append(found)
        return found

    def commit_flow(self) -> Flow[None]:
        """Commits, and ends the transaction whatever comes of that."""
        if self._over:
            raise TransactionError(hint=self._over)
        try:
            # A transaction that has failed ends here, too.
            self._check()
            yield from told(lambda: self._raw.commit())
        finally:
            self._end()

    def _rolling_back(self) -> Flow[None]:
        if self._over:
            raise TransactionError(hint=self._over)
        yield from self._closing()

    def _closing(self) -> Flow[None]:
        """Rolls back if it is open."""
        if self._over:
            return
        try:
            if not seam.is_ended(self._raw):
                yield from told(lambda: self._raw.rollback())
        finally:
            self._end()

    def leave_flow(self, kind: Optional[Type[BaseException]]) -> Flow[None]:
        """Ends its block: commits it, or rolls it back after an exception of this type.

        That exception is raised, so one of the rollback isn't."""
        if kind is None:
            if not self._over:
                yield from self.commit_flow()
        elif not issubclass(kind, Exception):
            self._end()
        else:
            try:
                yield from self._closing()
            except BoltError:
                # It isn't committed: the connection has ended.
                pass

    def _end(self) -> None:
        self._over = ENDED
        while self._reads:
            self._reads.pop().end()
        self._session.ended(self, self._raw.bookmark)


class SessionWork(Running[Read]):
    """A session. It takes a connection of the pool when it needs one, and gives it back as soon as
    it can."""

    works: Type[TransactionWork[Read]]
    managed: Type[TransactionWork[Read]]

    def __init__(self, pool: Pool, given: dict[str, Any]) -> None:
        known = ("database", "default_access_mode", "fetch_size", "bookmarks")
        rest = {name: it for name, it in given.items() if name not in known}
        options.refuse(rest, options.SESSION_REFUSED, "a session")
        options.check_database(given.get("database"))
        options.check_bookmarks(given.get("bookmarks"))
        mode = given.get("default_access_mode", options.WRITE_ACCESS)
        options.check_mode(mode)
        size = {"fetch_size": given.get("fetch_size", pool.given["fetch_size"])}
        self._fetch = options.checked(size)["fetch_size"]
        self.pool, self._writes = pool, mode == options.WRITE_ACCESS
        self._slots: dict[str, Slot] = {}
        self._auto: Optional[Read] = None
        self._open: Optional[TransactionWork[Read]] = None
        self._bookmarks = Bookmarks()
        self._is_closed = False

    def closed(self) -> bool:
        """Returns true if the session is closed."""
        return self._is_closed

    def last_bookmarks(self) -> Bookmarks:
        """Returns the bookmarks of what the session has committed last."""
        if self._auto and (bookmark := self._auto.bookmark()):
            self._bookmarks = Bookmarks([bookmark])
        return self._bookmarks

    def _check(self) -> None:
        if self._is_closed:
            raise SessionError(CLOSED)
        if self._open:
            raise TransactionError(hint=OPEN)

    def _connecting(self) -> Flow[Slot]:
        """The session's connection, from the pool if it has none."""
        slot = self._slots.get("slot")
        if slot is None:
            slot = yield from self.pool.acquire()
            # This is one step of the interpreter: of two threads one has the session.
            if self._slots.setdefault("slot", slot) is not slot:
                self.pool.release(slot)
                raise SessionError(BUSY)
        slot.connection.fetch = self._fetch
        return slot

    def _release(self) -> None:
        if slot := self._slots.pop("slot", None):
            self.pool.release(slot)

    def settled(self) -> None:
        """Gives the connection back unless something is open in it."""
        slot = self._slots.get("slot")
        if (
            slot
            and not self._open
            and (seam.is_ready(slot.connection) or seam.is_broken(slot.connection))
        ):
            self._release()

    def _running(self, query: Any, given: Given, more: dict[str, Any]) -> Flow[Read]:
        self._check()
        self.last_bookmarks()
        slot = yield from self._connecting()
        run = slot.connection.run if self._writes else slot.connection.read
        try:
            self._auto = found = yield from self.read(slot, query, given, more, run)
        finally:
            self.settled()
        return found

    def _beginning(self, metadata: Any, timeout: Any) -> Flow[TransactionWork[Read]]:
        self._check()
        options.check_transaction(metadata, timeout)
        self.last_bookmarks()
        slot = yield from self._connecting()
        raw = seam.transaction(slot.connection, None)
        try:
            yield from told(seam.begin(slot.connection, raw, self._writes))
            self._open = found = self.works(self, slot, raw)
        finally:
            self.settled()
        return found

    def ended(self, work: TransactionWork[Read], bookmark: Optional[str]) -> None:
        """Notes that a transaction has ended."""
        if bookmark:
            self._auto, self._bookmarks = None, Bookmarks([bookmark])
        if self._open is work:
            self._open = None
            self._release()

    def _attempting(
        self, tries: retry.Tries, write: bool, work: Callable[..., Any], words: Any, more: Any
    ) -> Flow[Any]:
        """One try of a managed transaction. Returns what the work returned."""
        slot = yield from self._connecting()
        try:
            if not tries.may_send(slot.keeps_tokens):
                return None
            raw = seam.transaction(slot.connection, tries.token if slot.keeps_tokens else None)
            yield from told(seam.begin(slot.connection, raw, write))
            tries.found = raw
            self._open = found = self.managed(self, slot, raw)
            try:
                value = yield lambda: work(found, *words, **more)
                if retry.is_lazy(value) and not isinstance(value, Reading):
                    raise TypeError(LAZY)
            except Exception as why:
                yield from found.leave_flow(type(why))
                raise
            if not found.closed():
                yield from found.commit_flow()
            return value
        finally:
            self._open = None
            self._release()

    def _managing(
        self, write: bool, work: Callable[..., Any], words: tuple[Any, ...], more: dict[str, Any]
    ) -> Flow[Any]:
        """Does the work in a transaction, again as long as that may help and can't commit it
        twice."""
        self._check()
        self.last_bookmarks()
        within = self.pool.given["max_transaction_retry_time"]
        tries = retry.Tries(None, MANY, within, retry.pause, False, None)
        last: Optional[BoltError] = None
        try:
            tries.begin()
            while (seconds := tries.pause()) is not None:
                if seconds:
                    yield functools.partial(self.pool.ways.sleep, seconds)
                if tries.is_late:
                    break
                last = None
                with tries.attempt():
                    try:
                        tries.value = yield from self._attempting(tries, write, work, words, more)
                    except BoltError as why:
                        last = why
                        # Any other exception says nothing of what the server did.
                        if isinstance(why, (Told, NotSent)):
                            raise
                if tries.known or last and not (last.is_retryable() or is_doubt(last)):
                    break
            known = tries.known or tries.over()
            if known.stands or known.fate == retry.ABSENT and last is None and known.error is None:
                return known.value if known.stands else tries.value
            raise failure(known, last or known.error)
        except BaseException as why:
            tries.ends_by(why)
            raise
        finally:
            # The exception has this frame: without this the collector alone would free both.
            del last, tries

    def _closing(self, is_failed: bool = False) -> Flow[None]:
        """Ends what is open: a transaction is rolled back, the rest of a result passed over, which
        commits it.

        After an exception nothing is committed any more."""
        if self._is_closed:
            return
        self._is_closed = True
        try:
            if self._open:
                yield from self._open.leave_flow(BoltError)
            elif self._auto and "slot" in self._slots and not is_failed:
                yield from self._auto.consume_flow()
        finally:
            self._release()
            self.last_bookmarks()
            if self._auto:
                self._auto.end()


def is_doubt(why: BoltError) -> bool:
    """Returns true if a commit is in doubt. Under a token it may be sent again."""
    return isinstance(why, IncompleteCommit)


def failure(known: retry.Known, last: Optional[Exception]) -> Exception:
    """Returns what is raised of a managed transaction that isn't known to be committed."""
    # Without tokens, the only doubt that ends by a ClientError is the one that answers COMMIT.
    is_answer = isinstance(last, ClientError) and not known.may_repeat
    if known.fate == retry.OPEN and not is_answer and not isinstance(last, IncompleteCommit):
        requests = last.requests if isinstance(last, Told) else []
        made = IncompleteCommit(requests, "a try may have committed", str(last or ""))
        made.__cause__ = last
        return made
    return last or TransactionError(hint=ENDED)
