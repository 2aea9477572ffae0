"""Queries, transactions and pipelines step by step, for the blocking connection of `connection` and that of `aio`."""
from __future__ import annotations

import weakref
from typing import Any, Callable, Generic, Iterator, Mapping, Optional, Type, TypeVar

from .core import BEGIN, COMMIT, PHASES, ROLLBACK, Begun, Core, Steps, extra
from .errors import REFUSED, BoltError, NotSent, Request
from .results import Pulled, Record
from .times import stored

Found = TypeVar("Found", bound=Pulled)
Kind = TypeVar("Kind", bound=Core)
# The parameters of a query, by name.
Given = Optional[Mapping[str, Any]]
# Options that a transaction has in the official driver. As keywords they aren't parameters of a query.
OPTIONS = "timeout", "metadata", "bookmarks"


def is_in_transaction(session: Core) -> bool:
    """Returns true if a transaction is open, as far as answers say. After the session's end none is."""
    state = session._state()
    return not state.has_ended and PHASES[state.phase].startswith("TX")


def is_current(session: Core, begun: Begun) -> bool:
    """Returns true if a request is part of this transaction, or is refused because the session has ended.

    A FAILURE ends a transaction, and so does a RESET."""
    return begun is session._begun and (is_in_transaction(session) or bool(session._state().has_ended))


def over(session: Core) -> BoltError:
    return session._unallowed("the transaction has ended")


def named(given: Given, more: dict[str, Any]) -> dict[str, Any]:
    """Returns a query's parameters, from a mapping and from keywords.

    A mapping may have any name. A keyword that looks like an option of the call is refused: one that ends in `_`, as
    the official driver's `database_`, and each of OPTIONS."""
    if given is not None and not isinstance(given, Mapping):
        raise TypeError(f"the parameters of a query are a mapping of names to values, not {type(given).__name__}")
    for name in more:
        if name.endswith("_") or name in OPTIONS:
            raise TypeError(f"{name} isn't taken as a parameter of the query: it looks like an option of the call, "
                            f"which this call doesn't have. To send a parameter of this name, write "
                            f"run(text, {{{name!r}: ..}})")
    return {**(given or {}), **more}


class Deferred(Generic[Found]):
    """The records of a pipeline's query, once the pipeline has ended."""

    result: Optional[Found] = None

    def __init__(self, session: Core) -> None:
        self._session = session

    def __iter__(self) -> Iterator[Record]:
        if self.result is None:
            if self._session._has_broken:
                raise self._session._over()
            raise ValueError("the pipeline hasn't ended, or was broken off")
        return self.result._held()


class Queries(Generic[Kind, Found]):
    """A connection. `timeout` bounds each call as a whole, in seconds; `fetch` is how many records are pulled at once.

    `session` is below it: single requests, and what became of each."""

    _results: Type[Found]

    def __init__(self, session: Kind, fetch: int = 1000) -> None:
        self.session, self.fetch = session, fetch
        self._open_result: Optional[Found] = None
        self._pipeline: Optional[weakref.ref[Pipeline[Found]]] = None

    @property
    def version(self) -> int:
        """44, 50 or 51."""
        return self.session.version

    @property
    def server(self) -> str:
        """The server's name, from its answer to HELLO."""
        return self.session.server

    @property
    def keeps_tokens(self) -> bool:
        """True if the server's answer to HELLO says that it keeps tokens: by a name that begins with `BoltTable/`, or
        by the hint `bolt.tokens`."""
        return self.session.keeps_tokens

    @property
    def timeout(self) -> Optional[float]:
        return self.session.timeout

    @timeout.setter
    def timeout(self, seconds: Optional[float]) -> None:
        self.session.timeout = seconds

    def _stored(self, parameters: dict[str, Any]) -> dict[str, Any]:
        return {name: stored(it, self.version) for name, it in parameters.items()}

    def _made(self, run: Request, pull: Request, text: str) -> Found:
        return self._results(self.session, run, pull, text, self.fetch)

    def _packed(self, text: str, parameters: dict[str, Any], write: bool = True) -> tuple[str, bytes, bytes]:
        return self.session._run(text, self._stored(parameters), write, None, self.fetch)

    def _settling_open(self) -> Steps[None]:
        """Pulls what is left of the result that is open. Only then something else may be asked."""
        # A signal's handler or another thread may close the connection meanwhile. It has no result then.
        left = self._open_result
        if left and left._is_open():
            yield from left._finish()
        self._open_result = None

    def _unread(self) -> Optional[Found]:
        """Returns the result of a query that isn't committed yet because it wasn't read to its end.

        The connection forgets the result, so that no other call reads it."""
        left, self._open_result = self._open_result, None
        return left if left and left._is_unread else None

    def _own(self, text: str, parameters: dict[str, Any], write: bool = True) -> Steps[Found]:
        """A query of its own."""
        return self._running(self._free, *self._packed(text, parameters, write))

    def _free(self) -> None:
        """Refuses a query of its own while a transaction is open: it wouldn't be committed."""
        if is_in_transaction(self.session):
            raise self.session._unallowed("a transaction is open")

    def _running(self, allow: Callable[[], None], text: str, run: bytes, pull: bytes) -> Steps[Found]:
        allow()
        self.session._alone()
        yield from self._settling_open()
        last = self.session._submit_both(text, run, pull)
        first = self.session.requests[-2]
        yield from self.session._settling()
        self._open_result = found = self._made(first, last, text)
        return found

    def _piping(self, found: Pipeline[Found]) -> Steps[None]:
        """Prepares a pipeline. It is refused if it would send more than its own requests, or commit some by themselves.

        What was asked before and isn't settled would go out with it, as would the requests of another open pipeline.
        In a block whose transaction has ended, as by a FAILURE, its queries would be committed by themselves."""
        if self.session._why:
            raise self.session._over()
        before = self._pipeline and self._pipeline()
        if before and not before.is_sent:
            raise self.session._unallowed("another pipeline is open")
        if self.session._begun.is_open and not is_current(self.session, self.session._begun):
            raise over(self.session)
        self.session._alone()
        yield from self._settling_open()
        self._pipeline = weakref.ref(found)

    def _beginning(self, write: bool, found: Transacting) -> Steps[None]:
        return self._starting(found, *self.session._packed("BEGIN", BEGIN, extra(write, found.token)))

    def _starting(self, found: Transacting, text: str, message: bytes) -> Steps[None]:
        yield from self._settling_open()
        yield from self.session._at_once(self.session._submit, text, message)
        found._begun, found.is_open = self.session._begun, True


class Pipeline(Generic[Found]):
    """Requests that go out at once when the block ends. The result of a `run` has its records then."""

    def __init__(self, connection: Queries[Any, Found]) -> None:
        self._connection = connection
        self.is_sent = False
        self._runs: list[tuple[Deferred[Found], Request, Request]] = []

    @property
    def _session(self) -> Core:
        session: Core = self._connection.session
        if self.is_sent:
            raise session._unallowed("the pipeline has ended")
        return session

    def begin(self, write: bool = True, token: Optional[str] = None) -> None:
        self._session.ask_begin(write, token)

    def run(self, text: str, parameters: Given = None, /, **more: Any) -> Deferred[Found]:
        """Asks a query and all its records."""
        session = self._session
        found = Deferred[Found](session)
        pull = session.ask_run(text, self._connection._stored(named(parameters, more)))
        self._runs.append((found, session.requests[-2], pull))
        return found

    def commit(self) -> None:
        self._session.ask_commit()

    def rollback(self) -> None:
        self._session.ask_rollback()

    def _sending(self) -> Steps[list[Request]]:
        self.is_sent = True
        requests: list[Request] = yield from self._connection.session._settling()
        return requests

    def _fill(self) -> None:
        for found, run, pull in self._runs:
            found.result = self._connection._made(run, pull, run.text)


class Transacting:
    """A transaction that is open. `bookmark` is that of its entry, once it is committed."""

    def __init__(self, connection: Queries[Any, Any], token: Optional[str]) -> None:
        self._connection, self.token = connection, token
        self._begun = Begun()

    @property
    def _last(self) -> Optional[Request]:
        """The COMMIT or ROLLBACK that was asked, by it or by a pipeline in its block."""
        return self._begun.end

    @property
    def is_open(self) -> bool:
        """True if its block has to end it. A pipeline in the block may have ended it already."""
        return self._begun.is_open

    @is_open.setter
    def is_open(self, is_it: bool) -> None:
        self._begun.has_block = is_it

    @property
    def _is_followed(self) -> bool:
        """True if it has ended, and another call goes on or the transaction of another block is open.

        These don't end with its block, as when a generator with the block is left half read."""
        session = self._connection.session
        is_other = session._begun is not self._begun and session._begun.is_open
        return (is_other or bool(session._amid)) and not is_current(session, self._begun)

    @property
    def outcome(self) -> Optional[str]:
        """The outcome of its COMMIT or ROLLBACK. None if that isn't known, or neither was asked."""
        return self._begun.outcome

    @property
    def bookmark(self) -> Optional[str]:
        return self._last.metadata.get("bookmark") if self._last else None

    @property
    def _failure(self) -> Optional[str]:
        """The code of the FAILURE that answered its COMMIT, None if none did."""
        is_refused = self._last and self._begun.is_commit and self._last.outcome == REFUSED
        return str(self._last.metadata.get("code", "")) if self._last and is_refused else None

    def _running(self, text: str, parameters: dict[str, Any]) -> Steps[Any]:
        if not self.is_open:
            raise over(self._connection.session)
        self._goes_on()
        return self._connection._running(self._goes_on, *self._connection._packed(text, parameters))

    def _goes_on(self) -> None:
        """Refuses a query if it has ended meanwhile, as by a signal's handler: it would be committed by itself."""
        if not is_current(self._connection.session, self._begun):
            raise over(self._connection.session)

    def _committing(self) -> Steps[None]:
        return self._ending("COMMIT", COMMIT)

    def _rolling_back(self) -> Steps[None]:
        return self._ending("ROLLBACK", ROLLBACK)

    def _ending(self, text: str, tag: int) -> Steps[None]:
        return self._ends(*self._connection.session._packed(text, tag))

    def _ends(self, text: str, message: bytes) -> Steps[None]:
        """Ends it, once. A second end would end another transaction that began since."""
        session = self._connection.session
        if not self.is_open or not is_current(session, self._begun):
            raise over(session)
        self.is_open = False
        try:
            yield from self._connection._settling_open()
            session._alone()
            session._submit(text, message)
        except NotSent:
            # Nothing was sent, and it may be open.
            self.is_open = True
            raise
        yield from session._settling()
