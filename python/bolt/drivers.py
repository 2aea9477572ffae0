"""The API of the official driver, for threads.

    with bolt.driver("bolt://localhost:7687", auth=("user", "pass")) as driver:
        records, summary, keys = driver.execute_query("ROWS", n=3)

A driver may be used by all threads. A session, and what comes from it, belongs to one thread at a
time."""
from __future__ import annotations

import threading
import time
import warnings
from typing import Any, Callable, Iterator, Optional, Type

from . import options, pool
from .connection import Connection, connect
from .exceptions import AuthError, ConfigurationError
from .flows import Flow, play
from .graph import Graph
from .queries import Given
from .reading import Reading
from .records import Key, Record
from .summaries import EagerResult, ResultSummary, ServerInfo
from .working import SessionWork, TransactionWork, server_of

ROUTING = {"r": False, "w": True}


class Blocking(pool.Ways):
    """The ways of threads."""

    event = threading.Event
    sleep = staticmethod(time.sleep)

    @staticmethod
    def open(address: options.Address, auth: Any, given: dict[str, Any]) -> Connection:
        """Connects to a server."""
        return connect(
            address.host,
            address.port,
            auth=auth,
            tls=address.tls,
            timeout=given["connection_timeout"],
            agent=given["user_agent"],
        )

    @staticmethod
    def wait(event: threading.Event, seconds: float) -> None:
        """Waits for an event, at most so many seconds."""
        event.wait(seconds)


class Result(Reading):
    """The records of a query, once each. They are pulled as they are read, `fetch_size` at once.

    Each call may raise ResultConsumedError, and what a broken connection or a FAILURE raises."""

    def __iter__(self) -> Iterator[Record]:
        return self

    def __next__(self) -> Record:
        found = self._held()
        if found is None and (found := play(self._taking())) is None:
            raise StopIteration
        return found

    def peek(self) -> Optional[Record]:
        """Returns the next record, which stays unread, or None."""
        return play(self._peeking())

    def fetch(self, n: int) -> list[Record]:
        """Returns the next records, at most so many."""
        return play(self._fetching(n))

    def single(self, strict: bool = False) -> Optional[Record]:
        """Returns the only record, and passes over all others.

        Of none it is None, of several the first, with a warning. If `strict`, these raise
        ResultNotSingleError."""
        found, has_more = play(self._singling(strict))
        if has_more:
            warnings.warn("a result with several records was read by single()", stacklevel=2)
        return found

    def value(self, key: Key = 0, default: Any = None) -> list[Any]:
        """Returns one cell of each record that wasn't read yet."""
        return [it.value(key, default) for it in play(self._collecting())]

    def values(self, *keys: Key) -> list[list[Any]]:
        """Returns the cells of each record that wasn't read yet."""
        return [it.values(*keys) for it in play(self._collecting())]

    def data(self, *keys: Key) -> list[dict[str, Any]]:
        """Returns the cells by name of each record that wasn't read yet."""
        return [it.data(*keys) for it in play(self._collecting())]

    def to_df(self, expand: bool = False, parse_dates: bool = False) -> Any:
        """Returns the records that weren't read yet as a data frame. ImportError says that pandas
        isn't installed."""
        return play(self._framing(expand, parse_dates))

    def graph(self) -> Graph:
        """Returns the nodes and relationships of the whole result."""
        return play(self._graphing())

    def to_eager_result(self) -> EagerResult:
        """Returns the records that weren't read yet, how the query ended, and the names of its
        columns."""
        return play(self._eager())

    def consume(self) -> ResultSummary:
        """Passes over what is left, and returns how the query ended."""
        return play(self.consume_flow())


class ManagedTransaction(TransactionWork[Result]):
    """The transaction of `execute_read` and `execute_write`, which end it."""

    def run(self, query: Any, parameters: Given = None, /, **more: Any) -> Result:
        """Runs a query. It raises TransactionError if the transaction has ended, and what a FAILURE
        raises."""
        return play(self._running(query, parameters, more))


class Transaction(ManagedTransaction):
    """A transaction of `begin_transaction`. A `with` block commits it, or rolls it back after an
    exception."""

    def commit(self) -> None:
        """Commits. IncompleteCommit says that it may be committed, TransactionError that it has
        ended before."""
        play(self.commit_flow())

    def rollback(self) -> None:
        """Rolls back. TransactionError says that it has ended before."""
        play(self._rolling_back())

    def close(self) -> None:
        """Rolls back if it is open."""
        play(self._closing())

    def __enter__(self) -> Transaction:
        return self

    def __exit__(self, kind: Optional[Type[BaseException]], *_: object) -> None:
        play(self.leave_flow(kind))


class Session(SessionWork[Result]):
    """A session: queries and transactions one after another. It belongs to one thread at a time.

    Each call raises SessionError if the session is closed or in another call, DriverError if the
    driver is closed, ConnectionAcquisitionTimeoutError if the pool has no connection, and
    ServiceUnavailable if the server has none."""

    results, works, managed = Result, Transaction, ManagedTransaction

    def run(self, query: Any, parameters: Given = None, /, **more: Any) -> Result:
        """Runs a query of its own, which is committed with its last record."""
        return play(self._running(query, parameters, more))

    def begin_transaction(
        self, metadata: Optional[dict[str, Any]] = None, timeout: Optional[float] = None
    ) -> Transaction:
        """Begins a transaction. `metadata` and `timeout` are refused by ConfigurationError: they
        can't be sent."""
        found: Any = play(self._beginning(metadata, timeout))
        made: Transaction = found
        return made

    def execute_read(self, work: Callable[..., Any], *args: Any, **kwargs: Any) -> Any:
        """Does the work in a transaction that may not write, as `execute_write`."""
        return play(self._managing(False, work, args, kwargs))

    def execute_write(self, work: Callable[..., Any], *args: Any, **kwargs: Any) -> Any:
        """Calls `work(tx, *args, **kwargs)` in a transaction, commits it, and returns what the work
        returned.

        After an exception with `is_retryable()` the work is done again, for
        `max_transaction_retry_time`. After a doubt that is so only at a server that keeps tokens;
        else IncompleteCommit is raised."""
        return play(self._managing(True, work, args, kwargs))

    def close(self) -> None:
        """Ends what is open, and gives the connection back. A second close does nothing.

        A transaction is rolled back. The rest of a result is passed over, which commits its
        query."""
        play(self._closing())

    def __enter__(self) -> Session:
        return self

    def __exit__(self, kind: Optional[Type[BaseException]], *_: object) -> None:
        play(self._closing(kind is not None))


class Drivers:
    """The common part of the drivers of threads and of asyncio."""

    ways: pool.Ways

    def __init__(self, uri: str, auth: Any, given: dict[str, Any]) -> None:
        checked = options.checked(given)
        address = options.address_of(uri, checked)
        self.pool = pool.Pool(self.ways, address, options.auth_of(auth), checked)

    @property
    def encrypted(self) -> bool:
        """True if connections use TLS."""
        return self.pool.address.tls is not None

    def _asking(self) -> Flow[ServerInfo]:
        slot = yield from self.pool.acquire()
        try:
            yield from self.pool.asking(slot)
            return server_of(self.pool, slot)
        finally:
            self.pool.release(slot)

    def _logging_in(self, auth: Any) -> Flow[bool]:
        other = pool.Pool(self.ways, self.pool.address, options.auth_of(auth), self.pool.given)
        try:
            other.release((yield from other.acquire()))
            return True
        except AuthError:
            return False
        finally:
            other.drop()


def query_options(given: dict[str, Any]) -> tuple[bool, dict[str, Any]]:
    """Returns whether a query of `execute_query` may write, and the session's options, from names
    that end in `_`."""
    writes = ROUTING.get(given["routing_"])
    if writes is None:
        raise ConfigurationError(f"routing_={given['routing_']!r}: this option is 'r' or 'w'")
    return writes, {name[:-1]: it for name, it in given.items() if name != "routing_"}


class Driver(Drivers):
    """Connections to one server, for all threads. A `with` block closes it."""

    ways = Blocking()

    def session(self, **config: Any) -> Session:
        """Returns a session. ConfigurationError refuses options that can't be used.

        `default_access_mode` is "READ" or "WRITE", `fetch_size` the number of records that are
        pulled at once."""
        self.pool.check()
        return Session(self.pool, config)

    def execute_query(
        self,
        query_: Any,
        parameters_: Given = None,
        routing_: str = "w",
        database_: Optional[str] = None,
        impersonated_user_: Optional[str] = None,
        bookmark_manager_: Any = None,
        auth_: Any = None,
        result_transformer_: Callable[[Result], Any] = Result.to_eager_result,
        **kwargs: Any,
    ) -> Any:
        """Runs a query in a managed transaction, as `execute_write`, and returns what the
        transformer makes of it.

        Without a transformer that is an EagerResult: the records, the summary and the keys."""
        given = dict(routing_=routing_, database_=database_, impersonated_user_=impersonated_user_)
        given.update(bookmark_manager_=bookmark_manager_, auth_=auth_)
        writes, config = query_options(given)

        def work(tx: ManagedTransaction) -> Any:
            return result_transformer_(tx.run(query_, parameters_, **kwargs))

        with self.session(**config) as session:
            return (session.execute_write if writes else session.execute_read)(work)

    def verify_connectivity(self) -> None:
        """Connects, or asks an idle connection for a sign of life. It raises what that raises."""
        play(self._asking())

    def get_server_info(self) -> ServerInfo:
        """Returns the server's address and name, and the version of Bolt, after a sign of life."""
        return play(self._asking())

    def verify_authentication(self, auth: Any) -> bool:
        """Returns true if the server takes another login. It connects for that."""
        return play(self._logging_in(auth))

    def close(self) -> None:
        """Ends the idle connections, and refuses further calls. Those in use end when their
        sessions do."""
        play(self.pool.close())

    def __enter__(self) -> Driver:
        return self

    def __exit__(self, *_: object) -> None:
        self.close()


def driver(uri: str, *, auth: Any = None, **config: Any) -> Driver:
    """Returns a driver for the server at a URI: `bolt://`, `bolt+s://` with TLS, or `bolt+ssc://`
    with any certificate.

    `auth` is a user and a password. No connection is made yet. ConfigurationError refuses a URI or
    an option with what to write in its place; docs/DRIVER.md has all options."""
    return Driver(uri, auth, config)
