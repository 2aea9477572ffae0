"""The API of the official driver, for asyncio: the calls of `drivers`, awaited.

    async with bolt.async_driver("bolt://localhost:7687", auth=("user", "pass")) as driver:
        records, summary, keys = await driver.execute_query("ROWS", n=3)

A driver belongs to one loop, and may be used by all its tasks. A session belongs to one task at a
time."""
from __future__ import annotations

import asyncio
import warnings
from typing import Any, AsyncIterator, Awaitable, Callable, Optional, Type

from . import aio, options, pool
from .drivers import Drivers, query_options
from .flows import aplay
from .graph import Graph
from .queries import Given
from .reading import Reading
from .records import Key, Record
from .summaries import EagerResult, ResultSummary, ServerInfo
from .working import SessionWork, TransactionWork


class Awaiting(pool.Ways):
    """The ways of asyncio."""

    event = asyncio.Event
    sleep = staticmethod(asyncio.sleep)

    @staticmethod
    def open(
        address: options.Address, auth: Any, given: dict[str, Any]
    ) -> Awaitable[aio.AsyncConnection]:
        """Connects to a server."""
        return aio.connect(
            address.host,
            address.port,
            auth=auth,
            tls=address.tls,
            timeout=given["connection_timeout"],
            agent=given["user_agent"],
        )

    @staticmethod
    async def wait(event: asyncio.Event, seconds: float) -> None:
        """Waits for an event, at most so many seconds."""
        waiting = asyncio.ensure_future(event.wait())
        try:
            # Unlike wait_for, this can't lose a cancellation.
            await asyncio.wait({waiting}, timeout=seconds)
        finally:
            waiting.cancel()


class AsyncResult(Reading):
    """The records of a query, once each, as `Result`."""

    def __aiter__(self) -> AsyncIterator[Record]:
        return self

    async def __anext__(self) -> Record:
        found = self._held()
        if found is None and (found := await aplay(self._taking())) is None:
            raise StopAsyncIteration
        return found

    async def peek(self) -> Optional[Record]:
        """Returns the next record, which stays unread, or None."""
        return await aplay(self._peeking())

    async def fetch(self, n: int) -> list[Record]:
        """Returns the next records, at most so many."""
        return await aplay(self._fetching(n))

    async def single(self, strict: bool = False) -> Optional[Record]:
        """Returns the only record, and passes over all others, as `Result.single`."""
        found, has_more = await aplay(self._singling(strict))
        if has_more:
            warnings.warn("a result with several records was read by single()", stacklevel=2)
        return found

    async def value(self, key: Key = 0, default: Any = None) -> list[Any]:
        """Returns one cell of each record that wasn't read yet."""
        return [it.value(key, default) for it in await aplay(self._collecting())]

    async def values(self, *keys: Key) -> list[list[Any]]:
        """Returns the cells of each record that wasn't read yet."""
        return [it.values(*keys) for it in await aplay(self._collecting())]

    async def data(self, *keys: Key) -> list[dict[str, Any]]:
        """Returns the cells by name of each record that wasn't read yet."""
        return [it.data(*keys) for it in await aplay(self._collecting())]

    async def to_df(self, expand: bool = False, parse_dates: bool = False) -> Any:
        """Returns the records that weren't read yet as a data frame. ImportError says that pandas
        isn't installed."""
        return await aplay(self._framing(expand, parse_dates))

    async def graph(self) -> Graph:
        """Returns the nodes and relationships of the whole result."""
        return await aplay(self._graphing())

    async def to_eager_result(self) -> EagerResult:
        """Returns the records that weren't read yet, how the query ended, and the names of its
        columns."""
        return await aplay(self._eager())

    async def consume(self) -> ResultSummary:
        """Passes over what is left, and returns how the query ended."""
        return await aplay(self.consume_flow())


class AsyncManagedTransaction(TransactionWork[AsyncResult]):
    """The transaction of `execute_read` and `execute_write`, which end it."""

    async def run(self, query: Any, parameters: Given = None, /, **more: Any) -> AsyncResult:
        """Runs a query, as `ManagedTransaction.run`."""
        return await aplay(self._running(query, parameters, more))


class AsyncTransaction(AsyncManagedTransaction):
    """A transaction of `begin_transaction`. An `async with` block commits it, or rolls it back
    after an exception."""

    async def commit(self) -> None:
        """Commits. IncompleteCommit says that it may be committed, TransactionError that it has
        ended before."""
        await aplay(self.commit_flow())

    async def rollback(self) -> None:
        """Rolls back. TransactionError says that it has ended before."""
        await aplay(self._rolling_back())

    async def close(self) -> None:
        """Rolls back if it is open."""
        await aplay(self._closing())

    async def __aenter__(self) -> AsyncTransaction:
        return self

    async def __aexit__(self, kind: Optional[Type[BaseException]], *_: object) -> None:
        await aplay(self.leave_flow(kind))


class AsyncSession(SessionWork[AsyncResult]):
    """A session: queries and transactions one after another, as `Session`. It belongs to one task
    at a time."""

    results, works, managed = AsyncResult, AsyncTransaction, AsyncManagedTransaction

    async def run(self, query: Any, parameters: Given = None, /, **more: Any) -> AsyncResult:
        """Runs a query of its own, which is committed with its last record."""
        return await aplay(self._running(query, parameters, more))

    async def begin_transaction(
        self, metadata: Optional[dict[str, Any]] = None, timeout: Optional[float] = None
    ) -> AsyncTransaction:
        """Begins a transaction. `metadata` and `timeout` are refused by ConfigurationError: they
        can't be sent."""
        found: Any = await aplay(self._beginning(metadata, timeout))
        made: AsyncTransaction = found
        return made

    async def execute_read(
        self, work: Callable[..., Awaitable[Any]], *args: Any, **kwargs: Any
    ) -> Any:
        """Does the work in a transaction that may not write, as `execute_write`."""
        return await aplay(self._managing(False, work, args, kwargs))

    async def execute_write(
        self, work: Callable[..., Awaitable[Any]], *args: Any, **kwargs: Any
    ) -> Any:
        """Awaits `work(tx, *args, **kwargs)` in a transaction, and commits it, as
        `Session.execute_write`."""
        return await aplay(self._managing(True, work, args, kwargs))

    async def close(self) -> None:
        """Ends what is open, and gives the connection back, as `Session.close`."""
        await aplay(self._closing())

    async def __aenter__(self) -> AsyncSession:
        return self

    async def __aexit__(self, kind: Optional[Type[BaseException]], *_: object) -> None:
        await aplay(self._closing(kind is not None))


class AsyncDriver(Drivers):
    """Connections to one server, for all tasks of a loop. An `async with` block closes it."""

    ways = Awaiting()

    def session(self, **config: Any) -> AsyncSession:
        """Returns a session. ConfigurationError refuses options that can't be used, as
        `Driver.session`."""
        self.pool.check()
        return AsyncSession(self.pool, config)

    async def execute_query(
        self,
        query_: Any,
        parameters_: Given = None,
        routing_: str = "w",
        database_: Optional[str] = None,
        impersonated_user_: Optional[str] = None,
        bookmark_manager_: Any = None,
        auth_: Any = None,
        result_transformer_: Callable[[AsyncResult], Awaitable[Any]] = AsyncResult.to_eager_result,
        **kwargs: Any,
    ) -> Any:
        """Runs a query in a managed transaction, and returns what the transformer makes of it, as
        `Driver`'s."""
        given = dict(routing_=routing_, database_=database_, impersonated_user_=impersonated_user_)
        given.update(bookmark_manager_=bookmark_manager_, auth_=auth_)
        writes, config = query_options(given)

        async def work(tx: AsyncManagedTransaction) -> Any:
            return await result_transformer_(await tx.run(query_, parameters_, **kwargs))

        async with self.session(**config) as session:
            return await (session.execute_write if writes else session.execute_read)(work)

    async def verify_connectivity(self) -> None:
        """Connects, or asks an idle connection for a sign of life. It raises what that raises."""
        await aplay(self._asking())

    async def get_server_info(self) -> ServerInfo:
        """Returns the server's address and name, and the version of Bolt, after a sign of life."""
        return await aplay(self._asking())

    async def verify_authentication(self, auth: Any) -> bool:
        """Returns true if the server takes another login. It connects for that."""
        return await aplay(self._logging_in(auth))

    async def close(self) -> None:
        """Ends the idle connections, and refuses further calls. Those in use end when their
        sessions do."""
        await aplay(self.pool.close())

    async def __aenter__(self) -> AsyncDriver:
        return self

    async def __aexit__(self, *_: object) -> None:
        await self.close()


def async_driver(uri: str, *, auth: Any = None, **config: Any) -> AsyncDriver:
    """Returns a driver for asyncio, as `driver`. ConfigurationError refuses a URI or an option."""
    return AsyncDriver(uri, auth, config)
