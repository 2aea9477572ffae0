"""The driver for asyncio: the calls of `bolt`, awaited.

    async with await aio.connect("127.0.0.1", 7687, auth=("user", "pass")) as connection:
        async for record in await connection.run("ROWS", n=3): print(record["i"])

A cancellation during a call is as an interrupt: it ends the connection, and `session.requests` has what became of each
request. One task at a time has a connection.
"""
from __future__ import annotations

import asyncio
import contextlib
import ssl
from typing import Any, AsyncIterator, Awaitable, Callable, Coroutine, Iterator, Optional, Type, Union

from .core import (Answer, Core, Stepped, Steps, basic, calls, context_of, host_of, is_from_elsewhere, login_of, own,
                   port_of)
from .errors import CLOSED_HERE, INTERRUPTED, TIMED_OUT, BoltError, Broken, NotSent, Request, unreached
from .library import MESSAGE, NOT_ALLOWED
from .queries import Given, Pipeline, Queries, Transacting, named
from .results import Pulled, Record, Summary, by_name, by_place, only
from .retry import Known, Tries, eager, pause
from .versions import NEWEST


class AsyncSession(Core):
    """A session of a server over streams of asyncio: requests are asked, and go out as one pipeline."""

    _reader: Optional[asyncio.StreamReader] = None
    _writer: Optional[asyncio.StreamWriter] = None
    _loop: Optional[asyncio.AbstractEventLoop] = None
    _is_late = False

    async def _open_at(self, host: str, port: int, tls: Optional[ssl.SSLContext], agent: str,
                       login: dict[str, str]) -> None:
        try:
            await self._connect(host, port, tls)
            await self._do(self._opening(agent, login), self._until)
        except BaseException:
            self._free()
            raise

    async def _connect(self, host: str, port: int, tls: Optional[ssl.SSLContext]) -> None:
        self._loop = asyncio.get_running_loop()
        calls(self._loop, tls)
        name = host if tls else None
        connecting = asyncio.open_connection(host, port, limit=MESSAGE, ssl=tls, server_hostname=name)
        opening = asyncio.ensure_future(connecting)
        opening.add_done_callback(self._connected)
        try:
            # Unlike wait_for, this can't take a cancellation for an answer.
            await asyncio.wait({opening}, timeout=self._left())
        finally:
            opening.cancel()
        if not self._writer:
            failed = not opening.cancelled() and opening.done() and opening.exception() or TimeoutError(TIMED_OUT)
            if not isinstance(failed, OSError):
                raise failed
            failed = own(failed)
            raise unreached(failed, tls is not None) from failed

    def _connected(self, opening: asyncio.Future[tuple[asyncio.StreamReader, asyncio.StreamWriter]]) -> None:
        if not opening.cancelled() and not opening.exception():
            self._reader, self._writer = opening.result()
            if self._why:
                self._shut()

    def _is_of_loop(self) -> bool:
        """Returns true if the loop that runs is that of the connection.

        In another loop requests would go out, and no answer could be awaited."""
        # A process that was forked has no loop that runs.
        return self._is_ours() and asyncio.get_running_loop() is self._loop

    def _shut(self) -> None:
        # The loop may be closed already.
        with contextlib.suppress(RuntimeError):
            # A process that was forked shares what the loop waits with.
            if self._loop and self._writer and self._is_ours():
                # The loop of another thread sees the end by this, too.
                is_here, abort = asyncio._get_running_loop() is self._loop, self._writer.transport.abort
                abort() if is_here else self._loop.call_soon_threadsafe(abort)

    def _give_up(self) -> None:
        self._is_late = True
        self._shut()

    @contextlib.contextmanager
    def _in_time(self) -> Iterator[None]:
        """Closes the socket at the end of the call's time. What has come until then is still read."""
        left, self._is_late = self._left(), False
        timer = None if left is None else asyncio.get_running_loop().call_later(left, self._give_up)
        try:
            yield
        finally:
            if timer:
                timer.cancel()

    def _send(self) -> None:
        """Hands on what waits. It goes out while answers are read.

        If the connection is reset, what came while nobody waited for it is forgotten."""
        assert self._writer
        # A transport that closes drops what it is handed, or refuses it.
        while not self._cut and not self._writer.transport.is_closing() and (piece := self._open.unsent()):
            if self._is_late or self._left() == 0:
                self._cut = TimeoutError(TIMED_OUT)
                return
            self._open.goes(len(piece))
            # This is looked at after `goes`: no other thread may report bytes as lost that go out.
            if self._why:
                return
            try:
                self._writer.write(piece)
            except OSError as why:
                self._cut = self._failed(why)
                return
            self._open.sent(len(piece))

    async def _receive(self) -> bytes:
        """Returns the next bytes of the server, none if no more come."""
        if self._waits_in_vain():
            return b""
        try:
            assert self._reader
            piece = await self._reader.read(MESSAGE)
        except OSError as why:
            failed = self._failed(why)
            self._cut = self._cut or failed
            return b""
        if not piece and self._is_late:
            self._cut = self._cut or TimeoutError(TIMED_OUT)
        return piece

    def _failed(self, why: OSError) -> OSError:
        failed = own(why)
        return TimeoutError(TIMED_OUT) if self._is_late else failed

    async def _steps(self, steps: Steps[Answer]) -> Answer:
        with self._in_time():
            call = Stepped(steps)
            for _ in call:
                try:
                    self._send()
                    self._hear(await self._receive())
                except NotSent as why:
                    self._closed_meanwhile(why)
            return call.answer

    async def _do(self, steps: Steps[Answer], until: Optional[float]) -> Answer:
        """Does a call step by step. It has to be done by then.

        If it is broken off, as by a cancellation, the client ends. If that is broken off too, no call can begin."""
        mine = object()
        try:
            self._begin(mine)
            if not self._is_of_loop():
                raise NotSent(NOT_ALLOWED, hint="another loop has the connection")
            self._until = until
            answer = await self._steps(steps)
            self._amid.clear()
            return answer
        except BaseException as why:
            self._broken_off(mine, why)
            raise

    async def _call(self, steps: Steps[Answer]) -> Answer:
        """Does a call in its time."""
        return await self._do(steps, self._by())

    async def settle(self) -> list[Request]:
        """Sends what was asked, reads all answers, and returns the requests asked since all were settled.

        The first FAILURE is raised, after a RESET if the session still ignores requests."""
        return await self._call(self._settling())

    async def _closed(self, writer: asyncio.StreamWriter) -> None:
        """Closes the socket after what was sent. If that fails, the answers that came before are known all the same."""
        try:
            writer.close()
            await writer.wait_closed()
        except OSError as why:
            own(why)

    async def close(self) -> None:
        """Says goodbye if nothing waits, and frees the client. A second close does nothing.

        What was asked and isn't settled isn't sent any more."""
        try:
            self._until = self._by()
            if self._writer and self._is_of_loop() and self._says_goodbye():
                with self._in_time():
                    self._send()
                    await self._closed(self._writer)
        except (NotSent, Broken, OSError) as why:
            if is_from_elsewhere(why):
                raise
        finally:
            self._free()


class AsyncResult(Pulled):
    """The records of a query, pulled from the server as they are read, so many at once as `AsyncConnection.fetch` says.

    The rest of them is pulled when something else is asked of the connection, and kept."""

    _session: AsyncSession

    def __aiter__(self) -> AsyncResult:
        return self

    async def __anext__(self) -> Record:
        if self._is_read:
            if not self._is_whole:
                await self._session._call(self._refill())
            if self._is_read:
                raise StopAsyncIteration
        return self._next()

    async def _rest(self, of: Callable[[list[Record]], Answer]) -> Answer:
        """Returns what is made of the records that weren't read yet, all in the time of one call."""
        until = self._session._by()
        while not self._is_whole and await self._session._do(self._ahead(), until):
            pass
        return self._unread(of)

    async def data(self) -> list[dict[str, Any]]:
        """Returns the records that weren't read yet, each by name."""
        return await self._rest(by_name)

    async def values(self) -> list[list[Any]]:
        """Returns the records that weren't read yet, each as a list."""
        return await self._rest(by_place)

    async def single(self) -> Record:
        """Returns the only record. It is a ValueError if there are none or several."""
        return await self._rest(only)

    async def consume(self) -> Summary:
        """Passes over what is left, and returns how the result ended."""
        found = await self.summary()
        self._read = len(self._rows)
        return found

    async def summary(self) -> Summary:
        """How the result ended. What is left of it is pulled first, and kept."""
        if not self._is_whole:
            await self._session._call(self._finish())
        return self._summary()


class AsyncTransaction(Transacting):
    """A transaction that is open. `bookmark` is that of its entry, once it is committed."""

    _connection: AsyncConnection

    def run(self, text: str, parameters: Given = None, /, **more: Any) -> Coroutine[Any, Any, AsyncResult]:
        """Runs a query in the transaction, once it is awaited."""
        self._begun.unawaited += 1
        return self._run(text, parameters, more)

    async def _run(self, text: str, parameters: Given, more: dict[str, Any]) -> AsyncResult:
        self._begun.unawaited -= 1
        asked = self._running(text, named(parameters, more))
        found: AsyncResult = await self._connection.session._call(asked)
        return found

    async def commit(self) -> None:
        """Commits. The `outcome` of `Broken` says if that may have been done.

        `Refused` says that nothing was committed, if the server keeps tokens. Another may have committed."""
        await self._connection.session._call(self._committing())

    async def rollback(self) -> None:
        await self._connection.session._call(self._rolling_back())


class AsyncConnection(Queries[AsyncSession, AsyncResult]):
    """A connection. `timeout` bounds each call as a whole, in seconds; `fetch` is how many records are pulled at once.

    `session` is below it: single requests, and what became of each."""

    _results = AsyncResult

    async def __aenter__(self) -> AsyncConnection:
        return self

    async def __aexit__(self, kind: Optional[Type[BaseException]], *_: object) -> None:
        await self._close(finishes=kind is None)

    async def close(self) -> None:
        """Says goodbye, and frees what is held. A second close does nothing.

        If the result of `run` wasn't read to its end, the server first passes over the rest, which commits it."""
        await self._close(finishes=True)

    async def _close(self, finishes: bool) -> None:
        left = self._unread()
        try:
            if left and finishes:
                await self.session._call(left._discarding())
        except BoltError as why:
            if is_from_elsewhere(why):
                raise
        finally:
            try:
                await self.session.close()
            finally:
                if left:
                    left._lose()

    async def run(self, text: str, parameters: Given = None, /, **more: Any) -> AsyncResult:
        """Runs a query of its own. It is committed with its last record."""
        return await self.session._call(self._own(text, named(parameters, more)))

    async def read(self, text: str, parameters: Given = None, /, **more: Any) -> AsyncResult:
        """Runs a query that may not write."""
        return await self.session._call(self._own(text, named(parameters, more), False))

    @contextlib.asynccontextmanager
    async def transaction(self, write: bool = True, token: Optional[str] = None) -> AsyncIterator[AsyncTransaction]:
        """A transaction, under the token if there is one.

        It is committed when the block ends, and rolled back when an exception ends it."""
        found = AsyncTransaction(self, token)
        try:
            try:
                await self.session._call(self._beginning(write, found))
                yield found
                if found.is_open:
                    await found.commit()
            except BaseException:
                if found.is_open:
                    await self._drop(found)
                raise
        except BaseException:
            # Another exception came as that one left the block.
            if found.is_open:
                self.session._end(INTERRUPTED)
            raise

    async def _drop(self, found: AsyncTransaction) -> None:
        """Ends what is open: by a RESET, or with the connection if that can't be."""
        try:
            if not found._is_followed:
                await self.reset()
        except BoltError as why:
            self.session._end(CLOSED_HERE)
            if is_from_elsewhere(why):
                raise
        found.is_open = False

    @contextlib.asynccontextmanager
    async def pipeline(self) -> AsyncIterator[Pipeline[AsyncResult]]:
        """Requests that go out at once when the block ends, before an answer is read.

        An exception in the block closes the connection, and none of them goes out."""
        found = Pipeline(self)
        await self.session._call(self._piping(found))
        try:
            yield found
            await self.session._call(found._sending())
        except BaseException:
            if not found.is_sent:
                await self.close()
                self._pipeline = None
            raise
        found._fill()

    async def reset(self) -> None:
        """Ends what is open: a result, and a transaction, which is dropped."""
        session = self.session
        await session._call(session._at_once(session._submit, *session._packed("RESET", 0x0F)))
        self._open_result = None


async def connect(host: str, port: int = 7687, *, auth: Optional[tuple[str, str]] = None,
                  tls: Union[None, bool, ssl.SSLContext] = None, timeout: Optional[float] = 10,
                  agent: str = "bolt.py/1", versions: int = NEWEST, fetch: int = 1000) -> AsyncConnection:
    """Connects and logs in, as `bolt.connect` does."""
    login, host, port = login_of(basic(auth)), host_of(host), port_of(port)
    context, session = context_of(tls), AsyncSession(versions, timeout)
    await session._open_at(host, port, context, agent, login)
    return AsyncConnection(session, fetch)


async def until_known(connect: Callable[[], Awaitable[AsyncConnection]],
                      work: Callable[[AsyncTransaction], Awaitable[Any]], token: Optional[str] = None, *,
                      tries: int = 10, within: Optional[float] = None,
                      pause: Callable[[int], float] = pause, in_doubt: bool = False,
                      keeps_tokens: Optional[bool] = None) -> Known:
    """Does the work in a transaction under the token until it is known what became of it, as `bolt.until_known` does.

    A cancellation ends all, and has the `token` and what is `known` so far."""
    sent = Tries(token, tries, within, pause, in_doubt, keeps_tokens)
    try:
        sent.begin()
        while (seconds := sent.pause()) is not None:
            await asyncio.sleep(seconds)
            if sent.is_late:
                break
            with sent.attempt():
                async with await connect() as connection:
                    if sent.may_send(connection.keeps_tokens):
                        async with connection.transaction(token=sent.token) as found:
                            sent.sends(found)
                            sent.value = eager(await work(found), found)
            if sent.known:
                return sent.known
        return sent.over()
    except BaseException as why:
        sent.ends_by(why)
        raise


__all__ = ["AsyncConnection", "AsyncResult", "AsyncSession", "AsyncTransaction", "connect", "until_known"]
