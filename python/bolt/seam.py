"""The only place at which the driver uses private parts of connections, results and sessions.

Each function is one step. Those that return a call are awaited by asyncio."""
from __future__ import annotations

import socket
from typing import TYPE_CHECKING, Any, Callable, Optional, Union

from .connection import Connection, Result, Transaction
from .core import PHASES
from .results import Record, Summary

if TYPE_CHECKING:
    # A program without asyncio doesn't import it.
    from .aio import AsyncConnection, AsyncResult, AsyncTransaction

AnyConnection = Union[Connection, "AsyncConnection"]
AnyResult = Union[Result, "AsyncResult"]
AnyTransaction = Union[Transaction, "AsyncTransaction"]
Call = Callable[[], Any]


def is_ready(connection: AnyConnection) -> bool:
    """Returns true if the connection lives, and nothing is open or asked in it."""
    session = connection.session
    if session._why or session._amid or not session._is_ours():
        return False
    state = session._state()
    return not state.has_ended and not state.pending and PHASES[state.phase] == "READY"


def is_of_here(connection: AnyConnection) -> bool:
    """Returns true if this process, and the loop that runs, have made the connection."""
    if isinstance(connection, Connection):
        return connection.session._is_ours()
    return connection.session._is_of_loop()


def is_broken(connection: AnyConnection) -> bool:
    """Returns true if the connection has ended."""
    return connection.session._why is not None


def drop(connection: AnyConnection) -> None:
    """Ends a connection at once, without a goodbye."""
    connection.session._free()


def keep_alive(connection: AnyConnection) -> None:
    """Has the system look from time to time whether the other end lives."""
    session: Any = connection.session
    is_blocking = isinstance(connection, Connection)
    made = session._socket if is_blocking else session._writer.get_extra_info("socket")
    made.setsockopt(socket.SOL_SOCKET, socket.SO_KEEPALIVE, 1)


def hello(connection: AnyConnection) -> dict[str, Any]:
    """Returns the server's answer to HELLO, of a connection that has asked nothing else yet."""
    return dict(connection.session.requests[0].metadata)


def transaction(connection: AnyConnection, token: Optional[str]) -> AnyTransaction:
    """Returns a transaction that hasn't begun."""
    if isinstance(connection, Connection):
        return Transaction(connection, token)
    from .aio import AsyncTransaction

    return AsyncTransaction(connection, token)


def begin(connection: AnyConnection, found: AnyTransaction, write: bool) -> Call:
    """Returns the call that begins a transaction."""
    return lambda: connection.session._call(connection._beginning(write, found))


def run(found: AnyTransaction, text: str, parameters: dict[str, Any]) -> Call:
    """Returns the call that runs a query in a transaction."""
    return lambda: found._connection.session._call(found._running(text, parameters))


def is_ended(found: AnyTransaction) -> bool:
    """Returns true if a transaction has ended, as by a FAILURE."""
    session = found._connection.session
    if session._why:
        return True
    return session._begun is not found._begun or not PHASES[session._state().phase].startswith("TX")


def failure_of_commit(found: AnyTransaction) -> Optional[str]:
    """Returns the code of the FAILURE that answered a COMMIT, None if none did."""
    return found._failure


def is_whole(result: AnyResult) -> bool:
    """Returns true if all records of a result are held, and it needs its connection no more."""
    return result._is_whole


def held(result: AnyResult) -> Optional[Record]:
    """Returns the next record that is held, None if there is none."""
    return None if result._is_read else result._next()


def refill(result: AnyResult) -> Call:
    """Returns the call that pulls more records."""
    return lambda: result._session._call(result._refill())


def finish(result: AnyResult) -> Call:
    """Returns the call that pulls what is left, and keeps it."""
    return lambda: result._session._call(result._finish())


def has_more(result: AnyResult) -> bool:
    """Returns true if the server has more records. It raises what ended the result too early."""
    result._check()
    return result._has_more


def discard(result: AnyResult) -> Call:
    """Returns the call that has the server pass over what is left."""
    return lambda: result._session._call(result._discarding())


def summary(result: AnyResult) -> tuple[dict[str, Any], Summary]:
    """Returns what the server said when a result began, and how it ended."""
    return dict(result._run.metadata), result._summary()
