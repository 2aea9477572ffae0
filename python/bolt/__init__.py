"""A driver of Bolt 4.4, 5.0 and 5.1: the proved driver of libbolt.so keeps the protocol and the account of requests.

    connect = lambda: bolt.connect("127.0.0.1", 7687, auth=("user", "pass"))
    with connect() as connection:
        for record in connection.run("ROWS", n=3): print(record["i"])

    known = bolt.until_known(connect, lambda tx: tx.run("PUT", key="a", value=1))
    assert known.stands

If a connection breaks, `Broken` has the outcome of each request that was asked since all were settled. If no answer
came, that is LOST (the server can't have committed by it) or UNKNOWN (it may have). Under a token a transaction may be
sent again until its fate is known, to a server that keeps tokens.

An exception from elsewhere during a call, as KeyboardInterrupt or that of a signal's handler, ends the connection, and
`session.requests` has the outcome of each request. Between two calls it changes nothing.

`bolt.aio` has the calls for asyncio.

`bolt.driver` and `bolt.async_driver` are the API of the official Neo4j driver: a pool, sessions, `execute_query`.
`bolt.compat` has it under the official names.
"""
from typing import TYPE_CHECKING, Any

from . import exceptions
from .connection import Connection, Deferred, Pipeline, Result, Transaction, connect
from .drivers import Driver, driver
from .errors import (BAD_ANSWER, CLOSED_HERE, COMMITTED, DONE, FAILED, GONE, IGNORED, INTERRUPTED, LOST, NO_MEMORY,
                     NO_VERSION, NOT_BOLT, OUTCOMES, REFUSED, TIMED_OUT, TOO_LARGE, UNKNOWN, UNREACHED, BoltError,
                     Broken, NotSent, Refused, Request)
from .results import Record, Summary
from .retry import ABSENT, CLASH, OPEN, STANDS, Known, until_known
from .session import Session
from .values import (Date, DateTime, Duration, LocalDateTime, LocalTime, Node, Path, Point2D, Point3D, Relationship,
                     Structure, Time, UnboundRelationship, ZonedLocal, ZonedUtc, pack, unpack)
from .versions import NEWEST, V4_4, V5_0, V5_1

__version__ = "1.0"
__all__ = ["driver", "async_driver", "Driver", "AsyncDriver", "exceptions", "connect", "Connection", "Transaction",
           "Pipeline", "Deferred", "Result", "Record", "Summary", "until_known", "Known", "STANDS", "CLASH", "OPEN", "ABSENT", "Session", "Request", "BoltError", "NotSent", "Refused",
           "Broken", "NEWEST", "V4_4", "V5_0", "V5_1", "OUTCOMES", "DONE", "COMMITTED", "REFUSED", "IGNORED", "LOST",
           "UNKNOWN", "NO_VERSION", "NOT_BOLT", "TIMED_OUT", "GONE", "FAILED", "UNREACHED", "BAD_ANSWER", "TOO_LARGE",
           "NO_MEMORY", "INTERRUPTED", "CLOSED_HERE", "Structure", "Node", "Relationship", "UnboundRelationship",
           "Path", "Date", "Time", "LocalTime", "LocalDateTime", "DateTime", "ZonedLocal", "ZonedUtc", "Duration",
           "Point2D", "Point3D", "pack", "unpack"]

if TYPE_CHECKING:
    from .aiodrivers import AsyncDriver, async_driver


def __getattr__(name: str) -> Any:
    """Returns what needs asyncio, which a program without it doesn't import."""
    if name not in ("AsyncDriver", "async_driver"):
        raise AttributeError(f"module {__name__!r} has no attribute {name!r}")
    from . import aiodrivers

    return getattr(aiodrivers, name)
