"""The API of `bolt.driver` under the names of the official Neo4j driver: `import bolt.compat as
neo4j`.

docs/DRIVER.md lists what isn't there."""
from __future__ import annotations

from typing import Any, Callable, Optional, TypeVar

from .. import __version__
from ..aiodrivers import (
    AsyncDriver,
    AsyncManagedTransaction,
    AsyncResult,
    AsyncSession,
    AsyncTransaction,
    async_driver,
)
from ..drivers import Driver, ManagedTransaction, Result, Session, Transaction
from ..drivers import driver as blocking_driver
from ..options import (
    READ_ACCESS,
    WRITE_ACCESS,
    Query,
    TrustAll,
    TrustCustomCAs,
    TrustSystemCAs,
    check_transaction,
)
from ..records import Record
from ..summaries import Bookmarks, EagerResult, ResultSummary, ServerInfo, SummaryCounters
from . import debug, exceptions, graph, spatial, time

DEFAULT_DATABASE, SYSTEM_DATABASE = None, "system"
Work = TypeVar("Work", bound=Callable[..., Any])


class RoutingControl:
    """The values of `routing_`: whether a query may write."""

    READ, WRITE = "r", "w"


class GraphDatabase:
    """Makes drivers for threads."""

    @staticmethod
    def driver(uri: str, *, auth: Any = None, **config: Any) -> Driver:
        """Returns a driver, as `bolt.driver`."""
        return blocking_driver(uri, auth=auth, **config)


class AsyncGraphDatabase:
    """Makes drivers for asyncio."""

    @staticmethod
    def driver(uri: str, *, auth: Any = None, **config: Any) -> AsyncDriver:
        """Returns a driver, as `bolt.async_driver`."""
        return async_driver(uri, auth=auth, **config)


def basic_auth(user: str, password: str, realm: Optional[str] = None) -> tuple[str, str]:
    """Returns a login by a user and a password. A realm is refused by ConfigurationError: it can't
    be sent."""
    if realm is not None:
        raise exceptions.ConfigurationError("realm: this driver can't send it. Leave it out")
    return user, password


def unit_of_work(
    metadata: Optional[dict[str, Any]] = None, timeout: Optional[float] = None
) -> Callable[[Work], Work]:
    """Returns a decorator for a work. `metadata` and `timeout` are refused: they can't be sent."""
    check_transaction(metadata, timeout)
    return lambda work: work


__all__ = [
    "AsyncDriver",
    "AsyncGraphDatabase",
    "AsyncManagedTransaction",
    "AsyncResult",
    "AsyncSession",
    "AsyncTransaction",
    "Bookmarks",
    "DEFAULT_DATABASE",
    "Driver",
    "EagerResult",
    "GraphDatabase",
    "ManagedTransaction",
    "Query",
    "READ_ACCESS",
    "Record",
    "Result",
    "ResultSummary",
    "RoutingControl",
    "SYSTEM_DATABASE",
    "ServerInfo",
    "Session",
    "SummaryCounters",
    "Transaction",
    "TrustAll",
    "TrustCustomCAs",
    "TrustSystemCAs",
    "WRITE_ACCESS",
    "__version__",
    "basic_auth",
    "debug",
    "exceptions",
    "graph",
    "spatial",
    "time",
    "unit_of_work",
]
