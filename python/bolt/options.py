"""Options of a driver, a session and a transaction: each is used, or refused with the reason. None
is dropped."""
from __future__ import annotations

import dataclasses
import ssl
from collections.abc import Mapping
from typing import Any, Callable, Optional
from urllib.parse import urlsplit

from .exceptions import ConfigurationError

# This project's server has 16 sessions, so two programs with this default fit.
POOL_SIZE = 8
PORT = 7687
READ_ACCESS, WRITE_ACCESS = "READ", "WRITE"
# The database that a server takes if none is named has this name at Neo4j.
DEFAULT_DATABASE = "neo4j"
SCHEMES = "bolt", "bolt+s", "bolt+ssc"
NOT_SENT = "this driver can't send it to the server. Leave it out"
MODES = f"{READ_ACCESS!r} or {WRITE_ACCESS!r}"


class TrustStore:
    """Says which certificates of a server are trusted."""

    def context(self) -> ssl.SSLContext:
        """Returns a context of TLS that does so."""
        return ssl.create_default_context()


class TrustSystemCAs(TrustStore):
    """Trusts the authorities of this machine."""


class TrustAll(TrustStore):
    """Trusts any certificate: anybody between may read and change everything."""

    def context(self) -> ssl.SSLContext:
        """Returns a context of TLS that checks nothing."""
        made = ssl.create_default_context()
        made.check_hostname, made.verify_mode = False, ssl.CERT_NONE
        return made


class TrustCustomCAs(TrustStore):
    """Trusts the authorities in these files, and no others."""

    def __init__(self, *certificates: str) -> None:
        self.certificates = certificates

    def context(self) -> ssl.SSLContext:
        """Returns a context of TLS that knows the files. OSError says that one can't be read."""
        made = ssl.SSLContext(ssl.PROTOCOL_TLS_CLIENT)
        for file in self.certificates:
            made.load_verify_locations(file)
        return made


def seconds(least: float) -> Callable[[Any], bool]:
    """Returns a check that a value is a number of seconds, at least so many."""
    return lambda it: isinstance(it, (int, float)) and not isinstance(it, bool) and it >= least


def seconds_or_none(it: Any) -> bool:
    """Returns true for a number of seconds from 0, and for None."""
    return it is None or seconds(0)(it)


# Each option of a driver: its default, the check of a value, and what is taken.
DRIVER: dict[str, tuple[Any, Callable[[Any], bool], str]] = {
    "max_connection_pool_size": (
        POOL_SIZE,
        lambda it: type(it) is int and it >= 1,
        "a number of connections, from 1",
    ),
    "connection_acquisition_timeout": (60, seconds(0), "a number of seconds"),
    "max_connection_lifetime": (3600, seconds(0), "a number of seconds"),
    "max_connection_idle_time": (50, seconds(0), "a number of seconds"),
    "liveness_check_timeout": (30, seconds_or_none, "a number of seconds, or None for no check"),
    "connection_timeout": (30, seconds_or_none, "a number of seconds, or None for no limit"),
    "call_timeout": (None, seconds_or_none, "a number of seconds, or None for no limit"),
    "max_transaction_retry_time": (30, seconds(0), "a number of seconds"),
    "keep_alive": (True, lambda it: isinstance(it, bool), "True or False"),
    "user_agent": ("bolt.py/1", lambda it: isinstance(it, str), "a text"),
    "encrypted": (None, lambda it: it is None or isinstance(it, bool), "True or False"),
    "trusted_certificates": (
        None,
        lambda it: it is None or isinstance(it, TrustStore),
        "TrustSystemCAs(), TrustAll() or TrustCustomCAs(file, ..)",
    ),
    "ssl_context": (
        None,
        lambda it: it is None or hasattr(it, "wrap_socket"),
        "a context of the module ssl",
    ),
    "fetch_size": (
        1000,
        lambda it: type(it) is int and (it >= 1 or it == -1),
        "a number of records, from 1, or -1 for all",
    ),
}
# Options of the official driver that can't be honoured, with the value that asks for nothing.
DRIVER_REFUSED: dict[str, Any] = {
    "resolver": None,
    "client_certificate": None,
    "notifications_min_severity": None,
    "notifications_disabled_categories": None,
    "notifications_disabled_classifications": None,
    "warn_notification_severity": None,
    "telemetry_disabled": True,
}
SESSION_REFUSED: dict[str, Any] = {
    "impersonated_user": None,
    "bookmark_manager": None,
    "auth": None,
    "notifications_min_severity": None,
    "notifications_disabled_categories": None,
    "notifications_disabled_classifications": None,
}


def refuse(given: Mapping[str, Any], refused: Mapping[str, Any], of: str) -> None:
    """Refuses what is given beyond an object's options. None is dropped silently."""
    for name, value in given.items():
        if name not in refused:
            raise ConfigurationError(f"{name} is no option of {of}")
        if value != refused[name]:
            raise ConfigurationError(f"{name}={value!r}: {NOT_SENT}")


def checked(given: Mapping[str, Any]) -> dict[str, Any]:
    """Returns all options of a driver, from those that are given."""
    made = {name: default for name, (default, _, _) in DRIVER.items()}
    for name in [it for it in given if it in DRIVER]:
        _, is_right, what = DRIVER[name]
        if not is_right(given[name]):
            raise ConfigurationError(f"{name}={given[name]!r}: this option is {what}")
        made[name] = given[name]
    refuse(
        {name: it for name, it in given.items() if name not in DRIVER}, DRIVER_REFUSED, "a driver"
    )
    return made


@dataclasses.dataclass(frozen=True)
class Address:
    """A server's host and port, and the context of TLS if it is reached by TLS."""

    host: str
    port: int
    tls: Optional[ssl.SSLContext]

    def __str__(self) -> str:
        return f"[{self.host}]:{self.port}" if ":" in self.host else f"{self.host}:{self.port}"


def address_of(uri: Any, options: Mapping[str, Any]) -> Address:
    """Returns the address of a URI. One that can't be used is refused, with what to write in its
    place."""
    if not isinstance(uri, str):
        raise ConfigurationError(f"a URI is a text such as 'bolt://localhost:{PORT}', not {uri!r}")
    try:
        parts = urlsplit(uri)
        host, port = parts.hostname, parts.port
    except ValueError as why:
        raise ConfigurationError(f"{uri!r} is no URI: {why}") from why
    wanted = f"'bolt://{host or 'localhost'}:{port or PORT}'"
    if parts.scheme.partition("+")[0] == "neo4j":
        direct = wanted.replace("bolt", parts.scheme.replace("neo4j", "bolt"), 1)
        raise ConfigurationError(
            f"{uri!r}: neo4j:// asks a cluster which of its servers to use, and this driver "
            f"doesn't. For one server write {direct}"
        )
    if parts.scheme not in SCHEMES or "://" not in uri:
        names = ", ".join(f"{it}://" for it in SCHEMES)
        raise ConfigurationError(f"{uri!r} doesn't begin with one of {names}: write {wanted}")
    if parts.username is not None or parts.password is not None:
        raise ConfigurationError("a URI has no user and password: write auth=(user, password)")
    if not host or parts.path.strip("/") or parts.query or parts.fragment:
        raise ConfigurationError(f"a URI has a host and a port only: write {wanted}")
    return Address(host, PORT if port is None else port, tls_of(parts.scheme, options))


def tls_of(scheme: str, options: Mapping[str, Any]) -> Optional[ssl.SSLContext]:
    """Returns the context of TLS by the URI's scheme, or by the options of a `bolt` URI."""
    encrypted, context = options["encrypted"], options["ssl_context"]
    trust: Optional[TrustStore] = options["trusted_certificates"]
    if scheme != "bolt":
        if (encrypted, context, trust) != (None, None, None):
            raise ConfigurationError(
                f"{scheme}:// says by itself how TLS is used. With encrypted, ssl_context and "
                "trusted_certificates write bolt://"
            )
        return (TrustSystemCAs() if scheme == "bolt+s" else TrustAll()).context()
    if context is not None and trust is not None:
        raise ConfigurationError("ssl_context has its certificates: leave trusted_certificates out")
    if context is not None:
        if encrypted is False:
            raise ConfigurationError("encrypted=False has no ssl_context")
        made: ssl.SSLContext = context
        return made
    if not encrypted:
        if trust is not None:
            raise ConfigurationError("trusted_certificates is of use with encrypted=True only")
        return None
    try:
        return (trust or TrustSystemCAs()).context()
    except OSError as why:
        raise ConfigurationError(f"trusted_certificates: {why}") from why


def auth_of(auth: Any) -> Optional[tuple[str, str]]:
    """Returns a name and a password, or None for no login."""
    if auth is None:
        return None
    is_pair = isinstance(auth, (tuple, list)) and len(auth) == 2
    if not (is_pair and all(isinstance(it, str) for it in auth)):
        raise ConfigurationError("auth is a pair of texts, (user, password), or None")
    return auth[0], auth[1]


def check_database(database: Any) -> None:
    """Refuses the name of a database that may not be the server's default."""
    if database not in (None, DEFAULT_DATABASE):
        raise ConfigurationError(
            f"database={database!r}: {NOT_SENT}: the server uses its default database"
        )


def check_mode(mode: Any) -> None:
    """Refuses what is no mode of access."""
    if mode not in (READ_ACCESS, WRITE_ACCESS):
        raise ConfigurationError(f"default_access_mode={mode!r}: this option is {MODES}")


def check_bookmarks(bookmarks: Any) -> None:
    """Refuses bookmarks, for which this driver can't have the server wait."""
    if bookmarks is not None and (not hasattr(bookmarks, "__iter__") or list(bookmarks)):
        raise ConfigurationError(f"bookmarks: {NOT_SENT}")


def check_transaction(metadata: Any, timeout: Any) -> None:
    """Refuses the options of a transaction that can't be sent."""
    if timeout is not None:
        raise ConfigurationError(
            f"timeout={timeout!r}: {NOT_SENT}. The driver's option call_timeout bounds each call"
        )
    if metadata is not None and metadata != {}:
        raise ConfigurationError(f"metadata={metadata!r}: {NOT_SENT}")


@dataclasses.dataclass(frozen=True)
class Query:
    """A query's text. `metadata` and `timeout` are refused, because they can't be sent."""

    text: str
    metadata: Optional[dict[str, Any]] = None
    timeout: Optional[float] = None

    def __post_init__(self) -> None:
        check_transaction(self.metadata, self.timeout)

    def __str__(self) -> str:
        return self.text


def text_of(query: Any) -> str:
    """Returns the text of a query."""
    if isinstance(query, Query):
        return query.text
    if not isinstance(query, str):
        raise ConfigurationError(f"a query is a text, not {type(query).__name__}")
    return query
