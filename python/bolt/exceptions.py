"""The exceptions of `bolt.driver`, by the names of the official driver.

    BoltError
      DriverError                   the driver, or the connection
        ConfigurationError            an option that isn't there, or of a wrong value
        ConnectionPoolError
          ConnectionAcquisitionTimeoutError
        SessionError                  a session that is closed, or in another call
        ResultError
          ResultConsumedError, ResultNotSingleError
        TransactionError              a transaction that has ended; also a NotSent
        RequestError                  a request that can't be sent; also a NotSent
        ServiceUnavailable            no connection, or one that broke; also a Broken
          SessionExpired
          IncompleteCommit              it may be committed
      Neo4jError                    a FAILURE of the server; also a Refused
        ClientError, DatabaseError, TransientError and what is below them

Each has `is_retryable()`."""
from __future__ import annotations

from typing import Optional, Type

from .core import is_from_elsewhere
from .errors import UNKNOWN, BoltError, Broken, NotSent, Refused, Request
from .library import NOT_ALLOWED


ITS_OWN = "each thread, task and process needs its own session"


class DriverError(BoltError):
    """The base of exceptions that the driver raises by itself."""


class ConfigurationError(DriverError, ValueError):
    """An option is unknown, has a wrong value, or can't be sent to the server."""


class ConnectionPoolError(DriverError):
    """The pool gives no connection."""


class ConnectionAcquisitionTimeoutError(ConnectionPoolError):
    """No connection of the pool became free in time."""


class SessionError(DriverError):
    """A session is closed, or in a call of another thread or task."""


class ResultError(DriverError):
    """A result can't be read so."""


class ResultConsumedError(ResultError):
    """The records were consumed, or their transaction or session has ended."""


class ResultNotSingleError(ResultError):
    """One record was wanted, and there are none or several."""


class TransactionError(NotSent, DriverError):
    """The transaction has ended, or another one is open. Nothing was sent."""

    def __init__(
        self, code: int = NOT_ALLOWED, rule: str = "", place: Optional[int] = None, hint: str = ""
    ) -> None:
        super().__init__(code, rule, place, hint)

    def __str__(self) -> str:
        return self.hint or super().__str__()


class RequestError(NotSent, DriverError):
    """A request can't be sent, as one that is too long."""


class ServiceUnavailable(Broken, DriverError):
    """The server can't be reached, or the connection broke. `outcome` says what became of a
    commit."""


class SessionExpired(ServiceUnavailable):
    """The server of the session is gone. It is never raised: it is there for programs that catch
    it."""


class IncompleteCommit(ServiceUnavailable):
    """The transaction may be committed, or not: no answer to its COMMIT came.

    Look at the data before the work is sent again. It is never retryable."""

    @property
    def outcome(self) -> Optional[str]:
        """UNKNOWN, also if a FAILURE answered the COMMIT."""
        return UNKNOWN

    def is_retryable(self) -> bool:
        """Returns False: a second commit might count."""
        return False

    def __str__(self) -> str:
        return (
            f"{super().__str__()}. The commit is unknown: look at the data before you send it again"
        )


class Neo4jError(Refused):
    """A FAILURE of the server, by its `code` and `message`."""


class ClientError(Neo4jError):
    """The request has to be changed before it can succeed."""


class CypherSyntaxError(ClientError):
    """The query can't be parsed, or isn't one that the server knows."""


class CypherTypeError(ClientError):
    """The query has values of wrong types."""


class ConstraintError(ClientError):
    """The data would break a constraint."""


class AuthError(ClientError):
    """The login is refused."""


class TokenExpired(AuthError):
    """The token of the login has expired."""


class Forbidden(ClientError):
    """The user may not do this."""


class DatabaseError(Neo4jError):
    """The server failed."""


class TransientError(Neo4jError):
    """The request may succeed later as it is."""


class DatabaseUnavailable(TransientError):
    """The database isn't there at the moment."""


class NotALeader(TransientError):
    """The server is a member of a cluster that takes no writes."""


class ForbiddenOnReadOnlyDatabase(TransientError):
    """The server takes no writes."""


# The codes that have their own class. Any other has that of its second part.
BY_CODE: dict[str, Type[Neo4jError]] = {
    "Neo.ClientError.Statement.SyntaxError": CypherSyntaxError,
    # This project's server calls a query so that it doesn't know.
    "Neo.ClientError.Statement.UnknownText": CypherSyntaxError,
    "Neo.ClientError.Statement.TypeError": CypherTypeError,
    "Neo.ClientError.Schema.ConstraintValidationFailed": ConstraintError,
    "Neo.ClientError.Statement.ConstraintVerificationFailed": ConstraintError,
    "Neo.ClientError.ConstraintViolation": ConstraintError,
    "Neo.ClientError.Security.Unauthorized": AuthError,
    "Neo.ClientError.Security.AuthenticationRateLimit": AuthError,
    "Neo.ClientError.Security.CredentialsExpired": AuthError,
    "Neo.ClientError.Security.TokenExpired": TokenExpired,
    "Neo.ClientError.Security.Forbidden": Forbidden,
    "Neo.ClientError.Cluster.NotALeader": NotALeader,
    "Neo.ClientError.General.ForbiddenOnReadOnlyDatabase": ForbiddenOnReadOnlyDatabase,
    "Neo.TransientError.General.DatabaseUnavailable": DatabaseUnavailable,
    "Neo.TransientError.Transaction.Terminated": ClientError,
    "Neo.TransientError.Transaction.LockClientStopped": ClientError,
}
BY_PART: dict[str, Type[Neo4jError]] = {
    "ClientError": ClientError,
    "TransientError": TransientError,
    "DatabaseError": DatabaseError,
}


def kind_of(code: str) -> Type[Neo4jError]:
    """Returns the class of a FAILURE of this code."""
    part = code.split(".")[1] if code.count(".") > 1 else ""
    return BY_CODE.get(code, BY_PART.get(part, DatabaseError))


def is_commit_unknown(requests: list[Request]) -> bool:
    """Returns true if a request that commits may have done so."""
    return any(it.outcome == UNKNOWN for it in requests)


def of(why: BoltError) -> BoltError:
    """Returns the exception of this tree for one of the package below.

    One of the tree, or of the handler of a signal, stays as it is."""
    if isinstance(why, (DriverError, Neo4jError)) or is_from_elsewhere(why):
        return why
    if isinstance(why, Refused):
        return kind_of(why.code)(why.code, why.message, why.requests)
    if isinstance(why, Broken):
        kind = IncompleteCommit if is_commit_unknown(why.requests) else ServiceUnavailable
        return kind(why.requests, why.why, why.detail)
    if isinstance(why, NotSent):
        if why.hint.startswith("another ") and "has the connection" in why.hint:
            return SessionError(f"{why.hint}: {ITS_OWN}")
        if why.code == NOT_ALLOWED and not why.rule:
            return TransactionError(why.code, why.rule, why.place, why.hint)
        return RequestError(why.code, why.rule, why.place, why.hint)
    return why
