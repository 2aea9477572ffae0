"""A connection to a server, with results, transactions and pipelines."""
from __future__ import annotations

import contextlib
import logging
import ssl
from typing import Any, Callable, Iterator, Optional, Type, Union

from .core import Answer, basic, is_from_elsewhere
from .errors import CLOSED_HERE, INTERRUPTED, BoltError
from .queries import Deferred, Given, Pipeline, Queries, Transacting, named
from .results import Pulled, Record, Summary, by_name, by_place, only
from .session import Session
from .versions import NEWEST

LOG = logging.getLogger("bolt")


class Result(Pulled):
    """The records of a query, pulled from the server as they are read, so many at once as `Connection.fetch` says.

    The rest of them is pulled when something else is asked of the connection, and kept."""

    _session: Session

    def __iter__(self) -> Iterator[Record]:
        return self

    def __next__(self) -> Record:
        if self._is_read:
            if not self._is_whole:
                self._session._call(self._refill())
            if self._is_read:
                raise StopIteration
        return self._next()

    def _rest(self, of: Callable[[list[Record]], Answer]) -> Answer:
        """Returns what is made of the records that weren't read yet, all in the time of one call."""
        until = self._session._by()
        while not self._is_whole and self._session._do(self._ahead(), until):
            pass
        return self._unread(of)

    def data(self) -> list[dict[str, Any]]:
        """Returns the records that weren't read yet, each by name."""
        return self._rest(by_name)

    def values(self) -> list[list[Any]]:
        """Returns the records that weren't read yet, each as a list."""
        return self._rest(by_place)

    def single(self) -> Record:
        """Returns the only record. It is a ValueError if there are none or several."""
        return self._rest(only)

    def consume(self) -> Summary:
        """Passes over what is left, and returns how the result ended."""
        found = self.summary
        self._read = len(self._rows)
        return found

    @property
    def summary(self) -> Summary:
        """How the result ended. What is left of it is pulled first, and kept."""
        if not self._is_whole:
            self._session._call(self._finish())
        return self._summary()


class Transaction(Transacting):
    """A transaction that is open. `bookmark` is that of its entry, once it is committed."""

    _connection: Connection

    def run(self, text: str, parameters: Given = None, /, **more: Any) -> Result:
        """Runs a query in the transaction."""
        found: Result = self._connection.session._call(self._running(text, named(parameters, more)))
        return found

    def commit(self) -> None:
        """Commits. The `outcome` of `Broken` says if that may have been done.

        `Refused` says that nothing was committed, if the server keeps tokens. Another may have committed."""
        self._connection.session._call(self._committing())

    def rollback(self) -> None:
        self._connection.session._call(self._rolling_back())


class Connection(Queries[Session, Result]):
    """A connection. `timeout` bounds each call as a whole, in seconds; `fetch` is how many records are pulled at once.

    `session` is below it: single requests, and what became of each."""

    _results = Result

    def __enter__(self) -> Connection:
        return self

    def __exit__(self, kind: Optional[Type[BaseException]], *_: object) -> None:
        self._close(finishes=kind is None)

    def close(self) -> None:
        """Says goodbye, and frees what is held. A second close does nothing.

        If the result of `run` wasn't read to its end, the server first passes over the rest, which commits it."""
        self._close(finishes=True)

    def _close(self, finishes: bool) -> None:
        left = self._unread()
        try:
            if left and finishes:
                self.session._call(left._discarding())
        except BoltError as why:
            if is_from_elsewhere(why):
                raise
        finally:
            try:
                self.session.close()
            finally:
                if left:
                    left._lose()

    def run(self, text: str, parameters: Given = None, /, **more: Any) -> Result:
        """Runs a query of its own. It is committed with its last record."""
        return self.session._call(self._own(text, named(parameters, more)))

    def read(self, text: str, parameters: Given = None, /, **more: Any) -> Result:
        """Runs a query that may not write."""
        return self.session._call(self._own(text, named(parameters, more), False))

    @contextlib.contextmanager
    def transaction(self, write: bool = True, token: Optional[str] = None) -> Iterator[Transaction]:
        """A transaction, under the token if there is one.

        It is committed when the block ends, and rolled back when an exception ends it."""
        found = Transaction(self, token)
        try:
            try:
                self.session._call(self._beginning(write, found))
                yield found
                if found.is_open:
                    found.commit()
            except BaseException:
                if found.is_open:
                    self._drop(found)
                raise
        except BaseException:
            # Another exception came as that one left the block.
            if found.is_open:
                self.session._end(INTERRUPTED)
            raise

    def _drop(self, found: Transaction) -> None:
        """Ends what is open: by a RESET, or with the connection if that can't be."""
        try:
            if not found._is_followed:
                self.reset()
        except BoltError as why:
            self.session._end(CLOSED_HERE)
            if is_from_elsewhere(why):
                raise
        found.is_open = False

    @contextlib.contextmanager
    def pipeline(self) -> Iterator[Pipeline[Result]]:
        """Requests that go out at once when the block ends, before an answer is read.

        An exception in the block closes the connection, and none of them goes out."""
        found = Pipeline(self)
        self.session._call(self._piping(found))
        try:
            yield found
            self.session._call(found._sending())
        except BaseException:
            if not found.is_sent:
                self.close()
                self._pipeline = None
            raise
        found._fill()

    def reset(self) -> None:
        """Ends what is open: a result, and a transaction, which is dropped."""
        self.session.reset()
        self._open_result = None


def connect(host: str, port: int = 7687, *, auth: Optional[tuple[str, str]] = None,
            tls: Union[None, bool, ssl.SSLContext] = None, timeout: Optional[float] = 10,
            agent: str = "bolt.py/1", versions: int = NEWEST, fetch: int = 1000) -> Connection:
    """Connects and logs in. `auth` is a name and a password. `tls` is True, or a context of `ssl`.

    It raises `Broken` if the server can't be reached, isn't one of Bolt, or goes away, `Refused` if the login is."""
    login = basic(auth)
    try:
        session = Session(host, port, login, agent, versions, timeout, tls)
    except BoltError as why:
        LOG.debug("%s:%s: %s", host, port, why)
        raise
    LOG.debug("%s:%s: connected, version %s", host, port, session.version)
    return Connection(session, fetch)


__all__ = ["Connection", "Deferred", "Pipeline", "Result", "Transaction", "connect"]
