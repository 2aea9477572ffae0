"""A session without a socket: requests are asked, and each call says step by step what is to be exchanged.

The proved driver of libbolt.so keeps the protocol and the account. `session` and `aio` have the sockets."""
from __future__ import annotations

import functools
import operator
import os
import signal
import socket
import ssl
import time
import traceback
import warnings
from typing import Any, Callable, Generator, Generic, Iterator, NoReturn, Optional, TypeVar, Union

from . import mistakes
from .errors import (BAD_ANSWER, CLOSED_HERE, COMMITTED, DONE, ENDED, FAILED, GONE, INTERRUPTED, NO_MEMORY, NO_VERSION,
                     NOT_BOLT, REFUSED, TIMED_OUT, TOO_LARGE, BoltError, Broken, NotSent, Refused, Request)
from .library import (CLOSED, FULL, LARGE, LIBRARY, MEMORY, NO_CLIENT, NOT_ALLOWED, OK, PIPELINE, Asked, Client,
                      Standing, check)
from .values import pack_structure
from .versions import V5_1, VERSIONS

# The most seconds of a time-out. A longer one counts as this.
LONGEST = 1e9
PHASES = ("FRESH", "UNAUTH", "READY", "STREAMING", "TX_READY", "TX_STREAMING", "HALTED", "DEFUNCT")
GOODBYE, RUN, BEGIN, COMMIT, ROLLBACK, DISCARD = 0x02, 0x10, 0x11, 0x12, 0x13, 0x2F
# The names of the messages that are requests with an answer, by their tags.
KINDS = {0x01: "HELLO", 0x6A: "LOGON", 0x6B: "LOGOFF", 0x0F: "RESET", RUN: "RUN", BEGIN: "BEGIN", COMMIT: "COMMIT",
         ROLLBACK: "ROLLBACK", DISCARD: "DISCARD", 0x3F: "PULL"}
# The name of a server that keeps tokens begins so, or this hint in its answer to HELLO is true.
KEEPS_TOKENS, TOKENS_HINT = "BoltTable/", "bolt.tokens"
# Why no COMMIT is asked for a work of `until_known`.
LAZY = ("the work has to run its queries before it returns, and to await them: this one asked none, or it left some to "
        "a generator, an iterator or a coroutine")
# Why a connection is given up, by the code of bolt_feed. Any other is a bad answer.
WHY = {MEMORY: NO_MEMORY, LARGE: TOO_LARGE}
Answer = TypeVar("Answer")
# A call, step by step. After each step the caller sends what waits, and feeds a piece of the server's bytes.
Steps = Generator[None, None, Answer]
# The modules whose frames an error of this package may have: its own, and those that it calls, with what is below them.
CALLED = {__name__.rpartition(".")[0], "asyncio", "concurrent", "contextlib", "socket", "ssl"}


def calls(*called: object) -> None:
    """Counts the package of sockets among what is called, which may be another, as gevent.

    So are the modules of a loop's classes, as that of uvloop, and of a context of TLS. Their packages aren't:
    the caller, or the handler of a signal, may be in the same package."""
    kinds = {kind.__module__ for it in called for kind in type(it).__mro__}
    CALLED.update({socket.socket.__module__.partition(".")[0], *kinds} - {"__main__"})


def is_called(module: str) -> bool:
    """Returns true if a module, or one that it is below, is among what is called."""
    parts = module.split(".")
    return any(".".join(parts[:it]) in CALLED for it in range(1, len(parts) + 1))


def is_from_elsewhere(why: BaseException) -> bool:
    """Returns true if an exception comes from elsewhere, as from the handler of a signal. It has frames of its own."""
    # It goes by modules: a file may have had another name when it was compiled.
    return not all(is_called(str(frame.f_globals.get("__name__"))) for frame, _ in traceback.walk_tb(why.__traceback__))


def is_of_handler(why: BaseException) -> bool:
    """Returns true if the handler of a signal raised this."""
    handlers = [getattr(it, "func", it) for it in map(signal.getsignal, signal.valid_signals())]
    codes = [getattr(it, "__code__", getattr(type(it).__call__, "__code__", None)) for it in handlers if callable(it)]
    return any(frame.f_code in codes for frame, _ in traceback.walk_tb(why.__traceback__))


def own(failed: OSError) -> OSError:
    """Returns the error that a call of a socket raised, without its frames, whatever package the socket is of.

    An error that the handler of a signal raised during the call isn't the socket's. It is raised as it is."""
    if is_of_handler(failed):
        raise failed
    # Before Python 3.10 a time-out has its own class.
    return TimeoutError(*failed.args) if isinstance(failed, socket.timeout) else failed.with_traceback(None)


def tried(call: Callable[..., Answer], *words: Any) -> Union[Answer, OSError]:
    """Returns what a call of the system returns, or the error that it raises."""
    try:
        return call(*words)
    except OSError as why:
        return own(why)


class Stepped(Generic[Answer]):
    """A call, step by step, and after the last step what it returns."""

    answer: Answer

    def __init__(self, steps: Steps[Answer]) -> None:
        self._steps = steps

    def __iter__(self) -> Iterator[None]:
        self.answer = yield from self._steps


def keeps_tokens(hello: dict[str, Any]) -> bool:
    """Returns true if a server says, by its name or a hint in its answer to HELLO, that it keeps tokens."""
    name, hints = hello.get("server"), hello.get("hints")
    by_name = isinstance(name, str) and name.startswith(KEEPS_TOKENS)
    return by_name or isinstance(hints, dict) and hints.get(TOKENS_HINT) is True


class Begun:
    """A transaction that was asked for, its COMMIT or ROLLBACK if one was asked, and whether it has a block."""

    end: Optional[Request] = None
    is_commit = False  # whether its end is a COMMIT
    has_block = False
    queries = 0  # how many were asked in it
    unawaited = 0  # how many calls of asyncio for a query weren't awaited so far
    has_to_ask = False  # whether a COMMIT without a query is a mistake of the caller

    @property
    def is_unasked(self) -> bool:
        """True if no query was asked in it so far, or if one waits to be awaited."""
        return self.queries == 0 or self.unawaited > 0

    @property
    def outcome(self) -> Optional[str]:
        """The outcome of its COMMIT or ROLLBACK. None if that isn't known, or neither was asked."""
        return self.end.outcome if self.end else None

    @property
    def is_open(self) -> bool:
        """True if its block has to end it. A pipeline in the block may have ended it already."""
        return self.has_block and self.outcome not in (COMMITTED, DONE)


def extra(write: bool, token: Optional[str]) -> dict[str, Any]:
    """Returns the entries of a BEGIN or a RUN beside its text: the mode if it reads, and the token if there is one."""
    if not isinstance(write, bool):
        raise TypeError("write is True or False")
    return {**({} if write else {"mode": "r"}), **({} if token is None else {"tx_metadata": {"token": token}})}


def fault_of(code: int, asked: Asked) -> NotSent:
    """Returns the fault of a request: the rule of the message that is broken, and its place."""
    rule = asked.rule.to_bytes(2, "big").decode() if asked.rule else ""
    return NotSent(code, rule, asked.place if rule[:1] in ("P", "S") else None)


def ends(call: Callable[..., Answer]) -> Callable[..., Answer]:
    """Makes a call that has the client alone, and that ends the client if it is broken off, as by an interrupt.

    Bytes are gone then, and no answer may be taken for that of another request. If the end is broken off too, no other
    call can begin: nothing is sent twice."""
    @functools.wraps(call)
    def whole(self: Core, *words: Any) -> Answer:
        mine = object()
        try:
            self._begin(mine)
            answer = call(self, *words)
            self._amid.clear()
            return answer
        except BaseException as why:
            self._broken_off(mine, why)
            raise
    return whole


def basic(auth: Optional[tuple[str, str]]) -> tuple[str, str, str]:
    """Returns the login by a name and a password, and that of nobody."""
    if auth is None:
        return "none", "", ""
    # A text of two letters isn't a name and a password.
    if not isinstance(auth, (tuple, list)):
        raise TypeError("auth is a name and a password")
    return ("basic", *auth)


def login_of(auth: tuple[str, ...]) -> dict[str, str]:
    """Returns the words of a login: the scheme, the principal and the credentials."""
    if not isinstance(auth, (tuple, list)) or len(auth) != 3:
        raise ValueError("auth is the scheme, the principal and the credentials")
    return dict(zip(("scheme", "principal", "credentials"), auth))


def host_of(host: Any) -> Any:
    """Returns a host, which is a name or an address. A URI, or a host with its port, is refused with what to write."""
    # The system would take None for this machine.
    if not isinstance(host, (str, bytes)):
        raise TypeError("a host is a text")
    text = host.decode("ascii", "replace") if isinstance(host, bytes) else host
    address, colon, port = text.rpartition("://")[2].rstrip("/").rpartition(":")
    # An address of IPv6 has several colons. With a port it is in brackets.
    has_port = bool(colon) and port.isdigit() and (":" not in address or address.endswith("]"))
    name = (address if has_port else text.rpartition("://")[2].rstrip("/")).strip("[]")
    if "://" in text or has_port or text.startswith("["):
        wanted = f"{name!r}, {int(port) if has_port else 7687}"
        raise ValueError(f"a host is a name or an address: write {wanted} for {text!r}")
    return host


def port_of(port: int) -> int:
    """Returns a port, from a number or its text. The system would take either modulo 65,536."""
    number = int(port) if isinstance(port, (str, bytes)) else operator.index(port)
    if not 0 <= number < 1 << 16:
        raise ValueError("a port is 0 to 65535")
    return number


def context_of(tls: Union[None, bool, ssl.SSLContext]) -> Optional[ssl.SSLContext]:
    """Returns what encrypts a connection, None if nothing does."""
    if tls is True:
        return ssl.create_default_context()
    # A context of another package may have another class.
    if not (tls is None or tls is False or hasattr(tls, "wrap_socket")):
        raise TypeError("tls is True or False, or a context of ssl")
    return tls or None


class Core:
    """A session without its socket.

    `timeout` bounds each call as a whole, in seconds; None is no bound.
    If something isn't settled by then, the call raises `Broken` with the outcomes, and the connection is gone.

    `requests` are those asked since all were settled, in order. They stay until the next one is asked."""

    _client: Optional[Client] = None
    server = ""  # the server's name, from its answer to HELLO
    keeps_tokens = False  # whether that answer says that the server keeps tokens

    def __init__(self, versions: int, timeout: Optional[float]) -> None:
        if type(versions) is not int or versions not in VERSIONS:
            raise ValueError("versions is NEWEST, V4_4, V5_0 or V5_1")
        self.version, self.timeout = V5_1, timeout
        self._amid: dict[str, object] = {}  # the call that has begun and hasn't ended, if there is one
        self._process = os.getpid()
        self.requests: list[Request] = []
        self._told = 0  # how many of them have what their summary holds
        self._settled = True  # whether all of them are, and were reported
        self._begun = Begun()  # the transaction that was asked for last
        self._cut: Optional[OSError] = None  # why nothing more is sent
        self._why: Optional[str] = None  # why the client has ended
        self._is_closed = False  # whether `close` ended it, and no call was broken off
        self._detail = ""  # what to do if the server has chosen no version
        self._until = self._by()
        self._client = Client(versions, self)

    @property
    def timeout(self) -> Optional[float]:
        return self._timeout

    @timeout.setter
    def timeout(self, seconds: Optional[float]) -> None:
        # Neither holds of NaN.
        if seconds is not None and not (seconds >= 0 or seconds < 0):
            raise ValueError("a time-out is a number of seconds, or None")
        self._timeout = seconds

    def _by(self) -> Optional[float]:
        """Returns the time by which a call that begins now has to be done."""
        return None if self.timeout is None else time.monotonic() + float(max(0, min(self.timeout, LONGEST)))

    def _left(self) -> Optional[float]:
        """Returns the seconds that are left for the call, None if it has no bound."""
        return None if self._until is None else max(0, self._until - time.monotonic())

    def __del__(self) -> None:
        if self._client and self._client.handle.at:
            try:
                warnings.warn("a connection was dropped that wasn't closed", ResourceWarning, source=self)
            finally:
                # This is done also if warnings are raised.
                self._free()

    def __reduce__(self) -> NoReturn:
        # Two sessions of one client would each free it.
        raise TypeError("a session can't be copied or pickled")

    @property
    def _open(self) -> Client:
        if self._client is None or not self._client.handle.at:
            raise self._over()
        return self._client

    def _state(self) -> Standing:
        return self._open.state()

    def _shut(self) -> None:
        """Closes the socket, if there is one."""
        raise NotImplementedError

    def _is_ours(self) -> bool:
        """Returns true if this process made the connection.

        A process that was forked sends nothing, and ends nothing of its parent's."""
        return self._process == os.getpid()

    def _begin(self, mine: object) -> None:
        """Begins a call. It is refused if another one goes on, as that of another thread or task, or was broken off."""
        # This is one step of the interpreter, so one of two threads has the connection.
        if self._amid.setdefault("call", mine) is not mine:
            raise NotSent(NOT_ALLOWED, hint="another call has the connection, or was broken off")
        if not self._is_ours():
            raise NotSent(NOT_ALLOWED, hint="another process has the connection")

    def _broken_off(self, mine: object, why: BaseException) -> None:
        """Ends a call by the exception that it raised."""
        if self._amid.get("call") is mine:
            if not isinstance(why, BoltError) or is_from_elsewhere(why):
                self._end(INTERRUPTED)
            self._amid.clear()

    @property
    def _has_broken(self) -> bool:
        """True if the connection has ended otherwise than by a `close`."""
        return self._why is not None and not self._is_closed

    def _unallowed(self, hint: str) -> BoltError:
        """Returns the exception of a call that isn't allowed. After the end of the connection that is how it ended."""
        return self._over() if self._why else NotSent(NOT_ALLOWED, hint=hint)

    def _over(self) -> BoltError:
        """Returns the exception of a call after the connection's end: how it ended, with all outcomes.

        After a `close` that ended it there is nothing to report."""
        if self._client is None or self._is_closed:
            return NotSent(NO_CLIENT)
        over = Broken(self._all(), self._why or ENDED, self._detail)
        over.__cause__ = self._cut
        return over

    def _closed_meanwhile(self, why: NotSent) -> NoReturn:
        """Raises what became of each request. Another task, or a signal's handler, closed the client meanwhile."""
        if is_from_elsewhere(why):
            raise why
        self._lose(CLOSED_HERE)

    # Asking requests.

    def ask(self, text: str, tag: int, *fields: Any) -> Request:
        """Asks a request, by its tag and its fields, and returns it. It goes out when it is settled, and not before.

        `text` is its name in reports."""
        # It has no answer, and nothing may be asked after it.
        if tag == GOODBYE:
            raise ValueError("close says goodbye")
        return self._asking(self._submit, *self._packed(text, tag, *fields))

    @ends
    def _asking(self, submit: Callable[..., Request], *packed: Any) -> Request:
        return submit(*packed)

    def _packed(self, text: str, tag: int, *fields: Any) -> tuple[str, bytes]:
        return text, pack_structure(tag, fields, self.version)

    def _forget(self) -> None:
        """Lets the account forget the requests before. They keep their outcomes."""
        self._all()
        check(LIBRARY.bolt_settle(self._open.handle))
        self.requests, self._told, self._settled = [], 0, False

    def _submit(self, text: str, message: bytes) -> Request:
        if message[1] == COMMIT and self._begun.has_to_ask and self._begun.is_unasked:
            raise TypeError(LAZY)
        client, asked, before = self._open, Asked(), self.requests
        state, begins = client.state(), client.end()
        if self._settled and not state.has_ended:
            self._forget()
        # It is noted before the library has it: an exception may come between any two steps.
        ordinal, kind = state.first + state.pending, KINDS.get(message[1], "")
        request = Request(text, kind=kind, ordinal=ordinal, account=client, begins=begins)
        self.requests.append(request)
        code = LIBRARY.bolt_ask(client.handle, message, len(message), asked)
        if code:
            self.requests.pop()
            if self.requests is not before:
                self.requests, self._told, self._settled = before, len(before), True
            raise self._over() if code == CLOSED else fault_of(code, asked)
        if message[1] == RUN:
            self._begun.queries += 1
        elif message[1] == BEGIN:
            self._begun = Begun()
        elif message[1] in (COMMIT, ROLLBACK):
            self._begun.end, self._begun.is_commit = request, message[1] == COMMIT
        return request

    def ask_begin(self, write: bool = True, token: Optional[str] = None) -> Request:
        """Asks a BEGIN: to write unless `write` is False, and under the token if there is one."""
        return self.ask("BEGIN", BEGIN, extra(write, token))

    def _submit_both(self, text: str, run: bytes, pull: bytes) -> Request:
        if self._state().pending > PIPELINE - 2:
            raise NotSent(FULL)
        self._submit(f"RUN {text}", run)
        try:
            return self._submit(f"PULL of {text}", pull)
        except NotSent as why:
            if is_from_elsewhere(why):
                raise
            # Memory ran out between the two.
            self._lose(NO_MEMORY)

    def ask_run(self, text: str, parameters: Optional[dict[str, Any]] = None, write: bool = True,
                token: Optional[str] = None, count: int = -1) -> Request:
        """Asks a RUN and a PULL of so many of its rows, of all with -1. Both are asked, or neither.

        It returns the PULL, which has the rows and the outcome."""
        return self._asking(self._submit_both, *self._run(text, parameters, write, token, count))

    def _run(self, text: str, parameters: Optional[dict[str, Any]], write: bool, token: Optional[str],
             count: int = -1) -> tuple[str, bytes, bytes]:
        if type(count) is not int or count < 1 and count != -1:
            raise ValueError("so many rows are pulled as are at least 1, or all by -1")
        run = pack_structure(RUN, (text, {} if parameters is None else parameters, extra(write, token)), self.version)
        return text, run, pack_structure(0x3F, ({"n": count},), self.version)

    def ask_pull(self, text: str, count: int = -1) -> Request:
        """Asks a PULL of so many more rows of the result that is open, of all with -1."""
        return self._asking(self._submit, *self._pull(text, count))

    def _pull(self, text: str, count: int) -> tuple[str, bytes]:
        return self._packed(f"PULL of {text}", 0x3F, {"n": count})

    def ask_commit(self) -> Request:
        return self.ask("COMMIT", COMMIT)

    def ask_rollback(self) -> Request:
        return self.ask("ROLLBACK", ROLLBACK)

    def ask_reset(self) -> Request:
        return self.ask("RESET", 0x0F)

    # Reading answers.

    def _take(self) -> None:
        """Takes what came of the requests since: their rows, and what their summaries hold."""
        while self._told < len(self.requests):
            request = self.requests[self._told]
            ordinal = request.ordinal
            assert ordinal is not None
            request.rows += self._open.take_rows(ordinal)
            if request.outcome is None:
                return
            request.metadata = (self._open.response(ordinal) or [{}])[0]
            self._told += 1

    def _hear(self, piece: bytes) -> None:
        """Feeds a piece of the server's bytes, none if no more come.

        After a bad answer, one that can't be reported, or if memory ran out, the connection is given up."""
        if not self._state().version:
            self._detail = mistakes.unopened(piece)
        if not piece:
            self._lose(reason(self._cut))
        code = self._open.feed(piece)
        try:
            self._take()
        except NotSent as why:
            if is_from_elsewhere(why):
                raise
            code = why.code if code in (OK, CLOSED) else code
        state = self._state()
        if state.version:
            self._detail = ""
        if code not in (OK, CLOSED):
            self._lose(WHY.get(code, BAD_ANSWER) if state.version else NOT_BOLT if code != MEMORY else NO_MEMORY)
        if state.has_ended and not state.version:
            self._lose(NO_VERSION)

    def _end(self, why: str) -> None:
        """Ends the client: nothing is read any more, and the account has the outcome of each request.

        This may be broken off and done again."""
        if self._client and self._client.handle.at:
            self._why = self._why or why
        # The socket is closed first: what another thread sends isn't reported as lost while it can still go out.
        self._shut()
        if self._client:
            # If another thread closes it meanwhile, nothing is left to lose.
            LIBRARY.bolt_lose(self._client.handle)

    def _lose(self, why: str) -> NoReturn:
        """Ends the connection, which is gone or given up, and raises what became of each request."""
        self._end(why)
        # If another task closed it, the call that went on reports that.
        self._settled, self._is_closed = True, False
        raise Broken(self._all(), self._why or why, self._detail) from self._cut

    def _all(self) -> list[Request]:
        """Returns the requests. Each one has read its outcome, if that is known."""
        for it in self.requests:
            _ = it.outcome
        return list(self.requests)

    def _waits_in_vain(self) -> bool:
        """Returns true if the next answer can't come: nothing more is sent, and no byte of its request has gone out."""
        following = self.requests[self._told:]
        return self._cut is not None and bool(following) and self._open.is_unsent(following[0]._begins)

    def _says_goodbye(self) -> bool:
        """Asks a GOODBYE if nothing waits, and returns true then."""
        state, (_, message) = self._state(), self._packed("GOODBYE", GOODBYE)
        if state.has_ended or state.pending or not self._is_ours():
            return False
        check(LIBRARY.bolt_ask(self._open.handle, message, len(message), Asked()))
        return True

    def _free(self) -> None:
        """Ends the client, and frees it once each request has its outcome."""
        self._is_closed = self._is_closed or not self._why
        self._end(CLOSED_HERE)
        if self._client:
            self._all()
            self._client.close()

    # Calls, step by step.

    def _opening(self, agent: str, login: dict[str, str]) -> Steps[None]:
        while not self._state().version:
            yield
        self.version = self._state().version
        self._submit(*self._packed("HELLO", 0x01, {"user_agent": agent, **({} if self.version >= V5_1 else login)}))
        if self.version >= V5_1:
            self._submit(*self._packed("LOGON", 0x6A, login))
        hello = (yield from self._settling())[0]
        self.server, self.keeps_tokens = str(hello.metadata.get("server", "")), keeps_tokens(hello.metadata)

    def _awaiting(self) -> Steps[Standing]:
        """Goes on until no answer is to come, and returns the state of the client then.

        If it was closed meanwhile, as by a signal's handler, this raises what became of each request."""
        try:
            while (state := self._state()).awaits:
                yield
        except NotSent as why:
            if self._settled:
                raise
            self._closed_meanwhile(why)
        return state

    def _settling(self) -> Steps[list[Request]]:
        # What was asked before a `close` is reported once.
        if self._has_broken or self._settled and self._why:
            self._settled = True
            raise self._over()
        state = yield from self._awaiting()
        if state.has_ended:
            self._end(ENDED)
        requests = [] if self._settled else self._all()
        refused = next((it for it in requests if it.outcome == REFUSED), None)
        if refused and not self._why and PHASES[state.phase] == "HALTED":
            yield from self._going_on()
            self.requests = requests
        self._settled = True
        if refused:
            raise Refused(refused.metadata.get("code", ""), refused.metadata.get("message", ""), requests)
        if requests and self._why:
            raise Broken(requests, self._why, self._detail) from self._cut
        return requests

    def _going_on(self) -> Steps[None]:
        """Resets the session. If that can't be, the connection is gone."""
        try:
            self._submit(*self._packed("RESET", 0x0F))
        except NotSent as why:
            if is_from_elsewhere(why):
                raise
            # Memory ran out.
            self._lose(NO_MEMORY)
        yield from self._awaiting()

    def _alone(self) -> None:
        """Refuses a call if something was asked before and isn't settled: that would go out too."""
        if any(it.outcome is None for it in self.requests):
            raise NotSent(NOT_ALLOWED, hint="what was asked before isn't settled")

    def _at_once(self, submit: Callable[..., Request], *packed: Any) -> Steps[Request]:
        """Asks what is packed, and settles it."""
        self._alone()
        request = submit(*packed)
        yield from self._settling()
        return request


def reason(failed: Optional[OSError]) -> str:
    """Returns why a connection is gone whose socket failed so. None means that the server ended it."""
    if failed is None or isinstance(failed, ConnectionError):
        return GONE
    return TIMED_OUT if isinstance(failed, TimeoutError) else FAILED
