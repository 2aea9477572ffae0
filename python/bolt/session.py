"""A session of a server over a socket: requests are asked, and go out as one pipeline when they are settled."""
from __future__ import annotations

import functools
import select
import socket
import ssl
import time
import types
from typing import Any, Callable, Optional, Sequence, Union

from .core import (BEGIN, COMMIT, ROLLBACK, Answer, Core, Stepped, Steps, calls, context_of, ends, extra, host_of,
                   is_from_elsewhere, login_of, own, port_of, tried)
from .errors import CLOSED_HERE, TIMED_OUT, Broken, NotSent, Request, unreached
from .library import MESSAGE
from .versions import NEWEST

LATE = 1 << 22
# The most seconds that a call of a socket is given at once: the system counts its milliseconds in 31 bits.
AT_ONCE = 1_000_000
BLOCKED = BlockingIOError, ssl.SSLWantReadError, ssl.SSLWantWriteError


class Session(Core):
    """A session of a server.

    `timeout` bounds each call as a whole, in seconds, also this one except for the look-up of a name; None is no bound.
    If something isn't settled by then, the call raises `Broken` with the outcomes, and the connection is gone.

    `requests` are those asked since all were settled, in order. They stay until the next one is asked."""

    _socket: Optional[socket.socket] = None
    _is_late = False

    def __init__(self, host: str, port: int, auth: tuple[str, str, str] = ("none", "", ""), agent: str = "bolt.py/1",
                 versions: int = NEWEST, timeout: Optional[float] = 10,
                 tls: Union[None, bool, ssl.SSLContext] = None) -> None:
        login, host, port = login_of(auth), host_of(host), port_of(port)
        self._tls = context_of(tls)
        super().__init__(versions, timeout)
        try:
            self._connect(host, port)
            self._do(self._opening(agent, login), self._until)
        except BaseException:
            self.close()
            raise

    def _connect(self, host: str, port: int) -> None:
        """Connects to the first address of the host that takes it."""
        calls(self._tls)
        addresses = tried(socket.getaddrinfo, host, port, 0, socket.SOCK_STREAM)
        if isinstance(addresses, OSError):
            raise unreached(addresses, False) from addresses
        failed: Optional[OSError] = OSError("the host has no address")
        for *kind, _, address in addresses:
            failed = self._reach(host, kind, address)
            if not failed:
                return
            self._shut()
        assert failed
        raise unreached(failed, self._tls is not None) from failed

    def _reach(self, host: str, kind: Sequence[int], address: Any) -> Optional[OSError]:
        """Connects to an address of the host. Returns why that failed, None if it didn't."""
        made = tried(socket.socket, *kind)
        if isinstance(made, OSError):
            return made
        self._socket = made
        failed = self._timed(made.connect, address) or tried(made.setsockopt, socket.IPPROTO_TCP, socket.TCP_NODELAY, 1)
        if failed or not self._tls:
            return failed
        wrapped = self._timed(functools.partial(self._tls.wrap_socket, server_hostname=host), made)
        if isinstance(wrapped, OSError):
            return wrapped
        self._socket = wrapped
        return None

    def __enter__(self) -> Session:
        return self

    def __exit__(self, *_: object) -> None:
        self.close()

    def _shut(self) -> None:
        # A call of another thread that waits for the socket sees its end by the shutdown.
        if self._socket and self._amid and self._is_ours():
            if isinstance(self._socket, ssl.SSLSocket):
                # This shuts the socket below TLS: else what that call still sends would go out unencrypted.
                tried(super(ssl.SSLSocket, self._socket).shutdown, socket.SHUT_RDWR)
            else:
                tried(self._socket.shutdown, socket.SHUT_RDWR)
        if self._socket:
            # The socket is closed whatever this returns.
            tried(self._socket.close)

    def _give(self, left: Optional[float]) -> None:
        """Gives the next call of the socket so many seconds, None for no end."""
        assert self._socket
        self._socket.settimeout(left if left is None else min(left, AT_ONCE))

    def _calls(self, left: Optional[float], call: Callable[..., Answer], of: Any) -> Union[Answer, OSError]:
        """Returns what a call of the socket returns within so many seconds, or the error that it raises.

        A call of TLS raises errors of other classes if another thread closes the socket meanwhile."""
        try:
            self._give(left)
            return call(of)
        except OSError as why:
            return own(why)
        except (AttributeError, ValueError) as why:
            if not self._why or is_from_elsewhere(why):
                raise
            return OSError(CLOSED_HERE)

    def _timed(self, call: Callable[..., Answer], of: Any) -> Union[Answer, OSError]:
        """Returns what a call of the socket returns in the time that is left, which must be some."""
        left = self._left()
        if left == 0:
            return TimeoutError(TIMED_OUT)
        return self._calls(left, call, of)

    def _send(self) -> Optional[bytes]:
        """Sends what waits. If the server takes no more until its answers are read, returns what it said."""
        said = None
        while said is None and not self._cut and (piece := self._open.unsent()):
            left = self._left()
            if left == 0:
                self._cut = TimeoutError(TIMED_OUT)
                break
            assert self._socket
            send = self._socket.send
            self._open.goes(len(piece))
            went = self._calls(0, send, piece)
            if not isinstance(went, OSError):
                self._open.sent(went)
                continue
            # If the system's own call fails, it has sent nothing. TLS, or another package, may have sent a part.
            if went.errno and not self._tls and isinstance(send, types.BuiltinMethodType):
                self._open.goes(0)
            if isinstance(went, BLOCKED):
                said = self._overhear(left)
            else:
                self._cut = went
        return said

    def _overhear(self, left: Optional[float]) -> Optional[bytes]:
        """Returns what has come while the socket takes nothing, no bytes at the server's end.

        If nothing has come, it waits until the socket takes or has something."""
        assert self._socket
        heard = self._calls(0, self._socket.recv, MESSAGE)
        if not isinstance(heard, OSError):
            return heard
        if not isinstance(heard, BLOCKED):
            self._cut = heard
            return None
        # This doesn't wait for long: another thread may close the socket, and its number may then be another's.
        seconds, number = min(1, 1 if left is None else left), self._socket.fileno()
        if not hasattr(select, "poll"):
            # Packages that replace sockets, as eventlet, take `poll` away.
            time.sleep(min(seconds, 0.01))
        elif number >= 0:
            waiting = select.poll()
            waiting.register(number, select.POLLIN | select.POLLOUT)
            waiting.poll(1000 * seconds)
        return None

    def _receive(self) -> bytes:
        """Returns the next bytes of the server, none if no more come.

        After the call's time, or if a send used it up, one piece of what is there already is still read."""
        while not self._waits_in_vain():
            left = 0 if isinstance(self._cut, TimeoutError) else self._left()
            assert self._socket
            if left == 0 and self._is_late:
                heard: Union[bytes, OSError] = TimeoutError(TIMED_OUT)
            else:
                self._is_late = left == 0
                heard = self._calls(left, self._socket.recv, LATE if left == 0 else MESSAGE)
            if not isinstance(heard, OSError):
                return heard
            if not (left and left > AT_ONCE and isinstance(heard, TimeoutError)):
                self._cut = self._cut or (TimeoutError(TIMED_OUT) if isinstance(heard, BLOCKED) else heard)
                return b""
        return b""

    @ends
    def _do(self, steps: Steps[Answer], until: Optional[float]) -> Answer:
        """Does a call step by step. It has to be done by then."""
        self._until, self._is_late = until, False
        call = Stepped(steps)
        for _ in call:
            try:
                said = self._send()
                self._hear(self._receive() if said is None else said)
            except NotSent as why:
                self._closed_meanwhile(why)
        return call.answer

    def _call(self, steps: Steps[Answer]) -> Answer:
        """Does a call in its time."""
        return self._do(steps, self._by())

    def settle(self) -> list[Request]:
        """Sends what was asked, reads all answers, and returns the requests asked since all were settled.

        The first FAILURE is raised, after a RESET if the session still ignores requests."""
        return self._call(self._settling())

    def run(self, text: str, parameters: Optional[dict[str, Any]] = None, write: bool = True,
            token: Optional[str] = None) -> list[list[Any]]:
        """Returns the rows. Outside of a transaction they are committed with the last one, under the token if any."""
        return self._call(self._at_once(self._submit_both, *self._run(text, parameters, write, token))).rows

    def begin(self, write: bool = True, token: Optional[str] = None) -> None:
        """Begins a transaction: to write unless `write` is False, under the token if there is one."""
        self._call(self._at_once(self._submit, *self._packed("BEGIN", BEGIN, extra(write, token))))

    def commit(self) -> Optional[str]:
        """Returns COMMITTED. Any other end is raised."""
        return self._call(self._at_once(self._submit, *self._packed("COMMIT", COMMIT))).outcome

    def rollback(self) -> None:
        self._call(self._at_once(self._submit, *self._packed("ROLLBACK", ROLLBACK)))

    def reset(self) -> None:
        """Ends what is open in the session: a result, and a transaction, which is dropped."""
        self._call(self._at_once(self._submit, *self._packed("RESET", 0x0F)))

    def close(self) -> None:
        """Says goodbye if nothing waits, and frees the client. A second close does nothing.

        What was asked and isn't settled isn't sent any more."""
        try:
            if self._socket:
                self._part()
        except (NotSent, Broken) as why:
            if is_from_elsewhere(why):
                raise
        finally:
            # If that is broken off, a second close reads the outcome of each request.
            self._free()

    @ends
    def _part(self) -> None:
        """Says goodbye, unless another call has the connection: its bytes would be sent twice."""
        self._until = self._by()
        if self._says_goodbye():
            self._send()
