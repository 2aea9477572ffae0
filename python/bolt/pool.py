"""A pool of connections, for threads and for asyncio.

Its rules are flows. `Ways` has the calls in which threads and asyncio differ."""
from __future__ import annotations

import contextlib
import functools
import gc
import logging
import time
import weakref
from typing import Any, Callable, Optional

from . import options, seam
from .core import LONGEST
from .errors import BoltError
from .exceptions import ConnectionAcquisitionTimeoutError, DriverError
from .flows import Flow, told

LOG = logging.getLogger("bolt")
CLOSED = "the driver is closed: make a new one by bolt.driver(..)"
# A connection that its holder lost without giving it back is missed after so many seconds.
LOOK_AGAIN = 1.0


class Ways:
    """The calls that threads and asyncio make in different ways. Those of asyncio return
    awaitables."""

    event: Callable[[], Any]  # makes an event, with `set`
    open: Callable[..., Any]  # connects
    sleep: Callable[[float], Any]
    wait: Callable[[Any, float], Any]  # waits for an event, at most so many seconds


class Slot:
    """A connection of a pool, or the right to open one.

    The pool counts the slots that somebody holds. One that an interrupt has lost counts no more."""

    connection: Any = None
    keeps_tokens = False
    server: dict[str, Any]

    def __init__(self) -> None:
        self.made = self.used = time.monotonic()


class Pool:
    """At most so many connections to one server.

    A connection isn't given out after its lifetime, nor if it was idle for too long. One that was
    idle for some time, or that was made before another one broke, is first asked for a sign of
    life."""

    def __init__(
        self, ways: Ways, address: options.Address, auth: Any, given: dict[str, Any]
    ) -> None:
        self.ways, self.address, self.auth, self.given = ways, address, auth, given
        self.is_closed = False
        # There is no lock, which an interrupt could leave locked. Each use of these is one step of
        # the interpreter, and what an interrupt loses is counted no more.
        self._slots: weakref.WeakSet[Slot] = weakref.WeakSet()
        self._idle: list[Slot] = []
        self._waiting: list[weakref.ref[Any]] = []
        self._broke = 0.0  # when a connection broke last

    @property
    def size(self) -> int:
        """The most connections."""
        return int(self.given["max_connection_pool_size"])

    @property
    def in_use(self) -> int:
        """The number of connections that are out of the pool."""
        return len(self._slots) - len(self._idle)

    @property
    def idle(self) -> int:
        """The number of connections that wait in the pool."""
        return len(self._idle)

    def check(self) -> None:
        """Raises DriverError if the pool is closed."""
        if self.is_closed:
            raise DriverError(CLOSED)

    def acquire(self) -> Flow[Slot]:
        """Gives out a connection. `release` takes it back.

        It raises DriverError if the pool is closed, ConnectionAcquisitionTimeoutError if none
        becomes free in time, and what connecting raises."""
        limit = self.given["connection_acquisition_timeout"]
        until = time.monotonic() + min(limit, LONGEST)
        while True:
            slot = yield from self._enter(until)
            try:
                if slot.connection is None or not (yield from self._is_fit(slot)):
                    yield from self._open(slot)
            except BaseException:
                self.release(slot)
                raise
            if not self.is_closed:
                return slot
            self.release(slot)

    def _enter(self, until: float) -> Flow[Slot]:
        """Waits for an idle connection, or for the right to open one."""
        event, has_collected = self.ways.event(), False
        try:
            while True:
                event.clear()
                slot = self._take(event)
                if slot is not None:
                    return slot
                left = until - time.monotonic()
                if left <= 0:
                    limit = self.given["connection_acquisition_timeout"]
                    raise ConnectionAcquisitionTimeoutError(
                        f"all {self.size} connections of the pool were in use for {limit} "
                        "seconds. Close sessions sooner, or raise max_connection_pool_size or "
                        "connection_acquisition_timeout"
                    )
                yield functools.partial(self.ways.wait, event, min(left, LOOK_AGAIN))
                if not event.is_set() and not has_collected:
                    # What an interrupt has lost may be in a cycle, as that of a traceback.
                    has_collected = True
                    gc.collect()
        finally:
            self._leave(event)

    def _take(self, event: Any) -> Optional[Slot]:
        """Returns a slot if more are free than calls came before this one, else None."""
        self.check()
        # Who comes before is counted first: who leaves the queue has taken a slot by then.
        ahead = self._ahead(event)
        if self._free() <= ahead:
            return None
        try:
            # The one that was used last is the likeliest to live.
            return self._idle.pop()
        except IndexError:
            slot = Slot()
        self._slots.add(slot)
        if len(self._slots) <= self.size:
            return slot
        # Another call took it between two steps.
        self._slots.discard(slot)
        event.set()
        return None

    def _free(self) -> int:
        return self.size - len(self._slots) + len(self._idle)

    def _ahead(self, event: Any) -> int:
        """Returns how many calls wait that came before. This one waits from now on."""
        count = 0
        for waiting in list(self._waiting):
            other = waiting()
            if other is event:
                return count
            count += other is not None
        self._waiting.append(weakref.ref(event))
        return count

    def _leave(self, event: Any) -> None:
        """Ends to wait, and lets the next calls go on."""
        for waiting in list(self._waiting):
            if waiting() is None or waiting() is event:
                # Another call may have done so for one that an interrupt has lost.
                with contextlib.suppress(ValueError):
                    self._waiting.remove(waiting)
        self._wake()

    def _wake(self) -> None:
        """Wakes as many calls as slots are free, in their order."""
        waiting = [it for it in (one() for one in list(self._waiting)) if it is not None]
        for event in waiting[: max(0, self._free())]:
            event.set()

    def _is_fit(self, slot: Slot) -> Flow[bool]:
        """Returns true if a connection that was idle may be used. Any other one is ended."""
        if not seam.is_of_here(slot.connection):
            self._drop(slot)
            return False
        now, check = time.monotonic(), self.given["liveness_check_timeout"]
        is_late = now - slot.made > self.given["max_connection_lifetime"]
        if is_late or now - slot.used > self.given["max_connection_idle_time"]:
            yield from self._part(slot)
            return False
        if slot.used <= self._broke or check is not None and now - slot.used >= check:
            try:
                yield slot.connection.reset
            except BoltError:
                LOG.debug("%s: an idle connection has ended", self.address)
        if seam.is_ready(slot.connection):
            return True
        self._drop(slot)
        return False

    def asking(self, slot: Slot) -> Flow[None]:
        """Asks the server for a sign of life."""
        yield from told(slot.connection.reset)

    def _open(self, slot: Slot) -> Flow[None]:
        """Connects, in the slot."""
        made: Any = yield from told(lambda: self.ways.open(self.address, self.auth, self.given))
        slot.connection = made
        slot.made = slot.used = time.monotonic()
        slot.server, slot.keeps_tokens = seam.hello(made), made.keeps_tokens
        made.timeout = self.given["call_timeout"]
        if self.given["keep_alive"]:
            seam.keep_alive(made)

    def release(self, slot: Slot) -> None:
        """Takes back a connection. One that has ended, or in which something is open, is ended for
        good."""
        made = slot.connection
        is_good = made is not None and not self.is_closed and seam.is_ready(made)
        if made is not None and seam.is_broken(made):
            self._broke = time.monotonic()
        if is_good:
            slot.used = time.monotonic()
            if slot not in self._idle:
                self._idle.append(slot)
        else:
            self._drop(slot)
            self._slots.discard(slot)
        if self.is_closed:
            self.drop()
        self._wake()

    def _drop(self, slot: Slot) -> None:
        made, slot.connection = slot.connection, None
        if made is not None:
            seam.drop(made)

    def _part(self, slot: Slot) -> Flow[None]:
        """Ends a connection with a goodbye."""
        made, slot.connection = slot.connection, None
        try:
            yield made.close
        except BoltError as why:
            LOG.debug("%s: %s", self.address, why)
        finally:
            seam.drop(made)

    def drop(self) -> None:
        """Ends the idle connections at once, and refuses further calls."""
        self.is_closed = True
        while self._idle:
            slot = self._idle.pop()
            self._drop(slot)
            self._slots.discard(slot)

    def close(self) -> Flow[None]:
        """Ends the idle connections. Those in use are ended when they come back."""
        self.is_closed = True
        for event in [it() for it in list(self._waiting)]:
            if event is not None:
                event.set()
        while self._idle:
            slot = self._idle.pop()
            yield from self._part(slot)
            self._slots.discard(slot)
