"""Flows: the steps of a call of the driver, written once for threads and for asyncio.

A flow is a generator that does no input or output itself. It yields calls without arguments, and
gets what each returns or raises. `play` makes the calls of a flow one after another; `aplay` awaits
what each returns."""
from __future__ import annotations

from typing import Any, Callable, Generator, TypeVar

from .errors import BoltError
from .exceptions import of

Found = TypeVar("Found")
Flow = Generator[Callable[[], Any], Any, Found]


def play(flow: Flow[Found]) -> Found:
    """Makes the calls of a flow, and returns what the flow returns.

    What a call raises, also an interrupt, is raised in the flow, which may clean up."""
    try:
        call = next(flow)
        while True:
            try:
                value = call()
            except BaseException as why:
                call = flow.throw(why)
            else:
                call = flow.send(value)
    except StopIteration as done:
        found: Found = done.value
        return found
    finally:
        # An interrupt between two calls ends the flow here, with its cleaning.
        flow.close()


async def aplay(flow: Flow[Found]) -> Found:
    """Does the same, and awaits what each call returns. A cancellation is raised in the flow."""
    try:
        call = next(flow)
        while True:
            try:
                value = await call()
            except BaseException as why:
                call = flow.throw(why)
            else:
                call = flow.send(value)
    except StopIteration as done:
        found: Found = done.value
        return found
    finally:
        flow.close()


def told(call: Callable[[], Any]) -> Flow[Any]:
    """Makes one call of the package below. Its exceptions become those of the driver's tree."""
    try:
        return (yield call)
    except BoltError as why:
        found = of(why)
        if found is why:
            raise
        raise found from why.__cause__


def mapped(call: Callable[[], Found]) -> Found:
    """Makes a call that needs no input or output, with exceptions of the driver's tree."""
    try:
        return call()
    except BoltError as why:
        found = of(why)
        if found is why:
            raise
        raise found from why.__cause__
