"""Calls that wait, and doorbells for event loops. The library itself never waits."""

import contextlib
import functools
import io
import itertools
import os
import select
import sys
import threading
import time
import types
import typing

from felter.errors import Disconnected

if typing.TYPE_CHECKING:
    import asyncio

T = typing.TypeVar("T")


def refuse_none_number(timeout: typing.Optional[float]) -> None:
    """Refuses a timeout that is not a number (NaN), since a wait with such a timeout would never end."""
    if timeout is not None and timeout != timeout:
        raise ValueError("the timeout is not a number (NaN)")


# The locks on which readers of a ring or a board sleep. After each write the writer releases the locks in the list, if
# the list has any.
Sleepers = typing.List[typing.Any]

# The longest pause between two looks, and the longest sleep of a reader, in seconds. (The sleep is bounded, since
# nothing wakes a reader if the other side is dropped.)
LONGEST_PAUSE = 1e-3
LONGEST_SLEEP = 0.05
# A reader pauses until its pauses are longer than this, and then sleeps.
LAST_PAUSE = 6e-5
# After this many messages an iterator of asyncio lets other tasks have a turn.
BURST = 64


def wake(sleepers: Sleepers) -> None:
    """Wakes the readers that sleep."""
    while sleepers:
        # (a reader that gave up meanwhile holds no lock, or has closed its doorbell)
        with contextlib.suppress(IndexError, RuntimeError, ValueError, OSError):
            sleepers.pop().release()


def sleep(
    sleepers: Sleepers, attempt: typing.Callable[[], typing.Optional[T]], left: typing.Optional[float]
) -> typing.Optional[T]:
    """Makes an attempt. If it returns None, sleeps until a writer wakes the thread, or for at most `left` seconds."""
    lock = threading.Lock()
    lock.acquire()
    sleepers.append(lock)
    try:
        found = attempt()
        if found is None:
            lock.acquire(True, LONGEST_SLEEP if left is None else min(left, LONGEST_SLEEP))
        return found
    finally:
        with contextlib.suppress(ValueError):
            sleepers.remove(lock)


def wait_for(
    attempt: typing.Callable[[], typing.Optional[T]],
    timeout: typing.Optional[float],
    is_abandoned: typing.Callable[[], bool],
    sleepers: typing.Optional[Sleepers] = None,
) -> typing.Optional[T]:
    """Makes an attempt again and again for `timeout` seconds, until an attempt returns something that is not None. With
    the timeout 0 there is one attempt. With the timeout None the attempts never end. Returns None after the timeout.
    With a list of sleepers the thread sleeps between attempts until a writer wakes it. Otherwise the thread pauses
    between attempts. Raises Disconnected if the other side is gone and a later attempt returned None."""
    refuse_none_number(timeout)
    if timeout == 0:
        return attempt()
    end = None if timeout is None else time.monotonic() + timeout
    pause = 0.0
    while True:
        # (this comes first, so the last attempt finds what was written before the other side was gone)
        is_last = is_abandoned()
        found = attempt()
        if found is not None:
            return found
        if is_last:
            raise Disconnected("the other side is gone")
        left = None if end is None else end - time.monotonic()
        if left is not None and left <= 0:
            return None
        if sleepers is not None and pause > LAST_PAUSE:
            found = sleep(sleepers, attempt, left)
            if found is not None:
                return found
        else:
            time.sleep(pause if left is None else min(pause, left))
            pause = min(pause * 2 or 1e-6, LONGEST_PAUSE)


async def wait_as_task(
    attempt: typing.Callable[[], typing.Optional[T]],
    timeout: typing.Optional[float],
    is_abandoned: typing.Callable[[], bool],
    sleepers: Sleepers,
) -> typing.Optional[T]:
    """Does what `wait_for` does, in a task of asyncio. The event loop runs other tasks meanwhile. A write wakes the
    task by a doorbell."""
    import asyncio

    refuse_none_number(timeout)
    found, end = attempt(), None if timeout is None else time.monotonic() + timeout
    if found is not None or timeout == 0:
        return found
    loop, rung = asyncio.get_running_loop(), asyncio.Event()
    with Doorbell() as bell:
        loop.add_reader(bell.fileno(), rung.set)
        try:
            while True:
                is_last = is_abandoned()
                with Listed(sleepers, bell):
                    found = attempt()
                    if found is not None:
                        return found
                    if is_last:
                        raise Disconnected("the other side is gone")
                    left = LONGEST_SLEEP if end is None else end - time.monotonic()
                    if left <= 0:
                        return None
                    await wait_for_event(rung, min(left, LONGEST_SLEEP))
                rung.clear()
        finally:
            loop.remove_reader(bell.fileno())


async def wait_for_event(event: "asyncio.Event", seconds: float) -> None:
    """Waits until an event is set, and sets it after some seconds. (Before Python 3.12 asyncio.wait_for swallows the
    cancellation of a task whose event was just set.)"""
    import asyncio

    timer = asyncio.get_running_loop().call_later(seconds, event.set)
    try:
        await event.wait()
    finally:
        timer.cancel()


async def each(
    read: typing.Callable[[], typing.Coroutine[typing.Any, typing.Any, typing.Optional[T]]],
) -> typing.AsyncIterator[T]:
    """Reads again and again, and waits, until the other side is gone and all messages were read."""
    import asyncio

    with contextlib.suppress(Disconnected):
        for number in itertools.count(1):
            message = await read()
            if message is not None:
                yield message
            # (a read of a message that is there does not let the event loop run)
            if number % BURST == 0:
                await asyncio.sleep(0)


class Listed:
    """Puts a doorbell into a list of sleepers. When the sleepers are woken the next time, the doorbell is rung. The
    destructors of claims and handles also wake sleepers. So waking a sleeper must run no Python code."""

    def __init__(self, sleepers: Sleepers, bell: "Doorbell") -> None:
        self._sleepers, self._bell = sleepers, bell
        self._waker = types.SimpleNamespace(release=functools.partial(bell._writes.write, ONE))

    def __enter__(self) -> None:
        self._sleepers.append(self._waker)

    def __exit__(self, *_: object) -> None:
        try:
            self._sleepers.remove(self._waker)
        except ValueError:
            # (another thread has taken the waker out, and will soon ring, so the descriptor must stay open until then)
            self._bell.wait(1)
            self._bell.clear()


# The bytes that `Doorbell.ring` writes.
ONE = (1).to_bytes(8, "little")


class Doorbell:
    """An eventfd of Linux, for event loops. The descriptor `fileno` becomes readable when the doorbell is rung, and
    stays readable until the doorbell is cleared.

    Writers ring the doorbell after they have written, since a write does not ring a doorbell. The reader clears the
    doorbell first, and then reads until no message is there.

        loop.add_reader(bell.fileno(), on_ring)     # asyncio

    Close a doorbell, or use it as a context manager. A doorbell that is dropped is closed too, with a ResourceWarning.
    """

    def __init__(self) -> None:
        # (the files close themselves when they are dropped, since an interrupt would be swallowed in a destructor in
        # Python)
        if sys.version_info >= (3, 10) and hasattr(os, "eventfd"):
            self._reads = self._writes = io.FileIO(os.eventfd(0, os.EFD_CLOEXEC | os.EFD_NONBLOCK), "r+")
        else:
            # (before Python 3.10 a pipe does the same)
            reads, writes = os.pipe()
            self._reads, self._writes = io.FileIO(reads, "r"), io.FileIO(writes, "w")
            os.set_blocking(reads, False)
            os.set_blocking(writes, False)

    def fileno(self) -> int:
        """Returns the descriptor for event loops."""
        return -1 if self._reads.closed else self._reads.fileno()

    def ring(self) -> None:
        """Rings the doorbell. Any thread may call this."""
        # (None means that the count or the pipe is full, so the doorbell is rung already)
        self._writes.write(ONE)

    def clear(self) -> bool:
        """Clears the doorbell, and returns whether it was rung."""
        return bool(self._reads.read(8 if self._reads is self._writes else 65536))

    def wait(self, timeout: typing.Optional[float] = None) -> bool:
        """Waits until the doorbell is rung, for at most `timeout` seconds. If `timeout` is None, waits for ever.
        Returns whether the doorbell was rung."""
        refuse_none_number(timeout)
        poll = select.poll()
        poll.register(self._reads, select.POLLIN)
        return bool(poll.poll(None if timeout is None else max(0, timeout * 1000)))

    def close(self) -> None:
        """Closes the doorbell. A doorbell may be closed more than once."""
        self._reads.close()
        self._writes.close()

    def __enter__(self) -> "Doorbell":
        return self

    def __exit__(self, *_: object) -> None:
        self.close()
