"""Claims of a producer.

The extension in C has other claims, which abort themselves when they are dropped. The claims for ctypes are in this
file. These claims have no method __del__, because Python swallows an interrupt that comes during such a method. Instead
a weak reference appends the trace of a dropped claim to a queue, and the next call of the ring aborts the claim.
"""

import contextlib
import typing

from felter._library import Handle, fast
from felter._owner import Ends, Owner, Unique
from felter._pure import TAKES, Cell, take_bytes
from felter.errors import Closed, Error, Number
from felter.message import Buffer
from felter.waiting import wake

if typing.TYPE_CHECKING:
    import weakref

    from felter.rings import Producer

    Reference = weakref.ref["Claim"]
else:
    from weakref import ref as Reference

# The number of a claim that was not made yet. No claim has this number, since positions are at most 2^62.
NONE = 2**64 - 1


class Trace(Reference):
    """The trace of a claim, with which the claim can be aborted after the claim was dropped."""

    # (if an interrupt left the trace in this state, nothing was claimed)
    producer: "typing.Optional[Producer]" = None
    number = Cell(NONE)

    def owner(self) -> "typing.Optional[Producer]":
        """Returns the producer of the claim, or the producer to which this producer was joined. Returns None if the
        claim was committed or aborted."""
        # (another thread may commit or abort the claim meanwhile, or join the producer)
        first = owner = self.producer
        while owner is not None and owner._joined is not None:
            owner = owner._joined
        if first is not owner and first is not None:
            # (so the next search from here is short, however many producers were joined)
            first._joined = owner
        return owner

    def is_over(self) -> bool:
        """Returns whether there is nothing to abort. The result is True if the claim was committed, aborted or never
        made, or if its producer was freed."""
        producer = self.owner()
        if producer is None or self.number.value == NONE or producer._is_forked():
            return True
        # (if the producer was just joined to another one, the claim is open there)
        return producer._is_empty() and producer._joined is None

    def abort(self) -> None:
        """Aborts the claim if it is open, unless a call of the producer is running."""
        producer = self.owner()
        if producer is None or self.is_over():
            return
        # (after NO_HANDLE the producer was just freed, or joined to another one)
        if producer._quietly("felter_abort", self.number.value) in (0, Number.NO_CLAIM):
            self.producer = None


class Claim(Unique):
    """Room in a ring for one message. A claim that is used as a context manager is committed at the end of the `with`
    block, or aborted if the block raised an exception. A claim that is dropped is aborted by the next call of the ring,
    or earlier. A claim that was committed or aborted no longer keeps its producer alive."""

    def __init__(self, producer: "Producer") -> None:
        # The trace exists before the claim is made. So the trace is left even if an interrupt comes right after the
        # call, and no caller gets the claim.
        ends = producer._ends
        trace = Trace(self, ends.dropped.append)
        trace.producer, trace.number = producer, Cell(NONE)
        ends.traces[id(trace)] = trace
        self._trace = trace

    def put(self, offset: int, data: Buffer) -> None:
        """Puts bytes into the message, from the byte at `offset` on."""
        # (bad parameters are refused first, even if the claim is over)
        self._do("felter_put", *TAKES["usize"](offset), take_bytes(data)[0])

    def commit(self) -> None:
        """Commits the claim, so that the consumer is shown the message."""
        self._do("felter_commit")
        self._trace.producer = None

    def abort(self) -> None:
        """Aborts the claim, so that the consumer skips it."""
        self._do("felter_abort")
        self._trace.producer = None

    def _do(self, name: str, *parameters: typing.Any) -> None:
        producer = self._trace.owner()
        if producer is None:
            raise Error(Number.NO_CLAIM)
        try:
            producer._do(name, self._trace.number.value, *parameters)
        except Closed:
            if producer._joined is None:
                raise
            # (another thread just joined the producer to another one, which has the claim now)
            self._do(name, *parameters)
        producer._wake()

    def __enter__(self) -> "Claim":
        return self

    def __exit__(self, kind: typing.Any, *_: object) -> None:
        if kind is None:
            self.commit()
            return
        # (a claim that is over, or whose producer was freed, has nothing to abort)
        with contextlib.suppress(Error):
            self.abort()
        self._trace.producer = None


if not typing.TYPE_CHECKING and fast is not None:

    class Claim(Unique, fast.Claim):
        """Room in a ring for one message. A claim that is used as a context manager is committed at the end of the
        `with` block, or aborted if the block raised an exception. A claim that is dropped is aborted. A claim that was
        committed or aborted no longer keeps its producer alive."""

        __slots__ = ("__weakref__",)

    fast.claims(Claim)


def settle_dropped(ends: Ends) -> None:
    """Aborts the claims of a ring that were dropped."""
    for trace in list(ends.dropped):
        trace.abort()
        if trace.is_over():
            ends.traces.pop(id(trace), None)
            with contextlib.suppress(ValueError):
                ends.dropped.remove(trace)
    wake(ends.sleepers)


class Settling(Owner):
    """An end of a ring. If ctypes is used, the calls of the end first abort the claims that were dropped."""

    if fast is None:

        def _do(self, name: str, *given: typing.Any) -> typing.Any:
            if self._ends.dropped:
                settle_dropped(self._ends)
            return Handle._do(self, name, *given)

        def _try(self, name: str, *given: typing.Any) -> typing.Any:
            if self._ends.dropped:
                settle_dropped(self._ends)
            return Handle._try(self, name, *given)

        def _read_by(self, name: str) -> typing.Any:
            if self._ends.dropped:
                settle_dropped(self._ends)
            return Handle._read_by(self, name)

        def _is_abandoned(self) -> bool:
            # (a claim that was dropped keeps its producer until it is aborted)
            if self._ends.dropped:
                settle_dropped(self._ends)
            return Owner._is_abandoned(self)

        def _write_laid(self, messages: typing.Iterable[typing.Tuple[int, Buffer]]) -> typing.Tuple[int, int]:
            if self._ends.dropped:
                settle_dropped(self._ends)
            return Handle._write_laid(self, messages)
