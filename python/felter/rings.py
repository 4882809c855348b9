"""Rings. A producer writes messages, and a consumer reads them."""

# (the calls of the library return what the library wrote, which has no type)
# mypy: no-warn-return-any

import contextlib
import enum
import sys
import typing

from felter._library import call, direct
from felter._owner import Ends, Sizes, numbers
from felter._pure import TAKES
from felter.claims import Claim, Settling, settle_dropped
from felter.controlled import Controlled
from felter.errors import Contended, Disconnected, Error, Full, Number, refusal
from felter.files import Path, make
from felter.message import Buffer, Message
from felter.recovering import messages_in
from felter.waiting import each, wait_as_task, wait_for


class Positions(typing.NamedTuple):
    """The positions at which the next read and the next claim of a ring begin, in bytes. Neither position ever
    falls."""

    head: int
    tail: int


class Found(enum.IntEnum):
    """The kind of thing that is next in a ring, with the numbers of felter.h."""

    # A message, which the consumer reads next.
    MESSAGE = 0
    # Nothing is claimed after the head.
    NONE = 1
    # A claim that is not yet committed or aborted. Its producer is slow, or lost.
    CLAIM = 2
    # Something changed during the call. Call again.
    CHANGE = 3


class Standing(typing.NamedTuple):
    """The kind of thing that is next in a ring, and the position of the head in bytes. If a claim is next, the head is
    the position of this claim."""

    found: Found
    head: int


class Consumer(Controlled):
    """Reads a ring, one message after another, into a buffer that grows with the messages."""

    def __init__(self, number: int, ends: Ends) -> None:
        super().__init__(number, ends, writes=False)

    def sizes(self) -> Sizes:
        """Returns the capacity, and the length of the longest message, in bytes."""
        return self._sizes()

    def is_abandoned(self) -> bool:
        """Returns whether every producer was freed, or given to `close`. Nothing more will then be written, but earlier
        messages can still be read."""
        return self._is_abandoned()

    @direct
    def read(self, timeout: typing.Optional[float] = 0) -> typing.Optional[Message]:
        """Reads the next message, and removes it from the ring. Returns None if no message came within `timeout`
        seconds. With the timeout 0 the call does not wait. With None it waits for ever. A call that waits raises
        Disconnected if every producer is gone and all messages were read."""
        return self._read() if timeout == 0 else self._next_within(timeout)

    def _next_within(self, timeout: typing.Optional[float]) -> typing.Optional[Message]:
        return wait_for(self._read, timeout, self.is_abandoned, self._sleepers)

    async def read_async(self, timeout: typing.Optional[float] = None) -> typing.Optional[Message]:
        """Does what `read` does with a timeout, in a task of asyncio. Other tasks go on while this task waits."""
        return await wait_as_task(self._read, timeout, self.is_abandoned, self._sleepers)

    def __aiter__(self) -> typing.AsyncIterator[Message]:
        """Waits for each message, until every producer is gone and all messages were read. Other tasks also have turns
        if there is always a message."""
        return each(self.read_async)

    @direct
    def _read(self) -> typing.Optional[Message]:
        found: typing.Optional[Message] = self._read_by("felter_read")
        return found

    def __iter__(self) -> typing.Iterator[Message]:
        """Returns an iterator over the messages that are there. The iterator removes each message from the ring, and
        does not wait."""
        return iter(self._read, None)

    def messages(self, timeout: typing.Optional[float] = None) -> typing.Iterator[Message]:
        """Returns an iterator that waits for each message, as `read` does with a timeout. The iterator ends when no
        message came within `timeout` seconds, or when every producer is gone and all messages were read."""
        with contextlib.suppress(Disconnected):
            yield from iter(lambda: self.read(timeout), None)

    @direct
    def read_batch(self, limit: int, room: int = 65536) -> typing.List[Message]:
        """Reads up to `limit` messages by one call, and returns a list of them. The list is empty if no message is
        there. The call can return fewer messages than are in the ring. The call reads into a buffer of `room` bytes. A
        message takes 16 bytes of the buffer, plus the bytes of its body, rounded up to a multiple of 8. A message for
        which the buffer has no room stays in the ring."""
        (most,), (size,) = TAKES["u32"](limit), TAKES["usize"](room)
        if size > sys.maxsize:
            raise MemoryError
        count, records = self._try("felter_read_batch", most, size) or (0, b"")
        return messages_in(records, count)

    def standing(self, producer: "Producer") -> Standing:
        """Returns what is next in the ring. The call needs a producer of the same ring. The call loads the positions,
        reads into a buffer of no bytes, and loads the positions again. The read passes padding and aborted claims
        before the next message. If the read passed any of these, the result is CHANGE unless a message is next."""
        if self._number != producer._number:
            raise Error(Number.OTHER_RING)
        first, is_message = producer.positions(), False
        try:
            # No message has room in this buffer, so a message stays.
            self._try("felter_read_batch", 1, 0)
        except Error as refused:
            if refused.number != Number.SHORT_BUFFER:
                raise
            is_message = True
        head, tail = producer.positions()
        if is_message:
            return Standing(Found.MESSAGE, head)
        if head == first.head and tail <= head:
            return Standing(Found.NONE, head)
        return Standing(Found.CLAIM if head == first.head and first.tail > head else Found.CHANGE, head)

    def set_heartbeat(self, value: int) -> None:
        """Stores the heartbeat that producers load."""
        self._do("felter_set_heartbeat", value)

    def close(self, producer: "Producer") -> None:
        """Closes the ring with its last producer. Afterwards nothing can be written, and the calls of the producer
        raise `Closed`. The messages in the ring can still be read. The call raises CLAIMS_OPEN if a claim of the
        producer is open. It raises PRODUCERS_OUT if another producer was neither joined nor freed. After such an error
        the consumer and the producer are as before."""
        if isinstance(producer, Producer):
            settle_dropped(self._ends)
        self._with("felter_close", producer)

    def finish(self) -> int:
        """Ends a ring that was closed, or whose producers were all freed, and frees the consumer. Returns how many
        committed messages were left unread. The call raises PRODUCERS_OUT if the ring was not closed and a producer
        still exists. The consumer is then as before."""
        return self._do("felter_finish")


class Producer(Settling):
    """Writes messages into a ring. If a producer is freed, its open claims are aborted, and the ring can end without
    this producer."""

    def __init__(self, number: int, first: typing.Optional["Producer"] = None) -> None:
        super().__init__(number, first._ends if first else None)

    def sizes(self) -> Sizes:
        """Returns the capacity, and the length of the longest message, in bytes."""
        return self._sizes()

    def is_abandoned(self) -> bool:
        """Returns whether the consumer was freed. Messages that are written afterwards are never read."""
        return self._is_abandoned()

    @direct
    def write(self, type_id: int, body: Buffer, timeout: typing.Optional[float] = 0) -> None:
        """Writes a message. The body is any object that has a buffer of bytes, such as a `bytes`, a `bytearray` or an
        `array`. While the ring is full, or another producer is faster, the call tries again for `timeout` seconds.
        After that the call raises Full or Contended. With the timeout 0 the call tries once. With None the call tries
        for ever. The call raises Disconnected if it would have to wait and the consumer is gone."""
        if timeout == 0:
            self._do("felter_write", type_id, body)
            self._wake()
        else:
            self._write_within(timeout, type_id, body)

    def _write_within(self, timeout: typing.Optional[float], type_id: int, body: Buffer) -> None:
        refused: typing.List[Error] = []

        def attempt() -> typing.Optional[bool]:
            try:
                self._do("felter_write", type_id, body)
                self._wake()
                return True
            except (Full, Contended) as why:
                refused[:] = [why]
                return None

        try:
            if not wait_for(attempt, timeout, self.is_abandoned):
                raise refused[0]
        finally:
            # (an exception refers to its frames, and so to this list, which would keep this producer alive)
            refused.clear()

    def write_all(self, messages: typing.Iterable[typing.Tuple[int, Buffer]]) -> int:
        """Writes messages one after another, and returns how many messages were written. Each message is a type id and
        a body. The call stops if the ring is full or another producer is faster. Other refusals raise an Error."""
        written = 0
        with contextlib.suppress(Full, Contended):
            for type_id, body in messages:
                self.write(type_id, body)
                written += 1
        return written

    @direct
    def write_batch(self, messages: typing.Iterable[typing.Tuple[int, Buffer]]) -> int:
        """Writes a batch of messages by one call of the library, and returns how many messages were written. Each
        message is a type id and a body. The consumer sees messages that are next to one another in the ring at once.
        The call writes fewer messages if the ring is full, another producer is faster, or the next record would end
        above 2^62. The call raises an Error if a message has a bad type id or is too long, or if the first record would
        end above 2^62. After an Error no message was written."""
        written, code = self._write_laid(messages)
        if written:
            self._wake()
        elif code not in (0, Number.INSUFFICIENT_CAPACITY, Number.CONTENDED):
            raise refusal(code)
        return written

    @direct
    def claim(self, type_id: int, length: int) -> Claim:
        """Claims room for a message. Each byte is 0 until `put` stores it. Any number of claims may be open at once."""
        claim = Claim(self)
        self._do("felter_claim", type_id, length, claim._trace.number)
        return claim

    def split(self) -> "Producer":
        """Makes another producer of a many-to-one ring, with one share."""
        other = Producer(self._number, self)
        self._do("felter_split", other)
        return other

    def join(self, other: "Producer") -> None:
        """Joins another producer of the same ring to this one. This producer gets the shares and the open claims of the
        other one."""
        self._with("felter_join", other)

    def positions(self) -> Positions:
        """Loads the head of the ring, and then its tail."""
        return Positions(*self._do("felter_positions"))

    def used(self) -> int:
        """Returns how many bytes of the ring are claimed and not yet read. The call loads the positions once."""
        head, tail = self.positions()
        # (the head is loaded first, so the tail may be more than a capacity above it by then)
        return min(tail - head, self.sizes().capacity)

    def available(self) -> int:
        """Returns how many bytes are free. A message also takes some of these bytes for its header, and possibly for
        padding."""
        return self.sizes().capacity - self.used()

    def is_empty(self) -> bool:
        """Returns whether everything that was claimed was read."""
        return self.used() == 0

    def next_id(self) -> int:
        """Draws the ring's next correlation id."""
        return self._do("felter_next_id")

    def heartbeat(self) -> int:
        """Loads the heartbeat that the consumer stored last. The heartbeat is 0 before the consumer stores one."""
        return self._do("felter_heartbeat")

    def shares(self) -> int:
        """Returns how many of the ring's 65,536 shares this producer holds."""
        return self._do("felter_shares")


def _ends() -> typing.Tuple[Producer, Consumer]:
    number = next(numbers)
    producer = Producer(number)
    return producer, Consumer(number, producer._ends)


def _ring(name: str, capacity: int, start: int) -> typing.Tuple[Producer, Consumer]:
    producer, consumer = _ends()
    call(name, producer._number, capacity, start, producer, consumer)
    return producer, consumer


def _ring_in_file(name: str, path: Path, capacity: int) -> typing.Tuple[Producer, Consumer]:
    producer, consumer = _ends()
    make(path, "felter_ring_memory", name, (producer, consumer), capacity)
    return producer, consumer


def many_to_one(capacity: int, start: int = 0) -> typing.Tuple[Producer, Consumer]:
    """Makes a ring for any number of producers. Returns its first producer, which begins with all 65,536 shares of the
    ring, and its consumer."""
    return _ring("felter_many_to_one_new_at_numbered", capacity, start)


def one_to_one(capacity: int, start: int = 0) -> typing.Tuple[Producer, Consumer]:
    """Makes a one-to-one ring, whose only producer cannot be split. Returns the producer and the consumer."""
    return _ring("felter_one_to_one_new_at_numbered", capacity, start)


def many_to_one_in_file(path: Path, capacity: int) -> typing.Tuple[Producer, Consumer]:
    """Makes a new file, and a ring for any number of producers in it. Positions begin at 0. The words and the bodies of
    the ring are in the file, so the messages survive the death of the process. Another process can map the file and
    look at it, but must not write to it. The file is unmapped after the last handle of the ring was freed. The file
    itself stays. The call raises an OSError if the file exists, or cannot be made."""
    return _ring_in_file("felter_many_to_one_new_in_numbered", path, capacity)


def one_to_one_in_file(path: Path, capacity: int) -> typing.Tuple[Producer, Consumer]:
    """Makes a one-to-one ring in a new file, as `many_to_one_in_file` makes a ring for many producers."""
    return _ring_in_file("felter_one_to_one_new_in_numbered", path, capacity)
