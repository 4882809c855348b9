"""Boards, which are broadcast buffers. A transmitter never waits, and a receiver learns how many bytes it missed."""

# (the calls of the library return what the library wrote, which has no type)
# mypy: no-warn-return-any

import contextlib
import typing

from felter._library import call, direct
from felter._owner import Owner, Sizes, numbers
from felter.errors import Disconnected, Error, Number
from felter.files import Path, make
from felter.message import Buffer, Message
from felter.waiting import each, wait_as_task, wait_for


class Lap(typing.NamedTuple):
    """The place at which a receiver was lapped, and the intent that showed the lap. The intent is the position up to
    which the transmitter had begun to write."""

    place: int
    intent: int


class Transmitter(Owner):
    """Transmits messages on a board. `Transmitter(capacity)` makes a board. The capacity is a power of two from 256 to
    2^24. A transmitter never waits. A receiver that is too slow is overtaken, and learns this from `Lapped`."""

    def __init__(self, capacity: int, start: int = 0) -> None:
        super().__init__(next(numbers))
        call("felter_board_new_at_numbered", self._number, capacity, start, self)

    @classmethod
    def in_file(cls, path: Path, capacity: int) -> "Transmitter":
        """Makes a new file, and a board in it, as `many_to_one_in_file` does for a ring."""
        made: "Transmitter" = cls.__new__(cls)
        Owner.__init__(made, next(numbers))
        make(path, "felter_board_memory", "felter_board_new_in_numbered", (made,), capacity)
        return made

    def sizes(self) -> Sizes:
        """Returns the capacity, and the length of the longest message, in bytes."""
        return self._sizes()

    @direct
    def transmit(self, type_id: int, body: Buffer) -> None:
        """Transmits a message. The body is any object that has a buffer of bytes."""
        self._do("felter_transmit", type_id, body)
        self._wake()

    def subscribe(self) -> "Receiver":
        """Makes a receiver, which starts with the message that was transmitted last. The receiver gets one of the
        board's 65,536 shares. If the receiver is freed, this share is lost, and the board can end without the
        receiver."""
        receiver = Receiver(self._number, self._ends, writes=False)
        self._do("felter_subscribe", receiver)
        return receiver

    def subscribe_raw(self) -> "RawReceiver":
        """Makes a raw receiver, which returns each record without its body. Otherwise the call is the same as
        `subscribe`."""
        receiver = RawReceiver(self._number, self._ends, writes=False)
        self._do("felter_subscribe_raw", receiver)
        return receiver

    def join(self, receiver: "Receiver") -> None:
        """Takes back a receiver of this board with its share."""
        self._with("felter_board_join", receiver)

    def join_raw(self, receiver: "RawReceiver") -> None:
        """Takes back a raw receiver of this board with its share."""
        self._with("felter_board_join_raw", receiver)

    def close(self) -> int:
        """Ends a board whose receivers were all taken back or freed, and frees the transmitter. Returns the position at
        which the last transmission ended. The call raises RECEIVERS_OUT while a receiver exists. In this case
        the transmitter is unchanged."""
        return self._do("felter_board_close")


class Receiver(Owner):
    """Receives the messages that are transmitted on a board."""

    def sizes(self) -> Sizes:
        """Returns the capacity, and the length of the longest message, in bytes."""
        return self._sizes()

    def place(self) -> int:
        """Returns the position, in bytes, at which the next call looks for a message."""
        return self._do("felter_receiver_place")

    def lap(self) -> typing.Optional[Lap]:
        """Returns the positions at which the receiver was lapped last, or None if it never was."""
        found = self._try("felter_receiver_lap")
        return found and Lap(*found)

    def is_abandoned(self) -> bool:
        """Returns whether the transmitter, or the conductor that transmits, was freed or ended. No further message will
        then come, but earlier messages can still be received."""
        return self._is_abandoned()

    @direct
    def receive(self, timeout: typing.Optional[float] = 0) -> typing.Optional[Message]:
        """Receives the next message. Returns None if no message came within `timeout` seconds. With the timeout 0 the
        call does not wait. With None it waits for ever. The call raises Lapped if the transmitter overtook the
        receiver. The next call then goes on with the message that was transmitted last. A call that waits raises
        Disconnected if the transmitter is gone and all messages were received."""
        return self._receive() if timeout == 0 else self._next_within(timeout)

    def _next_within(self, timeout: typing.Optional[float]) -> typing.Optional[Message]:
        return wait_for(self._receive, timeout, self.is_abandoned, self._sleepers)

    async def receive_async(self, timeout: typing.Optional[float] = None) -> typing.Optional[Message]:
        """Does what `receive` does with a timeout, in a task of asyncio. Other tasks go on while this task waits."""
        return await wait_as_task(self._receive, timeout, self.is_abandoned, self._sleepers)

    @direct
    def _receive(self) -> typing.Optional[Message]:
        found: typing.Optional[Message] = self._read_by("felter_receive")
        return found

    def __iter__(self) -> typing.Iterator[Message]:
        """Returns an iterator over the messages that are there. The iterator does not wait."""
        return iter(self._receive, None)

    def messages(self, timeout: typing.Optional[float] = None) -> typing.Iterator[Message]:
        """Returns an iterator that waits for each message, as `receive` does with a timeout. The iterator ends when no
        message came within `timeout` seconds, or when the transmitter is gone and all messages were received. If the
        iterator raises Lapped, it has ended. A new iterator goes on with the message that was transmitted last."""
        with contextlib.suppress(Disconnected):
            yield from iter(lambda: self.receive(timeout), None)

    def __aiter__(self) -> typing.AsyncIterator[Message]:
        """Waits for each message, until the transmitter is gone and all messages were received. Other tasks also have
        turns if there is always a message. If the iterator raises Lapped, it has ended. A new `async for` goes on with
        the message that was transmitted last."""
        return each(self.receive_async)

    def lapped_count(self) -> int:
        """Returns how often the receiver was lapped."""
        return self._do("felter_lapped_count")


class RawRecord(typing.NamedTuple):
    """A record that a raw receiver returned. The body of the record is not yet copied."""

    type_id: int
    length: int


class RawReceiver(Owner):
    """Receives records that are transmitted on a board, without their bodies."""

    def sizes(self) -> Sizes:
        """Returns the capacity, and the length of the longest message, in bytes."""
        return self._sizes()

    def place(self) -> int:
        """Returns the position, in bytes, at which the next call looks for a message."""
        return self._do("felter_raw_receiver_place")

    def lap(self) -> typing.Optional[Lap]:
        """Returns the positions at which the receiver was lapped last, or None if it never was."""
        found = self._try("felter_raw_receiver_lap")
        return found and Lap(*found)

    def is_abandoned(self) -> bool:
        """Returns whether the transmitter was freed or closed. No further record will then come."""
        return self._is_abandoned()

    def receive_next(self) -> typing.Optional[RawRecord]:
        """Returns the type id of the next record and the length of its body, and moves past the record. Returns None
        if no record is there. The call raises Lapped as Receiver.receive does."""
        found = self._try("felter_receive_next")
        return found and RawRecord(*found)

    def load_body(self, length: int) -> bytes:
        """Copies the body of the record that was returned last. `length` is the length of the body, which
        `receive_next` returned. The bytes are certain to be those of this record only if `validate` then returns
        True."""
        return self._do("felter_load_body", length)

    def validate(self) -> bool:
        """Returns True if the record that was returned last was not overwritten, and False if it may have been
        overwritten. If the result is True, each copy of the body that was made before is the body that was
        transmitted."""
        try:
            self._do("felter_validate")
        except Error as refused:
            if refused.number != Number.LAPPED:
                raise
            return False
        return True

    def lapped_count(self) -> int:
        """Returns how often `receive_next` raised Lapped."""
        return self._do("felter_raw_lapped_count")
