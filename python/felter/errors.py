"""The exceptions of refused calls."""

import typing

from felter._codes import TEXTS, Number

__all__ = ["Closed", "Contended", "Damaged", "Disconnected", "Error", "Full", "Lapped", "Number"]


class Error(Exception):
    """A call was refused. `number` says why, and the text says the same in words."""

    number: Number

    def __init__(self, number: int) -> None:
        self.number = Number(number)
        super().__init__("%d %s: %s" % (number, self.number.name, TEXTS[self.number]))

    def __reduce__(self) -> typing.Tuple[typing.Any, ...]:
        return type(self), self._made_of()

    def _made_of(self) -> typing.Tuple[int, ...]:
        return (int(self.number),)

    @property
    def is_passing(self) -> bool:
        """Returns whether the same call may succeed later. The result is True if the ring was full, or another producer
        was faster."""
        return self.number in (Number.INSUFFICIENT_CAPACITY, Number.CONTENDED)


class Full(Error):
    """The ring is full. Try again after the consumer has read messages."""

    def __init__(self, number: int = Number.INSUFFICIENT_CAPACITY) -> None:
        super().__init__(number)


class Contended(Error):
    """Another producer was faster. Try again."""

    def __init__(self, number: int = Number.CONTENDED) -> None:
        super().__init__(number)


class Closed(Error):
    """The handle is empty, because it was freed, closed or joined."""

    def __init__(self, number: int = Number.NO_HANDLE) -> None:
        super().__init__(number)


class Lapped(Error):
    """The transmitter overtook the receiver. `count` says how often the receiver was overtaken so far. `missed_bytes`
    says how many bytes the receiver missed. This number is 0 if it is not known, as for a client."""

    count: int
    missed_bytes: int

    def __init__(self, count: int, missed_bytes: int = 0) -> None:
        super().__init__(Number.LAPPED)
        self.count = count
        self.missed_bytes = missed_bytes

    def _made_of(self) -> typing.Tuple[int, ...]:
        return self.count, self.missed_bytes


class Damaged(Error):
    """Nothing was recovered, since the image is not that of a ring, or is damaged. `finding` says what was found, and at
    which place."""

    finding: str

    def __init__(self, number: int, finding: str) -> None:
        super().__init__(number)
        self.finding = finding

    def __str__(self) -> str:
        return "%d %s: %s" % (self.number, self.number.name, self.finding)

    def __reduce__(self) -> typing.Tuple[typing.Any, ...]:
        return type(self), (int(self.number), self.finding)


class Disconnected(Exception):
    """The other side is gone, and nothing is left to read. Calls that wait raise this exception after every producer
    was freed, or after the consumer, the transmitter or the conductor was freed."""


CAUSES: typing.Dict[int, typing.Type[Error]] = {
    Number.INSUFFICIENT_CAPACITY: Full,
    Number.CONTENDED: Contended,
    Number.NO_HANDLE: Closed,
}


def refusal(number: int) -> Error:
    """Returns the exception for a code."""
    return CAUSES.get(number, Error)(number)
