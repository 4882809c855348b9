"""The messages of rings and boards."""

import typing

if typing.TYPE_CHECKING:
    # (type checkers know this type, even if its package is not installed)
    from typing_extensions import Buffer as Buffer
else:
    # Any object that has a buffer of bytes, such as a `bytes`, a `bytearray`, a `memoryview` or an `array`.
    Buffer = typing.Union[bytes, bytearray, memoryview]


class Message(typing.NamedTuple):
    """A message that was read."""

    type_id: int
    body: bytes
