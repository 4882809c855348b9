"""Recovers the messages of a ring from its file, after the process of the ring died."""

import struct
import typing

from felter._library import call
from felter._pure import take_bytes
from felter.errors import Damaged, Error, Number
from felter.message import Buffer, Message

_FINDINGS = (
    Number.NO_IMAGE,
    Number.UNALIGNED_POSITION,
    Number.TAIL_BEFORE_HEAD,
    Number.TAIL_TOO_FAR,
    Number.BAD_HEADER_LENGTH,
    Number.BAD_HEADER_TYPE,
)


class Recovered(typing.NamedTuple):
    """What was recovered from a ring. `messages` are the messages in the order of their claims. `open_claims` says how
    many claims were open. No message comes of these claims."""

    messages: typing.List[Message]
    open_claims: int


def messages_in(records: bytes, count: int) -> typing.List[Message]:
    """Returns the messages that follow one another in a buffer. Each is a length, a type id and a body."""
    messages, at = [], 0
    for _ in range(count):
        length, type_id = struct.unpack_from("=Qq", records, at)
        messages.append(Message(type_id, records[at + 16 : at + 16 + length]))
        at += 16 + (length + 7) // 8 * 8
    return messages


def recover(image: Buffer) -> Recovered:
    """Recovers the messages of a ring whose process died. The image is what was in the file of the ring, for example
    what `read` of the file returned. The call copies an image that is not a `bytes`.

    The messages are those that were committed, from the head on. Each message comes whole, once, and in the order of
    the claims. What the consumer was shown, and after which it had not moved the head, comes again, before the other
    messages. The library proves this for the memory of any ring.

    To go on, make a ring in a new file, and write the messages to it by `write_batch`. A ring of the same capacity has
    room for all of them.

    The call raises `Damaged` if the image is not that of a ring, or if it is damaged. `finding` of this exception says
    what was found, and at which place. The process of the ring must have died, or have freed the ring. Otherwise the
    messages are not promised."""
    image, length = take_bytes(image)
    try:
        # (a buffer of twice the capacity is always long enough, and the image is longer)
        open_claims, count, records = call("felter_recover", image, length)
    except Error as refused:
        if refused.number not in _FINDINGS:
            raise
        raise Damaged(refused.number, call("felter_finding", image, 128).decode()) from None
    return Recovered(messages_in(records, count), open_claims)
