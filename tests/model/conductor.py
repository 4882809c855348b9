"""Commands, their replies, and the conductor that applies them."""
import struct

from .board import Board
from .counters import Counters
from .ring import Refused, Ring

ALLOCATE, FREE, SET, ALLOCATE_OWNED, CLOSE = 1, 2, 3, 4, 5
ALLOCATED, DONE, REFUSED, CLOSED = 101, 102, 103, 104
NO_CORRELATION = 2**64 - 1


def allocate(correlation, type_id, key, label, owner=None):
    """The body of Allocate, or with an owner of AllocateOwned."""
    body = struct.pack("<Qi", correlation, type_id)
    if owner is not None:
        body += struct.pack("<Q", owner)
    return body + struct.pack("<I", len(key)) + key + struct.pack("<I", len(label)) + label


def read_named(body, at):
    """Key and label from a place on, which they fill; None otherwise."""
    parts = []
    for _ in range(2):
        if len(body) < at + 4:
            return None
        end = at + 4 + struct.unpack_from("<I", body, at)[0]
        if len(body) < end:
            return None
        parts.append(body[at + 4:end])
        at = end
    return parts if at == len(body) else None


class Conductor:
    def __init__(self, commands, replies, count, reuse_ms):
        self.ring, self.board = Ring(commands), Board(replies)
        self.counters = Counters(count, reuse_ms)
        self.received = 0

    def work(self, now, limit):
        """How many commands it took, and why it stopped."""
        _, taken, _, stop = self.ring.read(limit, lambda record: self.take(now, record.type_id, bytes(record.body)))
        return taken, stop

    def take(self, now, type_id, body):
        correlation = body[:8] if len(body) >= 8 else struct.pack("<Q", NO_CORRELATION)
        try:
            kind, more = self.apply(now, type_id, body)
        except Refused as why:
            kind, more = REFUSED, struct.pack("<i", int(str(why).split()[0]))
        self.board.transmit(kind, correlation + more)
        self.received += 1
        return "n"

    def apply(self, now, type_id, body):
        """A reply's kind, and what it has after the correlation id."""
        fits = {ALLOCATE: len(body) >= 20, FREE: len(body) == 12, SET: len(body) == 20,
                ALLOCATE_OWNED: len(body) >= 28, CLOSE: len(body) == 16}
        if type_id not in fits:
            raise Refused("23 UnknownType")
        owned = type_id == ALLOCATE_OWNED
        named = read_named(body, 20 if owned else 12) if type_id in (ALLOCATE, ALLOCATE_OWNED) else ()
        if not fits[type_id] or named is None:
            raise Refused("22 Malformed")
        correlation = struct.unpack_from("<Q", body)[0]
        if named:
            kind, owner = struct.unpack_from("<i", body, 8)[0], struct.unpack_from("<Q", body, 12)[0] if owned else 0
            number = self.counters.allocate(now, kind, *named, correlation, owner)
            return ALLOCATED, struct.pack("<I", number)
        if type_id == CLOSE:
            return CLOSED, struct.pack("<I", self.counters.close_owner(now, struct.unpack_from("<Q", body, 8)[0]))
        number = struct.unpack_from("<I", body, 8)[0]
        if type_id == FREE:
            self.counters.free(now, number)
        else:
            self.counters.set(number, struct.unpack_from("<q", body, 12)[0])
        return DONE, b""
