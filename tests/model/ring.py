"""A ring: what was claimed and not yet passed, as a list."""
from dataclasses import dataclass

HEADER = 8
LAST_POSITION = 1 << 62
OPEN, COMMITTED, ABORTED, PADDING = "open", "committed", "aborted", "padding"


class Refused(Exception):
    """A call that was refused; its text has the number and the name."""


def span_of(length):
    """The bytes that a record of a message of this length takes."""
    return (HEADER + length + 7) // 8 * 8


def is_capacity(number, least):
    return least <= number <= 1 << 24 and number & (number - 1) == 0


def check_message(type_id, length, capacity):
    if type_id < 1:
        raise Refused(f"4 BadType {type_id}")
    if length > capacity // 8:
        raise Refused(f"5 TooLong {length} max {capacity // 8}")


def placed(capacity, tail, length):
    """Where the record of a message goes, and where it ends: a record does not cross the end of the buffer."""
    to_end = capacity - tail % capacity
    place = tail + to_end if span_of(length) > to_end else tail
    if place + span_of(length) > LAST_POSITION:
        raise Refused(f"6 PositionLimit tail {tail}")
    return place, place + span_of(length)


@dataclass
class Record:
    place: int
    span: int
    state: str
    type_id: int = 0
    body: bytearray = None


class Ring:
    def __init__(self, capacity, start=0):
        self.capacity, self.head, self.tail = capacity, start, start
        self.records, self.drawn, self.heartbeat = [], 0, 0

    def claim(self, type_id, length):
        """An open record; its bytes are 0."""
        check_message(type_id, length, self.capacity)
        place, end = placed(self.capacity, self.tail, length)
        if end > self.head + self.capacity:
            raise Refused(f"7 InsufficientCapacity tail {self.tail} head {self.head}")
        if place > self.tail:
            self.records.append(Record(self.tail, place - self.tail, PADDING))
        record = Record(place, end - place, OPEN, type_id, bytearray(length))
        self.records.append(record)
        self.tail = end
        return record

    def index(self, record):
        """The index of its message's first byte in the buffer."""
        return record.place % self.capacity + HEADER

    @staticmethod
    def put(record, offset, data):
        if offset + len(data) > len(record.body):
            raise Refused("9 PutRange")
        record.body[offset:offset + len(data)] = data

    def write(self, type_id, body):
        record = self.claim(type_id, len(body))
        record.body[:] = body
        record.state = COMMITTED

    def read(self, limit, answer=lambda record: "n"):
        """The messages that were shown, how many were consumed, by how much the head moved, and why it stopped.

        `answer` is `a` (abort), `b` (break), `c` (commit) or `n` (continue) for a record."""
        start, shown, consumed = self.head, [], 0
        block_end = self.head + self.capacity - self.head % self.capacity
        while True:
            if consumed == limit:
                stop = "limit"
            elif self.head == block_end:
                stop = "block"
            elif not self.records or self.records[0].state == OPEN:
                stop = "unpublished"
            else:
                record, action = self.records[0], "n"
                if record.state == COMMITTED:
                    shown.append(record)
                    action = answer(record)
                    consumed += action != "a"
                if action != "a":
                    self.head += self.records.pop(0).span
                if action not in "ab":
                    continue
                stop = "action"
            return shown, consumed, self.head - start, stop

    def next_correlation_id(self):
        self.drawn += 1
        return self.drawn - 1

    def left(self):
        """How many messages a reader of the closed ring finds."""
        return sum(record.state == COMMITTED for record in self.records)
