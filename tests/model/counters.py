"""Counters: a record for each id, and the freed ids in order of freeing."""
from dataclasses import dataclass

from .ring import Refused

MAX_KEY, MAX_LABEL = 112, 380


@dataclass
class Counter:
    type_id: int
    label: bytes
    registration: int
    owner: int
    is_used: bool = True
    due: int = 0


class Counters:
    def __init__(self, count, reuse_ms):
        self.count, self.reuse_ms = count, reuse_ms
        self.of, self.freed, self.values = {}, [], {}

    def allocate(self, now, type_id, key, label, registration, owner=0):
        if len(key) > MAX_KEY:
            raise Refused("16 KeyTooLong")
        if len(label) > MAX_LABEL:
            raise Refused("17 LabelTooLong")
        if any(byte > 127 for byte in label):
            raise Refused("18 LabelNotAscii")
        due = [number for number in self.freed if self.of[number].due <= now]
        if due:
            number = due[0]
            self.freed.remove(number)
        elif len(self.of) < self.count:
            number = len(self.of)
        else:
            raise Refused("19 NoFreeCounter")
        self.of[number] = Counter(type_id, bytes(label), registration, owner)
        self.values[number] = 0
        return number

    def used(self, number):
        """The counter in use with this id."""
        if number >= self.count:
            raise Refused("20 BadId")
        if number not in self.of or not self.of[number].is_used:
            raise Refused("21 NotAllocated")
        return self.of[number]

    def free(self, now, number):
        counter = self.used(number)
        counter.is_used, counter.due = False, now + self.reuse_ms
        self.freed.append(number)

    def set(self, number, value):
        self.used(number)
        self.values[number] = value

    def value(self, number):
        """What a reader on another thread loads."""
        if number >= self.count:
            raise Refused("20 BadId")
        return self.values.get(number, 0)

    def close_owner(self, now, owner):
        """How many counters of an owner were freed."""
        if owner == 0:
            raise Refused("28 BadOwner")
        mine = [number for number, counter in sorted(self.of.items()) if counter.is_used and counter.owner == owner]
        for number in mine:
            self.free(now, number)
        return len(mine)

    def live(self):
        """The counters in use, by rising id."""
        return [(number, counter) for number, counter in sorted(self.of.items()) if counter.is_used]
