"""Counters, and readers of their values."""

# (the calls of the library return what the library wrote, which has no type)
# mypy: no-warn-return-any

import typing

from felter._library import call
from felter._owner import Owner, numbers
from felter.errors import Error, Number
from felter.files import Path, make
from felter.message import Buffer


class Counters(Owner):
    """Counters with the ids below `count`. A freed id is not allocated again for `reuse_ms` milliseconds."""

    def __init__(self, count: int, reuse_ms: int = 0) -> None:
        super().__init__(next(numbers))
        call("felter_counters_new_numbered", self._number, count, reuse_ms, self)

    @classmethod
    def in_file(cls, path: Path, count: int, reuse_ms: int = 0) -> "Counters":
        """Makes a new file, and counters in it, as `many_to_one_in_file` does for a ring. The value records and the
        metadata are in the file."""
        made: "Counters" = cls.__new__(cls)
        Owner.__init__(made, next(numbers))
        make(path, "felter_counters_memory", "felter_counters_new_in_numbered", (made,), count, reuse_ms)
        return made

    def allocate(
        self,
        now: int,
        type_id: int,
        key: Buffer = b"",
        label: Buffer = b"",
        registration: int = 0,
        owner: int = 0,
    ) -> int:
        """Allocates a counter with the value 0 at the moment `now`, and returns its id. The owner 0 means that the
        counter has no owner."""
        return self._do("felter_counter_allocate_owned", now, type_id, key, label, registration, owner)

    def release(self, now: int, counter: int) -> None:
        """Frees a counter at the moment `now`."""
        self._do("felter_counter_free", now, counter)

    def set(self, counter: int, value: int) -> None:
        """Sets a counter's value."""
        self._do("felter_counter_set", counter, value)

    def add(self, counter: int, delta: int) -> int:
        """Adds `delta` to a counter's value, and returns the value before the addition. A sum that does not fit in 64
        bits wraps."""
        return self._do("felter_counter_add", counter, delta)

    def increment(self, counter: int) -> int:
        """Adds 1 to a counter's value, and returns the value before the addition. A sum that does not fit in 64 bits
        wraps."""
        return self._do("felter_counter_increment", counter)

    def decrement(self, counter: int) -> int:
        """Subtracts 1 from a counter's value, and returns the value before the subtraction. A difference that does not
        fit in 64 bits wraps."""
        return self._do("felter_counter_decrement", counter)

    def get_and_set(self, counter: int, value: int) -> int:
        """Sets a counter's value, and returns the value that it had before."""
        return self._do("felter_counter_get_and_set", counter, value)

    def value(self, counter: int) -> int:
        """Returns a counter's value."""
        return self._do("felter_counter_value", counter)

    def type_id(self, counter: int) -> int:
        """Returns a counter's type id."""
        return self._do("felter_counter_type_id", counter)

    def registration(self, counter: int) -> int:
        """Returns a counter's registration id."""
        return self._do("felter_counter_registration", counter)

    def owner(self, counter: int) -> int:
        """Returns a counter's owner, or 0 if the counter has no owner."""
        return self._do("felter_counter_owner", counter)

    def label(self, counter: int) -> bytes:
        """Returns a counter's label."""
        return self._do("felter_counter_label", counter, 380)

    def key(self, counter: int) -> bytes:
        """Returns a counter's key, which is filled up to 112 bytes with zeros."""
        return self._do("felter_counter_key", counter, 112)

    def propose_max(self, counter: int, value: int) -> bool:
        """Raises a counter's value to `value` if the old value was less. Returns whether the value was raised."""
        return self._do("felter_counter_propose_max", counter, value) == 1

    def compare_and_set(self, counter: int, expected: int, value: int) -> bool:
        """Sets a counter's value to `value` if the old value is `expected`. Returns whether the value was set."""
        return self._do("felter_counter_compare_and_set", counter, expected, value) == 1

    def state(self, counter: int) -> int:
        """Returns the state of an id. The state is 0 if the id was never used, 1 if its counter is in use, and -1 if
        its counter was freed."""
        return self._do("felter_counter_state", counter)

    def deadline(self, counter: int) -> int:
        """Returns the moment from which an id may be allocated again. This moment is 0 if the id was never used, and
        2^63 - 1 if its counter is in use."""
        return self._do("felter_counter_deadline", counter)

    def find(self, type_id: int, registration: int) -> typing.Optional[int]:
        """Returns the lowest id in use with this type id and registration id, or None."""
        try:
            return self._do("felter_counter_find", type_id, registration)
        except Error as refused:
            if refused.number != Number.NOT_ALLOCATED:
                raise
            return None

    def count(self) -> int:
        """Returns the number of ids, whether they are in use or not."""
        return self._do("felter_counters_count")

    def available(self, now: int) -> int:
        """Returns the number of counters that can be allocated at the moment `now`. A freed id is counted from its
        deadline on."""
        return self._do("felter_counters_available", now)

    def __len__(self) -> int:
        """Returns the number of ids, whether they are in use or not."""
        return self.count()

    def __iter__(self) -> typing.Iterator[int]:
        """Yields the ids in use, in rising order."""
        for counter in range(len(self)):
            if self.state(counter) == 1:
                yield counter

    def close_owner(self, now: int, owner: int) -> int:
        """Frees each counter of an owner at the moment `now`, and returns how many counters were freed."""
        return self._do("felter_counters_close_owner", now, owner)

    def reader(self) -> "Reader":
        """Makes a reader of the counters' values, for another thread. The reader gets one of the counters' 65,536
        shares. If the reader is freed, this share is lost."""
        reader = Reader(self._number)
        self._do("felter_counters_reader", reader)
        return reader

    def join(self, reader: "Reader") -> None:
        """Takes back a reader of these counters with its share."""
        self._with("felter_counters_join", reader)


class Reader(Owner):
    """Loads the values of counters."""

    def value(self, counter: int) -> int:
        """Loads a value. The value of an id that was never used is 0. The value of a freed id is its last value."""
        return self._do("felter_reader_value", counter)
