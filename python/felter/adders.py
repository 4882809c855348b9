"""Shared counters."""

# (the calls of the library return what the library wrote, which has no type)
# mypy: no-warn-return-any

from felter._library import call
from felter._owner import Owner, numbers


class Adder(Owner):
    """Adds to a shared counter, which is one number to which any thread can add. Each thread adds with an adder of its
    own. The value is the sum of all amounts that were added with all adders. A sum that does not fit in 64 bits wraps.
    `Adder()` makes a shared counter with the value 0. The new adder is the first one, and holds all 65,536 shares of
    the shared counter."""

    def __init__(self) -> None:
        super().__init__(next(numbers))
        call("felter_adder_new_numbered", self._number, self)

    def split(self) -> "Adder":
        """Makes another adder of the same shared counter, for another thread, with one share. If the new adder is
        freed, the amounts that it added stay in the value, and its share is lost. The call raises NO_SHARES if this
        adder has one share."""
        other = Adder.__new__(Adder)
        Owner.__init__(other, self._number)
        self._do("felter_adder_split", other)
        return other

    def join(self, other: "Adder") -> None:
        """Joins another adder of the same shared counter to this one. This adder gets the shares of the other one.
        Afterwards the calls of the other adder raise `Closed`."""
        self._with("felter_adder_join", other)

    def add(self, delta: int) -> int:
        """Adds `delta` to the value, and returns the value before the addition. A sum that does not fit in 64 bits
        wraps."""
        return self._do("felter_adder_add", delta)

    def value(self) -> int:
        """Loads the value. If this adder holds all 65,536 shares, no other adder exists. The value is then exactly the
        sum of the amounts that were added with this adder and with the adders that were joined to it."""
        return self._do("felter_adder_value")

    def shares(self) -> int:
        """Returns how many of the 65,536 shares this adder holds."""
        return self._do("felter_adder_shares")
