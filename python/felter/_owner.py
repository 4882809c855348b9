"""The base class of all handles, and the ends of rings and boards."""

import collections
import itertools
import typing
import weakref

from felter._library import Handle
from felter.errors import Error, Number
from felter.waiting import wake

if typing.TYPE_CHECKING:
    from felter.claims import Trace

# Each ring, board, set of counters and conductor has a number. The library distinguishes structures by their numbers
# too. The header for C counts from 1 on, and the Rust crate from 2^62.
numbers = itertools.count(1 << 63)

Self = typing.TypeVar("Self", bound="Unique")


class Sizes(typing.NamedTuple):
    """The capacity of a ring or a board, and the length of its longest message, in bytes."""

    capacity: int
    max_message: int


class Unique:
    """An object that cannot be copied, since two copies would own the same thing."""

    __slots__ = ()

    def __copy__(self) -> typing.NoReturn:
        raise TypeError("%s cannot be copied or pickled: it owns what it stands for" % type(self).__name__)

    def __deepcopy__(self, memo: typing.Any) -> typing.NoReturn:
        self.__copy__()

    def __reduce_ex__(self, protocol: typing.Any) -> typing.NoReturn:
        self.__copy__()


class Ends:
    """The ends of a ring or a board. With ctypes this object also has the traces of the ring's claims.

    The ends are kept as weak references. A weak reference could have a callback, which Python calls when the end is
    gone. Such a callback would swallow an interrupt that came while the callback ran. So there are no callbacks.
    Instead the references to ends that are gone are dropped when new ends are added."""

    def __init__(self) -> None:
        self.writers: "typing.Dict[int, weakref.ref[Owner]]" = {}
        self.readers: "typing.Dict[int, weakref.ref[Owner]]" = {}
        # `traces` and `dropped` are used only with ctypes. `traces` has the trace of each claim of the ring. `dropped`
        # has the trace of each claim that was dropped.
        self.traces: "typing.Dict[int, Trace]" = {}
        self.dropped: "typing.Deque[Trace]" = collections.deque()
        # The locks on which readers sleep.
        self.sleepers: typing.List[typing.Any] = []
        self._most = 16

    def add(self, owner: "Owner", writes: bool) -> None:
        """Adds an end. Other threads may add ends at the same time, since the interpreter makes each change of a dict
        in one step."""
        it = weakref.ref(owner)
        its = self.writers if writes else self.readers
        its[id(it)] = it
        if len(its) >= self._most:
            # (a list of the items would be made of new tuples, so garbage could be collected meanwhile, which can make
            # ends)
            for key in list(its):
                end = its.get(key)
                if end is not None and end() is None:
                    its.pop(key, None)
            self._most = max(16, 2 * len(its))

    def are_gone(self, writers: bool) -> bool:
        """Returns whether every end of a side is empty, because it was freed, closed or joined."""
        others = [it() for it in list((self.writers if writers else self.readers).values())]
        return all(it is None or it._is_empty() for it in others)


class Owner(Unique, Handle):
    """A handle that owns an object of the library, and frees it. `number` is the number of its ring, board, counters or
    conductor. `ends` are the ends of that structure. The handle is one of these ends, and either writes or reads."""

    def __init__(self, number: int, ends: typing.Optional["Ends"] = None, writes: bool = True) -> None:
        self._ends = ends or Ends()
        self._writes = writes
        self._ends.add(self, writes)
        # (the extension looks at this list after each write)
        self._sleepers = self._ends.sleepers
        self._number = number

    def free(self) -> None:
        """Frees what the handle owns. Afterwards the other calls of the handle raise `Closed`. This call may be made
        again."""
        self._free()
        self._wake()

    def _wake(self) -> None:
        """Wakes the readers that sleep."""
        if self._sleepers:
            wake(self._sleepers)

    def __enter__(self: Self) -> Self:
        return self

    def __exit__(self, *_: object) -> None:
        self.free()

    def _is_abandoned(self) -> bool:
        """Returns whether every end of the other side is empty, because it was freed, closed or joined."""
        return self._ends.are_gone(writers=not self._writes)

    def _sizes(self) -> Sizes:
        return Sizes(*self._do("felter_capacity"))

    def _with(self, name: str, other: "Owner", *parameters: typing.Any) -> None:
        """Makes a call with two handles, which must belong to one ring, board, conductor, set of counters or shared
        counter."""
        if self is other or self._number != other._number:
            raise Error(Number.OTHER_RING)
        self._do(name, other, *parameters)
