"""Handles and calls of the library through ctypes, for a Python without the extension in C.

A call releases the interpreter's lock, so each handle has a lock.
"""

import ctypes
import functools
import operator
import threading
import typing
import weakref

from felter._codes import Number

# The number of forks between the first process and this one. At the time of a fork a call may have been using a handle,
# on a thread that the child does not have. So calls with such a handle are refused.
forks = 0

# The variable for a number that a call writes. No interrupt can come before the number is there.
Cell = ctypes.c_uint64


class Raw(ctypes.Structure):
    """A felter_handle."""

    _fields_ = [("at", ctypes.c_void_p)]


OUTS: typing.Dict[str, typing.Any] = {
    "*i32": ctypes.c_int32,
    "*u32": ctypes.c_uint32,
    "*i64": ctypes.c_int64,
    "*u64": ctypes.c_uint64,
    "*usize": ctypes.c_size_t,
}
TYPES: typing.Dict[str, typing.Any] = {
    "i32": ctypes.c_int32,
    "u32": ctypes.c_uint32,
    "i64": ctypes.c_int64,
    "u64": ctypes.c_uint64,
    "usize": ctypes.c_size_t,
    "bytes": ctypes.c_char_p,
    "*u8": ctypes.c_void_p,
    "*handle": ctypes.POINTER(Raw),
    **{word: ctypes.POINTER(kind) for word, kind in OUTS.items()},
}

# The range of each number. ctypes alone would cut off digits of larger numbers.
RANGES = {
    "i32": (-(2**31), 2**31),
    "u32": (0, 2**32),
    "i64": (-(2**63), 2**63),
    "u64": (0, 2**64),
    "usize": (0, 2**64),
}

# The calls whose last number is how often a receiver was lapped. Each has the calls that return how it was lapped.
LAPPING: typing.Dict[str, typing.Tuple[str, ...]] = {
    "felter_receive": ("felter_receiver_lap", "felter_receiver_place"),
    "felter_receive_next": ("felter_raw_receiver_lap", "felter_raw_receiver_place"),
    "felter_poll": (),
}


functions: typing.Dict[str, "Function"] = {}
makes: typing.Dict[str, typing.Callable[..., typing.Any]] = {}


def open(
    found: typing.Any,
    table: typing.Dict[str, typing.List[str]],
    refusal: typing.Callable[[int], Exception],
    lapped: typing.Callable[[int, int], Exception],
    message: type,
) -> None:
    """Opens the library. The table lists the calls of the library. The other parameters make exceptions and
    messages."""
    for name, words in table.items():
        functions[name] = Function(name, getattr(found, name), words)
    makes.update(refusal=refusal, lapped=lapped, message=functools.partial(tuple.__new__, message))


def forked() -> None:
    """This function is called in a forked child. Afterwards the child refuses calls with the parent's handles."""
    global forks
    forks += 1
    # (a forked child owns nothing)
    freeings.clear()


def call(name: str, *given: typing.Any) -> typing.Any:
    """Makes a call by its name."""
    return functions[name].ask(given)


# Functions that say how a call takes its parameters from Python. Each of these functions returns parameters for ctypes.


def take_bytes(given: typing.Any) -> typing.Tuple[typing.Any, ...]:
    """Returns the bytes of an object's buffer, and the number of these bytes. The object's own `__len__` is not
    used."""
    if type(given) is bytes:
        return given, len(given)
    try:
        data = memoryview(given).tobytes()
    except TypeError as why:
        raise TypeError(str(why).replace("memoryview: ", "")) from None
    return data, len(data)


def take_handle(given: typing.Any) -> typing.Tuple[typing.Any, ...]:
    if not isinstance(given, Handle):
        raise TypeError("%r is no handle" % (given,))
    return (given._raw,)


def shown(number: int) -> str:
    """Returns a number as text. (Python refuses to write a very long number.)"""
    bits = number.bit_length()
    return str(number) if bits <= 256 else "a number of %d bits" % bits


def taker(low: int, end: int) -> typing.Callable[[typing.Any], typing.Tuple[typing.Any, ...]]:
    """Returns a function that takes a number from `low` to `end` - 1. Numbers are tested here and not by ctypes. In
    ctypes an interrupt would become another exception."""

    def take(given: typing.Any, index: typing.Callable[[typing.Any], int] = operator.index) -> typing.Tuple[int]:
        number = index(given)
        if not low <= number < end:
            raise OverflowError("%s is not from %d to %d" % (shown(number), low, end - 1))
        return (number,)

    return take


TAKES: typing.Dict[str, typing.Callable[[typing.Any], typing.Tuple[typing.Any, ...]]] = {
    "bytes": take_bytes,
    "*handle": take_handle,
    **{word: taker(*its) for word, its in RANGES.items()},
}


def laid(messages: typing.Iterable[typing.Tuple[int, typing.Any]]) -> bytes:
    """Returns messages one after another, as in a batch."""
    parts: typing.List[bytes] = []
    for message in messages:
        pair = message if isinstance(message, tuple) else tuple(message)
        if len(pair) != 2:
            raise ValueError("a message is a type id and a body, and not %d values" % len(pair))
        (number,), (data, length) = TAKES["i32"](pair[0]), take_bytes(pair[1])
        parts += [length.to_bytes(8, "little"), number.to_bytes(8, "little", signed=True), data, bytes(-length % 8)]
    return b"".join(parts)


class Function:
    """A function of the library. The parameters of a function are first the values that it takes, then the values that
    it writes, and then possibly a buffer that it fills."""

    def __init__(self, name: str, function: typing.Any, words: typing.List[str]) -> None:
        function.argtypes = [TYPES[it] for it in words]
        function.restype = None if name == "felter_free" else ctypes.c_int32
        self.call, self.lap, self.joins = function, LAPPING.get(name), name == "felter_join"
        # (the length of bytes or of a buffer follows it as another parameter)
        words = [it for before, it in zip(["", *words], words) if before not in ("bytes", "*u8")]
        self.takes = [TAKES[it] for it in words if it in TAKES]
        self.handles = [i for i, it in enumerate(words) if it == "*handle"]
        outs = [it for it in words if it in OUTS]
        self.outs = [OUTS[it] for it in outs]
        self.has_room = "*u8" in words
        self.given = len(self.takes) + self.has_room
        # The position of the number of bytes that were put into the buffer, and of the number of times that the
        # receiver was lapped.
        self.length = outs.index("*usize") if self.has_room and "*usize" in outs else None
        lapped = len(self.outs) - 1 if name in LAPPING else None
        self.found = [i for i in range(len(self.outs)) if i not in (self.length, lapped)]

    def ask(self, given: typing.Sequence[typing.Any], is_trying: bool = False) -> typing.Any:
        """Makes the call, and returns what the call wrote, or raises the exception of its refusal."""
        parameters, outs = self.take(given)
        handles = [given[i] for i in self.handles]
        for it in handles:
            it._check()
        if not handles:
            return self.answered(*self.made(given, parameters, outs), parameters, outs, is_trying)
        if len(handles) == 1:
            one = handles[0]
            with one._lock:
                return self.asked(one, one, given, parameters, outs, is_trying)
        one, two = sorted(handles, key=id)
        with one._lock, two._lock:
            return self.asked(one, two, given, parameters, outs, is_trying)

    def asked(
        self, one: "Handle", two: "Handle", given: typing.Any, parameters: typing.Any, outs: typing.Any, is_trying: bool
    ) -> typing.Any:
        """Does what `ask` does, after the handles were locked."""
        try:
            code, room = self.made(given, parameters, outs)
        finally:
            # (no interrupt comes between these lines. Another thread that sees an empty producer must see what it was
            # joined to.)
            if self.joins and given[1]._raw.at is None and not given[1]._was_emptied:
                given[1]._joined = given[0]
            one._was_emptied = one._raw.at is None
            two._was_emptied = two._raw.at is None
        return self.answered(code, room, parameters, outs, is_trying)

    def made(self, given: typing.Any, parameters: typing.Any, outs: typing.Any) -> typing.Tuple[int, typing.Any]:
        """Makes the call. Returns the code, and the buffer if the call fills one."""
        return self.fill(given, parameters, outs) if self.has_room else (self.call(*parameters), None)

    def answered(
        self, code: int, room: typing.Any, parameters: typing.Any, outs: typing.Any, is_trying: bool
    ) -> typing.Any:
        """Returns what the call wrote, or raises the exception of its refusal."""
        if code == 0:
            its = [outs[i].value for i in self.found]
            if room is not None:
                its.append(room[:] if self.length is None else room[: outs[self.length].value])
            return tuple(its) if len(its) > 1 else its[0] if its else None
        if is_trying and code == Number.NO_MESSAGE:
            return None
        raise self.refused(code, parameters, outs)

    def take(self, given: typing.Sequence[typing.Any]) -> typing.Tuple[typing.Any, typing.Any]:
        """Returns the parameters for ctypes, and those parameters that the call writes."""
        outs = [it() for it in self.outs]
        if len(given) == self.given + 1 and outs and type(given[-1]) is Cell:
            outs[-1] = given[-1]
        elif len(given) != self.given:
            raise TypeError("the call takes %d values and not %d" % (self.given, len(given)))
        parameters: typing.List[typing.Any] = []
        for take, it in zip(self.takes, given):
            parameters += take(it)
        parameters += outs
        return parameters, outs

    def fill(self, given: typing.Any, parameters: typing.Any, outs: typing.Any) -> typing.Tuple[int, typing.Any]:
        """Makes the call with a new buffer of the given length, or with the buffer of the handle, which grows until the
        message fits."""
        if given[-1] is not None:
            room = ctypes.create_string_buffer(TAKES["usize"](given[-1])[0])
            return self.call(*parameters, room, len(room)), room
        if self.length is None:
            raise TypeError("the call needs a length")
        room, length = given[0]._room, outs[self.length]
        code: int = self.call(*parameters, room, len(room))
        while code == Number.SHORT_BUFFER and length.value > len(room):
            given[0]._room = room = ctypes.create_string_buffer(length.value)
            code = self.call(*parameters, room, len(room))
        return code, room

    def refused(self, code: int, parameters: typing.Any, outs: typing.Any) -> Exception:
        """Returns the exception for a code."""
        if code != Number.LAPPED or self.lap is None:
            refusal: Exception = makes["refusal"](code)
            return refusal
        missed = 0
        if self.lap:
            lap, intent, place = ctypes.c_uint64(), ctypes.c_uint64(), ctypes.c_uint64()
            more, where = (functions[it].call for it in self.lap)
            if not more(parameters[0], lap, intent) and not where(parameters[0], place):
                missed = place.value - lap.value
        raised: Exception = makes["lapped"](outs[-1].value, missed)
        return raised


if typing.TYPE_CHECKING:
    Reference = weakref.ref["Handle"]
else:
    Reference = weakref.ref


class Freeing(Reference):
    """Frees what a handle owns when the handle is gone. The callback of this weak reference is a function of the
    library. Python passes the reference to the callback, and ctypes passes the handle instead. So no Python code runs
    that would swallow an interrupt."""

    _as_parameter_: typing.Any = None


# The references to all handles, and to some handles that are gone. References to handles that are gone are dropped when
# new handles are made.
freeings: typing.Dict[int, Freeing] = {}
most_freeings = 256


def note_freeing(handle: "Handle") -> None:
    global most_freeings
    it = Freeing(handle, functions["felter_free"].call)
    it._as_parameter_ = ctypes.byref(handle._raw)
    freeings[id(it)] = it
    if len(freeings) >= most_freeings:
        # (a list of the items would be made of new tuples, so garbage could be collected meanwhile, which can make
        # handles)
        for key in list(freeings):
            one = freeings.get(key)
            if one is not None and one() is None:
                freeings.pop(key, None)
        most_freeings = max(256, 2 * len(freeings))


class Handle:
    """A handle of the library."""

    _raw: Raw
    _lock: typing.Any
    _room: typing.Any
    _forks: int
    _was_emptied = True
    _sleepers: typing.Any = None
    # The producer to which this one was joined.
    _joined: typing.Any = None

    def __new__(cls, *_: typing.Any, **__: typing.Any) -> typing.Any:
        self = super().__new__(cls)
        self._raw, self._lock, self._forks = Raw(), threading.RLock(), forks
        self._room = ctypes.create_string_buffer(256)
        note_freeing(self)
        return self

    def _check(self) -> None:
        """Refuses calls that would wait for ever. Such a call comes from a signal handler that interrupted a call of
        the handle, or from a forked child."""
        if self._lock._is_owned():
            raise RuntimeError("a call of this handle was interrupted, and cannot be made inside of itself")
        if self._is_forked():
            raise RuntimeError("the handle belongs to the process that forked this one")

    def _do(self, name: str, *given: typing.Any) -> typing.Any:
        """Makes a call, and returns what the call wrote, or raises the exception of its refusal."""
        return functions[name].ask((self, *given))

    def _try(self, name: str, *given: typing.Any) -> typing.Any:
        """Does what `_do` does, but returns None if there is no message."""
        return functions[name].ask((self, *given), True)

    def _read_by(self, name: str) -> typing.Any:
        """Makes a call that reads a message, and returns the message, or None."""
        found = functions[name].ask((self, None), True)
        return found and makes["message"](found)

    def _write_laid(self, messages: typing.Iterable[typing.Tuple[int, typing.Any]]) -> typing.Tuple[int, int]:
        """Writes messages by one call. Returns how many messages were written, and the code."""
        function = functions["felter_write_batch"]
        parameters, outs = function.take((self, laid(messages)))
        self._check()
        with self._lock:
            try:
                code: int = function.call(*parameters)
            finally:
                self._was_emptied = self._raw.at is None
        return outs[0].value, code

    def _quietly(self, name: str, *given: typing.Any) -> typing.Optional[int]:
        """Makes a call unless another call uses the handle. Returns the code, or None if the call was not made."""
        function = functions[name]
        parameters, _ = function.take((self, *given))
        if self._lock._is_owned():
            return None
        code: typing.Optional[int] = None
        try:
            if self._lock.acquire(False):
                code = function.call(*parameters)
        finally:
            # (if the lock is of another thread, or an interrupt came before the lock was taken)
            try:
                self._lock.release()
            except RuntimeError:
                pass
        return code

    def _free(self) -> None:
        """Frees what the handle owns."""
        self._check()
        with self._lock:
            try:
                functions["felter_free"].call(self._raw)
            finally:
                self._was_emptied = self._raw.at is None

    def _is_empty(self) -> bool:
        """Returns whether the handle was empty at the end of its last call. The result says nothing about a call that
        is running."""
        return self._was_emptied

    def _is_forked(self) -> bool:
        """Returns whether the handle belongs to the process that forked this one."""
        return self._forks != forks
