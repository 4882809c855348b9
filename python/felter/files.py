"""Files in which rings, boards and counters are made. The library unmaps a file after the last handle was freed."""

import contextlib
import ctypes
import os
import typing

from felter._library import call
from felter._owner import Owner

if typing.TYPE_CHECKING:
    Path = typing.Union[str, bytes, os.PathLike[str], os.PathLike[bytes]]
else:
    Path = typing.Union[str, bytes, os.PathLike]

_PROT_READ_WRITE = 3
_MAP_SHARED = 1
_system = ctypes.CDLL(None, use_errno=True)
_system.mmap.restype = ctypes.c_void_p
_system.mmap.argtypes = [ctypes.c_void_p, ctypes.c_size_t, ctypes.c_int, ctypes.c_int, ctypes.c_int, ctypes.c_int64]
_system.munmap.argtypes = [ctypes.c_void_p, ctypes.c_size_t]


def _mapped(path: Path, length: int) -> int:
    """Makes a new file, and maps it. Returns the address."""
    file = os.open(path, os.O_RDWR | os.O_CREAT | os.O_EXCL | os.O_CLOEXEC, 0o666)
    try:
        # (if the disk is full, this raises an OSError, and no store to the memory is a fault later)
        os.posix_fallocate(file, 0, length)
        address = _system.mmap(None, length, _PROT_READ_WRITE, _MAP_SHARED, file, 0)
        if address is None or address == ctypes.c_void_p(-1).value:
            number = ctypes.get_errno()
            raise OSError(number, os.strerror(number), os.fsdecode(path))
        return int(address)
    except BaseException:
        os.unlink(path)
        raise
    finally:
        os.close(file)


def make(path: Path, sizes: str, name: str, handles: typing.Sequence[Owner], *parameters: int) -> None:
    """Makes a new file, and a structure in it. `sizes` is the call that returns how many bytes the structure needs.
    `name` is the call that makes the structure, with the handles that it fills and with its other parameters. After an
    exception there is no new file, and the handles are empty."""
    length = call(sizes, parameters[0])
    address = _mapped(path, length)
    try:
        call(name, handles[0]._number, address, length, *parameters, *handles)
        call("felter_unmap_at_end", address, length)
    except BaseException:
        # (an interrupt may come after each of the calls)
        if handles[0]._is_empty():
            _system.munmap(address, length)
        else:
            call("felter_unmap_at_end", address, length)
            for it in handles:
                it._free()
        with contextlib.suppress(OSError):
            os.unlink(path)
        raise
