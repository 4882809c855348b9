"""Loads the library, and chooses how it is called. Calls use an extension in C if there is one for this Python, and
otherwise ctypes.

The library is libfelter.so. The extension is a file named _fast in the same folder. With FELTER_PURE=1 calls use ctypes
even if there is an extension. A second copy of this package in the process, for example in another interpreter, also
uses ctypes. The extension and `felter._pure` both have `Handle` and `call`, and do the same. `implementation` says
which of them is used.
"""

import ctypes
import importlib.machinery
import importlib.util
import os
import types
import typing
import warnings

from felter._calls import CALLS
from felter.errors import Lapped, refusal
from felter.message import Message

# Each call, with the words for its parameters. Here all kinds of handles are one kind. Memory of the caller and words
# are the number of their first byte.
KINDS = "producer consumer transmitter receiver raw_receiver counters reader adder conductor client".split()
WORDS = {"memory": "usize", "words": "usize", **{"*" + it: "*handle" for it in KINDS}}
TABLE = {
    name: [WORDS.get(it, it) for it in words]
    for name, *words in map(str.split, CALLS.strip().splitlines())
}


def find() -> str:
    """Returns the path of the library. If FELTER_DIR names a folder, the library must be there. Otherwise it is in this
    package, or in this repository's c/out."""
    here = os.path.dirname(os.path.abspath(__file__))
    folder = os.environ.get("FELTER_DIR")
    folders = [folder] if folder else [here, os.path.normpath(os.path.join(here, "..", "..", "c", "out"))]
    paths = [os.path.join(it, "libfelter.so") for it in folders]
    for path in paths:
        if os.path.exists(path):
            return path
    raise ImportError(
        "felter: there is no %s. Install the wheel that c/package makes, or run c/build in the repository, or let "
        "FELTER_DIR name the folder of libfelter.so." % " and no ".join(paths)
    )


def load(path: str) -> typing.Any:
    """Loads the library at a path. The library stays loaded, since it frees the handles that still exist."""
    try:
        found = ctypes.CDLL(path)
    except OSError as why:
        raise ImportError("felter: %s cannot be loaded: %s" % (path, why)) from why
    for name in TABLE:
        if not hasattr(found, name):
            raise ImportError("felter: %s has no %s: it is of another version" % (path, name))
    return found


def address(function: typing.Any) -> int:
    """Returns the address of a function of the library."""
    return ctypes.cast(function, ctypes.c_void_p).value or 0


def is_wanted() -> bool:
    """Returns whether the extension is used if there is one."""
    return os.environ.get("FELTER_PURE", "0") in ("", "0")


def extension(path: str, found: typing.Any) -> typing.Optional[types.ModuleType]:
    """Loads the extension from the folder of the library, and passes the library to it. Returns None if there is no
    extension that this Python can load."""
    for ending in importlib.machinery.EXTENSION_SUFFIXES if is_wanted() else []:
        file = os.path.join(os.path.dirname(path), "_fast" + ending)
        spec = importlib.util.spec_from_file_location("felter._fast", file)
        if spec is None or spec.loader is None or not os.path.exists(file):
            continue
        try:
            made = importlib.util.module_from_spec(spec)
            spec.loader.exec_module(made)
            made.open({name: address(getattr(found, name)) for name in TABLE}, *GIVEN)
            return made
        except (ImportError, UnicodeError):
            # (it was built for a later Python, or serves another copy of this package, or its name is not UTF-8)
            continue
    return None


# The objects that the implementation gets together with the library.
GIVEN = TABLE, refusal, Lapped, Message

library = find()
loaded = load(library)
fast = extension(library, loaded)
implementation = "ctypes" if fast is None else "extension"
if fast is not None:
    made: typing.Any = fast
else:
    from felter import _pure as made

    made.open(loaded, *GIVEN)
    if is_wanted():
        warnings.warn(
            "felter: there is no extension in C that this Python can load in %s, so each call goes through ctypes, "
            "which takes 10 to 40 times as long; FELTER_PURE=1 says that this is meant" % os.path.dirname(library),
            ImportWarning,
            stacklevel=2,
        )
os.register_at_fork(after_in_child=made.forked)

Method = typing.TypeVar("Method", bound=typing.Callable[..., typing.Any])


def direct(method: Method) -> Method:
    """Replaces a method by a method of the extension, if the extension is used. The method of the extension does the
    same, without the generic call in between."""
    found: Method = method if fast is None else made.method(method.__qualname__, method.__doc__)
    return found


if typing.TYPE_CHECKING:
    from felter._pure import Handle as Handle
    from felter._pure import call as call
else:
    Handle, call = made.Handle, made.call
