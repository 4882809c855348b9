"""Tests of the two forms of the calls, the extension in C and ctypes, and of how one is taken: python3
python/test_forms.py"""

import importlib.machinery
import os
import pathlib
import re
import subprocess
import sys
import tempfile
import unittest

from felter import _library
from test_felter import Case

HERE = pathlib.Path(__file__).resolve().parent
FOLDER = pathlib.Path(_library.library).resolve().parent
# The extensions that this Python can load.
ENDINGS = importlib.machinery.EXTENSION_SUFFIXES
EXTENSIONS = [FOLDER / ("_fast" + it) for it in ENDINGS if (FOLDER / ("_fast" + it)).exists()]


def run(program, **environment):
    """What a program in Python prints, with its errors."""
    environment = {**os.environ, "FELTER_PURE": "0", "FELTER_DIR": str(FOLDER), "PYTHONPATH": str(HERE), **environment}
    words = [sys.executable, "-B", "-W", "always::ImportWarning", "-c", program]
    done = subprocess.run(words, env=environment, stdout=subprocess.PIPE, stderr=subprocess.STDOUT)
    return done.stdout.decode()


SHOWS_FORM = "import felter._library as it; print(it.fast is not None)"
# (one line for each warning, and which form it is)
WARNS = """
import warnings
warnings.showwarning = lambda what, kind, *_: print(kind.__name__)
import felter
print(felter.implementation)
"""
# (two producers of one copy, a claim and a join test that the types of the first copy are still its own)
TWO_COPIES = """
import os
import sys
import felter as first
producer, consumer = first.many_to_one(128)
for it in [it for it in sys.modules if it.partition(".")[0] == "felter"]:
    del sys.modules[it]
os.environ["FELTER_DIR"] = os.environ["OTHER_DIR"]
import felter as second
assert second is not first and second.Error is not first.Error
for felter, its in (first, (producer, consumer)), (second, second.many_to_one(128)):
    other = its[0].split()
    claim = other.claim(1, 4)
    claim.put(0, b"here")
    its[0].join(other)
    claim.commit()
    message = its[1].read()
    assert message == (1, b"here") and type(message) is felter.Message and type(claim) is felter.Claim
    try:
        its[0].write(0, b"")
    except felter.Error as why:
        print(why)
"""


class Imports(Case):
    def test_without_the_library_the_error_says_what_to_do(self):
        said = run("import felter", FELTER_DIR="/nowhere")
        self.assertIn("ImportError: felter: there is no /nowhere/libfelter.so.", said)
        self.assertIn("run c/build in the repository", said)

    def test_the_extension_is_taken_if_it_is_there(self):
        for pure, is_fast in ("1", False), ("0", bool(EXTENSIONS)), ("", bool(EXTENSIONS)):
            self.assertEqual(run(SHOWS_FORM, FELTER_PURE=pure), "%s\n" % is_fast)

    def test_ctypes_is_not_taken_without_a_word(self):
        with tempfile.TemporaryDirectory() as folder:
            os.symlink(FOLDER / "libfelter.so", folder + "/libfelter.so")
            self.assertEqual(run(WARNS, FELTER_DIR=folder), "ImportWarning\nctypes\n")
            self.assertEqual(run(WARNS, FELTER_DIR=folder, FELTER_PURE="1"), "ctypes\n")
        self.assertEqual(run(WARNS), "extension\n" if EXTENSIONS else "ImportWarning\nctypes\n")

    def test_an_extension_that_cannot_be_loaded_is_not_taken(self):
        with tempfile.TemporaryDirectory() as folder:
            os.symlink(FOLDER / "libfelter.so", folder + "/libfelter.so")
            pathlib.Path(folder, "_fast.abi3.so").write_text("no library")
            said = run("import felter; print(felter.many_to_one(128)[0].shares())", FELTER_DIR=folder)
            self.assertIn("ImportWarning", said)
            self.assertTrue(said.endswith("\n65536\n"), said)

    def test_a_folder_may_have_any_name(self):
        with tempfile.TemporaryDirectory() as room:
            folder = os.fsdecode(os.fsencode(room) + b"/with \xe9 of Latin-1")
            os.mkdir(folder)
            for it in [FOLDER / "libfelter.so", *EXTENSIONS]:
                os.symlink(it, os.path.join(folder, it.name))
            # (Python 3.12 and later ones load no extension from there)
            is_fast = bool(EXTENSIONS) and sys.version_info < (3, 12)
            for pure, wanted in ("0", is_fast), ("1", False):
                said = run(SHOWS_FORM, FELTER_DIR=folder, FELTER_PURE=pure)
                self.assertEqual(said.splitlines()[-1], str(wanted))

    def test_another_copy_of_the_package_takes_nothing_from_the_first(self):
        with tempfile.TemporaryDirectory() as folder:
            # (the second copy may find the same files by another path)
            for it in [FOLDER / "libfelter.so", *EXTENSIONS]:
                os.symlink(it, os.path.join(folder, it.name))
            for other in str(FOLDER), folder:
                said = run(TWO_COPIES, OTHER_DIR=other)
                self.assertEqual(re.findall("^4 .*", said, re.M), ["4 BAD_TYPE: the type id is below 1"] * 2, said)
                self.assertEqual(said.count("ImportWarning"), 1 if EXTENSIONS else 2)


# Calls with what they may not be given, and some with what they may.
CALLS = """
import array
import felter
producer, consumer = felter.many_to_one(1024)
counters, board, conductor = felter.Counters(2), felter.Transmitter(256), felter.Conductor(128, 256, 1)
receiver, raw, client = board.subscribe(), board.subscribe_raw(), conductor.client()
claim = producer.claim(1, 4)


class Index:
    def __init__(self, value):
        self.value = value

    def __index__(self):
        return self.value


for number in 1, True, Index(3), 0, -1, 2**31, 2**63, 2**64, -(2**63) - 1, 10**40, Index(2**31), 1.5, "1", None:
    for name, call in [
        ("write", lambda: producer.write(number, b"body")),
        ("claim", lambda: producer.claim(7, number).abort()),
        ("put", lambda: claim.put(number, b"b")),
        ("read_batch", lambda: consumer.read_batch(number)),
        ("room", lambda: consumer.read_batch(1, number)),
        ("heartbeat", lambda: consumer.set_heartbeat(number)),
        ("allocate", lambda: counters.allocate(number, 1, b"key", b"label", 1, number)),
        ("set", lambda: counters.set(0, number)),
        ("value", lambda: counters.value(number)),
        ("load_body", lambda: raw.load_body(number)),
        ("send", lambda: client.set(number, 1)),
        ("poll", lambda: client.poll(number)),
        ("work", lambda: conductor.work(0, number)),
        ("board", lambda: felter.Transmitter(number).sizes()),
    ]:
        # (how much memory there is is no matter of this)
        if name in ("room", "load_body") and isinstance(number, (int, Index)) and number.__index__() >= 2**31:
            continue
        try:
            print(name, call())
        except Exception as why:
            print(name, type(why).__name__, why)

released = memoryview(b"abc")
released.release()
grid = memoryview(bytes(range(8))).cast("B", (2, 2, 2))
for body in [
    b"abc", bytearray(b"abc"), memoryview(b"a-b-c")[::2], memoryview(b"cba")[::-1], array.array("H", [1, 2]), b"", grid,
    array.array("b"), memoryview(b"abc")[3:], released, "abc", 5, None, [1], bytes(128), bytes(129),
]:
    for call in lambda: producer.write(2, body), lambda: counters.allocate(0, 1, body), lambda: board.transmit(3, body):
        try:
            print(call())
        except Exception as why:
            print(type(why).__name__, why)
claim.abort()
print(list(consumer))
for _ in range(9):
    board.transmit(3, bytes(32))
for call in receiver.receive, receiver.receive, raw.receive_next, raw.receive_next, raw.validate, receiver.lap, raw.lap:
    try:
        print(call())
    except felter.Error as why:
        print(type(why).__name__, why, vars(why))
for call in lambda: producer.join(5), lambda: consumer.close(None), lambda: producer.join(consumer):
    try:
        print(call())
    except Exception as why:
        print(type(why).__name__, why)
# (Python says of a method in C and of one in Python in other words that a value is too much)
for call in lambda: consumer.peek(1), lambda: producer.write(1), lambda: producer.claim(1, 2, 3), lambda: consumer.read(0, 0):
    try:
        print(call())
    except Exception as why:
        print(type(why).__name__)
for batch in [
    5, [5], [(1, 2, 3)], [(1,)], [()], [{1: 2}], ["ab"], [b"ab"], [(2**31, b"")], [("a", b"")], [(1, "text")],
    [(1, b"a"), (0, b"")], [(1, b"a"), (1, bytes(129))], (it for it in [(1, b"a"), [2, bytearray(b"b")]]),
]:
    try:
        print(producer.write_batch(batch))
    except Exception as why:
        print(type(why).__name__, why)
print(list(consumer))
for limit, room in (None, "1"), (-1, "1"), (1, None), (1, -1), (1, 2**63), (2**32, 2**63):
    try:
        print(consumer.read_batch(limit, room))
    except Exception as why:
        print(type(why).__name__, why)
for timeout in "1", (), (0.001,), [0.001], float("nan"), -1, True - 1:
    for call in lambda: consumer.read(timeout), lambda: receiver.receive(timeout):
        try:
            print(call())
        except Exception as why:
            print(type(why).__name__, why)
for image in 5, [1, 2], "text", None, b"", bytearray(128):
    try:
        print(felter.recover(image))
    except Exception as why:
        print(type(why).__name__, why)
producer, consumer = felter.many_to_one(1024)
with producer.claim(1, 4) as claim:
    pass
for call in [
    claim.commit, claim.abort, lambda: claim.put(0, b""), lambda: claim.__exit__(None, None, None),
    lambda: claim.put("0", b""), lambda: claim.put(2**64, b""), lambda: claim.put(0, 5),
]:
    try:
        print(call())
    except Exception as why:
        print(type(why).__name__, why)
print(claim.__exit__(ValueError, None, None), claim.__enter__() is claim)
claim = producer.claim(1, 4)
producer.free()
for call in claim.commit, claim.abort, lambda: claim.put(0, b""), lambda: producer.claim(1, 1), lambda: producer.write(1, b""):
    try:
        print(call())
    except Exception as why:
        print(type(why).__name__, why)
print(claim.__exit__(ValueError, None, None))
for call in claim.commit, lambda: claim.put(0, b""):
    try:
        print(call())
    except Exception as why:
        print(type(why).__name__, why)
consumer.free()
for call in consumer.read, consumer.peek, lambda: consumer.read_batch(1), lambda: consumer.read_batch(0), lambda: list(consumer):
    try:
        print(call())
    except Exception as why:
        print(type(why).__name__, why)
"""


class Forms(Case):
    @unittest.skipUnless(EXTENSIONS, "there is no extension")
    def test_both_forms_say_the_same(self):
        pure, fast = run(CALLS, FELTER_PURE="1"), run(CALLS, FELTER_PURE="0")
        self.assertNotIn("Traceback", pure)
        self.assertGreater(len(pure.splitlines()), 200)
        self.maxDiff = None
        self.assertEqual(fast.splitlines(), pure.splitlines())

    @unittest.skipIf(sys.version_info < (3, 12), "a class of this Python gives no buffer")
    def test_a_buffer_may_want_to_be_asked_for_all_that_describes_it(self):
        # (as arrays of NumPy do, if their bytes are apart)
        said = run("""
import felter
import inspect


class Apart:
    def __buffer__(self, flags):
        if not flags & inspect.BufferFlags.STRIDES == inspect.BufferFlags.STRIDES:
            raise ValueError("ndarray is not C-contiguous")
        return memoryview(b"a-b-c")[::2]


producer, consumer = felter.many_to_one(128)
producer.write(1, Apart())
print(consumer.read().body.decode())
""")
        self.assertEqual(said, "abc\n")


if __name__ == "__main__":
    unittest.main()
