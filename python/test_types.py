"""Tests of the types of the package, as a type checker reads them: python3 python/test_types.py"""

import enum
import inspect
import os
import pathlib
import subprocess
import sys
import tempfile
import typing
import unittest

import felter
from felter import _library
from test_felter import Case

HERE = pathlib.Path(__file__).resolve().parent

# What a program in Python sees, for a type checker.
PROGRAM = """
import array
import typing
import felter

producer, consumer = felter.many_to_one(512)
producer.write(7, b"bytes")
producer.write(7, bytearray(4), timeout=1.5)
producer.write(7, array.array("H"))
message: typing.Optional[felter.Message] = consumer.read(None)
batch: typing.List[felter.Message] = consumer.read_batch(9)
with producer.claim(1, 4) as claim:
    claim.put(0, memoryview(b"data"))
conductor = felter.Conductor(1024, 1024, 4)
reply: felter.Reply = conductor.client().request(conductor.client().set, 1, 2, timeout=1)
name: str = felter.implementation
bodies: typing.List[bytes] = [it.body for it in consumer.messages(timeout=0)]
receiver = felter.Transmitter(256).subscribe()
received: typing.Iterator[felter.Message] = receiver.messages()


async def follow() -> None:
    async for it in receiver:
        it.body.decode()
"""
WRONG = [
    'producer.write(7, "text")',
    "producer.write(b'bytes', 7)",
    "producer.write(7)",
    "consumer.read().body",
    "claim.put(0, [1])",
    "felter.Transmitter(256).transmit(1, 5)",
]


def public_calls():
    """Each public function and method of the package, by its name."""
    for name in felter.__all__:
        it = getattr(felter, name)
        if inspect.isfunction(it):
            yield name, it
        elif inspect.isclass(it) and it.__module__.startswith("felter") and not issubclass(it, (tuple, enum.Enum)):
            for key in dir(it):
                method = inspect.getattr_static(it, key)
                if inspect.isfunction(method) and method.__module__.startswith("felter"):
                    if not key.startswith("_") or key in ("__init__", "__iter__", "__enter__", "__len__"):
                        yield name + "." + key, method


class Types(Case):
    @unittest.skipIf(_library.fast is not None, "the methods of the extension are typed by those by ctypes")
    def test_each_parameter_and_result_has_a_type_that_says_something(self):
        count = 0
        for name, call in public_calls():
            hints = typing.get_type_hints(call, vars(sys.modules[call.__module__]), vars(felter))
            for it in inspect.signature(call).parameters.values():
                if it.name in ("self", "_"):
                    continue
                self.assertIn(it.name, hints, name)
                if it.kind != it.VAR_POSITIONAL:
                    self.assertIsNot(hints[it.name], typing.Any, "%s of %s" % (it.name, name))
            self.assertIn("return", hints, name)
            self.assertIsNot(hints["return"], typing.Any, name)
            count += 1
        self.assertGreater(count, 90)

    def test_the_mark_of_a_typed_package_is_there(self):
        self.assertTrue(pathlib.Path(felter.__file__).with_name("py.typed").is_file())

    def test_a_type_checker_passes_what_is_right_and_refuses_what_is_wrong(self):
        try:
            import mypy  # noqa: F401
        except ImportError:
            self.skipTest("there is no mypy")
        with tempfile.TemporaryDirectory() as folder:
            def checked(text):
                path = pathlib.Path(folder, "program.py")
                path.write_text(text)
                words = [sys.executable, "-m", "mypy", "--strict", "--no-error-summary", str(path)]
                environment = {**os.environ, "MYPYPATH": str(HERE)}
                done = subprocess.run(words, env=environment, cwd=folder, stdout=subprocess.PIPE)
                return done.returncode, done.stdout.decode()

            status, said = checked(PROGRAM)
            if 'Module "typing_extensions" has no attribute "Buffer"' in said:
                self.skipTest("this mypy is older than the type of buffers")
            self.assertEqual((status, said), (0, ""))
            for line in WRONG:
                self.assertEqual(checked(PROGRAM + line + "\n")[0], 1, line)


if __name__ == "__main__":
    unittest.main()
