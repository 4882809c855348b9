"""Structures in files."""

import errno
import gc
import os
import pickle
import signal
import struct
import subprocess
import sys
import tempfile
import unittest

import felter

HERE = os.path.dirname(os.path.abspath(__file__))


def word(path: str, at: int) -> int:
    with open(path, "rb") as file:
        file.seek(at)
        found: int = struct.unpack("<Q", file.read(8))[0]
        return found


def header(length: int, type_id: int) -> int:
    return (type_id & 0xFFFFFFFF) << 32 | (length & 0xFFFFFFFF)


def is_mapped(path: str) -> bool:
    with open("/proc/self/maps", encoding="utf-8") as file:
        return path in file.read()


def messages(path: str) -> "list[bytes]":
    """The committed messages of the image of a ring, as docs/FORMATS.md describes them."""
    with open(path, "rb") as file:
        image = file.read()
    magic, _, _, capacity, words, _, bodies, _ = struct.unpack_from("<8s7Q", image)
    assert magic == b"FELTERIM"
    (tail,) = struct.unpack_from("<Q", image, words + capacity + 128)
    (at,) = struct.unpack_from("<Q", image, words + capacity + 384)
    found = []
    while at < tail:
        (mark,) = struct.unpack_from("<Q", image, words + at % capacity)
        if mark > at and mark % 8 == 0:
            begin = bodies + at % capacity
            (length,) = struct.unpack_from("<i", image, begin)
            found.append(image[begin + 8 : begin + length])
        at = max(at + 8, mark // 8 * 8)
    return found


# A program that dies with messages in its ring.
DYING = """
import os, signal, sys
import felter

producer, consumer = felter.many_to_one_in_file(sys.argv[1], 1024)
for body in (b"one", b"two", b"three"):
    producer.write(7, body)
consumer.read()
claim = producer.claim(9, 5)
producer.write(8, b"after the claim")
os.kill(os.getpid(), signal.SIGKILL)
"""


class InFile(unittest.TestCase):
    def setUp(self) -> None:
        self.folder = tempfile.TemporaryDirectory()
        self.path = os.path.join(self.folder.name, "image")

    def tearDown(self) -> None:
        self.folder.cleanup()

    def test_messages_outlive_the_process(self) -> None:
        words = [sys.executable, "-B", "-c", DYING, self.path]
        done = subprocess.run(words, cwd=HERE, check=False)
        self.assertEqual(done.returncode, -signal.SIGKILL)
        self.assertEqual(messages(self.path), [b"two", b"three", b"after the claim"])

    def test_a_new_ring_goes_on(self) -> None:
        subprocess.run([sys.executable, "-B", "-c", DYING, self.path], cwd=HERE, check=False)
        left = messages(self.path)
        producer, consumer = felter.many_to_one_in_file(self.path + ".new", 1024)
        for body in left:
            producer.write(7, body)
        os.rename(self.path + ".new", self.path)
        self.assertEqual(messages(self.path), left)
        self.assertEqual([it.body for it in consumer], left)
        producer.write(7, b"four")
        self.assertEqual(messages(self.path), [b"four"])

    def test_messages_are_recovered(self) -> None:
        subprocess.run([sys.executable, "-B", "-c", DYING, self.path], cwd=HERE, check=False)
        with open(self.path, "rb") as file:
            image = file.read()
        recovered = felter.recover(image)
        self.assertEqual(recovered.messages, [(7, b"two"), (7, b"three"), (8, b"after the claim")])
        self.assertEqual(recovered.open_claims, 1)
        for other in bytearray(image), memoryview(b"x" + image)[1:], image + b"more":
            self.assertEqual(felter.recover(other), recovered)
        # a new ring goes on with them
        producer, consumer = felter.many_to_one_in_file(self.path + ".new", 1024)
        self.assertEqual(producer.write_batch(recovered.messages), 3)
        os.rename(self.path + ".new", self.path)
        with open(self.path, "rb") as file:
            self.assertEqual(felter.recover(file.read()), felter.Recovered(recovered.messages, 0))
        self.assertEqual(list(consumer), recovered.messages)

    def test_longest_messages_and_empty_ones_are_recovered(self) -> None:
        for bodies in [b""] * 128, [b"x" * 128] * 7, [bytes(k) for k in range(40)]:
            producer, consumer = felter.one_to_one_in_file(self.path, 1024)
            producer.write_all((1, it) for it in bodies)
            producer.free()
            consumer.free()
            with open(self.path, "rb") as file:
                recovered = felter.recover(file.read())
            self.assertEqual([it.body for it in recovered.messages], messages(self.path))
            self.assertGreater(len(recovered.messages), 5)
            os.unlink(self.path)

    def test_damage(self) -> None:
        producer, consumer = felter.many_to_one_in_file(self.path, 256)
        producer.write(7, b"first")
        producer.free()
        consumer.free()
        with open(self.path, "rb") as file:
            image = file.read()
        cases = [
            (0, 0, felter.Number.NO_IMAGE, "the memory is not the image of a ring"),
            # (the kind of the mark, and the length and the type id in the slot)
            (128, 16 + 4, felter.Number.BAD_HEADER_LENGTH,
             "a header has a length that no record has there: byte 0 of the buffer, length 1"),
            (896 + 256, header(17, 7), felter.Number.BAD_HEADER_LENGTH,
             "a header has a length that no record has there: byte 0 of the buffer, length 1"),
            (896 + 256, header(13, -5), felter.Number.BAD_HEADER_TYPE,
             "a header has a type id that no record has: byte 0 of the buffer, type id -5"),
            (128 + 256 + 384, 24, felter.Number.TAIL_BEFORE_HEAD, "the tail is before the head: head 24, tail 16"),
            (128 + 256 + 128, 264, felter.Number.TAIL_TOO_FAR,
             "the tail is more than the capacity after the head: head 0, tail 264"),
            (128 + 256 + 128, 15, felter.Number.UNALIGNED_POSITION,
             "the head or the tail is not a multiple of 8: head 0, tail 15"),
        ]
        for at, value, number, text in cases:
            changed = image[:at] + struct.pack("<Q", value) + image[at + 8 :]
            with self.assertRaises(felter.Damaged) as raised:
                felter.recover(changed)
            self.assertEqual((raised.exception.number, raised.exception.finding), (number, text))
            self.assertEqual(str(raised.exception), "%d %s: %s" % (number, number.name, text))
            again = pickle.loads(pickle.dumps(raised.exception))
            self.assertEqual((again.number, again.finding), (number, text))
        for cut in b"", image[:127], image[:-1]:
            with self.assertRaises(felter.Damaged):
                felter.recover(cut)
        for it in "text", 896, [1, 2], None:
            with self.assertRaises(TypeError):
                felter.recover(it)  # type: ignore[arg-type]

    def test_ring(self) -> None:
        for make, kind in (felter.many_to_one_in_file, 2), (felter.one_to_one_in_file, 1):
            producer, consumer = make(self.path, 1024)
            producer.write(7, b"hello")
            claim = producer.claim(9, 4)
            claim.put(0, b"half")
            self.assertEqual(os.path.getsize(self.path), 896 + 2 * 1024)
            self.assertEqual([word(self.path, at) for at in (16, 24, 32, 48)], [kind, 1024, 128, 1920])
            # (the ends of the records, with the kinds of a committed and of an open one, and their headers)
            self.assertEqual([word(self.path, at) for at in (128, 144)], [16, 32 + 2])
            self.assertEqual([word(self.path, at) for at in (1920, 1936)], [header(13, 7), header(12, 9)])
            self.assertEqual(messages(self.path), [b"hello"])
            message = consumer.read()
            assert message is not None
            self.assertEqual(message.body, b"hello")
            producer.free()
            self.assertTrue(is_mapped(self.path))
            consumer.free()
            self.assertFalse(is_mapped(self.path))
            # the claim was aborted, and the file stays
            self.assertEqual(word(self.path, 144), 32 + 3)
            os.unlink(self.path)

    def test_a_claim_that_was_dropped_is_aborted_by_a_batch(self) -> None:
        producer, consumer = felter.many_to_one_in_file(self.path, 1024)
        producer.claim(3, 4)
        self.assertEqual(producer.write_batch([(4, b"next")]), 1)
        self.assertEqual([word(self.path, at) for at in (128, 144)], [16 + 3, 32])
        self.assertEqual([it.body for it in consumer], [b"next"])

    def test_handles_that_nothing_refers_to(self) -> None:
        ring = felter.many_to_one_in_file(self.path, 1024)
        ring[0].claim(3, 3)
        del ring
        # (with ctypes a claim that was dropped and its producer refer to each other)
        gc.collect()
        self.assertFalse(is_mapped(self.path))

    def test_ring_that_ends(self) -> None:
        producer, consumer = felter.one_to_one_in_file(self.path, 512)
        producer.write(3, b"read")
        producer.write(4, b"left")
        consumer.close(producer)
        message = consumer.read()
        assert message is not None
        self.assertEqual(message.body, b"read")
        self.assertTrue(is_mapped(self.path))
        self.assertEqual(consumer.finish(), 1)
        self.assertFalse(is_mapped(self.path))
        self.assertEqual(messages(self.path), [b"left"])

    def test_board_and_counters(self) -> None:
        with felter.Transmitter.in_file(self.path, 256) as transmitter, transmitter.subscribe() as receiver:
            transmitter.transmit(5, b"to all")
            self.assertEqual((word(self.path, 16), word(self.path, 128)), (3, header(14, 5)))
            transmitter.free()
            message = receiver.receive()
            assert message is not None
            self.assertEqual(message.body, b"to all")
            self.assertTrue(is_mapped(self.path))
        self.assertFalse(is_mapped(self.path))
        os.unlink(self.path)
        with felter.Counters.in_file(self.path, 8) as counters, counters.reader() as reader:
            counter = counters.allocate(0, 3, b"key", b"label", 77)
            counters.set(counter, 1234)
            self.assertEqual([word(self.path, at) for at in (16, 128, 136)], [4, 1234, 77])
            counters.free()
            self.assertEqual(reader.value(counter), 1234)
        self.assertFalse(is_mapped(self.path))

    def test_file_that_is_there(self) -> None:
        with open(self.path, "wb") as file:
            file.write(b"mine")
        with self.assertRaises(FileExistsError):
            felter.many_to_one_in_file(self.path, 1024)
        with open(self.path, "rb") as file:
            self.assertEqual(file.read(), b"mine")

    def test_nothing_is_made_for_a_bad_size(self) -> None:
        for make in (
            lambda: felter.many_to_one_in_file(self.path, 100),
            lambda: felter.one_to_one_in_file(self.path, 1 << 25),
            lambda: felter.Transmitter.in_file(self.path, 128),
        ):
            with self.assertRaises(felter.Error) as refused:
                make()
            self.assertEqual(refused.exception.number, felter.Number.BAD_CAPACITY)
        with self.assertRaises(felter.Error) as refused:
            felter.Counters.in_file(self.path, 0)
        self.assertEqual(refused.exception.number, felter.Number.BAD_COUNT)
        with self.assertRaises(OverflowError):
            felter.Counters.in_file(self.path, 8, -1)
        with self.assertRaises(OverflowError):
            felter.many_to_one_in_file(self.path, 1 << 32)
        self.assertFalse(os.path.exists(self.path))

    def test_folder_that_is_not_there(self) -> None:
        with self.assertRaises(OSError) as refused:
            felter.many_to_one_in_file(os.path.join(self.path, "image"), 1024)
        self.assertEqual(refused.exception.errno, errno.ENOENT)


if __name__ == "__main__":
    unittest.main()
