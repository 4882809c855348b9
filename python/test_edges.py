"""Tests of what Python adds: copies, pickles, buffers, numbers, garbage: python3 python/test_edges.py"""

import array
import contextlib
import copy
import gc
import inspect
import pickle
import unittest

import felter
from felter import Message, Number, _library
from test_felter import Case


class Liar(bytes):
    def __len__(self):
        return 64


class Edges(Case):
    def test_nothing_that_owns_is_copied(self):
        producer, consumer = felter.many_to_one(256)
        claim = producer.claim(1, 4)
        counters = felter.Counters(2)
        conductor = felter.Conductor(1024, 1024, 2)
        transmitter = felter.Transmitter(256)
        owners = [producer, consumer, claim, counters, counters.reader(), conductor, conductor.client(), transmitter]
        owners += [transmitter.subscribe(), transmitter.subscribe_raw()]
        for it in owners:
            for way in copy.copy, copy.deepcopy, pickle.dumps:
                with self.assertRaises(TypeError):
                    way(it)
        claim.commit()
        producer.write(2, b"still there")
        self.assertEqual(list(consumer), [Message(1, bytes(4)), Message(2, b"still there")])

    def test_errors_go_through_pickles_and_have_classes(self):
        errors = [felter.Error(Number.BAD_TYPE), felter.Lapped(7), felter.Full(), felter.Contended(), felter.Closed()]
        for it in errors:
            for back in pickle.loads(pickle.dumps(it)), copy.copy(it), copy.deepcopy(it):
                self.assertEqual((type(back), back.number, str(back)), (type(it), it.number, str(it)))
        self.assertEqual(pickle.loads(pickle.dumps(felter.Lapped(7))).count, 7)
        producer, consumer = felter.one_to_one(128)
        with self.assertRaises(felter.Full) as full:
            while True:
                producer.write(1, bytes(16))
        self.assertTrue(full.exception.is_passing)
        self.assertEqual(str(full.exception), "7 INSUFFICIENT_CAPACITY: the ring is full")
        producer.free()
        with self.assertRaises(felter.Closed):
            producer.write(1, b"")

    def test_bodies_are_any_buffer_and_lengths_are_not_believed(self):
        producer, consumer = felter.many_to_one(1024)
        words = array.array("H", [1, 2])
        for body in bytearray(b"abc"), memoryview(b"xabcx")[1:4], Liar(b"abc"), memoryview(b"a-b-c")[::2]:
            producer.write(1, body)
            self.assertEqual(consumer.read(), Message(1, b"abc"))
        producer.write(1, words)
        self.assertEqual(consumer.read(), Message(1, words.tobytes()))
        with producer.claim(2, 4) as claim:
            claim.put(1, bytearray(b"ab"))
        self.assertEqual(consumer.read(), Message(2, b"\0ab\0"))
        released = memoryview(b"abc")
        released.release()
        with self.assertRaises(ValueError):
            producer.write(1, released)
        table = memoryview(bytes(range(8))).cast("B", (2, 2, 2))
        producer.write(1, table)
        self.assertEqual(consumer.read(), Message(1, bytes(range(8))))
        for body in "text", 5, None, [1]:
            with self.assertRaises(TypeError):
                producer.write(1, body)
        counters = felter.Counters(1)
        self.assertEqual(counters.label(counters.allocate(0, 1, bytearray(b"k"), memoryview(b"label"))), b"label")
        transmitter = felter.Transmitter(256)
        receiver = transmitter.subscribe()
        transmitter.transmit(1, Liar(b"abc"))
        self.assertEqual(receiver.receive(), Message(1, b"abc"))

    def test_numbers_that_do_not_fit_are_refused(self):
        producer, consumer = felter.many_to_one(256)
        for type_id in 2**31, -(2**31) - 1, 2**64:
            with self.assertRaises(OverflowError):
                producer.write(type_id, b"")
        for type_id in 1.5, "1", None:
            with self.assertRaises(TypeError):
                producer.write(type_id, b"")
        self.assertEqual(list(consumer), [])

    def test_numbers_of_many_digits_are_refused_as_others_are(self):
        # (Python refuses to write an int of more than 4,300 digits, so no text may have all of them)
        producer, consumer = felter.many_to_one(256)
        huge = 10**10000
        with producer.claim(1, 4) as claim:
            calls = [
                lambda: producer.write(huge, b""),
                lambda: producer.write(-huge, b""),
                lambda: producer.claim(huge, 1),
                lambda: producer.claim(1, huge),
                lambda: claim.put(huge, b""),
                lambda: consumer.read_batch(huge),
                lambda: consumer.set_heartbeat(huge),
                lambda: felter.Counters(1).set(0, huge),
                lambda: felter.Transmitter(256).transmit(huge, b""),
            ]
            for call in calls:
                with self.assertRaises(OverflowError) as caught:
                    call()
                self.assertLess(len(str(caught.exception)), 200)
        with self.assertRaises(OverflowError) as caught:
            producer.write(2**31, b"")
        self.assertEqual(str(caught.exception), "2147483648 is not from -2147483648 to 2147483647")

    def test_timeouts_that_are_no_number_are_refused(self):
        producer, consumer = felter.many_to_one(128)
        transmitter = felter.Transmitter(256)
        receiver, nan = transmitter.subscribe(), float("nan")
        with felter.Doorbell() as bell:
            for call in consumer.read, receiver.receive, bell.wait, lambda it: producer.write(1, b"", it):
                with self.assertRaises(ValueError):
                    call(nan)
        for call in consumer.read, receiver.receive, lambda it: producer.write(1, bytes(16), it):
            for timeout in "1", (), (0.001,), [0.001]:
                with self.assertRaises(TypeError):
                    call(timeout)
        self.assertEqual(list(consumer), [])

    def test_parameters_have_names_and_are_counted(self):
        producer, consumer = felter.many_to_one(256)
        producer.write(body=b"named", type_id=1)
        producer.write(2, b"half", timeout=0)
        producer.write(3, b"all", 0.0)
        self.assertEqual([consumer.read(timeout=0), *consumer.read_batch(limit=2, room=4096)],
                         [Message(1, b"named"), Message(2, b"half"), Message(3, b"all")])
        producer.claim(type_id=4, length=2).commit()
        self.assertEqual(consumer.peek(), Message(4, bytes(2)))
        transmitter = felter.Transmitter(256)
        receiver = transmitter.subscribe()
        transmitter.transmit(type_id=5, body=b"t")
        self.assertEqual(receiver.receive(timeout=0), Message(5, b"t"))
        wrong = [
            lambda: producer.write(1),
            lambda: producer.write(1, b"", 0, 0),
            lambda: producer.write(1, b"", type_id=1),
            lambda: producer.write(1, b"", until=0),
            lambda: producer.write(body=b""),
            lambda: producer.claim(1),
            lambda: consumer.read(0, 0),
            lambda: consumer.read_batch(),
            lambda: consumer.peek(1),
            lambda: receiver.receive(wait=1),
            lambda: transmitter.transmit(1, b"", 0),
        ]
        for call in wrong:
            with self.assertRaises(TypeError):
                call()
        names = list(inspect.signature(felter.Producer.write).parameters)
        self.assertEqual(names, ["self", "type_id", "body", "timeout"])
        self.assertIn("any object that has a buffer of bytes", felter.Producer.write.__doc__)

    def test_batches_have_the_room_that_was_given(self):
        producer, consumer = felter.many_to_one(1 << 20)
        for number in range(300):
            producer.write(1 + number, bytes([number % 251]) * (number % 40))
        wanted = [Message(1 + number, bytes([number % 251]) * (number % 40)) for number in range(300)]
        with self.assertRaises(felter.Error) as short:
            consumer.read_batch(9, 15)
        self.assertEqual(short.exception.number, Number.SHORT_BUFFER)
        read = consumer.read_batch(9, 48) + consumer.read_batch(0) + consumer.read_batch(20)
        self.assertEqual(read, wanted[: len(read)])
        self.assertGreater(len(read), 20)
        read += consumer.read_batch(2**32 - 1, 2 << 20)
        self.assertEqual(read, wanted)
        self.assertEqual(consumer.read_batch(9), [])
        with self.assertRaises(MemoryError):
            consumer.read_batch(9, 2**62)

    @unittest.skipIf(_library.fast is None, "by ctypes a call inside of a call of the same handle is refused")
    def test_messages_can_be_read_while_others_are_made(self):
        # (what garbage runs when it is collected may read by the same handle)
        producer, consumer = felter.many_to_one(1 << 16)
        more = []

        class Garbage:
            def __init__(self):
                self.itself = self

            def __del__(self):
                more.extend(consumer.read_batch(3))

        wanted = []
        before = gc.get_threshold()
        gc.set_threshold(1)
        try:
            for number in range(400):
                body = b"%d " % number * 9
                producer.write(1 + number, body)
                wanted.append(Message(1 + number, body))
            read = []
            while len(read) + len(more) < 400:
                Garbage()
                read += consumer.read_batch(7)
        finally:
            gc.set_threshold(*before)
            gc.collect()
        self.assertEqual(sorted(read + more), wanted)

    def test_ends_may_be_made_while_garbage_is_collected(self):
        # (what garbage runs when it is collected may make ends, of the same ring and of other ones)
        producer, _ = felter.many_to_one(256)
        ends, is_over = [], []

        class Garbage:
            def __init__(self):
                self.itself = self

            def __del__(self):
                # (by ctypes a call inside of a call of the same handle is refused)
                with contextlib.suppress(RuntimeError):
                    ends.append(producer.split())
                felter.many_to_one(128)
                if not is_over:
                    Garbage()

        before = gc.get_threshold()
        gc.set_threshold(100)
        try:
            Garbage()
            for _ in range(1000):
                ends.append(producer.split())
        finally:
            is_over.append(True)
            gc.set_threshold(*before)
            gc.collect()
        self.assertEqual(producer.shares() + len(ends), 65536)

    def test_numbers_may_have_code_of_their_own(self):
        producer, consumer = felter.many_to_one(256)

        class Frees:
            def __index__(self):
                producer.free()
                return 1

        class Raises:
            def __index__(self):
                raise KeyError("mine")

        with self.assertRaises(KeyError):
            producer.write(Raises(), b"")
        with self.assertRaises(felter.Closed):
            producer.write(Frees(), b"")
        self.assertEqual(list(consumer), [])

    def test_only_handles_are_taken_for_handles(self):
        producer, consumer = felter.many_to_one(256)
        _, other = felter.many_to_one(256)

        class Poses:
            _number = consumer._number

            @property
            def __class__(self):
                return felter.Producer

        for it in Poses(), None, 5:
            with self.assertRaises((TypeError, AttributeError)):
                consumer.close(it)
        unmade = felter.Producer.__new__(felter.Producer)
        with self.assertRaises(felter.Error):
            other._do("felter_close", unmade)
        for given in ("felter_read",), ("felter_read", None, None), ("felter_none",), (), ("felter_close", 5):
            with self.assertRaises((TypeError, AttributeError, KeyError)):
                consumer._do(*given)
        producer.write(1, b"still there")
        self.assertEqual(list(consumer), [Message(1, b"still there")])

    def test_long_messages_have_room(self):
        producer, consumer = felter.many_to_one(1 << 16)
        bodies = [bytes([n % 251]) * n for n in (0, 255, 256, 257, 8192, 1, 4000)]
        for body in bodies:
            producer.write(1, body)
        self.assertEqual([it.body for it in consumer], bodies)

    def test_ends_that_refer_to_themselves_are_collected(self):
        producer, consumer = felter.many_to_one(256)
        other = producer.split()
        producer.join(other)
        producer.joined = other
        del producer, other
        gc.collect()
        self.assertTrue(consumer.is_abandoned())
        self.assertEqual(consumer.finish(), 0)


if __name__ == "__main__":
    unittest.main()
