"""Tests of rings, and what the other tests share: python3 python/test_felter.py"""

import threading
import time
import unittest

import felter
from felter import Message, Number


class Case(unittest.TestCase):
    def refuses(self, number, call, *parameters):
        with self.assertRaises(felter.Error) as caught:
            call(*parameters)
        self.assertEqual(caught.exception.number, number)
        return caught.exception


def body_of(sender, number):
    """The message with a number of a sender."""
    return b"%d %d " % (sender, number) + bytes((number * 31 + sender + i) % 256 for i in range(number % 40))


def run(*calls):
    """Runs calls on threads of their own, and raises what one of them raised."""
    raised = []

    def guarded(call):
        try:
            call()
        except BaseException as what:
            raised.append(what)

    threads = [threading.Thread(target=guarded, args=(call,)) for call in calls]
    for it in threads:
        it.start()
    for it in threads:
        it.join()
    if raised:
        raise raised[0]


class Rings(Case):
    def test_messages_come_whole_and_in_order(self):
        producer, consumer = felter.many_to_one(4096)
        for number in range(20):
            producer.write(1 + number, body_of(1, number))
        read = [consumer.read(), *consumer]
        self.assertEqual(read, [Message(1 + number, body_of(1, number)) for number in range(20)])
        self.assertIsNone(consumer.read())
        producer.write(3, b"")
        producer.write(4, b"\0\1\0")
        self.assertEqual(list(consumer), [Message(3, b""), Message(4, b"\0\1\0")])
        self.assertEqual(list(consumer), [])
        producer.write(5, bytes(512))
        self.assertEqual(consumer.read(), Message(5, bytes(512)))

    def test_how_full_a_ring_is(self):
        producer, consumer = felter.one_to_one(128)
        self.assertTrue(producer.is_empty() and producer.available() == 128)
        # (a header of 8 bytes, and the body rounded up to 8)
        producer.write(1, bytes(13))
        self.assertEqual((producer.used(), producer.available(), producer.is_empty()), (24, 104, False))
        consumer.read()
        self.assertEqual((producer.used(), producer.is_empty()), (0, True))
        self.assertEqual(producer.write_batch([(1, b"a"), (2, b"b")]), 2)

    def test_batches_have_all_messages_in_order(self):
        producer, consumer = felter.many_to_one(4096)
        wanted = [Message(1 + number, body_of(1, number)) for number in range(20)]
        for message in wanted:
            producer.write(*message)
        self.assertEqual(consumer.read_batch(0), [])
        self.refuses(Number.SHORT_BUFFER, consumer.read_batch, 9, 16)
        read = consumer.read_batch(3) + consumer.read_batch(100, 100)
        self.assertLess(len(read), 20)
        read += consumer.read_batch(100)
        self.assertEqual(read, wanted)
        self.assertEqual(consumer.read_batch(100), [])

    def test_batches_are_written_up_to_the_first_refusal(self):
        producer, consumer = felter.one_to_one(128)
        messages = [Message(1 + number, bytes(16)) for number in range(8)]
        self.assertEqual(producer.write_all(messages[:2]), 2)
        # A record takes 24 bytes of the 128.
        self.assertEqual(producer.write_all(messages[2:]), 3)
        self.assertEqual(list(consumer), messages[:5])
        self.refuses(Number.BAD_TYPE, producer.write_all, [(1, b"a"), (0, b"")])
        self.assertEqual(list(consumer), [Message(1, b"a")])

    def test_batches_are_written_by_one_call(self):
        for producer, consumer in (felter.one_to_one(512), felter.many_to_one(512)):
            messages = [Message(1 + number, body_of(1, number)) for number in range(100)]
            read = []
            while len(read) < 100:
                before = len(read)
                # (a body may be any buffer, and a message any pair)
                batch = ([it.type_id, bytearray(it.body)] for it in messages[before:])
                written = producer.write_batch(batch)
                read += consumer
                self.assertEqual(len(read), before + written)
            self.assertEqual(read, messages)
            self.assertEqual(producer.write_batch(messages=()), 0)
            # If one message is refused, none is written.
            self.refuses(Number.BAD_TYPE, producer.write_batch, [(1, b"a"), (0, b"")])
            self.refuses(Number.TOO_LONG, producer.write_batch, [(1, b"a"), (1, bytes(65))])
            for batch, kind in (
                (1, TypeError), ([1], TypeError), ([(1, 2, 3)], ValueError), ([(1,)], ValueError),
                ([(1 << 31, b"")], OverflowError), ([("a", b"")], TypeError), ([(1, "text")], TypeError),
            ):
                self.assertRaises(kind, producer.write_batch, batch)
            self.assertRaises(ZeroDivisionError, producer.write_batch, ((1, b"" if it else 1 // it) for it in (1, 0)))
            self.assertIsNone(consumer.read())
            producer.free()
            self.refuses(Number.NO_HANDLE, producer.write_batch, [(1, b"a")])

    def test_batches_end_at_the_last_position(self):
        for make in felter.one_to_one, felter.many_to_one:
            producer, consumer = make(128, 2**62 - 128)
            messages = [Message(1 + number, bytes(16)) for number in range(8)]
            # (a record takes 24 bytes, and none may end above 2^62)
            self.assertEqual(producer.write_batch(messages), 5)
            self.assertEqual(list(consumer), messages[:5])
            self.refuses(Number.POSITION_LIMIT, producer.write_batch, messages[5:])
            self.assertEqual(list(consumer), [])

    def test_a_batch_may_write_by_its_producer(self):
        producer, consumer = felter.one_to_one(1024)

        def messages():
            for number in range(3):
                self.assertEqual(producer.write_batch([(9, b"%d" % number)]), 1)
                yield 1, bytes(100 - number)

        self.assertEqual(producer.write_batch(messages()), 3)
        inner = [Message(9, b"%d" % number) for number in range(3)]
        self.assertEqual(list(consumer), inner + [Message(1, bytes(100 - number)) for number in range(3)])

    def test_two_threads_write_and_a_third_reads(self):
        count = 1500
        first, consumer = felter.many_to_one(1024)
        second = first.split()
        read = {1: [], 2: []}

        def write(producer, sender):
            for number in range(count):
                while True:
                    try:
                        producer.write(sender, body_of(sender, number))
                        break
                    except felter.Error as refused:
                        if not refused.is_passing:
                            raise
                        time.sleep(0)

        def collect():
            while sum(map(len, read.values())) < 2 * count:
                for message in consumer:
                    read[message.type_id].append(message.body)
                time.sleep(0)

        run(lambda: write(first, 1), lambda: write(second, 2), collect)
        for sender, bodies in read.items():
            self.assertEqual(bodies, [body_of(sender, number) for number in range(count)])
        first.join(second)
        self.refuses(Number.NO_HANDLE, second.write, 1, b"")
        self.assertEqual(first.shares(), 65536)

    def test_claims_are_committed_and_aborted(self):
        producer, consumer = felter.one_to_one(128)
        with producer.claim(7, 6) as claim:
            claim.put(2, b"ab")
            self.refuses(Number.PUT_RANGE, claim.put, 5, b"ab")
            self.assertIsNone(consumer.read())
        self.assertEqual(consumer.read(), Message(7, b"\0\0ab\0\0"))
        self.refuses(Number.NO_CLAIM, claim.commit)
        with self.assertRaises(KeyError):
            with producer.claim(8, 4) as claim:
                claim.put(0, b"lost")
                raise KeyError
        producer.write(9, b"next")
        self.assertEqual(list(consumer), [Message(9, b"next")])

    def test_raw_records_are_loaded_and_validated(self):
        transmitter = felter.Transmitter(256)
        receiver = transmitter.subscribe_raw()
        self.assertIsNone(receiver.receive_next())
        self.refuses(Number.NO_MESSAGE, receiver.load_body, 8)
        self.refuses(Number.NO_MESSAGE, receiver.validate)
        transmitter.transmit(3, b"body of it")
        self.assertEqual(receiver.receive_next(), felter.RawRecord(3, 10))
        self.refuses(Number.SHORT_BUFFER, receiver.load_body, 9)
        self.assertEqual(receiver.load_body(10), b"body of it")
        self.assertTrue(receiver.validate())
        for _ in range(12):
            transmitter.transmit(4, b"another one")
        self.assertFalse(receiver.validate())
        with self.assertRaises(felter.Lapped) as lapped:
            receiver.receive_next()
        self.assertEqual((lapped.exception.count, receiver.lapped_count()), (1, 1))
        self.assertEqual(lapped.exception.missed_bytes, receiver.place() - receiver.lap().place)
        self.assertEqual(receiver.receive_next(), felter.RawRecord(4, 11))

    def test_claims_are_open_at_once(self):
        producer, consumer = felter.many_to_one(1024)
        other = producer.split()
        first, second, third = producer.claim(1, 1), other.claim(2, 0), producer.claim(3, 1)
        third.put(0, b"c")
        third.commit()
        self.assertIsNone(consumer.read())
        first.put(0, b"a")
        first.commit()
        self.assertEqual(list(consumer), [Message(1, b"a")])
        producer.join(other)
        second.commit()
        self.assertEqual(list(consumer), [Message(2, b""), Message(3, b"c")])
        self.refuses(Number.NO_CLAIM, second.abort)

    def test_refusals_have_their_numbers(self):
        self.refuses(Number.BAD_CAPACITY, felter.many_to_one, 100)
        self.refuses(Number.BAD_START, felter.one_to_one, 128, 64)
        with self.assertRaises(OverflowError):
            felter.many_to_one(2**32 + 128)
        producer, consumer = felter.many_to_one(128, 256)
        refused = self.refuses(Number.BAD_TYPE, producer.write, 0, b"")
        self.assertEqual(str(refused), "4 BAD_TYPE: the type id is below 1")
        self.refuses(Number.TOO_LONG, producer.write, 1, bytes(17))
        for _ in range(5):
            producer.write(1, bytes(16))
        self.assertTrue(self.refuses(Number.INSUFFICIENT_CAPACITY, producer.write, 1, bytes(16)).is_passing)
        self.assertEqual(producer.positions(), (256, 256 + 5 * 24))
        self.refuses(Number.WRONG_HANDLE, felter.one_to_one(128)[0].split)
        self.assertEqual([producer.next_id(), producer.next_id()], [0, 1])
        consumer.set_heartbeat(5)
        self.assertEqual(producer.heartbeat(), 5)

    def test_rings_are_not_mixed_and_handles_are_freed(self):
        producer, consumer = felter.many_to_one(128)
        other, _ = felter.many_to_one(128)
        self.refuses(Number.OTHER_RING, producer.join, other)
        self.refuses(Number.OTHER_RING, producer.join, producer)
        split = producer.split()
        self.refuses(Number.OTHER_RING, other.join, split)
        with split:
            split.write(3, b"kept")
        self.refuses(Number.NO_HANDLE, split.write, 3, b"")
        with consumer:
            self.assertEqual(list(consumer), [Message(3, b"kept")])
        self.refuses(Number.NO_HANDLE, consumer.read)
        self.assertEqual(producer.shares(), 65535)


class Asking(Case):
    def test_a_consumer_says_what_is_next(self):
        producer, consumer = felter.many_to_one(512)
        other, _ = felter.many_to_one(128)
        self.assertEqual(consumer.standing(producer), (felter.Found.NONE, 0))
        claim = producer.claim(1, 5)
        producer.write(2, b"")
        self.assertEqual(consumer.standing(producer), (felter.Found.CLAIM, 0))
        claim.commit()
        self.assertEqual(consumer.standing(producer), (felter.Found.MESSAGE, 0))
        self.assertEqual(consumer.read(), Message(1, bytes(5)))
        self.assertEqual(consumer.standing(producer), (felter.Found.MESSAGE, 16))
        self.assertEqual(consumer.read(), Message(2, b""))
        self.assertEqual(consumer.standing(producer), felter.Standing(felter.Found.NONE, 24))
        producer.claim(1, 8).abort()
        self.assertEqual(consumer.standing(producer), (felter.Found.CHANGE, 40))
        self.assertEqual(consumer.standing(producer), (felter.Found.NONE, 40))
        self.refuses(Number.OTHER_RING, consumer.standing, other)

    def test_sizes_and_places(self):
        producer, consumer = felter.one_to_one(512)
        transmitter = felter.Transmitter(4096, 8192)
        receiver, raw = transmitter.subscribe(), transmitter.subscribe_raw()
        self.assertEqual([producer.sizes(), consumer.sizes()], [(512, 64)] * 2)
        self.assertEqual([transmitter.sizes(), receiver.sizes(), raw.sizes()], [(4096, 512)] * 3)
        self.assertEqual((receiver.place(), raw.place(), receiver.lap(), raw.lap()), (8192, 8192, None, None))

    def test_a_lap_says_what_was_missed(self):
        transmitter = felter.Transmitter(256, 1024)
        receiver = transmitter.subscribe()
        # 21 records of 16 bytes: it goes on with the last one.
        for _ in range(21):
            transmitter.transmit(1, bytes(8))
        lapped = self.refuses(Number.LAPPED, receiver.receive)
        self.assertEqual((lapped.count, lapped.missed_bytes), (1, 20 * 16))
        self.assertEqual(receiver.lap(), felter.Lap(1024, 1024 + 21 * 16))
        self.assertEqual((receiver.place(), len(list(receiver)), receiver.place()), (1024 + 320, 1, 1024 + 336))

    def test_records_and_a_conductors_counters(self):
        counters = felter.Counters(2, 50)
        self.refuses(Number.NOT_ALLOCATED, counters.propose_max, 0, 5)
        self.assertEqual((counters.state(0), counters.deadline(0)), (0, 0))
        one = counters.allocate(3, 1)
        self.assertEqual([counters.propose_max(one, it) for it in (5, 5, -5, 6)], [True, False, False, True])
        self.assertEqual((counters.value(one), counters.state(one), counters.deadline(one)), (6, 1, 2**63 - 1))
        counters.release(7, one)
        self.assertEqual((counters.state(one), counters.deadline(one)), (-1, 57))
        conductor = felter.Conductor(1024, 1024, 3)
        client = conductor.client()
        client.allocate(1)
        asked = client.allocate(6, b"key", b"label", 77)
        client.set(1, -4)
        conductor.work(0)
        self.assertEqual((conductor.count(), conductor.find(6, asked), conductor.find(6, asked + 1)), (3, 1, None))
        self.assertEqual((conductor.value(1), conductor.type_id(1), conductor.owner(1)), (-4, 6, 77))
        self.assertEqual((conductor.registration(1), conductor.label(1)), (asked, b"label"))
        self.assertEqual((conductor.key(1), conductor.state(1)), (b"key" + bytes(109), 1))
        self.refuses(Number.NOT_ALLOCATED, conductor.value, 2)
        self.assertEqual(conductor.deadline(2), 0)


if __name__ == "__main__":
    unittest.main()
