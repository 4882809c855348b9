"""Tests of how felter's rings, boards and counters take back and end: python3 python/test_closing.py"""

import gc
import struct
import threading
import time
import unittest
from random import Random

import felter
from felter import Message, Number
from test_felter import Case, run

BODY = b"sixteen bytes..."


def claimed(producer, type_id):
    """A claim of 8 bytes, or None if the ring is full or another producer is faster."""
    try:
        return producer.claim(type_id, 8)
    except (felter.Full, felter.Contended):
        return None


class Lane(threading.Thread):
    """A producer on a thread, which ends at a random step, and may be freed there."""

    def __init__(self, lane, producer, random):
        super().__init__()
        self.lane, self.producer, self.random = lane, producer, random
        self.next, self.committed = 0, set()
        self.frees, self.steps = random.random() < 0.5, random.randrange(20)

    def body(self):
        self.next += 1
        return struct.pack("=II", self.lane, self.next)

    def write(self, producer):
        body = self.body()
        if producer.write_all([(self.lane, body)]):
            self.committed.add(body)

    def run(self):
        kept = []
        for _ in range(self.steps):
            step = self.random.randrange(4)
            if step == 0:
                self.write(self.producer)
            elif step == 1 and len(kept) < 3:
                body = self.body()
                claim = claimed(self.producer, self.lane)
                if claim:
                    claim.put(0, body[: self.random.choice((0, 4, 8))])
                    kept.append((claim, body))
            elif step == 2 and kept:
                self.settle(*kept.pop())
            elif step == 3 and self.producer.shares() > 1:
                # It is lost with a claim open.
                other = self.producer.split()
                self.write(other)
                lost = claimed(other, self.lane)
                other.free()
                del lost
        if self.frees:
            self.producer.free()
        else:
            for claim, body in kept:
                self.settle(claim, body)

    def settle(self, claim, body):
        claim.put(0, body)
        claim.commit()
        self.committed.add(body)


class Closing(Case):
    def test_a_ring_is_closed_and_read_on_and_says_what_was_left(self):
        for make in felter.many_to_one, felter.one_to_one:
            producer, consumer = make(256)
            for type_id in 1, 2, 3:
                producer.write(type_id, BODY)
            self.refuses(Number.PRODUCERS_OUT, consumer.finish)
            consumer.close(producer)
            self.refuses(Number.NO_HANDLE, producer.write, 4, b"")
            self.refuses(Number.NO_HANDLE, consumer.close, producer)
            self.assertEqual(consumer.read(), Message(1, BODY))
            consumer.set_heartbeat(5)
            self.assertEqual(consumer.finish(), 2)
            self.refuses(Number.NO_HANDLE, consumer.read)
            self.refuses(Number.NO_HANDLE, consumer.finish)
        producer, consumer = felter.many_to_one(128)
        with producer, consumer:
            self.refuses(Number.PRODUCERS_OUT, consumer.finish)

    def test_padding_and_aborted_claims_are_not_left(self):
        producer, consumer = felter.many_to_one(128)
        # Each takes 24 bytes, and the sixth comes after padding.
        for type_id in range(1, 6):
            producer.write(type_id, BODY)
        self.assertEqual([consumer.read(), consumer.read()], [Message(1, BODY), Message(2, BODY)])
        producer.write(6, BODY)
        producer.claim(7, 5).abort()
        self.assertEqual(producer.positions(), (48, 128 + 24 + 16))
        consumer.close(producer)
        self.assertEqual(consumer.finish(), 4)

    def test_a_close_is_refused_until_claims_are_settled_and_producers_joined(self):
        producer, consumer = felter.many_to_one(256)
        other = producer.split()
        claim = producer.claim(1, 3)
        self.assertIn("10 CLAIMS_OPEN: ", str(self.refuses(Number.CLAIMS_OPEN, consumer.close, producer)))
        claim.commit()
        second = other.claim(2, 3)
        self.refuses(Number.PRODUCERS_OUT, consumer.close, producer)
        self.refuses(Number.CLAIMS_OPEN, consumer.close, other)
        producer.join(other)
        self.refuses(Number.CLAIMS_OPEN, consumer.close, producer)
        with second:
            second.put(0, b"abc")
        self.assertEqual(consumer.read(), Message(1, bytes(3)))
        consumer.close(producer)
        # (a claim that was settled has nothing to do with its producer any more)
        self.refuses(Number.NO_CLAIM, second.commit)
        self.assertEqual(list(consumer), [Message(2, b"abc")])
        self.assertEqual(consumer.finish(), 0)

    def test_a_ring_is_closed_without_producers_that_were_freed(self):
        producer, consumer = felter.many_to_one(256)
        other, third = producer.split(), producer.split()
        other.write(1, BODY)
        claim = other.claim(2, 3)
        producer.write(3, BODY)
        other.write(4, BODY)
        other.free()
        self.refuses(Number.NO_HANDLE, claim.commit)
        self.refuses(Number.PRODUCERS_OUT, consumer.close, producer)
        third.free()
        self.assertEqual(consumer.read(), Message(1, BODY))
        consumer.close(producer)
        self.assertEqual(consumer.read(), Message(3, BODY))
        self.assertEqual(consumer.finish(), 1)
        # Without the last one too, which the interpreter frees here.
        for make in felter.many_to_one, felter.one_to_one:
            producer, consumer = make(256)
            producer.write(1, BODY)
            claim = producer.claim(2, 3)
            producer.write(3, BODY)
            self.refuses(Number.PRODUCERS_OUT, consumer.finish)
            del claim, producer
            gc.collect()
            self.assertEqual(consumer.finish(), 2)

    def test_producers_that_end_at_any_step_lose_nothing(self):
        random = Random(7)
        for _ in range(150):
            producer, consumer = felter.many_to_one(random.choice((128, 1024)))
            producers = [producer] + [producer.split() for _ in range(3)]
            for other in producers[1:] * 5:
                other.join(producer.split())
            lanes = [Lane(at + 1, it, Random(random.random())) for at, it in enumerate(producers)]
            for lane in lanes:
                lane.start()
            read = [message for _ in range(random.randrange(6)) for message in consumer.read_batch(9, 512)]
            for lane in lanes:
                lane.join()
            left = [lane.producer for lane in lanes if not lane.frees]
            for other in left[1:]:
                self.refuses(Number.PRODUCERS_OUT, consumer.close, left[0])
                left[0].join(other)
            if left:
                consumer.close(left[0])
            read += list(consumer)
            self.assertEqual(consumer.finish(), 0)
            # Each committed message came once, whole, and in the order of its producer.
            for lane in lanes:
                self.assertEqual([m.body for m in read if m.type_id == lane.lane], sorted(lane.committed))

    def test_rings_of_one_capacity_are_not_mixed(self):
        (one, of_one), (two, of_two) = felter.many_to_one(128), felter.many_to_one(128)
        one.write(1, BODY)
        self.refuses(Number.OTHER_RING, of_two.close, one)
        self.refuses(Number.OTHER_RING, of_one.close, of_one)
        self.refuses(Number.OTHER_RING, of_one.close, felter.Transmitter(256))
        of_one.close(one)
        of_two.close(two)
        self.assertEqual((of_one.finish(), of_two.finish()), (1, 0))

    def test_what_was_written_on_threads_was_read_or_is_left(self):
        count, read = 1000, []
        first, consumer = felter.many_to_one(1024)
        second = first.split()

        def write(producer):
            for _ in range(count):
                while True:
                    try:
                        producer.write(9, BODY)
                        break
                    except felter.Error as refused:
                        if not refused.is_passing:
                            raise
                        time.sleep(0)

        def collect():
            # Five messages stay: the ring has room for more.
            while len(read) < 2 * count - 5:
                message = consumer.read()
                read.append(message) if message else time.sleep(0)

        run(lambda: write(first), lambda: write(second), collect)
        first.join(second)
        consumer.close(first)
        self.assertEqual((consumer.finish(), set(read)), (5, {Message(9, BODY)}))

    def test_a_board_is_closed_when_its_receivers_are_back(self):
        transmitter = felter.Transmitter(256, 512)
        receiver, raw = transmitter.subscribe(), transmitter.subscribe_raw()
        # They take 16, 40 and 8 bytes.
        transmitter.transmit(1, bytes(5))
        transmitter.transmit(2, bytes(32))
        self.assertIn("14 RECEIVERS_OUT: ", str(self.refuses(Number.RECEIVERS_OUT, transmitter.close)))
        transmitter.transmit(3, b"")
        self.assertEqual(receiver.receive(), Message(1, bytes(5)))
        transmitter.join(receiver)
        self.refuses(Number.NO_HANDLE, receiver.receive)
        self.refuses(Number.NO_HANDLE, transmitter.join, receiver)
        self.refuses(Number.RECEIVERS_OUT, transmitter.close)
        transmitter.join_raw(raw)
        self.refuses(Number.NO_HANDLE, raw.receive_next)
        self.assertEqual(transmitter.close(), 512 + 16 + 40 + 8)
        self.refuses(Number.NO_HANDLE, transmitter.close)
        transmitter = felter.Transmitter(256)
        transmitter.transmit(1, bytes(26))
        transmitter.subscribe().free()
        transmitter.subscribe_raw().free()
        self.assertEqual(transmitter.close(), 40)

    def test_boards_of_one_capacity_are_not_mixed(self):
        one, two, conductor = felter.Transmitter(256), felter.Transmitter(256), felter.Conductor(128, 256, 1)
        receiver, raw, replies = one.subscribe(), one.subscribe_raw(), conductor.subscribe()
        self.refuses(Number.OTHER_RING, two.join, receiver)
        self.refuses(Number.OTHER_RING, two.join_raw, raw)
        self.refuses(Number.OTHER_RING, one.join, replies)
        # What is of one board, and of another kind, is the library's to refuse.
        self.refuses(Number.WRONG_HANDLE, one.join, raw)
        self.refuses(Number.WRONG_HANDLE, one.join_raw, receiver)
        one.transmit(4, b"raw")
        self.assertEqual((raw.receive_next().length, receiver.receive()), (3, Message(4, b"raw")))
        one.join(receiver)
        one.join_raw(raw)
        conductor.join_receiver(replies)
        self.assertEqual((one.close(), two.close(), conductor.finish()), (16, 0, (0, 0)))

    def test_the_library_tells_them_apart_by_itself(self):
        (one, of_one), (two, of_two) = felter.many_to_one(128), felter.many_to_one(128)
        boards, counters = [felter.Transmitter(256) for _ in "ab"], [felter.Counters(1) for _ in "ab"]
        conductors = [felter.Conductor(128, 256, 1) for _ in "ab"]
        for call, other in [
            (one.join, two),
            (of_one.close, two),
            (boards[0].join, boards[1].subscribe()),
            (boards[0].join_raw, boards[1].subscribe_raw()),
            (counters[0].join, counters[1].reader()),
            (felter.Adder().join, felter.Adder().split()),
            (conductors[0].join, conductors[1].client()),
            (conductors[0].join_receiver, conductors[1].subscribe()),
            (conductors[0].join_reader, conductors[1].reader()),
        ]:
            with self.subTest(call.__qualname__):
                # (this module would refuse it before)
                other._number = call.__self__._number
                self.refuses(Number.OTHER_RING, call, other)
        two._number = of_two._number
        of_two.close(two)
        self.assertEqual(of_two.finish(), 0)

    def test_readers_are_taken_back_by_their_counters(self):
        one, two, conductor = felter.Counters(1), felter.Counters(1), felter.Conductor(128, 256, 1)
        counter, reader, values = one.allocate(0, 1), one.reader(), conductor.reader()
        self.refuses(Number.OTHER_RING, two.join, reader)
        self.refuses(Number.OTHER_RING, one.join, values)
        self.refuses(Number.OTHER_RING, one.join, one)
        one.set(counter, 7)
        self.assertEqual((reader.value(counter), values.value(0)), (7, 0))
        one.join(reader)
        self.refuses(Number.NO_HANDLE, reader.value, counter)
        conductor.join_reader(values)
        self.assertEqual((one.value(counter), conductor.finish()), (7, (0, 0)))
        # Shares that are given back are given again: there are 65,536.
        for _ in range(65537):
            two.join(two.reader())


if __name__ == "__main__":
    unittest.main()
