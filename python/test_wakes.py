"""Tests of readers that sleep until they are woken: python3 python/test_wakes.py"""

import resource
import threading
import time
import types
import unittest
from unittest import mock

import felter
from felter import Message, _library, waiting
from test_felter import Case

# The deadline of a read that a wake ends, and the longest time from the wake to the end of the read, in seconds. A read
# that no wake reaches ends at its deadline, which is later. (Both are long, so that a busy machine does not matter.)
DEADLINE, SOON = 60, 30


def only_woken():
    """In this context a reader that sleeps looks again only if it is woken, or at its deadline. (Otherwise the reader
    looks again after a twentieth of a second, and a lost wake would not be noticed.)"""
    return mock.patch.object(waiting, "LONGEST_SLEEP", DEADLINE)


def wait_until(is_so):
    """Waits until a condition is met. Fails if that takes too long."""
    end = time.monotonic() + SOON / 2
    while not is_so():
        if time.monotonic() > end:
            raise AssertionError("nothing happened")
        time.sleep(0.001)


class Reader(threading.Thread):
    """A thread that reads, and waits. It notes what it read or raised, when the read ended, and how often the thread
    gave up its processor meanwhile."""

    def __init__(self, read):
        super().__init__()
        self.read, self.found, self.ended, self.switches = read, None, None, None
        self.start()

    def run(self):
        before = resource.getrusage(resource.RUSAGE_THREAD).ru_nvcsw
        try:
            self.found = self.read(DEADLINE)
        except Exception as why:
            self.found = type(why)
        self.ended = time.monotonic()
        self.switches = resource.getrusage(resource.RUSAGE_THREAD).ru_nvcsw - before


class Wakes(Case):
    def woken(self, read, sleepers, act, seconds=0.0):
        """Lets a thread read and sleep, and then does what has to wake the thread. Returns the thread after its read
        ended, which must be soon."""
        with only_woken():
            reader = Reader(read)
            try:
                wait_until(lambda: sleepers)
                time.sleep(seconds)
            finally:
                began = time.monotonic()
                act()
                reader.join()
        self.assertLess(reader.ended - began, SOON, "no wake reached the reader")
        self.assertEqual(sleepers, [])
        return reader

    def test_a_reader_that_sleeps_is_woken_by_a_write(self):
        producer, consumer = felter.many_to_one(1024)
        transmitter = felter.Transmitter(1024)
        receiver = transmitter.subscribe()
        for read, its, write in [
            (consumer.read, consumer._sleepers, producer.write),
            (receiver.receive, receiver._sleepers, transmitter.transmit),
        ]:
            reader = self.woken(read, its, lambda: write(5, b"woken"), seconds=0.5)
            self.assertEqual(reader.found, Message(5, b"woken"))
            # (a reader that pauses for at most a millisecond between looks gives up its processor hundreds of times)
            self.assertLess(reader.switches, 50)

    def test_a_reader_that_sleeps_is_woken_by_each_end(self):
        producer, consumer = felter.many_to_one(1024)
        first, second = producer.claim(1, 4), producer.claim(2, 4)
        producer.write(3, b"next")
        third = producer.claim(4, 4)
        for act, wanted in [
            (first.commit, Message(1, bytes(4))),
            (second.abort, Message(3, b"next")),
            (lambda: third.__exit__(None, None, None), Message(4, bytes(4))),
            (lambda: producer.write(5, b"", DEADLINE), Message(5, b"")),
            (lambda: producer.write_batch([(6, b"a")]), Message(6, b"a")),
            (producer.free, felter.Disconnected),
        ]:
            self.assertEqual(self.woken(consumer.read, consumer._sleepers, act).found, wanted)
        producer, consumer = felter.many_to_one(256)
        self.assertEqual(self.woken(consumer.read, consumer._sleepers, consumer.free).found, felter.Closed)
        transmitter = felter.Transmitter(256)
        receiver = transmitter.subscribe()
        self.assertEqual(self.woken(receiver.receive, receiver._sleepers, transmitter.free).found, felter.Disconnected)
        conductor = felter.Conductor(1024, 1024, 1)
        client, receiver = conductor.client(), conductor.subscribe()
        client.release(7)
        reader = self.woken(receiver.receive, receiver._sleepers, lambda: conductor.work(0))
        self.assertEqual(reader.found.type_id, felter.ReplyKind.REFUSED)

    @unittest.skipIf(_library.fast is None, "by ctypes nothing wakes a reader if something is dropped")
    def test_a_reader_that_sleeps_is_woken_if_the_other_side_is_dropped(self):
        producer, consumer = felter.many_to_one(256)
        kept = [producer, producer.claim(1, 1)]
        producer.write(2, b"next")
        del producer
        self.assertEqual(self.woken(consumer.read, consumer._sleepers, kept.pop).found, Message(2, b"next"))
        self.assertEqual(self.woken(consumer.read, consumer._sleepers, kept.pop).found, felter.Disconnected)

    def test_all_receivers_are_woken(self):
        transmitter = felter.Transmitter(4096)
        receivers = [transmitter.subscribe() for _ in range(4)]
        with only_woken():
            readers = [Reader(it.receive) for it in receivers]
            wait_until(lambda: len(transmitter._sleepers) == 4)
            began = time.monotonic()
            transmitter.transmit(5, b"all")
            for it in readers:
                it.join()
        self.assertEqual([it.found for it in readers], [Message(5, b"all")] * 4)
        self.assertLess(max(it.ended for it in readers) - began, SOON)
        self.assertEqual(transmitter._sleepers, [])

    def test_a_reader_that_gave_up_is_no_matter_to_a_writer(self):
        producer, consumer = felter.many_to_one(256)
        bell = felter.Doorbell()
        waiting.Listed(consumer._sleepers, bell).__enter__()
        bell.close()
        consumer._sleepers.append(threading.Lock())
        producer.write(1, b"")
        self.assertEqual((consumer._sleepers, consumer.read()), ([], Message(1, b"")))

    def test_what_wakes_may_drop_what_is_woken(self):
        # (while a doorbell is rung another thread may run, and drop the last handle of the ring)
        producer, consumer = felter.many_to_one(256)
        claim, others = producer.claim(1, 1), []

        def drop():
            claim.__exit__(ValueError, None, None)
            others.extend([number] for number in range(1000))

        del consumer
        producer._sleepers.append(types.SimpleNamespace(release=drop))
        del producer
        claim.commit()
        self.assertEqual(others, [[number] for number in range(1000)])


if __name__ == "__main__":
    unittest.main()
