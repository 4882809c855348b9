"""Tests of waiting, of ends that are seen, and of doorbells: python3 python/test_waiting.py"""

import contextlib
import gc
import os
import sys
import threading
import time
import unittest

import felter
from felter import Message
from test_felter import Case, run
from test_wakes import DEADLINE


class Waiting(Case):
    def test_two_threads_wait_for_each_other(self):
        producer, consumer = felter.many_to_one(128)
        other, read = producer.split(), {1: [], 2: []}

        def write(end, type_id):
            for number in range(300):
                end.write(type_id, b"%d" % number, None)
            end.free()

        def collect():
            try:
                while True:
                    message = consumer.read(DEADLINE)
                    read[message.type_id].append(int(message.body))
            except felter.Disconnected:
                pass

        run(lambda: write(producer, 1), lambda: write(other, 2), collect)
        self.assertEqual(read, {1: list(range(300)), 2: list(range(300))})

    def test_messages_are_waited_for_until_the_producers_are_gone(self):
        producer, consumer = felter.many_to_one(1024)
        read = []

        def write():
            for number in range(100):
                producer.write(1, b"%d" % number, DEADLINE)
                if number % 40 == 0:
                    time.sleep(0.005)
            producer.free()

        run(write, lambda: read.extend(int(it.body) for it in consumer.messages()))
        self.assertEqual(read, list(range(100)))
        producer, consumer = felter.many_to_one(1024)
        producer.write(2, b"one")
        began = time.monotonic()
        self.assertEqual(list(consumer.messages(0.02)), [Message(2, b"one")])
        self.assertGreaterEqual(time.monotonic() - began, 0.02)
        self.assertEqual(list(consumer.messages(0)), [])

    def test_a_receiver_waits_for_messages_and_goes_on_after_a_lap(self):
        transmitter = felter.Transmitter(256)
        receiver = transmitter.subscribe()
        for number in range(30):
            transmitter.transmit(1 + number, b"body")
        with self.assertRaises(felter.Lapped):
            next(receiver.messages())
        self.assertEqual([it.type_id for it in receiver.messages(0.01)], [30])

        def transmit():
            time.sleep(0.01)
            for number in range(5):
                transmitter.transmit(50 + number, b"body")
            transmitter.free()

        read = []
        run(transmit, lambda: read.extend(it.type_id for it in receiver.messages()))
        self.assertEqual(read, [50, 51, 52, 53, 54])

    def test_an_end_that_waited_is_gone_as_soon_as_it_is_dropped(self):
        gc.disable()
        self.addCleanup(gc.enable)
        producer, consumer = felter.one_to_one(128)
        while producer.write_all([(1, bytes(16))]):
            pass
        with contextlib.suppress(felter.Full):
            producer.write(1, bytes(16), 0.001)
        timer = threading.Timer(0.01, consumer.read)
        timer.start()
        producer.write(1, bytes(16), DEADLINE)
        timer.join()
        self.assertFalse(consumer.is_abandoned())
        del producer
        self.assertTrue(consumer.is_abandoned())
        conductor = felter.Conductor(128, 256, 1)
        client = conductor.client()
        with contextlib.suppress(felter.Full):
            while True:
                client.release(0)
        with contextlib.suppress(felter.Full):
            client.request(client.release, 0, timeout=0.001)
        del client
        self.assertEqual(conductor.finish().received, 0)

    def test_deadlines_come(self):
        producer, consumer = felter.one_to_one(128)
        began = time.monotonic()
        self.assertIsNone(consumer.read(0.02))
        with self.assertRaises(felter.Full):
            while True:
                producer.write(1, bytes(16))
        with self.assertRaises(felter.Full):
            producer.write(1, bytes(16), 0.02)
        self.assertGreaterEqual(time.monotonic() - began, 0.04)
        receiver = felter.Transmitter(256).subscribe()
        with self.assertRaises(felter.Disconnected):
            receiver.receive(5)

    def test_ends_are_seen(self):
        producer, consumer = felter.many_to_one(256)
        other = producer.split()
        self.assertEqual((producer.is_abandoned(), consumer.is_abandoned()), (False, False))
        producer.join(other)
        self.assertFalse(consumer.is_abandoned())
        producer.write(1, b"last")
        producer.free()
        self.assertTrue(consumer.is_abandoned())
        self.assertEqual(consumer.read(None), Message(1, b"last"))
        with self.assertRaises(felter.Disconnected):
            consumer.read(None)
        producer, consumer = felter.many_to_one(256)
        producer.claim(1, 4)
        del producer
        self.assertTrue(consumer.is_abandoned())
        producer, consumer = felter.many_to_one(256)
        del consumer
        self.assertTrue(producer.is_abandoned())
        transmitter = felter.Transmitter(256)
        receiver, raw = transmitter.subscribe(), transmitter.subscribe_raw()
        self.assertEqual((receiver.is_abandoned(), raw.is_abandoned()), (False, False))
        transmitter.free()
        self.assertEqual((receiver.is_abandoned(), raw.is_abandoned()), (True, True))
        conductor = felter.Conductor(256, 256, 1)
        client, receiver = conductor.client(), conductor.subscribe()
        self.assertEqual((client.is_abandoned(), receiver.is_abandoned()), (False, False))
        conductor.free()
        self.assertEqual((client.is_abandoned(), receiver.is_abandoned()), (True, True))

    def test_ends_are_seen_while_others_come_and_go(self):
        def look(producer, consumer):
            gone, is_over = [producer.split() for _ in range(200)], threading.Event()
            for it in gone:
                it.free()

            def split():
                while not is_over.is_set():
                    gone.append(producer.split())
                    gone[-1].free()
                    del gone[250:]

            def ask():
                try:
                    for _ in range(200):
                        self.assertFalse(consumer.is_abandoned())
                finally:
                    is_over.set()

            run(split, ask)

        interval = sys.getswitchinterval()
        sys.setswitchinterval(1e-6)
        try:
            for _ in range(10):
                look(*felter.many_to_one(256))
        finally:
            sys.setswitchinterval(interval)

    def test_an_end_that_was_refused_is_none(self):
        producer, consumer = felter.one_to_one(256)
        try:
            producer.split()
        except felter.Error as refused:
            kept = refused
        producer.free()
        self.assertTrue(consumer.is_abandoned())
        del kept


class Doorbells(Case):
    def test_it_is_rung_waited_for_and_cleared(self):
        with felter.Doorbell() as bell:
            self.assertEqual((bell.wait(0.005), bell.clear()), (False, False))
            bell.ring()
            bell.ring()
            self.assertEqual((bell.wait(), bell.clear(), bell.clear()), (True, True, False))
            thread = threading.Thread(target=bell.ring)
            thread.start()
            self.assertTrue(bell.wait(DEADLINE))
            thread.join()

    def test_one_that_is_dropped_is_closed_without_code_of_python(self):
        bell = felter.Doorbell()
        descriptor = bell.fileno()
        self.assertFalse(hasattr(bell, "__del__"))
        with self.assertWarns(ResourceWarning):
            del bell
        with self.assertRaises(OSError):
            os.fstat(descriptor)

    def test_one_that_is_closed_has_no_descriptor(self):
        with felter.Doorbell() as bell:
            bell.ring()
        bell.close()
        self.assertEqual(bell.fileno(), -1)
        with self.assertRaises(ValueError):
            bell.ring()


if __name__ == "__main__":
    unittest.main()
