"""Tests of tasks of asyncio that wait: python3 python/test_loops.py"""

import asyncio
import gc
import threading
import time
import unittest

import felter
from felter import Message
from test_felter import Case, run
from test_wakes import DEADLINE, SOON, only_woken, wait_until


class Loops(Case):
    def test_a_receiver_is_waited_for_by_a_task(self):
        async def collect(receiver):
            return [message.type_id async for message in receiver]

        async def both():
            transmitter = felter.Transmitter(1024)
            its = asyncio.ensure_future(collect(transmitter.subscribe()))
            for number in range(5):
                await asyncio.sleep(0.002)
                transmitter.transmit(1 + number, b"")
            transmitter.free()
            return await its

        self.assertEqual(asyncio.run(both()), [1, 2, 3, 4, 5])

    def test_tasks_are_woken_by_writes_and_by_the_end(self):
        producer, consumer = felter.many_to_one(256)
        read, turns = [], []

        def write():
            with producer:
                for number in range(500):
                    if number % 50 == 0:
                        # (the task waits, and another task goes on meanwhile)
                        seen = len(turns)
                        wait_until(lambda: len(turns) > seen + 1 and consumer._sleepers)
                    producer.write(1, b"%d" % number, None)
                # (what frees a producer wakes the tasks that are in the list by then)
                wait_until(lambda: consumer._sleepers)

        async def count():
            while True:
                turns.append(None)
                await asyncio.sleep(0.001)

        async def collect():
            other = asyncio.ensure_future(count())
            async for message in consumer:
                read.append(int(message.body))
            other.cancel()
            with self.assertRaises(felter.Disconnected):
                await consumer.read_async()

        with only_woken():
            began = time.monotonic()
            run(write, lambda: asyncio.run(collect()))
        self.assertLess(time.monotonic() - began, DEADLINE, "no wake reached the task")
        self.assertEqual(read, list(range(500)))
        self.assertEqual(consumer._sleepers, [])

    def test_tasks_of_two_loops_are_woken(self):
        producer, consumer = felter.many_to_one(256)
        read = []

        def write():
            with producer:
                for number in range(1, 301):
                    producer.write(number, b"", None)
                wait_until(lambda: len(consumer._sleepers) == 2)

        async def collect():
            async for message in consumer:
                read.append(message.type_id)

        with only_woken():
            began = time.monotonic()
            run(write, lambda: asyncio.run(collect()), lambda: asyncio.run(collect()))
        self.assertLess(time.monotonic() - began, DEADLINE, "no wake reached a task")
        self.assertEqual(sorted(read), list(range(1, 301)))
        self.assertEqual(consumer._sleepers, [])

    def test_a_task_that_is_cancelled_ends_even_if_it_was_just_woken(self):
        async def cancelled_after(turns):
            producer, consumer = felter.many_to_one(256)
            task = asyncio.ensure_future(consumer.read_async())
            while not consumer._sleepers:
                await asyncio.sleep(0)
            # (this wakes the task, which then finds no message)
            producer.claim(1, 1).abort()
            for _ in range(turns):
                await asyncio.sleep(0)
            task.cancel()
            await asyncio.wait({task}, timeout=SOON)
            is_cancelled = task.cancelled()
            producer.free()
            await asyncio.wait({task})
            self.assertTrue(is_cancelled, "cancelled after %d turns" % turns)
            self.assertEqual(consumer._sleepers, [])

        for turns in range(12):
            asyncio.run(cancelled_after(turns))

    def test_other_tasks_have_turns_if_there_is_always_a_message(self):
        producer, consumer = felter.many_to_one(1024)
        transmitter = felter.Transmitter(1024)

        async def follow(its, write):
            turns = []
            write(1, b"")
            asyncio.get_running_loop().call_soon(turns.append, 1)
            count = 0
            async for _ in its:
                count += 1
                if turns or count == 10000:
                    break
                write(1, b"")
            return count

        self.assertLess(asyncio.run(follow(consumer, producer.write)), 10000)
        self.assertLess(asyncio.run(follow(transmitter.subscribe(), transmitter.transmit)), 10000)

    def test_loops_may_end_while_their_tasks_wait(self):
        producer, consumer = felter.many_to_one(256)
        kept = []

        async def forget():
            kept.append(asyncio.ensure_future(consumer.read_async()))
            while not consumer._sleepers:
                await asyncio.sleep(0)

        loop = asyncio.new_event_loop()
        loop.set_exception_handler(lambda *_: None)
        loop.run_until_complete(forget())
        producer.write(1, b"one")
        loop.close()
        producer.write(2, b"two")
        kept.clear()
        gc.collect()
        self.assertEqual(consumer._sleepers, [])
        self.assertEqual([asyncio.run(consumer.read_async()).body for _ in range(2)], [b"one", b"two"])

    def test_deadlines_of_tasks_come(self):
        producer, consumer = felter.many_to_one(256)
        transmitter = felter.Transmitter(256)
        receiver = transmitter.subscribe()

        async def waits():
            began = time.monotonic()
            self.assertIsNone(await consumer.read_async(0.03))
            self.assertIsNone(await receiver.receive_async(0))
            self.assertGreaterEqual(time.monotonic() - began, 0.03)
            with self.assertRaises(ValueError):
                await consumer.read_async(float("nan"))
            asyncio.get_running_loop().call_later(0.02, transmitter.transmit, 3, b"woken")
            self.assertEqual(await receiver.receive_async(DEADLINE), Message(3, b"woken"))
            # (a task that is cancelled takes nothing)
            task = asyncio.ensure_future(consumer.read_async())
            await asyncio.sleep(0.01)
            task.cancel()
            await asyncio.sleep(0.01)
            producer.write(1, b"kept")
            self.assertEqual(await consumer.read_async(), Message(1, b"kept"))

        asyncio.run(waits())
        self.assertEqual(consumer._sleepers + receiver._sleepers, [])

    def test_asyncio_waits_for_messages(self):
        producer, consumer = felter.many_to_one(1024)
        bell, read = felter.Doorbell(), []
        self.addCleanup(bell.close)

        def write():
            for number in range(50):
                producer.write(1, b"%d" % number, DEADLINE)
                bell.ring()

        async def collect():
            done = asyncio.get_running_loop().create_future()

            def take():
                bell.clear()
                read.extend(int(message.body) for message in consumer)
                if len(read) == 50 and not done.done():
                    done.set_result(None)

            asyncio.get_running_loop().add_reader(bell.fileno(), take)
            await asyncio.wait_for(done, DEADLINE)
            asyncio.get_running_loop().remove_reader(bell.fileno())

        thread = threading.Thread(target=write)
        thread.start()
        asyncio.run(collect())
        thread.join()
        self.assertEqual(read, list(range(50)))


if __name__ == "__main__":
    unittest.main()
