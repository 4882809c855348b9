"""Tests of felter's conductors: python3 python/test_conductor.py"""

import pickle
import threading
import time
import unittest

import felter
from felter import Message, Number, Reply, ReplyKind, Work, WorkStop
from test_felter import Case, run

CLIENTS, BATCH, LAST = 3, 8, 160


def send(call, *parameters):
    """Sends a command, again where the ring is full or another client was faster."""
    while True:
        try:
            return call(*parameters)
        except felter.Error as refused:
            if not refused.is_passing:
                raise
        time.sleep(0)


def hear(client, correlation):
    """Waits for the reply to a command."""
    while True:
        reply = client.poll(correlation)
        if reply is not None:
            return reply
        time.sleep(0)


class Conductors(Case):
    def count_up(self, client, owner):
        """Allocates a counter, sets it to 1, 2 and so on, and frees it."""
        kind, counter = hear(client, send(client.allocate, 7, b"key", b"mine", owner))
        self.assertEqual(kind, ReplyKind.ALLOCATED)
        beat = 0
        for first in range(1, LAST + 1, BATCH):
            for correlation in [send(client.set, counter, value) for value in range(first, first + BATCH)]:
                self.assertEqual(hear(client, correlation), Reply(ReplyKind.DONE, 0))
            now = client.heartbeat()
            self.assertGreaterEqual(now, max(beat, 1))
            beat = now
        if owner % 2 == 0:
            self.assertEqual(hear(client, send(client.release, counter)), (ReplyKind.DONE, 0))
        self.assertEqual(hear(client, send(client.close_owner, owner)), (ReplyKind.CLOSED, owner % 2))
        refused = hear(client, send(client.set, counter, -1))
        self.assertEqual(refused, (ReplyKind.REFUSED, Number.NOT_ALLOCATED))

    def test_clients_on_threads_are_answered_and_a_monitor_sees_values_rise(self):
        conductor = felter.Conductor(512, 65536, CLIENTS, 2**32 - 1)
        clients = [conductor.client() for _ in range(CLIENTS)]
        reader, receiver, ended, seen = conductor.reader(), conductor.subscribe(), [], []

        def count_up(client, owner):
            try:
                self.count_up(client, owner)
            finally:
                ended.append(owner)

        def conduct():
            beat = 0
            while True:
                is_last, beat = len(ended) == CLIENTS, beat + 1
                conductor.set_heartbeat(beat)
                if conductor.work(0, 16).stopped != WorkStop.UNPUBLISHED:
                    continue
                if is_last:
                    return
                time.sleep(0)

        def watch():
            while len(ended) < CLIENTS:
                seen.append([reader.value(counter) for counter in range(CLIENTS)])
                time.sleep(0)

        run(conduct, watch, *(lambda it=it, owner=owner: count_up(it, owner) for owner, it in enumerate(clients, 1)))
        seen.append([reader.value(counter) for counter in range(CLIENTS)])
        self.assertEqual(seen[-1], [LAST] * CLIENTS)
        for values in zip(*seen):
            self.assertEqual(list(values), sorted(values))
        received = CLIENTS * (LAST + 3) + CLIENTS // 2
        kinds = [message.type_id for message in receiver]
        self.assertEqual((len(kinds), kinds.count(ReplyKind.ALLOCATED)), (received, CLIENTS))
        clients[0].close_owner(1)
        for client in clients:
            conductor.join(client)
        conductor.join_receiver(receiver)
        conductor.join_reader(reader)
        self.assertEqual(conductor.finish(), (received, 1))
        self.refuses(Number.NO_HANDLE, conductor.finish)

    def test_commands_are_obeyed_or_refused(self):
        conductor = felter.Conductor(8192, 4096, 2, 10)
        client = conductor.client()

        def ask(now, call, *parameters):
            correlation = call(*parameters)
            self.assertIsNone(client.poll(correlation))
            self.assertEqual(conductor.work(now), Work(1, WorkStop.UNPUBLISHED))
            return client.poll(correlation)

        def refused(number):
            return Reply(ReplyKind.REFUSED, number)

        self.assertEqual(ask(0, client.allocate, 1, bytes(113)), refused(Number.KEY_TOO_LONG))
        self.assertEqual(ask(0, client.allocate, 1, b"", b"x" * 381), refused(Number.LABEL_TOO_LONG))
        self.assertEqual(ask(0, client.allocate, 1, b"", b"\x80", 5), refused(Number.LABEL_NOT_ASCII))
        self.assertEqual(ask(0, client.allocate, 1, bytes(112), b"x" * 380, 5), Reply(ReplyKind.ALLOCATED, 0))
        self.assertEqual(ask(0, client.allocate, -1, b"k\0", b"l"), Reply(ReplyKind.ALLOCATED, 1))
        self.assertEqual(ask(0, client.allocate, 1), refused(Number.NO_FREE_COUNTER))
        self.assertEqual(ask(0, client.set, 1, -2**63), Reply(ReplyKind.DONE, 0))
        self.assertEqual(conductor.reader().value(1), -2**63)
        self.assertEqual(ask(0, client.set, 2, 1), refused(Number.BAD_ID))
        self.assertEqual(ask(5, client.release, 1), Reply(ReplyKind.DONE, 0))
        self.assertEqual(ask(5, client.release, 1), refused(Number.NOT_ALLOCATED))
        self.assertEqual(ask(14, client.allocate, 1), refused(Number.NO_FREE_COUNTER))
        self.assertEqual(ask(15, client.allocate, 1), Reply(ReplyKind.ALLOCATED, 1))
        self.assertEqual(ask(15, client.close_owner, 0), refused(Number.BAD_OWNER))
        self.assertEqual(ask(15, client.close_owner, 5), Reply(ReplyKind.CLOSED, 1))
        # The longest command has 520 bytes; only one with an owner takes 28 besides its texts.
        self.refuses(Number.TOO_LONG, client.allocate, 1, bytes(112), b"x" * 389)
        self.refuses(Number.TOO_LONG, client.allocate, 1, bytes(112), b"x" * 381, 5)
        self.assertEqual(client.allocate(1, bytes(112), b"x" * 388), 14)

    def test_refusals_have_their_numbers(self):
        self.refuses(Number.BAD_CAPACITY, felter.Conductor, 100, 256, 1)
        self.refuses(Number.BAD_CAPACITY, felter.Conductor, 128, 128, 1)
        self.refuses(Number.BAD_COUNT, felter.Conductor, 128, 256, 4097)
        with self.assertRaises(OverflowError):
            felter.Conductor(128, 2**32 + 256, 1)
        conductor = felter.Conductor(128, 256, 1)
        client, late = conductor.client(), conductor.client()
        self.refuses(Number.TOO_LONG, client.set, 0, 1)
        self.assertEqual([client.release(0) for _ in range(5)], [1, 2, 3, 4, 5])
        self.assertTrue(self.refuses(Number.INSUFFICIENT_CAPACITY, client.release, 0).is_passing)
        self.refuses(Number.BAD_MOMENT, conductor.work, 2**62 + 1)
        self.assertEqual(conductor.work(2**62, 0), (0, WorkStop.LIMIT))
        self.assertEqual(conductor.work(2**62, 2), (2, WorkStop.LIMIT))
        self.assertEqual(conductor.work(2**62), (3, WorkStop.UNPUBLISHED))
        # Replies to other commands are passed over.
        self.assertEqual(client.poll(3), (ReplyKind.REFUSED, Number.NOT_ALLOCATED))
        self.assertIsNone(client.poll(2))
        self.assertEqual(client.release(0), 7)
        self.assertEqual(conductor.work(0), (0, WorkStop.BLOCK))
        for _ in range(12):
            conductor.work(0)
            conductor.work(0)
            last = client.release(0)
        conductor.work(0)
        conductor.work(0)
        lapped = self.refuses(Number.LAPPED, late.poll, last)
        self.assertEqual((lapped.count, str(lapped)), (1, "13 LAPPED: the transmitter overtook the receiver"))
        self.assertEqual(late.poll(last), (ReplyKind.REFUSED, Number.NOT_ALLOCATED))
        self.assertEqual(client.heartbeat(), 0)
        conductor.set_heartbeat(2**64 - 1)
        self.assertEqual(client.heartbeat(), 2**64 - 1)

    def test_a_finish_is_refused_until_all_came_back(self):
        conductor = felter.Conductor(256, 256, 1)
        client, receiver, reader = conductor.client(), conductor.subscribe(), conductor.reader()
        self.assertIn("11 PRODUCERS_OUT: ", str(self.refuses(Number.PRODUCERS_OUT, conductor.finish)))
        client.close_owner(5)
        client.close_owner(5)
        self.assertEqual(conductor.work(0, 1), (1, WorkStop.LIMIT))
        self.assertEqual(receiver.receive(), Message(ReplyKind.CLOSED, bytes(12)))
        conductor.join(client)
        self.refuses(Number.NO_HANDLE, client.heartbeat)
        self.refuses(Number.RECEIVERS_OUT, conductor.finish)
        conductor.join_receiver(receiver)
        self.refuses(Number.IN_USE, conductor.finish)
        with reader:
            self.assertEqual(reader.value(0), 0)
        self.assertEqual(conductor.finish(), (1, 1))
        self.refuses(Number.NO_HANDLE, conductor.finish)
        # Clients and receivers that were freed are not missed.
        conductor = felter.Conductor(256, 256, 1)
        client = conductor.client()
        client.close_owner(5)
        client.free()
        conductor.subscribe().free()
        self.assertEqual(conductor.finish(), (0, 1))

    def test_conductors_are_not_mixed(self):
        one, two = felter.Conductor(256, 256, 1), felter.Conductor(256, 256, 1)
        client, receiver, reader = two.client(), two.subscribe(), two.reader()
        self.refuses(Number.OTHER_RING, one.join, client)
        self.refuses(Number.OTHER_RING, one.join_receiver, receiver)
        self.refuses(Number.OTHER_RING, one.join_reader, reader)
        self.refuses(Number.OTHER_RING, one.join, one)
        self.refuses(Number.OTHER_RING, one.join_receiver, felter.Transmitter(256).subscribe())
        self.refuses(Number.OTHER_RING, one.join_reader, felter.Counters(1).reader())
        # What is of one conductor, and of another kind, is the library's to refuse.
        self.refuses(Number.WRONG_HANDLE, two.join, reader)
        self.refuses(Number.WRONG_HANDLE, two.join_receiver, client)
        two.join(client)
        two.join_receiver(receiver)
        two.join_reader(reader)
        self.assertEqual((one.finish(), two.finish()), ((0, 0), (0, 0)))


class Requests(Case):
    """Commands with their replies: what is known of one when its request ends."""

    def test_each_command_gets_its_reply(self):
        conductor = felter.Conductor(1024, 4096, 4)
        client, stop, replies = conductor.client(), [], []

        def work():
            while not stop:
                conductor.work(0)

        def ask():
            try:
                replies.append(client.request(client.allocate, 1, b"", b"owned", 9, timeout=20))
                replies.append(client.request(client.set, 0, 5, timeout=20))
                replies.append(client.request(client.set, 9, 1, timeout=20))
                replies.append(client.request(client.close_owner, 9))
            finally:
                stop.append(True)

        run(work, ask)
        kind = felter.ReplyKind
        self.assertEqual(replies, [(kind.ALLOCATED, 0), (kind.DONE, 0), (kind.REFUSED, Number.BAD_ID), (kind.CLOSED, 1)])

    def test_a_command_that_has_no_room_is_not_sent(self):
        conductor = felter.Conductor(256, 256, 4)
        client = conductor.client()
        with self.assertRaises(felter.Full):
            while True:
                client.set(0, 1)
        with self.assertRaises(felter.Full):
            client.request(client.set, 0, 1, timeout=0.01)
        with self.assertRaises(felter.Error):
            client.request(client.allocate, 1, b"", bytes(600))
        with self.assertRaises(ValueError):
            client.request(client.set, 0, 1, timeout=float("nan"))

    def unanswered(self, outcome, client, timeout):
        with self.assertRaises(felter.Unanswered) as caught:
            client.request(client.set, 0, 5, timeout=timeout)
        self.assertEqual(caught.exception.outcome, outcome)
        back = pickle.loads(pickle.dumps(caught.exception))
        self.assertEqual((back.outcome, back.correlation), (outcome, caught.exception.correlation))
        return caught.exception.correlation

    def test_a_deadline_leaves_a_command_pending(self):
        conductor = felter.Conductor(1024, 4096, 4)
        client = conductor.client()
        correlation = self.unanswered(felter.Outcome.PENDING, client, 0.01)
        conductor.work(0)
        self.assertEqual(client.poll(correlation).kind, felter.ReplyKind.REFUSED)
        with self.assertRaises(felter.Disconnected):
            timer = threading.Timer(0.02, conductor.free)
            timer.start()
            client.request(client.set, 0, 5)
        timer.join()

    def lapped(self):
        """A conductor, and a client of it that was lapped."""
        conductor = felter.Conductor(4096, 256, 4)
        client, other = conductor.client(), conductor.client()
        for _ in range(40):
            other.set(0, 1)
            conductor.work(0)
        return conductor, client

    def test_a_lapped_client_learns_that_its_command_was_taken(self):
        conductor, client = self.lapped()
        release, is_asked = client.release, threading.Event()

        def ask(counter):
            sent = release(counter)
            is_asked.set()
            return sent

        def work():
            is_asked.wait(60)
            conductor.work(0)

        # It looks for its reply a few times, and then asks by another command.
        client.release = ask
        run(work, lambda: self.unanswered(felter.Outcome.TAKEN, client, 60))

    def test_a_lapped_client_that_gets_no_reply_says_so(self):
        conductor, client = self.lapped()
        self.unanswered(felter.Outcome.UNKNOWN, client, 0.05)


if __name__ == "__main__":
    unittest.main()
