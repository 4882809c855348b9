"""Tests of reads that their caller controls."""

import unittest

import felter
from felter import Action, Message, Number


class Controlled(unittest.TestCase):
    def setUp(self):
        self.producer, self.consumer = felter.one_to_one(4096)
        self.addCleanup(self.producer.free)
        self.addCleanup(self.consumer.free)

    def write(self, *bodies):
        for type_id, body in enumerate(bodies, 1):
            self.producer.write(type_id, body)

    def test_a_message_stays_until_it_is_taken(self):
        self.assertIsNone(self.consumer.peek())
        self.assertFalse(self.consumer.take())
        self.write(b"a" * 500, b"b")
        for _ in range(3):
            self.assertEqual(self.consumer.peek(), Message(1, b"a" * 500))
        head = self.producer.positions().head
        self.assertTrue(self.consumer.take())
        self.assertEqual(self.producer.positions().head, head + 512)
        self.assertEqual(self.consumer.read(), Message(2, b"b"))
        self.assertFalse(self.consumer.take())

    def test_each_action(self):
        for action, seen, taken in [
            (Action.ABORT, [1], 0),
            (Action.BREAK, [1], 1),
            (Action.COMMIT, [1, 2, 3], 3),
            (Action.CONTINUE, [1, 2, 3], 3),
        ]:
            self.write(b"x", b"y", b"z")
            shown = []
            count = self.consumer.controlled_read(lambda message: shown.append(message.type_id) or action)
            self.assertEqual((shown, count), (seen, taken))
            self.assertEqual([message.type_id for message in self.consumer], [1, 2, 3][taken:])

    def test_a_limit_and_an_exception(self):
        self.write(b"x", b"y", b"z")
        self.assertEqual(self.consumer.controlled_read(lambda message: Action.CONTINUE, 1), 1)
        self.assertEqual(self.consumer.controlled_read(lambda message: Action.CONTINUE, 0), 0)
        with self.assertRaises(ZeroDivisionError):
            self.consumer.controlled_read(lambda message: 1 // 0)
        self.assertEqual(self.consumer.read(), Message(2, b"y"))

    def test_an_open_claim_holds_it_up(self):
        claim = self.producer.claim(7, 3)
        self.write(b"after")
        self.assertIsNone(self.consumer.peek())
        claim.abort()
        self.assertEqual(self.consumer.peek(), Message(1, b"after"))

    def test_a_freed_consumer(self):
        self.consumer.free()
        for call in (self.consumer.peek, self.consumer.take):
            with self.assertRaises(felter.Error) as caught:
                call()
            self.assertEqual(caught.exception.number, Number.NO_HANDLE)


if __name__ == "__main__":
    unittest.main()
