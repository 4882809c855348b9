"""Tests of broadcast buffers: python3 python/test_boards.py"""

import time
import unittest

import felter
from felter import Message, Number
from test_felter import Case, run


class Boards(Case):
    def test_receivers_get_all_or_learn_what_they_missed(self):
        transmitter = felter.Transmitter(256, 512)
        receiver = transmitter.subscribe()
        self.assertIsNone(receiver.receive())
        transmitter.transmit(3, b"one")
        transmitter.transmit(4, b"\0" * 32)
        self.assertEqual(list(receiver), [Message(3, b"one"), Message(4, b"\0" * 32)])
        for number in range(7):
            transmitter.transmit(10 + number, bytes([number] * 26))
        lapped = self.refuses(Number.LAPPED, receiver.receive)
        self.assertEqual((lapped.count, receiver.lapped_count()), (1, 1))
        self.assertEqual(str(lapped), "13 LAPPED: the transmitter overtook the receiver")
        with transmitter:
            self.assertEqual(list(receiver), [Message(16, bytes([6] * 26))])
            self.refuses(Number.TOO_LONG, transmitter.transmit, 1, bytes(33))
        self.refuses(Number.NO_HANDLE, transmitter.transmit, 1, b"")
        self.assertEqual(list(receiver), [])
        self.refuses(Number.BAD_CAPACITY, felter.Transmitter, 128)

    def test_a_thread_transmits_and_two_receive(self):
        count, read = 2000, {}
        transmitter = felter.Transmitter(1024)

        def collect(sender, receiver):
            read[sender] = []
            while not read[sender] or read[sender][-1] != count:
                try:
                    read[sender] += [message.type_id for message in receiver if message.body == b"%d" % message.type_id]
                except felter.Lapped:
                    pass
                time.sleep(0)

        def transmit():
            for number in range(1, count + 1):
                transmitter.transmit(number, b"%d" % number)

        first, second = transmitter.subscribe(), transmitter.subscribe()
        run(lambda: collect(1, first), lambda: collect(2, second), transmit)
        for numbers in read.values():
            self.assertEqual(numbers, sorted(set(numbers)))


if __name__ == "__main__":
    unittest.main()
