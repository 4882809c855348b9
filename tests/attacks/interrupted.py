"""The program that tests/attacks/interrupts.py interrupts: interrupted.py SECONDS. It needs the package on PYTHONPATH.

It writes, claims and reads numbered messages while Ctrl-C comes at any place. Each Ctrl-C has to arrive as
KeyboardInterrupt. Afterwards the ring is not blocked, numbers have risen, and no more are missing than calls were
interrupted."""
import signal
import struct
import sys
import time

import felter


class Armed:
    """Whether Ctrl-C raises: only while a call is made, so that this program keeps its books."""

    is_on = False

    def __enter__(self):
        Armed.is_on = True

    def __exit__(self, *_):
        Armed.is_on = False


def on_interrupt(_number, _frame):
    if Armed.is_on:
        Armed.is_on = False
        raise KeyboardInterrupt


class Books:
    """What was tried, and what came."""

    def __init__(self):
        self.number = self.calls = self.interrupts = self.missing = self.next = 0

    def guarded(self, call):
        """What a call gives, or None if it was interrupted."""
        self.calls += 1
        try:
            with Armed():
                return call()
        except KeyboardInterrupt:
            self.interrupts += 1
        return None

    def came(self, message):
        number = struct.unpack("<Q", message.body[:8])[0]
        if number < self.next:
            sys.exit(f"{number} came after {self.next - 1}")
        self.missing += number - self.next
        self.next = number + 1


def write(producer, books):
    try:
        producer.write(1, struct.pack("<Q", books.number))
    except felter.Error as refused:
        if refused.number != felter.Number.INSUFFICIENT_CAPACITY:
            raise
        return False
    return True


def claim(producer, books):
    try:
        with producer.claim(1, 8) as claimed:
            claimed.put(0, struct.pack("<Q", books.number))
    except felter.Error as refused:
        if refused.number != felter.Number.INSUFFICIENT_CAPACITY:
            raise
        return False
    return True


def drain(consumer, books):
    """Reads what is there, each message by one call."""
    while True:
        before = books.interrupts
        message = books.guarded(consumer.read)
        if message is not None:
            books.came(message)
        elif books.interrupts == before:
            return


def main():
    signal.signal(signal.SIGINT, on_interrupt)
    print("ready", flush=True)
    books, end = Books(), time.monotonic() + float(sys.argv[1])
    producer, consumer = felter.many_to_one(1024)
    while time.monotonic() < end:
        for turn in range(20):
            by = claim if turn % 3 == 0 else write
            before = books.interrupts
            if books.guarded(lambda by=by: by(producer, books)) or books.interrupts > before:
                books.number += 1  # (an interrupted call may have written its number)
        drain(consumer, books)
    signal.signal(signal.SIGINT, signal.SIG_IGN)
    drain(consumer, books)
    if not write(producer, books):
        sys.exit("the ring is blocked: a message has no room, and none can be read")
    books.number += 1
    drain(consumer, books)
    if books.next != books.number:
        sys.exit(f"the ring is blocked: the last message is {books.next - 1} and not {books.number - 1}")
    if books.missing > books.interrupts:
        sys.exit(f"{books.missing} numbers are missing after {books.interrupts} interrupts")
    print(f"{books.calls} calls, of which {books.interrupts} were interrupted")


main()
