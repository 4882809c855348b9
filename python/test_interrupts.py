"""Tests of interrupts, of signal handlers and of forks: python3 python/test_interrupts.py"""

import os
import signal
import sys
import threading
import unittest

import felter
from felter import Message, _library
from test_felter import Case

# Whether the calls go through the extension in C, and not through ctypes.
IS_FAST = _library.fast is not None

# Before Python 3.10 an interrupt can come between the end of a `with` and its __exit__, which leaves a lock held.
LEAVES_LOCKS = not IS_FAST and sys.version_info < (3, 10)


class Interrupts(Case):
    """Ctrl-C at any place: it stays KeyboardInterrupt, and no claim stays open."""

    def interrupt(self, work, times):
        """Runs work again and again under a timer that interrupts it, until it was interrupted `times` times. Each
        interrupt must come out of the work."""

        def interrupt(*_):
            raise KeyboardInterrupt

        # (an interrupt at a place that cannot raise it is swallowed, and reported to this hook)
        self.swallowed = []
        hook, sys.unraisablehook = sys.unraisablehook, lambda it: self.swallowed.append(str(it.object))
        before = signal.signal(signal.SIGALRM, interrupt)
        count = 0
        try:
            # (work that ends before its timer is not interrupted, which is rare)
            for _ in range(10 * times):
                if count == times:
                    break
                try:
                    signal.setitimer(signal.ITIMER_REAL, 0.0002)
                    # (an end, since an interrupt during a finalizer is only reported)
                    for _ in range(1000):
                        work()
                    # (what comes before this is raised here, and nothing comes after it)
                    signal.setitimer(signal.ITIMER_REAL, 0)
                except KeyboardInterrupt:
                    count += 1
        finally:
            signal.setitimer(signal.ITIMER_REAL, 0)
            signal.signal(signal.SIGALRM, before)
            sys.unraisablehook = hook
        self.assertEqual((count, self.swallowed), (times, []))

    @unittest.skipIf(LEAVES_LOCKS, "this Python leaves locks held")
    def test_interrupts_stay_what_they_are(self):
        producer, consumer = felter.many_to_one(256)

        def work():
            while consumer.read():
                pass
            producer.write(1, b"body")

        self.interrupt(work, 300)
        while consumer.read():
            pass
        producer.write(2, b"after")
        self.assertEqual(list(consumer), [Message(2, b"after")])

    @unittest.skipIf(LEAVES_LOCKS, "this Python leaves locks held")
    def test_no_claim_stays_open(self):
        producer, consumer = felter.many_to_one(1024)

        def work():
            with producer.claim(1, 8) as claim:
                claim.put(0, b"whole....")
            while consumer.read():
                pass

        with self.assertRaises(felter.Error):
            work()

        def whole():
            with producer.claim(1, 5) as claim:
                claim.put(0, b"whole")
            while consumer.read():
                pass

        self.interrupt(whole, 600)
        producer.write(9, b"after")
        self.assertEqual(list(consumer)[-1], Message(9, b"after"))
        consumer.close(producer)
        self.assertEqual(consumer.finish(), 0)

    @unittest.skipIf(LEAVES_LOCKS, "this Python leaves locks held")
    def test_no_interrupt_is_swallowed_when_things_are_dropped(self):
        def work():
            producer, consumer = felter.many_to_one(256)
            other = producer.split()
            dropped = [producer.claim(1, 8), other.claim(1, 8)]
            del other, dropped, producer, consumer
            transmitter = felter.Transmitter(256)
            receiver = transmitter.subscribe()
            del transmitter, receiver

        self.interrupt(work, 600)

    @unittest.skipIf(IS_FAST, "the extension has no locks")
    @unittest.skipIf(LEAVES_LOCKS, "this Python leaves locks held")
    def test_no_lock_stays_held(self):
        producer, consumer = felter.many_to_one(256)

        def work():
            # (what a claim that is dropped calls)
            producer._quietly("felter_abort", 7)

        self.interrupt(work, 300)
        producer.write(1, b"after")
        self.assertEqual(list(consumer), [Message(1, b"after")])

    def test_claims_of_a_producer_that_was_taken_in_are_known_after_an_interrupt(self):
        producer, consumer = felter.many_to_one(256)
        other, do = producer.split(), producer._do
        kept, dropped = other.claim(1, 1), other.claim(2, 1)

        def interrupted(*given):
            do(*given)
            raise KeyboardInterrupt

        producer._do = interrupted
        with self.assertRaises(KeyboardInterrupt):
            producer.join(other)
        del producer._do, dropped
        kept.commit()
        producer.write(3, b"after")
        self.assertEqual(list(consumer), [Message(1, b"\0"), Message(3, b"after")])

    def test_a_handler_that_uses_the_interrupted_handle_is_refused(self):
        # (no call of the extension is interrupted, so there is nothing to refuse)
        producer, consumer = felter.many_to_one(256)
        said, written = [], []

        def use(*_):
            try:
                producer.write(1, b"")
                written.append(1)
            except RuntimeError as why:
                said.append(str(why))
            except felter.Full:
                pass

        before = signal.signal(signal.SIGALRM, use)
        try:
            signal.setitimer(signal.ITIMER_REAL, 0.0003, 0.0003)
            end = os.times().elapsed + 60
            while not said and not (IS_FAST and len(written) > 9) and os.times().elapsed < end:
                producer.positions()
        finally:
            signal.setitimer(signal.ITIMER_REAL, 0)
            signal.signal(signal.SIGALRM, before)
        if not IS_FAST:
            self.assertIn("interrupted", said[0])
        self.assertEqual(len(list(consumer)), len(written))

    def test_a_forked_child_is_refused(self):
        producer, consumer = felter.many_to_one(256)
        held = threading.Event()
        done = threading.Event()

        def hold():
            # (by ctypes the other thread is in the middle of a call, as far as the child can see)
            with getattr(producer, "_lock", threading.Lock()):
                held.set()
                done.wait()

        thread = threading.Thread(target=hold)
        thread.start()
        held.wait()
        child = os.fork()
        if child == 0:
            try:
                producer.write(1, b"")
            except RuntimeError:
                os._exit(7)
            os._exit(1)
        done.set()
        thread.join()
        self.assertEqual(os.WEXITSTATUS(os.waitpid(child, 0)[1]), 7)
        producer.write(1, b"ours")
        self.assertEqual(list(consumer), [Message(1, b"ours")])


if __name__ == "__main__":
    unittest.main()
