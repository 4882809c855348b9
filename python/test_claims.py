"""Tests of claims that are dropped, or whose producers are joined or freed: python3 python/test_claims.py"""

import gc
import unittest

import felter
from felter import Message, Number, _library
from test_felter import Case


class Claims(Case):
    def test_a_dropped_claim_is_aborted(self):
        producer, consumer = felter.many_to_one(256)
        producer.claim(1, 4)
        producer.write(2, b"behind it")
        self.assertEqual(list(consumer), [Message(2, b"behind it")])
        kept, other = producer.claim(3, 1), producer.split()
        theirs = other.claim(4, 1)
        producer.join(other)
        del theirs
        kept.commit()
        producer.write(5, b"")
        self.assertEqual(list(consumer), [Message(3, b"\0"), Message(5, b"")])
        producer.write(6, b"")
        waiting = producer.claim(7, 1)
        producer.write(8, b"")
        self.assertEqual(consumer.read(), Message(6, b""))
        self.assertIsNone(consumer.read())
        del waiting
        # (no call of a producer comes in between)
        self.assertEqual(consumer.read(), Message(8, b""))
        consumer.close(producer)
        self.assertEqual(consumer.finish(), 0)

    def test_a_settled_claim_holds_its_producer_no_longer(self):
        for settle in "commit", "abort":
            producer, consumer = felter.many_to_one(256)
            claim = producer.claim(1, 4)
            getattr(claim, settle)()
            self.assertFalse(consumer.is_abandoned())
            del producer
            self.assertTrue(consumer.is_abandoned())
            for call in claim.commit, claim.abort, lambda: claim.put(0, b"x"):
                self.refuses(Number.NO_CLAIM, call)
        producer, consumer = felter.many_to_one(256)
        with producer.claim(1, 4) as claim:
            del producer
            self.assertFalse(consumer.is_abandoned())
        self.assertTrue(consumer.is_abandoned())
        self.assertEqual(list(consumer), [Message(1, bytes(4))])

    def test_claims_follow_their_producers_through_many_joins(self):
        producer, consumer = felter.many_to_one(1 << 16)
        others = [producer.split() for _ in range(50)]
        claims = [it.claim(1 + number, 1) for number, it in enumerate(others)]
        # (each is taken in by the next one)
        for one, two in zip(others, others[1:]):
            two.join(one)
        producer.join(others[-1])
        del others
        for claim in claims[::2]:
            claim.commit()
        del claims, claim
        self.assertEqual([it.type_id for it in consumer], list(range(1, 51, 2)))
        consumer.close(producer)

    def test_claims_stay_with_the_producer_that_took_them_in(self):
        # (another thread takes the producer in between, so this join is refused)
        producer, consumer = felter.many_to_one(256)
        late, other = producer.split(), producer.split()
        claim, join = other.claim(1, 1), late._with

        def join_late(*given):
            producer.join(other)
            join(*given)

        late._with = join_late
        self.refuses(Number.NO_HANDLE, late.join, other)
        late.free()
        claim.commit()
        self.assertEqual(consumer.read(), Message(1, b"\0"))

    @unittest.skipIf(_library.fast is None, "by ctypes the ring keeps the producer of an open claim")
    def test_claims_of_ends_that_refer_to_themselves_are_aborted(self):
        producer, consumer = felter.many_to_one(256)
        first, other = producer, producer.split()
        other.claimed = other.claim(1, 1)
        first.write(2, b"next")
        # (the claim belongs to the first producer from now on)
        first.join(other)
        first.claimed = first.claim(3, 1)
        first.write(4, b"last")
        del other
        gc.collect()
        self.assertEqual(consumer.read(), Message(2, b"next"))
        del producer, first
        gc.collect()
        self.assertEqual(list(consumer), [Message(4, b"last")])
        self.assertTrue(consumer.is_abandoned())

    def test_a_dropped_claim_of_a_producer_that_was_freed_is_no_matter(self):
        producer, consumer = felter.many_to_one(256)
        claim = producer.claim(1, 4)
        producer.free()
        self.refuses(Number.NO_HANDLE, claim.commit)
        del claim
        self.assertEqual(list(consumer), [])

    @unittest.skipIf(_library.fast is not None, "the extension joins a producer in one step")
    def test_claims_are_known_while_another_thread_joins_their_producer(self):
        producer, consumer = felter.many_to_one(256)

        def joined_before(name):
            """A claim, whose producer another thread joins right before it makes this call for the claim."""
            other = producer.split()
            claim, call = other.claim(1, 1), getattr(other, name)

            def late(*given):
                delattr(other, name)
                _library.Handle._do(producer, "felter_join", other)
                return call(*given)

            setattr(other, name, late)
            return claim

        claim = joined_before("_do")
        claim.put(0, b"a")
        claim.commit()
        self.assertEqual(consumer.read(), Message(1, b"a"))
        claim = joined_before("_quietly")
        producer.write(2, b"next")
        del claim
        self.assertEqual([consumer.read() for _ in range(2)], [None, Message(2, b"next")])
        # (another thread reads right after the call that joins, and before the join has returned)
        other, do = producer.split(), producer._do
        claims = [other.claim(3, 1)]

        def do_and_read(*given):
            do(*given)
            claims.clear()
            self.assertIsNone(consumer.read())

        producer._do = do_and_read
        producer.join(other)
        del producer._do
        producer.write(4, b"last")
        self.assertEqual(consumer.read(), Message(4, b"last"))

    @unittest.skipIf(_library.fast is not None, "the extension settles a claim in one step")
    def test_a_claim_may_be_settled_while_another_thread_looks_for_its_producer(self):
        producer, consumer = felter.many_to_one(256)
        other = producer.split()
        claim = other.claim(1, 1)
        producer.join(other)
        trace = claim._trace

        class Settles:
            def settle(self):
                trace.producer = None
                return producer

            _joined = property(settle, lambda self, joined: None)

        trace.producer = Settles()
        self.assertIs(trace.owner(), producer)


if __name__ == "__main__":
    unittest.main()
