"""Tests of counters and of shared counters: python3 python/test_counters.py"""

import unittest

import felter
from felter import Number
from test_felter import Case, run


class AdderCase(Case):
    def test_totals_of_threads_are_exact(self):
        adder = felter.Adder()
        amounts = [3, -1, 2**40]
        others = [adder.split() for _ in amounts]

        def add(other, amount):
            for _ in range(2000):
                other.add(amount)

        run(*(lambda it=it: add(*it) for it in zip(others, amounts)))
        for other in others:
            adder.join(other)
            self.refuses(Number.NO_HANDLE, other.value)
        self.assertEqual((adder.value(), adder.shares()), (2000 * sum(amounts), 65536))

    def test_sums_wrap_and_the_value_before_is_returned(self):
        adder = felter.Adder()
        with adder.split() as other:
            least, most = -(2**63), 2**63 - 1
            for amount, before in (most, 0), (1, most), (-1, least), (least, most):
                self.assertEqual(other.add(amount), before)
            self.assertEqual((adder.value(), other.value()), (-1, -1))
        with self.assertRaises(OverflowError):
            adder.add(2**63)

    def test_shares_are_split_and_given_back(self):
        adder, another = felter.Adder(), felter.Adder()
        other = adder.split()
        self.assertEqual((adder.shares(), other.shares()), (65535, 1))
        self.refuses(Number.NO_SHARES, other.split)
        other.add(5)
        self.refuses(Number.OTHER_RING, another.join, other)
        self.refuses(Number.OTHER_RING, adder.join, adder)
        self.assertEqual((another.value(), another.shares()), (0, 65536))
        adder.join(other)
        adder.split().free()
        self.assertEqual((adder.value(), adder.shares()), (5, 65535))


class CountersCase(Case):
    def test_counters_say_what_they_were_given(self):
        counters = felter.Counters(3, 10)
        one = counters.allocate(0, 4, b"key", b"label", 8, 9)
        self.assertEqual(counters.allocate(0, -5), 1)
        self.assertEqual((len(counters), list(counters)), (3, [0, 1]))
        said = counters.type_id(one), counters.registration(one), counters.owner(one)
        self.assertEqual(said, (4, 8, 9))
        self.assertEqual((counters.label(one), counters.label(1)), (b"label", b""))
        self.assertEqual((counters.key(one), counters.key(1)), (b"key" + bytes(109), bytes(112)))
        self.assertEqual((counters.find(4, 8), counters.find(4, 7)), (0, None))
        counters.set(one, -7)
        self.assertEqual((counters.add(one, 10), counters.value(one)), (-7, 3))
        self.refuses(Number.BAD_ID, counters.value, 3)
        self.assertEqual(counters.close_owner(0, 9), 1)
        counters.release(0, 1)
        self.refuses(Number.NOT_ALLOCATED, counters.release, 0, 1)
        self.refuses(Number.LABEL_NOT_ASCII, counters.allocate, 0, 1, b"", b"\x80")
        self.assertEqual(list(counters), [])
        ids = iter(counters)
        self.assertEqual(counters.allocate(10, 1), 0)
        self.assertEqual(next(ids), 0)
        counters.free()
        self.refuses(Number.NO_HANDLE, next, ids)

    def test_values_change_and_are_said_as_they_were(self):
        counters = felter.Counters(2)
        one = counters.allocate(0, 1)
        self.assertEqual([counters.increment(one), counters.increment(one), counters.decrement(one)], [0, 1, 2])
        self.assertEqual((counters.get_and_set(one, -(2**63)), counters.decrement(one)), (1, -(2**63)))
        self.assertEqual((counters.increment(one), counters.get_and_set(one, 7)), (2**63 - 1, -(2**63)))
        self.assertEqual((counters.compare_and_set(one, 8, 9), counters.value(one)), (False, 7))
        self.assertEqual((counters.compare_and_set(one, 7, -9), counters.value(one)), (True, -9))
        for refused, counter in (Number.NOT_ALLOCATED, 1), (Number.BAD_ID, 2):
            self.refuses(refused, counters.increment, counter)
            self.refuses(refused, counters.decrement, counter)
            self.refuses(refused, counters.get_and_set, counter, 5)
            self.refuses(refused, counters.compare_and_set, counter, 0, 5)

    def test_ids_are_available_until_they_are_allocated_and_again_from_their_deadlines_on(self):
        counters = felter.Counters(3, 50)
        self.assertEqual(counters.available(0), 3)
        ids = [counters.allocate(0, 1) for _ in range(3)]
        self.assertEqual(counters.available(2**64 - 1), 0)
        counters.release(100, ids[1])
        self.assertEqual([counters.available(now) for now in (149, 150)], [0, 1])
        self.assertEqual((counters.allocate(150, 1), counters.available(150)), (ids[1], 0))


    def test_a_reader_on_a_thread_sees_values_rise(self):
        counters = felter.Counters(2)
        counters.allocate(0, 1)
        reader, seen = counters.reader(), [0]
        self.refuses(Number.BAD_ID, reader.value, 2)

        def watch():
            while seen[-1] < 2000:
                seen.append(reader.value(0))

        def count():
            for _ in range(2000):
                counters.add(0, 1)

        run(watch, count)
        self.assertEqual(seen, sorted(seen))
        counters.free()
        self.assertEqual(reader.value(0), 2000)


if __name__ == "__main__":
    unittest.main()
