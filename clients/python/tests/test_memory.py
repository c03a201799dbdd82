"""Loads, stores and slices."""

import array
import copy
import gc
import os
import pickle
import tempfile
import unittest
import warnings

import envy

MOST = 2**64 - 1


class MemoryTest(unittest.TestCase):
    def setUp(self):
        self.folder = tempfile.TemporaryDirectory()
        self.addCleanup(self.folder.cleanup)
        self.path = os.path.join(self.folder.name, "words.envy")
        self.m = envy.open(self.path, words=1000)
        self.addCleanup(self.m.close)

    def test_a_new_array_is_of_zeros_and_rounded_up_to_pages(self):
        self.assertEqual(len(self.m), 1024)
        self.assertEqual(self.m[:], [0] * 1024)
        self.assertEqual(list(self.m), [0] * 1024)

    def test_words(self):
        self.m[0], self.m[-1], self.m[7] = 1, MOST, True
        self.assertEqual((self.m[0], self.m[1023], self.m[7]), (1, MOST, 1))
        self.assertEqual(self.m.look(-1), MOST)
        self.m[7] += 5
        self.assertEqual(self.m[7], 6)

    def test_slices_are_those_of_a_list(self):
        model = [0] * 1024
        cases = [slice(3, 9), slice(9, 3, -1), slice(0, 1024, 100), slice(-5, None), slice(5, 5), slice(1000, 2000), slice(8, 2)]
        for step, key in enumerate(cases):
            values = [1000 * step + i for i in range(len(model[key]))]
            self.m[key] = values
            model[key] = values
            self.assertEqual(self.m[key], model[key], key)
            self.assertEqual(self.m[:], model, key)
        self.m[0:3] = array.array("Q", [1, 2, MOST])
        self.m[3:5] = (it for it in (4, 5))
        self.assertEqual(self.m[0:5], [1, 2, MOST, 4, 5])

    def test_what_a_sequence_has(self):
        self.m[40:43] = [7, 8, 7]
        self.assertIn(8, self.m)
        self.assertEqual(self.m.index(8), 41)
        self.assertEqual(self.m.count(7), 2)
        self.assertEqual(next(reversed(self.m)), 0)

    def test_what_is_refused(self):
        for key in (1024, -1025, 2**40, -(2**70)):
            with self.assertRaises(IndexError) as found:
                self.m[key]
            self.assertEqual((type(found.exception), found.exception.code), (envy.AddressError, 3))
            self.assertRaises(envy.AddressError, self.m.__setitem__, key, 1)
            self.assertRaises(envy.AddressError, self.m.look, key)
        for key in ("5", 5.0, None, (1, 2)):
            self.assertRaises(TypeError, self.m.__getitem__, key)
            self.assertRaises(TypeError, self.m.__setitem__, key, 1)
        for value, why in ((-1, ValueError), (2**64, ValueError), ("1", TypeError), (1.0, TypeError), (None, TypeError)):
            self.assertRaises(why, self.m.__setitem__, 5, value)
            self.assertRaises(why, self.m.__setitem__, slice(5, 7), [1, value])
        self.assertRaises(ValueError, self.m.__setitem__, slice(0, 3), [1, 2])
        self.assertRaises(ValueError, self.m.__setitem__, slice(0, 3), [1, 2, 3, 4])
        self.assertRaises(TypeError, self.m.__setitem__, slice(0, 3), 5)
        self.assertEqual(self.m[:], [0] * 1024)

    def test_a_slice_is_assigned_whole_or_not_at_all(self):
        with self.m.transaction() as t:
            t[40] = 1
            with self.assertRaises(envy.HeldError) as found:
                self.m[0:64] = range(64)
            self.assertEqual((found.exception.code, found.exception.holder), (4, t.slot))
            self.assertEqual(self.m[0:32], [0] * 32)
        self.assertEqual(self.m[0:64], [0] * 40 + [1] + [0] * 23)

    def test_a_slice_of_more_pages_than_may_be_owned_is_refused(self):
        with envy.open(self.path + "2", words=3200, owned_pages=10) as m:
            with self.assertRaises(envy.FullError) as found:
                m[0:321] = range(321)
            self.assertEqual(found.exception.code, 5)
            self.assertEqual(m[:], [0] * 3200)
            m[0:320] = range(320)
            self.assertEqual(m[0:320], list(range(320)))

    def test_a_slice_within_a_page_needs_no_transaction(self):
        open_ones = [self.m.transaction() for _ in range(64)]
        before = self.m.counts()
        self.m[33:64] = range(31)
        after = self.m.counts()
        self.assertEqual(after.hits + after.misses, before.hits + before.misses + 1)
        self.assertEqual(self.m[32:65], [0] + list(range(31)) + [0])
        with self.assertRaises(envy.TransactionError):
            self.m[33:65] = range(32)
        open_ones[5][40] = 1
        with self.assertRaises(envy.HeldError) as found:
            self.m[33:64] = range(100, 131)
        self.assertEqual(found.exception.holder, open_ones[5].slot)
        open_ones[5].abort()
        self.assertEqual(self.m[32:65], [0] + list(range(31)) + [0])

    def test_counts_ticks_and_compactions(self):
        before = self.m.counts()
        for i in range(100):
            self.m[i] = i
        after = self.m.counts()
        self.assertEqual(len(after), 7)
        self.assertGreater(after.hits + after.misses, before.hits + before.misses)
        self.assertIsInstance(self.m.tick(), envy.Did)
        self.m.compact()
        self.assertEqual(self.m[0:100], list(range(100)))

    def test_closed(self):
        t = self.m.transaction()
        self.m.close()
        self.m.close()
        self.assertTrue(self.m.closed)
        calls = [lambda: self.m[0], lambda: self.m[0:0], lambda: self.m.__setitem__(0, 1), self.m.sync, self.m.transaction]
        for call in [*calls, self.m.map, self.m.counts, self.m.tick, self.m.compact, lambda: t[0], t.commit]:
            with self.assertRaises(ValueError) as found:
                call()
            self.assertEqual((type(found.exception), found.exception.code), (envy.ClosedError, 1))
        self.assertIn("closed", repr(self.m))

    def test_copies_are_refused(self):
        for thing in (self.m, self.m.transaction()):
            self.assertRaises(TypeError, copy.copy, thing)
            self.assertRaises(TypeError, pickle.dumps, thing)

    def test_errors_are_pickled(self):
        for error in (envy.HeldError(4, 3), envy.FileError(2, 28, "x"), envy.AbsentError(54, "key 1"), envy.MapError(None, "why")):
            again = pickle.loads(pickle.dumps(error))
            self.assertEqual((type(again), str(again), again.code), (type(error), str(error), error.code))
        self.assertEqual(pickle.loads(pickle.dumps(envy.FileError(2, 28, "x"))).errno, 28)

    def test_a_memory_that_nobody_closed_is_closed(self):
        self.m[5] = 7
        self.m.close()
        m = envy.open(self.path)
        m[6] = 8
        with warnings.catch_warnings(record=True) as said:
            warnings.simplefilter("always")
            del m
            gc.collect()
        self.assertTrue(any(it.category is ResourceWarning for it in said))
        with envy.open(self.path) as m:
            self.assertEqual((m[5], m[6]), (7, 8))

    def test_the_library_and_the_package_have_one_version(self):
        self.assertEqual(envy.library_version(), envy.__version__)


if __name__ == "__main__":
    unittest.main()
