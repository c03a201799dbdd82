"""Transactions, and threads that share a memory."""

import gc
import os
import tempfile
import threading
import unittest

import envy


class TransactionTest(unittest.TestCase):
    def setUp(self):
        self.folder = tempfile.TemporaryDirectory()
        self.addCleanup(self.folder.cleanup)
        self.m = envy.open(os.path.join(self.folder.name, "words.envy"), words=4096)
        self.addCleanup(self.m.close)

    def test_a_block_commits(self):
        with self.m.transaction() as t:
            t[5] = 1
            t[100:103] = [1, 2, 3]
            t[200:206:2] = [7, 8, 9]
            t[303:300:-1] = [1, 2, 3]
            self.assertEqual((t[5], t[99:104], len(t)), (1, [0, 1, 2, 3, 0], 4096))
            self.assertEqual((self.m[5], self.m.look(5)), (1, 0))
        self.assertEqual((self.m.look(5), self.m[200:206], self.m[300:304]), (1, [7, 0, 8, 0, 9, 0], [0, 3, 2, 1]))

    def test_an_exception_aborts(self):
        self.m[5] = 7
        with self.assertRaises(KeyError):
            with self.m.transaction() as t:
                t[5] = 1
                raise KeyError
        self.assertEqual(self.m[5], 7)
        self.assertFalse(t.is_open)

    def test_by_hand(self):
        t = self.m.transaction()
        t[5] = 1
        t.abort()
        self.assertEqual(self.m[5], 0)
        for call in (t.abort, t.commit, lambda: t[5], lambda: t.__setitem__(5, 1), lambda: t.__setitem__(slice(0, 2), [1, 2])):
            with self.assertRaises(envy.ClosedError) as found:
                call()
            self.assertEqual(found.exception.code, 7)
        t = self.m.transaction()
        t[5] = 2
        t.commit()
        self.assertEqual(self.m.look(5), 2)
        with self.m.transaction() as t:
            t[5] = 3
            t.abort()
        self.assertEqual(self.m[5], 2)

    def test_an_ended_one_has_no_say_over_the_next_one_of_its_slot(self):
        first = self.m.transaction()
        first.commit()
        second = self.m.transaction()
        self.assertEqual(first.slot, second.slot)
        self.assertRaises(envy.ClosedError, first.__setitem__, 5, 1)
        del first
        gc.collect()
        second[5] = 2
        second.commit()
        self.assertEqual(self.m[5], 2)

    def test_pages_are_owned(self):
        with self.m.transaction() as t, self.m.transaction() as other:
            t[32] = 1
            for call in (lambda: other.__setitem__(63, 1), lambda: self.m.__setitem__(40, 1), lambda: other.__setitem__(slice(30, 34), range(4))):
                with self.assertRaises(envy.HeldError) as found:
                    call()
                self.assertEqual((found.exception.code, found.exception.holder), (4, t.slot))
            self.assertEqual((other[32], t[32], self.m[32]), (0, 1, 1))
            self.assertEqual(other[30:32], [0, 1])  # what came before the page that is owned was put
            other[64] = 5
        self.assertEqual((self.m[32], self.m[64]), (1, 5))

    def test_words_that_have_no_room_are_refused_before_the_first(self):
        with envy.open(self.m.path + "2", words=3200, owned_pages=10) as m:
            with m.transaction() as t:
                t[0:64] = range(64)
                with self.assertRaises(envy.FullError) as found:
                    t[32:352] = range(320)  # its first page is owned, and of the next nine one is too many
                self.assertEqual(found.exception.code, 5)
                self.assertEqual(m[0:352], list(range(64)) + [0] * 288)
                t[32:320] = range(288)
            self.assertEqual(m[0:352], list(range(32)) + list(range(288)) + [0] * 32)

    def test_sixty_four_and_no_more(self):
        open_ones = [self.m.transaction() for _ in range(64)]
        with self.assertRaises(envy.TransactionError) as found:
            self.m.transaction()
        self.assertEqual(found.exception.code, 6)
        self.assertEqual(sorted(t.slot for t in open_ones), list(range(64)))
        del open_ones
        gc.collect()
        with self.m.transaction() as t:  # those that nobody ended were aborted
            t[1] = 1
        self.assertEqual(self.m[1], 1)

    def test_what_is_refused(self):
        with self.m.transaction() as t:
            self.assertRaises(IndexError, t.__getitem__, 4096)
            self.assertRaises(IndexError, t.__setitem__, -4097, 1)
            self.assertRaises(TypeError, t.__getitem__, "5")
            self.assertRaises(ValueError, t.__setitem__, 5, -1)
            self.assertRaises(ValueError, t.__setitem__, slice(0, 2), [1])
        self.assertEqual(self.m[0:10], [0] * 10)

    def test_threads_share_a_memory(self):
        failed = []

        def work(number):
            try:
                for i in range(200):
                    with self.m.transaction() as t:
                        t[64 * number : 64 * number + 40] = [1000 * number + i] * 40
                        if len(set(t[64 * number : 64 * number + 40])) != 1:
                            raise AssertionError("torn")
                    self.m[2048 + number * 32] += 1
                    if i % 50 == 0:
                        self.m.sync()
            except BaseException as error:
                failed.append(error)

        threads = [threading.Thread(target=work, args=(number,)) for number in range(8)]
        for it in threads:
            it.start()
        for it in threads:
            it.join()
        self.assertEqual(failed, [])
        for number in range(8):
            self.assertEqual(self.m[64 * number : 64 * number + 40], [1000 * number + 199] * 40)
            self.assertEqual(self.m[2048 + number * 32], 200)


if __name__ == "__main__":
    unittest.main()
