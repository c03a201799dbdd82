"""The ordered map, beside a dictionary."""

import os
import random
import tempfile
import unittest
from collections.abc import MutableMapping

import envy
from envy import tree

MOST = 2**64 - 1


class MapTest(unittest.TestCase):
    def setUp(self):
        self.folder = tempfile.TemporaryDirectory()
        self.addCleanup(self.folder.cleanup)
        self.path = os.path.join(self.folder.name, "map.envy")
        self.m = envy.open(self.path, words=8192)
        self.addCleanup(self.m.close)

    def test_it_is_a_mapping(self):
        a = self.m.map()
        self.assertIsInstance(a, MutableMapping)
        self.assertEqual((len(a), list(a), bool(a), dict(a)), (0, [], False, {}))
        a[7] = 70
        a[0], a[MOST] = MOST, 0
        self.assertEqual(dict(a), {0: MOST, 7: 70, MOST: 0})
        self.assertEqual(a, {0: MOST, 7: 70, MOST: 0})
        a[7] = 71
        self.assertEqual((a[7], a.get(7), a.get(8), a.get(8, 1), 7 in a, 8 in a, len(a)), (71, 71, None, 1, True, False, 3))
        self.assertEqual((a.pop(7), a.pop(7, None), a.setdefault(9, 1), a.setdefault(9, 2)), (71, None, 1, 1))
        del a[9]
        self.assertEqual((a.popitem(), a.popitem()), ((0, MOST), (MOST, 0)))
        a.update({1: 2}, **{})
        a.update([(3, 4)])
        a.clear()
        self.assertEqual((len(a), list(a.items())), (0, []))
        self.assertRaises(KeyError, a.popitem)

    def test_a_load(self):
        a = self.m.map()
        for n in (0, 1, 14, 15, 31, 32, 46, 500, 1000):
            a[MOST] = 1
            a.load((3 * i, i) for i in range(n))
            self.assertEqual((len(a), dict(a)), (n, {3 * i: i for i in range(n)}))
            a[4] = 5
            self.assertEqual((a[4], a.pop(4)), (5, 5))
        before = dict(a)
        for why, pairs in ((ValueError, [(1, 1), (1, 2)]), (ValueError, [(2, 1), (1, 2)]), (ValueError, [(-1, 1)]), (TypeError, [(1, None)]),
                           (envy.MapError, [(i, i) for i in range(10_000)])):  # fmt: skip
            self.assertRaises(why, a.load, pairs)
        self.assertEqual(dict(a), before)
        with self.m.transaction():
            self.assertRaises(envy.TransactionError, a.load, [])

    def test_what_is_refused(self):
        a = self.m.map()
        for call in (lambda: a[5], lambda: a.__delitem__(5), lambda: a.pop(5), lambda: a[-1], lambda: a.__delitem__(2**64)):
            with self.assertRaises(KeyError) as found:
                call()
            self.assertEqual((type(found.exception), found.exception.code), (envy.AbsentError, 54))
        for key, value, why in ((-1, 1, ValueError), (2**64, 1, ValueError), (1, 2**64, ValueError), ("1", 1, TypeError), (1, None, TypeError)):
            self.assertRaises(why, a.__setitem__, key, value)
        self.assertRaises(TypeError, a.__getitem__, "1")
        self.assertFalse("1" in a or -1 in a or None in a or 2**64 in a)
        self.assertEqual(len(a), 0)

    def test_ranges(self):
        a = self.m.map()
        a.update({key: key + 1 for key in range(0, 1000, 10)})
        self.assertEqual(list(a.items(15, 40)), [(20, 21), (30, 31), (40, 41)])
        self.assertEqual(list(a.keys(980)), [980, 990])
        self.assertEqual(list(a.values(None, 10)), [1, 11])
        self.assertEqual(list(a.items(41, 49)), [])
        self.assertEqual(list(a.items(50, 40)), [])
        self.assertEqual(list(reversed(a.items(15, 40))), [(40, 41), (30, 31), (20, 21)])
        self.assertEqual(list(reversed(a)), list(reversed(range(0, 1000, 10))))
        self.assertEqual(list(reversed(a.values(0, 10))), [11, 1])
        self.assertEqual((len(a.keys(15, 40)), len(a.items()), len(a.values(990))), (3, 100, 1))
        self.assertTrue(20 in a.keys(15, 40) and 10 not in a.keys(15, 40) and (20, 21) in a.items(15, 40) and (10, 11) not in a.items(15))
        self.assertEqual(a.keys(0, 20) & {10, 20, 30}, {10, 20})
        self.assertEqual((a.at_least(11), a.at_least(991), a.above(20), a.at_most(19), a.at_most(0)), ((20, 21), None, (30, 31), (10, 11), (0, 1)))
        self.assertRaises(ValueError, a.items, -1)
        for key in a:  # a map may change while it is gone through
            del a[key]
        self.assertEqual(len(a), 0)

    def test_it_does_what_a_dictionary_does(self):
        chance, model, a = random.Random(1), {}, self.m.map()
        for i in range(6000):
            key = chance.choice((chance.randrange(400), chance.randrange(MOST + 1)))
            if chance.random() < 0.6 and len(model) < 1600:
                a[key] = model[key] = i
            else:
                key = chance.choice((key, *list(model)[:1]))
                self.assertEqual(a.pop(key, None), model.pop(key, None))
            if i % 1000 == 0:
                self.m.sync()
                self.m.close()
                self.m = envy.open(self.path)
                self.addCleanup(self.m.close)
                a = self.m.map()  # whose words are checked
                self.assertEqual(list(a.items()), sorted(model.items()))
        self.assertEqual(list(reversed(a.items())), sorted(model.items(), reverse=True))

    def test_it_gets_full(self):
        with envy.open(self.path + "2", words=1024) as m:
            a, n = m.map(), 0
            with self.assertRaises(envy.MapError) as found:
                for n in range(1000):
                    a[n] = n
            self.assertEqual((found.exception.code, n, len(a)), (55, 14 * ((1024 - 64) // 64 - 8), n))
            a[0] = 5

    def test_a_setup_without_room(self):
        for words, owned_pages in ((19 * 32, 32), (640, 31)):
            with envy.open(f"{self.path}{words}", words, owned_pages=owned_pages) as m:
                with self.assertRaises(envy.SetupError) as found:
                    m.map()
                self.assertEqual(found.exception.code, 57)
                with self.assertRaises(envy.SetupError) as found:
                    m.map(new=True)
                self.assertEqual(found.exception.code, 57)
        with envy.open(self.path + "3", 640) as m:
            self.assertEqual(len(m.map()), 0)

    def test_an_open_transaction(self):
        a = self.m.map()
        a[1] = 2
        with self.m.transaction() as t:
            t[7000] = 1
            for call in (lambda: a[1], lambda: a.__setitem__(1, 1), lambda: len(a), self.m.map, a.clear, lambda: self.m.map(new=True)):
                with self.assertRaises(envy.TransactionError) as found:
                    call()
                self.assertEqual(found.exception.code, 56)
            t.abort()
        self.assertEqual(a[1], 2)

    def test_words_that_are_no_map(self):
        a = self.m.map()
        a.update((key, key) for key in range(500))
        words = self.m[:]
        root = 64 * self.m[0]  # (where the root is, which isn't a leaf)
        self.assertEqual(words[root] % 2, 1)
        changes = [(0, 0), (0, 10**9), (1, 3), (2, 10**9), (3, 7), (root, 200), (root, 1), (root + 2, 1), (root + 32, 10**12)]
        for address, word in [*changes, (root + 33, 0), (64, 200), (70, MOST)]:
            before = self.m[address]
            self.m[address] = word
            self.assertNotEqual(word, before, address)
            for call in (lambda: a[1], lambda: a.__setitem__(1, 1), lambda: len(a), self.m.map, a.clear):
                with self.assertRaises(envy.MapError, msg=f"{address} {word}") as found:
                    call()
                self.assertIs(found.exception.code, None)
            self.m[address] = before
        self.assertEqual((self.m[:], a[499], len(a)), (words, 499, 500))
        self.m[0:1024] = range(1024)
        self.assertRaises(envy.MapError, self.m.map)
        a = self.m.map(new=True)
        self.assertEqual(dict(a), {})
        a[5] = 6
        self.assertEqual(dict(self.m.map()), {5: 6})


class TreeTest(unittest.TestCase):
    """Words by hand: twelve pieces behind the first 64 words."""

    def check(self, changes):
        words = [0] * (64 * 13)
        for address, word in changes.items():
            words[address] = word
        tree.check(lambda a, n: words[a : a + n], len(words))

    def test_maps(self):
        self.check({})
        # one leaf, in piece 0, of the pairs 5 and 6
        self.check({0: 1, 2: 1, 3: 2, 64: 4, 65: 5, 66: 6, 96: 50, 97: 60})
        # an empty one, and a free piece
        self.check({0: 1, 1: 2, 2: 2})
        # no root any more, and two free pieces
        self.check({1: 2, 2: 2, 128: 1})

    def test_a_root_of_two_leaves(self):
        leaf = {64 * at: 30 for at in (2, 3)}
        keys = {64 * 2 + 1 + i: i for i in range(15)}
        keys.update({64 * 3 + 1 + i: 100 + i for i in range(15)})
        whole = {0: 1, 2: 3, 3: 30, 64: 3, 65: 100, 96: 1, 97: 2, **leaf, **keys}
        self.check(whole)
        for change in ({65: 14}, {65: 101}, {3: 29}, {2: 4}, {97: 1}, {97: 0}, {97: 3}, {64: 5}, {64: 2}, {129: 1}, {128: 28}, {192: 64}, {192: 31}, {0: 2}):
            with self.assertRaises(tree.NotATree, msg=str(change)):
                self.check({**whole, **change})

    def test_no_maps(self):
        for words in ({2: 13}, {2: 1}, {1: 1}, {1: 1, 2: 1, 64: 1}, {1: 2, 2: 1}, {0: 2, 2: 1}, {0: 1}, {3: 1}, {0: 1, 1: 1, 2: 1}):
            with self.assertRaises(tree.NotATree, msg=str(words)):
                self.check(words)


if __name__ == "__main__":
    unittest.main()
