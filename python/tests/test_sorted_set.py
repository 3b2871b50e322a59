"""The set beside `set` and `sorted`, and each habit of a sorted set by itself."""

import collections.abc
import copy
import pickle
import random
import unittest
from bisect import bisect_left, bisect_right

from sweep_bptree import SortedMap, SortedSet


class Habits(unittest.TestCase):
    def setUp(self):
        self.plain = [number * 3 for number in range(300)]
        self.keys = SortedSet(random.Random(7).sample(self.plain, 300))

    def test_made_of_iterables(self):
        self.assertEqual(list(SortedSet()), [])
        self.assertEqual(list(SortedSet("banana")), ["a", "b", "n"])
        self.assertEqual(list(SortedSet([3, 1, 3, 2.0])), [1, 2.0, 3])
        for given in (self.keys, SortedMap.fromkeys(self.plain), set(self.plain), iter(self.plain), dict.fromkeys(self.plain)):
            self.assertEqual(list(SortedSet(given)), self.plain)
        for call in (lambda: SortedSet(5), lambda: SortedSet([], key=abs), lambda: SortedSet([[]]), lambda: SortedSet([], [])):
            self.assertRaises(TypeError, call)

    def test_keys_by_index(self):
        self.assertEqual((self.keys[0], self.keys[-1], self.keys[5:9]), (0, 897, [15, 18, 21, 24]))
        for of in (slice(None, None, -1), slice(9, 2, -2), slice(5, 5)):
            self.assertEqual(self.keys[of], self.plain[of])
        for index in (300, -301, 2**70):
            self.assertRaises(IndexError, lambda: self.keys[index])
        for key in (0, 1, 30, 897, 898):
            self.assertEqual(self.keys.bisect_left(key), bisect_left(self.plain, key))
            self.assertEqual(self.keys.bisect_right(key), bisect_right(self.plain, key))
        self.assertEqual((self.keys.index(30), self.keys.count(30), self.keys.count(31)), (10, 1, 0))
        self.assertRaises(ValueError, self.keys.index, 31)
        del self.keys[-1], self.plain[-1]
        del self.keys[3:90:4], self.plain[3:90:4]
        self.assertEqual(list(self.keys), self.plain)
        with self.assertRaises(IndexError):
            del self.keys[300]

    def test_add_and_remove(self):
        self.keys.add(1)
        self.keys.add(1)
        self.assertEqual(self.keys[:3], [0, 1, 3])
        self.keys.remove(1)
        self.assertRaises(KeyError, self.keys.remove, 1)
        self.keys.discard(1)
        self.assertEqual((self.keys.pop(), self.keys.pop(0), self.keys.pop(index=5)), (897, 0, 18))
        self.keys.clear()
        self.assertRaises(IndexError, self.keys.pop)
        self.assertFalse(self.keys)

    def test_ranges(self):
        self.assertEqual(list(self.keys.irange(30, 60, (False, True), True)), [*range(60, 30, -3)])
        self.assertEqual(list(self.keys.islice(-3)), [891, 894, 897])
        self.assertEqual(list(reversed(self.keys)), self.plain[::-1])
        self.assertEqual(self.keys.range_len(30, 60), 10)

    def test_operations_beside_a_set(self):
        dice = random.Random(7)
        for kind in (int, str, lambda number: number / 2, lambda number: (str(number % 3), number)):
            for turn in range(60):
                of = [{kind(number) for number in dice.sample(range(40), dice.randrange(30))} for _ in range(3)]
                made = SortedSet(of[0])
                for other in (of[1], SortedSet(of[1]), frozenset(of[1]), dict.fromkeys(of[1]).keys(), SortedMap.fromkeys(of[1]).keys()):
                    for call in (
                        lambda one: one | other,
                        lambda one: one & other,
                        lambda one: one - other,
                        lambda one: one ^ other,
                        lambda one: one <= other,
                        lambda one: one < other,
                        lambda one: one >= other,
                        lambda one: one > other,
                        lambda one: one == other,
                        lambda one: one != other,
                    ):
                        found, wanted = call(made), call(of[0])
                        self.assertEqual(found, wanted)
                        if isinstance(wanted, set):
                            self.assertIsInstance(found, SortedSet)
                            self.assertEqual(list(found), sorted(wanted))
                for other in (of[1], [*of[1]], iter([*of[1]]), dict.fromkeys(of[1])):
                    if isinstance(other, collections.abc.Iterator):
                        self.assertEqual(made.union(other), of[0] | of[1])
                        continue
                    for name in ("union", "intersection", "difference"):
                        self.assertEqual(getattr(made, name)(other, of[2]), getattr(of[0], name)(other, of[2]))
                        self.assertEqual(getattr(made, name)(), of[0])
                    for name in ("symmetric_difference", "issubset", "issuperset", "isdisjoint"):
                        self.assertEqual(getattr(made, name)(other), getattr(of[0], name)(other))
                    for name in ("update", "intersection_update", "difference_update", "symmetric_difference_update"):
                        one, plain = made.copy(), set(of[0])
                        getattr(one, name)(other)
                        getattr(plain, name)(other)
                        self.assertEqual(list(one), sorted(plain))
                self.in_place(made, of)
                self.assertEqual(set(of[1]) | made, of[0] | of[1])
                self.assertEqual(set(of[1]) - made, of[1] - of[0])
                self.assertEqual(dict.fromkeys(of[1]).keys() - made, of[1] - of[0])

    def in_place(self, made, of):
        one = same = made.copy()
        one |= of[1]
        self.assertEqual(one, of[0] | of[1])
        one &= of[1]
        self.assertEqual(one, of[1])
        one ^= of[0]
        self.assertEqual(one, of[0] ^ of[1])
        one -= of[1]
        self.assertEqual(one, of[0] - of[1])
        self.assertIs(one, same)

    def test_operators_take_sets_alone(self):
        for call in (
            lambda: self.keys | [1],
            lambda: self.keys & [1],
            lambda: self.keys - [1],
            lambda: self.keys ^ [1],
            lambda: [1] - self.keys,
            lambda: self.keys < [1],
            lambda: self.keys >= [1],
            lambda: self.keys.__ior__([1]) + 1,
        ):
            self.assertRaises(TypeError, call)
        self.assertNotEqual(self.keys, self.plain)

    def test_copies(self):
        class Coloured(SortedSet):
            pass

        globals()["Coloured"] = Coloured
        Coloured.__qualname__ = "Coloured"
        made = Coloured([3, 1])
        made.colour = "red"
        for other in (made.copy(), copy.copy(made), copy.deepcopy(made), *(pickle.loads(pickle.dumps(made, it)) for it in range(5))):
            self.assertEqual((type(other), other, other.colour), (Coloured, {1, 3}, "red"))
            other.add(2)
            self.assertNotIn(2, made)
        self.assertIsInstance(made | {5}, Coloured)
        self.assertEqual(repr(made), "Coloured([1, 3])")
        self.assertRaises(TypeError, hash, made)

    def test_abstract_classes(self):
        for of in (collections.abc.MutableSet, collections.abc.Sequence):
            self.assertIsInstance(self.keys, of)
        self.assertEqual(SortedSet[int].__args__, (int,))

    def test_an_iterator_outlives_changes(self):
        seen = []
        for key in self.keys:
            seen.append(key)
            self.keys.discard(key)
            if key == 30:
                self.keys.add(31)
        self.assertEqual((seen, len(self.keys)), (sorted([*self.plain, 31]), 0))


if __name__ == "__main__":
    unittest.main()
