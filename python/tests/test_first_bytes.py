"""Keys that begin alike, whose first bytes a map holds once, beside a dict and a sorted list."""

import copy
import pickle
import random
import unittest
from bisect import bisect_left, bisect_right

from sweep_bptree import SortedMap, SortedSet

# (up to 47 bytes are shared, one of which is the kind of the key)
LENGTHS = [0, 1, 2, 6, 44, 45, 46, 47, 48, 60, 300]


def by_kind(key):
    """What Python orders as a map orders its keys."""
    kind = [type(None), int, str, bytes, tuple].index(type(key))
    return kind, tuple(map(by_kind, key)) if kind == 4 else key if kind else 0


class FirstBytes(unittest.TestCase):
    def beside(self, plain, map_, others):
        """Each read, for the keys that are there and for others."""
        keys = sorted(plain, key=by_kind)
        self.assertEqual(list(map_.items()), [(key, plain[key]) for key in keys])
        sorts = [by_kind(key) for key in keys]
        for key in [*others, *keys[:3], *keys[-3:], *keys[:: len(keys) // 5 + 1]]:
            at, behind = bisect_left(sorts, by_kind(key)), bisect_right(sorts, by_kind(key))
            self.assertEqual((key in map_, map_.get(key, "no")), (key in plain, plain.get(key, "no")))
            self.assertEqual((map_.bisect_left(key), map_.bisect_right(key), map_.rank(key)), (at, behind, at))
            if key is not None:
                self.assertEqual(list(map_.irange(key)), keys[at:])
                self.assertEqual(list(map_.irange(None, key, reverse=True)), keys[:behind][::-1])
                self.assertEqual(map_.range_len(key), len(keys) - at)
            if key not in plain:
                self.assertEqual(map_.pop(key, "no"), "no")
                self.assertRaises(KeyError, map_.__delitem__, key)
                self.assertRaises(ValueError, map_.index, key)
            else:
                self.assertEqual(map_.index(key), at)
        for other in (map_.copy(), copy.deepcopy(map_), pickle.loads(pickle.dumps(map_)), SortedMap(map_.items()), SortedMap(plain)):
            self.assertEqual(list(other.items()), list(map_.items()))
            other["new"], other[b""], other[None] = 1, 2, 3
            self.assertEqual((len(other), other["new"], other[b""], other[None]), (len({*plain, "new", b"", None}), 1, 2, 3))

    def test_strs(self):
        for length in LENGTHS:
            first = ("user:" * 60)[:length]
            others = [
                "",
                first,
                first[:-1],
                first + "0",
                first + "\0",
                first + "\x7f",
                first[:-1] + "\uffff",
                "a",
                "\U0001f600",
                "\ud800",
                first + "\ud800",
            ]
            others += [
                first[: length // 2],
                first[: length // 2] + "zz",
                b"",
                first.encode(),
                first.encode() + b"5",
                5,
                -1,
                2**80,
                None,
                (first,),
                (),
            ]
            for n in (1, 2, 63, 64, 65, 200):
                with self.subTest(length=length, n=n):
                    plain = {f"{first}{number * 7919 % 1000:03d}": number for number in range(n)}
                    by_load, by_put = SortedMap(plain), SortedMap()
                    for key, value in plain.items():
                        by_put[key] = value
                    for map_ in (by_load, by_put):
                        self.beside(plain, map_, others)
                    for map_, more in ((by_load, others), (by_put, others[::-1])):
                        whole = dict(plain)
                        for value, key in enumerate(more):
                            map_[key] = whole[key] = value
                        self.beside(whole, map_, others)
                        for key in dict.fromkeys(more):
                            self.assertEqual(map_.pop(key), whole.pop(key))
                        self.beside(whole, map_, others)

    def test_other_kinds(self):
        long = "a long beginning of each"
        for make in (
            lambda number: b"\0\xff" * 5 + b"%d" % number,
            lambda number: (long, number),
            lambda number: ((long, None), (number, long)),
            lambda number: 2**200 + number,
            lambda number: -(2**70) - number,
            lambda number: "\u20ac" * 20 + chr(300 + number),
            lambda number: "\ud800" * 3 + chr(300 + number),
        ):
            plain = {make(number * 7 % 150): number for number in range(150)}
            others = [make(500), make(0), "", "b", b"", b"\0\xff", (), (long,), (long, "a"), 0, 2**200 - 1, -(2**70), None]
            map_ = SortedMap()
            for key, value in plain.items():
                map_[key] = value
            self.beside(plain, map_, others)
            self.beside(plain, SortedMap(plain), others)
            for key in others:
                map_[key] = plain[key] = 7
            self.beside(plain, map_, others)

    def test_fewer_and_more_again(self):
        """Each new key begins like the others by one byte less; then those are removed, and the map grows."""
        first = "x" * 60
        for n in (10, 64, 65, 300):
            plain = {f"{first}{number:04d}": number for number in range(n)}
            map_ = SortedMap(plain)
            for length in range(59, -1, -1):
                key = first[:length] + "y"
                map_[key] = plain[key] = length
                if length % 7 == 0:
                    self.beside(plain, map_, [first, first[:length], first[:length] + "xy", "", "y"])
            for length in range(60):
                self.assertEqual(map_.pop(first[:length] + "y"), plain.pop(first[:length] + "y"))
            for number in range(n, 3 * n + 100):
                key = f"{first}{number:04d}"
                map_[key] = plain[key] = number
            self.beside(plain, map_, [first, "", "y"])

    def test_a_map_that_was_emptied(self):
        for empty in (
            lambda map_: map_.clear(),
            lambda map_: [map_.popitem() for _ in range(len(map_))],
            lambda map_: [map_.pop(key) for key in list(map_)],
        ):
            map_ = SortedMap.fromkeys([f"user:{number}" for number in range(100)], 1)
            for keys in (["order:1", "order:2"], [b"\0", b"\0\0"], [1, 2], [5.5], ["user:5", "user"], [2**63, -1]):
                empty(map_)
                self.assertEqual((list(map_), "user:5" in map_, map_.rank("user:5"), list(map_.irange("user"))), ([], False, 0, []))
                for key in keys:
                    map_[key] = 1
                self.assertEqual(list(map_), sorted(keys))
                self.assertEqual([map_.index(key) for key in sorted(keys)], list(range(len(keys))))

    def test_random_calls(self):
        dice = random.Random(7)
        for turn in range(40):
            alphabet = ["ab", "a", "\0a", "a\u20ac\U0001f600"][turn % 4]
            first = "".join(dice.choices(alphabet, k=dice.choice([0, 3, 20, 46, 50])))

            def key():
                if dice.random() < 0.03:
                    return dice.choice(["", "b", b"a", 5, 2**70, None, (first,)])
                return first[: dice.choice([len(first)] * 9 + [dice.randrange(len(first) + 1)])] + "".join(
                    dice.choices(alphabet, k=dice.randrange(9))
                )

            plain, map_ = {}, SortedMap()
            if turn % 2:
                plain = {key(): 0 for _ in range(dice.choice([3, 70, 200]))}
                map_ = SortedMap(plain)
            for step in range(600):
                it = key()
                if dice.random() < 0.7:
                    map_[it] = plain[it] = step
                else:
                    self.assertEqual(map_.pop(it, "no"), plain.pop(it, "no"))
            self.beside(plain, map_, [key() for _ in range(20)])

    def test_sets(self):
        keys = [f"https://example.org/{number:05d}" for number in range(300)]
        mine = SortedSet(keys)
        self.assertEqual(list(mine & set(keys[50:70])), keys[50:70])
        self.assertEqual(list(mine - set(keys[5:])), keys[:5])
        self.assertEqual(list(mine ^ {"a", "z", *keys[1:]}), ["a", keys[0], "z"])
        mine &= set(keys[10:20])
        mine |= {"http", "https://example.org/00015"}
        self.assertEqual(list(mine), ["http", *keys[10:20]])
        mine._swap(SortedSet(["b", "a"]))
        self.assertEqual((list(mine), "a" in mine, "http" in mine), (["a", "b"], True, False))


if __name__ == "__main__":
    unittest.main()
