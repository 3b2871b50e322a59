"""Iterators: where blocks of pairs end, both ends of ranges, changes meanwhile, and what they hold."""

import datetime
import gc
import random
import sys
import unittest
import weakref
from bisect import bisect_left, bisect_right

from sweep_bptree import SortedMap, SortedSet


class Text(str):
    pass


DAY = datetime.datetime(2024, 1, 1, tzinfo=datetime.timezone.utc)
# Each makes a key of a number, in the order of the numbers. (no int is one that Python keeps for itself)
KINDS = {
    "int": lambda number: number * 3 - 3000,
    "signed": lambda number: -(2**63) + number,
    "unsigned": lambda number: 2**64 - 2000 + number,
    "both ranges": lambda number: (2 * number - 201) * 2**59,
    "float": lambda number: number + 0.5,
    "str": lambda number: f"{number:04d}",
    "text": lambda number: Text(f"user:{number:019d}"),
    "bytes": lambda number: b"%d" % (number + 1000),
    "tuple": lambda number: (number // 9, f"{number:04d}"),
    "datetime": lambda number: DAY + datetime.timedelta(number),
}
# (blocks of 16 and then of 56 pairs)
LENGTHS = [0, 1, 2, 15, 16, 17, 71, 72, 73, 127, 128, 129, 300]


def made(kind, numbers):
    keys = [kind(number) for number in numbers]
    pairs = [(key, [number]) for key, number in zip(keys, numbers)]
    random.Random(7).shuffle(pairs)
    return keys, SortedMap(pairs)


class Ends(unittest.TestCase):
    def test_lengths(self):
        for name, kind in KINDS.items():
            for n in LENGTHS:
                with self.subTest(kind=name, n=n):
                    keys, map_ = made(kind, range(n))
                    values = [[number] for number in range(n)]
                    for call, wanted in [
                        (lambda it: iter(it), keys),
                        (lambda it: it.irange(), keys),
                        (lambda it: it.islice(), keys),
                        (lambda it: iter(it.keys()), keys),
                        (lambda it: iter(it.values()), values),
                        (lambda it: iter(it.items()), list(zip(keys, values))),
                        (lambda it: it.irange_items(), list(zip(keys, values))),
                    ]:
                        self.assertEqual(list(call(map_)), wanted)
                    for call, wanted in [
                        (lambda it: reversed(it), keys),
                        (lambda it: it.irange(reverse=True), keys),
                        (lambda it: it.islice(reverse=True), keys),
                        (lambda it: reversed(it.values()), values),
                        (lambda it: reversed(it.items()), list(zip(keys, values))),
                    ]:
                        self.assertEqual(list(call(map_)), wanted[::-1])
                    self.assertEqual((list(SortedSet(keys)), list(reversed(SortedSet(keys)))), (keys, keys[::-1]))

    def test_the_end_stays(self):
        for kind in KINDS.values():
            keys, map_ = made(kind, range(20))
            for it in (iter(map_), reversed(map_), iter(map_.items()), map_.irange(keys[5]), map_.irange(keys[9], keys[5])):
                list(it)
                map_[kind(500)] = map_[kind(0)] = 1
                for _ in range(3):
                    self.assertRaises(StopIteration, next, it)

    def test_ranges(self):
        for name, kind in KINDS.items():
            with self.subTest(name):
                keys, map_ = made(kind, range(2, 400, 2))
                numbers = [0, 1, 2, 3, 17, 33, 34, 35, 36, 145, 146, 147, 148, 200, 397, 398, 399, 400]
                for low in [None, *numbers]:
                    for high in [None, *numbers]:
                        for is_low_in, is_high_in in ((True, True), (True, False), (False, True), (False, False)):
                            self.check(kind, keys, map_, low, high, is_low_in, is_high_in)

    def check(self, kind, keys, map_, low, high, is_low_in, is_high_in):
        low, high = [None if it is None else kind(it) for it in (low, high)]
        start = 0 if low is None else (bisect_left if is_low_in else bisect_right)(keys, low)
        stop = len(keys) if high is None else (bisect_right if is_high_in else bisect_left)(keys, high)
        self.assertEqual(list(map_.irange(low, high, (is_low_in, is_high_in))), keys[start:stop])
        self.assertEqual(list(map_.irange(low, high, (is_low_in, is_high_in), True)), keys[start:stop][::-1])

    def test_both_ends_of_64_bits(self):
        for keys in (
            [-(2**63), -(2**63) + 1, -1, 0, 2**63 - 2, 2**63 - 1],
            [0, 1, 2**63, 2**64 - 2, 2**64 - 1],
            [-(2**63), 2**63 - 1],
            [0, 2**64 - 1],
            [5],
        ):
            ends = [
                None,
                -(2**70),
                -(2**63) - 1,
                -(2**63) - 0.5,
                *keys,
                -(2.0**63),
                -0.5,
                0.5,
                2.0**63,
                2**63,
                2.0**64,
                2**64,
                2**70,
                float("inf"),
            ]
            map_ = SortedMap.fromkeys(keys, 1)
            for low in ends:
                for high in ends:
                    for is_low_in, is_high_in in ((True, True), (True, False), (False, True), (False, False)):
                        wanted = [
                            key
                            for key in keys
                            if (low is None or key > low or (is_low_in and key == low))
                            and (high is None or key < high or (is_high_in and key == high))
                        ]
                        for reverse in (False, True):
                            found = list(map_.irange(low, high, (is_low_in, is_high_in), reverse))
                            self.assertEqual(found, wanted[::-1] if reverse else wanted, (keys, low, high))
            self.assertEqual((list(map_.irange("a")), list(map_.irange(None, None, (False, False)))), ([], keys))


def in_order(keys):
    """Sorts ints, floats and strs as a map does."""
    return sorted(keys, key=lambda key: (isinstance(key, str), key))


class Changes(unittest.TestCase):
    # Each changes a map whose keys are even, and of which an iterator has returned some.
    CHANGES = {
        "remove all": lambda map_, last: map_.clear(),
        "remove the last one": lambda map_, last: map_.pop(last, None),
        "remove those behind it": lambda map_, last: [map_.pop(key, None) for key in list(map_.irange(last)) if last is not None][1:3],
        "remove each second one": lambda map_, last: [map_.pop(key) for key in list(map_)[::2]],
        "add between": lambda map_, last: [map_.setdefault(key) for key in range(-101, 500, 2)],
        "add a float": lambda map_, last: map_.update({(last or 0) + 0.5: 1, (last or 0) - 0.5: 1}),
        "add a str": lambda map_, last: map_.update({"a": 1}),
        "add a large one": lambda map_, last: map_.update({2**63: 1}),
        "add a larger one": lambda map_, last: map_.update({2**70: 1, -(2**70): 1}),
        "remove all, and add strs": lambda map_, last: (map_.clear(), map_.update({"a": 1, "b": 2})),
        "remove all, and add large ones": lambda map_, last: (map_.clear(), map_.update({2**64 - 1: 1, 3: 1, 180: 1})),
        "replace values": lambda map_, last: [map_.__setitem__(key, "new") for key in list(map_)],
        "the last value": lambda map_, last: map_.__setitem__(next(reversed(map_)), "new"),
    }

    def test_each_change_at_each_step(self):
        for start, reverse in [(0, False), (0, True), (-100, False), (-100, True)]:
            for low, high in [(None, None), (start + 9, start + 161)]:
                for name, change in self.CHANGES.items():
                    with self.subTest(change=name, start=start, reverse=reverse, low=low):
                        for steps in (0, 1, 2, 7, 15, 16, 17, 40, 71, 72, 73, 75, 90, 98):
                            self.check(start, reverse, low, high, change, steps)

    def check(self, start, reverse, low, high, change, steps):
        map_ = SortedMap.fromkeys(range(start, start + 200, 2), "old")
        it, seen = map_.irange_items(low, high, reverse=reverse), []
        for _ in range(steps):
            seen.append(next(it, (None,))[0])
        if None in seen:
            return
        last = seen[-1] if seen else None
        change(map_, last)
        keys = in_order(map_)
        wanted = []
        for key in keys:
            is_str = isinstance(key, str)
            if low is not None and not is_str and key < low or high is not None and (is_str or key > high):
                continue
            if last is not None and (not reverse and not is_str and key <= last or reverse and (is_str or key >= last)):
                continue
            wanted.append((key, map_[key]))
        self.assertEqual(list(it), wanted[::-1] if reverse else wanted)

    def test_each_key_removed_and_each_added(self):
        for name, kind in KINDS.items():
            with self.subTest(name):
                keys, map_ = made(kind, range(150))
                seen = []
                for key in map_:
                    seen.append(key)
                    del map_[key]
                self.assertEqual((seen, len(map_)), (keys, 0))
                keys, map_ = made(kind, range(0, 300, 2))
                seen = []
                for at, key in enumerate(map_):
                    seen.append(key)
                    # (each new key is behind the one that was returned)
                    if at < 150:
                        map_[kind(2 * at + 1)] = 1
                self.assertEqual(seen, [kind(number) for number in range(300)])

    def test_a_map_that_exchanges_its_pairs(self):
        keys, others = SortedSet(range(100)), SortedSet(f"{number:03d}" for number in range(100))
        it, other = iter(keys), iter(others)
        self.assertEqual((next(it), next(other)), (0, "000"))
        keys._swap(others)
        self.assertEqual((list(it), list(other)), ([f"{number:03d}" for number in range(100)], []))

    def test_a_change_by_code_that_an_end_runs(self):
        inside = []

        class Zone(datetime.tzinfo):
            def utcoffset(self, _):
                if not inside:
                    inside.append(1)
                    for it in [it for it in gc.get_objects() if type(it) is walk]:
                        next(it, None)
                    map_[f"{len(map_)}"] = 1
                    inside.pop()
                return datetime.timedelta(0)

        walk = type(iter(SortedMap()))
        for start in ({}, {1: 1, 2: 2}, {"a": 1}):
            map_ = SortedMap(start)
            low = datetime.datetime(2024, 1, 1, tzinfo=Zone())
            its = [map_.irange(low), map_.irange(None, low), map_.irange(low, reverse=True)]
            for _ in range(5):
                for it in its:
                    next(it, None)
                self.assertEqual(list(map_), [key for key, _ in map_.items()])


class Objects(unittest.TestCase):
    def test_the_key_objects_are_those_that_were_stored(self):
        for name, kind in KINDS.items():
            if name in ("int", "signed", "unsigned"):
                continue
            keys, map_ = made(kind, range(200))
            extra = kind(500)
            map_[extra] = 1
            self.alike([*keys, extra], map_)
            # (keys without the first bytes of the others)
            map_[None] = map_[()] = 1
            del map_[None], map_[()]
            for key in keys:
                map_[kind(keys.index(key))] = 2
            self.alike([*keys, extra], map_)
            self.alike([*keys, extra], map_.copy())
            self.alike(keys, SortedSet(keys))

    def alike(self, keys, map_):
        found = [
            list(map_),
            list(reversed(map_))[::-1],
            list(map_.irange()),
            list(map_.islice()),
            [*map_[:]] if isinstance(map_, SortedSet) else map_.keys()[:],
        ]
        if isinstance(map_, SortedMap):
            found += [[key for key, _ in map_.items()], [map_.peekitem(at)[0] for at in range(len(map_))]]
        for each in found:
            self.assertEqual([id(key) for key in each], [id(key) for key in keys])

    def test_ints_are_of_type_int(self):
        map_ = SortedMap({True: 1, 5: 2})
        map_[1] = 3
        self.assertEqual(repr(list(map_.items())), "[(True, 3), (5, 2)]")
        map_ = SortedMap({1: 1, 5: 2})
        map_[True] = 3
        self.assertEqual(repr(list(map_.items())), "[(1, 3), (5, 2)]")

    def test_a_map_that_is_gone(self):
        for kind in KINDS.values():
            keys, map_ = made(kind, range(100))
            it, gone = iter(map_), weakref.ref(map_)
            self.assertEqual(next(it), keys[0])
            del map_
            self.assertEqual((list(it), gone()), (keys[1:], None))
            map_ = SortedMap.fromkeys(keys)
            it, gone = iter(map_), weakref.ref(map_)
            next(it)
            del map_, it
            self.assertIsNone(gone())

    def test_cycles_through_keys_and_iterators(self):
        for steps in (0, 1, 17):
            map_ = SortedMap.fromkeys((Text(f"{number:03d}") for number in range(90)), 1)
            key = map_.keys()[steps]
            key.map = map_
            key.it, key.back = iter(map_.items()), map_.irange(key, reverse=True)
            for _ in range(steps):
                next(key.it)
                next(key.back, None)
            gone = weakref.ref(map_), weakref.ref(key)
            del map_, key
            gc.collect()
            self.assertEqual([it() for it in gone], [None, None])

    def test_references(self):
        for name, kind in KINDS.items():
            keys = [kind(number) for number in range(200)]
            value = object()
            before = sys.getrefcount(value), [sys.getrefcount(key) for key in keys]
            map_ = SortedMap.fromkeys(keys, value)
            for call in (
                iter,
                reversed,
                lambda it: iter(it.values()),
                lambda it: iter(it.items()),
                lambda it: it.irange(keys[5], keys[190]),
            ):
                for steps in (0, 1, 16, 17, 100, 300):
                    it = call(map_)
                    for _ in range(steps):
                        next(it, None)
                    map_.pop(keys[7])
                    next(it, None)
                    map_[keys[7]] = value
            del map_, it
            gc.collect()
            self.assertEqual((sys.getrefcount(value), [sys.getrefcount(key) for key in keys]), before, name)

    def test_a_key_whose_end_runs_code(self):
        map_ = SortedMap()

        class Last(str):
            def __del__(self):
                map_.pop("070", None)
                next(its[0], None)

        its = [iter(map_)]
        for turn in range(3):
            map_.update((Last(f"{number:03d}"), number) for number in range(100))
            its[0] = iter(map_)
            for _ in range(50):
                next(its[0], None)
                next(iter(map_.items()))
            map_.pop("049", None)
            list(its[0])
            self.assertEqual(list(map_), [key for key, _ in map_.items()])
            map_.clear()

    def test_a_search_that_drops_a_key_whose_end_empties_the_map(self):
        inside, ended = [], []

        class Last(str):
            def __del__(self):
                ended.append(1)
                map_.clear()

        class Zone(datetime.tzinfo):
            def utcoffset(self, _):
                if its and not inside:
                    inside.append(1)
                    next(its[0], None)
                    inside.pop()
                return datetime.timedelta(0)

        for more in ({}, {1: 1, 2: 2}):
            its = []
            map_ = SortedMap.fromkeys([Last("000"), *(f"{number:03d}" for number in range(1, 100))], 1)
            it = map_.irange("", datetime.datetime(2024, 1, 1, tzinfo=Zone()))
            self.assertEqual(next(it), "000")
            del map_["000"]
            its.append(it)
            self.assertEqual((ended, inside), ([], []))
            self.assertEqual((next(it, None), list(it), len(map_), ended), (None, [], 0, [1]))
            map_.update(more)
            self.assertEqual(list(map_), list(more))
            ended.clear()


if __name__ == "__main__":
    unittest.main()
