"""References to keys and values: no leak, no early release, and cycles are collected."""

import gc
import random
import sys
import unittest
import weakref

from sweep_bptree import SortedMap, SortedSet


class Thing:
    pass


class Text(str):
    pass


# (none of the ints that Python keeps one of)
KINDS = {
    "int": lambda number: number + 1000,
    "unsigned": lambda number: number + 2**63 - 500,
    "float": lambda number: number + 0.5,
    "str": lambda number: f"key {number:06d}",
    "text": lambda number: Text(f"key {number:06d}"),
    "tuple": lambda number: (number // 10, str(number)),
    "mixed": lambda number: number + 1000 if number % 3 else f"key {number}",
    "alike": lambda number: f"a beginning of most {number:06d}" if number % 90 else f"a{number}",
}


class References(unittest.TestCase):
    def test_each_call_leaves_the_count_as_it_was(self):
        for name, kind in KINDS.items():
            with self.subTest(name):
                self.count(kind)

    def count(self, kind):
        thing, dice = Thing(), random.Random(7)
        keys = [kind(number) for number in range(1000)]
        before = sys.getrefcount(thing), [sys.getrefcount(key) for key in keys]
        map_, other = SortedMap(), SortedMap([(key, thing) for key in dice.sample(keys, 700)])
        for turn in range(6000):
            key = dice.choice(keys)
            [
                lambda: map_.__setitem__(key, thing),
                lambda: map_.setdefault(key, thing),
                lambda: map_.pop(key, thing),
                lambda: map_.get(key, thing),
                lambda: map_.popitem(dice.randrange(-len(map_), len(map_))) if map_ else None,
                lambda: map_.peekitem(dice.randrange(len(map_))) if map_ else None,
                lambda: next(map_.irange_items(key), None),
                lambda: next(reversed(map_.values()), None),
                lambda: map_.update([(key, thing), (key, thing), (keys[turn % 1000], thing)]),
                lambda: key in map_ and map_.__delitem__(key),
                lambda: (map_.index(key), map_.rank(key)) if key in map_ else map_.bisect(key),
                lambda: list(map_.islice(3, 70)) and map_.keys()[5:50:3],
                lambda: turn % 9 == 0 and (map_.copy(), map_ == other, map_ | other, SortedSet(map_), map_.items().tolist()),
                lambda: turn % 70 == 0 and map_.update(other),
                lambda: turn % 90 == 0 and map_.clear(),
            ][turn % 15]()
        it = iter(map_.items())
        next(it, None)
        del map_, other, it, key
        gc.collect()
        self.assertEqual((sys.getrefcount(thing), [sys.getrefcount(key) for key in keys]), before)

    def test_sets(self):
        for kind in KINDS.values():
            keys = [kind(number) for number in range(300)]
            before = [sys.getrefcount(key) for key in keys], sys.getrefcount(None)
            numbers = SortedSet(keys[:200])
            for key in keys:
                numbers.add(key)
                numbers.discard(keys[7])
            numbers |= set(keys)
            numbers &= SortedSet(keys[50:])
            numbers ^= SortedSet(keys[100:])
            numbers -= {keys[60]}
            numbers.pop()
            numbers.pop(0)
            del numbers[0], numbers[5:9], numbers, key
            gc.collect()
            self.assertEqual([sys.getrefcount(key) for key in keys], before[0])
            self.assertLess(abs(sys.getrefcount(None) - before[1]), 200)

    def test_updates_that_fail(self):
        thing = Thing()
        before = sys.getrefcount(thing)
        for given in ([(1, thing), (2, thing), ([], thing)], [("a", thing), (1.5, thing), (float("nan"), thing)], [(1, thing), (1, 2, 3)]):
            for start in ({}, {5: 5}, {"x": 5}):
                self.assertRaises((TypeError, ValueError), SortedMap(start).update, given)
            del given[:]
        self.assertEqual(sys.getrefcount(thing), before)

    def test_cycles_are_collected(self):
        for kind in KINDS.values():
            for hold in (
                lambda map_, thing: None,
                lambda map_, thing: setattr(thing, "it", iter(map_)),
                lambda map_, thing: setattr(thing, "view", map_.items()),
            ):
                map_, thing = SortedMap(), Thing()
                map_[kind(1)], thing.map = thing, map_
                hold(map_, thing)
                gone = weakref.ref(thing), weakref.ref(map_)
                del map_, thing
                gc.collect()
                self.assertEqual([it() for it in gone], [None, None])

    def test_cycles_through_a_key_and_an_iterator(self):
        key = Text("a")
        key.map = SortedMap({key: 1})
        key.set = SortedSet([key])
        key.it = key.map.irange(key)
        key.started = iter(key.map)
        next(key.started)
        gone = weakref.ref(key.map), weakref.ref(key.set)
        del key
        gc.collect()
        self.assertEqual([it() for it in gone], [None, None])

    def test_weak_references(self):
        map_ = SortedMap()
        gone = weakref.ref(map_)
        self.assertIs(gone(), map_)
        del map_
        self.assertIsNone(gone())

    def test_deep_maps_are_freed(self):
        for key in (1, "a"):
            map_ = SortedMap()
            for _ in range(100000):
                map_ = SortedMap({key: map_})
            del map_
            held = SortedMap()
            for _ in range(100000):
                held = SortedMap({key: iter(held)})
            del held

    def test_code_that_runs_when_a_value_goes(self):
        for kind in KINDS.values():
            map_ = SortedMap()

            class Last:
                def __del__(self):
                    map_.update((kind(number), Thing()) for number in range(300, 320))
                    map_.pop(kind(5), None)
                    list(map_.items())

            for call in (
                map_.clear,
                lambda: map_.popitem(0),
                lambda: map_.pop(kind(1), None),
                lambda: map_.__setitem__(kind(1), 2),
                lambda: map_.update((kind(number), number) for number in range(100)),
                lambda: [map_.__setitem__(key, 1) for key in map_ if len(map_) < 500],
            ):
                for _ in range(5):
                    map_.clear()
                    map_.update((kind(number), Last()) for number in range(50))
                    it = iter(map_.values())
                    next(it, None)
                    call()
                    list(it)
                    self.assertEqual([key for key, _ in map_.items()], list(map_))
            map_.clear()
            map_.clear()

    def test_a_collection_during_calls(self):
        self.addCleanup(gc.set_threshold, *gc.get_threshold())
        gc.set_threshold(1)
        for kind in KINDS.values():
            map_ = SortedMap()

            class Change:
                def __init__(self):
                    self.itself = self

                def __del__(self):
                    if len(map_) % 2:
                        map_.pop(kind(len(map_)), None)
                    map_[kind(len(map_) * 7 % 100)] = Thing()
                    if len(map_) > 60:
                        map_.clear()

            for turn in range(300):
                Change()
                map_[kind(turn % 100)] = [turn]
                next(map_.irange_items(kind(turn % 50)), None)
                if map_:
                    try:
                        map_.peekitem(turn % len(map_))
                        map_.popitem(turn % len(map_))
                    except (IndexError, KeyError):
                        pass
                map_.items().tolist()
                self.assertEqual(list(SortedMap(map_.items())), list(map_.copy()))


if __name__ == "__main__":
    unittest.main()
