"""The map beside `dict` and `sorted`, and each habit of a sorted mapping by itself."""

import collections.abc
import copy
import gc
import importlib.util
import pickle
import random
import sys
import unittest
from bisect import bisect_left, bisect_right
from unittest import mock

import sweep_bptree
from sweep_bptree import SortedMap, SortedSet, _library, _native

GREATEST = 2**64 - 1


class Habits(unittest.TestCase):
    def setUp(self):
        self.plain = {key * 3: key for key in range(300)}
        self.keys = sorted(self.plain)
        self.map = SortedMap(self.plain)

    def test_made_of_a_mapping_of_pairs_and_of_nothing(self):
        self.assertEqual(list(SortedMap()), [])
        self.assertEqual(list(SortedMap([(2, 5), (1, 4), (2, 6)]).items()), [(1, 4), (2, 6)])
        self.assertEqual(SortedMap(self.map), self.plain)
        self.assertEqual(SortedMap.fromkeys([3, 1], 9), {1: 9, 3: 9})

    def test_items(self):
        self.assertEqual(self.map[30], 10)
        self.map[31] = 7
        self.assertEqual((self.map[31], len(self.map)), (7, 301))
        del self.map[31]
        self.assertEqual(self.map, self.plain)
        with self.assertRaises(KeyError):
            self.map[31]
        with self.assertRaises(KeyError):
            del self.map[31]
        self.assertIn(30, self.map)
        self.assertNotIn(31, self.map)
        self.assertEqual((self.map.get(30), self.map.get(31), self.map.get(31, 5)), (10, None, 5))
        self.assertEqual((self.map.setdefault(30, 1), self.map.setdefault(32, 1)), (10, 1))

    def test_both_ends_of_what_fits(self):
        both = SortedMap({GREATEST: GREATEST, 0: 0})
        self.assertEqual(list(both.items()), [(0, 0), (GREATEST, GREATEST)])
        self.assertEqual(list(reversed(both)), [GREATEST, 0])
        for key in (-1, -(2**64), 2**64, 2**200, "1", 1.0, None, (1,)):
            self.finds_nothing(both, key)
            more = both.copy()
            more[key] = [key]
            self.assertEqual(more, {**both, key: [key]})
            self.assertEqual(more.pop(key), [key])
            self.assertEqual(more, both)
        for other in ([1], object()):
            self.finds_nothing(both, other)
            self.stores_nothing(TypeError, both, other)
        self.assertEqual(both, {GREATEST: GREATEST, 0: 0})

    def finds_nothing(self, map_, key):
        self.assertNotIn(key, map_)
        self.assertIsNone(map_.get(key))
        self.assertEqual((map_.get(key, 5), map_.pop(key, 6)), (5, 6))
        with self.assertRaises(KeyError):
            map_[key]
        with self.assertRaises(KeyError):
            del map_[key]
        with self.assertRaises(KeyError):
            map_.pop(key)
        with self.assertRaises(ValueError):
            map_.index(key)

    def stores_nothing(self, error, map_, member):
        for call in (
            lambda: map_.__setitem__(member, 1),
            lambda: map_.setdefault(member),
            lambda: map_.update([(1, 1), (member, 1)]),
            lambda: map_.__ior__([(1, 1), (member, 1)]),
            lambda: SortedMap([(1, 1), (member, 1)]),
            lambda: SortedMap.fromkeys([1, member]),
        ):
            with self.assertRaises(error):
                call()

    def test_counts_of_ints_that_are_no_keys(self):
        both = SortedMap({GREATEST: 1, 0: 2, 7: 3})
        keys = list(both)
        for key in (-(2**70), -1, 0, 1, GREATEST - 1, GREATEST, 2**64, 2**70):
            self.assertEqual(both.rank(key), bisect_left(keys, key))
            self.assertEqual(both.bisect_left(key), bisect_left(keys, key))
            self.assertEqual(both.bisect_right(key), bisect_right(keys, key))
            for other in (-5, 0, 7, 8, GREATEST, 2**64, 2**70):
                within = [k for k in keys if key <= k < other]
                self.assertEqual(both.range_len(key, other), len(within))
                within = [k for k in keys if key <= k <= other]
                self.assertEqual(list(both.irange(key, other)), within)
        for call in (both.rank, both.bisect_left, both.bisect_right):
            self.assertEqual((call(1.0), call(None), call("a")), (1, 0, 3))
            with self.assertRaises(TypeError):
                call([1])

    def test_ints_by_index(self):
        class Seven:
            def __index__(self):
                return 7

        map_, seven = SortedMap({True: 1}), Seven()
        map_[Seven()] = seven
        map_.update([(8, seven)])
        self.assertEqual(map_, {1: 1, 7: seven, 8: seven})
        self.assertEqual((map_[Seven()], map_.setdefault(9, 5), map_[True]), (seven, 5, 1))

    def test_defaults_are_none(self):
        self.assertEqual((self.map.setdefault(1), self.map[1]), (None, None))
        self.assertEqual(SortedMap.fromkeys([2]), {2: None})

    def test_default_and_index_by_name(self):
        self.assertEqual((self.map.get(1, default=2), self.map.pop(1, default=3)), (2, 3))
        self.assertEqual(self.map.setdefault(1, default=4), 4)
        self.assertEqual((self.map.peekitem(index=0), self.map.popitem(index=0)), ((0, 0), (0, 0)))
        for call in (
            lambda: self.map.get(),
            lambda: self.map.get(1, 2, 3),
            lambda: self.map.get(1, 2, default=3),
            lambda: self.map.get(key=1),
            lambda: self.map.get(1, other=3),
            lambda: self.map.irange(1, 2, (True, True), False, 5),
            lambda: self.map.peekitem("a"),
            lambda: self.map.keys()["a"],
            lambda: SortedMap((), key=1)._list(3),
            lambda: self.map.irange(inclusive=5),
            lambda: type(iter(self.map))(),
        ):
            self.assertRaises(TypeError, call)
        self.assertRaises(ValueError, self.map.irange, 1, 2, (True,))

    def test_pop(self):
        self.assertEqual(self.map.pop(30), 10)
        self.assertEqual(self.map.pop(30, "none"), "none")
        with self.assertRaises(KeyError):
            self.map.pop(30)
        self.assertEqual(self.map.popitem(), (897, 299))
        self.assertEqual(self.map.popitem(0), (0, 0))
        self.assertEqual(self.map.popitem(-2), (891, 297))
        with self.assertRaises(IndexError):
            self.map.popitem(1000)
        self.map.clear()
        for index in ((), (0,), (7,)):
            with self.assertRaises(KeyError):
                self.map.popitem(*index)
            with self.assertRaises(sweep_bptree.EmptyError):
                self.map.popitem(*index)
        self.assertFalse(self.map)

    def test_places(self):
        self.assertEqual(self.map.peekitem(), (897, 299))
        self.assertEqual(self.map.peekitem(10), (30, 10))
        self.assertEqual(self.map.peekitem(-300), (0, 0))
        for place in (300, -301):
            with self.assertRaises(IndexError):
                self.map.peekitem(place)
        self.assertEqual(self.map.index(30), 10)
        with self.assertRaises(ValueError):
            self.map.index(31)
        for key in (0, 1, 30, 31, 897, 898):
            self.assertEqual(self.map.bisect_left(key), bisect_left(self.keys, key))
            self.assertEqual(self.map.bisect_right(key), bisect_right(self.keys, key))
            self.assertEqual(self.map.bisect(key), bisect_right(self.keys, key))
        self.assertEqual(self.map.range_len(30, 60), 10)

    def test_views(self):
        pairs = sorted(self.plain.items())
        for view, wanted in [
            (self.map.keys(), self.keys),
            (self.map.values(), [value for _, value in pairs]),
            (self.map.items(), pairs),
        ]:
            self.assertEqual(list(view), wanted)
            self.assertEqual(view.tolist(), wanted)
            self.assertEqual(list(reversed(view)), wanted[::-1])
            self.assertEqual((view[5], view[-1], view[3:9]), (wanted[5], wanted[-1], wanted[3:9]))
            self.assertEqual(len(view), 300)
            self.assertIn(wanted[7], view)
            self.assertEqual((view.index(wanted[7]), view.count(wanted[7]), view.count(5.5)), (7, 1, 0))
            with self.assertRaises(IndexError):
                view[300]
            for of in (slice(None, None, -1), slice(5, 100, 7), slice(-3, 2, -2), slice(100, 5), slice(7, 8, 3)):
                self.assertEqual(view[of], wanted[of])
        self.assertEqual(self.map.keys() & {3, 4}, {3})
        self.assertEqual(self.map.items() - {(3, 1)}, set(self.plain.items()) - {(3, 1)})
        self.assertNotIn((3, 2), self.map.items())
        self.assertNotIn(300, self.map.values())
        for index in (lambda: self.map.items().index((3, 2)), lambda: self.map.keys().index(3, 2), lambda: self.map.values().index(300)):
            self.assertRaises(ValueError, index)

    def test_ranges(self):
        for reverse in (False, True):
            for inclusive in [(True, True), (True, False), (False, True), (False, False)]:
                for low, high in [
                    (None, None),
                    (30, 600),
                    (31, 601),
                    (600, 30),
                    (30, 30),
                    (None, 5),
                    (890, None),
                ]:
                    wanted = [
                        key
                        for key in self.keys
                        if (low is None or key > low or key == low and inclusive[0])
                        and (high is None or key < high or key == high and inclusive[1])
                    ]
                    found = list(self.map.irange(low, high, inclusive, reverse))
                    self.assertEqual(found, wanted[::-1] if reverse else wanted)
        self.assertEqual(list(self.map.islice(5, 200)), self.keys[5:200])
        self.assertEqual(list(self.map.islice(-9, reverse=True)), self.keys[-9:][::-1])
        self.assertEqual(list(self.map.islice(9, 9)), [])
        self.assertEqual(list(SortedMap().islice()), [])
        self.assertEqual(list(self.map.irange(30, 60, reverse=True)), self.keys[10:21][::-1])
        self.assertEqual((self.map.range_len(30), self.map.range_len(None, 30), self.map.range_len()), (290, 10, 300))
        self.assertEqual((self.map.index(30, 10, 11), self.map.index(30, -290)), (10, 10))
        for start, stop in [(11, None), (0, 10), (-289, None)]:
            self.assertRaises(ValueError, self.map.index, 30, start, stop)

    def test_an_iterator_outlives_changes(self):
        seen = []
        for key in self.map:
            seen.append(key)
            del self.map[key]
            if key == 300:
                self.map[896] = 1
        self.assertEqual(seen, sorted([*self.keys, 896]))
        self.assertEqual(len(self.map), 0)

    def test_an_iterator_goes_on_from_its_last_key(self):
        dice = random.Random(7)
        for kind in (int, float, "{:05d}".format, lambda number: (number // 9, number)):
            for reverse in (False, True):
                for bounded in (False, True):
                    plain = {kind(number): number for number in dice.sample(range(400), 200)}
                    map_ = SortedMap(plain)
                    low, high = (kind(20), kind(350)) if bounded else (None, None)
                    it, last, seen = map_.irange_items(low, high, reverse=reverse), None, 0
                    while True:
                        for _ in range(dice.randrange(4)):
                            key = kind(dice.randrange(400))
                            if key in plain and dice.random() < 0.6:
                                self.assertEqual(map_.pop(key), plain.pop(key))
                            else:
                                map_[key] = plain[key] = dice.random()
                        left = [
                            key
                            for key in sorted(plain, reverse=reverse)
                            if (last is None or (key < last if reverse else key > last)) and not (bounded and not low <= key <= high)
                        ]
                        found = next(it, None)
                        self.assertEqual(found, (left[0], plain[left[0]]) if left else None)
                        if not left:
                            break
                        last, seen = left[0], seen + 1
                    self.assertEqual((next(it, None), seen > 50), (None, True))
                    map_[kind(399)] = 1
                    self.assertIsNone(next(it, None))

    def test_an_iterator_outlives_other_keys_and_a_cleared_map(self):
        for more in ("a", 0.5, 2**63, -1, 2**70):
            map_ = SortedMap({1: 1, 2: 2})
            it, back = iter(map_), reversed(map_)
            self.assertEqual((next(it), next(back)), (1, 2))
            map_[more] = 3
            rest = sorted([*map_], key=str)
            self.assertEqual(list(it), [key for key in map_ if list(map_).index(key) > map_.index(1)])
            self.assertEqual(list(back), [*map_][: map_.index(2)][::-1])
            self.assertEqual(len(rest), 3)
        map_ = SortedMap({1: 1, 2: 2})
        it = iter(map_)
        next(it)
        map_.clear()
        map_[3] = 3
        self.assertEqual(list(it), [3])

    def test_update_takes_the_last_of_equal_keys(self):
        for many in (1, 20, 2000):
            given = [(key * 7 % 1000, key) for key in range(many)]
            self.map.update(given)
            self.plain.update(given)
            self.assertEqual(self.map, self.plain)
        self.map.update({1: 2})
        self.assertEqual(self.map[1], 2)
        bad_pairs = [([(1, 9), (1, 2, 3)], ValueError), ([(1, 9), 5], TypeError), (5, TypeError)]
        for bad, error in bad_pairs:
            with self.assertRaises(error):
                self.map.update(bad)
        self.assertEqual(self.map[1], 2)

    def test_copies_and_equality(self):
        for other in (self.map.copy(), copy.copy(self.map), pickle.loads(pickle.dumps(self.map))):
            self.assertEqual(other, self.map)
            other[1] = 1
            self.assertNotEqual(other, self.map)
            self.assertNotIn(1, self.map)
        self.assertEqual(self.map | {1: 1}, {**self.plain, 1: 1})
        self.map |= {1: 1}
        self.assertEqual(self.map, {**self.plain, 1: 1})
        self.assertNotEqual(self.map, 7)
        self.assertEqual({1: 1, 5: 5} | SortedMap({1: 2}), SortedMap({1: 2, 5: 5}))
        self.assertIsInstance({1: 1} | SortedMap(), SortedMap)
        for other in ([(1, 1)], 5, None):
            self.assertRaises(TypeError, lambda: self.map | other)
            self.assertRaises(TypeError, lambda: other | self.map)
        self.assertEqual(repr(SortedMap({2: 1, 1: 2})), "SortedMap({1: 2, 2: 1})")
        with self.assertRaises(TypeError):
            hash(self.map)


class Errors(unittest.TestCase):
    """What is raised while a map is made or freed, and what is raised behind that."""

    def setUp(self):
        self.behind = []
        hook = sys.unraisablehook
        sys.unraisablehook = lambda it: self.behind.append(it.exc_value)
        self.addCleanup(setattr, sys, "unraisablehook", hook)

    def nothing_behind(self):
        gc.collect()
        self.assertEqual(self.behind, [])

    def test_a_constructor_that_fails_raises_one_error(self):
        for call, error in [
            (lambda: SortedMap(5), TypeError),
            (lambda: SortedMap([([], -1)]), TypeError),
            (lambda: SortedMap((), ()), TypeError),
            (lambda: SortedMap(None), TypeError),
            (lambda: SortedMap(1 / 0 for _ in range(1)), ZeroDivisionError),
        ]:
            with self.assertRaises(error):
                call()
            self.nothing_behind()

    def test_made_without_init_and_made_again(self):
        map_ = SortedMap.__new__(SortedMap)
        self.assertEqual(map_, {})
        map_.__init__({1: 10})
        map_.__init__({2: 20})
        self.assertEqual(map_, {1: 10, 2: 20})
        del map_
        self.nothing_behind()

    def test_a_build_without_a_lock_is_turned_down(self):
        with mock.patch.object(sys, "_is_gil_enabled", lambda: False, create=True):
            with self.assertRaises(ImportError):
                importlib.reload(sweep_bptree)
            with self.assertRaises(ImportError):
                _library.functions()

    def test_the_compiled_part_is_there_once(self):
        spec = importlib.util.find_spec("sweep_bptree._native")
        with self.assertRaises(ImportError):
            spec.loader.exec_module(importlib.util.module_from_spec(spec))


class AtRandom(unittest.TestCase):
    def test_beside_a_dict(self):
        dice = random.Random(7)
        plain, map_ = {}, SortedMap()
        for turn in range(40000):
            key, value = dice.randrange(2500), dice.randrange(2**64)
            call = dice.randrange(8)
            if call < 4:
                plain[key] = map_[key] = value
            elif call < 6:
                self.assertEqual(map_.pop(key, None), plain.pop(key, None))
            elif call == 6 and plain:
                keys = sorted(plain)
                place = dice.randrange(len(keys))
                self.assertEqual(map_.peekitem(place), (keys[place], plain[keys[place]]))
                self.assertEqual(map_.rank(key), bisect_left(keys, key))
                low, high = sorted((key, dice.randrange(2500)))
                wanted = [k for k in keys if low <= k <= high]
                self.assertEqual(list(map_.irange(low, high)), wanted)
            else:
                self.assertEqual(map_.get(key), plain.get(key))
            if turn % 5000 == 4999:
                self.assertEqual(list(map_.items()), sorted(plain.items()))
        self.assertEqual(map_, plain)


class Objects(unittest.TestCase):
    """What a class of Python's containers has."""

    def test_abstract_classes(self):
        self.assertIsInstance(SortedMap(), collections.abc.MutableMapping)
        self.assertTrue(issubclass(SortedMap, collections.abc.Reversible))
        for view, of in [("keys", collections.abc.KeysView), ("values", collections.abc.ValuesView), ("items", collections.abc.ItemsView)]:
            self.assertIsInstance(getattr(SortedMap(), view)(), of)
            self.assertIsInstance(getattr(SortedMap(), view)(), collections.abc.Sequence)
        self.assertEqual(SortedMap[int, str].__args__, (int, str))

    def test_a_subclass_keeps_its_attributes(self):
        for it in (self.made(), self.made().copy(), copy.copy(self.made()), copy.deepcopy(self.made())):
            self.assertEqual((type(it), it, it.colour), (Coloured, {"a": [1]}, "red"))
        for protocol in range(pickle.HIGHEST_PROTOCOL + 1):
            it = pickle.loads(pickle.dumps(self.made(), protocol))
            self.assertEqual((type(it), it, it.colour), (Coloured, {"a": [1]}, "red"))

    def made(self):
        made = Coloured("red")
        made["a"] = [1]
        return made

    def test_a_map_that_has_itself(self):
        map_ = SortedMap()
        map_["self"] = map_
        self.assertEqual(repr(map_), "SortedMap({'self': SortedMap(...)})")
        for other in (pickle.loads(pickle.dumps(map_)), copy.deepcopy(map_)):
            self.assertIs(other["self"], other)
            self.assertIsNot(other, map_)
        deep = copy.deepcopy(SortedMap({1: [2]}))
        self.assertEqual(deep, {1: [2]})

    def test_classes_that_can_not_be(self):
        with self.assertRaises(TypeError):
            type("Both", (SortedMap, SortedSet), {})
        for of in (_native.Map, _native.Set, _native.Sorted, type(iter(SortedMap()))):
            self.assertRaises(TypeError, of)
            self.assertRaises(TypeError, object.__new__, of)
        self.assertRaises(TypeError, type("Other", (_native.Sorted,), {}))
        self.assertRaises(TypeError, object.__new__, SortedMap)

    def test_calls_of_the_compiled_part(self):
        map_, keys = SortedMap({1: 2}), SortedSet([1])
        for call in (
            lambda: map_._list(3),
            lambda: map_._list(-1),
            lambda: keys._list(1),
            lambda: keys._walk(2, False),
            lambda: keys._at(1, 0),
            lambda: map_._store([1]),
            lambda: map_._store([[1, 2]]),
            lambda: map_._store(5),
            lambda: keys._swap(map_),
            lambda: map_._swap(keys),
            lambda: map_._swap(5),
        ):
            self.assertRaises(TypeError, call)
        self.assertRaises(OverflowError, map_._list, 2**70)
        keys._swap(keys)
        keys._store(map_)
        map_._store(map_)
        self.assertEqual((map_, keys), ({1: 2}, {1}))

    def test_match_and_unpack(self):
        self.assertEqual((lambda **named: named)(**SortedMap(b=1, a=2)), {"a": 2, "b": 1})
        self.assertEqual({**SortedMap({1: 2})}, {1: 2})
        match SortedMap(a=1, b=2):
            case {"a": one}:
                self.assertEqual(one, 1)
            case _:
                self.fail("a mapping pattern")


class Coloured(SortedMap):
    def __init__(self, colour):
        super().__init__()
        self.colour = colour


if __name__ == "__main__":
    unittest.main()
