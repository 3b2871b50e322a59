"""Makes each call again and again, each time with another of its allocations failing.

A call that fails raises MemoryError, and leaves the map, its values and the count of references as
they were; `update` may keep the pairs before the one that failed, and so may `put_many` and
`del_many` of keys that no array has room for. At the end no block is left.
`tools/faces` runs this over an extension that is linked with refuse.c.
"""

import ctypes
import gc
import sys
import unittest
from array import array

from sweep_bptree import SortedMap, SortedSet, _native

_library = ctypes.PyDLL(_native.__file__)
refuse_after, blocks_held = _library.refuse_after, _library.blocks_held
refuse_after.argtypes, refuse_after.restype, blocks_held.restype = [ctypes.c_long], ctypes.c_long, ctypes.c_long


class Thing:
    pass


THING, OTHER = Thing(), Thing()
# (a key that is stored is not one that Python keeps for itself)
KINDS = {
    "none": [],
    "int": range(1000, 1080),
    "unsigned": range(2**63 + 5, 2**63 + 40),
    "str": [f"key {number:03d}" * (1 + number % 3) for number in range(70)],
    "long": [f"key {number:03d}" * 100 for number in range(40)],
    "alike": [f"a beginning of all {number:03d}" for number in range(80)],
    "tuple": [(number, "a" * number, 2.0**70) for number in range(40)],
}
KEYS = [5000, -5000, 2**63 + 7, 2**80, "key 0405", "key 030" * 100, 1003.5, (7, "x"), None, 1050]


def calls(key):
    """Those that change a map, and those that change none of it."""
    return [
        lambda map_: map_.__setitem__(key, THING),
        lambda map_: map_.setdefault(key, THING),
        lambda map_: map_.pop(key, None),
        lambda map_: map_.popitem() if map_ else None,
        lambda map_: map_.popitem(len(map_) // 2) if map_ else None,
        lambda map_: map_.update(THIRD) if not map_ else None,
        lambda map_: map_.update([(key, THING)]),
        lambda map_: map_.update([(5001, THING), (key, THING)]) if not map_ else None,
    ], [
        lambda map_: map_.get(key),
        lambda map_: map_.rank(key),
        lambda map_: map_.copy(),
        lambda map_: SortedSet(map_),
        lambda map_: list(map_.irange_items(key)),
        lambda map_: list(map_.irange(None, key, reverse=True)),
        lambda map_: list(map_.islice(1, 30)),
        lambda map_: map_.items().tolist(),
        lambda map_: map_.values()[::3],
        lambda map_: map_.peekitem(0) if map_ else None,
        lambda map_: list(map_.keys()),
        lambda map_: map_ == map_.copy(),
        lambda map_: SortedMap(map_.items()),
        lambda map_: walk_and_change(map_.copy(), key),
        lambda map_: SortedSet(map_).intersection_update(map_),
    ]


# Keys that are there and new ones, out of the ranges of some maps, and some of them equal.
ARRAYS = [
    array("q", [1003, 5000, 1001, 5000, -5000, 7, 1003]),
    array("Q", [2**63 + 7, 1003, 2**64 - 1, 2**63 + 7]),
    array("q", range(900, 1200, 3)),
    array("Q", range(2**63, 2**63 + 60)),
    array("q"),
]


def calls_of_arrays(given):
    """Those that change a map, and those that change none of it."""
    things = [THING] * len(given)
    return [
        lambda map_: map_.put_many(given, things),
        lambda map_: map_.put_many(given, tuple(things)),
        lambda map_: map_.put_many(given, given),
        lambda map_: map_.put_many(given, array("d", [0.5] * len(given))),
        lambda map_: map_.del_many(given),
    ], [
        lambda map_: map_.get_many(given),
        lambda map_: map_.get_many(given, THING),
        lambda map_: map_.rank_many(given),
        lambda map_: map_.keys_array(1, 2**64),
        lambda map_: map_.keys_array(maximum=2**63) if None not in map_ else None,
        lambda map_: SortedSet(map_).keys_array(0, 1050),
        lambda map_: SortedSet(map_).rank_many(given),
        lambda map_: SortedSet(map_).del_many(given),
        lambda map_: SortedMap.from_arrays(given, things),
        lambda map_: SortedMap.from_arrays(given, given).items_arrays(),
    ]


# What has a key of no type of array, or keys of both.
OTHERS = {
    "int and str": [*range(1000, 1030), "a"],
    "int and large": [*range(1000, 1030), 2**63 + 7, 2**80],
    "both ranges": [-5001, 2**64 - 2, *range(1000, 1030)],
    "str": KINDS["str"],
    "tuple": KINDS["tuple"],
}


def walk_and_change(map_, key):
    it = iter(map_.items())
    next(it, None)
    map_[key] = 1
    return list(it)


THIRD = {number: THING for number in range(2000, 2100)}


class Refused(unittest.TestCase):
    def test_each_call(self):
        refusals = 0
        for kind, keys in KINDS.items():
            for key in KEYS:
                changing, reading = calls(key)
                for at, call in enumerate(changing + reading):
                    with self.subTest(kind=kind, key=str(key)[:20], call=at):
                        refusals += self.refuse_each(list(keys), call)
        self.assertGreater(refusals, 5000)

    def refuse_each(self, keys, call):
        """Calls until no allocation failed. How many calls failed."""
        whole = SortedMap((key, OTHER) for key in keys)
        call(whole)
        after = whole.items().tolist()
        failures = 0
        for n in range(100000):
            before = None
            map_ = SortedMap((key, OTHER) for key in keys)
            before = map_.items().tolist()
            references = self.references(keys)
            refuse_after(n)
            try:
                call(map_)
                failed = False
            except MemoryError:
                failed = True
            was_refused = refuse_after(-1)
            if not was_refused:
                self.assertFalse(failed, "a MemoryError without a failed allocation")
            if failed:
                failures += 1
                self.assertEqual(map_.items().tolist(), before)
                self.assertEqual(self.references(keys), references)
            else:
                # (some calls do without what they asked for: a value of a key that is there is replaced)
                self.assertEqual(map_.items().tolist(), after)
            if not was_refused:
                return failures
        self.fail("an allocation always fails")

    def test_arrays(self):
        refusals = 0
        for kind, keys in [*KINDS.items(), *OTHERS.items()]:
            for given in ARRAYS:
                changing, reading = calls_of_arrays(given)
                # (of other keys a call may keep a part of the pairs)
                is_whole = kind in ("none", "int", "unsigned") and not (
                    min([*keys, *given], default=0) < 0 and max([*keys, *given]) >= 2**63
                )
                for at, call in enumerate(changing * is_whole + reading):
                    with self.subTest(kind=kind, given=given[:3], call=at):
                        refusals += self.refuse_each(list(keys), call)
        self.assertGreater(refusals, 5000)

    def test_arrays_of_a_map_of_other_keys(self):
        for kind, keys in [*OTHERS.items(), ("unsigned", KINDS["unsigned"])]:
            for given in ARRAYS:
                values, pairs = list(range(5000, 5000 + len(given))), [(key, OTHER) for key in keys]
                puts = [{**dict(pairs), **dict(zip(given, values[:n]))} for n in range(len(given) + 1)]
                dels = [{key: value for key, value in pairs if key not in given[:n]} for n in range(len(given) + 1)]
                for call, states in ((lambda: map_.put_many(given, values), puts), (lambda: map_.del_many(given), dels)):
                    for n in range(100000):
                        map_ = SortedMap(pairs)
                        refuse_after(n)
                        try:
                            call()
                            wanted = states[-1:]
                        except MemoryError:
                            wanted = states
                        if not refuse_after(-1):
                            break
                        self.assertIn(map_, wanted)
                    self.assertEqual(map_, states[-1])

    def test_arrays_of_pairs(self):
        for kind, keys in KINDS.items():
            keys = [key for key in keys if isinstance(key, int)]
            for values in (
                [1000 + at for at in range(80)],
                [at + 0.5 for at in range(80)],
                [2**63 + at for at in range(80)],
                [2**70] * 80,
            ):
                for more in ([], [("a", 1)]):
                    map_ = SortedMap([*zip(keys, values), *more])
                    before = map_.items().tolist()
                    for n in range(1000):
                        refuse_after(n)
                        try:
                            found = map_.items_arrays(0, 2**64)
                            self.assertEqual([part.tolist() for part in found], [keys, values[: len(keys)]])
                        except MemoryError:
                            pass
                        except OverflowError:
                            self.assertEqual(values[:1], [2**70])
                        if not refuse_after(-1):
                            break
                        self.assertEqual(map_.items().tolist(), before)
                    self.assertGreater(n, 4)

    def test_first_bytes_that_become_more_or_fewer(self):
        """The 64th key makes a map look for first bytes that all keys have; another key may not have them."""
        for keys in (KINDS["alike"][:63], KINDS["alike"][:62], [*KINDS["alike"], *KINDS["str"]]):
            for key in ("a beginning of all 999", "a beginning of one", "a", "", "b", b"x", 5000, 2**80, ("a",), None, "\ud800"):
                for make in (self.by_load, self.by_put):
                    plain = dict.fromkeys(keys, OTHER)
                    for n in range(1000):
                        map_ = make(keys)
                        refuse_after(n)
                        try:
                            map_[key] = THING
                            wanted = {**plain, key: THING}
                        except MemoryError:
                            wanted = plain
                        was_refused = refuse_after(-1)
                        self.assertEqual(map_, wanted)
                        self.assertEqual(
                            [at in map_ for at in (keys[5], "a beginning", "b", key)], [True, False, "b" in wanted, key in wanted]
                        )
                        if not was_refused:
                            break
                    self.assertEqual(wanted[key], THING)
                    # (a put into a leaf with room allocates an entry alone)
                    self.assertGreater(n, 0)

    def by_load(self, keys):
        return SortedMap.fromkeys(keys, OTHER)

    def by_put(self, keys):
        map_ = SortedMap()
        for key in keys:
            map_[key] = OTHER
        return map_

    def references(self, keys):
        gc.collect(0)
        return sys.getrefcount(THING), sys.getrefcount(OTHER), [sys.getrefcount(key) for key in keys]

    def test_update_of_a_map_that_is_not_empty(self):
        given = [(5000, 1), (5001, 2), (2**64 - 1, 3), ("a", 4), (-5, 5), (0.5, 6)]
        for start in ({1: 1}, {"x": 1}):
            for n in range(1000):
                map_ = SortedMap(start)
                refuse_after(n)
                try:
                    map_.update(given)
                    stored = [len(given)]
                except MemoryError:
                    stored = range(len(given))
                if not refuse_after(-1):
                    break
                self.assertIn(map_, [{**start, **dict(given[:many])} for many in stored])
            self.assertGreater(n, 10)
            self.assertEqual(map_, {**start, **dict(given)})

    def test_clear_never_fails(self):
        for keys in KINDS.values():
            map_ = SortedMap.fromkeys(keys, THING)
            before = sys.getrefcount(THING)
            refuse_after(0)
            map_.clear()
            self.assertEqual((refuse_after(-1), len(map_), sys.getrefcount(THING)), (0, 0, before - len(keys)))

    def test_sets(self):
        for keys in KINDS.values():
            for key in KEYS:
                for call in (
                    lambda keys: keys.add(key),
                    lambda keys: keys.discard(key),
                    lambda keys: keys and keys.pop(0),
                    lambda keys: keys.symmetric_difference_update([key, 5]),
                ):
                    for n in range(1000):
                        numbers = SortedSet(keys)
                        refuse_after(n)
                        try:
                            call(numbers)
                        except MemoryError:
                            self.assertEqual(list(numbers), list(keys))
                        if not refuse_after(-1):
                            break

    def tearDown(self):
        gc.collect()
        self.assertEqual(blocks_held(), 0)


if __name__ == "__main__":
    unittest.main()
