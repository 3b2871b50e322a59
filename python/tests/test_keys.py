"""The kinds of keys: their order, which of them are equal, and what is no key."""

import datetime
import enum
import math
import random
import unittest
from collections import namedtuple
from fractions import Fraction

from sweep_bptree import SortedMap, SortedSet

NEAR = [2**power + more for power in (31, 52, 53, 62, 63, 64, 65, 100, 1023, 1024, 2046, 2047, 2048, 20000) for more in (-1, 0, 1)]
FLOATS = [0.0, 0.5, 1.5, 5e-324, 2.2e-308, 1e-300, 0.1, 1e15 + 0.5, 2.0**53, 2.0**63, 2.0**64, 1e300, 1.7976931348623157e308]
NUMBERS = [*range(-300, 300, 7), *NEAR, *(-it for it in NEAR), *FLOATS, *(-it for it in FLOATS), math.inf, -math.inf]
STRINGS = [
    "",
    "\0",
    "\0\0",
    "a",
    "a\0",
    "a\0b",
    "a\x01",
    "ab",
    "b",
    "é",
    "\u20ac",
    "\ud7ff",
    "\ud800",
    "\ue000",
    "\U0001f600",
    "\xff",
    "x" * 1000,
]
BYTES = [b"", b"\0", b"\0\0", b"\0\xff", b"\xff", b"a", b"a\0", b"a\xff", b"\xff\xff", bytes(1000)]
UTC = datetime.timezone.utc
EAST = datetime.timezone(datetime.timedelta(hours=5, minutes=30))
DATES = [datetime.date.min, datetime.date(1969, 12, 31), datetime.date(1970, 1, 1), datetime.date(2024, 2, 29), datetime.date.max]
NAIVE = [datetime.datetime.min, datetime.datetime(1969, 12, 31, 23, 59, 59, 999999), datetime.datetime(1970, 1, 1), datetime.datetime.max]
AWARE = [it.replace(tzinfo=zone) for it in NAIVE for zone in (UTC, EAST)]
TUPLES = [
    (),
    (None,),
    (1,),
    (1, 2),
    (1.5,),
    ("a",),
    ("a", "b"),
    ("a\0",),
    ("a\0", 1),
    (b"", "x"),
    ((),),
    ((1,), 2),
    ((1, 2),),
    (True, "z"),
    (2**70,),
    ("", ""),
]
KINDS = [[None], NUMBERS, STRINGS, BYTES, DATES, NAIVE, AWARE, TUPLES]


def place(key):
    """What orders keys: the kind, and the key among those of its kind."""
    if key is None:
        return (0,)
    if isinstance(key, (int, float)):
        return (1, key)
    if isinstance(key, datetime.datetime):
        return (5, key) if key.tzinfo is None else (6, key)
    if isinstance(key, tuple):
        return (7, [place(part) for part in key])
    return ({str: 2, bytes: 3, datetime.date: 4}[type(key)], key)


def sorted_keys(keys):
    found = []
    for key in sorted(keys, key=place):
        if not found or place(found[-1]) != place(key):
            found.append(key)
    return found


def exact(number):
    return number if isinstance(number, float) and math.isinf(number) else Fraction(number)


class Order(unittest.TestCase):
    def test_each_kind_in_its_order(self):
        dice = random.Random(7)
        for kind in KINDS:
            for _ in range(3):
                given = dice.sample(kind, len(kind))
                self.assertEqual(list(SortedSet(given)), sorted_keys(given))
                one_by_one = SortedSet()
                for key in given:
                    one_by_one.add(key)
                self.assertEqual(list(one_by_one), sorted_keys(given))
                self.assertEqual(list(reversed(one_by_one)), sorted_keys(given)[::-1])

    def test_kinds_are_ordered_too(self):
        keys = [key for kind in KINDS for key in kind]
        self.assertEqual(list(SortedSet(random.Random(7).sample(keys, len(keys)))), sorted_keys(keys))
        self.assertEqual(list(SortedSet([(key, 1) for key in reversed(keys)])), [(key, 1) for key in sorted_keys(keys)])

    def test_numbers_by_their_exact_value(self):
        keys = SortedSet(NUMBERS)
        wanted = sorted({exact(it) for it in NUMBERS})
        self.assertEqual([exact(it) for it in keys], wanted)
        for number in NUMBERS:
            self.assertEqual(keys.bisect_left(number), sum(it < exact(number) for it in wanted))
            self.assertIn(number, keys)

    def test_any_key_among_ints_of_64_bits(self):
        for ints in ([-(2**63), -5, -1, 0, 1, 2, 7, 2**53, 2**62, 2**63 - 1], [0, 1, 2, 7, 2**53, 2**63, 2**64 - 1], [5], []):
            keys = SortedSet(ints)
            for key in [*NUMBERS, *(it + 0.5 for it in range(-9, 9)), -0.0, -0.5, True]:
                self.assertEqual(keys.bisect_left(key), sum(it < exact(key) for it in ints), key)
                self.assertEqual(keys.bisect_right(key), sum(it <= exact(key) for it in ints), key)
                self.assertEqual(key in keys, exact(key) in ints, key)
            for key in [*STRINGS, *BYTES, *DATES, *AWARE, *TUPLES]:
                self.assertEqual(keys.rank(key), len(ints))
                self.assertNotIn(key, keys)
            self.assertEqual((keys.rank(None), None in keys), (0, False))

    def test_ints_of_both_ranges(self):
        for given in (
            [2**64 - 1, 5],
            [5, 2**64 - 1],
            [-1, 5],
            [5, -1],
            [2**64 - 1, -1],
            [-1, 5, 2**63],
            [2**63, 5, -1],
            [5, 2**64],
            [5, -(2**63) - 1],
        ):
            for made in (
                SortedSet(given),
                self.one_by_one(SortedSet(), given),
                self.one_by_one(SortedSet([7]), given),
                self.one_by_one(SortedSet(["x"]), given),
            ):
                keys = [key for key in made if key != "x" and (key != 7 or 7 in given)]
                self.assertEqual(keys, sorted(given))

    def one_by_one(self, keys, given):
        for key in given:
            keys.add(key)
        return keys

    def test_a_float_moves_all_ints(self):
        map_ = SortedMap((key, [key]) for key in range(-500, 500))
        values = list(map_.values())
        map_[0.5] = "half"
        self.assertEqual(map_.pop(0.5), "half")
        self.assertTrue(all(one is other for one, other in zip(map_.values(), values)))
        self.assertEqual(list(map_), list(range(-500, 500)))


class AtRandom(unittest.TestCase):
    """Keys of all kinds in one map, beside a list that is sorted by the table of kinds."""

    def test_beside_a_list(self):
        # (a longer int has no repr)
        keys = [key for kind in KINDS for key in kind if not (type(key) is int and abs(key) > 2**10000)]
        for seed in range(8):
            dice = random.Random(seed)
            some = dice.sample(keys, 60)
            map_, plain = SortedMap(), {}
            for turn in range(2500):
                key, low, high = dice.choice(some), dice.choice(some), dice.choice(some)
                call = dice.randrange(9)
                if call < 3:
                    map_[key] = plain[key] = turn
                elif call < 5:
                    self.assertEqual(map_.pop(key, None), plain.pop(key, None))
                elif call == 5 and plain:
                    index = dice.randrange(-len(plain), len(plain))
                    first = sorted(plain, key=place)[index]
                    self.assertEqual(repr(map_.popitem(index)), repr((first, plain.pop(first))))
                elif call == 6 and low is not None and high is not None:
                    wanted = [it for it in sorted(plain, key=place) if place(low) <= place(it) < place(high)]
                    self.assertEqual(repr(list(map_.irange(low, high, (True, False)))), repr(wanted))
                    self.assertEqual(map_.range_len(low, high), len(wanted))
                    if dice.random() < 0.05:
                        map_.clear()
                        plain.clear()
                elif call == 7:
                    self.assertEqual(map_.rank(key), sum(place(it) < place(key) for it in plain))
                    self.assertEqual(map_.get(key), plain.get(key))
                elif turn % 7 == 0:
                    wanted = sorted(plain.items(), key=lambda pair: place(pair[0]))
                    for it in (map_, map_.copy(), SortedMap(plain), SortedMap(map_.items())):
                        self.assertEqual(repr(list(it.items())), repr(wanted))
                    self.assertEqual(repr(list(reversed(map_.items()))), repr(wanted[::-1]))


class Equality(unittest.TestCase):
    def test_the_key_that_was_first_stays(self):
        for first, second in [
            (1, 1.0),
            (1, True),
            (1.0, 1),
            (True, 1),
            (0.0, -0.0),
            (False, 0.0),
            ((1, 2), (1.0, 2)),
            (2**70, 2.0**70),
            (AWARE[4], AWARE[4].astimezone(EAST)),
        ]:
            for others in ({}, {None: 0}):
                map_ = SortedMap(others)
                map_[first] = "first"
                map_[second] = "second"
                self.assertEqual(len(map_), 1 + len(others))
                key, value = map_.peekitem()
                self.assertEqual((type(key), repr(key), value), (type(first), repr(first), "second"))
                self.assertEqual((map_[first], map_[second], map_.index(second)), ("second", "second", len(others)))
                both = SortedMap([(first, 1), (second, 2), *others.items()])
                self.assertEqual((repr(both.peekitem()), len(both)), (repr((first, 2)), 1 + len(others)))

    def test_kinds_that_are_never_equal(self):
        keys = [
            "a",
            b"a",
            ("a",),
            datetime.date(2024, 1, 1),
            datetime.datetime(2024, 1, 1),
            datetime.datetime(2024, 1, 1, tzinfo=UTC),
            None,
            0,
        ]
        self.assertEqual(len(SortedSet(keys)), len(keys))

    def test_subclasses_count_as_what_they_are_of(self):
        class Text(str):
            pass

        class Colour(enum.IntEnum):
            RED = 3

        Point = namedtuple("Point", "x y")
        for key, plain in [(Text("a"), "a"), (Colour.RED, 3), (Point(1, 2), (1, 2)), (Point(x=1.0, y=2), (1, 2))]:
            map_ = SortedMap()
            map_[key] = 1
            self.assertEqual(map_[plain], 1)
            self.assertIs(map_.peekitem()[0], key)
            map_ = SortedMap([(plain, 1)])
            self.assertIn(key, map_)
            map_[key] = 2
            self.assertEqual((list(map_), type(list(map_)[0]), map_[plain]), ([plain], type(plain), 2))

    def test_an_index_is_an_int(self):
        class Seven:
            def __index__(self):
                return 7

        for keys in (SortedSet([8]), SortedSet(["x"]), SortedSet()):
            keys.add(Seven())
            self.assertIs(type(keys[0]), int)
            self.assertEqual((keys[0], Seven() in keys, keys.index(Seven())), (7, True, 0))
            keys.remove(Seven())
            self.assertNotIn(7, keys)
        self.assertEqual(list(SortedSet([Seven(), 9])), [7, 9])
        self.assertIn((7,), SortedSet([(Seven(),)]))


class NoKeys(unittest.TestCase):
    def maps(self):
        return [SortedMap(), SortedMap({5: 50}), SortedMap({"x": 50})]

    def check(self, error, key):
        for map_ in self.maps():
            before = list(map_.items())
            keys = SortedSet(map_)
            for call in (
                lambda: map_.__setitem__(key, 1),
                lambda: map_.setdefault(key, 1),
                lambda: map_.update([(1, 1), (key, 1)]),
                lambda: SortedMap([(1, 1), (key, 1)]),
                lambda: SortedMap.fromkeys([key]),
                lambda: keys.add(key),
                lambda: keys.update([1, key]),
                lambda: map_.rank(key),
                lambda: map_.bisect_right(key),
                lambda: map_.irange(key),
                lambda: map_.irange_items(None, key),
                lambda: map_.range_len(key, 7),
            ):
                self.assertRaises(error, call)
            self.assertFalse(key in map_)
            self.assertEqual((map_.get(key, 7), map_.pop(key, 8), keys.count(key)), (7, 8, 0))
            for error_2, call in [
                (KeyError, lambda: map_[key]),
                (KeyError, lambda: map_.pop(key)),
                (KeyError, lambda: map_.__delitem__(key)),
                (KeyError, lambda: keys.remove(key)),
                (ValueError, lambda: map_.index(key)),
            ]:
                self.assertRaises(error_2, call)
            keys.discard(key)
            self.assertEqual((list(map_.items()), list(keys)), (before, list(map_)))

    def test_objects(self):
        for key in (
            [1],
            {},
            object(),
            1j,
            bytearray(b"a"),
            datetime.timedelta(1),
            datetime.time(1),
            Fraction(1, 2),
            (1, [2]),
            ((1, {}),),
            int,
            NAIVE[:1],
        ):
            self.check(TypeError, key)

    def test_nan(self):
        for key in (math.nan, -math.nan, (1, math.nan), ((math.nan,),)):
            self.check(ValueError, key)

    def test_a_subclass_of_datetime(self):
        class Other(datetime.datetime):
            pass

        self.check(TypeError, Other(2024, 1, 1))

    def test_deep_tuples(self):
        key = ()
        for _ in range(200):
            key = (key,)
        self.assertIn(key, SortedSet([key, ()]))
        for _ in range(100000):
            key = (key,)
        for keys in (SortedSet(), SortedSet([1]), SortedSet("a")):
            self.assertRaises(RecursionError, keys.add, key)
            self.assertRaises(RecursionError, keys.__contains__, key)
        while key:
            key = key[0]


class CallersCode(unittest.TestCase):
    """Code of a key's time zone or __index__ that raises, or that changes the map meanwhile."""

    def test_errors_are_passed_on(self):
        class Bad(datetime.tzinfo):
            def utcoffset(self, _):
                raise ZeroDivisionError

        class Worse:
            def __index__(self):
                raise ZeroDivisionError

        for key in (datetime.datetime(2024, 1, 1, tzinfo=Bad()), Worse(), (1, Worse())):
            for map_ in (SortedMap(), SortedMap({5: 50}), SortedMap({"x": 50})):
                before = list(map_.items())
                for call in (map_.__contains__, map_.get, map_.rank, map_.pop, map_.index, map_.irange, map_.setdefault):
                    self.assertRaises(ZeroDivisionError, call, key)
                self.assertRaises(ZeroDivisionError, map_.update, [(1, 1), (key, 2)])
                self.assertEqual(list(map_.items()), before)

    def test_a_map_that_is_changed_meanwhile(self):
        changes = [
            lambda map_: map_.clear(),
            lambda map_: map_.update({2: 2, 3: 3}),
            lambda map_: map_.update({"a": 1, "b": 2}),
            lambda map_: map_.update({2**63: 1}),
            lambda map_: map_.update({-1: 1}),
        ]
        for change in changes:
            for start in ({}, {5: 50}, {"x": 50}, {2**64 - 1: 1}, {number: 1 for number in range(1000)}):
                map_ = SortedMap(start)
                again = [False]

                def run():
                    if not again[0]:
                        again[0] = True
                        change(map_)
                        again[0] = False
                    return 7

                class Index:
                    def __index__(self):
                        return run()

                class Zone(datetime.tzinfo):
                    def utcoffset(self, _):
                        run()
                        return datetime.timedelta(0)

                for key in (Index(), (Index(),), datetime.datetime(2024, 1, 1, tzinfo=Zone())):
                    for call in (
                        lambda: map_.__setitem__(key, 1),
                        lambda: map_.get(key),
                        lambda: map_.rank(key),
                        lambda: map_.index(key),
                        lambda: list(map_.irange(key)),
                        lambda: list(map_.irange_items(None, key, reverse=True)),
                        lambda: map_.update([(key, 1), (key, 2), (4, 4)]),
                        lambda: map_.setdefault(key, 1),
                        lambda: map_.peekitem(Index()),
                        lambda: map_.popitem(Index()),
                        lambda: map_.keys()[Index() :],
                        lambda: map_.pop(key, None),
                    ):
                        try:
                            call()
                        except (IndexError, ValueError, KeyError):
                            pass
                        self.assertEqual(list(map_), [key for key, _ in map_.items()])
                    map_.clear()
                    map_.update(start)

    def test_an_iterator_whose_ends_change_the_map(self):
        map_ = SortedMap({"a": 1})
        iterators, inside = [], []

        class Zone(datetime.tzinfo):
            def utcoffset(self, _):
                if not inside:
                    inside.append(1)
                    for it in iterators:
                        next(it, None)
                    map_[len(map_) + 0.25] = 1
                    inside.pop()
                return datetime.timedelta(0)

        low = datetime.datetime(2024, 1, 1, tzinfo=Zone())
        map_.update({low.replace(day=day): day for day in range(1, 30)})
        iterators = [map_.irange(low), map_.irange(None, low), map_.irange(low, reverse=True)]
        for turn in range(40):
            map_[turn + 0.5] = turn
            for it in iterators:
                next(it, None)


if __name__ == "__main__":
    unittest.main()
