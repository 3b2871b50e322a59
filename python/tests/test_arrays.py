"""Calls for arrays of keys beside a dict and a sorted list."""

import bisect
import ctypes
import gc
import pickle
import random
import sys
import threading
import time
import unittest
from array import array

from sweep_bptree import SortedMap, SortedSet

try:
    import numpy
except ImportError:
    numpy = None  # `tools/faces` says so if no Python has it

LOW, HIGH, FULL = -(2**63), 2**63, 2**64
DTYPES = {"q": "int64", "Q": "uint64", "d": "float64"}


def by_ctypes(kind, numbers):
    of = {"q": ctypes.c_int64, "Q": ctypes.c_uint64, "d": ctypes.c_double}[kind]
    return (of * len(numbers))(*numbers)


# Objects with the buffer protocol that hold these numbers.
MAKERS = {
    "array": array,
    "array of long": lambda kind, numbers: array({"q": "l", "Q": "L", "d": "d"}[kind], numbers),
    "memoryview": lambda kind, numbers: memoryview(array(kind, numbers)),
    "memoryview of bytes": lambda kind, numbers: memoryview(array(kind, numbers).tobytes()).cast(kind),
    "part of a memoryview": lambda kind, numbers: memoryview(array(kind, [1, *numbers, 2]))[1:-1],
    "ctypes": by_ctypes,
}
if numpy:
    MAKERS["numpy"] = lambda kind, numbers: numpy.array(numbers, DTYPES[kind])
    MAKERS["numpy, read only"] = lambda kind, numbers: numpy.frombuffer(array(kind, numbers).tobytes(), DTYPES[kind])

# What maps hold before the calls: they are kept as signed or unsigned numbers, as bytes, or not at all.
STARTS = {
    "none": [],
    "signed": [*range(-300, 300, 7), LOW, LOW + 1, HIGH - 1, HIGH - 2],
    "signed, from 0 on": range(0, 400, 3),
    "unsigned": [*range(0, 300, 7), HIGH - 1, HIGH, HIGH + 5, FULL - 1, FULL - 2],
    "unsigned, all large": range(HIGH, HIGH + 400, 3),
    "both ranges": [-7, *range(0, 300, 7), FULL - 1],
    "too large": [2**80, *range(0, 300, 7), -(2**90)],
    "floats": [number / 2 for number in range(-100, 100, 3)],
    "strings": [f"key {number}" for number in range(40)],
    "strings and numbers": ["a", "b", *range(-20, 200, 3), HIGH + 5],
}


def order(key):
    return isinstance(key, str), key


def pairs_of(model):
    return sorted(model.items(), key=lambda pair: order(pair[0]))


def map_of(keys):
    """A map and a dict that hold these keys."""
    model = {key: str(key) for key in keys}
    return SortedMap(model), model


def emptied(keys):
    """An empty map that held these keys."""
    map_ = SortedMap.fromkeys(keys)
    for key in list(map_):
        del map_[key]
    return map_


def some_keys(dice, kind, known, n):
    """Keys of a type of array: known ones, those at the ends of the types, small ones, and any; some of them equal."""
    low, high = (LOW, HIGH - 1) if kind == "q" else (0, FULL - 1)
    known = [int(key) for key in known if not isinstance(key, str) and low <= key <= high and key == int(key)]
    ends = [key for at in (0, LOW, HIGH, FULL) for key in range(at - 2, at + 3) if low <= key <= high]
    keys = []
    for _ in range(n):
        draw = dice.randrange(10)
        if draw < 4 and known:
            keys.append(dice.choice(known))
        elif draw < 5 and keys:
            keys.append(dice.choice(keys))
        elif draw < 6:
            keys.append(dice.choice(ends))
        elif draw < 9:
            keys.append(dice.randrange(max(low, -350), 350))
        else:
            keys.append(dice.randint(low, high))
    return keys


def kind_of(numbers, with_floats):
    """The type of the array of some objects, or the error."""
    if with_floats and numbers and all(type(number) is float for number in numbers):
        return "d"
    if not all(type(number) is int for number in numbers):
        return TypeError
    if all(LOW <= number < HIGH for number in numbers):
        return "q"
    return "Q" if all(0 <= number < FULL for number in numbers) else OverflowError


class Beside(unittest.TestCase):
    """Random calls, each with the result that a dict and a sorted list have."""

    def test_random_calls(self):
        for name, start in STARTS.items():
            for seed in range(6):
                with self.subTest(name, seed=seed):
                    self.calls(random.Random(f"{name} {seed}"), *map_of(start))

    def test_random_calls_of_an_empty_map_that_held_keys(self):
        for name, start in STARTS.items():
            with self.subTest(name):
                self.calls(random.Random(name), emptied(start), {})

    def calls(self, dice, map_, model):
        sizes = [0, 1, 2, 15, 16, 17, 255, 256, 257, 600]
        for turn in range(40):
            kind = dice.choice("qQ")
            keys = some_keys(dice, kind, model, dice.choice(sizes))
            given = dice.choice(list(MAKERS.values()))(kind, keys)
            dice.choice([self.get_many, self.rank_many, self.put_many, self.put_many, self.del_many, self.arrays])(
                dice, map_, model, keys, given
            )
            if turn % 8 == 0:
                key = dice.choice([*model, -5, 7])
                map_[key] = model[key] = "one"
            self.assertEqual(map_.items().tolist(), pairs_of(model))
            if isinstance(given, array):
                given.append(1)  # (this fails if the call keeps the memory)

    def get_many(self, dice, map_, model, keys, given):
        default = object()
        self.assertEqual(map_.get_many(given), [model.get(key) for key in keys])
        for found in (map_.get_many(given, default), map_.get_many(given, default=default)):
            self.assertEqual(found, [model.get(key, default) for key in keys])

    def rank_many(self, dice, map_, model, keys, given):
        ordered = sorted(model, key=order)
        wanted = array("q", [bisect.bisect_left(ordered, order(key), key=order) for key in keys])
        for holder in (map_, SortedSet(map_)):
            ranks = holder.rank_many(given)
            self.assertEqual((ranks, ranks.typecode), (wanted, "q"))

    def put_many(self, dice, map_, model, keys, given):
        kind = dice.choice("qQd")
        values = [dice.randrange(10**6) for _ in keys]
        if kind == "d":
            values = [value / 8 for value in values]
        if dice.randrange(2):
            values = [dice.choice([value, str(value), None]) for value in values]
            passed = dice.choice([list, tuple])(values)
        else:
            passed = dice.choice([list, tuple, *(lambda it, make=make: make(kind, it) for make in MAKERS.values())])(values)
        self.assertIsNone(map_.put_many(given, passed))
        model.update(zip(keys, values))

    def del_many(self, dice, map_, model, keys, given):
        there = len(model.keys() & keys)
        numbers = SortedSet(map_)
        self.assertEqual((map_.del_many(given), numbers.del_many(given)), (there, there))
        for key in keys:
            model.pop(key, None)
        self.assertEqual(list(numbers), sorted(model, key=order))

    def arrays(self, dice, map_, model, keys, given):
        bounds = [dice.choice([None, *keys[:3], *dice.sample(sorted(model, key=order), min(len(model), 2)), 7, -5]) for _ in range(2)]
        pairs = [
            (key, value)
            for key, value in pairs_of(model)
            if (bounds[0] is None or order(key) >= order(bounds[0])) and (bounds[1] is None or order(key) < order(bounds[1]))
        ]
        check_arrays(self, map_, pairs, *bounds)


def check_arrays(test, map_, pairs, *bounds):
    """The arrays of some pairs are these pairs, or the error is the one that is due."""
    keys, values = [key for key, _ in pairs], [value for _, value in pairs]
    of_keys, of_values = kind_of(keys, False), kind_of(values, True)
    for holder in (map_, SortedSet(map_)):
        if isinstance(of_keys, str):
            found = holder.keys_array(*bounds)
            test.assertEqual((type(found), found.typecode, found.tolist()), (array, of_keys, keys))
        else:
            test.assertRaises(of_keys, holder.keys_array, *bounds)
    if isinstance(of_keys, str) and isinstance(of_values, str):
        found = map_.items_arrays(*bounds)
        test.assertEqual((type(found), [part.typecode for part in found]), (tuple, [of_keys, of_values]))
        test.assertEqual([part.tolist() for part in found], [keys, values])
    else:
        test.assertRaises(of_values if isinstance(of_keys, str) else of_keys, map_.items_arrays, *bounds)


class Large(unittest.TestCase):
    """A map of more than 2**18 pairs, in which a batch searches 16 leaves step by step and reads keys ahead."""

    def test_batches(self):
        dice = random.Random(12)
        numbers = array("Q", dice.sample(range(10**6), 300000))
        map_ = SortedMap.from_arrays(numbers, array("q", range(len(numbers))))
        model = {key: at for at, key in enumerate(numbers)}
        ordered = sorted(model)
        for n in (0, 1, 15, 16, 17, 20000):
            given = array("Q", [dice.randrange(10**6) for _ in range(n)])
            self.assertEqual(map_.get_many(given), [model.get(key) for key in given])
            self.assertEqual(map_.rank_many(given).tolist(), [bisect.bisect_left(ordered, key) for key in given])
        given = array("Q", [dice.randrange(10**6) for _ in range(20000)])
        self.assertEqual(map_.del_many(given), len(model.keys() & given))
        for key in given:
            model.pop(key, None)
        self.assertEqual(list(map_.items()), sorted(model.items()))
        map_.put_many(given, array("q", range(len(given))))
        model.update(zip(given, range(len(given))))
        self.assertEqual(list(map_.items()), sorted(model.items()))


class Ranges(unittest.TestCase):
    """Keys of one type of array in maps of the other."""

    def test_keys_outside_the_range_of_a_map(self):
        map_ = SortedMap({-2: "a", 5: "b", HIGH - 1: "c"})
        keys = array("Q", [HIGH - 1, HIGH, FULL - 2, FULL - 1, 5])
        self.assertEqual(map_.get_many(keys), ["c", None, None, None, "b"])
        self.assertEqual(map_.rank_many(keys).tolist(), [2, 3, 3, 3, 1])
        self.assertEqual(map_.del_many(array("Q", [HIGH, FULL - 2, FULL - 1])), 0)
        map_ = SortedMap({0: "a", 5: "b", FULL - 2: "c", FULL - 1: "d"})
        keys = array("q", [-2, -1, LOW, 0, 5])
        self.assertEqual(map_.get_many(keys), [None, None, None, "a", "b"])
        self.assertEqual(map_.rank_many(keys).tolist(), [0, 0, 0, 0, 1])
        self.assertEqual(map_.del_many(array("q", [-2, -1, LOW])), 0)
        self.assertEqual(list(map_), [0, 5, FULL - 2, FULL - 1])

    def test_puts_outside_the_range_of_a_map(self):
        for start, kind, keys in [
            ([1, 2], "Q", [HIGH, 2, FULL - 1]),
            ([1, HIGH], "q", [-1, 2, LOW]),
            ([HIGH, 1], "q", [-1, 1]),
            ([-1, 1], "Q", [1, 5, FULL - 1]),
            ([-1], "Q", [FULL - 1, HIGH]),
            ([FULL - 1], "q", [-1]),
        ]:
            map_, model = map_of(start)
            map_.put_many(array(kind, keys), keys)
            model.update(zip(keys, keys))
            self.assertEqual(map_.items().tolist(), pairs_of(model))

    def test_an_unsigned_map_whose_large_keys_are_gone(self):
        map_ = SortedMap({1: 1, 2: 2, FULL - 1: 3})
        self.assertEqual((map_.keys_array().typecode, map_.keys_array(0, 10).typecode), ("Q", "q"))
        del map_[FULL - 1]
        self.assertEqual(map_.keys_array(), array("q", [1, 2]))
        self.assertEqual(map_.keys_array().typecode, "q")

    def test_equal_keys_in_one_call(self):
        for start in STARTS.values():
            for keys in ([3, 4, 3, 3], [3] * 600, [*range(500)] * 2, [0, HIGH - 1, 0]):
                for kind in "qQ":
                    map_, model = map_of(start)
                    map_.put_many(array(kind, keys), list(range(len(keys))))
                    model.update(zip(keys, range(len(keys))))
                    self.assertEqual(map_.items().tolist(), pairs_of(model))
                    numbers = SortedSet(map_)
                    self.assertEqual(map_.del_many(array(kind, keys)), len(set(keys)))
                    self.assertEqual(numbers.del_many(array(kind, keys)), len(set(keys)))
                    left = [pair for pair in pairs_of(model) if pair[0] not in keys]
                    self.assertEqual((map_.items().tolist(), list(numbers)), (left, [key for key, _ in left]))

    def test_many_more_keys_than_the_map_has_and_the_reverse(self):
        dice = random.Random(5)
        for few, many in ((10, 30000), (30000, 10), (30000, 30000)):
            map_, model = map_of(dice.sample(range(100000), few))
            keys = [dice.randrange(100000) for _ in range(many)]
            map_.put_many(array("q", keys), array("q", keys))
            model.update(zip(keys, keys))
            self.assertEqual(map_.items().tolist(), pairs_of(model))
            self.assertEqual(map_.get_many(array("q", range(100000))), [model.get(key) for key in range(100000)])
            self.assertEqual(map_.del_many(array("q", keys)), len(set(keys)))
            self.assertEqual(list(map_), sorted(model.keys() - set(keys)))


class Arrays(unittest.TestCase):
    """What the arrays hold that maps make, and what maps make of arrays."""

    def test_kinds_of_values(self):
        for values in (
            [],
            [1, 2, 3],
            [-1, LOW, HIGH - 1],
            [0, HIGH, FULL - 1],
            [0.5, -0.0, float("inf"), 5e-324],
            [1, 0.5],
            [0.5, 1],
            [1, "a"],
            ["a"],
            [None, 1],
            [True, 1],
            [-1, FULL - 1],
            [FULL - 1, -1],
            [FULL],
            [LOW - 1],
            [2**200, 1],
        ):
            for base in (0, HIGH):
                check_arrays(self, SortedMap(enumerate(values, base)), list(enumerate(values, base)), None, None)
            # (the ints of these maps are held as bytes)
            check_arrays(self, SortedMap([*enumerate(values), ("x", 1)]), list(enumerate(values)), 0, "")
        nan = SortedMap({1: float("nan")}).items_arrays()[1]
        self.assertEqual((nan.typecode, nan[0] != nan[0]), ("d", True))

    def test_kinds_of_keys(self):
        for keys in (
            [True],
            [1.0, 2],
            [0.5],
            [1, "a"],
            [None, 1],
            [b"a"],
            [(1,)],
            [-1, FULL - 1],
            [FULL],
            [LOW - 1],
            [-1, 2**200],
            [LOW, HIGH - 1],
            [0, FULL - 1],
            [HIGH, HIGH + 1],
            [type("Int", (int,), {})(5)],
        ):
            map_ = SortedMap.fromkeys(keys, 1)
            check_arrays(self, map_, map_.items().tolist(), None, None)

    def test_a_part_of_a_map_of_any_keys(self):
        map_ = SortedMap({None: 0, -5: 1, 0.5: 2, 7: 3, HIGH: 4, 2**70: 5, "a": 6})
        self.assertEqual([part.tolist() for part in map_.items_arrays(1, 2**69)], [[7, HIGH], [3, 4]])
        self.assertEqual(map_.keys_array(1, 2**69).typecode, "Q")
        self.assertEqual(map_.keys_array(-5, 0), array("q", [-5]))
        self.assertEqual(map_.keys_array(maximum=-100000) if None not in map_ else array("q"), array("q"))
        for bounds, error in (((), TypeError), ((0, 7), TypeError), ((1, "a"), OverflowError), (("a", None), TypeError)):
            self.assertRaises(error, map_.keys_array, *bounds)
            self.assertRaises(error, map_.items_arrays, *bounds)

    def test_bounds(self):
        map_ = SortedMap((key, key * 10) for key in range(0, 100, 5))
        for keys in (map_.keys_array, lambda *bounds, **named: map_.items_arrays(*bounds, **named)[0], SortedSet(map_).keys_array):
            self.assertEqual(keys().tolist(), list(range(0, 100, 5)))
            self.assertEqual(keys(10, 20).tolist(), [10, 15])
            self.assertEqual(keys(minimum=91).tolist(), [95])
            self.assertEqual(keys(maximum=6.5).tolist(), [0, 5])
            self.assertEqual(keys(None, None), keys())
            self.assertEqual((len(keys(20, 10)), len(keys(12, 14)), len(keys(1000))), (0, 0, 0))
            self.assertEqual(keys("a").typecode, "q")
            self.assertRaises(TypeError, keys, [])
            self.assertRaises(ValueError, keys, float("nan"))
            self.assertRaises(TypeError, keys, 1, 2, 3)
            self.assertRaises(TypeError, keys, start=1)

    def test_from_arrays(self):
        dice = random.Random(9)
        for make in MAKERS.values():
            for n in (0, 1, 16, 1000):
                keys = [dice.randrange(LOW, HIGH) for _ in range(n)]
                values = [dice.random() for _ in keys]
                made = SortedMap.from_arrays(make("q", keys), make("d", values))
                self.assertEqual((type(made), made.items().tolist()), (SortedMap, sorted(zip(keys, values))))
                keys = [abs(key) * 2 + 1 for key in keys]
                made = SortedMap.from_arrays(make("Q", keys), [str(key) for key in keys])
                self.assertEqual(made.items().tolist(), sorted((key, str(key)) for key in keys))
                check_arrays(self, made, made.items().tolist(), None, None)
        self.assertEqual(SortedMap.from_arrays(array("q", [1, 1, 0, 1]), "abcd".split() * 4), {1: "abcd", 0: "abcd"})
        self.assertEqual(SortedMap.from_arrays(array("q", [1, 1, 0, 1]), [1, 2, 3, 4]), {1: 4, 0: 3})

    def test_what_arrays_return_they_take(self):
        dice = random.Random(11)
        for low, high in ((LOW, HIGH), (0, FULL), (HIGH, FULL)):
            map_ = SortedMap((dice.randrange(low, high), dice.random()) for _ in range(3000))
            self.assertEqual(SortedMap.from_arrays(*map_.items_arrays()), map_)
            self.assertEqual(map_.rank_many(map_.keys_array()).tolist(), list(range(3000)))
            self.assertEqual(map_.get_many(map_.keys_array()), map_.values().tolist())
            self.assertEqual((map_.del_many(map_.keys_array()), len(map_)), (3000, 0))

    def test_subclasses(self):
        class Mine(SortedMap):
            def __init__(self, *given):
                super().__init__(*given)
                self.name = "mine"

        class MySet(SortedSet):
            pass

        class MyArray(array):
            pass

        class Doubled(list):
            def __iter__(self):
                return iter([value * 2 for value in self[:]])

        made = Mine.from_arrays(MyArray("q", [2, 1]), Doubled([1, 5]))
        self.assertEqual((type(made), made.name, made), (Mine, "mine", {2: 2, 1: 10}))
        self.assertEqual(made.get_many(MyArray("q", [1, 3]), default=0), [10, 0])
        self.assertEqual(pickle.loads(pickle.dumps(made.items_arrays())), (array("q", [1, 2]), array("q", [10, 2])))
        self.assertEqual(made.del_many(array("Q", [2])), 1)
        numbers = MySet([5, 6])
        self.assertEqual((numbers.rank_many(MyArray("q", [6, 7])).tolist(), numbers.del_many(MyArray("Q", [6]))), ([1, 2], 1))
        self.assertEqual((list(numbers), numbers.keys_array().tolist()), ([5], [5]))

    def test_iterators_go_on(self):
        map_ = SortedMap((key, key) for key in range(0, 400, 2))
        it, back = iter(map_), reversed(map_.items())
        self.assertEqual([next(it) for _ in range(3)], [0, 2, 4])
        self.assertEqual(next(back), (398, 398))
        map_.put_many(array("q", [1, 5, 397]), [1, 5, 397])
        self.assertEqual(([next(it) for _ in range(2)], next(back)), ([5, 6], (397, 397)))
        map_.del_many(array("q", [7, 8, 396]))
        self.assertEqual((next(it), next(back)), (10, (394, 394)))

    @unittest.skipUnless(numpy, "numpy is not installed")
    def test_numpy_takes_the_arrays(self):
        map_ = SortedMap({3: 0.5, 1: 1.5})
        keys, values = map(numpy.asarray, map_.items_arrays())
        self.assertEqual((keys.dtype, values.dtype, keys.tolist(), values.tolist()), (numpy.int64, numpy.float64, [1, 3], [1.5, 0.5]))
        ranks = numpy.asarray(map_.rank_many(numpy.arange(5)))
        self.assertEqual((ranks.dtype, ranks.tolist()), (numpy.int64, [0, 0, 1, 1, 2]))
        for dtype in ("longlong", "ulonglong", "int_", "uint", "intp", "uintp", "<i8", "<u8"):
            self.assertEqual(map_.get_many(numpy.array([1, 2, 3], dtype)), [1.5, None, 0.5])


def wrong_keys():
    """Arrays that are no keys, each with the error that it raises."""
    wide = memoryview(array("q", range(6)))
    yield from (
        (TypeError, it)
        for it in (
            *(None, 5, 0.5, "12345678", [1, 2], (1, 2), range(3), {1: 2}, object(), iter([1]), int),
            *(b"12345678", bytearray(16), memoryview(b"12345678")),
            *(array(kind, [1, 2]) for kind in "bBhHiIfd"),
            *((of * 2)() for of in (ctypes.c_int, ctypes.c_double, ctypes.c_char)),
            *(memoryview(bytes(16)).cast(kind) for kind in ("d", "P", "c")),
        )
    )
    yield from (
        (ValueError, it)
        for it in (
            *(wide[::2], wide[::-1], wide[::5], memoryview(array("Q", range(9)))[1::3]),
            *(wide.cast("B").cast("q", [2, 3]), wide.cast("B").cast("q", [6, 1]), wide[:1].cast("B").cast("q", [])),
            *(ctypes.c_int64(5), ((ctypes.c_int64 * 2) * 2)()),
            *(memoryview(bytearray(17))[at : at + 16].cast(kind) for at, kind in ((1, "q"), (1, "Q"))),
        )
    )
    if numpy:
        numbers = numpy.arange(12)
        dtypes = "int32 uint32 int8 bool float64 float32 complex64 object >i8 >u8 S8 V8".split()
        yield from ((TypeError, numbers.astype(dtype)) for dtype in dtypes)
        yield TypeError, numpy.zeros(3, [("a", "i4"), ("b", "i4")])
        yield TypeError, numpy.zeros(3, [("a", "i8")])
        yield from ((ValueError, it) for it in (numbers[::2], numbers[::-1], numbers.reshape(3, 4), numbers.reshape(12, 1)))
        yield from ((ValueError, it) for it in (numbers.reshape(3, 4)[:, 1], numpy.array(5), numpy.frombuffer(bytes(17), "i8", 2, 1)))


def wrong_values():
    """What is no array of two values, each with the error that it raises."""
    for error, it in wrong_keys():
        if isinstance(it, (list, tuple)) or (not isinstance(it, int) and getattr(it, "format", getattr(it, "typecode", "")) == "d"):
            continue
        if isinstance(it, ctypes.c_double * 2) or (numpy and isinstance(it, numpy.ndarray) and it.dtype == "float64"):
            continue
        yield error, it
    doubles = memoryview(array("d", range(4)))
    yield from ((ValueError, it) for it in (doubles[::2], doubles[::-2], doubles.cast("B").cast("d", [2, 2])))
    yield from ((TypeError, it) for it in ({1, 2}, {1: 2, 3: 4}, (value for value in (1, 2)), SortedSet([1, 2])))
    yield from ((ValueError, it) for it in ([], (), [1], (1, 2, 3), array("q", [1]), array("d", [1, 2, 3]), array("Q")))


class Wrong(unittest.TestCase):
    """What a call can't take raises an error, and changes nothing."""

    def test_keys(self):
        for name, start in STARTS.items():
            map_, model = map_of(start)
            numbers = SortedSet(map_)
            calls = [
                map_.get_many,
                map_.rank_many,
                map_.del_many,
                lambda keys: map_.put_many(keys, [1, 2]),
                lambda keys: map_.put_many(keys, keys),
                lambda keys: SortedMap.from_arrays(keys, [1, 2]),
                numbers.rank_many,
                numbers.del_many,
            ]
            before = sys.getrefcount(None)
            for error, keys in wrong_keys():
                for at, call in enumerate(calls):
                    with self.subTest(name, keys=repr(keys), call=at):
                        self.assertRaises(error, call, keys)
            del keys
            self.assertLess(abs(sys.getrefcount(None) - before), 100)
            self.assertEqual((map_.items().tolist(), list(numbers)), (pairs_of(model), [key for key, _ in pairs_of(model)]))

    def test_values(self):
        for name, start in STARTS.items():
            map_, model = map_of(start)
            for kind in "qQ":
                keys = array(kind, [7, 8])
                for error, values in wrong_values():
                    with self.subTest(name, values=repr(values)):
                        self.assertRaises(error, map_.put_many, keys, values)
                        self.assertRaises(error, SortedMap.from_arrays, keys, values)
                keys.append(9)
            self.assertRaises(ValueError, map_.put_many, array("q"), [1])
            self.assertEqual(map_.items().tolist(), pairs_of(model))

    def test_values_that_raise(self):
        class Raises(list):
            def __iter__(self):
                raise KeyError("mine")

        map_, model = map_of(range(5))
        self.assertRaises(KeyError, map_.put_many, array("q", [1, 2]), Raises([1, 2]))
        self.assertEqual(map_, model)

    def test_arguments(self):
        map_, keys = SortedMap({1: 1}), array("q", [1])
        for call in (
            map_.get_many,
            map_.put_many,
            map_.rank_many,
            map_.del_many,
            SortedMap.from_arrays,
            lambda: map_.get_many(keys, 1, 2),
            lambda: map_.get_many(keys=keys),
            lambda: map_.get_many(keys, other=2),
            lambda: map_.get_many(keys, 1, default=2),
            lambda: map_.put_many(keys),
            lambda: map_.put_many(keys, [1], 2),
            lambda: map_.put_many(keys, values=[1]),
            lambda: map_.rank_many(keys, keys),
            lambda: map_.del_many(keys=keys),
            lambda: map_.items_arrays(1, 2, 3),
        ):
            self.assertRaises(TypeError, call)
        self.assertFalse(hasattr(SortedSet, "get_many") or hasattr(SortedSet, "put_many") or hasattr(SortedSet, "items_arrays"))
        self.assertEqual(map_, {1: 1})

    def test_a_memoryview_that_is_released(self):
        keys = memoryview(array("q", [1]))
        keys.release()
        map_ = SortedMap({1: 1})
        for call in (map_.get_many, map_.rank_many, map_.del_many, lambda given: map_.put_many(given, [1])):
            self.assertRaises(ValueError, call, keys)

    def test_the_type_of_arrays_is_another_one(self):
        import array as module

        map_ = SortedMap((key, key) for key in range(500))
        for other in (list, bytearray, lambda kind, members: array("b", [1]), lambda kind, members: 5, None):
            module.array, real = other, module.array
            try:
                for call in (map_.keys_array, map_.items_arrays, lambda: map_.rank_many(keys)):
                    keys = real("q", range(500))
                    with self.assertRaises((TypeError, BufferError, ValueError)):
                        call()
            finally:
                module.array = real


class Thing:
    pass


class References(unittest.TestCase):
    def test_each_call_leaves_the_counts_as_they_were(self):
        thing, other, default = Thing(), Thing(), Thing()
        for name, start in STARTS.items():
            with self.subTest(name):
                dice = random.Random(name)
                keys = list(start)
                # (of small ints Python keeps one each)
                counted = [key for key in keys if not (isinstance(key, int) and -6 < key < 257)]
                before = [sys.getrefcount(it) for it in (thing, other, default, *counted)]
                map_ = SortedMap((key, other) for key in keys)
                for turn in range(150):
                    kind = dice.choice("qQ")
                    given = array(kind, some_keys(dice, kind, keys, dice.choice([0, 1, 16, 300])))
                    values = [dice.choice([thing, other]) for _ in given]
                    numbers = SortedSet(map_)
                    [
                        lambda: map_.get_many(given, default),
                        lambda: map_.put_many(given, values),
                        lambda: map_.put_many(given, tuple(values)),
                        lambda: self.assertRaises(ValueError, map_.put_many, given, [*values, thing]),
                        lambda: self.assertRaises(TypeError, map_.put_many, given, {thing, other}),
                        lambda: map_.del_many(given),
                        lambda: numbers.del_many(given),
                        lambda: map_.rank_many(given),
                        lambda: SortedMap.from_arrays(given, values),
                        lambda: self.assertRaises((TypeError, OverflowError), map_.items_arrays) if map_ else None,
                        lambda: map_.update((key, other) for key in keys),
                    ][turn % 11]()
                    values.clear()
                numbers.clear()
                map_.clear()
                del given
                gc.collect()
                self.assertEqual([sys.getrefcount(it) for it in (thing, other, default, *counted)], before)

    def test_values_of_arrays(self):
        real, number = 1234.5, 123456789
        before = sys.getrefcount(real), sys.getrefcount(number)
        for start in (range(50), ["a", *range(50)]):
            for value in (real, number):
                map_ = SortedMap.fromkeys(start, value)
                for _ in range(30):
                    map_.items_arrays(0, 40)
                    map_.keys_array(0, 40)
                    map_.get_many(array("q", range(60)), real)
                    self.assertRaises(TypeError, SortedMap({1: real, 2: number}).items_arrays)
                    self.assertRaises(OverflowError, SortedMap({1: number, 2: 2**70}).items_arrays)
        del map_, value
        self.assertEqual((sys.getrefcount(real), sys.getrefcount(number)), before)

    def test_arrays_are_let_go(self):
        class Watched(array):
            pass

        map_ = SortedMap({1: 1, "a": 2})
        keys, values = Watched("q", [1, 2]), Watched("d", [1, 2])
        before = sys.getrefcount(keys), sys.getrefcount(values)
        for _ in range(20):
            map_.get_many(keys)
            map_.rank_many(keys)
            map_.put_many(keys, values)
            map_.del_many(keys)
            SortedMap.from_arrays(keys, values)
            self.assertRaises(ValueError, map_.put_many, keys, [1])
            self.assertRaises(TypeError, map_.put_many, keys, 1)
            self.assertRaises(TypeError, map_.put_many, values, values)
            keys.append(1)
            values.append(1)
        self.assertEqual((sys.getrefcount(keys), sys.getrefcount(values)), before)


class Meanwhile(unittest.TestCase):
    """Code of the caller, or another thread, that changes the map or the arrays while a call runs."""

    def test_code_that_runs_when_a_value_goes(self):
        for name, start in STARTS.items():
            for clears in (False, True):
                map_ = SortedMap()

                class Last:
                    def __del__(self):
                        if clears:
                            map_.clear()
                        map_.update((number, Thing()) for number in range(300, 320))
                        map_.put_many(array("q", [5, 305]), [1, 2])
                        map_.del_many(array("q", [6, 306]))
                        map_.get_many(array("Q", [7, HIGH]))

                keys = array("q", [key for key in range(-50, 300)])
                calls = [
                    lambda: map_.put_many(keys, [Last() for _ in keys]),
                    lambda: map_.put_many(keys, range_of(keys)),
                    lambda: map_.put_many(array("Q", [HIGH, 1, 2]), [Last(), Last(), Last()]),
                    lambda: map_.del_many(keys),
                    lambda: map_.get_many(keys),
                    lambda: SortedMap.from_arrays(array("q", [1] * 20), [Last() for _ in range(20)]),
                ]
                for call in calls * 2:
                    with self.subTest(name, clears=clears):
                        map_.clear()
                        map_.update((key, Last()) for key in start)
                        it = iter(map_.items())
                        next(it, None)
                        call()
                        list(it)
                        self.assertEqual([key for key, _ in map_.items()], list(map_))
                        self.assertEqual(len(map_), len(map_.values().tolist()))
                map_.clear()
                map_.clear()

    def test_a_collection_during_calls(self):
        self.addCleanup(gc.set_threshold, *gc.get_threshold())
        for name, start in STARTS.items():
            with self.subTest(name):
                gc.set_threshold(1)
                self.collect(random.Random(name), list(start))

    def collect(self, dice, start):
        map_, left = SortedMap(), [0]

        class Change:
            """Garbage whose end changes the map, and leaves more of it behind."""

            def __init__(self):
                self.itself = self

            def __del__(self):
                if left[0] <= 0:
                    return
                left[0] -= 1
                Change()
                draw = left[0] % 5
                if draw == 0:
                    map_.clear()
                elif draw == 1:
                    map_.update((key, Thing()) for key in start)
                elif draw == 2:
                    map_["x"] = Thing()
                    map_.pop("x", None)
                else:
                    map_[left[0] % 50] = Thing()

        large = array("Q", [*range(HIGH, HIGH + 40), *range(20)])
        small = array("q", range(-30, 30))
        for turn in range(60):
            map_.clear()
            map_.update((key, [key]) for key in start)
            map_.update((key, [key]) for key in range(HIGH, HIGH + 20))
            if turn % 3:
                map_.update((key, [key]) for key in ("a", "b"))
            left[0] = 30
            Change()
            for call in (
                lambda: map_.get_many(large),
                lambda: map_.rank_many(large),
                lambda: map_.put_many(large, [[key] for key in large]),
                lambda: map_.put_many(small, [[key] for key in small]),
                lambda: map_.del_many(large),
                lambda: map_.del_many(small),
                lambda: map_.keys_array(HIGH, FULL),
                lambda: map_.items_arrays(HIGH, HIGH + 10),
                lambda: SortedMap.from_arrays(large, [[key] for key in large]),
                lambda: SortedSet(map_).del_many(large),
            )[turn % 10 :]:
                try:
                    call()
                except (TypeError, OverflowError):
                    pass
                keys = [key for key, _ in map_.items().tolist()]
                self.assertEqual(keys, sorted(set(keys), key=order))
        left[0] = 0
        gc.collect()

    def test_no_code_sees_what_is_not_full(self):
        """Code that a collection or an index runs looks at each young list and tuple that the collector knows."""
        self.addCleanup(gc.set_threshold, *gc.get_threshold())
        left, large = [0], array("Q", range(HIGH, HIGH + 37))
        map_ = SortedMap({"a": 1, **{key: str(key) for key in large[::2]}})
        # (Python keeps some thousand small tuples, and makes no collection when it takes one of them)
        many = SortedMap.fromkeys(range(5000), 1)

        def look():
            return sum(len([*it]) for age in (0, 1) for it in gc.get_objects(age) if type(it) in (list, tuple))

        class Looks:
            def __init__(self):
                self.itself = self

            def __del__(self):
                look()
                left[0] -= 1
                if left[0] > 0:
                    Looks()

            def __index__(self):
                return look() * 0

        gc.set_threshold(1)
        for call, wanted in (
            (lambda: map_.get_many(large), [map_.get(key) for key in large]),
            (lambda: many.items().tolist(), [(key, 1) for key in range(5000)]),
            (lambda: list(map_.copy().popitem(Looks())), [HIGH, str(HIGH)]),
        ):
            left[0] = 50
            while left[0] > 0:
                Looks()
                found = call()
                self.assertEqual((found, gc.is_tracked(found)), (wanted, True))

    def test_keys_that_run_code(self):
        """The bounds of the arrays are objects whose index changes the map."""
        for start in STARTS.values():
            map_ = SortedMap()

            class Bound:
                def __init__(self, number):
                    self.number = number

                def __index__(self):
                    map_.clear()
                    map_.update((key, key) for key in range(self.number % 100))
                    return self.number

            for low, high in ((0, 50), (20, 200), (200, 20), (HIGH, 5), (-5, FULL)):
                map_.update((key, 1) for key in start)
                for call in (map_.keys_array, map_.items_arrays):
                    call(Bound(low), Bound(high))
                    call(Bound(low))
                    call(None, Bound(high))

    @unittest.skipUnless(numpy, "numpy is not installed")
    def test_another_thread_writes_the_arrays(self):
        n = 20000
        parts = numpy.arange(n), numpy.arange(n) * -3, numpy.arange(n) % 7
        keys, ends = parts[0].copy(), []
        known = set(numpy.concatenate(parts).tolist())

        def write():
            while not ends:
                for part in parts:
                    numpy.copyto(keys, part)

        thread = threading.Thread(target=write)
        thread.start()
        try:
            until = time.monotonic() + 0.5
            while time.monotonic() < until:
                for map_ in (SortedMap(), SortedMap({5: 5}), SortedMap({"a": 5})):
                    map_.put_many(keys, list(range(n)))
                    pairs = map_.items().tolist()
                    self.assertEqual(len(pairs), len({key for key, _ in pairs}))
                    self.assertLessEqual({key for key, _ in pairs} - {"a"}, known)
                    self.assertEqual(len(map_.get_many(keys)), n)
                    self.assertLessEqual(max(map_.rank_many(keys)), len(map_))
                    count = map_.del_many(keys)
                    self.assertEqual(count + len(map_), len(pairs))
        finally:
            ends.append(1)
            thread.join()


def range_of(keys):
    return array("d", range(len(keys)))


if __name__ == "__main__":
    unittest.main()
