"""Times of the calls beside `sortedcontainers.SortedDict`, if that is installed.

    speed.py PAIRS.. [arrays PAIRS..]

For each number of pairs before `arrays`, and for keys of `int` and of `str`, it prints a line for
each call, in nanoseconds: the least of some turns. `len` shows what a call costs that does nothing.
A key that is looked up is not the object that is stored, as if it came from elsewhere.

For each number behind `arrays` it prints a line for each call that takes or returns an array: with
`array.array`, with arrays of numpy if that is installed, and with `SortedDict` in a comprehension.
"""

import random
import sys
import time
from array import array

from sweep_bptree import SortedMap

try:
    from sortedcontainers import SortedDict
except ImportError:
    SortedDict = None
    print("sortedcontainers is not installed: no column of it", file=sys.stderr)

try:
    import numpy
except ImportError:
    numpy = None
    print("numpy is not installed: no rows of it", file=sys.stderr)

TURNS = 5
KEYS = 100000  # in an array


def figures(make, kind, n):
    dice = random.Random(7)
    numbers = dice.sample(range(2**62), n)
    keys = numbers if kind == "int" else [f"user:{number:019d}" for number in numbers]
    others = [key + 0 if kind == "int" else "".join(list(key)) for key in dice.sample(keys, n)]
    pairs = [(key, number) for key, number in zip(keys, numbers)]
    least = {}

    def took(call, start, calls):
        each = (time.perf_counter_ns() - start) / calls
        least[call] = min(least.get(call, each), each)

    for _ in range(TURNS):
        start = time.perf_counter_ns()
        full = make(pairs)
        took("load, a pair", start, n)
        map_ = make(())
        start = time.perf_counter_ns()
        for key in keys:
            map_[key] = 7
        took("put", start, n)
        start = time.perf_counter_ns()
        for key in others:
            full[key]
        took("get", start, n)
        start = time.perf_counter_ns()
        for key in others:
            full.bisect_left(key)
        took("rank", start, n)
        start = time.perf_counter_ns()
        for at in range(0, n, 7):
            full.peekitem(at)
        took("at", start, (n + 6) // 7)
        start = time.perf_counter_ns()
        for key in others[: n // 64]:
            for found, _ in zip(full.irange(key), range(64)):
                pass
        took("range of 64, a pair", start, max(n // 64, 1) * 64)
        start = time.perf_counter_ns()
        for _ in full:
            pass
        took("iteration, a pair", start, n)
        start = time.perf_counter_ns()
        for _ in full.items():
            pass
        took("iteration of items, a pair", start, n)
        start = time.perf_counter_ns()
        full.values().tolist() if make is SortedMap else list(full.values())
        took("values, a pair", start, n)
        start = time.perf_counter_ns()
        for key in others:
            del full[key]
        took("del", start, n)
    map_ = make()
    start = time.perf_counter_ns()
    for _ in range(100000):
        len(map_)
    took("len", start, 100000)
    return least


def with_arrays(of):
    """The calls of a SortedMap, with arrays that a function makes of a type and a list."""
    return {
        "from_arrays, a pair": lambda map_, keys, values: SortedMap.from_arrays(keys, values),
        "get_many, a key": lambda map_, keys, values: map_.get_many(keys),
        "rank_many, a key": lambda map_, keys, values: map_.rank_many(keys),
        "put_many, a key": lambda map_, keys, values: map_.put_many(keys, values),
        "del_many, a key": lambda map_, keys, values: map_.del_many(keys),
        "keys_array, a key": lambda map_, keys, values: of("q", map_.keys_array()),
        "items_arrays, a pair": lambda map_, keys, values: [of("q", part) for part in map_.items_arrays()],
    }


def by_comprehension():
    """The same of a SortedDict."""
    return {
        "from_arrays, a pair": lambda map_, keys, values: SortedDict(zip(keys, values)),
        "get_many, a key": lambda map_, keys, values: [map_.get(key) for key in keys],
        "rank_many, a key": lambda map_, keys, values: array("q", [map_.bisect_left(key) for key in keys]),
        "put_many, a key": lambda map_, keys, values: map_.update(zip(keys, values)),
        "del_many, a key": lambda map_, keys, values: [map_.pop(key, None) for key in keys],
        "keys_array, a key": lambda map_, keys, values: array("q", map_.keys()),
        "items_arrays, a pair": lambda map_, keys, values: [array("q", map_.keys()), array("q", map_.values())],
    }


def figures_of_arrays(calls, of, n):
    """Nanoseconds for each key or pair: the keys that are put are new ones, and they are removed again."""
    dice = random.Random(7)
    numbers = dice.sample(range(2**62), n + KEYS)
    stored, new = numbers[:n], of("q", numbers[n:])
    all_keys, all_values = of("q", stored), of("q", range(n))
    keys = of("q", [dice.choice(stored) for _ in range(KEYS)])
    values, least = of("q", range(KEYS)), {}
    for _ in range(TURNS):
        map_ = None
        for call, run in calls.items():
            is_whole = call.startswith("from")
            is_new = call.startswith(("put", "del"))
            given = (all_keys, all_values) if is_whole else (new if is_new else keys, values)
            start = time.perf_counter_ns()
            found = run(map_, *given)
            each = (time.perf_counter_ns() - start) / (KEYS if "many" in call else n)
            least[call] = min(least.get(call, each), each)
            map_ = found if is_whole else map_
    return least


at = sys.argv.index("arrays") if "arrays" in sys.argv else len(sys.argv)
for n in map(int, sys.argv[at + 1 :]):
    faces = [("SortedMap, array", with_arrays(array), array)]
    if numpy:
        faces.append(("SortedMap, numpy", with_arrays(lambda kind, it: numpy.asarray(it)), lambda kind, it: numpy.array(it)))
    if SortedDict:
        faces.append(("SortedDict", by_comprehension(), array))
    for name, calls, of in faces:
        for call, each in figures_of_arrays(calls, of, n).items():
            print(n, "int", name, call, f"{each:.0f}")
for n in map(int, sys.argv[1:at]):
    for kind in ("int", "str"):
        for make in filter(None, (SortedMap, SortedDict)):
            for call, each in figures(make, kind, n).items():
                print(n, kind, make.__name__, call, f"{each:.0f}")
