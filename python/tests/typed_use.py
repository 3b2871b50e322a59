"""Uses of the package that a type checker must accept, and some that it must reject.

``mypy --strict`` reads this file: each ``assert_type`` must hold, and each line with a
``type: ignore`` must have that error and no other. It also runs.
"""

import ctypes
from array import array
from collections.abc import Iterator, MutableMapping, MutableSet
from typing import Any, assert_type

from sweep_bptree import SortedMap, SortedSet


def counts(words: list[str]) -> SortedMap[str, int]:
    result: SortedMap[str, int] = SortedMap()
    for word in words:
        result[word] = result.get(word, 0) + 1
    return result


def of_maps() -> None:
    ages = counts(["b", "a", "b"])
    assert_type(ages["b"], int)
    assert_type(ages.get("c"), int | None)
    assert_type(ages.peekitem(0), tuple[str, int])
    assert_type(ages.rank("b"), int)
    assert_type(ages.irange("a", "b"), Iterator[str])
    assert_type(ages.irange_items("a"), Iterator[tuple[str, int]])
    assert_type(ages.keys()[0], str)
    assert_type(ages.values()[0:1], list[int])
    assert_type(ages.items().tolist(), list[tuple[str, int]])
    assert_type(ages.copy(), SortedMap[str, int])
    assert_type(ages | {"c": 3}, SortedMap[str, int])
    assert_type(SortedMap(ada=36), SortedMap[str, int])
    assert_type(SortedMap([((1, "a"), 2.0)]), SortedMap[tuple[int, str], float])
    assert_type(SortedMap.fromkeys([1, 2], "x"), SortedMap[int, str])
    other: MutableMapping[str, int] = ages
    assert len(other) == 2
    ages["c"] = 3


def of_sets() -> None:
    names = SortedSet(["b", "a"])
    assert_type(names[0], str)
    assert_type(names[0:2], list[str])
    assert_type(names.union(["c"]), SortedSet[str])
    assert_type(names.index("b"), int)
    assert_type(names.pop(), str)
    other: MutableSet[str] = names
    assert len(other) == 1
    names.add("c")


def of_arrays() -> None:
    keys = array("q", [3, 1])
    scores: SortedMap[int, float] = SortedMap()
    scores.put_many(keys, array("d", [0.5, 1.5]))
    scores.put_many(array("Q", [2, 4]), [2.5, 3])
    scores.put_many(memoryview(keys), (0.5, 1.5))
    scores.put_many(keys, keys)
    scores.put_many((ctypes.c_int64 * 1)(5), [5.5])
    scores.put_many(keys, [0.5, 1.5])
    assert_type(scores.get_many(keys), list[float | None])
    assert_type(scores.get_many(memoryview(keys), ""), list[float | str])
    assert_type(scores.get_many(keys, default=b""), list[float | bytes])
    assert_type(scores.rank_many(keys), "array[int]")
    assert_type(scores.keys_array(2), "array[int]")
    assert_type(SortedMap.from_arrays(keys, array("d", [0.5, 1.5])).items_arrays(), "tuple[array[int], array[float]]")
    assert_type(SortedMap.from_arrays(keys, keys).items_arrays(maximum=3), "tuple[array[int], array[int]]")
    assert_type(SortedMap.from_arrays(keys, ["a", "b"]), SortedMap[int, str])
    assert_type(scores.del_many(keys), int)
    mixed: SortedMap[int | str, object] = SortedMap()
    mixed.put_many(keys, [1, "b"])
    mixed.put_many(keys, keys)
    assert_type(mixed.items_arrays(), "tuple[array[int], array[Any]]")
    numbers = SortedSet([1, 5])
    assert_type(numbers.rank_many(keys), "array[int]")
    assert_type(numbers.del_many(keys), int)
    assert_type(numbers.keys_array(minimum=1), "array[int]")


def refused(ages: SortedMap[str, int], names: SortedSet[str]) -> None:
    ages["a"] = "one"  # type: ignore[assignment]
    ages[1] = 2  # type: ignore[index]
    names.add(3)  # type: ignore[arg-type]
    ages.peek(0)  # type: ignore[attr-defined]


def refused_arrays(names: SortedMap[int, str], ages: SortedMap[str, int], numbers: SortedSet[int]) -> None:
    keys = array("q", [1])
    names.get_many([1])  # type: ignore[call-overload]
    names.get_many(b"12345678")  # type: ignore[call-overload]
    names.get_many(keys=keys)  # type: ignore[call-overload]
    names.put_many(array("d", [0.5]), ["a"])  # type: ignore[arg-type]
    names.put_many(keys, [1])  # type: ignore[list-item]
    names.put_many(keys, keys)  # type: ignore[arg-type]
    names.put_many(keys, {"a"})  # type: ignore[arg-type]
    ages.put_many(keys, [1])  # type: ignore[misc, arg-type]
    SortedMap.from_arrays([1], ["a"])  # type: ignore[arg-type]
    numbers.rank_many([1])  # type: ignore[arg-type]
    numbers.del_many(range(3))  # type: ignore[arg-type]
    numbers.get_many(keys)  # type: ignore[attr-defined]


if __name__ == "__main__":
    of_maps()
    of_sets()
    of_arrays()
