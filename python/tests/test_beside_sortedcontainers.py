"""Random calls of maps and sets beside those of `sortedcontainers`, by hypothesis."""

import datetime
import unittest

from sweep_bptree import SortedMap, SortedSet

try:
    from hypothesis import HealthCheck, given, settings
    from hypothesis import strategies as some
    from sortedcontainers import SortedDict
    from sortedcontainers import SortedSet as TheirSet
except ImportError:
    raise unittest.SkipTest("sortedcontainers and hypothesis are not both installed") from None

finite = some.floats(allow_nan=False)
small = some.integers(-20, 20)
numbers = some.one_of(small, some.integers(), some.integers(2**62, 2**65), finite, some.booleans(), small.map(float))
naive = some.datetimes()
aware = some.datetimes(timezones=some.sampled_from([datetime.timezone.utc, datetime.timezone(datetime.timedelta(hours=-7))]))
characters = some.text(some.sampled_from("ab\0\x01\xff\u20ac\ud800\U0001f600"), max_size=6)
binary = some.binary(max_size=5)
KINDS = [
    small,
    some.integers(0, 2**64 - 1),
    some.integers(-(2**63), 2**63 - 1),
    some.integers(-(2**130), 2**130),
    finite,
    numbers,
    characters,
    some.text(),
    binary,
    some.dates(),
    naive,
    aware,
    some.tuples(characters, numbers),
    some.lists(small, max_size=4).map(tuple),
    some.tuples(binary, some.tuples(characters, naive)),
]


def outcome(call):
    """What a call returns, or the kind of its error."""
    try:
        return call()
    except (KeyError, IndexError, ValueError) as error:
        return type(error).__mro__[-4:]


def alike(mine, theirs):
    def plain(found):
        return list(found) if hasattr(found, "__next__") else found

    return plain(outcome(mine)), plain(outcome(theirs))


class Beside(unittest.TestCase):
    def by_each_kind(self, check):
        for kind in KINDS:
            keys = some.lists(kind, min_size=1, max_size=60)
            steps = some.lists(some.tuples(some.integers(0, 99), some.integers(0, 59), some.integers(-70, 70)), max_size=60)
            run = given(keys, steps)(lambda keys, steps: check(keys, steps))
            settings(max_examples=40, deadline=None, database=None, suppress_health_check=list(HealthCheck))(run)()

    def test_maps(self):
        self.by_each_kind(self.check_map)

    def check_map(self, keys, steps):
        pairs = [(key, at) for at, key in enumerate(keys[::2])]
        mine, theirs = SortedMap(pairs), SortedDict(pairs)
        for step, at, index in steps:
            key, other = keys[at % len(keys)], keys[(at + step) % len(keys)]
            inclusive, reverse = (step % 2 == 0, step % 3 == 0), step % 5 == 0
            calls = [
                lambda it: it.__setitem__(key, step),
                lambda it: it.pop(key),
                lambda it: it.get(key),
                lambda it: it[key],
                lambda it: it.__delitem__(key),
                lambda it: it.setdefault(key, step),
                lambda it: it.bisect_left(key),
                lambda it: it.bisect_right(key),
                lambda it: it.index(key),
                lambda it: it.irange(key, other, inclusive, reverse),
                lambda it: it.irange(key, None, inclusive, reverse),
                lambda it: it.irange(None, key, inclusive, reverse),
                lambda it: it.islice(index, at, reverse),
                lambda it: it.popitem(index) if it else None,
                lambda it: it.peekitem(index),
                lambda it: it.update([(key, at), (other, step)]),
                lambda it: it.keys()[index:at],
                lambda it: it.items()[index],
                lambda it: it.values()[:at:2],
                lambda it: list((it | {key: 5, other: 6}).items()),
                lambda it: list(it.copy().items()),
                lambda it: key in it,
                lambda it: repr(list(reversed(it))),
            ]
            call = calls[step % len(calls)]
            found, wanted = alike(lambda: call(mine), lambda: call(theirs))
            self.assertEqual(repr(found), repr(wanted))
        self.assertEqual(repr(list(mine.items())), repr(list(theirs.items())))
        self.assertEqual(mine, dict(theirs))
        self.assertEqual(len(mine), len(theirs))

    def test_sets(self):
        self.by_each_kind(self.check_set)

    def check_set(self, keys, steps):
        mine, theirs = SortedSet(keys[::2]), TheirSet(keys[::2])
        for step, at, index in steps:
            key, others = keys[at % len(keys)], keys[at % len(keys) : (at + step) % 60]
            calls = [
                lambda it: it.add(key),
                lambda it: it.discard(key),
                lambda it: it.remove(key),
                lambda it: key in it,
                lambda it: it[index],
                lambda it: it[index:at],
                lambda it: it.pop(index),
                lambda it: it.index(key),
                lambda it: it.count(key),
                lambda it: list(it.union(others)),
                lambda it: list(it.intersection(others)),
                lambda it: list(it.difference(others)),
                lambda it: list(it.symmetric_difference(others)),
                lambda it: it.issubset(others),
                lambda it: it.issuperset(others),
                lambda it: it.isdisjoint(others),
                lambda it: it.bisect(key),
                lambda it: it.irange(key),
                lambda it: (it.difference_update(others), None)[1],
                lambda it: (it.update(others), None)[1],
            ]
            call = calls[step % len(calls)]
            found, wanted = alike(lambda: call(mine), lambda: call(theirs))
            self.assertEqual(found, wanted)
        self.assertEqual(list(mine), list(theirs))


if __name__ == "__main__":
    unittest.main()
