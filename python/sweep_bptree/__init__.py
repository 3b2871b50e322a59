"""Sorted maps and sets of any key, with the index of each key, over a proved library.

    >>> ages = SortedMap(bob=42, ada=36)
    >>> list(ages), ages["ada"], ages.peekitem(0), ages.bisect_left("b")
    (['ada', 'bob'], 36, ('ada', 36), 1)
    >>> SortedSet([2.5, 1, 2])[1:]
    [2, 2.5]

A key is ``None``, a number (``bool``, ``int`` of any size, ``float``), a ``str``, a ``bytes``, a
``date``, a ``datetime`` or a ``tuple`` of these. A value is any object.
"""

import os
import sys
from collections.abc import (
    ItemsView,
    KeysView,
    Mapping,
    MutableMapping,
    MutableSet,
    Sequence,
    Set,
    ValuesView,
)
from copyreg import __newobj__
from reprlib import recursive_repr
from types import GenericAlias

if not getattr(sys, "_is_gil_enabled", lambda: True)():
    raise ImportError("sweep_bptree needs an interpreter with a global lock")

# `tools/faces build` puts the compiled part beside the library for C.
if os.environ.get("SWEEP_BPTREE_LIBRARY"):
    __path__.append(os.path.dirname(os.path.abspath(os.environ["SWEEP_BPTREE_LIBRARY"])))

from . import _native  # noqa: E402
from ._native import EmptyError  # noqa: E402, F401

__version__ = "0.10.4"

__all__ = ["SortedMap", "SortedSet"]

_KEYS, _VALUES, _ITEMS = range(3)


class SortedMap(_native.Map):
    """A mapping in the ascending order of its keys, with the methods of ``dict`` and of
    ``sortedcontainers.SortedDict``.

        >>> scores = SortedMap({30: "c", 10: "a", 20: "b"})
        >>> scores[20], list(scores), list(scores.irange(15)), scores.keys()[-1]
        ('b', [10, 20, 30], [20, 30], 30)

    - Keys that Python finds equal are one key: 1, 1.0 and True. The one that was stored first stays,
      as in a ``dict``. An instance of a subclass counts as what it is a subclass of.
    - Kinds are ordered: None, numbers, strs, bytes, dates, datetimes without a time zone, those with
      one, tuples. Within a kind the order is Python's. Datetimes with a time zone are ordered, and
      are equal, by their instant.
    - An object with an ``__index__`` is stored as that int. To store anything else raises
      ``TypeError``, and a NaN ``ValueError``. To look it up finds nothing, as an absent key.
    - There is no ``key=``: the order is that of the keys themselves.
    - An iterator continues from the key that it returned last, whatever changes meanwhile.

    A look-up, a change, an index and a rank take O(log n). While all keys are ints from -2**63 to
    2**63 - 1, or from 0 to 2**64 - 1, they are kept as numbers, and take less time and memory. The
    first other key moves all pairs, in O(n). Of other keys, the first bytes that all of them share
    are held once. A key that begins otherwise moves all pairs too, at most 7 times while the number
    of keys doubles.

    If an allocation fails, a call raises ``MemoryError`` and the map is unchanged. Three calls may
    keep what they did before the failure: ``update``, and ``put_many`` and ``del_many`` unless all
    keys are ints of one of these two ranges. Several threads may use one map: each call of a method
    in C is one step to other threads, unless it runs code of the caller, such as that of a time zone.
    """

    __slots__ = ("__weakref__",)
    __class_getitem__ = classmethod(GenericAlias)

    def __init__(self, pairs=(), /, **keywords):
        self.update(pairs, **keywords)

    @classmethod
    def fromkeys(cls, keys, value=None, /):
        """A map of these keys, each with the same value. O(m log m) for m keys.

        >>> SortedMap.fromkeys("ba", 0)
        SortedMap({'a': 0, 'b': 0})
        """
        made = cls()
        if type(made) is SortedMap:
            made._store([(key, value) for key in keys])
        else:
            for key in keys:
                made[key] = value
        return made

    @classmethod
    def from_arrays(cls, keys, values, /):
        """A map of the keys of an array, each with the value at its index, as `put_many` stores them.

        The keys come in any order. O(n log n), and O(n) if they ascend.

        >>> from array import array
        >>> SortedMap.from_arrays(array("q", [3, 1]), array("d", [0.5, 1.5]))
        SortedMap({1: 1.5, 3: 0.5})
        """
        made = cls()
        made.put_many(keys, values)
        return made

    def update(self, pairs=(), /, **keywords):
        """Stores the pairs of a mapping or of an iterable, and the keywords, one after another.

        If one of them can't be stored, an error is raised and the map is unchanged. If an
        allocation fails, ``MemoryError`` is raised, and the pairs before the one that failed may be
        stored. An empty map is filled at once: its pairs are all stored or none of them, unless some
        keys are equal. O(m log(n + m)) for m pairs.

        >>> ages = SortedMap(ada=36)
        >>> ages.update({"bob": 42}, cid=3)
        >>> ages
        SortedMap({'ada': 36, 'bob': 42, 'cid': 3})
        """
        if type(pairs) is dict:
            pairs = pairs.items()
        elif keywords or not isinstance(pairs, _native.Map):
            if hasattr(pairs, "keys"):
                pairs = [(key, pairs[key]) for key in pairs.keys()]
            else:
                pairs = [(key, value) for key, value in pairs]
        self._store([*pairs, *keywords.items()] if keywords else pairs)

    def copy(self):
        """A map with the same pairs. O(n), with no look-up.

        >>> ages = SortedMap(ada=36)
        >>> other = ages.copy()
        >>> other["ada"] = 37
        >>> ages
        SortedMap({'ada': 36})
        """
        made = type(self).__new__(type(self))
        made._store(self)
        if _state(self):
            made.__dict__.update(self.__dict__)
        return made

    __copy__ = copy

    def keys(self):
        """A view of the keys in their order, which takes an index or a slice too. O(1).

        >>> SortedMap(a=1, b=2).keys()[0]
        'a'
        """
        return Keys(self)

    def values(self):
        """A view of the values in the order of their keys, which takes an index or a slice too. O(1).

        >>> SortedMap(a=1, b=2).values()[:]
        [1, 2]
        """
        return Values(self)

    def items(self):
        """A view of the pairs in the order of their keys, which takes an index or a slice too. O(1).

        >>> SortedMap(a=1, b=2).items()[-1]
        ('b', 2)
        """
        return Items(self)

    def __eq__(self, other):
        if isinstance(other, SortedMap):
            return self is other or len(self) == len(other) and self._list(_ITEMS) == other._list(_ITEMS)
        return dict(self._list(_ITEMS)) == other if isinstance(other, Mapping) else NotImplemented

    __hash__ = None

    def __or__(self, other):
        if not isinstance(other, Mapping):
            return NotImplemented
        both = self.copy()
        both.update(other)
        return both

    def __ror__(self, other):
        if not isinstance(other, Mapping):
            return NotImplemented
        both = type(self)(other)
        both.update(self)
        return both

    def __ior__(self, other):
        self.update(other)
        return self

    def __reduce__(self):
        return __newobj__, (type(self),), _state(self), None, iter(self._list(_ITEMS))

    @recursive_repr("SortedMap(...)")
    def __repr__(self):
        return f"{type(self).__name__}({dict(self._list(_ITEMS))!r})"


MutableMapping.register(SortedMap)


def _state(self):
    """The attributes of an instance of a subclass, or None."""
    return getattr(self, "__dict__", None) or None


class _View(Sequence):
    """What the three views share: an index or a slice, and the reverse order."""

    __slots__ = ()
    _what = _KEYS

    def __getitem__(self, index):
        return self._mapping._at(self._what, index)

    def __iter__(self):
        return self._mapping._walk(self._what, False)

    def __reversed__(self):
        return self._mapping._walk(self._what, True)

    def tolist(self):
        """All members of the view, as they are at one moment. O(n).

        >>> SortedMap(a=1, b=2).values().tolist()
        [1, 2]
        """
        return self._mapping._list(self._what)


class Keys(_View, KeysView):
    """The keys of a map in their order.

    >>> keys = SortedMap(a=1, b=2).keys()
    >>> keys[1], keys[:1], keys & {"b", "c"}
    ('b', ['a'], {'b'})
    """

    __slots__ = ()
    __contains__ = KeysView.__contains__

    def index(self, key, start=None, stop=None, /):
        """The index of a key. O(log n).

        >>> SortedMap(a=1, b=2).keys().index("b")
        1
        """
        return self._mapping.index(key, start, stop)

    def count(self, key, /):
        """1 if the key is there, and else 0. O(log n).

        >>> SortedMap(a=1, b=2).keys().count("b")
        1
        """
        return int(key in self._mapping)


class Values(_View, ValuesView):
    """The values of a map in the order of their keys.

    >>> values = SortedMap(a=1, b=2).values()
    >>> values[1], values[::-1], values.index(2)
    (2, [2, 1], 1)
    """

    __slots__ = ()
    _what = _VALUES

    def __contains__(self, value):
        return any(it is value or it == value for it in self)


class Items(_View, ItemsView):
    """The pairs of a map in the order of their keys.

    >>> items = SortedMap(a=1, b=2).items()
    >>> items[0], ("b", 2) in items, items.index(("b", 2))
    (('a', 1), True, 1)
    """

    __slots__ = ()
    _what = _ITEMS

    def __contains__(self, pair):
        return isinstance(pair, tuple) and len(pair) == 2 and ItemsView.__contains__(self, pair)

    def index(self, pair, start=None, stop=None, /):
        """The index of a pair. O(log n).

        >>> SortedMap(a=1, b=2).items().index(("b", 2))
        1
        """
        if pair not in self:
            raise ValueError(f"{pair!r} is not there")
        return self._mapping.index(pair[0], start, stop)

    def count(self, pair, /):
        """1 if the pair is there, and else 0. O(log n).

        >>> SortedMap(a=1, b=2).items().count(("b", 3))
        0
        """
        return int(pair in self)


def _container(keys):
    """A set, a mapping or a view as it is, and of any other iterable a set of its members."""
    return keys if isinstance(keys, (Set, Mapping)) else set(keys)


class SortedSet(_native.Set):
    """A set in the ascending order of its keys, with the methods of ``set`` and of
    ``sortedcontainers.SortedSet``.

        >>> primes = SortedSet([5, 2, 3])
        >>> primes[0], primes[1:], 4 in primes, primes | {7}, list(primes.irange(3))
        (2, [3, 5], False, SortedSet([2, 3, 5, 7]), [3, 5])

    Its keys, their order, failures and threads are as of a ``SortedMap``. A method that takes other
    sets takes any iterables. An operator takes sets alone. If an allocation fails, ``update`` may
    have added some keys, and ``del_many`` may have removed some, unless all keys are ints of 64 bits.
    """

    __slots__ = ("__weakref__",)
    __class_getitem__ = classmethod(GenericAlias)

    def __init__(self, keys=(), /):
        self.update(keys)

    def _of(self, keys):
        """A set of the same type of these keys."""
        made = type(self).__new__(type(self))
        made._store(keys)
        return made

    def copy(self):
        """A set of the same keys. O(n), with no look-up.

        >>> SortedSet("ba").copy()
        SortedSet(['a', 'b'])
        """
        made = self._of(self)
        if _state(self):
            made.__dict__.update(self.__dict__)
        return made

    __copy__ = copy

    def update(self, *others):
        """Adds the keys of these iterables. O(m log(n + m)) for m keys.

        >>> numbers = SortedSet([2])
        >>> numbers.update([1, 2], {3: None})
        >>> numbers
        SortedSet([1, 2, 3])
        """
        for other in others:
            self._store(other)

    def union(self, *others):
        """A set of the keys of this set and of these iterables. O(n + m log(n + m)) for m of theirs.

        >>> SortedSet([2]).union([1], [3])
        SortedSet([1, 2, 3])
        """
        made = self._of(self)
        made.update(*others)
        return made

    def intersection(self, *others):
        """A set of the keys that are also in each of these iterables.

        O(n) look-ups in each iterable. One that is no set, mapping or view is made a set first.

        >>> SortedSet([1, 2, 3]).intersection([2, 3], [3, 4])
        SortedSet([3])
        """
        kept = self._list(_KEYS)
        for other in map(_container, others):
            kept = [key for key in kept if key in other]
        return self._of(kept)

    def difference(self, *others):
        """A set of the keys that are in none of these iterables.

        O(n) look-ups in each iterable. One that is no set, mapping or view is made a set first.

        >>> SortedSet([1, 2, 3]).difference([2], [4])
        SortedSet([1, 3])
        """
        kept = self._list(_KEYS)
        for other in map(_container, others):
            kept = [key for key in kept if key not in other]
        return self._of(kept)

    def symmetric_difference(self, other, /):
        """A set of the keys that are in this set or in an iterable, and not in both.

        O((n + m) log(n + m)) for m members of the iterable.

        >>> SortedSet([1, 2]).symmetric_difference([2, 3])
        SortedSet([1, 3])
        """
        other = self._of(other)
        return self.difference(other).union(other.difference(self))

    def intersection_update(self, *others):
        """Removes the keys that are not in each of these iterables. It changes all or nothing.

        O(n) look-ups in each iterable, as `intersection`.

        >>> numbers = SortedSet([1, 2, 3])
        >>> numbers.intersection_update([2, 4])
        >>> numbers
        SortedSet([2])
        """
        self._swap(self.intersection(*others))

    def difference_update(self, *others):
        """Removes the keys that are in one of these iterables. It changes all or nothing.

        O(n) look-ups in each iterable, as `difference`.

        >>> numbers = SortedSet([1, 2, 3])
        >>> numbers.difference_update([2, 4])
        >>> numbers
        SortedSet([1, 3])
        """
        self._swap(self.difference(*others))

    def symmetric_difference_update(self, other, /):
        """Removes the keys that are in an iterable too, and adds its other keys. It changes all or
        nothing. O((n + m) log(n + m)) for m members of the iterable.

        >>> numbers = SortedSet([1, 2])
        >>> numbers.symmetric_difference_update([2, 3])
        >>> numbers
        SortedSet([1, 3])
        """
        self._swap(self.symmetric_difference(other))

    def issubset(self, other, /):
        """Whether each key of this set is in an iterable. O(n) look-ups in it, as `intersection`.

        >>> SortedSet([1, 2]).issubset([1, 2, 3])
        True
        """
        other = _container(other)
        return all(key in other for key in self)

    def issuperset(self, other, /):
        """Whether each member of an iterable is in this set. O(m log n) for m members.

        >>> SortedSet([1, 2]).issuperset([1])
        True
        """
        return all(key in self for key in other)

    def isdisjoint(self, other, /):
        """Whether no member of an iterable is in this set. O(m log n) for m members.

        >>> SortedSet([1, 2]).isdisjoint([3])
        True
        """
        return not any(key in self for key in other)

    def __or__(self, other):
        return self.union(other) if isinstance(other, Set) else NotImplemented

    def __and__(self, other):
        return self.intersection(other) if isinstance(other, Set) else NotImplemented

    def __sub__(self, other):
        return self.difference(other) if isinstance(other, Set) else NotImplemented

    def __xor__(self, other):
        return self.symmetric_difference(other) if isinstance(other, Set) else NotImplemented

    __ror__, __rand__, __rxor__ = __or__, __and__, __xor__

    def __rsub__(self, other):
        return self._of(other).difference(self) if isinstance(other, Set) else NotImplemented

    def __ior__(self, other):
        if not isinstance(other, Set):
            return NotImplemented
        self.update(other)
        return self

    def __iand__(self, other):
        if not isinstance(other, Set):
            return NotImplemented
        self.intersection_update(other)
        return self

    def __isub__(self, other):
        if not isinstance(other, Set):
            return NotImplemented
        self.difference_update(other)
        return self

    def __ixor__(self, other):
        if not isinstance(other, Set):
            return NotImplemented
        self.symmetric_difference_update(other)
        return self

    def __eq__(self, other):
        if not isinstance(other, Set):
            return NotImplemented
        return self is other or len(self) == len(other) and self.issubset(other)

    def __le__(self, other):
        if not isinstance(other, Set):
            return NotImplemented
        return len(self) <= len(other) and self.issubset(other)

    def __lt__(self, other):
        if not isinstance(other, Set):
            return NotImplemented
        return len(self) < len(other) and self.issubset(other)

    def __ge__(self, other):
        if not isinstance(other, Set):
            return NotImplemented
        return len(self) >= len(other) and self.issuperset(other)

    def __gt__(self, other):
        if not isinstance(other, Set):
            return NotImplemented
        return len(self) > len(other) and self.issuperset(other)

    __hash__ = None

    def __delitem__(self, index):
        """Removes the key at an index, or those at a slice of indices."""
        for key in self[index] if isinstance(index, slice) else [self[index]]:
            self.remove(key)

    def __reduce__(self):
        return _set_of, (type(self), self._list(_KEYS)), _state(self)

    @recursive_repr("SortedSet(...)")
    def __repr__(self):
        return f"{type(self).__name__}({self._list(_KEYS)!r})"


def _set_of(cls, keys):
    """What a pickle of a set calls."""
    made = cls.__new__(cls)
    made._store(keys)
    return made


MutableSet.register(SortedSet)
Sequence.register(SortedSet)
