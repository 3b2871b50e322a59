"""Eight threads that call each public method of one map, each thread at keys of its own.

Each row runs over a map of numbers, and over one that was moved to a map of byte strings.
"""

import copy
import itertools
import pickle
import sys
import threading
import time
import unittest
from array import array

from sweep_bptree import SortedMap, _native

THREADS = 8
# A thread's keys are 1000 * (its number + 1) + 1 and on, and a key's value is 10 times the key.
EACH = 40
# How long the threads call one method, unless one of them gets a wrong result before.
SECONDS = 0.1


def base(thread):
    return 1000 * (thread + 1)


def keys_of(thread):
    return [base(thread) + 1 + n for n in range(EACH)]


def full():
    return SortedMap((key, key * 10) for thread in range(THREADS) for key in keys_of(thread))


ALL = [key for thread in range(THREADS) for key in keys_of(thread)]
PAIRS = [(key, key * 10) for key in ALL]


def alike(found, wanted):
    """Fails if a result is not the one that is due."""
    if found != wanted:
        raise AssertionError(f"{found!r:.300} in place of {wanted!r:.300}")


def own_index(thread, turn):
    return thread * EACH + turn % EACH


def own_key(thread, turn):
    return keys_of(thread)[turn % EACH]


# Of a map that no thread changes: each method's result is known.


def reads_length(map_, thread, turn):
    alike((len(map_), bool(map_)), (len(ALL), True))


def reads_item(map_, thread, turn):
    key = own_key(thread, turn)
    alike(map_[key], key * 10)


def reads_by_get(map_, thread, turn):
    key = own_key(thread, turn)
    alike(map_.get(key), key * 10)
    alike(map_.get(base(thread), -thread), -thread)


def reads_in(map_, thread, turn):
    alike((own_key(thread, turn) in map_, base(thread) in map_), (True, False))


def reads_peekitem(map_, thread, turn):
    alike(map_.peekitem(own_index(thread, turn)), PAIRS[own_index(thread, turn)])


def reads_rank(map_, thread, turn):
    alike(map_.rank(own_key(thread, turn)), own_index(thread, turn))


def reads_bisect_left(map_, thread, turn):
    alike(map_.bisect_left(base(thread)), thread * EACH)


def reads_bisect_right(map_, thread, turn):
    alike(map_.bisect_right(own_key(thread, turn)), own_index(thread, turn) + 1)


def reads_bisect(map_, thread, turn):
    alike(map_.bisect(own_key(thread, turn)), own_index(thread, turn) + 1)


def reads_index(map_, thread, turn):
    alike(map_.index(own_key(thread, turn)), own_index(thread, turn))


def reads_range_len(map_, thread, turn):
    alike(map_.range_len(base(thread), own_key(thread, turn)), turn % EACH)
    alike(map_.range_len(own_key(thread, turn), 2**64), len(ALL) - own_index(thread, turn))


def reads_irange(map_, thread, turn):
    alike(list(map_.irange(base(thread), base(thread + 1))), keys_of(thread))


def reads_irange_items(map_, thread, turn):
    pairs = map_.irange_items(base(thread), base(thread + 1), reverse=True)
    alike(list(pairs), PAIRS[thread * EACH : (thread + 1) * EACH][::-1])


def reads_islice(map_, thread, turn):
    alike(list(map_.islice(thread * EACH, thread * EACH + EACH)), keys_of(thread))


def reads_iterator(map_, thread, turn):
    alike(list(map_), ALL)


def reads_reversed(map_, thread, turn):
    alike(list(reversed(map_)), ALL[::-1])


def reads_keys(map_, thread, turn):
    alike(map_.keys()[own_index(thread, turn)], own_key(thread, turn))
    alike(map_.keys().tolist(), ALL)


def reads_values(map_, thread, turn):
    alike(map_.values()[own_index(thread, turn)], own_key(thread, turn) * 10)
    alike(map_.values().tolist(), [value for _, value in PAIRS])


def reads_items(map_, thread, turn):
    alike(map_.items()[own_index(thread, turn)], PAIRS[own_index(thread, turn)])
    alike(map_.items().tolist(), PAIRS)


def reads_copy(map_, thread, turn):
    for other in (map_.copy(), copy.copy(map_), pickle.loads(pickle.dumps(map_))):
        other[thread] = thread
        alike((len(other), other[thread]), (len(ALL) + 1, thread))


def reads_equality(map_, thread, turn):
    alike((map_ == map_.copy(), map_ == {}), (True, False))


def reads_or(map_, thread, turn):
    for both in (map_ | {base(thread): thread}, {base(thread): thread} | map_):
        alike((both[base(thread)], len(both)), (thread, len(ALL) + 1))


def reads_repr(map_, thread, turn):
    alike(repr(map_), f"SortedMap({dict(PAIRS)!r})")


def reads_fromkeys(map_, thread, turn):
    alike(list(map_.fromkeys(keys_of(thread), thread).values()), [thread] * EACH)


def reads_get_many(map_, thread, turn):
    keys = array("q", [*keys_of(thread), base(thread)])
    alike(map_.get_many(keys, -thread), [*(key * 10 for key in keys_of(thread)), -thread])


def reads_rank_many(map_, thread, turn):
    alike(map_.rank_many(array("Q", keys_of(thread))).tolist(), list(range(thread * EACH, thread * EACH + EACH)))


def reads_arrays(map_, thread, turn):
    keys, values = map_.items_arrays(base(thread), base(thread + 1))
    alike((keys.tolist(), values.tolist()), (keys_of(thread), [key * 10 for key in keys_of(thread)]))
    alike((map_.keys_array(base(thread), base(thread + 1)), map_.keys_array().tolist()), (keys, ALL))


def reads_from_arrays(map_, thread, turn):
    alike(map_.from_arrays(array("q", keys_of(thread)), array("q", [key * 10 for key in keys_of(thread)])), dict(own_pairs(thread)))


# Of a map that all threads change, each at its own keys: what a thread left there, it finds again.


def changes_item(map_, thread, turn):
    key = own_key(thread, turn)
    map_[key] = thread
    alike(map_[key], thread)


def changes_del(map_, thread, turn):
    key = own_key(thread, turn)
    del map_[key]
    alike(key in map_, False)
    map_[key] = thread


def changes_pop(map_, thread, turn):
    key = own_key(thread, turn)
    map_[key] = thread * 7 + 5
    alike(map_.pop(key), thread * 7 + 5)
    alike(map_.pop(key, -thread), -thread)
    map_[key] = thread


def changes_setdefault(map_, thread, turn):
    key = own_key(thread, turn)
    map_.pop(key, None)
    alike(map_.setdefault(key, thread), thread)
    alike(map_.setdefault(key, 99), thread)


def changes_update(map_, thread, turn):
    map_.update((key, thread + turn) for key in keys_of(thread))
    alike([map_[key] for key in keys_of(thread)], [thread + turn] * EACH)


def changes_ior(map_, thread, turn):
    map_ |= {key: thread + turn for key in keys_of(thread)}
    alike([map_[key] for key in keys_of(thread)], [thread + turn] * EACH)


def changes_many(map_, thread, turn):
    keys = array("q", keys_of(thread))
    map_.put_many(keys, [thread + turn] * EACH)
    alike(map_.get_many(keys), [thread + turn] * EACH)
    alike((map_.del_many(keys), map_.del_many(keys), map_.range_len(base(thread), base(thread + 1))), (EACH, 0, 0))
    map_.put_many(keys, keys)
    alike([map_[key] for key in keys], keys_of(thread))


def changes_while_others_read(map_, thread, turn):
    """Half of the threads read all pairs while the others store and remove some."""
    if thread % 2:
        map_[base(thread) + 500 + turn % EACH] = 5
        map_.pop(base(thread) + 500 + (turn + 7) % EACH, None)
        return
    own = slice(base(thread), base(thread + 1))
    words = map_.items().tolist()
    alike([it for it in words if own.start <= it[0] < own.stop], own_pairs(thread))
    alike(all(it[0] for it in words), True)
    alike(list(map_.irange_items(own.start, own.stop - 1)), own_pairs(thread))


def own_pairs(thread):
    return PAIRS[thread * EACH : (thread + 1) * EACH]


def changes_clear(map_, thread, turn):
    key = own_key(thread, turn)
    map_[key] = thread
    alike(map_.get(key, thread), thread)
    map_.clear()
    alike(map_.get(key, thread), thread)


def changes_popitem(map_, thread, turn):
    """Whatever another thread takes meanwhile, a pair that was put in leaves as it was put in."""
    key = own_key(thread, turn)
    map_[key] = key * 10
    try:
        key, value = map_.popitem(turn % 3 - 1)
    except (IndexError, KeyError):
        return
    alike(value, key * 10)


# The methods of each row; each of the class is in one (test_each_method_is_in_the_table).
TABLE = {
    reads_length: ["__len__"],
    reads_item: ["__getitem__"],
    reads_by_get: ["get"],
    reads_in: ["__contains__"],
    reads_peekitem: ["peekitem"],
    reads_rank: ["rank"],
    reads_bisect_left: ["bisect_left"],
    reads_bisect_right: ["bisect_right"],
    reads_bisect: ["bisect"],
    reads_index: ["index"],
    reads_range_len: ["range_len"],
    reads_irange: ["irange"],
    reads_irange_items: ["irange_items"],
    reads_islice: ["islice"],
    reads_iterator: ["__iter__"],
    reads_reversed: ["__reversed__"],
    reads_keys: ["keys"],
    reads_values: ["values"],
    reads_items: ["items"],
    reads_copy: ["__new__", "__init__", "copy", "__copy__", "__reduce__"],
    reads_equality: ["__eq__"],
    reads_or: ["__or__", "__ror__"],
    reads_repr: ["__repr__"],
    reads_fromkeys: ["fromkeys"],
    reads_get_many: ["get_many"],
    reads_rank_many: ["rank_many"],
    reads_arrays: ["keys_array", "items_arrays"],
    reads_from_arrays: ["from_arrays"],
    changes_item: ["__setitem__"],
    changes_del: ["__delitem__"],
    changes_pop: ["pop"],
    changes_setdefault: ["setdefault"],
    changes_update: ["update"],
    changes_ior: ["__ior__"],
    changes_many: ["put_many", "del_many"],
    changes_while_others_read: [],
    changes_clear: ["clear"],
    changes_popitem: ["popitem"],
}


class Threads(unittest.TestCase):
    def setUp(self):
        self.addCleanup(sys.setswitchinterval, sys.getswitchinterval())
        sys.setswitchinterval(1e-6)

    def run_row(self, row, map_):
        """Calls a row in all threads at once; the first wrong result of any thread, or None."""
        wrong, start = [], threading.Barrier(THREADS)
        end = time.monotonic() + SECONDS

        def work(thread):
            start.wait()
            try:
                for turn in itertools.count():
                    row(map_, thread, turn)
                    if wrong or time.monotonic() > end:
                        return
            except BaseException as error:
                wrong.append(error)

        threads = [threading.Thread(target=work, args=(thread,)) for thread in range(THREADS)]
        for thread in threads:
            thread.start()
        for thread in threads:
            thread.join()
        return wrong[0] if wrong else None

    def test_each_method_by_eight_threads(self):
        for row in TABLE:
            with self.subTest(row.__name__):
                self.assertIsNone(self.run_row(row, full()))

    def test_each_method_of_a_map_of_byte_strings(self):
        for row in TABLE:
            map_ = full()
            # (the ints stay, and are held as byte strings)
            map_["x"] = 1
            del map_["x"]
            with self.subTest(row.__name__):
                self.assertIsNone(self.run_row(row, map_))

    def test_each_pair_is_popped_once(self):
        map_, popped = full(), [[] for _ in range(THREADS)]

        def work(thread):
            while map_:
                try:
                    popped[thread].append(map_.popitem(0 if thread % 2 else -1))
                except KeyError:
                    return

        threads = [threading.Thread(target=work, args=(thread,)) for thread in range(THREADS)]
        for thread in threads:
            thread.start()
        for thread in threads:
            thread.join()
        self.assertEqual(sorted(itertools.chain(*popped)), PAIRS)

    def test_each_method_is_in_the_table(self):
        methods = {
            name
            for of in (_native.Sorted, _native.Map, SortedMap)
            for name, it in vars(of).items()
            if (callable(it) or isinstance(it, classmethod)) and (not name.startswith("_") or name.startswith("__"))
        }
        self.assertEqual(methods - {"__class_getitem__"}, set(itertools.chain(*TABLE.values())))


if __name__ == "__main__":
    unittest.main()
