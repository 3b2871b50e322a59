"""Prints cases of the functions that route calls to shards, each with its result. It finds the results by looking through plain lists
of pairs, with no sums and no searches. trials/routes has these lines.

    python3 shards/tests/cases.py
"""

BOUNDS = [[], [0], [5], [1, 1, 1], [2, 7, 7], [7, 7, 9], [4, 8, 10]]
LENGTHS = [[], [0], [5], [3, 0, 4], [0, 2, 0], [1, 1, 1]]


def write(name, numbers, *others):
    *asked, result = others
    words = [name, ",".join(map(str, numbers)) or "-", *map(str, asked)]
    if isinstance(result, tuple):
        result = ",".join(map(str, result))
    print(*words, "=", "none" if result is None else result)


def keys_of(bounds, key):
    """The shards that a key lies in, and the last shard that has a key below it, by asking each shard for its two ends."""
    last = len(bounds)
    ends = [(bounds[shard - 1] if shard else -1, bounds[shard] if shard < last else 99) for shard in range(last + 1)]
    own = [shard for shard, (low, high) in enumerate(ends) if low <= key < high]
    below = [shard for shard, (low, _) in enumerate(ends) if low < key]
    return own[0], below[-1]


for bounds in BOUNDS:
    for key in range(12):
        own, below = keys_of(bounds, key)
        write("route", bounds, key, own)
        write("route_below", bounds, key, below)
        write("route_range", bounds, key, "none", (own, len(bounds)))
        write("route_range", bounds, "none", key, (0, below))

for lengths in LENGTHS:
    pairs = [(shard, own) for shard, length in enumerate(lengths) for own in range(length)]
    full = [shard for shard, _ in pairs]
    write("first_full", lengths, full[0] if full else None)
    write("last_full", lengths, full[-1] if full else None)
    for shard in range(len(lengths)):
        write("next_full", lengths, shard, min((other for other in full if other > shard), default=None))
        write("prev_full", lengths, shard, max((other for other in full if other < shard), default=None))
    for index in range(9):
        write("locate", lengths, index, pairs[index] if index < len(pairs) else None)
        for most in range(4):
            page = pairs[index : index + most]
            part = [pair for pair in page if pair[0] == page[0][0]]
            write("next_part", lengths, index, most, (*part[0], len(part)) if part else None)
