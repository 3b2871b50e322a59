"""Lines drawn with a seed, for the trials and the figures."""

from __future__ import annotations

import random

GREATEST = (1 << 64) - 1
BAD = [b"", b"get", b"get 01", b"put 1", b"put  1 2", b"PUT 1 2", b"len ", b"rank -1", b"at 18446744073709551616", b"page 3 0", b"from 0 1"]


def lines(count: int, seed: int, keys: int = 30_000, long: int = 20_000) -> list[bytes]:
    """So many lines, in stretches of ``long``. The share of removals comes and goes, so that the map grows and shrinks by turns."""
    draw = random.Random(seed)
    number, among, one_of = draw.random, draw.randrange, draw.choice
    found = []
    add = found.append
    for at in range(count):
        # In some stretches all keys are drawn from a narrow part, so that one shard has the load.
        stretch = at // long
        low, wide = (0, keys) if stretch % 3 else (keys * (stretch % 7) // 7, keys // 7)
        key = low + among(wide)
        removes = 0.10 if stretch % 4 < 2 else 0.38
        turn = number()
        if turn < 0.45 - removes / 2:
            add(b"put %d %d" % (key, among(1_000_000)))
        elif turn < 0.45 + removes / 2:
            add(b"del %d" % key)
        elif turn < 0.70:
            add(b"get %d" % key)
        elif turn < 0.78:
            add(b"rank %d" % key)
        elif turn < 0.84:
            add(b"at %d" % among(keys))
        elif turn < 0.88:
            add(b"next %d" % key)
        elif turn < 0.92:
            add(b"prev %d" % key)
        elif turn < 0.94:
            add(one_of([b"first", b"last", b"len"]))
        elif turn < 0.96:
            add(b"range %d %d" % (key, key + among(60) - 5))
        elif turn < 0.98:
            add(b"page %d %d" % (among(2_000), 1 + among(20)))
        elif turn < 0.98004:
            add(one_of([b"all", b"back", b"page 0 %d" % GREATEST, b"range 0 %d" % GREATEST]))
        elif turn < 0.98005:
            add(b"clear")
        elif turn < 0.985:
            # (the least and the greatest keys)
            far = one_of([0, GREATEST, GREATEST - among(3)])
            add(one_of([b"put %d 7", b"del %d", b"rank %d", b"next %d", b"prev %d", b"get %d"]) % far)
        else:
            add(one_of(BAD))
    return found
