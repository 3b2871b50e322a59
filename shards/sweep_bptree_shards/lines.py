"""The lines of the program: which are requests, and of what."""

from __future__ import annotations

__all__ = ["GREATEST", "LONGEST", "request"]

GREATEST = (1 << 64) - 1
# A line that is longer is none of them.
LONGEST = 48
# How many numbers follow a name.
_NUMBERS = {
    b"get": 1, b"put": 2, b"del": 1, b"rank": 1, b"at": 1, b"next": 1, b"prev": 1, b"range": 2, b"page": 2,
    b"first": 0, b"last": 0, b"len": 0, b"all": 0, b"back": 0, b"clear": 0,
}  # fmt: skip


def request(line: bytes) -> tuple[bytes, int, int] | None:
    """The name of the request of a line and its numbers, 0 for one that it lacks; ``None`` of a bad line."""
    words = line.split(b" ")
    name = words[0]
    count = _NUMBERS.get(name)
    if count is None or len(words) != count + 1 or len(line) > LONGEST:
        return None
    if not count:
        return name, 0, 0
    first = words[1]
    # (bytes.isdigit knows no digits but those from 0 to 9)
    if not first.isdigit() or (first[0] == 48 and len(first) > 1):
        return None
    number = int(first)
    if number > GREATEST:
        return None
    if count == 1:
        return name, number, 0
    second = words[2]
    if not second.isdigit() or (second[0] == 48 and len(second) > 1):
        return None
    other = int(second)
    if other > GREATEST or (name == b"page" and not other):
        return None
    return name, number, other
