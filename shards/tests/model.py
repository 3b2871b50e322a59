"""The two references for results: the program in one process, and a plain sorted array."""

from __future__ import annotations

import subprocess

import numpy


def by_program(program: str, lines: list[bytes]) -> list[bytes]:
    """The replies of the program."""
    text = b"".join(line + b"\n" for line in lines)
    return subprocess.run([program], input=text, stdout=subprocess.PIPE, check=True).stdout.split(b"\n")[:-1]


class Model:
    """A plain sorted array of pairs."""

    def __init__(self):
        self.keys = numpy.empty(0, numpy.uint64)
        self.values = numpy.empty(0, numpy.uint64)

    def where(self, keys):
        at = numpy.searchsorted(self.keys, keys)
        found = numpy.zeros(len(keys), bool)
        inside = at < len(self.keys)
        found[inside] = self.keys[at[inside]] == keys[inside]
        return at, found

    def put(self, keys, values) -> None:
        # (of equal keys the last one stays)
        keys, last = numpy.unique(keys[::-1], return_index=True)
        values = values[::-1][last]
        at, found = self.where(keys)
        self.values[at[found]] = values[found]
        self.keys = numpy.insert(self.keys, at[~found], keys[~found])
        self.values = numpy.insert(self.values, at[~found], values[~found])

    def remove(self, keys):
        first = numpy.zeros(len(keys), bool)
        first[numpy.unique(keys, return_index=True)[1]] = True
        at, found = self.where(keys)
        stays = numpy.ones(len(self.keys), bool)
        stays[at[found]] = False
        self.keys, self.values = self.keys[stays], self.values[stays]
        return found & first
