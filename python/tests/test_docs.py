"""The examples of the docstrings, and that each public name has one."""

import doctest
import unittest

import sweep_bptree
from sweep_bptree import SortedMap, SortedSet, _native

NAMES = {"SortedMap": SortedMap, "SortedSet": SortedSet}


class Docs(unittest.TestCase):
    def test_examples(self):
        for module in (sweep_bptree, _native):
            result = doctest.testmod(module, extraglobs=NAMES)
            self.assertGreater(result.attempted, 20)
            self.assertEqual(result.failed, 0)

    def test_each_public_name_has_an_example(self):
        classes = [SortedMap, SortedSet, sweep_bptree.Keys, sweep_bptree.Values, sweep_bptree.Items]
        for it in classes:
            self.assertIn(">>> ", it.__doc__)
            for name in dir(it):
                is_inherited = any(name in vars(base) for base in it.__mro__ if base.__module__ in ("collections.abc", "typing"))
                if not name.startswith("_") and not is_inherited:
                    self.assertIn(">>> ", getattr(it, name).__doc__ or "", f"{it.__name__}.{name}")


if __name__ == "__main__":
    unittest.main()
