"""What CPython asks of a mapping."""

import unittest

from sweep_bptree import SortedMap

try:
    from test.mapping_tests import TestMappingProtocol
except ImportError:
    TestMappingProtocol = None


@unittest.skipUnless(TestMappingProtocol, "the tests of CPython are not installed")
class AsCPythonAsks(TestMappingProtocol or unittest.TestCase):
    type2test = SortedMap


del TestMappingProtocol

if __name__ == "__main__":
    unittest.main()
