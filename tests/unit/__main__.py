"""The unit tests, as tests/run calls them: `python3 tests/unit`, with words of unittest behind it, as `-k NAME`."""
import sys
import unittest
from pathlib import Path

UNIT = Path(__file__).resolve().parent
sys.dont_write_bytecode = True
sys.path[:0] = [str(UNIT.parents[1] / name) for name in ("tools", "tests", "tests/checks", "")]
unittest.main(None, argv=["tests/run unit", "discover", "-s", str(UNIT), "-t", str(UNIT), *sys.argv[1:]])
