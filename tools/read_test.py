"""Tests of the replay program where a read fails: it counts as torn. Run: python3 tools/read_test.py PROGRAM"""

import os
import subprocess
import sys
import unittest

PROGRAM = sys.argv.pop()
HERE = os.path.dirname(os.path.abspath(__file__))


def printed(stdin):
    return subprocess.run([PROGRAM], stdin=stdin, capture_output=True, check=False, timeout=60).stdout.decode()


class FailedReads(unittest.TestCase):
    def test_first_read(self):
        folder = os.open(HERE, os.O_RDONLY)
        self.assertEqual(printed(folder), "torn 0\n")
        os.close(folder)

    def test_later_read(self):
        """A pipe that has no more bytes and is not closed, and that does not wait for them."""
        trace = os.path.join(HERE, "traces", "rules.trace")
        data = subprocess.run([os.path.join(HERE, "trace"), trace], capture_output=True, check=True).stdout
        reading, writing = os.pipe()
        os.set_blocking(reading, False)
        os.write(writing, data)
        self.assertEqual(printed(reading), "open 0\n1 0\n2 3\ntorn 2\n")
        os.close(writing)
        os.close(reading)


if __name__ == "__main__":
    unittest.main()
