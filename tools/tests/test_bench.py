"""The bench as a program: what it says where standard output fails."""

import os
import subprocess
import unittest

from common import BENCH, needs_bench, root, read


@needs_bench
class Bench(unittest.TestCase):
    SHEET = read(root("harness", "data", "vectors", "001-star-sheet.bin"))

    @unittest.skipUnless(os.path.exists("/dev/full"), "no /dev/full here")
    def test_a_full_disk_is_said_on_standard_error(self):
        with open("/dev/full", "wb") as full:
            done = subprocess.run([BENCH], input=self.SHEET, stdout=full, stderr=subprocess.PIPE, check=False)
        self.assertIn(b"standard output failed", done.stderr)

    def test_otherwise_nothing_is(self):
        done = subprocess.run([BENCH], input=self.SHEET, capture_output=True, check=False)
        self.assertEqual(done.stderr, b"")
        self.assertEqual(done.stdout, read(root("harness", "data", "vectors", "001-star-sheet.out")))


if __name__ == "__main__":
    unittest.main()
