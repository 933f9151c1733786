"""What docs/THEOREM.md quotes of the sources stands there, but for line ends and indentation."""

import glob
import os
import re
import unittest

from common import ROOT


def text(path):
    with open(path, encoding="utf-8") as file:
        return file.read()


def on_one_line(part):
    return " ".join(part.split())


def quoted(page):
    """The indented blocks of a page."""
    blocks = re.findall(r"(?:^    .*\n)+", page, re.M)
    return [on_one_line(block) for block in blocks]


class Quotes(unittest.TestCase):
    def test_the_page_quotes_what_is_there(self):
        sources = [on_one_line(text(path)) for part in ("src/*.rt", "specs/*.antt") for path in glob.glob(os.path.join(ROOT, "crates", "*", part))]
        blocks = quoted(text(os.path.join(ROOT, "docs", "THEOREM.md")))
        self.assertGreaterEqual(len(blocks), 5)
        for block in blocks:
            with self.subTest(block[:60]):
                self.assertTrue(any(block in source for source in sources))

    def test_what_is_a_block(self):
        self.assertEqual(quoted("a\n\n    b\n      c\n\n    d\n\ne\n"), ["b c", "d"])


if __name__ == "__main__":
    unittest.main()
