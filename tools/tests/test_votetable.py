"""The page of the vote table beside the table in the source, and beside the rule counted out."""

import importlib.machinery
import importlib.util
import os
import subprocess
import sys
import tempfile
import unittest
from unittest import mock

from common import ROOT, TOOLS

loader = importlib.machinery.SourceFileLoader("votetable", os.path.join(TOOLS, "votetable"))
votetable = importlib.util.module_from_spec(importlib.util.spec_from_loader("votetable", loader))
loader.exec_module(votetable)


def rule(votes, ones):
    if ones > votes:
        return "-"
    if votes == 0:
        return "?"
    return "1" if ones >= votes - ones else "0"


class VoteTable(unittest.TestCase):
    def test_the_page_is_the_table_of_the_source(self):
        done = subprocess.run([os.path.join(TOOLS, "votetable"), "--check"], capture_output=True, text=True)
        self.assertEqual((done.returncode, done.stderr), (0, ""))

    def test_every_entry_of_the_page_is_the_rule(self):
        page = votetable.read(os.path.join(ROOT, "docs", "VOTE-TABLE.md"))
        lines = [line for line in page.splitlines() if line.startswith("| **")]
        self.assertEqual(len(lines), 16)
        for votes, line in enumerate(lines):
            cells = [cell.strip() for cell in line.strip("|").split("|")]
            self.assertEqual(cells, ["**%d**" % votes] + [rule(votes, ones) for ones in range(16)])

    def test_the_rule_on_the_page_for_checking_a_row(self):
        source = votetable.rows(votetable.read(votetable.SOURCE))
        self.assertEqual(source[0], "?" + "-" * 15)
        for votes in range(1, 16):
            zeros = sum(2 * ones < votes for ones in range(16))
            self.assertEqual(source[votes], "0" * zeros + "1" * (votes + 1 - zeros) + "-" * (15 - votes))

    def test_of_another_page_it_says_how_to_write_it_anew(self):
        with tempfile.NamedTemporaryFile("w", suffix=".md") as other, mock.patch.object(votetable, "PAGE", other.name), \
                mock.patch.object(sys, "argv", ["votetable", "--check"]), self.assertRaises(SystemExit) as caught:
            votetable.main()
        self.assertIn("write it anew with: tools/votetable > docs/VOTE-TABLE.md", str(caught.exception))

    def test_another_entry_makes_another_page(self):
        source = votetable.read(votetable.SOURCE)
        self.assertNotEqual(votetable.page(source), votetable.page(source.replace("    00111-", "    00011-")))

    def test_a_table_of_other_entries_is_refused(self):
        source = votetable.read(votetable.SOURCE)
        for wrong in (source.replace("    01-", "    02-"), source.replace("    011-", "    011"), ""):
            with self.assertRaises(ValueError):
                votetable.rows(wrong)


if __name__ == "__main__":
    unittest.main()
