"""The table of all wrong programs in docs/WRONG-PROGRAMS.md beside the edits."""

import importlib.machinery
import importlib.util
import os
import re
import unittest

from common import ROOT, TOOLS, tool

import pagetools

loader = importlib.machinery.SourceFileLoader("wrongprograms", os.path.join(TOOLS, "wrongprograms"))
wrongprograms = importlib.util.module_from_spec(importlib.util.spec_from_loader("wrongprograms", loader))
loader.exec_module(wrongprograms)

ONE = "# N = 17 must be refused\nfile: src/word.rt\nold: 16\nnew: 17\n"


class Page(unittest.TestCase):
    def test_the_page_has_the_table_of_the_edits(self):
        done = tool("wrongprograms", "--check")
        self.assertEqual((done.returncode, done.stderr), (0, b""))

    def test_every_edit_has_one_line(self):
        rows = re.findall(r"^\| (\w+) \| (\w+) \| (?:code|definition|code, definition|code, definition, proofs) \| \S.* \| (?:`[^|]+`)? \|$", pagetools.read(wrongprograms.PAGE), re.M)
        folders = os.path.join(ROOT, "crates")
        there = [(crate, name[:-5]) for crate in sorted(os.listdir(folders)) if os.path.isdir(os.path.join(folders, crate, "must-fail"))
                 for name in sorted(os.listdir(os.path.join(folders, crate, "must-fail"))) if name.endswith(".edit")]
        self.assertGreater(len(there), 30)
        self.assertEqual(rows, there)

    def test_an_edit_more_or_another_reason_makes_another_table(self):
        now = wrongprograms.table([("setup", "head", ONE)])
        self.assertIn("| setup | head | code | N = 17 must be refused |  |\n", now)
        self.assertNotEqual(now, wrongprograms.table([("setup", "head", ONE), ("setup", "other", ONE)]))
        self.assertNotEqual(now, wrongprograms.table([("setup", "head", ONE.replace("refused", "accepted"))]))

    def test_the_laws_that_slips_name_stand_in_its_line(self):
        two = ONE.replace("src/word.rt", "specs/Word.antt").replace("old:", "law: seventeen\nold:") + "law: word::head\nold: 1\nnew: 2\n"
        self.assertIn("| setup | head | definition | N = 17 must be refused | `seventeen`, `word::head` |\n", wrongprograms.table([("setup", "head", two)]))

    def test_an_edit_without_a_reason_is_named(self):
        for wrong in (ONE.split("\n", 1)[1], "#\n" + ONE.split("\n", 1)[1], ONE.replace("src/", "proofs/")):
            with self.assertRaisesRegex(ValueError, "crates/setup/must-fail/head.edit"):
                wrongprograms.table([("setup", "head", wrong)])


class Markers(unittest.TestCase):
    def test_only_what_is_between_the_markers_changes(self):
        page = "a\n<!-- t: begin -->\nold\n<!-- t: end -->\nb\n"
        self.assertEqual(pagetools.put(page, "t", "new \\1\n"), page.replace("old", "new \\1"))

    def test_a_page_without_the_markers_is_refused(self):
        for page in ("a\n", "<!-- t: begin -->\n", "<!-- t: end -->\n<!-- t: begin -->\n", "<!-- t: begin -->\n<!-- t: end -->\n" * 2):
            with self.assertRaises(ValueError):
                pagetools.put(page, "t", "new\n")


if __name__ == "__main__":
    unittest.main()
