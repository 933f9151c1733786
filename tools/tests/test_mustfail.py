"""How edits that must be refused are read, and what the prover says of them: tools/mustfail.py on small made-up edits and logs."""

import importlib.machinery
import importlib.util
import os
import tempfile
import unittest

from common import TOOLS

import mustfail
import trials

loader = importlib.machinery.SourceFileLoader("tryslips", os.path.join(TOOLS, "tryslips"))
tryslips = importlib.util.module_from_spec(importlib.util.spec_from_loader("tryslips", loader))
loader.exec_module(tryslips)

# `low` and `made` are wrong; `high` calls `low`, `over` calls `made`, and neither is wrong; `both` is wrong and calls `low`, as `told` does,
# whose goals the prover closes itself; `waits` calls `low`, and its goals were not tried; `looped` has a wrong invariant
LOG = """\
./proofs/part/low/Answers.antt:14:13: error: `returns`: `search`: no proof of `Post` was found
  was found. Every way was tried.
./proofs/part/high/Answers.antt:18:16: error: 1 declaration that depends on `cut-law`, which was not admitted, was not checked: returns
./proofs/Card/both/Answers.antt:9:3: error: `loop-again`: `omega`: the goal does not follow from what it read
./proofs/part/looped/Invariants.antt:9:3: error: `invariant-loop-j`: as printed, the two types differ
./proofs/PartLaws.antt:7:5: error: `cut-law`: computed as far as they go, the two types differ only where one has `2`
./proofs/PartLaws.antt:9:5: error: `user-law`: `cut-law` was not admitted (it has holes), so this cannot be checked
./proofs/PartLaws.antt:12:5: error: 2 declarations that depend on `user-law`, which was rejected, were not checked: more-law, other-law
./proofs/part/+again/Answers.antt:14:13: error: `returns`: `search`: no proof of `Post` was found
./proofs/alone/Proof.antt:14:13: error: `returns`: `search`: no proof of `Post` was found
note: src/part.rt:23:1: it is not proved that what the function ensures holds when it returns (`returns`)
fn some::part::right: proved
fn some::part::fn::low::each+Fn::call: proved where its callers give what it asks
fn some::part::low: not proved
fn some::part::high: not proved; it calls `some::part::low`, which is not proved
fn some::Card::both: not proved; it calls `some::part::low`, which is not proved
fn some::part::looped: not proved; it calls `some::part::low` and `some::part::made`, which are not proved
fn some::part::again: not proved; it calls `some::part::low`, which is not proved
fn some::part::made: no proof: expected answers in ./proofs/part/made/Answers.antt; `search` did not prove `returns`
fn some::part::told: no proof: expected answers in ./proofs/part/told/Answers.antt; `search` did not prove `returns`; it calls `some::part::low`, which is not proved
note: `search` has not tried the goals of `some::part::waits`, which wait for a callee's proof: some may be open after it
fn some::part::waits: no proof: it calls `some::part::low`, which is not proved
fn some::part::over: not proved; it calls `some::part::made`, which is not proved
fn some::alone: not proved; it calls `some::part::low`, which is not proved
logic=not-proved
"""

EDIT = """\
# a cut must be even; the low one must be low
file: specs/Part.antt
law: cut-law
old: cut n = 2 * n
new: cut n = 3 * n
file: src/part.rt
old: n: 0,
new: n: 1,
also: same slip
old: m: 0,
new:
old:     low + 1
new:     low
"""


class Functions(unittest.TestCase):
    def refused(self, name):
        return mustfail.function_refused(LOG, name)

    def test_a_wrong_function_is_refused_for_itself(self):
        self.assertTrue(self.refused("part::low"))
        self.assertTrue(self.refused("part::made"))

    def test_one_that_only_calls_a_wrong_one_is_not(self):
        self.assertFalse(self.refused("part::high"))
        self.assertFalse(self.refused("part::over"))
        self.assertFalse(self.refused("part::waits"))

    def test_a_wrong_one_that_calls_a_wrong_one_is(self):
        self.assertTrue(self.refused("Card::both"))
        self.assertTrue(self.refused("part::told"))
        self.assertTrue(self.refused("part::again"))
        self.assertTrue(self.refused("part::looped"))
        self.assertTrue(self.refused("alone"))

    def test_one_that_is_proved_or_not_there_is_not(self):
        self.assertFalse(self.refused("part::right"))
        self.assertFalse(self.refused("part::fn::low::each+Fn::call"))
        self.assertFalse(self.refused("part::nothing"))

    def test_an_error_of_another_function_does_not_count(self):
        for name in ("part::high", "part::over"):
            self.assertFalse(mustfail.function_refused(LOG.replace("Card/both", "Card/" + name.split("::")[1]), name))

    def test_without_its_own_error_a_caller_is_not(self):
        self.assertFalse(mustfail.function_refused(LOG.replace("error: `loop-again`: `omega`", "error: `loop-again`: `cut-law` was not admitted"), "Card::both"))
        self.assertFalse(mustfail.function_refused(LOG.replace("error: `loop-again`: `omega`", "error: 1 declaration that depends on `cut-law`, which"), "Card::both"))


class Laws(unittest.TestCase):
    def test_a_wrong_law_is_refused_for_itself_and_one_that_uses_it_is_not(self):
        self.assertTrue(mustfail.law_refused(LOG, "cut-law"))
        self.assertFalse(mustfail.law_refused(LOG, "user-law"))
        self.assertFalse(mustfail.law_refused(LOG, "other-law"))

    def test_a_law_may_be_named_with_its_file(self):
        self.assertTrue(mustfail.law_refused(LOG, "PartLaws.cut-law"))
        self.assertFalse(mustfail.law_refused(LOG, "OtherLaws.cut-law"))

    def test_an_answer_in_the_proof_of_a_function_is_no_law(self):
        self.assertFalse(mustfail.law_refused(LOG, "returns"))

    def test_a_function_can_stand_for_a_law(self):
        self.assertTrue(mustfail.law_refused(LOG, "part::low"))
        self.assertFalse(mustfail.law_refused(LOG, "part::high"))


class Edits(unittest.TestCase):
    def test_slips_have_their_file_law_and_places(self):
        self.assertEqual(mustfail.slips(EDIT), [
            ("specs/Part.antt", "cut-law", [("specs/Part.antt", "cut n = 2 * n")]),
            ("src/part.rt", None, [("src/part.rt", "n: 0,"), ("src/part.rt", "m: 0,")]),
            ("src/part.rt", None, [("src/part.rt", "    low + 1")])])

    def test_a_law_holds_for_one_slip(self):
        twice = EDIT.replace("file: src/part.rt\n", "")
        self.assertEqual([slip.law for slip in mustfail.slips(twice)], ["cut-law", None, None])

    def test_an_edit_that_has_it_alike_says_so_or_changes_proofs(self):
        self.assertFalse(mustfail.is_alike(EDIT))
        self.assertTrue(mustfail.is_alike(EDIT.replace("low\nfile", "low, though definition and code have it alike\nfile", 1)))
        self.assertTrue(mustfail.is_alike(EDIT.replace("src/", "proofs/")))


class Alone(unittest.TestCase):
    def test_one_slip_is_made_and_the_others_are_not(self):
        before = "n: 0,\nm: 0,\n    low + 1\n"
        after = ("n: 1,\n\n    low + 1\n", "n: 0,\nm: 0,\n    low\n")
        for slip, wanted in zip(mustfail.slips(EDIT)[1:], after):
            with tempfile.TemporaryDirectory() as folder:
                path = os.path.join(folder, "src", "part.rt")
                os.mkdir(os.path.dirname(path))
                with open(path, "w", encoding="utf-8") as file:
                    file.write(before)
                trials.replaced(EDIT, folder, slip.places)
                with open(path, encoding="utf-8") as file:
                    self.assertEqual(file.read(), wanted)

    def test_what_refuses_is_each_law_and_function_by_itself(self):
        self.assertEqual(tryslips.refusing(LOG), ["cut-law", "part::low", "Card::both", "part::looped", "part::again", "part::made", "part::told", "alone"])


if __name__ == "__main__":
    unittest.main()
