"""Scores that fade (document 02, E9), and who leaves the view by them, by the printed health vectors alone."""

import unittest
from fractions import Fraction

from common import FADING_SHEET, bench, needs_bench, printed, stored

from runtools import check, script
from runtools.account import Account
from runtools.assemble import assemble
from runtools.lines import read_run

SETUP = FADING_SHEET.split("cast")[0]
ALL = ("1111", "1111")


def replayed(loaded, healths):
    """For each round, whether a module is in the view after it and with which score, by its health in each. Sums and products are exact and
    then rounded once."""
    factor, limit = loaded.fading
    present, score, good = True, 0.0, 0
    for health in healths:
        if present:
            score = float(Fraction(score) * Fraction(factor)) if health else float(Fraction(score) + 1)
            present, good = score < limit, 0
        else:
            good = good + 1 if health else 0
            if good and good == loaded.return_limit:
                present, score, good = True, 0.0, 0
        yield present, score


def account(output, text):
    return Account(read_run(output.splitlines(True)), script.load(text.encode(), "text"))


class StoredRuns(unittest.TestCase):
    def accounts(self):
        """Of the runs with fading, with every module as a judge."""
        for name, data, output in stored():
            if check.refusal(data) is None:
                loaded = script.load(data, name)
                if loaded.fading:
                    loaded.cast = []
                    yield name, Account(read_run(output.splitlines(True)), loaded)

    def test_the_printed_views_and_the_scores_follow_from_the_printed_health(self):
        runs = fractions = 0
        for name, found in self.accounts():
            runs += 1
            for judge in range(1, found.n + 1):
                rows = [round_.rows[judge - 1] for round_ in found.run.rounds]
                for module in range(1, found.n + 1):
                    by_health = list(replayed(found.script, [health[module - 1] == "1" for health, _ in rows]))
                    self.assertEqual([present for present, _ in by_health], [view[module - 1] == "1" for _, view in rows], (name, judge, module))
                    for number, (_, score) in enumerate(by_health, 1):
                        self.assertEqual(found.scores.at(number, module, [judge]), [score], (name, judge, module, number))
                        fractions += not score.is_integer()
        self.assertGreaterEqual(runs, 9)
        self.assertGreater(fractions, 400)

    def test_a_module_is_in_the_view_exactly_if_its_score_is_below_the_limit(self):
        seen = set()
        for name, found in self.accounts():
            for number, round_, _ in found.rounds():
                for judge in found.judges:
                    for module in range(1, found.n + 1):
                        present = round_.rows[judge - 1][1][module - 1] == "1"
                        self.assertEqual(found.scores.at(number, module, [judge])[0] < found.script.fading.limit, present, (name, number))
                        seen.add(present)
        self.assertEqual(seen, {True, False})


class Scores(unittest.TestCase):
    def scores(self, setup, healths):
        """The scores of module 4 after each round, by its healths; it stays in the view."""
        rounds = [("in", *[("111" + health, "1111")] * 4) for health in healths]
        found = account(printed(*rounds), f"{setup}cast none\n" + "play 1\n" * len(rounds))
        return [score for number in range(1, len(rounds) + 1) for score in found.scores.at(number, 4)]

    def test_a_charge_adds_1_and_a_good_round_multiplies_by_the_factor(self):
        self.assertEqual(self.scores(SETUP, "0110010"), [1.0, 0.5, 0.25, 1.25, 2.25, 1.125, 2.125])

    def test_with_factor_1_it_is_the_number_of_charges(self):
        self.assertEqual(self.scores(SETUP.replace("0.5", "1").replace("3.0", "1e6"), "0110010"), [1.0, 1.0, 1.0, 2.0, 3.0, 3.0, 4.0])

    def test_with_factor_0_it_is_the_number_since_the_last_good_round(self):
        self.assertEqual(self.scores(SETUP.replace("0.5", "0").replace("3.0", "1e6"), "0110001"), [1.0, 0.0, 0.0, 1.0, 2.0, 3.0, 0.0])

    def test_each_operation_is_rounded_once(self):
        self.assertEqual(self.scores(SETUP.replace("0.5", "0.1"), "01110"), [1.0, 0.1, 0.010000000000000002, 0.0010000000000000002, 1.001])
        self.assertEqual(self.scores(SETUP.replace("0.5", "0.9"), "0011111"), [1.0, 2.0, 1.8, 1.62, 1.4580000000000002, 1.3122000000000003, 1.1809800000000004])

    def test_it_fades_to_nothing_at_last(self):
        faded = self.scores(SETUP, "0" + "1" * 1080)
        self.assertEqual(faded[1073:1077], [1e-323, 5e-324, 0.0, 0.0])

    def test_outside_the_view_it_stays_and_with_the_return_it_is_0(self):
        charged, gone, away = ("1110", "1111"), ("1110", "1110"), ("1111", "1110")
        rounds = [charged, charged, gone, gone, away, ALL, ALL, charged]
        found = account(printed(*(("in", *[row] * 4) for row in rounds)), SETUP + "cast none\nplay 8")
        self.assertEqual([found.scores.at(number, 4) for number in range(9)], [[0.0], [1.0], [2.0], [3.0], [3.0], [3.0], [0.0], [0.0], [1.0]])
        self.assertEqual(found.scores.highest(4), (3.0, 3))
        self.assertEqual([found.scores.at(number, 1) for number in range(9)], [[0.0]] * 9)

    def test_judges_that_differ_hold_different_scores(self):
        charged = ("1110", "1111")
        found = account(printed(("out", ALL, charged, charged, ALL), ("out", *[charged] * 4), ("out", ALL, ALL, charged, ALL)), SETUP + "cast 4\nplay 3")
        self.assertEqual([found.scores.at(number, 4) for number in (1, 2, 3)], [[0.0, 1.0], [1.0, 2.0], [0.5, 1.0, 3.0]])
        self.assertEqual([found.scores.at(3, 4, judges) for judges in ((1,), (2,), (3,), (1, 3))], [[0.5], [1.0], [3.0], [0.5, 3.0]])
        self.assertEqual(found.scores.highest(4), (3.0, 3))

    def test_counts_have_no_scores(self):
        self.assertIsNone(Account(read_run(printed(("in", *[ALL] * 4)).splitlines(True))).scores)
        counts = SETUP.replace("fading factor 0.5 limit 3.0", "penalty limit 1\nreward limit 3")
        self.assertIsNone(account(printed(("in", *[ALL] * 4)), counts + "cast none\nplay 1").scores)


@needs_bench
class Played(unittest.TestCase):
    """Module 2 is lost in every second round, or in every third."""

    def left(self, factor, limit, every):
        lost = f"loss 2 to all\nplay 1\nplay {every - 1}\n" if every > 1 else "loss 2 to all\nplay 1\n"
        text = SETUP.replace("factor 0.5 limit 3.0", f"factor {factor} limit {limit}") + "cast none\n" + lost * 100
        found = account(bench(assemble(text).data()), text)
        return [(number, *found.scores.at(number, 2)) for rounds in found.leavings()[1].values() for number in rounds]

    def test_when_a_module_leaves_by_its_factor_and_limit(self):
        # charged in rounds 2, 4, 6, ...: 1, 1.5, 1.75, ... stay below 2 until a sum is rounded to it
        self.assertEqual(self.left("0.5", "1.75", 2), [(6, 1.75)])
        self.assertEqual(self.left("0.5", "1.76", 2), [(8, 1.875)])
        self.assertEqual(self.left("0.5", "2.0", 2), [(108, 2.0)])
        self.assertEqual(self.left("0.5", "2.0000000000000004", 2), [])
        # charged in rounds 2, 5, 8, ...
        self.assertEqual(self.left("1.0", "3.0", 3), [(8, 3.0)])
        self.assertEqual(self.left("0.0", "1.5", 3), [])
        self.assertEqual(self.left("0.0", "1.5", 1), [(3, 2.0)])
        self.assertEqual(self.left("0.0", "1.0", 3), [(2, 1.0)])
        self.assertEqual(self.left("0.5", "5e-324", 3), [(2, 1.0)])


if __name__ == "__main__":
    unittest.main()
