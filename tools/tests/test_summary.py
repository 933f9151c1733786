import tempfile
import unittest

from common import FADING_SHEET, SHEET, partitionable, printed, read, root, stored, tool

from runtools import check, script
from runtools.account import Account, ranges_text
from runtools.lines import read_run
from runtools.summary import summary


def told(output, text=None):
    loaded = script.load(text.encode(), "text") if text else None
    return summary(Account(read_run(output.splitlines(True)), loaded))


def told_of(name, folder="e06"):
    """The summary of a stored run, by default of one with a return limit."""
    data, output = (read(root(f"harness/data/{folder}/{name}.{end}")) for end in ("bin", "out"))
    return summary(Account(read_run(output.decode().splitlines(True)), script.load(data, name)))


SETUP = SHEET.split("cast")[0]
FADING = FADING_SHEET.split("cast")[0]
ALL = ("1111", "1111")


class Summary(unittest.TestCase):
    def test_the_sheet(self):
        self.assertEqual(told(read(root("harness/data/vectors/001-star-sheet.out")).decode(), SHEET), """\
4 modules, 2 rounds
limits:    penalty 1, reward 3
cast:      nobody
limit:     kept in every round
agreement: all rule-followers gave the same health and view in every round

Charged (health 0 while in the view):
  module 2: 1 charge in round 2
    round 2: its word of round 1 was lost to everybody

Left the view:
  nobody
""")

    def test_leaving_and_names(self):
        charged, gone = ("1101", "1111"), ("1101", "1101")
        output = printed(("in", *[charged] * 4), ("in", *[gone] * 4), ("out", *[gone] * 4))
        text = told(output, SETUP.replace("module 3", "module 3 joystick") + "cast 1\nplay 3")
        self.assertIn("cast:      1\nlimit:     broken first in round 3\n", text)
        self.assertIn("  module 3 joystick: 2 charges in rounds 1 to 2\n", text)
        self.assertIn("Left the view:\n  module 3 joystick: in round 2\n", text)

    def test_views_that_differ_after_the_limit_was_broken(self):
        gone = ("0111", "0111")
        output = printed(("out", ALL, gone, ALL, ALL), ("out", ALL, gone, gone, ALL))
        text = told(output, SETUP + "cast none\nplay 2")
        self.assertIn("agreement: rule-followers differ in rounds 1 to 2, all after the limit was broken\n", text)
        self.assertIn("  module 1: in round 1, from the view of 2 only\n  module 1: in round 2, from the view of 3 only\n  module 1: still in the view of 1, 4\n", text)

    def test_a_fault_is_said_loudly(self):
        output = printed(("in", *[ALL] * 4), ("in", ALL, ("1101", "1111"), ALL, ALL))
        text = told(output, SETUP + "cast none\nplay 2")
        self.assertIn("*** FAULT: rule-followers differ in round 2 while the limit was kept.\n", text)
        self.assertIn("    round 2, module 2: health 1101, view 1111\n", text)
        with tempfile.NamedTemporaryFile("w", suffix=".txt") as file:
            file.write(SETUP + "cast none\nplay 2")
            file.flush()
            ran = tool("runsummary", "--script", file.name, given=output.encode())
        self.assertEqual((ran.returncode, ran.stdout.decode()), (3, text))

    def test_a_rule_breaker_may_differ(self):
        output = printed(("in", ALL, ("1101", "1111"), ALL, ALL))
        self.assertIn("all rule-followers gave the same", told(output, SETUP + "cast 2\nplay 1"))
        self.assertIn("modules differ in round 1 (rule-breakers may; give --script to tell)", told(output))
        self.assertIn("all modules, so there is no rule-follower", told(output, SETUP + "cast all\nplay 1"))

    def test_no_stored_run_has_a_fault(self):
        for name, data, output in [*stored("vectors", "e06", "e09"), *partitionable()]:
            if check.refusal(data) is None:
                with self.subTest(name):
                    account = Account(read_run(output.splitlines(True)), script.load(data, name))
                    self.assertEqual(account.faults(), [])
                    self.assertIn("agreement: ", summary(account))

    def test_a_module_that_came_back(self):
        # with u = 0 the losses of rounds 1 and 5 are judged in rounds 2 and 6, one charge of 3 is over the limit of 2, and two good rounds follow
        self.assertEqual(told_of("017-ok-q2"), """\
3 modules, 13 rounds
limits:    penalty 2, reward 3, return 2
cast:      nobody
limit:     kept in every round
agreement: all rule-followers gave the same health and view in every round

Charged (health 0 while in the view):
  module 1: 1 charge in round 2
    round 2: its word of round 1 was lost to everybody
  module 2: 1 charge in round 6
    round 6: its word of round 5 was lost to everybody

Left the view:
  module 1: in round 2
  module 2: in round 6

Came back into the view (2.5 ms a round):
  module 1: in round 4, at 10 ms, after 2 rounds (5 ms) outside
  module 2: in round 8, at 20 ms, after 2 rounds (5 ms) outside
""")

    def test_with_read_places_below_n_a_return_comes_as_much_later_as_the_charge(self):
        # the losses of rounds 1 and 5 are judged in rounds 4 and 8, and one good round follows
        self.assertTrue(told_of("016-ok-q1").endswith("""
Left the view:
  module 1: in round 4
  module 2: in round 8

Came back into the view (2.5 ms a round):
  module 1: in round 5, at 12.5 ms, after 1 round (2.5 ms) outside
  module 2: in round 9, at 22.5 ms, after 1 round (2.5 ms) outside
"""))

    def test_whether_returns_are_spoken_of(self):
        gone, back = ("in", *[("1101", "1101")] * 4), ("in", *[ALL] * 4)
        limited = SETUP.replace("reward limit 3", "reward limit 3\nreturn limit 1") + "cast none\nplay 2"
        self.assertIn("limits:    penalty 1, reward 3, return 1\n", told(printed(gone, gone), limited))
        self.assertTrue(told(printed(gone, gone), limited).endswith("\nCame back into the view (2.5 ms a round):\n  nobody\n"))
        self.assertTrue(told(printed(gone, gone)).endswith("\nLeft the view:\n  module 3: in round 1\n"))
        self.assertTrue(told(printed(gone, gone), SETUP + "cast none\nplay 2").endswith("\nLeft the view:\n  module 3: in round 1\n"))
        line = "  module 3: in round 2, at 5 ms, after 1 round (2.5 ms) outside\n"
        self.assertTrue(told(printed(gone, back)).endswith("\nCame back into the view (2.5 ms a round):\n" + line))
        self.assertTrue(told(printed(gone, back), SETUP + "cast none\nplay 2").endswith(line + "  by the script's return limit nobody does (is it the script of this run?)\n"))

    def test_returns_into_some_views_and_many_returns(self):
        gone = ("0111", "0111")
        text = told(printed(("out", *[gone] * 4), ("out", gone, ALL, gone, gone), ("out", ALL, ALL, ALL, gone)))
        self.assertIn("  module 1: in round 2, at 5 ms, after 1 round (2.5 ms) outside, into the view of 2 only\n"
                      "  module 1: in round 3, at 7.5 ms, after 2 rounds (5 ms) outside, into the view of 1, 3 only\n", text)
        text = told(printed(*[("in", *[gone] * 4), ("in", *[ALL] * 4)] * 600))
        self.assertIn("  module 1: in round 16, at 40 ms, after 1 round (2.5 ms) outside\n  module 1: 592 times more, up to round 1200\n", text)
        self.assertEqual(text.count("outside\n"), 8)
        text = told(printed(("in", *[gone] * 4), *[("in", *[("1111", "0111")] * 4)] * 1000, ("in", *[ALL] * 4)))
        self.assertIn("  module 1: in round 1002, at 2,505 ms, after 1,001 rounds (2,502.5 ms) outside\n", text)

    def test_with_fading_a_module_leaves_with_its_score(self):
        # the losses of rounds 1 and 5 are judged in rounds 2 and 6, and one charge is over the limit
        self.assertEqual(told_of("017-ok-limit-half", "e09"), """\
6 modules, 7 rounds
fading:    factor 0.9999999999999998, limit 0.5, return 8
cast:      nobody
limit:     kept in every round
agreement: all rule-followers gave the same health and view in every round

Charged (health 0 while in the view):
  module 1: 1 charge in round 2
    round 2: its word of round 1 was lost to everybody
  module 2: 1 charge in round 6
    round 6: its word of round 5 was lost to everybody

Highest scores (a charge adds 1.0, a good round multiplies by 0.9999999999999998, with 0.5 or more a module leaves):
  module 1: 1.0 in round 2
  module 2: 1.0 in round 6

Left the view:
  module 1: in round 2 with score 1.0
  module 2: in round 6 with score 1.0

Came back into the view, with score 0.0 (2.5 ms a round):
  nobody
""")

    def test_a_module_whose_score_fades_crosses_the_limit_and_returns(self):
        # factor 0.9, limit 3.0, return limit 2: module 1 is charged in rounds 3 to 5, 8, 11, 13, 15, 38, 44 to 46, 53, 54 and 58
        text = told_of("006-run-blackouts-n3-u0-cast0-fade-q", "e09")
        self.assertIn("\n  module 1: 3.59049 in round 46\n", text)
        self.assertIn("\nLeft the view:\n  module 1: in round 5 with score 3.0\n  module 1: in round 15 with score 3.3661\n"
                      "  module 1: in round 46 with score 3.59049\n", text)
        self.assertIn("\nCame back into the view, with score 0.0 (2.5 ms a round):\n"
                      "  module 1: in round 7, at 17.5 ms, after 2 rounds (5 ms) outside\n", text)

    def test_with_fading_where_nobody_is_charged(self):
        text = told(printed(("in", *[ALL] * 4)), FADING + "cast none\nplay 1")
        self.assertIn("\nfading:    factor 0.5, limit 3.0\n", text)
        self.assertIn("with 3.0 or more a module leaves):\n  nobody was charged\n\nLeft the view:\n  nobody\n", text)

    def test_scores_that_differ_and_many_leavings(self):
        charged, gone = ("1110", "1111"), ("1110", "1110")
        setup = FADING.replace("3.0", "1.0")
        text = told(printed(("out", ALL, charged, ALL, ALL), ("out", *[gone] * 4)), setup + "cast none\nplay 2")
        self.assertIn("  module 4: in round 2 with scores from 1.0 to 2.0\n", text)
        text = told(printed(*[("in", *[gone] * 4), ("in", *[ALL] * 4)] * 20), setup.replace("module 1", "return limit 1\nmodule 1") + "cast none\nplay 40")
        self.assertEqual(text.count(" with score 1.0\n"), 8)
        self.assertIn("  module 4: in round 15 with score 1.0\n  module 4: 12 times more, up to round 39\n", text)
        text = told(printed(("out", ALL, gone, ALL, ALL)), setup + "cast none\nplay 1")
        self.assertIn("  module 4: in round 1 with score 1.0, from the view of 2 only\n", text)

    def test_a_script_whose_limit_the_run_did_not_have(self):
        text = told(printed(("in", *[("1110", "1110")] * 4)), FADING + "cast none\nplay 1")
        self.assertIn("  module 4: in round 1 with score 1.0, below the limit (is it the script of this run?)\n", text)

    def test_ranges(self):
        self.assertEqual(ranges_text([2, 5, 6, 7, 9]), "2, 5 to 7, 9")
        self.assertEqual(ranges_text([1, 3, 5, 7], 2), "1, 3, and 2 more up to 7")


class Events(unittest.TestCase):
    def test_events_count_for_the_next_round_and_the_later_one_wins(self):
        text = SETUP + "cast 2\nloss 1 to all\nplay 3\nloss 2 to 1 3\nlie 2 to 1 4 says 1111\nloss 2 to 4\nplay 2"
        loaded = script.load(text.encode(), "text")
        self.assertEqual(loaded.rounds, 5)
        self.assertEqual(loaded.events, {1: {1: ([1, 2, 3, 4], [])}, 4: {2: ([3, 4], [(1, 0x5000000F, None)])}})

    def test_a_told_view_goes_with_its_told_word(self):
        setup = SETUP.replace("module 1", "partitionable\nmodule 1")
        text = setup + "cast 2\nlie 2 to all says 1111 view 1110\nlie 2 to 3 says 1011 view word 0x00000000\nloss 2 to 4\nplay 1"
        loaded = script.load(text.encode(), "text")
        self.assertEqual(loaded.events, {1: {2: ([4], [(1, 0x5000000F, 0xA0000007), (2, 0x5000000F, 0xA0000007), (3, 0x5000000D, 0)])}})
        self.assertTrue(loaded.partitionable)
        self.assertFalse(script.load(SHEET.encode(), "text").partitionable)

    def test_u(self):
        self.assertEqual(script.load(SHEET.encode(), "text").u, 0)
        self.assertEqual(script.load(SHEET.replace("module 3 place 4", "module 3 place 2").encode(), "text").u, 1)


if __name__ == "__main__":
    unittest.main()
