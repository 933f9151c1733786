import subprocess
import unittest

from common import bench, needs_bench, read, root, tool

from runtools import script
from runtools.account import Absence, Account
from runtools.assemble import assemble
from runtools.lines import read_run

FOLDER = "examples/incident/"


class Incident(unittest.TestCase):
    TITLES = {"joystick": "The joystick, half heard", "returns": "The joystick comes back", "fading": "A loose plug and a fading score"}

    def account(self, name):
        output = read(root(f"{FOLDER}{name}.out")).decode()
        return Account(read_run(output.splitlines(True)), script.load(read(root(f"{FOLDER}{name}.txt")), name))

    @needs_bench
    def test_the_kept_lines_are_what_the_bench_prints(self):
        for name in self.TITLES:
            data = tool("runscript", "assemble", f"{FOLDER}{name}.txt").stdout
            self.assertEqual(bench(data), read(root(f"{FOLDER}{name}.out")).decode())

    def test_the_kept_picture_and_summary_are_what_the_tools_make(self):
        for name, title in self.TITLES.items():
            given = [f"{FOLDER}{name}.out", "--script", f"{FOLDER}{name}.txt"]
            self.assertEqual(tool("runpicture", *given, "--title", title).stdout, read(root(f"{FOLDER}{name}.svg")))
            self.assertEqual(tool("runsummary", *given).stdout, read(root(f"{FOLDER}{name}.summary")))

    def test_by_the_old_rule_the_cards_disagree(self):
        said = subprocess.run([root(FOLDER + "alone.py")], capture_output=True, check=True).stdout
        self.assertEqual(said, read(root(FOLDER + "alone.out")))
        self.assertIn(b"x-axis: joystick is struck off, and its scan lock is free\n", said)
        self.assertIn(b"y-axis: joystick is still on its list, and its scan lock waits for it\n", said)

    def test_by_girmaut_they_agree_in_every_round(self):
        account = self.account("joystick")
        self.assertIsNone(account.first_out)
        self.assertEqual(account.differing_rounds(), [])
        self.assertEqual(account.leavings(), [{}, {}, {}, {}, {(1, 2, 3, 4, 5): [18]}])
        self.assertEqual(account.absences(), [[]] * 5)

    def test_with_a_return_limit_the_joystick_comes_back(self):
        account = self.account("returns")
        self.assertIsNone(account.first_out)
        self.assertEqual(account.differing_rounds(), [])
        everybody = (1, 2, 3, 4, 5)
        # the loss of round 34 is judged in round 35 and restarts the run
        self.assertEqual(account.absences(), [[], [], [], [], [Absence(18, 26, everybody), Absence(29, 43, everybody)]])
        self.assertEqual([round_.rows[0][0][4] for round_ in account.run.rounds[17:43]], list("01111111111" "0" "11111" "0" "11111111"))

    @needs_bench
    def test_a_bad_round_after_its_penalty_is_cleared_only_charges_it(self):
        text = read(root(FOLDER + "returns.txt")).decode()
        for rounds, leavings in ((10, [18, 29]), (11, [18, 30]), (12, [18])):
            source = assemble(text.replace("play 10\n", f"play {rounds}\n"))
            account = Account(read_run(bench(source.data()).splitlines(True)))
            self.assertEqual(account.leavings()[4], {(1, 2, 3, 4, 5): leavings})
            self.assertIn(19 + rounds, account.charges()[4][1, 2, 3, 4, 5])

    def test_up_to_its_first_return_it_is_the_same_run(self):
        before, after = self.account("joystick"), self.account("returns")
        self.assertEqual(before.run.rounds[:25], after.run.rounds[:25])
        self.assertEqual([account.run.rounds[25].rows[0][1] for account in (before, after)], ["11110", "11111"])

    def test_with_a_fading_score_the_joystick_leaves_by_its_score_and_comes_back(self):
        account = self.account("fading")
        self.assertIsNone(account.first_out)
        self.assertEqual(account.differing_rounds(), [])
        self.assertEqual(account.absences(), [[], [], [], [], [Absence(27, 35, (1, 2, 3, 4, 5))]])
        self.assertEqual([by_judges.get(tuple(account.judges)) for by_judges in account.charges()], [None] * 4 + [[4, 8, 12, 19, 21, 23, 25, 27, 38]])
        # 0.75 is three quarters, so up to round 12 nothing is rounded
        after = {3: 0, 4: 1, 5: 3 / 4, 8: 27 / 64 + 1, 12: (27 / 64 + 1) * 27 / 64 + 1, 34: 3.14087462448515, 35: 0, 37: 0, 38: 1}
        self.assertEqual({number: account.scores.at(number, 5) for number in after}, {number: [score] for number, score in after.items()})
        self.assertEqual([account.scores.highest(module) for module in range(1, 6)], [(0.0, 0)] * 4 + [(3.14087462448515, 27)])

    @needs_bench
    def test_with_one_bad_round_of_four_its_score_stays_below_1_73(self):
        text = read(root(FOLDER + "fading.txt")).decode().split("play 2")[0] + "loss joystick to all\nplay 4\n" * 200
        account = Account(read_run(bench(assemble(text).data()).splitlines(True)), script.load(text.encode(), "text"))
        self.assertEqual(account.leavings(), [{}] * 5)
        score, _ = account.scores.highest(5)
        self.assertTrue(1.72 < score < 1.73, score)


if __name__ == "__main__":
    unittest.main()
