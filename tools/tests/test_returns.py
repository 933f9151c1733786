"""Who leaves the view and who comes back, by the printed health vectors alone: rule 8 of document 01 with document 02's E6. With fading,
test_scores.py says so of both."""

import unittest

from common import bench, needs_bench, stored

from runtools import check, script
from runtools.account import Absence, Account
from runtools.assemble import assemble
from runtools.lines import read_run


def replayed(loaded, module, healths):
    """For each round, whether a module is in the view after it, by its health in each."""
    criticality = loaded.modules[module - 1].criticality
    present, penalty, reward, good = True, 0, 0, 0
    for health in healths:
        good = good + 1 if health and not present else 0
        if present and not health:
            penalty, reward = penalty + criticality, 0
            present = penalty <= loaded.penalty_limit
        elif present and penalty:
            reward += 1
            if reward == loaded.reward_limit:
                penalty = reward = 0
        elif not present and good and good == loaded.return_limit:
            present, penalty, reward, good = True, loaded.penalty_limit, 0, 0
        yield present


def absences(presence):
    """First round outside and round of the return, for each absence that ended."""
    found, left = [], None
    for number, present in enumerate(presence, 1):
        if not present and left is None:
            left = number
        if present and left is not None:
            found.append((left, number))
            left = None
    return found


class StoredRuns(unittest.TestCase):
    def accounts(self, *folders):
        for name, data, output in stored(*folders):
            if check.refusal(data) is None:
                yield name, Account(read_run(output.splitlines(True)), script.load(data, name))

    def test_the_printed_views_follow_from_the_printed_health(self):
        counted = [(name, account) for name, account in self.accounts() if not account.script.fading]
        for name, account in counted:
            for judge in range(account.n):
                rows = [round_.rows[judge] for round_ in account.run.rounds]
                for module in range(1, account.n + 1):
                    by_health = replayed(account.script, module, [health[module - 1] == "1" for health, _ in rows])
                    self.assertEqual(list(by_health), [view[module - 1] == "1" for _, view in rows], (name, judge + 1, module))

    def test_the_absences_are_those_of_the_printed_views(self):
        returns = 0
        for name, account in self.accounts("e04", "e06", "e09"):
            for module, found in enumerate(account.absences(), 1):
                for judge in account.judges:
                    views = [round_.rows[judge - 1][1][module - 1] == "1" for round_ in account.run.rounds]
                    self.assertEqual([(left, back) for left, back, judges in found if judge in judges], absences(views), (name, module, judge))
                returns += len(found)
        self.assertGreaterEqual(returns, 30)

    def test_nobody_comes_back_without_a_return_limit(self):
        for name, account in self.accounts():
            if not account.script.return_limit:
                self.assertEqual(account.absences(), [[]] * account.n, name)

    def test_one_run_by_hand(self):
        # return limit 1: module 3 leaves in rounds 14 and 24, and its health is 1 in round 15, and 0 in 25 and 26 and 1 in 27
        account = {name: account for name, account in self.accounts("e06")}["007-run-dying-n3-u1-cast1-q.bin"]
        self.assertEqual(account.absences()[2], [Absence(14, 15, (2, 3)), Absence(24, 27, (2, 3))])
        self.assertEqual([account.run.rounds[k - 1].rows[1][0][2] for k in (14, 15, 24, 25, 26, 27)], list("010001"))


@needs_bench
class Played(unittest.TestCase):
    """The worked figures of README.md and docs/DECISIONS.md: module 4 of five, penalty limit 7, criticality 2."""

    def absences(self, return_limit, read_place, run, rounds):
        """Those of module 4, and whether the limit was kept throughout."""
        modules = "".join(f"module {j} place {read_place if j == 3 else 5} criticality 2\n" for j in range(1, 6))
        text = f"modules 5\npenalty limit 7\nreward limit 4\nreturn limit {return_limit}\n{modules}{run}"
        text += "".join(f"play {min(1000, rounds - done)}\n" for done in range(0, rounds, 1000))
        account = Account(read_run(bench(assemble(text).data()).splitlines(True)), script.load(text.encode(), "text"))
        self.assertEqual((account.first_out, account.differing_rounds()), (None, []))
        found = account.absences()
        self.assertEqual(found[:3] + found[4:], [[]] * 4)
        return [(left, back) for left, back, _ in found[3]]

    def test_after_how_many_rounds_a_module_that_is_heard_again_is_back(self):
        # in rounds 3 to 22 nobody hears it and it hears nobody, so it follows no rules; from round 23 on all hear it
        pulled = "cast 4\nplay 2\n" + ("loss 4 to all\n" + "".join(f"loss {j} to 4\n" for j in (1, 2, 3, 5)) + "play 1\n") * 20
        for read_place, left, heard_rounds in ((5, 7, {1: 2, 8: 9, 400: 401, 4000: 4001}), (2, 9, {1: 4, 8: 11, 400: 403, 4000: 4003})):
            for return_limit, rounds in heard_rounds.items():
                with self.subTest(return_limit=return_limit, read_place=read_place):
                    self.assertEqual(self.absences(return_limit, read_place, pulled, return_limit + 20), [(left, 22 + rounds)])

    def test_a_module_that_is_heard_with_wrong_words_comes_back_and_leaves_again(self):
        # outside nobody accuses it; back in the view it is accused in the next step, and that vote is taken one step later, or two with u = 1
        lies = "cast 4\nplay 2\n" + "lie 4 to all says 00000\nplay 1\n" * 60
        self.assertEqual(self.absences(4, 5, lies, 1)[:4], [(7, 12), (14, 19), (21, 26), (28, 33)])
        self.assertEqual(self.absences(4, 2, lies, 1)[:4], [(9, 15), (18, 24), (27, 33), (36, 42)])


if __name__ == "__main__":
    unittest.main()
