"""What docs/TORN-CABLE.md says of runs: its script, its table, its summary and its figures."""

import re
import unittest

from common import bench, needs_bench, read, root
from test_partitionable import EVEN_LINES, EVEN, TWO_FACED, TWO_FACED_LINES, account, accounts, torn

from runtools.assemble import assemble
from runtools.summary import summary

PAGE = read(root("docs/TORN-CABLE.md")).decode()
BLOCKS = [re.sub(r"^    ", "", block, flags=re.M) for block in re.findall(r"(?:(?:^    .*\n)+\n?)+", PAGE, re.M)]


def script_text():
    """The page's script with the lines of the torn round written six times, as the page asks."""
    before, torn_round, after = re.fullmatch(r"(.*?round 1.*?\n)(loss.*?play 1[^\n]*\n)(play 4.*)", BLOCKS[0], re.S).groups()
    return before + torn_round * 6 + after


def views(output, data):
    """For each round the printed views."""
    found = account(output, data).adoption
    return dict(enumerate(found.views, 1))


def setup(n):
    modules = "".join(f"module {j} place {n} criticality 1\n" for j in range(1, n + 1))
    return f"modules {n}\npenalty limit 1\nreward limit 3\npartitionable\n{modules}cast none\n"


class Page(unittest.TestCase):
    def test_the_script_is_the_stored_one(self):
        self.assertEqual(assemble(script_text()).data(), torn()[0])

    def test_every_row_of_the_table_is_printed(self):
        data, output = torn()
        lines = dict(re.findall(r"^([0-9]+ [0-9]+) (.*)$", output, re.M))
        local = account(output, data).run.rounds
        rows = re.findall(r"^\| ([0-9]+) \| ([01]+ [01]+ \w+) \| ([01]+ [01]+ \w+) \| ([01]+) \| ([01]+) \|", PAGE, re.M)
        self.assertEqual([int(row[0]) for row in rows], [1, 2, 3, 4, 5, 8, 9, 11])
        for number, of_two, of_three, local_of_two, local_of_three in rows:
            self.assertEqual([lines[f"{number} {j}"] for j in range(1, 6)], [of_two] * 2 + [of_three] * 3)
            self.assertEqual([view for _, view in local[int(number) - 1].rows], [local_of_two] * 2 + [local_of_three] * 3)
        # the rounds left out are as the ones before them
        for number, like in ((6, 5), (7, 5), (10, 9)):
            self.assertEqual([lines[f"{number} {j}"] for j in range(1, 6)], [lines[f"{like} {j}"] for j in range(1, 6)])

    def test_word_1_of_the_register_page(self):
        data, output = torn()
        shown = [[f"{int(view[::-1], 2):08X}" for view in of_round] for of_round in views(output, data).values()]
        self.assertEqual(shown, [["0000001F"] * 5] * 4 + [["0000001F"] * 2 + ["0000001C"] * 3] * 7)
        self.assertEqual(set(re.findall(r"\b0000[0-9A-F]{4}\b", PAGE)), {"0000001F", "0000001C"})

    def test_the_end_of_the_summary(self):
        data, output = torn()
        self.assertTrue(summary(account(output, data)).endswith("\n\n" + BLOCKS[1].rstrip("\n") + "\n"))

    def test_an_even_split(self):
        found = account(EVEN_LINES, EVEN)
        self.assertEqual({module: out.number for module, out in found.adoption.out.items()}, dict.fromkeys(range(1, 5), 2))
        healths = [[health for health, _ in round_.rows] for round_ in found.run.rounds]
        self.assertEqual(healths, [["1111"] * 4] * 2 + [["1100"] * 2 + ["0011"] * 2] * 6 + [["1111"] * 4] * 3)
        self.assertEqual(set(found.adoption.views), {("1111",) * 4})

    def test_a_round_without_any_word(self):
        found = {name[:3]: made for name, made in accounts()}["012"]
        self.assertEqual({module: out.number for module, out in found.adoption.out.items()}, dict.fromkeys(range(1, 5), 7))
        self.assertEqual((found.script.u, found.first_out, found.leavings()), (1, None, [{}] * 4))
        self.assertEqual([len(found.script.events[6][sender].losses) for sender in range(1, 5)], [4] * 4)
        self.assertEqual([9 in found.charges()[j][1, 2, 3, 4] for j in range(4)], [True] * 4)

    def test_how_much_later_a_change_is_shown(self):
        # with every read place at N, and with one below it
        for name, left, shown in (("017", 4, 5), ("008", 16, 18)):
            found = {stored_name[:3]: made for stored_name, made in accounts()}[name]
            self.assertEqual(min(number for by_judges in found.leavings() for rounds in by_judges.values() for number in rounds), left)
            self.assertEqual(min(number for number, of_round in enumerate(found.adoption.views, 1) if any("0" in view for view in of_round)), shown)

    def test_a_broken_card_that_both_sides_hear(self):
        self.assertEqual([of_round[:4] for of_round in views(TWO_FACED_LINES, TWO_FACED).values()],
                         [("11111",) * 4] * 4 + [("11001", "11001", "00111", "00111")] * 3)

    def test_how_many_view_words_are_needed(self):
        cards, needed = (list(map(int, re.findall(r"\d+", re.search(rf"^\| {row} \|.*$", PAGE, re.M)[0])))
                         for row in ("cards in the setup", "view words needed"))
        self.assertEqual(needed, [min(votes for votes in range(n + 1) if 2 * votes > n) for n in cards])
        self.assertEqual((cards[0], cards[-1]), (2, 16))


@needs_bench
class Played(unittest.TestCase):
    def test_without_the_line_each_part_goes_on(self):
        lines = bench(assemble(script_text().replace("partitionable\n", "")).data()).splitlines()
        shown = {number: [line.split()[3] for line in lines if line.split()[0] == str(number)] for number in range(1, 12)}
        self.assertEqual([shown[number] for number in range(1, 12)], [["11111"] * 5] * 3 + [["11000"] * 2 + ["00111"] * 3] * 8)

    def test_with_a_return_limit_every_page_is_full_again(self):
        text = script_text().replace("partitionable\n", "return limit 2\npartitionable\n")
        found = account(bench(assemble(text).data()), text)
        self.assertEqual([of_round[2] for of_round in found.adoption.views], ["11111"] * 4 + ["00111"] * 6 + ["11111"])
        self.assertEqual(found.adoption.views[-1], ("11111",) * 5)
        self.assertEqual((found.adoption.wrong, sorted(found.adoption.out)), ([], [1, 2]))

    def test_half_of_the_cards_missing(self):
        text = setup(6) + "loss 4 to all\nloss 5 to all\nloss 6 to all\nplay 1\n" * 9
        found = account(bench(assemble(text).data()), text)
        self.assertEqual({module: out.number for module, out in found.adoption.out.items()}, dict.fromkeys(range(1, 7), 1))
        self.assertEqual((found.adoption.wrong, set(found.adoption.views)), ([], {("111111",) * 6}))

    def test_two_dead_cards_and_one_lost_word(self):
        dead = "loss 4 to all\nloss 5 to all\nplay 1\n"
        text = setup(5) + dead * 9 + "loss 3 to 1\n" + dead * 4
        found = account(bench(assemble(text).data()), text)
        self.assertEqual([of_round[0] for of_round in found.adoption.views], ["11111"] * 3 + ["11100"] * 10)
        self.assertEqual((found.adoption.wrong, {module: out.number for module, out in found.adoption.out.items()}), ([], {1: 10}))


if __name__ == "__main__":
    unittest.main()
