"""Partitionable setups (document 02, E11): local views, which views are adopted, and who takes itself out."""

import random
import re
import tempfile
import unittest
import xml.etree.ElementTree as xml

from common import SHEET, bench, needs_bench, partitionable, printed, stored, tool

from runtools import check, script
from runtools.account import Account
from runtools.adoption import Out, Wrong, vote_on
from runtools.assemble import assemble
from runtools.columns import columns, label, letter, view_letters
from runtools.lines import read_run
from runtools.localviews import with_local_views
from runtools.picture import picture
from runtools.summary import summary

ALL = ("1111", "1111")
SETUP = SHEET.split("cast")[0].replace("module 1", "partitionable\nmodule 1")
FIVE = SETUP.replace("modules 4", "modules 5").replace("place 4", "place 5") + "module 5 place 5 criticality 1\n"

# modules 1, 2 and 3, 4 do not hear each other, and module 5, which all hear, gives each part the view words that fit its own
TORN = "loss 1 to 3 4\nloss 2 to 3 4\nloss 3 to 1 2\nloss 4 to 1 2\n"
TWO_FACED = FIVE + "cast 5\nplay 1\n" + "".join(
    TORN + f"lie 5 to 1 2 says {said[0]} view {view[0]}\nlie 5 to 3 4 says {said[1]} view {view[1]}\nplay 1\n"
    for said, view in ([(["11111"] * 2, ["11111"] * 2)] + [(["11001", "00111"], ["11111"] * 2)] * 2 + [(["11001", "00111"], ["11001", "00111"])] * 3))
QUIET, TORN_ROWS = [("11111", "11111")] * 5, [("11001", "11111")] * 2 + [("00111", "11111")] * 2
APART = [("11001", "11001")] * 2 + [("00111", "00111")] * 2
TWO_FACED_LINES = printed(("in", *QUIET), ("out", *QUIET), ("out", *TORN_ROWS, ("11111", "11111")), ("out", *TORN_ROWS, ("00001", "11111")),
                          ("out", *APART, ("00001", "11111")), ("out", *APART, ("00001", "00001")), ("out", *APART, ("11111", "00001")))

# four modules, two on each side, from round 2 to round 7
EVEN = SETUP + "cast none\nplay 1\n" + (TORN + "play 1\n") * 6 + "play 4\n"
EVEN_ROWS = [("1100", "1111")] * 2 + [("0011", "1111")] * 2
EVEN_LINES = printed(("in", *[ALL] * 4), ("out", *[ALL] * 4), *[("out", *EVEN_ROWS)] * 6, *[("out", *[ALL] * 4)] * 3)


def account(output, data):
    return Account(read_run(output.splitlines(True)), script.load(data if isinstance(data, bytes) else data.encode(), "script"))


def accounts():
    """Name and Account of every stored run of a partitionable setup."""
    for name, data, output in partitionable():
        if check.refusal(data) is None:
            yield name, account(output, data)


def torn():
    """Bytes and lines of the run of five modules torn in two."""
    return next((data, output) for name, data, output in partitionable() if "torn-in-two" in name)


class LocalViews(unittest.TestCase):
    def test_of_setups_that_are_not_partitionable_they_are_the_printed_ones(self):
        runs = absent = 0
        for name, data, output in stored():
            if check.refusal(data) is None and not script.load(data, name).partitionable:
                run = read_run(output.splitlines(True))
                self.assertEqual(with_local_views(run, script.load(data, name)), run, name)
                runs += 1
                absent += any("0" in view for round_ in run.rounds for _, view in round_.rows)
        self.assertGreater(runs, 200)
        self.assertGreater(absent, 80)

    def test_equal_rounds_are_one_object(self):
        run = account(printed(*[("in", *[ALL] * 4)] * 50), SETUP + "cast none\nplay 50").run
        self.assertEqual(len({id(round_) for round_ in run.rounds}), 1)

    def test_they_lie_before_the_adopted_ones(self):
        # module 4 is judged 0 in rounds 2 and 3, and the second charge is over the limit; its view word says so in round 4
        data = SETUP + "cast none\nloss 4 to all\nplay 1\nloss 4 to all\nplay 4\n"
        charged = ("in", *[("1110", "1111")] * 4)
        found = account(printed(("in", *[ALL] * 4), charged, charged, *[("in", *[("1111", "1110")] * 4)] * 2), data)
        self.assertEqual([round_.rows[0][1] for round_ in found.run.rounds], ["1111", "1111", "1110", "1110", "1110"])
        self.assertEqual([views[0] for views in found.adoption.views], ["1111", "1111", "1111", "1110", "1110"])
        self.assertEqual((found.adoption.wrong, found.adoption.out), ([], {}))
        self.assertEqual(found.leavings(), [{}, {}, {}, {(1, 2, 3, 4): [3]}])
        self.assertEqual(found.charges(), [{}, {}, {}, {(1, 2, 3, 4): [2, 3]}])


class Votes(unittest.TestCase):
    def test_more_than_half_of_all_n_carry_what_is_adopted(self):
        for heard, adopted in [(["11", "11"], "11"), (["11", None], None), ([None, None], None), (["11", "10"], None),
                               (["110", "110", None], "110"), (["110", "010", "011"], "010"), (["110", "001", None], None), (["110", None, None], None),
                               (["1111", "1111", "1111", None], "1111"), (["1111", "1111", None, None], None), (["0000"] * 3 + ["1111"], "0000"),
                               (["11100"] * 3 + [None] * 2, "11100"), (["11100"] * 2 + [None] * 3, None)]:
            with self.subTest(heard):
                self.assertEqual(vote_on(tuple(heard)).adopted, adopted)

    def test_of_which_modules_there_is_no_majority(self):
        self.assertEqual(vote_on(("1111", "1101", "1101", None)).undecided, (3,))
        self.assertEqual(vote_on(("1111", "1101", "0101", "0111")).undecided, (1, 3))
        self.assertEqual(vote_on(("1111", None, None, None)).undecided, (1, 2, 3, 4))

    def test_random_votes_by_counting(self):
        chance, seen = random.Random(11), set()
        for _ in range(5_000):
            n = chance.randint(2, 16)
            base = [chance.choice("01") for _ in range(n)]
            views = ["".join(digit if chance.random() < 0.9 else chance.choice("01") for digit in base) for _ in range(n)]
            heard = tuple(None if chance.random() < 0.2 else view for view in views)
            adopted, undecided = vote_on(heard)
            carried = ["".join(view[j] for view in heard if view) for j in range(n)]
            counts = [(digits.count("0"), digits.count("1")) for digits in carried]
            self.assertEqual(undecided, tuple(j for j, both in enumerate(counts, 1) if max(both) * 2 <= n))
            self.assertEqual(adopted, None if undecided else "".join("1" if ones > zeros else "0" for zeros, ones in counts))
            seen.add(bool(undecided))
        self.assertEqual(seen, {False, True})


class Adopted(unittest.TestCase):
    def test_every_stored_view_is_the_adopted_one(self):
        runs, out, others = 0, 0, set()
        for name, found in accounts():
            self.assertEqual(found.adoption.wrong, [], name)
            runs += 1
            out += len(found.adoption.out)
            others |= {view for views in found.adoption.views for view in views if "0" in view}
        self.assertEqual((runs, out), (14, 11))
        self.assertGreater(len(others), 8)

    def test_a_printed_view_with_another_digit_is_found(self):
        chance = random.Random(11)
        for name, data, output in partitionable():
            if check.refusal(data) is None:
                lines = output.splitlines(True)
                at = chance.randrange(len(lines))
                number, module, health, view, limit = lines[at].split(" ")
                j = chance.randrange(len(view))
                other = view[:j] + "10"[int(view[j])] + view[j + 1:]
                changed = lines[:at] + [" ".join([number, module, health, other, limit])] + lines[at + 1:]
                self.assertEqual(account("".join(changed), data).adoption.wrong, [Wrong(int(number), int(module), other, view)], name)

    def test_local_views_in_place_of_the_adopted_ones_are_found(self):
        found = 0
        for _, data, output in partitionable():
            if check.refusal(data) is None:
                run = account(output, data).run
                lines = printed(*(("in" if round_.kept else "out", *round_.rows) for round_ in run.rounds))
                found += bool(account(lines, data).adoption.wrong)
        self.assertGreaterEqual(found, 6)

    def test_a_cable_torn_in_two(self):
        data, output = torn()
        adoption = account(output, data).adoption
        everybody = (1, 2, 3, 4, 5)
        self.assertEqual(adoption.out, {1: Out(2, everybody, (1, 2)), 2: Out(2, everybody, (1, 2))})
        self.assertEqual([adoption.is_out(1, number) for number in (1, 2, 3, 11)], [False, True, True, True])
        self.assertFalse(adoption.is_out(3, 11))
        # what is heard: by 1 and 3 before, while it is torn, and after
        self.assertEqual([adoption.heard(1, number) for number in (1, 2, 5, 8)],
                         [("11111",) * 5, ("11111",) * 2 + (None,) * 3, ("11000",) * 2 + (None,) * 3, ("11000",) * 2 + ("00111",) * 3])
        self.assertEqual([adoption.heard(3, number) for number in (2, 5, 8)],
                         [(None,) * 2 + ("11111",) * 3, (None,) * 2 + ("00111",) * 3, ("11000",) * 2 + ("00111",) * 3])
        self.assertEqual([adoption.adopted(everybody, number) for number in (1, 4, 5, 11)], [{"11111"}, {"11111"}, {"00111"}, {"00111"}])

    def test_an_even_split_leaves_nobody_in(self):
        adoption = account(EVEN_LINES, EVEN).adoption
        self.assertEqual(adoption.wrong, [])
        self.assertEqual({module: out.number for module, out in adoption.out.items()}, {1: 2, 2: 2, 3: 2, 4: 2})
        self.assertEqual([adoption.out[module].heard for module in range(1, 5)], [(1, 2), (1, 2), (3, 4), (3, 4)])
        self.assertEqual([adoption.adopted(range(1, 5), number) for number in (1, 2, 11)], [{"1111"}, set(), set()])

    def test_one_module_that_gives_different_view_words(self):
        adoption = account(TWO_FACED_LINES, TWO_FACED).adoption
        self.assertEqual((adoption.wrong, adoption.out), ([], {}))
        self.assertEqual(adoption.differing_rounds([1, 2, 3, 4]), [5, 6, 7])
        self.assertEqual([adoption.two_faced([1, 2, 3, 4], number) for number in range(1, 8)], [[], [], [], [], [5], [5], [5]])

    def test_otherwise_no_two_rule_followers_adopt_different_views(self):
        for name, found in accounts():
            for number in found.adoption.differing_rounds(found.judges):
                self.assertTrue(found.adoption.two_faced(found.judges, number), (name, number))

    def test_each_way_to_miss_a_view_word(self):
        # three of four view words are enough and two are not: module 4 is lost to 3, and module 2 gives it no view word, though a row
        run = "cast 2\nloss 4 to 3\nlie 2 to 3 {}\nplay 1\n"
        for told, out in [("says 1111 view 1111", False), ("word 0x00000000 view 1111", False), ("says 1111 view word 0x00000000", True),
                          ("says 1111 view word 0xA000001F", True), ("says 1111 view word 0xA800000F", True),
                          ("says 1111 view word 0x5000000F", True), ("says 1111 view word 0xA000000F", False), ("says 1111 view 1110", True)]:
            with self.subTest(told):
                adoption = account(printed(("out", *[ALL] * 4)), SETUP + run.format(told)).adoption
                self.assertEqual(list(adoption.out), [3] if out else [])

    def test_own_view_words_count_and_can_be_lost(self):
        adoption = account(printed(("out", *[ALL] * 4)), SETUP + "cast none\nloss 3 to 3\nloss 4 to 3\nplay 1").adoption
        self.assertEqual(adoption.out, {3: Out(1, (1, 2, 3, 4), (1, 2))})
        adoption = account(printed(("out", *[ALL] * 4)), SETUP + "cast none\nloss 4 to 3\nplay 1").adoption
        self.assertEqual(adoption.out, {})

    def test_with_read_places_below_n_it_is_adopted_a_round_later(self):
        text = SETUP.replace("module 3 place 4", "module 3 place 2") + "cast none\nplay 1\nloss 1 to 3\nloss 2 to 3\nplay 2"
        adoption = account(printed(*[("out", *[ALL] * 4)] * 3), text).adoption
        self.assertEqual(adoption.out, {3: Out(3, (1, 2, 3, 4), (3, 4))})

    def test_without_bit_5_nothing_is_adopted(self):
        self.assertIsNone(account(printed(("in", *[ALL] * 4)), SHEET.split("cast")[0] + "cast none\nplay 1").adoption)
        self.assertIsNone(Account(read_run(printed(("in", *[ALL] * 4)).splitlines(True))).adoption)


@needs_bench
class Played(unittest.TestCase):
    def test_the_lines_kept_here_are_what_the_bench_prints(self):
        for text, lines in ((TWO_FACED, TWO_FACED_LINES), (EVEN, EVEN_LINES)):
            self.assertEqual(bench(assemble(text).data()), lines)
        for name, data, output in partitionable():
            self.assertEqual(bench(data), output, name)

    def random_text(self, chance, n):
        u_places = chance.random() < 0.5
        limits = chance.choice(["penalty limit 2\nreward limit 3\n", "fading factor 0.5 limit 2.0\n"])
        text = f"modules {n}\n{limits}return limit {chance.choice([0, 3])}\npartitionable\n"
        text += "".join(f"module {j} place {chance.randint(0, n) if u_places else n} criticality {chance.randint(1, 3)}\n" for j in range(1, n + 1))
        cast = chance.sample(range(1, n + 1), chance.choice([0, 0, 1, 2]))
        text += f"cast {' '.join(map(str, cast)) or 'none'}\n"
        for _ in range(40):
            for sender in range(1, n + 1):
                to = " ".join(str(j) for j in range(1, n + 1) if chance.random() < 0.3)
                if to and chance.random() < 0.15:
                    text += f"loss {sender} to {to}\n"
                if to and sender in cast and chance.random() < 0.3:
                    row, view = ("".join(chance.choice("1110") for _ in range(n)) for _ in range(2))
                    view = view if chance.random() < 0.7 else f"word 0x{chance.getrandbits(32):08X}"
                    text += f"lie {sender} to {to} says {row} view {view}\n"
            text += "play 1\n"
        return text

    def test_what_is_printed_of_random_scripts_is_what_is_adopted(self):
        chance, out = random.Random(11), 0
        for _ in range(60):
            text = self.random_text(chance, chance.randint(2, 9))
            found = account(bench(assemble(text).data()), text)
            self.assertEqual((found.adoption.wrong, found.faults()), ([], []), text)
            for number in found.adoption.differing_rounds(found.judges):
                self.assertTrue(found.adoption.two_faced(found.judges, number), text)
            out += len(found.adoption.out)
        self.assertGreater(out, 40)

    def test_how_many_view_words_a_module_needs(self):
        # module 1 hears as many view words in a round as it needs, or one less; then all strike the last module off, if it adopts
        for n in range(3, 17):
            modules = "".join(f"module {j} place {n} criticality 1\n" for j in range(1, n + 1))
            for heard, last in ((n // 2 + 1, "0"), (n // 2, "1")):
                lost = "".join(f"loss {j} to 1\n" for j in range(heard + 1, n + 1)) + "play 5\n"
                text = f"modules {n}\npenalty limit 4\nreward limit 2\npartitionable\n{modules}cast none\nplay 3\n{lost}"
                text += f"loss {n} to all\nplay 1\n" * 9
                found = account(bench(assemble(text).data()), text)
                self.assertEqual(found.adoption.views[-1], ("1" * (n - 1) + last,) + ("1" * (n - 1) + "0",) * (n - 1), (n, heard))
                self.assertEqual((found.adoption.wrong, list(found.adoption.out)), ([], [1] if last == "1" else []))

    def test_of_two_modules_each_needs_both_view_words(self):
        text = "modules 2\npenalty limit 9\nreward limit 9\npartitionable\nmodule 1 place 2 criticality 1\nmodule 2 place 2 criticality 1\n"
        for run, out in (("play 9", []), ("loss 1 to 2\nplay 9", [2]), ("loss 1 to all\nplay 9", [1, 2])):
            found = account(bench(assemble(f"{text}cast none\n{run}").data()), f"{text}cast none\n{run}")
            self.assertEqual((found.adoption.wrong, list(found.adoption.out)), ([], out))


class Summary(unittest.TestCase):
    def test_a_cable_torn_in_two(self):
        data, output = torn()
        self.assertEqual(summary(account(output, data)), """\
5 modules, 11 rounds
limits:    penalty 1, reward 3
views:     partitionable: the adopted views are printed; the local ones are worked out from the printed health by rule 8
cast:      nobody
limit:     broken first in round 2
agreement: rule-followers differ in rounds 3 to 11, all after the limit was broken
adoption:  no two rule-followers adopted different views in a round

Charged (health 0 while in the local view):
  module 1: 2 charges in rounds 3 to 4, but not by 1, 2
    rounds 3 to 4: its words of rounds 2 to 3 were lost to everybody but 2
  module 2: 2 charges in rounds 3 to 4, but not by 1, 2
    rounds 3 to 4: its words of rounds 2 to 3 were lost to everybody but 1
  module 3: 2 charges in rounds 3 to 4, only by 1, 2
    rounds 3 to 4: its words of rounds 2 to 3 were lost to modules 1, 2
  module 4: 2 charges in rounds 3 to 4, only by 1, 2
    rounds 3 to 4: its words of rounds 2 to 3 were lost to modules 1, 2
  module 5: 2 charges in rounds 3 to 4, only by 1, 2
    rounds 3 to 4: its words of rounds 2 to 3 were lost to modules 1, 2

Left the local view:
  module 1: in round 4, but not from the view of 1, 2
  module 1: still in the view of 1, 2
  module 2: in round 4, but not from the view of 1, 2
  module 2: still in the view of 1, 2
  module 3: in round 4, from the view of 1, 2 only
  module 3: still in the view of 3, 4, 5
  module 4: in round 4, from the view of 1, 2 only
  module 4: still in the view of 3, 4, 5
  module 5: in round 4, from the view of 1, 2 only
  module 5: still in the view of 3, 4, 5

Adopted another view (what the bench prints; full at the opening):
  round 5: 00111, by 3, 4, 5

Took themselves out (some module had no value that more than half of all 5 view words carried):
  module 1: in round 2, no majority for any module; in round 2 it heard 2 of 5 view words (of 1, 2); it keeps 11111
  module 2: in round 2, no majority for any module; in round 2 it heard 2 of 5 view words (of 1, 2); it keeps 11111
""")

    def test_why_modules_took_themselves_out(self):
        told = {name[:3]: summary(found) for name, found in accounts()}
        self.assertTrue(told["012"].endswith("it keeps 1111\n  module 4: in round 7, no majority for any module; "
                                             "in round 6 it heard none of 4 view words; it keeps 1111\n"))
        self.assertIn("\n  module 3: in round 4, no majority for any module; in round 3 it heard 1 of 3 view words (of 3); it keeps 111\n"
                      "  module 1: in round 12, no majority for any module; in round 11 it heard 1 of 3 view words (of 2); it keeps 110\n", told["001"])
        self.assertIn("\nagreement: all rule-followers gave the same health and local view in every round\n", told["013"])
        self.assertTrue(told["013"].endswith(
            "\n\nAdopted another view (what the bench prints; full at the opening):\n  nobody\n\n"
            "Took themselves out (some module had no value that more than half of all 4 view words carried):\n  nobody\n"))
        text = SETUP.replace("module 3", "module 3 focus") + "cast 2\nloss 4 to 3\nlie 2 to 3 says 1111 view 0110\nplay 1"
        self.assertIn("  module 3 focus: in round 1, no majority for modules 1, 4; in round 1 it heard 3 of 4 view words (of 1, 2, 3 focus); "
                      "it keeps 1111\n", summary(account(printed(("out", *[ALL] * 4)), text)))

    def test_adopted_views_by_rounds(self):
        told = {name[:3]: summary(found) for name, found in accounts()}
        self.assertIn("\n\nAdopted another view (what the bench prints; full at the opening):\n  round 18: 11110, by 1, 2, 3, 4, 5\n"
                      "  round 20: 11111, by 1, 2, 3, 4, 5\n\n", told["008"])

    def test_two_rule_followers_adopt_different_views(self):
        text = summary(account(TWO_FACED_LINES, TWO_FACED))
        self.assertIn("\nadoption:  rule-followers adopted different views in rounds 5 to 7; they heard different view words of module 5\n", text)
        self.assertIn("\n  round 5: 11001, by 1, 2\n  round 5: 00111, by 3, 4\n  round 6: 00001, by 5\n", text)

    def test_a_printed_view_that_is_not_adopted_is_said_loudly(self):
        data, output = torn()
        wrong = output.replace("\n5 3 00111 00111", "\n5 3 00111 11111")
        text = summary(account(wrong, data))
        self.assertIn("""
*** FAULT: the printed view is not the adopted one in round 5 of module 3:
*** 11111 is printed, and by the printed health and the script it is 00111.
*** Is it the script of this run? If so, keep the script and this output.
""", text)
        self.assertNotIn("\nadoption:", text)
        self.assertIn("round 5 of module 3 and in 2 more lines:\n", summary(account(wrong.replace("00111 00111", "00111 11111", 2), data)))
        with tempfile.NamedTemporaryFile(suffix=".bin") as file:
            file.write(data)
            file.flush()
            for lines, status in ((output, 0), (wrong, 3)):
                ran = tool("runsummary", "--script", file.name, given=lines.encode())
                self.assertEqual((ran.returncode, ran.stdout.decode(), ran.stderr), (status, summary(account(lines, data)), b""))

    def test_without_a_script_the_views_are_as_printed(self):
        _, output = torn()
        text = summary(Account(read_run(output.splitlines(True))))
        self.assertIn("\nviews:     as printed; of a partitionable setup these are the adopted ones, while charges go by local ones (give --script)\n", text)
        self.assertIn("\nLeft the view:\n  module 1: in round 5, but not from the view of 1, 2\n", text)
        self.assertNotIn("\nviews:", summary(account(printed(("in", *[ALL] * 4)), SHEET.split("cast")[0] + "cast none\nplay 1")))

    def test_many_adopted_views_are_cut_short(self):
        found = account(printed(*[("in", *[ALL] * 4)] * 60), SETUP + "cast none\nplay 60")
        found.adoption.views = [(("1110", "1111")[number % 2],) * 4 for number in range(60)]
        text = summary(found)
        self.assertEqual(text.count(", by 1, 2, 3, 4\n"), 24)
        self.assertIn("\n  round 24: 1111, by 1, 2, 3, 4\n  and 36 times more\n", text)

    def test_a_hundred_thousand_rounds(self):
        text = "modules 2\npenalty limit 9\nreward limit 9\npartitionable\nmodule 1 place 2 criticality 1\nmodule 2 place 2 criticality 1\n"
        text += "cast none\n" + "play 1000\n" * 100
        lines = "".join(f"{k} 1 11 11 in\n{k} 2 11 11 in\n" for k in range(1, 100_001))
        self.assertIn("\nadoption:  no two rule-followers adopted different views in a round\n", summary(account(lines, text)))


class Picture(unittest.TestCase):
    def words(self, drawn):
        return " ".join(" ".join(xml.fromstring(drawn).itertext()).replace("\u00a0", " ").split())

    def test_a_cable_torn_in_two(self):
        data, output = torn()
        drawn = picture(account(output, data), "torn")
        words = self.words(drawn)
        self.assertIn("5 modules, 11 rounds; penalty limit 1, reward limit 3; partitionable; cast: nobody.", words)
        self.assertIn("No two rule-followers adopted different views in a round. Took themselves out: 1, 2 in round 2.", words)
        self.assertIn("Left the local view: 1 in round 4 from the first view, still in 2 of 5 views;", words)
        self.assertIn("Views by their letters, module 1 leftmost: A 11111, B 11000, C 00111.", words)
        self.assertIn("Each cell has three bands, from above: ", words)
        for entry in ("row adopted: all rule-followers that are not out adopt the same view", "row adopted: rule-followers adopt different views",
                      "row adopted: all rule-followers are out", "the module's own views, by letters: the local one, then the adopted one",
                      "out: it adopts nothing any more, and its adopted view stays"):
            self.assertIn(entry, words)
        for title in ("round 1, module 1: healthy\nit holds the local view 11111 and the adopted view 11111",
                      "round 2, module 1: healthy\nit holds the local view 11111 and the adopted view 11111, and is out\nloss to 3 4 5",
                      "round 4, module 3: views differ\nit holds the local view 00111 and the adopted view 11111\nloss to 1 2",
                      "round 5–7, module 1: views differ\nit holds the local view 11000 and the adopted view 11111, and is out\nloss to 3 4 5",
                      "round 9–11, module 5: views differ\nit holds the local view 00111 and the adopted view 00111"):
            self.assertIn(f"<title>{title}</title>", drawn)

    def test_the_letters_of_each_column(self):
        data, output = torn()
        found = columns(account(output, data))
        self.assertEqual([(label(column), column.adopted, *[column.views[j].letters for j in (0, 2)]) for column in found],
                         [("1", "=", "A A", "A A"), ("2", "=", "A A", "A A"), ("3", "=", "A A", "A A"), ("4", "=", "B A", "C A"),
                          ("5–7", "=", "B A", "C C"), ("8", "=", "B A", "C C"), ("9–11", "=", "B A", "C C")])
        self.assertEqual([[views.out for views in column.views] for column in found], [[False] * 5] + [[True] * 2 + [False] * 3] * 6)
        self.assertEqual([column.adopted for column in columns(account(EVEN_LINES, EVEN))][:2], ["=", "–"])
        self.assertEqual([column.adopted for column in columns(account(TWO_FACED_LINES, TWO_FACED))], ["="] * 4 + ["≠"] * 3)

    def test_letters(self):
        self.assertEqual([letter(i) for i in (0, 1, 25, 26, 27, 51, 52, 701)], ["A", "B", "Z", "AA", "AB", "AZ", "BA", "ZZ"])
        found = columns(account(TWO_FACED_LINES, TWO_FACED))
        self.assertEqual(view_letters(found), {"11111": "A", "11001": "B", "00111": "C", "00001": "D"})

    def test_a_module_that_is_out_is_white_on_black(self):
        data, output = torn()
        drawn = picture(account(output, data), "torn")
        bands = re.findall(r'<rect [^>]*height="16" fill="#000"/><text [^>]*fill="#fff"[^>]*>([A-Z ]+)</text>', drawn)
        # two modules in six columns, and the legend
        self.assertEqual(bands, ["A A"] * 4 + ["B A"] * 8 + ["A B"])

    def test_a_printed_view_that_is_not_adopted_has_a_banner(self):
        data, output = torn()
        drawn = picture(account(output.replace("\n5 3 00111 00111", "\n5 3 00111 11111"), data), "wrong")
        said = "FAULT: printed views are not the adopted ones, first in round 5 of module 3 (is it the script of this run?)."
        self.assertIn(said, self.words(drawn))
        self.assertNotIn("No two rule-followers adopted", self.words(drawn))

    def test_told_views(self):
        text = SETUP + "cast 2\nlie 2 to all but 1 says 1011 view 1110\nlie 2 to 1 word 0x5000001F view word 0xA000001F\nplay 1"
        drawn = picture(account(printed(("in", *[ALL] * 4)), text), "lies")
        self.assertIn("\nlie to all but 1 says 1011 view 1110\nlie to 1 word 0x5000001F view word 0xA000001F, "
                      "not heard: stray bits, view not heard: stray bits</title>", drawn)

    def test_without_bit_5_nothing_is_said_of_it(self):
        drawn = picture(account(printed(("in", *[ALL] * 4)), SHEET.split("cast")[0] + "cast none\nplay 1"), "counts")
        for word in ("adopt", "partition", "letters", "local"):
            self.assertNotIn(word, drawn)
        without = picture(Account(read_run(printed(("in", *[ALL] * 4)).splitlines(True))), "no script")
        self.assertIn("If the setup is partitionable, the views are the adopted ones.", self.words(without))


if __name__ == "__main__":
    unittest.main()
