import re
import time
import unittest
import xml.etree.ElementTree as xml

from common import FADING_SHEET, SHEET, partitionable, printed, read, root, stored, tool

from runtools import check, marks, script, svg
from runtools.account import Account, Cell
from runtools.columns import columns, label
from runtools.layout import MOST_HEIGHT, NARROW, WIDE, score_text, width_of, wrapped
from runtools.lines import read_run
from runtools.picture import picture

SVG = "{http://www.w3.org/2000/svg}"
ALL = ("1111", "1111")
GONE = ("1110", "1110")
SETUP = SHEET.split("cast")[0]
FADING = FADING_SHEET.split("cast")[0]


def account(output, text=None):
    return Account(read_run(output.splitlines(True)), script.load(text.encode(), "text") if text else None)


class Columns(unittest.TestCase):
    def labels(self, *rounds, run="cast none\nplay {n}", **options):
        text = SETUP + run.replace("{n}", str(len(rounds)))
        return [label(column) for column in columns(account(printed(*rounds), text), **options)]

    def test_rounds_alike_are_one_column(self):
        quiet, gone = ("in", *[ALL] * 4), ("in", *[GONE] * 4)
        self.assertEqual(self.labels(*[quiet] * 5, *[gone] * 6), ["1–5", "6", "7–11"])

    def test_two_rounds_alike_stay_two(self):
        self.assertEqual(self.labels(*[("in", *[ALL] * 4)] * 2), ["1", "2"])

    def test_a_broken_limit_and_an_event_begin_a_column(self):
        quiet, out = ("in", *[ALL] * 4), ("out", *[ALL] * 4)
        self.assertEqual(self.labels(*[quiet] * 3, *[out] * 3), ["1–3", "4–6"])
        self.assertEqual(self.labels(*[quiet] * 7, run="cast none\nplay 3\nloss 1 to all\nplay 4"), ["1–3", "4", "5–7"])

    def test_a_part_of_the_run(self):
        quiet, gone = ("in", *[ALL] * 4), ("in", *[GONE] * 4)
        self.assertEqual(self.labels(*[quiet] * 5, *[gone] * 6, first=3, last=8), ["3–5", "6", "7", "8"])

    def test_a_score_that_fades_begins_no_column(self):
        quiet, charged = ("in", *[ALL] * 4), ("in", *[("1110", "1111")] * 4)
        found = columns(account(printed(charged, *[quiet] * 4, charged), FADING + "cast none\nplay 6"))
        self.assertEqual([label(column) for column in found], ["1", "2–5", "6"])
        self.assertEqual([column.scores for column in found], [([0.0], [0.0], [0.0], [score]) for score in (1.0, 0.0625, 1.0625)])

    def test_a_column_is_as_wide_as_its_scores(self):
        charged = ("in", *[("1110", "1111")] * 4)
        text = FADING.replace("0.5", "1.0").replace("3.0", "1e6") + "cast none\nplay 2"
        found = columns(account(printed(("in", *[ALL] * 4), charged), text))
        self.assertEqual([width_of(column) for column in found], [WIDE, WIDE])
        wide = found[1]._replace(scores=([0.0], [999_999.875], [0.5], [1.0]))
        self.assertGreater(width_of(wide), svg.text_width("999999.875", 10))


class Marks(unittest.TestCase):
    def test_states(self):
        states = {(True, True, True): "healthy", (True, True, False): "charged", (True, False, False): "leaves",
                  (False, False, True): "outside", (False, False, False): "outside, judged 0",
                  (True, True, None): "healths differ", (True, None, None): "views differ", (None, False, False): "leaves",
                  (False, True, True): "returns", (None, True, True): "returns", (False, None, True): "views differ"}
        for cell, name in states.items():
            self.assertEqual(marks.state(Cell(*cell)), name)

    def test_every_state_but_healthy_has_its_own_shape(self):
        drawn = [re.sub(r"#[0-9A-Fa-f]{3,6}", "colour", marks.judged(name, 0, 0, 26)) for name in
                 ("charged", "leaves", "returns", "outside", "outside, judged 0", "healths differ", "views differ")]
        self.assertEqual(len(set(drawn)), len(drawn))

    def test_why_a_lie_is_not_heard(self):
        def names(run):
            return marks.event_names(script.load((SETUP + "cast 2\n" + run + "play 1").encode(), "text").events[1][2], 4)

        self.assertEqual(names("loss 2 to all\n"), ["loss to all"])
        self.assertEqual(names("lie 2 to all says 0000\n"), ["lie to all"])
        self.assertEqual(names("lie 2 to all word 0x4000001F\n"), ["wrong kind to all"])
        self.assertEqual(names("lie 2 to all word 0x5000001F\n"), ["stray bits to all"])
        self.assertEqual(names("loss 2 to 1\nlie 2 to 2 says 0000\nlie 2 to 3 word 0x00000000\nlie 2 to 4 word 0x58000000\n"),
                         ["loss to some", "lie to some", "wrong kind to some", "stray bits to some"])
        self.assertEqual(names("lie 2 to all says 0000\nlie 2 to 1 word 0x00000000\n"), ["lie to some", "wrong kind to some"])

    def test_every_event_has_its_own_shape(self):
        drawn = {re.sub(r"#[0-9A-Fa-f]{3,6}", "colour", marks.event(f"{what} to all", 0, 0)) for what in ("loss", "lie", "wrong kind", "stray bits")}
        self.assertEqual(len(drawn), 4)

    def test_marks_stay_in_their_cell(self):
        found = script.load((SETUP + "cast 2\nloss 2 to 1\nlie 2 to 2 says 0000\nlie 2 to 3 word 0x00000000\n"
                                     "lie 2 to 4 word 0x58000000\nplay 1").encode(), "text").events[1][2]
        for width in (WIDE, NARROW):
            corners = re.findall(r"(-?[0-9.]+),(-?[0-9.]+)", marks.events(found, 4, 100, 50, width))
            self.assertEqual(len(corners), 3 + 4 + 4 + 12)
            for x, y in corners:
                self.assertTrue(100 <= float(x) <= 100 + width and 50 <= float(y) <= 50 + marks.BAND, (width, x, y))


class Picture(unittest.TestCase):
    def check_drawing(self, drawn):
        """Well-formed, self-contained, and no text outside the picture (by the estimate of its width)."""
        tree = xml.fromstring(drawn)
        width, height = float(tree.get("width")), float(tree.get("height"))
        for text in tree.iter(SVG + "text"):
            x, y, size = float(text.get("x")), float(text.get("y")), float(text.get("font-size"))
            across = 0 if text.get("transform") else svg.text_width(text.text, size, text.get("font-weight") == "bold")
            start = {"end": x - across, "middle": x - across / 2}.get(text.get("text-anchor"), x)
            self.assertGreaterEqual(start, 0, text.text)
            self.assertLessEqual(start + across, width, text.text)
            self.assertLessEqual(y, height, text.text)
            self.assertGreaterEqual(size, 10)
        self.assertLessEqual(height, MOST_HEIGHT)
        self.assertFalse(re.search(r"<script|<image|href|@import", drawn))

    def test_stored_runs(self):
        for name, data, output in [*stored("vectors", "e06", "e09"), *partitionable()]:
            if check.refusal(data) is None:
                with self.subTest(name):
                    loaded = script.load(data, name)
                    made = Account(read_run(output.splitlines(True)), loaded)
                    drawn = picture(made, name)
                    self.check_drawing(drawn)
                    self.assertEqual(drawn, picture(made, name))

    def test_the_sheet_shows_loss_and_charge(self):
        drawn = picture(account(read(root("harness/data/vectors/001-star-sheet.out")).decode(), SHEET), "sheet")
        self.assertIn("<title>round 1, module 2: healthy\nloss to all</title>", drawn)
        self.assertIn("<title>round 2, module 2: charged</title>", drawn)
        self.assertIn("Left the view: nobody.", drawn)

    def test_a_lie_that_is_not_heard_says_why(self):
        text = SETUP + "cast 2\nlie 2 to all but 1 word 0x4000000F\nlie 2 to 1 word 0x5000001F\nplay 1"
        drawn = picture(account(printed(("in", *[ALL] * 4)), text), "lies")
        self.check_drawing(drawn)
        self.assertIn("<title>round 1, module 2: healthy\nlie to all but 1 word 0x4000000F, not heard: wrong kind\n"
                      "lie to 1 word 0x5000001F, not heard: stray bits</title>", drawn)
        words = " ".join(" ".join(xml.fromstring(drawn).itertext()).split())
        self.assertIn("lie of wrong kind: some modules do not hear it", words)
        self.assertIn("lie with stray bits: some modules do not hear it", words)
        self.assertNotIn("lie of wrong kind: no module hears it", words)

    def test_long_names_and_signs_are_safe(self):
        text = SETUP.replace("module 3", "module 3 a-very-long-name-of-a-card-in-the-rack") + "cast 3\nplay 1"
        drawn = picture(account(printed(("in", *[ALL] * 4)), text), "<title> & \"more\"")
        self.check_drawing(drawn)
        self.assertIn("3 a-very-long-nam…", drawn)

    def test_wide_letters_are_not_cut_off(self):
        text = SETUP.replace("module 3", "module 3 " + "W" * 30).replace("module 4", "module 4 " + "M" * 12) + "cast 3 4\nplay 1"
        self.check_drawing(picture(account(printed(("in", *[ALL] * 4)), text), "A-LONG-NAME-OF-A-FILE-" * 9 + " AND MORE" * 9))

    def test_names_with_hyphens_stay_whole(self):
        names = SETUP
        for number, name in enumerate(("stage-controller-x-axis", "stage-controller-y-axis", "filter-wheel-upper", "filter-wheel-lower"), 1):
            names = names.replace(f"module {number} place", f"module {number} {name} place")
        gone = ("0000", "0000")
        drawn = picture(account(printed(("in", *[gone] * 4)), names + "cast 1\nplay 1"), "names")
        self.check_drawing(drawn)
        for name in ("1\u00a0stage-controller-x-axis", "4\u00a0filter-wheel-lower"):
            self.assertIn(f"{name}\u00a0in\u00a0round\u00a01", drawn)

    def test_when_a_module_left_the_first_view_and_the_last(self):
        gone = ("0111", "0111")
        differ, all_gone = ("out", ALL, gone, ALL, ALL), ("out", *[gone] * 4)
        text = SETUP + "cast none\nplay 3"
        drawn = picture(account(printed(("out", *[ALL] * 4), differ, all_gone), text), "view by view").replace("\u00a0", " ")
        self.assertIn("Left the view: 1 in round 2 from the first view, in round 3 from the last.", drawn)
        drawn = picture(account(printed(("out", *[ALL] * 4), differ, differ), text), "some views").replace("\u00a0", " ")
        self.assertIn("Left the view: 1 in round 2 from the first view, still in 3 of 4 views.", drawn)
        drawn = picture(account(printed(("out", *[ALL] * 4), all_gone, all_gone), text), "all views").replace("\u00a0", " ")
        self.assertIn("Left the view: 1 in round 2.", drawn)

    def test_a_return_has_its_mark_its_words_and_its_sentence(self):
        text = SETUP.replace("reward limit 3", "reward limit 3\nreturn limit 2").replace("module 4", "module 4 shutter") + "cast none\nplay {n}"
        quiet, gone, away = ("in", *[ALL] * 4), ("in", *[GONE] * 4), ("in", *[("1111", "1110")] * 4)
        rounds = [quiet, gone, away, quiet, quiet]
        drawn = picture(account(printed(*rounds), text.replace("{n}", "5")), "back")
        self.check_drawing(drawn)
        self.assertIn("<title>round 2, module 4 shutter: leaves</title>", drawn)
        self.assertIn("<title>round 3, module 4 shutter: outside</title>", drawn)
        self.assertIn("<title>round 4, module 4 shutter: returns</title>", drawn)
        self.assertIn("<title>round 5, module 4 shutter: healthy</title>", drawn)
        # once in its cell and once in the legend
        self.assertEqual(drawn.count(f'r="9" fill="{marks.RETURN}"'), 2)
        said = drawn.replace("\u00a0", " ")
        self.assertIn("penalty limit 1, reward limit 3, return limit 2; cast: nobody.", said)
        self.assertIn("Left the view: 4 shutter in round 2.", said)
        self.assertIn("Came back into the view: 4 shutter in round 4.", said)
        self.assertIn("comes back into the view", said)
        # again
        drawn = picture(account(printed(*rounds, gone, away, quiet), text.replace("{n}", "8")), "back twice").replace("\u00a0", " ")
        self.assertIn("Left the view: 4 shutter in rounds 2, 6.", drawn)
        self.assertIn("Came back into the view: 4 shutter in rounds 4, 8.", drawn)

    def test_where_nobody_comes_back_nothing_is_said_of_it(self):
        drawn = picture(account(printed(("in", *[ALL] * 4), ("in", *[GONE] * 4)), SETUP + "cast none\nplay 2"), "gone")
        self.assertNotIn("ack into the view", drawn)
        self.assertNotIn("return limit", drawn)
        self.assertNotIn(marks.RETURN, drawn)

    def test_when_a_module_came_back_into_the_first_view_and_the_last(self):
        gone, away = ("0111", "0111"), ("1111", "0111")
        text = SETUP + "cast none\nplay {n}"
        rounds = [("out", *[gone] * 4), ("out", ALL, away, away, ALL), ("out", ALL, ALL, away, ALL)]
        drawn = picture(account(printed(*rounds), text.replace("{n}", "3")), "into some").replace("\u00a0", " ")
        self.assertIn("Left the view: 1 in round 1.", drawn)
        self.assertIn("Came back into the view: 1 in round 2 into the first view, into 3 of 4 views.", drawn)
        rounds += [("out", *[ALL] * 4), ("out", gone, ALL, ALL, ALL), ("out", *[ALL] * 4)]
        drawn = picture(account(printed(*rounds), text.replace("{n}", "6")), "into all")
        self.check_drawing(drawn)
        words = " ".join(" ".join(xml.fromstring(drawn).itertext()).split())
        self.assertIn("Left the view: 1 in round 1, again up to round 5.", words)
        self.assertIn("Came back into the view: 1 in round 2 into the first view, in round 4 into the last, again up to round 6.", words)

    def test_with_fading_a_cell_has_its_score(self):
        charged = ("1110", "1111")
        rounds = [charged, ALL, charged, ALL, charged, charged, GONE, GONE, ("1111", "1110"), ALL, charged, ALL]
        text = FADING.replace("module 1", "return limit 2\nmodule 1") + f"cast none\nplay {len(rounds)}"
        drawn = picture(account(printed(*(("in", *[row] * 4) for row in rounds)), text), "fading")
        self.check_drawing(drawn)
        exact = re.findall(r"<title>round ([0-9]+), module 4: ([a-z, 0]+), score ([0-9.]+)</title>", drawn)
        self.assertEqual([state for _, state, _ in exact], ["charged", "healthy", "charged", "healthy", "charged", "charged", "leaves", "outside, judged 0",
                                                            "outside", "returns", "charged", "healthy"])
        scores = ["1.0", "0.5", "1.5", "0.75", "1.75", "2.75", "3.75", "3.75", "3.75", "0.0", "1.0", "0.5"]
        self.assertEqual([score for _, _, score in exact], scores)
        shown = [text.text for text in xml.fromstring(drawn).iter(SVG + "text") if re.fullmatch(r"[0-9]+\.[0-9]+", text.text)]
        self.assertEqual(shown, [score for score in scores if score != "0.0"])
        said = " ".join(" ".join(xml.fromstring(drawn).itertext()).split())
        self.assertIn("; fading: factor 0.5, limit 3.0, return limit 2; cast: nobody.", said)
        self.assertNotIn("penalty", said)
        self.assertIn("Each cell has three bands:", said)
        self.assertIn("a good round multiplies it by 0.5; with a score of 3.0 or more a module leaves the view.", said)

    def test_the_score_of_a_range_is_that_after_its_last_round(self):
        charged = ("in", *[("1110", "1111")] * 4)
        text = FADING.replace("0.5", "0.1") + "cast none\nplay 5"
        drawn = picture(account(printed(charged, *[("in", *[ALL] * 4)] * 4), text), "range")
        self.assertIn("<title>round 2–5, module 4: healthy, score 0.00010000000000000003 after round 5</title>", drawn)
        self.assertIn(">0.000</text>", drawn)

    def test_scores_that_differ(self):
        charged = ("1110", "1111")
        drawn = picture(account(printed(("out", ALL, charged, ALL, ALL)), FADING + "cast none\nplay 1"), "differ")
        self.assertIn("<title>round 1, module 4: healths differ, score 0.0 or 1.0</title>", drawn)
        self.check_drawing(drawn)

    def test_without_fading_nothing_is_said_of_scores(self):
        drawn = picture(account(printed(("in", *[ALL] * 4), ("in", *[("1110", "1111")] * 4)), SETUP + "cast none\nplay 2"), "counts")
        self.assertNotIn("score", drawn)
        self.assertIn("Each cell has two bands:", drawn)

    def test_the_legend_tells_of_agreement_and_of_ranges_of_rounds(self):
        words = " ".join(xml.fromstring(picture(account(printed(*[("in", *[ALL] * 4)] * 5)), "quiet")).itertext())
        self.assertIn("row agreement: all modules agree", words)
        self.assertIn("row agreement: modules differ", words)
        self.assertIn("a mark in it stands for every round of it", " ".join(words.split()))

    def test_a_fault_has_a_banner(self):
        drawn = picture(account(printed(("in", ALL, GONE, ALL, ALL)), SETUP + "cast none\nplay 1"), "fault")
        self.assertIn("FAULT: rule-followers differ while the limit was kept, in round 1.", drawn)
        self.check_drawing(drawn)

    def test_without_a_script(self):
        drawn = picture(account(printed(("in", ALL, GONE, ALL, ALL))), "no script")
        self.assertIn("The upper bands are empty because no script was given.", drawn)
        self.assertIn("modules differ about the view", drawn)

    def test_a_hundred_thousand_quiet_rounds_are_one_column(self):
        lines = "".join(f"{k} 1 11 11 in\n{k} 2 11 11 in\n" for k in range(1, 100_001))
        started = time.time()
        drawn = picture(account(lines), "long")
        self.assertIn("1–100000", drawn)
        self.assertLess(len(drawn), 20_000)
        self.assertLess(time.time() - started, 5)

    def test_a_picture_too_high_for_some_viewers(self):
        lines = "".join(f"{k} {j} {h} {'1' * 16} in\n" for k in range(1, 2_001) for h in ["1" * 16 if k % 2 else "0" + "1" * 15] for j in range(1, 17))
        ran = tool("runpicture", given=lines.encode())
        self.assertEqual((ran.returncode, ran.stdout, ran.stderr.count(b"\n")), (1, b"", 1))
        part = re.search(rb"pixels high, and not every viewer shows more than 16,000; .* --rounds (1-[0-9]+)", ran.stderr)[1]
        ran = tool("runpicture", "--rounds", part.decode(), given=lines.encode())
        self.assertEqual(ran.returncode, 0)
        self.check_drawing(ran.stdout.decode())


class Texts(unittest.TestCase):
    def test_a_score_has_at_most_three_digits_after_the_point(self):
        cases = [(0.0, ""), (1.0, "1.0"), (0.5, "0.5"), (2.875, "2.875"), (0.0625, "0.062"), (1.4580000000000002, "1.458"), (2.9999999999999996, "3.000"),
                 (1e-5, "0.000"), (5e-324, "0.000"), (0.1 + 0.2, "0.300"), (999_999.9375, "999999.938"), (1_000_000.0, "1000000.0")]
        self.assertEqual([score_text([score]) for score, _ in cases], [text for _, text in cases])
        self.assertEqual(score_text([0.0, 1.0]), "≠")

    def test_lines_are_broken_at_blanks_and_no_wider_than_asked(self):
        text = "7 filter-wheel in round 5; 8 nose-piece in round 6"
        for width in range(90, 400, 7):
            pieces = wrapped(text, width)
            self.assertEqual(" ".join(pieces), text)
            self.assertLessEqual(max(map(svg.text_width, pieces)), width)

    def test_a_word_wider_than_the_line_is_cut(self):
        pieces = wrapped("W" * 50, 100)
        self.assertEqual("".join(pieces), "W" * 50)
        self.assertLessEqual(max(map(svg.text_width, pieces)), 100)


if __name__ == "__main__":
    unittest.main()
