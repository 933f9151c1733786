import unittest

from common import read, root, stored, tool

from runtools.lines import NotBenchOutput, read_run

SHEET_LINES = read(root("harness/data/vectors/001-star-sheet.out")).decode()


class Reading(unittest.TestCase):
    CASES = [
        # what stands in the sheet's lines, what is written instead, a part of the sentence
        ("2 3 1011 1111 in", "2 3 1011 1111", "line 7 is not 'round module health view in|out'"),
        ("2 3 1011 1111 in", "2 3 1011 1111 in 5", "line 7 is not"),
        ("2 3 1011 1111 in", "2 3 1021 1111 in", "line 7 is not"),
        ("2 3 1011 1111 in", "2 3 1011 1111 IN", "line 7 is not"),
        ("2 3 1011 1111 in", "2 3  1011 1111 in", "line 7 is not"),
        ("2 3 1011 1111 in", "2 3 101 1111 in", "line 7: health and view need 4 digits each"),
        ("2 3 1011 1111 in\n", "", "line 7 is round 2, module 4, but round 2, module 3 is due"),
        ("2 4 1011 1111 in\n", "", "the output ends in round 2 after module 3 of 4"),
        ("2 1 ", "3 1 ", "line 5 is round 3, module 1, but round 2, module 1 is due"),
        ("1 1 1111", "2 1 1111", "line 1 is round 2, module 1, but round 1, module 1 is due"),
        ("2 3 1011 1111 in", "2 3 1011 1111 out", "round 2 is 'in' and 'out' at once"),
        (SHEET_LINES, "", "no line at all"),
        (SHEET_LINES, "refused 22 at 2\n", "the bench refused the script, 22 at word 2: the fading form is wrong"),
        (SHEET_LINES, "refused 13 at 8\n", "the bench refused the script, 13 at word 8: a lie by a module outside the cast"),
    ]

    def test_what_is_not_bench_output(self):
        for old, new, part in self.CASES:
            with self.subTest(part):
                self.assertIn(old, SHEET_LINES)
                with self.assertRaises(NotBenchOutput) as caught:
                    read_run(SHEET_LINES.replace(old, new, 1).splitlines(True))
                self.assertIn(part, str(caught.exception))

    def test_in_after_out(self):
        lines = SHEET_LINES.replace("in\n", "out\n", 4)
        with self.assertRaises(NotBenchOutput) as caught:
            read_run(lines.splitlines(True))
        self.assertIn("round 2 is 'in' after an 'out'", str(caught.exception))

    def test_stored_outputs_are_read(self):
        for name, _, output in stored("vectors", "e04", "e06", "e08", "e09"):
            with self.subTest(name):
                if output.startswith("refused"):
                    self.assertRaises(NotBenchOutput, read_run, output.splitlines(True))
                else:
                    run = read_run(output.splitlines(True))
                    self.assertEqual(run.n * len(run.rounds), output.count("\n"))


class Command(unittest.TestCase):
    def test_help(self):
        for name in ("runpicture", "runsummary"):
            ran = tool(name, "--help")
            self.assertEqual(ran.returncode, 0)
            self.assertIn(b"Exit status", ran.stdout)

    def test_both_tools_fail_in_one_line(self):
        for name in ("runpicture", "runsummary"):
            for given in (b"refused 14 at 10\n", b"", b"hello\n", b"\xff\xfe"):
                ran = tool(name, given=given)
                with self.subTest(name, given=given):
                    self.assertEqual((ran.returncode, ran.stdout, ran.stderr.count(b"\n")), (1, b"", 1))

    def test_a_byte_order_mark_is_left_out(self):
        ran = tool("runsummary", given=b"\xef\xbb\xbf" + SHEET_LINES.replace("\n", "\r\n").encode())
        self.assertEqual((ran.returncode, ran.stderr), (0, b""))
        self.assertTrue(ran.stdout.startswith(b"4 modules, 2 rounds\n"))

    def test_a_script_that_does_not_fit(self):
        for name in ("runpicture", "runsummary"):
            ran = tool(name, "--script", "harness/data/vectors/002-star-marks.bin", given=SHEET_LINES.encode())
            self.assertEqual((ran.returncode, ran.stderr.count(b"\n")), (1, 1))
            self.assertIn(b"rounds", ran.stderr)

    def test_a_file_that_is_not_there(self):
        for args in (["no-such-file"], ["--script", "no-such-file", "harness/data/vectors/001-star-sheet.out"]):
            ran = tool("runsummary", *args)
            self.assertEqual((ran.returncode, ran.stderr), (1, b"runsummary: no-such-file: No such file or directory\n"))


if __name__ == "__main__":
    unittest.main()
