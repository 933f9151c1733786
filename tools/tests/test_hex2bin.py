import os
import tempfile
import unittest

from common import read, root, tool


class Hex2Bin(unittest.TestCase):
    def test_the_sheet(self):
        ran = tool("hex2bin", "examples/sheet.hex")
        self.assertEqual((ran.returncode, ran.stdout, ran.stderr), (0, read(root("harness/data/vectors/001-star-sheet.bin")), b""))

    def test_standard_input_comments_and_blanks(self):
        cases = [(b"", b""), (b"# nothing\n", b""), (b"0aF0", b"\x0a\xf0"), (b" 0\t1\r\n 2 # 34 # 56\n3\n", b"\x01\x23"),
                 (b"\xef\xbb\xbf10 # \xff\xb5\n", b"\x10")]
        for given, data in cases:
            for args in ([], ["-"]):
                with self.subTest(given, args=args):
                    ran = tool("hex2bin", *args, given=given)
                    self.assertEqual((ran.returncode, ran.stdout, ran.stderr), (0, data, b""))

    def test_several_files_are_one_text(self):
        with tempfile.TemporaryDirectory() as folder:
            files = [os.path.join(folder, name) for name in ("first", "second")]
            for file, text in zip(files, ("10 0", "1 # end")):
                with open(file, "w", encoding="utf-8") as opened:
                    opened.write(text)
            self.assertEqual(tool("hex2bin", *files).stdout, b"\x10\x01")

    def test_errors_name_the_line_and_nothing_is_written(self):
        cases = [(b"10\n0g # x\n", b"standard input:2: 'g' is no hexadecimal digit"),
                 (b"0x10\n", b"standard input:1: 'x' is no hexadecimal digit"),
                 (b"10\n\n10 ~\n", b"standard input:3: '~' is no hexadecimal digit"),
                 (b"10 20\n3\n# end\n", b"standard input:2: half a byte at the end: 5 digits in all")]
        for given, message in cases:
            with self.subTest(given):
                ran = tool("hex2bin", given=given)
                self.assertEqual((ran.returncode, ran.stdout, ran.stderr), (1, b"", b"hex2bin: " + message + b"\n"))

    def test_a_sign_outside_ascii(self):
        for given in ("10\n\n10 µ\n".encode(), b"10\n\n10 \xb5\n"):
            ran = tool("hex2bin", given=given)
            self.assertEqual((ran.returncode, ran.stdout), (1, b""))
            self.assertTrue(ran.stderr.startswith(b"hex2bin: standard input:3: "))

    def test_a_file_that_is_not_there(self):
        ran = tool("hex2bin", "examples/sheet.hex", "no-such-file")
        self.assertEqual((ran.returncode, ran.stdout, ran.stderr), (1, b"", b"hex2bin: no-such-file: No such file or directory\n"))

    def test_help(self):
        ran = tool("hex2bin", "--help")
        self.assertEqual(ran.returncode, 0)
        self.assertIn(b"examples/sheet.hex", ran.stdout)


if __name__ == "__main__":
    unittest.main()
