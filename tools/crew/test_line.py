#!/usr/bin/env python3
"""Tests of the command `line` on one line: every option, every refusal, what it cannot take. Run: python3 tools/crew/test_line.py, with the library built."""

import os
import re
import subprocess
import sys
import tempfile
import unittest

HERE = os.path.dirname(os.path.abspath(__file__))
TOOLS = os.path.dirname(HERE)
ROOT = os.path.dirname(TOOLS)
sys.path[:0] = [HERE, os.path.join(TOOLS, "pack")]

import shown  # noqa: E402
from refusals import REFUSALS, WITHOUT_PLACE  # noqa: E402


def run(*words, given=b""):
    done = subprocess.run([os.path.join(TOOLS, "line"), *words], input=given, capture_output=True, check=False)
    return done.returncode, done.stdout, done.stderr.decode()


class Case(unittest.TestCase):
    def prints(self, expected, *words):
        self.assertEqual(run(*words), (0, expected, ""))

    def cannot(self, message, *words, given=b""):
        status, out, said = run(*words, given=given)
        self.assertEqual((status, out), (2, b""))
        self.assertTrue(said.startswith("line: "), said)
        self.assertIn(message, said)


class OneLine(Case):
    def test_line(self):
        self.prints(b"gate 7 at 1,234,567 mm\n", "gate %d at %,d mm", "int8=7", "int32=1234567")
        self.prints(b"\n", "")
        self.prints("é|    ñ\n".encode(), "é|%6s", "text=ñ")

    def test_column(self):
        words = ["gate %d at %,d mm", "int8=7", "int32=1234567"]
        self.prints(b"gate \n", "--column", "1", *words)
        self.prints(b"1,234,567\n", *words, "--column=4")
        self.cannot("--column 6: the format has 5 pieces", "--column", "6", *words)
        for word in ("0", "x", "-1", "", "9" * 40, "\u0661"):
            self.cannot("not a piece's number", "--column", word, *words)

    def test_measure(self):
        self.prints(b"22 bytes, 5 pieces\n", "--measure", "gate %d at %,d mm", "int8=7", "int32=1234567")
        self.prints(b"4,294,967,295 bytes, 3 pieces\n", "--measure", "%2147483647d%2147483647d%d", "int8=1", "int8=2", "int8=3")
        self.prints(b"0 bytes, 0 pieces\n", "--measure", "")

    def test_check(self):
        self.prints(b"accepted: 5 pieces, largest argument 2\n", "--check", "int8,int32", "gate %d at %,d mm")
        self.prints(b"accepted: 1 piece, largest argument 0\n", "--check", "", "gate")
        self.prints(b"accepted: 1 piece, largest argument 8\n", "--check=int8,int16,int32,int64,f64,bool,text,time", "%8$s")

    def test_format_file(self):
        with tempfile.TemporaryDirectory() as folder:
            name = os.path.join(folder, "format")
            with open(name, "wb") as file:
                file.write(b"--\0%d\n")
            self.prints(b"--\x007\n\n", "--format-file", name, "int8=7")
            self.cannot("No such file", "--format-file", name + "-")

    def test_format_that_begins_with_hyphens(self):
        self.prints(b"--7\n", "--", "--%d", "int8=7")
        self.prints(b"-7\n", "-%d", "int8=7")

    def test_help(self):
        self.assertEqual(run("-h"), run("--help"))
        status, out, said = run("--help")
        self.assertEqual((status, said), (0, ""))
        self.assertIn(b"Examples:", out)


class BadInputs(Case):
    def test_words(self):
        self.cannot("the format is missing")
        self.cannot("the format is missing; --csv takes a file, - for standard input", "--csv", "%d")
        self.cannot("no such option", "--piece", "%d")
        self.cannot("a word must follow", "%d", "--check")
        self.cannot("int7: no such kind", "%d", "int7=1")
        self.cannot("int7: no such kind", "--check", "int8,int7", "%d")
        for word in ("int8,", ",int8", "int8,,text", ","):
            self.cannot(f"--check {word}: a kind is missing beside a comma", "--check", word, "%d")
        self.cannot("line: an empty name: no such kind; there are int8", "%d", "=1")
        self.cannot("int8=300: out of range, which is -128 to 127", "%d", "int8=300")
        self.cannot("a value is written KIND=VALUE", "%d", "7")
        self.cannot("65 values: more than 64", "%d", *["int8=1"] * 65)

    def test_messages_are_shown_as_they_are(self):
        self.cannot("int8=\\x1b[2J\\x0a\\xff: not a whole number", "%d", b"int8=\x1b[2J\n\xff")
        self.cannot("..." + "9" * 64 + ": out of range, which is -128 to 127", "%d", "int8=" + "9" * 5000)

    def test_options_given_twice(self):
        for words in (["--column=1", "--column=2"], ["--pieces", "--pieces"], ["--check", "int8", "--check=int8"], ["-h", "--help"], ["--csv=-", "--csv=-"]):
            self.cannot(f"{words[-1].partition('=')[0]}: given twice", *words, "%d")
        self.prints(b"9 bytes, 1 piece\n", "--measure", "--", "--measure")

    def test_options_that_do_not_go_together(self):
        self.cannot("--pieces and --measure do not go together", "--pieces", "--measure", "%d", "int8=1")
        self.cannot("--column and --pieces do not go together", "--column", "1", "--pieces", "%d", "int8=1")
        self.cannot("int8=1: --check takes no values", "--check", "int8", "%d", "int8=1")
        self.cannot("int8=1: --csv takes no values", "--csv", "-", "%d", "int8=1")


# number, place, words
REFUSED = [
    (1, 0, ["a" * 4097]),
    (2, 0, [b"\xff"]),
    (3, 0, ["--check", ",".join(["int8"] * 65), ""]),
    (4, 1, ["a%<d", "int8=1"]),
    (5, 0, ["%$d", "int8=1"]),
    (6, 3, ["é %2147483648d", "int8=1"]),
    (7, 0, ["%2$d", "int8=1"]),
    (8, 0, ["%-05d", "int8=1"]),
    (9, 0, ["%+ d", "int8=1"]),
    (10, 5, ["gate %q at %,d mm", "int8=1"]),
    (11, 0, ["%tq", "int8=1"]),
    (12, 0, ["%d", "text=a"]),
    (13, 1024, ["%%" * 513]),
    (14, 0, ["%s", b"text=\xff"]),
    (15, 0, ["%f", "f64=1"]),
    (16, 0, ["%c", "int32=-1"]),
    (17, 0, ["%2147483647d", "int8=1"]),
    (18, 4, ["at, %tH", "time=-1"]),
]


class Refusals(Case):
    def test_every_number(self):
        self.assertEqual([number for number, _, _ in REFUSED], list(REFUSALS))
        for number, place, words in REFUSED:
            status, out, said = run(*words)
            cause, cure = REFUSALS[number]
            self.assertEqual((status, out), (1, b""), words)
            lines = said.split("\n")
            self.assertEqual(lines[0], f"line: refused with {number}: {cause}")
            self.assertEqual(lines[-2:], [f"  cure: {cure}", ""])
            if number in WITHOUT_PLACE:
                self.assertEqual(len(lines), 4 if number == 17 else 3)
            else:
                self.assertTrue(lines[2].endswith(f"^ byte {place}"), said)
                self.assertEqual(lines[1][lines[2].index("^")], "%")

    def test_mark_counts_columns(self):
        self.assertEqual(shown.mark("é%q".encode(), 2), ["é%q", " ^ byte 2"])
        self.assertEqual(shown.mark("門%q".encode(), 3), ["門%q", "  ^ byte 3"])
        self.assertEqual(shown.mark("e\u0301%q".encode(), 3), ["e\u0301%q", " ^ byte 3"])
        self.assertEqual(shown.mark(b"a\n%q", 2), ["a\\n%q", "   ^ byte 2"])
        self.assertEqual(shown.mark("\u202e%q".encode(), 3), ["\\u{202e}%q", "        ^ byte 3"])
        long = shown.mark(b"a" * 100 + b"%q" + b"b" * 100, 100)
        self.assertEqual(long, ["..." + "a" * 47 + "%q" + "b" * 20 + "...", " " * 50 + "^ byte 100"])

    def test_manual_and_header_have_the_same_refusals(self):
        with open(os.path.join(ROOT, "docs", "MANUAL.md"), encoding="utf-8") as file:
            table = file.read().partition("\n## Refusals\n")[2].partition("\n## ")[0]
        rows = re.findall(r"^\| ([0-9]+) \| (.*?) \| (.*?) \| .*\|$", table, re.M)
        self.assertEqual({int(number): (cause, cure) for number, cause, cure in rows}, REFUSALS)
        with open(os.path.join(ROOT, "panel", "panel.h"), encoding="utf-8") as file:
            # Of c, m or p: the list's own numbers, which only j and l return, are none of the command's.
            numbers = re.findall(r"^ \*   ([0-9]+) +\S.* (0|`%`|piece) +[cmp ]*[cmp][ j]*$", file.read(), re.M)
        self.assertEqual({int(number) for number, _ in numbers}, set(REFUSALS))
        self.assertEqual({int(number) for number, place in numbers if place == "0"}, WITHOUT_PLACE)


if __name__ == "__main__":
    unittest.main()
