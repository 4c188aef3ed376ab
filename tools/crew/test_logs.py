#!/usr/bin/env python3
"""Tests of `line --csv`: the rows of logs. Run: python3 tools/crew/test_logs.py, with the library built."""

import os
import subprocess
import tempfile
import unittest

from test_line import TOOLS, Case, run
from records import Records
from refusals import REFUSALS

LOG = """gate:int8,position:int32,open:bool,name:text
7,1234567,true,north
8,,false,"two, lines
of text"
9,null,,
"""


class Counting(Records):
    """Records that count how many lines are looked at for the ends of open quotes."""

    looked = 0

    def fed(self):
        for line in super().fed():
            self.looked += 1
            yield line


class Logs(Case):
    def csv(self, text, *words):
        data = text if isinstance(text, bytes) else text.encode()
        return run("--csv", "-", *words, given=data)

    def test_rows(self):
        self.assertEqual(self.csv(LOG, "gate %d at %,d %b %s"), (
            0, b"gate 7 at 1,234,567 true north\ngate 8 at null false two, lines\nof text\ngate 9 at null false \n", "line: 3 rows printed\n"))

    def test_file_line_ends_and_byte_order_mark(self):
        with tempfile.TemporaryDirectory() as folder:
            name = os.path.join(folder, "log.csv")
            with open(name, "wb") as file:
                file.write(b"\xef\xbb\xbfgate:int8,name:text\r\n\r\n7,\xff\r\n8,b")
            self.assertEqual(run("--csv", name, "%d"), (1, b"8\n", f"line: {name}:3: refused with 14: the row breaks its layout; cure: {REFUSALS[14][1]}\n"
                                                        "line: 1 row printed, 1 row refused with 14\n"))
            self.cannot("No such file", "--csv", name + "-", "%d")

    def both(self, text, *words):
        """What is printed of a log: the same from a file and from a pipe, but for its name."""
        with tempfile.NamedTemporaryFile() as file:
            file.write(text.encode())
            file.flush()
            status, out, said = run("--csv", file.name, *words)
            answer = status, out, said.replace(file.name, "standard input")
        self.assertTrue(self.csv(text, *words) == answer, answer[2])
        return answer

    def test_the_byte_order_mark_is_left_out(self):
        said = self.both("\ufeffgate:int8\nx\n\ufeff7\n", "%d")[2]
        self.assertTrue(said.startswith("line: standard input:2: gate: int8=x: not"), said)
        self.assertIn("line: standard input:3: gate: int8=\\u{feff}7: not", said)
        self.assertIn("line: standard input:1: text stands behind a closing quote", self.both('\ufeff"gate":int8\n', "%d")[2])

    def test_line_ends_in_text_are_kept(self):
        self.assertEqual(self.both('a:int8,b:text\r\n7,"x\r\ny\rz\nw"\r8,v\n', "%d %s")[:2], (0, b"7 x\r\ny\rz\nw\n8 v\n"))

    def test_lines_are_counted_in_every_batch(self):
        for some, lines in ("7,x\n", 1), ("\n7,x\n", 2), ('7,"x\ny"\n', 2), ('7,"\n\n\n"\n\n', 5), ("7,x\n\n\n\n", 4):
            said = self.both("a:int8,b:text\n" + (some * 199 + "y,\n") * 8, "%d")[2].splitlines()
            self.assertEqual([line.partition(": a: ")[0] for line in said[:-1]],
                             [f"line: standard input:{1 + (199 * lines + 1) * k}" for k in range(1, 9)])

    def test_spaces_belong_to_the_value(self):
        status, out, said = self.both("a:int8 , b: text\n7, x \n 8,y\n9 ,z\n", "%d|%s|")
        self.assertEqual((status, out), (2, b"7| x |\n"))
        self.assertIn("line: standard input:3: a: int8= 8: not a whole number", said)
        self.assertIn("line: standard input:4: a: int8=9 : not a whole number", said)

    def test_column(self):
        self.assertEqual(self.csv(LOG, "--column", "4", "gate %d at %,d %b"), (0, b"1,234,567\nnull\nnull\n", "line: 3 rows printed\n"))
        self.assertEqual(self.csv(LOG, "--column", "1", "%d %s"), (0, b"7\n8\n9\n", "line: 3 rows printed\n"))
        self.cannot("--column 3: the format has 2 pieces", "--csv", "-", "--column", "3", "gate %d", given=LOG.encode())

    def test_rows_that_are_not_printed_do_not_stop_the_others(self):
        status, out, said = self.csv("a:int32,b:f64\n65,1\n-1,1\nx,1\n66\n67,\n68,\"2\"3\n69,3\n", "%c")
        self.assertEqual((status, out), (2, b"A\nE\n"))
        self.assertEqual(said, """\
line: standard input:3: refused with 16: `%c` of a number that is no character, at byte 0 of the format; cure: take 0 to D7FF or E000 to 10FFFF, hexadecimal
line: standard input:4: a: int32=x: not a whole number, decimal or 0x..
line: standard input:5: 1 value for 2 columns
line: standard input:6: b: f64=: not a decimal or hexadecimal float, nan, inf, -inf or bits:0x..
line: standard input:7: text stands behind a closing quote; a quote inside text in quotes is written twice
line: 2 rows printed, 1 row refused with 16, 4 rows not understood
""")

    def test_messages_stand_where_the_rows_are_missing(self):
        command = f"printf 'a:int32\\n65\\n-1\\n66\\nx\\n67\\n' | {TOOLS}/line --csv - %c 2>&1"
        done = subprocess.run(command, shell=True, stdout=subprocess.PIPE, check=False)
        said = [line.partition(": ")[2][:16] if line.startswith("line:") else line for line in done.stdout.decode().splitlines()]
        self.assertEqual(said, ["A", "standard input:3", "B", "standard input:5", "C", "3 rows printed, "])

    def test_a_format_that_no_row_fits_is_told_once(self):
        status, out, said = self.csv(LOG, "%d %q")
        self.assertEqual((status, out), (1, b""))
        self.assertTrue(said.startswith("line: refused with 10:"), said)
        status, out, said = self.csv(LOG, "%d %3$s")
        self.assertEqual((status, out), (1, b""))
        self.assertTrue(said.startswith("line: refused with 15:"), said)

    def test_a_quote_that_is_not_closed_takes_its_line_alone(self):
        status, out, said = self.csv('a:int8,b:text\n1,x\n2,"y\n3,z\n4,"w\nw"\n5,v\n', "%d %s")
        self.assertEqual((status, out), (2, b"1 x\n3 z\n4 w\nw\n5 v\n"))
        self.assertTrue(said.startswith("line: standard input:3: a quote is not closed\n"), said)
        self.assertTrue(said.endswith("line: 4 rows printed, 1 row not understood\n"), said)
        rows = "".join(f"{k % 100},x\n" for k in range(20000))
        status, out, said = self.csv('a:int8,b:text\n2,"6 inch pipe\n' + rows + '3,"w\n', "%d")
        self.assertEqual((status, out), (2, "".join(f"{k % 100}\n" for k in range(20000)).encode()))
        self.assertIn("standard input:20003: a quote is not closed", said)

    def test_a_quote_is_closed_within_so_many_lines(self):
        most = 65536
        for lines, numbers in (most - 1, [2]), (most, [2, most + 2]):
            rows = "8,x\n" * (lines - 1)
            status, out, said = self.both(f'a:int8,b:text\n7,"x\n{rows}y"\n9,z\n', "%d")
            self.assertEqual((status, out), (2, b"9\n" if numbers == [2] else b"8\n" * (lines - 1) + b"9\n"))
            self.assertEqual([int(line.split(":")[2]) for line in said.splitlines()[:-1]], numbers)
            self.assertIn("text of 262139 bytes in all: more than 32768" if numbers == [2] else ":2: a quote is not closed\n", said)

    def test_a_long_text_is_one_row(self):
        for text in ("8,x\n" * 50000, "a" * 200000, '""' * 70000 + "\n"):
            status, out, said = self.both(f'a:int8,b:text\n7,"{text}"\n9,z\n', "%d")
            self.assertEqual((status, out), (2, b"9\n"))
            size = len(text.replace('""', '"'))
            self.assertEqual(said, f"line: standard input:2: text of {size} bytes in all: more than 32768\nline: 1 row printed, 1 row not understood\n")

    def test_many_open_quotes_take_no_longer_than_few(self):
        lines = 5000  # each of these ends in an open quote, whether one is open before it or not
        for end in "", '"x\n':
            with tempfile.NamedTemporaryFile("w") as file:
                file.write('a","\n' * lines + "c,d\n" + end)
                file.flush()
                counting = Counting(file.name)
                found = [record for _, some in iter(counting.some, None) for record in some]
                counting.file.close()
            self.assertEqual([str(record) for record in found if record != ["c", "d"]], ["a quote is not closed"] * (lines + len(end[:1])))
            self.assertEqual(found[lines], ["c", "d"])
            self.assertLess(counting.looked, 4 * lines)

    def test_text_of_many_lines(self):
        text = "".join(f"line {k}\n" for k in range(3000))
        self.assertEqual(self.csv(f'a:int8,b:text\n1,"{text}"\n2,b\nx,c\n', "%d %s"), (
            2, f"1 {text}\n2 b\n".encode(),
            "line: standard input:3004: a: int8=x: not a whole number, decimal or 0x..\nline: 2 rows printed, 1 row not understood\n"))

    def test_the_column_at_fault_is_named(self):
        self.assertIn("standard input:2: b: int32=x:", self.csv("a:int8,b:int32\n,x\n", "%d")[2])

    def test_first_line(self):
        self.cannot("standard input:1: text stands behind a closing quote", "--csv", "-", "%d", given=b'"gate":int8\n7\n')
        self.cannot("standard input:1: a quote is not closed", "--csv", "-", "%d", given=b'gate:int8,"name:text\n7\n')
        self.cannot("gate: the first line names columns as NAME:KIND", "--csv", "-", "%d", given=b"gate\n7\n")
        self.cannot("standard input:1: int7: no such kind", "--csv", "-", "%d", given=b"gate:int7\n7\n")
        self.cannot("columns are separated by commas", "--csv", "-", "%d", given=b"gate:int8;name:text\n7;a\n")
        self.assertEqual(self.csv("gate: int8, name :text\n7,a\n", "%d")[:2], (0, b"7\n"))
        self.cannot("no columns", "--csv", "-", "%d", given=b"")
        self.cannot("no columns", "--csv", "-", "%d", given=b"\n" * 3000)
        self.assertIn("standard input:3002: a: int8=x", self.csv("\n" * 3000 + "a:int8\nx\n", "%d")[2])
        self.cannot("65 values: more than 64", "--csv", "-", "%d", given=b",".join([b"a:int8"] * 65))

    def test_long_lines(self):
        rows = "".join(f"{k}\n" for k in range(5))
        status, out, said = self.csv("a:int8\n" + rows, "%3000000d")
        self.assertEqual((status, said), (0, "line: 5 rows printed\n"))
        self.assertEqual(out, b"".join(b" " * 2999999 + b"%d\n" % k for k in range(5)))
        status, out, said = self.csv("a:int8\n1\n", "%67108865d")
        self.assertEqual((status, out), (1, b""))
        self.assertIn("standard input:2: refused with 17", said)
        self.assertIn("; line lends at most 67,108,864 bytes; cure: ", said)

    def test_lines_of_middling_length(self):
        expected = b"".join(b" " * 399998 + b"%d\n" % k for k in range(10, 22))
        status, out, said = self.both("a:int8\n" + "".join(f"{k}\n" for k in range(10, 22)), "%400000d")
        self.assertEqual((status, said), (0, "line: 12 rows printed\n"))
        self.assertTrue(out == expected)  # a difference of so many bytes takes long to show

    def test_long_output_with_refused_rows(self):
        rows = [-1 if k % 700 == 5 else k for k in range(4000)]
        text = "a:int32\n" + "".join(f"{k}\n" for k in rows)
        for words, expected in ([], "{0:c}{0:1000}\n"), (["--column", "1"], "{0:c}\n"), (["--column", "2"], "{0:1000}\n"):
            status, out, said = self.csv(text, *words, "%c%1$1000d")
            self.assertEqual((status, out), (1, "".join(expected.format(k) for k in rows if k >= 0).encode()))
            self.assertEqual([line.split(":")[2] for line in said.splitlines()[:-1]], [str(k + 2) for k in range(5, 4000, 700)])
            self.assertTrue(said.endswith("line: 3,994 rows printed, 6 rows refused with 16\n"))

    def test_many_rows(self):
        rows = [(k % 100, k * 37, "true" if k % 3 else "false", f"n{k}") for k in range(30000)]
        text = "a:int8,b:int64,c:bool,d:text\n" + "".join(f"{a},{b},{c},{d}\n" for a, b, c, d in rows)
        expected = "".join(f"{a} {b:x} {c} {d:>8}\n" for a, b, c, d in rows)
        self.assertEqual(self.csv(text, "%d %x %b %8s"), (0, expected.encode(), "line: 30,000 rows printed\n"))


if __name__ == "__main__":
    unittest.main()
