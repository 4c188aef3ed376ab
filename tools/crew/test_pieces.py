#!/usr/bin/env python3
"""Tests of `line --pieces` and of reading columns back. Run: python3 tools/crew/test_pieces.py, with the library built."""

import random
import unittest

from test_line import Case, run
import pieces
from library import Library
from readback import read_back
from values import pack_row


class Pieces(Case):
    def test_table(self):
        status, out, said = run("--pieces", "%-4d|%#x%n%%é%.1a %2$d %<o", "int16=-5", "int8=-1", "f64=-1.96875")
        self.assertEqual((status, said), (0, ""))
        self.assertEqual(out.decode(), """\
piece  format  from  to  text        reads back as  value
1      `%-4d`  0     4   `-5  `      -5             int16 -5      same
2      `|`     4     5   `|`
3      `%#x`   5     9   `0xff`      255            int8 -1       same bits: 255 - 2^8
4      `%n`    9     10  `\\n`
5      `%%`    10    11  `%`
6      `é`     11    13  `é`
7      `%.1a`  13    21  `-0x1.0p1`  -2             f64 -1.96875  rounded
8      ` `     21    22  ` `
9      `%2$d`  22    24  `-1`        -1             int8 -1       same
10     ` `     24    25  ` `
11     `%<o`   25    28  `377`       255            int8 -1       same bits: 255 - 2^8
""")

    def test_what_is_not_read_back(self):
        status, out, said = run("--pieces", "%d|%s|%c|%a", "int8=null", "int8=5", "int8=65", "f64=nan")
        self.assertEqual((status, said), (0, ""))
        self.assertEqual([line.split()[5:] for line in out.decode().splitlines()[1:]], [[]] * 7)

    def test_long_texts_are_shortened(self):
        status, out, said = run("--pieces", "%40d" + "é" * 50, "int8=7")
        self.assertEqual((status, said), (0, ""))
        self.assertIn("`" + " " * 14 + "..." + " " * 13 + "7`", out.decode())
        self.assertIn("`" + "é" * 14 + "..." + "é" * 14 + "`  40    140", out.decode())

    def test_values_are_those_that_the_pieces_take(self):
        library = Library()
        form = b"%2$d %d %<x %d %3$c %s"
        row = pack_row(["int8=-7", "int8=3", "int32=65"])
        texts = pieces.cut(*library.print(form, row))
        taken = [value and value.offset for value in pieces.value_of_each(library, form, row, texts)]
        first = 6 + 3
        self.assertEqual(taken, [first + 8, None, first, None, first, None, first + 8, None, first + 16, None, first + 16])

    def test_pieces_of_the_format_cover_it(self):
        library = Library()
        form = "é%d%%%n%5$-5.3sxyz%<S% d".encode()
        kinds = bytes([1, 1, 1, 1, 7])
        ends = pieces.places_in_format(library, form, kinds)
        self.assertEqual(pieces.cut(form, ends), ["é".encode(), b"%d", b"%%", b"%n", b"%5$-5.3s", b"xyz", b"%<S", b"% d"])

    def test_agreement_is_judged(self):
        def said(part, text, word):
            return pieces.compared(part, text, pieces.numbers_of(pack_row([word]))[0])[2]
        self.assertEqual(said(b"%d", b"8", "int8=7"), "DIFFERENT")
        self.assertEqual(said(b"%d", b"7x", "int8=7"), "DIFFERENT")
        self.assertEqual(said(b"%x", b"fe", "int8=-1"), "DIFFERENT")
        self.assertEqual(said(b"%a", b"0x1.0p7", "f64=1.5"), "DIFFERENT")
        self.assertEqual(said(b"%a", b"0x1.8p0", "f64=1.5"), "same")
        self.assertEqual(said(b"%a", b"0x1.9p0", "f64=0x1.91p0"), "DIFFERENT")
        self.assertEqual(said(b"%.1a", b"0x1.9p0", "f64=0x1.91p0"), "rounded")
        self.assertEqual(said(b"%.1a", b"0x1.ap0", "f64=0x1.91p0"), "DIFFERENT")
        self.assertEqual(said(b"%.1a", b"0x1.8p0", "f64=0x1.88p0"), "rounded")
        self.assertEqual(said(b"%.1a", b"0x1.9p0", "f64=0x1.88p0"), "DIFFERENT")
        self.assertEqual(said(b"%.13a", b"0x1.8000000000000p0", "f64=-1.5"), "DIFFERENT")
        self.assertEqual(said(b"%.13a", b"0x1.9p0", "f64=0x1.91p0"), "DIFFERENT")
        self.assertEqual(said(b"%.13a", b"0x1.9100000000000p0", "f64=0x1.91p0"), "same")

    def test_the_nearest_is_judged(self):
        for word, part, text, others in (
                ("1.94", b"%.1a", b"0x1.fp0", [b"0x1.0p1", b"0x1.ep0", b"-0x1.fp0"]),  # below a power of two the step is half of that above
                ("1.97", b"%.1a", b"0x1.0p1", [b"0x1.fp0", b"0x1.1p1"]),
                ("1.96875", b"%.1a", b"0x1.0p1", [b"0x1.fp0"]), ("2.0625", b"%.1a", b"0x1.0p1", [b"0x1.1p1"]),
                ("-0x1.98p0", b"%.1a", b"-0x1.ap0", [b"-0x1.9p0", b"0x1.ap0"]), ("0x1.98p0", b"%.0a", b"0x1.ap0", [b"0x1.9p0", b"0x2.p0"]),
                ("0x1.90001p0", b"%.3a", b"0x1.900p0", [b"0x1.9p0", b"0x1.90p0", b"0x1.9000p0"]),  # as many digits as the precision says
                ("0x1p-1074", b"%.2a", b"0x1.00p-1074", [b"0x0.00p0", b"0x1.01p-1074"]),
                ("0x1.0000000000001p-1000", b"%.12A", b"0X1.000000000000P-1000", [b"0X1.000000000001P-1000"]),
                ("0x1.fffffffffffffp1023", b"%.12a", b"0x1.000000000000p1024", [b"0x1.ffffffffffffp1023"])):
            value = pieces.numbers_of(pack_row([f"f64={word}"]))[0]
            self.assertIn(pieces.compared(part, text, value)[2], ("rounded", "same"), (word, text))
            for other in others:
                self.assertEqual(pieces.compared(part, other, value)[2], "DIFFERENT", (word, other))
        zero = pieces.numbers_of(pack_row(["f64=0"]))[0]
        self.assertEqual([pieces.compared(b"%.1a", text, zero)[2] for text in (b"0x0.0p0", b"0x1.0p-1074", b"-0x0.0p0")], ["same", "DIFFERENT", "DIFFERENT"])

    def test_many_digits(self):
        for form, word in (("%05000d", "int8=-7"), ("%.5000a", "f64=3.5"), ("%05000a", "f64=3.5"), ("%05000x", "int8=7")):
            status, out, said = run("--pieces", form, word)
            self.assertEqual((status, said, out.decode().split()[-1]), (0, "", "same"))

    def test_longest_line(self):
        words = ["%67108862d%d", "int8=7", "int8=-9"]
        self.assertEqual(run("--measure", *words)[1], b"67,108,864 bytes, 2 pieces\n")
        self.assertEqual(run("--pieces", *words)[0], 0)

    def test_random_numbers_agree(self):
        library = Library()
        rng = random.Random(1)
        for _ in range(300):
            bits = rng.choice([8, 16, 32, 64])
            words = [f"int{bits}={rng.randrange(-1 << bits - 1, 1 << bits - 1)}", f"f64=bits:{rng.getrandbits(64) & ~(1 << 62):#x}"]
            flags = rng.choice(["", "0", "-", "+", "(", ",", "#", " "])
            form = f"%1${flags}25d%1${flags}30x%1$#o%1$X %2${flags}30a%2$.{rng.randrange(15)}A".encode()
            row = pack_row(words)
            agreement = [line.split("  ")[-1].strip().split(":")[0] for line in pieces.table_of_pieces(library, form, row)[1:]]
            agreement.pop(4)
            self.assertIn(agreement[0], ["same"], form)
            self.assertTrue(set(agreement[1:4]) <= {"same", "same bits"}, (form, words))
            self.assertEqual(agreement[4], "same", (form, words))
            self.assertIn(agreement[5], ["same", "rounded"], (form, words))


class ReadBack(unittest.TestCase):
    def test_rule(self):
        for letter, piece, read in (("d", b" (1,234   )", "-1234"), ("d", b"+007 ", "7"), ("X", b"0X00FF", "255"), ("o", b" 017", "15"),
                                    ("a", b"-0x1.8p-3", "-0.1875"), ("A", b"0X0001.08P10", "1056"), ("a", b" -0x0.0p0", "-0"),
                                    ("a", b"0x1.0p1024", "2^1024")):
            self.assertEqual(str(read_back(letter, piece)), read)
        for letter, piece in (("d", b"(7"), ("d", b""), ("o", b"18"), ("a", b"0x1.p3"), ("s", b"7"), ("d", b"null")):
            self.assertIsNone(read_back(letter, piece))


if __name__ == "__main__":
    unittest.main()
