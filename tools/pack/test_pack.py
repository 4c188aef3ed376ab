#!/usr/bin/env python3
"""Tests of pack.py, byte for byte. Run: python3 tools/pack/test_pack.py"""

import os
import subprocess
import sys
import tempfile
import unittest

HERE = os.path.dirname(os.path.abspath(__file__))
sys.path.insert(0, HERE)

import pack  # noqa: E402
from inputs import BadInput  # noqa: E402
from values import pack_row, parse  # noqa: E402


def row(*words):
    """The row of words given as bytes."""
    return pack_row([word.decode("utf-8", "surrogateescape") for word in words])


def number_row(kind, value):
    """The row that a value without text must be packed to."""
    return b"\x01\x00" b"\x00\x00\x00\x00" + bytes([kind]) + value


def run(*words):
    return subprocess.run([sys.executable, os.path.join(HERE, "pack.py"), *words], capture_output=True, check=False)


class Integers(unittest.TestCase):
    def test_kinds(self):
        self.assertEqual(row(b"int8=7"), number_row(1, b"\x07\0\0\0\0\0\0\0"))
        self.assertEqual(row(b"int16=7"), number_row(2, b"\x07\0\0\0\0\0\0\0"))
        self.assertEqual(row(b"int32=7"), number_row(3, b"\x07\0\0\0\0\0\0\0"))
        self.assertEqual(row(b"int64=7"), number_row(4, b"\x07\0\0\0\0\0\0\0"))

    def test_sign_extended(self):
        self.assertEqual(row(b"int8=-1"), number_row(1, b"\xff" * 8))
        self.assertEqual(row(b"int16=-2"), number_row(2, b"\xfe" + b"\xff" * 7))

    def test_limits(self):
        self.assertEqual(row(b"int8=-128"), number_row(1, b"\x80" + b"\xff" * 7))
        self.assertEqual(row(b"int8=127"), number_row(1, b"\x7f\0\0\0\0\0\0\0"))
        self.assertEqual(row(b"int16=-32768"), number_row(2, b"\x00\x80" + b"\xff" * 6))
        self.assertEqual(row(b"int16=32767"), number_row(2, b"\xff\x7f\0\0\0\0\0\0"))
        self.assertEqual(row(b"int32=-2147483648"), number_row(3, b"\0\0\0\x80" + b"\xff" * 4))
        self.assertEqual(row(b"int32=2147483647"), number_row(3, b"\xff\xff\xff\x7f\0\0\0\0"))
        self.assertEqual(row(b"int64=-9223372036854775808"), number_row(4, b"\0\0\0\0\0\0\0\x80"))
        self.assertEqual(row(b"int64=9223372036854775807"), number_row(4, b"\xff" * 7 + b"\x7f"))

    def test_hexadecimal(self):
        self.assertEqual(row(b"int32=0x10FFFF"), number_row(3, b"\xff\xff\x10\0\0\0\0\0"))
        self.assertEqual(row(b"int8=-0x80"), number_row(1, b"\x80" + b"\xff" * 7))
        self.assertEqual(row(b"int16=+0x1"), number_row(2, b"\x01\0\0\0\0\0\0\0"))

    def test_leading_zeros(self):
        self.assertEqual(row(b"int8=007"), number_row(1, b"\x07\0\0\0\0\0\0\0"))
        self.assertEqual(row(b"int8=" + b"0" * 5000), number_row(1, bytes(8)))

    def test_out_of_range(self):
        for word in (b"int8=128", b"int8=-129", b"int8=0xff", b"int16=32768", b"int16=-32769", b"int32=2147483648", b"int32=-2147483649",
                     b"int64=9223372036854775808", b"int64=-9223372036854775809", b"int64=" + b"9" * 5000,
                     b"int64=10000000000000000000", b"int64=10000000000000000000000", b"int64=-" + b"1" + b"0" * 5000):
            with self.assertRaisesRegex(BadInput, "out of range"):
                row(word)

    def test_no_number(self):
        for word in (b"int8=", b"int8=x", b"int8=1.0", b"int8= 1", b"int8=1_0", b"int8=0x", b"int8=--1", b"int8=NULL", b"int8=\xff"):
            with self.assertRaisesRegex(BadInput, "not a whole number"):
                row(word)


class Nulls(unittest.TestCase):
    def test_kinds(self):
        self.assertEqual(row(b"int8=null"), number_row(129, bytes(8)))
        self.assertEqual(row(b"int16=null"), number_row(130, bytes(8)))
        self.assertEqual(row(b"int32=null"), number_row(131, bytes(8)))
        self.assertEqual(row(b"int64=null"), number_row(132, bytes(8)))
        self.assertEqual(row(b"bool=null"), number_row(134, bytes(8)))

    def test_no_null_float(self):
        with self.assertRaisesRegex(BadInput, "only integers and Booleans can be null"):
            row(b"f64=null")

    def test_text_null_is_text(self):
        self.assertEqual(row(b"text=null"), b"\x01\0\x04\0\0\0\x07\0\0\0\0\x04\0\0\0null")


class Floats(unittest.TestCase):
    def test_decimal(self):
        self.assertEqual(row(b"f64=1.0"), number_row(5, b"\0\0\0\0\0\0\xf0\x3f"))
        self.assertEqual(row(b"f64=1"), number_row(5, b"\0\0\0\0\0\0\xf0\x3f"))
        self.assertEqual(row(b"f64=-2.5e0"), number_row(5, b"\0\0\0\0\0\0\x04\xc0"))
        self.assertEqual(row(b"f64=.5"), number_row(5, b"\0\0\0\0\0\0\xe0\x3f"))
        self.assertEqual(row(b"f64=0.1"), number_row(5, b"\x9a\x99\x99\x99\x99\x99\xb9\x3f"))

    def test_zeros(self):
        self.assertEqual(row(b"f64=0.0"), number_row(5, bytes(8)))
        self.assertEqual(row(b"f64=-0.0"), number_row(5, bytes(7) + b"\x80"))

    def test_hexadecimal(self):
        self.assertEqual(row(b"f64=0x1.8p3"), number_row(5, b"\0\0\0\0\0\0\x28\x40"))
        self.assertEqual(row(b"f64=-0x1p-1074"), number_row(5, b"\x01\0\0\0\0\0\0\x80"))
        self.assertEqual(row(b"f64=0x1.fffffffffffffp1023"), number_row(5, b"\xff" * 6 + b"\xef\x7f"))

    def test_words(self):
        self.assertEqual(row(b"f64=nan"), number_row(5, bytes(6) + b"\xf8\x7f"))
        self.assertEqual(row(b"f64=inf"), number_row(5, bytes(6) + b"\xf0\x7f"))
        self.assertEqual(row(b"f64=-inf"), number_row(5, bytes(6) + b"\xf0\xff"))

    def test_bits(self):
        self.assertEqual(row(b"f64=bits:0x1"), number_row(5, b"\x01\0\0\0\0\0\0\0"))
        self.assertEqual(row(b"f64=bits:0xFFF8000000000001"), number_row(5, b"\x01" + bytes(5) + b"\xf8\xff"))

    def test_out_of_range(self):
        for word in (b"f64=1e309", b"f64=-1e309", b"f64=0x1p1024", b"f64=bits:0x10000000000000000"):
            with self.assertRaisesRegex(BadInput, "out of range"):
                row(word)

    def test_no_float(self):
        for word in (b"f64=", b"f64=x", b"f64=.", b"f64=1_0", b"f64=infinity", b"f64=bits:1", b"f64=0x", b"f64=1p3", b"f64= 1"):
            with self.assertRaisesRegex(BadInput, "not a decimal"):
                row(word)


class Booleans(unittest.TestCase):
    def test_values(self):
        self.assertEqual(row(b"bool=true"), number_row(6, b"\x01\0\0\0\0\0\0\0"))
        self.assertEqual(row(b"bool=false"), number_row(6, bytes(8)))

    def test_no_boolean(self):
        for word in (b"bool=", b"bool=1", b"bool=True"):
            with self.assertRaisesRegex(BadInput, "not true, false or null"):
                row(word)


def time_row(value):
    return number_row(8, value.to_bytes(8, "little", signed=True))


SECOND = 10**9


class Times(unittest.TestCase):
    def test_moments(self):
        for word, seconds, rest in ((b"1970-01-01T00:00:00Z", 0, 0), (b"2026-11-15T12:30:00.25Z", 1794745800, 250_000_000),
                                    (b"2026-11-15T12:30Z", 1794745800, 0), (b"2026-11-15 07:05:09.025Z", 1794726309, 25_000_000),
                                    (b"2000-02-29T00:00Z", 951782400, 0), (b"1900-03-01T00:00:00Z", -2203891200, 0),
                                    (b"1700-02-28T23:59:59Z", -8515238401, 0), (b"2200-03-01T00:00:00.000000001Z", 7263216000, 1)):
            self.assertEqual(row(b"time=" + word), time_row(seconds * SECOND + rest))

    def test_every_digit_of_a_second_counts(self):
        for digits in range(1, 10):
            fraction = "987654321"[:digits]
            self.assertEqual(row(f"time=1970-01-01T00:00:00.{fraction}Z".encode()), time_row(int(fraction) * 10 ** (9 - digits)))
        self.assertEqual(row(b"time=1969-12-31T23:59:59.999999999Z"), time_row(-1))
        self.assertEqual(row(b"time=9007199254740993"), time_row((1 << 53) + 1))

    def test_numbers(self):
        for word, value in ((b"0", 0), (b"-1", -1), (b"+007", 7), (b"1794745800250000000", 1794745800250000000), (b"0x10", 16),
                            (b"-0X8000000000000000", -1 << 63), (b"9223372036854775807", (1 << 63) - 1), (b"-9223372036854775808", -1 << 63)):
            self.assertEqual(row(b"time=" + word), time_row(value))

    def test_limits(self):
        self.assertEqual(row(b"time=1677-09-21T00:12:43.145224192Z"), time_row(-1 << 63))
        self.assertEqual(row(b"time=2262-04-11T23:47:16.854775807Z"), time_row((1 << 63) - 1))
        for word in (b"1677-09-21T00:12:43.145224191Z", b"2262-04-11T23:47:16.854775808Z", b"0001-01-01T00:00Z", b"9999-12-31T23:59:59Z"):
            with self.assertRaisesRegex(BadInput, "out of range, which is 1677-09-21T00:12:43.145224192Z to 2262-04-11T23:47:16.854775807Z"):
                row(b"time=" + word)
        for word in (b"9223372036854775808", b"-9223372036854775809", b"0x8000000000000000", b"9" * 5000):
            with self.assertRaisesRegex(BadInput, "out of range, which is -9223372036854775808 to 9223372036854775807"):
                row(b"time=" + word)

    def test_every_day(self):
        days = -106650  # 292 years of 365 days, and 70 leap days, up to 1970
        for year in range(1678, 2262):
            leap = year % 4 == 0 and year % 100 != 0 or year % 400 == 0
            for month, length in enumerate((31, 29 if leap else 28, 31, 30, 31, 30, 31, 31, 30, 31, 30, 31), 1):
                words = [f"{year}-{month:02}-{day:02}T00:00:00Z" for day in range(1, length + 1)]
                self.assertEqual(parse("time", words), [(days + day) * 86400 * SECOND for day in range(length)])
                days += length
                with self.assertRaisesRegex(BadInput, "no such date"):
                    row(f"time={year}-{month:02}-{length + 1}T00:00Z".encode())

    def test_columns(self):
        words = ["2026-11-15T12:30:00Z", "-5", "2026-11-15T12:30Z", "0x1f", "2026-11-15 12:30:00.5Z"]
        self.assertEqual(parse("time", words), [1794745800 * SECOND, -5, 1794745800 * SECOND, 31, 1794745800 * SECOND + SECOND // 2])
        self.assertEqual(parse("time", words[::2]), [1794745800 * SECOND, 1794745800 * SECOND, 1794745800 * SECOND + SECOND // 2])
        with self.assertRaisesRegex(BadInput, "^time=2262-04-12T00:00:00Z: out of range"):
            parse("time", ["2026-11-15T12:30:00Z", "2262-04-12T00:00:00Z"])

    def test_no_moment(self):
        for why, words in (
                ("no such date", (b"2026-02-30T00:00Z", b"2026-13-01T00:00Z", b"2026-00-01T00:00Z", b"2100-02-29T00:00:00Z", b"0000-01-01T00:00Z")),
                ("hours are 00 to 23, minutes 00 to 59", (b"2026-11-15T24:00Z", b"2026-11-15T24:00:00Z", b"2026-11-15T12:60:00.5Z")),
                ("seconds are 00 to 59", (b"2026-11-15T23:59:60Z", b"2026-11-15T23:59:99.5Z")),
                ("more than nine digits", (b"2026-11-15T12:30:00.1234567890Z", b"2026-11-15T12:30:00." + b"0" * 5000 + b"Z")),
                ("Z is missing", (b"2026-11-15T12:30", b"2026-11-15T12:30:00", b"2026-11-15 12:30:00.25")),
                ("an offset is not taken", (b"2026-11-15T12:30:00+01:00", b"2026-11-15T12:30-0100", b"2026-11-15T12:30:00.5+00")),
                ("the time of day is missing; for midnight write T00:00Z", (b"2026-11-15", b"2026-11-15Z")),
                ("only integers and Booleans can be null", (b"null",)),
                ("not a date and time such as 2026-11-15T12:30:00.25Z", (
                    b"", b"now", b"Z", b"1e9", b"1.0", b" 0", b"0x", b"2026-11-15t12:30:00z", b"20261115T123000Z", b"2026-11-15T12Z",
                    b"2026-11-15T12:30:00.Z", b"2026-11-15T12:30.5Z", b"2026-11-15T12:30:00,5Z", b"2026-11-15  12:30Z", b"2026-11-15T12:30Z\n",
                    b"2026-11-15T12:30:00Z\n", b"12026-11-15T12:30:00Z", b"-026-11-15T12:30:00Z", b"2026-1-15T12:30:00Z", b"2026-11-15T12:30:00ZZ",
                    "\u0662026-11-15T12:30:00Z".encode(), b"\xff026-11-15T12:30:00Z"))):
            for word in words:
                with self.assertRaisesRegex(BadInput, why):
                    row(b"time=" + word)


class Texts(unittest.TestCase):
    def test_empty(self):
        self.assertEqual(row(b"text="), b"\x01\0\0\0\0\0\x07" + bytes(8))

    def test_equals_signs(self):
        self.assertEqual(row(b"text=a=b="), b"\x01\0\x04\0\0\0\x07\0\0\0\0\x04\0\0\0a=b=")

    def test_two_parts(self):
        self.assertEqual(
            row(b"text=north", "text=é".encode()),
            b"\x02\0" b"\x07\0\0\0" b"\x07\x07" b"\0\0\0\0\x05\0\0\0" b"\x05\0\0\0\x02\0\0\0" b"north\xc3\xa9")

    def test_ill_formed_is_packed(self):
        self.assertEqual(row(b"text=\xff"), b"\x01\0\x01\0\0\0\x07\0\0\0\0\x01\0\0\0\xff")

    def test_most(self):
        self.assertEqual(row(b"text=" + b"a" * 32768), b"\x01\0\0\x80\0\0\x07\0\0\0\0\0\x80\0\0" + b"a" * 32768)

    def test_too_much(self):
        with self.assertRaisesRegex(BadInput, "text of 32769 bytes in all: more than 32768"):
            row(b"text=" + b"a" * 32769)
        with self.assertRaisesRegex(BadInput, "text of 32769 bytes in all: more than 32768"):
            row(b"text=" + b"a" * 32768, b"text=b")


class Rows(unittest.TestCase):
    def test_empty(self):
        self.assertEqual(row(), bytes(6))

    def test_arrays_are_parallel(self):
        self.assertEqual(
            row(b"int8=1", b"text=xy", b"bool=null"),
            b"\x03\0" b"\x02\0\0\0" b"\x01\x07\x86" b"\x01\0\0\0\0\0\0\0" b"\0\0\0\0\x02\0\0\0" b"\0\0\0\0\0\0\0\0" b"xy")

    def test_most_values(self):
        self.assertEqual(row(*[b"int8=1"] * 64), b"\x40\0" b"\0\0\0\0" + b"\x01" * 64 + b"\x01\0\0\0\0\0\0\0" * 64)

    def test_too_many_values(self):
        with self.assertRaisesRegex(BadInput, "65 values: more than 64"):
            row(*[b"int8=1"] * 65)

    def test_unknown_kind(self):
        for word in (b"int7=1", b"=1", b"INT8=1", b"\xff=1"):
            with self.assertRaisesRegex(BadInput, "no such kind"):
                row(word)

    def test_no_kind(self):
        with self.assertRaisesRegex(BadInput, "a value is written KIND=VALUE"):
            row(b"7")


class Formats(unittest.TestCase):
    def test_example(self):
        self.assertEqual(pack.pack(b"A%03d%%", ["int8=7"]), b"\x07\0A%03d%%" b"\x01\0\0\0\0\0\x01\x07\0\0\0\0\0\0\0")

    def test_empty(self):
        self.assertEqual(pack.pack(b"", []), bytes(8))

    def test_length_little_endian(self):
        self.assertEqual(pack.pack(b"a" * 258, []), b"\x02\x01" + b"a" * 258 + bytes(6))

    def test_what_sheet_refuses_is_packed(self):
        self.assertEqual(pack.pack(b"a" * 4097, []), b"\x01\x10" + b"a" * 4097 + bytes(6))
        self.assertEqual(pack.pack(b"\xff", []), b"\x01\0\xff" + bytes(6))
        self.assertEqual(pack.pack(b"a" * 65535, []), b"\xff\xff" + b"a" * 65535 + bytes(6))

    def test_too_long(self):
        with self.assertRaisesRegex(BadInput, "format of 65536 bytes: more than 65535"):
            pack.pack(b"a" * 65536, [])


class CommandLine(unittest.TestCase):
    def refused(self, message, *words):
        done = run(*words)
        self.assertEqual((done.returncode, done.stdout), (2, b""))
        self.assertIn(message, done.stderr)
        self.assertTrue(done.stderr.startswith(b"pack.py: "))

    def test_words(self):
        done = run(b"%s", b"text=\xc3\xa9")
        self.assertEqual((done.returncode, done.stderr), (0, b""))
        self.assertEqual(done.stdout, b"\x02\0%s" b"\x01\0\x02\0\0\0\x07\0\0\0\0\x02\0\0\0\xc3\xa9")

    def test_ill_formed_words(self):
        done = run(b"\xff%s", b"text=\xfe")
        self.assertEqual(done.stdout, b"\x03\0\xff%s" b"\x01\0\x01\0\0\0\x07\0\0\0\0\x01\0\0\0\xfe")

    def test_format_that_begins_with_hyphens(self):
        self.assertEqual(run("-%d").stdout, b"\x03\0-%d" + bytes(6))
        self.assertEqual(run("--", "--help").stdout, b"\x06\0--help" + bytes(6))

    def test_format_file(self):
        with tempfile.TemporaryDirectory() as folder:
            name = os.path.join(folder, "format")
            with open(name, "wb") as file:
                file.write(b"\0%d\n")
            self.assertEqual(run("--format-file", name, "int8=7").stdout, b"\x04\0\0%d\n" b"\x01\0\0\0\0\0\x01\x07\0\0\0\0\0\0\0")
            self.refused(b"No such file", "--format-file", name + "-")
        self.refused(b"the file's name is missing", "--format-file")

    def test_help(self):
        done = run("--help")
        self.assertEqual((done.returncode, done.stderr, done.stdout), (0, b"", pack.HELP.encode()))
        self.assertIn(b"Examples:", done.stdout)

    def test_refusals(self):
        self.refused(b"the format is missing")
        self.refused(b"no such option", "--formatfile", "x")
        self.refused(b"int7: no such kind", "%d", "int7=1")
        self.refused(b"int8=300: out of range, which is -128 to 127", "%d", "int8=300")
        self.refused(b"f64=null: only integers and Booleans can be null", "%a", "f64=null")
        self.refused(b"time=2026-11-15T12:30: Z is missing at the end; times are in UTC", "%tH", "time=2026-11-15T12:30")
        self.refused(b"65 values: more than 64", "%d", *["int8=1"] * 65)
        self.refused(b"text of 32769 bytes in all", "%s", "text=" + "a" * 32769)
        self.refused(b"format of 65536 bytes", "a" * 65536)
        self.refused(b"no such kind", b"%d", b"\xff=1")


if __name__ == "__main__":
    unittest.main()
