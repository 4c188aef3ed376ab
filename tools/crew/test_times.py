#!/usr/bin/env python3
"""Tests of the command `line` with times. Run: python3 tools/crew/test_times.py, with the library built."""

import datetime
import os
import random
import re
import unittest

from test_line import ROOT, Case, run
from library import Library
from refusals import REFUSALS
from values import pack_row

MOMENT = "time=2026-11-15T07:05:09.025Z"
COMPONENTS = {
    "H": "07", "I": "07", "k": "7", "l": "7", "M": "05", "S": "09", "L": "025", "N": "025000000", "p": "am", "z": "+0000", "Z": "UTC",
    "s": "1794726309", "Q": "1794726309025", "B": "November", "b": "Nov", "h": "Nov", "A": "Sunday", "a": "Sun", "C": "20", "Y": "2026", "y": "26",
    "j": "319", "m": "11", "d": "15", "e": "15", "R": "07:05", "T": "07:05:09", "r": "07:05:09 AM", "D": "11/15/26", "F": "2026-11-15",
    "c": "Sun Nov 15 07:05:09 UTC 2026"}
# format, value, text
PRINTED = [
    ("%tH %<tI %<tk %<tl %<tp %<tr", "2026-01-05T00:30:00Z", "00 12 0 12 am 12:30:00 AM"),
    ("%tH %<tI %<tk %<tl %<tp %<tr", "2026-01-05T12:00:00Z", "12 12 12 12 pm 12:00:00 PM"),
    ("%tH %<tI %<tk %<tl %<tp %<tr", "2026-01-05T23:59:59Z", "23 11 23 11 pm 11:59:59 PM"),
    ("%td %<te %<tj %<tD", "2026-01-05T00:00Z", "05 5 005 01/05/26"),
    ("%tF %<tj %<tA", "2024-02-29T00:00Z", "2024-02-29 060 Thursday"),
    ("%tF %<tj %<tA", "2024-12-31T00:00Z", "2024-12-31 366 Tuesday"),
    ("%tF %<tj", "1900-03-01T00:00Z", "1900-03-01 060"),
    ("%tF %<tj", "2000-03-01T00:00Z", "2000-03-01 061"),
    ("%tC %<ty", "1999-12-31T23:59:59.999999999Z", "19 99"),
    ("%tC %<ty", "2005-01-01T00:00Z", "20 05"),
    ("%tL %<tN", "2026-01-05T00:00:00.000000001Z", "000 000000001"),
    ("%tL %<tN", "2026-01-05T00:00:00.999999999Z", "999 999999999"),
    ("%tc", "0", "Thu Jan 01 00:00:00 UTC 1970"),
    ("%ts %<tQ %<tF %<tT", "1969-12-31T23:59:59Z", "-1 -1000 1969-12-31 23:59:59"),
    ("%ts %<tc", "1677-09-21T00:12:44Z", "-9223372036 Tue Sep 21 00:12:44 UTC 1677"),
    ("%ts %<tc %<tN", "9223372036854775807", "9223372036 Fri Apr 11 23:47:16 UTC 2262 854775807"),
    ("%Tr|%Tp|%TA|%Tb|%Tc", "2026-06-06T18:00Z", "06:00:00 PM|PM|SATURDAY|JUN|SAT JUN 06 18:00:00 UTC 2026"),
    ("%30tF|%<-30tF|%<030.2tF|%<#,(+tF", "2026-11-15T00:00Z", "|".join(["2026-11-15"] * 4)),
    ("%tH %2$tH %tH %<tH", "2026-11-15T07:00Z", "07 07 07 07"),
]
# number, place, words
REFUSED = [
    (12, 0, ["%d", "time=0"]), (12, 1, ["-%x", "time=0"]), (12, 0, ["%c", "time=0"]), (12, 0, ["%b", "time=0"]), (12, 0, ["%a", "time=0"]),
    (12, 0, ["%e", "time=0"]), (12, 0, ["%tH", "int64=0"]), (12, 0, ["%TZ", "text=a"]), (12, 0, ["%tH", "f64=0"]), (12, 0, ["%tH", "bool=null"]),
    (11, 0, ["%tq", "time=0"]), (11, 0, ["%t", "time=0"]), (11, 0, ["%T", "time=0"]), (11, 0, ["%tP", "time=0"]),
    (8, 0, ["%-0tH", "time=0"]), (9, 0, ["%+ tH", "time=0"]), (6, 0, ["%2147483648tH", "time=0"]), (6, 0, ["%.2147483648tH", "time=0"]),
    (15, 0, ["%s", "time=0"]), (15, 0, ["%S", "time=-1"]), (15, 0, ["%h", "time=0"]), (15, 0, ["%H", "time=-1"]),
    (18, 0, ["%tZ", "time=-1"]), (18, 2, ["a %Tc", "time=1969-12-31T23:59:58.999999999Z"]), (18, 0, ["%tH", "time=-9223372036854775808"]),
    (18, 0, ["%tH %s", "time=-1", "time=0"]), (15, 0, ["%s %tH", "time=0", "time=-1"]), (16, 0, ["%c%tH", "int8=-1", "time=-1"]),
    (18, 0, ["%tH%c", "time=-1", "int8=-1"]), (12, 3, ["%tH%d", "time=-1", "text=a"]), (18, 0, ["%tH%2147483647d", "time=-1", "int8=1"]), (7, 0, ["%tH"]),
]


class Printing(Case):
    def test_components(self):
        self.assertEqual(len(set(COMPONENTS) - {"h"}), 30)
        for letter, text in COMPONENTS.items():
            self.prints(f"{text}|{text.upper()}\n".encode(), f"%t{letter}|%<T{letter}", MOMENT)

    def test_moments(self):
        for form, value, text in PRINTED:
            count = len(re.findall("%[^<]", form))
            self.prints(text.encode() + b"\n", form, *[f"time={value}"] * count)

    def test_random_moments(self):
        library, rng = Library(), random.Random(1)
        epoch = datetime.datetime(1970, 1, 1)
        for _ in range(2000):
            seconds = rng.randrange(-9223372036, 9223372036) if rng.randrange(2) else rng.randrange(-200000, 200000)
            rest = rng.randrange(10**9) if seconds >= 0 else 0
            moment = epoch + datetime.timedelta(seconds=seconds)
            expected = moment.strftime(f"%A %a %B %b %Y-%m-%d %C %y %j %H:%M:%S %I %D|%p|{seconds} {seconds * 1000 + rest // 10**6} {rest:09}")
            form = "%tA %<ta %<tB %<tb %<tF %<tC %<ty %<tj %<tT %<tI %<tD|%<Tp|%<ts %<tQ %<tN"
            self.assertEqual(library.print(form.encode(), pack_row([f"time={seconds * 10**9 + rest}"]))[0].decode(), expected)

    def test_refusals(self):
        for number, place, words in REFUSED:
            status, out, said = run(*words)
            lines = said.splitlines()
            self.assertEqual((status, out, lines[0]), (1, b"", f"line: refused with {number}: {REFUSALS[number][0]}"), words)
            self.assertTrue(lines[2].endswith(f"^ byte {place}"), (words, said))

    def test_values_that_no_element_takes(self):
        self.prints(b"x\n", "x", "time=-1")
        self.prints(b"7\n", "%2$d", "time=-9223372036854775808", "int8=7")

    def test_bad_inputs(self):
        self.cannot("time=2026-11-15T12:30: Z is missing at the end; times are in UTC", "%tH", "time=2026-11-15T12:30")
        self.cannot("time=2026-02-30T00:00Z: no such date", "%tH", "time=2026-02-30T00:00Z")
        self.cannot("time=null: only integers and Booleans can be null", "%tH", "time=null")


class Options(Case):
    def test_measure_and_check(self):
        self.prints(b"28 bytes, 1 piece\n", "--measure", "%2147483647tc", MOMENT)
        self.prints(b"accepted: 3 pieces, largest argument 1\n", "--check", "time", "%tF %<TB")
        self.prints(b"accepted: 2 pieces, largest argument 2\n", "--check", "time,time", "%s%H")
        self.assertEqual(run("--check", "time", "%d")[0], 1)

    def test_column(self):
        self.prints(b"07:05:09\n", "--column", "3", "%tF %<tT", MOMENT)

    def test_pieces(self):
        status, out, said = run("--pieces", "%td %d|%1$tH%<-30TB%n%2$x", MOMENT.replace("-11-15", "-05-05"), "int8=5")
        self.assertEqual((status, said), (0, ""))
        self.assertEqual(out.decode(), """\
piece  format     from  to  text   reads back as  value
1      `%td`      0     2   `05`
2      ` `        2     3   ` `
3      `%d`       3     4   `5`    5              int8 5  same
4      `|`        4     5   `|`
5      `%1$tH`    5     7   `07`
6      `%<-30TB`  7     10  `MAY`
7      `%n`       10    11  `\\n`
8      `%2$x`     11    12  `5`    5              int8 5  same
""")


LOG = """reply:time,gate:int8
2026-11-15T07:05:09.025Z,7
1969-12-31T23:59:59.5Z,8
2026-11-15 07:05Z,9
,10
2026-11-15T07:05:09,11
null,12
-1000000000,
0x0,14
"""


class Logs(Case):
    def test_rows(self):
        status, out, said = run("--csv", "-", "%tF %<tT.%<tL gate %d", given=LOG.encode())
        self.assertEqual((status, out.decode().splitlines()), (2, [
            "2026-11-15 07:05:09.025 gate 7", "2026-11-15 07:05:00.000 gate 9", "1969-12-31 23:59:59.000 gate null", "1970-01-01 00:00:00.000 gate 14"]))
        self.assertEqual(said, f"""\
line: standard input:3: refused with 18: {REFUSALS[18][0]}, at byte 0 of the format; cure: {REFUSALS[18][1]}
line: standard input:5: reply: time=: not a date and time such as 2026-11-15T12:30:00.25Z, nor a whole number of nanoseconds
line: standard input:6: reply: time=2026-11-15T07:05:09: Z is missing at the end; times are in UTC
line: standard input:7: reply: time=null: only integers and Booleans can be null
line: 4 rows printed, 1 row refused with 18, 3 rows not understood
""")

    def test_column(self):
        self.assertEqual(run("--csv", "-", "--column", "3", "%tF %<tT", given=b"reply:time\n2026-11-15T07:05:09Z\n0\n"),
                         (0, b"07:05:09\n00:00:00\n", "line: 2 rows printed\n"))

    def test_a_format_that_no_row_fits_is_told_once(self):
        for form, number in (("%d", 12), ("%s", 15), ("%2$tH", 12)):
            status, out, said = run("--csv", "-", form, given=LOG.encode())
            self.assertEqual((status, out, said.splitlines()[0]), (1, b"", f"line: refused with {number}: {REFUSALS[number][0]}"))

    def test_many_rows(self):
        moments = [(10**9 * (k * 7919 - 10**6) + (k % 1000 if k > 200 else 0), k) for k in range(20000)]
        epoch = datetime.datetime(1970, 1, 1)
        dates = [epoch + datetime.timedelta(seconds=value // 10**9) for value, _ in moments]
        words = [f"{date.isoformat()}.{value % 10**9:09}Z" if k % 3 else str(value) for date, (value, k) in zip(dates, moments)]
        text = "reply:time,n:int32\n" + "".join(f"{word},{k}\n" for word, (_, k) in zip(words, moments))
        expected = "".join(f"{date:%Y-%m-%d %H:%M:%S} {value % 10**9:09} {k}\n" for date, (value, k) in zip(dates, moments))
        self.assertEqual(run("--csv", "-", "%tF %<tT %<tN %d", given=text.encode()), (0, expected.encode(), "line: 20,000 rows printed\n"))


class Manual(unittest.TestCase):
    def test_table_of_components(self):
        with open(os.path.join(ROOT, "docs", "MANUAL.md"), encoding="utf-8") as file:
            table = file.read().partition("### Dates")[2].partition("\n##")[0]
        rows = re.findall(r"^\| `([A-Za-z])` \| `([^`]*)` \|", table, re.M)
        self.assertEqual(dict(rows), COMPONENTS)
        self.assertEqual(len(rows), len(COMPONENTS))


if __name__ == "__main__":
    unittest.main()
