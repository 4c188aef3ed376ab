#!/usr/bin/env python3
"""Writes crates/vectors/data/print.vec, the list of printed answers whose expectations the papers give.

Every expectation below was written by hand from the papers: the text of each piece, or the number and place of a refusal. The script only lays
out rows and adds up the ends of the pieces. It takes no argument and writes the same bytes each time. crates/vectors/README.md has the layout of
a record.
"""

import os
import struct
import sys

from print_dates import dates

HERE = os.path.dirname(os.path.abspath(__file__))
OUT = os.path.join(HERE, "..", "..", "crates", "vectors", "data", "print.vec")

# What the program takes.
ROOM = 262143

# ---------------------------------------------------------------------------------------------------------------------------------------------
# Rows. A value is a kind byte and 8 bytes, or the bytes of a text.

INT8, INT16, INT32, INT64, FLOAT, BOOL = 1, 2, 3, 4, 5, 6
LEAST = -2 ** 63


def integer(kind, x):
    return kind, struct.pack("<q", x)


def i8(x):
    return integer(INT8, x)


def i16(x):
    return integer(INT16, x)


def i32(x):
    return integer(INT32, x)


def i64(x):
    return integer(INT64, x)


def f64(x):
    """A float from its value, or from its hexadecimal form."""
    return FLOAT, struct.pack("<d", float.fromhex(x) if isinstance(x, str) else x)


def bits(x):
    return FLOAT, struct.pack("<Q", x)


def boolean(x):
    return integer(BOOL, x)


def null(kind):
    return integer(128 + kind, 0)


def part(offset, length):
    return 7, struct.pack("<II", offset, length)


def row(values, area=b""):
    """A row of values. A str is a text value, and stands in the text area behind those before it."""
    kinds, words = b"", b""
    for value in values:
        if isinstance(value, str):
            data = value.encode("utf-8")
            value = part(len(area), len(data))
            area += data
        kinds += bytes([value[0]])
        words += value[1]
    return struct.pack("<HI", len(values), len(area)) + kinds + words + area


# ---------------------------------------------------------------------------------------------------------------------------------------------
# Records.

def as_bytes(x):
    return x.encode("utf-8") if isinstance(x, str) else x


def two(n):
    return n.to_bytes(2, "little")


class Records:
    def __init__(self):
        self.all = []
        self.seen = set()

    def add(self, fmt, values, answer):
        fmt = as_bytes(fmt)
        values = values if isinstance(values, bytes) else row(values)
        if (fmt, values) in self.seen:
            sys.exit("twice: %r" % fmt)
        self.seen.add((fmt, values))
        self.all.append(two(len(fmt)) + fmt + two(len(values)) + values + answer)

    def ok(self, fmt, values, *pieces):
        """Printed: the text of each piece."""
        texts = [as_bytes(piece) for piece in pieces]
        ends = [len(b"".join(texts[:k + 1])) for k in range(len(texts))]
        answer = bytes([2]) + two(sum(map(len, texts))) + b"".join(texts) + two(len(ends))
        self.add(fmt, values, answer + b"".join(end.to_bytes(4, "little") for end in ends))

    def no(self, fmt, values, number, place=0):
        self.add(fmt, values, bytes([3, number]) + two(place))


# ---------------------------------------------------------------------------------------------------------------------------------------------
# The table of cases, and the vectors published under it.

def table(r):
    r.ok("%d", [i32(5)], "5")
    r.ok("%05d", [i32(-5)], "-0005")
    r.ok("%,d", [i32(1234567)], "1,234,567")
    r.ok("%-(8d", [i32(-5)], "(5)     ")
    r.ok("%(1d", [i32(-5)], "(5)")
    r.ok("%d", [i64(LEAST)], "-9223372036854775808")
    r.ok("%#06x", [i8(-1)], "0x00ff")
    r.ok("%a", [f64(1.0)], "0x1.0p0")
    r.ok("%010a", [f64(1.0)], "0x0001.0p0")
    r.ok("%a", [f64(1.03125)], "0x1.08p0")
    r.ok("%.1a", [f64(1.96875)], "0x1.0p1")
    r.ok("%.1a", [bits(1)], "0x1.0p-1074")
    r.ok("%a", [bits(1)], "0x0.0000000000001p-1022")
    r.ok("%.1s", ["é"], "")
    r.ok("%3c", [i32(233)], " é")
    r.ok("%.2d", [null(INT32)], "nu")


def published(r):
    r.no("%0$d", [i32(5)], 10)
    r.no("%0$d", [], 7)
    r.no("%", [i32(5)], 10)
    r.no("%", [], 7)
    r.ok("%0-5d", [i32(7)], "7    ")
    r.no("%-05d", [i32(7)], 8)
    r.no("%2147483647d", [i32(7)], 17)
    r.no("%2147483648d", [i32(7)], 6)
    r.no("%tH", [i64(7)], 12)
    r.no("%tq", [i64(7)], 11)
    r.no("%h", ["x"], 15)
    r.ok("%c", [i32(0xD7FF)], b"\xed\x9f\xbf")
    r.ok("%c", [i32(0xE000)], b"\xee\x80\x80")
    r.ok("%c", [i32(0x10FFFF)], b"\xf4\x8f\xbf\xbf")
    r.no("%c", [i32(0xD800)], 16)
    r.no("%c", [i32(0x110000)], 16)
    r.no("%c", [i32(-1)], 16)
    r.ok("A%03d%%", [i8(7)], "A", "007", "%")
    # "reading `%5d` as argument 5; letting `%n` take an argument"
    r.ok("%5d", [i8(k) for k in range(1, 6)], "    1")
    r.ok("%n%d", [i8(7)], "\n", "7")


def places(r):
    # 15 and 16, left to right over a format that passed.
    r.no("%d %h", [i32(5), "x"], 15, 3)
    r.no("%d%c", [i32(5), i32(0xD800)], 16, 2)
    r.no("%2$c%1$d", [i32(5), i32(0xD800)], 16)
    r.no("é%c", [i32(0xDFFF)], 16, 2)
    r.no("%h%c", ["x", i32(0xD800)], 15)
    r.no("%c%h", [i32(0xD800), "x"], 16)
    r.no("%a%q", [i32(5)] * 2, 10, 2)
    r.no("%c%d", [i32(0xD800)], 7, 2)
    # 17 is last, and 13 first in its piece.
    r.no("%c%2049d", [i32(0xD800), i32(5)], 16)
    r.no("%2049d%a", [i32(5)] * 2, 15, 6)
    r.ok("%%" * 512, [], *["%"] * 512)
    r.ok("a%%" * 256, [], *["a", "%"] * 256)
    r.no("%%" * 513, [], 13, 1024)
    r.no("%%" * 512 + "x", [], 13, 1024)
    r.no("%%" * 512 + "%q", [], 13, 1024)
    r.no("%%" * 511 + "%q", [i32(5)], 10, 1022)


def room(r):
    r.ok("%2048d", [i32(5)], " " * 2047 + "5")
    r.no("%2049d", [i32(5)], 17)
    r.ok("%2048s", [""], " " * 2048)
    r.no("%2049s", [""], 17)
    r.ok("%-2047d%%", [i32(5)], "5" + " " * 2046, "%")
    r.no("%2048d%d", [i32(5)] * 2, 17)
    r.ok("a" * 2048, [], "a" * 2048)
    r.no("a" * 2049, [], 17)
    r.no("a" * 4096, [], 17)
    r.no("a" * 4097, [], 1)
    r.no("%2147483647d" * 3, [i32(5)] * 3, 17)
    r.no("%.65535a", [f64(1.0)], 17)
    r.ok("%.2040a", [f64(1.0)], "0x1." + "0" * 2040 + "p0")


# ---------------------------------------------------------------------------------------------------------------------------------------------
# The papers' words on each letter.

def nulls(r):
    for letter, text in (("d", "null"), ("o", "null"), ("x", "null"), ("c", "null"), ("s", "null"), ("X", "NULL"), ("C", "NULL"), ("S", "NULL")):
        r.ok("%" + letter, [null(INT32)], text)
        r.ok("%05" + letter, [null(INT64)], " " + text)
        r.ok("%-6" + letter + "|", [null(INT8)], text + "  ", "|")
        r.ok("%.0" + letter, [null(INT16)], "")
    r.ok("%+,(#d", [null(INT32)], "null")
    r.ok("%b", [null(BOOL)], "false")
    r.ok("%B", [null(BOOL)], "FALSE")
    r.ok("%7b", [null(BOOL)], "  false")
    r.ok("%.3b", [null(BOOL)], "fal")
    r.no("%a", [null(INT32)], 15)
    r.no("%s", [null(BOOL)], 15)
    r.no("%b", [null(INT32)], 12)


def decimals(r):
    for one in (i8, i16, i32, i64):
        r.ok("%d|%d", [one(-128), one(127)], "-128", "|", "127")
    r.ok("%+d", [i32(0)], "+0")
    r.ok("%(d", [i32(0)], "0")
    r.ok("% d", [i32(5)], " 5")
    r.ok("%+d", [i32(-5)], "-5")
    r.ok("%+(d", [i32(-5)], "(5)")
    r.ok("%+5d", [i32(5)], "   +5")
    r.ok("% 5d", [i32(5)], "    5")
    r.ok("%+05d", [i32(5)], "+0005")
    r.ok("% 05d", [i32(5)], " 0005")
    r.ok("%-+5d|", [i32(5)], "+5   ", "|")
    r.ok("%-(8d", [i32(5)], "5       ")
    r.ok("%(8d", [i32(-5)], "     (5)")
    r.ok("%(08d", [i32(-5)], "(000005)")
    r.ok("%0-(8d", [i32(-5)], "(5)     ")
    r.ok("%-(4d|", [i8(-5)], "(5) ", "|")
    r.ok("%-(3d|", [i8(-5)], "(5)", "|")
    r.ok("%-(,12d|", [i32(-1234567)], "(1,234,567) ", "|")
    r.ok("%-(24d|", [i64(LEAST)], "(9223372036854775808)   ", "|")
    r.ok("%-(1d", [i32(-5)], "(5)")
    r.ok("%(2d", [i32(-5)], "(5)")
    r.ok("%0,12d", [i32(-1234567)], "-001,234,567")
    r.ok("%,12d", [i32(-1234567)], "  -1,234,567")
    r.ok("%(,d", [i64(LEAST)], "(9,223,372,036,854,775,808)")
    r.ok("%,d %,d", [i32(999), i32(1000)], "999", " ", "1,000")
    r.ok("%.3d%#d", [i32(5)] * 2, "5", "5")
    r.ok("%0d%-d", [i32(5)] * 2, "5", "5")
    r.ok("%5d", [i32(123456)], "123456")


def bases(r):
    for one, x, o in ((i8, "ff", "377"), (i16, "ffff", "177777"), (i32, "f" * 8, "3" + "7" * 10), (i64, "f" * 16, "1" + "7" * 21)):
        r.ok("%x %X %o", [one(-1)] * 3, x, " ", x.upper(), " ", o)
    r.ok("%x", [i16(-32768)], "8000")
    r.ok("%x", [i64(LEAST)], "8000000000000000")
    r.ok("%o", [i64(LEAST)], "1" + "0" * 21)
    r.ok("%x%o", [i8(0)] * 2, "0", "0")
    r.ok("%#x %#X %#o", [i16(255)] * 3, "0xff", " ", "0XFF", " ", "0377")
    r.ok("%#x %#o", [i8(0)] * 2, "0x0", " ", "00")
    r.ok("%+,(.1x", [i16(255)], "ff")
    r.ok("%06x%6x%-6x|", [i16(255)] * 3, "0000ff", "    ff", "ff    ", "|")
    r.ok("%#8x%-#8x|", [i16(255)] * 2, "    0xff", "0xff    ", "|")
    r.ok("%#06o", [i8(8)], "000010")


def characters(r):
    for code, text in ((0, b"\x00"), (127, b"\x7f"), (128, b"\xc2\x80"), (0x7FF, b"\xdf\xbf"), (0x800, b"\xe0\xa0\x80"),
                       (0xFFFF, b"\xef\xbf\xbf"), (0x10000, b"\xf0\x90\x80\x80")):
        r.ok("%c", [i32(code)], text)
    r.ok("%5c%-3c|", [i8(65)] * 2, "    A", "A  ", "|")
    r.ok("%.0c%03c", [i8(65)] * 2, "A", "  A")
    r.ok("%C%C", [i8(97), i16(233)], "A", "é")
    r.no("%c", [i32(0xDFFF)], 16)
    r.no("%c", [i8(-1)], 16)
    r.no("%c", [i64(2 ** 32 + 65)], 16)
    r.no("%c", [i64(LEAST)], 16)
    r.no("%C", [i32(0xD800)], 16)


def booleans(r):
    r.ok("%b%b", [boolean(1), boolean(0)], "true", "false")
    r.ok("%B%.2b", [boolean(1)] * 2, "TRUE", "tr")
    r.ok("%6b%06b%-6b|", [boolean(1)] * 3, "  true", "  true", "true  ", "|")


def texts(r):
    r.ok("%s", [""], "")
    r.ok("%s%S", ["ab", "aé"], "ab", "Aé")
    r.ok("%5s%-5s|%05s", ["ab"] * 3, "   ab", "ab   ", "|", "   ab")
    r.ok("%.1s", ["ab"], "a")
    r.ok("%.2s", ["aé"], "a")
    r.ok("%.3s", ["aéé"], "aé")
    r.ok("%.2S", ["aé"], "A")
    r.ok("%4s", ["é"], "  é")
    r.ok("%5.3s", ["a€b"], "    a")
    r.ok("%.2147483647s", ["ab"], "ab")
    r.ok("%.0s%d", ["ab", i32(5)], "", "5")
    # Integers under %s.
    r.ok("%s", [i64(LEAST)], "-9223372036854775808")
    r.ok("%.1s%.3s", [i32(-123)] * 2, "-", "-12")
    r.ok("%+,(s", [i32(1234)], "1234")
    r.ok("%,(s", [i32(-1234)], "-1234")
    r.ok("%6s%-6s|%06s", [i32(-12)] * 3, "   -12", "-12   ", "|", "   -12")


def floats(r):
    for value, text in ((0.5, "0x1.0p-1"), (-2.0, "-0x1.0p1"), (100.0, "0x1.9p6"), (0.1, "0x1.999999999999ap-4"), (0.0, "0x0.0p0"),
                        (-0.0, "-0x0.0p0"), (2.0 ** -1022, "0x1.0p-1022"), ("0x1.fffffffffffffp1023", "0x1.fffffffffffffp1023")):
        r.ok("%a", [f64(value)], text)
        r.ok("%A", [f64(value)], text.upper())
    r.ok("%+a% a", [f64(1.0)] * 2, "+0x1.0p0", " 0x1.0p0")
    r.ok("%(,#a", [f64(-1.5)], "-0x1.8p0")
    r.ok("%12a%-12a|", [f64(-1.0), f64(1.0)], "    -0x1.0p0", "0x1.0p0     ", "|")
    r.ok("%0-12a|", [f64(1.0)], "0x1.0p0     ", "|")
    r.ok("%+010a", [f64(1.0)], "+0x001.0p0")
    r.ok("%010a", [f64(0.0)], "0x0000.0p0")
    r.ok("%025a", [f64(-0.1)], "-0x00001.999999999999ap-4")
    # NaN and infinity.
    nan, less = 0x7FF8000000000000, 0xFFF0000000000001
    r.ok("%a%+a% a%A", [bits(nan), bits(nan), bits(less), bits(less)], "NaN", "NaN", "NaN", "NAN")
    r.ok("%a%+a% a%A", [f64(float("inf"))] * 4, "Infinity", "+Infinity", " Infinity", "INFINITY")
    r.ok("%a%A%(a", [f64(float("-inf"))] * 3, "-Infinity", "-INFINITY", "-Infinity")
    r.ok("%012a%012a", [f64(float("inf")), bits(nan)], "    Infinity", "         NaN")
    r.ok("%.1a%.1a", [f64(float("inf")), bits(nan)], "Infinity", "NaN")


def rounded(r):
    r.ok("%.0a", [f64(1.5)], "0x1.8p0")
    r.ok("%.a", [f64(1.03125)], "0x1.08p0")
    for value, text in (("0x1.18p0", "0x1.2p0"), ("0x1.28p0", "0x1.2p0"), ("0x1.281p0", "0x1.3p0"), ("0x1.08p0", "0x1.0p0"),
                        ("0x1.f7p0", "0x1.fp0"), ("-0x1.f8p0", "-0x1.0p1"), ("0x1.fffffffffffffp1023", "0x1.0p1024")):
        r.ok("%.1a", [f64(value)], text)
    r.ok("%.2a%.2a", [f64("0x1.08p0"), f64("0x1.0f8p0")], "0x1.08p0", "0x1.10p0")
    r.ok("%.3a%.3a", [f64(1.0), f64(0.0)], "0x1.000p0", "0x0.0p0")
    r.ok("%.12a", [f64("0x1.fffffffffffffp0")], "0x1.000000000000p1")
    r.ok("%.13a", [f64(1.5)], "0x1.8000000000000p0")
    r.ok("%.14a", [f64(1.0)], "0x1.00000000000000p0")
    # Subnormal.
    top = 2 ** 52 - 1
    r.ok("%.1a%.1a", [bits(3), bits(top)], "0x1.8p-1073", "0x1.0p-1022")
    r.ok("%.5A", [bits(1)], "0X1.00000P-1074")
    r.ok("%.12a", [bits(1)], "0x1.000000000000p-1074")
    r.ok("%.13a%.14a", [bits(1)] * 2, "0x0.0000000000001p-1022", "0x0.0000000000001p-1022")
    r.ok("%a%a", [bits(top), bits(2 ** 51)], "0x0.fffffffffffffp-1022", "0x0.8000000000000p-1022")


def fits(r):
    for fmt in ("%h", "%H", "%a", "%A", "%e", "%E", "%f", "%g", "%G"):
        r.no(fmt, [i32(5)], 15)
    for fmt in ("%h", "%s", "%S", "%e", "%f", "%g"):
        r.no(fmt, [f64(1.0)], 15)
    for fmt in ("%h", "%s", "%S"):
        r.no(fmt, [boolean(1)], 15)
    r.no("%H", ["x"], 15)
    for fmt in ("%b", "%tH", "%TY"):
        r.no(fmt, [i32(5)], 12)
    for fmt in ("%b", "%c", "%d", "%o", "%x"):
        r.no(fmt, [f64(1.0)], 12)
    for fmt in ("%d", "%x", "%a", "%c"):
        r.no(fmt, [boolean(1)], 12)
        r.no(fmt, ["x"], 12)


# ---------------------------------------------------------------------------------------------------------------------------------------------
# Formats and rows.

def formats(r):
    r.ok("", [])
    r.ok("", [i32(5)])
    r.ok("é%d€%n", [i32(5)], "é", "5", "€", "\n")
    r.ok("a%%b", [], "a", "%", "b")
    r.ok("%2$d %1$d", [i8(1), i8(2)], "2", " ", "1")
    r.ok("%d %<d %d", [i8(1), i8(2)], "1", " ", "1", " ", "2")
    r.ok("%2$d%<d%d", [i8(1), i8(2)], "2", "2", "1")
    r.ok("%64$d", [i8(k) for k in range(1, 65)], "64")
    r.ok("%d%<x%<c%<s", [i8(65)], "65", "41", "A", "65")
    r.no("%<d", [i8(1)], 4)
    r.no("ab%<d", [], 4, 2)
    r.no("%$d", [i8(1)], 5)
    r.no("%2147483648$d", [i8(1)], 6)
    r.no("%2147483647$d", [i8(1)], 7)
    r.no("%.2147483648d", [i8(1)], 6)
    r.no("%2$d", [i8(1)], 7)
    r.no("%d%d", [i8(1)], 7, 2)
    r.no("%+ d", [i8(1)], 9)
    r.no("%-+0 d", [i8(1)], 8)
    r.no("%+- 0d", [i8(1)], 9)
    r.no("%5-d", [i8(1)], 10)
    r.no("%.", [i8(1)], 10)
    r.no("%5%", [i8(1)], 10)
    r.no("%-n", [], 7)
    r.no("%é", [i8(1)], 10)
    r.no("%t", [i8(1)], 11)
    r.no("x%%%n%q", [i8(1)], 10, 5)
    r.no(b"\xff", [], 2)
    r.no(b"%q\xc3", [i8(1)], 2)
    # Without a value 4 and 7 come before what flags and letters refuse; %a fits an integer, and is not printed for it.
    r.no("%q", [], 7)
    r.no("%<s", [], 4)
    r.no("%-0d", [], 7)
    r.no("%s", [], 7)
    r.no("%a", [i8(1)], 15)


def good_rows(r):
    r.ok("%d", row([i8(5)], b"\xff\xfe\xfd"), "5")
    r.ok("%s%s", row([part(0, 3), part(1, 2)], "aé".encode()), "aé", "é")
    r.ok("%s", row([part(3, 0)], "aé".encode()), "")
    r.ok("%s", row([part(2, 0)], "aé".encode()), "")


def bad_rows(r):
    good = row([i8(5)])
    r.no("", b"", 14)
    r.no("", good[:5], 14)
    r.no("", good[:-1], 14)
    r.no("", good + b"\x00", 14)
    for kind in (0, 9, 127, 128, 133, 135, 136, 137, 255):
        r.no("", row([(kind, bytes(8))]), 14)
    for one in (i8(128), i8(-129), i8(255), i16(32768), i16(-32769), i32(2 ** 31), i32(-2 ** 31 - 1), boolean(2), boolean(-1)):
        r.no("", row([one]), 14)
    r.no("%d", row([i8(5), (129, b"\x01" + bytes(7))]), 14)
    r.no("%d", row([i8(5), i8(128)]), 14)
    area = "aé".encode()
    for bad in (part(2, 1), part(0, 2), part(0, 4), part(4, 0), part(3, 1), part(0xFFFFFFFF, 2)):
        r.no("%s", row([bad], area), 14)
    for data in (b"\x80", b"\xc0\x80", b"\xed\xa0\x80", b"\xf4\x90\x80\x80", b"\xff"):
        r.no("%s", row([part(0, len(data))], data), 14)
    r.no("", row([i8(5)] * 65), 14)
    # 1 and 2 come before 14, and 14 before what a format refuses.
    r.no("%q", b"", 14)
    r.no(b"\xff", b"", 2)
    r.no(b"\xff" * 4097, b"", 1)


def main():
    r = Records()
    for group in (table, published, places, room, nulls, decimals, bases, characters, booleans, texts, floats, rounded, fits, dates, formats,
                  good_rows, bad_rows):
        group(r)
    data = b"".join(r.all)
    if len(data) > ROOM:
        sys.exit("%d bytes, and the program takes %d" % (len(data), ROOM))
    with open(OUT, "wb") as f:
        f.write(data)
    print("%d records, %d bytes" % (len(r.all), len(data)))


if __name__ == "__main__":
    main()
