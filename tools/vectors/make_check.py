#!/usr/bin/env python3
"""Writes crates/vectors/data/check.vec, the list of formats that the program `vectors` checks.

The answers come from the model below, which was written from the papers and from nothing of the Rattle code: it reads a format by regular
expressions and Python's own UTF-8 decoder. Cases that the papers name carry their answer by hand too, and the script stops where the model
gives another. It takes no argument and writes the same bytes each time. crates/vectors/README.md has the layout of a record.
"""

import os
import re
import sys

HERE = os.path.dirname(os.path.abspath(__file__))
OUT = os.path.join(HERE, "..", "..", "crates", "vectors", "data", "check.vec")

# What the program takes.
ROOM = 262143

# ---------------------------------------------------------------------------------------------------------------------------------------------
# The model of checking.

MOST_BYTES = 4096
MOST_KINDS = 64
MOST_PIECES = 512
MOST_NUMBER = 2147483647

TEXT = re.compile(rb"[^%]+")
INDEX = re.compile(rb"([1-9][0-9]*)\$")
FLAGS = re.compile(rb"[#0\- +,(]*")
WIDTH = re.compile(rb"[1-9][0-9]*|")
PRECISION = re.compile(rb"\.([0-9]*)|")

INTEGERS = {1, 2, 3, 4}
NUMBERS = INTEGERS | {5}
ALL_KINDS = {1, 2, 3, 4, 5, 6, 7, 8}
FIT = {
    "b": {6},
    "c": INTEGERS, "d": INTEGERS, "o": INTEGERS, "x": INTEGERS,
    "e": NUMBERS, "f": NUMBERS, "g": NUMBERS, "a": NUMBERS,
    "s": ALL_KINDS, "h": ALL_KINDS, "t": {8},
}
LETTERS = "bBhHsScCdoxXeEfgGaA"
TIME_LETTERS = "HIklMSLNpzZsQBbAaCYyjmdeRTrDFc" + "h"


class Refusal(Exception):
    def __init__(self, number, place):
        self.number = number
        self.place = place


def clash(flags):
    """The refusal that a run of flags completes first, or 0."""
    for end in range(1, len(flags) + 1):
        before, flag = flags[:end - 1], flags[end - 1:end]
        if flag == b"0" and b"-" in before:
            return 8
        if flag == b"+" and b" " in before or flag == b" " and b"+" in before:
            return 9
    return 0


def element_end(fmt, at, kind, place):
    """The offset after the element whose flags begin at `at`."""
    flags = FLAGS.match(fmt, at)
    if clash(flags.group()):
        raise Refusal(clash(flags.group()), place)
    width = WIDTH.match(fmt, flags.end())
    if width.group() and int(width.group()) > MOST_NUMBER:
        raise Refusal(6, place)
    precision = PRECISION.match(fmt, width.end())
    if precision.group(1) and int(precision.group(1)) > MOST_NUMBER:
        raise Refusal(6, place)
    at = precision.end()
    letter = fmt[at:at + 1].decode("latin-1")
    if letter and letter in "tT":
        time = fmt[at + 1:at + 2].decode("latin-1")
        if not time or time not in TIME_LETTERS:
            raise Refusal(11, place)
        at += 1
    elif not letter or letter not in LETTERS:
        raise Refusal(10, place)
    if kind not in FIT[letter.lower()]:
        raise Refusal(12, place)
    return at + 1


def read(fmt, kinds):
    """The number of pieces and the largest argument index of a format in order, whose kinds are in order too."""
    at = pieces = largest = count = last = 0
    while at < len(fmt):
        if pieces == MOST_PIECES:
            raise Refusal(13, at)
        pieces += 1
        text = TEXT.match(fmt, at)
        if text:
            at = text.end()
            continue
        place, after = at, fmt[at + 1:at + 2]
        if after in (b"%", b"n"):
            at += 2
            continue
        if after == b"<":
            if last == 0:
                raise Refusal(4, place)
            argument, at, keeps = last, place + 2, True
        else:
            index = INDEX.match(fmt, place + 1)
            if after == b"$":
                raise Refusal(5, place)
            if index:
                argument, at, keeps = int(index.group(1)), index.end(), False
                if argument > MOST_NUMBER:
                    raise Refusal(6, place)
            else:
                count += 1
                argument, at, keeps = count, place + 1, False
            if argument > len(kinds):
                raise Refusal(7, place)
        at = element_end(fmt, at, kinds[argument - 1], place)
        largest = max(largest, argument)
        if not keeps:
            last = argument
    return pieces, largest


def check(fmt, kinds):
    """('ok', pieces, largest) or ('no', number, place)."""
    if len(fmt) > MOST_BYTES:
        return "no", 1, 0
    try:
        fmt.decode("utf-8", "strict")
    except UnicodeDecodeError:
        return "no", 2, 0
    if len(kinds) > MOST_KINDS or any(kind not in ALL_KINDS for kind in kinds):
        return "no", 3, 0
    try:
        return ("ok",) + read(fmt, kinds)
    except Refusal as refusal:
        return "no", refusal.number, refusal.place


# ---------------------------------------------------------------------------------------------------------------------------------------------
# The records.

def record(fmt, kinds, answer):
    out = len(fmt).to_bytes(2, "little") + fmt + len(kinds).to_bytes(2, "little") + bytes(kinds)
    if answer[0] == "ok":
        return out + bytes([0]) + answer[1].to_bytes(2, "little") + answer[2].to_bytes(2, "little")
    return out + bytes([1, answer[1]]) + answer[2].to_bytes(2, "little")


class Records:
    def __init__(self):
        self.seen = set()
        self.all = []

    def add(self, fmt, kinds):
        """A case whose answer the model gives."""
        fmt = fmt.encode("utf-8") if isinstance(fmt, str) else bytes(fmt)
        key = (fmt, bytes(kinds))
        if key not in self.seen:
            self.seen.add(key)
            self.all.append((fmt, bytes(kinds), check(fmt, kinds)))

    def named(self, fmt, kinds, *answer):
        """A case whose answer a paper gives: the model must say the same."""
        data = fmt.encode("utf-8") if isinstance(fmt, str) else bytes(fmt)
        if check(data, kinds) != answer:
            sys.exit("the model says %r of %r with %r, and not %r" % (check(data, kinds), fmt, kinds, answer))
        self.add(fmt, kinds)


class Chance:
    """A generator of our own (xorshift, 64 bits), so that no version of Python changes the list."""

    def __init__(self, seed):
        self.state = seed

    def below(self, n):
        x = self.state
        x ^= (x << 13) & 0xFFFFFFFFFFFFFFFF
        x ^= x >> 7
        x ^= (x << 17) & 0xFFFFFFFFFFFFFFFF
        self.state = x
        return (x >> 11) % n

    def of(self, items):
        return items[self.below(len(items))]


# ---------------------------------------------------------------------------------------------------------------------------------------------
# The cases that the papers name, with their answers.

def cases_of_01(r):
    r.named("", [], "ok", 0, 0)
    r.named("", [7], "ok", 0, 0)
    r.named("%0$d", [3], "no", 10, 0)
    r.named("%0$d", [], "no", 7, 0)
    r.named("%", [3], "no", 10, 0)
    r.named("%", [], "no", 7, 0)
    r.named("%0-5d", [3], "ok", 1, 1)
    r.named("%-05d", [3], "no", 8, 0)
    r.named("%2147483647d", [3], "ok", 1, 1)
    r.named("%2147483648d", [3], "no", 6, 0)
    r.named("%tH", [4], "no", 12, 0)
    r.named("%tq", [4], "no", 11, 0)
    r.named("%h", [7], "ok", 1, 1)
    r.named("A%03d%%", [1], "ok", 3, 1)
    r.named("%5d", [3], "ok", 1, 1)
    r.named("%n%d", [3], "ok", 2, 1)
    for fmt, kind in (("%d", 1), ("%05d", 1), ("%,d", 3), ("%-(8d", 1), ("%(1d", 1), ("%d", 4), ("%#06x", 1), ("%a", 5), ("%010a", 5),
                      ("%.1a", 5), ("%.1s", 7), ("%3c", 3), ("%.2d", 3)):
        r.named(fmt, [kind], "ok", 1, 1)


def readings_on_indexes(r):
    # 1, 2: the lookahead for `$`, and 6 against 7.
    for kinds in ([], [3], [3] * 5):
        r.named("%2147483648$d", kinds, "no", 6, 0)
        r.named("%2147483647$d", kinds, "no", 7, 0)
        r.named("%99999999999999999999$d", kinds, "no", 6, 0)
    r.named("%2147483648d", [], "no", 7, 0)
    r.named("%2147483648d", [3], "no", 6, 0)
    r.named("%99999999999999999999d", [], "no", 7, 0)
    r.named("%5d", [], "no", 7, 0)
    r.named("%5d", [3], "ok", 1, 1)
    r.named("%5$d", [3] * 4, "no", 7, 0)
    r.named("%5$d", [3] * 5, "ok", 1, 5)
    r.named("x%10$d", [3] * 10, "ok", 2, 10)
    # 3: what `%$` is.
    r.named("%$", [], "no", 5, 0)
    r.named("%$d", [], "no", 5, 0)
    r.named("%$d", [3], "no", 5, 0)
    r.named("ab%$", [3], "no", 5, 2)
    r.named("%-$d", [3], "no", 10, 0)
    r.named("%-$d", [], "no", 7, 0)
    r.named("%d%<$d", [3], "no", 10, 2)
    r.named("%1$$d", [3], "no", 10, 0)
    # 4: flags or zeros before an index.
    r.named("%-1$d", [3], "no", 10, 0)
    r.named("%-1$d", [], "no", 7, 0)
    r.named("%01$d", [3], "no", 10, 0)
    r.named("%01$d", [], "no", 7, 0)


def readings_on_same(r):
    # 5, 6, 7: `%<`.
    r.named("%d%<5d", [3], "ok", 2, 1)
    r.named("%d%<1$d", [3], "no", 10, 2)
    r.named("%1$<d", [3], "no", 10, 0)
    r.named("%<d", [], "no", 4, 0)
    r.named("%<d", [3], "no", 4, 0)
    r.named("%<", [], "no", 4, 0)
    r.named("%<$", [3], "no", 4, 0)
    r.named("%%%n a%<d", [3], "no", 4, 6)
    r.named("%3$d%<x", [1, 2, 3], "ok", 2, 3)
    r.named("%3$d%<x%d", [6, 2, 3], "no", 12, 7)
    r.named("%3$d%<x%d", [1, 2, 3], "ok", 3, 3)
    r.named("%d%<d%<d%d", [1, 2], "ok", 4, 2)
    r.named("%d%<d%<d%d", [1], "no", 7, 8)
    r.named("%2$d%<d%d%<s%d", [1, 2], "ok", 5, 2)
    r.named("%2$d%d%<d", [3, 7], "no", 12, 0)
    r.named("%2$s%d%<d", [3, 7], "ok", 3, 2)
    r.named("%2$s%<d", [3, 7], "no", 12, 4)
    # 18: the largest index.
    r.named("%64$d%d%<d", [3] * 64, "ok", 3, 64)
    r.named("%d%64$d%<d%1$d", [3] * 64, "ok", 4, 64)
    r.named("abc%%%n", [3] * 64, "ok", 3, 0)


def readings_on_specifiers(r):
    # 8, 9, 10: flags.
    r.named("%-+0 d", [3], "no", 8, 0)
    r.named("%+- 0d", [3], "no", 9, 0)
    r.named("%+ d", [3], "no", 9, 0)
    r.named("% +d", [3], "no", 9, 0)
    r.named("%5-d", [3], "no", 10, 0)
    r.named("%5+ d", [3], "no", 10, 0)
    r.named("%00##--,,((++d", [3], "ok", 1, 1)
    r.named("%  d", [3], "ok", 1, 1)
    # 11: `.`.
    r.named("%.", [3], "no", 10, 0)
    r.named("%5.", [3], "no", 10, 0)
    r.named("%..d", [3], "no", 10, 0)
    r.named("%5.3.2d", [3], "no", 10, 0)
    r.named("%.d", [3], "ok", 1, 1)
    r.named("%5.d", [3], "ok", 1, 1)
    r.named("%.0000000005d", [3], "ok", 1, 1)
    r.named("%.00000000002147483647d", [3], "ok", 1, 1)
    r.named("%.00000000002147483648d", [3], "no", 6, 0)
    r.named("%.2147483648d", [3], "no", 6, 0)
    r.named("%000000000000005d", [3], "ok", 1, 1)
    # 12: `%n` and `%%` with anything between.
    for fmt in ("%-n", "%5%", "%1$n", "%-%", "%5n", "%.n", "%.%", "% %", "%0n"):
        r.named(fmt, [3], "no", 10, 0)
        r.named(fmt, [], "no", 7, 0)
    r.named("%<%", [3], "no", 4, 0)
    r.named("%d%<%", [3], "no", 10, 2)
    r.named("%d%<n", [3], "no", 10, 2)
    # 13: letters outside ASCII.
    for letter in ("é", "€", "\U0001F600", "\x00", "\x01", "\x7f", "\n", "\xa0"):
        r.named("ab%" + letter, [3], "no", 10, 2)
        r.named("ab%t" + letter, [3], "no", 11, 2)
        r.named("ab%T" + letter, [4], "no", 11, 2)
    # 14, 15: order inside an element.
    for kind in range(1, 8):
        r.named("%tq", [kind], "no", 11, 0)
        r.named("%tH", [kind], "no", 12, 0)
        r.named("%t", [kind], "no", 11, 0)
        r.named("%T", [kind], "no", 11, 0)
        r.named("%2147483648q", [kind], "no", 6, 0)
        r.named("%2147483648", [kind], "no", 6, 0)
    r.named("%.2147483648b", [3], "no", 6, 0)
    r.named("%-0b", [3], "no", 8, 0)
    r.named("%q", [7], "no", 10, 0)
    # 22: flags where they do nothing.
    r.named("%,x", [3], "ok", 1, 1)
    r.named("%0s", [7], "ok", 1, 1)
    r.named("%-0s", [7], "no", 8, 0)
    r.named("%+ s", [7], "no", 9, 0)
    r.named("%+ tH", [4], "no", 9, 0)
    r.named("%-0tH", [4], "no", 8, 0)
    # E1: kind 8 fits t, T, s and h, and what reading refuses stays refused.
    r.named("%+ tH", [8], "no", 9, 0)
    r.named("%-0TH", [8], "no", 8, 0)
    r.named("%2147483648tH", [8], "no", 6, 0)
    r.named("x%tq", [8], "no", 11, 1)
    r.named("x%T", [8], "no", 11, 1)
    r.named("%-20.3tF %<TB%1$s%1$h", [8], "ok", 5, 1)
    for letter in "bBcCdoxXeEfgGaA":
        r.named("%" + letter, [8], "no", 12, 0)
    for letter in "sShH":
        r.named("%" + letter, [8], "ok", 1, 1)
    for letter in TIME_LETTERS:
        r.named("%t" + letter, [8], "ok", 1, 1)
        r.named("%T" + letter, [8], "ok", 1, 1)


def readings_on_wholes(r):
    # 16, 17: pieces.
    full = "%%" * 512
    r.named(full, [], "ok", 512, 0)
    for more in ("%", "%%", "x", "é", "%d", "%<", "%2147483648d", "x%q"):
        r.named(full + more, [3], "no", 13, 1024)
    r.named("%%" * 511, [], "ok", 511, 0)
    r.named("%%" * 511 + "x", [], "ok", 512, 0)
    r.named("%%" * 511 + "xé", [], "ok", 512, 0)
    r.named("%%" * 511 + "xé%", [3], "no", 13, 1025)
    r.named("%%" * 511 + "%q", [3], "no", 10, 1022)
    r.named("%%" * 511 + "%", [3], "no", 10, 1022)
    r.named("%%" * 511 + "%d", [3], "ok", 512, 1)
    r.named("%%" * 511 + "%dx", [3], "no", 13, 1024)
    r.named("%%" * 511 + "%qx", [3], "no", 10, 1022)
    r.named("x%%" * 256, [], "ok", 512, 0)
    r.named("x%%" * 256 + "x", [], "no", 13, 768)
    r.named("%1$d" * 512, [4], "ok", 512, 1)
    r.named("%1$d" * 513, [4], "no", 13, 2048)
    r.named("%d" + "%<d" * 511, [4], "ok", 512, 1)
    r.named("%d" + "%<d" * 512, [4], "no", 13, 1535)
    r.named("a%%b", [], "ok", 3, 0)
    r.named("%%%%", [], "ok", 2, 0)
    r.named("%%%", [], "no", 7, 2)
    r.named("%%%", [3], "no", 10, 2)
    r.named("a%nb%%c", [], "ok", 5, 0)
    # 20, 21: 1, 2 and 3 before all else, over the whole format.
    r.named(b"%q\xff", [3], "no", 2, 0)
    r.named(b"%$\xc3", [0], "no", 2, 0)
    r.named(b"\xff", [9] * 65, "no", 2, 0)
    r.named("%q", [9], "no", 3, 0)
    r.named("%$", [3] * 65, "no", 3, 0)
    r.named(b"\xff" * 4097, [], "no", 1, 0)


# ---------------------------------------------------------------------------------------------------------------------------------------------
# The cases around each boundary, whose answers the model gives.

def letters(r):
    for letter in LETTERS:
        for kind in range(1, 9):
            r.add("%" + letter, [kind])
            r.add("a%-9.3" + letter, [kind])
    for byte in range(128):
        r.add(b"%" + bytes([byte]), [3])
    for byte in range(32, 127):
        r.add(b"%1$" + bytes([byte]) + b"d", [3])
        r.add(b"%t" + bytes([byte]), [4])
        r.add(b"%t" + bytes([byte]), [8])
        r.add(b"%T" + bytes([byte]), [6])
        r.add(b"%d%<" + bytes([byte]), [6 if byte % 2 else 1])
    for letter in TIME_LETTERS:
        r.add("%%%-3.2t" + letter + "%", [3, 3])
        r.add("%s%<T" + letter, [7])


def flags(r):
    marks = "#0- +,("
    for a in marks:
        r.add("%" + a + "d", [3])
        r.add("%" + a, [3])
        r.add("%" + a, [])
        for b in marks:
            r.add("%" + a + b + "d", [3])
            r.add("a%1$" + a + b + "5x", [2])
    triples = [a + b + c for a in "0-+ " for b in "0-+ " for c in "0-+ "]
    for run in triples + ["#,(" + run for run in triples[::5]]:
        r.add("%" + run + "7d", [3])
    for run in ("-+0 ", "+- 0", " -0+", "0- +", "+0- ", "#0,-(+ ", "-#,(0", "0" * 40, "-" * 40 + "0", "+" * 30 + " "):
        r.add("x%" + run + "s", [7])
        r.add("%d%<" + run + "d", [4])


def numbers(r):
    values = ["1", "9", "10", "99", "214748364", "2147483639", "2147483640", "2147483646", "2147483647", "2147483648", "2147483649",
              "2147483650", "2147483657", "2147483700", "2147484000", "3000000000", "4294967295", "4294967296", "4294967297", "9999999999",
              "10000000000", "21474836470", "18446744073709551615", "18446744073709551616", "18446744073709551617", "1" + "0" * 60,
              "4" * 200]
    for value in values:
        r.add("%" + value + "d", [3])
        r.add("%" + value + "d", [])
        r.add("%." + value + "d", [3])
        r.add("%3.000" + value + "s", [7])
        r.add("%" + value + "$d", [3])
        r.add("%d%<" + value + "d", [3])
        r.add("%0" + value + "d", [3])
        r.add("%" + value + "." + value + "x", [3])
        r.add("%" + value + ".", [3])
    for form in ("%1$1$d", "%1$01d", "%1$0d", "%1$-5.2d", "%1$", "%1", "%1.", "%01", "%0", "%1$.", "%1$.$d", "%1$%", "%1$ d", "%1$%d", "%00$d",
                 "%10$", "%1 $d", "%1d$", "%1.1$d", "%.1$d", "%.0d", "%.00000000000000000000d", "%5.0d", "%05.05d", "%1$5$d", "%3$d%d%d%d",
                 "%2$d%1$d%d%<d%d"):
        for kinds in ([], [3], [3, 3], [1, 2, 3, 4]):
            r.add(form, kinds)


def same(r):
    for form in ("%s%<s", "%s%<d", "%<s%s", "%s%<", "%s%<<s", "%s%<%s", "%s%<5.2s", "%s%<-5s", "%s%<-05s", "%s%<$s", "%s%<1$s", "%s%<n",
                 "%2$s%<d%s%<b", "%s%s%<b", "%s%%%<d", "%sx%<d", "%s%n%<d", "%s%<s%<s%<d", "%3$s%<s%<x%s%<d", "%s%2$s%<d%s", "%s%<tH",
                 "%s%<tq", "%s%<t", "%1$s%<s%2$s%<s%s%<s%s%<s%s"):
        for kinds in ([], [1], [7, 6], [6, 1], [1, 6, 3]):
            r.add(form, kinds)


def pieces(r):
    for fmt, each in (("x%1$d", 2), ("%n", 1)):
        for count in (511, 512, 513):
            r.add(fmt * (count // each) + ("y" if count % each else ""), [4] * 64)
    r.add("%1$s" * 511 + "é", [4])
    r.add("%d" * 64, [4] * 64)
    r.add("%d" * 65, [4] * 64)
    r.add("%d" * 63 + "%s", [4] * 63 + [7])
    r.add("%d" * 63 + "%d", [4] * 63 + [7])


def lengths(r):
    for n in (4095, 4096, 4097):
        r.add("x" * (n - 2) + "%d", [3])
    r.add("x" * 4094 + "é", [])
    r.add(b"x" * 4095 + b"\xc3", [3])
    r.add(b"x" * 4097, [0])
    r.add("%" + "0" * 4094 + "d", [3])
    r.add("%." + "9" * 4093 + "d", [3])


def utf8(r):
    good = [b"\x00", b"\x7f", b"\xc2\x80", b"\xdf\xbf", b"\xe0\xa0\x80", b"\xec\xbf\xbf", b"\xed\x80\x80", b"\xed\x9f\xbf", b"\xee\x80\x80",
            b"\xef\xbf\xbf", b"\xf0\x90\x80\x80", b"\xf3\xbf\xbf\xbf", b"\xf4\x80\x80\x80", b"\xf4\x8f\xbf\xbf"]
    bad = [b"\x80", b"\xbf", b"\xc0\x80", b"\xc1\xbf", b"\xc2", b"\xc2\x7f", b"\xc2\xc0", b"\xdf", b"\xe0\x80\x80", b"\xe0\x9f\xbf", b"\xe0\xa0",
           b"\xe1\x80", b"\xe1\x7f\x80", b"\xe1\x80\x7f", b"\xe1\x80\xc0", b"\xed\xa0\x80", b"\xed\xbf\xbf", b"\xef\xbf", b"\xf0\x80\x80\x80",
           b"\xf0\x8f\xbf\xbf", b"\xf0\x90\x80", b"\xf1\x80\x80\x7f", b"\xf1\x80\xc0\x80", b"\xf4\x90\x80\x80", b"\xf4\x8f\xbf", b"\xf5\x80\x80\x80",
           b"\xf7\xbf\xbf\xbf", b"\xf8\x88\x80\x80\x80", b"\xfe", b"\xff", b"\xf0", b"\xe1", b"\xf4\x90"]
    for part in good + bad:
        r.add(part, [])
        r.add(part + b"%d", [3])
        r.add(b"%d" + part, [3])
        r.add(b"%" + part, [3])
    for part in good[::3] + bad[::3]:
        r.add(b"%1$d%n" + part + b"%%%<t" + part, [3])


def kinds(r):
    for n in (0, 1, 63, 64, 65, 128, 255):
        r.add("", [3] * n)
        r.add("%d", [3] * n)
        r.add("%%" * 3, [1 + i % 7 for i in range(n)])
        r.add("%63$d", [4] * n)
        r.add("%64$d", [4] * n)
        r.add("%65$d", [4] * n)
    for bad in (0, 9, 12, 127, 128, 129, 132, 133, 134, 135, 136, 255):
        r.add("", [bad])
        r.add("%d", [bad])
        r.add("%d", [3, bad])
        r.add("%d", [3] * 63 + [bad])
        r.add("%$", [3] * 64 + [bad])
        r.add("%d", [bad] + [3] * 63)
    for kind in range(1, 9):
        r.add("%64$s", [kind] * 64)
        r.add("%2$d%1$b", [6, kind])


def generated(r):
    chance = Chance(0x9E3779B97F4A7C15)
    short = ["%", "%", "d", "x", "s", "$", "<", "0", "-", "+", " ", ",", "(", "#", ".", "1", "2", "3", "n", "é"]
    parts = ["%d", "%s", "%1$d", "%2$x", "%3$s", "%<d", "%<s", "%%", "%n", "a", "é", "%-5d", "%05.1x", "%b", "%c", "%a", "%.3s", "%+d", "%", "%h"]
    lists = [[], [3], [1, 2], [4, 7, 6], [7, 7, 7], [5, 6, 1, 2]]
    for _ in range(350):
        r.add("".join(chance.of(short) for _ in range(1 + chance.below(9))), chance.of(lists))
    for _ in range(250):
        r.add("%" + "".join(chance.of(short[2:]) for _ in range(chance.below(5))) + chance.of("dxs"), chance.of(lists[1:]))
    for _ in range(200):
        r.add("".join(chance.of(parts) for _ in range(2 + chance.below(8))), chance.of(lists[2:]))
    for _ in range(100):
        r.add(bytes(chance.of((37, 100, 49, 36, 195, 169, 226, 130, 172)) for _ in range(1 + chance.below(7))), [3, 3])


def main():
    r = Records()
    for group in (cases_of_01, readings_on_indexes, readings_on_same, readings_on_specifiers, readings_on_wholes, letters, flags, numbers, same,
                  pieces, lengths, utf8, kinds, generated):
        group(r)
    data = b"".join(record(*one) for one in r.all)
    if len(data) > ROOM:
        sys.exit("%d bytes, and the program takes %d" % (len(data), ROOM))
    os.makedirs(os.path.dirname(OUT), exist_ok=True)
    with open(OUT, "wb") as f:
        f.write(data)
    answers = {}
    for _, _, answer in r.all:
        key = "accepted" if answer[0] == "ok" else answer[1]
        answers[key] = answers.get(key, 0) + 1
    print("%d records, %d bytes" % (len(r.all), len(data)))
    print(", ".join("%s: %d" % (key, answers[key]) for key in sorted(answers, key=str)))


if __name__ == "__main__":
    main()
