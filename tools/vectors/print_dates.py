"""Printed answers of dates, written by hand as those of make_print_cases.py are. The numbers of seconds are well known, or follow from 86,400 a day."""

import struct

TIME = 8
SECOND = 10 ** 9
LEAST, LARGEST = -2 ** 63, 2 ** 63 - 1


def time(nanoseconds):
    return TIME, struct.pack("<q", nanoseconds)


def at(seconds):
    return time(seconds * SECOND)


# Sunday, 2026-11-15T07:05:09.025, the 319th day of its year: 20,772 days and 25,509 seconds after 1970-01-01.
MORNING = time((20772 * 86400 + 25509) * SECOND + 25_000_000)

COMPONENTS = {
    "H": "07", "I": "07", "k": "7", "l": "7", "M": "05", "S": "09", "L": "025", "N": "025000000", "p": "am", "z": "+0000", "Z": "UTC",
    "s": "1794726309", "Q": "1794726309025", "B": "November", "b": "Nov", "h": "Nov", "A": "Sunday", "a": "Sun", "C": "20", "Y": "2026", "y": "26",
    "j": "319", "m": "11", "d": "15", "e": "15", "R": "07:05", "T": "07:05:09", "r": "07:05:09 AM", "D": "11/15/26", "F": "2026-11-15",
    "c": "Sun Nov 15 07:05:09 UTC 2026",
}
CAPITALS = {
    "p": "AM", "B": "NOVEMBER", "b": "NOV", "A": "SUNDAY", "a": "SUN", "r": "07:05:09 AM", "Z": "UTC", "c": "SUN NOV 15 07:05:09 UTC 2026",
    "F": "2026-11-15", "s": "1794726309",
}


def components(r):
    for letter, text in COMPONENTS.items():
        r.ok("%t" + letter, [MORNING], text)
    for letter, text in CAPITALS.items():
        r.ok("%T" + letter, [MORNING], text)
    for fmt in ("%40tF", "%-40tF", "%.2tF", "%040tF", "%+tF", "% tF", "%,(#tF", "%1$-+3.1tF"):
        r.ok(fmt, [MORNING], "2026-11-15")


def moments(r):
    for seconds, text in (
            (0, "Thu Jan 01 00:00:00 UTC 1970"), (-1, "Wed Dec 31 23:59:59 UTC 1969"), (-86400, "Wed Dec 31 00:00:00 UTC 1969"),
            (86399, "Thu Jan 01 23:59:59 UTC 1970"), (86400, "Fri Jan 02 00:00:00 UTC 1970"), (1234567890, "Fri Feb 13 23:31:30 UTC 2009"),
            (2147483647, "Tue Jan 19 03:14:07 UTC 2038"), (951782399, "Mon Feb 28 23:59:59 UTC 2000"), (951782400, "Tue Feb 29 00:00:00 UTC 2000"),
            (951868800, "Wed Mar 01 00:00:00 UTC 2000"), (946684799, "Fri Dec 31 23:59:59 UTC 1999"), (946684800, "Sat Jan 01 00:00:00 UTC 2000"),
            (-2208988800, "Mon Jan 01 00:00:00 UTC 1900"), (-2203891201, "Wed Feb 28 23:59:59 UTC 1900"), (-2203891200, "Thu Mar 01 00:00:00 UTC 1900"),
            (4107542399, "Sun Feb 28 23:59:59 UTC 2100"), (4107542400, "Mon Mar 01 00:00:00 UTC 2100"), (-9223372036, "Tue Sep 21 00:12:44 UTC 1677")):
        r.ok("%tc", [at(seconds)], text)
    r.ok("%tF %<tT.%<tN", [time(LARGEST)], "2262-04-11", " ", "23:47:16", ".", "854775807")
    r.ok("%ts|%<tQ", [at(-1)], "-1", "|", "-1000")
    r.ok("%ts|%<tQ", [time(LARGEST)], "9223372036", "|", "9223372036854")
    r.ok("%tj|%<tH", [at(951868800 + 305 * 86400)], "366", "|", "00")
    for hour, text, short in ((0, "12:00:00 AM", "12"), (1, "01:00:00 AM", "1"), (11, "11:00:00 AM", "11"), (12, "12:00:00 PM", "12"),
                              (13, "01:00:00 PM", "1"), (23, "11:00:00 PM", "11")):
        r.ok("%tr|%<tk|%<tl", [at(hour * 3600)], text, "|", str(hour), "|", short)


def refused(r):
    """18 is that of a t or T element alone, and stands with 15 and 16, left to right."""
    for fmt in ("%tF", "%Tc", "%tZ", "%tz", "%ts", "%tQ", "%tN"):
        r.no(fmt, [time(-1)], 18)
    r.no("%tF", [time(LEAST)], 18)
    r.no("%tF", [time(-SECOND - 1)], 18)
    r.ok("%tF", [time(-SECOND)], "1969-12-31")
    r.ok("%tN", [time(1)], "000000001")
    r.no("ab%tF", [time(-1)], 18, 2)
    r.no("%1$tF%2$tF", [at(1), time(-1)], 18, 5)
    r.no("%s%<tF", [time(-1)], 15)
    r.no("%tF%<s", [time(-1)], 18)
    for fmt in ("%s", "%S", "%h", "%H"):
        r.no(fmt, [at(5)], 15)
        r.no(fmt, [time(-1)], 15)
    for fmt in ("%b", "%c", "%d", "%o", "%x", "%e", "%f", "%g", "%a", "%B", "%C", "%X", "%A"):
        r.no(fmt, [at(5)], 12)
    r.no("%-0tF", [at(5)], 8)
    r.no("%+ tF", [time(-1)], 9)
    r.no("%2147483648tF", [at(5)], 6)
    r.no("%tq", [time(-1)], 11)
    # 15, 16 and 18 come behind the whole format, in the order of its elements, and before 17.
    surrogate = (3, struct.pack("<q", 0xD800))
    r.no("%c%tF", [surrogate, time(-1)], 16)
    r.no("%tF%c", [time(-1), surrogate], 18)
    r.no("%2$tF%1$c", [surrogate, time(-1)], 18)
    r.no("%tF%<q", [time(-1)], 10, 3)
    r.no("%3000tF%<tF%2$3000d", [time(-1), (3, bytes(8))], 18)


def dates(r):
    for group in (components, moments, refused):
        group(r)
