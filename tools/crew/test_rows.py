#!/usr/bin/env python3
"""Tests of rows_print (tools/crew/rows.c) with every slice beside unmapped pages: a read or write outside one on that side ends this program, and on the
other side the bytes near it are compared. Run: python3 tools/crew/test_rows.py, with the library built."""

import array
import ctypes
import itertools
import mmap
import random
import unittest

from test_line import TOOLS  # noqa: F401 (finds the modules below)
from library import FULL, Library, Place, Refused
from values import pack_row

PAGE = mmap.PAGESIZE
NEAR = 64  # bytes beside a slice that are compared
NO_ACCESS, READ, READ_AND_WRITE = 0, 1, 3
FORMATS = [b"", b"x", b"%d %s|", b"%,d%n%2$40s%1$x", b"%c", b"%1$600d", b"%%" * 200 + b"%d",
           b"%3$tc|%<TB"]
ROWS = [["int32=7", "text=north", "time=2026-11-15T07:05:09Z"], ["int32=-1", "text=", "time=-1"],
        ["int32=1234567", "text=" + "w" * 300, "time=-1000000000"], ["int32=null", "text=\udcff", "time=1"], ["int32=65", "text=x", "time=0"]]
protect = ctypes.CDLL(None, use_errno=True).mprotect
protect.argtypes = [ctypes.c_void_p, ctypes.c_size_t, ctypes.c_int]


class Yard:
    """Some pages between two that cannot be read or written."""

    SIZE = 4 * PAGE

    def __init__(self):
        self.map = mmap.mmap(-1, self.SIZE + 2 * PAGE)
        self.at = ctypes.addressof(ctypes.c_char.from_buffer(self.map)) + PAGE
        for page in (self.at - PAGE, self.at + self.SIZE):
            assert protect(page, PAGE, NO_ACCESS) == 0

    def lend(self, data, at_end, access=READ):
        """Where the data now lie, at the end of the pages or at their start, in nothing but a pattern."""
        assert protect(self.at, self.SIZE, READ_AND_WRITE) == 0
        ctypes.memset(self.at, 0xA5, self.SIZE)
        place = self.at + (self.SIZE - len(data) if at_end else 0)
        ctypes.memmove(place, data, len(data))
        assert protect(self.at, self.SIZE, access) == 0
        return place

    def beside(self, size, at_end):
        """The bytes beside a slice of this size, on the side without a page that is not mapped."""
        return ctypes.string_at(self.at + self.SIZE - size - NEAR if at_end else self.at + size, NEAR)


class Rows(unittest.TestCase):
    def setUp(self):
        self.library, self.yards = Library(), [Yard() for _ in range(5)]
        # as the library has it, but for addresses in place of bytes
        pointer, size = ctypes.c_void_p, ctypes.c_size_t
        self.rows_print = ctypes.CFUNCTYPE(self.library.rows_print.restype, pointer, size, pointer, pointer, size, pointer, size, size, pointer)(
            ctypes.cast(self.library.rows_print, pointer).value)

    def printed(self, form, row, column):
        """What a row is to print: from panel_print; the number of a refusal."""
        try:
            text, ends = self.library.print(form, row)
        except Refused as refused:
            return refused.number
        return text[([0] + ends)[column - 1]:ends[column - 1]] + b"\n" if column else text + b"\n"

    def expected(self, form, rows, room, column):
        """The output and the row at which it stops, with the number."""
        out = b""
        for k, row in enumerate(rows):
            text = self.printed(form, row, column)
            if isinstance(text, int):
                return out, k, text if room > len(out) else FULL
            whole = self.library.measure(form, row).length + 1  # a row is printed whole before a column is cut out
            if whole > room - len(out):
                return out, k, FULL
            out += text
        return out, len(rows), 0

    def try_call(self, form, rows, room, column, at_end):
        data, lengths = b"".join(rows), array.array("I", map(len, rows)).tobytes()
        before = bytes(k % 251 for k in range(room))
        lent = [yard.lend(given, at_end) for yard, given in zip(self.yards, (form, data, lengths))]
        out = self.yards[3].lend(before, at_end, READ_AND_WRITE)
        place = self.yards[4].lend(bytes(ctypes.sizeof(Place)), at_end, READ_AND_WRITE)
        answer = self.rows_print(lent[0], len(form), lent[1], lent[2], len(rows), out, room, column, place)
        text, stopped, number = self.expected(form, rows, room, column)
        left = Place.from_address(place)
        self.assertEqual((answer.number, left.row, left.at, left.used), (number, stopped, sum(map(len, rows[:stopped])), len(text)), (form, room, column))
        got = ctypes.string_at(out, room)
        self.assertEqual(got[:len(text)], text)
        if not column:  # of a column the rest of the row is left behind it
            self.assertEqual(got[len(text):], before[len(text):])
        for yard, size in ((self.yards[3], room), (self.yards[4], ctypes.sizeof(Place))):
            self.assertEqual(yard.beside(size, at_end), b"\xa5" * NEAR)

    def test_slices_beside_unmapped_pages(self):
        rng, calls = random.Random(1), 0
        packed = [pack_row(words) for words in ROWS]
        for form, at_end, count in itertools.product(FORMATS, (True, False), range(6)):
            pieces = self.library.check(form, bytes([3, 7, 8])).pieces
            for _ in range(12):
                rows = [rng.choice(packed) for _ in range(count)]
                whole = len(self.expected(form, rows, 1 << 14, 0)[0])
                room = max(0, rng.choice([0, 1, whole - 1, whole, whole + 1, rng.randrange(whole + 2)]))
                self.try_call(form, rows, room, rng.randrange(pieces + 1), at_end)
                calls += 1
        self.assertEqual(calls, 12 * 6 * 2 * len(FORMATS))


if __name__ == "__main__":
    unittest.main()
