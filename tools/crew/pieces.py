"""The table of a line's pieces. Where each piece stands in the format, and which value it takes, is asked of the library: it is not read a second time here."""

import re
import struct

from library import MOST_OUTPUT
from readback import Reading, read_back
from shown import shortened, table, units
from values import KIND, NULL_MARK

INTEGERS = {KIND["int8"]: 8, KIND["int16"]: 16, KIND["int32"]: 32, KIND["int64"]: 64}
NAME = {number: kind for kind, number in KIND.items()}
READ = set("dxXoaA")
PRECISION = re.compile(rb"\.0*([0-9]+)")
ALL_DIGITS = 13  # hexadecimal digits of a float's fraction
DIFFERENT = "DIFFERENT"
SIGN = 1 << 63
MOST_LONGER = 1024  # bytes by which a line can be longer with another value: one or two a piece


class Value:
    """A value of a row that is a number: its kind, its 8 bytes as bits, and where these stand."""

    def __init__(self, kind, bits, offset):
        self.kind, self.bits, self.offset = kind, bits, offset

    def other_row(self, row):
        """The row with another value of the kind here; no character is changed to a number that is none."""
        bits = self.bits ^ (SIGN if self.kind == KIND["f64"] else 1)
        return row[:self.offset] + struct.pack("<Q", bits) + row[self.offset + 8:]

    def number(self):
        """The number, as a reading would give it."""
        if self.kind == KIND["f64"]:
            return Reading(self.bits >= SIGN, abs(struct.unpack("<d", struct.pack("<Q", self.bits))[0]))
        signed = self.bits - 2 * SIGN if self.bits >= SIGN else self.bits
        return Reading(signed < 0, abs(signed))

    def is_finite(self):
        return self.kind != KIND["f64"] or self.bits >> 52 & 0x7FF != 0x7FF


def numbers_of(row):
    """The values of a row that are numbers and can be read back."""
    count = int.from_bytes(row[:2], "little")
    values = []
    for k, kind in enumerate(row[6:6 + count]):
        offset = 6 + count + 8 * k
        value = Value(kind, int.from_bytes(row[offset:offset + 8], "little"), offset)
        if (kind in INTEGERS or kind == KIND["f64"]) and value.is_finite():
            values.append(value)
    return values


def places_in_format(library, form, kinds):
    """Where each piece ends in an accepted format: behind the last byte with which the format so far has that many pieces."""
    ends = {}
    for length in range(len(form) + 1):
        answer = library.panel_check(form, length, kinds, len(kinds))
        if answer.number == 0:
            ends[answer.pieces] = length
    return [ends[k] for k in range(1, len(ends))]


def cut(data, ends):
    """The bytes between each end and the one before."""
    return [data[start:end] for start, end in zip([0] + ends, ends)]


def value_of_each(library, form, row, texts):
    """The number that each piece prints: the one with which its text changes; None where there is none."""
    found = [None] * len(texts)
    for value in numbers_of(row):
        others = cut(*library.print(form, value.other_row(row), MOST_OUTPUT + MOST_LONGER))
        for k, (text, other) in enumerate(zip(texts, others)):
            if text != other:
                found[k] = value
    return found


def letter_of(part):
    """The letter of an element's part of the format; nothing for letters behind t or T."""
    return "" if part[-2:-1] in (b"t", b"T") else chr(part[-1])


def digits_of(part):
    """The digits to which an element of a float is rounded by its precision, of which 0 counts as 1; 0 where it is not rounded."""
    found = PRECISION.search(part)
    digits = max(1, int(found[1][:4])) if found else ALL_DIGITS
    return digits if digits < ALL_DIGITS else 0


def is_rounded(part, reading, number):
    """Whether an element of a float has been rounded, and to the nearest."""
    return digits_of(part) > 0 and number.size > 0 and reading.is_nearest(number, digits_of(part))


def compared(part, text, value):
    """What a piece reads back as, the row's value, and how they agree; nothing where the rule promises nothing."""
    letter = letter_of(part)
    if value is None or part[:1] != b"%" or letter not in READ:
        return "", "", ""
    reading, number = read_back(letter, text), value.number()
    shown = f"{NAME[value.kind]} {number}"
    if reading is None:
        return "nothing", shown, DIFFERENT
    if reading.is_same(number):
        return str(reading), shown, "same"
    if letter in "xXo" and number.negative and reading.size + number.size == 1 << INTEGERS[value.kind]:
        return str(reading), shown, f"same bits: {reading} - 2^{INTEGERS[value.kind]}"
    return str(reading), shown, "rounded" if letter in "aA" and is_rounded(part, reading, number) else DIFFERENT


def table_of_pieces(library, form, row):
    """The table, in lines."""
    text, ends = library.print(form, row)
    kinds = bytes(kind & ~NULL_MARK for kind in row[6:6 + int.from_bytes(row[:2], "little")])
    parts, texts = cut(form, places_in_format(library, form, kinds)), cut(text, ends)
    values = value_of_each(library, form, row, texts)
    rows = [[units(cell.encode()) for cell in ("piece", "format", "from", "to", "text", "reads back as", "value", "")]]
    for k, (part, piece, end, value) in enumerate(zip(parts, texts, ends, values), 1):
        cells = [str(k), None, str(end - len(piece)), str(end), None, *compared(part, piece, value)]
        cells = [cell and units(cell.encode()) or [] for cell in cells]
        cells[1], cells[4] = quoted(part), quoted(piece)
        rows.append(cells)
    return table(rows)


def quoted(data):
    return [("`", 1)] + shortened(data, 32) + [("`", 1)]
