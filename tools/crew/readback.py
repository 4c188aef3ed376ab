"""The order's rule for reading a printed column back (docs/MANUAL.md, "Reading a column back")."""

import re
from fractions import Fraction

DROPPED = b" ,+"
DECIMAL = re.compile(rb"(-?)0*([0-9]+)|\(0*([0-9]+)\)")
BASE = {"x": (16, re.compile(rb"(?:0x)?([0-9a-f]+)")), "o": (8, re.compile(rb"(?:0x)?([0-7]+)"))}
FLOAT = re.compile(rb"(-?)0x0*([0-9a-f]+)\.([0-9a-f]+)p(-?[0-9]+)")


class Reading:
    """What a column denotes: a sign, which zero has too, and a size. Of a float's text also how many digits stand behind the point."""

    def __init__(self, negative, size, digits=0):
        self.negative, self.size, self.digits = negative, Fraction(size), digits

    def is_same(self, other):
        return (self.negative, self.size) == (other.negative, other.size)

    def is_nearest(self, number, digits):
        """Whether this is the nearest to a float, which is not zero, of the numbers 1.d..d times a power of two with so many hexadecimal digits; of two
        the one with an even last digit. Between two powers of two they lie evenly, and the power above is the last of them."""
        size = number.size
        power = size.numerator.bit_length() - size.denominator.bit_length()  # of the power of two below; the denominator is a power of two
        last = Fraction(2) ** (power - 4 * digits)
        return (self.negative, self.size, self.digits) == (number.negative, round(size / last) * last, digits)

    def __str__(self):
        sign = "-" if self.negative else ""
        if self.size.denominator == 1 and self.size < 1 << 64:
            return f"{sign}{self.size}"
        try:
            return sign + repr(float(self.size))
        except OverflowError:
            return f"{sign}2^{self.size.numerator.bit_length() - 1}"


def read_back(letter, piece):
    """The reading of a piece's bytes under its element's letter; None where the rule does not read it."""
    letter, kept = letter.lower(), piece.translate(None, DROPPED).lower()
    if letter == "d" and (found := DECIMAL.fullmatch(kept)):
        sign, plain, bracketed = found.groups()
        return Reading(bool(sign) or plain is None, int(plain or bracketed))
    if letter in BASE and (found := BASE[letter][1].fullmatch(kept)):
        return Reading(False, int(found[1], BASE[letter][0]))
    if letter == "a" and (found := FLOAT.fullmatch(kept)):
        sign, whole, behind, power = found.groups()
        digits = behind.rstrip(b"0")  # zeros at the end count nothing
        size = int(whole + digits, 16) * Fraction(2) ** (int(power) - 4 * len(digits))
        return Reading(bool(sign), size, len(behind))
    return None
