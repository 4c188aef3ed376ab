"""Values written as words (`int8=7`), and the row of values that is packed from them (docs/MANUAL.md, "The row")."""

import array
import itertools
import operator
import re
import struct

from inputs import BadInput, bytes_of

MOST_VALUES = 64
MOST_TEXT = 32768

KIND = {"int8": 1, "int16": 2, "int32": 3, "int64": 4, "f64": 5, "bool": 6, "text": 7, "time": 8}
INTEGER_BITS = {"int8": 8, "int16": 16, "int32": 32, "int64": 64}
NULL_MARK = 128

INTEGER = re.compile(r"[+-]?(0[xX][0-9a-fA-F]+|[0-9]+)")
DECIMAL = re.compile(r"[+-]?([0-9]+\.?[0-9]*|\.[0-9]+)([eE][+-]?[0-9]+)?")
HEX_FLOAT = re.compile(r"[+-]?0[xX]([0-9a-fA-F]+\.?[0-9a-fA-F]*|\.[0-9a-fA-F]+)([pP][+-]?[0-9]+)?")
BITS = re.compile(r"bits:0[xX][0-9a-fA-F]+")
FLOAT_WORDS = {"nan": 0x7FF8000000000000, "inf": 0x7FF0000000000000, "-inf": -0x10000000000000}
BOOLEANS = {"true": 1, "false": 0}
NULLS = ("null",)


# A parser takes words of one kind and gives for each the 8 bytes of the row as a signed number, None for null. That of texts gives their bytes.
# `nulls` are the words that stand for null.


def plain_integers(words, half):
    """The integers of words in decimal digits, from -half to below half; None where that is not quickly seen of all of them."""
    if bytes_of("".join(words)).replace(b"-", b"").isdigit():  # where there are only digits and `-`, int() takes what is a number here, and nothing else
        try:
            values = list(map(int, words))
            if -half <= min(values) and max(values) < half:
                return values
        except ValueError:  # a word that is no number, or one of very many digits
            pass
    return None


def integers(kind, words, nulls):
    """The integers that words stand for."""
    half = 1 << INTEGER_BITS[kind] - 1
    values = plain_integers(words, half)
    return [None if word in nulls else integer(kind, half, word) for word in words] if values is None else values


def integer(kind, half, word):
    """The integer that a word stands for, from -half to below half."""
    if not INTEGER.fullmatch(word):
        raise BadInput(f"{kind}={word}: not a whole number, decimal or 0x..")
    digits = word.lstrip("+-")
    base = 16 if digits[:2] in ("0x", "0X") else 10
    if base == 10:
        digits = digits.lstrip("0")[:20] or "0"  # 20 digits are out of every range
    value = -int(digits, base) if word.startswith("-") else int(digits, base)
    if not -half <= value < half:
        raise BadInput(f"{kind}={word}: out of range, which is {-half} to {half - 1}")
    return value


def float_bits(word):
    """The bits of a binary64."""
    if word in FLOAT_WORDS:
        return FLOAT_WORDS[word]
    if word == "null":
        raise BadInput("f64=null: only integers and Booleans can be null")
    if BITS.fullmatch(word):
        bits = int(word[len("bits:"):], 16)
        if bits >> 64:
            raise BadInput(f"f64={word}: out of range, more than 64 bits")
        return bits - (1 << 64) if bits >> 63 else bits
    try:
        if DECIMAL.fullmatch(word):
            value = float(word)
        elif HEX_FLOAT.fullmatch(word):
            value = float.fromhex(word)
        else:
            raise BadInput(f"f64={word}: not a decimal or hexadecimal float, nan, inf, -inf or bits:0x..")
    except OverflowError:
        value = float("inf")
    if value in (float("inf"), float("-inf")):
        raise BadInput(f"f64={word}: out of range; infinity is written inf or -inf")
    return struct.unpack("<q", struct.pack("<d", value))[0]


def booleans(words, nulls):
    """0 or 1 for each word; None for null."""
    values = BOOLEANS | dict.fromkeys(nulls)
    try:
        return [values[word] for word in words]
    except KeyError as error:
        raise BadInput(f"bool={error.args[0]}: not true, false or null") from error


def times(words):
    """Nanoseconds since 1970 that words stand for: their number, or a moment."""
    from moments import HALF, moment, moments  # only here: it brings much along
    values = plain_integers(words, HALF)
    try:
        return moments(words) if values is None else values
    except (KeyError, ValueError):
        return [integer("time", HALF, word) if INTEGER.fullmatch(word) else moment(word) for word in words]


def parse(kind, words, nulls=NULLS):
    """The parser of a kind, by its name."""
    if kind in INTEGER_BITS:
        return integers(kind, words, nulls)
    if kind == "bool":
        return booleans(words, nulls)
    if kind == "time":
        return times(words)
    return [float_bits(word) for word in words] if kind == "f64" else [bytes_of(word) for word in words]


class Rows:
    """Packs rows whose values have the same kinds, given by their names."""

    def __init__(self, names, nulls=NULLS):
        count = len(names)
        if count > MOST_VALUES:
            raise BadInput(f"{count} values: more than {MOST_VALUES}")
        self.names, self.nulls, self.kinds = names, nulls, bytes(KIND[name] for name in names)
        self.layout = struct.Struct(f"<HI{count}s" + "".join("II" if name == "text" else "q" for name in names))

    def pack(self, columns, count):
        """So many rows end to end, and the length of each, of a column of words for each kind: count, length of the text, kind bytes, values, text."""
        values = [parse(name, words, self.nulls) for name, words in zip(self.names, columns)]
        fields, texts = self.fields_and_texts(values, count)
        lengths = list(map(len, texts))
        if max(lengths) > MOST_TEXT:
            raise BadInput(f"text of {max(lengths)} bytes in all: more than {MOST_TEXT}")
        try:
            rows = self.fixed(lengths, itertools.repeat(self.kinds), fields)
        except struct.error:  # None, for null, is no number
            kinds = [bytes(kind + NULL_MARK * (value is None) for kind, value in zip(self.kinds, row)) for row in zip(*values)]
            rows = self.fixed(lengths, kinds, [[field or 0 for field in column] for column in fields])
        if "text" in self.names:
            rows = list(map(operator.add, rows, texts))
        return b"".join(rows), array.array("I", map(len, rows))

    def fields_and_texts(self, values, count):
        """The numbers of each column of values, of a text its offset and its length, and the texts of each row behind one another."""
        fields, texts = [], [b""] * count
        for name, column in zip(self.names, values):
            if name == "text":
                fields += [list(map(len, texts)), list(map(len, column))]
                texts = list(map(operator.add, texts, column))
            else:
                fields.append(column)
        return fields, texts

    def fixed(self, lengths, kinds, fields):
        """What stands in each row before its text."""
        return list(map(self.layout.pack, itertools.repeat(len(self.names)), lengths, kinds, *fields))


def split_value(word):
    """The kind's name and the value's word of a word KIND=VALUE."""
    name, equals, rest = word.partition("=")
    if not equals:
        raise BadInput(f"{name}: a value is written KIND=VALUE")
    check_kind(name)
    return name, rest


def check_kind(name):
    if name not in KIND:
        raise BadInput(f"{name or 'an empty name'}: no such kind; there are {' '.join(KIND)}")


def pack_row(words):
    """The row of the words KIND=VALUE."""
    parts = [split_value(word) for word in words]
    return Rows([name for name, _ in parts]).pack([[rest] for _, rest in parts], 1)[0]
