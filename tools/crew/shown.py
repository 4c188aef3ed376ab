"""Bytes shown on a terminal: what it cannot show is escaped, and columns are counted, which are not bytes."""

import unicodedata

from inputs import escaped

NAMED = {"\n": "\\n", "\r": "\\r", "\t": "\\t"}
HIDDEN = {"Cc", "Cf", "Cs", "Co", "Cn", "Zl", "Zp"}  # categories of characters that show nothing, or move what follows
ENOUGH = 1024  # bytes in which there are more columns than a table shows
ABOVE = {"Mn", "Me"}  # categories of characters that stand on the one before


def unit(character):
    """How one character is shown, and how many columns that takes."""
    if character in NAMED:
        return NAMED[character], 2
    category = unicodedata.category(character)
    if category in ABOVE:
        return character, 0
    if category in HIDDEN:
        text = escaped(character)
        return text, len(text)
    return character, 2 if unicodedata.east_asian_width(character) in "WF" else 1


def units(data):
    """Bytes as characters, each with its columns."""
    return [unit(character) for character in data.decode("utf-8", "surrogateescape")]


def columns(some):
    return sum(width for _, width in some)


def text_of(some):
    return "".join(text for text, _ in some)


def first(some, most):
    """As many of the first units as stand in the columns."""
    taken = used = 0
    for _, width in some:
        used += width
        if used > most:
            break
        taken += 1
    return some[:taken]


def last(some, most):
    """As many of the last units as stand in the columns."""
    return first(some[::-1], most)[::-1]


def shortened(data, most):
    """Units of bytes, with `...` in the middle where there are more columns. Of very many bytes only those at both ends are looked at."""
    half = (most - 3) // 2
    if len(data) > 2 * ENOUGH:
        return first(units(data[:ENOUGH]), half) + [("...", 3)] + last(units(data[-ENOUGH:]), half)
    some = units(data)
    return some if columns(some) <= most else first(some, half) + [("...", 3)] + last(some, half)


def mark(form, place):
    """The format around a place, and a mark under the place."""
    before, behind = units(form[:place]), units(form[place:])
    if columns(before) > 50:
        before = [("...", 3)] + last(before, 47)
    if columns(behind) > 25:
        behind = first(behind, 22) + [("...", 3)]
    return [text_of(before + behind), " " * columns(before) + f"^ byte {place}"]


def table(rows):
    """Rows of cells, each a list of units, as lines with columns under one another."""
    widths = [max(columns(cell) for cell in column) for column in zip(*rows)]
    return ["  ".join(text_of(cell) + " " * (width - columns(cell)) for cell, width in zip(row, widths)).rstrip() for row in rows]


def counted(count, thing):
    """A number of things, in words."""
    return f"{count:,} {thing}{'' if count == 1 else 's'}"
