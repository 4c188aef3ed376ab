"""Every refusal: its number, its cause and its cure. The manual's table has the same words (test_line.py compares them)."""

from library import FULL, MOST_OUTPUT
from shown import mark

REFUSALS = {
    1: ("the format is longer than 4,096 bytes", "print it in two parts"),
    2: ("the format is not well-formed UTF-8", "save the format as UTF-8"),
    3: ("checking: more than 64 kinds, or a kind that is none", "list at most 64 kinds, without null marks"),
    4: ("`%<` before any element", "write the first element without `<`"),
    5: ("`%$`", "write a number between `%` and `$`, or leave out `$`"),
    6: ("a number above 2,147,483,647", "write a smaller index, width or precision"),
    7: ("the argument's number is above the count of values", "write a smaller index, or give more values (checking: kinds); `%%` prints a plain `%`"),
    8: ("`0` after `-`", "leave out one of them"),
    9: ("`+` and space together", "leave out one of them"),
    10: ("no such letter, or the format ends inside an element", "take a letter of the manual's table; `%%` prints a plain `%`"),
    11: ("no such letter behind `t` or `T`, or the format ends there", "take a letter of the manual's table of dates"),
    12: ("the letter does not fit the value's kind", "take another letter, or another value"),
    13: ("more than 512 pieces", "print it in two parts"),
    14: ("the row breaks its layout", "keep to the row's layout; texts are well-formed UTF-8"),
    15: ("the letter is not printed for this kind", "take a letter of the manual's table"),
    16: ("`%c` of a number that is no character", "take 0 to D7FF or E000 to 10FFFF, hexadecimal"),
    17: ("printing: the text is longer than the output or than 4,294,967,295 bytes, or there are more pieces than ends",
         "lend as much as measuring says; print in two parts what is longer"),
    18: ("`t` or `T` of a time before 1970 that is not a whole second", "take a whole second; or print its nanoseconds, as int64 with `%d`"),
}

WITHOUT_PLACE = {1, 2, 3, 14, 17}


def in_one_line(refused):
    """The refusal with its cause, the place in the format where it has one, and the cure."""
    cause, cure = REFUSALS[refused.number]
    where = "" if refused.number in WITHOUT_PLACE else f", at byte {refused.place} of the format"
    return f"refused with {refused.number}: {cause}{where}{lent(refused, '; ')}; cure: {cure}"


def explained(form, refused):
    """The refusal with its cause, the place shown under the format, and the cure."""
    cause, cure = REFUSALS[refused.number]
    lines = [f"refused with {refused.number}: {cause}"]
    if refused.number not in WITHOUT_PLACE:
        lines += ["  " + line for line in mark(form, refused.place)]
    if refused.number == FULL:
        lines.append(f"{lent(refused, '  ')}; --measure says how many are needed")
    return "\n".join(lines + [f"  cure: {cure}"])


def lent(refused, before):
    """Of a text that does not fit: how much room it was given."""
    return f"{before}line lends at most {MOST_OUTPUT:,} bytes" if refused.number == FULL else ""
