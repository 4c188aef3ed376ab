#!/usr/bin/env python3
"""Writes crates/vectors/data/wrong.vec, a list of records of which none is right.

Each is a record of check.vec or print.vec with one field of its answer changed; the last is cut off. So the program must find as many failures as
there are records. Run it after the scripts that write those two. It takes no argument and writes the same bytes each time. crates/vectors/README.md
has the layout of a record.
"""

import os
import sys

HERE = os.path.dirname(os.path.abspath(__file__))
DATA = os.path.join(HERE, "..", "..", "crates", "vectors", "data")

# How a record's answer begins.
ACCEPTED, CHECK_REFUSED, PRINTED, PRINT_REFUSED = 0, 1, 2, 3

# Of how many right records of each kind wrong ones are made.
EACH = 3


def number(data, at, size):
    return int.from_bytes(data[at:at + size], "little")


def two(n):
    return n.to_bytes(2, "little")


# ---------------------------------------------------------------------------------------------------------------------------------------------
# Records: (call, answer), where the call is the format with the kinds or the row, as they stand in a list, and the answer a tuple of its tag and
# fields.

def read(name):
    with open(os.path.join(DATA, name), "rb") as f:
        data = f.read()
    at, records = 0, []
    while at < len(data):
        start = at
        for _ in range(2):
            at += 2 + number(data, at, 2)
        call, tag = data[start:at], data[at]
        at += 1
        if tag == ACCEPTED:
            answer = tag, number(data, at, 2), number(data, at + 2, 2)
            at += 4
        elif tag == PRINTED:
            end = at + 2 + number(data, at, 2)
            count = number(data, end, 2)
            answer = tag, data[at + 2:end], tuple(number(data, end + 2 + 4 * k, 4) for k in range(count))
            at = end + 2 + 4 * count
        else:
            answer = tag, data[at], number(data, at + 1, 2)
            at += 3
        records.append((call, answer))
    return records


def written(call, answer):
    tag, first, second = answer
    if tag == ACCEPTED:
        return call + bytes([tag]) + two(first) + two(second)
    if tag == PRINTED:
        return call + bytes([tag]) + two(len(first)) + first + two(len(second)) + b"".join(end.to_bytes(4, "little") for end in second)
    return call + bytes([tag, first]) + two(second)


# ---------------------------------------------------------------------------------------------------------------------------------------------
# Answers with one field changed.

def other(byte):
    """A byte that differs in its lowest bit."""
    return bytes([byte ^ 1])


def wrong_accepted(pieces, largest):
    yield ACCEPTED, pieces + 1, largest
    yield ACCEPTED, pieces - 1, largest
    yield ACCEPTED, pieces + 256, largest
    yield ACCEPTED, pieces, largest + 1
    yield ACCEPTED, pieces, largest - 1
    yield ACCEPTED, pieces, largest + 256
    yield CHECK_REFUSED, 7, 0


def wrong_refused(tag, number, place):
    yield tag, number + 1, place
    yield tag, number - 1, place
    yield tag, number, place + 1
    yield tag, number, place - 1
    yield tag, number, place + 256
    if tag == CHECK_REFUSED:
        yield ACCEPTED, 1, 1
    else:
        yield PRINTED, b"", ()


def wrong_printed(text, ends):
    yield PRINTED, other(text[0]) + text[1:], ends
    yield PRINTED, text[:-1] + other(text[-1]), ends
    yield PRINTED, text[:-1], ends
    yield PRINTED, text + text[-1:], ends
    yield PRINTED, text, (ends[0] + 1,) + ends[1:]
    yield PRINTED, text, ends[:1] + (ends[1] - 1,) + ends[2:]
    yield PRINTED, text, ends[:-1] + (ends[-1] + 1,)
    yield PRINTED, text, ends[:-1] + (ends[-1] + 2 ** 24,)
    yield PRINTED, text, ends[:-1]
    yield PRINTED, text, ends + ends[-1:]
    yield PRINT_REFUSED, 17, 0


def wrong(answer):
    tag, first, second = answer
    if tag == ACCEPTED:
        return wrong_accepted(first, second)
    if tag == PRINTED:
        return wrong_printed(first, second)
    return wrong_refused(tag, first, second)


def is_large(answer):
    """Whether every field can be made smaller, and a text has pieces of more than one length."""
    tag, first, second = answer
    if tag == PRINTED:
        return len(second) > 2 and second[0] > 1 and second[1] > second[0] + 1
    return first > 1 and second > 0


def main():
    right = read("check.vec") + read("print.vec")
    chosen = []
    for tag in (ACCEPTED, CHECK_REFUSED, PRINTED, PRINT_REFUSED):
        chosen += [one for one in right if one[1][0] == tag and is_large(one[1])][:EACH]
    if len(chosen) < 4 * EACH:
        sys.exit("too few right records")
    records = [written(call, answer) for call, right in chosen for answer in wrong(right)]
    records.append(written(*chosen[0])[:-1])
    if len(set(records)) < len(records) or set(records) & {written(*one) for one in right}:
        sys.exit("a record stands twice, or is right")
    data = b"".join(records)
    with open(os.path.join(DATA, "wrong.vec"), "wb") as f:
        f.write(data)
    print("%d records, %d bytes" % (len(records), len(data)))


if __name__ == "__main__":
    main()
