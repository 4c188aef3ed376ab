"""Moments written as words: a date and a time of day in UTC, exact to the nanosecond."""

import datetime
import functools
import re

from inputs import BadInput

HALF = 1 << 63
EPOCH = datetime.date(1970, 1, 1).toordinal()
SECONDS = {f":{second:02}": second * 10**9 for second in range(60)}
KEPT = 1 << 12  # minutes and fractions of which the nanoseconds are kept: many rows of a log have the same

DATE = "[0-9]{4}-[0-9]{2}-[0-9]{2}"
MINUTE = DATE + "[T ][0-9]{2}:[0-9]{2}"
TIME = MINUTE + r"(?::[0-9]{2}(?:\.[0-9]+)?)?"
FRACTION = re.compile(r"(?:\.([0-9]{1,9}))?Z")
# Why a word is no moment: the first that fits it is told.
WHY_NONE = [
    ("null", "only integers and Booleans can be null"),
    (DATE + "Z?", "the time of day is missing; for midnight write T00:00Z behind the date"),
    (TIME, "Z is missing at the end; times are in UTC"),
    (TIME + "[+-][0-9:]+", "an offset is not taken; write the time in UTC, with Z at the end"),
    (MINUTE + r":[0-9]{2}\.[0-9]{10,}Z", "more than nine digits of a second's fraction"),
    (MINUTE + ":[6-9][0-9].*Z", "no such time of day; seconds are 00 to 59, leap seconds are not counted"),
    ("(?s:.*)", "not a date and time such as 2026-11-15T12:30:00.25Z, nor a whole number of nanoseconds"),
]


@functools.lru_cache(KEPT)
def nanoseconds_to(minute):
    """Nanoseconds from 1970 to a minute, as 2026-11-15T12:30."""
    if not re.fullmatch(MINUTE, minute):
        raise KeyError(minute)
    hours, minutes = int(minute[11:13]), int(minute[14:])
    if hours > 23 or minutes > 59:
        raise ValueError("no such time of day; hours are 00 to 23, minutes 00 to 59")
    try:
        days = datetime.date(int(minute[:4]), int(minute[5:7]), int(minute[8:10])).toordinal() - EPOCH
    except ValueError as error:
        raise ValueError(f"no such date, {error}") from error
    return ((days * 24 + hours) * 60 + minutes) * 60 * 10**9


@functools.lru_cache(KEPT)
def nanoseconds_in(fraction):
    """Nanoseconds of what stands behind the second, as .25Z or Z."""
    found = FRACTION.fullmatch(fraction)
    if not found:
        raise KeyError(fraction)
    return int((found[1] or "").ljust(9, "0"))


def moments(words):
    """Nanoseconds from 1970 to the moments that words name. KeyError where a word has another form, ValueError where there is no such moment."""
    values = [nanoseconds_to(word[:16]) + SECONDS[word[16:19]] + nanoseconds_in(word[19:]) for word in words]
    if not (-HALF <= min(values) and max(values) < HALF):
        raise ValueError("out of range, which is 1677-09-21T00:12:43.145224192Z to 2262-04-11T23:47:16.854775807Z")
    return values


def moment(word):
    """The same for one word, in which the second may be left out."""
    try:
        return moments([word[:16] + ":00Z" if word[16:] == "Z" else word])[0]
    except KeyError:
        why = next(why for form, why in WHY_NONE if re.fullmatch(form, word))
    except ValueError as error:
        why = error
    raise BadInput(f"time={word}: {why}")
