#!/usr/bin/env python3
"""Packs a format and values into the input of the program `sheet`, on standard output."""

import struct
import sys

from inputs import BadInput, bytes_of, put, read_format, run_command
from values import pack_row

USAGE = "usage: pack.py [--] FORMAT [KIND=VALUE ...] | pack.py --format-file FILE [KIND=VALUE ...] | pack.py --help"

HELP = USAGE + """

Writes the input of the program `sheet` to standard output: the format's length in 2 bytes, the format, the row of the values.

  --format-file FILE   takes the format from a file, byte for byte; a line end at the end of the file belongs to it
  --help, -h           prints this text
  --                   the next word is the format, though it begins with --

Kinds of values, at most 64 of them:

  int8= int16= int32= int64=   a whole number, decimal or 0x.., with a sign in front or not, in the kind's range; or null
  f64=    decimal, hexadecimal as 0x1.8p3, nan, inf, -inf, or the 64 bits as bits:0x7ff8000000000000
  bool=   true, false or null
  text=   the rest of the word, which may be empty or hold =; all texts together at most 32,768 bytes
  time=   date and time in UTC as 2026-11-15T12:30Z or 2026-11-15T12:30:00.25Z, up to nine digits of a second; or nanoseconds since 1970, a whole number

A format of up to 65,535 bytes is packed as it stands, and so is text, well-formed UTF-8 or not: `sheet` says what it refuses.
What cannot be packed is told on standard error, with exit status 2, and nothing is written. An output that cannot be written is told so too.

Examples:

  pack.py 'gate %d %s' int8=7 text=north | crates/sheet/out/sheet
  pack.py '%05d %x %a' int32=-5 int8=-1 f64=0x1.8p3 | crates/sheet/out/sheet
  pack.py '%b %d %.1a' bool=true int32=null f64=bits:0x0000000000000001 | crates/sheet/out/sheet
  pack.py '%tF %<tT' time=2026-11-15T12:30:00.25Z | crates/sheet/out/sheet
  pack.py --format-file heading.txt text='a=b' | crates/sheet/out/sheet
"""

MOST_FORMAT = 65535


def pack(form, words):
    """The input of `sheet` for a format, bytes, and the words KIND=VALUE."""
    if len(form) > MOST_FORMAT:
        raise BadInput(f"format of {len(form)} bytes: more than {MOST_FORMAT}")
    return struct.pack("<H", len(form)) + form + pack_row(words)


def command(words):
    """What the command line asks for: the bytes to write."""
    if words[:1] in (["--help"], ["-h"]):
        return HELP.encode()
    if words[:1] == ["--format-file"]:
        if len(words) < 2:
            raise BadInput("--format-file: the file's name is missing")
        return pack(read_format(words[1]), words[2:])
    if words[:1] == ["--"]:
        words = words[1:]
    elif words and words[0].startswith("--"):
        raise BadInput(f"{words[0]}: no such option; write -- in front of a format that begins so")
    if not words:
        raise BadInput("the format is missing")
    return pack(bytes_of(words[0]), words[1:])


def run(words):
    """Writes what the words ask for; the exit status. `sheet` may read less than is written: it takes no more than 65,536 bytes."""
    put(command(words))
    return 0


if __name__ == "__main__":
    sys.exit(run_command("pack.py", USAGE, run))
