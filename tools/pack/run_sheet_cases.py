#!/usr/bin/env python3
"""Runs the program `sheet` on the cases of cases.txt and compares what it writes, byte for byte.

Run: python3 tools/pack/run_sheet_cases.py crates/sheet/out/sheet [CASES]. The last line is `N passed, M failed`; the exit code is 0 where none failed.

A case is a line `pack WORDS => OUTPUT` or `raw BYTES => OUTPUT`: the input is what pack.py makes of the words, or the bytes themselves. Words are
split as a shell does, with single quotes. In words, bytes and output `\\n`, `\\\\` and `\\xNN` stand for a byte, `{TEXT*N}` for N times TEXT, and
`{A..B}` for the numbers from A to B, one a line. Lines that are empty or begin with # are no cases.
"""

import os
import re
import shlex
import subprocess
import sys

import pack

HERE = os.path.dirname(os.path.abspath(__file__))

ESCAPE = re.compile(rb"\\(?:n|\\|x[0-9a-f]{2})")
REPEAT = re.compile(rb"\{([^{}]*)\*([0-9]+)\}")
NUMBERS = re.compile(rb"\{([0-9]+)\.\.([0-9]+)\}")


def escaped(match):
    word = match.group()
    if word == b"\\n":
        return b"\n"
    if word == b"\\\\":
        return b"\\"
    return bytes([int(word[2:], 16)])


def unescape(text):
    """The bytes that a word or an output of a case stands for."""
    data = text.encode("utf-8")
    data = NUMBERS.sub(lambda m: b"".join(b"%d\\n" % k for k in range(int(m.group(1)), int(m.group(2)) + 1)), data)
    data = REPEAT.sub(lambda m: m.group(1) * int(m.group(2)), data)
    return ESCAPE.sub(escaped, data)


def input_of(case):
    """The input that the left side of a case stands for."""
    words = [unescape(word) for word in shlex.split(case)]
    if words[0] == b"raw" and len(words) == 2:
        return words[1]
    if words[0] == b"pack":
        return pack.command([word.decode("utf-8", "surrogateescape") for word in words[1:]])
    raise ValueError(f"no case: {case}")


def passes(program, number, line):
    """Whether the case on a line of the file is answered as it says."""
    case, arrow, output = line.partition(" => ")
    if not arrow:
        raise ValueError(f"line {number}: no ' => '")
    expected = unescape(output)
    done = subprocess.run([program], input=input_of(case), stdout=subprocess.PIPE, check=False)
    if done.returncode == 0 and done.stdout == expected:
        return True
    print(f"line {number}: {case[:200]}\n  expected {expected[:200]!r}\n  got      {done.stdout[:200]!r}, exit code {done.returncode}")
    return False


def main():
    if len(sys.argv) not in (2, 3):
        sys.stderr.write("usage: run_sheet_cases.py SHEET [CASES]\n")
        return 2
    program = os.path.abspath(sys.argv[1])
    name = sys.argv[2] if len(sys.argv) == 3 else os.path.join(HERE, "cases.txt")
    passed = failed = 0
    with open(name, encoding="utf-8") as file:
        for number, line in enumerate(file, 1):
            line = line.rstrip("\n")
            if not line or line.startswith("#"):
                continue
            if passes(program, number, line):
                passed += 1
            else:
                failed += 1
    print(f"{passed} passed, {failed} failed")
    return 0 if failed == 0 and passed > 0 else 1


if __name__ == "__main__":
    sys.exit(main())
