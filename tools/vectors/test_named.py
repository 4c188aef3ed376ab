#!/usr/bin/env python3
"""Runs the program `vectors` on lists of which some records state other answers, and compares all that it writes with what this script makes of it.

Run: python3 tools/vectors/test_named.py crates/vectors/out/vectors. The last line is `N passed, M failed`; the exit code is 0 where none failed.

Which records are named, and what is written of a list that is broken, missing or too long, no contract says. crates/vectors/README.md has the layout.
"""

import pathlib
import struct
import subprocess
import sys
import tempfile

DATA = pathlib.Path(__file__).resolve().parent.parent.parent / "crates" / "vectors" / "data"
NAMES = ("check", "print", "original", "dates", "java")
ARRAY = 262_144
MOST_NAMED = 20


def records(data):
    """Where each record of a whole list ends."""
    ends, at = [], 0
    while at < len(data):
        values = at + 2 + struct.unpack_from("<H", data, at)[0]
        tag = values + 2 + struct.unpack_from("<H", data, values)[0]
        end = tag + {0: 5, 1: 4, 3: 4}.get(data[tag], 0)
        if data[tag] == 2:
            pieces = tag + 3 + struct.unpack_from("<H", data, tag + 1)[0]
            end = pieces + 2 + 4 * struct.unpack_from("<H", data, pieces)[0]
        ends.append(end)
        at = end
    return ends


def altered(data, numbers):
    """The list with another last byte in these records, counted from 1: the high byte of a place, of an index or of an end."""
    data, ends = bytearray(data), records(data)
    for number in numbers:
        data[ends[number - 1] - 1] ^= 0x80
    return bytes(data)


def said(name, data, wrong=(), broken=None):
    """The lines of a list, and what it adds to the sums: `wrong` are the records that differ, `broken` is where one breaks the layout."""
    if data is None or len(data) >= ARRAY:
        return [f"{name}: the list is missing or too long"], 0, 1
    whole = [end for end in records(data[:broken])]
    failed = len(wrong) + (broken is not None)
    lines = [f"{name}: record {number} differs" for number in sorted(wrong)[:MOST_NAMED]]
    lines += [f"{name}: the list is broken at byte {broken}"] if broken is not None else []
    passed = len(whole) - len(wrong)
    return lines + [f"{name}: {passed} passed, {failed} failed"], passed, failed


def run(program, lists):
    """Whether the program writes what is to be written of these lists: by name the bytes, the records that differ and where the list is broken."""
    stored = (DATA / "wrong.vec").read_bytes()
    want, passed, failed = [], 0, 0
    for name in NAMES:
        lines, more, less = said(name, *lists[name])
        want += lines
        passed, failed = passed + more, failed + less
    want += [f"all: {passed} passed, {failed} failed", "wrong: the list is broken at byte 3630", "wrong: 0 passed, 91 failed"]
    with tempfile.TemporaryDirectory() as folder:
        for name, (data, *_) in lists.items():
            if data is not None:
                (pathlib.Path(folder) / f"{name}.vec").write_bytes(data)
        (pathlib.Path(folder) / "wrong.vec").write_bytes(stored)
        got = subprocess.run([program], cwd=folder, stdout=subprocess.PIPE, timeout=60, check=False)
    if got.returncode == 0 and got.stdout.decode("ascii").splitlines() == want and got.stdout.endswith(b"\n"):
        return True
    print(f"wanted {want}\ngot    {got.returncode} {got.stdout!r}")
    return False


def main():
    program = str(pathlib.Path(sys.argv[1]).resolve())
    plain = {name: ((DATA / f"{name}.vec").read_bytes(),) for name in NAMES}

    def differ(name, numbers):
        return altered(plain[name][0], numbers), numbers

    def cut(name, whole, wrong):
        """A list that ends within the record behind the first `whole` ones, of which some differ."""
        at = records(plain[name][0])[whole - 1]
        return altered(plain[name][0], wrong)[: at + 5], wrong, at

    last = {name: len(records(data)) for name, (data,) in plain.items()}
    nothing = bytes(ARRAY - 1)  # records of an empty format without kinds, 9 bytes each, which hold
    cases = [
        plain,
        plain | {"check": differ("check", (1, 2, 5, last["check"])), "print": differ("print", (last["print"],)), "java": differ("java", (7,))},
        plain | {"check": differ("check", range(3, 23)), "original": differ("original", range(1, 22)), "dates": differ("dates", range(2, 100, 2))},
        plain | {"check": cut("check", 9, (4,)), "dates": cut("dates", 3, ()), "java": cut("java", 40, range(11, 41))},
        plain | {"print": (None,), "original": (b"",), "java": (None,)},
        plain | {"check": (nothing,), "print": (nothing + b"\0",), "dates": (nothing + b"\0\0",)},
    ]
    passed = sum(run(program, lists) for lists in cases)
    print(f"{passed} passed, {len(cases) - passed} failed")
    sys.exit(passed != len(cases))


if __name__ == "__main__":
    main()
