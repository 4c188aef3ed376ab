#!/usr/bin/env python3
"""Times `line --csv` on a log of 100,000 rows beside the C function on the same rows. Run: python3 tools/crew/time_csv.py [FORMAT [COLUMN ...]],
with the library built. The format is the sheet line if not given; the log has the columns of that line, or those that are named; one more is `reply`."""

import itertools
import os
import random
import subprocess
import sys
import tempfile
import time

HERE = os.path.dirname(os.path.abspath(__file__))
TOOLS = os.path.dirname(HERE)
ROOT = os.path.dirname(TOOLS)
sys.path[:0] = [os.path.join(TOOLS, "pack")]

from values import Rows  # noqa: E402

COUNT = 100_000
RUNS = 5
NAMES = ["north", "south", "east weir", "lock 4", "écluse"]
KINDS = {"gate": "int8", "position": "int32", "delay": "int32", "open": "bool", "name": "text", "reply": "time"}
FORMAT = sys.argv[1] if len(sys.argv) > 1 else "gate %d pos %08x delay %,d open %b name %-12s"
COLUMNS = sys.argv[2:] or ["gate", "position", "delay", "open", "name"]


def reply(rng):
    """A moment of one day, with milliseconds."""
    return f"2026-11-15T{rng.randrange(24):02}:{rng.randrange(60):02}:{rng.randrange(60):02}.{rng.randrange(1000):03}Z"


def cells(rng):
    row = {"gate": str(rng.randrange(100)), "position": str(rng.randrange(1 << 31)), "delay": str(rng.randrange(2_000_000)),
           "open": rng.choice(["true", "false"]), "name": rng.choice(NAMES), "reply": reply(rng)}
    return [row[name] for name in COLUMNS]


def c_time(folder, records):
    """Milliseconds of the C function for the rows; the best of some starts, since it moves with where the memory lies."""
    rows, lengths = Rows([KINDS[name] for name in COLUMNS]).pack(list(zip(*records)), len(records))
    ends = list(itertools.accumulate(lengths))
    program = os.path.join(folder, "time_rows")
    subprocess.run(["gcc", "-O2", "-Wall", "-Wextra", "-Werror", f"-I{ROOT}/panel", f"{HERE}/time_rows.c", f"{ROOT}/crates/panel/out/libpanel.a",
                    "-o", program], check=True)
    data = b"".join(length.to_bytes(4, "little") + rows[end - length:end] for length, end in zip(lengths, ends))
    return min(float(subprocess.run([program, FORMAT], input=data, stdout=subprocess.PIPE, check=True).stdout) for _ in range(RUNS))


def line_time(folder, records):
    """Milliseconds of the command for the log, start and end of Python included; the best of some runs."""
    name = os.path.join(folder, "log.csv")
    with open(name, "w", encoding="utf-8") as file:
        file.write(",".join(f"{column}:{KINDS[column]}" for column in COLUMNS) + "\n" + "".join(",".join(record) + "\n" for record in records))
    best = float("inf")
    for _ in range(RUNS):
        begun = time.monotonic()
        subprocess.run([os.path.join(TOOLS, "line"), "--csv", name, FORMAT], stdout=subprocess.DEVNULL, stderr=subprocess.DEVNULL, check=True)
        best = min(best, (time.monotonic() - begun) * 1e3)
    return best


def main():
    rng = random.Random(1)
    records = [cells(rng) for _ in range(COUNT)]
    with tempfile.TemporaryDirectory() as folder:
        in_c, in_line = c_time(folder, records), line_time(folder, records)
    print(f"{COUNT:,} rows: C function {in_c:.1f} ms, line --csv {in_line:.0f} ms, {in_line / in_c:.1f} times as long; "
          f"{COUNT / in_line * 1e3:,.0f} rows a second")


if __name__ == "__main__":
    main()
