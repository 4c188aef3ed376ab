#!/usr/bin/env python3
"""Runs every example of README.md and docs/MANUAL.md that begins with `$` and compares what is printed with what is shown.

Run: python3 tools/crew/test_documents.py, with the library and the program `sheet` built. An example is an indented block: lines `    $ COMMAND`,
each followed by what it prints on standard output and standard error. All of them run in the
repository's folder.
"""

import os
import subprocess
import sys

ROOT = os.path.dirname(os.path.dirname(os.path.dirname(os.path.abspath(__file__))))
DOCUMENTS = ["README.md", "docs/MANUAL.md"]
INDENT, COMMAND = "    ", "    $ "


def examples(name):
    """The examples of a document: the line on which each stands, its command, what is shown."""
    found = []
    with open(os.path.join(ROOT, name), encoding="utf-8") as file:
        inside = False
        for number, line in enumerate(file, 1):
            if line.startswith(COMMAND):
                found.append((number, line[len(COMMAND):].rstrip("\n"), []))
                inside = True
            elif inside and line.startswith(INDENT):
                found[-1][2].append(line[len(INDENT):])
            else:
                inside = False
    return found


def main():
    passed = failed = 0
    for name in DOCUMENTS:
        for number, command, expected in examples(name):
            done = subprocess.run(["bash", "-c", command], cwd=ROOT, stdout=subprocess.PIPE, stderr=subprocess.STDOUT, check=False)
            got = done.stdout.decode("utf-8", "backslashreplace")
            if got == "".join(expected):
                passed += 1
            else:
                failed += 1
                print(f"{name}, line {number}: {command}\n  shown {''.join(expected)!r}\n  got   {got!r}")
    print(f"{passed} examples passed, {failed} failed")
    return 0 if failed == 0 and passed > 0 else 1


if __name__ == "__main__":
    sys.exit(main())
