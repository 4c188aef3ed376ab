#!/usr/bin/env python3
"""Tests of how the command `line` builds the library, and of the progress that it shows. Run: python3 tools/crew/test_progress.py, with the library built."""

import os
import pty
import re
import shutil
import subprocess
import tempfile
import time
import unittest

HERE = os.path.dirname(os.path.abspath(__file__))
TOOLS = os.path.dirname(HERE)
ROOT = os.path.dirname(TOOLS)

LONG = 1.3  # seconds after which progress is shown of a log


def on_terminal(words, **more):
    """Starts a command whose standard error is a terminal; the process, and what the terminal gets."""
    terminal, its_end = pty.openpty()
    process = subprocess.Popen(words, stderr=its_end, **{"stdout": subprocess.PIPE, **more})
    os.close(its_end)
    return process, terminal


def all_of(terminal):
    """What a terminal gets until no process has it."""
    said = b""
    try:
        while part := os.read(terminal, 1 << 16):
            said += part
    except OSError:  # how Linux says that it has ended
        pass
    os.close(terminal)
    return said.decode()


def lines_left(said):
    """The lines that a terminal shows in the end, where lines are written over."""
    return [line.rpartition("\r\x1b[K")[2] for line in said.split("\r\n")]


class Building(unittest.TestCase):
    """The command in a folder of two crates where the library is not built, with a stand-in for `rt`."""

    def setUp(self):
        self.folder = self.enterContext(tempfile.TemporaryDirectory())
        for name in ("crew", "pack"):
            shutil.copytree(os.path.join(TOOLS, name), self.path("tools", name))
        shutil.copy(os.path.join(TOOLS, "line"), self.path("tools"))
        for name in ("crates/words/src", "crates/panel/src", "panel", "bin"):
            os.makedirs(self.path(name))
        self.list_crates("# Of a library, log is the toolchain's.\nwords: log\npanel staticlib: words log # the library\n")
        self.script("panel/shared.sh", f"mkdir -p target/panel; cp {ROOT}/target/panel/libpanel.so target/panel/")
        self.words = [self.path("tools", "line"), "%d", "int8=7"]
        self.env = {"PATH": self.path("bin") + ":/usr/bin:/bin"}

    def path(self, *names):
        return os.path.join(self.folder, *names)

    def script(self, name, text):
        with open(self.path(name), "w", encoding="utf-8") as file:
            file.write(f"#!/bin/sh\n{text}\n")
        os.chmod(self.path(name), 0o755)

    def list_crates(self, text):
        with open(self.path("crates.txt"), "w", encoding="utf-8") as file:
            file.write(text)

    def logged(self):
        """What stands in the file to which a stand-in for `rt` adds lines."""
        with open(self.path("log"), encoding="utf-8") as file:
            return file.read().splitlines()

    def make_all_old(self):
        """Gives every file one old time, so that the next file written is newer however coarse the clock of files is."""
        for folder, _, names in os.walk(self.folder):
            for name in names:
                os.utime(os.path.join(folder, name), (1, 1))

    def run_line(self):
        done = subprocess.run(self.words, capture_output=True, check=False, env=self.env)
        return done.returncode, done.stdout, done.stderr.decode()

    def test_built_once(self):
        self.script("bin/rt", 'echo "$* in $(basename "$PWD")" >> ../../log')
        status, out, said = self.run_line()
        self.assertEqual((status, out), (0, b"7\n"))
        self.assertEqual([line[:33] for line in said.splitlines()],
                         ["line: the library is not built ye", "line: proved 1 of 2, words; 0 s; ", "line: proved 2 of 2, panel; 0 s", "line: the library is built"])
        self.assertEqual(self.run_line(), (0, b"7\n", ""))
        self.assertEqual(self.logged(), ["lib in words", "lib in panel"])
        for source in ("crates/words/src/lib.rt", "tools/crew/rows.c"):
            self.make_all_old()
            self.assertEqual(self.run_line(), (0, b"7\n", ""))
            with open(self.path(source), "w", encoding="utf-8"):
                pass
            self.assertIn("line: the library is older than its source: proving", self.run_line()[2])
        with open(self.path("target/panel/libpanel.so"), "w", encoding="utf-8") as file:
            file.write("no library")
        self.assertIn("line: the library cannot be loaded", self.run_line()[2])

    def test_crates_of_the_repository(self):
        with open(os.path.join(ROOT, "crates.txt"), encoding="utf-8") as file:
            text = file.read()
        self.list_crates(text)
        needs = dict(re.findall(r"(?m)^(\w+)[^:#\n]*:([^#\n]*)", text))
        for name in needs:
            os.makedirs(self.path("crates", name, "src"), exist_ok=True)
        self.script("bin/rt", 'basename "$PWD" >> ../../log')
        self.assertEqual(self.run_line()[:2], (0, b"7\n"))
        built = self.logged()
        self.assertEqual((len(built), built[-1]), (len(set(built)), "panel"))
        self.assertFalse({"sheet", "vectors"} & set(built), built)
        for at, name in enumerate(built):
            self.assertLessEqual(set(needs[name].split()) & set(needs), set(built[:at]), name)

    def test_calls_at_the_same_time(self):
        self.script("bin/rt", 'basename "$PWD" >> ../../log; sleep 1')
        calls = [subprocess.Popen(self.words, stdout=subprocess.PIPE, stderr=subprocess.PIPE, env=self.env) for _ in range(2)]
        said = [call.communicate() for call in calls]
        self.assertEqual([out for out, _ in said], [b"7\n"] * 2)
        self.assertIn(b"line: another call is building the library; waiting for it\n", [text for _, text in said])
        self.assertEqual(self.logged(), ["words", "panel"])

    def test_not_to_be_built(self):
        status, out, said = self.run_line()
        self.assertEqual((status, out), (2, b""))
        self.assertTrue(said.endswith("line: the library is not built yet, and `rt` is not on this machine to build it\n"), said)
        self.script("bin/rt", "echo words: not proved; exit 1")
        status, out, said = self.run_line()
        self.assertEqual((status, out), (2, b""))
        self.assertTrue(said.endswith("line: the library could not be built; `rt lib` in crates/words said\nwords: not proved\n"), said)

    def test_a_folder_that_cannot_be_written(self):
        self.script("target", "a file in the folder's place")
        told = f"and {self.path('target', 'panel')} cannot be written to build it: "
        self.assertEqual(self.run_line(), (2, b"", f"line: the library is not built yet, {told}Not a directory\n"))
        os.remove(self.path("target"))
        os.makedirs(self.path("target", "panel", "lock"))
        shutil.copy(os.path.join(ROOT, "target", "panel", "libpanel.so"), self.path("target", "panel"))
        os.utime(self.path("target", "panel", "libpanel.so"), (0, 0))
        self.assertEqual(self.run_line(), (2, b"", f"line: the library is older than its source, {told}Is a directory\n"))

    def test_on_a_terminal_progress_is_written_over(self):
        begun = "line: the library is not built yet: proving and building it, which takes some minutes"
        self.script("bin/rt", "echo 'fn words::put: not proved'; exit 1")
        process, terminal = on_terminal(self.words, env=self.env)
        self.assertEqual(lines_left(all_of(terminal)),
                         [begun, "line: the library could not be built; `rt lib` in crates/words said", "fn words::put: not proved", ""])
        self.assertEqual((process.communicate()[0], process.returncode), (b"", 2))
        self.script("bin/rt", "echo logic=proved")
        process, terminal = on_terminal(self.words, env=self.env)
        said = all_of(terminal)
        self.assertEqual((process.communicate()[0], process.returncode), (b"7\n", 0))
        self.assertEqual(lines_left(said), [begun, "line: the library is built", ""])
        self.assertEqual(re.sub("[0-9]+ s", "0 s", said).split("\r\x1b[K")[1:-1],
                         ["line: proved 1 of 2, words; 0 s; now panel, which is compiled too", "line: proved 2 of 2, panel; 0 s"])


class Logs(unittest.TestCase):
    """A log of 5,000,000 bytes, which the command cannot write before they are read: it takes as long as the reader waits."""

    ROWS = 5000
    PROGRESS = r"\r\x1b\[Kline: [0-9,]+ rows, [0-9]+ %"

    def setUp(self):
        self.folder = self.enterContext(tempfile.TemporaryDirectory())
        self.name = os.path.join(self.folder, "log.csv")
        with open(self.name, "w", encoding="utf-8") as file:
            file.write("gate:int8\n" + "7\n" * (self.ROWS - 1) + "x\n")
        self.words = [os.path.join(TOOLS, "line"), "--csv", self.name, "%999d"]
        self.told = [f"line: {self.name}:5001: gate: int8=x: not a whole number, decimal or 0x..", "line: 4,999 rows printed, 1 row not understood", ""]

    def test_progress_is_shown_of_a_long_log(self):
        process, terminal = on_terminal(self.words)
        time.sleep(LONG)
        out, _ = process.communicate()
        said = all_of(terminal)
        self.assertEqual((len(out), process.returncode), (1000 * (self.ROWS - 1), 2))
        self.assertEqual(len(re.findall(self.PROGRESS, said)), 1, said)
        self.assertEqual(lines_left(said), self.told)

    def test_progress_without_a_size(self):
        with open(self.name, "rb") as file, subprocess.Popen(["cat"], stdin=file, stdout=subprocess.PIPE) as cat:
            process, terminal = on_terminal([self.words[0], "--csv", "-", "%999d"], stdin=cat.stdout)
            time.sleep(LONG)
            process.communicate()
        self.assertRegex(all_of(terminal), r"\r\x1b\[Kline: [0-9,]+ rows\r\x1b\[K")

    def test_none_is_shown_of_a_short_log(self):
        process, terminal = on_terminal(self.words)
        process.communicate()
        said = all_of(terminal)
        self.assertNotRegex(said, self.PROGRESS)
        self.assertEqual(lines_left(said), self.told)

    def test_none_is_shown_among_the_lines(self):
        terminal, its_end = pty.openpty()
        with subprocess.Popen(self.words, stdout=its_end, stderr=its_end):
            os.close(its_end)
            time.sleep(LONG)
            said = all_of(terminal)
        self.assertNotRegex(said, self.PROGRESS)
        self.assertEqual(lines_left(said), [f"{7:999}"] * (self.ROWS - 1) + self.told)

    def test_no_progress_is_left_where_the_reader_goes(self):
        process, terminal = on_terminal(self.words)
        time.sleep(LONG)
        process.stdout.read(1_000_000)  # the room of the output is some more, so that one write ends and the next begins
        said = os.read(terminal, 1 << 16).decode()
        process.stdout.close()
        self.assertRegex(said, self.PROGRESS)
        self.assertEqual((lines_left(said + all_of(terminal)), process.wait()), ([""], 0))


if __name__ == "__main__":
    unittest.main()
