#!/usr/bin/env python3
"""Tests of `line` and `pack.py` on streams that are closed, full, slow or interrupted, with Python's own gathering of output and without it.
Run: python3 tools/crew/test_streams.py, with the library built."""

import fcntl
import os
import select
import signal
import subprocess
import sys
import tempfile
import time
import unittest

from test_line import HERE, ROOT, TOOLS

LINE, PACK = os.path.join(TOOLS, "line"), os.path.join(TOOLS, "pack", "pack.py")
PLAIN = {name: value for name, value in os.environ.items() if name != "PYTHONUNBUFFERED"}
ENVIRONMENTS = PLAIN, {**PLAIN, "PYTHONUNBUFFERED": "1"}


class Streams(unittest.TestCase):
    def each(self, commands, expected):
        """What shell commands give, status and standard error, in both environments."""
        for env in ENVIRONMENTS:
            for command in commands:
                done = subprocess.run(["bash", "-c", command], capture_output=True, check=False, cwd=ROOT, env=env)
                self.assertEqual((done.returncode, done.stderr.decode().splitlines()[-1:]), expected, command)

    def test_closed_streams(self):
        self.each([f"{LINE} %d int8=7 >&-"], (2, ["line: standard output is closed"]))
        self.each([f"{PACK} %d int8=7 >&-"], (2, ["pack.py: standard output is closed"]))
        self.each([f"{LINE} --csv - %d <&-"], (2, ["line: standard input is closed"]))
        for end in ("2>&-", "2>/dev/full"):
            self.each([f"{LINE} %q int8=7 {end}"], (1, []))
            self.each([f"{LINE} %d int8=700 {end}", f"{LINE} --csv {HERE}/example.csv %d {end}", f"{LINE} {end}"], (2, []))
            self.each([f"{PACK} %d int8=700 {end}", f"{PACK} {end}"], (2, []))

    def test_a_closed_pipe_is_no_error(self):
        for command in (f"{LINE} %1000000d int8=7", f"{LINE} --help", f"{PACK} {'a' * 60000}"):
            self.each([f"{command} | true; exit ${{PIPESTATUS[0]}}", f"{command} | head -c 1; exit ${{PIPESTATUS[0]}}"], (0, []))

    def test_an_output_that_cannot_be_written_is_told(self):
        full = "the output cannot be written: No space left on device"
        self.each([f"{LINE} {words} > /dev/full" for words in ("%d int8=7", "--csv tools/crew/example.csv %d", "--help")], (2, [f"line: {full}"]))
        self.each([f"{PACK} {words} > /dev/full" for words in ("%d int8=7", "--help")], (2, [f"pack.py: {full}"]))

    def started(self, words, env, **more):
        """A command whose output is a pipe. It takes interrupts, also where these tests run in the background, where a shell has them ignored."""
        more.setdefault("preexec_fn", lambda: signal.signal(signal.SIGINT, signal.SIG_DFL))
        process = subprocess.Popen([LINE, *words], stdout=subprocess.PIPE, stderr=subprocess.PIPE, env=env, **more)
        self.addCleanup(process.wait)
        self.addCleanup(process.stdout.close)
        self.addCleanup(process.stderr.close)
        self.addCleanup(process.kill)
        return process

    def test_nothing_is_lost_where_a_write_is_stopped(self):
        for env in ENVIRONMENTS:
            process = self.started(["%3000000d", "int8=7"], env)
            begun = process.stdout.read(1)  # it writes, and waits, since a pipe does not take it all
            process.send_signal(signal.SIGSTOP)
            os.waitpid(process.pid, os.WUNTRACED)
            process.send_signal(signal.SIGCONT)
            self.assertEqual(begun + process.stdout.read(), b" " * 2999999 + b"7\n")

    def test_an_output_that_does_not_wait(self):
        for env in ENVIRONMENTS:
            readable, writable = os.pipe()
            fcntl.fcntl(writable, fcntl.F_SETFL, fcntl.fcntl(writable, fcntl.F_GETFL) | os.O_NONBLOCK)
            with open(readable, "rb") as reader, subprocess.Popen([LINE, "%3000000d", "int8=7"], stdout=writable, env=env) as process:
                os.close(writable)
                time.sleep(0.8)
                self.assertLess(self.seconds_used(process), 0.4)
                self.assertEqual(reader.read(), b" " * 2999999 + b"7\n")
            self.assertEqual(process.returncode, 0)

    def test_rows_of_a_pipe_are_printed_when_they_come(self):
        for env in ENVIRONMENTS:
            process = self.started(["--csv", "-", "%s %d"], env, stdin=subprocess.PIPE)
            for given, printed in ((b"b:text,a:int8\nx,7\n", b"x 7\n"), (b"y,8\nz,", b"y 8\n"), (b"9\n", b"z 9\n"),
                                   (b'"u\nv\n', b""), (b'w",1\n', b"u\nv\nw 1\n"), (b"\xef\xbb\xbf,2\n", b"\xef\xbb\xbf 2\n")):
                process.stdin.write(given)
                process.stdin.flush()
                self.assertEqual(self.read_in_time(process.stdout, len(printed)), printed)
            process.send_signal(signal.SIGINT)
            self.assertEqual((process.wait(10), process.stdout.read(), process.stderr.read()), (130, b"", b""))
            process.stdin.close()

    def read_in_time(self, stream, size):
        """So many bytes, which must come in ten seconds."""
        data = b""
        while len(data) < size:
            self.assertTrue(select.select([stream], [], [], 10)[0], "nothing comes")
            data += os.read(stream.fileno(), size - len(data))
        return data

    def test_no_line_is_cut_by_an_interrupt(self):
        with tempfile.NamedTemporaryFile("w") as file:
            file.write("a:int32\n" + "".join(f"{k}\n" for k in range(200000)))
            file.flush()
            for env in ENVIRONMENTS:
                process = self.started(["--csv", file.name, "%99d"], env)
                begun = process.stdout.read(1)  # it writes, and waits
                process.send_signal(signal.SIGINT)
                time.sleep(0.2)
                out = begun + process.stdout.read()
                self.assertEqual((process.wait(10), len(out) % 100, process.stderr.read()), (130, 0, b""))
                self.assertEqual(out, b"".join(b"%99d\n" % k for k in range(len(out) // 100)))
                self.assertLess(len(out), 100 * 200000)
                process = self.started(["--csv", file.name, "%99d"], env)
                process.stdout.read(1)
                for _ in range(3):  # where no one reads, more than one interrupt ends it
                    process.send_signal(signal.SIGINT)
                    time.sleep(0.1)
                self.assertEqual(process.wait(10), 130)

    def test_gathered_rows_are_written_before_an_interrupt_or_a_fault_ends_the_run(self):
        program = "\n".join([
            "import sys", f"sys.path[:0] = [{HERE!r}, {os.path.dirname(PACK)!r}]", "import inputs, records, command", "some = records.Records.some",
            "def broken(self):", "    if self.before > 900:", "        raise {}", "    return some(self)",
            "records.Records.some = broken", "sys.exit(command.main())"])
        with tempfile.NamedTemporaryFile("w") as file:
            file.write("a:int32\n" + "".join(f"{k}\n" for k in range(2000)))
            file.flush()
            for fault, status, said in (("KeyboardInterrupt", 130, ""), ("inputs.BadInput('no more')", 2, "line: no more\n")):
                for env in ENVIRONMENTS:
                    words = [sys.executable, "-c", program.format(fault), "--csv", file.name, "%d"]
                    done = subprocess.run(words, capture_output=True, check=False, env=env)
                    self.assertEqual((done.returncode, done.stderr.decode(), done.stdout), (status, said, b"".join(b"%d\n" % k for k in range(999))))

    def test_an_interrupt_that_is_ignored_stays_so(self):
        with tempfile.NamedTemporaryFile("w") as file:
            file.write("a:int32\n" + "7\n" * 50000)
            file.flush()
            process = self.started(["--csv", file.name, "%99d"], PLAIN, preexec_fn=lambda: signal.signal(signal.SIGINT, signal.SIG_IGN))
            begun = process.stdout.read(1)
            process.send_signal(signal.SIGINT)
            self.assertEqual((len(begun + process.stdout.read()), process.wait(10)), (100 * 50000, 0))

    @staticmethod
    def seconds_used(process):
        """The processor's time that a process has taken: little, where it waits."""
        with open(f"/proc/{process.pid}/stat", encoding="ascii") as file:
            fields = file.read().rpartition(")")[2].split()
        return (int(fields[11]) + int(fields[12])) / os.sysconf("SC_CLK_TCK")


if __name__ == "__main__":
    unittest.main()
