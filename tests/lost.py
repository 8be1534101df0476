#!/usr/bin/env python3
"""The run program where something is lost: after a failed write or read it says so on standard error and prints nothing more, no board
either. That whoever waits for a step's line before sending the next has it. And what it says to whoever gives arguments or sits at a terminal."""

import os
import pty
import select
import subprocess
import sys
import tempfile
import unittest
from pathlib import Path

ROOT = Path(__file__).resolve().parent.parent
CHANNEL, LAST_STEP = ROOT / "tests/sessions/channel.in", 16         # bytes of its last record
HINT = "run: reads a session from standard input; see README.md\n"
SHIM = r"""/* read that fails with EIO once FAIL_AFTER bytes have come */
#define _GNU_SOURCE
#include <errno.h>
#include <stdlib.h>
#include <sys/syscall.h>
#include <unistd.h>
static long left = -1;
ssize_t read(int fd, void *bytes, size_t n) {
  if (fd != 0) return syscall(SYS_read, fd, bytes, n);
  if (left < 0) left = atol(getenv("FAIL_AFTER"));
  if (left == 0) { errno = EIO; return -1; }
  if ((long)n > left) n = left;
  ssize_t got = syscall(SYS_read, fd, bytes, n);
  if (got > 0) left -= got;
  return got;
}
"""


def setUpModule():
    made = subprocess.run(["tools/prove.py", "run"], cwd=ROOT, stderr=subprocess.PIPE, text=True)
    if made.returncode:
        sys.exit(made.stderr)


def run(given, *arguments, out=subprocess.PIPE, **more):
    """What the program prints and says, its input a path or a descriptor."""
    stdin = given if isinstance(given, int) else os.open(given, os.O_RDONLY)
    done = subprocess.run([ROOT / "target/bin/run", *arguments], stdin=stdin, stdout=out, stderr=subprocess.PIPE, **more)
    os.close(stdin)
    return (done.stdout or b"").decode(), done.stderr.decode()


class Lost(unittest.TestCase):
    def test_nothing(self):
        printed, said = run(CHANNEL)
        self.assertEqual((printed.splitlines()[-1], said), ("B 2 187 13", ""))

    def test_output(self):
        with open("/dev/full", "wb") as full:
            self.assertEqual(run(CHANNEL, out=full)[1], "run: standard output: No space left on device\n")
        self.assertEqual(run(CHANNEL, out=None, preexec_fn=lambda: os.close(1))[1], "run: standard output: Bad file descriptor\n")

    def test_output_that_does_not_wait(self):
        """Lines are lost where the reader waits, and no board follows them."""
        reader, writer = os.pipe()
        os.set_blocking(writer, False)
        with tempfile.TemporaryFile() as session:
            subprocess.run([sys.executable, ROOT / "tests/make_sessions.py", "long"], stdout=session, check=True)
            session.seek(0)
            _, said = run(os.dup(session.fileno()), out=writer)
        os.close(writer)
        with open(reader) as printed:
            self.assertNotRegex(printed.read(), "(?m)^B")
        self.assertEqual(said, "run: standard output: Resource temporarily unavailable\n")

    def test_input_that_does_not_wait(self):
        """The input fails after step 1."""
        reader, writer = os.pipe()
        os.set_blocking(reader, False)
        os.write(writer, CHANNEL.read_bytes()[:-LAST_STEP])
        self.assertEqual(run(reader), ("0 0 0 100000 0\n1 50000 0 150000 0\n", "run: standard input: Resource temporarily unavailable\n"))
        os.close(writer)

    def test_input_within_a_record(self):
        with tempfile.TemporaryDirectory() as made:
            subprocess.run(["gcc", "-shared", "-fPIC", "-x", "c", "-", "-o", f"{made}/shim.so"], input=SHIM.encode(), check=True)
            for count in (70, 61, 40, 20, 2):
                with self.subTest(bytes=count):
                    printed, said = run(CHANNEL, env={**os.environ, "FAIL_AFTER": str(count), "LD_PRELOAD": f"{made}/shim.so"})
                    self.assertEqual(said, "run: standard input: Input/output error\n")
                    self.assertNotRegex(printed, "(?m)^B")

    def test_input_of_another_kind(self):
        self.assertEqual(run(ROOT / "tests"), ("", "run: standard input: Is a directory\n"))


class Waiting(unittest.TestCase):
    def test_line_before_the_next_record(self):
        """Lines are written before a read that waits, also within a record."""
        session, lines = CHANNEL.read_bytes(), CHANNEL.with_suffix(".out").read_bytes().splitlines(True)
        with subprocess.Popen([ROOT / "target/bin/run"], stdin=subprocess.PIPE, stdout=subprocess.PIPE, bufsize=0) as running:
            for sent, awaited in ((session[:-LAST_STEP], lines[:2]), (session[-LAST_STEP:-1], []), (session[-1:], lines[2:3])):
                running.stdin.write(sent)
                for line in awaited:
                    self.assertTrue(select.select([running.stdout], [], [], 20)[0], "no line within 20 s")
                    self.assertEqual(running.stdout.readline(), line)
            running.stdin.close()
            self.assertEqual(running.stdout.read(), b"".join(lines[3:]))


class Hints(unittest.TestCase):
    def test_argument(self):
        self.assertEqual(run(CHANNEL, "--help"), (CHANNEL.with_suffix(".out").read_text(), HINT))

    def test_terminal(self):
        board, terminal = pty.openpty()
        os.write(board, b"\x04")
        self.assertEqual(run(terminal), ("M 11 0\n", HINT))
        os.close(board)


if __name__ == "__main__":
    unittest.main()
