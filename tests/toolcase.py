"""What the tests of the tools share."""

import fcntl
import importlib
import io
import os
import signal
import struct
import subprocess
import sys
import tempfile
import termios
import threading
import time
import traceback
import unittest
import warnings
from pathlib import Path

HERE = Path(__file__).resolve().parent
ROOT = HERE.parent
RUN = ROOT / "target" / "bin" / "run"
sys.path.insert(0, str(ROOT / "reference"))

import engines
from package import cli
from package.session import Session

PATIENCE = 60                   # seconds for one command
OWN_FAULT = 99                  # the status of a traceback

CHANNEL = (ROOT / "examples" / "channel.txt").read_text()
TIDE = (ROOT / "examples" / "tide.txt").read_text()


SHOWN = unittest.TestCase()     # how two values differ, in words, for what stands outside a test too
SHOWN.maxDiff = None


def equal(actual, expected, what):
    SHOWN.assertEqual(actual, expected, what)


def holds(claim, what):
    SHOWN.assertTrue(claim, what)


def line_of(name, *arguments):
    """The command line of a program of tools/, or of a command of lagoon."""
    program = [ROOT / "tools" / name] if name.endswith(".py") else [ROOT / "bin" / "lagoon", name]
    return [sys.executable, *map(str, [*program, *arguments])]


def command(*arguments, data=b""):
    """A tool's exit status, output and words; it never shows a traceback."""
    if str(arguments[0]).endswith(".py"):
        done = subprocess.run(line_of(*arguments), input=data, capture_output=True, check=False)
        status, out, words = done.returncode, done.stdout, done.stderr
    else:
        status, out, words = forked(arguments, data)
    said = words.decode("utf-8", "replace")
    holds("Traceback" not in said and "Exception ignored" not in said, f"{arguments}: {said}")
    return status, out, said


def forked(words, data=b""):
    """Status, output and words of a command of lagoon in a process that has read the package already: hundreds of tries in seconds."""
    for module, _, _ in cli.COMMANDS.values():
        importlib.import_module(f"package.{module}")
    given, feed = os.pipe()
    out, said = os.memfd_create("out"), os.memfd_create("said")
    process = os.fork()
    if process == 0:
        os.close(feed)
        child([str(word) for word in words], given, out, said)
    os.close(given)
    feeding = threading.Thread(target=fed, args=(feed, data))
    feeding.start()
    _, ended = os.waitpid(process, 0)
    feeding.join()
    return os.waitstatus_to_exitcode(ended), whole(out), whole(said)


def child(words, given, out, said):
    """The command, with these files for its input, output and words; it never comes back."""
    for file, number in ((given, 0), (out, 1), (said, 2)):
        os.dup2(file, number)
    sys.stdin = io.TextIOWrapper(io.BufferedReader(io.FileIO(0)))
    sys.stdout, sys.stderr = (io.TextIOWrapper(io.BufferedWriter(io.FileIO(number, "w"))) for number in (1, 2))
    sys.argv = ["lagoon", *words]
    warnings.simplefilter("ignore", ResourceWarning)       # as where no test has asked for it
    signal.alarm(PATIENCE)
    try:
        status = cli.main()
    except BaseException:
        traceback.print_exc()
        status = OWN_FAULT
    sys.stderr.flush()
    os._exit(status or 0)


def fed(pipe, data):
    """Writes the data for whoever reads it, as far as that one does."""
    try:
        while data:
            data = data[os.write(pipe, data):]
    except BrokenPipeError:
        pass
    os.close(pipe)


def whole(file):
    """What was written into a file in memory."""
    with os.fdopen(file, "rb") as written:
        written.seek(0)
        return written.read()


def refuses(words, *arguments, data=b"", status=1):
    """The tool ends with this status, writes nothing and says these words."""
    found, out, said = command(*arguments, data=data)
    equal((found, out), (status, b""), f"{arguments}: {said}")
    holds(words in said, f"{arguments}: '{words}' should be in '{said}'")
    holds(said.count("\n") == 1 or "usage:" in said, f"{arguments}: one line, not '{said}'")


def breaks(*arguments, data=b""):
    """Output that is closed, full or no longer read, and an interrupt: a line or none, and no traceback."""
    line = " ".join(f"'{word}'" for word in line_of(*arguments))
    for ending, statuses in ((">&-", (0, 1)), ("> /dev/full", (0, 1)), ("2>&- >/dev/full", (0, 1)), ("| true", (0,)), ("<&- >/dev/null", (0, 1))):
        done = subprocess.run(["bash", "-c", f"{line} {ending}"], input=data, capture_output=True)
        said = done.stderr.decode()
        holds("Traceback" not in said and "Exception ignored" not in said and done.returncode in statuses, f"{line} {ending}: {done.returncode} {said}")
        if ending == "> /dev/full" and "/dev/full" not in line:
            holds(done.returncode == 1 and "full" in said, f"{line} {ending}: {done.returncode} {said}")


def interrupted(*arguments):
    """Ctrl-C while the tool waits for more input: it has taken the blank that it was given."""
    tool = subprocess.Popen(line_of(*arguments), stdin=subprocess.PIPE, stdout=subprocess.PIPE, stderr=subprocess.PIPE,
                            preexec_fn=lambda: signal.signal(signal.SIGINT, signal.default_int_handler))
    tool.stdin.write(b" ")
    tool.stdin.flush()
    while unread(tool.stdin) and tool.poll() is None:
        time.sleep(0.01)
    tool.send_signal(signal.SIGINT)
    out, said = tool.communicate(timeout=20)
    equal((tool.returncode, said), (130, b""), f"{arguments} interrupted")


def unread(pipe):
    """How many bytes of a pipe nobody has read."""
    return struct.unpack("i", fcntl.ioctl(pipe, termios.FIONREAD, bytes(4)))[0]


def known(name):
    """--help with examples, and --version from the file VERSION."""
    status, out, _ = command(name, "--help")
    equal((status, b"examples:" in out), (0, True), f"help of {name}")
    program = name if name.endswith(".py") else f"lagoon {name}"
    equal(command(name, "--version"), (0, f"{program} {(ROOT / 'VERSION').read_text().strip()}\n".encode(), ""), f"version of {name}")


# two releases after the channel's first step: the first is too much for the corrected field alone, the second for the plain one alone
ONE_SIDED = "".join(f"step\nface 0 flux 0\nface 1 flux 0\nface 2 flux 0\nface 3 flux 0\n{release}\n"
                    for release in ("cell 0 release 99900001", "cell 1 release 99950100"))


def plain_run(data):
    """What the run would print of a session if its steps were plain."""
    plain = engines.load(ROOT / "reference" / "lagoon.py", "plain_lagoon")
    plain.advance = plain.advance_plain
    return plain.run(data)


def without_calls(*arguments, data):
    """A tool that is to make plain steps, beside no program, one that is no `calls`, and one without the call."""
    refuses("nowhere is not there: `make calls` makes it", *arguments, "--plain", "--calls", "nowhere", data=data)
    refuses("asked for read_step, says 'M 13 0'", *arguments, "--plain", "--calls", RUN, data=data)
    refuses("asked for read_step, says ''", *arguments, "--plain", "--calls", "/bin/true", data=data)
    with folder() as made:
        program = Path(made, "calls")
        program.write_text("#!/bin/sh\nread script\necho 'read_step: accepted 3; fluxes 0; outsides 0; releases 0'\nread script\n"
                           "echo 'bad input: line 2, byte 30: no such call'\n")
        program.chmod(0o700)
        refuses("asked for plain_step, says 'bad input: line 2, byte 30: no such call': is it the program of this tree?",
                *arguments, "--plain", "--calls", program, data=data)


def session_of(data):
    """The session of some bytes, text or packed."""
    return Session(io.BufferedReader(io.BytesIO(data)), "-")


def folder():
    return tempfile.TemporaryDirectory(dir=os.environ.get("TMPDIR"))
