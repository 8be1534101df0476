"""What every tool does alike: --help and --version, input and output, and one plain line for whatever goes wrong."""

import argparse
import errno
import os
import signal
import sys
import tempfile
import time
from pathlib import Path

HERE = Path(__file__).resolve().parent
ROOT = HERE.parents[1]                             # of the tree
CHUNK = 1 << 20
MOST_SHOWN = 40


class Bad(Exception):
    """Why a tool cannot do what it is asked."""


def version():
    """As the file VERSION says, which an installed package has in its folder and a tree at its top."""
    for folder in (HERE, ROOT):
        try:
            return (folder / "VERSION").read_text().strip()
        except OSError:
            pass
    return "unknown (the file VERSION is not there)"


def built(name, folder="bin"):
    """A proved program or library: packed with this package, else made in the tree's target/; None where it is not there."""
    return next((str(path) for path in (HERE / "built" / name, ROOT / "target" / folder / name) if path.exists()), None)


def parser(name, description, epilog):
    made = argparse.ArgumentParser(prog=name, description=description, epilog=epilog, formatter_class=argparse.RawDescriptionHelpFormatter)
    made.add_argument("--version", action="version", version=f"{name} {version()}")
    return made


def shown(word):
    """A word of the input as a message shows it: on one line, not too long."""
    cut = word if len(word) <= MOST_SHOWN else word[:MOST_SHOWN - 3] + "..."
    return "'" + "".join(c if c.isprintable() else repr(c)[1:-1] for c in cut) + "'"


def listed(words):
    """a, b or c"""
    words = list(words)
    return " or ".join([", ".join(words[:-1])] * (len(words) > 1) + words[-1:])


def count(number, thing):
    """1 step, 2 steps"""
    return f"{number:,} {thing}" + ("" if number == 1 else "s")


# ---------------------------------------------------------------- Numbers in options

def whole(text, least, greatest):
    """A whole number of an option, whatever its length."""
    digits = text.lstrip("0") or "0"
    if not (text.isascii() and text.isdigit()) or len(digits) > len(str(greatest)) or not least <= int(digits) <= greatest:
        raise argparse.ArgumentTypeError(f"a whole number from {least} to {greatest}, not {shown(text)}")
    return int(digits)


# ---------------------------------------------------------------- Input and output

def say(words):
    """A line on standard error, where there is one."""
    if sys.stderr is not None:
        try:
            sys.stderr.write(words + "\n")
            sys.stderr.flush()
        except OSError:
            pass


def named(path):
    return "<stdin>" if path == "-" else path


def opened(path):
    """The input as a file of bytes."""
    if path != "-":
        return open(path, "rb")
    if sys.stdin is None:
        raise Bad("standard input is closed")
    return sys.stdin.buffer


def apart(output, *inputs):
    """The output is none of the inputs, which it would overwrite."""
    for path in inputs:
        if output != "-" and path != "-" and os.path.exists(output) and os.path.exists(path) and os.path.samefile(output, path):
            raise Bad(f"{output} is read: it cannot be written too")
    if output != "-" and "-" in inputs and sys.stdin is not None and os.path.exists(output):
        if os.path.samestat(os.stat(output), os.fstat(sys.stdin.fileno())) and os.path.isfile(output):
            raise Bad(f"{output} is read: it cannot be written too")


def same_file(path, other):
    """Would both write one file? Devices hold nothing, and may be named twice."""
    if os.path.exists(path) and not os.path.isfile(path):
        return False
    return os.path.realpath(path) == os.path.realpath(other) or (os.path.exists(path) and os.path.exists(other) and os.path.samefile(path, other))


def keep_apart(outputs, inputs):
    """No output is an input, nor are two outputs one file or both standard output; those that are not given are empty."""
    outputs = [path for path in outputs if path]
    for place, output in enumerate(outputs):
        apart(output, *(str(path) for path in inputs if path))
        for other in outputs[:place]:
            if output == other == "-":
                raise Bad("two outputs cannot both be standard output")
            if "-" not in (output, other) and same_file(output, other):
                raise Bad(f"{output} cannot hold two outputs")


class Progress:
    """How far a long work is, about once a second on a terminal; elsewhere nothing is said."""

    def __init__(self, words):
        self.words, self.shown, self.next = words, False, time.monotonic() + 1 if sys.stderr is not None and sys.stderr.isatty() else None

    def at(self, number):
        if self.next is not None and time.monotonic() >= self.next:
            sys.stderr.write(f"\r{self.words} {number:,}")
            sys.stderr.flush()
            self.shown, self.next = True, time.monotonic() + 1

    def end(self):
        """The line is empty again."""
        if self.shown:
            sys.stderr.write("\r\033[K")
            sys.stderr.flush()
            self.shown = False


class Output:
    """What is written: a file stands whole under its name at the end, or as it was before; standard output as it comes."""

    def __init__(self, path):
        self.path, self.beside = path, None
        if path == "-":
            if sys.stdout is None:
                raise Bad("standard output is closed")
            self.file = sys.stdout.buffer
        elif os.path.exists(path) and not os.path.isfile(path):
            self.file = open(path, "wb")
        else:
            try:
                number, self.beside = tempfile.mkstemp(prefix=".lagoon.", dir=os.path.dirname(os.path.realpath(path)))
            except OSError as error:
                raise OSError(error.errno, error.strerror, path) from None
            self.file = os.fdopen(number, "wb")

    def write(self, data):
        self.file.write(data)

    def __enter__(self):
        return self

    def __exit__(self, kind, error, trace):
        try:
            if self.path == "-":
                self.file.flush()
            else:
                self.file.close()
            if self.beside and kind is None:
                self.take_name()
        finally:
            if self.beside and os.path.exists(self.beside):
                os.unlink(self.beside)

    def take_name(self):
        """The mode of the file before, or that of a new file."""
        mask = os.umask(0)
        os.umask(mask)
        mode = os.stat(self.path).st_mode & 0o7777 if os.path.exists(self.path) else 0o666 & ~mask
        os.chmod(self.beside, mode)
        os.replace(self.beside, os.path.realpath(self.path))


def write_whole(path, data):
    with Output(path) as output:
        output.write(data)


# ---------------------------------------------------------------- The command

def finish(name, main):
    """Calls main and gives the exit status; every failure that is no fault of the tool's is one line."""
    if sys.stdout is not None:
        sys.stdout.reconfigure(encoding="utf-8", errors="replace")
    for number in (signal.SIGTERM, signal.SIGHUP):
        signal.signal(number, ended)
    try:
        status = main()
        if sys.stdout is not None:
            sys.stdout.flush()
        return status
    except SystemExit as leaving:
        return left(name, leaving.code)
    except KeyboardInterrupt:
        return silent(130)
    except BrokenPipeError:
        return silent(141)
    except MemoryError:
        say(f"{name}: there is too little memory for this")
    except UnicodeDecodeError as error:
        say(f"{name}: byte {error.start} of the text is no UTF-8")
    except (Bad, OSError) as error:
        say(f"{name}: {words_of(error)}")
    return silent(1)


def ended(number, frame):
    """A signal that ends the tool leaves nothing half written behind."""
    raise SystemExit(128 + number)


def left(name, code):
    """argparse has printed its help or an error, and leaves."""
    try:
        if sys.stdout is not None:
            sys.stdout.flush()
    except BrokenPipeError:
        return silent(141)
    except OSError as error:
        say(f"{name}: {words_of(error)}")
        return silent(1)
    return code


def words_of(error):
    if isinstance(error, OSError) and error.errno == errno.ENOSPC and error.filename is None:
        return "the output is full: what was written is not whole"
    if isinstance(error, OSError) and error.strerror:
        return f"{error.filename}: {error.strerror}" if error.filename is not None else error.strerror
    return str(error)


def silent(status):
    """What is still in the buffer of a broken output is dropped without a word."""
    if sys.stdout is not None:
        try:
            os.dup2(os.open(os.devnull, os.O_WRONLY), sys.stdout.fileno())
        except (OSError, ValueError):
            pass
    return status
