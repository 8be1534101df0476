"""The engine's programs as Python functions: the run, the host's call through call_driver, and calls on a script.

Each is named by the path of an executable; python3:PATH takes a Python program with run and host_step instead, which
script.py asks for the answers of a script.
What goes wrong with a process (a signal, an exit status, words on standard error, no end) comes back as text,
which equals no answer.
"""

import importlib.util
import os
import select
import struct
import subprocess
import tempfile
import time

import script

PATTERN = 0xA5          # fills the room before a call, as call_driver.c does
PATIENCE = 120          # seconds for one session or call
PYTHON = "python3:"


def load(path, name):
    """A fresh copy of a Python program as a module."""
    spec = importlib.util.spec_from_file_location(name, path)
    module = importlib.util.module_from_spec(spec)
    spec.loader.exec_module(module)
    return module


def complaint(status, errors):
    """What a process says besides its answers, "" where all is well."""
    text = f"(exit status {status})\n" if status > 0 else f"(ended by signal {-status})\n" if status < 0 else ""
    return text + errors.decode("utf-8", "backslashreplace")


# ---------------------------------------------------------------- The run program, and calls

def run_program(path):
    """A function from a session's bytes to the text printed, the input handed over whole or in pieces."""
    if path.startswith(PYTHON):
        module = load(path.removeprefix(PYTHON), "engine_run")
        return lambda data, piece=None: module.run(data)
    return printing_program(path)


def script_program(path):
    """A function from a script to the lines printed."""
    if path.startswith(PYTHON):
        module = load(path.removeprefix(PYTHON), "engine_script")
        return lambda text: script.answer(text, module)
    return printing_program(path)


def printing_program(path):
    """A program as a function. Its output, and its input unless that comes in pieces, are files in memory: no turns with a reader."""
    def run(data, piece=None):
        with in_memory() as given, in_memory() as printed:
            given.write(data)
            given.seek(0)
            process = subprocess.Popen([path], stdin=subprocess.PIPE if piece else given, stdout=printed, stderr=subprocess.PIPE)
            if piece:
                hand_over(process.stdin, data, piece)
            try:
                _, errors = process.communicate(timeout=PATIENCE)
            except subprocess.TimeoutExpired:
                process.kill()
                process.communicate()
                return f"(no end within {PATIENCE} seconds)\n"
            printed.seek(0)
            return printed.read().decode("ascii", "backslashreplace") + complaint(process.returncode, errors)

    return run


def in_memory():
    return open(os.memfd_create("case"), "w+b", buffering=0)


def hand_over(pipe, data, piece):
    """Writes the input in pieces, so that a read may give fewer bytes than asked."""
    try:
        for at in range(0, len(data), piece):
            os.write(pipe.fileno(), data[at:at + piece])
            time.sleep(0)
    except BrokenPipeError:         # the run has ended before its input did, as it may
        pass


# ---------------------------------------------------------------- The host's call

def stream(mesh, field, step, room):
    """A case as call_driver reads it."""
    return struct.pack("<IIII", len(mesh), len(field), len(step), room) + mesh + field + step


def with_room(number, record, room):
    """The answer and the room's bytes after the call: only an accepted record is written."""
    return number, (record or b"").ljust(room, bytes([PATTERN]))


class Process:
    """A driver as a process that answers one case after another."""

    def __init__(self, path):
        self.path, self.process = path, None

    def exchange(self, case, length):
        """The so many bytes that it answers to a case, or a text where there is no answer."""
        if self.process is None:
            self.errors = tempfile.TemporaryFile()
            self.process = subprocess.Popen([self.path], stdin=subprocess.PIPE, stdout=subprocess.PIPE,
                                            stderr=self.errors, bufsize=0)
        try:
            self.process.stdin.write(case)
        except BrokenPipeError:
            return "(no answer)\n" + self.finish()
        answer = b""
        while len(answer) < length:
            if not select.select([self.process.stdout], [], [], PATIENCE)[0]:
                self.process.kill()
                return f"(no answer within {PATIENCE} seconds)\n" + self.finish()
            part = os.read(self.process.stdout.fileno(), length - len(answer))
            if not part:
                return "(no answer)\n" + self.finish()
            answer += part
        return answer

    def finish(self):
        """Ends the process and gives its complaint, if it has one."""
        if self.process is None:
            return ""
        process, self.process = self.process, None
        output, _ = process.communicate(timeout=PATIENCE)
        self.errors.seek(0)
        said = complaint(process.returncode, self.errors.read())
        self.errors.close()
        return said + (f"({len(output)} bytes too many)\n" if output else "")


class Driver(Process):
    """call_driver."""

    def __call__(self, mesh, field, step, room):
        """(number, bytes of the room), or a text where there is no answer."""
        answer = self.exchange(stream(mesh, field, step, room), 8 + room)
        return answer if isinstance(answer, str) else (struct.unpack_from("<Q", answer)[0], answer[8:])


class CallsDriver(Process):
    """calls_driver: from a case as bytes, and the length of its answer, to the answer."""

    def __call__(self, case, length):
        return self.exchange(case, length)


class PythonDriver:
    def __init__(self, path):
        self.module = load(path, "engine_call")

    def __call__(self, mesh, field, step, room):
        return with_room(*self.module.host_step(mesh, field, step, room), room)

    def finish(self):
        return ""


def driver(path):
    return PythonDriver(path.removeprefix(PYTHON)) if path.startswith(PYTHON) else Driver(path)
