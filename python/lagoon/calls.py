"""The program `calls`, asked for one call after another; docs/CALLS.md has the form of a script and of what is printed."""

import os
import subprocess

from .command import Bad, built

# The numbers of the calls that are asked for.
NUMBERS = {"step": 7, "read_step": 13, "board": 18, "page": 23, "face_share": 28, "plain_step": 29, "judge": 30, "cut": 31, "add": 32, "charge": 33,
           "public_page": 34, "public_board": 35}


def spelled(argument):
    """A number, or a table with its length before it; what is spelled already stays."""
    if isinstance(argument, (int, str)):
        return str(argument)
    return " ".join(map(str, [len(argument), *argument]))


class Calls:
    """The program as a process that answers a call before it is asked for the next."""

    def __init__(self, program=None):
        self.program = str(program or built("calls") or "")
        if not os.path.exists(self.program):
            raise Bad(f"{program or 'target/bin/calls'} is not there: `make calls` makes it")
        try:
            self.process = subprocess.Popen([self.program], stdin=subprocess.PIPE, stdout=subprocess.PIPE)
        except OSError as error:
            raise Bad(f"{self.program}: {error.strerror}") from None

    def lend(self, values):
        """A table as the program reads it, spelled once for many calls."""
        return spelled(values)

    def ask(self, name, *arguments):
        """The words that are printed after the call's name, and the tables by their names."""
        script = "  ".join([str(NUMBERS[name]), *map(spelled, arguments)]) + "\n"
        try:
            self.process.stdin.write(script.encode())
            self.process.stdin.flush()
        except BrokenPipeError:
            pass                                    # the program has ended, and its last line says why
        line = self.process.stdout.readline().decode("ascii", "replace")
        said, *tables = line.rstrip("\n").split("; ")
        if not line.endswith("\n") or not said.startswith(f"{name}: "):
            self.finish()
            raise Bad(f"{self.program}, asked for {name}, says '{line.strip()[:100]}': is it the program of this tree?")
        words = (table.split(" ") for table in tables)
        return said.split(" ")[1:], {word: list(map(int, entries)) for word, *entries in words}

    def finish(self):
        """Ends the process."""
        try:
            self.process.stdin.close()
        except BrokenPipeError:
            pass
        self.process.stdout.close()
        self.process.wait()


class OnTables:
    """The calls that are lent the tables of a mesh, a field and the water of a step."""

    def __init__(self, mesh, calls):
        self.calls, self.cells, self.faces = calls, len(mesh.volumes), len(mesh.faces)
        columns = [calls.lend([face[column] for face in mesh.faces]) for column in range(4)]
        self.mesh = (self.cells, self.faces, calls.lend(mesh.volumes), *columns)
        self.next, self.moved = calls.lend([0] * self.cells), calls.lend([0] * self.faces)
        self.work = calls.lend([0] * (4 * self.cells + self.faces))

    def step(self, name, masses, water):
        """The step of that name; water: fluxes, outsides and releases, an entry for each face or cell."""
        fluxes, outsides, releases = water
        return self.calls.ask(name, *self.mesh, masses, fluxes, outsides, self.next, self.moved, self.work, releases)

    def judge(self, masses, water, claim):
        fluxes, outsides, releases = water
        return self.calls.ask("judge", *self.mesh, masses, fluxes, outsides, self.next, claim, releases)


def water(mesh, step):
    """Fluxes, outsides and releases of a step that was read, as the calls are lent them."""
    outsides = [0] * len(mesh.faces)
    for face, outside in zip(mesh.rim, step.outsides):
        outsides[face] = outside
    return step.fluxes, outsides, step.releases or [0] * len(mesh.volumes)
