"""The proved steps, called from Python, and a session stepped through them: the corrected step and the plain one of document 02's S-8, both
by the library's shared object."""

import atexit
import ctypes
import os
import subprocess
import tempfile
from collections import namedtuple
from ctypes.util import find_library
from fractions import Fraction
from functools import lru_cache

from . import causes, command, layout
from .calls import Calls, OnTables, water
from .command import Bad, Progress
from .shared import Shared

# One step of a session: its number, None or the refusal, the masses after it, its in-mass and out-mass by rim face, and what it released
# by cell.
Moment = namedtuple("Moment", "number refusal masses entered gone released")


def options(parser):
    parser.add_argument("--library", metavar="FILE", help="the shared object of the library (default: target/lib/liblagoon.so, which `make lib` makes)")
    parser.add_argument("--run", metavar="PROGRAM", help="the run program: its lines have to say the same of every step and of the board")


def plain_options(parser):
    parser.add_argument("--plain", action="store_true", help="show plain upwind beside the corrected step")
    parser.add_argument("--calls", metavar="PROGRAM",
                        help="a program `calls` that makes the plain steps instead of the library")


def read_by(options):
    """The library and the programs that a command reads or may read: nothing is written over them."""
    given = vars(options)
    found = given.get("library") or library(), given.get("calls") or command.built("calls"), given.get("run") or command.built("run")
    return [path for path in found if path]


def library():
    """Where the library is: packed with this package, made in the tree, or installed in the system."""
    return command.built("liblagoon.so", "lib") or find_library("lagoon")


def loaded(path):
    """The shared object of the library."""
    found = path or library()
    if not found or path and not os.path.exists(path):
        raise Bad(f"{path or 'target/lib/liblagoon.so'} is not there: `make lib` makes it")
    return ctypes.CDLL(os.path.abspath(found) if os.path.exists(found) else found)


def asker(program=None):
    """Who makes the calls on tables: the library where it exports any, else the program `calls`, or the program that is named."""
    if program or not library():
        return Calls(program)
    shared = Shared(loaded(None))
    return shared if shared.made else Calls()


@lru_cache(maxsize=None)
def asked():
    """The same, one for all who ask in this process."""
    calls = asker()
    atexit.register(calls.finish)
    return calls


class Engine:
    """The C call on a mesh."""

    def __init__(self, mesh_record, library=None):
        try:
            self.call = loaded(library).lagoon_step
        except (OSError, AttributeError) as error:
            raise Bad(f"{library or 'the library'} has no call lagoon_step: {str(error)[:200]}") from None
        self.call.restype = ctypes.c_uint64
        self.call.argtypes = [ctypes.c_char_p, ctypes.c_size_t] * 4
        self.mesh = mesh_record

    def step(self, field, step):
        """The next field record, or None and the answer's cause and place."""
        room = ctypes.create_string_buffer(len(field))
        answer = self.call(self.mesh, len(self.mesh), field, len(field), step, len(step), room, len(field))
        return (None, (answer >> 32, answer & 0xffffffff)) if answer else (room.raw, None)


class Plain:
    """The plain step on a mesh, on tables."""

    def __init__(self, mesh, program=None, calls=None):
        self.calls = calls or asker(program)
        self.tables = OnTables(mesh, self.calls)
        cells, faces = len(mesh.volumes), len(mesh.faces)
        self.widths, self.read = mesh.widths, (int(mesh.widths == layout.WIDE), cells, faces, self.calls.lend([face.second for face in mesh.faces]))
        self.fluxes_outsides_releases = ([0] * faces, [0] * faces, [0] * cells)

    def step(self, field, step):
        """The next field record, or None and the answer's cause and place."""
        said, read = self.calls.ask("read_step", *self.read, list(step), *self.fluxes_outsides_releases)
        if said[0] == "accepted":
            said, left = self.tables.step("plain_step", layout.masses_in(field), (read["fluxes"], read["outsides"], read["releases"]))
        return (layout.field_record(left["next"], self.widths), None) if said[0] == "accepted" else (None, tuple(map(int, said[1:])))


class Walk:
    """A field carried on by one of the engine's steps. What the engine refuses has to be what the words of causes.py say."""

    def __init__(self, session, step):
        self.session, self.mesh, self.step = session, session.mesh, step
        self.field, self.masses = session.field_record, session.masses

    def first(self):
        return Moment(0, None, self.masses, {}, {}, {})

    def after(self, number, record, damage):
        """The moment after one step more."""
        field, refused = self.step(self.field, record)
        if refused:
            return Moment(number, self.words(number, damage, refused), self.masses, {}, {}, {})
        releases = layout.releases_in(record, self.mesh)
        entered, gone = self.over_the_rim(record, [mass + release for mass, release in zip(self.masses, releases)])
        self.field, self.masses = field, layout.masses_in(field)
        return Moment(number, None, self.masses, entered, gone, {cell: release for cell, release in enumerate(releases) if release})

    def words(self, number, damage, refused):
        """The words of a refusal, which have to be about the engine's cause and place."""
        return agreeing(number, causes.damaged(damage) if damage else causes.refused_step(self.session.source, self.mesh, self.masses), refused)

    def over_the_rim(self, record, masses):
        """In-mass and out-mass of an accepted step on these raised masses, by rim face: document 01's two sums, face by face."""
        entered, gone = {}, {}
        for face, (flux, outside) in zip(self.mesh.rim, layout.rim_values(record, self.mesh)):
            first = self.mesh.faces[face].first
            if flux < 0:
                entered[face] = -flux * outside
            elif flux:
                gone[face] = flux * (masses[first] // self.mesh.volumes[first])
        return entered, gone


class Tabled:
    """A field carried on by steps on tables: what moves through each face is known then."""

    def __init__(self, session, calls, masses=None):
        self.session, self.mesh, self.tables = session, session.mesh, OnTables(session.mesh, calls)
        self.masses, self.moved = masses or session.masses, None

    def after(self, number, damage, claim=None):
        """The moment after one step more of the session: by the engine's corrected step, or by what another model claims to have moved."""
        try:
            if damage:
                raise damage
            read = self.session.source.step(self.mesh)
        except layout.Damage as found:
            return Moment(number, causes.damaged(found), self.masses, {}, {}, {})
        step = water(self.mesh, read)
        said, left = self.tables.step("step", self.masses, step) if claim is None else self.tables.judge(self.masses, step, claim)
        answer = tuple(map(int, said[1:]))
        if said[0] != "accepted":
            return Moment(number, self.words(number, answer, read, claim), self.masses, {}, {}, {})
        self.masses, self.moved = left["next"], left["moved"] if claim is None else claim
        return self.accepted(number, answer, step)

    def words(self, number, refused, read, claim):
        """The words of a refusal, which have to be about the engine's cause and place."""
        refusal = causes.step_refusal(self.mesh, read, self.masses) or self.claim_refusal(water(self.mesh, read), claim)
        return agreeing(number, refusal, refused)

    def claim_refusal(self, step, claim):
        """Why a claim is refused whose step the engine would accept; the engine's own steps are not."""
        return None

    def accepted(self, number, answer, step):
        """The moment after an accepted step, whose sums by face and cell have to be the engine's answer."""
        entered = {face: -self.moved[face] for face in self.mesh.rim if self.moved[face] < 0}
        gone = {face: self.moved[face] for face in self.mesh.rim if self.moved[face] > 0}
        released = {cell: release for cell, release in enumerate(step[2]) if release}
        sums = tuple(sum(part.values()) for part in (entered, gone, released))
        if sums != answer:
            raise Bad(f"step {number}: in, out and released are {answer} by the engine, {sums} by faces and cells")
        return Moment(number, None, self.masses, entered, gone, released)


def agreeing(number, refusal, refused):
    """The words of a refusal, which have to be about the engine's cause and place."""
    if refusal is None or (refusal.cause, refusal.place) != refused:
        name = f"step {number}" if isinstance(number, int) else number
        found = causes.told(refusal) if refusal else "nothing wrong with it"
        raise Bad(f"{name}: the engine refuses it by cause {refused[0]}, place {refused[1]}, and causes.py finds {found}")
    return refusal


class History:
    """A session stepped through the engine; with plain, a Plain, by plain upwind as well."""

    def __init__(self, session, library=None, program=None, plain=None):
        self.session, self.mesh, self.program = session, session.mesh, program
        self.corrected = Walk(session, Engine(session.mesh_record, library).step)
        self.plain = Walk(session, plain.step) if plain else None
        self.lines, self.records = [], None     # as the run prints them, and what it reads
        if program:
            self.records = tempfile.TemporaryFile()
            self.records.write(session.mesh_record + session.field_record)

    def moments(self):
        """A moment for the first field and for each step, by the corrected step."""
        for corrected, _ in self.both():
            yield corrected

    def both(self):
        """The same, and beside it the moment by plain upwind, or None."""
        yield self.kept(self.corrected.first()), self.plain and self.plain.first()
        progress = Progress("step")
        for number, (record, damage) in enumerate(self.session.steps(), 1):
            progress.at(number)
            corrected = self.corrected.after(number, record, damage)
            yield self.kept(corrected, record), self.plain and self.plain.after(number, record, damage)
        progress.end()
        if self.program:
            self.lines += [f"B {cell} {q} {rest}" for cell, q, rest in board(self.mesh.volumes, self.corrected.masses)]
            self.records.seek(0)
            agree(self.program, self.records, self.lines)

    def kept(self, moment, record=b""):
        """The moment, for the run program as it should print it."""
        if self.program:
            self.lines.append(line(moment))
            self.records.write(record)
        return moment


def line(moment):
    """What the run prints of a step."""
    if moment.refusal:
        return f"{moment.number} R {moment.refusal.cause} {moment.refusal.place}"
    entered, gone, released = (sum(part.values()) for part in (moment.entered, moment.gone, moment.released))
    return f"{moment.number} {entered} {gone} {sum(moment.masses)} {released}"


def board(volumes, masses):
    """Up to 8 cells as (cell, q, rest): highest q first, then the larger rest / V, so by m / V; then the lower cell."""
    cells = sorted(range(len(volumes)), key=lambda cell: (-Fraction(masses[cell], volumes[cell]), cell))
    return [(cell, *divmod(masses[cell], volumes[cell])) for cell in cells[:8]]


def agree(program, records, lines):
    """The run program prints these lines of the records."""
    try:
        done = subprocess.run([program], stdin=records, capture_output=True, check=False)
    except OSError as error:
        raise Bad(f"{program}: {error.strerror}") from None
    printed = done.stdout.decode("ascii", "replace").splitlines()
    for number, (theirs, ours) in enumerate(zip(printed + [""] * len(lines), lines + [""] * len(printed)), 1):
        if theirs != ours:
            raise Bad(f"line {number} of {program} is '{theirs}', by the C call '{ours}'")
