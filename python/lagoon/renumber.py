"""A session in another numbering of its cells and faces, with interior faces turned round: document 02, S-9."""

import csv
import io
import random

from . import command, layout
from .command import Bad, Output, count
from .layout import RIM, Damage, Face
from .session import open_session

HELP = """\
The session is text or packed; what is written is packed, and lagoon unpack shows it as text. The step on it gives the same
masses and moved masses at the new numbers, negated where a face is turned, and refuses with the same number, maybe at another place.

--cells and --faces give the new number of each cell and face, from number 0 on: --cells 2,0,1 makes cell 0 the cell 2. --seed numbers at
random what no list is given for. --turn turns interior faces by their old numbers, all of them, or some at random: the ends change places,
the share becomes 256 less the share, and every flux its opposite; a flux of 0 stays without a sign. The rim's mark stays, and outside
values follow the new order of the rim faces.

Mesh and field have to be accepted. A step whose record does not read (causes 11 to 13) has no values to renumber: its bytes are written
as they are, and the run refuses them as before.

--map writes what went where, a row for each cell and face: kind, old number, new number, turned. With it figures are carried back.

examples:
  lagoon renumber examples/tide.txt --seed 7 --turn some -o other.in
  lagoon renumber examples/channel.txt --cells 2,1,0 --faces 3,2,1,0 --turn 1,2 --map map.csv -o other.in
"""


class Numbering:
    """The new number of each old cell and face, and the old numbers of the faces that are turned."""

    def __init__(self, cells, faces, turned=()):
        self.cells, self.faces, self.turned = list(cells), list(faces), frozenset(turned)

    def by_cell(self, entries):
        """A table with an entry for each cell, carried along; entries past the cells stay."""
        return along(self.cells, entries)

    def by_face(self, entries):
        return along(self.faces, entries)

    def amounts(self, entries):
        """The same with an amount for each face, negated where the face is turned."""
        return self.by_face([-amount if number in self.turned else amount for number, amount in enumerate(entries)])

    def face(self, number, face):
        """A face of the mesh with its ends by their new numbers."""
        ends = face.first, face.second
        first, second = reversed(ends) if number in self.turned else ends
        share = 256 - face.share if number in self.turned else face.share
        return Face(self.cells[first], RIM if second == RIM else self.cells[second], share, face.reach)

    def mesh(self, mesh):
        return layout.mesh_of(self.by_cell(mesh.volumes), self.by_face([self.face(*pair) for pair in enumerate(mesh.faces)]), mesh.widths)

    def step(self, mesh, step):
        """A step on the mesh in the old numbering: its outside values are those of the rim faces, in their order; where it has no releases
        it gets none."""
        outsides = dict(zip(mesh.rim, step.outsides))
        ordered = [outsides[face] for face in sorted(mesh.rim, key=lambda face: self.faces[face])]
        releases = None if step.releases is None else self.by_cell(step.releases)
        return step._replace(fluxes=self.amounts(step.fluxes), outsides=ordered, releases=releases)


def along(new, entries):
    carried = list(entries)
    for old, number in enumerate(new):
        carried[number] = entries[old]
    return carried


def shuffled(rng, total):
    numbers = list(range(total))
    rng.shuffle(numbers)
    return numbers


def at_random(rng, mesh):
    """Any numbering of a mesh, about half of its interior faces turned."""
    turned = [face for face in interior(mesh) if rng.random() < 0.5]
    return Numbering(shuffled(rng, len(mesh.volumes)), shuffled(rng, len(mesh.faces)), turned)


def interior(mesh):
    return sorted(set(range(len(mesh.faces))) - set(mesh.rim))


# ---------------------------------------------------------------- The session

def records(session, numbering, say=lambda words: None):
    """The records of the session in the other numbering; a step that does not read is told and stays as it is."""
    widths = session.mesh.widths
    yield layout.mesh_record(numbering.mesh(session.mesh))
    yield layout.field_record(numbering.by_cell(session.masses), widths)
    for number, (record, damage) in enumerate(session.steps(), 1):
        try:
            if damage:
                raise damage
            record = layout.step_record(numbering.step(session.mesh, session.source.step(session.mesh)), widths)
        except Damage as found:
            say(f"lagoon renumber: step {number} does not read ({found.words}; cause {found.cause}): its bytes are written as they are")
        yield record


def map_text(numbering):
    text = io.StringIO()
    writer = csv.writer(text, lineterminator="\n")
    writer.writerow(["kind", "old", "new", "turned"])
    writer.writerows(["cell", old, new, ""] for old, new in enumerate(numbering.cells))
    writer.writerows(["face", old, new, "turned" if old in numbering.turned else ""] for old, new in enumerate(numbering.faces))
    return text.getvalue()


# ---------------------------------------------------------------- Options

def listed_numbers(text):
    parts = text.split(",") if text else []
    return [command.whole(part, 0, layout.most(layout.FACES_BITS)) for part in parts]


def turning(text):
    return text if text in ("all", "some") else listed_numbers(text)


def numbered(given, total, rng, what):
    """The new numbers of so many things: as given, at random, or as they were."""
    if given is None:
        return shuffled(rng, total) if rng else list(range(total))
    if sorted(given) != list(range(total)):
        raise Bad(f"--{what} needs each number from 0 to {total - 1} once: the mesh has {count(total, what[:-1])}")
    return given


def turned_faces(given, mesh, rng):
    """The interior faces to turn: those given, all of them, or some at random."""
    inside = interior(mesh)
    if given == "all":
        return inside
    if given == "some":
        if not rng:
            raise Bad("--turn some needs --seed")
        return [face for face in inside if rng.random() < 0.5]
    for face in given or []:
        if face not in inside:
            raise Bad(f"--turn {face}: " + ("a rim face is not turned" if face in mesh.rim else f"the mesh has {count(len(mesh.faces), 'face')}"))
    return given or []


def numbering_of(options, mesh):
    rng = random.Random(options.seed) if options.seed is not None else None
    cells = numbered(options.cells, len(mesh.volumes), rng, "cells")
    faces = numbered(options.faces, len(mesh.faces), rng, "faces")
    return Numbering(cells, faces, turned_faces(options.turn, mesh, rng))


def arguments(words):
    parser = command.parser("lagoon renumber", __doc__, HELP)
    parser.add_argument("file", nargs="?", default="-", help="the session, text or packed (default: standard input)")
    parser.add_argument("-o", "--output", metavar="FILE", default="-", help="where the session goes (default: standard output)")
    parser.add_argument("--cells", type=listed_numbers, metavar="LIST", help="the new number of each cell")
    parser.add_argument("--faces", type=listed_numbers, metavar="LIST", help="the new number of each face")
    parser.add_argument("--seed", type=lambda text: command.whole(text, 0, (1 << 64) - 1), help="number at random, the same for the same seed")
    parser.add_argument("--turn", type=turning, metavar="LIST", help="interior faces to turn: numbers, all, or some at random")
    parser.add_argument("--map", metavar="FILE", help="write what went where")
    options = parser.parse_args(words)
    if all(given is None for given in (options.cells, options.faces, options.seed, options.turn)):
        parser.error("give --cells, --faces, --seed or --turn")
    return options


def main(words):
    options = arguments(words)
    command.keep_apart([options.output, options.map], [options.file])
    session = open_session(options.file)
    numbering = numbering_of(options, session.mesh)
    with Output(options.output) as output:
        for record in records(session, numbering, command.say):
            output.write(record)
    if options.map:
        command.write_whole(options.map, map_text(numbering).encode())
    return 0
