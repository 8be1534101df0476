"""The proved calls, from Python: steps, claims judged, a lagoon cut in two, pages, boards, shares and charges. The verdict and every figure
are the engine's; the words of a refusal are worked out here, and have to be about its cause and place."""

from functools import cached_property
from typing import NamedTuple, Sequence

from . import causes, engine, judge, points
from .binder import Printer
from .calls import OnTables
from .causes import CELL, FACE, IN_WORDS, Refusal
from .cut import Cutter
from .layout import masses_in
from .shared import ROOMS
from .values import Field, Mesh, Named, Refused, SIGNED, Step, spread, table


class After(Field):
    """The field after a step, and what moved in it.

    >>> channel = Mesh([100, 100, 100], [0, 0, 1, 2], [4095, 1, 2, 4095], [0, 128, 128, 0], [0, 100, 100, 0], face_names={0: "sea"})
    >>> after = step(Field(channel, [100_000, 0, 0]), Step(channel, [-50, 50, 50, 50], outside={"sea": 1000}))
    >>> after.masses.tolist(), after.entered["sea"], after.gone[3], after.moved.tolist()
    ([100099, 49901, 0], 50000, 0, [-50000, 49901, 0, 0])
    """

    def __init__(self, before: Field, step: Step, masses, moved=None):
        super().__init__(before.mesh, masses)
        self.before, self.step, self._moved = before, step, moved

    @cached_property
    def moved(self):
        """The mass that moved through each face, by number."""
        if self._moved is None:         # lagoon_step gives the next field alone
            self._moved = tables(self.mesh).step("step", self.before.masses, water(self.step))[1]["moved"]
        return table(self._moved, SIGNED)

    @property
    def entered(self) -> Named:
        """What came in over each rim face."""
        return self.mesh.by_face({face: max(-self.moved[face], 0) for face in self.mesh.inner.rim}, rim=True)

    @property
    def gone(self) -> Named:
        """What left over each rim face."""
        return self.mesh.by_face({face: max(self.moved[face], 0) for face in self.mesh.inner.rim}, rim=True)

    @property
    def released(self) -> int:
        return sum(self.step.release)


# ---------------------------------------------------------------- Steps

def tables(mesh: Mesh):
    """The mesh as the calls on tables are lent it."""
    if not hasattr(mesh, "lent"):
        mesh.lent = OnTables(mesh.inner, engine.asked())
    return mesh.lent


def water(step: Step):
    return step.flux, step.outside, step.release


def same_mesh(field: Field, step: Step):
    if field.mesh is not step.mesh:
        raise ValueError("the field and the step are on two meshes")


def refused(field, refusal, answer):
    """The refusal in words, which have to be about the engine's cause and place."""
    return Refused(engine.agreeing("the step", refusal, answer), field.mesh.labels)


def step(field: Field, step: Step) -> After:
    """The field after one corrected step, by the C call `lagoon_step`; raises Refused and changes nothing where the engine refuses.

    >>> pond = Mesh([100, 100], [0], [1], [128], [100], names=["West", "East"])
    >>> step(Field(pond, [500, 0]), Step(pond, [60]))
    Traceback (most recent call last):
        ...
    lagoon.Refused: cell 0 (West): 0 enters, 60 leaves (cause 9)
    """
    same_mesh(field, step)
    mesh = field.mesh
    if not hasattr(mesh, "call"):
        mesh.call = engine.Engine(mesh.record)
    record, answer = mesh.call.step(field.record, step.record)
    if answer:
        raise refused(field, causes.step_refusal(mesh.inner, step.inner, field.masses), answer)
    return After(field, step, masses_in(record))


def plain_step(field: Field, step: Step) -> After:
    """The same by plain upwind, first order and without corrections (document 02, S-8)."""
    same_mesh(field, step)
    said, left = tables(field.mesh).step("plain_step", field.masses, water(step))
    if said[0] != "accepted":
        raise refused(field, causes.step_refusal(field.mesh.inner, step.inner, field.masses), tuple(map(int, said[1:])))
    return After(field, step, left["next"], left["moved"])


def judged(field: Field, step: Step, claim) -> After:
    """The field by another model's step, whose moved masses are claimed (document 02, S-11), a number for each face or a mapping; Refused
    where a rule is broken, with by how much.

    >>> channel = Mesh([100, 100], [0, 0, 1], [4095, 1, 4095], [0, 128, 0], [0, 100, 0], face_names=["sea", "sill", "river"])
    >>> first, flood = Field(channel, [5000, 0]), Step(channel, [-50, 50, 50], outside={"sea": 100})
    >>> judged(first, flood, {"sea": -5000, "sill": 2500}).masses.tolist()
    [7500, 2500]
    >>> judged(first, flood, {"sea": -4000, "sill": 2500})
    Traceback (most recent call last):
        ...
    lagoon.Refused: face 0 (sea): -4,000 moves where the water carries -5,000: 1,000 lost (cause 21)
    """
    same_mesh(field, step)
    mesh, claim = field.mesh.inner, spread(claim, field.mesh.faces, SIGNED, "claim").tolist()
    said, left = tables(field.mesh).judge(field.masses, water(step), claim)
    if said[0] == "accepted":
        return After(field, step, left["next"], claim)
    refusal = causes.step_refusal(mesh, step.inner, field.masses)
    if not refusal:
        raised = [mass + release for mass, release in zip(field.masses, step.release)]
        fault = judge.face_fault(mesh, water(step), raised, claim) or judge.cell_fault(mesh, water(step), raised, claim)
        refusal = fault and fault.refusal
    raise refused(field, refusal, tuple(map(int, said[1:])))


# ---------------------------------------------------------------- A lagoon cut in two

class Part(NamedTuple):
    """One part of a lagoon that was cut, with the old numbers of its cells and faces."""
    field: Field
    step: Step
    cells: Sequence[int]
    faces: Sequence[int]


def in_two(field: Field, step: Step, labels) -> "tuple[Part, Part]":
    """The parts of a lagoon by a label 0 or 1 for each cell (document 02, S-12): the plain step of each gives the whole's masses.

    >>> channel = Mesh([100, 100, 100], [0, 0, 1, 2], [4095, 1, 2, 4095], [0, 128, 128, 0], [0, 100, 100, 0], names=["Inlet", "Middle", "Delta"])
    >>> field, flood = Field(channel, [100_000, 0, 0]), Step(channel, [-50, 50, 50, 50], outside={0: 1000})
    >>> sea, land = in_two(field, flood, [0, 1, 1])
    >>> plain_step(land.field, land.step).masses.tolist(), plain_step(field, flood).masses.tolist()
    ([50000, 0], [100000, 50000, 0])
    >>> land.field.q, land.cells
    ({'Middle': 0, 'Delta': 0}, [1, 2])
    """
    same_mesh(field, step)
    mesh, labels = field.mesh, spread(labels, field.mesh.cells, "Q", "labels").tolist()
    cutter = Cutter(mesh.inner, labels, engine.asked())
    said, left = cutter.cut(field.masses, water(step))
    if said[0] != "accepted":
        cause, place = map(int, said[1:])
        words = {23: f"label {labels[place]} is neither 0 nor 1", 24: f"no cell has label {place}"} if cause > 20 else {}
        other = Refusal(cause, CELL if cause == 23 else "", place, words[cause]) if words else causes.step_refusal(mesh.inner, step.inner, field.masses)
        raise refused(field, other, (cause, place))
    return tuple(part_of(mesh, cutter, cutter.own(said, left, part), part) for part in (0, 1))


def part_of(mesh, cutter, own, part):
    """A part with the names of its cells and faces."""
    cells, faces = cutter.sides(part)
    names = {thing: {new: mesh.labels.names[thing][old] for new, old in enumerate(numbers) if old in mesh.labels.names[thing]}
             for thing, numbers in ((CELL, cells), (FACE, faces))}
    small = Mesh(own["volumes"], own["firsts"], own["seconds"], own["shares"], own["reaches"], names=names[CELL], face_names=names[FACE],
                 units=mesh.labels.units)
    return Part(Field(small, own["masses"]), Step(small, own["fluxes"], own["outsides"], own["releases"]), cells, faces)


class Records(NamedTuple):
    """The three records of a lagoon or of a part of one."""
    mesh: bytes
    field: bytes
    step: bytes


def records_in_two(mesh: bytes, field: bytes, step: bytes, labels) -> "tuple[Records, Records]":
    """The same on records, by the C call `lagoon_cut`: each part's have the width of the mesh and the kind of the step.

    >>> channel = Mesh([100, 100, 100], [0, 0, 1, 2], [4095, 1, 2, 4095], [0, 128, 128, 0], [0, 100, 100, 0])
    >>> field, flood = Field(channel, [100_000, 0, 0]), Step(channel, [-50, 50, 50, 50], outside={0: 1000})
    >>> sea, land = records_in_two(channel.record, field.record, flood.record, [0, 1, 1])
    >>> sea.field.hex(), len(land.mesh), land.step[0] >> 4
    ('600100000186a0', 26, 7)
    >>> records_in_two(channel.record, field.record, flood.record, [0, 2, 1])
    Traceback (most recent call last):
        ...
    lagoon.Refused: cell 1: label 2 is neither 0 nor 1 (cause 23)
    """
    rooms = [bytes(len(mesh) + len(field) + 4 * len(step))] * 6       # of each more than it can take
    labels = list(labels)
    said, left = engine.asked().ask("cut_records", mesh, field, step, labels, *rooms)
    if said[0] != "accepted":
        cause, place = map(int, said[1:])
        words = {2: "fewer labels than cells", 23: f"label {labels[place] if cause == 23 else ''} is neither 0 nor 1", 24: f"no cell has label {place}"}
        raise Refused(Refusal(cause, CELL if cause == 23 else "", place, words.get(cause) or IN_WORDS[cause]))
    taken = [bytes(left[word][:int(length)]) for word, length in zip(ROOMS.split(), said[1:])]
    return Records(*taken[:3]), Records(*taken[3:])


# ---------------------------------------------------------------- What is printed of a field

class Line(NamedTuple):
    """A line of the board."""
    cell: int
    q: int
    rest: int


def printer(field: Field, withheld):
    marks = [0] * len(field.masses)
    for cell in withheld:
        marks[field.mesh.cells.of(str(cell))] = 1
    return Printer(engine.asked(), field.mesh.inner.volumes, field.masses, marks if any(marks) else None)


def page(field: Field, number: int, withheld: Sequence = ()) -> bytes:
    """A page for the binder, counted from 0; with cells withheld, the public's page of the others.

    >>> pond = Mesh([100, 40], names=["West", "East"])
    >>> print(page(Field(pond, [12345, 40]), 0).decode(), end="")
       0     123   45
       1       1    0
                12385
    >>> print(page(Field(pond, [12345, 40]), 0, withheld=["West"]).decode(), end="")
       1       1    0
    """
    found = printer(field, withheld).page(number)
    if found is None:
        raise Refused(Refusal(14, "", number, f"there is no page {number}"))
    return found


def pages(field: Field, withheld: Sequence = ()) -> "list[bytes]":
    """All pages for the binder."""
    return list(printer(field, withheld).all_pages())


def board(field: Field, withheld: Sequence = ()) -> "list[Line]":
    """The eight highest concentrations, as the run prints them.

    >>> board(Field(Mesh([100, 40]), [12345, 40]))
    [Line(cell=0, q=123, rest=45), Line(cell=1, q=1, rest=0)]
    """
    return [Line(*entry) for entry in printer(field, withheld).entries()]


# ---------------------------------------------------------------- Survey and charges

def share(end1, end2, centre1, centre2) -> int:
    """The share of a face from its two ends and the centres of its first and second cell (document 02, S-7).

    >>> share((0, -2), (0, 2), (-30, 0), (10, 0))
    192
    """
    coordinates = [float(value) for point in (end1, end2, centre1, centre2) for value in point]
    said, _ = engine.asked().ask("face_share", *map(points.pattern, coordinates))
    answer = tuple(map(int, said[1:]))
    if said[0] == "accepted":
        return answer[0]
    raise Refused(engine.agreeing("the share", points.share(coordinates), answer))


class Charge(NamedTuple):
    """What is to pay, and what is handed on, in millionths of a cent."""
    cents: int
    remainder: int


def charged(total: int, bands: "Sequence[tuple[int, int]]", remainder: int = 0) -> Charge:
    """A period's total charged by bands, each its end and its price in cents per million (document 02, S-13).

    >>> charged(2_500_000, [(1_000_000, 3), (2_000_000, 2), (1 << 40, 1)])
    Charge(cents=5, remainder=500000)
    """
    ends, prices = ([band[column] for band in bands] for column in (0, 1))
    said, _ = engine.asked().ask("charge", total, len(bands), ends, prices, remainder)
    answer = tuple(map(int, said[1:]))
    if said[0] != "accepted":
        raise Refused(Refusal(answer[0], "", answer[1], f"place {answer[1]}: {IN_WORDS[answer[0]]}"))
    return Charge(*answer)


class Period:
    """What left over each rim face since the period began: a field after each step is added once.

    >>> channel = Mesh([100, 100], [0, 0, 1], [4095, 1, 4095], [0, 128, 0], [0, 100, 0], face_names=["sea", "sill", "river"])
    >>> ebb = Step(channel, [50, -50, -50], outside={"river": 7})
    >>> period, field = Period(channel), Field(channel, [5000, 0])
    >>> for _ in range(3):
    ...     field = step(field, ebb)
    ...     period.add(field)
    >>> period.totals
    {'sea': 4800, 'river': 0}
    """

    def __init__(self, mesh: Mesh):
        self.mesh, self._totals = mesh, [0] * len(mesh.first)

    def add(self, after: After) -> None:
        seconds = self.mesh.second.tolist()
        said, left = engine.asked().ask("add", len(seconds), seconds, after.moved, self._totals)
        if said[0] != "accepted":
            cause, face = map(int, said[1:])
            raise Refused(Refusal(cause, FACE, face, IN_WORDS[cause]), self.mesh.labels)
        self._totals = left["totals"]

    @property
    def totals(self) -> Named:
        return self.mesh.by_face(self._totals, rim=True)
