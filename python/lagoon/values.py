"""A lagoon in Python's hands: a mesh, a field on it and the water of a step, from any sequences of whole numbers."""

from array import array
from collections.abc import Mapping
from functools import cached_property
from operator import index

from . import causes, layout, rows
from .causes import CELL, FACE
from .command import Bad
from .layout import RIM, WIDE, most
from .sessiontext import Labels

SIGNED, UNSIGNED = "q", "Q"             # 64-bit numbers, as the calls are lent them


class Refused(ValueError):
    """What the engine refuses: `cause` and `place` as the papers number them, `words` for people, `step` where it was in a session.

    >>> Mesh([100, 0], names=["Inlet", "Delta"])
    Traceback (most recent call last):
        ...
    lagoon.Refused: cell 1 (Delta): volume 0 is outside 1 to 65,535 (cause 3)
    """

    def __init__(self, refusal, labels=None, step=None):
        super().__init__(causes.told(refusal, labels))
        self.cause, self.place, self.words, self.step = refusal.cause, refusal.place, str(self), step


Refused.__module__ = "lagoon"


# ---------------------------------------------------------------- Tables and names

def table(values, kind=UNSIGNED, what="the table"):
    """Whole numbers as a table of 64 bits each: what lies in memory as such a table already, as a numpy array does, is taken as it is.

    >>> table([1, 2, 3]).tolist()
    [1, 2, 3]
    >>> lent = array("q", [5, 6])
    >>> taken = table(lent)
    >>> lent[0] = 7
    >>> taken.tolist()
    [7, 6]
    """
    try:
        view = memoryview(values)
        if view.ndim == 1 and view.c_contiguous and view.format in ("q", "l", "Q", "L") and view.itemsize == 8:
            if view.format.isupper() == kind.isupper() or not view.nbytes or 0 <= min(view) and max(view) < 1 << 63:
                return view.cast("B").cast(kind)
    except TypeError:
        pass
    try:
        return memoryview(array(kind, map(index, values)))
    except TypeError:
        raise TypeError(f"{what} should be whole numbers") from None
    except OverflowError:
        raise ValueError(f"{what}: a number is not within {'-' if kind == SIGNED else ''}64 bits") from None


class Named(Mapping):
    """Figures of cells or faces, by name or by number.

    >>> channel = Mesh([100, 100], names=["Inlet", "Delta"])
    >>> q = channel.by_cell([7, 8])
    >>> q["Delta"], q[1], dict(q)
    (8, 8, {'Inlet': 7, 'Delta': 8})
    """

    def __init__(self, called, names, figures):
        self._called, self._names, self._figures = called, names, figures

    def __getitem__(self, key):
        try:
            return self._figures[self._called.of(str(key))]
        except Bad as bad:
            raise KeyError(str(bad)) from None

    def __iter__(self):
        return (self._names.get(number, number) for number in self._figures)

    def __len__(self):
        return len(self._figures)

    def __repr__(self):
        return repr(dict(self))


def spread(values, called, kind, what):
    """A table with an entry for each cell or face, from a sequence, or from a mapping whose keys are names or numbers."""
    if values is None:
        values = {}
    if isinstance(values, Mapping):
        found = array(kind, bytes(8 * called.total))
        for key, value in values.items():
            try:
                found[called.of(str(key))] = index(value)
            except Bad as bad:
                raise KeyError(f"{what}: {bad}") from None
        return memoryview(found)
    found = table(values, kind, what)
    if len(found) != called.total:
        raise ValueError(f"{what}: {len(found):,} numbers, and there are {called.total:,} {called.thing}s")
    return found


# ---------------------------------------------------------------- Mesh

class Mesh:
    """The cells of a lagoon with their volumes, and the faces between them: first and second cell, share and reach.

    A face at the rim has `RIM` for its second cell, and share and reach 0. Names and units are words for people.

    >>> channel = Mesh([100, 100, 100], [0, 0, 1, 2], [RIM, 1, 2, RIM], [0, 128, 128, 0], [0, 100, 100, 0],
    ...                names=["Inlet", "Middle", "Delta"], face_names={0: "sea"})
    >>> channel
    <Mesh: 3 cells, 4 faces, 2 of them at the rim>
    >>> channel.volumes.tolist()
    [100, 100, 100]
    """

    def __init__(self, volumes, first=(), second=(), share=(), reach=(), *, names=(), face_names=(), units=()):
        self.volumes, self.first, self.second = table(volumes, what="volumes"), table(first, what="first"), table(second, what="second")
        self.share, self.reach = table(share, what="share"), table(reach, what="reach")
        if len({len(column) for column in (self.first, self.second, self.share, self.reach)}) > 1:
            raise ValueError("first, second, share and reach have a number for each face")
        self.labels = Labels()
        self.labels.units = dict(units)
        for thing, words in ((CELL, names), (FACE, face_names)):
            self.labels.names[thing] = dict(words) if isinstance(words, Mapping) else dict(enumerate(words))
        faces = map(layout.Face, self.first, self.second, self.share, self.reach)
        self.inner = layout.mesh_of(self.volumes.tolist(), list(faces), WIDE)
        refusal = causes.mesh_refusal(self.inner)
        if refusal:
            raise Refused(refusal, self.labels)

    @classmethod
    def of(cls, inner, labels):
        """The mesh that was read from a session."""
        columns = zip(*inner.faces) if inner.faces else ((),) * 4
        return cls(inner.volumes, *columns, names=labels.names[CELL], face_names=labels.names[FACE], units=labels.units)

    @cached_property
    def record(self) -> bytes:
        """The mesh as a record of kind 5."""
        return layout.mesh_record(self.inner)

    @cached_property
    def cells(self):
        return rows.Cells(self.inner, self.labels)

    @cached_property
    def faces(self):
        return rows.Faces(self.inner, self.labels)

    def by_cell(self, figures) -> Named:
        """Figures of all cells, by name or number."""
        return Named(self.cells, self.labels.names[CELL], dict(enumerate(figures)))

    def by_face(self, figures, rim=False) -> Named:
        """Figures by face, 0 where there is none; of the rim faces or of all."""
        numbers = self.inner.rim if rim else range(len(self.inner.faces))
        found = figures if isinstance(figures, Mapping) else dict(enumerate(figures))
        return Named(self.faces, self.labels.names[FACE], {face: found.get(face, 0) for face in numbers})

    def __repr__(self):
        return f"<Mesh: {len(self.volumes)} cells, {len(self.first)} faces, {len(self.inner.rim)} of them at the rim>"


# ---------------------------------------------------------------- Field

class Field:
    """The masses of all cells at one time: a sequence, or a mapping by name or number in which cells left out have none.

    >>> pond = Mesh([100, 40], names=["West", "East"])
    >>> field = Field(pond, {"West": 12345})
    >>> field.masses.tolist(), field.q["West"], field.rest["West"], field.total
    ([12345, 0], 123, 45, 12345)
    >>> Field(pond, [0, 40_000_040])
    Traceback (most recent call last):
        ...
    lagoon.Refused: cell 1 (East): mass 40,000,040 in volume 40 is a concentration of 1,000,001, above 1,000,000 (cause 6)
    """

    def __init__(self, mesh: Mesh, masses):
        self.mesh, self.masses = mesh, spread(masses, mesh.cells, UNSIGNED, "masses")
        refusal = causes.field_refusal(mesh.inner, self.masses)
        if refusal:
            raise Refused(refusal, mesh.labels)

    @cached_property
    def record(self) -> bytes:
        """The field as a record of kind 6."""
        return layout.field_record(self.masses, WIDE)

    @property
    def q(self) -> Named:
        """The concentration of each cell: its mass by its volume, rounded down."""
        return self.mesh.by_cell(mass // volume for mass, volume in zip(self.masses, self.mesh.volumes))

    @property
    def rest(self) -> Named:
        """What rounding q left of each mass."""
        return self.mesh.by_cell(mass % volume for mass, volume in zip(self.masses, self.mesh.volumes))

    @property
    def total(self) -> int:
        return sum(self.masses)

    def __repr__(self):
        return f"<Field: {len(self.masses)} cells, total {self.total}>"


# ---------------------------------------------------------------- Step

class Step:
    """The water of one step: the flux of each face, positive from first to second cell and outward at the rim, the concentration outside
    where water enters over the rim, and what is released into cells. Each is a sequence, or a mapping by name or number.

    >>> channel = Mesh([100, 100], [0, 0, 1], [RIM, 1, RIM], [0, 128, 0], [0, 100, 0], face_names=["sea", "sill", "river"])
    >>> Step(channel, [-50, 50, 50], outside={"sea": 1000}, release={1: 20})
    <Step: 3 faces, releases 20>
    """

    def __init__(self, mesh: Mesh, flux, outside=None, release=None):
        self.mesh = mesh
        self.flux = spread(flux, mesh.faces, SIGNED, "flux")
        self.outside = spread(outside, mesh.faces, UNSIGNED, "outside")
        self.release = spread(release, mesh.cells, UNSIGNED, "release")
        refusal = self.beyond()
        if refusal:
            raise Refused(refusal, mesh.labels)

    def beyond(self):
        """A value that no record holds, which the engine would refuse."""
        mesh, sizes = self.mesh, causes.MOST_AT_RIM
        inside = [0 if face.second == RIM else outside for face, outside in zip(mesh.inner.faces, self.outside)]
        return (causes.first_of(18, CELL, self.release, lambda release: "" if release <= most(WIDE.mass) else f"release {release:,} is too large")
                or causes.first_of(7, FACE, self.outside,
                                   lambda value: "" if value <= most(layout.OUTSIDE_BITS) else f"outside value {value:,} is above {causes.TOP:,}")
                or causes.first_of(7, FACE, inside, lambda value: f"outside value {value:,} at a face that is not at the rim" if value else "")
                or causes.first_of(8, FACE, self.flux, lambda flux: "" if abs(flux) <= sizes else f"flux {flux:,} is above {sizes:,}"))

    @cached_property
    def inner(self):
        """As the tools hold a step that was read."""
        outsides = [self.outside[face] for face in self.mesh.inner.rim]
        return layout.Step(self.flux.tolist(), outsides, self.release.tolist() if any(self.release) else None)

    @cached_property
    def record(self) -> bytes:
        """The step as a record of kind 7, or 8 where it has releases."""
        return layout.step_record(self.inner, WIDE)

    def __repr__(self):
        return f"<Step: {len(self.flux)} faces, releases {sum(self.release)}>"
