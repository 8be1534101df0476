"""Sessions in Python's hands: opened or made, run step by step, as tables of all cells over all steps, budgets and pictures."""

import io
import os
import tempfile
from functools import cached_property
from pathlib import Path
from typing import Callable, Iterable, Iterator, NamedTuple, Optional, Union

from . import budget, causes, engine, export, layout, plot, records, session, sessiontext
from . import map as map_command
from .command import Bad, Output
from .timeline import Timeline
from .values import Field, Mesh, Named, Refused, Step

FIGURES = {"q": lambda mass, volume: mass // volume, "mass": lambda mass, volume: mass, "rest": lambda mass, volume: mass % volume}


class Moment:
    """A session after one of its steps: `step` is its number, 0 before the first; `time` says when that is, in the words of the text, or
    nothing; `refusal` is None, or why the step changed nothing."""

    def __init__(self, mesh: Mesh, inner, time: str = ""):
        self.mesh, self.step, self.time, self._inner = mesh, inner.number, time, inner
        self.refusal = inner.refusal and Refused(inner.refusal, mesh.labels, inner.number)

    @property
    def field(self) -> Field:
        return Field(self.mesh, self._inner.masses)

    @property
    def q(self) -> Named:
        return self.figures("q")

    def figures(self, what: str) -> Named:
        """q, mass or rest of each cell."""
        return self.mesh.by_cell(map(FIGURES[what], self._inner.masses, self.mesh.volumes))

    @property
    def total(self) -> int:
        return sum(self._inner.masses)

    @property
    def entered(self) -> Named:
        """What came in over each rim face in this step."""
        return self.mesh.by_face(self._inner.entered, rim=True)

    @property
    def gone(self) -> Named:
        """What left over each rim face in this step."""
        return self.mesh.by_face(self._inner.gone, rim=True)

    @property
    def released(self) -> Named:
        """What was released into each cell in this step."""
        return self.mesh.by_cell(self._inner.released.get(cell, 0) for cell in range(len(self.mesh.volumes)))

    def __repr__(self):
        return f"<step {self.step}: {self.refusal or f'total {self.total}'}>"


class Budget(NamedTuple):
    """First total + entered + released - gone - last total is the difference, which is 0."""
    first: int
    entered: int
    released: int
    gone: int
    last: int
    difference: int
    accepted: int
    entered_by: Named
    released_by: Named
    gone_by: Named


class Picture:
    """A picture that a notebook shows, and a file holds."""

    def __init__(self, svg: str):
        self.svg = svg

    def _repr_svg_(self) -> str:
        return self.svg

    def save(self, path: Union[str, Path]) -> None:
        Path(path).write_text(self.svg, encoding="utf-8")


class Run:
    """The steps of a session made by the engine, each time it is gone through. `every` keeps every Nth step and the last; `progress` is
    called with the step and how many there are.

    >>> run = Session.open("examples/channel.txt").run()
    >>> for moment in run:
    ...     print(moment.step, moment.total, dict(moment.q))
    0 100000 {0: 1000, 1: 0, 2: 0}
    1 150000 {0: 1000, 1: 499, 2: 0}
    2 200000 {0: 1000, 1: 811, 2: 187}
    >>> run.table()
    {'step': [0, 1, 2], 0: [1000, 1000, 1000], 1: [0, 499, 811], 2: [0, 0, 187]}
    >>> run.budget().difference
    0
    """

    def __init__(self, session: "Session", plain=False, every=1, progress: Optional[Callable[[int, int], object]] = None):
        self.session, self.plain, self.every, self.progress = session, plain, every, progress

    def _moments(self):
        """All moments as the tools have them."""
        inner = self.session.opened()
        step = engine.Plain(inner.mesh, calls=engine.asked()).step if self.plain else engine.Engine(inner.mesh_record).step
        walk, of = engine.Walk(inner, step), len(self.session) if self.progress else 0
        yield walk.first()
        for number, (record, damage) in enumerate(inner.steps(), 1):
            yield walk.after(number, record, damage)
            if self.progress:
                self.progress(number, of)

    def __iter__(self) -> Iterator[Moment]:
        held, mesh, timeline = None, self.session.mesh, Timeline(self.session.labels)
        for inner in self._moments():
            held = inner
            if inner.number % self.every == 0:
                held = None
                yield Moment(mesh, inner, timeline.words(inner.number))
        if held:
            yield Moment(mesh, held, timeline.words(held.number))

    def table(self, what: str = "q") -> dict:
        """All cells over all steps that are kept: the steps, their times where the text has any, then q (or mass, or rest) under the name or
        number of each cell. It is what `pandas.DataFrame` takes."""
        mesh, columns, steps, times = self.session.mesh, None, [], []
        for moment in self:
            figures = moment.figures(what)
            columns = columns or {key: [] for key in figures}
            steps.append(moment.step)
            times.append(moment.time)
            for column, value in zip(columns.values(), map(FIGURES[what], moment._inner.masses, mesh.volumes)):
                column.append(value)
        return {"step": steps, **({"time": times} if any(times) else {}), **columns}

    def to_csv(self, path: Union[str, "os.PathLike[str]"], long: bool = False) -> None:
        """The same as a file, as `lagoon export` writes it: a column for each cell, or with `long` a row for each cell of each step.

        >>> with tempfile.TemporaryDirectory() as made:
        ...     Session.open("examples/channel.txt").run(every=2).to_csv(f"{made}/q.csv")
        ...     print(open(f"{made}/q.csv").read(), end="")
        step,time,cause,cell 0,cell 1,cell 2
        0,,,1000,0,0
        2,,,1000,811,187
        """
        table = export.Table(self.session.opened(), range(len(self.session.mesh.volumes)), long, False)
        with Output(str(path)) as output:
            output.write(table.head())
            for moment in self:
                output.write(table.rows(moment._inner))

    def last(self) -> Field:
        """The field after the last step."""
        for inner in self._moments():
            masses = inner.masses
        return Field(self.session.mesh, masses)

    def refusals(self) -> "list[Refused]":
        """Why each refused step is refused."""
        return [Refused(inner.refusal, self.session.mesh.labels, inner.number) for inner in self._moments() if inner.refusal]

    def budget(self) -> Budget:
        """What entered, left and was released over all steps."""
        found, mesh = budget.Budget(self.session.opened()), self.session.mesh
        for inner in self._moments():
            found.add(inner)
        sums = (sum(part.values()) for part in (found.entered, found.released, found.gone))
        return Budget(found.first, *sums, found.last, found.difference(), found.accepted, mesh.by_face(found.entered, rim=True),
                      mesh.by_cell(found.released[cell] for cell in range(len(mesh.volumes))), mesh.by_face(found.gone, rim=True))

    def plot(self, cells: Iterable = (), title: str = "", profile: Iterable = ()) -> Picture:
        """What `lagoon plot` draws of it; cells by name or number. Of a plain run, plain upwind beside the corrected steps.

        >>> Session.open("examples/channel.txt").run().plot(cells=[0, 2]).svg.startswith("<svg")
        True
        """
        numbers = [str(self.session.mesh.cells.of(str(cell))) for cell in cells]
        words = ["--title", title or self.session.name, "--every", str(self.every), *(["--cells", ",".join(numbers)] if numbers else []),
                 *(["--profile", ",".join(map(str, profile))] if profile else []), *(["--plain"] if self.plain else [])]
        return drawn(plot.main, self.session, words)

    def map(self, steps: Iterable = (0, "last"), title: str = "") -> Picture:
        """What `lagoon map` draws: the lagoon after these steps, where its text says where cells and faces lie."""
        return drawn(map_command.main, self.session, ["--title", title or self.session.name, "--steps", ",".join(str(step) for step in steps)])


def drawn(main, shown: "Session", words) -> Picture:
    """The picture that a command makes of a session."""
    with tempfile.TemporaryDirectory(prefix="lagoon.") as made:
        given, picture = Path(made, "session"), Path(made, "picture.svg")
        given.write_bytes(shown.data)
        try:
            main([str(given), "-o", str(picture), *words])
        except Bad as bad:
            raise ValueError(str(bad)) from None
        return Picture(picture.read_text(encoding="utf-8"))


class Session:
    """A mesh, a first field and a list of steps: opened from a file, text or packed, or made of values.

    >>> tide = Session.open("examples/tide.txt")
    >>> tide
    <Session tide.txt: 8 cells, 9 faces, 49 steps>
    >>> tide.run().refusals()[0].step
    25
    >>> pond = Mesh([100], units={"mass": "kg"})
    >>> Session.made(Field(pond, [500]), [Step(pond, [], release=[7])] * 3).run().last().total
    521
    """

    def __init__(self, data: bytes, name: str = "session"):
        self.data, self.name = data, name
        inner = self.opened()
        self.labels, self.mesh = inner.labels, Mesh.of(inner.mesh, inner.labels)
        self.field = Field(self.mesh, inner.masses)

    @classmethod
    def open(cls, path: Union[str, "os.PathLike[str]"]) -> "Session":
        """The session of a file, text or packed."""
        return cls(Path(path).read_bytes(), Path(path).name)

    @classmethod
    def of(cls, given: Union[str, bytes]) -> "Session":
        """The session that a text says, or that packed records hold."""
        return cls(given.encode() if isinstance(given, str) else bytes(given))

    @classmethod
    def made(cls, field: Field, steps: Iterable[Step]) -> "Session":
        """A session of values; names and units are those of the mesh."""
        mesh = field.mesh
        head = [f"unit {what} {words}\n" for what, words in mesh.labels.units.items()]
        head += [f"name {thing} {number} {words}\n" for thing, names in mesh.labels.names.items() for number, words in names.items()]
        writer = sessiontext.StepText(mesh.inner)
        body = [writer.of(step.inner, number, 1) for number, step in enumerate(steps, 1)]
        return cls.of("".join([*head, sessiontext.mesh_text(mesh.inner), sessiontext.field_text(field.masses), *body]))

    def save(self, path: Union[str, "os.PathLike[str]"]) -> None:
        """Writes it as it was opened or made, text or packed."""
        Path(path).write_bytes(self.data)

    def opened(self):
        """Read from its beginning, as the tools do."""
        try:
            return session.Session(io.BufferedReader(io.BytesIO(self.data)), self.name)
        except Bad as bad:
            raise ValueError(str(bad)) from None

    @cached_property
    def _length(self):
        return sum(1 for _ in self.opened().steps())

    def __len__(self):
        return self._length

    def steps(self) -> Iterator[Step]:
        """The steps, as values; Refused at one that is no record."""
        inner = self.opened()
        for number, (_, damage) in enumerate(inner.steps(), 1):
            try:
                if damage:
                    raise damage
                read = inner.source.step(inner.mesh)
            except layout.Damage as found:
                raise Refused(causes.damaged(found), self.labels, number) from None
            yield Step(self.mesh, read.fluxes, dict(zip(inner.mesh.rim, read.outsides)), read.releases)

    def run(self, plain: bool = False, every: int = 1, progress: Optional[Callable[[int, int], object]] = None) -> Run:
        """Its steps made by the engine, corrected or plain."""
        return Run(self, plain, every, progress)

    def __repr__(self):
        return f"<Session {self.name}: {len(self.mesh.volumes)} cells, {len(self.mesh.first)} faces, {len(self)} steps>"


# ---------------------------------------------------------------- Records and text

def check(given: Union[str, "os.PathLike[str]", Session]) -> "list[Refused]":
    """What the engine refuses in a session, a file or one that is open; an empty list where it accepts all.

    >>> [(found.step, found.cause, found.place) for found in check("examples/tide.txt")]
    [(25, 9, 0)]
    """
    return (given if isinstance(given, Session) else Session.open(given)).run().refusals()


def pack(text: str) -> bytes:
    """The records of a session's text.

    >>> pack("mesh\\ncell 0 volume 100\\nfield\\ncell 0 mass 99\\n").hex(" ")
    '10 01 00 00 06 40 20 01 00 00 00 63'
    """
    try:
        return sessiontext.pack(text)[0]
    except sessiontext.TextError as error:
        raise ValueError(sessiontext.text_words("text", error)) from None


def unpack(data: bytes) -> str:
    """The text of a session's records; ValueError where one does not follow its layout.

    >>> print(unpack(bytes.fromhex("100100000640 200100000063")), end="")
    mesh
    cell 0 volume 100
    <BLANKLINE>
    field
    cell 0 mass 99
    """
    text, problems = records.unpack(data)
    if problems:
        raise ValueError(problems[0])
    return text
