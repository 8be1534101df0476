"""One lagoon on two boards: a session cut in two along labels of its cells, a session for each office. Document 02, S-12."""


from . import causes, command, layout
from .calls import OnTables
from .command import Bad, Output, count, shown
from .engine import Walk, asker, read_by
from .layout import RIM, Face, Step
from .rows import Rows, as_csv
from .session import Session, is_text
from .sessiontext import StepText, at_line, field_text, mesh_text

HELP = """\
LABELS is CSV with a heading; other columns are not read:

  cell   its number, or its name where the session has one
  label  0 or 1: the part that the cell goes to. Every cell has one label

The session is a list of plain steps (plain upwind, document 02's S-8), text or packed; what is written is of the same kind. Cells and
faces keep their order. A face between the parts is a rim face of both; on the side of its second cell it is turned round, so its flux is
negated, and what enters there is the concentration that the whole has across the cut before each step, releases added. So each part can
be stepped without the other, by plain steps: the corrected step on a part is another than on the whole.

Units and names are carried along; a face at the cut without a name is called "cut" with its number in the whole.

All cutting and stepping is done by the engine, through its library: the whole, and each part on the steps that are written for it. Next
and moved masses of each part have to be those of the whole by the old numbers, negated at a turned face; if they are not, nothing is
written. A step that the engine refuses changes no field: it is told, and left out of both parts.

--map writes what went where, a row for each cell and face of a part: kind, old number, part, new number, turned.

examples:
  lagoon cut examples/tide.txt examples/tide-labels.csv -o sea.txt river.txt
  lagoon cut session.in labels.csv -o west.in east.in --map map.csv
"""

PARTS = (0, 1)
COLUMNS = ("volumes", "firsts", "seconds", "shares", "reaches", "masses", "fluxes", "outsides", "releases")
WATER = COLUMNS[6:]
BY_CELL = {"volumes", "masses", "releases"}
MOST_LABEL = (1 << 64) - 1
MAP = ("kind", "old", "part", "new", "turned")       # columns of --map


# ---------------------------------------------------------------- Labels

def labels_of(session, path):
    """The label of each cell, as the table says; the engine judges them."""
    rows = Rows(path, ("cell", "label"))
    names = {name: cell for cell, name in session.labels.names["cell"].items()}
    numbers = {str(cell): cell for cell in range(len(session.mesh.volumes))}
    found = {}
    for line, row in rows.rows():
        word = rows.name(line, row, "cell")
        cell = names.get(word, numbers.get(word))
        if cell is None:
            raise rows.bad(line, f"the session has no cell {shown(word)}")
        if cell in found:
            raise rows.bad(line, f"a second label for {session.labels.of('cell', cell)}")
        found[cell] = label_in(rows, line, row)
    for cell in numbers.values():
        if cell not in found:
            raise Bad(f"{rows.path}: {session.labels.of('cell', cell)} has no label")
    return [found[cell] for cell in numbers.values()]


def label_in(rows, line, row):
    word = rows.word(row, "label")
    if not (word.isascii() and word.isdigit()) or int(word) > MOST_LABEL:
        raise rows.bad(line, f"label should be 0 or 1, not {shown(word)}")
    return int(word)


def label_refusal(session, labels, cause, place):
    """Causes 23 and 24 in words; the mesh and the field have been accepted."""
    if cause == 23:
        return f"{session.labels.of('cell', place)}: label {labels[place]} is neither 0 nor 1 (cause 23)"
    return f"no cell has label {place}, so that part has none (cause 24)"


# ---------------------------------------------------------------- The parts

class Board:
    """One part: where its cells and faces stood, its mesh, its names, and its field carried on by plain steps of its own."""

    def __init__(self, session, cutter, part, tables):
        mesh, labels = session.mesh, cutter.labelled
        self.part, (self.cells, self.faces) = part, cutter.sides(part)
        self.turned = {face for face in self.faces if labels[mesh.faces[face].first] != part}
        self.at_cut = {face for face in self.faces if mesh.faces[face].second != RIM and len({labels[end] for end in mesh.faces[face][:2]}) == 2}
        rows = zip(*(tables[column] for column in COLUMNS[1:5]))
        self.mesh = layout.mesh_of(tables["volumes"], [Face(*row) for row in rows], mesh.widths)
        self.masses, self.tables = tables["masses"], OnTables(self.mesh, cutter.calls)

    def step(self, number, tables, whole, releases):
        """The part's own plain step, held against the whole's; gives the step as it is written."""
        said, left = self.tables.step("plain_step", self.masses, [tables[column] for column in WATER])
        moved = [-whole["moved"][face] if face in self.turned else whole["moved"][face] for face in self.faces]
        if said[0] != "accepted" or (left["next"], left["moved"]) != ([whole["next"][cell] for cell in self.cells], moved):
            raise Bad(f"step {number}: the plain step of part {self.part} is not the whole's: that is a fault of the engine or of this tool")
        self.masses = left["next"]
        return Step(tables["fluxes"], [tables["outsides"][face] for face in self.mesh.rim], tables["releases"] if releases else None)

    def names(self, labels):
        """Lines of names, units and places for a text."""
        lines = [f"unit {what} {words}" for what, words in labels.units.items()]
        old = labels.names
        lines += [f"name cell {new} {old['cell'][cell]}" for new, cell in enumerate(self.cells) if cell in old["cell"]]
        for new, face in enumerate(self.faces):
            name = old["face"].get(face) or (f"cut {face}" if face in self.at_cut else None)
            if name:
                lines.append(f"name face {new} {name}")
        for thing, olds in (("cell", self.cells), ("face", self.faces)):
            lines += [at_line(thing, new, labels.at[thing][old]) for new, old in enumerate(olds) if old in labels.at[thing]]
        return "".join(line + "\n" for line in lines)

    def told(self, path):
        counts = f"{count(len(self.cells), 'cell')}, {count(len(self.faces), 'face')}, {len(self.at_cut):,} of them at the cut"
        return f"part {self.part}: {counts}: {path}\n"

    def map_rows(self):
        for new, cell in enumerate(self.cells):
            yield "cell", cell, self.part, new, ""
        for new, face in enumerate(self.faces):
            yield "face", face, self.part, new, "turned" if face in self.turned else ""


class Cutter:
    """A lagoon and its labels, cut by the proved call as often as it is asked."""

    def __init__(self, mesh, labels, calls):
        self.calls, self.mesh, self.labelled, self.labels = calls, mesh, labels, calls.lend(labels)
        self.tables = OnTables(mesh, calls)
        by_cell, by_face = self.tables.next, self.tables.moved      # tables of zeros, to be filled
        self.no_water = (by_face, by_face, by_cell)
        self.parts_into = tuple(by_cell if column in BY_CELL else by_face for column in COLUMNS) * len(PARTS)

    def cut(self, masses, water):
        """What the engine says and leaves; water: fluxes, outsides and releases."""
        return self.calls.ask("cut", *self.tables.mesh, masses, *water, self.labels, *self.parts_into)

    def own(self, said, left, part):
        """The tables of a part, as long as its own counts."""
        cells, faces = map(int, said[1 + 2 * part:3 + 2 * part])
        return {column: left[f"{column}{part}"][:cells if column in BY_CELL else faces] for column in COLUMNS}

    def sides(self, part):
        """The old numbers of a part's cells and of its faces."""
        faces = [number for number, face in enumerate(self.mesh.faces)
                 if part in [self.labelled[end] for end in (face.first, face.second) if end != RIM]]
        return [cell for cell, label in enumerate(self.labelled) if label == part], faces


class Cutting:
    """A session's lagoon cut before each step, by the engine."""

    def __init__(self, session, labels, program):
        self.mesh = session.mesh
        self.cutter = Cutter(self.mesh, labels, asker(program))
        self.calls, self.tables = self.cutter.calls, self.cutter.tables
        self.read = (int(self.mesh.widths == layout.WIDE), self.tables.cells, self.tables.faces, self.calls.lend([face.second for face in self.mesh.faces]))
        said, left = self.cutter.cut(session.masses, self.cutter.no_water)
        if said[0] == "refused":
            raise Bad("the cutting is refused: " + label_refusal(session, labels, *map(int, said[1:])))
        self.boards = [Board(session, self.cutter, part, self.cutter.own(said, left, part)) for part in PARTS]
        self.number, self.written = 0, None

    def step(self, field, record):
        """The next field record and, in `written`, the steps of both parts; or None and the answer's cause and place."""
        self.number += 1
        said, read = self.calls.ask("read_step", *self.read, list(record), *self.cutter.no_water)
        if said[0] == "accepted":
            masses, water = layout.masses_in(field), [read[column] for column in WATER]
            said, left = self.cutter.cut(masses, water)
        if said[0] == "refused":
            return None, tuple(map(int, said[1:]))
        answer, whole = self.tables.step("plain_step", masses, water)
        if answer[0] != "accepted":
            raise Bad(f"step {self.number}: the engine cuts it and refuses it: that is a fault of the engine")
        releases = layout.kind_of(record) == self.mesh.widths.outfalls
        self.written = [board.step(self.number, self.cutter.own(said, left, board.part), whole, releases) for board in self.boards]
        return layout.field_record(whole["next"], self.mesh.widths), None


# ---------------------------------------------------------------- What is written

class Packed:
    """A part's session as records."""

    def __init__(self, board, output):
        self.output, self.widths = output, board.mesh.widths
        output.write(layout.mesh_record(board.mesh) + layout.field_record(board.masses, self.widths))

    def step(self, number, step):
        self.output.write(layout.step_record(step, self.widths))


class Text:
    """A part's session as text, with the names of the whole; each step has its number in the whole."""

    def __init__(self, board, output, labels):
        self.output, self.steps, self.times = output, StepText(board.mesh), labels.times
        head = f"# Part {board.part} of a lagoon that was cut in two: its steps are plain ones.\n"
        output.write((head + board.names(labels) + mesh_text(board.mesh) + field_text(board.masses)).encode())

    def step(self, number, step):
        self.output.write(self.steps.of(step, number, 1, self.times.get(number, "")).encode())


def cut_session(session, cutting, papers):
    """Writes the steps of both parts; gives how many there are, and the refused ones in words."""
    walk, made, refused = Walk(session, cutting.step), 0, []
    for number, (record, damage) in enumerate(session.steps(), 1):
        moment = walk.after(number, record, damage)
        if moment.refusal:
            refused.append(f"step {number} is refused and left out: {causes.told(moment.refusal, session.labels)}\n")
            continue
        made += 1
        for paper, step in zip(papers, cutting.written):
            paper.step(number, step)
    return made, refused


def map_table(boards):
    """What went where, a row for each cell and face of a part."""
    return as_csv([MAP, *(row for board in boards for row in board.map_rows())])


def arguments(words):
    parser = command.parser("lagoon cut", __doc__, HELP)
    parser.add_argument("file", metavar="SESSION", help="the session, text or packed; - is standard input")
    parser.add_argument("labels", metavar="LABELS", help="the label of each cell, CSV")
    parser.add_argument("-o", "--output", nargs=2, metavar=("PART0", "PART1"), required=True, help="where the parts' sessions go")
    parser.add_argument("--map", metavar="FILE", help="write what went where")
    parser.add_argument("--calls", metavar="PROGRAM",
                        help="the program that cuts and steps (default: target/bin/calls, which `make calls` makes)")
    return parser.parse_args(words)


def judge_files(options):
    written = [*options.output, *([options.map] if options.map else [])]
    for path in written:
        if path == "-":
            raise Bad("the parts are written to two files, not to standard output")
    command.keep_apart(written, [options.file, options.labels, *read_by(options)])


def main(words):
    options = arguments(words)
    judge_files(options)
    file = command.opened(options.file)
    text = is_text(file)
    session = Session(file, options.file)
    cutting = Cutting(session, labels_of(session, options.labels), options.calls)
    with Output(options.output[0]) as first, Output(options.output[1]) as second:
        papers = [Text(board, output, session.labels) if text else Packed(board, output)
                  for board, output in zip(cutting.boards, (first, second))]
        made, refused = cut_session(session, cutting, papers)
    if options.map:
        command.write_whole(options.map, map_table(cutting.boards))
    said = [board.told(path) for board, path in zip(cutting.boards, options.output)] + refused
    said.append(f"{count(made, 'plain step')}: next and moved masses of both parts are the whole's at the old numbers\n")
    command.write_whole("-", "".join(said).encode())
    return 0
