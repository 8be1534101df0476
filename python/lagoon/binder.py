"""The pages for the binder: of the last field of a session, or of a field record, one page of sixty cells after another; and the board.
For growers, or for the public, who are not shown withheld cells."""

import itertools

from . import causes, command, engine
from .causes import CELL
from .command import Bad, count
from .layout import Damage, Source
from .rows import Cells, Rows
from .session import open_session

HELP = """\
A line for each cell, 18 bytes: the cell in 4 places, a space, q in 7, a space, the rest in 4, each at the right of its places, and a
newline. After sixty cells, and after the last, comes a line with the mass of the page in 17 places. Where some volume of the mesh, on
this page or another, is above 4,095, the rest has 5 places and the mass 18, and all lines 19 bytes. The mass of a cell is read back from
its line as q times its volume plus the rest; the masses of all pages add up to the total.

The session is text or packed. The engine steps through it, by the C call of the library (`make lib`). With --field no step is made:
the pages are those of the field record, on the mesh of the session. Pages and board are printed by the proved calls of the library too.

Where a step of the session is refused, or the session is cut, the pages are of the steps that were accepted; that is said on standard
error, and the exit status is 1.

With --public the pages have no lines of withheld cells and no masses, and the board is ranked among open cells only; two fields that
differ in withheld cells alone print the same. MARKS is CSV with a heading; other columns are not read:

  cell  by name or number; a cell without a row is open
  mark  0 open, 1 withheld

examples:
  lagoon binder examples/tide.txt
  lagoon binder examples/tide.txt --public examples/closed.csv --board -
  lagoon binder session.in --run target/bin/run -o june.pages
  lagoon budget session.in --field june.field
  lagoon binder session.in --field june.field | lpr
"""

MOST_BYTES = 61 * 19            # of a page: sixty cells and their mass, in the widest lines
BEYOND = 14                     # the cause of a page beyond the last
LENGTH, KIND = 11, 13           # the causes of what is no record of a step
OPEN, WITHHELD = 0, 1
FORM_FEED = b"\f"


def marks_in(path, session):
    """The marks of all cells, by the rows of a table."""
    rows, cells, marked = Rows(path, ("cell", "mark")), Cells(session.mesh, session.labels), {}
    for line, row in rows.rows():
        try:
            cell = cells.of(rows.word(row, "cell"))
        except Bad as bad:
            raise rows.bad(line, bad) from None
        if cell in marked:
            raise rows.bad(line, f"a second mark of {session.labels.of(CELL, cell)}")
        marked[cell] = rows.whole(line, row, "mark", OPEN, WITHHELD)
    return [marked.get(cell, OPEN) for cell in range(len(session.mesh.volumes))]


class Printer:
    """Pages and board of a field as the engine prints them: the growers', or, by marks, those for the public."""

    def __init__(self, calls, volumes, masses, marks):
        self.calls, self.public = calls, "public_" if marks else ""
        self.field, self.marks = (len(volumes), calls.lend(volumes), calls.lend(masses)), [calls.lend(marks)] if marks else []
        self.room = calls.lend([0] * MOST_BYTES)

    def page(self, number):
        """The bytes of a page, None of one beyond the last."""
        said, left = self.calls.ask(f"{self.public}page", *self.field, number, self.room, *self.marks)
        if said[:2] == ["refused", str(BEYOND)]:
            return None
        self.accepted(said)
        return bytes(left["bytes"][:int(said[1])])

    def all_pages(self):
        """The bytes of each page."""
        return itertools.takewhile(lambda page: page is not None, map(self.page, itertools.count()))

    def pages(self, between=b""):
        """The bytes of all pages, one after another, with these bytes between them."""
        return between.join(self.all_pages())

    def entries(self):
        """Cell, q and rest of each line of the board."""
        said, left = self.calls.ask(f"{self.public}board", *self.field, *self.marks)
        self.accepted(said)
        return list(zip(*[iter(left["entries"][:3 * left["used"][0]])] * 3))

    def board(self):
        """The board's lines, as the run prints them."""
        return "".join(f"B {cell} {q} {rest}\n" for cell, q, rest in self.entries()).encode()

    def accepted(self, said):
        """Mesh, field and marks are right by now, and so nothing else is refused."""
        if said[0] == "refused":
            raise Bad(f"the engine refuses the page or the board by cause {said[1]}, place {said[2]}, and here nothing like it is found")


def stored_field(session, path):
    """The masses of a field record on the session's mesh, which has to be the whole file."""
    with command.opened(path) as file:
        source = Source(file)
        try:
            masses = source.field_on(session.mesh)
            if file.read(1):
                raise source.damage("there are bytes after the field record", 8 * len(source.record), 11, 0)
            refusal = causes.field_refusal(session.mesh, masses)
        except Damage as damage:
            refusal = causes.damaged(damage)
    if refusal:
        raise Bad(f"{command.named(path)}: the field is refused: {causes.told(refusal, session.labels)}")
    return masses


def last_field(session, options):
    """The masses after the last step, and what the reader of the pages has to know of the steps, in words."""
    refused = []
    for moment in engine.History(session, options.library, options.run).moments():
        masses = moment.masses
        if moment.refusal:
            refused.append(moment)
    return masses, not_whole(refused, moment.number)


def not_whole(refused, steps):
    """What is missing from a session of so many steps; nothing where all were accepted. No figure is named: pages may be for the public."""
    words = []
    if refused and refused[-1].refusal.cause in (LENGTH, KIND):
        words.append(f"the session is cut or damaged: it ends at step {refused.pop().number}, which is no record of a step (cause 11 or 13)")
    if refused:
        words.append(f"{len(refused):,} of {count(steps, 'step')} refused, the first of them step {refused[0].number} (cause {refused[0].refusal.cause})")
    return words


def arguments(words):
    parser = command.parser("lagoon binder", __doc__, HELP)
    parser.add_argument("file", nargs="?", default="-", help="the session, text or packed (default: standard input)")
    parser.add_argument("--field", metavar="FILE", help="print the pages of this field record instead of the last field")
    parser.add_argument("--public", metavar="MARKS", help="print what the public may read, by this table of marks")
    parser.add_argument("-o", "--output", metavar="FILE", default="-", help="where the pages go (default: standard output)")
    parser.add_argument("--board", metavar="FILE", help="where the board goes, for the same readers, as lines of the run (default: nowhere)")
    parser.add_argument("--calls", metavar="PROGRAM", help="a program `calls` that prints them instead of the library")
    parser.add_argument("--form-feed", action="store_true", help="a form feed between pages, for a printer; it is no part of S-1's bytes")
    engine.options(parser)
    return parser.parse_args(words)


def checked(options):
    """One input at most is standard input, and no output is an input or the other output."""
    inputs = [path for path in (options.file, options.field, options.public, options.library, options.calls) if path]
    if inputs.count("-") > 1:
        raise Bad("only one input can be standard input")
    both = options.board == options.output == "-"           # the board then follows the pages
    command.keep_apart([options.output, None if both else options.board], [*inputs, *engine.read_by(options)])


def main(words):
    options = arguments(words)
    checked(options)
    session = open_session(options.file)
    marks = marks_in(options.public, session) if options.public else None
    masses, missing = (stored_field(session, options.field), []) if options.field else last_field(session, options)
    printer = Printer(engine.asker(options.calls), session.mesh.volumes, masses, marks)
    pages, board = printer.pages(FORM_FEED if options.form_feed else b""), printer.board() if options.board else b""
    printer.calls.finish()
    command.write_whole(options.output, pages)
    if options.board:
        command.write_whole(options.board, board)
    for words in missing:
        command.say(f"lagoon binder: note: {words}; the pages are of the steps that were accepted")
    return 1 if missing else 0
