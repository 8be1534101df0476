"""All cells over all steps as a table: q, or masses, a column for each cell or a row for each cell and step, with names and times."""

import csv
import io

from . import command, engine
from .command import Bad, Output
from .rows import listed_cells
from .session import open_session
from .timeline import Timeline

HELP = """\
The session is text or packed; names and times of a text stand in the table. The engine steps through it, by the C call of the library
(`make lib`). Step 0 is the first field. A refused step changes nothing, and has its cause in its rows.

  wide    step, time, cause, then a column for each cell: its q or, with --mass, its mass
  --long  step, time, cause, cell, name, q, rest, mass: a row for each cell of each step

The mass of a cell is q times its volume plus the rest. The time is when the field stands: when the next step begins, by the `time` lines
of the text or by `unit step 1 h`; empty where the text has neither. --cells takes some cells only, by number or name; --every N takes
every Nth step and the last.

A field to go on from is a record: `lagoon budget session.txt --field FILE --at N` writes that after step N.

examples:
  lagoon export examples/tide.txt -o tide.csv
  lagoon export session.txt --long --cells 'Marsh,0-3' --every 24 -o daily.csv
"""


class Table:
    """The rows of a session's fields, as bytes."""

    def __init__(self, session, cells, long, mass):
        self.labels, self.volumes, self.cells, self.long, self.mass = session.labels, session.mesh.volumes, cells, long, mass
        self.timeline, self.text = Timeline(session.labels), io.StringIO()
        self.writer = csv.writer(self.text, lineterminator="\n")

    def taken(self):
        """What was written since this was asked before."""
        data = self.text.getvalue().encode()
        self.text.seek(0)
        self.text.truncate()
        return data

    def head(self):
        columns = ["cell", "name", "q", "rest", "mass"] if self.long else [self.labels.of("cell", cell) for cell in self.cells]
        self.writer.writerow(["step", "time", "cause", *columns])
        return self.taken()

    def rows(self, moment):
        head = [moment.number, self.timeline.words(moment.number), moment.refusal.cause if moment.refusal else ""]
        if self.long:
            self.writer.writerows([*head, cell, self.labels.names["cell"].get(cell, ""), *divmod(moment.masses[cell], self.volumes[cell]), moment.masses[cell]]
                                  for cell in self.cells)
        else:
            self.writer.writerow([*head, *(moment.masses[cell] if self.mass else moment.masses[cell] // self.volumes[cell] for cell in self.cells)])
        return self.taken()


def kept(history, every):
    """The moments of every Nth step and of the last."""
    moment = None
    for moment in history.moments():
        if moment.number % every == 0:
            yield moment
    if moment.number % every:
        yield moment


def arguments(words):
    parser = command.parser("lagoon export", __doc__, HELP)
    parser.add_argument("file", nargs="?", default="-", help="the session, text or packed (default: standard input)")
    parser.add_argument("-o", "--output", default="-", help="the CSV to write (default: standard output)")
    parser.add_argument("--long", action="store_true", help="a row for each cell and step")
    parser.add_argument("--mass", action="store_true", help="masses in the columns, not q")
    parser.add_argument("--cells", help="cells to write, as 0,Marsh,30-33 (default: all)")
    parser.add_argument("--every", type=lambda text: command.whole(text, 1, 10 ** 9), default=1, metavar="N", help="every Nth step and the last (default: 1)")
    engine.options(parser)
    return parser.parse_args(words)


def main(words):
    options = arguments(words)
    if options.long and options.mass:
        raise Bad("--long has q, rest and mass: --mass is for the columns of a wide table")
    command.keep_apart([options.output], [options.file, *engine.read_by(options)])
    session = open_session(options.file)
    cells = range(len(session.mesh.volumes)) if options.cells is None else listed_cells(options.cells, session)
    table = Table(session, cells, options.long, options.mass)
    with Output(options.output) as output:
        output.write(table.head())
        for moment in kept(engine.History(session, options.library, options.run), options.every):
            output.write(table.rows(moment))
    return 0
