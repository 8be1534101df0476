"""From a session an SVG picture: concentrations of chosen cells over the steps, the total, and what enters and leaves."""

import csv
import io
import shutil
import tempfile
from array import array
from collections import Counter

from . import causes, chart, command, engine, quantities, svg
from .chart import COLOURS, DASHES, Line, Panel, Refused
from .command import Bad, count
from .rows import listed_cells, listed_steps
from .session import Session
from .timeline import Timeline

HELP = """\
The session is text or packed; names, units and times of a text stand in the picture. The panels show q, the mass of a cell
divided by its volume and rounded down, after each step; the total of all masses on an axis of its own; and the in-mass,
out-mass and, where there are releases, the released mass of each step, as stairs. At every step total = first total + all in
+ all released - all out; the last lines say it of the whole session.

Cells: those asked for, by number or name, or the %(most)d whose q changed most. Up to %(lines)d stand in one panel, as lines with their
names at the ends; more, and more than %(bands)d in a long session, have a small panel each, all with the same axes; --panels asks for that.

Time: where the steps of the text have times (`time` lines, which fluxes.py writes from its table) the axis has dates, hours or
days by them; else hours or days by `unit step 1 h`; else the steps' numbers. Units: where the text says what a unit of mass and of
volume is in g, kg or t and m3, masses are in g, kg or t and concentrations in g/m3 or kg/m3.

Where there are more steps than the picture has room for, a line becomes a band: for each column of pixels from the least to the
greatest value there, with the mean of that column as a line; band and line begin and end at the first and last value. A refused step
changes nothing and is marked under the axis, by a cross or, where there are more than a few, by a tick; its cause is in its title,
which a viewer shows at the mark.

--profile 0,24,last adds a panel of q over the cells' numbers after these steps. --every draws every Nth step only, and
may show a tide falsely: with N near its period all points are of one phase. --csv writes the figures that are drawn.
The engine is the C call of the library (`make lib`); with --run the run program has to print the same lines, else nothing is drawn.

--plain draws the first-order answer beside it, as thin lines: plain upwind (document 02, S-8) from the same first field, step by step,
and its budget below. How far m / V of a cell is from what the same steps give with no q rounded grows by less than 1 with each accepted
one.

examples:
  lagoon plot tests/sessions/channel.in -o channel.svg
  lagoon pack examples/channel.txt | lagoon plot --cells 0-2 > channel.svg
  lagoon plot session.txt --cells 'Marsh,East Channel,30-33' --title "East basin, June" --profile 0,last --run target/bin/run -o june.svg
  lagoon plot session.txt --plain --cells 0,7 -o both.svg
"""

MOST_CELLS, MOST_LINES, MOST_BANDS = 16, 8, 3
MOST_PROFILES = 8
MOST_CAUSES = 3                 # causes that are named under the panels
CONCENTRATION, TOTAL = "Concentration q after each step", "Total of all masses"
HELP %= {"most": MOST_CELLS, "lines": MOST_LINES, "bands": MOST_BANDS}


# ---------------------------------------------------------------- Figures

class Figures:
    """What is drawn of a session: after each step that is kept q of the chosen cells, total, in-mass, out-mass and released mass."""

    def __init__(self, session, cells, every, wanted):
        self.session, self.mesh, self.cells, self.every, self.wanted = session, session.mesh, cells, every, wanted
        self.steps, self.q = array("Q"), {cell: array("Q") for cell in cells}
        self.total, self.entered, self.gone, self.released = array("Q"), array("Q"), array("Q"), array("Q")
        self.all_in = self.all_out = self.all_released = self.last = 0
        self.refused, self.causes, self.profiles, self.held = [], Counter(), {}, None

    def take(self, moment):
        self.add(moment)
        if moment.number in self.wanted:
            self.profiles[moment.number] = self.profile(moment.masses)
        self.held = moment
        if moment.number % self.every == 0:
            self.keep(moment)

    def finish(self):
        """The last step is kept too."""
        if self.last % self.every:
            self.keep(self.held)
        if "last" in self.wanted:
            self.profiles[self.last] = self.profile(self.held.masses)
        beyond = [step for step in self.wanted if step != "last" and step > self.last]
        if beyond:
            raise Bad(f"--profile: there is no step {beyond[0]}, the last is {self.last}")

    def add(self, moment):
        self.last = moment.number
        if moment.refusal:
            self.refused.append((moment.number, moment.refusal))
            self.causes[moment.refusal.cause] += 1
        self.all_in += sum(moment.entered.values())
        self.all_out += sum(moment.gone.values())
        self.all_released += sum(moment.released.values())

    def keep(self, moment):
        self.steps.append(moment.number)
        for cell, values in self.q.items():
            values.append(moment.masses[cell] // self.mesh.volumes[cell])
        self.total.append(sum(moment.masses))
        self.entered.append(sum(moment.entered.values()))
        self.gone.append(sum(moment.gone.values()))
        self.released.append(sum(moment.released.values()))

    def refused_where(self):
        return [(step, refusal.cause, refusal.place) for step, refusal in self.refused]

    def profile(self, masses):
        return [mass // volume for mass, volume in zip(masses, self.mesh.volumes)]


def figures_of(history, cells, every, profiles):
    """The figures of the corrected steps, and of the plain ones, or None."""
    corrected = Figures(history.session, cells, every, profiles)
    plain = Figures(history.session, cells, every, profiles) if history.plain else None
    for moments in history.both():
        for figures, moment in zip((corrected, plain), moments):
            if figures:
                figures.take(moment)
    for figures in (corrected, plain):
        if figures:
            figures.finish()
    return corrected, plain


def most_changed(history):
    """The cells whose q changed most over the steps, in their order; of more than are drawn, none that did not change, unless none did."""
    least = greatest = history.session.masses
    for moment in history.moments():
        least, greatest = list(map(min, least, moment.masses)), list(map(max, greatest, moment.masses))
    volumes = history.mesh.volumes
    changes = [high // volume - low // volume for low, high, volume in zip(least, greatest, volumes)]
    cells = sorted(range(len(volumes)), key=lambda cell: -changes[cell])[:MOST_CELLS]
    return sorted(cells if len(volumes) <= MOST_CELLS else [cell for cell in cells if changes[cell]] or cells)


def chosen(text, session):
    """The cells asked for, as many as are drawn."""
    found = listed_cells(text, session)
    if len(found) > MOST_CELLS:
        raise Bad(f"--cells: at most {MOST_CELLS} cells are drawn, not {len(found):,}")
    return found


# ---------------------------------------------------------------- The picture

def named(labels, cell):
    """The cell with its name, without the brackets of a sentence."""
    name = labels.names["cell"].get(cell)
    return f"{cell} {name}" if name else f"cell {cell}"


def styles():
    """Colours and dashes, one after another."""
    return list(zip(COLOURS, DASHES)) * (MOST_CELLS // len(COLOURS))


def twice(name, style, values, others):
    """A line, and beside it that of plain upwind, where there is one."""
    return [Line(name, *style, values)] + ([] if others is None else [Line(name, *style, others, True)])


class Picture:
    """The panels of a session's figures and, where there are any, of plain upwind's."""

    def __init__(self, figures, plain, title, panels, of):
        self.figures, self.plain, self.panels, self.of = figures, plain, panels, of
        self.labels, self.timeline = figures.session.labels, Timeline(figures.session.labels)
        self.others = plain is not None and plain.refused_where() != figures.refused_where()    # does plain upwind refuse other steps?
        self.places = [self.timeline.at(step) for step in figures.steps]
        self.span = self.places[0], self.timeline.at(max(figures.last, 1))
        self.axis = self.timeline.axis(*self.span)
        self.drawing = chart.Drawing(title, *self.refusals())

    def refusals(self):
        """What was refused, and the words that count it."""
        told = [(step, "refused", refusal) for step, refusal in self.figures.refused]
        words = f"{len(told):,} refused"
        if self.others:
            known = {step for step, _, _ in told}
            told = sorted(told + [(step, "refused by plain upwind", refusal) for step, refusal in self.plain.refused if step not in known])
            words += f", plain {len(self.plain.refused):,}"
        return [Refused(self.timeline.at(step), f"step {step} {verb}: {causes.told(refusal, self.labels)}") for step, verb, refusal in told], words

    def svg(self):
        self.concentrations()
        if self.figures.profiles:
            self.profiles()
        total = twice("total", ("#000000", ""), self.figures.total, self.plain and self.plain.total)
        self.drawing.panel(Panel(TOTAL, self.masses(total), self.axis, self.places, total, True), self.span)
        if len(self.figures.steps) > 1:
            self.rates()
        self.foot()
        return svg.page(chart.WIDTH, self.drawing.top + 20, self.drawing.parts)

    def masses(self, lines):
        return quantities.masses(self.labels.units, max(max(line.values) for line in lines))

    def q_scale(self, lines):
        return quantities.concentrations(self.labels.units, max(max(line.values) for line in lines))

    def concentrations(self):
        figures, plain = self.figures, self.plain
        small = self.panels or len(figures.cells) > MOST_LINES or (len(self.places) > chart.MOST_POINTS and len(figures.cells) > MOST_BANDS)
        lines = [line for cell, style in zip(figures.cells, [(COLOURS[0], "")] * MOST_CELLS if small else styles())
                 for line in twice(named(self.labels, cell), style, figures.q[cell], plain and plain.q[cell])]
        cells = len(figures.mesh.volumes)
        note = f"the {len(figures.cells)} of {cells:,} cells whose q changed most" if self.of == "changed" and len(figures.cells) < cells else ""
        panel = Panel(CONCENTRATION, self.q_scale(lines), self.axis, self.places, lines, True, note)
        (self.drawing.small_panels if small else self.drawing.panel)(panel, self.span)

    def profiles(self):
        figures, plain = self.figures, self.plain
        lines = [line for (step, values), style in zip(sorted(figures.profiles.items()), styles())
                 for line in twice(f"after step {step:,}", style, values, plain and plain.profiles[step])]
        cells = len(figures.mesh.volumes)
        marks = [(int(mark), quantities.figure(mark)) for mark in quantities.ticks(0, cells - 1, 10, True) if mark < cells]
        stairs = [cell - 0.5 for cell in range(cells + 1)]
        self.drawing.panel(Panel("Concentration q over the cells", self.q_scale(lines),
                                 (marks, "cell, by its number: neighbours here need not be neighbours in the water"),
                                 stairs, lines, False, self.times(sorted(figures.profiles))), (-0.5, cells - 0.5))

    def times(self, steps):
        """When steps end, where the text says it."""
        return "; ".join(f"step {step:,}: {self.timeline.words(step)}" for step in steps if self.timeline.words(step))

    def rates(self):
        """The panel of what crosses the rim; of plain upwind what is other than by the corrected steps."""
        figures, plain = self.figures, self.plain
        title, names = "In-mass and out-mass of each step", ["in", "out"]
        if figures.all_released or plain and plain.all_released:
            title, names = "In-mass, out-mass and released mass of each step", ["in", "out", "released"]
        lines = []
        for name, style in zip(names, styles()):
            values, others = (whose and {"in": whose.entered, "out": whose.gone, "released": whose.released}[name][1:] for whose in (figures, plain))
            lines += twice(name, style, values, others if others != values else None)
        self.drawing.panel(Panel(title, self.masses(lines), self.axis, self.places, lines, True), self.span)

    def foot(self):
        """The budget in a line, and the causes of what was refused; then those of plain upwind, its causes where they are others."""
        self.drawing.top -= chart.GAP - 60
        self.budget(self.figures, "")
        self.refused_by(self.figures, "")
        if self.plain:
            self.drawing.top += chart.FOOT_HIGH
            self.budget(self.plain, "plain upwind: ")
            if self.others:
                self.refused_by(self.plain, "plain upwind: ")

    def say(self, words):
        self.drawing.foot(words)

    def budget(self, figures, whose):
        scale = quantities.masses(self.labels.units, max(figures.total[0], figures.total[-1], figures.all_in, figures.all_out))
        unit = self.labels.units.get("mass", "")
        self.say(whose + balance(figures, lambda mass: f"{mass:,}") + (f" (in {'units of ' * unit[:1].isdigit()}{unit})" if unit else ""))
        if self.labels.units.get("mass") and scale.factor != 1:
            self.drawing.top += chart.FOOT_HIGH
            self.say(f"in {scale.words}, rounded: {balance(figures, lambda mass: quantities.rounded(mass * scale.factor))}")

    def refused_by(self, figures, whose):
        lines = [f"{count(number, 'step')} refused by cause {cause}: {causes.IN_WORDS[cause]}"
                 for cause, number in figures.causes.most_common(MOST_CAUSES)]
        if len(figures.causes) > MOST_CAUSES:
            lines.append(f"and {count(len(figures.causes) - MOST_CAUSES, 'more cause')}")
        if whose and not lines:
            lines.append("no step refused")
        for line in lines:
            self.drawing.top += chart.FOOT_HIGH
            self.say(whose + line)


def balance(figures, shown_as):
    """The budget in words, its figures as they are to be shown."""
    released = f" + released {shown_as(figures.all_released)}" if figures.all_released else ""
    return (f"total {shown_as(figures.total[-1])} = first total {shown_as(figures.total[0])} + in {shown_as(figures.all_in)}{released}"
            f" − out {shown_as(figures.all_out)}")


def table(figures, plain):
    """The figures that are drawn, a row for each step that is kept."""
    labels, text = figures.session.labels, io.StringIO()
    writer = csv.writer(text, lineterminator="\n")
    heads = [*(f"q {labels.of('cell', cell)}" for cell in figures.cells), "total", "in", "out", "released", "cause"]
    writer.writerow(["step", "time", *heads, *([f"plain {head}" for head in heads] if plain else [])])
    timeline = Timeline(labels)
    for row in zip(figures.steps, map(timeline.words, figures.steps), *table_columns(figures), *(table_columns(plain) if plain else [])):
        writer.writerow(row)
    return text.getvalue()


def table_columns(figures):
    """The columns of a table, the last of them the causes."""
    refused = {step: refusal.cause for step, refusal in figures.refused}
    return [*(figures.q[cell] for cell in figures.cells), figures.total, figures.entered, figures.gone, figures.released,
            [refused.get(step, "") for step in figures.steps]]


# ---------------------------------------------------------------- The command

class Input:
    """The session's bytes, to be read more than once."""

    def __init__(self, path):
        self.path, self.file = path, None
        if path == "-":
            self.file = tempfile.TemporaryFile()
            shutil.copyfileobj(command.opened(path), self.file)

    def session(self):
        if self.file:
            self.file.seek(0)
        return Session(self.file or command.opened(self.path), self.path)


def run(options):
    given = Input(options.file)
    session = given.session()
    profiles = listed_steps(options.profile, "--profile", MOST_PROFILES) if options.profile is not None else []
    if options.cells is not None:
        cells = chosen(options.cells, session)
    else:
        cells = most_changed(engine.History(session, options.library))
        session = given.session()
    plain = engine.Plain(session.mesh, options.calls) if options.plain else None
    figures = figures_of(engine.History(session, options.library, options.run, plain), cells, options.every, profiles)
    if plain:
        plain.calls.finish()
    title = options.title if options.title is not None else "Session" if options.file == "-" else options.file.rpartition("/")[2]
    if options.csv:
        command.write_whole(options.csv, table(*figures).encode())
    command.write_whole(options.output, Picture(*figures, title, options.panels, "asked" if options.cells is not None else "changed").svg().encode())
    return 0


def arguments(words):
    parser = command.parser("lagoon plot", __doc__, HELP)
    parser.add_argument("file", nargs="?", default="-", help="the session, text or packed (default: standard input)")
    parser.add_argument("-o", "--output", default="-", help="the SVG to write (default: standard output)")
    parser.add_argument("--cells", help=f"cells to draw, as 0,Marsh,30-33, at most {MOST_CELLS} (default: those that changed most)")
    parser.add_argument("--panels", action="store_true", help="a small panel for each cell")
    parser.add_argument("--every", type=lambda text: command.whole(text, 1, 10 ** 9), default=1, metavar="N",
                        help="draw every Nth step and the last (default: 1)")
    parser.add_argument("--profile", metavar="STEPS", help=f"draw q over the cells after these steps, as 0,24,last, at most {MOST_PROFILES}")
    parser.add_argument("--title", help="the words above the panels (default: the file's name)")
    parser.add_argument("--csv", metavar="FILE", help="write the figures that are drawn")
    engine.options(parser)
    engine.plain_options(parser)
    return parser.parse_args(words)


def main(words):
    options = arguments(words)
    command.keep_apart([options.output, options.csv], [options.file, *engine.read_by(options)])
    return run(options)

