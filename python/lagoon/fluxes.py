"""Real fluxes to whole ones that balance: a session from a lagoon's mesh and field, and a table of the water by face and step."""

import argparse
import csv
import io
import math
import re
from collections import Counter, deque, namedtuple

from . import causes, command, layout
from .command import Bad, Output, count, shown
from .layout import RIM, Step
from .rows import Cells, Faces
from .session import Session, is_text
from .sessiontext import MOST_LINE, MOST_TIMES, StepText, field_text, mesh_text

HELP = """\
The engine takes whole fluxes, and in every cell as much has to leave as enters. A model of the water gives real ones,
and rounded one by one they no longer balance. Where the real fluxes balance, whole ones exist with every face changed
by less than one unit, and this finds them: along a cycle of faces whose flux is not whole (the rim counts as one node)
the same amount is added all round, until one of them is whole; and so on until all are. A flux that is whole stays.

LAGOON is a session without steps, text or packed. The table is CSV with a row for each step and a heading:

  face N, N or the face's name     the flux of a face, positive from first to second cell (outward at the rim)
  outside N or outside NAME        the concentration outside a rim face, rounded to whole; used where water enters
  release N or release NAME        the mass released into a cell, times --release-factor; made whole so that over the parts of
                                   a row, and with --carry over any number of rows, its sum is changed by half a unit at most
  time or date                     when the step begins: a date like 2026-06-01T03:00, or a number; kept as `time` of the step. `time h`,
                                   `time min`, `time s` and `time d` say what a number counts
  step                             not read

A face without a column has flux 0; that is said. Columns are apart by commas, or by semicolons (a decimal comma is then
taken too). What is written is the session: LAGOON with the steps, as text, or with --packed as bytes for the run.

Balance: fluxes times --factor are taken to the nearest 1/1,000,000 of a unit, and counted exactly from there. A cell whose
inflow and outflow differ by at most the tolerance counts as balanced: such a difference comes from printed digits, and is
carried from cell to cell to the nearest rim face. The tolerance, unless given, is for each of a cell's faces half of the last
decimal that its row prints, times --factor, and 0.01 at least; a row of whole numbers counts as exact. A larger one is said,
with its place, and nothing is written; with --spread it is carried to the rim like a small one. What that changes is said.

Limits: a flux is at most the reach of its face (65,535 at the rim), a cell's outflow at most its volume. Whole fluxes keep
them where the real ones do; where those do not, it is said by how much, and --split N makes N shorter steps of each row.
--carry hands what rounding left of a step on to the next, so that over any number of steps each face's sum is changed by
less than one unit; in a single step the change may then be up to two.

The report, on standard error, ends with the largest change of any face, worked out again from what is written, and every
step that is written has been tried by the causes of document 01.

examples:
  lagoon fluxes lagoon.txt water.csv -o session.txt
  lagoon fluxes lagoon.txt water.csv --release-factor 7.2 --release 'Salt Pan=2000' -o session.txt
  lagoon fluxes lagoon.txt water.csv --factor 3.6 --outside sea=35000 --split 2 --carry --packed -o session.in
"""

UNIT = 1_000_000                # a whole unit in the numbers that are counted with
MOST_SAID = 10
MOST_SPLIT = 1000
LARGEST = 1e9                   # no flux of a table is beyond this, after its factor
LEAST_TOLERANCE = 0.01          # in units, however many digits are printed
MOST_RELEASE = layout.most(layout.WIDE.mass)
NOT_READ, TIME = "", "time"
TIME_WORDS = {"time": "", "date": "", **{f"time {unit}": f" {unit}" for unit in ("s", "min", "h", "d")}}


# ---------------------------------------------------------------- Whole fluxes

class Graph:
    """Nodes joined by faces, each from a first to a second node."""

    def __init__(self, nodes, firsts, seconds):
        self.firsts, self.seconds = firsts, seconds
        self.near = [[] for _ in range(nodes)]
        for face, (first, second) in enumerate(zip(firsts, seconds)):
            self.near[first].append((face, second))
            self.near[second].append((face, first))

    def net(self, values):
        """What enters each node less what leaves it."""
        net = [0] * len(self.near)
        for first, second, value in zip(self.firsts, self.seconds, values):
            net[first] -= value
            net[second] += value
        return net

    def rounded(self, values):
        """Whole numbers of units for values that balance, each changed by less than a unit and none that is whole."""
        return Rounding(self, values).whole


class Rounding:
    """A walk over faces that are not whole: it never ends at a node, since there they would not balance."""

    def __init__(self, graph, values):
        self.graph = graph
        self.whole, self.part = [value // UNIT for value in values], [value % UNIT for value in values]
        self.at = [-1] * len(graph.near)            # where on the path each node is
        for face, first in enumerate(graph.firsts):
            if self.part[face]:
                self.walk(first)

    def walk(self, node):
        """From a node on until none of its faces is left: at each meeting with the path a cycle is pushed round."""
        nodes, faces, at, part, near = [node], [], self.at, self.part, self.graph.near
        at[node], came = 0, -1
        while True:
            meets, taken = -2, -1
            for face, other in near[node]:
                if part[face] and face != came and at[other] > meets:
                    meets, taken, onward = at[other], face, other
            if taken < 0:
                at[node] = -1
                return
            faces.append(taken)
            if meets < 0:
                at[onward] = len(nodes)
                nodes.append(onward)
                node = onward
            else:
                kept = meets + self.push(nodes[meets:], faces[meets:])
                for gone in nodes[kept + 1:]:
                    at[gone] = -1
                del nodes[kept + 1:], faces[kept:]
                node = nodes[-1]
            came = faces[-1] if faces else -1

    def push(self, nodes, faces):
        """Round a cycle, the way that needs the lesser amount, until a face is whole; answers the first that is."""
        part, firsts = self.part, self.graph.firsts
        onward = [firsts[face] == node for face, node in zip(faces, nodes)]
        up = min([UNIT - part[face] if ahead else part[face] for face, ahead in zip(faces, onward)])
        down = min([part[face] if ahead else UNIT - part[face] for face, ahead in zip(faces, onward)])
        amount = up if up <= down else -down
        found = len(faces)
        for place, (face, ahead) in enumerate(zip(faces, onward)):
            now = part[face] + (amount if ahead else -amount)
            if now == UNIT:
                self.whole[face] += 1
                now = 0
            part[face] = now
            if not now and place < found:
                found = place
        return found


class Water:
    """A mesh's cells and the rim as the nodes of a graph, and the way from each cell to the nearest rim face."""

    def __init__(self, mesh):
        self.mesh, self.cells = mesh, len(mesh.volumes)
        firsts = [face.first for face in mesh.faces]
        seconds = [self.cells if face.second == RIM else face.second for face in mesh.faces]
        self.graph = Graph(self.cells + 1, firsts, seconds)
        self.limits = [UNIT * (causes.MOST_AT_RIM if face.second == RIM else face.reach) for face in mesh.faces]
        self.ways = self.found_ways()
        self.degrees = [len(near) for near in self.graph.near[:self.cells]]

    def found_ways(self):
        """Cell, face and next node of each way, nearest first; a part without a rim leads to its lowest cell."""
        ways, known = [], [False] * (self.cells + 1)
        for root in [self.cells, *range(self.cells)]:
            if known[root]:
                continue
            known[root], queue = True, deque([root])
            while queue:
                node = queue.popleft()
                for face, other in self.graph.near[node]:
                    if not known[other]:
                        known[other] = True
                        ways.append((other, face, node))
                        queue.append(other)
        return ways

    def differences(self, values):
        """By how much more enters each cell than leaves it."""
        return self.graph.net(values)[:self.cells]

    def carried(self, values, net):
        """The values with every cell's difference carried to the rim."""
        values, net = list(values), net + [0]
        for cell, face, onward in reversed(self.ways):
            if net[cell]:
                values[face] += net[cell] if self.graph.firsts[face] == cell else -net[cell]
                net[onward] += net[cell]
        return values

    def outflows(self, values):
        leaves = [0] * (self.cells + 1)
        for first, second, value in zip(self.graph.firsts, self.graph.seconds, values):
            if value > 0:
                leaves[first] += value
            else:
                leaves[second] -= value
        return leaves[:self.cells]

    def beyond(self, values):
        """The faces and cells beyond the engine's limits, each with its words and how many times too large it is."""
        found = [(f"face {place}: flux {real(value)} is larger than " + (f"{limit // UNIT:,} at the rim" if self.mesh.faces[place].second == RIM
                  else f"the reach {limit // UNIT:,}"), abs(value) / limit if limit else math.inf)
                 for place, (value, limit) in enumerate(zip(values, self.limits)) if abs(value) > limit]
        found += [(f"cell {cell}: {real(out)} leaves, more than its volume {volume:,}", out / (UNIT * volume))
                  for cell, (out, volume) in enumerate(zip(self.outflows(values), self.mesh.volumes)) if out > UNIT * volume]
        return found

    def whole(self, values):
        """Whole fluxes for values that balance and are within the limits; they keep the limits."""
        found = self.graph.rounded(values)
        if any(out > volume for out, volume in zip(self.outflows(found), self.mesh.volumes)):
            found = self.whole_in_cells(values)
        return found

    def whole_in_cells(self, values):
        """The same with every cell's outflow a face of its own, between a node where water enters and one where it leaves:
        it too then changes by less than a unit, and stays within a volume that is whole."""
        cells = self.cells
        entry, exit_ = list(range(cells)) + [2 * cells], list(range(cells, 2 * cells + 1))
        pairs = [(first, second) if value > 0 else (second, first)
                 for first, second, value in zip(self.graph.firsts, self.graph.seconds, values)]
        firsts = [exit_[giver] for giver, _ in pairs] + entry[:-1]
        seconds = [entry[taker] for _, taker in pairs] + exit_[:-1]
        found = Graph(2 * cells + 1, firsts, seconds).rounded([abs(value) for value in values] + self.outflows(values))
        return [size if value > 0 else -size for size, value in zip(found, values)]


def real(value):
    """A counted value in units."""
    return f"{value / UNIT:,.6f}".rstrip("0").rstrip(".")


# ---------------------------------------------------------------- The table

Row = namedtuple("Row", "line time fluxes outsides releases decimals")       # decimals: the most that a flux of the row is printed with


class Table:
    """The rows of a CSV file."""

    def __init__(self, file, name, session, options):
        self.name, self.mesh, self.factor = name, session.mesh, options.factor
        self.factors = {"outside": options.outside_factor, "release": options.release_factor}
        text = io.TextIOWrapper(file, encoding="utf-8-sig", errors="replace", newline="")
        heading = text.readline(MOST_LINE)
        if not heading.strip():
            raise Bad(f"{name}: the first line should be a heading: face 0, face 1, ..")
        self.comma = "," if ";" not in heading else ";"
        self.reader = csv.reader(text, delimiter=self.comma)
        try:
            self.columns(next(csv.reader([heading], delimiter=self.comma)), session.labels)
        except csv.Error as error:
            raise Bad(f"{name}:1: {error}") from None

    def columns(self, heading, labels):
        """The column of each flux, outside value and release, and of the time."""
        self.width, found = len(heading), {"face": {}, "outside": {}, "release": {}, TIME: {}}
        faces, cells = Faces(self.mesh, labels), Cells(self.mesh, labels)
        for column, words in enumerate(heading):
            kind, place = self.heading_of(words.strip(), faces, cells)
            if kind == NOT_READ:
                continue
            if place in found[kind]:
                raise Bad(f"{self.name}:1: {kind} {place} has two columns, {shown(heading[found[kind][place]])} and {shown(words)}")
            found[kind][place] = column
        self.faces, self.outsides, self.releases = found["face"], found["outside"], found["release"]
        self.time = next(iter(found[TIME].values()), None)
        self.time_unit = TIME_WORDS[" ".join(heading[self.time].lower().split())] if self.time is not None else ""
        self.missing = [face for face in range(len(self.mesh.faces)) if face not in self.faces]

    def heading_of(self, words, faces, cells):
        """What a column has, and of which face or cell."""
        lower = " ".join(words.lower().split())
        if lower in ("", "step"):
            return NOT_READ, 0
        if lower in TIME_WORDS:
            return TIME, 0
        found = re.fullmatch(r"(?:(outside|release)\s+)?(\S.*)", words)
        kind = found[1] or "face"
        try:
            place = (cells if kind == "release" else faces).of(found[2])
        except Bad as bad:
            raise Bad(f"{self.name}:1: {bad}") from None
        if kind == "outside" and place not in self.mesh.rim:
            raise Bad(f"{self.name}:1: {shown(words)}: face {place} is not at the rim")
        return kind, place

    def rows(self):
        fluxes = [(face, self.faces[face]) for face in sorted(self.faces)]
        empty = [0] * len(self.mesh.faces)
        try:
            for row in self.reader:
                if not any(row):
                    continue
                line = self.reader.line_num + 1
                if len(row) != self.width:
                    raise Bad(f"{self.name}:{line}: {count(len(row), 'column')} where the heading has {self.width}")
                values = list(empty)
                for face, column in fluxes:
                    values[face] = self.flux(row[column], line, column)
                others = [{place: value(row[column], line, column) for place, column in columns.items()}
                          for columns, value in ((self.outsides, self.outside), (self.releases, self.release))]
                yield Row(line, self.time_of(row, line), values, *others, max([decimals(row[column]) for _, column in fluxes], default=0))
        except csv.Error as error:
            raise Bad(f"{self.name}:{self.reader.line_num + 1}: {error}") from None

    def time_of(self, row, line):
        """The words of a step's time, which a text can hold."""
        words = " ".join(row[self.time].split()) if self.time is not None else ""
        if "#" in words or not words.isprintable():
            raise Bad(f"{self.name}:{line}: column {self.time + 1} should be a time, not {shown(words)}")
        return words + self.time_unit if words else ""

    def flux(self, word, line, column):
        value = self.number(word) * self.factor
        if not abs(value) <= LARGEST:
            raise Bad(f"{self.name}:{line}: column {column + 1} should be a number, not {shown(word.strip())}")
        return round(value * UNIT)

    def outside(self, word, line, column):
        value = self.number(word) * self.factors["outside"]
        if not -0.5 <= value <= causes.TOP:
            raise Bad(f"{self.name}:{line}: column {column + 1} should be a concentration from 0 to {causes.TOP:,}, not {shown(word.strip())}")
        return round(value)

    def release(self, word, line, column):
        value = self.number(word) * self.factors["release"]
        if not 0 <= value <= MOST_RELEASE:
            raise Bad(f"{self.name}:{line}: column {column + 1} should be a mass from 0 on, not {shown(word.strip())}")
        return round(value * UNIT)

    def number(self, word):
        try:
            return float(word.replace(",", ".") if self.comma == ";" else word) if "_" not in word else math.nan
        except ValueError:
            return math.nan


def decimals(word):
    """How many decimals a number is printed with; one with a power counts as exact."""
    _, point, after = word.strip().replace(",", ".").partition(".")
    return len(after) if point and after.isdigit() else 0


# ---------------------------------------------------------------- The steps

class Largest:
    """The largest size met, and where."""

    def __init__(self):
        self.size, self.where = 0, ""

    def take(self, values, where):
        size = max(map(abs, values), default=0)
        if size > self.size:
            self.size = size
            place = next(place for place, value in enumerate(values) if abs(value) == size)
            self.where = where(place)


class Maker:
    """Whole steps from the rows of a table, what is wrong with the rows, and what was changed."""

    def __init__(self, water, options):
        self.water, self.mesh, self.options = water, water.mesh, options
        self.tolerance, self.decimals = None if options.tolerance is None else round(options.tolerance * UNIT), 0
        self.rows = self.steps = self.unbalanced = self.too_large = self.dropped = 0
        self.said, self.worst = [], 0
        self.difference, self.bent, self.change = Largest(), Largest(), Largest()
        self.sums = [0] * len(self.mesh.faces)              # by how much each face's sum is changed
        self.left = [0] * len(self.mesh.faces)              # what rounding left of the steps before
        self.unreleased = Counter()                         # what rounding left of the releases before, by cell

    def steps_of(self, name, row):
        """The whole steps of one row; none where something is wrong with it."""
        self.rows += 1
        where, values = f"{name}:{row.line}: row {self.rows}", row.fluxes
        net = self.water.differences(values)
        self.difference.take(net, lambda cell: f"row {self.rows}, cell {cell}")
        allowed = self.allowed(row.decimals)
        if not self.options.spread and any(abs(more) > most for more, most in zip(net, allowed)):
            self.out_of_balance(where, values, net, allowed)
            return
        level = self.water.carried(values, net) if any(net) else values
        if not self.options.carry:
            self.left = [0] * len(values)
        changes = [-value for value in values]
        for part in range(1, self.options.split + 1):
            wanted = self.within_limits([value * part // self.options.split - value * (part - 1) // self.options.split for value in level], where)
            if wanted is None:
                return
            whole = self.water.whole(wanted)
            self.left = [value - UNIT * flux for value, flux in zip(wanted, whole)]
            changes = [change + UNIT * flux for change, flux in zip(changes, whole)]
            yield self.step(whole, row, self.released(row.releases, part)), row.time if part == 1 else ""
        self.bent.take([value - other for value, other in zip(level, values)], lambda face: f"row {self.rows}, face {face}")
        self.change.take(changes, lambda face: f"row {self.rows}, face {face}: {real(values[face])} is {real(values[face] + changes[face])}")
        self.sums = [total + change for total, change in zip(self.sums, changes)]

    def within_limits(self, values, where):
        """What is to be made whole: the values with what was left before, or without it where only that is beyond a limit."""
        net = self.water.differences(values)
        values = self.water.carried(values, net) if any(net) else values
        wanted = [value + left for value, left in zip(values, self.left)]
        if not self.water.beyond(wanted):
            return wanted
        beyond = self.water.beyond(values)
        if not beyond:
            self.dropped += 1
            return values
        self.too_large += 1
        self.worst = max([self.worst] + [times for _, times in beyond])
        self.say(where, [words for words, _ in beyond])
        return None

    def allowed(self, decimals):
        """The tolerance of each cell: as given, or for each of its faces half of the last decimal that is printed."""
        if self.tolerance is not None:
            return [self.tolerance] * self.water.cells
        self.decimals = max(self.decimals, decimals)
        half = self.half(decimals) if decimals else 0
        return [max(math.ceil(degree * half), round(LEAST_TOLERANCE * UNIT)) for degree in self.water.degrees]

    def half(self, decimals):
        return UNIT * abs(self.options.factor) / 10 ** decimals / 2

    def released(self, releases, part):
        """The whole masses released in a part of a row: those of its parts add up to the row's, to half a unit."""
        if part == 1 and not self.options.carry:
            self.unreleased = Counter()
        split, found = self.options.split, {}
        for cell, mass in releases.items():
            self.unreleased[cell] += mass * part // split - mass * (part - 1) // split
            found[cell] = max((self.unreleased[cell] + UNIT // 2) // UNIT, 0)
            self.unreleased[cell] -= UNIT * found[cell]
        return found

    def out_of_balance(self, where, values, net, allowed):
        self.unbalanced += 1
        leaves = self.water.outflows(values)
        self.say(where, [f"cell {cell}: {real(leaves[cell] + more)} enters, {real(leaves[cell])} leaves, {real(abs(more))} "
                         + ("too much enters" if more > 0 else "too much leaves") for cell, (more, most) in enumerate(zip(net, allowed)) if abs(more) > most])

    def say(self, where, words):
        more = f" (and {len(words) - 1:,} more)" if len(words) > 1 else ""
        if len(self.said) < MOST_SAID:
            self.said.append(f"{where}, {words[0]}{more}")

    def step(self, whole, row, released):
        """The step, tried by the causes of documents 01 and 02; what a cell holds by then is not known here."""
        releases = [released.get(cell, 0) for cell in range(len(self.mesh.volumes))] if any(released.values()) else None
        step = Step(whole, [row.outsides.get(face, 0) if whole[face] < 0 else 0 for face in self.mesh.rim], releases)
        refusal = causes.step_refusal(self.mesh, step)
        if refusal and refusal.cause == 18:
            raise Bad(f"row {self.rows}: {causes.told(refusal)}")
        if refusal:
            raise Bad(f"row {self.rows}: the step made of it would be refused, {causes.told(refusal)}; this is a fault of lagoon fluxes")
        self.steps += 1
        return step

    def bad(self):
        return bool(self.unbalanced or self.too_large)

    def report(self, name):
        lines = [f"{name}: {count(self.rows, 'row')}, {count(len(self.mesh.volumes), 'cell')}, {count(len(self.mesh.faces), 'face')} "
                 f"({len(self.mesh.rim):,} at the rim); {count(self.steps, 'step')}"]
        lines.append(f"balance as read: inflow and outflow of a cell differ by {real(self.difference.size)} at most"
                     + (f" ({self.difference.where})" if self.difference.size else "") + f", the tolerance is {self.tolerance_words()}")
        if self.bad():
            return lines + self.said + self.advice()
        if self.bent.size:
            lines.append(f"carried to the rim: this changed a face by {real(self.bent.size)} at most ({self.bent.where})")
        lines.append(f"whole fluxes: every cell balances in every step; a face is changed by {real(self.change.size)} at most"
                     + (f" ({self.change.where})" if self.change.size else ""))
        sums = Largest()
        sums.take(self.sums, lambda face: f"face {face}")
        lines.append(f"summed over all rows a face is changed by {real(sums.size)} at most" + (f" ({sums.where})" if sums.size else "")
                     + ("" if self.options.carry or sums.size < UNIT else "; --carry keeps this below 1"))
        if self.dropped:
            lines.append(f"what rounding had left was dropped in {count(self.dropped, 'step')}, where it would have passed a limit")
        return lines

    def tolerance_words(self):
        if self.tolerance is not None:
            return real(self.tolerance)
        if self.decimals == 0:
            return f"{LEAST_TOLERANCE:g}"
        return (f"{real(self.half(self.decimals))} for each of a cell's faces ({count(self.decimals, 'decimal')} times {abs(self.options.factor):g}), "
                f"{LEAST_TOLERANCE:g} at least")

    def advice(self):
        lines = []
        if self.unbalanced:
            lines.append(f"{count(self.unbalanced, 'row')} with cells out of balance: nothing is written; --spread would carry the differences to the rim")
        if self.too_large:
            words = f"--split {math.ceil(self.worst * self.options.split)} would do" if self.worst < MOST_SPLIT else "a larger unit of volume is needed"
            lines.append(f"{count(self.too_large, 'row')} beyond the engine's limits, {self.worst:.3g} times at most: nothing is written; {words}")
        return lines


# ---------------------------------------------------------------- The command

class Lagoon:
    """The session that the steps are added to, and its text."""

    def __init__(self, path):
        with command.opened(path) as file:
            data = file.read()
        self.session = Session(io.BufferedReader(io.BytesIO(data)), path)
        if next(self.session.steps(), None):
            raise Bad(f"{command.named(path)} has steps already; they come from the table")
        self.packed = self.session.mesh_record + self.session.field_record
        if is_text(io.BufferedReader(io.BytesIO(data))):
            self.text = data.decode("utf-8-sig", "replace").rstrip() + "\n"
        else:
            self.text = mesh_text(self.session.mesh) + field_text(self.session.masses)


def constants(option, texts, called, form, greatest):
    """The values of options like --outside FACE=Q, by face or cell."""
    found = {}
    for text in texts:
        name, _, value = text.rpartition("=")
        if not re.fullmatch("[0-9]{1,13}", value) or int(value) > greatest:
            raise Bad(f"{option} {shown(text)} should be {form}, from 0 to {greatest:,}")
        try:
            found[called.of(name)] = int(value)
        except Bad as bad:
            raise Bad(f"{option} {shown(text)}: {bad}") from None
    return found


def outside_values(texts, lagoon):
    found = constants("--outside", texts, Faces(lagoon.mesh, lagoon.labels), "FACE=Q", causes.TOP)
    for face in found:
        if face not in lagoon.mesh.rim:
            raise Bad(f"--outside: {lagoon.labels.of('face', face)} is no rim face")
    return found


def release_values(texts, lagoon):
    found = constants("--release", texts, Cells(lagoon.mesh, lagoon.labels), "CELL=M", MOST_RELEASE)
    return {cell: mass * UNIT for cell, mass in found.items()}


def records(steps, lagoon):
    """The records of the session. A release that narrow ones do not hold asks for a text, which is packed as wide."""
    widths = lagoon.session.mesh.widths
    yield lagoon.packed
    for step, _ in steps:
        if max(step.releases or [0]) > layout.most(widths.mass):
            raise Bad("a release is above 4,294,967,295: write the text, and pack it, or say `mesh wide` in it")
        yield layout.step_record(step, widths)


def text(steps, lagoon):
    """The pieces of the session's text: equal steps that follow one another, and have no time, are one."""
    yield lagoon.text.encode()
    writer, held, times, number = StepText(lagoon.session.mesh), None, 0, 0
    for step, time in steps:
        if (step, time) != held or time or times == MOST_TIMES:
            if times:
                yield writer.of(held[0], number - times + 1, times, held[1]).encode()
            held, times = (step, time), 0
        times += 1
        number += 1
    if times:
        yield writer.of(held[0], number - times + 1, times, held[1]).encode()


def run(options):
    lagoon = Lagoon(options.lagoon)
    session, name = lagoon.session, command.named(options.table)
    constant, releases = outside_values(options.outside, session), release_values(options.release, session)
    table = Table(command.opened(options.table), name, session, options)
    maker, progress = Maker(Water(session.mesh), options), command.Progress("row")

    def steps():
        for row in table.rows():
            progress.at(maker.rows)
            yield from maker.steps_of(name, row._replace(outsides={**constant, **row.outsides}, releases={**releases, **row.releases}))
        progress.end()
        if maker.bad() or not maker.rows:
            raise NotWritten

    pieces = (records if options.packed else text)(steps(), lagoon)
    try:
        with Output(options.output) as output:
            for piece in pieces if options.output != "-" else list(pieces):
                output.write(piece)
    except NotWritten:
        if not maker.rows:
            raise Bad(f"{name}: there is no row under the heading") from None
    command.say("\n".join(maker.report(name) + notes_of(table, constant, session)))
    return 1 if maker.bad() else 0


def notes_of(table, constant, session):
    """What the table has no column for."""
    notes = []
    if table.missing:
        notes = [f"note: no column for {command.listed(f'face {face}' for face in table.missing[:5]).replace(' or ', ' and ')}"
                 + (f" and {len(table.missing) - 5:,} more" if len(table.missing) > 5 else "") + ": flux 0"]
    fresh = [face for face in session.mesh.rim if face not in constant and face not in table.outsides]
    if fresh:
        notes.append(f"note: no outside value for {command.listed(session.labels.of('face', face) for face in fresh[:5]).replace(' or ', ' and ')}"
                     + (f" and {len(fresh) - 5:,} more" if len(fresh) > 5 else "") + ": what enters there is without salt")
    return notes


class NotWritten(Exception):
    """Something is wrong with the table: the output stays as it was."""


def number(text, least, greatest):
    try:
        value = float(text)
    except ValueError:
        value = math.nan
    if not least <= value <= greatest:
        raise argparse.ArgumentTypeError(f"a number from {least:g} to {greatest:g}, not {shown(text)}")
    return value


def arguments(words):
    parser = command.parser("lagoon fluxes", __doc__, HELP)
    parser.add_argument("lagoon", help="mesh and field: a session without steps, text or packed")
    parser.add_argument("table", help="the fluxes, CSV (- is standard input)")
    parser.add_argument("-o", "--output", default="-", help="the session to write (default: standard output)")
    parser.add_argument("--packed", action="store_true", help="write the session as bytes, not as text")
    parser.add_argument("--factor", type=lambda text: number(text, -1e9, 1e9), default=1, metavar="X",
                        help="what a flux of the table is in units of volume per step (default: 1)")
    parser.add_argument("--outside", action="append", default=[], metavar="FACE=Q", help="the concentration outside a rim face that has no column")
    parser.add_argument("--outside-factor", type=lambda text: number(text, 0, 1e9), default=1, metavar="X",
                        help="what an outside value of the table is as a concentration (default: 1)")
    parser.add_argument("--release", action="append", default=[], metavar="CELL=M", help="the mass released in each row into a cell that has no column")
    parser.add_argument("--release-factor", type=lambda text: number(text, 0, 1e9), default=1, metavar="X",
                        help="what a release of the table is in units of mass (default: 1)")
    parser.add_argument("--tolerance", type=lambda text: number(text, 0, 1e6), metavar="T",
                        help="how much inflow and outflow of a cell may differ as read, in units (default: by the digits printed)")
    parser.add_argument("--spread", action="store_true", help="carry larger differences to the rim too")
    parser.add_argument("--split", type=lambda text: command.whole(text, 1, MOST_SPLIT), default=1, metavar="N", help="make N steps of each row (default: 1)")
    parser.add_argument("--carry", action="store_true", help="hand what rounding left on to the next step")
    return parser.parse_args(words)


def main(words):
    options = arguments(words)
    command.keep_apart([options.output], [options.lagoon, options.table])
    if options.lagoon == options.table == "-":
        raise Bad("only one of the two can be standard input")
    return run(options)
