"""Panels of lines over time: axes, lines and stairs told apart without colour, bands of long sessions, marks of what was refused."""

from collections import namedtuple

from . import svg
from .quantities import figure, ticks

MARKED = 40                     # up to so many points each has a dot
MOST_POINTS = 1500              # more are drawn as a band
MOST_CROSSES = 20               # more refusals are drawn as ticks
COLOURS = ("#0072b2", "#d55e00", "#009e73", "#cc79a7", "#e69f00", "#56b4e9", "#000000", "#8a6d00")
DASHES = ("", "9 3", "3 3", "9 3 2 3", "14 4", "5 2", "9 3 2 3 2 3", "1 3")
WIDTH, LEFT, RIGHT, PANEL, GAP = 960, 115, 215, 210, 98
PLOT = WIDTH - LEFT - RIGHT
LINE_WIDE, NAME_WIDE, UNIT_WIDE, NOTE_WIDE, FOOT_WIDE = 74, 22, 34, 152, 126       # in letters
NOTE_SIZE, NOTE_HIGH, FOOT_HIGH = 11, 14, 20
NAME_HIGH, SAMPLE = 17, 24      # of a name at a line's end: its height, and the length of its line
SMALL_COLUMNS, SMALL_HIGH, SMALL_GAP, SMALL_ABOVE = 4, 84, 16, 20
SMALL_NAME = 24

Line = namedtuple("Line", "name colour dash values thin", defaults=(False,))    # thin: by plain upwind, beside the line before it
# places: where the values stand; where there is one place more than values these are stairs, each level between two places.
# Axis: marks and words of a Timeline's axis or the like; marks: is it over steps, so that refusals are marked; note: small words above.
Panel = namedtuple("Panel", "title scale axis places lines marks note", defaults=("",))
Refused = namedtuple("Refused", "at words")


class Box:
    """A rectangle of the picture, and what its width and height mean."""

    def __init__(self, left, top, wide, high, span, heights):
        self.left, self.top, self.wide, self.high, self.bottom, self.heights = left, top, wide, high, top + high, heights
        self.first, self.last = span[0], span[1] if span[1] > span[0] else span[0] + 1

    def x(self, at):
        return self.left + self.wide * (at - self.first) / (self.last - self.first)

    def y(self, value):
        low, high = self.heights[0], self.heights[-1]
        return self.bottom - self.high * float((value - low) / (high - low))

    def column(self, at):
        return min(int((at - self.first) * self.wide / (self.last - self.first)), int(self.wide) - 1)


def heights_of(lines, factor, about=5):
    """Marks of the upright axis: from 0 on, unless all values lie in the upper half."""
    low, high = min(min(line.values) for line in lines), max(max(line.values) for line in lines)
    low = low if low > high // 2 else 0
    high = max(high, low + 1)
    return ticks(low * factor, high * factor, about, factor == 1)


def divided(marks):
    """By how much the labels of long numbers are divided, and the words for that."""
    for power, words in ((10 ** 9, "thousand millions of "), (10 ** 6, "millions of "), (10 ** 3, "thousands of ")):
        if marks[-1] >= 10 ** 7 and all(mark % power == 0 for mark in marks):
            return power, words
    return 1, ""


def stairs(places, values):
    """The corners of values that are level between places."""
    return [corner for start, end, value in zip(places, places[1:], values) for corner in ((start, value), (end, value))]


def middles(places, values):
    """Where each value stands: at its place, or in the middle of its stair."""
    return places if len(places) == len(values) else [(start + end) / 2 for start, end in zip(places, places[1:])]


def columns(box, places, values):
    """For each column of pixels that has values: the column, the least, the greatest, the sum and the number of them."""
    found = {}
    for at, value in zip(middles(places, values), values):
        column = box.column(at)
        least, greatest, total, number = found.get(column, (value, value, 0, 0))
        found[column] = min(least, value), max(greatest, value), total + value, number + 1
    return [(column, *ends) for column, ends in sorted(found.items())]


def names_apart(ends, top, bottom):
    """Heights of names as near to the line ends as they can be without one covering another, in the order of the ends."""
    order = sorted(range(len(ends)), key=lambda place: ends[place])
    heights, floor = {}, top
    for place in order:
        heights[place] = max(ends[place], floor)
        floor = heights[place] + NAME_HIGH
    ceiling = max(bottom, top + NAME_HIGH * (len(ends) - 1))
    for place in reversed(order):
        heights[place] = min(heights[place], ceiling)
        ceiling = heights[place] - NAME_HIGH
    return [heights[place] for place in range(len(ends))]


class Drawing:
    """The parts of the picture, from the top down."""

    def __init__(self, title, refused, refused_words):
        """refused: where and why steps were refused; the words count them."""
        self.parts, self.top, self.refused, self.refused_words = [], 30, refused, refused_words
        for line in svg.wrapped(title, LINE_WIDE, 2):
            self.text(LEFT, self.top, line, size=18, weight="bold")
            self.top += 24
        self.top += 34

    def text(self, *arguments, **more):
        self.parts.append(svg.text(*arguments, **more))

    def rule(self, *arguments):
        self.parts.append(svg.rule(*arguments))

    def foot(self, words):
        """A sentence under the panels, on as many lines as it needs."""
        for place, line in enumerate(svg.wrapped(words, FOOT_WIDE, 3)):
            self.top += FOOT_HIGH * bool(place)
            self.text(LEFT, self.top, line)

    def panel(self, panel, span):
        heights = heights_of(panel.lines, panel.scale.factor)
        box = Box(LEFT, self.top, PLOT, PANEL, span, heights)
        self.parts.append(f'<g class="panel">{svg.titled(panel.title)}')
        self.head(panel, box)
        self.upright(panel, box)
        self.level(panel.axis, box)
        for line in panel.lines:
            self.line(panel, line, box)
        if panel.marks:
            self.refusals(box)
        self.names(panel, box)
        self.parts.append("</g>")
        self.top = box.bottom + GAP

    def head(self, panel, box, pixels=PLOT):
        """The title, and under it in small letters what a reader has to know of this panel."""
        notes = [panel.note] if panel.note else []
        if self.banded(panel):
            each = -(-len(panel.lines[0].values) // pixels)
            notes.append(f"band: least to greatest of the {each} steps of a pixel; line: their mean; both begin and end at the first and last value")
        if box.heights[0] > 0:
            notes.append("the axis does not begin at 0")
        lines = svg.wrapped("; ".join(notes), NOTE_WIDE, 2) if notes else []
        self.text(box.left, box.top - 12 - NOTE_HIGH * len(lines), panel.title, size=14, weight="bold")
        for place, line in enumerate(lines):
            self.text(box.left, box.top - 10 - NOTE_HIGH * (len(lines) - 1 - place), line, size=NOTE_SIZE)

    def upright(self, panel, box):
        power, words = divided(box.heights)
        for mark in box.heights:
            self.rule(box.left, box.y(mark), box.left + box.wide, box.y(mark))
            self.text(box.left - 8, box.y(mark) + 4, figure(mark / power), anchor="end")
        self.rule(box.left, box.top, box.left, box.bottom, svg.AXIS)
        if box.heights[0] > 0:
            self.cut_axis(box.left, box.bottom)
        self.text(22, box.top + box.high / 2, svg.cut(words + panel.scale.words, UNIT_WIDE), anchor="middle", turned=True)

    def cut_axis(self, x, bottom):
        """The sign that an axis does not begin at 0."""
        self.parts.append(f'<path class="cut" d="M{x:.1f},{bottom - 18:.1f} l-5,3 l10,4 l-10,4 l5,3" stroke="{svg.AXIS}" fill="#ffffff"/>')

    def level(self, axis, box):
        marks, words = axis
        for at, label in marks:
            self.rule(box.x(at), box.bottom, box.x(at), box.bottom + 5, svg.AXIS)
            self.text(box.x(at), box.bottom + 20, label, anchor="middle")
        self.rule(box.left, box.bottom, box.left + box.wide, box.bottom, svg.AXIS)
        self.text(box.left + box.wide / 2, box.bottom + 38, svg.cut(words, LINE_WIDE), anchor="middle")

    def banded(self, panel):
        return len(panel.places) > MOST_POINTS

    def line(self, panel, line, box):
        kind = "band" if self.banded(panel) else "line"
        self.parts.append(f'<g class="{kind}" fill="{line.colour}">{svg.titled(line.name + (", plain" if line.thin else ""))}')
        points = (self.band if kind == "band" else self.points)(panel, line, box)
        self.parts.append(svg.polyline(points, line.colour, 1 if line.thin else 2, line.dash))
        if len(panel.places) == len(line.values) <= MARKED and not line.thin:
            self.parts += [f'<circle cx="{at:.2f}" cy="{height:.2f}" r="3"/>' for at, height in points]
        self.parts.append("</g>")

    def points(self, panel, line, box):
        """The points of a line, or the corners of stairs."""
        corners = zip(panel.places, line.values) if len(panel.places) == len(line.values) else stairs(panel.places, line.values)
        return [(box.x(at), box.y(value * panel.scale.factor)) for at, value in corners]

    def band(self, panel, line, box):
        """From the least to the greatest of each column of pixels; and the points of its line. Both begin and end at the exact values."""
        place = lambda at, value: (at, box.y(value * panel.scale.factor))
        rows = columns(box, panel.places, line.values)
        first, last = place(box.x(panel.places[0]), line.values[0]), place(box.x(panel.places[-1]), line.values[-1])
        above = [place(box.left + row[0] + 0.5, row[2]) for row in rows]
        below = [place(box.left + row[0] + 0.5, row[1]) for row in reversed(rows)]
        self.parts.append(f'<polygon stroke="none" fill-opacity="0.3" points="{svg.joined([first, *above, last, *below])}"/>')
        return [first, *(place(box.left + column + 0.5, total / number) for column, _, _, total, number in rows), last]

    def names(self, panel, box):
        """Each line's name at its end, with a piece of the line; then what thin lines are, and how many steps were refused."""
        lines = [line for line in panel.lines if not line.thin]
        ends = [box.y(line.values[-1] * panel.scale.factor) for line in lines]
        extra = (len(lines) < len(panel.lines)) + bool(self.refused and panel.marks)
        for line, end, y in zip(lines, ends, names_apart(ends, box.top, box.bottom - NAME_HIGH * extra)):
            start = box.left + box.wide
            self.rule(start, end, start + 12, y, "#999999")
            self.rule(start + 14, y, start + 14 + SAMPLE, y, line.colour, 2, line.dash)
            self.text(start + 20 + SAMPLE, y + 4, svg.cut(line.name, NAME_WIDE))
        y = max(box.bottom - NAME_HIGH * (extra - 1), box.top + NAME_HIGH * len(lines))
        if len(lines) < len(panel.lines):
            self.rule(box.left + box.wide + 14, y, box.left + box.wide + 14 + SAMPLE, y, svg.INK, 1)
            self.text(box.left + box.wide + 20 + SAMPLE, y + 4, "thin: plain upwind")
            y += NAME_HIGH
        if self.refused and panel.marks:
            (self.cross if len(self.refused) <= MOST_CROSSES else self.tick)(box.left + box.wide + 28, y, self.refused_words)
            self.text(box.left + box.wide + 20 + SAMPLE, y + 4, self.refused_words)

    def refusals(self, box):
        if len(self.refused) <= MOST_CROSSES:
            for refused in self.refused:
                self.cross(box.x(refused.at), box.bottom, refused.words)
            return
        by_column = {}
        for refused in self.refused:
            by_column.setdefault(box.column(refused.at), []).append(refused)
        for rows in by_column.values():
            more = f"{len(rows)} refused here; the first: " if len(rows) > 1 else ""
            self.tick(box.x(rows[0].at), box.bottom, more + rows[0].words)

    def cross(self, x, y, title):
        self.parts.append(f'<path class="refused" d="M{x - 4:.1f},{y - 4:.1f} l8,8 m0,-8 l-8,8" stroke="{svg.RED}" stroke-width="2" fill="none">'
                          f"{svg.titled(title)}</path>")

    def tick(self, x, y, title):
        self.parts.append(f'<path class="refused" d="M{x:.1f},{y + 1:.1f} v7" stroke="{svg.RED}" stroke-width="1" fill="none">{svg.titled(title)}</path>')

    def small_panels(self, panel, span):
        """A small panel for each line and the thin one beside it, all with the same axes."""
        heights = heights_of(panel.lines, panel.scale.factor, 3)
        groups = [[line for line in panel.lines if line.name == name] for name in dict.fromkeys(line.name for line in panel.lines)]
        whole = WIDTH - LEFT - 40
        wide = (whole - SMALL_GAP * (SMALL_COLUMNS - 1)) // SMALL_COLUMNS
        rows = -(-len(groups) // SMALL_COLUMNS)
        box = Box(LEFT, self.top, whole, 0, span, heights)
        self.parts.append(f'<g class="panel">{svg.titled(panel.title)}')
        self.head(panel, box, wide)
        for place, lines in enumerate(groups):
            row, column = divmod(place, SMALL_COLUMNS)
            small = Box(LEFT + column * (wide + SMALL_GAP), self.top + SMALL_ABOVE + row * (SMALL_HIGH + SMALL_GAP + SMALL_ABOVE), wide, SMALL_HIGH, span,
                        heights)
            self.small(panel, lines, small, column == 0, place + SMALL_COLUMNS >= len(groups))
        self.top += rows * (SMALL_HIGH + SMALL_GAP + SMALL_ABOVE)
        middle = self.top - rows * (SMALL_HIGH + SMALL_GAP + SMALL_ABOVE) / 2
        self.text(22, middle, svg.cut(panel.scale.words, UNIT_WIDE), anchor="middle", turned=True)
        self.text(LEFT + whole / 2, self.top + 22, panel.axis[1] + ("; thin: plain upwind" if any(line.thin for line in panel.lines) else ""), anchor="middle")
        self.parts.append("</g>")
        self.top += GAP - 16

    def small(self, panel, lines, box, with_heights, with_axis):
        self.text(box.left, box.top - 5, svg.cut(lines[0].name, SMALL_NAME), size=12)
        for mark in box.heights:
            self.rule(box.left, box.y(mark), box.left + box.wide, box.y(mark))
            if with_heights:
                self.text(box.left - 8, box.y(mark) + 4, figure(mark), anchor="end", size=NOTE_SIZE)
        self.rule(box.left, box.bottom, box.left + box.wide, box.bottom, svg.AXIS)
        if box.heights[0] > 0:
            self.cut_axis(box.left, box.bottom)
        marks = panel.axis[0]
        for at, label in marks[:1] + marks[-1:] * (len(marks) > 1):
            self.rule(box.x(at), box.bottom, box.x(at), box.bottom + 4, svg.AXIS)
            if with_axis:
                self.text(box.x(at), box.bottom + 16, label, anchor="start" if at == marks[0][0] else "end", size=NOTE_SIZE)
        for line in lines:
            self.line(panel, line, box)
        if len(self.refused) <= MOST_CROSSES:
            self.refusals(box)
