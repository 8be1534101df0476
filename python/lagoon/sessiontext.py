"""A session as text, both ways: the words of the documents, one item on a line. `lagoon pack --help` says the format."""

import io
import re
from collections import namedtuple

from .command import Bad, listed, named, shown
from .layout import (CELLS_BITS, END_BITS, FACES_BITS, MINUS_ZERO, NARROW, OUTSIDE_BITS, RIM, SHARE_BITS, WIDE, Face, Step, bits_of,
                    bits_of_flux, field_record, masses_in, mesh_of, mesh_record, most, step_of, step_record)

MOST_TIMES = 1_000_000          # of "step times"
MOST_LINE = 1 << 20             # bytes in a line of text
MOST_VALUE, MOST_MASS = most(WIDE.value), most(WIDE.mass)       # of a volume, reach or size of a flux; of a mass or release
FORMER = {"boundary": "rim", "weight": "share", "span": "reach"}        # words that the format once took
UNITS = ("volume", "mass", "step")
COORDINATES = {"cell": 2, "face": 4}     # of an `at` line: a centre, or the two ends
MOST_COORDINATE = 1e9


# ---------------------------------------------------------------- To text

def face_line(number, face):
    """Share and reach are left out where they have to be 0 and are."""
    end = "rim" if face.second == RIM else face.second
    spacing = f" share {face.share} reach {face.reach}" if end != "rim" or face.share or face.reach else ""
    return f"face {number} from {face.first} to {end}{spacing}"


def mesh_text(mesh):
    head = "mesh wide\n" if mesh.widths == WIDE else "mesh\n"
    return "".join([head] + [f"cell {number} volume {volume}\n" for number, volume in enumerate(mesh.volumes)]
                   + [face_line(number, face) + "\n" for number, face in enumerate(mesh.faces)])


def field_text(masses):
    return "\nfield\n" + "".join([f"cell {number} mass {mass}\n" for number, mass in enumerate(masses)])


class StepText:
    """The text of the steps on a mesh."""

    def __init__(self, mesh):
        self.rim, self.lines = mesh.rim, "".join([f"face {number} flux %s\n" for number in range(len(mesh.faces))])

    def of(self, step, first, times, time=""):
        fluxes = list(step.fluxes)
        for face, outside in zip(self.rim, step.outsides):
            if outside or step.fluxes[face] < 0:
                fluxes[face] = f"{fluxes[face]} outside {outside}"
        head = f"\nstep  # {first}\n" if times == 1 else f"\nstep times {times}  # {first} to {first + times - 1}\n"
        head += f"time {time}\n" if time else ""
        released = [f"cell {cell} release {release}\n" for cell, release in enumerate(step.releases or [])]
        return head + self.lines % tuple(fluxes) + "".join(released)


# ---------------------------------------------------------------- From text

class TextError(Exception):
    """Bad text: line and column, from 1, and what is wrong there."""

    def __init__(self, line, column, words):
        super().__init__(words)
        self.line, self.column, self.words = line, column, words


class Line:
    """The words of a line, each with its column, taken one by one."""

    def __init__(self, number, text):
        self.number, self.words, self.taken = number, [], 0
        self.text = text.partition("#")[0]
        column = 0
        for word in self.text.split():
            column = self.text.index(word, column)
            self.words.append((column + 1, word))
            column += len(word)
        self.end = column + 1

    def error(self, words, back=1):
        """An error at a word that was taken, by default the last."""
        return TextError(self.number, self.words[self.taken - back][0], words)

    def unlike(self, expected, found):
        """An error at a word that should be another."""
        if found in FORMER:
            return self.error(f"write '{FORMER[found]}' for '{found}'")
        return self.error(f"{expected}, not {shown(found)}")

    def more(self):
        return self.taken < len(self.words)

    def word(self, expected):
        if not self.more():
            raise TextError(self.number, self.end, f"the line ends where {expected} should stand")
        self.taken += 1
        return self.words[self.taken - 1][1]

    def keyword(self, *expected):
        wanted = listed(f"'{word}'" for word in expected)
        found = self.word(wanted)
        if found not in expected:
            raise self.unlike(f"{wanted} should stand here", found)
        return found

    def number_of(self, what, greatest, kind="a whole number"):
        return self.number_in(self.word(what), what, greatest, kind)

    def number_in(self, found, what, greatest, kind="a whole number"):
        """The number that a word says, a sign apart."""
        digits = found.lstrip("+-") if found[:1] in ("-", "+") and kind == "a flux" else found
        if not (digits.isascii() and digits.isdigit()) or len(found) - len(digits) > 1:
            raise self.unlike(f"{what} should be {'a whole number' if kind == 'a flux' else kind}", found)
        digits = digits.lstrip("0") or "0"
        if len(digits) > len(str(greatest)) or int(digits) > greatest:
            raise self.error(f"{what} is at most {greatest}, not {shown(found)[1:-1]}")
        return int(digits)

    def coordinate(self):
        """A number with or without decimals."""
        found = self.word("a coordinate")
        if not re.fullmatch(r"[-+]?[0-9]{1,10}(\.[0-9]{0,12})?(e[-+]?[0-9]{1,2})?", found) or not abs(float(found)) <= MOST_COORDINATE:
            raise self.unlike(f"a coordinate should be a number up to {MOST_COORDINATE:,.0f}", found)
        return float(found)

    def rest(self, what):
        """All words that are left, as they stand."""
        self.word(what)
        start = self.words[self.taken - 1][0] - 1
        self.taken = len(self.words)
        return self.text[start:].strip()

    def over(self):
        if self.more():
            found = self.word("")
            raise self.unlike("nothing more should stand on this line", found)


class Labels:
    """What a text says beside the records: units, names of cells and faces, where they lie, and when steps begin."""

    def __init__(self):
        self.units, self.names, self.at, self.times = {}, {"cell": {}, "face": {}}, {"cell": {}, "face": {}}, {}

    def of(self, thing, number):
        name = self.names[thing].get(number)
        return f"{thing} {number}" + (f" ({name})" if name else "")


# A line of a step as it nearly always looks; every other goes word by word.
FLUX_LINE = re.compile(rb"[ \t]*face[ \t]+([0-9]{1,4})[ \t]+flux[ \t]+([-+]?[0-9]{1,5})(?:[ \t]+outside[ \t]+([0-9]{1,7}))?[ \t]*\r?\n?")


def at_line(thing, number, coordinates):
    """Where a cell's centre or a face's ends lie."""
    return f"at {thing} {number} " + " ".join(f"{value:.12g}" for value in coordinates)


Item = namedtuple("Item", "kind value times line lines")    # of a text: line where it begins, lines of its cells and faces


class Parser:
    """The items of a text, one by one: mesh, field, steps and bytes. It has the labels, and whether there was a field."""

    def __init__(self, file):
        self.file, self.number = file, 0
        self.labels, self.named = Labels(), []
        self.step_number = 0            # of the step that is read; None after lines of bytes, which may hold steps
        self.section, self.volumes, self.faces, self.mesh, self.has_field = None, None, None, None, False
        self.widths = NARROW            # as the text says, whatever its values ask for
        self.values, self.outsides, self.releases, self.next, self.times, self.begun, self.lines = [], [], None, 0, 1, 0, {}

    def items(self):
        for raw in self.raw_lines():
            if self.section == "step" and self.flux_line(raw):
                continue
            line = Line(self.number, raw.decode("utf-8", "replace"))
            if line.more():
                yield from self.take(line)
        yield from self.close()
        self.check_names()

    def raw_lines(self):
        while True:
            raw = self.file.readline(MOST_LINE)
            self.number += 1
            if self.number == 1:
                if raw[:2] in (b"\xff\xfe", b"\xfe\xff"):
                    raise TextError(1, 1, "this text is UTF-16: save it as UTF-8")
                raw = raw[3:] if raw[:3] == b"\xef\xbb\xbf" else raw
            if not raw:
                return
            if len(raw) == MOST_LINE and raw[-1:] != b"\n":
                raise TextError(self.number, 1, f"this line has {MOST_LINE:,} bytes or more: it is no text of a session")
            yield raw

    def flux_line(self, raw):
        """Takes a plain line of a step; every other line is left to the words."""
        found = FLUX_LINE.fullmatch(raw)
        if not found or self.releases is not None:
            return False
        face, flux, outside = found.groups()
        face, size = int(face), int(flux)
        if not self.next <= face < len(self.faces) or not -MOST_VALUE <= size <= MOST_VALUE:
            return False
        if outside is not None:
            if self.faces[face].second != RIM or int(outside) > most(OUTSIDE_BITS):
                return False
            self.outsides[face] = int(outside)
        self.values[face] = size if size or flux[:1] != b"-" else MINUS_ZERO
        self.lines[face] = self.number
        self.next = face + 1
        return True

    def take(self, line):
        items = {"mesh": {"cell": self.mesh_cell, "face": self.mesh_face}, "field": {"cell": self.field_cell},
                 "step": {"face": self.step_face, "cell": self.step_cell, "time": self.step_time}}.get(self.section, {})
        beside = {"unit": self.unit, "name": self.name, "at": self.at}
        keyword = line.keyword(*items, "mesh", "field", "step", "bytes", *beside)
        if keyword in items:
            items[keyword](line)
        elif keyword in beside:
            beside[keyword](line)
        else:
            yield from self.close()
            self.begin(line, keyword)
            if keyword == "bytes":
                yield Item("bytes", self.bytes_line(line), 1, line.number, {})
        line.over()

    def begin(self, line, section):
        self.begun, self.lines, self.next = line.number, {}, 0
        if section == "mesh":
            if self.volumes is not None:
                raise line.error("a session has one mesh")
            self.volumes, self.faces = [], []
            if line.more():
                line.keyword("wide")
                self.widths = WIDE
        elif self.volumes is None and section != "bytes":
            raise line.error(f"a {section} follows a mesh, and there is none above")
        elif section == "field":
            if self.has_field:
                raise line.error("a session has one field, before its steps")
            self.has_field, self.values = True, [0] * len(self.volumes)
        elif section == "step":
            if not self.has_field:
                raise line.error("a step follows a field, and there is none above")
            if self.step_number is not None:
                self.step_number += self.times
            self.times = self.step_times(line)
            self.values, self.outsides, self.releases = [0] * len(self.faces), dict.fromkeys(self.mesh.rim, 0), None
        else:
            self.has_field, self.step_number = self.has_field or self.volumes is not None, None
        self.section = section

    def step_times(self, line):
        if not line.more():
            return 1
        line.keyword("times")
        times = line.number_of("the number of times", MOST_TIMES)
        if times == 0:
            raise line.error("the number of times is at least 1")
        return times

    def close(self):
        """The record that the lines were in is complete."""
        section, self.section = self.section, None
        if section == "mesh":
            self.mesh = mesh_of(self.volumes, self.faces, self.widths)
            yield Item("mesh", self.mesh, 1, self.begun, self.lines)
        elif section == "field":
            yield Item("field", self.values, 1, self.begun, self.lines)
        elif section == "step":
            yield Item("step", Step(self.values, list(self.outsides.values()), self.releases), self.times, self.begun, self.lines)

    def bytes_line(self, line):
        found = bytearray()
        while True:
            word = line.word("a byte")
            if not re.fullmatch("[0-9a-fA-F]{2}", word):
                raise line.error(f"a byte is two hexadecimal digits, not {shown(word)}")
            found += bytes.fromhex(word)
            if not line.more():
                return bytes(found)

    def unit(self, line):
        self.before_steps(line)
        what = line.keyword(*UNITS)
        self.labels.units[what] = line.rest("a unit")

    def name(self, line):
        self.before_steps(line)
        thing, number = self.thing(line)
        self.labels.names[thing][number] = line.rest("a name")

    def thing(self, line):
        """Which cell or face a name or a place is of; whether there is one is known at the end."""
        thing = line.keyword("cell", "face")
        number = line.number_of(f"the number of the {thing}", most(CELLS_BITS if thing == "cell" else FACES_BITS) - 1)
        self.named.append((line.number, line.words[line.taken - 1][0], thing, number))
        return thing, number

    def at(self, line):
        """Where a cell's centre or a face's ends lie."""
        self.before_steps(line)
        thing, number = self.thing(line)
        self.labels.at[thing][number] = tuple(line.coordinate() for _ in range(COORDINATES[thing]))

    def step_time(self, line):
        """When the step begins, the first of them where it comes more than once."""
        if self.lines:
            raise line.error("the time of a step stands before its faces, and once")
        self.lines["time", 0] = line.number
        words = line.rest("a time")
        if self.step_number is not None:
            self.labels.times[self.step_number] = words

    def before_steps(self, line):
        if self.section == "step":
            raise line.error("units, names and places stand before the steps")

    def check_names(self):
        """Every name and place is that of a cell or face that is there."""
        rows = {"cell": self.volumes, "face": self.faces}
        for number, column, thing, place in self.named:
            if self.volumes is not None and place >= len(rows[thing]):
                raise TextError(number, column, f"the mesh has no {thing} {place}")

    def in_order(self, line, what, rows, ceiling):
        """The number of a mesh's cell or face, of which none is left out."""
        if line.number_of(f"the number of the {what}", ceiling) != len(rows):
            raise line.error(f"{what} {len(rows)} should come here")
        self.lines[what, len(rows)] = line.number

    def mesh_cell(self, line):
        if self.faces:
            raise line.error("the cells of a mesh stand before its faces")
        self.in_order(line, "cell", self.volumes, most(CELLS_BITS) - 1)
        line.keyword("volume")
        self.volumes.append(line.number_of("a volume", MOST_VALUE))

    def mesh_face(self, line):
        self.in_order(line, "face", self.faces, most(FACES_BITS) - 1)
        line.keyword("from")
        first = line.number_of("the first cell", most(END_BITS), "the number of a cell (the rim stands second)")
        line.keyword("to")
        found = line.word("the second cell or 'rim'")
        second = RIM if found == "rim" else line.number_in(found, "the second cell", most(END_BITS), "the number of a cell or 'rim'")
        share = reach = 0
        if second != RIM or line.more():
            line.keyword("share")
            share = line.number_of("a share", most(SHARE_BITS))
            line.keyword("reach")
            reach = line.number_of("a reach", MOST_VALUE)
        self.faces.append(Face(first, second, share, reach))

    def in_mesh(self, line, what, rows):
        """The number of a cell or face that the mesh has, above those before it."""
        if not rows:
            raise line.error(f"the mesh has no {what}s")
        found = line.number_of(f"the number of the {what}", len(rows) - 1)
        if found < self.next:
            raise line.error(f"{what} {found} should stand above {what} {self.next - 1}, and once")
        self.next = found + 1
        return found

    def field_cell(self, line):
        cell = self.in_mesh(line, "cell", self.volumes)
        self.lines[cell] = line.number
        line.keyword("mass")
        self.values[cell] = line.number_of("a mass", MOST_MASS)

    def step_cell(self, line):
        """A release: the step is of the kind with releases then."""
        if self.releases is None:
            self.releases, self.next = [0] * len(self.volumes), 0
        cell = self.in_mesh(line, "cell", self.volumes)
        self.lines["cell", cell] = line.number
        line.keyword("release")
        self.releases[cell] = line.number_of("a release", MOST_MASS)

    def step_face(self, line):
        if self.releases is not None:
            raise line.error("the faces of a step stand before its releases")
        face = self.in_mesh(line, "face", self.faces)
        self.lines[face] = line.number
        line.keyword("flux")
        found = line.word("a flux")
        size = line.number_in(found, "the size of a flux", MOST_VALUE, "a flux")
        self.values[face] = size if found[0] != "-" else -size if size else MINUS_ZERO
        if line.more():
            line.keyword("outside")
            if face not in self.outsides:
                raise line.error(f"face {face} is inside: a step record has outside values of rim faces alone")
            self.outsides[face] = line.number_of("an outside value", most(OUTSIDE_BITS))


# ---------------------------------------------------------------- To records

def has_room(item, widths):
    """Do records of this width hold the values of an item?"""
    value = item.value
    if item.kind == "mesh":
        return max([*value.volumes, *(face.reach for face in value.faces)], default=0) <= most(widths.value)
    if item.kind == "field":
        return max(value, default=0) <= most(widths.mass)
    return item.kind == "bytes" or bits_of_flux(widths).keys() >= set(value.fluxes) and max(value.releases or [0]) <= most(widths.mass)


class Packer:
    """The records of a text with how often each comes: narrow, unless the text says wide or a value asks for it, wherever it stands."""

    def __init__(self):
        self.mesh, self.widths, self.records = None, NARROW, []         # each record with its kind of item

    def take(self, item):
        if item.kind == "mesh":
            self.mesh, self.widths = item.value, item.value.widths
        if not has_room(item, self.widths):
            self.widen()
        self.records.append((item.kind, self.record(item.kind, item.value), item.times))

    def record(self, kind, value):
        if kind == "mesh":
            return mesh_record(value._replace(widths=self.widths))
        if kind == "field":
            return field_record(value, self.widths)
        return step_record(value, self.widths) if kind == "step" else value

    def widen(self):
        """The records so far once more, as wide ones."""
        narrow, self.widths = self.records, WIDE
        self.records = [(kind, self.record(kind, self.value(kind, record)), times) for kind, record, times in narrow]

    def value(self, kind, record):
        """What a narrow record says."""
        if kind == "field":
            return masses_in(record)
        if kind == "step":
            return step_of(bits_of(record), self.mesh)
        return self.mesh if kind == "mesh" else record


def packed(parser, masses=None):
    """The records of a text with how often each comes, its field perhaps of other masses; and what the session lacks."""
    packer = Packer()
    for item in parser.items():
        packer.take(item if item.kind != "field" or masses is None else item._replace(value=masses))
    if not packer.records:
        raise Bad("there is no mesh in this text, nor anything else to pack")
    lacks = "" if parser.has_field or parser.volumes is None else "no field: the run refuses such a session"
    return [(record, times) for _, record, times in packer.records], lacks


def pack(text):
    """The bytes of a session's text, and what the session lacks."""
    found, lacks = packed(Parser(io.BytesIO(text.encode())))
    return b"".join([record * times for record, times in found]), lacks


def text_words(path, error):
    return f"{named(path)}:{error.line}:{error.column}: {error.words}"
