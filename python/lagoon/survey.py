"""A survey's tables to a lagoon: mesh and field in whole units, from CSV files of the cells and of the faces."""

import argparse
import math

from . import causes, command, points
from .command import Bad, count, shown
from .layout import NARROW, RIM, Face, mesh_of, most
from .rows import LARGEST, Rows
from .sessiontext import at_line, face_line

HELP = """\
Both tables are CSV with a heading; other columns are not read.

  cells   cell (its name), volume (cubic metres), salt (grams per cubic metre; or the heading says what it is: salt kg/m3,
          salt g/l, salt psu); x and y, where there are any, are the plane coordinates of its centre, for a map
  faces   face (its name), from, to (names of cells; to is "rim" at the sea or a river), area (square metres),
          way (metres from the first cell's centre to the face), distance (metres from centre to centre);
          or, in the place of way and distance, plane coordinates in metres: x1, y1, x2, y2 (the face's two ends),
          first x, first y, second x, second y (the centres of its cells). The ends may stand at rim faces too

Cells and faces are numbered in the order of their rows. What is written is text for lagoon pack, without steps:

  V      volume divided by the unit of volume, to the nearest whole number, 1 to 65,535
  share  256 times way divided by distance, 1 to 255; from coordinates by document 02's S-7, as the engine does it
  reach  area times distance divided by the unit of volume, 1 to 65,535
  mass   V times the salt in units of salt; so q is the salt that was measured, in those units

The unit of volume, unless given, is the least of 1, 2, 5, 10, 20, .. cubic metres with which every V and reach is at most
4,095, so that records of kinds 1 to 4 hold them; with --wide at most 65,535, which takes records of kinds 5 to 8. The unit
of salt is 1 gram per cubic metre unless given (0.1 makes q ten times finer; the greatest q is 1,000,000). The unit of mass
is their product. The report says what rounding changed, and the factors that lagoon fluxes needs. Practical salinity is taken as
grams in a kilogram of water of 1,000 + 0.76 · PSU kilograms in a cubic metre. Centres and ends are kept in the text, as lines
`at cell N X Y` and `at face N X1 Y1 X2 Y2`, which `lagoon map` draws.

examples:
  lagoon survey examples/bay-cells.csv examples/bay-faces.csv -o bay.txt
  lagoon survey cells.csv faces.csv --volume-unit 250 --salt-unit 0.1 -o lagoon.txt
  lagoon survey cells.csv faces.csv --wide -o lagoon.txt
"""

LEAST = 1e-9                    # a length, area or volume that counts as above 0
# What a salt is in grams per cubic metre, by the heading of its column.
SALTS = {"salt": lambda salt: salt, "salt g/m3": lambda salt: salt, "salt mg/l": lambda salt: salt, "salt kg/m3": lambda salt: 1000 * salt,
         "salt g/l": lambda salt: 1000 * salt, "salt psu": lambda salt: salt * (1000 + 0.76 * salt)}
NOT_GRAMS = 100                 # salts up to here under a heading without a unit look like kg/m3 or PSU
CENTRE, ENDS = ("x", "y"), ("x1", "y1", "x2", "y2")
SAME_PLACE = 1.0                # metres: centres of a cell by two faces, farther apart than this, are said


class Survey:
    """What was measured."""

    def __init__(self, cells, faces):
        self.names, self.volumes, self.salts, self.salt = [], [], [], cells.chosen[0]
        self.at, self.notes = {"cell": {}, "face": {}}, []
        for line, row in cells.rows():
            name = cells.name(line, row, "cell")
            if name in self.names or name == "rim":
                raise Bad(f"{cells.path}:{line}: a second cell called {shown(name)}" if name != "rim" else f"{cells.path}:{line}: 'rim' is no cell's name")
            self.names.append(name)
            self.volumes.append(cells.number(line, row, "volume", LEAST))
            self.salts.append(SALTS[self.salt](cells.number(line, row, self.salt)))
            self.place("cell", len(self.names) - 1, cells.numbers(row, CENTRE))
        self.faces = []
        for line, row in faces.rows():
            self.place("face", len(self.faces), faces.numbers(row, ENDS))
            self.faces.append(self.face(faces, line, row))
        if self.salt == "salt" and 0 < max(self.salts) <= NOT_GRAMS:
            self.notes.append(f"note: salt up to {max(self.salts):g} is taken as g/m3 and looks like kg/m3 or PSU: head the column `salt kg/m3` or `salt psu`")

    def place(self, thing, number, coordinates):
        """Where a cell or face lies, where that is known; the first place of a cell is kept."""
        if coordinates is None:
            return
        kept = self.at[thing].setdefault(number, coordinates)
        if thing == "cell" and math.dist(kept, coordinates) > SAME_PLACE:
            self.notes.append(f"note: cell {shown(self.names[number])} lies at {kept[0]:g}, {kept[1]:g} and by another row at "
                              f"{coordinates[0]:g}, {coordinates[1]:g}: the first is kept for the map")

    def face(self, faces, line, row):
        """Name, first, second, share and area times distance."""
        name = faces.name(line, row, "face")
        first, second = self.cell(faces, line, row, "from"), self.cell(faces, line, row, "to")
        if second == RIM:
            return name, first, RIM, 0, 0
        area = faces.number(line, row, "area", LEAST)
        if faces.chosen == points.COLUMNS:
            coordinates = [faces.float(faces.word(row, column)) for column in points.COLUMNS]
            share = points.share(coordinates)
            if isinstance(share, causes.Refusal):
                raise Bad(f"{faces.path}:{line}: {causes.told(share)}")
            self.place("cell", first, tuple(coordinates[4:6]))
            self.place("cell", second, tuple(coordinates[6:8]))
            return name, first, second, share, area * points.distance(coordinates)
        way, distance = faces.number(line, row, "way", LEAST), faces.number(line, row, "distance", LEAST)
        if way >= distance:
            raise Bad(f"{faces.path}:{line}: the way {way:g} to the face should be less than the distance {distance:g}")
        return name, first, second, min(max(round(256 * way / distance), 1), causes.MOST_SHARE), area * distance

    def cell(self, faces, line, row, column):
        name = faces.name(line, row, column)
        if name == "rim" and column == "to":
            return RIM
        if name not in self.names:
            raise Bad(f"{faces.path}:{line}: {column}: {shown(name)} is no cell" + (" (the rim stands second)" if name == "rim" else ""))
        return self.names.index(name)


def chosen_unit(survey, ceiling):
    """The least round unit of volume with which no volume or reach is above the ceiling."""
    largest = max(survey.volumes + [face[4] for face in survey.faces])
    unit = 1
    while largest / unit > ceiling:
        unit = unit * 5 // 2 if str(unit)[0] == "2" else unit * 2
    return unit


class Lagoon:
    """The survey in whole units, and by how much that changed it."""

    def __init__(self, survey, unit, salt_unit):
        self.survey, self.unit, self.salt_unit, self.changed = survey, unit, salt_unit, {"volume": 0.0, "reach": 0.0, "q": 0.0}
        volumes = [self.whole("volume", value, f"cell {shown(name)}") for name, value in zip(survey.names, survey.volumes)]
        faces = []
        for name, first, second, share, reach in survey.faces:
            if second == RIM:
                faces.append(Face(first, RIM, 0, 0))
            else:
                faces.append(Face(first, second, share, self.whole("reach", reach, f"face {shown(name)}")))
        self.mesh = mesh_of(volumes, faces)
        self.masses = [round(volume * salt / salt_unit) for volume, salt in zip(volumes, survey.salts)]
        for name, salt, mass, volume in zip(survey.names, survey.salts, self.masses, volumes):
            if mass // volume > causes.TOP:
                raise Bad(f"cell {shown(name)}: salt {salt:g} is a concentration above {causes.TOP:,}: take a larger unit of salt")
            if salt:
                self.changed["q"] = max(self.changed["q"], abs(mass // volume * salt_unit - salt) / salt)
        refusal = causes.mesh_refusal(self.mesh)
        if refusal:
            raise Bad(f"the run would refuse this mesh: {causes.told(refusal)}")

    def whole(self, what, value, where):
        found = round(value / self.unit)
        if not 1 <= found <= causes.MOST_VOLUME:
            size = "larger" if found else "smaller"
            raise Bad(f"{where}: {what} {value:g} is {value / self.unit:.4g} units, outside 1 to {causes.MOST_VOLUME:,}: take a {size} unit of volume")
        self.changed[what] = max(self.changed[what], abs(found * self.unit - value) / value)
        return found

    def text(self):
        survey, unit = self.survey, self.unit
        lines = [f"unit volume {unit:g} m3", f"unit mass {unit * self.salt_unit:g} g"]
        lines += [f"name cell {cell} {name}" for cell, name in enumerate(survey.names)]
        lines += [f"name face {face} {row[0]}" for face, row in enumerate(survey.faces)]
        lines += [at_line(thing, number, place) for thing in ("cell", "face") for number, place in sorted(survey.at[thing].items())]
        lines += ["", "mesh"] + [f"cell {cell} volume {volume}" for cell, volume in enumerate(self.mesh.volumes)]
        lines += [face_line(number, face) for number, face in enumerate(self.mesh.faces)]
        lines += ["", "field"] + [f"cell {cell} mass {mass}" for cell, mass in enumerate(self.masses)]
        return "\n".join(lines) + "\n"

    def report(self):
        mesh = self.mesh
        return [f"{count(len(mesh.volumes), 'cell')}, {count(len(mesh.faces), 'face')} ({len(mesh.rim):,} at the rim); a unit of volume is {self.unit:g} m3, "
                f"of mass {self.unit * self.salt_unit:g} g, of concentration {self.salt_unit:g} g/m3",
                f"made whole, a volume is changed by {percent(self.changed['volume'])} at most, a reach by {percent(self.changed['reach'])}, "
                f"a first q by {percent(self.changed['q'])}",
                f"for lagoon fluxes: --factor {1 / self.unit:.8g} times the seconds of a step, where the table has m3/s"
                + (f"; --outside-factor {1 / self.salt_unit:.8g}" if self.salt_unit != 1 else ""), *self.survey.notes]


def percent(part):
    """Of a change; what floats leave of none is none."""
    return f"{100 * part:.3g} %" if part > 1e-9 else "0 %"


def amount(text):
    try:
        value = float(text)
    except ValueError:
        value = math.nan
    if not LEAST <= value <= LARGEST:
        raise argparse.ArgumentTypeError(f"a number above 0, not {shown(text)}")
    return value


def arguments(words):
    parser = command.parser("lagoon survey", __doc__, HELP)
    parser.add_argument("cells", help="the table of the cells, CSV")
    parser.add_argument("faces", help="the table of the faces, CSV")
    parser.add_argument("-o", "--output", default="-", help="the text to write (default: standard output)")
    parser.add_argument("--volume-unit", type=amount, metavar="M3", help="the unit of volume in cubic metres (default: the least round one that fits)")
    parser.add_argument("--wide", action="store_true", help="choose the unit of volume for cells up to 65,535, not 4,095")
    parser.add_argument("--salt-unit", type=amount, default=1, metavar="G", help="the unit of concentration in grams per cubic metre (default: 1)")
    return parser.parse_args(words)


def main(words):
    options = arguments(words)
    command.keep_apart([options.output], [options.cells, options.faces])
    if options.cells == options.faces == "-":
        raise Bad("only one of the two can be standard input")
    survey = Survey(Rows(options.cells, ("cell", "volume"), tuple((salt,) for salt in SALTS)),
                    Rows(options.faces, ("face", "from", "to", "area"), (("way", "distance"), points.COLUMNS)))
    ceiling = causes.MOST_VOLUME if options.wide else most(NARROW.value)
    lagoon = Lagoon(survey, options.volume_unit or chosen_unit(survey, ceiling), options.salt_unit)
    command.write_whole(options.output, lagoon.text().encode())
    command.say("\n".join(lagoon.report()))
    return 0
