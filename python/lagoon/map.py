"""A map of the lagoon: q of every cell by colour after chosen steps, with names and a legend; and the same as GeoJSON and as legacy VTK."""

import argparse
import json
import math
import re

from . import command, engine, quantities, svg
from .command import Bad, shown
from .layout import RIM
from .rows import listed_steps
from .session import open_session
from .timeline import Timeline

HELP = """\
The session is a text with places: lines `at cell N X Y` for the centres of all cells, and `at face N X1 Y1 X2 Y2` for the ends of faces,
in metres, which `lagoon survey` writes from a survey's coordinates. Each of the --steps is a map of its own, all in one scale of colours
from pale to dark; 0 is the first field. The engine steps through the session, by the C call of the library (`make lib`).

A cell is drawn by the ends of its faces, in their order around its centre, where they enclose it; else it is a disc at its centre. Faces
are black lines, those at the rim thick; where a face has no ends, a grey line joins the centres.

--geojson writes cells as polygons, or points where they are discs, and faces as lines; --vtk polygons and vertices with their data, as
POLYDATA in ASCII. Both have cell, volume and q after each of the steps (q_0, q_24, ..); coordinates are the survey's, in metres. Readers of
GeoJSON take them for degrees unless --crs names the survey's grid, as EPSG:25832.

examples:
  lagoon map session.txt -o map.svg
  lagoon map session.txt --steps 0,24,48,last --title "The bay in June" -o june.svg --geojson june.geojson --vtk june.vtk
"""

MOST_STEPS = 12
WIDTH, EDGE, GAP, COLUMNS = 960, 40, 24, 3
BAR_WIDE, BAR_HIGH, SHADES = 320, 14, 64
STOPS = ((247, 251, 255), (198, 219, 239), (107, 174, 214), (33, 113, 181), (8, 48, 107))       # pale to dark, also without colour
MOST_NAMED, NAME_WIDE, NAME_LEAST, NAME_SIZE, LETTER = 40, 18, 6, 10, 6        # cells; letters of a line; pixels
NAME_PART = 0.7                 # of the way to the nearest centre, for a name
DISC = 0.35                     # of the way to the nearest centre
DIGITS = 12                     # of a coordinate that is written


class Places:
    """Where the cells and faces of a session lie."""

    def __init__(self, session):
        self.mesh, self.at = session.mesh, session.labels.at
        for cell in range(len(self.mesh.volumes)):
            if cell not in self.at["cell"]:
                raise Bad(f"{session.labels.of('cell', cell)} has no place: lines `at cell N X Y` say where cells lie "
                          "(lagoon survey writes them from coordinates)")
        self.centres = [self.at["cell"][cell] for cell in range(len(self.mesh.volumes))]
        self.faces = [[] for _ in self.centres]                 # of each cell
        for face, (first, second, _, _) in enumerate(self.mesh.faces):
            for end in {first, second} - {RIM}:
                self.faces[end].append(face)
        self.outlines = [self.outline(cell) for cell in range(len(self.centres))]
        self.radius = DISC * min((math.dist(one, other) for place, one in enumerate(self.centres) for other in self.centres[:place] if one != other),
                                 default=1.0)

    def outline(self, cell):
        """The ends of a cell's faces in their order around its centre, where they enclose it; else None."""
        x, y = self.centres[cell]
        ends = {point for face in self.faces[cell] for point in self.ends(face)} - {(x, y)}
        turned = sorted((math.atan2(end[1] - y, end[0] - x), end) for end in ends)
        gaps = [(after[0] - before[0]) % math.tau for before, after in zip(turned, turned[1:] + turned[:1])]
        return [end for _, end in turned] if len(turned) > 2 and max(gaps) < math.pi - 1e-9 else None

    def ends(self, face):
        """Both ends of a face, none where they are not known."""
        found = self.at["face"].get(face)
        return [found[:2], found[2:]] if found else []

    def bounds(self):
        """The least and greatest coordinates, with room for discs."""
        points = self.centres + [point for face in range(len(self.mesh.faces)) for point in self.ends(face)]
        xs, ys = [x for x, _ in points], [y for _, y in points]
        return min(xs) - self.radius, min(ys) - self.radius, max(xs) + self.radius, max(ys) + self.radius


# ---------------------------------------------------------------- The picture

def shade(part):
    """The colour of a part from 0 to 1."""
    place = min(max(part, 0.0), 1.0) * (len(STOPS) - 1)
    low = min(int(place), len(STOPS) - 2)
    return "#" + "".join(f"{round(a + (b - a) * (place - low)):02x}" for a, b in zip(STOPS[low], STOPS[low + 1]))


class Map:
    """The picture: a map for each step, and the legend."""

    def __init__(self, session, fields, title):
        self.session, self.labels, self.fields, self.places = session, session.labels, fields, Places(session)
        greatest = max(max(values) for values in fields.values())
        self.scale = quantities.concentrations(self.labels.units, greatest)
        self.marks = quantities.ticks(0, max(greatest, 1) * self.scale.factor, 5, self.scale.factor == 1)
        self.timeline, self.parts, self.top = Timeline(self.labels), [], 30
        for line in svg.wrapped(title, 74, 2):
            self.parts.append(svg.text(EDGE, self.top, line, size=18, weight="bold"))
            self.top += 24
        self.left, self.low, right, high = self.places.bounds()
        self.columns = min(COLUMNS, len(fields))
        self.wide = (WIDTH - 2 * EDGE - GAP * (self.columns - 1)) / self.columns
        self.metre = self.wide / max(right - self.left, (high - self.low) / 1.5)       # pixels of it; no map is much higher than wide
        self.high = (high - self.low) * self.metre

    def svg(self):
        self.legend()
        for place, (step, values) in enumerate(sorted(self.fields.items())):
            row, column = divmod(place, self.columns)
            self.one(EDGE + column * (self.wide + GAP), self.top + row * (self.high + 40) + 20, step, values)
        rows = -(-len(self.fields) // self.columns)
        return svg.page(WIDTH, round(self.top + rows * (self.high + 40) + 20), self.parts)

    def legend(self):
        """The colours and what they mean, and a bar of a round length."""
        top = self.top
        self.parts.append(svg.text(EDGE, top + 12, f"Concentration q, {self.scale.words}"))
        start = EDGE + 260
        for part in range(SHADES):
            self.parts.append(f'<rect x="{start + part * BAR_WIDE / SHADES:.1f}" y="{top:.1f}" width="{BAR_WIDE / SHADES + 0.5:.1f}" height="{BAR_HIGH}" '
                              f'fill="{shade((part + 0.5) / SHADES)}"/>')
        for mark in self.marks:
            x = start + BAR_WIDE * float(mark / self.marks[-1])
            self.parts += [svg.rule(x, top + BAR_HIGH, x, top + BAR_HIGH + 4, svg.AXIS),
                           svg.text(x, top + BAR_HIGH + 16, quantities.figure(mark), anchor="middle", size=11)]
        metres = quantities.ticks(0, 120 / self.metre, 2)[1]
        length, x = float(metres) * self.metre, start + BAR_WIDE + 60
        self.parts += [svg.rule(x, top + BAR_HIGH, x + length, top + BAR_HIGH, svg.INK, 2),
                       svg.text(x, top + BAR_HIGH + 16, f"{quantities.figure(metres / 1000)} km" if metres >= 1000 else f"{quantities.figure(metres)} m",
                                size=11)]
        self.top += 52

    def one(self, left, top, step, values):
        """The map after a step, north above."""
        def place(point):
            return left + (point[0] - self.left) * self.metre, top + self.high - (point[1] - self.low) * self.metre

        time = self.timeline.words(step)
        words = f"step {step:,}" + (f", {time}" if time else "")
        self.parts.append(f'<g class="map">{svg.titled(words)}')
        self.parts.append(svg.text(left, top - 8, words, size=13, weight="bold"))
        self.links(place)
        for cell, q in enumerate(values):
            self.cell(cell, q, place)
        self.faces(place)
        if len(values) <= MOST_NAMED:
            self.names(place)
        self.parts.append("</g>")

    def links(self, place):
        """A line between the centres that a face joins, where its ends are not known."""
        for face, (first, second, _, _) in enumerate(self.places.mesh.faces):
            if second != RIM and not self.places.ends(face):
                self.parts.append(svg.rule(*place(self.places.centres[first]), *place(self.places.centres[second]), "#999999"))

    def cell(self, cell, q, place):
        look = f'class="cell" fill="{shade(float(q * self.scale.factor / self.marks[-1]))}" stroke="#888888" stroke-width="0.5"'
        title = svg.titled(f"{self.labels.of('cell', cell)}: q {q:,}")
        if self.places.outlines[cell]:
            self.parts.append(f'<polygon {look} points="{svg.joined(map(place, self.places.outlines[cell]))}">{title}</polygon>')
        else:
            x, y = place(self.places.centres[cell])
            self.parts.append(f'<circle {look} cx="{x:.2f}" cy="{y:.2f}" r="{self.places.radius * self.metre:.2f}">{title}</circle>')

    def faces(self, place):
        for face, (_, second, _, _) in enumerate(self.places.mesh.faces):
            ends = self.places.ends(face)
            if ends:
                self.parts.append(svg.rule(*place(ends[0]), *place(ends[1]), svg.INK, 3 if second == RIM else 1))

    def names(self, place):
        """Names of the cells on two lines where they need them, or numbers where names have no room; with a pale edge that keeps them
        legible on dark colours."""
        room = min(int(NAME_PART * self.places.radius / DISC * self.metre / LETTER), NAME_WIDE)
        for cell, centre in enumerate(self.places.centres):
            x, y = place(centre)
            name = self.labels.names["cell"].get(cell, str(cell))
            lines = svg.wrapped(name, room, 2) if room >= NAME_LEAST else [str(cell)]
            for line, words in enumerate(lines):
                self.parts.append(svg.text(x, y + 3 + (NAME_SIZE + 1) * (line - (len(lines) - 1) / 2), words, anchor="middle", size=NAME_SIZE,
                                           more=' stroke="#ffffff" stroke-width="2.5" stroke-opacity="0.8" paint-order="stroke"'))


# ---------------------------------------------------------------- For other programs

def rounded(point):
    return [float(f"{value:.{DIGITS}g}") for value in point]


def grid(text):
    """The number of a grid, as EPSG:25832 names it."""
    if not re.fullmatch(r"EPSG:[0-9]{4,6}", text):
        raise argparse.ArgumentTypeError(f"a grid like EPSG:25832, not {shown(text)}")
    return text.partition(":")[2]


def geojson(session, fields, crs=None):
    """Cells as polygons or points, faces as lines; q after each step is a property. The grid is named as GDAL and QGIS read it."""
    places, names, features = Places(session), session.labels.names, []
    for cell, (outline, centre) in enumerate(zip(places.outlines, places.centres)):
        shape = {"type": "Point", "coordinates": rounded(centre)}
        if outline:
            shape = {"type": "Polygon", "coordinates": [[rounded(point) for point in outline + outline[:1]]]}
        figures = {f"q_{step}": values[cell] for step, values in sorted(fields.items())}
        features.append({"type": "Feature", "geometry": shape,
                         "properties": {"cell": cell, "name": names["cell"].get(cell, ""), "volume": session.mesh.volumes[cell], **figures}})
    for face, (first, second, _, _) in enumerate(session.mesh.faces):
        if places.ends(face):
            features.append({"type": "Feature", "geometry": {"type": "LineString", "coordinates": [rounded(end) for end in places.ends(face)]},
                             "properties": {"face": face, "name": names["face"].get(face, ""), "from": first, "to": "rim" if second == RIM else second}})
    named = f' "crs": {{"type": "name", "properties": {{"name": "urn:ogc:def:crs:EPSG::{crs}"}}}},' if crs else ""
    return f'{{"type": "FeatureCollection",{named} "features": [\n' + ",\n".join(json.dumps(feature, ensure_ascii=False) for feature in features) + "\n]}\n"


def vtk(session, fields):
    """Vertices of the cells that are discs, then polygons of the others; their data in this order."""
    places = Places(session)
    discs = [cell for cell, outline in enumerate(places.outlines) if not outline]
    drawn = [cell for cell, outline in enumerate(places.outlines) if outline]
    points, shapes = [], {"VERTICES": [], "POLYGONS": []}
    for kind, cells in (("VERTICES", discs), ("POLYGONS", drawn)):
        for cell in cells:
            corners = places.outlines[cell] or [places.centres[cell]]
            shapes[kind].append([len(corners), *range(len(points), len(points) + len(corners))])
            points += corners
    lines = ["# vtk DataFile Version 3.0", "lagoon: q of the cells after chosen steps", "ASCII", "DATASET POLYDATA", f"POINTS {len(points)} double"]
    lines += [" ".join(f"{value:.{DIGITS}g}" for value in (*point, 0)) for point in points]
    for kind, rows in shapes.items():
        if rows:
            lines += [f"{kind} {len(rows)} {sum(map(len, rows))}", *(" ".join(map(str, row)) for row in rows)]
    lines.append(f"CELL_DATA {len(discs) + len(drawn)}")
    columns = {"cell": range(len(places.centres)), "volume": session.mesh.volumes, **{f"q_{step}": values for step, values in sorted(fields.items())}}
    for name, values in columns.items():
        lines += [f"SCALARS {name} int 1", "LOOKUP_TABLE default", *(str(values[cell]) for cell in discs + drawn)]
    return "\n".join(lines) + "\n"


# ---------------------------------------------------------------- The command

def fields_of(session, options, wanted):
    """q of all cells after each of the steps."""
    found, volumes = {}, session.mesh.volumes
    for moment in engine.History(session, options.library, options.run).moments():
        if moment.number in wanted:
            found[moment.number] = [mass // volume for mass, volume in zip(moment.masses, volumes)]
    if "last" in wanted:
        found[moment.number] = [mass // volume for mass, volume in zip(moment.masses, volumes)]
    for step in wanted:
        if step != "last" and step not in found:
            raise Bad(f"--steps: there is no step {step}, the last is {moment.number}")
    return found


def arguments(words):
    parser = command.parser("lagoon map", __doc__, HELP)
    parser.add_argument("file", nargs="?", default="-", help="the session, a text with places (default: standard input)")
    parser.add_argument("-o", "--output", default="-", help="the SVG to write (default: standard output)")
    parser.add_argument("--steps", default="0,last", help=f"steps to draw, as 0,24,last, at most {MOST_STEPS} (default: 0,last)")
    parser.add_argument("--title", help="the words above the maps (default: the file's name)")
    parser.add_argument("--geojson", metavar="FILE", help="write cells and faces as GeoJSON too")
    parser.add_argument("--crs", type=grid, metavar="EPSG:N", help="the grid of the survey's coordinates, for GeoJSON (default: none is named)")
    parser.add_argument("--vtk", metavar="FILE", help="write cells as legacy VTK too")
    engine.options(parser)
    return parser.parse_args(words)


def main(words):
    options = arguments(words)
    command.keep_apart([options.output, options.geojson, options.vtk], [options.file, *engine.read_by(options)])
    wanted = listed_steps(options.steps, "--steps", MOST_STEPS)
    session = open_session(options.file)
    Places(session)
    fields = fields_of(session, options, wanted)
    title = options.title if options.title is not None else "Session" if options.file == "-" else options.file.rpartition("/")[2]
    made = [(options.geojson, lambda *given: geojson(*given, options.crs)), (options.vtk, vtk), (options.output, lambda *given: Map(*given, title).svg())]
    for path, data in [(path, make(session, fields).encode()) for path, make in made if path]:
        command.write_whole(path, data)
    return 0
