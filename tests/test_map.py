#!/usr/bin/env python3
"""lagoon map: colours and shapes of the picture, GeoJSON read by Python's json, VTK by a reader of its own here, and bad input.

    python3 tests/test_map.py
"""

import ast
import csv
import io
import json
import re
import shutil
import subprocess
import sys
import unittest
import xml.etree.ElementTree as xml

from toolcase import CHANNEL, ROOT, RUN, breaks, command, equal, folder, holds, interrupted, known, refuses, session_of

from package import map as maps
from package import sessiontext

SVG = "{http://www.w3.org/2000/svg}"
# Three squares in a row, the sea at the left, a river at the right; the last has no end of its rim face, so two corners are not known.
PLACES = """unit volume 10 m3
unit mass 10 kg
unit step 6 h
name cell 0 Inlet
name face 0 the sea
at cell 0 0.5 0.5
at cell 1 1.5 0.5
at cell 2 2.5 0.5
at face 0 0 0 0 1
at face 1 1 0 1 1
at face 2 2 0 2 1
"""
DRAWN = PLACES + CHANNEL


def drawn(*options, data=DRAWN.encode()):
    """The picture as XML, what was written beside it, and the bytes."""
    with folder() as made:
        status, out, said = command("map", "--geojson", f"{made}/g", "--vtk", f"{made}/v", "--run", RUN, *options, data=data)
        equal((status, said), (0, ""), f"{options}")
        with open(f"{made}/g") as file, open(f"{made}/v") as other:
            return xml.fromstring(out), json.load(file), vtk_of(other.read())


def vtk_of(text):
    """A small reader of legacy VTK, by the file format's own words: points, shapes as lists of points, and data by name."""
    lines = text.splitlines()
    holds(lines[0].startswith("# vtk DataFile Version") and len(lines[1]) <= 256 and lines[2:4] == ["ASCII", "DATASET POLYDATA"], "the head")
    words, found = " ".join(lines[4:]).split(), {"shapes": [], "data": {}}
    at = 0

    def take(number):
        nonlocal at
        at += number
        return words[at - number:at]

    while at < len(words):
        word = take(1)[0]
        if word == "POINTS":
            number, kind = take(2)
            values = list(map(float, take(3 * int(number))))
            found["points"] = [tuple(values[i:i + 3]) for i in range(0, len(values), 3)]
            equal(kind, "double", "the points' kind")
        elif word in ("VERTICES", "POLYGONS"):
            number, size = map(int, take(2))
            end = at + size
            for _ in range(number):
                found["shapes"].append([found["points"][int(point)] for point in take(int(take(1)[0]))])
            equal(at, end, f"the size of {word}")
        elif word == "CELL_DATA":
            equal(int(take(1)[0]), len(found["shapes"]), "data for each shape")
        else:
            equal(word, "SCALARS", "a word of the format")
            name, kind, parts = take(3)
            equal((kind, parts, take(2)), ("int", "1", ["LOOKUP_TABLE", "default"]), "the kind of the data")
            found["data"][name] = list(map(int, take(len(found["shapes"]))))
    return found


VTK_READS = """import sys, vtk
reader = vtk.vtkPolyDataReader()
reader.SetFileName(sys.argv[1])
reader.ReadAllScalarsOn()
reader.Update()
data = reader.GetOutput().GetCellData()
columns = [data.GetArray(place) for place in range(data.GetNumberOfArrays())]
print({column.GetName(): [int(column.GetTuple1(row)) for row in range(column.GetNumberOfTuples())] for column in columns})"""


class Map(unittest.TestCase):
    def test_the_channel(self):
        """q by colour after each step, in one scale; outlines where the ends enclose a centre, else a disc."""
        picture, shapes, vtk = drawn("--steps", "0,1,last")
        groups = [group for group in picture.iter(f"{SVG}g") if group.get("class") == "map"]
        equal([group.find(f"{SVG}title").text for group in groups], ["step 0, 0 h", "step 1, 6 h", "step 2, 12 h"], "maps")
        for group, values in zip(groups, ([1000, 0, 0], [1000, 499, 0], [1000, 811, 187])):
            cells = [shape for shape in group if shape.get("class") == "cell"]
            equal([shape.tag for shape in cells], [f"{SVG}polygon", f"{SVG}polygon", f"{SVG}circle"], "outlines and discs")
            equal([shape.find(f"{SVG}title").text for shape in cells], [f"{name}: q {q:,}" for name, q in zip(("cell 0 (Inlet)", "cell 1", "cell 2"),
                                                                                                              values)],
                  "titles")
            equal([shape.get("fill") for shape in cells], [maps.shade(q / 1000) for q in values], "colours, up to 1,000 kg/m³")
            holds("Inlet" in [text.text for text in group.iter(f"{SVG}text")], "names")
        texts = [text.text for text in picture.iter(f"{SVG}text")]
        holds("Concentration q, kg/m³" in texts and "1,000" in texts, f"the legend: {texts}")
        cells = [feature for feature in shapes["features"] if "cell" in feature["properties"]]
        equal([feature["geometry"]["type"] for feature in cells], ["Polygon", "Polygon", "Point"], "GeoJSON's shapes")
        ring = cells[0]["geometry"]["coordinates"][0]
        equal((ring[0], sorted(map(tuple, ring[1:]))), (ring[-1], [(0, 0), (0, 1), (1, 0), (1, 1)]), "a closed ring")
        holds(sum(a[0] * b[1] - b[0] * a[1] for a, b in zip(ring, ring[1:])) > 0, "counterclockwise, as GeoJSON wants it")
        equal([feature["properties"] for feature in cells], [{"cell": cell, "name": "Inlet" if cell == 0 else "", "volume": 100, "q_0": a, "q_1": b,
                                                              "q_2": c}
                                                            for cell, (a, b, c) in enumerate(zip([1000, 0, 0], [1000, 499, 0], [1000, 811, 187]))],
              "properties")
        lines = [feature for feature in shapes["features"] if "face" in feature["properties"]]
        equal(lines[0], {"type": "Feature", "geometry": {"type": "LineString", "coordinates": [[0, 0], [0, 1]]},
                         "properties": {"face": 0, "name": "the sea", "from": 0, "to": "rim"}}, "a face")
        equal((vtk["data"], sorted(vtk["shapes"][1])),
              ({"cell": [2, 0, 1], "volume": [100] * 3, "q_0": [0, 1000, 0], "q_1": [0, 1000, 499], "q_2": [187, 1000, 811]},
              [(0, 0, 0), (0, 1, 0), (1, 0, 0), (1, 1, 0)]), "VTK")

    def test_stock_readers(self):
        """GeoJSON by GDAL's ogrinfo and VTK by its own library read what was written, where they are installed."""
        with folder() as made:
            equal(command("map", "--steps", "0,1,last", "--geojson", f"{made}/g.geojson", "--vtk", f"{made}/v.vtk", data=DRAWN.encode())[0], 0, "files")
            with open(f"{made}/v.vtk") as file:
                own = vtk_of(file.read())["data"]
            readers = [["ogrinfo", "-al", "-q", f"{made}/g.geojson"],
                       *([python, "-c", VTK_READS, f"{made}/v.vtk"] for python in (sys.executable, "/usr/bin/python3"))]
            found = [subprocess.run(reader, capture_output=True, check=False) for reader in readers if shutil.which(reader[0])]
        opened = [done.stdout.decode() for done in found if done.returncode == 0 and done.stdout]
        for told in opened:
            if told.startswith("{"):
                equal(ast.literal_eval(told), own, "cells by VTK's library")
            else:
                equal([re.findall(r"(?:q_2 \(Integer\) = )(\d+)", told), len(re.findall("POLYGON", told)), len(re.findall("POINT", told))],
                      [["1000", "811", "187"], 2, 1], "cells by GDAL")
        for done in found:
            holds(done.returncode == 0 or b"No module named 'vtk'" in done.stderr, f"{done.args[0]}: {done.stderr.decode()}")
        if not opened:
            print("neither GDAL nor VTK is here: the files are read by Python's json and by the reader of this test alone")

    def test_grid(self):
        """The survey's grid stands in GeoJSON where it is named, and only then."""
        _, shapes, _ = drawn("--crs", "EPSG:25832")
        equal(shapes.pop("crs"), {"type": "name", "properties": {"name": "urn:ogc:def:crs:EPSG::25832"}}, "the grid")
        equal(shapes, drawn()[1], "and nothing else is other")
        for wrong in ("25832", "EPSG:x", "EPSG:123456789", 'EPSG:1"'):
            refuses("a grid like EPSG:25832", "map", "--crs", wrong, data=DRAWN.encode(), status=2)

    def test_names(self):
        """On two lines where one has no room; of cells that lie close, numbers."""
        for places, words in ((DRAWN, ["Inlet", "1", "2"]),
                              (DRAWN.replace("name cell 0 Inlet", "name cell 0 Inlet of the western harbour"),
                               ["Inlet of the", "western harbour", "1", "2"]),
                              (DRAWN.replace("at cell 1 1.5 0.5", "at cell 1 0.52 0.5"), ["0", "1", "2"])):
            status, out, said = command("map", "--steps", "0", data=places.encode())
            equal((status, said), (0, ""), words)
            texts = [text.text for text in xml.fromstring(out).iter(f"{SVG}text") if text.get("paint-order")]
            equal(texts, words, "names")

    def test_the_bay(self):
        """The survey's coordinates come through to the map, with the figures of lagoon export."""
        with folder() as made:
            survey, session = f"{made}/bay.txt", f"{made}/session.txt"
            examples = ROOT / "examples"
            equal(command("survey", examples / "bay-cells.csv", examples / "bay-faces.csv", "-o", survey)[0], 0, "the survey")
            equal(command("fluxes", survey, examples / "bay-water.csv", "--factor", "7.2", "--outside", "river=300", "--carry", "-o", session)[0], 0,
                  "the water")
            with open(session, "rb") as file:
                data = file.read()
        picture, shapes, vtk = drawn("--steps", "0,36", data=data)
        rows = list(csv.reader(io.StringIO(command("export", data=data)[1].decode())))
        q = {int(row[0]): list(map(int, row[3:])) for row in rows[1:]}
        cells = [feature["properties"] for feature in shapes["features"] if "cell" in feature["properties"]]
        equal([[cell["q_0"], cell["q_36"]] for cell in cells], [[a, b] for a, b in zip(q[0], q[36])], "q by export")
        equal([cell["name"] for cell in cells][:2], ["North inlet", "North basin"], "names")
        equal(sorted(zip(vtk["data"]["cell"], vtk["data"]["q_36"])), list(enumerate(q[36])), "VTK's data")
        equal(rows[37][1], "36 h", "the time of the table's row")

    def test_carried(self):
        """Places change no byte of a record, and are carried by a cut into the parts."""
        equal(sessiontext.pack(DRAWN)[0], sessiontext.pack(CHANNEL)[0], "the records")
        with folder() as made:
            labels = f"{made}/labels.csv"
            with open(labels, "w") as file:
                file.write("cell,label\n0,0\n1,1\n2,1\n")
            status, _, said = command("cut", "-", labels, "-o", f"{made}/west", f"{made}/east", data=DRAWN.encode())
            equal(status, 0, said)
            with open(f"{made}/east", "rb") as file:
                east = session_of(file.read()).labels
        equal((east.at["cell"], east.at["face"]), ({0: (1.5, 0.5), 1: (2.5, 0.5)}, {0: (1, 0, 1, 1), 1: (2, 0, 2, 1)}), "the places of the other part")

    def test_bad_use(self):
        known("map")
        interrupted("map")
        with folder() as made:
            path = f"{made}/session.txt"
            with open(path, "w") as file:
                file.write(DRAWN)
            breaks("map", path)
            refuses("is read", "map", path, "--vtk", path)
            refuses("cannot hold two outputs", "map", path, "--vtk", f"{made}/x", "--geojson", f"{made}/x")
        refuses("cell 0 has no place: lines `at cell N X Y` say where cells lie", "map", data=CHANNEL.encode())
        refuses("cell 2 has no place", "map", data=DRAWN.replace("at cell 2 2.5 0.5\n", "").encode())
        refuses("--steps: there is no step 3, the last is 2", "map", "--steps", "3", data=DRAWN.encode())
        refuses("'x' is neither a step nor 'last'", "map", "--steps", "x", data=DRAWN.encode())
        refuses("at most 12 steps", "map", "--steps", ",".join(["0"] * 13), data=DRAWN.encode())
        equal(drawn(data=DRAWN.replace("at cell 1 1.5 0.5", "at cell 1 0.5 0.5").replace("at cell 2 2.5 0.5", "at cell 2 0.5 0.5").encode())[1]["type"],
              "FeatureCollection",
              "all centres in one place")
        for bad, words in (("at cell 0 1", "the line ends where a coordinate should stand"), ("at cell 0 1 x", "a coordinate should be a number"),
                           ("at cell 9 1 1", "the mesh has no cell 9"),
                           ("at face 0 1 1 1", "the line ends"), ("at pond 0 1 1", "'cell' or 'face' should stand here"),
                           ("at cell 0 1 1 1", "nothing more should stand"),
                           ("at cell 0 1e10 1", "up to 1,000,000,000"), ("at cell 0 nan 1", "a coordinate should be a number"),
                           ("at cell 0 1 " + "9" * 400, "a coordinate")):
            refuses(words, "pack", data=(bad + "\n" + CHANNEL).encode())
        refuses("places stand before the steps", "pack", data=(CHANNEL + "at cell 0 1 1\n").encode())
        refuses("the time of a step stands before its faces", "pack", data=(CHANNEL + "time 3\n").encode())
        refuses("the line ends where a time should stand", "pack", data=(CHANNEL + "step\ntime\n").encode())


if __name__ == "__main__":
    unittest.main()
