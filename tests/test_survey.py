#!/usr/bin/env python3
"""lagoon survey on the bay's tables and on bad ones; and docs/SURVEY-TO-SESSION.md, whose commands are run and print what it shows.

    python3 tests/test_survey.py            tests
    python3 tests/test_survey.py --write    puts into the page what its commands print
"""

import re
import subprocess
import sys
import unittest

from toolcase import ROOT, breaks, command, equal, folder, holds, interrupted, known, refuses, session_of

PAGE = ROOT / "docs" / "SURVEY-TO-SESSION.md"
CELLS, FACES = ROOT / "examples" / "bay-cells.csv", ROOT / "examples" / "bay-faces.csv"
COMMANDS = 13


def printed(block):
    """A block with each command followed by what it prints, standard error included."""
    lines = []
    for line in block.splitlines():
        if line.startswith("$ "):
            done = subprocess.run(["bash", "-c", line[2:]], cwd=ROOT, stdout=subprocess.PIPE, stderr=subprocess.STDOUT, check=False)
            equal(done.returncode, 0, f"{PAGE.name}: {line}\n{done.stdout.decode()}")
            lines += [line, *done.stdout.decode().splitlines()]
    return "".join(line + "\n" for line in lines)


def worked(page):
    return re.sub(r"(?<=^```\n)\$ .*?(?=^```$)", lambda found: printed(found[0]), page, flags=re.MULTILINE | re.DOTALL)


def whole(cells, faces, *options, wanted=0):
    with folder() as made:
        for name, text in (("cells", cells), ("faces", faces)):
            with open(f"{made}/{name}", "w") as file:
                file.write(text)
        status, out, said = command("survey", f"{made}/cells", f"{made}/faces", *options)
    equal(status, wanted, said)
    return out.decode(), said


TWO = "cell,volume,salt\na,1000,35000\nb,400,100.5\n"
ONE = "face,from,to,area,way,distance\nf,a,b,10,30,40\ng,b,rim,,,\n"


POINTS = "face,from,to,area,x1,y1,x2,y2,first x,first y,second x,second y\nf,a,b,10,0,-2,0,2,-30,0,10,0\ng,b,rim,,,,,,,,,\n"


class Survey(unittest.TestCase):
    def test_the_page(self):
        page = PAGE.read_text()
        equal(len(re.findall(r"^\$ ", page, re.MULTILINE)), COMMANDS, "commands of the page")
        again = worked(page)
        for number, (has, wanted) in enumerate(zip(page.splitlines(), again.splitlines()), 1):
            equal(has, wanted, f"{PAGE.name}:{number}, shown and printed")
        equal(again, page, "the page with what its commands print")
        equal((ROOT / "target" / "bay" / "map.svg").read_text() == (ROOT / "docs" / "bay-map.svg").read_text(), True,
              "docs/bay-map.svg is what the page makes")
        svg = (ROOT / "target" / "bay" / "bay.svg").read_text()
        holds(all(name in svg for name in ("North basin", "River mouth", "kg/m³", "hours")), "names, units and hours in the picture")

    def test_figures(self):
        """Volumes, shares, reaches and masses by the formulas of the page, with the unit given and with the unit chosen."""
        text, said = whole(TWO, ONE, "--volume-unit", "2", "--salt-unit", "0.5")
        session = session_of(text.encode())
        equal((session.mesh.volumes, [tuple(face) for face in session.mesh.faces], session.masses),
              ([500, 200], [(0, 1, 192, 200), (1, 4095, 0, 0)], [35000000, 40200]), "mesh and field")
        equal((session.labels.of("cell", 1), session.labels.of("face", 1), session.labels.units),
              ("cell 1 (b)", "face 1 (g)", {"volume": "2 m3", "mass": "1 g"}),
              "labels")
        holds("--outside-factor 2" in said and "--factor 0.5 times the seconds" in said, said)
        for volume, unit in ((4095, 1), (4096, 2), (8191, 5), (20475, 5), (20476, 10)):
            text, _ = whole(TWO.replace("1000", str(volume)), ONE)
            holds(text.startswith(f"unit volume {unit} m3\n"), f"the unit for {volume}: {text[:20]}")
        for volume, unit in ((65535, 1), (65536, 2), (131071, 5), (327676, 10)):
            text, _ = whole(TWO.replace("1000", str(volume)), ONE, "--wide")
            holds(text.startswith(f"unit volume {unit} m3\n"), f"the unit for {volume}, wide: {text[:20]}")
        text, _ = whole(TWO.replace("1000", "65535"), ONE, "--volume-unit", "1")
        equal(session_of(text.encode()).mesh.volumes, [65535, 400], "a unit that is given, up to the ceiling")
        equal(whole(TWO.replace(",", ";").replace("100.5", "100,5"), ONE, "--volume-unit", "2")[0], whole(TWO, ONE, "--volume-unit", "2")[0], "semicolons")

    def test_salt(self):
        """By the heading of its column; where that says nothing, small figures are noticed, and what rounding does to them is said."""
        for heading, salt, q in (("salt", "34800", 34800), ("salt g/m3", "34800", 34800), ("salt kg/m3", "34.8", 34800), ("Salt (kg/m³)", "34.8", 34800),
                                 ("salt [g/l]", "34.8", 34800), ("salt psu", "35", 35931), ("salt mg/l", "34800.9", 34800)):
            text, said = whole(TWO.replace("salt", heading).replace("35000", salt).replace("100.5", "0"), ONE, "--volume-unit", "1")
            equal(session_of(text.encode()).masses[0] // 1000, q, f"{heading} {salt}")
            holds("looks like" not in said, said)
        _, said = whole(TWO.replace("35000", "34.8").replace("100.5", "4.9"), ONE)
        holds("a first q by 18.4 %" in said, said)
        holds("note: salt up to 34.8 is taken as g/m3 and looks like kg/m3 or PSU: head the column `salt kg/m3`" in said, said)
        _, said = whole(TWO.replace("35000", "34.8").replace("100.5", "4.9"), ONE, "--salt-unit", "0.001")
        holds("a first q by 0 %" in said, said)

    def test_places(self):
        """Centres and ends are kept in the text, from the table of the cells or of the faces; centres that differ are said."""
        text, _ = whole(TWO, POINTS.replace("g,b,rim,,,,,,,,,", "g,b,rim,,20,-2,20,2,,,,"), "--volume-unit", "2")
        labels = session_of(text.encode()).labels
        equal((labels.at["cell"], labels.at["face"]), ({0: (-30, 0), 1: (10, 0)}, {0: (0, -2, 0, 2), 1: (20, -2, 20, 2)}), "from the faces")
        text, said = whole("cell,volume,salt,x,y\na,1000,35000,1.5,2\nb,400,100.5,,\n", ONE, "--volume-unit", "2")
        equal((session_of(text.encode()).labels.at["cell"], "note" in said), ({0: (1.5, 2)}, False), "from the cells")
        text, said = whole("cell,volume,salt,x,y\na,1000,35000,-33,0\nb,400,100.5,10,0.5\n", POINTS, "--volume-unit", "2")
        equal(session_of(text.encode()).labels.at["cell"], {0: (-33, 0), 1: (10, 0.5)}, "the first is kept")
        equal([line for line in said.splitlines() if "note" in line],
              ["note: cell 'a' lies at -33, 0 and by another row at -30, 0: the first is kept for the map"], "and what differs is said")
        equal(whole(TWO, ONE)[0].count("at "), 0, "no coordinates, no places")

    def test_points(self):
        """Shares from coordinates, by S-7: 30 of 40 metres is 192 of 256, and what is refused names its column."""
        session = session_of(whole(TWO, POINTS, "--volume-unit", "2")[0].encode())
        equal([tuple(face) for face in session.mesh.faces], [(0, 1, 192, 200), (1, 4095, 0, 0)], "faces from points")
        for face, words in (("0,-2,0,2,-30,0,10,0", "share 192"), ("0,-2,0,2,-30,0,9.99,0", "share 192"), ("0,-2,0,2,-30,0,10.01,0", "share 191"),
                            ("0,-2,0,2,-1,0,255,9", "share 1 "), ("0,-2,0,2,-255,1,1,0", "share 255"), ("1e6,0,1e6,-1,999999,0,999997,0", "share 64")):
            text, _ = whole(TWO, POINTS.replace("0,-2,0,2,-30,0,10,0", face), "--volume-unit", "1")
            holds(words in text, f"{face}: '{words}' should be in '{text}'")
        for face, words in (("0,-2,0,2,-1,0,256,0", "cause 20"), ("0,-2,0,2,-1,0,0,5", "cause 20"), ("0,2,0,2,-1,0,1,0", "cause 20"),
                            ("1000001,-2,0,2,-1,0,1,0", "x1 1000001.0 is not within 1,000,000 (cause 19)"), ("0,-2,0,2,-1,0,1,inf", "second y inf"),
                            ("0,-2,0,,-1,0,1,0", "y2 nan")):
            _, said = whole(TWO, POINTS.replace("0,-2,0,2,-30,0,10,0", face), wanted=1)
            holds(words in said and said.count("\n") == 1, f"'{words}' should be in '{said}'")

    def test_bad_surveys(self):
        for cells, faces, words in (("", ONE, "should have one column 'cell'"), (TWO.replace("salt", "sand"), ONE, "should have one column 'salt'"),
                                    ("cell,volume,salt\n", ONE, "no row under the heading"),
                                    (TWO.replace("\nb", "\na"), ONE, ":3: a second cell called 'a'"),
                                    (TWO.replace("400", "x"), ONE, ":3: volume should be a number above 0, not 'x'"),
                                    (TWO.replace("400", "0"), ONE, "volume should be a number above 0"),
                                    (TWO.replace("400", "0.1"), ONE, "take a smaller unit of volume"),
                                    (TWO.replace("35000", "2000000"), ONE, "take a larger unit of salt"),
                                    (TWO, ONE.replace("a,b", "a,c"), ":2: to: 'c' is no cell"),
                                    (TWO, ONE.replace("a,b", "rim,b"), "is no cell (the rim stands second)"),
                                    (TWO, ONE.replace("a,b", "a,a"), "it joins cell 0 to itself"),
                                    (TWO, ONE.replace("30,40", "40,40"), "should be less than the distance"),
                                    (TWO, ONE.replace("10,30", ",30"), "area should be a number"),
                                    (TWO, ONE.replace("10,30", "nan,30"), "area should be a number"),
                                    (TWO.replace("\nb", "\n\x1b#"), ONE, r"should be a name, not '\x1b#'")):
            _, said = whole(cells, faces, wanted=1)
            holds(words in said and said.count("\n") == 1, f"'{words}' should be in '{said}'")
        _, said = whole(TWO, ONE, "--volume-unit", "0.01", wanted=1)
        holds("is 1e+05 units, outside 1 to 65,535: take a larger unit of volume" in said, said)

    def test_the_command(self):
        known("survey")
        breaks("survey", CELLS, FACES)
        interrupted("survey", CELLS, "-")
        refuses("is read", "survey", CELLS, FACES, "-o", FACES)
        refuses("nowhere: No such file", "survey", "nowhere", FACES)
        refuses("a number above 0, not 'x'", "survey", CELLS, FACES, "--volume-unit", "x", status=2)


if __name__ == "__main__":
    if "--write" in sys.argv:
        PAGE.write_text(worked(PAGE.read_text()))
        (ROOT / "docs" / "bay-map.svg").write_text((ROOT / "target" / "bay" / "map.svg").read_text())
    else:
        unittest.main()
