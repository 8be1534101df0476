#!/usr/bin/env python3
"""lagoon charge: two months that hand remainders on, generated sessions and tariffs beside the reference, and what is refused.

    python3 tests/test_charge.py
"""

import csv
import io
import random
import re
import unittest

from toolcase import CHANNEL, ROOT, RUN, TIDE, breaks, command, equal, folder, holds, interrupted, known, refuses, session_of

import generate
import lagoon
import script
from package import calls, sessiontext
from package.command import Bad
from package.layout import Damage

SESSION, TARIFF, PORTS = (ROOT / "examples" / name for name in ("tide.txt", "tariff.csv", "ports.csv"))
LAST, UNITS = lagoon.LAST_END, lagoon.UNITS

JUNE = """\
49 steps, 48 accepted and added, 1 refused and not added
  step 25: cell 0: 300 enters, 299 leaves (cause 9)

Harbour company, face 0 (sea): 270,312,000 moved outward
                                       mass  price          cents
  up to 100,000,000             100,000,000     35   3,500.000000
  up to 250,000,000             150,000,000     42   6,300.000000
  up to 1,099,511,627,776        20,312,000     55   1,117.160000
  sum                                               10,917.160000
  remainder of the last period                           0.000000
  to pay                                            10,917.000000
  remainder to hand on                                   0.160000

River board, face 8 (river): 1,851,900 moved outward
                                     mass  price      cents
  up to 100,000,000             1,851,900     35  64.816500
  sum                                             64.816500
  remainder of the last period                     0.000000
  to pay                                          64.000000
  remainder to hand on                             0.816500

Harbour company pays 10,917 cents
River board pays 64 cents
all rim faces together: 272,163,900, the out-masses of 48 accepted steps: the bill closes with the budget
"""


class Files:
    """A folder with the inputs of the tool, given as text or bytes."""

    def __init__(self, made):
        self.made = made

    def path(self, name, text):
        with open(f"{self.made}/{name}", "wb") as file:
            file.write(text if isinstance(text, bytes) else text.encode())
        return f"{self.made}/{name}"

    def charge(self, session, tariff, ports, *options):
        given = [self.path(name, text) for name, text in (("session", session), ("tariff.csv", tariff), ("ports.csv", ports))]
        status, out, said = command("charge", *given, *options)
        return status, out.decode(), said.replace(self.made + "/", "")

    def rows(self, name):
        with open(f"{self.made}/{name}") as file:
            return list(csv.DictReader(file))


def totals_of(session):
    """The period's totals and out-mass by the reference's steps and addings."""
    mesh, engine = session.mesh, script.Engine(lagoon)
    cells, faces, masses = len(mesh.volumes), len(mesh.faces), list(session.masses)
    columns = [list(mesh.volumes), *([face[column] for face in mesh.faces] for column in range(4))]
    totals, out = [0] * faces, 0
    for _, damage in session.steps():
        try:
            if damage:
                raise damage
            fluxes, outsides, releases = calls.water(mesh, session.source.step(mesh))
            following, moved = [0] * cells, [0] * faces
            answer = engine.step(cells, faces, *columns, masses, fluxes, outsides, following, moved, [0] * (4 * cells + faces), releases)
        except (Damage, lagoon.Refusal):
            continue
        engine.add(faces, columns[2], moved, totals)
        masses, out = following, out + answer[1]
    return totals, out


ONE = "mesh\ncell 0 volume 4095\nface 0 from 0 to rim\nface 1 from 0 to rim\nfield\ncell 0 mass 4095000000\n"
FLOW = "step times {}\nface 0 flux -4095 outside 1000000\nface 1 flux 4095\n"
FLAT = f"end,price\n{LAST},1000000\n"


class Charge(unittest.TestCase):
    def test_two_months(self):
        """The second month goes on from the last field and the remainders of the first, and no part of a cent is lost over both."""
        with folder() as made:
            files = Files(made)
            june = command("charge", SESSION, TARIFF, PORTS, "-o", f"{made}/june.csv", "--csv", f"{made}/june.bill")
            equal((june[0], june[2], june[1].decode().split("\n", 1)[1]), (0, "", JUNE), "June's bill")
            equal(open(f"{made}/june.csv").read(), "face,name,remainder\n0,sea,160000\n8,river,816500\n", "June's remainders")
            equal(command("budget", SESSION, "--field", f"{made}/june.field")[0], 0, "June's last field")
            july = command("charge", SESSION, TARIFF, PORTS, "--field", f"{made}/june.field", "--remainders", f"{made}/june.csv",
                           "-o", f"{made}/july.csv", "--csv", f"{made}/july.bill")
            equal((july[0], july[2]), (0, ""), "July's bill")
            prices = [(int(row["end"]), int(row["price"])) for row in csv.DictReader(open(TARIFF))]
            whole = command("pack", SESSION, "--field", f"{made}/june.field", "-o", f"{made}/july.in")
            equal(whole[0], 0, "July packed")
            for first, second, left in zip(*(files.rows(name) for name in ("june.bill", "july.bill", "july.csv")), strict=True):
                sums = [lagoon.band_sum(int(row["total"]), *zip(*prices)) for row in (first, second)]
                equal((int(first["cents"]) + int(second["cents"])) * UNITS + int(left["remainder"]), sum(sums), f"both months, face {first['face']}")
                equal((second["before"], left["remainder"]), (first["remainder"], second["remainder"]), "the remainder handed on")
                holds(int(first["total"]) != int(second["total"]), "the second month begins with another field")
                out = re.search(rf"out, face {second['face']} +- +([\d,]+)\n", command("budget", f"{made}/july.in")[1].decode())
                equal(int(out[1].replace(",", "")), int(second["total"]), "July's total and the budget's out-mass of the face")

    def test_beside_the_reference(self):
        """Totals, cents and remainders of generated sessions under generated tariffs."""
        rng, tried, refused, left = random.Random(13), 0, 0, 0
        for number in range(70):
            data = generate.session(37, number).data
            try:
                session = session_of(data)
            except Bad:
                continue
            rim = rng.sample(session.mesh.rim, rng.randint(0, len(session.mesh.rim)))
            if not rim:
                continue
            tried += 1
            totals, out = totals_of(session)
            bands = rng.randint(1, 8)
            ends = sorted(rng.sample(range(1, 1 + max(9, *totals)), bands - 1)) + [LAST]
            prices = [rng.choice((0, UNITS, rng.randint(0, UNITS))) for _ in ends]
            before = {face: rng.choice((0, UNITS - 1, rng.randrange(UNITS))) for face in rim if rng.random() < 0.7}
            with folder() as made:
                files = Files(made)
                given = files.path("before.csv", "face,remainder\n" + "".join(f"{face},{part}\n" for face, part in before.items()))
                status, report, said = files.charge(data, "end,price\n" + "".join(f"{end},{price}\n" for end, price in zip(ends, prices)),
                                                    "port,face\n" + "".join(f"P{face % 2},{face}\n" for face in rim), "--csv", f"{made}/bill.csv",
                                                    "-o", f"{made}/after.csv", *(["--remainders", given] if before else []))
                equal((status, said), (0, ""), f"session {number}")
                rows, after = files.rows("bill.csv"), files.rows("after.csv")
            for face, row in zip(rim, rows, strict=True):
                cents, part = lagoon.charge(totals[face], bands, ends, prices, before.get(face, 0))
                equal([int(row[word]) for word in ("face", "total", "before", "cents", "remainder")],
                      [face, totals[face], before.get(face, 0), cents, part],
                      f"session {number}")
                equal(sum(int(row[f"band {band} mass"]) for band in range(bands)), totals[face], f"session {number}, face {face}, masses of the bands")
                equal([int(row["remainder"]) for row in after if int(row["face"]) == face], [part], f"session {number}, face {face}, handed on")
                left += part
            holds(f"all rim faces together: {out:,}, the out-masses of" in report, f"session {number}: {out} should be in {report}")
            refused += "step " in report.split("\n\n")[0].split("\n", 2)[-1]
        holds(tried > 12 and refused > 3 and left, f"only {tried} sessions, {refused} with refused steps, {left} left over")

    def test_the_largest_total(self):
        """268 steps of the largest outflow fit within the last band, and one more does not."""
        with folder() as made:
            files = Files(made)
            status, out, _ = files.charge(ONE + FLOW.format(268), FLAT, "port,face\nP,1\n")
            holds(status == 0 and "P pays 1,097,460,000,000 cents\nall rim faces together: 1,097,460,000,000," in out, out)
            status, out, said = files.charge(ONE + FLOW.format(269), FLAT, "port,face\nP,1\n")
            equal((status, out, said), (1, "", "lagoon charge: step 269: face 1: 4,095,000,000 more than 1,097,460,000,000 is past 1,099,511,627,776 "
                                               "(cause 26): end the period before this step\n"), "a total past the last band")

    def test_faces_without_a_port(self):
        """What left there is named, and a remainder handed to it is handed on."""
        with folder() as made:
            files = Files(made)
            given = files.path("before.csv", "face;remainder;name\nriver;7;river\n")
            status, out, _ = files.charge(TIDE, TARIFF.read_text(), "port,face\nHarbour,face 0 (sea)\n", "--remainders", given, "-o", f"{made}/after.csv")
            holds(status == 0 and "no port pays for face 8 (river): 1,851,900 moved outward\n" in out, out)
            equal(open(f"{made}/after.csv").read(), "face,name,remainder\n0,sea,160000\n8,river,7\n", "remainders")
            status, out, said = files.charge(TIDE, TARIFF.read_text(), "port,face\nAll,sea\nAll,8\n", "--csv", "-")
            equal((status, "All pays 10,981 cents\n" in said, len(list(csv.DictReader(io.StringIO(out))))), (0, True, 2), said)

    def test_bad_tables(self):
        good, sea = "".join(open(TARIFF)), "port,face\nP,0\n"
        nine = "end,price\n" + "".join(f"{end},1\n" for end in range(1, 9)) + f"{LAST},1\n"
        with folder() as made:
            files = Files(made)
            for tariff, ports, words in (
                    (nine, sea, "tariff.csv: 9 bands, and a tariff has 1 to 8 (cause 25)"),
                                         ("end,price\n", sea, "tariff.csv: there is no row under the heading"),
                    (good.replace("100000000,", "0,"), sea, "tariff.csv:2: a band that ends at 0 and begins at 0 (cause 25)"),
                    (good.replace("250000000,", "100000000,"), sea, "tariff.csv:3: a band that ends at 100,000,000 and begins at 100,000,000 (cause 25)"),
                    (good.replace(str(LAST), str(LAST - 1)), sea,
                     "tariff.csv:4: the last band ends at 1,099,511,627,775, not at 1,099,511,627,776 (cause 25)"),
                    (good.replace(",42", ",1000001"), sea, "tariff.csv:3: a price of 1,000,001, above 1,000,000 (cause 25)"),
                    (good.replace(",42", ",-1"), sea, "tariff.csv:3: price should be a whole number from 0"),
                    (good.replace("price", "cost"), sea, "one column 'price'"),
                    (good, "port,face\nP,ocean\n", "ports.csv:2: 'ocean' is no face of the mesh (0 to 8) nor the name of one"),
                    (good, "port,face\nP,1\n", "ports.csv:2: face 1 is not at the rim"), (good, sea + "Q,sea\n",
                                                                                          "ports.csv:3: face 0 (sea) has a port already"),
                    (good, "port,face\n,sea\n", "ports.csv:2: port should be a name, not ''")):
                status, out, said = files.charge(TIDE, tariff, ports)
                holds((status, out) == (1, "") and words in said and said.count("\n") == 1, f"{tariff} {ports}: '{words}' should be in '{said}'")
            for before, words in (("face,remainder\n0,1000000\n", "a remainder of 1,000,000, and it is below 1,000,000 (cause 25)"),
                                  ("face,remainder\n0,0.5\n", "before.csv:2: remainder should be a whole number"),
                                  ("face,remainder\n0,1\nsea,1\n", "before.csv:3: a second remainder of face 0 (sea)"),
                                  ("face,name,remainder\n0,river,1\n", "before.csv:2: face 0 is called 'river' here and 'sea' in the session")):
                status, out, said = files.charge(TIDE, good, sea, "--remainders", files.path("before.csv", before))
                holds((status, out) == (1, "") and words in said and said.count("\n") == 1, f"{before}: '{words}' should be in '{said}'")

    def test_an_engine_that_differs(self):
        """Answers that the bands, the budget or the words do not come to are said."""
        with folder() as made:
            files = Files(made)
            step = "step: accepted 50000 {} 0; next 100099 49901 0; moved -50000 49901 0 {}; work 0"
            for answers, words in (((step.format(5, 0),), "in, out and released are (50000, 5, 0) by the engine, (50000, 0, 0) by faces and cells"),
                                   ((step.format(5, 5), "add: accepted; totals 0 0 0 4"),
                                    "the totals of all faces are 4, the out-masses of the accepted steps 5"),
                                   ((step.format(5, 5), "add: accepted; totals 0 1 0 4"),
                                    "the totals of all faces are 5, the out-masses of the accepted steps 5"),
                                   ((step.format(5, 5), "add: accepted; totals 0 0 0 5", "charge: accepted 4 0"),
                                    "cents and remainder are (4, 0) by the engine, (5, 0) by the bands"),
                                   ((step.format(5, 5), "add: accepted; totals 0 0 0 5", "charge: refused 26 0"),
                                    "the engine refuses the charge by cause 26, place 0")):
                program = files.path("calls", "#!/bin/sh\n" + "".join(f"read script\necho '{answer}'\n" for answer in answers))
                (ROOT / program).chmod(0o700)
                status, out, said = files.charge(CHANNEL.replace("times 2", "times 1"), FLAT, "port,face\nP,3\n", "--calls", program)
                holds((status, out) == (1, "") and words in said and said.count("\n") == 1, f"{answers}: '{words}' should be in '{said}'")

    def test_the_command(self):
        known("charge")
        breaks("charge", SESSION, TARIFF, PORTS)
        interrupted("charge", SESSION, "-", PORTS)
        refuses("is read", "charge", SESSION, TARIFF, PORTS, "-o", PORTS)
        refuses("cannot both be standard output", "charge", SESSION, TARIFF, PORTS, "-o", "-", "--csv", "-")
        refuses("only one input", "charge", "-", "-", PORTS)
        refuses("nowhere: No such file", "charge", SESSION, TARIFF, "nowhere")
        refuses("nowhere is not there: `make calls` makes it", "charge", SESSION, TARIFF, PORTS, "--calls", "nowhere")
        refuses("asked for step, says 'M 13 0'", "charge", SESSION, TARIFF, PORTS, "--calls", RUN)
        refuses("the field is refused", "charge", SESSION, TARIFF, PORTS, "--field", TARIFF)
        packed, _ = sessiontext.pack(TIDE)
        refuses("ports.csv:2: 'sea' is no face", "charge", "-", TARIFF, PORTS, data=packed)


if __name__ == "__main__":
    unittest.main()
