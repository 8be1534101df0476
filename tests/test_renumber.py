#!/usr/bin/env python3
"""lagoon renumber beside the reference: sessions in two numberings, the way back, and what it refuses.

    python3 tests/test_renumber.py
"""

import csv
import io
import unittest

from toolcase import CHANNEL, ROOT, TIDE, breaks, command, equal, folder, holds, interrupted, known, refuses, session_of

import generate
import lagoon
from package import layout

OTHER = ("--cells", "2,1,0", "--faces", "3,2,1,0", "--turn", "1,2")


def packed(text):
    status, out, said = command("pack", data=text.encode())
    equal((status, said), (0, ""), "packing")
    return out


def renumbered(*options, data):
    status, out, said = command("renumber", *options, data=data)
    equal((status, said), (0, ""), f"{options}")
    return out


class Renumber(unittest.TestCase):
    def test_the_channel(self):
        """The channel from its other end, both inner faces turned: share and fluxes, and the outside value at the new face 3."""
        out = renumbered(*OTHER, data=CHANNEL.encode())
        text = command("unpack", data=out)[1].decode()
        for line in ("face 0 from 0 to rim", "face 1 from 0 to 1 share 128 reach 100", "face 2 from 1 to 2 share 128 reach 100", "face 3 from 2 to rim",
                     "cell 2 mass 100000", "face 0 flux 50", "face 1 flux -50", "face 2 flux -50", "face 3 flux -50 outside 1000"):
            holds(line + "\n" in text, f"'{line}' in {text}")
        lines = lagoon.run(out).splitlines()
        equal(lines[-3:], ["B 2 1000 99", "B 1 811 88", "B 0 187 13"], "the board by the new numbers")

    def test_wide_records(self):
        """They stay wide, small values or not."""
        for text in (CHANNEL.replace("mesh", "mesh wide", 1), CHANNEL.replace("volume 100", "volume 65535") + "step\ncell 1 release 4294967296\n"):
            data = packed(text)
            there = renumbered(*OTHER, data=data)
            mine, other = (session_of(each) for each in (data, there))
            equal((other.mesh.widths, [layout.kind_of(record) for record, _ in other.steps()]),
                  (layout.WIDE, [layout.kind_of(record) for record, _ in mine.steps()]), "kinds of the records")
            equal(renumbered("--cells", "2,1,0", "--faces", "3,2,1,0", "--turn", "1,2", data=there), data, "the way back")

    def test_a_share(self):
        """An inner face nearer to its first cell is nearer to its second when it is turned."""
        text = CHANNEL.replace("face 1 from 0 to 1 share 128", "face 1 from 0 to 1 share 3")
        holds(text != CHANNEL, "the channel has that face")
        mesh = session_of(renumbered("--turn", "1", data=text.encode())).mesh
        equal(mesh.faces[1], (1, 0, 253, 100), "the turned face")
        equal([face.share for face in mesh.faces], [0, 253, 128, 0], "the other shares")

    def test_the_way_back(self):
        """The lists that undo a numbering give the same bytes again, and so does turning twice."""
        data = packed(TIDE)
        with folder() as place:
            table = f"{place}/map.csv"
            there = renumbered("--seed", "11", "--turn", "some", "--map", table, data=data)
            rows = list(csv.DictReader(io.StringIO(open(table).read())))
        holds(there != data, "another numbering")
        lists = {}
        for kind in ("cell", "face"):
            mine = [row for row in rows if row["kind"] == kind]
            back = {int(row["new"]): row["old"] for row in mine}
            lists[kind] = ",".join(back[number] for number in range(len(mine)))
        turned = ",".join(row["new"] for row in rows if row["turned"])
        holds(turned, "some faces are turned")
        equal(renumbered("--cells", lists["cell"], "--faces", lists["face"], "--turn", turned, data=there), data, "the way back")
        equal(renumbered("--seed", "11", "--turn", "some", data=data), there, "the same seed")

    def test_beside_the_reference(self):
        """Generated sessions print the same in both numberings, but for places and for the cells of the board."""
        accepted = refused = outfalls = wide = 0
        for number in range(60):
            data = generate.session(31, number).data
            status, out, said = command("renumber", "--seed", number, "--turn", "some", data=data)
            first = lagoon.run(data).splitlines()
            if first[0][0] in "MF":
                holds(status == 1 and f"(cause {first[0].split()[1]})" in said, f"session {number}: {first[0]} {said}")
                continue
            equal(out[0] >> 4, data[0] >> 4, f"session {number}, the kind of its mesh")
            second, wide = lagoon.run(out).splitlines(), wide + (data[0] >> 4 == layout.WIDE.mesh)
            equal(len(second), len(first), f"session {number}, lines")
            for line, other in zip(map(str.split, first), map(str.split, second)):
                if line[0] == "B":
                    equal(other[2], line[2], f"session {number}, the board")
                elif line[1] == "R":
                    equal(other[:3], line[:3], f"session {number}, a refused step")
                    refused += 1
                else:
                    equal(other, line, f"session {number}, an accepted step")
                    accepted, outfalls = accepted + 1, outfalls + (line[-1] != "0")
        holds(accepted > 100 and refused > 20 and outfalls > 10 and wide > 5,
              f"{accepted} accepted, {refused} refused, {outfalls} with releases, {wide} sessions of wide records")

    def test_a_step_that_does_not_read(self):
        """It stays as it is, and is said; a next record still follows after a wrong bit."""
        text = CHANNEL.replace("flux -50", "flux -0", 1)
        status, out, said = command("renumber", *OTHER, data=text.encode())
        equal(status, 0, said)
        holds("step 1 does not read (a minus with size 0; cause 12)" in said, said)
        equal([line[:6] for line in lagoon.run(out).splitlines() if " R " in line][0], "1 R 12", "the run's refusal")

    def test_refusals(self):
        channel = CHANNEL.encode()
        refuses("give --cells, --faces, --seed or --turn", "renumber", data=channel, status=2)
        refuses("--cells needs each number from 0 to 2 once: the mesh has 3 cells", "renumber", "--cells", "0,1", data=channel)
        refuses("--faces needs each number from 0 to 3 once: the mesh has 4 faces", "renumber", "--faces", "0,1,2,2", data=channel)
        refuses("--turn 0: a rim face is not turned", "renumber", "--turn", "1,0", data=channel)
        refuses("--turn 4: the mesh has 4 faces", "renumber", "--turn", "4", data=channel)
        refuses("--turn some needs --seed", "renumber", "--turn", "some", data=channel)
        refuses("a whole number from 0 to 8191, not 'x'", "renumber", "--cells", "0,x", data=channel, status=2)
        refuses("the mesh is refused", "renumber", "--seed", "1", data=CHANNEL.replace("volume 100", "volume 0", 1).encode())

    def test_as_every_tool(self):
        known("renumber")
        breaks("renumber", ROOT / "examples" / "tide.txt", "--seed", "1")
        interrupted("renumber", "--seed", "1")
        with folder() as place:
            path = f"{place}/session.txt"
            with open(path, "w") as file:
                file.write(CHANNEL)
            refuses("is read: it cannot be written too", "renumber", path, "--seed", "1", "-o", path)


if __name__ == "__main__":
    unittest.main()
