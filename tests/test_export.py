#!/usr/bin/env python3
"""lagoon export: q and masses of all cells over all steps beside the reference, wide and long, with names, times and refusals.

    python3 tests/test_export.py
"""

import csv
import io
import unittest

from toolcase import CHANNEL, ROOT, RUN, TIDE, breaks, command, equal, folder, holds, interrupted, known, refuses

import generate
import lagoon
from package import sessiontext


def table(*arguments, data):
    status, out, said = command("export", *arguments, data=data)
    equal((status, said), (0, ""), f"{arguments}")
    return list(csv.reader(io.StringIO(out.decode())))


def fields(data):
    """Volumes, and masses and cause after each step, by the reference."""
    cells, faces, wide = lagoon.mesh_head(data[:4], lagoon.RUN_LIMITS)
    at = lagoon.mesh_length(cells, faces, wide)
    mesh, length = lagoon.accept_mesh(data[:at]), lagoon.field_length(cells, wide)
    masses = lagoon.accept_field(data[at:at + length], mesh, wide)
    data, found = data[at + length:], [(masses, "")]
    while data:
        length, cause = lagoon.step_ends(data, mesh, wide), ""
        try:
            masses = lagoon.accept_step(data[:length], mesh, masses, wide).masses
        except lagoon.Refusal as refusal:
            cause = str(refusal.cause)
        found.append((masses, cause))
        if cause in ("11", "13"):
            break
        data = data[length:]
    return mesh.volumes, found


class Export(unittest.TestCase):
    def test_beside_the_reference(self):
        """Every figure of generated sessions, wide with q, wide with masses, and long."""
        tried = 0
        for number in range(30):
            data = generate.session(41, number).data
            if lagoon.run(data)[0] in "MF":
                continue
            tried += 1
            volumes, found = fields(data)
            head = ["step", "time", "cause"]
            cells = [f"cell {cell}" for cell in range(len(volumes))]
            rows = [[str(step), "", cause, *(str(mass // volume) for mass, volume in zip(masses, volumes))] for step, (masses, cause) in enumerate(found)]
            equal(table(data=data), [head + cells, *rows], f"session {number}, q")
            equal([row[3:] for row in table("--mass", data=data)[1:]], [list(map(str, masses)) for masses, _ in found], f"session {number}, masses")
            long = [[str(step), "", cause, str(cell), "", str(mass // volume), str(mass % volume), str(mass)]
                    for step, (masses, cause) in enumerate(found) for cell, (mass, volume) in enumerate(zip(masses, volumes))]
            equal(table("--long", data=data), [[*head, "cell", "name", "q", "rest", "mass"], *long], f"session {number}, long")
        holds(tried > 10, f"only {tried} sessions")

    def test_names_times_and_steps(self):
        named = CHANNEL.replace("mesh", "unit step 30 min\nname cell 1 Bay, inner\nmesh", 1)
        rows = table("--run", RUN, data=named.encode())
        equal(rows, [["step", "time", "cause", "cell 0", "cell 1 (Bay, inner)", "cell 2"], ["0", "0 h", "", "1000", "0", "0"],
                     ["1", "0.5 h", "", "1000", "499", "0"], ["2", "1 h", "", "1000", "811", "187"]], "names and times")
        equal([row[3:] for row in table("--cells", '"Bay, inner",0', data=named.encode())[1:]], [["0", "1000"], ["499", "1000"], ["811", "1000"]],
              "some cells")
        equal([row[0] for row in table("--every", "20", data=TIDE.encode())], ["step", "0", "20", "40", "49"], "every 20th step and the last")
        equal([row[2] for row in table(data=TIDE.encode())[25:28]], ["", "9", ""], "the refused step has its cause")
        equal(table(data=sessiontext.pack(CHANNEL[:CHANNEL.index("\nstep")])[0])[1:], [["0", "", "", "1000", "0", "0"]], "a session without steps")
        with folder() as made:
            equal(table("-o", f"{made}/all.csv", data=CHANNEL.encode()), [], "nothing on standard output")
            with open(f"{made}/all.csv") as file:
                equal(file.read(), command("export", data=CHANNEL.encode())[1].decode(), "the file")

    def test_the_command(self):
        known("export")
        breaks("export", ROOT / "examples" / "channel.txt")
        interrupted("export")
        refuses("'x' is no cell", "export", "--cells", "x", data=CHANNEL.encode())
        refuses("--long has q, rest and mass", "export", "--long", "--mass", data=CHANNEL.encode())
        refuses("the field is refused", "export", data=CHANNEL.replace("cell 1 mass 0", "cell 1 mass 100000100").encode())


if __name__ == "__main__":
    unittest.main()
