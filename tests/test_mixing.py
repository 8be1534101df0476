#!/usr/bin/env python3
"""examples/mixing.txt, what two opposite faces between a pair of cells mix, and the table of docs/ACCURACY.md about it.

    python3 tests/test_mixing.py
"""

import random
import re
import subprocess
import unittest

from toolcase import ROOT, RUN, command, equal, holds

PAGE = ROOT / "docs" / "ACCURACY.md"
EXAMPLE = (ROOT / "examples" / "mixing.txt").read_text()
YEAR = 24 * 365


def ran(text):
    """The lines that the run program prints of a session."""
    status, data, said = command("pack", data=text.encode())
    equal((status, said), (0, ""), "packing")
    return subprocess.run([RUN], input=data, capture_output=True, check=True).stdout.decode().splitlines()


def masses(lines, volumes):
    """The last masses, by the board."""
    found = [line.split() for line in lines if line.startswith("B")]
    return [int(q) * volumes[int(cell)] + int(rest) for _, cell, q, rest in sorted(found, key=lambda words: int(words[1]))]


def pair(volumes, first, fluxes, reach):
    """The masses after a step of two faces from cell 0 to cell 1, share 128."""
    text = "mesh\n" + "".join(f"cell {cell} volume {volume}\n" for cell, volume in enumerate(volumes))
    text += "".join(f"face {face} from 0 to 1 share 128 reach {reach}\n" for face in range(2))
    text += "field\n" + "".join(f"cell {cell} mass {mass}\n" for cell, mass in enumerate(first))
    text += "step\n" + "".join(f"face {face} flux {flux}\n" for face, flux in enumerate(fluxes))
    lines = ran(text)
    holds(" R " not in lines[1], lines[1])
    return masses(lines, volumes)


class Mixing(unittest.TestCase):
    def test_exactly(self):
        """With share 128 and reach U the pair moves U·(q1 − q2), whatever the volumes, the rests and the order of the two faces."""
        rng = random.Random(38)
        for _ in range(20):
            volumes = [rng.randint(1, 4095) for _ in range(2)]
            U = rng.randint(1, min(volumes))
            first = [volume * rng.randint(0, 1_000_000) + rng.randint(0, volume - 1) for volume in volumes]
            q = [mass // volume for mass, volume in zip(first, volumes)]
            mixed = U * (q[0] - q[1])
            for fluxes in ((U, -U), (-U, U)):
                equal(pair(volumes, first, fluxes, U), [first[0] - mixed, first[1] + mixed], f"{volumes} {first} {fluxes}")

    def test_the_table(self):
        """A larger reach takes part of it back: the page's rows are the engine's."""
        page = PAGE.read_text().partition("## Mixing")[2]
        rows = [tuple(int(word.replace(",", "")) for word in row) for row in re.findall(r"^\| ([\d,]+) \| ([\d,]+) \| ([\d,]+) \|", page, re.MULTILINE)]
        holds(len(rows) == 4 and rows[0][0] == 100, f"{rows} in {PAGE.name}")
        for reach, *after in rows:
            equal(pair([1000, 1000], [1_000_000, 0], (100, -100), reach), after, f"reach {reach}")

    def test_a_year(self):
        """With and without the lines marked mixing: the masses of a year differ as the page says, and the budget closes in both."""
        volumes = [2000] * 4
        totals, boards, month = {}, {}, {}
        for name, text in (("stirred", EXAMPLE), ("unstirred", "".join(line + "\n" for line in EXAMPLE.splitlines() if "# mixing" not in line))):
            lines = ran(text)
            steps = [list(map(int, line.split())) for line in lines if not line.startswith("B")]
            equal((len(steps), sum(masses(lines, volumes))), (YEAR + 1, steps[-1][3]), f"{name}: steps, total")
            equal(steps[0][3] + sum(step[1] + step[4] - step[2] for step in steps), steps[-1][3], f"{name}: the budget")
            totals[name] = steps[-1][3]
            boards[name] = [mass // volume for mass, volume in zip(masses(lines, volumes), volumes)]
            month[name] = steps[24 * 30][3]
        said = PAGE.read_text().partition("## Mixing")[2]
        for total in totals.values():
            holds(f"{total:,}" in said, f"{total:,} should stand in {PAGE.name}")
        mouth, *_, head = boards["stirred"]
        holds(f"{mouth:,} at the mouth and {head:,} at the head" in said, f"{boards} should stand in {PAGE.name}")
        equal((month["unstirred"], max(boards["unstirred"])), (totals["unstirred"], 200), "fresh within a month")


if __name__ == "__main__":
    unittest.main()
