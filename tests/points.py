#!/usr/bin/env python3
"""Shares from survey points: lagoon survey against the engine, through the program calls.

    python3 tests/points.py target/compare/calls      many faces, each as a row of a table and as a call; and every place refused
"""

import math
import random
import subprocess
import sys
import tempfile
from pathlib import Path

ROOT = Path(__file__).resolve().parent.parent
sys.path.insert(0, str(ROOT / "reference"))

from package import points
from package.causes import Refusal
from making.points import SPECIAL, survey_face
from script import float_of, pattern, spell

FACES = 4000


def faces(rng):
    """Coordinates: any, and at each place each value that is special."""
    for _ in range(FACES):
        yield [float_of(bits) for bits in survey_face(rng, False, [])]
    for place in range(8):
        for value in SPECIAL:
            face = [1.0, 0.0, 1.0, 1.0, 0.5, 0.5, 1.5, 0.5]
            face[place] = value
            yield face


def engine_shares(program, rows):
    """What the engine says of each face: a share, or cause and place."""
    text = "".join(spell("face_share", *(0x7FF8 << 48 if x != x else int(pattern(x)) for x in row)) for row in rows)
    lines = subprocess.run([program], input=text.encode(), capture_output=True, check=True).stdout.decode().splitlines()
    return [tuple(map(int, line.split()[2:])) for line in lines]


def tool_share(row):
    found = points.share(row)
    return (found.cause, found.place) if isinstance(found, Refusal) else (found,)


def table_shares(rows):
    """The shares that lagoon survey writes for a table of faces that are not refused."""
    with tempfile.TemporaryDirectory() as made:
        cells, table = Path(made, "cells.csv"), Path(made, "faces.csv")
        cells.write_text("cell,volume,salt\na,1,1\nb,1,1\n")
        table.write_text(",".join(["face", "from", "to", "area", *points.COLUMNS]) + "\n" + "".join(
            f"f{number},a,b,{1 / points.distance(row)!r}," + ",".join(map(repr, row)) + "\n" for number, row in enumerate(rows)))
        done = subprocess.run([ROOT / "bin" / "lagoon", "survey", cells, table, "--volume-unit", "1"], capture_output=True, check=True)
    return [int(line.split(" share ")[1].split()[0]) for line in done.stdout.decode().splitlines() if " share " in line]


def main():
    rows = list(faces(random.Random("points")))
    said = engine_shares(sys.argv[1], rows)
    for row, engine in zip(rows, said, strict=True):
        if tool_share(row) != engine:
            sys.exit(f"points: {row}: the engine says {engine}, lagoon survey {tool_share(row)}")
    good = [(row, engine[0]) for row, engine in zip(rows, said) if len(engine) == 1 and 1e-6 < points.distance(row) < math.inf][:2000]
    if table_shares([row for row, _ in good]) != [share for _, share in good]:
        sys.exit("points: lagoon survey writes other shares than the engine gives")
    print(f"points: {len(rows)} faces, {len(good)} of them in a table: lagoon survey and the engine agree")


if __name__ == "__main__":
    main()
