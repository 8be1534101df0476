#!/usr/bin/env python3
"""lagoon cut beside the reference: both parts' sessions, stepped by themselves, give the whole's figures; names, text and packed, bad input.

    python3 tests/test_cut.py
"""

import csv
import random
import unittest
from pathlib import Path

from toolcase import CHANNEL, ROOT, RUN, TIDE, breaks, command, equal, folder, holds, interrupted, known, refuses, session_of

import generate
import lagoon
from package import sessiontext

OUTFALL = (ROOT / "examples" / "outfall.txt").read_text()
NAMED = CHANNEL.replace("mesh\n", "unit mass kg\nname cell 0 Inlet\nname cell 2 Head\nname face 0 sea\nname face 1 sluice\nmesh\n", 1)


def labels_file(made, rows):
    path = Path(made, "labels.csv")
    path.write_text("cell,label\n" + "".join(f"{cell},{label}\n" for cell, label in rows))
    return str(path)


def cut(made, data, labels, *options):
    """What the tool says, and what it writes of both parts."""
    parts = [f"{made}/part{part}" for part in (0, 1)]
    status, out, said = command("cut", "-", labels, "-o", *parts, *options, data=data)
    equal((status, said), (0, ""), f"{options}")
    return out.decode(), [Path(part).read_bytes() for part in parts]


def walked(data):
    """Mesh of a session and, by the reference's plain steps, the figures after each step: None where it is refused."""
    session = session_of(data)
    mesh = lagoon.Mesh(session.mesh.volumes, *([face[column] for face in session.mesh.faces] for column in range(4)))
    masses, figures = session.masses, []
    for record, damage in session.steps():
        try:
            if damage:
                raise lagoon.Refusal(damage.cause, damage.place)
            wide = lagoon.is_wide(record[0] >> 4)
            _, fluxes, outsides, releases = lagoon.read_step(record, len(mesh.volumes), len(mesh.firsts), mesh.seconds, wide=wide)
            lagoon.judge_salt_and_water(mesh, masses, fluxes, outsides, releases)
        except lagoon.Refusal:
            figures.append(None)
            continue
        result = lagoon.advance_plain(mesh, masses, fluxes, outsides, releases)
        masses = result.masses
        figures.append((result.masses, result.moved))
    return mesh, figures


def holds_the_whole(data, labels, parts, what):
    """Each part, stepped by itself, gives the whole's figures at the old numbers; gives the steps, accepted and refused."""
    mesh, figures = walked(data)
    accepted = [figure for figure in figures if figure is not None]
    for part, written in enumerate(parts):
        cells = [cell for cell, label in enumerate(labels) if label == part]
        faces = [(face, first) for face, (first, second) in enumerate(zip(mesh.firsts, mesh.seconds))
                 if labels[first] == part or (second != lagoon.RIM and labels[second] == part)]
        found = walked(written)[1]
        equal(len(found), len(accepted), f"{what}, part {part}, steps")
        for mine, (masses, moved) in zip(found, accepted):
            amounts = [moved[face] if labels[first] == part else -moved[face] for face, first in faces]
            equal(mine, ([masses[cell] for cell in cells], amounts), f"{what}, part {part}")
    return len(accepted), len(figures) - len(accepted)


class Cut(unittest.TestCase):
    def test_the_example(self):
        """The tide's lagoon at the dike between its fourth and fifth cell: a refused step is left out, and said."""
        labels = [0] * 4 + [1] * 4
        with folder() as made:
            out, parts = cut(made, TIDE.encode(), ROOT / "examples" / "tide-labels.csv")
        equal(holds_the_whole(TIDE.encode(), labels, parts, "the tide"), (48, 1), "steps")
        holds("part 0: 4 cells, 5 faces, 1 of them at the cut:" in out, out)
        holds("step 25 is refused and left out: cell 0: 300 enters, 299 leaves (cause 9)\n" in out, out)
        holds(out.endswith("48 plain steps: next and moved masses of both parts are the whole's at the old numbers\n"), out)
        for part, line in ((0, "name face 0 sea\nname face 4 cut 4\n"), (1, "name face 0 cut 4\nname face 4 river\n")):
            holds(f"unit volume m3\nunit mass g\n{line}mesh\n" in parts[part].decode(), parts[part][:200])

    def test_releases_and_names(self):
        """The channel's outfalls: 1001 is raised across the cut; cells by name or number, the second cell of the cut face in part 0."""
        with folder() as made:
            data = OUTFALL.encode()
            _, parts = cut(made, data, labels_file(made, [(0, 1), (1, 0), (2, 0)]))
            equal(holds_the_whole(data, [1, 0, 0], parts, "outfalls"), (1, 0), "steps")
            holds("face 0 flux -50 outside 1001\n" in parts[0].decode() and "cell 0 release 20000\n" in parts[0].decode(), parts[0])
            _, parts = cut(made, NAMED.encode(), labels_file(made, [("Head", 1), (1, 1), ("Inlet", 0)]))
            holds("unit mass kg\nname cell 0 Inlet\nname face 0 sea\nname face 1 sluice\nmesh\n" in parts[0].decode(), parts[0])
            holds("unit mass kg\nname cell 1 Head\nname face 0 sluice\nmesh\n" in parts[1].decode(), parts[1])

    def test_packed(self):
        """A packed session gives packed parts, the bytes of the text's; and the map says what went where."""
        labels = ROOT / "examples" / "tide-labels.csv"
        with folder() as made:
            _, texts = cut(made, TIDE.encode(), labels)
            _, parts = cut(made, sessiontext.pack(TIDE)[0], labels, "--map", f"{made}/map.csv")
            equal([sessiontext.pack(text.decode())[0] for text in texts], parts, "text and packed")
            with open(f"{made}/map.csv") as file:
                rows = list(csv.reader(file))
        equal(rows[0], ["kind", "old", "part", "new", "turned"], "the map's heading")
        equal([row[1:] for row in rows if row[:2] == ["face", "4"]], [["4", "0", "4", ""], ["4", "1", "0", "turned"]], "the face at the cut")
        equal(len(rows), 1 + 8 + 10, "rows")

    def test_beside_the_reference(self):
        """Generated sessions with labels at random."""
        accepted = refused = lagoons = 0
        with folder() as made:
            for number in range(100):
                data = generate.session(33, number).data
                if len(data) > 4000 or lagoon.run(data)[0] in "MF":
                    continue
                cells = len(session_of(data).mesh.volumes)
                rng = random.Random(f"cut {number}")
                labels = [rng.randrange(2) for _ in range(cells)]
                if cells < 2 or len(set(labels)) < 2:
                    continue
                _, parts = cut(made, data, labels_file(made, enumerate(labels)))
                found = holds_the_whole(data, labels, parts, f"session {number}")
                accepted, refused, lagoons = accepted + found[0], refused + found[1], lagoons + 1
        holds(lagoons > 20 and accepted > 40 and refused > 10, f"{lagoons} lagoons, {accepted} accepted, {refused} refused")

    def test_no_steps(self):
        with folder() as made:
            data = NAMED.partition("step")[0].encode()
            out, parts = cut(made, data, labels_file(made, [(0, 0), (1, 1), (2, 1)]))
            holds("0 plain steps" in out, out)
            equal([session_of(part).masses for part in parts], [[100000], [0, 0]], "the parts' fields")

    def test_refusals(self):
        channel = NAMED.encode()
        with folder() as made:
            out = ("-o", f"{made}/a", f"{made}/b")
            good = labels_file(made, [(0, 0), (1, 1), (2, 1)])
            for rows, words in (([(0, 0), (1, 1), ("Head", 2)], "the cutting is refused: cell 2 (Head): label 2 is neither 0 nor 1 (cause 23)"),
                                ([(0, 0), (1, 0), (2, 0)], "the cutting is refused: no cell has label 1, so that part has none (cause 24)"),
                                ([(0, 0), (1, 1)], "cell 2 (Head) has no label"),
                                ([(0, 0), (1, 1), (2, 1), ("Head", 1)], "labels.csv:5: a second label for cell 2 (Head)"),
                                ([(0, 0), (1, 1), ("Tail", 1)], "labels.csv:4: the session has no cell 'Tail'"),
                                ([(0, 0), (1, "x"), (2, 1)], "labels.csv:3: label should be 0 or 1, not 'x'")):
                refuses(words, "cut", "-", labels_file(made, rows), *out, data=channel)
            good = labels_file(made, [(0, 0), (1, 1), (2, 1)])
            refuses("the mesh is refused: cell 0 (Inlet): volume 0", "cut", "-", good, *out, data=NAMED.replace("volume 100", "volume 0", 1).encode())
            refuses("not to standard output", "cut", "-", good, "-o", "-", f"{made}/b", data=channel)
            refuses("cannot hold two outputs", "cut", "-", good, "-o", f"{made}/b", f"{made}/b", data=channel)
            refuses("is read: it cannot be written too", "cut", "-", good, "-o", f"{made}/a", good, data=channel)
            refuses("nowhere is not there: `make calls` makes it", "cut", "-", good, *out, "--calls", "nowhere", data=channel)
            refuses("asked for cut, says 'M 13 0'", "cut", "-", good, *out, "--calls", RUN, data=channel)
            refuses("No such file", "cut", "-", f"{made}/none.csv", *out, data=channel)
            holds(not Path(made, "a").exists() and not Path(made, "b").exists(), "nothing is written")

    def test_as_every_tool(self):
        known("cut")
        with folder() as made:
            out = ("-o", f"{made}/a", f"{made}/b")
            breaks("cut", ROOT / "examples" / "tide.txt", ROOT / "examples" / "tide-labels.csv", *out)
            interrupted("cut", "-", labels_file(made, [(0, 0)]), *out)
            labels = labels_file(made, [(0, 0), (1, 1), (2, 1)])
            refuses("the output is full", "cut", "-", labels, "-o", "/dev/full", f"{made}/b", data=CHANNEL.encode())


if __name__ == "__main__":
    unittest.main()
