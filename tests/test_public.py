#!/usr/bin/env python3
"""lagoon binder --public beside the reference: pages and boards without withheld cells, marks by name and number, fields that differ in
withheld cells only, and bad tables.

    python3 tests/test_public.py
"""

import unittest
from pathlib import Path

from toolcase import CHANNEL, ROOT, RUN, TIDE, command, equal, folder, holds, refuses

import lagoon
from package import sessiontext

CLOSED = ROOT / "examples" / "closed.csv"
NAMED = CHANNEL.replace("mesh\n", "name cell 0 Harbour\nname cell 1 North bed\nname cell 2 2\nmesh\n", 1)
TOP = 1_000_000


def pond(volumes, masses):
    """A session without faces and steps."""
    return lagoon.pack_mesh(lagoon.Mesh(volumes, [], [], [], [])) + lagoon.pack_field(masses)


def reference_pages(volumes, masses, marks):
    cells = len(volumes)
    return b"".join(lagoon.public_page_on_tables(cells, volumes, masses, page, lagoon.page_length(volumes, cells, page), marks)
                    for page in range(-(-cells // lagoon.PAGE_CELLS)))


def reference_board(volumes, masses, marks):
    return "".join(f"B {cell} {q} {rest}\n" for cell, q, rest in lagoon.public_board(len(volumes), volumes, masses, marks)).encode()


def public(data, table, *more):
    """Pages and board for the public, by a table of marks."""
    with folder() as made:
        marks, board = Path(made, "marks.csv"), Path(made, "board")
        marks.write_text(table)
        status, pages, said = command("binder", "--public", marks, "--board", board, *more, data=data)
        equal((status, said), (0, ""), table[:60])
        return pages, board.read_bytes()


def as_table(marks):
    return "cell,mark\n" + "".join(f"{cell},{mark}\n" for cell, mark in enumerate(marks))


class Public(unittest.TestCase):
    def test_the_channel(self):
        """The middle cell withheld, by its number and by its name; a cell without a row is open."""
        wanted = b"   0    1000   99\n   2     187   13\n", b"B 0 1000 99\nB 2 187 13\n"
        for data, row in ((CHANNEL, "1"), (CHANNEL, "cell 1"), (NAMED, "North bed"), (NAMED, "cell North bed"), (NAMED, "cell 1 (North bed)")):
            for table in (f"cell,mark\n{row},1\n", f"mark;ground;cell\n1;the bed;{row}\n0;;0\n"):
                equal(public(data.encode(), table, "--run", RUN), wanted, f"{row} withheld")
        equal(public(sessiontext.pack(CHANNEL)[0], "cell,mark\n1,1\n"), wanted, "a packed session")
        equal(public(CHANNEL.encode(), as_table([1, 1, 1])), (b"", b""), "all withheld")

    def test_the_example(self):
        status, out, said = command("binder", ROOT / "examples" / "tide.txt", "--public", CLOSED, "--board", "-")
        equal((status, said), (1, "lagoon binder: note: 1 of 49 steps refused, the first of them step 25 (cause 9); "
                                  "the pages are of the steps that were accepted\n"),
              "the example, one step of which is refused")
        _, whole, _ = command("binder", ROOT / "examples" / "tide.txt", "--board", "-")
        lines = whole.decode().splitlines(keepends=True)
        equal(out.decode(), "".join(line for line in lines if line.split()[0] not in "12" and line.split()[:2] not in (["B", "1"], ["B", "2"])
                                    and len(line.split()) > 1),
              "the growers' lines but those of cells 1 and 2 and the mass")
        equal([line for line in lines if line[0] == "B"], [line + "\n" for line in lagoon.run(sessiontext.pack(TIDE)[0]).splitlines() if line[0] == "B"],
              "the growers' board is the run's")

    def test_beside_the_reference(self):
        """Pages of every length, cells withheld at their ends and everywhere."""
        for cells in (1, 8, 9, 60, 61, 120, 121, 1023):
            volumes = [(37 * cell) % 4095 + 1 for cell in range(cells)]
            masses = [V * (cell % 7) * (TOP // 7) + cell % V for cell, V in enumerate(volumes)]
            for marks in ([0] * cells, [1] * cells, [cell % 2 for cell in range(cells)], [int(cell % 60 in (0, 59)) for cell in range(cells)],
                          [int(cell % 7 == 6) for cell in range(cells)]):
                equal(public(pond(volumes, masses), as_table(marks)), (reference_pages(volumes, masses, marks), reference_board(volumes, masses, marks)),
                      f"{cells} cells, {sum(marks)} withheld")

    def test_nothing_told(self):
        """Two fields that differ in withheld cells only print the same, and the growers' pages of them do not."""
        volumes, marks = [(11 * cell) % 90 + 1 for cell in range(70)], [int(cell % 3 == 1) for cell in range(70)]
        fields = [[V * (TOP if mark and high else cell) for cell, (V, mark) in enumerate(zip(volumes, marks))] for high in (False, True)]
        one, other = (public(pond(volumes, masses), as_table(marks)) for masses in fields)
        equal(one, other, "what the public reads of two fields")
        growers = {command("binder", data=pond(volumes, masses))[1] for masses in fields}
        holds(len(growers) == 2, "the growers' pages should differ")

    def test_a_field_record(self):
        volumes, masses, marks = [5] * 65, list(range(65)), [1] + [0] * 64
        with folder() as made:
            record = Path(made, "field")
            record.write_bytes(lagoon.pack_field(masses))
            equal(public(pond(volumes, [0] * 65), as_table(marks), "--field", record), (reference_pages(volumes, masses, marks),
                  reference_board(volumes, masses, marks)), "a field record")

    def test_bad_use(self):
        with folder() as made:
            marks = Path(made, "marks.csv")
            for table, words in (("cell,mark\n1,2\n", "marks.csv:2: mark should be a whole number from 0 to 1, not '2'"),
                                 ("cell,mark\n1,\n", "marks.csv:2: mark should be"), ("cell,mark\n3,1\n",
                                                                                      "marks.csv:2: '3' is no cell of the mesh (0 to 2)"),
                                 ("cell,mark\nSouth,1\n", "'South' is no cell"),
                                 ("cell,mark\n1,1\nNorth bed,0\n", "marks.csv:3: a second mark of cell 1 (North bed)"),
                                 ("cell,mark\n2,1\ncell 2,1\n", "a second mark of cell 2"), ("cell\n1\n", "one column 'mark'"),
                                 ("cell,mark\n", "there is no row")):
                marks.write_text(table)
                refuses(words, "binder", "--public", marks, data=NAMED.encode())
            marks.write_text("cell,mark\n1,1\n")
            refuses("nowhere is not there: `make calls` makes it", "binder", "--public", marks, "--calls", "nowhere", data=NAMED.encode())
            refuses("asked for public_page, says ''", "binder", "--public", marks, "--calls", "/bin/true", data=NAMED.encode())
            refuses("cannot hold two outputs", "binder", "--public", marks, "-o", f"{made}/one", "--board", f"{made}/one", data=NAMED.encode())
            refuses("is read: it cannot be written too", "binder", "--public", marks, "--board", marks, data=NAMED.encode())
            refuses("only one input can be standard input", "binder", "--public", "-", data=NAMED.encode())
            refuses("No such file", "binder", "--public", f"{made}/none.csv", data=NAMED.encode())


if __name__ == "__main__":
    unittest.main()
