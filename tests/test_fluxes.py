#!/usr/bin/env python3
"""lagoon fluxes: whole fluxes that balance, on random meshes, at the engine's limits, out of balance, split and carried; and bad tables.

    python3 tests/test_fluxes.py
"""

import io
import math
import os
import random
import re
import subprocess
import time
import unittest

from toolcase import CHANNEL, ROOT, RUN, breaks, command, equal, folder, holds, interrupted, known, line_of, refuses, session_of, unread

from package import causes, layout, sessiontext
from package.fluxes import UNIT, Water
from package.layout import RIM, Face, mesh_of

LAGOON = CHANNEL[:CHANNEL.index("\nstep")].replace("mesh", "name face 0 sea\nmesh", 1)


def random_mesh(rnd):
    """Cells and faces without order: several faces between a pair, parts without a rim, cells without a face."""
    cells = rnd.randint(1, 12)
    faces = []
    for _ in range(rnd.randint(0, 30)):
        first, second = rnd.randrange(cells), rnd.choice([RIM, *range(cells)])
        if first != second:
            faces.append(Face(first, second, 0 if second == RIM else 128, 0 if second == RIM else 4095))
    return mesh_of([4095] * cells, faces)


def balanced_values(rnd, water):
    """Values that balance: amounts round cycles, which are closed by the ways to the rim. Some are whole."""
    values = [rnd.choice([0, UNIT, -2 * UNIT, rnd.randrange(-40 * UNIT, 40 * UNIT), rnd.randrange(-UNIT, UNIT)]) for _ in water.mesh.faces]
    return water.carried(values, water.differences(values))


def made(*arguments, table, lagoon=LAGOON, wanted=0):
    with folder() as place:
        with open(f"{place}/lagoon.txt", "w") as file:
            file.write(lagoon)
        status, out, said = command("fluxes", f"{place}/lagoon.txt", "-", *arguments, data=table.encode())
    equal(status, wanted, f"{arguments}: {said}")
    return out, said


def steps_of(data):
    session = session_of(data)
    return [layout.Source(io.BytesIO()).step_in(layout.bits_of(record), session.mesh) for record, _ in session.steps()]


class Fluxes(unittest.TestCase):
    def test_random_meshes(self):
        """Every cell balances, no face is changed by a unit or more, and what is whole stays."""
        rnd, not_whole = random.Random(7), 0
        for _ in range(1500):
            water = Water(random_mesh(rnd))
            values = balanced_values(rnd, water)
            equal(any(water.differences(values)), False, "the values balance")
            for found in (water.graph.rounded(values), water.whole_in_cells(values)):
                equal(any(water.differences(found)), False, f"whole fluxes of {values} balance")
                holds(all(abs(UNIT * flux - value) < UNIT for flux, value in zip(found, values)), f"{found} for {values}")
            outs, whole_outs = water.outflows(values), water.outflows(water.whole_in_cells(values))
            holds(all(abs(UNIT * whole - out) < UNIT for whole, out in zip(whole_outs, outs)), f"outflows {whole_outs} for {outs}")
            not_whole += sum(value % UNIT != 0 for value in values)
        holds(not_whole > 5000, f"{not_whole} values that are not whole")

    def test_outflow_at_the_volume(self):
        """Where the real outflow is the volume, the whole one is not above it, however the faces are rounded."""
        rnd, tried = random.Random(8), 0
        for _ in range(300):
            parts = [rnd.randrange(1, 20 * UNIT) for _ in range(4)]
            parts.append(-sum(parts) % UNIT + 3 * UNIT)
            volume = sum(parts) // UNIT
            faces = [Face(0, 1 + n, 128, 4095) for n in range(5)] + [Face(1 + n, 0, 128, 4095) for n in range(5)]
            mesh = mesh_of([volume] + [4095] * 5, faces)
            water = Water(mesh)
            whole = water.whole(parts + parts)
            equal(causes.step_refusal(mesh_of(mesh.volumes, faces), layout.Step(whole, [])), None, f"outflow of {parts}")
            tried += water.outflows(water.graph.rounded(parts + parts))[0] > volume
        holds(tried > 5, f"the plain way is above the volume in {tried} of 300 cases, so the other is not tried")

    def test_a_table(self):
        """Text and bytes are one session; the report's figures are those of the steps; outside values stand where water enters."""
        table = "time,sea,face 1,2,3,outside sea\nmon,-10.5,10.5,10.5,10.5,1000\ntue,-0.25,0.25,0.25,0.25,999.6\n,3,-3,-3,-3,7\n"
        text, said = made(table=table)
        packed, _ = made("--packed", table=table)
        equal(sessiontext.pack(text.decode())[0], packed, "as text and packed")
        holds(text.decode().startswith(LAGOON), "the lagoon's text is kept")
        steps = steps_of(packed)
        rows = [(-10.5, 1000), (-0.25, 1000), (3, 7)]
        for step, (sea, outside) in zip(steps, rows):
            equal([abs(flux) for flux in step.fluxes], [abs(step.fluxes[0])] * 4, "what enters goes through")
            holds(abs(step.fluxes[0] - sea) < 1, f"{step.fluxes[0]} for {sea}")
            equal(step.outsides[0], outside if step.fluxes[0] < 0 else 0, "the outside value")
        equal(steps[2].fluxes, [3, -3, -3, -3], "whole fluxes stay")
        largest = max(abs(step.fluxes[0] - sea) for step, (sea, _) in zip(steps, rows))
        equal(float(re.search(r"a face is changed by ([\d.]+) at most", said)[1]), largest, "the largest change")
        holds("every cell balances in every step" in said and "note: no outside value for face 3" in said, said)

    def test_semicolons_and_factor(self):
        out, _ = made("--packed", "--factor", "2", "--outside", "sea=500", table="0;1;2;3\n-2,5;2,5;2,5;2,5\n")
        equal([(step.fluxes, step.outsides) for step in steps_of(out)], [([-5, 5, 5, 5], [500, 0])], "decimal commas, doubled")

    def test_out_of_balance(self):
        """It is said where and by how much, and nothing is written; told to, it leaves over the nearest rim face."""
        table = "0,1,2,3\n-10,10,10,10\n-10,7.25,7.5,7.5\n"
        out, said = made(table=table, wanted=1)
        equal(out, b"", "nothing is written")
        holds("row 2, cell 0: 10 enters, 7.25 leaves, 2.75 too much enters (and 1 more)" in said and "1 row with cells out of balance" in said, said)
        out, said = made("--packed", "--spread", table=table)
        whole = steps_of(out)[1].fluxes
        holds(abs(whole[0] + 7.5) < 1 and len(set(map(abs, whole))) == 1, f"{whole}")
        holds("carried to the rim: this changed a face by 2.5 at most (row 2, face 0)" in said, said)
        near = "0,1,2,3\n-10,10.004,10,9.995\n"
        made(table=near)
        made("--tolerance", "0.001", table=near, wanted=1)

    def test_printed_digits(self):
        """A cell may be out of balance by what printing can have taken from its faces, and no more."""
        for table, factor, fits in (("-1.234,1.235,1.234,1.234", 20, True), ("-1.234,1.236,1.234,1.234", 20, False),
                                    ("-1.2340,1.2350,1.2340,1.2340", 20, False),
                                    ("-12.3,12.4,12.3,12.3", 1, True), ("-12.3,12.5,12.3,12.3", 1, False), ("-12,12.0,12,12.1", 1, True),
                                    ("-12,13,12,12", 1, False), ("-1.2e1,1.21e1,12,12", 1, False)):
            _, said = made("--factor", str(factor), table=f"0,1,2,3\n{table}\n", wanted=0 if fits else 1)
            holds(("every cell balances in every step" in said) == fits, f"{table} times {factor}: {said}")
        _, said = made("--factor", "20", table="0,1,2,3\n-1.234,1.235,1.234,1.234\n")
        holds("differ by 0.02 at most (row 1, cell 0), the tolerance is 0.01 for each of a cell's faces (3 decimals times 20), 0.01 at least" in said, said)
        made("--factor", "20", "--tolerance", "0.01", table="0,1,2,3\n-1.234,1.235,1.234,1.234\n", wanted=1)

    def test_releases(self):
        """Masses released, by columns and options, times a factor; the parts of a row add up to it, and --carry loses nothing over the rows."""
        lagoon = LAGOON.replace("mesh", "name cell 1 Salt Pan\nmesh", 1)
        table = "0,1,2,3,release Salt Pan,release 2\n" + "-1,1,1,1,10.3,0\n" * 4
        out, _ = made("--packed", table=table, lagoon=lagoon)
        equal([step.releases for step in steps_of(out)], [[0, 10, 0]] * 4, "each row rounded")
        out, _ = made("--packed", "--carry", table=table, lagoon=lagoon)
        equal([step.releases[1] for step in steps_of(out)], [10, 11, 10, 10], "and carried: 41 of 41.2")
        out, _ = made("--packed", "--split", "3", "--release-factor", "10", "--release", "0=7", table=table, lagoon=lagoon)
        equal([step.releases for step in steps_of(out)][:3], [[2, 34, 0], [3, 35, 0], [2, 34, 0]], "three parts of 7 and of 103")
        text, _ = made(table=table, lagoon=lagoon)
        equal(sessiontext.pack(text.decode())[0], made("--packed", table=table, lagoon=lagoon)[0], "as text and packed")
        equal([step.releases for step in steps_of(made("--packed", table="0,1,2,3,release 2\n-1,1,1,1,0\n")[0])], [None], "a row that releases nothing")
        for bad, words in (("release Pan\n1\n", "'Pan' is no cell of the mesh"), ("0,release 0\n1,-1\n", "should be a mass from 0 on, not '-1'"),
                           ("0,release 0,release cell 0\n1,1,1\n", "release 0 has two columns"),
                           ("release 0\n1e8\n", "row 1: cell 0: release 1,000,000,000"),
                           ("release 0\nx\n", "should be a mass from 0 on")):
            _, said = made(table=bad, wanted=1) if words[:3] != "row" else made("--release-factor", "10", table=bad, wanted=1)
            holds(words in said and said.count("\n") == 1, f"{bad!r}: {said}")

    def test_times(self):
        """The time of a row is kept in the text, where the first part of its steps begins; a unit comes from the heading."""
        for head, rows, words in (("time", ["2026-06-01 00:00", "2026-06-01 01:00"], ["2026-06-01 00:00", "2026-06-01 01:00"]),
                                  ("Time h", ["0", "1"], ["0 h", "1 h"]),
                                  ("date", ["mon", ""], ["mon", ""]), ("step", ["0", "1"], ["", ""])):
            text, _ = made("--split", "2", table=f"{head},0,1,2,3\n" + "".join(f"{row},-1,1,1,1\n" for row in rows))
            times = session_of(text).labels.times
            equal([times.get(step, "") for step in (1, 2, 3, 4)], [words[0], "", words[1], ""], f"times of {head}")
            equal([step.fluxes[1] for step in steps_of(text)],
                  [step.fluxes[1] for step in steps_of(made("--packed", "--split", "2", table="0,1,2,3\n-1,1,1,1\n-1,1,1,1\n")[0])], head)
        for bad in ("time,0\n#,1\n", "time,0\n\x1b,1\n"):
            holds("should be a time" in made(table=bad, wanted=1)[1], bad)
        holds("two columns" in made(table="time,date,0\n1,1,1\n", wanted=1)[1], "two times")

    def test_ended(self):
        """Ended while it writes, it leaves what was there before, and nothing beside it."""
        with folder() as place:
            for name, content in (("lagoon.txt", LAGOON), ("session.txt", "as it was")):
                with open(f"{place}/{name}", "w") as file:
                    file.write(content)
            tool = subprocess.Popen(line_of("fluxes", f"{place}/lagoon.txt", "-", "-o", f"{place}/session.txt"), stdin=subprocess.PIPE,
                                    stderr=subprocess.PIPE)
            tool.stdin.write(b"0,1,2,3\n" + b"-1,1,1,1\n" * 1000)
            tool.stdin.flush()
            while unread(tool.stdin) or len(os.listdir(place)) < 3:
                holds(tool.poll() is None, "it waits for more rows")
                time.sleep(0.01)
            tool.terminate()
            said = tool.communicate(timeout=20)[1]
            equal((tool.returncode, said, sorted(os.listdir(place))), (143, b"", ["lagoon.txt", "session.txt"]), "ended by SIGTERM")
            with open(f"{place}/session.txt") as file:
                equal(file.read(), "as it was", "the output")

    def test_limits(self):
        """They are named with how far beyond; as many steps of each row as are said keep them."""
        table = "0,1,2,3\n-150.5,150.5,150.5,150.5\n"
        out, said = made(table=table, wanted=1)
        equal(out, b"", "nothing is written")
        holds("face 1: flux 150.5 is larger than the reach 100" in said and "1.5 times at most" in said and "--split 2 would do" in said, said)
        out, _ = made("--packed", "--split", "2", table=table)
        sums = [sum(step.fluxes[1] for step in steps_of(out))]
        holds(len(steps_of(out)) == 2 and abs(sums[0] - 150.5) < 1, f"{sums}")
        _, said = made(table="0\n-4096\n", wanted=1, lagoon="mesh\ncell 0 volume 4095\nface 0 from 0 to rim\nfield\n")
        holds("out of balance" in said, said)
        strait = "mesh\ncell 0 volume {}\nface 0 from 0 to rim\nface 1 from 0 to rim\nfield\n"
        _, said = made(table="0,1\n-65536,65536\n", wanted=1, lagoon=strait.format(65535))
        holds("face 0: flux -65,536 is larger than 65,535 at the rim" in said, said)
        _, said = made(table="0,1\n-4096,4096\n", wanted=1, lagoon=strait.format(4095))
        holds("cell 0: 4,096 leaves, more than its volume 4,095" in said, said)
        _, said = made(table="0,1\n-11,11\n", wanted=1, lagoon=strait.format(10))
        holds("cell 0: 11 leaves, more than its volume 10" in said, said)

    def test_a_large_bay(self):
        """Fluxes above 4,095: text and bytes are one session of wide records; so are the bytes of a mesh that need not be wide."""
        bay = LAGOON.replace("volume 100", "volume 65535").replace("reach 100", "reach 65535")
        table = "0,1,2,3\n-65534.5,65534.5,65534.5,65534.5\n-65535,65535,65535,65535\n"
        text, _ = made(table=table, lagoon=bay)
        packed, _ = made("--packed", table=table, lagoon=bay)
        equal((sessiontext.pack(text.decode())[0], packed[0] >> 4), (packed, layout.WIDE.mesh), "as text and packed")
        steps = steps_of(packed)
        holds(steps[0].fluxes in ([-65534, 65534, 65534, 65534], [-65535, 65535, 65535, 65535]), f"{steps[0].fluxes}")
        equal(steps[1].fluxes, [-65535, 65535, 65535, 65535], "at the ceilings")
        small, _ = made("--packed", table="0,1,2,3\n-1,1,1,1\n", lagoon=LAGOON.replace("mesh", "mesh wide", 1))
        session = session_of(small)
        equal((session.mesh.widths, [layout.kind_of(record) for record, _ in session.steps()]), (layout.WIDE, [layout.WIDE.step]), "wide, as the text says")

    def test_carry(self):
        """A small flux is not lost: over any number of steps each face's sum is changed by less than a unit."""
        table = "0,1,2,3\n" + "-0.3,0.3,0.3,0.3\n" * 50
        out, said = made("--packed", "--carry", table=table)
        total = 0
        for number, step in enumerate(steps_of(out), 1):
            total += step.fluxes[1]
            holds(abs(total - 0.3 * number) < 1, f"{total} after {number} steps")
        holds("summed over all rows a face is changed by 0" in said, said)
        out, said = made("--packed", table=table)
        equal(sum(step.fluxes[1] for step in steps_of(out)), 0, "without --carry it is lost, and said")
        holds("changed by 15 at most" in said and "--carry keeps this below 1" in said, said)

    def test_a_gyre_with_a_river(self):
        """A turning basin that a tide crosses from corner to corner, made whole and stepped by the run, which refuses nothing."""
        wide, high = 9, 7
        cells = {(x, y): y * wide + x for y in range(high) for x in range(wide)}
        ends = [((x, y), (x + 1, y)) for x, y in cells if x + 1 < wide] + [((x, y), (x, y + 1)) for x, y in cells if y + 1 < high]
        lines = ["mesh"] + [f"cell {n} volume 400" for n in cells.values()]
        lines += [f"face {n} from {cells[a]} to {cells[b]} share 128 reach 400" for n, (a, b) in enumerate(ends)]
        lines += [f"face {len(ends)} from 0 to rim", f"face {len(ends) + 1} from {len(cells) - 1} to rim", "field", "cell 5 mass 400000"]

        def turning(x, y, size):
            return size * math.sin(math.pi * x / wide) * math.sin(math.pi * y / high)

        def flux(a, b, size, through):
            """What turns about the middle, and what runs along the first row and the last column."""
            (x, y), (x2, y2) = a, b
            if x2 > x:
                return turning(x2, y2 + 1, size) - turning(x2, y2, size) + (through if y == 0 else 0)
            return turning(x2, y2, size) - turning(x2 + 1, y2, size) + (through if x == wide - 1 else 0)

        table = [",".join(map(str, range(len(ends) + 2)))]
        for hour in range(24):
            size, through = 150 * math.cos(hour / 4), 40.3 * math.sin(hour / 2)
            table.append(",".join(f"{value:.5f}" for value in [flux(a, b, size, through) for a, b in ends] + [-through, through]))
        out, said = made("--packed", table="\n".join(table) + "\n", lagoon="\n".join(lines) + "\n")
        holds(float(re.search(r"a face is changed by ([\d.]+) at most", said)[1]) < 1, said)
        status, report, _ = command("budget", "--run", RUN, data=out)
        holds(status == 0 and b"24 steps, 24 accepted, 0 refused" in report, report.decode())
        rounded = [[round(float(value)) for value in row.split(",")] for row in table[1:]]
        mesh = session_of(out).mesh
        holds(any(causes.flow_refusal(mesh, row) for row in rounded), "rounded one by one the fluxes do not balance")

    def test_bad_tables(self):
        for table, words in (("", "the first line should be a heading"), ("0,1,2,3\n", "no row under the heading"),
                             ("0,1,2\n1,2\n", "<stdin>:2: 2 columns where the heading has 3"),
                             ("0,1,9\n1,1,1\n", "<stdin>:1: '9' is no face of the mesh (0 to 3)"), ("0,face 0\n1,1\n", "face 0 has two columns"),
                             ("0,ocean\n1,1\n", "'ocean' is no face"), ("0,outside 1\n1,1\n", "face 1 is not at the rim"),
                             ("0,1\n1,x\n", "<stdin>:2: column 2 should be a number, not 'x'"), ("0,1\n1,nan\n", "should be a number, not 'nan'"),
                             ("0,1\n1,1e300\n", "should be a number"), ("0,1\n1,1_0\n", "should be a number"), ("0,1\n1,\n", "should be a number, not ''"),
                             ("0,outside 0\n1,1000001\n", "a concentration from 0 to 1,000,000"), ("0\n" + "9" * 200000 + "\n", "<stdin>:2: "),
                             ("0\n\"a\nb\x1b\"\n", r"not 'a\nb\x1b'")):
            _, said = made(table=table, wanted=1)
            holds(words in said and said.count("\n") == 1, f"{table[:30]!r}: {said}")
        refuses("has steps already", "fluxes", ROOT / "examples" / "channel.txt", "-", data=b"0\n1\n")

    def test_the_command(self):
        known("fluxes")
        with folder() as place:
            lagoon, table = f"{place}/lagoon.txt", f"{place}/table.csv"
            for path, text in ((lagoon, LAGOON), (table, "0,1,2,3\n-1,1,1,1\n")):
                with open(path, "w") as file:
                    file.write(text)
            breaks("fluxes", lagoon, table)
            interrupted("fluxes", lagoon, "-")
            refuses("is read", "fluxes", lagoon, table, "-o", table)
            refuses("'x' is no face of the mesh", "fluxes", lagoon, table, "--outside", "x=5")
            refuses("face 1 is no rim face", "fluxes", lagoon, table, "--outside", "1=5")
            refuses("should be FACE=Q", "fluxes", lagoon, table, "--outside", "sea=1000001")
            for option, value in (("--split", "0"), ("--split", "9" * 5000), ("--factor", "nan"), ("--tolerance", "-1")):
                refuses("not '", "fluxes", lagoon, table, option, value, status=2)
            refuses("only one of the two", "fluxes", "-", "-")
            with open(table, "w") as file:
                file.write("0,1,2,3\n-1,2,1,1\n")
            with open(f"{place}/kept", "w") as file:
                file.write("as it was")
            equal(command("fluxes", lagoon, table, "-o", f"{place}/kept")[0], 1, "out of balance")
            with open(f"{place}/kept") as file:
                equal(file.read(), "as it was", "the output of a table that is refused")


if __name__ == "__main__":
    unittest.main()
