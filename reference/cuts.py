#!/usr/bin/env python3
"""Document 02's S-12 through the real calls: a lagoon is cut, the plain step is made of the whole and of each part, on what the cutting left,
and what each part's tables then hold, next and moved, has to stand in the whole's by the old numbers, negated for a face that was turned.
A lagoon that is refused is refused by both calls alike.

    cuts.py --script CALLS --cases 400 --seed 1     random lagoons, labels and steps: each part agrees with the whole
    cuts.py --slips                                 the reference cuts, with each slip of a cutting in turn: a part has to differ

CALLS is the program calls; python3:PATH takes a Python program that script.py asks instead.
Exit status 0: as it should be. 1: a part that differs, too few that were stepped, or a slip that was not seen.
"""

import argparse
import random
import sys
from collections import Counter
from pathlib import Path

HERE = Path(__file__).resolve().parent
sys.path.insert(0, str(HERE))

import engines
import lagoon
import script
from lagoon import CUT_TABLES, FIRSTS, FLUXES, MASSES, OUTSIDES, RELEASES, RIM, SECONDS, VOLUMES
from making.lent import Lent
from slips import CUT_SLIPS

PAST = 7                # what the tables to be filled hold before
NAMES = [name[:-1] for name in list(script.CHANGED["cut"].values())[:len(CUT_TABLES)]]


class Different(Exception):
    """Where a part differs from the whole."""


def same(part, whole, what):
    if part != whole:
        raise Different(f"{what}: {part} in the part, {whole} in the whole")


def read(line):
    """The words of an answer, and the tables by their names."""
    said, *tables = line.split("; ")
    return said.split()[1:], {name: list(map(int, entries)) for name, *entries in map(str.split, tables)}


def plain_call(cells, faces, tables, whole):
    """A plain step with tables to be filled as long as the whole's counts ask."""
    most_cells, most_faces = whole
    *mesh, releases = (tables[position] for position in CUT_TABLES)
    return script.spell("plain_step", cells, faces, *mesh, [PAST] * most_cells, [PAST] * most_faces,
                        [PAST] * (4 * most_cells + most_faces), releases)


class Case:
    """A lagoon, now and then damaged, and labels with both parts."""

    def __init__(self, seed, number):
        rng = random.Random(f"cuts {seed} {number}")
        lent = Lent(rng)
        while lent.cells < 2:
            lent = Lent(rng)
        lent.lengthen(CUT_TABLES)
        if number % 4 == 3:
            lent.damage(CUT_TABLES, [])
        self.cells, self.faces, self.tables = lent.cells, lent.faces, lent.tables
        self.most = len(lent.lag.volumes), len(lent.lag.faces)
        cells = self.most[0]
        one = rng.randrange(cells)
        self.labels = rng.choice([
            [rng.randrange(2) for _ in range(cells)],
            [int(cell == one) for cell in range(cells)],
            [int(cell != one) for cell in range(cells)],
            [cell % 2 for cell in range(cells)]])
        if len(set(self.labels)) == 1:
            self.labels[one] ^= 1

    def cut_call(self):
        rooms = [[PAST] * self.most[position not in (VOLUMES, MASSES, RELEASES)] for position in CUT_TABLES]
        return script.spell("cut", self.cells, self.faces, *(self.tables[position] for position in CUT_TABLES), self.labels, *rooms, *rooms)

    def plain_of(self, program, cells, faces, tables):
        return read(program(plain_call(cells, faces, tables, self.most).encode()))


def along(table, old, past):
    """The entries at the old numbers; past them what was lent."""
    return [table[number] for number in old] + past[len(old):]


def compare(cutter, program, case, met):
    """Cuts by one program and steps by another; the plain step of each part beside the whole's."""
    said, left = read(cutter(case.cut_call().encode()))
    answer, whole = case.plain_of(program, case.cells, case.faces, case.tables)
    if "refused" in (said[0], answer[0]):
        if said[1] not in ("23", "24"):             # of damaged counts, by which other tables than the step's may be too short too
            words = 2 if said[1] == "2" else 3
            same(said[:words], answer[:words], "what is refused of the cutting and of the step")
        met["lagoons refused"] += 1
        return
    counts = list(map(int, said[1:]))
    firsts, seconds = (case.tables[position][:case.faces] for position in (FIRSTS, SECONDS))
    for part in lagoon.PARTS:
        cells, faces = counts[2 * part:2 * part + 2]
        tables = {position: left[f"{name}{part}"] for position, name in zip(CUT_TABLES, NAMES)}
        answer, found = case.plain_of(program, cells, faces, tables)
        same(answer[0], "accepted", f"part {part}, answer {answer}")
        old_cells = [cell for cell, label in enumerate(case.labels) if label == part]
        old_faces = [face for face, ends in enumerate(zip(firsts, seconds)) if any(end != RIM and case.labels[end] == part for end in ends)]
        moved = [-mass if case.labels[first] != part else mass for mass, first in zip(whole["moved"], firsts)]
        same((cells, faces), (len(old_cells), len(old_faces)), f"part {part}, counts")
        same(found["next"], along(whole["next"], old_cells, [PAST] * case.most[0]), f"part {part}, next masses")
        same(found["moved"], along(moved, old_faces, [PAST] * case.most[1]), f"part {part}, moved masses")
        met["parts stepped"] += 1
        met["parts of one cell"] += cells == 1
        turned = [first for first, face in zip(tables[FIRSTS], old_faces) if case.labels[firsts[face]] != part]
        met["parts with a turned face"] += bool(turned)
        met["parts that a cut face feeds"] += any(outside and second == RIM and seconds[face] != RIM for outside, second, face in zip(
            tables[OUTSIDES], tables[SECONDS], old_faces))
        met["parts with water"] += any(tables[FLUXES][:faces])


def compare_all(cutter, program, options):
    met = Counter()
    for number in range(options.cases):
        try:
            compare(cutter, program, Case(options.seed, number), met)
        except Different as different:
            raise Different(f"seed {options.seed}, case {number}: {different}") from None
    return met


def see_slips(program, options):
    all_seen = True
    for name, slip in CUT_SLIPS.items():
        wrong = engines.load(HERE / "lagoon.py", "wrong_lagoon")
        slip(wrong)
        try:
            compare_all(lambda text: script.answer(text, wrong), program, options)
            words, all_seen = "NOT SEEN", False
        except Different as different:
            words = "seen, " + str(different).split(": ")[1]
        print(f"slip {name}: {words}")
    return all_seen


def main():
    parser = argparse.ArgumentParser(description=__doc__, formatter_class=argparse.RawDescriptionHelpFormatter)
    parser.add_argument("--script", metavar="CALLS", default=f"python3:{HERE / 'lagoon.py'}", help="the program calls (default: the reference)")
    parser.add_argument("--cases", type=int, default=400, help="how many lagoons (400)")
    parser.add_argument("--seed", type=int, default=1, help="the seed (1)")
    parser.add_argument("--slips", action="store_true", help="each slip of a cutting has to be seen")
    options = parser.parse_args()
    program = engines.script_program(options.script)
    if options.slips:
        return 0 if see_slips(program, options) else 1
    try:
        met = compare_all(program, program, options)
    except Different as different:
        print(f"cuts: {different}")
        return 1
    wanted = ["lagoons refused", "parts stepped", "parts of one cell", "parts with a turned face", "parts that a cut face feeds", "parts with water"]
    print("cuts: " + ", ".join(f"{what}: {met[what]}" for what in wanted))
    missing = [what for what in wanted if not met[what]]
    if missing:
        print("NEVER REACHED: " + ", ".join(missing))
    return 1 if missing else 0


if __name__ == "__main__":
    sys.exit(main())
