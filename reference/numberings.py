#!/usr/bin/env python3
"""Compares the engine with itself in two numberings, as document 02's S-9 says: sessions through the run, records through the host's call,
and steps on tables through calls.

    numberings.py --run RUN --call DRIVER --script CALLS --cases 400 --seed 1     equal but for the numbering, and every cause reached
    numberings.py --run RUN --call DRIVER --script CALLS --slips                  a second numbering wrong in one figure: must differ

The second of each pair has its cells and faces numbered at random and about half of its interior faces turned (lagoon renumber). Its masses
and moved masses have to be the first's carried along, negated where turned, and its refusals have the first's numbers.
Exit status 0: as it should be. 1: a pair that differs, a cause that was never reached, or a slip that was not seen.
"""

import argparse
import io
import random
import sys
from collections import Counter
from pathlib import Path

HERE = Path(__file__).resolve().parent
sys.path.insert(0, str(HERE))

import engines
import generate
import lagoon
import script
from package import layout, renumber
from package.command import Bad
from lagoon import FIRSTS, FLUXES, MASSES, MOVED, NEXT, OUTSIDES, REACHES, RELEASES, RIM, SECONDS, SHARES, STEP_TABLES, VOLUMES, WORK
from making.lent import tables_for
from package.layout import Face
from package.session import Session

LEAST = -(1 << 63)              # the one flux whose opposite does not fit its entry
STEP_CAUSES = {2, 6, 7, 8, 9, 10, 18}
REACHED = {"run": {7, 8, 9, 10, 12, 18}, "host": {7, 8, 9, 10, 18}, "step": STEP_CAUSES}
ACCEPTED = ["accepted", "wide"]         # of the accepted steps those on records of kinds 5 to 8, and on tables with V above the old ceiling


class Different(Exception):
    """Where the two numberings differ."""


def same(first, second, what):
    if first != second:
        raise Different(f"{what}: {first} in one numbering, {second} in the other")


# ---------------------------------------------------------------- Slips: a second numbering that is wrong in one figure

class ShareKept(renumber.Numbering):
    def face(self, number, face):
        return super().face(number, face)._replace(share=face.share)


class FluxKept(renumber.Numbering):
    def amounts(self, entries):
        return self.by_face(entries)


class RimRenumbered(renumber.Numbering):
    """The mark of the rim is taken for the last cell."""

    def face(self, number, face):
        made = super().face(number, face)
        return made._replace(second=len(self.cells) - 1) if made.second == RIM else made


class OldOrder(renumber.Numbering):
    """Masses and releases stay where they stood."""

    def by_cell(self, entries):
        return list(entries)


SLIPS = [ShareKept, FluxKept, RimRenumbered, OldOrder]


def other_numbering(rng, mesh, kind):
    made = renumber.at_random(rng, mesh)
    return kind(made.cells, made.faces, made.turned)


# ---------------------------------------------------------------- Sessions through the run

def session_of(data):
    """The session, None where its mesh or its field is refused."""
    try:
        return Session(io.BufferedReader(io.BytesIO(data)), "-")
    except Bad:
        return None


def is_wide(mesh_record):
    return lagoon.is_wide(lagoon.kind_of(mesh_record))


def compare_session(run, rng, data, kind, met):
    session = session_of(data)
    if session is None:
        return
    numbering = other_numbering(rng, session.mesh, kind)
    first, second = (run(part).splitlines() for part in (data, b"".join(renumber.records(session, numbering))))
    same(len(first), len(second), "lines")
    for line, other in zip(map(str.split, first), map(str.split, second)):
        if line[0] == "B":                      # equal figures may be listed in another order
            same(line[2], other[2], "the board's concentrations")
        elif line[1] == "R":
            same(line[:3], other[:3], "a refused step")
            met["run", int(line[2])] += 1
        else:
            same(line, other, "an accepted step")
            met["run", "accepted"] += 1
            met["run", "wide"] += is_wide(data)


# ---------------------------------------------------------------- Records through the host's call

def compare_records(driver, rng, case, kind, met):
    session = session_of(case.mesh + case.field + case.step)
    if session is None or (session.mesh_record, session.field_record) != (case.mesh, case.field):
        return
    numbering = other_numbering(rng, session.mesh, kind)
    mesh, field, *steps = renumber.records(session, numbering)
    if len(steps) != 1:                         # no record, or more bytes than one has
        return
    number, room = driver(case.mesh, case.field, case.step, case.room)
    other, other_room = driver(mesh, field, steps[0], case.room)
    same(number >> 32, other >> 32, "the host's cause")
    met["host", (number >> 32) or "accepted"] += 1
    if number == 0:
        length = len(session.field_record)
        same(numbering.by_cell(layout.masses_in(room[:length])), layout.masses_in(other_room[:length]), "the next field")
        met["host", "wide"] += is_wide(case.mesh)


# ---------------------------------------------------------------- Steps on tables through calls

def carried(along, table, count):
    """A table that is too short has no place in the other numbering: it is lent as it is."""
    return along(table) if len(table) >= count else list(table)


def other_tables(numbering, lent):
    """The tables of a step in the other numbering; those to be filled hold other values."""
    tables, by = lent.tables, numbering
    columns = [tables[position] for position in (FIRSTS, SECONDS, SHARES, REACHES)]
    faces = [by.face(number, Face(*row)) for number, row in enumerate(zip(*(column[:lent.faces] for column in columns)))]
    new = [by.by_face(list(column)) for column in zip(*faces)] or [[]] * 4
    made = {position: made + table[lent.faces:] for position, made, table in zip((FIRSTS, SECONDS, SHARES, REACHES), new, columns)}
    for position in (VOLUMES, MASSES, RELEASES):
        made[position] = carried(by.by_cell, tables[position], lent.cells)
    made[FLUXES] = carried(by.amounts, tables[FLUXES], lent.faces)
    made[OUTSIDES] = carried(by.by_face, tables[OUTSIDES], lent.faces)
    made.update({position: [9] * len(tables[position]) for position in (NEXT, MOVED, WORK)})
    return made


def answers(text):
    """Of each step that calls printed: the words of its answer, and its tables of next and moved masses."""
    for line in text.splitlines():
        answer, following, moved, _ = line.split("; ")
        yield answer.split()[1:], list(map(int, following.split()[1:])), list(map(int, moved.split()[1:]))


def accepted_mesh(lent):
    """The mesh of the tables, None where it is refused."""
    try:
        lagoon.judge_counts(lent.cells, lent.faces, lagoon.LIBRARY_LIMITS)
        lagoon.judge_lengths(lagoon.lengths_of(lent.tables), lagoon.mesh_needs(lent.cells, lent.faces))
        mesh = lagoon.counted_mesh(lent.cells, lent.faces, lent.tables)
        lagoon.judge_mesh(mesh)
    except lagoon.Refusal:
        return None
    return layout.mesh_of(mesh.volumes, [Face(*row) for row in zip(*mesh[1:])])


def compare_tables(calls, name, rng, kind, met):
    lent = tables_for(rng, STEP_TABLES, False, [])
    mesh = accepted_mesh(lent)
    if mesh is None:
        return
    numbering = other_numbering(rng, mesh, kind)
    numbering.turned -= {face for face, flux in enumerate(lent.tables[FLUXES]) if flux == LEAST}
    tables = other_tables(numbering, lent)
    text = "".join(script.spell(name, lent.cells, lent.faces, *(side[position] for position in STEP_TABLES)) for side in (lent.tables, tables))
    (answer, following, moved), (other, other_following, other_moved) = answers(calls(text.encode()))
    if answer[0] == "refused":
        same(answer[:2], other[:2], f"{name}, refused")
        same((tables[NEXT], tables[MOVED]), (other_following, other_moved), f"{name}, tables after a refusal")
        met["step", int(answer[1])] += 1
    else:
        same(answer, other, f"{name}, answer")
        same(numbering.by_cell(following)[:lent.cells], other_following[:lent.cells], f"{name}, next masses")
        same(numbering.amounts(moved)[:lent.faces], other_moved[:lent.faces], f"{name}, moved masses")
        met["step", "accepted"] += 1
        met["step", "wide"] += max(lent.lag.volumes) > lagoon.OLD_CEILING


# ---------------------------------------------------------------- Command line

def compare(options, kind, cases):
    """Compares so many sessions, calls and steps of each kind; gives how often each answer was met."""
    met = Counter()
    run, driver, calls = engines.run_program(options.run), engines.driver(options.call), engines.script_program(options.script)
    for number in range(cases):
        rng = random.Random(f"{options.seed} {number}")
        compare_session(run, rng, generate.session(options.seed, number).data, kind, met)
        compare_records(driver, rng, generate.call(options.seed, number), kind, met)
        for name in options.steps:
            compare_tables(calls, name, rng, kind, met)
    driver.finish()
    return met


def see_slips(options):
    all_seen = True
    for kind in SLIPS:
        try:
            compare(options, kind, options.cases)
            words, all_seen = "NOT SEEN", False
        except Different as different:
            words = f"seen, {str(different).split(':')[0]}"
        print(f"slip {kind.__name__}: {words}")
    return all_seen


def arguments():
    parser = argparse.ArgumentParser(description=__doc__, formatter_class=argparse.RawDescriptionHelpFormatter)
    parser.add_argument("--run", required=True, help="the run program")
    parser.add_argument("--call", required=True, help="a call driver")
    parser.add_argument("--script", required=True, metavar="CALLS", help="the program calls")
    parser.add_argument("--cases", type=int, default=400, help="sessions, and as many records and steps on tables (400)")
    parser.add_argument("--seed", type=int, default=1, help="the seed (1)")
    parser.add_argument("--slips", action="store_true", help="each slip in turn has to be seen")
    options = parser.parse_args()
    options.steps = [name for name in ("step", "plain_step") if name in script.NUMBER_OF]
    return options


def main():
    options = arguments()
    if options.slips:
        return 0 if see_slips(options) else 1
    try:
        met = compare(options, renumber.Numbering, options.cases)
    except Different as different:
        print(f"numberings: {different}")
        return 1
    for title, causes in REACHED.items():
        print(f"{title} in two numberings: " + ", ".join(f"{answer}: {met[title, answer]}" for answer in [*ACCEPTED, *sorted(causes)]))
    missing = [f"{title} {answer}" for title, causes in REACHED.items() for answer in [*ACCEPTED, *sorted(causes)] if not met[title, answer]]
    if missing:
        print("NEVER REACHED: " + ", ".join(missing))
    return 1 if missing else 0


if __name__ == "__main__":
    sys.exit(main())
