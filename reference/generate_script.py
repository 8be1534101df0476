#!/usr/bin/env python3
"""Scripts of calls for the program calls, from a seed.

script(seed, number) gives the same script for the same numbers: calls of every name, on valid lagoons and on damaged
ones, with tables shorter and longer than the counts, values at the edges of their ranges, and text that is no script.
Script 0 of every seed holds the largest tables and records. MAKE names the maker of each call's arguments; they stand in making/.
"""

import argparse
import random
from collections import Counter, namedtuple

import lagoon
from lagoon import STEP_TABLES
from making import field_calls, record_calls, table_calls
from making.largest import largest
from making.lent import FIELD_TABLES, MESH_TABLES
from making.points import survey_face
from making.text import broken, loosened
from script import CALLS, spell

Script = namedtuple("Script", "kinds text")
NAMES = [name for name, _ in CALLS.values()]
# A step has most of the arithmetic, and of the causes.
OFTEN = NAMES + ["step"] * 4 + ["plain_step"] * 2 + ["judge"] * 3 + ["cut"] * 3 + ["check_step", "write_step", "lagoon_step", "take_step"]
EACH = 12               # calls of a script: enough that every cause of every call is met


MAKE = {
    "counts_within": table_calls.counts_within,
    "check_mesh": table_calls.on_mesh(MESH_TABLES),
    "check_field": table_calls.on_mesh(FIELD_TABLES),
    "check_cells": table_calls.on_cells,
    "check_step": table_calls.on_mesh(STEP_TABLES),
    "total": table_calls.on_cells,
    "step": table_calls.on_mesh(STEP_TABLES),
    "plain_step": table_calls.on_mesh(STEP_TABLES),
    "judge": table_calls.judged,
    "cut": table_calls.cut,
    "mesh_length": record_calls.mesh_length,
    "field_length": record_calls.field_length,
    "step_length": record_calls.step_length,
    "read_mesh": record_calls.read_mesh,
    "read_field": record_calls.read_field,
    "read_step": record_calls.read_step,
    "write_mesh": table_calls.writer(MESH_TABLES, lambda lent, wide: lagoon.mesh_length(lent.cells, lent.faces, wide)),
    "write_field": table_calls.writer(FIELD_TABLES, lambda lent, wide: lagoon.field_length(lent.cells, wide)),
    "write_step": table_calls.write_step,
    "number_at": record_calls.number_at,
    "board": table_calls.on_cells,
    "lagoon_step": record_calls.lagoon_step,
    "take_mesh": record_calls.take_mesh,
    "take_field": record_calls.take_field,
    "take_step": record_calls.take_step,
    "page": field_calls.page,
    "keep": field_calls.with_store(("volumes", "masses", "store")),
    "drop": field_calls.with_store(("store",)),
    "give_back": field_calls.with_store(("volumes", "masses", "store")),
    "middle_stage": survey_face,
    "face_share": survey_face,
    "add": field_calls.add,
    "charge": field_calls.charge,
    "public_page": field_calls.public_page,
    "public_board": field_calls.public_board,
}


def script(seed, number):
    """A script: as a rule twelve calls, the first of them taken in turn from all."""
    if number == 0:
        return Script(("largest",), largest().encode())
    rng = random.Random(f"script {seed} {number}")
    large = number % 200 == 100
    names = [NAMES[number % len(NAMES)]] + [rng.choice(OFTEN) for _ in range(0 if large else EACH - 1)]
    kinds, calls = [], []
    for name in names:
        calls.append(spell(name, *MAKE[name](rng, large, kinds)))
        if rng.random() < 0.1:
            calls[-1] = loosened(rng, calls[-1])
            kinds.append("loose text")
    if number % 4 == 1:
        calls.append(field_calls.store_list(rng, kinds))
    if number % 8 == 3:
        calls.append(field_calls.charge_list(rng, kinds))
    if number % 5 == 4:
        kind, calls[-1] = broken(rng, calls[-1])
        kinds.append("text: " + kind)
    return Script(tuple(dict.fromkeys(kinds + (["large"] if large else []))), "".join(calls).encode())


def main():
    parser = argparse.ArgumentParser(description=__doc__, formatter_class=argparse.RawDescriptionHelpFormatter)
    parser.add_argument("many", type=int, help="how many scripts are made and counted by kind")
    parser.add_argument("seed", type=int, nargs="?", default=1, help="the seed (1)")
    options = parser.parse_args()
    made = Counter(kind for number in range(options.many) for kind in script(options.seed, number).kinds)
    for name, count in sorted(made.items()):
        print(f"  {count:6} {name}")


if __name__ == "__main__":
    main()
