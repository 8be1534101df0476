#!/usr/bin/env python3
"""Document 02's S-14: two fields that differ in withheld cells only, through the public page and the public board.

Of each pair a call is made on the one field and the same call on the other: the same mesh, marks, page and lent bytes, tables of masses
that may differ in length and past the counts. Both have to print the same, refusals included. The growers' calls on the pair show
that the fields do differ.

    withheld.py --pairs 400 --seed 1                   fixed pairs, the same each time
    withheld.py --script target/bin/calls              the engine answers, and has to print what the reference does
    withheld.py --slips                                with each slip that tells of withheld cells: some pair must differ

Exit status 0: as it should be. 1: a pair differs, a call is never answered, or a slip is not seen.
"""

import argparse
import random
import sys
from collections import Counter
from pathlib import Path

HERE = Path(__file__).resolve().parent
sys.path.insert(0, str(HERE))

import engines
import generate_script
import lagoon
import script
import slips
from making.lent import GREATEST

TELLING = (slips.revealing, slips.weighed, slips.outranked)
GROWERS = {"public_page": "page", "public_board": "board"}


class Wrong(Exception):
    """What should hold and does not."""


def accepted(cells, volumes, masses):
    """Whether the tables are of 64 bits, the field long enough and no q of it too large; a volume of 0 is the mesh's fault."""
    return (all(0 <= entry <= GREATEST for entry in (*volumes, *masses)) and cells <= min(len(volumes), len(masses))
            and all(m // V <= lagoon.TOP for V, m in zip(volumes[:cells], masses) if V))


def other_field(rng, cells, volumes, masses, marks):
    """The field with other masses in withheld cells, and anything past the counts."""
    open_cells = set(lagoon.open_cells((marks + [lagoon.OPEN] * cells)[:cells]))
    most = [min(V * (lagoon.TOP + 1), GREATEST) for V in volumes[:cells]]
    field = [m if cell in open_cells or not most[cell] else rng.choice([0, most[cell] - 1, rng.randrange(most[cell])])
             for cell, m in enumerate(masses[:cells])]
    return field + [rng.choice([0, GREATEST]) for _ in range(rng.choice([0, 0, 1, 3]))]


def a_pair(seed, number):
    """The name of a call, and its arguments on the one field and on the other."""
    rng, name = random.Random(f"withheld {seed} {number}"), list(GROWERS)[number % 2]
    while True:
        one = generate_script.MAKE[name](rng, False, [])
        cells, volumes, masses, *rest = one
        if accepted(cells, volumes, masses):
            return name, one, (cells, volumes, other_field(rng, cells, volumes, masses, rest[-1]), *rest)


def printed(program, name, arguments):
    """What the program prints of one call."""
    return program(script.spell(name, *arguments).encode())


def held(name, one, other, program, what):
    """Both calls print the same, as the reference does; gives the words of the answer, and whether the growers' calls tell the fields apart."""
    said = printed(program, name, one)
    if printed(program, name, other) != said:
        raise Wrong(f"{what}: {name} tells of a withheld cell")
    if said != script.answer(script.spell(name, *one).encode()):
        raise Wrong(f"{what}: the engine prints otherwise than the reference")
    growers = GROWERS[name]
    apart = printed(program, growers, one[:-1]) != printed(program, growers, other[:-1])
    return " ".join(said.split(";")[0].split()[:3 if " refused " in said else 2]), apart


def all_held(options, program):
    """Every pair; gives the tally."""
    answers, apart = Counter(), Counter()
    for number in range(options.pairs):
        name, one, other = a_pair(options.seed, number)
        said, differ = held(name, one, other, program, f"seed {options.seed}, pair {number}")
        answers[said] += 1
        apart[name] += differ
    for name in GROWERS:
        if not apart[name] or not answers[f"{name}: accepted"]:
            raise Wrong(f"no pair of {name} is accepted, or none differs for the growers")
    return answers, apart


def seen(slip, options):
    """Whether some pair differs with this slip in the reference."""
    slipped = engines.load(HERE / "lagoon.py", f"slipped_{slip.__name__}")
    slip(slipped)
    for number in range(options.pairs):
        name, one, other = a_pair(options.seed, number)
        if len({script.answer(script.spell(name, *arguments).encode(), slipped) for arguments in (one, other)}) == 2:
            return True
    return False


def main():
    parser = argparse.ArgumentParser(description=__doc__, formatter_class=argparse.RawDescriptionHelpFormatter)
    parser.add_argument("--pairs", type=int, default=400, help="how many pairs (400)")
    parser.add_argument("--seed", type=int, default=1, help="the seed (1)")
    parser.add_argument("--script", metavar="CALLS", help="the program calls, which answers in the reference's place")
    parser.add_argument("--slips", action="store_true", help="see that each slip that tells of withheld cells is found")
    options = parser.parse_args()
    if options.slips:
        unseen = [slip.__name__ for slip in TELLING if not seen(slip, options)]
        print(f"not seen: {', '.join(unseen)}" if unseen else f"{len(TELLING)} slips, each seen within {options.pairs} pairs")
        return bool(unseen)
    program = engines.script_program(options.script) if options.script else script.answer
    try:
        answers, apart = all_held(options, program)
    except Wrong as wrong:
        print(wrong)
        return 1
    print(f"{options.pairs} pairs print the same; for the growers {sum(apart.values())} of them differ")
    print("; ".join(f"{said} {count}" for said, count in sorted(answers.items())))
    return 0


if __name__ == "__main__":
    sys.exit(main())
