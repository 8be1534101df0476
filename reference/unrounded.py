#!/usr/bin/env python3
"""Document 02's S-8: plain steps beside the same steps with q not rounded, in exact fractions, on random lists with refused steps among them.

After n accepted plain steps every cell's m/V has to differ by less than n from e/V, where e is its mass by the unrounded steps, which
begin with the same masses and have the same releases added; a refused step changes neither. Of the unrounded steps it is seen that their total
follows in-mass, released mass and out-mass exactly, and that no mass falls below 0. The largest errors are printed as shares of n.

    unrounded.py --lists 200 --seed 1                  fixed lists, the same each time
    unrounded.py --seconds 600 --seed 17               fresh lists for this time
    unrounded.py --script target/bin/calls             the plain steps are the engine's: it has to print what the reference answers

A third of the lists are driven: releases set the rests so that each step adds as much to the error as it can.
Exit status 0: every error is below n. 1: one is not, or the engine prints otherwise.
"""

import argparse
import random
import sys
import time
from collections import Counter
from fractions import Fraction
from pathlib import Path

HERE = Path(__file__).resolve().parent
sys.path.insert(0, str(HERE))

import engines
import generate
import lagoon
import script

ENGINE = script.Engine(lagoon)
MOST_CELLS, MOST_FACES, MOST_STEPS = 8, 20, 20
LONG = 10               # accepted steps, from which on the largest share is told apart
LADDER = 40             # steps of the list that is made for a large error


class Wrong(Exception):
    """What should hold and does not."""


# ---------------------------------------------------------------- One list

class Walk:
    """A field carried on by plain steps, and the same field by unrounded ones."""

    def __init__(self, mesh, masses):
        self.mesh, self.masses, self.exact, self.accepted = mesh, list(masses), list(map(Fraction, masses)), 0
        self.script, self.printed = "", ""              # the calls as the program `calls` reads and prints them

    def step(self, fluxes, outsides, releases):
        """One plain call and its unrounded step; gives the cause of a refusal, else 0."""
        cells, faces = len(self.mesh.volumes), len(self.mesh.firsts)
        arguments = (cells, faces, *self.mesh, self.masses, fluxes, outsides, [7] * cells, [-7] * faces, [7] * (4 * cells + faces), releases)
        self.script += script.spell("plain_step", *arguments)
        line = script.line(ENGINE, "plain_step", arguments)
        self.printed += line
        words = line.split(";")[0].split()
        if words[1] == "refused":
            return int(words[2])
        self.masses, self.accepted = arguments[2 + lagoon.NEXT], self.accepted + 1
        before = sum(self.exact)
        self.exact, gone = lagoon.advance_unrounded(self.mesh, self.exact, fluxes, outsides, releases)
        if sum(self.exact) != before + int(words[2]) + int(words[4]) - gone or min(self.exact) < 0:
            raise Wrong(f"the unrounded step {self.accepted} keeps no budget, or a mass falls below 0")
        return 0

    def hold(self, program, what):
        """The engine, where it is given, prints what the reference answers."""
        if program and program(self.script.encode()) != self.printed:
            raise Wrong(f"{what}: the engine prints otherwise than the reference")

    def errors(self):
        """m/V less e/V of each cell."""
        return [(m - e) / V for m, e, V in zip(self.masses, self.exact, self.mesh.volumes)]


# ---------------------------------------------------------------- Steps of a list

def any_step(rng, lag, walk):
    lag.masses = walk.masses
    fluxes = lag.flow(rng)
    return fluxes, lag.outsides(rng, fluxes), lag.releases(rng) or [0] * len(walk.masses)

def driven_step(rng, lag, walk):
    """Rests of V - 1 and 0, so that the largest error goes on with the water and grows where it arrives."""
    errors, sign = walk.errors(), walk.sign
    most = max(sign * error for error in errors)
    lag.masses = walk.masses
    releases = []
    for V, m, error in zip(walk.mesh.volumes, walk.masses, errors):
        bears = sign * error > most - 1 and walk.accepted > 0
        rest = 0 if bears == (sign > 0) else V - 1
        releases.append((rest - m) % V)
    fluxes = lag.flow(rng)
    return fluxes, lag.outsides(rng, fluxes), releases

def harmed(rng, lag, fluxes, outsides, releases):
    """The same step with something that a cause refuses, as a rule."""
    kind = rng.choice(["release", "balance", "outside", "outflow"])
    if kind == "release":
        releases[rng.randrange(len(releases))] = lagoon.CEILING * (lagoon.TOP + 1)
    elif kind == "balance" and fluxes:
        fluxes[rng.randrange(len(fluxes))] += rng.choice([-1, 1])
    elif kind == "outside" and outsides:
        outsides[rng.randrange(len(outsides))] = lagoon.TOP + 1
    else:
        fluxes = lag.flow(rng, lag.top)
        outsides = lag.outsides(rng, fluxes)
    return fluxes, outsides, releases

def a_list(seed, number):
    """The walk of a list, and its steps one after another as (kind, arguments)."""
    rng = random.Random(f"unrounded {seed} {number}")
    lag = generate.Lagoon(rng, (rng.randint(1, MOST_CELLS), MOST_FACES, 0))
    columns = [[row[i] for row in lag.faces] for i in range(4)]
    walk = Walk(lagoon.Mesh(lag.volumes, *columns), lag.masses)
    walk.sign = rng.choice([-1, 1])
    make = driven_step if number % 3 == 2 else any_step
    for _ in range(rng.randint(1, MOST_STEPS)):
        step = make(rng, lag, walk)
        yield walk, harmed(rng, lag, *step) if rng.random() < 0.15 else step


# ---------------------------------------------------------------- Many lists

class Tally:
    def __init__(self):
        self.lists = self.accepted = self.parted = 0
        self.refused = Counter()
        self.largest = {1: (Fraction(0), "none"), LONG: (Fraction(0), "none")}      # share and place, for n from 1 and from LONG on

    def judge(self, walk, what):
        """Every error is below n."""
        errors = walk.errors()
        cell = max(range(len(errors)), key=lambda cell: abs(errors[cell]))
        if abs(errors[cell]) >= walk.accepted:
            raise Wrong(f"{what}: after {walk.accepted} accepted plain steps m/V of cell {cell} is {errors[cell]} from e/V")
        share = abs(errors[cell]) / walk.accepted
        for least, (before, _) in self.largest.items():
            if walk.accepted >= least and share > before:
                self.largest[least] = share, f"{what}, n {walk.accepted}, cell {cell}: {float(errors[cell]):.6f}"

    def add(self, seed, number, program):
        what = f"seed {seed}, list {number}"
        for walk, step in a_list(seed, number):
            cause = walk.step(*step)
            if cause:
                self.refused[cause] += 1
            else:
                self.accepted += 1
                self.judge(walk, what)
        self.lists += 1
        self.parted += any(e.denominator > 1 for e in walk.exact)
        walk.hold(program, what)

    def words(self):
        refused = ", ".join(f"{count} by {cause}" for cause, count in sorted(self.refused.items()))
        lines = [f"{self.lists} lists, {self.accepted} accepted plain steps, {sum(self.refused.values())} refused ({refused}); "
                 f"in {self.parted} lists the unrounded masses end as fractions"]
        for least, (share, where) in self.largest.items():
            lines.append(f"every error is below n; for n from {least} on the largest is {float(share):.6f} n ({where})")
        return "\n".join(lines)


def ladder(steps):
    """Three cells of the greatest V in a ring, all water passed on in each step, and releases that make the cell which bears the error whole
    and fill the one it goes to: the error grows by (V - 1) / V in each step, so no bound below n would hold."""
    V = lagoon.CEILING
    mesh = lagoon.Mesh([V] * 3, [0, 1, 2], [1, 2, 0], [128] * 3, [V] * 3)
    walk = Walk(mesh, [0] * 3)
    for i in range(steps):
        releases = [(rest - m) % V for rest, m in zip([V - 1 if cell == (i + 1) % 3 else 0 for cell in range(3)], walk.masses)]
        if walk.step([V] * 3, [0] * 3, releases):
            raise Wrong("a step of the ladder is refused")
    return walk


def main():
    parser = argparse.ArgumentParser(description=__doc__, formatter_class=argparse.RawDescriptionHelpFormatter)
    parser.add_argument("--lists", type=int, default=200, help="how many lists (200)")
    parser.add_argument("--seed", type=int, default=1, help="the seed (1)")
    parser.add_argument("--seconds", type=float, help="go on for this time, whatever the number of lists")
    parser.add_argument("--script", metavar="CALLS", help="the program calls, which makes the plain steps too")
    options = parser.parse_args()
    program = options.script and engines.script_program(options.script)
    tally, start, number = Tally(), time.monotonic(), 0
    try:
        while time.monotonic() - start < options.seconds if options.seconds else number < options.lists:
            tally.add(options.seed, number, program)
            number += 1
        climbing = ladder(LADDER)
        climbing.hold(program, "the ladder")
    except Wrong as wrong:
        print(wrong)
        return 1
    print(tally.words())
    climbed = max(climbing.errors())
    print(f"a list made for it comes to {float(climbed / LADDER):.6f} n after {LADDER} steps: {float(climbed):.6f}")
    return 0


if __name__ == "__main__":
    sys.exit(main())
