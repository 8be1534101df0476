#!/usr/bin/env python3
"""The bench's lagoon through the reference, with all its tests.

Prints the line that yardstick and bench_step print for so many rounds, and on standard error how busy each stage is at the start of each.
"""

import argparse
import sys
from pathlib import Path

sys.path.insert(0, str(Path(__file__).resolve().parent.parent / "reference"))

import lagoon

STEPS, PRIME, BASE = 16, 1_000_000_007, 1_000_003
SCALE = 436                 # of the large lagoon, on the other


def wave(k):
    return min(k % 24, 24 - k % 24)

def stream(x, y):
    return 5 * wave(x) * wave(y) + 37 * x * y % 11

def make(width, height, large):
    """The tables in document 01's order up to the fluxes."""
    scale = SCALE if large else 1
    scaled = lambda value: min(scale * value, lagoon.CEILING)
    volumes, masses = [], []
    firsts, seconds, shares, reaches, fluxes = [], [], [], [], []
    for c in range(width * height):
        y, x = divmod(c, width)
        V = scaled(150 + 29 * c % 256)
        q = 900000 + 7919 * c % 100000 if (x // 6 + y // 6) % 2 == 0 else 4973 * c % 100000
        volumes.append(V)
        masses.append(V * q + 31 * c % 150)
        sides = [(x + 1 == width, c + 1, stream(x + 1, y + 1) - stream(x + 1, y)),
                 (y + 1 == height, c + width, stream(x, y + 1) - stream(x + 1, y + 1))]
        for side, (is_open, beyond, U) in enumerate(sides):
            f = 2 * c + side
            firsts.append(c)
            seconds.append(lagoon.RIM if is_open else beyond)
            shares.append(0 if is_open else 64 + 53 * f % 128)
            reaches.append(0 if is_open else scaled(80 + 23 * f % 256))
            fluxes.append(scale * U)
    return [volumes, firsts, seconds, shares, reaches, masses, fluxes]

def mixed(digest, x):
    return (digest * BASE + x % PRIME) % PRIME

def seasons(rounds):
    """A number for each round, by which its outside values are told; they follow no rule that comes round again soon."""
    season = 1
    for r in range(rounds):
        season = mixed(season, r)
        yield season

def outsides_of(season, seconds, fluxes):
    """Where water comes in over the rim, else 0."""
    return [(f + season) % 5 * 250000 if second == lagoon.RIM and U < 0 else 0 for f, (second, U) in enumerate(zip(seconds, fluxes))]

def products(mesh, kept, gains, losses):
    """What the limiter divides: a·G where the receiver's P is above G, a·L where the giver's N is above L."""
    ends = [(*lagoon.runs(first, second, c), abs(c)) for first, second, c in zip(mesh.firsts, mesh.seconds, kept) if c != 0]
    entering, leaving = [0] * len(gains), [0] * len(losses)
    for giver, receiver, a in ends:
        entering[receiver] += a
        leaving[giver] += a
    for giver, receiver, a in ends:
        if entering[receiver] > gains[receiver]:
            yield a * gains[receiver]
        if leaving[giver] > losses[giver]:
            yield a * losses[giver]

def how_busy(tables):
    """Of one step: faces with water, rim inflows and outflows, corrections, those cancelled, those cut, those cut to nothing,
    and the limiter's products that take more than 64 bits."""
    mesh, masses, fluxes, outsides = lagoon.Mesh(*tables[:5]), *tables[5:8]
    q = lagoon.concentrations(mesh.volumes, masses)
    _, low = lagoon.upwind(mesh, masses, q, fluxes, outsides)
    wanted = lagoon.corrections(mesh, q, fluxes)
    kept = lagoon.keep(mesh, low, wanted)
    allowed = lagoon.bounds(mesh, low, q, fluxes, outsides)
    limited = lagoon.limiter(mesh, kept, *allowed)
    rims = [U for U, second in zip(fluxes, mesh.seconds) if second == lagoon.RIM]
    return {"faces": len(fluxes), "water": sum(U != 0 for U in fluxes),
            "in": sum(U < 0 for U in rims), "out": sum(U > 0 for U in rims),
            "corrections": sum(a != 0 for a in wanted), "back": sum(a < 0 for a in wanted),
            "cancelled": sum(a != b for a, b in zip(wanted, kept)), "cut": sum(a != b for a, b in zip(kept, limited)),
            "cut to 0": sum(a != 0 and b == 0 for a, b in zip(kept, limited)),
            "past 64 bits": sum(product >= 1 << 64 for product in products(mesh, kept, *allowed))}

def after_rounds(width, height, large, rounds, watch=lambda r, tables: None):
    """Masses and moved after so many rounds, and in-mass and out-mass of all their steps."""
    tables = make(width, height, large)
    cells, faces = width * height, 2 * width * height
    entered = gone = 0
    for r, season in enumerate(seasons(rounds)):
        outsides = outsides_of(season, tables[2], tables[6])
        watch(r, [*tables, outsides])
        for _ in range(STEPS):
            filled = [0] * cells, [0] * faces, [0] * (4 * cells + faces)
            lent = dict(zip(lagoon.STEP_TABLES, (*tables, outsides, *filled, [0] * cells), strict=True))
            crossed = lagoon.step_on_tables(cells, faces, lent)
            entered, gone = entered + crossed[0], gone + crossed[1]
            tables[5], moved = lent[lagoon.NEXT], lent[lagoon.MOVED]
    return tables[5], moved, entered, gone

def digest_of(numbers):
    digest = 1
    for x in numbers:
        digest = mixed(digest, x)
    return digest

def line_of_tables(width, height, large, rounds):
    """What yardstick and bench_step print."""
    masses, moved, entered, gone = after_rounds(width, height, large, rounds)
    return f"{sum(masses)} {entered} {gone} {digest_of(masses + [2 * abs(x) + (x < 0) for x in moved])}\n"

def line_of_records(width, height, large, rounds):
    """What records prints of its calls."""
    masses, *_ = after_rounds(width, height, large, rounds)
    return f"{sum(masses)} {digest_of(masses)}\n"

def main():
    parser = argparse.ArgumentParser(description=__doc__, formatter_class=argparse.RawDescriptionHelpFormatter)
    parser.add_argument("width", type=int)
    parser.add_argument("height", type=int)
    parser.add_argument("rounds", type=int)
    parser.add_argument("--large", action="store_true", help="volumes, reaches and fluxes up to document 02's ceiling")
    options = parser.parse_args()
    lagoon_of = options.width, options.height, options.large, options.rounds
    print(line_of_tables(*lagoon_of), end="")
    after_rounds(*lagoon_of, watch=lambda r, tables: print(f"round {r}:", how_busy(tables), file=sys.stderr))


if __name__ == "__main__":
    main()
