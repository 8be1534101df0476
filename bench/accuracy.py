#!/usr/bin/env python3
"""How accurate is a step? Profiles carried once round a closed ring, by the engine and by plain upwind.

As document 002 does in its section 3.1: the ring has length 1, the water goes once round at Courant number 0.4, and
the profile should come back as it was. Its smooth profile is equation (46), its step the second part of (47).
The corrected step is the engine's, through the C call, and so is plain upwind, document 02's S-8, through the program
calls, which is asked for one step after another. Beside them stands the same scheme in real numbers, so that what whole
numbers change can be told from what the scheme does.

    accuracy.py --call DRIVER --script CALLS [--svg FILE] [--fine]         prints tables in Markdown
"""

import argparse
import math
import struct
import sys
from pathlib import Path

ROOT = Path(__file__).resolve().parent.parent
sys.path.insert(0, str(ROOT / "reference"))

import engines
import lagoon
from package.calls import Calls, spelled
from package.command import Bad

VOLUME = 4000           # of every cell; the Courant number times it is whole
COURANT = (2, 5)
RESOLUTIONS = (20, 40, 80)
PLOTTED = 40            # cells, as in document 002's figure 3
FINE = (160, 320, 640)
# Of the study of rounding.
TOPS = (1_000_000, 10_000, 1_000, 100, 10)
VOLUMES = (4000, 100, 5)


class Engine:
    """Both of the engine's steps: corrected by a call driver, plain by the program calls."""

    def __init__(self, driver, calls):
        self.driver, self.calls = engines.driver(driver), Calls(calls)

    def finish(self):
        self.calls.finish()
        return self.driver.finish()


# ---------------------------------------------------------------- Profiles, as means over a cell

def smooth(a, b):
    """The mean of (1 + cos(pi (4x - 1))) / 2 for x up to 0.5, else 0, over the cell from a to b."""
    def integral(x):
        x = min(x, 0.5)
        return x / 2 + math.sin(math.pi * (4 * x - 1)) / (8 * math.pi)
    return (integral(b) - integral(a)) / (b - a)


def step(a, b):
    """The mean of 1 for x from 0.6 to 0.8, else 0."""
    return max(0.0, min(b, 0.8) - max(a, 0.6)) / (b - a)


def wave(a, b):
    """The mean of (1 - cos(2 pi x)) / 2, which is smooth everywhere."""
    return 0.5 - (math.sin(2 * math.pi * b) - math.sin(2 * math.pi * a)) / (4 * math.pi * (b - a))


def means(profile, cells):
    return [profile(i / cells, (i + 1) / cells) for i in range(cells)]


# ---------------------------------------------------------------- Once round the ring

class Ring:
    """A ring of equal cells, each with a face to the next, and the profile as whole masses."""

    def __init__(self, profile, cells, volume=VOLUME, top=lagoon.TOP):
        self.exact = means(profile, cells)
        self.unit = volume * top                # the mass that counts as 1
        self.masses = [round(value * self.unit) for value in self.exact]
        self.mesh = lagoon.Mesh([volume] * cells, list(range(cells)), [*range(1, cells), 0],
                                [128] * cells, [volume] * cells)
        flux, rest = divmod(volume * COURANT[0], COURANT[1])
        assert rest == 0
        self.fluxes, self.outsides = [flux] * cells, [0] * cells
        self.steps = cells * COURANT[1] // COURANT[0]

    def by_engine(self, engine):
        mesh, water = lagoon.pack_mesh(self.mesh), lagoon.pack_step(self.mesh, self.fluxes, self.outsides)
        field = lagoon.pack_field(self.masses)
        for _ in range(self.steps):
            answer = engine.driver(mesh, field, water, len(field))
            if isinstance(answer, str) or answer[0] != 0:
                sys.exit(f"accuracy: the engine answers {answer}")
            field = answer[1]
        return self.values(struct.unpack(f">{len(self.masses)}I", field[lagoon.FIELD_HEAD:]))

    def by_upwind(self, engine):
        cells, masses = len(self.masses), self.masses
        mesh = (cells, cells, *map(spelled, self.mesh))
        filled = ([0] * cells, [0] * cells, [0] * (5 * cells))          # next masses, moved and work
        water = tuple(map(spelled, (self.fluxes, self.outsides, *filled, [0] * cells)))
        for _ in range(self.steps):
            said, left = engine.calls.ask("plain_step", *mesh, masses, *water)
            if said[0] != "accepted":
                sys.exit(f"accuracy: the engine answers {' '.join(said)}")
            masses = left["next"]
        return self.values(masses)

    def by_all_corrections(self):
        """The corrected step as it was before document 02's S-5: every correction enters the limiter."""
        masses = self.masses
        for _ in range(self.steps):
            q = lagoon.concentrations(self.mesh.volumes, masses)
            carried, low = lagoon.upwind(self.mesh, masses, q, self.fluxes, self.outsides)
            limited = lagoon.limiter(self.mesh, lagoon.corrections(self.mesh, q, self.fluxes),
                                     *lagoon.bounds(self.mesh, low, q, self.fluxes, self.outsides))
            _, masses = lagoon.finish(self.mesh, masses, carried, limited)
        return self.values(masses)

    def by_reals(self, limited=True, cancelled=True):
        values = self.exact
        for _ in range(self.steps):
            values = real_step(values, COURANT[0] / COURANT[1], limited, cancelled)
        return values

    def values(self, masses):
        return [mass / self.unit for mass in masses]


def real_step(q, courant, limited, cancelled):
    """The corrected step on a ring of equal cells in real numbers; face i leads from cell i to cell i + 1.

    cancelled: corrections that smooth are 0 before the limiter, as document 02's S-5 asks."""
    cells = range(len(q))
    after = lambda i: (i + 1) % len(q)
    low = [q[i] - courant * (q[i] - q[i - 1]) for i in cells]
    corrections = [courant * (1 - courant) / 2 * (q[after(i)] - q[i]) for i in cells]
    if limited and cancelled:
        corrections = [0 if (c > 0 and low[i] > low[after(i)]) or (c < 0 and low[after(i)] > low[i]) else c
                       for i, c in enumerate(corrections)]
    if limited:
        near = [(q[i - 1], q[i], q[after(i)]) for i in cells]
        gain, lose = [max(near[i]) - low[i] for i in cells], [low[i] - min(near[i]) for i in cells]
        entering = [max(0, corrections[i - 1]) + max(0, -corrections[i]) for i in cells]
        leaving = [max(0, -corrections[i - 1]) + max(0, corrections[i]) for i in cells]
        up = [1 if entering[i] <= gain[i] else gain[i] / entering[i] for i in cells]
        down = [1 if leaving[i] <= lose[i] else lose[i] / leaving[i] for i in cells]
        corrections = [c * (min(up[after(i)], down[i]) if c > 0 else min(up[i], down[after(i)]))
                       for i, c in enumerate(corrections)]
    return [low[i] + corrections[i - 1] - corrections[i] for i in cells]


# ---------------------------------------------------------------- Error norms

def norms(values, exact):
    """l1, l2 and l-infinity of the error, each divided by that of the exact profile."""
    error = [abs(a - b) for a, b in zip(values, exact)]
    return (sum(error) / sum(exact), math.sqrt(sum(e * e for e in error) / sum(x * x for x in exact)),
            max(error) / max(exact))


def order(coarse, fine):
    """The power of the cell's width with which the error falls, where the cells are halved."""
    return math.log2(coarse / fine)


def table(title, head, rows):
    lines = ["", f"**{title}**", "", "| " + " | ".join(head) + " |", "|" + "---|" * len(head)]
    return lines + ["| " + " | ".join(row) + " |" for row in rows]


def convergence(name, profile, engine, resolutions):
    rows, last = [], {}
    for cells in resolutions:
        ring = Ring(profile, cells)
        for scheme, values in (("plain upwind", ring.by_upwind(engine)), ("before S-5", ring.by_all_corrections()),
                               ("corrected", ring.by_engine(engine))):
            error = norms(values, ring.exact)
            orders = f"{order(last[scheme], error[1]):.2f}" if scheme in last else ""
            last[scheme] = error[1]
            rows.append([str(cells), str(ring.steps), scheme, *(f"{e:.4f}" for e in error), orders,
                         f"{min(values):.6f}", f"{max(values):.6f}"])
    head = ["cells", "steps", "scheme", "l1", "l2", "l-infinity", "order of l2", "least", "greatest"]
    return table(f"{name}, once round at Courant number 0.4", head, rows)


def fine_convergence(name, profile, engine, resolutions):
    """l2 with its order by five schemes, and how far the engine is from the same scheme in real numbers."""
    rows, last = [], [None] * 5
    for cells in resolutions:
        ring = Ring(profile, cells)
        whole, real = ring.by_engine(engine), ring.by_reals()
        errors = [norms(values, ring.exact)[1]
                  for values in (ring.by_upwind(engine), whole, real, ring.by_reals(cancelled=False), ring.by_reals(limited=False))]
        row = [str(cells)]
        for error, before in zip(errors, last):
            row += [f"{error:.6f}", f"{order(before, error):.2f}" if before else ""]
        rows.append(row + [f"{norms(whole, real)[1]:.1e}"])
        last = errors
    head = ["cells", "plain upwind", "order", "engine", "order", "in reals", "order", "in reals, before S-5", "order",
            "in reals, no limiter", "order", "engine against reals"]
    return table(f"{name}: l2 and its order", head, rows)


def rounding(title, rings, engine):
    """How far the engine is from real numbers, for rings that differ in what the first column says."""
    rows = []
    for label, ring in rings:
        whole, real = ring.by_engine(engine), ring.by_reals()
        rows.append([label, f"{norms(whole, ring.exact)[1]:.4f}", f"{norms(real, ring.exact)[1]:.4f}",
                     f"{norms(whole, real)[1]:.1e}"])
    return table(f"Smooth profile, 80 cells, by {title}", [title, "engine", "in reals", "engine against reals"], rows)


# ---------------------------------------------------------------- Picture

PANEL, HIGH, EDGE, GAP = 400, 220, 60, 68       # the width and height of a panel, the edge around, between panels


def polyline(points, style):
    return f'<polyline points="{" ".join(f"{x:.1f},{y:.1f}" for x, y in points)}" fill="none" {style}/>'


def stairs(values, place):
    """A line that is level over each cell."""
    width = 1 / len(values)
    return [place(x, value) for i, value in enumerate(values) for x in (i * width, (i + 1) * width)]


def text(x, y, words, more=""):
    return f'<text x="{x:.1f}" y="{y:.1f}" {more}>{words}</text>'


def panel(left, title, exact, upwind, corrected):
    place = lambda x, value: (left + PANEL * x, EDGE + HIGH * (1 - value / 1.1))
    centres = lambda values: [place((i + 0.5) / len(values), value) for i, value in enumerate(values)]
    parts = [text(left, EDGE - 12, title, 'font-weight="bold"')]
    for value in (0, 0.25, 0.5, 0.75, 1):
        (x, y), (end, _) = place(0, value), place(1, value)
        parts.append(polyline([(x, y), (end, y)], 'stroke="#ddd"'))
        parts.append(text(x - 6, y + 4, f"{value:g}", 'text-anchor="end"'))
    for x in (0, 0.25, 0.5, 0.75, 1):
        parts.append(text(place(x, 0)[0], place(0, 0)[1] + 18, f"{x:g}", 'text-anchor="middle"'))
    (x, y), (middle, _) = place(0, 0.55), place(0.5, 0)
    parts.append(text(middle, place(0, 0)[1] + 36, "way round the ring", 'text-anchor="middle"'))
    parts.append(text(x - 42, y, "concentration / greatest", f'text-anchor="middle" transform="rotate(-90 {x - 42:.1f} {y:.1f})"'))
    parts.append(polyline(stairs(exact, place), 'stroke="#777" stroke-width="1.2"'))
    parts.append(polyline(centres(upwind), 'stroke="#c25400" stroke-width="2" stroke-dasharray="6 4"'))
    parts.append(polyline(centres(corrected), 'stroke="#0b5fa5" stroke-width="2"'))
    return parts + [f'<circle cx="{x:.1f}" cy="{y:.1f}" r="2.4" fill="#0b5fa5"/>' for x, y in centres(corrected)]


def legend(y):
    parts, x = [], EDGE
    for name, style in (("exact, mean over each cell", 'stroke="#777" stroke-width="1.2"'),
                        ("plain upwind, by the engine", 'stroke="#c25400" stroke-width="2" stroke-dasharray="6 4"'),
                        ("corrected, by the engine", 'stroke="#0b5fa5" stroke-width="2"')):
        parts += [polyline([(x, y - 4), (x + 30, y - 4)], style), text(x + 36, y, name)]
        x += 280
    return parts


def picture(engine):
    """Both profiles after one turn, as SVG."""
    wide, high = 2 * (EDGE + PANEL) + GAP, EDGE + HIGH + 80
    parts = [f'<svg xmlns="http://www.w3.org/2000/svg" viewBox="0 0 {wide} {high}" width="{wide}" height="{high}" '
             'font-family="sans-serif" font-size="12" fill="#222">',
             f'<rect width="{wide}" height="{high}" fill="#fff"/>']
    for left, name, profile in ((EDGE, "Smooth", smooth), (EDGE + PANEL + GAP, "Step", step)):
        ring = Ring(profile, PLOTTED)
        parts += panel(left, f"{name} profile, {PLOTTED} cells, after {ring.steps} steps once round",
                       ring.exact, ring.by_upwind(engine), ring.by_engine(engine))
    return "\n".join(parts + legend(high - 16) + ["</svg>"]) + "\n"


def main():
    parser = argparse.ArgumentParser(description=__doc__, formatter_class=argparse.RawDescriptionHelpFormatter)
    parser.add_argument("--call", required=True, help="a build of call_driver.c with the engine's library")
    parser.add_argument("--script", required=True, metavar="CALLS", help="the program calls")
    parser.add_argument("--svg", type=Path, help="write a plot of both profiles to this file")
    parser.add_argument("--fine", action="store_true", help="up to 640 cells, and a study of rounding")
    options = parser.parse_args()
    try:
        engine = Engine(options.call, options.script)
        lines = convergence("Smooth profile", smooth, engine, RESOLUTIONS)
        lines += convergence("Step profile", step, engine, RESOLUTIONS)
        if options.fine:
            lines += fine_convergence("Smooth profile", smooth, engine, RESOLUTIONS + FINE)
            lines += fine_convergence("A wave, smooth everywhere", wave, engine, RESOLUTIONS + FINE)
            lines += rounding("greatest concentration", [(f"{top:,}", Ring(smooth, 80, top=top)) for top in TOPS], engine)
            lines += rounding("volume of a cell", [(f"{V:,}", Ring(smooth, 80, volume=V)) for V in VOLUMES], engine)
        print("\n".join(lines))
        if options.svg:
            options.svg.write_text(picture(engine))
    except Bad as bad:
        sys.exit(f"accuracy: {bad}")
    complaint = engine.finish()
    if complaint:
        sys.exit(complaint)


if __name__ == "__main__":
    main()
