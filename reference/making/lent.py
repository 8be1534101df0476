"""Tables lent to a call by their positions: valid until damaged, as long as the counts, longer or shorter."""

import lagoon
from lagoon import (CEILING, FIRSTS, FLUXES, MASSES, MASS_BITS, MOST_SHARE, MOVED, NEXT, OLD_CEILING, OUTSIDES, REACHES, RELEASES, RIM, SECONDS,
                    SHARES, STEP_TABLES, TOP, VOLUMES, WORK)
from making.lagoons import Lagoon, pick_volume
from making.raw import all_ones

GREATEST = (1 << 64) - 1
LEAST, MOST = -(1 << 63), (1 << 63) - 1
CELLS, FACES = lagoon.LIBRARY_LIMITS
COUNTS = [0, 1, CELLS - 1, CELLS, CELLS + 1, FACES, FACES + 1, 1 << 16, 1 << 63, GREATEST]
FULL, OLD_FULL = (most * (TOP + 1) - 1 for most in (CEILING, OLD_CEILING))     # the most that a cell of the greatest volume may hold
MOST_RELEASE = [all_ones(width) for width in MASS_BITS]
MESH_TABLES = VOLUMES, FIRSTS, SECONDS, SHARES, REACHES
FIELD_TABLES = (*MESH_TABLES, MASSES)


def edges(*values):
    """0, 1, each value and the one after it, and the greatest entry."""
    return [0, 1, *(value + more for value in values for more in (0, 1)), GREATEST]


# Values at the edges of each table's range, by position.
EDGES = {
    VOLUMES: edges(OLD_CEILING, CEILING),
    FIRSTS: edges(RIM - 1, RIM),
    SECONDS: edges(RIM - 1, RIM),
    SHARES: edges(MOST_SHARE),
    REACHES: edges(OLD_CEILING, CEILING),
    MASSES: edges(OLD_FULL, FULL, *map(all_ones, MASS_BITS)),
    FLUXES: [0, 1, -1, MOST, LEAST] + [sign * (most + more) for most in (OLD_CEILING, CEILING) for more in (0, 1) for sign in (1, -1)],
    OUTSIDES: edges(TOP),
    NEXT: [7, GREATEST],
    MOVED: [-7, LEAST, MOST],
    WORK: [7, GREATEST],
    RELEASES: edges(*MOST_RELEASE, GREATEST - 1),
}


def pick_size(rng, large):
    """Cells, most and least faces of a lagoon."""
    if large:
        return rng.choice([(CELLS, FACES, FACES), (CELLS, FACES, 0), (2, FACES, FACES), (CELLS, 0, 0), (1, FACES, 0)])
    cells = rng.choice([1, 2, 3, rng.randint(1, 8), rng.randint(1, 8), rng.randint(4, 20)])
    return cells, 40, 0


class Lent:
    """Counts and the tables of a step by position, valid until damaged."""

    def __init__(self, rng, large=False):
        self.rng = rng
        self.lag = Lagoon(rng, pick_size(rng, large))
        self.cells, self.faces = len(self.lag.volumes), len(self.lag.faces)
        columns = [[row[i] for row in self.lag.faces] for i in range(4)]
        raw = self.lag.raw_step(rng)
        fluxes = [-size if sign else size for sign, size in zip(raw.signs, raw.sizes)]
        lent = (list(self.lag.volumes), *columns, list(self.lag.masses), fluxes, list(raw.outsides),
                [7] * self.cells, [-7] * self.faces, [7] * (4 * self.cells + self.faces), raw.releases or [0] * self.cells)
        self.tables = dict(zip(STEP_TABLES, lent, strict=True))

    def need(self, position):
        if position == WORK:
            return 4 * self.cells + self.faces
        return self.cells if position in (VOLUMES, MASSES, NEXT, RELEASES) else self.faces

    def damage(self, positions, kinds):
        """One damage to the tables at these positions, or to the counts."""
        rng = self.rng
        kind = rng.choice(["short", "short", "value", "value", "value", "counts", "counts", "near", "near"] + ["flow"] * 3 * (FLUXES in positions))
        position = rng.choice([*positions, VOLUMES, VOLUMES])           # all calls that have tables judge the volumes
        table = self.tables[position]
        if kind == "short":
            table = self.tables[rng.choice([p for p in positions if self.tables[p]] or [position])]
            del table[rng.choice([0, len(table) - 1, len(table) - 1, rng.randint(0, len(table))]):]
        elif kind == "counts":
            if rng.random() < 0.5:
                self.cells = rng.choice(COUNTS + [self.cells + 1, max(0, self.cells - 1)])
            else:
                self.faces = rng.choice(COUNTS + [self.faces + 1, max(0, self.faces - 1)])
        elif kind == "value" and table:
            table[rng.randrange(len(table))] = rng.choice(EDGES[position])
        elif kind == "near":
            self.near(rng, position)
        elif kind == "flow" and self.faces == len(self.lag.faces):
            self.flow(rng)
        kinds.append(f"{kind} {position}" if kind != "counts" else kind)

    def near(self, rng, position):
        """A value just within or just past what the other tables allow."""
        mesh = self.tables
        table = mesh[position]
        if not table:
            return
        i = rng.randrange(len(table))
        if position == MASSES and i < len(mesh[VOLUMES]):
            table[i] = mesh[VOLUMES][i] * (TOP + 1) - rng.randint(0, 1)
        elif position == RELEASES and i < min(len(mesh[VOLUMES]), len(mesh[MASSES])):
            room = mesh[VOLUMES][i] * (TOP + 1) - mesh[MASSES][i]
            table[i] = rng.choice([max(0, room - 1), max(0, room), GREATEST + 1 - max(1, mesh[MASSES][i])])
        elif position == FLUXES and i < min(len(mesh[SECONDS]), len(mesh[REACHES])):
            most = rng.choice([OLD_CEILING, CEILING]) if mesh[SECONDS][i] == RIM else mesh[REACHES][i]
            table[i] = rng.choice([-1, 1]) * (most + rng.randint(0, 1))
        elif position in (FIRSTS, SECONDS):
            table[i] = rng.choice([self.cells, self.cells - 1 if self.cells else 0, RIM - 1])
        elif position == OUTSIDES:
            table[i] = rng.choice([1, TOP, TOP + 1])

    def flow(self, rng):
        """Balanced water with outflow above a cell's volume; water out of balance by one; or a flux one past its reach."""
        change = rng.choice(["outflow", "outflow", "balance", "reach"])
        fluxes, counted = self.tables[FLUXES], min(self.faces, len(self.tables[FLUXES]))
        if change == "outflow":
            self.tables[FLUXES] = self.lag.flow(rng, rng.choice([1, 5, self.lag.top]))
            self.tables[OUTSIDES] = self.lag.outsides(rng, self.tables[FLUXES])
        elif counted:
            face = rng.randrange(counted)
            toward = -1 if fluxes[face] < 0 else 1
            fluxes[face] = toward * ((self.lag.faces[face][3] or CEILING) + 1) if change == "reach" else fluxes[face] - toward

    def lengthen(self, positions):
        """Entries past the counts, which nobody tests or touches."""
        for position in positions:
            extra = self.rng.choice([0, 0, 1, 3])
            self.tables[position] += [self.rng.choice(EDGES[position]) for _ in range(extra)]


def tables_for(rng, positions, large, kinds):
    lent = Lent(rng, large)
    if rng.random() < 0.5:
        lent.lengthen(positions)
        kinds.append("longer tables")
    for _ in range(rng.choice([0, 0, 1, 1, 2])):
        lent.damage(positions, kinds)
    if not large and rng.random() < 0.25:
        lent = one_short(rng, rng.choice(positions), kinds)
    return lent


def many_cells(rng):
    """Cells for some pages, the last of them full or not, with figures of any length; of those above the old ceiling maybe one alone."""
    lent = Lent(rng)
    lent.cells = rng.choice([59, 60, 61, 119, 120, 121, rng.randint(40, 200)])
    large = rng.choice(["none", "none", "one", "one", "any"])
    top = CEILING if large == "any" else OLD_CEILING
    lent.tables[VOLUMES] = [pick_volume(rng, rng.choice(["any", "ends", "small", "ceilings"]), top) for _ in range(lent.cells)]
    if large == "one":
        lent.tables[VOLUMES][rng.randrange(lent.cells)] = rng.randint(OLD_CEILING + 1, CEILING)
    lent.tables[MASSES] = [V * rng.choice([0, TOP, rng.randint(0, TOP)]) + rng.randrange(V) for V in lent.tables[VOLUMES]]
    return lent


def one_short(rng, position, kinds):
    """A valid lagoon with one table an entry too short."""
    lent = Lent(rng)
    while lent.need(position) == 0:
        lent = Lent(rng)
    del lent.tables[position][lent.need(position) - 1:]
    kinds.append(f"one short {position}")
    return lent
