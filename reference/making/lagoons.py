"""Valid lagoons with a valid field, and steps on them: shapes, volumes and salt of several styles, balanced water, releases."""

import lagoon
from lagoon import CEILING, MOST_SHARE, OLD_CEILING, RIM, TOP
from making.raw import RawField, RawMesh, RawStep

HALF = 128              # the share of a face in the middle
RUN_CELLS, RUN_FACES = lagoon.RUN_LIMITS


# ---------------------------------------------------------------- Shapes

# Each shape gives the pairs of cells that faces join, RIM as second at the rim.

def channel(rng, cells, most):
    return [(0, RIM)] + [(i, i + 1) for i in range(cells - 1)] + [(cells - 1, RIM)]

def ring(rng, cells, most):
    return [(i, (i + 1) % cells) for i in range(cells)] + [(rng.randrange(cells), RIM) for _ in range(rng.randrange(3))]

def grid(rng, cells, most):
    pairs = []
    wide = rng.randint(2, max(2, int(cells ** 0.5) + 1))
    for i in range(cells):
        if (i + 1) % wide and i + 1 < cells:
            pairs.append((i, i + 1))
        if i + wide < cells:
            pairs.append((i, i + wide))
        if (i % wide == 0 or (i + 1) % wide == 0) and rng.random() < 0.5:
            pairs.append((i, RIM))
    return pairs

def any_pairs(rng, cells, most):
    pairs = [(i, rng.randrange(i)) for i in range(1, cells)]
    for _ in range(rng.randint(0, 2 * cells)):
        first = rng.randrange(cells)
        second = rng.choice([rng.randrange(cells), rng.randrange(cells), RIM])
        if first != second:
            pairs.append((first, second))
    return pairs

def braid(rng, cells, most):
    pairs = []
    for i in range(cells - 1):
        pairs += [(i, i + 1)] * rng.randint(1, 3)
    return pairs + [(rng.choice([0, cells - 1]), RIM) for _ in range(rng.randint(0, 4))]

def star(rng, cells, most):
    return [(0, i) for i in range(1, cells)] + [(i, RIM) for i in range(cells) if rng.random() < 0.7]

def sieve(rng, cells, most):
    return [(i, RIM) for i in range(cells) for _ in range(2)] + [(i, i + 1) for i in range(cells - 1) if rng.random() < 0.3]

def pool(rng, cells, most):
    return [(0, RIM)] * rng.choice([rng.randint(0, 6), most])

def still(rng, cells, most):
    return []

SHAPES = {"channel": channel, "ring": ring, "grid": grid, "random": any_pairs, "braid": braid, "star": star, "sieve": sieve}
OF_ONE_CELL = {"pool": pool, "still": still}

def layout(rng, cells, most, fill):
    """A shape's name and its pairs, in any order and either direction: at most `most`, at least `fill`."""
    shape = rng.choice(list(SHAPES)) if cells > 1 else rng.choice(["pool", "pool", "pool", "still"])
    pairs = {**SHAPES, **OF_ONE_CELL}[shape](rng, cells, most)[:most]
    while len(pairs) < fill:
        first, second = rng.randrange(cells), rng.randrange(cells)
        if first != second:
            pairs.append((first, second))
    pairs = [(b, a) if b != RIM and rng.random() < 0.5 else (a, b) for a, b in pairs]
    if rng.random() < 0.5:
        rng.shuffle(pairs)
    return shape, pairs


# ---------------------------------------------------------------- Values

def near_ceilings(rng, top):
    """A value about the old ceiling or the new one, up to the top."""
    return rng.choice([value for value in (OLD_CEILING - 1, OLD_CEILING, OLD_CEILING + 1, CEILING - 1, CEILING) if value <= top])

def pick_volume(rng, style, top=OLD_CEILING):
    return {"one": 1, "top": top, "hundred": 100, "small": rng.randint(1, 12), "any": rng.randint(1, top),
            "ends": rng.choice([1, 2, top - 1, top]), "middle": rng.randint(80, 400), "ceilings": near_ceilings(rng, top),
            "upper": rng.randint(top // 2, top), "dozens": 12 * rng.choice([1, 2, 3, 5, 341])}[style]

def pick_concentration(rng, style, cell, cells):
    return {"front": TOP if cell < cells // 2 else 0, "any": rng.randint(0, TOP), "low": rng.randint(0, 6),
            "ends": rng.choice([0, 1, TOP - 1, TOP]), "even": 777, "top": TOP, "empty": 0,
            "spike": rng.choice([0, 0, 0, rng.randint(0, TOP)]),
            "teeth": TOP // 3 * (cell % 3)}[style]


# ---------------------------------------------------------------- Water

FORWARD, BACKWARD = 0, 1        # ways through a face: from its first cell, and to it
DRAWN = 6                       # doors drawn before all of a cell are looked at, since it may have thousands

class Water:
    """Fluxes that stay balanced: they grow along closed loops, and along paths from rim to rim."""

    def __init__(self, lag, excess):
        self.lag, self.fluxes = lag, [0] * len(lag.faces)
        most = [K or lag.top for *_, K in lag.faces]
        self.spare = most, list(most)                           # by which a flux may still grow, forward and backward
        self.left = [V + excess for V in lag.volumes]           # what may still flow out of a cell

    def usable(self, doors, used, to_rim):
        """Those of the doors through which more may flow."""
        spare = self.spare
        return (door for door in doors if spare[door[1]][door[0]] and door[0] != used and (to_rim or door[2] != RIM))

    def pick_door(self, rng, cell, used, to_rim):
        doors = self.lag.doors[cell]
        drawn = (rng.choice(doors) for _ in range(min(DRAWN, len(doors))))
        for door in self.usable(drawn, used, to_rim):
            return door
        doors = list(self.usable(doors, used, to_rim))
        return rng.choice(doors) if doors else None

    def walk(self, rng, from_rim):
        """A closed loop, or a path from rim to rim, along which the flux may still grow: face, way, and the cell that it leaves."""
        path, order, used = [], {}, None                        # order: cell -> its place in the path
        if from_rim:
            used = rng.choice(self.lag.rims)
            if not self.spare[BACKWARD][used]:
                return None
            path.append((used, BACKWARD, None))
            cell = self.lag.faces[used][0]
        else:
            cell = rng.randrange(len(self.lag.doors))
        while True:
            order[cell] = len(path)
            door = self.pick_door(rng, cell, used, from_rim)
            if door is None:
                return None
            used, way, beyond = door
            path.append((used, way, cell))
            if beyond == RIM:
                return path
            if beyond in order:
                return path[order[beyond]:]
            cell = beyond

    def grow(self, path, amount):
        for face, way, cell in path:
            self.fluxes[face] += -amount if way else amount
            self.spare[way][face] -= amount
            self.spare[1 - way][face] = 0
            if cell is not None:
                self.left[cell] -= amount

    def rise(self, rng):
        """Walks until the tries or the budget are used up."""
        faces, rims = len(self.lag.faces), self.lag.rims
        style = rng.choice(["full", "full", "any", "any", "unit"])
        tries = rng.choice([1, 2, 4]) if rng.random() < 0.3 else min(3 * faces + 4, 1500)
        budget = 40_000
        for _ in range(tries):
            path = self.walk(rng, bool(rims) and rng.random() < 0.6)
            budget -= 10 + len(path or [])
            if budget < 0:
                break
            if not path:
                continue
            most = min([self.spare[way][face] for face, way, _ in path] + [self.left[cell] for *_, cell in path if cell is not None])
            if most > 0:
                self.grow(path, {"full": most, "any": rng.randint(1, most), "unit": 1}[style])


# ---------------------------------------------------------------- Lagoons

class Lagoon:
    """A valid mesh with a valid field."""

    def __init__(self, rng, size):
        cells, most, fill = size
        self.wide = rng.random() < 0.35         # records of kinds 5 to 8, with larger cells as a rule
        self.top = CEILING if self.wide and rng.random() < 0.8 else OLD_CEILING
        # Large cells, long reaches, faces close to one centre and steep salt: of their steps many have products past 64 bits.
        self.steep = self.top == CEILING and rng.random() < 0.6
        self.shape, pairs = layout(rng, cells, most, fill)
        style = rng.choice(["upper"] if self.steep else
                           ["one", "top", "hundred", "small", "any", "ends", "middle", "middle", "any", "dozens", "ceilings"])
        self.volumes = [pick_volume(rng, style, self.top) for _ in range(cells)]
        self.faces = self.pick_faces(rng, pairs)
        self.rims = [face for face, row in enumerate(self.faces) if row[1] == RIM]
        self.doors = [[] for _ in range(cells)]         # per cell: face, way of leaving, cell beyond
        for face, (first, second, _, _) in enumerate(self.faces):
            self.doors[first].append((face, FORWARD, second))
            if second != RIM:
                self.doors[second].append((face, BACKWARD, first))
        self.salt = rng.choice(["any", "ends", "teeth"] if self.steep else
                               ["front", "any", "low", "ends", "even", "top", "spike", "teeth", "front", "any", "empty"])
        self.masses = self.pick_masses(rng)

    def pick_faces(self, rng, pairs):
        """The faces of the pairs as first, second, share and reach."""
        shares = rng.choice(["ends", "ends", "any"] if self.steep else ["half", "any", "ends", "any"])
        reaches = rng.choice(["top", "volume"] if self.steep else ["one", "top", "ends", "any", "ceilings", "volume", "volume", "volume"])
        faces = []
        for first, second in pairs:
            if second == RIM:
                faces.append((first, RIM, 0, 0))
                continue
            s = {"half": HALF, "any": rng.randint(1, MOST_SHARE), "ends": rng.choice([1, MOST_SHARE])}[shares]
            near = self.volumes[first]
            K = {"one": 1, "top": self.top, "ends": rng.choice([1, self.top]), "any": rng.randint(1, self.top),
                 "ceilings": near_ceilings(rng, self.top), "volume": min(self.top, rng.randint(near, 2 * near))}[reaches]
            faces.append((first, second, s, K))
        return faces

    def pick_masses(self, rng):
        rest = rng.choice(["any", "none", "most", "parts"])
        masses = []
        for cell, V in enumerate(self.volumes):
            q = pick_concentration(rng, self.salt, cell, len(self.volumes))
            part = V * rng.randrange(12) // 12          # the same part of several volumes, exactly or nearly
            masses.append(q * V + {"any": rng.randrange(V), "none": 0, "most": V - 1, "parts": part}[rest])
        return masses

    def flow(self, rng, excess=0):
        """Balanced fluxes with |U| up to K and outflow up to V + excess."""
        water = Water(self, excess)
        if self.faces:
            water.rise(rng)
        return water.fluxes

    def outsides(self, rng, fluxes):
        style = rng.choice(["any", "zero", "top", "near", "ends"])
        values = [0] * len(fluxes)
        for face in self.rims:
            if fluxes[face] < 0:
                cell = self.faces[face][0]
                near = min(TOP, max(0, self.masses[cell] // self.volumes[cell] + rng.randint(-3, 3)))
                values[face] = {"any": rng.randint(0, TOP), "zero": 0, "top": TOP, "near": near,
                                "ends": rng.choice([0, TOP])}[style]
        return values

    def raw_mesh(self):
        return RawMesh(self.volumes, self.faces, self.wide)

    def raw_field(self):
        return RawField(self.masses, self.wide)

    def releases(self, rng):
        """A release per cell, or none at all. After steps the field is another, so a room that this one leaves may be gone."""
        style = rng.choice(["none"] * 6 + ["zero"] + ["small"] * 4 + ["room", "ends", "one"])
        if style == "none":
            return None
        rooms = [V * (TOP + 1) - 1 - m for V, m in zip(self.volumes, self.masses)]
        values = [{"zero": 0, "small": rng.randint(0, 3 * V), "room": rng.randint(0, room), "one": 0,
                   "ends": rng.choice([0, 0, 1, V - 1, room])}[style] for V, room in zip(self.volumes, rooms)]
        if style == "one":
            cell = rng.randrange(len(rooms))
            values[cell] = rng.choice([rooms[cell], rng.randint(0, rooms[cell])])
        return [min(value, room) for value, room in zip(values, rooms)]

    def raw_step(self, rng, excess=0):
        fluxes = self.flow(rng, excess)
        return RawStep(self.rims, fluxes, self.outsides(rng, fluxes), self.releases(rng), self.wide)


# ---------------------------------------------------------------- Sizes

# Cells, most faces and least faces of lagoons at the run's limits, taken in turn.
LIMITS = [(RUN_CELLS, RUN_FACES, RUN_FACES), (RUN_CELLS, RUN_FACES, 0), (2, RUN_FACES, RUN_FACES), (RUN_CELLS, 0, 0), (1, RUN_FACES, 0),
          (1000, RUN_FACES, 1500)]

def pick_size(rng, number):
    """Cells, most and least faces: of 40 lagoons one is at the limits, one between, the others are small."""
    if number % 40 == 0:
        return LIMITS[number // 40 % len(LIMITS)]
    if number % 40 == 20:
        cells = rng.randint(41, 700)
        return cells, RUN_FACES, rng.choice([0, 2 * cells])
    cells = rng.choice([1, 2, 3, rng.randint(1, 8), rng.randint(1, 8), rng.randint(4, 20), rng.randint(4, 40)])
    return cells, 80, 0

def size_kinds(lag):
    """Kinds that say how large a lagoon is, where it is not small."""
    cells, faces = len(lag.volumes), len(lag.faces)
    kinds = ["more than 40 cells"] if cells > 40 else []
    kinds += ["wide records"] * lag.wide + ["V above the old ceiling"] * (max(lag.volumes) > OLD_CEILING) + ["steep"] * lag.steep
    return kinds + [f"{RUN_CELLS:,} cells"] * (cells == RUN_CELLS) + [f"{RUN_FACES:,} faces"] * (faces == RUN_FACES)
