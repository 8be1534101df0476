"""Arguments of the calls on tables: counts, checks, steps, judging, cutting, writers."""

import lagoon
from lagoon import CLAIM_TABLES, CUT_TABLES, FLUXES, MASSES, MOVED, OUTFALLS, OUTSIDES, RELEASES, RIM, SECONDS, VOLUMES, WATER
from making.lent import CELLS, COUNTS, EDGES, GREATEST, LEAST, MESH_TABLES, MOST, Lent, tables_for
from script import TOLD_NARROW, TOLD_WIDE


# ---------------------------------------------------------------- Tables alone

def counts_within(rng, large, kinds):
    cells, faces = rng.choice(COUNTS), rng.choice(COUNTS)
    return (rng.choice(COUNTS + [cells, cells]), rng.choice(COUNTS + [faces, faces]), cells, faces)

def on_mesh(positions):
    def make(rng, large, kinds):
        lent = tables_for(rng, positions, large, kinds)
        return (lent.cells, lent.faces, *(lent.tables[position] for position in positions))
    return make

def on_cells(rng, large, kinds):
    lent = tables_for(rng, (VOLUMES, MASSES), large, kinds)
    return lent.cells, lent.tables[VOLUMES], lent.tables[MASSES]


# ---------------------------------------------------------------- Judging

def judged(rng, large, kinds):
    """A claim: the moved masses of a step on the same tables, as they are or with one of them or some changed."""
    lent = tables_for(rng, CLAIM_TABLES, large, kinds)
    claim = lent.tables[MOVED]
    advance = rng.choice([lagoon.advance, lagoon.advance_plain])
    try:
        found = lagoon.judge_step(lent.cells, lent.faces, lent.tables, CLAIM_TABLES)
    except lagoon.Refusal:
        pass
    else:
        claim[:lent.faces] = advance(*found).moved
        kinds.append("own claim")
        for f in rng.sample(range(lent.faces), min(lent.faces, rng.choice([0, 0, 1, 1, 2]))):
            claim[f] = rng.choice([claim[f] + 1, claim[f] - 1, -claim[f], 0, claim[f] + rng.randint(-100, 100), LEAST, MOST,
                                   lagoon.MOST_CLAIMED, -lagoon.MOST_CLAIMED, lagoon.MOST_CLAIMED + 1, -lagoon.MOST_CLAIMED - 1])
            kinds.append("changed claim")
    return (lent.cells, lent.faces, *(lent.tables[position] for position in CLAIM_TABLES))


# ---------------------------------------------------------------- Cutting

def some_labels(rng, cells, kinds):
    """Labels of cells, now and then all the same, another one, too few or too many."""
    share = rng.choice([0.1, 0.5, 0.5, 0.9])
    labels = [int(rng.random() < share) for _ in range(min(cells, CELLS))]
    damage = rng.choice(["none"] * 12 + ["all 0", "all 1", "another", "short", "longer"])
    kinds.append("labels: " + damage)
    if damage in ("all 0", "all 1"):
        labels = [int(damage[-1])] * len(labels)
    elif len(labels) > 1 and damage != "another":
        labels[rng.randrange(len(labels))] ^= len(set(labels)) == 1         # both parts have a cell
    if damage == "another" and labels:
        labels[rng.randrange(len(labels))] = rng.choice([2, 3, RIM, GREATEST])
    elif damage == "short" and labels:
        labels.pop()
    elif damage == "longer":
        labels += [rng.choice([0, 1, 2, GREATEST]) for _ in range(3)]
    return labels

def for_a_part(rng, lent, kinds):
    """Tables lent for a part: as long as the whole's or longer, one of them now and then too short."""
    longer, short = rng.choice([0, 0, 2]), rng.choice(CUT_TABLES) if rng.random() < 0.15 else None
    if short is not None:
        kinds.append(f"a part's table short {short}")
    tables = []
    for position in CUT_TABLES:
        need = len(lent.lag.volumes if position in (VOLUMES, MASSES, RELEASES) else lent.lag.faces)
        length = need + longer if position != short else max(0, need - rng.choice([1, 1, need]))
        tables.append([-7 if position == FLUXES else 7] * length)
    return tables

def cut(rng, large, kinds):
    """A lagoon, whole or damaged, its labels, and tables for both parts. One as large as others would not be a call any more."""
    lent = tables_for(rng, CUT_TABLES, False, kinds)
    if rng.random() < 0.3:
        lent = Lent(rng)
    labels = some_labels(rng, lent.cells, kinds)
    return (lent.cells, lent.faces, *(lent.tables[position] for position in CUT_TABLES), labels,
            *for_a_part(rng, lent, kinds), *for_a_part(rng, lent, kinds))


# ---------------------------------------------------------------- Writers

def told(rng, lag, kinds):
    """The width that a call is told first, as a rule the lagoon's."""
    width = rng.choice([TOLD_WIDE if lag.wide else TOLD_NARROW] * 6 + [TOLD_NARROW, TOLD_WIDE, 2])
    kinds.append(f"width {width}")
    return width

def room_for(rng, need, kinds):
    room = rng.choice(["enough", "enough", "more", "more", "short by one", "short", "none"])
    kinds.append("room " + room)
    return [0xA5] * {"enough": need, "more": need + rng.randint(1, 9), "short by one": max(0, need - 1),
                     "short": rng.randrange(need + 1), "none": 0}[room]

def write_step(rng, large, kinds):
    lent = tables_for(rng, (*MESH_TABLES, FLUXES, OUTSIDES, RELEASES), large, kinds)
    kind = rng.choice([WATER, WATER, OUTFALLS, OUTFALLS, OUTFALLS])
    if kind == WATER and rng.random() < 0.8:
        lent.tables[RELEASES] = [0] * len(lent.tables[RELEASES])
    if rng.random() < 0.2:
        lent = Lent(rng)
        lent.tables[RELEASES][rng.randrange(lent.cells)] = rng.choice(EDGES[RELEASES])
        kinds.append("release at an edge")
    kinds.append(f"written as kind {kind}")
    width = told(rng, lent.lag, kinds)
    need = lagoon.step_length(lagoon.of_width(kind, width != TOLD_NARROW), lent.cells, lent.faces, lent.tables[SECONDS])
    room = room_for(rng, need if need <= 60_000 else 64, kinds)
    return (width, kind, lent.cells, lent.faces, *(lent.tables[position] for position in (*MESH_TABLES, FLUXES, OUTSIDES)), room,
            lent.tables[RELEASES])

def writer(positions, length):
    def make(rng, large, kinds):
        lent = tables_for(rng, positions, large, kinds)
        width = told(rng, lent.lag, kinds)
        need = length(lent, width != TOLD_NARROW)
        room = room_for(rng, need if need <= 60_000 else 64, kinds)
        return (width, lent.cells, lent.faces, *(lent.tables[position] for position in positions), room)
    return make
