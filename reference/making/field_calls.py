"""Arguments of the calls on a field: pages, stores, what the public reads; and of charges."""

import lagoon
from lagoon import MASSES, MOST_NAME, MOVED, NEXT, SECONDS, TOP, VOLUMES
from making.lent import CELLS, COUNTS, EDGES, FACES, GREATEST, LEAST, MOST, Lent, many_cells, tables_for
from making.table_calls import on_cells, room_for
from script import Engine, answered, spell

ENGINE = Engine(lagoon)
# A name, at the edges and within.
NAMED = [0, 1, 2, 3, MOST_NAME, MOST_NAME + 1, GREATEST]


# ---------------------------------------------------------------- Pages

def page(rng, large, kinds):
    lent = tables_for(rng, (VOLUMES, MASSES), large, kinds)
    if rng.random() < 0.4:
        lent = many_cells(rng)
        kinds.append("pages")
    last = max(0, lent.cells - 1) // lagoon.PAGE_CELLS
    number = rng.choice([0, last, last, rng.randint(0, last), last + 1, last + 1, 1 << 58, GREATEST])
    kinds.append("page there" if number <= last else "page beyond")
    room = room_for(rng, lagoon.page_length(lent.tables[VOLUMES], lent.cells, number), kinds)
    return lent.cells, lent.tables[VOLUMES], lent.tables[MASSES], number, room


# ---------------------------------------------------------------- Stores

def a_store(rng, cells, lent, kinds):
    """A store of some fields of a lagoon, often with room, now and then broken."""
    count = rng.choice([0, 1, 1, 2, 3, 4])
    store = [count]
    for i in range(count):
        masses = [rng.choice([m, 0, rng.randint(0, V * (TOP + 1) - 1)]) for V, m in zip(lent.lag.volumes, lent.lag.masses)]
        store += [rng.choice([i + 1, i + 1, i + 1, 1, MOST_NAME]), *masses]
    store += [rng.choice([0, 7, GREATEST]) for _ in range(rng.choice([0, cells, cells + 1, cells + 2, 3 * cells + 3]))]
    damage = rng.choice(["none"] * 6 + ["none kept", "count", "wraps", "cut", "empty", "name", "mass", "mass", "mass"])
    kinds.append("store: " + damage)
    if damage == "none kept":
        store[0] = 0
    elif damage == "count":
        store[0] = rng.choice([count + 1, (len(store) - 1) // (cells + 1), (len(store) - 1) // (cells + 1) + 1])
    elif damage == "wraps":
        store[0] = rng.choice([GREATEST, GREATEST // (cells + 1), GREATEST // (cells + 1) + 1, (1 << 64) // (cells + 1)])
    elif damage == "cut":
        del store[rng.randrange(len(store)) + 1:]
    elif damage == "empty":
        store = []
    elif damage == "name" and count:
        store[1 + rng.randrange(count) * (cells + 1)] = rng.choice(NAMED)
    elif damage == "mass" and count and cells:
        cell = rng.randrange(cells)
        limit = lent.lag.volumes[cell] * (TOP + 1)
        store[2 + rng.choice([0, rng.randrange(count)]) * (cells + 1) + cell] = rng.choice([limit - 1, limit, limit, *EDGES[MASSES]])
    return store

def with_store(names):
    """Arguments of a store call: on a lagoon whose volumes or masses may be damaged."""
    def make(rng, large, kinds):
        lent = tables_for(rng, (VOLUMES, MASSES), False, kinds)
        store = a_store(rng, len(lent.lag.volumes), lent, kinds)
        name = rng.choice([store[1]] * 5 + NAMED if len(store) > 1 else NAMED)
        tables = {"volumes": lent.tables[VOLUMES], "masses": lent.tables[MASSES], "store": store}
        return (lent.cells, *(tables[table] for table in names), name)
    return make

def store_list(rng, kinds):
    """Steps, corrected and plain, and store calls one after another on one lagoon and one store, each on what the last has left."""
    lent = Lent(rng)
    cells, volumes, masses = lent.cells, lent.tables[VOLUMES], lent.tables[MASSES]
    store = [0] * (1 + rng.choice([1, 2, 3]) * (cells + 1) + rng.choice([0, cells]))
    calls = []
    for _ in range(rng.randint(6, 14)):
        name = rng.choice(["keep", "keep", "keep", "drop", "give_back", "give_back", "step", "step", "plain_step", "plain_step"])
        arguments = {
            "keep": (cells, volumes, masses, store, rng.randint(1, 4)),
            "drop": (cells, store, rng.randint(1, 4)),
            "give_back": (cells, volumes, masses, store, rng.randint(1, 4)),
        }.get(name, (cells, lent.faces, *lent.tables.values()))
        calls.append(spell(name, *arguments))
        answer = answered(ENGINE, name, arguments)
        kinds.append(f"list: {name}{answer.split()[0].rjust(9)}")
        if name in ("step", "plain_step") and answer.startswith(" accepted"):
            masses[:cells] = lent.tables[NEXT][:cells]
    return "".join(calls)


# ---------------------------------------------------------------- What the public reads

def some_marks(rng, cells, kinds):
    """Marks of cells, few or many withheld, now and then too few or another."""
    share = rng.choice([0, 0.1, 0.5, 0.9, 1])
    marks = [int(rng.random() < share) for _ in range(min(cells, CELLS))]
    damage = rng.choice(["none"] * 6 + ["short", "another", "longer"])
    kinds.append("marks: " + damage)
    if damage == "short" and marks:
        marks.pop()
    elif damage == "another" and marks:
        marks[rng.randrange(len(marks))] = rng.choice([2, 255, GREATEST])
    elif damage == "longer":
        marks += [rng.choice([0, 1, 2, GREATEST]) for _ in range(3)]
    return marks

def public_page(rng, large, kinds):
    arguments = page(rng, large, kinds)
    return (*arguments, some_marks(rng, arguments[0], kinds))

def public_board(rng, large, kinds):
    arguments = on_cells(rng, large, kinds)
    return (*arguments, some_marks(rng, arguments[0], kinds))


# ---------------------------------------------------------------- Charges

def add(rng, large, kinds):
    """A step's moved masses, or any, added to totals from 0 to past the ceiling."""
    lent = tables_for(rng, (SECONDS, MOVED), large, kinds)
    top = lagoon.LAST_END
    if rng.random() < 0.5:
        answered(ENGINE, "step", (lent.cells, lent.faces, *lent.tables.values()))
    for f in range(len(lent.tables[MOVED])):
        if rng.random() < 0.1:
            lent.tables[MOVED][f] = rng.choice([0, 1, -1, top, top + 1, -top, LEAST, MOST])
    faces = rng.choice(COUNTS) if rng.random() < 0.1 else lent.faces
    edge = rng.random() < 0.4
    totals = [rng.choice([0, rng.randint(0, 1 << 33), *([top - 1, top, top + 1, GREATEST] if edge else [])])
              for _ in range(max(0, min(lent.faces, FACES) + rng.choice([-1, 0, 0, 0, 0, 2])))]
    for f in range(min(lent.faces, len(totals), len(lent.tables[MOVED]))):
        if edge and lent.tables[MOVED][f] > 0 and rng.random() < 0.3:
            totals[f] = max(0, top - lent.tables[MOVED][f]) + rng.choice([0, 0, 1])
    kinds.append("totals at the ceiling" if edge else "totals")
    return faces, lent.tables[SECONDS], lent.tables[MOVED], totals

def charge(rng, large, kinds):
    """A total and its bands, at the ends of bands and of the ranges, with a damage now and then."""
    top, units = lagoon.LAST_END, lagoon.UNITS
    bands = rng.randint(1, lagoon.MOST_BANDS)
    ends = sorted(rng.sample([rng.randint(1, top - 1) for _ in range(20)] + list(range(1, 10)), bands - 1)) + [top]
    prices = [rng.choice([0, 1, units, rng.randint(0, units)]) for _ in ends]
    total = rng.choice([0, 1, top - 1, top, rng.randint(0, top), *ends, *(end + 1 for end in ends)])
    remainder = rng.choice([0, 1, units - 1, rng.randrange(units)])
    damage = rng.choice(["none"] * 8 + ["ends", "end", "price", "last", "remainder", "bands", "short ends", "short prices", "longer"])
    kinds.append("charge: " + damage)
    i = rng.randrange(bands)
    if damage == "ends" and i:
        ends[i] = ends[i - 1] + rng.choice([-1, 0])
    elif damage == "end":
        ends[i] = rng.choice([0, top, top + 1, GREATEST])
    elif damage == "last":
        ends[-1] += rng.choice([-1, 1])
    elif damage == "price":
        prices[i] = rng.choice([units + 1, GREATEST])
    elif damage == "remainder":
        remainder = rng.choice([units, GREATEST])
    elif damage == "bands":
        bands = rng.choice([0, lagoon.MOST_BANDS + 1, 1 << 61, GREATEST])
    elif damage == "short ends":
        del ends[bands - 1:]
    elif damage == "short prices":
        del prices[bands - 1:]
    elif damage == "longer":
        ends, prices = ends + [0, GREATEST], prices + [GREATEST]
    return total, bands, ends, prices, remainder

def charge_list(rng, kinds):
    """Charges one after another, each given the remainder that the last handed on."""
    remainder, calls = 0, []
    for _ in range(rng.randint(3, 8)):
        total, bands, ends, prices, _ = charge(rng, False, kinds)
        calls.append(spell("charge", total, bands, ends, prices, remainder))
        answer = answered(ENGINE, "charge", (total, bands, ends, prices, remainder))
        if answer.startswith(" accepted"):
            remainder = int(answer.split()[2])
    return "".join(calls)
