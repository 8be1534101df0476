"""Arguments of the calls on records: lengths, reading, numbers at a bit, taking, the host's call."""

import generate
import lagoon
from lagoon import (CELLS_BITS, FACES_BITS, FIELD_HEAD, KIND_BITS, LAST_BIT, MASSES, MESH_HEAD, MOST_BITS, OUTSIDE_BITS, RIM, SECONDS, SHARE_BITS,
                    SIGN_BITS, STEP_HEAD, VOLUMES)
from making.damage import ALL_DAMAGE, FIELD_DAMAGE, MESH_DAMAGE, STEP_DAMAGE, spoil
from making.lagoons import Lagoon
from making.lent import CELLS, COUNTS, EDGES, FACES, FIELD_TABLES, GREATEST, Lent, pick_size, tables_for
from making.table_calls import told

FIELD_WIDTHS = SIGN_BITS, KIND_BITS, SHARE_BITS, CELLS_BITS, FACES_BITS, OUTSIDE_BITS, lagoon.NARROW.mass


# ---------------------------------------------------------------- Raw records and tables to be filled

def raw_records(rng, large, kinds, damages):
    """The raw records of a lagoon, one of them damaged as a rule, and the lagoon."""
    lag = Lagoon(rng, pick_size(rng, large))
    mesh, field, step = lag.raw_mesh(), lag.raw_field(), lag.raw_step(rng)
    for _ in range(rng.choice([0, 1, 1, 2])):
        damage = rng.choice(damages)
        raw = mesh if damage in MESH_DAMAGE else field if damage in FIELD_DAMAGE else step
        if raw.cut is None and damage(rng, lag, raw) is not False:
            kinds.append(damage.__name__)
    for raw in (mesh, field, step):
        if rng.random() < 0.08:
            raw.tail = rng.choice([b"\0", rng.randbytes(2)])
    return lag, mesh, field, step

def spoilt(rng, record):
    return list(spoil(rng, record)[1] if rng.random() < 0.1 else record)

def filled(rng, need, value, kinds):
    """A table to be filled: as long as it has to be, longer, or too short."""
    length = rng.choice([need, need, need + 1, need + 3, max(0, need - 1), rng.randint(0, need)])
    kinds.append("short table" if length < need else "longer table" if length > need else "exact table")
    return [value] * length

def limits_for(rng, cells, faces):
    return rng.choice([(CELLS, FACES), (CELLS, FACES), (CELLS, FACES), lagoon.RUN_LIMITS, (cells, faces), (GREATEST, GREATEST),
                       (max(0, cells - 1), faces), (cells, max(0, faces - 1)), (rng.choice(COUNTS), rng.choice(COUNTS))])


# ---------------------------------------------------------------- Lengths and reading

def mesh_of(rng, large, kinds):
    lag, mesh, _, _ = raw_records(rng, large, kinds, MESH_DAMAGE)
    if rng.random() < 0.1:
        mesh.count = FACES + 1
    return len(lag.volumes), len(lag.faces), mesh.bytes()

def mesh_length(rng, large, kinds):
    cells, faces, record = mesh_of(rng, False, kinds)
    return (*limits_for(rng, cells, faces), spoilt(rng, record[:rng.choice([MESH_HEAD, MESH_HEAD, MESH_HEAD + 1, len(record)])]))

def read_mesh(rng, large, kinds):
    cells, faces, record = mesh_of(rng, large, kinds)
    tables = [filled(rng, faces if i else cells, 7, kinds) if rng.random() < 0.3 else [7] * (faces if i else cells)
              for i in range(5)]
    return (*limits_for(rng, cells, faces), spoilt(rng, record), *tables)

def field_of(rng, large, kinds):
    lag, _, field, _ = raw_records(rng, large, kinds, FIELD_DAMAGE)
    cells = len(lag.volumes)
    if rng.random() < 0.1:
        field.cells, cells = 0, 0
    elif rng.random() < 0.1:
        cells = rng.choice(COUNTS + [cells + 1])
    return told(rng, lag, kinds), cells, field.bytes(), len(lag.volumes)

def field_length(rng, large, kinds):
    width, cells, record, _ = field_of(rng, False, kinds)
    return width, cells, spoilt(rng, record[:rng.choice([FIELD_HEAD, FIELD_HEAD, FIELD_HEAD + 1, len(record)])])

def read_field(rng, large, kinds):
    width, cells, record, need = field_of(rng, large, kinds)
    return width, cells, spoilt(rng, record), filled(rng, need, 7, kinds)

def step_of(rng, large, kinds):
    lag, _, _, step = raw_records(rng, large, kinds, STEP_DAMAGE)
    cells, faces, seconds = len(lag.volumes), len(lag.faces), [row[1] for row in lag.faces]
    if rng.random() < 0.1:
        step.count = faces = FACES + 1
    elif rng.random() < 0.1:
        faces = rng.choice(COUNTS + [faces + 1])
    if rng.random() < 0.1:
        cells = rng.choice(COUNTS + [cells + 1])
    kinds.append(f"kind {step.kind}")
    change = rng.choice(["none", "none", "none", "longer", "short", "other"])
    if change == "longer":
        seconds += [rng.choice(EDGES[SECONDS])]
    elif change == "short":
        seconds = seconds[:-1]
    elif change == "other" and seconds:
        seconds[rng.randrange(len(seconds))] = rng.choice([RIM, 0, GREATEST])
    kinds.append("seconds " + change)
    return (told(rng, lag, kinds), cells, faces, seconds), step.bytes(), lag

def step_length(rng, large, kinds):
    expected, record, _ = step_of(rng, False, kinds)
    return *expected, spoilt(rng, record[:rng.choice([STEP_HEAD, STEP_HEAD, STEP_HEAD + 1, len(record)])])

def read_step(rng, large, kinds):
    expected, record, lag = step_of(rng, large, kinds)
    needs = ((len(lag.faces), -7), (len(lag.faces), 7), (len(lag.volumes), 7))
    tables = [filled(rng, need, value, kinds) if rng.random() < 0.5 else [value] * need for need, value in needs]
    return *expected, spoilt(rng, record), *tables

def number_at(rng, large, kinds):
    record = list(rng.randbytes(rng.choice([0, 1, 5, 6, 9, 30])))
    bits = 8 * len(record)
    width = rng.choice([0, *FIELD_WIDTHS, MOST_BITS - 1, MOST_BITS, MOST_BITS + 1, rng.choice([64, GREATEST])])
    last = max(0, bits - width)
    bit = rng.choice([0, last, last, rng.randint(0, last), rng.randint(0, last), last + 1,
                      rng.choice([bits, bits + 1, LAST_BIT, LAST_BIT + 1, GREATEST])])
    return record, bit, width


# ---------------------------------------------------------------- Records taken

def harmed_call(rng):
    """The number of a call of generate.py with one damage, in half of them to its step."""
    damages = rng.choice([MESH_DAMAGE, FIELD_DAMAGE, STEP_DAMAGE, STEP_DAMAGE])
    return 2 + 4 * ALL_DAMAGE.index(rng.choice(damages))

def lagoon_step(rng, large, kinds):
    other = 4 * rng.randrange(200)
    case = generate.call(rng.getrandbits(32), 40 if large else rng.choice([other + 1, other + 3] + [harmed_call(rng)] * 3))
    kinds.extend(case.kinds)
    return list(case.mesh), list(case.field), list(case.step), [0xA5] * case.room

def harmed(rng, lent, raw, damages, kinds, chance=0.5):
    """A record of this lagoon, damaged with this chance."""
    if rng.random() < chance:
        damage = rng.choice(damages)
        if damage(rng, lent.lag, raw) is not False:
            kinds.append(damage.__name__)
    return spoilt(rng, raw.bytes())

def take_mesh(rng, large, kinds):
    cells, faces, record = mesh_of(rng, False, kinds)
    tables = [filled(rng, need, 7, kinds) if rng.random() < 0.2 else [7] * need for need in (cells, faces, faces, faces, faces)]
    return (spoilt(rng, record), *tables)

def take_field(rng, large, kinds):
    lent = tables_for(rng, (VOLUMES, MASSES), large, kinds)
    field = lent.lag.raw_field()
    if rng.random() < 0.05:
        lent.cells = 0
    if lent.cells <= CELLS:
        field.cells = lent.cells
    return told(rng, lent.lag, kinds), lent.cells, harmed(rng, lent, field, FIELD_DAMAGE, kinds), lent.tables[VOLUMES], lent.tables[MASSES]

def take_step(rng, large, kinds):
    whole = rng.random() < 0.4              # damage to the tables hides what is wrong with the record
    lent = Lent(rng, large) if whole else tables_for(rng, FIELD_TABLES, large, kinds)
    step = lent.lag.raw_step(rng)
    if rng.random() < 0.05:
        lent.faces = FACES + 1
    if lent.faces <= FACES + 1:
        step.count = lent.faces
    record = harmed(rng, lent, step, STEP_DAMAGE, kinds, 0.8 if whole else 0.2)
    return (told(rng, lent.lag, kinds), lent.cells, lent.faces, record, *(lent.tables[position] for position in FIELD_TABLES))
