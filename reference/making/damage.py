"""Damage to raw records, and to bytes. Each function named mesh_, field_ or step_ breaks one part of such a record of a lagoon and says
whether it could; its name is the kind of the damage."""

import lagoon
from lagoon import FIELD, MOST_SHARE, OUTFALLS, RIM, TOP
from making.lagoons import HALF, RUN_CELLS, RUN_FACES
from making.raw import all_ones, other_width, spare_bits

MOST_CELLS, MOST_FACES = all_ones(lagoon.CELLS_BITS), all_ones(lagoon.FACES_BITS)       # that a head can say


# ---------------------------------------------------------------- What several share

def set_padding(rng, raw):
    spare = spare_bits(raw.fields())
    if not spare:
        return False
    raw.padding = rng.choice([1, 1 << (spare - 1), rng.randint(1, all_ones(spare))])

def set_face(rng, raw, column, value, rim):
    faces = [row for row in raw.faces if rim is None or (row[1] == RIM) == rim]
    if not faces:
        return False
    rng.choice(faces)[column] = value
    return True

def other_counts(count, limit, most):
    """Counts that a head can say in the place of this one."""
    return [n for n in (0, count - 1, count + 1, limit + 1, most) if n != count and 0 <= n <= most]

def set_outside(rng, raw, wanted, value):
    faces = [face for face in raw.rims if wanted(raw.signs[face], raw.sizes[face])]
    if not faces:
        return False
    raw.outsides[rng.choice(faces)] = value
    return True


# ---------------------------------------------------------------- Of a mesh

# Each function breaks one part and says whether it could. The name is the kind.
def mesh_head_cut(rng, lag, raw):
    raw.cut = rng.randrange(lagoon.MESH_HEAD)

def mesh_body_cut(rng, lag, raw):
    raw.cut = rng.randint(lagoon.MESH_HEAD, len(raw.bytes()) - 1)

def mesh_last_byte_cut(rng, lag, raw):
    raw.cut = len(raw.bytes()) - 1

def mesh_kind(rng, lag, raw):
    raw.kind = rng.choice([kind for kind in range(1 << lagoon.KIND_BITS) if kind not in lagoon.MESH_BITS])

def mesh_kind_of_the_other_width(rng, lag, raw):
    raw.kind = other_width(raw.laid)

def mesh_of_the_other_width(rng, lag, raw):
    raw.turn_width()

def mesh_no_cells(rng, lag, raw):
    raw.cells = 0

def mesh_cells_beyond(rng, lag, raw):
    raw.cells = rng.choice([RUN_CELLS + 1, MOST_CELLS, rng.randint(RUN_CELLS + 1, MOST_CELLS)])

def mesh_faces_beyond(rng, lag, raw):
    raw.count = rng.choice([RUN_FACES + 1, MOST_FACES - 1, MOST_FACES, rng.randint(RUN_FACES + 1, MOST_FACES)])

def mesh_one_cell_more(rng, lag, raw):
    raw.cells = RUN_CELLS + 1
    raw.volumes += [1] * (raw.cells - len(raw.volumes))

def mesh_one_face_more(rng, lag, raw):
    raw.count = RUN_FACES + 1
    raw.faces += [[0, RIM, 0, 0] for _ in range(raw.count - len(raw.faces))]

def mesh_both_beyond(rng, lag, raw):
    mesh_cells_beyond(rng, lag, raw)
    mesh_faces_beyond(rng, lag, raw)

def mesh_other_counts(rng, lag, raw):
    raw.cells = min(MOST_CELLS, max(1, raw.cells + rng.choice([-1, 0, 1])))
    raw.count = min(MOST_FACES, max(0, raw.count + rng.choice([-1, 1])))

def mesh_zero_bit(rng, lag, raw):
    raw.zeros = rng.randint(1, all_ones(lagoon.MESH_ZEROS))

def mesh_padding_bit(rng, lag, raw):
    return set_padding(rng, raw)

def mesh_volume_zero(rng, lag, raw):
    raw.volumes[rng.randrange(len(raw.volumes))] = 0

def mesh_first_out(rng, lag, raw):
    cells = len(raw.volumes)
    return set_face(rng, raw, 0, rng.choice([cells, rng.randint(min(cells, RIM - 1), RIM - 1)]), None)

def mesh_first_mark(rng, lag, raw):
    return set_face(rng, raw, 0, RIM, rng.choice([None, True, False]))

def mesh_second_out(rng, lag, raw):
    cells = len(raw.volumes)
    return set_face(rng, raw, 1, rng.choice([cells, RIM - 1, rng.randint(min(cells, RIM - 1), RIM - 1)]), None)

def mesh_self_loop(rng, lag, raw):
    if not raw.faces:
        return False
    row = rng.choice(raw.faces)
    row[1] = row[0]

def mesh_share_zero(rng, lag, raw):
    return set_face(rng, raw, 2, 0, False)

def mesh_reach_zero(rng, lag, raw):
    return set_face(rng, raw, 3, 0, False)

def mesh_share_at_rim(rng, lag, raw):
    return set_face(rng, raw, 2, rng.choice([1, HALF, MOST_SHARE]), True)

def mesh_reach_at_rim(rng, lag, raw):
    return set_face(rng, raw, 3, rng.choice([1, 100, lag.top]), True)

def mesh_interior_like_rim(rng, lag, raw):
    rows = [row for row in raw.faces if row[1] != RIM]
    if not rows:
        return False
    rng.choice(rows)[2:] = [0, 0]


# ---------------------------------------------------------------- Of a field

def field_missing(rng, lag, raw):
    raw.cut = 0

def field_head_cut(rng, lag, raw):
    raw.cut = lagoon.FIELD_HEAD - 1

def field_body_cut(rng, lag, raw):
    raw.cut = rng.randint(lagoon.FIELD_HEAD, len(raw.bytes()) - 1)

def field_kind(rng, lag, raw):
    raw.kind = rng.choice([kind for kind in range(1 << lagoon.KIND_BITS) if kind != raw.laid])

def field_kind_of_the_other_width(rng, lag, raw):
    raw.kind = other_width(raw.laid)

def field_of_the_other_width(rng, lag, raw):
    raw.turn_width()

def field_count(rng, lag, raw):
    raw.cells = rng.choice(other_counts(raw.cells, RUN_CELLS, MOST_CELLS))

def field_salt_above(rng, lag, raw):
    cell = rng.randrange(len(raw.masses))
    limit = lag.volumes[cell] * (TOP + 1)
    greatest = all_ones(lagoon.FIELD_BITS[lagoon.of_width(FIELD, lag.wide)])
    raw.masses[cell] = rng.choice([limit, limit, greatest, rng.randint(limit, greatest)])

def field_salt_just_within(rng, lag, raw):
    raw.masses = [V * (TOP + 1) - 1 for V in lag.volumes]


# ---------------------------------------------------------------- Of a step

def step_head_cut(rng, lag, raw):
    raw.cut = rng.randint(1, lagoon.STEP_HEAD - 1)

def step_body_cut(rng, lag, raw):
    length = len(raw.bytes())
    if length == lagoon.STEP_HEAD:
        return False
    raw.cut = rng.choice([lagoon.STEP_HEAD, length - 1, rng.randint(lagoon.STEP_HEAD, length - 1)])

def step_kind(rng, lag, raw):
    raw.kind = rng.choice([kind for kind in range(1 << lagoon.KIND_BITS) if kind not in lagoon.step_kinds(lag.wide)])

def step_kind_of_the_other_width(rng, lag, raw):
    raw.kind = other_width(raw.laid)

def step_of_the_other_width(rng, lag, raw):
    raw.turn_width()

def step_other_kind(rng, lag, raw):
    """Releases after kind 3 or 7, or none after kind 4 or 8."""
    water, outfalls = lagoon.step_kinds(lag.wide)
    raw.kind = outfalls if raw.kind == water else water

def step_count(rng, lag, raw):
    raw.count = rng.choice(other_counts(raw.count, RUN_FACES, MOST_FACES))

def step_zero_bit(rng, lag, raw):
    last = lagoon.STEP_ZEROS - 1
    raw.zeros = rng.choice([1, 1 << last, 1 << rng.randint(0, last), rng.randint(1, all_ones(lagoon.STEP_ZEROS))])

def step_padding_bit(rng, lag, raw):
    return set_padding(rng, raw)

def step_minus_zero(rng, lag, raw):
    still = [face for face, size in enumerate(raw.sizes) if size == 0] or list(range(len(raw.sizes)))
    if not still:
        return False
    face = rng.choice(still)
    raw.signs[face], raw.sizes[face] = 1, 0

def step_release_above(rng, lag, raw):
    """A release that brings q past its ceiling, by one or by more."""
    cell = rng.randrange(len(lag.volumes))
    room = lag.volumes[cell] * (TOP + 1) - 1 - lag.masses[cell]
    raw.kind = raw.laid = lagoon.of_width(OUTFALLS, lag.wide)
    raw.releases = raw.releases or [0] * len(lag.volumes)
    greatest = all_ones(lagoon.STEP_BITS[raw.laid].release)
    raw.releases[cell] = rng.choice([room + 1, room + 1, greatest, rng.randint(room + 1, greatest)])

def step_outside_above(rng, lag, raw):
    greatest = all_ones(lagoon.STEP_BITS[raw.laid].outside)
    value = rng.choice([TOP + 1, greatest, rng.randint(TOP + 1, greatest)])
    return set_outside(rng, raw, lambda sign, size: sign and size, value)

def step_outside_at_outflow(rng, lag, raw):
    return set_outside(rng, raw, lambda sign, size: size and not sign, rng.choice([1, TOP, TOP + 1]))

def step_outside_at_still(rng, lag, raw):
    return set_outside(rng, raw, lambda sign, size: size == 0, rng.choice([1, TOP, all_ones(lagoon.STEP_BITS[raw.laid].outside)]))

def step_flux_above(rng, lag, raw):
    greatest = all_ones(lagoon.STEP_BITS[raw.laid].size)
    faces = [face for face, row in enumerate(lag.faces) if row[1] != RIM and row[3] < greatest]
    if not faces:
        return False
    face = rng.choice(faces)
    K = lag.faces[face][3]
    raw.sizes[face] = rng.choice([K + 1, greatest, rng.randint(K + 1, greatest)])

def step_unbalanced(rng, lag, raw):
    faces = [face for face, row in enumerate(lag.faces) if raw.sizes[face] < (row[3] or lag.top)]
    if not faces:
        return False
    face = rng.choice(faces)
    raw.sizes[face] += 1

def step_unbalanced_sign(rng, lag, raw):
    faces = [face for face, row in enumerate(lag.faces) if row[1] != RIM and raw.sizes[face]]
    if not faces:
        return False
    raw.signs[rng.choice(faces)] ^= 1

def step_outflow_above(rng, lag, raw):
    spare = lag.raw_step(rng, rng.choice([1, 1, 5, lag.top]))
    outflow = [0] * len(lag.volumes)
    for (first, second, _, _), sign, size in zip(lag.faces, spare.signs, spare.sizes):
        if not sign:
            outflow[first] += size
        elif second != RIM:
            outflow[second] += size
    if all(o <= V for o, V in zip(outflow, lag.volumes)):
        return False
    raw.signs, raw.sizes, raw.outsides = spare.signs, spare.sizes, spare.outsides

def step_noise(rng, lag, raw):
    for face, row in enumerate(lag.faces):
        raw.sizes[face] = rng.randint(0, row[3] or lag.top)
        raw.signs[face] = rng.getrandbits(1) if raw.sizes[face] else 0
        raw.outsides[face] = rng.randint(0, TOP) if row[1] == RIM and raw.signs[face] else 0


# ---------------------------------------------------------------- All

def damages(prefix):
    return [function for name, function in sorted(globals().items()) if name.startswith(prefix)]

MESH_DAMAGE, FIELD_DAMAGE, STEP_DAMAGE = damages("mesh_"), damages("field_"), damages("step_")
ALL_DAMAGE = MESH_DAMAGE + FIELD_DAMAGE + STEP_DAMAGE
ENDING = (step_kind, step_kind_of_the_other_width, step_of_the_other_width, step_other_kind, step_count)
SKIPPED = [f for f in STEP_DAMAGE if not f.__name__.endswith("cut") and f not in ENDING]        # the run goes on after these


# ---------------------------------------------------------------- Of bytes

def flip_bits(rng, data):
    data = bytearray(data)
    for _ in range(rng.choice([1, 1, 2, 8])):
        if data:
            data[rng.randrange(len(data))] ^= 1 << rng.randrange(8)
    return bytes(data)

def spoil(rng, data):
    """Damage to bytes whatever they mean."""
    kind = rng.choice(["flip", "flip", "truncate", "insert", "delete", "append", "noise"])
    at = rng.randint(0, len(data))
    if kind == "flip":
        data = flip_bits(rng, data)
    elif kind == "truncate":
        data = data[:at]
    elif kind == "insert":
        data = data[:at] + rng.randbytes(rng.randint(1, 3)) + data[at:]
    elif kind == "delete":
        data = data[:at] + data[at + rng.randint(1, 3):]
    elif kind == "append":
        data += rng.randbytes(rng.randint(1, 6))
    else:
        data = data[:at] + rng.randbytes(len(data) - at)
    return "bytes " + kind, data
