#!/usr/bin/env python3
"""Document 01 and the requests of document 02 written once more, in plain integers and from the documents alone.

The functions follow its order; nothing is made fast. A refusal is raised as Refusal(cause, place), with the numbers
of the document's table of causes. One file, since a slip (slips.py) replaces a function here for all that call it. Its parts:

    Mesh, water and salt    concentrations, and the quotient toward 0
    One step                stages 1 to 5; S-5, S-6; advance, and S-8's plain and unrounded steps
    Causes                  a judge for each
    Tables lent to a step   lengths, all causes of a step, the steps on tables; S-11's judging
    Record layouts          bits, fields, heads, reading and writing, of both widths (S-10)
    The host's call         records to the next field
    Named states            S-4
    Shares                  S-7, from survey points
    The board and the run   S-2's order, and what the run prints
    Pages                   S-1
    Two boards              S-12, a lagoon cut in two
    Brine charge            S-13
    Closed grounds          S-14, the public page and board
"""

import argparse
import math
import sys
from collections import namedtuple
from fractions import Fraction

RIM = 4095                  # the mark of the rim in the place of a second cell
TOP = 1_000_000             # greatest concentration
MOST_SHARE = 255
CEILING = 65_535            # greatest V, K and |U| over the rim (document 02, S-10)
OLD_CEILING = 4_095         # and those that records of kinds 1 to 4 hold
MOST_CLAIMED = 1 << 40      # greatest size of a claimed mass
LIBRARY_LIMITS = (4095, 8190)
RUN_LIMITS = (1023, 2046)

# Lent tables, by position; those lent to a step, in the order of its arguments.
(VOLUMES, FIRSTS, SECONDS, SHARES, REACHES, MASSES,
 FLUXES, OUTSIDES, NEXT, MOVED, WORK, RECORD, PAGE, STORE, RELEASES, LABELS, TOTALS, ENDS, PRICES, MARKS) = range(20)
STEP_TABLES = (*range(WORK + 1), RELEASES)
CLAIM_TABLES = (*range(WORK), RELEASES)         # of a judging, in which moved is the claim (document 02, S-11)
CUT_TABLES = (*range(NEXT), RELEASES)           # of a cutting, of the whole and again of each part (document 02, S-12)

# Kinds of records; a step of kind 4 has releases (document 02, S-6).
MESH, FIELD, WATER, OUTFALLS = 1, 2, 3, 4
WIDER = 4                   # document 02, S-10: kinds 5 to 8 are kinds 1 to 4 with wider fields

# Bits of a head's fields, and of those of a body that have one width.
KIND_BITS, CELLS_BITS, FACES_BITS, MESH_ZEROS, STEP_ZEROS = 4, 12, 13, 3, 15
END_BITS, SHARE_BITS, SIGN_BITS, OUTSIDE_BITS = 12, 8, 1, 20
# And of those that have two: V, K, the size of U, and masses, to which releases belong.
Widths = namedtuple("Widths", "volume reach size mass")
NARROW, WIDE = Widths(12, 12, 12, 32), Widths(16, 16, 16, 40)
MASS_BITS = NARROW.mass, WIDE.mass
MESH_HEAD = (KIND_BITS + CELLS_BITS + FACES_BITS + MESH_ZEROS) // 8         # bytes
FIELD_HEAD = (KIND_BITS + CELLS_BITS) // 8
STEP_HEAD = (KIND_BITS + FACES_BITS + STEP_ZEROS) // 8

# The fields of a body by the kind of the record; kinds 3 and 7 have no releases.
MeshBits = namedtuple("MeshBits", "volume first second share reach")
StepBits = namedtuple("StepBits", "size outside release")
BY_WIDTH = (0, NARROW), (WIDER, WIDE)
MESH_BITS = {wider + MESH: MeshBits(bits.volume, END_BITS, END_BITS, SHARE_BITS, bits.reach) for wider, bits in BY_WIDTH}
FIELD_BITS = {wider + FIELD: bits.mass for wider, bits in BY_WIDTH}
STEP_BITS = {wider + kind: StepBits(bits.size, OUTSIDE_BITS, release)
             for wider, bits in BY_WIDTH for kind, release in ((WATER, 0), (OUTFALLS, bits.mass))}
MOST_BITS = 40              # the engine's own bound (docs/CALLS.md): a number is read by so many bits at most,
LAST_BIT = 1 << 32          # and from no later bit than this

Mesh = namedtuple("Mesh", "volumes firsts seconds shares reaches")
Step = namedtuple("Step", "kind fluxes outsides releases")
Result = namedtuple("Result", "masses moved in_mass out_mass released")


class Refusal(Exception):
    """Cause and place of a refusal ("Causes")."""

    def __init__(self, cause, place):
        super().__init__(cause, place)
        self.cause, self.place = cause, place


# ---------------------------------------------------------------- Mesh, water and salt

def concentrations(volumes, masses):
    """q of every cell; what the division leaves over is the rest."""
    return [m // V for V, m in zip(volumes, masses)]

def toward_zero(a, b):
    """The quotient for either sign of a, where b is above 0: the fraction is cut off."""
    return a // b if a >= 0 else -(-a // b)


# ---------------------------------------------------------------- One step

def move(mesh, masses, moved):
    """Masses after what each face moves is taken from its first cell and given to its second, where it has one."""
    masses = list(masses)
    for first, second, mass in zip(mesh.firsts, mesh.seconds, moved):
        masses[first] -= mass
        if second != RIM:
            masses[second] += mass
    return masses

def upwind(mesh, masses, q, fluxes, outsides):
    """Stage 1: the mass that goes with the water of each face, and the low-order masses that this leaves."""
    carried = []
    for first, second, U, outside in zip(mesh.firsts, mesh.seconds, fluxes, outsides):
        if U >= 0:
            carried.append(U * q[first])
        elif second == RIM:
            carried.append(U * outside)
        else:
            carried.append(U * q[second])
    return carried, move(mesh, masses, carried)

def share_upwind(s, U):
    """Stage 2, t: the way from the upwind centre to the face, in 1/256."""
    return s if U > 0 else 256 - s

def correction(U, d, t, K):
    """Stage 2: one face's correction, by a single quotient."""
    return toward_zero(U * d * (t * K - 128 * abs(U)), 256 * K)

def corrections(mesh, q, fluxes):
    """Stage 2: all corrections; rim faces and still ones have none."""
    result = []
    for first, second, s, K, U in zip(mesh.firsts, mesh.seconds, mesh.shares, mesh.reaches, fluxes):
        if second == RIM or U == 0:
            result.append(0)
        else:
            up, down = (first, second) if U > 0 else (second, first)
            result.append(correction(U, q[down] - q[up], share_upwind(s, U), K))
    return result

def runs(first, second, c):
    """The cell that a correction comes from and the one that it goes to, by its own sign."""
    return (first, second) if c > 0 else (second, first)

def keep(mesh, low, corrected):
    """Document 02, S-5: without the corrections that go from a larger low-order q to a smaller."""
    q = concentrations(mesh.volumes, low)
    result = []
    for first, second, c in zip(mesh.firsts, mesh.seconds, corrected):
        giver, receiver = runs(first, second, c)
        result.append(0 if c == 0 or q[giver] > q[receiver] else c)
    return result

def neighbourhoods(mesh, q, fluxes, outsides):
    """Stage 3: all q that each cell meets before the step."""
    near = [[own] for own in q]
    for first, second, U, outside in zip(mesh.firsts, mesh.seconds, fluxes, outsides):
        if second == RIM:
            if U < 0:
                near[first].append(outside)
        elif U != 0:
            near[first].append(q[second])
            near[second].append(q[first])
    return near

def bounds(mesh, low, q, fluxes, outsides):
    """Stage 3: G and L of every cell, from the least and greatest of its neighbourhood."""
    near = neighbourhoods(mesh, q, fluxes, outsides)
    gains = [V * max(seen) + V - 1 - m for V, seen, m in zip(mesh.volumes, near, low)]
    losses = [m - V * min(seen) for V, seen, m in zip(mesh.volumes, near, low)]
    return gains, losses

def portion(a, G, P):
    """The proportional part of a, whatever the size of the product (document 02, S-10)."""
    return a * G // P

def limiter(mesh, corrected, gains, losses):
    """Stage 4: every kept correction cut by its receiver's G over P and its giver's L over N, whichever leaves less."""
    entering, leaving = [0] * len(gains), [0] * len(losses)         # P and N
    ends = []
    for first, second, c in zip(mesh.firsts, mesh.seconds, corrected):
        giver, receiver = runs(first, second, c)
        ends.append((receiver, giver))
        if c != 0:
            entering[receiver] += abs(c)
            leaving[giver] += abs(c)
    limited = []
    for c, (receiver, giver) in zip(corrected, ends):
        if c == 0:
            limited.append(0)
            continue
        a = abs(c)
        P, G, N, L = entering[receiver], gains[receiver], leaving[giver], losses[giver]
        size = min(a if P <= G else portion(a, G, P), a if N <= L else portion(a, L, N))
        limited.append(size if c > 0 else -size)
    return limited

def finish(mesh, masses, carried, limited):
    """Stage 5: moved masses, and the next masses."""
    moved = [c + a for c, a in zip(carried, limited)]
    return moved, move(mesh, masses, moved)

def in_mass(mesh, fluxes, outsides):
    """What comes in over the rim."""
    return sum(-U * o for second, U, o in zip(mesh.seconds, fluxes, outsides) if second == RIM and U < 0)

def out_mass(mesh, q, fluxes):
    """What goes out over the rim, with q of the field that the step starts from."""
    return sum(U * q[first] for first, second, U in zip(mesh.firsts, mesh.seconds, fluxes)
               if second == RIM and U > 0)

def raised(masses, releases):
    """Document 02, S-6: the field that a step starts from; without releases the one lent."""
    return list(masses) if releases is None else [m + release for m, release in zip(masses, releases, strict=True)]

def released_mass(releases):
    return sum(releases or [])

def advance(mesh, masses, fluxes, outsides, releases=None):
    """One step on values that no cause refuses."""
    masses = raised(masses, releases)
    q = concentrations(mesh.volumes, masses)
    carried, low = upwind(mesh, masses, q, fluxes, outsides)
    corrected = corrections(mesh, q, fluxes)
    gains, losses = bounds(mesh, low, q, fluxes, outsides)
    limited = limiter(mesh, keep(mesh, low, corrected), gains, losses)
    moved, masses = finish(mesh, masses, carried, limited)
    return Result(masses, moved, in_mass(mesh, fluxes, outsides), out_mass(mesh, q, fluxes), released_mass(releases))

def advance_plain(mesh, masses, fluxes, outsides, releases=None):
    """Document 02, S-8: stages 1 and 5 alone of the raised field, so what a face moves is what its water carries."""
    masses = raised(masses, releases)
    q = concentrations(mesh.volumes, masses)
    carried, _ = upwind(mesh, masses, q, fluxes, outsides)
    moved, masses = finish(mesh, masses, carried, [0] * len(carried))
    return Result(masses, moved, in_mass(mesh, fluxes, outsides), out_mass(mesh, q, fluxes), released_mass(releases))

def advance_unrounded(mesh, masses, fluxes, outsides, releases=None):
    """Document 02, S-8: the same with q = m / V as an exact fraction. Gives the next masses, fractions too, and the out-mass."""
    masses = raised(masses, releases)
    q = [Fraction(m) / V for V, m in zip(mesh.volumes, masses)]
    return upwind(mesh, masses, q, fluxes, outsides)[1], out_mass(mesh, q, fluxes)


# ---------------------------------------------------------------- Causes

def refuse_first(cause, wrong):
    """The lowest place that is wrong decides."""
    for place, bad in enumerate(wrong):
        if bad:
            raise Refusal(cause, place)

def judge_counts(cells, faces, limits):
    """Cause 1: the counts, cells before faces."""
    if not 1 <= cells <= limits[0]:
        raise Refusal(1, 0)
    if not 0 <= faces <= limits[1]:
        raise Refusal(1, 1)

def judge_lengths(lengths, needs):
    """Cause 2: the entries lent against those needed, both by position; without lengths all are long enough."""
    for position in sorted(needs):
        if lengths is not None and lengths[position] < needs[position]:
            raise Refusal(2, position)

def judge_mesh(mesh, ceiling=CEILING):
    """Causes 3, 4 and 5: volumes; both ends of a face; share and reach."""
    cells = len(mesh.volumes)
    refuse_first(3, (not 1 <= V <= ceiling for V in mesh.volumes))
    refuse_first(4, (not 0 <= first < cells or not (0 <= second < cells or second == RIM) or first == second
                     for first, second in zip(mesh.firsts, mesh.seconds)))
    refuse_first(5, ((s != 0 or K != 0) if second == RIM else not (1 <= s <= MOST_SHARE and 1 <= K <= ceiling)
                     for second, s, K in zip(mesh.seconds, mesh.shares, mesh.reaches)))

def judge_field(mesh, masses):
    """Cause 6: concentrations."""
    refuse_first(6, (q > TOP for q in concentrations(mesh.volumes, masses)))

def judge_raised(mesh, masses, releases):
    """Cause 18 of a step (document 02, S-6): concentrations of the raised field."""
    refuse_first(18, (q > TOP for q in concentrations(mesh.volumes, raised(masses, releases))))

def judge_releases(kind, releases):
    """Cause 18 of a writer: releases too large for their field, which in kinds 3 and 7 has no bits."""
    refuse_first(18, (release >= 1 << STEP_BITS[kind].release for release in releases))

def judge_values(mesh, fluxes, outsides, ceiling=CEILING):
    """Causes 7 and 8: outside values, and the size of each flux."""
    refuse_first(7, (not 0 <= o <= TOP if second == RIM and U < 0 else o != 0
                     for second, U, o in zip(mesh.seconds, fluxes, outsides)))
    refuse_first(8, (abs(U) > (ceiling if second == RIM else K)
                     for second, K, U in zip(mesh.seconds, mesh.reaches, fluxes)))

def judge_flow(mesh, fluxes):
    """Causes 9 and 10: the balance of every cell's water, and its outflow against its volume, over all its faces."""
    inflow, outflow = [0] * len(mesh.volumes), [0] * len(mesh.volumes)
    for first, second, U in zip(mesh.firsts, mesh.seconds, fluxes):
        (outflow if U > 0 else inflow)[first] += abs(U)
        if second != RIM:
            (inflow if U > 0 else outflow)[second] += abs(U)
    refuse_first(9, (i != o for i, o in zip(inflow, outflow)))
    refuse_first(10, (o > V for o, V in zip(outflow, mesh.volumes)))


# ---------------------------------------------------------------- Tables lent to a step

def lengths_of(tables):
    """Tables as a list, or by their positions."""
    tables = tables if isinstance(tables, dict) else dict(enumerate(tables))
    return {position: len(table) for position, table in tables.items()}

def mesh_needs(cells, faces):
    return {VOLUMES: cells, FIRSTS: faces, SECONDS: faces, SHARES: faces, REACHES: faces}

def counted_mesh(cells, faces, tables):
    return Mesh(tables[VOLUMES][:cells], *(tables[i][:faces] for i in (FIRSTS, SECONDS, SHARES, REACHES)))

def counted_step(cells, faces, tables):
    """What is counted of the tables that a step reads."""
    return (counted_mesh(cells, faces, tables), tables[MASSES][:cells], tables[FLUXES][:faces], tables[OUTSIDES][:faces],
            tables[RELEASES][:cells])

def step_needs(cells, faces):
    return {**mesh_needs(cells, faces), MASSES: cells, FLUXES: faces, OUTSIDES: faces, NEXT: cells, MOVED: faces,
            WORK: 4 * cells + faces, RELEASES: cells, LABELS: cells}

def judge_salt_and_water(mesh, masses, fluxes, outsides, releases):
    """The causes of a step on an accepted mesh: 6, 18, 7, 8, 9 and 10."""
    judge_field(mesh, masses)
    judge_raised(mesh, masses, releases)
    judge_values(mesh, fluxes, outsides)
    judge_flow(mesh, fluxes)

def judge_step(cells, faces, tables, positions=STEP_TABLES):
    """All causes of a step, corrected or plain, on its tables by position; what is counted of those that it reads."""
    judge_counts(cells, faces, LIBRARY_LIMITS)
    needs = step_needs(cells, faces)
    judge_lengths(lengths_of(tables), {position: needs[position] for position in positions})
    counted = counted_step(cells, faces, tables)
    judge_mesh(counted[0])
    judge_salt_and_water(*counted)
    return counted

def fill_tables(cells, faces, tables, result):
    """Next masses, moved and work after an accepted step; gives in-mass, out-mass and released mass."""
    tables[NEXT][:cells] = result.masses
    tables[MOVED][:faces] = result.moved
    tables[WORK][:4 * cells + faces] = [0] * (4 * cells + faces)
    return result.in_mass, result.out_mass, result.released

def step_on_tables(cells, faces, tables):
    return fill_tables(cells, faces, tables, advance(*judge_step(cells, faces, tables)))

def plain_step_on_tables(cells, faces, tables):
    return fill_tables(cells, faces, tables, advance_plain(*judge_step(cells, faces, tables)))

def judge_claim(mesh, masses, fluxes, outsides, releases, claim):
    """Document 02, S-11: causes 21 and 22 of a claim that has passed those of a step; gives what it comes to."""
    masses = raised(masses, releases)
    q = concentrations(mesh.volumes, masses)
    carried, _ = upwind(mesh, masses, q, fluxes, outsides)
    refuse_first(21, (abs(x) > MOST_CLAIMED or (U == 0 and x != 0) or (second == RIM and x != said)
                      for x, U, second, said in zip(claim, fluxes, mesh.seconds, carried)))
    after = move(mesh, masses, claim)
    refuse_first(22, (m < 0 or not min(near) <= m // V <= max(near)
                      for m, V, near in zip(after, mesh.volumes, neighbourhoods(mesh, q, fluxes, outsides))))
    return Result(after, claim, in_mass(mesh, fluxes, outsides), out_mass(mesh, q, fluxes), released_mass(releases))

def judge_on_tables(cells, faces, tables):
    """The judging of a claim, lent as moved; next masses are filled, and nothing else."""
    result = judge_claim(*judge_step(cells, faces, tables, CLAIM_TABLES), tables[MOVED][:faces])
    tables[NEXT][:cells] = result.masses
    return result.in_mass, result.out_mass, result.released


# ---------------------------------------------------------------- Record layouts

class Bits:
    """A record and the bit that reading has come to, most significant bit first."""

    def __init__(self, record):
        self.bits = "".join(f"{byte:08b}" for byte in record)
        self.at = 0

    def take(self, width):
        value = int(self.bits[self.at:self.at + width], 2)
        self.at += width
        return value

    def take_zeros(self, width):
        """Cause 12 at the first of these bits that is set."""
        for _ in range(width):
            if self.take(1) != 0:
                raise Refusal(12, self.at - 1)

    def take_padding(self):
        self.take_zeros(len(self.bits) - self.at)

def pack(values):
    """Values in their widths, one after another, and zero bits to the end of the last byte."""
    assert all(0 <= value < 1 << width for value, width in values)
    bits = "".join(f"{value:0{width}b}" for value, width in values)
    bits += "0" * (-len(bits) % 8)
    return bytes(int(bits[at:at + 8], 2) for at in range(0, len(bits), 8))

def whole_bytes(bits):
    return -(-bits // 8)

def of_width(kind, wide):
    return kind + WIDER if wide else kind

def is_wide(kind):
    return kind > WIDER

def kind_of(record):
    """The kind that a record's first byte says."""
    return record[0] >> 8 - KIND_BITS

def ceiling_of(wide):
    """Greatest V, K and |U| over the rim that records of a width hold."""
    return CEILING if wide else OLD_CEILING

def mesh_length(cells, faces, wide=False):
    volume, *face = MESH_BITS[of_width(MESH, wide)]
    return MESH_HEAD + whole_bytes(volume * cells + sum(face) * faces)

def field_length(cells, wide=False):
    return FIELD_HEAD + whole_bytes(FIELD_BITS[of_width(FIELD, wide)] * cells)

def step_length(kind, cells, faces, seconds):
    size, outside, release = STEP_BITS[kind]
    return STEP_HEAD + whole_bytes((SIGN_BITS + size) * faces + outside * seconds[:faces].count(RIM) + release * cells)

def number_at(record, bit, width):
    """The number that so many bits spell, None where they are not all there or past the engine's bounds."""
    if width > MOST_BITS or bit > LAST_BIT or bit + width > 8 * len(record):
        return None
    bits = Bits(record[bit // 8:whole_bytes(bit + width)])
    bits.at = bit % 8
    return bits.take(width) if width else 0

def mesh_head(record, limits):
    """A mesh record shorter than its head is 11; then 13 for the kind, 1 for the counts that it gives; and its width."""
    if len(record) < MESH_HEAD:
        raise Refusal(11, 0)
    bits = Bits(record[:MESH_HEAD])
    kind, cells, faces = bits.take(KIND_BITS), bits.take(CELLS_BITS), bits.take(FACES_BITS)
    if kind not in MESH_BITS:
        raise Refusal(13, 0)
    judge_counts(cells, faces, limits)
    return cells, faces, is_wide(kind)

def field_head(record, cells, limits, wide=False):
    """The same for a field record, whose count has to be the mesh's."""
    if len(record) < FIELD_HEAD:
        raise Refusal(11, 0)
    bits = Bits(record[:FIELD_HEAD])
    if bits.take(KIND_BITS) != of_width(FIELD, wide):
        raise Refusal(13, 0)
    if bits.take(CELLS_BITS) != cells:
        raise Refusal(13, 1)
    judge_counts(cells, 0, limits)

def step_kinds(wide):
    return of_width(WATER, wide), of_width(OUTFALLS, wide)

def step_head(record, cells, faces, seconds, limits, wide=False):
    """The same for a step record, and its kind; its length rests on the seconds, so too few of them are 2 before that."""
    if len(record) < STEP_HEAD:
        raise Refusal(11, 0)
    bits = Bits(record[:STEP_HEAD])
    kind = bits.take(KIND_BITS)
    if kind not in step_kinds(wide):
        raise Refusal(13, 0)
    if bits.take(FACES_BITS) != faces:
        raise Refusal(13, 1)
    judge_counts(cells, faces, limits)
    judge_lengths({SECONDS: len(seconds)}, {SECONDS: faces})
    return kind

def read_mesh(record, limits=LIBRARY_LIMITS, lengths=None):
    """After the head: another length 11, then 2, then 12 for a bit that has to be 0."""
    cells, faces, wide = mesh_head(record, limits)
    if len(record) != mesh_length(cells, faces, wide):
        raise Refusal(11, 0)
    judge_lengths(lengths, mesh_needs(cells, faces))
    bits = Bits(record)
    bits.take(KIND_BITS + CELLS_BITS + FACES_BITS)
    bits.take_zeros(MESH_ZEROS)
    volume, *face = MESH_BITS[of_width(MESH, wide)]
    volumes = [bits.take(volume) for _ in range(cells)]
    rows = [[bits.take(width) for width in face] for _ in range(faces)]
    bits.take_padding()
    return Mesh(volumes, *([row[i] for row in rows] for i in range(len(face))))

def read_field(record, cells, limits=LIBRARY_LIMITS, lengths=None, wide=False):
    """The masses, of as many cells as the mesh has."""
    field_head(record, cells, limits, wide)
    if len(record) != field_length(cells, wide):
        raise Refusal(11, 0)
    judge_lengths(lengths, {MASSES: cells})
    bits = Bits(record)
    bits.take(KIND_BITS + CELLS_BITS)
    return [bits.take(FIELD_BITS[of_width(FIELD, wide)]) for _ in range(cells)]

def take_releases(bits, kind, cells):
    """Document 02, S-6: one a cell in kinds 4 and 8, at once after the last outside value; kinds 3 and 7 have 0."""
    width = STEP_BITS[kind].release
    return [bits.take(width) if width else 0 for _ in range(cells)]

def read_step(record, cells, faces, seconds, limits=LIBRARY_LIMITS, lengths=None, wide=False):
    """The kind; fluxes; outside values for the rim faces, where all other faces get 0; releases."""
    kind = step_head(record, cells, faces, seconds, limits, wide)
    if len(record) != step_length(kind, cells, faces, seconds):
        raise Refusal(11, 0)
    judge_lengths(lengths, {FLUXES: faces, OUTSIDES: faces, RELEASES: cells})
    bits = Bits(record)
    bits.take(KIND_BITS + FACES_BITS)
    bits.take_zeros(STEP_ZEROS)
    fluxes = []
    for _ in range(faces):
        at, minus, size = bits.at, bits.take(SIGN_BITS), bits.take(STEP_BITS[kind].size)
        if minus and size == 0:
            raise Refusal(12, at)
        fluxes.append(-size if minus else size)
    outsides = [bits.take(STEP_BITS[kind].outside) if second == RIM else 0 for second in seconds[:faces]]
    releases = take_releases(bits, kind, cells)
    bits.take_padding()
    return Step(kind, fluxes, outsides, releases)

def mesh_fields(kind, cells, faces, zeros, bits, volumes, rows):
    """All fields of a mesh record as (value, width), in its order: the head, the volumes, and a row for each face."""
    head = [(kind, KIND_BITS), (cells, CELLS_BITS), (faces, FACES_BITS), (zeros, MESH_ZEROS)]
    volume, *face = bits
    return head + [(V, volume) for V in volumes] + [field for row in rows for field in zip(row, face)]

def field_fields(kind, cells, bits, masses):
    return [(kind, KIND_BITS), (cells, CELLS_BITS)] + [(m, bits) for m in masses]

def step_fields(kind, faces, zeros, bits, fluxes, outsides, releases):
    """The same of a step record; fluxes as (sign, size), outside values of the rim faces alone."""
    fields = [(kind, KIND_BITS), (faces, FACES_BITS), (zeros, STEP_ZEROS)]
    for sign, size in fluxes:
        fields += (sign, SIGN_BITS), (size, bits.size)
    return fields + [(o, bits.outside) for o in outsides] + [(release, bits.release) for release in releases]

def pack_mesh(mesh, wide=False):
    kind = of_width(MESH, wide)
    return pack(mesh_fields(kind, len(mesh.volumes), len(mesh.firsts), 0, MESH_BITS[kind], mesh.volumes, zip(*mesh[1:])))

def pack_field(masses, wide=False):
    kind = of_width(FIELD, wide)
    return pack(field_fields(kind, len(masses), FIELD_BITS[kind], masses))

def pack_step(mesh, fluxes, outsides, releases=None, wide=False):
    """Kind 4 where there are releases, else kind 3; wide, 8 and 7."""
    kind = of_width(WATER if releases is None else OUTFALLS, wide)
    signed = [(int(U < 0), abs(U)) for U in fluxes]
    at_rim = [o for second, o in zip(mesh.seconds, outsides) if second == RIM]
    return pack(step_fields(kind, len(fluxes), 0, STEP_BITS[kind], signed, at_rim, releases or []))

def judge_writing(cells, faces, tables, needs, length, room, wide):
    """What all writers test first: causes 1 to 5, where the bytes lent are position 11 of cause 2."""
    judge_counts(cells, faces, LIBRARY_LIMITS)
    judge_lengths({**lengths_of(tables), RECORD: room},
                  {**mesh_needs(cells, faces), **needs, RECORD: length})
    mesh = counted_mesh(cells, faces, tables)
    judge_mesh(mesh, ceiling_of(wide))
    return mesh

def write_mesh(cells, faces, tables, room, wide=False):
    return pack_mesh(judge_writing(cells, faces, tables, {}, mesh_length(cells, faces, wide), room, wide), wide)

def write_field(cells, faces, tables, room, wide=False):
    mesh = judge_writing(cells, faces, tables, {MASSES: cells}, field_length(cells, wide), room, wide)
    judge_field(mesh, tables[MASSES][:cells])
    return pack_field(tables[MASSES][:cells], wide)

def write_step(kind, cells, faces, tables, room, wide=False):
    kind = of_width(kind, wide)
    length = step_length(kind, cells, faces, tables[SECONDS])
    mesh = judge_writing(cells, faces, tables, {FLUXES: faces, OUTSIDES: faces, RELEASES: cells}, length, room, wide)
    fluxes, outsides, releases = tables[FLUXES][:faces], tables[OUTSIDES][:faces], tables[RELEASES][:cells]
    judge_releases(kind, releases)
    judge_values(mesh, fluxes, outsides, ceiling_of(wide))
    return pack_step(mesh, fluxes, outsides, releases if STEP_BITS[kind].release else None, wide)


# ---------------------------------------------------------------- The host's call

def accept_mesh(record):
    mesh = read_mesh(record, RUN_LIMITS)
    judge_mesh(mesh)
    return mesh

def accept_field(record, mesh, wide=False):
    masses = read_field(record, len(mesh.volumes), RUN_LIMITS, wide=wide)
    judge_field(mesh, masses)
    return masses

def accept_step(record, mesh, masses, wide=False):
    _, fluxes, outsides, releases = read_step(record, len(mesh.volumes), len(mesh.firsts), mesh.seconds, RUN_LIMITS, wide=wide)
    judge_raised(mesh, masses, releases)
    judge_values(mesh, fluxes, outsides)
    judge_flow(mesh, fluxes)
    return advance(mesh, masses, fluxes, outsides, releases)

def next_field(masses, room, wide):
    """The next field record, in the mesh's width; cause 2 where fewer bytes are lent for it."""
    judge_lengths({RECORD: room}, {RECORD: field_length(len(masses), wide)})
    return pack_field(masses, wide)

def host_step(mesh_record, field_record, step_record, room):
    """The host's number and, after an accepted step, the next field record; room counts the bytes lent for it."""
    try:
        mesh = accept_mesh(mesh_record)
        wide = is_wide(kind_of(mesh_record))
        masses = accept_field(field_record, mesh, wide)
        result = accept_step(step_record, mesh, masses, wide)
        return 0, next_field(result.masses, room, wide)
    except Refusal as refusal:
        return 4_294_967_296 * refusal.cause + refusal.place, None


# ---------------------------------------------------------------- Named states (document 02, S-4)

MOST_NAME = 65_535

def judge_lent(cells, volumes, masses, store):
    """Causes 1, 2 and 3 of a call that is lent cells, volumes, masses and store; the cells as a mesh."""
    judge_counts(cells, 0, LIBRARY_LIMITS)
    judge_lengths({VOLUMES: len(volumes), MASSES: len(masses), STORE: len(store)}, {VOLUMES: cells, MASSES: cells, STORE: 1})
    mesh = Mesh(volumes[:cells], [], [], [], [])
    judge_mesh(mesh)
    return mesh

def kept_fields(cells, store):
    """The fields of a store as (name, masses), in the order kept; cause 13 where its count is too large for it."""
    if 1 + store[0] * (cells + 1) > len(store):
        raise Refusal(13, 1)
    starts = (1 + i * (cells + 1) for i in range(store[0]))
    return [(store[at], store[at + 1:at + 1 + cells]) for at in starts]

def first_named(fields, name):
    """Cause 17, and the place of the first field of a name."""
    names = [kept for kept, _ in fields]
    if not 1 <= name <= MOST_NAME or name not in names:
        raise Refusal(17, name)
    return names.index(name)

def store_keep(cells, volumes, masses, store, name):
    """A field kept after all others."""
    judge_field(judge_lent(cells, volumes, masses, store), masses[:cells])
    fields = kept_fields(cells, store)
    if not 1 <= name <= MOST_NAME or name in [kept for kept, _ in fields]:
        raise Refusal(15, name)
    start = 1 + len(fields) * (cells + 1)
    if len(store) - start < cells + 1:
        raise Refusal(16, name)
    store[0] += 1
    store[start:start + cells + 1] = [name] + masses[:cells]

def store_drop(cells, store, name):
    """The first field of a name goes; later ones move down, and the freed entries become 0."""
    judge_counts(cells, 0, LIBRARY_LIMITS)
    judge_lengths({STORE: len(store)}, {STORE: 1})
    fields = kept_fields(cells, store)
    del fields[first_named(fields, name)]
    used = [len(fields)]
    for kept, masses in fields:
        used += [kept, *masses]
    store[:len(used) + cells + 1] = used + [0] * (cells + 1)

def store_return(cells, volumes, masses, store, name):
    """The masses kept under a name, into the table of masses."""
    mesh = judge_lent(cells, volumes, masses, store)
    fields = kept_fields(cells, store)
    kept = fields[first_named(fields, name)][1]
    judge_field(mesh, kept)
    masses[:cells] = kept


# ---------------------------------------------------------------- Document 02, S-7: shares from survey points

MOST_COORDINATE = 1_000_000.0

def way(p, q):
    return q[0] - p[0], q[1] - p[1]

def product_sum(p, q):
    """The x term first; Python rounds each operation once and fuses none."""
    return p[0] * q[0] + p[1] * q[1]

def sides(ends, centres):
    """a and b of the document: how far the face lies from each centre, along its normal."""
    (x1, y1), (x2, y2) = ends
    normal = y2 - y1, x1 - x2
    middle = (x1 + x2) * 0.5, (y1 + y2) * 0.5
    return abs(product_sum(normal, way(centres[0], middle))), abs(product_sum(normal, way(middle, centres[1])))

def middle_stage(coordinates):
    """("ratio", a float), ("bad", place, value), or ("nothing",) where a + b is 0."""
    for place, value in enumerate(coordinates):
        if not math.isfinite(value) or abs(value) > MOST_COORDINATE:
            return "bad", place, value
    points = list(zip(coordinates[::2], coordinates[1::2]))
    a, b = sides(points[:2], points[2:])
    return ("ratio", a / (a + b)) if a + b != 0 else ("nothing",)

def share_of(ratio):
    """k of k/256 ≤ ratio < (k + 1)/256, by exact fractions."""
    return math.floor(256 * Fraction(ratio))

def face_share(coordinates):
    found = middle_stage(coordinates)
    if found[0] == "bad":
        raise Refusal(19, found[1])
    if found[0] == "nothing" or not 1 <= share_of(found[1]) <= MOST_SHARE:
        raise Refusal(20, 0)
    return share_of(found[1])


# ---------------------------------------------------------------- The board and the run

def board_order(cell, V, m):
    """What the board is sorted by, least first: the higher q, of equal ones the larger rest / V (S-2), then the lower cell."""
    return -(m // V), -Fraction(m % V, V), cell

def board(volumes, masses, among=None):
    """The board's entries as (cell, q, rest), in its order: of these cells, or of all."""
    among = range(len(volumes)) if among is None else among
    cells = sorted(among, key=lambda cell: board_order(cell, volumes[cell], masses[cell]))
    return [(cell, masses[cell] // volumes[cell], masses[cell] % volumes[cell]) for cell in cells[:8]]

def board_on_tables(cells, volumes, masses):
    """All eight entries of the board of lent tables; those not used are 0."""
    judge_counts(cells, 0, LIBRARY_LIMITS)
    judge_lengths({VOLUMES: len(volumes), MASSES: len(masses)}, {VOLUMES: cells, MASSES: cells})
    mesh = Mesh(volumes[:cells], [], [], [], [])
    judge_mesh(mesh)
    judge_field(mesh, masses[:cells])
    used = board(mesh.volumes, masses[:cells])
    return used + [(0, 0, 0)] * (8 - len(used))

def mesh_ends(data):
    """Where the mesh record at the head of a session ends, and whether it is wide; with the session where that has no whole head."""
    if len(data) < MESH_HEAD:
        return len(data), False
    head = Bits(data[:MESH_HEAD])
    wide, cells, faces = is_wide(head.take(KIND_BITS)), head.take(CELLS_BITS), head.take(FACES_BITS)
    return mesh_length(cells, faces, wide), wide

def field_ends(data, mesh, wide=False):
    """Where the field record at the head of these bytes ends: by the mesh alone."""
    return field_length(len(mesh.volumes), wide)

def step_ends(data, mesh, wide=False):
    """Where the step record at the head of these bytes ends: by its kind, and with them where it has no kind of a step."""
    kind = kind_of(data)
    return step_length(kind, len(mesh.volumes), len(mesh.firsts), mesh.seconds) if kind in step_kinds(wide) else len(data)

def run(data):
    """What the run program prints of a session."""
    length, wide = mesh_ends(data)
    try:
        mesh = accept_mesh(data[:length])
    except Refusal as refusal:
        return f"M {refusal.cause} {refusal.place}\n"
    data = data[length:]
    length = field_ends(data, mesh, wide)
    try:
        masses = accept_field(data[:length], mesh, wide)
    except Refusal as refusal:
        return f"F {refusal.cause} {refusal.place}\n"
    data = data[length:]
    lines = [f"0 0 0 {sum(masses)} 0"]
    number = 0
    while data:
        number += 1
        length = step_ends(data, mesh, wide)
        try:
            result = accept_step(data[:length], mesh, masses, wide)
            masses = result.masses
            lines.append(f"{number} {result.in_mass} {result.out_mass} {sum(masses)} {result.released}")
        except Refusal as refusal:
            lines.append(f"{number} R {refusal.cause} {refusal.place}")
            if refusal.cause in (11, 13):
                break
        data = data[length:]
    lines += [f"B {cell} {q} {rest}" for cell, q, rest in board(mesh.volumes, masses)]
    return "".join(line + "\n" for line in lines)


# ---------------------------------------------------------------- The binder's pages (document 02, S-1)

PAGE_CELLS = 60

def page_cells(cells, page):
    """The cells on a page, from 0; none on one beyond the last."""
    return range(PAGE_CELLS * page, min(cells, PAGE_CELLS * (page + 1)))

def rest_places(volumes):
    """Document 02, S-10: one place more where some V of the whole mesh is above 4,095."""
    return 5 if any(V > OLD_CEILING for V in volumes) else 4

def page_lines(volumes, masses, page):
    """A line for each cell of the page, and one for their mass."""
    on_page, places = page_cells(len(volumes), page), rest_places(volumes)
    lines = [f"{cell:4} {masses[cell] // volumes[cell]:7} {masses[cell] % volumes[cell]:{places}}\n" for cell in on_page]
    return lines + [f"{sum(masses[cell] for cell in on_page):{13 + places}}\n"]

def page_length(volumes, cells, page):
    """18 or 19 bytes a line; a page beyond the last needs none."""
    on_page = len(page_cells(cells, page))
    return (14 + rest_places(volumes[:cells])) * (on_page + 1) if on_page else 0

def page_on_tables(cells, volumes, masses, page, room):
    """The bytes of a page of lent tables; room counts those lent for it."""
    judge_counts(cells, 0, LIBRARY_LIMITS)
    judge_lengths({VOLUMES: len(volumes), MASSES: len(masses), PAGE: room},
                  {VOLUMES: cells, MASSES: cells, PAGE: page_length(volumes, cells, page)})
    mesh = Mesh(volumes[:cells], [], [], [], [])
    judge_mesh(mesh)
    judge_field(mesh, masses[:cells])
    if not page_cells(cells, page):
        raise Refusal(14, page)
    return "".join(page_lines(mesh.volumes, masses[:cells], page)).encode()


# ---------------------------------------------------------------- One lagoon on two boards (document 02, S-12)

PARTS = (0, 1)

def judge_labels(labels):
    """Causes 23 and 24: another label, and a part without cells."""
    refuse_first(23, (label not in PARTS for label in labels))
    refuse_first(24, (part not in labels for part in PARTS))

def judge_cut(cells, faces, tables, lent):
    """All causes of a cutting, on the whole's tables and those lent for the parts; what is counted of the whole, and its labels."""
    judge_counts(cells, faces, LIBRARY_LIMITS)
    needs = step_needs(cells, faces)
    shortest = {position: min(len(side[position]) for side in (tables, *lent)) for position in CUT_TABLES}
    judge_lengths({**shortest, LABELS: len(tables[LABELS])}, {position: needs[position] for position in (*CUT_TABLES, LABELS)})
    counted, labels = counted_step(cells, faces, tables), tables[LABELS][:cells]
    judge_mesh(counted[0])
    judge_labels(labels)
    judge_salt_and_water(*counted)
    return counted, labels

def part_cells(labels, part):
    """The old numbers of a part's cells, in their order."""
    return [cell for cell, label in enumerate(labels) if label == part]

def parts_of_face(labels, first, second):
    """The parts that a face belongs to; the rim is in none."""
    return {labels[end] for end in (first, second) if end != RIM}

def part_faces(mesh, labels, part):
    """The old numbers of a part's faces, in their order."""
    return [face for face, ends in enumerate(zip(mesh.firsts, mesh.seconds)) if part in parts_of_face(labels, *ends)]

def new_numbers(labels, part):
    """The number of each cell of a part in it."""
    return {cell: number for number, cell in enumerate(part_cells(labels, part))}

def seen_from(labels, part, first, second, U):
    """A cut face as a part has it: its own cell first, the one across, and U, negated where the face is turned."""
    return (first, second, U) if labels[first] == part else (second, first, -U)

def cut_spacing(s, K):
    """Share and reach of a cut face, which is a rim face of both parts."""
    return 0, 0

def across_the_cut(mesh, masses, releases):
    """The concentrations that enter over a cut, by cell: those of the raised field."""
    return concentrations(mesh.volumes, raised(masses, releases))

def part_face(q, labels, part, numbers, first, second, s, K, U, outside):
    """First, second, share, reach, U and outside value of a face in a part."""
    if len(parts_of_face(labels, first, second)) == 1:
        return numbers[first], RIM if second == RIM else numbers[second], s, K, U, outside
    near, across, U = seen_from(labels, part, first, second, U)
    return numbers[near], RIM, *cut_spacing(s, K), U, q[across] if U < 0 else 0

def part_of(mesh, masses, fluxes, outsides, releases, labels, part):
    """The tables of one part by position, as long as its own counts."""
    q, numbers = across_the_cut(mesh, masses, releases), new_numbers(labels, part)
    rows = list(zip(*mesh[1:], fluxes, outsides))
    kept = [part_face(q, labels, part, numbers, *rows[face]) for face in part_faces(mesh, labels, part)]
    tables = dict(zip((FIRSTS, SECONDS, SHARES, REACHES, FLUXES, OUTSIDES), map(list, zip(*kept)) if kept else [[]] * 6))
    for position, table in ((VOLUMES, mesh.volumes), (MASSES, masses), (RELEASES, releases)):
        tables[position] = [table[cell] for cell in part_cells(labels, part)]
    return tables

def cut_on_tables(cells, faces, tables, lent):
    """Fills the tables lent for both parts; gives cells and faces of part 0, then of part 1."""
    counted, labels = judge_cut(cells, faces, tables, lent)
    counts = []
    for part, side in zip(PARTS, lent):
        made = part_of(*counted, labels, part)
        for position, table in made.items():
            side[position][:len(table)] = table
        counts += [len(made[VOLUMES]), len(made[FIRSTS])]
    return tuple(counts)


# ---------------------------------------------------------------- Brine charge with its remainder (document 02, S-13)

LAST_END = 1 << 40          # the end of the last band, and the largest period total
MOST_BANDS = 8
UNITS = 1_000_000           # a price is for so many mass units; the largest price; a remainder is below it

def gained(second, moved):
    """What a face's total gains: over the rim what moved outward."""
    return max(0, moved) if second == RIM else 0

def judge_gains(seconds, moved, totals):
    """Cause 26 of an adding: an entry that gains is past the ceiling afterwards."""
    refuse_first(26, (gained(second, m) > 0 and total + gained(second, m) > LAST_END
                      for second, m, total in zip(seconds, moved, totals)))

def add_moved(faces, seconds, moved, totals):
    """A step's outward moved masses into the totals of a period."""
    judge_counts(1, faces, LIBRARY_LIMITS)
    judge_lengths({SECONDS: len(seconds), MOVED: len(moved), TOTALS: len(totals)}, {SECONDS: faces, MOVED: faces, TOTALS: faces})
    judge_gains(seconds[:faces], moved[:faces], totals[:faces])
    totals[:faces] = [total + gained(second, m) for second, m, total in zip(seconds[:faces], moved, totals)]

def band_sum(total, ends, prices):
    """A total charged band by band."""
    begins = [0, *ends]
    return sum((min(total, end) - min(total, begin)) * price for begin, end, price in zip(begins, ends, prices))

def judge_bands(ends, prices):
    """Cause 25 of the bands, the lowest first."""
    begins = [0, *ends]
    last = len(ends) - 1
    refuse_first(25, (end <= begin or (i == last and end != LAST_END) or price > UNITS
                      for i, (begin, end, price) in enumerate(zip(begins, ends, prices))))

def charge(total, bands, ends, prices, remainder):
    """Whole cents and the new remainder."""
    if not 1 <= bands <= MOST_BANDS:
        raise Refusal(25, 0)
    judge_lengths({ENDS: len(ends), PRICES: len(prices)}, {ENDS: bands, PRICES: bands})
    if remainder >= UNITS:
        raise Refusal(25, 0)
    judge_bands(ends[:bands], prices[:bands])
    if total > LAST_END:
        raise Refusal(26, 0)
    return divmod(band_sum(total, ends[:bands], prices[:bands]) + remainder, UNITS)


# ---------------------------------------------------------------- Closed shellfish grounds (document 02, S-14)

OPEN, WITHHELD = 0, 1

def judge_marks(marks):
    """Cause 27: another mark."""
    refuse_first(27, (mark not in (OPEN, WITHHELD) for mark in marks))

def open_cells(marks):
    return [cell for cell, mark in enumerate(marks) if mark == OPEN]

def public_lines(volumes, masses, page, marks):
    """The lines of a page's open cells; the mass stands after the last cell's line and is left out."""
    shown = set(open_cells(marks))
    return [line for cell, line in zip(page_cells(len(volumes), page), page_lines(volumes, masses, page)) if cell in shown]

def public_page_on_tables(cells, volumes, masses, page, room, marks):
    """The bytes of a page without withheld cells and without its mass; room counts the bytes lent, enough for the whole page."""
    judge_counts(cells, 0, LIBRARY_LIMITS)
    judge_lengths({VOLUMES: len(volumes), MASSES: len(masses), PAGE: room, MARKS: len(marks)},
                  {VOLUMES: cells, MASSES: cells, PAGE: page_length(volumes, cells, page), MARKS: cells})
    page_on_tables(cells, volumes, masses, page, room)
    judge_marks(marks[:cells])
    return "".join(public_lines(volumes[:cells], masses[:cells], page, marks[:cells])).encode()

def public_board(cells, volumes, masses, marks):
    """The entries of the board of open cells, eight at most."""
    judge_counts(cells, 0, LIBRARY_LIMITS)
    judge_lengths({VOLUMES: len(volumes), MASSES: len(masses), MARKS: len(marks)}, {VOLUMES: cells, MASSES: cells, MARKS: cells})
    mesh = Mesh(volumes[:cells], [], [], [], [])
    judge_mesh(mesh)
    judge_field(mesh, masses[:cells])
    judge_marks(marks[:cells])
    return board(mesh.volumes, masses[:cells], open_cells(marks[:cells]))


if __name__ == "__main__":
    argparse.ArgumentParser(description=__doc__ + "\nReads a session from standard input and prints what the run prints.",
                            formatter_class=argparse.RawDescriptionHelpFormatter).parse_args()
    sys.stdout.write(run(sys.stdin.buffer.read()))
