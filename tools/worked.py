#!/usr/bin/env python3
"""The figures of docs/ARITHMETIC.md: sessions worked from their bytes, each number shown."""

import itertools
import re
import struct
import sys
from fractions import Fraction
from functools import lru_cache
from pathlib import Path

HERE = Path(__file__).resolve().parent
ROOT = HERE.parent
sys.path[:0] = [str(HERE), str(ROOT / "reference")]

import lagoon
from package import command, layout, sessiontext

HELP = """\
The page holds blocks between lines <!-- worked: NAME --> and <!-- end -->. Every number is worked out here by its
formula and has to be the one of reference/lagoon.py; the bytes are packed from examples/channel.txt,
examples/second.txt, examples/outfall.txt and examples/bay-wide.txt. The figures of a store, of a share and of a lagoon numbered anew have
to be those that the proved program prints, crates/calls/stdout, or that crates/renumbered proves.

examples:
  tools/worked.py                               prints all blocks
  tools/worked.py step-1                        prints one
  tools/worked.py --check docs/ARITHMETIC.md    says whether the page holds them, and no other large number
  tools/worked.py --write docs/ARITHMETIC.md    puts them into the page
"""

YEAR = 24 * 365
MONTH = 24 * 30
TARIFF = (10_000_000, 30_010_000, lagoon.LAST_END), (35, 42, 55)        # ends and prices of the charge that is worked
PLAIN_STEPS = 8         # of the channel, in the table of plain upwind's error
BLOCK = re.compile(r"(<!-- worked: (\S+) -->\n).*?(<!-- end -->)", re.DOTALL)
SMALL = 20              # numbers up to here name stages, causes, positions and sections
WORD_BITS = 64          # of a number of the program
WIDEST_LINE = 76        # columns of a fenced block that an A4 page holds

# Numbers of the papers that the page's prose may say.
CONSTANTS = {lagoon.RIM, lagoon.TOP, *lagoon.LIBRARY_LIMITS, *lagoon.RUN_LIMITS, 255, 256, 128, lagoon.PAGE_CELLS,
             layout.WIDE.value, *lagoon.MASS_BITS, WORD_BITS, lagoon.CEILING, lagoon.MOST_CLAIMED, *range(21, 28)}


def same(ours, reference):
    """Two workings of one figure."""
    if ours != reference:
        raise SystemExit(f"worked.py: {ours} here, {reference} by the reference")
    return ours


class Session:
    """A session of examples/: its records, the mesh, the first field and the water of its first step."""

    def __init__(self, name):
        data, _ = sessiontext.pack((ROOT / "examples" / name).read_text())
        cells, faces, self.wide = lagoon.mesh_head(data, lagoon.RUN_LIMITS)
        self.widths = layout.WIDE if self.wide else layout.NARROW
        mesh, field = layout.mesh_bytes(cells, faces, self.widths), layout.field_bytes(cells, self.widths)
        self.cells, self.faces = range(cells), range(faces)
        self.mesh = lagoon.accept_mesh(data[:mesh])
        self.first = lagoon.accept_field(data[mesh:mesh + field], self.mesh, self.wide)
        self.records, rest = [data[:mesh], data[mesh:mesh + field]], data[mesh + field:]
        while rest:
            end = lagoon.step_ends(rest, self.mesh, self.wide)
            self.records.append(rest[:end])
            rest = rest[end:]
        kind, self.fluxes, self.outsides, self.releases = lagoon.read_step(self.records[2], cells, faces, self.mesh.seconds, wide=self.wide)
        self.outfalls = kind == self.widths.outfalls

    def printed(self):
        return lagoon.run(b"".join(self.records)).splitlines()


CHANNEL, SECOND, OUTFALL, BAY = Session("channel.txt"), Session("second.txt"), Session("outfall.txt"), Session("bay-wide.txt")


def columns(rows):
    """Rows of words, each column as wide as its widest word; numbers to the right, words to the left."""
    wide = [max(len(str(row[i])) for row in rows) for i in range(len(rows[0]))]
    return ["  ".join(str(word).ljust(w) if i in words_of(rows) else str(word).rjust(w)
                      for i, (word, w) in enumerate(zip(row, wide))).rstrip() for row in rows]


def words_of(rows):
    """The columns that hold words."""
    return {i for i in range(len(rows[0])) if any(re.search("[a-z=·]", str(row[i])) for row in rows[1:])}


def signed(number):
    return f"−{-number}" if number < 0 else str(number)


def factor(number):
    return f"({signed(number)})" if number < 0 else str(number)


def broken(words, more, indent=0):
    """One line, or two where a printed page does not hold it."""
    return [words + more] if len(words + more) <= WIDEST_LINE else [words.rstrip("; "), " " * indent + more]


# ---------------------------------------------------------------- Bytes

def layouts():
    return table([("record", "head", "body"), *layout_rows(layout.NARROW, ""), *layout_rows(layout.WIDE, "wide ")])


def layout_rows(widths, name):
    head = f"kind {{}} ({layout.KIND_BITS}), {{}}"
    cells, faces = f"cells ({layout.CELLS_BITS})", f"faces ({layout.FACES_BITS})"
    end, step = layout.END_BITS, f"{faces}, zeros ({layout.STEP_ZEROS})"
    return [(f"{name}mesh", head.format(widths.mesh, f"{cells}, {faces}, zeros ({layout.MESH_ZEROS})"),
             f"per cell V ({widths.value}); then per face first ({end}), second ({end}), s ({layout.SHARE_BITS}), K ({widths.value})"),
            (f"{name}field", head.format(widths.field, cells), f"per cell m ({widths.mass})"),
            (f"{name}step", head.format(widths.step, step),
             f"per face sign (1) and size of U ({widths.value}); then per rim face outside value ({layout.OUTSIDE_BITS})"),
            (f"{name}step with releases", head.format(widths.outfalls, step), f"as of kind {widths.step}; then per cell release ({widths.mass})")]


def table(rows):
    return [f"| {' | '.join(rows[0])} |", "|" + "---|" * len(rows[0])] + [f"| {' | '.join(row)} |" for row in rows[1:]]


def the_bytes():
    lines = []
    for name, record in zip(("mesh", "field", "step 1", "step 2"), CHANNEL.records):
        for at in range(0, len(record), 16):
            lines.append(f"{name if at == 0 else '':8}{record[at:at + 16].hex(' ')}")
    return fenced(lines)


def fenced(lines):
    return ["```", *lines, "```"]


def by_bits(record, fields):
    """One line for each field: where it stands, its bits in groups of four from the right, its value."""
    bits = "".join(f"{byte:08b}" for byte in record)
    rows, at = [("bits", "written", "value", "field")], 0
    for name, width in fields + [("zeros", -sum(width for _, width in fields) % 8)]:
        if width:
            part = bits[at:at + width]
            if width > 16:
                written = record_hex(part)
            else:
                written = re.sub(r"(?<=.)(?=(.{4})+$)", " ", part)
            rows.append((f"{at}–{at + width - 1}" if width > 1 else at, written, int(part, 2), name))
            at += width
    same(at, 8 * len(record))
    return columns(rows)


def record_hex(bits):
    return "hex " + f"{int(bits, 2):0{len(bits) // 4}x}"


def mesh_bits():
    fields = [("kind: mesh", 4), ("cells", 12), ("faces", 13), ("zeros", 3)] + [(f"V of cell {c}", 12) for c in CHANNEL.cells]
    for f in CHANNEL.faces:
        fields += [(f"face {f}: first", 12), (f"face {f}: second", 12), (f"face {f}: s", 8), (f"face {f}: K", 12)]
    return by_bits(CHANNEL.records[0], fields)


def field_and_step_bits(session, name=""):
    field = [(f"kind: {name}field", 4), ("cells", 12)] + [(f"m of cell {c}", session.widths.mass) for c in session.cells]
    return by_bits(session.records[1], field) + [""] + step_bits(session, f"{name}step")


def step_bits(session, name):
    """The first step record of a session, field by field."""
    step = [(f"kind: {name}", 4), ("faces", 13), ("zeros", 15)]
    for f in session.faces:
        step += [(f"face {f}: sign of U, 1 is minus", 1), (f"face {f}: size of U", session.widths.value)]
    step += [(f"face {f}: outside value", 20) for f in session.faces if session.mesh.seconds[f] == lagoon.RIM]
    if session.outfalls:
        step += [(f"release of cell {c}", session.widths.mass) for c in session.cells]
    return by_bits(session.records[2], step)


# ---------------------------------------------------------------- One step

class Step:
    """All numbers of one step, worked by the formulas of the page and compared with the reference."""

    def __init__(self, session, lent):
        self.session, self.mesh, self.U, self.outside, self.lent = session, session.mesh, session.fluxes, session.outsides, lent
        self.cells, self.faces, self.releases = session.cells, session.faces, session.releases
        self.m = masses = same([m + release for m, release in zip(lent, self.releases)], lagoon.raised(lent, self.releases))
        self.q = same([m // V for m, V in zip(masses, self.mesh.volumes)], lagoon.concentrations(self.mesh.volumes, masses))
        self.upwind = [self.upwind_of(f) for f in self.faces]
        carried, low = lagoon.upwind(self.mesh, masses, self.q, self.U, self.outside)
        self.carried = same([U * q for U, (_, q) in zip(self.U, self.upwind)], carried)
        self.low = same([masses[c] + self.into(c, carried) - self.out_of(c, carried) for c in self.cells], low)
        self.corrections = same([self.correction_of(f)[-1] for f in self.faces], lagoon.corrections(self.mesh, self.q, self.U))
        self.low_q = same([m // V for m, V in zip(low, self.mesh.volumes)], lagoon.concentrations(self.mesh.volumes, low))
        self.kept = same([0 if self.smooths(f) else self.corrections[f] for f in self.faces], lagoon.keep(self.mesh, low, self.corrections))
        self.near = [self.neighbours_of(c) for c in self.cells]
        self.lo, self.hi = [min(near) for near in self.near], [max(near) for near in self.near]
        self.G = [V * hi + V - 1 - m for V, hi, m in zip(self.mesh.volumes, self.hi, low)]
        self.L = [m - V * lo for V, lo, m in zip(self.mesh.volumes, self.lo, low)]
        same((self.G, self.L), lagoon.bounds(self.mesh, low, self.q, self.U, self.outside))
        self.P = [self.into(c, self.kept) for c in self.cells]
        self.N = [self.out_of(c, self.kept) for c in self.cells]
        self.limited = same([self.limited_of(f)[-1] for f in self.faces], lagoon.limiter(self.mesh, self.kept, self.G, self.L))
        result = lagoon.advance(self.mesh, lent, self.U, self.outside, self.releases)
        self.moved = same([c + a for c, a in zip(self.carried, self.limited)], result.moved)
        self.next = same([masses[c] + self.into(c, self.moved) - self.out_of(c, self.moved) for c in self.cells], result.masses)
        rim = [f for f in self.faces if self.at_rim(f)]
        self.entered = same(sum(-self.U[f] * self.outside[f] for f in rim if self.U[f] < 0), result.in_mass)
        self.gone = same(sum(self.U[f] * self.q[self.mesh.firsts[f]] for f in rim if self.U[f] > 0), result.out_mass)
        self.released = same(sum(self.releases), result.released)

    def at_rim(self, f):
        return self.mesh.seconds[f] == lagoon.RIM

    def upwind_of(self, f):
        """Where the water of a face comes from, and the concentration there."""
        first, second = self.mesh.firsts[f], self.mesh.seconds[f]
        if self.U[f] >= 0:
            return f"cell {first}", self.q[first]
        return ("outside", self.outside[f]) if self.at_rim(f) else (f"cell {second}", self.q[second])

    def into(self, c, amounts):
        return sum(abs(amounts[f]) for f in self.faces
                   if (self.mesh.seconds[f] == c and amounts[f] > 0) or (self.mesh.firsts[f] == c and amounts[f] < 0))

    def out_of(self, c, amounts):
        return sum(abs(amounts[f]) for f in self.faces
                   if (self.mesh.firsts[f] == c and amounts[f] > 0) or (self.mesh.seconds[f] == c and amounts[f] < 0))

    def ends(self, f):
        """The upwind and the downwind cell of an interior face."""
        ends = self.mesh.firsts[f], self.mesh.seconds[f]
        return ends if self.U[f] > 0 else ends[::-1]

    def correction_of(self, f):
        """d, t, t K - 128 |U|, the product, the divisor, the correction."""
        U, s, K = self.U[f], self.mesh.shares[f], self.mesh.reaches[f]
        if self.at_rim(f) or U == 0:
            return (0,)
        up, down = self.ends(f)
        d, t = self.q[down] - self.q[up], s if U > 0 else 256 - s
        inner = t * K - 128 * abs(U)
        product = U * d * inner
        quotient = abs(product) // (256 * K) * (-1 if product < 0 else 1)
        return d, t, inner, product, 256 * K, quotient

    def runs(self, f):
        """Giver and receiver of a correction, by its own sign."""
        ends = self.mesh.firsts[f], self.mesh.seconds[f]
        return ends if self.corrections[f] > 0 else ends[::-1]

    def smooths(self, f):
        """Whether a correction runs from a larger low-order q to a smaller."""
        if self.corrections[f] == 0:
            return False
        giver, receiver = self.runs(f)
        return self.low_q[giver] > self.low_q[receiver]

    def neighbours_of(self, c):
        near = [self.q[c]]
        for f in self.faces:
            if self.U[f] != 0 and c in (self.mesh.firsts[f], self.mesh.seconds[f]):
                if not self.at_rim(f):
                    near.append(self.q[self.mesh.firsts[f] + self.mesh.seconds[f] - c])
                elif self.U[f] < 0:
                    near.append(self.outside[f])
        return near

    def limited_of(self, f):
        """Receiver, giver, what each lets through, and the limited correction."""
        a = abs(self.kept[f])
        if a == 0:
            return (0,)
        giver, receiver = self.runs(f)
        gets = a if self.P[receiver] <= self.G[receiver] else a * self.G[receiver] // self.P[receiver]
        gives = a if self.N[giver] <= self.L[giver] else a * self.L[giver] // self.N[giver]
        return receiver, giver, gets, gives, min(gets, gives) * (-1 if self.kept[f] < 0 else 1)

    # ------------------------------------------------------------ as text

    def lines(self):
        stages = (*self.raising(), self.before(), self.stage_1(), self.stage_2(), self.smoothing(), self.stage_3(), self.stage_4(), self.stage_5())
        return [line for stage in stages for line in [*stage, ""]][:-1]

    def given(self):
        """What the step is worked from."""
        M = self.mesh
        cells = [("cell", "V", "m")] + [(c, M.volumes[c], self.m[c]) for c in self.cells]
        faces = [("face", "first", "second", "s", "K", "U", "outside value")]
        faces += [(f, M.firsts[f], "rim" if self.at_rim(f) else M.seconds[f], M.shares[f], M.reaches[f], signed(self.U[f]), self.outside[f])
                  for f in self.faces]
        return columns(cells) + [""] + columns(faces)

    def raising(self):
        """The stage that a step of kind 4 has before the others."""
        if not self.session.outfalls:
            return []
        rows = [("cell", "raised m = m + release")] + [(c, f"{self.lent[c]} + {self.releases[c]} = {self.m[c]}") for c in self.cells]
        return [["Releases", *columns(rows)]]

    def before(self):
        V = self.mesh.volumes
        rows = [("cell", "V", "m", "q", "rest")] + [(c, V[c], self.m[c], self.q[c], self.m[c] - self.q[c] * V[c]) for c in self.cells]
        return ["Before the step"] + columns(rows)

    def plain_lines(self):
        """The same by stages 1 and 5 alone."""
        plain = lagoon.advance_plain(self.mesh, self.lent, self.U, self.outside, self.releases)
        moved, after = same(self.carried, plain.moved), same(self.low, plain.masses)
        ending = ["Stage 5: every face moves what it carries", *self.ending(moved, after)]
        return [line for stage in (*self.raising(), self.before(), self.carrying(), ending) for line in [*stage, ""]][:-1]

    def carrying(self):
        faces = [("face", "U", "upwind", "q there", "carried = U · q")]
        faces += [(f, signed(self.U[f]), *self.upwind[f], f"{signed(self.U[f])} · {self.upwind[f][1]} = {signed(self.carried[f])}")
                  for f in self.faces]
        return ["Stage 1, upwind"] + columns(faces)

    def stage_1(self):
        cells = [("cell", "low-order mass = m + entering − leaving")]
        cells += [(c, f"{self.m[c]} + {self.into(c, self.carried)} − {self.out_of(c, self.carried)} = {self.low[c]}") for c in self.cells]
        return self.carrying() + columns(cells)

    def stage_2(self):
        lines = ["Stage 2, correction (0 at the rim, and where U is 0)"]
        for f in self.faces:
            if len(self.correction_of(f)) > 1:
                d, t, inner, product, divisor, quotient = self.correction_of(f)
                U, s, K = self.U[f], self.mesh.shares[f], self.mesh.reaches[f]
                up, down = self.ends(f)
                way = f"{t}" if U > 0 else f"256 − {s} = {t}"
                left = abs(product) % divisor
                lines += [f"face {f}: d = {self.q[down]} − {self.q[up]} = {signed(d)}; t = {way}",
                          f"        t·K − 128·|U| = {t} · {K} − 128 · {abs(U)} = {signed(inner)}",
                          f"        {signed(U)} · {factor(d)} · {factor(inner)} = {signed(product)}",
                          f"        divided by 256 · {K} = {divisor}: {signed(quotient)}, {left if left else 'nothing'} left over"]
        return lines

    def smoothing(self):
        V = self.mesh.volumes
        cells = [("cell", "low-order q = low / V")] + [(c, f"{self.low[c]} / {V[c]} = {self.low_q[c]}") for c in self.cells]
        lines = ["Between stages 2 and 3, corrections that smooth"] + columns(cells)
        for f in self.faces:
            if self.corrections[f]:
                giver, receiver = self.runs(f)
                a, b = self.low_q[giver], self.low_q[receiver]
                said = f"{a} > {b}: 0" if a > b else f"{a} {'=' if a == b else '<'} {b}: kept, {signed(self.kept[f])}"
                lines.append(f"face {f}: from cell {giver} to cell {receiver}, {said}")
        return lines

    def stage_3(self):
        V = self.mesh.volumes
        met = [("cell", "q met", "lo", "hi")] + [(c, ", ".join(map(str, self.near[c])), self.lo[c], self.hi[c]) for c in self.cells]
        gains = [("cell", "G = V·hi + V − 1 − low")] + [(c, f"{V[c]}·{self.hi[c]} + {V[c]} − 1 − {self.low[c]} = {self.G[c]}") for c in self.cells]
        losses = [("cell", "L = low − V·lo")] + [(c, f"{self.low[c]} − {V[c]}·{self.lo[c]} = {self.L[c]}") for c in self.cells]
        return ["Stage 3, bounds", *columns(met), *columns(gains), *columns(losses)]

    def stage_4(self):
        lines = ["Stage 4, limiter"] + columns([("cell", "P", "G", "N", "L")] + [(c, self.P[c], self.G[c], self.N[c], self.L[c]) for c in self.cells])
        for f in self.faces:
            if self.kept[f]:
                receiver, giver, gets, gives, limited = self.limited_of(f)
                a = abs(self.kept[f])
                lines += [f"face {f}: a = {a}, from cell {giver} to cell {receiver}",
                          *broken(f"        cell {receiver} has ", self.portion('P', self.P, 'G', self.G, receiver, a, gets), 10),
                          *broken(f"        cell {giver} has ", self.portion('N', self.N, 'L', self.L, giver, a, gives), 10),
                          f"        limited correction {signed(limited)}, of the lesser size"]
            elif not self.at_rim(f):
                lines.append(f"face {f}: limited correction 0, as nothing is kept")
        return lines

    def portion(self, sum_name, sums, room_name, rooms, cell, a, result):
        """What one end of a face lets through."""
        if sums[cell] <= rooms[cell]:
            return f"{sum_name} ≤ {room_name}: {a}"
        return f"{sum_name} > {room_name}: {a} · {rooms[cell]} / {sums[cell]} = {result}"

    def stage_5(self):
        faces = [("face", "moved = carried + limited")]
        faces += [(f, f"{signed(self.carried[f])} + {factor(self.limited[f])} = {signed(self.moved[f])}") for f in self.faces]
        return ["Stage 5, moved and next masses", *columns(faces), *self.ending(self.moved, self.next)]

    def ending(self, moved, after):
        """The next masses, and the budget of the step."""
        V = self.mesh.volumes
        cells = [("cell", "next mass = m + entering − leaving", "q", "rest")]
        cells += [(c, f"{self.m[c]} + {self.into(c, moved)} − {self.out_of(c, moved)} = {after[c]}", after[c] // V[c], after[c] % V[c])
                  for c in self.cells]
        before, total = sum(self.lent), same(sum(after), sum(self.lent) + self.entered + self.released - self.gone)
        crossed, sums = f"in-mass {self.entered}, out-mass {self.gone}", f"total {before} + {self.entered} − {self.gone} = {total}"
        budget = broken(f"{crossed}; ", sums)
        if self.session.outfalls:
            budget = [f"{crossed}, released mass {self.released}", f"total {before} + {self.entered} + {self.released} − {self.gone} = {total}"]
        return [*columns(cells), *budget]


    # ------------------------------------------------------------ another model's claim

    def judged(self, claim):
        """A claim for this step in the place of its moved masses, judged face by face, then cell by cell, up to what refuses it."""
        faces, fault = [("face", "U", "claim", "water", "stage 1")], None
        for f in self.faces:
            U, x, carried = self.U[f], claim[f], f"{signed(self.U[f])} · {self.upwind[f][1]} = {signed(self.carried[f])}"
            fits = abs(x) <= lagoon.MOST_CLAIMED and (U != 0 or x == 0) and (not self.at_rim(f) or x == self.carried[f])
            faces.append((f, signed(U), signed(x), "still" if U == 0 else "over the rim" if self.at_rim(f) else "inside", carried if self.at_rim(f) else "any"))
            fault = fault or (None if fits else (21, f"face {f}"))
        lines, cells = columns(faces), [("cell", "next mass = m + entering − leaving", "q", "lo", "hi")]
        for c in self.cells if not fault else ():
            after = self.m[c] + self.into(c, claim) - self.out_of(c, claim)
            q = after // self.mesh.volumes[c]
            cells.append((c, f"{self.m[c]} + {self.into(c, claim)} − {self.out_of(c, claim)} = {signed(after)}", signed(q), self.lo[c], self.hi[c]))
            fault = fault or (None if after >= 0 and self.lo[c] <= q <= self.hi[c] else (22, f"cell {c}"))
        lines += columns(cells) if len(cells) > 1 else []
        same(fault, self.refused_claim(claim))
        return [*lines, f"refused: cause {fault[0]}, {fault[1]}" if fault else "accepted"]

    def refused_claim(self, claim):
        """The reference's verdict on a claim: cause and place, None where it is accepted."""
        try:
            lagoon.judge_claim(self.mesh, self.lent, self.U, self.outside, self.releases, claim)
        except lagoon.Refusal as refusal:
            return refusal.cause, f"{'face' if refusal.cause == 21 else 'cell'} {refusal.place}"
        return None


STEP_1 = Step(CHANNEL, CHANNEL.first)
STEP_2 = Step(CHANNEL, STEP_1.next)
SECOND_STEP = Step(SECOND, SECOND.first)
OUTFALL_STEP = Step(OUTFALL, OUTFALL.first)
BAY_STEP = Step(BAY, BAY.first)
PLAIN_2 = Step(CHANNEL, STEP_1.low)         # after one plain step


# ---------------------------------------------------------------- A product of more than twenty digits

def largest_portion():
    """a, G and P of the largest product that stage 4 of the bay's step divides."""
    found = []
    for f in BAY.faces:
        if BAY_STEP.kept[f]:
            receiver = BAY_STEP.limited_of(f)[0]
            a, G, P = abs(BAY_STEP.kept[f]), BAY_STEP.G[receiver], BAY_STEP.P[receiver]
            found += [(a * G, a, G, P)] * (P > G)
    product, *factors = max(found)
    same((len(str(product)) > 20, product >= 1 << WORD_BITS), (True, True))
    return factors


def in_parts():
    """The product, with G taken apart at its fifth digit from the right."""
    a, G, _ = largest_portion()
    high, low = divmod(G, 10 ** 5)
    whole = same(a * high * 10 ** 5 + a * low, a * G)
    return [f"G = {G} = {high} · 100000 + {low}", f"{a} · {high} = {a * high}", f"{a} · {low} = {a * low}",
            f"a · G = {a * high}00000 + {a * low} = {whole}"]


def long_division():
    """The product divided by P, one digit of the quotient after another."""
    a, G, P = largest_portion()
    product = str(a * G)
    taken = next(digits for digits in range(1, len(product) + 1) if int(product[:digits]) >= P)
    rows, left, quotient = [("divided", "digit", "digit · P", "left")], int(product[:taken - 1]), ""
    for digit in product[taken - 1:]:
        divided = 10 * left + int(digit)
        goes, left = divmod(divided, P)
        quotient += str(goes)
        rows.append((divided, goes, goes * P, left))
    same((int(quotient), left), divmod(a * G, P))
    return [f"{product} divided by {P}", "", *columns(rows), "",
            f"the quotient is {quotient}; the last {left} is dropped",
            f"check: {quotient} · {P} + {left} = {same(int(quotient) * P + left, a * G)}"]


# ---------------------------------------------------------------- Plain upwind and its error

class Beside:
    """Plain steps, and the same steps with q not rounded: m and e of each cell, as the page works them and as the reference does."""

    def __init__(self, mesh, first):
        self.mesh, self.m, self.e = mesh, list(first), list(map(Fraction, first))

    def step(self, fluxes, outsides, releases):
        raised = [m + release for m, release in zip(self.m, releases)]
        m = self.moved(raised, [mass // V for mass, V in zip(raised, self.mesh.volumes)], fluxes, outsides)
        raised = [e + release for e, release in zip(self.e, releases)]
        e = self.moved(raised, [mass / V for mass, V in zip(raised, self.mesh.volumes)], fluxes, outsides)
        self.m = same(m, lagoon.advance_plain(self.mesh, self.m, fluxes, outsides, releases).masses)
        self.e = same(e, lagoon.advance_unrounded(self.mesh, self.e, fluxes, outsides, releases)[0])

    def moved(self, masses, q, fluxes, outsides):
        """Stage 1 with these concentrations."""
        after = list(masses)
        for first, second, U, outside in zip(self.mesh.firsts, self.mesh.seconds, fluxes, outsides):
            carried = U * (q[first] if U >= 0 else outside if second == lagoon.RIM else q[second])
            after[first] -= carried
            if second != lagoon.RIM:
                after[second] += carried
        return after

    def apart(self):
        """How far m/V is from e/V, where it is farthest."""
        return max(abs(m - e) / V for m, e, V in zip(self.m, self.e, self.mesh.volumes))


def exact(value):
    """A fraction as decimals where they end, else with its bar."""
    value, digits = Fraction(value), 0
    while digits < 6 and (value * 10 ** digits).denominator > 1:
        digits += 1
    if (value * 10 ** digits).denominator > 1:
        return f"{value.numerator}/{value.denominator}"
    whole, part = divmod(int(value * 10 ** digits), 10 ** digits)
    return f"{whole}.{part:0{digits}}" if digits else str(whole)


def plain_error():
    """The channel by plain steps and by unrounded ones."""
    beside = Beside(CHANNEL.mesh, CHANNEL.first)
    shown = [c for c in CHANNEL.cells if c]             # cell 0 stays as it is
    rows = [("n", *(f"{name} of cell {c}" for c in shown for name in "me"), "apart")]
    for n in range(1, PLAIN_STEPS + 1):
        beside.step(CHANNEL.fluxes, CHANNEL.outsides, CHANNEL.releases)
        same((beside.apart() < n, beside.m[0], beside.e[0]), (True, CHANNEL.first[0], CHANNEL.first[0]))
        rows.append((n, *(exact(side[c]) for c in shown for side in (beside.m, beside.e)), exact(beside.apart())))
    return columns(rows)


def plain_pair():
    """Two cells of V 3 that exchange all their water."""
    beside = Beside(lagoon.Mesh([3, 3], [0, 0], [1, 1], [128, 128], [3, 3]), [2, 0])
    rows = [("n", "releases", "raised m", "q", "next m", "raised e", "e/V", "next e", "apart")]
    for n, releases in enumerate(([0, 0], [1, 2], [2, 1]), 1):
        m, e = ([mass + release for mass, release in zip(masses, releases)] for masses in (beside.m, beside.e))
        beside.step([3, -3], [0, 0], releases)
        same(beside.apart() < n, True)
        both = lambda values: ", ".join(map(exact, values))
        rows.append((n, both(releases), both(m), both(mass // 3 for mass in m), both(beside.m), both(e), both(mass / 3 for mass in e),
                     both(beside.e), exact(beside.apart())))
    return columns(rows)


def cut_in_two():
    """The channel with outfalls cut after its first cell: what each part is given, and its plain step, which has to be the whole's."""
    step = (OUTFALL.mesh, OUTFALL.first, OUTFALL.fluxes, OUTFALL.outsides, OUTFALL.releases)
    whole, labels, lines = lagoon.advance_plain(*step), [0, 1, 1], []
    for part in lagoon.PARTS:
        made = lagoon.part_of(*step, labels, part)
        firsts, seconds, fluxes, outsides = (made[position] for position in (lagoon.FIRSTS, lagoon.SECONDS, lagoon.FLUXES, lagoon.OUTSIDES))
        mesh = lagoon.Mesh(*(made[position] for position in range(5)))
        own = lagoon.advance_plain(mesh, made[lagoon.MASSES], fluxes, outsides, made[lagoon.RELEASES])
        cells, faces = lagoon.part_cells(labels, part), lagoon.part_faces(OUTFALL.mesh, labels, part)
        turned = [labels[OUTFALL.mesh.firsts[f]] != part for f in faces]
        rows = [("face", "old face", "from", "to", "U", "outside value", "moved", "moved in the whole")]
        for i, f in enumerate(faces):
            same(own.moved[i], -whole.moved[f] if turned[i] else whole.moved[f])
            rows.append((i, f, firsts[i], "rim" if seconds[i] == lagoon.RIM else seconds[i], signed(fluxes[i]), outsides[i], signed(own.moved[i]),
                         signed(whole.moved[f])))
        lines += [f"Part {part}", *columns(rows)]
        rows = [("cell", "old cell", "m", "release", "next mass", "of the whole")]
        rows += [(i, c, made[lagoon.MASSES][i], made[lagoon.RELEASES][i], own.masses[i], same(whole.masses[c], own.masses[i]))
                 for i, c in enumerate(cells)]
        lines += [*columns(rows), ""]
    return lines[:-1]


def claims():
    """Three claims for the channel's first step: one between the corrected and the plain step, one of a bar that holds too much back, and one
    that brings more than the sea does."""
    entered, moved = STEP_1.moved[0], (STEP_1.moved[1] + STEP_1.carried[1]) // 2
    found = ([entered, moved, 0, 0], [entered, STEP_1.moved[1] - 1, 0, 0], [entered - 1, moved, 0, 0])
    return [line for claim in found for line in [*STEP_1.judged(claim), ""]][:-1]


def charge():
    """What leaves the channel over its last face in two months, by bands of a tariff, with the remainder handed on."""
    ends, prices = TARIFF
    lines = columns([("band to", "price"), *zip(ends, prices)])
    masses, remainder, paid, sums, face = CHANNEL.first, 0, 0, 0, CHANNEL.faces[-1]
    for name in ("First month", "Second month"):
        totals = [0] * len(CHANNEL.faces)
        for _ in range(MONTH):
            result = lagoon.advance(CHANNEL.mesh, masses, CHANNEL.fluxes, CHANNEL.outsides)
            lagoon.add_moved(len(CHANNEL.faces), CHANNEL.mesh.seconds, result.moved, totals)
            masses = result.masses
        total = totals[face]
        shares = [(min(total, end) - min(total, begin), price) for begin, end, price in zip((0, *ends), ends, prices)]
        charged = sum(mass * price for mass, price in shares)
        cents, left = same(divmod(charged + remainder, lagoon.UNITS), lagoon.charge(total, len(ends), ends, prices, remainder))
        lines += ["", f"{name}: {MONTH} steps, {total} outward over face {face}",
                  *columns([("mass", "price", "share"), *((mass, price, mass * price) for mass, price in shares)]),
                  f"sum {charged} + remainder {remainder} = {charged + remainder}", f"to pay {cents} cents; {left} is handed on"]
        remainder, paid, sums = left, paid + cents, sums + charged
    same(paid * lagoon.UNITS + remainder, sums)
    return lines + ["", f"Both: {paid} · {lagoon.UNITS} + {remainder} = {sums}, the sums together"]


def year():
    """The channel's step a year of hours long."""
    masses, entered, gone = CHANNEL.first, 0, 0
    for _ in range(YEAR):
        result = lagoon.advance(CHANNEL.mesh, masses, CHANNEL.fluxes, CHANNEL.outsides)
        masses, entered, gone = result.masses, entered + result.in_mass, gone + result.out_mass
    total = same(sum(CHANNEL.first) + entered - gone, sum(masses))
    return columns([("steps", "first total", "in-masses", "out-masses", "last total", "masses"),
                    (YEAR, sum(CHANNEL.first), entered, gone, total, " ".join(map(str, masses)))])


def largest_numerator():
    """The largest size of U·d·(t·K − 128·|U|), over all t and |U| at the largest K and d."""
    K = lagoon.CEILING
    return max(U * lagoon.TOP * abs(t * K - 128 * U) for t in (1, 255) for U in range(1, K + 1))


def widest():
    """The largest products that a step can ask for."""
    U = lagoon.CEILING
    most_mass = (lagoon.TOP + 1) * lagoon.CEILING - 1
    rows = [("product", "never above", "digits")]
    for name, value in (("stage 1, U · q", U * lagoon.TOP), ("stage 2, U·d·(t·K − 128·|U|)", largest_numerator()),
                        ("stage 4, a · G and a · L", U * lagoon.TOP * most_mass), ("a cell's mass, V·q + rest", most_mass)):
        rows.append((name, value, len(str(value))))
    return columns(rows)


def edition():
    """The version and date of this page: the newest in CHANGES.md, whose version is that of the file VERSION."""
    version, date = re.search(r"^## (\S+), (\S+)$", (ROOT / "CHANGES.md").read_text(), re.MULTILINE).groups()
    return [f"Version {same(version, (ROOT / 'VERSION').read_text().strip())}, {date}."]


def form():
    """Blank tables for one step, as many rows as one page holds."""
    def blank(names, rows):
        line = "+" + "+".join("-" * (wide + 2) for _, wide in names) + "+"
        heads = "|" + "|".join(f" {name:{wide}} " for name, wide in names) + "|"
        empty = "|" + "|".join(" " * (wide + 2) for _, wide in names) + "|"
        return [line, heads, line] + [empty, line] * rows
    cells = [("cell", 4), ("V", 4), ("release", 7), ("m", 7), ("q", 5), ("low", 6), ("lo", 4), ("hi", 4), ("next m", 7)]
    sums = [("cell", 4), ("low q", 6), ("P", 7), ("G", 7), ("N", 7), ("L", 7), ("next q", 7), ("rest", 5)]
    faces = [("face", 4), ("U", 4), ("carried", 8), ("d", 6), ("t", 3), ("correction", 10), ("limited", 8), ("moved", 8)]
    return (["Step ______    worked by ____________    checked by ____________", ""]
            + blank(cells, 6) + [""] + blank(sums, 6) + [""] + blank(faces, 8)
            + ["m with its release added; a correction that is not kept is struck out", "",
               "in-mass ________  released ________  out-mass ________", "total before ________  after ________"])


def binder_page(session, masses):
    """A field as a page for the binder."""
    return "".join(lagoon.page_lines(session.mesh.volumes, masses, 0)).splitlines()


def page_back(session, masses):
    """The same page read back, line by line."""
    *lines, last = binder_page(session, masses)
    found, rows = [], ["cell  m = q·V + rest"]
    for line, volume, mass in zip(lines, session.mesh.volumes, masses):
        cell, q, rest = map(int, line.split())
        found.append(same(q * volume + rest, mass))
        rows.append(f"{cell:4}  {q} · {volume} + {rest} = {found[-1]}")
    return rows + [f"mass of the page: {' + '.join(map(str, found))} = {same(sum(found), int(last))}"]


def public():
    """The channel after its steps, its middle cell withheld, as growers and public read it; for the public the same whatever mass is withheld."""
    volumes, masses, marks, cells = CHANNEL.mesh.volumes, STEP_2.next, [0, 1, 0], len(CHANNEL.cells)
    growers = binder_page(CHANNEL, masses) + board_lines(lagoon.board(volumes, masses))
    found = []
    for withheld in (masses[1], 0, volumes[1] * lagoon.TOP):
        field = [masses[0], withheld, masses[2]]
        page = lagoon.public_page_on_tables(cells, volumes, field, 0, lagoon.page_length(volumes, cells, 0), marks).decode().splitlines()
        found.append(page + [""] * (cells + 1 - len(page)) + board_lines(lagoon.public_board(cells, volumes, field, marks)))
    same(found[1:], found[:-1])
    same(found[0][:2], [line for line, mark in zip(growers, marks) if mark == 0])
    rows = itertools.zip_longest(("for the growers", *growers), ("for the public", *found[0]), fillvalue="")
    return [f"marks of cells 0, 1 and 2: {', '.join(map(str, marks))}", "", *(f"{left:24}{right}".rstrip() for left, right in rows)]


def board_lines(entries):
    return [f"B {cell} {q} {rest}" for cell, q, rest in entries]


# ---------------------------------------------------------------- A store, a share, another numbering

def printed_by_calls(line):
    """A line that the proved program `calls` prints of its stored script."""
    return same(line, line if line in (ROOT / "crates/calls/stdout").read_text().splitlines() else "no such line of crates/calls/stdout")


def store():
    """A morning of the channel kept, the field after two steps kept beside it, the morning given back, and dropped."""
    cells, volumes, kept, masses = len(CHANNEL.cells), CHANNEL.mesh.volumes, [0] * 9, list(STEP_2.next)
    spelled = lambda entries: " ".join(map(str, entries))
    rows = [("call", "the store after it"), ("", spelled(kept))]
    for field, name in ((CHANNEL.first, 7), (STEP_2.next, 8)):
        lagoon.store_keep(cells, volumes, list(field), kept, name)
        printed_by_calls(f"keep: accepted; store {spelled(kept)}")
        rows.append((f"keep under {name}", spelled(kept)))
    before = list(kept)
    lagoon.store_return(cells, volumes, masses, kept, 7)
    printed_by_calls(f"give_back: accepted; masses {spelled(masses)}")
    rows.append(("return of 7", spelled(same(kept, before))))
    lagoon.store_drop(cells, kept, 7)
    printed_by_calls(f"drop: accepted; store {spelled(kept)}")
    rows.append(("drop of 7", spelled(kept)))
    wide = max(len(call) for call, _ in rows)
    again = Step(CHANNEL, Step(CHANNEL, masses).next).next
    return [*(f"{call:{wide}}  {entries}" for call, entries in rows), "",
            f"masses after the return: {spelled(same(masses, list(CHANNEL.first)))}",
            f"the budget starts from their total, {sum(masses)}",
            f"two steps from there: {spelled(same(again, STEP_2.next))}, which is field 8"]


def of_float(value):
    """A 64-bit float in the fewest decimals that give it back."""
    return repr(value).removesuffix(".0").replace("-", "−")


def share():
    """A slanted face: each operation, the ratio and the share."""
    coordinates = 3.0, 1.0, 7.5, 4.25, 2.0, 9.0, 8.0, -1.5
    patterns = [struct.unpack("<Q", struct.pack("<d", value))[0] for value in coordinates]
    same(f"28  {' '.join(map(str, patterns))}" in (ROOT / "crates/calls/stdin").read_text().splitlines(), True)
    x1, y1, x2, y2, fx, fy, sx, sy = coordinates
    S, M = (y2 - y1, x1 - x2), ((x1 + x2) * 0.5, (y1 + y2) * 0.5)
    lines = [f"ends ({of_float(x1)}, {of_float(y1)}) and ({of_float(x2)}, {of_float(y2)}); "
             f"centres ({of_float(fx)}, {of_float(fy)}) and ({of_float(sx)}, {of_float(sy)})", "",
             f"S = ({of_float(y2)} − {of_float(y1)}, {of_float(x1)} − {of_float(x2)}) = ({of_float(S[0])}, {of_float(S[1])})",
             f"M = (({of_float(x1)} + {of_float(x2)}) · 0.5, ({of_float(y1)} + {of_float(y2)}) · 0.5) = ({of_float(M[0])}, {of_float(M[1])})"]
    found = []
    for name, way, told in (("a", (M[0] - fx, M[1] - fy), "M − first centre"), ("b", (sx - M[0], sy - M[1]), "second centre − M")):
        terms = S[0] * way[0], S[1] * way[1]
        found.append(abs(terms[0] + terms[1]))
        lines += [f"{told} = ({of_float(way[0])}, {of_float(way[1])})",
                  f"{name} = size of {of_float(S[0])} · {of_float(way[0])} + ({of_float(S[1])}) · ({of_float(way[1])})",
                  f"  = size of {of_float(terms[0])} + {of_float(terms[1])} = {of_float(found[-1])}"]
    a, b = same(tuple(found), lagoon.sides(((x1, y1), (x2, y2)), ((fx, fy), (sx, sy))))
    ratio = a / (a + b)
    printed_by_calls(f"middle_stage: accepted {struct.unpack('<Q', struct.pack('<d', same(('ratio', ratio), lagoon.middle_stage(coordinates))[1]))[0]}")
    k = same(int(256 * ratio), lagoon.face_share(coordinates))
    printed_by_calls(f"face_share: accepted {k}")
    return [*lines, f"a / (a + b) = {of_float(a)} / {of_float(a + b)} = {of_float(ratio)}",
            f"256 · {of_float(ratio)} = {of_float(256 * ratio)}: the share is {k}"]


def along(new, entries):
    """A table carried along to new numbers."""
    carried = list(entries)
    for old, number in enumerate(new):
        carried[number] = entries[old]
    return carried


def renumbered():
    """The channel's first step by an office that numbers cells and faces from the other end and has face 1 turned round."""
    cells, faces, turned, M = [2, 1, 0], [3, 2, 1, 0], {1}, CHANNEL.mesh
    number = lambda cell: cell if cell == lagoon.RIM else cells[cell]
    ends = [(number(second), number(first)) if f in turned else (number(first), number(second)) for f, (first, second) in enumerate(zip(M.firsts, M.seconds))]
    opposite = lambda amounts: [-x if f in turned else x for f, x in enumerate(amounts)]
    shares = [256 - s if f in turned else s for f, s in enumerate(M.shares)]
    mesh = lagoon.Mesh(along(cells, M.volumes), along(faces, [first for first, _ in ends]), along(faces, [second for _, second in ends]),
                       along(faces, shares), along(faces, M.reaches))
    fluxes = along(faces, opposite(CHANNEL.fluxes))
    result = lagoon.advance(mesh, along(cells, CHANNEL.first), fluxes, along(faces, CHANNEL.outsides))
    same((result.masses, result.moved), (along(cells, STEP_1.next), along(faces, opposite(STEP_1.moved))))
    proved = (ROOT / "crates/renumbered/proofs/Figures.antt").read_text()
    same(f"≡ {' ∷ '.join(map(str, result.masses))} ∷ []" in proved, True)
    rows = [("face", "there", "turned", "from", "to", "U here", "U there", "moved here", "moved there")]
    rows += [(f, faces[f], "yes" if f in turned else "no", mesh.firsts[faces[f]], "rim" if mesh.seconds[faces[f]] == lagoon.RIM else mesh.seconds[faces[f]],
              signed(CHANNEL.fluxes[f]), signed(fluxes[faces[f]]), signed(STEP_1.moved[f]), signed(result.moved[faces[f]])) for f in CHANNEL.faces]
    here, there = binder_page(CHANNEL, STEP_1.next), "".join(lagoon.page_lines(mesh.volumes, result.masses, 0)).splitlines()
    pages = [("cell here, cell there", "its line here", "its line there")]
    pages += [(f"{c}, {cells[c]}", here[c], there[cells[c]]) for c in CHANNEL.cells] + [("", here[-1], same(there[-1], here[-1]))]
    for c in CHANNEL.cells:
        same(here[c].split()[1:], there[cells[c]].split()[1:])
    return [*columns(rows), "", *(f"{pair:23}{mine:22}{theirs}".rstrip() for pair, mine, theirs in pages)]


BLOCKS = {"layouts": layouts, "bytes": the_bytes, "mesh-bits": lambda: fenced(mesh_bits()), "step-bits": lambda: fenced(field_and_step_bits(CHANNEL)),
          "step-1": lambda: fenced(STEP_1.lines()), "step-2": lambda: fenced(STEP_2.lines()), "printed": lambda: fenced(CHANNEL.printed()),
          "second-given": lambda: fenced(SECOND_STEP.given()), "second-step": lambda: fenced(SECOND_STEP.lines()),
          "second-printed": lambda: fenced(SECOND.printed()), "outfall-bits": lambda: fenced(step_bits(OUTFALL, "step with releases")),
          "outfall-step": lambda: fenced(OUTFALL_STEP.lines()), "outfall-printed": lambda: fenced(OUTFALL.printed()),
          "plain-1": lambda: fenced(STEP_1.plain_lines()), "plain-2": lambda: fenced(PLAIN_2.plain_lines()),
          "plain-error": lambda: fenced(plain_error()), "plain-pair": lambda: fenced(plain_pair()), "claims": lambda: fenced(claims()),
          "cut": lambda: fenced(cut_in_two()), "charge": lambda: fenced(charge()), "public": lambda: fenced(public()),
          "store": lambda: fenced(store()), "share": lambda: fenced(share()), "renumbered": lambda: fenced(renumbered()),
          "year": lambda: fenced(year()), "widest": lambda: fenced(widest()),
          "edition": edition, "form": lambda: fenced(form()),
          "page": lambda: fenced(binder_page(CHANNEL, STEP_2.next)), "page-back": lambda: fenced(page_back(CHANNEL, STEP_2.next)),
          "wide-given": lambda: fenced(BAY_STEP.given()), "wide-bits": lambda: fenced(field_and_step_bits(BAY, "wide ")),
          "wide-step": lambda: fenced(BAY_STEP.lines()), "wide-product": lambda: fenced(in_parts()), "wide-division": lambda: fenced(long_division()),
          "wide-printed": lambda: fenced(BAY.printed()), "wide-page": lambda: fenced(binder_page(BAY, BAY_STEP.next))}


# ---------------------------------------------------------------- The page

@lru_cache(maxsize=None)
def lines_of(name):
    return tuple(BLOCKS[name]())


def filled(page):
    """The page with every block as it is worked out here."""
    def block(found):
        if found[2] not in BLOCKS:
            raise SystemExit(f"worked.py: no block is called {found[2]}")
        return found[1] + "".join(line + "\n" for line in lines_of(found[2])) + found[3]
    return BLOCK.sub(block, page)


def check(path):
    page = path.read_text()
    missing = set(BLOCKS) - {found[2] for found in BLOCK.finditer(page)}
    if missing:
        raise SystemExit(f"worked.py: {path} lacks the blocks {', '.join(sorted(missing))}")
    as_worked = filled(page)
    for number, (has, wanted) in enumerate(zip(page.splitlines(), as_worked.splitlines()), 1):
        if has != wanted:
            raise SystemExit(f"{path}:{number}: '{has}' where '{wanted}' is worked out")
    if page != as_worked:
        raise SystemExit(f"{path}: a block has more or fewer lines than are worked out")
    fences = re.findall(r"^```.*?^```", page, re.DOTALL | re.MULTILINE)
    for line in "\n".join(fences).splitlines():
        if len(line) > WIDEST_LINE:
            raise SystemExit(f"{path}: a line of {len(line)} columns in a block: {line}")
    prose = BLOCK.sub("", page)
    for found in re.finditer(r"\d[\d,]*\d|\d", prose):
        value = int(found[0].replace(",", ""))
        if value > SMALL and value not in CONSTANTS:
            raise SystemExit(f"{path}: {found[0]} stands outside the blocks and is no number of the papers")
    print(f"{path}: {len(BLOCKS)} blocks are as worked out, and the prose has no other figure")


def main():
    parser = command.parser("worked.py", __doc__, HELP)
    parser.add_argument("block", nargs="?", choices=list(BLOCKS), help="the block to print (default: all)")
    parser.add_argument("--check", metavar="PAGE", type=Path, help="compare the blocks of a page with those worked out")
    parser.add_argument("--write", metavar="PAGE", type=Path, help="fill the blocks of a page")
    options = parser.parse_args()
    if options.check:
        check(options.check)
    elif options.write:
        command.write_whole(str(options.write), filled(options.write.read_text()).encode())
    else:
        for name in [options.block] if options.block else BLOCKS:
            print("\n".join([f"<!-- worked: {name} -->", *lines_of(name), "<!-- end -->"]))


if __name__ == "__main__":
    sys.exit(command.finish("worked.py", main))
