"""Slips, each put into a copy of the reference by replacing some functions: the seven of document 01, those of document 02's
requests, and some of the answers."""

from fractions import Fraction


def share(lagoon):
    """The share taken from the first cell's side whichever way the water goes."""
    lagoon.share_upwind = lambda s, U: s


def sign(lagoon):
    """Equation (23)'s sign: the correction turned round."""
    right = lagoon.correction
    lagoon.correction = lambda U, d, t, K: -right(U, d, t, K)


def floor(lagoon):
    """Quotients below 0 cut downward instead of toward 0."""
    lagoon.toward_zero = lambda a, b: a // b


def late(lagoon):
    """d from the concentrations that stage 1 leaves."""
    right_upwind, right_corrections = lagoon.upwind, lagoon.corrections
    last = {}

    def upwind(mesh, masses, q, fluxes, outsides):
        carried, last["low"] = right_upwind(mesh, masses, q, fluxes, outsides)
        return carried, last["low"]

    def corrections(mesh, q, fluxes):
        return right_corrections(mesh, lagoon.concentrations(mesh.volumes, last["low"]), fluxes)

    lagoon.upwind, lagoon.corrections = upwind, corrections


def still(lagoon):
    """A face without water counted in a neighbourhood."""
    right = lagoon.bounds
    lagoon.bounds = lambda mesh, low, q, fluxes, outsides: right(
        mesh, low, q, [U if U != 0 else 1 for U in fluxes], outsides)


def rest(lagoon):
    """Masses rounded down to whole concentrations before the step."""
    right = lagoon.advance
    lagoon.advance = lambda mesh, masses, fluxes, outsides, releases=None: right(
        mesh, [m - m % V for m, V in zip(masses, mesh.volumes)], fluxes, outsides, releases)


def bound(lagoon):
    """G without the V - 1 that the rest may take, and 0 where that is negative."""
    right = lagoon.bounds

    def bounds(mesh, low, q, fluxes, outsides):
        gains, losses = right(mesh, low, q, fluxes, outsides)
        return [max(0, G - (V - 1)) for G, V in zip(gains, mesh.volumes)], losses

    lagoon.bounds = bounds


# ---------------------------------------------------------------- Document 02, S-5: corrections that smooth

def keep_by(lagoon, giver_and_receiver, cancels, values):
    """The stage with another direction, another test or other concentrations."""
    last = {}
    right_upwind = lagoon.upwind

    def upwind(mesh, masses, q, fluxes, outsides):
        last.update(masses=masses, fluxes=fluxes)
        return right_upwind(mesh, masses, q, fluxes, outsides)

    def keep(mesh, low, corrected):
        q = values(mesh, low, last["masses"])
        result = []
        for first, second, U, c in zip(mesh.firsts, mesh.seconds, last["fluxes"], corrected):
            giver, receiver = giver_and_receiver(first, second, U, c)
            result.append(0 if c == 0 or cancels(q[giver], q[receiver]) else c)
        return result

    lagoon.upwind, lagoon.keep = upwind, keep


def by_correction(first, second, U, c):
    return (first, second) if c > 0 else (second, first)


def by_water(first, second, U, c):
    return (first, second) if U > 0 else (second, first)


def low_order(mesh, low, masses):
    return [m // V for m, V in zip(low, mesh.volumes)]


def smooths(lagoon):
    """The stage left out."""
    lagoon.keep = lambda mesh, low, corrected: corrected


def water(lagoon):
    """The water's direction in place of the correction's."""
    keep_by(lagoon, by_water, lambda g, r: g > r, low_order)


def earlier(lagoon):
    """q before the step in place of the low-order q."""
    keep_by(lagoon, by_correction, lambda g, r: g > r, lambda mesh, low, masses: [m // V for m, V in zip(masses, mesh.volumes)])


def equal(lagoon):
    """Equal q cancelled too."""
    keep_by(lagoon, by_correction, lambda g, r: g >= r, low_order)


def turned(lagoon):
    """Larger and smaller exchanged."""
    keep_by(lagoon, by_correction, lambda g, r: g < r, low_order)


def exact(lagoon):
    """Low-order q not rounded down."""
    keep_by(lagoon, by_correction, lambda g, r: g > r, lambda mesh, low, masses: [Fraction(m, V) for m, V in zip(low, mesh.volumes)])


def summed(lagoon):
    """Cancelled after P and N were summed."""
    right_keep, right_limiter = lagoon.keep, lagoon.limiter
    last = {}

    def keep(mesh, low, corrected):
        last["kept"] = right_keep(mesh, low, corrected)
        return corrected

    def limiter(mesh, corrected, gains, losses):
        return [a if c != 0 else 0 for a, c in zip(right_limiter(mesh, corrected, gains, losses), last["kept"])]

    lagoon.keep, lagoon.limiter = keep, limiter


# ---------------------------------------------------------------- Document 02, S-6: releases

def lose_upper_bits(lagoon):
    """What is too large for its width is written without its upper bits."""
    right = lagoon.pack
    lagoon.pack = lambda values: right([(value % (1 << width), width) for value, width in values])


def afterwards(lagoon):
    """Releases added after the step; what is then too large for a field record loses its upper bits."""
    right = lagoon.advance

    def advance(mesh, masses, fluxes, outsides, releases=None):
        result = right(mesh, masses, fluxes, outsides)
        return result._replace(masses=lagoon.raised(result.masses, releases), released=lagoon.released_mass(releases))

    lagoon.advance = advance
    lose_upper_bits(lagoon)


def unraised(lagoon):
    """lo and hi of the field before its releases."""
    right_advance, right_bounds = lagoon.advance, lagoon.bounds
    last = {}

    def advance(mesh, masses, fluxes, outsides, releases=None):
        last["q"] = lagoon.concentrations(mesh.volumes, masses)
        return right_advance(mesh, masses, fluxes, outsides, releases)

    def bounds(mesh, low, q, fluxes, outsides):
        gains, losses = right_bounds(mesh, low, last["q"], fluxes, outsides)
        return [max(0, G) for G in gains], [max(0, L) for L in losses]

    lagoon.advance, lagoon.bounds = advance, bounds


def padded(lagoon):
    """Zero bits up to a whole byte before the releases."""
    right = lagoon.take_releases

    def take_releases(bits, kind, cells):
        if lagoon.STEP_BITS[kind].release:
            bits.take_zeros(-bits.at % 8)
        return right(bits, kind, cells)

    lagoon.take_releases = take_releases


# ---------------------------------------------------------------- Document 02, S-10: larger cells

def own_width(lagoon, record, wide):
    """The width of a record by its own kind."""
    return lagoon.is_wide(lagoon.kind_of(record)) if record else wide


def either_field(lagoon):
    """A field of kind 2 taken after a mesh of kind 5, and one of kind 6 after kind 1."""
    right_read, right_ends = lagoon.read_field, lagoon.field_ends
    lagoon.read_field = lambda record, cells, *limits, lengths=None, wide=False: right_read(
        record, cells, *limits, lengths=lengths, wide=own_width(lagoon, record, wide))
    lagoon.field_ends = lambda data, mesh, wide: right_ends(data, mesh, own_width(lagoon, data, wide))


def either_step(lagoon):
    """A step of kind 3 or 4 taken after a mesh of kind 5, and one of kind 7 or 8 after kind 1."""
    right_read, right_ends = lagoon.read_step, lagoon.step_ends
    lagoon.read_step = lambda record, cells, faces, seconds, *limits, lengths=None, wide=False: right_read(
        record, cells, faces, seconds, *limits, lengths=lengths, wide=own_width(lagoon, record, wide))
    lagoon.step_ends = lambda data, mesh, wide: right_ends(data, mesh, own_width(lagoon, data, wide))


def set_wide_mesh(lagoon, **bits):
    """Other widths in a mesh of kind 5."""
    wide = lagoon.of_width(lagoon.MESH, True)
    lagoon.MESH_BITS[wide] = lagoon.MESH_BITS[wide]._replace(**bits)


def long_share(lagoon):
    """16 bits for s in kind 5."""
    set_wide_mesh(lagoon, share=lagoon.MESH_BITS[lagoon.of_width(lagoon.MESH, True)].reach)


def short_volume(lagoon):
    """In kind 5 K by 16 bits and V by 12."""
    set_wide_mesh(lagoon, volume=lagoon.MESH_BITS[lagoon.MESH].volume)
    lose_upper_bits(lagoon)


def product(lagoon):
    """The product of the proportional part cut to 64 bits."""
    lagoon.portion = lambda a, G, P: a * G % (1 << 64) // P


SLIPS = {slip.__name__: slip for slip in (share, sign, floor, late, still, rest, bound,
                                          smooths, water, earlier, equal, turned, exact, summed,
                                          afterwards, unraised, padded,
                                          either_field, either_step, long_share, short_volume, product)}


# ---------------------------------------------------------------- Slips that the host's call shows

def narrow_next(lagoon):
    """The next field narrow after a mesh of kind 5."""
    right = lagoon.next_field
    lagoon.next_field = lambda masses, room, wide: right(masses, room, False)
    lose_upper_bits(lagoon)


CALL_SLIPS = {slip.__name__: slip for slip in (narrow_next,)}


# ---------------------------------------------------------------- Slips that a list of steps shows

def counted(lagoon):
    """Releases of a refused step put into the field all the same."""
    right = lagoon.accept_step

    def accept_step(record, mesh, masses, wide):
        try:
            return right(record, mesh, masses, wide)
        except lagoon.Refusal as refusal:
            if refusal.cause not in (11, 12, 13):
                releases = lagoon.read_step(record, len(mesh.volumes), len(mesh.firsts), mesh.seconds, wide=wide).releases
                masses[:] = lagoon.raised(masses, releases)
            raise

    lagoon.accept_step = accept_step


def left(lagoon):
    """A step of kind 3 or 7 with the releases of the step of kind 4 or 8 before it."""
    right_run, right_taken = lagoon.run, lagoon.take_releases
    last = {}

    def run(data):
        last.clear()
        return right_run(data)

    def take_releases(bits, kind, cells):
        if lagoon.STEP_BITS[kind].release or not last:
            last["releases"] = right_taken(bits, kind, cells)
        return last["releases"]

    lagoon.run, lagoon.take_releases = run, take_releases


def outgoing(lagoon):
    """Out-mass by the concentrations before the releases."""
    right = lagoon.advance

    def advance(mesh, masses, fluxes, outsides, releases=None):
        q = lagoon.concentrations(mesh.volumes, masses)
        return right(mesh, masses, fluxes, outsides, releases)._replace(out_mass=lagoon.out_mass(mesh, q, fluxes))

    lagoon.advance = advance


RUN_SLIPS = {slip.__name__: slip for slip in (counted, left, outgoing)}


# ---------------------------------------------------------------- Slips of the answers, which a script shows

def place(lagoon):
    """The highest place that is wrong, where the lowest is asked for."""
    def refuse_last(cause, wrong):
        places = [place for place, bad in enumerate(wrong) if bad]
        if places:
            raise lagoon.Refusal(cause, places[-1])

    lagoon.refuse_first = refuse_last


def table(lagoon):
    """The last table that is too short, where the first is asked for."""
    right = lagoon.judge_lengths

    def judge_lengths(lengths, needs):
        for position in sorted(needs, reverse=True):
            right(lengths, {position: needs[position]})

    lagoon.judge_lengths = judge_lengths


def beyond(lagoon):
    """Work zeroed past the counted part."""
    right = lagoon.step_on_tables

    def step_on_tables(cells, faces, tables):
        result = right(cells, faces, tables)
        tables[lagoon.WORK][:] = [0] * len(tables[lagoon.WORK])
        return result

    lagoon.step_on_tables = step_on_tables


def bit(lagoon):
    """A number read from the bit after the one asked for."""
    right = lagoon.number_at
    lagoon.number_at = lambda record, bit, width: right(record, bit + 1, width)


def dropped(lagoon):
    """A record of kind 3 or 7 written without its releases, where it is to be refused."""
    right = lagoon.judge_releases

    def judge_releases(kind, releases):
        if lagoon.STEP_BITS[kind].release:
            right(kind, releases)

    lagoon.judge_releases = judge_releases


def binder(lagoon):
    """A page's mass line with the mass of all cells."""
    right = lagoon.page_lines

    def page_lines(volumes, masses, page):
        *lines, last = right(volumes, masses, page)
        return lines + [str(sum(masses)).rjust(len(last) - 1) + "\n"]

    lagoon.page_lines = page_lines


def places(lagoon):
    """The places of a page's rests decided by its own cells, not by all (document 02, S-10)."""
    right_places, right_lines, right_length = lagoon.rest_places, lagoon.page_lines, lagoon.page_length

    def by_page(volumes, page, make):
        lagoon.rest_places = lambda _: right_places([volumes[cell] for cell in lagoon.page_cells(len(volumes), page)])
        try:
            return make()
        finally:
            lagoon.rest_places = right_places

    lagoon.page_lines = lambda volumes, masses, page: by_page(volumes, page, lambda: right_lines(volumes, masses, page))
    lagoon.page_length = lambda volumes, cells, page: by_page(volumes[:cells], page, lambda: right_length(volumes, cells, page))


def lifted(lagoon):
    """Writers of the old kinds that take V, K and |U| above 4,095 (document 02, S-10)."""
    lagoon.ceiling_of = lambda wide: lagoon.CEILING
    lose_upper_bits(lagoon)


def fresher(lagoon):
    """Of equal q the smaller rest / V first."""
    right = lagoon.board_order
    lagoon.board_order = lambda cell, V, m: (right(cell, V, m)[0], -right(cell, V, m)[1], cell)


def unweighed(lagoon):
    """Of equal q the larger rest first, whatever the volumes."""
    lagoon.board_order = lambda cell, V, m: (-(m // V), -(m % V), cell)


def higher(lagoon):
    """Of equal q and rest / V the higher cell first."""
    right = lagoon.board_order
    lagoon.board_order = lambda cell, V, m: (*right(cell, V, m)[:2], -cell)


def first(lagoon):
    """The last of equal names in a store, where the first is meant."""
    right = lagoon.first_named

    def first_named(fields, name):
        right(fields, name)
        return max(i for i, (kept, _) in enumerate(fields) if kept == name)

    lagoon.first_named = first_named


def freed(lagoon):
    """Freed entries of a store left as they were."""
    right = lagoon.store_drop

    def store_drop(cells, store, name):
        before = list(store)
        right(cells, store, name)
        used = 1 + store[0] * (cells + 1)
        store[used:used + cells + 1] = before[used:used + cells + 1]

    lagoon.store_drop = store_drop


def nearest(lagoon):
    """A share rounded to the nearest."""
    lagoon.share_of = lambda ratio: round(256 * lagoon.Fraction(ratio))


def exchanged(lagoon):
    """The two sides of a surveyed face exchanged."""
    right = lagoon.sides
    lagoon.sides = lambda ends, centres: right(ends, centres)[::-1]


# ---------------------------------------------------------------- Document 02, S-8: the plain step

def corrects(lagoon):
    """A plain step that corrects."""
    lagoon.advance_plain = lagoon.advance


def bare(lagoon):
    """A plain step of the field before its releases, though it answers their mass."""
    right = lagoon.advance_plain
    lagoon.advance_plain = lambda mesh, masses, fluxes, outsides, releases: right(
        mesh, masses, fluxes, outsides)._replace(released=lagoon.released_mass(releases))


def mingled(lagoon):
    """Plain next masses with the moved masses of the corrected step."""
    right = lagoon.advance_plain
    lagoon.advance_plain = lambda *step: right(*step)._replace(moved=lagoon.advance(*step).moved)


def rounded(lagoon):
    """A plain step whose masses are rounded down to whole concentrations first."""
    right = lagoon.advance_plain
    lagoon.advance_plain = lambda mesh, masses, fluxes, outsides, releases: right(
        mesh, [m - m % V for m, V in zip(masses, mesh.volumes)], fluxes, outsides, releases)


def lenient(lagoon):
    """Share and reach not judged in a plain step, whose arithmetic needs neither."""
    right_step, right_mesh = lagoon.plain_step_on_tables, lagoon.judge_mesh

    def judge_mesh(mesh):
        try:
            right_mesh(mesh)
        except lagoon.Refusal as refusal:
            if refusal.cause != 5:
                raise

    def plain_step_on_tables(cells, faces, tables):
        lagoon.judge_mesh = judge_mesh
        try:
            return right_step(cells, faces, tables)
        finally:
            lagoon.judge_mesh = right_mesh

    lagoon.plain_step_on_tables = plain_step_on_tables


def uncleared(lagoon):
    """Work left as it was by a plain step, which needs none."""
    right = lagoon.plain_step_on_tables

    def plain_step_on_tables(cells, faces, tables):
        before = list(tables[lagoon.WORK])
        result = right(cells, faces, tables)
        tables[lagoon.WORK][:] = before
        return result

    lagoon.plain_step_on_tables = plain_step_on_tables


# ---------------------------------------------------------------- Document 02, S-11: a claim judged

def largest(lagoon):
    """A claim of the largest size refused."""
    lagoon.MOST_CLAIMED -= 1


def unswayed(lagoon):
    """A claim through a still interior face accepted."""
    right = lagoon.judge_claim
    lagoon.judge_claim = lambda mesh, masses, fluxes, outsides, releases, claim: right(
        mesh, masses, [U if second == lagoon.RIM or U else 1 for second, U in zip(mesh.seconds, fluxes)], outsides, releases, claim)


def unbound(lagoon):
    """Next masses judged by 22 for their sign alone."""
    right = lagoon.judge_claim

    def judge_claim(*step):
        near = lagoon.neighbourhoods
        lagoon.neighbourhoods = lambda *values: [[0, 1 << 64] for _ in near(*values)]
        try:
            return right(*step)
        finally:
            lagoon.neighbourhoods = near

    lagoon.judge_claim = judge_claim


def unheld(lagoon):
    """A rim face that claims another mass than stage 1 says accepted."""
    right = lagoon.judge_claim

    def judge_claim(mesh, masses, fluxes, outsides, releases, claim):
        upwind = lagoon.upwind
        lagoon.upwind = lambda *values: (claim, None)
        try:
            return right(mesh, masses, fluxes, outsides, releases, claim)
        finally:
            lagoon.upwind = upwind

    lagoon.judge_claim = judge_claim


# ---------------------------------------------------------------- Document 02, S-12: a lagoon cut in two

def flat(lagoon):
    """The outside value at a cut by q before the releases."""
    lagoon.across_the_cut = lambda mesh, masses, releases: lagoon.concentrations(mesh.volumes, masses)


def single(lagoon):
    """A cut face in the part of its first cell alone."""
    right = lagoon.part_faces
    lagoon.part_faces = lambda mesh, labels, part: [face for face in right(mesh, labels, part) if labels[mesh.firsts[face]] == part]


def outward(lagoon):
    """U of a cut face the same on both sides."""
    right = lagoon.seen_from
    lagoon.seen_from = lambda labels, part, first, second, U: (*right(labels, part, first, second, U)[:2], U)


def throughout(lagoon):
    """Cells numbered through both parts, by label first."""
    right = lagoon.new_numbers
    lagoon.new_numbers = lambda labels, part: {
        cell: number + (len(lagoon.part_cells(labels, 0)) if part else 0) for cell, number in right(labels, part).items()}


def shared(lagoon):
    """A cut face keeps its share."""
    lagoon.cut_spacing = lambda s, K: (s, 0)


CUT_SLIPS = {slip.__name__: slip for slip in (flat, single, outward, throughout, shared)}


# ---------------------------------------------------------------- Document 02, S-13: brine charges

def netted(lagoon):
    """Inward mass set against outward."""
    lagoon.gained = lambda second, moved: moved if second == lagoon.RIM else 0


def everywhere(lagoon):
    """Interior faces gain as well."""
    lagoon.gained = lambda second, moved: max(0, moved)


def judged(lagoon):
    """A total past the ceiling refused though it gains nothing."""
    def judge_gains(seconds, moved, totals):
        lagoon.refuse_first(26, (total + lagoon.gained(second, m) > lagoon.LAST_END for second, m, total in zip(seconds, moved, totals)))

    lagoon.judge_gains = judge_gains


def topmost(lagoon):
    """The whole total at the price of the band that it lies in."""
    lagoon.band_sum = lambda total, ends, prices: total * next(price for end, price in zip(ends, prices) if total <= end)


def forgotten(lagoon):
    """A charge without the previous remainder."""
    right = lagoon.charge
    lagoon.charge = lambda total, bands, ends, prices, remainder: right(total, bands, ends, prices, remainder if remainder >= lagoon.UNITS else 0)


# ---------------------------------------------------------------- Document 02, S-14: closed grounds

def revealing(lagoon):
    """The public page with all its lines."""
    lagoon.open_cells = lambda marks: list(range(len(marks)))


def blanked(lagoon):
    """A blank line where a withheld cell's would stand."""
    right = lagoon.public_lines

    def public_lines(volumes, masses, page, marks):
        shown = right(volumes, masses, page, marks)
        whole = lagoon.page_lines(volumes, masses, page)[:-1]
        return [line if line in shown else f"{'':{len(line) - 1}}\n" for line in whole]

    lagoon.public_lines = public_lines


def weighed(lagoon):
    """The public page with the page's mass."""
    right = lagoon.public_lines
    lagoon.public_lines = lambda volumes, masses, page, marks: right(volumes, masses, page, marks) + lagoon.page_lines(volumes, masses, page)[-1:]


def outranked(lagoon):
    """The public board as the growers', its withheld cells left out."""
    right = lagoon.board
    lagoon.board = lambda volumes, masses, among=None: [entry for entry in right(volumes, masses) if among is None or entry[0] in among]


def unmarked(lagoon):
    """Any mark but 1 read as open."""
    lagoon.judge_marks = lambda marks: None


ANSWER_SLIPS = {slip.__name__: slip for slip in (place, table, beyond, bit, dropped, binder, places, lifted, fresher, unweighed, higher, first,
                                                 freed, nearest, exchanged, corrects, bare, mingled, rounded, lenient, uncleared,
                                                 largest, unswayed, unbound, unheld, *CUT_SLIPS.values(),
                                                 netted, everywhere, judged, topmost, forgotten,
                                                 revealing, blanked, weighed, outranked, unmarked)}


ALL_SLIPS = {**SLIPS, **CALL_SLIPS, **RUN_SLIPS, **ANSWER_SLIPS}
