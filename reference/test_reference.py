#!/usr/bin/env python3
"""The figures of document 01, and of the requests, checked against the reference. One test: python3 reference/test_reference.py -k larger_cells."""

import random
import subprocess
import sys
import unittest
from fractions import Fraction
from pathlib import Path

HERE = Path(__file__).resolve().parent
sys.path.insert(0, str(HERE))

import generate
import generate_script
import lagoon
import script
import unrounded
from lagoon import RIM, TOP, Mesh


def tables_for(mesh, masses, fluxes, outsides, releases=None):
    cells, faces = len(mesh.volumes), len(mesh.firsts)
    tables = [*mesh, masses, fluxes, outsides, [7] * cells, [7] * faces, [7] * (4 * cells + faces), releases or [0] * cells]
    return dict(zip(lagoon.STEP_TABLES, map(list, tables), strict=True))


def step(mesh, masses, fluxes, outsides, releases=None, call=lagoon.step_on_tables):
    """The step on tables: next masses and moved."""
    tables = tables_for(mesh, masses, fluxes, outsides, releases)
    call(len(mesh.volumes), len(mesh.firsts), tables)
    return tables[lagoon.NEXT], tables[lagoon.MOVED]


def plain(mesh, masses, fluxes, outsides, releases=None):
    return step(mesh, masses, fluxes, outsides, releases, lagoon.plain_step_on_tables)


CHANNEL = Mesh([100] * 3, [0, 0, 1, 2], [RIM, 1, 2, RIM], [0, 128, 128, 0], [0, 100, 100, 0])
FLOW, OUTSIDE = [-50, 50, 50, 50], [1000, 0, 0, 0]
CHANNEL_TEXT = """\
0 0 0 100000 0
1 50000 0 150000 0
2 50000 0 200000 0
B 0 1000 99
B 1 811 88
B 2 187 13
"""
WIDE_MESH = Mesh([65_535, 100], [0, 0, 1], [RIM, 1, RIM], [0, 128, 0], [0, 65_535, 0])


def pool(V, faces):
    """One cell with so many rim faces."""
    return Mesh([V], [0] * faces, [RIM] * faces, [0] * faces, [0] * faces)


def digest(data):
    """All bytes of a record in one number."""
    result = 0
    for byte in data:
        result = (result * 256 + byte) % 4_294_967_291
    return result


def cut(mesh, masses, fluxes, outsides, releases, labels, short=None):
    """The counts, and the tables of both parts by position, which held 7 before; one of the second part's may be an entry too short."""
    tables = dict(zip((*lagoon.CUT_TABLES, lagoon.LABELS), (*mesh, masses, fluxes, outsides, releases, labels), strict=True))
    lent = [{position: [7] * len(tables[position]) for position in lagoon.CUT_TABLES} for _ in lagoon.PARTS]
    if short is not None:
        lent[1][short].pop()
    return lagoon.cut_on_tables(len(mesh.volumes), len(mesh.firsts), tables, lent), lent


class Figures(unittest.TestCase):
    equal = unittest.TestCase.assertEqual

    def refused(self, cause, place, what, call, *arguments):
        with self.assertRaises(lagoon.Refusal, msg=what) as found:
            call(*arguments)
        self.equal((found.exception.cause, found.exception.place), (cause, place), what)


class Steps(Figures):
    """The step, its stages and its causes; what the requests change of it."""

    def test_channel(self):
        record = lagoon.pack_step(CHANNEL, FLOW, OUTSIDE)
        session = lagoon.pack_mesh(CHANNEL) + lagoon.pack_field([100000, 0, 0]) + record + record
        self.equal(lagoon.run(session), CHANNEL_TEXT, "channel session")
        printed = subprocess.run([sys.executable, str(HERE / "lagoon.py")], input=session, capture_output=True)
        self.equal(printed.stdout.decode(), CHANNEL_TEXT, "channel session on the command line")
        first, moved = step(CHANNEL, [100000, 0, 0], FLOW, OUTSIDE)
        self.equal(first, [100099, 49901, 0], "P channel step 1, masses")
        self.equal(moved, [-50000, 49901, 0, 0], "P channel step 1, moved")
        corrected = lagoon.corrections(CHANNEL, [1000, 0, 0], FLOW)
        self.equal(corrected, [0, -12500, 0, 0], "P channel step 1, correction 12500 toward cell 0")
        carried, low = lagoon.upwind(CHANNEL, [100000, 0, 0], [1000, 0, 0], FLOW, OUTSIDE)
        kept = lagoon.keep(CHANNEL, low, corrected)
        self.equal(kept, corrected, "channel step 1, toward cell 0 from 500 to 1000, kept")
        limited = lagoon.limiter(CHANNEL, kept, *lagoon.bounds(CHANNEL, low, [1000, 0, 0], FLOW, OUTSIDE))
        self.equal(limited, [0, -99, 0, 0], "P channel step 1, cut to 99")
        self.equal(carried, [-50000, 50000, 0, 0], "channel step 1, carried")
        self.equal(step(CHANNEL, first, FLOW, OUTSIDE)[0], [100099, 81188, 18713], "P channel step 2")

    def test_figures_by_hand(self):
        pair = Mesh([10, 10], [0, 0], [1, 1], [128, 128], [10, 10])
        self.equal(step(pair, [93, 15], [10, -10], [0, 0])[0], [13, 95], "P two opposite faces")
        self.equal(lagoon.correction(1, -3, 128, 2), 0, "P U 1, K 2, s 128, d -3")
        self.equal(lagoon.correction(100, -1000, 1, 100), 49609, "P U 100, K 100, s 1, d -1000")
        sevens = Mesh([7] * 3, [0, 0, 1, 2], [RIM, 1, 2, RIM], [0, 128, 9, 0], [0, 7, 20, 0])
        self.equal(step(sevens, [30] * 3, [-7, 7, 7, 7], [4, 0, 0, 0])[0], [30] * 3, "P all V 7, all m 30, outside 4")
        still = pool(4095, 0)
        self.equal(step(still, [4_095_004_094], [], [])[0], [4_095_004_094], "P V 4,095, m 4,095,004,094")
        self.refused(6, 0, "P V 4,095, m 4,095,004,095", step, still, [4_095_004_095], [], [])
        through = pool(100, 2)
        step(through, [5], [-100, 100], [9, 0])
        self.refused(10, 0, "P outflow 101 from V 100", step, through, [5], [-101, 101], [9, 0])
        self.equal(step(pool(100, 0), [99], [], [])[0], [99], "P one cell, no faces")

    def test_smoothing(self):
        """Document 02, S-5."""
        sluice = Mesh([100, 100], [0, 0, 1], [RIM, 1, RIM], [0, 1, 0], [0, 100, 0])
        self.equal(step(sluice, [100000, 0], [-90, 90, 90], [1000, 0, 0])[0], [100000, 90000], "40148 from 1000 to 900, cancelled")
        self.equal(step(sluice, [100000, 0], [-100, 100, 100], [1000, 0, 0])[0], [99901, 100099], "49609 from 1000 to 1000, kept and cut to 99")
        self.equal(step(sluice, [100050, 0], [-100, 100, 100], [1000, 0, 0])[0], [99951, 100099], "the same with a rest of 50 in the giver")
        wide = Mesh([10, 10], [0, 0], [1, 1], [128, 128], [20, 20])
        self.equal(lagoon.corrections(wide, [9, 1], [10, -10]), [-20, -20], "one correction against the water, one with it")
        self.equal(step(wide, [93, 15], [10, -10], [0, 0])[0], [13, 95], "both cancelled, from 9 to 1")
        steep = CHANNEL._replace(shares=[0, 1, 1, 0])
        self.equal(step(steep, [0, 50000, 0], [-80, 80, 80, 80], [0, 0, 0, 0])[0], [0, 0, 50000], "a cancelled correction is not in N")

    def test_releases(self):
        """Document 02, S-6."""
        tables = tables_for(CHANNEL, [100000, 0, 0], FLOW, OUTSIDE, [0, 20000, 0])
        self.equal(lagoon.step_on_tables(3, 4, tables), (50000, 0, 20000), "20,000 into the channel's second cell")
        self.equal(tables[lagoon.NEXT], [100099, 62401, 7500], "its next masses")
        self.equal(tables[lagoon.MASSES], [100000, 0, 0], "the masses lent stay")
        self.equal(step(CHANNEL, [100000, 0, 0], FLOW, OUTSIDE, [0, 0, 0]), step(CHANNEL, [100000, 0, 0], FLOW, OUTSIDE), "releases 0")
        self.equal(step(CHANNEL, [60000, 0, 0], FLOW, OUTSIDE, [40000, 20000, 0]), step(CHANNEL, [100000, 20000, 0], FLOW, OUTSIDE),
                   "a step on the raised field")
        out = lagoon.advance(CHANNEL, [100000, 0, 0], FLOW, OUTSIDE, [0, 0, 20000])
        self.equal((out.in_mass, out.out_mass, out.released, sum(out.masses)), (50000, 10000, 20000, 160000), "out-mass by the raised q")
        still = pool(4095, 0)
        self.equal(step(still, [4_095_004_000], [], [], [94])[0], [4_095_004_094], "the last release accepted")
        self.refused(18, 0, "the first refused", step, still, [4_095_004_000], [], [], [95])
        self.refused(18, 0, "a release that would wrap 64 bits", step, still, [1], [], [], [(1 << 64) - 1])
        self.refused(6, 2, "6 before 18", step, CHANNEL, [0, 0, 100_000_100], FLOW, OUTSIDE, [1 << 40, 0, 0])
        self.refused(18, 2, "18 before 7", step, CHANNEL, [0, 0, 0], FLOW, [1000, 1, 0, 0], [0, 0, 100_000_100])
        self.refused(5, 1, "5 before a writer's 18", lagoon.write_step, lagoon.OUTFALLS, 3, 4,
                     tables_for(CHANNEL._replace(shares=[0, 0, 128, 0]), [0] * 3, FLOW, OUTSIDE, [1 << 32, 0, 0]), 28)
        for kind, most in ((lagoon.OUTFALLS, (1 << 32) - 1), (lagoon.WATER, 0)):
            lagoon.write_step(kind, 3, 4, tables_for(CHANNEL, [0] * 3, FLOW, OUTSIDE, [0, most, 0]), 28)
            self.refused(18, 1, f"a release too large for kind {kind}", lagoon.write_step, kind, 3, 4,
                         tables_for(CHANNEL, [0] * 3, FLOW, [1000, 1, 0, 0], [0, most + 1, 0]), 28)
        short = tables_for(CHANNEL, [0] * 3, FLOW, OUTSIDE, [0, 0])
        self.refused(2, 11, "bytes before releases", lagoon.write_step, lagoon.OUTFALLS, 3, 4, short, 27)
        self.refused(2, 14, "releases in kind 3 too", lagoon.write_step, lagoon.WATER, 3, 4, short, 28)

    def judged(self, claim, masses=(100000, 0, 0), fluxes=None, outsides=None, releases=None):
        """The channel's claim judged: in-mass, out-mass, released mass and next masses."""
        tables = tables_for(CHANNEL, list(masses), fluxes or FLOW, outsides or OUTSIDE, releases)
        tables[lagoon.MOVED] = list(claim)
        del tables[lagoon.WORK]
        answer = lagoon.judge_on_tables(3, 4, tables)
        self.equal(tables[lagoon.MOVED], list(claim), "the claim stays")
        return *answer, tables[lagoon.NEXT]

    def test_judging(self):
        """Document 02, S-11: claims of the engine's own steps, at the edges of 21 and 22, and after the step's causes."""
        for advance in (lagoon.advance, lagoon.advance_plain):
            for releases in ([0, 0, 0], [150, 20000, 150]):
                own = advance(CHANNEL, [100000, 0, 0], FLOW, OUTSIDE, releases)
                self.equal(self.judged(own.moved, releases=releases), (own.in_mass, own.out_mass, own.released, own.masses), "an own step")
        most = 1_099_511_627_776
        for place, claim in ((0, [-50001, 50000, 0, 0]), (0, [0, 50000, 0, 0]), (3, [-50000, 50000, 0, 1]), (1, [-50000, most + 1, 0, 0]),
                             (1, [-50000, -most - 1, 0, 0])):
            self.refused(21, place, f"claim {claim}", self.judged, claim)
        for place, claim in ((0, [-50000, 49900, 0, 0]), (1, [-50000, 100100, 0, 0]), (1, [-50000, 50000, 50001, 0]), (0, [-50000, most, 0, 0]),
                             (0, [-50000, -most, 0, 0])):
            self.refused(22, place, f"claim {claim}", self.judged, claim)
        self.equal(self.judged([-50000, 49901, 0, 0])[3], [100099, 49901, 0], "the least that may leave cell 0")
        self.equal(self.judged([-50000, 100099, 0, 0])[3], [49901, 100099, 0], "the most that cell 1 may get")
        for place in range(4):
            self.refused(21, place, "a still face that moves", self.judged, [int(f == place) for f in range(4)], [0, 0, 0], [0] * 4, [0] * 4)
        self.refused(18, 2, "18 before 21", self.judged, [1, 1, 1, 1], [0, 0, 0], FLOW, OUTSIDE, [0, 0, 100_000_100])
        self.refused(9, 2, "9 before 21", self.judged, [1, 1, 1, 1], [0, 0, 0], [-50, 50, 50, 49])
        self.refused(21, 3, "21 before 22", self.judged, [-50000, 150001, 0, 1])

    def test_plain(self):
        """Document 02, S-8: stages 1 and 5 alone, with the step's causes."""
        self.equal(plain(CHANNEL, [100000, 0, 0], FLOW, OUTSIDE), ([100000, 50000, 0], [-50000, 50000, 0, 0]), "plain channel, step 1")
        self.equal(plain(CHANNEL, [100000, 50000, 0], FLOW, OUTSIDE), ([100000, 75000, 25000], [-50000, 50000, 25000, 0]), "plain channel, step 2")
        tables = tables_for(CHANNEL, [100000, 0, 0], FLOW, OUTSIDE, [150, 20000, 150])
        longer = {position: table + [99] for position, table in tables.items()}
        self.equal(lagoon.plain_step_on_tables(3, 4, longer), (50000, 50, 20300), "a plain step with releases: in-mass, out-mass, released mass")
        self.equal([longer[i] for i in (lagoon.NEXT, lagoon.MOVED, lagoon.WORK)],
                   [[100100, 60050, 10100, 99], [-50000, 50050, 10000, 50, 99], [0] * 16 + [99]], "it works on the raised field and clears work")
        for position in lagoon.STEP_TABLES:
            short = {i: list(table) for i, table in tables.items()}
            short[position].pop()
            before = {i: list(table) for i, table in short.items()}
            self.refused(2, position, "short table", lagoon.plain_step_on_tables, 3, 4, short)
            self.equal(short, before, "tables after a refusal")
        self.refused(5, 1, "a share of 0, which no plain step needs", plain, CHANNEL._replace(shares=[0, 0, 128, 0]), [0] * 3, FLOW, OUTSIDE)
        self.refused(8, 1, "a flux above the reach", plain, CHANNEL._replace(reaches=[0, 49, 100, 0]), [0] * 3, FLOW, OUTSIDE)
        self.refused(18, 2, "18 before 7", plain, CHANNEL, [0, 0, 0], FLOW, [1000, 1, 0, 0], [0, 0, 100_000_100])
        self.refused(10, 0, "outflow 101 from V 100", plain, pool(100, 2), [5], [-101, 101], [9, 0])

    def test_larger_cells(self):
        """Document 02, S-10: the ceilings of tables, and of what is written in the old kinds."""
        still = pool(65_535, 0)
        self.equal(step(still, [65_535_065_534], [], [])[0], [65_535_065_534], "V 65,535, m 65,535,065,534")
        self.refused(6, 0, "V 65,535, m 65,535,065,535", step, still, [65_535_065_535], [], [])
        self.refused(3, 0, "V 65,536", step, pool(65_536, 0), [0], [], [])
        through = pool(65_535, 2)
        self.equal(step(through, [65_535], [-65_535, 65_535], [TOP, 0]), ([65_535_000_000], [-65_535_000_000, 65_535]), "U 65,535 over the rim")
        self.refused(8, 0, "U 65,536 over the rim", step, through, [0], [-65_536, 65_536], [TOP, 0])
        pair = Mesh([65_535] * 2, [0, 0], [1, 1], [128] * 2, [65_535] * 2)
        self.equal(step(pair, [65_535] * 2, [65_535, -65_535], [0, 0])[0], [65_535] * 2, "K and U 65,535 between two cells")
        self.refused(5, 1, "K 65,536", step, pair._replace(reaches=[65_535, 65_536]), [0, 0], [0, 0], [0, 0])
        self.refused(8, 1, "U above K", step, pair._replace(reaches=[65_535, 65_534]), [0, 0], [65_535, -65_535], [0, 0])

        tables = lambda mesh, fluxes: tables_for(mesh, [0] * 2, fluxes, [0] * 4)
        old = Mesh([4_095] * 2, [0, 0, 1, 0], [RIM, 1, RIM, 1], [0, 128, 0, 128], [0, 4_095, 0, 4_095])
        for cause, place, mesh, fluxes in ((3, 1, old._replace(volumes=[4_095, 4_096]), [0] * 4),
                                           (5, 3, old._replace(reaches=[0, 4_095, 0, 5_000]), [0] * 4),
                                           (5, 1, old._replace(reaches=[0, 4_096, 0, 5_000]), [0, 0, 4_096, 0]),
                                           (8, 2, old, [0, 4_095, -4_096, 0])):
            lagoon.write_step(lagoon.WATER, 2, 4, tables(mesh, fluxes), 100, True)
            self.refused(cause, place, f"kind 3 above the old ceiling, cause {cause}", lagoon.write_step, lagoon.WATER, 2, 4, tables(mesh, fluxes), 100)
            if cause != 8:
                for write in (lagoon.write_mesh, lagoon.write_field):
                    write(2, 4, tables(mesh, fluxes), 100, True)
                    self.refused(cause, place, f"{write.__name__} above the old ceiling", write, 2, 4, tables(mesh, fluxes), 100)
        for write in (lagoon.write_mesh, lagoon.write_field):
            self.refused(3, 1, f"{write.__name__}, wide, V 65,536", write, 2, 4, tables(old._replace(volumes=[1, 65_536]), [0] * 4), 100, True)
        for kind, most in ((lagoon.OUTFALLS, (1 << 40) - 1), (lagoon.WATER, 0)):
            releases = lambda more: tables_for(old, [0] * 2, [0] * 4, [0] * 4, [0, most + more])
            lagoon.write_step(kind, 2, 4, releases(0), 100, True)
            self.refused(18, 1, f"a release too large for kind {kind} + 4", lagoon.write_step, kind, 2, 4, releases(1), 100, True)

    def test_long_products(self):
        """Document 02, S-10: a step whose products a·G and a·L are past 2^64, worked by hand.

        Two cells of V 60,000 exchange 30,000 over two faces of K 60,000; q is 800,000 and 0. Stage 1 carries 24,000,000,000 over face 0 and
        nothing over face 1, so both cells have a low-order q of 400,000 and every correction is kept. By U d (t K - 128 |U|) / (256 K) they
        are -24,000,000,000 (t - 64) / 256: with t 255 at face 0 and 192 at face 1, 17,906,250,000 and 12,000,000,000 from cell 1 to cell 0,
        as 191 is to 128; together 29,906,250,000. Without rests L is 24,000,000,000 and G is V - 1 more, so L decides; with rests of 59,999
        in both cells it is the other way, and G is 24,000,000,000. Either way the faces keep 191/319 and 128/319 of it, rounded down:
        14,369,905,956 and 9,630,094,043. The products are 429,750,000,000,000,000,000 and 288,000,000,000,000,000,000; 2^64 has 20 digits."""
        pair = Mesh([60_000] * 2, [0, 0], [1, 1], [255, 64], [60_000] * 2)
        self.equal(lagoon.corrections(pair, [800_000, 0], [30_000, -30_000]), [-17_906_250_000, -12_000_000_000], "the corrections")
        self.equal([part * 24_000_000_000 for part in (17_906_250_000, 12_000_000_000)], [42_975 * 10 ** 16, 28_800 * 10 ** 16], "the products")
        for masses, after, what in (([48_000_000_000, 0], [47_999_999_999, 1], "cut by what the giver may lose"),
                                    ([48_000_059_999, 59_999], [48_000_059_998, 60_000], "cut by what the receiver may gain")):
            self.equal(step(pair, masses, [30_000, -30_000], [0, 0]), (after, [9_630_094_044, -9_630_094_043]), what)
        self.equal(lagoon.portion((1 << 64) - 1, (1 << 64) - 2, (1 << 64) - 1), (1 << 64) - 2, "the largest proportional part")

    def test_tables(self):
        tables = tables_for(CHANNEL, [100000, 0, 0], FLOW, OUTSIDE)
        longer = {position: table + [99] for position, table in tables.items()}
        self.equal(lagoon.step_on_tables(3, 4, longer), (50000, 0, 0), "in-mass, out-mass and released mass")
        self.equal([longer[i] for i in (lagoon.NEXT, lagoon.MOVED, lagoon.WORK)],
                   [[100099, 49901, 0, 99], [-50000, 49901, 0, 0, 99], [0] * 16 + [99]], "longer tables")
        for position in lagoon.STEP_TABLES:
            short = {i: list(table) for i, table in tables.items()}
            short[position].pop()
            before = {i: list(table) for i, table in short.items()}
            self.refused(2, position, "short table", lagoon.step_on_tables, 3, 4, short)
            self.equal(short, before, "tables after a refusal")
        self.refused(1, 0, "no cells", lagoon.step_on_tables, 0, 9000, tables)
        self.refused(1, 1, "8,191 faces", lagoon.step_on_tables, 1, 8191, tables)
        self.refused(9, 0, "unbalanced", step, CHANNEL, [0] * 3, [-50, 49, 50, 50], OUTSIDE)
        self.refused(8, 1, "U above K", step, CHANNEL, [0] * 3, [-50, -(1 << 63), 50, 50], OUTSIDE)
        self.refused(7, 3, "outside at an outflow", step, CHANNEL, [0] * 3, FLOW, [1000, 0, 0, 1])
        self.refused(4, 0, "first is the mark", step, CHANNEL._replace(firsts=[RIM, 0, 1, 2]), [0] * 3, FLOW, OUTSIDE)
        self.refused(5, 3, "K at a rim", step, CHANNEL._replace(reaches=[0, 100, 100, 1]), [0] * 3, FLOW, OUTSIDE)
        self.refused(3, 2, "V 0", step, CHANNEL._replace(volumes=[1, 1, 0]), [0] * 3, FLOW, OUTSIDE)


class Unrounded(Figures):
    """Plain steps beside those with q not rounded."""

    def test_unrounded(self):
        """Document 02, S-8: the same steps with q not rounded, worked by hand; and how near the error comes to n."""
        strait = unrounded.Walk(Mesh([2, 3], [0, 0, 1], [RIM, 1, RIM], [0, 128, 0], [0, 2, 0]), [1, 1])
        strait.step([-1, 1, 1], [0] * 3, [0, 0])
        self.equal((strait.masses, strait.exact), ([1, 1], [Fraction(1, 2), Fraction(7, 6)]), "1/2 and 1/3 leave, which a plain step does not see")
        strait.step([-1, 1, 1], [0] * 3, [1, 0])
        self.equal((strait.masses, strait.exact), ([1, 2], [Fraction(27, 36), Fraction(55, 36)]), "once more, 1 released into the first")
        pair = unrounded.Walk(Mesh([3, 3], [0, 0], [1, 1], [128, 128], [3, 3]), [2, 0])
        for releases, masses, exact, error in (([0, 0], [2, 0], [0, 2], Fraction(2, 3)), ([1, 2], [0, 5], [4, 1], Fraction(4, 3))):
            pair.step([3, -3], [0, 0], releases)
            self.equal((pair.masses, pair.exact, max(map(abs, pair.errors()))), (masses, exact, error), "two cells that exchange all their water")
        channel = unrounded.Walk(CHANNEL, [100000, 0, 0])
        for fluxes in (FLOW, FLOW, [-51, 50, 50, 50], FLOW, FLOW, FLOW):
            channel.step(fluxes, OUTSIDE, [0] * 3)
        self.equal((channel.accepted, channel.masses[1], channel.exact[1]), (5, 96900, 96875), "a refused step changes neither")
        for steps in (1, 2, 3, 40):
            self.equal(max(unrounded.ladder(steps).errors()), Fraction(65_534 * steps, 65_535), f"the ladder after {steps} steps")

    def test_errors_are_seen(self):
        """Lists with a plain step that corrects, and with an unrounded one that leaves releases out, are found wrong."""
        right_plain, right_unrounded = lagoon.advance_plain, lagoon.advance_unrounded
        forgetful = lambda mesh, masses, fluxes, outsides, releases: right_unrounded(mesh, masses, fluxes, outsides)
        for wrong in ({"advance_plain": lagoon.advance}, {"advance_unrounded": forgetful}):
            tally, seen = unrounded.Tally(), False
            vars(lagoon).update(wrong)
            try:
                for number in range(60):
                    tally.add(1, number, None)
            except unrounded.Wrong:
                seen = True
            finally:
                lagoon.advance_plain, lagoon.advance_unrounded = right_plain, right_unrounded
            self.equal(seen, True, f"{list(wrong)} wrong")


class Records(Figures):
    """Records of both widths, the host's call and the run."""

    def test_records(self):
        one = pool(100, 0)
        self.equal(lagoon.pack_mesh(one).hex(" "), "10 01 00 00 06 40", "mesh of one cell")
        self.equal(lagoon.pack_field([99]).hex(" "), "20 01 00 00 00 63", "its field")
        self.equal(lagoon.read_mesh(bytes.fromhex("100100000640")), one, "mesh read")
        self.equal(lagoon.read_field(bytes.fromhex("200100000063"), 1), [99], "field read")
        tables = tables_for(CHANNEL, [100000, 0, 0], FLOW, OUTSIDE)
        self.equal(lagoon.write_mesh(3, 4, tables, 31), lagoon.pack_mesh(CHANNEL), "mesh written")
        self.refused(2, 11, "a byte too few", lagoon.write_mesh, 3, 4, tables, 30)
        self.equal(lagoon.read_field(lagoon.write_field(3, 4, tables, 14), 3), [100000, 0, 0], "field written")
        record = lagoon.write_step(lagoon.WATER, 3, 4, tables, 16)
        self.equal(record.hex(" "), "30 02 00 00 81 90 0c 80 64 03 20 03 e8 00 00 00", "step written")
        self.equal(lagoon.read_step(record, 3, 4, CHANNEL.seconds), (3, FLOW, OUTSIDE, [0, 0, 0]), "step read")
        tables[lagoon.RELEASES] = [0, 20000, (1 << 32) - 1]
        record = lagoon.write_step(lagoon.OUTFALLS, 3, 4, tables, 28)
        self.equal(record.hex(" "), "40 02 00 00 81 90 0c 80 64 03 20 03 e8 00 00 00 00 00 00 00 00 04 e2 0f ff ff ff f0",
                   "step of kind 4 written: releases at once after the last outside value, zero bits at the end")
        self.equal(lagoon.read_step(record, 3, 4, CHANNEL.seconds), (4, FLOW, OUTSIDE, [0, 20000, (1 << 32) - 1]), "step of kind 4 read")

    def test_wide_records(self):
        """Document 02, S-10: kinds 5 to 8, and that the mesh record fixes the width of those after it."""
        mesh = "50 02 00 18 ff ff 00 64 00 0f ff 00 00 00 00 00 01 80 ff ff 00 1f ff 00 00 00"
        self.equal(lagoon.pack_mesh(WIDE_MESH, True).hex(" "), mesh, "a mesh of kind 5")
        self.equal(lagoon.read_mesh(bytes.fromhex(mesh)), WIDE_MESH, "the mesh read")
        self.equal(lagoon.pack_mesh(pool(100, 0), True).hex(" "), "50 01 00 00 00 64", "small values in kind 5")
        self.equal(lagoon.pack_field([65_535_000_000, 99], True).hex(" "), "60 02 0f 42 30 bd c0 00 00 00 00 63", "its field, of kind 6")
        # each face 17 bits: 1 0000000000110010, 0 0000000000110010 twice; then 20 bits for each rim face, and for kind 8 a release of 40 a cell
        water = "70 01 80 00 80 19 00 0c 80 06 40 07 d0 00 00 00"
        self.equal(lagoon.pack_step(WIDE_MESH, [-50, 50, 50], [1000, 0, 0], wide=True).hex(" "), water, "a step of kind 7")
        self.equal(lagoon.read_step(bytes.fromhex(water), 2, 3, WIDE_MESH.seconds, wide=True), (7, [-50, 50, 50], [1000, 0, 0], [0, 0]), "read")
        outfalls = "80 01 80 00 80 19 00 0c 80 06 40 07 d0 00 00 00 00 00 00 00 1f ff ff ff ff e0"
        self.equal(lagoon.pack_step(WIDE_MESH, [-50, 50, 50], [1000, 0, 0], [0, (1 << 40) - 1], True).hex(" "), outfalls, "a step of kind 8")
        self.equal(lagoon.read_step(bytes.fromhex(outfalls), 2, 3, WIDE_MESH.seconds, wide=True).releases, [0, (1 << 40) - 1], "its releases")
        self.refused(12, 49, "minus with size 0 at the second face", lagoon.read_step, bytes.fromhex("70 01 00 00 00 00 40 00 00"), 1, 2, [0, 0],
                     lagoon.LIBRARY_LIMITS, None, True)
        self.refused(12, 203, "first zero bit after the releases", lagoon.read_step, bytes.fromhex(outfalls[:-2] + "f0"), 2, 3, WIDE_MESH.seconds,
                     lagoon.LIBRARY_LIMITS, None, True)
        cells, faces = lagoon.RUN_LIMITS
        self.equal(lagoon.mesh_length(cells, faces, True), 14_326, "the longest mesh of the run")
        self.equal(lagoon.step_length(8, cells, faces, [RIM] * faces), 14_582, "its longest record, a step of kind 8")

        narrow = (lagoon.pack_mesh(CHANNEL), lagoon.pack_field([100000, 0, 0]), lagoon.pack_step(CHANNEL, FLOW, OUTSIDE),
                  lagoon.pack_step(CHANNEL, FLOW, OUTSIDE, [0, 20000, 0]))
        wide = (lagoon.pack_mesh(CHANNEL, True), lagoon.pack_field([100000, 0, 0], True), lagoon.pack_step(CHANNEL, FLOW, OUTSIDE, wide=True),
                lagoon.pack_step(CHANNEL, FLOW, OUTSIDE, [0, 20000, 0], True))
        self.equal([record[0] >> 4 for record in narrow + wide], [1, 2, 3, 4, 5, 6, 7, 8], "the kinds")
        self.equal(lagoon.run(wide[0] + wide[1] + wide[2] * 2), CHANNEL_TEXT, "the channel in wide records")
        self.equal(lagoon.run(b"".join(wide)), lagoon.run(b"".join(narrow)), "a session of kinds 5, 6, 7, 8 prints what that of kinds 1, 2, 3, 4 does")
        for own, other in ((narrow, wide), (wide, narrow)):
            self.equal(lagoon.run(own[0] + other[1] + own[2]), "F 13 0\n", "a field of the other width")
            for record in other[2:]:
                lines = lagoon.run(own[0] + own[1] + own[2] + record + own[2]).splitlines()
                self.equal(lines[1:3], ["1 50000 0 150000 0", "2 R 13 0"], "a step of the other width")
                self.equal(lagoon.host_step(own[0], own[1], record, 17), (13 << 32, None), "host's call, a step of the other width")
            self.equal(lagoon.host_step(own[0], other[1], own[2], 17), (13 << 32, None), "host's call, a field of the other width")
            room = len(own[1])
            self.equal(lagoon.host_step(*own[:3], room), (0, lagoon.pack_field([100099, 49901, 0], own is wide)), "the next field in the mesh's width")
            self.equal(lagoon.host_step(*own[:3], room - 1), ((2 << 32) + 11, None), "a byte too few for it")

    def test_order_of_reading(self):
        mesh = bytes.fromhex("100100000640")
        self.refused(11, 0, "head cut", lagoon.read_mesh, mesh[:3])
        self.refused(13, 0, "kind before length", lagoon.read_mesh, b"\x20" + mesh[1:4])
        self.refused(1, 0, "no cells", lagoon.read_mesh, b"\x10\0\0\0")
        self.refused(1, 1, "8,191 faces", lagoon.read_mesh, b"\x10\x01\xff\xf8")
        self.refused(1, 0, "1,024 cells in the run", lagoon.read_mesh, b"\x14\0\0\0", lagoon.RUN_LIMITS)
        self.refused(11, 0, "length before zero bits", lagoon.read_mesh, b"\x10\x01\0\x01\x06")
        self.refused(11, 0, "too long", lagoon.read_mesh, mesh + b"\0")
        self.refused(12, 31, "zero bit of the head", lagoon.read_mesh, b"\x10\x01\0\x01\x06\x41")
        self.refused(12, 47, "padding", lagoon.read_mesh, mesh[:5] + b"\x41")
        self.refused(13, 1, "count of a field", lagoon.read_field, bytes.fromhex("200100000063"), 2)
        record = lagoon.pack_step(CHANNEL, FLOW, OUTSIDE)
        self.refused(2, 2, "short seconds before length", lagoon.read_step, record[:9], 3, 4, [RIM])
        self.refused(12, 32, "minus with size 0", lagoon.read_step, bytes.fromhex("300080008000000000"), 1, 1, [RIM])
        for kind in (0, 1, 2, 5, 15):
            self.refused(13, 0, f"a step of kind {kind}", lagoon.read_step, bytes([16 * kind | record[0] & 15]) + record[1:], 3, 4, CHANNEL.seconds)
        outfalls = lagoon.pack_step(CHANNEL, FLOW, OUTSIDE, [1, 2, 3])
        for cut, (kind, whole) in ((16, (4, outfalls)), (27, (4, outfalls)), (15, (3, record))):
            self.refused(11, 0, f"{cut} bytes of kind {kind}", lagoon.read_step, whole[:cut], 3, 4, CHANNEL.seconds)
        for cells in (0, 4096):
            self.refused(1, 0, f"{cells} cells before short seconds", lagoon.read_step, record[:9], cells, 4, [RIM])
        for whole in (record, outfalls):
            short = {lagoon.FLUXES: 4, lagoon.OUTSIDES: 4, lagoon.RELEASES: 2}
            self.refused(2, 14, "releases short", lagoon.read_step, whole[:-1] + b"\1", 3, 4, CHANNEL.seconds, lagoon.LIBRARY_LIMITS, short)
        self.refused(12, 220, "first zero bit after the releases", lagoon.read_step, outfalls[:-1] + b"\x08", 3, 4, CHANNEL.seconds)

    def test_largest_records(self):
        """The largest records with the greatest values: lengths, and the digests that another program found."""
        written = {}
        for printed in script.answer(generate_script.largest().encode()).splitlines():
            name, _, values = printed.partition(": ")
            if name.startswith("write_"):
                said, _, entries = values.partition("; bytes ")
                length = int(said.split()[1])
                record = bytes(map(int, entries.split()[:length]))
                written[lagoon.kind_of(record)] = length, digest(record)
        self.equal(written, {1: (51192, 1815092123), 2: (16382, 3739429440), 3: (33788, 399157172), 4: (50168, 1251613018),
                             5: (57334, 1662297036), 6: (20477, 3134437295), 7: (37883, 213512273), 8: (58358, 3101553809)}, "the largest records by their kinds")

    def test_host_call_and_run(self):
        records = (lagoon.pack_mesh(CHANNEL), lagoon.pack_field([100000, 0, 0]),
                   lagoon.pack_step(CHANNEL, FLOW, OUTSIDE))
        self.equal(lagoon.host_step(*records, 14), (0, lagoon.pack_field([100099, 49901, 0])), "host's call")
        self.equal(lagoon.host_step(*records, 13), (2 * 4_294_967_296 + 11, None), "a byte too few")
        self.equal(lagoon.host_step(records[0], records[1], records[2] + b"\0", 0), (11 << 32, None), "step too long")
        self.equal(lagoon.run(b""), "M 11 0\n", "empty input")
        self.equal(lagoon.run(records[0] + b"\x20"), "F 11 0\n", "field cut")
        self.equal(lagoon.run(records[0] + records[1]), "0 0 0 100000 0\nB 0 1000 0\nB 1 0 0\nB 2 0 0\n", "no steps")
        unbalanced = lagoon.pack_step(CHANNEL, [-101] + [100] * 3, OUTSIDE)
        zero_bit = records[2][:2] + b"\x40" + records[2][3:]
        text = lagoon.run(b"".join(records[:2]) + unbalanced + zero_bit + records[2])
        self.equal(text.splitlines()[1:4], ["1 R 9 0", "2 R 12 17", "3 50000 0 150000 0"], "a refused step is skipped")
        text = lagoon.run(b"".join(records) + records[2][:15])
        self.equal(text.splitlines()[1:3], ["1 50000 0 150000 0", "2 R 11 0"], "a cut step ends the run")
        outfalls = [lagoon.pack_step(CHANNEL, FLOW, OUTSIDE, releases) for releases in ([0, 20000, 0], [100_000_000, 0, 0])]
        text = lagoon.run(records[0] + records[1] + outfalls[0] + records[2] + outfalls[1] + records[2] + outfalls[0])
        self.equal(text.splitlines()[1:6], ["1 50000 0 170000 20000", "2 50000 3750 216250 0", "3 R 18 0", "4 50000 14000 252250 0",
                                            "5 50000 26000 296250 20000"], "both kinds in one run; a refused step releases nothing")
        self.equal(lagoon.host_step(records[0], records[1], outfalls[0], 14), (0, lagoon.pack_field([100099, 62401, 7500])), "host's call, kind 4")
        self.equal(lagoon.host_step(records[0], records[1], outfalls[1], 0), (18 << 32, None), "host's call, cause 18")
        self.equal(lagoon.board([1] * 10, [5, 9, 5, 9, 0, 0, 0, 0, 0, 1])[:4],
                   [(1, 9, 0), (3, 9, 0), (0, 5, 0), (2, 5, 0)], "board order")
        self.equal(lagoon.board([4, 2, 3, 10], [22, 11, 17, 55]), [(2, 5, 2), (0, 5, 2), (1, 5, 1), (3, 5, 5)], "board, equal q")
        self.equal(lagoon.board_on_tables(1, [100], [199]), [(0, 1, 99)] + [(0, 0, 0)] * 7, "unused board entries")


class Fields(Figures):
    """Pages, what the public reads, stores."""

    def test_pages(self):
        """Document 02, S-1: lines of 18 bytes, pages of sixty cells, read back."""
        channel = lagoon.page_on_tables(3, [100] * 3, [100099, 81188, 18713], 0, 72)
        self.equal(channel, b"   0    1000   99\n   1     811   88\n   2     187   13\n           200000\n", "the channel's page")
        largest = lagoon.page_on_tables(1, [4095], [4_095_004_094], 0, 36)
        self.equal(largest, b"   0 1000000 4094\n       4095004094\n", "the largest figures")
        for cells, pages in ((1, 1), (60, 1), (61, 2), (119, 2), (120, 2), (4095, 69)):
            volumes, masses = [cell % 4095 + 1 for cell in range(cells)], [997 * cell for cell in range(cells)]
            total = 0
            for page in range(pages):
                lines = lagoon.page_on_tables(cells, volumes, masses, page, lagoon.page_length(volumes, cells, page)).decode().splitlines()
                for line in lines[:-1]:
                    cell, q, rest = map(int, line.split())
                    self.equal(q * volumes[cell] + rest, masses[cell], f"cell {cell} of {cells} read back")
                self.equal({len(line) for line in lines}, {17}, "lines without their newline")
                total += int(lines[-1])
            self.equal(total, sum(masses), f"page masses of {cells} cells")
            self.refused(14, pages, f"page {pages} of {cells} cells", lagoon.page_on_tables, cells, volumes, masses, pages, 0)
        self.refused(2, lagoon.PAGE, "a byte too few", lagoon.page_on_tables, 3, [100] * 3, [0] * 3, 0, 71)

    def test_wide_pages(self):
        """Document 02, S-10: 19 bytes a line as soon as some V of the whole mesh is above 4,095."""
        self.equal(lagoon.page_on_tables(1, [65_535], [65_535_065_534], 0, 38), b"   0 1000000 65534\n       65535065534\n", "the largest figures")
        volumes, masses = [1] * 60 + [4_096], [7] * 60 + [4_096 * 9 + 4_095]
        first, last = (lagoon.page_on_tables(61, volumes, masses, page, lagoon.page_length(volumes, 61, page)) for page in (0, 1))
        self.equal((first[:19], len(first)), (b"   0       7     0\n", 61 * 19), "a page without the large cell")
        self.equal(last, b"  60       9  4095\n             40959\n", "the page that has it")
        self.refused(2, lagoon.PAGE, "a byte too few", lagoon.page_on_tables, 61, volumes, masses, 0, 61 * 19 - 1)
        self.refused(2, lagoon.PAGE, "2 before 3", lagoon.page_on_tables, 2, [1, 65_536], [0, 0], 0, 3 * 19 - 1)
        self.refused(3, 1, "3 with enough bytes", lagoon.page_on_tables, 2, [1, 65_536], [0, 0], 0, 3 * 19)
        self.equal(lagoon.page_length([1, 4_096], 1, 0), 2 * 18, "a volume that is not counted")

    def test_public(self):
        """Document 02, S-14: what the public reads does not show withheld cells."""
        volumes, masses, marks = [100] * 3, [100099, 81188, 18713], [0, 1, 0]
        self.equal(lagoon.public_page_on_tables(3, volumes, masses, 0, 72, marks), b"   0    1000   99\n   2     187   13\n", "the channel's public page")
        self.equal(lagoon.public_page_on_tables(3, volumes, masses, 0, 72, [1] * 3), b"", "all withheld")
        self.equal(lagoon.public_board(3, volumes, masses, marks), [(0, 1000, 99), (2, 187, 13)], "the channel's public board")
        self.refused(2, lagoon.PAGE, "a byte too few for the whole page", lagoon.public_page_on_tables, 3, volumes, masses, 0, 71, [1] * 3)
        self.refused(2, lagoon.MARKS, "marks before volumes", lagoon.public_page_on_tables, 3, [0] * 3, masses, 0, 72, [1] * 2)
        self.refused(14, 1, "page before marks", lagoon.public_page_on_tables, 3, volumes, masses, 1, 0, [2] * 3)
        self.refused(27, 1, "another mark", lagoon.public_board, 3, volumes, masses, [1, 2, 0])
        self.equal(lagoon.public_page_on_tables(3, volumes, masses, 0, 72, [0] * 3), lagoon.page_on_tables(3, volumes, masses, 0, 72)[:54], "none withheld")
        self.equal(lagoon.public_page_on_tables(63, [1] * 63, [7] * 63, 1, 72, [0] * 60 + [1, 0, 1]), b"  61       7    0\n",
                   "a page's first and last cell withheld")
        self.equal(lagoon.public_page_on_tables(2, [100, 4096], [100099, 0], 0, 57, [0, 1]), b"   0    1000    99\n", "lines as wide as a withheld cell makes them")
        self.equal(lagoon.public_board(3, volumes, masses, [1, 0, 0]), [(1, 811, 88), (2, 187, 13)], "the leading cell withheld")
        self.equal([cell for cell, _, _ in lagoon.public_board(13, [5] * 13, [11] * 13, [0, 1, 0, 0, 1, 0, 0, 0, 1, 0, 0, 0, 0])], [0, 2, 3, 5, 6, 7, 9, 10],
                   "open cells of equal q and rest")
        other = [100099, 0, 18713]
        self.equal(lagoon.public_page_on_tables(3, volumes, other, 0, 72, marks), lagoon.public_page_on_tables(3, volumes, masses, 0, 72, marks), "public pages")

    def test_store(self):
        """Document 02, S-4: fields kept, dropped and given back, and each cause at its edge."""
        volumes, store, masses = [10, 20], [0] * 7, [7, 7, 7]
        lagoon.store_keep(2, volumes, [93, 15], store, 5)
        lagoon.store_keep(2, volumes, [1, 2, 3], store, 65_535)
        self.equal(store, [2, 5, 93, 15, 65_535, 1, 2], "two fields kept")
        self.refused(15, 5, "a name kept", lagoon.store_keep, 2, volumes, [0, 0], store, 5)
        self.refused(16, 6, "a full store", lagoon.store_keep, 2, volumes, [0, 0], store, 6)
        lagoon.store_return(2, volumes, masses, store, 65_535)
        self.equal(masses, [1, 2, 7], "given back")
        lagoon.store_drop(2, store, 5)
        self.equal(store, [1, 65_535, 1, 2, 0, 0, 0], "the first dropped")
        self.refused(17, 5, "a name dropped", lagoon.store_return, 2, volumes, masses, store, 5)
        self.refused(13, 1, "a count that overflows", lagoon.store_drop, 1, [1 << 63, 5, 5], 5)
        self.refused(2, 13, "no entry for the count", lagoon.store_drop, 1, [], 5)
        self.refused(6, 1, "a kept mass too large", lagoon.store_return, 2, volumes, masses, [1, 5, 0, 20 * 1_000_001], 5)
        broken = [2, 5, 1, 2, 5, 3, 4]
        lagoon.store_drop(2, broken, 5)
        self.equal(broken, [1, 5, 3, 4, 0, 0, 0], "the first of equal names")


class Others(Figures):
    """Cuttings, charges, scripts."""

    def test_cut(self):
        """Document 02, S-12: the figures of crates/cutting_parts/proofs/Figures.antt, and others."""
        masses, releases, labels = [100000, 0, 0], [5000, 0, 0], [0, 1, 1]
        counts, (near, far) = cut(CHANNEL, masses, FLOW, OUTSIDE, releases, labels)
        self.equal(counts, (1, 2, 2, 3), "the channel's counts")
        self.equal([near[position] for position in lagoon.CUT_TABLES],
                   [[100, 7, 7], [0, 0, 7, 7], [RIM, RIM, 7, 7], [0, 0, 7, 7], [0, 0, 7, 7], [100000, 7, 7], [-50, 50, 7, 7], [1000, 0, 7, 7], [5000, 7, 7]],
                   "the channel's first cell")
        self.equal([far[position] for position in lagoon.CUT_TABLES],
                   [[100, 100, 7], [0, 0, 1, 7], [RIM, 1, RIM, 7], [0, 128, 0, 7], [0, 100, 0, 7], [0, 0, 7], [-50, 50, 50, 7], [1050, 0, 0, 7], [0, 0, 7]],
                   "the channel's other cells, with the raised 1050 across the cut")
        _, (near, far) = cut(CHANNEL, masses, FLOW, OUTSIDE, releases, [1, 0, 0])
        self.equal((near[lagoon.FIRSTS][0], near[lagoon.FLUXES][0], near[lagoon.OUTSIDES][0]), (0, -50, 1050), "a face whose second cell is in part 0")
        pair = Mesh([10, 10], [0, 0], [1, 1], [128, 128], [10, 10])
        _, (near, far) = cut(pair, [93, 15], [10, -10], [0, 0], [0, 0], [0, 1])
        self.equal((near[lagoon.FLUXES], near[lagoon.OUTSIDES]), ([10, -10], [0, 1]), "two opposite faces cut, from the first cell")
        self.equal((far[lagoon.FLUXES], far[lagoon.OUTSIDES]), ([-10, 10], [9, 0]), "and from the second")
        for what, labels, cause, place in (("another label", [0, 2, 3], 23, 1), ("no part 0", [1, 1, 1], 24, 0), ("no part 1", [0, 0, 0], 24, 1)):
            self.refused(cause, place, what, cut, CHANNEL, [100000100, 0, 0], FLOW, OUTSIDE, releases, labels)
        self.refused(6, 0, "too high", cut, CHANNEL, [100000100, 0, 0], FLOW, OUTSIDE, releases, [0, 1, 1])
        self.refused(2, lagoon.LABELS, "labels too short", cut, CHANNEL, masses, FLOW, OUTSIDE, releases, [0, 1])
        for position in lagoon.CUT_TABLES:
            self.refused(2, position, "a part's table too short", cut, CHANNEL, masses, FLOW, OUTSIDE, releases, [0, 1, 2], position)

    def test_charges(self):
        """Document 02, S-13: totals that gain what moved outward over the rim, and charges that hand their remainder on."""
        totals = [5, 6, 7, 8]
        lagoon.add_moved(3, [lagoon.RIM, 1, lagoon.RIM], [10, 10, -10, 9], totals)
        self.equal(totals, [15, 6, 7, 8], "totals")
        full = [lagoon.LAST_END, lagoon.LAST_END + 1]
        lagoon.add_moved(2, [lagoon.RIM] * 2, [0, -1], full)
        self.refused(26, 0, "past the ceiling", lagoon.add_moved, 2, [lagoon.RIM] * 2, [1, 0], full)
        ends, prices = [1_000_000, 2_000_000, lagoon.LAST_END], [3, 2, 1]
        self.equal(lagoon.charge(2_500_000, 3, ends, prices, 0), (5, 500_000), "three bands")
        self.equal(lagoon.charge(2_500_000, 3, ends, prices, 500_000), (6, 0), "with a remainder")
        self.refused(25, 0, "no bands", lagoon.charge, 0, 0, [], [], 0)
        self.refused(2, lagoon.ENDS, "short ends", lagoon.charge, 0, 1, [], [], lagoon.UNITS)
        self.refused(25, 2, "another last end", lagoon.charge, 0, 3, ends[:2] + [lagoon.LAST_END - 1], prices, 0)
        self.refused(26, 0, "a total above the last end", lagoon.charge, lagoon.LAST_END + 1, 3, ends, prices, 0)
        rng, remainder, cents, sums = random.Random(13), 7, 0, 0
        for _ in range(200):
            total = rng.randint(0, lagoon.LAST_END)
            more, left = lagoon.charge(total, 3, ends, prices, remainder)
            cents, sums, remainder = cents + more, sums + lagoon.band_sum(total, ends, prices), left
        self.equal(cents * lagoon.UNITS + remainder, sums + 7, "all cents and the last remainder")

    def test_script(self):
        printed = script.answer(b"1 3 4 3 4 # within\n17 6 16 1 0 0 6 64 32 12\n18 0 0 0\n6 1 1 x")
        self.equal(printed.splitlines(), ["counts_within: accepted", "number_at: accepted 100",
                                          "board: refused 1 0; used 0; entries" + " 0" * 24,
                                          "bad input: line 4, byte 59: not a number"], "a script")
        self.equal(script.answer(b"1 18446744073709551615 0 18446744073709551616"),
                   "bad input: line 1, byte 44: too large\n", "a number too large")
        self.equal(script.answer(script.spell("read_step", 0, 1, 1, [RIM], [48], [-(1 << 63)], [7], [8]).encode()),
                   f"read_step: refused 11 0; fluxes {-(1 << 63)}; outsides 7; releases 8\n", "the most negative entry")
        self.equal(script.answer(script.spell("read_step", 0, 1, 0, [], lagoon.pack_step(pool(1, 0), [], [], [9]), [], [], [7, 7]).encode()),
                   "read_step: accepted 4; fluxes; outsides; releases 9 7\n", "the kind that was read")


class Generated(Figures):
    """What holds of all cases."""

    def test_conservation_and_bounds(self):
        """On generated calls: total follows in-mass, released mass and out-mass, and no q leaves its neighbourhood's range."""
        accepted = dict.fromkeys(lagoon.STEP_BITS, 0)
        for number in range(1, 400):
            case = generate.call(7, number)
            try:
                mesh = lagoon.accept_mesh(case.mesh)
                wide = lagoon.is_wide(lagoon.kind_of(case.mesh))
                masses = lagoon.accept_field(case.field, mesh, wide)
                result = lagoon.accept_step(case.step, mesh, masses, wide)
            except lagoon.Refusal:
                continue
            kind, fluxes, outsides, releases = lagoon.read_step(case.step, len(mesh.volumes), len(mesh.firsts), mesh.seconds, wide=wide)
            accepted[kind] += 1
            self.equal(sum(result.masses), sum(masses) + result.in_mass + result.released - result.out_mass, f"total of call {number}")
            q = lagoon.concentrations(mesh.volumes, lagoon.raised(masses, releases))
            gains, losses = lagoon.bounds(mesh, result.masses, q, fluxes, outsides)
            self.equal(min(gains + losses) >= 0, True, f"bounds of call {number}")
            tables = tables_for(mesh, masses, fluxes, outsides, releases)
            counts = len(mesh.volumes), len(mesh.firsts)
            self.equal(lagoon.write_mesh(*counts, tables, 1 << 20, wide), case.mesh, "mesh rewritten")
            self.equal(lagoon.write_field(*counts, tables, 1 << 20, wide), case.field, "field rewritten")
            told = lagoon.OUTFALLS if lagoon.STEP_BITS[kind].release else lagoon.WATER
            self.equal(lagoon.write_step(told, *counts, tables, 1 << 20, wide), case.step, "step rewritten")
        self.equal(min(accepted.values()) > 30, True, f"enough accepted calls of all kinds: {accepted}")


if __name__ == "__main__":
    unittest.main()
