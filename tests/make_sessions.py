#!/usr/bin/env python3
"""Writes the sessions of the run program: tests/sessions/NAME.in (input) and NAME.out (what it must print).

    python3 tests/make_sessions.py            writes all of them
    python3 tests/make_sessions.py largest    writes the input of the largest mesh, as bytes, to standard output
    python3 tests/make_sessions.py longest    writes that of the longest records of all kinds
    python3 tests/make_sessions.py long       writes that of a long list of steps, of whose output the last four lines are stored

The expected output is the reference's, and for the channel what document 01 prints, with document 02's fifth number.
"""

import sys
from pathlib import Path

HERE = Path(__file__).resolve().parent
sys.path.insert(0, str(HERE.parent / "reference"))

import lagoon
from lagoon import Mesh, pack_field, pack_mesh, pack_step

SESSIONS = HERE / "sessions"
RIM = 4095

CHANNEL_PRINTED = """0 0 0 100000 0
1 50000 0 150000 0
2 50000 0 200000 0
B 0 1000 99
B 1 811 88
B 2 187 13
"""


def changed(record, at, bits, value):
    """The record with so many bits from bit `at` on made the value."""
    whole = int.from_bytes(record, "big")
    shift = 8 * len(record) - at - bits
    mask = ((1 << bits) - 1) << shift
    return (whole & ~mask | value << shift).to_bytes(len(record), "big")


CHANNEL = Mesh([100] * 3, [0, 0, 1, 2], [RIM, 1, 2, RIM], [0, 128, 128, 0], [0, 100, 100, 0])
MESH = pack_mesh(CHANNEL)
FIELD = pack_field([100000, 0, 0])


def step(fluxes=(-50, 50, 50, 50), outsides=(1000, 0, 0, 0), releases=None, wide=False):
    """A step of the channel: of kind 4 where it has releases; wide, 7 and 8."""
    return pack_step(CHANNEL, list(fluxes), list(outsides), releases, wide)


def mesh_with(**columns):
    """The channel with some columns otherwise."""
    parts = dict(volumes=CHANNEL.volumes, firsts=CHANNEL.firsts, seconds=CHANNEL.seconds,
                 shares=CHANNEL.shares, reaches=CHANNEL.reaches) | columns
    return pack_mesh(Mesh(*parts.values()))


def sessions():
    """The name and the input of each stored session."""
    good = step()
    start = MESH + FIELD
    yield "channel", start + good + good
    yield "nothing", b""
    yield "one_cell", bytes.fromhex("100100000640200100000063")
    yield "one_cell_steps", bytes.fromhex("100100000640200100000063") + bytes.fromhex("30000000") * 3
    yield "no_steps", start
    yield "equal_figures", pack_mesh(Mesh([7, 14, 7, 14, 7, 7, 14, 7, 7], [], [], [], [])) + pack_field([21, 54, 26, 52, 27, 23, 44, 24, 25])

    # the mesh
    yield "mesh_head_short", MESH[:3]
    yield "mesh_short", MESH[:-1]
    yield "mesh_kind", changed(MESH, 0, 4, 2) + FIELD
    yield "mesh_no_cells", changed(MESH, 4, 12, 0) + FIELD
    yield "mesh_cells", changed(MESH, 4, 12, 1024) + FIELD
    yield "mesh_faces", changed(MESH, 16, 13, 2047) + FIELD
    yield "mesh_head_bit", changed(MESH, 30, 1, 1) + FIELD
    yield "mesh_padding", changed(MESH, 8 * len(MESH) - 1, 1, 1) + FIELD
    yield "mesh_volume", mesh_with(volumes=[100, 0, 100]) + FIELD
    yield "mesh_first", mesh_with(firsts=[0, 3, 1, 2]) + FIELD
    yield "mesh_same_ends", mesh_with(seconds=[RIM, 1, 1, RIM]) + FIELD
    yield "mesh_share", mesh_with(shares=[0, 0, 128, 0]) + FIELD
    yield "mesh_rim_reach", mesh_with(reaches=[0, 100, 100, 1]) + FIELD

    # the field
    yield "field_missing", MESH
    yield "field_head_short", MESH + FIELD[:1]
    yield "field_short", MESH + FIELD[:-1]
    yield "field_kind", MESH + changed(FIELD, 0, 4, 3)
    yield "field_count", MESH + changed(FIELD, 4, 12, 4)
    yield "field_salt", MESH + pack_field([100000, 100000099, 100000100])

    # steps that are skipped, each between two good ones
    def between(bad):
        return start + good + bad + good

    yield "step_bit", between(changed(good, 17, 1, 1))
    yield "step_padding", between(changed(good, 8 * len(good) - 1, 1, 1))
    yield "step_minus_zero", between(changed(good, 32, 13, 1 << 12))
    yield "step_outside", between(step(outsides=(1000001, 0, 0, 0)))
    yield "step_outside_at_outflow", between(step(outsides=(1000, 0, 0, 7)))
    yield "step_flux", between(step(fluxes=(-101, 101, 101, 101)))
    yield "step_balance", between(step(fluxes=(-50, 50, 49, 50)))
    yield "step_outflow", pack_mesh(Mesh([100, 101, 100], CHANNEL.firsts, CHANNEL.seconds, CHANNEL.shares, [0, 200, 200, 0])) \
        + FIELD + step(fluxes=(-101, 101, 101, 101)) + step(fluxes=(-100, 100, 100, 100))

    # steps that end the run
    yield "step_head_short", start + good + good[:3]
    yield "step_short", start + good + good[:-1]
    yield "step_kind", start + good + changed(good, 0, 4, 2) + good
    yield "step_count", start + good + changed(good, 4, 13, 5) + good

    # releases: kinds 3 and 4 in one run, and records of kind 4 on other meshes
    outfall = step(releases=[0, 20000, 0])
    yield "outfalls", start + outfall + good + outfall + outfall + good
    yield "outfalls_zero", start + step(releases=[0, 0, 0]) * 2
    yield "outfalls_out", start + step(releases=[0, 0, 20000]) + step(releases=[0, 150, 0])
    one = bytes.fromhex("100100000640200100000063")
    yield "outfalls_one_cell", one + bytes.fromhex("4000000000000385") + bytes.fromhex("30000000") + bytes.fromhex("400000000000000a")
    ring = Mesh([10, 10], [0, 0], [1, 1], [128, 128], [10, 10])
    yield "outfalls_no_rim", pack_mesh(ring) + pack_field([93, 15]) + pack_step(ring, [10, -10], [0, 0], [7, 0]) \
        + pack_step(ring, [10, -10], [0, 0]) + pack_step(ring, [0, 0], [0, 0], [0, 1])

    # cause 18: the last release accepted and the first refused, beside 7 and 12; a refused step releases nothing
    full = step(releases=[99900099, 0, 0])
    high = step(releases=[99900100, 0, 0])
    yield "release_last_good", start + full
    yield "release_first_bad", start + high + outfall + good
    yield "release_greatest", start + step(releases=[0, 0, (1 << 32) - 1]) + good
    yield "release_full", start + full + step((0, 0, 0, 0), (0, 0, 0, 0), [37450000, 0, 0]) + step((0, 0, 0, 0), (0, 0, 0, 0), [1, 0, 0])
    yield "release_before_outside", between(step(outsides=(1000001, 0, 0, 0), releases=[0, 0, 100000100]))
    yield "release_before_balance", between(step(fluxes=(-51, 50, 50, 50), releases=[0, 0, 100000100]))
    yield "release_refused_whole", start + step(fluxes=(-51, 50, 50, 50), releases=[0, 20000, 0]) + good \
        + step(outsides=(1000001, 0, 0, 0), releases=[0, 20000, 0]) + outfall

    # kind 4: zero bits once, at the end; lengths by the kind; other kinds end the run
    yield "outfall_padding", between(changed(outfall, 220, 1, 1)) + changed(outfall, 223, 1, 1) + outfall
    yield "outfall_bit", between(changed(outfall, 31, 1, 1)) + outfall
    yield "outfall_minus_zero", between(changed(outfall, 32, 13, 1 << 12)) + outfall
    yield "outfall_head_short", start + outfall + outfall[:3]
    yield "outfall_short", start + outfall + outfall[:-1]
    yield "outfall_without", start + good + outfall[:16]
    yield "outfall_as_water", start + good + changed(outfall, 0, 4, 3)
    yield "outfall_kind", start + outfall + changed(outfall, 0, 4, 5) + outfall
    yield "outfall_count", start + outfall + changed(outfall, 4, 13, 5) + outfall
    yield from wide_sessions()


# one cell with two faces over the rim; two cells of the largest V with two faces of the largest K
STRAIT = Mesh([65535], [0, 0], [RIM, RIM], [0, 0], [0, 0])
PAIR = Mesh([65535, 65535], [0, 0], [1, 1], [255, 128], [65535, 65535])


def wide_sessions():
    """Document 02, S-10: records of kinds 5 to 8, and those of the other width among them."""
    mesh, field = pack_mesh(CHANNEL, True), pack_field([100000, 0, 0], True)
    good, outfall = step(wide=True), step(releases=[0, 20000, 0], wide=True)
    start = mesh + field
    yield "wide", start + good + outfall + good
    yield "wide_channel", start + good + good
    yield "wide_one_cell", bytes.fromhex("5001000003e8 60010000000063 80000000000000000a 70000000")

    # the ceilings, and a step whose a·G has more than 64 bits
    def strait(volume, mass, *steps):
        return pack_mesh(STRAIT._replace(volumes=[volume]), True) + pack_field([mass], True) + b"".join(steps)

    def through(flux, release=None, outside=1000000):
        return pack_step(STRAIT, [-flux, flux], [outside, 0], release and [release], True)

    yield "wide_fullest", strait(65535, 65535065534, through(65535), through(65534))
    yield "wide_too_full", strait(65535, 65535065535, through(65535))
    yield "wide_mass_greatest", strait(65535, (1 << 40) - 1)
    yield "wide_volume", strait(0, 0)
    yield "wide_outflow", strait(65534, 0, through(65534), through(65535), through(1))
    yield "wide_release", strait(65535, 0, through(65535, 65535065534), through(65535, 1), through(65535, outside=0), through(0, (1 << 40) - 1, 0),
                                 through(0, 65535000001, 0), through(0, 65535000000, 0))
    yield "wide_strait", strait(65535, 1 << 32, through(40000), through(40000, 5000000000))
    yield "wide_product", pack_mesh(PAIR, True) + pack_field([39321000000, 6553500000], True) + pack_step(PAIR, [30000, -30000], [0, 0], wide=True)
    yield "wide_reach", pack_mesh(PAIR._replace(reaches=[65535, 0]), True) + pack_field([0, 0], True)
    yield "wide_flux", pack_mesh(PAIR._replace(reaches=[65535, 40000]), True) + pack_field([5, 5], True) \
        + pack_step(PAIR, [40001, -40001], [0, 0], wide=True) + pack_step(PAIR, [40000, -40000], [0, 0], wide=True)

    # the mesh fixes the width of what follows
    yield "wide_field_narrow", mesh + FIELD + good
    yield "wide_step_narrow", start + good + step() + good
    yield "wide_outfall_narrow", start + good + step(releases=[0, 20000, 0]) + good
    yield "narrow_field_wide", MESH + field + step()
    yield "narrow_step_wide", MESH + FIELD + step() + good + step()
    yield "narrow_outfall_wide", MESH + FIELD + step() + outfall + step()

    # heads, lengths and bits of the wide kinds
    yield "wide_mesh_cells", changed(mesh, 4, 12, 1024) + field
    yield "wide_mesh_short", mesh[:-1]
    yield "wide_mesh_bit", changed(mesh, 31, 1, 1) + field
    yield "wide_field_short", mesh + field[:-1]
    yield "wide_field_count", mesh + changed(field, 4, 12, 4)
    def wrong_bits(record):
        """A bit of the head, the minus of a flux of size 0 and a bit after the last value, each in a record of its own."""
        return changed(record, 17, 1, 1) + changed(record, 49, 17, 1 << 16) + changed(record, 8 * len(record) - 1, 1, 1)

    yield "wide_step_bits", start + wrong_bits(good) + good
    yield "wide_step_short", start + good + good[:-1]
    yield "wide_step_count", start + good + changed(good, 4, 13, 5) + good
    yield "wide_outfall_bits", start + wrong_bits(outfall) + outfall
    yield "wide_outfall_short", start + outfall + outfall[:-1]


def largest():
    """A ring of 1,023 cells in two layers of faces, 2,046 in all, with three steps around it and two that release."""
    cells, faces = 1023, 2046
    firsts = [f % cells for f in range(faces)]
    seconds = [(f + 1) % cells for f in range(faces)]
    mesh = Mesh([4095] * cells, firsts, seconds, [1 + f % 255 for f in range(faces)], [4095] * faces)
    masses = [4095 * (c * 977 % 1000001) + c for c in range(cells)]
    data = pack_mesh(mesh) + pack_field(masses)
    for upper, lower in ((2000, 2095), (-4000, -95), (3000, -2000)):
        data += pack_step(mesh, [upper] * cells + [lower] * cells, [0] * faces)
    data += pack_step(mesh, [1000] * faces, [0] * faces, [c * 4095 % 100_000 for c in range(cells)])
    return data + pack_step(mesh, [0] * faces, [0] * faces, [(1 << 32) - 1] * cells)


def longest():
    """As many cells, each with two faces over the rim: a step with releases is the longest record of all."""
    cells, faces = 1023, 2046
    rim = Mesh([65535] * cells, [f // 2 for f in range(faces)], [RIM] * faces, [0] * faces, [0] * faces)
    data = pack_mesh(rim, True) + pack_field([65535 * (c * 977 % 1000001) + c for c in range(cells)], True)
    for turn in range(3):
        through = [(c * 64_063 + turn * 20_000) % 65_536 for c in range(cells)]
        fluxes = [(-flux, flux)[f % 2] for f in range(faces) for flux in (through[f // 2],)]
        outsides = [f * 487 if flux < 0 else 0 for f, flux in enumerate(fluxes)]
        data += pack_step(rim, fluxes, outsides, [c * 65_535 % 100_000 for c in range(cells)] if turn != 1 else None, True)
    return data


def long():
    """The channel with 100,000 steps."""
    return MESH + FIELD + step() * 100_000


def main():
    made = {"largest": largest, "longest": longest, "long": long}
    if len(sys.argv) == 2 and sys.argv[1] in made:
        sys.stdout.buffer.write(made[sys.argv[1]]())
        return
    SESSIONS.mkdir(exist_ok=True)
    for name, data in sessions():
        printed = CHANNEL_PRINTED if name == "channel" else lagoon.run(data)
        assert printed == lagoon.run(data), name
        (SESSIONS / f"{name}.in").write_bytes(data)
        (SESSIONS / f"{name}.out").write_text(printed)
    for name in ("largest", "longest"):
        (SESSIONS / f"{name}.out").write_text(lagoon.run(made[name]()))
    (SESSIONS / "long_end.out").write_text("".join(lagoon.run(long()).splitlines(keepends=True)[-4:]))


if __name__ == "__main__":
    main()
