"""Script 0: the largest counts with the greatest values."""

import lagoon
from lagoon import CEILING, MOST_NAME, OUTFALLS, RIM, TOP, WATER
from making.lent import CELLS, FACES, FULL, GREATEST, MOST, MOST_RELEASE
from script import MOST_NUMBERS, ROOM, TOLD_NARROW, TOLD_WIDE, spell

RIM_FACES = [0] * FACES, [RIM] * FACES, [0] * FACES, [0] * FACES
CUT_FACES = (MOST_NUMBERS - 1 - 30 - 10 * CELLS) // 18     # all numbers of a cutting of so many cells and faces are fewer than a call may have


def whole_channel():
    """Tables of a cutting: all cells in a row, water through all of them, and rim faces without water."""
    rows = [(0, RIM, 0, 0, -CEILING), *((cell, cell + 1, 1, CEILING, CEILING) for cell in range(CELLS - 1)), (CELLS - 1, RIM, 0, 0, CEILING)]
    rows += [(CELLS - 1, RIM, 0, 0, 0)] * (CUT_FACES - len(rows))
    firsts, seconds, shares, reaches, fluxes = map(list, zip(*rows))
    return ([CEILING] * CELLS, firsts, seconds, shares, reaches, [0, FULL] * (CELLS // 2) + [0], fluxes, [TOP] + [0] * (CUT_FACES - 1),
            [FULL, 0] * (CELLS // 2) + [1])


def room_for_part():
    cells, faces = [7] * CELLS, [7] * CUT_FACES
    return cells, faces, faces, faces, faces, cells, [-7] * CUT_FACES, faces, cells


def largest_records(width):
    """The largest records of a width with the greatest values, written and read back, and handed to the calls that take no more than the run."""
    wide = width == TOLD_WIDE
    ceiling, most_release = lagoon.ceiling_of(wide), MOST_RELEASE[wide]
    mesh, pool = (lagoon.Mesh([ceiling] * cells, *RIM_FACES) for cells in (CELLS, 1))
    volumes, masses = mesh.volumes, [ceiling * (TOP + 1) - 1] * CELLS
    inflow, outsides, releases = [-ceiling] * FACES, [TOP] * FACES, [most_release] * CELLS
    mesh_record, field_record = lagoon.pack_mesh(mesh, wide), lagoon.pack_field(masses, wide)
    step_record = lagoon.pack_step(pool, inflow, outsides, wide=wide)
    outfalls_record = lagoon.pack_step(mesh, inflow, outsides, releases, wide)
    still_record = lagoon.pack_step(pool, [], [], wide=wide)
    return [
        f"# the largest records of width {width}, written and read back\n",
        spell("write_mesh", width, CELLS, FACES, *mesh, [170] * (len(mesh_record) + 1)),
        spell("mesh_length", CELLS, FACES, mesh_record),
        spell("read_mesh", CELLS, FACES, mesh_record, *([7] * (len(column) + 1) for column in mesh)),
        spell("write_field", width, CELLS, 0, volumes, [], [], [], [], masses, [170] * len(field_record)),
        spell("read_field", width, CELLS, field_record, [7] * CELLS),
        spell("write_step", width, WATER, 1, FACES, *pool, inflow, outsides, [170] * len(step_record), [0]),
        spell("step_length", width, 1, FACES, pool.seconds, step_record),
        spell("read_step", width, 1, FACES, pool.seconds, step_record, [-7] * FACES, [7] * FACES, [7]),
        spell("write_step", width, OUTFALLS, CELLS, FACES, *mesh, inflow, outsides, [170] * len(outfalls_record), releases),
        spell("step_length", width, CELLS, FACES, mesh.seconds, outfalls_record),
        spell("read_step", width, CELLS, FACES, mesh.seconds, outfalls_record, [-7] * FACES, [7] * FACES, [7] * (CELLS + 1)),
        "# more cells and faces than the run takes\n",
        spell("take_mesh", mesh_record, *([7] * len(column) for column in mesh)),
        spell("take_field", width, CELLS, field_record, volumes, [7] * CELLS),
        spell("take_step", width, 1, FACES, step_record, *pool, [0]),
        spell("take_step", width, CELLS, 0, still_record, volumes, [], [], [], [], masses),
    ]


def largest_steps():
    """Checks, steps, judgings and cuttings on the largest tables."""
    mesh, pool = (lagoon.Mesh([CEILING] * cells, *RIM_FACES) for cells in (CELLS, 1))
    masses, inflow, outsides, still, none = [FULL] * CELLS, [-CEILING] * FACES, [TOP] * FACES, [0] * FACES, [0] * FACES
    lent = ([7] * (CELLS + 1), [-7] * (FACES + 1), [7] * (4 * CELLS + FACES + 1))
    filled_up, released = [0] * (CELLS - 1) + [FULL], [FULL] * (CELLS - 1) + [0]
    return [
        spell("check_step", CELLS, FACES, *mesh, masses, still, none, *lent, [0] * CELLS),
        spell("step", CELLS, FACES, *mesh, masses, still, none, *lent, [0] * CELLS),
        spell("step", CELLS, FACES, *mesh, filled_up, still, none, *lent, released),
        spell("step", 1, FACES, *pool, [0], inflow, outsides, *lent, [0]),
        spell("plain_step", CELLS, FACES, *mesh, filled_up, still, none, *lent, released),
        spell("judge", CELLS, FACES, *mesh, filled_up, still, none, lent[0], [0] * FACES, released),
        spell("judge", 1, FACES, *pool, [0], inflow, outsides, lent[0], [-CEILING * TOP] * FACES, [0]),
        "# the largest lagoon that one call can cut: nearly all cells on one side, and in turn\n",
        *(spell("cut", CELLS, CUT_FACES, *whole_channel(), labels, *room_for_part(), *room_for_part())
          for labels in ([0] * (CELLS - 1) + [1], [cell % 2 for cell in range(CELLS)])),
    ]

def largest_field(volumes, masses, rooms, last):
    """Stores, what the public reads, and totals, of the largest field."""
    return [
        "# the largest mesh kept, dropped and given back, in a store of the room needed\n",
        spell("keep", CELLS, volumes, masses, [0] * (CELLS + 2), MOST_NAME),
        spell("keep", CELLS, volumes, masses, [0] * (CELLS + 1), MOST_NAME),
        spell("drop", CELLS, [1, MOST_NAME, *masses], MOST_NAME),
        spell("give_back", CELLS, volumes, [7] * (CELLS + 1), [1, MOST_NAME, *masses], MOST_NAME),
        "# what the public reads of the largest field\n",
        spell("public_page", CELLS, volumes, masses, 0, rooms[0], [0, 1] * (CELLS // 2) + [0]),
        spell("public_page", CELLS, volumes, masses, last, rooms[1], [1] * CELLS),
        spell("public_board", CELLS, volumes, masses, [1] * (CELLS - 3) + [0] * 3),
        "# totals of all faces, full\n",
        spell("add", FACES, [RIM] * FACES, [lagoon.LAST_END] * FACES, [0] * FACES),
        spell("add", FACES, [RIM] * FACES, [0] * (FACES - 1) + [1], [GREATEST] * (FACES - 1) + [lagoon.LAST_END]),
        spell("add", FACES, [0] * FACES, [MOST] * FACES, [GREATEST] * FACES),
    ]

def largest():
    """The largest counts with the greatest values: records of both widths, and every call on tables."""
    mesh, masses = lagoon.Mesh([CEILING] * CELLS, *RIM_FACES), [FULL] * CELLS
    volumes, last = mesh.volumes, (CELLS - 1) // lagoon.PAGE_CELLS
    rooms = [170] * (1 + lagoon.page_length(volumes, CELLS, 0)), [170] * lagoon.page_length(volumes, CELLS, last)
    return "".join([
        *largest_records(TOLD_NARROW),
        *largest_records(TOLD_WIDE),
        "# the largest tables\n",
        spell("check_mesh", CELLS, FACES, *mesh),
        spell("check_field", CELLS, FACES, *mesh, masses),
        spell("total", CELLS, volumes, masses),
        spell("board", CELLS, volumes, masses),
        spell("page", CELLS, volumes, masses, 0, rooms[0]),
        spell("page", CELLS, volumes, masses, last, rooms[1]),
        *largest_steps(),
        *largest_field(volumes, masses, rooms, last),
        "# more numbers than a call may have\n",
        spell("check_field", 1, 1, *([0] * ROOM["t"] for _ in range(6))),
    ])
