"""The calls of include/lagoon.h beside the reference.

A call on tables is a call of a script too (script.py): it is lent that one's arguments, by their names in the header. A call on records
gets records of generate.py, and what else it asks for from a random generator. What the driver answers is compared byte by byte: the
number, and every table that may be changed, the numbers found among them.
"""

import random
import struct
from array import array

import header
import lagoon as right_lagoon
import script
from making.lent import CELLS, FACES, GREATEST
from making.table_calls import some_labels

PLACE = 1 << 32                 # the number of a refusal is so many times the cause, plus the place
MOST_SHORT = PLACE - 1          # the greatest number of 32 bits
FILL = 0xA5                     # a byte of room, before the call
ENTRY = int.from_bytes(bytes([FILL] * 8), "little")

MESH = "cells faces volumes firsts seconds shares reaches"
STEP = f"{MESH} masses fluxes outsides next moved work releases"
FIELD = "cells volumes masses"
OF_A_PART = "volumes firsts seconds shares reaches masses fluxes outsides releases".split()
PARTS = " ".join(f"{column}{part}" for part in (0, 1) for column in OF_A_PART)

ROOMS = "mesh0 field0 step0 mesh1 field1 step1".split()

# The call of a script that a call on tables is, and what the arguments of that one are in the header.
ON_TABLES = {
    "lagoon_step": ("lagoon_step", "mesh field step next"),
    "lagoon_table_step": ("step", STEP),
    "lagoon_table_plain_step": ("plain_step", STEP),
    "lagoon_table_judge": ("judge", f"{MESH} masses fluxes outsides next claim releases"),
    "lagoon_table_cut": ("cut", f"{MESH} masses fluxes outsides releases labels {PARTS}"),
    "lagoon_table_total": ("total", FIELD),
    "lagoon_table_board": ("board", FIELD),
    "lagoon_table_page": ("page", f"{FIELD} page bytes"),
    "lagoon_table_public_page": ("public_page", f"{FIELD} page bytes marks"),
    "lagoon_table_public_board": ("public_board", f"{FIELD} marks"),
    "lagoon_read_mesh": ("read_mesh", "most_cells most_faces bytes volumes firsts seconds shares reaches"),
    "lagoon_read_field": ("read_field", "width cells bytes masses"),
    "lagoon_read_step": ("read_step", "width cells faces seconds bytes fluxes outsides releases"),
    "lagoon_write_mesh": ("write_mesh", f"width {MESH} bytes"),
    "lagoon_write_field": ("write_field", f"width {MESH} masses bytes"),
    "lagoon_write_step": ("write_step", f"width kind {MESH} fluxes outsides bytes releases"),
    "lagoon_add": ("add", "faces seconds moved totals"),
    "lagoon_charge": ("charge", "total bands ends prices remainder"),
    "lagoon_keep": ("keep", f"{FIELD} store name"),
    "lagoon_drop": ("drop", "cells store name"),
    "lagoon_give_back": ("give_back", f"{FIELD} store name"),
    "lagoon_share": ("face_share", "x1 y1 x2 y2 first_x first_y second_x second_y"),
}
LIMITS = {"most_cells": CELLS, "most_faces": FACES}     # from C no caller sets them
SHORT = ("page", "name")                                # numbers of 32 bits from C

# Causes that each call on records can meet, 1, 2, 13 and 24 with their places.
FIELD_CAUSES = "11 13/0 1/0 1/1 12 3 4 5 13/1 6"
STEP_CAUSES = f"{FIELD_CAUSES} 18 7 8 9 10"
RECORD_CAUSES = {
    "lagoon_plain_step": f"{STEP_CAUSES} 2/11",
    "lagoon_check": STEP_CAUSES,
    "lagoon_crossing": STEP_CAUSES,
    "lagoon_total": FIELD_CAUSES,
    "lagoon_board": FIELD_CAUSES,
    "lagoon_page": f"{FIELD_CAUSES} 2/12 14",
    "lagoon_public_page": f"{FIELD_CAUSES} 2/12 2/19 14 27",
    "lagoon_public_board": f"{FIELD_CAUSES} 2/19 27",
    "lagoon_judge": f"{STEP_CAUSES} 2/9 21 22 2/11",
    "lagoon_cut": f"{STEP_CAUSES} 2/15 23 24/0 24/1 2/11",
}


# ---------------------------------------------------------------- A case and its answer, as bytes

def entries(kind, table):
    if kind in "bB":
        return bytes(table)
    return array("q" if kind in "sS" else "Q", table).tobytes()


def stream(number, call, given):
    """A case as calls_driver reads it."""
    parts = [struct.pack("<I", number)]
    for name, kind in call.arguments:
        value = given[name]
        parts.append(struct.pack("<Q", value) if kind in "nuf" else struct.pack("<I", len(value)) + entries(kind, value))
    return b"".join(parts)


def told(call, answer, left):
    """What it then writes."""
    return struct.pack("<Q", answer) + b"".join(entries(kind, left[name]) for name, kind in call.arguments if kind in "TSB")


def with_found(room, answer, values):
    """The room for numbers after a call: as many as it holds, and the rest as it was; all of it after a refusal."""
    values = [] if answer else list(values)[:room]
    return values + [ENTRY] * (room - len(values))


def room_for(turn, many):
    """Room for so many numbers: enough, more, one less, or none."""
    return (many, many + 2, max(0, many - 1), 0)[turn % 4]


# ---------------------------------------------------------------- The calls of a script

def outcome(name, words):
    """Answer and numbers found, of a call of a script in words."""
    said, *tables = words.split(": ", 1)[1].rstrip("\n").split("; ")
    first = said.split()
    if name == "lagoon_step":
        return int(first[0]), []
    if first[0] == "refused":
        return int(first[1]) * PLACE + int(first[2]), []
    if name.endswith("board"):
        return 0, [int(word) for table in tables for word in table.split()[1:]]
    return 0, list(map(int, first[1:]))


def as_from_c(told):
    """The arguments of a call of a script where one from C can have no others: document 01's limits, and numbers of 32 bits."""
    return {**told, **{word: LIMITS[word] for word in LIMITS if word in told}, **{word: min(told[word], MOST_SHORT) for word in SHORT if word in told}}


def kind_from_c(told, turn):
    """The number of a step's kind, which says the width too: 4 or 8 with releases; else 3 or 7, or another number below 5 or from 5 on."""
    wide = told["width"] != script.TOLD_NARROW
    if told["kind"] == right_lagoon.OUTFALLS:
        return right_lagoon.of_width(right_lagoon.OUTFALLS, wide)
    return ((3, 3, 2, 0), (7, 7, 5, 6, GREATEST))[wide][turn % (4 + wide)]


def copied(arguments):
    return [value if isinstance(value, int) else value[:] for value in arguments]


# ---------------------------------------------------------------- The calls on records

class OnRecords:
    """What a call on records comes to: the numbers found, with its tables filled; or the reference's Refusal."""

    def __init__(self, lagoon):
        self.lagoon = lagoon

    def field(self, mesh, field):
        L = self.lagoon
        read, wide = L.accept_mesh(mesh), L.is_wide(L.kind_of(mesh))
        return read, L.accept_field(field, read, wide), wide

    def water(self, step, mesh, wide):
        """Kind, fluxes, outsides and releases of a step record that follows its layout."""
        return self.lagoon.read_step(step, len(mesh.volumes), len(mesh.firsts), mesh.seconds, self.lagoon.RUN_LIMITS, wide=wide)

    def put(self, record, room):
        room[:len(record)] = record

    def lagoon_check(self, mesh, field, step):
        read, masses, wide = self.field(mesh, field)
        self.lagoon.accept_step(step, read, masses, wide)
        return []

    def lagoon_crossing(self, mesh, field, step, found):
        read, masses, wide = self.field(mesh, field)
        result = self.lagoon.accept_step(step, read, masses, wide)
        return [result.in_mass, result.out_mass, result.released]

    def lagoon_plain_step(self, mesh, field, step, next):
        L = self.lagoon
        read, masses, wide = self.field(mesh, field)
        _, *water = self.water(step, read, wide)
        L.judge_salt_and_water(read, masses, *water)
        self.put(L.next_field(L.advance_plain(read, masses, *water).masses, len(next), wide), next)
        return []

    def lagoon_total(self, mesh, field, found):
        return [sum(self.field(mesh, field)[1])]

    def lagoon_board(self, mesh, field, found):
        read, masses, _ = self.field(mesh, field)
        return self.entries(self.lagoon.board(read.volumes, masses))

    def entries(self, board):
        return [len(board), *(part for entry in board for part in entry)] + [0] * (24 - 3 * len(board))

    def lagoon_page(self, mesh, field, page, bytes, found):
        read, masses, _ = self.field(mesh, field)
        printed = self.lagoon.page_on_tables(len(masses), read.volumes, masses, page, len(bytes))
        self.put(printed, bytes)
        return [len(printed)]

    def lagoon_public_page(self, mesh, field, page, bytes, marks, found):
        read, masses, _ = self.field(mesh, field)
        printed = self.lagoon.public_page_on_tables(len(masses), read.volumes, masses, page, len(bytes), marks)
        self.put(printed, bytes)
        return [len(printed)]

    def lagoon_public_board(self, mesh, field, marks, found):
        read, masses, _ = self.field(mesh, field)
        return self.entries(self.lagoon.public_board(len(masses), read.volumes, masses, marks))

    def tables(self, mesh, masses, water):
        """The lagoon as a call on tables is lent it, by position."""
        L = self.lagoon
        return {**dict(zip(L.CUT_TABLES, (*mesh, masses, *water[1:]), strict=True))}

    def lagoon_judge(self, mesh, field, step, claim, next, found):
        L = self.lagoon
        read, masses, wide = self.field(mesh, field)
        tables = {**self.tables(read, masses, self.water(step, read, wide)), L.NEXT: [0] * len(masses), L.MOVED: claim}
        found = L.judge_on_tables(len(masses), len(read.firsts), tables)
        self.put(L.next_field(tables[L.NEXT], len(next), wide), next)
        return list(found)

    def lagoon_cut(self, mesh, field, step, labels, mesh0, field0, step0, mesh1, field1, step1, found):
        L = self.lagoon
        cells = len(L.accept_mesh(mesh).volumes)
        L.judge_lengths({L.LABELS: len(labels)}, {L.LABELS: cells})
        L.judge_labels(labels[:cells])
        read, masses, wide = self.field(mesh, field)
        water = self.water(step, read, wide)
        tables = {**self.tables(read, masses, water), L.LABELS: labels}
        counted, labels = L.judge_cut(len(masses), len(read.firsts), tables, [tables, tables])
        made = [record for part in L.PARTS for record in self.records(L.part_of(*counted, labels, part), water[0], wide)]
        rooms = mesh0, field0, step0, mesh1, field1, step1
        if any(len(room) < len(record) for record, room in zip(made, rooms)):
            raise L.Refusal(2, L.RECORD)
        for record, room in zip(made, rooms):
            self.put(record, room)
        return list(map(len, made))

    def records(self, part, kind, wide):
        """Mesh, field and step record of a part, in the whole's width and kind."""
        L = self.lagoon
        mesh = L.Mesh(*(part[position] for position in (L.VOLUMES, L.FIRSTS, L.SECONDS, L.SHARES, L.REACHES)))
        releases = part[L.RELEASES] if L.STEP_BITS[kind].release else None
        return L.pack_mesh(mesh, wide), L.pack_field(part[L.MASSES], wide), L.pack_step(mesh, part[L.FLUXES], part[L.OUTSIDES], releases, wide)


class Lent:
    """What a call on records is lent besides the records: tables and room, as a rule enough."""

    def __init__(self, rng, case):
        self.rng, self.case = rng, case
        try:
            read = right_lagoon.read_mesh(case.mesh)
            self.volumes, self.faces = read.volumes, len(read.firsts)
        except right_lagoon.Refusal:
            self.volumes, self.faces = [1], 0
        self.number = self.which_page()

    def which_page(self):
        last = (len(self.volumes) - 1) // right_lagoon.PAGE_CELLS
        return self.rng.choice([0, last, self.rng.randint(0, last), last + 1, MOST_SHORT])

    def room(self, need):
        return bytearray([FILL]) * max(0, need + self.rng.choice([0, 0, 0, 0, 5, -1, -need]))

    def of(self, name):
        """An argument by its name."""
        rng, cells = self.rng, len(self.volumes)
        if name in ("mesh", "field", "step"):
            return getattr(self.case, name)
        if name == "next":
            return bytearray([FILL]) * self.case.room
        if name == "page":
            return self.number
        if name == "bytes":
            return self.room(right_lagoon.page_length(self.volumes, cells, self.number))
        if name == "labels":
            self.labels = some_labels(rng, cells, [])
            return self.labels
        if name == "marks":
            marks = [rng.choice([0, 0, 1]) for _ in range(cells - (rng.random() < 0.1))]
            return marks if rng.random() < 0.9 or not marks else [*marks[:-1], rng.choice([2, GREATEST])]
        if name == "claim":
            return self.claim()
        return bytearray([FILL]) * self.room_of_part(name)

    def room_of_part(self, name):
        """The length of room for a record of a part: more than it takes, as much, or, now and then, one less."""
        whole, kind = len(getattr(self.case, name[:-1])), self.rng.random()
        most = whole + 3 * self.faces                       # a part has no more cells than the whole, and 20 bits more for each face
        if kind < 0.5:
            return most + self.rng.choice([0, 0, 9])
        try:
            rooms = [bytearray(len(record) + 3 * self.faces) for record in self.case[1:4]] * 2
            taken = dict(zip(ROOMS, OnRecords(right_lagoon).lagoon_cut(*self.case[1:4], self.labels, *rooms, None)))
        except right_lagoon.Refusal:
            return max(0, most - self.rng.choice([0, 1, most]))
        return taken[name] - (kind > 0.95)

    def claim(self):
        """What one of the engine's schemes moves, as it is or with a mass changed."""
        L, rng, claim = right_lagoon, self.rng, [0] * self.faces
        try:
            mesh, masses, wide = OnRecords(L).field(self.case.mesh, self.case.field)
            _, *water = OnRecords(L).water(self.case.step, mesh, wide)
            L.judge_salt_and_water(mesh, masses, *water)
            claim = list(rng.choice([L.advance, L.advance_plain])(mesh, masses, *water).moved)
        except L.Refusal:
            pass
        if claim and rng.random() < 0.5:
            face = rng.randrange(len(claim))
            claim[face] = rng.choice([claim[face] + 1, -claim[face], L.MOST_CLAIMED + 1, claim[face] + rng.randint(-99, 99)])
        return claim[:-1] if claim and rng.random() < 0.1 else claim


# ---------------------------------------------------------------- Both sides

class Beside:
    """The declared calls through a driver, and what the reference, right or with a slip in it, makes of them."""

    def __init__(self, driver, lagoon):
        calls = header.declared()
        self.driver, self.lagoon, self.records = driver, lagoon, OnRecords(lagoon)
        self.numbers = {call.name: (number, call) for number, call in enumerate(calls)}
        self.of_a_script = {ON_TABLES[call.name][0]: call.name for call in calls if call.name in ON_TABLES}
        self.on_records = [call.name for call in calls if call.name in RECORD_CAUSES]

    def same(self, name, given, answer, left):
        number, call = self.numbers[name]
        expected = told(call, answer, left)
        return self.driver(stream(number, call, given), len(expected)) == expected

    def of_script(self, name, given, after, words, turn):
        """A call of a script, with its arguments before and after it and the words of its answer: the name from C, the answer, and whether
        the driver's is the same. None where the library has no such call."""
        if name not in self.of_a_script:
            return None
        called = self.of_a_script[name]
        names = ON_TABLES[called][1].split()
        told = dict(zip(names, given))
        fitting = as_from_c(told)
        if fitting != told:
            given, after = list(fitting.values()), copied(fitting.values())
            words = script.line(script.Engine(self.lagoon), name, after)
        answer, values = outcome(name, words)
        room = room_for(turn, len(values) or 1)
        before, left = dict(zip(names, given)), dict(zip(names, after))
        before["found"], left["found"] = [ENTRY] * room, with_found(room, answer, values)
        if "width" in told:
            before["width"] = told["width"]
        if "kind" in told:
            before["kind"] = kind_from_c(told, turn)
        return called, answer, self.same(called, before, answer, left)

    def of_records(self, case, seed, number, many):
        """Some of the calls on records, on the records of a case: of each its name, the answer, and whether the driver's is the same."""
        rng = random.Random(f"from C {seed} {number}")
        for name in rng.sample(self.on_records, min(many, len(self.on_records))):
            lent = Lent(rng, case)
            given = {argument.name: lent.of(argument.name) for argument in self.numbers[name][1].arguments if argument.name != "found"}
            left = {word: value if isinstance(value, (int, bytes)) else value[:] for word, value in given.items()}
            asks = [argument for argument in self.numbers[name][1].arguments if argument.name == "found"]
            try:
                answer, values = 0, getattr(self.records, name)(**left, **{"found": None for _ in asks})
            except self.lagoon.Refusal as refusal:
                answer, values = refusal.cause * PLACE + refusal.place, []
            room = room_for(number, len(values) or 1)
            given["found"], left["found"] = [ENTRY] * room, with_found(room, answer, values)
            yield name, answer, self.same(name, given, answer, left)
