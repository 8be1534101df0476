#!/usr/bin/env python3
"""A script of calls, answered by the reference: what the program calls prints.

docs/CALLS.md has the form of a script. Numbers stand in CALLS with the names and the kinds of their arguments:
n a number, t a table, s a table of signed numbers, b bytes, p and q such tables of a part of a lagoon.
"""

import argparse
import bisect
import re
import struct
import sys

import lagoon as right_lagoon

CALLS = {
    1: ("counts_within", "nnnn"),
    2: ("check_mesh", "nnttttt"),
    3: ("check_field", "nntttttt"),
    4: ("check_cells", "ntt"),
    5: ("check_step", "nnttttttsttstt"),
    6: ("total", "ntt"),
    7: ("step", "nnttttttsttstt"),
    8: ("mesh_length", "nnb"),
    9: ("field_length", "nnb"),
    10: ("step_length", "nnntb"),
    11: ("read_mesh", "nnbttttt"),
    12: ("read_field", "nnbt"),
    13: ("read_step", "nnntbstt"),
    14: ("write_mesh", "nnntttttb"),
    15: ("write_field", "nnnttttttb"),
    16: ("write_step", "nnnntttttstbt"),
    17: ("number_at", "bnn"),
    18: ("board", "ntt"),
    19: ("lagoon_step", "bbbb"),
    20: ("take_mesh", "bttttt"),
    21: ("take_field", "nnbtt"),
    22: ("take_step", "nnnbtttttt"),
    23: ("page", "nttnb"),
    24: ("keep", "ntttn"),
    25: ("drop", "ntn"),
    26: ("give_back", "ntttn"),
    27: ("middle_stage", "nnnnnnnn"),
    28: ("face_share", "nnnnnnnn"),
    29: ("plain_step", "nnttttttsttstt"),
    30: ("judge", "nnttttttsttst"),
    31: ("cut", "nnttttttsttt" + 2 * "ppppppqpp"),
    32: ("add", "ntst"),
    33: ("charge", "nnttn"),
    34: ("public_page", "nttnbt"),
    35: ("public_board", "nttt"),
}
NUMBER_OF = {name: number for number, (name, _) in CALLS.items()}

MOST_NUMBERS = 120_000          # a call has fewer, its own number not counted
ROOM = {"t": 24_576, "s": 24_576, "b": 65_536, "p": 8_192, "q": 8_192}
WORD = 1 << 64
TOLD_NARROW, TOLD_WIDE = 0, 1   # the width that a call is told (document 02, S-10); any other number is wide too
SKIPPED = re.compile(rb"(?:[ \t\r\n]+|#[^\n]*)*")
SPELLED = re.compile(rb"(-?)([0-9]*)")
ENDED = re.compile(rb"[ \t\r\n#]|\Z")
WORDS = re.compile(rb"#[^\n]*|[^ \t\r\n#]+")
SIGNED = "sq"


class Fault(Exception):
    """What is wrong with a script, and the byte at which it is seen."""

    def __init__(self, reason, at):
        super().__init__(reason, at)
        self.reason, self.at = reason, at


# ---------------------------------------------------------------- Reading a script

class Reader:
    """A script's text and the byte that reading has come to.

    A call without fault is read by its words, many numbers at once; any other number by number, so that a fault has its place.
    """

    def __init__(self, text):
        self.text, self.at = text, 0
        found = [match for match in WORDS.finditer(text) if text[match.start()] != ord("#")]
        self.words, self.ends = [match.group() for match in found], [match.end() for match in found]
        self.next = 0                   # the word that follows

    def take(self, many, kind="n"):
        """So many words as numbers of a kind; ValueError where one is none or too large for it."""
        words = self.words[self.next:self.next + many]
        letters = b"".join(words)
        if len(words) < many or words and not (letters.replace(b"-", b"") if kind in SIGNED else letters).isdigit():
            raise ValueError
        values = list(map(int, words))
        least, most = (-WORD // 2, WORD // 2 - 1) if kind in SIGNED else (0, 255 if kind == "b" else WORD - 1)
        if values and not least <= min(values) <= max(values) <= most:
            raise ValueError
        self.next += many
        return values

    def plain_call(self):
        """The next call, where it is one; ValueError where it has a fault, or the script is at its end."""
        start = self.next
        [number] = self.take(1)
        if number not in CALLS:
            raise ValueError
        name, kinds = CALLS[number]
        values = []
        for kind in kinds:
            [value] = self.take(1)
            if kind != "n":
                if value > ROOM[kind]:
                    raise ValueError
                value = self.take(value, kind)
            values.append(bytearray(value) if kind == "b" else value)
        if self.next - start > MOST_NUMBERS:
            raise ValueError
        return name, values

    def number(self):
        """The next number as (minus, size), None at the end."""
        self.at = SKIPPED.match(self.text, self.at).end()
        if self.at == len(self.text):
            return None
        spelled = SPELLED.match(self.text, self.at)
        minus, digits = spelled.groups()
        size = int(digits or b"0")
        if size >= WORD:
            raise Fault("too large", spelled.start(2) + self.too_many(digits))
        self.at = spelled.end()
        if not digits or not ENDED.match(self.text, self.at):
            raise Fault("not a number", self.at)
        return minus == b"-", size

    def too_many(self, digits):
        """The first digit with which a number is too large."""
        return next(i for i in range(len(digits)) if int(digits[:i + 1]) >= WORD)

    def within_call(self, count):
        if count == MOST_NUMBERS:
            raise Fault("a call too long", self.at)
        found = self.number()
        if found is None:
            raise Fault("the input ends within a call", self.at)
        return found

    def unsigned(self, found, most=WORD - 1, reason="too large"):
        minus, size = found
        if minus:
            raise Fault("a minus where none may stand", self.at)
        if size > most:
            raise Fault(reason, self.at)
        return size

    def entry(self, kind, found):
        if kind in SIGNED:
            value = -found[1] if found[0] else found[1]
            if not -WORD // 2 <= value < WORD // 2:
                raise Fault("too large", self.at)
            return value
        return self.unsigned(found, 255 if kind == "b" else WORD - 1)

    def call(self):
        """The next call as (name, arguments), None at the end."""
        try:
            found = self.plain_call()
            self.at = self.ends[self.next - 1]
        except ValueError:
            found = self.call_by_numbers()
            self.next = bisect.bisect_right(self.ends, self.at)
        return found

    def call_by_numbers(self):
        found = self.number()
        if found is None:
            return None
        number = self.unsigned(found)
        if number not in CALLS:
            raise Fault("no such call", self.at)
        name, kinds = CALLS[number]
        values, count = [], 0
        for kind in kinds:
            value = self.unsigned(self.within_call(count), ROOM.get(kind, WORD - 1),
                                  "too large" if kind == "n" else "a table too long")
            count += 1
            if kind != "n":
                entries = []
                for _ in range(value):
                    entries.append(self.entry(kind, self.within_call(count)))
                    count += 1
                value = bytearray(entries) if kind == "b" else entries
            values.append(value)
        if count == MOST_NUMBERS:
            raise Fault("a call too long", self.at)
        return name, values


# ---------------------------------------------------------------- The calls

class Engine:
    """Each call by its name: gives its values and changes the tables that it fills, or raises the reference's Refusal."""

    def __init__(self, lagoon):
        self.lagoon = lagoon

    def lengths(self, tables):
        return {position: len(table) for position, table in tables.items()}

    def mesh_of(self, cells, faces, tables):
        """Causes 1 to 5, with cause 2 for all the tables that are lent; the counted part of the mesh."""
        L = self.lagoon
        L.judge_counts(cells, faces, L.LIBRARY_LIMITS)
        needs = {**L.mesh_needs(cells, faces), L.MASSES: cells}
        L.judge_lengths(self.lengths(tables), {position: needs[position] for position in tables})
        mesh = L.counted_mesh(cells, faces, tables)
        L.judge_mesh(mesh)
        return mesh

    def counts_within(self, most_cells, most_faces, cells, faces):
        self.lagoon.judge_counts(cells, faces, (most_cells, most_faces))
        return ()

    def check_mesh(self, cells, faces, *tables):
        self.mesh_of(cells, faces, dict(enumerate(tables)))
        return ()

    def check_field(self, cells, faces, *tables):
        mesh = self.mesh_of(cells, faces, dict(enumerate(tables)))
        self.lagoon.judge_field(mesh, tables[self.lagoon.MASSES][:cells])
        return ()

    def check_cells(self, cells, volumes, masses):
        self.lagoon.board_on_tables(cells, volumes, masses)
        return ()

    def total(self, cells, volumes, masses):
        self.check_cells(cells, volumes, masses)
        return (sum(masses[:cells]),)

    def board(self, cells, volumes, masses):
        return self.lagoon.board_on_tables(cells, volumes, masses)

    def check_step(self, cells, faces, *tables):
        self.step(cells, faces, *map(list, tables))
        return ()

    def step(self, cells, faces, *tables):
        return self.lagoon.step_on_tables(cells, faces, dict(zip(self.lagoon.STEP_TABLES, tables, strict=True)))

    def plain_step(self, cells, faces, *tables):
        return self.lagoon.plain_step_on_tables(cells, faces, dict(zip(self.lagoon.STEP_TABLES, tables, strict=True)))

    def judge(self, cells, faces, *tables):
        return self.lagoon.judge_on_tables(cells, faces, dict(zip(self.lagoon.CLAIM_TABLES, tables, strict=True)))

    def cut(self, cells, faces, *lent):
        L = self.lagoon
        many = len(L.CUT_TABLES)
        whole, first, second = lent[:many + 1], lent[many + 1:2 * many + 1], lent[2 * many + 1:]
        tables = dict(zip((*L.CUT_TABLES, L.LABELS), whole, strict=True))
        return L.cut_on_tables(cells, faces, tables, [dict(zip(L.CUT_TABLES, part, strict=True)) for part in (first, second)])

    def limits(self, cells, faces):
        """Limits that a caller sets do not widen document 01's."""
        most = self.lagoon.LIBRARY_LIMITS
        return min(cells, most[0]), min(faces, most[1])

    def mesh_length(self, most_cells, most_faces, record):
        L = self.lagoon
        cells, faces, wide = L.mesh_head(record, self.limits(most_cells, most_faces))
        return L.mesh_length(cells, faces, wide), int(wide)

    def field_length(self, width, cells, record):
        L = self.lagoon
        L.field_head(record, cells, L.LIBRARY_LIMITS, width != TOLD_NARROW)
        return (L.field_length(cells, width != TOLD_NARROW),)

    def step_length(self, width, cells, faces, seconds, record):
        L = self.lagoon
        kind = L.step_head(record, cells, faces, seconds, L.LIBRARY_LIMITS, width != TOLD_NARROW)
        return (L.step_length(kind, cells, faces, seconds),)

    def read_mesh(self, most_cells, most_faces, record, *tables):
        mesh = self.lagoon.read_mesh(record, self.limits(most_cells, most_faces), self.lengths(dict(enumerate(tables))))
        return self.fill_mesh(mesh, tables, record)

    def read_field(self, width, cells, record, masses):
        L = self.lagoon
        masses[:cells] = L.read_field(record, cells, lengths={L.MASSES: len(masses)}, wide=width != TOLD_NARROW)
        return ()

    def read_step(self, width, cells, faces, seconds, record, fluxes, outsides, releases):
        L = self.lagoon
        lent = {L.FLUXES: len(fluxes), L.OUTSIDES: len(outsides), L.RELEASES: len(releases)}
        read = L.read_step(record, cells, faces, seconds, lengths=lent, wide=width != TOLD_NARROW)
        fluxes[:faces], outsides[:faces], releases[:cells] = read.fluxes, read.outsides, read.releases
        return (read.kind,)

    def put(self, record, room):
        room[:len(record)] = record
        return (len(record),)

    def write_mesh(self, width, cells, faces, *lent):
        *tables, room = lent
        return self.put(self.lagoon.write_mesh(cells, faces, dict(enumerate(tables)), len(room), width != TOLD_NARROW), room)

    def write_field(self, width, cells, faces, *lent):
        *tables, room = lent
        return self.put(self.lagoon.write_field(cells, faces, dict(enumerate(tables)), len(room), width != TOLD_NARROW), room)

    def write_step(self, width, kind, cells, faces, *lent):
        L = self.lagoon
        *mesh, fluxes, outsides, room, releases = lent
        tables = {**dict(enumerate(mesh)), L.FLUXES: fluxes, L.OUTSIDES: outsides, L.RELEASES: releases}
        told = L.OUTFALLS if kind == L.OUTFALLS else L.WATER
        return self.put(L.write_step(told, cells, faces, tables, len(room), width != TOLD_NARROW), room)

    def number_at(self, record, bit, width):
        spelled = self.lagoon.number_at(record, bit, width)
        return None if spelled is None else (spelled,)

    def lagoon_step(self, mesh, field, step, room):
        number, record = self.lagoon.host_step(bytes(mesh), bytes(field), bytes(step), len(room))
        if record is not None:
            self.put(record, room)
        return number

    def fill_mesh(self, mesh, tables, record):
        for table, column in zip(tables, mesh):
            table[:len(column)] = column
        return len(mesh.volumes), len(mesh.firsts), int(self.lagoon.is_wide(self.lagoon.kind_of(record)))

    # The calls that take records read them into tables of the run's limits.

    def take_mesh(self, record, *tables):
        L = self.lagoon
        mesh = L.read_mesh(record, L.RUN_LIMITS)
        L.judge_lengths(self.lengths(dict(enumerate(tables))), L.mesh_needs(len(mesh.volumes), len(mesh.firsts)))
        L.judge_mesh(mesh)
        return self.fill_mesh(mesh, tables, record)

    def take_field(self, width, cells, record, volumes, masses):
        L = self.lagoon
        read = L.read_field(record, cells, lengths={L.MASSES: L.RUN_LIMITS[0]}, wide=width != TOLD_NARROW)
        L.judge_lengths({L.MASSES: len(masses)}, {L.MASSES: cells})
        total = self.total(cells, volumes, read)
        masses[:cells] = read
        return total

    def take_step(self, width, cells, faces, record, *lent):
        L = self.lagoon
        *mesh, masses = lent
        most_cells, most_faces = L.RUN_LIMITS
        room = {L.FLUXES: most_faces, L.OUTSIDES: most_faces, L.RELEASES: most_cells}
        _, fluxes, outsides, releases = L.read_step(record, cells, faces, mesh[L.SECONDS], lengths=room, wide=width != TOLD_NARROW)
        following, moved, work = [0] * most_cells, [0] * most_faces, [0] * (4 * most_cells + most_faces)
        entered, gone, released = self.step(cells, faces, *mesh, masses, fluxes, outsides, following, moved, work, releases)
        masses[:cells] = following[:cells]
        return entered, gone, sum(masses[:cells]), released

    def page(self, cells, volumes, masses, page, room):
        return self.put(self.lagoon.page_on_tables(cells, volumes, masses, page, len(room)), room)

    def keep(self, cells, volumes, masses, store, name):
        self.lagoon.store_keep(cells, volumes, masses, store, name)
        return ()

    def drop(self, cells, store, name):
        self.lagoon.store_drop(cells, store, name)
        return ()

    def give_back(self, cells, volumes, masses, store, name):
        self.lagoon.store_return(cells, volumes, masses, store, name)
        return ()

    def middle_stage(self, *patterns):
        return self.lagoon.middle_stage(list(map(float_of, patterns)))

    def face_share(self, *patterns):
        return (self.lagoon.face_share(list(map(float_of, patterns))),)

    def add(self, faces, seconds, moved, totals):
        self.lagoon.add_moved(faces, seconds, moved, totals)
        return ()

    def public_page(self, cells, volumes, masses, page, room, marks):
        return self.put(self.lagoon.public_page_on_tables(cells, volumes, masses, page, len(room), marks), room)

    def public_board(self, cells, volumes, masses, marks):
        return self.lagoon.public_board(cells, volumes, masses, marks)

    def charge(self, total, bands, ends, prices, remainder):
        return self.lagoon.charge(total, bands, ends, prices, remainder)


# ---------------------------------------------------------------- What is printed

# The tables that a call may change, by their place among its arguments.
CHANGED = {
    "step": {10: "next", 11: "moved", 12: "work"},
    "plain_step": {10: "next", 11: "moved", 12: "work"},
    "judge": {10: "next"},
    "cut": {12 + 9 * part + place: f"{name}{part}" for part in (0, 1) for place, name in enumerate(
        ("volumes", "firsts", "seconds", "shares", "reaches", "masses", "fluxes", "outsides", "releases"))},
    "read_mesh": {3: "volumes", 4: "firsts", 5: "seconds", 6: "shares", 7: "reaches"},
    "read_field": {3: "masses"},
    "read_step": {5: "fluxes", 6: "outsides", 7: "releases"},
    "write_mesh": {8: "bytes"},
    "write_field": {9: "bytes"},
    "write_step": {11: "bytes"},
    "lagoon_step": {3: "next"},
    "take_mesh": {1: "volumes", 2: "firsts", 3: "seconds", 4: "shares", 5: "reaches"},
    "take_field": {4: "masses"},
    "take_step": {9: "masses"},
    "page": {4: "bytes"},
    "keep": {3: "store"},
    "drop": {1: "store"},
    "give_back": {2: "masses"},
    "add": {3: "totals"},
    "public_page": {4: "bytes"},
}


def spaced(values):
    return "".join(f" {value}" for value in values)


def float_of(pattern):
    """The 64-bit float that a pattern stands for."""
    return struct.unpack("<d", struct.pack("<Q", pattern))[0]


def pattern(value):
    """A float's pattern; every not-a-number is the same word."""
    return "nan" if value != value else str(struct.unpack("<Q", struct.pack("<d", value))[0])


def staged(kind, *values):
    """The middle stage in words: accepted with the ratio; bad with place and value; or nothing."""
    if kind == "ratio":
        return " accepted " + pattern(values[0])
    return f" bad {values[0]} {pattern(values[1])}" if kind == "bad" else " nothing"


def answered(engine, name, arguments):
    """The answer of one call in words."""
    try:
        values = getattr(engine, name)(*arguments)
    except engine.lagoon.Refusal as refusal:
        words = f" refused {refusal.cause} {refusal.place}"
        return words + "; used 0; entries" + " 0" * 24 if name in ("board", "public_board") else words
    if name == "lagoon_step":
        return f" {values}"
    if name == "middle_stage":
        return staged(*values)
    if values is None:
        return " past"
    if name == "board":
        used = min(8, arguments[0])
        return f" accepted; used {used}; entries" + spaced(part for entry in values for part in entry)
    if name == "public_board":
        entries = values + [(0, 0, 0)] * (8 - len(values))
        return f" accepted; used {len(values)}; entries" + spaced(part for entry in entries for part in entry)
    return " accepted" + spaced(values)


def line(engine, name, arguments):
    words = f"{name}:" + answered(engine, name, arguments)
    for place, title in CHANGED.get(name, {}).items():
        words += f"; {title}" + spaced(arguments[place])
    return words + "\n"


def answer(text, lagoon=right_lagoon, beside=None):
    """What calls prints of a script; beside, where given, gets each call: name, arguments before and after it, and the line."""
    reader, engine, lines = Reader(text), Engine(lagoon), []
    try:
        while call := reader.call():
            before = beside and [value if isinstance(value, int) else value[:] for value in call[1]]
            lines.append(line(engine, *call))
            if beside:
                beside(call[0], before, call[1], lines[-1])
    except Fault as fault:
        number = 1 + text.count(b"\n", 0, fault.at)
        lines.append(f"bad input: line {number}, byte {fault.at}: {fault.reason}\n")
    return "".join(lines)


# ---------------------------------------------------------------- Writing a script

def spell(name, *arguments):
    """A call as a script has it."""
    words = [str(NUMBER_OF[name])]
    for kind, value in zip(CALLS[NUMBER_OF[name]][1], arguments, strict=True):
        words.append(str(value) if kind == "n" else " ".join(map(str, [len(value), *value])))
    return "  ".join(words) + "\n"


if __name__ == "__main__":
    argparse.ArgumentParser(description=__doc__ + "\nReads a script from standard input and prints the answers.",
                            formatter_class=argparse.RawDescriptionHelpFormatter).parse_args()
    sys.stdout.write(answer(sys.stdin.buffer.read()))
