"""The calls of the library's shared object, asked as the program `calls` is (calls.py), so that either serves whoever asks. What a library
does not export is asked of the program."""

import ctypes
from array import array

from .calls import Calls

MESH = "cells faces volumes firsts seconds shares reaches"
STEP = f"{MESH} masses fluxes outsides next moved work releases"
OF_A_PART = "volumes firsts seconds shares reaches masses fluxes outsides releases".split()
PARTS = " ".join(f"{column}{part}" for part in (0, 1) for column in OF_A_PART)
ROOMS = "mesh0 field0 step0 mesh1 field1 step1"
FIELD = "cells volumes masses"

# Of each call its name in the library, its arguments in their order, the tables that it fills, and how many numbers it finds.
EXPORTED = {
    "step": ("lagoon_table_step", STEP, "next moved", 3),
    "plain_step": ("lagoon_table_plain_step", STEP, "next moved", 3),
    "judge": ("lagoon_table_judge", f"{MESH} masses fluxes outsides next claim releases", "next", 3),
    "cut": ("lagoon_table_cut", f"{MESH} masses fluxes outsides releases labels {PARTS}", PARTS, 4),
    "cut_records": ("lagoon_cut", f"mesh field step labels {ROOMS}", ROOMS, 6),
    "read_step": ("lagoon_read_step", "width cells faces seconds bytes fluxes outsides releases", "fluxes outsides releases", 1),
    "add": ("lagoon_add", "faces seconds moved totals", "totals", 0),
    "charge": ("lagoon_charge", "total bands ends prices remainder", "", 2),
    "face_share": ("lagoon_share", "x1 y1 x2 y2 first_x first_y second_x second_y", "", 1),
    "page": ("lagoon_table_page", f"{FIELD} page bytes", "bytes", 1),
    "board": ("lagoon_table_board", FIELD, "", 25),
    "public_page": ("lagoon_table_public_page", f"{FIELD} page bytes marks", "bytes", 1),
    "public_board": ("lagoon_table_public_board", f"{FIELD} marks", "", 25),
}
COUNTS = {"width", "cells", "faces", "page", "total", "bands", "remainder"}
SHORT = {"page": 0xffffffff}                            # a count of 32 bits, and the greatest: no page has it
FLOATS = set("x1 y1 x2 y2 first_x first_y second_x second_y".split())
BYTES = {"bytes", "mesh", "field", "step", *ROOMS.split()}
SIGNED = {"fluxes", "moved", "claim", "fluxes0", "fluxes1"}
SOMEWHERE = array("Q", [0])                             # an empty table lies somewhere too: no pointer is null


class Shared:
    """The library, each call with its types."""

    def __init__(self, library):
        self.calls, self.made = None, {}
        for name, (exported, words, _, found) in EXPORTED.items():
            call = getattr(library, exported, None)
            if call:
                kinds = [kind for word in words.split() for kind in kinds_of(word)]
                call.restype, call.argtypes = ctypes.c_uint64, kinds + [ctypes.c_void_p, ctypes.c_size_t] * bool(found)
                self.made[name] = call

    def lend(self, values):
        """A table as the library is lent it, made once for many calls."""
        return tabled(values)

    def ask(self, name, *arguments):
        """The words after the call's name, and the tables that it left by their names."""
        if name not in self.made:
            self.calls = self.calls or Calls()
            return self.calls.ask(name, *arguments)
        _, words, filled, found = EXPORTED[name]
        given = [lent(word, value, word in filled.split()) for word, value in zip(words.split(), arguments)]
        numbers = array("Q", bytes(8 * found))
        parts = [part for value in given for part in passed(value)] + (list(passed(numbers)) if found else [])
        answer = self.made[name](*parts)
        if answer:
            return ["refused", str(answer >> 32), str(answer & 0xffffffff)], {}
        left = {word: value.tolist() for word, value in zip(words.split(), given) if word in filled.split()}
        if name.endswith("board"):
            return ["accepted"], {"used": [numbers[0]], "entries": numbers[1:].tolist()}
        return ["accepted", *map(str, numbers)], left

    def finish(self):
        """Ends the program, where one was asked."""
        if self.calls:
            self.calls.finish()
            self.calls = None


def kinds_of(word):
    """The types of an argument: a number, or a place in memory and a length."""
    if word in FLOATS:
        return [ctypes.c_double]
    if word in SHORT:
        return [ctypes.c_uint32]
    return [ctypes.c_uint64] if word in COUNTS else [ctypes.c_void_p, ctypes.c_size_t]


def tabled(values, kind="Q"):
    if isinstance(values, (array, memoryview)):
        return values
    try:
        return array(kind, values)
    except OverflowError:
        return array("q", values)


def lent(word, value, filled):
    """An argument as the library takes it; a table that is filled is a copy, since whoever lends it may lend it again."""
    if word in COUNTS:
        return min(value, SHORT.get(word, value))
    if word in FLOATS:
        return ctypes.c_double.from_buffer_copy(value.to_bytes(8, "little")).value
    if word in BYTES:
        return array("B", value)
    table = memoryview(tabled(value))
    return array("q" if word in SIGNED else "Q", table.tobytes()) if filled or table.readonly else table


def passed(value):
    """What is put on the stack for an argument."""
    if isinstance(value, (int, float)):
        return (value,)
    return ctypes.addressof(ctypes.c_char.from_buffer(value if len(value) else SOMEWHERE)), len(value)
