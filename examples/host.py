#!/usr/bin/env python3
"""The call from Python: the channel session of document 01, and a third step of kind 4, which releases 20,000 into the second
cell; then a step in the wide records of kinds 5 to 7, whose middle cell has volume and mass too large for kinds 1 to 4.
Stepped through target/lib/liblagoon.so (`make lib`).

    examples/host.py [LIBRARY]
"""
import ctypes
import sys
from pathlib import Path

MESH = bytes.fromhex("1003 0020 0640 6406 4000 fff0 0000 0000 0180 0640 0100 2800 6400 2fff 0000 00")
FIELD = bytes.fromhex("2003 000186a0 00000000 00000000")
STEP = bytes.fromhex("3002 0000 8190 0c80 6403 2003 e800 0000")
OUTFALL = bytes.fromhex("4002 0000 8190 0c80 6403 2003 e800 0000 0000 0000 0004 e200 0000 0000")
WIDE_MESH = bytes.fromhex("5003 0020 9c40 ffff 9c40 000f ff00 0000 0000 0180 ffff 0010 0280 ffff 002f ff00 0000")
WIDE_FIELD = bytes.fromhex("6003 0053724e00 0f4231bdbe 09502f9000")
WIDE_STEP = bytes.fromhex("7002 0000 a710 1388 09c4 04e2 0088 b800 0000")

LIBRARY = Path(__file__).resolve().parent.parent / "target" / "lib" / "liblagoon.so"
library = ctypes.CDLL(sys.argv[1] if len(sys.argv) > 1 else str(LIBRARY))
library.lagoon_step.restype = ctypes.c_uint64
library.lagoon_step.argtypes = [ctypes.c_char_p, ctypes.c_size_t] * 4


def step(mesh, field, water):
    """The next field record, or cause and place of the refusal."""
    room = ctypes.create_string_buffer(len(field))
    answer = library.lagoon_step(mesh, len(mesh), field, len(field), water, len(water), room, len(room))
    return room.raw if answer == 0 else divmod(answer, 1 << 32)


def masses(field):
    size = {2: 4, 6: 5}[field[0] >> 4]      # bytes of a mass by the record's kind
    return [int.from_bytes(field[at:at + size], "big") for at in range(2, len(field), size)]


field = FIELD
print("step 0:", *masses(field))
for number, water in enumerate((STEP, STEP, OUTFALL), 1):
    field = step(MESH, field, water)
    print(f"step {number}:", *masses(field))
print("a field record cut short: cause {}, place {}".format(*step(MESH, field[:-1], STEP)))
print("wide, step 0:", *masses(WIDE_FIELD))
print("wide, step 1:", *masses(step(WIDE_MESH, WIDE_FIELD, WIDE_STEP)))
print("a narrow field after a wide mesh: cause {}, place {}".format(*step(WIDE_MESH, FIELD, WIDE_STEP)))
