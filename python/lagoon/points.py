"""The share of a face from survey points, document 02's S-7, in Python's 64-bit floats: each operation is rounded once."""

import math
import struct
from fractions import Fraction

from .causes import MOST_SHARE, Refusal

# Two ends of the face, then the centres of its first and second cell.
COLUMNS = ("x1", "y1", "x2", "y2", "first x", "first y", "second x", "second y")
MOST_COORDINATE = 1_000_000.0


def share(coordinates):
    """The share, or what refuses it."""
    for place, value in enumerate(coordinates):
        if not (math.isfinite(value) and abs(value) <= MOST_COORDINATE):
            return Refusal(19, "", place, f"{COLUMNS[place]} {value!r} is not within {MOST_COORDINATE:,.0f}")
    x1, y1, x2, y2, first_x, first_y, second_x, second_y = coordinates
    normal_x, normal_y = y2 - y1, x1 - x2
    middle_x, middle_y = (x1 + x2) * 0.5, (y1 + y2) * 0.5
    a = abs(normal_x * (middle_x - first_x) + normal_y * (middle_y - first_y))
    b = abs(normal_x * (second_x - middle_x) + normal_y * (second_y - middle_y))
    if a + b == 0:
        return Refusal(20, "", 0, "both centres lie on the line of the face, or its ends coincide")
    found = math.floor(256 * Fraction(a / (a + b)))
    if not 1 <= found <= MOST_SHARE:
        return Refusal(20, "", 0, f"the face lies at {a / (a + b):g} of the way between the centres")
    return found


def pattern(value):
    """The 64 bits of a float, as a script spells it; of what is no number always the same."""
    return 0x7FF8 << 48 if value != value else struct.unpack("<Q", struct.pack("<d", value))[0]


def distance(coordinates):
    """From centre to centre."""
    return math.hypot(coordinates[6] - coordinates[4], coordinates[7] - coordinates[5])
