"""Units as people say them: tonnes and kilograms, grams or kilograms in a cubic metre, from the words of a session's text."""

import re
from collections import namedtuple
from fractions import Fraction

GRAMS = {"mg": Fraction(1, 1000), "g": 1, "kg": 1000, "t": 10 ** 6}
CUBIC_METRES = {"l": Fraction(1, 1000), "m3": 1, "m³": 1, "m^3": 1, "km3": 10 ** 9, "km³": 10 ** 9}
SECONDS = {"s": 1, "min": 60, "h": 3600, "hour": 3600, "hours": 3600, "d": 86400, "day": 86400, "days": 86400}
LARGE = 10                      # a larger unit is taken from so many of it on
MOST_NUMBER = 20                # letters of a number in a unit

Scale = namedtuple("Scale", "factor words")     # a figure times the factor is in the unit of these words


def size_of(words, sizes):
    """How much a unit is, as 500 g or m3, in the least of these sizes; None where it is another."""
    found = re.fullmatch(rf"\s*([0-9][0-9.]{{0,{MOST_NUMBER}}})?\s*(\S+)\s*", words or "")
    if not found or found[2] not in sizes or (found[1] or "").count(".") > 1:
        return None
    return Fraction(found[1] or 1) * sizes[found[2]] or None


def masses(units, greatest):
    """How masses up to the greatest are shown."""
    grams, words = size_of(units.get("mass"), GRAMS), units.get("mass", "")
    if grams is None:
        return Scale(Fraction(1), "mass units" if not words else f"units of {words}" if words[:1].isdigit() else words)
    return fitting(grams, greatest, (("t", 10 ** 6), ("kg", 1000)), "g")


def concentrations(units, greatest):
    """How q up to the greatest is shown."""
    mass, volume = units.get("mass"), units.get("volume")
    grams, metres = size_of(mass, GRAMS), size_of(volume, CUBIC_METRES)
    if grams is None or metres is None:
        return Scale(Fraction(1), per_unit(mass, volume))
    return fitting(grams / metres, greatest, (("kg/m³", 1000),), "g/m³")


def fitting(size, greatest, larger, least):
    for words, many in larger:
        if greatest * size >= LARGE * many:
            return Scale(size / many, words)
    return Scale(Fraction(size), least)


def per_unit(mass, volume):
    """The unit of a concentration in words: salt per cup, also where masses are in units of 500 salt and volumes in units of 500 cup."""
    if not mass or not volume:
        return "mass units per volume unit"
    (size, _, gram), (other, _, metre) = mass.partition(" "), volume.partition(" ")
    return f"{gram} per {metre}" if gram and metre and size == other else f"{mass} per {volume}"


def figure(value):
    """A figure of an axis, whole or with as many decimals as it needs."""
    value = Fraction(value)
    if value.denominator == 1:
        return f"{value.numerator:,}"
    return f"{float(value):,.12f}".rstrip("0").rstrip(".")


def rounded(value):
    """A figure to four digits at least, for a reader beside the exact one."""
    value = float(value)
    digits = max(0, 4 - len(str(int(abs(value)))))
    return f"{value:,.{digits}f}"


def ticks(low, high, about, whole=False):
    """Round figures from at or below low to at or above high, some `about` of them; whole ones where asked."""
    low, high = Fraction(low), Fraction(high)
    power = 0 if whole else -12
    size = Fraction(10) ** power
    factors = (2, Fraction(5, 2), 2)            # 1, 2, 5, 10, ..
    turn = 0
    while (high - low) / size > about:
        size *= factors[turn % 3]
        turn += 1
    first, last = low // size, -(-high // size)
    return [size * number for number in range(int(first), int(last) + 1)]
