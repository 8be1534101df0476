"""What the run refuses, in words: the causes of documents 01 and 02 for values that have been read. Shares nothing with the engine."""

from collections import namedtuple

from . import layout
from .layout import RIM

TOP = 1_000_000                             # greatest concentration
LIMITS = 1023, 2046                         # cells and faces of the run and of the C call
MOST_VOLUME = MOST_REACH = MOST_AT_RIM = 65_535     # of V, K and the size of U at the rim (S-10)
MOST_SHARE = 255

CELL, FACE = "cell", "face"

# Each cause in a few words.
IN_WORDS = {1: "too many cells or faces, or no cell", 3: "a volume out of its range", 4: "a face's ends",
            5: "a share or reach out of its range", 6: "too high a concentration", 7: "an outside value out of its range or place",
            8: "a flux too large for its face", 9: "a cell whose inflow and outflow differ", 10: "a cell's outflow above its volume",
            11: "a record of the wrong length", 12: "a wrong bit in a record", 13: "a record of the wrong kind or count",
            18: "too high a concentration with a release", 21: "a claimed mass too large, at a still face, or not what the rim's water carries",
            22: "a cell out of its bounds by a claim", 25: "a tariff or a remainder out of its range", 26: "a period's total past the last band",
            27: "a mark of a cell that is neither 0 nor 1"}

Refusal = namedtuple("Refusal", "cause thing place words")      # thing: what the place counts, or "" where the words say all


def told(refusal, labels=None):
    """cell 0: 300 enters, 299 leaves (cause 9)"""
    where = ""
    if refusal.thing:
        name = labels.of(refusal.thing, refusal.place) if labels else f"{refusal.thing} {refusal.place}"
        where = f"{name}: "
    return f"{where}{refusal.words} (cause {refusal.cause})"


def damaged(damage):
    """The refusal of a record that does not follow its layout."""
    return Refusal(damage.cause, "", damage.place, damage.words)


# ---------------------------------------------------------------- Mesh and field

def mesh_refusal(mesh):
    cells = len(mesh.volumes)
    beyond = layout.beyond_limits(cells, len(mesh.faces), LIMITS)
    if beyond:
        return Refusal(1, "", *beyond)
    return (first_of(3, CELL, mesh.volumes, volume_words) or first_of(4, FACE, mesh.faces, lambda face: end_words(face, cells))
            or first_of(5, FACE, mesh.faces, spacing_words))


def first_of(cause, thing, rows, words):
    """The first row of which there is something to say."""
    for place, row in enumerate(rows):
        said = words(row)
        if said:
            return Refusal(cause, thing, place, said)
    return None


def volume_words(volume):
    return "" if 1 <= volume <= MOST_VOLUME else f"volume {volume} is outside 1 to {MOST_VOLUME:,}"


def end_words(face, cells):
    if face.first >= cells:
        return f"it begins at {face.first}, and the cells are 0 to {cells - 1}"
    if face.second >= cells and face.second != RIM:
        return f"it ends at {face.second}, which is neither a cell (0 to {cells - 1}) nor the rim"
    return f"it joins cell {face.first} to itself" if face.first == face.second else ""


def spacing_words(face):
    if face.second == RIM:
        return "" if face.share == face.reach == 0 else f"share {face.share} and reach {face.reach} at the rim, where both are 0"
    if not 1 <= face.share <= MOST_SHARE:
        return f"share {face.share} is outside 1 to {MOST_SHARE}"
    return "" if 1 <= face.reach <= MOST_REACH else f"reach {face.reach} is outside 1 to {MOST_REACH:,}"


def field_refusal(mesh, masses):
    return first_of(6, CELL, zip(masses, mesh.volumes), mass_words)


def mass_words(row):
    mass, volume = row
    q = mass // volume
    return "" if q <= TOP else f"mass {mass:,} in volume {volume:,} is a concentration of {q:,}, above {TOP:,}"


# ---------------------------------------------------------------- A step

def step_refusal(mesh, step, masses=None):
    """Without masses, of the field before the step, a release is judged alone: with them it may be refused for less."""
    return (release_refusal(mesh, step.releases, masses) or outside_refusal(mesh, step) or size_refusal(mesh, step.fluxes)
            or flow_refusal(mesh, step.fluxes))


def release_refusal(mesh, releases, masses):
    if releases is None:
        return None
    return first_of(18, CELL, zip(releases, masses or [0] * len(releases), mesh.volumes), release_words)


def release_words(row):
    release, mass, volume = row
    q = (mass + release) // volume
    both = f"mass {mass:,} and release {release:,} in volume {volume:,} are" if mass else f"release {release:,} in volume {volume:,} is"
    return "" if q <= TOP else f"{both} a concentration of {q:,}, above {TOP:,}"


def outside_refusal(mesh, step):
    for face, outside in zip(mesh.rim, step.outsides):
        if outside > TOP and step.fluxes[face] < 0:
            return Refusal(7, FACE, face, f"outside value {outside:,} is above {TOP:,}")
        if outside and step.fluxes[face] >= 0:
            return Refusal(7, FACE, face, f"outside value {outside:,} where no water enters over the rim (flux {step.fluxes[face]})")
    return None


def size_refusal(mesh, fluxes):
    for place, (face, flux) in enumerate(zip(mesh.faces, fluxes)):
        if abs(flux) > face.reach and face.second != RIM:
            return Refusal(8, FACE, place, f"flux {flux} is larger than the reach {face.reach}")
    return None


def flows(mesh, fluxes):
    """What enters and what leaves each cell, over all of its faces."""
    enters, leaves = [0] * len(mesh.volumes) + [0], [0] * len(mesh.volumes) + [0]       # the last entry is the rim's
    for (first, second, _, _), flux in zip(mesh.faces, fluxes):
        if second == RIM:
            second = -1
        if flux > 0:
            leaves[first] += flux
            enters[second] += flux
        elif flux:
            enters[first] -= flux
            leaves[second] -= flux
    return enters[:-1], leaves[:-1]


def flow_refusal(mesh, fluxes):
    enters, leaves = flows(mesh, fluxes)
    if enters != leaves:
        return first_of(9, CELL, zip(enters, leaves), lambda row: "" if row[0] == row[1] else f"{row[0]:,} enters, {row[1]:,} leaves")
    return first_of(10, CELL, zip(leaves, mesh.volumes), lambda row: "" if row[0] <= row[1] else
                    f"{row[0]:,} leaves, more than its volume {row[1]:,}")


def refused_step(source, mesh, masses=None):
    """Why the run refuses the step record that the source holds, on a field of these masses; None where it accepts it."""
    try:
        return step_refusal(mesh, source.step(mesh), masses)
    except layout.Damage as damage:
        return damaged(damage)
