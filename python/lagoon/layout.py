"""Records as document 01 lays them out in "Record layouts", and document 02 in S-6 and S-10: the one place of the tools that knows the widths.

Written from the document; shares nothing with the engine. Reading does not judge values: causes.py does.
"""

from collections import namedtuple
from functools import lru_cache

# Widths in bits that all records have.
KIND_BITS, CELLS_BITS, FACES_BITS, MESH_ZEROS, STEP_ZEROS = 4, 12, 13, 3, 15
END_BITS, SHARE_BITS, OUTSIDE_BITS = 12, 8, 20
MESH_HEAD = KIND_BITS + CELLS_BITS + FACES_BITS + MESH_ZEROS
FIELD_HEAD = KIND_BITS + CELLS_BITS
STEP_HEAD = KIND_BITS + FACES_BITS + STEP_ZEROS

RIM = 4095                      # the mark of the rim in the place of a second cell
MINUS_ZERO = "-0"               # a minus with size 0, which a record can say and the run refuses (cause 12)


class Widths(namedtuple("Widths", "mesh field step outfalls value mass")):
    """One width of records: its four kinds, a step with releases being the last, the bits of V, K and the size of U, and those of masses
    and releases. Field and step records have the width of their mesh record."""

    __slots__ = ()
    flux = property(lambda widths: 1 + widths.value)
    face = property(lambda widths: 2 * END_BITS + SHARE_BITS + widths.value)


NARROW, WIDE = Widths(1, 2, 3, 4, value=12, mass=32), Widths(5, 6, 7, 8, value=16, mass=40)

Face = namedtuple("Face", "first second share reach")
Mesh = namedtuple("Mesh", "volumes faces rim widths")   # rim: the numbers of the rim faces
# outsides: of the rim faces, in their order; releases: None in a step of a kind without them
Step = namedtuple("Step", "fluxes outsides releases", defaults=(None,))


def widths_of(kind):
    """The width of a kind; what is no kind at all counts as narrow."""
    return WIDE if WIDE.mesh <= kind <= WIDE.outfalls else NARROW


def most(width):
    """The greatest value of so many bits."""
    return (1 << width) - 1


def whole_bytes(bits):
    return -(-bits // 8)


def beyond_limits(cells, faces, limits):
    """Place and words of counts beyond the limits of cells and faces."""
    if not 1 <= cells <= limits[0]:
        return 0, f"the mesh has {cells:,} cells, and the run takes 1 to {limits[0]:,}"
    return (1, f"the mesh has {faces:,} faces, and the run takes {limits[1]:,} at most") if faces > limits[1] else None


def mesh_of(volumes, faces, widths=NARROW):
    return Mesh(volumes, faces, [number for number, face in enumerate(faces) if face.second == RIM], widths)


def mesh_bytes(cells, faces, widths):
    return whole_bytes(MESH_HEAD + cells * widths.value + faces * widths.face)


def field_bytes(cells, widths):
    return whole_bytes(FIELD_HEAD + cells * widths.mass)


def releases_at(mesh):
    """The bit after the last outside value of a step record, at which the releases begin where it has any."""
    return STEP_HEAD + len(mesh.faces) * mesh.widths.flux + len(mesh.rim) * OUTSIDE_BITS


def step_bits(mesh, kind):
    """The bits of a step record without the zero bits at its end."""
    return releases_at(mesh) + (len(mesh.volumes) * mesh.widths.mass if kind == mesh.widths.outfalls else 0)


# ---------------------------------------------------------------- Bits

def bits_of(data):
    """The bits of some bytes as a string of 0 and 1."""
    return bin(int.from_bytes(b"\1" + data, "big"))[3:]


def bytes_of(bits):
    """A string of bits, with zero bits up to a whole byte, as bytes."""
    bits += "0" * (-len(bits) % 8)
    return int("1" + bits, 2).to_bytes(len(bits) // 8 + 1, "big")[1:]


def written(fields):
    """Pairs of value and width, one after another, as bits."""
    return "".join([f"{value:0{width}b}" for value, width in fields])


@lru_cache(maxsize=None)
def flux_of(widths):
    """The flux that each row of sign and size says."""
    most_size = most(widths.value)
    found = {f"{value:0{widths.flux}b}": value if value <= most_size else -(value & most_size) for value in range(1 << widths.flux)}
    found["1" + "0" * widths.value] = MINUS_ZERO
    return found


@lru_cache(maxsize=None)
def bits_of_flux(widths):
    return {flux: bits for bits, flux in flux_of(widths).items()}


# ---------------------------------------------------------------- Writing

def mesh_record(mesh):
    widths = mesh.widths
    fields = [(widths.mesh, KIND_BITS), (len(mesh.volumes), CELLS_BITS), (len(mesh.faces), FACES_BITS), (0, MESH_ZEROS)]
    fields += [(volume, widths.value) for volume in mesh.volumes]
    for face in mesh.faces:
        fields += zip(face, face_widths(widths))
    return bytes_of(written(fields))


def face_widths(widths):
    return END_BITS, END_BITS, SHARE_BITS, widths.value


def field_record(masses, widths):
    return bytes_of(written([(widths.field, KIND_BITS), (len(masses), CELLS_BITS)] + [(mass, widths.mass) for mass in masses]))


def step_record(step, widths):
    kind = widths.step if step.releases is None else widths.outfalls
    head = written([(kind, KIND_BITS), (len(step.fluxes), FACES_BITS), (0, STEP_ZEROS)])
    bits = bits_of_flux(widths)
    fluxes = "".join([bits[flux] for flux in step.fluxes])
    values = [(outside, OUTSIDE_BITS) for outside in step.outsides] + [(release, widths.mass) for release in step.releases or []]
    return bytes_of(head + fluxes + written(values))


# ---------------------------------------------------------------- Reading

class Damage(Exception):
    """What is wrong with a record: its words, the bit of the record where it shows, document 01's cause and place, the
    bytes of the record that are there, and whether a next record is known to begin after them."""

    def __init__(self, words, bit, cause, place, record=b"", goes_on=False):
        super().__init__(words)
        self.words, self.bit, self.cause, self.place = words, bit, cause, place
        self.record, self.goes_on = record, goes_on


class Source:
    """A packed session, of which one record after another is taken."""

    def __init__(self, file):
        self.file, self.at, self.record, self.name = file, 0, b"", ""

    def begin(self, name):
        """The next record begins at the byte that reading has come to."""
        self.at += len(self.record)
        self.record, self.name = b"", name

    def hold(self, length):
        """The record has so many bytes at least."""
        while len(self.record) < length:
            part = self.file.read(length - len(self.record))
            if not part:
                raise self.damage(f"the input ends in this {self.name} record, which needs {length} bytes and has {len(self.record)}",
                                  8 * len(self.record), 11, 0)
            self.record += part
        return self.record

    def more(self):
        """Is a byte left? It is then the first of the record."""
        self.record = self.record or self.file.read(1)
        return bool(self.record)

    def damage(self, words, bit, cause, place, goes_on=False):
        return Damage(words, bit, cause, place, self.record, goes_on)

    def head(self, bits, *kinds):
        """The head's bits; its kind is one of those expected."""
        head = bits_of(self.hold(bits // 8))
        if int(head[:KIND_BITS], 2) not in kinds:
            wanted = " or ".join(f"{kind:04b}" for kind in kinds)
            raise self.damage(f"kind {head[:KIND_BITS]} in binary where a {self.name} record has {wanted}", 0, 13, 0)
        return head

    def count(self, head, width, expected, what):
        count = int(head[KIND_BITS:KIND_BITS + width], 2)
        if count != expected:
            raise self.damage(f"{count} {what} where the mesh has {expected}", KIND_BITS, 13, 1)

    def zeros(self, bits, start, end, goes_on=False):
        one = bits.find("1", start, end)
        if one >= 0:
            raise self.damage("a zero bit is set", one, 12, one, goes_on)

    def mesh(self, limits=None):
        """The mesh, of either width; with limits its counts are judged before its length, as in the run."""
        self.begin("mesh")
        head = self.head(MESH_HEAD, NARROW.mesh, WIDE.mesh)
        cells, faces = counts_in(head)
        widths = widths_of(kind_of(self.record))
        beyond = limits and beyond_limits(cells, faces, limits)
        if beyond:
            raise self.damage(beyond[1], KIND_BITS + beyond[0] * CELLS_BITS, 1, beyond[0])
        bits = bits_of(self.hold(mesh_bytes(cells, faces, widths)))
        self.zeros(bits, MESH_HEAD - MESH_ZEROS, MESH_HEAD)
        at = MESH_HEAD + cells * widths.value
        end = at + faces * widths.face
        rows = [face_in(bits, i, widths) for i in range(at, end, widths.face)]
        self.zeros(bits, end, len(bits))
        return mesh_of(numbers_in(bits, MESH_HEAD, at, widths.value), rows, widths)

    def field(self, cells, widths):
        self.begin("field")
        self.count(self.head(FIELD_HEAD, widths.field), CELLS_BITS, cells, "cells")
        return masses_in(self.hold(field_bytes(cells, widths)))

    def field_on(self, mesh):
        """The field that follows the record of a mesh."""
        return self.field(len(mesh.volumes), mesh.widths)

    def next_step(self, mesh):
        """The bytes of the next step record, which has a kind, count and length of one; None where no byte is left."""
        self.begin("step")
        if not self.more():
            return None
        head = self.head(STEP_HEAD, mesh.widths.step, mesh.widths.outfalls)
        self.count(head, FACES_BITS, len(mesh.faces), "faces")
        return self.hold(whole_bytes(step_bits(mesh, kind_of(self.record))))

    def step(self, mesh):
        """The values of the step record that next_step gave."""
        return self.step_in(bits_of(self.record), mesh)

    def step_in(self, bits, mesh):
        found = step_of(bits, mesh)
        self.zeros(bits, STEP_HEAD - STEP_ZEROS, STEP_HEAD, True)
        if MINUS_ZERO in found.fluxes:
            bit = STEP_HEAD + mesh.widths.flux * found.fluxes.index(MINUS_ZERO)
            raise self.damage("a minus with size 0", bit, 12, bit, True)
        self.zeros(bits, step_bits(mesh, int(bits[:KIND_BITS], 2)), len(bits), True)
        return found


def counts_in(head):
    """Cells and faces of the bits of a mesh's head."""
    return int(head[KIND_BITS:KIND_BITS + CELLS_BITS], 2), int(head[KIND_BITS + CELLS_BITS:MESH_HEAD - MESH_ZEROS], 2)


def kind_of(record):
    return record[0] >> 8 - KIND_BITS


def numbers_in(bits, start, end, width):
    return [int(bits[at:at + width], 2) for at in range(start, end, width)]


def step_of(bits, mesh):
    """What the bits of a step record of the right length say, zero bits apart."""
    kind, widths = int(bits[:KIND_BITS], 2), mesh.widths
    at, start = STEP_HEAD + len(mesh.faces) * widths.flux, releases_at(mesh)
    flux = flux_of(widths)
    return Step([flux[bits[i:i + widths.flux]] for i in range(STEP_HEAD, at, widths.flux)], numbers_in(bits, at, start, OUTSIDE_BITS),
                numbers_in(bits, start, step_bits(mesh, kind), widths.mass) if kind == widths.outfalls else None)


def releases_in(record, mesh):
    """The release into each cell, of a step record that follows its layout; 0 in a kind without them."""
    if kind_of(record) != mesh.widths.outfalls:
        return [0] * len(mesh.volumes)
    start, width = releases_at(mesh), mesh.widths.mass
    return [number_at(record, start + cell * width, width) for cell in range(len(mesh.volumes))]


def rim_values(record, mesh):
    """Flux and outside value of each rim face, of a step record that follows its layout."""
    widths = mesh.widths
    at = STEP_HEAD + len(mesh.faces) * widths.flux
    for number, face in enumerate(mesh.rim):
        minus_and_size = number_at(record, STEP_HEAD + face * widths.flux, widths.flux)
        size = minus_and_size & most(widths.value)
        yield (size if minus_and_size == size else -size), number_at(record, at + number * OUTSIDE_BITS, OUTSIDE_BITS)


def number_at(record, at, width):
    """The number of so many bits from a bit on."""
    end = whole_bytes(at + width)
    return int.from_bytes(record[at // 8:end], "big") >> (8 * end - at - width) & most(width)


def face_in(bits, at, widths):
    values = []
    for width in face_widths(widths):
        values.append(int(bits[at:at + width], 2))
        at += width
    return Face(*values)


def masses_in(record):
    """The masses of a field record: its head and each mass are whole bytes."""
    step = widths_of(kind_of(record)).mass // 8
    return [int.from_bytes(record[at:at + step], "big") for at in range(FIELD_HEAD // 8, len(record), step)]
