"""Records before packing, with the fields that lagoon.py lists: every part may be broken."""

import lagoon
from lagoon import FIELD, MESH, OUTFALLS, WATER


def all_ones(width):
    return (1 << width) - 1


def spare_bits(fields):
    """The zero bits after the last field of a record."""
    return -sum(width for _, width in fields) % 8


def other_width(kind):
    return kind - lagoon.WIDER if lagoon.is_wide(kind) else kind + lagoon.WIDER


class Raw:
    """A record before packing; every part may be broken. Its fields have the widths of the kind `laid`, whatever kind its head says."""

    def __init__(self, kind):
        self.kind = self.laid = kind
        self.padding, self.cut, self.tail = 0, None, b""

    def turn_width(self):
        """The same record in the kind of the other width."""
        self.kind = self.laid = other_width(self.laid)

    def bytes(self):
        """A value too large for its width, which only a record turned to the other width has, becomes the greatest of that width."""
        fields = self.fields()
        fields.append((self.padding, spare_bits(fields)))
        record = lagoon.pack([(min(value, all_ones(width)), width) for value, width in fields if width])
        return (record if self.cut is None else record[:self.cut]) + self.tail


class RawMesh(Raw):
    def __init__(self, volumes, faces, wide=False):
        super().__init__(lagoon.of_width(MESH, wide))
        self.cells, self.count, self.zeros = len(volumes), len(faces), 0
        self.volumes, self.faces = list(volumes), [list(face) for face in faces]

    def fields(self):
        return lagoon.mesh_fields(self.kind, self.cells, self.count, self.zeros, lagoon.MESH_BITS[self.laid], self.volumes, self.faces)


class RawField(Raw):
    def __init__(self, masses, wide=False):
        super().__init__(lagoon.of_width(FIELD, wide))
        self.cells, self.masses = len(masses), list(masses)

    def fields(self):
        return lagoon.field_fields(self.kind, self.cells, lagoon.FIELD_BITS[self.laid], self.masses)


class RawStep(Raw):
    """Signs and sizes stand apart, so that minus 0 can be written; outsides holds one value per face. With releases it is of kind 4 or 8."""

    def __init__(self, rims, fluxes, outsides, releases, wide=False):
        super().__init__(lagoon.of_width(WATER if releases is None else OUTFALLS, wide))
        self.count, self.zeros = len(fluxes), 0
        self.rims = rims
        self.releases = list(releases or [])
        self.signs, self.sizes = [int(U < 0) for U in fluxes], [abs(U) for U in fluxes]
        self.outsides = list(outsides)

    def fields(self):
        return lagoon.step_fields(self.kind, self.count, self.zeros, lagoon.STEP_BITS[self.laid], zip(self.signs, self.sizes),
                                  [self.outsides[face] for face in self.rims], self.releases)
