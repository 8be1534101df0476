"""Makes a failing input smaller while it still fails."""

import time

import lagoon
from lagoon import RIM
from script import Fault, Reader


class Parts:
    """A mesh with a field and steps, as lists: fluxes, outsides, and releases or None. A step that cannot be read stays as bytes.
    Records are packed in one width."""

    def __init__(self, volumes, faces, masses, steps, tail, wide):
        self.volumes, self.faces, self.masses, self.steps, self.tail, self.wide = volumes, faces, masses, steps, tail, wide

    def but(self, **changed):
        """The same with some of its lists changed."""
        return Parts(**{**vars(self), **changed})

    def mesh(self):
        return lagoon.Mesh(self.volumes, *([face[i] for face in self.faces] for i in range(4)))

    def records(self):
        mesh = self.mesh()
        steps = [step if isinstance(step, bytes) else lagoon.pack_step(mesh, *step, self.wide) for step in self.steps]
        return lagoon.pack_mesh(mesh, self.wide), lagoon.pack_field(self.masses, self.wide), steps, self.tail


def take_apart(mesh_record, field_record, steps_bytes):
    """Parts of records that can be read, else None."""
    try:
        mesh = lagoon.read_mesh(mesh_record)
        wide = lagoon.is_wide(lagoon.kind_of(mesh_record))
        masses = lagoon.read_field(field_record, len(mesh.volumes), wide=wide)
    except lagoon.Refusal:
        return None
    steps = []
    while steps_bytes and len(steps_bytes) >= (length := lagoon.step_ends(steps_bytes, mesh, wide)):
        record, steps_bytes = steps_bytes[:length], steps_bytes[length:]
        try:
            kind, *water, releases = lagoon.read_step(record, len(mesh.volumes), len(mesh.firsts), mesh.seconds, wide=wide)
            steps.append((*water, releases if lagoon.STEP_BITS[kind].release else None))
        except lagoon.Refusal:
            steps.append(record)
    return Parts(list(mesh.volumes), [list(row) for row in zip(*mesh[1:])], masses, steps, steps_bytes, wide)


def split_session(data):
    """Mesh record, field record and the rest of a session, as far as the heads say."""
    a, wide = lagoon.mesh_ends(data)
    if len(data) < lagoon.MESH_HEAD:
        return data, b"", b""
    cells = lagoon.number_at(data, lagoon.KIND_BITS, lagoon.CELLS_BITS)
    b = a + lagoon.field_length(cells, wide)
    return data[:a], data[a:b], data[b:]


def readable(parts):
    return all(not isinstance(step, bytes) for step in parts.steps)


def without_cell(parts, cell):
    """The cell becomes part of the outside: its faces with other cells become rim faces."""
    if len(parts.volumes) == 1 or not readable(parts):
        return None
    faces, columns = [], []
    for face, (first, second, s, K) in enumerate(parts.faces):
        if first == cell and second in (RIM, cell):
            continue
        turn = -1 if first == cell else 1
        if cell in (first, second):
            row, opened = [second if first == cell else first, RIM, 0, 0], True
        else:
            row, opened = [first, second, s, K], False
        row[:2] = [i - 1 if cell < i < RIM else i for i in row[:2]]
        faces.append(row)
        columns.append((face, turn, opened))
    steps = []
    for fluxes, outsides, releases in parts.steps:
        q = (parts.masses[cell] + (releases[cell] if releases else 0)) // max(1, parts.volumes[cell])
        new = [turn * fluxes[face] for face, turn, _ in columns]
        steps.append((new, [(min(q, lagoon.TOP) if U < 0 else 0) if opened else outsides[face]
                            for U, (face, _, opened) in zip(new, columns)],
                      releases and releases[:cell] + releases[cell + 1:]))
    return parts.but(volumes=parts.volumes[:cell] + parts.volumes[cell + 1:], faces=faces,
                     masses=parts.masses[:cell] + parts.masses[cell + 1:], steps=steps)


def without_cells(parts, start, end):
    for cell in reversed(range(start, end)):
        parts = parts and without_cell(parts, cell)
    return parts


def without_faces(parts, start, end):
    if not readable(parts):
        return None
    steps = [(f[:start] + f[end:], o[:start] + o[end:], releases) for f, o, releases in parts.steps]
    return parts.but(faces=parts.faces[:start] + parts.faces[end:], steps=steps)


def without_still_faces(parts):
    if not readable(parts):
        return None
    for face in reversed(range(len(parts.faces))):
        if all(fluxes[face] == 0 for fluxes, *_ in parts.steps):
            parts = without_faces(parts, face, face + 1)
    return parts


def without_steps(parts, start, end):
    return parts.but(steps=parts.steps[:start] + parts.steps[end:])


def without_releases(parts, start, end):
    """Steps of kinds 4 and 8 as steps of kinds 3 and 7."""
    if not readable(parts):
        return None
    plain = [(fluxes, outsides, None) for fluxes, outsides, _ in parts.steps[start:end]]
    steps = parts.steps[:start] + plain + parts.steps[end:]
    return None if steps == parts.steps else parts.but(steps=steps)


def releases_in_field(parts):
    """The first step's releases as part of the field that it starts from."""
    if not parts.steps or isinstance(parts.steps[0], bytes) or parts.steps[0][2] is None:
        return None
    *water, releases = parts.steps[0]
    masses = lagoon.raised(parts.masses, releases)
    if max(masses) >= 1 << lagoon.FIELD_BITS[lagoon.of_width(lagoon.FIELD, parts.wide)]:
        return None
    return parts.but(masses=masses, steps=[(*water, None), *parts.steps[1:]])


def without_masses(parts, start, end):
    masses = parts.masses[:start] + [0] * (end - start) + parts.masses[end:]
    return None if masses == parts.masses else parts.but(masses=masses)


def narrowed(parts):
    """The same in records of kinds 1 to 4, where these hold it."""
    fits = lambda value, bits: value < 1 << bits
    mesh, step = lagoon.MESH_BITS[lagoon.MESH], lagoon.STEP_BITS[lagoon.OUTFALLS]
    if not parts.wide or not readable(parts) or parts.tail:
        return None
    values = [(V, mesh.volume) for V in parts.volumes] + [(row[3], mesh.reach) for row in parts.faces]
    values += [(m, lagoon.FIELD_BITS[lagoon.FIELD]) for m in parts.masses]
    for fluxes, _, releases in parts.steps:
        values += [(abs(U), step.size) for U in fluxes] + [(release, step.release) for release in releases or []]
    return parts.but(wide=False) if all(fits(*pair) for pair in values) else None


def shrink_parts(parts, fails, seconds):
    """The smallest parts found within the time that still fail: runs of steps, cells, faces, releases, masses dropped, and narrow records."""
    end = time.monotonic() + seconds

    def better(candidate):
        return candidate is not None and time.monotonic() < end and fails(candidate)

    def sweep(parts, size_of, drop):
        size = max(1, size_of(parts) // 2)
        while size:
            start = size_of(parts) - size
            while start > -size and time.monotonic() < end:
                candidate = drop(parts, max(0, start), start + size)
                if better(candidate):
                    parts = candidate
                start -= size
            size //= 2
        return parts

    while time.monotonic() < end:
        before = parts.records()
        for candidate in (parts.but(tail=b""), without_still_faces(parts), releases_in_field(parts), narrowed(parts)):
            if better(candidate):
                parts = candidate
        parts = sweep(parts, lambda p: len(p.steps), without_steps)
        parts = sweep(parts, lambda p: len(p.volumes), without_cells)
        parts = sweep(parts, lambda p: len(p.faces), without_faces)
        parts = sweep(parts, lambda p: len(p.steps), without_releases)
        parts = sweep(parts, lambda p: len(p.masses), without_masses)
        if parts.records() == before:
            break
    return parts


def shrink_bytes(data, fails, seconds):
    """Drops bytes from the end, then anywhere, while the input still fails."""
    end = time.monotonic() + seconds
    size = max(1, len(data) // 2)
    while size and time.monotonic() < end:
        at = max(0, len(data) - size)
        while at >= 0 and data and time.monotonic() < end:
            candidate = data[:at] + data[at + size:]
            if len(candidate) < len(data) and fails(candidate):
                data = candidate
            at -= size
        size //= 2
    return data


def session(data, fails, seconds=60):
    parts = take_apart(*split_session(data))
    if parts is not None:
        def join(parts):
            mesh, field, steps, tail = parts.records()
            return mesh + field + b"".join(steps) + tail
        data = min(data, join(shrink_parts(parts, lambda p: fails(join(p)), seconds)), key=len)
    return shrink_bytes(data, fails, seconds / 4)


def call(mesh, field, step, room, fails, seconds=60):
    """fails takes the four values; the room shrinks with the field."""
    parts = take_apart(mesh, field, step)
    if parts is None or len(parts.steps) != 1 or parts.tail:
        return mesh, field, step, room
    spare = room - lagoon.field_length(len(parts.volumes), parts.wide)

    def lend(parts):
        mesh, field, steps, _ = parts.records()
        return mesh, field, b"".join(steps), max(0, len(field) + spare)

    return lend(shrink_parts(parts, lambda p: len(p.steps) == 1 and fails(*lend(p)), seconds))


def split_script(text):
    """The text of each call, and what is left where the script is no longer one."""
    reader, parts, start = Reader(text), [], 0
    try:
        while reader.call():
            parts.append(text[start:reader.at] + b"\n")
            start = reader.at
    except Fault:
        pass
    return parts + [text[start:]]


def script(text, fails, seconds=60):
    """Drops calls of a script while it still fails."""
    end = time.monotonic() + seconds
    parts = split_script(text)
    size = max(1, len(parts) // 2)
    while size and time.monotonic() < end:
        at = max(0, len(parts) - size)
        while at >= 0 and time.monotonic() < end:
            candidate = parts[:at] + parts[at + size:]
            if len(candidate) < len(parts) and fails(b"".join(candidate)):
                parts = candidate
            at -= size
        size //= 2
    return b"".join(parts)
