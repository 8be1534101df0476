"""A session of either kind, text or packed, as the engine takes it: mesh and field, accepted, and the bytes of each step."""

from . import causes, command
from .command import Bad
from .layout import MESH_HEAD, WIDE, Damage, Source, beyond_limits, bits_of, counts_in, kind_of
from .sessiontext import Labels, Parser, TextError, packed, text_words


def is_text(file):
    """Does this input look like text? A packed session begins with a byte from 16 to 31, which no text begins with, or with one from 80
    to 83: those are capital letters, but no text begins with a wide mesh's head."""
    head = file.peek(64)[:64]
    if head[:2] in (b"\xff\xfe", b"\xfe\xff"):
        return True
    if is_wide_head(head[:MESH_HEAD // 8]):
        return False
    return bool(head) and not any(byte < 32 and byte not in b"\t\n\r\f" for byte in head)


def is_wide_head(head):
    """The head of a wide mesh whose counts the run takes; a third letter would be too many faces."""
    return len(head) == MESH_HEAD // 8 and kind_of(head) == WIDE.mesh and not beyond_limits(*counts_in(bits_of(head)), causes.LIMITS)


class Stream:
    """Pieces of bytes, read as a file is."""

    def __init__(self, pieces):
        self.pieces, self.held = pieces, b""

    def read(self, length):
        while not self.held:
            piece = next(self.pieces, None)
            if piece is None:
                return b""
            self.held = piece
        part, self.held = self.held[:length], self.held[length:]
        return part


class Session:
    """A session of either kind as the engine takes it: mesh and field records, and the bytes of each step."""

    def __init__(self, file, path):
        self.labels = Labels()
        if is_text(file):
            parser = Parser(file)
            self.labels = parser.labels
            file = Stream(record_by_record(parser, path))
        self.source = Source(file)
        self.mesh = self.accepted("mesh", lambda: self.source.mesh(causes.LIMITS), causes.mesh_refusal)
        self.mesh_record = self.source.record
        self.masses = self.accepted("field", lambda: self.source.field_on(self.mesh),
                                    lambda masses: causes.field_refusal(self.mesh, masses))
        self.field_record = self.source.record

    def accepted(self, name, read, judge):
        try:
            found = read()
            refusal = judge(found)
        except Damage as damage:
            refusal = causes.damaged(damage)
        if refusal:
            raise Bad(f"the {name} is refused: {causes.told(refusal, self.labels)}")
        return found

    def steps(self):
        """The bytes of each step; where they are no record of a step, what is wrong with them too, and that is the last."""
        while True:
            try:
                record = self.source.next_step(self.mesh)
            except Damage as damage:
                yield damage.record, damage
                return
            if record is None:
                return
            yield record, None


def record_by_record(parser, path):
    """The records of a text, all of which is read first: its last step may be the one that asks for wide records."""
    try:
        found, _ = packed(parser)
    except TextError as error:
        raise Bad(text_words(path, error)) from None
    return (record for record, times in found for _ in range(times))


def open_session(path):
    """The session of a file, or from standard input."""
    return Session(command.opened(path), path)
