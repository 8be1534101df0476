"""A session's records to readable text and back, and what the run would refuse in them. Written from document 01, "Record
layouts" and "Causes", and document 02, S-6 and S-10; shares nothing with the engine."""

import io

from . import causes, command, engine, layout
from .command import Bad, Output, count, shown
from .layout import CELLS_BITS, MINUS_ZERO, WIDE, Damage, Source, field_record, mesh_record, most, step_record
from .session import is_text
from .sessiontext import MOST_TIMES, Line, Parser, StepText, TextError, field_text, mesh_text, packed, text_words

HELP = """\
A session is what the run program reads: a mesh record, a field record, then step records. unpack turns its
bytes into text, pack turns text into bytes, check says of either what the run would refuse.

The text has one item on a line; words are separated by blanks, and # begins a comment.

  mesh                                            begins the mesh; "mesh wide" asks for wide records
  cell N volume V                                 V 0 to 65535; cells in order from 0, none left out
  face N from C to C share S reach K              an interior face; S 0 to 255, K 0 to 65535
  face N from C to rim                            a rim face; share and reach are 0 unless written
  field                                           begins the field
  cell N mass M                                   M 0 to 1099511627775; a cell left out has mass 0
  step                                            begins a step; "step times 24" writes it 24 times (at most 1000000)
  face N flux U                                   U -65535 to 65535, positive from first to second cell (outward
                                                  at the rim); a face left out has flux 0
  face N flux U outside Q                         Q 0 to 1048575, at a rim face; 0 unless written
  cell N release R                                R 0 to 1099511627775, the mass released into the cell, after the faces
                                                  of the step; a cell left out has release 0. A step with such a
                                                  line is a record of kind 4 (wide: 8), one without of kind 3 (7)
  bytes 30 02 00 00                               these bytes as they are, in hexadecimal
  time 2026-06-01T03:00                           when the step begins, after its first line: a date, a number with or without
                                                  s, min, h or d, or other words
  unit volume 1000 m3                             what one unit is: volume, mass or step, in words; before the steps
  name cell N Inlet                               the name of a cell or a face, in words; before the steps
  at cell N X Y                                   where the centre of a cell lies, in metres; before the steps
  at face N X1 Y1 X2 Y2                           where a face ends

The words are document 01's. Share: the way from the first cell's centre to the face, in 1/256 of the way between
the centres. Reach: face area times distance between centres, in volume units. Outside: the concentration of the
water that enters over the rim. Units, names, places and times are for reports, pictures and maps; the
records hold none.
Records are of kinds 1 to 4. Where a volume, reach or size of a flux is above 4095, a mass or release above
4294967295, or the text says "mesh wide", all records are wide ones, of kinds 5 to 8. Both hold the same values where
both have room for them, and the run prints the same.
Any value that fits its field is packed, also one that the run refuses: volume 0, from 4095, flux -0 (a minus with
size 0, cause 12). check finds those.
"""

UNPACK_HELP = """\
A record that does not follow its layout is said on standard error, with the byte of the input and the cause and
place of document 01 (11, 12 or 13; a cause of the counts or values, which only the run finds, may come before), and
is written as lines of bytes; the exit status is then 1. After a step record with a wrong bit (cause 12) the next
record begins, as in the run. After any other damage the rest of the input is bytes, since it is not known where a
next record would begin. Equal steps that follow one another are one "step times N". What unpack writes, pack turns
into the same bytes again, whatever they are (no bytes at all apart: pack refuses an empty text).
"""

UNPACK_EXAMPLES = """\
  lagoon unpack tests/sessions/channel.in
  lagoon unpack < session.in > session.txt
  echo 10 01 00 00 06 40 20 01 00 00 00 63 | lagoon unpack --hex
"""

PACK_HELP = """\
Bad text is said on standard error as FILE:LINE:COLUMN, both counted from 1 and a tab as one column; nothing is
written then, and the exit status is 1.
"""

PACK_EXAMPLES = """\
  lagoon pack examples/channel.txt -o session.in
  lagoon pack examples/channel.txt | target/bin/run
  lagoon pack --hex examples/channel.txt
  lagoon pack july.txt --field june.field -o july.in
"""

CHECK_HELP = """\
One line for each record that the run refuses, with the cause that it would print: the first that applies, at its
lowest place. Of a text FILE:LINE is the line of that cell or face (or of the step, where it has none), of bytes the byte
where the record begins. The exit status is 1 where anything is refused, and for bad text.

Whether cause 18 refuses a step with releases depends on the field before it. The steps up to there are then made by the C call of the
library (`make lib`); where it is not there, the last line counts the steps that could not be judged.
"""

CHECK_EXAMPLES = """\
  lagoon check examples/tide.txt
  lagoon check session.in
"""

BYTES_ON_A_LINE = 16


# ---------------------------------------------------------------- Bytes to text

def bytes_text(data):
    pieces = [data[at:at + BYTES_ON_A_LINE] for at in range(0, len(data), BYTES_ON_A_LINE)]
    return "".join([f"bytes {piece.hex(' ')}\n" for piece in pieces])


class Unpacker:
    """The text of a packed session, record by record; problems gathers a line for each that does not follow its layout."""

    def __init__(self, file):
        self.source, self.problems, self.number = Source(file), [], 0
        self.held, self.times = None, 0         # the step record last read, and how often it came

    def text(self):
        try:
            mesh = self.source.mesh()
            yield mesh_text(mesh)
            yield field_text(self.source.field_on(mesh))
            yield from self.steps(mesh)
        except Damage as damage:
            yield self.problem(damage)
            yield from self.rest()

    def steps(self, mesh):
        writer = StepText(mesh)
        while True:
            try:
                record = self.source.next_step(mesh)
            except Damage:
                yield from self.flush(writer, mesh)
                self.number += 1
                raise
            if record != self.held or self.times == MOST_TIMES:
                yield from self.flush(writer, mesh)
                self.held, self.times = record, 0
            if record is None:
                return
            self.times += 1
            self.number += 1

    def flush(self, writer, mesh):
        """The steps that are held."""
        held, times, self.times = self.held, self.times, 0
        if not times:
            return
        first = self.number - times + 1
        try:
            yield writer.of(self.source.step_in(layout.bits_of(held), mesh), first, times)
        except Damage as damage:
            damage.record = held
            for number in range(times):
                yield self.problem(damage, self.source.at - len(held) * (times - number), first + number)

    def problem(self, damage, at=None, number=None):
        at, number = self.source.at if at is None else at, number or self.number
        name = self.source.name if self.source.name != "step" else f"step {number}"
        self.problems.append(f"byte {at + damage.bit // 8}: {name}, byte {damage.bit // 8}, bit {damage.bit}: {damage.words} "
                             f"(cause {damage.cause}, place {damage.place})")
        return f"\n# {self.problems[-1]}\n" + bytes_text(damage.record)

    def rest(self):
        """What follows a record after which no other is known to begin. The lines of bytes go on where it ends."""
        while True:
            data = self.source.file.read(command.CHUNK)
            if not data:
                return
            yield bytes_text(data)


def unpack(data):
    """The text of a session's bytes, and a line for each record that does not follow its layout."""
    unpacker = Unpacker(io.BytesIO(data))
    text = "".join(unpacker.text())
    return text.lstrip("\n"), unpacker.problems


# ---------------------------------------------------------------- Checking

class Carried:
    """The field as the accepted steps leave it. The engine makes them only when a release is judged on it."""

    def __init__(self, mesh, masses, library):
        self.mesh, self.library, self.engine, self.lacks = mesh, library, None, ""
        self.field, self.made, self.waiting = field_record(masses, mesh.widths), masses, []

    def accept(self, record, times=1):
        self.waiting.append((record, times))

    def masses(self):
        """The masses now; None where they are not known, since the library is not there."""
        if self.waiting and not self.lacks:
            try:
                self.engine = self.engine or engine.Engine(mesh_record(self.mesh), self.library)
            except Bad as bad:
                self.lacks = str(bad)
        if self.waiting and self.lacks:
            return None
        for record, times in self.waiting:
            for _ in range(times):
                self.field, refused = self.engine.step(self.field, record)
                if refused:
                    raise Bad(f"the engine refuses a step by cause {refused[0]}, place {refused[1]}, and here nothing like it is found")
        if self.waiting:
            self.waiting, self.made = [], layout.masses_in(self.field)
        return self.made


class Checker:
    """What the run would refuse, a line each, and the counts at the end. Equal steps one after another are one line."""

    def __init__(self, name, labels, library):
        self.name, self.labels, self.library, self.lines = name, labels, library, []
        self.mesh, self.steps, self.refused, self.ended = None, 0, 0, ""
        self.field, self.open = None, 0         # the field as it is carried; steps whose releases could not be judged
        self.held = None        # the refusal, where it stands, and the first and last of the steps that have it

    def begin(self, mesh, masses):
        self.field = Carried(mesh, masses, self.library)

    def judge(self, kind, refusal, where):
        if refusal:
            self.lines.append(f"{where}: {kind}: {causes.told(refusal, self.labels)}")
            self.ended = f"the run ends at this {kind}"
        return not refusal

    def water(self, step, record, place, times=1):
        """Equal steps, whose place is by the refusal and how many of them stand before. Those with releases go one after another, since
        each is judged on the field that the one before left."""
        if not any(step.releases or []):
            refusal = step_refusal(self.mesh, step, None)
            if not refusal:
                self.field.accept(record(), times)
            self.step(refusal, place(refusal, 0), times)
            return
        for left in range(times, 0, -1):
            masses = self.field.masses()
            refusal = step_refusal(self.mesh, step, masses)
            if refusal:
                self.step(refusal, place(refusal, times - left), left)
                return
            self.open += masses is None
            self.field.accept(record())
            self.step(None, "")

    def step(self, refusal, where, times=1):
        first, self.steps = self.steps + 1, self.steps + times
        if not refusal:
            return
        self.refused += times
        if self.held and self.held[0] == refusal and self.held[3] == first - 1:
            self.held[3] = self.steps
        else:
            self.flush()
            self.held = [refusal, where, first, self.steps]

    def flush(self):
        if self.held:
            refusal, where, first, last = self.held
            steps = f"step {first}" if first == last else f"steps {first} to {last}"
            self.lines.append(f"{where}: {steps}, {causes.told(refusal, self.labels)}")
        self.held = None

    def report(self):
        self.flush()
        if self.ended:
            return self.lines + [f"{self.name}: {self.ended}"]
        said = f"the run refuses {self.refused:,} of them" if self.refused else "the run accepts all"
        if not self.steps:
            said = "there is nothing to refuse"
        if self.open:
            said += f"; cause 18 is not judged in {self.open:,} with releases: {self.field.lacks}"
        mesh = self.mesh
        return self.lines + [f"{self.name}: {count(len(mesh.volumes), 'cell')}, {count(len(mesh.faces), 'face')} ({len(mesh.rim):,} at the rim), "
                             f"{count(self.steps, 'step')}: {said}"]

    def bad(self):
        return bool(self.ended or self.refused)


def check_text(parser, name, library=None):
    """The checker of a text; None where it has lines of bytes, whose places only the packed session has. Its steps are made as wide
    records, which hold any value of a text."""
    checker = Checker(name, parser.labels, library)
    for item in parser.items():
        if item.kind == "bytes":
            return None
        if item.kind == "mesh":
            checker.mesh = item.value
            refusal = causes.mesh_refusal(item.value)
            if not checker.judge("mesh", refusal, place_in(name, item, refusal, checker.mesh)):
                return checker
        elif item.kind == "field":
            refusal = causes.field_refusal(checker.mesh, item.value)
            if not checker.judge("field", refusal, place_in(name, item, refusal, checker.mesh)):
                return checker
            checker.begin(checker.mesh._replace(widths=WIDE), item.value)
        else:
            checker.water(item.value, lambda: step_record(item.value, WIDE), lambda refusal, before: place_in(name, item, refusal, checker.mesh), item.times)
    if not parser.has_field:
        checker.ended = "there is no field, and the run refuses such a session (cause 11)"
    return checker


def step_refusal(mesh, step, masses):
    """As causes.step_refusal, of a step that may say a minus with size 0."""
    if MINUS_ZERO in step.fluxes:
        face = step.fluxes.index(MINUS_ZERO)
        return causes.Refusal(12, "face", face, "flux -0, a minus with size 0")
    return causes.step_refusal(mesh, step, masses)


def place_in(name, item, refusal, mesh):
    """FILE:LINE of the cell or face that is refused; of a cell in a step, its release or its first face that is written."""
    if not refusal:
        return ""
    line = item.line
    if item.kind == "mesh":
        line = item.lines.get((refusal.thing, refusal.place), line)
    elif item.kind == "step" and refusal.cause == 18:
        line = item.lines.get(("cell", refusal.place), line)
    elif item.kind == "step" and refusal.thing == "cell":
        written = sorted(face for face in item.lines if isinstance(face, int))
        line = next((item.lines[face] for face in written if refusal.place in mesh.faces[face][:2]), line)
    else:
        line = item.lines.get(refusal.place, line)
    return f"{name}:{line}"


def check_packed(file, name, library=None):
    source, checker = Source(file), Checker(name, None, library)
    try:
        checker.mesh = mesh = source.mesh(causes.LIMITS)
        if not checker.judge("mesh", causes.mesh_refusal(mesh), f"{name}: byte {source.at}"):
            return checker
        masses = source.field_on(mesh)
        if not checker.judge("field", causes.field_refusal(mesh, masses), f"{name}: byte {source.at}"):
            return checker
    except Damage as damage:
        checker.judge(source.name, causes.damaged(damage), f"{name}: byte {source.at}")
        return checker
    checker.begin(mesh, masses)
    check_steps(source, checker)
    return checker


def check_steps(source, checker):
    """The steps of a packed session; equal ones that follow one another are judged together."""
    held, times, at = None, 0, 0
    while True:
        try:
            record, damage = source.next_step(checker.mesh), None
        except Damage as found:
            record, damage = None, found
        if times and record != held:
            packed_steps(source, checker, held, times, at)
            times = 0
        if damage:
            checker.step(causes.damaged(damage), f"{checker.name}: byte {source.at}")
        if record is None:
            return
        if not times:
            held, at = record, source.at
        times += 1


def packed_steps(source, checker, record, times, at):
    """Equal steps, of which the first begins at this byte."""
    where = lambda before: f"{checker.name}: byte {at + before * len(record)}"
    try:
        step = source.step_in(layout.bits_of(record), checker.mesh)
    except Damage as damage:
        checker.step(causes.damaged(damage), where(0), times)
        return
    checker.water(step, lambda: record, lambda refusal, before: where(before), times)


def run_check(options):
    name, file = command.named(options.file), command.opened(options.file)
    if not options.hex and is_text(file):
        parser = Parser(file)
        checker = check_text(parser, name, options.library)
        if checker is None:
            raise Bad(f"{name} has lines of bytes: pack it, and check what is packed")
    else:
        checker = check_packed(io.BytesIO(from_hex(file.read())) if options.hex else file, name, options.library)
    print("\n".join(checker.report()))
    return 1 if checker.bad() else 0


# ---------------------------------------------------------------- The command

def from_hex(data):
    """Bytes from lines of hexadecimal digits, two for a byte, with or without blanks; # begins a comment."""
    found = bytearray()
    for number, words in enumerate(data.decode("utf-8", "replace").split("\n"), 1):
        line = Line(number, words)
        while line.more():
            word = line.word("")
            try:
                found += bytes.fromhex(word)
            except ValueError:
                raise line.error(f"bytes are pairs of hexadecimal digits, not {shown(word)}") from None
    return bytes(found)


def hex_lines(pieces):
    """Lines of hexadecimal digits, as many bytes on each, over the pieces."""
    held = b""
    for piece in pieces:
        held += piece
        whole = len(held) // BYTES_ON_A_LINE * BYTES_ON_A_LINE
        yield "".join([held[at:at + BYTES_ON_A_LINE].hex(" ") + "\n" for at in range(0, whole, BYTES_ON_A_LINE)]).encode()
        held = held[whole:]
    if held:
        yield (held.hex(" ") + "\n").encode()


def run_unpack(options):
    command.keep_apart([options.output], [options.file])
    file = command.opened(options.file)
    unpacker = Unpacker(io.BytesIO(from_hex(file.read())) if options.hex else file)
    with Output(options.output) as output:
        first = True
        for text in unpacker.text():
            output.write((text.lstrip("\n") if first else text).encode())
            first = False
    for problem in unpacker.problems:
        command.say(f"{command.named(options.file)}: {problem}")
    return 1 if unpacker.problems else 0


def run_pack(options):
    command.keep_apart([options.output], [options.file, options.field])
    parser = Parser(command.opened(options.file))
    masses = field_of(options.field) if options.field else None
    found, lacks = packed(parser, masses)
    if lacks:
        command.say(f"{command.named(options.file)}: note: {lacks}")
    if masses is not None and parser.mesh and len(masses) != len(parser.mesh.volumes):
        raise Bad(f"{options.field}: {count(len(masses), 'mass')[:-1]}es for a mesh of {count(len(parser.mesh.volumes), 'cell')}")
    pieces = (record for record, times in found for _ in range(times))
    with Output(options.output) as output:
        for piece in hex_lines(pieces) if options.hex else pieces:
            output.write(piece)
    return 0


def field_of(path):
    """The masses of a field record of either width, which is all that a file holds."""
    with open(path, "rb") as file:
        data = file.read(layout.field_bytes(most(CELLS_BITS), WIDE) + 1)
    try:
        source = Source(io.BytesIO(data))
        widths = layout.widths_of(layout.kind_of(data or b"\0"))
        masses = source.field(int.from_bytes(data[:2], "big") & most(CELLS_BITS), widths)
    except Damage as damage:
        raise Bad(f"{path} is no field record: {damage.words}") from None
    if len(source.record) != len(data):
        raise Bad(f"{path} is no field record: bytes follow it")
    return masses


# Of each command: what it does, what its help says besides the format, its examples, and the function that does it.
COMMANDS = {"unpack": ("a session's records to text", UNPACK_HELP, UNPACK_EXAMPLES, run_unpack),
            "pack": ("a session's text to the records that the run reads", PACK_HELP, PACK_EXAMPLES, run_pack),
            "check": ("what the run would refuse in a session, in words", CHECK_HELP, CHECK_EXAMPLES, run_check)}


def arguments(name, words):
    told, more, examples, _ = COMMANDS[name]
    parser = command.parser(f"lagoon {name}", told[0].upper() + told[1:] + ".", f"{HELP}\n{more}\nexamples:\n{examples}")
    parser.add_argument("file", nargs="?", default="-", help="what to read (default: standard input)")
    if name != "check":
        parser.add_argument("-o", "--output", default="-", help="what to write (default: standard output)")
    parser.add_argument("--hex", action="store_true", help=f"the bytes are {'written' if name == 'pack' else 'read'} as hexadecimal digits")
    if name == "check":
        parser.add_argument("--library", metavar="FILE", help="the shared object of the library (default: target/lib/liblagoon.so, which `make lib` makes)")
    if name == "pack":
        parser.add_argument("--field", metavar="FILE", help="the masses of a field record (of lagoon budget --field) in the place of the text's")
    return parser.parse_args(words)


def main(name, words):
    options = arguments(name, words)
    try:
        return COMMANDS[name][3](options)
    except TextError as error:
        command.say(text_words(options.file, error))
        return 1


def unpack_command(words):
    return main("unpack", words)


def pack_command(words):
    return main("pack", words)


def check_command(words):
    return main("check", words)
