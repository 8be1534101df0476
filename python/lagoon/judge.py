"""Another model's steps judged: the masses that it says have moved through the faces, step by step. Document 02, S-11."""

from collections import namedtuple

from . import budget, causes, command, engine
from .causes import CELL, FACE, Refusal
from .command import Bad, count
from .layout import RIM
from .rows import Faces, Rows, as_csv
from .session import open_session

HELP = """\
The session, text or packed, has the mesh, the first field and the water of each step: fluxes, outside values, releases. The claims
are CSV with a heading, in one of two forms:

  step, then a column for each face        a row for each step; the heading has the faces by name or number
  step, face, moved                        a row for each step and face

Steps count from 1, as the run counts them, and go up. A mass is a whole number, positive from the first cell to the second and outward
at the rim; 50000.0 and 5e4 are whole too. A face that is not named, or has no figure, moves 0. Columns time and date are not read.

A claim is accepted where every size is at most 1,099,511,627,776, faces without water move 0, rim faces move what their water carries
(stage 1, on the field with its releases), no next mass is below 0, and every next q is within the bounds of its neighbourhood. The next
masses are then the field for the next step. A refused claim, and a step that the engine itself would refuse, leave the field as it is;
so does a step without a claim, unless --engine makes it. Verdict, place, in-mass, out-mass and masses are those of the proved call
`judge` of the library (`make lib`); the words beside a refusal are worked out here, and have to agree.

-o writes what was refused: step, cause, place, where, rule, found, allowed, by, words. The rule is size, still or rim (cause 21; found
is the mass claimed), or below 0, below lo or above hi (cause 22; found is the next mass, allowed the least or the most of it); by is how
far it is off. Of a step that the engine itself refuses there are the words alone.

The exit status is 1 where a claim is refused.

examples:
  lagoon judge examples/judged.txt examples/judged.csv
  lagoon judge session.in claims.csv --engine -o refused.csv
"""

MOST_CLAIM = 1 << 40
WORD = 1 << 63                          # a mass lent to the call is below it in size
MOST_STEP = 10 ** 9
NOT_FACES = ("", "step", "time", "date")
COLUMNS = ("step", "cause", "place", "where", "rule", "found", "allowed", "by", "words")       # of -o

# Why a claim is refused: the rule that it breaks, what was found, what is allowed, and how far it is off.
Fault = namedtuple("Fault", "refusal rule found allowed by")


# ---------------------------------------------------------------- The claims

class Claims:
    """The masses claimed, by step, in either form of the table."""

    def __init__(self, path, session):
        self.rows, self.faces, self.labels = Rows(path, ("step",)), Faces(session.mesh, session.labels), session.labels
        self.total = len(session.mesh.faces)
        self.long = {"face", "moved"} <= set(self.rows.at)
        self.columns = {} if self.long else self.by_column()

    def by_column(self):
        """The face of each column that has one."""
        found = {}
        for column, words in enumerate(self.rows.heading):
            if words.lower() not in NOT_FACES:
                face = self.face(1, words)
                if face in found.values():
                    raise self.rows.bad(1, f"two columns of {self.labels.of(FACE, face)}")
                found[column] = face
        return found

    def face(self, line, words):
        try:
            return self.faces.of(words)
        except Bad as bad:
            raise self.rows.bad(line, bad) from None

    def by_step(self):
        """Number and claim of each step that has one, a mass for each face."""
        held, claim = 0, {}
        for line, row in self.rows.rows():
            step = self.rows.whole(line, row, "step", 1, MOST_STEP)
            if step < held or (step == held and not self.long):
                raise self.rows.bad(line, f"step {step} after step {held}: the steps of a table go up")
            if step > held:
                if held:
                    yield held, [claim.get(face, 0) for face in range(self.total)]
                held, claim = step, {}
            for face, moved in self.figures(line, row):
                if face in claim:
                    raise self.rows.bad(line, f"a second mass of {self.labels.of(FACE, face)} in step {step}")
                claim[face] = moved
        yield held, [claim.get(face, 0) for face in range(self.total)]

    def figures(self, line, row):
        """Face and mass of each figure of a row."""
        if self.long:
            return [(self.face(line, self.rows.word(row, "face")), self.mass(line, row, "moved"))]
        return [(face, self.mass(line, row, column)) for column, face in self.columns.items() if self.rows.word(row, column)]

    def mass(self, line, row, column):
        return self.rows.whole(line, row, column, -WORD, WORD - 1)


# ---------------------------------------------------------------- Why a claim is refused

def face_fault(mesh, step, raised, claim):
    """Cause 21, at the lowest face."""
    fluxes, outsides, _ = step
    for place, (face, flux, moved) in enumerate(zip(mesh.faces, fluxes, claim)):
        refused = lambda words: Refusal(21, FACE, place, words)
        if abs(moved) > MOST_CLAIM:
            by = abs(moved) - MOST_CLAIM
            return Fault(refused(f"{moved:,} moves, {by:,} more than the largest claim"), "size", moved, MOST_CLAIM, by)
        if flux == 0 and moved:
            return Fault(refused(f"{moved:,} moves where no water does"), "still", moved, 0, abs(moved))
        carried = flux * (raised[face.first] // mesh.volumes[face.first] if flux > 0 else outsides[place])
        if face.second == RIM and moved != carried:
            by = abs(moved - carried)
            salt = "lost" if moved > carried else "made of nothing"
            return Fault(refused(f"{moved:,} moves where the water carries {carried:,}: {by:,} {salt}"), "rim", moved, carried, by)
    return None


def cell_fault(mesh, step, raised, claim):
    """Cause 22, at the lowest cell."""
    after = list(raised)
    for face, moved in zip(mesh.faces, claim):
        after[face.first] -= moved
        if face.second != RIM:
            after[face.second] += moved
    lowest, highest = bounds(mesh, step, raised)
    for place, (mass, volume, lo, hi) in enumerate(zip(after, mesh.volumes, lowest, highest)):
        least, most = volume * lo, volume * hi + volume - 1
        refused = lambda words: Refusal(22, CELL, place, words)
        if mass < 0:
            return Fault(refused(f"a next mass of {mass:,}"), "below 0", mass, 0, -mass)
        if mass > most:
            return Fault(refused(f"next q {mass // volume:,} above {hi:,}, the highest it meets: {mass - most:,} too much"), "above hi", mass, most,
                         mass - most)
        if mass < least:
            return Fault(refused(f"next q {mass // volume:,} below {lo:,}, the lowest it meets: {least - mass:,} too little"), "below lo", mass, least,
                         least - mass)
    return None


def bounds(mesh, step, raised):
    """lo and hi of each cell: its own q, that across each face with water, and the outside value where it enters over the rim."""
    own = [mass // volume for mass, volume in zip(raised, mesh.volumes)]
    lowest, highest = list(own), list(own)
    fluxes, outsides, _ = step
    for face, flux, outside in zip(mesh.faces, fluxes, outsides):
        if flux == 0 or (face.second == RIM and flux > 0):
            continue
        met = [(face.first, outside)] if face.second == RIM else [(face.first, own[face.second]), (face.second, own[face.first])]
        for cell, q in met:
            lowest[cell], highest[cell] = min(lowest[cell], q), max(highest[cell], q)
    return lowest, highest


# ---------------------------------------------------------------- Judging

class Judge(engine.Tabled):
    """A field that is carried on by accepted claims, and by the engine's steps where there is none; it keeps the last fault of a claim."""

    fault = None

    def claim_refusal(self, step, claim):
        if claim is None:
            return None
        raised = [mass + release for mass, release in zip(self.masses, step[2])]
        self.fault = face_fault(self.mesh, step, raised, claim) or cell_fault(self.mesh, step, raised, claim)
        return self.fault and self.fault.refusal


class Verdicts:
    """All steps of a session judged: a line for each, the budget, and the rows of -o."""

    def __init__(self, session, claims, judge, by_engine):
        self.session, self.claims, self.judge, self.by_engine = session, claims, judge, by_engine
        self.lines, self.budget, self.steps, self.claimed, self.refused = [], budget.Budget(session), 0, 0, 0

    def rows(self):
        """A row for each refusal, as it comes."""
        claims = self.claims.by_step()
        step, claim = next(claims)
        for self.steps, (_, damage) in enumerate(self.session.steps(), 1):
            if step != self.steps and not self.by_engine:
                self.lines.append(f"step {self.steps}: no claim")
                continue
            moment = self.judge.after(self.steps, damage, claim if step == self.steps else None)
            self.budget.add(moment)
            self.lines.append(self.line(moment, step == self.steps))
            if moment.refusal:
                yield self.row(moment)
            if step == self.steps:
                self.claimed, self.refused = self.claimed + 1, self.refused + bool(moment.refusal)
                step, claim = next(claims, (0, None))
        if step:
            raise Bad(f"{self.claims.rows.path}: a claim for step {step}, and the session has {count(self.steps, 'step')}")

    def line(self, moment, claimed):
        who = "" if claimed else "by the engine, "
        if moment.refusal:
            return f"step {moment.number}: {who}refused: {causes.told(moment.refusal, self.session.labels)}"
        entered, gone, released = (sum(part.values()) for part in (moment.entered, moment.gone, moment.released))
        return f"step {moment.number}: {who}accepted: in {entered:,}, out {gone:,}, released {released:,}"

    def row(self, moment):
        refusal, fault = moment.refusal, self.judge.fault
        figures = fault[1:] if fault and fault.refusal is refusal else [""] * 4
        where = self.session.labels.of(refusal.thing, refusal.place) if refusal.thing else ""
        return [moment.number, refusal.cause, refusal.place, where, *figures, refusal.words]

    def report(self, name):
        mesh, unit = self.session.mesh, self.session.labels.units.get("mass")
        head = [f"Claims of {self.claims.rows.path} judged on {name}" + (f", masses in units of {unit}" if unit else ""),
                f"{count(len(mesh.volumes), 'cell')}, {count(len(mesh.faces), 'face')} ({len(mesh.rim):,} at the rim); "
                f"{count(self.steps, 'step')}, {count(self.claimed, 'claim')}, {self.claimed - self.refused:,} accepted, {self.refused:,} refused"]
        return [*head, "", *self.lines, "", *budget.sums([self.budget], self.session)]


def arguments(words):
    parser = command.parser("lagoon judge", __doc__, HELP)
    parser.add_argument("file", help="the session, text or packed (- is standard input)")
    parser.add_argument("claims", help="the masses that the other model has moved, CSV (- is standard input)")
    parser.add_argument("-o", "--output", metavar="FILE",
                        help="write what was refused, and by how much (- is standard output; the report is then on standard error)")
    parser.add_argument("--engine", action="store_true", help="make the steps without a claim by the engine's corrected step")
    parser.add_argument("--calls", metavar="PROGRAM", help="a program `calls` that judges instead of the library")
    return parser.parse_args(words)


def main(words):
    options = arguments(words)
    if options.file == options.claims == "-":
        raise Bad("only one of the two can be standard input")
    command.keep_apart([options.output], [options.file, options.claims, *engine.read_by(options)])
    session = open_session(options.file)
    calls = engine.asker(options.calls)
    verdicts = Verdicts(session, Claims(options.claims, session), Judge(session, calls), options.engine)
    refused = [COLUMNS, *verdicts.rows()]
    calls.finish()
    if options.output:
        command.write_whole(options.output, as_csv(refused))
    lines = "\n".join(verdicts.report(command.named(options.file)))
    command.say(lines) if options.output == "-" else print(lines)
    return 1 if verdicts.refused or verdicts.budget.difference() else 0
