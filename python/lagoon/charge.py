"""The brine charge of a period: what left over each port's rim faces, charged by bands, with the remainder handed on. Document 02, S-13."""

from collections import namedtuple

from . import causes, command, engine
from .binder import stored_field
from .causes import FACE, Refusal
from .command import Bad, count, shown
from .rows import Faces, Rows, as_csv
from .session import open_session

HELP = """\
The session, text or packed, is the period. Every accepted step is made and added through the proved calls (`step` and `add`), and every
total is charged by the proved call `charge`, all of the library (`make lib`). A refused step is not added, and named. Mass that comes in
over a face is not set against what leaves.

All tables are CSV with a heading:

  tariff      end, price: 1 to 8 bands; rising ends, the first at least 1 and the last 1099511627776; a price is
              0 to 1,000,000 cents per million units of mass
  ports       port, face: a row for each rim face that a port pays for, by name or number
  remainders  face, remainder: what the last period handed on, in millionths of a cent, below 1,000,000; a face without
              a row has 0. A column name is compared with the session's names

The bill has, for each face, the mass in each band and its share in cents, the sum, the remainder of the last period, the whole cents to
pay and the remainder to hand on: sum and remainder before are cents and remainder after, so no part of a cent is lost. At its end all
rim faces together are held against the out-masses of the accepted steps, with which it closes.

-o writes the remainders to hand on, also those of faces that no port pays for in this period. --csv has a row for each face: port, face,
name, total, then mass, price and share of each band, sum, before, cents, remainder; shares and sums in cents. --field begins with
another field than the session's, so that a month goes on where the last one ended:

  lagoon charge june.txt tariff.csv ports.csv -o june.csv
  lagoon budget june.txt --field june.field
  lagoon charge july.txt tariff.csv ports.csv --field june.field --remainders june.csv -o july.csv

examples:
  lagoon charge examples/tide.txt examples/tariff.csv examples/ports.csv
  lagoon charge session.in tariff.csv ports.csv --remainders last.csv -o next.csv --csv bill.csv
"""

LAST_END = 1 << 40                      # and the most that a total comes to
UNITS = 1_000_000                       # millionths of a cent in a cent; the greatest price
MOST_BANDS = 8
WORD = 1 << 64

# What a port pays for a face: masses and shares by band, shares and remainders in millionths of a cent.
Bill = namedtuple("Bill", "port face total masses shares before cents after")


def cents(millionths):
    return f"{millionths // UNITS:,}.{millionths % UNITS:06}"


# ---------------------------------------------------------------- The tables

class Tariff:
    """The ends and prices of the bands."""

    def __init__(self, path):
        rows = Rows(path, ("end", "price"))
        self.path, self.lines, self.ends, self.prices = rows.path, [], [], []
        for line, row in rows.rows():
            self.lines.append(line)
            self.ends.append(rows.whole(line, row, "end", 0, WORD - 1))
            self.prices.append(rows.whole(line, row, "price", 0, WORD - 1))

    def masses(self, total):
        """What of a total lies in each band."""
        return [min(total, end) - min(total, begin) for begin, end in zip([0, *self.ends], self.ends)]

    def refusal(self, total, remainder):
        """Why a total is not charged."""
        if len(self.ends) > MOST_BANDS:
            return Refusal(25, "", 0, f"{self.path}: {len(self.ends)} bands, and a tariff has 1 to {MOST_BANDS}")
        if remainder >= UNITS:
            return Refusal(25, "", 0, f"a remainder of {remainder:,}, and it is below {UNITS:,}")
        for band, (line, begin, end, price) in enumerate(zip(self.lines, [0, *self.ends], self.ends, self.prices)):
            words = self.band_words(begin, end, price, band == len(self.ends) - 1)
            if words:
                return Refusal(25, "", band, f"{self.path}:{line}: {words}")
        return Refusal(26, "", 0, f"a total of {total:,}, above {LAST_END:,}") if total > LAST_END else None

    def band_words(self, begin, end, price, last):
        if end <= begin:
            return f"a band that ends at {end:,} and begins at {begin:,}"
        if last and end != LAST_END:
            return f"the last band ends at {end:,}, not at {LAST_END:,}"
        return f"a price of {price:,}, above {UNITS:,}" if price > UNITS else ""


def face_at(rows, faces, line, row):
    try:
        return faces.of(rows.word(row, "face"))
    except Bad as bad:
        raise rows.bad(line, bad) from None


def ports(path, session):
    """Port and face of each row."""
    rows, faces, found = Rows(path, ("port", "face")), Faces(session.mesh, session.labels), []
    for line, row in rows.rows():
        face = face_at(rows, faces, line, row)
        if face not in session.mesh.rim:
            raise rows.bad(line, f"{session.labels.of(FACE, face)} is not at the rim")
        if any(face == other for _, other in found):
            raise rows.bad(line, f"{session.labels.of(FACE, face)} has a port already")
        found.append((rows.name(line, row, "port"), face))
    return found


def remainders(path, session):
    """What the last period handed on, by face."""
    rows, faces, found = Rows(path, ("face", "remainder")), Faces(session.mesh, session.labels), {}
    for line, row in rows.rows():
        face = face_at(rows, faces, line, row)
        name, other = session.labels.names[FACE].get(face, ""), rows.word(row, "name") if "name" in rows.at else ""
        if name and other and other != name:
            raise rows.bad(line, f"face {face} is called {shown(other)} here and {shown(name)} in the session")
        if face in found:
            raise rows.bad(line, f"a second remainder of {session.labels.of(FACE, face)}")
        found[face] = rows.whole(line, row, "remainder", 0, WORD - 1)
    return found


# ---------------------------------------------------------------- The period

class Period:
    """The steps of a session, each accepted one added to the totals."""

    def __init__(self, session, calls, masses):
        self.labels, self.calls, self.walk = session.labels, calls, engine.Tabled(session, calls, masses)
        self.seconds, self.totals = [face.second for face in session.mesh.faces], [0] * len(session.mesh.faces)
        self.accepted, self.gone, self.refused = 0, 0, []
        for number, (_, damage) in enumerate(session.steps(), 1):
            moment = self.walk.after(number, damage)
            if moment.refusal:
                self.refused.append(f"step {number}: {causes.told(moment.refusal, session.labels)}")
            else:
                self.accepted, self.gone = self.accepted + 1, self.gone + sum(moment.gone.values())
                self.add(number)
        self.close(session.mesh.rim)

    def add(self, number):
        """Adds what the last step moved outward."""
        said, left = self.calls.ask("add", len(self.seconds), self.seconds, self.walk.moved, self.totals)
        if said[0] != "accepted":
            cause, face = map(int, said[1:])
            raise Bad(f"step {number}: {self.labels.of(FACE, face)}: {self.walk.moved[face]:,} more than {self.totals[face]:,} is past "
                      f"{LAST_END:,} (cause {cause}): end the period before this step")
        self.totals = left["totals"]

    def close(self, rim):
        """All rim faces together are the out-masses of the accepted steps."""
        if sum(self.totals) != self.gone or any(total for face, total in enumerate(self.totals) if face not in rim):
            raise Bad(f"the totals of all faces are {sum(self.totals):,}, the out-masses of the accepted steps {self.gone:,}")


def charged(calls, tariff, port, face, total, before):
    """The bill of a face, by the proved call; its shares have to come to the same."""
    said, _ = calls.ask("charge", total, len(tariff.ends), tariff.ends, tariff.prices, before)
    answer = tuple(map(int, said[1:]))
    if said[0] != "accepted":
        refusal = tariff.refusal(total, before)
        raise Bad(causes.told(refusal) if refusal and (refusal.cause, refusal.place) == answer else
                  f"the engine refuses the charge by cause {answer[0]}, place {answer[1]}, and here nothing like it is found")
    masses = tariff.masses(total)
    shares = [mass * price for mass, price in zip(masses, tariff.prices)]
    if divmod(sum(shares) + before, UNITS) != answer:
        raise Bad(f"cents and remainder are {answer} by the engine, {divmod(sum(shares) + before, UNITS)} by the bands")
    return Bill(port, face, total, masses, shares, before, *answer)


# ---------------------------------------------------------------- The bill

class Bills:
    """The bills of all ports, to read and as tables."""

    def __init__(self, session, tariff, period, found, handed):
        self.session, self.labels, self.tariff, self.period, self.bills, self.handed = session, session.labels, tariff, period, found, handed

    def report(self, name):
        unit, period = self.labels.units.get("mass"), self.period
        lines = [f"Brine charge of {name} by {self.tariff.path}" + (f", masses in units of {unit}" if unit else ""),
                 f"{count(period.accepted + len(period.refused), 'step')}, {period.accepted:,} accepted and added, "
                 f"{len(period.refused):,} refused and not added", *(f"  {words}" for words in period.refused)]
        for bill in self.bills:
            lines += ["", f"{bill.port}, {self.labels.of(FACE, bill.face)}: {bill.total:,} moved outward", *self.bands(bill)]
        return lines + ["", *self.paid(), *self.closing()]

    def bands(self, bill):
        rows = [("", "mass", "price", "cents")]
        rows += [(f"up to {end:,}", f"{mass:,}", f"{price:,}", cents(share))
                 for end, price, mass, share in zip(self.tariff.ends, self.tariff.prices, bill.masses, bill.shares) if mass or end == self.tariff.ends[0]]
        rows += [("sum", "", "", cents(sum(bill.shares))), ("remainder of the last period", "", "", cents(bill.before)),
                 ("to pay", "", "", cents(bill.cents * UNITS)), ("remainder to hand on", "", "", cents(bill.after))]
        first, *rooms = (max(len(row[column]) for row in rows) for column in range(4))
        return ["  " + "  ".join([f"{row[0]:{first}}", *(f"{word:>{room}}" for word, room in zip(row[1:], rooms))]) for row in rows]

    def paid(self):
        """What each port pays for all of its faces."""
        names = list(dict.fromkeys(bill.port for bill in self.bills))
        return [f"{name} pays {sum(bill.cents for bill in self.bills if bill.port == name):,} cents" for name in names]

    def closing(self):
        charged_faces = [bill.face for bill in self.bills]
        free = [face for face in self.session.mesh.rim if face not in charged_faces and self.period.totals[face]]
        return [*(f"no port pays for {self.labels.of(FACE, face)}: {self.period.totals[face]:,} moved outward" for face in free),
                f"all rim faces together: {sum(self.period.totals):,}, the out-masses of {count(self.period.accepted, 'accepted step')}: "
                "the bill closes with the budget"]

    def table(self):
        """The rows of --csv."""
        bands = range(len(self.tariff.ends))
        rows = [["port", "face", "name", "total", *(f"band {band} {word}" for band in bands for word in ("mass", "price", "share")),
                 "sum", "before", "cents", "remainder"]]
        exact = lambda millionths: cents(millionths).replace(",", "")
        for bill in self.bills:
            figures = [word for mass, price, share in zip(bill.masses, self.tariff.prices, bill.shares) for word in (mass, price, exact(share))]
            rows.append([bill.port, bill.face, self.name(bill.face), bill.total, *figures, exact(sum(bill.shares)), bill.before, bill.cents, bill.after])
        return as_csv(rows)

    def to_hand_on(self):
        """The remainders of the faces charged, and those of others as they were."""
        after = {**self.handed, **{bill.face: bill.after for bill in self.bills}}
        return as_csv([["face", "name", "remainder"], *([face, self.name(face), after[face]] for face in sorted(after))])

    def name(self, face):
        return self.labels.names[FACE].get(face, "")


# ---------------------------------------------------------------- The command

def arguments(words):
    parser = command.parser("lagoon charge", __doc__, HELP)
    parser.add_argument("file", help="the session of the period, text or packed (- is standard input)")
    parser.add_argument("tariff", help="ends and prices of the bands, CSV")
    parser.add_argument("ports", help="the faces of each port, CSV")
    parser.add_argument("--remainders", metavar="FILE", help="the remainders that the last period handed on, CSV (default: all 0)")
    parser.add_argument("-o", "--output", metavar="FILE", help="write the remainders to hand on")
    parser.add_argument("--csv", metavar="FILE", help="write the bill as a table")
    parser.add_argument("--field", metavar="FILE", help="begin with this field record instead of the session's field")
    parser.add_argument("--calls", metavar="PROGRAM", help="a program `calls` to ask instead of the library")
    return parser.parse_args(words)


def checked(options):
    """One input at most is standard input, and no output is an input or another output."""
    inputs = [path for path in (options.file, options.tariff, options.ports, options.remainders, options.field, options.calls) if path]
    if inputs.count("-") > 1:
        raise Bad("only one input can be standard input")
    outputs = [path for path in (options.output, options.csv) if path]
    command.keep_apart(outputs, [*inputs, *engine.read_by(options)])
    return outputs


def main(words):
    options = arguments(words)
    outputs = checked(options)
    session = open_session(options.file)
    tariff, faces = Tariff(options.tariff), ports(options.ports, session)
    handed = remainders(options.remainders, session) if options.remainders else {}
    masses = stored_field(session, options.field) if options.field else None
    calls = engine.asker(options.calls)
    period = Period(session, calls, masses)
    bills = Bills(session, tariff, period, [charged(calls, tariff, port, face, period.totals[face], handed.get(face, 0)) for port, face in faces], handed)
    calls.finish()
    if options.output:
        command.write_whole(options.output, bills.to_hand_on())
    if options.csv:
        command.write_whole(options.csv, bills.table())
    lines = "\n".join(bills.report(command.named(options.file)))
    command.say(lines) if "-" in outputs else print(lines)
    return 0
