"""The salt budget of a session: first total, what entered and left over each rim face, what was released, last total, and the difference."""

import csv
import io
from collections import Counter
from fractions import Fraction

from . import causes, command, engine
from .command import Bad, Output, count
from .session import open_session

HELP = """\
The session is text or packed. The engine steps through it, by the C call of the library (`make lib`); in-mass and out-mass are summed
here, face by face, as document 01 defines them, and releases cell by cell; the totals are those of the engine's fields. So the
difference, first total + in + released - out - last total, is a check: it is 0, and where it is not the exit status is 1.

--plain sets the first-order answer beside it: plain upwind (document 02, S-8) from the same first field, step by step, with a column of
its own in the report and columns of its own in --csv. Its error is a promise: each accepted plain step adds less than 1 to how far m / V
of a cell is from what the same steps give with no q rounded. --field is of the corrected steps, and so is what --run is held against.

--field writes the field after the last step as a record, with --at N that after step N. The next month begins with it:

  lagoon budget june.in --field june.field
  lagoon pack july.txt --field june.field -o july.in

--csv has a row for each step: step, in, out, total, released, cause and place of a refusal, then in and out of each rim face; with
--plain, then the same but the step's number by plain upwind.

examples:
  lagoon budget examples/tide.txt
  lagoon budget session.in --run target/bin/run --csv budget.csv --field last.field
  lagoon budget session.in --plain
"""

MOST_REFUSALS = 20


class Budget:
    """The sums of a session, step by step."""

    def __init__(self, session):
        self.first = self.last = sum(session.masses)
        self.rim, self.masses = session.mesh.rim, session.masses
        self.entered, self.gone = Counter(), Counter()          # by rim face
        self.released = Counter()                               # by cell
        self.accepted, self.refused, self.causes = 0, [], Counter()

    def add(self, moment):
        if moment.refusal:
            self.refuse(moment.number, moment.refusal)
        elif moment.number:
            self.accepted += 1
            self.entered.update(moment.entered)
            self.gone.update(moment.gone)
            self.released.update(moment.released)
            self.masses, self.last = moment.masses, sum(moment.masses)

    def refuse(self, number, refusal):
        """Equal refusals of steps that follow one another are one."""
        self.causes[refusal.cause] += 1
        if self.refused and self.refused[-1][1] == number - 1 and self.refused[-1][2] == refusal:
            self.refused[-1][1] = number
        else:
            self.refused.append([number, number, refusal])

    def refused_where(self):
        """Step, cause and place of each refusal."""
        return [(step, refusal.cause, refusal.place) for first, last, refusal in self.refused for step in range(first, last + 1)]

    def difference(self):
        return self.first + sum(self.entered.values()) + sum(self.released.values()) - sum(self.gone.values()) - self.last


def report(budgets, session, name):
    """The budget of the corrected steps and, where it is asked for, of plain upwind."""
    mesh, labels, corrected = session.mesh, session.labels, budgets[0]
    steps = corrected.accepted + sum(corrected.causes.values())
    unit = labels.units.get("mass")
    lines = [f"Salt budget of {name}" + (f", masses in units of {unit}" if unit else ""),
             f"{count(len(mesh.volumes), 'cell')}, {count(len(mesh.faces), 'face')} ({len(mesh.rim):,} at the rim); "
             f"{count(steps, 'step')}, {corrected.accepted:,} accepted, {sum(corrected.causes.values()):,} refused", ""]
    lines += sums(budgets, session) + refusals(corrected, labels)
    return lines + (beside(*budgets, session) if len(budgets) > 1 else [])


def sums(budgets, session):
    """First total, what came and went by rim face and cell, last total and difference, a column for each budget."""
    mesh, labels = session.mesh, session.labels
    rows = [("first total", "", [budget.first for budget in budgets])]
    for sign, words, thing, places, every in (("+", "in", "face", mesh.rim, "all rim faces"),
                                              ("+", "released", "cell", range(len(mesh.volumes)), "all cells"),
                                              ("-", "out", "face", mesh.rim, "all rim faces")):
        parts = [{"in": budget.entered, "released": budget.released, "out": budget.gone}[words] for budget in budgets]
        rows += [(f"  {words}, {labels.of(thing, place)}", sign, [each[place] for each in parts])
                 for place in places if any(each[place] for each in parts)]
        rows.append((f"{words}, {every}", sign, [sum(each.values()) for each in parts]))
    rows += [("last total", "=", [budget.last for budget in budgets]), ("difference", "", [budget.difference() for budget in budgets])]
    return columns(rows, ("corrected", "plain upwind") if len(budgets) > 1 else ("",))


def columns(rows, heads):
    """Words, a sign and a figure under each head; a single column has an empty head, which is not shown."""
    wide = max(len(row[0]) for row in rows)
    rooms = [max(len(head), *(len(f"{row[2][i]:,}") for row in rows)) for i, head in enumerate(heads)]
    line = lambda words, sign, values: f"{words:{wide}} {sign:1} " + "  ".join(f"{value:>{room}}" for value, room in zip(values, rooms))
    return [line("", "", heads)] * (len(heads) > 1) + [line(words, sign, [f"{value:,}" for value in values]) for words, sign, values in rows]


def refusals(budget, labels):
    if not budget.refused:
        return []
    lines = [""] + [f"{count(number, 'step')} refused by cause {cause}: {causes.IN_WORDS[cause]}" for cause, number in sorted(budget.causes.items())]
    for first, last, refusal in budget.refused[:MOST_REFUSALS]:
        lines.append(f"  {steps_words(first, last)}: {causes.told(refusal, labels)}")
    if len(budget.refused) > MOST_REFUSALS:
        lines.append(f"  and {len(budget.refused) - MOST_REFUSALS:,} more: `lagoon check` lists all")
    return lines


def beside(corrected, plain, session):
    """How far the two last fields are apart, what plain upwind's error is, and its refusals where they are others."""
    volumes = session.mesh.volumes
    apart = [abs(Fraction(mine - other, volume)) for mine, other, volume in zip(corrected.masses, plain.masses, volumes)]
    cell = apart.index(max(apart))
    said = [f"{words} q {budget.masses[cell] // volumes[cell]:,}, rest {budget.masses[cell] % volumes[cell]:,}"
            for words, budget in (("corrected", corrected), ("plain", plain))]
    far = f"last fields farthest apart in {session.labels.of('cell', cell)}: {'; '.join(said)}"
    lines = ["", far if apart[cell] else "both last fields are the same"]
    if plain.accepted:
        lines.append(f"plain upwind, {count(plain.accepted, 'accepted step')}: "
                     f"m / V of every cell is less than {plain.accepted:,} from steps that round nothing")
    if plain.refused_where() != corrected.refused_where():
        lines += ["", "refused by plain upwind:" if plain.refused else "plain upwind refuses no step", *refusals(plain, session.labels)[1:]]
    return lines


def steps_words(first, last):
    return f"step {first}" if first == last else f"steps {first} to {last}"


class Rows:
    """The rows of --csv."""

    def __init__(self, output, session, plain):
        self.output, self.rim, self.text = output, session.mesh.rim, io.StringIO()
        self.writer = csv.writer(self.text, lineterminator="\n")
        heads = ["in", "out", "total", "released", "cause", "place"]
        heads += [f"{words} {session.labels.of('face', face)}" for face in self.rim for words in ("in", "out")]
        self.row(["step", *heads, *([f"plain {head}" for head in heads] if plain else [])])

    def row(self, row):
        self.writer.writerow(row)
        self.output.write(self.text.getvalue().encode())
        self.text.seek(0)
        self.text.truncate()

    def add(self, moments):
        self.row([moments[0].number, *(figure for moment in moments for figure in self.figures(moment))])

    def figures(self, moment):
        refused = (moment.refusal.cause, moment.refusal.place) if moment.refusal else ("", "")
        faces = [sums.get(face, 0) for face in self.rim for sums in (moment.entered, moment.gone)]
        entered, gone, released = (sum(part.values()) for part in (moment.entered, moment.gone, moment.released))
        return [entered, gone, sum(moment.masses), released, *refused, *faces]


def walked(history, budgets, rows=None, at=None):
    """Adds every step to its budgets, and its row; gives the field record after step `at`, by default the last, None where there is none."""
    field = None
    for both in history.both():
        if both[0].number == at:
            field = history.corrected.field
        moments = both[:len(budgets)]
        for budget, moment in zip(budgets, moments):
            budget.add(moment)
        if rows:
            rows.add(moments)
    return history.corrected.field if at is None else field


def run(options):
    session = open_session(options.file)
    plain = engine.Plain(session.mesh, options.calls) if options.plain else None
    history = engine.History(session, options.library, options.run, plain)
    budgets = [Budget(session) for _ in range(2 if plain else 1)]
    if options.csv:
        with Output(options.csv) as output:
            field = walked(history, budgets, Rows(output, session, plain), options.at)
    else:
        field = walked(history, budgets, None, options.at)
    if plain:
        plain.calls.finish()
    if field is None:
        raise Bad(f"--at {options.at}: the session has {count(budgets[0].accepted + sum(budgets[0].causes.values()), 'step')}")
    if options.field:
        command.write_whole(options.field, field)
    lines = report(budgets, session, command.named(options.file))
    if options.csv == "-" or options.field == "-":
        command.say("\n".join(lines))
    else:
        print("\n".join(lines))
    return 1 if any(budget.difference() for budget in budgets) else 0


def arguments(words):
    parser = command.parser("lagoon budget", __doc__, HELP)
    parser.add_argument("file", nargs="?", default="-", help="the session, text or packed (default: standard input)")
    parser.add_argument("--csv", metavar="FILE", help="write a row for each step (- is standard output; the report is then on standard error)")
    parser.add_argument("--field", metavar="FILE", help="write the last field record, or with --at that after another step")
    parser.add_argument("--at", type=lambda text: command.whole(text, 0, 10 ** 12), metavar="N", help="--field is after step N; 0 is the first field")
    engine.options(parser)
    engine.plain_options(parser)
    return parser.parse_args(words)


def main(words):
    options = arguments(words)
    if options.at is not None and not options.field:
        raise Bad("--at says of which step --field is")
    command.keep_apart([options.csv, options.field], [options.file, *engine.read_by(options)])
    return run(options)
