#!/usr/bin/env python3
"""Compares the engine's programs with the reference: the run on sessions, the host's call on records, calls on scripts, and the calls from C.

    compare.py --run RUN --call DRIVER --script CALLS --library ALL --sessions 2000 --seed 1    fixed cases: equal, and every cause reached
    compare.py --run RUN --call DRIVER --script CALLS --library ALL --soak 600 --seed 17        fresh seeds from 17 on, for 600 seconds
    compare.py --run RUN --call DRIVER --script CALLS --library ALL --slips                     with each slip in the reference: must differ

RUN is the run program, DRIVER a build of call_driver.c with the engine's library (several may be given), CALLS the
program calls, ALL a build of calls_driver.c, which makes every call of the header: on the tables of the scripts and the records of the
calls; python3:PATH takes a Python program with run and host_step instead, for a script the one that script.py asks.
Exit status 0: as it should be. 1: a mismatch, which is kept as it is and made small; a cause that was never
reached; or a slip that was not seen.
"""

import argparse
import itertools
import sys
import time
from collections import Counter, namedtuple
from multiprocessing import Pool, cpu_count
from pathlib import Path

HERE = Path(__file__).resolve().parent
sys.path.insert(0, str(HERE))

import engines
import from_c
import generate
import generate_script
import header
import script
import shrink
from slips import ALL_SLIPS, ANSWER_SLIPS, CALL_SLIPS, CUT_SLIPS, RUN_SLIPS, SLIPS

BLOCK = 20              # sessions, and as many calls and scripts, that one process compares at a time
WAVE = 400              # sessions of one seed in a soak
SLIP_CASES = 400        # a slip has to show within so many sessions and calls
ENOUGH = 20             # mismatches after which a comparison ends, so that one of them is small
LARGE = 1 << 20         # bytes; more than any case has
SHRINK_SECONDS = 30
SHOWN = 300             # characters of a line that differs
EACH = 4                # calls on records that the library makes of a case

# Causes that the run can meet, per record; 13 and a mesh's 1 with their places.
LONG_PRODUCT = "a·G past 64 bits"               # cases with a proportional part whose product is 2^64 or more (document 02, S-10)
REACHABLE = [LONG_PRODUCT, "M 11", "M 13/0", "M 1/0", "M 1/1", "M 12", "M 3", "M 4", "M 5",
             "F 11", "F 13/0", "F 13/1", "F 6",
             "R 11", "R 13/0", "R 13/1", "R 12", "R 18", "R 7", "R 8", "R 9", "R 10"]
CALL_REACHABLE = REACHABLE + ["N 2/11"]         # N: the bytes lent for the next field

# Causes that each call of a script can meet, 1, 2, 13 and 24 with their places.
COUNTS, MESH = "1/0 1/1", "2/0 2/1 2/2 2/3 2/4"
CELLS = "1/0 2/0 2/5 3 6"
STEP = f"{COUNTS} {MESH} 2/5 2/6 2/7 2/8 2/9 2/10 2/14 3 4 5 6 18 7 8 9 10"
SCRIPT_CAUSES = {
    "counts_within": COUNTS,
    "check_mesh": f"{COUNTS} {MESH} 3 4 5",
    "check_field": f"{COUNTS} {MESH} 2/5 3 4 5 6",
    "check_cells": CELLS,
    "check_step": STEP,
    "total": CELLS,
    "step": STEP,
    "plain_step": STEP,
    "judge": STEP.replace(" 2/10", "") + " 21 22",
    "cut": f"{COUNTS} {MESH} 2/5 2/6 2/7 2/14 2/15 3 4 5 23 24/0 24/1 6 18 7 8 9 10",
    "mesh_length": f"11 13/0 {COUNTS}",
    "field_length": "11 13/0 13/1 1/0",
    "step_length": "11 13/0 13/1 1/0 1/1 2/2",
    "read_mesh": f"11 13/0 {COUNTS} {MESH} 12",
    "read_field": "11 13/0 13/1 1/0 2/5",
    "read_step": "11 13/0 13/1 1/0 1/1 2/2 2/6 2/7 2/14 12",
    "write_mesh": f"{COUNTS} {MESH} 2/11 3 4 5",
    "write_field": f"{COUNTS} {MESH} 2/5 2/11 3 4 5 6",
    "write_step": f"{COUNTS} {MESH} 2/6 2/7 2/11 2/14 3 4 5 18 7 8",
    "number_at": "past",
    "board": CELLS,
    "lagoon_step": "11 13/0 13/1 1/0 1/1 12 3 4 5 6 18 7 8 9 10 2/11",
    "take_mesh": f"11 13/0 {COUNTS} {MESH} 12 3 4 5",
    "take_field": "11 13/0 13/1 1/0 2/0 2/5 3 6",
    "take_step": f"11 13/0 13/1 1/0 1/1 {MESH} 2/5 2/6 2/14 12 3 4 5 6 18 7 8 9 10",
    "page": "1/0 2/0 2/5 2/12 3 6 14",
    "keep": "1/0 2/0 2/5 2/13 3 6 13/1 15 16",
    "drop": "1/0 2/13 13/1 17",
    "give_back": "1/0 2/0 2/5 2/13 3 13/1 17 6",
    "middle_stage": "bad nothing",
    "face_share": "19 20",
    "add": "1/1 2/2 2/9 2/16 26",
    "charge": "25 2/17 2/18 26",
    "public_page": "1/0 2/0 2/5 2/12 2/19 3 6 14 27",
    "public_board": "1/0 2/0 2/5 2/19 3 6 27",
}
FAULTS = ["not a number", "too large", "no such call", "a minus where none may stand", "a table too long",
          "a call too long", "the input ends within a call"]
SCRIPT_REACHABLE = [f"{name} {cause}" for name, causes in SCRIPT_CAUSES.items()
                    for cause in ["accepted", *causes.split()]] + FAULTS + [LONG_PRODUCT]

# And those that each call of the library can meet.
LIBRARY_CAUSES = {**{name: SCRIPT_CAUSES[called] for name, (called, _) in from_c.ON_TABLES.items()}, **from_c.RECORD_CAUSES}
DECLARED = [call.name for call in header.declared()]
NOT_FROM_C = {"bit", *(() if "lagoon_table_cut" in DECLARED else CUT_SLIPS)}     # slips of calls that the library has not
LIBRARY_REACHABLE = [f"{name} {cause}" for name in DECLARED if name in LIBRARY_CAUSES for cause in ["accepted", *LIBRARY_CAUSES[name].split()]]

Mismatch = namedtuple("Mismatch", "engine seed number kinds size records", defaults=[False])        # records: of a call on records from C


# ---------------------------------------------------------------- Counting of causes

def name_cause(letter, cause, place):
    exact = cause in (13, 2) or (letter == "M" and cause == 1)
    return f"{letter} {cause}/{place}" if exact else f"{letter} {cause}"


def causes_of_text(text):
    """The causes in a run's output, and how many steps it accepted."""
    found = Counter()
    for line in text.splitlines():
        words = line.split()
        if words[0] in ("M", "F"):
            found[name_cause(words[0], int(words[1]), int(words[2]))] += 1
        elif words[1] == "R":
            found[name_cause("R", int(words[2]), int(words[3]))] += 1
        elif words[0] not in ("0", "B"):
            found["accepted"] += 1
    return found


def cause_of_call(reference, case, number):
    """The cause with the record that it refused."""
    if number == 0:
        return "accepted"
    cause, place = divmod(number, 1 << 32)
    if (cause, place) == (2, reference.RECORD):
        return name_cause("N", cause, place)
    letter = "M"
    try:
        mesh = reference.accept_mesh(case.mesh)
        letter = "F"
        reference.accept_field(case.field, mesh, reference.is_wide(reference.kind_of(case.mesh)))
        letter = "R"
    except reference.Refusal:
        pass
    return name_cause(letter, cause, place)


def script_cause(cause, place):
    return f"{cause}/{place}" if cause in (1, 2, 13, 24) else f"{cause}"


def causes_of_script(text):
    """The answers in what calls printed, by the name of the call; and the fault that ended it, if one did."""
    found = Counter()
    for line in text.splitlines():
        name, said = line.split(";")[0].split(":", 1)
        words = said.split()
        if name == "bad input":
            found[line.split(": ")[-1]] += 1
        elif name == "lagoon_step":
            cause, place = divmod(int(words[0]), 1 << 32)
            found[f"{name} {script_cause(cause, place) if cause else 'accepted'}"] += 1
        elif words[0] == "refused":
            found[f"{name} {script_cause(int(words[1]), int(words[2]))}"] += 1
        else:
            found[f"{name} {words[0]}"] += 1
    return found


def library_cause(name, answer):
    return f"{name} {script_cause(*divmod(answer, from_c.PLACE)) if answer else 'accepted'}"


class Tally:
    """What a comparison has come to so far."""

    def __init__(self):
        self.sessions = self.calls = self.scripts = self.made = 0
        self.run_causes, self.call_causes, self.script_causes, self.library_causes = Counter(), Counter(), Counter(), Counter()
        self.mismatches = []

    def add(self, other):
        self.sessions += other.sessions
        self.calls += other.calls
        self.scripts += other.scripts
        self.made += other.made
        self.run_causes += other.run_causes
        self.call_causes += other.call_causes
        self.script_causes += other.script_causes
        self.library_causes += other.library_causes
        self.mismatches += other.mismatches

    def never_reached(self):
        """Reachable causes with no case, each with the side that never met it."""
        missing = []
        if self.sessions:
            missing += ["run: " + cause for cause in REACHABLE if self.run_causes[cause] == 0]
        if self.calls:
            missing += ["call: " + cause for cause in CALL_REACHABLE if self.call_causes[cause] == 0]
        if self.scripts:
            missing += ["script: " + cause for cause in SCRIPT_REACHABLE if self.script_causes[cause] == 0]
        if self.made:
            missing += ["library: " + cause for cause in LIBRARY_REACHABLE if self.library_causes[cause] == 0]
        return missing

    def show(self):
        """Prints how often each cause was met: M, F and R for a refused mesh, field and step, N for too little room."""
        for title, causes, wanted in (("run", self.run_causes, REACHABLE), ("call", self.call_causes, CALL_REACHABLE)):
            if causes:
                show_causes(title, causes, ["accepted"] + wanted + sorted(set(causes) - set(wanted) - {"accepted"}))
        if self.scripts:
            show_calls(SCRIPT_CAUSES, self.script_causes)
            show_causes("no script", self.script_causes, FAULTS)
            show_causes("scripts", self.script_causes, [LONG_PRODUCT])
        if self.made:
            print("calls from C")
            show_calls({name: LIBRARY_CAUSES[name] for name in DECLARED if name in LIBRARY_CAUSES}, self.library_causes)


def show_causes(title, causes, names):
    print(f"{title}: " + ", ".join(f"{name}: {causes[name]}" for name in names))


def show_calls(wanted, causes):
    for name, words in wanted.items():
        met = {key.split(" ", 1)[1]: count for key, count in causes.items() if key.startswith(name + " ")}
        named = ["accepted", *words.split()]
        show_causes(name, Counter(met), named + sorted(set(met) - set(named)))


# ---------------------------------------------------------------- Comparison

class Once:
    """A program, or a maker of cases, that is asked for each case once."""

    def __init__(self, program):
        self.program, self.answers = program, {}

    def __call__(self, *case):
        if case not in self.answers:
            self.answers[case] = self.program(*case)
        return self.answers[case]

    def finish(self):
        return self.program.finish()


class Programs:
    """The engine's programs, and what makes their cases; each asked once where many slips meet the same cases."""

    def __init__(self, run, calls, script, library=None, once=False):
        asked = Once if once else lambda program: program
        self.run_path, self.run = run, run and asked(engines.run_program(run))
        self.drivers = {path: asked(engines.driver(path)) for path in calls}
        self.script_path, self.script = script, script and asked(engines.script_program(script))
        self.library_path, self.library = library, library and asked(engines.CallsDriver(library))
        self.make_session, self.make_call, self.make_script = map(asked, (generate.session, generate.call, generate_script.script))
        self.paths = [path for path in [run, *calls, script, library] if path]


class Sides:
    """The reference, right or with a slip in it, and the engine's programs."""

    def __init__(self, programs, slip=None):
        self.reference = engines.load(HERE / "lagoon.py", "reference_lagoon")
        if slip:
            ALL_SLIPS[slip](self.reference)
        self.long_products = 0
        self.count_long_products()
        self.programs = programs
        self.run, self.drivers, self.script = programs.run, programs.drivers, programs.script
        self.library = programs.library and from_c.Beside(programs.library, self.reference)

    def count_long_products(self):
        """The reference's proportional parts are counted where their product has more than 64 bits."""
        right = self.reference.portion

        def portion(a, G, P):
            self.long_products += a * G >= script.WORD
            return right(a, G, P)

        self.reference.portion = portion

    def with_products(self, causes, make):
        """What the reference makes of a case, with the case counted where it has a long product."""
        before = self.long_products
        made = make()
        causes[LONG_PRODUCT] += self.long_products > before
        return made

    def expected_call(self, case):
        return engines.with_room(*self.reference.host_step(*case), case[3])

    def session(self, tally, seed, number):
        case = self.programs.make_session(seed, number)
        expected = self.with_products(tally.run_causes, lambda: self.reference.run(case.data))
        tally.sessions += 1
        tally.run_causes += causes_of_text(expected)
        if self.run(case.data, case.piece) != expected:
            tally.mismatches.append(Mismatch(self.programs.run_path, seed, number, case.kinds, len(case.data)))

    def call(self, tally, seed, number, paths):
        case = self.programs.make_call(seed, number)
        expected = self.with_products(tally.call_causes, lambda: self.expected_call(case[1:]))
        tally.calls += 1
        tally.call_causes[cause_of_call(self.reference, case, expected[0])] += 1
        for path in paths:
            if self.drivers[path](*case[1:]) != expected:
                size = len(engines.stream(*case[1:]))
                tally.mismatches.append(Mismatch(path, seed, number, case.kinds, size))

    def play(self, tally, seed, number, by_script, by_library):
        """A script through the program calls, and each of its calls that the library has through that."""
        case = self.programs.make_script(seed, number)
        made = []
        expected = self.with_products(tally.script_causes, lambda: self.expected_script(case.text, made if by_library else None))
        if by_script:
            tally.scripts += 1
            tally.script_causes += causes_of_script(expected)
            if self.script(case.text) != expected:
                tally.mismatches.append(Mismatch(self.programs.script_path, seed, number, case.kinds, len(case.text)))
        if not self.all_same(tally, made):
            tally.mismatches.append(Mismatch(self.programs.library_path, seed, number, case.kinds, len(case.text)))

    def expected_script(self, text, made=None):
        """What calls prints; where a list is given, the library's calls are made too and put there."""
        beside = None if made is None else lambda *call: made.append(self.library.of_script(*call, len(made)))
        return script.answer(text, self.reference, beside)

    def all_same(self, tally, made):
        """Whether the library's answers are the reference's; they are counted."""
        made = [call for call in made if call]
        tally.made += len(made)
        tally.library_causes.update(library_cause(name, answer) for name, answer, _ in made)
        return all(same for _, _, same in made)

    def on_records(self, tally, seed, number):
        """Calls on records through the library."""
        case = self.programs.make_call(seed, number)
        if not self.all_same(tally, self.library.of_records(case, seed, number, EACH)):
            tally.mismatches.append(Mismatch(self.programs.library_path, seed, number, case.kinds, sum(map(len, case[1:4])), True))

    def block(self, seed, numbers, paths=None):
        """Compares so many cases through the programs at these paths, else through all."""
        tally, paths = Tally(), self.programs.paths if paths is None else paths
        drivers = [path for path in self.drivers if path in paths]
        for number in numbers:
            if self.programs.run_path in paths:
                self.session(tally, seed, number)
            if drivers:
                self.call(tally, seed, number, drivers)
            by_script, by_library = (path and path in paths for path in (self.programs.script_path, self.programs.library_path))
            if by_script or by_library:
                self.play(tally, seed, number, by_script, by_library)
            if by_library:
                self.on_records(tally, seed, number)
        ending = {**self.drivers, **({self.programs.library_path: self.programs.library} if self.library else {})}
        for path, driver in ending.items():
            if driver.finish():
                tally.mismatches.append(Mismatch(path, seed, numbers[-1], ("the end of the driver",), LARGE))
        return tally

    def run_differs(self, data):
        return self.run(data) != self.reference.run(data)

    def script_differs(self, text):
        return self.script(text) != self.expected_script(text)

    def from_c_differs(self, text):
        made = []
        self.expected_script(text, made)
        return any(call and not call[2] for call in made)

    def call_differs(self, path, case):
        driver = self.drivers[path]
        answer = driver(*case)
        return bool(driver.finish()) or answer != self.expected_call(case)


# Each process of a pool has its own sides, or for slips its own programs.

def prepare(slip, *paths):
    global sides
    sides = Sides(Programs(*paths), slip)


def prepare_slips(*paths):
    global programs
    programs = Programs(*paths, once=True)


def compare_block(block):
    return sides.block(*block)


def blocks(seed, count):
    return [(seed, range(start, min(start + BLOCK, count))) for start in range(0, count, BLOCK)]


def compare(pool, tally, seed, count):
    """Compares count sessions, and as many calls and scripts, of one seed; ends early after enough mismatches."""
    for part in pool.imap_unordered(compare_block, blocks(seed, count)):
        tally.add(part)
        if len(tally.mismatches) >= ENOUGH:
            return


def soak(pool, tally, seed, seconds):
    """One seed after another, until the time is over or something differs."""
    start = shown = time.monotonic()
    for seed in itertools.count(seed):
        for part in pool.imap_unordered(compare_block, blocks(seed, WAVE)):
            tally.add(part)
            now = time.monotonic()
            if len(tally.mismatches) >= ENOUGH or now - start >= seconds:
                return
            if now - shown >= 10:
                shown = now
                print(f"{now - start:.0f} s: seed {seed}, {tally.sessions} sessions, {tally.calls} calls, "
                      f"{tally.scripts} scripts, {len(tally.mismatches)} mismatches", flush=True)
        if tally.mismatches:
            return


# ---------------------------------------------------------------- Slips

def see_slip(task):
    """The first case of each program that tells the reference with this slip from the engine."""
    slip, paths, seed = task
    wrong, first = Sides(programs, slip), {}
    for number in range(1, SLIP_CASES):         # case 0 of the scripts is the largest, and slow
        unseen = [path for path in paths if path not in first]
        if not unseen:
            break
        for mismatch in wrong.block(seed, [number], unseen).mismatches:
            first.setdefault(mismatch.engine, number)
    return slip, [(path, first.get(path)) for path in paths]


def see_slips(paths, seed, jobs):
    """True where every slip was seen through every program; those of a run show in sessions, those of the host's call in calls and
    scripts, those of the answers in scripts; and but for those of calls that the library has not, all but a run's in its calls."""
    run, calls, script, library = paths
    runs, scripts, libraries = ([path] if path else [] for path in (run, script, library))
    shown = ((SLIPS, runs + calls + scripts + libraries), (CALL_SLIPS, calls + scripts + libraries), (RUN_SLIPS, runs),
             (ANSWER_SLIPS, scripts + libraries))
    tasks = [(slip, [path for path in among if path != library or slip not in NOT_FROM_C], seed) for slips, among in shown if among for slip in slips]
    all_seen = True
    with Pool(jobs, prepare_slips, paths) as pool:
        for slip, seen in pool.imap(see_slip, tasks):
            words = [f"{Path(path).name} case {number}" if number is not None else f"{Path(path).name} NOT SEEN"
                     for path, number in seen]
            print(f"slip {slip}: first mismatch of {', '.join(words)}", flush=True)
            all_seen = all_seen and all(number is not None for _, number in seen)
    return all_seen


# ---------------------------------------------------------------- Mismatches

def keep_mismatch(sides, mismatch, folder):
    """Writes the case, and the smallest one found that still differs, to the folder."""
    folder.mkdir(parents=True, exist_ok=True)
    name, seed, number = Path(mismatch.engine).name, mismatch.seed, mismatch.number
    print(f"MISMATCH of {name}: seed {seed}, case {number} ({', '.join(mismatch.kinds)})")
    base = f"{folder}/{name}-{seed}-{number}"
    if mismatch.engine == sides.programs.run_path:
        data = generate.session(seed, number).data
        write_session(sides, base, data)
        if sides.run_differs(data):
            write_session(sides, base + "-small", shrink.session(data, sides.run_differs, SHRINK_SECONDS))
        return
    if mismatch.engine == sides.programs.script_path and mismatch.engine not in sides.drivers:
        text = generate_script.script(seed, number).text
        write_script(sides, base, text)
        if sides.script_differs(text):
            write_script(sides, base + "-small", shrink.script(text, sides.script_differs, SHRINK_SECONDS))
        return
    if mismatch.engine == sides.programs.library_path:
        keep_from_c(sides, mismatch, base)
        return
    case = tuple(generate.call(seed, number)[1:])
    write_call(sides, base, mismatch.engine, case)
    differs = lambda *case: sides.call_differs(mismatch.engine, case)
    if differs(*case):
        write_call(sides, base + "-small", mismatch.engine, shrink.call(*case, differs, SHRINK_SECONDS))


def keep_from_c(sides, mismatch, base):
    """A call from C: the calls of a script that differ, as a script with the reference's answers; or the records of a case."""
    if mismatch.records:
        case = generate.call(mismatch.seed, mismatch.number)
        made = sides.library.of_records(case, mismatch.seed, mismatch.number, EACH)
        print("  " + ", ".join(f"{name} differs, which answers {answer}" for name, answer, same in made if not same))
        for name in ("mesh", "field", "step"):
            Path(f"{base}.{name}").write_bytes(getattr(case, name))
        print(f"  {base}.mesh, .field and .step")
        return
    text = generate_script.script(mismatch.seed, mismatch.number).text
    small = shrink.script(text, sides.from_c_differs, SHRINK_SECONDS) if sides.from_c_differs(text) else text
    Path(f"{base}.script").write_bytes(small)
    Path(f"{base}.expected").write_text(sides.expected_script(small))
    print(f"  {len(small)} bytes: {base}.script, with .expected by the reference\n  {small[:SHOWN].decode('ascii', 'replace').strip()}")


def write_session(sides, base, data):
    write_texts(base, "bin", data, sides.reference.run(data), sides.run(data))


def write_script(sides, base, text):
    write_texts(base, "script", text, sides.expected_script(text), sides.script(text))


def write_texts(base, kind, data, expected, actual):
    Path(f"{base}.{kind}").write_bytes(data)
    Path(f"{base}.expected").write_text(expected)
    Path(f"{base}.actual").write_text(actual)
    print(f"  {len(data)} bytes: {base}.{kind}, with .expected and .actual")
    pairs = itertools.zip_longest(expected.splitlines(), actual.splitlines(), fillvalue="(nothing)")
    for line, (a, b) in enumerate(pairs, 1):
        if a != b:
            print(f"  line {line}: expected {a[:SHOWN]}; got {b[:SHOWN]}")
            break


def write_call(sides, base, path, case):
    mesh, field, step, room = case
    driver = sides.drivers[path]
    lines = [f"mesh {mesh.hex(' ')}", f"field {field.hex(' ')}", f"step {step.hex(' ')}", f"room {room}"]
    for title, answer in (("expected", sides.expected_call(case)), ("actual", driver(*case))):
        if not isinstance(answer, str):
            cause, place = divmod(answer[0], 1 << 32)
            answer = f"answer {answer[0]} (cause {cause}, place {place}), room {answer[1].hex(' ')}"
        lines.append(f"{title}: {answer}")
    lines.append(driver.finish())
    Path(f"{base}.bin").write_bytes(engines.stream(*case))
    Path(f"{base}.txt").write_text("\n".join(lines))
    print(f"  {len(mesh) + len(field) + len(step)} bytes of records: {base}.bin, in words in {base}.txt")
    for line in lines[4:6]:
        print("  " + line[:150])


# ---------------------------------------------------------------- Command line

def arguments():
    parser = argparse.ArgumentParser(description=__doc__, formatter_class=argparse.RawDescriptionHelpFormatter)
    parser.add_argument("--run", help="the run program")
    parser.add_argument("--call", action="append", default=[], help="a call driver; may be given more than once")
    parser.add_argument("--script", metavar="CALLS", help="the program calls")
    parser.add_argument("--library", metavar="ALL", help="a driver of all calls from C")
    parser.add_argument("--sessions", type=int, default=2000, help="sessions, and as many calls and scripts (2000)")
    parser.add_argument("--seed", type=int, default=1, help="the seed, in a soak the first one (1)")
    parser.add_argument("--jobs", type=int, default=cpu_count(), help="processes at a time (one per processor)")
    parser.add_argument("--soak", type=float, metavar="SECONDS", help="go on with fresh seeds for this time")
    parser.add_argument("--keep", type=Path, metavar="FOLDER", default=HERE.parent / "target" / "mismatch",
                        help="where a mismatch is kept (target/mismatch)")
    parser.add_argument("--slip", choices=ALL_SLIPS, help="make the reference wrong in one figure")
    parser.add_argument("--slips", action="store_true", help="each slip in turn has to be seen")
    options = parser.parse_args()
    if not options.run and not options.call and not options.script and not options.library:
        parser.error("give --run, --call, --script, --library or several of them")
    return options


def main():
    options = arguments()
    start, paths = time.monotonic(), (options.run, options.call, options.script, options.library)
    if options.slips:
        seen = see_slips(paths, options.seed, options.jobs)
        print(f"slips in {time.monotonic() - start:.0f} s: " + ("all seen" if seen else "NOT ALL SEEN"))
        return 0 if seen else 1
    tally = Tally()
    with Pool(options.jobs, prepare, (options.slip, *paths)) as pool:
        if options.soak is None:
            compare(pool, tally, options.seed, options.sessions)
        else:
            soak(pool, tally, options.seed, options.soak)
    if tally.mismatches:
        keep_mismatch(Sides(Programs(*paths), options.slip), min(tally.mismatches, key=lambda mismatch: mismatch.size), options.keep)
        return 1
    tally.show()
    missing = tally.never_reached() if options.soak is None else []
    if missing:
        print("NEVER REACHED: " + ", ".join(missing))
    print(f"{tally.sessions} sessions, {tally.calls} calls, {tally.scripts} scripts and {tally.made} calls from C "
          f"in {time.monotonic() - start:.0f} s, no mismatch")
    return 1 if missing else 0


if __name__ == "__main__":
    sys.exit(main())
