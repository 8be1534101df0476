#!/usr/bin/env python3
"""make bench: the engine beside the same work in plain C, in one run, from a small lagoon to the largest.

Three kinds of work on the same lagoon: the step on tables, the host's call on records, and the run program; each once
more on the lagoon of large cells, at document 02's ceiling of 65,535 and in wide records. Plain C is there in two forms,
straightforward and tuned.
A time is the least processor time of many short runs, the programs in turn, since a shared machine only ever adds to it;
a process with one round is taken off, so that starting and making the lagoon do not count.
Instructions are those that valgrind's callgrind counts, and repeat exactly. The stack of the call is what tests/stack.c
finds touched, that of the run what valgrind's massif finds taken.
Prints tables in Markdown. Fails where two programs, or a program and the reference, print different things. Judges no time.
"""

import argparse
import functools
import os
import re
import subprocess
import sys
from collections import namedtuple
from pathlib import Path

TOP = Path(__file__).resolve().parent.parent
OUT = TOP / "target" / "bench"
sys.path.insert(0, str(TOP / "bench"))
sys.path.insert(0, str(TOP / "reference"))

import busy
import lagoon

STEPS = 16                              # in a round
WHOLE, EIGHTH = (63, 65), (16, 32)      # grids of 4,095 and 512 cells, for tables
LARGEST, SMALL = (33, 31), (16, 8)      # grids of 1,023 and 128 cells, for records and the run
COUNTED = 4                             # rounds, of which the first is taken off
REFERRED = 2                            # rounds that the reference takes too

# Callgrind counts `rep stosb` and `rep movsb` as an instruction for each byte, so memset and memcpy are kept from them.
NO_REP = "glibc.cpu.x86_rep_stosb_threshold=1000000000:glibc.cpu.x86_rep_movsb_threshold=1000000000"

PLAIN, TUNED = FORMS = ("plain", "tuned")
BENCH_STEP, RUN = TOP / "target" / "bin" / "bench_step", TOP / "target" / "bin" / "run"
LIBRARY = TOP / "target" / "lib" / "liblagoon.a"


def command(*words):
    done = subprocess.run([str(word) for word in words], cwd=TOP, capture_output=True)
    if done.returncode:
        sys.exit(f"bench: {' '.join(map(str, words))}\n{done.stdout.decode()}{done.stderr.decode()}")
    return done.stdout


def built(source, form, large):
    """The path of a plain C program in one of the forms, for one of the two lagoons."""
    return OUT / f"{source}_{form}{'_large' if large else ''}"


def build(engine_too):
    OUT.mkdir(parents=True, exist_ok=True)
    if engine_too:
        command("tools/prove.py", "bench_step", "run")
        command("tools/lib.sh")
    gcc = ("gcc", "-std=c11", "-O2", "-Wall", "-Wextra", "-Werror")     # quicker than -O3: bench/README.md
    for form in FORMS:
        for large in (False, True):
            defined = ["-DTUNED"] * (form == TUNED) + ["-DLARGE"] * large
            command(*gcc, *defined, "bench/yardstick.c", "-o", built("yardstick", form, large))
            command(*gcc, *defined, "bench/records.c", LIBRARY, "-o", built("records", form, large))


# ---------------------------------------------------------------- What is measured

def cells_of(size):
    return size[0] * size[1]


def faces_of(size):
    return 2 * cells_of(size)


@functools.cache
def session(size, rounds, large):
    """The path of a session for the run, written at its first use."""
    path = OUT / f"session-{size[0]}-{size[1]}-{rounds}-{large}"
    path.write_bytes(command(built("records", PLAIN, large), "session", *size, rounds))
    return path


class Program:
    """A program that takes so many rounds on a grid, from arguments or from a session; large: on that of large cells."""

    def __init__(self, *words, large, reads_session=False, told=False):
        self.words, self.large, self.reads_session, self.told = words, large, reads_session, told
        self.name = " ".join((words[0].name, *words[1:]))

    def start(self, before, size, rounds, **more):
        arguments = [] if self.reads_session else [*size, rounds, *([int(self.large)] if self.told else [])]
        source = open(session(size, rounds, self.large)) if self.reads_session else subprocess.DEVNULL
        words = [str(word) for word in (*before, *self.words, *arguments)]
        return subprocess.Popen(words, stdin=source, **more)

    def prints(self, size, rounds):
        process = self.start([], size, rounds, stdout=subprocess.PIPE)
        text = process.communicate()[0].decode()
        if process.returncode:
            sys.exit(f"bench: {self.name} ends with status {process.returncode}")
        return without_board(text)

    def seconds(self, size, rounds):
        """Processor time of a process."""
        process = self.start([], size, rounds, stdout=subprocess.DEVNULL)
        usage = os.wait4(process.pid, 0)[2]
        return usage.ru_utime + usage.ru_stime

    def under(self, tool, size, rounds):
        """What a tool of valgrind says of a process."""
        process = self.start(["valgrind", *tool], size, rounds, stdout=subprocess.DEVNULL, stderr=subprocess.PIPE,
                             env={**os.environ, "GLIBC_TUNABLES": NO_REP})
        return process.communicate()[1].decode()

    def instructions(self, size, rounds):
        said = self.under(["--tool=callgrind", "--callgrind-out-file=/dev/null"], size, rounds)
        return int(re.search(r"Collected : (\d+)", said).group(1))

    def stack(self, size):
        """Bytes of stack at the most."""
        path = OUT / "massif.out"
        self.under(["--tool=massif", "--stacks=yes", "--heap=no", "--peak-inaccuracy=0.0", f"--massif-out-file={path}"], size, 1)
        return max(map(int, re.findall(r"mem_stacks_B=(\d+)", path.read_text())))


def run_lines(width, height, large, rounds):
    """What a run prints of a session, without its board."""
    return without_board(lagoon.run(session((width, height), rounds, large).read_bytes()))


def without_board(text):
    return "".join(line for line in text.splitlines(True) if not line.startswith("B"))


# What is done; by plain C, straightforward and tuned, and by the engine; the grids on which it is done, the more cells first; and what the
# reference prints.
Work = namedtuple("Work", "name programs sizes reference")


def works_on(large):
    at = " at 65,535" if large else ""
    yardsticks = [Program(built("yardstick", form, large), large=large) for form in FORMS]
    records = [built("records", form, large) for form in FORMS]
    return [Work("step on tables" + at, [*yardsticks, Program(BENCH_STEP, large=large, told=True)],
                 (WHOLE, EIGHTH), busy.line_of_tables),
            Work("call on records" + at, [*(Program(path, "plain", large=large) for path in records),
                                          Program(records[0], "call", large=large)],
                 (LARGEST, SMALL), busy.line_of_records),
            Work("a step of the run" + at, [*(Program(path, "run", large=large, reads_session=True) for path in records),
                                            Program(RUN, large=large, reads_session=True)],
                 (LARGEST, SMALL), run_lines)]


WORKS = [*works_on(False), *works_on(True)]
MEASURED = [(program, size) for work in WORKS for size in work.sizes for program in work.programs]


def demand_equal(what, texts):
    if len(set(texts)) != 1:
        sys.exit(f"bench: {what} differ: {', '.join(repr(text[:100]) for text in texts)}")


def check_answers(rounds):
    """The reference's lines for some rounds, and each other's for many."""
    for work in WORKS:
        names = ", ".join(program.name for program in work.programs)
        for size in work.sizes:
            demand_equal(f"{names} and the reference", [*(program.prints(size, REFERRED) for program in work.programs),
                                                        work.reference(*size, work.programs[0].large, REFERRED)])
            demand_equal(names, [program.prints(size, rounds) for program in work.programs])


def times(repeats, many):
    """Microseconds of a step, by program and grid."""
    least = {}
    rounds = lambda size: many * cells_of(WHOLE) // cells_of(size)
    for _ in range(repeats):
        for program, size in MEASURED:
            for n in (1, rounds(size)):
                t = program.seconds(size, n)
                key = program, size, n
                least[key] = min(t, least.get(key, t))
    return {(program, size): (least[program, size, rounds(size)] - least[program, size, 1])
            / (STEPS * (rounds(size) - 1)) * 1e6 for program, size in MEASURED}


def counts():
    """Instructions of a step for each face, by program and grid."""
    return {(program, size): (program.instructions(size, COUNTED) - program.instructions(size, 1))
            / (STEPS * (COUNTED - 1)) / faces_of(size) for program, size in MEASURED}


def stacks():
    """Bytes of stack by name: of the calls that tests/stack.c makes, and of the run."""
    command("gcc", "-std=c11", "-O2", "-Iinclude", "-Iexamples", "tests/stack.c", LIBRARY, "-lpthread", "-o", OUT / "stack")
    calls = (line.split(" ", 1) for line in command(OUT / "stack").decode().splitlines())
    runs = (work for work in WORKS if work.name.startswith("a step of the run"))
    return {**{name: int(size) for size, name in calls}, **{work.name: work.programs[-1].stack(LARGEST) for work in runs}}


# ---------------------------------------------------------------- Report

def processor():
    """The processor's name, with family and model, since a virtual machine's name says little."""
    told = dict(re.findall(r"^(model name|cpu family|model)\s*: (.*)$", Path("/proc/cpuinfo").read_text(), re.MULTILINE))
    return f"{told['model name']}, family {told['cpu family']}, model {told['model']}"


def table(head, rows):
    lines = [head, ["---"] * len(head), *rows]
    return "".join(f"| {' | '.join(cells)} |\n" for cells in lines)


def rows_of(values, digits):
    for work in WORKS:
        for size in work.sizes:
            plain, tuned, engine = (values[program, size] for program in work.programs)
            yield [f"{work.name}, {cells_of(size):,} cells", *(f"{value:.{digits}f}" for value in (plain, tuned, engine)),
                   f"{engine / plain:.2f}", f"{engine / tuned:.2f}"]


def table_of(title, values, digits):
    return table([title, "plain C", "tuned C", "engine", "to plain", "to tuned"], rows_of(values, digits))


def table_of_stacks(taken):
    return table(["Stack", "bytes"], [[name, f"{size:,}"] for name, size in taken.items()])


def filled(page, mark, text):
    """The page with this text between the comment `mark` and the next `end`; times of a new processor come before those of the others."""
    begin = f"<!-- {mark} -->\n"
    if begin not in page:
        page = page.replace("<!-- times of others -->\n", f"<!-- times of others -->\n\n{begin}<!-- end -->\n")
    before, after = page.split(begin)
    return before + begin + text + after[after.index("<!-- end -->"):]


def main():
    parser = argparse.ArgumentParser(description=__doc__, formatter_class=argparse.RawDescriptionHelpFormatter)
    parser.add_argument("--repeats", type=int, default=40, help="short runs of which the least time counts (40)")
    parser.add_argument("--rounds", type=int, default=4, help="rounds on 4,095 cells, more on fewer (4)")
    parser.add_argument("--built", action="store_true", help="measure the engine as target/ has it")
    parser.add_argument("--counts-only", action="store_true", help="instructions and stack alone, which do not mind other load")
    parser.add_argument("--times-only", action="store_true", help="times alone")
    parser.add_argument("--divider", metavar="WORDS", help="of bench/slow_divider.py: what a division takes in these programs")
    parser.add_argument("--write", metavar="PAGE", type=Path, help="put the tables into this page, between its marks")
    options = parser.parse_args()
    build(engine_too=not options.built)
    check_answers(options.rounds)
    tables = {}
    if not options.times_only:
        tables = {"counts": table_of("Instructions of a step for each face", counts(), 0), "stack": table_of_stacks(stacks())}
    if not options.counts_only:
        name, told = processor(), f" ({options.divider})" if options.divider else ""
        if options.divider:
            name += ", with a divider made slow"
        tables[f"times on {name}"] = f"On {name}{told}:\n\n" + table_of("One step, in microseconds", times(options.repeats, options.rounds), 1)
    print("\n".join(tables.values()))
    if options.write:
        page = options.write.read_text()
        for mark, text in tables.items():
            page = filled(page, mark, text)
        options.write.write_text(page)


if __name__ == "__main__":
    main()
