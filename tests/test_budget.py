#!/usr/bin/env python3
"""lagoon budget beside the run program and the reference: sums by rim face, refusals in words, and months that follow one another.

    python3 tests/test_budget.py
"""

import csv
import io
import re
import stat
import unittest

from toolcase import (CHANNEL, ONE_SIDED, ROOT, RUN, TIDE, breaks, command, equal, folder, holds, interrupted, known, plain_run, refuses, without_calls)

import generate
import lagoon
from package import layout, sessiontext


def figures(report):
    """The numbers of a report by their words."""
    found = re.findall(r"^ *(\S.*?) +[-+=]? +(-?[\d,]+)$", report, re.MULTILINE)
    return {words: int(value.replace(",", "")) for words, value in found}


def both(report):
    """The two numbers of each row of a report with plain upwind, by their words."""
    found = re.findall(r"^ *(\S.*?) +[-+=]? +(-?[\d,]+) +(-?[\d,]+)$", report, re.MULTILINE)
    return {words: tuple(int(value.replace(",", "")) for value in values) for words, *values in found}


class Budget(unittest.TestCase):
    def test_the_tide(self):
        status, out, said = command("budget", ROOT / "examples" / "tide.txt", "--run", RUN)
        equal((status, said), (0, ""), "the tide's budget")
        report = out.decode()
        equal(figures(report), {"first total": 245000000, "in, face 0 (sea)": 210000000, "in, face 8 (river)": 1568000, "in, all rim faces": 211568000,
                                "released, all cells": 0,
                                "out, face 0 (sea)": 270312000, "out, face 8 (river)": 1851900, "out, all rim faces": 272163900,
                                "last total": 184404100, "difference": 0}, "its figures")
        holds("49 steps, 48 accepted, 1 refused" in report and "masses in units of g" in report, report)
        holds("1 step refused by cause 9: a cell whose inflow and outflow differ\n  step 25: cell 0: 300 enters, 299 leaves (cause 9)\n" in report, report)

    def test_any_step(self):
        """The field after any step, refused ones included, is what the same steps alone end with."""
        with folder() as made:
            for step, steps in ((0, ""), (3, "step times 3\n"), (10, "step times 10\n")):
                equal(command("budget", ROOT / "examples" / "tide.txt", "--field", f"{made}/at", "--at", step)[0], 0, f"step {step}")
                cut = TIDE[:TIDE.index("step times 10")] + (steps + TIDE[TIDE.index("face 0 flux -300"):TIDE.index("step times 14")] if steps else "")
                equal(command("budget", "--field", f"{made}/alone", data=cut.encode())[0], 0, f"{step} steps alone")
                with open(f"{made}/at", "rb") as at, open(f"{made}/alone", "rb") as alone:
                    equal(at.read(), alone.read(), f"the field after step {step}")
            for step in (24, 25):
                command("budget", ROOT / "examples" / "tide.txt", "--field", f"{made}/{step}", "--at", step)
            with open(f"{made}/24", "rb") as before, open(f"{made}/25", "rb") as after:
                equal(before.read(), after.read(), "a refused step changes nothing")
        refuses("--at 50: the session has 49 steps", "budget", ROOT / "examples" / "tide.txt", "--at", "50", "--field", "/dev/null")
        refuses("--at says of which step --field is", "budget", "--at", "5", data=CHANNEL.encode())
        refuses("two outputs cannot both be standard output", "budget", "--csv", "-", "--field", "-", data=CHANNEL.encode())

    def test_beside_the_reference(self):
        """Sums of the lines that the reference prints, of generated sessions; and every row of --csv."""
        tried = released = 0
        for number in range(40):
            data = generate.session(23, number).data
            lines = [line.split() for line in lagoon.run(data).splitlines()]
            status, out, said = command("budget", "--run", RUN, "--csv", "-", data=data)
            if lines[0][0] in "MF":
                holds(status == 1 and f"(cause {lines[0][1]})" in said, f"session {number}: {lines[0]} {said}")
                continue
            tried += 1
            steps = [line for line in lines if line[0] != "B"]
            accepted = [line for line in steps if line[1] != "R"]
            found = figures(said)
            released += sum(int(line[4]) for line in accepted)
            words = ("first total", "in, all rim faces", "out, all rim faces", "released, all cells", "last total", "difference")
            sums = [sum(int(line[i]) for line in accepted) for i in (1, 2, 4)]
            equal((status, *(found[each] for each in words)), (0, int(steps[0][3]), *sums, int(accepted[-1][3]), 0), f"session {number}")
            rows = list(csv.reader(io.StringIO(out.decode())))[1:]
            equal(len(rows), len(steps), f"session {number}, rows")
            for row, line in zip(rows, steps):
                wanted = [line[0], "0", "0", row[3], "0", *line[2:]] if line[1] == "R" else [*line, "", ""]
                equal(row[:7], wanted, f"session {number}, row {line[0]}")
                equal((sum(map(int, row[7::2])), sum(map(int, row[8::2]))), (int(row[1]), int(row[2])), f"session {number}, row {line[0]}, by face")
        holds(tried > 10 and released > 0, f"only {tried} sessions with steps, released {released}")

    def test_outfalls(self):
        """What was released, by cell, with its name; and a release that the field refuses."""
        session = CHANNEL.replace("field", "name cell 1 pump\nfield") + "step times 2\nface 0 flux 0\ncell 1 release 20000\ncell 2 release 5\n" \
            + "step\ncell 0 release 99900001\n"
        status, out, said = command("budget", "--run", RUN, data=session.encode())
        report = out.decode()
        equal((status, said, figures(report)), (0, "", {
            "first total": 100000, "in, face 0": 100000, "in, all rim faces": 100000, "released, cell 1 (pump)": 40000, "released, cell 2": 10,
            "released, all cells": 40010, "out, all rim faces": 0, "last total": 240010, "difference": 0}), report)
        holds("1 step refused by cause 18: too high a concentration with a release\n  step 5: cell 0: mass 100,099 and release 99,900,001 in volume "
              "100 are a concentration of 1,000,001, above 1,000,000 (cause 18)\n" in report, report)

    def test_plain(self):
        """The first-order answer beside the corrected one: of four steps of the channel."""
        status, out, said = command("budget", "--plain", "--run", RUN, data=CHANNEL.replace("times 2", "times 4").encode())
        report = out.decode()
        equal((status, said), (0, ""), "the channel with plain upwind")
        equal(both(report), {"first total": (100000, 100000), "in, face 0": (200000, 200000), "in, all rim faces": (200000, 200000),
                             "released, all cells": (0, 0), "out, face 3": (30400, 37500), "out, all rim faces": (30400, 37500),
                             "last total": (269600, 262500), "difference": (0, 0)}, report)
        holds("corrected  plain upwind\n" in report, report)
        holds("last fields farthest apart in cell 1: corrected q 1,000, rest 99; plain q 937, rest 50\n" in report, report)
        holds("plain upwind, 4 accepted steps: m / V of every cell is less than 4 from steps that round nothing" in report, report)
        still = CHANNEL[:CHANNEL.index("step times 2")] + "step\ncell 0 release 99900100\n"
        report = command("budget", "--plain", data=still.encode())[1].decode()
        holds("both last fields are the same\n" in report and report.count("cause 18") == 2, f"refused by both, and no plain step is accepted: {report}")

    def test_plain_beside_the_reference(self):
        """Every row of --csv by plain steps of the reference, of generated sessions, and the other columns as without --plain."""
        tried = apart = 0
        for number in range(24):
            data = generate.session(29, number).data
            lines = [line.split() for line in plain_run(data).splitlines() if line[0] != "B"]
            if lines[0][0] in "MF":
                continue
            tried += 1
            status, out, said = command("budget", "--plain", "--csv", "-", data=data)
            alone = command("budget", "--csv", "-", data=data)[1]
            equal((status, both(said)["difference"]), (0, (0, 0)), f"session {number}: {said}")
            rows, corrected = (list(csv.reader(io.StringIO(text.decode()))) for text in (out, alone))
            wide = len(corrected[0])
            equal([row[:wide] for row in rows], corrected, f"session {number}, the corrected steps")
            equal(rows[0][wide:], [f"plain {head}" for head in rows[0][1:wide]], f"session {number}, heads")
            for row, line in zip(rows[1:], lines, strict=True):
                wanted = ["0", "0", row[wide + 2], "0", *line[2:]] if line[1] == "R" else [*line[1:], "", ""]
                equal(row[wide:wide + 6], wanted, f"session {number}, row {line[0]}")
                apart += row[wide:] != row[1:wide]
        holds(tried > 10 and apart > 10, f"only {tried} sessions with steps, {apart} steps with other figures")

    def test_wide_records(self):
        """The same budget in records of either width; and of a large bay, whose plain steps are made from wide records too."""
        wide = CHANNEL.replace("mesh", "mesh wide", 1)
        with folder() as made:
            reports = [command("budget", "--plain", "--run", RUN, "--field", f"{made}/{number}", data=text.encode())
                       for number, text in enumerate((CHANNEL, wide))]
            equal(reports[1], reports[0], "the channel, wide and not")
            for number, kind in enumerate((layout.NARROW.field, layout.WIDE.field)):
                with open(f"{made}/{number}", "rb") as file:
                    record = file.read()
                equal((layout.kind_of(record), layout.masses_in(record)), (kind, [100099, 81188, 18713]), "its last field")
        bay = ROOT / "examples" / "bay-wide.txt"
        status, out, said = command("budget", bay, "--plain", "--run", RUN)
        equal((status, said), (0, ""), "a large bay")
        data, _ = sessiontext.pack(bay.read_text())
        totals = [int(lines(data).splitlines()[3].split()[3]) for lines in (lagoon.run, plain_run)]
        equal((both(out.decode())["last total"], both(out.decode())["difference"]), (tuple(totals), (0, 0)), out.decode())

    def test_refused_by_one_alone(self):
        """A release that is too much for one of the two fields."""
        session = CHANNEL.replace("step times 2", "step") + ONE_SIDED
        status, out, said = command("budget", "--plain", "--run", RUN, data=session.encode())
        report = out.decode()
        equal((status, said, both(report)["released, all cells"], both(report)["difference"]), (0, "", (99950100, 99900001), (0, 0)), report)
        holds("  step 2: cell 0: mass 100,099 and release 99,900,001" in report, report)
        holds("refused by plain upwind:\n1 step refused by cause 18" in report, report)
        holds("  step 3: cell 1: mass 50,000 and release 99,950,100" in report, report)

    def test_months_follow_one_another(self):
        """The second half from the last field of the first gives the whole."""
        with folder() as made:
            half = TIDE.index("step            # refused")
            parts = {"whole": TIDE, "first": TIDE[:half], "second": TIDE[:TIDE.index("step times 10")] + TIDE[half:]}
            for name, text in parts.items():
                with open(f"{made}/{name}.txt", "w") as file:
                    file.write(text)
            sums = {}
            for name in parts:
                more = ["--field", f"{made}/first.field"] if name == "second" else []
                equal(command("pack", f"{made}/{name}.txt", *more, "-o", f"{made}/{name}.in")[0], 0, f"{name} packed")
                status, out, said = command("budget", f"{made}/{name}.in", "--field", f"{made}/{name}.field", "--run", RUN)
                equal((status, said), (0, ""), name)
                sums[name] = figures(out.decode())
            for words in ("in, all rim faces", "out, face 0", "out, face 8"):
                equal(sums["first"][words] + sums["second"][words], sums["whole"][words], words)
            equal(sums["first"]["last total"], sums["second"]["first total"], "the second begins where the first ends")
            fields = {name: open(f"{made}/{name}.field", "rb").read() for name in parts}
            equal(fields["second"], fields["whole"], "the last field of the second half and of the whole")
            holds(fields["first"] != fields["whole"], "the halves differ")
            equal(sum(layout.masses_in(fields["whole"])), 184404100, "the last field's total")
            refuses("a mesh of 3 cells", "pack", ROOT / "examples" / "channel.txt", "--field", f"{made}/first.field")
            refuses("is no field record", "pack", ROOT / "examples" / "channel.txt", "--field", f"{made}/first.txt")

    def test_many_refusals(self):
        """Refusals that differ are listed up to a number, and counted."""
        session = CHANNEL + "".join(f"step\nface 0 flux -{n}\n" for n in range(1, 31)) + "step times 5\nface 1 flux 200\n"
        status, out, _ = command("budget", "--run", RUN, data=session.encode())
        report = out.decode()
        holds("30 steps refused by cause 9" in report and "5 steps refused by cause 8: a flux too large for its face" in report, report)
        holds("  step 3: cell 0: 1 enters, 0 leaves (cause 9)" in report and "  and 11 more" in report, report)

    def test_an_engine_that_differs(self):
        """A run program that prints otherwise, or is none, is said; so is a library that is none."""
        data, _ = sessiontext.pack(CHANNEL)
        with folder() as made:
            program = f"{made}/run"
            for printed, wanted in ((lagoon.run(data), 0), (lagoon.run(data).replace("150000", "150001"), 1), ("", 1)):
                with open(program, "w") as file:
                    file.write(f"#!/bin/sh\ncat > {made}/session\ncat <<'END'\n{printed}END\n")
                (ROOT / program).chmod(stat.S_IRWXU)
                status, _, said = command("budget", "--run", program, data=data)
                holds(status == wanted and ("by the C call" in said) == bool(wanted), f"beside a program that prints {printed[:40]!r}: {said}")
            with open(f"{made}/lib.a", "w") as file:
                file.write("no archive")
            refuses("has no call lagoon_step", "budget", "--library", f"{made}/lib.a", data=data)
            refuses("has no call lagoon_step", "budget", "--library", program, data=data)
            refuses("nowhere.a is not there", "budget", "--library", "nowhere.a", data=data)
            refuses("nowhere: No such file", "budget", "--run", "nowhere", data=data)

    def test_the_command(self):
        known("budget")
        breaks("budget", ROOT / "examples" / "tide.txt")
        interrupted("budget")
        refuses("<stdin>:2:15: a volume", "budget", data=b"mesh\ncell 0 volume x\n")
        refuses("the mesh is refused: cell 0: volume 0", "budget", data=CHANNEL.replace("volume 100", "volume 0", 1).encode())
        refuses("nowhere: No such file", "budget", "nowhere")
        without_calls("budget", data=CHANNEL.encode())
        tide = ROOT / "examples" / "tide.txt"
        refuses("is read", "budget", tide, "--field", tide)


if __name__ == "__main__":
    unittest.main()
