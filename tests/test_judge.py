#!/usr/bin/env python3
"""lagoon judge: its example, claims of generated sessions beside the reference, both forms of a table, and each rule that refuses.

    python3 tests/test_judge.py
"""

import csv
import io
import random
import re
import unittest

from toolcase import CHANNEL, ROOT, RUN, breaks, command, equal, folder, holds, interrupted, known, refuses, session_of

import generate
import lagoon
import script
from package import calls, layout
from package import command as tool

SESSION, CLAIMS = ROOT / "examples" / "judged.txt", ROOT / "examples" / "judged.csv"
MOST = lagoon.MOST_CLAIMED

REPORT = """\
3 cells, 4 faces (2 at the rim); 5 steps, 5 claims, 3 accepted, 2 refused

step 1: accepted: in 50,000, out 0, released 0
step 2: accepted: in 50,000, out 0, released 0
step 3: refused: face 0 (inlet): -51,000 moves where the water carries -50,000: 1,000 made of nothing (cause 21)
step 4: refused: cell 0 (outer bay): next q 1,024 above 1,000, the highest it meets: 2,362 too much (cause 22)
step 5: accepted: in 50,000, out 9,350, released 0

first total              100,000
  in, face 0 (inlet)   + 150,000
in, all rim faces      + 150,000
released, all cells    +       0
  out, face 3 (outlet) -   9,350
out, all rim faces     -   9,350
last total             = 240,650
difference                     0
"""


def judged(session, table, *options):
    """Status, output and words of the tool on a session and a table that are given as text or bytes."""
    with folder() as made:
        for name, text in (("session", session), ("claims.csv", table)):
            with open(f"{made}/{name}", "wb") as file:
                file.write(text if isinstance(text, bytes) else text.encode())
        status, out, said = command("judge", f"{made}/session", f"{made}/claims.csv", *options)
    return status, out.decode(), said.replace(made + "/", "")


def long_form(table):
    """The example's table with a row for each step and face."""
    heads, *rows = csv.reader(io.StringIO(table))
    return "step,face,moved\n" + "".join(f"{row[0]},{head},{moved}\n" for row in rows for head, moved in zip(heads[1:], row[1:]))


class Others:
    """Claims of another model for a session, near to the engine's steps and far from them, and what the reference says of each."""

    def __init__(self, rng, data):
        self.rng, self.session, self.engine = rng, session_of(data), script.Engine(lagoon)
        mesh = self.session.mesh
        self.cells, self.faces, self.masses = len(mesh.volumes), len(mesh.faces), list(self.session.masses)
        self.mesh = [list(mesh.volumes), *([face[column] for face in mesh.faces] for column in range(4))]
        self.verdicts, self.claims = [], []

    def all(self):
        for _, damage in self.session.steps():
            try:
                if damage:
                    raise damage
                water = calls.water(self.session.mesh, self.session.source.step(self.session.mesh))
            except layout.Damage as found:
                self.claims.append([0] * self.faces)
                self.verdicts.append((found.cause,))
                continue
            self.claims.append(self.claim(*water))
            self.verdicts.append(self.verdict(*water))
        return self

    def claim(self, fluxes, outsides, releases):
        """What the corrected or the plain step moves; in half of the claims, one entry is another."""
        moved, spare = [0] * self.faces, [0] * (4 * self.cells + self.faces)
        try:
            step = self.rng.choice((self.engine.step, self.engine.plain_step))
            step(self.cells, self.faces, *self.mesh, list(self.masses), fluxes, outsides, [0] * self.cells, moved, spare, releases)
        except lagoon.Refusal:
            pass
        if self.faces and self.rng.random() < 0.5:
            face = self.rng.randrange(self.faces)
            moved[face] = self.rng.choice((0, moved[face] + 1, moved[face] - 1, -moved[face], 2 * moved[face], MOST, -MOST - 1))
        return moved

    def verdict(self, fluxes, outsides, releases):
        following = [0] * self.cells
        try:
            answer = self.engine.judge(self.cells, self.faces, *self.mesh, list(self.masses), fluxes, outsides, following, self.claims[-1], releases)
        except lagoon.Refusal as refusal:
            return refusal.cause, refusal.place
        self.masses = following
        return answer

    def table(self):
        return "step" + "".join(f",{face}" for face in range(self.faces)) + "\n" + "".join(
            f"{step}," + ",".join(map(str, claim)) + "\n" for step, claim in enumerate(self.claims, 1))


class Judge(unittest.TestCase):
    def test_the_example(self):
        """A step of plain upwind, the engine's own, one that makes salt, one without a limiter, and one that is neither of the engine's."""
        with folder() as made:
            status, out, said = command("judge", SESSION, CLAIMS, "-o", f"{made}/refused.csv")
            rows = list(csv.DictReader(open(f"{made}/refused.csv")))
        equal((status, said), (1, ""), "the example's claims")
        equal(out.decode().split("\n", 1)[1], REPORT, "its verdicts and its budget")
        equal([(row["step"], row["cause"], row["where"], row["rule"], row["found"], row["allowed"], row["by"]) for row in rows],
              [("3", "21", "face 0 (inlet)", "rim", "-51000", "-50000", "1000"),
               ("4", "22", "cell 0 (outer bay)", "above hi", "102461", "100099", "2362")], "what was refused, and by how much")
        own = "".join(line for line in open(CLAIMS) if line[0] not in "345")
        equal(judged(SESSION.read_text().replace("times 5", "times 2"), own)[0], 0, "status where no claim is refused")

    def test_forms_of_the_table(self):
        """Faces by name and by number, in columns and in rows, with semicolons, decimals and columns that are not read."""
        wide, session = CLAIMS.read_text(), SESSION.read_text()
        for table in (long_form(wide), wide.replace("inlet,bar,sill,outlet", "0,face 1,face 2 (sill),face outlet"),
                      wide.replace(",", ";").replace("\n", ";x\n").replace("outlet;x", "outlet;time"),
                      wide.replace("9350", "9.35e3").replace("-50000", "-50000.0"),
                      wide.replace(",0", ","), "\ufeff" + wide.replace("\n", "\r\n"), long_form(wide).replace("1,outlet,0\n", ""),
                      wide.replace(",", ";").replace("36000", "36000,00")):
            status, out, said = judged(session, table)
            equal((status, said, out.split("\n", 1)[1]), (1, "", REPORT), table)

    def test_steps_without_a_claim(self):
        """They leave the field, or the engine makes them."""
        first, second = "step,1\n2,50000\n", "step,0,1,2,3\n2,-50000,50000,18713,0\n"
        status, out, _ = judged(CHANNEL, second)
        holds(status == 1 and "step 1: no claim\nstep 2: refused: cell 2: next q 187 above 0" in out, out)
        status, out, _ = judged(CHANNEL, second, "--engine")
        holds(status == 0 and "step 1: by the engine, accepted: in 50,000, out 0, released 0\nstep 2: accepted: in 50,000, out 0, released 0\n" in out, out)
        holds("2 steps, 1 claim, 1 accepted, 0 refused" in out and re.search("last total +=  *200,000\n", out), out)
        status, out, _ = judged(CHANNEL + "step\nface 0 flux -1\n", first, "--engine")
        holds("step 2: refused: face 0: 0 moves where the water carries -50,000: 50,000 lost (cause 21)\n"
              "step 3: by the engine, refused: cell 0: 1 enters, 0 leaves (cause 9)\n" in out, out)

    def test_each_rule(self):
        """One mass more or less at each edge, on the channel and on still water: the words, and by how much."""
        water = CHANNEL.replace("step times 2", "step")
        half = water.replace("cell 1 mass 0", "cell 1 mass 50000")
        still = CHANNEL[:CHANNEL.index("step times 2")] + "step\n"
        for session, claim, words in (
                (water, (-50000, 49901, 0, 0), "accepted"), (water, (-50000, 50000, 0, 0), "accepted"),
                (water, (-50000, 49900, 0, 0), "cell 0: next q 1,001 above 1,000, the highest it meets: 1 too much (cause 22)"),
                (water, (-50000, 100099, 0, 0), "accepted"),
                (water, (-50000, 100100, 0, 0), "cell 1: next q 1,001 above 1,000, the highest it meets: 1 too much (cause 22)"),
                (water, (-50000, 150001, 0, 0), "cell 0: a next mass of -1 (cause 22)"),
                (half, (-50000, 100000, 50000, 0), "accepted"),
                (half, (-50000, 100001, 50000, 0), "cell 0: next q 499 below 500, the lowest it meets: 1 too little (cause 22)"),
                (water, (-49999, 50000, 0, 0), "face 0: -49,999 moves where the water carries -50,000: 1 lost (cause 21)"),
                (water, (-50001, 50000, 0, 0), "face 0: -50,001 moves where the water carries -50,000: 1 made of nothing (cause 21)"),
                (water, (-50000, 50000, 0, 1), "face 3: 1 moves where the water carries 0: 1 lost (cause 21)"),
                (water, (-50000, MOST, 0, 0), f"cell 0: a next mass of {150000 - MOST:,} (cause 22)"),
                (water, (-50000, MOST + 1, 0, 0), f"face 1: {MOST + 1:,} moves, 1 more than the largest claim (cause 21)"),
                (water, (-50000, -MOST - 1, 0, 0), f"face 1: {-MOST - 1:,} moves, 1 more than the largest claim (cause 21)"),
                (water, (-50000, -1 << 63, 0, 0), "more than the largest claim (cause 21)"),
                (still, (0, 0, 0, 0), "accepted"), (still, (0, 1, 0, 0), "face 1: 1 moves where no water does (cause 21)"),
                (still, (0, 0, 0, -1), "face 3: -1 moves where no water does (cause 21)")):
            _, out, said = judged(session, f"step,0,1,2,3\n1,{','.join(map(str, claim))}\n")
            words = "step 1: accepted" if words == "accepted" else words
            holds(words in out, f"{claim}: '{words}' should be in '{out}{said}'")

    def test_beside_the_reference(self):
        """Verdict, place, answer and last total of each step of generated sessions."""
        rng, met = random.Random(11), set()
        for number in range(60):
            data = generate.session(31, number).data
            try:
                others = Others(rng, data).all()
            except tool.Bad:
                continue
            if not others.claims:
                continue
            status, out, said = judged(data, others.table(), "-o", "-")
            rows = list(csv.DictReader(io.StringIO(out)))
            lines = [line for line in said.splitlines() if line.startswith("step ")]
            equal(len(lines), len(others.verdicts), f"session {number}: {said}")
            for step, (line, verdict) in enumerate(zip(lines, others.verdicts), 1):
                met.add(verdict[0] if len(verdict) < 3 else "accepted")
                if len(verdict) == 3:
                    equal(line, "step {}: accepted: in {:,}, out {:,}, released {:,}".format(step, *verdict), f"session {number}")
                else:
                    row = next(row for row in rows if row["step"] == str(step))
                    equal((int(row["cause"]), *[int(row["place"])] * (len(verdict) > 1)), verdict, f"session {number}, step {step}: {line}")
            equal((status, re.findall(r"last total +=  *([\d,]+)", said), re.findall(r"difference  *([\d,]+)", said)),
                  (int(any(len(verdict) < 3 for verdict in others.verdicts)), [f"{sum(others.masses):,}"], ["0"]), f"session {number}: {said}")
        holds({"accepted", 9, 12, 21, 22} <= met, f"the claims came to {met}")

    def test_bad_tables(self):
        for table, words in (("", "the heading should have one column 'step'"), ("step,0\n", "there is no row under the heading"),
                             ("step,ocean\n1,5\n", "claims.csv:1: 'ocean' is no face of the mesh (0 to 3) nor the name of one"),
                             ("step,0,face 0\n1,5,5\n", "claims.csv:1: two columns of face 0"), ("step,0\n1,5\n1,5\n", "claims.csv:3: step 1 after step 1"),
                             ("step,0\n2,5\n1,5\n", "claims.csv:3: step 1 after step 2"),
                             ("step,face,moved\n1,0,5\n1,face 0,5\n", "claims.csv:3: a second mass of face 0 in step 1"),
                             ("step,face,moved\n1,,5\n", "claims.csv:2: '' is no face"),
                             ("step,face,moved\n1,0,\n", "claims.csv:2: moved should be a whole number"),
                             ("step,0\n0,5\n", "claims.csv:2: step should be a whole number from 1"),
                             ("step,0\n1,0.5\n", "claims.csv:2: 0 should be a whole number"),
                             ("step,0\n1,1e400\n", "not '1e400'"), ("step,0\n1,1_0\n", "not '1_0'"),
                             ("step,0\n1,9223372036854775808\n", "not '9223372036854775808'"),
                             ("step,0\n3,5\n", "claims.csv: a claim for step 3, and the session has 2 steps")):
            status, out, said = judged(CHANNEL, table)
            holds((status, out) == (1, "") and words in said and said.count("\n") == 1, f"{table!r}: '{words}' should be in '{said}'")
        named = CHANNEL.replace("mesh\n", "name face 0 sea\nname face 3 sea\nname face 1 2\nmesh\n", 1)
        for words, said in (("sea", "'sea' may be face 0 and face 3"), ("2", "'2' may be face 1 and face 2")):
            holds(said in judged(named, f"step,{words}\n1,5\n")[2], f"a word for two faces: {words}")

    def test_the_command(self):
        known("judge")
        interrupted("judge", SESSION, "-")
        breaks("judge", ROOT / "examples" / "channel.txt", "-", data=b"step,0,1,2,3\n1,-50000,50000,0,0\n")
        refuses("is read", "judge", SESSION, CLAIMS, "-o", CLAIMS)
        refuses("only one of the two", "judge", "-", "-")
        refuses("nowhere: No such file", "judge", SESSION, "nowhere")
        refuses("nowhere is not there: `make calls` makes it", "judge", SESSION, CLAIMS, "--calls", "nowhere")
        refuses("asked for judge, says 'M 13 0'", "judge", SESSION, CLAIMS, "--calls", RUN)
        refuses("the mesh is refused: cell 0: volume 0", "judge", "-", CLAIMS, data=CHANNEL.replace("volume 100", "volume 0", 1).encode())
        with folder() as made:
            program = f"{made}/calls"
            for said, words in (("refused 21 2", "finds face 0: -51,000 moves where"),
                                ("accepted 50000 0 1; next 1 2 3", "in, out and released are (50000, 0, 1)")):
                with open(program, "w") as file:
                    file.write("#!/bin/sh\nread script\necho 'judge: accepted 50000 0 0; next 100000 50000 0'\nread script\n"
                               f"echo 'judge: accepted 50000 0 0; next 100099 81151 18750'\nread script\necho 'judge: {said}'\n")
                (ROOT / program).chmod(0o700)
                refuses(words, "judge", SESSION, CLAIMS, "--calls", program)


if __name__ == "__main__":
    unittest.main()
