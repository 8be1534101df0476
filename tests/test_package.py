#!/usr/bin/env python3
"""The package lagoon: its examples, docs/PYTHON.md, values from any sequences, sessions beside the reference, and pip without a network.

    python3 tests/test_package.py
"""

import ctypes
import importlib.util
import os
import re
import subprocess
import sys
import unittest
import zipfile
from array import array
from pathlib import Path

from toolcase import CHANNEL, ROOT, command, equal, folder, holds

import generate
import header
import lagoon as reference
from package import proved, sessions, sessiontext, shared, values
from package.layout import RIM
from package.values import Field, Mesh, Refused, Step, table

PAGE = ROOT / "docs" / "PYTHON.md"


def raises(kind, words, make):
    try:
        made = make()
    except kind as error:
        holds(words in str(error), f"'{words}' should be in '{error}'")
        return error
    raise AssertionError(f"{words}: nothing is raised, and {made!r} comes")


def channel(**more):
    return Mesh([100, 100, 100], [0, 0, 1, 2], [RIM, 1, 2, RIM], [0, 128, 128, 0], [0, 100, 100, 0], **more)


# ---------------------------------------------------------------- Examples

def in_process(code):
    """Runs code with the package by its own name; the reference is called lagoon here."""
    done = subprocess.run([sys.executable, "-c", code], cwd=ROOT, env={**os.environ, "PYTHONPATH": str(ROOT / "python")}, capture_output=True, text=True)
    equal((done.returncode, done.stderr), (0, ""), done.stdout)
    return done.stdout


def worked(page):
    """How many examples of a page fail, and how many there are: block by block, with the names of the blocks before."""
    out = in_process(f"import doctest, re\ntext = open({str(page)!r}).read()\nnames, failed, tried = {{}}, 0, 0\n"
                     "for block in re.findall(r'(?<=```python\\n).*?(?=```)', text, re.S):\n"
                     "    test = doctest.DocTestParser().get_doctest(block, names, 'PYTHON.md', 'PYTHON.md', 0)\n"
                     "    runner = doctest.DocTestRunner()\n    result = runner.run(test, clear_globs=False)\n"
                     "    names = test.globs\n    failed, tried = failed + result.failed, tried + result.attempted\nprint(failed, tried)")
    failed, tried = map(int, out.split()[-2:])
    holds(failed == 0, out)
    return failed, tried


# ---------------------------------------------------------------- Values


# ---------------------------------------------------------------- Sessions

def lines_of(run):
    """The lines that the run program prints of the steps."""
    lines = []
    for moment in run:
        sums = sum(moment.entered.values()), sum(moment.gone.values()), moment.total, sum(moment.released.values())
        lines.append(f"{moment.step} R {moment.refusal.cause} {moment.refusal.place}" if moment.refusal else " ".join(map(str, (moment.step, *sums))))
    return lines


# ---------------------------------------------------------------- The library


# ---------------------------------------------------------------- Installed


class Package(unittest.TestCase):
    def test_examples(self):
        """The examples of the docstrings: some in each module."""
        tried = in_process("import doctest\nfrom lagoon import proved, sessions, values\n"
                           "print([doctest.testmod(module) for module in (proved, sessions, values)])")
        found = re.findall(r"failed=(\d+), attempted=(\d+)", tried)
        holds(len(found) == 3 and all(failed == "0" and int(some) > 10 for failed, some in found), tried)

    def test_pages(self):
        """docs/PYTHON.md and README's lines of Python print what stands below them."""
        Path(ROOT, "target", "mine").mkdir(parents=True, exist_ok=True)
        for page, least in ((PAGE, 40), (ROOT / "README.md", 5)):
            failed, tried = worked(page)
            holds(failed == 0 and tried > least, f"{page}: {failed} of {tried} fail")

    def test_every_name_is_told(self):
        out = in_process("import lagoon\nprint([name for name in lagoon.__all__ if not (getattr(lagoon, name).__doc__ or '').strip()], len(lagoon.__all__))\n"
                         "from lagoon import *\nassert step is lagoon.step and dir(lagoon)\n"
                         "try:\n    lagoon.nothing\nexcept AttributeError:\n    print('no such name')")
        holds(out.startswith("[] ") and "no such name" in out, out)

    def test_tables(self):
        """Buffers of 64-bit numbers are not copied, anything else is, and what is no whole number is refused."""
        numbers = array("Q", [5, 6])
        for lent in (numbers, memoryview(numbers), array("q", [5, 6]), array("L", [5, 6]), array("l", [5, 6])):
            taken = table(lent)
            lent[0] = 7
            equal(taken.tolist(), [7, 6], f"{lent!r} is not copied")
        for lent in ([5, 6], (5, 6), (ctypes.c_uint64 * 2)(5, 6), range(5, 7), array("H", [5, 6]), memoryview(array("Q", [5, 0, 6]))[::2],
                     (x for x in (5, 6)),
                     {5: 1, 6: 2}.keys(), bytes([5, 6])):
            equal(table(lent).tolist(), [5, 6], repr(lent))
        equal(table(array("q", [-5]), "q").tolist(), [-5], "signed")
        raises(ValueError, "64 bits", lambda: table(array("q", [-5])))
        raises(ValueError, "64 bits", lambda: table([1 << 64]))
        raises(ValueError, "64 bits", lambda: table(array("Q", [1 << 63]), "q"))
        for wrong in ([1.0], ["1"], [None], 5):
            raises(TypeError, "should be whole numbers", lambda: table(wrong))

    def test_what_is_refused_in_values(self):
        mesh = channel(names={1: "Middle"}, face_names=["sea"])
        raises(ValueError, "a number for each face", lambda: Mesh([1], [0], [RIM, RIM], [0], [0]))
        raises(ValueError, "2 numbers, and there are 3 cells", lambda: Field(mesh, [1, 2]))
        raises(KeyError, "'Nowhere' is no cell", lambda: Field(mesh, {"Nowhere": 1}))
        raises(KeyError, "'Nowhere' is no cell", lambda: Field(mesh, [1, 2, 3]).q["Nowhere"])
        raises(ValueError, "two meshes", lambda: proved.step(Field(mesh, [0, 0, 0]), Step(channel(), [0] * 4)))
        for made, cause, place in ((lambda: Mesh([]), 1, 0), (lambda: Mesh([70_000]), 3, 0), (lambda: Mesh([1], [0], [0], [1], [1]), 4, 0),
                                   (lambda: Mesh([1, 1], [0], [1], [256], [1]), 5, 0), (lambda: Field(mesh, [0, 1 << 60, 0]), 6, 1),
                                   (lambda: Step(mesh, [0] * 4, release=[0, 0, 1 << 41]), 18, 2),
                                   (lambda: Step(mesh, [-1, 0, 0, 0], outside={0: 1 << 21}), 7, 0),
                                   (lambda: Step(mesh, [0] * 4, outside={1: 5}), 7, 1), (lambda: Step(mesh, [0, 0, 0, -70_000]), 8, 3)):
            found = raises(Refused, f"(cause {cause})", made)
            equal((found.cause, found.place), (cause, place), str(found))

    def test_refused_by_the_engine(self):
        """Each cause of a step, with the engine's place and words; corrected, plain, judged and cut alike."""
        mesh = channel(names=["Inlet", "Middle", "Delta"])
        field = Field(mesh, [100_000, 0, 0])
        for step, cause, place in ((Step(mesh, [0] * 4, release={"Delta": 100_000_100}), 18, 2),
                                   (Step(mesh, [-50, 50, 50, 50], outside={0: 1_000_001}), 7, 0),
                                   (Step(mesh, [0] * 4, outside={0: 5}), 7, 0), (Step(mesh, [-101, 101, 101, 101]), 8, 1),
                                   (Step(mesh, [-50, 50, 50, 49]), 9, 2)):
            for made in (proved.step, proved.plain_step, lambda *both: proved.judged(*both, [0] * 4), lambda *both: proved.in_two(*both, [0, 1, 1])):
                found = raises(Refused, f"(cause {cause})", lambda: made(field, step))
                equal((found.cause, found.place), (cause, place), str(found))
        flood = Step(mesh, [-50, 50, 50, 50], outside={0: 1000})
        raises(Refused, "cell 1 (Middle): label 2 is neither 0 nor 1 (cause 23)", lambda: proved.in_two(field, flood, [0, 2, 1]))
        raises(Refused, "no cell has label 1 (cause 24)", lambda: proved.in_two(field, flood, [0, 0, 0]))
        records = mesh.record, field.record, flood.record
        for part, cut in zip(proved.in_two(field, flood, [0, 1, 0]), proved.records_in_two(*records, [0, 1, 0])):
            equal(cut, (part.field.mesh.record, part.field.record, part.step.record), "the records of a part")
        raises(Refused, "cell 1: label 2 is neither 0 nor 1 (cause 23)", lambda: proved.records_in_two(*records, [0, 2, 1]))
        raises(Refused, "fewer labels than cells (cause 2)", lambda: proved.records_in_two(*records, [0, 1]))
        raises(Refused, "a record of the wrong length (cause 11)", lambda: proved.records_in_two(mesh.record, field.record[:-1], flood.record, [0, 1, 0]))
        raises(Refused, "there is no page 1 (cause 14)", lambda: proved.page(field, 1))
        raises(Refused, "x1 nan is not within 1,000,000 (cause 19)", lambda: proved.share((float("nan"), 0), (0, 1), (0, 0), (1, 1)))
        raises(Refused, "(cause 20)", lambda: proved.share((0, 0), (0, 0), (0, 0), (1, 1)))
        raises(Refused, "(cause 25)", lambda: proved.charged(5, [(7, 3)]))
        raises(Refused, "(cause 26)", lambda: proved.charged((1 << 40) + 1, [(1 << 40, 3)]))

    def test_sessions_beside_the_reference(self):
        """Generated sessions: every moment, tables, budgets and last fields, and the same steps made one by one from values."""
        tried = 0
        for number in range(60):
            data = generate.session(41, number).data
            printed = reference.run(data).splitlines()
            if printed[0][:1] in "MF":
                raises(ValueError, "is refused", lambda: sessions.Session.of(data))
                continue
            tried += 1
            found = sessions.Session.of(data)
            run = found.run()
            equal(lines_of(run), [line for line in printed if line[0] != "B"], f"session {number}")
            equal(([f"B {cell} {q} {rest}" for cell, q, rest in proved.board(run.last())], run.budget().difference),
                  ([line for line in printed if line[0] == "B"], 0), f"board of session {number}")
            equal(len(found), len(lines_of(run)) - 1, "its length")
        holds(tried > 20, f"{tried} sessions were accepted")

    def test_steps_one_by_one(self):
        """The values of a session, stepped by hand, come where its run comes."""
        for name in ("channel.txt", "outfall.txt", "bay-wide.txt", "tide.txt"):
            found = sessions.Session.open(ROOT / "examples" / name)
            for plain, make in ((False, proved.step), (True, proved.plain_step)):
                field = found.field
                for step in found.steps():
                    try:
                        field = make(field, step)
                    except Refused:
                        pass
                equal(field.masses.tolist(), found.run(plain=plain).last().masses.tolist(), f"{name}, plain {plain}")
            again = sessions.Session.made(found.field, found.steps())
            equal(lines_of(again.run()), lines_of(found.run()), f"{name} made of its values")

    def test_every_and_progress(self):
        tide = sessions.Session.open(ROOT / "examples" / "tide.txt")
        told = []
        run = tide.run(every=20, progress=lambda *at: told.append(at))
        equal([moment.step for moment in run], [0, 20, 40, 49], "every twentieth and the last")
        equal(told, [(step, 49) for step in range(1, 50)], "progress")
        equal([moment.step for moment in tide.run(every=7)], list(range(0, 50, 7)), "the last is one of them")
        equal(len(run.table("mass")["step"]), 4, "rows")

    def test_texts(self):
        equal(sessions.pack(CHANNEL), sessiontext.pack(CHANNEL)[0], "pack")
        raises(ValueError, "text:2:15", lambda: sessions.pack("mesh\ncell 0 volume x\n"))
        raises(ValueError, "the input ends", lambda: sessions.unpack(b"\x10"))
        raises(ValueError, "session:2:15", lambda: sessions.Session.of("mesh\ncell 0 volume x\n"))
        raises(ValueError, "the mesh is refused: cell 0: volume 0", lambda: sessions.Session.of(CHANNEL.replace("100", "0", 1)))
        with folder() as made:
            raises(FileNotFoundError, "nowhere", lambda: sessions.Session.open(f"{made}/nowhere"))

    def test_pictures(self):
        """A plot by name, a map where places are known and a word where they are not; a session saved is the session."""
        with folder() as made:
            equal(command("survey", *(ROOT / "examples" / f"bay-{name}.csv" for name in ("cells", "faces")), "-o", f"{made}/bay.txt")[0], 0, "the bay")
            bay = sessions.Session.open(f"{made}/bay.txt")
            names = list(bay.field.q)
            holds(names[0] in bay.run().plot(cells=names[:1]).svg and names[0] in bay.run().map(steps=["last"])._repr_svg_(), "names in both pictures")
            bay.save(f"{made}/again.txt")
            equal(Path(f"{made}/again.txt").read_bytes(), bay.data, "saved")
        raises(ValueError, "", lambda: sessions.Session.of(CHANNEL).run().map())

    def test_as_declared(self):
        """What the package asks of the library has the names, the order and the kinds of the header."""
        declared = {call.name: call.arguments for call in header.declared()}
        kinds = {**{word: "n" for word in shared.COUNTS}, **{word: "u" for word in shared.SHORT}, **{word: "f" for word in shared.FLOATS},
                 **{word: "b" for word in shared.BYTES}, **{word: "s" for word in shared.SIGNED}}
        for exported, words, filled, found in (call for call in shared.EXPORTED.values() if call[0] in declared):
            wanted = [(word, kinds.get(word, "t").upper() if word in filled.split() else kinds.get(word, "t")) for word in words.split()]
            filled_in = [pair for pair in declared[exported] if pair != ("work", "T")]      # zeros that nobody looks at
            equal(filled_in, [pair for pair in wanted if pair[0] != "work"] + [("found", "T")] * bool(found), exported)

    def test_figures_of_the_library(self):
        """Steps, claims, pages, boards, shares and charges with the library alone: there is no program to ask."""
        told = in_process("import lagoon\nfrom lagoon import calls, engine\n"
                          "def none(*words): raise AssertionError('a program is asked')\ncalls.Calls.__init__ = none\n"
                          "mesh = lagoon.Mesh([100, 100, 100], [0, 0, 1, 2], [4095, 1, 2, 4095], [0, 128, 128, 0], [0, 100, 100, 0])\n"
                          "field, flood = lagoon.Field(mesh, [100_000, 0, 0]), lagoon.Step(mesh, [-50, 50, 50, 50], outside={0: 1000})\n"
                          "after, period = lagoon.step(field, flood), lagoon.Period(mesh)\nperiod.add(after)\n"
                          "print(lagoon.plain_step(field, flood).masses.tolist(), lagoon.judged(field, flood, after.moved).masses.tolist())\n"
                          "print(dict(period.totals), len(lagoon.pages(after)[0]))\n"
                          "print(lagoon.page(after, 0, withheld=[0, 2]), lagoon.board(after)[0], lagoon.board(after, withheld=[0])[0].cell)\n"
                          "print(lagoon.share((0, -2), (0, 2), (-30, 0), (10, 0)), lagoon.charged(2_500_000, [(1_000_000, 3), (1 << 40, 1)]).cents)\n"
                          "print(lagoon.library().endswith('liblagoon.so'))\n")
        equal(told, "[100000, 50000, 0] [100099, 49901, 0]\n{0: 0, 3: 0} 72\nb'   1     499    1\\n' Line(cell=0, q=1000, rest=99) 1\n192 4\nTrue\n",
              "the library's figures")

    def test_the_wheel(self):
        """What pip installs runs by itself, away from the tree; and pip takes it without a network."""
        with folder() as made:
            code = (f"import sys\nsys.path.insert(0, {str(ROOT / 'python')!r})\nimport packing\n"
                    f"print(packing.build_wheel({made!r}), packing.build_sdist({made!r}))")
            wheel, sdist = in_process(code).split()
            zipfile.ZipFile(f"{made}/{wheel}").extractall(f"{made}/site")
            tried = f"import lagoon\nprint(lagoon.__version__, lagoon.Session.of({CHANNEL!r}).run().last().masses.tolist())"
            os.chmod(f"{made}/site/lagoon/built/liblagoon.so", 0o755)
            done = subprocess.run([sys.executable, "-c", tried], cwd=made, env={**os.environ, "PYTHONPATH": f"{made}/site"}, capture_output=True, text=True)
            equal(done.stdout, f"{(ROOT / 'VERSION').read_text().strip()} [100099, 81188, 18713]\n", done.stderr)
            if importlib.util.find_spec("pip"):
                done = subprocess.run([sys.executable, "-m", "pip", "install", "--quiet", "--no-index", "--target", f"{made}/pip", str(ROOT)],
                                      capture_output=True,
                                      text=True)
                equal(done.returncode, 0, done.stderr)
                done = subprocess.run([f"{made}/pip/bin/lagoon", "run", str(ROOT / "examples" / "tide.txt")], cwd=made,
                                      env={**os.environ, "PYTHONPATH": f"{made}/pip"}, capture_output=True, text=True)
                equal((done.returncode, done.stdout.splitlines()[25]), (1, "25 R 9 0"), done.stderr)

    def test_make_install(self):
        """Command, library, headers, pages and examples: from where they were put, and all taken away again."""
        with folder() as made:
            done = subprocess.run(["make", "-s", "install", f"DESTDIR={made}", "PREFIX=/usr"], cwd=ROOT, capture_output=True, text=True)
            equal((done.returncode, done.stderr), (0, ""), "make install")
            usr, shown = Path(made, "usr"), {**os.environ, "PYTHONPATH": ""}
            examples = usr / "share" / "doc" / "lagoon" / "examples"
            for words, status in ((["check", examples / "channel.txt"], 0), (["run", examples / "tide.txt"], 1),
                                  (["budget", "--plain", examples / "tide.txt"], 0)):
                done = subprocess.run([usr / "bin" / "lagoon", *words], cwd=made, env=shown, capture_output=True)
                equal((done.returncode, done.stderr), (status, b""), f"lagoon {words[0]}")
            subprocess.run(["gcc", examples / "host.c", f"-I{usr}/include", f"-L{usr}/lib", "-llagoon", f"-Wl,-rpath,{usr}/lib", "-o",
                            f"{made}/host"], check=True)
            equal(subprocess.run([f"{made}/host"], capture_output=True, check=True).stdout, (ROOT / "tests" / "examples" / "host.out").read_bytes(),
                  "a host by the shared object")
            for page in ("man1/lagoon.1", "man3/lagoon.3"):
                holds((usr / "share" / "man" / page).exists(), page)
            subprocess.run(["make", "-s", "uninstall", f"DESTDIR={made}", "PREFIX=/usr"], cwd=ROOT, check=True)
            left = [path for path in usr.rglob("*") if not path.is_dir()]
            equal(left, [], "after make uninstall")


if __name__ == "__main__":
    unittest.main()
