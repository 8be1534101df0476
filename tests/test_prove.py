#!/usr/bin/env python3
"""tools/prove.py on a small tree of its own: it leaves what rt itself would have left, takes what rt ci left, and tells of what fails.

    python3 tests/test_prove.py
"""

import os
import shutil
import subprocess
import sys
import tempfile
import unittest
from pathlib import Path

TOOL = Path(__file__).resolve().parent.parent / "tools" / "prove.py"

# new each time, since rt takes what is proved of the same text in any tree on the machine
ONE = f"// {os.urandom(8).hex()}\npub fn one() -> u64 {{ 1 }}\n"
CRATES = {
    "low": ("", "lib", ONE),
    "left": ("low", "lib", "pub fn two() -> u64 { low::one() }\n"),
    "right": ("low", "lib", "pub fn three() -> u64 { low::one() }\n"),
    "top": ("left right", "main", "fn main() { left::two(); right::three(); }\n"),
}
CALL = '#[unsafe(no_mangle)]\npub extern "C" fn two_from_c() -> u64 { left::two() }\n'


def planted(tree):
    """A program over two libraries over one; a comment and blanks in crates.txt are no matter. The folder .git makes it the top of a tree."""
    lines = [f"{name}:  {uses} # {name} uses these" for name, (uses, _, _) in CRATES.items()]
    (tree / "crates.txt").write_text("\n".join(["# a small tree", "", *lines]) + "\n")
    for name, (_, kind, code) in CRATES.items():
        (tree / "crates" / name / "src").mkdir(parents=True)
        (tree / "crates" / name / "src" / f"{kind}.rt").write_text(code)
    (tree / "tools").mkdir()
    shutil.copy(TOOL, tree / "tools")
    (tree / ".git").mkdir()


def ran(tree, *words):
    return subprocess.run([str(word) for word in words], cwd=tree, capture_output=True, text=True)


def proved(tree, name="top"):
    done = ran(tree, sys.executable, "tools/prove.py", name)
    return done.returncode, done.stderr.splitlines()


class Prove(unittest.TestCase):
    def setUp(self):
        made = tempfile.TemporaryDirectory()
        self.addCleanup(made.cleanup)
        self.tree = Path(made.name)
        planted(self.tree)

    def test_from_nothing_again_and_after_a_change(self):
        status, told = proved(self.tree)
        self.assertEqual(status, 0, told)
        self.assertEqual([told[0], told[-1]], ["1 of 4: low proved", "4 of 4: top proved"])
        self.assertEqual(sorted(line.split(": ")[1] for line in told[1:3]), ["left proved", "right proved"])
        self.assertEqual(ran(self.tree, "target/bin/top").returncode, 0)
        self.assertEqual(proved(self.tree), (0, []), "nothing is proved a second time")
        said = ran(self.tree / "crates" / "top", "rt", "run").stderr
        self.assertIn("nothing has changed since the last proved build", said, "and rt finds its own stamps")
        (self.tree / "crates" / "left" / "src" / "lib.rt").write_text("pub fn two() -> u64 { 2 }\n")
        status, told = proved(self.tree)
        self.assertEqual((status, [line.split(": ")[1] for line in told]), (0, ["left proved", "top proved"]))

    def test_a_failure(self):
        (self.tree / "crates" / "right" / "src" / "lib.rt").write_text("pub fn three() -> u64 { low::one() - 2 }\n")
        status, told = proved(self.tree)
        self.assertEqual(status, 1)
        self.assertTrue(any("right: failed" in line for line in told), told)
        self.assertFalse((self.tree / "crates" / "right" / "out" / "rlib" / "stamp").exists())
        self.assertFalse((self.tree / "target" / "bin" / "top").exists())

    def test_over_what_rt_ci_left(self):
        (self.tree / "crates" / "calls" / "src").mkdir(parents=True)
        (self.tree / "crates" / "calls" / "src" / "lib.rt").write_text(CALL)
        with open(self.tree / "crates.txt", "a") as lines:
            lines.write("calls staticlib: left\n")
        for name in CRATES:
            ran(self.tree / "crates" / name, "rt", "fmt")
        ran(self.tree / "crates" / "calls", "rt", "fmt")
        done = ran(self.tree, "rt", "ci")
        self.assertEqual(done.returncode, 0, done.stdout)
        self.assertEqual(proved(self.tree), (0, []), "the program is there")
        self.assertEqual(ran(self.tree, "target/bin/top").returncode, 0)
        self.assertEqual(proved(self.tree, "calls"), (0, ["3 of 3: calls proved"]), "the libraries are there")
        self.assertIn(" T two_from_c\n", ran(self.tree, "nm", "target/lib/libcalls.a").stdout)
        self.assertEqual(proved(self.tree, "calls"), (0, []), "nothing is proved a second time")

    def test_help(self):
        done = ran(self.tree, sys.executable, "tools/prove.py", "--help")
        self.assertEqual((done.returncode, "prove.py NAME..\n" in done.stdout), (0, True))


if __name__ == "__main__":
    unittest.main()
