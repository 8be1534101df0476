#!/usr/bin/env python3
"""README's "A session of your own" and "From C": every command is run as it stands, writes under target/, and leaves the tree as it was.

    python3 tests/test_readme.py
"""

import re
import subprocess
import unittest

from toolcase import ROOT, equal, holds

MAKES = ("make lib",)           # what the tests have made before


def commands(title="A session of your own"):
    """The lines of a section's block, without what is said of them."""
    section = (ROOT / "README.md").read_text().partition(f"## {title}")[2].partition("\n## ")[0]
    block = re.search(r"^```\n(.*?)^```", section, re.MULTILINE | re.DOTALL)[1]
    return [line.partition("#")[0].strip() for line in block.splitlines()]


def tree():
    """What git says of the tree; nothing where this is no clone."""
    return subprocess.run(["git", "status", "--porcelain"], cwd=ROOT, capture_output=True, check=False).stdout.decode()


class Readme(unittest.TestCase):
    def test_the_commands(self):
        found, before = [line for line in commands() if line not in MAKES], tree()
        holds(len(found) > 8 and len(commands()) == len(found) + len(MAKES), f"{found}")
        for line in found:
            done = subprocess.run(["bash", "-c", line], cwd=ROOT, stdin=subprocess.DEVNULL, capture_output=True, check=False)
            equal((done.returncode, done.stderr), (0, b""), line)
            if line.startswith("bin/lagoon run"):
                equal(done.stdout, (ROOT / "tests" / "sessions" / "channel.out").read_bytes(), line)
            for path in re.findall(r"(?:-o|--field|--csv) (\S+)", line):
                holds(path.startswith("target/mine/") and (ROOT / path).exists(), f"{line}: {path}")
        equal(tree(), before, "git status after the commands")

    def test_from_c(self):
        (ROOT / "target" / "mine").mkdir(parents=True, exist_ok=True)
        *_, compiled, host = commands("From C")
        for line, printed in ((compiled, b""), (host, (ROOT / "tests" / "examples" / "host.out").read_bytes())):
            done = subprocess.run(["bash", "-c", line], cwd=ROOT, stdin=subprocess.DEVNULL, capture_output=True, check=False)
            equal((done.returncode, done.stdout, done.stderr), (0, printed, b""), line)


if __name__ == "__main__":
    unittest.main()
