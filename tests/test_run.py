#!/usr/bin/env python3
"""lagoon run: the run program's own lines of text and of records, and a status that says whether anything was refused.

    python3 tests/test_run.py
"""

import subprocess
import unittest

from toolcase import CHANNEL, HERE, ROOT, RUN, TIDE, breaks, command, equal, folder, holds, interrupted, known, refuses

from package import cli, sessiontext


class Run(unittest.TestCase):
    def test_lines_and_status(self):
        """Stored sessions, accepted and refused, print what they print without the command."""
        for path in sorted((HERE / "sessions").glob("*.in")):
            data = path.read_bytes()
            printed = subprocess.run([RUN], input=data, capture_output=True).stdout
            bad = any(line[:1] in b"MF" or b" R " in line for line in printed.splitlines())
            equal(command("run", path), (int(bad), printed, ""), path.name)
            equal(command("run", data=data)[:2], (int(bad), printed), f"{path.name} from standard input")

    def test_text(self):
        for text, status in ((CHANNEL, 0), (TIDE, 1)):
            printed = subprocess.run([RUN], input=sessiontext.pack(text)[0], capture_output=True).stdout
            equal(command("run", data=text.encode()), (status, printed, ""), "a session as text")
        refuses("<stdin>:2:15: a volume", "run", data=b"mesh\ncell 0 volume x\n")

    def test_the_command(self):
        known("run")
        breaks("run", ROOT / "examples" / "channel.txt")
        interrupted("run")
        refuses("nowhere: No such file", "run", "nowhere")
        refuses("nowhere is not there: `make run` makes it", "run", "--run", "nowhere", data=CHANNEL.encode())
        with folder() as made:
            refuses("Permission denied", "run", "--run", made, data=CHANNEL.encode())
        equal(command("run", "--run", "/bin/false", data=CHANNEL.encode())[0], 1, "a program that fails")

    def test_the_words_of_the_command(self):
        """No command, no such command, and the help that lists them all."""
        refuses("invalid choice: 'nothing'", "nothing", status=2)
        status, out, _ = command("--help")
        listed = [line.split()[0] for line in out.decode().splitlines() if line.startswith("    ")]
        equal((status, listed), (0, list(cli.COMMANDS)), "commands in the help")
        manual = (ROOT / "docs" / "man" / "lagoon.1").read_text().replace("\\-", "-")
        for name, (_, _, told) in cli.COMMANDS.items():
            holds(f".B lagoon {name}\n{told[0].upper() + told[1:]}.\n" in manual, f"docs/man/lagoon.1 should say: lagoon {name}, {told}")
        done = subprocess.run(["python3", "-m", "lagoon", "check"], cwd=ROOT / "python", input=CHANNEL.encode(), capture_output=True)
        equal(done.returncode, 0, "python3 -m lagoon")


if __name__ == "__main__":
    unittest.main()
