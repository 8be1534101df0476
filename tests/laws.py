#!/usr/bin/env python3
"""Who cites a law: each file and crate in the last column of docs/DESIGN.md's table of laws has a law of its row in a `use` line.

    python3 tests/laws.py [PAGE]
"""

import re
import sys
from pathlib import Path

ROOT = Path(__file__).resolve().parent.parent
CRATES = ROOT / "crates"
HEADING = "## The laws, and who cites them"
ROW = re.compile(r"\| (`.*?) \| (.*?) \| (.*?) \|")
LAWS = re.compile(r"`([\w/]+\.antt)`: ((?:`[^`]+`(?:, | and |, and )?)+)")
USE = re.compile(r"^use \S*?(\w+)\.\{([^}]*)\}", re.MULTILINE)


def laws_of(cell):
    """The laws of a row, each with the last word of its file."""
    return {(Path(file).stem, name) for file, names in LAWS.findall(cell) for name in re.findall(r"`([^`]+)`", names)}


def used_in(file):
    return {(module, name.strip()) for module, names in USE.findall(file.read_text()) for name in names.split(",")}


def places(cell):
    """The files and crates that a row names, each with its files."""
    for file in re.findall(r"`([\w/]+\.antt)`", cell):
        yield file, [CRATES / file]
    for word in re.findall(r"[a-z_]+", re.sub(r"`[^`]*`", "", cell)):
        if (CRATES / word / "proofs").is_dir():
            yield word, sorted(path for path in (CRATES / word).rglob("*.antt") if "out" not in path.parts)


def main():
    page = Path(sys.argv[1]) if len(sys.argv) > 1 else ROOT / "docs" / "DESIGN.md"
    faults, count = [], 0
    for row in map(ROW.fullmatch, page.read_text().partition(HEADING)[2].partition("\n## ")[0].splitlines()):
        for place, files in places(row[3]) if row else ():
            count += 1
            if not any(laws_of(row[1]) & used_in(file) for file in files):
                faults.append(f"{place} cites no law of the row {row[1]}")
    for fault in faults:
        print(fault)
    print(f"{count} places that cite laws, {len(faults)} wrong")
    return 1 if faults or not count else 0


if __name__ == "__main__":
    sys.exit(main())
