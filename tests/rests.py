#!/usr/bin/env python3
"""What demand 3 rests on: the files of definitions under "To be believed" in docs/PROMISES.md are those that the `use` lines lead to.

    python3 tests/rests.py [PAGE]
"""

import re
import sys
from pathlib import Path

ROOT = Path(__file__).resolve().parent.parent
CRATES = ROOT / "crates"
START = CRATES / "promises" / "specs" / "Steps.antt"
HEADING = "### To be believed\n"
USE = re.compile(       # but types of Rattle, which stand in src/, and the prover's library
    r"^use Rattle\.(?!std\.)(\w+)\.specs\.(\w+)\.\{", re.MULTILINE)


def led_to(start):
    """The files of definitions that one rests on, itself among them."""
    found, left = set(), [start]
    while left:
        file = left.pop()
        if file not in found:
            found.add(file)
            left += [CRATES / crate / "specs" / f"{name}.antt" for crate, name in USE.findall(file.read_text())]
    return {str(file.relative_to(CRATES)) for file in found}


def main():
    page = Path(sys.argv[1]) if len(sys.argv) > 1 else ROOT / "docs" / "PROMISES.md"
    rows = page.read_text().partition(HEADING)[2].partition("\n#")[0]
    told = re.findall(r"`([\w/]+\.antt)`", "\n".join(row.split(" | ")[0] for row in rows.splitlines() if row.startswith("|")))
    rests = led_to(START)
    faults = [f"{file}: not under 'To be believed'" for file in sorted(rests - set(told))]
    faults += [f"{file}: demand 3 does not rest on it" for file in sorted(set(told) - rests)]
    faults += [f"{file}: told twice" for file in sorted(set(told)) if told.count(file) > 1]
    print("\n".join(faults) or f"{len(told)} files of definitions, and demand 3 rests on no other")
    return 1 if faults else 0


if __name__ == "__main__":
    sys.exit(main())
