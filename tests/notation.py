#!/usr/bin/env python3
"""How a definition is read: every name that specs/ take from the prover's libraries stands in docs/NOTATION.md.

    python3 tests/notation.py [PAGE]
"""

import re
import sys
from pathlib import Path

ROOT = Path(__file__).resolve().parent.parent
USE = re.compile(r"^use (?:Rattle\.(\w+)\.)?\S*?\{([^}]*)\}", re.MULTILINE)
PROOFS = {"refl"}               # of the one definition that holds a proof


def taken():
    """The names, each with a file that takes it."""
    return {name.strip(): file for file in sorted(ROOT.glob("crates/*/specs/**/*.antt"))
            for crate, names in USE.findall(file.read_text()) if not (ROOT / "crates" / crate / "specs").is_dir() or not crate
            for name in names.split(",") if name.strip()}


def main():
    page = Path(sys.argv[1]) if len(sys.argv) > 1 else ROOT / "docs" / "NOTATION.md"
    shown = {word for text in re.findall(r"`([^`]*)`", page.read_text().replace("\\|", "|")) for word in re.split(r"[\s(),;]+", text)}
    faults = [f"{file.relative_to(ROOT)}: {name} is not explained in {page.name}" for name, file in sorted(taken().items())
              if name not in PROOFS and not all(part in shown for part in name.split("◌") if part)]
    print("\n".join(faults) or f"{len(taken())} names of the prover's libraries in definitions, all explained")
    return 1 if faults else 0


if __name__ == "__main__":
    sys.exit(main())
