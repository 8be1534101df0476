#!/usr/bin/env python3
"""Each must-fail edit as rt reads it, line by line: every old text stands once in its file, the new one is another, and no line is passed over.

edits.py [EDIT..]: says what is wrong, and then ends with status 1. Without names all edits of crates/ are read.
"""

import sys
from pathlib import Path


def wrong(edit, crate):
    """What rt would not do with the edit."""
    texts, file, old, pairs = {}, None, None, 0
    for line in edit.read_text(encoding="utf-8").split("\n"):
        if line.startswith("file: "):
            file = crate / line[6:]
        elif line.startswith("old: "):
            old = line[5:]
        elif line.startswith("new:"):
            new = line[4:].removeprefix(" ")
            text = texts.setdefault(file, file.read_text(encoding="utf-8"))
            if text.count(old) != 1:
                yield f"its old text stands {text.count(old)} times in {file}"
            if new == old:
                yield "it changes nothing"
            texts[file], pairs = text.replace(old, new, 1), pairs + 1
        elif line and not line.startswith("#"):
            yield f"rt passes over '{line.strip()}'"
    if not pairs:
        yield "it has no old and new text"


def main(*names):
    edits = [Path(name) for name in names] or sorted(Path("crates").glob("*/must-fail/*.edit"))
    found = [f"{edit}: {words}" for edit in edits for words in wrong(edit, edit.parent.parent)]
    print("\n".join(found) if found else f"{len(edits)} must-fail edits, each read whole")
    return 1 if found else 0


if __name__ == "__main__":
    sys.exit(main(*sys.argv[1:]))
