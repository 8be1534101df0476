#!/usr/bin/env python3
"""Every imported name is used: each name of a `use` line of Rattle or antt stands in the rest of its file.

    python3 tests/imports.py [--drop] [FILE ..]

Without FILE of all crates; with --drop the names that are used nowhere are taken out.
"""

import re
import sys
from pathlib import Path

ROOT = Path(__file__).resolve().parent.parent
USE = re.compile(r"^(?P<lead>(?:ghost |pub )*use )(?P<path>\S+?)(?P<names>(?:\.|::)\{[^}]*\}| as \S+?)?(?P<end>;?)$", re.MULTILINE)
COMMENT = re.compile(r"(?:--|//).*$", re.MULTILINE)
BREAK = re.compile(r"[\s(){};,]+")
TRAITS = {"BufRead", "Env", "IsTerminal", "Read", "Write"}      # of std, imported for their methods


def words(text):
    """The words of a file, and the pieces of those with a point or a path's colons in them."""
    whole = set(BREAK.split(COMMENT.sub("", text)))
    return whole | {piece for word in whole for piece in re.split(r"\.|::|[][&!]", word)}


def used(name, there):
    """By itself, or a name with places, `◌≤◌`, by its words."""
    return name in there or "◌" in name and all(part in there for part in name.split("◌") if part)


def idle(text):
    """The imported names that the rest of the file does not use, each with its line."""
    rest = USE.sub("", text)
    there, coded = words(rest), set(re.findall(r"\w+", COMMENT.sub("", rest)))
    for line in USE.finditer(text):
        if line["lead"].startswith("pub"):
            continue
        if line["names"] is None:
            names = [line["path"].split("::")[-1]]
        elif line["names"].startswith(" as "):
            names = [line["names"][4:]]
        else:
            names = [name.strip().split(" as ")[-1].split(" to ")[-1] for name in line["names"].partition("{")[2][:-1].split(",") if name.strip()]
        code = line["lead"] == "use " and line["end"] == ";"
        lost = [name for name in names if not (code and name in TRAITS) and not used(name, coded if code else there)]
        if lost:
            yield line, lost


def dropped(text):
    """The file without them, and without a line that imports nothing more."""
    for line, lost in reversed(list(idle(text))):
        left = []
        if line["names"] and not line["names"].startswith(" as "):
            left = [name for name in (name.strip() for name in line["names"].partition("{")[2][:-1].split(",")) if name and name not in lost]
        new = f"{line['lead']}{line['path']}{line['names'].partition('{')[0]}{{{', '.join(left)}}}{line['end']}" if left else None
        text = text[:line.start()] + (new if new else "") + text[line.end() + (not new):]
    return text


def sources():
    return sorted(path for kind in ("*.antt", "*.rt") for path in (ROOT / "crates").rglob(kind) if not {"must-fail", "out"} & set(path.parts))


def main():
    drop = "--drop" in sys.argv[1:]
    files = [Path(name) for name in sys.argv[1:] if name != "--drop"] or sources()
    count = 0
    for file in files:
        text = file.read_text()
        for line, lost in idle(text):
            count += len(lost)
            print(f"{file.relative_to(ROOT) if ROOT in file.parents else file}:{text.count(chr(10), 0, line.start()) + 1}: imported and not used: {', '.join(lost)}")
        if drop and dropped(text) != text:
            file.write_text(dropped(text))
    print(f"imports: {len(files)} files, {count} names that are used nowhere{', taken out' if drop else ''}")
    return 1 if count and not drop else 0


if __name__ == "__main__":
    sys.exit(main())
