#!/usr/bin/env python3
"""Writes crates/lagoon_c, the static library of the calls from C, from the libraries that have them.

exports.py            writes src/ of the crate, a module for each library, and says what its line of crates.txt is
exports.py --check    says where the crate's text is another than that of the libraries, layout aside

A crate is a library or a static library, and what is marked for export in a library is exported by the static library alone that has it
itself. So each call stands there once more: under its name, with the library's clauses, and in its body one call of the library's function.
`rt fmt` in the crate's folder lays out what is written here.
"""

import re
import sys
from pathlib import Path

ROOT = Path(__file__).resolve().parent.parent
CRATES = ROOT / "crates"
NAME = "lagoon_c"
MARK = "#[unsafe(no_mangle)]\n"
USE = re.compile(r"^ghost use (Rattle\.(\w+)\.[\w.]+)\.\{(.*)\};$", re.MULTILINE)
CALL = re.compile(r"((?:^//[^\n]*\n)*)^" + re.escape(MARK) + r"(pub extern \"C\" fn (lagoon_\w+)\((.*?)\) -> u64)\n(.*?)^\{$", re.MULTILINE | re.DOTALL)
HEAD = """// The calls from C: what the static library exports. Each is the library's function of its name, and promises what that promises.
// tools/exports.py writes these files.
#![tactic(auto)]

"""


def libraries():
    """The text of each library that has calls from C."""
    texts = {path.parts[-3]: path.read_text() for path in sorted(CRATES.glob("*/src/lib.rt"))}
    return {name: text for name, text in texts.items() if MARK in text and name != NAME}


def words(text):
    return set(re.split(r"[\s(){}\[\],.;]+", text))


def module(name, text):
    """A library's calls as a module, and the crates that the module cites."""
    calls = [match.groups() for match in CALL.finditer(text)]
    if len(calls) != text.count(MARK):
        sys.exit(f"{name}: {text.count(MARK)} calls are marked, and {len(calls)} are read")
    cited, lines, uses = words("".join(clauses for *_, clauses in calls)), [], {name}
    for path, crate, names in USE.findall(text):
        kept = [word for word in re.split(r",\s*", names) if cited.issuperset(word.replace("◌", " ").split())]
        if kept:
            lines.append(f"ghost use {path}.{{{', '.join(kept)}}};")
            uses |= {crate} - {"std"}
    made = []
    for told, head, call, taken, clauses in calls:
        given = ", ".join(re.findall(r"(\w+):", taken))
        made.append(f"{told}{MARK}{head}\n{clauses}{{\n    {name}::{call}({given})\n}}\n")
    head = f"// The calls of {name}.\n" + "\n".join(lines) + "\n"
    return head + "\n" + "\n".join(made), uses


def written():
    """The crate's files, and what it uses."""
    files, uses = {}, set()
    for name, text in libraries().items():
        files[f"{name}_c.rt"], used = module(name, text)
        uses |= used
    files["lib.rt"] = HEAD + "".join(f"mod {name[:-3]};\n" for name in sorted(files))
    return files, uses


def line(uses):
    listed = [row.partition(":")[0].split()[0] for row in (ROOT / "crates.txt").read_text().splitlines() if row.strip() and not row.startswith("#")]
    return f"{NAME} staticlib: " + " ".join(name for name in listed if name in uses)


def main():
    if "--help" in sys.argv:
        print(__doc__.strip())
        return 0
    files, uses = written()
    place = CRATES / NAME / "src"
    if "--check" not in sys.argv:
        place.mkdir(parents=True, exist_ok=True)
        for name, text in files.items():
            (place / name).write_text(text)
        print(line(uses))
        return 0
    plain = lambda text: re.sub(r"\s+|,(?=\s*\))", "", text)
    faults = [f"{NAME}/src/{path.name} is no library's" for path in sorted(place.glob("*")) if path.name not in files]
    for name, text in files.items():
        if not (place / name).is_file() or plain((place / name).read_text()) != plain(text):
            faults.append(f"{NAME}/src/{name} is not what tools/exports.py writes")
    if line(uses) not in (ROOT / "crates.txt").read_text().splitlines():
        faults.append(f"crates.txt has no line '{line(uses)}'")
    for fault in faults:
        print(fault)
    print(f"{sum(text.count(MARK) for text in files.values())} calls from C, {len(faults)} wrong")
    return 1 if faults else 0


if __name__ == "__main__":
    sys.exit(main())
