#!/usr/bin/env python3
"""crates.txt and docs/DESIGN.md have the same crates under the same headings, and README.md the same headings, each with names that take in all
crates under it and no other: a name may end in * there, and one that is written out whole goes before those.

families.py [CRATES README DESIGN]: says what differs, and then ends with status 1.
"""

import re
import sys
from fnmatch import fnmatchcase

NAMES = r"[a-z][a-z_0-9]*\*?(?:, [a-z][a-z_0-9]*\*?)*"


def grouped(lines, heading, row):
    """The names under each heading: by two expressions whose first group is the heading's words or the names of a row."""
    found, names = [], None
    for line in lines:
        begins, entry = re.match(heading, line), re.match(row, line)
        if begins:
            names = set()
            found.append((begins.group(1).lower(), names))
        elif entry and names is not None:
            names.update(entry.group(1).split(", "))
    return found


def part(path, begin, end):
    """The lines of a file from one that begins so up to one that begins otherwise."""
    lines = open(path, encoding="utf-8").read().split("\n")
    first = next(number for number, line in enumerate(lines) if line.startswith(begin))
    return lines[first:next(number for number, line in enumerate(lines) if number > first and line.startswith(end))]


def families(readme):
    """The headings of README's folders, each with the names before it, on its line or on the one above."""
    joined = re.sub(rf"^(  {NAMES})\n +", r"\1 ", "\n".join(part(readme, "  lists", "include/")), flags=re.M)
    return [(words.lower(), set(names.split(", "))) for names, words in re.findall(rf"^  ({NAMES}) +([a-z].*)$", joined, flags=re.M)]


def taken_in(listed, shown):
    """The crates of each heading by README's names: whole names first, then those with a star, the longest first."""
    found = [set() for _ in shown]
    names = sorted(((name, at) for at, (_, there) in enumerate(shown) for name in there), key=lambda entry: ("*" in entry[0], -len(entry[0])))
    for crate in sorted(set().union(*(crates for _, crates in listed))):
        at = next((at for name, at in names if fnmatchcase(crate, name)), None)
        if at is not None:
            found[at].add(crate)
    return [(words, crates) for (words, _), crates in zip(shown, found)]


def main(crates="crates.txt", readme="README.md", design="docs/DESIGN.md"):
    listed = grouped(open(crates, encoding="utf-8").read().split("\n")[1:], r"# (.*)", rf"({NAMES})(?: staticlib)?:")
    shown = {readme: taken_in(listed, families(readme)),
             design: grouped(part(design, "## How the crates", "Three rules"), r"### (.*)", rf"\| ({NAMES}) \|")}
    wrong = [f"{path}: its headings are not those of {crates}" for path, found in shown.items()
             if [words for words, _ in found] != [words for words, _ in listed]]
    for path, found in shown.items():
        for (words, names), (_, there) in zip(listed, found):
            wrong += [f"{path}, {words}: {name} is {'not there' if name in names else 'there'}, unlike in {crates}" for name in sorted(names ^ there)]
    print("\n".join(wrong) if wrong else f"{sum(len(names) for _, names in listed)} crates under {len(listed)} headings, alike in three places")
    return 1 if wrong else 0


if __name__ == "__main__":
    sys.exit(main(*sys.argv[1:]))
