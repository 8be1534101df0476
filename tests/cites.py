#!/usr/bin/env python3
"""What pages cite is there: every file, every name that is cited from a file, every quoted line; and every link leads somewhere.

    python3 tests/cites.py docs/PROMISES.md docs/CALLS.md
    python3 tests/cites.py --as docs/PROMISES.md copy.md    a page as if it stood there
    python3 tests/cites.py --link docs/PROMISES.md          makes links of the cited paths, and the list of links at the page's end
    python3 tests/cites.py --landed docs/PROMISES.md        takes the mark † off what has come
    python3 tests/cites.py --moved docs/PROMISES.md         cites, for a function's proof file that is gone, the file that has its proof now

A path in backticks has to exist, from the top folder or from crates/. Names in backticks after it, as in
`model/specs/Step.antt`: `lo`, `hi` and `moved`, have to be defined in that file. A block whose fence names a file, as in
```text calls/stdout, quotes it: its lines stand there in this order, without a gap but at a line of three dots.
A path marked with a dagger, †, is planned: it has to be missing, so that the mark goes when the thing comes.
A link [words](target) leads to a file, to a heading or to a heading of a file. A page that ends with <!-- links --> and a list has
every cited path as a link by its own name, [`model/specs/Step.antt`], and so a heading, [Stage 1: upwind]: it can be read as plain text, and
the list below says where each leads. --link writes it. There every heading of the third level is linked to, so that an index is whole.
"""

import os
import re
import sys
from pathlib import Path

ROOT = Path(__file__).resolve().parent.parent
PLACES = (ROOT, ROOT / "crates")
SPAN = re.compile(r"([^`]*)`([^`]+)`( ?†)?")
JOINED = re.compile(r": |, | and |, and ")
PATH = re.compile(r"[\w.-]+(/[\w.-]+)*/[\w.-]+(\.\w+)?/?|[\w-]+\.(txt|md)")
FENCE = re.compile(r"```\w+ (\S*/\S*)( †)?")
LINK = re.compile(r"(!?)\[(`[^`]+`|[^\[\]`]+)\](\([^()]*\))?|`[^`]*`")
LINKED_SPAN = re.compile(r"\[(`[^`]+`)\](\([^()]*\))?")
HEADING = re.compile(r"#+ (.*)")
LIST = "<!-- links -->"
MARKED = re.compile(r"(`([^`\n]+)`|^```\w+ (\S*/\S*)) ?†", re.MULTILINE)
DEFINED = {
    ".antt": r"^\s*(unfoldable |abbrev )?(pub )?(record |data )?{}(?=[ :({{]|$)",
    ".rt": r"\b(fn|struct|enum|const|mod)\s+{}\b",
    ".py": r"^\s*(def|class) {}\b",
}


def found(path):
    return next((place / path for place in PLACES if (place / path).exists()), None)


def defined(name, file):
    pattern = DEFINED.get(file.suffix)
    if pattern is None or not file.is_file():
        return False
    return re.search(pattern.format(re.escape(name)), file.read_text(), re.MULTILINE) is not None


def path_faults(path, planned):
    """What is wrong with citing this path."""
    there = found(path) is not None
    if there and planned:
        return [f"{path} is there: it is no longer planned"]
    return [] if there or planned else [f"{path} is not there"]


def span_faults(line):
    """The paths of one line, and the names that are joined to them."""
    faults, count, file, awaited = [], 0, None, False
    for before, words, planned in SPAN.findall(LINKED_SPAN.sub(r"\1", line)):
        joined = (file or awaited) and JOINED.fullmatch(before)
        if PATH.fullmatch(words):
            count += 1
            faults += path_faults(words, planned)
            file, awaited = found(words), bool(planned)
        elif not joined:
            file, awaited = None, False
        elif not awaited:
            count += 1
            if not defined(words, file):
                faults.append(f"{words} is not defined in {file.relative_to(ROOT)}")
    return faults, count


def anchor(heading):
    """The name by which a heading is linked to, as Markdown readers make it."""
    return re.sub(r"[^\w\- ]", "", heading.lower()).replace(" ", "-")


def prose(text):
    """The lines of a page outside its blocks."""
    within = False
    for line in text.splitlines():
        fence = line.startswith("```")
        if not fence and not within:
            yield line
        within ^= fence


def headings(text, level=""):
    """The headings of a page, or those of one level."""
    return [line[1] for line in map(HEADING.fullmatch, prose(text)) if line and line[0].startswith(level)]


def links(text):
    """The links of a page, each with its words and its target, None where the list at the end has it."""
    return [(mark[2], mark[3]) for line in prose(text.split(LIST)[0]) for mark in LINK.finditer(line) if mark[2]]


def with_links(text, place):
    """A page with a link for each cited path that is there, and the list of all links at its end."""
    def link(mark):
        path = mark[0].strip("`")
        return f"[{mark[0]}]" if mark[2] is None and PATH.fullmatch(path) and found(path) else mark[0]

    lines, within = [], False
    for line in text.split(LIST)[0].rstrip("\n").splitlines():
        fence = line.startswith("```")
        within ^= fence
        lines.append(line if fence or within or line.startswith("#") else LINK.sub(link, line))
    body = "\n".join(lines)
    labels = {words for words, target in links(body) if not target}
    named = [f"[{heading}]: #{anchor(heading)}" for heading in headings(body) if heading in labels]
    paths = sorted(label.strip("`") for label in labels if label.startswith("`"))
    files = [f"[`{path}`]: {os.path.relpath(found(path), (ROOT / place).parent)}" for path in paths if found(path)]
    return "\n".join([body, "", LIST, "", *named, *files, ""])


def link_faults(text, place):
    """Links that lead nowhere."""
    faults, count = list_faults(text, place) if LIST in text else [], 0
    named = headings(text.split(LIST)[0])
    for words, target in links(text):
        if target:
            faults += target_faults(target[1:-1], place, [anchor(heading) for heading in named])
        elif LIST in text and not (found(words.strip("`")) if words.startswith("`") else words in named):
            faults.append(f"[{words}] is no heading of this page and no path")
        count += bool(target) or LIST in text
    return [f"{place}: {fault}" for fault in faults], count


def list_faults(text, place):
    """What is wrong with a page that has a list of links."""
    body = text.split(LIST)[0]
    names, linked = [anchor(heading) for heading in headings(body)], {words for words, _ in links(body)}
    faults = [f"two headings are called {name}" for name in sorted({name for name in names if names.count(name) > 1})]
    faults += [f"no link leads to the heading {heading}" for heading in headings(body, "### ") if heading not in linked]
    if with_links(text, place) != text:
        faults.append("a path is no link, or the list of links is another: tests/cites.py --link makes it")
    return faults


def target_faults(target, place, own):
    file, _, name = target.partition("#")
    if "://" in target:
        return []
    path = place.parent / file if file else None
    if path is not None and not path.exists():
        return [f"{target} is not there"]
    names = own if path is None else [anchor(heading) for heading in headings(path.read_text())] if name else [""]
    return [] if name in names else [f"no heading is called {target}"]


def quoted(lines, path):
    """The lines of a block stand in the file."""
    text = [line.strip() for line in found(path).read_text().splitlines()]
    at = 0
    for part in "\n".join(line.strip() for line in lines).split("\n...\n"):
        wanted = part.split("\n")
        here = next((i for i in range(at, len(text)) if text[i:i + len(wanted)] == wanted), None)
        if here is None:
            return [f"these lines do not stand in {path}: {wanted[0]} .."]
        at = here + len(wanted)
    return []


def page_faults(page, place):
    text = page.read_text()
    faults, count = link_faults(text, place)
    block = None
    for number, line in enumerate(text.split(LIST)[0].splitlines(), 1):
        here, cited = [], 0
        fence = FENCE.fullmatch(line)
        if block is not None:
            if line == "```":
                start, path, planned, lines = block
                here, cited = path_faults(path, planned) if path else [], int(bool(path))
                if path and not here and not planned:
                    here = quoted(lines, path)
                block, number = None, start
            else:
                block[3].append(line)
        elif fence:
            block = (number, fence[1], fence[2], [])
        elif line.startswith("```"):
            block = (number, None, None, [])
        else:
            here, cited = span_faults(line)
        faults += [f"{page}:{number}: {fault}" for fault in here]
        count += cited
    return faults, count


def landed(page):
    """The page without the mark where what it marks is there."""
    page.write_text(MARKED.sub(lambda mark: mark[1] if found(mark[2] or mark[3]) else mark[0], page.read_text()))


def instead(path):
    """The file that has the proof of a function whose cited file is gone: the answers, the invariants, or the code where rt needs no file."""
    place = re.fullmatch(r"(crates/)?(\w+)/proofs/(?:[\w+]+/)*(\w+)/\w+\.antt", path)
    if found(path) or not place:
        return path
    for name in ("Answers.antt", "Invariants.antt"):
        if found(f"{path.rpartition('/')[0]}/{name}"):
            return f"{path.rpartition('/')[0]}/{name}"
    top = ROOT / "crates" / place[2]
    texts = [text for text in sorted(top.glob("src/**/*.rt")) if defined(place[3], text)]
    return f"{place[1] or ''}{texts[0].relative_to(top.parent)}" if texts else path


def moved(page):
    """The page with what stands for proof files that are gone, and its list of links anew."""
    text = re.sub(r"[\w+]+(?:/[\w+]+)+\.antt", lambda mark: instead(mark[0]), page.read_text().split(LIST)[0])
    page.write_text(with_links(text, page) if LIST in page.read_text() else text)


def main():
    if len(sys.argv) < 2 or "--help" in sys.argv:
        print(__doc__)
        return 0 if "--help" in sys.argv else 2
    if sys.argv[1] in ("--landed", "--link", "--moved"):
        for page in map(Path, sys.argv[2:]):
            {"--landed": landed, "--link": lambda page: page.write_text(with_links(page.read_text(), page)), "--moved": moved}[sys.argv[1]](page)
        return 0
    faults, count = [], 0
    pages = [(Path(page), Path(page)) for page in sys.argv[1:]]
    if sys.argv[1] == "--as":
        pages = [(Path(sys.argv[3]), Path(sys.argv[2]))]
    for page, place in pages:
        more, cited = page_faults(page, place)
        faults, count = faults + more, count + cited
    for fault in faults:
        print(fault)
    print(f"{count} citations, {len(faults)} wrong")
    return 1 if faults else 0


if __name__ == "__main__":
    sys.exit(main())
