#!/usr/bin/env python3
"""One table of causes, that of docs/CALLS.md: the model numbers its cases so, and what other papers and programs say of a number is about it.

    python3 tests/causes.py
    python3 tests/causes.py --in README.md copy.md      with the copy in the place of README.md

Numbers are compared exactly. Words differ with the reader, so they are compared by what they speak of: of all rows of the table the one of
that number has to be the nearest. Places are compared by what they count, and no row names a figure that the table's row does not have.
"""

import math
import re
import sys
from pathlib import Path

ROOT = Path(__file__).resolve().parent.parent
SOURCE = "docs/CALLS.md"
OF_A_RUN = {*range(1, 14), 18}          # causes that a run can meet
LETTERS = {"V": "volume", "s": "share", "K": "reach", "U": "flux", "q": "concentration"}
PLACES = ("cell", "face", "position", "kind", "count", "bit", "page", "name", "label", "band")
IDLE = {"the", "and", "not", "its", "that", "than", "other", "only", "out", "one", "has", "with", "from", "what", "there", "too", "here", "more", "above",
        "outside", "record", "range", "section", "said", "neither", "nor", "wrong", "divided", "size", "mass"}
POWERS = {"2^40": 1 << 40, "2^32": 1 << 32}
ELSEWHERE = {1023, 2046}                # the run's own limits, which the source names apart


def words(text):
    """What a text speaks of: its words, plurals as one, letters of the papers by their names, and large figures."""
    text = re.sub(r"\b[VsKUq]\b", lambda letter: LETTERS[letter[0]], text.replace("'s", ""))
    return {word.rstrip("s") for word in re.findall(r"[a-z]{3,}", text.lower()) if word not in IDLE} | {str(figure) for figure in figures(text)}


def counted(place):
    """What a place counts."""
    return {noun for noun in PLACES if re.search(rf"\b{noun}s?\b", place)}


def figures(text):
    """The large numbers of a text."""
    for name, value in POWERS.items():
        text = text.replace(name, str(value))
    return {int(found.replace(",", "")) for found in re.findall(r"\d[\d,]*\d", text)} - set(range(256))


class Table:
    """The rows of the source: case, what is wrong, place."""

    def __init__(self, text):
        rows = re.findall(r"^\| (\d+) \| `(\w+)` \| (.*?) \| (.*?) \|$", text.partition("| `Cause::` |")[2].partition("\n\n")[0], re.MULTILINE)
        self.rows = {int(number): (case, what, place) for number, case, what, place in rows}
        if list(self.rows) != list(range(1, len(self.rows) + 1)) or len(rows) < 27:
            sys.exit(f"{SOURCE}: the numbers of the causes are {sorted(self.rows)}")

        self.words = {number: words(f"{case} {what}") for number, (case, what, _) in self.rows.items()}

    def nearest(self, said):
        """The numbers whose rows share most with these words: a word that few rows have tells more, and the name of a case twice as much."""
        said = words(said)
        def shared(number):
            telling = {word: math.log(len(self.rows) / sum(word in own for own in self.words.values())) for word in self.words[number]}
            named = words(self.rows[number][0])
            return sum(telling[word] * (2 if word in named else 1) for word in said & self.words[number])
        most = max(map(shared, self.rows))
        return {number for number in self.rows if shared(number) == most} if most else set()

    def faults(self, name, said, wanted):
        """What is wrong with a paper's rows, by number: words, and words about the place or None."""
        found = [f"{name}: causes {sorted(set(wanted) ^ set(said))} are missing or too many"] if set(said) != set(wanted) else []
        for number, (what, place) in said.items():
            if number not in self.rows:
                continue
            if self.nearest(what) != {number}:
                found.append(f"{name}: what it says of cause {number}, '{what}', is nearest to {sorted(self.nearest(what))} of {SOURCE}")
            if figures(what) - figures(self.rows[number][1]) - ELSEWHERE:
                found.append(f"{name}: cause {number} has figures that {SOURCE} has not: '{what}'")
            if place is not None and counted(place) != counted(self.rows[number][2]):
                found.append(f"{name}: the place of cause {number} is '{place}', by {SOURCE} '{self.rows[number][2]}'")
        return found


def of_the_model(text):
    return {int(number): case for case, number in re.findall(r"^number (\w+) = (\d+)$", text, re.MULTILINE)}


def of_readme(text):
    listed = re.search(r"^The causes, by number: (.*?)\. ", text, re.MULTILINE)[1]
    return {int(number): (what, None) for number, what in (item.split(" ", 1) for item in listed.split(", "))}


def of_arithmetic(text):
    rows = re.findall(r"^\| (\d+) \| (.*?) \| (.*?) \|$", text.partition("| Cause | What is wrong | Place |")[2].partition("\n\n")[0], re.MULTILINE)
    return {int(number): (what, place) for number, what, place in rows}


def of_the_header(text):
    rows = re.findall(r"^    LAGOON_(\w+) = (\d+),? +/\* (.*?)[;,] place:? (.*?) \*/", text, re.MULTILINE)
    return {int(number): (f"{case.lower()} {what}", None if number in ("2", "11") else place) for case, number, what, place in rows}


def of_the_tools(text):
    """IN_WORDS of causes.py; cause 2 is met by no tool's records."""
    return {int(number): (what, None) for number, what in re.findall(r'(\d+): "([^"]*)"', re.search(r"^IN_WORDS = \{(.*?)\}", text, re.M | re.S)[1])}


def of_the_texts(text, table):
    """lagoon_cause_text in C, by the names of the header."""
    number = {case.upper(): n for n, (case, _, _) in table.rows.items()}
    return {number[case]: (f"{case.lower()} {what}", None) for case, what in re.findall(r'case LAGOON_(\w+): return "([^"]*)"', text)}


def main():
    instead = {sys.argv[2]: sys.argv[3]} if len(sys.argv) == 4 and sys.argv[1] == "--in" else {}
    read = lambda name: Path(instead.get(name, ROOT / name)).read_text()
    table = Table(read(SOURCE))
    every = set(table.rows)
    model = of_the_model(read("crates/model/specs/Answers.antt"))
    faults = [] if model == {number: case for number, (case, _, _) in table.rows.items()} else [f"{SOURCE} and the model number other cases"]
    header, tools = of_the_header(read("include/lagoon.h")), of_the_tools(read("python/lagoon/causes.py"))
    texts = of_the_texts(read("include/lagoon.h"), table)
    faults += table.faults("README.md", of_readme(read("README.md")), OF_A_RUN)
    faults += table.faults("docs/ARITHMETIC.md", of_arithmetic(read("docs/ARITHMETIC.md")), every)
    faults += table.faults("include/lagoon.h", header, every)
    faults += table.faults("python/lagoon/causes.py", tools, (OF_A_RUN - {2}) | (every & set(tools)))
    faults += table.faults("lagoon_cause_text", texts, every)
    for fault in faults:
        print(fault)
    print(f"{len(every)} causes, as {SOURCE} has them, in the model, two papers, the header, its texts and the tools")
    return 1 if faults else 0


if __name__ == "__main__":
    sys.exit(main())
