"""Tables that people bring: the rows of a CSV file by the words of its heading, and cells and faces by their names or numbers."""

import csv
import io
import itertools
import math
import re
from decimal import Decimal, InvalidOperation

from . import command
from .command import Bad, shown

LARGEST = 10 ** 12              # of a number that is measured
MOST_DIGITS = 20                # of a whole number: more than any 64 bits hold


class Rows:
    """The rows of a table, one after another, by the words of its heading."""

    def __init__(self, path, wanted, either=((),)):
        """The columns wanted, and those of the first of the lists `either` that the heading has."""
        self.path = command.named(path)
        self.file = io.TextIOWrapper(command.opened(path), encoding="utf-8-sig", errors="replace", newline="")
        first = self.file.readline()
        self.comma = ";" if ";" in first else ","
        self.reader = csv.reader(itertools.chain([first], self.file), delimiter=self.comma)
        self.heading = [" ".join(words.split()) for words in self.next_row() or []]
        lower = [plain(words) for words in self.heading]
        self.chosen = next((columns for columns in either if all(words in lower for words in columns)), either[0])
        for words in (*wanted, *self.chosen):
            if lower.count(words) != 1:
                raise Bad(f"{self.path}:1: the heading should have one column '{words}'")
        self.at = {words: column for column, words in enumerate(lower)}

    def next_row(self):
        """The words of the next row, None after the last."""
        try:
            return next(self.reader, None)
        except csv.Error as error:
            raise Bad(f"{self.path}:{self.reader.line_num}: {error}") from None

    def rows(self):
        """Line and words of each row that holds any; there is one at least."""
        found = False
        with self.file:
            while (row := self.next_row()) is not None:
                if any(word.strip() for word in row):
                    found = True
                    yield self.reader.line_num, row
        if not found:
            raise Bad(f"{self.path}: there is no row under the heading")

    def bad(self, line, words):
        return Bad(f"{self.path}:{line}: {words}")

    def numbers(self, row, columns):
        """The numbers under some headings that a table may have; None where it lacks one of them, or the row one of the numbers."""
        found = [self.float(self.word(row, column)) if column in self.at else math.nan for column in columns]
        return tuple(found) if all(abs(value) <= LARGEST for value in found) else None

    def word(self, row, column):
        """The word under a heading, or in a column by its number; empty where the row is shorter."""
        at = self.at[column] if isinstance(column, str) else column
        return row[at].strip() if at < len(row) else ""

    def name(self, line, row, column):
        word = self.word(row, column)
        if not word or "#" in word or not word.isprintable():
            raise self.bad(line, f"{column} should be a name, not {shown(word)}")
        return " ".join(word.split())

    def pointed(self, word):
        """A number's word with a point before its decimals, which a table with semicolons may write as a comma."""
        return "nan" if "_" in word else word.replace(",", ".") if self.comma == ";" else word

    def float(self, word):
        """A word as a float, not a number where it is none."""
        try:
            return float(self.pointed(word))
        except ValueError:
            return math.nan

    def number(self, line, row, column, least=0.0):
        word = self.word(row, column)
        value = self.float(word)
        if not least <= value <= LARGEST:
            raise self.bad(line, f"{column} should be a number{' above 0' if least else ''}, not {shown(word)}")
        return value

    def whole(self, line, row, column, least, greatest):
        """A whole number, also one that is written as a decimal: 50000.0 or 5e4."""
        word = self.word(row, column)
        value = whole_in(self.pointed(word))
        if value is None or not least <= value <= greatest:
            title = column if isinstance(column, str) else self.heading[column]
            raise self.bad(line, f"{title} should be a whole number from {least:,} to {greatest:,}, not {shown(word)}")
        return value


def plain(words):
    """A heading as it is compared: salt (kg/m³) is salt kg/m3."""
    return re.sub(r"[()\[\]]", "", words.lower()).replace("³", "3").strip()


def whole_in(word):
    """The whole number that a word says, None where it says none."""
    try:
        value = Decimal(word)
    except InvalidOperation:
        return None
    if not value.is_finite() or value.adjusted() >= MOST_DIGITS or value != value.to_integral_value():
        return None
    return int(value)


def as_csv(rows):
    """The bytes of a table that is written."""
    text = io.StringIO()
    csv.writer(text, lineterminator="\n").writerows(rows)
    return text.getvalue().encode()


class Called:
    """Cells or faces of a mesh by what people call them: 3, face 3, the name, face and name, or both as the tools print them."""

    def __init__(self, thing, total, labels):
        self.thing, self.total, self.called = thing, total, {}
        for number in range(total):
            name = " ".join(labels.names[thing].get(number, "").split())
            for words in {str(number), f"{thing} {number}", name, f"{thing} {name}", f"{thing} {number} ({name})"} - {"", f"{thing} ", f"{thing} {number} ()"}:
                self.called.setdefault(words, []).append(number)

    def of(self, words):
        """The number, or what is wrong with the words."""
        found = self.called.get(" ".join(words.split()), [])
        if not found:
            raise Bad(f"{shown(words)} is no {self.thing} of the mesh (0 to {self.total - 1}) nor the name of one")
        if len(found) > 1:
            raise Bad(f"{shown(words)} may be {self.thing} {found[0]} and {self.thing} {found[1]}")
        return found[0]


class Faces(Called):
    def __init__(self, mesh, labels):
        super().__init__("face", len(mesh.faces), labels)


class Cells(Called):
    def __init__(self, mesh, labels):
        super().__init__("cell", len(mesh.volumes), labels)


def listed_steps(text, option, most):
    """Steps from words like 0,24,last, as an option of a command gives them."""
    found = []
    for word in text.split(","):
        word = word.strip()
        if word != "last" and not (word.isascii() and word.isdigit() and len(word) <= 12):
            raise Bad(f"{option}: {shown(word)} is neither a step nor 'last'")
        found.append(word if word == "last" else int(word))
    if len(found) > most:
        raise Bad(f"{option}: at most {most} steps are drawn, not {len(found)}")
    return found


def listed_cells(text, session):
    """Cells from the words of an option, as 0,Marsh,30-33: a name, a number, or two numbers joined by a minus; each once."""
    cells, found = Cells(session.mesh, session.labels), []
    try:
        words = next(csv.reader([text], skipinitialspace=True), None) or [""]
    except csv.Error as error:
        raise Bad(f"--cells: {error}") from None
    for word in words:
        try:
            new = [cells.of(word)]
        except Bad as bad:
            new = cells_between(word.strip(), len(session.mesh.volumes))
            if new is None:
                raise Bad(f"--cells: {bad}") from None
        found += [cell for cell in new if cell not in found]
    return found


def cells_between(word, total):
    """The cells of a range like 30-33, None where the word is none."""
    first, dash, last = word.partition("-")
    if not (dash and all(part.isascii() and part.isdigit() and len(part) <= 9 for part in (first, last))):
        return None
    if max(int(first), int(last)) >= total:
        raise Bad(f"--cells: the mesh has cells 0 to {total - 1}, not {shown(word)}")
    if int(first) > int(last):
        raise Bad(f"--cells: {shown(word)} is no range, its first cell is above its last")
    return range(int(first), int(last) + 1)
