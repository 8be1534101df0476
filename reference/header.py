#!/usr/bin/env python3
"""The calls that include/lagoon.h declares, and what a program of them asks for.

    header.py              a line for each call: its name and its arguments
    header.py --driver     the part of calls_driver.c that makes each call, as C

An argument is of one of the kinds that a script has (script.py), with two more: u a number of 32 bits, f a float. A table that the call
may change has its letter in capitals.
"""

import argparse
import re
from collections import namedtuple
from pathlib import Path

HEADER = Path(__file__).resolve().parent.parent / "include" / "lagoon.h"
TABLES = {"uint64_t": "t", "int64_t": "s", "uint8_t": "b"}
NUMBERS = {"uint64_t": "n", "uint32_t": "u", "double": "f"}
ENTRY = {"t": 8, "s": 8, "b": 1}         # bytes of an entry

Argument = namedtuple("Argument", "name kind")
Call = namedtuple("Call", "name arguments")


def declared(text=None):
    """The calls in the header's order."""
    text = re.sub(r"/\*.*?\*/", " ", HEADER.read_text() if text is None else text, flags=re.DOTALL)
    found = re.findall(r"^uint64_t (lagoon_\w+)\(([^{;]*)\);", text, re.MULTILINE)
    return [Call(name, tuple(arguments(words))) for name, words in found]


def arguments(words):
    """The arguments of a declaration: a pointer and the length after it are one table."""
    parts = [" ".join(part.split()) for part in words.split(",") if part.strip() != "void"]
    while parts:
        part = parts.pop(0)
        table = re.fullmatch(r"(const )?(\w+) \*(\w+)", part)
        if not table:
            kind, name = part.split(" ")
            yield Argument(name, NUMBERS[kind])
            continue
        fixed, kind, name = table.groups()
        if parts.pop(0) != f"size_t {name}_len":
            raise ValueError(f"{name} is not followed by its length")
        yield Argument(name, TABLES[kind] if fixed else TABLES[kind].upper())


def shape(call):
    return "".join(argument.kind for argument in call.arguments)


def passed(place, kind):
    """An argument of the C call, from the driver's row of what is lent."""
    if kind in "nuf":
        return {"n": "lent[{}].number", "u": "(uint32_t)lent[{}].number", "f": "as_double(lent[{}].number)"}[kind].format(place)
    return f"lent[{place}].at, lent[{place}].entries"


def driver():
    """Shapes of all calls, and the function that makes one."""
    calls = declared()
    lines = ["static const char *const shape[] = {", *(f'    "{shape(call)}",' for call in calls), "};", "",
             "static uint64_t made(unsigned call, const struct lent *lent)", "{", "    (void)lent;", "    switch (call) {"]
    for number, call in enumerate(calls):
        given = ", ".join(passed(place, argument.kind) for place, argument in enumerate(call.arguments))
        lines.append(f"    case {number}: return {call.name}({given});")
    return "\n".join([*lines, '    default: fail("no such call");', "    }", "    return 0;", "}", ""])


if __name__ == "__main__":
    parser = argparse.ArgumentParser(description=__doc__, formatter_class=argparse.RawDescriptionHelpFormatter)
    parser.add_argument("--driver", action="store_true", help="print C instead")
    if parser.parse_args().driver:
        print(driver(), end="")
    else:
        for call in declared():
            print(call.name, *(f"{argument.name}:{argument.kind}" for argument in call.arguments))
