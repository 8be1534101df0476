#!/usr/bin/env python3
"""Every command with cut, damaged and foreign input, from a fixed seed: words and a status, never a traceback, and no input is changed.

    python3 tests/test_fuzz.py
"""

import os
import random
import unittest

from toolcase import CHANNEL, ROOT, command, equal, folder, forked, holds, refuses

from package import cli, layout, sessiontext

SEED, DAMAGED = 38, 7
STEPS = CHANNEL.replace("step times 2", "step") + CHANNEL[CHANNEL.index("step times 2"):].replace("step times 2", "step")
PLACES = "".join(f"at cell {cell} {cell}.5 0.5\n" for cell in range(3))
PACKED = sessiontext.pack(STEPS)[0]
INPUTS = {
    "text": (PLACES + STEPS).encode(), "packed": PACKED, "lagoon": STEPS[:STEPS.index("\nstep")].encode(),
    "water": b"time h,0,1,2,3,outside 0,release 1\n0,-5.5,5.5,5.5,5.5,1000,3\n1,-4,4,4,4,990.5,0\n",
    "field": layout.field_record([100000, 5, 7], layout.NARROW),
    "cells": (ROOT / "examples" / "bay-cells.csv").read_bytes(), "faces": (ROOT / "examples" / "bay-faces.csv").read_bytes(),
    "marks": b"cell,mark\n1,1\n", "labels": b"cell,label\n0,0\n1,1\n2,1\n", "ports": b"port,face\nWest,3\n",
    "tariff": (ROOT / "examples" / "tariff.csv").read_bytes(), "claims": b"step,face,moved\n1,0,-50000\n1,1,50000\n1,2,0\n1,3,0\n"}
# How each command is given its input; OUT is written. Of "said" the words go to standard output, or there are more lines than one.
COMMANDS = {
    "survey": ("cells faces -o OUT",), "fluxes": ("lagoon water -o OUT", "lagoon water --packed -o OUT"), "check": ("text", "packed"),
    "pack": ("text --field field -o OUT",), "unpack": ("packed -o OUT",), "run": ("text", "packed"),
            "budget": ("text --csv OUT", "packed --plain --field OUT"),
    "plot": ("text -o OUT", "packed --profile 0,last --panels -o OUT"), "map": ("text -o OUT",), "export": ("text --long -o OUT", "packed -o OUT"),
    "binder": ("text --public marks -o OUT", "packed --field field -o OUT"), "judge": ("text claims -o OUT",), "cut": ("text labels -o OUT OUT2",),
    "charge": ("text tariff ports --csv OUT",), "renumber": ("packed --seed 1 -o OUT",)}
SAYS_MORE = {"check", "run", "fluxes", "unpack", "judge"}
WRITES_ANYWAY = {"unpack", "binder", "judge"}     # a status of 1, and yet an output: of what was damaged, missing or refused
FOREIGN = {"nothing": b"", "a picture": b"\x89PNG\r\n\x1a\n" + bytes(range(256)), "zeros": bytes(4096), "UTF-16": "cell,volume\na,1\n".encode("utf-16"),
           "Latin-1": "größe;höhe\nü;ß\n".encode("latin-1"), "a letter": "Dear Sir, the lagoon is well.\n".encode()}


def damaged(rnd, data):
    """The data cut, or with some bytes changed, left out, doubled or put in."""
    found = bytearray(data)
    for _ in range(rnd.choice((1, 1, 2, 5))):
        at = rnd.randrange(len(found)) if found else 0
        kind = rnd.randrange(5)
        if kind == 0:
            del found[at:]
        elif kind == 1 and found:
            found[at] = rnd.randrange(256)
        elif kind == 2:
            del found[at:at + rnd.randint(1, 9)]
        elif kind == 3:
            found[at:at] = found[at:at + rnd.randint(1, 20)]
        else:
            found[at:at] = rnd.choice((b"\n", b"-", b";", b",", b"\xff", b"\0", b"9" * 30, b"\xc3\xa4", b"nan", b'"'))
    return bytes(found)


class Folder:
    """The inputs as files, one of them perhaps another, and outputs with something in them."""

    def __init__(self, place):
        self.place = place

    def words(self, name, form, bad, data):
        self.inputs = {word: data if word == bad else INPUTS[word] for word in form.split() if word in INPUTS}
        self.outputs = [word for word in form.split() if word.startswith("OUT")]
        for word, content in [*self.inputs.items(), *((word, b"as it was") for word in self.outputs)]:
            with open(os.path.join(self.place, word), "wb") as file:
                file.write(content)
        files = {*self.inputs, *self.outputs}
        return [name, *(os.path.join(self.place, word) if word in files else word for word in form.split())]

    def read(self, word):
        with open(os.path.join(self.place, word), "rb") as file:
            return file.read()

    def judge(self, name, form, what, foreign, found):
        """What every end of a command has to be like."""
        status, out, said = found
        told = f"lagoon {name} {form}, {what}: {status} {out[:300]} {said[:2000]}"
        holds(status in (0, 1, 2) and b"Traceback" not in said, told)
        for word, content in self.inputs.items():
            equal(self.read(word), content, f"{told}: {word}")
        holds(not [left for left in os.listdir(self.place) if left.startswith(".lagoon")], f"{told}: something is left behind")
        if status:
            holds(out or said, f"{told}: no word")
            holds(name in SAYS_MORE or (said.count(b"\n"), said[-1:]) == (1, b"\n") and not out or name in WRITES_ANYWAY, f"{told}: one line")
            holds(said.decode("utf-8").replace("\n", "").isprintable(), f"{told}: words that can be printed")
            if name not in WRITES_ANYWAY:
                equal([self.read(word) for word in self.outputs], [b"as it was"] * len(self.outputs), f"{told}: the output")
        holds(status or not foreign, f"{told}: foreign input is not taken")


class Fuzz(unittest.TestCase):
    def test_every_command(self):
        rnd, tries, refused = random.Random(SEED), 0, 0
        equal(set(COMMANDS), set(cli.COMMANDS), "commands")
        with folder() as place:
            at = Folder(place)
            for name, forms in COMMANDS.items():
                for form in forms:
                    words = at.words(name, form, None, None)
                    status, out, said = forked(words)
                    equal(status, 0, f"lagoon {name} {form} as it should be: {out[-300:]} {said}")
                    for bad in list(at.inputs):
                        cases = [(what, data, True) for what, data in FOREIGN.items()]
                        cases += [(f"damage {number}", damaged(rnd, INPUTS[bad]), False) for number in range(DAMAGED)]
                        for what, data, foreign in cases:
                            found = forked(at.words(name, form, bad, data))
                            at.judge(name, form, f"{what} for {bad}", foreign, found)
                            tries, refused = tries + 1, refused + bool(found[0])
        holds(tries > 300 and refused > tries // 2, f"{refused} of {tries} refused")

    def test_nothing_is_written_over(self):
        """Neither the input, nor the library or a program that is read, nor one output over another."""
        with folder() as place:
            at = Folder(place)
            for name, forms in COMMANDS.items():
                for form in (form for form in forms if "OUT" in form):
                    words = at.words(name, form, None, None)
                    for word, content in at.inputs.items():
                        over = [os.path.join(place, word) if other == os.path.join(place, "OUT") else other for other in words]
                        status, out, said = forked(over)
                        holds(status == 1 and b"is read: it cannot be written too\n" in said, f"{over}: {status} {said}")
                        equal(at.read(word), content, f"{over}")
        with folder() as place:
            copies = {}
            for option, program in (("--run", "run"), ("--calls", "calls"), ("--library", "liblagoon.so")):
                copies[option] = os.path.join(place, program)
                with open(ROOT / "target" / ("lib" if option == "--library" else "bin") / program, "rb") as original, open(copies[option], "wb") as copy:
                    copy.write(original.read())
                os.chmod(copies[option], 0o700)
            for name, options in (("plot", ("--run", "--calls", "--library")), ("budget", ("--run", "--calls", "--library")),
                                  ("binder", ("--run", "--calls", "--library")),
                                  ("export", ("--run", "--library")), ("map", ("--run", "--library")), ("judge", ("--calls",)), ("charge", ("--calls",)),
                                  ("cut", ("--calls",))):
                for option in options:
                    words = Folder(place).words(name, COMMANDS[name][0], None, None)
                    over = [copies[option] if word == os.path.join(place, "OUT") else word for word in words] + [option, copies[option]]
                    status, out, said = forked(over)
                    holds(status == 1 and b"is read" in said, f"{over}: {status} {said}")
        channel = ROOT / "examples" / "channel.txt"
        refuses("cannot hold two outputs", "plot", channel, "-o", "target/one", "--csv", "target/../target/one")
        refuses("is read: it cannot be written too", "budget", channel, "--field", ROOT / "target" / "bin" / "run")
        refuses("is read: it cannot be written too", "budget", channel, "--field", ROOT / "target" / "lib" / "liblagoon.so")

    def test_tools(self):
        """The two programs beside the command, on pages that are none."""
        with folder() as place:
            page = os.path.join(place, "page.html")
            with open(page, "wb") as file:
                file.write("# Größe\n".encode("latin-1"))
            refuses("is no UTF-8", "worked.py", "--check", page)
            refuses("is no UTF-8", "worked.py", "--write", page)
            refuses("would be written over", "paper.py", page, "-o", place)
            with open(page, "rb") as file:
                equal(file.read(), "# Größe\n".encode("latin-1"), "the page")
            status, _, said = command("paper.py", page, "-o", os.path.join(place, "out"))
            holds(status == 1 and said.count("\n") == 1, said)


if __name__ == "__main__":
    unittest.main()
