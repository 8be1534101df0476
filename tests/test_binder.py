#!/usr/bin/env python3
"""lagoon binder beside the engine's pages: last fields of sessions, field records of one page and of several, read back, and bad input.

    python3 tests/test_binder.py
"""

import subprocess
import unittest

from toolcase import CHANNEL, ROOT, RUN, breaks, command, equal, folder, holds, interrupted, known, refuses

import generate
import lagoon
import script
from package import sessiontext

CALLS = ROOT / "target" / "compare" / "calls"
TOP = 1_000_000


def engine_pages(volumes, masses):
    """All pages, printed by the engine's own call, each into bytes of exactly its length; none follows them."""
    cells, found, number = len(volumes), b"", 0
    while True:
        text = script.spell("page", cells, volumes, masses, number, [0] * lagoon.page_length(volumes, cells, number))
        said = subprocess.run([str(CALLS)], input=text.encode(), capture_output=True, check=True).stdout.decode()
        if said == f"page: refused 14 {number}; bytes\n":
            return found
        holds(said.startswith("page: accepted"), said[:80])
        found += bytes(map(int, said.split("bytes")[1].split()))
        number += 1


def read_back(text, volumes):
    """The masses that the lines say, where each page's mass line agrees with them."""
    masses, of_page = [], 0
    for line in text.decode().splitlines(keepends=True):
        equal(len(line), 18 if max(volumes) <= 4095 else 19, f"bytes of {line!r}")
        if line[4] == line[12] == " " and line[:4].strip():
            equal(int(line[:4]), len(masses), "cell")
            masses.append(int(line[5:12]) * volumes[len(masses)] + int(line[13:-1]))
            of_page += masses[-1]
        else:
            equal(int(line), of_page, "mass of a page")
            of_page = 0
    return masses


def printed(*arguments, data, whole=True):
    """The pages; of a session that is cut or has refused steps with a word that says so, and status 1."""
    status, out, said = command("binder", *arguments, data=data)
    equal((status, bool(said)), (0, False) if whole else (1, True), f"{arguments}: {said}")
    return out


def pond(volumes, masses):
    """A session without faces and steps."""
    wide = max(volumes) > 4095
    return lagoon.pack_mesh(lagoon.Mesh(volumes, [], [], [], []), wide) + lagoon.pack_field(masses, wide)


def field_of(cells, ceiling=4095):
    volumes = [(37 * cell) % ceiling + 1 for cell in range(cells - 1)] + [ceiling]
    return volumes, [V * (TOP * cell // cells) + cell % V for cell, V in enumerate(volumes)]


def last_of(data):
    """Mesh and last masses of a session, by the reference."""
    cells, faces, wide = lagoon.mesh_head(data[:4], lagoon.RUN_LIMITS)
    at = lagoon.mesh_length(cells, faces, wide)
    mesh = lagoon.accept_mesh(data[:at])
    length = lagoon.field_length(cells, wide)
    masses = lagoon.accept_field(data[at:at + length], mesh, wide)
    data = data[at + length:]
    while data:
        length = lagoon.step_ends(data, mesh, wide)
        try:
            masses = lagoon.accept_step(data[:length], mesh, masses, wide).masses
        except lagoon.Refusal as refusal:
            if refusal.cause in (11, 13):
                break
        data = data[length:]
    return mesh, masses


class Binder(unittest.TestCase):
    def test_the_channel(self):
        wanted = "   0    1000   99\n   1     811   88\n   2     187   13\n" + f"{200000:17}\n"
        for data in (CHANNEL.encode(), sessiontext.pack(CHANNEL)[0]):
            equal(printed("--run", RUN, data=data), wanted.encode(), "the channel's page")
        equal(engine_pages([100] * 3, [100099, 81188, 18713]), wanted.encode(), "the engine's page")

    def test_beside_the_engine(self):
        for cells, ceiling in ((1, 4095), (59, 4095), (60, 4095), (61, 4095), (119, 4095), (120, 4095), (121, 4095), (1023, 4095),
                               (1, 4096), (60, 4096), (121, 4096), (1023, 65535)):
            volumes, masses = field_of(cells, ceiling)
            out = printed(data=pond(volumes, masses))
            equal(out, engine_pages(volumes, masses), f"{cells} cells up to {ceiling}")
            equal(read_back(out, volumes), masses, f"{cells} cells up to {ceiling} read back")
        equal(printed(data=pond([4095], [4095 * (TOP + 1) - 1])), b"   0 1000000 4094\n" + b" " * 7 + b"4095004094\n", "the largest figures")
        equal(printed(data=pond([65535], [65535 * (TOP + 1) - 1])), b"   0 1000000 65534\n" + b" " * 7 + b"65535065534\n", "and of wide records")

    def test_the_width_is_of_all_pages(self):
        """A cell of the last page makes the first one wide."""
        volumes, masses = [1] * 60 + [4096], [5] * 61
        wanted = "".join(f"{cell:4}       5     0\n" for cell in range(60)) + f"{300:18}\n" + "  60       0     5\n" + f"{5:18}\n"
        equal(printed(data=pond(volumes, masses)), wanted.encode(), "61 cells, the last of them large")
        equal(engine_pages(volumes, masses), wanted.encode(), "the engine's pages")

    def test_after_steps(self):
        """The last field of generated sessions."""
        tried = 0
        for number in (0, 1, 4, 5, 8, 20):
            case = generate.session(31, number)
            if lagoon.run(case.data)[0] in "MF":
                continue
            mesh, masses = last_of(case.data)
            tried += 1
            whole = " R " not in lagoon.run(case.data)
            equal(printed(data=case.data, whole=whole), engine_pages(mesh.volumes, masses), f"session {number}")
        holds(tried > 3, f"only {tried} sessions")

    def test_a_field_record(self):
        volumes, masses = field_of(130)
        with folder() as made:
            record, pages, short = f"{made}/last.field", f"{made}/pages", f"{made}/short.field"
            with open(record, "wb") as file:
                file.write(lagoon.pack_field(masses))
            equal(printed("--field", record, "-o", pages, data=pond(volumes, [0] * 130)), b"", "nothing on standard output")
            with open(pages, "rb") as file:
                equal(file.read(), engine_pages(volumes, masses), "pages of a field record")
            for content, words in ((lagoon.pack_field(masses)[:-1], "(cause 11)"), (lagoon.pack_field(masses) + b"\0", "(cause 11)"),
                                   (lagoon.pack_field(masses[:-1]), "(cause 13)"), (lagoon.pack_field(masses, True), "(cause 13)"),
                                   (lagoon.pack_field([(1 << 32) - 1] * 130), "(cause 6)")):
                with open(short, "wb") as file:
                    file.write(content)
                refuses(words, "binder", "--field", short, data=pond(volumes, masses))

    def test_what_is_missing(self):
        """A session that is cut or has refused steps gives the pages of what was accepted, and says so."""
        data = sessiontext.pack(CHANNEL)[0]
        for given, words in ((data[:-1], "the session is cut or damaged: it ends at step 2, which is no record of a step (cause 11 or 13)"),
                             (CHANNEL.encode() + b"step\nface 0 flux 1\n", "1 of 3 steps refused, the first of them step 3 (cause 9)"),
                             (data + data[-16:-2] + b"\1\1" + data[-16:-1], "2 of 4")):
            status, out, said = command("binder", data=given)
            steps = 1 if given == data[:-1] else 2
            equal((status, out), (1, command("binder", data=CHANNEL.replace("times 2", f"times {steps}").encode())[1]), f"pages of {words}")
            holds(words in said and said.endswith("; the pages are of the steps that were accepted\n") or words == "2 of 4", said)
        volumes, masses = field_of(130)
        pages = printed(data=pond(volumes, masses))
        fed = printed("--form-feed", data=pond(volumes, masses))
        equal((fed.replace(b"\f", b""), fed.count(b"\f"), [page.count(b"\n") for page in fed.split(b"\f")]), (pages, 2, [61, 61, 11]),
              "form feeds between pages")

    def test_bad_use(self):
        known("binder")
        refuses("(cause 6)", "binder", data=pond([1], [TOP + 1]))
        refuses("No such file", "binder", "--field", "/nonexistent", data=pond([1], [1]))
        refuses("is not there", "binder", "--library", "/nonexistent.so", data=pond([1], [1]))
        breaks("binder", data=pond([1], [1]))
        interrupted("binder")


if __name__ == "__main__":
    unittest.main()
