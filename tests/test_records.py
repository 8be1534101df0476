#!/usr/bin/env python3
"""lagoon pack, unpack and check on stored and generated sessions, on the engine's own records and on bad text.

    python3 tests/test_records.py
"""

import functools
import io
import re
import subprocess
import sys
import unittest

from toolcase import CHANNEL, HERE, ROOT, TIDE, breaks, command, equal, folder, holds, interrupted, known, refuses, session_of

import generate
import lagoon
from package import causes, layout, records, sessiontext

GENERATED = 200

printed_by_reference = functools.lru_cache(maxsize=None)(lagoon.run)


def both_ways(data, what):
    """The problems found in the bytes, whose text gives them back."""
    text, problems = records.unpack(data)
    if data:
        equal(sessiontext.pack(text)[0], data, f"{what}, unpacked and packed")
    return text, problems


# ---------------------------------------------------------------- Round trips


OUTFALLS = CHANNEL + """
step  # 3
face 0 flux -50 outside 1000
face 1 flux 50
face 2 flux 50
face 3 flux 50
cell 0 release 0
cell 1 release 20000
cell 2 release 4294967295
"""


LARGE = """mesh wide
cell 0 volume 65535
cell 1 volume 100
face 0 from 0 to rim
face 1 from 0 to 1 share 128 reach 65535
face 2 from 1 to rim

field
cell 0 mass 65535065534
cell 1 mass 0

step times 2  # 1 to 2
face 0 flux -65535 outside 1000000
face 1 flux 65535
face 2 flux 100

step  # 3
face 0 flux -100 outside 0
face 1 flux 100
face 2 flux 100
cell 0 release 0
cell 1 release 1099511627775
"""
WIDE_CHANNEL = CHANNEL.replace("mesh\n", "mesh wide\n", 1)


def kinds_of(data):
    """The kinds of a session's records."""
    source = layout.Source(io.BytesIO(data))
    mesh = source.mesh()
    found = [layout.kind_of(source.record)]
    source.field_on(mesh)
    while source.record:
        found.append(layout.kind_of(source.record))
        source.next_step(mesh)
    return found


LATE = "step\nface 0 flux -0\nbytes 30 02\nstep\nface 3 flux 50\ncell 1 release 7\n"


def lagoon_parts(text):
    """The mesh record, the field record and the step records of a text."""
    (mesh, _), (field, _), *steps = sessiontext.packed(sessiontext.Parser(io.BytesIO(text.encode())))[0]
    return mesh, field, b"".join(record * times for record, times in steps)


def stored():
    for path in sorted((HERE / "sessions").glob("*.in")):
        yield path.name, path.read_bytes()


@functools.lru_cache(maxsize=None)
def generated():
    return list(generate_sessions())


def generate_sessions():
    for number in range(GENERATED):
        yield f"generated session {number}", generate.session(11, number).data


def compare_with_run(data, what):
    """Damage is found where the reference refuses by 11, 12 or 13, with its cause and place."""
    _, problems = both_ways(data, what)
    found = [tuple(map(int, re.search(r"cause (\d+), place (\d+)\)$", problem).groups())) for problem in problems]
    printed = printed_by_reference(data)
    layouts = [refusal for refusal in refusals_in(printed) if refusal[0] in (11, 12, 13)]
    equal(found[:len(layouts)], layouts, f"{what}, what is wrong")
    if not printed.startswith(("M", "F")):
        equal(len(found), len(layouts), f"{what}, how many records are wrong")


def refusals_in(printed):
    return [tuple(map(int, line.split()[-2:])) for line in printed.splitlines() if re.match(r"[MF]|\d+ R", line)]


def raised_later(printed):
    """The steps that cause 18 refuses after an accepted step."""
    found, accepted = set(), False
    for line in printed.splitlines():
        words = line.split()
        if words[1:3] == ["R", "18"] and accepted:
            found.add(int(words[0]))
        accepted = accepted or words[0] not in ("0", "M", "F", "B") and words[1] != "R"
    return found


def refused(printed):
    """Kind, step, cause and place of each refusal that is printed."""
    found = []
    for line in printed.splitlines():
        words = line.split()
        if words[0] in "MF":
            found.append(("mesh" if words[0] == "M" else "field", 0, int(words[1]), int(words[2])))
        elif words[1:2] == ["R"]:
            found.append(("step", int(words[0]), int(words[2]), int(words[3])))
    return found


def checked(lines):
    """Kind, step and cause of each refusal that check says, step by step."""
    found = []
    for line in lines:
        kind, first, last, cause = re.search(r": (mesh|field|steps?)(?: (\d+)(?: to (\d+))?)?[:,].*\(cause (\d+)\)$", line).groups()
        if kind in ("mesh", "field"):
            found.append((kind, 0, int(cause)))
        else:
            found += [("step", step, int(cause)) for step in range(int(first), int(last or first) + 1)]
    return found


def judged_places(data):
    """Cause and place of each refusal, by python/lagoon/causes.py on the fields that the reference steps through."""
    source, found = layout.Source(io.BytesIO(data)), []
    try:
        mesh = source.mesh(causes.LIMITS)
        tables = lagoon.read_mesh(source.record)
        refusal = causes.mesh_refusal(mesh)
        masses = [] if refusal else source.field_on(mesh)
        refusal = refusal or causes.field_refusal(mesh, masses)
        if refusal:
            return [(refusal.cause, refusal.place)]
        while source.next_step(mesh) is not None:
            refusal = causes.refused_step(source, mesh, masses)
            if refusal:
                found.append((refusal.cause, refusal.place))
            else:
                masses = lagoon.accept_step(source.record, tables, masses, mesh.widths == layout.WIDE).masses
    except layout.Damage as damage:
        found.append((damage.cause, damage.place))
    return found


# ---------------------------------------------------------------- Bad text

MESH = "mesh\ncell 0 volume 9\nface 0 from 0 to rim\nface 1 from 0 to 0 share 1 reach 1\n"
FIELD = MESH + "field\ncell 0 mass 5\n"


# ---------------------------------------------------------------- The command


class Records(unittest.TestCase):
    def test_document_examples(self):
        text, problems = both_ways(bytes.fromhex("100100000640 200100000063"), "document 01's one cell")
        equal((text, problems), ("mesh\ncell 0 volume 100\n\nfield\ncell 0 mass 99\n", []), "its text")

    def test_channel(self):
        data, lacks = sessiontext.pack(CHANNEL)
        equal(lacks, "", "the channel lacks nothing")
        equal(data, (HERE / "sessions" / "channel.in").read_bytes(), "the channel's bytes")
        equal(both_ways(data, "channel"), (CHANNEL, []), "the canonical text, packed and unpacked")
        step = CHANNEL[CHANNEL.index("\nstep"):]
        longer = CHANNEL.replace(step, step.replace("step times 2  # 1 to 2", "step") * 2)
        equal(sessiontext.pack(longer)[0], data, "the channel with its two steps apart")
        equal(sessiontext.pack(CHANNEL.replace("cell 1 mass 0\ncell 2 mass 0\n", ""))[0], data, "the channel with masses of 0 left out")

    def test_releases(self):
        """A step with a release is of kind 4; a release that is left out is 0, and one of 0 keeps the kind."""
        data, _ = sessiontext.pack(OUTFALLS)
        equal(data[:-28], sessiontext.pack(CHANNEL)[0], "what stands before the step of kind 4")
        equal(data[-28:].hex(" "), "40 02 00 00 81 90 0c 80 64 03 20 03 e8 00 00 00 00 00 00 00 00 04 e2 0f ff ff ff f0", "the step of kind 4")
        equal(both_ways(data, "outfalls"), (OUTFALLS, []), "the canonical text, packed and unpacked")
        equal(sessiontext.pack(OUTFALLS.replace("cell 0 release 0\n", ""))[0], data, "a release of 0 left out")
        only = OUTFALLS.replace("cell 1 release 20000\ncell 2 release 4294967295\n", "")
        equal(sessiontext.pack(only)[0][-28:].hex(), data[-28:-13].hex() + "00" * 13, "kind 4 with releases 0")
        one = bytes.fromhex("100100000640 200100000063") + bytes.fromhex("4000000000000385") * 2 + bytes.fromhex("30000000")
        text, problems = both_ways(one, "one cell with releases")
        equal((text.split("\n\n")[2:], problems), (["step times 2  # 1 to 2\ncell 0 release 901", "step  # 3\n"], []), "its steps")

    def test_wide_records(self):
        """Kinds 5 to 8 hold the same items with more bits: as the reference packs them, and back."""
        data, _ = sessiontext.pack(LARGE)
        mesh = lagoon.Mesh([65535, 100], [0, 0, 1], [layout.RIM, 1, layout.RIM], [0, 128, 0], [0, 65535, 0])
        steps = lagoon.pack_step(mesh, [-65535, 65535, 100], [1000000, 0, 0], wide=True) * 2 \
            + lagoon.pack_step(mesh, [-100, 100, 100], [0, 0, 0], [0, (1 << 40) - 1], wide=True)
        equal(data, lagoon.pack_mesh(mesh, True) + lagoon.pack_field([65535065534, 0], True) + steps, "a large bay, packed")
        equal(both_ways(data, "a large bay"), (LARGE, []), "its text, packed and unpacked")
        equal(kinds_of(data), [5, 6, 7, 7, 8], "its kinds")
        wide, _ = sessiontext.pack(WIDE_CHANNEL)
        equal((kinds_of(wide), both_ways(wide, "the channel, wide")), ([5, 6, 7, 7], (WIDE_CHANNEL, [])), "wide records of small values")
        equal(lagoon.run(wide), lagoon.run(sessiontext.pack(CHANNEL)[0]), "what the run prints of either width")

    def test_what_asks_for_wide_records(self):
        """A value above those that kinds 1 to 4 hold, wherever it stands; the records before it are wide too, and lines of bytes stay."""
        for old, least in (("cell 2 volume 100", 4095), ("reach 100", 4095), ("cell 1 mass 0", (1 << 32) - 1), ("face 3 flux 50", 4095),
                           ("face 0 flux -50", 4095), ("cell 1 release 7", (1 << 32) - 1)):
            for more in (0, 1):
                words = re.sub("[0-9]+$", str(least + more), old)
                text = words.join((CHANNEL + LATE).rsplit(old, 1))
                found, _ = sessiontext.packed(sessiontext.Parser(io.BytesIO(text.encode())))
                equal([layout.kind_of(record) for record, _ in found], [5, 6, 7, 7, 3, 8] if more else [1, 2, 3, 3, 3, 4], words)
                equal(found[4][0], b"\x30\x02", "a line of bytes")
                forced, _ = sessiontext.packed(sessiontext.Parser(io.BytesIO(text.replace("mesh", "mesh wide", 1).encode())))
                if more:
                    equal(found, forced, f"{words}, as if the text had said so at once")

    def test_the_mesh_fixes_the_width(self):
        """A record of the other width is of the wrong kind."""
        narrow, wide = (lagoon_parts(text) for text in (CHANNEL, WIDE_CHANNEL))
        for mesh, field, step, kind, wanted in ((wide, narrow, wide, "0010", "0110"), (narrow, wide, narrow, "0110", "0010"),
                                                (wide, wide, narrow, "0011", "0111 or 1000"), (narrow, narrow, wide, "0111", "0011 or 0100")):
            data = mesh[0] + field[1] + step[2]
            status, text, said = command("unpack", data=data)
            words = f"kind {kind} in binary where a {'step' if field == mesh else 'field'} record has {wanted} (cause 13, place 0)"
            equal((status, words in said), (1, True), said)
            equal(sessiontext.pack(text.decode())[0], data, "records of two widths, unpacked and packed")
            equal((command("check", data=data)[0], " 13 0" in lagoon.run(data)), (1, True), "it is refused")

    def test_wide_bytes_are_no_text(self):
        """The head of a wide mesh may be letters, and all that follows it too."""
        cells, faces = 560, 1100
        mesh = lagoon.Mesh([0x4141] * cells, [cells - 1] * faces, [layout.RIM] * faces, [0] * faces, [0] * faces)
        data = lagoon.pack_mesh(mesh, True) + lagoon.pack_field([0x41414141] * cells, True)
        holds(data[:64].isascii() and data[:64].decode().isprintable(), f"{data[:64]} is printable")
        equal(command("check", data=data)[:2],
              (0, b"<stdin>: 560 cells, 1,100 faces (1,100 at the rim), 0 steps: there is nothing to refuse\n"), "and packed")
        for word in ("Step", "Pond 1", "Sea", "Sessions of June", "_"):
            refuses(f"<stdin>:1:1: 'mesh', 'field', 'step', 'bytes', 'unit', 'name' or 'at' should stand here, not '{word.split()[0]}'", "check",
                    data=f"{word}\n{CHANNEL}".encode())

    def test_a_field_of_either_width(self):
        """--field takes the masses of a field record, and the text decides the width."""
        with folder() as made:
            path = f"{made}/field"
            for text, masses, wide, kinds in ((CHANNEL, (5, 6, 7), True, [1, 2, 3, 3]), (WIDE_CHANNEL, (5, 6, 7), False, [5, 6, 7, 7]),
                                              (CHANNEL, (5, 1 << 32, 7), True, [5, 6, 7, 7])):
                with open(path, "wb") as file:
                    file.write(lagoon.pack_field(masses, wide))
                status, out, said = command("pack", "--field", path, data=text.encode())
                equal((status, said, kinds_of(out)), (0, "", kinds), f"masses {masses}, wide: {wide}")
                its_own = re.sub(r"mass 100000\ncell 1 mass 0\ncell 2 mass 0", "mass {}\ncell 1 mass {}\ncell 2 mass {}".format(*masses), text)
                equal(out, sessiontext.pack(its_own)[0], "as if the text had these masses")
            with open(path, "wb"):
                pass
            refuses("field is no field record: the input ends in this field record", "pack", "--field", path, data=CHANNEL.encode())

    def test_equal_steps_are_folded(self):
        data, _ = sessiontext.pack(TIDE)
        text, _ = both_ways(data, "tide")
        equal(re.findall("^step.*$", text, re.MULTILINE), ["step times 10  # 1 to 10", "step times 14  # 11 to 24", "step  # 25",
                                                           "step times 10  # 26 to 35", "step times 14  # 36 to 49"], "the tide's steps")
        one = bytes.fromhex("100100000640 200100000063")
        both_ways(one + bytes.fromhex("30000000") * 5 + bytes.fromhex("30000001") * 2 + bytes.fromhex("30000000"), "equal steps around wrong bits")

    def test_engine_records(self):
        """The bytes that the engine writes in the gate's program of all calls."""
        printed = (ROOT / "crates" / "calls" / "stdout").read_text()
        written = re.compile(r"write_mesh: accepted (\d+); bytes (.*)\nwrite_field: accepted (\d+); bytes (.*)\n"
                             r"write_step: accepted (\d+); bytes (.*)\n")
        sessions = 0
        for found in written.finditer(printed):
            data = b"".join(bytes(map(int, found[i + 1].split()[:int(found[i])])) for i in (1, 3, 5))
            equal(both_ways(data, found[0][:60])[1], [], found[0][:60])
            sessions += 1
        holds(sessions > 3, "sessions of the engine's records")

    def test_stored_sessions(self):
        for name, data in stored():
            compare_with_run(data, name)

    def test_generated_sessions(self):
        for name, data in generated():
            compare_with_run(data, name)

    def test_check_says_what_the_run_refuses(self):
        """Every refusal of the reference, with its cause, step and place, and no other; of stored and generated sessions. What cause 18 refuses
    after an accepted step is found by the engine's steps."""
        seen, later = set(), 0
        for name, data in [*stored(), *generated()]:
            printed = printed_by_reference(data)
            checker = records.check_packed(io.BytesIO(data), name)
            report = checker.report()
            equal(checked(report[:-1]), [(kind, step, cause) for kind, step, cause, _ in refused(printed)], name)
            equal((checker.bad(), checker.open), (bool(refused(printed)), 0), f"{name}, whether anything is refused, and all is judged")
            later += len(raised_later(printed))
            places = judged_places(data)
            equal(places, [(cause, place) for _, _, cause, place in refused(printed)], f"{name}, places")
            seen |= {cause for cause, _ in places}
        equal(seen, {1, 3, 4, 5, 6, 7, 8, 9, 10, 11, 12, 13, 18}, "causes that were tried")
        holds(later > 5, f"only {later} steps that cause 18 refuses after an accepted one")

    def test_check_in_words(self):
        tide = ROOT / "examples" / "tide.txt"
        status, out, said = command("check", tide)
        line = TIDE[:TIDE.index("face 0 flux -300 outside 35000\nface 1 flux 299")].count("\n") + 1
        equal((status, out.decode().splitlines(), said), (1, [
            f"{tide}:{line}: step 25, cell 0: 300 enters, 299 leaves (cause 9)",
            f"{tide}: 8 cells, 9 faces (2 at the rim), 49 steps: the run refuses 1 of them"], ""), "the tide checked")
        status, out, said = command("check", data=sessiontext.pack(TIDE)[0])
        equal((status, out.decode().splitlines()[0]), (1, "<stdin>: byte 676: step 25, cell 0: 300 enters, 299 leaves (cause 9)"), "and packed")
        for old, new, line, words in (
                ("cell 1 volume 100", "cell 1 volume 0", 3, "mesh: cell 1: volume 0 is outside 1 to 65,535 (cause 3)"),
                ("from 1 to 2", "from 7 to 2", 7, "mesh: face 2: it begins at 7, and the cells are 0 to 2 (cause 4)"),
                ("from 1 to 2", "from 1 to 1", 7, "mesh: face 2: it joins cell 1 to itself (cause 4)"),
                ("from 1 to 2", "from 1 to 7", 7, "mesh: face 2: it ends at 7, which is neither a cell (0 to 2) nor the rim (cause 4)"),
                ("share 128", "share 0", 6, "mesh: face 1: share 0 is outside 1 to 255 (cause 5)"),
                ("reach 100", "reach 0", 6, "mesh: face 1: reach 0 is outside 1 to 65,535 (cause 5)"),
                ("face 3 from 2 to rim", "face 3 from 2 to rim share 1 reach 0", 8, "mesh: face 3: share 1 and reach 0 at the rim"),
                ("cell 1 mass 0", "cell 1 mass 100000100", 12,
                 "field: cell 1: mass 100,000,100 in volume 100 is a concentration of 1,000,001, above 1,000,000 (cause 6)"),
                ("outside 1000", "outside 1000001", 16, "steps 1 to 2, face 0: outside value 1,000,001 is above 1,000,000 (cause 7)"),
                ("face 3 flux 50", "face 3 flux 50 outside 7", 19,
                 "steps 1 to 2, face 3: outside value 7 where no water enters over the rim (flux 50) (cause 7)"),
                ("face 1 flux 50", "face 1 flux 101", 17, "steps 1 to 2, face 1: flux 101 is larger than the reach 100 (cause 8)"),
                ("face 1 flux 50", "face 1 flux -0", 17, "steps 1 to 2, face 1: flux -0, a minus with size 0 (cause 12)"),
                ("flux 50\nface 2", "flux 49\nface 2", 16, "steps 1 to 2, cell 0: 50 enters, 49 leaves (cause 9)"),
                ("face 3 flux 50", "face 3 flux 50\ncell 0 release 99900100\ncell 1 release 0", 20,
                 "steps 1 to 2, cell 0: mass 100,000 and release 99,900,100 in volume 100 are a concentration of 1,000,001, above 1,000,000 (cause 18)"),
                ("face 3 flux 50", "face 3 flux 49\ncell 2 release 4294967295", 20,
                 "steps 1 to 2, cell 2: release 4,294,967,295 in volume 100 is a concentration of 42,949,672, above 1,000,000 (cause 18)"),
                ("face 3 flux 50", "face 3 flux 49\ncell 2 release 5", 18, "steps 1 to 2, cell 2: 50 enters, 49 leaves (cause 9)")):
            bad = CHANNEL.replace(old, new, 1)
            status, out, said = command("check", data=bad.encode())
            holds(status == 1 and out.decode().startswith(f"<stdin>:{line}: {words}"), f"{new}: {out.decode()} {said}")
        wide = CHANNEL.replace("50", "101").replace("reach 100", "reach 200")
        equal(command("check", data=wide.encode())[1].decode().splitlines()[0],
              "<stdin>:16: steps 1 to 2, cell 0: 101 leaves, more than its volume 100 (cause 10)", "outflow above the volume")
        equal(command("check", data=CHANNEL.encode())[:2],
              (0, b"<stdin>: 3 cells, 4 faces (2 at the rim), 2 steps: the run accepts all\n"), "a session without fault")
        equal(command("check", data=CHANNEL[:CHANNEL.index("field")].encode())[0], 1, "a session without a field")

    def test_check_after_steps(self):
        """What cause 18 refuses on a field that steps have changed, with its line or byte; without the library it is said what is not judged."""
        later = CHANNEL + "step times 3\ncell 0 release 99900000\n"
        for given, where in ((later.encode(), ":21"), (sessiontext.pack(later)[0], ": byte 105")):
            equal(command("check", data=given)[:2],
                  (1, (f"<stdin>{where}: steps 4 to 5, cell 0: mass 100,000,099 and release 99,900,000 in volume 100 are a concentration "
                  "of 1,999,000, above 1,000,000 (cause 18)\n<stdin>: 3 cells, 4 faces (2 at the rim), 5 steps: the run refuses 2 of them\n").encode()),
                  "releases after an accepted step")
        equal(command("check", "--library", "nowhere", data=later.encode())[:2],
              (0, b"<stdin>: 3 cells, 4 faces (2 at the rim), 5 steps: the run accepts all; cause 18 is not judged in 3 with releases: nowhere is not there: "
                  b"`make lib` makes it\n"), "without the library")

    def test_damage_is_said(self):
        data, _ = sessiontext.pack(CHANNEL)
        for bad, words in ((data[:2], "<stdin>: byte 2: mesh, byte 2, bit 16: the input ends in this mesh record, which needs 4 bytes and has 2"),
                           (data[:47] + b"\x40" + data[48:], "<stdin>: byte 47: step 1, byte 2, bit 17: a zero bit is set (cause 12, place 17)"),
                           (data[:61] + b"\x20" + data[62:], "<stdin>: byte 61: step 2, byte 0, bit 0: kind 0010 in binary"),
                           (data[:31] + b"\x20\x04" + data[33:], "<stdin>: byte 31: field, byte 0, bit 4: 4 cells where the mesh has 3")):
            status, text, said = command("unpack", data=bad)
            equal((status, said.startswith(words)), (1, True), said)
            equal(sessiontext.pack(text.decode())[0], bad, "damaged bytes, unpacked and packed")

    def test_bad_text(self):
        cases = [("cell 0 volume 1", 1, 1), ("mesh\n  cel 0 volume 1", 2, 3), ("mesh\ncell 1 volume 1", 2, 6),
                 ("mesh\ncell 0 volume 65536", 2, 15), ("mesh\ncell 0 volume -1", 2, 15), ("mesh\ncell 0 volume", 2, 14),
                 ("mesh\ncell 0 volume # 1", 2, 14), ("mesh\ncell 0 volume 1 2", 2, 17), ("mesh\ncell 0 mass 1", 2, 8),
                 ("mesh\nface 0 from 0 to 1", 2, 19), ("mesh\nface 0 from 0 to boundary", 2, 18),
                 ("mesh\nface 0 from 0 to 1 share 256 reach 1", 2, 26), ("mesh\nface 0 from 0 to 1 share 1 reach 65536", 2, 34),
                 (MESH + "cell 1 volume 1", 5, 1), (MESH + "mesh", 5, 1), (MESH + "step", 5, 1), ("field", 1, 1),
                 (MESH + "field\ncell 1 mass 1", 6, 6), (MESH + "field\ncell 0 mass 1099511627776", 6, 13),
                 (FIELD + "cell 0 mass 6", 7, 6), (FIELD + "field", 7, 1), (FIELD + "step\nface 0 flux 65536", 8, 13),
                 (FIELD + "step\nface 0 flux -65536", 8, 13),
                 (FIELD + "step\nface 0 flux --1", 8, 13), (FIELD + "step\nface 0 flux 1.5", 8, 13),
                 (FIELD + "step\nface 1 flux 1 outside 0", 8, 15), (FIELD + "step\nface 0 flux -1 outside 1048576", 8, 24),
                 (FIELD + "step\nface 1 flux 1\nface 0 flux 1", 9, 6), (FIELD + "step\nface 2 flux 1", 8, 6),
                 (FIELD + "step\ncell 0 release 1099511627776", 8, 16), (FIELD + "step\ncell 0 release -1", 8, 16), (FIELD + "step\ncell 0 mass 1", 8, 8),
                 (FIELD + "step\ncell 1 release 1", 8, 6), (FIELD + "step\ncell 0 release 1\ncell 0 release 1", 9, 6),
                 (FIELD + "step\ncell 0 release 1\nface 0 flux 1", 9, 1), (FIELD + "cell 0 release 1", 7, 6), (FIELD + "step\ncell 0 release", 8, 15),
                 (FIELD + "step times 0", 7, 12), (FIELD + "step times 1000001", 7, 12), (FIELD + "step twice", 7, 6), ("bytes", 1, 6),
                 ("bytes 1", 1, 7), ("bytes 0x", 1, 7), (MESH + "name cell 1 Inlet", 5, 11), (MESH + "name cell 0", 5, 12),
                 (MESH + "name pond 0 Inlet", 5, 6), (MESH + "unit depth m", 5, 6), (FIELD + "step\nname cell 0 Inlet", 8, 1),
                 ("mesh\ncell 0 volume " + "9" * 5000, 2, 15),
                 ("mesh large", 1, 6), ("mesh wide wide", 1, 11), (MESH + "field wide", 5, 7), (FIELD + "step wide", 7, 6)]
        for text, line, column in cases:
            try:
                sessiontext.pack(text)
            except sessiontext.TextError as error:
                equal((error.line, error.column), (line, column), f"place of the error in {text.splitlines()[-1][:60]!r} ({error.words})")
            else:
                raise AssertionError(f"no error in {text!r}")
        refuses("<stdin>:2:15: a volume is at most 65535, not 65536\n", "pack", data=b"mesh\ncell 0 volume 65536\n")

    def test_words_of_bad_text(self):
        for text, words in ((MESH.replace("rim", "boundary"), "write 'rim' for 'boundary'"),
                            (MESH.replace("share", "weight"), "write 'share' for 'weight'"),
                            (MESH.replace("reach", "span"), "write 'reach' for 'span'"),
                            (MESH.replace("from 0 to rim", "from rim to 0"), "the number of a cell (the rim stands second), not 'rim'"),
                            (MESH.replace("to rim", "to K"), "the number of a cell or 'rim', not 'K'"),
                            (FIELD + "step\nface 0 flux -", "should be a whole number, not '-'"), (FIELD + "step\nface 0 flux --5", "not '--5'"),
                            ("mesh\n\x1b[31m\0", r"not '\x1b[31m\x00'"), ("mesh\n" + "x" * 3000, "not '" + "x" * 37 + "...'"),
                            ("", "there is no mesh in this text"), ("mesh\ncell 0 volume " + "9" * 5000, "is at most 65535, not 999")):
            refuses(words, "pack", data=text.encode())
        refuses("save it as UTF-8", "pack", data=CHANNEL.encode("utf-16"))
        equal(command("pack", data=CHANNEL.encode("utf-8-sig"))[1], sessiontext.pack(CHANNEL)[0], "text with a byte order mark")
        equal(command("pack", data=CHANNEL.replace("\n", "\r\n").encode())[1], sessiontext.pack(CHANNEL)[0], "text with carriage returns")

    def test_nothing_is_overwritten(self):
        with folder() as made:
            mine, other = f"{made}/mine.txt", f"{made}/other.in"
            for path in (mine, other):
                with open(path, "w") as file:
                    file.write(CHANNEL)
            refuses("is read: it cannot be written too", "pack", mine, "-o", mine)
            done = subprocess.run(["bash", "-c", f"'{ROOT}/bin/lagoon' pack -o '{mine}' < '{mine}'"], capture_output=True)
            equal(done.returncode, 1, "pack over its standard input")
            refuses("a volume should be", "pack", "-o", other, data=b"mesh\ncell 0 volume x\n")
            for path in (mine, other):
                with open(path) as file:
                    equal(file.read(), CHANNEL, f"{path} is as it was")
            equal(command("pack", mine, "-o", other)[0], 0, "pack over another file")
            with open(other, "rb") as file:
                equal(file.read(), sessiontext.pack(CHANNEL)[0], "what is packed")

    def test_refused_sessions_can_be_made(self):
        """Values out of range, where they fit their fields."""
        for old, new, refusal in (("cell 1 volume 100", "cell 1 volume 0", "M 3 1"), ("from 1 to 2", "from 4095 to 2", "M 4 2"),
                                  ("face 3 from 2 to rim", "face 3 from 2 to rim share 0 reach 1", "M 5 3"),
                                  ("cell 1 mass 0", "cell 1 mass 4294967295", "F 6 1"), ("outside 1000", "outside 1048575", "1 R 7 0"),
                                  ("face 1 flux 50", "face 1 flux -0", "1 R 12 45"), ("face 3 flux 50", "face 3 flux 49", "1 R 9 2"),
                                  ("face 3 flux 50", "face 3 flux 50\ncell 1 release 4294967295", "1 R 18 1")):
            data, _ = sessiontext.pack(CHANNEL.replace(old, new, 1))
            holds(refusal in lagoon.run(data).splitlines(), f"{new} is refused by {refusal}")

    def test_units_and_names(self):
        """They change no byte, and are read where the session is text."""
        labelled = "unit volume 10 m3\nname face 0 the sea # west\n" + CHANNEL.replace("field", "name cell 2 Head\nfield")
        equal(sessiontext.pack(labelled)[0], sessiontext.pack(CHANNEL)[0], "names and units")
        labels = session_of(labelled.encode()).labels
        equal((labels.units, labels.of("face", 0), labels.of("cell", 2), labels.of("cell", 1)),
              ({"volume": "10 m3"}, "face 0 (the sea)", "cell 2 (Head)", "cell 1"), "what is named")

    def test_hexadecimal(self):
        status, out, said = command("unpack", "--hex", data=b"10 01 00 00 06 40 # mesh\n200100000063\n")
        equal((status, out.decode(), said), (0, "mesh\ncell 0 volume 100\n\nfield\ncell 0 mass 99\n", ""), "bytes in hexadecimal")
        equal(command("pack", "--hex", data=out)[1], b"10 01 00 00 06 40 20 01 00 00 00 63\n", "and back")
        refuses("<stdin>:1:4: bytes are pairs of hexadecimal digits, not '0'\n", "unpack", "--hex", data=b"10 0\n")

    def test_the_command(self):
        for name in ("pack", "unpack", "check"):
            known(name)
        breaks("pack", ROOT / "examples" / "tide.txt")
        breaks("unpack", HERE / "sessions" / "channel.in")
        breaks("check", ROOT / "examples" / "tide.txt")
        interrupted("pack")
        for words, arguments in (("nowhere: No such file", ["pack", "nowhere"]), ("Is a directory", ["check", ROOT]),
                                 ("nowhere/x: No such file", ["pack", ROOT / "examples" / "channel.txt", "-o", "nowhere/x"])):
            refuses(words, *arguments)
        refuses("bytes or more: it is no text", "pack", data=bytes(3 << 20))
        known("worked.py")
        breaks("worked.py", "printed")

    def test_little_memory(self):
        """A step many times over is written without being held."""
        many = CHANNEL.replace("step times 2", "step times 1000000")
        line = f"ulimit -v 100000; '{sys.executable}' '{ROOT}/bin/lagoon' pack | wc -c"
        done = subprocess.run(["bash", "-c", line], input=many.encode(), capture_output=True)
        equal((done.stdout.split(), done.stderr), ([b"16000045"], b""), "a million steps in 100 MB")


if __name__ == "__main__":
    unittest.main()
