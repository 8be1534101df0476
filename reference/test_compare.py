#!/usr/bin/env python3
"""The comparison itself, with the reference in the place of the engine: what has to fail fails, and is kept small.
One test: python3 reference/test_compare.py -k silent."""

import subprocess
import sys
import tempfile
import unittest
from pathlib import Path

HERE = Path(__file__).resolve().parent
sys.path.insert(0, str(HERE))

import engines
import from_c
import header
import lagoon
import script
import shrink
from slips import ALL_SLIPS, ANSWER_SLIPS, CALL_SLIPS, RUN_SLIPS, SLIPS

SELF = f"python3:{HERE / 'lagoon.py'}"
SMALL = 110             # bytes; about four cells with the faces between them and one step

# A call that is right on a mesh record of one byte, and with FAULT does something else besides.
CALL_WITH_FAULT = """
#include "lagoon.h"
uint64_t lagoon_step(const uint8_t *mesh, size_t mesh_len, const uint8_t *field, size_t field_len,
                     const uint8_t *step, size_t step_len, uint8_t *next, size_t next_len)
{
    (void)field_len, (void)step, (void)step_len;
    if (FAULT == 1) next[next_len] = 0;
    if (FAULT == 2 && ((const volatile uint8_t *)mesh)[mesh_len] == 1) return 1;
    if (FAULT == 3) ((uint8_t *)field)[0] ^= 1;
    if (FAULT == 4) next[0] = 0;
    return 11ull << 32;
}
"""


def compare(*words):
    """Exit status and output of compare.py."""
    done = subprocess.run([sys.executable, str(HERE / "compare.py"), *words], capture_output=True, text=True)
    if done.stderr:
        raise AssertionError(f"compare.py {' '.join(words)}: {done.stderr}")
    return done.returncode, done.stdout


def slipped(slip):
    """The reference with a slip in it."""
    wrong = engines.load(HERE / "lagoon.py", "wrong_lagoon")
    ALL_SLIPS[slip](wrong)
    return wrong


class Comparison(unittest.TestCase):
    """A whole comparison, as it is called."""

    def test_equal_and_every_cause(self):
        status, text = compare("--run", SELF, "--call", SELF, "--sessions", "300", "--seed", "3")
        self.assertEqual(status, 0, f"the reference differs from itself: {text}")
        self.assertIn("no mismatch", text)

    def test_scripts_equal(self):
        status, text = compare("--script", SELF, "--sessions", "120", "--seed", "3")
        self.assertIn("no mismatch", text, "the reference differs from itself on scripts")

    def test_cause_never_reached(self):
        status, text = compare("--run", SELF, "--call", SELF, "--sessions", "20", "--seed", "3")
        self.assertEqual(status, 1, f"20 sessions reach every cause: {text}")
        self.assertIn("NEVER REACHED", text)

    def test_silent_program(self):
        """A program that prints nothing, as run, as call driver and as calls."""
        for side in ("--run", "--call", "--script"):
            with self.subTest(side), tempfile.TemporaryDirectory() as folder:
                status, text = compare(side, "/bin/true", "--sessions", "20", "--keep", folder)
                self.assertEqual(status, 1, text)
                self.assertIn("MISMATCH of true", text)


class Slips(unittest.TestCase):
    """A slip is seen, and the small case that it leaves still shows it."""

    def small(self, slip, *words, kind="bin"):
        """The small case that a comparison with this slip leaves, and what was printed."""
        with tempfile.TemporaryDirectory() as folder:
            status, text = compare(*words, "--slip", slip, "--keep", folder)
            kept = list(Path(folder).glob(f"*-small.{kind}"))
            self.assertEqual((status, len(kept)), (1, 1), f"slip {slip} leaves no small case: {text}")
            return kept[0].read_bytes(), text

    def shown_by_a_session(self, slip, *words):
        data, text = self.small(slip, "--run", SELF, *words)
        self.assertNotEqual(slipped(slip).run(data), lagoon.run(data), "the small session shows nothing")
        self.assertLessEqual(len(data), SMALL, text)

    def test_kept_small(self):
        """A slip ends a soak."""
        for slip in ("floor", "still", "product", "short_volume"):
            with self.subTest(slip):
                self.shown_by_a_session(slip, "--soak", "60", "--seed", "8")

    def test_of_a_run(self):
        """A slip that a list of steps shows is seen in sessions."""
        for slip in RUN_SLIPS:
            with self.subTest(slip):
                self.shown_by_a_session(slip, "--sessions", "200", "--seed", "5")

    def test_of_a_call(self):
        for slip in ("bound", *CALL_SLIPS):
            with self.subTest(slip):
                case, text = self.small(slip, "--call", SELF, "--soak", "60", "--seed", "5")
                self.assertLessEqual(len(case), 16 + SMALL, text)

    def test_of_answers(self):
        """A slip of the answers leaves a script of one call."""
        for slip in ("place", "beyond"):
            with self.subTest(slip):
                text, printed = self.small(slip, "--script", SELF, "--sessions", "200", "--seed", "5", kind="script")
                self.assertNotEqual(script.answer(text, slipped(slip)), script.answer(text), "the small script shows nothing")
                self.assertEqual(script.answer(text).count("\n"), 1, printed)

    def test_all_in_scripts(self):
        status, text = compare("--script", SELF, "--slips")
        self.assertEqual(status, 0, text)
        for slip in (*SLIPS, *CALL_SLIPS, *ANSWER_SLIPS):
            self.assertIn(f"slip {slip}:", text)


class Widths(unittest.TestCase):
    def test_small_records_are_narrow(self):
        """Wide records become narrow ones where these still fail, and stay wide where a value needs it."""
        for V, wide in ((4_095, False), (4_096, True)):
            mesh = lagoon.Mesh([V], [0, 0], [lagoon.RIM] * 2, [0] * 2, [0] * 2)
            data = lagoon.pack_mesh(mesh, True) + lagoon.pack_field([V], True) + lagoon.pack_step(mesh, [-V, V], [1, 0], wide=True) * 2
            fails = lambda data: lagoon.run(data).splitlines()[1:2] == [f"1 {V} {V} {V} 0"]
            small = shrink.session(data, fails)
            self.assertTrue(fails(small), f"V {V}: {small.hex(' ')}")
            self.assertEqual(lagoon.is_wide(lagoon.kind_of(small)), wide, f"V {V}: {small.hex(' ')}")

    def test_other_widths_accepted(self):
        """The slips of the other width take a record that follows its layout, and do not only refuse it by another cause."""
        mesh = lagoon.Mesh([100], [0, 0], [lagoon.RIM] * 2, [0] * 2, [0] * 2)
        records = {wide: (lagoon.pack_mesh(mesh, wide), lagoon.pack_field([500], wide), lagoon.pack_step(mesh, [-9, 9], [7, 0], [3], wide))
                   for wide in (False, True)}
        for wide, own in records.items():
            for slip, at in (("either_field", 1), ("either_step", 2)):
                with self.subTest(slip, wide=wide):
                    wrong, mixed = slipped(slip), [*own[:at], records[not wide][at], *own[at + 1:]]
                    self.assertEqual(wrong.run(b"".join(mixed)), lagoon.run(b"".join(own)), "a session")
                    self.assertEqual(wrong.host_step(*mixed, 99), lagoon.host_step(*own, 99), "a call")


class Drivers(unittest.TestCase):
    def test_faults_seen(self):
        """A byte written past the room, one read past the mesh, a record changed, a room changed by a refusal."""
        case = (b"\x10", b"\x20", b"\x30", 5)
        right = engines.with_room(*lagoon.host_step(*case), case[3])
        with tempfile.TemporaryDirectory() as folder:
            Path(folder, "call.c").write_text(CALL_WITH_FAULT)
            for watch in ("-DGUARD_PAGES", "-fsanitize=address"):
                for fault in range(5):
                    subprocess.run(["gcc", "-g", watch, f"-DFAULT={fault}", f"-I{HERE.parent / 'include'}", "call.c",
                                    str(HERE / "call_driver.c"), "-o", "driver"], cwd=folder, check=True)
                    driver = engines.Driver(f"{folder}/driver")
                    same = (driver(*case), driver.finish()) == (right, "")
                    self.assertEqual(same, fault == 0, f"{watch}: fault {fault} is {'not ' * same}seen")

    def test_faults_of_all_calls_seen(self):
        """The same faults in a library of all calls, and a byte written before the room."""
        given = {"mesh": b"\x10", "field": b"\x20", "step": b"\x30", "next": bytes([from_c.FILL] * 5)}
        [(number, call)] = [(number, call) for number, call in enumerate(header.declared()) if call.name == "lagoon_step"]
        right = from_c.told(call, 11 * from_c.PLACE, given)
        with tempfile.TemporaryDirectory() as folder:
            Path(folder, "made.h").write_text(header.driver())
            Path(folder, "call.c").write_text(CALL_WITH_FAULT.replace("(void)field_len,", "if (FAULT == 5) next[-1] = 0;\n    (void)field_len,"))
            Path(folder, "others.c").write_text("".join(f"unsigned long {call.name}(void) {{ return 0; }}\n" for call in header.declared()
                                                        if call.name != "lagoon_step"))
            for fault in range(6):
                subprocess.run(["gcc", "-g", "-w", f"-DFAULT={fault}", f"-I{HERE.parent / 'include'}", "-I.", "call.c", "others.c",
                                str(HERE / "calls_driver.c"), "-o", "driver"], cwd=folder, check=True)
                driver = engines.CallsDriver(f"{folder}/driver")
                same = (driver(from_c.stream(number, call, given), len(right)), driver.finish()) == (right, "")
                self.assertEqual(same, fault == 0, f"fault {fault} is {'not ' * same}seen")


if __name__ == "__main__":
    unittest.main()
