#!/usr/bin/env python3
"""The engine beside plain C on a processor whose divider is slow, made of one whose divider is fast.

slow_divider.py [--built] [--repeats N] [--write PAGE]

Every division in the machine code of all programs, the engine's and plain C's, is done several times, each once more only when the one before
has its quotient: twice one of 32 bits, four times one of 64. So long it takes, and so long the divider is taken. What a division then takes is
measured and printed with the times; nothing but divisions is changed, and every program must print what it prints without.
The programs are made in target/slow/, a copy of the tree in which gcc, and the clang with which rt compiles what it has proved, are
this program: it compiles to assembly, writes the divisions anew, and assembles. Libraries are those of crates/*/out/, as `make bench` leaves
them.
"""

import argparse
import os
import re
import shutil
import subprocess
import sys
import tempfile
from pathlib import Path

TOP = Path(__file__).resolve().parent.parent
SLOW = TOP / "target" / "slow"
PROGRAMS = ("bench_step", "run")
LIBRARY = "lagoon_c"                    # has the one call that bench/records.c makes
COPIED = ("bench", "reference", "include", "examples", "tests", "crates.txt", "tools", "VERSION")
sys.path.insert(0, str(TOP / "tools"))

import prove

KIT = prove.kit()
TOOLCHAIN = SLOW / "kit" / "toolchain"

TIMES = {"l": 2, "q": 4}                # how often a division of 32 and of 64 bits is done
DIVISION = re.compile(r"^\s+(i?div)([lq])\s+(.*)$", re.MULTILINE)
SPARE = re.compile(r"%xmm1[345]\b")
LOOPS = 20_000_000


def slowed(assembly):
    """The same code with every division done several times, the dividend kept where compilers of plain integers keep nothing."""
    if SPARE.search(assembly):
        sys.exit("slow_divider: the registers that keep a dividend are in use")

    def again(found):
        word, width, operand = found.groups()
        once = f"\t{word}{width}\t{operand}\n"
        wait = "\tandq\t$0, %rax\n\tmovq\t%rax, %xmm13\n\tpor\t%xmm15, %xmm13\n\tmovq\t%xmm13, %rax\n\tmovq\t%xmm14, %rdx\n"
        return "\tmovq\t%rax, %xmm15\n\tmovq\t%rdx, %xmm14\n" + once + (wait + once) * (TIMES[width] - 1)

    return DIVISION.sub(again, assembly)


def compiled(compiler, words):
    """What the compiler would do, by way of slowed assembly: one module to an object, or sources of C to a program."""
    out = words[words.index("-o") + 1]
    sources = [word for word in words if word.endswith((".c", ".bc"))]
    flags = [word for word in words if word not in (*sources, out, "-o", "-c") and not word.endswith(".a")]
    with tempfile.TemporaryDirectory() as made:
        texts = []
        for source in sources:
            text = Path(made) / (Path(source).stem + ".s")
            subprocess.run([compiler, *flags, "-S", source, "-o", text], check=True)
            text.write_text(slowed(text.read_text()))
            texts.append(text)
        last = ["--target=x86_64-unknown-linux-gnu", "-c"] if "-c" in words else []
        subprocess.run([compiler, *last, *texts, *(word for word in words if word.endswith(".a")), "-o", out], check=True)


def wrapper(path, compiler):
    path.parent.mkdir(parents=True, exist_ok=True)
    path.write_text(f'#!/bin/sh\nexec "{sys.executable}" "{Path(__file__).resolve()}" --compile "{compiler}" "$@"\n')
    path.chmod(0o755)


def tree():
    """The copy of the tree, without the crates, and the compilers that are slowed."""
    shutil.rmtree(SLOW, ignore_errors=True)
    for name in ("bin", "lib"):
        (SLOW / "target" / name).mkdir(parents=True)
    for name in COPIED:
        copy = shutil.copytree if (TOP / name).is_dir() else shutil.copy
        copy(TOP / name, SLOW / name)
    wrapper(TOOLCHAIN / "bin" / "clang", KIT / "toolchain" / "bin" / "clang")
    for inside in (KIT / "toolchain", KIT / "toolchain" / "bin"):
        for path in inside.iterdir():
            link = TOOLCHAIN / inside.relative_to(KIT / "toolchain") / path.name
            if not link.exists():
                link.symlink_to(path)
    wrapper(SLOW / "bin" / "gcc", shutil.which("gcc"))


def command(words, place):
    done = subprocess.run([str(word) for word in words], cwd=place, capture_output=True, text=True)
    if done.returncode:
        sys.exit((done.stdout + done.stderr)[-2000:])


def programs():
    """The engine's, proved once more and compiled by the slowed compiler."""
    for name in (*PROGRAMS, LIBRARY):
        program = name in PROGRAMS
        made = SLOW / "target" / (f"{name}.o" if program else "lib/liblagoon.a")
        command(prove.over_libraries(name, prove.under(name, prove.listed()), made, TOOLCHAIN), prove.folder(name))
        if program:
            words = [KIT / "bin" / "rattle-link", "--target", "x86_64-unknown-linux-gnu", "--toolchain", TOOLCHAIN, "-o", SLOW / "target" / "bin" / name]
            command([*words, made, KIT / "c" / "libos_c.a", KIT / "c" / "liblibc_c.a"], SLOW)


def division_times(environment):
    """Nanoseconds of a division of 32 and of 64 bits, as it is and slowed, each waiting for the one before."""
    taken = {}
    for bits in (32, 64):
        source = SLOW / f"division{bits}.c"
        source.write_text(f"""#include <stdint.h>
#include <stdio.h>
int main(void) {{
  uint{bits}_t q = 3, from = (uint{bits}_t)0xfedcba9876543210u;
  for (long i = 0; i < {LOOPS}; i++) q = from / (q % 16 + {'65521' if bits == 32 else '4294967291u'});
  printf("%d\\n", (int)q);
}}
""")
        for name, gcc in (("fast", shutil.which("gcc")), ("slow", SLOW / "bin" / "gcc")):
            program = SLOW / f"division{bits}_{name}"
            subprocess.run([gcc, "-O2", source, "-o", program], check=True, env=environment)
            least = 1e9
            for _ in range(5):
                process = subprocess.Popen([program], stdout=subprocess.DEVNULL)
                least = min(least, os.wait4(process.pid, 0)[2].ru_utime)
            taken[bits, name] = least / LOOPS * 1e9
    return taken


def main():
    parser = argparse.ArgumentParser(description=__doc__, formatter_class=argparse.RawDescriptionHelpFormatter)
    parser.add_argument("--repeats", type=int, default=40, help="as of bench/run.py (40)")
    parser.add_argument("--built", action="store_true", help="measure the engine as target/slow/ has it")
    parser.add_argument("--write", metavar="PAGE", type=Path, help="put the table into this page")
    options = parser.parse_args()
    page = options.write and options.write.resolve()
    environment = {**os.environ, "PATH": f"{SLOW / 'bin'}:{os.environ['PATH']}"}
    if not options.built:
        tree()
        programs()
    taken = division_times(environment)
    told = " and ".join(f"one of {bits} bits {taken[bits, 'slow']:.1f} ns, not {taken[bits, 'fast']:.1f}" for bits in (32, 64))
    words = ["--built", "--times-only", "--repeats", options.repeats, "--divider", f"a division waits for the one before; {told}",
             *(["--write", page] if page else [])]
    subprocess.run([sys.executable, "bench/run.py", *map(str, words)], cwd=SLOW, env=environment, check=True)


if sys.argv[1:2] == ["--compile"]:
    compiled(sys.argv[2], sys.argv[3:])
else:
    main()
