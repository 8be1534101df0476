#!/usr/bin/env python3
"""Proves programs or static libraries with the libraries under them, and builds them: target/bin/NAME, or target/lib/libNAME.a.

prove.py NAME..

`rt run` and `rt lib` build what is under a crate one library after the other, so `rt all check` goes first, which has as many under way as
the machine has processors, at most four. Where `rt ci` has been the last to prove here, it left programs and libraries in crates/*/out/:
a program is taken as it is, and a static library, of which rt ci builds none, is proved and built over those libraries. What is younger
than all that it is made of is taken as it is too.
On standard error each crate that is proved anew, n of m, and where one fails the end of what is said. target/NAME.log has all of it.
"""

import os
import shutil
import subprocess
import sys
import time
from pathlib import Path

TOP = Path(__file__).resolve().parent.parent
AT_ONCE = min(os.cpu_count() or 1, 4)
TEXTS = ("src", "specs", "proofs")
END = 40                                # lines of the log that a failure shows


def listed():
    """The crates of crates.txt, each with what it uses."""
    lines = (line.split("#")[0] for line in (TOP / "crates.txt").read_text().splitlines())
    return {line.partition(":")[0].split()[0]: line.partition(":")[2].split() for line in lines if ":" in line}


def under(name, lines):
    """A crate and all that it needs of the tree, each with what it uses, those that are used before those that use them."""
    found = {}

    def visit(one):
        if one in lines and one not in found:
            for other in lines[one]:
                visit(other)
            found[one] = lines[one]

    visit(name)
    return found


def folder(name):
    return TOP / "crates" / name


def is_program(name):
    return (folder(name) / "src" / "main.rt").exists()


def made(name):
    """What rt builds of the crate, and where it is put."""
    out = folder(name) / "out"
    if is_program(name):
        return out / name, TOP / "target" / "bin" / name
    return out / f"lib{name}.a", TOP / "target" / "lib" / f"lib{name}.a"


def is_young(file, names):
    """Whether a file is younger than crates.txt and all texts of these crates."""
    if not file.exists():
        return False
    at = file.stat().st_mtime
    texts = (path for name in names for part in TEXTS for path in (folder(name) / part).rglob("*"))
    return all(path.stat().st_mtime <= at for path in (TOP / "crates.txt", *texts))


def library(name):
    return folder(name) / "out" / "rlib" / f"{name}.rlib"


def left_by_ci(needs):
    """Whether each library under the crate is as rt ci left it: whole, of today's texts, and without the stamp of rt's other commands. The
    folder tells when it came here, as its files may be older: rt ci takes what it has kept by links."""
    return all(not (library(name).parent / "stamp").exists() and (library(name) / "format").exists() and is_young(library(name), [name])
               for name in list(needs)[:-1])


def kit():
    said = subprocess.run(["rt", "doc"], stdout=subprocess.PIPE, text=True, check=True).stdout
    return Path(said.strip()).parent


def over_libraries(name, needs, out, toolchain=None):
    """The kit's own command that proves a crate over the libraries as they stand and builds it: an archive, or a program's object."""
    at = kit()
    words = [at / "bin" / "rattle", "build", "--crate-name", name, "src/main.rt" if is_program(name) else "src/lib.rt"]
    for one in ("std", *needs[name]):
        words += ["--extern", f"{one}={library(one) if one in needs else at / 'rlibs' / f'{one}.rlib'}"]
    words += ["-L", f"dependency={at}/rlibs"]
    for one in list(needs)[:-1]:
        words += ["-L", f"dependency={library(one).parent}"]
    words += ["--antt-project", at / "rattle" / "logic" / "antt-project.json", "--logic-built", at / "logic_built", "--jobs", AT_ONCE]
    words += ["--links", f"{name}=", *([] if is_program(name) else ["--crate-type", "staticlib"])]
    words += ["--toolchain", toolchain or at / "toolchain", "--backend", "llvm", "-o", out]
    return [str(word) for word in words]


def ran(name, log, words, tell=None):
    """A command in the crate's folder; each line of what it says goes to the log and is told of."""
    with subprocess.Popen(words, cwd=folder(name), stdin=subprocess.DEVNULL, stdout=subprocess.PIPE, stderr=subprocess.STDOUT, text=True, errors="replace") as running:
        for line in running.stdout:
            log.write(line)
            log.flush()
            if tell:
                tell(line)
    return running.returncode


def teller(total):
    """Tells of each crate under `rt all` whose check says that it was proved."""
    at = {"name": "", "count": 0}

    def tell(line):
        if line.startswith("== ") and line != "== summary\n":
            at["name"], at["count"] = line.split()[1], at["count"] + 1
        elif line.startswith("logic=proved"):
            print(f"{at['count']} of {total}: {at['name']} proved", file=sys.stderr, flush=True)

    return tell


def prove(name, needs, log):
    """Proves and builds, and returns whether that went well."""
    file, _ = made(name)
    if not is_program(name) and left_by_ci(needs):
        file.parent.mkdir(exist_ok=True)
        good = ran(name, log, over_libraries(name, needs, file)) == 0
        if good:
            print(f"{len(needs)} of {len(needs)}: {name} proved", file=sys.stderr)
        return good
    if ran(name, log, ["rt", "all", "check", "--jobs", str(AT_ONCE)], teller(len(needs))):
        return False
    if not is_program(name):
        return ran(name, log, ["rt", "lib"]) == 0
    # rt run also runs the program, on nothing, and its status is the program's own then
    ran(name, log, ["rt", "run"])
    return file.exists() and Path(f"{file}.stamp").exists()


def make(name, lines):
    """Where it is not young already."""
    needs = under(name, lines)
    if name not in needs:
        sys.exit(f"crates.txt has no crate {name}")
    (file, to), log = made(name), TOP / "target" / f"{name}.log"
    to.parent.mkdir(parents=True, exist_ok=True)
    if not is_young(file, needs):
        began = time.time()
        with open(log, "w") as text:
            good = prove(name, needs, text)
        if not good:
            sys.exit("\n".join(log.read_text(errors="replace").splitlines()[-END:]))
        os.utime(file, (began, began))      # a text that changed meanwhile is younger
    if not to.exists() or to.read_bytes() != file.read_bytes():
        shutil.copy(file, f"{to}.new")
        os.replace(f"{to}.new", to)


def main():
    if len(sys.argv) < 2 or sys.argv[1].startswith("-"):
        print(__doc__.strip())
        sys.exit("--help" not in sys.argv)
    os.chdir(TOP)
    for name in sys.argv[1:]:
        make(name, listed())


if __name__ == "__main__":
    try:
        main()
    except KeyboardInterrupt:
        sys.exit(130)
