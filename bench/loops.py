#!/usr/bin/env python3
"""Of what a program's steps are made: its instructions for each face, by loops of the machine code.

loops.py WORK FORM [--large] [--code]     WORK step, call or run; FORM plain, tuned or engine

The instructions of the rounds after the first, on the largest lagoon, counted by valgrind's callgrind at each address. Each instruction belongs
to the innermost loop around it; what stands in no loop of its function is under "else".
Which pass a loop is, is told by its code: --code prints it with the counts. Programs as bench/run.py has built them.
"""

import argparse
import re
import subprocess
import sys
from collections import Counter, defaultdict
from pathlib import Path

sys.path.insert(0, str(Path(__file__).resolve().parent))

import run as bench

WORKS = {"step": 0, "call": 1, "run": 2}
ENGINE = "engine"


def program_of(work, form, large):
    """The program, and the grid on which it is counted."""
    chosen = bench.works_on(large)[WORKS[work]]
    return chosen.programs[[*bench.FORMS, ENGINE].index(form)], chosen.sizes[0]


def counted(program, size, rounds):
    """How often each address of the program's own file is met, from where the file begins."""
    path = bench.OUT / "callgrind.out"
    program.under(["--tool=callgrind", "--dump-instr=yes", "--compress-strings=no", "--compress-pos=no", f"--callgrind-out-file={path}"],
                  size, rounds)
    met, other, mine, called = Counter(), 0, False, False
    for line in path.read_text().splitlines():
        if line.startswith("ob="):
            mine = line[3:] == str(program.words[0])
        elif line.startswith("calls="):
            called = True
        elif called:            # the line of a call itself: what the callee took
            called = False
        elif line.startswith("0x"):
            address, *_, count = line.split()
            if mine:
                met[int(address, 16)] += int(count)
            else:
                other += int(count)
    return met, other


def code_of(path):
    """Functions of a file: name, and its instructions as address and text."""
    text = subprocess.run(["objdump", "-d", "--no-show-raw-insn", str(path)], capture_output=True, text=True, check=True).stdout
    for block in text.split("\n\n"):
        head = re.search(r"^[0-9a-f]+ <(.*)>:$", block, re.MULTILINE)
        if head:
            found = re.findall(r"^ +([0-9a-f]+):\t(.*)$", block, re.MULTILINE)
            yield head.group(1), [(int(address, 16), words) for address, words in found]


def blocks_of(code):
    """A function's blocks by first address: its instructions, and the blocks that may follow."""
    jumps = {}
    for address, words in code:
        jump = re.match(r"j\w+ +([0-9a-f]+) ", words)
        if jump or re.match(r"jmp|ret|ud2|hlt", words):
            jumps[address] = int(jump.group(1), 16) if jump else None
    within = {address for address, _ in code}
    after = dict(zip((address for address, _ in code), (address for address, _ in code[1:])))
    heads = {code[0][0], *(target for target in jumps.values() if target in within), *(after[a] for a in jumps if a in after)}
    blocks, head = {}, None
    for address, words in code:
        if address in heads:
            head = address
            blocks[head] = [], set()
        blocks[head][0].append(address)
        ends = address in jumps or after.get(address) in heads
        if ends and jumps.get(address) in within:
            blocks[head][1].add(jumps[address])
        if ends and address in after and not re.match(r"jmp|ret|ud2|hlt", words):
            blocks[head][1].add(after[address])
    return blocks


def ways_to(blocks):
    """For each block that is reached at all, which padding is not, the blocks that it may follow."""
    before, waiting = {next(iter(blocks)): set()}, [next(iter(blocks))]
    while waiting:
        block = waiting.pop()
        for follower in blocks[block][1]:
            if follower not in before:
                before[follower] = set()
                waiting.append(follower)
            before[follower].add(block)
    return before


def dominators(before):
    """For each block those that every way to it from the function's first goes through."""
    first, *others = sorted(before)
    found = {first: {first}, **{block: set(before) for block in others}}
    changed = True
    while changed:
        changed = False
        for block in others:
            new = {block} | set.intersection(*(found[way] for way in before[block]))
            changed |= new != found[block]
            found[block] = new
    return found


def loops_of(blocks):
    """Loops by first address, as the set of their blocks: what reaches a jump back without passing the loop's first block."""
    before = ways_to(blocks)
    found, loops = dominators(before), defaultdict(set)
    for block in before:
        for head in blocks[block][1] & found[block]:
            loops[head].add(head)
            waiting = [block]
            while waiting:
                reached = waiting.pop()
                if reached not in loops[head]:
                    loops[head].add(reached)
                    waiting += before[reached]
    return loops


def by_loops(code):
    """For each instruction's address the first address of the innermost loop around it, or None."""
    blocks = blocks_of(code)
    loops = sorted(loops_of(blocks).items(), key=lambda loop: len(loop[1]))
    return {address: next((head for head, body in loops if block in body), None)
            for block, (addresses, _) in blocks.items() for address in addresses}


def main():
    parser = argparse.ArgumentParser(description=__doc__, formatter_class=argparse.RawDescriptionHelpFormatter)
    parser.add_argument("work", choices=WORKS)
    parser.add_argument("form", choices=[*bench.FORMS, ENGINE])
    parser.add_argument("--large", action="store_true", help="on the lagoon of large cells")
    parser.add_argument("--code", action="store_true", help="print the code of each loop")
    options = parser.parse_args()
    program, size = program_of(options.work, options.form, options.large)
    many, other = counted(program, size, bench.COUNTED)
    one, other_of_one = counted(program, size, 1)
    per_face = lambda count: count / (bench.STEPS * (bench.COUNTED - 1) * bench.faces_of(size))
    base = 0x108000 if min(many) >= 0x108000 else 0             # where valgrind puts a program that may stand anywhere
    for name, code in code_of(program.words[0]):
        count_at = lambda address: many[address + base] - one[address + base]
        if sum(count_at(address) for address, _ in code) == 0:
            continue
        loop_of = by_loops(code)
        sums, lines, turns = Counter(), defaultdict(list), Counter()
        for address, words in code:
            count, loop = count_at(address), loop_of[address]
            sums[loop] += count
            turns[loop] = max(turns[loop], count)
            lines[loop].append(f"    {per_face(count):8.3f}  {address:x}  {words}")
        for loop, count in sums.items():
            if per_face(count) >= 0.05:
                where = f"{loop:x}" if loop else "else"
                print(f"{per_face(count):8.1f}  turns {per_face(turns[loop]):6.3f}  {name} {where}")
                if options.code:
                    print("\n".join(lines[loop]))
    print(f"{per_face(other - other_of_one):8.1f}  in shared libraries (memset, memcpy, stdio)")
    print(f"{per_face(sum((many - one).values()) + other - other_of_one):8.1f}  in all")


if __name__ == "__main__":
    main()
