#!/usr/bin/env python3
"""Sessions for the run and cases for the host's call, from a seed.

session(seed, number) and call(seed, number) give the same case for the same numbers. Every case names the kinds of lagoon and of damage
that it holds; kinds_made counts them. What a case is made of stands in making/: raw records, valid lagoons, and damage.
"""

import argparse
import random
from collections import Counter, namedtuple

import lagoon
from making.damage import ALL_DAMAGE, FIELD_DAMAGE, MESH_DAMAGE, SKIPPED, spoil
from making.lagoons import Lagoon, pick_size, size_kinds

Session = namedtuple("Session", "kinds data piece")      # piece: bytes handed over at a time, None for all
Call = namedtuple("Call", "kinds mesh field step room")


def damaged_parts(rng, damage, size):
    """A lagoon with its raw records of which `damage` has broken one, or None where it cannot."""
    lag = Lagoon(rng, size)
    mesh, field, step = lag.raw_mesh(), lag.raw_field(), lag.raw_step(rng)
    raw = mesh if damage in MESH_DAMAGE else field if damage in FIELD_DAMAGE else step
    if damage(rng, lag, raw) is False:
        return None
    return lag, mesh, field, step


def demand_damage(rng, damage):
    while True:
        parts = damaged_parts(rng, damage, pick_size(rng, 1))
        if parts:
            return parts


def more_damage(rng, lag, mesh, field, step, kinds):
    """Up to two more damages, so that the order of the causes shows."""
    for _ in range(rng.randint(0, 2)):
        damage = rng.choice(ALL_DAMAGE)
        raw = mesh if damage in MESH_DAMAGE else field if damage in FIELD_DAMAGE else step
        if raw.cut is None and damage(rng, lag, raw) is not False:
            kinds.append(damage.__name__)


def damaged_session(rng, damage):
    """A session with the one damage, among steps that are valid."""
    lag, mesh, field, step = demand_damage(rng, damage)
    kinds = [damage.__name__]
    steps = [lag.raw_step(rng) for _ in range(rng.choice([0, 0, 1, 2]))] + [step]
    steps += [lag.raw_step(rng) for _ in range(rng.choice([0, 1, 2]))]
    records = [mesh, field] + steps
    broken = [i for i, raw in enumerate(records) if raw.cut is not None]
    if broken and rng.random() < 0.8:
        records = records[:broken[0] + 1]           # the input ends inside the record
        kinds.append("input ends in a record")
    return kinds, b"".join(raw.bytes() for raw in records)


def steps_of(rng, lag, count, kinds):
    """So many steps, some repeated and some damaged so that the run skips them."""
    steps = []
    for _ in range(count):
        if steps and rng.random() < 0.4:
            steps.append(steps[-1])
            continue
        steps.append(lag.raw_step(rng))
        if rng.random() < 0.15:
            damage = rng.choice(SKIPPED)
            if damage(rng, lag, steps[-1]) is not False:
                kinds.append(damage.__name__)
    return steps


def mixed_session(rng, number, mixed):
    """A session of valid records, some steps damaged; where `mixed`, more damage and spoilt bytes."""
    lag = Lagoon(rng, pick_size(rng, number))
    kinds = [lag.shape, "salt " + lag.salt] + size_kinds(lag)
    mesh, field = lag.raw_mesh(), lag.raw_field()
    count = rng.choice([1, 2]) if len(lag.volumes) > 40 else rng.choice([0, 1, 2, 3, 3, 5, 8])
    if number % 500 == 1:
        count = 300
        kinds.append("300 steps")
    steps = steps_of(rng, lag, count, kinds)
    if mixed:
        step = lag.raw_step(rng)
        more_damage(rng, lag, mesh, field, step, kinds)
        steps.insert(rng.randint(0, len(steps)), step)
    data = mesh.bytes() + field.bytes() + b"".join(step.bytes() for step in steps)
    if mixed and rng.random() < 0.6:
        kind, data = spoil(rng, data)
        kinds.append(kind)
    elif rng.random() < 0.1:
        tail = lag.raw_step(rng).bytes()
        data += tail[:rng.randrange(len(tail))]
        kinds.append("partial step at the end")
    return kinds, data


def session(seed, number):
    """Bytes for the run's standard input: half of the sessions are valid, half are damaged."""
    rng = random.Random(f"session {seed} {number}")
    if number % 200 == 3:
        kinds, data = ["empty input"], b""
    elif number % 4 == 2:
        kinds, data = damaged_session(rng, ALL_DAMAGE[number // 4 % len(ALL_DAMAGE)])
    else:
        kinds, data = mixed_session(rng, number, number % 4 == 3)
    piece = None
    if number % 10 in (4, 7):
        piece = rng.choice([1, 2, 3, 5, 7]) if len(data) < 1000 else rng.randint(500, 5000)
        kinds.append("input in pieces")
    return Session(tuple(dict.fromkeys(kinds)), data, piece)


def call(seed, number):
    """Mesh, field, step and room for the host's call."""
    rng = random.Random(f"call {seed} {number}")
    mode = number % 4
    if mode == 2:
        damage = ALL_DAMAGE[number // 4 % len(ALL_DAMAGE)]
        lag, mesh, field, step = demand_damage(rng, damage)
        kinds = [damage.__name__]
    else:
        lag = Lagoon(rng, pick_size(rng, number))
        mesh, field, step = lag.raw_mesh(), lag.raw_field(), lag.raw_step(rng)
        kinds = [lag.shape, "salt " + lag.salt] + size_kinds(lag)
    if mode == 3:
        more_damage(rng, lag, mesh, field, step, kinds)
        for raw, name in ((mesh, "mesh"), (field, "field"), (step, "step")):
            if rng.random() < 0.12:
                raw.tail = rng.choice([b"\0", rng.randbytes(1), rng.randbytes(4)])
                kinds.append(name + " with more bytes")
    records = [mesh.bytes(), field.bytes(), step.bytes()]
    if mode == 3 and rng.random() < 0.4:
        which = rng.randrange(3)
        kind, records[which] = spoil(rng, records[which])
        kinds.append(("mesh ", "field ", "step ")[which] + kind)
    need = lagoon.field_length(len(lag.volumes), lag.wide)
    room = rng.choice(["enough"] * 5 + ["more"] * 5 + ["short by one", "short", "none"])
    kinds.append("room " + room)
    lent = {"enough": need, "more": need + rng.randint(1, 20), "short by one": need - 1,
            "short": rng.randrange(need), "none": 0}[room]
    return Call(tuple(dict.fromkeys(kinds)), *records, lent)


def kinds_made(cases):
    """How often each kind of lagoon and of damage stands in the cases."""
    return Counter(kind for case in cases for kind in case.kinds)


def main():
    parser = argparse.ArgumentParser(description=__doc__, formatter_class=argparse.RawDescriptionHelpFormatter)
    parser.add_argument("many", type=int, help="how many sessions, and as many calls, are made and counted by kind")
    parser.add_argument("seed", type=int, nargs="?", default=1, help="the seed (1)")
    options = parser.parse_args()
    for title, make in (("sessions", session), ("calls", call)):
        print(title)
        for name, count in sorted(kinds_made(make(options.seed, i) for i in range(options.many)).items()):
            print(f"  {count:6} {name}")


if __name__ == "__main__":
    main()
