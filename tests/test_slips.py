#!/usr/bin/env python3
"""docs/ARITHMETIC.md, sections 8, 9 and 11: each slip that the page names gives another printed line of examples/second.txt, those of
releases of examples/outfall.txt, and a product that is cut of examples/bay-wide.txt.

The step is written here once more, with a switch for each slip, so that a slip is one changed line of it."""

import sys
from fractions import Fraction
from pathlib import Path

ROOT = Path(__file__).resolve().parent.parent
sys.path[:0] = [str(ROOT / "tools"), str(ROOT / "reference")]

import lagoon
from worked import BAY, CHANNEL, OUTFALL, SECOND

SLIPS = ("s where the second cell is upwind", "correction with the other sign", "quotient rounded down", "q after stage 1 for d",
         "still face met", "rest dropped", "G by V hi alone", "next masses from the low-order masses",
         "s and 256 - s exchanged", "V for K", "outside value not met", "giver not limited",
         "limit rounded up", "limits multiplied", "P netted", "smoothing corrections kept", "larger and smaller q exchanged",
         "equal q cancelled", "cancelled by the water's direction", "cancelled by q before the step", "cancelled by unrounded q",
         "cancelled after P and N")
RELEASE_SLIPS = ("releases after the step", "bounds of the field before its releases", "out-mass by q before the releases", "releases forgotten",
                 "released mass not printed")
WIDE_SLIPS = ("product cut to 64 bits",)


def step(session, slip=None):
    """The masses after the session's first step, with one slip or none, what crossed the rim, and what was released."""
    M, U, outside, released = session.mesh, session.fluxes, session.outsides, session.releases
    cells, faces = session.cells, session.faces
    rim = [second == lagoon.RIM for second in M.seconds]
    raised = [mass + release for mass, release in zip(session.first, released)]
    m = session.first if slip in ("releases after the step", "releases forgotten") else raised
    q = [mass // V for mass, V in zip(m, M.volumes)]
    q_lent = [mass // V for mass, V in zip(session.first, M.volumes)]
    if slip == "rest dropped":
        m = [V * c for V, c in zip(M.volumes, q)]

    def flowed(masses, amounts):
        after = list(masses)
        for f in faces:
            after[M.firsts[f]] -= amounts[f]
            if not rim[f]:
                after[M.seconds[f]] += amounts[f]
        return after

    upwind = [q[M.firsts[f]] if U[f] >= 0 else outside[f] if rim[f] else q[M.seconds[f]] for f in faces]
    carried = [U[f] * upwind[f] for f in faces]
    low = flowed(m, carried)
    d_of = [mass // V for mass, V in zip(low, M.volumes)] if slip == "q after stage 1 for d" else q

    def correction(f):
        if rim[f] or U[f] == 0:
            return 0
        up, down = (M.firsts[f], M.seconds[f]) if U[f] > 0 else (M.seconds[f], M.firsts[f])
        s, K = M.shares[f], M.volumes[M.firsts[f]] if slip == "V for K" else M.reaches[f]
        t = s if U[f] > 0 or slip == "s where the second cell is upwind" else 256 - s
        if slip == "s and 256 - s exchanged":
            t = 256 - t
        product = U[f] * (d_of[down] - d_of[up]) * (t * K - 128 * abs(U[f]))
        if slip == "correction with the other sign":
            product = -product
        if slip == "quotient rounded down":
            return product // (256 * K)
        return abs(product) // (256 * K) * (-1 if product < 0 else 1)

    def smooths(f):
        """Whether a correction runs from a larger low-order q to a smaller."""
        forward = U[f] > 0 if slip == "cancelled by the water's direction" else x[f] > 0
        giver, receiver = (M.firsts[f], M.seconds[f]) if forward else (M.seconds[f], M.firsts[f])
        over = [Fraction(mass, V) for mass, V in zip(m if slip == "cancelled by q before the step" else low, M.volumes)]
        if slip != "cancelled by unrounded q":
            over = [value // 1 for value in over]
        if slip == "larger and smaller q exchanged":
            return over[giver] < over[receiver]
        return over[giver] >= over[receiver] if slip == "equal q cancelled" else over[giver] > over[receiver]

    x = [correction(f) for f in faces]
    gone_by = [f for f in faces if x[f] and slip != "smoothing corrections kept" and smooths(f)]
    if slip != "cancelled after P and N":
        x = [0 if f in gone_by else x[f] for f in faces]

    def met(c):
        over = q_lent if slip == "bounds of the field before its releases" else q
        near = [over[c]]
        for f in faces:
            if c in (M.firsts[f], M.seconds[f]) and (U[f] != 0 or slip == "still face met"):
                if not rim[f]:
                    near.append(over[M.firsts[f] + M.seconds[f] - c])
                elif U[f] < 0 and slip != "outside value not met":
                    near.append(outside[f])
        return near

    G = [V * max(met(c)) + (0 if slip == "G by V hi alone" else V - 1) - low[c] for c, V in zip(cells, M.volumes)]
    L = [low[c] - V * min(met(c)) for c, V in zip(cells, M.volumes)]
    entering = [[abs(x[f]) for f in faces if x[f] and c == (M.seconds[f] if x[f] > 0 else M.firsts[f])] for c in cells]
    leaving = [[abs(x[f]) for f in faces if x[f] and c == (M.firsts[f] if x[f] > 0 else M.seconds[f])] for c in cells]
    P, N = [sum(e) for e in entering], [sum(e) for e in leaving]
    if slip == "P netted":
        P, N = [max(p - n, 0) for p, n in zip(P, N)], [max(n - p, 0) for p, n in zip(P, N)]

    def part(a, room, total):
        if total <= room:
            return a
        product = a * room % (1 << 64) if slip == "product cut to 64 bits" else a * room
        return -(-product // total) if slip == "limit rounded up" else product // total

    def limited(f):
        a = abs(x[f])
        if a == 0 or f in gone_by:
            return 0
        receiver, giver = (M.seconds[f], M.firsts[f]) if x[f] > 0 else (M.firsts[f], M.seconds[f])
        gets, gives = part(a, G[receiver], P[receiver]), part(a, L[giver], N[giver])
        size = gets if slip == "giver not limited" else gets * gives // a if slip == "limits multiplied" else min(gets, gives)
        return size if x[f] > 0 else -size

    moved = [carried[f] + limited(f) for f in faces]
    after = flowed(low if slip == "next masses from the low-order masses" else m, moved)
    entered = sum(-U[f] * outside[f] for f in faces if rim[f] and U[f] < 0)
    leaves = q_lent if slip == "out-mass by q before the releases" else q
    gone = sum(U[f] * leaves[M.firsts[f]] for f in faces if rim[f] and U[f] > 0)
    if slip == "releases after the step":
        after = [mass + release for mass, release in zip(after, released)]
    return after, entered, gone, 0 if slip in ("releases forgotten", "released mass not printed") else sum(released)


def lines(session, slip=None):
    """What the run would print of the step: its line, and the board."""
    after, entered, gone, released = step(session, slip)
    order = sorted(session.cells, key=lambda c: (-Fraction(after[c], session.mesh.volumes[c]), c))[:8]
    board = [f"B {c} {after[c] // session.mesh.volumes[c]} {after[c] % session.mesh.volumes[c]}" for c in order]
    return [f"1 {entered} {gone} {sum(after)} {released}", *board]


def first_step(session):
    """What the run prints of a session that ends with its first step, the line of its first field apart."""
    return lagoon.run(b"".join(session.records[:3])).splitlines()[1:]


def main():
    for session, name in ((CHANNEL, "channel.txt"), (SECOND, "second.txt"), (OUTFALL, "outfall.txt"), (BAY, "bay-wide.txt")):
        if lines(session) != first_step(session):
            raise SystemExit(f"test_slips.py: the step written here is not the engine's on examples/{name}")
    for session, slips, name in ((SECOND, SLIPS, "second.txt"), (OUTFALL, RELEASE_SLIPS, "outfall.txt"), (BAY, WIDE_SLIPS, "bay-wide.txt")):
        unseen = [slip for slip in slips if lines(session, slip) == first_step(session)]
        if unseen:
            raise SystemExit(f"test_slips.py: examples/{name} does not show: {', '.join(unseen)}")
        print(f"{len(slips)} slip{'s' * (len(slips) > 1)}, each with other lines than examples/{name} has")


if __name__ == "__main__":
    main()
