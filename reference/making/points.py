"""Arguments of the calls on survey points."""

import math

from making.lent import GREATEST
from script import pattern

MILLION = 1_000_000.0
SPECIAL = [0.0, -0.0, math.inf, -math.inf, math.nan, MILLION, -MILLION, math.nextafter(MILLION, math.inf),
           math.nextafter(-MILLION, -math.inf), 5e-324, -5e-324, 2.2e-308, 1e-200, 1e300]


def ordinary_face(rng):
    """Any coordinates, far apart or close together, whole or not."""
    wide = rng.choice([1.0, 100.0, 1000.0, MILLION, 1e-3, 1e-160, 1e-310])
    points = [rng.uniform(-wide, wide) for _ in range(8)]
    return [float(round(x)) for x in points] if wide >= 100.0 and rng.random() < 0.4 else points


def channel_face(rng):
    """A face across a channel: its ratio lies at k/256, or next to it."""
    k = rng.choice([1, 1, 2, 127, 128, 255, 256, 256, rng.randint(1, 255)])
    near, far = float(k), float(256 - k)
    for _ in range(rng.choice([0, 1, 1, 2])):
        near = math.nextafter(near, rng.choice([0.0, math.inf]))
        far = math.nextafter(far, rng.choice([0.0, math.inf]))
    scale = rng.choice([1.0, 2.0 ** -30, 1024.0, 2.0 ** -540, 2.0 ** -1000, 0.3])
    width = rng.choice([1.0, 2.0 ** -500, 3.7])
    points = [0.0, 0.0, 0.0, width, -near * scale, rng.choice([0.0, width]), far * scale, rng.choice([-0.0, width])]
    return points if rng.random() < 0.5 else [points[i ^ 1] for i in range(8)]


def flat_face(rng):
    """Points that coincide, or lie in one line: a + b is 0, or one of them is."""
    point = [rng.choice([0.0, -0.0, 3.5, -MILLION, 1e-300]) for _ in range(2)]
    points = point * 4
    if rng.random() < 0.5:
        for place in rng.sample(range(8), rng.randint(1, 3)):
            points[place] += rng.choice([1.0, -1.0, 5e-324])
    return points


def survey_face(rng, large, kinds):
    kind, make = rng.choice([("any", ordinary_face), ("channel", channel_face), ("channel", channel_face), ("flat", flat_face)])
    points = make(rng)
    patterns = [int(pattern(x)) for x in points]
    for _ in range(rng.choice([0, 0, 0, 1, 2])):
        special = rng.choice(SPECIAL)
        patterns[rng.randrange(8)] = rng.choice([rng.getrandbits(64), 0x7FF0000000000001, GREATEST]) if special != special \
            else int(pattern(special))
    kinds.append("survey " + kind)
    return patterns
