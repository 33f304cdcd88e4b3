#!/usr/bin/env python3
"""Vectors for the lookup on paths.

    paths.py ORACLE CRATE     writes CRATE/stdin and CRATE/stdout

ORACLE is the comparison program, asked with an order 4 in ORDERS: its `leaf` answers every lookup. stdin has for each lookup the progress (f64), the stated
length (f64), the number of points (u32) and the points (f32 x, f32 y, f64 length so far), little-endian. First come lookups of the drawn length, whose stated
one is 0; then those of stated lengths below, at and above the drawn one, on paths that end in one point, in a segment, or in lengths about 0.001 apart.
"""
import math
import os
import random
import struct
import subprocess
import sys

NEAR = 0.001  # last lengths that are less apart don't prolong the path
LONGEST = 1e6


def up(x):
    return math.nextafter(x, math.inf)


def down(x):
    return math.nextafter(x, -math.inf)


def f32(x):
    return struct.unpack("<f", struct.pack("<f", x))[0]


def path(rng, kind, n):
    """Points with lengths that never fall; kinds differ in how lengths repeat."""
    length, out = 0.0, []
    for k in range(n):
        if k and kind != "zero" and not (kind == "equal" and rng.random() < 0.5):
            length += rng.choice([rng.uniform(0, 100), rng.uniform(0, 1e-3), 1.0, 5e-324])
        size = rng.choice([1.0, 512.0, 131072.0])
        out.append((f32(rng.uniform(-size, size)), f32(rng.uniform(-size, size)), length))
    return out


def progresses(rng, points):
    last = points[-1][2]
    yield from (0.0, -0.0, 1.0, 0.5, math.nextafter(1.0, 0.0), math.nextafter(0.0, 1.0))
    # beyond the drawn end, since no length reaches so far; and what is not a number
    yield from (1.0 + 2.0 ** -52, 2.0, -1.0, math.inf, math.nan)
    for _, _, length in points:
        if last > 0:
            s = length / last
            yield from (s, math.nextafter(s, 0.0), math.nextafter(s, 2.0))
    for _ in range(6):
        yield rng.random()


def drawn():
    """Lookups of the drawn length: progress, stated length, points."""
    rng = random.Random(20)
    for i in range(90):
        n = rng.choice([1, 1, 2, 2, 3, 4, 5, 8, 13, 64 if i % 30 == 0 else 6])
        points = path(rng, rng.choice(["rising", "rising", "equal", "zero"]), n)
        for s in progresses(rng, points):
            yield s, 0.0, points


def ends(rng):
    """Paths by how they end: one point; lengths that are so far apart, a unit more and a unit less, behind a short path and a long one; any."""
    for _ in range(3):
        yield path(rng, "zero", 1)
    for before in (0.0, 1.0, 100.0, rng.uniform(0, 1000), 999_998.0):
        for gap in (0.0, 5e-324, 0.0005, 0.0009999, down(NEAR), NEAR, up(NEAR), 0.0010001):
            for last in (down(before + gap), before + gap, up(before + gap)):
                if last >= before:
                    lengths = ([0.0] + [before / 2] * rng.randrange(2)) * (before > 0) + [before, last]
                    yield [(f32(rng.uniform(-300, 300)), f32(rng.uniform(-300, 300)), length) for length in lengths]
    for _ in range(20):
        yield path(rng, rng.choice(["rising", "rising", "equal", "zero"]), rng.choice([2, 2, 3, 5, 9]))


def stated_lengths(rng, last):
    """Shorter than the drawn one, equal, longer; none; the ends of the range."""
    any_of = ((0.0, -0.0), (5e-324, 1e-300), (last * rng.random(), down(last), last), (up(last), last + 0.0005, last * rng.uniform(1, 3)),
              (last + rng.uniform(0, 200), LONGEST, down(LONGEST)))
    return [min(max(rng.choice(some), 0.0), LONGEST) for some in any_of]


def reached(rng, last, stated):
    """Progresses: the ends, some between, those at which the drawn end is reached, and what no slider gives."""
    yield from (1.0, rng.choice([0.0, -0.0, 0.5, down(1.0)]))
    if stated > 0 and math.isfinite(last / stated) and last <= stated:
        yield from rng.sample([last / stated, up(last / stated), down(last / stated)], 2)
    yield rng.choice([rng.random(), rng.random(), up(1.0), 2.0, math.inf, math.nan, -1.0])


def stated():
    rng = random.Random(4)
    for points in ends(rng):
        for length in stated_lengths(rng, points[-1][2]):
            for s in reached(rng, points[-1][2], length):
                yield s, length, points


def packed(s, length, points):
    return struct.pack("<2dI", s, length, len(points)) + b"".join(struct.pack("<ffd", *p) for p in points)


def asked(s, length, points):
    """The lookup as a line for the oracle."""
    hx, h32 = (lambda x: struct.pack(">d", x).hex().upper()), (lambda x: struct.pack(">f", x).hex().upper())
    return " ".join(["lookup", hx(s), hx(length), *(word for x, y, far in points for word in (h32(x), h32(y), hx(far)))])


def main():
    if len(sys.argv) != 3 or "4" not in os.environ.get("ORDERS", "").split(","):
        sys.exit(__doc__)
    oracle, crate = sys.argv[1:]
    lookups = [*drawn(), *stated()]
    answers = subprocess.run([oracle, "leaf"], input="".join(asked(*one) + "\n" for one in lookups), capture_output=True, text=True, check=True).stdout
    if answers.count("\n") != len(lookups):
        sys.exit("the oracle doesn't answer every lookup")
    data = b"".join(packed(*one) for one in lookups)
    with open(os.path.join(crate, "stdin"), "wb") as f:
        f.write(data)
    with open(os.path.join(crate, "stdout"), "w") as f:
        f.write(answers)
    print(len(lookups), "lookups,", len(data), "bytes")


if __name__ == "__main__":
    main()
