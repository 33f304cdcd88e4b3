#!/usr/bin/env python3
"""Questions for ratings and stars.

    ratings.py ORACLE CRATE [TOTALS COMBINATIONS [SEED]]

ORACLE is the comparison program built from the customer's Rust (ORDERS in the environment says which orders it obeys). Its `leaf` answers: TOTALS quadruples of totals with
a number of objects, zeros, huge ones and ones that give NaN among them, each with COMBINATIONS of mods and numbers that come with the call, at the edges of every clamp and
beside them; and the functions below the ratings one by one. CRATE/stdin and CRATE/stdout are written.
"""
import itertools
import math
import random
import struct
import subprocess
import sys

SEED = 20261116
INF, NAN = math.inf, math.nan


def beside(x):
    return [math.nextafter(x, -INF), x, math.nextafter(x, INF)]


EDGES = [0.0, 7.0, 8.0, 9.0, 10.0, 10.33, 11.5]
RATES = [t for e in EDGES for t in beside(e)] + [-0.0, -1e300, -1000.0, -10.0, -1.0, -0.3, 0.5, 3.0, 6.5, 7.5, 8.5, 9.5, 10.2, 10.5, 11.0, 11.4, 12.0, 12.5, 20.0, 1e300]
DIFFICULTIES = [-5.0, -0.0, 0.0, 2.5, 5.0, 8.0, 9.7, 11.1, 1e154, 1.5e154, 1e300]
BASES = [1.14, 1.15, 1.0, 8.0, 27.0, 0.0, -0.0, -1.0, 1e-310, 1e300]
STRENGTHS = [0.0, 0.25, 0.5, 1.0, 1.5, -1.0, 1e308, 3.5]
SCALES = [1.0, 2.0, 6.0, 10.5, 11.0, 12.0, 0.0, -5.0, 1e300] + beside(10.0)
COUNTS = [0, 1, 2, 199, 200, 201, 399, 400, 401, 1999, 2000, 2001, 4000, 16384, 0xFFFFFFFF]
MECHANICAL = [0.0, 3.0, 7.5, 9.0, 12.0, INF, NAN] + beside(5.0) + beside(10.0)
SLIDER_FACTORS = [0.0, 0.4, 0.9, 1.0, 1.2, INF, NAN]
TOTALS = [0.0, -0.0, 5e-324, 1e-9, 0.5, 1.0, 40.0, 900.0, 3000.0, 9000.0, 40000.0, 1e6, 1e12, 1e300, 1.7e308, INF, NAN, -1.0]
# the rest of the word is not read; what stands beside an absent number neither
BEYOND = [0, 0, 1 << 7, 0xFFFFFF80]
BESIDE = [0.0, 0.7, INF, NAN, 1e308]

# autopilot, relax, touch device, hidden, flashlight, traceable, fade-only circles
CHANCES = [0.12, 0.12, 0.4, 0.65, 0.6, 0.3, 0.3]

# the kinds of questions for one function, with the oracle's names
SINGLE = {1: "cbrt", 2: "rating", 3: "performance", 4: "flashperformance", 5: "stars", 6: "mechanical", 7: "aimfactor", 8: "speedfactor", 9: "visibility",
          10: "rateaim", 11: "ratespeed", 12: "rateflashlight"}


def word(x):
    return struct.pack(">d", x).hex()


def optional(given, x):
    return word(x) if given else "-" + word(x)


def cycle(r, values):
    """All of the values again and again, each time in another order."""
    while True:
        yield from r.sample(values, len(values))


def word_of_mods(r):
    return sum((r.random() < chance) << i for i, chance in enumerate(CHANCES)) | r.choice(BEYOND)


def totals(r, count):
    """The number of objects and four totals: the edges first, then charts' sizes."""
    counts = cycle(r, COUNTS)
    fixed = [(0.0,) * 4, (INF,) * 4, (NAN,) * 4, (-1.0,) * 4, (1e300,) * 4, (0.0, 0.0, 500.0, 300.0), (5000.0, 4000.0, 0.0, 0.0), (100.0, 400.0, 90.0, 5.0)]
    for i in range(count):
        if i < len(fixed):
            yield (next(counts), *fixed[i])
        elif i % 8 == 0:
            yield (next(counts), *(r.choice(TOTALS) for _ in range(4)))
        else:
            aim = 10 ** r.uniform(1.5, 5.2)
            n = next(counts) if i % 2 else r.randrange(2, 3000)
            yield n, aim, aim * r.uniform(0.5, 1.0), aim * 10 ** r.uniform(-1.0, 1.0), 10 ** r.uniform(0.0, 5.0)


def combinations(r, count):
    """The word of mods, which numbers are given, then rate, difficulty, base, strength and scale."""
    lists = [cycle(r, values) for values in (RATES, DIFFICULTIES, BASES[:2] + BASES, STRENGTHS, SCALES)]
    for _ in range(count):
        given = r.choice((0, 0, 1, 2, 3))
        numbers = [next(values) for values in lists]
        for k in (0, 1):
            if not given >> k & 1:
                numbers[3 + k] = r.choice(BESIDE)
        yield word_of_mods(r), given, numbers


def single(r):
    """Questions for the functions one by one."""
    sizes = TOTALS + [-8.0, 1e-5, 0.0675, 8.0, 27.0, 64.0, 1e-300, math.nextafter(1e-5, 0.0), math.nextafter(1e-5, 1.0)]
    sizes += [10 ** r.uniform(-6, 6) for _ in range(8)]
    for kind in (1, 2, 3, 4):
        for x in sizes:
            yield kind, 0, 0, 0, [x]
    for x, base in itertools.product(sizes, (1.14, -1.0)):
        yield 5, 0, 0, 0, [x, base]
    for _ in range(24):
        yield 6, 0, 0, 0, [r.choice(TOTALS), r.choice(TOTALS), r.choice(BASES)]
    for kind, mechanical, rate in itertools.product((7, 8), MECHANICAL, r.sample(RATES, 12)):
        yield kind, 0, 0, 0, [mechanical, rate]
    for rate in RATES:
        yield 9, 0, word_of_mods(r), 0, [rate, r.choice((0.0, 0.5, 1.0)), r.choice(SLIDER_FACTORS)]
    for kind, (mods, given, n) in itertools.product((10, 11, 12), combinations(r, 40)):
        numbers = [n[0], n[1], n[3], n[4], r.choice(MECHANICAL), r.choice(SLIDER_FACTORS), r.choice(TOTALS)]
        yield kind, r.choice(COUNTS), mods, given, numbers


def asked(kind, count, mods, given, numbers):
    """The question as the oracle reads it."""
    words = [word(x) for x in numbers]
    if kind == 0:
        words = [str(count), str(mods), *words[:3], optional(given & 1, numbers[3]), optional(given >> 1 & 1, numbers[4]), *words[5:]]
        return " ".join(["rate", *words])
    if kind == 9:
        words = [str(mods), *words]
    if kind > 9:
        words = [str(count), str(mods), *words[:2], optional(given & 1, numbers[2]), optional(given >> 1 & 1, numbers[3]), *words[4:]]
    return " ".join([SINGLE[kind], *words])


def main(oracle, crate, of_totals="24", of_combinations="56", seed=str(SEED)):
    r = random.Random(int(seed))
    picked = list(combinations(r, int(of_combinations)))
    questions = [(0, n, mods, given, [*numbers, *four]) for n, *four in totals(r, int(of_totals)) for mods, given, numbers in picked]
    questions += single(r)
    lines = "".join(asked(*q) + "\n" for q in questions)
    answers = subprocess.run([oracle, "leaf"], input=lines, capture_output=True, text=True, check=True).stdout
    assert len(answers.splitlines()) == len(questions)
    with open(f"{crate}/stdin", "wb") as out:
        for kind, count, mods, given, numbers in questions:
            out.write(struct.pack("<4I9d", kind, count, mods, given, *numbers, *[0.0] * (9 - len(numbers))))
    with open(f"{crate}/stdout", "w") as out:
        out.write(answers)
    print(len(questions), file=sys.stderr)


if __name__ == "__main__":
    main(*sys.argv[1:])
