#!/usr/bin/env python3
"""Holds the rater to the oracle, on charts that are made anew from a seed, each under many mods and numbers.

    rater.py TOOLS BUILD RATER [--seed S] [--charts N] [--asked M]
    rater.py TOOLS BUILD --save CHART      no rater: writes crates/rater/stdin and stdout for a chart and the mods and numbers below (SAVED)

TOOLS is the folder of the oracle's scripts, BUILD that of its programs; the variable ORDERS tells it which orders have landed. RATER is the built program.

The charts are those of compare.py, every eighth damaged, and behind them charts of 0, 1, 2 and 3 objects. The mods and numbers are those of ratings.py: the edges of
every clamp and what lies beside them; behind them each number in turn that is not finite, given and absent. Numbers are compared by their bits.

The last line is `N equal, M different`; the status is 0 if M is 0 and N isn't.
"""
import argparse
import collections
import concurrent.futures
import math
import os
import random
import struct
import subprocess
import sys
import tempfile

sys.dont_write_bytecode = True
import compare
import ratings

CRATE = os.path.join(os.path.dirname(os.path.dirname(os.path.abspath(__file__))), "crates", "rater")
SAVED = 1 << 2 | 1 << 3 | 1 << 4, 3, [9.5, 8.0, 1.14, 0.25, 2.0]  # touch device, hidden, flashlight


def questions(r, count):
    """The word of mods, which of the last two numbers are given, and five numbers."""
    yield from ratings.combinations(r, count)
    for word in (1 << 3, 1 << 0 | 1 << 1 | 1 << 4):  # hidden; autopilot, relax and flashlight together
        yield word, 0, [10.33, 8.0, 1.14, 0.0, 0.0]
    for k in range(5):
        for given in (0, 3):
            numbers = [9.5, 8.0, 1.14, 0.25, 2.0]
            numbers[k] = r.choice((math.inf, -math.inf, math.nan))
            yield ratings.word_of_mods(r), given, numbers


def given_bytes(word, given, numbers):
    return struct.pack("<II5d", word, given, *numbers)


def words(word, given, numbers):
    """The oracle's."""
    return ["ratings", str(word), *map(ratings.word, numbers[:3]), *(ratings.optional(given >> k & 1, numbers[3 + k]) for k in (0, 1))]


def charts_of(a):
    import mkcharts as mk
    yield from (compare.list_chart(mk, a.seed, i) for i in range(a.charts))
    yield from ((f"{n} objects", mk.sized(n, f"{a.seed}.{n}").pack()) for n in range(4))


def rate(program, data):
    return subprocess.run([program], input=data, stdout=subprocess.PIPE).stdout.decode("ascii", "replace")


def run(a, oracle):
    names, charts = zip(*charts_of(a))
    equal = different = 0
    kinds = collections.Counter()
    with concurrent.futures.ThreadPoolExecutor(2) as pool:
        for asked in questions(random.Random(f"ratings/{a.seed}"), a.asked):
            want, front = oracle.answers(words(*asked), charts), given_bytes(*asked)
            for name, w, got in zip(names, want, pool.map(lambda b: rate(a.rater, front + b), charts)):
                equal += got == w
                different += got != w
                kinds[" ".join(w.split()[:2]) if w.startswith("refused") else w.split()[0]] += 1
                if got != w and different <= 10:
                    print(f"{name}, {' '.join(words(*asked))}: oracle {w.strip()}, rater {got.strip()}")
    print(", ".join(f"{kind}: {n}" for kind, n in sorted(kinds.items())))
    print(f"{equal} equal, {different} different")
    return different != 0 or equal == 0


def save(a, oracle):
    with open(a.save, "rb") as file:
        b = file.read()
    with open(os.path.join(CRATE, "stdin"), "wb") as file:
        file.write(given_bytes(*SAVED) + b)
    with open(os.path.join(CRATE, "stdout"), "w") as file:
        file.write(oracle.answers(words(*SAVED), [b])[0])
    return 0


def main():
    p = argparse.ArgumentParser(usage=__doc__)
    p.add_argument("tools")
    p.add_argument("build")
    p.add_argument("rater", nargs="?")
    p.add_argument("--seed", default="1")
    p.add_argument("--charts", type=int, default=200)
    p.add_argument("--asked", type=int, default=48)
    p.add_argument("--save")
    a = p.parse_args()
    if bool(a.rater) == bool(a.save):
        p.error("a rater or --save")
    sys.path.insert(0, a.tools)
    with tempfile.TemporaryDirectory() as folder:
        return (save if a.save else run)(a, compare.Oracle(a.build, folder))


if __name__ == "__main__":
    sys.exit(main())
