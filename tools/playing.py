#!/usr/bin/env python3
"""Charts for the totals while playing, with the lines that they must give.

    playing.py ORACLE DIR [CHARTS..]     writes DIR/stdin and DIR/stdout

ORACLE is the comparison program built from the customer's Rust. Beside the charts that are named there are those of strains.py, made for the section walk,
and charts made here: long runs of peaks that rise, fall, are equal or change, more than 400 sections, peaks far apart, where the weighted sum ends early.
For each chart the oracle's `prefix` gives the lines for every number of objects, and `prefix M` the totals after half of them.
"""
import random
import struct
import sys

from strains import asked, chart, circles, made as walks

SEED = 20261117


def jumps(r, n, gap, size, clock=1.0, flags=0):
    """A pair of circles a section; size(i) is how far the second one jumps."""
    objects = []
    for i in range(n):
        x = min(511.0, max(0.0, size(i)))
        for t, at in ((gap * i, 0.0), (gap * i + r.choice((80.0, 100.0, 120.0)), x)):
            objects.append((t * clock, t * clock, at, 100.0, 0))
    return chart(objects, clock, flags)


def made():
    r = random.Random(SEED)
    out = []
    for clock in (0.5, 1.0, 1.75):
        out.append(jumps(r, 150, 400.0, lambda i: 3.0 * i, clock))  # rising
        out.append(jumps(r, 150, 400.0, lambda i: 450.0 - 3.0 * i, clock, 3))  # falling
        out.append(jumps(r, 60, 800.0, lambda i: 200.0, clock))  # equal, with sections between
        out.append(jumps(r, 100, 410.0, lambda i: r.choice((1.0, 2.0, 300.0)), clock))
    # more sections than terms that move a sum, in one chart and with few objects
    out.append(jumps(r, 450, 400.0, lambda i: float(r.randrange(500))))
    out.append(circles([1000.0 * i for i in range(450)], r, flags=3))
    out.append(circles([25000.0 * i for i in range(40)], r))
    # sections without a peak above zero between others
    out.append(chart([(300.0 * i, 300.0 * i, 256.0, 192.0, 0 if i % 7 < 3 else 2) for i in range(120)]))
    # fewer sections than are reduced, and about as many
    for n in (2, 3, 4, 5, 6, 9, 10, 11, 12):
        out.append(jumps(r, n, 400.0, lambda i: float(r.randrange(400))))
    for n in (0, 1, 2, 3):
        for flags in (0, 3):
            out.append(circles([700.0 * i + 5.0 for i in range(n)], r, flags=flags))
    return out


def main():
    if len(sys.argv) < 3:
        sys.exit(__doc__)
    oracle, folder, *names = sys.argv[1:]
    charts = walks() + made() + [open(name, "rb").read() for name in names]
    entries = 0
    with open(f"{folder}/stdin", "wb") as given, open(f"{folder}/stdout", "w") as wanted:
        for data in charts:
            given.write(struct.pack("<I", len(data)) + data)
            lines = asked(oracle, ["prefix", "--no-limit"], data)
            if not lines[0].startswith("refused"):
                entries += len(lines) - 1
                lines += asked(oracle, ["prefix", str((len(lines) - 2) // 2), "--no-limit"], data)
            wanted.write("\n".join(lines) + "\n")
    print(len(charts), "charts,", entries, "entries", file=sys.stderr)


if __name__ == "__main__":
    main()
