#!/usr/bin/env python3
"""Charts for the strains and the section walk, with the lines that they must give.

    strains.py ORACLE DIR [CHARTS..]     writes DIR/stdin and DIR/stdout

ORACLE is the comparison program built from the customer's Rust. Beside the charts that are named there are charts made here for the section walk:
gaps over many sections, starts on section ends and beside them, thousands of sections, one section, strains that are all zero, equal peaks.
For each chart the oracle's `strains` gives the places' lines and its `list` the totals.
"""
import math
import random
import struct
import subprocess
import sys

SEED = 20261116


def chart(objects, clock=1.0, flags=0, radius=40.0):
    """Objects: (start, end, x, y, kind), circles and spinners."""
    body = b"".join(struct.pack("<ddffffIIIIII", s, e, x, y, 0, 0, kind, 0, 0, 0, 0, 0) for s, e, x, y, kind in objects)
    n = len(objects)
    return struct.pack("<8I", n, 0, 0, 80, 80 + 56 * n, 80 + 56 * n, 80 + 56 * n, 0) + struct.pack("<5dfI", clock, radius, 50.0, 600.0, 400.0, 1.25, flags) + body


def circles(starts, r, clock=1.0, flags=0, spread=300):
    return chart([(t, t, float(r.randrange(spread)), float(r.randrange(spread)), 0) for t in sorted(starts)], clock, flags)


def beside(t):
    return [math.nextafter(t, -math.inf), t, math.nextafter(t, math.inf)]


def made():
    r = random.Random(SEED)
    out = []
    for clock in (0.25, 0.75, 1.0, 1.5, 4.0):
        # on section ends and beside them, in the chart's time and in the time of play
        ends = [400.0 * clock * k for k in (1, 2, 3, 5, 6, 9, 10, 40)]
        out.append(circles([t for e in ends for t in beside(e)], r, clock))
        out.append(circles([400.0 * k for k in range(1, 30)], r, clock, 1))
        # gaps over many sections
        t, starts = 0.0, []
        for _ in range(24):
            t += r.choice((90.0, 120.0, 399.0, 401.0, 800.0, 5000.0, 100000.0)) * clock
            starts.append(t)
        out.append(circles(starts, r, clock))
        out.append(circles([1000.0 + 40.0 * clock * i for i in range(9)], r, clock))  # within one section
    # thousands of sections
    out.append(circles([3333.0 * i for i in range(900)], r, flags=3))
    out.append(circles([1000.0, 1100.0, 1200.0, 3000900.0, 3001100.0], r))
    out.append(circles([0.0, 0.0, 4000.0, 3000000.0], r))
    out.append(circles([11e6 * i / 60 for i in range(54)], r, clock=4.0))
    # all zero
    out.append(chart([(500.0 * i, 500.0 * i + 100.0, 256.0, 192.0, 2) for i in range(20)]))
    out.append(chart([(500.0 * i, 500.0 * i, 256.0, 192.0, 2 * (i % 2)) for i in range(20)]))
    # equal peaks: every section has the same two places
    out.append(chart([(400.0 * (i // 2) + 100.0 * (i % 2) + 50.0, 400.0 * (i // 2) + 100.0 * (i % 2) + 50.0, 100.0 + 200.0 * (i % 2), 100.0, 0) for i in range(80)]))
    out.append(chart([(1000.0 * i, 1000.0 * i, 100.0, 100.0, 0) for i in range(40)]))
    # a start so small that its quotient by 400 is 0: place 1 starts past the end of its section
    for t in (5e-324, 5e-322, 9.8e-322, 1e-321, 1e-300):
        out.append(circles([0.0, t, 100.0, 500.0], r))
    out += [chart([]), circles([1000.0], r), circles([0.0, 0.0], r), circles([-0.0, -0.0, 400.0], r)]
    return out


def asked(oracle, what, data):
    done = subprocess.run([oracle, *what], input=data, capture_output=True, check=True)
    return done.stdout.decode().splitlines()


def main():
    if len(sys.argv) < 3:
        sys.exit(__doc__)
    oracle, folder, *names = sys.argv[1:]
    charts = made() + [open(name, "rb").read() for name in names]
    places = 0
    with open(f"{folder}/stdin", "wb") as given, open(f"{folder}/stdout", "w") as wanted:
        for data in charts:
            given.write(struct.pack("<I", len(data)) + data)
            lines = asked(oracle, ["strains", "--no-limit"], data)
            if not lines[0].startswith("refused"):
                lines.append(asked(oracle, ["list", "--no-limit"], data)[-1])
                places += len(lines) - 2
            wanted.write("\n".join(lines) + "\n")
    print(len(charts), "charts,", places, "places", file=sys.stderr)


if __name__ == "__main__":
    main()
