#!/usr/bin/env python3
"""Charts for the counts, with the lines that they must give.

    counts.py ORACLE DIR CHARTS..     writes DIR/stdin and DIR/stdout
    counts.py ORACLE DIR              answers the charts of DIR/stdin anew

ORACLE is the comparison program built from the customer's Rust. Beside the charts that are named there are charts made here: 0 to 3 objects of every kind,
circles alone, sliders alone, spinners alone, strains that are all zero, one slider at every place of a chart. The oracle's `counts` gives the lines.
"""
import itertools
import random
import struct
import subprocess
import sys

SEED = 20261116
CIRCLE, SLIDER, SPINNER = range(3)


def chart(kinds, starts, places, clock=1.0, flags=0):
    """Objects of these kinds; a slider runs 60 to the right within 40 ms, in one span."""
    n, body, nested, points = len(kinds), b"", b"", b""
    sliders = 0
    for kind, start, (x, y) in zip(kinds, starts, places):
        end = start + {CIRCLE: 0.0, SLIDER: 40.0, SPINNER: 30.0}[kind]
        run = (1, sliders, 1, 2 * sliders, 2) if kind == SLIDER else (0,) * 5
        body += struct.pack("<ddffffIIIIII", start, end, x, y, 0, 0, kind, *run)
        if kind == SLIDER:
            nested += struct.pack("<dffII", end, x + 60.0, y, 2, 0)
            points += struct.pack("<ffd", 0.0, 0.0, 0.0) + struct.pack("<ffd", 60.0, 0.0, 60.0)
            sliders += 1
    at = 80 + len(body)
    head = struct.pack("<8I", n, sliders, 2 * sliders, 80, at, at + len(nested), at + len(nested) + len(points), 0)
    return head + struct.pack("<5dfI", clock, 40.0, 30.0, 600.0, 400.0, 1.25, flags) + body + nested + points


def spread(n, r, width=400):
    return [(float(r.randrange(width)), float(r.randrange(width // 2))) for _ in range(n)]


def made():
    r = random.Random(SEED)
    out = []
    for n in range(3):
        out += [chart(kinds, [300.0 * i + 100.0 for i in range(n)], spread(n, r)) for kinds in itertools.product(range(3), repeat=n)]
    # three objects: the first at which values are not all 0
    out += [chart(kinds, [200.0, 290.0, 400.0], [(20.0, 20.0), (300.0, 90.0), (40.0, 200.0)]) for kinds in itertools.product(range(3), repeat=3)]
    for kinds in ((CIRCLE,), (SLIDER,), (SPINNER,), (CIRCLE, SLIDER), (SLIDER, SPINNER), (CIRCLE, CIRCLE, SLIDER, SPINNER)):
        for clock, flags in ((1.0, 0), (1.5, 1), (0.75, 2)):
            n = 24
            starts = list(itertools.accumulate(r.choice((75.0, 110.0, 150.0, 300.0, 620.0)) for _ in range(n)))
            out.append(chart([kinds[i % len(kinds)] for i in range(n)], starts, spread(n, r), clock, flags))
    # all in one place and far apart in time: strains of 0 and next to it
    for kind in range(3):
        for gap in (400.0, 20000.0, 200000.0):
            out.append(chart([kind] * 14, [gap * i for i in range(14)], [(100.0, 100.0)] * 14))
    # one slider among circles, at every place
    starts = [120.0 * i for i in range(9)]
    places = spread(9, r)
    out += [chart([SLIDER if i == at else CIRCLE for i in range(9)], starts, places) for at in range(9)]
    return out


def stored(folder):
    """The charts of a stored input."""
    with open(f"{folder}/stdin", "rb") as given:
        while head := given.read(4):
            yield given.read(struct.unpack("<I", head)[0])


def asked(oracle, data):
    done = subprocess.run([oracle, "counts", "--no-limit"], input=data, capture_output=True, check=True)
    return done.stdout.decode()


def main():
    if len(sys.argv) < 3:
        sys.exit(__doc__)
    oracle, folder, *names = sys.argv[1:]
    charts = made() + [open(name, "rb").read() for name in names] if names else list(stored(folder))
    answers = [asked(oracle, data) for data in charts]
    with open(f"{folder}/stdin", "wb") as given:
        for data in charts:
            given.write(struct.pack("<I", len(data)) + data)
    with open(f"{folder}/stdout", "w") as expected:
        expected.write("".join(answers))
    print(f"{len(charts)} charts, {sum(a.startswith('counts') for a in answers)} open")


if __name__ == "__main__":
    main()
