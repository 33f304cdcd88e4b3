#!/usr/bin/env python3
"""Charts for the comparisons in a rhythm value, with the lines that they must give.

    rhythm_counts.py ORACLE DIR CHARTS..     writes DIR/stdin and DIR/stdout
    rhythm_counts.py ORACLE DIR              answers the charts of DIR/stdin anew

ORACLE is the comparison program built from the customer's Rust. Beside the charts that are named there are charts made here: the worst ones, whose deltas
fall at every place so that every island is kept and none is found again; falls that begin later, stop, rise or turn round; islands that are found again at
the first, the middle and the last entry; few objects; spinners. The oracle's `rhythmcount` gives the lines.
"""
import itertools
import struct
import subprocess
import sys

# the worst count, which the charts must reach
MOST = 406


def chart(starts, window=1.0, clock=1.0, spinners=()):
    """Circles at these starts, and spinners at some of the places."""
    n = len(starts)
    body = b"".join(
        struct.pack("<ddffffIIIIII", t, t, 40.0 + 70.0 * (i % 7), 60.0 + 45.0 * (i % 6), 0, 0, 2 if i in spinners else 0, 0, 0, 0, 0, 0)
        for i, t in enumerate(starts))
    head = struct.pack("<8I", n, 0, 0, 80, 80 + 56 * n, 80 + 56 * n, 80 + 56 * n, 0)
    return head + struct.pack("<5dfI", clock, 40.0, window, 600.0, 400.0, 1.25, 0) + body


def after(deltas, clock=1.0):
    """Starts with these deltas between them."""
    return [t * clock for t in itertools.accumulate(deltas, initial=500.0)]


def falling(n, high=140.0, by=2.0):
    return [high - by * i for i in range(n)]


def made():
    out = [chart(after(falling(n)), spinners=s) for n, s in ((31, ()), (32, ()), (33, ()), (34, ()), (44, ()), (44, (36, 40)), (44, (10, 43)))]
    # each delta twice or thrice, a rise among the falls, a fall that begins after 20 equal deltas, one that ends in them
    for times in (2, 3):
        out.append(chart(after([d for d in falling(24) for _ in range(times)])))
    out.append(chart(after(falling(12) + falling(30))))
    out.append(chart(after([160.0] * 20 + falling(30))))
    out.append(chart(after(falling(30) + [60.0] * 20)))
    # falls and rises by turns: after a rise an island is not counted until the next fall
    out.append(chart(after([140.0 - 2.0 * i + 9.0 * (i % 2) for i in range(40)])))
    # islands found again: at the first entry, further on, and at the last of many
    out.append(chart(after([150.0] * 2 + [75.0, 75.0, 100.0, 50.0, 50.0, 100.0] * 8), window=10.0))
    for kept in (2, 5, 9, 13):
        fall = falling(kept, 140.0, 5.0)
        out.append(chart(after([200.0] + (fall + [145.0]) * (40 // kept)), window=3.0))
        out.append(chart(after([200.0] + fall + fall[::-1] + fall), window=3.0))
    # by the tolerance of the kept island: just inside of it and just outside
    for window in (1.0, 3.0, 10.0 / 3.0, 20.0 / 3.0):
        out.append(chart(after(falling(40, 190.0, window * 0.3 + 1.0), 1.5), window, 1.5))
    out += [chart(after(deltas)) for deltas in ([100.0], [100.0, 90.0], [100.0, 90.0, 80.0], [100.0, 90.0, 80.0, 70.0], [0.0] * 12)]
    return out + [chart([]), chart([500.0])]


def stored(folder):
    """The charts of a stored input."""
    with open(f"{folder}/stdin", "rb") as given:
        while head := given.read(4):
            yield given.read(struct.unpack("<I", head)[0])


def asked(oracle, data):
    done = subprocess.run([oracle, "rhythmcount"], input=data, capture_output=True, check=True)
    return done.stdout.decode()


def main():
    if len(sys.argv) < 3:
        sys.exit(__doc__)
    oracle, folder, *names = sys.argv[1:]
    charts = made() + [open(name, "rb").read() for name in names] if names else list(stored(folder))
    answers = [asked(oracle, data) for data in charts]
    with open(f"{folder}/stdin", "wb") as given:
        given.writelines(struct.pack("<I", len(data)) + data for data in charts)
    with open(f"{folder}/stdout", "w") as wanted:
        wanted.writelines(answers)
    opened = [a.splitlines() for a in answers if a.startswith("objects")]
    worst = [int(lines[-1].split()[1]) for lines in opened]
    print(f"{len(charts)} charts, {len(opened)} of which open, {sum(len(lines) - 2 for lines in opened)} places; {worst.count(MOST)} charts reach {MOST}")
    if max(worst) != MOST:
        sys.exit(f"the largest count is {max(worst)}, not {MOST}")


if __name__ == "__main__":
    main()
