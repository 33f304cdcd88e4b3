#!/usr/bin/env python3
"""Charts for aim with its parts, with the lines that they must give.

    aim_parts.py ORACLE COVER DIR CHARTS..     writes DIR/stdin and DIR/stdout
    aim_parts.py ORACLE COVER DIR              answers the charts of DIR/stdin anew

ORACLE is the comparison program built from the customer's Rust, COVER the one that counts branches. Of the charts that are named the small ones that open
are taken, first for every branch of aim that is not met often enough yet, then in turn up to a number. Beside them stand charts made here: few objects, and
spinners at each place. The oracle's `aimparts` gives the lines. Every rule and every branch of aim must be met.
"""
import collections
import itertools
import re
import struct
import subprocess
import sys
import tempfile

# bytes of a chart that is taken, how often a branch is to be met, and how many of the charts that are named are taken
LARGEST, OFTEN, TAKEN = 3000, 4, 110
RULES = "0123"


def chart(kinds, step=120.0):
    """A circle for each 0, a spinner for each 2."""
    n = len(kinds)
    body = b"".join(
        struct.pack("<ddffffIIIIII", 500.0 + step * i, 500.0 + step * i + 60.0 * (kind == 2), 60.0 + 90.0 * (i % 3), 50.0 + 70.0 * (i % 4), 0, 0, kind, 0, 0, 0, 0, 0)
        for i, kind in enumerate(kinds))
    head = struct.pack("<8I", n, 0, 0, 80, *[80 + 56 * n] * 3, 0)
    return head + struct.pack("<5dfI", 1.0, 25.0, 40.0, 600.0, 400.0, 1.5, 0) + body


def made():
    few = [chart(kinds) for n in range(5) for kinds in itertools.product((0, 2), repeat=n)]
    return few + [chart([2 if i == k else 0 for i in range(7)]) for k in range(7)] + [chart([0] * 9, step) for step in (0.0, 30.0, 75.0, 400.0)]


def branches(cover, charts):
    """Branches of aim and how often they are met, over all charts; with sliders and without."""
    with tempfile.TemporaryDirectory() as folder:
        names = [f"{folder}/{i:05}" for i in range(len(charts))]
        for name, data in zip(names, charts):
            with open(name, "wb") as file:
                file.write(data)
        told = subprocess.run([cover, "cover"], input="\n".join(names), capture_output=True, text=True, check=True).stdout
    met = collections.Counter()
    for hits, column, branch in re.findall(r"(?m)^ *(\d+)  (aim|aim without sliders|-): (aim: .*)$", told):
        met[branch if column == "-" else f"{column}: {branch}"] += int(hits)
    return met


def chosen(oracle, cover, names):
    """Charts for the branches that are not met often enough, then others."""
    small = []
    for name in names:
        with open(name, "rb") as file:
            data = file.read()
        if len(data) <= LARGEST and asked(oracle, data).startswith("objects"):
            small.append((data, {b for b, hits in branches(cover, [data]).items() if hits}))
    often, first, others = collections.Counter(), [], []
    for data, met in small:
        if any(often[b] < OFTEN for b in met):
            often.update(met)
            first.append(data)
        else:
            others.append(data)
    apart = max(1, len(others) // max(1, TAKEN - len(first)))
    return (first + others[::apart])[:TAKEN]


def stored(folder):
    """The charts of a stored input."""
    with open(f"{folder}/stdin", "rb") as given:
        while head := given.read(4):
            yield given.read(struct.unpack("<I", head)[0])


def asked(oracle, data):
    return subprocess.run([oracle, "aimparts", "--no-limit"], input=data, capture_output=True, check=True).stdout.decode()


def main():
    if len(sys.argv) < 4:
        sys.exit(__doc__)
    oracle, cover, folder, *names = sys.argv[1:]
    charts = made() + chosen(oracle, cover, names) if names else list(stored(folder))
    answers = [asked(oracle, data) for data in charts]
    with open(f"{folder}/stdin", "wb") as given:
        given.writelines(struct.pack("<I", len(data)) + data for data in charts)
    with open(f"{folder}/stdout", "w") as wanted:
        wanted.writelines(answers)
    places = [line.split() for a in answers if a.startswith("objects") for line in a.splitlines()[1:]]
    rules = collections.Counter(words[9] for words in places), collections.Counter(words[18] for words in places)
    unmet = [branch for branch, hits in branches(cover, charts).items() if not hits]
    print(f"{len(charts)} charts, {len(places)} places; by rule {[[r[x] for x in RULES] for r in rules]}; branches not met: {unmet}")
    if unmet or not all(r[x] for r in rules for x in RULES):
        sys.exit("a rule or a branch is not met")


if __name__ == "__main__":
    main()
