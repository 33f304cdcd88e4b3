#!/usr/bin/env python3
"""Charts with stated lengths (order 4), whose objects have 64 bytes, beside the stored ones.

    stated.py TOOLS BUILD [PROGRAM..]     adds to crates/PROGRAM/stdin, for all programs below if none is named

TOOLS is the folder of the oracle's scripts, BUILD that of its programs; ORDERS in the environment has a 4. The stored inputs stay, and the new charts join
behind the last; what has joined does not join again. tools/answers.py then gives the answers.
"""
import math
import os
import random
import struct
import sys

sys.dont_write_bytecode = True
import answers
import chart
import fault_pairs
import replacements
import scripts

SEED = "4"
NEAR = 0.001  # last lengths that are less apart don't prolong a path
WRONG = (math.nextafter(1e6, math.inf), 2e6, -5e-324, -1.0, math.inf, math.nan)  # lengths that no slider may state
SLIDERS = ("sliders", "buzz", "tick_orders", "one_point", "extremes", "shared", "wild")  # styles that have many of them
SMALL = 2_600  # bytes of a chart of which there are many


def few(n, key):
    """A chart of n objects."""
    c = path_ends(key)
    del c.objs[n:]
    return c


def styled(mk, style, key):
    """A chart of a style, with lengths of every kind."""
    import mkorders
    return mkorders.with_lengths(mk.chart_of(style, key), random.Random(f"stated/{style}/{key}"))


def path_ends(key):
    """Sliders whose lazy end follows the path's end: some paths have one point only, of some the last two lengths are about 0.001 apart."""
    import mkorders
    rng = random.Random(f"path ends/{key}")
    c = mkorders.lengths(rng)
    for o in c.objs:
        if o.kind == 1 and o.np > 1 and rng.random() < 0.3:
            last = o.fp + o.np - 1
            gap = rng.choice([0.0009999, NEAR, math.nextafter(NEAR, 0), math.nextafter(NEAR, 1)])
            c.points[last] = (*c.points[last][:2], c.points[last - 1][2] + gap)
    return mkorders.with_lengths(c, rng)


def widened(b):
    """The same chart with objects of 64 bytes and no length stated."""
    c = chart.unpack(b)
    c.stated = True
    c.header = {name: word for name, word in c.header.items() if name != "reserved"}
    return chart.pack(c)


def small(made, count, limit=SMALL):
    """The first of these charts that are not long."""
    return [b for b in (c.pack() for c in made) if len(b) <= limit][:count]


def ends(name, count):
    return small((path_ends(f"{SEED}.{name}.{i}") for i in range(9 * count)), count)


def styles(mk, name, names, limit):
    """A chart of each style that is not long."""
    return [b for style in names for b in small((styled(mk, style, f"{SEED}.{name}.{i}") for i in range(40)), 1, limit)]


def pairs(mk):
    """A wrong length, of a circle or of a slider, beside a fault of each condition."""
    faults = {1: lambda c: c.words.append((28, 2)), 2: lambda c: c.settings.__setitem__(1, 0.5), 3: lambda c: setattr(c.objs[3], "spans", 1),
              4: lambda c: setattr(c.objs[1], "fn", 99), 5: lambda c: (setattr(c.objs[5], "start", 1100.0), setattr(c.objs[5], "end", 1100.0)),
              6: lambda c: (setattr(c.objs[5], "start", 4e6), setattr(c.objs[5], "end", 4e6))}
    for fault in faults.values():
        for lengths in ({}, {2: 1.0}, {4: -1.0}, {0: math.nan, 4: 2e6}):
            c = mk.base_chart()
            c.stated = True
            fault(c)
            for place, length in lengths.items():
                c.objs[place].length = length
            yield c.pack()


def known():
    """The oracle's cases of order 4: each length and word just inside and outside."""
    import mkorders
    return [c.pack() for _, c, _ in mkorders.cases_4()]


def opening(mk):
    faults = [b for i, (label, b, _) in enumerate(mk.damages()) if chart.FRONT <= len(b) <= SMALL and (i % 12 == 0 or "both" in label)]
    return known() + list(pairs(mk)) + [widened(b) for b in faults] + ends("opening", 20)


def records(mk):
    return ends("records", 24) + styles(mk, "records", SLIDERS, 6_000) + [few(n, f"{SEED}.few").pack() for n in range(4)]


def values(mk):
    return ends("values", 24) + styles(mk, "values", SLIDERS, 6_000) + styles(mk, "values", ("streams", "spinners", "rhythms"), 4_000)


def outer(mk):
    return [b for b in values(mk) if struct.unpack_from("<I", b)[0] <= 65][::4]


def strains(mk):
    return ends("strains", 16) + styles(mk, "strains", SLIDERS, 6_000) + styles(mk, "strains", ("sections", "gaps"), 4_000)


def listings(mk):
    """510 objects are as many as the lister's limit holds; 511 go beyond it."""
    text = chart.load(os.path.join(answers.ROOT, "examples", "stated.txt"))[0]
    sizes = [widened(mk.sized(n, SEED).pack()) for n in (0, 1, 2, 3, 34, 510, 511)]
    return [text, *ends("listings", 24), *styles(mk, "listings", mk.STYLES, 8_000), *sizes, *known()[::6], *pairs(mk)]


def script_charts(mk):
    return [few(n, f"{SEED}.{n}").pack() for n in range(4)] + ends("scripts", 6) + styles(mk, "scripts", ("sliders", "shared", "wild"), 3_000) + known()[60:90:15]


def replaced(mk):
    """Charts with their calls: any, every length at every place of one chart, and each pair of faults."""
    for b in ends("replacing", 24) + styles(mk, "replacing", SLIDERS, SMALL) + list(pairs(mk))[::3]:
        yield b, list(replacements.calls(b))
    base, size = known()[0], 64
    n, = struct.unpack_from("<I", base)
    lengths = sorted({b[80 + size * k + 56:80 + size * (k + 1)] for b in known() for k in range(n) if chart.object_size(b) == size and struct.unpack_from("<I", b)[0] == n})
    yield base, [(k, n, base[80 + size * k:80 + size * k + 56] + length) for k in range(n) for length in lengths]
    for _, b, place, entries, o in fault_pairs.made(True):
        yield b, [(place, entries, o)]


def joined(items, new):
    """The items, and behind them the new ones that are not among them."""
    return items + [item for i, item in enumerate(new) if item not in items and item not in new[:i]]


def add_charts(made):
    return lambda mk, oracle, data: b"".join(struct.pack("<I", len(b)) + b for b in joined(answers.charts_of(data), made(mk)))


def add_calls(mk, oracle, data):
    return b"".join(replacements.packed(*item) for item in joined(list(replacements.unpacked(data)), list(replaced(mk))))


def add_scripts(mk, oracle, data):
    """Scripts are packed with their answers at hand, so that the oracle is asked here too."""
    charts, stored = script_charts(mk), [b for b, _, _ in scripts.unpacked(data)]
    if not all(b in stored for b in charts):
        scripts.write(oracle, answers.path("test_scripts", ""), "a", "order4", 150, charts)
    with open(answers.path("test_scripts", "stdin"), "rb") as file:
        return file.read()


PROGRAMS = {"test_opening": add_charts(opening), "test_records": add_charts(records), "test_outer": add_charts(outer),
            "test_strains": add_charts(strains), "test_listings": add_charts(listings), "test_replacing": add_calls, "test_scripts": add_scripts}


def main():
    if len(sys.argv) < 3 or any(p not in PROGRAMS for p in sys.argv[3:]) or "4" not in os.environ.get("ORDERS", "").split(","):
        sys.exit(__doc__)
    sys.path.insert(0, sys.argv[1])
    import mkcharts as mk
    for program in sys.argv[3:] or PROGRAMS:
        with open(answers.path(program, "stdin"), "rb") as file:
            data = file.read()
        again = PROGRAMS[program](mk, os.path.join(sys.argv[2], "oracle"), data)
        with open(answers.path(program, "stdin"), "wb") as file:
            file.write(again)
        print(program, len(again) - len(data), "bytes more", file=sys.stderr)


if __name__ == "__main__":
    main()
