#!/usr/bin/env python3
"""The stored charts of the program `test_listings`, and the lines that it must print.

    corpus.py TOOLS BUILD DIR     writes DIR/stdin and DIR/stdout, and prints what is in them

TOOLS is the folder of the oracle's scripts (mkcharts.py), BUILD that of its programs (oracle, oracle-cover). stdin has for each chart its length
(u32, little-endian) and its bytes, first the charts that open, then the damaged ones, then those that opened until order 6
came, then those beyond the lister's 32,768 bytes; stdout has the oracle's lines for each but the last, which get 7, in the same order. The same
scripts and programs make the same files, with ORDERS=6 in the environment. The program's own files have charts of another seed behind these
(docs/CORPUS.md), which tools/answers.py answers with the others.

The charts that open are: the examples, those of tools/edges (values just beside the bounds of a rule), charts at the ends of the lister's range,
and of CANDIDATES charts of each style as many as it takes for every branch of the oracle to be met by WANTED charts (or by all that meet it), and
LEAST of each style.
"""
import collections
import os
import random
import re
import struct
import subprocess
import sys
import tempfile

sys.dont_write_bytecode = True
import chart
import compare

SEED, CANDIDATES, WANTED, LEAST = 8, 40, 4, 7
LIMIT = 32_768
TOO_LONG = "refused 7 0\n"
ROOT = os.path.dirname(os.path.dirname(os.path.abspath(__file__)))
SIZES = (0, 1, 2, 3, 4, 5, 8, 16, 32, 33, 34, 35, 36, 64, 100, 200, 400, 582, 583)

# those of the styles' charts that were stored, and opened, before order 6
BEFORE = {"sliders": (0, 1, 2, 3, 4, 5, 6), "buzz": (0, 1, 2, 3, 4, 5, 7), "tick_orders": (0, 1, 2, 3, 8, 16, 24), "spinners": (0, 1, 2, 3, 4),
          "extremes": (0, 4, 22, 33, 35), "shared": (1, 2, 4, 5, 6), "wild": (0, 1, 3, 4)}


def texts(folder):
    """The text charts of a folder of the repository."""
    names = sorted(os.listdir(os.path.join(ROOT, folder)))
    return {f"{folder}/{name}": chart.load(os.path.join(ROOT, folder, name))[0] for name in names}


def full_chart(mk):
    """583 circles, and an unused nested entry and point: 32,768 bytes."""
    c = mk.sized(583, SEED)
    c.nested.append((mk.NAN, mk.NAN32, 0.0, 9, 9))
    c.points.append((mk.NAN32, 0.0, mk.NAN))
    return c


def one_path(mk):
    """583 sliders over one nested entry and one point: 32,768 bytes."""
    c = mk.Chart(1.5, 32.0, 30.0, 450.0, 400.0, 1.5625, 1)
    for i in range(583):
        t = 100.0 * i + 10.0 * (i % 3)
        c.objs.append(mk.Obj(t, t + 20.0 + i % 7, float(i * 37 % 512), float(i * 53 % 384), 0.0, 0.0, 1, 1 + i % 4, 0, 1, 0, 1))
    c.nested.append((40.0, 200.0, 100.0, 2, 0))
    c.points.append((0.0, 0.0, 0.0))
    return c


def long_slider(mk, nested, points):
    """A slider of many entries and points after which a circle stands."""
    c = mk.Chart(1.0, 36.0, 45.0, 600.0, 400.0, 1.25, 0)
    ticks = [(1000.0 + 5.0 * i, float(i * 29 % 512), float(i * 31 % 384), int(i % 16 == 15)) for i in range(nested - 1)]
    c.slider(1000.0, 7000.0, 256.0, 192.0, 64, ticks + [(7000.0, 100.0, 100.0, 2)], [(float(i), float(i % 5), 1.5 * i) for i in range(points)])
    c.circle(7200.0, 300.0, 200.0)
    return c


def ends(mk):
    """Charts at the ends of the range: N from 0 to 583, lengths to 32,768 bytes, sliders of 1,024 entries and points."""
    out = {f"size {n}": mk.sized(n, SEED) for n in SIZES}
    out.update({f"{style} to 583": mk.chart_of(style, f"{SEED}.full", 583) for style in ("streams", "spinners", "doubletaps", "rhythms")})
    out.update({"full chart": full_chart(mk), "one path": one_path(mk), "nested to 1024": long_slider(mk, 1024, 500), "points to 1024": long_slider(mk, 600, 1024)})
    return {name: c.pack() for name, c in out.items()}


def candidates(mk):
    return {f"{style} {i}": mk.chart_of(style, f"{SEED}.{i}").pack() for style in mk.STYLES for i in range(CANDIDATES)}


def unordered():
    """Charts of BEFORE as they came, with nested entries out of time, which order 6 refuses."""
    import mkorders
    return {f"unordered {style} {i}": mkorders.unordered(style, f"{SEED}.{i}").pack() for style, numbers in BEFORE.items() for i in numbers}


def damaged(mk):
    """Charts that are refused, but for some with bytes behind their length: the two circles cut and with flipped bits, one or two fields wrong, small charts of all styles damaged."""
    pair, out = chart.load(os.path.join(ROOT, "examples", "two_circles.txt"))[0], {}
    for length in range(0, len(pair), 3):
        out[f"cut {length}"] = pair[:length]
    for bit in range(0, 8 * len(pair), 5):
        out[f"flip {bit}"] = flipped(pair, bit)
    faults = [(label, b) for label, b, answer in mk.damages() if (answer.startswith("refused") or lengthened(b)) and len(b) <= LIMIT]
    for i, (label, b) in enumerate(faults):
        if i % 3 == 0 or "both" in label or (chart.explain(b) or (0,))[0] >= 5:
            out[f"fault {label}"] = b
    small = {name: b for name, b in candidates(mk).items() if len(b) <= 800}
    for name, b in small.items():
        out[f"damaged {name}"] = compare.damage(random.Random(f"damage/{SEED}/{name}"), b)
    return {name: b for name, b in out.items() if chart.explain(b) or lengthened(b)}


def lengthened(b):
    """Whether a chart has bytes behind its length; it may open then."""
    return len(b) >= chart.FRONT and chart.HEADER.unpack_from(b)[6] < len(b)


def beyond(mk):
    """Charts longer than the lister takes, which it refuses before any check: zeros, and 584 circles that would open."""
    return {"zeros": bytes(LIMIT + 1), "size 584": mk.sized(584, SEED).pack()}


def flipped(b, bit):
    b = bytearray(b)
    b[bit // 8] ^= 1 << bit % 8
    return bytes(b)


class Oracle:
    def __init__(self, build, folder):
        self.build, self.folder = build, folder

    def asked(self, program, words, charts):
        """What a program of the oracle prints for the files of these charts."""
        names = []
        for i, b in enumerate(charts):
            names.append(os.path.join(self.folder, f"{i:05}.chart"))
            with open(names[-1], "wb") as file:
                file.write(b)
        return subprocess.run([os.path.join(self.build, program), *words], input="\n".join(names), capture_output=True, text=True, check=True).stdout

    def listed(self, charts):
        """The lister's lines for each chart."""
        return [part.partition("\n")[2] for part in re.split(r"(?m)^(?=file )", self.asked("oracle", ["batch", "list", "--counts"], charts)) if part]

    def counters(self, charts):
        """Hits of each branch, `column: branch`."""
        lines = re.findall(r"(?m)^ *(\d+)  (.*)$", self.asked("oracle-cover", ["cover"], charts))
        return {name: int(hits) for hits, name in lines}

    def met(self, b):
        return {name for name, hits in self.counters([b]).items() if hits}


def chosen(offered, first, oracle):
    """Of the charts on offer the names of those that are taken beside the first ones."""
    met = {name: oracle.met(b) for name, b in offered.items()}
    on_offer = collections.Counter(c for counters in met.values() for c in counters)
    so_far = collections.Counter(c for b in first.values() for c in oracle.met(b))
    taken = []
    while True:
        lacking = {c for c, n in on_offer.items() if so_far[c] < min(WANTED, n)}
        if not lacking:
            break
        best = max((n for n in offered if n not in taken), key=lambda n: len(met[n] & lacking) / (200 + len(offered[n])))
        taken.append(best)
        so_far.update(met[best])
    for style in {n.split()[0]: 0 for n in offered}:
        have = [n for n in taken if n.split()[0] == style]
        taken += [n for n in offered if n.split()[0] == style and n not in have][:max(0, LEAST - len(have))]
    return [n for n in offered if n in taken]


def report(good, bad, lines, counters):
    places = [int(line.split()[1]) for line in lines if line.startswith("objects")]
    sizes = [len(b) for b in (*good.values(), *bad.values())]
    refusals = collections.Counter(line.split()[1] for line in lines if line.startswith("refused"))
    unmet = sorted(name.removeprefix("-: ") for name, hits in counters.items() if not hits)
    print(f"{len(places)} charts open, N from {min(places)} to {max(places)}, {sum(max(n - 1, 0) for n in places)} places; {sum(refusals.values())} are refused, by "
          + ", ".join(f"{k}: {n}" for k, n in sorted(refusals.items())))
    print(f"{sum(sizes) + 4 * len(sizes)} bytes, the longest chart {max(sizes)}")
    print(f"{len(counters) - len(unmet)} counters of branch and column are met, {len(unmet)} branches are not:")
    print("\n".join("  " + name for name in unmet))


def main():
    tools, build, out = sys.argv[1:]
    sys.path.insert(0, tools)
    import mkcharts as mk
    with tempfile.TemporaryDirectory() as folder:
        oracle = Oracle(build, folder)
        first, offered = {**texts("examples"), **texts("tools/edges"), **ends(mk)}, candidates(mk)
        good = {**first, **{name: offered[name] for name in chosen(offered, first, oracle)}}
        bad = {**damaged(mk), **unordered()}
        charts = [*good.values(), *bad.values()]
        lines, counters = oracle.listed(charts), oracle.counters(good.values())
    wrong = [name for name, line in zip((*good, *bad), lines) if line.startswith("refused") != (name in bad) and not lengthened(bad.get(name, b""))]
    if wrong or max(map(len, charts)) > LIMIT:
        sys.exit(f"not as expected: {wrong}")
    os.makedirs(out, exist_ok=True)
    longer = beyond(mk).values()
    with open(os.path.join(out, "stdin"), "wb") as file:
        file.write(b"".join(struct.pack("<I", len(b)) + b for b in (*charts, *longer)))
    with open(os.path.join(out, "stdout"), "w") as file:
        file.write("".join((*lines, *(TOO_LONG for _ in longer))))
    report(good, bad, lines, counters)


if __name__ == "__main__":
    main()
