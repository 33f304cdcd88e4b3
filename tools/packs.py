#!/usr/bin/env python3
"""Holds a program that ranks packs (order 13) to the oracle's `pack`, on packs that are made anew from a seed.

    packs.py TOOLS BUILD PROGRAM [--seed S] [--packs N]
    packs.py TOOLS BUILD --save DIR [--seed S] [--packs N]      no program: writes DIR/stdin and DIR/stdout

TOOLS is the folder of the oracle's scripts, BUILD that of its programs; the variable ORDERS tells it which orders have landed. PROGRAM is `test_packs`, or
reads and writes as it does (crates/test_packs/src/main.rt).

Packs and requests are those of the oracle's mkpacks.py: charts with bytes between them, some twice, some with an entry more that no slider uses, some that don't
open, some past the end; lists of none, of one offset often and of 255 to 300. Behind them come packs made here, with stars that all tie, as 0 or as
NaN, and totals that do not, with charts that lie in one another, with lists of 0, 1, 2, 256 and 257 offsets, and with each way in which a chart is refused at
every position of a list. Floats are compared by their bits.

The last line is `N equal, M different`; the status is 0 if M is 0 and N isn't.
"""
import argparse
import collections
import os
import random
import struct
import subprocess
import sys
import tempfile

sys.dont_write_bytecode = True
import compare

LARGE = "256 256 / 8192 8192 8192 8192"
RECORD_WIDTH, VALUE_WIDTH = 16, 5
NUMBERS = "0 4022000000000000 4020000000000000 %016X - -"
BASES = [0x3FF23D70A3D70A3D, 0, 1 << 63, 0xBFF0000000000000]  # 1.14; 0 of both signs, for which all stars are 0; -1, for which all are NaN


def ask(word, base, lent, offsets):
    return " ".join([word, NUMBERS % base, "/", lent, "/", *map(str, offsets)])


def within(mk, rng, inner):
    """A chart in whose points, which no slider uses, another one lies; and where."""
    c = mk.sized(rng.randrange(2, 6), f"outer.{rng.random()}")
    padded = inner + bytes(-len(inner) % 16)
    words = [struct.unpack_from("<2fd", padded, i) for i in range(0, len(padded), 16)]
    b = bytearray(c.pack())
    at = len(b)
    count, = struct.unpack_from("<I", b, 8)
    b += padded
    struct.pack_into("<I", b, 8, count + len(words))
    struct.pack_into("<I", b, 24, len(b))
    return bytes(b), at


def bad(b):
    """A chart made so that it is refused, in each way that opening has."""
    b = bytearray(b)
    n, = struct.unpack_from("<I", b)
    for where, new in ((28, b"\2"), (76, b"\4"), (24, struct.pack("<I", 1 << 31)), (24, bytes(4)), (40, bytes(8)), (80 + 32, b"\7"), (80, struct.pack("<d", -1.0))):
        c = b.copy()
        c[where:where + len(new)] = new
        yield bytes(c)
    start, = struct.unpack_from("<d", b, 80)
    c = b.copy()  # a slider whose nested entry is past the table
    struct.pack_into("<2d", c, 80, start, start + 10)
    struct.pack_into("<6I", c, 80 + 32, 1, 1, 9, 1, 0, 1)
    yield bytes(c)
    if n > 2:  # falls, too long
        for k, t in ((1, 0.0), (n - 1, 1e7)):
            c = b.copy()
            struct.pack_into("<2d", c, 80 + 56 * k, t, t)
            yield bytes(c)


def made(mk, seed):
    """Packs and their requests."""
    rng = random.Random(f"made packs/{seed}")
    charts = [mk.sized(n, f"{seed}.{i}").pack() for i, n in enumerate((0, 1, 2, 3, 9, 20, 0, 1, 40))]
    # ties: the same charts under bases that make all stars equal, and charts that differ in their last bytes
    few = charts + [charts[3] + b"", charts[4]]
    outer, inner_at = within(mk, rng, charts[3])
    blocks, offsets, at = [], [], 0
    for b in few + [outer]:
        offsets.append(at)
        blocks.append(b)
        at += len(b)
    offsets.append(offsets[-1] + inner_at)
    data = b"".join(blocks)
    lines = []
    for base in BASES:
        for word in ("rank", "join 1", f"join {len(offsets) // 2}", f"join {len(offsets)}"):
            order = rng.sample(offsets, len(offsets))
            lines += [ask(word, base, LARGE, order), f"entry {rng.randrange(40)}"]
    for n in (0, 1, 2, 255, 256, 257, 300):
        for word in ("rank", f"join {n // 2}"):
            lines.append(ask(word, BASES[n % 2], LARGE, [rng.choice(offsets) for _ in range(n)]))
    lines.append(ask("rank", 0x7FF8000000000000, LARGE, []))
    lines.append(ask("rank", 0x7FF8000000000000, LARGE, offsets[:2]))
    lines.append(ask("rank", 0x7FF8000000000000, "256 256 / 8191 0 8192 8192", offsets[:2]))
    lines.append(ask("rank", BASES[0], "0 0 / 0 0 0 0", []))
    lines.append(ask("rank", BASES[0], "0 0 / 8192 8192 8192 8192", [offsets[0], offsets[0]]))
    lines.append(ask("rank", BASES[0], "0 0 / 8192 8192 8192 8192", [offsets[0], offsets[1]]))
    yield data, lines
    # a refused chart at every position of a list
    for b in bad(charts[4]):
        blocks = charts[:6]
        data = b"".join(blocks) + b
        offsets = [sum(map(len, blocks[:i])) for i in range(6)]
        spoilt = [offsets[-1] + len(blocks[-1]), len(data), len(data) - 79, (1 << 64) - 1, (1 << 64) - 80]
        lines = []
        for k in range(7):
            o = rng.sample(offsets, 6)
            lines.append(ask("rank", BASES[0], LARGE, [*o[:k], spoilt[0], *o[k:]]))
            lines.append(ask("rank", BASES[0], LARGE, [*o[:k], rng.choice(spoilt[1:]), *o[k:]]))
        lines += [ask("rank", BASES[0], LARGE, [*offsets, spoilt[0]] * 37), "entry 1"]
        yield data, lines


def packed(data, lines):
    """A pack with its requests, as the program reads them."""
    out = [struct.pack("<I", len(data)) + data, struct.pack("<I", len(lines))]
    for line in lines:
        kind, *words = line.split()
        if kind == "entry":
            out.append(struct.pack("<2I", 2, int(words[0])))
            continue
        first = int(words.pop(0)) if kind == "join" else 0
        asked, tables, scratch, offsets = (part.split() for part in " ".join(words).split("/"))
        first = first if first < len(offsets) else 4_000_000_000  # a first list that has all: more are taken for as many
        given = sum(1 << i for i, w in enumerate(asked[4:]) if not w.startswith("-"))
        numbers = [int(w.lstrip("-") or "0", 16) for w in asked[1:]]
        out.append(struct.pack("<4I5Q", kind == "join", first, int(asked[0]), given, *numbers))
        out.append(struct.pack(f"<I{len(offsets)}Q", len(offsets), *map(int, offsets)))
        out.append(struct.pack("<6I", int(tables[0]) * RECORD_WIDTH, int(tables[1]) * VALUE_WIDTH, *map(int, scratch)))
    return b"".join(out)


def packs_of(a):
    import mkcharts
    import mkpacks
    for i in range(a.packs):
        rng = random.Random(f"packs/{a.seed}/{i}")
        data, good, bad_ones = mkpacks.pack(rng, f"{a.seed}.{i}", rng.choice([1, 3, 8, 8, 20]))
        yield data, mkpacks.requests(rng, good, bad_ones, 8)
    yield from made(mkcharts, a.seed)


def main():
    p = argparse.ArgumentParser(usage=__doc__)
    p.add_argument("tools")
    p.add_argument("build")
    p.add_argument("program", nargs="?")
    p.add_argument("--seed", default="1")
    p.add_argument("--packs", type=int, default=200)
    p.add_argument("--save")
    a = p.parse_args()
    if bool(a.program) == bool(a.save):
        p.error("a program or --save")
    sys.path.insert(0, a.tools)
    packs, requests = zip(*packs_of(a))
    with tempfile.TemporaryDirectory() as folder:
        wanted = compare.Oracle(a.build, folder).answers(["pack"], packs, requests)
    given = b"".join(map(packed, packs, requests))
    if a.save:
        with open(os.path.join(a.save, "stdin"), "wb") as file:
            file.write(given)
        with open(os.path.join(a.save, "stdout"), "w") as file:
            file.writelines(wanted)
        print(len(packs), "packs,", sum(map(len, requests)), "requests")
        return 0
    got = subprocess.run([a.program], input=given, stdout=subprocess.PIPE).stdout.decode("ascii", "replace").splitlines()
    asked = [(i, line) for i, lines in enumerate(requests) for line in lines]
    want = "".join(wanted).splitlines()
    kinds, different = collections.Counter(), 0
    for k, (w, (i, line)) in enumerate(zip(want, asked, strict=True)):
        kinds[" ".join(w.split()[:2]) if w.startswith("refused") else w.split()[0]] += 1
        g = got[k] if k < len(got) else ""
        different += g != w
        if g != w and different <= 10:
            print(f"pack {i}, {line[:200]}\n  oracle  {w[:300]}\n  program {g[:300]}")
    different += len(got) != len(want)
    print(", ".join(f"{kind}: {n}" for kind, n in sorted(kinds.items())))
    print(f"{len(packs)} packs: {len(want) - different} equal, {different} different")
    return different != 0 or not want


if __name__ == "__main__":
    sys.exit(main())
