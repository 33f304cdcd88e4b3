#!/usr/bin/env python3
"""Vectors for the functions on numbers.

    leaf_vectors.py ORACLE DIR      writes DIR/stdin and DIR/stdout

ORACLE is the comparison program built from the customer's Rust; its `leaf` command answers for the functions that the ranking rules
bind (two, power, exp, log10, log, angle, root, root32, max, min, i32, f32). Whole parts, remainders, clamp, abs, radians and the
helpers of util/difficulty.rs are worked out here, in IEEE 754 double arithmetic. The same seed gives the same files.
"""
import math
import random
import struct
import subprocess
import sys

SEED = 20261115


def bits(x):
    return struct.unpack("<Q", struct.pack("<d", x))[0]


def real(b):
    return struct.unpack("<d", struct.pack("<Q", b))[0]


def hex64(x):
    return "7FF8000000000000" if x != x else "%016X" % bits(x)


INF, NAN = math.inf, real(0x7FF8000000000000)
EDGES = [0.0, -0.0, 1.0, -1.0, 0.5, -0.5, 2.0, 3.0, real(1), -real(1), real(0x000FFFFFFFFFFFFF), real(0x0010000000000000),
         real(0x7FEFFFFFFFFFFFFF), -real(0x7FEFFFFFFFFFFFFF), INF, -INF, NAN, 2.0**52, 2.0**52 - 0.5, 2.0**52 + 1, 2.0**53, 2.0**53 + 2,
         -(2.0**52), 1.5, 2.5, -1.5, -2.5, 0.1, 1 / 3, math.pi, 1e300, 1e-300, 4503599627370495.5, 0.49999999999999994]

# whole numbers at which Two's P lies halfway between two floats: the lower one is even, or odd
TIES = [172, 3290, 4314, 5338, 7982, 10985, 898, 8685, 8876, 10091, 16219, 19489]


def near(x):
    b = bits(x)
    return [real(b - 1), x, real(b + 1)] if 0 < b & 0x7FFFFFFFFFFFFFFF < 0x7FF0000000000000 else [x]


def numbers(r, n):
    """Edges, powers of two with their neighbours, ordinary numbers and any patterns."""
    out = list(EDGES)
    for k in (-1074, -1022, -149, -126, -24, -1, 0, 1, 23, 24, 31, 52, 62, 127, 128, 1023):
        out += near(math.ldexp(1.0, k))
    while len(out) < n:
        out.append(r.choice((r.uniform(-10, 10), r.uniform(0, 1), r.uniform(0, 1e7), math.ldexp(r.random() + 0.5, r.randint(-60, 60)), real(r.getrandbits(64)))))
    return out


def singles(r):
    """Doubles at and beside the ties of f32, and its ends."""
    out = []
    for _ in range(40):
        b = bits(struct.unpack("<f", struct.pack("<I", r.randint(0x00800000, 0x7F000000)))[0])
        out += [real(b + d) for d in (0, 0xFFFFFFF, 0x10000000, 0x10000001)]
    for k in (-150, -149, -148, -127, -126):
        out += near(math.ldexp(1.0, k)) + near(math.ldexp(1.5, k))
    return out + near(3.4028235677973366e38) + near(3.4028234663852886e38)


def bounds():
    """Both sides of every class of the whole parts and of every power of two up to 2^53, where a ceil carries into the next exponent; both signs."""
    sizes = [0.0] + near(real(1)) + near(real(0x000FFFFFFFFFFFFF)) + near(0.5) + [y for k in range(54) for y in near(2.0**k)]
    sizes += [1.5, 2.5, 2.0**51 + 0.5, 2.0**52 - 1.5] + near(real(0x7FEFFFFFFFFFFFFF))
    return [s * x for x in dict.fromkeys(sizes) for s in (1.0, -1.0)] + [NAN]


def calls(r):
    """(letter, name of the oracle's function or None, arguments)"""
    v = []
    xs = numbers(r, 150)
    ends = [c * 2.0**40 for c in (-1022, -1023, -0.5, 0.5, 1023, 1024, 0, 1, -1)] + [2.0**39, -1022 * 2.0**40 - 1, 1024 * 2.0**40 - 1]
    for x in xs + ends + [y for e in ends for y in near(e)] + [r.uniform(-1.2e15, 1.2e15) for _ in range(60)]:
        v.append(("2", "two", (x,)))
    for e in (2.0, 3.0, 0.5, 0.0, -0.0, -2.0, 1.0, 0.4, 3.2, 1e300, -1e300, INF, NAN, 2.0000000000000004):
        for b in (0.0, -0.0, 0.15, 0.3, 1.0, 2.0, 0.5, -1.0, INF, NAN, real(1), 7.25):
            v.append(("p", "power", (b, e)))
    for ms in (0, 1, 25, 100, 500, 999.5, 2000, 3000, 1e6):
        v += [("p", "power", (b, ms / 1000.0)) for b in (0.15, 0.3, 0.9)]
    v += [("p", "power", (r.choice((r.random(), r.uniform(0, 50), abs(real(r.getrandbits(64))))), r.uniform(-4, 8))) for _ in range(160)]
    v += [("e", "exp", (x,)) for x in xs + [r.uniform(-720, 720) for _ in range(60)]]
    v += [("g", "log10", (x,)) for x in xs + [abs(x) for x in xs] + [10.0, 1.9, 2.8, 100.0, 3.0, 1 - 2.0**-53, 8.0, 1 + 2.0**-52]]
    grid = [0.0, -0.0, 1.0, -1.0, 2.0, -2.0, 0.5, -0.5, 2.0**40, -(2.0**40), real(1), -real(1), 3.0, INF, -INF, NAN, 1e300, -1e300]
    v += [("A", "angle", (x, y)) for x in grid for y in grid]
    for _ in range(120):
        x = math.ldexp(r.uniform(-1, 1), r.randint(-40, 40))
        v.append(("A", "angle", (x, r.choice((x, -x, r.uniform(-1, 1), x * math.ldexp(1, r.randint(-35, 35)))))))
    squares = [float(k * k) for k in (3, 94906265, 67108863, 11)]
    v += [("r", "root", (y,)) for x in xs + squares for y in near(x)]
    for b in [0, 0x80000000, 1, 0x80000001, 0x007FFFFF, 0x00800000, 0x3F800000, 0x40000000, 0x7F7FFFFF, 0x7F800000, 0xFF800000, 0x7FC00000] + [r.getrandbits(32) for _ in range(120)]:
        v.append(("q", "root32", (b,)))
    few = [0.0, -0.0, 1.0, -1.0, NAN, INF, -INF, 2.5]
    v += [(f, n, (x, y)) for f, n in (("M", "max"), ("m", "min")) for x in few for y in few]
    v += [("i", "i32", (y,)) for x in xs + [2147483647.0, -2147483648.0, 2147483646.5, -2147483647.5] for y in near(x)]
    v += [("n", "f32", (x,)) for x in xs + singles(r)]
    for f in "tfc1Rad":
        v += [(f, None, (y,)) for x in xs for y in (near(x) if f in "tfc" else [x])]
    v += [("C", None, (x, 0.0, 1.0)) for x in xs]
    v += [("N", None, (x, y)) for x in (0.0, 1.0, 2.0**-52, 2.0**-53, -(2.0**-52), NAN) for y in (0.0, -0.0, 1.0)]
    for _ in range(60):
        a, w = r.uniform(-50, 300), r.uniform(1, 200)
        v += [("b", None, (abs(a) + 1,)), ("B", None, (abs(a) + 1,)), ("l", None, (a, 10.0, 10.0 + w)), ("s", None, (a, 10.0, 10.0 + w)),
              ("S", None, (a, 10.0, 10.0 + w)), ("k", None, (a, 100.0, w)), ("L", None, (a / 100, 0.88, 10.0))]
    v += [("2", "two", (f + n * 2.0**40,)) for f in TIES for n in (0, -3)]
    v += [("o", "log" if 0 < x < INF else None, (x,)) for x in xs + [abs(x) for x in xs] + [y for k in range(-1074, 1024, 61) for y in near(math.ldexp(1.0, k))]]
    return v + [(f, None, (x,)) for x in bounds() for f in "tfc"]


def whole(x, f):
    return x if x != x or abs(x) >= 2.0**52 else math.copysign(float(f(x)), x)


def clamp(x, lo, hi):
    return lo if x < lo else hi if hi < x else x


def divide(a, b):
    if a != a or b != b:
        return NAN
    if b == 0:
        return NAN if a == 0 else math.copysign(INF, math.copysign(1, a) * math.copysign(1, b))
    return a / b


def reverse_lerp(x, start, end):
    return clamp(divide(x - start, end - start), 0.0, 1.0)


def smoothstep(x, start, end):
    x = reverse_lerp(x, start, end)
    return x * x * (3.0 - 2.0 * x)


def smootherstep(x, start, end):
    x = reverse_lerp(x, start, end)
    return x * x * x * (x * (6.0 * x - 15.0) + 10.0)


def bell(x, mean, width):
    y = x - mean
    return smoothstep(width - y if y > 0 else width + y, 0.0, width)


def here(f, a, exp):
    """The answers that are worked out here; exp asks the oracle."""
    x = a[0]
    if f == "N":
        return "1" if abs(x - a[1]) >= 2.0**-52 else "0"
    answer = {
        "t": lambda: whole(x, math.trunc), "f": lambda: whole(x, math.floor), "c": lambda: whole(x, math.ceil),
        "1": lambda: NAN if x != x or abs(x) == INF else math.fmod(x, 1.0), "R": lambda: NAN if x != x or abs(x) == INF else math.fmod(x, 2.0),
        "o": lambda: NAN, "a": lambda: abs(x), "d": lambda: x * (math.pi / 180.0), "C": lambda: clamp(*a),
        "b": lambda: 60000.0 / 4.0 / x, "B": lambda: 60000.0 / (x * 4.0), "l": lambda: reverse_lerp(*a), "s": lambda: smoothstep(*a),
        "S": lambda: smootherstep(*a), "k": lambda: bell(*a), "L": lambda: 1.0 / (1.0 + exp(a[2] * (a[1] - x))),
    }[f]()
    return hex64(answer)


def word(x):
    return x if isinstance(x, int) else 0x7FF8000000000000 if x != x else bits(x)


def ask(oracle, lines):
    return subprocess.run([oracle, "leaf"], input="".join(l + "\n" for l in lines), capture_output=True, text=True, check=True).stdout.split("\n")[:-1]


def main():
    oracle, folder = sys.argv[1:]
    v = calls(random.Random(SEED))
    lines = [n + " " + " ".join(("%08X" if n == "root32" else "%016X") % word(x) for x in a) for f, n, a in v if n]
    told = iter(ask(oracle, lines))
    exps = {a: real(int(ask(oracle, ["exp %016X" % bits(a[2] * (a[1] - a[0]))])[0], 16)) for f, n, a in v if f == "L"}
    with open(folder + "/stdin", "wb") as i, open(folder + "/stdout", "w") as o:
        for f, n, a in v:
            i.write(f.encode() + struct.pack("<QQQ", *([word(x) for x in a] + [0, 0])[:3]))
            answer = next(told) if n else here(f, a, lambda x: exps[a])
            o.write((hex64(float(answer)) if n in ("i32", "log") else answer) + "\n")
    print(len(v), "vectors,", len(lines), "of them answered by the oracle")


main()
