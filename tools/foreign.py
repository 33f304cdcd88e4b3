#!/usr/bin/env python3
"""Record tables made elsewhere, with the values that the evaluators must make from them.

    foreign.py SECOND DIR CHARTS..     writes DIR/stdin and DIR/stdout

SECOND is the folder of the comparison program's second calculator (second.py, refnum.py); its evaluators take records of any numbers when
these are of the class Real below, which adds what IEEE 754 says of division by zero and the rules say of conversion to i32. The charts have
at most 512 objects. Each that opens gets one table of every pattern, one that is refused stands alone; the same charts give the same files.
"""
import math
import random
import struct
import sys
import zlib
from types import SimpleNamespace

sys.dont_write_bytecode = True

INF, NAN = math.inf, math.nan
WILD = [NAN, INF, -INF, 1e308, -1e308, 0.0, -0.0, 5e-324, -5e-324, 2.0, -1.0, 1e-7, 25.0, 24.9, 1e10, -1e10, 2.0**31, -(2.0**31) - 1, 2.0**53, 0.5, 100.0]


class Real(float):
    """A float whose arithmetic never raises and stays of this class."""

    __slots__ = ()

    def __truediv__(self, other):
        return quotient(float(self), float(other))

    def __rtruediv__(self, other):
        return quotient(float(other), float(self))

    def __trunc__(self):
        return Real(math.trunc(float(self))) if math.isfinite(self) else self

    def __int__(self):
        if self != self:
            return 0
        return -2**31 if self < -2**31 else 2**31 - 1 if self > 2**31 - 1 else math.trunc(float(self))


def quotient(a, b):
    if b != 0:
        return Real(a / b)
    if a == 0 or a != a:
        return Real(NAN)
    return Real(math.copysign(INF, a) * math.copysign(1.0, b))


def wrapped(name):
    plain = getattr(float, name)

    def method(self, *others):
        r = plain(self, *others)
        return r if r is NotImplemented else Real(r)

    return method


for _name in ("add", "radd", "sub", "rsub", "mul", "rmul", "neg", "abs"):
    setattr(Real, f"__{_name}__", wrapped(f"__{_name}__"))


FIELDS = ("start", "delta", "adjusted", "jump", "min_jump", "min_time", "travel", "travel_time", None, None, "lazy_travel", "lazy_travel_time", None, "small")


def row_of(r):
    """The sixteen numbers of a record in a port's table."""
    x, y = r.lazy_end or (0.0, 0.0)
    numbers = [0.0 if f is None else getattr(r, f) for f in FIELDS] + [float(r.lazy_end is not None), float(r.angle is not None)]
    numbers[8], numbers[9], numbers[12] = x, y, r.angle if r.angle is not None else 0.0
    return numbers


def record_of(place, o, row):
    """A row as the evaluators read it: a flag is any number but zero."""
    r = SimpleNamespace(place=place, o=o, lazy_end=(row[8], row[9]) if row[14] != 0 else None, angle=Real(row[12]) if row[15] != 0 else None)
    for name, x in zip(FIELDS, row):
        if name:
            setattr(r, name, Real(x))
    return r


def one(x):
    return lambda r, rows: [[x] * 16 for _ in rows]


def alternating(x, y):
    return lambda r, rows: [[x if (i + j) % 2 else y for i in range(16)] for j in range(len(rows))]


def flags_of_two(r, rows):
    return [row[:14] + [2.0, 2.0] for row in rows]


def flags_turned(r, rows):
    return [row[:14] + [r.choice((0.0, -0.0, 2.0, NAN, -1.0)), r.choice((0.0, -0.0, 2.0, NAN))] for row in rows]


def one_column(r, rows):
    """True records but for one column."""
    i, x = r.randrange(16), r.choice(WILD)
    return [row[:i] + [x] + row[i + 1:] for row in rows]


def sprinkled(r, rows):
    return [[r.choice(WILD) if r.random() < 0.15 else x for x in row] for row in rows]


def begins_later(r, rows):
    """NaN in the first third: what the later places do not look back to must not count."""
    return [[NAN] * 16 if 3 * j < len(rows) else row for j, row in enumerate(rows)]


def ends_early(r, rows):
    return [[NAN] * 16 if 3 * j > 2 * len(rows) else row for j, row in enumerate(rows)]


def any_bits(r, rows):
    return [[struct.unpack("<d", r.getrandbits(64).to_bytes(8, "little"))[0] for _ in range(16)] for _ in rows]


def plausible(r, rows):
    """Numbers of ordinary size that belong to no chart: angles, times and distances."""
    def number(i):
        return r.choice((r.uniform(0, 4), r.uniform(20, 400), r.uniform(-50, 5000)))
    return [[number(i) for i in range(14)] + [float(r.random() < 0.7), float(r.random() < 0.8)] for _ in rows]


PATTERNS = [one(NAN), one(INF), one(-INF), one(-1e308), one(1e308), one(0.0), one(-0.0), one(2.0), one(5e-324), alternating(NAN, 1.0), alternating(INF, -1e308),
            alternating(-1e308, 2.0), alternating(25.0, 1e-7), flags_of_two, flags_turned, one_column, one_column, one_column, sprinkled, sprinkled, begins_later, ends_early, any_bits, plausible, plausible]


def values(second, s, recs, j):
    return [second.aim(s, recs, j, True), second.aim(s, recs, j, False), second.speed(s, recs, j), second.rhythm(s, recs, j), second.flashlight(s, recs, j)]


def tables(second, chart):
    """Each pattern's table; none for a chart that is refused."""
    if second.conditions(chart) is not None:
        yield []
        return
    s, objs = second.read(chart)
    n, true = len(objs), [None]
    if n > 512:
        sys.exit("a chart of more than 512 objects")
    for j in range(1, n):
        true.append(second.record(s, objs, true, j))
    rows = [[NAN] * 16] + [row_of(r) for r in true[1:]]
    r = random.Random(zlib.adler32(chart))
    for pattern in PATTERNS:
        yield pattern(r, rows)


def answer(second, chart, table):
    """The lines that a chart and a table must give."""
    refusal = second.conditions(chart)
    if refusal is not None:
        return ["refused {} {}".format(*refusal)]
    s, objs = second.read(chart)
    recs = [record_of(j, o, row) for j, (o, row) in enumerate(zip(objs, table))]
    return [f"objects {len(objs)}"] + [" ".join([str(j), *map(second.hx, values(second, s, recs, j))]) for j in range(1, len(objs))]


def unpacked(second, data):
    """The charts of an input, each with its table; one that is refused has none."""
    at = 0
    while at < len(data):
        size, = struct.unpack_from("<I", data, at)
        chart, at = data[at + 4:at + 4 + size], at + 4 + size
        n = 0 if second.conditions(chart) is not None else struct.unpack_from("<I", chart)[0]
        yield chart, [list(struct.unpack_from("<16d", data, at + 128 * j)) for j in range(n)]
        at += 128 * n


def main():
    if len(sys.argv) < 4:
        sys.exit(__doc__)
    sys.path.insert(0, sys.argv[1])
    import second
    places = 0
    with open(f"{sys.argv[2]}/stdin", "wb") as given, open(f"{sys.argv[2]}/stdout", "w") as wanted:
        for name in sys.argv[3:]:
            with open(name, "rb") as file:
                chart = file.read()
            for table in tables(second, chart):
                lines = answer(second, chart, table)
                given.write(struct.pack("<I", len(chart)) + chart + b"".join(struct.pack("<16d", *row) for row in table))
                wanted.write("\n".join(lines) + "\n")
                places += len(lines) - 1
    print(places, "places", file=sys.stderr)


if __name__ == "__main__":
    main()
