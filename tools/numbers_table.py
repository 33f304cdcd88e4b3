#!/usr/bin/env python3
"""The stored table of the library for other makers (include/numbers.h).

    numbers_table.py ORACLE DIR     writes DIR/numbers.out

A row has a function, the bits of its arguments and those of the answer. The answers are those of ORACLE's `leaf`, the comparison program built from the
customer's Rust; Log of what is not above zero or not finite is NaN, which ORACLE's own Log is not asked for.
"""
import math
import struct
import subprocess
import sys

INF, NAN = math.inf, math.nan
SMALLEST, LARGEST = 5e-324, sys.float_info.max
TWO_40 = 2.0**40
# L is one less than the whole part of this number's logarithm
ONE_LESS = struct.unpack("<d", struct.pack("<Q", 0x3FFCECA0E00A9D9F))[0]

ROWS = {
    "log": [1.0, 2.0, 8.0, 0.5, 3.0, 10.0, ONE_LESS, math.nextafter(1, 2), math.nextafter(1, 0), SMALLEST, math.nextafter(2.0**-1022, 0), 2.0**-1022, LARGEST, 0.0, -1.0, INF, NAN],
    "two": [0.0, 0.5, -0.5, 2.0**39, -(2.0**39), 1742684699131.0, -1022 * TWO_40, -1022 * TWO_40 - 1, 1024 * TWO_40 - 1, 1024 * TWO_40, -INF, NAN],
    "power": [(2.0, 10.0), (2.0, 0.5), (1.1, 2.0), (1.1, 3.0), (0.15, 0.4), (7.25, 3.2), (10.0, -1.5), (0.0, 0.0), (0.0, 1.5), (0.0, -1.0), (-2.0, 3.0), (-2.0, 1.0), (INF, 1.0), (2.0, NAN)],
    "exp": [0.0, 1.0, -1.0, 709.0, 710.0, -746.0, INF],
    "log10": [1.0, 10.0, 0.001, SMALLEST, 0.0, -1.0, INF],
    "angle": [(1.0, 0.0), (-0.0, 0.0), (0.0, 1.0), (1.0, 1.0), (-1.0, 1.0), (3.0, -4.0), (-3.0, 4.0), (-1.0, 1e-300), (INF, 1.0)],
    "root64": [2.0, 0.25, -0.0, -1.0, SMALLEST, LARGEST, INF],
    "root32": [2.0, 0.25, 1e-45, -1.0, INF],
}


def bits(name, x):
    if name == "root32":
        return "7FC00000" if x != x else "%08X" % struct.unpack("<I", struct.pack("<f", x))
    return "7FF8000000000000" if x != x else "%016X" % struct.unpack("<Q", struct.pack("<d", x))


def asked(name, arguments):
    """The row's words without the answer, and what ORACLE is asked for it."""
    words = [bits(name, x) for x in arguments]
    return " ".join([name, *words]), " ".join([{"root64": "root"}.get(name, name), *words])


def main():
    oracle, folder = sys.argv[1:]
    rows = [(name, a if isinstance(a, tuple) else (a,)) for name, all_ in ROWS.items() for a in all_]
    total = [name != "log" or 0 < a[0] < INF for name, a in rows]
    asks = "".join(asked(*r)[1] + "\n" for r, t in zip(rows, total) if t)
    told = iter(subprocess.run([oracle, "leaf"], input=asks, capture_output=True, text=True, check=True).stdout.split())
    with open(folder + "/numbers.out", "w") as out:
        for (name, a), t in zip(rows, total):
            answer = next(told) if t else "nan"
            print(asked(name, a)[0], bits(name, float(answer)) if name == "log" else answer, file=out)
    print(len(rows), "rows,", sum(total), "of them answered by the oracle")


main()
