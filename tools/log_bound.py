#!/usr/bin/env python3
"""Holds Log to its bound by whole numbers, 2^L <= b^(2^40) < 2^(L+2), and log10 and Power to what docs/LOG.md works out of it.

    log_bound.py CLIENT [COUNT [SEED]]      CLIENT is what clients/run builds of clients/numbers.c; it answers for the functions

b = a * 2^e, a whole. b^(2^40) has some 10^13 digits, so it is enclosed: forty squarings of a lower and an upper whole number, after each of which both are cut to
about 256 bits, one downward and one upward. A power of two is never cut, and its enclosure is exact. log10 and Power are compared with logarithms of 50 decimal
digits. COUNT (4000) is that of the random numbers of each kind.
"""
import math
import random
import struct
import subprocess
import sys
from decimal import Decimal, getcontext
from fractions import Fraction

BITS = 256
INFINITY = 0x7FF0000000000000
getcontext().prec = 50
LN_2 = Decimal(2).ln()


def real(bits):
    return struct.unpack("<d", struct.pack("<Q", bits))[0]


def shown(x):
    return "%016X" % struct.unpack("<Q", struct.pack("<d", x))


def answers(client, name, rows):
    lines = "".join(" ".join([name, *map(shown, row)]) + "\n" for row in rows)
    out = subprocess.run([client], input=lines, capture_output=True, text=True, check=True).stdout.split("\n")[:-1]
    return [(row, real(int(line.split()[-1], 16))) for row, line in zip(rows, out, strict=True)]


def enclosed(b):
    """low, high, e: low * 2^e <= b^(2^40) <= high * 2^e, and both equal where b is a power of two."""
    a, c = b.as_integer_ratio()
    zeros = (a & -a).bit_length() - 1
    low = high = a >> zeros
    e = zeros - (c.bit_length() - 1)
    for _ in range(40):
        low, high, e = low * low, high * high, 2 * e
        drop = max(0, high.bit_length() - BITS)
        low, high, e = low >> drop, -(-high >> drop), e + drop
    return low, high, e


def scaled(n, e):
    """n * 2^e as a fraction."""
    return Fraction(n << e) if e >= 0 else Fraction(n, 1 << -e)


def over(b, l):
    """Below and above b^(2^40) / 2^L, which must be from 1 to below 4; zeros where L is far off."""
    low, high, e = enclosed(b)
    return (scaled(low, e - l), scaled(high, e - l)) if abs(low.bit_length() + e - l) < 64 else (0, 0)


def beside(x, steps):
    bits = int(shown(x), 16)
    return [real(b) for b in range(bits - steps, bits + steps + 1) if 0 < b < INFINITY]


def kinds(r, count):
    yield "powers of two and their neighbours", [b for k in range(-1074, 1024) for b in beside(math.ldexp(1.0, k), 1)]
    yield "subnormal numbers", [real(r.randrange(1, 1 << r.randint(1, 52))) for _ in range(count)]
    yield "any pattern", [real(r.randrange(1, INFINITY)) for _ in range(count)]
    yield "beside 1", beside(1.0, count // 8) + [1.0 + r.randrange(1 << r.randint(12, 40)) * 2.0**-52 for _ in range(count // 2)]
    # where the power lies beside a power of two
    yield "beside 2^(t / 2^40)", [b for _ in range(count) for b in beside(2.0 ** (r.randrange(1 << 40) / 2.0**40), 1)]


def log(client, r, count):
    """The number of those outside the bound."""
    tried = outside = exact = beyond = 0
    least, most = (Fraction(4), 1.0), (Fraction(1), 1.0)
    for kind, bs in kinds(r, count):
        for (b,), l in answers(client, "log", [(b,) for b in bs]):
            low, high = over(b, int(l))
            tried += 1
            if not (1 <= low and high < 4):
                outside += 1
                print("outside:", shown(b), l)
            elif low == high == 1:
                exact += 1
            else:
                beyond += low >= 2
                least, most = min(least, (low, b)), max(most, (high, b))
        print(len(bs), kind)
    print(f"log: {tried} numbers, {outside} outside; {exact} where b^(2^40) = 2^L; {beyond} where it is 2^(L+1) or more")
    print(f"beside the exact ones it comes down to 2^L * (1 + {float(least[0] - 1):.3g}) at {shown(least[1])}, and up to 2^(L+1) * (1 + {float(most[0] / 2 - 1):.3g}) at {shown(most[1])}")
    return outside


def log10(client, r, count):
    rows = [(b,) for _, bs in kinds(r, count) for b in bs]
    errors = [Decimal(b).log10() - Decimal(a) for (b,), a in answers(client, "log10", rows)]
    outside = sum(not Decimal("-3.2e-14") < e < Decimal("5.8e-13") for e in errors)
    print(f"log10: {len(rows)} numbers, {outside} outside; log10 b less the answer is from {min(errors):.3g} to {max(errors):.3g}")
    return outside


def power(client, r, count):
    """t of b^e = answer * 2^(t / 2^40), above -0.063 and below 2e + 1.07, or above 2e - 0.063 and below 1.07 for e below zero."""
    bases = [lambda: r.random(), lambda: r.uniform(0, 50), lambda: real(r.randrange(1, INFINITY)), lambda: math.ldexp(1.0, r.randint(-9, 9)) * (1 + r.random() * 2.0**-20)]
    rows = [(r.choice(bases)(), r.choice((r.uniform(-4, 8), r.uniform(-100, 100), float(r.randint(4, 9))))) for _ in range(5 * count)]
    tried = outside = 0
    worst = Decimal(0)
    for (b, e), a in answers(client, "power", rows):
        if a == 0 or a == math.inf:
            continue
        tried += 1
        t = (Decimal(e) * Decimal(b).ln() - Decimal(a).ln()) / LN_2 * 2**40
        outside += not min(0, 2 * Decimal(e)) - Decimal("0.063") < t < max(0, 2 * Decimal(e)) + Decimal("1.07")
        worst = max(worst, abs(t) / (2 * abs(Decimal(e)) + Decimal("1.07")))
    print(f"power: {tried} powers, {outside} outside; the largest error is {float(worst):.3f} of the bound")
    return outside


def main():
    client, count, seed = (sys.argv[1:] + ["4000", "1"][len(sys.argv) - 2:])[:3]
    r = random.Random(seed)
    sys.exit(sum(f(client, r, int(count)) for f in (log, log10, power)) > 0)


main()
