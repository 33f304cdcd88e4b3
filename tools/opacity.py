#!/usr/bin/env python3
"""Questions for opacity.

    opacity.py ORACLE CRATE

Opacities of objects, hidden and not, at the times where the rule changes (the start, preempt before it, where the fade-in is whole, where the fade-out begins
and ends), at the numbers beside them, between them and far from them. ORACLE answers. CRATE/stdin and CRATE/stdout are written.
"""
import itertools
import math
import struct
import subprocess
import sys


STARTS = [0.0, -0.0, 1e-3, 1000.0, 1234.5, 77777.77, 9999999.25, 1e7]
SPANS = [(600.0, 400.0), (450.0, 300.0), (1200.0, 800.0), (333.3, 222.2), (1.0, 1.0), (1e4, 1e4), (1e4, 1.0), (1.0, 1e4)]


def beside(t):
    return [math.nextafter(t, -math.inf), t, math.nextafter(t, math.inf)]


def questions():
    for start, (preempt, fade_in) in itertools.product(STARTS, SPANS):
        full = start - preempt + fade_in
        edges = [start, start - preempt, full, full + preempt * 0.3]
        times = [t for e in edges for t in beside(e)]
        times += [start - preempt * f for f in (0.1, 0.5, 0.9, 1.5)] + [start + 1.0, start + 1e6, 0.0, -0.0]
        for time, hidden in itertools.product(times, (0, 1)):
            yield start, time, preempt, fade_in, hidden


def main(oracle, crate):
    asked = list(questions())
    word = lambda x: struct.pack(">d", x).hex()
    lines = [f"opacity {word(s)} {word(t)} {h} {word(p)} {word(f)}\n" for s, t, p, f, h in asked]
    answers = subprocess.run([oracle, "leaf"], input="".join(lines), capture_output=True, text=True, check=True).stdout
    assert len(answers.splitlines()) == len(asked)
    with open(f"{crate}/stdin", "wb") as out:
        for s, t, p, f, h in asked:
            out.write(struct.pack("<ddddQ", s, t, p, f, h))
    with open(f"{crate}/stdout", "w") as out:
        out.write(answers)
    print(len(asked))


main(*sys.argv[1:])
