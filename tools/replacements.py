#!/usr/bin/env python3
"""Replacements on charts, with the answers that they must get.

    replacements.py ORACLE SCRIPTS CHARTS.. > answers     writes the calls to SCRIPTS, the answers to standard output

ORACLE is the comparison program built from the customer's Rust. The calls on a chart are drags, changes of kind, objects that break each
condition, wrong lengths, places and table lengths; they are a function of the chart's bytes. Each answer is the oracle's for the chart as
the calls before it left it. In a chart with stated lengths (order 4) an object has one more field.
"""
import os
import random
import struct
import subprocess
import sys
import tempfile
import zlib

sys.dont_write_bytecode = True
import chart as chart_tool

FIELDS = "<ddffffIIIIII"
STATED_FIELDS = FIELDS + "d"


def changed(r, o, earlier, later):
    """An object with one thing changed: about half of these are refused."""
    fields = FIELDS if len(o) == chart_tool.OBJECT.size else STATED_FIELDS
    f = list(struct.unpack(fields, o))
    what = r.randrange(14)
    if what < 4:
        f[2], f[3] = r.uniform(-500, 1000), r.uniform(-500, 1000)
    elif what == 4:
        f[0] = r.uniform(earlier, later)
        f[1] = f[0] if f[6] == 0 else f[0] + abs(f[1] - f[0]) + 1
    elif what == 5:
        f[0] = f[1] = r.choice((later + 1, earlier - 1, -0.0, 1e7, 1.1e7, float("nan")))
    elif what == 6:
        f[4], f[5] = r.choice(((1024.0, -1024.0), (1024.5, 0.0), (0.0, float("inf"))))
    elif what == 7:
        f[6:] = [0] * len(f[6:])
        f[1] = f[0]
    elif what == 8:
        f[6:] = [2] + [0] * len(f[7:])
        f[1] = f[0] + r.choice((0, 500, -1))
    elif what == 9:
        f[6] = 3
    elif what == 10:
        f[6], f[7], f[8], f[9], f[10], f[11] = 1, r.choice((0, 1, 1024, 1025)), r.randrange(6), r.randrange(4), r.randrange(6), r.randrange(4)
        f[1] = f[0] + r.choice((100, 0.001, 0.0009))
    elif what == 11:
        f[2] = r.choice((131072.0, 131073.0, -131072.0, float("-inf")))
    elif what == 12:
        f[8] = r.choice((0, 65535, 4294967295)) if f[6] == 1 else 1
    elif fields == STATED_FIELDS:
        f[12] = r.choice((0.0, -0.0, 5e-324, 40.0, 200.0, 1e6, 1000000.1, -1.0, float("nan"), float("inf")))
    return struct.pack(fields, *f)


def calls(chart):
    r = random.Random(zlib.adler32(chart))
    n = struct.unpack_from("<I", chart)[0] if len(chart) >= 80 else 0
    size = chart_tool.object_size(chart)
    fits = n * size + 80 <= len(chart)
    for _ in range(12):
        k = r.choice((0, 1, n - 1, r.randrange(n))) if n and fits else 0
        at = 80 + size * k
        o = chart[at:at + size] if n and fits else bytes(size)
        start = lambda i: struct.unpack_from("<d", chart, 80 + size * i)[0] if n and fits and 0 <= i < n else None
        earlier, later = start(k - 1), start(k + 1)
        here = start(k) or 0.0
        o = changed(r, o, here if earlier is None else earlier, here if later is None else later)
        o = r.choice((o,) * 12 + (o[:size - 1], o + b"\0", b"" if size == 56 else o[:56]))
        entries = r.choice((n,) * 10 + (n + 3, max(n - 1, 0), 0))
        yield r.choice((k,) * 12 + (n, n + 1, 2**32, 2**64 - 1)), entries, o


def stored(name):
    """The call that stands beside a chart (tools/fault_pairs.py)."""
    beside = name.removesuffix(".chart") + ".call"
    if not os.path.exists(beside):
        return None
    place, entries, o = open(beside).read().split()
    return [(int(place), int(entries), bytes.fromhex(o.removeprefix("-")))]


def answers(oracle, chart, asked):
    """The oracle's answers to calls on a chart, and the checksum of the chart as they leave it."""
    lines = ["replace %d %s %d %d" % (k, o.hex() or "-", e, e) for k, e, o in asked] + ["chart"]
    with tempfile.NamedTemporaryFile() as lent, tempfile.NamedTemporaryFile() as saved:
        lent.write(chart)
        lent.flush()
        told = subprocess.run([oracle, "script", lent.name, saved.name, "--unopened"], input="".join(l + "\n" for l in lines), capture_output=True, text=True, check=True).stdout.split("\n")
        left = zlib.adler32(saved.read())
    return ["accepted" if answer == "carried-out" else answer for answer in told[:len(asked)]] + ["chart %08X" % left]


def packed(chart, asked):
    """A chart and its calls as the program reads them."""
    return struct.pack("<I", len(chart)) + chart + struct.pack("<I", len(asked)) + b"".join(struct.pack("<QII", k, e, len(o)) + o for k, e, o in asked)


def unpacked(data):
    """The charts of an input, each with its calls."""
    at = 0
    while at < len(data):
        size, = struct.unpack_from("<I", data, at)
        chart, at = data[at + 4:at + 4 + size], at + 4 + size
        count, = struct.unpack_from("<I", data, at)
        asked, at = [], at + 4
        for _ in range(count):
            k, e, length = struct.unpack_from("<QII", data, at)
            asked.append((k, e, data[at + 16:at + 16 + length]))
            at += 16 + length
        yield chart, asked


def main():
    oracle, scripts, names = sys.argv[1], sys.argv[2], sys.argv[3:]
    with open(scripts, "wb") as out:
        for name in names:
            with open(name, "rb") as file:
                chart = file.read()
            asked = stored(name) or list(calls(chart))
            out.write(packed(chart, asked))
            print("\n".join(answers(oracle, chart, asked)))


if __name__ == "__main__":
    main()
