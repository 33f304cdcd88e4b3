#!/usr/bin/env python3
"""Holds a program against the oracle, on charts and scripts of calls that are made anew from a seed.

    compare.py lists|parts|rhythms TOOLS BUILD PROGRAM [--seed S] [--count N] [--faults]
    compare.py scripts|players TOOLS BUILD PROGRAM [--seed S] [--count N] [--calls C]
    compare.py MODE TOOLS BUILD --save DIR ...      no program: writes DIR/stdin and DIR/stdout

TOOLS is the folder of the oracle's scripts (mkcharts.py, mkscripts.py), BUILD that of its programs.

lists: PROGRAM reads from standard input for each chart its length (u32, little-endian) and its bytes, and prints the lister's lines for each, one
after another. The charts are of all styles in turn, to 32,768 bytes; every eighth is damaged, though some of these open. Zeros of either sign are equal.
With --faults all have up to four faults of conditions 3 to 5, of which the rules' order names one.
With an order 4 among ORDERS two of three charts have stated lengths, of lists and of scripts.

parts, rhythms: PROGRAM is `test_aim_parts` or `test_rhythm`, or reads and writes as it does: on the same charts, aim with its parts or rhythm values with
their comparisons.

scripts: PROGRAM is `test_scripts`, or reads and writes as it does (crates/test_scripts/src/main.rt); tools/scripts.py packs the calls. The charts open; every
fifth has 0 to 3 objects, and half of these are edited at every place. Every second script is a list of calls on one buffer, with no other hand on the chart; in the others a hand writes to the chart and
calls are lent buffers of other lengths. Every third reads aim with its parts and rhythm values with their comparisons too. Tables hold numbers of other origin beforehand. Floats are compared by their bits; where the oracle only says that
a call is carried out, the program must not refuse it.

players: PROGRAM is `test_players`; the same for two players over one chart, on the same charts. Every second script is one of tools/players.py, the others are
calls by chance. ORDERS must name order 8, and must not for the scripts of one player.

The variable ORDERS tells the oracle and its scripts which orders have landed.

The last line is `N equal, M different`; the status is 0 if M is 0 and N isn't.
"""
import argparse
import collections
import os
import random
import re
import shlex
import struct
import subprocess
import sys
import tempfile

sys.dont_write_bytecode = True
import players
import stated
from chart import object_size
from scripts import KEPT, READINGS, every_place, packed_script, patterns, with_details

BATCH = 500

# what the oracle is asked for charts
ASKED = {"lists": ["list", "--counts"], "parts": ["aimparts", "--no-limit"], "rhythms": ["rhythmcount", "--no-limit"]}


def damage(rng, b):
    """A chart cut, lengthened, with objects or nested entries out of order, too long in time, or with some bits flipped."""
    how, b, (n, nested), size = rng.random(), bytearray(b), struct.unpack_from("<2I", b), object_size(b)
    if how < 0.15:
        return bytes(b[:rng.randrange(len(b))])
    if how < 0.25 and len(b) < 32_000:
        return bytes(b) + rng.randbytes(rng.randrange(1, 60))
    if how < 0.4 and n > 1:
        k = 80 + size * rng.randrange(n - 1)
        b[k:k + 2 * size] = b[k + size:k + 2 * size] + b[k:k + size]
    elif how < 0.55 and n > 0:
        struct.pack_into("<2d", b, 80 + size * (n - 1), 1e7, 1e7)
    elif how < 0.7 and nested > 1:
        k = 80 + size * n + 24 * rng.randrange(nested - 1)
        b[k:k + 48] = b[k + 24:k + 48] + b[k:k + 24]
    elif how < 0.85 and n > 0 and size == 64:
        struct.pack_into("<d", b, 80 + size * rng.randrange(n) + 56, rng.choice(stated.WRONG))
    else:
        for _ in range(rng.choice((1, 1, 1, 2, 4))):
            b[rng.randrange(len(b)) if rng.random() < 0.8 else rng.randrange(80)] ^= 1 << rng.randrange(8)
    return bytes(b)


def faulty(rng, b):
    """A chart with up to four faults of conditions 3, 4 and 5, at any of its objects, nested entries and points."""
    b, (n, nested, points), size = bytearray(b), struct.unpack_from("<3I", b), object_size(b)
    for _ in range(rng.randrange(2, 5) if n else 0):
        at, entries = 80 + size * rng.randrange(n), 80 + size * n
        kind, how = struct.unpack_from("<I", b, at + 32)[0], rng.randrange(6)
        if how == 0:
            struct.pack_into("<f", b, at + 16, rng.choice((2e5, -2e5, float("nan"))))
        elif how == 1:
            struct.pack_into("<I", b, at + 32, 3)
        elif how == 2 and kind == 0:
            struct.pack_into("<2d", b, at, 0.0, 0.0)
        elif how == 3 and nested:
            struct.pack_into("<I", b, entries + 24 * rng.randrange(nested) + 16, rng.randrange(4))
        elif how == 4 and points:
            struct.pack_into("<d", b, entries + 24 * nested + 16 * rng.randrange(points) + 8, -1.0)
        elif how == 5 and kind == 1:
            struct.pack_into("<I", b, at + 40, rng.randrange(70_000))
    return bytes(b)


def stated_round(i, styles):
    """0 where the i-th chart has no stated lengths, 1 where it is of its style with some, 2 where it is of the style made for them."""
    import orders
    return i // styles % 3 if orders.has(4) else 0


def style_chart(mk, seed, i):
    """The i-th chart of a seed, and its name."""
    styles = list(mk.STYLES)
    style, key = styles[i % len(styles)], f"{seed}.{i // len(styles)}"
    which = stated_round(i, len(styles))
    if which == 2:
        return f"stated lengths {seed}.{i}", stated.path_ends(f"{seed}.{i}").pack()
    return (f"{style} {key}, stated", stated.styled(mk, style, key).pack()) if which else (f"{style} {key}", mk.chart_of(style, key).pack())


def script_chart(mk, seed, i):
    """The chart of the i-th script, and its name."""
    if i % 5 != 4:
        return style_chart(mk, seed, i)
    n, which = i // 10 % 4, stated_round(i, len(mk.STYLES))
    c = stated.few(n, f"{seed}.{i}") if which else mk.sized(n, f"{seed}.{i}")
    return f"{n} objects {seed}.{i}" + ", stated" * bool(which), c.pack()


def list_chart(mk, seed, i, faults=False):
    name, b = style_chart(mk, seed, i)
    if faults:
        return name + ", faulty", faulty(random.Random(f"faults/{seed}/{i}"), b)
    return (name + ", damaged", damage(random.Random(f"damage/{seed}/{i}"), b)) if i % 8 == 7 else (name, b)


def asked(program, data):
    p = subprocess.run(program, input=data, stdout=subprocess.PIPE)
    return p.stdout.decode(errors="replace"), p.returncode


class Oracle:
    """The oracle's answers for charts, which it reads from files."""

    def __init__(self, build, folder):
        self.program, self.folder = os.path.join(build, "oracle"), folder

    def answers(self, words, charts, scripts=None):
        text = ""
        for i, b in enumerate(charts):
            name = os.path.join(self.folder, f"{i:05}.chart")
            with open(name, "wb") as file:
                file.write(b)
            text += f"file {name}\n" + "".join(line + "\n" for line in scripts[i]) if scripts else name + "\n"
        out, status = asked([self.program, "batch", *words], text.encode())
        if status != 0:
            sys.exit(f"the oracle ends with status {status}")
        return [part.partition("\n")[2] for part in re.split(r"(?m)^(?=file )", out) if part]


def packed_chart(b):
    return struct.pack("<I", len(b)) + b


def lists(a, oracle):
    """Batches of charts: names, the program's input, and the answers that it must give."""
    import mkcharts as mk
    for first in range(0, a.count, BATCH):
        made = [list_chart(mk, a.seed, i, a.faults) for i in range(first, min(first + BATCH, a.count))]
        charts = [b for _, b in made]
        yield [name for name, _ in made], b"".join(map(packed_chart, charts)), oracle.answers(ASKED[a.mode], charts)


def packed_call(a, i, chart, calls, answer):
    """The bytes of the i-th script."""
    rng = random.Random(f"tables/{a.seed}/{i}")
    packed = players.packed_script if a.mode == "players" else packed_script
    return packed(rng, chart, rng.choice(list(patterns(rng))), calls, answer.splitlines())


def calls_of(a, i, chart):
    """The i-th script."""
    import mkscripts
    if a.mode == "players":
        return players.by_chance(chart, f"{a.seed}/{i}", a.calls, pure=i % 4 == 1) if i % 2 else players.made(chart, f"{a.seed}/{i}")
    if i % 10 == 9:
        return every_place(chart, READINGS)
    if i % 3 == 1:
        return with_details(mkscripts, chart, a.seed, a.calls, pure=i % 2 == 0)
    return mkscripts.script(chart, a.seed, a.calls, pure=i % 2 == 0)[0]


def scripts(a, oracle):
    import mkcharts as mk
    for first in range(0, a.count, BATCH):
        numbers = range(first, min(first + BATCH, a.count))
        made = [script_chart(mk, a.seed, i) for i in numbers]
        charts = [b for _, b in made]
        played = [calls_of(a, i, b) for i, b in zip(numbers, charts)]
        want = oracle.answers(["script", "--unopened"], charts, played)
        data = b"".join(map(packed_call, [a] * len(made), numbers, charts, played, want))
        yield [name for name, _ in made], data, [answer + KEPT + "\n" for answer in want]


def cut(mode, text, want):
    """A program's output in the parts that belong to the answers."""
    if mode in ASKED:
        return [part for part in re.split(r"(?m)^(?=objects |refused )", text) if part]
    lines, out = text.splitlines(keepends=True), []
    for answer in want:
        out.append("".join(lines[:answer.count("\n")]))
        lines = lines[answer.count("\n"):]
    return out + ["".join(lines)] * bool(lines)


def merged(text):
    return re.sub(r"\b8(0{15})\b", r"0\1", text)


def left_open(want, got):
    """Whether the oracle says no more than that a call is carried out, or of an entry that it was written, and the program agrees."""
    return want == "carried-out" and not got.startswith("refused ") or want.endswith(" unknown") and got.startswith(want[:-7])


def difference(mode, want, got):
    """None, or the first line that differs."""
    if mode in ASKED:
        want, got = merged(want), merged(got)
    pairs = zip((want + "(end)").split("\n"), (got + "(end)").split("\n"))
    found = next((f"oracle {w}, program {g}" for w, g in pairs if w != g and not left_open(w, g)), None)
    return found if found or want.count("\n") == got.count("\n") else "one goes on"


class Tally:
    def __init__(self):
        self.equal = self.different = 0
        self.kinds = collections.Counter()

    def add(self, mode, name, want, got):
        found = "no answer" if got is None else difference(mode, want, got)
        self.equal += found is None
        self.different += found is not None
        for line in want.splitlines():
            w = line.split()
            self.kinds["refused " + w[1] if w[0] == "refused" else "places" if w[0].isdigit() else w[0]] += 1
        if found and self.different <= 10:
            print(f"{name}: {found}", flush=True)

    def end(self):
        print(", ".join(f"{kind}: {n}" for kind, n in sorted(self.kinds.items())))
        print(f"{self.equal} equal, {self.different} different")
        return self.different != 0 or self.equal == 0


def run(a, batches):
    tally = Tally()
    for names, data, want in batches:
        text, status = asked(a.program, data)
        got = cut(a.mode, text, want)
        if status != 0 or len(got) > len(want):
            tally.different += 1
            print(f"from {names[0]} on: {len(got)} answers to {len(want)}, status {status}")
        for i, (name, answer) in enumerate(zip(names, want)):
            tally.add(a.mode, name, answer, got[i] if i < len(got) else None)
        print(f"{tally.equal + tally.different} compared", file=sys.stderr)
    return tally.end()


def save(a, batches):
    os.makedirs(a.save, exist_ok=True)
    with open(os.path.join(a.save, "stdin"), "wb") as data_file, open(os.path.join(a.save, "stdout"), "w") as answer_file:
        for names, data, want in batches:
            data_file.write(data)
            answer_file.write("".join(want))
    return 0


def main():
    p = argparse.ArgumentParser(usage=__doc__)
    p.add_argument("mode", choices=(*ASKED, "scripts", "players"))
    p.add_argument("tools")
    p.add_argument("build")
    p.add_argument("program", nargs="?", type=shlex.split)
    p.add_argument("--seed", default="1")
    p.add_argument("--count", type=int)
    p.add_argument("--calls", type=int, default=60)
    p.add_argument("--save")
    p.add_argument("--faults", action="store_true")
    a = p.parse_args()
    if bool(a.program) == bool(a.save):
        p.error("a program or --save")
    a.count = a.count or {"lists": 20_000, "scripts": 200, "players": 200}.get(a.mode, 2_000)
    sys.path.insert(0, a.tools)
    with tempfile.TemporaryDirectory() as folder:
        batches = (lists if a.mode in ASKED else scripts)(a, Oracle(a.build, folder))
        return (save if a.save else run)(a, batches)


if __name__ == "__main__":
    sys.exit(main())
