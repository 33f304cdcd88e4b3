#!/usr/bin/env python3
"""Scripts of calls for the program `test_scripts`, with the answers that they must get.

    scripts.py ORACLE SECOND DIR SEED CALLS CHARTS..     writes DIR/stdin and DIR/stdout
    scripts.py ORACLE SECOND DIR --add SEED CALLS CHARTS..     appends to them
    scripts.py ORACLE SECOND DIR --details SEED CALLS CHARTS..     appends scripts of the two readings that are worked out from the records

ORACLE is the comparison program built from the customer's Rust, SECOND the folder of its second calculator and of mkscripts.py, which makes the
calls; the variable ORDERS tells them which orders have landed. A chart that opens gets two scripts: one that opens it first, and a shorter one on tables
that were never filled. A chart that does not open gets one of the second kind, one of few objects that opens a third which edits it at every place. Tables and scratch are lent in numbers, so a length has up to one entry less
one number on top.

The answers are the oracle's. Where it only says that a call is carried out, because the tables were made elsewhere, the model below answers: it
keeps memory and both tables and works out with the second calculator what an edit makes anew. Where the oracle answers too, the model must agree.
"""
import collections
import math
import os
import random
import struct
import subprocess
import sys
import tempfile
from types import SimpleNamespace

sys.dont_write_bytecode = True
sys.path.insert(0, os.path.dirname(os.path.abspath(__file__)))
import chart as chart_tool
import foreign
from foreign import Real

ENTRIES = 1024
MEMORY = 65536  # bytes that the program keeps: the chart, and what a buffer has behind it
KEPT = "entries kept"  # the last line of every script
NAMES = ("open", "replace", "record", "value", "totals", "poke", "chart", "insert", "remove", "buffer", "entry", "parts", "rhythm")
KINDS = {name: kind for kind, name in enumerate(NAMES)}
SETTINGS, FOR_SECOND, FOR_BOTH = 13, 16, 32  # kinds of `test_players`: the second player's settings, what a call for that player or for both has on top
EDITS = ("replace", "insert", "remove")
DETAILS = ("parts", "rhythm")
OF_RECORDS = ("record", *DETAILS)
READINGS = ("value", *OF_RECORDS)


def object_bytes(text):
    return b"" if text == "-" else bytes.fromhex(text)


class Model:
    """A chart at the front of its memory and its two tables, 1,024 entries each."""

    def __init__(self, second, chart, pattern):
        self.second = second
        self.chart = chart + bytes(i % 251 for i in range(len(chart), MEMORY))
        self.records = [[pattern[(16 * j + i) % 80] for i in range(16)] for j in range(ENTRIES)]
        self.values = [[pattern[(5 * j + i) % 80] for i in range(5)] for j in range(ENTRIES)]
        self.unwritten = [*map(self.words, range(ENTRIES))]

    def fill(self, first, records_end, from_value, values_end):
        """Records from the chart, values from the records in the table."""
        second = self.second
        s, objs = second.read(self.chart)
        n = len(objs)
        made = {}
        for p in range(max(1, first - 2), first):
            made[p] = SimpleNamespace(lazy_end=None, lazy_travel=0.0, lazy_travel_time=0.0, travel=0.0, travel_time=0.0)
            if objs[p].kind == second.SLIDER:
                second.slider(s, objs[p], made[p])
        for j in range(first, min(records_end, n)):
            made[j] = second.record(s, objs, made, j)
            self.records[j] = foreign.row_of(made[j])
        rows = Rows(objs, self.records)
        for j in range(from_value, min(values_end, n)):
            self.values[j] = foreign.values(second, s, rows, j)

    def replaced(self, k, obj):
        self.chart = self.second.put(self.chart, k, obj)
        self.fill(max(1, k), k + 3, max(1, k - 1), k + 34)

    def recount(self, objects):
        """Count, offsets and length for another list of objects; the bytes behind the chart's new end stay."""
        _, nested, points, _, at, _, end, word = struct.unpack_from("<8I", self.chart)
        later, new_at = self.chart[at:end], 80 + sum(map(len, objects))
        points_at = new_at + 24 * nested
        counts = struct.pack("<8I", len(objects), nested, points, 80, new_at, points_at, points_at + 16 * points, word)
        chart = counts + self.chart[32:80] + b"".join(objects) + later
        self.chart = chart + self.chart[len(chart):]

    def objects(self):
        n, size = struct.unpack_from("<I", self.chart)[0], self.second.size_of(self.chart)
        return [self.chart[80 + size * i:80 + size * (i + 1)] for i in range(n)]

    def inserted(self, k, obj):
        objects, first = self.objects(), max(1, k)
        for table in (self.records, self.values):
            table[first + 1:len(objects) + 1] = table[first:len(objects)]
        self.recount(objects[:k] + [obj] + objects[k:])
        self.fill(first, max(k + 3, 4), max(1, k - 1), k + 34)

    def removed(self, k):
        objects, first = self.objects(), max(1, k)
        for table in (self.records, self.values):
            table[first:len(objects) - 1] = table[first + 1:len(objects)]
        self.recount(objects[:k] + objects[k + 1:])
        self.fill(first, max(k + 2, 3), max(1, k - 1), k + 33)

    def words(self, j):
        """What an entry holds, as it is shown."""
        second, row = self.second, self.records[j]
        hx, h32 = second.hx, lambda x: second.h32(second.to32(x))
        flag = lambda x: "0" if x == 0 else "1"
        return ([*map(hx, row[:8]), flag(row[14]), h32(row[8]), h32(row[9]), hx(row[10]), hx(row[11]), flag(row[15]), hx(row[12]), hx(row[13])],
                [*map(hx, self.values[j])], [*map(hx, row)])

    def record_line(self, j):
        return " ".join(["record", str(j), *self.words(j)[0]])

    def value_line(self, j):
        return " ".join(["value", str(j), *self.words(j)[1]])

    def entry_line(self, j):
        words = self.words(j)
        return f"entry {j} kept" if words == self.unwritten[j] else " ".join(["entry", str(j), *words[0], *words[1]])

    def seen(self):
        """Settings, and the records as the evaluators see them."""
        s, objs = self.second.read(self.chart)
        return s, Rows(objs, self.records)

    def parts_line(self, j):
        both = [self.second.aim_parts(*self.seen(), j, sliders) for sliders in (True, False)]
        return " ".join(["parts", str(j), *(w for p in both for w in [*map(self.second.hx, p[:8]), str(p[8])])])

    def rhythm_line(self, j):
        value, compared = self.second.rhythm_counted(*self.seen(), j)
        return f"rhythm {j} {self.second.hx(value)} {compared}"

    def totals_line(self):
        second = self.second
        s, objs = second.read(self.chart)
        times = [None]
        for last, o in zip(objs, objs[1:]):
            delta = (o.start - last.start) / s.clock
            times.append(SimpleNamespace(start=o.start / s.clock, delta=delta, adjusted=second.larger(delta, 25.0)))
        values = [[Real(x) for x in self.values[j]] for j in range(1, len(objs))]
        sums = [second.skill(times, values, *k)[1] if values else 0.0 for k in second.SKILLS]
        return " ".join(["totals", *map(second.hx, sums)])


class Rows:
    """The records that the evaluators see, from the table's rows."""

    def __init__(self, objs, rows):
        self.objs, self.rows, self.seen = objs, rows, {}

    def __len__(self):
        return len(self.objs)

    def __getitem__(self, j):
        if j not in self.seen:
            self.seen[j] = foreign.record_of(j, self.objs[j], self.rows[j])
        return self.seen[j]


def patterns(r):
    """80 numbers that fill both tables over and over."""
    yield [-1234.5] * 80
    yield [math.nan] * 80
    yield [math.inf] * 80
    yield [-1e308] * 80
    yield [2.0] * 80
    yield [(math.nan, 1.0)[i % 2] for i in range(80)]
    yield [(math.inf, -1e308, 0.0, -0.0, 5e-324)[i % 5] for i in range(80)]
    yield [2.0 if i % 16 > 13 else r.uniform(20, 400) for i in range(80)]
    yield [r.choice(foreign.WILD) for _ in range(80)]


def packed(r, lent, line):
    """A call as the program reads it, and the length of the buffer that is lent from then on."""
    def table(entries, size):
        most = size * ENTRIES
        return struct.pack("<I", min(most, size * int(entries) + r.randrange(size)))

    def chunk(data):
        return struct.pack("<I", len(data)) + data

    name, *w = line.split()
    buffer = lent
    if name == "buffer":
        buffer = lent = int(w[0])
    elif name in EDITS and len(w) > 3 + (name != "remove"):
        buffer = int(w.pop())
    if buffer > MEMORY:
        sys.exit(f"a longer memory is needed: {line}")
    out = struct.pack("<2I", KINDS[name], buffer)
    if name == "open":
        out += table(w[0], 16) + table(w[1], 5)
    elif name in EDITS:
        obj = b"" if name == "remove" else object_bytes(w[1])
        out += struct.pack("<Q", int(w[0])) + chunk(obj) + table(w[-2], 16) + table(w[-1], 5)
    elif name in OF_RECORDS:
        out += struct.pack("<Q", int(w[0])) + table(w[1], 16)
    elif name == "value":
        out += struct.pack("<Q", int(w[0])) + table(w[1], 5)
    elif name == "totals":
        out += table(w[0], 5) + struct.pack("<4I", *map(int, w[2:]))
    elif name == "poke":
        out += struct.pack("<I", int(w[0])) + chunk(object_bytes(w[1]))
    elif name == "entry":
        out += struct.pack("<I", int(w[0]))
    return out, lent


def most_objects(chart, lines, told):
    """The largest N on the way."""
    n = most = struct.unpack_from("<I", chart)[0] if len(chart) >= 80 else 0
    for line, answer in zip(lines, told):
        if answer == "accepted":
            name = line.split()[0]
            n += (name == "insert") - (name == "remove")
            most = max(most, n)
    return min(most, ENTRIES)


def packed_script(r, chart, pattern, lines, told):
    """A script as the program reads it, for the answers that it gets."""
    lent, calls = len(chart), []
    for line in lines:
        call, lent = packed(r, lent, line)
        calls.append(call)
    end = struct.pack("<2I", lent, most_objects(chart, lines, told))
    return struct.pack(f"<I{len(chart)}s80dI", len(chart), chart, *pattern, len(lines)) + b"".join(calls) + end


def unpacked(data):
    """The scripts of an input, for one player or for two: chart, pattern and lines; a table has as many entries as it has whole ones."""
    at = lent = 0

    def take(form):
        nonlocal at
        at += struct.calcsize(form)
        return struct.unpack_from(form, data, at - struct.calcsize(form))

    def chunk():
        return take(f"{take('<I')[0]}s")[0]

    def tables():
        return [n // size for n, size in zip(take("<2I"), (16, 5))]

    def call():
        nonlocal lent
        kind, buffer = take("<2I")
        if kind == SETTINGS:
            return f"settings {chunk().hex() or '-'}"
        players = ["both"] if kind >= FOR_BOTH else ["second"] if kind >= FOR_SECOND else []
        if players:
            chunk()  # the settings that hold
        name = NAMES[kind % 16]
        if name == "open":
            w = tables()
        elif name in EDITS:
            w = [*take("<Q"), chunk().hex() or "-", *tables(), *(tables() if players else []), *[buffer] * (buffer != lent)]
            w = w[:1] + w[2:] if name == "remove" else w
        elif name in READINGS:
            w = [*take("<Q"), take("<I")[0] // (16 if name in OF_RECORDS else 5)]
        elif name == "totals":
            w = [take("<I")[0] // 5, "/", *take("<4I")]
        elif name == "poke":
            w = [*take("<I"), chunk().hex() or "-"]
        elif name == "entry":
            w = [*take("<I")]
        elif name == "buffer":
            w, lent = [buffer], buffer
        else:
            w = []
        return " ".join(map(str, [*players, name, *w]))

    while at < len(data):
        chart, pattern = chunk(), take("<80d")
        lent = len(chart)
        yield chart, list(pattern), [call() for _ in range(take("<I")[0])]
        take("<2I")


def answered(model, line, answer):
    """The answer to a call, worked out anew where the oracle leaves it open."""
    name, *w = line.split()
    if name == "open" and answer == "opened":
        model.fill(1, ENTRIES, 1, ENTRIES)
    elif name == "replace" and answer == "accepted":
        model.replaced(int(w[0]), object_bytes(w[1]))
    elif name == "insert" and answer == "accepted":
        model.inserted(int(w[0]), object_bytes(w[1]))
    elif name == "remove" and answer == "accepted":
        model.removed(int(w[0]))
    elif name == "poke":
        at, new = int(w[0]), object_bytes(w[1])
        model.chart = model.chart[:at] + new + model.chart[at + len(new):]
    elif name in (*READINGS, "totals", "entry") and not answer.startswith("refused"):
        own = model.totals_line() if name == "totals" else getattr(model, name + "_line")(int(w[0]))
        if answer not in ("carried-out", f"entry {w[0]} unknown", own):
            sys.exit(f"the model does not agree: {line}\n{answer}\n{own}")
        return own
    return answer


def answers(second, oracle, chart, pattern, lines, unopened):
    """The lines that a script must give, and how many of them are the model's alone."""
    with tempfile.NamedTemporaryFile() as lent:
        lent.write(chart)
        lent.flush()
        asked = subprocess.run([oracle, "script", lent.name, *["--unopened"] * unopened], input="\n".join(lines).encode(), capture_output=True, check=True)
    told = asked.stdout.decode().splitlines()
    if len(told) != len(lines) + 1:
        sys.exit(f"the oracle stopped at {told[-2:]}")
    model = Model(second, chart, pattern)
    wanted = [answered(model, line, answer) for line, answer in zip(lines, told)]
    return wanted + [told[-1], KEPT], sum(a == "carried-out" or a.endswith(" unknown") for a in told)


CIRCLE = struct.pack("<2d4f6I", 1000.0, 1000.0, 100.0, 100.0, *[0.0] * 2, *[0] * 6)


def every_place(chart, readings=("record", "value")):
    """A script for a chart that opens: in a buffer with room for one object more, a copy put in and taken out again at every place, then all
    objects taken out and put back from either end; after each edit all that can be read is read."""
    n, size = struct.unpack_from("<I", chart)[0], chart_tool.object_size(chart)
    circle = (CIRCLE + bytes(8))[:size].hex()
    objects = [chart[80 + size * k:80 + size * (k + 1)].hex() for k in range(n)]
    lines = [f"buffer {len(chart) + size}", f"open {n} {n}"]

    def edit(k, obj, m):
        """A removal where there is no object; m is N afterwards."""
        lines.append(f"insert {k} {obj} {m} {m}" if obj else f"remove {k} {m + 1} {m + 1}")
        lines.extend(f"{word} {j} {m}" for j in range(1, m) for word in readings)
        lines.extend([f"totals {m} / 8192 8192 8192 8192", f"entry {m}", f"entry {m + 1}", "chart"])

    for k in range(n + 1):
        edit(k, (objects[k:] + objects[-1:] + [circle])[0], n + 1)
        lines.append(f"insert {k} {circle} {n + 2} {n + 2}")
        edit(k, None, n)
    for front in (True, False):
        for m in reversed(range(n)):
            edit(0 if front else m, None, m)
        lines.append("remove 0 0 0")
        for m in range(n):
            edit(m if front else 0, objects[m] if front else objects[n - 1 - m], m + 1)
    return lines


def few_stated(chart):
    """Whether a chart has stated lengths and no more than three objects."""
    return chart_tool.object_size(chart) == 64 and struct.unpack_from("<I", chart)[0] < 4


def details(chart):
    """A script for a chart of three objects or more that opens: aim with its parts and the rhythm value at every place, after edits of each kind, where 1, 7 or 8
    is met, and where another hand has written what meets 2 to 6, which no reading tries."""
    n, size = struct.unpack_from("<I", chart)[0], 56
    objects = [chart[80 + size * k:80 + size * (k + 1)] for k in range(n)]
    sliders = [k for k, o in enumerate(objects) if o[32] == 1 and k != n // 2]
    lines = [f"buffer {len(chart) + size}", f"open {n + 1} {n + 1}"]

    def read(m):
        lines.extend(f"{word} {j} {m}" for j in range(1, m) for word in DETAILS)

    def poked(at, new):
        lines.append(f"poke {at} {new.hex()}")
        read(n)
        lines.append(f"poke {at} {chart[at:at + len(new)].hex()}")

    read(n)
    lines.extend(f"{word} {place} {m}" for word in DETAILS for place, m in ((0, n), (n, n), (2 ** 32 + 1, n), (2 ** 64 - 1, n), (1, n - 1), (n, n - 1), (1, 0)))
    moved = bytearray(objects[n // 2])
    struct.pack_into("<2f", moved, 16, 300.0, 40.0)
    lines.append(f"replace {n // 2} {moved.hex()} {n} {n}")
    read(n)
    lines.append(f"insert 1 {objects[0].hex()} {n + 1} {n + 1}")
    read(n + 1)
    lines.append(f"remove 0 {n + 1} {n + 1}")
    read(n)
    lines.append(f"poke 28 {struct.pack('<I', 7).hex()}")
    lines.extend(f"{word} {place} {m}" for word in DETAILS for place, m in ((1, n), (n, n), (1, 0)))
    lines.append(f"poke 28 {chart[28:32].hex()}")
    poked(32, struct.pack("<d", 1000.0))
    poked(48, struct.pack("<d", 1e9))
    poked(80 + size * 1 + 16, struct.pack("<f", 200_000.0))
    for k in sliders[:1]:
        poked(80 + size * k + 40, chart[4:8])
    poked(80 + size * 1, struct.pack("<2d", 9e5, 9e5))
    poked(80 + size * (n - 1), struct.pack("<2d", 1e7, 1e7))
    return lines


def scripts(mkscripts, second, chart, seed, calls):
    """The scripts on a chart, and whether each is on tables that were never filled."""
    if second.conditions(chart) is None:
        if len(chart) < 80 + 56 * 4 or few_stated(chart):
            yield every_place(chart), False
        yield mkscripts.script(chart, f"{seed}/False", calls)[0], False
    lines = mkscripts.script(chart, f"{seed}/True", calls // 3)[0]
    lines.remove(next(line for line in lines if line.startswith("open ")))
    yield lines, True


def with_details(mkscripts, chart, seed, calls, pure=False):
    """A script with the two readings among its calls; other calls about values are left out."""
    return [line for line in mkscripts.script(chart, seed, calls, pure=pure, values=True)[0] if line.split()[0] in KINDS]


def detail_scripts(mkscripts, chart, seed, calls):
    """The scripts of the two readings on a chart that opens; the last one on tables that were never filled."""
    yield details(chart), False
    yield with_details(mkscripts, chart, f"{seed}/details", calls), False
    n, = struct.unpack_from("<I", chart)
    yield [f"{word} {j} {n}" for j in range(1, n) for word in DETAILS], True


def write(oracle, out, how, seed, calls, charts, made=None):
    """Writes (w) or appends (a) the scripts on charts to both files of a folder, those of `made` where it is given; the modules of the oracle's scripts are found already."""
    import mkscripts
    import second
    r = random.Random(f"scripts/{seed}")
    met, n_scripts, n_calls, n_open = collections.Counter(), 0, 0, 0
    fillings = list(patterns(r))
    with open(f"{out}/stdin", how + "b") as given, open(f"{out}/stdout", how) as wanted:
        for chart in charts:
            for lines, unopened in made(mkscripts, chart, seed, calls) if made else scripts(mkscripts, second, chart, seed, calls):
                pattern = fillings[n_scripts % len(fillings)]
                told, left = answers(second, oracle, chart, pattern, lines, unopened)
                given.write(packed_script(r, chart, pattern, lines, told))
                wanted.write("\n".join(told) + "\n")
                n_scripts, n_calls, n_open = n_scripts + 1, n_calls + len(lines), n_open + left
                for line, answer in zip(lines, told):
                    met[line.split()[0] + " " + (answer[:9] if answer.startswith("refused") else "done")] += 1
    print(n_scripts, "scripts,", n_calls, "calls,", n_open, "answered by the model alone", dict(sorted(met.items())), file=sys.stderr)


def main():
    if len(sys.argv) < 7:
        sys.exit(__doc__)
    oracle, folder, out, *rest = sys.argv[1:]
    how, (seed, calls, *names) = ("a", rest[1:]) if rest[0] in ("--add", "--details") else ("w", rest)
    sys.path.insert(0, folder)
    charts = []
    for name in names:
        with open(name, "rb") as file:
            charts.append(file.read())
    write(oracle, out, how, seed, int(calls), charts, detail_scripts if rest[0] == "--details" else None)


if __name__ == "__main__":
    main()
