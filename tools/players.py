#!/usr/bin/env python3
"""Scripts of calls for two players over one chart, for the program `test_players`, with the answers that they must get.

    players.py ORACLE SECOND DIR SEED CALLS CHARTS..     writes DIR/stdin and DIR/stdout

ORACLE and SECOND are those of tools/scripts.py, whose packing and model this uses; ORDERS must name order 8 too. A chart gets two scripts: one that is made below,
on wrong settings of either player and edits that one of the two refuses, and one of calls by chance from the oracle's mkedits.py.

The answers are the oracle's. Where it only says that a call is carried out, because a player's tables were made elsewhere or under other settings, two models of
tools/scripts.py answer, one for each player; where the oracle answers too, they must agree.
"""
import collections
import math
import random
import struct
import subprocess
import sys
import tempfile

sys.dont_write_bytecode = True
import chart as chart_tool
import scripts
from scripts import CIRCLE, ENTRIES, FOR_BOTH, FOR_SECOND, KEPT, KINDS, MEMORY, SETTINGS, object_bytes

SCRATCH = "/ 8192 8192 8192 8192"
READ = ("record", "value", "parts", "rhythm")


# ---------------------------------------------------------------- as the program reads them

def chunk(data):
    return struct.pack("<I", len(data)) + data


def packed_both(r, lent, settings, words):
    """An edit for both players."""
    name, place, *w = words
    obj = b"" if name == "remove" else object_bytes(w.pop(0))
    buffer = int(w.pop()) if len(w) > 4 else lent
    if buffer > MEMORY:
        sys.exit(f"a longer memory is needed: {words}")
    lengths = [min(size * ENTRIES, size * int(n) + r.randrange(size)) for n, size in zip(w, (16, 5, 16, 5))]
    return struct.pack("<2I", FOR_BOTH + KINDS[name], buffer) + chunk(settings) + struct.pack("<Q", int(place)) + chunk(obj) + struct.pack("<4I", *lengths)


def packed_calls(r, lent, lines):
    """The calls of a script, and the length of the buffer that is lent at its end."""
    settings, out = b"", []
    for line in lines:
        name, *w = line.split()
        if name == "settings":
            settings = object_bytes(w[0])
            call = struct.pack("<2I", SETTINGS, lent) + chunk(settings)
        elif name == "second":
            inner, _ = scripts.packed(r, lent, " ".join(w))
            kind, = struct.unpack_from("<I", inner)
            call = struct.pack("<I", FOR_SECOND + kind) + inner[4:8] + chunk(settings) + inner[8:]
        elif name == "both":
            call = packed_both(r, lent, settings, w)
        else:
            call, lent = scripts.packed(r, lent, line)
        out.append(call)
    return b"".join(out), lent


def packed_script(r, chart, pattern, lines, told):
    calls, lent = packed_calls(r, len(chart), lines)
    edits = [line.removeprefix("both ") for line in lines]
    end = struct.pack("<2I", lent, scripts.most_objects(chart, edits, told))
    return struct.pack(f"<I{len(chart)}s80dI", len(chart), chart, *pattern, len(lines)) + calls + end


# ---------------------------------------------------------------- answers

class Models:
    """A model for each player, over one memory."""

    def __init__(self, second, chart, pattern):
        self.first, self.second = (scripts.Model(second, chart, pattern) for _ in "12")
        self.settings = b""

    def answered(self, line, answer):
        name, _, rest = line.partition(" ")
        if name == "settings":
            self.settings = object_bytes(rest)
        elif name not in ("second", "both"):
            return scripts.answered(self.first, line, answer)
        elif len(self.settings) == 48:
            self.second.chart = self.first.chart[:32] + self.settings + self.first.chart[80:]
            answer = scripts.answered(self.second, rest, answer)
            if name == "both":
                scripts.answered(self.first, rest, answer)
        return answer


def answers(second, oracle, chart, pattern, lines):
    """The lines that a script must give, and how many of them are the models' alone."""
    with tempfile.NamedTemporaryFile() as lent:
        lent.write(chart)
        lent.flush()
        asked = subprocess.run([oracle, "script", lent.name, "--unopened"], input="\n".join(lines).encode(), capture_output=True, check=True)
    told = asked.stdout.decode().splitlines()
    if len(told) != len(lines) + 1:
        sys.exit(f"the oracle stopped at {told[-2:]}")
    models = Models(second, chart, pattern)
    wanted = [models.answered(line, answer) for line, answer in zip(lines, told)]
    return wanted + [told[-1], KEPT], sum(a == "carried-out" or a.endswith(" unknown") for a in told)


# ---------------------------------------------------------------- scripts

def by_chance(chart, seed, calls, pure=False):
    """A script of mkedits.py for two players; what the program has no kind for is left out."""
    import mkedits
    m = mkedits.Maker(chart, seed, calls, pure, False)
    m.two, m.values = True, True
    lent, settings, lines = len(chart), b"", []
    for line in m.script(calls):
        name, *w = line.split()
        inner = w[0] if name in ("second", "both") else name
        if name == "settings":
            settings = object_bytes(w[0])
        elif name == "buffer":
            lent = int(w[0])
        elif inner not in KINDS or (name == "second" and inner == "entry" and (len(settings) != 48 or lent < 80)):
            continue  # an entry is no call; without a second player's chart the oracle refuses to show it
        lines.append(line)
    return lines


def changed(settings, place, value):
    """Settings with another number: 0 to 4 the doubles, 5 the factor, 6 the flags."""
    s = list(struct.unpack("<5dfI", settings))
    s[place] = value
    return struct.pack("<5dfI", *s)


def wrong_settings(r, own):
    """Settings that the second player's opening refuses, of every kind."""
    yield from (b"", own[:47], own + b"\0", own[:32], own * 2)
    yield from (changed(own, 6, flags) for flags in (4, 7, 0x8000_0000, 0xFFFF_FFFF))
    yield from (changed(own, i, x) for i in range(6) for x in (math.nan, math.inf, 0.0, -1.0, 1e30))
    yield changed(changed(own, 6, 4), r.randrange(6), math.nan)


def right_settings(r, own):
    """Settings that no range refuses."""
    s = changed(own, 0, r.choice([0.5, 0.75, 1.0, 1.25, 1.5, 2.0, 4.0]))
    s = changed(s, 1, r.choice([20.0, 32.0, 36.48, 54.4]))
    s = changed(s, 2, r.choice([20.0, 66.0, 100.0]))
    return changed(s, 6, r.randrange(4))


class Writer:
    """Lines of a script, and the buffer as they leave it."""

    def __init__(self, second_calls, chart, r, room):
        self.calls, self.r, self.lines = second_calls, r, [f"buffer {len(chart) + room}"]
        self.b = chart + bytes(i % 251 for i in range(len(chart), len(chart) + room))
        self.own, self.size = chart[32:80], chart_tool.object_size(chart)
        self.settings = b""

    @property
    def n(self):
        return struct.unpack_from("<I", self.b)[0]

    def add(self, *lines):
        self.lines.extend(lines)

    def set(self, settings):
        self.settings = settings
        self.add(f"settings {settings.hex() or '-'}")

    def open_second(self):
        self.add(f"second open {self.n} {self.n}")

    def poke(self, at, new):
        self.b = self.b[:at] + new + self.b[at + len(new):]
        self.add(f"poke {at} {new.hex()}")

    def both(self, call, place, obj=b"", short=()):
        """An edit for both, with each table of `short` one entry shorter than it has to be; the buffer follows where both accept it."""
        need = self.n + (call == "insert")
        lengths = [max(0, need - 1) if i in short else need + self.r.choice([0, 0, 2]) for i in range(4)]
        self.add(" ".join(["both", call, str(place), *[obj.hex() or "-"] * (call != "remove"), *map(str, lengths)]))
        if len(self.settings) != 48:
            return
        views = self.b, self.b[:32] + self.settings + self.b[80:]
        after = [self.calls.edit(view, call, place, obj, lengths[2 * i:2 * i + 2]) for i, view in enumerate(views)]
        if all(isinstance(b, bytes) for b in after):
            self.b = after[0]

    def object(self, k):
        return self.b[80 + self.size * k:80 + self.size * (k + 1)]

    def at_time(self, time):
        """A circle."""
        return (struct.pack("<2d", time, time) + CIRCLE[16:] + bytes(8))[:self.size]

    def start(self, k):
        return struct.unpack_from("<d", self.b, 80 + self.size * k)[0]

    def moved(self, k):
        obj = bytearray(self.object(k))
        struct.pack_into("<2f", obj, 16, self.r.uniform(0, 512), self.r.uniform(0, 384))
        return bytes(obj)

    def read(self, k, count=2):
        """Readings and totals of either player, near a place."""
        n = self.n
        for player in ("", "second "):
            near = [j for j in (k - 1, k, k + 1, k + 2, n - 1) if 0 < j < n]
            self.add(*(f"{player}{self.r.choice(READ)} {self.r.choice(near)} {n}" for _ in range(count) if near))
            self.add(f"{player}totals {n} {SCRATCH}")

    def refusals(self):
        """Readings of the second player that 7 or 8 refuses, if nothing before does."""
        n = self.n
        word = self.r.choice(READ)
        self.add(f"second {word} 1 {max(0, n - 1)}", f"second {word} {n} {n}", f"second {word} 0 {n}")
        self.add(f"second totals {max(0, n - 1)} {SCRATCH}", f"second totals {n} / 8192 8192 8191 8192")

    def good_edits(self, k):
        """An edit of each kind that a chart takes."""
        k = min(k, self.n)
        self.both("insert", k, self.at_time(self.start(k) if k < self.n else self.start(k - 1) if k else 1000.0))
        self.read(k, 1)
        if self.n:
            k = min(k, self.n - 1)
            self.both("replace", k, self.moved(k))
            self.both("remove", k)
            self.read(k, 1)


def second_wrong(w):
    """The second player's settings are wrong, the first's are not: edits are refused by 1, 2 or what the first player's list says."""
    r, k = w.r, w.r.randrange(max(1, w.n))
    every = list(wrong_settings(r, w.own))
    for settings in r.sample(every[:5], 3) + r.sample(every[5:9], 1) + r.sample(every[9:], 3):
        w.set(settings)
        w.open_second()
        w.read(k, 1)
        w.refusals()
        w.both("remove", 0)
        w.both("insert", k, w.at_time(w.start(k) if w.n else 0.0), short=r.choice([(), (), (0,), (3,)]))
        w.both("replace", k, w.moved(k) if w.n else b"")
        w.both("replace", k, b"\0" * 55)
        w.both("replace", w.n, w.at_time(0.0))
        w.add("chart")


def first_wrong(w):
    """The header's settings are wrong, the second player's are not."""
    r, k = w.r, w.r.randrange(max(1, w.n))
    good = right_settings(r, w.own)
    for at, new in ((76, struct.pack("<I", 4)), (32, struct.pack("<d", r.choice([math.nan, 0.0, 1e9]))), (72, struct.pack("<f", math.inf))):
        w.set(good)
        w.poke(at, new)
        w.add(f"open {w.n} {w.n}")
        w.open_second()
        w.read(k)
        w.good_edits(k)
        w.set(r.choice(list(wrong_settings(r, w.own))))
        w.both("remove", 0)
        w.set(good)
        w.both("remove", 0, short=(2,))
        w.poke(at, w.own[at - 32:at - 32 + len(new)])
        w.read(k, 1)


def lengths_of_time(w):
    """Condition 6 under one clock rate and not under another; it stands before what the second player's settings would be refused by."""
    if w.n < 2 or w.start(w.n - 1) > 9e6:
        return
    r, last = w.r, w.n - 1
    was, far = w.object(last), w.at_time(max(w.start(last), min(1e7, w.start(1) + 1_500_000.0)))
    slow, fast = (changed(w.own, 0, x) for x in (0.25, 4.0))
    w.poke(32, struct.pack("<d", 1.0))
    w.add(f"open {w.n} {w.n}")
    w.set(slow)
    w.open_second()
    w.both("replace", last, far)
    w.both("insert", w.n, far)
    w.set(fast)
    w.open_second()
    w.both("replace", last, far)
    w.read(last)
    w.set(slow)
    w.open_second()
    w.both("remove", last)
    w.set(fast)
    w.poke(32, struct.pack("<d", 0.25))
    w.add(f"open {w.n} {w.n}", f"second open {w.n} {w.n}")
    for settings in (fast, slow, w.own[:47], changed(fast, 6, 9)):
        w.set(settings)
        w.both("remove", last, short=r.choice([(), (3,)]))
    w.set(fast)
    w.poke(32, struct.pack("<d", 4.0))
    w.add(f"open {w.n} {w.n}")
    w.both("replace", last, was)
    w.read(last)
    w.poke(32, w.own[:8])
    w.add(f"open {w.n} {w.n}")


def short_tables(w):
    """One table of the four is too short, alone and beside what the first player's list refuses."""
    r, k = w.r, w.r.randrange(max(1, w.n))
    good = w.at_time(w.start(k) if k < w.n else 0.0)
    for i in range(4):
        w.both("replace", k, good, short=(i,))
        w.both("insert", k, good, short=(i,))
        w.both("remove", k, short=(i,))
    w.both("insert", w.n + 1, good, short=(2, 3))
    w.both("replace", k, good[:-1], short=(3,))
    w.both("insert", k, w.at_time(-1.0), short=(2,))
    w.both("remove", w.n, short=(0, 2))
    w.read(k, 1)


def full_buffer(w):
    """Insertions until no bytes are free, and one after a removal."""
    r = w.r
    while True:
        n = w.n
        w.both("insert", n, w.at_time(w.start(n - 1) if n else 500.0))
        if w.n == n:
            break
        w.read(n, 1)
    w.both("insert", 0, w.at_time(0.0), short=(r.choice([2, 3]),))
    w.both("insert", 0, w.at_time(0.0), short=(r.choice([0, 1]),))
    w.both("remove", 0)
    w.both("insert", 0, w.at_time(0.0))
    w.add(f"entry {w.n}", f"second entry {w.n}", "chart")


def settings_between(w):
    """Edits, and the second player's settings changed and opened anew between them, which leaves the first player's tables alone."""
    r = w.r
    for _ in range(3):
        k = r.randrange(max(1, w.n))
        w.good_edits(k)
        w.set(right_settings(r, w.own))
        w.open_second()
        w.add(*(f"{player}entry {j}" for player in ("", "second ") for j in (1, w.n)))
        w.read(k)


PARTS = (second_wrong, first_wrong, lengths_of_time, short_tables, full_buffer, settings_between)


def made(chart, seed):
    """A script of all parts in some order, on a chart that opens."""
    import second_calls
    r = random.Random(f"players/{seed}")
    size = chart_tool.object_size(chart)
    w = Writer(second_calls, chart, r, r.choice([size, 2 * size, 2 * size + 1, 3 * size - 1]))
    good = right_settings(r, w.own)
    w.set(good)
    w.add(f"open {w.n} {w.n}")
    w.open_second()
    for part in r.sample(PARTS, len(PARTS)):
        part(w)
        w.set(good)
        w.open_second()
        w.read(r.randrange(max(1, w.n)), 1)
    return w.lines


def write(oracle, out, seed, calls, charts):
    import second
    r = random.Random(f"players/{seed}")
    met, n_scripts, n_calls, n_open = collections.Counter(), 0, 0, 0
    fillings = list(scripts.patterns(r))
    with open(f"{out}/stdin", "wb") as given, open(f"{out}/stdout", "w") as wanted:
        for i, chart in enumerate(charts):
            for lines in (made(chart, f"{seed}/{i}"), by_chance(chart, f"{seed}/{i}", calls, i % 3 == 0)):
                pattern = fillings[n_scripts % len(fillings)]
                told, left = answers(second, oracle, chart, pattern, lines)
                given.write(packed_script(r, chart, pattern, lines, told))
                wanted.write("\n".join(told) + "\n")
                n_scripts, n_calls, n_open = n_scripts + 1, n_calls + len(lines), n_open + left
                for line, answer in zip(lines, told):
                    words = line.split()
                    name = " ".join(words[:1 + (words[0] in ("second", "both"))])
                    met[name + " " + (answer[:9] if answer.startswith("refused") else "done")] += 1
    print(n_scripts, "scripts,", n_calls, "calls,", n_open, "answered by the models alone", dict(sorted(met.items())), file=sys.stderr)


def main():
    if len(sys.argv) < 7:
        sys.exit(__doc__)
    oracle, folder, out, seed, calls, *names = sys.argv[1:]
    sys.path.insert(0, folder)
    charts = []
    for name in names:
        with open(name, "rb") as file:
            charts.append(file.read())
    write(oracle, out, seed, int(calls), charts)


if __name__ == "__main__":
    main()
