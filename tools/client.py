#!/usr/bin/env python3
"""What the clients must print for a chart, by the oracle.

    client.py ORACLE CHART > OUT     OUT is clients/NAME.out for clients/NAME.chart

ORACLE is the comparison program built from the customer's Rust, asked with the orders in ORDERS that the library obeys. The calls are those of clients/client.c, in a buffer with room for
one object more: an opening, a thousand drags of the middle object, a copy of it put in, two objects taken out, and readings before, between and after; then edits for two players. The oracle
knows one player: the second is a chart with other settings in its header, to which the same edits are made.
"""
import collections
import math
import struct
import subprocess
import sys
import tempfile

sys.dont_write_bytecode = True
import chart

SCRATCH = 8_192
READINGS = ("value", "record", "parts", "rhythm")  # refused, they are not printed


def drags(b, n, place):
    """Each drag as a line of a script."""
    size = chart.object_size(b)
    o = bytearray(b[80 + size * place:80 + size * (place + 1)])
    for step in range(1000):
        struct.pack_into("<f", o, 16, 200_000 if step % 10 == 9 else 100 + (step % 20 if step % 40 < 20 else 20 - step % 20))
        yield f"replace {n if step % 17 == 16 else place} {o[:40 if step % 23 == 22 else size].hex()} {n + 2} {n + 2}"


def bits(x):
    return struct.pack(">d", x).hex()


def figure(words, n):
    return f"{words} {n + 2} / " + " ".join([str(SCRATCH)] * 4)


def rated(mods, strength, scale, *numbers):
    return " ".join(["ratings", str(mods), *map(bits, numbers), strength, scale])


def shown(n, place):
    """n is that of the opening, by which the tables are long enough."""
    figures = ("totals", "counts", f"prefix {place}", rated(1 << 3 | 1 << 4, "-", bits(2.0), 9.5, 8.0, 1.14))
    return [*(f"{word} {place} {n + 2}" for word in READINGS), *(figure(words, n) for words in figures)]


def played(n, now):
    """The totals while playing of as many objects as there are now, and three calls that are refused."""
    return [figure(words, n) for words in (f"prefixes {now + 1}", f"prefixes {now}", f"prefix {now + 1}", rated(0, "-", "-", 9.5, 8.0, math.inf))]


def calls(b, n, place):
    """Those up to the last drag, and those after it."""
    last, size = [], chart.object_size(b)

    def dragged():
        yield from [f"buffer {len(b) + size}", f"open {n + 2} {n + 2}", *shown(n, place), *played(n, n)]
        for step, line in enumerate(drags(b, n, place)):
            yield line
            if len(line.split()[2]) == 2 * size and int(line.split()[1]) == place and step % 10 != 9:
                last[:] = [line.split()[2]]
            if step % 250 == 0:
                yield from shown(n, place)

    first = list(dragged())
    put_in, take_out = f"insert {place} {last[0]} {n + 2} {n + 2}", "remove {} " + f"{n + 2} {n + 2}"
    return first, [*shown(n, place), put_in, *shown(n, place), put_in, take_out.format(0), *shown(n, place), take_out.format(place - 1),
                   take_out.format(n - 1), *shown(n, place - 1), *played(n, n - 1)]


def wide(bits):
    return struct.pack(">d", struct.unpack(">f", bytes.fromhex(bits))[0]).hex().upper()


def whole(digits):
    return struct.pack(">d", int(digits)).hex().upper()


def told(line, answer):
    """An answer as the clients print it; a record has its flags last, and all numbers are f64."""
    name, *w = answer.split()
    if name == "refused":
        return f"{line.split()[0]}: {answer}"
    if name == "prefix":
        return " ".join(["prefix", *w[1:]])
    if name == "record":
        place, *w = w
        return " ".join(["record", *w[:8], wide(w[9]), wide(w[10]), w[11], w[12], w[14], w[15], whole(w[8]), whole(w[13])])
    if name == "parts":
        return " ".join(["parts", *w[1:9], whole(w[9]), *w[10:18], whole(w[18])])
    if name == "rhythm":
        return " ".join(["rhythm", w[1], whole(w[2])])
    return " ".join(["values", *w[1:]]) if name == "value" else answer


def edited(line, answer):
    """The line of an opening or an edit; none for other calls."""
    what = {"open": "opening", "replace": "replacement", "insert": "insertion", "remove": "removal"}.get(line.split()[0])
    return what and f"{what}: {'carried out' if answer in ('opened', 'accepted') else answer}"


def printed(lines, answers):
    """The answers as the clients print them; readings that are refused are not."""
    return [edited(line, a) or told(line, a) for line, a in zip(lines, answers) if not (line.startswith(READINGS) and a.startswith("refused"))]


# ---------------------------------------------------------------- two players

class Player:
    """A chart under a player's settings, to which edits were made."""

    def __init__(self, oracle, b, settings, edits):
        self.oracle, self.b, self.edits = oracle, b[:32] + settings + b[80:], edits

    def ask(self, lines):
        """The answers to the lines, behind the edits, and the chart after them."""
        with tempfile.TemporaryDirectory() as folder:
            name, after = f"{folder}/chart", f"{folder}/after"
            with open(name, "wb") as file:
                file.write(self.b)
            script = "\n".join([*self.edits, *lines])
            done = subprocess.run([self.oracle, "script", name, after], input=script, capture_output=True, text=True, check=True)
            with open(after, "rb") as file:
                return done.stdout.splitlines()[len(self.edits):][:len(lines)], file.read()

    def show(self, lines):
        return printed(lines, self.ask(lines)[0])


def for_both(first, second, line):
    """The answer to an edit for both players; where it is accepted, it is made to both charts."""
    (answer,), (other,) = first.ask([line])[0], second.ask([line])[0]
    answer = other if answer == "accepted" else answer
    if answer == "accepted":
        first.edits, second.edits = first.edits + [line], second.edits + [line]
    return edited(line, answer)


def two_players(oracle, b, n, edits):
    """The lines of clients' two_players, after these edits."""
    place, tables, size = (n - 1) // 2, f"{n + 2} {n + 2}", chart.object_size(b)
    opening, shows = f"open {tables}", shown(n, place)
    clock, = struct.unpack_from("<d", b, 32)
    at_speed = lambda speed: struct.pack("<d", speed * clock) + b[40:80]
    late = lambda ms, now: f"replace {now - 1} {struct.pack('<2d', ms * clock, ms * clock).ljust(size, bytes(1)).hex()} {tables}"
    first, second = Player(oracle, b, b[32:80], edits), Player(oracle, b, at_speed(2), edits)
    stands = first.ask([])[1]
    now, moved = struct.unpack_from("<I", stands)[0], bytearray(stands[chart.FRONT + size * place:][:size])
    struct.pack_into("<f", moved, 16, 300)
    lines = ["second player at double speed", "opening: refused 2 0", *second.show([opening, *shows])]
    for line in (f"replace {place} {moved.hex()} {tables}", f"insert {place} {moved.hex()} {tables}", f"remove 0 {tables}", late(4e6, now)):
        lines.append(for_both(first, second, line))
    lines += [*first.show(shows), *second.show(shows), "second player at half speed"]
    second = Player(oracle, b, at_speed(0.5), first.edits)
    lines += [*second.show([opening]), for_both(first, second, late(2e6, now))]
    return [*lines, *first.show(shows), *second.show([*shows, figure(f"prefixes {now + 1}", n)])]


def main():
    if len(sys.argv) != 3:
        sys.exit(__doc__)
    oracle, name = sys.argv[1:]
    with open(name, "rb") as file:
        b = file.read()
    n, = struct.unpack_from("<I", b)
    first, after = calls(b, n, n // 2)
    answers = subprocess.run([oracle, "script", name], input="\n".join(first + after), capture_output=True, text=True, check=True).stdout.splitlines()
    if answers[1] != "opened":
        sys.exit(f"{name}: {answers[1]}")
    counts = collections.Counter(a.rpartition(" ")[0] or a for line, a in zip(first, answers) if line.startswith("replace"))
    dragged = [f"{'carried out' if a == 'accepted' else a}: {k} times" for a, k in sorted(counts.items())]
    read = [told(line, a) for line, a in zip(first, answers) if not line.startswith(("buffer", "open", "replace"))]
    rest = printed(after, answers[len(first):])
    edits = [line for line, a in zip(first + after, answers) if a == "accepted" or line.startswith(("buffer", "open"))]
    print("\n".join([f"objects {n}", "opening: carried out", *read, *dragged, *rest, *two_players(oracle, b, n, edits)]))


if __name__ == "__main__":
    main()
