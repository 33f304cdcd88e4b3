"""Lists of calls for the drivers replay.c and replay.mjs, which carry them out on a memory of SIZE bytes and write what was answered.

A list is a row of steps, little-endian, each a u32 that says which and what follows:
  0 a case ends; its answers are written, their length (u32) first
  1 put: address and length (u32), the bytes
  2 fill: address, count (u32), a number (f64)
  3 call: the number of the call in CALLS (u32), its arguments (u64 each), an address for a pointer. The answer (u64) is put to the case's answers
  4 show: address and length (u32); the bytes there are put to the case's answers
"""
import random
import struct

import chart
import seeded

# What each call takes: p a pointer, n a number of 64 bits, w one of 32. The drivers have the same order.
SLICE, FOUR = "pn", "pn" * 4
CALLS = {
    "open": SLICE * 3, "replace": SLICE + "n" + SLICE * 3, "insert": SLICE + "n" + SLICE * 3, "remove": SLICE + "n" + SLICE * 2,
    "read_record": SLICE * 2 + "n" + SLICE, "read_values": SLICE * 2 + "n" + SLICE, "read_aim_parts": SLICE * 2 + "n" + SLICE, "read_rhythm": SLICE * 2 + "n" + SLICE,
    "totals": SLICE * 2 + FOUR + SLICE, "totals_to": SLICE * 2 + "n" + FOUR + SLICE, "totals_while_playing": SLICE * 3 + FOUR, "counts": SLICE * 2 + FOUR + SLICE,
    "ratings": SLICE * 2 + "ww" + SLICE + FOUR + SLICE,
}
EDITS = ("replace", "insert", "remove")
# For the second player settings come behind the chart, and an edit for both takes that player's tables too.
CALLS |= {f"{name}_both": SLICE + CALLS[name] + SLICE * 2 for name in EDITS} | {f"{name}_as": SLICE + takes for name, takes in CALLS.items() if name not in EDITS}
# A pack's charts are ranked by a list of their offsets, u64 each.
CALLS |= {"rank": SLICE * 2 + "ww" + SLICE * 3 + FOUR, "join": SLICE * 2 + "nww" + SLICE * 3 + FOUR}
NUMBER_OF = {name: i for i, name in enumerate(CALLS)}
TAKES = list(CALLS.values())
END, PUT, FILL, CALL, SHOW = range(5)

# The memory: a buffer for the chart, an object and settings, numbers that come with a call, an answer, both tables, four slices of scratch, a list, the second player's tables.
ENTRIES, SCRATCH, MEMORY = 1024, 9216, 65_536
CHART = 0
OBJECT = CHART + MEMORY
SETTINGS = OBJECT + 2048
NUMBERS = OBJECT + 4096
OUT = NUMBERS + 64
RECORDS = OUT + 192
VALUES = RECORDS + 8 * 16 * ENTRIES
SCRATCHES = [VALUES + 8 * 5 * ENTRIES + 8 * SCRATCH * i for i in range(4)]
LIST = SCRATCHES[3] + 8 * SCRATCH
SECOND_RECORDS = LIST + 8 * 4 * (ENTRIES + 1)
SECOND_VALUES = SECOND_RECORDS + 8 * 16 * ENTRIES
SIZE = SECOND_VALUES + 8 * 5 * ENTRIES
MOST = 600  # objects that a case looks at
UNUSED = 7.5
WIDTHS = {"read_record": 16, "read_values": 5, "read_aim_parts": 18, "read_rhythm": 2, "totals": 4, "totals_to": 4, "counts": 7, "ratings": 4}
WIDTHS |= {f"{name}_as": width for name, width in WIDTHS.items()}


class Case:
    """The steps of one case."""

    def __init__(self, name):
        self.name, self.steps = name, bytearray()

    def put(self, at, b):
        self.steps += struct.pack("<3I", PUT, at, len(b)) + b

    def fill(self, at, count, x):
        self.steps += struct.pack("<3Id", FILL, at, count, x)

    def show(self, at, length):
        self.steps += struct.pack("<3I", SHOW, at, length)

    def call(self, name, *given):
        """Slices are pairs; where the call has an answer of its own, that is shown."""
        words = []
        for x in given:
            words += x if isinstance(x, tuple) else (x,)
        if name in WIDTHS:
            words += OUT, WIDTHS[name]
        self.steps += struct.pack(f"<2I{len(words)}Q", CALL, NUMBER_OF[name], *words)
        if name in WIDTHS:
            self.show(OUT, 8 * WIDTHS[name])


def walk(steps):
    """What each piece of a case's answers is: its offset, its length, whether a call's answer, bytes or numbers, and words for it."""
    at = offset = 0
    while at < len(steps):
        what, a, b = struct.unpack_from("<3I", steps, at)
        if what == PUT:
            at += 12 + b
        elif what == FILL:
            at += 20
        elif what == CALL:
            given = struct.unpack_from(f"<{len(TAKES[a])}Q", steps, at + 8)
            yield offset, 8, "call", f"{list(CALLS)[a]}{given}"
            at, offset = at + 8 + 8 * len(given), offset + 8
        else:
            yield offset, b, "bytes" if a < NUMBERS else "numbers", f"what stands at {a}"
            at, offset = at + 12, offset + b


def scratch(lengths=(8192,) * 4):
    return list(zip(SCRATCHES, lengths))


def count_of(b):
    return min(struct.unpack_from("<I", b)[0], MOST) if len(b) >= 4 else 0


# ---------------------------------------------------------------- charts

def figures(r, case, opened, n):
    """The other figures, one past the last object and one in a list too short, and three ratings, some with a number that is not finite."""
    for m in (0, n // 2, n, n + 1):
        case.call("totals_to", *opened, m, *scratch())
    case.call("totals_while_playing", *opened, (LIST, 4 * (n + 1)), *scratch())
    case.show(LIST, 32 * (n + 1))
    case.call("totals_while_playing", *opened, (LIST, 4 * n), *scratch())
    for _ in range(3):
        numbers = [seeded.between(r, -1, 11.5), seeded.between(r, -1, 11.5), seeded.between(r, 0.5, 1.5), r.random(), seeded.between(r, 0, 3)]
        if r.random() < 0.1:
            numbers[seeded.below(r, 5)] = float("inf")
        case.put(NUMBERS, struct.pack("<5d", *numbers))
        case.call("ratings", *opened, seeded.below(r, 128), seeded.below(r, 4), (NUMBERS, 5), *scratch())


def edits(r, case, b, n):
    """One replacement, insertion and removal, in a buffer with room for an object, and both tables afterwards."""
    size = chart.object_size(b)
    lent, tables = (CHART, len(b) + size), ((RECORDS, 16 * (n + 1)), (VALUES, 5 * (n + 1)))
    for name in ("replace", "insert", "remove"):
        place = seeded.below(r, n + 1)
        moved = bytearray(b[chart.FRONT + size * place:][:size].ljust(size, b"\0"))
        if name == "replace":
            struct.pack_into("<2f", moved, 16, seeded.between(r, 0, 512), seeded.between(r, 0, 384))
        case.put(OBJECT, bytes(moved))
        case.call(name, lent, place, *([] if name == "remove" else [(OBJECT, size)]), *tables)
    case.show(RECORDS, 128 * (n + 1))
    case.show(VALUES, 40 * (n + 1))
    case.call("totals", lent, tables[1], *scratch())


def second_player(r, case, b, n):
    """The chart as it stands for a second player, at another clock rate, some with settings a byte short: opened, read, and edited for both; then that player's tables."""
    size, settings = chart.object_size(b), (SETTINGS, 47 if r.random() < 0.05 else 48)
    lent, tables = (CHART, len(b) + size), ((SECOND_RECORDS, 16 * (n + 1)), (SECOND_VALUES, 5 * (n + 1)))
    case.put(SETTINGS, struct.pack("<d", 0.5 * (1 + seeded.below(r, 5))) + b[40:80].ljust(40, b"\0"))
    case.fill(SECOND_RECORDS, 16 * (n + 2), UNUSED)
    case.fill(SECOND_VALUES, 5 * (n + 2), UNUSED)
    case.call("open_as", lent, settings, *tables)
    for name, table in (("read_record", 0), ("read_values", 1), ("read_aim_parts", 0), ("read_rhythm", 0)):
        case.call(f"{name}_as", lent, settings, tables[table], n // 2)
    for name, given in (("totals", ()), ("counts", ()), ("totals_to", (n // 2,))):
        case.call(f"{name}_as", lent, settings, tables[1], *given, *scratch())
    case.call("totals_while_playing_as", lent, settings, tables[1], (LIST, 4 * (n + 2)), *scratch())
    case.call("ratings_as", lent, settings, tables[1], seeded.below(r, 128), 0, (NUMBERS, 5), *scratch())
    case.put(OBJECT, b[chart.FRONT + size * (n // 2):][:size].ljust(size, b"\0"))
    both = ((RECORDS, 16 * (n + 1)), (VALUES, 5 * (n + 1)), *tables)
    case.call("replace_both", lent, settings, n // 2, (OBJECT, size), *both)
    case.call("insert_both", lent, settings, n // 2, (OBJECT, size), *both)
    case.call("remove_both", lent, settings, 0, *both)
    case.show(SECOND_RECORDS, 128 * (n + 1))
    case.show(SECOND_VALUES, 40 * (n + 1))


def of_chart(r, name, b):
    """A case: the chart is opened, all of its values, details and figures are read, three edits follow, and a second player."""
    case, n = Case(name), count_of(b)
    case.put(CHART, b + bytes(chart.STATED_OBJECT.size))
    case.fill(RECORDS, 16 * (n + 2), UNUSED)
    case.fill(VALUES, 5 * (n + 2), UNUSED)
    lent, records, values = (CHART, len(b)), (RECORDS, 16 * n), (VALUES, 5 * n)
    case.call("open", lent, records, values)
    case.show(VALUES, 40 * n)
    case.call("totals", lent, values, *scratch())
    case.call("counts", lent, values, *scratch())
    case.show(RECORDS, 128 * n)
    for place in range(1, n):
        case.call("read_aim_parts", lent, records, place)
        case.call("read_rhythm", lent, records, place)
    for place in (0, n // 2, n):
        case.call("read_record", lent, records, place)
        case.call("read_values", lent, values, place)
    figures(r, case, (lent, values), n)
    edits(r, case, b, n)
    second_player(random.Random(name), case, b, n)
    return case


def digits(answers, at, count):
    return [f"{bits:016X}" for bits in struct.unpack_from(f"<{count}Q", answers, at)]


def listed(b, answers):
    """The lister's lines for a chart, from the first answers of its case."""
    code, n = struct.unpack_from("<Q", answers)[0], count_of(b)
    if code:
        return f"refused {code >> 32} {code & 0xFFFFFFFF}\n"
    values, end = digits(answers, 8, 5 * n), 8 + 40 * n
    lines = [[f"{j}", *values[5 * j:5 * j + 5]] for j in range(1, n)]
    lines += [["totals", *digits(answers, end + 8, 4)], ["counts", *digits(answers, end + 48, 7)]]
    return "".join(" ".join(line) + "\n" for line in [["objects", f"{n}"], *lines])


# ---------------------------------------------------------------- the stored scripts

class Stored:
    """Numbers and bytes of a stored file, one after the other."""

    def __init__(self, data):
        self.data, self.at = data, 0

    def take(self, n):
        self.at += n
        return self.data[self.at - n:self.at]

    def word(self):
        return int.from_bytes(self.take(4), "little")

    def long(self):
        return int.from_bytes(self.take(8), "little")

    def sized(self):
        return self.take(self.word())


def stored_charts(data):
    s = Stored(data)
    while s.at < len(data):
        yield s.sized()


def step_of(case, s):
    """One call of a script, as crates/test_scripts says how they are stored."""
    kind, lent = s.word(), (CHART, min(s.word(), MEMORY))
    records, values = (lambda: (RECORDS, min(s.word(), 16 * ENTRIES))), (lambda: (VALUES, min(s.word(), 5 * ENTRIES)))
    if kind == 0:
        case.call("open", lent, records(), values())
    elif kind in (1, 7, 8):
        place, obj = s.long(), s.sized()
        case.put(OBJECT, obj)
        case.call({1: "replace", 7: "insert", 8: "remove"}[kind], lent, place, *([] if kind == 8 else [(OBJECT, len(obj))]), records(), values())
    elif kind in (2, 11, 12):
        place = s.long()
        case.call({2: "read_record", 11: "read_aim_parts", 12: "read_rhythm"}[kind], lent, records(), place)
    elif kind == 3:
        place = s.long()
        case.call("read_values", lent, values(), place)
    elif kind == 4:
        table, lengths = values(), [min(s.word(), SCRATCH) for _ in range(4)]
        case.call("totals", lent, table, *scratch(lengths))
    elif kind == 5:
        at, b = s.word(), s.sized()
        case.put(CHART + at, b[:max(lent[1] - at, 0)])
    elif kind == 10:
        place = min(s.word(), ENTRIES - 1)
        case.show(RECORDS + 128 * place, 128)
        case.show(VALUES + 40 * place, 40)
    elif kind == 6:
        case.show(*lent)


def of_scripts(data):
    """A case for each script, and at its end the whole buffer and both tables."""
    s, number = Stored(data), 0
    while s.at < len(data):
        case, b, number = Case(f"stored script {number}"), s.sized(), number + 1
        case.put(CHART, b + bytes(i % 251 for i in range(len(b), MEMORY)))
        pattern = s.take(640)
        case.put(RECORDS, (pattern * (16 * ENTRIES // 80 + 1))[:128 * ENTRIES])
        case.put(VALUES, (pattern * (5 * ENTRIES // 80 + 1))[:40 * ENTRIES])
        for _ in range(s.word()):
            step_of(case, s)
        s.take(8)
        case.show(CHART, MEMORY)
        case.show(RECORDS, 128 * ENTRIES)
        case.show(VALUES, 40 * ENTRIES)
        yield case


# ---------------------------------------------------------------- the stored packs

def request_of(case, s, pack):
    """One request of a pack, as crates/test_packs says how they are stored."""
    kind = s.word()
    if kind == 2:
        place = min(s.word(), ENTRIES - 1)
        case.show(RECORDS + 128 * place, 128)
        case.show(VALUES + 40 * place, 40)
        return
    first, asked, n = s.word(), s.take(48), s.word()
    case.put(NUMBERS, asked[8:])
    case.put(LIST, s.take(8 * n))
    records, values, *lengths = (min(s.word(), most) for most in (16 * ENTRIES, 5 * ENTRIES, *(SCRATCH,) * 4))
    for at, length in scratch(lengths):
        case.fill(at, length, UNUSED)
    given = *struct.unpack_from("<2I", asked), (NUMBERS, 5), (RECORDS, records), (VALUES, values), *scratch(lengths)
    case.call(*(["join", pack, (LIST, n), first] if kind == 1 else ["rank", pack, (LIST, n)]), *given)
    case.show(LIST, 8 * n)


def of_packs(data):
    """A case for each pack, and at its end both tables."""
    s, number = Stored(data), 0
    while s.at < len(data):
        case, b, number = Case(f"stored pack {number}"), s.sized(), number + 1
        case.put(CHART, b)
        case.fill(RECORDS, 16 * ENTRIES, UNUSED)
        case.fill(VALUES, 5 * ENTRIES, UNUSED)
        for _ in range(s.word()):
            request_of(case, s, (CHART, len(b)))
        case.show(RECORDS, 128 * ENTRIES)
        case.show(VALUES, 40 * ENTRIES)
        yield case
