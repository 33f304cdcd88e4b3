#!/usr/bin/env python3
"""Charts as text and as bytes, and what is wrong with one.

    chart.py to-bytes FILE.txt > CHART
    chart.py to-text CHART > FILE.txt
    chart.py explain FILE [--records ENTRIES] [--values ENTRIES]

The text form is described in docs/TEXT.md, the bytes in docs/FORMAT.md. A file whose name ends in .txt is text, any other is bytes; `-` is standard
input, as bytes (for to-bytes: as text). Text made from any bytes makes the same bytes again.

A file may go on behind the length that its header gives: the chart is then the first bytes of a longer buffer.

explain names the first condition that opening the chart meets, and says why in words; its status is 1 then, and 0 for a chart that opens.
A text that cannot be read is status 2, with its line.
"""
import argparse
import math
import re
import struct
import sys

# Every field is kept as the whole number that its bits make, so that no pattern is lost.
HEADER, SETTINGS = struct.Struct("<8I"), struct.Struct("<5Q2I")
OBJECT, NESTED, POINT = struct.Struct("<2Q10I"), struct.Struct("<Q4I"), struct.Struct("<2IQ")
STATED_OBJECT = struct.Struct("<2Q10IQ")  # an object with a stated length, as the word at 28 says
FRONT = HEADER.size + SETTINGS.size
KINDS, CIRCLE, SLIDER, SPINNER = ("circle", "slider", "spinner"), 0, 1, 2
ENTRIES, TAIL = ("tick", "repeat", "tail"), 2
WORDS = ("objects", "nested", "points", "objects-at", "nested-at", "points-at", "length", "reserved")
FLAGS = ("hidden", "autopilot")
STATED = "lengths stated"  # the line of a chart whose objects have a stated length, where no object shows one
# name, width, unit, lowest and highest
RANGES = (("clock-rate", 64, "", 0.25, 4), ("radius", 64, "px", 1, 200), ("hit-window", 64, "ms", 1, 400), ("preempt", 64, "ms", 1, 10_000),
          ("fade-in", 64, "ms", 1, 10_000), ("factor", 32, "", 0.25, 50))
LISTER_LIMIT = 32_768
F32_END = 2.0**128 - 2.0**103  # from here on a number rounds to infinity


class TextError(Exception):
    """A line that is not of the text form."""


class Chart:
    """The fields of a chart; `header` has the words that are not as the tables make them, `rest` the bytes behind the tables. An object's last
    field is its stated length; where `stated` is not set it is 0 and the bytes don't have it."""

    def __init__(self):
        self.settings, self.objects, self.nested, self.points = None, [], [], []
        self.header, self.rest, self.stated = {}, b"", False


# ---------------------------------------------------------------- numbers

def value(bits, width):
    return struct.unpack("<d", struct.pack("<Q", bits))[0] if width == 64 else struct.unpack("<f", struct.pack("<I", bits))[0]


def bits_of(x, width):
    return struct.unpack("<Q", struct.pack("<d", x))[0] if width == 64 else struct.unpack("<I", struct.pack("<f", x))[0]


def show(bits, width):
    """The shortest decimal that is read as these bits; 0x and the bits of a NaN or an infinity."""
    exponent = (0x7FF << 52) if width == 64 else (0xFF << 23)
    if bits & exponent == exponent:
        return f"0x{bits:0{width // 4}X}"
    x = value(bits, width)
    if x == int(x) and abs(x) < 1e15:
        return ("-" if math.copysign(1, x) < 0 else "") + str(abs(int(x)))
    if width == 64:
        return repr(x)
    decimals = (f"{x:.{digits}g}" for digits in range(1, 10))
    return next(s for s in decimals if abs(float(s)) < F32_END and bits_of(float(s), 32) == bits)


def read_float(text, width):
    """The bits of a decimal, rounded to the nearest, or those that 0x gives."""
    if text.startswith("0x"):
        if not re.fullmatch(rf"0x[0-9A-Fa-f]{{{width // 4}}}", text):
            raise TextError(f"{text} must have {width // 4} hex digits")
        return int(text, 16)
    if not re.fullmatch(r"[+-]?([0-9]+\.?[0-9]*|\.[0-9]+)([eE][+-]?[0-9]+)?", text):
        raise TextError(f"{text} is not a number")
    try:
        if math.isinf(float(text)):
            raise OverflowError
        return bits_of(float(text), width)
    except OverflowError:
        raise TextError(f"{text} is too large for {width} bits") from None


def read_word(text):
    if not re.fullmatch(r"[0-9]+|0x[0-9A-Fa-f]+", text):
        raise TextError(f"{text} is not a whole number")
    n = int(text, 16 if text.startswith("0x") else 10)
    if n >> 32:
        raise TextError(f"{text} is too large for 32 bits")
    return n


# ---------------------------------------------------------------- bytes

def object_form(word):
    """How an object is laid out where the word at 28 is this one; those of a wrong word are taken as the old ones."""
    return STATED_OBJECT if word == 1 else OBJECT


def object_size(b):
    """Bytes of an object of a chart."""
    return object_form(HEADER.unpack_from(b)[7] if len(b) >= HEADER.size else 0).size


def pack(c):
    """The bytes of a chart."""
    form = object_form(c.stated)
    sizes = (FRONT, form.size * len(c.objects), NESTED.size * len(c.nested), POINT.size * len(c.points))
    words = [len(c.objects), len(c.nested), len(c.points)] + [sum(sizes[:k]) for k in (1, 2, 3, 4)] + [int(c.stated)]
    for name, word in c.header.items():
        words[WORDS.index(name)] = word
    objects = [form.pack(*(o if c.stated else o[:12])) for o in c.objects]
    tables = objects + [NESTED.pack(*e) for e in c.nested] + [POINT.pack(*p) for p in c.points]
    return HEADER.pack(*words) + SETTINGS.pack(*c.settings) + b"".join(tables) + c.rest


def unpack(b):
    """The chart in bytes that have a header, as much of its tables as is there."""
    c, at, whole = Chart(), FRONT, True
    words = HEADER.unpack_from(b)
    c.settings = list(SETTINGS.unpack_from(b, HEADER.size))
    c.stated = words[7] == 1
    for form, table, count in ((object_form(words[7]), c.objects, words[0]), (NESTED, c.nested, words[1]), (POINT, c.points, words[2])):
        fits = min(count, (len(b) - at) // form.size) if whole else 0
        table += [form.unpack_from(b, at + form.size * i) for i in range(fits)]
        at += form.size * fits
        whole = whole and fits == count
    c.objects = [(*o, 0)[:13] for o in c.objects]
    c.rest = b[at:]
    made = HEADER.unpack_from(pack(c))
    c.header = {name: word for name, word, other in zip(WORDS, words, made) if word != other}
    return c


# ---------------------------------------------------------------- bytes to text

def entry_line(e):
    start, x, y, kind, word = e
    name = ENTRIES[kind] if kind < 3 else f"entry kind {kind}"
    return f"{name} at {show(start, 64)} x {show(x, 32)} y {show(y, 32)}" + (f" reserved {word}" if word else "")


def point_line(p):
    return f"point x {show(p[0], 32)} y {show(p[1], 32)} length {show(p[2], 64)}"


class Table:
    """A table's lines: those of a slider stand under it where they are the next of the table, others are loose."""

    def __init__(self, entries, line, ranges):
        self.entries, self.line, self.written = entries, line, 0
        self.used = {i for first, count in ranges for i in range(first, min(first + count, len(entries)))}

    def loose(self, to):
        lines = ["loose " + self.line(e) for e in self.entries[self.written:to]]
        self.written = to
        return lines

    def take(self, first, count):
        """Loose lines before and lines under a slider that uses these entries; None where they cannot stand there."""
        if not 0 < count <= len(self.entries) - first or first < self.written or not self.used.isdisjoint(range(self.written, first)):
            return None
        before = self.loose(first)
        self.written = first + count
        return before, ["  " + self.line(e) for e in self.entries[first:first + count]]


def object_lines(o, tables):
    start, end, x, y, sx, sy, kind, spans, *ranges, length = o
    line = (KINDS[kind] if kind < 3 else f"object kind {kind}") + f" at {show(start, 64)}"
    line += "" if kind == CIRCLE and end == start else f" to {show(end, 64)}"
    line += f" x {show(x, 32)} y {show(y, 32)}" + (f" stack {show(sx, 32)} {show(sy, 32)}" if sx or sy else "")
    line += f" spans {spans}" if spans != (kind == SLIDER) else ""
    before, under = [], []
    for (name, table), first, count in zip(tables.items(), ranges[::2], ranges[1::2]):
        taken = table.take(first, count) if kind == SLIDER else None
        if taken:
            before += taken[0]
            under += taken[1]
        elif kind == SLIDER or first or count:
            line += f" {name} {first} {count}"
    return before + [line + (f" length {show(length, 64)}" if length else "")] + under


def flag_words(flags):
    other = [f"0x{flags & ~3:X}"] if flags & ~3 else []
    return " ".join([name for i, name in enumerate(FLAGS) if flags >> i & 1] + other) or "none"


def bytes_lines(b):
    return [f"bytes {b[i:i + 32].hex()}" for i in range(0, len(b), 32)]


def to_text(b):
    """The text form of any bytes."""
    if len(b) < FRONT:
        return "\n".join(bytes_lines(b) or ["bytes"]) + "\n"
    c = unpack(b)
    lines = [f"{name} {show(bits, width)} {unit}".rstrip() for (name, width, unit, *_), bits in zip(RANGES, c.settings)]
    lines += ["flags " + flag_words(c.settings[6])] + [STATED] * (c.stated and not any(o[12] for o in c.objects))
    lines += [f"header {name} {word}" for name, word in c.header.items()] + [""]
    sliders = [o for o in c.objects if o[6] == SLIDER]
    tables = {"nested": Table(c.nested, entry_line, [o[8:10] for o in sliders]), "points": Table(c.points, point_line, [o[10:12] for o in sliders])}
    for o in c.objects:
        lines += object_lines(o, tables)
    for table in tables.values():
        lines += table.loose(len(table.entries))
    return "\n".join(lines + bytes_lines(c.rest)) + "\n"


# ---------------------------------------------------------------- text to bytes

# the values of each key: floats of so many bits, or whole numbers (0)
KEYS = {"at": (64,), "to": (64,), "x": (32,), "y": (32,), "stack": (32, 32), "kind": (0,), "spans": (0,), "nested": (0, 0), "points": (0, 0),
        "reserved": (0,), "length": (64,)}


def read_keys(words, needed, allowed):
    """The pairs `key value` of a line, in any order."""
    found, rest = {}, list(words)
    while rest:
        key = rest.pop(0)
        if key not in needed + allowed:
            raise TextError(f"{key} does not belong here; known are {', '.join(needed + allowed)}")
        if key in found:
            raise TextError(f"{key} is given twice")
        if len(rest) < len(KEYS[key]):
            raise TextError(f"{key} has no value")
        values = [rest.pop(0) for _ in KEYS[key]]
        found[key] = [read_float(v, width) if width else read_word(v) for v, width in zip(values, KEYS[key])]
    missing = [key for key in needed if key not in found]
    if missing:
        raise TextError(f"{missing[0]} is missing")
    return found


class Reader:
    """Takes the lines of a text one by one."""

    def __init__(self):
        self.chart, self.settings, self.flags = Chart(), {}, 0
        self.raw, self.lines = True, []  # nothing but `bytes` so far; the line of each object
        self.open, self.own = None, {}  # the slider that entries belong to, and its explicit ranges

    def line(self, number, words):
        head, rest = words[0], words[1:]
        if head == "bytes":
            self.take_bytes(rest)
            return
        if self.chart.rest:
            raise TextError("nothing but bytes may stand behind bytes")
        self.raw = False
        if head in [r[0] for r in RANGES]:
            self.take_setting(head, rest)
        elif head == "flags":
            self.take_flags(rest)
        elif head == STATED.split()[0]:
            self.take_lengths(rest)
        elif head == "header":
            self.take_header(rest)
        elif head in KINDS or head == "object":
            self.lines.append(number)
            self.take_object(head, rest)
        elif head == "loose" and rest:
            self.open = None
            self.take_entry(rest[0], rest[1:], True)
        else:
            self.take_entry(head, rest, False)

    def take_bytes(self, words):
        if not re.fullmatch(r"([0-9A-Fa-f]{2})*", "".join(words)):
            raise TextError("bytes are pairs of hex digits")
        self.chart.rest += bytes.fromhex("".join(words))

    def take_setting(self, name, words):
        _, width, unit, *_ = next(r for r in RANGES if r[0] == name)
        if len(words) not in (1, 2) or words[1:] not in ([], [unit]):
            raise TextError(f"{name} takes a number" + (f" and the unit {unit}" if unit else ""))
        if name in self.settings:
            raise TextError(f"{name} is given twice")
        self.settings[name] = read_float(words[0], width)

    def take_flags(self, words):
        for word in words if words != ["none"] else []:
            self.flags |= 1 << FLAGS.index(word) if word in FLAGS else read_word(word)

    def take_lengths(self, words):
        if words != STATED.split()[1:]:
            raise TextError("lengths takes the word stated")
        self.chart.stated = True

    def take_header(self, words):
        if len(words) != 2 or words[0] not in WORDS:
            raise TextError(f"header takes a name and a whole number; the names are {', '.join(WORDS)}")
        self.chart.header[words[0]] = read_word(words[1])

    def take_object(self, name, words):
        needed = {"circle": [], "object": ["to", "kind"]}.get(name, ["to"])
        k = read_keys(words, ["at", "x", "y"] + needed, ["stack", "spans", "nested", "points", "length"] + (["to"] if name == "circle" else []))
        kind = KINDS.index(name) if name in KINDS else k["kind"][0]
        slider = kind == SLIDER
        self.own = {key for key in ("nested", "points") if key in k}
        nested = k.get("nested", [len(self.chart.nested), 0] if slider else [0, 0])
        points = k.get("points", [len(self.chart.points), 0] if slider else [0, 0])
        self.open = [*k["at"], *k.get("to", k["at"]), *k["x"], *k["y"], *k.get("stack", [0, 0]), kind, *k.get("spans", [int(slider)]), *nested, *points,
                     *k.get("length", [0])]
        self.chart.stated |= "length" in k
        self.chart.objects.append(self.open)
        if not slider:
            self.open = None

    def take_entry(self, name, words, loose):
        table = "points" if name == "point" else "nested"
        if name not in ENTRIES + ("entry", "point"):
            raise TextError(f"{name} is not known")
        if self.open is None and not loose:
            raise TextError(f"this {name} stands under no slider; one by itself is a loose {name}")
        if self.open and table in self.own:
            raise TextError(f"the slider above already names its {table}")
        if name == "point":
            self.chart.points.append(self.point(words))
        else:
            k = read_keys(words, ["at", "x", "y"] + (["kind"] if name == "entry" else []), ["reserved"])
            kind = k["kind"] if name == "entry" else [ENTRIES.index(name)]
            self.chart.nested.append([*k["at"], *k["x"], *k["y"], *kind, *k.get("reserved", [0])])
        if self.open:
            self.open[11 if name == "point" else 9] += 1

    def point(self, words):
        """A point; a length that is not given is the one before it and the distance from there."""
        k = read_keys(words, ["x", "y"] + ([] if self.open else ["length"]), ["length"] if self.open else [])
        length = k.get("length", [0])[0]
        if "length" not in k and self.open[11]:
            x, y, before = self.chart.points[-1]
            dx, dy = value(k["x"][0], 32) - value(x, 32), value(k["y"][0], 32) - value(y, 32)
            length = bits_of(value(before, 64) + math.sqrt(dx * dx + dy * dy), 64)
        return [*k["x"], *k["y"], length]

    def end(self):
        """The bytes, once all lines are taken."""
        if self.raw:
            return self.chart.rest
        missing = [r[0] for r in RANGES if r[0] not in self.settings]
        if missing:
            raise TextError(f"{missing[0]} is not given")
        self.chart.settings = [self.settings[r[0]] for r in RANGES] + [self.flags]
        return pack(self.chart)


def read_text(text):
    """The bytes that a text makes, and the line of each object."""
    reader, number = Reader(), 0
    try:
        for number, line in enumerate(text.split("\n"), 1):
            words = line.split("#")[0].split()
            if words:
                reader.line(number, words)
        number = None
        return reader.end(), reader.lines
    except TextError as e:
        raise TextError(f"line {number}: {e}" if number else str(e)) from None


def to_bytes(text):
    return read_text(text)[0]


# ---------------------------------------------------------------- the conditions

def said(bits, width):
    x = value(bits, width)
    return "NaN" if x != x else f"{x:+}inity" if math.isinf(x) else show(bits, width)


def plain(x):
    return said(bits_of(x, 64), 64)


def outside(what, bits, width, low, high):
    """What to say of a number outside its range, or None."""
    if low <= value(bits, width) <= high:
        return None
    return f"{what} is {said(bits, width)}, allowed are {low:,} to {high:,}"


def time_fault(what, bits):
    return outside(what, bits, 64, 0, 10_000_000)


def coordinate_fault(what, x, y):
    return outside(f"{what} x", x, 32, -131_072, 131_072) or outside(f"{what} y", y, 32, -131_072, 131_072)


def header_fault(b):
    """1: header, length, counts, offsets or reserved bits wrong."""
    if len(b) < FRONT:
        return f"the chart has {len(b)} bytes, its header alone takes {FRONT}"
    words = dict(zip(WORDS, HEADER.unpack_from(b)))
    for name, what, most in (("objects", "objects", 16_384), ("nested", "nested entries", 65_536), ("points", "points", 65_536)):
        if words[name] > most:
            return f"the header counts {words[name]:,} {what}, allowed are 0 to {most:,}"
    if words["reserved"] > 1:
        return f"the word at 28 is {words['reserved']:,}, allowed are 0 (objects of 56 bytes) and 1 (objects of 64 bytes, with a stated length)"
    at, size = FRONT, object_form(words["reserved"]).size
    for name, what, table in (("objects-at", "offset of the objects", size * words["objects"]), ("nested-at", "offset of the nested entries", 24 * words["nested"]),
                              ("points-at", "offset of the points", 16 * words["points"]), ("length", "length in the header", 0)):
        if words[name] != at:
            return f"the {what} is {words[name]:,}, by the counts it must be {at:,}" + (", as the word at 28 is 1: objects have 64 bytes" if size == 64 else "")
        at += table
    if len(b) < at:
        return f"the chart has {len(b):,} bytes, its header says {at:,}"
    flags = SETTINGS.unpack_from(b, HEADER.size)[6]
    return f"the flags are 0x{flags:X}, bits other than hidden (1) and autopilot (2) must be 0" if flags > 3 else None


def setting_fault(c):
    """2: a setting outside its range."""
    faults = (outside(f"the {name}", bits, width, low, high) for (name, width, _, low, high), bits in zip(RANGES, c.settings))
    return next((f for f in faults if f), None)


def object_fault(o):
    """3: an object's own fields wrong."""
    start, end, x, y, sx, sy, kind, *last, length = o
    name = KINDS[kind] if kind < 3 else "object"
    fault = (time_fault(f"the {name}'s start", start) or time_fault(f"the {name}'s end", end) or coordinate_fault(f"the {name}'s", x, y)
             or outside(f"the {name}'s stack offset x", sx, 32, -1024, 1024) or outside(f"the {name}'s stack offset y", sy, 32, -1024, 1024))
    if fault:
        return fault
    if kind > 2:
        return f"the kind is {kind:,}, allowed are 0 (circle), 1 (slider) and 2 (spinner)"
    return slider_fault(o) if kind == SLIDER else other_fault(name, value(start, 64), value(end, 64), last, length)


def other_fault(name, start, end, last, length):
    for what, word in zip(("number of spans", "first nested entry", "number of nested entries", "first point", "number of points"), last):
        if word:
            return f"the {name}'s {what} is {word:,}, it must be 0: only a slider has one"
    if value(length, 64) != 0:
        return f"the {name}'s stated length is {said(length, 64)}, it must be 0: only a slider has one"
    if name == "circle" and start != end:
        return f"the circle ends at {plain(end)} and starts at {plain(start)}, it must end where it starts"
    return f"the spinner ends at {plain(end)}, before its start at {plain(start)}" if end < start else None


def slider_fault(o):
    for what, count in (("spans", o[7]), ("nested entries", o[9]), ("points", o[11])):
        if not 1 <= count <= 1024:
            return f"the slider's {what} are {count:,}, allowed are 1 to 1,024"
    lasts = value(o[1], 64) - value(o[0], 64)
    if not lasts >= 0.001:
        return f"the slider's end minus its start is {plain(lasts)}, at least 0.001 is needed"
    return outside("the slider's stated length", o[12], 64, 0, 1_000_000)


def entries_fault(c, o):
    """4: a slider's nested entries or points outside their table or wrong."""
    if o[6] != SLIDER:
        return None
    for what, table, first, count in (("nested entries", c.nested, o[8], o[9]), ("points", c.points, o[10], o[11])):
        if first + count > len(table):
            return f"the slider's {what} are {count:,} from number {first:,} on, the table has {len(table):,}"
    nested, points = c.nested[o[8]:o[8] + o[9]], c.points[o[10]:o[10] + o[11]]
    for i, e in enumerate(nested):
        what, last = f"the slider's nested entry {i + 1} of {o[9]}", i + 1 == len(nested)
        fault = nested_fault(what, e, last) or (turn_fault(what, e, nested[i - 1]) if 0 < i and not last else None)
        if fault:
            return f"{fault} (number {o[8] + i:,} of the table)"
    for i, p in enumerate(points):
        fault = point_fault(f"the slider's point {i + 1} of {o[11]}", p, value(points[i - 1][2], 64) if i else None)
        if fault:
            return f"{fault} (number {o[10] + i:,} of the table)"
    return None


def nested_fault(what, e, last):
    fault = time_fault(f"{what}: its start", e[0]) or coordinate_fault(f"{what}: its", e[1], e[2])
    if fault:
        return fault
    name = ENTRIES[e[3]] if e[3] < 3 else f"of kind {e[3]:,}"
    if last and e[3] != TAIL:
        return f"{what} is {name}, the last must be the tail"
    if not last and e[3] > 1:
        return f"{what} is {name}, all but the last must be tick or repeat"
    return f"{what}: its reserved word is {e[4]:,}, it must be 0" if e[4] else None


def turn_fault(what, e, before):
    """Those before the tail stand by start time, never falling; at equal times a tick comes before a repeat."""
    start, earlier = value(e[0], 64), value(before[0], 64)
    if start < earlier:
        return f"{what} starts at {plain(start)}, the one before it at {plain(earlier)}: before the tail starts never fall"
    wrong = start == earlier and e[3] < before[3]
    return f"{what} is a tick at {plain(start)}, where the one before it is a repeat: at equal times a tick comes before a repeat" if wrong else None


def point_fault(what, p, before):
    fault = coordinate_fault(f"{what}: its", p[0], p[1]) or outside(f"{what}: its length", p[2], 64, 0, 1_000_000)
    if fault:
        return fault
    length = value(p[2], 64)
    if before is None:
        return None if length == 0 else f"{what}: its length is {plain(length)}, the first must be 0"
    return None if length >= before else f"{what}: its length is {plain(length)}, below the {plain(before)} before it"


def start_of(c, place):
    return value(c.objects[place][0], 64)


def order_fault(c, place):
    """5: a start before its predecessor's."""
    if place == 0 or not start_of(c, place) < start_of(c, place - 1):
        return None
    return f"it starts at {plain(start_of(c, place))}, before the object at place {place - 1}, which starts at {plain(start_of(c, place - 1))}"


def length_fault(c):
    """6: chart too long in time."""
    if len(c.objects) < 2:
        return None
    clock = value(c.settings[0], 64)
    time = start_of(c, len(c.objects) - 1) / clock - start_of(c, 1) / clock
    return None if time <= 3_000_000 else f"from place 1 to the last the starts over the clock rate span {plain(time)}, at most 3,000,000 are allowed"


def table_fault(c, tables):
    """7: a lent table with fewer than N entries; tables: (name, entries)."""
    return next((f"the {name} have {n:,} entries, the chart has {len(c.objects):,} objects" for name, n in tables if n < len(c.objects)), None)


def answers(c, tables):
    """Conditions 2 to 7 in their order and over all places: number, place, and the reason where one is met."""
    yield 2, 0, setting_fault(c)
    for place, o in enumerate(c.objects):
        yield 3, place, object_fault(o)
    for place, o in enumerate(c.objects):
        yield 4, place, entries_fault(c, o)
    for place in range(len(c.objects)):
        yield 5, place, order_fault(c, place)
    yield 6, 0, length_fault(c)
    yield 7, 0, table_fault(c, tables)


def explain(b, tables=(), lister=False):
    """Number, place and reason of the first condition that opening meets; None for a chart that opens."""
    if lister and len(b) > LISTER_LIMIT:
        return 7, 0, f"the chart has {len(b):,} bytes, the lister takes {LISTER_LIMIT:,} at most"
    fault = header_fault(b)
    if fault:
        return 1, 0, fault
    return next((a for a in answers(unpack(b), tables) if a[2]), None)


def sentence(found, lines=()):
    """What explain says of a refusal."""
    number, place, why = found
    where = f" at place {place}" + (f", line {lines[place]}" if place < len(lines) else "") if number in (3, 4, 5) else ""
    return f"{number}{where}: {why}"


# ---------------------------------------------------------------- the command

def load(name):
    """The bytes of a chart in either form, and the line of each object of a text."""
    if name.endswith(".txt"):
        with open(name, encoding="utf-8") as file:
            return read_text(file.read())
    if name == "-":
        return sys.stdin.buffer.read(), []
    with open(name, "rb") as file:
        return file.read(), []


def run(a):
    if a.command == "to-bytes":
        b, _ = read_text(sys.stdin.read()) if a.file == "-" else load(a.file)
        sys.stdout.buffer.write(b)
        return 0
    b, lines = load(a.file)
    if a.command == "to-text":
        sys.stdout.write(to_text(b))
        return 0
    found = explain(b, [(f"{name}s", n) for name, n in (("record", a.records), ("value", a.values)) if n is not None])
    if found:
        print(sentence(found, lines))
        return 1
    words = HEADER.unpack_from(b)
    print("opens: {:,} objects, {:,} nested entries, {:,} points".format(*words[:3]) + (f", {len(b) - words[6]:,} bytes behind" if len(b) > words[6] else ""))
    return 0


def main():
    p = argparse.ArgumentParser(usage=__doc__)
    p.add_argument("command", choices=("to-bytes", "to-text", "explain"))
    p.add_argument("file")
    p.add_argument("--records", type=int)
    p.add_argument("--values", type=int)
    a = p.parse_args()
    try:
        return run(a)
    except (TextError, OSError, UnicodeDecodeError) as e:
        print(f"{a.file}: {e}", file=sys.stderr)
        return 2


if __name__ == "__main__":
    sys.exit(main())
