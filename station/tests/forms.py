"""Holds text.mjs and words.mjs to tools/chart.py: the same text for the same bytes, the same bytes or the same error for the same text, the same sentence
for the same refusal.

The charts are those of examples/ and the stored ones of test_opening and test_listings; the texts are theirs, damaged ones among them.
"""
import glob
import os
import random
import struct
import subprocess
import sys

STATION = os.path.dirname(os.path.dirname(os.path.abspath(__file__)))
ROOT = os.path.dirname(STATION)
sys.path.insert(0, os.path.join(ROOT, "tools"))
import chart

WORDS = ("at", "to", "x", "y", "point", "tick", "slider", "circle", "0x3F", "1e999", "-0", "1e-320", "3.4028236e38", "length", "stated", "bytes", "zz", "flags",
         "4294967296", "#", "none", "loose")
NUMBERS = ("0.1", "1e-05", "1e16", "1e15", "1234567890123456.0", "2097152.25", "1.17549435e-38", "1e-45", "3.4028235e38", "5e-324", "1.7976931348623157e308",
           "-0", "0.1e-3", "123456.789", ".5", "5.", "+7")


def stored(program):
    """The charts of a program's input: u32 length, bytes, and so on."""
    with open(os.path.join(ROOT, "crates", program, "stdin"), "rb") as file:
        data = file.read()
    at = 0
    while at < len(data):
        size, = struct.unpack_from("<I", data, at)
        yield data[at + 4:at + 4 + size]
        at += 4 + size


def examples():
    for name in sorted(glob.glob(os.path.join(ROOT, "examples", "*.txt"))):
        with open(name, encoding="utf-8") as file:
            yield file.read()


def damaged(r, text):
    """A text with a word changed, taken out or put in."""
    lines = text.split("\n")
    for _ in range(1 + r.randrange(3)):
        i = r.randrange(len(lines))
        words = lines[i].split(" ")
        k = r.randrange(len(words))
        words[k:k + r.randrange(2)] = r.choice(([], [r.choice(WORDS)], [r.choice(NUMBERS)]))
        lines[i] = " ".join(words)
    return "\n".join(lines)


def of_text(text):
    """What a text answers: its bytes behind a 0, or the error behind a 1."""
    try:
        return b"\0" + chart.to_bytes(text)
    except chart.TextError as e:
        return b"\1" + str(e).encode()


# What is said beside a note, by number, place, place of the edit, and what is changed in a text of three circles.
BESIDE = (
    (1, 0, 0, "header nested 70000", "the header counts 70,000 nested entries, allowed are 0 to 65,536 (1)"),
    (2, 0, 0, "radius 500", "the radius is 500, allowed are 1 to 200 (2)"),
    (3, 1, 1, "circle at 2000 x 1e6 y 0", "the circle's x is 1000000, allowed are -131,072 to 131,072 (3 at place 1)"),
    (4, 1, 1, "slider at 2000 to 2500 x 0 y 0 nested 0 1 points 0 1", "the slider's nested entries are 1 from number 0 on, the table has 0 (4 at place 1)"),
    (5, 1, 1, "circle at 500 x 0 y 0", "starts before the note before it, which starts at 1000 ms (5 at place 1)"),
    (5, 2, 1, "circle at 9000 x 0 y 0", "starts after the note behind it, which starts at 3000 ms (5 at place 2)"),
    (6, 0, 2, "circle at 4000000 x 0 y 0", "from place 1 to the last the starts over the clock rate span 3998000, at most 3,000,000 are allowed (6)"),
    (7, 0, 0, "", "a table of the station is too short for this chart (7)"),
    (8, 0, 0, "", "there is no such place (8)"),
    (9, 0, 0, "", "there is no room for another object: a chart has 16,384 at most (9)"),
    (10, 0, 0, "", "a number for the ratings is not finite (10)"),
)
SETTINGS = ("clock-rate 1", "radius 40", "hit-window 50", "preempt 600", "fade-in 400", "factor 1.25")


def beside():
    """Cases for all ten numbers."""
    for number, place, at, line, want in BESIDE:
        circles = [f"circle at {t} x 100 y 100" for t in (1000, 2000, 3000)]
        lines = {setting.split(" ")[0]: setting for setting in SETTINGS} | {"header": ""}
        if line.split(" ")[0] in lines:
            lines[line.split(" ")[0]] = line
        elif line:
            circles[at] = line
        b = chart.to_bytes("\n".join([*lines.values(), *circles]))
        found = chart.explain(b)
        assert number > 6 or found[:2] == (number, place), found
        yield b"s" + struct.pack("<III", number, place, at) + b, want.encode()


def cases():
    """Pairs of a case and what is to be answered to it."""
    yield from beside()
    r, texts = random.Random(1), list(examples())
    charts = [chart.to_bytes(text) for text in texts] + list(stored("test_opening")) + list(stored("test_listings"))
    for b in charts:
        text = chart.to_text(b)
        yield b"b" + b, text.encode()
        yield b"t" + text.encode(), b"\0" + b
        texts.append(text) if len(text) < 3000 else None
        found = chart.explain(b)
        if found:
            yield b"e" + struct.pack("<II", *found[:2]) + b, chart.sentence(found).encode()
    for _ in range(4000):
        text = damaged(r, r.choice(texts))
        yield b"t" + text.encode(), of_text(text)


def run():
    """A line that says what was compared; an AssertionError names the first case that differs."""
    pairs = list(cases())
    given = b"".join(struct.pack("<I", len(case)) + case for case, _ in pairs)
    done = subprocess.run(["node", os.path.join(STATION, "tests", "forms.mjs")], input=given, stdout=subprocess.PIPE, check=True)
    at, errors = 0, 0
    for i, (case, want) in enumerate(pairs):
        size, = struct.unpack_from("<I", done.stdout, at)
        found = done.stdout[at + 4:at + 4 + size]
        assert found == want, f"case {i}, {case[:1]}: {found[:600]!r}, but tools/chart.py says {want[:600]!r}, for {case[:300]!r}"
        at += 4 + size
        errors += want[:1] == b"\1" and case[:1] == b"t"
    assert at == len(done.stdout)
    kinds = [sum(case[:1] == kind for case, _ in pairs) for kind in (b"b", b"t", b"e", b"s")]
    return (f"text form: {kinds[0]} charts as text, {kinds[1]} texts ({errors} of them wrong) and {kinds[2]} refusals in words, as tools/chart.py has them; "
            f"{kinds[3]} sentences beside a note, for all ten numbers")


if __name__ == "__main__":
    print(run())
