#!/usr/bin/env python3
"""Tests of tools/chart.py: python3 -m unittest tools/test_chart.py

The charts are the stored ones of the programs `test_opening` and `test_listings`; the answers are those stored beside them.
"""
import os
import random
import struct
import subprocess
import sys
import tempfile
import unittest

ROOT = os.path.dirname(os.path.dirname(os.path.abspath(__file__)))
sys.path.insert(0, os.path.join(ROOT, "tools"))
import chart

SETTINGS = "clock-rate 1\nradius 40 px\nhit-window 50 ms\npreempt 600 ms\nfade-in 400 ms\nfactor 1.25\n"


def stored(program):
    """The charts of a program's input: u32 length, bytes, and so on."""
    with open(os.path.join(ROOT, "crates", program, "stdin"), "rb") as file:
        data = file.read()
    charts, at = [], 0
    while at < len(data):
        size, = struct.unpack_from("<I", data, at)
        charts.append(data[at + 4:at + 4 + size])
        at += 4 + size
    return charts


def lines(program):
    with open(os.path.join(ROOT, "crates", program, "stdout")) as file:
        return file.read().splitlines()


def text_of(*path):
    with open(os.path.join(ROOT, *path)) as file:
        return file.read()


class Corpus(unittest.TestCase):
    def test_round_trip(self):
        for program in ("test_opening", "test_listings"):
            for i, b in enumerate(stored(program)):
                text = chart.to_text(b)
                self.assertEqual(chart.to_bytes(text), b, f"chart {i} of {program}")
                self.assertEqual(chart.to_text(chart.to_bytes(text)), text)

    def test_answers(self):
        charts, answers = stored("test_opening"), lines("test_opening")
        self.assertGreaterEqual(len(charts), 3223)
        self.assertEqual(len(charts), len(answers))
        for i, (b, answer) in enumerate(zip(charts, answers)):
            found = chart.explain(b)
            self.assertEqual("refused {} {}".format(*found) if found else "opened", answer, f"chart {i}")

    def test_reasons_are_whole_sentences(self):
        for b in stored("test_opening"):
            found = chart.explain(b)
            if found:
                self.assertRegex(found[2], r"^(the|it|from) .*\d|^the .* tail|^the .* repeat")
                self.assertNotRegex(found[2], r"None|[{}\[\]]")

    def test_any_bytes(self):
        """Charts cut, lengthened and with any words in their headers come back as they were."""
        rng = random.Random(8)
        some = [b for b in stored("test_opening") if 80 < len(b) < 1500]
        for _ in range(2000):
            b = bytearray(rng.choice(some))
            for _ in range(rng.randrange(4)):
                at = rng.choice((rng.randrange(20), rng.randrange(len(b) // 4))) * 4
                struct.pack_into("<I", b, at, rng.choice((0, 1, 2, 3, 80, 136, rng.randrange(300), rng.getrandbits(32), 0xFFFFFFFF)))
            b = bytes(b[:rng.randrange(len(b) + 1)]) if rng.random() < 0.3 else bytes(b) + rng.randbytes(rng.choice((0, 0, 1, 16, 24, 56, 100)))
            self.assertEqual(chart.to_bytes(chart.to_text(b)), b)
            chart.explain(b)


class Numbers(unittest.TestCase):
    def test_all_patterns_survive(self):
        rng = random.Random(9)
        edges = {32: (0, 1, 0x7FFFFF, 0x800000, 0x3F800000, 0x7F7FFFFF, 0x7F800000, 0x7F800001, 0x7FC00000), 64:
                 (0, 1, 0xFFFFFFFFFFFFF, 0x10000000000000, 0x3FF0000000000000, 0x7FEFFFFFFFFFFFFF, 0x7FF0000000000000, 0x7FF0000000000001, 0x7FF8000000000000)}
        for width in (32, 64):
            for bits in [e | s << width - 1 for e in edges[width] for s in (0, 1)] + [rng.getrandbits(width) for _ in range(20_000)]:
                self.assertEqual(chart.read_float(chart.show(bits, width), width), bits)

    def test_shortest(self):
        self.assertEqual(chart.show(chart.bits_of(0.1, 32), 32), "0.1")
        self.assertEqual(chart.show(chart.bits_of(-3.2, 32), 32), "-3.2")
        self.assertEqual(chart.show(chart.bits_of(1000.0, 64), 64), "1000")
        self.assertEqual(chart.show(1 << 63, 64), "-0")
        self.assertEqual(chart.show(0x7FF8000000000001, 64), "0x7FF8000000000001")


class Text(unittest.TestCase):
    def fails(self, text, message):
        with self.assertRaises(chart.TextError) as caught:
            chart.to_bytes(text)
        self.assertIn(message, str(caught.exception))

    def test_two_circles(self):
        b = chart.to_bytes(text_of("examples", "two_circles.txt"))
        self.assertEqual(b[:32], struct.pack("<8I", 2, 0, 0, 80, 192, 192, 192, 0))
        self.assertEqual(b[32:80], struct.pack("<5dfI", 1, 40, 50, 600, 400, 1.25, 0))
        self.assertEqual(b[80:136], struct.pack("<2d4f6I", 1000, 1000, 100, 100, *[0] * 8))
        self.assertEqual(b[136:], struct.pack("<2d4f6I", 2000, 2000, 100, 100, *[0] * 8))

    def test_stored_texts_open(self):
        for folder in ("examples", "tools/edges"):
            for name in sorted(os.listdir(os.path.join(ROOT, folder))):
                b = chart.to_bytes(text_of(folder, name))
                self.assertIsNone(chart.explain(b, lister=True), name)
                self.assertEqual(chart.to_bytes(chart.to_text(b)), b)

    def test_counts_and_lengths_are_worked_out(self):
        b = chart.to_bytes(SETTINGS + "slider at 5 to 9 x 1 y 2\ntail at 9 x 4 y 6\npoint x 0 y 0\npoint x 3 y 4\npoint x 3 y 10\n"
                                      "slider at 10 to 20 x 0 y 0 spans 3 points 0 2\n  tick at 11 x 1 y 1\n  tail at 20 x 3 y 4\n")
        c = chart.unpack(b)
        self.assertEqual([o[7:12] for o in c.objects], [(1, 0, 1, 0, 3), (3, 1, 2, 0, 2)])
        self.assertEqual([chart.value(p[2], 64) for p in c.points], [0, 5, 11])
        self.assertIsNone(chart.explain(b))

    def test_objects_within_bytes(self):
        """An object that the text has as bytes has no line of its own."""
        text = SETTINGS + "header objects 2\nheader nested-at 192\nheader points-at 192\nheader length 192\ncircle at 5 x 1 y 2\n"
        b, lines = chart.read_text(text + "bytes " + struct.pack("<2d4f6I", 4, 4, *[0] * 10).hex())
        self.assertEqual(chart.sentence(chart.explain(b), lines), "5 at place 1: it starts at 4, before the object at place 0, which starts at 5")

    def told(self, *entries):
        """What explain says of a slider with these entries."""
        b = chart.to_bytes(SETTINGS + "slider at 5 to 90 x 1 y 2\npoint x 0 y 0\n" + "".join(f"{e} x 4 y 6\n" for e in entries))
        found = chart.explain(b)
        return found and chart.sentence(found)

    def test_nested_entries_stand_in_time(self):
        """By start, never falling; at equal starts ticks before repeats; the tail anywhere."""
        self.assertIsNone(self.told("tick at 7", "tick at 7", "repeat at 7", "repeat at 7", "tick at 8", "tail at 90"))
        self.assertIsNone(self.told("repeat at 7", "tick at 7.0000000000000009", "tail at 90"))
        self.assertIsNone(self.told("tick at 0", "repeat at -0", "tail at 90"))
        self.assertIsNone(self.told("tick at 7", "repeat at 8", "tail at 2"))
        self.assertIsNone(self.told("repeat at 7", "tail at 7"))
        fall = "4 at place 0: the slider's nested entry {} of {} starts at {}, the one before it at {}: before the tail starts never fall (number {} of the table)"
        self.assertEqual(self.told("tick at 7", "tick at 9", "repeat at 8", "tail at 90"), fall.format(3, 4, 8, 9, 2))
        self.assertEqual(self.told("tick at 9", "repeat at 8", "tick at 7", "tail at 90"), fall.format(2, 4, 8, 9, 1))
        turned = "4 at place 0: the slider's nested entry 2 of 3 is a tick at {}, where the one before it is a repeat: at equal times a tick comes before a repeat (number 1 of the table)"
        self.assertEqual(self.told("repeat at 7", "tick at 7", "tail at 90"), turned.format(7))
        self.assertEqual(self.told("repeat at 0", "tick at -0", "tail at 90"), turned.format("-0"))
        self.assertEqual(self.told("repeat at -0", "tick at 0", "tail at 90"), turned.format(0))

    def test_entries_by_number_stand_in_time(self):
        """Sliders that share a run are judged each by its own part."""
        run = "loose tick at 9 x 0 y 0\nloose tick at 7 x 0 y 0\nloose repeat at 8 x 0 y 0\nloose tail at 4 x 0 y 0\n"
        slider = "slider at 5 to 90 x 1 y 2 nested {} points 0 1\n"
        point = "loose point x 0 y 0 length 0\n"
        self.assertIsNone(chart.explain(chart.to_bytes(SETTINGS + slider.format("1 3") + slider.format("3 1") + run + point)))
        self.assertEqual(chart.explain(chart.to_bytes(SETTINGS + slider.format("1 3") + slider.format("0 4") + run + point))[:2], (4, 1))

    SLIDER = "slider at 5 to 9 x 1 y 2{}\n  tail at 9 x 4 y 6\n  point x 0 y 0\n  point x 3 y 4\n"

    def test_stated_lengths(self):
        """An object's length, or the line that says so, makes a chart of 64 bytes an object; without either it is the one that it was."""
        old = chart.to_bytes(SETTINGS + "circle at 5 x 1 y 2\n" + self.SLIDER.format(""))
        self.assertEqual(old[:32], struct.pack("<8I", 2, 1, 2, 80, 192, 216, 248, 0))
        for text, length in (("length 120", 120.0), ("length 0", 0.0), ("length -0", -0.0), ("length 0x7FF0000000000000", float("inf"))):
            b = chart.to_bytes(SETTINGS + "circle at 5 x 1 y 2\n" + self.SLIDER.format(" " + text))
            self.assertEqual(b[:32], struct.pack("<8I", 2, 1, 2, 80, 208, 232, 264, 1))
            self.assertEqual(b[80:144], old[80:136] + bytes(8))
            self.assertEqual(b[144:208], old[136:192] + struct.pack("<d", length))
            self.assertEqual(b[32:80] + b[208:], old[32:80] + old[192:])
            self.assertEqual(chart.to_bytes(chart.to_text(b)), b)
            self.assertEqual(f"slider at 5 to 9 x 1 y 2 {text}" in chart.to_text(b), text != "length 0")
            self.assertEqual(chart.STATED in chart.to_text(b).splitlines(), text == "length 0")
        without = chart.to_bytes(SETTINGS + "lengths stated\ncircle at 5 x 1 y 2\n" + self.SLIDER.format(""))
        self.assertEqual(without, chart.to_bytes(SETTINGS + "circle at 5 x 1 y 2\n" + self.SLIDER.format(" length 0")))
        none = chart.to_bytes(SETTINGS + "lengths stated\n")
        self.assertEqual(none[:32], struct.pack("<8I", 0, 0, 0, 80, 80, 80, 80, 1))
        self.assertEqual(chart.to_bytes(chart.to_text(none)), none)
        self.assertIsNone(chart.explain(none))

    def test_stated_lengths_have_a_range(self):
        def told(text):
            found = chart.explain(chart.to_bytes(SETTINGS + text))
            return found and chart.sentence(found)

        for length in ("0", "-0", "1e-300", "5", "1000000"):
            self.assertIsNone(told(self.SLIDER.format(f" length {length}")))
        for length, shown in (("1000000.1", "1000000.1"), ("-5e-324", "-5e-324"), ("0x7FF8000000000000", "NaN"), ("0x7FF0000000000000", "+infinity")):
            self.assertEqual(told(self.SLIDER.format(f" length {length}")), f"3 at place 0: the slider's stated length is {shown}, allowed are 0 to 1,000,000")
        for line in ("circle at 5", "spinner at 5 to 6"):
            name = line.split()[0]
            self.assertIsNone(told(f"{line} x 1 y 2 length -0\n"))
            self.assertEqual(told(f"{line} x 1 y 2 length 1e-300\n"), f"3 at place 0: the {name}'s stated length is 1e-300, it must be 0: only a slider has one")
        self.assertEqual(told("header reserved 2\n"), "1: the word at 28 is 2, allowed are 0 (objects of 56 bytes) and 1 (objects of 64 bytes, with a stated length)")
        self.assertEqual(told("header reserved 1\ncircle at 5 x 1 y 2\n"),
                         "1: the offset of the nested entries is 136, by the counts it must be 144, as the word at 28 is 1: objects have 64 bytes")
        self.assertEqual(told("header reserved 0\ncircle at 5 x 1 y 2 length 0\n"), "1: the offset of the nested entries is 144, by the counts it must be 136")

    def test_bytes_behind_the_length(self):
        """A chart may be the first bytes of a longer buffer; a length above the buffer's is wrong."""
        text = SETTINGS + "circle at 5 x 1 y 2\n"
        b = chart.to_bytes(text)
        for behind in (b"\0", bytes(56), b"\xff" * 600):
            self.assertEqual(chart.to_bytes(text + f"bytes {behind.hex()}\n"), b + behind)
            self.assertEqual(chart.to_bytes(chart.to_text(b + behind)), b + behind)
            self.assertIsNone(chart.explain(b + behind))
            longer = b[:24] + struct.pack("<I", len(b + behind)) + b[28:] + behind
            self.assertEqual(chart.explain(longer), (1, 0, f"the length in the header is {len(longer):,}, by the counts it must be 136"))
        self.assertEqual(chart.explain(b[:-1]), (1, 0, "the chart has 135 bytes, its header says 136"))

    def test_errors_name_the_line(self):
        self.fails(SETTINGS + "circle at 1 x 2", "line 7: y is missing")
        self.fails(SETTINGS + "\n# a comment\ncircle at 1 x 2 y 3 z 4", "line 9: z does not belong here")
        self.fails(SETTINGS + "circle at 1 x 2 y nan", "line 7: nan is not a number")
        self.fails(SETTINGS + "circle at 1 x 2 y 1e39", "line 7: 1e39 is too large for 32 bits")
        self.fails(SETTINGS + "circle at 1 x 2 y 0x12", "line 7: 0x12 must have 8 hex digits")
        self.fails(SETTINGS + "circle at 1 at 1 x 2 y 3", "line 7: at is given twice")
        self.fails(SETTINGS + "circle at 1 x 2 y", "line 7: y has no value")
        self.fails(SETTINGS + "spinner at 1 x 2 y 3", "line 7: to is missing")
        self.fails(SETTINGS + "tick at 1 x 2 y 3", "line 7: this tick stands under no slider")
        self.fails(SETTINGS + "circle at 1 x 2 y 3\npoint x 1 y 1", "line 8: this point stands under no slider")
        self.fails(SETTINGS + "slider at 1 to 2 x 2 y 3 nested 0 1\ntail at 1 x 1 y 1", "line 8: the slider above already names its nested")
        self.fails(SETTINGS + "loose point x 1 y 1", "line 7: length is missing")
        self.fails("radius 40 ms", "line 1: radius takes a number and the unit px")
        self.fails("radius 40\nradius 50", "line 2: radius is given twice")
        self.fails("flags hiden", "line 1: hiden is not a whole number")
        self.fails("header size 5", "line 1: header takes a name")
        self.fails("lengths drawn", "line 1: lengths takes the word stated")
        self.fails(SETTINGS + "circle at 1 x 2 y 3 length", "line 7: length has no value")
        self.fails("bytes 1", "line 1: bytes are pairs")
        self.fails("bytes 00\nradius 4", "line 2: nothing but bytes")
        self.fails("radius 40", "clock-rate is not given")
        self.fails("triangle at 1", "line 1: triangle is not known")


class Command(unittest.TestCase):
    def told(self, *words):
        p = subprocess.run([sys.executable, os.path.join(ROOT, "tools", "chart.py"), *words], capture_output=True)
        return p.returncode, p.stdout, p.stderr.decode()

    def test_commands(self):
        with tempfile.TemporaryDirectory() as folder:
            name, text = os.path.join(folder, "a.chart"), os.path.join(ROOT, "examples", "two_circles.txt")
            status, b, _ = self.told("to-bytes", text)
            self.assertEqual((status, len(b)), (0, 192))
            with open(name, "wb") as file:
                file.write(b)
            self.assertEqual(chart.to_bytes(self.told("to-text", name)[1].decode()), b)
            self.assertEqual(self.told("explain", name), (0, b"opens: 2 objects, 0 nested entries, 0 points\n", ""))
            self.assertEqual(self.told("explain", text, "--records", "2", "--values", "1"), (1, b"7: the values have 1 entries, the chart has 2 objects\n", ""))

    def test_explain_names_place_and_line(self):
        with tempfile.TemporaryDirectory() as folder:
            name = os.path.join(folder, "a.txt")
            with open(name, "w") as file:
                file.write(SETTINGS + "circle at 1 x 2 y 3\n\nslider at 5 to 9 x 1 y 2 spans 0\n  tail at 9 x 4 y 6\n  point x 0 y 0\n")
            self.assertEqual(self.told("explain", name)[:2], (1, b"3 at place 1, line 9: the slider's spans are 0, allowed are 1 to 1,024\n"))
            with open(name, "a") as file:
                file.write("circle\n")
            self.assertEqual(self.told("explain", name), (2, b"", f"{name}: line 12: at is missing\n"))


if __name__ == "__main__":
    unittest.main()
