"""Tests of what tools/platforms runs and how it compares: charts from a seed, cases, and where two answers part."""
import importlib.machinery
import importlib.util
import os
import random
import struct
import sys
import unittest

sys.dont_write_bytecode = True
TOOLS = os.path.dirname(os.path.abspath(__file__))
sys.path.insert(0, TOOLS)
import chart
import replay
import seeded

loader = importlib.machinery.SourceFileLoader("platforms", os.path.join(TOOLS, "platforms"))
platforms = importlib.util.module_from_spec(importlib.util.spec_from_loader("platforms", loader))
loader.exec_module(platforms)

NAN, MINUS_NAN, ONE = (struct.pack("<Q", bits) for bits in (0x7FF8 << 48, 0xFFF8 << 48, 0x3FF0 << 48))


class Seeded(unittest.TestCase):
    def test_a_seed_gives_the_same_charts(self):
        one, other = (list(seeded.charts(random.Random(7), 40)) for _ in range(2))
        self.assertEqual(one, other)
        self.assertNotEqual(one, list(seeded.charts(random.Random(8), 40)))

    def test_charts_that_are_not_damaged_open(self):
        r = random.Random(1)
        self.assertEqual([], [found for found in (chart.explain(seeded.made(r)) for _ in range(300)) if found])

    def test_most_damaged_charts_are_refused(self):
        charts = list(seeded.charts(random.Random(2), 400))[3::4]
        self.assertGreater(sum(chart.explain(b) is not None for b in charts), 60)


class Comparing(unittest.TestCase):
    def setUp(self):
        self.case = replay.Case("a case")
        self.case.put(replay.CHART, b"12345678")
        self.case.call("read_rhythm", (replay.CHART, 8), (replay.RECORDS, 16), 1)
        self.case.show(replay.CHART, 8)

    def parting(self, one, other):
        return platforms.parting(bytes(self.case.steps), one, other)

    def test_pieces_of_the_answers(self):
        self.assertEqual([(0, 8, "call"), (8, 16, "numbers"), (24, 8, "bytes")], [piece[:3] for piece in replay.walk(bytes(self.case.steps))])

    def test_there_is_one_nan(self):
        self.assertEqual((None, 1), self.parting(bytes(8) + ONE + NAN + bytes(8), bytes(8) + ONE + MINUS_NAN + bytes(8)))

    def test_a_nan_is_no_number(self):
        where, _ = self.parting(bytes(8) + ONE + NAN + bytes(8), bytes(8) + ONE + ONE + bytes(8))
        self.assertIn("byte 8: 7ff8000000000000 on x86-64, 3ff0000000000000 here", where)

    def test_bytes_and_answers_are_not_read_as_numbers(self):
        self.assertIn("what stands at 0", self.parting(bytes(24) + NAN, bytes(24) + MINUS_NAN)[0])
        self.assertIn("read_rhythm", self.parting(NAN + bytes(24), MINUS_NAN + bytes(24))[0])

    def test_zeros_of_other_sign_differ(self):
        self.assertIsNotNone(self.parting(bytes(32), bytes(15) + b"\x80" + bytes(16))[0])

    def test_lengths(self):
        self.assertEqual("32 bytes of answers on x86-64, 0 here", self.parting(bytes(32), b"")[0])


if __name__ == "__main__":
    unittest.main()
