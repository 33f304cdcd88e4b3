#!/usr/bin/env python3
"""Tests of tools/plot: python3 -m unittest tools/test_plot.py"""
import importlib.machinery
import importlib.util
import math
import os
import re
import sys
import unittest
import xml.etree.ElementTree as tree

TOOLS = os.path.dirname(os.path.abspath(__file__))
sys.dont_write_bytecode = True
sys.path.insert(0, TOOLS)
import chart


def script():
    loader = importlib.machinery.SourceFileLoader("plot_script", os.path.join(TOOLS, "plot"))
    module = importlib.util.module_from_spec(importlib.util.spec_from_loader("plot_script", loader))
    loader.exec_module(module)
    return module


def two_circles():
    return chart.load(os.path.join(os.path.dirname(TOOLS), "examples", "two_circles.txt"))[0]


class Axes(unittest.TestCase):
    def test_ticks(self):
        m = script()
        self.assertEqual(m.ticks(0.0, 10.0, 6), ([0.0, 2.0, 4.0, 6.0, 8.0, 10.0], 2.0))
        self.assertEqual([m.shown(x, 0.5) for x in m.ticks(0.0, 2.0, 6)[0]], ["0.0", "0.5", "1.0", "1.5", "2.0"])
        for high in (1e-9, 0.3, 1.0, 7.0, 999.0, 1e12):
            found, _ = m.ticks(0.0, high, 6)
            self.assertTrue(1 <= len(found) <= 7 and found[0] == 0.0 and found[-1] <= high * (1 + 1e-9))

    def test_decades(self):
        m = script()
        for high in (0.01, 0.8, 3.0, 50.0, 4000.0, 1e9, 1e300):
            found = m.decades(high)
            self.assertTrue(2 <= len(found) <= 13 and found[0] == 0.0 and found == sorted(found) and found[-1] <= high)

    def test_clock(self):
        self.assertEqual([script().clock(ms, 1000) for ms in (0, 61_000, 600_000)], ["0:00", "1:01", "10:00"])
        self.assertEqual(script().clock(1250, 250), "1.2 s")


class Picture(unittest.TestCase):
    def drawn(self, values, totals):
        return tree.fromstring(script().draw(two_circles(), values, totals, "a & b < c"))

    def test_lines_and_legends(self):
        picture = self.drawn([[1.0, 2.0, 3.0, 4.0, 5.0]], [[0.0] * 4, [0.0] * 4, [1.0, 2.0, 3.0, 4.0]])
        words = [t.text for t in picture.iter("{http://www.w3.org/2000/svg}text")]
        self.assertIn("a & b < c: totals while playing", words)
        for name in script().VALUES:
            self.assertEqual(words.count(name), 1 + (name in script().TOTALS))

    def test_inside(self):
        picture = self.drawn([[1.0, 2.0, 3.0, 4.0, 5.0]], [[0.0] * 4, [0.0] * 4, [1.0, 2.0, 3.0, 4.0]])
        for path in picture.iter("{http://www.w3.org/2000/svg}path"):
            for x, y in re.findall(r"[ML]([\d.-]+) ([\d.-]+)", path.get("d")):
                self.assertTrue(0 <= float(x) <= 960 and 0 <= float(y) <= 640)

    def test_what_is_not_finite_breaks_a_line(self):
        m = script()
        f = m.Frame((0, 3), (0.0, 1.0), 0, 100, 960)
        line = m.path(f, [(0, 1.0), (1, math.nan), (2, math.inf), (3, 0.5)], ("#000", ""))
        self.assertEqual(re.search(r'd="([^"]*)"', line)[1].count("M"), 2)
        self.drawn([[math.nan] * 5], [[math.inf] * 4] * 3)

    def test_no_place(self):
        self.drawn([], [[0.0] * 4])


if __name__ == "__main__":
    unittest.main()
