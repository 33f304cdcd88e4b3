#!/usr/bin/env python3
"""Tests of tools/list: python3 -m unittest tools/test_list.py

Command runs the script in a folder of its own, with an `rt` that only says what rt says; `other` is a crate that the lister does not need.
Lister and Rater run it here, where those programs are built.
"""
import importlib.machinery
import importlib.util
import math
import os
import random
import shutil
import signal
import struct
import subprocess
import sys
import tempfile
import time
import unittest

TOOLS = os.path.dirname(os.path.abspath(__file__))
sys.dont_write_bytecode = True
sys.path.insert(0, TOOLS)
CRATES = "# the bottom\nfloats:\nother: floats\n# above\ntext: floats io libc   # io and libc are the kit's\nlister: text\nrater: text\n"
LINES = "objects 3\n1 {0} {0} {1} {1} {0}\n2 {2} {3} {4} {5} {6}\ntotals {0} {0} {1} {0}\ncounts {1} {1} {7} {0} {3} {0} {7}\n".format(
    "0" * 16, "3FF0000000000000", "7FF8000000000000", "7FF0000000000000", "FFF0000000000000", "8000000000000000", "0000000000000001", "3FF199999999999A")
COUNTS = ["counts",
          "weighted strains for aim                    1.0",
          "weighted strains for aim without sliders    1.0",
          "weighted strains for speed                  1.1",
          "weighted sliders for aim without sliders    0.0",
          "weighted sliders for speed                inf",
          "difficult sliders for aim                   0.0",
          "relevant notes                              1.1"]
ASKED = ("--stars", "hidden,flashlight", "--ar", "9.5", "--od", "8", "--base", "1.14")
STARS = ["aim rating         0.0", "speed rating       0.07401459479141512", "flashlight rating  0.0", "stars              0.14652041190236825"]  # of examples/two_circles.txt, by the oracle
# As `rt run` does, it links what is proved and then runs it, here with status 1.
RT = """#!/bin/sh
crate=${PWD##*/}
cd ../..
echo "$@ $crate" >>calls
exec 2>&1
echo "library floats: modules loaded=4 checked=0"
echo "rt: chose --jobs 2 for $crate"
[ ! -e slow ] || { sleep 60 & echo $! >child; wait; }
[ ! -e fails ] || { echo "logic=not-proved"; exit 1; }
echo "logic=proved functions=1"
mkdir -p crates/$crate/out
printf '#!/bin/sh\\ncat >read\\ncat %s/lines\\n' "$PWD" >crates/$crate/out/$crate
chmod +x crates/$crate/out/$crate
echo "rt: running out/$crate; to give it other input, run that file yourself"
echo "refused 1 0"
exit 1
"""


def script():
    loader = importlib.machinery.SourceFileLoader("list_script", os.path.join(TOOLS, "list"))
    module = importlib.util.module_from_spec(importlib.util.spec_from_loader("list_script", loader))
    loader.exec_module(module)
    return module


def runs(pid):
    """Whether a process is there; one that has ended may still wait for its parent to notice."""
    try:
        with open(f"/proc/{pid}/stat") as file:
            return file.read().rpartition(")")[2].split()[0] != "Z"
    except (FileNotFoundError, ProcessLookupError):
        return False


class Decimals(unittest.TestCase):
    def test_same_bits(self):
        rng, m = random.Random(4), script()
        for bits in [0, 1, 1 << 63, 0x7FEFFFFFFFFFFFFF, 0x10000000000000] + [rng.getrandbits(64) for _ in range(20_000)]:
            x = float(m.decimal(f"{bits:016X}"))
            self.assertTrue(struct.pack(">d", x) == struct.pack(">Q", bits) or math.isnan(x) and bits << 1 & (1 << 64) - 1 > 0x7FF << 53)

    def test_table(self):
        self.assertEqual(script().table(LINES).splitlines(), [
            "objects 3",
            "place   aim    aim without sliders  speed   rhythm  flashlight",
            "     1    0.0    0.0                   1.0   1.0    0.0",
            "     2  nan    inf                  -inf    -0.0    5e-324",
            "totals    0.0    0.0                   1.0   -      0.0", *COUNTS])

    def test_no_place(self):
        text = "objects 0\ntotals" + " 0000000000000000" * 4 + "\ncounts" + " 0000000000000000" * 7 + "\n"
        self.assertEqual(script().table(text).splitlines()[1:4], [
            "place   aim  aim without sliders  speed  rhythm  flashlight", "totals  0.0  0.0                  0.0    -       0.0", "counts"])

    def test_what_is_missing_is_no_zero(self):
        lines = LINES.splitlines(True)
        for text in ("", "objects 3\n", "".join(lines[:-1]), "".join(lines[:-2] + lines[-1:]), "".join(lines[:2] + lines[3:]), LINES.replace(" 7FF8000000000000", ""), LINES[:-17] + "\n",
                     LINES.replace("3FF", "3F")):
            with self.assertRaises(ValueError):
                script().table(text)


class Command(unittest.TestCase):
    def setUp(self):
        self.folder = tempfile.mkdtemp()
        self.addCleanup(shutil.rmtree, self.folder)
        for name in ("list", "built.py", "chart.py"):
            os.makedirs(self.at("tools"), exist_ok=True)
            shutil.copy(os.path.join(TOOLS, name), self.at("tools"))
        for crate in ("floats", "other", "text", "lister", "rater"):
            for part in ("src", "specs", "proofs"):
                os.makedirs(self.at("crates", crate, part))
        self.write("crates.txt", CRATES)
        self.write("lines", LINES)
        self.write("crates/floats/src/lib.rt", "")
        self.write("a.chart", "any bytes")
        os.mkdir(self.at("kit"))
        self.write("kit/rt", RT)
        os.chmod(self.at("kit", "rt"), 0o755)
        self.age()

    def at(self, *path):
        return os.path.join(self.folder, *path)

    def write(self, name, text):
        with open(self.at(name), "w") as file:
            file.write(text)

    def read(self, name):
        with open(self.at(name)) as file:
            return file.read()

    def age(self):
        """All sources are as of an hour ago."""
        before = time.time() - 3600
        for top, folders, files in os.walk(self.at("crates")):
            for name in [".", *files]:
                os.utime(os.path.join(top, name), (before, before))
        os.utime(self.at("crates.txt"), (before, before))

    def start(self, *words):
        kit = {**os.environ, "PATH": self.at("kit") + os.pathsep + os.environ["PATH"]}
        return subprocess.Popen([sys.executable, self.at("tools", "list"), *words], env=kit, stdout=subprocess.PIPE, stderr=subprocess.PIPE, text=True, cwd=self.folder,
                                preexec_fn=lambda: signal.signal(signal.SIGINT, signal.SIG_DFL))  # which what runs in the background has ignored

    def listed(self, *words):
        p = self.start(*words or ("a.chart",))
        out, told = p.communicate()
        return p.returncode, out, told.splitlines()

    def builds(self):
        return len(self.read("calls").splitlines()) if os.path.exists(self.at("calls")) else 0

    def test_a_line_a_crate_and_the_rest_in_the_log(self):
        status, out, told = self.listed()
        self.assertEqual((status, out), (0, LINES))
        self.assertRegex(told[0], r"of 3 crates.* minutes.*target/list\.log")
        self.assertRegex("\n".join(told[1:]), r"\A3 of 3 lister, \d+ s\Z")
        self.assertIn("library floats: modules loaded=4", self.read("target/list.log"))
        self.assertEqual(self.read("calls"), "run lister\n")
        self.assertEqual(self.listed(), (0, LINES, []))
        self.assertEqual(self.builds(), 1)

    def test_newer_sources_are_built(self):
        self.listed()
        self.age()
        os.utime(self.at("crates", "other", "src"))
        self.listed()
        self.assertEqual(self.builds(), 1)
        changes = (lambda: os.utime(self.at("crates.txt")), lambda: os.utime(self.at("crates", "floats", "src", "lib.rt")),
                   lambda: self.write("crates/text/specs/New.antt", ""), lambda: os.remove(self.at("crates", "text", "specs", "New.antt")),
                   lambda: os.remove(self.at("crates", "lister", "out", "lister")))
        for k, change in enumerate(changes):
            time.sleep(0.02)  # a file's time may lag behind the clock
            change()
            self.assertEqual([self.listed()[0], self.listed()[0], self.builds()], [0, 0, k + 2])

    def test_failure(self):
        self.write("fails", "")
        for _ in range(2):
            status, out, told = self.listed()
            self.assertEqual((status, out, told[1]), (1, "", "lister NOT PROVED"))
            self.assertIn("target/list.log", told[2])
        os.remove(self.at("fails"))
        self.assertEqual(self.listed()[:2], (0, LINES))

    def test_stopping_leaves_nothing_behind(self):
        for how in (signal.SIGINT, signal.SIGTERM):
            self.write("slow", "")
            p = self.start("a.chart")
            while not (os.path.exists(self.at("child")) and self.read("child").strip()):
                time.sleep(0.01)
            p.send_signal(how)
            self.assertIn("stopped", p.communicate(timeout=20)[1])
            self.assertEqual(p.returncode, 1)
            for _ in range(500):  # the child's end may come a little later
                if not runs(int(self.read("child"))):
                    break
                time.sleep(0.01)
            self.assertFalse(runs(int(self.read("child"))))
            os.remove(self.at("slow"))
            os.remove(self.at("child"))
            self.assertRegex("\n".join(self.listed()[2][1:]), r"\A3 of 3 lister, \d+ s\Z")
            os.remove(self.at("crates", "lister", "out", "lister"))

    def test_no_rt(self):
        os.remove(self.at("kit", "rt"))
        p = subprocess.run([sys.executable, self.at("tools", "list"), "a.chart"], env={"PATH": self.at("kit")}, capture_output=True, text=True, cwd=self.folder)
        self.assertEqual((p.returncode, p.stdout, p.stderr.splitlines()[-1]), (1, "", "rt cannot be run"))

    def test_decimal(self):
        self.listed()
        self.assertEqual(self.listed("--decimal", "a.chart"), (0, script().table(LINES), []))
        self.assertEqual(self.read("read"), "any bytes")

    def test_decimal_of_a_refusal(self):
        self.write("lines", "refused 1 0\n")
        self.listed()
        for words in (("a.chart",), ("--decimal", "a.chart"), ("a.chart", "--decimal")):
            self.assertEqual(self.listed(*words), (0, "refused 1 0\n", ["1: the chart has 9 bytes, its header alone takes 80"]))

    def test_decimal_of_half_a_list(self):
        self.write("lines", LINES.partition("totals")[0])
        self.listed()
        status, out, told = self.listed("--decimal", "a.chart")
        self.assertEqual((status, out, told[0]), (1, "", "the lister's lines are not whole:"))

    def test_usage(self):
        for words in (("--decimal",), ("--help",), ("a", "b"), ("--other", "a.chart"), ("--stars", "hidden", "a.chart"), (*ASKED[2:], "a.chart"),
                      ("--stars", "hidden,hidden", *ASKED[2:], "a.chart"), ("--stars", "blinds", *ASKED[2:], "a.chart"), (*ASKED[:3], "quick", *ASKED[4:], "a.chart"),
                      (*ASKED, "--ar", "3", "a.chart"), (*ASKED, "--attraction", "a.chart")):
            self.assertIn("tools/list [--decimal] CHART", self.listed(*words)[2][2])

    def test_stars(self):
        self.write("lines", "ratings 4000000000000000 3FF8000000000000 0000000000000000 400921FB54442D18\n")
        status, out, told = self.listed(*ASKED, "--start-scale", "2", "a.chart")
        self.assertEqual((status, out.splitlines()), (0, ["aim rating         2.0", "speed rating       1.5", "flashlight rating  0.0", "stars              3.141592653589793"]))
        self.assertRegex(told[0], "The rater is built")
        self.assertEqual(self.read("calls"), "run rater\n")
        with open(self.at("read"), "rb") as file:
            self.assertEqual(file.read(), struct.pack("<II5d", 1 << 4 | 1 << 3, 2, 9.5, 8.0, 1.14, 0.0, 2.0) + b"any bytes")
        self.listed("--stars", "none", *ASKED[2:], "--attraction", "-0.5", "a.chart")
        with open(self.at("read"), "rb") as file:
            self.assertEqual(file.read()[:48], struct.pack("<II5d", 0, 1, 9.5, 8.0, 1.14, -0.5, 0.0))

    def test_half_a_rating(self):
        self.write("lines", "ratings 4000000000000000\n")
        self.listed(*ASKED, "a.chart")
        status, out, told = self.listed(*ASKED, "a.chart")
        self.assertEqual((status, out, told[0]), (1, "", "the rater's lines are not whole:"))


@unittest.skipUnless(script().built.is_built("lister"), "the lister is not built, or older than its sources")
class Lister(unittest.TestCase):
    def listed(self, name, data=None, words=()):
        p = subprocess.run([os.path.join(TOOLS, "list"), *words, name], input=data, capture_output=True)
        return p.stdout.decode(), p.stderr.decode()

    def test_two_circles(self):
        name = os.path.join(os.path.dirname(TOOLS), "examples", "two_circles.txt")
        out, told = self.listed(name)
        self.assertEqual(out.splitlines(), [
            "objects 2", "1 0000000000000000 0000000000000000 3FF0000000000000 3FF0000000000000 0000000000000000",
            "totals 0000000000000000 0000000000000000 3FF1A3D70A3D70A4 0000000000000000",
            "counts 3FF0000000000000 3FF0000000000000 3FF199999999999A 0000000000000000 0000000000000000 0000000000000000 3FEFEBBE888D058D"])
        self.assertEqual(told, "")
        self.assertEqual(self.listed(name, words=("--decimal",)), (script().table(out), ""))

    def test_refusals_are_explained(self):
        self.assertEqual(self.listed("-", bytes(32_769)), ("refused 7 0\n", "7: the chart has 32,769 bytes, the lister takes 32,768 at most\n"))
        self.assertEqual(self.listed("-", b""), ("refused 1 0\n", "1: the chart has 0 bytes, its header alone takes 80\n"))


@unittest.skipUnless(script().built.is_built("rater"), "the rater is not built, or older than its sources")
class Rater(unittest.TestCase):
    def rated(self, name, *words, data=None):
        p = subprocess.run([os.path.join(TOOLS, "list"), *words, name], input=data, capture_output=True)
        return p.stdout.decode(), p.stderr.decode()

    def test_two_circles(self):
        out, told = self.rated(os.path.join(os.path.dirname(TOOLS), "examples", "two_circles.txt"), *ASKED)
        self.assertEqual((out.splitlines(), told), (STARS, ""))

    def test_refusals_are_explained(self):
        name = os.path.join(os.path.dirname(TOOLS), "examples", "two_circles.txt")
        for option, what in (("--ar", "approach rate"), ("--od", "overall difficulty"), ("--base", "base multiplier")):
            words = list(ASKED)
            words[words.index(option) + 1] = "inf"
            self.assertEqual(self.rated(name, *words), ("refused 10 0\n", f"10: the {what} is inf, which is not finite\n"))
        for option, what in (("--attraction", "attraction strength"), ("--start-scale", "start scale")):
            self.assertEqual(self.rated(name, *ASKED, option, "nan"), ("refused 10 0\n", f"10: the {what} is nan, which is not finite\n"))
        self.assertEqual(self.rated("-", *ASKED[:2], "--ar", "inf", *ASKED[4:], data=b""), ("refused 1 0\n", "1: the chart has 0 bytes, its header alone takes 80\n"))
        self.assertEqual(self.rated("-", *ASKED, data=bytes(32_769)), ("refused 7 0\n", "7: the chart has 32,769 bytes, the lister takes 32,768 at most\n"))


if __name__ == "__main__":
    unittest.main()
