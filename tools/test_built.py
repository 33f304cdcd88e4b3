#!/usr/bin/env python3
"""Tests of tools/built.py: python3 -m unittest tools/test_built.py

In a folder of its own, with an `rt` and a `rattle` that prove nothing and only make what theirs would make.
"""
import hashlib
import io
import os
import shutil
import subprocess
import sys
import tempfile
import time
import unittest

TOOLS = os.path.dirname(os.path.abspath(__file__))
CRATES = "# the bottom\nfloats:\nroots: floats\ncalls staticlib: print roots floats   # print is the kit's\nlister: print floats\n"
RT = """#!/bin/sh
crate=${PWD##*/}
echo "rt $@ $crate" >>../../calls
[ ! -e ../../fails ] || { echo "rt: the library roots did not build, so nothing above it was checked"; exit 1; }
mkdir -p out
case $1 in
lib) echo archive >out/lib$crate.a ;;
run) echo program >out/$crate; echo "rt: running out/$crate; to give it other input, run that file yourself"; exit 3 ;;
esac
"""
RATTLE = """#!/bin/sh
echo "rattle $@" >>../../calls
while [ "$1" != -o ]; do shift; done
echo archive >$2
"""


class Built(unittest.TestCase):
    def setUp(self):
        self.folder = os.path.realpath(tempfile.mkdtemp())
        self.addCleanup(shutil.rmtree, self.folder)
        for crate in ("floats", "roots", "calls", "lister"):
            for part in ("src", "specs", "proofs"):
                os.makedirs(self.at("crates", crate, part))
        self.write("crates.txt", CRATES)
        os.makedirs(self.at("tools"))
        shutil.copy(os.path.join(TOOLS, "built.py"), self.at("tools"))
        for name, text in (("rt", RT), ("rattle", RATTLE)):
            self.write(f"kit/bin/{name}", text)
            os.chmod(self.at("kit", "bin", name), 0o755)
        before = time.time() - 3600
        for top, _, files in os.walk(self.at("crates")):
            for name in [".", *files]:
                os.utime(os.path.join(top, name), (before, before))
        os.utime(self.at("crates.txt"), (before, before))

    def at(self, *path):
        return os.path.join(self.folder, *path)

    def write(self, name, text):
        os.makedirs(os.path.dirname(self.at(name)), exist_ok=True)
        with open(self.at(name), "w") as file:
            file.write(text)

    def built(self, *names):
        """Status, lines on both outputs, and the commands since the last call."""
        path = self.at("kit", "bin") + os.pathsep + os.environ["PATH"]
        p = subprocess.run([sys.executable, "-B", self.at("tools", "built.py"), *names], env={**os.environ, "PATH": path}, capture_output=True, text=True)
        calls = []
        if os.path.exists(self.at("calls")):
            with open(self.at("calls")) as file:
                calls = file.read().splitlines()
            os.remove(self.at("calls"))
        return p.returncode, p.stdout.split(), p.stderr, calls

    def gate(self):
        """As .ci/run leaves it: libraries in out/, and their sums."""
        lines = io.StringIO()
        for crate in ("floats", "roots"):
            name = f"crates/{crate}/out/rlib/{crate}.rlib/format"
            self.write(name, f"sum of {crate}\n")
            lines.write(f"{hashlib.sha256(f'sum of {crate}{chr(10)}'.encode()).hexdigest()}  {name}\n")
        self.write("target/ci.libraries", lines.getvalue())

    def test_by_rt(self):
        places = ["crates/calls/out/libcalls.a", "crates/lister/out/lister"]
        self.assertEqual(self.built("calls", "lister"), (0, places, "", ["rt lib calls", "rt run lister"]))
        self.assertEqual(self.built("calls", "lister"), (0, places, "", []))
        time.sleep(0.02)
        self.write("crates/roots/src/lib.rt", "")
        self.assertEqual(self.built("calls", "lister"), (0, places, "", ["rt lib calls"]))

    def test_over_what_the_gate_proved(self):
        self.gate()
        status, places, _, calls = self.built("calls")
        self.assertEqual((status, places, len(calls)), (0, ["crates/calls/out/libcalls.a"], 1))
        words = calls[0].split()
        self.assertEqual(words[:5], ["rattle", "build", "--crate-name", "calls", "src/lib.rt"])
        for word in (f"floats={self.at('crates', 'floats', 'out', 'rlib', 'floats.rlib')}", f"print={self.at('kit', 'rlibs', 'print.rlib')}"):
            self.assertIn(word, words)

    def test_other_sources_or_libraries_are_proved_anew(self):
        for k, change in enumerate((lambda: self.write("crates/roots/specs/New.antt", ""), lambda: self.write("crates/floats/out/rlib/floats.rlib/format", "another"),
                                    lambda: shutil.rmtree(self.at("crates", "roots", "out")))):
            with self.subTest(k):
                self.gate()
                time.sleep(0.02)
                change()
                shutil.rmtree(self.at("crates", "calls", "out"), ignore_errors=True)
                self.assertEqual(self.built("calls")[3], ["rt lib calls"])

    def test_failure(self):
        self.write("fails", "")
        status, places, told, _ = self.built("calls")
        self.assertEqual((status, places), (1, []))
        self.assertIn("the library roots did not build", told)
        self.assertIn("calls could not be built; the log is target/built.log", told)

    def test_unknown(self):
        self.assertEqual(self.built("other")[:3], (1, [], "crates.txt lists no other\n"))


if __name__ == "__main__":
    unittest.main()
