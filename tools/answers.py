#!/usr/bin/env python3
"""The answers that the programs' stored inputs must get, by the oracle.

    answers.py TOOLS BUILD [PROGRAM..]     writes crates/PROGRAM/stdout for crates/PROGRAM/stdin, for all programs below if none is named

TOOLS is the folder of the oracle's scripts (second.py), BUILD that of its programs. ORDERS in the environment says which orders have landed, as
it does for these. The inputs stay as they are, so that the output of an older state and that of a newer one answer the same questions.
"""
import os
import re
import struct
import subprocess
import sys
import tempfile

sys.dont_write_bytecode = True
import foreign
import players
import replacements
import scripts

ROOT = os.path.dirname(os.path.dirname(os.path.abspath(__file__)))
LISTER_LIMIT = 32_768


def path(program, name):
    return os.path.join(ROOT, "crates", program, name)


def charts_of(data):
    """The charts of an input that has nothing else: u32 length, bytes, and so on."""
    charts, at = [], 0
    while at < len(data):
        size, = struct.unpack_from("<I", data, at)
        charts.append(data[at + 4:at + 4 + size])
        at += 4 + size
    return charts


class Oracle:
    def __init__(self, tools, build):
        sys.path.insert(0, tools)
        import second
        self.second, self.program = second, os.path.join(build, "oracle")

    def asked(self, words, charts):
        """The oracle's lines for each chart."""
        with tempfile.TemporaryDirectory() as folder:
            names = [os.path.join(folder, f"{i:05}") for i in range(len(charts))]
            for name, b in zip(names, charts):
                with open(name, "wb") as file:
                    file.write(b)
            told = subprocess.run([self.program, "batch", *words], input="\n".join(names), capture_output=True, text=True, check=True).stdout
        return [part.splitlines()[1:] for part in re.split(r"(?m)^(?=file )", told) if part]


def refused(lines):
    return lines[0].startswith("refused")


def opening(oracle, data):
    for lines in oracle.asked(["list", "--no-limit"], charts_of(data)):
        yield lines[0] if refused(lines) else "opened"


def records(oracle, data):
    for lines in oracle.asked(["records", "--no-limit"], charts_of(data)):
        yield from lines


def values(oracle, data):
    """The lister's lines before the totals."""
    for lines in oracle.asked(["list", "--no-limit"], charts_of(data)):
        yield from lines if refused(lines) else lines[:-1]


def strains(oracle, data):
    """The strains of each place, and the lister's totals."""
    charts = charts_of(data)
    for lines, listed in zip(oracle.asked(["strains", "--no-limit"], charts), oracle.asked(["list", "--no-limit"], charts)):
        yield from lines if refused(lines) else lines + listed[-1:]


def playing(oracle, data):
    """The totals after every number of objects, and those after half of the objects by themselves."""
    charts = charts_of(data)
    for b, lines in zip(charts, oracle.asked(["prefix", "--no-limit"], charts)):
        yield from lines
        if not refused(lines):
            yield from oracle.asked(["prefix", str((len(lines) - 2) // 2), "--no-limit"], [b])[0]


def listings(oracle, data):
    charts = charts_of(data)
    for b, lines in zip(charts, oracle.asked(["list", "--counts"], charts)):
        yield from lines if len(b) <= LISTER_LIMIT else ["refused 7 0"]


def replacing(oracle, data):
    for b, calls in replacements.unpacked(data):
        yield from replacements.answers(oracle.program, b, calls)


def tables(oracle, data):
    for b, table in foreign.unpacked(oracle.second, data):
        yield from foreign.answer(oracle.second, b, table)


def calls(oracle, data):
    for b, pattern, lines in scripts.unpacked(data):
        yield from scripts.answers(oracle.second, oracle.program, b, pattern, lines, True)[0]


def calls_of_two(oracle, data):
    """Only where ORDERS names order 8, too."""
    for b, pattern, lines in scripts.unpacked(data):
        yield from players.answers(oracle.second, oracle.program, b, pattern, lines)[0]


PROGRAMS = {"test_opening": opening, "test_records": records, "test_outer": values, "test_strains": strains, "test_playing": playing,
            "test_listings": listings, "test_replacing": replacing, "test_foreign": tables, "test_scripts": calls, "test_players": calls_of_two}


def main():
    if len(sys.argv) < 3 or any(p not in PROGRAMS for p in sys.argv[3:]):
        sys.exit(__doc__)
    oracle = Oracle(*sys.argv[1:3])
    for program in sys.argv[3:] or PROGRAMS:
        with open(path(program, "stdin"), "rb") as file:
            data = file.read()
        lines = list(PROGRAMS[program](oracle, data))
        with open(path(program, "stdout"), "w") as file:
            file.write("".join(line + "\n" for line in lines))
        print(program, len(lines), "lines", file=sys.stderr)


if __name__ == "__main__":
    main()
