#!/usr/bin/env python3
"""Runs the fuzzer and compares every answer with the oracle's.

  fuzz_compare.py ORACLE FUZZ CALLS SEED..     ORACLE is the folder of the oracle's programs, FUZZ the built clients/fuzz.rs

Every line is compared: refusals by number and place, records, values and totals by their bits, and the chart's bytes after each round. Where a call
is carried out on tables that do not belong to the chart, the oracle says `carried-out`; then ours must not be a refusal.
"""
import collections
import pathlib
import subprocess
import sys
import tempfile


def differ(ours, theirs):
    return ours.startswith("refused") if theirs == "carried-out" else ours != theirs


def compare(oracle, fuzz, calls, seed):
    with tempfile.TemporaryDirectory() as folder:
        print(subprocess.run([fuzz, seed, calls, folder], check=True, capture_output=True, text=True).stdout, end="")
        script = pathlib.Path(folder, "scripts").read_text()
        told = subprocess.run([f"{oracle}/oracle", "batch", "script", "--unopened"], input=script, check=True, capture_output=True, text=True)
        theirs = told.stdout.splitlines()
        ours = pathlib.Path(folder, "answers").read_text().splitlines()
    bad = [(a, b) for a, b in zip(ours, theirs) if differ(a, b)]
    if len(ours) != len(theirs):
        bad.append((f"{len(ours)} lines", f"{len(theirs)} lines"))
    for a, b in bad[:10]:
        print(f"  ours   {a}\n  oracle {b}")
    return bad, collections.Counter(line.split()[0] for line in theirs)


def main():
    oracle, fuzz, calls, *seeds = sys.argv[1:]
    bad, kinds = 0, collections.Counter()
    for seed in seeds:
        found, counted = compare(oracle, fuzz, calls, seed)
        bad += len(found)
        kinds += counted
    print(f"{sum(kinds.values()) - kinds['file']} answers compared ({', '.join(f'{k} {n}' for k, n in sorted(kinds.items()))}); {bad} differ")
    sys.exit(bad > 0)


main()
