#!/usr/bin/env python3
"""Lays charts one behind the other in a pack and ranks them, then both halves alone, and joins these. rank.c does the same.

    rank.py LIBSTATION.so CHART..
"""
import sys

sys.dont_write_bytecode = True
from station import HIDDEN, Library, Refusal, rank

NUMBERS = 9.5, 8, 1.14, 0, 0


def print_answer(answer):
    print(*(["refused", answer.number, answer.place] if isinstance(answer, Refusal) else ["listing", *answer]))


def main():
    library, pack, offsets = Library(sys.argv[1]), b"", []
    for name in sys.argv[2:]:
        offsets.append(len(pack))
        with open(name, "rb") as file:
            pack += file.read()
    half = len(offsets) // 2
    print_answer(rank(library, pack, offsets, HIDDEN, NUMBERS))
    parts = [rank(library, pack, part, HIDDEN, NUMBERS) for part in (offsets[:half], offsets[half:])]
    refused = any(isinstance(part, Refusal) for part in parts)
    print_answer(rank(library, pack, offsets if refused else parts[0] + parts[1], HIDDEN, NUMBERS, first=half))


if __name__ == "__main__":
    main()
