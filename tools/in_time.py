#!/usr/bin/env python3
"""Charts whose nested entries stand in time, beside stored ones that came before that rule (order 6).

    in_time.py TOOLS [PROGRAM..]     writes crates/PROGRAM/stdin anew, for all programs below if none is named

TOOLS is the folder of the oracle's scripts. A stored chart that the rule refuses stays; the same chart with its entries in order joins behind
the last, with the calls that it has. The oracle's cases of order 6 join `test_opening`, and `test_replacing` as edits that make them. What has
joined does not join again. tools/answers.py then gives the answers.
"""
import struct
import sys

sys.dont_write_bytecode = True
import answers
import chart
import replacements

EDITED = 1  # the slider that the oracle's cases change
LONGEST = 2_600  # bytes of a chart for `test_replacing`


def in_time(b):
    """The chart with every slider's entries before the tail by start, at equal starts ticks before repeats."""
    if chart.header_fault(b):
        return b
    c = chart.unpack(b)
    for o in c.objects:
        if o[6] == chart.SLIDER and 0 < o[9] and o[8] + o[9] <= len(c.nested):
            run = slice(o[8], o[8] + o[9] - 1)
            c.nested[run] = sorted(c.nested[run], key=lambda e: (chart.value(e[0], 64), e[3]))
    return chart.pack(c)


def answer(b):
    return (chart.explain(b) or (0, 0))[:2]


def ordered(items):
    """Of items, each a chart and what belongs to it, those that the rule gives another answer, in order."""
    return [(in_time(b), rest) for b, rest in items if answer(b) != answer(in_time(b))]


def cases():
    """The oracle's charts for order 6."""
    import mkorders
    return [c.pack() for _, c, _ in mkorders.cases_6()]


def edits():
    """For each of them, if it isn't long, a chart in which its slider is as it was before, and the call that makes the case of it."""
    import mkcharts
    size = chart.OBJECT.size
    at = chart.FRONT + size * EDITED
    before = mkcharts.base_chart().pack()[at:at + size]
    for b in cases():
        if len(b) <= LONGEST and b[at:at + size] != before:
            yield b[:at] + before + b[at + size:], [(EDITED, struct.unpack_from("<I", b)[0], b[at:at + size])]


def joined(items, new):
    """The items, behind them those that are in order where these aren't, and behind all the new ones."""
    more = ordered([item for item in items if item not in new]) + new
    return items + [item for i, item in enumerate(more) if item not in items and item not in more[:i]]


def charts_again(program, data):
    new = [(b, None) for b in cases() if program == "test_opening"]
    items = joined([(b, None) for b in answers.charts_of(data)], new)
    return b"".join(struct.pack("<I", len(b)) + b for b, _ in items)


def calls_again(program, data):
    return b"".join(replacements.packed(*item) for item in joined(list(replacements.unpacked(data)), list(edits())))


PROGRAMS = {**dict.fromkeys(("test_opening", "test_records", "test_outer", "test_strains"), charts_again), "test_replacing": calls_again}


def main():
    if len(sys.argv) < 2 or any(p not in PROGRAMS for p in sys.argv[2:]):
        sys.exit(__doc__)
    sys.path.insert(0, sys.argv[1])
    import mkcharts  # mkorders takes its names
    for program in sys.argv[2:] or PROGRAMS:
        with open(answers.path(program, "stdin"), "rb") as file:
            data = file.read()
        again = PROGRAMS[program](program, data)
        with open(answers.path(program, "stdin"), "wb") as file:
            file.write(again)
        print(program, len(again) - len(data), "bytes more", file=sys.stderr)


if __name__ == "__main__":
    main()
