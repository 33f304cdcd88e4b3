#!/usr/bin/env python3
"""Charts and one replacement each, with every pair of faults of replacing's list of conditions.

    fault_pairs.py DIR [--stated]     writes DIR/NAME.chart and DIR/NAME.call (place, entries and the object's bytes in hex, one line)

The faults of the chart are those of conditions 1 to 7, those of the call 8, an object of another length, and 3 to 6 for the chart as it would
become. `tools/replacements.py` takes the calls in place of its own where a .call file stands beside a chart. With --stated the objects have a
stated length (order 4), and each 3 is one that is wrong.
"""
import struct
import sys

FIELDS = "<ddffffIIIIII"
LENGTH = 12  # the field behind these, with stated lengths


def object_bytes(o):
    return struct.pack(FIELDS + "d" * (len(o) > LENGTH), *o)


def chart(change=lambda c: c, stated=False):
    """A circle, a slider with two nested entries and two points, a circle and a spinner; with stated lengths that of the slider is 150."""
    c = {
        "settings": [1.0, 40.0, 50.0, 600.0, 400.0, 1.25, 0], "word28": int(stated),
        "objects": [[1000.0, 1000.0, 10, 20, 0, 0, 0, 0, 0, 0, 0, 0], [1500.0, 1800.0, 30, 40, 0, 0, 1, 1, 0, 2, 0, 2],
                    [2000.0, 2000.0, 50, 60, 0, 0, 0, 0, 0, 0, 0, 0], [2500.0, 2600.0, 70, 80, 0, 0, 2, 0, 0, 0, 0, 0]],
        "nested": [[1600.0, 90, 40, 0, 0], [1800.0, 130, 40, 2, 0], [1700.0, 1, 1, 2, 0]], "points": [[0, 0, 0.0], [100, 0, 100.0], [0, 0, 5.0]], "entries": 4,
    }
    if stated:
        c["objects"] = [o + [150.0 * (o[6] == 1)] for o in c["objects"]]
    change(c)
    body = b"".join(map(object_bytes, c["objects"])) + b"".join(struct.pack("<dffII", *e) for e in c["nested"]) + b"".join(struct.pack("<ffd", *p) for p in c["points"])
    n, m, p = len(c["objects"]), len(c["nested"]), len(c["points"])
    nested_at = 80 + (64 if stated else 56) * n
    head = struct.pack("<8I", n, m, p, 80, nested_at, nested_at + 24 * m, 80 + len(body), c["word28"])
    return head + struct.pack("<5dfI", *c["settings"]) + body, c


def put(o, i, v):
    o[i] = v


def wrong(o, i, v):
    """A wrong field, which is the stated length where there is one."""
    put(o, *((LENGTH, 1.0) if len(o) > LENGTH else (i, v)))


CHART = {
    "1": lambda c: c.update(word28=1 + (len(c["objects"][0]) > LENGTH)), "2": lambda c: put(c["settings"], 0, 0.2), "3": lambda c: wrong(c["objects"][3], 6, 7),
    "4": lambda c: put(c["nested"][0], 4, 1), "5": lambda c: (put(c["objects"][2], 0, 900.0), put(c["objects"][2], 1, 900.0)),
    "6": lambda c: (put(c["objects"][3], 0, 4e6), put(c["objects"][3], 1, 4e6)), "7": lambda c: c.update(entries=3),
}
# faults of the new object at place 2, which is a circle at 2000
OBJECT = {
    "3": lambda o: wrong(o, 2, 200000.0), "4": lambda o: (put(o, 6, 1), put(o, 1, o[1] + 100), put(o, 7, 1), put(o, 8, 1), put(o, 9, 2), put(o, 10, 0), put(o, 11, 2)),
    "5": lambda o: (put(o, 0, o[0] + 600), put(o, 1, o[1] + 600)), "6": lambda o: None,
}


def write(folder, name, data, place, entries, o):
    open(f"{folder}/{name}.chart", "wb").write(data)
    open(f"{folder}/{name}.call", "w").write(f"{place} {entries} {o.hex() or '-'}\n")


def made(stated=False):
    """Name, chart, place, entries and object."""
    chart_faults = [None] + list(CHART)
    pairs = [(a, b) for a in chart_faults for b in chart_faults if (a or "") <= (b or "")]
    calls = [(), ("8",), ("length",)] + [(x,) for x in OBJECT] + [("8", "length")] + [(w, x) for w in ("8", "length") for x in OBJECT] + [(x, y) for x in OBJECT for y in OBJECT if x < y]
    for a, b in pairs:
        for asked in calls:
            if a and b and a != b and asked:
                continue
            if (a or b) and len(asked) > 1:
                continue
            data, c = chart(lambda c: [CHART[f](c) for f in (a, b) if f], stated)
            place, o = 2, [2000.0, 2000.0, 55, 66, 0, 0, 0, 0, 0, 0, 0, 0]
            if "6" in asked:
                place, o = 3, [3.2e6, 3.2e6, 55, 66, 0, 0, 0, 0, 0, 0, 0, 0]
            o += [0.0] * stated
            for f in asked:
                if f in OBJECT:
                    OBJECT[f](o)
            raw = object_bytes(o)
            raw = raw[:56 if stated else 55] if "length" in asked else raw
            place = 4 if "8" in asked else place
            yield "pair-" + "-".join((a or "0", b or "0") + asked), data, place, c["entries"], raw


def main():
    if sys.argv[2:] not in ([], ["--stated"]):
        sys.exit(__doc__)
    for pair in made(len(sys.argv) > 2):
        write(sys.argv[1], *pair)


if __name__ == "__main__":
    main()
