"""Charts from a seed, of the bytes that docs/FORMAT.md describes: made() gives one that is accepted as a rule, damaged() the same with a fault or two.

They are made to be many and unlike each other, not to be music: few objects and many, dense and far apart, all kinds, sliders that share nothing, with stated lengths and without. Only random() and
getrandbits() of Python's generator are used, which give the same numbers in every version.
"""
import struct

import chart

GAPS = (0, 1e-309, 0.5, 10, 25, 60, 90, 100, 180, 333, 1000, 5000)  # ms from an object to the next
SPECIAL = (0, 1, 2, 0xFFFFFFFF, 0x80000000, 0x7FF00000, 0x7FF80000, 0xFFF00000, 0x00100000, 0x41631340, 1024, 1025)


def below(r, n):
    return int(r.random() * n)


def one_of(r, things):
    return things[below(r, len(things))]


def between(r, low, high):
    return low + (high - low) * r.random()


def f32(x):
    return struct.unpack("<f", struct.pack("<f", x))[0]


def settings(r):
    plain = r.random() < 0.7
    clock = one_of(r, (1, 1, 1.5, 0.75, 2, 0.25, 4, between(r, 0.25, 4)))
    ranges = ((23, 54), (20, 160), (300, 1800), (200, 800), (0.9, 2.2)) if plain else ((1, 200), (1, 400), (1, 10_000), (1, 10_000), (0.25, 50))
    radius, window, preempt, fade, factor = (between(r, low, high) for low, high in ranges)
    return struct.pack("<5dfI", clock, radius, window, preempt, fade, factor, below(r, 4))


class Making:
    """The three tables of a chart while it is made."""

    def __init__(self, r):
        self.r, self.stated = r, r.random() < 0.3
        self.objects, self.nested, self.points = [], [], []
        self.x, self.y, self.spread = 256.0, 192.0, one_of(r, (0, 5, 40, 120, 300, 3000))

    def step(self):
        """The next position, some way off the last."""
        r = self.r
        self.x = min(max(self.x + between(r, -self.spread, self.spread), -2000), 2000)
        self.y = min(max(self.y + between(r, -self.spread, self.spread), -2000), 2000)
        return f32(self.x), f32(self.y)

    def slider(self, start, end, x, y):
        """The words of a slider behind its kind; its nested entries and points go into their tables."""
        r, spans = self.r, 1 + below(self.r, 4)
        between_them = sorted((between(r, start, end), below(r, 2)) for _ in range(below(r, 6)))
        words = [spans, len(self.nested), len(between_them) + 1]
        for at, kind in [*between_them, (max(start, end - 36), chart.TAIL)]:
            self.nested.append(struct.pack("<dffII", at, x + between(r, -200, 200), y + between(r, -200, 200), kind, 0))
        count, length = 1 + below(r, 5), 0.0
        words += [len(self.points), count]
        for i in range(count):
            self.points.append(struct.pack("<ffd", between(r, -200, 200) if i else 0, between(r, -200, 200) if i else 0, length))
            length += one_of(r, (0, 0.0005, 1, between(r, 0, 150)))
        return words

    def object(self, start):
        r, (x, y) = self.r, self.step()
        kind = one_of(r, (chart.CIRCLE,) * 6 + (chart.SLIDER,) * 3 + (chart.SPINNER,))
        end = start if kind == chart.CIRCLE else start + (0.002 if r.random() < 0.05 else between(r, 1, 900))
        words = self.slider(start, end, x, y) if kind == chart.SLIDER else [0] * 5
        stack = f32(-6.4 * below(r, 3))
        made = struct.pack("<2d4f6I", start, end, x, y, stack, stack, kind, *words)
        if self.stated:
            made += struct.pack("<d", one_of(r, (0, between(r, 0, 400))) if kind == chart.SLIDER else 0)
        self.objects.append(made)
        return end


def made(r):
    """One chart."""
    m, gap, at = Making(r), one_of(r, GAPS), between(r, 0, 2000)
    count = below(r, 4) if r.random() < 0.1 else 4 + below(r, 36 if r.random() < 0.8 else 160)
    for _ in range(count):
        end = m.object(at)
        if r.random() < 0.25:
            gap = one_of(r, GAPS)
        at = (end if r.random() < 0.5 else at) + gap * one_of(r, (1, 1, 1, 0.5, 2, between(r, 0.9, 1.1)))
    parts = m.objects, m.nested, m.points
    ends = [chart.FRONT]
    for part in parts:
        ends.append(ends[-1] + sum(map(len, part)))
    return struct.pack("<8I", *map(len, parts), *ends, int(m.stated)) + settings(r) + b"".join(b"".join(part) for part in parts)


def damaged(r, b):
    """The chart with one to three faults: bits turned over, words that mean much, a piece cut off or put behind."""
    b = bytearray(b)
    for _ in range(1 + below(r, 3)):
        how = below(r, 8)
        if how < 4 and b:
            b[below(r, len(b))] ^= 1 << below(r, 8)
        elif how < 7 and len(b) >= 4:
            struct.pack_into("<I", b, 4 * below(r, len(b) // 4), one_of(r, SPECIAL))
        elif r.random() < 0.5:
            del b[below(r, len(b) + 1):]
        else:
            b += bytes(below(r, 100))
    return bytes(b)


def charts(r, count):
    """As many charts; every fourth is damaged."""
    for i in range(count):
        b = made(r)
        yield damaged(r, b) if i % 4 == 3 else b
