#!/usr/bin/env python3
"""Opens a chart, drags one of its objects a thousand times, puts one in and takes two out, and prints what a station would show; then edits it for two players, the second at double and
at half speed. client.c does the same.

    client.py LIBSTATION.so CHART
"""
import struct
import sys

sys.dont_write_bytecode = True
from station import FLASHLIGHT, HIDDEN, MOST, Chart, Library, Refusal, Second


def print_answer(what, answer):
    print(f"{what}: refused {answer.number} {answer.place}" if isinstance(answer, Refusal) else f"{what}: carried out")


def print_numbers(what, numbers):
    print(what, *(f"{bits:016X}" for (bits,) in struct.iter_unpack("<Q", bytes(numbers))))


def print_figure(what, answer):
    """A figure's numbers, or its refusal."""
    (print_answer if isinstance(answer, Refusal) else print_numbers)(what, answer)


def show(chart, place):
    """What the chart, that is the first player, or the second shows."""
    readings = (("values", chart.read_values), ("record", chart.read_record), ("parts", chart.read_aim_parts), ("rhythm", chart.read_rhythm))
    for what, read in readings:
        answer = read(place)
        if not isinstance(answer, Refusal):
            print_numbers(what, answer)
    print_figure("totals", chart.totals())
    print_figure("counts", chart.counts())
    print_figure("prefix", chart.totals_to(place))
    print_figure("ratings", chart.ratings(HIDDEN | FLASHLIGHT, 9.5, 8, 1.14, start_scale=2))


def show_playing(chart):
    """The totals while playing, for all numbers of objects; then a list one entry short (7), one object too many (8) and a base multiplier that is not finite (10)."""
    print_figure("prefixes", chart.totals_while_playing())
    print_figure("prefixes", chart.totals_while_playing(chart.objects))
    print_figure("prefix", chart.totals_to(chart.objects + 1))
    print_figure("ratings", chart.ratings(0, 9.5, 8, float("inf")))


def drag(chart, objects, place):
    """Moves the object to and fro. Every tenth step drops it outside the field (3), every seventeenth past the last place (8), every twenty-third is cut short (3 at
    its place)."""
    obj, answers = bytearray(chart.object(place)), [0] * 11
    for step in range(1000):
        x = 200_000 if step % 10 == 9 else 100 + (step % 20 if step % 40 < 20 else 20 - step % 20)
        struct.pack_into("<f", obj, 16, x)
        answer = chart.replace(objects if step % 17 == 16 else place, obj[:40] if step % 23 == 22 else obj)
        answers[answer.number if answer else 0] += 1
        if step % 250 == 0:
            show(chart, place)
    for n, times in enumerate(answers):
        if times:
            print(f"refused {n}: {times} times" if n else f"carried out: {times} times")


def put_in_and_take_out(chart, objects, place):
    """Puts a copy of the object in before it; a second finds no room for another (9). Then the first object of the chart goes out, the copy, and one past the last (8)."""
    obj = chart.object(place)
    print_answer("insertion", chart.insert(place, obj))
    show(chart, place)
    print_answer("insertion", chart.insert(place, obj))
    print_answer("removal", chart.remove(0))
    show(chart, place)
    print_answer("removal", chart.remove(place - 1))
    print_answer("removal", chart.remove(objects - 1))
    show(chart, place - 1)


def settings(chart, speed):
    """The header's settings with its clock rate times a power of two."""
    clock, = struct.unpack_from("<d", chart.settings)
    return struct.pack("<d", clock * speed) + chart.settings[8:]


def put_late(chart, second, milliseconds):
    """Puts a circle at the last place for both players that starts so many milliseconds in, as the first player plays."""
    time = milliseconds * struct.unpack_from("<d", chart.settings)[0]
    print_answer("replacement", chart.replace(chart.objects - 1, struct.pack("<2d", time, time).ljust(chart.object_size, b"\0"), second))


def two_players(chart, place):
    """Opens for a second player, whose settings of 47 bytes are refused (2), and edits for both: an object moved, a copy of it put in, the first object taken out. A circle 4,000 seconds in
    is too late at normal speed alone (6), and one 2,000 seconds in at half speed alone, for which the second player is opened anew."""
    print("second player at double speed")
    second = Second(chart, settings(chart, 2)[:47])
    print_answer("opening", second.open())
    second.settings = settings(chart, 2)
    print_answer("opening", second.open())
    show(second, place)
    obj = bytearray(chart.object(place))
    struct.pack_into("<f", obj, 16, 300)
    print_answer("replacement", chart.replace(place, obj, second))
    print_answer("insertion", chart.insert(place, obj, second))
    print_answer("removal", chart.remove(0, second))
    put_late(chart, second, 4e6)
    show(chart, place)
    show(second, place)
    print("second player at half speed")
    second.settings = settings(chart, 0.5)
    print_answer("opening", second.open())
    put_late(chart, second, 2e6)
    show(chart, place)
    show(second, place)
    print_figure("prefixes", second.totals_while_playing())


def main():
    if len(sys.argv) != 3:
        sys.exit(__doc__.strip())
    with open(sys.argv[2], "rb") as file:
        chart = Chart(Library(sys.argv[1]), file.read(), 1)  # with room for one object more
    objects = chart.objects if chart.objects <= MOST else 0
    print(f"objects {objects}")
    opened = chart.open()
    print_answer("opening", opened)
    if opened is None and objects > 1:
        place = objects // 2
        show(chart, place)
        show_playing(chart)
        drag(chart, objects, place)
        show(chart, place)
        put_in_and_take_out(chart, objects, place)
        show_playing(chart)
        two_players(chart, (objects - 1) // 2)


if __name__ == "__main__":
    main()
