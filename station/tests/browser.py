"""The station in a browser: every way to edit, and after each the shown values against the lister's for the saved chart, bit for bit."""
import os
import struct
import time

from selenium.webdriver.common.keys import Keys

from page import ROOT, Page, script, serving
import chart

listing = script("list")
RATINGS = {"mods": 24, "numbers": {"p0-approachRate": "9.5", "p0-overallDifficulty": "7.5", "p0-baseMultiplier": "1.14", "p0-startScale": "2"}}


# ---------------------------------------------------------------- the lister and the rater

def listed(data):
    """What the lister prints of a chart: rows of values, totals and counts, as words."""
    status, text = listing.answer("lister", data)
    assert status == 0 and text.startswith("objects"), text
    lines = [line.split(" ") for line in text.splitlines()]
    return [words[1:] for words in lines if words[0].isdigit()], lines[-2][1:], lines[-1][1:]


def rated(data, mods, given, numbers):
    """What the rater prints."""
    _, text = listing.answer("rater", struct.pack("<II5d", mods, given, *numbers) + data)
    return text.split()[1:]


def changed(before, after, moved=0, place=0):
    """Places of the second listing whose values have other bits than the same objects have in the first."""
    old, new = listed(before)[0], listed(after)[0]
    was = lambda k: k if not moved or k < place else None if moved > 0 and k == place else k - moved
    row = lambda rows, k: rows[k - 1] if k is not None and 1 <= k <= len(rows) else None
    return [k for k in range(1, len(new) + 1) if row(new, k) != row(old, was(k))]


class Checks:
    """What is seen on the page, against the programs."""

    def __init__(self, page):
        self.page, self.compared = page, 0

    def same(self, what):
        """Saves the chart; what is shown is what the lister prints of the file. Gives the file's bytes."""
        _, data = self.page.saved()
        assert data == self.page.bytes(), f"{what}: the saved file ({len(data)} bytes) is not the chart ({len(self.page.bytes())})"
        rows, totals, counts = listed(data)
        shown = self.page.shown()
        assert len(shown["places"]) == len(rows) + 1, what
        for k, row in enumerate(rows, 1):
            assert shown["places"][k][1:6] == row, f"{what}: place {k} shows {shown['places'][k]}, the lister prints {row}"
        assert shown["totals"] == totals, f"{what}: totals {shown['totals']}, the lister prints {totals}"
        assert shown["counts"] == counts, f"{what}: counts {shown['counts']}, the lister prints {counts}"
        self.compared += 5 * len(rows) + len(totals) + len(counts)
        assert not self.page.faults(), what
        return data

    def window(self, what, before, after, place, moved=0):
        """Between two charts no value outside k-1 to k+33 (k+32 for a removal) differs, and what the page marks is what differs."""
        found, to = changed(before, after, moved, place), place + (32 if moved < 0 else 33)
        assert all(place - 1 <= k <= to for k in found), f"{what}: {found}"
        marked = self.page.run("return Array.from(station.editor.marks.rows.keys())")
        assert sorted(marked) == found, f"{what}: marked are {sorted(marked)}, other bits have {found}"
        words = self.page.text("marks")
        assert f"place {place}" in words and "OUTSIDE" not in words, f"{what}: {words}"

    def refused(self, what, act, words, bubble="beside"):
        """An act is refused with a sentence that has these words, and nothing moves."""
        before, shown = self.page.bytes(), self.page.shown()
        act()
        # shown, and its sentence written, which may come a frame later
        self.page.wait("const it = document.getElementById(arguments[0]); return !it.hidden && it.textContent.trim() !== ''", f"{what} is refused", bubble)
        sentence = self.page.run("return document.getElementById(arguments[0]).textContent", bubble)
        assert words in sentence, f"{what}: {sentence!r} has not {words!r}"
        return before, shown

    def unmoved(self, what, before, shown):
        assert self.page.bytes() == before and self.page.shown() == shown, f"{what}: something moved"


# ---------------------------------------------------------------- what is tried

def dragging(page, checks):
    """By pointer, in place and in time; a slider goes with its nested entries; undone and redone."""
    first = checks.same("as opened")
    place = 2
    page.go_to(place)
    page.drag(page.note(place), [(9, 4)] * 6)
    second = checks.same("a note dragged in place")
    assert first != second
    checks.window("a note dragged in place", first, second, place)
    page.drag(page.note(3, lane=True), [(4, 0)] * 4)
    third = checks.same("a note dragged in time")
    assert chart.unpack(third).objects[3][0] != chart.unpack(second).objects[3][0]
    checks.window("a note dragged in time", second, third, 3)
    page.go_to(5)
    page.drag(page.note(5), [(8, -3)] * 5)
    fourth = checks.same("a slider dragged")
    checks.window("a slider dragged", third, fourth, 5)
    moved, old = chart.unpack(fourth), chart.unpack(third)
    shift = [chart.value(moved.nested[k][1], 32) - chart.value(old.nested[k][1], 32) for k in range(len(old.nested))]
    assert any(shift) and [bool(x) for x in shift].count(True) == old.objects[5][9], f"nested entries moved by {shift}"
    page.drag(page.note(5), [(8, -3)] * 5 + [(-8, 3)] * 5)
    assert checks.same("a slider dragged to and fro") == fourth
    page.hold(page.note(2), [(9, 4)] * 3)
    page.keys(Keys.ESCAPE)
    page.release()
    assert checks.same("a drag let go") == fourth
    for want in (third, second, first):
        page.control("z")
        assert checks.same("undone") == want
    for want in (second, third, fourth):
        page.control("z", shift=True)
        assert checks.same("redone") == want
    return 3


def sharing(page, checks):
    """Two sliders of the same nested entries: the one that is dragged gets its own, the other keeps its values."""
    lines = ["slider at 1000 to 1400 x 100 y 100", "  tick at 1200 x 150 y 100", "  tail at 1400 x 200 y 100", "  point x 0 y 0", "  point x 100 y 0",
             "slider at 1800 to 2200 x 120 y 200 nested 0 2 points 0 2", "circle at 2600 x 300 y 300"]
    settings = ["clock-rate 1", "radius 36", "hit-window 45", "preempt 700", "fade-in 400", "factor 1.3"]
    page.drop("shared.txt", "\n".join(settings + lines).encode())
    before = checks.same("shared entries")
    page.go_to(1)
    page.drag(page.note(1), [(6, 6)] * 5)
    after = checks.same("one of two sliders dragged")
    old, new = chart.unpack(before), chart.unpack(after)
    assert new.nested[:2] == old.nested and len(new.nested) == 4 and new.objects[0] == old.objects[0] and new.objects[1][8] == 2, chart.to_text(after)
    page.control("z")
    page.control("z")


def far(page, checks):
    """Edits in a chart that is longer than what one can reach: clients/example.chart, of 102 objects."""
    with open(os.path.join(ROOT, "clients", "example.chart"), "rb") as file:
        page.give("example.chart", file.read())
    before = checks.same("102 objects")
    for place in (0, 30, 68, 101):
        page.go_to(place)
        page.enter("field-x", "77")
        after = checks.same(f"place {place} moved")
        checks.window(f"place {place} moved", before, after, place)
        page.run("document.getElementById('playfield').focus()")
        page.keys("c")
        more, put = checks.same("one more"), page.run("return station.editor.selected")
        checks.window("one more", after, more, put, 1)
        page.go_to(place)
        page.keys(Keys.DELETE)
        fewer = checks.same("one fewer")
        checks.window("one fewer", more, fewer, place, -1)
        for want in (more, after, before):
            page.control("z")
            assert checks.same("undone") == want
    page.control("z")


def by_keys(page, checks):
    """Arrows and brackets, insertion, removal, undo by the buttons."""
    page.go_to(9)
    before = checks.same("before keys")
    page.run("document.getElementById('playfield').focus()")
    page.keys(Keys.ARROW_RIGHT, Keys.ARROW_DOWN, Keys.ARROW_DOWN)
    page.shifted(Keys.ARROW_LEFT)
    page.keys("[", "]", "]")
    page.run("station.editor.settle()")
    after = checks.same("a note moved by keys")
    new, old = chart.unpack(after).objects[9], chart.unpack(before).objects[9]
    moved = tuple(chart.value(new[i], width) - chart.value(old[i], width) for i, width in ((2, 32), (3, 32), (0, 64)))
    assert moved == (9, 20, 10), moved
    checks.window("a note moved by keys", before, after, 9)
    page.click("undo")
    assert checks.same("keys undone") == before, "one run of keys is one edit"
    for key, kind in (("c", chart.CIRCLE), ("s", chart.SLIDER), ("p", chart.SPINNER)):
        page.run("station.editor.seek(4300)")
        page.keys(key)
        data = checks.same(f"{chart.KINDS[kind]} put in")
        place = page.run("return station.editor.selected")
        assert chart.unpack(data).objects[place][6] == kind and len(chart.unpack(data).objects) == len(chart.unpack(before).objects) + 1
        checks.window("an insertion", before, data, place, 1)
        page.keys(Keys.DELETE)
        gone = checks.same("taken out again")
        checks.window("a removal", data, gone, place, -1)
        page.click("undo")
        assert checks.same("a removal undone") == data
        page.click("undo")
        assert checks.same("an insertion undone") == before
    for _ in range(3):
        page.go_to(0)
        page.keys(Keys.DELETE)
    checks.same("the first three taken out")
    for _ in range(3):
        page.control("z")
    assert checks.same("all put back") == before
    return 1


def refusals(page, checks):
    """Each that a hand can meet, with its sentence beside the note; nothing moves."""
    page.go_to(12)
    far = checks.refused("a drag in time past the next note", lambda: page.hold(page.note(12, lane=True), [(15, 0)] * 12), "(5 at place 13)", "beside-time")
    page.release()
    last = page.run("return station.editor.objects[12].start")
    assert last <= page.run("return station.editor.objects[13].start")
    if last != chart.value(chart.unpack(far[0]).objects[12][0], 64):
        page.control("z")
    checks.unmoved("a refused drag", *far)
    page.go_to(12)
    near = checks.refused("a start before the one before", lambda: page.enter("field-start", "10"),
                          "starts before the note before it, which starts at 4475 ms (5 at place 12)")
    checks.unmoved("a start before the one before", *near)
    for field, words, sentence in (("field-x", "140000", "the circle's x is 140000, allowed are -131,072 to 131,072 (3 at place 12)"),
                                   ("field-stackY", "2000", "stack offset y is 2000"),
                                   ("field-start", "-5", "the circle's start is -5, allowed are 0 to 10,000,000 (3 at place 12)")):
        checks.unmoved(field, *checks.refused(field, lambda: page.enter(field, words), sentence))
    page.go_to(18)
    checks.unmoved("6", *checks.refused("too long in time", lambda: page.enter("field-start", "4000000"), "at most 3,000,000 are allowed (6)"))
    page.click("tab-settings")
    before = page.bytes()
    page.enter("p0-radius", "500")
    assert "the radius is 500, allowed are 1 to 200 (2)" in page.text("settings"), page.text("settings")
    page.enter("p0-baseMultiplier", "")
    page.click("tab-figures")
    assert "(10)" in page.text("figures"), page.text("figures")
    page.click("tab-settings")
    page.enter("p0-baseMultiplier", "1.14")
    page.enter("p0-radius", "30")
    assert checks.same("another radius") != before and "OUTSIDE" not in page.text("marks")
    page.click("undo")
    page.click("tab-figures")
    assert page.bytes() == before and checks.same("after refusals") == before and "OUTSIDE" not in page.text("marks")
    return 8


def files(page, checks):
    """Saved and opened again in both forms, dropped, and what is not a chart."""
    data = checks.same("before files")
    name, text = page.saved("save-text")
    assert name == "verse.txt" and text.decode() == chart.to_text(data)
    page.example("two_circles")
    checks.same("two circles")
    page.give("again.txt", text)
    assert page.run("return station.editor.name") == "again" and checks.same("the text opened again") == data
    page.example("stated")
    checks.same("sliders of stated length")
    page.control("z")
    page.control("z")
    page.control("z")
    assert page.run("return station.editor.name") == "verse" and checks.same("three openings undone") == data
    page.control("z", shift=True)
    assert page.run("return station.editor.name") == "two_circles" and checks.same("an opening redone") != data
    page.drop("dropped.chart", data)
    assert page.run("return station.editor.name") == "dropped" and checks.same("the bytes dropped") == data
    early = chart.to_bytes(text.decode().replace("at 1200", "at 900"))
    for name, wrong, words in (("junk.chart", b"not a chart", "1: the chart has 11 bytes, its header alone takes 80"),
                               ("cut.chart", data[:-1], "its header says"),
                               ("early.chart", early, "5 at place 1: it starts at 900, before the object at place 0")):
        page.give(name, wrong)
        page.wait("return document.getElementById('note').textContent.startsWith(arguments[0])", f"{name} is refused", name)
        assert words in page.text("note") and page.bytes() == data, page.text("note")
    page.drop("latin.txt", b"\xff\xfe")
    assert "not UTF-8" in page.text("note"), page.text("note")
    wrong_texts(page, text.decode(), data)
    checks.same("after wrong files")
    return 7


def wrong_texts(page, text, data):
    """A text that is wrong is shown with its fault and its line, kept over a reload, and opened once it is right."""
    wrong = text.replace("circle at 1400 x", "circle at 1400 z")
    page.drop("wrong.txt", wrong.encode())
    line = 1 + wrong[:wrong.index("circle at 1400 z")].count("\n")
    assert f"line {line}: z does not belong here" in page.text("text-fault"), page.text("text-fault")
    selected = page.run("const a = document.getElementById('text-area'); return a.value.slice(a.selectionStart, a.selectionEnd)")
    assert selected.startswith("circle at 1400 z"), selected
    page.reload()
    assert page.bytes() == data
    page.keys("t")
    area = page.by("text-area")
    assert area.get_attribute("value") == wrong, "the text is lost"
    page.run("arguments[0].value = arguments[1]; arguments[0].dispatchEvent(new Event('input'))", area, text)
    page.click("text-apply")
    page.wait("return !document.getElementById('text-dialog').open", "the text is open")
    assert page.bytes() == data


def reloading(page, checks):
    """Nothing is lost by a reload."""
    page.go_to(6)
    page.enter("field-y", "310")
    data = checks.same("before a reload")
    page.reload()
    assert checks.same("after a reload") == data and page.run("return station.editor.selected") == 6
    page.control("z")
    assert checks.same("undone after a reload") != data
    page.reload()
    page.control("z", shift=True)
    assert checks.same("redone after a reload") == data
    assert page.run("return document.getElementById('digits').value") == "bits"


def rating(page):
    """Mods and numbers of the settings, against the rater."""
    page.click("tab-settings")
    for name, words in RATINGS["numbers"].items():
        page.enter(name, words)
    for name in ("hidden", "flashlight"):
        page.click(f"p0-{name}")
    page.click("tab-figures")
    want = rated(page.bytes(), RATINGS["mods"], 2, (9.5, 7.5, 1.14, 0, 2))
    assert page.shown()["ratings"] == want, (page.shown()["ratings"], want)


def speed(page):
    """Steps of a drag of a chart with a thousand notes, in milliseconds: the middle one and the one that 19 of 20 do not exceed."""
    page.example("thousand")
    page.go_to(500)
    page.run("window.steps = []; station.editor.addEventListener('step', (e) => steps.push(e.detail.time))")
    for _ in range(3):
        page.drag(page.note(500), [(3, 2)] * 20 + [(-3, -2)] * 20)
    steps = sorted(page.run("return steps"))
    assert len(steps) > 20, f"{len(steps)} steps"
    return steps[len(steps) // 2], steps[len(steps) * 19 // 20], len(steps)


def two_players(page, checks):
    """A second player beside the first, where the library has the calls: its values are the lister's of the chart under its settings, and an edit that is
    refused for one is refused for both."""
    if not page.run("return station.editor.station.forTwo"):
        return "no second player, as the library has no calls for one"
    page.click("tab-settings")
    page.click("second")
    page.enter("p1-clock-rate", "1.5")
    page.enter("p1-radius", "30")
    page.click("p1-flag-autopilot")
    for edit in (lambda: None, lambda: page.drag(page.note(3), [(7, 3)] * 4), lambda: page.keys("n"), lambda: page.keys(Keys.DELETE), lambda: page.control("z"),
                 lambda: (page.go_to(5), page.drag(page.note(5), [(5, 5)] * 3))):
        page.run("document.getElementById('playfield').focus()")
        edit()
        data = checks.same("the first of two players")
        settings = bytes(page.run("return Array.from(station.editor.second)"))
        rows, totals, counts = listed(data[:32] + settings + data[80:])
        shown = page.shown(1)
        assert [place[1:6] for place in shown["places"][1:]] == rows and shown["totals"] == totals and shown["counts"] == counts, "the second of two players"
        checks.compared += 5 * len(rows) + len(totals) + len(counts)
    page.run("station.editor.setSecond(station.editor.settings)")
    page.run("const s = station.editor.settings; new DataView(s.buffer).setFloat64(0, 0.25, true); station.editor.setSecond(s)")
    page.go_to(page.run("return station.editor.objects.length - 1"))
    kept = checks.refused("too long in time for the second player", lambda: page.enter("field-start", "900000"), "(6)")
    checks.unmoved("a refusal for the second player", *kept)
    page.reload()
    assert page.run("return station.editor.station.two"), "the second player is lost by a reload"
    page.click("tab-settings")
    page.click("second")
    return "a second player beside the first"


def playing(page):
    """Time goes on while it plays, at the chart's clock rate and no faster, and stands when it is paused."""
    page.go_to(0)
    page.run("document.getElementById('playfield').focus()")
    begin, began = page.run("return station.editor.time"), time.time()
    page.keys(" ")
    page.wait("return station.editor.time > arguments[0] + 300", "time goes on", begin)
    page.keys(" ")
    reached = page.run("return station.editor.time")
    assert reached - begin <= (time.time() - began) * 1000, f"{reached - begin} ms"
    time.sleep(0.2)
    assert page.run("return station.editor.time") == reached


def labelled(page):
    """Everything that takes the keyboard has a name, the help opens and closes, and nothing came from elsewhere."""
    nameless = page.run("""
        const named = (e) => e.ariaLabel || e.getAttribute('aria-labelledby') || e.labels?.length || e.textContent.trim() || e.title;
        const all = Array.from(document.querySelectorAll('button, input, select, textarea, canvas[tabindex], [role=tab]'));
        return all.filter((e) => !named(e)).map((e) => e.outerHTML)""")
    assert not nameless, nameless
    page.run("document.getElementById('playfield').focus()")
    page.keys("?")
    assert page.by("help-dialog").is_displayed()
    page.keys(Keys.ESCAPE)
    assert not page.by("help-dialog").is_displayed()
    asked = page.run("return performance.getEntriesByType('resource').map((e) => e.name)")
    elsewhere = [name for name in asked if not name.startswith((page.url.removesuffix("station/"), "blob:"))]
    assert not elsewhere, elsewhere


def run():
    """A line that says what was tried; an AssertionError says what is wrong."""
    serving.build()
    began = time.time()
    with Page() as page:
        page.bits()
        checks = Checks(page)
        drags = dragging(page, checks)
        sharing(page, checks)
        far(page, checks)
        by_keys(page, checks)
        refused = refusals(page, checks)
        rating(page)
        wrong = files(page, checks)
        reloading(page, checks)
        two = two_players(page, checks)
        playing(page)
        labelled(page)
        middle, most, steps = speed(page)
        assert not page.faults()
    line = (f"page in chromium: {drags} drags, keys, insertions, removals, undo and redo, {refused} refusals, "
            f"{wrong} files opened or refused, a reload, {two}; {checks.compared} shown numbers as the lister has them; "
            f"a drag step of 1,000 notes {middle:.1f} ms, 19 of 20 of {steps} within {most:.1f} ms")
    print(f"station, {line} ({time.time() - began:.0f} s)", flush=True)
    return line


def shots(folder):
    """Pictures of the page at two sizes, light and dark."""
    serving.build()
    os.makedirs(folder, exist_ok=True)
    for width, height in ((1280, 720), (2560, 1440)):
        for dark in (False, True):
            with Page(width, height, dark) as page:
                page.go_to(5)
                page.drag(page.note(5), [(1, -0.4)] * 40)
                name = f"station-{width}x{height}-{'dark' if dark else 'light'}"
                page.driver.save_screenshot(os.path.join(folder, name + ".png"))
                page.example("thousand")
                page.go_to(60)
                page.drag(page.note(60), [(1, 0.6)] * 40)
                page.driver.save_screenshot(os.path.join(folder, name + "-thousand.png"))
    return f"pictures: 8 in {folder}"
