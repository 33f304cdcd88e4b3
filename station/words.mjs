// Why the library refused something, in words. Number and place are the library's; the reason is looked up in the bytes, and said as `tools/chart.py` says it.
import { objectSize } from '../clients/station.mjs';
import { ENTRIES, FRONT, KINDS, NESTED, POINT, RANGES, SETTINGS_AT, SLIDER, TAIL, header, nestedOf, objectAt, pointsOf, readSettings,
    viewOf } from './chart.mjs';
import { bitsOf, show } from './text.mjs';

export function grouped(n) {
    return n.toLocaleString('en-US', { maximumFractionDigits: 20 });
}

function said(x, width = 64) {
    if (Number.isNaN(x)) return 'NaN';
    return Number.isFinite(x) ? show(bitsOf(x, width), width) : x < 0 ? '-infinity' : '+infinity';
}

/** What to say of a number outside its range, or null. */
function outside(what, x, width, low, high) {
    return low <= x && x <= high ? null : `${what} is ${said(x, width)}, allowed are ${grouped(low)} to ${grouped(high)}`;
}

function timeFault(what, x) {
    return outside(what, x, 64, 0, 10_000_000);
}

function coordinateFault(what, x, y) {
    return outside(`${what} x`, x, 32, -131_072, 131_072) ?? outside(`${what} y`, y, 32, -131_072, 131_072);
}

/** 1: header, length, counts, offsets or reserved bits wrong. */
function headerFault(bytes) {
    if (bytes.length < FRONT) return `the chart has ${bytes.length} bytes, its header alone takes ${FRONT}`;
    const h = header(bytes), size = objectSize(bytes);
    for (const [n, what, most] of [[h.objects, 'objects', 16_384], [h.nested, 'nested entries', 65_536], [h.points, 'points', 65_536]]) {
        if (n > most) return `the header counts ${grouped(n)} ${what}, allowed are 0 to ${grouped(most)}`;
    }
    if (h.stated > 1) return `the word at 28 is ${grouped(h.stated)}, allowed are 0 (objects of 56 bytes) and 1 (objects of 64 bytes, with a stated length)`;
    let at = FRONT;
    const offsets = [[h.objectsAt, 'offset of the objects', size * h.objects], [h.nestedAt, 'offset of the nested entries', NESTED * h.nested],
        [h.pointsAt, 'offset of the points', POINT * h.points], [h.length, 'length in the header', 0]];
    for (const [found, what, table] of offsets) {
        const because = size === 64 ? ', as the word at 28 is 1: objects have 64 bytes' : '';
        if (found !== at) return `the ${what} is ${grouped(found)}, by the counts it must be ${grouped(at)}${because}`;
        at += table;
    }
    if (bytes.length < at) return `the chart has ${grouped(bytes.length)} bytes, its header says ${grouped(at)}`;
    const flags = viewOf(bytes).getUint32(76, true);
    return flags > 3 ? `the flags are 0x${flags.toString(16).toUpperCase()}, bits other than hidden (1) and autopilot (2) must be 0` : null;
}

/** 2: a setting outside its range; for 48 bytes of settings. */
export function settingFault(settings) {
    const { numbers } = readSettings(settings);
    for (const [i, { name, width, low, high }] of RANGES.entries()) {
        const fault = outside(`the ${name}`, numbers[i], width, low, high);
        if (fault) return fault;
    }
    return null;
}

/** 3: an object's own fields wrong. */
function objectFault(o) {
    const name = KINDS[o.kind] ?? 'object';
    const fault = timeFault(`the ${name}'s start`, o.start) ?? timeFault(`the ${name}'s end`, o.end) ?? coordinateFault(`the ${name}'s`, o.x, o.y)
        ?? outside(`the ${name}'s stack offset x`, o.stackX, 32, -1024, 1024) ?? outside(`the ${name}'s stack offset y`, o.stackY, 32, -1024, 1024);
    if (fault) return fault;
    if (o.kind > 2) return `the kind is ${grouped(o.kind)}, allowed are 0 (circle), 1 (slider) and 2 (spinner)`;
    return o.kind === SLIDER ? sliderFault(o) : otherFault(name, o);
}

function otherFault(name, o) {
    const words = [['number of spans', o.spans], ['first nested entry', o.nestedFirst], ['number of nested entries', o.nestedCount],
        ['first point', o.pointsFirst], ['number of points', o.pointsCount]];
    for (const [what, word] of words) {
        if (word) return `the ${name}'s ${what} is ${grouped(word)}, it must be 0: only a slider has one`;
    }
    if (o.length !== 0) return `the ${name}'s stated length is ${said(o.length)}, it must be 0: only a slider has one`;
    if (name === 'circle' && o.start !== o.end) return `the circle ends at ${said(o.end)} and starts at ${said(o.start)}, it must end where it starts`;
    return o.end < o.start ? `the spinner ends at ${said(o.end)}, before its start at ${said(o.start)}` : null;
}

function sliderFault(o) {
    for (const [what, count] of [['spans', o.spans], ['nested entries', o.nestedCount], ['points', o.pointsCount]]) {
        if (count < 1 || count > 1024) return `the slider's ${what} are ${grouped(count)}, allowed are 1 to 1,024`;
    }
    const lasts = o.end - o.start;
    if (!(lasts >= 0.001)) return `the slider's end minus its start is ${said(lasts)}, at least 0.001 is needed`;
    return outside("the slider's stated length", o.length, 64, 0, 1_000_000);
}

/** 4: a slider's nested entries or points outside their table or wrong. */
function entriesFault(bytes, o) {
    if (o.kind !== SLIDER) return null;
    const h = header(bytes);
    for (const [what, has, first, count] of [['nested entries', h.nested, o.nestedFirst, o.nestedCount], ['points', h.points, o.pointsFirst, o.pointsCount]]) {
        if (first + count > has) return `the slider's ${what} are ${grouped(count)} from number ${grouped(first)} on, the table has ${grouped(has)}`;
    }
    const nested = nestedOf(bytes, o), points = pointsOf(bytes, o);
    for (const [i, e] of nested.entries()) {
        const what = `the slider's nested entry ${i + 1} of ${o.nestedCount}`, last = i + 1 === nested.length;
        const fault = nestedFault(what, e, last) ?? (i > 0 && !last ? turnFault(what, e, nested[i - 1]) : null);
        if (fault) return `${fault} (number ${grouped(o.nestedFirst + i)} of the table)`;
    }
    for (const [i, p] of points.entries()) {
        const fault = pointFault(`the slider's point ${i + 1} of ${o.pointsCount}`, p, i ? points[i - 1].length : null);
        if (fault) return `${fault} (number ${grouped(o.pointsFirst + i)} of the table)`;
    }
    return null;
}

function nestedFault(what, e, last) {
    const fault = timeFault(`${what}: its start`, e.start) ?? coordinateFault(`${what}: its`, e.x, e.y);
    if (fault) return fault;
    const name = ENTRIES[e.kind] ?? `of kind ${grouped(e.kind)}`;
    if (last && e.kind !== TAIL) return `${what} is ${name}, the last must be the tail`;
    if (!last && e.kind > 1) return `${what} is ${name}, all but the last must be tick or repeat`;
    return e.reserved ? `${what}: its reserved word is ${grouped(e.reserved)}, it must be 0` : null;
}

function turnFault(what, e, before) {
    if (e.start < before.start) return `${what} starts at ${said(e.start)}, the one before it at ${said(before.start)}: before the tail starts never fall`;
    if (e.start !== before.start || e.kind >= before.kind) return null;
    return `${what} is a tick at ${said(e.start)}, where the one before it is a repeat: at equal times a tick comes before a repeat`;
}

function pointFault(what, p, before) {
    const fault = coordinateFault(`${what}: its`, p.x, p.y) ?? outside(`${what}: its length`, p.length, 64, 0, 1_000_000);
    if (fault) return fault;
    if (before === null) return p.length === 0 ? null : `${what}: its length is ${said(p.length)}, the first must be 0`;
    return p.length >= before ? null : `${what}: its length is ${said(p.length)}, below the ${said(before)} before it`;
}

/** 5: a start before its predecessor's. */
function orderFault(bytes, place) {
    if (place === 0) return null;
    const start = objectAt(bytes, place).start, before = objectAt(bytes, place - 1).start;
    return start < before ? `it starts at ${said(start)}, before the object at place ${place - 1}, which starts at ${said(before)}` : null;
}

/** 6: the chart too long in time. */
function lengthFault(bytes) {
    const { objects } = header(bytes), clock = viewOf(bytes).getFloat64(32, true);
    if (objects < 2) return null;
    const time = objectAt(bytes, objects - 1).start / clock - objectAt(bytes, 1).start / clock;
    return time <= 3_000_000 ? null : `from place 1 to the last the starts over the clock rate span ${said(time)}, at most 3,000,000 are allowed`;
}

/** Why condition 1 to 6 is met, at its place; null where the bytes do not meet it. */
export function reason(bytes, number, place = 0) {
    if (number === 1) return headerFault(bytes);
    if (number === 2) return settingFault(bytes.subarray(SETTINGS_AT, FRONT));
    if (number === 3) return objectFault(objectAt(bytes, place));
    if (number === 4) return entriesFault(bytes, objectAt(bytes, place));
    if (number === 5) return orderFault(bytes, place);
    return number === 6 ? lengthFault(bytes) : null;
}

/** What is said of a chart that does not open, in the words of `tools/chart.py explain`; lines are those of its objects in a text. */
export function openingSentence(refusal, bytes, lines = []) {
    const { number, place } = refusal, placed = number >= 3 && number <= 5;
    const where = placed ? ` at place ${place}` + (place < lines.length ? `, line ${lines[place]}` : '') : '';
    return `${number}${where}: ${reason(bytes, number, place) ?? refusal.words}`;
}

// What is said beside a note for 7 to 10, and for 1 and 2 where the bytes give no reason.
const PLAIN = {
    1: 'the chart is wrong in its header',
    2: 'a setting is outside its range',
    7: 'a table of the station is too short for this chart',
    8: 'there is no such place',
    9: 'there is no room for another object: a chart has 16,384 at most',
    10: 'a number for the ratings is not finite',
};

// 5, seen from the note that is edited.
function orderSentence(place, at, bytes) {
    const start = (k) => said(objectAt(bytes, k).start);
    if (place === at) return `starts before the note before it, which starts at ${start(place - 1)} ms`;
    if (place === at + 1) return `starts after the note behind it, which starts at ${start(place)} ms`;
    return `the note at place ${place} would start before the one before it`;
}

/** The sentence beside a note whose edit at place `at` was refused; bytes are the chart's as it would have become. */
export function editSentence({ number, place, words }, at, bytes) {
    const placed = number >= 3 && number <= 5;
    const why = number === 5 ? orderSentence(place, at, bytes) : (number <= 6 ? reason(bytes, number, place) : null) ?? PLAIN[number] ?? words;
    return `${why} (${number}${placed ? ` at place ${place}` : ''})`;
}
