// Edits as they are carried out, undone and kept: { kind, place, before, after, moved, whole, names }.
//   replace, insert, remove   before and after are an object's bytes, or null where there is none
//   chart                     before and after are the bytes of the whole chart, where more than one object changes
// moved is the number of objects that come in at the place: 1, 0 or -1; whole says that any place can have changed; names are those of both charts
// where another was opened.
import { objectSize } from '../clients/station.mjs';
import { MOST_ENTRIES, NESTED, POINT, SETTINGS_AT, SLIDER, TAIL, behind, header, joined, nestedOf, objectAt, objectBytes, settingsOf, tablesOf, writeNested,
    writeObject, writePoints } from './chart.mjs';

const INVERSE = { replace: 'replace', insert: 'remove', remove: 'insert', chart: 'chart' };

/** The edit that undoes an edit. */
export function inverse({ kind, place, before, after, moved, whole, names }) {
    return { kind: INVERSE[kind], place, before: after, after: before, moved: -moved, whole, names: names && [names[1], names[0]] };
}

export function same(a, b) {
    return a.length === b.length && a.every((x, i) => x === b[i]);
}

export function isIdle({ before, after }) {
    return Boolean(before && after) && same(before, after);
}

// Whether another slider uses one of these nested entries.
function shared(bytes, place, { nestedFirst, nestedCount }) {
    for (let k = 0; k < header(bytes).objects; k++) {
        const o = objectAt(bytes, k), meets = o.nestedFirst < nestedFirst + nestedCount && nestedFirst < o.nestedFirst + o.nestedCount;
        if (k !== place && o.kind === SLIDER && meets) return true;
    }
    return false;
}

/** A chart in which the slider at a place has other fields, and its nested entries go with it in place and in time; those that another slider uses are
 * left to it and copied. */
function sliderMoved(bytes, place, old, next) {
    const tables = tablesOf(bytes), entries = nestedOf(bytes, old), own = !shared(bytes, place, old), o = { ...next };
    const dx = next.x - old.x, dy = next.y - old.y, was = old.end - old.start, is = next.end - next.start;
    const time = (t) => (was === is ? t + (next.start - old.start) : next.start + ((t - old.start) * is) / was);
    const moved = writeNested(entries.map((e) => ({ ...e, start: time(e.start), x: e.x + dx, y: e.y + dy })));
    if (own || tables.nested.length / NESTED + entries.length > MOST_ENTRIES) tables.nested.set(moved, NESTED * old.nestedFirst);
    else {
        o.nestedFirst = tables.nested.length / NESTED;
        tables.nested = behind(tables.nested, moved);
    }
    tables.objects.set(writeObject(o, objectSize(bytes)), objectSize(bytes) * place);
    return joined(settingsOf(bytes), objectSize(bytes), tables.objects, tables.nested, tables.points);
}

/** The object at a place of a chart gets other fields: one replacement, or, for a slider whose nested entries go with it, the chart as it becomes. */
export function changing(bytes, place, fields) {
    const old = objectAt(bytes, place), next = { ...old, ...fields };
    const goes = ['x', 'y', 'start', 'end'].some((name) => name in fields); // where it is back at its beginning too: a drag may have been elsewhere
    if (old.kind === SLIDER && goes) return { kind: 'chart', place, before: bytes.slice(), after: sliderMoved(bytes, place, old, next), moved: 0 };
    return { kind: 'replace', place, before: objectBytes(bytes, place).slice(), after: writeObject(next, objectSize(bytes)), moved: 0 };
}

/** The place that an object which starts at a time is put in at: behind all that start then or before. */
export function placeFor(objects, time) {
    let low = 0, high = objects.length;
    while (low < high) {
        const middle = (low + high) >> 1;
        if (objects[middle].start <= time) low = middle + 1;
        else high = middle;
    }
    return low;
}

/** A circle or a spinner put in. */
export function inserting(bytes, place, object) {
    return { kind: 'insert', place, before: null, after: writeObject(object, objectSize(bytes)), moved: 1 };
}

/** A slider put in, with a straight path of its own: the entries come into their tables, so the chart is opened as it becomes. */
export function insertingSlider(bytes, place, object, reach) {
    const size = objectSize(bytes), tables = tablesOf(bytes);
    const tail = writeNested([{ start: object.end, x: object.x + reach, y: object.y, kind: TAIL }]);
    const points = writePoints([{ x: 0, y: 0, length: 0 }, { x: reach, y: 0, length: Math.abs(reach) }]);
    const first = { nestedFirst: tables.nested.length / NESTED, pointsFirst: tables.points.length / POINT };
    const o = { ...object, ...first, kind: SLIDER, spans: 1, nestedCount: 1, pointsCount: 2 };
    const at = size * place, objects = behind(tables.objects.subarray(0, at), writeObject(o, size), tables.objects.subarray(at));
    const after = joined(settingsOf(bytes), size, objects, behind(tables.nested, tail), behind(tables.points, points));
    return { kind: 'chart', place, before: bytes.slice(), after, moved: 1 };
}

export function removing(bytes, place) {
    return { kind: 'remove', place, before: objectBytes(bytes, place).slice(), after: null, moved: -1 };
}

/** Other settings in the header. */
export function setting(bytes, settings) {
    const after = bytes.slice();
    after.set(settings, SETTINGS_AT);
    return { kind: 'chart', place: 0, before: bytes.slice(), after, moved: 0, whole: true };
}

/** Another chart in place of this one. */
export function opening(bytes, after, names) {
    return { kind: 'chart', place: 0, before: bytes.slice(), after, moved: 0, whole: true, names };
}

/** The bytes of a chart as an edit would leave them, to say why it was refused. */
export function candidate(bytes, { kind, place, after }) {
    if (kind === 'chart') return after;
    const size = objectSize(bytes), at = size * place, { objects, nested, points } = tablesOf(bytes);
    const rest = objects.subarray(kind === 'insert' ? at : at + size);
    return joined(settingsOf(bytes), size, behind(objects.subarray(0, at), after ?? new Uint8Array(0), rest), nested, points);
}
