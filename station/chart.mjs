// A chart in bytes, as docs/FORMAT.md has it: where its fields stand, read and written.
import { OBJECT, STATED_OBJECT, objectSize } from '../clients/station.mjs';

export const FRONT = 80, NESTED = 24, POINT = 16, SETTINGS_AT = 32, SETTINGS_SIZE = 48;
export const MOST_ENTRIES = 65536;
export const CIRCLE = 0, SLIDER = 1, SPINNER = 2;
export const KINDS = ['circle', 'slider', 'spinner'];
export const ENTRIES = ['tick', 'repeat', 'tail'], TAIL = 2;
export const FLAGS = ['hidden', 'autopilot'];
export const FIELD = { width: 512, height: 384 };

/** The settings in their order: name, bits, unit, lowest and highest. */
export const RANGES = [
    { name: 'clock-rate', width: 64, unit: '', low: 0.25, high: 4 },
    { name: 'radius', width: 64, unit: 'px', low: 1, high: 200 },
    { name: 'hit-window', width: 64, unit: 'ms', low: 1, high: 400 },
    { name: 'preempt', width: 64, unit: 'ms', low: 1, high: 10000 },
    { name: 'fade-in', width: 64, unit: 'ms', low: 1, high: 10000 },
    { name: 'factor', width: 32, unit: '', low: 0.25, high: 50 },
];

export function viewOf(bytes) {
    return new DataView(bytes.buffer, bytes.byteOffset, bytes.byteLength);
}

/** The first eight words: counts of objects, nested entries and points, their offsets, the length, and whether objects have a stated length. */
export function header(bytes) {
    const v = viewOf(bytes), words = Array.from({ length: 8 }, (_, i) => v.getUint32(4 * i, true));
    const [objects, nested, points, objectsAt, nestedAt, pointsAt, length, stated] = words;
    return { objects, nested, points, objectsAt, nestedAt, pointsAt, length, stated };
}

/** The settings in 48 bytes: six numbers and the flags. */
export function readSettings(bytes) {
    const v = viewOf(bytes), numbers = RANGES.map(({ width }, i) => (width === 64 ? v.getFloat64(8 * i, true) : v.getFloat32(8 * i, true)));
    return { numbers, flags: v.getUint32(44, true) };
}

export function writeSettings({ numbers, flags }) {
    const bytes = new Uint8Array(SETTINGS_SIZE), v = viewOf(bytes);
    RANGES.forEach(({ width }, i) => (width === 64 ? v.setFloat64(8 * i, numbers[i], true) : v.setFloat32(8 * i, numbers[i], true)));
    v.setUint32(44, flags, true);
    return bytes;
}

/** The settings of a chart's header. */
export function settingsOf(bytes) {
    return bytes.slice(SETTINGS_AT, SETTINGS_AT + SETTINGS_SIZE);
}

/** An object's fields, from its own bytes. */
export function readObject(bytes) {
    const v = viewOf(bytes), word = (at) => v.getUint32(at, true), single = (at) => v.getFloat32(at, true);
    return {
        start: v.getFloat64(0, true), end: v.getFloat64(8, true), x: single(16), y: single(20), stackX: single(24), stackY: single(28),
        kind: word(32), spans: word(36), nestedFirst: word(40), nestedCount: word(44), pointsFirst: word(48), pointsCount: word(52),
        length: bytes.length === STATED_OBJECT ? v.getFloat64(56, true) : 0,
    };
}

export function writeObject(o, size = OBJECT) {
    const bytes = new Uint8Array(size), v = viewOf(bytes);
    [o.start, o.end].forEach((x, i) => v.setFloat64(8 * i, x, true));
    [o.x, o.y, o.stackX, o.stackY].forEach((x, i) => v.setFloat32(16 + 4 * i, x, true));
    [o.kind, o.spans, o.nestedFirst, o.nestedCount, o.pointsFirst, o.pointsCount].forEach((x, i) => v.setUint32(32 + 4 * i, x, true));
    if (size === STATED_OBJECT) v.setFloat64(56, o.length, true);
    return bytes;
}

/** The bytes of the object at a place; not a copy. */
export function objectBytes(bytes, place) {
    const size = objectSize(bytes), at = FRONT + size * place;
    return bytes.subarray(at, at + size);
}

export function objectAt(bytes, place) {
    return readObject(objectBytes(bytes, place));
}

/** A circle or a spinner of these fields; what only a slider has is 0. */
export function plainObject(fields) {
    return { stackX: 0, stackY: 0, kind: CIRCLE, spans: 0, nestedFirst: 0, nestedCount: 0, pointsFirst: 0, pointsCount: 0, length: 0, ...fields };
}

/** A slider's nested entries, as far as their table has them. */
export function nestedOf(bytes, o) {
    const { nested, nestedAt } = header(bytes), v = viewOf(bytes), found = [];
    for (let i = o.nestedFirst; i < Math.min(o.nestedFirst + o.nestedCount, nested); i++) {
        const at = nestedAt + NESTED * i, word = (k) => v.getUint32(at + k, true);
        found.push({ start: v.getFloat64(at, true), x: v.getFloat32(at + 8, true), y: v.getFloat32(at + 12, true), kind: word(16), reserved: word(20) });
    }
    return found;
}

/** A slider's points, as far as their table has them. */
export function pointsOf(bytes, o) {
    const { points, pointsAt } = header(bytes), v = viewOf(bytes), found = [];
    for (let i = o.pointsFirst; i < Math.min(o.pointsFirst + o.pointsCount, points); i++) {
        const at = pointsAt + POINT * i;
        found.push({ x: v.getFloat32(at, true), y: v.getFloat32(at + 4, true), length: v.getFloat64(at + 8, true) });
    }
    return found;
}

export function writeNested(entries) {
    const bytes = new Uint8Array(NESTED * entries.length), v = viewOf(bytes);
    entries.forEach((e, i) => {
        v.setFloat64(NESTED * i, e.start, true);
        v.setFloat32(NESTED * i + 8, e.x, true);
        v.setFloat32(NESTED * i + 12, e.y, true);
        v.setUint32(NESTED * i + 16, e.kind, true);
        v.setUint32(NESTED * i + 20, e.reserved ?? 0, true);
    });
    return bytes;
}

export function writePoints(points) {
    const bytes = new Uint8Array(POINT * points.length), v = viewOf(bytes);
    points.forEach((p, i) => {
        v.setFloat32(POINT * i, p.x, true);
        v.setFloat32(POINT * i + 4, p.y, true);
        v.setFloat64(POINT * i + 8, p.length, true);
    });
    return bytes;
}

/** A chart of these tables, each in bytes. */
export function joined(settings, size, objects, nested, points) {
    const bytes = new Uint8Array(FRONT + objects.length + nested.length + points.length), v = viewOf(bytes);
    const nestedAt = FRONT + objects.length, pointsAt = nestedAt + nested.length;
    const counts = [objects.length / size, nested.length / NESTED, points.length / POINT], offsets = [FRONT, nestedAt, pointsAt, bytes.length];
    [...counts, ...offsets, Number(size === STATED_OBJECT)].forEach((word, i) => v.setUint32(4 * i, word, true));
    bytes.set(settings, SETTINGS_AT);
    bytes.set(objects, FRONT);
    bytes.set(nested, nestedAt);
    bytes.set(points, pointsAt);
    return bytes;
}

/** The three tables of a chart that opens, in bytes. */
export function tablesOf(bytes) {
    const { nestedAt, pointsAt, length } = header(bytes);
    return { objects: bytes.slice(FRONT, nestedAt), nested: bytes.slice(nestedAt, pointsAt), points: bytes.slice(pointsAt, length) };
}

/** Bytes behind bytes. */
export function behind(...parts) {
    const whole = new Uint8Array(parts.reduce((sum, part) => sum + part.length, 0));
    let at = 0;
    for (const part of parts) {
        whole.set(part, at);
        at += part.length;
    }
    return whole;
}

/** Where a path is at a length: within it by the first point not before that length, past its end along its last segment. */
export function pathAt(points, length) {
    const last = points.length - 1;
    let i = points.findIndex((p) => p.length >= length);
    if (i === 0 || last === 0) return points[Math.max(i, 0)];
    if (i < 0) {
        i = last;
        if (points[i].length - points[i - 1].length < 0.001) return points[i];
    }
    const a = points[i - 1], b = points[i], w = (length - a.length) / (b.length - a.length);
    return { x: a.x + (b.x - a.x) * w, y: a.y + (b.y - a.y) * w };
}

/** A slider's path as it is followed: to its stated length or, where that is 0, to its drawn end. */
export function followed(points, stated) {
    if (!points.length) return [{ x: 0, y: 0 }];
    const drawn = points[points.length - 1].length, length = stated || drawn;
    return [...points.filter((p) => p.length < length || length === drawn), pathAt(points, length)];
}
