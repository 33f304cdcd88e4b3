// The chart as text, as docs/TEXT.md has it. It reads and writes what tools/chart.py does, and says the same of a line that is wrong.
import { ENTRIES, FLAGS, FRONT, KINDS, RANGES, SLIDER, CIRCLE, SETTINGS_AT, behind, viewOf } from './chart.mjs';

const WORDS = ['objects', 'nested', 'points', 'objects-at', 'nested-at', 'points-at', 'length', 'reserved'];
const F32_END = 2 ** 128 - 2 ** 103; // from here on a number rounds to infinity
const SPACE = /[\t-\r\x1c-\x20\x85\xa0\u1680\u2000-\u200a\u2028\u2029\u202f\u205f\u3000]+/;

/** A line that is not of the text form. */
export class TextError extends Error {}

// ---------------------------------------------------------------- numbers. A field is kept as the whole number that its bits make, of 64 bits as a BigInt

const cell = new DataView(new ArrayBuffer(8));

export function valueOf(bits, width) {
    if (width === 64) {
        cell.setBigUint64(0, bits);
        return cell.getFloat64(0);
    }
    cell.setUint32(0, bits);
    return cell.getFloat32(0);
}

export function bitsOf(x, width) {
    if (width === 64) {
        cell.setFloat64(0, x);
        return cell.getBigUint64(0);
    }
    cell.setFloat32(0, x);
    return cell.getUint32(0);
}

export function hex(bits, width) {
    return bits.toString(16).toUpperCase().padStart(width / 4, '0');
}

// Digits and exponent as a decimal: with an exponent below 1e-4 and from 10^most on.
function placed(sign, digits, exponent, most) {
    if (exponent < -4 || exponent >= most) {
        const rest = digits.length > 1 ? '.' + digits.slice(1) : '';
        return `${sign}${digits[0]}${rest}e${exponent < 0 ? '-' : '+'}${String(Math.abs(exponent)).padStart(2, '0')}`;
    }
    if (exponent < 0) return `${sign}0.${'0'.repeat(-exponent - 1)}${digits}`;
    const whole = digits.slice(0, exponent + 1).padEnd(exponent + 1, '0'), rest = digits.slice(exponent + 1);
    return sign + whole + (rest ? '.' + rest : '');
}

function taken(x, fraction) {
    const [mantissa, exponent] = Math.abs(x).toExponential(fraction).split('e');
    return [mantissa.replace('.', ''), Number(exponent)];
}

// The number with so many digits, a tie to the even one; zeros at the end are left out.
function rounded(x, count) {
    let [long, exponent] = taken(x, 60);
    const rest = long.slice(count), half = '5'.padEnd(rest.length, '0');
    let digits = BigInt(long.slice(0, count));
    if (rest > half || (rest === half && digits % 2n === 1n)) digits += 1n;
    let shown = String(digits);
    if (shown.length > count) exponent += 1;
    return placed(x < 0 ? '-' : '', shown.replace(/0+$/, ''), exponent, count);
}

/** The shortest decimal that is read as these bits; 0x and the bits of a NaN or an infinity. */
export function show(bits, width) {
    const x = valueOf(bits, width);
    if (!Number.isFinite(x)) return '0x' + hex(bits, width);
    if (Number.isInteger(x) && Math.abs(x) < 1e15) return (Object.is(x, -0) ? '-' : '') + String(x);
    if (width === 64) {
        const shown = placed(x < 0 ? '-' : '', ...taken(x), 16);
        return /[.e]/.test(shown) ? shown : shown + '.0';
    }
    for (let count = 1; ; count++) {
        const shown = rounded(x, count);
        if (Math.abs(Number(shown)) < F32_END && bitsOf(Number(shown), 32) === bits) return shown;
    }
}

/** The bits of a decimal, rounded to the nearest, or those that 0x gives. */
function readFloat(text, width) {
    if (text.startsWith('0x')) {
        if (!new RegExp(`^0x[0-9A-Fa-f]{${width / 4}}$`).test(text)) throw new TextError(`${text} must have ${width / 4} hex digits`);
        return width === 64 ? BigInt(text) : Number(text);
    }
    if (!/^[+-]?([0-9]+\.?[0-9]*|\.[0-9]+)([eE][+-]?[0-9]+)?$/.test(text)) throw new TextError(`${text} is not a number`);
    const x = Number(text);
    if (!Number.isFinite(width === 64 ? x : Math.fround(x))) throw new TextError(`${text} is too large for ${width} bits`);
    return bitsOf(x, width);
}

function readWord(text) {
    if (!/^([0-9]+|0x[0-9A-Fa-f]+)$/.test(text)) throw new TextError(`${text} is not a whole number`);
    const n = BigInt(text);
    if (n >> 32n) throw new TextError(`${text} is too large for 32 bits`);
    return Number(n);
}

// ---------------------------------------------------------------- bytes. A row is a list of fields, q of 64 bits and i of 32

const OBJECT_FORM = 'qqiiiiiiiiii', STATED_FORM = OBJECT_FORM + 'q', NESTED_FORM = 'qiiii', POINT_FORM = 'iiq', SETTINGS_FORM = 'qqqqqii';

function sizeOf(form) {
    return [...form].reduce((sum, c) => sum + (c === 'q' ? 8 : 4), 0);
}

function unpackRow(view, at, form) {
    return [...form].map((c) => {
        const bits = c === 'q' ? view.getBigUint64(at, true) : view.getUint32(at, true);
        at += c === 'q' ? 8 : 4;
        return bits;
    });
}

function packRows(rows, form) {
    const bytes = new Uint8Array(rows.length * sizeOf(form)), v = viewOf(bytes);
    let at = 0;
    for (const row of rows) {
        [...form].forEach((c, i) => {
            if (c === 'q') v.setBigUint64(at, row[i], true);
            else v.setUint32(at, row[i], true);
            at += c === 'q' ? 8 : 4;
        });
    }
    return bytes;
}

function emptyChart() {
    return { settings: null, objects: [], nested: [], points: [], header: new Map(), rest: new Uint8Array(0), stated: false };
}

/** The bytes of a chart; the words of its header that are not as the tables make them are put in last. */
function pack(c) {
    const tables = [packRows(c.objects, c.stated ? STATED_FORM : OBJECT_FORM), packRows(c.nested, NESTED_FORM), packRows(c.points, POINT_FORM)];
    const words = [c.objects.length, c.nested.length, c.points.length, FRONT];
    for (const table of tables) words.push(words[words.length - 1] + table.length);
    words.push(Number(c.stated));
    for (const [name, word] of c.header) words[WORDS.indexOf(name)] = word;
    return behind(packRows([words], 'iiiiiiii'), packRows([c.settings], SETTINGS_FORM), ...tables, c.rest);
}

/** The chart in bytes that have a header, as much of its tables as is there. */
function unpack(bytes) {
    const c = emptyChart(), v = viewOf(bytes), words = unpackRow(v, 0, 'iiiiiiii');
    let at = FRONT, whole = true;
    c.settings = unpackRow(v, SETTINGS_AT, SETTINGS_FORM);
    c.stated = words[7] === 1;
    const forms = [c.stated ? STATED_FORM : OBJECT_FORM, NESTED_FORM, POINT_FORM], tables = [c.objects, c.nested, c.points];
    for (const [i, table] of tables.entries()) {
        const form = forms[i], count = words[i];
        const fits = whole ? Math.min(count, Math.floor((bytes.length - at) / sizeOf(form))) : 0;
        for (let i = 0; i < fits; i++) table.push(unpackRow(v, at + sizeOf(form) * i, form));
        at += sizeOf(form) * fits;
        whole = whole && fits === count;
    }
    if (!c.stated) for (const o of c.objects) o.push(0n);
    c.rest = bytes.slice(at);
    const made = unpackRow(viewOf(pack(c)), 0, 'iiiiiiii');
    WORDS.forEach((name, i) => words[i] !== made[i] && c.header.set(name, words[i]));
    return c;
}

// ---------------------------------------------------------------- bytes to text

function entryLine([start, x, y, kind, word]) {
    return `${ENTRIES[kind] ?? `entry kind ${kind}`} at ${show(start, 64)} x ${show(x, 32)} y ${show(y, 32)}` + (word ? ` reserved ${word}` : '');
}

function pointLine([x, y, length]) {
    return `point x ${show(x, 32)} y ${show(y, 32)} length ${show(length, 64)}`;
}

/** A table's lines: those of a slider stand under it where they are the next of the table, others are loose. */
class Table {
    constructor(entries, line, ranges) {
        Object.assign(this, { entries, line, written: 0, used: new Uint8Array(entries.length) });
        for (const [first, count] of ranges) this.used.fill(1, Math.min(first, entries.length), Math.min(first + count, entries.length));
    }

    loose(to) {
        const lines = this.entries.slice(this.written, to).map((e) => 'loose ' + this.line(e));
        this.written = to;
        return lines;
    }

    /** Loose lines before and lines under a slider that uses these entries; null where they cannot stand there. */
    take(first, count) {
        const here = count > 0 && count <= this.entries.length - first && first >= this.written;
        if (!here || this.used.subarray(this.written, first).includes(1)) return null;
        const before = this.loose(first);
        this.written = first + count;
        return [before, this.entries.slice(first, first + count).map((e) => '  ' + this.line(e))];
    }
}

function objectLines([start, end, x, y, stackX, stackY, kind, spans, nestedFirst, nestedCount, pointsFirst, pointsCount, length], tables) {
    let line = `${KINDS[kind] ?? `object kind ${kind}`} at ${show(start, 64)}`;
    if (kind !== CIRCLE || end !== start) line += ` to ${show(end, 64)}`;
    line += ` x ${show(x, 32)} y ${show(y, 32)}`;
    if (stackX || stackY) line += ` stack ${show(stackX, 32)} ${show(stackY, 32)}`;
    if (spans !== Number(kind === SLIDER)) line += ` spans ${spans}`;
    const before = [], under = [];
    for (const [name, first, count] of [['nested', nestedFirst, nestedCount], ['points', pointsFirst, pointsCount]]) {
        const taken = kind === SLIDER ? tables[name].take(first, count) : null;
        if (taken) {
            before.push(...taken[0]);
            under.push(...taken[1]);
        } else if (kind === SLIDER || first || count) line += ` ${name} ${first} ${count}`;
    }
    if (length) line += ` length ${show(length, 64)}`;
    return [...before, line, ...under];
}

function flagWords(flags) {
    const words = FLAGS.filter((_, i) => (flags >>> i) & 1), other = (flags & ~3) >>> 0;
    if (other) words.push('0x' + other.toString(16).toUpperCase());
    return words.join(' ') || 'none';
}

function bytesLines(bytes) {
    const lines = [];
    for (let i = 0; i < bytes.length; i += 32) lines.push('bytes ' + Array.from(bytes.subarray(i, i + 32), (b) => b.toString(16).padStart(2, '0')).join(''));
    return lines;
}

/** The text form of any bytes. */
export function toText(bytes) {
    if (bytes.length < FRONT) return (bytes.length ? bytesLines(bytes) : ['bytes']).join('\n') + '\n';
    const c = unpack(bytes), lines = RANGES.map(({ name, width, unit }, i) => `${name} ${show(c.settings[i], width)} ${unit}`.trimEnd());
    lines.push('flags ' + flagWords(c.settings[6]));
    if (c.stated && !c.objects.some((o) => o[12])) lines.push('lengths stated');
    for (const [name, word] of c.header) lines.push(`header ${name} ${word}`);
    lines.push('');
    const sliders = c.objects.filter((o) => o[6] === SLIDER);
    const tables = {
        nested: new Table(c.nested, entryLine, sliders.map((o) => [o[8], o[9]])),
        points: new Table(c.points, pointLine, sliders.map((o) => [o[10], o[11]])),
    };
    for (const o of c.objects) lines.push(...objectLines(o, tables));
    for (const table of Object.values(tables)) lines.push(...table.loose(table.entries.length));
    return [...lines, ...bytesLines(c.rest)].join('\n') + '\n';
}

// ---------------------------------------------------------------- text to bytes

// the values of each key: floats of so many bits, or whole numbers (0)
const KEYS = { at: [64], to: [64], x: [32], y: [32], stack: [32, 32], kind: [0], spans: [0], nested: [0, 0], points: [0, 0], reserved: [0], length: [64] };

/** The pairs `key value` of a line, in any order. */
function readKeys(words, needed, allowed) {
    const found = {}, rest = [...words], known = [...needed, ...allowed];
    while (rest.length) {
        const key = rest.shift();
        if (!known.includes(key)) throw new TextError(`${key} does not belong here; known are ${known.join(', ')}`);
        if (Object.hasOwn(found, key)) throw new TextError(`${key} is given twice`);
        if (rest.length < KEYS[key].length) throw new TextError(`${key} has no value`);
        found[key] = rest.splice(0, KEYS[key].length).map((word, i) => (KEYS[key][i] ? readFloat(word, KEYS[key][i]) : readWord(word)));
    }
    const missing = needed.find((key) => !Object.hasOwn(found, key));
    if (missing) throw new TextError(`${missing} is missing`);
    return found;
}

/** Takes the lines of a text one by one. */
class Reader {
    chart = emptyChart();
    settings = new Map();
    flags = 0;
    raw = true; // nothing but `bytes` so far
    lines = []; // the line of each object
    open = null; // the slider that entries belong to
    own = new Set(); // its explicit ranges

    line(number, [head, ...rest]) {
        if (head === 'bytes') return this.takeBytes(rest);
        if (this.chart.rest.length) throw new TextError('nothing but bytes may stand behind bytes');
        this.raw = false;
        if (RANGES.some(({ name }) => name === head)) return this.takeSetting(head, rest);
        if (head === 'flags') return this.takeFlags(rest);
        if (head === 'lengths') return this.takeLengths(rest);
        if (head === 'header') return this.takeHeader(rest);
        if (KINDS.includes(head) || head === 'object') {
            this.lines.push(number);
            return this.takeObject(head, rest);
        }
        if (head !== 'loose' || !rest.length) return this.takeEntry(head, rest, false);
        this.open = null;
        return this.takeEntry(rest[0], rest.slice(1), true);
    }

    takeBytes(words) {
        const digits = words.join('');
        if (!/^([0-9A-Fa-f]{2})*$/.test(digits)) throw new TextError('bytes are pairs of hex digits');
        this.chart.rest = behind(this.chart.rest, Uint8Array.from(digits.match(/../g) ?? [], (pair) => parseInt(pair, 16)));
    }

    takeSetting(name, words) {
        const { width, unit } = RANGES.find((r) => r.name === name);
        const plain = words.length === 1 || (words.length === 2 && words[1] === unit);
        if (!plain) throw new TextError(`${name} takes a number` + (unit ? ` and the unit ${unit}` : ''));
        if (this.settings.has(name)) throw new TextError(`${name} is given twice`);
        this.settings.set(name, readFloat(words[0], width));
    }

    takeFlags(words) {
        if (words.length === 1 && words[0] === 'none') return;
        for (const word of words) this.flags = (this.flags | (FLAGS.includes(word) ? 1 << FLAGS.indexOf(word) : readWord(word))) >>> 0;
    }

    takeLengths(words) {
        if (words.length !== 1 || words[0] !== 'stated') throw new TextError('lengths takes the word stated');
        this.chart.stated = true;
    }

    takeHeader(words) {
        if (words.length !== 2 || !WORDS.includes(words[0])) throw new TextError(`header takes a name and a whole number; the names are ${WORDS.join(', ')}`);
        this.chart.header.set(words[0], readWord(words[1]));
    }

    takeObject(name, words) {
        const needed = { circle: [], object: ['to', 'kind'] }[name] ?? ['to'];
        const k = readKeys(words, ['at', 'x', 'y', ...needed], ['stack', 'spans', 'nested', 'points', 'length', ...(name === 'circle' ? ['to'] : [])]);
        const kind = KINDS.includes(name) ? KINDS.indexOf(name) : k.kind[0], slider = kind === SLIDER;
        this.own = new Set(['nested', 'points'].filter((key) => k[key]));
        const nested = k.nested ?? [slider ? this.chart.nested.length : 0, 0], points = k.points ?? [slider ? this.chart.points.length : 0, 0];
        const spans = k.spans ?? [Number(slider)], length = k.length ?? [0n];
        const o = [...k.at, ...(k.to ?? k.at), ...k.x, ...k.y, ...(k.stack ?? [0, 0]), kind, ...spans, ...nested, ...points, ...length];
        this.chart.stated ||= Boolean(k.length);
        this.chart.objects.push(o);
        this.open = slider ? o : null;
    }

    takeEntry(name, words, loose) {
        const table = name === 'point' ? 'points' : 'nested';
        if (![...ENTRIES, 'entry', 'point'].includes(name)) throw new TextError(`${name} is not known`);
        if (!this.open && !loose) throw new TextError(`this ${name} stands under no slider; one by itself is a loose ${name}`);
        if (this.open && this.own.has(table)) throw new TextError(`the slider above already names its ${table}`);
        if (name === 'point') this.chart.points.push(this.point(words));
        else {
            const k = readKeys(words, ['at', 'x', 'y', ...(name === 'entry' ? ['kind'] : [])], ['reserved']);
            this.chart.nested.push([...k.at, ...k.x, ...k.y, name === 'entry' ? k.kind[0] : ENTRIES.indexOf(name), ...(k.reserved ?? [0])]);
        }
        if (this.open) this.open[name === 'point' ? 11 : 9] += 1;
    }

    /** A point; a length that is not given is the one before it and the distance from there. */
    point(words) {
        const k = readKeys(words, ['x', 'y', ...(this.open ? [] : ['length'])], this.open ? ['length'] : []);
        let length = k.length?.[0] ?? 0n;
        if (!k.length && this.open[11]) {
            const [x, y, before] = this.chart.points[this.chart.points.length - 1];
            const dx = valueOf(k.x[0], 32) - valueOf(x, 32), dy = valueOf(k.y[0], 32) - valueOf(y, 32);
            length = bitsOf(valueOf(before, 64) + Math.sqrt(dx * dx + dy * dy), 64);
        }
        return [...k.x, ...k.y, length];
    }

    /** The bytes, once all lines are taken. */
    end() {
        if (this.raw) return this.chart.rest;
        const missing = RANGES.find(({ name }) => !this.settings.has(name));
        if (missing) throw new TextError(`${missing.name} is not given`);
        this.chart.settings = [...RANGES.map(({ name }) => this.settings.get(name)), this.flags];
        return pack(this.chart);
    }
}

/** The bytes that a text makes, and the line of each object; a TextError names the line that is wrong. */
export function readText(text) {
    const reader = new Reader();
    let number = 0;
    try {
        for (const line of text.replace(/\r\n?/g, '\n').split('\n')) {
            number += 1;
            const words = line.split('#')[0].split(SPACE).filter(Boolean);
            if (words.length) reader.line(number, words);
        }
        number = 0;
        return { bytes: reader.end(), lines: reader.lines };
    } catch (e) {
        if (!(e instanceof TextError)) throw e;
        const found = new TextError(number ? `line ${number}: ${e.message}` : e.message);
        found.line = number;
        throw found;
    }
}
