// The library's calls for JavaScript, over target/wasm/station.wasm (`tools/platforms --wasm` builds it; it imports nothing). What include/station.h says of them in C holds here too.
// A chart has an instance of the library and so a memory of its own: buffer, the first player's tables, scratch, and room for what is asked; a second player over it has settings and tables there.

/** Bytes of an object in a chart without stated lengths, and in one with them; objects of a chart at most. */
export const OBJECT = 56, STATED_OBJECT = 64, MOST = 16384;

/** Bytes of a player's settings; the first player's are those of the header, from byte 32 on. */
export const SETTINGS = 48;

/** Bits of the word of mods that comes with a call for ratings. */
export const MODS = Object.freeze({ autopilot: 1, relax: 2, touchDevice: 4, hidden: 8, flashlight: 16, traceable: 32, fadeOnly: 64 });

// Numbers of each answer, of a slice of scratch, and bytes of a number.
const RECORD = 16, VALUES = 5, AIM = 18, RHYTHM = 2, TOTALS = 4, COUNTS = 7, RATINGS = 4;
const SCRATCH = 8192, NUMBER = 8, PAGE = 65536;

const WORDS = [
    'carried out',
    'the header is wrong, or its length is above the buffer\'s',
    'a setting is outside its range',
    'an object\'s own fields are wrong, or the object has another size than the chart\'s',
    'a slider\'s nested entries or points are wrong',
    'an object starts before the one before it',
    'the chart is too long in time',
    'a table, scratch, list or output is too short',
    'there is no such place',
    'there is no room for another object',
    'a number that comes with the call is not finite',
];

/** Why a call was not carried out; it has changed nothing. */
export class Refusal {
    constructor(code) {
        this.number = Number(code >> 32n);
        this.place = Number(code & 0xffffffffn);
        this.words = WORDS[this.number] ?? 'an unknown condition';
    }

    toString() {
        return `refused ${this.number} ${this.place}: ${this.words}`;
    }
}

/** Bytes of an object of this chart, by its word at 28. */
export function objectSize(bytes) {
    return bytes.length >= 32 && bytes[28] === 1 && !bytes[29] && !bytes[30] && !bytes[31] ? STATED_OBJECT : OBJECT;
}

function count(bytes) {
    return bytes.length < 4 ? 0 : (bytes[0] | bytes[1] << 8 | bytes[2] << 16 | bytes[3] << 24) >>> 0;
}

// The library's memory and what all players of a chart share there. A slice is where it begins, and how many elements it has.
class Memory {
    constructor({ exports }, bytes, room) {
        this.call = exports;
        this.end = Number(exports.__heap_base.value); // the first byte that is not in use
        this.entries = (count(bytes) <= MOST ? count(bytes) : 0) + room + 1; // one more than there is room for: a full chart is refused by 9, not by 7
        this.chart = this.claim(bytes.length + room * objectSize(bytes), 1);
        this.scratch = Array.from({ length: 4 }, () => this.claim(SCRATCH, NUMBER));
        this.list = this.claim(TOTALS * this.entries, NUMBER);
        this.numbers = this.claim(5, NUMBER);
        this.out = this.claim(AIM, NUMBER);
        this.bytes(this.chart).set(bytes);
    }

    // A slice behind all others.
    claim(length, size) {
        const at = Math.ceil(this.end / 16) * 16;
        this.end = at + length * size;
        this.reach(this.end);
        return { at, length };
    }

    // Memory up to an address.
    reach(end) {
        const lacking = Math.ceil((end - this.call.memory.buffer.byteLength) / PAGE);
        if (lacking > 0) this.call.memory.grow(lacking);
    }

    bytes({ at, length }) {
        return new Uint8Array(this.call.memory.buffer, at, length);
    }

    read({ at }, count) {
        return new Float64Array(this.call.memory.buffer, at, count).slice();
    }

    // An object's bytes behind all else.
    lent(object) {
        const slice = { at: Math.ceil(this.end / 16) * 16, length: object.length };
        this.reach(slice.at + slice.length);
        this.bytes(slice).set(object);
        return slice;
    }

    // A call with its arguments as the library takes them: a slice as address and length, a place as a whole number of 64 bits.
    carry(name, ...given) {
        const words = given.flatMap((x) => (typeof x === 'object' ? [x.at, BigInt(x.length)] : [x]));
        const code = this.call[`difficulty_${name}`](...words);
        return code === 0n ? null : new Refusal(code);
    }

    // The numbers that come with ratings; the word that says which of the last two are given.
    asked({ approachRate, overallDifficulty, baseMultiplier, attractionStrength, startScale }) {
        const numbers = [approachRate, overallDifficulty, baseMultiplier, attractionStrength ?? 0, startScale ?? 0];
        new Float64Array(this.call.memory.buffer, this.numbers.at, numbers.length).set(numbers);
        return (attractionStrength === undefined ? 0 : 1) | (startScale === undefined ? 0 : 2);
    }

    // The first numbers of the output, or the refusal.
    numbersOf(count, name, ...given) {
        return this.carry(name, ...given, { at: this.out.at, length: count }) ?? this.read(this.out, count);
    }
}

let memoryOf, lentOf, tablesOf; // what a player is made of, for the classes of this module

// A player's tables, and what is read of them: null or the numbers where a call is carried out, else a Refusal. The second player's calls have settings behind the chart, and a suffix.
class Player {
    #memory;
    #lent; // the chart, and settings
    #suffix;
    #records;
    #values;

    static {
        memoryOf = (player) => player.#memory;
        lentOf = (player) => player.#lent;
        tablesOf = (player) => [player.#records, player.#values];
    }

    constructor(memory, lent, suffix) {
        this.#memory = memory;
        this.#lent = lent;
        this.#suffix = suffix;
        this.#records = memory.claim(RECORD * memory.entries, NUMBER);
        this.#values = memory.claim(VALUES * memory.entries, NUMBER);
    }

    #carry(name, ...given) {
        return this.#memory.carry(name + this.#suffix, ...this.#lent, ...given);
    }

    #numbersOf(count, name, ...given) {
        return this.#memory.numbersOf(count, name + this.#suffix, ...this.#lent, ...given);
    }

    /** How many objects the chart has, by its header. */
    get objects() {
        return count(this.#memory.bytes(this.#memory.chart));
    }

    open() {
        return this.#carry('open', this.#records, this.#values);
    }

    readRecord(place) {
        return this.#numbersOf(RECORD, 'read_record', this.#records, BigInt(place));
    }

    readValues(place) {
        return this.#numbersOf(VALUES, 'read_values', this.#values, BigInt(place));
    }

    readAimParts(place) {
        return this.#numbersOf(AIM, 'read_aim_parts', this.#records, BigInt(place));
    }

    readRhythm(place) {
        return this.#numbersOf(RHYTHM, 'read_rhythm', this.#records, BigInt(place));
    }

    totals() {
        return this.#numbersOf(TOTALS, 'totals', this.#values, ...this.#memory.scratch);
    }

    counts() {
        return this.#numbersOf(COUNTS, 'counts', this.#values, ...this.#memory.scratch);
    }

    /** The totals after the first m objects. */
    totalsTo(m) {
        return this.#numbersOf(TOTALS, 'totals_to', this.#values, BigInt(m), ...this.#memory.scratch);
    }

    /** The totals after 0, 1 and up to all objects, four numbers each, in a list of as many entries. */
    totalsWhilePlaying(entries = this.objects + 1) {
        const memory = this.#memory, list = { at: memory.list.at, length: Math.min(TOTALS * entries, memory.list.length) };
        return this.#carry('totals_while_playing', this.#values, list, ...memory.scratch) ?? memory.read(list, list.length);
    }

    /** Aim, speed and flashlight ratings and the stars; attraction strength and start scale are given where they are there. */
    ratings(mods, numbers) {
        const memory = this.#memory, given = memory.asked(numbers);
        return this.#numbersOf(RATINGS, 'ratings', this.#values, mods, given, memory.numbers, ...memory.scratch);
    }
}

/** A chart with the first player's tables, whose settings are the header's. */
export class Chart extends Player {
    /** A chart in a memory of its own, with room for as many objects more. It is not opened yet. */
    static async load(module, bytes, room = 0) {
        return new Chart(await WebAssembly.instantiate(module, {}), bytes, room);
    }

    constructor(instance, bytes, room = 0) {
        const memory = new Memory(instance, bytes, room);
        super(memory, [memory.chart], '');
        this.objectSize = objectSize(bytes);
    }

    /** The whole buffer, the settings of the header, and the bytes of the object at a place, all copied. */
    get bytes() {
        const memory = memoryOf(this);
        return memory.bytes(memory.chart).slice();
    }

    get settings() {
        return this.memory(this.slices.chart).slice(32, 32 + SETTINGS);
    }

    object(place) {
        return this.memory(this.slices.chart).slice(80 + this.objectSize * place, 80 + this.objectSize * (place + 1));
    }

    // For a class that stands on this one, with calls or slices of its own (station/library.mjs).

    /** What the calls are lent: a slice as its address and its number of elements. */
    get slices() {
        const { chart, scratch, list, numbers } = memoryOf(this), [records, values] = tablesOf(this);
        return { chart, records, values, scratch, list, numbers };
    }

    /** A new slice of so many elements, of so many bytes each. */
    claim(length, size) {
        return memoryOf(this).claim(length, size);
    }

    /** The bytes of a slice of bytes, until the memory grows. */
    memory(slice) {
        return memoryOf(this).bytes(slice);
    }

    /** Whether the library has a call of this name. */
    has(name) {
        return `difficulty_${name}` in memoryOf(this).call;
    }

    /** A call by its name: null where it is carried out, else a Refusal; with a count so many numbers of its output, which is lent last. */
    carry(name, ...given) {
        return memoryOf(this).carry(name, ...given);
    }

    numbersOf(count, name, ...given) {
        return memoryOf(this).numbersOf(count, name, ...given);
    }

    /** Numbers of a slice of them, copied; bytes lent behind all else, until the next are. */
    read(slice, count) {
        return memoryOf(this).read(slice, count);
    }

    lend(bytes) {
        return memoryOf(this).lent(bytes);
    }

    // An edit for both players where there is a second.
    #edit(name, second, place, ...object) {
        const memory = memoryOf(this), lent = object.map((bytes) => memory.lent(bytes)), tables = tablesOf(this);
        if (!second) return memory.carry(name, memory.chart, BigInt(place), ...lent, ...tables);
        return memory.carry(`${name}_both`, ...lentOf(second), BigInt(place), ...lent, ...tables, ...tablesOf(second));
    }

    /** The edits are for both players where the second is given; else the second player's tables fall behind the chart. */
    replace(place, object, second) {
        return this.#edit('replace', second, place, object);
    }

    insert(place, object, second) {
        return this.#edit('insert', second, place, object);
    }

    remove(place, second) {
        return this.#edit('remove', second, place);
    }
}

/** A second player over a chart, with settings in 48 bytes. It is not opened yet. */
export class Second extends Player {
    constructor(chart, settings) {
        const memory = memoryOf(chart), slice = memory.claim(settings.length, 1);
        memory.bytes(slice).set(settings);
        super(memory, [memory.chart, slice], '_as');
    }

    get settings() {
        return memoryOf(this).bytes(lentOf(this)[1]).slice();
    }

    /** Other settings; the tables are then to be opened anew. */
    set settings(settings) {
        const memory = memoryOf(this), lent = lentOf(this);
        if (settings.length !== lent[1].length) lent[1] = memory.claim(settings.length, 1);
        memory.bytes(lent[1]).set(settings);
    }
}

/** The offsets of charts in a pack put in order, the higher chart first, or a Refusal; mods and numbers are those of ratings. The first `first` offsets and the others may be listings already. */
export async function rank(module, pack, offsets, mods, numbers, first = 0) {
    const memory = new Memory(await WebAssembly.instantiate(module, {}), pack, 0);
    const entries = Math.max(0, ...offsets.map((offset) => Math.min(count(pack.subarray(offset)), MOST)));
    const list = memory.claim(offsets.length, NUMBER), tables = [RECORD, VALUES].map((width) => memory.claim(width * entries, NUMBER));
    const listed = () => new BigUint64Array(memory.call.memory.buffer, list.at, list.length);
    listed().set(offsets.map(BigInt));
    const given = memory.asked(numbers);
    return memory.carry('join', memory.chart, list, BigInt(first), mods, given, memory.numbers, ...tables, ...memory.scratch) ?? Array.from(listed(), Number);
}
