// The proved calls for the station: a chart in the largest buffer that the format allows, so that no edit needs another, and the calls for a second player
// where the library has them.
import { Chart, MOST, Refusal, STATED_OBJECT, objectSize } from '../clients/station.mjs';
import { FRONT, MOST_ENTRIES, NESTED, POINT, SETTINGS_SIZE, header } from './chart.mjs';

export { MODS, Refusal } from '../clients/station.mjs';
const RECORD = 16, VALUES = 5, AIM = 18, RHYTHM = 2, TOTALS = 4, COUNTS = 7, RATINGS = 4, NUMBER = 8;
const LARGEST = FRONT + STATED_OBJECT * MOST + (NESTED + POINT) * MOST_ENTRIES;
const SECOND = ['open_as', 'read_record_as', 'read_values_as', 'read_aim_parts_as', 'read_rhythm_as', 'totals_as', 'totals_while_playing_as', 'counts_as',
    'ratings_as', 'replace_both', 'insert_both', 'remove_both'];

// The chart with as many zeros behind it as the largest has bytes, the number of objects that it has room for, and its own length.
function roomy(bytes) {
    const objects = bytes.length < FRONT ? 0 : header(bytes).objects, room = MOST - Math.min(objects, MOST);
    const padded = new Uint8Array(LARGEST - room * objectSize(bytes)), fits = bytes.subarray(0, padded.length);
    padded.set(fits);
    return [padded, room, fits.length];
}

export class Station extends Chart {
    #given; // bytes of the chart as it was given: what is opened has no more
    #settings; // the second player's settings and tables
    #records;
    #values;

    static async make(module, bytes) {
        return new Station(await WebAssembly.instantiate(module, {}), ...roomy(bytes));
    }

    constructor(instance, bytes, room, given) {
        super(instance, bytes, room);
        this.#given = given;
        /** Whether the library has the calls for a second player, and whether there is one. */
        this.forTwo = SECOND.every((name) => this.has(name));
        this.two = false;
        if (!this.forTwo) return;
        this.#settings = this.claim(SETTINGS_SIZE, 1);
        this.#records = this.claim(RECORD * (MOST + 1), NUMBER);
        this.#values = this.claim(VALUES * (MOST + 1), NUMBER);
    }

    /** The chart's own bytes; not a copy. */
    get chart() {
        const buffer = this.memory(this.slices.chart);
        return buffer.subarray(0, header(buffer).length);
    }

    /** Puts another chart in its place and opens it; where that is refused, for either player, all stays as it was. */
    become(bytes) {
        const old = this.chart.slice();
        this.#put(bytes);
        const refusal = this.open();
        if (!refusal) return null;
        this.#put(old);
        if (this.two) this.open(); // the first player's tables may be the refused chart's
        return refusal;
    }

    // No chart has more bytes than the buffer: what lies behind that is not looked at.
    #put(bytes) {
        const buffer = this.memory(this.slices.chart), fits = bytes.subarray(0, buffer.length);
        buffer.set(fits);
        this.#given = fits.length;
        this.objectSize = objectSize(fits);
    }

    /** Opens the chart as it was given, for both players where there are two. */
    open() {
        const chart = { at: this.slices.chart.at, length: this.#given }, { records, values } = this.slices;
        return this.carry('open', chart, records, values) ?? (this.two ? this.carry('open_as', chart, this.#settings, this.#records, this.#values) : null);
    }

    /** A second player with these settings, or none; a refusal leaves the one before. */
    setSecond(settings) {
        const had = this.two, old = this.forTwo ? this.memory(this.#settings).slice() : null;
        if (settings) this.memory(this.#settings).set(settings);
        this.two = Boolean(settings);
        const refusal = settings ? this.carry('open_as', this.slices.chart, this.#settings, this.#records, this.#values) : null;
        if (!refusal) return null;
        this.memory(this.#settings).set(old);
        this.two = had;
        return refusal;
    }

    // ---------------------------------------------------------------- edits, for one player or for both

    #edit(name, place, ...object) {
        const { chart, records, values } = this.slices;
        return this.carry(name, chart, this.#settings, BigInt(place), ...object, records, values, this.#records, this.#values);
    }

    replace(place, object) {
        return this.two ? this.#edit('replace_both', place, this.lend(object)) : super.replace(place, object);
    }

    insert(place, object) {
        return this.two ? this.#edit('insert_both', place, this.lend(object)) : super.insert(place, object);
    }

    remove(place) {
        return this.two ? this.#edit('remove_both', place) : super.remove(place);
    }

    // ---------------------------------------------------------------- readings and figures of a player, 0 or 1

    #as(count, name, ...given) {
        return this.numbersOf(count, name + '_as', this.slices.chart, this.#settings, ...given);
    }

    record(player, place) {
        return player ? this.#as(RECORD, 'read_record', this.#records, BigInt(place)) : this.readRecord(place);
    }

    values(player, place) {
        return player ? this.#as(VALUES, 'read_values', this.#values, BigInt(place)) : this.readValues(place);
    }

    aimParts(player, place) {
        return player ? this.#as(AIM, 'read_aim_parts', this.#records, BigInt(place)) : this.readAimParts(place);
    }

    rhythm(player, place) {
        return player ? this.#as(RHYTHM, 'read_rhythm', this.#records, BigInt(place)) : this.readRhythm(place);
    }

    countsOf(player) {
        return player ? this.#as(COUNTS, 'counts', this.#values, ...this.slices.scratch) : this.counts();
    }

    totalsOf(player) {
        return player ? this.#as(TOTALS, 'totals', this.#values, ...this.slices.scratch) : this.totals();
    }

    /** The totals after every number of objects; the last four numbers are those of the whole chart. */
    playing(player) {
        if (!player) return this.totalsWhilePlaying();
        const { chart, list, scratch } = this.slices, length = TOTALS * (this.objects + 1);
        return this.carry('totals_while_playing_as', chart, this.#settings, this.#values, { at: list.at, length }, ...scratch) ?? this.read(list, length);
    }

    ratingsOf(player, mods, asked) {
        if (!player) return this.ratings(mods, asked);
        const { numbers, scratch } = this.slices, given = (asked.attractionStrength === undefined ? 0 : 1) | (asked.startScale === undefined ? 0 : 2);
        const all = [asked.approachRate, asked.overallDifficulty, asked.baseMultiplier, asked.attractionStrength ?? 0, asked.startScale ?? 0];
        this.memory({ at: numbers.at, length: NUMBER * numbers.length }).set(new Uint8Array(Float64Array.from(all).buffer));
        return this.#as(RATINGS, 'ratings', this.#values, mods, given, numbers, ...scratch);
    }
}

export function isRefusal(answer) {
    return answer instanceof Refusal;
}
