// What is edited: the chart in the library, what was read of it, the selected place, the time that is shown, and what was done and undone.
// Every change is a call: replace, insert, remove, or, where nested entries, points or settings change, the opening of the chart as it becomes.
import { SETTINGS_AT, SPINNER, SLIDER, followed, nestedOf, objectAt, plainObject, pointsOf, readObject, settingsOf } from './chart.mjs';
import { candidate, changing, inserting, insertingSlider, inverse, isIdle, opening, placeFor, removing, same, setting } from './edits.mjs';
import { Station, isRefusal } from './library.mjs';
import { editSentence, openingSentence, reason } from './words.mjs';

export const VALUES = ['aim', 'aim without sliders', 'speed', 'rhythm', 'flashlight'];
export const TOTALS = ['aim', 'aim without sliders', 'speed', 'flashlight'];
export const FRAME = 16; // milliseconds that a step of a drag may take
const DEEPEST = 300; // edits that are kept
const REST = 700, PAUSE = 120; // milliseconds after which steps by key are an edit, and after which a drag rests
const BACK = 1, AHEAD = 33, REMOVED = 32; // an edit at k changes no value before k-1 and none behind k+33, a removal none behind k+32

export class Editor extends EventTarget {
    station = null;
    name = 'chart';
    objects = []; // the fields of each object
    values = [[], []]; // for each player the five values of each place, from 1 on
    figures = [null, null]; // for each player the totals while playing, totals, counts and ratings
    asked = [null, null]; // mods and numbers for the ratings of each
    second = null; // the second player's settings
    selected = -1;
    time = 0;
    marks = null; // what the last edit changed
    done = [];
    undone = [];
    drag = null; // what is being dragged: its place, the chart before, and the edit so far
    late = false; // whether ratings and counts wait for the drag to rest, as a step would take longer than a frame with them

    constructor(module) {
        super();
        this.module = module;
    }

    tell(name, detail = {}) {
        this.dispatchEvent(new CustomEvent(name, { detail }));
    }

    get players() {
        return this.station?.two ? [0, 1] : [0];
    }

    /** The chart's bytes; not a copy. */
    get bytes() {
        return this.station.chart;
    }

    // ---------------------------------------------------------------- opening and reading

    /** Opens another chart, which can be undone; a sentence where it is refused, and the one before stays. Lines are those of the objects in its text. */
    async open(bytes, name, lines = []) {
        this.settle();
        const had = this.second, refusal = this.station ? this.become(bytes, name) : await this.begin(bytes, name);
        if (refusal) return openingSentence(refusal, bytes, lines);
        this.showChart();
        if (had && !this.second) this.tell('said', { words: 'The second player is left out: this chart is not opened under those settings.' });
        return null;
    }

    /** The first chart. */
    async begin(bytes, name) {
        const station = await Station.make(this.module, bytes), refusal = station.open();
        if (refusal) return refusal;
        Object.assign(this, { station, name });
        if (this.second && (!station.forTwo || station.setSecond(this.second))) this.second = null;
        return null;
    }

    /** Another chart in place of this one; a second player whose settings do not go with it is left out. */
    become(bytes, name) {
        const edit = opening(this.bytes, bytes, [this.name, name]);
        let refusal = this.call(edit);
        if (refusal && this.station.two) {
            this.station.setSecond(null);
            refusal = this.call(edit);
            if (refusal) this.station.setSecond(this.second);
            else this.second = null;
        }
        if (refusal) return refusal;
        this.name = name;
        this.keep({ ...edit, after: this.bytes.slice() });
        return null;
    }

    showChart() {
        Object.assign(this, { marks: null, late: false, selected: Math.min(this.station.objects - 1, 1) });
        this.readAll();
        this.time = this.objects[this.selected]?.start ?? 0;
        this.tell('chart');
    }

    readAll() {
        this.readPlaces();
        this.readFigures();
    }

    /** All objects and values. */
    readPlaces() {
        const length = this.station.objects, bytes = this.bytes, { players } = this;
        const rows = (player) => Array.from({ length }, (_, k) => (k ? this.station.values(player, k) : null));
        this.objects = Array.from({ length }, (_, k) => objectAt(bytes, k));
        this.values = [0, 1].map((player) => (players.includes(player) ? rows(player) : []));
        this.paths = new Map();
    }

    /** The totals while playing of each player, whose last entry is the totals; ratings and counts. What would come later than a time stays as it was,
     * but for the totals. */
    readFigures(until = Infinity) {
        const began = performance.now(), slow = until < Infinity && this.cost > FRAME / 2;
        this.late = slow;
        const unless = (old, read) => (old && (this.late ||= performance.now() > until) ? old : read());
        this.figures = [0, 1].map((player) => {
            if (!this.players.includes(player)) return null;
            const old = this.figures[player], { mods, numbers } = this.asked[player], playing = slow && old ? old.playing : this.station.playing(player);
            const totals = playing === old?.playing ? this.station.totalsOf(player) : playing.slice(-TOTALS.length);
            const ratings = unless(old?.ratings, () => this.station.ratingsOf(player, mods, numbers));
            return { playing, totals, ratings, counts: unless(old?.counts, () => this.station.countsOf(player)) };
        });
        if (until === Infinity) this.cost = (performance.now() - began) / 3; // about what the list of totals takes
    }

    /** Other mods and numbers for a player's ratings. */
    ask(player, asked) {
        this.asked[player] = asked;
        if (!this.figures[player]) return;
        this.figures[player].ratings = this.station.ratingsOf(player, asked.mods, asked.numbers);
        this.tell('figures');
    }

    /** Why a player's ratings were refused, or null. */
    ratingsFault(player) {
        const { ratings } = this.figures[player];
        return isRefusal(ratings) ? `${ratings.words} (${ratings.number})` : null;
    }

    /** A second player with these settings, or none; a sentence where they are refused. */
    setSecond(settings) {
        this.settle();
        const refusal = this.station.setSecond(settings);
        if (refusal) {
            const bytes = this.bytes.slice();
            bytes.set(settings, SETTINGS_AT);
            return openingSentence(refusal, bytes);
        }
        this.second = settings;
        this.marks = null;
        this.readAll();
        this.tell('edit', { whole: true });
        return null;
    }

    /** The path of the slider at a place as it is followed, relative to its head, and its nested entries. */
    path(place) {
        if (!this.paths.has(place)) {
            const o = this.objects[place], bytes = this.bytes;
            this.paths.set(place, { points: followed(pointsOf(bytes, o), o.length), nested: nestedOf(bytes, o) });
        }
        return this.paths.get(place);
    }

    get settings() {
        return settingsOf(this.bytes);
    }

    // ---------------------------------------------------------------- selection and time

    select(place) {
        const count = this.objects.length;
        if (this.drag && this.drag.place !== place) this.settle();
        this.selected = count ? Math.min(Math.max(place, 0), count - 1) : -1;
        this.tell('selection');
    }

    /** Selects a place and goes to its time. */
    goTo(place) {
        this.select(place);
        if (this.selected >= 0) this.seek(this.objects[this.selected].start);
    }

    seek(time) {
        this.time = Math.min(Math.max(time, 0), 10_000_000);
        this.tell('time');
    }

    // ---------------------------------------------------------------- carrying edits out

    call({ kind, place, after }) {
        if (kind === 'chart') return this.station.become(after);
        if (kind === 'replace') return this.station.replace(place, after);
        return kind === 'insert' ? this.station.insert(place, after) : this.station.remove(place);
    }

    /** Carries an edit out and reads what it can have changed; false where it is refused, and then nothing has. base is what the marks compare with. */
    carry(edit, base = this.values.map((rows) => rows.slice()), until = Infinity) {
        const refusal = this.call(edit);
        if (refusal) return this.refuse(edit, refusal);
        if (edit.kind === 'chart') this.readPlaces();
        else this.readAround(edit);
        this.readFigures(until);
        this.marks = this.marked(edit, base);
        return true;
    }

    /** The object of an edit, and the rows of values that it can change; rows of later objects move with them. */
    readAround({ place, moved }) {
        const put = moved > 0 ? [[place, 0, null]] : moved < 0 ? [[place, 1]] : [];
        for (const words of put) for (const list of [this.objects, ...this.players.map((player) => this.values[player])]) list.splice(...words);
        if (moved >= 0) this.objects[place] = readObject(this.station.object(place));
        if (moved) this.paths = new Map();
        else this.paths.delete(place);
        for (const player of this.players) {
            const rows = this.values[player];
            for (let k = Math.max(place - BACK, 1); k <= Math.min(place + AHEAD, this.objects.length - 1); k++) rows[k] = this.station.values(player, k);
            if (rows.length) rows[0] = null;
        }
    }

    /** What an edit changed, by bits: for each place the rows before, and the places that the theorem allows. Where the chart was opened anew all places are
     * compared, else those that were read again. */
    marked({ kind, place, moved, whole }, base) {
        const last = this.objects.length - 1, all = kind === 'chart', from = whole ? 1 : Math.max(place - BACK, 1);
        const to = whole ? last : Math.min(place + (moved < 0 ? REMOVED : AHEAD), last);
        const was = (k) => (moved > 0 ? (k < place ? k : k === place ? -1 : k - 1) : moved < 0 && k >= place ? k + 1 : k);
        const marks = { place, moved, whole: Boolean(whole), from, to, rows: new Map(), changed: 0, outside: 0, lowest: Infinity, highest: -1 };
        for (let k = all ? 1 : from; k <= (all ? last : to); k++) {
            const before = this.players.map((player) => base[player][was(k)] ?? null), now = this.players.map((player) => this.values[player][k]);
            if (before.every((row, i) => row === now[i])) continue;
            const count = now.reduce((sum, row, i) => sum + (before[i] ? row.filter((x, j) => !Object.is(x, before[i][j])).length : row.length), 0);
            if (!count) continue;
            marks.rows.set(k, before);
            marks.changed += count;
            marks.outside += k < from || k > to ? count : 0;
            marks.lowest = Math.min(marks.lowest, k);
            marks.highest = Math.max(marks.highest, k);
        }
        return marks;
    }

    refuse(edit, refusal) {
        let bytes = candidate(this.bytes, edit), words = '';
        if (this.second && refusal.number <= 6 && !reason(bytes, refusal.number, refusal.place)) {
            bytes = bytes.slice();
            bytes.set(this.second, SETTINGS_AT);
            words = ', for the second player';
        }
        words = editSentence(refusal, edit.place, bytes) + words;
        this.tell('refusal', { place: edit.place, kind: edit.kind, whole: Boolean(edit.whole), words });
        return false;
    }

    keep(edit) {
        this.done.push(edit);
        if (this.done.length > DEEPEST) this.done.shift();
        this.undone = [];
    }

    /** An edit by itself. */
    make(edit) {
        this.settle();
        if (isIdle(edit) || !this.carry(edit)) return false;
        this.keep(edit);
        this.showEdit(edit);
        return true;
    }

    showEdit({ place, moved, kind, whole }) {
        if (moved || this.selected >= this.objects.length) this.selected = Math.min(place, this.objects.length - 1);
        this.tell('edit', { place, moved, whole: kind === 'chart' || Boolean(moved) || Boolean(whole) });
    }

    undo() {
        this.settle();
        this.turn(this.done, this.undone, inverse);
    }

    redo() {
        this.settle();
        this.turn(this.undone, this.done, (edit) => edit);
    }

    /** Takes the last edit from one list to the other and carries it out as it is turned. */
    turn(from, to, turned) {
        const edit = from.length ? turned(from.at(-1)) : null;
        if (!edit || !this.carry(edit)) return;
        to.push(from.pop());
        if (!edit.whole) this.selected = edit.place;
        if (!edit.names) return this.showEdit(edit);
        this.name = edit.names[1];
        this.showChart();
    }

    // ---------------------------------------------------------------- dragging: many steps, one edit

    grab(place) {
        this.settle();
        this.drag = { place, bytes: this.bytes.slice(), base: this.values.map((rows) => rows.slice()), edit: null };
    }

    /** The dragged object gets these fields. Where that is refused it stays where it was last. */
    dragTo(fields) {
        if (!this.drag) return;
        const { place, bytes, base, edit: old } = this.drag, began = performance.now(), edit = changing(bytes, place, fields);
        if (same(edit.after, old?.after ?? edit.before)) return this.tell('accepted');
        if (!this.carry(edit, base, began + FRAME / 2)) return;
        this.drag.edit = edit;
        if (fields.start !== undefined) this.time = this.objects[place].start;
        this.tell('accepted');
        this.tell('edit', { place, moved: 0, whole: edit.kind === 'chart', dragging: true });
        this.tell('step', { time: performance.now() - began });
        clearTimeout(this.rest);
        if (this.late) this.rest = setTimeout(() => this.catchUp(), PAUSE);
    }

    /** Reads what a drag left for later. */
    catchUp() {
        clearTimeout(this.rest);
        if (!this.late) return;
        this.readFigures();
        this.tell('figures');
    }

    /** Ends a drag, which is then one edit. */
    settle() {
        clearTimeout(this.timer);
        const { drag } = this;
        if (!drag) return;
        this.drag = null;
        if (drag.edit && !isIdle(drag.edit)) this.keep(drag.edit);
        this.catchUp();
        if (drag.edit) this.tell('edit', { place: drag.place, moved: 0, whole: drag.edit.kind === 'chart', settled: true });
    }

    /** Lets a drag go: the object goes back. */
    release() {
        const { drag } = this;
        if (drag?.edit) this.carry(inverse(drag.edit));
        if (drag) drag.edit = null;
        this.settle();
        this.marks = null;
        this.tell('edit', { whole: true });
    }

    /** The selected object by steps; those that follow each other at once are one edit. */
    nudge(dx, dy, dt) {
        const place = this.selected, o = this.objects[place];
        if (!o) return;
        if (this.drag?.place !== place) this.grab(place);
        clearTimeout(this.timer);
        this.dragTo(dt ? { x: o.x, y: o.y, start: o.start + dt, end: o.end + dt } : { x: o.x + dx, y: o.y + dy, start: o.start, end: o.end });
        this.timer = setTimeout(() => this.settle(), REST);
    }

    // ---------------------------------------------------------------- single edits

    /** Other fields for the object at a place. */
    change(place, fields) {
        this.settle();
        return this.make(changing(this.bytes, place, fields));
    }

    /** A new object of a kind: behind all that start at its time or before. */
    add(kind, { start, x, y }) {
        this.settle();
        const place = placeFor(this.objects, start), lasts = kind === SLIDER ? 400 : kind === SPINNER ? 1000 : 0;
        const o = plainObject({ kind, start, end: start + lasts, x: kind === SPINNER ? 256 : x, y: kind === SPINNER ? 192 : y });
        return this.make(kind === SLIDER ? insertingSlider(this.bytes, place, o, x < 256 ? 120 : -120) : inserting(this.bytes, place, o));
    }

    remove(place) {
        this.settle();
        return place >= 0 && this.make(removing(this.bytes, place));
    }

    /** Other settings for the chart. */
    set(settings) {
        this.settle();
        return this.make(setting(this.bytes, settings));
    }
}
