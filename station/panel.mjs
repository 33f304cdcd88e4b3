// The numbers beside the playfield: the selected place, aim's parts and the record, and the figures of the whole chart.
import { KINDS, SLIDER, SPINNER } from './chart.mjs';
import { TOTALS, VALUES } from './editor.mjs';
import { isRefusal } from './library.mjs';
import { clock, element, shown, single } from './view.mjs';

const NAMES = ['aim', 'aim, no sliders', 'speed', 'rhythm', 'flashlight', 'comparisons'];
const PARTS = ['value', 'velocity', 'velocity before', 'wide bonus', 'acute bonus', 'wiggle bonus', 'velocity change', 'slider bonus'];
const RULES = ['there are fewer than two records before, and all parts are 0', 'a spinner is here or before, and all parts are 0', 'the acute side answers',
    'the wide side answers'];
const RECORD = ['start time', 'delta time', 'adjusted delta', 'lazy jump distance', 'min. jump distance', 'min. jump time', 'travel distance', 'travel time',
    'lazy end x', 'lazy end y', 'lazy travel dist.', 'lazy travel time', 'angle', 'small circle bonus', 'has lazy end', 'has angle'];
const SUMS = ['aim', 'aim, no sliders', 'speed', 'flashlight'];
const COUNTS = [['strains, aim', 'weighted strains for aim'], ['strains, no sliders', 'weighted strains for aim without sliders'],
    ['strains, speed', 'weighted strains for speed'], ['sliders, aim', 'weighted sliders for aim without sliders'],
    ['sliders, speed', 'weighted sliders for speed'], ['difficult sliders', 'difficult sliders for aim'], ['relevant notes', 'relevant notes for speed']];
const IDS = ['place-title', 'fields', 'values', 'marks', 'parts', 'rule', 'record', 'figures', 'whose'];
const RATINGS = ['aim rating', 'speed rating', 'flashlight rating', 'stars'];
const FIELDS = { start: 'start, ms', x: 'x', y: 'y', end: 'end, ms', stackX: 'stack x', stackY: 'stack y', spans: 'spans', length: 'length, px' };

const SINGLE = ['x', 'y', 'stackX', 'stackY']; // of 32 bits

/** A table of numbers that is made once; set() writes a cell. */
class Grid {
    constructor(table, rows, columns, caption = '') {
        Object.assign(this, { table, rows, columns, cells: [] });
        table.replaceChildren();
        const heads = columns.map((name) => element('th', { scope: 'col' }, name));
        table.append(element('thead', {}, element('tr', {}, element('th', { scope: 'col', class: 'caption' }, caption), ...heads)));
        const body = element('tbody');
        for (const name of rows) {
            const cells = columns.map(() => element('td'));
            this.cells.push(cells);
            body.append(element('tr', {}, element('th', { scope: 'row' }, name), ...cells));
        }
        table.append(body);
    }

    set(row, column, x, mode) {
        write(this.cells[row][column], x, mode);
    }

    words(row, column, text, kind = '') {
        const cell = this.cells[row][column];
        if (cell.textContent !== text) cell.textContent = text;
        if (cell.className !== kind) cell.className = kind;
    }
}

/** A number in a cell, where it is not there already. */
function write(cell, x, mode) {
    if (cell.mode === mode && Object.is(cell.number, x)) return;
    Object.assign(cell, { number: x, mode });
    cell.textContent = x === undefined ? '–' : shown(x, mode);
}

/** All digits of a number and its bits, where the pointer comes upon its cell. */
function tellBits({ target }) {
    if (target.number !== undefined) target.title = `${shown(target.number, 'all')} · ${shown(target.number, 'bits')}`;
}

function signed(x) {
    return `${x > 0 ? '+' : x < 0 ? '−' : '±'}${shown(Math.abs(Number(x.toPrecision(3))), 'short')}`;
}

export class Panel {
    player = 0; // whose parts and record are shown

    constructor(editor, look) {
        Object.assign(this, { editor, look, made: 0 });
        this.ids = Object.fromEntries(IDS.map((id) => [id, document.getElementById(id)]));
        this.makeFields();
        this.record = RECORD.map((name) => {
            const cell = element('dd');
            this.ids.record.append(element('div', {}, element('dt', {}, name), cell));
            return cell;
        });
        document.querySelector('.panels').addEventListener('pointerover', tellBits);
        this.parts = new Grid(this.ids.parts, PARTS, ['with sliders', 'without'], 'aim’s parts');
        this.makeWhose();
    }

    /** Tables with a column for each player. */
    make() {
        const { players } = this.editor;
        if (this.made === players.length) return;
        this.made = players.length;
        const two = players.length > 1;
        document.body.classList.toggle('two', two);
        this.ids.whose.hidden = !two;
        if (!two) this.player = 0;
        const heads = two ? ['player 1', 'player 2'] : ['value'];
        this.values = new Grid(this.ids.values, NAMES, [...heads, 'change'], 'values');
        this.values.table.tBodies[0].lastChild.title = 'How often an island was compared with a kept one for the rhythm value: 406 times at most';
        const [totals, ratings, counts] = ['totals', 'ratings', 'counts'].map((id) => element('table', { class: 'numbers', id }));
        this.fault = element('p', { class: 'line fault', role: 'status' });
        this.ids.figures.replaceChildren(totals, ratings, this.fault, counts);
        const columns = two ? ['player 1', 'player 2'] : [''];
        this.totals = new Grid(totals, SUMS, columns, 'totals');
        this.ratings = new Grid(ratings, RATINGS, columns, 'ratings');
        this.counts = new Grid(counts, COUNTS.map(([name]) => name), columns, 'counts');
        COUNTS.forEach(([, words], i) => (counts.tBodies[0].rows[i].title = words));
    }

    makeWhose() {
        [0, 1].forEach((player) => this.ids.whose.append(element('label', {}, element('input', {
            type: 'radio', name: 'whose', value: player, checked: player === 0, onchange: () => {
                this.player = player;
                this.showPlace();
            },
        }), ` player ${player + 1}`)));
    }

    // ---------------------------------------------------------------- the fields of a note, to be set by hand

    makeFields() {
        this.inputs = new Map();
        for (const [key, name] of Object.entries(FIELDS)) {
            const input = element('input', { type: 'number', step: 'any', id: `field-${key}`, onchange: () => this.enter(key, input) });
            this.inputs.set(key, input);
            this.ids.fields.append(element('label', { for: `field-${key}` }, element('span', {}, name), input));
        }
        this.ids.fields.addEventListener('submit', (e) => e.preventDefault());
    }

    enter(key, input) {
        const { editor } = this, place = editor.selected, o = editor.objects[place], x = input.valueAsNumber;
        if (!o) return;
        const fields = key === 'start' ? { start: x, end: o.kind === SLIDER || o.kind === SPINNER ? o.end + (x - o.start) : x } : { [key]: x };
        if (Number.isNaN(x)) editor.tell('said', { words: `${key} needs a number` });
        else editor.change(place, fields);
        this.showFields(true);
    }

    showFields(force = false) {
        const o = this.editor.objects[this.editor.selected], stated = this.editor.station?.objectSize === 64;
        const slider = o?.kind === SLIDER, has = { end: slider || o?.kind === SPINNER, spans: slider, length: slider && stated };
        for (const [key, input] of this.inputs) {
            const hidden = !o || has[key] === false;
            if (input.disabled !== hidden) input.disabled = input.parentElement.hidden = hidden;
            const words = o ? String(SINGLE.includes(key) ? single(o[key]) : o[key]) : '';
            if (o && (force || document.activeElement !== input) && input.value !== words) input.value = words;
        }
    }

    // ---------------------------------------------------------------- the selected place

    showPlace() {
        const { editor } = this, { mode } = this.look, k = editor.selected, o = editor.objects[k];
        this.make();
        this.ids['place-title'].textContent = o ? `Place ${k} of ${editor.objects.length} · ${KINDS[o.kind]}` : 'No note yet';
        this.showFields();
        const read = k >= 1;
        for (const player of editor.players) {
            VALUES.forEach((_, i) => this.values.set(i, player, read ? editor.values[player][k]?.[i] : undefined, mode));
        }
        this.showChange(k);
        for (const player of editor.players) this.values.set(VALUES.length, player, read ? editor.station.rhythm(player, k)[1] : undefined, 'short');
        this.showParts(read ? editor.station.aimParts(this.player, k) : null);
        const record = read ? editor.station.record(this.player, k) : null;
        this.record.forEach((cell, i) => write(cell, record?.[i], mode));
    }

    // How far the last edit moved the values of this place.
    showChange(k) {
        const { marks, players, values } = this.editor, before = marks?.rows.get(k), last = players.length;
        VALUES.forEach((_, i) => {
            const pairs = players.map((player) => [before?.[player]?.[i], values[player][k]?.[i]]);
            const moved = pairs.filter(([was, is]) => was !== undefined && !Object.is(was, is)).map(([was, is]) => signed(is - was));
            const words = before && !before[0] ? 'new' : moved.join(' · ');
            this.values.words(i, last, words, words ? 'changed' : '');
        });
        const words = marksSentence(marks);
        if (this.ids.marks.textContent !== words) this.ids.marks.textContent = words;
    }

    showParts(parts) {
        PARTS.forEach((_, i) => [0, 9].forEach((from, column) => this.parts.set(i, column, parts?.[from + i], this.look.mode)));
        const rule = parts ? `With sliders ${RULES[parts[8]]}` + (parts[17] === parts[8] ? '; without them too.' : `; without them ${RULES[parts[17]]}.`) : '';
        if (this.ids.rule.textContent !== rule) this.ids.rule.textContent = rule;
    }

    // ---------------------------------------------------------------- the whole chart

    showFigures() {
        const { editor } = this, { mode } = this.look;
        this.make();
        for (const player of editor.players) {
            const { totals, counts, ratings } = editor.figures[player];
            TOTALS.forEach((_, i) => this.totals.set(i, player, totals[i], mode));
            COUNTS.forEach((_, i) => this.counts.set(i, player, counts[i], mode));
            RATINGS.forEach((_, i) => this.ratings.set(i, player, isRefusal(ratings) ? undefined : ratings[i], mode));
        }
        this.ids.figures.classList.toggle('late', editor.late);
        const faults = editor.players.map((player) => editor.ratingsFault(player)).filter(Boolean);
        this.fault.textContent = faults.length ? `No ratings: ${faults[0]}.` : '';
    }
}

/** What the last edit changed, in words. */
export function marksSentence(marks) {
    if (!marks) return '';
    const { place, moved, whole, from, to, changed, outside, lowest, highest } = marks, what = moved > 0 ? 'Insertion' : moved < 0 ? 'Removal' : 'Edit';
    if (whole) return `The settings were changed: ${changed} values are other ones.`;
    const where = to < from ? '' : outside ? `; ${outside} OUTSIDE places ${from} to ${to}` : `, none outside ${from} to ${to}, where the theorem allows it`;
    const many = changed === 1 ? '1 value' : `${changed} values`, places = lowest === highest ? `place ${lowest}` : `places ${lowest} to ${highest}`;
    return `${what} at place ${place}: ${changed ? `${many} changed, at ${places}` : 'no value changed'}${where}.`;
}
