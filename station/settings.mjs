// Settings of the players side by side: the chart's own, which are bytes 32 to 79 of its header, those of a second player, and the mods and numbers that
// come with the ratings of each.
import { FLAGS, RANGES, readSettings, writeSettings } from './chart.mjs';
import { MODS } from './library.mjs';
import { element, single } from './view.mjs';
import { settingFault } from './words.mjs';

const NUMBERS = { approachRate: 'approach rate', overallDifficulty: 'overall difficulty', baseMultiplier: 'base multiplier',
    attractionStrength: 'attraction strength, if any', startScale: 'start scale, if any' };
const OPTIONAL = ['attractionStrength', 'startScale'];
const MOD_NAMES = { autopilot: 'autopilot', relax: 'relax', touchDevice: 'touch device', hidden: 'hidden', flashlight: 'flashlight', traceable: 'traceable',
    fadeOnly: 'fade only' };

/** What ratings are asked with where nothing was set. */
export function usual() {
    return { mods: 0, numbers: { approachRate: 9, overallDifficulty: 8, baseMultiplier: 1.14 } };
}

export class Settings {
    constructor(parent, editor) {
        Object.assign(this, { parent, editor });
    }

    /** Makes both tables anew, with a column for each player; the second one can be had only where the library has the calls. */
    make() {
        const { editor } = this, { players } = editor, asked = players.map((player) => editor.asked[player]);
        const given = players.map((player) => readSettings(player ? editor.second : editor.settings));
        this.fault = element('p', { class: 'line fault', role: 'alert' });
        this.inputs = players.map(() => ({}));
        const shown = ({ width }, x) => (width === 32 ? single(x) : x), label = ({ name, unit }) => name.replace('-', ' ') + (unit && `, ${unit}`);
        const own = [
            ...RANGES.map((range, i) => this.row(range.name, label(range), given.map(({ numbers }) => shown(range, numbers[i])), 'enter')),
            ...FLAGS.map((name, i) => this.row(`flag-${name}`, name, given.map(({ flags }) => Boolean((flags >> i) & 1)), 'enter')),
        ];
        const rated = [
            ...Object.entries(NUMBERS).map(([name, words]) => this.row(name, words, asked.map(({ numbers }) => numbers[name] ?? ''), 'ask')),
            ...Object.entries(MOD_NAMES).map(([name, words]) => this.row(name, words, asked.map(({ mods }) => Boolean(mods & MODS[name])), 'ask')),
        ];
        const second = editor.station.forTwo ? [this.toggle()] : [];
        this.parent.replaceChildren(...second, this.table('of the chart', own), this.fault, this.table('for the ratings', rated));
    }

    table(caption, rows) {
        const { players } = this.editor, heads = players.map((player) => element('th', { scope: 'col' }, players.length > 1 ? `player ${player + 1}` : ''));
        const head = element('tr', {}, element('th', { scope: 'col', class: 'caption' }, caption), ...heads);
        return element('table', { class: 'numbers entries' }, element('thead', {}, head), element('tbody', {}, ...rows));
    }

    /** A row of the table: a number or a box for each player, which calls a method when it is changed. */
    row(name, label, values, method) {
        const cells = values.map((value, player) => {
            const kind = typeof value === 'boolean' ? { type: 'checkbox', checked: value } : { type: 'number', step: 'any', value };
            const told = values.length > 1 ? `${label}, player ${player + 1}` : label;
            this.inputs[player][name] = element('input', { ...kind, id: `p${player}-${name}`, 'aria-label': told, onchange: () => this[method](player) });
            return element('td', {}, this.inputs[player][name]);
        });
        return element('tr', {}, element('th', { scope: 'row' }, label), ...cells);
    }

    toggle() {
        const { editor } = this, box = element('input', { type: 'checkbox', id: 'second', checked: editor.station.two });
        box.addEventListener('change', () => {
            const fault = editor.setSecond(box.checked ? editor.second ?? editor.settings : null);
            this.make();
            this.fault.textContent = fault ?? '';
            document.getElementById('second').focus();
        });
        return element('label', { class: 'second' }, box, ' a second player, side by side');
    }

    /** Settings of a player as they are entered; what is refused is said, and stays as it was. */
    enter(player) {
        const { editor } = this, inputs = this.inputs[player];
        const flags = FLAGS.reduce((sum, name, i) => sum | (inputs[`flag-${name}`].checked ? 1 << i : 0), 0);
        const settings = writeSettings({ numbers: RANGES.map(({ name }) => inputs[name].valueAsNumber), flags }), wrong = settingFault(settings);
        const fault = player ? editor.setSecond(settings) : editor.set(settings) ? null : wrong && `${wrong} (2)`;
        this.fault.textContent = fault ?? '';
    }

    /** Mods and numbers of a player as they are entered. */
    ask(player) {
        const inputs = this.inputs[player], numbers = {};
        for (const name of Object.keys(NUMBERS)) if (!OPTIONAL.includes(name) || inputs[name].value !== '') numbers[name] = inputs[name].valueAsNumber;
        this.editor.ask(player, { mods: Object.keys(MOD_NAMES).reduce((sum, name) => sum | (inputs[name].checked ? MODS[name] : 0), 0), numbers });
    }
}
