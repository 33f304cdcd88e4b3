// The station: its parts put together, keys and buttons, and what is kept for the next visit.
import { CIRCLE, SLIDER, SPINNER, KINDS, readSettings } from './chart.mjs';
import { Editor, FRAME, VALUES } from './editor.mjs';
import { Files } from './files.mjs';
import { Graphs } from './graphs.mjs';
import { makeHelp } from './help.mjs';
import { Panel, marksSentence } from './panel.mjs';
import { Playfield } from './playfield.mjs';
import { Settings, usual } from './settings.mjs';
import { keepChart, keepHistory, keepRest, keptChart, keptHistory, keptRest } from './storage.mjs';
import { Overview, Timeline } from './timeline.mjs';
import { Span, clock, colours, shown } from './view.mjs';

const WASM = '../target/wasm/station.wasm', MODES = ['short', 'all', 'bits'], THEMES = ['system', 'light', 'dark'], STAYS = 6000, STEPS = 15;
const id = (name) => document.getElementById(name);

// ---------------------------------------------------------------- messages

let noteTimer;

/** A message at the foot of the page, with something to press where there is. */
function say(words, action = null) {
    const note = id('note');
    note.replaceChildren(words);
    if (action) {
        const button = document.createElement('button');
        button.textContent = action.words;
        button.addEventListener('click', () => (note.hidden = true, action.act()));
        note.append(' ', button);
    }
    note.hidden = false;
    clearTimeout(noteTimer);
    noteTimer = setTimeout(() => (note.hidden = true), action ? 20_000 : 9000);
}

// ---------------------------------------------------------------- the parts

async function library() {
    const answer = await fetch(WASM);
    if (!answer.ok) throw new Error(`${WASM} is not there (${answer.status}): tools/station builds it`);
    return WebAssembly.compile(await answer.arrayBuffer());
}

class App {
    constructor(module) {
        const editor = (this.editor = new Editor(module));
        this.look = { colours: colours(), mode: 'short', theme: 'system' };
        this.span = new Span();
        this.files = new Files(editor, say);
        this.panel = new Panel(editor, this.look);
        this.settings = new Settings(id('settings'), editor);
        this.playfield = new Playfield(id('playfield'), id('beside'), editor, this.look);
        this.timeline = new Timeline(id('timeline'), id('beside-time'), editor, this.span, this.look);
        this.overview = new Overview(id('overview'), editor, this.span, this.look);
        this.graphs = new Graphs(id('strips'), editor, this.span, this.look);
        makeHelp(id('help-text'));
        this.listen();
        this.buttons();
    }

    listen() {
        const { editor } = this, on = (name, act) => editor.addEventListener(name, (e) => act(e.detail));
        on('chart', () => this.newChart());
        on('edit', (edit) => this.edited(edit));
        on('selection', () => this.selection());
        on('time', () => this.timeShown());
        on('figures', () => (this.panel.showFigures(), this.graphs.draw(), this.keep()));
        on('refusal', (refusal) => this.refused(refusal));
        on('accepted', () => this.accepted());
        on('step', ({ time }) => this.meter(time));
        on('said', ({ words }) => say(words));
        this.span.addEventListener('change', () => (this.timeline.draw(), this.graphs.draw(), this.overview.draw(), this.cursor()));
        matchMedia('(prefers-color-scheme: dark)').addEventListener('change', () => this.recolour());
        document.addEventListener('keydown', (e) => this.key(e));
        addEventListener('resize', () => (this.look.colours = colours()));
        addEventListener('error', (e) => say(`Something went wrong: ${e.message}. The chart is kept.`));
        addEventListener('pagehide', () => this.keepNow());
        document.addEventListener('visibilitychange', () => document.hidden && this.keepNow());
    }

    // ---------------------------------------------------------------- what follows an event

    newChart() {
        const { editor, span } = this;
        document.title = `${editor.name} · Station`;
        id('name').textContent = id('name').title = editor.name;
        id('note').hidden = true;
        this.steps = [];
        this.playing(false);
        span.bound(editor.objects);
        span.set(span.whole[0], Math.min(span.whole[1], span.whole[0] + 30_000));
        this.accepted();
        this.settings.make();
        this.drawAll();
        this.keep();
    }

    drawAll() {
        this.panel.showPlace();
        this.panel.showFigures();
        this.playfield.draw();
        this.timeline.draw();
        this.graphs.draw();
        this.overview.draw();
        this.cursor();
        this.enable();
    }

    edited({ place, moved, whole, dragging, settled }) {
        const { editor } = this;
        if (!dragging) this.span.bound(editor.objects);
        if (moved !== 0 && editor.selected >= 0 && moved !== undefined) editor.seek(editor.objects[editor.selected].start);
        this.panel.showPlace();
        this.panel.showFigures();
        this.playfield.draw();
        this.timeline.draw();
        if (whole) this.graphs.draw();
        else this.graphs.drawAround(place);
        this.cursor();
        if (dragging) return;
        if (!settled) this.accepted();
        this.overview.draw();
        this.enable();
        if (whole && document.activeElement?.closest('#settings') === null) this.settings.make();
        if (editor.marks) id('told').textContent = marksSentence(editor.marks);
        this.keep();
    }

    selection() {
        const { editor } = this, k = editor.selected, o = editor.objects[k];
        if (o) {
            const row = editor.values[0][k], values = row ? VALUES.map((name, i) => `, ${name} ${shown(row[i], 'short')}`).join('') : '';
            id('told').textContent = `Place ${k}, ${KINDS[o.kind]} at ${clock(o.start)}, x ${Math.round(o.x)}, y ${Math.round(o.y)}${values}`;
            this.span.follow(o.start);
        }
        this.drawAll();
        this.keep();
    }

    timeShown() {
        id('clock').textContent = clock(this.editor.time);
        this.playfield.draw();
        this.span.follow(this.editor.time);
        this.cursor();
    }

    cursor() {
        const { surface } = this.timeline, x = this.span.x(this.editor.time, surface.width), seen = x >= 0 && x <= surface.width;
        id('cursor').style.transform = `translateX(${seen ? x : -9999}px)`;
        id('clock').textContent = clock(this.editor.time);
    }

    refused({ place, words, kind, whole }) {
        if (whole) return document.activeElement.closest('#settings') ? undefined : say(words); // the settings say it themselves
        this.accepted();
        this.saying = setTimeout(() => this.accepted(), STAYS);
        if (this.timeline.pointer?.grabbed) this.timeline.refuse(place, words);
        else if (this.editor.objects.length && kind !== 'remove') this.playfield.refuse(Math.min(place, this.editor.objects.length - 1), words);
        else say(words);
    }

    /** Takes the sentence beside the note away. */
    accepted() {
        clearTimeout(this.saying);
        this.playfield.accept();
        this.timeline.accept();
    }

    /** Shows how long a step of a drag takes: the middle one of the last. */
    meter(time) {
        const meter = id('meter'), { objects } = this.editor;
        this.steps = [...(this.steps ?? []), time].slice(-STEPS);
        const middle = [...this.steps].sort((a, b) => a - b)[this.steps.length >> 1];
        meter.textContent = `drag step ${middle.toFixed(1)} ms, ${objects.length.toLocaleString('en-US')} notes`;
        meter.classList.toggle('slow', middle > FRAME);
    }

    enable() {
        const { editor } = this;
        id('undo').disabled = !editor.done.length && !editor.drag?.edit;
        id('redo').disabled = !editor.undone.length;
        id('delete').disabled = editor.selected < 0;
    }

    // ---------------------------------------------------------------- how things look

    recolour() {
        this.look.colours = colours();
        this.drawAll();
    }

    setTheme(theme) {
        this.look.theme = theme;
        if (theme === 'system') delete document.documentElement.dataset.theme;
        else document.documentElement.dataset.theme = theme;
        id('theme').title = id('theme').ariaLabel = { system: 'Theme: as the system has it', light: 'Theme: light', dark: 'Theme: dark' }[theme];
        this.look.colours = colours();
    }

    setMode(mode) {
        this.look.mode = mode;
        id('digits').value = mode;
        document.body.dataset.digits = mode;
    }

    nextMode() {
        this.setMode(MODES[(MODES.indexOf(this.look.mode) + 1) % MODES.length]);
        this.drawAll();
        this.keep();
    }

    // ---------------------------------------------------------------- playing

    playing(on = !this.plays) {
        this.plays = on;
        id('play').textContent = on ? 'Pause' : 'Play';
        id('play').setAttribute('aria-pressed', String(on));
        if (!on || !this.editor.objects.length) return;
        if (this.editor.time >= this.span.whole[1] - 1) this.editor.seek(0);
        let last = performance.now();
        const step = (now) => {
            if (!this.plays) return;
            const [rate] = readSettings(this.editor.settings).numbers;
            this.editor.seek(this.editor.time + (now - last) * rate);
            last = now;
            if (this.editor.time >= this.span.whole[1]) this.playing(false);
            else requestAnimationFrame(step);
        };
        requestAnimationFrame(step);
    }

    // ---------------------------------------------------------------- buttons and keys

    buttons() {
        const { editor } = this, click = (name, act) => id(name).addEventListener('click', act);
        click('undo', () => editor.undo());
        click('redo', () => editor.redo());
        click('insert', () => this.insert(Number(id('kind').value)));
        click('delete', () => editor.remove(editor.selected));
        click('play', () => this.playing());
        click('help', () => id('help-dialog').showModal());
        click('theme', () => (this.setTheme(THEMES[(THEMES.indexOf(this.look.theme) + 1) % THEMES.length]), this.recolour(), this.keep()));
        click('zoom-in', () => this.span.zoom(0.5, editor.time));
        click('zoom-out', () => this.span.zoom(2, editor.time));
        click('zoom-all', () => this.span.all());
        id('digits').addEventListener('change', () => (this.setMode(id('digits').value), this.drawAll(), this.keep()));
        const tabs = ['figures', 'settings'];
        tabs.forEach((name, i) => {
            click(`tab-${name}`, () => this.tab(name));
            id(`tab-${name}`).addEventListener('keydown', (e) => ['ArrowLeft', 'ArrowRight'].includes(e.key) && this.tab(tabs[1 - i]));
        });
    }

    tab(name) {
        for (const other of ['figures', 'settings']) {
            const on = other === name, tab = id(`tab-${other}`);
            tab.setAttribute('aria-selected', String(on));
            tab.tabIndex = on ? 0 : -1;
            id(other).hidden = !on;
        }
        id(`tab-${name}`).focus();
    }

    /** A new note at the time shown: where the selected one is, a little on, or in the middle. */
    insert(kind) {
        const { editor } = this, o = editor.objects[editor.selected], start = Math.round(editor.time);
        editor.add(kind, { start, x: o ? Math.min(o.x + 40, 512) : 256, y: o ? o.y : 192 });
    }

    /** What a key does, with shift in front where it is held; undefined for one that does nothing. */
    action(key, shift) {
        const { editor, span } = this, by = shift ? 1 : 10;
        return {
            ArrowLeft: () => editor.nudge(-by, 0, 0), ArrowRight: () => editor.nudge(by, 0, 0), ArrowUp: () => editor.nudge(0, -by, 0),
            ArrowDown: () => editor.nudge(0, by, 0), '[': () => editor.nudge(0, 0, -10), ']': () => editor.nudge(0, 0, 10), '{': () => editor.nudge(0, 0, -1),
            '}': () => editor.nudge(0, 0, 1), ',': () => editor.goTo(editor.selected - 1), '.': () => editor.goTo(editor.selected + 1),
            Home: () => editor.goTo(0), End: () => editor.goTo(editor.objects.length - 1), Delete: () => editor.remove(editor.selected),
            Backspace: () => editor.remove(editor.selected), n: () => this.insert(Number(id('kind').value)), c: () => this.insert(CIRCLE),
            s: () => this.insert(SLIDER), p: () => this.insert(SPINNER), t: () => this.files.edit(), b: () => this.nextMode(), ' ': () => this.playing(),
            PageUp: () => editor.seek(editor.time - 1000), PageDown: () => editor.seek(editor.time + 1000), '+': () => span.zoom(0.5, editor.time),
            '=': () => span.zoom(0.5, editor.time), '-': () => span.zoom(2, editor.time), 0: () => span.all(), '?': () => id('help-dialog').showModal(),
            Escape: () => editor.drag && editor.release(),
        }[key.length === 1 && !'{}?+'.includes(key) ? key.toLowerCase() : key];
    }

    controlled(key, shift) {
        const { editor } = this;
        const keys = { z: () => (shift ? editor.redo() : editor.undo()), y: () => editor.redo(), o: () => id('open').click(), s: () => this.files.save() };
        return keys[key.toLowerCase()];
    }

    key(event) {
        const { target } = event, typing = target.closest('input:not([type=checkbox]):not([type=radio]), textarea, select, dialog');
        if (typing || event.altKey) return;
        if (target.closest('button, [type=checkbox], [type=radio]') && [' ', 'Enter'].includes(event.key)) return;
        if (target.closest('[role=tab], [type=radio]') && event.key.startsWith('Arrow')) return;
        const act = event.ctrlKey || event.metaKey ? this.controlled(event.key, event.shiftKey) : this.action(event.key, event.shiftKey);
        if (!act) return;
        event.preventDefault();
        act();
        this.enable();
    }

    // ---------------------------------------------------------------- what is kept

    keep() {
        clearTimeout(this.keeping);
        this.keeping = setTimeout(() => this.keepNow(), 250);
    }

    keepNow() {
        const { editor, look } = this;
        if (!editor.station) return;
        const kept = keepChart(editor.name, editor.bytes);
        keepHistory(kept ? editor.done : [], kept ? editor.undone : []);
        keepRest({ mode: look.mode, theme: look.theme, asked: editor.asked, second: editor.second, selected: editor.selected, time: editor.time });
        if (!kept && !this.warned) say('The browser has no room to keep this chart over a reload: save it to a file.');
        this.warned = !kept;
    }

    async begin() {
        const rest = keptRest(), chart = keptChart(), { editor } = this;
        this.setTheme(THEMES.includes(rest.theme) ? rest.theme : 'system');
        this.setMode(MODES.includes(rest.mode) ? rest.mode : 'short');
        editor.asked = [0, 1].map((player) => rest.asked?.[player] ?? usual());
        editor.second = rest.second ?? null;
        const history = keptHistory(), refused = chart ? await editor.open(chart.bytes, chart.name) : 'none';
        if (refused) return this.files.example('verse');
        Object.assign(editor, history);
        if (rest.selected > 0) editor.select(rest.selected);
        if (rest.time >= 0) editor.seek(rest.time);
    }
}

try {
    const app = new App(await library());
    await app.begin();
    document.documentElement.dataset.ready = 'yes';
    window.station = app; // for the tests, and for whoever looks
} catch (e) {
    say(`The station cannot start: ${e.message}`);
    throw e;
}
