// Graphs over time: a strip for aim, speed, rhythm and flashlight each, and one for the totals while playing. A drag draws again only what it can have changed.
import { drawWindow, wheelSpan } from './timeline.mjs';
import { Surface, element, niceStep, shown } from './view.mjs';

// What a strip shows: lines by their number among the values or the totals, with their colours. Aim has the line without sliders behind it.
const STRIPS = [
    { title: 'aim', lines: [[1, 'aim-plain'], [0, 'aim']] },
    { title: 'speed', lines: [[2, 'speed']] },
    { title: 'rhythm', lines: [[3, 'rhythm']] },
    { title: 'flashlight', lines: [[4, 'flashlight']] },
    { title: 'totals', totals: true, lines: [[1, 'aim-plain'], [0, 'aim'], [2, 'speed'], [3, 'flashlight']] },
];
const LEGEND = [[0, 'aim', 'aim'], [1, 'aim-plain', 'no sliders'], [2, 'speed', 'speed'], [3, 'flashlight', 'flashlight']];
const ABOVE = 1.12, ROOM = 8; // how far the highest number stays below the top; pixels about what is drawn again

class Strip {
    constructor(parent, kind, graphs) {
        Object.assign(this, { ...kind, graphs, top: 1, drawn: null });
        const canvas = element('canvas', { 'aria-hidden': 'true' });
        this.outputs = new Map();
        parent.append(element('div', { class: `lane strip${kind.totals ? ' totals' : ''}` }, this.makeHead(), element('div', { class: 'track' }, canvas)));
        this.surface = new Surface(canvas, () => this.draw());
        canvas.addEventListener('wheel', (e) => wheelSpan(e, this.surface, graphs.span), { passive: false });
        canvas.addEventListener('click', (e) => graphs.pick(this.surface.at(e).x, this.surface.width));
    }

    makeHead() {
        const name = (colour, words) => element('span', { class: `name ${colour}` }, words);
        if (!this.totals) return element('div', { class: 'head' }, name(this.title, this.title), this.output(this.lines.at(-1)[0], this.title));
        const row = ([index, colour, words]) => element('span', { class: 'row' }, name(colour, words), this.output(index, `total so far, ${words}`));
        return element('div', { class: 'head', title: 'Totals while playing: what is reached once the selected note was played' }, ...LEGEND.map(row));
    }

    output(index, label) {
        const made = element('output', { 'aria-label': label, 'aria-live': 'off' });
        this.outputs.set(index, made);
        return made;
    }

    /** The number of a line at a place, or undefined. The totals at a place are those after it was played. */
    at(player, index, place) {
        const { editor } = this.graphs;
        return this.totals ? editor.figures[player]?.playing[4 * (place + 1) + index] : editor.values[player][place]?.[index];
    }

    /** Writes the numbers of the selected place. */
    write() {
        const { editor } = this.graphs;
        for (const [index, output] of this.outputs) {
            const x = editor.selected >= 0 ? this.at(0, index, editor.selected) : undefined;
            output.textContent = x === undefined ? '' : shown(Number(x.toPrecision(5)), 'short');
        }
    }

    /** Places in the span, and one on each side. */
    range() {
        const { objects } = this.graphs.editor, { from, to } = this.graphs.span;
        let first = objects.findIndex((o) => o.start >= from);
        if (first < 0) first = objects.length;
        let last = first;
        while (last < objects.length && objects[last].start <= to) last++;
        return [Math.max(first - 1, this.totals ? 0 : 1), Math.min(last, objects.length - 1)];
    }

    /** The top of the scale: it stays while the numbers fill a good part of it. */
    scale([first, last]) {
        let most = 0;
        for (const player of this.graphs.editor.players) {
            for (const [index] of this.lines) {
                for (let k = first; k <= last; k++) {
                    const x = this.at(player, index, k);
                    if (x > most && x < Infinity) most = x;
                }
            }
        }
        const held = this.graphs.editor.drag && most * 1.02 <= this.top && most >= this.top * 0.3;
        if (held) return false;
        const top = most > 0 ? most * ABOVE : 1, changed = top !== this.top;
        this.top = top;
        return changed;
    }

    y(x) {
        return this.surface.height - 3 - (x / this.top) * (this.surface.height - 6);
    }

    /** Draws the strip, or of it what lies from place to place, where nothing else can have changed. */
    draw(part = null) {
        const { editor, span, look } = this.graphs, { surface } = this, c = surface.context;
        if (!editor.station || !surface.width) return;
        const { marks, selected } = editor, range = this.range(), scaled = this.scale(range);
        const where = marks && [marks.place, marks.whole, span.from, span.to, selected].join(' ');
        const some = part && !scaled && this.drawn === where ? part : null;
        this.drawn = where;
        c.save();
        if (some) this.clip(c, some);
        c.clearRect(0, 0, surface.width, surface.height);
        drawWindow(c, editor, span, surface, look.colours);
        this.drawGrid(c);
        this.sparse = (range[1] - range[0]) * 9 < surface.width;
        for (const player of editor.players) for (const [index, colour] of this.lines) this.drawLine(c, player, index, look.colours[colour], ...range);
        if (editor.selected >= 0) this.drawSelected(c);
        c.restore();
        this.write();
    }

    /** Confines drawing to what lies from place to place, with some room. */
    clip(c, [from, to]) {
        const { objects } = this.graphs.editor, { width, height } = this.surface, x = (k) => this.graphs.span.x(objects[k].start, width);
        const left = from > 1 ? Math.floor(x(from - 1)) - ROOM : 0, right = to < objects.length - 1 ? Math.ceil(x(to + 1)) + ROOM : width;
        c.beginPath();
        c.rect(left, 0, right - left, height);
        c.clip();
    }

    drawGrid(c) {
        const { grid, muted, size } = this.graphs.look.colours, { width, height } = this.surface, step = niceStep(this.top, height > 90 ? 4 : 2);
        c.font = `${size * 0.8}px system-ui, sans-serif`;
        c.textAlign = 'right';
        c.fillStyle = muted;
        c.strokeStyle = grid;
        c.lineWidth = 1;
        c.beginPath();
        for (let x = step; x <= this.top; x += step) {
            const y = Math.round(this.y(x)) + 0.5;
            c.moveTo(0, y);
            c.lineTo(width, y);
            if (y > size * 0.75) c.fillText(String(Number(x.toPrecision(6))), width - 4, y - 2);
        }
        c.stroke();
        c.textAlign = 'left';
        if (this.totals) c.fillText('totals while playing', 6, size);
    }

    drawLine(c, player, index, colour, first, last) {
        const { editor, span } = this.graphs, { width } = this.surface, { marks, objects } = editor, x = (k) => span.x(objects[k].start, width);
        if (marks && !this.totals && !marks.whole) this.drawBefore(c, player, index, first, last, x);
        c.beginPath();
        let pen = false;
        for (let k = first; k <= last; k++) {
            const y = this.at(player, index, k);
            if (Number.isFinite(y)) c[pen ? 'lineTo' : 'moveTo'](x(k), this.y(y));
            pen = Number.isFinite(y);
        }
        c.setLineDash(player ? [5, 4] : index === 1 ? [2, 3] : []);
        c.lineWidth = (index === 1 ? 0.1 : 0.14) * this.graphs.look.colours.size;
        c.lineJoin = 'round';
        c.strokeStyle = colour;
        c.stroke();
        c.setLineDash([]);
        if (!this.totals && index !== 1) this.drawDots(c, player, index, colour, first, last, x);
    }

    // What the values were before the last edit, where it changed them.
    drawBefore(c, player, index, first, last, x) {
        const { marks, values } = this.graphs.editor, { ghost } = this.graphs.look.colours;
        const was = (k) => (marks.rows.has(k) ? marks.rows.get(k)[player]?.[index] : values[player][k]?.[index]);
        c.beginPath();
        let pen = false;
        for (let k = Math.max(first, marks.from - 1, 1); k <= Math.min(last, marks.to + 1); k++) {
            const y = was(k);
            if (y !== undefined) c[pen ? 'lineTo' : 'moveTo'](x(k), this.y(y));
            pen = y !== undefined;
        }
        c.lineWidth = 1.2;
        c.strokeStyle = ghost;
        c.stroke();
    }

    // A dot for each place where there is room; those that the last edit changed always have one.
    drawDots(c, player, index, colour, first, last, x) {
        const { marks } = this.graphs.editor, { changed, size } = this.graphs.look.colours;
        for (let k = first; k <= last; k++) {
            const before = marks && !marks.whole ? marks.rows.get(k) : undefined, y = this.at(player, index, k);
            const isNew = before && (!before[player] || !Object.is(before[player][index], y));
            if (!(isNew || this.sparse) || !Number.isFinite(y)) continue;
            c.beginPath();
            c.arc(x(k), this.y(y), (isNew ? 0.25 : 0.15) * size, 0, 2 * Math.PI);
            c.fillStyle = isNew ? changed : colour;
            c.fill();
        }
    }

    drawSelected(c) {
        const { editor, span, look } = this.graphs, { width, height } = this.surface, { start } = editor.objects[editor.selected];
        const x = Math.round(span.x(start, width)) + 0.5;
        c.strokeStyle = look.colours.select;
        c.lineWidth = 1;
        c.beginPath();
        c.moveTo(x, 0);
        c.lineTo(x, height);
        c.stroke();
    }
}

export class Graphs {
    constructor(parent, editor, span, look) {
        Object.assign(this, { editor, span, look });
        this.strips = STRIPS.map((kind) => new Strip(parent, kind, this));
    }

    draw() {
        for (const strip of this.strips) strip.draw();
    }

    /** Draws what a replacement at a place can have changed: values from one before it to 33 behind it, the totals while playing from one before it on. */
    drawAround(place) {
        for (const strip of this.strips) strip.draw([place - 1, strip.totals ? this.editor.objects.length : place + 33]);
    }

    /** Selects the place whose time is next to a pointer. */
    pick(x, width) {
        const { objects } = this.editor, time = this.span.time(x, width);
        if (!objects.length) return;
        let best = 0;
        for (let k = 1; k < objects.length; k++) if (Math.abs(objects[k].start - time) < Math.abs(objects[best].start - time)) best = k;
        this.editor.goTo(best);
    }
}
