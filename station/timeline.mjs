// The timeline: notes over time, which can be dragged in time; below the graphs the whole chart, with the span that is shown.
import { CIRCLE } from './chart.mjs';
import { Surface, clock, niceStep } from './view.mjs';

const CLOSE = 9; // pixels within which a note is hit

export class Timeline {
    constructor(canvas, bubble, editor, span, look) {
        Object.assign(this, { editor, span, look, bubble, near: null, pointer: null });
        this.surface = new Surface(canvas, () => this.draw());
        canvas.addEventListener('pointerdown', (e) => this.press(e));
        canvas.addEventListener('pointermove', (e) => this.move(e));
        canvas.addEventListener('pointerup', () => this.lift());
        canvas.addEventListener('pointercancel', () => this.lift());
        canvas.addEventListener('wheel', (e) => wheelSpan(e, this.surface, span), { passive: false });
    }

    x(time) {
        return this.span.x(time, this.surface.width);
    }

    /** The height of the ruler. */
    get ruler() {
        return this.look.colours.size * 1.3;
    }

    // ---------------------------------------------------------------- drawing

    draw() {
        const { editor, surface } = this, c = surface.context;
        if (!editor.station) return;
        c.clearRect(0, 0, surface.width, surface.height);
        drawWindow(c, editor, this.span, surface, this.look.colours);
        this.drawRuler(c);
        for (const k of this.seen().reverse()) if (k !== editor.selected) this.drawNote(c, k);
        if (editor.selected >= 0) this.drawNote(c, editor.selected);
        this.placeBubble();
    }

    /** Places of the notes in the span. */
    seen() {
        const found = [], { from, to } = this.span, room = ((to - from) / this.surface.width) * 14;
        for (const [k, o] of this.editor.objects.entries()) {
            if (o.start > to + room) break;
            if (o.end >= from - room) found.push(k);
        }
        return found;
    }

    drawRuler(c) {
        const { span, surface } = this, { muted, grid } = this.look.colours, parts = Math.max(surface.width / (this.ruler * 5.5), 1);
        const step = niceStep(span.to - span.from, parts), digits = step >= 1000 ? 0 : step >= 100 ? 1 : 3;
        c.font = `${this.look.colours.size * 0.86}px system-ui, sans-serif`;
        c.textAlign = 'left';
        c.fillStyle = muted;
        c.strokeStyle = grid;
        c.lineWidth = 1;
        c.beginPath();
        for (let t = Math.max(Math.ceil(span.from / step), 0) * step; t <= span.to; t += step) {
            const x = Math.round(this.x(t)) + 0.5;
            c.moveTo(x, 0);
            c.lineTo(x, surface.height);
            c.fillText(clock(t, digits), x + 4, this.ruler * 0.76);
        }
        c.stroke();
    }

    /** A note's size: what its neighbours leave, to a limit. */
    size(k) {
        const { objects } = this.editor, x = (j) => this.x(objects[j].start), { size } = this.look.colours;
        const most = Math.min(size, (this.surface.height - this.ruler) / 2 - 4);
        const gap = Math.min(k > 0 ? x(k) - x(k - 1) : 99, k + 1 < objects.length ? x(k + 1) - x(k) : 99);
        return Math.max(3, Math.min(most, gap / 2 - 0.5));
    }

    drawNote(c, k) {
        const { editor, surface } = this, o = editor.objects[k], { colours } = this.look, x = this.x(o.start), middle = (surface.height + this.ruler) / 2;
        const chosen = k === editor.selected, r = chosen ? Math.max(this.size(k), 5) : this.size(k), changed = editor.marks?.rows.has(k) && !editor.marks.whole;
        if (o.kind !== CIRCLE) {
            c.globalAlpha = 0.4;
            c.fillStyle = colours.note;
            c.beginPath();
            c.roundRect(x - r, middle - r, Math.max(this.x(o.end) - x, 0) + r * 2, r * 2, r);
            c.fill();
            c.globalAlpha = 1;
        }
        c.beginPath();
        c.arc(x, middle, r, 0, 2 * Math.PI);
        c.fillStyle = chosen ? colours.select : colours.note;
        c.fill();
        c.lineWidth = chosen || changed ? 2 : 1;
        c.strokeStyle = changed && !chosen ? colours.changed : colours['note-edge'];
        if (r >= 4 || chosen || changed) c.stroke();
        if (r < 8) return;
        c.font = `${k > 99 ? r * 0.75 : r * 0.9}px system-ui, sans-serif`;
        c.textAlign = 'center';
        c.fillStyle = colours['note-ink'];
        c.fillText(String(k), x, middle + r * 0.32);
    }

    // ---------------------------------------------------------------- the sentence beside the note

    refuse(place, words) {
        this.bubble.textContent = words;
        this.bubble.hidden = false;
        this.near = place;
        this.placeBubble();
    }

    accept() {
        this.bubble.hidden = true;
    }

    placeBubble() {
        const o = this.editor.objects[this.near];
        if (this.bubble.hidden || !o) return;
        const x = this.x(o.start) + 16, most = this.surface.width - this.bubble.offsetWidth - 4;
        this.bubble.style.left = `${x <= most ? Math.max(x, 4) : Math.max(4, this.x(o.start) - 16 - this.bubble.offsetWidth)}px`;
        this.bubble.style.top = `${this.ruler + (this.surface.height - this.ruler - this.bubble.offsetHeight) / 2}px`;
    }

    // ---------------------------------------------------------------- by hand

    find({ x, y }) {
        if (y < this.ruler) return -1;
        const { objects, selected } = this.editor, far = (k) => Math.abs(this.x(objects[k].start) - x);
        if (selected >= 0 && far(selected) <= CLOSE) return selected;
        return this.seen().filter((k) => far(k) <= CLOSE).sort((a, b) => far(a) - far(b))[0] ?? -1;
    }

    press(event) {
        if (event.button !== 0 || !this.editor.station) return;
        const at = this.surface.at(event), place = this.find(at);
        this.accept();
        this.surface.canvas.setPointerCapture(event.pointerId);
        this.pointer = { place, from: at, grabbed: false, to: null };
        if (place < 0) return this.editor.seek(this.span.time(at.x, this.surface.width));
        const { start, end } = this.editor.objects[place];
        Object.assign(this.pointer, { start, end });
        this.editor.goTo(place);
    }

    move(event) {
        const { pointer } = this, at = this.surface.at(event);
        if (!pointer) {
            this.surface.canvas.style.cursor = this.editor.station && this.find(at) >= 0 ? 'ew-resize' : 'pointer';
            return;
        }
        if (pointer.place >= 0 && !pointer.grabbed) {
            if (Math.abs(at.x - pointer.from.x) < 3) return;
            this.editor.grab(pointer.place);
            pointer.grabbed = true;
        }
        const waits = pointer.to !== null;
        pointer.to = at.x;
        if (!waits) requestAnimationFrame(() => this.step());
    }

    step() {
        const { pointer, span, surface } = this;
        if (!pointer || pointer.to === null) return;
        const x = pointer.to;
        pointer.to = null;
        if (pointer.place < 0) return this.editor.seek(span.time(x, surface.width));
        const start = Math.round(pointer.start + ((x - pointer.from.x) / surface.width) * (span.to - span.from));
        this.editor.dragTo({ start, end: pointer.end + (start - pointer.start) });
    }

    lift() {
        this.step();
        if (this.pointer?.grabbed) this.editor.settle();
        this.pointer = null;
    }
}

/** The wheel zooms about the pointer, with shift or across it pans. */
export function wheelSpan(event, surface, span) {
    event.preventDefault();
    const across = Math.abs(event.deltaX) > Math.abs(event.deltaY), length = span.to - span.from;
    if (across || event.shiftKey) span.pan((((across ? event.deltaX : event.deltaY) || 0) / surface.width) * length);
    else span.zoom(Math.exp(Math.max(-1, Math.min(1, event.deltaY / 300))), span.time(surface.at(event).x, surface.width));
}

/** The places whose values the last edit can have changed, as a band. */
export function drawWindow(c, editor, span, surface, colours) {
    const { marks, objects } = editor;
    if (!marks || marks.whole || marks.to < marks.from) return;
    const x0 = span.x(objects[marks.from].start, surface.width), x1 = span.x(objects[marks.to].start, surface.width);
    c.fillStyle = colours.window;
    c.fillRect(x0 - 4, 0, x1 - x0 + 8, surface.height);
}

/** The whole chart with the span that is shown, which can be dragged. */
export class Overview {
    constructor(canvas, editor, span, look) {
        Object.assign(this, { editor, span, look, held: null });
        this.surface = new Surface(canvas, () => this.draw());
        canvas.addEventListener('pointerdown', (e) => this.press(e));
        canvas.addEventListener('pointermove', (e) => this.held !== null && this.pan(e));
        canvas.addEventListener('pointerup', () => (this.held = null));
        canvas.addEventListener('pointercancel', () => (this.held = null));
    }

    x(time) {
        const [low, high] = this.span.whole;
        return ((time - low) / (high - low)) * this.surface.width;
    }

    draw() {
        const { surface, editor, span } = this, c = surface.context, { note, select, grid } = this.look.colours, { width, height } = surface;
        c.clearRect(0, 0, width, height);
        c.fillStyle = grid;
        c.fillRect(0, 0, width, height);
        c.fillStyle = note;
        c.globalAlpha = 0.7;
        for (const o of editor.objects) c.fillRect(this.x(o.start) - 0.5, 3, Math.max(1, this.x(o.end) - this.x(o.start)), height - 6);
        c.globalAlpha = 1;
        const x0 = this.x(span.from), x1 = this.x(span.to);
        c.strokeStyle = select;
        c.lineWidth = 2;
        c.strokeRect(x0 + 1, 1, Math.max(x1 - x0 - 2, 4), height - 2);
        if (editor.selected < 0) return;
        c.fillStyle = select;
        c.fillRect(this.x(editor.objects[editor.selected].start) - 1, 0, 2, height);
    }

    press(event) {
        const { x } = this.surface.at(event), middle = (this.x(this.span.from) + this.x(this.span.to)) / 2;
        this.held = x >= this.x(this.span.from) && x <= this.x(this.span.to) ? x - middle : 0;
        this.surface.canvas.setPointerCapture(event.pointerId);
        this.pan(event);
    }

    pan(event) {
        const [low, high] = this.span.whole, length = this.span.to - this.span.from;
        const middle = low + ((this.surface.at(event).x - this.held) / this.surface.width) * (high - low);
        this.span.set(middle - length / 2, middle + length / 2);
    }
}
