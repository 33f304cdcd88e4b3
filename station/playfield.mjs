// The playfield: notes about the time that is shown, as they come up, and the selected one, which can be dragged.
import { CIRCLE, FIELD, SLIDER, SPINNER, readSettings } from './chart.mjs';
import { Surface } from './view.mjs';

const MARGIN = 44, LINGER = 500; // around the field, in its pixels; milliseconds that a note is seen after its end

export class Playfield {
    constructor(canvas, bubble, editor, look) {
        Object.assign(this, { editor, look, bubble, near: null, pointer: null });
        this.surface = new Surface(canvas, () => this.draw());
        canvas.addEventListener('pointerdown', (e) => this.press(e));
        canvas.addEventListener('pointermove', (e) => this.move(e));
        canvas.addEventListener('pointerup', () => this.lift());
        canvas.addEventListener('pointercancel', () => this.lift());
        canvas.addEventListener('dblclick', (e) => this.double(e));
        canvas.addEventListener('wheel', (e) => this.wheel(e), { passive: false });
    }

    get scale() {
        return Math.min(this.surface.width / (FIELD.width + 2 * MARGIN), this.surface.height / (FIELD.height + 2 * MARGIN));
    }

    /** From the field to the screen, and back. */
    screen(x, y) {
        const { width, height } = this.surface, s = this.scale;
        return [(width - FIELD.width * s) / 2 + x * s, (height - FIELD.height * s) / 2 + y * s];
    }

    fieldAt({ x, y }) {
        const [left, top] = this.screen(0, 0);
        return { x: (x - left) / this.scale, y: (y - top) / this.scale };
    }

    // ---------------------------------------------------------------- drawing

    /** Places of the notes that are in sight, as they are drawn: those that are over, then the others, the first of them last and so on top. */
    inSight() {
        const { editor } = this, { time } = editor, [, , , preempt] = this.settings.numbers, found = [];
        for (const [k, o] of editor.objects.entries()) {
            if (o.start - preempt > time && k !== editor.selected) {
                if (k > editor.selected) break;
                continue;
            }
            if (o.end + LINGER >= time || k === editor.selected) found.push(k);
        }
        const over = (k) => editor.objects[k].end < time && k !== editor.selected;
        return [...found.filter(over), ...found.filter((k) => !over(k)).reverse()];
    }

    draw() {
        const { editor } = this, c = this.surface.context, { width, height } = this.surface;
        if (!editor.station) return;
        this.settings = readSettings(editor.settings);
        this.colours = this.look.colours;
        c.clearRect(0, 0, width, height);
        this.drawField(c);
        const sight = this.inSight();
        this.drawWay(c, sight);
        for (const k of sight) this.drawObject(c, k);
        if (editor.selected >= 0) this.drawSelected(c, editor.selected);
        this.placeBubble();
    }

    drawField(c) {
        const [left, top] = this.screen(0, 0), s = this.scale, { field, line, grid, muted } = this.colours;
        c.fillStyle = field;
        c.fillRect(left, top, FIELD.width * s, FIELD.height * s);
        c.lineWidth = 1;
        c.strokeStyle = grid;
        c.beginPath();
        for (let x = 64; x < FIELD.width; x += 64) this.line(c, x, 0, x, FIELD.height);
        for (let y = 64; y < FIELD.height; y += 64) this.line(c, 0, y, FIELD.width, y);
        c.stroke();
        c.strokeStyle = line;
        c.strokeRect(left, top, FIELD.width * s, FIELD.height * s);
        c.fillStyle = muted;
        c.font = `${this.colours.size * 0.86}px system-ui, sans-serif`;
        c.textAlign = 'left';
        c.fillText('0, 0', left, top - 5);
        c.textAlign = 'right';
        c.fillText('512, 384', left + FIELD.width * s, top + FIELD.height * s + this.colours.size * 1.1);
    }

    line(c, x0, y0, x1, y1) {
        c.moveTo(...this.screen(x0, y0));
        c.lineTo(...this.screen(x1, y1));
    }

    head(o) {
        return this.screen(o.x + o.stackX, o.y + o.stackY);
    }

    // A dotted line from each note in sight to the next.
    drawWay(c, sight) {
        const { objects, selected, time } = this.editor;
        c.save();
        c.setLineDash([2, 5]);
        c.lineWidth = 1.5;
        c.strokeStyle = this.colours.muted;
        c.globalAlpha = 0.7;
        c.beginPath();
        for (const k of new Set([...sight, selected + 1])) {
            const a = objects[k - 1], b = objects[k];
            const near = k === selected || k === selected + 1, soon = b && a && a.end >= time - LINGER && sight.includes(k - 1);
            if (!a || !b || !(near || soon) || a.kind === SPINNER || b.kind === SPINNER) continue;
            const end = a.kind === SLIDER && a.spans % 2 ? this.editor.path(k - 1).points.at(-1) : { x: 0, y: 0 };
            c.moveTo(...this.screen(a.x + a.stackX + end.x, a.y + a.stackY + end.y));
            c.lineTo(...this.head(b));
        }
        c.stroke();
        c.restore();
    }

    // How much of a note is seen: it fades in, and lingers after its end.
    opacity(o) {
        const { time } = this.editor, [, , , preempt, fadeIn] = this.settings.numbers;
        if (time > o.end) return Math.max(0.12, 0.55 * (1 - (time - o.end) / LINGER));
        return Math.min(1, Math.max(0.12, (time - (o.start - preempt)) / fadeIn));
    }

    drawObject(c, k) {
        const o = this.editor.objects[k], [, radius, , preempt] = this.settings.numbers, r = radius * this.scale, { time } = this.editor;
        c.save();
        c.globalAlpha = k === this.editor.selected ? Math.max(this.opacity(o), 0.75) : this.opacity(o);
        if (o.kind === SPINNER) this.drawSpinner(c, o);
        else {
            if (o.kind === SLIDER) this.drawSlider(c, k, o, r);
            this.drawHead(c, k, o, r);
            if (time < o.start && time >= o.start - preempt) this.ring(c, this.head(o), r * (1 + (3 * (o.start - time)) / preempt), this.colours.approach, 2);
        }
        c.restore();
    }

    ring(c, [x, y], r, colour, width) {
        c.beginPath();
        c.arc(x, y, r, 0, 2 * Math.PI);
        c.lineWidth = width;
        c.strokeStyle = colour;
        c.stroke();
    }

    drawHead(c, k, o, r) {
        const at = this.head(o), colours = this.colours;
        c.beginPath();
        c.arc(...at, Math.max(r - 1.5, 1), 0, 2 * Math.PI);
        c.fillStyle = colours.note;
        c.fill();
        this.ring(c, at, Math.max(r - 1.5, 1), colours['note-edge'], Math.max(2, r * 0.08));
        c.fillStyle = colours['note-ink'];
        c.font = `600 ${Math.max(9, r * (k > 999 ? 0.5 : 0.62))}px system-ui, sans-serif`;
        c.textAlign = 'center';
        c.textBaseline = 'middle';
        c.fillText(String(k), at[0], at[1] + 1);
        c.textBaseline = 'alphabetic';
    }

    drawSlider(c, k, o, r) {
        const { points, nested } = this.editor.path(k), colours = this.colours, place = (p) => this.screen(o.x + o.stackX + p.x, o.y + o.stackY + p.y);
        c.beginPath();
        points.forEach((p, i) => (i ? c.lineTo(...place(p)) : c.moveTo(...place(p))));
        c.lineCap = c.lineJoin = 'round';
        const alpha = c.globalAlpha, inner = 2 * r - Math.max(5, r * 0.18);
        for (const [width, colour, share] of [[2 * r, colours['note-edge'], 1], [inner, colours.field, 1], [inner, colours.note, 0.35]]) {
            c.globalAlpha = alpha * share;
            c.lineWidth = Math.max(width, 1);
            c.strokeStyle = colour;
            c.stroke();
        }
        c.globalAlpha = alpha;
        for (const e of nested) {
            const at = this.screen(e.x + o.stackX, e.y + o.stackY);
            if (e.kind === 0) this.ring(c, at, r * 0.14, colours['note-edge'], Math.max(2, r * 0.1));
            else if (e.kind === 1) this.drawRepeat(c, at, this.farEnd(at, place(points[0]), place(points.at(-1))), r);
            else this.ring(c, at, r * 0.3, colours['note-edge'], 1.5);
        }
        if (this.editor.time > o.start && this.editor.time < o.end) this.ring(c, place(this.ball(o, points)), r * 1.15, colours.approach, 3);
    }

    // Of two ends of a path the one that is further away.
    farEnd([x, y], a, b) {
        return Math.hypot(a[0] - x, a[1] - y) > Math.hypot(b[0] - x, b[1] - y) ? a : b;
    }

    // An arrow at a repeat, to where the slider goes back.
    drawRepeat(c, [x, y], [toX, toY], r) {
        const a = r * 0.34;
        c.save();
        c.translate(x, y);
        c.rotate(Math.atan2(toY - y, toX - x));
        c.beginPath();
        c.moveTo(-a * 0.5, -a);
        c.lineTo(a * 0.6, 0);
        c.lineTo(-a * 0.5, a);
        c.lineWidth = Math.max(2, r * 0.14);
        c.strokeStyle = this.colours['note-edge'];
        c.stroke();
        c.restore();
    }

    // Where the slider is followed to at the time that is shown.
    ball(o, points) {
        const run = ((this.editor.time - o.start) / (o.end - o.start)) * o.spans, turn = Math.floor(run), share = turn % 2 ? 1 - (run - turn) : run - turn;
        const lengths = points.map((p, i) => (i ? Math.hypot(p.x - points[i - 1].x, p.y - points[i - 1].y) : 0));
        let left = share * lengths.reduce((sum, x) => sum + x, 0);
        for (let i = 1; i < points.length; i++) {
            const a = points[i - 1], b = points[i];
            if (left <= lengths[i] && lengths[i] > 0) return { x: a.x + ((b.x - a.x) * left) / lengths[i], y: a.y + ((b.y - a.y) * left) / lengths[i] };
            left -= lengths[i];
        }
        return points.at(-1);
    }

    drawSpinner(c, o) {
        const at = this.head(o), most = 150 * this.scale, { time } = this.editor;
        const share = time < o.start ? 1 : Math.max(0.06, 1 - (time - o.start) / Math.max(o.end - o.start, 1));
        this.ring(c, at, most, this.colours['note-edge'], 3);
        this.ring(c, at, most * share, this.colours.approach, 3);
        c.beginPath();
        c.arc(...at, 6, 0, 2 * Math.PI);
        c.fillStyle = this.colours.note;
        c.fill();
    }

    drawSelected(c, k) {
        const o = this.editor.objects[k], r = o.kind === SPINNER ? 16 : this.settings.numbers[1] * this.scale + 4;
        c.save();
        c.setLineDash([6, 4]);
        this.ring(c, this.head(o), r, this.colours.select, 2.5);
        c.restore();
    }

    // ---------------------------------------------------------------- the sentence beside the note

    refuse(place, words) {
        this.bubble.textContent = words;
        this.bubble.hidden = false;
        this.near = place;
        this.placeBubble();
    }

    accept() {
        this.bubble.hidden = true;
    }

    // To the right of the note, or to the left, or below, or above: where there is room.
    placeBubble() {
        const o = this.editor.objects[this.near], { offsetWidth: w, offsetHeight: h } = this.bubble;
        if (this.bubble.hidden || !o) return;
        const [x, y] = this.head(o), far = (o.kind === SPINNER ? 16 : this.settings.numbers[1] * this.scale) + 12, { width, height } = this.surface;
        const inside = (at, most) => Math.min(Math.max(at, 4), most - 4), beside = x + far + w <= width - 4 || x - far - w >= 4;
        const left = !beside ? inside(x - w / 2, width - w) : x + far + w <= width - 4 ? x + far : x - far - w;
        const top = beside ? inside(y - h / 2, height - h) : y + far + h <= height - 4 ? y + far : inside(y - far - h, height - h);
        this.bubble.style.left = `${left}px`;
        this.bubble.style.top = `${top}px`;
    }

    // ---------------------------------------------------------------- by hand

    /** The note under a pointer: the selected one if it is there, else the one that starts next to the time shown. */
    find(at) {
        const { objects, selected, time } = this.editor, p = this.fieldAt(at), radius = this.settings.numbers[1];
        const reach = (o) => (o.kind === SPINNER ? 24 : Math.max(radius, 8)), hit = (o) => Math.hypot(o.x + o.stackX - p.x, o.y + o.stackY - p.y) <= reach(o);
        const found = this.inSight().filter((k) => hit(objects[k]));
        if (found.includes(selected)) return selected;
        return found.sort((a, b) => Math.abs(objects[a].start - time) - Math.abs(objects[b].start - time))[0] ?? -1;
    }

    press(event) {
        if (event.button !== 0 || !this.editor.station) return;
        const at = this.surface.at(event), place = this.find(at);
        this.accept();
        if (place < 0) return;
        this.editor.select(place);
        const o = this.editor.objects[place], p = this.fieldAt(at);
        this.surface.canvas.setPointerCapture(event.pointerId);
        this.pointer = { place, dx: o.x - p.x, dy: o.y - p.y, from: at, grabbed: false, to: null };
    }

    // The newest position counts; one step is made for each frame.
    move(event) {
        const { pointer } = this, at = this.surface.at(event);
        if (!pointer) {
            this.surface.canvas.style.cursor = this.editor.station && this.find(at) >= 0 ? 'grab' : 'default';
            return;
        }
        if (!pointer.grabbed && Math.hypot(at.x - pointer.from.x, at.y - pointer.from.y) < 3) return;
        if (!pointer.grabbed) this.editor.grab(pointer.place);
        pointer.grabbed = true;
        const waits = pointer.to !== null;
        pointer.to = this.fieldAt(at);
        if (!waits) requestAnimationFrame(() => this.step());
    }

    step() {
        const { pointer } = this;
        if (!pointer?.to) return;
        const { x, y } = pointer.to;
        pointer.to = null;
        this.editor.dragTo({ x: Math.round(x + pointer.dx), y: Math.round(y + pointer.dy) });
    }

    lift() {
        this.step();
        if (this.pointer?.grabbed) this.editor.settle();
        this.pointer = null;
    }

    /** A double click on free ground puts a circle in. */
    double(event) {
        const at = this.surface.at(event), { x, y } = this.fieldAt(at);
        if (this.find(at) < 0) this.editor.add(CIRCLE, { start: Math.round(this.editor.time), x: Math.round(x), y: Math.round(y) });
    }

    wheel(event) {
        event.preventDefault();
        this.editor.seek(this.editor.time + Math.sign(event.deltaY) * (event.shiftKey ? 10 : 50));
    }
}
