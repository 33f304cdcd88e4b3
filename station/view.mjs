// What the views share: colours of the style sheet, canvases that follow their size, the span of time that is shown, and how numbers and times are written.
import { bitsOf, hex } from './text.mjs';

const NAMES = ['muted', 'line', 'grid', 'field', 'note', 'note-edge', 'note-ink', 'approach', 'select', 'changed', 'window', 'ghost', 'aim', 'aim-plain',
    'speed', 'rhythm', 'flashlight'];

/** The style sheet's colours by name, as they are now, and the size of its type. */
export function colours() {
    const style = getComputedStyle(document.documentElement);
    return { ...Object.fromEntries(NAMES.map((name) => [name, style.getPropertyValue('--' + name).trim()])), size: parseFloat(style.fontSize) };
}

/** A canvas that has as many pixels as it takes on the screen; draw(context, width, height) is called when its size changes. */
export class Surface {
    constructor(canvas, draw) {
        this.canvas = canvas;
        this.context = canvas.getContext('2d');
        this.width = this.height = 0;
        this.draw = draw;
        new ResizeObserver(() => {
            this.fit();
            if (this.width && this.height) this.draw();
        }).observe(canvas);
        this.fit();
    }

    fit() {
        const { clientWidth, clientHeight } = this.canvas, ratio = window.devicePixelRatio || 1;
        Object.assign(this, { width: clientWidth, height: clientHeight });
        this.canvas.width = Math.max(1, Math.round(clientWidth * ratio));
        this.canvas.height = Math.max(1, Math.round(clientHeight * ratio));
        this.context.setTransform(ratio, 0, 0, ratio, 0, 0);
    }

    /** Where a pointer is on it. */
    at(event) {
        const box = this.canvas.getBoundingClientRect();
        return { x: event.clientX - box.left, y: event.clientY - box.top };
    }
}

/** The span of time that timeline and graphs show, in milliseconds of the chart. */
export class Span extends EventTarget {
    from = 0;
    to = 10_000;
    whole = [0, 10_000];

    /** From where to where one can go: the chart's time with some room. */
    bound(objects) {
        const last = objects.reduce((most, o) => Math.max(most, o.end), 0), first = objects[0]?.start ?? 0;
        const room = Math.max((last - first) * 0.02, 500);
        this.whole = [first - room, Math.max(last, first + 1000) + room];
    }

    set(from, to) {
        const [low, high] = this.whole, length = Math.min(Math.max(to - from, 50), high - low);
        this.from = Math.min(Math.max(from, low), high - length);
        this.to = this.from + length;
        this.dispatchEvent(new Event('change'));
    }

    all() {
        this.set(...this.whole);
    }

    zoom(factor, around = (this.from + this.to) / 2) {
        const from = around - (around - this.from) * factor;
        this.set(from, from + (this.to - this.from) * factor);
    }

    pan(by) {
        this.set(this.from + by, this.to + by);
    }

    /** Moves on where a time is out of sight or near the edge. */
    follow(time) {
        const length = this.to - this.from, edge = length * 0.04;
        if (time < this.from + edge || time > this.to - edge) this.set(time - length * 0.3, time + length * 0.7);
    }

    x(time, width) {
        return ((time - this.from) / (this.to - this.from)) * width;
    }

    time(x, width) {
        return this.from + (x / width) * (this.to - this.from);
    }
}

/** Minutes, seconds and milliseconds. */
export function clock(ms, digits = 3) {
    const sign = ms < 0 ? '−' : '', whole = Math.abs(ms), minutes = Math.floor(whole / 60_000), seconds = ((whole % 60_000) / 1000).toFixed(digits);
    return `${sign}${minutes}:${seconds.padStart(digits ? digits + 3 : 2, '0')}`;
}

/** A step of 1, 2 or 5 times a power of ten that gives at most so many parts. */
export function niceStep(length, parts) {
    const least = length / parts, unit = 10 ** Math.floor(Math.log10(least));
    return [1, 2, 5, 10].map((k) => k * unit).find((step) => step >= least * (1 - 1e-9));
}

/** A number as it is shown: six digits, of them six behind the point at most, or all that its bits need, or its bits. */
export function shown(x, mode) {
    if (mode === 'bits') return Number.isNaN(x) ? 'NaN' : hex(bitsOf(x, 64), 64);
    if (!Number.isFinite(x)) return Number.isNaN(x) ? 'NaN' : x < 0 ? '−∞' : '∞';
    if (mode === 'all') return String(x);
    if (x === 0) return '0';
    const size = Math.abs(x);
    if (size >= 1e7 || size < 5e-5) return x.toExponential(3);
    return size < 1 ? String(Number(x.toFixed(6))) : String(Number(x.toPrecision(6)));
}

/** A number of 32 bits as the shortest decimal that gives it. */
export function single(x) {
    for (let digits = 1; digits < 10; digits++) if (Math.fround(Number(x.toPrecision(digits))) === x) return Number(x.toPrecision(digits));
    return x;
}

/** An element with attributes and children. */
export function element(name, attributes = {}, ...children) {
    const made = document.createElement(name);
    for (const [key, value] of Object.entries(attributes)) {
        if (key.startsWith('on')) made.addEventListener(key.slice(2), value);
        else if (key === 'class') made.className = value;
        else if (value === true) made.setAttribute(key, '');
        else if (value !== false && value !== null && value !== undefined) made.setAttribute(key, value);
    }
    made.append(...children);
    return made;
}
