// A chart of a thousand objects, worked out: jumps, streams, sliders with ticks and repeats, stacks and spinners at 180 beats a minute.
import { CIRCLE, SLIDER, SPINNER, TAIL, behind, joined, plainObject, writeNested, writeObject, writePoints, writeSettings } from './chart.mjs';

const BEAT = 1000 / 3, COUNT = 1000;
const SETTINGS = { numbers: [1, 36.48, 39, 600, 400, 50 / 36.48], flags: 0 };

// Whole numbers that look like chance, the same on every machine.
function chance(seed) {
    let state = seed;
    return (below) => {
        state = (Math.imul(state, 1664525) + 1013904223) >>> 0;
        return Math.floor((state / 2 ** 32) * below);
    };
}

class Song {
    constructor() {
        Object.assign(this, { next: chance(7), objects: [], nested: [], points: [], at: 1000, x: 256, y: 192, turn: 0 });
    }

    // The next position, so far from the last, turned on and kept in the field.
    step(distance) {
        this.turn += (70 + this.next(90)) * (Math.PI / 180);
        const x = this.x + distance * Math.cos(this.turn), y = this.y + distance * Math.sin(this.turn);
        this.x = Math.round(x < 24 || x > 488 ? 2 * this.x - x : x);
        this.y = Math.round(y < 24 || y > 360 ? 2 * this.y - y : y);
        this.x = Math.min(Math.max(this.x, 24), 488);
        this.y = Math.min(Math.max(this.y, 24), 360);
    }

    put(fields) {
        this.objects.push(writeObject(plainObject({ x: this.x, y: this.y, ...fields })));
    }

    circle(beats) {
        this.put({ kind: CIRCLE, start: Math.round(this.at), end: Math.round(this.at) });
        this.at += beats * BEAT;
    }

    jumps() {
        for (let i = 0; i < 8; i++) {
            this.step(110 + this.next(90));
            this.circle(0.5);
        }
    }

    // Notes a quarter of a beat apart along a bow.
    stream() {
        const bend = (this.next(40) - 20) / 100;
        this.step(80);
        for (let i = 0; i < 13; i++) {
            this.circle(0.25);
            this.turn += bend;
            this.x = Math.min(Math.max(Math.round(this.x + 24 * Math.cos(this.turn)), 16), 496);
            this.y = Math.min(Math.max(Math.round(this.y + 24 * Math.sin(this.turn)), 16), 368);
        }
        this.at += 0.75 * BEAT;
    }

    stack() {
        this.step(140);
        for (let i = 0; i < 3; i++) {
            this.put({ kind: CIRCLE, start: Math.round(this.at), end: Math.round(this.at), stackX: -3.2 * (2 - i), stackY: -3.2 * (2 - i) });
            this.at += 0.25 * BEAT;
        }
        this.at += 0.25 * BEAT;
    }

    // A bent path of three points; a tick in the middle of each span, a repeat between two.
    slider(spans) {
        this.step(130);
        const start = Math.round(this.at), span = Math.round(BEAT), side = this.x < 256 ? 1 : -1, end = start + spans * span;
        const path = [[0, 0], [60 * side, 0], [60 * side + 48 * side, this.y < 192 ? 36 : -36]], lengths = [0, 60, 120], entries = [];
        for (let i = 0; i < spans; i++) {
            entries.push({ start: start + i * span + Math.round(span / 2), x: this.x + path[1][0], y: this.y, kind: 0 });
            const [x, y] = path[i % 2 ? 0 : 2], last = i + 1 === spans;
            entries.push({ start: last ? end - 36 : start + (i + 1) * span, x: this.x + x, y: this.y + y, kind: last ? TAIL : 1 });
        }
        const firsts = { nestedFirst: this.nested.length, pointsFirst: this.points.length };
        this.put({ kind: SLIDER, start, end, spans, ...firsts, nestedCount: entries.length, pointsCount: 3 });
        this.nested.push(...entries);
        this.points.push(...path.map(([x, y], i) => ({ x, y, length: lengths[i] })));
        this.at += (spans + 0.5) * BEAT;
    }

    spinner() {
        const start = Math.round(this.at);
        this.put({ kind: SPINNER, start, end: start + Math.round(4 * BEAT), x: 256, y: 192 });
        this.at += 5 * BEAT;
    }

    bar() {
        const kind = this.next(20);
        if (kind < 8) this.jumps();
        else if (kind < 12) this.stream();
        else if (kind < 14) this.stack();
        else if (kind < 19) this.slider(1 + this.next(2));
        else this.spinner();
    }
}

/** The chart in bytes. */
export function thousand() {
    const song = new Song();
    while (song.objects.length < COUNT) song.bar();
    return joined(writeSettings(SETTINGS), 56, behind(...song.objects.slice(0, COUNT)), writeNested(song.nested), writePoints(song.points));
}
