// What a reload must not lose, in the browser's local storage: the chart, a text that is not a chart yet, and what was set. Nothing leaves the machine.
const CHART = 'station.chart', REST = 'station.rest', DRAFT = 'station.draft', HISTORY = 'station.history';
const MOST = 1_500_000; // characters of what was done and undone

function toBase64(bytes) {
    let text = '';
    for (let i = 0; i < bytes.length; i += 8192) text += String.fromCharCode(...bytes.subarray(i, i + 8192));
    return btoa(text);
}

function fromBase64(text) {
    return Uint8Array.from(atob(text), (c) => c.charCodeAt(0));
}

function put(key, text) {
    try {
        if (text === null) localStorage.removeItem(key);
        else localStorage.setItem(key, text);
        return true;
    } catch {
        return false;
    }
}

function get(key) {
    try {
        return localStorage.getItem(key);
    } catch {
        return null;
    }
}

/** Keeps the chart; false where the browser has no room for it. */
export function keepChart(name, bytes) {
    return put(CHART, JSON.stringify({ name, bytes: toBase64(bytes) }));
}

export function keptChart() {
    try {
        const { name, bytes } = JSON.parse(get(CHART));
        return { name, bytes: fromBase64(bytes) };
    } catch {
        return null;
    }
}

/** Keeps what else was set: numbers as they are shown, theme, ratings' numbers, the second player, place and time. */
export function keepRest({ second, ...rest }) {
    return put(REST, JSON.stringify({ ...rest, second: second ? toBase64(second) : null }));
}

export function keptRest() {
    try {
        const { second, ...rest } = JSON.parse(get(REST));
        return { ...rest, second: second ? fromBase64(second) : null };
    } catch {
        return {};
    }
}

const written = new WeakMap(); // each edit as a text, made once

function editText(edit) {
    const { before, after, ...rest } = edit, packed = (bytes) => (bytes ? toBase64(bytes) : null);
    if (!written.has(edit)) written.set(edit, JSON.stringify({ ...rest, before: packed(before), after: packed(after) }));
    return written.get(edit);
}

// The last edits of a list that have room together, and how many characters are left.
function newest(edits, room) {
    const texts = [];
    for (let i = edits.length - 1; i >= 0 && room > 0; i--) {
        const text = editText(edits[i]);
        room -= text.length;
        if (room > 0) texts.unshift(text);
    }
    return [texts, room];
}

/** Keeps what was done and undone, the newest of it where all is too much. */
export function keepHistory(done, undone) {
    const [first, room] = newest(done, MOST), [second] = newest(undone, room);
    return put(HISTORY, `{"done":[${first}],"undone":[${second}]}`) || put(HISTORY, null);
}

export function keptHistory() {
    try {
        const bytes = (text) => (text === null ? null : fromBase64(text));
        const edits = (list) => list.map((e) => ({ ...e, before: bytes(e.before), after: bytes(e.after) }));
        const { done, undone } = JSON.parse(get(HISTORY));
        return { done: edits(done), undone: edits(undone) };
    } catch {
        return { done: [], undone: [] };
    }
}

/** A text that is being written, or null. */
export function keepDraft(text) {
    return put(DRAFT, text);
}

export function keptDraft() {
    return get(DRAFT);
}
