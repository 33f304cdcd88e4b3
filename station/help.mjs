// What the help says.
import { element } from './view.mjs';

const KEYS = {
    'The selected note': [
        ['← ↑ → ↓', 'move it by 10 px, with Shift by 1 px'],
        ['[ ]', 'move it in time by 10 ms, with Shift by 1 ms'],
        ['Delete', 'take it out'],
        [', .', 'select the note before, behind'],
        ['Home End', 'select the first, the last note'],
    ],
    'The chart': [
        ['N', 'put a note of the chosen kind in, at the time shown'],
        ['C S P', 'put in a circle, a slider, a spinner'],
        ['Ctrl Z', 'undo; with Shift (or Ctrl Y) redo'],
        ['Ctrl O', 'open a file'],
        ['Ctrl S', 'save the chart'],
        ['T', 'the chart as text'],
    ],
    'What is shown': [
        ['Space', 'play or pause'],
        ['PgUp PgDn', 'a second back, on'],
        ['+ − 0', 'zoom the timeline in, out, show all'],
        ['B', 'few digits, all digits, bits'],
        ['Esc', 'let a drag go; close'],
        ['?', 'this help'],
    ],
};

const WORDS = [
    'Drag a note on the playfield to move it, on the timeline to move it in time. Double-click free ground to put a circle in. '
        + 'A click on a graph selects the note there. The wheel goes through time on the playfield and zooms the timeline and the graphs.',
    'Every edit is a call of a library that is proved to answer as its definitions say, on every input. What an edit changed is marked: '
        + 'the band is where the theorem allows changes, one place before the note to 33 behind it; '
        + 'dots in the band are values that have other bits now, the thin line is what they were.',
    'What is refused stays as it was, and a sentence beside the note says why, with the refusal’s number and place. '
        + 'A chart, text or bytes, can be dropped on the page. Everything stays in this browser: nothing is sent anywhere, and a reload loses nothing.',
];

export function makeHelp(parent) {
    for (const [title, rows] of Object.entries(KEYS)) {
        const list = element('dl', { class: 'keys' });
        for (const [keys, words] of rows) list.append(element('dt', {}, ...keys.split(' ').map((key) => element('kbd', {}, key))), element('dd', {}, words));
        parent.append(element('section', {}, element('h3', {}, title), list));
    }
    parent.append(element('section', { class: 'prose' }, ...WORDS.map((words) => element('p', {}, words))));
}
