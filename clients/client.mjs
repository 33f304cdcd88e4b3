// Opens a chart, drags one of its objects a thousand times, puts one in and takes two out, and prints what a station would show; then edits it for two players, the second at double and at
// half speed. client.c does the same.
//     node client.mjs STATION.wasm CHART
import { readFileSync } from 'node:fs';
import { Chart, MODS, MOST, Refusal, Second } from './station.mjs';

const [wasm, name] = process.argv.slice(2);
if (!name) {
    console.error('usage: node client.mjs STATION.wasm CHART');
    process.exit(2);
}
const module = await WebAssembly.compile(readFileSync(wasm));
const chart = await Chart.load(module, readFileSync(name), 1); // with room for one object more
const objects = chart.objects <= MOST ? chart.objects : 0;

function printAnswer(what, answer) {
    console.log(answer instanceof Refusal ? `${what}: refused ${answer.number} ${answer.place}` : `${what}: carried out`);
}

function printNumbers(what, numbers) {
    const bits = new BigUint64Array(numbers.buffer);
    console.log([what, ...Array.from(bits, (b) => b.toString(16).toUpperCase().padStart(16, '0'))].join(' '));
}

// A figure's numbers, or its refusal.
function printFigure(what, answer) {
    if (answer instanceof Refusal) printAnswer(what, answer);
    else printNumbers(what, answer);
}

// What the chart, that is the first player, or the second shows.
function show(place, player = chart) {
    const readings = { values: player.readValues(place), record: player.readRecord(place), parts: player.readAimParts(place), rhythm: player.readRhythm(place) };
    for (const [what, answer] of Object.entries(readings)) {
        if (!(answer instanceof Refusal)) printNumbers(what, answer);
    }
    printFigure('totals', player.totals());
    printFigure('counts', player.counts());
    printFigure('prefix', player.totalsTo(place));
    const numbers = { approachRate: 9.5, overallDifficulty: 8, baseMultiplier: 1.14, startScale: 2 };
    printFigure('ratings', player.ratings(MODS.hidden | MODS.flashlight, numbers));
}

// The totals while playing, for all numbers of objects; then a list one entry short (7), one object too many (8) and a base multiplier that is not finite (10).
function showPlaying() {
    printFigure('prefixes', chart.totalsWhilePlaying());
    printFigure('prefixes', chart.totalsWhilePlaying(chart.objects));
    printFigure('prefix', chart.totalsTo(chart.objects + 1));
    printFigure('ratings', chart.ratings(0, { approachRate: 9.5, overallDifficulty: 8, baseMultiplier: Infinity }));
}

// Moves the object to and fro. Every tenth step drops it outside the field (3), every seventeenth past the last place (8), every twenty-third is cut short (3 at
// its place).
function drag(place) {
    const object = chart.object(place), answers = Array(11).fill(0);
    for (let step = 0; step < 1000; step++) {
        const x = step % 10 === 9 ? 200000 : 100 + (step % 40 < 20 ? step % 20 : 20 - (step % 20));
        new DataView(object.buffer).setFloat32(16, x, true);
        const answer = chart.replace(step % 17 === 16 ? objects : place, step % 23 === 22 ? object.slice(0, 40) : object);
        answers[answer?.number ?? 0]++;
        if (step % 250 === 0) show(place);
    }
    answers.forEach((times, n) => {
        if (times) console.log(`${n ? `refused ${n}` : 'carried out'}: ${times} times`);
    });
}

// Puts a copy of the object in before it; a second finds no room for another (9). Then the first object of the chart goes out, the copy, and one past the last (8).
function putInAndTakeOut(place) {
    const object = chart.object(place);
    printAnswer('insertion', chart.insert(place, object));
    show(place);
    printAnswer('insertion', chart.insert(place, object));
    printAnswer('removal', chart.remove(0));
    show(place);
    printAnswer('removal', chart.remove(place - 1));
    printAnswer('removal', chart.remove(objects - 1));
    show(place - 1);
}

// The header's settings with its clock rate times a power of two.
function settings(speed) {
    const bytes = chart.settings, fields = new DataView(bytes.buffer);
    fields.setFloat64(0, fields.getFloat64(0, true) * speed, true);
    return bytes;
}

// Puts a circle at the last place for both players that starts so many milliseconds in, as the first player plays.
function putLate(second, milliseconds) {
    const object = new Uint8Array(chart.objectSize), fields = new DataView(object.buffer);
    const time = milliseconds * new DataView(chart.settings.buffer).getFloat64(0, true);
    fields.setFloat64(0, time, true);
    fields.setFloat64(8, time, true);
    printAnswer('replacement', chart.replace(chart.objects - 1, object, second));
}

// Opens for a second player, whose settings of 47 bytes are refused (2), and edits for both: an object moved, a copy of it put in, the first object taken out. A circle 4,000 seconds in is too
// late at normal speed alone (6), and one 2,000 seconds in at half speed alone, for which the second player is opened anew.
function twoPlayers(place) {
    console.log('second player at double speed');
    const second = new Second(chart, settings(2).slice(0, 47));
    printAnswer('opening', second.open());
    second.settings = settings(2);
    printAnswer('opening', second.open());
    show(place, second);
    const object = chart.object(place);
    new DataView(object.buffer).setFloat32(16, 300, true);
    printAnswer('replacement', chart.replace(place, object, second));
    printAnswer('insertion', chart.insert(place, object, second));
    printAnswer('removal', chart.remove(0, second));
    putLate(second, 4e6);
    show(place);
    show(place, second);
    console.log('second player at half speed');
    second.settings = settings(0.5);
    printAnswer('opening', second.open());
    putLate(second, 2e6);
    show(place);
    show(place, second);
    printFigure('prefixes', second.totalsWhilePlaying());
}

console.log(`objects ${objects}`);
const opened = chart.open();
printAnswer('opening', opened);
if (opened === null && objects > 1) {
    const place = Math.floor(objects / 2);
    show(place);
    showPlaying();
    drag(place);
    show(place);
    putInAndTakeOut(place);
    showPlaying();
    twoPlayers(Math.floor((objects - 1) / 2));
}
