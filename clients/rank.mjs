// Lays charts one behind the other in a pack and ranks them, then both halves alone, and joins these. rank.c does the same.
//     node rank.mjs STATION.wasm CHART..
import { readFileSync } from 'node:fs';
import { MODS, Refusal, rank } from './station.mjs';

const [wasm, ...names] = process.argv.slice(2);
if (!names.length) {
    console.error('usage: node rank.mjs STATION.wasm CHART..');
    process.exit(2);
}
const module = await WebAssembly.compile(readFileSync(wasm));
const charts = names.map((name) => readFileSync(name)), pack = Buffer.concat(charts), half = Math.floor(charts.length / 2);
const offsets = charts.map((_, i) => charts.slice(0, i).reduce((sum, chart) => sum + chart.length, 0));
const numbers = { approachRate: 9.5, overallDifficulty: 8, baseMultiplier: 1.14 };

function printAnswer(answer) {
    console.log(answer instanceof Refusal ? `refused ${answer.number} ${answer.place}` : ['listing', ...answer].join(' '));
}

printAnswer(await rank(module, pack, offsets, MODS.hidden, numbers));
const parts = await Promise.all([offsets.slice(0, half), offsets.slice(half)].map((part) => rank(module, pack, part, MODS.hidden, numbers)));
printAnswer(await rank(module, pack, parts.some((part) => part instanceof Refusal) ? offsets : parts.flat(), MODS.hidden, numbers, half));
