// Carries out a list of calls (tools/replay.py says its form) on station.wasm, and writes the answers. replay.c does the same.
//     node replay.mjs STATION.wasm CALLS ANSWERS
import { closeSync, openSync, readFileSync, writeSync } from 'node:fs';

const [wasm, calls, answers] = process.argv.slice(2);
const [END, PUT, FILL, CALL, SHOW] = [0, 1, 2, 3, 4];
const MEMORY = 1 << 20;
const four = 'pn'.repeat(4), edit = 'pnnpnpnpn', reading = 'pnpnnpn', figure = `pnpn${four}pn`;
const CALLS = [
    ['open', 'pnpnpn'], ['replace', edit], ['insert', edit], ['remove', 'pnnpnpn'],
    ['read_record', reading], ['read_values', reading], ['read_aim_parts', reading], ['read_rhythm', reading],
    ['totals', figure], ['totals_to', `pnpnn${four}pn`], ['totals_while_playing', `pnpnpn${four}`], ['counts', figure], ['ratings', `pnpnwwpn${four}pn`],
];
const isEdit = ([name]) => ['replace', 'insert', 'remove'].includes(name);
// For the second player settings come behind the chart, and an edit for both takes that player's tables too.
CALLS.push(
    ...CALLS.filter(isEdit).map(([name, takes]) => [`${name}_both`, `pn${takes}pnpn`]),
    ...CALLS.filter((call) => !isEdit(call)).map(([name, takes]) => [`${name}_as`, `pn${takes}`]),
    ['rank', `pnpnwwpnpnpn${four}`], ['join', `pnpnnwwpnpnpn${four}`],
);

const { exports } = await WebAssembly.instantiate(await WebAssembly.compile(readFileSync(wasm)), {});
const base = Math.ceil(exports.__heap_base.value / 16) * 16;
exports.memory.grow(Math.ceil(MEMORY / 65536) + 1);
const memory = new Uint8Array(exports.memory.buffer, base, MEMORY), numbers = new DataView(exports.memory.buffer, base, MEMORY);
const list = readFileSync(calls), steps = new DataView(list.buffer, list.byteOffset, list.length);
const file = openSync(answers, 'w'), room = Buffer.alloc(1 << 24);
let at = 0, answered = 4; // behind the length of a case's answers

function word() {
    at += 4;
    return steps.getUint32(at - 4, true);
}

function long() {
    at += 8;
    return steps.getBigUint64(at - 8, true);
}

function call([name, takes]) {
    const given = [];
    for (const kind of takes) {
        const x = long();
        given.push(kind === 'n' ? x : kind === 'p' ? base + Number(x) : Number(x));
    }
    const answer = exports[`difficulty_${name}`](...given);
    answered = room.writeBigUInt64LE(BigInt.asUintN(64, answer), answered);
}

while (at < list.length) {
    const what = word();
    if (what === END) {
        room.writeUInt32LE(answered - 4, 0);
        for (let from = 0; from < answered; ) from += writeSync(file, room, from, answered - from);
        answered = 4;
    } else if (what === PUT) {
        const to = word(), length = word();
        memory.set(list.subarray(at, at + length), to);
        at += length;
    } else if (what === FILL) {
        const to = word(), count = word(), bits = long();
        for (let i = 0; i < count; i++) numbers.setBigUint64(to + 8 * i, bits, true);
    } else if (what === CALL) {
        call(CALLS[word()]);
    } else if (what === SHOW) {
        const from = word(), length = word();
        room.set(memory.subarray(from, from + length), answered);
        answered += length;
    } else {
        throw new Error(`an unknown step, ${what}`);
    }
}
closeSync(file);
