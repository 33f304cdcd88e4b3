// What text.mjs and words.mjs make of charts and texts, for `station/test`, which holds it to tools/chart.py.
//     node forms.mjs < CASES > ANSWERS
// Both are lists of u32 length and bytes. A case is a letter and what follows:
//     b  a chart, answered by its text
//     t  a text, answered by a 0 and its bytes, or by a 1 and the error
//     e  a number, a place (u32 each) and a chart that is refused so, answered by the sentence
//     s  a number, a place, the place of an edit and a chart, answered by the sentence beside the note
import { readFileSync, writeSync } from 'node:fs';
import { readText, toText, TextError } from '../text.mjs';
import { editSentence, openingSentence } from '../words.mjs';

function answer(kind, rest) {
    if (kind === 'b') return Buffer.from(toText(rest));
    const word = (i) => rest.readUInt32LE(4 * i), refusal = () => ({ number: word(0), place: word(1), words: '' });
    if (kind === 'e') return Buffer.from(openingSentence(refusal(), Uint8Array.from(rest.subarray(8))));
    if (kind === 's') return Buffer.from(editSentence(refusal(), word(2), Uint8Array.from(rest.subarray(12))));
    try {
        return Buffer.concat([Buffer.from([0]), readText(rest.toString('utf8')).bytes]);
    } catch (e) {
        if (!(e instanceof TextError)) throw e;
        return Buffer.concat([Buffer.from([1]), Buffer.from(e.message)]);
    }
}

const given = readFileSync(0), out = [];
for (let at = 0; at < given.length; ) {
    const size = given.readUInt32LE(at), found = answer(String.fromCharCode(given[at + 4]), Buffer.from(given.subarray(at + 5, at + 4 + size)));
    const length = Buffer.alloc(4);
    length.writeUInt32LE(found.length);
    out.push(length, found);
    at += 4 + size;
}
const whole = Buffer.concat(out);
for (let at = 0; at < whole.length; ) at += writeSync(1, whole, at);
