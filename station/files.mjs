// Charts from files, from a drop, from the examples and as text; charts into files.
import { thousand } from './song.mjs';
import { readText, toText, TextError } from './text.mjs';
import { keepDraft, keptDraft } from './storage.mjs';
import { element } from './view.mjs';

const EXAMPLES = [['verse', 'Verse: 18 notes of all kinds'], ['stated', 'Sliders of stated length'], ['two_circles', 'Two circles']];
const THOUSAND = 'thousand';

export class Files {
    constructor(editor, say) {
        Object.assign(this, { editor, say });
        const id = (name) => document.getElementById(name);
        Object.assign(this, { input: id('file'), menu: id('examples'), dialog: id('text-dialog'), area: id('text-area'), fault: id('text-fault') });
        for (const [value, words] of [...EXAMPLES, [THOUSAND, 'A thousand notes']]) this.menu.append(element('option', { value }, words));
        this.menu.addEventListener('change', () => {
            this.example(this.menu.value);
            id('playfield').focus();
        });
        id('open').addEventListener('click', () => this.input.click());
        this.input.addEventListener('change', () => this.take(this.input.files[0]));
        id('save').addEventListener('click', () => this.save());
        id('save-text').addEventListener('click', () => this.save(true));
        id('text').addEventListener('click', () => this.edit());
        id('text-apply').addEventListener('click', () => this.apply());
        id('text-fresh').addEventListener('click', () => this.fresh());
        id('text-copy').addEventListener('click', () => navigator.clipboard?.writeText(this.area.value));
        this.area.addEventListener('input', () => keepDraft(this.area.value));
        document.addEventListener('dragover', (e) => e.preventDefault());
        document.addEventListener('drop', (e) => this.drop(e));
    }

    async example(name) {
        this.menu.value = '';
        if (!name) return;
        if (name === THOUSAND) return void (await this.editor.open(thousand(), THOUSAND));
        const answer = await fetch(`../examples/${name}.txt`);
        if (answer.ok) await this.takeText(await answer.text(), name);
        else this.say(`The example ${name} cannot be read (${answer.status}).`);
    }

    drop(event) {
        event.preventDefault();
        const [file] = event.dataTransfer?.files ?? [];
        if (file) this.take(file);
    }

    /** A file: text where its name ends in .txt, else a chart's bytes. */
    async take(file) {
        this.input.value = '';
        if (!file) return;
        const bytes = new Uint8Array(await file.arrayBuffer()), name = file.name.replace(/\.(chart|txt)$/, '');
        if (!file.name.endsWith('.txt')) return this.takeBytes(bytes, name, file.name);
        try {
            await this.takeText(new TextDecoder('utf-8', { fatal: true, ignoreBOM: true }).decode(bytes), name);
        } catch (e) {
            if (!(e instanceof TypeError)) throw e;
            this.say(`${file.name} is not a text: its bytes are not UTF-8. The chart stays as it was.`);
        }
    }

    async takeBytes(bytes, name, file) {
        const refused = await this.editor.open(bytes, name), look = { words: 'See it as text', act: () => this.show(toText(bytes), refused) };
        if (refused) this.say(`${file} is not opened. ${refused}. The chart stays as it was.`, look);
    }

    /** Opens a text; where it is wrong it is shown with its fault, and the chart stays. */
    async takeText(text, name) {
        const fault = await this.openText(text, name);
        if (fault) this.show(text, fault);
    }

    /** Null, or what is wrong with a text. */
    async openText(text, name) {
        try {
            const { bytes, lines } = readText(text);
            return await this.editor.open(bytes, name, lines);
        } catch (e) {
            if (!(e instanceof TextError)) throw e;
            return e.message;
        }
    }

    save(asText = false) {
        this.editor.settle();
        const { name, bytes } = this.editor, kind = asText ? 'text/plain' : 'application/octet-stream';
        const url = URL.createObjectURL(new Blob([asText ? toText(bytes.slice()) : bytes.slice()], { type: kind }));
        element('a', { href: url, download: `${name}.${asText ? 'txt' : 'chart'}` }).click();
        setTimeout(() => URL.revokeObjectURL(url), 10_000);
    }

    // ---------------------------------------------------------------- the chart as text

    /** The text that was being written, or the chart's. */
    edit() {
        const draft = keptDraft();
        if (draft === null) return this.show(toText(this.editor.bytes.slice()), '');
        this.show(draft, 'This is the text that was left here last; the chart itself may be another.');
    }

    fresh() {
        keepDraft(null);
        this.show(toText(this.editor.bytes.slice()), '');
    }

    /** A text with what is wrong with it; the line is selected. */
    show(text, fault) {
        this.area.value = text;
        this.fault.textContent = fault;
        if (!this.dialog.open) this.dialog.showModal();
        const line = Number(/line (\d+)/.exec(fault)?.[1] ?? 0), lines = text.split('\n');
        const from = lines.slice(0, Math.max(line - 1, 0)).reduce((sum, l) => sum + l.length + 1, 0);
        this.area.focus();
        this.area.setSelectionRange(from, line ? from + lines[line - 1].length : from);
        this.area.scrollTop = Math.max(0, line - 6) * 18;
        if (fault) keepDraft(text);
    }

    async apply() {
        const fault = await this.openText(this.area.value, this.editor.name);
        if (fault) return this.show(this.area.value, fault);
        keepDraft(null);
        this.dialog.close();
    }
}
