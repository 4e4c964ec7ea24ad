// node web/comparing/sheets.mjs LIBRARY.wasm FOLDER: what web/src/sheet.mjs says of each sheet of sheets.py, beside what the program wrote, byte by byte:
// its report, every line with its numbers as they are shown, its refusals, its warnings and its ending (RULES 7, 14). And the text that it makes of each
// form, the fields that it marks and those that it notes, beside what was worked elsewhere (RULES 15.1). Ends with `N compared, 0 differ`.
import fs from 'node:fs';
import { pathToFileURL } from 'node:url';
import { openLibrary } from '../src/library.mjs';
import * as sheet from '../src/sheet.mjs';

export const linesOf = file => fs.readFileSync(file, 'utf8').split('\n').slice(0, -1).map(line => JSON.parse(line));
export const casesOf = folder => ({ sheets: linesOf(`${folder}/sheets.json`), forms: linesOf(`${folder}/forms.json`) });

function said(sheet, lib, text) {
    const bytes = new Uint8Array(Buffer.from(text, 'base64'));
    const outcome = sheet.outcomeOf(lib, bytes);
    return outcome.report + sheet.explanationOf(lib, outcome, bytes);
}

// what the sheets have in them, so that one sees what was compared
const SEEN = {
    COVERED: / COVERED\n/g, SHORT: / SHORT\n/g, 'SENT BACK': /^SENT BACK /gm, refused: /: refused by /g, "gauges that can't tell": /: the gauge can't tell\./g,
    'lines above 750 kg/m3': /is more than a cylinder is filled with/g, 'places in a text': /^Line \d+, column /gm,
};
const seenIn = (texts, form) => texts.reduce((n, text) => n + [...text.matchAll(form)].length, 0);

// What a form becomes, in the order of sheets.py. Each mark has words.
function madeOf(sheet, form) {
    const { text, marks, notes } = sheet.sheetOf(form);
    const order = (a, b) => a[0] - b[0] || (a[1] < b[1] ? -1 : a[1] > b[1] ? 1 : a[2] < b[2] ? -1 : 1);
    return { text, marks: marks.map(({ row, field, words }) => words ? [row, field] : [row, field, 'without words']).sort(order),
        notes: notes.map(({ row, field, words, thousands = false }) => [row, field, words, thousands]).sort(order) };
}

const orFault = ask => {
    try {
        return ask();
    } catch (fault) {
        return `thrown: ${fault.message}`;
    }
};

// What was compared, by its kind, and how many differ
export function compare(sheet, lib, { sheets, forms }, say = () => {}) {
    const counts = {};
    const note = (kind, same) => {
        const count = counts[kind] ??= { compared: 0, differ: 0 };
        count.compared++;
        if (!same) count.differ++;
        return same;
    };
    for (const { case: kind, text, wrote } of sheets) {
        const got = orFault(() => said(sheet, lib, text));
        const name = `sheets, ${kind}`;
        if (!note(name, got === wrote) && counts[name].differ === 1) say(`differs, ${kind}:\n${wrote}-- and web/src/sheet.mjs:\n${got}`);
    }
    for (const { form, ...want } of forms) {
        const got = orFault(() => madeOf(sheet, form)), kinds = { text: want.text === null ? 'forms that have no sheet' : 'forms that have one',
            marks: want.marks.length ? 'forms with fields marked' : 'forms with none marked', notes: want.notes.length ? 'forms with fields noted'
                : 'forms with none noted' };
        for (const [part, kind] of Object.entries(kinds)) {
            const [is, should] = [JSON.stringify(got[part]), JSON.stringify(want[part])];
            if (!note(kind, is === should) && counts[kind].differ === 1) say(`differs: ${JSON.stringify(form)}\n${should}\n-- and web/src/sheet.mjs:\n${is}`);
        }
    }
    return counts;
}

async function main([wasm, folder]) {
    const cases = casesOf(folder);
    const counts = compare(sheet, await openLibrary(fs.readFileSync(wasm)), cases, console.log);
    let compared = 0, differ = 0;
    for (const [kind, count] of Object.entries(counts)) {
        console.log(`${String(count.compared).padStart(9)} of ${kind}, ${count.differ} differ`);
        compared += count.compared;
        differ += count.differ;
    }
    const wrote = cases.sheets.map(each => each.wrote);
    console.log(`in the sheets: ${Object.entries(SEEN).map(([word, form]) => `${word} ${seenIn(wrote, form)}`).join(', ')}`);
    console.log(`${compared} compared, ${differ} differ`);
    process.exitCode = differ || compared === 0 ? 1 : 0;
}

if (import.meta.url === pathToFileURL(process.argv[1]).href) await main(process.argv.slice(2));
