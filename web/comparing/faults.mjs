// node web/comparing/faults.mjs LIBRARY.wasm CALLS TYPED FOLDER: plants faults, one at a time, and says whether the comparisons find each: in what the library
// returns and leaves, in its constants, and in web/src by edits of a copy. CALLS is a recording, TYPED the lines of typed.py, FOLDER that of sheets.py.
// An edit whose old words don't stand exactly once in their file is missed. Ends with `N planted, N found`.
import fs from 'node:fs';
import os from 'node:os';
import path from 'node:path';
import { fileURLToPath, pathToFileURL } from 'node:url';
import { callsOf, instanceOf, replay, totals } from './replay.mjs';
import { casesOf, compare, linesOf } from './sheets.mjs';
import { right } from './typed.mjs';

const SOURCES = fileURLToPath(new URL('../src', import.meta.url));

// A recording with one in a hundred of the calls for words, which are most of a small one
const WORDS = 7;
export function thinned(recording) {
    const kept = [...callsOf(recording)].filter(({ number }, i) => number !== WORDS || i % 100 === 0);
    const end = Buffer.alloc(16);
    end.writeUInt32LE(16, 4);
    end.writeBigUInt64LE(BigInt(kept.length), 8);
    const whole = ({ at }) => recording.subarray(at, at + recording.readUInt32LE(at + 4));
    return Buffer.concat([recording.subarray(0, 16), ...kept.map(whole), end]);
}

// ---- in the library: what it returns, each part that it is lent, and the bytes beside it

const u64 = n => BigInt.asIntN(64, n);
const RETURNS = ['makhroeng_report', 'makhroeng_words'];
// where the arguments of a function have its parts: [place, length, bytes in a unit, what it is]
const door = [[2, 3, 8, 'a figure']];
const LENT = {
    makhroeng_from_pressure: door, makhroeng_from_density: door, makhroeng_state_from_pressure: door, makhroeng_state_from_density: door,
    makhroeng_saturation: [[1, 2, 8, 'a figure']], makhroeng_report: [[0, 1, 1, 'the text'], [2, 3, 1, 'the report']],
    makhroeng_words: [[1, 2, 1, 'the words']], makhroeng_version: [],
    makhroeng_states_from_pressure: [[0, 1, 8, 'a temperature'], [2, 3, 8, 'a pressure'], [4, 5, 4, 'an answer'], [6, 7, 8, 'a figure']],
};

// The exports with one function that does `after` behind every 50th call; what it returns is what that gives, where it gives something
function tampered(wasm, name, after) {
    let calls = 0;
    const call = (...words) => {
        const answer = wasm[name](...words);
        return calls++ % 50 ? answer : after(words, new Uint8Array(wasm.memory.buffer), answer) ?? answer;
    };
    return { ...wasm, [name]: call };
}
const flip = (bytes, at) => {
    bytes[at] ^= 1;
};
function* libraryFaults() {
    for (const [name, parts] of Object.entries(LENT)) {
        yield [`${name}: another number returned`, name, (words, bytes, answer) => RETURNS.includes(name) ? u64(answer ^ 1n) : answer ^ 1];
        for (const [place, length, unit, what] of parts) {
            const end = words => words[place] + unit * Number(words[length]);
            yield [`${name}: the last bit of ${what}`, name, (words, bytes) => words[length] > 0n ? flip(bytes, words[place]) : undefined];
            yield [`${name}: the byte behind ${what}`, name, (words, bytes) => flip(bytes, end(words))];
            yield [`${name}: the byte before ${what}`, name, (words, bytes) => flip(bytes, words[place] - 1)];
            yield [`${name}: a byte 60 behind ${what}`, name, (words, bytes) => flip(bytes, end(words) + 60)];
        }
    }
}

// Constants of 004 and of RULES 2 as doubles in the library's code, moved by one bit
const CONSTANTS = { 'the gas constant': 188.9241, 'the critical temperature': 304.1282, 'the critical density': 467.6, 'the lowest temperature': 216.592 };
function moved(wasm, x) {
    const bytes = Buffer.from(wasm), old = Buffer.alloc(8), now = Buffer.alloc(8);
    old.writeDoubleLE(x);
    now.writeBigUInt64LE(old.readBigUInt64LE() + 1n);
    let times = 0;
    for (let at = bytes.indexOf(old); at >= 0; at = bytes.indexOf(old, at + 8), times++) now.copy(bytes, at);
    return times ? bytes : null;
}

// ---- in web/src, by edits: which comparison should find it, the file, the old words and the new

const EDITS = [
    ['typed', 'decimals.mjs', 'more: 2731500n', 'more: 2731600n'],
    ['typed', 'decimals.mjs', 'more: 101300n', 'more: 101325n'],
    ['typed', 'decimals.mjs', "unit: 'kg', places: 6", "unit: 'kg', places: 3"],
    ['typed', 'decimals.mjs', "unit: 'L', places: 3", "unit: 'L', places: 0"],
    ['typed', 'decimals.mjs', 'MOST = 9999999999n', 'MOST = 10000000000n'],
    ['typed', 'decimals.mjs', 'MOST = 9999999999n', 'MOST = 9999999998n'],
    ['typed', 'decimals.mjs', 'if (n < 0n)', 'if (n < -1n)'],
    ['typed', 'decimals.mjs', 'if (n < 0n)', 'if (n <= 0n)'],
    ['typed', 'decimals.mjs', "if (text === '' || text === '-') return null;", "if (text === '' || text === '-') return [false, '0', ''];"],
    ['typed', 'decimals.mjs', "if (text === '' || text === '-') return null;", "if (text === '') return null;"],
    ['typed', 'decimals.mjs', "behind.replace(/0+$/, '')]", 'behind]'],
    ['typed', 'decimals.mjs', 'return below ? -n : n;', 'return n;'],
    ['typed', 'decimals.mjs', 'behind.padEnd(places', 'behind.padStart(places'],
    ['typed', 'decimals.mjs', 'read[2].length > places)', 'read[2].length > places + 1)'],
    ['typed', 'decimals.mjs', '.replace(/^[\\u2212\\u2013]/', '.replace(/^[\\u2212]/'],
    ['typed', 'decimals.mjs', '|[ \\t\\u00a0\\u202f]+$/g', '$/g'],
    ['typed', 'decimals.mjs', 'const n = scaled(read, places) + more;',
        'const n = BigInt(Math.trunc(Number(`${read[0] ? "-" : ""}${read[1]}.${read[2]}`) * 10 ** places)) + more;'],
    ['typed', 'decimals.mjs', '+ more * 10n **', '+ 0n * 10n **'],
    ['typed', 'decimals.mjs', 'const x = Number(text);', 'const x = Number(text) + Number.EPSILON;'],
    ['typed', 'decimals.mjs', 'const x = Number(text);', "const x = Number(typed.replace(',', '.')) * 10 ** (places - over) + Number(more) / 10 ** over;"],
    ['typed', 'decimals.mjs', 'if (!Number.isFinite(x)) throw', 'if (false) throw'],
    ['typed', 'decimals.mjs', 'found.size === 1', 'found.size > 0'],
    ['typed', 'sheet.mjs', 'Number(record.temperature) / 10000', 'Number(record.temperature) * 0.0001'],
    ['typed', 'sheet.mjs', 'Number(record.value) / 1000', 'Number(record.value) * 0.001'],
    ['replay', 'library.mjs', "'energy', 'enthalpy'", "'enthalpy', 'energy'"],
    ['replay', 'library.mjs', "256: 'vapour', 257: 'liquid'", "256: 'liquid', 257: 'vapour'"],
    ['replay', 'library.mjs', "['pressure', 'vapour', 'liquid']", "['pressure', 'liquid', 'vapour']"],
    ['sheets', 'library.mjs', 'text.subarray(0, MOST_TEXT + 1)', 'text.subarray(0, MOST_TEXT)'],
    ['replay', 'library.mjs', "text.indexOf('. ')", "text.indexOf('.')"],
    ['replay', 'library.mjs', 'P: [wasm.makhroeng_from_pressure, ', 'P: [wasm.makhroeng_from_density, '],
    ['replay', 'library.mjs', 'memory.doubles(p, n).set(ps);', 'memory.doubles(p, n).set(ts);'],
    ['replay', 'library.mjs', '3, 4, 5, 6, 7, 8, 9, 19]', '3, 4, 5, 6, 7, 9, 19]'],
    ['replay', 'library.mjs', 'Math.floor(n / 100) % 100', 'Math.floor(n / 100)'],
    ['sheets', 'sheet.mjs', 'ACROSS = 200000', 'ACROSS = 199999'],
    ['sheets', 'sheet.mjs', 'ACROSS = 200000', 'ACROSS = 200001'],
    ['sheets', 'sheet.mjs', 'FILLED = 750', 'FILLED = 749.999'],
    ['sheets', 'sheet.mjs', 'line.milligrams <= BigInt(FILLED)', 'line.milligrams < BigInt(FILLED)'],
    ['sheets', 'sheet.mjs', '(line.state.density > FILLED)', '(line.state.density >= FILLED)'],
    ['sheets', 'sheet.mjs', '(mg + 999n)', '(mg + 500n)'],
    ['sheets', 'sheet.mjs', '(2n * n + unit)', '(2n * n)'],
    ['sheets', 'sheet.mjs', 'n === null ? \'-\' : n.toString()', 'n === null ? \'0\' : n.toString()'],
    ['sheets', 'sheet.mjs', 'volume > 1000000n', 'volume > 999999n'],
    ['sheets', 'sheet.mjs', 'if (words) return mark(row, field, words);', ''],
    ['sheets', 'sheet.mjs', "kind ? kind.letter : 'P'", "kind ? kind.letter : 'D'"],
    ['sheets', 'sheet.mjs', 'other.number === record.number) + 1', 'other.number === record.number) + 2'],
    ['sheets', 'sheet.mjs', 'found.at - from + 1', 'found.at - from'],
    ['sheets', 'sheet.mjs', "'No number has a 0 in front.'", "'No number has a zero in front.'"],
    ['sheets', 'sheet.mjs', 'more >= 0n ? ', 'more > 0n ? '],
    ['sheets', 'sheet.mjs', "(total >= need ? 'COVERED' : 'SHORT')", "(total > need ? 'COVERED' : 'SHORT')"],
    ['sheets', 'sheet.mjs', 'return mark(row, field, slip.message);', "return mark(row, 'number', slip.message);"],
    ['sheets', 'sheet.mjs', 'return mark(row, field, slip.message);', 'return mark(row - 1, field, slip.message);'],
    ['sheets', 'sheet.mjs', 'return mark(row, field, slip.message);', "return mark(row, field, '');"],
    ['sheets', 'sheet.mjs', "mark(row, 'kind', 'Say what was read", "mark(row, 'reading', 'Say what was read"],
    ['sheets', 'sheet.mjs', 'if (words) return mark(row, field, words);', "if (words) return mark(row, 'need', words);"],
    ['sheets', 'sheet.mjs', 'first = { sign, place };', 'first = { sign: sign === "," ? "." : ",", place };'],
    ['sheets', 'sheet.mjs', 'if (mayBeThousands(typed)) notes.push(', 'if (false) notes.push('],
    ['sheets', 'sheet.mjs', 'words: readAs(typed), thousands: true', 'words: readAs(typed), thousands: false'],
    ['sheets', 'sheet.mjs', "text.replace(/[.,]/, '')}.`", "text.replace(/[,]/, '')}.`"],
    ['sheets', 'sheet.mjs', "notes.push({ row, field: 'celsius',", "notes.push({ row, field: 'reading',"],
    ['sheets', 'decimals.mjs', '[1-9][0-9]{0,2}[.,][0-9]{3}', '[0-9][0-9]{0,2}[.,][0-9]{3}'],
    ['sheets', 'decimals.mjs', '[1-9][0-9]{0,2}[.,][0-9]{3}', '[1-9][0-9]{0,2}[,][0-9]{3}'],
    ['typed', 'decimals.mjs', "if (places === 0 && separator(typed) !== '') throw", 'if (false) throw'],
];
// each form of a slip taken out
const slipRows = () => fs.readFileSync(path.join(SOURCES, 'decimals.mjs'), 'utf8').split('\n').filter(line => /^ {4}\[\/.*\/u?, '/.test(line));

function edited(file, old, now) {
    const folder = fs.mkdtempSync(path.join(os.tmpdir(), 'web-'));
    fs.cpSync(SOURCES, folder, { recursive: true });
    const parts = fs.readFileSync(path.join(folder, file), 'utf8').split(old);
    if (parts.length !== 2) return { folder, fits: false };
    fs.writeFileSync(path.join(folder, file), parts.join(now));
    return { folder, fits: true };
}
const moduleOf = (folder, file) => import(pathToFileURL(path.join(folder, file)).href);

async function main([wasmFile, callsFile, typedFile, sheetsFolder]) {
    const wasm = fs.readFileSync(wasmFile), calls = thinned(fs.readFileSync(callsFile)), typed = linesOf(typedFile), cases = casesOf(sheetsFolder);
    const own = await moduleOf(SOURCES, 'library.mjs');
    const differ = (exports, lib) => totals(replay(exports, lib, calls).counts).differ;
    const finds = {
        typed: async folder => {
            const decimals = await moduleOf(folder, 'decimals.mjs'), sheet = await moduleOf(folder, 'sheet.mjs');
            return typed.filter(line => !right(decimals, sheet, line)).length;
        },
        replay: async folder => differ(await instanceOf(wasm), await (await moduleOf(folder, 'library.mjs')).openLibrary(wasm)),
        sheets: async folder => {
            const lib = await (await moduleOf(folder, 'library.mjs')).openLibrary(wasm);
            return totals(compare(await moduleOf(folder, 'sheet.mjs'), lib, cases)).differ;
        },
    };
    let planted = 0, found = 0;
    const say = (what, n) => {
        planted++;
        found += n > 0;
        console.log(`${n > 0 ? 'found' : 'MISSED'}: ${what}${n > 0 ? `, ${n} differ` : ''}`);
    };
    for (const [kind, find] of Object.entries(finds)) {
        const n = await find(SOURCES);
        if (n > 0) throw new Error(`${n} differ by ${kind} with no fault planted`);
    }
    console.log(`${[...callsOf(calls)].length} calls, ${typed.length} typed numbers, ${cases.sheets.length} sheets, ${cases.forms.length} forms`);
    for (const [what, name, after] of libraryFaults()) say(what, differ(tampered(await instanceOf(wasm), name, after), await own.openLibrary(wasm)));
    for (const [what, x] of Object.entries(CONSTANTS)) {
        const bytes = moved(wasm, x);
        say(`${what} moved by a bit`, bytes ? differ(await instanceOf(bytes), await own.openLibrary(wasm)) : 0);
    }
    for (const [by, file, old, now] of [...EDITS, ...slipRows().map(row => ['typed', 'decimals.mjs', row, ''])]) {
        const { folder, fits } = edited(file, old, now);
        const n = fits ? await finds[by](folder).catch(() => 1) : 0;
        say(`${file}: ${old.trim()} -> ${now || 'nothing'}${fits ? '' : ' (it does not stand there once)'}`, n);
        fs.rmSync(folder, { recursive: true });
    }
    console.log(`${planted} planted, ${found} found`);
    process.exitCode = found === planted ? 0 : 1;
}

if (import.meta.url === pathToFileURL(process.argv[1]).href) await main(process.argv.slice(2));
