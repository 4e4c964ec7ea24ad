// node web/comparing/replay.mjs LIBRARY.wasm CALLS: each recorded call of the native library (crosscheck/run --record; crosscheck/again/src/record.rs has the
// format) again by WebAssembly. What is lent stands between guard bytes, and every byte of it, of what is read and of the guards is compared, and what
// is returned. Where a call is one that web/src/library.mjs makes, that is asked too. Ends with `N compared, 0 differ`.
import fs from 'node:fs';
import { pathToFileURL } from 'node:url';
import { FIGURES, SATURATION, openLibrary } from '../src/library.mjs';

const FRONT = 'makhroeng call 1', HEAD = 16, END = 0;
const GUARD = 64; // bytes before and after all that is lent
const PHASES = { vapour: 256, liquid: 257, supercritical: 258 };

// Of each function its name; its fields: `x` is an f64, `n` a length, `number` a u32; its parts: the bytes of a unit, the field that is its length, and
// whether it is written; and its arguments, from the fields and the places of the parts
const door = name => ({ name, fields: ['x', 'x', 'n'], parts: [[8, 2, true]], call: (f, at) => [f[0], f[1], at[0], f[2]] });
const FUNCTIONS = {
    1: door('makhroeng_from_pressure'),
    2: door('makhroeng_from_density'),
    3: door('makhroeng_state_from_pressure'),
    4: door('makhroeng_state_from_density'),
    5: { name: 'makhroeng_saturation', fields: ['x', 'n'], parts: [[8, 1, true]], call: (f, at) => [f[0], at[0], f[1]] },
    6: { name: 'makhroeng_report', fields: ['n', 'n'], parts: [[1, 0, false], [1, 1, true]], call: (f, at) => [at[0], f[0], at[1], f[1]] },
    7: { name: 'makhroeng_words', fields: ['number', 'n'], parts: [[1, 1, true]], call: (f, at) => [f[0], at[0], f[1]] },
    8: { name: 'makhroeng_version', fields: [], parts: [], call: () => [] },
    9: {
        name: 'makhroeng_states_from_pressure', fields: ['n', 'n', 'n', 'n'], parts: [[8, 0, false], [8, 1, false], [4, 2, true], [8, 3, true]],
        call: (f, at) => [at[0], f[0], at[1], f[1], at[2], f[2], at[3], f[3]],
    },
};

function must(holds, words) {
    if (!holds) throw new Error(`the record is not in its format: ${words}`);
}

const words8 = bytes => Math.ceil(bytes / 8) * 8;

// The calls of a recording, one after the other
export function* callsOf(recording) {
    must(recording.subarray(0, FRONT.length).toString('latin1') === FRONT, 'its front');
    let count = 0n;
    for (let at = FRONT.length; ;) {
        must(at + HEAD <= recording.length, `byte ${at}, cut off`);
        const number = recording.readUInt32LE(at), length = recording.readUInt32LE(at + 4), returned = recording.readBigUInt64LE(at + 8);
        must(length >= HEAD && at + length <= recording.length, `byte ${at}, a length of ${length}`);
        if (number === END) {
            must(length === HEAD && returned === count && at + length === recording.length, `byte ${at}, an end that is none`);
            return;
        }
        must(number in FUNCTIONS, `byte ${at}, function ${number}`);
        yield read(recording, at, number, length, returned);
        at += length;
        count++;
    }
}

function read(recording, at, number, length, returned) {
    const { fields: kinds, parts: forms } = FUNCTIONS[number];
    let next = at + HEAD;
    const fields = kinds.map(kind => {
        next += 8;
        if (kind === 'x') return recording.readDoubleLE(next - 8);
        return kind === 'n' ? recording.readBigUInt64LE(next - 8) : Number(recording.readBigUInt64LE(next - 8));
    });
    const take = bytes => {
        const from = next;
        next += words8(bytes);
        return recording.subarray(from, from + bytes);
    };
    const parts = forms.map(([unit, field, written]) => {
        const bytes = unit * Number(fields[field]);
        const before = take(bytes);
        return { unit, before, after: written ? take(bytes) : before };
    });
    must(next === at + length, `byte ${at}, its parts`);
    return { at, number, fields, parts, returned };
}

// Where the parts of a call stand, with guards about each. No two calls have the same places one after the other, and bytes stand anywhere.
function placesFor(call, base, turn) {
    let end = base + GUARD + 8 * (turn % 7);
    const places = call.parts.map(({ unit, before }) => {
        const place = unit === 1 ? end + turn % 5 : end;
        end = words8(place + before.length) + GUARD;
        return place;
    });
    return { places, end };
}

// Every call again: `wasm` is what an instance exports, `lib` is web/src/library.mjs over another instance
export function replay(wasm, lib, recording, say = () => {}) {
    const base = words8(wasm.__heap_base.value);
    const counts = {};
    let high = base, turn = 0;
    new Uint8Array(wasm.memory.buffer, 0, base).fill(0xc3, 0, stackOf(wasm));
    for (const call of callsOf(recording)) {
        const { name, call: order } = FUNCTIONS[call.number];
        const { places, end } = placesFor(call, base, turn++);
        if (end > wasm.memory.buffer.byteLength) wasm.memory.grow(Math.ceil((end - wasm.memory.buffer.byteLength) / 65536));
        const memory = Buffer.from(wasm.memory.buffer, base, end - base);
        memory.fill(turn % 2 ? 0x39 : 0xff); // digits all about, or NaNs
        call.parts.forEach(({ before }, i) => before.copy(memory, places[i] - base));
        const expected = Buffer.from(memory);
        call.parts.forEach(({ after }, i) => after.copy(expected, places[i] - base));
        const answer = wasm[name](...order(call.fields, places));
        const returned = typeof answer === 'bigint' ? BigInt.asUintN(64, answer) : BigInt(answer >>> 0);
        const same = returned === call.returned && Buffer.from(wasm.memory.buffer, base, end - base).equals(expected);
        note(counts, name, same, call, say);
        const asked = byLibrary(lib, call);
        if (asked !== null) note(counts, `library.mjs, for ${name}`, asked, call, say);
        high = Math.max(high, end);
    }
    const above = Buffer.from(wasm.memory.buffer, high);
    note(counts, 'memory that was never lent', above.equals(Buffer.alloc(above.length)), { at: 0 }, say);
    return { counts, stack: stackOf(wasm) - new Uint8Array(wasm.memory.buffer).findIndex(byte => byte !== 0xc3) };
}

// The stack stands below all else; what the linker put between it and the heap is no stack
const stackOf = wasm => Math.min(65536, wasm.__heap_base.value);

function note(counts, name, same, call, say) {
    const count = counts[name] ??= { compared: 0, differ: 0 };
    count.compared++;
    if (!same && count.differ++ === 0) say(`byte ${call.at}: the first that differs, ${name}`);
}

const bits = figures => Buffer.from(Float64Array.from(figures).buffer);
const caught = ask => {
    try {
        return ask();
    } catch (fault) {
        return { fault };
    }
};

// Whether library.mjs answers what was recorded; null where it makes no such call
function byLibrary(lib, { number, fields, parts, returned }) {
    const no = Number(returned), left = parts.length ? parts[parts.length - 1].after : null;
    const answered = (answer, names, phase) =>
        'refused' in answer ? answer.refused === no : phase(answer) === no && bits(names.map(name => answer.figures[name])).equals(left);
    if (number <= 4 && fields[2] === (number <= 2 ? 8n : 10n)) {
        const kind = number % 2 ? 'P' : 'D', ask = number <= 2 ? lib.eight : lib.state;
        return answered(ask(kind, fields[0], fields[1]), number <= 2 ? FIGURES.slice(0, 8) : FIGURES, answer => PHASES[answer.phase]);
    }
    if (number === 5 && fields[1] === 3n) return answered(lib.saturation(fields[0]), SATURATION, () => 259);
    if (number === 6 && no > 0) return left.subarray(0, no).equals(lib.report(parts[0].before));
    if (number === 7 && fields[1] >= 512n) {
        const words = caught(() => lib.words(fields[0]));
        return words.fault ? no === 0 : `${words.says}. ${words.todo}` === left.toString('latin1', 0, no);
    }
    if (number === 8) return lib.version() === [Math.floor(no / 10000), Math.floor(no / 100) % 100, no % 100].join('.');
    if (number === 9 && no === 260) {
        const doubles = part => new Float64Array(Uint8Array.from(part).buffer);
        const { answers, figures } = lib.states(doubles(parts[0].before), doubles(parts[1].before));
        const ten = i => parts[3].after.subarray(80 * i, 80 * i + 80);
        const right = (answer, i) => answer < 256 || Buffer.from(figures.buffer, 80 * i, 80).equals(ten(i));
        return Buffer.from(answers.buffer).equals(parts[2].after) && [...answers].every(right);
    }
    return null;
}

export const instanceOf = async bytes => (await WebAssembly.instantiate(bytes, {})).instance.exports;

export function totals(counts) {
    const sum = of => Object.values(counts).reduce((all, count) => all + count[of], 0);
    return { compared: sum('compared'), differ: sum('differ') };
}

async function main([wasm, calls]) {
    const bytes = fs.readFileSync(wasm);
    const { counts, stack } = replay(await instanceOf(bytes), await openLibrary(bytes), fs.readFileSync(calls), console.log);
    for (const [name, { compared, differ }] of Object.entries(counts)) console.log(`${String(compared).padStart(9)} of ${name}, ${differ} differ`);
    const missing = Object.values(FUNCTIONS).filter(({ name }) => !(name in counts)).map(({ name }) => name);
    if (missing.length) console.log(`no call of ${missing.join(', ')}`);
    const { compared, differ } = totals(counts);
    console.log(`deepest stack ${stack} bytes of 65,536`);
    console.log(`${compared} compared, ${differ} differ`);
    process.exitCode = differ || missing.length ? 1 : 0;
}

if (import.meta.url === pathToFileURL(process.argv[1]).href) await main(process.argv.slice(2));
