// The proved library (include/makhroeng.h; RULES 12) as a WebAssembly instance, by functions as JavaScript wants them. It imports nothing, so that
// it can only compute. What is lent to it stands from __heap_base on: address 0 is an address like any other there, and below the heap is its stack.

// The places of a state's figures, and of saturation's (include/makhroeng.h)
export const FIGURES = ['temperature', 'pressure', 'density', 'energy', 'enthalpy', 'cv', 'cp', 'sound', 'fallen', 'conductivity'];
export const SATURATION = ['pressure', 'vapour', 'liquid'];

const FUNCTIONS = ['from_pressure', 'from_density', 'state_from_pressure', 'state_from_density', 'states_from_pressure', 'saturation', 'report', 'words',
    'version'];
const PHASES = { 256: 'vapour', 257: 'liquid', 258: 'supercritical' };
const SATURATED = 259, WORKED = 260;
const REFUSALS = new Set([3, 4, 5, 6, 7, 8, 9, 19]); // of a door and of saturation, RULES 3.3 and 5.6; 15 is of lengths, and those are right here
const MOST_TEXT = 65536; // RULES 6.1
const LEAST_REPORT = 13, MOST_REPORT = 1512, MOST_WORDS = 512; // RULES 12 and the header

// What can't be: a caller's mistake, or a library that is not the proved one. Nothing is answered then.
export class Impossible extends Error {}

function must(holds, what) {
    if (!holds) throw new Impossible(what);
}

// A blank is never read as a number: the engine would hand null over as 0.
function mustBeNumbers(xs) {
    for (const x of xs) must(typeof x === 'number', `${x} is asked with, which is no number`);
}

// A length that was answered as a u64, which the engine has as a signed BigInt
function answeredLength(answer, least, most) {
    const n = BigInt.asUintN(64, answer);
    must(n >= BigInt(least) && n <= BigInt(most), `the library answered a length of ${n}`);
    return Number(n);
}

function refusal(answer) {
    must(REFUSALS.has(answer), `the library answered ${answer}`);
    return { refused: answer };
}

// The memory of an instance, as it is lent: lend(lengths in bytes, use) calls `use` with a place for each
function memoryOf(wasm) {
    const base = Math.ceil(wasm.__heap_base.value / 16) * 16;
    let trapped = false;
    return {
        lend(lengths, use) {
            must(!trapped, 'the library failed before');
            const places = [];
            let end = base;
            for (const length of lengths) {
                places.push(end);
                end = Math.ceil((end + length) / 16) * 16 + 16;
            }
            const missing = end - wasm.memory.buffer.byteLength;
            if (missing > 0) wasm.memory.grow(Math.ceil(missing / 65536)); // no view of the memory outlives this, so that each is made anew below
            try {
                return use(...places);
            } catch (fault) {
                trapped = !(fault instanceof Impossible); // a trap leaves the stack where it was
                throw fault;
            }
        },
        bytes: (place, length) => new Uint8Array(wasm.memory.buffer, place, length),
        wholes: (place, length) => new Uint32Array(wasm.memory.buffer, place, length),
        doubles: (place, length) => new Float64Array(wasm.memory.buffer, place, length),
        named(names, place) {
            const figures = this.doubles(place, names.length);
            return Object.fromEntries(names.map((name, i) => [name, figures[i]]));
        },
    };
}

// The library of these bytes, target/web/makhroeng.wasm
export async function openLibrary(bytes) {
    const { instance } = await WebAssembly.instantiate(bytes, {});
    const wasm = instance.exports;
    for (const name of FUNCTIONS) must(typeof wasm[`makhroeng_${name}`] === 'function', `the library has no makhroeng_${name}`);
    const memory = memoryOf(wasm);
    const doors = {
        P: [wasm.makhroeng_from_pressure, wasm.makhroeng_state_from_pressure],
        D: [wasm.makhroeng_from_density, wasm.makhroeng_state_from_density],
    };

    function ask(call, t, x, names) {
        mustBeNumbers([t, x]);
        return memory.lend([8 * names.length], place => {
            memory.doubles(place, names.length).fill(NaN);
            const answer = call(t, x, place, BigInt(names.length));
            return answer in PHASES ? { phase: PHASES[answer], figures: memory.named(names, place) } : refusal(answer);
        });
    }

    function doorsOf(kind) {
        must(kind === 'P' || kind === 'D', `there is no door ${kind}`);
        return doors[kind];
    }

    return {
        // The state at t K and x Pa (kind 'P') or x kg/m3 ('D'), with all that it carries: { phase, figures }, or { refused }
        state(kind, t, x) {
            return ask(doorsOf(kind)[1], t, x, FIGURES);
        },

        // The same by its eight numbers alone
        eight(kind, t, x) {
            return ask(doorsOf(kind)[0], t, x, FIGURES.slice(0, 8));
        },

        // Many states by the pressure door: { answers, figures }, ten figures a place, which are NaN where the answer is a refusal's number
        states(ts, ps) {
            const n = ts.length, many = BigInt(n), all = FIGURES.length * n;
            must(ps.length === n, `there are ${n} temperatures and ${ps.length} pressures`);
            mustBeNumbers(ts);
            mustBeNumbers(ps);
            return memory.lend([8 * n, 8 * n, 4 * n, 8 * all], (t, p, a, f) => {
                memory.doubles(t, n).set(ts);
                memory.doubles(p, n).set(ps);
                memory.doubles(f, all).fill(NaN);
                const answer = wasm.makhroeng_states_from_pressure(t, many, p, many, a, many, f, BigInt(all));
                must(answer === WORKED, `the library answered ${answer}`);
                const answers = memory.wholes(a, n).slice();
                for (const each of answers) if (!(each in PHASES)) refusal(each);
                return { answers, figures: memory.doubles(f, all).slice() };
            });
        },

        // Saturation at t K: { figures: { pressure, vapour, liquid } }, in Pa and kg/m3, or { refused }
        saturation(t) {
            mustBeNumbers([t]);
            return memory.lend([8 * SATURATION.length], place => {
                memory.doubles(place, SATURATION.length).fill(NaN);
                const answer = wasm.makhroeng_saturation(t, place, BigInt(SATURATION.length));
                return answer === SATURATED ? { figures: memory.named(SATURATION, place) } : refusal(answer);
            });
        },

        // The report of a sheet's bytes, its very bytes. Of a text that is too long the first 65,537 are handed over, enough to be known as such.
        report(text) {
            must(text instanceof Uint8Array, 'a text is bytes');
            const handed = text.subarray(0, MOST_TEXT + 1);
            return memory.lend([handed.length, MOST_REPORT], (from, to) => {
                memory.bytes(from, handed.length).set(handed);
                const answer = wasm.makhroeng_report(from, BigInt(handed.length), to, BigInt(MOST_REPORT));
                return memory.bytes(to, answeredLength(answer, LEAST_REPORT, MOST_REPORT)).slice();
            });
        },

        // What a refusal says and what to do, parted at the first full stop with a space after it (RULES 14.1)
        words(number) {
            must(Number.isInteger(number) && number >= 0 && number < 2 ** 32, `${number} is no refusal's number`);
            return memory.lend([MOST_WORDS], place => {
                const n = answeredLength(wasm.makhroeng_words(number, place, BigInt(MOST_WORDS)), 0, MOST_WORDS);
                must(n > 0, `there are no words for ${number}`);
                const text = String.fromCharCode(...memory.bytes(place, n));
                const stop = text.indexOf('. ');
                must(stop > 0 && /^[ -~]*$/.test(text), `the words of ${number} are not in their form`);
                return { says: text.slice(0, stop), todo: text.slice(stop + 2) };
            });
        },

        // The library's version, as '1.7.0'
        version() {
            const n = wasm.makhroeng_version();
            return `${Math.floor(n / 10000)}.${Math.floor(n / 100) % 100}.${n % 100}`;
        },
    };
}
