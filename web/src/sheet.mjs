// What was typed to the sheet's text (RULES 6), and a text with its report to what is said of it (RULES 14). Pure functions: no page, no library
// but the one that is handed in, so that web/check runs the same ones in Node.
import { SCALES, Slip, isBlank, mayBeThousands, separator, whole } from './decimals.mjs';

// ---- from the form to the text

// The readings that a form has, by their scales (README, "A sheet"). None stands for one that wasn't said.
export const KINDS = {
    bar: 'bar absolute',
    gauge: 'bar gauge (0 in air)',
    density: 'kg/m³',
    weighed: 'kg weighed',
};
const NAMES = { need: 'the need', number: 'number', celsius: '°C', reading: 'reading', kind: 'what was read', litres: 'litres' };
const SIGNS = { ',': 'a comma', '.': 'a point' };

const writtenAs = n => n === null ? '-' : n.toString();
const placeOf = (row, field) => row < 0 ? NAMES[field] : `line ${row + 1}, ${NAMES[field]}`;

// 1,200 may be meant for twelve hundred: how it is read is said, and it is counted beside the verdict
export function readAs(typed) {
    const text = typed.trim().replace(/^[\u2212\u2013]/, '-');
    return `Read as ${text.replace(',', '.').replace(/\.?0+$/, '')}. If thousands are meant, write ${text.replace(/[.,]/, '')}.`;
}

// form: { need, rows: [{ number, celsius, reading, kind, litres }] }, all as they were typed. The text is null where a field is marked: what can't be
// written exactly is on no sheet. A mark or a note is { row, field, words }, and the need's row is -1; a note of a number that may be meant for thousands
// has `thousands` too.
export function sheetOf(form) {
    const marks = [], notes = [];
    let first = null;
    const mark = (row, field, words) => {
        marks.push({ row, field, words });
        return null;
    };
    // a comma and a point on one form: one of the two may be meant for thousands
    const mixed = (typed, place) => {
        const sign = separator(typed);
        if (sign === '' || (first && sign === first.sign)) return null;
        if (first) return `${SIGNS[sign]} here, and ${SIGNS[first.sign]} in ${first.place}. Use one of the two on the whole form, for decimals alone.`;
        first = { sign, place };
        return null;
    };
    const read = (row, field, typed, { places, more }) => {
        try {
            const n = whole(typed, places, more), words = mixed(typed, placeOf(row, field));
            if (words) return mark(row, field, words);
            if (mayBeThousands(typed)) notes.push({ row, field, words: readAs(typed), thousands: true });
            return n;
        } catch (slip) {
            if (!(slip instanceof Slip)) throw slip;
            return mark(row, field, slip.message);
        }
    };
    const lines = [`N ${writtenAs(read(-1, 'need', form.need, SCALES.need))}`];
    form.rows.forEach((typed, row) => {
        const kind = Object.keys(KINDS).includes(typed.kind) ? SCALES[typed.kind] : null;
        const number = read(row, 'number', typed.number, SCALES.number);
        const celsius = read(row, 'celsius', typed.celsius, SCALES.celsius);
        const reading = kind ? read(row, 'reading', typed.reading, kind) : null;
        if (!kind && !isBlank(typed.reading)) mark(row, 'kind', 'Say what was read: bar absolute, bar by a gauge, kg/m³ or kg weighed.');
        const litres = read(row, 'litres', typed.litres, SCALES.litres);
        if (kind === SCALES.weighed && !isBlank(typed.celsius)) notes.push({ row, field: 'celsius',
            words: 'Not used: a weighed cylinder needs no temperature.' });
        lines.push(`C ${writtenAs(number)} ${writtenAs(celsius)} ${kind ? kind.letter : 'P'} ${writtenAs(reading)} ${writtenAs(litres)}`);
    });
    return { text: marks.length ? null : lines.join('\n') + '\n', marks, notes };
}

// ---- RULES 14.2: numbers as they are shown

export function withPlaces(n, k) {
    const digits = n.toString().padStart(k + 1, '0');
    return `${digits.slice(0, -k)}.${digits.slice(-k)}`;
}
const shortest = (n, k) => withPlaces(n, k).replace(/(\.[0-9]+?)0+$/, '$1');
const ofSheet = (n, k) => n === null ? '-' : shortest(n, k);
export function celsiusOf(n) {
    if (n === null) return '-';
    const above = n - 2731500n;
    return above < 0n ? '-' + shortest(-above, 4) : shortest(above, 4);
}
// RULES 6.5
const atOrBelow = x => x >= 0 && x < 2 ** 53 ? BigInt(Math.floor(x)) : null;
function nearest(x, unit, k) {
    const n = atOrBelow(x);
    return n === null ? '-' : withPlaces((2n * n + unit) / (2n * unit), k);
}
export const densityShown = rho => nearest(rho * 1000, 100n, 1);
export const pressureShown = p => nearest(p, 1000n, 2);
export const held = mg => mg === null ? '-' : withPlaces(mg / 1000n, 3);
export const needed = mg => withPlaces((mg + 999n) / 1000n, 3);

// ---- from the text and its report to what is said

const MOST = 32;
const ACROSS = 200000;  // RULES 14.4, Pa
const FILLED = 750;     // kg/m³
const SHOWN = { P: [5, 'bar'], D: [3, 'kg/m3'], W: [3, 'kg'] };

// RULES 14.1, in one line
const wordsOf = (library, number) => {
    const { says, todo } = library.words(number);
    return `${says}. ${todo}`;
};

const field = part => part === '-' ? null : BigInt(part);
// a line of a text that is known to be in the form
function recordOf(line) {
    const [, number, temperature, letter, value, volume] = line.split(' ');
    return { number: field(number), temperature: field(temperature), letter, value: field(value), volume: field(volume) };
}
// RULES 6.4: one division of f64 each
export const kelvinOf = record => Number(record.temperature) / 10000;
export const askedOf = record => record.letter === 'D' ? Number(record.value) / 1000 : Number(record.value);

// The fields that a line's refusal speaks of, by the form's names (RULES 3.1). What RULES 6.7 lets a weighed line do without is not blank to it.
const SPOKEN_OF = { 2: ['litres'], 4: ['celsius'], 5: ['reading'], 23: ['reading'], 30: ['number'] };
const OF_BLANKS = { number: 'number', temperature: 'celsius', value: 'reading', volume: 'litres' };
export function spokenOf({ record, refusal }) {
    if (refusal === 1) {
        return Object.keys(OF_BLANKS).filter(name => record[name] === null && !(name === 'temperature' && record.letter === 'W'))
            .map(name => OF_BLANKS[name]);
    }
    if (refusal === 5 && record.letter === 'D') return ['celsius', 'reading'];
    return SPOKEN_OF[refusal] || ['celsius', 'reading'];
}

// RULES 14.4, whatever came of the line
function unsure(library, record) {
    const { number, temperature, letter, value, volume } = record;
    if (letter !== 'P' || [number, temperature, value, volume].includes(null) || volume < 1n || volume > 1000000n) return null;
    const { figures: saturation } = library.saturation(kelvinOf(record));
    if (!saturation) return null;
    const away = Number(value) - saturation.pressure;
    if (away < -ACROSS || away > ACROSS) return null;
    const least = atOrBelow(saturation.vapour * Number(volume)), most = atOrBelow(saturation.liquid * Number(volume));
    const words = `the gauge can't tell. At ${celsiusOf(temperature)} C the vapour pressure is ${pressureShown(saturation.pressure)} bar, `
        + `and ${ofSheet(value, 5)} bar is within 2 bar of it. At the vapour pressure the cylinder holds ${held(least)} kg if all is vapour, `
        + `${held(most)} kg if all is liquid, and anything between if it holds both. Weigh it and write W and the grams of agent in the place of P and the `
        + 'pressure, or warm it evenly to 40 to 45 C, minding its pressure, and read again.';
    return { kind: 'gauge', words, least, most, vapour: saturation.vapour, liquid: saturation.liquid, pressure: saturation.pressure };
}
function tooFull(line) {
    const { letter, value, volume } = line.record;
    if (line.milligrams === null) return null;
    if (letter === 'W') {
        if (line.milligrams <= BigInt(FILLED) * volume) return null;
        return { kind: 'above', words: `${ofSheet(value, 3)} kg in ${ofSheet(volume, 3)} L is more than a cylinder is filled with (750 kg/m3). `
            + "Check its volume, and that the empty cylinder's weight was taken off." };
    }
    if (!(line.state.density > FILLED)) return null;
    return { kind: 'above', words: `${densityShown(line.state.density)} kg/m3 is more than a cylinder is filled with (750 kg/m3). `
        + 'Check its volume and its reading.' };
}

function lineOf(library, record, place, answer, records) {
    const line = { place, record, milligrams: null, refusal: null, state: null, first: null, warnings: [] };
    if (answer) {
        const [, , kind, n] = answer.split(' ');
        if (kind === 'M') line.milligrams = BigInt(n); else line.refusal = Number(n);
    }
    if (line.milligrams !== null && record.letter !== 'W') {
        const state = library.state(record.letter, kelvinOf(record), askedOf(record));
        if (!state.figures) throw new Error(`line ${place} is answered in the report, and refused by ${state.refused} as a state`);
        line.state = { phase: state.phase, density: state.figures.density, pressure: state.figures.pressure };
    }
    if (line.milligrams !== null) mustBeHeld(line);
    if (line.refusal === 30) line.first = records.findIndex(other => other.number === record.number) + 1;
    if (answer) line.warnings = [unsure(library, record), tooFull(line)].filter(warning => warning !== null);
    return line;
}

// What a report must be in itself, whatever the library is: what isn't is shown to nobody.
function must(holds, what) {
    if (!holds) throw new Error(`the report contradicts itself: ${what}`);
}
// RULES 6.5 and 6.7. A blank is never read as a number.
function mustBeHeld({ place, record, state, milligrams }) {
    const { number, temperature, letter, value, volume } = record;
    must(![number, value, volume].includes(null) && (letter === 'W' || temperature !== null), `line ${place} has a blank and a mass`);
    must(milligrams === (state ? atOrBelow(state.density * Number(volume)) : 1000n * value), `the mass of line ${place}`);
}
// RULES 7.1 and 7.2
const REPORT = /^(L [1-9][0-9]? (M (0|[1-9][0-9]*)|R [1-9][0-9]?)\n)*(TOTAL (0|[1-9][0-9]*) (COVERED|SHORT)|SENT BACK 1[0-4])\n$/;
function mustEnd({ held: total, refusal, need, verdict, lines }, answers) {
    if (total === null && refusal !== 13) return must(answers.length === 0, `it has lines and ends in ${refusal}`);
    must(answers.length === lines.length && answers.every((answer, i) => answer.startsWith(`L ${i + 1} `)), 'its lines are not those of the sheet');
    const refused = lines.filter(line => line.refusal !== null).length;
    if (refusal === 13) return must(refused > 0, 'it is sent back by 13, and no line is refused');
    must(refused === 0 && lines.length > 0, 'it has a total, and a line is refused');
    must(total === lines.reduce((sum, line) => sum + line.milligrams, 0n), 'its total is not the sum of its lines');
    must(need !== null && verdict === (total >= need ? 'COVERED' : 'SHORT'), 'its verdict is not that of its total and the need');
}

// All that is said of a text, from its bytes alone: the report as it is, the ending, and each line with what came of it. A sheet that is sent back with 12 has
// lines without an answer; one with 10, 11 or 14 has none.
export function outcomeOf(library, bytes) {
    const report = new TextDecoder().decode(library.report(bytes));
    must(REPORT.test(report), 'it is in no form of a report');
    const answers = report.split('\n').slice(0, -1), ending = answers.pop().split(' ');
    const outcome = { report, verdict: ending[2], refusal: null, held: null, need: null, lines: [] };
    if (ending[0] === 'TOTAL') outcome.held = BigInt(ending[1]);
    else Object.assign(outcome, { verdict: 'SENT BACK', refusal: Number(ending[2]) });
    if (outcome.refusal === 14) {
        must(answers.length === 0, 'it has lines and ends in 14');
        return outcome;
    }
    const [first, ...lines] = new TextDecoder().decode(bytes).split('\n').slice(0, -1);
    outcome.need = field(first.slice(2));
    const records = lines.length > MOST ? [] : lines.map(recordOf);
    outcome.lines = records.map((record, i) => lineOf(library, record, i + 1, answers[i], records));
    mustEnd(outcome, answers);
    must(outcome.held === null || whereOf(bytes) === null, 'it has a total, and the text is not in the form');
    return outcome;
}
export const warned = (outcome, kind) => outcome.lines.filter(line => line.warnings.some(warning => warning.kind === kind));

// What is held at least, in mg, where a gauge can't tell: its line counts as vapour alone. null where every gauge can, or where there is no total.
export function leastOf(outcome) {
    const doubtful = warned(outcome, 'gauge');
    if (outcome.held === null || doubtful.length === 0) return null;
    return doubtful.reduce((least, line) => {
        const vapour = line.warnings.find(warning => warning.kind === 'gauge').least;
        return vapour !== null && vapour < line.milligrams ? least - line.milligrams + vapour : least;
    }, outcome.held);
}
// each warning as the program writes it
export const warningsOf = outcome => outcome.lines.flatMap(line => line.warnings.map(({ words }) => namedBy(line, words)));

// The margin from the milligrams, and not from what is shown (RULES 14.3)
export function marginOf(outcome) {
    if (outcome.held === null) return null;
    const more = outcome.held - outcome.need;
    return more >= 0n ? `${held(more)} kg to spare` : `${needed(-more)} kg missing`;
}

// ---- RULES 14.3: the explanation, as the program writes it under the report

function came(library, line) {
    if (line.refusal !== null) {
        return `refused by ${line.refusal}. ${wordsOf(library, line.refusal)}` + (line.first ? ` It stands in L ${line.first}.` : '');
    }
    if (line.record.letter === 'W') return `${held(line.milligrams)} kg, weighed`;
    return `${held(line.milligrams)} kg, ${densityShown(line.state.density)} kg/m3, ${line.state.phase}`;
}
const namedBy = ({ place, record }, words) => `L ${place}, cylinder ${writtenAs(record.number)}: ${words}`;
function toldOf(library, line) {
    const { temperature, letter, value, volume } = line.record, [places, unit] = SHOWN[letter];
    const told = [`${celsiusOf(temperature)} C, ${ofSheet(value, places)} ${unit}, ${ofSheet(volume, 3)} L: ${came(library, line)}`];
    return told.concat(line.warnings.map(warning => warning.words)).map(words => namedBy(line, words));
}
export function explanationOf(library, outcome, bytes) {
    const lines = outcome.lines.filter(line => line.refusal !== null || line.milligrams !== null).flatMap(line => toldOf(library, line));
    if (outcome.held !== null) {
        const gauges = warned(outcome, 'gauge').length, above = warned(outcome, 'above').length;
        lines.push(`Held ${held(outcome.held)} kg, needed ${needed(outcome.need)} kg: ${marginOf(outcome)}.`
            + (gauges ? ` Gauges that can't tell: ${gauges}.` : '')
            + (above ? ` Lines above 750 kg/m3: ${above}.` : ''));
    } else {
        lines.push((outcome.refusal === 13 ? `Needed ${needed(outcome.need)} kg. ` : '')
            + `Sent back by ${outcome.refusal}. ${wordsOf(library, outcome.refusal)}`);
    }
    if (outcome.refusal === 14) lines.push(whereOf(bytes));
    return lines.map(line => line + '\n').join('');
}

// ---- RULES 14.5: where a text stops being in the form; null where it doesn't

const LONGEST = 65536;
const CALLED = { ' ': 'a space', '\n': 'LF', L: 'P, D or W', N: 'N', C: 'C' };
const isDigit = c => c >= '0' && c <= '9';

// the parts of a line of the form, from `at` on: how far it is in it, and what is expected there
function walk(text, at, form) {
    for (let i = 0; i < form.length; i++) {
        const part = form[i], then = CALLED[form[i + 1]];
        if (part !== '#') {
            if (part === 'L' ? !'PDW'.includes(text[at] || 'x') : text[at] !== part) return { at, expected: CALLED[part] };
            at++;
            continue;
        }
        const from = at;
        if (text[at] === '-') at++;
        else while (at < text.length && isDigit(text[at]) && at - from < 10 && !(at - from === 1 && text[from] === '0')) at++;
        if (at === from) return { at, expected: 'a digit or -' };
        if (text[at] === form[i + 1]) continue;
        const full = text[from] === '-' || text[from] === '0' || at - from === 10;
        return { at, expected: full ? then : `a digit or ${then}`, number: text.slice(from, at) };
    }
    return { at, expected: null };
}
function thereOf(text, at, mark) {
    if (at >= text.length) return 'the end of the text';
    if (mark) return 'a byte order mark';
    const c = text[at], code = text.charCodeAt(at);
    return { '\r': 'CR', '\n': 'LF', ' ': 'a space', '\t': 'a tab' }[c] || (code >= 33 && code <= 126 ? `'${c}'` : `byte ${code}`);
}
function hintOf(c, mark, front, { expected, number }) {
    if (mark) return 'Save the text without it.';
    if (c === '\r') return 'Lines end in LF alone, not in CR LF.';
    if (c === undefined) return 'Every line ends in LF, the last too.';
    if (c === '-' && expected === 'P, D or W') return 'A blank keeps its letter: P -, D - or W -.';
    if ('PDW'.includes(c) && expected === 'a digit or -') return 'What was not read is written -, in its place.';
    if (c === '.' || c === ',') return 'Every number is whole: scorer --help shows the units.';
    if (isDigit(c) && number === '0') return 'No number has a 0 in front.';
    if (isDigit(c) && number && number.length === 10) return 'No number has more than ten digits.';
    if (isDigit(c) && number === '-') return 'No number is below 0: - alone is a blank.';
    if (c === '\n' && front) return 'No line is empty.';
    return c === ' ' ? "One space stands between two parts, and none at a line's front or end." : '';
}
export function whereOf(bytes) {
    if (bytes.length > LONGEST) return 'The text has more than 65,536 bytes.';
    const text = Array.from(bytes, byte => String.fromCharCode(byte)).join('');
    for (let from = 0, line = 1; line === 1 || from < text.length; line++) {
        const found = walk(text, from, line === 1 ? 'N #\n' : 'C # # L # #\n');
        if (found.expected === null) { from = found.at; continue; }
        const mark = found.at === 0 && text.startsWith('\u00ef\u00bb\u00bf');
        return `Line ${line}, column ${found.at - from + 1}: ${found.expected} is expected, and there is ${thereOf(text, found.at, mark)}. `
            .concat(hintOf(text[found.at], mark, found.at === from, found)).trimEnd();
    }
    return null;
}
