// What needs no browser: what is said of a text against what crosscheck/desk.py worked of it, the form's text, and the map's lines against the rules' numbers.
import fs from 'node:fs';
import { openLibrary } from '../src/library.mjs';
import { explanationOf, outcomeOf, sheetOf, whereOf } from '../src/sheet.mjs';
import { frameOf, mapPicture, rangesOf, svgText } from '../src/picture.mjs';
import { mustAnswerAsKnown } from '../src/known.mjs';
import { isVouchedFor, questionOf } from '../src/states.mjs';
import { VERSION, libraryOf } from './expected.mjs';

const DESK = 'crates/run_desk';
// [title, text's bytes, what the program must print of it]: its report, the explanation under it, and its warnings, each after the file's name
function texts() {
    const known = fs.readFileSync(`${DESK}/stdout`, 'latin1'), found = [];
    const add = (title, text) => {
        const from = known.indexOf(`= ${title}\n`) + title.length + 3, to = known.slice(from).search(/^(= |words of 0)/m);
        found.push([title, Buffer.from(text, 'latin1'), known.slice(from, from + to)]);
    };
    for (const block of fs.readFileSync(`${DESK}/data/sheets.txt`, 'latin1').split('=').slice(1)) {
        const end = block.indexOf('\n');
        add(block.slice(0, end).trim(), block.slice(end + 1));
    }
    add('65,536 bytes', `N 1\n${'C 1 1 P 1 1\n'.repeat(5461)}`);
    add('65,537 bytes', `N 10\n${'C 1 1 P 1 1\n'.repeat(5461)}`);
    add('65,536 bytes, the last line damaged', `N 1\n${'C 1 1 P 1 1\n'.repeat(5460)}C 1 1 P 1 x\n`);
    return found;
}
function printed(library, bytes) {
    const outcome = outcomeOf(library, bytes);
    const warnings = outcome.lines.flatMap(line => line.warnings.map(({ words }) => `sheet.txt: L ${line.place}, cylinder ${line.record.number}: ${words}\n`));
    return outcome.report + explanationOf(library, outcome, bytes) + warnings.join('');
}
const formOf = (need, ...rows) => ({ need, rows: rows.map(([number, celsius, reading, kind, litres]) => ({ number, celsius, reading, kind, litres })) });

export async function withoutBrowser(page, check) {
    const library = await openLibrary(Buffer.from(libraryOf(page), 'base64'));
    const known = texts();
    check.ok(`${known.length} texts of ${DESK}`, known.length >= 180);
    for (const [title, bytes, want] of known) check.is(`${DESK}, ${title}`, printed(library, bytes), want);
    check.is('a text in the form stops nowhere', whereOf(Buffer.from('N 1\nC 1 1 P 1 1\n')), null);

    mustAnswerAsKnown(library, VERSION);
    for (const [name, change] of [['version', { version: () => '1.0.0' }],
        ['report', { report: text => library.report(text).map((byte, i) => i === 0 ? byte ^ 1 : byte) }],
        ['state', { state: (...asked) => { const state = library.state(...asked); if (state.figures) state.figures.sound += 1e-13; return state; } }],
        ['saturation', { saturation: t => t === 293.15 ? { figures: { ...library.saturation(t).figures, liquid: 773.4 } } : library.saturation(t) }]]) {
        let said = 'nothing';
        try { mustAnswerAsKnown({ ...library, ...change }, VERSION); } catch (fault) { said = fault.message; }
        check.has(`a library with another ${name} is found out`, said, 'does not answer as it is known to');
    }

    const line = ['7', '20', '57.3', 'bar', '67.5'];
    check.is('a form', sheetOf(formOf('180', line)).text, 'N 180000000\nC 7 2931500 P 5730000 67500\n');
    check.is('an empty form', sheetOf(formOf('', ['', '', '', '', ''])).text, 'N -\nC - - P - -\n');
    check.is('a minus alone is a blank', sheetOf(formOf('-', ['-', '-', '-', '', '-'])).text, 'N -\nC - - P - -\n');
    check.is('kinds of a blank', ['bar', 'gauge', 'density', 'weighed', ''].map(kind => sheetOf(formOf('1', ['1', '', '', kind, ''])).text.split('\n')[1]),
        ['C 1 - P - -', 'C 1 - P - -', 'C 1 - D - -', 'C 1 - W - -', 'C 1 - P - -']);
    check.is('a kind that is none', sheetOf(formOf('1', ['1', '', '5', 'constructor', ''])).marks.map(({ field }) => field), ['kind']);
    check.is('a point after a comma', sheetOf(formOf('1,5', ['1', '20.5', '57.3', 'bar', '67,5'])).marks.map(({ row, field }) => `${row} ${field}`),
        ['0 celsius', '0 reading']);
    check.is('one that is mixed in itself decides nothing',
        sheetOf(formOf('1.200,5', ['1', '20,5', '57,3', 'bar', '67,5'])).marks.map(({ row, field }) => `${row} ${field}`), ['-1 need']);
    check.is('thousands are noted', sheetOf(formOf('1.200', line)).notes,
        [{ row: -1, field: 'need', words: 'Read as 1.2. If thousands are meant, write 1200.', thousands: true }]);
    check.is('thousands, but not of 0', sheetOf(formOf('0.200', line)).notes, []);
    check.is('ranges of lines', rangesOf([1, 2, 3, 5, 7, 8]), '1–3, 5, 7, 8');

    // RULES 2.1, 2.2, 2.3 and README's table of the solid
    const frame = frameOf(library), near = (x, y) => Math.abs(x - y) <= 1e-9 * Math.abs(y);
    const { box } = frame;
    check.ok('the map: the ranges', near(frame.coldest, 216.592) && near(frame.hottest, 523) && near(frame.lowest, 10000) && near(frame.highest, 3e7));
    check.ok('the map: the box', near(box.left, 303.1282) && near(box.right, 305.1282) && near(box.low, 7e6) && near(box.high, 8e6)
        && near(frame.critical, 304.1282));
    const solidAbove = t => { const i = frame.melting.findIndex(([at]) => at >= t); const [[t0, p0], [t1, p1]] = [frame.melting[i - 1],
        frame.melting[i]]; return (p0 + (p1 - p0) * (t - t0) / (t1 - t0)) / 1e5; };
    check.ok('the map: the melting line', [[-56.15, 24.3], [-56, 31.3], [-55.6, 50.2], [-55, 78.6],
        [-53, 174]].every(([celsius, bar]) => Math.abs(solidAbove(celsius + 273.15) / bar - 1) < 0.005));
    check.ok('the map: the saturation line', frame.saturation.length > 100 && frame.saturation.every(([t, p]) => library.saturation(t).figures.pressure === p));
    const svg = svgText(mapPicture(frame, [{ place: 1, kelvin: 313.15, pascal: 1e7, status: 'answered' }], 640));
    check.ok('the map as text', /^<svg [^>]*>.*<\/svg>$/s.test(svg) && !/NaN|undefined|Infinity/.test(svg));
    check.ok('the map with a hot dot and a thin one',
        !/NaN|undefined/.test(svgText(mapPicture(frame,
        [{ place: 1, kelvin: 500, pascal: 2e4, status: 'refused' }, { place: 2, kelvin: 9e5, pascal: 1, status: 'doubt' }], 360))));

    const asked = questionOf({ temperature: '37.4', temperatureUnit: 'celsius', other: '100', otherUnit: 'bar' });
    check.is('a question', [asked.door, asked.t, asked.x, asked.marks], ['P', 310.55, 1e7, []]);
    check.is('a question without a number', questionOf({ temperature: '', temperatureUnit: 'celsius', other: ' ', otherUnit: 'bar' }).t, null);
    check.is('where the conductivity is vouched for', [20.9, 21, 41, 41.1].map(celsius => isVouchedFor(celsius + 273.15)), [true, false, false, true]);
}
