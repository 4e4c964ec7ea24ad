// The page: the bank's view, and what starts it all.
import { openLibrary } from './library.mjs';
import { KINDS, densityShown, explanationOf, held, kelvinOf, leastOf, marginOf, needed, outcomeOf, sheetOf, spokenOf, warned, warningsOf } from './sheet.mjs';
import { isBlank } from './decimals.mjs';
import { bankWords, cylinderPicture, frameOf, mapPicture, mapWords, offMap, rangesOf } from './picture.mjs';
import { mustAnswerAsKnown } from './known.mjs';
import { openStates } from './states.mjs';
import { byId, element, grow, hush, mark, options, sentence, speak, turnSign } from './dom.mjs';

const FIELDS = ['number', 'celsius', 'reading', 'kind', 'litres'];
const LABELS = { number: 'number', celsius: '°C', reading: 'reading', kind: 'of what', litres: 'litres' };
const KEPT = 'makhroeng.form';
const narrow = matchMedia('(max-width: 44.99rem)');
const bytesOf = text => new TextEncoder().encode(text);

// The library in base64 (web/build): inside the script, so that the policy's digest is over it
const WASM = '@WASM@';

let library, frame;
let shut = false; // a fault was seen: nothing is shown any more
let rows = [];
let made = 0; // rows that there ever were: each has ids of its own
let shown = { sheet: null, report: null, 'file-report': null };
let dots = [];

// What a function does, or the page is shut: no fault leaves an old verdict standing
const guarded = work => (...given) => {
    if (shut) return;
    try {
        work(...given);
    } catch (fault) {
        unusable(fault);
    }
};

// ---- rows

function fieldOf(id, name) {
    const common = { id: `${id}-${name}`, autocomplete: 'off' };
    if (name === 'kind') {
        const select = element('select', common);
        options(select, KINDS);
        return select;
    }
    return element('input', { ...common, inputmode: name === 'number' ? 'numeric' : 'decimal', enterkeyhint: 'next', spellcheck: 'false' });
}

function addRow() {
    const id = `r${++made}`;
    const row = { id, fields: {}, line: element('th', { scope: 'row', class: 'line', id: `${id}-line` }), holds: element('td', { class: 'holds' }) };
    const cells = FIELDS.map(name => {
        const field = row.fields[name] = fieldOf(id, name);
        const label = element('label', { for: field.id }, element('span', { class: 'hidden of-line' }), LABELS[name]);
        const cell = element('td', { class: name }, label, field);
        if (name === 'celsius') {
            row.turn = element('button', { type: 'button', class: 'turn' }, '±');
            row.turn.addEventListener('click', () => turnSign(field));
            cell.append(row.turn);
        }
        if (name === 'litres') {
            row.above = element('button', { type: 'button', class: 'above' }, 'as above');
            row.above.addEventListener('click', () => copyLitres(row));
            cell.append(row.above);
        }
        return cell;
    });
    row.out = element('button', { type: 'button', class: 'out' }, '×');
    row.out.addEventListener('click', () => takeOut(row));
    row.told = element('td', { colspan: '8', id: `${id}-told` });
    row.below = element('tr', { class: 'told' }, row.told);
    row.body = element('tbody', { class: 'cylinder' },
        element('tr', { class: 'fields' }, row.line, ...cells, row.holds, element('td', { class: 'take' }, row.out)), row.below);
    rows.push(row);
    byId('cylinders').append(row.body);
    nameRows();
    return row;
}

// what hangs on a row's place among the others
function nameRows() {
    rows.forEach((row, i) => {
        const line = `line ${i + 1}`;
        row.line.replaceChildren(element('span', { class: 'word-line' }, 'Line '), `${i + 1}`);
        for (const of of row.body.querySelectorAll('.of-line')) of.textContent = `${line}, `;
        row.out.setAttribute('aria-label', `take ${line} out`);
        row.turn.setAttribute('aria-label', `${line}, °C below 0 or above 0`);
        row.above.setAttribute('aria-label', `${line}, same litres as above`);
    });
    giveRoles();
}

// A table where it looks like one. On a narrow screen each cylinder is a group of fields by its line's name.
function giveRoles() {
    const role = (node, name) => narrow.matches ? node.setAttribute('role', name) : node.removeAttribute('role');
    role(byId('cylinders'), 'presentation');
    for (const row of rows) {
        role(row.body, 'group');
        if (narrow.matches) row.body.setAttribute('aria-labelledby', row.line.id); else row.body.removeAttribute('aria-labelledby');
        for (const node of row.body.querySelectorAll('tr, th, td')) role(node, 'presentation');
    }
}

let taken = null; // the line that was taken out last, and its place: it can be put back
function offerBack(last) {
    taken = last;
    byId('put-back').hidden = last === null;
    if (last) byId('put-back').textContent = `Put line ${last.place + 1} back`;
}
function takeOut(row) {
    const i = rows.indexOf(row);
    rows.splice(i, 1);
    row.body.remove();
    nameRows();
    offerBack({ row, place: i });
    const next = rows[Math.min(i, rows.length - 1)];
    (next ? next.fields.number : byId('add')).focus();
    score();
}
function putBack() {
    const { row, place } = taken, next = rows[place];
    offerBack(null);
    rows.splice(place, 0, row);
    if (next) next.body.before(row.body); else byId('cylinders').append(row.body);
    nameRows();
    row.fields.number.focus();
    score();
}

function copyLitres(row) {
    row.fields.litres.value = rows[rows.indexOf(row) - 1].fields.litres.value;
    row.fields.litres.focus();
    score();
}

// Enter goes on to the next field, and from the last one to a new line, unless the last line is blank as it is
function onEnter(event) {
    if (event.key !== 'Enter' || event.target.tagName !== 'INPUT' || event.target.type === 'checkbox') return;
    event.preventDefault();
    const fields = [byId('need'), ...rows.flatMap(row => FIELDS.map(name => row.fields[name]))];
    const next = fields[fields.indexOf(event.target) + 1];
    if (next) return next.focus();
    if (rows.length && FIELDS.every(name => isBlank(rows[rows.length - 1].fields[name].value))) return;
    addRow().fields.number.focus();
    score();
}

// ---- what is kept, where it is asked for

const typedForm = () => ({
    need: byId('need').value,
    rows: rows.map(({ fields }) => Object.fromEntries(FIELDS.map(name => [name, fields[name].value]))),
});
function fillForm(form) {
    for (const row of rows) row.body.remove();
    rows = [];
    byId('need').value = form.need;
    for (const typed of form.rows) {
        const { fields } = addRow();
        for (const name of FIELDS) fields[name].value = typed[name];
    }
}
const EMPTY = { need: '', rows: [{ number: '', celsius: '', reading: '', kind: '', litres: '' }] };

const isForm = form => form !== null && typeof form === 'object' && typeof form.need === 'string' && Array.isArray(form.rows)
    && form.rows.every(row => row !== null && typeof row === 'object' && FIELDS.every(name => typeof row[name] === 'string')
        && (row.kind === '' || Object.keys(KINDS).includes(row.kind)));
const KEEPING = {
    kept: 'Kept in this browser on this device, and nowhere else, until this is unticked.',
    not: 'Not kept: what is typed is gone when the page is closed.',
    failed: 'Not kept: this browser keeps nothing for this page, or has no room. What was kept before is erased.',
    damaged: 'What was kept here was damaged or of another form: it is erased, and nothing was filled in.',
    elsewhere: 'Not kept any more: it was erased in another tab or window. What is typed is gone when the page is closed.',
};
let wrote = false; // what is kept is from here, and can only be missing because it was erased elsewhere
function sayKeeping(what) {
    byId('keep').checked = what === 'kept';
    byId('keep-says').textContent = KEEPING[what];
    wrote = false;
}
function erase() {
    try {
        localStorage.removeItem(KEPT);
    } catch { /* where nothing can be kept there is nothing to erase */ }
}
// The form that is kept, or null; and says which
function keptForm() {
    let text = null, form = null;
    try {
        text = localStorage.getItem(KEPT);
        form = JSON.parse(text);
    } catch { /* not to be read: damaged, or nothing at all */ }
    if (text === null) return null;
    if (!isForm(form)) {
        erase();
        sayKeeping('damaged');
        return null;
    }
    sayKeeping('kept');
    wrote = true;
    return form;
}
// after each key; what was said stays
function keep() {
    try {
        if (wrote && localStorage.getItem(KEPT) === null) sayKeeping('elsewhere');
        if (byId('keep').checked) localStorage.setItem(KEPT, JSON.stringify(typedForm()));
        wrote = byId('keep').checked;
    } catch {
        erase(); // an older form would come back as if it were this one
        sayKeeping('failed');
    }
}
function onKeep() {
    if (!byId('keep').checked) erase();
    sayKeeping(byId('keep').checked ? 'kept' : 'not');
    keep();
}
function onStorage(event) {
    if (byId('keep').checked && (event.key === KEPT || event.key === null) && event.newValue === null) sayKeeping('elsewhere');
}

// ---- what is said

const SIGN = { covered: '✓', doubt: '⚠', short: '✗', back: '↩', none: '…' };
const several = (n, one, many) => `${n} ${n === 1 ? one : many}`;
const linesOf = lines => `${lines.length === 1 ? 'line' : 'lines'} ${rangesOf(lines.map(line => line.place))}`;

// README's table speaks of the sheet's units; these are the form's
const ON_THE_FORM = {
    2: 'On this form it is typed in litres.',
    4: 'On this form it is typed in °C.',
    6: 'On this form: choose “kg weighed”, and type the kg of agent.',
    8: 'On this form: choose “kg weighed”, and type the kg of agent.',
    12: 'On this form it is typed in kg.',
    23: 'On this form it is typed in kg.',
};

const placeOf = ({ row, field }) => row < 0 ? 'need' : `line ${row + 1}, ${LABELS[field]}`;

// what is counted beside a verdict, and on which lines: pairs of words
function doubtsOf(outcome, notes) {
    const thousands = notes.filter(note => note.thousands);
    const gauges = warned(outcome, 'gauge'), above = warned(outcome, 'above'), said = [];
    if (gauges.length) said.push([`${several(gauges.length, 'gauge', 'gauges')} can’t tell`, ` (${linesOf(gauges)})`]);
    if (above.length) said.push([`${several(above.length, 'line is', 'lines are')} above 750 kg/m³`, ` (${linesOf(above)})`]);
    if (thousands.length) said.push([`${several(thousands.length, 'number', 'numbers')} may be meant for thousands`,
        ` (${thousands.map(placeOf).join('; ')})`]);
    return said;
}
const counted = (front, doubts) => doubts.map(([count, which], i) => [(i ? ', and ' : `${front} `) + count, which]);
const plain = but => but.map(words => words.join('')).join('');

// What the verdict's place says: { is, word, but, words, sums, least }. The notes are those of a form; a file has none.
function verdictOf(outcome, notes = []) {
    const doubts = doubtsOf(outcome, notes);
    if (outcome.held !== null) {
        const is = outcome.verdict === 'SHORT' ? 'short' : doubts.length ? 'doubt' : 'covered';
        const [margin, unit, ...rest] = marginOf(outcome).split(' ');
        const sums = { held: `${held(outcome.held)} kg`, needed: `${needed(outcome.need)} kg`, margin: `${margin} ${unit}`, marginIs: rest.join(' ') };
        const least = leastOf(outcome);
        return { is, word: outcome.verdict, but: counted('but', doubts), words: '', sums, least: least === null ? '' : `at least ${held(least)} kg` };
    }
    const { says, todo } = library.words(outcome.refusal);
    const refused = outcome.lines.filter(line => line.refusal !== null);
    const words = [refused.length ? `Refused: ${linesOf(refused)}.` : '', `${says}. ${todo}`, ON_THE_FORM[outcome.refusal] || ''].filter(Boolean).join(' ');
    return { is: 'back', word: `SENT BACK ${outcome.refusal}`, but: counted('and', doubts), words, sums: null, least: '' };
}
const LEAST_IF = ', if it is vapour alone where a gauge can’t tell';
const sumWords = ({ sums, least }) => sums && `Held ${sums.held}, needed ${sums.needed}, ${sums.margin} ${sums.marginIs}.`
    + (least ? ` ${sentence(least)}${LEAST_IF}.` : '');
const wholeVerdict = said => [`${said.word}.`, said.but.length ? `${plain(said.but)}.` : '', sumWords(said), said.words].filter(Boolean).join(' ');
// what a report alone must not lose: '' where there is no doubt
const doubtWords = ({ word, but, least }) => but.length ? `${word}, ${plain(but)}${least ? `; ${least}${LEAST_IF}` : ''}.` : '';

function paintVerdict(said) {
    const { is, word, but, words, sums, least } = said;
    byId('verdict').dataset.is = is;
    byId('sign').textContent = SIGN[is];
    byId('word').textContent = word;
    byId('but').replaceChildren(...but.flatMap(([count, which]) => [count, element('span', { class: 'which' }, which)]));
    byId('but').hidden = but.length === 0;
    byId('words').textContent = words;
    byId('words').hidden = words === '';
    byId('sums').hidden = sums === null;
    if (sums) {
        byId('held').textContent = sums.held;
        byId('needed').textContent = sums.needed;
        byId('margin').textContent = sums.margin;
        byId('margin-is').textContent = sums.marginIs;
    }
    byId('least').hidden = least === '';
    byId('least').replaceChildren(...least ? [least, element('span', { class: 'which' }, LEAST_IF)] : []);
    speak(wholeVerdict(said));
}
// what stands with a report, on the page and where it is printed alone
function paintBeside(name, said, warnings) {
    byId(`${name}-doubt`).textContent = said ? doubtWords(said) : '';
    byId(`${name}-warnings`).replaceChildren(...warnings.map(words => element('p', {}, words)));
}

function paintPapers(texts) {
    shown = { ...shown, ...texts };
    for (const [name, text] of Object.entries(texts)) {
        byId(name).textContent = text === null ? '' : text;
        for (const button of document.querySelectorAll(`[data-paper="${name}"] button`)) button.disabled = text === null;
        document.querySelector(`[data-paper="${name}"] .done`).textContent = '';
    }
}

function paintHolds(row, line) {
    if (!line || (line.milligrams === null && line.refusal === null)) row.holds.replaceChildren(element('span', { class: 'nothing' }, '–'));
    else if (line.refusal !== null) row.holds.replaceChildren(element('b', { class: 'refused' }, `refused by ${line.refusal}`));
    else {
        const more = line.state ? `${densityShown(line.state.density)} kg/m³, ${line.state.phase}` : 'weighed';
        row.holds.replaceChildren(element('b', {}, `${held(line.milligrams)} kg`), element('span', { class: 'small' }, more));
    }
}

function refusalWords(row, line) {
    const { says, todo } = library.words(line.refusal);
    const blanks = spokenOf(line).map(name => LABELS[name]).join(', ');
    const more = [line.refusal === 1 ? `Blank: ${blanks}.` : '', line.first ? `It stands in line ${line.first}.` : '',
        ON_THE_FORM[line.refusal] || ''].filter(Boolean);
    return element('p', { class: 'refusal', id: `${row.id}-refused` }, element('b', {}, `Refused by ${line.refusal}. ${says}.`),
        ` ${[todo, ...more].join(' ')}`);
}
function warningWords(warning, id) {
    const [lead, ...rest] = warning.words.split('. ');
    return element('p', { class: 'warning', id }, element('b', {}, `⚠ ${sentence(lead)}.`), ` ${rest.join('. ')}`,
        warning.kind === 'gauge' ? ' On this form: choose “kg weighed”, and type the kg of agent.' : '');
}

// A row: what was typed wrongly, what is noted, and what came of the line
function paintRow(row, i, { marks, notes }, line) {
    const said = [], ids = Object.fromEntries(FIELDS.map(name => [name, []])), why = {};
    const say = (one, kind) => {
        const id = `${row.id}-${one.field}-${kind}`;
        said.push(element('p', { class: one.thousands ? `${kind} warning` : kind, id }, element('b', {}, `${LABELS[one.field]}: `), sentence(one.words)));
        ids[one.field].push(id);
    };
    for (const one of marks.filter(each => each.row === i)) {
        say(one, 'fault');
        why[one.field] = 'slip';
    }
    for (const one of notes.filter(each => each.row === i)) say(one, 'note');
    if (line && line.refusal !== null) {
        said.push(refusalWords(row, line));
        for (const name of spokenOf(line)) {
            ids[name].push(`${row.id}-refused`);
            why[name] = line.refusal === 1 ? 'blank' : 'refused';
        }
    }
    for (const warning of line ? line.warnings : []) {
        ids.reading.push(`${row.id}-${warning.kind}`);
        said.push(warningWords(warning, `${row.id}-${warning.kind}`));
    }
    for (const name of FIELDS) mark(row.fields[name], why[name] || null, ids[name]);
    row.told.replaceChildren(...said);
    row.below.hidden = said.length === 0;
    row.body.classList.toggle('warned', Boolean(line && line.warnings.length));
    row.body.classList.toggle('sent-back', Boolean(line && line.refusal !== null && line.refusal !== 1));
    row.body.classList.toggle('incomplete', Boolean(line && line.refusal === 1));
    const above = rows[i - 1];
    row.above.hidden = !above || above.fields.litres.value.trim() === '' || row.fields.litres.value.trim() !== '';
    paintHolds(row, line);
}

function paintNeed({ marks, notes }, refusal) {
    const found = marks.filter(one => one.row < 0), said = found.concat(notes.filter(one => one.row < 0));
    byId('need-says').textContent = said.map(one => sentence(one.words)).join(' ');
    byId('need-says').classList.toggle('fault', found.length > 0);
    byId('need-says').classList.toggle('warning', found.length === 0 && said.length > 0);
    const ids = refusal === 12 ? ['need-says', 'words'] : ['need-says'];
    mark(byId('need'), found.length ? 'slip' : refusal === 12 ? isBlank(byId('need').value) ? 'blank' : 'refused' : null, ids);
}
function paintList(refusal) {
    const is = refusal === 10 || refusal === 11;
    byId('list-says').textContent = is ? `${library.words(refusal).says}. ${library.words(refusal).todo}` : '';
    byId('list-says').classList.toggle('fault', is);
    byId('cylinders').dataset.why = is ? 'refused' : '';
}

// ---- the pictures

function cylinderOf(line) {
    const { record, milligrams, refusal, state, warnings } = line;
    const gauge = warnings.find(warning => warning.kind === 'gauge');
    return {
        place: line.place, number: record.number, refusal, status: milligrams !== null ? 'answered' : refusal !== null ? 'refused' : 'unknown',
        kg: milligrams === null ? '' : held(milligrams), phase: state ? state.phase : milligrams !== null ? 'weighed' : '',
        density: state ? state.density : milligrams === null ? null : Number(milligrams) / Number(record.volume),
        range: gauge && milligrams !== null ? [gauge.vapour, gauge.liquid] : null, above: warnings.some(warning => warning.kind === 'above'),
    };
}
// a density's at the pressure that was worked
function dotOf(line) {
    const { record, state, refusal, milligrams, warnings } = line;
    if (record.letter === 'W' || record.temperature === null || record.value === null) return null;
    const pascal = record.letter === 'P' ? Number(record.value) : state ? state.pressure : null;
    if (pascal === null) return null;
    const status = refusal !== null ? 'refused' : milligrams === null ? 'unknown' : warnings.some(warning => warning.kind === 'gauge') ? 'doubt' : 'answered';
    return { place: line.place, kelvin: kelvinOf(record), pascal, status };
}
function paintMap() {
    const width = Math.max(300, Math.floor(byId('map').clientWidth || 640));
    byId('map').replaceChildren(grow(mapPicture(frame, dots, width)));
    byId('map').setAttribute('aria-label', mapWords(frame, dots));
}
// Without a sheet each cylinder is not known, by the number as it was typed, as far as a number goes
const unknownLines = () => rows.map((row, i) => ({
    place: i + 1, milligrams: null, refusal: null, state: null, warnings: [],
    record: { number: row.fields.number.value.trim().slice(0, 10) || null, temperature: null, letter: '', value: null, volume: null },
}));
function paintPictures(lines) {
    const cylinders = lines.map(cylinderOf);
    byId('fill').replaceChildren(...cylinders.map(what => grow(cylinderPicture(what))));
    byId('fill').setAttribute('aria-label', cylinders.length ? bankWords(cylinders) : 'No cylinders.');
    dots = lines.map(dotOf).filter(dot => dot !== null);
    const weighed = lines.filter(line => line.record.letter === 'W' && line.record.value !== null).map(line => line.place);
    const placed = new Set(dots.map(dot => dot.place).concat(weighed));
    byId('off-map').textContent = offMap(frame, dots, weighed, lines.map(line => line.place).filter(place => !placed.has(place)));
    paintMap();
}

// ---- the form to its answer, after each key

const score = guarded(() => {
    const sheet = sheetOf(typedForm()), bytes = sheet.text === null ? null : bytesOf(sheet.text);
    const outcome = bytes && outcomeOf(library, bytes), said = outcome ? verdictOf(outcome, sheet.notes) : noSheet(sheet.marks);
    const lines = outcome ? outcome.lines : [];
    rows.forEach((row, i) => paintRow(row, i, sheet, lines[i]));
    paintNeed(sheet, outcome && outcome.refusal);
    paintList(outcome && outcome.refusal);
    paintPapers({ sheet: sheet.text, report: outcome && outcome.report });
    const thousands = sheet.notes.filter(note => note.thousands).map(note => `${sentence(placeOf(note))}: ${note.words}`);
    paintBeside('report', outcome && said, outcome ? [...warningsOf(outcome), ...thousands] : []);
    byId('explanation').textContent = outcome ? explanationOf(library, outcome, bytes) : '';
    paintPictures(lines.length ? lines : unknownLines());
    paintVerdict(said);
    keep();
});
function noSheet(marks) {
    const places = [...new Set(marks.map(one => one.row < 0 ? 'the need' : placeOf(one)))];
    return { is: 'none', word: 'NO SHEET YET', but: [], sums: null, least: '',
        words: `${several(places.length, 'field', 'fields')} can’t be written on a sheet. Mend what is marked: ${places.join('; ')}.` };
}

// ---- a sheet's file, its bytes as they are

const MOST = 65536;
let openings = 0; // only the last one's answer is shown
async function readFile(file) {
    try {
        const bytes = new Uint8Array(await file.slice(0, MOST + 1).arrayBuffer());
        return { bytes };
    } catch (fault) {
        return { fault };
    }
}
// Nothing of a file stands under another's name: all is painted anew each time, also where there is nothing yet
function paintFile(name, said, { report = null, warnings = [], explanation = '' } = {}) {
    byId('file-says').hidden = false;
    byId('file-name').textContent = name;
    byId('file-verdict').dataset.is = said.is;
    byId('file-word').textContent = `${SIGN[said.is] || ''} ${said.word}`.trim();
    byId('file-but').textContent = plain(said.but);
    byId('file-but').hidden = said.but.length === 0;
    byId('file-words').textContent = [sumWords(said), said.words].filter(Boolean).join(' ');
    paintPapers({ 'file-report': report });
    byId('file-report-name').textContent = name;
    paintBeside('file-report', report === null ? null : said, warnings);
    byId('file-explanation').textContent = explanation;
}
const noFile = (is, word, words) => ({ is, word, words, but: [], sums: null, least: '' });
const scoreFile = guarded((name, bytes) => {
    const outcome = outcomeOf(library, bytes), said = verdictOf(outcome);
    paintFile(name, said, { report: outcome.report, warnings: warningsOf(outcome), explanation: explanationOf(library, outcome, bytes) });
    speak(`${name}: ${wholeVerdict(said)}`);
});
async function openFile(event) {
    const [file] = event.target.files;
    if (!file || shut) return;
    const opening = ++openings;
    hush();
    paintFile(file.name, noFile('wait', 'READING', ''));
    event.target.value = ''; // so that the same file, mended, can be chosen again
    const { bytes, fault } = await readFile(file);
    if (opening !== openings || shut) return;
    if (bytes) return scoreFile(`${file.name}, ${several(file.size, 'byte', 'bytes')}`, bytes);
    const said = noFile('none', 'NOT READ', `The file can’t be read: ${fault.message}.`);
    paintFile(file.name, said);
    speak(`${file.name}: ${wholeVerdict(said)}`);
}

// ---- copy, save, print

async function copy(name) {
    try {
        await navigator.clipboard.writeText(shown[name]);
        return 'Copied.';
    } catch {
        getSelection().selectAllChildren(byId(name));
        return document.execCommand('copy') ? 'Copied.' : 'Selected: copy it by hand.';
    }
}
function save(name) {
    const file = URL.createObjectURL(new Blob([bytesOf(shown[name])], { type: 'text/plain' }));
    element('a', { href: file, download: name === 'sheet' ? 'sheet.txt' : 'report.txt' }).click();
    setTimeout(() => URL.revokeObjectURL(file), 60000);
    return 'Saved.';
}
// until `afterprint`: on a phone print() comes back before the paper is made
function printOnly(name) {
    document.body.dataset.print = name;
    print();
    return '';
}
const printedAll = () => delete document.body.dataset.print;
function printAll() {
    printedAll();
    print();
}
const DO = { copy, save, print: printOnly };
async function onPaper(event) {
    const button = event.target.closest('[data-do]');
    if (!button) return;
    const paper = button.closest('[data-paper]');
    paper.querySelector('.done').textContent = await DO[button.dataset.do](paper.dataset.paper);
}

// ---- the views

const VIEWS = ['bank', 'state'];
function show(view) {
    for (const name of VIEWS) {
        const is = name === view, tab = byId(`tab-${name}`);
        byId(name).hidden = !is;
        tab.setAttribute('aria-selected', String(is));
        tab.tabIndex = is ? 0 : -1;
    }
    if (view === 'bank') paintMap();
}
function onTabKey(event) {
    if (event.key !== 'ArrowLeft' && event.key !== 'ArrowRight') return;
    const other = VIEWS.find(view => event.target.id !== `tab-${view}`);
    show(other);
    byId(`tab-${other}`).focus();
}

let asked = 0, askedAt = 0;
const AGAIN = 700; // ms: a second press that comes sooner is a part of the first
// once to be asked, once to do it
function onClear() {
    const sure = byId('clear').dataset.sure;
    if (sure && performance.now() - askedAt < AGAIN) return;
    clearTimeout(asked);
    delete byId('clear').dataset.sure;
    byId('clear').textContent = 'Clear the form';
    if (sure) {
        fillForm(EMPTY);
        offerBack(null);
        score();
        return byId('need').focus();
    }
    askedAt = performance.now();
    byId('clear').dataset.sure = 'yes';
    byId('clear').textContent = 'Press again to clear';
    asked = setTimeout(() => {
        delete byId('clear').dataset.sure;
        byId('clear').textContent = 'Clear the form';
    }, 5000);
}

function listen() {
    for (const typed of ['input', 'change']) byId('form').addEventListener(typed, event => event.target.id === 'keep' || score());
    byId('keep').addEventListener('change', onKeep);
    byId('form').addEventListener('keydown', onEnter);
    byId('form').addEventListener('submit', event => event.preventDefault());
    byId('add').addEventListener('click', () => {
        addRow().fields.number.focus();
        score();
    });
    byId('put-back').addEventListener('click', putBack);
    byId('clear').addEventListener('click', onClear);
    byId('print-all').addEventListener('click', printAll);
    addEventListener('afterprint', printedAll);
    byId('file').addEventListener('change', openFile);
    byId('bank').addEventListener('click', onPaper);
    for (const view of VIEWS) {
        byId(`tab-${view}`).addEventListener('click', () => show(view));
        byId(`tab-${view}`).addEventListener('keydown', onTabKey);
    }
    narrow.addEventListener('change', giveRoles);
    addEventListener('resize', guarded(paintMap));
    addEventListener('storage', onStorage);
}

// ---- the start

// where something is said of a sheet, a file or a state
const SAID = ['sign', 'word', 'but', 'words', 'held', 'needed', 'margin', 'margin-is', 'least', 'fill', 'map', 'off-map', 'sheet', 'report', 'report-doubt',
    'report-warnings', 'explanation', 'file-name', 'file-word', 'file-but', 'file-words', 'file-report', 'file-report-name', 'file-report-doubt',
    'file-report-warnings', 'file-explanation', 'phase', 'state-words', 'figures', 'saturated'];
// No verdict at all, and no form that could be taken for one
function unusable(fault) {
    if (shut) return;
    shut = true;
    document.body.classList.add('unusable');
    for (const node of document.querySelectorAll('.needs-library')) node.hidden = true;
    byId('unusable').hidden = false;
    byId('unusable').setAttribute('role', 'alert');
    const words = sentence(String(fault && fault.message || fault)).replace(/\.$/, '');
    byId('unusable-words').textContent = typeof WebAssembly === 'object'
        ? `${words}. Open a fresh copy of the page, or use the program: ./score sheet.txt.`
        : `${words}. Use another browser, with WebAssembly, or the program: ./score sheet.txt.`;
    if (!library) byId('tried').textContent = 'it did not';
    hush();
    for (const node of SAID.map(byId)) if (node) node.replaceChildren();
    for (const row of rows) for (const node of [row.told, row.holds]) node.replaceChildren();
    for (const verdict of document.querySelectorAll('.verdict')) verdict.dataset.is = 'wait';
}
const fromBase64 = text => Uint8Array.from(atob(text), letter => letter.charCodeAt(0));

async function start() {
    addEventListener('error', event => unusable(event.error || event));
    addEventListener('unhandledrejection', event => unusable(event.reason));
    const opened = await openLibrary(fromBase64(WASM));
    const tried = mustAnswerAsKnown(opened, document.querySelector('meta[name=version]').content);
    library = opened;
    frame = frameOf(library);
    fillForm(keptForm() || EMPTY);
    listen();
    const repaint = openStates(library, guarded);
    score();
    if (shut) return;
    addEventListener('pageshow', () => {
        score();
        repaint();
    });
    document.body.classList.remove('unusable');
    byId('unusable').hidden = true;
    paintMap(); // which has its width only now
    byId('tried').textContent = `the ${tried.reports} reports and ${tried.figures} figures that were tried on loading came out as known, `
        + `and so did ${tried.boundaries} answers on either side of a boundary`;
}
start().catch(unusable);
