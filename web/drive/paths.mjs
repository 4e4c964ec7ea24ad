// Every path through the page, in one browser: [name, (person, check)]. check.is(what, got, want), check.has(what, text, part), check.ok(what, holds).
import fs from 'node:fs';
import http from 'node:http';
import path from 'node:path';
import { REFUSALS, VERSION, libraryOf, runOf, sealed, tampered, warningsOf } from './expected.mjs';
import { contrastsOf } from './contrast.mjs';
import { sleep, until } from './driver.mjs';
import { quiet } from './heard.mjs';

const README_LINES = [['1', '40.0', '106', 'bar', '67.5'], ['2', '42.0', '112', 'bar', '67.5'], ['3', '41.5', '667', 'density', '67.5']];
const README_SHEET = fs.readFileSync('examples/runs.d/sheet_of_the_readme_explained/sheet.txt', 'latin1');
const README_RUN = runOf('sheet_of_the_readme_explained');
const sentence = words => words.charAt(0).toUpperCase() + words.slice(1);
const lastOf = text => text.trim().split('\n').pop();
// what stands beside the verdict's word, and its colours' name
const signOf = ({ run }) => run(() => [document.getElementById('sign').textContent.trim(), document.getElementById('verdict').dataset.is]);
const SIGNS = { covered: '✓', doubt: '⚠', short: '✗', back: '↩', none: '…' };
const spoken = ({ run }, form) => until(() => run((source) => new RegExp(source).test(document.getElementById('spoken').textContent), form.source),
    `${form} to be spoken`);

const STORED = async () => [localStorage.length, sessionStorage.length, document.cookie.length,
    globalThis.indexedDB && indexedDB.databases ? (await indexedDB.databases()).length : 0].join(' ');

// A server on this machine that counts what comes to it
async function withServer(use) {
    const asked = [];
    const server = http.createServer(({ url }, answer) => {
        asked.push(url);
        answer.end();
    });
    await new Promise(done => server.listen(0, '127.0.0.1', done));
    try {
        await use(`http://127.0.0.1:${server.address().port}`, asked);
    } finally {
        server.closeAllConnections();
        await new Promise(done => server.close(done));
    }
}
// nothing that the page asks of it may come to it, and the browser has to say that the policy stopped it
const inForce = ({ run, browser }, check) => withServer(async (url, asked) => {
    await fetch(`${url}/here`);
    check.is('the server counts', asked, ['/here']);
    const stopped = await run(async url => {
        const seen = [];
        document.addEventListener('securitypolicyviolation', event => seen.push(event.effectiveDirective));
        await fetch(url, { mode: 'no-cors' }).catch(() => {});
        await new Promise(done => {
            const image = new Image();
            image.onload = image.onerror = done;
            image.src = url;
        });
        await new Promise(done => setTimeout(done, 100));
        return seen.sort();
    }, `${url}/page`);
    check.is('the policy is in force: nothing came to the server', asked, ['/here']);
    check.is('the policy is in force: it stops a fetch and a picture', stopped, ['connect-src', 'img-src']);
    await browser.heard(); // which this had to raise
});

async function start(person, check) {
    await person.fresh();
    const { look, run, browser } = person;
    const seen = await look();
    check.is('an empty form: the sheet', seen.sheet, 'N -\nC - - P - -\n');
    check.is('an empty form: the report', seen.report, 'SENT BACK 12\n');
    check.is('an empty form: the verdict', seen.word, 'SENT BACK 12');
    check.has('an empty form: what it says', seen.words, REFUSALS[12].says);
    check.is('an empty form: the need is marked', seen.needMarked, true);
    check.is('an empty form: nothing is filled in', seen.rows.map(row => row.values), [['', '', '', '', '']]);
    check.is('nothing says that it is unusable', await run(() => document.getElementById('unusable').checkVisibility()), false);
    check.is('its version', await run(() => [document.getElementById('version').textContent, document.querySelector('meta[name=version]').content]),
        [VERSION, VERSION]);
    check.ok('it tried its library, and says how far', /^the \d+ reports and \d+ figures that were tried on loading came out as known, and so did \d+ answers/
        .test(await run(() => document.getElementById('tried').textContent)));
    const foot = (await run(() => document.querySelector('footer').textContent)).replace(/\s+/g, ' ');
    for (const part of ['Proved', 'Tested only', 'every byte of a report', 'back end to WebAssembly', 'browser\'s engine',
        'script between a field and the sheet', 'the pictures',
        'the warnings', 'the sheet\'s text with its report is what counts']) check.has(`the foot: ${part}`, foot, part);
    const policy = await run(() => document.querySelector('meta[http-equiv=Content-Security-Policy]').content);
    check.ok('the policy lets nothing be fetched',
        /^default-src 'none';/.test(policy)
            && !/unsafe|https?:|\*|data:|blob:|connect-src|img-src/.test(policy.replace("'wasm-unsafe-eval'", '')));
    check.ok('the policy is before all scripts and styles',
        await run(() => document.querySelector('meta[http-equiv], script, style').httpEquiv === 'Content-Security-Policy'));
    check.ok('the policy takes its script and style by their digests',
        /script-src 'sha256-[A-Za-z0-9+/=]{44}' 'wasm-unsafe-eval'; style-src 'sha256-/.test(policy));
    await inForce(person, check);
    check.is('no styles or handlers in attributes', await run(() => document.querySelectorAll('[style], [onclick], [oninput], [onload]').length), 0);
    await person.fresh();
    check.is('the page alone is asked for', [...new Set(await browser.asked())], [person.url]);
    check.is('nothing is stored', await run(STORED), '0 0 0 0');
}

// the sheet of README with keys alone, from the first to the last
async function byKeys(person, check) {
    await person.fresh();
    const { browser, look, run } = person;
    await person.focus('#tab-bank');
    await browser.tab();
    check.is('the first field after the views', await run(() => document.activeElement.id), 'need');
    await browser.type('120');
    await browser.press('Enter');
    for (const [i, [number, celsius, reading, kind, litres]] of README_LINES.entries()) {
        await browser.type(number);
        await browser.press('Enter');
        await browser.type(celsius);
        await browser.press('Enter');
        await browser.type(reading);
        await browser.press('Enter');
        for (let n = 0; n < ['', 'bar', 'gauge', 'density'].indexOf(kind); n++) await browser.press('ArrowDown');
        await browser.tab();
        await browser.type(litres);
        if (i < 2) await browser.press('Enter');
        if (i < 2) check.is(`Enter in the last field adds line ${i + 2}`, (await look()).rows.length, i + 2);
    }
    const seen = await look();
    check.is('README: the sheet', seen.sheet, README_SHEET);
    check.is('README: the report', seen.report, README_RUN.report);
    check.is('README: the verdict', [seen.word, seen.is, seen.but], ['COVERED', 'covered', '']);
    check.is('README: the sums', seen.sums, ['134.745 kg', '120.000 kg', '14.745 kg', 'to spare']);
    check.is('README: each line', seen.rows.map(row => row.holds),
        ['44.909 kg 665.3 kg/m³, supercritical', '44.813 kg 663.9 kg/m³, supercritical', '45.022 kg 667.0 kg/m³, supercritical']);
    check.is('README: nothing is marked', seen.rows.map(row => row.marked.length + row.told.length), [0, 0, 0]);
    check.is('README: the explanation', await run(() => document.getElementById('explanation').textContent), README_RUN.told.map(line => `${line}\n`).join(''));
    await until(async () => (await run(() =>
        document.getElementById('spoken').textContent)) === 'COVERED. Held 134.745 kg, needed 120.000 kg, 14.745 kg to spare.', 'the verdict to be spoken');
    check.ok('the verdict is spoken when the typing rests', true);
    await person.need('134.745886');
    check.is('not a milligram to spare', [(await look()).word, (await look()).sums], ['COVERED', ['134.745 kg', '134.746 kg', '0.000 kg', 'to spare']]);
    await person.need('134.745887');
    check.is('a milligram missing', [(await look()).word, (await look()).is, (await look()).sums],
        ['SHORT', 'short', ['134.745 kg', '134.746 kg', '0.001 kg', 'missing']]);
    check.is('a milligram missing: the report', lastOf((await look()).report), 'TOTAL 134745886 SHORT');
    check.is('the sign of SHORT', await signOf(person), [SIGNS.short, 'short']);
    await person.need('120');
    check.is('the sign of COVERED', await signOf(person), [SIGNS.covered, 'covered']);
    await person.need('');
    check.is('the sign of SENT BACK', await signOf(person), [SIGNS.back, 'back']);
    await person.need('x');
    check.is('the sign where there is no sheet', await signOf(person), [SIGNS.none, 'none']);
}

async function readings(person, check) {
    await person.fresh();
    const { look } = person;
    await person.need('45');
    await person.line(1, '7', '37.4', '104.987', 'gauge', '67.5');
    check.is('a gauge wants 1.013 bar, and 37.4 °C is 310.55 K', (await look()).sheet, 'N 45000000\nC 7 3105500 P 10600000 67500\n');
    await person.line(1, null, '-10', '1.013', 'bar');
    check.is('below 0', (await look()).sheet.split('\n')[1], 'C 7 2631500 P 101300 67500');
    await person.line(1, null, '', '45', 'weighed');
    let seen = await look();
    check.is('weighed: the sheet', seen.sheet.split('\n')[1], 'C 7 - W 45000 67500');
    check.is('weighed: what it holds', [seen.word, seen.rows[0].holds], ['COVERED', '45.000 kg weighed']);
    check.is('weighed: its temperature is not marked', seen.rows[0].marked, []);
    await person.field(1, 'celsius', '20');
    seen = await look();
    check.is('weighed: a temperature is written', seen.sheet.split('\n')[1], 'C 7 2931500 W 45000 67500');
    check.is('weighed: and it is said that it is not used', seen.rows[0].told, ['°C: Not used: a weighed cylinder needs no temperature.']);
    await person.field(1, 'reading', '');
    check.is('weighed: a blank reading', (await look()).sheet.split('\n')[1], 'C 7 2931500 W - 67500');
    await person.field(1, 'celsius', '');
    check.is('weighed: a blank reading is marked, and not the temperature', (await look()).rows[0].marked, ['reading']);
    await person.field(1, 'kind', '');
    check.is('neither reading nor kind', (await look()).sheet.split('\n')[1], 'C 7 - P - 67500');
    await person.field(1, 'reading', '57.3');
    seen = await look();
    check.is('a reading of no kind: no sheet', [seen.word, seen.sheet, seen.report, seen.rows[0].marked], ['NO SHEET YET', '', '', ['kind']]);
    check.has('a reading of no kind: what to do', seen.rows[0].described.kind, 'Say what was read');
    await person.field(1, 'kind', 'density');
    check.is('a density in g/m³', (await look()).sheet.split('\n')[1], 'C 7 - D 57300 67500');
}

async function blanks(person, check) {
    await person.fresh();
    const { look } = person;
    await person.need('30');
    await person.line(1, '1', '40', '106', 'bar', '67.5');
    check.is('whole', (await look()).word, 'COVERED');
    for (const [field, part, was] of [['number', 1, '1'], ['celsius', 2, '40'], ['reading', 4, '106'], ['litres', 5, '67.5']]) {
        await person.field(1, field, '');
        const seen = await look();
        check.is(`no ${field}: a blank and no 0`, seen.sheet.split('\n')[1].split(' ')[part], '-');
        check.is(`no ${field}: refused by 1`, seen.report, 'L 1 R 1\nSENT BACK 13\n');
        check.is(`no ${field}: it alone is marked`, seen.rows[0].marked, [field]);
        check.has(`no ${field}: what it says`, seen.rows[0].described[field], `Refused by 1. ${REFUSALS[1].says}. ${REFUSALS[1].todo} Blank: `);
        check.is(`no ${field}: the verdict`, [seen.word, seen.is, seen.sums], ['SENT BACK 13', 'back', null]);
        check.has(`no ${field}: the verdict says what to do`, seen.words, `${REFUSALS[13].says}. ${REFUSALS[13].todo}`);
        await person.field(1, field, was);
    }
    await person.field(1, 'celsius', '0');
    check.is('0 °C is a reading', (await look()).sheet.split('\n')[1].split(' ')[2], '2731500');
    await person.field(1, 'litres', '0');
    check.is('0 litres are not blank', [(await look()).sheet.split('\n')[1].split(' ')[5], (await look()).rows[0].holds], ['0', 'refused by 2']);
    await person.need('');
    check.is('no need', [(await look()).report, (await look()).needMarked], ['SENT BACK 12\n', true]);
    await person.need('0');
    check.is('a need of 0', [(await look()).sheet.split('\n')[0], (await look()).report], ['N 0', 'SENT BACK 12\n']);
}

const SLIPS = ['1e2', '4 0', 'x', '.', '0x10', '--1', '1.2.3', '1,2,3', '1.234,5', '-300', '40.00001', 'Infinity', 'NaN', '99999999999', '+5', '.5', '5.',
    '40°C', '4-0'];
async function slips(person, check) {
    await person.fresh();
    const { look, run } = person;
    await person.need('30');
    await person.line(1, '1', '40', '106', 'bar', '67.5');
    for (const slip of SLIPS) {
        await person.field(1, 'celsius', slip);
        const seen = await look();
        check.is(`${slip}: no sheet and no report`, [seen.word, seen.is, seen.sheet, seen.report, seen.sums], ['NO SHEET YET', 'none', '', '', null]);
        check.is(`${slip}: marked`, seen.rows[0].marked, ['celsius']);
        check.ok(`${slip}: what to do`, /^°C: .+\. .+\.$/.test(seen.rows[0].described.celsius) && seen.rows[0].shown);
        check.has(`${slip}: the verdict names the field`, seen.words, 'line 1, °C');
    }
    check.is('nothing to copy, save or print then',
        await run(() => [...document.querySelectorAll('[data-paper=sheet] button, [data-paper=report] button')].map(button => button.disabled)),
        Array(6).fill(true));
    check.is('no explanation then', await run(() => document.getElementById('explanation').textContent), '');
    await person.field(1, 'celsius', '40.0000');
    check.is('zeros behind', (await look()).word, 'COVERED');
    await person.field(1, 'number', '1.5');
    check.is('a number that is not whole', [(await look()).word, (await look()).rows[0].marked], ['NO SHEET YET', ['number']]);
    await person.field(1, 'number', '1');
    await person.need('30.0000001');
    check.is('seven decimals of the need', [(await look()).word, (await look()).needMarked], ['NO SHEET YET', true]);
    check.has('seven decimals: what to do', (await look()).needSays, 'Round it to 6 decimals');
    await person.need('30');
    check.is('mended', (await look()).word, 'COVERED');
}

async function commas(person, check) {
    await person.fresh();
    const { look } = person;
    await person.need('120');
    await person.lines(...README_LINES.map(line => line.map(text => text.replace('.', ','))));
    check.is('commas for decimals', [(await look()).sheet, (await look()).word], [README_SHEET, 'COVERED']);
    await person.field(2, 'litres', '67.5');
    let seen = await look();
    check.is('a comma and a point on one form: no sheet', [seen.word, seen.sheet], ['NO SHEET YET', '']);
    check.is('the later one is marked', seen.rows.map(row => row.marked), [[], ['litres'], []]);
    check.has('and told why', seen.rows[1].described.litres, 'A point here, and a comma in line 1, °C');
    await person.field(2, 'litres', '67,5');
    await person.field(3, 'reading', '1,200');
    seen = await look();
    check.is('1,200 is 1.2', seen.sheet.split('\n')[3], 'C 3 3146500 D 1200 67500');
    check.is('and it is said how it is read', seen.rows[2].described.reading, 'reading: Read as 1.2. If thousands are meant, write 1200.');
    check.is('which holds nothing up', seen.rows[2].marked, []);
    check.is('and is a doubt beside SHORT', [seen.word, seen.is, seen.but], ['SHORT', 'short', 'but 1 number may be meant for thousands (line 3, reading)']);
    await person.need('80,000');
    seen = await look();
    check.is('and beside COVERED', [seen.word, seen.is, seen.but],
        ['COVERED', 'doubt', 'but 2 numbers may be meant for thousands (need; line 3, reading)']);
    check.is('the need too: how it is read', seen.needSays, 'Read as 80. If thousands are meant, write 80000.');
    await spoken(person, /^COVERED\. but 2 numbers may be meant for thousands/);
    check.ok('and it is spoken', true);
    for (const number of ['1,200', '3,0', '1.200']) {
        await person.field(3, 'number', number);
        seen = await look();
        check.is(`${number} is no cylinder's number`, [seen.word, seen.rows[2].marked], ['NO SHEET YET', ['number']]);
    }
    await person.field(3, 'number', '3');
    await person.need('120');
    await person.field(3, 'reading', '667,0');
    check.is('without three digits nothing is said', (await look()).rows[2].told, []);
    await person.need('1.200,5');
    check.is('mixed in one number', [(await look()).word, (await look()).needMarked], ['NO SHEET YET', true]);
}

async function refusals(person, check) {
    await person.fresh();
    const { look } = person;
    await person.need('30');
    const cases = [
        [2, ['1', '40', '106', 'bar', '1000.001'], ['litres']], [4, ['1', '-60', '10', 'bar', '40'], ['celsius']],
            [5, ['1', '20', '301', 'bar', '40'], ['reading']],
        [5, ['1', '20', '1300.5', 'density', '40'], ['celsius', 'reading']], [6, ['1', '31', '75', 'bar', '40'], ['celsius', 'reading']],
        [8, ['1', '25', '500', 'density', '40'], ['celsius', 'reading']], [19, ['1', '-56.15', '50', 'bar', '40'], ['celsius', 'reading']],
        [23, ['1', '', '0', 'weighed', '40'], ['reading']],
    ];
    for (const [number, line, marked] of cases) {
        await person.line(1, ...line);
        const seen = await look(), { says, todo } = REFUSALS[number], name = `${number} by ${line[3]}`;
        check.is(`${name}: the report`, seen.report, `L 1 R ${number}\nSENT BACK 13\n`);
        check.is(`${name}: the line`, seen.rows[0].holds, `refused by ${number}`);
        check.is(`${name}: what is marked`, seen.rows[0].marked, marked);
        check.has(`${name}: the library's own words`, seen.rows[0].told[0], `Refused by ${number}. ${says}. ${todo}`);
        for (const field of marked) check.has(`${name}: the words belong to ${field}`, seen.rows[0].described[field], says);
        check.ok(`${name}: they are shown`, seen.rows[0].shown);
        check.is(`${name}: the verdict`, seen.word, 'SENT BACK 13');
    }
    await person.lines(['7', '40', '106', 'bar', '67.5'], ['8', '42', '112', 'bar', '67.5'], ['7', '42', '112', 'bar', '67.5']);
    let seen = await look();
    check.is('30: the report', seen.report.split('\n')[2], 'L 3 R 30');
    check.is('30: its number is marked', seen.rows.map(row => row.marked), [[], [], ['number']]);
    check.has('30: and the line named that it stands on', seen.rows[2].told[0], `${REFUSALS[30].todo} It stands in line 1.`);
    check.has('30: the verdict names its line', seen.words, 'Refused: line 3.');
    for (let n = 0; n < 3; n++) await person.press('tbody.cylinder .out');
    seen = await look();
    check.is('10', [seen.word, seen.sheet, seen.rows.length], ['SENT BACK 10', 'N 30000000\n', 0]);
    check.is('10: the list is told', seen.listSays, `${REFUSALS[10].says}. ${REFUSALS[10].todo}`);
    for (let n = 0; n < 33; n++) await person.press('#add');
    seen = await look();
    check.is('11', [seen.word, seen.report, seen.rows.length], ['SENT BACK 11', 'SENT BACK 11\n', 33]);
    check.is('11: the list is told', seen.listSays, `${REFUSALS[11].says}. ${REFUSALS[11].todo}`);
    await person.press('tbody.cylinder:nth-of-type(33) .out');
    check.is('32 lines', [(await look()).word, (await look()).listSays], ['SENT BACK 13', '']);
}

async function warnings(person, check) {
    await person.fresh();
    const { look, run } = person;
    const known = runOf('gauge_can_tell_nothing_explained');
    await person.need('180');
    await person.lines(...['1', '2', '3', '4'].map(number => [number, '20', '57.3', 'bar', '67.5']));
    let seen = await look();
    check.is('four gauges: the sheet', seen.sheet, known.sheet);
    check.is('four gauges: the report', seen.report, known.report);
    for (const place of [1, 2, 3, 4]) {
        check.is(`four gauges: the warnings of line ${place}`,
            seen.rows[place - 1].told.map(words => words.replace(/^⚠ /, '').replace(/ On this form.*$/, '')),
            warningsOf(known, place).map(sentence));
    }
    check.ok('four gauges: the warnings are shown', seen.rows.every(row => row.shown));
    check.is('four gauges: beside COVERED', [seen.word, seen.is, seen.but],
        ['COVERED', 'doubt', 'but 4 gauges can’t tell (lines 1–4), and 4 lines are above 750 kg/m³ (lines 1–4)']);
    check.is('four gauges: the sign', await signOf(person), [SIGNS.doubt, 'doubt']);
    // 13.108783 kg each where all is vapour (crosscheck/saturation.py)
    check.is('four gauges: what is held at least', await run(() => [document.getElementById('least').checkVisibility(),
        document.getElementById('least').textContent]), [true, 'at least 52.435 kg, if it is vapour alone where a gauge can’t tell']);
    check.ok('four gauges: each warning belongs to its reading', seen.rows.every(row => row.described.reading.includes("gauge can't tell")));
    await spoken(person, /^COVERED\. .*4 gauges can’t tell \(lines 1–4\), and 4 lines are above 750 kg\/m³ \(lines 1–4\)\. /);
    check.ok('four gauges: the doubt is spoken with the verdict', true);
    check.is('four gauges: the explanation', await run(() => document.getElementById('explanation').textContent), known.told.map(line => `${line}\n`).join(''));
    const LOOKS = () => { const { backgroundImage, borderTopStyle,
        borderTopColor } = getComputedStyle(document.getElementById('verdict')); return [backgroundImage === 'none', borderTopStyle, borderTopColor]; };
    const doubtful = await run(LOOKS);
    for (let n = 0; n < 3; n++) await person.press('tbody.cylinder:nth-of-type(2) .out');
    // 5729194.42 Pa is the vapour pressure at 20 °C (crosscheck/saturation.py): both ends are inside
    for (const [bar, warned] of [['59.29194', true], ['59.29195', false], ['55.29195', true], ['55.29194', false]]) {
        await person.field(1, 'reading', bar);
        check.is(`${bar} bar at 20 °C`, (await look()).rows[0].told.some(words => words.includes("gauge can't tell")), warned);
    }
    await person.need('30');
    await person.line(1, '1', '40', '106', 'bar', '67.5');
    const plain = await run(LOOKS);
    check.is('a plain COVERED', [(await look()).is, (await look()).but, await run(() => document.getElementById('least').checkVisibility())],
        ['covered', '', false]);
    check.ok('COVERED with a gauge that can’t tell looks otherwise, without its colour too',
        doubtful[0] !== plain[0] && doubtful[1] !== plain[1] && doubtful[2] !== plain[2]);
    await person.line(1, null, '25', '750', 'density', '40');
    check.is('750 kg/m³ is not above it', (await look()).rows[0].told, []);
    await person.field(1, 'reading', '750.001');
    check.is('a density above', (await look()).rows[0].told.slice(1),
        ['⚠ 750.0 kg/m3 is more than a cylinder is filled with (750 kg/m3). Check its volume and its reading.']);
    await person.line(1, null, '', '30', 'weighed', '40');
    check.is('weighed, 750 kg/m³', (await look()).rows[0].told, []);
    await person.field(1, 'reading', '30.001');
    seen = await look();
    check.is('weighed, a gram more', seen.rows[0].told.slice(1),
        ["⚠ 30.001 kg in 40.0 L is more than a cylinder is filled with (750 kg/m3). Check its volume, and that the empty cylinder's weight was taken off."]);
    check.is('and it is counted', [seen.is, seen.but], ['doubt',
        'but 1 line is above 750 kg/m³ (line 1), and 1 number may be meant for thousands (line 1, reading)']);
    await person.field(1, 'reading', '30.0010');
    seen = await look();
    check.is('and it alone, without three decimals', [seen.is, seen.but], ['doubt', 'but 1 line is above 750 kg/m³ (line 1)']);
    await person.need('300');
    await person.line(1, '1', '20', '57.3', 'bar', '67.5');
    await spoken(person, /^SHORT\. but 1 gauge can’t tell/i);
    check.ok('a doubt beside SHORT is spoken', true);
    check.is('beside SHORT too', [(await look()).word, (await look()).but],
        ['SHORT', 'but 1 gauge can’t tell (line 1), and 1 line is above 750 kg/m³ (line 1)']);
    await person.press('#add');
    check.is('beside SENT BACK too', [(await look()).word, (await look()).but],
        ['SENT BACK 13', 'and 1 gauge can’t tell (line 1), and 1 line is above 750 kg/m³ (line 1)']);
}

// Where each dot stands, from the labels of the axes: the temperature's are even, the pressure's in powers. 5729194 Pa is the vapour pressure at 20 °C.
async function onTheMap({ run }, check) {
    const map = await run(() => {
        const number = text => Number(text.textContent.replace('−', '-')), box = node => node.getBBox();
        return {
            celsius: [...document.querySelectorAll('#map .tick.middle')].map(text => [number(text), Number(text.getAttribute('x'))]),
            bar: [...document.querySelectorAll('#map .tick.end')].map(text => [number(text), Number(text.getAttribute('y')) - 4]),
            dots: [...document.querySelectorAll('#map .dot')].map(dot => ({ x: box(dot).x + box(dot).width / 2,
                y: dot.classList.contains('doubt') ? box(dot).y + 7 : box(dot).y + box(dot).height / 2 })),
        };
    });
    const between = (ticks, a, b, of, value) => {
        const [[u, from], [v, to]] = [ticks.find(([n]) => n === a), ticks.find(([n]) => n === b)];
        return from + (to - from) * (of(value) - of(u)) / (of(v) - of(u));
    };
    const x = celsius => between(map.celsius, 0, 80, Number, celsius), y = bar => between(map.bar, 10, 300, Math.log, bar);
    // 41.5 °C and 667 kg/m³ are 11109038 Pa (crosscheck/doors.py)
    const want = [[20, 57.3], [41.5, 111.09038]];
    check.is('the map: how many dots', map.dots.length, want.length);
    for (const [i, [celsius, bar]] of want.entries()) {
        const { x: across, y: down } = map.dots[i] || {};
        check.ok(`the map: the dot of ${celsius} °C and ${bar} bar`, Math.abs(across - x(celsius)) < 0.4 && Math.abs(down - y(bar)) < 0.4,
            ` ${across} ${down}, and not ${x(celsius)} ${y(bar)}`);
    }
    check.is('the map: the saturation line goes through 20 °C and 57.29 bar, and not 2 bar beside it', await run((x, ys) => ys.map(y =>
        document.querySelector('#map .line:not(.melting)').isPointInStroke(new DOMPoint(x, y))), x(20), [y(57.29194), y(54), y(61)]), [true, false, false]);
}

async function pictures(person, check) {
    await person.fresh();
    const { run } = person;
    await person.need('120');
    await person.lines(['7', '20', '57.3', 'bar', '67.5'], ['8', '', '45', 'weighed', '67.5'], ['9', '41.5', '667', 'density', '67.5'],
        ['10', '25', '500', 'density', '40'], ['11', '', '', '', '']);
    const bank = await run(() => ({ shapes: [...document.querySelectorAll('#fill svg')].map(svg => svg.getAttribute('class')),
        text: document.getElementById('fill').getAttribute('aria-label'),
        role: document.getElementById('fill').getAttribute('role'), crossed: document.querySelectorAll('#fill .cross').length,
            hatched: document.querySelectorAll('#fill [fill^=url]').length,
        levels: [...document.querySelectorAll('#fill .fill')].map(rect => rect.getBBox().height),
            tops: [...document.querySelectorAll('#fill .kg')].map(text => text.textContent) }));
    check.is('the bank: its cylinders', bank.shapes, ['cylinder answered', 'cylinder answered', 'cylinder answered', 'cylinder refused', 'cylinder refused']);
    check.is('the bank: what stands above each', bank.tops, ['52.205 kg', '45.000 kg', '45.022 kg', 'refused 8', 'refused 1']);
    check.is('the bank: refused ones are crossed', bank.crossed, 2);
    check.is('the bank: what can’t be told is hatched', bank.hatched, 2);
    const levels = [773.4, 45 / 67.5 * 1000, 667].map(density => density / 1000 * 112);
    check.ok('the bank: levels by kg over litres', bank.levels.length === 3 && bank.levels.every((level, i) => Math.abs(level - levels[i]) < 0.2));
    check.is('the bank: in words', [bank.role, bank.text],
        ['img', "The cylinders by fill. line 1, cylinder 7: 52.205 kg, 103 % of 750 kg/m³, liquid, but the gauge can't tell, more than a cylinder is "
        + 'filled with; line 2, cylinder 8: 45.000 kg, 89 % of 750 kg/m³, weighed; line 3, cylinder 9: 45.022 kg, 89 % of 750 kg/m³, supercritical; '
            + 'line 4, cylinder 10: refused by 8; '
        + 'line 5, cylinder 11: refused by 1.']);
    const map = await run(() => ({ names: [...document.querySelectorAll('#map .name')].map(text => text.textContent),
        off: document.getElementById('off-map').textContent,
        dots: [...document.querySelectorAll('#map .dot')].map(dot => dot.getAttribute('class')),
            text: document.getElementById('map').getAttribute('aria-label'),
        axes: [...document.querySelectorAll('#map .axis')].map(text => text.textContent), role: document.getElementById('map').getAttribute('role') }));
    check.is('the map: its dots', [map.names, map.dots], [['1', '3'], ['dot doubt', 'dot']]);
    check.is('the map: what is not on it', map.off, 'Weighed, and so not on the map: line 2. No temperature with a pressure yet: lines 4, 5.');
    check.is('the map: its axes', map.axes, ['temperature, °C', 'pressure, bar absolute']);
    check.ok('the map: in words', map.role === 'img'
        && /saturation line, the melting line and the critical box\. line 1 at 20\.0 °C and 57\.3 bar, answered, but the gauge can't tell, /.test(map.text)
        && map.text.includes('; line 3 at 41.5 °C'));
    await onTheMap(person, check);
    await person.need('');
    check.is('without a verdict they are hollow',
        await run(() => [...document.querySelectorAll('#fill svg')].map(svg => svg.getAttribute('class'))), Array(5).fill('cylinder unknown'));
    await person.need('x');
    check.is('without a sheet too', await run(() => [document.querySelectorAll('#fill svg.unknown').length, document.querySelectorAll('#fill .fill').length]),
        [5, 0]);
}

// What stands on paper, by each of the buttons, with a doubt in it: the text that is seen when print() is called, laid out for paper. As on a phone, print()
// comes back before the paper is made.
async function onPaper(person, check) {
    const { run, browser } = person;
    await person.need('180');
    await person.lines(...['1', '2', '3', '4'].map(number => [number, '20', '57.3', 'bar', '67.5']));
    const known = runOf('gauge_can_tell_nothing_explained');
    const file = path.join(person.folder, 'doubtful.txt');
    fs.writeFileSync(file, known.sheet.replace('180000000', '170000000'));
    await browser.file('#file', file);
    await until(() => run(() => document.getElementById('file-report').textContent !== ''), 'the report of a file');
    await browser.paper(true);
    const printed = async selector => {
        const [text, during] = await run(async selector => {
            let seen = null;
            window.print = () => { seen = document.body.innerText; };
            document.querySelector(selector).click();
            await new Promise(done => setTimeout(done, 50));
            return [seen, document.body.innerText];
        }, selector);
        check.ok(`${selector}: it stays so until the paper is made`, text !== null && during === text);
        await run(() => { dispatchEvent(new Event('afterprint')); });
        check.is(`${selector}: and no longer`, await run(() => document.body.dataset.print === undefined), true);
        return String(text);
    };
    const parts = { sheet: 'N 180000000', report: lastOf(known.report), doubt: '4 gauges can’t tell (lines 1–4)',
        warning: "cylinder 4: the gauge can't tell.", least: 'at least 52.435 kg', name: 'doubtful.txt', verdict: 'needed' };
    const on = text => Object.keys(parts).filter(part => text.includes(parts[part]));
    check.is('printed: the sheet alone', on(await printed('[data-paper=sheet] [data-do=print]')), ['sheet']);
    check.is('printed: the report alone, with its doubt', on(await printed('[data-paper=report] [data-do=print]')), ['report', 'doubt', 'warning', 'least']);
    check.is('printed: the file’s report alone, with its doubt and its name', on(await printed('[data-paper=file-report] [data-do=print]')),
        ['report', 'doubt', 'warning', 'least', 'name']);
    const all = await printed('#print-all');
    for (const part of ['sheet', 'report', 'doubt', 'least', 'name', 'verdict']) check.has(`printed: all, ${part}`, all, parts[part]);
    check.is('printed: all, the gauge’s warning in each of its lines', all.split("⚠ The gauge can't tell.").length - 1, 4);
    check.has('printed: all, the verdict', all, '⚠COVERED');
    await browser.paper(false);
}

async function papers(person, check) {
    await person.fresh();
    const { run, browser } = person;
    await person.need('120');
    await person.lines(...README_LINES);
    for (const [name, text] of [['sheet', README_SHEET], ['report', README_RUN.report]]) {
        await person.press(`[data-paper=${name}] [data-do=copy]`);
        await until(() => run(name => document.querySelector('[data-paper=' + name + '] .done').textContent !== '', name), 'the copy');
        check.is(`${name}: it is said that it is copied`, await run(name => document.querySelector('[data-paper=' + name + '] .done').textContent, name),
            'Copied.');
        check.is(`${name}: copied`, await run(() => navigator.clipboard.readText()), text);
        const file = path.join(person.folder, `${name}.txt`);
        fs.rmSync(file, { force: true });
        await person.press(`[data-paper=${name}] [data-do=save]`);
        await until(() => fs.existsSync(file) && fs.statSync(file).size > 0, `${file}`);
        check.is(`${name}: saved`, fs.readFileSync(file, 'latin1'), text);
    }
    await browser.paper(true);
    const PAPER = () => { const seen = selector => [...document.querySelectorAll(selector)].some(node => node.checkVisibility()),
        ink = getComputedStyle(document.body);
        return [seen('button'), seen('#tab-bank'), seen('#need'), seen('#verdict'), seen('#sheet'), seen('#report'), seen('#fill'), seen('#cylinders input'),
            seen('footer'), ink.color, ink.backgroundColor]; };
    const black = 'rgb(0, 0, 0)', white = 'rgb(255, 255, 255)';
    check.is('on paper: no buttons, all else, black on white', await run(PAPER), [false, false, true, true, true, true, true, true, true, black, white]);
    await browser.paper(false);
    await browser.scheme('dark');
    check.ok('in the dark on the screen', (await run(PAPER)).at(-1) !== white);
    await browser.paper(true);
    check.is('on paper in the dark too', (await run(PAPER)).slice(-2), [black, white]);
    await browser.paper(false);
    await browser.scheme('light');
    await onPaper(person, check);
    await browser.paper(false);
    await browser.pdf(path.join(person.shots, `${browser.name}-print.pdf`));
    check.ok('a PDF is made', fs.readFileSync(path.join(person.shots, `${browser.name}-print.pdf`), 'latin1').startsWith('%PDF-')
        && fs.statSync(path.join(person.shots, `${browser.name}-print.pdf`)).size > 10000);
}

async function files(person, check) {
    await person.fresh();
    const { run, browser, look } = person;
    await person.need('5');
    const before = await look();
    // a file's name with its bytes stands there when they were scored, and each file here has another of the two
    const shown = () => run(() => [...['name', 'word', 'report', 'explanation', 'words', 'but'].map(id => document.getElementById(`file-${id}`).textContent),
        document.getElementById('file-verdict').dataset.is]);
    const written = (text, name) => {
        const file = path.join(person.folder, name);
        fs.writeFileSync(file, text, 'latin1');
        return file;
    };
    const told = async (text, name) => {
        await browser.file('#file', written(text, name));
        await until(async () => (await shown())[0] === `${name}, ${text.length} bytes`, `the report of ${name}`);
        return shown();
    };
    for (const name of ['sheet_of_the_readme_explained', 'gauge_can_tell_nothing_explained', 'copied_line_explained', 'weighed_in_part_explained',
        'winter_explained', 'cr_lf_explained', 'no_last_lf_explained']) {
        const known = runOf(name), [, word, report, explanation, , , is] = await told(known.sheet, `${name}.txt`);
        check.is(`${name}: the report`, report, known.report);
        check.is(`${name}: the explanation`, explanation, known.told.map(line => `${line}\n`).join(''));
        const end = lastOf(known.report);
        const doubtful = /Gauges that can't tell|Lines above 750/.test(lastOf(known.told.join('\n')));
        const want = end.startsWith('SENT') ? 'back' : end.endsWith('SHORT') ? 'short' : doubtful ? 'doubt' : 'covered';
        check.is(`${name}: the verdict and its colours`, [word, is], [`${SIGNS[want]} ${end.startsWith('TOTAL') ? end.split(' ')[2] : end}`, want]);
    }
    const long = `N 10\n${'C 1 1 P 1 1\n'.repeat(5461)}`;
    let [name, word, report, explanation, words, but, is] = await told(long, 'long.txt');
    check.is('over 65,536 bytes', [name, report, lastOf(explanation)], ['long.txt, 65537 bytes', 'SENT BACK 14\n', 'The text has more than 65,536 bytes.']);
    [name, word, report] = await told(`${long}${long}`, 'long.txt');
    check.is('twice as long', [name, report], ['long.txt, 131074 bytes', 'SENT BACK 14\n']);
    [name, word, report, explanation, words] = await told(README_SHEET.replace('120000000', '12.5'), 'a.txt');
    check.is('a slip in the file', [word, lastOf(explanation)],
        ['↩ SENT BACK 14', 'Line 1, column 5: a digit or LF is expected, and there is \'.\'. Every number is whole: scorer --help shows the units.']);
    check.has('a slip in the file: what to do', words, `${REFUSALS[14].says}. ${REFUSALS[14].todo}`);
    [name, word, report] = await told(README_SHEET, 'a.txt');
    check.is('the same file, mended', [word, report], ['✓ COVERED', README_RUN.report]);
    await spoken(person, /^a\.txt, \d+ bytes: COVERED\. Held 134\.745 kg/);
    check.ok('a file’s verdict is spoken', true);
    const gauges = runOf('gauge_can_tell_nothing_explained').sheet;
    [name, word, report, explanation, words, but, is] = await told(gauges, 'gauges.txt');
    check.is('a file with gauges that can’t tell', [word, is, but, words], ['⚠ COVERED', 'doubt',
        'but 4 gauges can’t tell (lines 1–4), and 4 lines are above 750 kg/m³ (lines 1–4)',
        'Held 208.823 kg, needed 180.000 kg, 28.823 kg to spare. At least 52.435 kg, if it is vapour alone where a gauge can’t tell.']);
    await spoken(person, /^gauges\.txt, \d+ bytes: COVERED\. but 4 gauges can’t tell/);
    check.ok('a file’s doubt is spoken', true);
    check.is('a file’s doubt is seen', await run(() => document.getElementById('file-but').checkVisibility()), true);

    // A file that is slow to be read: nothing of the one before stands under its name, and what comes of it late isn't shown under the next one's
    await run(() => {
        const { arrayBuffer } = Blob.prototype;
        window.letGo = () => {};
        Blob.prototype.arrayBuffer = async function () {
            const bytes = await arrayBuffer.call(this);
            if (window.slow) await new Promise(done => { window.letGo = done; });
            if (window.bad) throw new Error('planted');
            return bytes;
        };
        window.slow = true;
    });
    const nothing = ([, word, report, explanation, words, but, is]) => /COVERED|SHORT|SENT BACK/.test(word) || `${report}${explanation}${words}${but}` !== ''
        || ['covered', 'short', 'back', 'doubt'].includes(is) ? [word, report, explanation, words, but, is] : 'nothing';
    await browser.file('#file', written(README_SHEET, 'slow.txt'));
    await until(async () => (await shown())[0].startsWith('slow.txt'), 'the name of a slow file');
    check.is('while a file is read, nothing is said of another', nothing(await shown()), 'nothing');
    check.is('nor is anything to be copied, saved or printed', await run(() => [...document.querySelectorAll('[data-paper=file-report] button')]
        .map(button => button.disabled)), [true, true, true]);
    const short = README_SHEET.replace('120000000', '200000000');
    await run(() => { window.slow = false; });
    const quick = await told(short, 'quick.txt');
    check.is('a quick one after it', [quick[1], quick[6]], ['✗ SHORT', 'short']);
    await run(() => { window.letGo(); });
    await sleep(1200);
    check.is('the slow one comes too late', await shown(), quick);
    check.ok('and is not spoken', await run(() => document.getElementById('spoken').textContent.startsWith('quick.txt')));
    await run(() => { window.bad = true; });
    await browser.file('#file', written(README_SHEET, 'bad.txt'));
    await until(async () => (await shown())[1].includes('NOT READ'), 'a file that can’t be read');
    const unread = await shown();
    check.is('a file that can’t be read', [unread[0], unread[2], unread[3], unread[5], unread[6]], ['bad.txt', '', '', '', 'none']);
    check.is('the form is as it was', await look(), before);
}

// What is kept in another shape is not filled in; then all is as it was
async function otherShapes({ run, fresh, look }, check) {
    await run(() => document.activeElement.blur()); // a field that is left is kept once more
    const [key, text] = await run(() => [localStorage.key(0), localStorage.getItem(localStorage.key(0))]), form = JSON.parse(text);
    const row = form.rows[0], shapes = ['x', '', null, 5, [], {}, { ...form, need: 5 }, { ...form, need: null }, { ...form, rows: {} },
        { ...form, rows: [null] }, { ...form, rows: [{ ...row, litres: 67.5 }] }, { ...form, rows: [row, { number: '1' }] },
        { ...form, rows: [{ ...row, kind: 'constructor' }] }];
    for (const shape of shapes) {
        const stored = shape === 'x' || shape === '' ? shape : JSON.stringify(shape);
        await run((key, stored) => localStorage.setItem(key, stored), key, stored);
        await fresh();
        check.is(`kept as ${stored}: nothing is filled in, and it is erased`, [(await look()).sheet, (await look()).rows.length,
            ...await run(() => [document.getElementById('need').value, document.getElementById('keep').checked, localStorage.length])],
        ['N -\nC - - P - -\n', 1, '', false, 0]);
        check.has(`kept as ${stored}: it is said`, await run(() => document.getElementById('keep-says').textContent), 'damaged or of another form');
    }
    await run((key, text) => localStorage.setItem(key, text), key, text);
}

async function kept(person, check) {
    await person.fresh();
    const { run, look, browser } = person;
    const size = () => run(() => localStorage.length);
    await person.need('120');
    await person.lines(README_LINES[0]);
    check.is('typed, and nothing stored', await run(STORED), '0 0 0 0');
    await person.fresh();
    check.is('and nothing is there after opening it anew', (await look()).rows[0].values.concat((await look()).sheet),
        ['', '', '', '', '', 'N -\nC - - P - -\n']);
    check.is('not ticked', await run(() => document.getElementById('keep').checked), false);
    await person.need('120');
    await person.focus('#keep');
    await browser.press('Space');
    check.is('ticked: stored', await size(), 1);
    check.has('ticked: it is said', await run(() => document.getElementById('keep-says').textContent), 'Kept in this browser');
    await person.lines(README_LINES[0]);
    await otherShapes(person, check);
    await person.fresh();
    check.is('kept', [(await look()).rows[0].values, (await look()).sheet.split('\n')[0], await run(() => document.getElementById('keep').checked)],
        [['1', '40.0', '106', 'bar', '67.5'], 'N 120000000', true]);
    const says = () => run(() => [document.getElementById('keep').checked, document.getElementById('keep-says').textContent.split(':')[0],
        localStorage.length]);
    await run(() => { window.setItem = Storage.prototype.setItem; Storage.prototype.setItem = () => { throw new Error('planted'); }; });
    await person.need('122');
    check.is('no room: it is said, and no older form stays', await says(), [false, 'Not kept', 0]);
    await run(() => { Storage.prototype.setItem = window.setItem; });
    await person.focus('#keep');
    await browser.press('Space');
    check.is('ticked again', await says(), [true, 'Kept in this browser on this device, and nowhere else, until this is unticked.', 1]);
    await run(() => {
        const key = localStorage.key(0);
        localStorage.removeItem(key);
        dispatchEvent(new StorageEvent('storage', { key, newValue: null, storageArea: localStorage }));
    });
    await person.need('123');
    check.is('erased in another tab: it is not kept anew', await says(), [false, 'Not kept any more', 0]);
    await person.focus('#keep');
    await browser.press('Space');
    check.is('and ticked once more', await size(), 1);
    await person.focus('#keep');
    await browser.press('Space');
    check.is('unticked: erased', await size(), 0);
    await person.need('121');
    check.is('and it stays so', await size(), 0);
    await person.fresh();
    check.is('and is gone', [(await look()).sheet, await run(() => document.getElementById('keep').checked)], ['N -\nC - - P - -\n', false]);
}

async function rowsOfIt(person, check) {
    await person.fresh();
    const { look, run, browser } = person;
    const active = () => run(() => document.activeElement.id || document.activeElement.className);
    await person.line(1, '1', '40', '106', 'bar', '67.5');
    await browser.press('Enter');
    check.is('Enter in the last field: a new line, and its number next', [(await look()).rows.length, (await active()).endsWith('-number')], [2, true]);
    check.is('nothing is filled in', (await look()).rows[1].values, ['', '', '', '', '']);
    check.ok('the litres above are offered',
        await run(() => document.querySelectorAll('.above')[1].checkVisibility() && !document.querySelectorAll('.above')[0].checkVisibility()));
    await person.press('tbody.cylinder:nth-of-type(2) .above');
    check.is('the litres above, when asked', (await look()).rows[1].values, ['', '', '', '', '67.5']);
    check.ok('and no more offered', await run(() => !document.querySelectorAll('.above')[1].checkVisibility()));
    await person.press('tbody.cylinder:nth-of-type(1) .out');
    check.is('a line taken out', [(await look()).rows.length, (await look()).rows[0].values[4],
        await run(() => document.querySelector('tbody.cylinder .line').textContent)], [1, '67.5', 'Line 1']);
    check.ok('the next is at hand', (await active()).endsWith('-number'));
    await person.write(person.at(1, 'celsius'), '5');
    await run(() => document.querySelector('.turn').click());
    check.is('± puts a minus in front', (await look()).sheet.split('\n')[1].split(' ')[2], '2681500');
    await run(() => document.querySelector('.turn').click());
    check.is('and takes it away', (await look()).sheet.split('\n')[1].split(' ')[2], '2781500');
    await person.press('#put-back');
    check.is('the line that was taken out is put back', [(await look()).rows.map(row => row.values),
        await run(() => document.getElementById('put-back').checkVisibility())], [[['1', '40', '106', 'bar', '67.5'], ['', '5', '', '', '67.5']], false]);
    check.is('and scored', (await look()).sheet, 'N -\nC 1 3131500 P 10600000 67500\nC - 2781500 P - 67500\n');
    await person.press('#clear');
    check.is('to clear is asked once', (await look()).rows[0].values[4], '67.5');
    await person.press('#clear');
    check.is('a second press that comes at once is part of the first', (await look()).rows[0].values[4], '67.5');
    await sleep(800);
    await person.press('#clear');
    check.is('and then done', [(await look()).sheet, await active()], ['N -\nC - - P - -\n', 'need']);
    await run(() => {
        document.getElementById('need').value = '77';
        document.getElementById('need').dispatchEvent(new Event('change', { bubbles: true }));
    });
    check.is('what a browser fills in is scored', (await look()).sheet.split('\n')[0], 'N 77000000');
    await run(() => {
        document.getElementById('need').value = '78';
        dispatchEvent(new Event('pageshow'));
    });
    check.is('and what it restores', (await look()).sheet.split('\n')[0], 'N 78000000');
    // the order of all that the keyboard reaches
    await person.need('30');
    await person.line(1, '1', '40', '106', 'bar', '67.5');
    await person.focus('#tab-bank');
    const order = [];
    for (let n = 0; n < 22; n++) {
        await browser.tab();
        order.push(await run(() => { const at = document.activeElement, paper = at.closest('[data-paper]');
            return at.id.replace(/^r\d+-/, '') || (at.dataset.do ? paper.dataset.paper + ' ' + at.dataset.do : at.className || at.tagName.toLowerCase()); }));
    }
    check.is('the order of Tab', order, ['need', 'number', 'celsius', 'reading', 'kind', 'litres', 'out', 'add', 'print-all', 'clear', 'keep', 'summary',
        'sheet', 'sheet copy', 'sheet save',
        'sheet print', 'report', 'report copy', 'report save', 'report print', 'summary', 'file']);
    await person.focus('#need');
    await browser.tab();
    const ring = await run(() => { const { outlineStyle, outlineWidth } = getComputedStyle(document.activeElement); return [outlineStyle,
        parseFloat(outlineWidth) >= 2]; });
    check.is('the focus is seen', ring, ['solid', true]);
}

const FIGURES = ['temperature', 'pressure', 'density', 'energy', 'enthalpy', 'cv', 'cp', 'sound', 'fallen', 'conductivity'];
// crosscheck/doors.py and crosscheck/saturation.py
const STATES = [
    ['40', 1, '100', 1, 'supercritical', '313.15 9999999.999998312 628.6115619691137 -209645.71499766415 -193737.63979670298 1029.1449182858912 '
        + '5657.461544994221 269.8904143957669 0 0.07364741627787458', true],
    ['220', 2, '10', 2, 'liquid', '220 9999999.999958968 1185.6331781025817 -425771.12971451576 -417336.81783403823 980.6079822843375 '
        + '1903.8566121372955 1003.1488475466792 16 0.18058269470436242', false],
    ['-20', 1, '2500000', 3, 'liquid', '253.15 2499999.999970936 1034.08653913196 -354847.17139183165 -352429.57875778625 934.6810522400227 '
        + '2151.180907521025 713.2079238716198 5 0.13375899330170526', false],
    ['300', 2, '128.4', 4, 'vapour', '300 5000041.592016222 128.4 -99772.20393209446 -60831.07003788712 852.582275508323 '
        + '1802.5510938333791 223.2487520074233 0 0.02353634366010718', true],
];
async function states(person, check) {
    await person.fresh();
    const { run, browser } = person;
    await person.focus('#tab-bank');
    await browser.press('ArrowRight');
    check.is('by an arrow to the second view',
        await run(() => [document.activeElement.id, document.getElementById('state').checkVisibility(), document.getElementById('bank').checkVisibility()]),
        ['tab-state', true, false]);
    const seen = () => run(() => ({ word: document.getElementById('phase').textContent, words: document.getElementById('state-words').textContent,
        figures: [...document.querySelectorAll('#figures tr')].map(row => [row.dataset.figure, row.children[1].textContent]),
            units: [...document.querySelectorAll('#figures tr')].map(row => row.children[2].textContent),
        saturated: [...document.querySelectorAll('#saturated tr')].map(row => row.children[1].textContent),
            none: document.getElementById('saturation-says').textContent,
        caveat: document.getElementById('caveat').textContent, said: ['temperature-says', 'other-says'].map(id => document.getElementById(id).textContent),
        marked: ['temperature', 'temperature-unit', 'other',
            'other-unit'].filter(id => document.getElementById(id).getAttribute('aria-invalid') === 'true') }));
    const nothing = Array(10).fill('–');
    let now = await seen();
    check.is('nothing for blanks', [now.word, now.figures.map(([, value]) => value), now.saturated], ['NO STATE YET', nothing, ['–', '–', '–']]);
    check.is('the figures and their units', [now.figures.map(([name]) => name), now.units],
        [FIGURES, ['K', 'Pa', 'kg/m³', 'J/kg', 'J/kg', 'J/(kg K)', 'J/(kg K)', 'm/s', 'of 42', 'W/(m K)']]);
    await person.write('#temperature', '40');
    now = await seen();
    check.is('no unit is guessed', [now.word, now.marked, now.said[0]], ['NO STATE YET', ['temperature-unit'], 'Say in what: °C or K.']);
    const ask = async (t, unit, x, other) => {
        await person.write('#temperature', t);
        await person.choose('#temperature-unit', unit);
        await person.write('#other', x);
        await person.choose('#other-unit', other);
        return seen();
    };
    for (const [t, unit, x, other, phase, figures, warned] of STATES) {
        now = await ask(t, unit, x, other);
        check.is(`${t} and ${x}: the state`, [now.word, now.figures.map(([, value]) => value).join(' ')], [phase, figures]);
        check.is(`${t} and ${x}: whether the conductivity is vouched for`, now.caveat.startsWith('The conductivity is not vouched for here. From 21 to 41 °C'),
            warned);
        check.has(`${t} and ${x}: its margin`, now.caveat, '1 % for liquid from −49 to 26 °C, and at 3 % for vapour');
    }
    for (const [x, other] of [['25', 1], ['2.5', 2], ['2500000', 3], ['2500000.0', 3]]) {
        check.is(`${x} in unit ${other} is 2500000 Pa`, (await ask('-20', 1, x, other)).words, 'At 253.15 K and 2500000 Pa.');
    }
    now = await ask('20', 1, '57.3', 1);
    check.is('saturation at 20 °C', now.saturated, ['5729194.424293311', '194.20420359600897', '773.3921890872848']);
    now = await ask('40', 1, '100', 1);
    check.is('none at 40 °C', [now.saturated, now.none], [['–', '–', '–'], `None: ${REFUSALS[4].says}.`]);
    for (const [t, x, other, number, marked] of [['300', '100', 1, 4, ['temperature']], ['20', '301', 1, 5, ['other']],
        ['31', '75', 1, 6, ['temperature', 'other']], ['25', '500', 4, 8, ['temperature', 'other']],
        ['-56.15', '50', 1, 19, ['temperature', 'other']]]) {
        now = await ask(t, 1, x, other);
        check.is(`a state refused by ${number}`, [now.word, now.figures.map(([, value]) => value), now.marked], [`refused by ${number}`, nothing, marked]);
        check.has(`a state refused by ${number}: its words`, now.words, `${REFUSALS[number].says}. ${REFUSALS[number].todo}`);
    }
    await until(() => run(() => /^refused by 19\. Solid: dry ice/.test(document.getElementById('spoken').textContent)), 'the state to be spoken');
    check.ok('a state is spoken when the typing rests', true);
    now = await ask('20', 1, '', 1);
    check.is('a blank pressure', [now.word, now.words, now.figures.map(([, value]) => value)], ['NO STATE YET', 'Blank: the pressure or density.', nothing]);
    now = await ask('', 1, '57.3', 1);
    check.is('a blank temperature', [now.word, now.words, now.none], ['NO STATE YET', 'Blank: the temperature.', 'No temperature yet.']);
    now = await ask('2x', 1, '57.3', 1);
    check.is('a slip', [now.word, now.marked], ['NO STATE YET', ['temperature']]);
    now = await ask('20,5', 1, '57.3', 1);
    check.is('a comma and a point', [now.word, now.marked], ['NO STATE YET', ['other']]);
    now = await ask('20', 1, '1,200', 3);
    check.has('how thousands are read', now.said[1], 'Read as 1.2.');
    await person.focus('#tab-state');
    await browser.press('ArrowLeft');
    check.is('and back by an arrow', await run(() => [document.getElementById('state').checkVisibility(), document.getElementById('bank').checkVisibility()]),
        [false, true]);
}

// the doubt in the bar that stays in sight, beside COVERED
async function inTheBar(person, check) {
    const { run, look } = person, before = (await look()).rows.map(row => row.values);
    await person.need('20');
    await person.lines(before[0], before[0].with(0, '8'), before[2], before[2].with(0, '10'), before[2].with(0, '11'));
    await person.focus(person.at(3, 'reading'));
    check.is('360 px: the doubt stays in sight beside COVERED', [(await look()).word, ...await run(() => {
        const { top, bottom, left, right, height } = document.getElementById('but').getBoundingClientRect(), bar = document.getElementById('verdict');
        const above = document.elementFromPoint((left + right) / 2, (top + bottom) / 2);
        return [document.getElementById('but').checkVisibility(), height > 10 && top >= 0 && bottom <= innerHeight && left >= 0 && right <= innerWidth,
            bar.contains(above), document.getElementById('but').innerText.replace(/\s+/g, ' ')];
    })], ['COVERED', true, true, true, 'but 2 gauges can’t tell, and 2 lines are above 750 kg/m³']);
    await person.need('180');
    await person.lines(...before);
}

async function narrow(person, check) {
    const { run, browser } = person;
    await browser.size(360, 740, true);
    await person.fresh();
    await person.need('180');
    await person.lines(['7', '20', '57.3', 'bar', '67.5'], ['8', '31', '75', 'bar', '67.5'], ['9', '', '45', 'weighed', '67.5'],
        ['10', '-56,15', '50', 'bar', '40'], ['11', '', '', '', '']);
    const wide = () => run(() => [document.documentElement.scrollWidth <= document.documentElement.clientWidth,
        document.body.scrollWidth <= document.documentElement.clientWidth]);
    check.is('360 px: no sideways scrolling', await wide(), [true, true]);
    await person.field(4, 'celsius', '-56.15');
    await run(() => document.querySelectorAll('details').forEach(details => { details.open = true; }));
    check.is('360 px, all opened: no sideways scrolling', await wide(), [true, true]);
    await person.focus(person.at(3, 'reading'));
    const inSight = await run(() => { const { top, bottom,
        height } = document.getElementById('verdict').getBoundingClientRect(); return [top >= -1 && bottom <= innerHeight, height <= innerHeight / 4]; });
    check.is('360 px: the verdict stays in sight while one types, and leaves room', inSight, [true, true]);
    await inTheBar(person, check);
    check.is('360 px: each cylinder is a group by its line',
        await run(() => [...document.querySelectorAll('tbody.cylinder')].map(body => [body.getAttribute('role'),
        document.getElementById(body.getAttribute('aria-labelledby')).textContent].join(' '))),
        [1, 2, 3, 4, 5].map(n => `group Line ${n}`));
    check.is('360 px: labels are seen', await run(() =>
        [...document.querySelectorAll('#cylinders label')].every(label => label.getBoundingClientRect().height > 10)), true);
    const small = () => run(() => [...document.querySelectorAll('button, input, select, summary, .keep')].filter(node => node.checkVisibility()
        && node.id !== 'keep')
        .filter(node => { const { width, height } = node.getBoundingClientRect(); return width < 43.9 || height < 43.9; }).map(node => node.id
            || node.className));
    check.is('360 px: what is touched has 44 px', await small(), []);
    await run(() => document.getElementById('tab-state').click());
    await person.write('#temperature', '40');
    await person.choose('#temperature-unit', 1);
    await person.write('#other', '100');
    await person.choose('#other-unit', 1);
    check.is('360 px, a state: no sideways scrolling', await wide(), [true, true]);
    check.is('360 px, a state: 44 px', await small(), []);
    await browser.size(320, 600, true);
    check.is('320 px: no sideways scrolling', await wide(), [true, true]);
    await browser.size(1200, 900);
    await person.fresh();
    check.is('1200 px: a table', await run(() => [document.getElementById('cylinders').getAttribute('role'),
        document.querySelector('tbody.cylinder').getAttribute('role'), document.querySelectorAll('#cylinders thead th[scope=col]').length,
        document.querySelectorAll('#cylinders th[scope=row]').length]), [null, null, 8, 1]);
    check.is('1200 px: no sideways scrolling', await wide(), [true, true]);
}

// the browser may take the other scheme a while after it was told
async function inScheme({ run, browser }, name) {
    await browser.scheme(name);
    await until(() => run(name => matchMedia(`(prefers-color-scheme: ${name})`).matches, name), `the page to be ${name}`);
}

async function named(person, check) {
    await person.fresh();
    const { run } = person;
    await person.press('#add');
    const NAMELESS = () => [...document.querySelectorAll('input, select, button, [role=img], [role=region], table, section')].filter(node => {
        const by = (node.getAttribute('aria-labelledby') || '').split(' ').filter(Boolean).map(id => document.getElementById(id)
            ? document.getElementById(id).textContent : '').join('');
        const words = node.getAttribute('aria-label') || by || [...(node.labels || [])].map(label => label.textContent).join('')
            || (node.caption ? node.caption.textContent : '')
            || (node.tagName === 'BUTTON' ? node.textContent : '');
        return words.trim() === '' || words.trim() === '×';
    }).map(node => node.outerHTML.slice(0, 80));
    check.is('everything has a name', await run(NAMELESS), []);
    check.is('each field has a label', await run(() =>
        [...document.querySelectorAll('#form input, #form select')].filter(field => field.labels.length !== 1).length), 0);
    check.is('labels say their line', await run(() => [...document.querySelectorAll('tbody.cylinder:nth-of-type(2) label')].map(label => label.textContent)),
        ['line 2, number', 'line 2, °C', 'line 2, reading', 'line 2, of what', 'line 2, litres']);
    check.is('no id twice', await run(() => { const ids = [...document.querySelectorAll('[id]')].map(node =>
        node.id); return ids.length - new Set(ids).size; }), 0);
    check.is('what is referred to is there',
        await run(() => [...document.querySelectorAll('[aria-describedby], [aria-labelledby], [aria-controls], label[for]')].flatMap(node =>
        ['aria-describedby', 'aria-labelledby', 'aria-controls',
            'for'].flatMap(name => (node.getAttribute(name) || '').split(' ')).filter(Boolean)).filter(id => !document.getElementById(id))), []);
    check.is('no field takes numbers alone', await run(() => [...document.querySelectorAll('input')].filter(input => input.type === 'number').length), 0);
    check.is('decimal keys', await run(() =>
        [...document.querySelectorAll('#need, .celsius input, .reading input, .litres input, #temperature, #other')].every(input =>
        input.inputMode === 'decimal' && input.type === 'text')), true);
    check.is('the verdict is spoken politely, in one place',
        await run(() => [...document.querySelectorAll('[aria-live]')].map(node => node.id + ' ' + node.getAttribute('aria-live'))), ['spoken polite']);
    check.is('its language', await run(() => document.documentElement.lang), 'en');
    for (const scheme of ['light', 'dark']) {
        await inScheme(person, scheme);
        for (const { pair, ratio, least } of await contrastsOf(run)) check.ok(`${scheme}: ${pair} ${ratio.toFixed(2)}, at least ${least}`, ratio >= least);
    }
    const [dark] = await run(() => [getComputedStyle(document.body).backgroundColor]);
    await inScheme(person, 'light');
    check.ok('dark and light are two', dark !== await run(() => getComputedStyle(document.body).backgroundColor));
}

// One function of the library that answers otherwise, in what an empty form does not ask
const OTHERWISE = {
    report: '(text, n, to, room) => { const length = was(text, n, to, room); if (bytes()[to] === 76) bytes()[to + 6] ^= 1; return length; }',
    state_from_pressure: '(t, p, to, n) => { const answer = was(t, p, to, n); if (t === 313.15) bytes()[to + 72] ^= 1; return answer; }',
    state_from_density: '(t, rho, to, n) => { const answer = was(t, rho, to, n); if (t === 300) bytes()[to + 56] ^= 1; return answer; }',
    saturation: '(t, to, n) => { const answer = was(t, to, n); if (t === 293.15) bytes()[to + 16] ^= 1; return answer; }',
    words: '(number, to, n) => { const length = was(number, to, n); if (number === 19) bytes()[to] ^= 32; return length; }',
    version: '() => was() + 1',
};
async function otherAnswers(person, check, html, made, shut) {
    for (const [name, change] of Object.entries(OTHERWISE)) {
        await person.fresh(made(name, tampered(html, `const was = exports.makhroeng_${name}; exports.makhroeng_${name} = ${change};`)));
        await shut(`a library with another ${name}`, /does not answer as it is known to/);
    }
    await person.fresh(made('same', tampered(html, 'exports.makhroeng_version = exports.makhroeng_version;')));
    check.is('a page made so, with nothing changed, is usable', (await person.look()).word, 'SENT BACK 12');
}

// What fails once the page is in use: no answer stays, and none is given any more
async function trapped(person, check, html, made, shut) {
    const { run, browser, look } = person;
    const trap = name => `const was_${name} = exports.makhroeng_${name}; exports.makhroeng_${name} = (...words) => {
        if (window.trap) throw new WebAssembly.RuntimeError('unreachable');
        return was_${name}(...words); };`;
    const page = made('trap', tampered(html, trap('report') + trap('state_from_pressure')
        + `const was = exports.makhroeng_report; exports.makhroeng_report = (text, n, to, room) => {
            const length = was(text, n, to, room), said = String.fromCharCode(...bytes().subarray(to, to + Number(length)));
            const other = window.otherwise ? window.otherwise(said) : said;
            bytes().set([...other].map(letter => letter.charCodeAt(0)), to);
            return BigInt(other.length); };`));
    const covered = async () => {
        await person.fresh(page);
        await person.need('120');
        await person.lines(...README_LINES);
        check.is('before it fails', (await look()).word, 'COVERED');
        await spoken(person, /^COVERED/);
    };
    const nothing = async name => {
        await shut(name, /./);
        await sleep(1000);
        const text = await run(() => document.body.innerText + document.getElementById('spoken').textContent);
        check.is(`${name}: no old answer is left`, /COVERED|SHORT|TOTAL|SENT BACK|134\.745/.exec(text), null);
        await browser.paper(true);
        check.ok(`${name}: nor on paper`, !/COVERED|SHORT|TOTAL|SENT BACK|134\.745/.test(await run(() => document.body.innerText)));
        await browser.paper(false);
    };
    await covered();
    await run(() => { window.trap = true; });
    await person.write('#need', '');
    await nothing('a trap');
    for (const [name, other] of [['a total that is not the sum', 'said => said.replace("TOTAL 134", "TOTAL 234")'],
        ['a mass that is not the state’s', 'said => said.replace("L 1 M 44909480", "L 1 M 54909480").replace("TOTAL 134", "TOTAL 144")'],
        ['COVERED that is none', 'said => said.replace("SHORT", "COVERED")'], ['SHORT that is none', 'said => said.replace("COVERED", "SHORT")'],
        ['a line too few', 'said => said.replace(/^L 3.*\\n/m, "")'], ['sent back without a refusal', 'said => said.replace(/TOTAL.*/, "SENT BACK 13")']]) {
        await covered();
        await run(`() => { window.otherwise = ${other}; }`);
        await person.write('#need', name.startsWith('COVERED') ? '900' : '12');
        await nothing(name);
    }
    await covered();
    await run(() => { document.createElementNS = () => { throw new Error('planted'); }; });
    await person.write('#need', '12');
    await nothing('a fault while the pictures are painted');
    await covered();
    await run(() => { window.trap = true; });
    const file = path.join(person.folder, 'trap.txt');
    fs.writeFileSync(file, README_SHEET);
    await browser.file('#file', file);
    await until(() => run(() => document.getElementById('unusable').checkVisibility()), 'a trap by a file').catch(() => {});
    await nothing('a trap by a file');
    await covered();
    await run(() => document.getElementById('tab-state').click());
    await person.write('#temperature', '40');
    await person.choose('#temperature-unit', 1);
    await person.write('#other', '100');
    await run(() => { window.trap = true; });
    await person.choose('#other-unit', 1);
    await nothing('a trap by a state');
}

// Pages that must not be used, each made of the one that is tried
async function unusable(person, check) {
    const { run, browser } = person;
    const html = fs.readFileSync(new URL(person.url), 'utf8');
    const made = (name, text) => {
        const file = path.join(person.folder, `${name}.html`);
        fs.writeFileSync(file, text);
        return `file://${file}`;
    };
    const shut = async (name, words) => {
        await until(() => run(() => document.readyState === 'complete' && document.getElementById('unusable') !== null), name);
        const now = await run(() => ({ said: document.getElementById('unusable').checkVisibility(), words: document.getElementById('unusable').textContent,
            verdict: document.getElementById('verdict').checkVisibility(),
            form: document.getElementById('need').checkVisibility(), tabs: document.getElementById('tab-state').checkVisibility(),
                sheet: document.getElementById('sheet').textContent }));
        check.is(`${name}: no verdict, no form, no view`, [now.said, now.verdict, now.form, now.tabs, now.sheet], [true, false, false, false, '']);
        check.ok(`${name}: it is said`, now.words.includes('NOT USABLE HERE') && words.test(now.words));
    };
    const base64 = libraryOf(html), library = Buffer.from(base64, 'base64');
    // one bit of a constant, wherever it stands in the library
    for (const constant of [188.9241, 216.592, 304.1282]) {
        const other = Buffer.from(library), bytes = Buffer.from(new Float64Array([constant]).buffer);
        let times = 0;
        for (let place = library.indexOf(bytes); place >= 0; place = library.indexOf(bytes, place + 1)) {
            other[place] ^= 1;
            times++;
        }
        check.ok(`${constant} stands in the library`, times > 0);
        const changed = html.replace(base64, () => other.toString('base64'));
        await person.fresh(made('other', sealed(changed)));
        await shut(`a bit of ${constant}`, /does not answer as it is known to/);
        await browser.go(made('unsealed', changed));
        await shut(`a bit of ${constant}, and the policy as it was`, /has not started/);
    }
    await person.fresh(made('cut', sealed(html.replace(base64, () => library.subarray(0, 30000).toString('base64')))));
    await shut('a library cut short', /./);
    await person.fresh(made('version', html.replace(/<meta name="version" content="[^"]*">/, '<meta name="version" content="9.9.9">')));
    await shut('another version', /of version .*, and the page was built for 9\.9\.9/);
    await browser.go(made('policy', html.replace(/script-src 'sha256-.{10}/, '$&AAAAAAAAAA').replace(/(script-src 'sha256-.{10})AAAAAAAAAA.{10}/,
        '$1AAAAAAAAAA')));
    await shut('a script that the policy doesn’t take', /has not started/);
    await otherAnswers(person, check, html, made, shut);
    await trapped(person, check, html, made, shut);
    await browser.withoutWasm(true);
    await person.fresh();
    await shut('no WebAssembly', /WebAssembly/);
    await browser.withoutWasm(false);
    if (browser.withoutScript) {
        await browser.withoutScript(true);
        await browser.go(person.url);
        let text = '';
        await until(async () => (text = await browser.text()).includes('not yet'), 'the page without scripts');
        await browser.withoutScript(false);
        check.ok('no scripts: it is said', /NOT USABLE HERE/.test(text) && /Scripts are switched off here/.test(text));
        check.ok('no scripts: no verdict and no form', !/COVERED|SENT BACK|The dryer needs/.test(text));
    }
    await person.fresh();
    check.is('and the page itself is usable', await run(() => document.getElementById('verdict').checkVisibility()), true);
    await quiet(browser, check, true); // those above had to complain
}

// after all of it
async function after(person, check) {
    const { run } = person;
    await person.fresh();
    await person.need('120');
    await person.lines(...README_LINES);
    await person.need('x');
    await run(() => document.getElementById('tab-state').click());
    await person.write('#temperature', '40');
    check.is('in the end nothing is stored', await run(STORED), '0 0 0 0');
}

export const PATHS = [['the start', start], ['by keys', byKeys], ['readings', readings], ['blanks', blanks], ['slips', slips], ['commas', commas],
    ['refusals', refusals], ['warnings', warnings],
    ['pictures', pictures], ['papers', papers], ['files', files], ['what is kept', kept], ['lines', rowsOfIt], ['states', states], ['a narrow screen', narrow],
        ['names and colours', named],
    ['unusable', unusable], ['after all', after]];
