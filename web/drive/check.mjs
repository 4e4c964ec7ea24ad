// web/check: the page in every browser that is here. node web/drive/check.mjs [--faults] [--only NAME] [--path NAME] [--page FILE] [--shots], in the
// repository's root
import fs from 'node:fs';
import os from 'node:os';
import path from 'node:path';
import { browsers, personAt } from './driver.mjs';
import { FAULTS, plant } from './faults.mjs';
import { listenTo, quiet } from './heard.mjs';
import { PATHS } from './paths.mjs';
import { showShots, takeShots } from './shots.mjs';
import { withoutBrowser } from './nobrowser.mjs';

const SHOTS = 'target/web/shots';

// counts, and says what failed; where `first` is given, it throws there
function counter(title, first = false) {
    const check = {
        passed: 0, failed: 0, path: '',
        ok(what, holds, more = '') {
            if (holds) return void check.passed++;
            check.failed++;
            if (first) throw new Error(`${check.path}: ${what}`);
            console.log(`FAILED: ${title}, ${check.path}: ${what}${more}`);
        },
        is: (what, got, want) => check.ok(what, JSON.stringify(got) === JSON.stringify(want),
            `\n    got  ${JSON.stringify(got)}\n    want ${JSON.stringify(want)}`),
        has: (what, text, part) => check.ok(what, String(text).includes(part), `\n    got  ${JSON.stringify(text)}\n    want ${JSON.stringify(part)} in it`),
    };
    return check;
}

async function withBrowser(found, page, use) {
    const folder = fs.mkdtempSync(path.join(os.tmpdir(), 'makhroeng-'));
    const browser = await found.open(found.program, folder);
    try {
        await browser.size(1200, 900);
        await browser.scheme('light');
        listenTo(browser);
        const person = Object.assign(personAt(browser, `file://${path.resolve(page)}`), { folder, shots: SHOTS });
        return await use(person, browser);
    } finally {
        await browser.close();
        fs.rmSync(folder, { recursive: true, force: true, maxRetries: 5, retryDelay: 200 });
    }
}

async function take([name, go], person, check) {
    check.path = name;
    await go(person, check);
    await quiet(person.browser, check);
}
async function walk(person, check, paths) {
    for (const path of paths) {
        try {
            await take(path, person, check);
        } catch (fault) {
            check.ok(`it came to an end: ${fault.message}`, false);
        }
    }
}

async function checkAll(here, page, only) {
    const total = { passed: 0, failed: 0 };
    const add = (title, check) => {
        console.log(`${title}: ${check.passed} passed, ${check.failed} failed`);
        total.passed += check.passed;
        total.failed += check.failed;
    };
    if (!only && paths === PATHS) {
        const check = counter('Node');
        check.path = 'without a browser';
        await withoutBrowser(fs.readFileSync(page, 'utf8'), check);
        add(`without a browser, in Node ${process.version}`, check);
    }
    for (const found of here) {
        const check = counter(found.name), began = Date.now();
        let version = found.name;
        await withBrowser(found, page, async (person, browser) => {
            version = browser.version;
            await walk(person, check, paths);
            check.path = 'pictures taken';
            if (paths === PATHS) await takeShots(person);
        });
        add(`${found.name} (${version}), ${Math.round((Date.now() - began) / 1000)} s`, check);
    }
    if (words.includes('--shots')) showShots(SHOTS, here[0].name, 'web/shots');
    console.log(`pictures and printed pages: ${SHOTS}`);
    console.log(`${total.passed} passed, ${total.failed} failed`);
    return total.failed;
}

// What the first check says that fails, or null; the paths that should find it are taken first
async function foundBy(person, check, first = []) {
    for (const path of [...PATHS.filter(([name]) => first.includes(name)), ...PATHS.filter(([name]) => !first.includes(name))]) {
        try {
            await take(path, person, check);
        } catch (said) {
            return said.message;
        }
    }
    return null;
}
// Each fault planted alone in the page: what finds it is said, and one that nothing finds is a failure
async function checkFaults(here, page, only) {
    const html = fs.readFileSync(page, 'utf8'), folder = fs.mkdtempSync(path.join(os.tmpdir(), 'makhroeng-'));
    let found = 0, missed = 0;
    for (const fault of FAULTS.filter(({ name, by }) => !only || name.includes(only) || by.includes(only))) {
        const file = path.join(folder, 'fault.html');
        fs.writeFileSync(file, plant(html, fault));
        const check = counter(fault.name, true), by = await withBrowser(here[0], file, person => foundBy(person, check, fault.by));
        if (by === null) missed++; else found++;
        console.log(by === null ? `NOT FOUND: ${fault.name}` : `found: ${fault.name}\n    by ${by.split('\n')[0]}`);
    }
    fs.rmSync(folder, { recursive: true, force: true });
    console.log(`${here[0].name}: ${found + missed} faults planted, ${found} found, ${missed} not found`);
    return missed;
}

const words = process.argv.slice(2);
const valueOf = name => words.includes(name) ? words[words.indexOf(name) + 1] : undefined;
const only = valueOf('--only'), page = valueOf('--page') || 'web/index.html';
const one = valueOf('--path'), paths = one === undefined ? PATHS : PATHS.filter(([name]) => one.split(',').includes(name));
fs.mkdirSync(SHOTS, { recursive: true });
const all = browsers();
for (const { name, program, get } of all) if (!program) console.error(`web/check: ${name} is not here, and is passed over (Debian: ${get})`);
const here = all.filter(({ program, name }) => program && (words.includes('--faults') || !only || name.toLowerCase() === only.toLowerCase()));
if (here.length === 0) {
    console.error('web/check: no browser is here (Debian: apt install chromium firefox-esr)');
    process.exit(2);
}
process.exitCode = await (words.includes('--faults') ? checkFaults : checkAll)(here, page, only) ? 1 : 0;
