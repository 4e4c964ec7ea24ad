// The browsers that are here, each by the same few functions, and a person before the page: keys are pressed, and nothing is set behind the page's back.
//
// A browser has: name, version; go(url), run(function's text, ..arguments), type(text), press(key), tab(back), selectAll(), size(width, height, mobile),
// scheme(light or dark), paper(is), withoutWasm(is), file(selector, path), picture(path, whole), pdf(path), complaints(), asked(), close().
import { accessSync, constants } from 'node:fs';
import { openChromium } from './chromium.mjs';
import { openFirefox } from './firefox.mjs';

const BROWSERS = [
    { name: 'Chromium', programs: ['chromium', 'chromium-browser', 'google-chrome'], open: openChromium, get: 'apt install chromium' },
    { name: 'Firefox', programs: ['firefox-esr', 'firefox'], open: openFirefox, get: 'apt install firefox-esr' },
];
const isThere = path => {
    try {
        accessSync(path, constants.X_OK);
        return true;
    } catch {
        return false;
    }
};
const onPath = name => (process.env.PATH || '').split(':').map(folder => `${folder}/${name}`).find(isThere);
// [{ name, program or undefined, open, get }]
export const browsers = () => BROWSERS.map(browser => ({ ...browser, program: browser.programs.map(onPath).find(Boolean) }));

export const sleep = ms => new Promise(done => setTimeout(done, ms));
export async function until(holds, what) {
    for (let i = 0; i < 100; i++) {
        if (await holds()) return;
        await sleep(50);
    }
    throw new Error(`in vain waited for ${what}`);
}

// all that the page shows, as one object
const LOOK = `() => {
    const text = id => document.getElementById(id).textContent, seen = id => document.getElementById(id).checkVisibility();
    return {
        word: text('word'), is: document.getElementById('verdict').dataset.is, but: seen('but') ? text('but') : '', words: seen('words') ? text('words') : '',
        sums: seen('sums') ? ['held', 'needed', 'margin', 'margin-is'].map(text) : null, sheet: text('sheet'), report: text('report'),
        needMarked: document.getElementById('need').getAttribute('aria-invalid') === 'true', needSays: text('need-says'), listSays: text('list-says'),
        rows: [...document.querySelectorAll('tbody.cylinder')].map(body => {
            const fields = [...body.querySelectorAll('input, select')], name = field => field.id.split('-')[1];
            return {
                holds: [...body.querySelector('.holds').children].map(child => child.textContent).join(' '),
                told: [...body.querySelectorAll('.told p')].map(p => p.textContent), shown: body.querySelector('.told').checkVisibility(),
                marked: fields.filter(field => field.getAttribute('aria-invalid') === 'true').map(name),
                described: Object.fromEntries(fields.map(field => [name(field), (field.getAttribute('aria-describedby') || '').split(' ').filter(Boolean)
                    .map(id => document.getElementById(id) ? document.getElementById(id).textContent : 'NOTHING').join(' ')])),
                values: fields.map(field => field.value),
            };
        }),
    };
}`;
const KINDS = ['', 'bar', 'gauge', 'density', 'weighed'];
const FIELDS = ['number', 'celsius', 'reading', 'kind', 'litres'];

// a person before the page of this browser
export function personAt(browser, url) {
    const { run } = browser;
    const focus = selector => run(`selector => { const found = document.querySelector(selector); found.focus(); found.scrollIntoView({ block: 'center' }); }`,
        selector);
    const at = (row, name) => `tbody.cylinder:nth-of-type(${row}) .fields > .${name} > :is(input, select)`;
    const person = {
        browser, url, run, at, focus,
        look: () => run(LOOK),
        // opens the page anew, until it has tried its library
        fresh: async (to = url) => {
            await browser.go(to);
            await until(() => run("() => document.readyState === 'complete' && (document.getElementById('tried').textContent !== 'not yet')"),
                `${to} to start`);
        },
        // what stands in a field is replaced, key by key
        write: async (selector, text) => {
            await focus(selector);
            await browser.selectAll();
            await browser.press('Delete');
            if (text !== '') await browser.type(text);
        },
        choose: async (selector, place) => {
            await focus(selector);
            await browser.press('Home');
            for (let i = 0; i < place; i++) await browser.press('ArrowDown');
        },
        press: async selector => {
            await focus(selector);
            await browser.press('Enter');
        },
        need: text => person.write('#need', text),
        field: (row, name, text) => name === 'kind' ? person.choose(at(row, name), KINDS.indexOf(text)) : person.write(at(row, name), text),
        // a whole line: number, °C, reading, kind, litres; null leaves one as it is
        line: async (row, ...texts) => {
            for (const [i, name] of FIELDS.entries()) if (texts[i] !== null && texts[i] !== undefined) await person.field(row, name, texts[i]);
        },
        lines: async (...lines) => {
            for (let n = (await person.look()).rows.length; n < lines.length; n++) await person.press('#add');
            for (const [i, line] of lines.entries()) await person.line(i + 1, ...line);
        },
    };
    return person;
}
