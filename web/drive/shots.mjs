// Pictures of the page, for those who look at it: target/web/shots/BROWSER-NAME.png, and some of them for README, web/shots/NAME.png
import fs from 'node:fs';
import path from 'node:path';
import { sleep } from './driver.mjs';
import { smaller } from './png.mjs';

const README_LINES = [['1', '40.0', '106', 'bar', '67.5'], ['2', '42.0', '112', 'bar', '67.5'], ['3', '41.5', '667', 'density', '67.5']];
const DOUBT = [['7', '20', '57.3', 'bar', '67.5'], ['8', '42', '112', 'bar', '67.5'], ['9', '', '45', 'weighed', '67.5'],
    ['10', '41.5', '667', 'density', '67.5']];
const BACK = [['1', '40', '106', 'bar', '67.5'], ['2', '31', '74', 'bar', '67.5'], ['2', '42', '112', 'bar', '67.5'], ['4', '', '', '', '']];
const NO_SHEET = [['1', '40.0', '106', 'bar', '67.5'], ['2', '42,0', '112', '', '67.5'], ['3', '41.5', '667', 'density', '1.200']];

export async function takeShots(person) {
    const { browser, run } = person;
    const shot = async (name, whole) => {
        await run(() => document.activeElement.blur());
        await sleep(250);
        await browser.picture(path.join(person.shots, `${browser.name}-${name}.png`), whole);
    };
    const bank = async (need, lines) => {
        await person.fresh();
        await person.need(need);
        await person.lines(...lines);
        await run(() => scrollTo(0, 0));
    };
    const state = async () => {
        await run(() => document.getElementById('tab-state').click());
        await person.write('#temperature', '-20');
        await person.choose('#temperature-unit', 1);
        await person.write('#other', '25');
        await person.choose('#other-unit', 1);
        await run(() => scrollTo(0, 0));
    };
    for (const scheme of ['light', 'dark']) {
        await browser.scheme(scheme);
        await browser.size(1200, 900);
        await bank('120', README_LINES);
        await shot(`covered-${scheme}`);
        await bank('150', DOUBT);
        await shot(`doubt-${scheme}`);
        await browser.size(1200, 620);
        await run(() => document.querySelector('.below').scrollIntoView());
        await shot(`map-${scheme}`);
        await browser.size(1200, 900);
        await bank('120', BACK);
        await shot(`sent-back-${scheme}`);
        await state();
        await shot(`state-${scheme}`);
        await browser.size(360, 740, true);
        await bank('120', README_LINES);
        await shot(`narrow-${scheme}`);
        await bank('150', DOUBT);
        await run(() => document.querySelector('tbody.cylinder').scrollIntoView());
        await shot(`narrow-doubt-${scheme}`);
        await run(() => document.querySelector('.glance').scrollIntoView());
        await shot(`narrow-pictures-${scheme}`);
    }
    await browser.scheme('light');
    await browser.size(1200, 900);
    await bank('120', NO_SHEET);
    await shot('no-sheet-light');
    await bank('200', README_LINES);
    await shot('short-light');
}

const SHOWN = ['doubt-light', 'covered-light', 'sent-back-dark', 'no-sheet-light', 'map-light', 'state-light', 'narrow-light', 'narrow-doubt-dark'];
export function showShots(from, browser, to) {
    fs.mkdirSync(to, { recursive: true });
    for (const name of SHOWN) fs.writeFileSync(path.join(to, `${name}.png`), smaller(fs.readFileSync(path.join(from, `${browser}-${name}.png`))));
}
