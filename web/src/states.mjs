// The second view: a temperature with a pressure or a density to the state's figures.
import { Slip, double, isBlank, mayBeThousands, separator } from './decimals.mjs';
import { readAs } from './sheet.mjs';
import { byId, element, mark, options, speak, turnSign } from './dom.mjs';

// decimals.mjs: (typed × 10^places + more) / 10^over, in K, Pa or kg/m³, by one rounding
const TEMPERATURES = {
    celsius: { says: '°C', places: 4, more: 2731500n, over: 4 },
    kelvin: { says: 'K', places: 0, more: 0n, over: 0 },
};
const OTHERS = {
    bar: { says: 'bar absolute', door: 'P', places: 5, more: 0n, over: 0 },
    megapascal: { says: 'MPa', door: 'P', places: 6, more: 0n, over: 0 },
    pascal: { says: 'Pa', door: 'P', places: 0, more: 0n, over: 0 },
    density: { says: 'kg/m³', door: 'D', places: 0, more: 0n, over: 0 },
};
const FIGURES = [
    ['temperature', 'temperature', 'K'], ['pressure', 'pressure, as worked', 'Pa'], ['density', 'density', 'kg/m³'], ['energy', 'internal energy', 'J/kg'],
    ['enthalpy', 'enthalpy', 'J/kg'], ['cv', 'heat capacity at constant volume', 'J/(kg K)'], ['cp', 'heat capacity at constant pressure', 'J/(kg K)'],
    ['sound', 'speed of sound', 'm/s'], ['fallen', 'terms that fell away', 'of 42'], ['conductivity', 'thermal conductivity', 'W/(m K)'],
];
const SATURATED = [['pressure', 'vapour pressure', 'Pa'], ['vapour', 'saturated vapour', 'kg/m³'], ['liquid', 'saturated liquid', 'kg/m³']];

// README, "For the trace heating": from 21 to 41 °C, both ends inside, the correlation's authors don't vouch for it, nor within 10 K of 304.1282 K
export const isVouchedFor = t => t < 294.1282 || t > 314.15;

// form: { temperature, temperatureUnit, other, otherUnit }, as typed and chosen. { door, t, x, marks, notes }: t and x are null for a blank, and for
// what is marked.
export function questionOf(form) {
    const marks = [], notes = [];
    const read = (field, typed, scale, choose) => {
        if (!scale) {
            if (!isBlank(typed)) marks.push({ field, unit: true, words: choose });
            return null;
        }
        try {
            const x = double(typed, scale.places, scale.more, scale.over);
            if (mayBeThousands(typed)) notes.push({ field, words: readAs(typed) });
            return x;
        } catch (slip) {
            if (!(slip instanceof Slip)) throw slip;
            marks.push({ field, words: slip.message });
            return null;
        }
    };
    const t = read('temperature', form.temperature, TEMPERATURES[form.temperatureUnit], 'Say in what: °C or K.');
    const other = OTHERS[form.otherUnit];
    const x = read('other', form.other, other, 'Say what it is: bar absolute, MPa, Pa or kg/m³.');
    if (separator(form.temperature) && separator(form.other) && separator(form.temperature) !== separator(form.other)) {
        marks.push({ field: 'other', words: 'There are a comma and a point in the two fields. Use one of the two, for decimals alone.' });
    }
    return { door: other ? other.door : null, t, x: marks.length ? null : x, marks, notes };
}

// A double as the shortest decimal that reads back to it, which is what String gives
const rows = (names, figures) => names.map(([key, says, unit]) => element('tr', { 'data-figure': key },
    element('th', { scope: 'row' }, says), element('td', { class: 'value' }, figures ? String(figures[key]) : '–'), element('td', {}, unit)));

function caveat(t) {
    const known = element('p', {}, 'The conductivity is the correlation of Huber, Sykioti, Assael and Perkins (2016). Its authors put their full model at '
        + '1 % for liquid from −49 to 26 °C, and at 3 % for vapour and above the critical temperature; this library works their simpler critical '
        + 'enhancement, which they give to about 5 % of that part, and only more than 10 K away from the critical point.');
    if (t === null || isVouchedFor(t)) return [known];
    return [element('p', { class: 'warning' }, element('b', {}, 'The conductivity is not vouched for here.'),
        ' From 21 to 41 °C its authors don’t vouch for it: it stays '
        + 'finite at the critical point (31 °C, 74 bar), where the real one doesn’t. At 36.85 °C and 400 kg/m³ it is 4 % above their full model.'), known];
}

function paintFields({ marks, notes }) {
    for (const field of ['temperature', 'other']) {
        const found = marks.filter(one => one.field === field), said = found.concat(notes.filter(one => one.field === field));
        byId(`${field}-says`).textContent = said.map(one => one.words).join(' ');
        byId(`${field}-says`).classList.toggle('fault', found.length > 0);
        mark(byId(field), found.some(one => !one.unit) ? 'slip' : null, [`${field}-says`]);
        mark(byId(`${field}-unit`), found.some(one => one.unit) ? 'slip' : null, [`${field}-says`]);
    }
}
// RULES 3.1: what a door's refusal speaks of
const SPOKEN_OF = { 3: ['temperature', 'other'], 4: ['temperature'], 5: ['other'] };

function answer(library, question) {
    if (question.marks.length) return { is: 'none', word: 'NO STATE YET', words: 'Mend what is marked.' };
    if (question.t === null || question.x === null) {
        const blank = [question.t === null ? 'the temperature' : '', question.x === null ? 'the pressure or density' : ''].filter(Boolean).join(' and ');
        return { is: 'wait', word: 'NO STATE YET', words: `Blank: ${blank}.` };
    }
    const state = library.state(question.door, question.t, question.x);
    const many = question.notes.length;
    const asked = `At ${question.t} K and ${question.x} ${question.door === 'P' ? 'Pa' : 'kg/m³'}.`
        + (many ? ` But ${many === 1 ? '1 number' : `${many} numbers`} may be meant for thousands.` : '');
    if (state.figures) return { is: 'state', word: state.phase, words: asked, figures: state.figures };
    const { says, todo } = library.words(state.refused);
    return { is: 'back', word: `refused by ${state.refused}`, words: `${says}. ${todo} ${asked}`, refused: state.refused };
}

function paint(library) {
    const question = questionOf({
        temperature: byId('temperature').value, temperatureUnit: byId('temperature-unit').value, other: byId('other').value,
            otherUnit: byId('other-unit').value,
    });
    const said = answer(library, question);
    paintFields(question);
    for (const field of said.refused ? SPOKEN_OF[said.refused] || ['temperature', 'other'] : []) mark(byId(field), 'refused', ['state-words', `${field}-says`]);
    byId('state-verdict').dataset.is = said.is;
    byId('phase').textContent = said.word;
    byId('state-words').textContent = said.words;
    byId('figures').replaceChildren(...rows(FIGURES, said.figures));
    byId('caveat').replaceChildren(...caveat(said.figures ? question.t : null));
    const saturation = question.t === null || question.marks.length ? null : library.saturation(question.t);
    byId('saturated').replaceChildren(...rows(SATURATED, saturation && saturation.figures));
    byId('saturation-says').textContent = question.marks.length ? 'Mend what is marked.' : saturation === null ? 'No temperature yet.' : saturation.figures ? ''
        : `None: ${library.words(saturation.refused).says}.`;
}

// `guarded` makes of a function one whose fault shuts the page; what is handed back paints the view anew
export function openStates(library, guarded) {
    const says = scales => Object.fromEntries(Object.entries(scales).map(([key, { says: words }]) => [key, words]));
    options(byId('temperature-unit'), says(TEMPERATURES));
    options(byId('other-unit'), says(OTHERS));
    byId('turn').addEventListener('click', () => turnSign(byId('temperature')));
    const repaint = guarded(() => paint(library));
    const answered = guarded(() => {
        paint(library);
        speak(`${byId('phase').textContent}. ${byId('state-words').textContent}`);
    });
    byId('asked').addEventListener('input', answered);
    byId('asked').addEventListener('change', answered);
    byId('asked').addEventListener('submit', event => event.preventDefault());
    repaint();
    return repaint;
}
