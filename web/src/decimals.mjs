// A typed decimal to the sheet's whole number, by its digits: strings and BigInt, never a float.
//
// A number is digits 0 to 9 with at most one decimal point or comma, which has a digit on either side, and a minus in front where it is below 0. Spaces
// about it are dropped. An empty field, or a minus alone, is a blank and no number: null. Anything else is a Slip, which is thrown, so that
// nobody can take it for a number or for a blank.

// What each field is written in on the sheet (README, "A sheet"; RULES 6.4): typed × 10^places + more. `over` is the power of ten by which the
// sheet's number is divided for a door, whose units are K, Pa and kg/m3; `letter` is that of a reading.
export const SCALES = {
    need: { unit: 'kg', places: 6, more: 0n },
    number: { unit: '', places: 0, more: 0n },
    celsius: { unit: '°C', places: 4, more: 2731500n, over: 4 },
    bar: { unit: 'bar absolute', places: 5, more: 0n, over: 0, letter: 'P' },
    gauge: { unit: 'bar by a gauge', places: 5, more: 101300n, over: 0, letter: 'P' },
    density: { unit: 'kg/m³', places: 3, more: 0n, over: 3, letter: 'D' },
    weighed: { unit: 'kg weighed', places: 3, more: 0n, letter: 'W' },
    litres: { unit: 'L', places: 3, more: 0n },
};

const LONGEST = 1000; // signs that are looked at: some of the forms below take the square of them
const MOST = 9999999999n; // RULES 6.2: a number of the sheet has at most ten digits

// What is wrong with what was typed, and what to do. `kind` is a word for each, for tests.
export class Slip extends Error {
    constructor(kind, says, todo) {
        super(`${says}. ${todo}`);
        this.name = 'Slip';
        this.kind = kind;
        this.says = says;
        this.todo = todo;
    }
}

const ENDS = /^[ \t\u00a0\u202f]+|[ \t\u00a0\u202f]+$/g;
const DIGITS_ALONE = 'Type the number with the digits 0 to 9 alone';

// In this order; the first that holds is what is said.
const SLIPS = [
    [/^[-+]?[0-9.,]+[eE][-+]?[0-9]+$/, 'exponent', 'The number has an exponent', 'Write it out.'],
    [/(?![0-9])\p{Nd}/u, 'alphabet', 'There is a digit of another alphabet', `${DIGITS_ALONE}.`],
    [/^\+/, 'plus', 'A plus stands in front', 'Leave it out.'],
    [/[^-0-9.,\s]/, 'sign', 'There is something else than a number', `${DIGITS_ALONE}, and leave the unit out.`],
    [/\s/, 'space', 'There is a space in the number', 'Take it out: one number is typed in a field.'],
    [/.-/, 'minus', 'A minus stands elsewhere than in front', 'Type one number, with a minus in front where it is below 0.'],
    [/\..*,|,.*\./, 'mixed', 'There are a point and a comma', 'Type one decimal point or comma, and nothing between thousands.'],
    [/[.,].*[.,]/, 'separators', 'There are two decimal points or commas', 'Type one, and nothing between thousands.'],
    [/^-?[.,]|[.,]$/, 'bare', 'A digit is missing beside the decimal point or comma', 'Type it: 0.5 or 5.0, not .5 or 5.'],
];

// [below 0, the digits before the separator, those behind it but for zeros at their end], or null for a blank
function parts(typed) {
    if (typeof typed !== 'string') throw new TypeError('what is typed is a string');
    if (typed.length > LONGEST) throw new Slip('long', 'There are more than 1,000 signs in the field', 'Type one number.');
    const text = typed.replace(ENDS, '').replace(/^[\u2212\u2013]/, '-');
    if (text === '' || text === '-') return null;
    for (const [form, kind, says, todo] of SLIPS) if (form.test(text)) throw new Slip(kind, says, todo);
    const [, minus, front, behind = ''] = /^(-?)([0-9]+)(?:[.,]([0-9]+))?$/.exec(text);
    return [minus === '-', front, behind.replace(/0+$/, '')];
}

// Nothing, or a minus alone
export function isBlank(typed) {
    try {
        return parts(typed) === null;
    } catch (fault) {
        if (fault instanceof Slip) return false;
        throw fault;
    }
}

// Digits that stand for a whole number of 10^-places, as BigInt
function scaled([below, front, behind], places) {
    const n = BigInt(front + behind.padEnd(places, '0'));
    return below ? -n : n;
}

// The sheet's whole number, typed × 10^places + more; null for a blank; a Slip is thrown where the sheet can't have it exactly.
export function whole(typed, places, more) {
    const read = parts(typed);
    if (read === null) return null;
    // 1.200 may be meant for twelve hundred, and no zero behind makes it a cylinder's number
    if (places === 0 && separator(typed) !== '') throw new Slip('decimals', 'The number is not whole', 'Type a whole number.');
    if (read[2].length > places) {
        throw new Slip('decimals', `There are more than ${places} decimals, and the sheet has no place for them`, `Round it to ${places} decimals.`);
    }
    const n = scaled(read, places) + more;
    if (n < 0n) throw new Slip('below', 'The number is too low: on the sheet it would be below 0', 'Check it and its unit. What was not read stays empty.');
    if (n > MOST) throw new Slip('over', 'The number is too high: on the sheet it would have more than ten digits', 'Check it and its unit.');
    return n;
}

// (typed × 10^places + more) / 10^over, as exact decimal text; null for a blank. Any number of decimals is read.
export function exact(typed, places, more, over) {
    const read = parts(typed);
    if (read === null) return null;
    const point = Math.max(read[2].length, places) - places + over;
    const n = scaled(read, Math.max(read[2].length, places)) + more * 10n ** BigInt(point - over);
    const digits = (n < 0n ? -n : n).toString().padStart(point + 1, '0');
    const front = digits.slice(0, digits.length - point), behind = digits.slice(digits.length - point).replace(/0+$/, '');
    return (n < 0n ? '-' : '') + front + (behind === '' ? '' : '.' + behind);
}

// The double nearest to that, by one rounding: Number of a decimal text rounds correctly. For a door; null for a blank.
export function double(typed, places, more, over) {
    const text = exact(typed, places, more, over);
    if (text === null) return null;
    const x = Number(text);
    if (!Number.isFinite(x)) throw new Slip('over', 'The number is too high', 'Check it and its unit.');
    return x;
}

// The decimal separator that is typed: '.', ',' or '' where there is none or no one. A form refuses a comma in one field and a point in another.
export function separator(typed) {
    const found = new Set(typed.match(/[.,]/g));
    return found.size === 1 ? [...found][0] : '';
}

// Whether a separator may have been meant to part thousands: 1,200 is read as 1.2, and a form that shows what it read should show it here.
export function mayBeThousands(typed) {
    return /^[-\u2212\u2013]?[1-9][0-9]{0,2}[.,][0-9]{3}$/.test(typed.replace(ENDS, ''));
}
