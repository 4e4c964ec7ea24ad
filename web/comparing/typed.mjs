// node web/comparing/typed.mjs, with the lines of typed.py on standard input: what web/src/decimals.mjs makes of each number that was typed, and what
// web/src/sheet.mjs hands to a door of the sheet's number, against exact fractions. Ends with how many of each case were numbers, blanks and slips, and
// `N compared, 0 differ`.
import { createInterface } from 'node:readline';
import { pathToFileURL } from 'node:url';
import * as decimals from '../src/decimals.mjs';
import * as sheet from '../src/sheet.mjs';

const view = new DataView(new ArrayBuffer(8));
const hex = x => {
    view.setFloat64(0, x);
    return view.getBigUint64(0).toString(16).padStart(16, '0');
};

// What was made of it: a text, null for a blank, or the slip; anything else that is thrown is no answer
function made(decimals, work, shown) {
    try {
        const x = work();
        return { answer: x === null ? null : shown(x) };
    } catch (fault) {
        const right = fault instanceof decimals.Slip && fault.says !== '' && fault.todo !== '' && fault.message === `${fault.says}. ${fault.todo}`;
        return right ? { answer: 'slip', kind: fault.kind } : { answer: fault };
    }
}

// RULES 6.4: what a door is asked with for the sheet's number
const handedOver = (sheet, { letter }, n) => letter ? sheet.askedOf({ letter, value: n }) : sheet.kelvinOf({ temperature: n });

// Whether all that is made of a line is right: the sheet's number, the kind of its slip, the double of a door, the separator, and the scale's own numbers
export function right(decimals, sheet, line) {
    const { typed, scale, places, more, over } = line;
    const own = decimals.SCALES[scale];
    if (own.places !== places || own.more !== BigInt(more) || (own.over ?? null) !== over) return false;
    const whole = made(decimals, () => decimals.whole(typed, places, BigInt(more)), x => typeof x === 'bigint' ? x.toString() : x);
    if (whole.answer !== line.whole || line.kind !== null && whole.kind !== line.kind) return false;
    if (over !== null) {
        const double = made(decimals, () => decimals.double(typed, places, BigInt(more), over), hex);
        if (double.answer !== line.double) return false;
        if (/^[0-9]+$/.test(line.whole) && hex(handedOver(sheet, own, BigInt(line.whole))) !== line.double) return false;
    }
    return decimals.separator(typed) === line.separator;
}

async function main() {
    const counts = {};
    let compared = 0, differ = 0;
    for await (const text of createInterface({ input: process.stdin })) {
        const line = JSON.parse(text);
        const count = counts[line.case] ??= { numbers: 0, blanks: 0, slips: 0, doubles: 0 };
        count[line.whole === null ? 'blanks' : line.whole === 'slip' ? 'slips' : 'numbers']++;
        if (line.double !== null && line.double !== 'slip') count.doubles++;
        compared++;
        if (!right(decimals, sheet, line) && differ++ < 5) console.log('differs:', text);
    }
    console.table(counts);
    console.log(`${compared} compared, ${differ} differ`);
    process.exitCode = differ || compared === 0 ? 1 : 0;
}

if (import.meta.url === pathToFileURL(process.argv[1]).href) await main();
