// node web/comparing/flips.mjs LIBRARY.wasm CALLS [COUNT [SEED]]: turns one bit of the library at a time, anywhere behind its head, and says how many of such
// libraries an engine doesn't take, how many are found by what is known on loading (web/src/known.mjs), how many by the recorded calls alone, and how many by
// neither: those may differ from the library in nothing that a call can see. A count and no test: in a page the policy's digest finds each.
import fs from 'node:fs';
import { Worker, isMainThread, parentPort, workerData } from 'node:worker_threads';
import { openLibrary } from '../src/library.mjs';
import { mustAnswerAsKnown } from '../src/known.mjs';
import { thinned } from './faults.mjs';
import { instanceOf, replay, totals } from './replay.mjs';

const LONG = 60000; // ms: one that hasn't ended by then goes round and round

const isNone = async ask => {
    try {
        await ask();
        return false;
    } catch {
        return true;
    }
};
async function foundBy({ wasm, calls, version }) {
    if (await isNone(() => instanceOf(wasm))) return 'an engine does not take it';
    if (await isNone(async () => mustAnswerAsKnown(await openLibrary(wasm), version))) return 'known on loading';
    let differ = 1;
    await isNone(async () => { differ = totals(replay(await instanceOf(wasm), await openLibrary(wasm), Buffer.from(calls)).counts).differ; });
    return differ ? 'recorded calls' : 'nothing';
}

const turnedIn = (wasm, at, bit) => {
    const bytes = Uint8Array.from(wasm);
    bytes[at] ^= 1 << bit;
    return bytes;
};
const tried = data => new Promise(done => {
    const worker = new Worker(new URL(import.meta.url), { workerData: data });
    const late = setTimeout(() => worker.terminate().then(() => done('it does not end')), LONG);
    worker.once('message', found => {
        clearTimeout(late);
        worker.terminate().then(() => done(found));
    });
});

async function main([wasmFile, callsFile, count = 200, seed = 1]) {
    const wasm = fs.readFileSync(wasmFile), version = (await openLibrary(wasm)).version();
    const recorded = thinned(fs.readFileSync(callsFile)), calls = new SharedArrayBuffer(recorded.length);
    new Uint8Array(calls).set(recorded);
    let turn = Number(seed);
    const random = below => {
        turn = (turn * 1103515245 + 12345) % 2147483648;
        return Math.floor(turn / 2147483648 * below);
    };
    if (await tried({ wasm, calls, version }) !== 'nothing') throw new Error('something is found with no bit turned');
    const counts = {};
    for (let n = 0; n < Number(count); n++) {
        const found = await tried({ wasm: turnedIn(wasm, 8 + random(wasm.length - 8), random(8)), calls, version });
        counts[found] = (counts[found] || 0) + 1;
    }
    console.log(`${count} bits turned: ${Object.entries(counts).map(([by, n]) => `${by} ${n}`).join(', ')}`);
}

if (isMainThread) await main(process.argv.slice(2));
else parentPort.postMessage(await foundBy(workerData));
