// What is expected of the page, from elsewhere: README's table of refusals, and runs of examples/runs.d, which crosscheck/runs.py worked from the rules.
import fs from 'node:fs';
import { createHash } from 'node:crypto';

const README = fs.readFileSync('README.md', 'utf8');
export const REFUSALS = Object.fromEntries([...README.matchAll(/^\| (\d+) \| ([^|]+) \| ([^|]+) \|$/gm)].map(([, number, says, todo]) => [number,
    { says, todo }]));

// [sheet, report, explanation's lines] of a run with --explain and one sheet
export function runOf(name) {
    const folder = `examples/runs.d/${name}`;
    const words = fs.readFileSync(`${folder}/args`, 'utf8').trim().split('\n');
    const sheet = fs.readFileSync(`${folder}/${words.find(word => !word.startsWith('-'))}`, 'latin1');
    const out = fs.readFileSync(fs.existsSync(`${folder}/stdout`) ? `${folder}/stdout` : fs.readFileSync(`${folder}/stdout_is`, 'utf8').trim(),
        'latin1').split('\n').slice(0, -1);
    const end = out.findIndex(line => /^(TOTAL|SENT BACK)/.test(line)) + 1;
    return { sheet, report: out.slice(0, end).map(line => `${line}\n`).join(''), told: out.slice(end) };
}
// the warnings of a run's line, without its place and number
export const warningsOf = (run, place) => run.told.filter(line => line.startsWith(`L ${place}, `)).slice(1).map(line => line.slice(line.indexOf(': ') + 2));

export const VERSION = (() => {
    const n = Number(/^#define MAKHROENG_VERSION (\d+)$/m.exec(fs.readFileSync('include/makhroeng.h', 'utf8'))[1]);
    return `${Math.floor(n / 10000)}.${Math.floor(n / 100) % 100}.${n % 100}`;
})();

// ---- the page that is tried: its library, and pages made of it

// the base64 of the library, wherever it stands in a page
export function libraryOf(html) {
    const found = html.match(/AGFzbQEAAAA[A-Za-z0-9+/]{1000,}=*/g) || [];
    if (found.length !== 1) throw new Error(`the page has ${found.length} libraries in it`);
    return found[0];
}
const digest = text => `'sha256-${createHash('sha256').update(text).digest('base64')}'`;
// the policy made anew for a script or a style that was changed, so that it runs
export function sealed(html) {
    const [, style] = /<style>([^]*?)<\/style>/.exec(html), [, script] = /<script>([^]*?)<\/script>/.exec(html);
    return html.replace(/script-src 'sha256-[^']*'/, () => `script-src ${digest(script)}`)
        .replace(/style-src 'sha256-[^']*'/, () => `style-src ${digest(style)}`);
}
// A page whose engine hands out other functions than the library's: `change` has `exports` to change, and `bytes()`, the memory
export function tampered(html, change) {
    const script = `{
    const real = WebAssembly.instantiate;
    WebAssembly.instantiate = async (...words) => {
        const { instance } = await real(...words), exports = { ...instance.exports }, bytes = () => new Uint8Array(exports.memory.buffer);
        ${change}
        return { instance: { exports } };
    };
}`;
    return html.replace("script-src 'sha256-", () => `script-src ${digest(script)} 'sha256-`).replace('</head>', () => `<script>${script}</script></head>`);
}
