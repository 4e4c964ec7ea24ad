// Headless Chromium by its debugging pipe: JSON texts that end in a 0 byte, on the child's descriptors 3 and 4. See driver.mjs for what a browser has to do.
import { spawn } from 'node:child_process';
import fs from 'node:fs';

// the number of a key, what it types, and its name where that is another; a letter types itself
const KEYS = {
    Tab: [9], Enter: [13, '\r'], Delete: [46], Backspace: [8], Escape: [27], ArrowLeft: [37], ArrowUp: [38], ArrowRight: [39], ArrowDown: [40],
    Home: [36], End: [35], Space: [32, ' ', ' '],
};

export async function openChromium(program, folder) {
    const words = ['--headless=new', '--disable-gpu', '--disable-dev-shm-usage', '--remote-debugging-pipe', '--hide-scrollbars', '--window-size=1200,900',
        '--lang=en-US', '--no-first-run', '--disable-background-networking', '--disable-component-update', '--disable-sync', '--mute-audio',
        ...(process.getuid() === 0 ? ['--no-sandbox'] : []), // which root can't have
        `--user-data-dir=${folder}/profile`, 'about:blank'];
    const child = spawn(program, words, { stdio: ['ignore', 'ignore', fs.openSync(`${folder}/chromium.err`, 'w'), 'pipe', 'pipe'] });
    const waiting = new Map(), events = [];
    let number = 0, rest = '', sessionId, without;
    child.stdio[4].on('data', data => {
        const texts = (rest + data).split('\0');
        rest = texts.pop();
        for (const message of texts.map(text => JSON.parse(text))) {
            if (!message.id) { events.push(message); continue; }
            const { ok, no, method } = waiting.get(message.id);
            waiting.delete(message.id);
            if (message.error) no(new Error(`${method}: ${message.error.message}`)); else ok(message.result);
        }
    });
    const gone = new Promise((_, no) => child.on('exit', status => no(new Error(`chromium ended with ${status}`))));
    gone.catch(() => {});
    const send = (method, params = {}) => Promise.race([gone, new Promise((ok, no) => {
        waiting.set(++number, { ok, no, method });
        child.stdio[3].write(`${JSON.stringify({ id: number, method, params, sessionId })}\0`);
    })]);
    child.stdio[3].on('error', () => {});

    const { targetId } = await send('Target.createTarget', { url: 'about:blank' });
    ({ sessionId } = await send('Target.attachToTarget', { targetId, flatten: true }));
    for (const domain of ['Page', 'Runtime', 'Network', 'Log', 'DOM']) await send(`${domain}.enable`);
    await send('Browser.setDownloadBehavior', { behavior: 'allow', downloadPath: folder, eventsEnabled: true });
    await send('Browser.grantPermissions', { permissions: ['clipboardReadWrite', 'clipboardSanitizedWrite'] });
    const { product } = await send('Browser.getVersion');

    const key = async (name, modifiers = 0) => {
        const [code, text, as] = KEYS[name] || [/[a-z0-9]/i.test(name) ? name.toUpperCase().charCodeAt(0) : 0, name];
        const common = { key: as || name, code: name, windowsVirtualKeyCode: code, modifiers };
        await send('Input.dispatchKeyEvent', { type: text ? 'keyDown' : 'rawKeyDown', text, ...common });
        await send('Input.dispatchKeyEvent', { type: 'keyUp', ...common });
    };
    const media = {}; // each call says all of it
    const emulate = change => send('Emulation.setEmulatedMedia', Object.assign(media, change));
    const run = async (source, ...args) => {
        const { result, exceptionDetails: wrong } = await send('Runtime.evaluate', {
            expression: `(${source})(...${JSON.stringify(args)})`, awaitPromise: true, returnByValue: true, userGesture: true,
        });
        if (wrong) throw new Error(`in the page: ${wrong.exception ? wrong.exception.description : wrong.text}`);
        return result.value;
    };
    return {
        name: 'Chromium', version: product, run, pid: child.pid,
        go: async url => {
            events.length = 0;
            await send('Page.navigate', { url: 'about:blank' });
            await send('Page.navigate', { url });
        },
        tab: (back = false) => key('Tab', back ? 8 : 0),
        press: name => key(name),
        type: async text => { for (const letter of text) await key(letter); },
        selectAll: () => send('Input.dispatchKeyEvent',
            { type: 'rawKeyDown', key: 'a', code: 'KeyA', windowsVirtualKeyCode: 65, modifiers: 2, commands: ['selectAll'] })
            .then(() => send('Input.dispatchKeyEvent', { type: 'keyUp', key: 'a', code: 'KeyA', windowsVirtualKeyCode: 65, modifiers: 2 })),
        size: (width, height, mobile) => send('Emulation.setDeviceMetricsOverride', { width, height, deviceScaleFactor: 1, mobile: Boolean(mobile) }),
        scheme: name => emulate({ features: [{ name: 'prefers-color-scheme', value: name }] }),
        paper: is => emulate({ media: is ? 'print' : '' }),
        file: async (selector, path) => {
            const { root } = await send('DOM.getDocument');
            const { nodeId } = await send('DOM.querySelector', { nodeId: root.nodeId, selector });
            await send('DOM.setFileInputFiles', { files: [path], nodeId });
        },
        picture: async (path, whole) => {
            const { data } = await send('Page.captureScreenshot', { format: 'png', captureBeyondViewport: Boolean(whole) });
            fs.writeFileSync(path, Buffer.from(data, 'base64'));
        },
        pdf: async path => {
            const { data } = await send('Page.printToPDF', { printBackground: true, preferCSSPageSize: true, paperWidth: 8.27, paperHeight: 11.69 });
            fs.writeFileSync(path, Buffer.from(data, 'base64'));
        },
        withoutWasm: async is => {
            if (is) without = (await send('Page.addScriptToEvaluateOnNewDocument', { source: 'delete window.WebAssembly;' })).identifier;
            else await send('Page.removeScriptToEvaluateOnNewDocument', { identifier: without });
        },
        withoutScript: is => send('Emulation.setScriptExecutionDisabled', { value: is }),
        text: async () => { // where scripts are off, by the tree of what is shown
            const { nodes } = await send('Accessibility.getFullAXTree');
            return nodes.filter(node => !node.ignored && node.role && node.role.value === 'StaticText').map(node => node.name.value).join('\n');
        },
        complaints: async () => events.filter(({ method }) => ['Log.entryAdded', 'Runtime.exceptionThrown', 'Runtime.consoleAPICalled'].includes(method))
            .map(({ params }) => JSON.stringify(params.entry ? params.entry.text : params.exceptionDetails || params.args).slice(0, 300)),
        asked: async () => events.filter(({ method }) => method === 'Network.requestWillBeSent').map(({ params }) => params.request.url).filter(url =>
            !/^(about|blob):/.test(url)),
        close: async () => {
            const end = new Promise(done => child.exitCode === null ? child.once('exit', done) : done());
            const wait = new Promise(done => setTimeout(done, 5000));
            send('Browser.close').catch(() => {});
            await Promise.race([end, wait]);
            child.kill();
        },
    };
}
