// Headless Firefox by Marionette: JSON texts over TCP, each with its length in bytes and a colon in front. See driver.mjs for what a browser has to do.
import { spawn } from 'node:child_process';
import fs from 'node:fs';
import net from 'node:net';

// WebDriver's own letters for keys
const KEYS = {
    Tab: '\ue004', Enter: '\ue007', Delete: '\ue017', Backspace: '\ue003', Escape: '\ue00c', ArrowLeft: '\ue012', ArrowUp: '\ue013',
    ArrowRight: '\ue014', ArrowDown: '\ue015', Home: '\ue011', End: '\ue010', Space: ' ', Control: '\ue009', Shift: '\ue008',
};
const PREFS = {
    'app.update.enabled': false, 'browser.shell.checkDefaultBrowser': false, 'datareporting.policy.dataSubmissionEnabled': false,
    'toolkit.telemetry.enabled': false, 'browser.aboutwelcome.enabled': false, 'browser.startup.page': 0, 'network.captive-portal-service.enabled': false,
    'network.connectivity-service.enabled': false, 'extensions.getAddons.cache.enabled': false, 'services.settings.server': 'data:,',
    'browser.safebrowsing.malware.enabled': false, 'browser.safebrowsing.phishing.enabled': false, 'browser.download.folderList': 2,
    'browser.download.useDownloadDir': true, 'browser.download.always_ask_before_handling_new_types': false, 'browser.download.alwaysOpenPanel': false,
    'dom.events.testing.asyncClipboard': true, 'accessibility.tabfocus': 7, 'intl.accept_languages': 'en-US', 'ui.prefersReducedMotion': 1,
    'layout.css.prefers-color-scheme.content-override': 1,
};
const sleep = ms => new Promise(done => setTimeout(done, ms));

async function freePort() {
    const server = net.createServer();
    await new Promise(done => server.listen(0, '127.0.0.1', done));
    const { port } = server.address();
    await new Promise(done => server.close(done));
    return port;
}
async function connect(port, alive) {
    for (let i = 0; i < 150 && alive(); i++) {
        const socket = net.connect(port, '127.0.0.1');
        if (await new Promise(done => socket.once('connect', () => done(true)).once('error', () => done(false)))) return socket;
        await sleep(200);
    }
    throw new Error('firefox does not answer');
}

export async function openFirefox(program, folder) {
    const port = await freePort(), profile = `${folder}/profile`;
    fs.mkdirSync(profile, { recursive: true });
    const prefs = { ...PREFS, 'marionette.port': port, 'browser.download.dir': folder };
    fs.writeFileSync(`${profile}/user.js`, Object.entries(prefs).map(([name, value]) =>
        `user_pref(${JSON.stringify(name)}, ${JSON.stringify(value)});\n`).join(''));
    const err = fs.openSync(`${folder}/firefox.err`, 'w');
    const child = spawn(program, ['--headless', '--marionette', '--remote-allow-system-access', '--no-remote', '--profile', profile],
        { stdio: ['ignore', err, err], env: { ...process.env, MOZ_HEADLESS_WIDTH: '1400', MOZ_HEADLESS_HEIGHT: '1000' } });
    let ended = false;
    child.on('exit', () => { ended = true; });
    const socket = await connect(port, () => !ended);
    const waiting = new Map();
    let number = 0, rest = Buffer.alloc(0);
    socket.on('data', data => {
        rest = Buffer.concat([rest, data]);
        for (let colon = rest.indexOf(58); colon > 0; colon = rest.indexOf(58)) {
            const end = colon + 1 + Number(rest.subarray(0, colon));
            if (rest.length < end) return;
            const message = JSON.parse(rest.subarray(colon + 1, end));
            rest = rest.subarray(end);
            if (!Array.isArray(message)) continue;
            const [, id, error, result] = message, { ok, no, name } = waiting.get(id);
            waiting.delete(id);
            if (error) no(new Error(`${name}: ${error.message}`)); else ok(result);
        }
    });
    const send = (name, params = {}) => new Promise((ok, no) => {
        if (ended) return no(new Error('firefox has ended'));
        waiting.set(++number, { ok, no, name });
        const text = Buffer.from(JSON.stringify([0, number, name, params]));
        socket.write(Buffer.concat([Buffer.from(`${text.length}:`), text]));
    });
    child.on('exit', status => { for (const { no } of waiting.values()) no(new Error(`firefox ended with ${status}`)); });

    const { capabilities } = await send('WebDriver:NewSession', { capabilities: { alwaysMatch: { acceptInsecureCerts: false } } });
    // a function by its text, in the page or in the browser itself
    const call = async (source, args) => (await send('WebDriver:ExecuteAsyncScript', {
        script: `const done = arguments[arguments.length - 1];
            Promise.resolve().then(() => (${source})(...JSON.parse(arguments[0])))
                .then(value => done({ value: value === undefined ? null : value }), fault => done({ fault: String(fault) }));`,
        args: [JSON.stringify(args)], sandbox: null,
    })).value;
    const run = async (source, ...args) => {
        const { value, fault } = await call(source, args);
        if (fault) throw new Error(`in the page: ${fault}`);
        return value;
    };
    const inside = async (source, ...args) => {
        await send('Marionette:SetContext', { value: 'chrome' });
        try { return await run(source, ...args); } finally { await send('Marionette:SetContext', { value: 'content' }); }
    };
    // what the browser itself keeps, in its window
    const kept = "Services.wm.getMostRecentWindow('navigator:browser')";
    await inside(`() => {
        const asked = ${kept}.askedOfTheNet = [];
        const observer = { observe(subject) { // not what the browser asks for itself
            const channel = subject.QueryInterface(Ci.nsIHttpChannel);
            if (!channel.loadInfo.triggeringPrincipal.isSystemPrincipal) asked.push(channel.URI.spec);
        } };
        Services.obs.addObserver(${kept}.whoAsks = observer, 'http-on-modify-request');
    }`);
    // what the browser is told comes to the page a little later
    const matched = async (media, is) => {
        for (let i = 0; i < 100; i++) {
            if (await run('media => matchMedia(media).matches', media) === is) return;
            await sleep(20);
        }
        throw new Error(`the page does not come to know that ${media} is ${is}`);
    };
    const actions = list => send('WebDriver:PerformActions',
        { actions: [{ type: 'key', id: 'keys', actions: list.flatMap(([type, value]) => ({ type, value })) }] });
    const stroke = key => [['keyDown', key], ['keyUp', key]];
    let url = '', zoom = 1;
    const magnify = () => inside('zoom => { gBrowser.selectedBrowser.fullZoom = zoom; }', zoom); // a new page has none
    return {
        name: 'Firefox', version: `${capabilities.browserName}/${capabilities.browserVersion}`, run, pid: child.pid,
        go: async to => {
            url = to;
            await send('WebDriver:Navigate', { url: 'about:blank' });
            await inside(`() => { ${kept}.askedOfTheNet.length = 0; Services.console.reset(); }`);
            await send('WebDriver:Navigate', { url: to });
            await magnify();
        },
        tab: (back = false) => actions(back ? [['keyDown', KEYS.Shift], ...stroke(KEYS.Tab), ['keyUp', KEYS.Shift]] : stroke(KEYS.Tab)),
        press: name => actions(stroke(KEYS[name] || name)),
        type: text => actions([...text].flatMap(stroke)),
        selectAll: () => actions([['keyDown', KEYS.Control], ...stroke('a'), ['keyUp', KEYS.Control]]),
        // a window has a least width: below it the page is made larger instead, which comes to the same number of px
        size: async (width, height) => {
            zoom = width < 500 ? 2 : 1;
            await magnify();
            for (let i = 0; i < 4; i++) {
                const [wide, high] = await run('() => [innerWidth, innerHeight]');
                if (wide === width && high === height) return;
                const { width: w, height: h } = await send('WebDriver:GetWindowRect');
                await send('WebDriver:SetWindowRect', { width: Math.round(w + (width - wide) * zoom), height: Math.round(h + (height - high) * zoom) });
                await sleep(150);
            }
        },
        scheme: async name => {
            await inside("dark => { Services.prefs.setIntPref('layout.css.prefers-color-scheme.content-override', dark ? 0 : 1); }", name === 'dark');
            await matched(`(prefers-color-scheme: ${name})`, true);
        },
        withoutWasm: is => inside("is => { Services.prefs.setBoolPref('javascript.options.wasm', !is); }", is),
        paper: async is => {
            await inside('type => { gBrowser.selectedBrowser.browsingContext.mediumOverride = type; }', is ? 'print' : '');
            await matched('print', is);
        },
        file: async (selector, path) => {
            const { value } = await send('WebDriver:FindElement', { using: 'css selector', value: selector });
            await send('WebDriver:ElementSendKeys', { id: Object.values(value)[0], text: path });
        },
        picture: async (path, whole) => {
            const { value } = await send('WebDriver:TakeScreenshot', { full: Boolean(whole), hash: false });
            fs.writeFileSync(path, Buffer.from(value, 'base64'));
        },
        pdf: async path => {
            const { value } = await send('WebDriver:Print', { background: true, page: { width: 21, height: 29.7 } });
            fs.writeFileSync(path, Buffer.from(value, 'base64'));
        },
        complaints: () => inside(`url => Services.console.getMessageArray()
            .filter(message => message instanceof Ci.nsIScriptError && message.sourceName.startsWith(url))
            .map(message => message.errorMessage.slice(0, 300))`, url),
        asked: async () => [url, ...await inside(`() => [...${kept}.askedOfTheNet]`)],
        close: async () => {
            const end = new Promise(done => ended ? done() : child.once('exit', done));
            send('Marionette:Quit', { flags: ['eForceQuit'] }).catch(() => {});
            await Promise.race([end, sleep(6000)]);
            socket.destroy();
            if (!ended) child.kill();
        },
    };
}
