// What a browser asked of the network and complained of, over every opening of the page: its go() forgets what was before it. browser.heard() gives it all
// and forgets it: { opened, asked, complaints }.
export function listenTo(browser) {
    const { go } = browser, opened = new Set();
    let asked = [], complaints = [], counted = [0, 0];
    const gather = async () => {
        if (opened.size === 0) return; // what it says while it starts is not the page's
        const now = [await browser.asked(), await browser.complaints()];
        asked.push(...now[0].slice(counted[0]));
        complaints.push(...now[1].slice(counted[1]));
        counted = now.map(list => list.length);
    };
    browser.go = async url => {
        await gather();
        counted = [0, 0];
        opened.add(url);
        await go(url);
    };
    browser.heard = async () => {
        await gather();
        const all = { opened, asked, complaints };
        [asked, complaints] = [[], []];
        return all;
    };
}

// after a path: RULES 15.4; a path that has to raise complaints asks for this itself, without them
export async function quiet(browser, check, loud = false) {
    const { opened, asked, complaints } = await browser.heard();
    check.is('all the way nothing was asked of the network but the page', asked.filter(url => !opened.has(url)), []);
    if (!loud) check.is('all the way no complaint', complaints, []);
}
