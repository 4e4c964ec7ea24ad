// The bank and the map as small trees of SVG, [name, attributes, ...children]; pure functions. Colours are page.css's, by class. What is drawn of
// carbon dioxide is found by asking the library, and no figure of it stands here.

// A tree as text; page.mjs grows the same tree in a page
export function svgText([name, attributes, ...children]) {
    const escape = text => String(text).replace(/[&<>"]/g, c => `&#${c.charCodeAt(0)};`);
    const inside = children.map(child => Array.isArray(child) ? svgText(child) : escape(child)).join('');
    return `<${name}${Object.entries(attributes).map(([key, value]) => ` ${key}="${escape(value)}"`).join('')}>${inside}</${name}>`;
}
const at = x => Number(x.toFixed(1));
const path = points => 'M' + points.map(([x, y]) => `${at(x)} ${at(y)}`).join('L');
const label = (x, y, name, text, more = {}) => ['text', { x: at(x), y: at(y), class: name, ...more }, text];

// 1, 2, 3, 5 as 1–3, 5
export function rangesOf(numbers) {
    const runs = [];
    for (const n of numbers) {
        const last = runs[runs.length - 1];
        if (last && n === last[1] + 1) last[1] = n; else runs.push([n, n]);
    }
    return runs.map(([from, to]) => from === to ? `${from}` : to === from + 1 ? `${from}, ${to}` : `${from}–${to}`).join(', ');
}

// ---- the bank by fill

const FULL = 750, TOP = 1000;  // kg/m³: what a cylinder is filled with at most (RULES 14.4), and where the drawing ends
const BODY = { left: 20, right: 56, top: 30, bottom: 142 };
const WIDE = 76, HIGH = 176;
const levelOf = density => BODY.bottom - Math.min(density, TOP) / TOP * (BODY.bottom - BODY.top);
const OUTLINE = `M${BODY.left} ${BODY.bottom - 6}V46Q${BODY.left} 34 33 30V22H43V30Q${BODY.right} 34 ${BODY.right} 46V${BODY.bottom - 6}Q${BODY.right} `
    + `${BODY.bottom} ${BODY.right - 6} ${BODY.bottom}H${BODY.left + 6}Q${BODY.left} ${BODY.bottom} ${BODY.left} ${BODY.bottom - 6}Z`;

// what: { place, number, status: answered, refused or unknown, kg, phase, density, refusal, range: null or [least, most] in kg/m³, above }
export function cylinderPicture(what) {
    const clip = `clip-${what.place}`, hatch = `hatch-${what.place}`, across = { x: 10, width: 56 };
    const inside = [];
    if (what.status === 'answered') {
        const y = levelOf(what.density);
        inside.push(['rect', { ...across, y: at(y), height: at(BODY.bottom - y), class: what.range || what.above ? 'fill doubt' : 'fill' }]);
        if (what.above) inside.push(['rect', { ...across, y: at(y), height: at(levelOf(FULL) - y), fill: `url(#${hatch})` }]);
    }
    if (what.range) {
        const [low, high] = what.range.map(levelOf);
        inside.push(['rect', { ...across, y: at(high), height: at(low - high), fill: `url(#${hatch})` }]);
    }
    const marks = [];
    if (what.status === 'refused') marks.push(['path',
        { class: 'cross', d: `M${BODY.left - 6} 40L${BODY.right + 6} 136M${BODY.right + 6} 40L${BODY.left - 6} 136` }]);
    else marks.push(['path', { class: 'full', d: `M12 ${at(levelOf(FULL))}H64` }]);
    if (what.range) marks.push(label(38, 100, 'sign', '?'));
    else if (what.above) marks.push(label(38, 100, 'sign', '!'));
    const top = { answered: `${what.kg} kg`, refused: `refused ${what.refusal}`, unknown: 'not known' }[what.status];
    return ['svg', { viewBox: `0 0 ${WIDE} ${HIGH}`, width: WIDE, height: HIGH, class: `cylinder ${what.status}`, 'aria-hidden': 'true' },
        ['defs', {},
            ['clipPath', { id: clip }, ['path', { d: OUTLINE }]],
            ['pattern', { id: hatch, width: 6, height: 6, patternUnits: 'userSpaceOnUse', patternTransform: 'rotate(45)' },
                ['path', { class: 'hatch', d: 'M0 0V6' }]]],
        ['path', { class: 'body', d: OUTLINE }],
        ['g', { 'clip-path': `url(#${clip})` }, ...inside],
        ['path', { class: 'rim', d: OUTLINE }],
        ...marks,
        label(38, 13, 'kg', top),
        label(38, 158, 'number', what.number === null ? 'No –' : `No ${what.number}`),
        label(38, 171, 'phase', what.phase)];
}
export function bankWords(cylinders) {
    const one = what => `line ${what.place}, cylinder ${what.number === null ? 'without a number' : what.number}: ` + {
        answered: `${what.kg} kg, ${Math.round(what.density / FULL * 100)} % of 750 kg/m³, ${what.phase}`
            + (what.range ? ", but the gauge can't tell" : '') + (what.above ? ', more than a cylinder is filled with' : ''),
        refused: `refused by ${what.refusal}`,
        unknown: 'not known yet',
    }[what.status];
    return `The cylinders by fill. ${cylinders.map(one).join('; ')}.`;
}

// ---- the map of temperature and pressure

const ZERO = 273.15, BAR = 100000;

// where `holds` turns, between one where it doesn't and one where it does
function turn(without, within, holds) {
    for (let i = 0; i < 48; i++) {
        const middle = (without + within) / 2;
        if (holds(middle)) within = middle; else without = middle;
    }
    return within;
}
// The lines of the map by the library's answers alone: its ranges by where 4 and 5 turn up, the solid by 19, the box by 6, the critical temperature by
// the phase
export function frameOf(library) {
    const refused = (t, p, number) => library.state('P', t, p).refused === number;
    const open = 350, calm = 5e6;
    const coldest = turn(100, open, t => !refused(t, calm, 4)), hottest = turn(2000, open, t => !refused(t, calm, 4));
    const lowest = turn(1, calm, p => !refused(open, p, 5)), highest = turn(1e9, calm, p => !refused(open, p, 5));
    const critical = turn(coldest, open, t => library.state('P', t, lowest).phase === 'supercritical');
    const middle = library.saturation(critical - 1e-6).figures.pressure;
    const inBox = (t, p) => refused(t, p, 6);
    const box = {
        left: turn(critical - 20, critical, t => inBox(t, middle)), right: turn(critical + 20, critical, t => inBox(t, middle)),
        low: turn(middle / 2, middle, p => inBox(critical, p)), high: turn(middle * 2, middle, p => inBox(critical, p)),
    };
    const solidTo = turn(open, coldest, t => refused(t, highest, 19));
    const melting = [], saturation = [];
    for (let i = 0; i <= 24; i++) {
        const t = coldest + (solidTo - coldest) * i / 24;
        melting.push([t, turn(lowest, highest, p => refused(t, p, 19))]);
    }
    for (let i = 0; i <= 120; i++) {
        const t = Math.min(coldest + (critical - coldest) * i / 120, critical - 1e-6), { figures } = library.saturation(t);
        if (figures) saturation.push([t, figures.pressure]);
    }
    return { coldest, hottest, lowest, highest, critical, box, melting, saturation };
}

const SHAPES = {
    answered: (x, y) => ['circle', { class: 'dot', cx: at(x), cy: at(y), r: 5.5 }],
    unknown: (x, y) => ['circle', { class: 'dot hollow', cx: at(x), cy: at(y), r: 5.5 }],
    doubt: (x, y) => ['path', { class: 'dot doubt', d: path([[x, y - 7], [x + 7, y + 6], [x - 7, y + 6]]) + 'Z' }],
    refused: (x, y) => ['path', { class: 'dot cross', d: `${path([[x - 5, y - 5], [x + 5, y + 5]])}${path([[x + 5, y - 5], [x - 5, y + 5]])}` }],
};

// dots that stand on each other share one label
function gather(dots, x, y, width) {
    const groups = [];
    for (const dot of dots) {
        const px = x(dot.kelvin), py = y(dot.pascal);
        const near = groups.find(group => Math.hypot(group.px - px, group.py - py) < 15);
        if (near) near.places.push(dot.place); else groups.push({ px, py, places: [dot.place], turned: dot.status === 'doubt' || px > width - 90 });
    }
    return groups;
}

// dots: [{ place, kelvin, pascal, status: answered, doubt, refused or unknown }]; width in px, so that letters keep their size on any screen
export function mapPicture(frame, dots, width) {
    const height = Math.round(Math.max(270, Math.min(430, width * 0.66)));
    const left = 44, right = 14, top = 12, bottom = 44;
    const here = dots.filter(dot => onMap(frame, dot));
    const warm = here.some(dot => dot.kelvin > ZERO + 80), thin = here.some(dot => dot.pascal < 4 * BAR);
    const from = { t: -60 + ZERO, p: thin ? frame.lowest * 0.8 : 4 * BAR }, to = { t: warm ? frame.hottest + 3 : 80 + ZERO, p: frame.highest * 1.25 };
    const x = t => left + (Math.min(Math.max(t, from.t), to.t) - from.t) / (to.t - from.t) * (width - left - right);
    const y = p => height - bottom - Math.log(Math.min(Math.max(p, from.p), to.p) / from.p) / Math.log(to.p / from.p) * (height - top - bottom);
    const plane = ([t, p]) => [x(t), y(p)];
    const { coldest, hottest, lowest, highest, critical, box, melting, saturation } = frame;
    const area = (name, points) => ['path', { class: name, d: path(points.map(plane)) + 'Z' }];
    const narrow = width < 460;
    const ticksT = (warm ? [-50, 0, 50, 100, 150, 200, 250] : narrow ? [-40, 0, 40, 80]
        : [-60, -40, -20, 0, 20, 40, 60, 80]).map(c => [c + ZERO, `${c}`.replace('-', '−')]);
    const ticksP = [0.1, 0.5, 1, 5, 10, 20, 50, 100, 200, 300].filter(bar => bar * BAR >= from.p).map(bar => [bar * BAR, `${bar}`]);
    const grid = [
        ...ticksT.map(([t]) => ['path', { class: 'grid', d: path([[x(t), top], [x(t), height - bottom]]) }]),
        ...ticksP.map(([p]) => ['path', { class: 'grid', d: path([[left, y(p)], [width - right, y(p)]]) }])];
    const axes = [
        ...ticksT.map(([t, text]) => label(x(t), height - bottom + 16, 'tick middle', text)),
        ...ticksP.map(([p, text]) => label(left - 6, y(p) + 4, 'tick end', text)),
        label((left + width - right) / 2, height - 8, 'axis middle', 'temperature, °C'),
        label(0, 0, 'axis middle', 'pressure, bar absolute', { transform: `translate(11 ${(top + height - bottom) / 2}) rotate(-90)` })];
    const band = [...saturation.map(([t, p]) => [t, p + 2 * BAR]), ...saturation.slice().reverse().map(([t, p]) => [t, Math.max(p - 2 * BAR, lowest)])];
    const areas = [
        area('vapour', [[coldest, lowest], ...saturation, [critical, lowest]]),
        area('liquid', [...melting, [critical, highest], ...saturation.slice().reverse()]),
        area('super', [[critical, lowest], [critical, highest], [hottest, highest], [hottest, lowest]]),
        area('solid', [...melting, [coldest, highest]]),
        ...grid,
        area('band', band),
        area('box', [[box.left, box.low], [box.right, box.low], [box.right, box.high], [box.left, box.high]]),
        ['path', { class: 'line', d: path(saturation.map(plane)) }],
        ['path', { class: 'line melting', d: path(melting.map(plane)) }]];
    const groups = gather(here, x, y, width);
    const names = groups.map(({ px, py, places, turned }) => label(px + (turned ? -9 : 9), py - 8, `name${turned ? ' end' : ''}`, rangesOf(places)));
    const region = `region middle${narrow ? ' small' : ''}`;
    const words = [
        label(x(268), y(170 * BAR), region, 'liquid'), label(x(warm ? 400 : 329), y(9 * BAR), region, 'supercritical'),
        label(x(281), y(9 * BAR), region, 'vapour'), label(x(253), y(23.5 * BAR), 'note end', narrow ? 'saturation' : 'saturation, ±2 bar'),
        label(x(box.right) + 7, y(box.low) + 12, 'note', narrow ? 'box' : 'critical box')];
    if (!warm) words.push(label(x(melting[melting.length - 1][0]) + 4, y(frame.highest) + 14, 'note', '← solid'));
    return ['svg', { viewBox: `0 0 ${width} ${height}`, width, height, class: 'map', 'aria-hidden': 'true' },
        ['rect', { class: 'ground', x: left, y: top, width: width - left - right, height: height - top - bottom }],
        ...areas, ...axes, ...words, ...here.map(dot => SHAPES[dot.status](x(dot.kelvin), y(dot.pascal))), ...names];
}
const onMap = (frame, { kelvin, pascal }) => kelvin >= ZERO - 60 && kelvin <= frame.hottest + 3 && pascal >= frame.lowest * 0.8
    && pascal <= frame.highest * 1.25;

const lineWord = places => places.length === 1 ? 'line' : 'lines';
// What has no place on it, in words that stand beside it
export function offMap(frame, dots, weighed, nowhere) {
    const beyond = dots.filter(dot => !onMap(frame, dot)).map(dot => dot.place);
    const said = [];
    if (weighed.length) said.push(`Weighed, and so not on the map: ${lineWord(weighed)} ${rangesOf(weighed)}.`);
    if (beyond.length) said.push(`Beyond the map: ${lineWord(beyond)} ${rangesOf(beyond)}.`);
    if (nowhere.length) said.push(`No temperature with a pressure yet: ${lineWord(nowhere)} ${rangesOf(nowhere)}.`);
    return said.join(' ');
}
export function mapWords(frame, dots) {
    const side = ({ kelvin, pascal }) => {
        if (kelvin >= frame.critical) return 'above the critical temperature';
        const next = frame.saturation.findIndex(([t]) => t > kelvin);
        return next < 1 ? '' : pascal > frame.saturation[next][1] ? 'above the saturation line' : pascal < frame.saturation[next - 1][1]
            ? 'below the saturation line' : 'at the saturation line';
    };
    const STATUS = { answered: 'answered', doubt: "answered, but the gauge can't tell", refused: 'refused', unknown: 'not known yet' };
    const one = dot => [`line ${dot.place} at ${(dot.kelvin - ZERO).toFixed(1)} °C and ${(dot.pascal / BAR).toFixed(1)} bar`, STATUS[dot.status], side(dot)]
        .filter(Boolean).join(', ');
    const here = dots.filter(dot => onMap(frame, dot));
    return 'Map of temperature and pressure, with the saturation line, the melting line and the critical box. '
        + `${here.length ? here.map(one).join('; ') : 'No reading stands on it yet'}.`;
}
