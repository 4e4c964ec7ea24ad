// Contrast by WCAG 2.1 of colours as page.css has them: 4.5 for text, 3 for the lines of fields and for marks.

const PAIRS = [
    ['ink', 'ground', 4.5], ['ink', 'panel', 4.5], ['soft', 'ground', 4.5], ['soft', 'panel', 4.5], ['accent', 'ground', 4.5], ['accent', 'panel', 4.5],
    ['good', 'good-ground', 4.5], ['good', 'panel', 4.5], ['good', 'ground', 4.5], ['bad', 'bad-ground', 4.5], ['bad', 'panel', 4.5], ['bad', 'ground', 4.5],
        ['warn', 'warn-ground', 4.5],
    ['warn', 'warn-stripe', 4.5], ['warn', 'panel', 4.5], ['warn', 'ground', 4.5], ['warn', 'back-ground', 4.5], ['warn', 'bad-ground', 4.5],
        ['back', 'back-ground', 4.5], ['back', 'panel', 4.5],
    ['ink', 'good-ground', 4.5], ['ink', 'bad-ground', 4.5], ['ink', 'warn-ground', 4.5], ['ink', 'warn-stripe', 4.5], ['ink', 'back-ground', 4.5],
        ['soft', 'warn-ground', 4.5],
    ['soft', 'bad-ground', 4.5], ['edge', 'panel', 3], ['edge', 'ground', 3], ['fill', 'steel', 3], ['ink', 'vapour', 4.5], ['ink', 'liquid', 4.5],
        ['ink', 'super', 4.5],
];

const channel = value => value / 255 <= 0.03928 ? value / 255 / 12.92 : ((value / 255 + 0.055) / 1.055) ** 2.4;
const luminance = ([red, green, blue]) => 0.2126 * channel(red) + 0.7152 * channel(green) + 0.0722 * channel(blue);
export function ratioOf(one, other) {
    const [low, high] = [luminance(one), luminance(other)].sort((a, b) => a - b);
    return (high + 0.05) / (low + 0.05);
}
const channels = text => {
    const hex = /^#([0-9a-f]{6})$/i.exec(text.trim());
    return [0, 2, 4].map(at => parseInt(hex[1].slice(at, at + 2), 16));
};
// of the scheme that the page is in now
export async function contrastsOf(run) {
    const names = [...new Set(PAIRS.flatMap(([front, ground]) => [front, ground]))];
    const colours = await run(wanted => {
        const style = getComputedStyle(document.documentElement);
        return Object.fromEntries(wanted.map(name => [name, style.getPropertyValue(`--${name}`)]));
    }, names);
    return PAIRS.map(([front, ground, least]) =>
        ({ pair: `${front} on ${ground}`, ratio: ratioOf(channels(colours[front]), channels(colours[ground])), least }));
}
