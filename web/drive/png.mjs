// A browser's PNG in fewer bytes, for README: each pixel the nearest of 256 colours, those that it has most of and that stand apart from each other.
import zlib from 'node:zlib';

const CRCS = Uint32Array.from({ length: 256 }, (_, n) => {
    let c = n;
    for (let k = 0; k < 8; k++) c = c & 1 ? 0xedb88320 ^ (c >>> 1) : c >>> 1;
    return c;
});
const crc = bytes => (bytes.reduce((c, byte) => CRCS[(c ^ byte) & 255] ^ (c >>> 8), 0xffffffff) ^ 0xffffffff) >>> 0;
function chunk(name, data) {
    const body = Buffer.concat([Buffer.from(name), data]), made = Buffer.alloc(8 + body.length);
    made.writeUInt32BE(data.length, 0);
    body.copy(made, 4);
    made.writeUInt32BE(crc(body), 4 + body.length);
    return made;
}
const paeth = (a, b, c) => {
    const p = a + b - c, pa = Math.abs(p - a), pb = Math.abs(p - b), pc = Math.abs(p - c);
    return pa <= pb && pa <= pc ? a : pb <= pc ? b : c;
};
const GUESSES = [() => 0, a => a, (a, b) => b, (a, b) => (a + b) >> 1, paeth];

function unfiltered(row, above, step, guess) {
    const out = Buffer.alloc(row.length);
    for (let i = 0; i < row.length; i++) out[i] = row[i] + guess(i < step ? 0 : out[i - step], above[i], i < step ? 0 : above[i - step]);
    return out;
}
// { width, height, pixels: a number of 24 bits for each }
function read(png) {
    const parts = [];
    let header;
    for (let at = 8; at < png.length;) {
        const length = png.readUInt32BE(at), name = png.toString('latin1', at + 4, at + 8), data = png.subarray(at + 8, at + 8 + length);
        if (name === 'IHDR') header = data;
        if (name === 'IDAT') parts.push(data);
        at += 12 + length;
    }
    const width = header.readUInt32BE(0), height = header.readUInt32BE(4), step = { 2: 3, 6: 4 }[header[9]];
    if (header[8] !== 8 || !step || header[12] !== 0) throw new Error('a PNG of another kind than browsers make');
    const packed = zlib.inflateSync(Buffer.concat(parts)), pixels = new Uint32Array(width * height);
    for (let y = 0, above = Buffer.alloc(width * step); y < height; y++) {
        const from = y * (width * step + 1);
        above = unfiltered(packed.subarray(from + 1, from + 1 + width * step), above, step, GUESSES[packed[from]]);
        for (let x = 0; x < width; x++) pixels[y * width + x] = above.readUIntBE(x * step, 3);
    }
    return { width, height, pixels };
}
const apart = (one, other) => [16, 8, 0].reduce((sum, shift) => sum + ((one >> shift & 255) - (other >> shift & 255)) ** 2, 0);

function paletteOf(colours) {
    for (let least = 0; ; least += 2) {
        const chosen = [];
        for (const colour of colours) if (chosen.length <= 256 && chosen.every(other => apart(colour, other) > least * least)) chosen.push(colour);
        if (chosen.length <= 256) return chosen;
    }
}

export function smaller(png) {
    const { width, height, pixels } = read(png), counts = new Map();
    for (const pixel of pixels) counts.set(pixel, (counts.get(pixel) || 0) + 1);
    const palette = paletteOf([...counts].sort(([, one], [, other]) => other - one).map(([colour]) => colour));
    const placeOf = colour => palette.reduce((best, other, i) => apart(colour, other) < apart(colour, palette[best]) ? i : best, 0);
    const nearest = new Map([...counts.keys()].map(colour => [colour, placeOf(colour)]));
    const rows = Buffer.alloc((width + 1) * height), header = Buffer.alloc(13), colours = Buffer.alloc(3 * palette.length);
    for (let y = 0; y < height; y++) for (let x = 0; x < width; x++) rows[y * (width + 1) + 1 + x] = nearest.get(pixels[y * width + x]);
    palette.forEach((colour, i) => colours.writeUIntBE(colour, 3 * i, 3));
    header.writeUInt32BE(width, 0);
    header.writeUInt32BE(height, 4);
    header.set([8, 3, 0, 0, 0], 8);
    const packed = zlib.deflateSync(rows, { level: 9, memLevel: 9 });
    return Buffer.concat([png.subarray(0, 8), chunk('IHDR', header), chunk('PLTE', colours), chunk('IDAT', packed), chunk('IEND', Buffer.alloc(0))]);
}
