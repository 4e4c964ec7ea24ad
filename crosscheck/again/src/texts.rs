//! Texts scored by the library and by this implementation.

use crate::library;
use crate::rng::Rng;
use crate::sheet::{read, score, Ending, Kind, Outcome};
use crate::tally::{digest, run, Tally};
use std::time::Duration;

const KINDS: [&str; 25] = [
    "good, 1 to 32 lines",
    "need is the total",
    "need is the total and one",
    "any readings, 1 to 32 lines",
    "edges of every range",
    "blanks in any field",
    "numbers of 1 to 11 digits",
    "no line, or 33 and more",
    "65,535 to 65,538 bytes",
    "damaged in one to three places",
    "any bytes of the form's",
    "any bytes",
    "totals of 10 and 11 digits",
    "a cylinder on several lines",
    "the same, and refused besides",
    "blank cylinders, and cylinder 0",
    "cylinders nearly the same",
    "weighed, 1 to 32 lines",
    "weighed, need about the total",
    "weighed, any masses and volumes",
    "weighed, edges of every range",
    "weighed, blanks, letters exchanged",
    "weighed, a cylinder several times",
    "weighed, totals of up to 15 digits",
    "a letter that is not in the form",
];
/// Out of 125.
const SHARES: [u64; 25] = [14, 8, 8, 10, 10, 6, 6, 4, 1, 11, 3, 2, 1, 5, 5, 3, 3, 2, 4, 3, 4, 4, 4, 1, 3];
/// The ending that is asked for, whether or not it fits; then what did not fit, and texts in the form with a weighed line; then lines, answered and
/// by refusal.
const COLUMNS: [&str; 24] = [
    "COVERED",
    "SHORT",
    "SB 10",
    "SB 11",
    "SB 12",
    "SB 13",
    "SB 14",
    "too long",
    "just fits",
    "with W",
    "L M",
    "R 1",
    "R 2",
    "R 3",
    "R 4",
    "R 5",
    "R 6",
    "R 7",
    "R 8",
    "R 9",
    "R 19",
    "R 23",
    "R 30",
    "L other",
];

/// A cylinder's line, as text; `-` is a blank.
type Fields = [String; 5];

/// What stands on a sheet, likewise.
struct Draft {
    need: String,
    lines: Vec<Fields>,
}

impl Draft {
    fn text(&self) -> Vec<u8> {
        let mut text = format!("N {}\n", self.need);
        for [number, temperature, kind, value, volume] in &self.lines {
            text += &format!("C {number} {temperature} {kind} {value} {volume}\n");
        }
        text.into_bytes()
    }

    fn any_field(&mut self, rng: &mut Rng) -> &mut String {
        let lines = self.lines.len() as u64;
        if lines == 0 || rng.one_in(6) {
            return &mut self.need;
        }
        let line = &mut self.lines[rng.below(lines) as usize];
        &mut line[rng.pick(&[0usize, 1, 3, 4])]
    }

    /// The cylinder number of any line.
    fn any_cylinder(&mut self, rng: &mut Rng) -> &mut String {
        let line = rng.below(self.lines.len() as u64);
        &mut self.lines[line as usize][0]
    }
}

/// A number with as many digits as one of 1 to `digits` has, each count alike.
fn number(rng: &mut Rng, digits: u64) -> u64 {
    let digits = rng.between(1, digits) as u32;
    if digits == 1 {
        rng.below(10)
    } else {
        rng.between(10u64.pow(digits - 1), 10u64.pow(digits) - 1)
    }
}

fn good_volume(rng: &mut Rng) -> u64 {
    match rng.below(4) {
        0 => rng.pick(&[1, 10, 1000, 40000, 67500, 1000000]),
        1 => rng.between(1, 1000000),
        _ => rng.between(1, 80) * 1000,
    }
}

/// A line that a door will most likely answer.
fn good_line(rng: &mut Rng) -> Fields {
    let volume = good_volume(rng);
    let (temperature, kind, value) = match rng.below(10) {
        // at 30 MPa a vapour of 523 K has more than 380 kg/m³
        0..=2 => (rng.between(3051283, 5230000), "D", rng.between(600, 300000)),
        // cold liquid, and cold vapour
        3 => (rng.between(2200000, 2227000), "D", rng.between(1168000, 1195000)),
        4 => (rng.between(2300000, 3031281), "D", rng.between(300, 20000)),
        // at 8 MPa it is fluid from 218.18 K on, at 30 MPa from 222.7146 K on
        5 => (rng.between(2227146, 5230000), "P", rng.between(1, 300) * 100000),
        6 => (rng.between(2181800, 3031281), "P", rng.between(10000, 8000000)),
        _ => (rng.between(2227146, 5230000), "P", rng.between(10000, 30000000)),
    };
    [number(rng, 4).to_string(), temperature.to_string(), kind.to_string(), value.to_string(), volume.to_string()]
}

/// Cold liquid in a vessel of 800 to 1,000 litres: some 10⁹ mg.
fn full_line(rng: &mut Rng) -> Fields {
    let (temperature, density, volume) = (rng.between(2200000, 2227000), rng.between(1168000, 1195000), rng.between(800000, 1000000));
    [number(rng, 4).to_string(), temperature.to_string(), "D".to_string(), density.to_string(), volume.to_string()]
}

fn any_line(rng: &mut Rng) -> Fields {
    let temperature = if rng.one_in(4) { rng.between(2160000, 5240000) } else { rng.between(2165920, 5230000) };
    let (kind, value) = if rng.one_in(2) { ("P", rng.between(1, 30100000)) } else { ("D", rng.between(1, 1310000)) };
    let volume = if rng.one_in(8) { rng.between(0, 1100000) } else { rng.between(1, 1000000) };
    [number(rng, 10).to_string(), temperature.to_string(), kind.to_string(), value.to_string(), volume.to_string()]
}

/// The first and last numbers of every range, and those beside them.
fn edge_line(rng: &mut Rng) -> Fields {
    let beside = |rng: &mut Rng, of: &[u64]| {
        let edge = rng.pick(of);
        (edge + rng.below(3)).saturating_sub(1)
    };
    let pressure = rng.one_in(2);
    let temperature = beside(rng, &[2165920, 5230000, 3031282, 3051282, 3041282, 3000000, 2170000, 2175460, 2227145, 0]);
    let value = match pressure {
        true => beside(rng, &[10000, 30000000, 7000000, 8000000, 7377300, 5000000, 517950, 2429700]),
        false => beside(rng, &[100, 1300000, 350700, 584500, 467600, 101000, 13760, 1180969]),
    };
    let volume = if rng.one_in(2) { beside(rng, &[1, 1000000]) } else { 40000 };
    [number(rng, 10).to_string(), temperature.to_string(), if pressure { "P" } else { "D" }.to_string(), value.to_string(), volume.to_string()]
}

/// A weighed line (RULES 6.7), with a temperature that is not looked at: most often none, else any.
fn weighed_line(rng: &mut Rng, cylinder: u64, grams: impl ToString, volume: impl ToString) -> Fields {
    let temperature = match rng.below(6) {
        0 => rng.between(2165920, 5230000).to_string(),
        1 => number(rng, 10).to_string(),
        2 => rng.pick(&["0", "1", "2165919", "5230001", "3031282", "9999999999"]).to_string(),
        _ => "-".to_string(),
    };
    [cylinder.to_string(), temperature, "W".to_string(), grams.to_string(), volume.to_string()]
}

/// One that is answered: up to a gram for a millilitre, which is more than a cylinder is filled with.
fn good_weighed(rng: &mut Rng) -> Fields {
    let (cylinder, volume) = (number(rng, 4), good_volume(rng));
    let grams = rng.between(1, volume);
    weighed_line(rng, cylinder, grams, volume)
}

/// Some 10⁹ mg.
fn full_weighed(rng: &mut Rng) -> Fields {
    let (cylinder, grams) = (number(rng, 4), rng.between(800000, 1200000));
    weighed_line(rng, cylinder, grams, 1000000)
}

/// Up to 9,999,999,999 g, which are 13 digits of mg.
fn heavy_weighed(rng: &mut Rng) -> Fields {
    let (cylinder, volume) = (number(rng, 4), good_volume(rng));
    let grams = match rng.below(4) {
        0 => 9999999999,
        1 => rng.between(4200000000, 4400000000),
        _ => rng.between(1, 9) * 1000000000 + rng.below(1000000000),
    };
    weighed_line(rng, cylinder, grams, volume)
}

fn any_weighed(rng: &mut Rng) -> Fields {
    let (cylinder, grams) = (number(rng, 10), if rng.one_in(8) { 0 } else { number(rng, 10) });
    let volume = if rng.one_in(8) { rng.between(0, 1100000) } else { rng.between(1, 1000000) };
    weighed_line(rng, cylinder, grams, volume)
}

/// The first and last masses and volumes, those beside them, and masses that fewer bits would cut; blanks too.
fn edge_weighed(rng: &mut Rng) -> Fields {
    let grams = match rng.below(8) {
        0 => "-".to_string(),
        1..=3 => rng.pick(&["0", "0", "1", "2"]).to_string(),
        4..=5 => rng.pick(&["9999999999", "9999999999", "9999999998", "999999999", "1000000000"]).to_string(),
        6 => (rng.pick(&[1 << 24, 1 << 31, (1 << 31) / 1000 + 1, 1 << 32, (1 << 32) / 1000 + 1]) + rng.below(3) - 1).to_string(),
        _ => number(rng, 10).to_string(),
    };
    let volume = rng.pick(&["-", "0", "0", "1", "2", "999999", "1000000", "1000001", "1000001", "9999999999", "40000", "40000", "67500", "67500"]);
    let cylinder = number(rng, 10);
    weighed_line(rng, cylinder, grams, volume)
}

/// How lines are made: read for a door, and weighed.
#[derive(Clone, Copy)]
struct Maker {
    read: fn(&mut Rng) -> Fields,
    weighed: fn(&mut Rng) -> Fields,
}

const GOOD: Maker = Maker { read: good_line, weighed: good_weighed };
const FULL: Maker = Maker { read: full_line, weighed: full_weighed };
const HEAVY: Maker = Maker { read: full_line, weighed: heavy_weighed };
const ANY: Maker = Maker { read: any_line, weighed: any_weighed };
const EDGE: Maker = Maker { read: edge_line, weighed: edge_weighed };

impl Maker {
    /// A line that is weighed so many times out of six.
    fn line(self, rng: &mut Rng, of_six: u64) -> Fields {
        if rng.below(6) < of_six {
            (self.weighed)(rng)
        } else {
            (self.read)(rng)
        }
    }
}

/// How many of six lines are weighed, on a sheet of no particular kind: on two of three none.
fn some_weighed(rng: &mut Rng) -> u64 {
    rng.pick(&[0, 0, 0, 0, 1, 3])
}

fn sheet(rng: &mut Rng, most: u64, maker: Maker) -> Draft {
    let of_six = some_weighed(rng);
    sheet_of(rng, most, maker, of_six)
}

/// No cylinder stands on two of its lines: a number that was drawn before is drawn again.
fn sheet_of(rng: &mut Rng, most: u64, maker: Maker, of_six: u64) -> Draft {
    let need = match rng.below(4) {
        0 => number(rng, 10).max(1),
        _ => rng.between(1, 100000000),
    };
    let count = if rng.one_in(4) { most } else { rng.between(1, most) };
    let mut lines: Vec<Fields> = Vec::new();
    for _ in 0..count {
        let mut new = maker.line(rng, of_six);
        while lines.iter().any(|earlier| earlier[0] == new[0]) {
            new[0] = number(rng, 4).to_string();
        }
        lines.push(new);
    }
    Draft { need: need.to_string(), lines }
}

/// A line that is refused for what stands on it, by 1, by 2, by 23 or by its door; but a weighed line's temperature spoils nothing. Its cylinder
/// number stays.
fn spoil(rng: &mut Rng, line: &mut Fields) {
    let (field, wrong) = match rng.below(6) {
        0 => (4, rng.pick(&["0", "1000001"])),
        1 => (1, rng.pick(&["0", "2165919", "5230001"])),
        2 => (3, "0"),
        _ => (rng.pick(&[1, 3, 4]), "-"),
    };
    line[field] = wrong.to_string();
}

/// A sheet with a cylinder on several lines (RULES 6.6), or with several such: a line copied whole or its number alone, just behind the first, at
/// the sheet's end or anywhere between. `spoilt`: the first, the later or both would be refused without it.
fn repeated(rng: &mut Rng, maker: Maker, of_six: u64, spoilt: bool) -> Draft {
    let times = rng.between(1, 3);
    let mut draft = sheet_of(rng, 32 - times, maker, of_six);
    if rng.one_in(8) {
        *draft.any_cylinder(rng) = "0".to_string();
    }
    for _ in 0..times {
        let count = draft.lines.len() as u64;
        let at = if rng.one_in(4) { 0 } else { rng.below(count) };
        let to = match rng.below(3) {
            0 => at + 1,
            1 => count,
            _ => rng.between(at + 1, count),
        };
        let first = &mut draft.lines[at as usize];
        let mut later = if rng.one_in(2) { first.clone() } else { maker.line(rng, of_six) };
        later[0] = first[0].clone();
        let which = if spoilt { rng.between(1, 3) } else { 0 };
        if which & 1 == 1 {
            spoil(rng, first);
        }
        if which & 2 == 2 {
            spoil(rng, &mut later);
        }
        draft.lines.insert(to as usize, later);
    }
    if rng.one_in(8) {
        let number = draft.lines[0][0].clone();
        draft.lines.iter_mut().for_each(|line| line[0] = number.clone());
    }
    draft
}

/// Another number, which a careless comparison would take for this one.
fn nearly(rng: &mut Rng, number: u64) -> u64 {
    let like = match rng.below(5) {
        0 => 10 * number + rng.below(10),
        1 => number / 10,
        2 => number + rng.between(1, 9) * 10u64.pow(rng.below(10) as u32),
        3 => number + rng.between(1, 2) * (1 << rng.pick(&[8, 16, 31, 32])),
        _ => number + 1,
    };
    like % 10_000_000_000
}

/// A good sheet on which each cylinder number is nearly that of an earlier line, and no two are the same.
fn nearly_repeated(rng: &mut Rng) -> Draft {
    let mut draft = sheet(rng, 32, GOOD);
    let mut numbers = vec![number(rng, 10)];
    while numbers.len() < draft.lines.len() {
        let earlier = rng.pick(&numbers);
        let new = nearly(rng, earlier);
        if !numbers.contains(&new) {
            numbers.push(new);
        }
    }
    for (line, number) in draft.lines.iter_mut().zip(numbers) {
        line[0] = number.to_string();
    }
    draft
}

/// A good sheet whose need is the sum of its lines and so many more. Such a sheet may be one that has no sum, or one over 10 digits.
fn needing(rng: &mut Rng, more: u64) -> Vec<u8> {
    let mut draft = sheet(rng, 12, GOOD);
    if let Some(total) = score(&draft.text()).total() {
        draft.need = (total + more).to_string();
    }
    draft.text()
}

/// The need beside the sum of the lines, or what it would be beside if the sum were in grams or of fewer bits.
fn need_about(rng: &mut Rng, total: u64) -> u64 {
    let about = match rng.below(8) {
        0 => total / 1000,
        1 => total % (1 << 32),
        2 => total - total % 1000,
        _ => total,
    };
    let need = (about + rng.pick(&[0, 1, 2, 1000, 1001, 1002, 2001])).saturating_sub(1001);
    need.clamp(1, 9999999999)
}

fn of_the_form(rng: &mut Rng) -> u8 {
    rng.pick(b"NCPDW  --00123456789\n\n")
}

fn damage(rng: &mut Rng, text: &mut Vec<u8>) {
    for _ in 0..rng.between(1, 3) {
        let len = text.len() as u64;
        let at = rng.below(len + 1) as usize;
        let byte = match rng.below(4) {
            0 => rng.below(256) as u8,
            1 => rng.pick(b"\r\t+.,eE/:\0\x7f\x80\xff"),
            _ => of_the_form(rng),
        };
        match rng.below(5) {
            0 if at < text.len() => text[at] = byte,
            1 => text.insert(at, byte),
            2 if at < text.len() => {
                text.remove(at);
            }
            3 if at + 1 < text.len() => text.swap(at, at + 1),
            4 if len > 0 => {
                let other = rng.below(len) as usize;
                let at = at.min(text.len() - 1);
                text.swap(at, other);
            }
            _ => text.truncate(at),
        }
    }
}

/// A line's letter that is another, or two, or none, or without the space beside it, or without the number in front of it or behind it.
fn wrong_letter(rng: &mut Rng, text: &mut Vec<u8>) {
    let letters: Vec<usize> = (0..text.len()).filter(|&i| b"PDW".contains(&text[i])).collect();
    let at = rng.pick(&letters);
    match rng.below(10) {
        0..=1 => text[at] = text[at].to_ascii_lowercase(),
        2 => text[at] = rng.pick(b"VXMGTNCKQ-01 \0"),
        3 => text.insert(at, rng.pick(b"PDWW-")),
        4 => text.insert(at, text[at]),
        5 => drop(text.remove(at)),
        6..=7 => drop(text.remove(rng.pick(&[at - 1, at + 1]))),
        _ => {
            let (before, behind) = (&text[..at - 1], &text[at + 2..]);
            let front = before.iter().rposition(|&byte| byte == b' ').expect("a number in front");
            let end = behind.iter().position(|&byte| byte == b' ').expect("a number behind");
            let without = rng.pick(&[(front, at - 1), (at + 1, at + 2 + end)]);
            text.drain(without.0..without.1);
        }
    }
}

/// A text in the form, or nearly, of just so many bytes: lines of the same number as often as it takes, and digits to fill up.
fn long_text(rng: &mut Rng) -> Vec<u8> {
    let bytes = rng.between(65535, 65538) as usize;
    let mut text = b"N 1\n".to_vec();
    let shortest = rng.pick(&[b"C 1 1 P 1 1\n", b"C 1 1 P 1 1\n", b"C 1 - W 1 1\n"]);
    while bytes - text.len() >= 2 * shortest.len() {
        text.extend(shortest);
    }
    // the last line takes 12 to 23 bytes: up to 11 more than the shortest, in two numbers
    let more = bytes - text.len() - shortest.len();
    let (first, second) = (more.min(9), more - more.min(9));
    text.extend(format!("C 1{} 1{} P 1 1\n", "0".repeat(first), "0".repeat(second)).bytes());
    text
}

fn text_of(rng: &mut Rng, kind: usize) -> Vec<u8> {
    match kind {
        0 => sheet(rng, 32, GOOD).text(),
        1 => needing(rng, 0),
        2 => needing(rng, 1),
        3 => sheet(rng, 32, ANY).text(),
        4 => {
            let mut draft = sheet(rng, 32, EDGE);
            if rng.one_in(4) {
                draft.need = rng.pick(&["0", "1", "9999999999", "9999999998", "10000000000", "-"]).to_string();
            }
            draft.text()
        }
        5 => {
            let mut draft = sheet(rng, 12, GOOD);
            for _ in 0..rng.between(1, 4) {
                *draft.any_field(rng) = "-".to_string();
            }
            draft.text()
        }
        6 => {
            let mut draft = sheet(rng, 12, GOOD);
            for _ in 0..rng.between(1, 4) {
                let number = match rng.below(8) {
                    0 => format!("0{}", number(rng, 9)),
                    1 => "0".to_string(),
                    _ => number(rng, 11).to_string(),
                };
                *draft.any_field(rng) = number;
            }
            draft.text()
        }
        7 => {
            let lines = match rng.below(60) {
                0..=19 => 0,
                20..=22 => rng.between(33, 1500),
                _ => rng.between(33, 40),
            };
            let mut draft = sheet(rng, 1, ANY);
            let of_six = some_weighed(rng);
            draft.lines = (0..lines).map(|_| ANY.line(rng, of_six)).collect();
            for _ in 0..rng.below(3) {
                *draft.any_field(rng) = "-".to_string();
            }
            let mut text = draft.text();
            if rng.one_in(4) {
                damage(rng, &mut text);
            }
            text
        }
        8 => long_text(rng),
        9 => {
            let mut text = sheet(rng, 6, GOOD).text();
            damage(rng, &mut text);
            text
        }
        10 => (0..rng.below(60)).map(|_| of_the_form(rng)).collect(),
        11 => (0..rng.below(200)).map(|_| rng.below(256) as u8).collect(),
        12 => sheet(rng, 32, FULL).text(),
        13 => {
            let of_six = some_weighed(rng);
            repeated(rng, GOOD, of_six, false).text()
        }
        14 => {
            let (maker, of_six) = (rng.pick(&[GOOD, ANY, EDGE]), some_weighed(rng));
            repeated(rng, maker, of_six, true).text()
        }
        15 => {
            let of_six = some_weighed(rng);
            let mut draft = repeated(rng, GOOD, of_six, false);
            for _ in 0..rng.between(2, 4) {
                *draft.any_cylinder(rng) = "-".to_string();
            }
            if !rng.one_in(4) {
                *draft.any_cylinder(rng) = "0".to_string();
            }
            if rng.one_in(8) {
                draft.need = "-".to_string();
            }
            draft.text()
        }
        16 => nearly_repeated(rng).text(),
        17 => sheet_of(rng, 32, GOOD, 6).text(),
        18 => {
            let of_six = rng.pick(&[1, 3, 6, 6]);
            let mut draft = sheet_of(rng, 12, GOOD, of_six);
            if let Some(total) = score(&draft.text()).total() {
                draft.need = need_about(rng, total).to_string();
            }
            draft.text()
        }
        19 => {
            let of_six = rng.pick(&[3, 6]);
            sheet_of(rng, 32, ANY, of_six).text()
        }
        20 => {
            let of_six = rng.pick(&[3, 6]);
            let mut draft = sheet_of(rng, 12, EDGE, of_six);
            if rng.one_in(8) {
                draft.need = rng.pick(&["0", "1", "9999999999", "10000000000", "-"]).to_string();
            }
            draft.text()
        }
        21 => {
            let mut draft = sheet_of(rng, 12, GOOD, 3);
            for _ in 0..rng.between(1, 6) {
                *draft.any_field(rng) = "-".to_string();
            }
            for _ in 0..rng.below(3) {
                let line = rng.below(draft.lines.len() as u64) as usize;
                draft.lines[line][2] = rng.pick(&["P", "D", "W"]).to_string();
            }
            draft.text()
        }
        22 => {
            let (maker, of_six) = (rng.pick(&[GOOD, GOOD, ANY, EDGE]), rng.pick(&[3, 6]));
            let spoilt = !rng.one_in(4);
            repeated(rng, maker, of_six, spoilt).text()
        }
        23 => {
            let of_six = rng.pick(&[5, 6]);
            let mut draft = sheet_of(rng, 32, HEAVY, of_six);
            if rng.one_in(4) {
                draft.lines.iter_mut().filter(|line| line[2] == "W").for_each(|line| line[3] = "9999999999".to_string());
            }
            if rng.one_in(2) {
                draft.need = "9999999999".to_string();
            }
            draft.text()
        }
        _ => {
            let mut text = sheet_of(rng, 6, GOOD, 3).text();
            wrong_letter(rng, &mut text);
            text
        }
    }
}

/// A report's line without its numbers but those of refusals: `L M`, `L R 4`, `TOTAL SHORT`, `SENT BACK 13`.
fn kind_of(line: &[u8]) -> String {
    let parts: Vec<_> = String::from_utf8_lossy(line).split(' ').map(String::from).collect();
    match parts.iter().map(String::as_str).collect::<Vec<_>>()[..] {
        ["L", _, "M", _] => "L M".to_string(),
        ["L", _, "R", number] => format!("L R {number}"),
        ["TOTAL", _, verdict] => format!("TOTAL {verdict}"),
        _ => parts.join(" "),
    }
}

/// How the lines of two reports differ, each kind of difference once for each line; what was lent doesn't matter.
fn changes(got: &[u8], right: &[u8]) -> Vec<String> {
    let [got, right] = [got, right].map(|report| report.split(|&byte| byte == b'\n').collect::<Vec<_>>());
    if got.len() != right.len() {
        // behind the last LF stands nothing, so that one line alone is two parts
        let told = |lines: Vec<&[u8]>| if lines.len() == 2 { format!("`{}` alone", kind_of(lines[0])) } else { "a line for each cylinder".into() };
        let [got, right] = [got, right].map(told);
        return vec![format!("{got} written where {right} is right")];
    }
    let pairs = got.iter().zip(&right).filter(|(got, right)| got != right);
    let told: Vec<_> = pairs.map(|(got, right)| format!("`{}` written where `{}` is right", kind_of(got), kind_of(right))).collect();
    if told.is_empty() {
        return vec!["the right report, in other bytes of what was lent".to_string()];
    }
    told
}

/// Bytes that are not lent, before and after those that are.
const GUARD: usize = 16;

fn case(seed: u64, index: u64, tally: &mut Tally) {
    let mut rng = Rng::of_case(seed, 2, index);
    let kind = rng.by_share(&SHARES);
    let mut text = text_of(&mut rng, kind);
    let text_len = text.len();
    let outcome = score(&text);
    let report = outcome.report();
    let len = report.len() as u64;
    let lent = match rng.below(10) {
        0 => len - 1,
        1 => rng.below(len),
        2..=4 => len,
        5 => len + 1,
        6 => 1512,
        _ => len + rng.below(100),
    } as usize;
    let fits = report.len() <= lent;
    let mut got: Vec<u8> = (0..lent + 2 * GUARD).map(|_| rng.below(256) as u8).collect();
    let mut expected = got.clone();
    if fits {
        expected[GUARD..GUARD + report.len()].copy_from_slice(&report);
    }
    // what stands behind the text could go on with it
    text.extend((0..GUARD).map(|_| of_the_form(&mut rng)));
    let before = text.clone();
    let expected_len = if fits { len } else { 0 };
    let got_len = library::report(&text[..text_len], &mut got[GUARD..GUARD + lent]);

    let count = &mut tally.counts[kind];
    let ending = match outcome.ending() {
        Ending::Covered => 0,
        Ending::Short => 1,
        Ending::SentBack(number) => number as usize - 8,
    };
    count[ending] += 1;
    count[7] += u64::from(!fits);
    count[8] += u64::from(report.len() == lent);
    let weighed = read(&text[..text_len]).is_some_and(|sheet| sheet.lines.iter().any(|line| line.kind == Kind::Weighed));
    count[9] += u64::from(weighed);
    if let Outcome::Weighed { lines, .. } = &outcome {
        for line in lines {
            let column = match line {
                Ok(_) => 10,
                Err(number @ 1..=9) => 10 + *number as usize,
                Err(19) => 20,
                Err(23) => 21,
                Err(30) => 22,
                Err(_) => 23,
            };
            count[column] += 1;
        }
    }
    if got_len != expected_len || got != expected {
        let mut out = [0; 1512];
        let len = library::report(&text[..text_len], &mut out) as usize;
        for change in changes(&out[..len], &report) {
            tally.change(format!("makhroeng_report: {change}{}", if weighed { ", with a weighed line" } else { "" }));
        }
    }
    let digest = digest([expected_len].into_iter().chain(text[..text_len].iter().chain(&expected).map(|&byte| u64::from(byte))));
    tally.note(index, digest, got_len == expected_len && got == expected && text == before, || {
        let mut told = format!("makhroeng_report(text, {text_len}, out, {lent}) ({}):\n", KINDS[kind]);
        told += &format!("    {expected_len} expected, {got_len} answered\n    text: \"{}\"\n", text[..text_len].escape_ascii());
        told += &format!("    report expected: \"{}\"\n", report.escape_ascii());
        for i in (0..got.len()).filter(|&i| got[i] != expected[i]).take(8) {
            told += &format!("    out[{}]: {:02x} expected, {:02x} left\n", i as i64 - GUARD as i64, expected[i], got[i]);
        }
        told
    });
}

pub fn compare(seed: u64, texts: u64, threads: usize) -> (Tally, Duration) {
    let (tally, took) = run("texts", texts, threads, [KINDS.len(), COLUMNS.len()], |index, tally| case(seed, index, tally));
    let title = format!("sheets: {texts} texts in {:.1} s, {:.0} a second", took.as_secs_f64(), texts as f64 / took.as_secs_f64());
    tally.print(&title, &KINDS, &COLUMNS.map(String::from));
    (tally, took)
}
