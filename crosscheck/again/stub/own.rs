//! This implementation behind the library's interface, whole or with one fault, to show what the comparison finds. FAULT, when it is
//! compiled, is one of those below, or none of them: the file edits has others.

#![allow(dead_code)]

#[path = "../src/conductivity.rs"]
mod conductivity;
#[path = "../src/doors.rs"]
mod doors;
#[path = "../src/equation.rs"]
mod equation;
#[path = "../src/melting.rs"]
mod melting;
#[path = "../src/numbers.rs"]
mod numbers;
#[path = "../src/saturation.rs"]
mod saturation;
#[path = "../src/sheet.rs"]
mod sheet;
#[path = "../src/tables.rs"]
mod tables;
#[path = "../src/words.rs"]
mod words;

fn fault(name: &str) -> bool {
    option_env!("FAULT") == Some(name)
}

/// The arguments of the exponentials of rows 8 to 42, one for each row (docs/ARRANGEMENT.md, sections 2, 5 and 6).
fn arguments(t: f64, rho: f64) -> Vec<f64> {
    let (delta, tau) = (rho / equation::CRITICAL_DENSITY, equation::CRITICAL_TEMPERATURE / t);
    let bell = |a: f64, b: f64, gamma: f64| {
        let (x, y) = (delta - 1.0, tau - gamma);
        -(a * (x * x) + b * (y * y))
    };
    let falling = tables::ROWS[7..].iter().map(|row| -numbers::whole_power(delta, row.c as u32));
    let gaussians = tables::GAUSSIANS.iter().map(|row| bell(row.alpha, row.beta, row.gamma));
    let sharps = tables::SHARPS.iter().map(|row| &tables::SHAPES[row.shape]).map(|shape| bell(shape.kc, shape.kd, 1.0));
    falling.chain(gaussians).chain(sharps).collect()
}

/// How many rows fell away, or what a fault takes for it.
fn count(t: f64, state: &equation::State, by_pressure: bool) -> u32 {
    let rho = state.eight[2];
    let fallen = |rho: f64| arguments(t, rho).into_iter().filter(|&x| x < -36.0).collect::<Vec<_>>();
    let fell = |row: usize| u32::from(arguments(t, rho)[row - 8] < -36.0);
    let ideal = || tables::IDEAL.iter().filter(|(_, theta)| -(theta * (equation::CRITICAL_TEMPERATURE / t)) < -36.0).count() as u32;
    if fault("ideal-part-counted") {
        state.fallen + ideal()
    } else if fault("rows-of-one-exponential-counted-once") {
        let mut each = fallen(rho);
        each.dedup();
        each.len() as u32
    } else if fault("rows-36-and-37-counted-once") {
        state.fallen - fell(37)
    } else if fault("rows-40-and-41-counted-once") {
        state.fallen - fell(41)
    } else if fault("rows-40-to-42-not-counted") {
        state.fallen - (40..=42).map(fell).sum::<u32>()
    } else if fault("an-argument-of-minus-36-counted") {
        arguments(t, rho).into_iter().filter(|&x| x <= -36.0).count() as u32
    } else if fault("count-at-one-percent-more-density") {
        fallen(1.01 * rho).len() as u32
    } else if fault("count-at-the-next-density") && by_pressure {
        fallen(f64::from_bits(rho.to_bits() + 1)).len() as u32
    } else if fault("pressure-worked-before-counted-too") && !by_pressure {
        2 * state.fallen
    } else {
        state.fallen
    }
}

/// Eq. (3) of 002 (docs/ARRANGEMENT.md, section 13), or what a fault takes for it.
fn dilute_gas(t: f64, r: f64) -> f64 {
    let of = if fault("root-of-the-temperature") { t } else { r };
    let each = |k: u32| {
        let (l, power) = (conductivity::L[k as usize], numbers::whole_power(r, k));
        if fault("table-3-times-the-powers") {
            l * power
        } else {
            l / power
        }
    };
    numbers::root(of, 1, 2) / (((each(0) + each(1)) + each(2)) + each(3))
}

/// Eq. (10), likewise.
fn critical_enhancement(r: f64, delta: f64) -> f64 {
    let (t, d) = (r - 1.0, delta - 1.0);
    let square = if fault("d-for-its-square") { d } else { d * d };
    let cube = (d * d) * d;
    let mixed = if fault("2.302-times-t-d") { 2.302 * (t * d) } else { (2.302 * t) * d };
    let three = (8.865 * t + 4.16 * square) + mixed;
    let (e, _said) = numbers::exponential(if fault("sign-of-the-cube-turned") { three + cube } else { three - cube });
    (-17.47 - 44.88 * t) / (((0.8563 - e) - 0.4503 * d) - 7.197 * t)
}

/// Eq. (1), likewise.
fn conductivity(t: f64, rho: f64) -> Option<f64> {
    let r = if fault("r-as-one-over-tau") { 1.0 / (equation::CRITICAL_TEMPERATURE / t) } else { t / equation::CRITICAL_TEMPERATURE };
    let delta = rho / equation::CRITICAL_DENSITY;
    let residual = conductivity::residual(r, delta);
    let residual = if fault("table-4-as-milliwatts") { residual / 1000.0 } else { residual };
    let enhancement = if fault("no-enhancement") { 0.0 } else { critical_enhancement(r, delta) };
    let sum = (dilute_gas(t, r) / 1000.0 + residual) + enhancement / 1000.0;
    Some(if fault("conductivity-in-milliwatts") { 1000.0 * sum } else { sum }).filter(|x| x.is_finite())
}

/// `counts`: with the count behind the eight numbers, where nine are lent, and the conductivity behind it, where ten are.
fn answer(t: f64, x: f64, door: fn(f64, f64) -> doors::Answer, figures: &mut [f64], counts: bool) -> u32 {
    if fault("refuses-everything") {
        return 7;
    }
    if figures.len() == 8 && counts && fault("15-where-eight-are-lent") {
        return 15;
    }
    if figures.len() == 9 && counts && fault("15-where-nine-are-lent") {
        return 15;
    }
    if figures.len() < 8 {
        if fault("writes-where-too-few-are-lent") && !figures.is_empty() {
            figures[0] = t;
        }
        return if fault("refusal-before-15") { door(t, x).map_or_else(|number| number, |_| 15) } else { 15 };
    }
    let by_pressure = door as usize == doors::from_pressure as *const () as usize;
    let above_the_line = by_pressure && melting::melting_pressure(t).is_some_and(|line| x > line);
    match door(t, x) {
        Ok(_) if fault("solid-at-the-melting-pressure") && by_pressure && melting::melting_pressure(t) == Some(x) => 19,
        Ok((phase, state)) => {
            let mut eight = state.eight;
            let conductivity = conductivity(eight[0], eight[2]);
            let asked = counts && figures.len() > 9;
            if asked && conductivity.is_none() {
                return 7;
            }
            if fault("sound-speed-one-float-up-in-one-of-4096") && eight[7].to_bits() % 4096 == 7 {
                eight[7] = f64::from_bits(eight[7].to_bits() + 1);
            }
            if fault("upper-neighbour") && by_pressure {
                eight[2] = f64::from_bits(eight[2].to_bits() + 1);
            }
            if fault("ninth-number") && figures.len() > 8 && !counts {
                figures[8] = 0.0;
            }
            if fault("eleventh-number") && figures.len() > 10 && counts {
                figures[10] = 0.0;
            }
            if fault("sound-speed-one-float-up-beside-the-count") && counts {
                eight[7] = f64::from_bits(eight[7].to_bits() + 1);
            }
            if fault("number-before-the-first") {
                // SAFETY: the comparison keeps numbers there
                unsafe { *figures.as_mut_ptr().sub(1) = 0.0 };
            }
            figures[..8].copy_from_slice(&eight);
            if counts && figures.len() > 8 && !fault("no-count") {
                let count = count(t, &state, by_pressure);
                figures[8] = if fault("count-as-the-bits-of-a-whole-number") { f64::from_bits(u64::from(count)) } else { f64::from(count) };
            }
            if counts && figures.len() == 8 && fault("count-behind-the-eight-lent") {
                // SAFETY: the comparison keeps numbers there
                unsafe { *figures.as_mut_ptr().add(8) = f64::from(state.fallen) };
            }
            if let Some(x) = conductivity {
                if asked && !fault("no-conductivity") || !counts && figures.len() > 9 && fault("conductivity-beside-the-eight") {
                    figures[9] = x;
                }
                if counts && figures.len() == 9 && fault("conductivity-behind-the-nine-lent") {
                    // SAFETY: the comparison keeps numbers there
                    unsafe { *figures.as_mut_ptr().add(9) = x };
                }
            }
            if asked && fault("7-with-figures-in-one-of-64") && eight[7].to_bits() % 64 == 7 {
                return 7;
            }
            match phase {
                doors::Phase::Vapour => 256,
                doors::Phase::Liquid => 257,
                doors::Phase::Supercritical => 258,
            }
        }
        Err(number) => {
            if fault("writes-where-refused") {
                figures[0] = t;
            }
            if counts && figures.len() > 8 && fault("count-where-refused") {
                figures[8] = 0.0;
            }
            if counts && figures.len() > 9 && fault("conductivity-where-refused") {
                figures[9] = 0.0;
            }
            match number {
                5 if fault("19-before-5") && above_the_line => 19,
                8 if fault("saturation-line-as-vapour") => 256,
                19 if fault("solid-as-liquid-by-density") && !by_pressure => 257,
                _ => number,
            }
        }
    }
}

/// How many places the four lengths are of (RULES 12), or what a fault takes for it; none where they don't fit.
fn places([temperatures, pressures, answers, figures]: [usize; 4]) -> Option<usize> {
    let least = temperatures.min(pressures).min(answers).min(figures / 10);
    let fits = if fault("15-for-too-few-alone") {
        pressures >= temperatures && answers >= temperatures && figures >= 10 * temperatures
    } else if fault("15-for-too-many-alone") {
        pressures <= temperatures && answers <= temperatures && figures <= 10 * temperatures
    } else if fault("more-temperatures-taken") {
        pressures <= temperatures && answers == pressures && figures == 10 * pressures
    } else if fault("pressures-not-counted") {
        answers == temperatures && figures == 10 * temperatures
    } else if fault("more-pressures-taken") {
        pressures >= temperatures && answers == temperatures && figures == 10 * temperatures
    } else if fault("answers-not-counted") {
        pressures == temperatures && figures == 10 * temperatures
    } else if fault("more-answers-taken") {
        pressures == temperatures && answers >= temperatures && figures == 10 * temperatures
    } else if fault("figures-not-counted") {
        pressures == temperatures && answers == temperatures
    } else if fault("more-figures-taken") {
        pressures == temperatures && answers == temperatures && figures >= 10 * temperatures
    } else if fault("figures-counted-by-tens") {
        pressures == temperatures && answers == temperatures && figures / 10 == temperatures
    } else if fault("eight-figures-a-place-taken") {
        pressures == temperatures && answers == temperatures && (figures == 10 * temperatures || figures == 8 * temperatures)
    } else if fault("nine-figures-a-place-taken") {
        pressures == temperatures && answers == temperatures && (figures == 10 * temperatures || figures == 9 * temperatures)
    } else if fault("lengths-by-their-sum") {
        pressures + answers == 2 * temperatures && figures == 10 * temperatures
    } else if fault("as-many-as-there-is-room-for") {
        true
    } else {
        pressures == temperatures && answers == temperatures && figures == 10 * temperatures
    };
    let none = temperatures == 0 && fault("15-for-none-at-all");
    let many = temperatures > 255 && fault("15-for-more-than-255");
    Some(least).filter(|_| fits && !none && !many)
}

/// Many states at once (RULES 12), likewise.
fn many(temperatures: &[f64], pressures: &[f64], answers: &mut [u32], figures: &mut [f64]) -> u32 {
    let Some(places) = places([temperatures.len(), pressures.len(), answers.len(), figures.len()]) else {
        if fault("answers-where-lengths-do-not-fit") {
            answers.iter_mut().for_each(|answer| *answer = 15);
        }
        if fault("first-place-worked-before-the-lengths") && temperatures.len().min(pressures.len()).min(answers.len()) > 0 && figures.len() > 9 {
            answers[0] = answer(temperatures[0], pressures[0], doors::from_pressure, &mut figures[..10], true);
        }
        if fault("figures-zeroed-where-lengths-do-not-fit") {
            figures.fill(0.0);
        }
        return if fault("0-for-15") { 0 } else { 15 };
    };
    if fault("figures-zeroed-first") {
        figures.fill(0.0);
    }
    let places = if fault("last-place-left-out") { places.saturating_sub(1) } else { places };
    let places = if fault("places-as-a-byte") { places as u8 as usize } else { places };
    let mut before = None;
    for place in if fault("first-place-left-out") { 1.min(places) } else { 0 }..places {
        let (mut t, mut p) = (temperatures[place], pressures[place]);
        if fault("temperature-of-the-place-before") && place > 0 {
            t = temperatures[place - 1];
        }
        if fault("first-pressure-for-all") {
            p = pressures[0];
        }
        if fault("pressures-from-the-back") {
            p = pressures[places - 1 - place];
        }
        if fault("temperature-and-pressure-exchanged") {
            (t, p) = (p, t);
        }
        let door = if fault("many-by-density") { doors::from_density } else { doors::from_pressure };
        let len = if fault("many-without-the-conductivity") {
            9
        } else if fault("many-the-eight-alone") {
            8
        } else {
            10
        };
        let apart = if fault("figures-eight-apart") {
            8
        } else if fault("figures-nine-apart") {
            9
        } else {
            10
        };
        let mut at = apart * place;
        if fault("figures-from-the-back") {
            at = figures.len() - 10 - at;
        }
        if fault("figures-without-gaps") {
            // those of a refused place are taken by the next state
            at = 10 * answers[..place].iter().filter(|&&answer| answer > 255).count();
        }
        let mut ten = [0.0; 10];
        ten.copy_from_slice(&figures[at..at + 10]);
        let number = match before {
            Some((before_t, number, state)) if fault("a-temperature-again-not-worked") && t == before_t => {
                ten = state;
                number
            }
            _ => answer(t, p, door, &mut ten[..len], true),
        };
        if number < 256 && fault("zeroed-where-a-place-is-refused") {
            ten = [0.0; 10];
        }
        if number < 256 && fault("nan-where-a-place-is-refused") {
            ten = [f64::NAN; 10];
        }
        if number < 256 && fault("state-before-where-a-place-is-refused") {
            ten = before.map_or(ten, |(_, _, state)| state);
        }
        if fault("figures-by-columns") {
            ten.iter().enumerate().for_each(|(k, &x)| figures[k * places + place] = x);
        } else {
            figures[at..at + 10].copy_from_slice(&ten);
        }
        let to = if fault("answers-one-place-on") { (place + 1) % places } else { place };
        answers[to] = match number {
            ..=255 if fault("0-where-a-place-is-refused") => 0,
            ..=255 if fault("answer-left-where-a-place-is-refused") => answers[to],
            256.. if fault("260-where-a-place-is-answered") => 260,
            _ => number,
        };
        if number < 256 && fault("stops-at-the-first-refusal") {
            break;
        }
        if number < 256 && fault("returns-the-first-refusal") {
            return number;
        }
        before = Some((t, number, ten));
    }
    if fault("answer-behind-the-last") {
        // SAFETY: the comparison keeps numbers there
        unsafe { *answers.as_mut_ptr().add(places) = 0 };
    }
    if fault("figure-behind-the-last") {
        // SAFETY: as above
        unsafe { *figures.as_mut_ptr().add(10 * places) = 0.0 };
    }
    if fault("returns-0") {
        0
    } else if fault("returns-how-many") {
        places as u32
    } else if fault("saturated-where-worked") {
        259
    } else if fault("15-where-any-place-is-refused") && answers.iter().any(|&answer| answer < 256) {
        15
    } else {
        260
    }
}

/// RULES 5.6, or what a fault takes for it.
fn saturated(t: f64) -> Result<[f64; 3], u32> {
    let at_critical = t == equation::CRITICAL_TEMPERATURE;
    match doors::saturation(t) {
        Ok(_) if fault("4-at-the-triple-point") && t == 216.592 => Err(4),
        Ok([p, vapour, liquid]) if fault("saturated-densities-exchanged") => Ok([p, liquid, vapour]),
        Ok([p, vapour, liquid]) if fault("vapour-pressure-one-float-up-in-one-of-64") && p.to_bits() % 64 == 7 => {
            Ok([f64::from_bits(p.to_bits() + 1), vapour, liquid])
        }
        Err(3) if fault("3-after-4") => Err(4),
        Err(3) if fault("4-for-an-infinity") && t.is_infinite() => Err(4),
        // each equation is 1 there, times its critical number
        Err(4) if fault("critical-temperature-answered") && at_critical => Ok([7377300.0, equation::CRITICAL_DENSITY, equation::CRITICAL_DENSITY]),
        // the roots of what is below 0 are refused
        Err(4) if fault("4-above-the-range-alone") && doors::TEMPERATURES[0] <= t && t <= doors::TEMPERATURES[1] && !at_critical => Err(7),
        answer => answer,
    }
}

fn saturation(t: f64, figures: &mut [f64]) -> u32 {
    let answer = saturated(t);
    if figures.len() < if fault("two-figures-are-enough") { 2 } else { 3 } {
        if fault("saturation-where-too-few-are-lent") && !figures.is_empty() {
            figures[0] = t;
        }
        return match answer {
            Err(3) if fault("15-after-3") => 3,
            Err(4) if fault("15-after-4") => 4,
            _ => 15,
        };
    }
    match answer {
        Ok(three) => {
            let given = figures.len().min(if fault("third-figure-left-out") { 2 } else { 3 });
            figures[..given].copy_from_slice(&three[..given]);
            if fault("fourth-figure") && figures.len() > 3 {
                figures[3] = 0.0;
            }
            if fault("supercritical-where-saturated") {
                258
            } else {
                259
            }
        }
        Err(number) => {
            if fault("saturation-where-refused") {
                figures[0] = t;
            }
            number
        }
    }
}

/// RULES 14.1, or what a fault takes for it.
fn words_of(number: u32) -> Option<String> {
    let number = match number {
        6 | 8 if fault("words-of-6-and-8-exchanged") => 14 - number,
        16 if fault("words-of-15-for-16") => 15,
        22 if fault("words-of-23-for-22") => 23,
        23 if fault("no-words-of-23") => 0,
        30 if fault("no-words-of-30") => 0,
        _ if fault("words-by-the-lowest-byte") => number % 256,
        _ => number,
    };
    let words = words::words(number)?;
    match words.split_once(". ") {
        Some((says, _)) if fault("words-without-what-to-do") => Some(says.to_string()),
        Some(_) if fault("words-of-6-and-8-as-before") => Some(words.replace(" and write W and the grams of agent", "")),
        _ => Some(words),
    }
}

/// # Safety
/// `figures` are `len` numbers.
#[no_mangle]
pub unsafe extern "C" fn makhroeng_from_pressure(t: f64, p: f64, figures: *mut f64, len: usize) -> u32 {
    answer(t, p, doors::from_pressure, std::slice::from_raw_parts_mut(figures, len), false)
}

/// # Safety
/// `figures` are `len` numbers.
#[no_mangle]
pub unsafe extern "C" fn makhroeng_from_density(t: f64, rho: f64, figures: *mut f64, len: usize) -> u32 {
    answer(t, rho, doors::from_density, std::slice::from_raw_parts_mut(figures, len), false)
}

/// # Safety
/// `figures` are `len` numbers.
#[no_mangle]
pub unsafe extern "C" fn makhroeng_state_from_pressure(t: f64, p: f64, figures: *mut f64, len: usize) -> u32 {
    answer(t, p, doors::from_pressure, std::slice::from_raw_parts_mut(figures, len), true)
}

/// # Safety
/// `figures` are `len` numbers.
#[no_mangle]
pub unsafe extern "C" fn makhroeng_state_from_density(t: f64, rho: f64, figures: *mut f64, len: usize) -> u32 {
    answer(t, rho, doors::from_density, std::slice::from_raw_parts_mut(figures, len), true)
}

/// # Safety
/// Each pointer is to as many as its length says.
#[no_mangle]
pub unsafe extern "C" fn makhroeng_states_from_pressure(
    temperatures: *const f64,
    temperatures_len: usize,
    pressures: *const f64,
    pressures_len: usize,
    answers: *mut u32,
    answers_len: usize,
    figures: *mut f64,
    figures_len: usize,
) -> u32 {
    let (answers, lent) = (std::slice::from_raw_parts_mut(answers, answers_len), std::slice::from_raw_parts_mut(figures, figures_len));
    let asked = [(temperatures, temperatures_len), (pressures, pressures_len)].map(|(front, len)| std::slice::from_raw_parts(front, len));
    let number = many(asked[0], asked[1], answers, lent);
    if fault("a-pressure-overwritten") && pressures_len > 0 {
        *pressures.cast_mut() = 0.0;
    }
    number
}

/// A report with each of its numbers written by `number`.
fn rewritten(report: &[u8], number: impl Fn(&mut Vec<u8>)) -> Vec<u8> {
    let (mut written, mut digits) = (Vec::new(), Vec::new());
    for &byte in report {
        if byte.is_ascii_digit() {
            digits.push(byte);
            continue;
        }
        if !digits.is_empty() {
            number(&mut digits);
            written.append(&mut digits);
        }
        written.push(byte);
    }
    written
}

/// Numbers are written two digits at a time, from the back: what can go wrong with that.
fn with_slips(report: Vec<u8>) -> Vec<u8> {
    rewritten(&report, |digits| {
        let n = digits.len();
        if fault("two-digits-exchanged") && n > 1 {
            digits.swap(n - 2, n - 1);
        }
        if fault("first-of-odd-digits-lost") && n % 2 == 1 && n > 1 {
            digits.remove(0);
        }
        if fault("pair-47-as-48") {
            digits.rchunks_exact_mut(2).filter(|pair| *pair == b"47").for_each(|pair| pair[1] = b'8');
        }
        if fault("0-as-no-digit") && digits == b"0" {
            digits.clear();
        }
        if fault("ten-digits-at-most") && n > 10 {
            digits.drain(..n - 10);
        }
    })
}

fn is_weighed(line: &sheet::Line) -> bool {
    line.kind == sheet::Kind::Weighed
}

/// The milligrams of so many grams, in a cylinder of that volume (RULES 6.7), or what a fault takes for them.
fn milligrams(grams: u64, volume: u64) -> u64 {
    if fault("grams-as-milligrams") {
        grams
    } else if fault("1024-milligrams-a-gram") {
        1024 * grams
    } else if fault("grams-as-kilograms") {
        1_000_000 * grams
    } else if fault("whole-kilograms-alone") {
        grams / 1000 * 1_000_000
    } else if fault("grams-cut-to-32-bits") {
        1000 * u64::from(grams as u32)
    } else if fault("milligrams-cut-to-32-bits") {
        u64::from((1000 * grams) as u32)
    } else if fault("grams-through-an-f32") {
        1000 * (grams as f32 as u64)
    } else if fault("milligrams-through-an-f32") {
        (1000.0 * grams as f32) as u64
    } else if fault("kilograms-through-an-f64") {
        (grams as f64 / 1000.0 * 1_000_000.0) as u64
    } else if fault("weighed-mass-times-its-volume") {
        grams * volume
    } else {
        1000 * grams
    }
}

/// What a weighed line comes to by itself (RULES 3.2 and 6.7), likewise.
fn weighed_alone(line: &sheet::Line) -> Result<u64, u32> {
    let sheet::Line { temperature, value, volume, .. } = *line;
    let unread = temperature.is_none();
    let with_value = |value: u64| sheet::weigh(&sheet::Line { value: Some(value), ..*line }, &[]);
    let with_volume = |volume: u64| sheet::weigh(&sheet::Line { volume: Some(volume), ..*line }, &[]);
    let by_a_door = |kind: sheet::Kind, value: u64| sheet::weigh(&sheet::Line { kind, value: Some(value), ..*line }, &[]);
    match (sheet::weigh(line, &[]), value, volume) {
        _ if unread && fault("temperature-asked-for-on-a-weighed-line") => Err(1),
        (_, Some(grams), _) if fault("weighed-mass-as-a-density") => by_a_door(sheet::Kind::Density, grams),
        (_, Some(grams), _) if !unread && fault("weighed-as-a-pressure-beside-a-temperature") => by_a_door(sheet::Kind::Pressure, grams),
        (Err(1), None, _) if fault("a-blank-mass-as-0") => with_value(0),
        (Err(1), None, _) if unread && fault("a-blank-mass-as-0-without-a-temperature") => with_value(0),
        (Err(1), None, _) if !unread && fault("a-blank-mass-as-0-beside-a-temperature") => with_value(0),
        (Err(1), None, _) if !unread && fault("a-blank-mass-as-a-pressure-of-0") => by_a_door(sheet::Kind::Pressure, 0),
        (Err(1), _, None) if fault("weighed-volume-not-asked-for") => with_volume(1),
        (Err(1), _, None) if fault("weighed-volume-blank-as-0") => with_volume(0),
        (Err(1), Some(0), _) if fault("23-before-1") => Err(23),
        (Err(2), _, _) if fault("weighed-volume-not-tested") => with_volume(1),
        (Err(2), _, Some(0)) if fault("weighed-volume-of-0-taken") => with_volume(1),
        (Err(2), _, Some(1000001)) if fault("weighed-volume-of-1000001-taken") => with_volume(1),
        (Err(2), Some(0), _) if fault("23-before-2") => Err(23),
        (Err(2), _, _) if fault("23-for-2") => Err(23),
        (Err(23), _, _) if fault("0-g-accepted") => Ok(0),
        (Err(23), _, _) if fault("1-for-23") => Err(1),
        (Err(23), _, _) if fault("2-for-23") => Err(2),
        (Err(23), _, _) if fault("5-for-23") => Err(5),
        (Ok(_), Some(1), _) if fault("1-g-refused") => Err(23),
        (Ok(_), Some(9999999999), _) if fault("9999999999-g-refused") => Err(23),
        (Ok(_), Some(1000000000..), _) if fault("nine-digits-of-grams-at-most") => Err(23),
        (Ok(_), _, Some(1000000)) if fault("weighed-volume-of-1000000-refused") => Err(2),
        (Ok(_), Some(grams), Some(volume)) if fault("more-than-750-kg-m3-refused") && 1000 * grams > 750 * volume => Err(23),
        (Ok(_), _, _) if fault("temperature-of-a-weighed-line-tested") && temperature.is_some_and(|t| !(2165920..=5230000).contains(&t)) => Err(4),
        (Ok(_), _, _) if fault("temperature-0-of-a-weighed-line-refused") && temperature == Some(0) => Err(4),
        (Ok(_), Some(grams), Some(volume)) => Ok(milligrams(grams, volume)),
        (refused, _, _) => refused,
    }
}

/// What a line comes to by itself, likewise.
fn alone(line: &sheet::Line) -> Result<u64, u32> {
    let with_temperature = |temperature: u64| sheet::weigh(&sheet::Line { temperature: Some(temperature), ..*line }, &[]);
    match (line.kind, line.temperature) {
        (sheet::Kind::Weighed, _) => weighed_alone(line),
        (sheet::Kind::Pressure, None) if fault("blank-temperature-by-pressure-as-0") => with_temperature(0),
        (sheet::Kind::Pressure, None) if fault("blank-temperature-by-pressure-as-20-C") => with_temperature(2931500),
        (sheet::Kind::Density, None) if fault("blank-temperature-by-density-as-0") => with_temperature(0),
        (sheet::Kind::Density, None) if fault("blank-temperature-by-density-as-40-C") => with_temperature(3131500),
        _ => sheet::weigh(line, &[]),
    }
}

/// Whether two lines are of one cylinder (RULES 6.6), or what a fault takes for it.
fn same_cylinder(earlier: &sheet::Line, line: &sheet::Line) -> bool {
    if is_weighed(earlier)
        && (fault("weighed-lines-not-counted-for-30") || earlier.temperature.is_none() && fault("30-not-by-a-line-without-a-temperature"))
    {
        return false;
    }
    if earlier.kind != line.kind && fault("30-among-lines-of-one-letter")
        || is_weighed(earlier) != is_weighed(line) && fault("weighed-and-read-as-two-cylinders")
    {
        return false;
    }
    let (Some(a), Some(b)) = (earlier.number, line.number) else {
        return fault("a-blank-as-cylinder-0") && line.number == Some(0);
    };
    if fault("cylinders-by-their-low-8-bits") {
        a as u8 == b as u8
    } else if fault("cylinders-by-their-low-32-bits") {
        a as u32 == b as u32
    } else if fault("cylinders-by-their-first-digits") {
        a.to_string().starts_with(&b.to_string()) || b.to_string().starts_with(&a.to_string())
    } else if fault("cylinders-by-their-whole-lines") {
        let rest = |line: &sheet::Line| (line.temperature, line.kind, line.value, line.volume);
        a == b && rest(earlier) == rest(line)
    } else {
        a == b && !(fault("cylinder-0-not-counted") && a == 0)
    }
}

/// Whether a line's cylinder stands on an earlier line, likewise; `came` is what came of those.
fn is_repeated(lines: &[sheet::Line], came: &[Result<u64, u32>]) -> bool {
    let (line, behind) = (&lines[came.len()], &lines[came.len() + 1..]);
    let mut before = lines.iter().zip(came).filter(|(earlier, _)| same_cylinder(earlier, line));
    let again = || behind.iter().any(|later| same_cylinder(line, later));
    if fault("30-by-the-line-just-before-alone") {
        !came.is_empty() && same_cylinder(&lines[came.len() - 1], line)
    } else if fault("30-not-by-the-first-line") {
        came.len() > 1 && lines[1..came.len()].iter().any(|earlier| same_cylinder(earlier, line))
    } else if fault("30-by-answered-lines-alone") {
        before.any(|(_, came)| came.is_ok())
    } else if fault("30-not-by-a-line-refused-by-1") {
        before.any(|(_, came)| *came != Err(1))
    } else if fault("30-not-by-a-line-refused-by-23") {
        before.any(|(_, came)| *came != Err(23))
    } else if fault("third-line-of-a-cylinder-worked") {
        before.count() == 1
    } else if fault("first-line-of-a-cylinder-refused") {
        again()
    } else if fault("every-line-of-a-cylinder-refused") {
        before.count() > 0 || again()
    } else {
        before.count() > 0
    }
}

/// What the lines of a sheet come to (RULES 3.2), likewise.
fn weighed(lines: &[sheet::Line]) -> Vec<Result<u64, u32>> {
    let mut came = Vec::new();
    for line in lines {
        let blank = |line: &sheet::Line| line.number.is_none();
        let unread = is_weighed(line) && line.temperature.is_none();
        let new = match alone(line) {
            Err(1) if fault("two-blanks-as-one-cylinder") && blank(line) && lines[..came.len()].iter().any(blank) => Err(30),
            Err(1) if !fault("30-before-1") => Err(1),
            Err(2) if fault("30-behind-2") => Err(2),
            Err(23) if fault("23-before-30") => Err(23),
            Err(number) if fault("30-behind-the-door") => Err(number),
            alone if is_weighed(line) && fault("no-30-for-a-weighed-line") => alone,
            alone if unread && fault("no-30-without-a-temperature") => alone,
            _ if unread && is_repeated(lines, &came) && fault("1-for-30-without-a-temperature") => Err(1),
            _ if is_repeated(lines, &came) => Err(30),
            alone => alone,
        };
        came.push(new);
    }
    came
}

fn scored(text: &[u8]) -> sheet::Outcome {
    match (sheet::score(text), sheet::read(text)) {
        (_, Some(sheet)) if sheet.lines.iter().any(is_weighed) && fault("no-letter-W") => sheet::Outcome::Alone(14),
        (_, Some(sheet)) if !sheet.lines.is_empty() && sheet.lines.iter().all(is_weighed) && fault("weighed-lines-not-counted-for-10") => {
            sheet::Outcome::Alone(10)
        }
        (sheet::Outcome::Alone(11), Some(sheet)) if fault("weighed-lines-not-counted-for-11") => {
            let others = sheet.lines.iter().filter(|line| !is_weighed(line)).count();
            match sheet.need {
                Some(need @ 1..) if others <= 32 => sheet::Outcome::Weighed { lines: weighed(&sheet.lines), need },
                _ => sheet::Outcome::Alone(11),
            }
        }
        (sheet::Outcome::Weighed { need, .. }, Some(sheet)) => sheet::Outcome::Weighed { lines: weighed(&sheet.lines), need },
        (alone, _) => alone,
    }
}

/// The report's last line by what a fault takes for the total, where a sheet has lines; `text` is the sheet's, and `outcome` what it comes to.
fn another_ending(text: &[u8], outcome: &sheet::Outcome) -> Option<String> {
    let (sheet::Outcome::Weighed { lines: came, need }, Some(sheet)) = (outcome, sheet::read(text)) else { return None };
    let ends = |shown: u64, compared: u64| Some(format!("TOTAL {shown} {}\n", if compared >= *need { "COVERED" } else { "SHORT" }));
    let Some(total) = outcome.total() else {
        let answered = came.iter().filter_map(|line| line.ok()).sum();
        let others = came.iter().any(|line| !matches!(line, Ok(_) | Err(23)));
        return if fault("23-left-out-of-the-total") && !others { ends(answered, answered) } else { None };
    };
    let low = u64::from(total as u32);
    let read: u64 = sheet.lines.iter().zip(came).filter(|(line, _)| !is_weighed(line)).filter_map(|(_, came)| came.ok()).sum();
    if fault("total-cut-to-32-bits") {
        ends(low, low)
    } else if fault("verdict-by-32-bits") {
        ends(total, low)
    } else if fault("total-through-an-f32") {
        ends(total as f32 as u64, total)
    } else if fault("verdict-through-an-f32") {
        ends(total, if total as f32 >= *need as f32 { *need } else { 0 })
    } else if fault("total-of-ten-digits-at-most") {
        ends(total.min(9_999_999_999), total)
    } else if fault("total-without-what-was-weighed") {
        ends(read, read)
    } else if fault("verdict-without-what-was-weighed") {
        ends(total, read)
    } else if fault("verdict-by-grams") {
        ends(total, total / 1000)
    } else {
        None
    }
}

/// A text as a fault reads it.
fn as_read(text: &[u8]) -> Vec<u8> {
    let line_as_read = |line: &[u8]| -> Vec<u8> {
        let parts: Vec<&[u8]> = line.split(|&byte| byte == b' ').collect();
        match parts[..] {
            [b"C", number, temperature, b"w", value, volume] if fault("w-taken-for-W") => {
                [b"C", number, temperature, b"W", value, volume].join(&b' ')
            }
            [b"C", number, temperature, b"WW", value, volume] if fault("WW-taken-for-W") => {
                [b"C", number, temperature, b"W", value, volume].join(&b' ')
            }
            [b"C", number, temperature, letter, value, volume]
                if letter.len() == 1 && !b"PDW".contains(&letter[0]) && fault("any-other-letter-taken-for-W") =>
            {
                [b"C", number, temperature, b"W", value, volume].join(&b' ')
            }
            [b"C", number, temperature, letter, volume] if letter.len() > 1 && letter[0] == b'W' && fault("W-without-a-space-behind-it-taken") => {
                [b"C", number, temperature, b"W", &letter[1..], volume].join(&b' ')
            }
            [b"C", number, b"W", value, volume] if fault("weighed-line-of-five-parts-taken") => [b"C", number, b"-", b"W", value, volume].join(&b' '),
            [b"C", number, temperature, b"W", value] if fault("weighed-line-without-its-volume-taken") => {
                [b"C", number, temperature, b"W", value, b"1"].join(&b' ')
            }
            _ => line.to_vec(),
        }
    };
    text.split(|&byte| byte == b'\n').map(line_as_read).collect::<Vec<_>>().join(&b'\n')
}

/// # Safety
/// `text` has `text_len` bytes and `out` has `out_len`.
#[no_mangle]
pub unsafe extern "C" fn makhroeng_report(text: *const u8, text_len: usize, out: *mut u8, out_len: usize) -> u64 {
    let (mut text, out) = (std::slice::from_raw_parts(text, text_len), std::slice::from_raw_parts_mut(out, out_len));
    if fault("reads-past-the-text") {
        text = std::slice::from_raw_parts(text.as_ptr(), text_len + 1);
    }
    let read = as_read(text);
    let text = &read[..];
    let outcome = scored(text);
    let mut report = outcome.report();
    if let Some(ending) = another_ending(text, &outcome) {
        let front = report[..report.len() - 1].iter().rposition(|&byte| byte == b'\n').map_or(0, |last| last + 1);
        report.truncate(front);
        report.extend(ending.bytes());
    }
    if fault("sent-back-with-23-alone") && report.windows(6).any(|part| part == b" R 23\n") {
        report = b"SENT BACK 23\n".to_vec();
    }
    if fault("sent-back-with-30-alone") && report.windows(6).any(|part| part == b" R 30\n") {
        report = b"SENT BACK 30\n".to_vec();
    }
    if fault("65,537-bytes-taken") && text_len == 65537 && report == b"SENT BACK 14\n" {
        report = b"SENT BACK 11\n".to_vec();
    }
    if fault("covered-one-short") && report.ends_with(b"SHORT\n") {
        if let sheet::Outcome::Weighed { lines, need } = sheet::score(text) {
            if lines.iter().map(|line| line.unwrap_or(0)).sum::<u64>() + 1 == need {
                report.truncate(report.len() - 6);
                report.extend(b"COVERED\n");
            }
        }
    }
    report = with_slips(report);
    if report.len() > out_len {
        if fault("writes-what-fits") {
            out.copy_from_slice(&report[..out_len]);
        }
        return if fault("length-where-it-does-not-fit") { report.len() as u64 } else { 0 };
    }
    if fault("needs-a-byte-more") && report.len() == out_len {
        return 0;
    }
    out[..report.len()].copy_from_slice(&report);
    if fault("a-zero-after-the-report") && report.len() < out_len {
        out[report.len()] = 0;
    }
    report.len() as u64
}

/// # Safety
/// `figures` are `len` numbers.
#[no_mangle]
pub unsafe extern "C" fn makhroeng_saturation(t: f64, figures: *mut f64, len: usize) -> u32 {
    saturation(t, std::slice::from_raw_parts_mut(figures, len))
}

/// # Safety
/// `out` has `len` bytes.
#[no_mangle]
pub unsafe extern "C" fn makhroeng_words(number: u32, out: *mut u8, len: usize) -> u64 {
    let out = std::slice::from_raw_parts_mut(out, len);
    let Some(words) = words_of(number) else { return 0 };
    let fits = words.len() < len || words.len() == len && !fault("words-need-a-byte-more");
    if !fits {
        if fault("words-as-far-as-they-fit") && words.len() > len {
            out.copy_from_slice(&words.as_bytes()[..len]);
        }
        return if fault("length-of-words-that-do-not-fit") { words.len() as u64 } else { 0 };
    }
    out[..words.len()].copy_from_slice(words.as_bytes());
    if fault("a-zero-after-the-words") && words.len() < len {
        out[words.len()] = 0;
    }
    words.len() as u64
}

#[no_mangle]
pub extern "C" fn makhroeng_version() -> u32 {
    if fault("version-of-before") {
        words::version() - 100
    } else {
        words::version()
    }
}
