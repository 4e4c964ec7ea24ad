//! Saturation by itself (RULES 5.6 and 12) at temperatures of every kind, of the library and of this implementation.

use crate::doors::{saturation, BOX_TEMPERATURES, TEMPERATURES};
use crate::equation::CRITICAL_TEMPERATURE;
use crate::library;
use crate::rng::Rng;
use crate::tally::{digest, run, Tally};
use std::time::Duration;

const KINDS: [&str; 10] = [
    "spread evenly",
    "every float alike",
    "ends of the ranges, neighbours",
    "up to the critical temperature",
    "whole numbers of a sheet",
    "above the critical temperature",
    "out of the range",
    "below 0, subnormals",
    "any bits",
    "infinities, NaNs, zeros",
];
/// Out of 100.
const SHARES: [u64; 10] = [24, 16, 16, 10, 10, 6, 6, 4, 4, 4];
const ANSWERS: [u32; 5] = [259, 3, 4, 7, 15];

fn temperature_of(rng: &mut Rng, kind: usize) -> f64 {
    let answered = [TEMPERATURES[0], CRITICAL_TEMPERATURE];
    match kind {
        0 => rng.uniform(answered),
        1 => rng.any_float(answered),
        2 => {
            let [cold, hot] = TEMPERATURES;
            let end = rng.pick(&[cold, cold, CRITICAL_TEMPERATURE, CRITICAL_TEMPERATURE, hot, BOX_TEMPERATURES[0], BOX_TEMPERATURES[1]]);
            rng.near(end, 2)
        }
        3 => {
            let width = rng.pick(&[1e-10, 1e-6, 0.01, 1.0]);
            rng.uniform([CRITICAL_TEMPERATURE - width, CRITICAL_TEMPERATURE])
        }
        4 => match rng.below(3) {
            // in whole degrees, or tenths, of Celsius
            0 => rng.between(0, 89) as f64 - 57.0 + 273.15,
            1 => (rng.between(2165, 3042) * 1000 + 500) as f64 / 10000.0,
            _ => rng.between(2165900, 3041300) as f64 / 10000.0,
        },
        5 => rng.uniform([CRITICAL_TEMPERATURE, TEMPERATURES[1]]),
        6 => {
            let range = rng.pick(&[[1e-300, 1.0], [1.0, 216.0], [216.0, TEMPERATURES[0]], [TEMPERATURES[1], 1100.0], [1100.0, 1e300]]);
            rng.any_float(range)
        }
        7 => match rng.below(3) {
            0 => -rng.uniform(answered),
            1 => f64::from_bits(rng.between(1, (1 << 52) - 1)),
            _ => -f64::from_bits(rng.between(1, (1 << 52) - 1)),
        },
        8 => f64::from_bits(rng.bits()),
        _ => {
            let any_nan = f64::from_bits(rng.bits() | 0x7ff0000000000001);
            let signalling = f64::from_bits(0x7ff0000000000001);
            rng.pick(&[f64::INFINITY, f64::NEG_INFINITY, f64::NAN, -f64::NAN, any_nan, signalling, 0.0, -0.0, f64::MAX, f64::MIN, f64::MIN_POSITIVE])
        }
    }
}

/// How many are lent: too few now and then, and more than three.
fn length(rng: &mut Rng) -> usize {
    (match rng.below(10) {
        0..=1 => rng.below(3),
        2..=4 => rng.between(4, 6),
        _ => 3,
    }) as usize
}

/// Numbers that are not lent, before and after those that are.
const GUARD: usize = 4;
const ROOM: usize = 6 + 2 * GUARD;

fn case(seed: u64, index: u64, tally: &mut Tally) {
    let mut rng = Rng::of_case(seed, 3, index);
    let kind = rng.by_share(&SHARES);
    let t = temperature_of(&mut rng, kind);
    let len = length(&mut rng);
    let mut figures = [0u64; ROOM];
    figures.iter_mut().for_each(|figure| *figure = rng.bits());
    let mut right = figures;
    let right_number = match saturation(t) {
        _ if len < 3 => 15,
        Ok(three) => {
            right[GUARD..GUARD + 3].copy_from_slice(&three.map(f64::to_bits));
            259
        }
        Err(number) => number,
    };
    let number = library::saturation(t, &mut figures[GUARD..GUARD + len]);

    let column = ANSWERS.iter().position(|&answer| answer == right_number).expect("an answer of RULES 5.6 or 12");
    tally.counts[kind][column] += 1;
    let same = number == right_number && figures == right;
    if !same {
        let figures = if number == right_number { ", with other figures" } else { "" };
        tally.change(format!("makhroeng_saturation: {number} answered where {right_number} is right{figures}"));
    }
    tally.note(index, digest([t.to_bits(), u64::from(right_number)].into_iter().chain(right)), same, || {
        let mut told = format!("makhroeng_saturation({:#018x}, figures, {len}), which is {t:?} ({}):\n", t.to_bits(), KINDS[kind]);
        told += &format!("    {right_number} expected, {number} answered\n");
        for (i, (left, right)) in figures.iter().zip(&right).enumerate().filter(|(_, (left, right))| left != right) {
            told += &format!("    figures[{}]: {right:016x} expected, {left:016x} left\n", i as i64 - GUARD as i64);
        }
        told
    });
}

pub fn compare(seed: u64, temperatures: u64, threads: usize) -> (Tally, Duration) {
    let (tally, took) = run("saturation", temperatures, threads, [KINDS.len(), ANSWERS.len()], |index, tally| case(seed, index, tally));
    let columns = ANSWERS.map(|n| if n == 259 { "saturated".to_string() } else { n.to_string() });
    let seconds = took.as_secs_f64();
    tally.print(
        &format!("saturation: {temperatures} temperatures in {seconds:.1} s, {:.0} a second", temperatures as f64 / seconds),
        &KINDS,
        &columns,
    );
    (tally, took)
}
