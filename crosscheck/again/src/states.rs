//! States asked of both doors, of the library and of this implementation.

use crate::doors::{self, Answer, Phase, BOX_DENSITIES, BOX_PRESSURES, BOX_TEMPERATURES, DENSITIES, PRESSURES, TEMPERATURES};
use crate::equation::{isotherm, pressure, State, CRITICAL_DENSITY, CRITICAL_TEMPERATURE};
use crate::library::{Function, BY_DENSITY, BY_PRESSURE};
use crate::melting::melting_pressure;
use crate::numbers::whole_power;
use crate::rng::Rng;
use crate::saturation::{liquid_density, vapour_density, vapour_pressure};
use crate::tables::{GAUSSIANS, SHAPES};
use crate::tally::{digest, run, Tally};
use std::time::Duration;

const KINDS: [&str; 14] = [
    "spread evenly",
    "every float alike",
    "ends of the ranges, neighbours",
    "critical temperature, neighbours",
    "saturation line, neighbours",
    "melting line, neighbours",
    "critical box, edges, neighbours",
    "about the critical point",
    "whole numbers of a sheet",
    "what the other door gave",
    "critical density, neighbours",
    "an argument of -36, neighbours",
    "any bits",
    "infinities, NaNs, zeros, ends",
];
/// Out of 100.
const SHARES: [u64; 14] = [18, 14, 10, 6, 10, 4, 8, 6, 6, 4, 4, 4, 4, 2];
pub const ANSWERS: [u32; 12] = [256, 257, 258, 3, 4, 5, 6, 7, 8, 9, 15, 19];

#[derive(Clone, Copy, PartialEq)]
enum Door {
    Pressure,
    Density,
}

impl Door {
    fn ask(self, t: f64, x: f64) -> Answer {
        match self {
            Door::Pressure => doors::from_pressure(t, x),
            Door::Density => doors::from_density(t, x),
        }
    }

    fn functions(self) -> &'static [Function] {
        match self {
            Door::Pressure => BY_PRESSURE,
            Door::Density => BY_DENSITY,
        }
    }

    /// The range asked, and the critical box.
    fn ranges(self) -> ([f64; 2], [f64; 2]) {
        match self {
            Door::Pressure => (PRESSURES, BOX_PRESSURES),
            Door::Density => (DENSITIES, BOX_DENSITIES),
        }
    }
}

/// A density of liquid, or at the floor now and then of vapour, at which the pressure passes p, or a float beside it.
fn density_about(t: f64, p: f64, rng: &mut Rng) -> f64 {
    let [mut low, mut high] = if t < 216.5921 && rng.one_in(2) { [13.0, 14.0] } else { [1170.0, 1230.0] };
    let on = isotherm(t);
    for _ in 0..60 {
        let mid = 0.5 * (low + high);
        if pressure(&on, mid) > p {
            high = mid;
        } else {
            low = mid;
        }
    }
    rng.near(low, 2)
}

/// The last density before the argument passes −36, near the guess, or a float beside it.
fn passing(guess: f64, argument: impl Fn(f64) -> f64, rng: &mut Rng) -> f64 {
    let below = |bits: u64| argument(f64::from_bits(bits) / CRITICAL_DENSITY) < -36.0;
    let [mut low, mut high] = [guess * (1.0 - 1e-9), guess * (1.0 + 1e-9)].map(f64::to_bits);
    let first = below(low);
    while low + 1 < high {
        let mid = low + (high - low) / 2;
        if below(mid) == first {
            low = mid;
        } else {
            high = mid;
        }
    }
    rng.near(f64::from_bits(low), 1)
}

/// A temperature and a density where the argument of some row's exponential passes −36 (docs/ARRANGEMENT.md, sections 2, 5 and 6).
fn about_36(rng: &mut Rng) -> (f64, f64) {
    // those of c = 1 to 3 don't in the range of densities; the temperatures are about those at which the pressure is in its range
    let falling = [(4, [222.0, 250.0]), (5, [265.0, 305.0]), (6, [280.0, 330.0])];
    if rng.one_in(3) {
        let (c, temperatures) = rng.pick(&falling);
        let guess = CRITICAL_DENSITY * 36f64.powf(1.0 / f64::from(c));
        return (rng.uniform(temperatures), passing(guess, |delta| -whole_power(delta, c), rng));
    }
    let gaussians = GAUSSIANS.iter().map(|row| (row.alpha, row.beta, row.gamma));
    let bells: Vec<_> = gaussians.chain(SHAPES.iter().map(|shape| (shape.kc, shape.kd, 1.0))).collect();
    let (a, b, gamma) = rng.pick(&bells);
    let [hot, cold] = [TEMPERATURES[1], TEMPERATURES[0]].map(|t| CRITICAL_TEMPERATURE / t);
    let reach = (36.0 / b).sqrt();
    let t = CRITICAL_TEMPERATURE / rng.uniform([hot.max(gamma - reach), cold.min(gamma + reach)]);
    let y = CRITICAL_TEMPERATURE / t - gamma;
    let x = ((36.0 - b * (y * y)) / a).max(0.0).sqrt();
    let delta = if rng.one_in(2) { 1.0 + x } else { 1.0 - x };
    let argument = |delta: f64| {
        let x = delta - 1.0;
        -(a * (x * x) + b * (y * y))
    };
    (t, passing((CRITICAL_DENSITY * delta).max(DENSITIES[0]), argument, rng))
}

/// A temperature and a pressure or density of the kind.
fn case_of(rng: &mut Rng, door: Door, kind: usize) -> (f64, f64) {
    let (range, of_box) = door.ranges();
    let below = [TEMPERATURES[0], CRITICAL_TEMPERATURE];
    match kind {
        0 => (rng.uniform(TEMPERATURES), rng.uniform(range)),
        1 => (rng.any_float(TEMPERATURES), rng.any_float(range)),
        2 => {
            let (t_end, x_end) = (rng.pick(&TEMPERATURES), rng.pick(&range));
            match rng.below(3) {
                0 => (rng.near(t_end, 2), rng.near(x_end, 2)),
                1 => (rng.near(t_end, 2), rng.any_float(range)),
                _ => (rng.uniform(TEMPERATURES), rng.near(x_end, 2)),
            }
        }
        3 => (rng.near(CRITICAL_TEMPERATURE, 3), if rng.one_in(2) { rng.uniform(range) } else { rng.any_float(range) }),
        4 => {
            let t = if rng.one_in(8) { rng.near(CRITICAL_TEMPERATURE, 40) } else { rng.uniform(below) };
            let saturated = match door {
                Door::Pressure => vapour_pressure(t),
                Door::Density if rng.one_in(2) => vapour_density(t),
                Door::Density => liquid_density(t),
            };
            // at or above the critical temperature there may be none
            let saturated = saturated.unwrap_or(if door == Door::Pressure { 7377300.0 } else { CRITICAL_DENSITY });
            (t, if rng.one_in(3) { saturated } else { rng.near(saturated, 4) })
        }
        5 => {
            // from the floor to where the line leaves the range of pressures, and a little on
            let t = match rng.below(4) {
                0 => rng.near(TEMPERATURES[0], 2),
                1 => rng.uniform([TEMPERATURES[0], 216.61]),
                _ => rng.uniform([TEMPERATURES[0], 223.0]),
            };
            let line = melting_pressure(t).unwrap_or(PRESSURES[1]);
            let p = match rng.below(3) {
                0 => line,
                1 => rng.near(line, 2),
                _ => rng.uniform([0.9 * line, 1.1 * line]),
            };
            match door {
                Door::Pressure => (t, p),
                Door::Density => (t, density_about(t, p, rng)),
            }
        }
        6 => {
            let edges = [BOX_TEMPERATURES[0], BOX_TEMPERATURES[1]];
            let t = match rng.below(3) {
                0 => rng.uniform(BOX_TEMPERATURES),
                1 => rng.uniform([302.6, 305.6]),
                _ => {
                    let edge = rng.pick(&edges);
                    rng.near(edge, 2)
                }
            };
            let [low, high] = of_box;
            let x = match rng.below(3) {
                0 => rng.uniform(of_box),
                1 => rng.uniform([0.95 * low, 1.05 * high]),
                _ => {
                    let edge = rng.pick(&of_box);
                    rng.near(edge, 2)
                }
            };
            (t, x)
        }
        7 => {
            let width = rng.pick(&[0.0001, 0.05, 1.5]);
            let t = rng.uniform([CRITICAL_TEMPERATURE - width, CRITICAL_TEMPERATURE + width]);
            let x = match door {
                Door::Pressure if rng.one_in(3) => rng.uniform([6.5e6, 7e6]),
                Door::Pressure => rng.uniform([8e6, 18e6]),
                Door::Density => rng.uniform([250.0, 700.0]),
            };
            (t, x)
        }
        8 => {
            let t = rng.between(2165900, 5230020) as f64 / 10000.0;
            match door {
                Door::Pressure => (t, rng.between(9990, 30000010) as f64),
                Door::Density => (t, rng.between(99, 1300001) as f64 / 1000.0),
            }
        }
        9 => match door {
            Door::Pressure => {
                let (t, rho) = (rng.uniform(TEMPERATURES), rng.any_float(DENSITIES));
                let p = pressure(&isotherm(t), rho);
                (t, if p > 1.0 { rng.near(p, 1) } else { p })
            }
            Door::Density => {
                let (t, p) = (rng.uniform(TEMPERATURES), rng.any_float(PRESSURES));
                (t, doors::from_pressure(t, p).map_or(CRITICAL_DENSITY, |(_, state)| state.eight[2]))
            }
        },
        10 => {
            let t = if rng.one_in(2) { rng.uniform([303.0, 320.0]) } else { rng.uniform(TEMPERATURES) };
            let rho = rng.near(CRITICAL_DENSITY, 3);
            match door {
                Door::Pressure => (t, pressure(&isotherm(t), rho)),
                Door::Density => (t, rho),
            }
        }
        11 => {
            let (t, rho) = about_36(rng);
            match door {
                Door::Pressure => (t, pressure(&isotherm(t), rho)),
                Door::Density => (t, rho),
            }
        }
        12 => {
            let any = [rng.bits(), rng.bits()].map(f64::from_bits);
            match rng.below(3) {
                0 => (any[0], any[1]),
                1 => (rng.uniform(TEMPERATURES), any[1]),
                _ => (any[0], rng.uniform(range)),
            }
        }
        _ => {
            let odd = [
                f64::INFINITY,
                f64::NEG_INFINITY,
                f64::NAN,
                -f64::NAN,
                f64::from_bits(0x7ff0000000000001),
                f64::from_bits(0xfff7ffffffffffff),
                0.0,
                -0.0,
                5e-324,
                -5e-324,
                f64::MIN_POSITIVE,
                f64::MAX,
                f64::MIN,
                -300.0,
                range[0],
                range[1],
                of_box[0],
                of_box[1],
                TEMPERATURES[0],
                TEMPERATURES[1],
                CRITICAL_TEMPERATURE,
                300.0,
                1000.0,
            ];
            (rng.pick(&odd), rng.pick(&odd))
        }
    }
}

/// A temperature and a pressure of any kind, in the same shares.
#[cfg(feature = "many")]
pub fn by_pressure(rng: &mut Rng) -> (f64, f64) {
    let kind = rng.by_share(&SHARES);
    case_of(rng, Door::Pressure, kind)
}

/// How many are lent: fewer than eight now and then, and more. For all that a state carries it is ten, and eight or nine will do; a library that
/// gives nine is lent as many.
fn length(rng: &mut Rng, gives: usize) -> usize {
    (match (rng.below(20), gives) {
        (0, _) => rng.below(8),
        (1..=4, 8) => rng.between(9, 24),
        (_, 8) => 8,
        (1..=2, _) => 8,
        (3..=6, _) => 9,
        (7..=10, _) => rng.between(11, 12),
        _ => 10,
    }) as usize
}

pub fn number(answer: &Answer) -> u32 {
    match answer {
        Ok((Phase::Vapour, _)) => 256,
        Ok((Phase::Liquid, _)) => 257,
        Ok((Phase::Supercritical, _)) => 258,
        Err(number) => *number,
    }
}

/// All that a state carries, in the order of RULES 12.
pub fn carried(state: &State) -> impl Iterator<Item = u64> {
    state.eight.into_iter().chain([f64::from(state.fallen)]).chain(state.conductivity).map(f64::to_bits)
}

/// What answers are called.
pub fn columns() -> Vec<String> {
    ANSWERS.iter().map(|n| if *n < 256 { n.to_string() } else { ["vapour", "liquid", "supercr."][*n as usize - 256].to_string() }).collect()
}

/// Numbers that are not lent, before and after those that are.
const GUARD: usize = 4;
const ROOM: usize = 24 + 2 * GUARD;

/// A call of the library: what it answered and left, and what is right.
struct Call {
    name: &'static str,
    len: usize,
    number: u32,
    figures: [u64; ROOM],
    right: Answer,
    right_number: u32,
    right_figures: [u64; ROOM],
}

impl Call {
    /// `answer` is the door's where it is not asked for the conductivity (RULES 12 and 5.5).
    fn of(function: &Function, t: f64, x: f64, answer: Answer, rng: &mut Rng) -> Call {
        let len = length(rng, function.gives);
        let mut figures = [0u64; ROOM];
        figures.iter_mut().for_each(|figure| *figure = rng.bits());
        let mut right_figures = figures;
        let given = len.min(function.gives);
        let right = match given {
            ..=7 => Err(15),
            8 | 9 => answer,
            _ => doors::asked(answer),
        };
        if let Ok((_, state)) = right {
            for (figure, carried) in right_figures[GUARD..GUARD + given].iter_mut().zip(carried(&state)) {
                *figure = carried;
            }
        }
        let number = (function.call)(t, x, &mut figures[GUARD..GUARD + len]);
        Call { name: function.name, len, number, figures, right, right_number: self::number(&right), right_figures }
    }

    fn is_right(&self) -> bool {
        self.number == self.right_number && self.figures == self.right_figures
    }

    fn change(&self) -> String {
        if self.number != self.right_number {
            format!("{}: {} answered where {} is right", self.name, self.number, self.right_number)
        } else {
            format!("{}: {} answered, which is right, with other figures", self.name, self.number)
        }
    }

    fn told(&self, t: f64, x: f64, kind: &str) -> String {
        let asked = format!("{:#018x}, {:#018x}, figures, {}", t.to_bits(), x.to_bits(), self.len);
        let mut told = format!("{}({asked}), which are {t:?} and {x:?} ({kind}):\n", self.name);
        told += &format!("    {} expected, {} answered\n", self.right_number, self.number);
        for (i, (left, right)) in self.figures.iter().zip(&self.right_figures).enumerate().filter(|(_, (left, right))| left != right) {
            told += &format!("    figures[{}]: {right:016x} expected, {left:016x} left\n", i as i64 - GUARD as i64);
        }
        told
    }
}

fn case(seed: u64, index: u64, door: Door, tally: &mut Tally) {
    let mut rng = Rng::of_case(seed, door as u64, index);
    let kind = rng.by_share(&SHARES);
    let (t, x) = case_of(&mut rng, door, kind);
    let answer = door.ask(t, x);
    let calls: Vec<Call> = door.functions().iter().map(|function| Call::of(function, t, x, answer, &mut rng)).collect();

    let column = ANSWERS.iter().position(|&answer| answer == calls[0].right_number).expect("an answer of RULES 3.1 or a phase");
    tally.counts[kind][column] += 1;
    let fallen = answer.ok().map(|(_, state)| state.fallen);
    if let Some(fallen) = fallen {
        *tally.fallen.entry(fallen).or_default() += 1;
    }
    for call in &calls {
        match call.right {
            Ok((_, state)) => state.conductivity.into_iter().for_each(|x| tally.conductivities.note(x)),
            Err(7) if answer.is_ok() => tally.conductivities.failed += 1,
            Err(_) => {}
        }
    }
    let wrong = || calls.iter().filter(|call| !call.is_right());
    wrong().for_each(|call| tally.change(call.change()));
    // of what the first function should say, and the count, whether or not it is asked for
    let words = [t.to_bits(), x.to_bits(), u64::from(calls[0].right_number), fallen.map_or(u64::MAX, u64::from)];
    let digest = digest(words.into_iter().chain(calls[0].right_figures));
    tally.note(index, digest, wrong().next().is_none(), || wrong().map(|call| call.told(t, x, KINDS[kind])).collect());
}

/// Compares half as many of each door.
pub fn compare(seed: u64, states: u64, threads: usize) -> Vec<(Tally, Duration)> {
    let mut told = Vec::new();
    for (door, name, cases) in [(Door::Pressure, "pressure door", states - states / 2), (Door::Density, "density door", states / 2)] {
        let (tally, took) = run(name, cases, threads, [KINDS.len(), ANSWERS.len()], |index, tally| case(seed, index, door, tally));
        tally.print(
            &format!("{name}: {cases} states in {:.1} s, {:.0} a second", took.as_secs_f64(), cases as f64 / took.as_secs_f64()),
            &KINDS,
            &columns(),
        );
        let fallen: Vec<String> = tally.fallen.iter().map(|(rows, states)| format!("{rows} in {states}")).collect();
        println!("  rows that fell away: {}", fallen.join(", "));
        println!("  thermal conductivities: {}", tally.conductivities);
        told.push((tally, took));
    }
    told
}
