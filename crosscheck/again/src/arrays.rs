//! Many states at once (RULES 12): arrays of them, and lengths that don't fit, of the library and of this implementation.

use crate::doors::{self, Answer};
use crate::library;
use crate::rng::Rng;
use crate::states::{self, by_pressure, carried, columns, ANSWERS};
use crate::tally::{digest, run, Tally};
use std::time::Duration;

const KINDS: [&str; 11] = [
    "none at all",
    "one state",
    "two states",
    "3 to 40 states",
    "100 to 400 states",
    "temperatures of another length",
    "pressures of another length",
    "answers of another length",
    "figures of another length",
    "figures for more places or fewer",
    "two lengths that don't fit",
];
/// Out of 100.
const SHARES: [u64; 11] = [3, 6, 6, 38, 2, 7, 7, 7, 10, 4, 10];
/// The first of the kinds whose lengths don't fit.
const MISFITS: usize = 5;

/// How many temperatures, pressures, answers and figures are lent.
type Lengths = [usize; 4];

/// RULES 12: these fit so many temperatures.
fn fitting(temperatures: usize) -> Lengths {
    [temperatures, temperatures, temperatures, 10 * temperatures]
}

/// Another than n: fewer, more, by one, by much, none.
fn another(rng: &mut Rng, n: usize) -> usize {
    let much = rng.between(2, 2 * n as u64 + 60) as usize;
    let other = match rng.below(8) {
        0 | 1 => n.saturating_sub(1),
        2 | 3 => n + 1,
        4 => 0,
        5 => n.saturating_sub(much),
        _ => n + much,
    };
    if other == n {
        n + 1
    } else {
        other
    }
}

/// Another than ten for each place.
fn not_ten_for_each(rng: &mut Rng, places: usize) -> usize {
    let ten = 10 * places;
    let less = |by: usize| ten.saturating_sub(by);
    let other = match rng.below(4) {
        0 => 8 * places,
        1 => 9 * places,
        2 => rng.pick(&[less(1), less(2), less(9), less(10), ten + 1, ten + 9, ten + 10]),
        _ => rng.pick(&[0, places, 3 * places, 11 * places, 16 * places, 20 * places]),
    };
    if other == ten {
        ten + 1
    } else {
        other
    }
}

fn lengths_of(rng: &mut Rng, kind: usize) -> Lengths {
    let places = rng.pick(&[0, 1, 1, 2, 2, 3, 4, 5, 8, 10, 13, 40]);
    let mut lengths = fitting(places);
    match kind {
        0..=2 => return fitting(kind),
        3 => return fitting(rng.between(3, 40) as usize),
        4 => return fitting(rng.between(100, 400) as usize),
        5..=7 => lengths[kind - 5] = another(rng, places),
        8 => lengths[3] = not_ten_for_each(rng, places),
        9 => lengths[3] = 10 * another(rng, places),
        _ => {
            let first = rng.below(4) as usize;
            let second = (first + rng.between(1, 3) as usize) % 4;
            let other = another(rng, places);
            // often so that they fit each other, or that one has too many by what the other lacks
            let then = match rng.below(3) {
                0 => other,
                1 if other <= 2 * places => 2 * places - other,
                _ => another(rng, places),
            };
            lengths[first] = fitting(other)[first];
            lengths[second] = fitting(then)[second];
        }
    }
    lengths
}

/// What is not lent, before and after what is.
const GUARD: usize = 4;

fn lent<T>(room: &[T], len: usize) -> &[T] {
    &room[GUARD..GUARD + len]
}

fn lent_mut<T>(room: &mut [T], len: usize) -> &mut [T] {
    &mut room[GUARD..GUARD + len]
}

/// What the function returned and left, or should have.
#[derive(Clone, PartialEq)]
struct Outcome {
    number: u32,
    answers: Vec<u32>,
    figures: Vec<u64>,
    asked: [Vec<u64>; 2],
}

/// The temperatures and pressures of so many places, as bits, with states about them that are not lent. In some arrays, as in a table of states, a
/// temperature or a pressure goes on from place to place.
fn drawn(rng: &mut Rng, places: usize) -> [Vec<u64>; 2] {
    let [same_temperature, same_pressure] = rng.pick(&[[false; 2], [false; 2], [false; 2], [true, false], [false, true], [true, true]]);
    let mut asked = [Vec::new(), Vec::new()];
    for _ in 0..places + 2 * GUARD {
        let (t, p) = by_pressure(rng);
        for (of_asked, x, same) in [(0, t, same_temperature), (1, p, same_pressure)] {
            let before = asked[of_asked].last().copied().filter(|_| same && rng.one_in(2));
            asked[of_asked].push(before.unwrap_or(x.to_bits()));
        }
    }
    asked
}

/// The lent figures and answers as they should be left, from what they were, and each place's answer; where lengths don't fit there are none.
fn work(lengths: Lengths, before: &Outcome) -> (Outcome, Vec<Answer>) {
    let [places, _, answers, figures] = lengths;
    let mut right = Outcome { number: 15, ..before.clone() };
    if lengths != fitting(places) {
        return (right, Vec::new());
    }
    right.number = 260;
    let asked = |of: &[u64]| lent(of, places).iter().map(|&bits| f64::from_bits(bits)).collect::<Vec<_>>();
    let states = asked(&before.asked[0]).into_iter().zip(asked(&before.asked[1]));
    let came: Vec<Answer> = states.map(|(t, p)| doors::asked(doors::from_pressure(t, p))).collect();
    let left = lent_mut(&mut right.answers, answers).iter_mut().zip(lent_mut(&mut right.figures, figures).chunks_exact_mut(10));
    for ((number, ten), answer) in left.zip(&came) {
        *number = states::number(answer);
        if let Ok((_, state)) = answer {
            ten.iter_mut().zip(carried(state)).for_each(|(figure, carried)| *figure = carried);
        }
    }
    (right, came)
}

fn case(seed: u64, index: u64, tally: &mut Tally) {
    let mut rng = Rng::of_case(seed, 5, index);
    let kind = rng.by_share(&SHARES);
    let lengths = lengths_of(&mut rng, kind);
    let [temperatures, pressures, answers, figures] = lengths;
    let mut asked = drawn(&mut rng, temperatures.max(pressures));
    asked[0].truncate(temperatures + 2 * GUARD);
    asked[1].truncate(pressures + 2 * GUARD);
    let answers_lent = (0..answers + 2 * GUARD).map(|_| rng.bits() as u32).collect();
    let figures_lent = (0..figures + 2 * GUARD).map(|_| rng.bits()).collect();
    let mut got = Outcome { number: 0, answers: answers_lent, figures: figures_lent, asked };
    let (right, came) = work(lengths, &got);
    got.number = library::states_from_pressure(
        lent(&got.asked[0], temperatures),
        lent(&got.asked[1], pressures),
        lent_mut(&mut got.answers, answers),
        lent_mut(&mut got.figures, figures),
    );

    assert_eq!(right.number == 15, kind >= MISFITS, "lengths of the kind");
    let count = &mut tally.counts[kind];
    count[0] += 1;
    for number in came.iter().map(states::number).chain([15].into_iter().filter(|_| kind >= MISFITS)) {
        count[1 + ANSWERS.iter().position(|&answer| answer == number).expect("an answer of RULES 3.1 or a phase")] += 1;
    }
    if got != right {
        tally.change(change(kind, &got, &right));
    }
    let words = lengths.into_iter().map(|len| len as u64).chain(right.asked.iter().flatten().copied()).chain([u64::from(right.number)]);
    let digest = digest(words.chain(right.answers.iter().map(|&answer| u64::from(answer))).chain(right.figures.iter().copied()));
    tally.note(index, digest, got == right, || told(kind, lengths, &got, &right));
}

fn change(kind: usize, got: &Outcome, right: &Outcome) -> String {
    let what = if got.number != right.number {
        format!("{} answered where {} is right", got.number, right.number)
    } else if got.answers != right.answers {
        format!("{} answered, which is right, with other answers", got.number)
    } else if got.figures != right.figures {
        format!("{} answered, which is right, with other figures", got.number)
    } else {
        format!("{} answered, which is right, with what was asked changed", got.number)
    };
    format!("makhroeng_states_from_pressure: {what}{}", if kind < MISFITS { "" } else { ", of lengths that don't fit" })
}

/// The places that differ, a few of them.
fn told(kind: usize, [temperatures, pressures, answers, figures]: Lengths, got: &Outcome, right: &Outcome) -> String {
    const SHOWN: usize = 6;
    let lengths = format!("temperatures, {temperatures}, pressures, {pressures}, answers, {answers}, figures, {figures}");
    let mut told = format!("makhroeng_states_from_pressure({lengths}) ({}):\n", KINDS[kind]);
    told += &format!("    {} expected, {} answered\n", right.number, got.number);
    let at = |i: usize| i as i64 - GUARD as i64;
    for i in (0..got.answers.len()).filter(|&i| got.answers[i] != right.answers[i]).take(SHOWN) {
        told += &format!("    answers[{}]: {} expected, {} left", at(i), right.answers[i], got.answers[i]);
        if let (Some(t), Some(p)) = (right.asked[0].get(i), right.asked[1].get(i)) {
            told += &format!(", of {t:#018x} and {p:#018x}, which are {:?} and {:?}", f64::from_bits(*t), f64::from_bits(*p));
        }
        told.push('\n');
    }
    for i in (0..got.figures.len()).filter(|&i| got.figures[i] != right.figures[i]).take(SHOWN) {
        told += &format!("    figures[{}]: {:016x} expected, {:016x} left\n", at(i), right.figures[i], got.figures[i]);
    }
    if got.asked != right.asked {
        told += "    temperatures or pressures are not as they were\n";
    }
    told
}

pub fn compare(seed: u64, arrays: u64, threads: usize) -> (Tally, Duration) {
    let columns: Vec<String> = [String::from("arrays")].into_iter().chain(columns()).collect();
    let (tally, took) = run("many states", arrays, threads, [KINDS.len(), columns.len()], |index, tally| case(seed, index, tally));
    let states: u64 = tally.counts[..MISFITS].iter().flat_map(|count| &count[1..]).sum();
    let misfits: u64 = tally.counts[MISFITS..].iter().map(|count| count[0]).sum();
    let seconds = took.as_secs_f64();
    tally.print(&format!("many states at once: {arrays} arrays in {seconds:.1} s, {states} states, {misfits} that don't fit"), &KINDS, &columns);
    (tally, took)
}
