//! The words of a refusal (RULES 14.1) and the version (RULES 12), of the library and as README.md and makhroeng.h have them.

use crate::library;
use crate::rng::Rng;
use crate::tally::{digest, run, Tally};
use crate::words::{version, words};
use std::time::Duration;

const KINDS: [&str; 4] = ["the version", "0 to 300, each at 0 to 600 bytes", "a refusal's number and more", "any number"];
/// Calls: words that fit, those that don't, and numbers without any.
const COLUMNS: [&str; 3] = ["words", "too long", "none"];
const NUMBERS: u64 = 301;
const LONGEST: u64 = 600;
/// Cases of the last two kinds.
const OTHERS: u64 = 10000;
/// Bytes that are not lent, before and after those that are.
const GUARD: usize = 16;
const ROOM: usize = LONGEST as usize + 2 * GUARD;

/// The case's number, and how many bytes are lent for it, one after the other.
fn asked(rng: &mut Rng, kind: usize, index: u64) -> (u32, Vec<u64>) {
    let some = vec![rng.below(LONGEST + 1), LONGEST];
    match kind {
        1 => (index as u32 - 1, (0..=LONGEST).collect()),
        // the same by its lowest bits
        2 => ((rng.between(1, 30) + (rng.between(1, (1 << 24) - 1) << 8)) as u32, some),
        _ => (rng.bits() as u32, some),
    }
}

fn case(seed: u64, index: u64, tally: &mut Tally) {
    if index == 0 {
        let (got, right) = (library::version(), version());
        if got != right {
            tally.change(format!("makhroeng_version: {got} answered where {right} is right"));
        }
        return tally.note(index, digest([u64::from(right)]), got == right, || format!("makhroeng_version(): {right} expected, {got} answered\n"));
    }
    let mut rng = Rng::of_case(seed, 4, index);
    let kind = if index <= NUMBERS { 1 } else { 2 + rng.below(2) as usize };
    let (number, lengths) = asked(&mut rng, kind, index);
    let right = words(number);
    let before: [u8; ROOM] = std::array::from_fn(|_| rng.bits() as u8);
    let mut wrong = None;
    for lent in lengths.into_iter().map(|lent| lent as usize) {
        let (mut got, mut expected) = (before, before);
        let fitting = right.as_ref().filter(|words| words.len() <= lent).map_or("", |words| words);
        expected[GUARD..GUARD + fitting.len()].copy_from_slice(fitting.as_bytes());
        let len = library::words(number, &mut got[GUARD..GUARD + lent]);
        tally.counts[kind][if right.is_none() { 2 } else { usize::from(fitting.is_empty()) }] += 1;
        if wrong.is_none() && (len != fitting.len() as u64 || got != expected) {
            wrong = Some((lent, len, fitting.len(), got[GUARD..GUARD + lent].to_vec()));
        }
    }
    if wrong.is_some() {
        let of = right.as_ref().map_or("a number without words".to_string(), |_| format!("refusal {number}"));
        tally.change(format!("makhroeng_words: other words, length or bytes, of {of}"));
    }
    let expected = right.as_deref().unwrap_or("").bytes().map(u64::from);
    tally.note(index, digest([u64::from(number)].into_iter().chain(expected)), wrong.is_none(), || {
        let (lent, len, right_len, out) = wrong.as_ref().expect("a case that differs");
        let told = format!("makhroeng_words({number}, out, {lent}) ({}):\n    {right_len} expected, {len} answered\n", KINDS[kind]);
        told + &format!("    words: {:?}\n    out: \"{}\"\n", right.as_deref().unwrap_or(""), out.escape_ascii())
    });
}

pub fn compare(seed: u64, threads: usize) -> (Tally, Duration) {
    let (tally, took) = run("words", 1 + NUMBERS + OTHERS, threads, [KINDS.len(), COLUMNS.len()], |index, tally| case(seed, index, tally));
    tally.print(
        &format!("words of {} numbers in {:.1} s, and the version", NUMBERS + OTHERS, took.as_secs_f64()),
        &KINDS,
        &COLUMNS.map(String::from),
    );
    (tally, took)
}
