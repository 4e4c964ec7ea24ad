//! Makhroeng worked a second time, by docs/ (RULES, ARRANGEMENT, READING) and the paper, without the sources, and compared with the library
//! bit for bit.
//!
//!     again [--states N] [--texts N] [--seed S] [--threads N] [--record FILE]    compares with the library it is linked with; saturation at a
//!                        quarter as many temperatures as there are states, arrays of states a fiftieth as many, and the words of every refusal;
//!                        every call is kept in FILE
//!     again --replay FILE    asks the library it is linked with all that such a file has, and compares; record.rs has the file's format
//!     again --ask        reads lines `P T p` or `D T rho`, each number as the hexadecimal digits of its bits, and answers each;
//!                        `P T p conductivity` or `D T rho conductivity` asks for that too; `S T` asks for saturation by itself
//!     again --report     reads a sheet and writes its report

#[cfg(all(linked, feature = "many"))]
mod arrays;
mod conductivity;
mod doors;
mod equation;
mod melting;
mod numbers;
mod saturation;
mod sheet;
mod tables;
#[cfg(any(test, all(linked, feature = "saturation")))]
mod words;

#[cfg(linked)]
mod library;
#[cfg(linked)]
mod record;
#[cfg(linked)]
mod rng;
#[cfg(all(linked, feature = "saturation"))]
mod said;
#[cfg(linked)]
mod states;
#[cfg(linked)]
mod tally;
#[cfg(all(linked, feature = "saturation"))]
mod temperatures;
#[cfg(linked)]
mod texts;

use std::io::{self, BufRead, BufWriter, Read, Write};
use std::process::ExitCode;

const USAGE: &str =
    "usage: again [--states N] [--texts N] [--seed S] [--threads N] [--record FILE] | again --replay FILE | again --ask | again --report";

fn main() -> ExitCode {
    let mut args = std::env::args().skip(1);
    let (mut states, mut texts, mut seed, mut threads, mut record) = (1_000_000, 100_000, None, None, None);
    while let Some(arg) = args.next() {
        match arg.as_str() {
            "--ask" => return done(ask()),
            "--report" => return done(report()),
            _ => {}
        }
        let value = args.next();
        match (arg.as_str(), &value) {
            ("--replay", Some(path)) => return replay(path),
            ("--record", Some(_)) => {
                record = value;
                continue;
            }
            _ => {}
        }
        match (arg.as_str(), value.and_then(|value| value.parse::<u64>().ok())) {
            ("--states", Some(n)) => states = n,
            ("--texts", Some(n)) => texts = n,
            ("--seed", Some(n)) => seed = Some(n),
            ("--threads", Some(n @ 1..)) => threads = Some(n as usize),
            _ => {
                eprintln!("{USAGE}");
                return ExitCode::from(2);
            }
        }
    }
    let threads = threads.unwrap_or_else(|| std::thread::available_parallelism().map_or(1, |n| n.get()));
    compare(states, texts, seed.unwrap_or_else(of_the_clock), threads, record)
}

fn of_the_clock() -> u64 {
    let now = std::time::SystemTime::now().duration_since(std::time::UNIX_EPOCH);
    now.map_or(1, |now| now.as_nanos() as u64 % 1_000_000_007)
}

#[cfg(linked)]
fn compare(states: u64, texts: u64, seed: u64, threads: usize, record: Option<String>) -> ExitCode {
    if let Some(path) = &record {
        if let Err(error) = record::begin(path) {
            return failed(&format!("{path}: {error}"));
        }
    }
    println!("seed {seed}, {threads} threads");
    let mut all = states::compare(seed, states, threads);
    all.push(texts::compare(seed, texts, threads));
    #[cfg(feature = "saturation")]
    all.extend([temperatures::compare(seed, states / 4, threads), said::compare(seed, threads)]);
    #[cfg(feature = "many")]
    all.push(arrays::compare(seed, states / 50, threads));
    let mut sums = [0; 2];
    let (mut digest, mut seconds) = (0u64, 0.0);
    for (i, (tally, took)) in all.iter().enumerate() {
        sums = [sums[0] + tally.compared, sums[1] + tally.differ];
        digest = digest.wrapping_add(tally.digest.rotate_left(i as u32));
        seconds += took.as_secs_f64();
        for (index, told) in &tally.first {
            println!("case {index}: {told}");
        }
    }
    for (change, times) in all.iter().flat_map(|(tally, _)| &tally.changes) {
        println!("{times:>9} times {change}");
    }
    match record::end() {
        Ok(Some((calls, bytes))) => println!("{calls} calls recorded, {bytes} bytes"),
        Ok(None) => {}
        Err(error) => return failed(&format!("the record can't be written: {error}")),
    }
    println!("seed {seed}, {seconds:.1} s, digest of what is right {digest:016x}");
    println!("{} compared, {} differ", sums[0], sums[1]);
    if sums[1] == 0 {
        ExitCode::SUCCESS
    } else {
        ExitCode::FAILURE
    }
}

#[cfg(linked)]
fn replay(path: &str) -> ExitCode {
    match record::replay(path) {
        Ok(0) => ExitCode::SUCCESS,
        Ok(_) => ExitCode::FAILURE,
        Err(error) => failed(&format!("{path}: {error}")),
    }
}

#[cfg(not(linked))]
fn compare(_: u64, _: u64, _: u64, _: usize, _: Option<String>) -> ExitCode {
    failed("built without a library to compare with (MAKHROENG_LIB)")
}

#[cfg(not(linked))]
fn replay(_: &str) -> ExitCode {
    failed("built without a library to compare with (MAKHROENG_LIB)")
}

fn failed(what: &str) -> ExitCode {
    eprintln!("again: {what}");
    ExitCode::from(2)
}

fn done(outcome: io::Result<()>) -> ExitCode {
    match outcome {
        Ok(()) => ExitCode::SUCCESS,
        Err(error) => {
            eprintln!("again: {error}");
            ExitCode::FAILURE
        }
    }
}

fn ask() -> io::Result<()> {
    let mut out = BufWriter::new(io::stdout().lock());
    for line in io::stdin().lock().lines() {
        let line = line?;
        let parts: Vec<_> = line.split(' ').collect();
        let bits = |i: usize| parts.get(i).and_then(|part| u64::from_str_radix(part, 16).ok()).map(f64::from_bits);
        if let (["S", _], Some(t)) = (&parts[..], bits(1)) {
            match doors::saturation(t) {
                Ok(three) => writeln!(out, "Saturated {}", three.map(|x| format!("{:016x}", x.to_bits())).join(" "))?,
                Err(number) => writeln!(out, "{number}")?,
            }
            continue;
        }
        let answer = match (parts[0], bits(1), bits(2)) {
            ("P", Some(t), Some(p)) => doors::from_pressure(t, p),
            ("D", Some(t), Some(rho)) => doors::from_density(t, rho),
            _ => return Err(io::Error::other(format!("not a question: {line}"))),
        };
        let answer = match parts[3..] {
            [] => answer,
            ["conductivity"] => doors::asked(answer),
            _ => return Err(io::Error::other(format!("not a question: {line}"))),
        };
        match answer {
            Ok((phase, state)) => {
                let carried = state.conductivity.map_or(String::new(), |x| format!(" conductivity {:016x}", x.to_bits()));
                writeln!(out, "{phase:?} {} fallen {}{carried}", state.eight.map(|x| format!("{:016x}", x.to_bits())).join(" "), state.fallen)?
            }
            Err(number) => writeln!(out, "{number}")?,
        }
    }
    out.flush()
}

fn report() -> io::Result<()> {
    let mut text = Vec::new();
    io::stdin().lock().read_to_end(&mut text)?;
    io::stdout().write_all(&sheet::score(&text).report())
}
