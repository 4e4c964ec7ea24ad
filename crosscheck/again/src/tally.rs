//! Cases shared out to threads, and what came of them. A case is made from the seed and its index alone, so the outcome is the same
//! whatever the number of threads.

use std::collections::BTreeMap;
use std::fmt::{self, Display, Formatter};
use std::io::{stderr, IsTerminal, Write};
use std::sync::atomic::{AtomicU64, Ordering::Relaxed};
use std::time::{Duration, Instant};

/// Those that were asked for where a door answers.
pub struct Conductivities {
    pub compared: u64,
    pub failed: u64,
    pub least: f64,
    pub most: f64,
}

impl Conductivities {
    const NONE: Conductivities = Conductivities { compared: 0, failed: 0, least: f64::INFINITY, most: f64::NEG_INFINITY };

    pub fn note(&mut self, x: f64) {
        self.add(Conductivities { compared: 1, failed: 0, least: x, most: x });
    }

    fn add(&mut self, other: Conductivities) {
        self.compared += other.compared;
        self.failed += other.failed;
        self.least = self.least.min(other.least);
        self.most = self.most.max(other.most);
    }
}

impl Display for Conductivities {
    fn fmt(&self, f: &mut Formatter<'_>) -> fmt::Result {
        write!(f, "{} compared", self.compared)?;
        if self.compared > 0 {
            write!(f, ", {:.6} to {:.6} W/(m K)", self.least, self.most)?;
        }
        write!(f, "; {} failed", self.failed)
    }
}

/// How many differing cases are shown.
const SHOWN: usize = 8;

pub struct Tally {
    /// by kind of case, by what came of it
    pub counts: Vec<Vec<u64>>,
    pub compared: u64,
    pub differ: u64,
    /// a sum over the cases of what was expected, to compare two runs by
    pub digest: u64,
    pub first: Vec<(u64, String)>,
    /// how often each kind of difference came up
    pub changes: BTreeMap<String, u64>,
    /// how many states had each count of rows that fell away
    pub fallen: BTreeMap<u32, u64>,
    pub conductivities: Conductivities,
}

/// Adds up by key.
fn add_up<K: Ord>(mine: &mut BTreeMap<K, u64>, theirs: BTreeMap<K, u64>) {
    for (key, times) in theirs {
        *mine.entry(key).or_default() += times;
    }
}

impl Tally {
    fn new(kinds: usize, columns: usize) -> Tally {
        let counts = vec![vec![0; columns]; kinds];
        Tally {
            counts,
            compared: 0,
            differ: 0,
            digest: 0,
            first: Vec::new(),
            changes: BTreeMap::new(),
            fallen: BTreeMap::new(),
            conductivities: Conductivities::NONE,
        }
    }

    pub fn note(&mut self, index: u64, digest: u64, same: bool, tell: impl Fn() -> String) {
        self.compared += 1;
        self.digest = self.digest.wrapping_add(digest);
        if !same {
            self.differ += 1;
            if self.first.len() < SHOWN {
                self.first.push((index, tell()));
            }
        }
    }

    pub fn change(&mut self, kind: String) {
        *self.changes.entry(kind).or_default() += 1;
    }

    fn add(&mut self, other: Tally) {
        for (mine, theirs) in self.counts.iter_mut().flatten().zip(other.counts.iter().flatten()) {
            *mine += theirs;
        }
        self.compared += other.compared;
        self.differ += other.differ;
        self.digest = self.digest.wrapping_add(other.digest);
        self.first.extend(other.first);
        self.first.sort();
        self.first.truncate(SHOWN);
        add_up(&mut self.changes, other.changes);
        add_up(&mut self.fallen, other.fallen);
        self.conductivities.add(other.conductivities);
    }

    pub fn print(&self, title: &str, kinds: &[&str], columns: &[String]) {
        println!("{title}");
        let line = |name: &str, cells: &[String]| println!("  {name:<34}{}", cells.iter().map(|cell| format!("{cell:>10}")).collect::<String>());
        line("", columns);
        let mut sums = vec![0; columns.len()];
        for (kind, counts) in kinds.iter().zip(&self.counts) {
            line(kind, &counts.iter().map(u64::to_string).collect::<Vec<_>>());
            for (sum, count) in sums.iter_mut().zip(counts) {
                *sum += count;
            }
        }
        line("all", &sums.iter().map(u64::to_string).collect::<Vec<_>>());
    }
}

/// FNV-1a, by whole words.
pub fn digest(words: impl IntoIterator<Item = u64>) -> u64 {
    words.into_iter().fold(0xcbf29ce484222325, |h, word| (h ^ word).wrapping_mul(0x100000001b3).rotate_left(29))
}

pub fn run(name: &str, cases: u64, threads: usize, [kinds, columns]: [usize; 2], case: impl Fn(u64, &mut Tally) + Sync) -> (Tally, Duration) {
    const AT_ONCE: u64 = 64;
    let start = Instant::now();
    let (next, done, working) = (AtomicU64::new(0), AtomicU64::new(0), AtomicU64::new(threads as u64));
    let mut tally = Tally::new(kinds, columns);
    std::thread::scope(|scope| {
        let work = || {
            let mut tally = Tally::new(kinds, columns);
            loop {
                let from = next.fetch_add(AT_ONCE, Relaxed);
                if from >= cases {
                    break;
                }
                let to = cases.min(from + AT_ONCE);
                for index in from..to {
                    case(index, &mut tally);
                }
                done.fetch_add(to - from, Relaxed);
            }
            working.fetch_sub(1, Relaxed);
            tally
        };
        let workers: Vec<_> = (0..threads).map(|_| scope.spawn(work)).collect();
        let on_terminal = stderr().is_terminal();
        let between = Duration::from_millis(if on_terminal { 500 } else { 10000 });
        let mut told = Instant::now();
        while working.load(Relaxed) > 0 {
            std::thread::sleep(Duration::from_millis(20));
            if told.elapsed() >= between {
                told = Instant::now();
                progress(name, done.load(Relaxed), cases, start, if on_terminal { '\r' } else { '\n' });
            }
        }
        progress(name, done.load(Relaxed), cases, start, '\n');
        for worker in workers {
            tally.add(worker.join().expect("a thread failed"));
        }
    });
    (tally, start.elapsed())
}

fn progress(name: &str, done: u64, cases: u64, start: Instant, end: char) {
    let seconds = start.elapsed().as_secs_f64();
    let percent = 100.0 * done as f64 / cases.max(1) as f64;
    let mut to = stderr();
    let _ = write!(to, "{name}: {percent:5.1} % of {cases}, {:.0} a second, {seconds:.0} s {end}", done as f64 / seconds.max(1e-9));
    let _ = to.flush();
}
