//! Running cases of a kind on two threads, and making a difference small.

use crate::codec::to_hex;
use crate::headers::Headers;
use crate::kind::{Kind, Seen};
use crate::lists::Lists;
use crate::programs::Programs;
use crate::rng::Rng;
use crate::shorts::Shorts;
use crate::stations::Stations;
use crate::steps::Steps;
use paper::Paper;
use std::sync::atomic::{AtomicU64, Ordering};
use std::time::{Duration, Instant};

const THREADS: u64 = 2;

/// A kind without its types, so that the kinds can stand in one list.
pub struct Runner {
    pub name: &'static str,
    pub unit: &'static str,
    pub nothing_seen: fn() -> Seen,
    /// Seed, first case, how many cases, and how long a difference is shrunk.
    pub run: fn(&Paper, u64, u64, u64, Duration) -> Outcome,
    pub repeat: fn(&Paper, &[u8]) -> Option<Found>,
}

pub const KINDS: usize = 6;
pub const RUNNERS: [Runner; KINDS] = [
    runner::<Headers>(),
    runner::<Stations>(),
    runner::<Steps>(),
    runner::<Shorts>(),
    runner::<Lists>(),
    runner::<Programs>(),
];

const fn runner<K: Kind>() -> Runner {
    Runner {
        name: K::NAME,
        unit: K::UNIT,
        nothing_seen: || Seen::new(K::tables()),
        run: run::<K>,
        repeat: repeat::<K>,
    }
}

pub struct Outcome {
    pub comparisons: u64,
    pub seen: Seen,
    pub time: Duration,
    pub found: Option<Found>,
}

/// A case in words, and whether and how the two sides differ on it.
pub struct Found {
    pub kind: &'static str,
    /// The case's number in its run; a repeated case has none.
    pub index: Option<u64>,
    pub case: Vec<String>,
    pub library: Vec<String>,
    pub paper: Vec<String>,
    pub differs: bool,
    pub hex: String,
}

impl Found {
    /// The lines of the answers that are not the same on both sides.
    pub fn difference(&self) -> Vec<String> {
        let mut lines = Vec::new();
        for line in self.library.iter().filter(|l| !self.paper.contains(l)) {
            lines.push(format!("the library:  {line}"));
        }
        for line in self.paper.iter().filter(|l| !self.library.contains(l)) {
            lines.push(format!("independent:  {line}"));
        }
        lines
    }
}

/// Its chances are other ones than those of the cases made on it.
fn ground<K: Kind>(seed: u64, number: u64) -> K::Ground {
    K::ground(&mut Rng::of_case(!seed, K::NAME, number), number)
}

fn differs<K: Kind>(paper: &Paper, case: &K::Case, seen: &mut Seen) -> bool {
    K::library(case) != K::paper(paper, case, seen)
}

/// Cases `first` to `first + count - 1`. The first difference in that order is
/// the one that is told, however the threads ran.
fn run<K: Kind>(paper: &Paper, seed: u64, first: u64, count: u64, shrinking: Duration) -> Outcome {
    let begin = Instant::now();
    let lowest = AtomicU64::new(u64::MAX);
    let last = first + count;
    // the threads take the grounds in turn
    let one = |thread: u64| {
        let mut seen = Seen::new(K::tables());
        let mut done = 0;
        let grounds = first / K::SHARED..last.div_ceil(K::SHARED);
        for number in grounds.filter(|n| n % THREADS == thread) {
            let ground = ground::<K>(seed, number);
            for index in first.max(number * K::SHARED)..last.min((number + 1) * K::SHARED) {
                if index >= lowest.load(Ordering::Relaxed) {
                    return (done, seen);
                }
                let case = K::make(&mut Rng::of_case(seed, K::NAME, index), &ground, index);
                done += 1;
                if differs::<K>(paper, &case, &mut seen) {
                    lowest.fetch_min(index, Ordering::Relaxed);
                }
            }
        }
        (done, seen)
    };
    let parts: Vec<(u64, Seen)> = std::thread::scope(|scope| {
        let threads: Vec<_> = (0..THREADS).map(|t| scope.spawn(move || one(t))).collect();
        threads
            .into_iter()
            .map(|t| t.join().expect("a comparing thread ended early"))
            .collect()
    });
    let mut seen = Seen::new(K::tables());
    let mut comparisons = 0;
    for (done, part) in &parts {
        comparisons += done;
        seen.add(part);
    }
    let time = begin.elapsed();
    let found = match lowest.into_inner() {
        u64::MAX => None,
        index => {
            let ground = ground::<K>(seed, index / K::SHARED);
            let case = K::make(&mut Rng::of_case(seed, K::NAME, index), &ground, index);
            let case = shrink::<K>(paper, case, shrinking);
            Some(describe::<K>(paper, &case, Some(index)))
        }
    };
    Outcome {
        comparisons,
        seen,
        time,
        found,
    }
}

fn describe<K: Kind>(paper: &Paper, case: &K::Case, index: Option<u64>) -> Found {
    let mut seen = Seen::new(K::tables());
    let (library, independent) = (K::library(case), K::paper(paper, case, &mut seen));
    Found {
        kind: K::NAME,
        index,
        case: K::words(case),
        library: K::answer_words(&library),
        paper: K::answer_words(&independent),
        differs: library != independent,
        hex: to_hex(&K::to_octets(case)),
    }
}

fn repeat<K: Kind>(paper: &Paper, octets: &[u8]) -> Option<Found> {
    K::from_octets(octets).map(|case| describe::<K>(paper, &case, None))
}

/// Fewer octets, then fewer that are not zero, then smaller ones: every step
/// of the shrinking goes down in this order, so it ends.
fn weight(octets: Vec<u8>) -> (usize, usize, Vec<u8>) {
    (octets.len(), octets.iter().filter(|o| **o != 0).count(), octets)
}

/// Greedy: the first smaller case that still differs is taken, again and again.
fn shrink<K: Kind>(paper: &Paper, case: K::Case, limit: Duration) -> K::Case {
    let end = Instant::now() + limit;
    let mut seen = Seen::new(K::tables());
    let mut now = case;
    loop {
        let heavy = weight(K::to_octets(&now));
        let mut better = None;
        for candidate in K::smaller(&now) {
            if Instant::now() > end {
                break;
            }
            if weight(K::to_octets(&candidate)) < heavy && differs::<K>(paper, &candidate, &mut seen) {
                better = Some(candidate);
                break;
            }
        }
        match better {
            Some(candidate) => now = candidate,
            None => return now,
        }
    }
}
