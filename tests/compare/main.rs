//! compare: the proved TCP opening code beside an independent program written
//! from the same paper. See README.md.

#[path = "../../crates/boundary/tabor.rs"]
mod tabor;

mod codec;
mod headers;
mod history;
mod kind;
mod lists;
mod map;
mod programs;
mod rng;
mod run;
mod shorts;
mod sizes;
mod stations;
mod steps;
mod walk;
mod words;

use kind::Seen;
use paper::{Paper, Wrong};
use run::{Found, Outcome, Runner, KINDS, RUNNERS};
use std::io::{IsTerminal, Write};
use std::process::exit;
use std::time::{Duration, Instant};
use words::thousands;

const USAGE: &str = "compare: the proved library beside the independent program

  --tests                     every kind, a million and more of each, coverage demanded
  --long SECONDS              every kind, for as long as told
  --kind K --count N          one kind: headers, stations, steps, shorts, lists, programs
  --wrong NAME                the independent side made wrong in one rule: must be found
  --wrongs                    all wrong versions, one after the other
  --walk [--count HISTORIES]  demand 3 by walking
  --repeat KIND:HEX           one case again (with --wrong NAME: against that version)
  --list                      the names of the wrong versions
  --seed N                    with any of these";

/// The gate must give the same answer for the same sources, so the tests have
/// a seed of their own; a long run takes a new one from the clock.
const SEED: u64 = 9293;

/// Cases of each kind in `--tests`.
const COUNTS: [u64; KINDS] = [
    40 * MILLION,
    40 * MILLION,
    16 * MILLION,
    shorts::WHOLE,
    200_000,
    200_000,
];
/// Every kind must reach this many calls, events or datagrams in `--tests`.
const MILLION: u64 = 1_000_000;
/// And so many comparisons, where a fault that one call in a million shows must
/// be found: n comparisons miss it with a chance of e^(-n / 1,000,000).
const ENOUGH: [u64; KINDS] = [8 * MILLION, 8 * MILLION, 8 * MILLION, 8 * MILLION, 0, 0];
/// Cases of each kind at a time where the kinds take turns.
const TURNS: [u64; KINDS] = [20_000, 20_000, 4_000, 4_000, 400, 430];

const SHRINKING: Duration = Duration::from_secs(20);
const SHRINKING_WRONG: Duration = Duration::from_secs(2);
/// A wrong version not found after this long is not found.
const WRONG_CAP: Duration = Duration::from_secs(60);

#[derive(Default)]
struct Options {
    mode: Option<String>,
    value: String,
    seed: Option<u64>,
    count: Option<u64>,
    wrong: Option<String>,
}

fn usage(problem: &str) -> ! {
    eprintln!("{problem}\n\n{USAGE}");
    exit(2)
}

fn number(text: &str) -> u64 {
    match text.replace([',', '_'], "").parse() {
        Ok(n) => n,
        Err(_) => usage(&format!("{text} is no number")),
    }
}

fn options() -> Options {
    let mut o = Options::default();
    let mut words = std::env::args().skip(1);
    while let Some(word) = words.next() {
        let mut value = || {
            words
                .next()
                .unwrap_or_else(|| usage(&format!("{word} needs a value")))
        };
        match word.as_str() {
            "--seed" => o.seed = Some(number(&value())),
            "--count" => o.count = Some(number(&value())),
            "--wrong" => o.wrong = Some(value()),
            "--tests" | "--wrongs" | "--walk" | "--list" => set_mode(&mut o, &word, String::new()),
            "--long" | "--kind" | "--repeat" => {
                let value = value();
                set_mode(&mut o, &word, value)
            }
            _ => usage(&format!("{word} is not known")),
        }
    }
    o
}

fn set_mode(o: &mut Options, mode: &str, value: String) {
    if o.mode.is_some() {
        usage("one mode at a time");
    }
    o.mode = Some(mode.to_string());
    o.value = value;
}

fn main() {
    let o = options();
    let wrong = o.wrong.as_deref().map(|name| match Wrong::from_name(name) {
        Some(wrong) => wrong,
        None => usage(&format!("no wrong version is called {name}")),
    });
    let paper = Paper {
        wrong: wrong.unwrap_or(Wrong::None),
    };
    let seed = o.seed.unwrap_or(SEED);
    let good = match (o.mode.as_deref(), wrong) {
        (Some("--repeat"), _) => repeat(&paper, &o.value),
        (None, Some(wrong)) => one_wrong(wrong, seed),
        (Some(mode), Some(_)) => usage(&format!("{mode} does not go with --wrong")),
        (Some("--tests"), None) => tests(seed),
        (Some("--long"), None) => long(number(&o.value), o.seed.unwrap_or_else(clock)),
        (Some("--kind"), None) => one_kind(&o.value, seed, o.count.unwrap_or(100_000)),
        (Some("--wrongs"), None) => all_wrongs(seed),
        (Some("--walk"), None) => walk::walk(seed, o.count.unwrap_or(walk::HISTORIES)),
        (Some("--list"), None) => list(),
        _ => usage("what shall be done?"),
    };
    exit(if good { 0 } else { 1 })
}

fn clock() -> u64 {
    let since = std::time::SystemTime::now().duration_since(std::time::UNIX_EPOCH);
    since.map(|t| t.as_nanos() as u64).unwrap_or(SEED)
}

fn list() -> bool {
    for wrong in Wrong::ALL {
        println!("{:26} {}", wrong.name(), wrong.description());
    }
    true
}

fn runner(name: &str) -> &'static Runner {
    match RUNNERS.iter().find(|r| r.name == name) {
        Some(runner) => runner,
        None => usage(&format!("no kind is called {name}")),
    }
}

fn rate(n: u64, time: Duration) -> String {
    thousands((n as f64 / time.as_secs_f64().max(0.001)) as u64)
}

// ---- showing a difference

fn show(found: &Found, with: &str) {
    match found.index {
        Some(index) => println!("DIFFERENCE in {}, case {index}, made small:", found.kind),
        None => println!("{}:", found.kind),
    }
    for line in &found.case {
        println!("    {line}");
    }
    for line in found.difference() {
        println!("  {line}");
    }
    println!("  repeat: compare{with} --repeat {}:{}", found.kind, found.hex);
}

fn repeat(paper: &Paper, text: &str) -> bool {
    let Some((kind, hex)) = text.split_once(':') else {
        usage("a case is KIND:HEX");
    };
    let octets = codec::from_hex(hex).unwrap_or_else(|| usage("the octets cannot be read"));
    let Some(found) = (runner(kind).repeat)(paper, &octets) else {
        usage("the octets are no case of this kind");
    };
    for line in &found.case {
        println!("    {line}");
    }
    if found.differs {
        println!("  the two sides differ:");
        for line in found.difference() {
            println!("  {line}");
        }
    } else {
        println!("  both sides answer:");
        for line in &found.library {
            println!("    {line}");
        }
    }
    !found.differs
}

// ---- the runs

fn summary(runner: &Runner, outcome: &Outcome) {
    println!(
        "{}: {} comparisons, {} {}, {:.1} s, {} comparisons and {} {} a second",
        runner.name,
        thousands(outcome.comparisons),
        thousands(outcome.seen.units),
        runner.unit,
        outcome.time.as_secs_f64(),
        rate(outcome.comparisons, outcome.time),
        rate(outcome.seen.units, outcome.time),
        runner.unit
    );
    outcome.seen.print();
}

/// The kind's run told; true if nothing differs.
fn told(runner: &Runner, outcome: &Outcome) -> bool {
    summary(runner, outcome);
    match &outcome.found {
        None => true,
        Some(found) => {
            show(found, "");
            false
        }
    }
}

fn tests(seed: u64) -> bool {
    println!("seed {seed}");
    let begin = Instant::now();
    let mut good = true;
    for (runner, (count, enough)) in RUNNERS.iter().zip(COUNTS.into_iter().zip(ENOUGH)) {
        let outcome = (runner.run)(&Paper::RIGHT, seed, 0, count, SHRINKING);
        let mut faults = outcome.seen.missing();
        if outcome.seen.units < MILLION {
            faults.push(format!("fewer than {} {}", thousands(MILLION), runner.unit));
        }
        if outcome.comparisons < enough {
            faults.push(format!("fewer than {} comparisons", thousands(enough)));
        }
        good &= told(runner, &outcome) && faults.is_empty();
        for fault in faults {
            println!("  NOT COVERED: {fault}");
        }
    }
    let verdict = if good {
        "no difference, everything covered"
    } else {
        "FAILED"
    };
    println!(
        "compare --tests: {verdict}, {:.1} s, seed {seed}",
        begin.elapsed().as_secs_f64()
    );
    good
}

fn one_kind(name: &str, seed: u64, count: u64) -> bool {
    println!("seed {seed}");
    let runner = runner(name);
    let outcome = (runner.run)(&Paper::RIGHT, seed, 0, count, SHRINKING);
    told(runner, &outcome)
}

fn long(seconds: u64, seed: u64) -> bool {
    println!("seed {seed}");
    let (begin, end) = (Instant::now(), Instant::now() + Duration::from_secs(seconds));
    let mut totals: Vec<Outcome> = RUNNERS.iter().map(nothing_yet).collect();
    let (mut first, mut shown) = ([0u64; KINDS], Instant::now());
    while Instant::now() < end {
        for (i, runner) in RUNNERS.iter().enumerate() {
            let outcome = (runner.run)(&Paper::RIGHT, seed, first[i], TURNS[i], SHRINKING);
            first[i] += TURNS[i];
            if outcome.found.is_some() {
                println!();
                return told(runner, &outcome);
            }
            add(&mut totals[i], &outcome);
        }
        if shown.elapsed() > Duration::from_secs(3) {
            shown = Instant::now();
            progress(&totals, begin.elapsed());
        }
    }
    println!();
    for (runner, outcome) in RUNNERS.iter().zip(&totals) {
        summary(runner, outcome);
    }
    println!(
        "compare --long: no difference, {:.1} s, seed {seed}",
        begin.elapsed().as_secs_f64()
    );
    true
}

fn nothing_yet(runner: &Runner) -> Outcome {
    Outcome {
        comparisons: 0,
        seen: (runner.nothing_seen)(),
        time: Duration::ZERO,
        found: None,
    }
}

fn add(total: &mut Outcome, part: &Outcome) {
    total.comparisons += part.comparisons;
    total.time += part.time;
    total.seen.add(&part.seen);
}

/// One line, written over itself where there is a terminal.
fn progress(totals: &[Outcome], time: Duration) {
    let all: u64 = totals.iter().map(|o| o.comparisons).sum();
    let kinds: Vec<String> = RUNNERS
        .iter()
        .zip(totals)
        .map(|(r, o)| format!("{} {}", r.name, reached(&o.seen)))
        .collect();
    let line = format!(
        "{:.0} s: {} comparisons, {} a second; reached: {}",
        time.as_secs_f64(),
        thousands(all),
        rate(all, time),
        kinds.join(", ")
    );
    if std::io::stdout().is_terminal() {
        print!("\r{line}   ");
        let _ = std::io::stdout().flush();
    } else {
        println!("{line}");
    }
}

fn reached(seen: &Seen) -> String {
    let (reached, must) = seen.reached();
    format!("{reached}/{must}")
}

// ---- the wrong versions

/// Which kind found it, after how many comparisons of that kind and of all.
struct Caught {
    found: Found,
    of_kind: u64,
    of_all: u64,
}

/// The kinds take turns until one finds a difference.
fn catch(wrong: Wrong, seed: u64, cap: Duration) -> Option<Caught> {
    let paper = Paper { wrong };
    let end = Instant::now() + cap;
    let (mut first, mut all) = ([0u64; KINDS], 0);
    while Instant::now() < end {
        for (i, runner) in RUNNERS.iter().enumerate() {
            let outcome = (runner.run)(&paper, seed, first[i], TURNS[i], SHRINKING_WRONG);
            let before = first[i];
            first[i] += TURNS[i];
            if let Some(found) = outcome.found {
                let here = found.index.map_or(0, |index| index - before + 1);
                return Some(Caught {
                    of_kind: before + here,
                    of_all: all + here,
                    found,
                });
            }
            all += outcome.comparisons;
        }
    }
    None
}

fn one_wrong(wrong: Wrong, seed: u64) -> bool {
    if wrong == Wrong::None {
        usage("none is the paper itself");
    }
    println!(
        "seed {seed}; wrong version {}: {}",
        wrong.name(),
        wrong.description()
    );
    match catch(wrong, seed, WRONG_CAP) {
        None => {
            println!("NOT FOUND within {} s", WRONG_CAP.as_secs());
            false
        }
        Some(caught) => {
            let (kind, n) = (caught.found.kind, thousands(caught.of_kind));
            println!(
                "found by {kind} after {n} of its comparisons, {} in all",
                thousands(caught.of_all)
            );
            show(&caught.found, &format!(" --wrong {}", wrong.name()));
            true
        }
    }
}

fn all_wrongs(seed: u64) -> bool {
    println!("seed {seed}; {} wrong versions", Wrong::ALL.len());
    let begin = Instant::now();
    let (mut table, mut good) = (Vec::new(), true);
    for wrong in Wrong::ALL {
        println!("{}: {}", wrong.name(), wrong.description());
        let row = match catch(wrong, seed, WRONG_CAP) {
            None => {
                good = false;
                format!("NOT FOUND within {} s", WRONG_CAP.as_secs())
            }
            Some(caught) => {
                caught_words(&caught, wrong);
                format!(
                    "{:9} {:>8} comparisons",
                    caught.found.kind,
                    thousands(caught.of_kind)
                )
            }
        };
        table.push(format!("  {:26} {row}", wrong.name()));
    }
    println!("found by which kind, after how many comparisons:");
    table.iter().for_each(|row| println!("{row}"));
    let (time, all) = (begin.elapsed().as_secs_f64(), Wrong::ALL.len());
    let verdict = if good { "all found" } else { "FAILED" };
    println!("compare --wrongs: {verdict}, {all} wrong versions, {time:.1} s, seed {seed}");
    good
}

fn caught_words(caught: &Caught, wrong: Wrong) {
    let found = &caught.found;
    println!(
        "    found by {} after {} comparisons",
        found.kind,
        thousands(caught.of_kind)
    );
    for line in found.case.iter().take(12) {
        println!("      {}", cut(line));
    }
    for line in found.difference().iter().take(4) {
        println!("    {}", cut(line));
    }
    // a case that no shrinking makes short (more than 65,535 octets) is repeated by --wrong NAME
    if found.hex.len() <= 4_000 {
        println!(
            "    compare --wrong {} --repeat {}:{}",
            wrong.name(),
            found.kind,
            found.hex
        );
    } else {
        println!("    compare --wrong {} shows the whole case", wrong.name());
    }
}

fn cut(line: &str) -> String {
    if line.len() <= 300 {
        return line.to_string();
    }
    format!("{} ...", &line[..line.floor_char_boundary(300)])
}
