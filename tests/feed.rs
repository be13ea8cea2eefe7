//! feed PROGRAM DIR: gives the program every stream of DIR (`paper streams`
//! writes them) in the ways in which standard input comes: from a file, through
//! a pipe at once, through a pipe in pieces. The output must be the expected one
//! to the last octet, standard error empty, the status 0.
//!
//! The next piece is written when the program has read all before it (FIONREAD),
//! so that no read gets two pieces, however fast or slow the machine is. In a
//! few runs time passes between the pieces as well.

use std::collections::HashSet;
use std::fs::{self, File};
use std::io::{Read, Write};
use std::os::fd::AsRawFd;
use std::process::{exit, Child, ChildStdin, Command, Stdio};
use std::sync::atomic::{AtomicBool, AtomicUsize, Ordering};
use std::sync::Mutex;
use std::thread::sleep;
use std::time::{Duration, Instant};

const THREADS: usize = 2;
/// The program reads no octets past these.
const READ: usize = 65_535;
/// As many answers of 40 octets as so many octets can have.
const MOST_OUT: usize = READ / 40 * 40;
/// Streams up to this size may be cut at every octet.
const SHORT: usize = 250;
/// Of these kinds the first short one is: IP options and TCP options move
/// the places where headers end.
const CUT_EVERYWHERE: [&str; 4] = ["opening", "ip-options", "options", "everything"];
/// Of these kinds the first that is longer than what is read is fed in many
/// pieces.
const LONG: [&str; 4] = ["answered", "long", "straddle", "reset-loop"];
const PAUSE: Duration = Duration::from_millis(30);
/// A program that runs longer has failed.
const PATIENCE: Duration = Duration::from_secs(20);
const SHOWN: usize = 20;

struct Stream {
    number: String,
    kind: String,
    input: Vec<u8>,
    output: Vec<u8>,
}

enum Way {
    File,
    Pipe { cuts: Vec<usize>, pause: Duration },
}

struct Run {
    stream: usize,
    way: Way,
    words: String,
}

extern "C" {
    fn ioctl(fd: i32, request: u64, ...) -> i32;
}
const FIONREAD: u64 = 0x541b;

fn main() {
    let args: Vec<String> = std::env::args().skip(1).collect();
    let [program, dir] = &args[..] else {
        eprintln!("feed PROGRAM DIR");
        exit(2)
    };
    let streams = streams(dir);
    let runs = runs(&streams);
    let mut faults = not_covered(&streams, &runs);
    faults.extend(all(program, dir, &streams, &runs));
    for fault in faults.iter().take(SHOWN) {
        println!("streams: {fault}");
    }
    if !faults.is_empty() {
        println!("streams: {} runs, {} faults", runs.len(), faults.len());
        exit(1);
    }
    let kinds: HashSet<&str> = streams.iter().map(|s| s.kind.as_str()).collect();
    println!(
        "streams: {} streams of {} kinds, {} octets in; {} runs from files and through pipes, {} pieces: every output is the one that 01 asks for",
        streams.len(),
        kinds.len(),
        streams.iter().map(|s| s.input.len()).sum::<usize>(),
        runs.len(),
        runs.iter().map(|r| r.way.pieces()).sum::<usize>()
    );
}

fn streams(dir: &str) -> Vec<Stream> {
    let file = |name: String| fs::read(format!("{dir}/{name}")).expect("a file of the streams");
    let index = String::from_utf8(file("index".to_string())).expect("the index is text");
    let one = |line: &str| {
        let words: Vec<&str> = line.split(' ').collect();
        Stream {
            number: words[0].to_string(),
            kind: words[1].to_string(),
            input: file(format!("{}.in", words[0])),
            output: file(format!("{}.out", words[0])),
        }
    };
    index.lines().map(one).collect()
}

// ---- what is run

impl Way {
    fn pieces(&self) -> usize {
        match self {
            Way::File => 1,
            Way::Pipe { cuts, .. } => cuts.len() + 1,
        }
    }
}

/// Cuts every so many octets.
fn every(size: usize, octets: usize) -> Vec<usize> {
    (1..size).filter(|i| i % octets == 0).collect()
}

/// Some cuts by chance, by the number of the stream.
fn some(size: usize, number: usize) -> Vec<usize> {
    let mut chance = number as u64 + 1;
    let mut cuts: Vec<usize> = (0..1 + number % 5)
        .map(|_| {
            chance = chance
                .wrapping_mul(6_364_136_223_846_793_005)
                .wrapping_add(1_442_695_040_888_963_407);
            (chance >> 33) as usize % (size + 1)
        })
        .collect();
    cuts.sort();
    cuts
}

fn runs(streams: &[Stream]) -> Vec<Run> {
    let mut runs = Vec::new();
    let mut put = |stream: usize, words: &str, way: Way| {
        let words = words.to_string();
        runs.push(Run { stream, way, words })
    };
    let pipe = |cuts: Vec<usize>| Way::Pipe {
        cuts,
        pause: Duration::ZERO,
    };
    let first = |kind: &str, of: &dyn Fn(&Stream) -> bool| {
        let mut those = streams
            .iter()
            .enumerate()
            .filter(|(_, s)| s.kind == kind && of(s));
        those.next().map(|(i, _)| i)
    };
    for (i, s) in streams.iter().enumerate() {
        let size = s.input.len();
        put(i, "a file", Way::File);
        put(i, "a pipe", pipe(vec![]));
        put(i, "a pipe in pieces", pipe(some(size, i)));
        if size > READ {
            let around = [READ - 1, READ, READ + 1]
                .into_iter()
                .filter(|c| *c < size)
                .collect();
            put(i, "a pipe, cut around 65,535", pipe(around));
        }
    }
    for kind in CUT_EVERYWHERE {
        if let Some(i) = first(kind, &|s| s.input.len() <= SHORT && s.output.len() > 40) {
            let size = streams[i].input.len();
            for cut in 0..=size {
                put(i, &format!("a pipe, cut at {cut}"), pipe(vec![cut]));
            }
            put(i, "a pipe, octet by octet", pipe(every(size, 1)));
            let pause = Way::Pipe {
                cuts: every(size, size / 4 + 1),
                pause: PAUSE,
            };
            put(i, "a pipe with pauses", pause);
        }
    }
    for i in LONG
        .into_iter()
        .filter_map(|kind| first(kind, &|s| s.input.len() > READ))
    {
        let size = streams[i].input.len();
        put(i, "a pipe, every 4,096 octets", pipe(every(size, 4_096)));
        put(i, "a pipe, every 40 octets", pipe(every(size, 40)));
        put(i, "a pipe, every 997 octets", pipe(every(size, 997)));
        let pause = Way::Pipe {
            cuts: every(size, 20_000),
            pause: PAUSE,
        };
        put(i, "a pipe with pauses", pause);
    }
    runs
}

/// What the streams must bring, so that the runs can find what they are for.
fn not_covered(streams: &[Stream], runs: &[Run]) -> Vec<String> {
    let has = |what: &str, there: bool| (!there).then(|| format!("NOT COVERED: {what}"));
    let some = |of: &dyn Fn(&Run, &Stream) -> bool| runs.iter().any(|r| of(r, &streams[r.stream]));
    let pauses = |r: &Run| matches!(r.way, Way::Pipe { pause, .. } if !pause.is_zero());
    let pieces = |r: &Run| r.way.pieces() > 1;
    let parts = [
        has(
            "a stream cut at every octet",
            some(&|r, s| r.way.pieces() == s.input.len() && s.input.len() > 80),
        ),
        has(
            "more than 65,535 octets in pieces",
            some(&|r, s| pieces(r) && s.input.len() > READ),
        ),
        has("1,638 answers", some(&|_, s| s.output.len() == MOST_OUT)),
        has(
            "1,638 answers to pieces",
            some(&|r, s| pieces(r) && s.output.len() == MOST_OUT),
        ),
        has("pauses", some(&|r, s| pauses(r) && s.input.len() <= SHORT)),
        has(
            "pauses in a long input",
            some(&|r, s| pauses(r) && s.input.len() > READ),
        ),
    ];
    parts.into_iter().flatten().collect()
}

// ---- running

fn all(program: &str, dir: &str, streams: &[Stream], runs: &[Run]) -> Vec<String> {
    let (next, faults) = (AtomicUsize::new(0), Mutex::new(Vec::new()));
    std::thread::scope(|scope| {
        for _ in 0..THREADS {
            scope.spawn(|| {
                while let Some(run) = runs.get(next.fetch_add(1, Ordering::Relaxed)) {
                    let stream = &streams[run.stream];
                    if let Err(how) = one(program, dir, stream, &run.way) {
                        let fault =
                            format!("stream {}, {}, {}: {how}", stream.number, stream.kind, run.words);
                        faults.lock().expect("no thread panics").push(fault);
                    }
                }
            });
        }
    });
    faults.into_inner().expect("no thread panics")
}

fn one(program: &str, dir: &str, stream: &Stream, way: &Way) -> Result<(), String> {
    let input = match way {
        Way::File => Stdio::from(File::open(format!("{dir}/{}.in", stream.number)).expect("a stream")),
        Way::Pipe { .. } => Stdio::piped(),
    };
    let mut command = Command::new(program);
    command.stdin(input).stdout(Stdio::piped()).stderr(Stdio::piped());
    let mut child = command.spawn().map_err(|e| format!("it does not start: {e}"))?;
    let (mut out, mut err) = (
        child.stdout.take().expect("piped"),
        child.stderr.take().expect("piped"),
    );
    let (stdin, mut output, mut errors) = (child.stdin.take(), Vec::new(), Vec::new());
    let gone = AtomicBool::new(false);
    let status = std::thread::scope(|scope| {
        scope.spawn(|| out.read_to_end(&mut output));
        scope.spawn(|| err.read_to_end(&mut errors));
        if let (Some(stdin), Way::Pipe { cuts, pause }) = (stdin, way) {
            scope.spawn(|| feed(stdin, &stream.input, cuts, *pause, &gone));
        }
        let status = ended(&mut child);
        gone.store(true, Ordering::Relaxed);
        status
    });
    if status.as_deref() != Some("exit status: 0") {
        return Err(status.unwrap_or("it does not end".to_string()));
    }
    if !errors.is_empty() {
        return Err(format!(
            "standard error: {}",
            String::from_utf8_lossy(&errors).trim_end()
        ));
    }
    if output != stream.output {
        let at = output.iter().zip(&stream.output).position(|(a, b)| a != b);
        let at = at.unwrap_or(output.len().min(stream.output.len()));
        return Err(format!(
            "{} octets written, 01 asks for {}; the first difference is at {at}",
            output.len(),
            stream.output.len()
        ));
    }
    Ok(())
}

/// Ends early where the program does, as it may past 65,535 octets; what that
/// leaves out shows in the output.
fn feed(mut stdin: ChildStdin, input: &[u8], cuts: &[usize], pause: Duration, gone: &AtomicBool) {
    let mut from = 0;
    for to in cuts.iter().copied().chain([input.len()]) {
        if stdin.write_all(&input[from..to]).is_err() {
            return;
        }
        from = to;
        while unread(&stdin) > 0 {
            if gone.load(Ordering::Relaxed) {
                return;
            }
            sleep(Duration::from_micros(20));
        }
        sleep(pause);
    }
}

fn unread(pipe: &ChildStdin) -> i32 {
    let mut octets = 0i32;
    let done = unsafe { ioctl(pipe.as_raw_fd(), FIONREAD, &mut octets as *mut i32) };
    assert!(done == 0, "a pipe tells how many octets are unread");
    octets
}

fn ended(child: &mut Child) -> Option<String> {
    let end = Instant::now() + PATIENCE;
    loop {
        match child.try_wait() {
            Ok(Some(status)) => return Some(status.to_string()),
            Ok(None) if Instant::now() < end => sleep(Duration::from_micros(50)),
            _ => {
                let _ = child.kill();
                let _ = child.wait();
                return None;
            }
        }
    }
}
