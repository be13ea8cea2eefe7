//! Kind `programs`: the whole program on octets of datagrams.

use crate::headers::seal;
use crate::kind::{every, number, pair, pair_table, refusal_table, sent_number, sent_table, size_table};
use crate::kind::{Kind, Seen, Table};
use crate::rng::Rng;
use crate::{sizes, tabor, words};
use paper::streams::KINDS;
use paper::{Barn, Paper};
use std::sync::OnceLock;

/// The program's input.
pub type Case = Vec<u8>;

#[derive(PartialEq)]
pub struct Answer {
    count: usize,
    /// All 65,535 octets of the output: those past the count must be as they were.
    out: Vec<u8>,
}

const OUTPUT: usize = 65_535;
/// Octets past these are not read.
const READ: usize = 65_535;

// the tables, by their place
const REFUSALS: usize = 0;
const STEPS: usize = 1;
const SENT: usize = 2;
const STOPS: usize = 3;
const SPECIAL: usize = 4;
const SIZES: usize = 5;
const ANSWERS: usize = 6;
const DRAWN: usize = 7;
const INPUTS: usize = 8;
const TOTALS: usize = 9;

/// As many datagrams of 40 octets as are read, and as many pairs of them.
const MOST: usize = READ / 40;
const MOST_DRAWN: usize = MOST / 2;

const STOP_NAMES: [&str; 6] = [
    "at the end",
    "version not 4",
    "header below 5 words",
    "total below the header's",
    "total above 1,500",
    "octets missing",
];
const SPECIALS: [&str; 4] = [
    "other protocol",
    "more than 65,535 octets",
    "IP options",
    "fragment",
];
/// What the program's station can do: it has no calls.
const PAIRS: [(u8, u8); 9] = [
    (0, 0),
    (1, 1),
    (1, 3),
    (3, 0),
    (3, 1),
    (3, 3),
    (3, 4),
    (4, 0),
    (4, 4),
];

/// The input that 01 shows.
const EXAMPLE: [u8; 40] = [
    0x45, 0x00, 0x00, 0x28, 0x00, 0x00, 0x40, 0x00, 0x40, 0x06, 0x26, 0xce, 0x0a, 0x00, 0x00, 0x01, 0x0a,
    0x00, 0x00, 0x02, 0x04, 0x00, 0x07, 0xd0, 0x00, 0x00, 0x00, 0x64, 0x00, 0x00, 0x00, 0x00, 0x50, 0x02,
    0x10, 0x00, 0x7f, 0xac, 0x00, 0x00,
];

pub struct Programs;

impl Kind for Programs {
    const NAME: &'static str = "programs";
    const UNIT: &'static str = "datagrams";
    type Case = Case;
    type Answer = Answer;
    type Ground = ();
    const SHARED: u64 = 4;

    fn tables() -> Vec<Table> {
        vec![
            refusal_table("TCP datagrams", &[0, 2, 3, 4, 5, 6]),
            pair_table(&PAIRS),
            sent_table(&[0, 2, 3, 4, 5]),
            Table::new("stops", STOP_NAMES.len(), every(STOP_NAMES.len()), |v| {
                STOP_NAMES[v].to_string()
            }),
            Table::new("special", SPECIALS.len(), every(SPECIALS.len()), |v| {
                SPECIALS[v].to_string()
            }),
            Table::new("datagrams in an input", MOST + 2, vec![0, 1, 2, 10, MOST], number),
            Table::new("answers to an input", MOST + 2, vec![0, 1, 2, 10, MOST], number),
            Table::new(
                "numbers drawn in an input",
                MOST_DRAWN + 2,
                vec![0, 1, 2, 10, MOST_DRAWN],
                number,
            ),
            size_table("input sizes"),
            Table::new("total lengths walked over", 1501, (20..1501).collect(), number),
        ]
    }

    fn ground(_: &mut Rng, _: u64) {}

    fn make(rng: &mut Rng, _: &(), index: u64) -> Case {
        if index == 0 {
            return EXAMPLE.to_vec();
        }
        let mut octets = stream(rng, index);
        if index % 16 == 7 && !octets.is_empty() {
            // again and again, or not all of it
            let size = sizes::in_turn(rng.next() as usize, 16);
            return octets.into_iter().cycle().take(size).collect();
        }
        if index % 3 == 2 {
            for _ in 0..rng.between(1, 4) {
                octets = mutated(rng, octets);
            }
        }
        octets
    }

    fn library(case: &Case) -> Answer {
        let mut out: Box<[u8; OUTPUT]> = background().to_vec().try_into().expect("as many");
        let count = tabor::run(case, &mut out);
        Answer {
            count,
            out: (out as Box<[u8]>).into_vec(),
        }
    }

    fn paper(paper: &Paper, case: &Case, seen: &mut Seen) -> Answer {
        let written = paper::program(paper, case);
        note(paper, case, seen);
        let mut out = background().to_vec();
        if written.len() <= OUTPUT {
            out[..written.len()].copy_from_slice(&written);
        } else {
            // only a wrong version writes so much; the count shows it
            out.copy_from_slice(&written[..OUTPUT]);
        }
        Answer {
            count: written.len(),
            out,
        }
    }

    fn smaller(case: &Case) -> Box<dyn Iterator<Item = Case> + '_> {
        Box::new(
            emptied(case)
                .chain(fewer_datagrams(case))
                .chain(shorter(case))
                .chain(smaller_datagrams(case)),
        )
    }

    fn words(case: &Case) -> Vec<String> {
        let mut lines = vec![format!("the program, input of {} octets", case.len())];
        // where there are many, the first and the last ones
        let spans = datagrams(case);
        for (i, span) in spans.iter().enumerate() {
            if i < 16 || i + 4 >= spans.len() {
                lines.push(format!("{}: {}", i + 1, datagram_words(&case[span.clone()])));
            }
        }
        lines
    }

    fn answer_words(answer: &Answer) -> Vec<String> {
        let written = &answer.out[..answer.count.min(OUTPUT)];
        let mut lines = vec![format!("{} octets written", answer.count)];
        lines.extend(written.chunks(40).map(datagram_words));
        let before = background();
        let touched: Vec<usize> = (written.len()..OUTPUT)
            .filter(|i| answer.out[*i] != before[*i])
            .take(5)
            .collect();
        if !touched.is_empty() {
            lines.push(format!("octets past the count changed, the first at {touched:?}"));
        }
        lines
    }

    fn to_octets(case: &Case) -> Vec<u8> {
        case.clone()
    }

    fn from_octets(octets: &[u8]) -> Option<Case> {
        Some(octets.to_vec())
    }
}

/// What lies in the output before: octets by chance, always the same, so
/// that a case is repeated exactly.
fn background() -> &'static [u8] {
    static BACKGROUND: OnceLock<Vec<u8>> = OnceLock::new();
    BACKGROUND.get_or_init(|| Rng::new(0xbac6).octets(OUTPUT))
}

// ---- what is reached

fn note(paper: &Paper, case: &[u8], seen: &mut Seen) {
    let read = &case[..case.len().min(READ)];
    seen.mark(INPUTS, sizes::number(case.len()));
    if case.len() > READ {
        seen.mark(SPECIAL, 1);
    }
    let mut barn = Barn::new(paper);
    let (mut place, mut count, mut answers) = (0, 0, 0);
    loop {
        let rest = &read[place..];
        // the station and the number it is offered, before the datagram
        let before = (barn.station, barn.fresh());
        let Some(octets) = barn.datagram(rest) else {
            seen.mark(STOPS, why_stopped(rest));
            break;
        };
        note_datagram(paper, &before, &rest[..octets], seen);
        answers += !barn.out.is_empty() as usize;
        // the output is not needed here, and would only grow
        barn.out.clear();
        place += octets;
        count += 1;
    }
    seen.units += count as u64;
    seen.mark(SIZES, count);
    seen.mark(ANSWERS, answers);
    seen.mark(DRAWN, barn.drawn as usize);
}

fn four(octets: &[u8], at: usize) -> u32 {
    u32::from_be_bytes([octets[at], octets[at + 1], octets[at + 2], octets[at + 3]])
}

fn two(octets: &[u8], at: usize) -> usize {
    u16::from_be_bytes([octets[at], octets[at + 1]]) as usize
}

fn note_datagram(paper: &Paper, before: &(paper::Record, u32), datagram: &[u8], seen: &mut Seen) {
    let header = (datagram[0] & 15) as usize * 4;
    seen.mark(TOTALS, datagram.len());
    if header > 20 {
        seen.mark(SPECIAL, 2);
    }
    if two(datagram, 6) & 0x3fff != 0 {
        seen.mark(SPECIAL, 3);
    }
    if datagram[9] != 6 {
        return seen.mark(SPECIAL, 0);
    }
    let (station, fresh) = *before;
    let (src, dst) = (four(datagram, 12), four(datagram, 16));
    match paper::arrive_octets(paper, station, src, dst, &datagram[header..], fresh) {
        Err(refusal) => seen.mark(REFUSALS, refusal as usize),
        Ok(taken) => {
            seen.mark(REFUSALS, 0);
            seen.mark(STEPS, pair(station.state.number(), taken.next.state.number()));
            seen.mark(SENT, sent_number(taken.sent.map(|g| g.header.control)));
        }
    }
}

fn why_stopped(rest: &[u8]) -> usize {
    if rest.is_empty() {
        return 0;
    }
    if rest.len() < 20 {
        return 5;
    }
    let (header, total) = ((rest[0] & 15) as usize * 4, two(rest, 2));
    if rest[0] >> 4 != 4 {
        1
    } else if header < 20 {
        2
    } else if total < header {
        3
    } else if total > 1500 {
        4
    } else {
        5
    }
}

// ---- making cases

/// Every kind of stream in turn.
fn stream(rng: &mut Rng, index: u64) -> Vec<u8> {
    let kinds = KINDS.len() as u64;
    let seed = (rng.next() >> 8) / kinds * kinds + (index / 3 + index) % kinds;
    paper::stream(seed).octets
}

type Span = std::ops::Range<usize>;

/// The datagrams by their total lengths; what is left over is the last one.
fn datagrams(octets: &[u8]) -> Vec<Span> {
    let mut spans = Vec::new();
    let mut at = 0;
    while at < octets.len() {
        let left = octets.len() - at;
        let total = if left >= 4 { two(octets, at + 2) } else { left };
        let n = if total < 20 { left } else { total.min(left) };
        spans.push(at..at + n);
        at += n;
    }
    spans
}

fn mutated(rng: &mut Rng, mut octets: Vec<u8>) -> Vec<u8> {
    let spans = datagrams(&octets);
    if spans.is_empty() {
        return rng.octets(60);
    }
    let one = spans[rng.below(spans.len())].clone();
    let other = spans[rng.below(spans.len())].clone();
    match rng.below(11) {
        0 => {
            octets.drain(one);
        }
        1 => {
            let copy = octets[one].to_vec();
            octets.splice(other.start..other.start, copy);
        }
        2 => exchange(&mut octets, one, other),
        3 => {
            let at = rng.below(octets.len());
            octets[at] ^= 1 << rng.below(8);
        }
        4 => {
            let at = rng.below(octets.len());
            octets[at] = rng.octet();
        }
        5 => octets.truncate(rng.below(octets.len() + 1)),
        6 => {
            let more = rng.between(1, 50);
            octets.extend(rng.octets(more));
        }
        7 => {
            let index = rng.next() >> 8;
            octets.extend(stream(rng, index));
        }
        8 | 9 => change_field(rng, &mut octets[one]),
        _ => {
            // again and again, up to and past what is read
            let whole = octets.clone();
            let limit = rng.pick(&[2_000, 20_000, 70_000]);
            while octets.len() < limit {
                octets.extend(&whole);
            }
        }
    }
    octets
}

fn exchange(octets: &mut Vec<u8>, one: Span, other: Span) {
    if one.end > other.start {
        return;
    }
    let (first, second) = (octets[one.clone()].to_vec(), octets[other.clone()].to_vec());
    octets.splice(other, first);
    octets.splice(one, second);
}

/// Another octet in the IP or TCP header, with the TCP checksum made right.
fn change_field(rng: &mut Rng, datagram: &mut [u8]) {
    if datagram.len() < 40 {
        return;
    }
    let at = rng.below(40);
    datagram[at] = if rng.one_in(2) {
        rng.octet()
    } else {
        datagram[at] ^ 1 << rng.below(8)
    };
    reseal(datagram);
}

fn reseal(datagram: &mut [u8]) {
    if datagram.len() < 20 {
        return;
    }
    let (src, dst) = (four(datagram, 12), four(datagram, 16));
    let header = (datagram[0] & 15) as usize * 4;
    if header >= 20 && header <= datagram.len() {
        seal(src, dst, &mut datagram[header..]);
    }
}

fn datagram_words(d: &[u8]) -> String {
    if d.len() < 20 {
        return words::octets(d);
    }
    let header = (d[0] & 15) as usize * 4;
    let tcp = d.get(header..).unwrap_or(&[]);
    let text = if tcp.len() >= 20 {
        format!(
            " {} seq {} ack {}",
            words::control(tcp[13]),
            four(tcp, 4),
            four(tcp, 8)
        )
    } else {
        String::new()
    };
    format!("datagram{text}: {}", words::octets(d))
}

// ---- making a case smaller

fn fewer_datagrams(case: &[u8]) -> impl Iterator<Item = Case> + '_ {
    let spans = datagrams(case);
    let n = spans.len();
    let sizes = std::iter::successors(Some(n), |k| (*k > 1).then_some(k / 2)).filter(|k| *k > 0);
    sizes.flat_map(move |k| {
        let spans = spans.clone();
        (0..n.div_ceil(k)).rev().map(move |i| {
            let (from, to) = (spans[i * k].start, spans[((i + 1) * k).min(n) - 1].end);
            [&case[..from], &case[to..]].concat()
        })
    })
}

fn shorter(case: &[u8]) -> impl Iterator<Item = Case> + '_ {
    let n = case.len();
    [n / 2, n.saturating_sub(20), n.saturating_sub(1)]
        .into_iter()
        .filter(move |m| *m < n)
        .map(move |m| case[..m].to_vec())
}

/// Whole datagrams made zero behind their length: the program skips those, and
/// cases that need many octets become short to write.
fn emptied(case: &[u8]) -> impl Iterator<Item = Case> + '_ {
    let spans = datagrams(case);
    let n = spans.len();
    let halves = [0..n, 0..n.max(1) - 1, 0..n / 2, n / 2..n];
    let few = (0..n.min(12)).map(|i| i..i + 1);
    halves.into_iter().chain(few).map(move |group| {
        let mut octets = case.to_vec();
        for span in &spans[group] {
            octets[span.clone()].iter_mut().skip(4).for_each(|o| *o = 0);
        }
        octets
    })
}

/// Octets made zero, once as it is and once with the TCP checksum made right.
fn smaller_datagrams(case: &[u8]) -> impl Iterator<Item = Case> + '_ {
    let spans = datagrams(case);
    // beyond this the candidates would take longer than they are worth
    spans.into_iter().take(12).flat_map(move |span| {
        span.clone().filter(|i| case[*i] != 0).flat_map(move |i| {
            let mut zero = case.to_vec();
            zero[i] = 0;
            let mut right = zero.clone();
            reseal(&mut right[span.clone()]);
            [zero, right]
        })
    })
}
