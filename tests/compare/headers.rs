//! Kind `headers`: a header read, a header write, a checksum.

use crate::codec::{Put, Take};
use crate::kind::{control_label, every, refusal_table, size_table, Kind, Seen, Table};
use crate::rng::Rng;
use crate::tabor::{self, Header, Reading};
use crate::{map, sizes, words};
use paper::Paper;

#[derive(Clone)]
pub enum Case {
    Read {
        src: u32,
        dst: u32,
        octets: Vec<u8>,
    },
    Write {
        src: u32,
        dst: u32,
        header: Header,
        out: Vec<u8>,
    },
    Checksum {
        src: u32,
        dst: u32,
        octets: Vec<u8>,
    },
}

#[derive(PartialEq)]
pub enum Answer {
    Read(Reading),
    /// The refusal, and every octet of the output.
    Write(u8, Vec<u8>),
    Checksum(u16),
}

/// The most octets a segment may have: 65,535 less the IP header's 20.
const MOST: usize = 65_515;

// the tables, by their place
const READS: usize = 0;
const WRITES: usize = 1;
const LENGTHS: usize = 2;
const LONG: usize = 3;
const CONTROLS: usize = 4;
const OCTET_12: usize = 5;
const OUTPUTS: usize = 6;
const SUMMED: usize = 7;
const SPECIAL: usize = 8;
const FUNCTIONS: usize = 9;

const SPECIALS: [&str; 5] = [
    "checksum 0 accepted",
    "checksum 65,535 accepted",
    "options skipped",
    "odd length, checksum right",
    "checksum 0 written",
];

pub struct Headers;

impl Kind for Headers {
    const NAME: &'static str = "headers";
    const UNIT: &'static str = "calls";
    type Case = Case;
    type Answer = Answer;
    type Ground = ();
    const SHARED: u64 = 64;

    fn tables() -> Vec<Table> {
        vec![
            refusal_table("reads", &[0, 2, 3, 4, 6]),
            refusal_table("writes", &[0, 6, 10]),
            size_table("lengths read, checksum right"),
            Table::new("long lengths read", 8, (0..8).collect(), |v| {
                (MOST - 3 + v).to_string()
            }),
            Table::new(
                "control octets read without refusal",
                256,
                (0..256).step_by(2).collect(),
                control_label,
            ),
            Table::new(
                "header length and reserved bits read",
                256,
                (0..256).collect(),
                control_label,
            ),
            size_table("output lengths, FIN off"),
            Table::new("lengths of checksums", sizes::NUMBERS, summed(), |v| {
                sizes::of_number(v).to_string()
            }),
            Table::new("special", SPECIALS.len(), every(SPECIALS.len()), |v| {
                SPECIALS[v].to_string()
            }),
            Table::new("functions", 3, every(3), |v| {
                ["read", "write", "checksum"][v].to_string()
            }),
        ]
    }

    fn ground(_: &mut Rng, _: u64) {}

    fn make(rng: &mut Rng, _: &(), index: u64) -> Case {
        // what is gone through completely walks with `turn`
        let turn = (index / 16) as usize;
        match index % 16 {
            0 => read_of_length(rng, sizes::in_turn(turn, 512)),
            1 => read_control(rng, turn as u8),
            2 => read_octet_12(rng, turn as u8),
            3 => damaged_bit(rng),
            4 => damaged_octet(rng),
            5 => with_options(rng, 5 + turn % 11),
            6 => with_text(rng),
            7 => sum_65535(rng),
            8 => read_random(rng),
            9 => words_exchanged(rng),
            10 => write(rng, turn % 65),
            11 => write(rng, sizes::in_turn(turn, 128)),
            12 => write_edge(rng, turn),
            13 | 14 => checksum(rng, turn),
            _ if turn % 64 == 0 => long(rng, turn / 64),
            _ => plain(rng),
        }
    }

    fn library(case: &Case) -> Answer {
        match case {
            Case::Read { src, dst, octets } => Answer::Read(tabor::read(*src, *dst, octets)),
            Case::Write {
                src,
                dst,
                header,
                out,
            } => {
                let mut out = out.clone();
                let refusal = tabor::write(*src, *dst, *header, &mut out);
                Answer::Write(refusal, out)
            }
            Case::Checksum { src, dst, octets } => Answer::Checksum(tabor::checksum(*src, *dst, octets)),
        }
    }

    fn paper(paper: &Paper, case: &Case, seen: &mut Seen) -> Answer {
        seen.units += 1;
        match case {
            Case::Read { src, dst, octets } => {
                seen.mark(FUNCTIONS, 0);
                let reading = match paper::read_header(paper, *src, *dst, octets) {
                    Ok(h) => Reading {
                        header: map::header_back(&h),
                        refusal: 0,
                    },
                    Err(refusal) => Reading {
                        header: Header::default(),
                        refusal,
                    },
                };
                note_read(octets, &reading, seen);
                Answer::Read(reading)
            }
            Case::Write {
                src,
                dst,
                header,
                out,
            } => {
                seen.mark(FUNCTIONS, 1);
                let mut out = out.clone();
                let written = paper::write_header(paper, *src, *dst, map::header(header), &mut out);
                let refusal = written.err().unwrap_or(0);
                seen.mark(WRITES, refusal as usize);
                if refusal != 6 {
                    seen.mark(OUTPUTS, sizes::number(out.len()));
                }
                if refusal == 0 && out[16..18] == [0, 0] {
                    seen.mark(SPECIAL, 4);
                }
                Answer::Write(refusal, out)
            }
            Case::Checksum { src, dst, octets } => {
                seen.mark(FUNCTIONS, 2);
                seen.mark(SUMMED, sizes::number(octets.len()));
                Answer::Checksum(checksum_as_they_are(*src, *dst, octets))
            }
        }
    }

    fn smaller(case: &Case) -> Box<dyn Iterator<Item = Case> + '_> {
        match case {
            Case::Read { src, dst, octets } => Box::new(
                smaller_octets(*src, *dst, octets).map(|(src, dst, octets)| Case::Read { src, dst, octets }),
            ),
            Case::Checksum { src, dst, octets } => Box::new(
                smaller_octets(*src, *dst, octets).map(|(src, dst, octets)| Case::Checksum {
                    src,
                    dst,
                    octets,
                }),
            ),
            Case::Write {
                src,
                dst,
                header,
                out,
            } => Box::new(smaller_write(*src, *dst, *header, out).into_iter()),
        }
    }

    fn words(case: &Case) -> Vec<String> {
        let between =
            |src: &u32, dst: &u32| format!("from {} to {}", words::address(*src), words::address(*dst));
        match case {
            Case::Read { src, dst, octets } => {
                vec![
                    format!("a header read, {}", between(src, dst)),
                    words::octets(octets),
                ]
            }
            Case::Write {
                src,
                dst,
                header,
                out,
            } => vec![
                format!("a header write, {}", between(src, dst)),
                words::header(header),
                format!("output before: {}", words::octets(out)),
            ],
            Case::Checksum { src, dst, octets } => {
                vec![
                    format!("a checksum, {}", between(src, dst)),
                    words::octets(octets),
                ]
            }
        }
    }

    fn answer_words(answer: &Answer) -> Vec<String> {
        match answer {
            Answer::Read(r) => vec![words::refusal(r.refusal), words::header(&r.header)],
            Answer::Write(refusal, out) => {
                vec![
                    words::refusal(*refusal),
                    format!("output: {}", words::octets(out)),
                ]
            }
            Answer::Checksum(sum) => vec![format!("{sum:04x}")],
        }
    }

    fn to_octets(case: &Case) -> Vec<u8> {
        let mut put = Put::default();
        match case {
            Case::Read { src, dst, octets } => put.u8(0).u32(*src).u32(*dst).octets(octets),
            Case::Write {
                src,
                dst,
                header,
                out,
            } => put.u8(1).u32(*src).u32(*dst).header(header).octets(out),
            Case::Checksum { src, dst, octets } => put.u8(2).u32(*src).u32(*dst).octets(octets),
        };
        put.0
    }

    fn from_octets(octets: &[u8]) -> Option<Case> {
        let mut take = Take(octets);
        let which = take.u8()?;
        let (src, dst) = (take.u32()?, take.u32()?);
        match which {
            0 => Some(Case::Read {
                src,
                dst,
                octets: take.rest(),
            }),
            1 => Some(Case::Write {
                src,
                dst,
                header: take.header()?,
                out: take.rest(),
            }),
            2 => Some(Case::Checksum {
                src,
                dst,
                octets: take.rest(),
            }),
            _ => None,
        }
    }
}

/// The library counts the octets as they are. Where the checksum's own octets
/// are zero that is the paper's checksum, otherwise 65,535 less the reader's
/// sum; both are asked of the independent side.
fn checksum_as_they_are(src: u32, dst: u32, octets: &[u8]) -> u16 {
    let zero = octets.iter().skip(16).take(2).all(|o| *o == 0);
    if zero {
        paper::checksum(src, dst, octets)
    } else {
        65_535 - paper::sum(src, dst, octets)
    }
}

/// A checksum is compared for lengths of one 16-bit word.
fn summed() -> Vec<usize> {
    (0..sizes::NUMBERS)
        .filter(|v| sizes::of_number(*v) <= 65_535)
        .collect()
}

fn note_read(octets: &[u8], reading: &Reading, seen: &mut Seen) {
    seen.mark(READS, reading.refusal as usize);
    if reading.refusal != 4 {
        seen.mark(LENGTHS, sizes::number(octets.len()));
    }
    seen.mark(LONG, octets.len().wrapping_sub(MOST - 3));
    if octets.len() < 20 {
        return;
    }
    seen.mark(OCTET_12, octets[12] as usize);
    if octets.len() % 2 == 1 && reading.refusal == 6 {
        seen.mark(SPECIAL, 3);
    }
    if reading.refusal != 0 {
        return;
    }
    seen.mark(CONTROLS, octets[13] as usize);
    match octets[16..18] {
        [0, 0] => seen.mark(SPECIAL, 0),
        [0xff, 0xff] => seen.mark(SPECIAL, 1),
        _ => {}
    }
    if octets.len() > 20 {
        seen.mark(SPECIAL, 2);
    }
}

// ---- making cases; other kinds use some of these

/// A header's 20 octets with this octet 12, checksum zero.
pub fn bare(h: &Header, octet_12: u8) -> Vec<u8> {
    let mut octets = Vec::with_capacity(64);
    octets.extend(h.source.to_be_bytes());
    octets.extend(h.destination.to_be_bytes());
    octets.extend(h.seq.to_be_bytes());
    octets.extend(h.ack.to_be_bytes());
    octets.extend([octet_12, h.control]);
    octets.extend(h.window.to_be_bytes());
    octets.extend([0, 0]);
    octets.extend(h.urgent.to_be_bytes());
    octets
}

/// The right checksum put in, where there is room for one.
pub fn seal(src: u32, dst: u32, octets: &mut [u8]) {
    if octets.len() >= 18 {
        let sum = paper::checksum(src, dst, octets);
        octets[16..18].copy_from_slice(&sum.to_be_bytes());
    }
}

pub fn any_header(rng: &mut Rng) -> Header {
    Header {
        seq: rng.number(),
        ack: rng.number(),
        source: rng.short(),
        destination: rng.short(),
        window: rng.short(),
        urgent: rng.short(),
        control: rng.octet(),
    }
}

fn header_without_fin(rng: &mut Rng) -> Header {
    let mut h = any_header(rng);
    h.control &= !1;
    h
}

fn reserved(rng: &mut Rng) -> u8 {
    if rng.one_in(2) {
        0
    } else {
        rng.octet() & 15
    }
}

fn sealed(rng: &mut Rng, mut octets: Vec<u8>) -> Case {
    let (src, dst) = (rng.number(), rng.number());
    seal(src, dst, &mut octets);
    Case::Read { src, dst, octets }
}

fn plain(rng: &mut Rng) -> Case {
    let octet_12 = 0x50 | reserved(rng);
    let octets = bare(&header_without_fin(rng), octet_12);
    sealed(rng, octets)
}

/// Every length: cut short, or filled up with options and text.
fn read_of_length(rng: &mut Rng, length: usize) -> Case {
    let words = rng.between(5, (length / 4).clamp(5, 15));
    let octet_12 = (words as u8) << 4 | reserved(rng);
    let mut octets = bare(&header_without_fin(rng), octet_12);
    octets.extend(rng.octets(length));
    octets.truncate(length);
    sealed(rng, octets)
}

fn read_control(rng: &mut Rng, control: u8) -> Case {
    let octet_12 = 0x50 | reserved(rng);
    let header = Header {
        control,
        ..any_header(rng)
    };
    sealed(rng, bare(&header, octet_12))
}

/// Every header length and every reserved bit, with few and with many octets.
fn read_octet_12(rng: &mut Rng, octet_12: u8) -> Case {
    let mut octets = bare(&header_without_fin(rng), octet_12);
    let exact = (octet_12 >> 4) as usize * 4;
    let length = match rng.below(4) {
        0 => exact,
        1 => exact.saturating_sub(1),
        2 => exact + 1,
        _ => rng.between(20, 64),
    };
    octets.extend(rng.octets(64));
    octets.truncate(length.max(20));
    let damage = rng.one_in(4);
    let mut case = sealed(rng, octets);
    if damage {
        // refusal 3 comes before refusal 4
        flip(rng, &mut case);
    }
    case
}

fn read_octets(case: &mut Case) -> &mut Vec<u8> {
    match case {
        Case::Read { octets, .. } | Case::Checksum { octets, .. } => octets,
        Case::Write { out, .. } => out,
    }
}

fn flip(rng: &mut Rng, case: &mut Case) {
    let octets = read_octets(case);
    if !octets.is_empty() {
        let at = rng.below(octets.len());
        octets[at] ^= 1 << rng.below(8);
    }
}

fn damaged_bit(rng: &mut Rng) -> Case {
    let mut case = any_readable(rng);
    flip(rng, &mut case);
    case
}

fn damaged_octet(rng: &mut Rng) -> Case {
    let mut case = any_readable(rng);
    let new = rng.pick(&[0, 0xff, 1, 0x80]);
    let octets = read_octets(&mut case);
    let at = rng.below(octets.len());
    octets[at] = if rng.one_in(2) { new } else { rng.octet() };
    case
}

fn any_readable(rng: &mut Rng) -> Case {
    match rng.below(3) {
        0 => plain(rng),
        1 => {
            let words = rng.between(5, 15);
            with_options(rng, words)
        }
        _ => with_text(rng),
    }
}

fn with_options(rng: &mut Rng, words: usize) -> Case {
    let octet_12 = (words as u8) << 4 | reserved(rng);
    let mut octets = bare(&header_without_fin(rng), octet_12);
    octets.extend(rng.octets(words * 4 - 20));
    sealed(rng, octets)
}

fn with_text(rng: &mut Rng) -> Case {
    let words = rng.pick(&[5, 5, 6, 15]);
    let mut octets = bare(&any_header(rng), (words as u8) << 4 | reserved(rng));
    octets.extend(rng.octets(words * 4 - 20));
    let text = rng.between(1, 9);
    octets.extend(rng.octets(text));
    sealed(rng, octets)
}

/// P12: where the sum without the checksum is 65,535, both 0 and 65,535 are
/// accepted; their neighbours are not.
fn sum_65535(rng: &mut Rng) -> Case {
    let octet_12 = 0x50 | reserved(rng);
    let mut octets = bare(&header_without_fin(rng), octet_12);
    let (src, dst) = (rng.number(), rng.number());
    octets[14..16].fill(0);
    // what is missing to 65,535 is the checksum: put it in the window instead
    let missing = paper::checksum(src, dst, &octets);
    octets[14..16].copy_from_slice(&missing.to_be_bytes());
    let given = rng.pick(&[[0, 0], [0xff, 0xff], [0, 1], [0xff, 0xfe], [1, 0]]);
    octets[16..18].copy_from_slice(&given);
    if rng.one_in(4) {
        // also when the reader's sum is not 65,535 for another reason
        let at = rng.below(20);
        octets[at] ^= 1 << rng.below(8);
    }
    Case::Read { src, dst, octets }
}

fn read_random(rng: &mut Rng) -> Case {
    let length = rng.between(0, 80);
    let octets = rng.octets(length);
    if rng.one_in(2) {
        return sealed(rng, octets);
    }
    Case::Read {
        src: rng.number(),
        dst: rng.number(),
        octets,
    }
}

/// Two words exchanged: the checksum stays right, the fields do not.
fn words_exchanged(rng: &mut Rng) -> Case {
    let mut case = any_readable(rng);
    let octets = read_octets(&mut case);
    let (i, j) = (rng.below(octets.len() / 2) * 2, rng.below(octets.len() / 2) * 2);
    octets.swap(i, j);
    octets.swap(i + 1, j + 1);
    case
}

fn write(rng: &mut Rng, length: usize) -> Case {
    let header = if rng.one_in(8) {
        any_header(rng)
    } else {
        header_without_fin(rng)
    };
    Case::Write {
        src: rng.number(),
        dst: rng.number(),
        header,
        out: rng.octets(length),
    }
}

/// Writes with every control octet, and those whose checksum is 0.
fn write_edge(rng: &mut Rng, turn: usize) -> Case {
    let (src, dst) = (rng.number(), rng.number());
    let mut header = any_header(rng);
    header.control = turn as u8;
    if rng.one_in(2) {
        header.window = 0;
        header.window = paper::checksum(src, dst, &bare(&header, 0x50));
    }
    let length = rng.pick(&[19, 20, 21, 40, 1500]);
    Case::Write {
        src,
        dst,
        header,
        out: rng.octets(length),
    }
}

fn checksum(rng: &mut Rng, turn: usize) -> Case {
    let mut octets = rng.octets(sizes::in_turn(turn, 512).min(65_535));
    match rng.below(4) {
        0 => octets.fill(0xff),
        1 => octets.fill(0),
        _ => {}
    }
    if rng.one_in(2) {
        octets.iter_mut().skip(16).take(2).for_each(|o| *o = 0);
    }
    Case::Checksum {
        src: rng.number(),
        dst: rng.number(),
        octets,
    }
}

/// Around 65,515 octets, the most that are read, and the most carries.
fn long(rng: &mut Rng, turn: usize) -> Case {
    let length = match turn % 3 {
        0 | 1 => MOST - 3 + (turn / 3) % 8,
        _ => rng.pick(&[65_534, 65_535, 65_536, 65_537, 70_000, 131_072, 1_500, 32_768]),
    };
    let mut octets = match rng.below(3) {
        0 => vec![0xff; length],
        1 => vec![0; length],
        _ => rng.octets(length),
    };
    if turn % 7 == 0 && length <= 65_535 {
        return Case::Checksum {
            src: rng.number(),
            dst: rng.number(),
            octets,
        };
    }
    octets[12] = rng.pick(&[0x50, 0x50, 0xf0, 0x40]) | reserved(rng);
    if rng.one_in(4) {
        return Case::Read {
            src: rng.number(),
            dst: rng.number(),
            octets,
        };
    }
    sealed(rng, octets)
}

// ---- making a case smaller; other kinds use `smaller_octets` too

type Addressed = (u32, u32, Vec<u8>);

/// So many octets are made small one by one; those behind all together, since
/// there may be 65,536 of them.
const LOOKED_AT: usize = 80;

/// Fewer octets and more zeroes, each once as it is and once with the
/// checksum made right again, because most differences need a right one.
pub fn smaller_octets(src: u32, dst: u32, octets: &[u8]) -> impl Iterator<Item = Addressed> + '_ {
    let n = octets.len();
    let shorter = [20, n / 2, n.saturating_sub(4), n.saturating_sub(1)].into_iter();
    let cut = shorter
        .filter(move |m| *m < n)
        .map(move |m| (src, dst, octets[..m].to_vec()));
    let no_options = (n > 20).then(|| {
        let mut o = octets.to_vec();
        o.drain(20..(o[12] as usize >> 4).clamp(5, n / 4) * 4);
        o[12] = 0x50;
        (src, dst, o)
    });
    let no_src = std::iter::once((0, dst, octets.to_vec()));
    let no_dst = std::iter::once((src, 0, octets.to_vec()));
    let rest = (n > LOOKED_AT).then(|| {
        let mut o = octets.to_vec();
        o[LOOKED_AT..].fill(0);
        (src, dst, o)
    });
    let zeroed = (0..n.min(LOOKED_AT))
        .filter(|i| octets[*i] != 0)
        .map(move |i| (src, dst, with(octets, i, 0)));
    let low = (0..n.min(LOOKED_AT))
        .filter(|i| octets[*i] > 1)
        .map(move |i| (src, dst, with(octets, i, octets[i] / 2)));
    let all = cut
        .chain(no_options)
        .chain(rest)
        .chain(no_src)
        .chain(no_dst)
        .chain(zeroed)
        .chain(low);
    all.flat_map(|(src, dst, o)| {
        let mut right = o.clone();
        seal(src, dst, &mut right);
        [(src, dst, o), (src, dst, right)]
    })
    .chain(same_sum(src, dst, octets))
}

fn with(octets: &[u8], at: usize, value: u8) -> Vec<u8> {
    let mut octets = octets.to_vec();
    octets[at] = value;
    octets
}

fn plus(a: u16, b: u16) -> u16 {
    let (sum, carry) = a.overflowing_add(b);
    sum + carry as u16
}

/// One word or address made zero, its value added to the window: the sum
/// stays as it is, which the cases around 65,535 need.
fn same_sum(src: u32, dst: u32, octets: &[u8]) -> impl Iterator<Item = Addressed> + '_ {
    let words = if octets.len() >= 20 {
        octets.len().min(LOOKED_AT) / 2
    } else {
        0
    };
    let moved = move |value: u16, src: u32, dst: u32, mut o: Vec<u8>| {
        let window = plus(u16::from_be_bytes([o[14], o[15]]), value);
        o[14..16].copy_from_slice(&window.to_be_bytes());
        (src, dst, o)
    };
    let from_words = (0..words).filter(|w| ![6, 7, 8].contains(w)).map(move |w| {
        let value = u16::from_be_bytes([octets[2 * w], octets[2 * w + 1]]);
        moved(value, src, dst, with(&with(octets, 2 * w, 0), 2 * w + 1, 0))
    });
    let fold = |a: u32| plus((a >> 16) as u16, a as u16);
    let addresses = (words > 0).then(|| {
        [
            moved(fold(src), 0, dst, octets.to_vec()),
            moved(fold(dst), src, 0, octets.to_vec()),
        ]
    });
    from_words.chain(addresses.into_iter().flatten())
}

/// One field at a time made zero or smaller.
pub fn smaller_headers(h: &Header) -> Vec<Header> {
    let mut smaller = Vec::new();
    let mut put = |change: &dyn Fn(&mut Header)| {
        let mut changed = *h;
        change(&mut changed);
        if changed != *h {
            smaller.push(changed);
        }
    };
    put(&|h| h.seq = 0);
    put(&|h| h.ack = 0);
    put(&|h| h.source = 0);
    put(&|h| h.destination = 0);
    put(&|h| h.window = 0);
    put(&|h| h.urgent = 0);
    put(&|h| h.control = 0);
    for bit in 0..8 {
        put(&|h| h.control &= !(1 << bit));
    }
    for down in [1, 8, 16, 24] {
        put(&|h| h.seq >>= down);
        put(&|h| h.ack >>= down);
    }
    for down in [1, 8] {
        put(&|h| h.window >>= down);
        put(&|h| h.urgent >>= down);
    }
    smaller
}

fn smaller_write(src: u32, dst: u32, header: Header, out: &[u8]) -> Vec<Case> {
    let mut cases = Vec::new();
    let n = out.len();
    for m in [0, 20, n / 2, n.saturating_sub(1)] {
        if m < n {
            cases.push(Case::Write {
                src,
                dst,
                header,
                out: out[..m].to_vec(),
            });
        }
    }
    cases.push(Case::Write {
        src: 0,
        dst,
        header,
        out: out.to_vec(),
    });
    cases.push(Case::Write {
        src,
        dst: 0,
        header,
        out: out.to_vec(),
    });
    for header in smaller_headers(&header) {
        cases.push(Case::Write {
            src,
            dst,
            header,
            out: out.to_vec(),
        });
    }
    if n > LOOKED_AT {
        let mut out = out.to_vec();
        out[LOOKED_AT..].fill(1);
        cases.push(Case::Write {
            src,
            dst,
            header,
            out,
        });
    }
    for i in (0..n.min(LOOKED_AT)).filter(|i| out[*i] > 1) {
        cases.push(Case::Write {
            src,
            dst,
            header,
            out: with(out, i, 0),
        });
        cases.push(Case::Write {
            src,
            dst,
            header,
            out: with(out, i, 1),
        });
    }
    cases
}
