//! Kind `stations`: one call of one station, or one arrival at it.

use crate::codec::{Put, Take};
use crate::headers::{bare, seal, smaller_headers, smaller_octets};
use crate::kind::{bit_label, bit_table, every, mark_bits, mark_one_bit, number, pair, pair_table};
use crate::kind::{refusal_table, sent_number, sent_table, size_table, Kind, Seen, Table, ALL_PAIRS};
use crate::rng::Rng;
use crate::tabor::{self, Header, Record, Segment, Told};
use crate::{map, sizes, words};
use paper::{Paper, ACK, FIN, RST, SYN};

#[derive(Clone)]
pub struct Case {
    pub record: Record,
    pub call: Call,
}

#[derive(Clone)]
pub enum Call {
    Open(u32),
    Listen,
    Abort,
    Resend,
    PowerCut,
    Arrive {
        segment: Segment,
        fresh: u32,
    },
    Octets {
        src: u32,
        dst: u32,
        octets: Vec<u8>,
        fresh: u32,
        out: Vec<u8>,
    },
}

const CALLS: [&str; 7] = [
    "open",
    "listen",
    "abort",
    "resend",
    "power cut",
    "arrival",
    "octets",
];

impl Call {
    fn number(&self) -> usize {
        match self {
            Call::Open(_) => 0,
            Call::Listen => 1,
            Call::Abort => 2,
            Call::Resend => 3,
            Call::PowerCut => 4,
            Call::Arrive { .. } => 5,
            Call::Octets { .. } => 6,
        }
    }
}

#[derive(PartialEq)]
pub struct Answer {
    told: Told,
    /// Every octet of the output; none for calls without one.
    out: Vec<u8>,
}

// the tables, by their place
const REFUSALS: usize = 0;
const STEPS: usize = 1;
const SENT: usize = 2;
const CALL_IN_STATE: usize = 3;
const CONTROLS: usize = 4;
const STATE_NUMBERS: usize = 5;
const MARK_NUMBERS: usize = 6;
const OUTPUTS: usize = 7;
const NEAR: usize = 8;
const NEAR_BITS: usize = 9;
const INPUTS: usize = 10;
const FOREIGN: usize = 11;
const TEXTS: usize = 12;
const DRAWN: usize = 13;
const AWAY: usize = 14;
const FUNCTIONS: usize = 15;

/// What alone is off, by one for a number, in a record not of the forms.
const MISSES: [&str; 7] = ["ISS", "UNA", "NXT", "IRS", "RCV.NXT", "mark", "window 0"];
const MISSED_MARK: usize = 5;
const ENDPOINTS: [&str; 4] = [
    "source address",
    "destination address",
    "source port",
    "destination port",
];
const DRAWERS: [&str; 3] = ["open", "arrival", "octets"];
const AWAY_NAMES: [&str; 2] = ["SEG.SEQ - RCV.NXT", "SEG.ACK - SND.NXT"];

/// Ways in which a record is not of the forms, one after the other.
const FAULTS: usize = 21;

pub struct Stations;

impl Kind for Stations {
    const NAME: &'static str = "stations";
    const UNIT: &'static str = "calls";
    type Case = Case;
    type Answer = Answer;
    type Ground = ();
    const SHARED: u64 = 64;

    fn tables() -> Vec<Table> {
        vec![
            refusal_table("calls", &[0, 1, 2, 3, 4, 5, 6, 7, 8, 10]),
            pair_table(&ALL_PAIRS),
            sent_table(&[0, 1, 2, 3, 4, 5]),
            Table::new("call in a state, record of the forms", 35, every(35), |v| {
                format!("{} in {}", CALLS[v / 5], words::STATES[v % 5])
            }),
            Table::new(
                "control octet taken in a state",
                5 * 256,
                controls_to_take(),
                |v| format!("{:02x} in {}", v % 256, words::STATES[v / 256]),
            ),
            Table::new("state numbers", 256, every(256), number),
            Table::new("mark numbers", 256, every(256), number),
            size_table("output lengths, written to or refused with 10"),
            Table::new("near misses by state", 5 * MISSES.len(), misses_to_reach(), |v| {
                format!(
                    "{} in {}",
                    MISSES[v % MISSES.len()],
                    words::STATES[v / MISSES.len()]
                )
            }),
            bit_table(
                "1 for a number off in one bit",
                &[0..32, 0..32, 0..32, 0..32, 0..32],
                |v| bit_label(&MISSES, v),
            ),
            size_table("lengths of octets arriving, checksum right"),
            bit_table("5 for one bit", &[0..32, 0..32, 0..16, 0..16], |v| {
                bit_label(&ENDPOINTS, v)
            }),
            bit_table("6 for a text of one bit", &[0..32], |v| bit_label(&["text"], v)),
            bit_table("bits on in numbers drawn", &[0..32, 0..32, 0..32], |v| {
                bit_label(&DRAWERS, v)
            }),
            bit_table("taken, one bit away", &[0..32, 0..32], |v| {
                bit_label(&AWAY_NAMES, v)
            }),
            Table::new("functions", CALLS.len(), every(CALLS.len()), |v| {
                CALLS[v].to_string()
            }),
        ]
    }

    fn ground(_: &mut Rng, _: u64) {}

    fn make(rng: &mut Rng, _: &(), index: u64) -> Case {
        let turn = (index / 20) as usize;
        let mut record = any_record(rng, turn % 5);
        let call = match index % 20 {
            0 | 1 => Call::Open(rng.number()),
            2 | 3 => Call::Listen,
            4 | 5 => Call::Abort,
            6 | 7 => Call::Resend,
            8 | 9 => Call::PowerCut,
            10..=14 => Call::Arrive {
                segment: any_segment(rng, &record, turn / 5),
                fresh: rng.number(),
            },
            _ => octets_call(rng, &record, turn / 5),
        };
        if rng.one_in(4) {
            // after the segment was aimed at it, so that refusal 1 is all there is
            spoil(rng, &mut record, turn / 5);
        }
        Case { record, call }
    }

    fn library(case: &Case) -> Answer {
        let r = case.record;
        let mut output = Vec::new();
        let told = match &case.call {
            Call::Open(n) => tabor::open(r, *n),
            Call::Listen => tabor::listen(r),
            Call::Abort => tabor::abort(r),
            Call::Resend => tabor::resend(r),
            Call::PowerCut => tabor::power_cut(r),
            Call::Arrive { segment, fresh } => tabor::arrive(r, *segment, *fresh),
            Call::Octets {
                src,
                dst,
                octets,
                fresh,
                out,
            } => {
                output = out.clone();
                tabor::arrive_octets(r, *src, *dst, octets, *fresh, &mut output)
            }
        };
        Answer { told, out: output }
    }

    fn paper(paper: &Paper, case: &Case, seen: &mut Seen) -> Answer {
        seen.units += 1;
        let answer = independent(paper, case);
        note(paper, case, &answer, seen);
        answer
    }

    fn smaller(case: &Case) -> Box<dyn Iterator<Item = Case> + '_> {
        Box::new(smaller_calls(case).into_iter().chain(smaller_records(case)))
    }

    fn words(case: &Case) -> Vec<String> {
        let mut lines = vec![format!("station {}", words::record(&case.record))];
        match &case.call {
            Call::Open(n) => lines.push(format!("open with {n}")),
            Call::Arrive { segment, fresh } => {
                lines.push(format!("arrival of {}", words::segment(segment)));
                lines.push(format!("fresh number {fresh}"));
            }
            Call::Octets {
                src,
                dst,
                octets,
                fresh,
                out,
            } => {
                let (from, to) = (words::address(*src), words::address(*dst));
                lines.push(format!("octets arrive from {from} to {to}"));
                lines.push(words::octets(octets));
                lines.push(format!("fresh number {fresh}"));
                lines.push(format!("output before: {}", words::octets(out)));
            }
            call => lines.push(CALLS[call.number()].to_string()),
        }
        lines
    }

    fn answer_words(answer: &Answer) -> Vec<String> {
        let mut lines = words::told(&answer.told);
        lines.push(format!("output: {}", words::octets(&answer.out)));
        lines
    }

    fn to_octets(case: &Case) -> Vec<u8> {
        let mut put = Put::default();
        put.u8(case.call.number() as u8).record(&case.record);
        match &case.call {
            Call::Open(n) => put.u32(*n),
            Call::Arrive { segment, fresh } => put.segment(segment).u32(*fresh),
            Call::Octets {
                src,
                dst,
                octets,
                fresh,
                out,
            } => put.u32(*src).u32(*dst).u32(*fresh).sized(octets).octets(out),
            _ => &mut put,
        };
        put.0
    }

    fn from_octets(octets: &[u8]) -> Option<Case> {
        let mut take = Take(octets);
        let which = take.u8()?;
        let record = take.record()?;
        let call = match which {
            0 => Call::Open(take.u32()?),
            1 => Call::Listen,
            2 => Call::Abort,
            3 => Call::Resend,
            4 => Call::PowerCut,
            5 => Call::Arrive {
                segment: take.segment()?,
                fresh: take.u32()?,
            },
            6 => {
                let (src, dst, fresh) = (take.u32()?, take.u32()?, take.u32()?);
                Call::Octets {
                    src,
                    dst,
                    fresh,
                    octets: take.sized()?,
                    out: take.rest(),
                }
            }
            _ => return None,
        };
        Some(Case { record, call })
    }
}

/// Every control octet without FIN, in every state.
fn controls_to_take() -> Vec<usize> {
    (0..5 * 256).filter(|v| v % 2 == 0).collect()
}

// ---- the independent side, and the boundary's rules above it

fn independent(paper: &Paper, case: &Case) -> Answer {
    let came_in = case.record;
    let out = match &case.call {
        Call::Octets { out, .. } => out.clone(),
        _ => Vec::new(),
    };
    // the boundary: a state or a mark that is none is refusal 1
    let Some(r) = map::record(&came_in) else {
        return Answer {
            told: map::refused(came_in, 1),
            out,
        };
    };
    let taken = match &case.call {
        Call::Open(n) => paper::open(paper, r, *n),
        Call::Listen => paper::listen(paper, r),
        Call::Abort => paper::abort(paper, r),
        Call::Resend => paper::resend(paper, r),
        Call::PowerCut => paper::power_cut(paper, r),
        Call::Arrive { segment, fresh } => paper::arrive(paper, r, map::segment(segment), *fresh),
        Call::Octets {
            src,
            dst,
            octets,
            fresh,
            ..
        } => {
            let taken = paper::arrive_octets(paper, r, *src, *dst, octets, *fresh);
            return octets_answer(paper, came_in, taken, out);
        }
    };
    Answer {
        told: map::told(came_in, taken),
        out,
    }
}

/// The boundary: after 1 to 6, an output below 20 octets is refusal 10
/// whether or not anything is sent; what is sent is written to the first 20.
fn octets_answer(
    paper: &Paper,
    came_in: Record,
    taken: Result<paper::Taken, u8>,
    mut out: Vec<u8>,
) -> Answer {
    let taken = match taken {
        Ok(_) if out.len() < 20 => Err(10),
        other => other,
    };
    if let Ok(paper::Taken { sent: Some(g), .. }) = &taken {
        let written = paper::write_header(paper, g.src, g.dst, g.header, &mut out);
        written.expect("a segment sent has no FIN, and 20 octets are there");
    }
    Answer {
        told: map::told(came_in, taken),
        out,
    }
}

fn note(paper: &Paper, case: &Case, answer: &Answer, seen: &mut Seen) {
    let r = &case.record;
    let refusal = answer.told.refusal;
    seen.mark(FUNCTIONS, case.call.number());
    seen.mark(REFUSALS, refusal as usize);
    seen.mark(STATE_NUMBERS, r.state as usize);
    seen.mark(MARK_NUMBERS, r.passive as usize);
    let of_the_forms = map::record(r).is_some_and(|r| paper::of_the_forms(paper, &r));
    if !of_the_forms {
        return note_miss(paper, r, seen);
    }
    seen.mark(CALL_IN_STATE, case.call.number() * 5 + r.state as usize);
    match &case.call {
        Call::Open(n) if answer.told.drawn == 1 => mark_bits(seen, DRAWN, 0, *n as u64),
        Call::Arrive { segment, fresh } => note_arrival(r, segment, *fresh, &answer.told, seen),
        Call::Octets {
            octets, fresh, out, ..
        } => {
            if refusal != 4 {
                seen.mark(INPUTS, sizes::number(octets.len()));
            }
            if refusal == 10 || answer.told.sent == 1 {
                seen.mark(OUTPUTS, sizes::number(out.len()));
            }
            if answer.told.drawn == 1 {
                mark_bits(seen, DRAWN, 2, *fresh as u64);
            }
        }
        _ => {}
    }
    if refusal != 0 {
        return;
    }
    seen.mark(STEPS, pair(r.state, answer.told.next.state));
    let sent = (answer.told.sent == 1).then_some(answer.told.segment.header.control);
    seen.mark(SENT, sent_number(sent));
}

fn note_arrival(r: &Record, g: &Segment, fresh: u32, told: &Told, seen: &mut Seen) {
    let h = &g.header;
    match told.refusal {
        0 => {
            seen.mark(CONTROLS, r.state as usize * 256 + h.control as usize);
            if told.drawn == 1 {
                mark_bits(seen, DRAWN, 1, fresh as u64);
            }
            // where the number alone decides: out of the window, or an
            // acknowledgment that is not the one awaited
            let seq = h.seq.wrapping_sub(r.rcvnxt);
            let ack = h.ack.wrapping_sub(r.nxt);
            if r.state >= 3 && seq.is_power_of_two() {
                mark_bits(seen, AWAY, 0, seq as u64);
            }
            if r.state >= 2 && h.control & ACK != 0 && ack.is_power_of_two() {
                mark_bits(seen, AWAY, 1, ack as u64);
            }
        }
        5 => {
            let ports = [h.source ^ r.peerport, h.destination ^ r.ownport].map(u32::from);
            mark_one_bit(
                seen,
                FOREIGN,
                &[g.src ^ r.peer, g.dst ^ r.own, ports[0], ports[1]],
            );
        }
        6 if h.control & FIN == 0 => mark_one_bit(seen, TEXTS, &[g.text]),
        _ => {}
    }
}

/// Either mark is of the forms in SYN-RECEIVED and ESTABLISHED.
fn misses_to_reach() -> Vec<usize> {
    let n = MISSES.len();
    (0..5 * n).filter(|v| v % n != MISSED_MARK || v / n < 3).collect()
}

/// Which single field, put right, makes a record of the forms out of this one?
fn note_miss(paper: &Paper, r: &Record, seen: &mut Seen) {
    let Some(r) = map::record(r) else {
        return;
    };
    let state = r.state.number();
    for miss in 0..MISSES.len() {
        let mut right = r;
        let off = put_right(&mut right, miss, state);
        if !paper::of_the_forms(paper, &right) {
            continue;
        }
        if miss >= MISSED_MARK || [1, u32::MAX].contains(&off) {
            seen.mark(NEAR, state as usize * MISSES.len() + miss);
        }
        if miss < MISSED_MARK && off.is_power_of_two() {
            mark_bits(seen, NEAR_BITS, miss, off as u64);
        }
    }
}

/// One field as the others ask for it; how far a number was off.
fn put_right(r: &mut paper::Record, miss: usize, state: u8) -> u32 {
    let (sent, received) = (state >= 2, state >= 3);
    let before = [r.iss, r.una, r.nxt, r.irs, r.rcvnxt];
    match miss {
        0 => r.iss = if sent { r.nxt.wrapping_sub(1) } else { 0 },
        1 if state == 4 => r.una = r.nxt,
        1 => r.una = r.iss,
        2 => r.nxt = if sent { r.iss.wrapping_add(1) } else { 0 },
        3 => r.irs = if received { r.rcvnxt.wrapping_sub(1) } else { 0 },
        4 => r.rcvnxt = if received { r.irs.wrapping_add(1) } else { 0 },
        5 => r.passive = !r.passive,
        _ => r.rcvwnd = r.rcvwnd.max(1),
    }
    let after = [r.iss, r.una, r.nxt, r.irs, r.rcvnxt];
    before.iter().zip(after).map(|(b, a)| b.wrapping_sub(a)).sum()
}

// ---- making cases; `lists` uses some of these

/// A record of the form of this state.
pub fn any_record(rng: &mut Rng, state: usize) -> Record {
    let (iss, irs) = (rng.number(), rng.number());
    let window = rng.word();
    let mut r = Record {
        state: state as u8,
        rcvwnd: rng.pick(&[1, 2, 4096, 65_534, 65_535, window.max(1)]),
        own: rng.number(),
        peer: rng.number(),
        ownport: rng.short(),
        peerport: rng.short(),
        ..Record::default()
    };
    if state >= 2 {
        r.iss = iss;
        r.nxt = iss.wrapping_add(1);
        r.una = if state == 4 { r.nxt } else { iss };
    }
    if state >= 3 {
        r.irs = irs;
        r.rcvnxt = irs.wrapping_add(1);
    }
    r.passive = match state {
        0 | 2 => 0,
        1 => 1,
        _ => rng.below(2) as u8,
    };
    r
}

/// A near miss of a form: one field off by one, a wrong mark, no window, a
/// state or mark number that is none, a form of another state.
pub fn spoil(rng: &mut Rng, r: &mut Record, turn: usize) {
    let bit = 1 << rng.below(32);
    let by = rng.pick(&[1, u32::MAX, 0x8000_0000, bit]);
    let off = |n: &mut u32| *n = n.wrapping_add(by);
    match turn % FAULTS {
        0 => off(&mut r.iss),
        1 => off(&mut r.una),
        2 => off(&mut r.nxt),
        3 => off(&mut r.irs),
        4 => off(&mut r.rcvnxt),
        5 | 6 => r.passive = 1 - r.passive,
        7 => r.rcvwnd = 0,
        8..=11 => r.state = 5 + rng.below(251) as u8,
        12..=15 => r.passive = 2 + rng.below(254) as u8,
        16 => r.state = (r.state + 1 + rng.below(4) as u8) % 5,
        17 => r.una = r.nxt,
        18 => r.una = r.iss,
        19 => r.rcvnxt = r.irs,
        _ => {
            let n = rng.number();
            *rng.pick_number(r) = n;
        }
    }
}

impl Rng {
    /// One of the five numbers of a record.
    fn pick_number<'a>(&mut self, r: &'a mut Record) -> &'a mut u32 {
        match self.below(5) {
            0 => &mut r.iss,
            1 => &mut r.una,
            2 => &mut r.nxt,
            3 => &mut r.irs,
            _ => &mut r.rcvnxt,
        }
    }
}

const USUAL: [u8; 12] = [
    SYN,
    ACK,
    SYN | ACK,
    RST,
    RST | ACK,
    0,
    SYN | RST,
    SYN | RST | ACK,
    ACK,
    ACK,
    SYN,
    RST,
];

fn any_control(rng: &mut Rng, turn: usize) -> u8 {
    match rng.below(4) {
        0 | 1 => turn as u8 & !(rng.pick(&[0, FIN, FIN])),
        2 => rng.pick(&USUAL),
        _ => rng.pick(&USUAL) | rng.octet() & 0xe8,
    }
}

/// Around RCV.NXT and the ends of the window, halfway round, or anywhere.
fn any_seq(rng: &mut Rng, r: &Record) -> u32 {
    let w = r.rcvwnd as u32;
    let inside = rng.below(w.max(1) as usize) as u32;
    let bit = 1 << rng.below(32);
    let from = rng.pick(&[
        0,
        1,
        bit,
        inside.wrapping_add(bit),
        u32::MAX,
        u32::MAX - 1,
        w.wrapping_sub(1),
        w,
        w + 1,
        inside,
        0x7fff_ffff,
        0x8000_0000,
        0x8000_0001,
    ]);
    if rng.one_in(4) {
        return rng.number();
    }
    r.rcvnxt.wrapping_add(from)
}

/// Around ISS, ISS + 1 and NXT, halfway round from NXT, or anywhere.
fn any_ack(rng: &mut Rng, r: &Record) -> u32 {
    let bit = 1 << rng.below(32);
    let from = rng.pick(&[
        bit,
        0,
        0,
        0,
        1,
        2,
        u32::MAX,
        u32::MAX - 1,
        0x7fff_fffe,
        0x7fff_ffff,
        0x8000_0000,
        0x8000_0001,
        65_536,
    ]);
    if rng.one_in(5) {
        return rng.number();
    }
    rng.pick(&[r.nxt, r.nxt, r.iss.wrapping_add(1)])
        .wrapping_add(from)
}

/// A segment aimed at this record; some are foreign, some have FIN or text.
pub fn any_segment(rng: &mut Rng, r: &Record, turn: usize) -> Segment {
    let header = Header {
        seq: any_seq(rng, r),
        ack: any_ack(rng, r),
        source: r.peerport,
        destination: r.ownport,
        window: rng.short(),
        urgent: if rng.one_in(4) { rng.short() } else { 0 },
        control: any_control(rng, turn),
    };
    let mut g = Segment {
        header,
        src: r.peer,
        dst: r.own,
        text: 0,
    };
    if rng.one_in(5) {
        // the numbers that openings go on with
        (g.header.seq, g.header.ack) = (r.rcvnxt, r.nxt);
        g.header.control = rng.pick(&USUAL);
    }
    if rng.one_in(12) {
        let (text, bit) = (rng.number(), 1 << rng.below(32));
        g.text = rng.pick(&[1, 2, 1460, text, bit, bit]);
    }
    if rng.one_in(10) {
        make_foreign(rng, &mut g);
    }
    g
}

/// One field at a time not of this connection.
fn make_foreign(rng: &mut Rng, g: &mut Segment) {
    let by = 1 << rng.below(32);
    match rng.below(6) {
        0 => g.src ^= by,
        1 => g.dst ^= by,
        2 => g.header.source ^= 1 << rng.below(16),
        3 => g.header.destination ^= 1 << rng.below(16),
        4 => std::mem::swap(&mut g.src, &mut g.dst),
        _ => std::mem::swap(&mut g.header.source, &mut g.header.destination),
    }
}

/// The segment as octets, sometimes with options, and each of the refusals
/// 2, 3, 4 by chance; text is as long as the octets behind the header. Octets
/// and output have every size in turn, mostly the usual ones.
fn octets_call(rng: &mut Rng, r: &Record, turn: usize) -> Call {
    let g = any_segment(rng, r, turn);
    let words = rng.pick(&[5, 5, 5, 6, 10, 15]);
    let reserved = if rng.one_in(3) { rng.octet() & 15 } else { 0 };
    let mut octets = bare(&g.header, (words as u8) << 4 | reserved);
    octets.extend(rng.octets(words * 4 - 20));
    let text = if g.text == 0 { 0 } else { rng.between(1, 5) };
    octets.extend(rng.octets(text));
    match rng.below(24) {
        0 => octets.truncate(rng.between(0, 19)),
        1 => octets[12] = octets[12] & 15 | (rng.below(5) as u8) << 4,
        2 => octets.truncate(rng.between(20, octets.len())),
        3 => {
            let size = sizes::in_turn(rng.next() as usize, 256);
            octets.extend(rng.octets(size));
            octets.truncate(size);
        }
        _ => {}
    }
    seal(g.src, g.dst, &mut octets);
    if rng.one_in(10) && !octets.is_empty() {
        let at = rng.below(octets.len());
        octets[at] ^= 1 << rng.below(8);
    }
    let length = match rng.below(8) {
        0 => sizes::in_turn(rng.next() as usize, 128),
        _ => rng.pick(&[0, 19, 20, 20, 20, 21, 21, 40, 40, 40]),
    };
    Call::Octets {
        src: g.src,
        dst: g.dst,
        octets,
        fresh: rng.number(),
        out: rng.octets(length),
    }
}

// ---- making a case smaller

fn smaller_calls(case: &Case) -> Vec<Case> {
    let mut cases = Vec::new();
    let mut put = |call: Call| {
        cases.push(Case {
            record: case.record,
            call,
        })
    };
    match &case.call {
        Call::Open(n) if *n > 0 => {
            put(Call::Open(0));
            put(Call::Open(n / 2));
        }
        Call::Arrive { segment, fresh } => {
            for (segment, fresh) in smaller_arrivals(*segment, *fresh) {
                put(Call::Arrive { segment, fresh });
            }
        }
        Call::Octets {
            src,
            dst,
            octets,
            fresh,
            out,
        } => {
            // an arrival without octets is simpler, if it shows the same
            if octets.len() >= 20 {
                let segment = segment_of(*src, *dst, octets);
                put(Call::Arrive {
                    segment,
                    fresh: *fresh,
                });
            }
            for (fresh, out) in [
                (0, out.clone()),
                (*fresh, vec![1; out.len()]),
                (*fresh, vec![1; 20]),
            ] {
                put(Call::Octets {
                    src: *src,
                    dst: *dst,
                    octets: octets.clone(),
                    fresh,
                    out,
                });
            }
            for (src, dst, octets) in smaller_octets(*src, *dst, octets) {
                put(Call::Octets {
                    src,
                    dst,
                    octets,
                    fresh: *fresh,
                    out: out.clone(),
                });
            }
        }
        _ => {}
    }
    cases
}

fn segment_of(src: u32, dst: u32, octets: &[u8]) -> Segment {
    let two = |i: usize| u16::from_be_bytes([octets[i], octets[i + 1]]);
    let four = |i: usize| (two(i) as u32) << 16 | two(i + 2) as u32;
    let header = Header {
        source: two(0),
        destination: two(2),
        seq: four(4),
        ack: four(8),
        control: octets[13],
        window: two(14),
        urgent: two(18),
    };
    let words = (octets[12] >> 4) as usize;
    Segment {
        header,
        src,
        dst,
        text: octets.len().saturating_sub(words * 4) as u32,
    }
}

fn smaller_arrivals(g: Segment, fresh: u32) -> Vec<(Segment, u32)> {
    let mut cases = vec![(g, 0), (g, fresh / 2), (Segment { text: 0, ..g }, fresh)];
    cases.push((
        Segment {
            text: g.text.min(1),
            ..g
        },
        fresh,
    ));
    cases.extend(
        smaller_headers(&g.header)
            .into_iter()
            .map(|header| (Segment { header, ..g }, fresh)),
    );
    cases
}

/// Numbers moved together, so that what they mean to each other stays.
fn smaller_records(case: &Case) -> Vec<Case> {
    let mut cases = Vec::new();
    for change in SHIFTS {
        let mut changed = case.clone();
        change(&mut changed);
        cases.push(changed);
    }
    cases
}

const SHIFTS: [fn(&mut Case); 14] = [
    |c| own_numbers(c, c.record.iss),
    |c| own_numbers(c, c.record.iss.wrapping_sub(100)),
    |c| own_numbers(c, c.record.iss - c.record.iss / 2),
    |c| peer_numbers(c, c.record.irs),
    |c| peer_numbers(c, c.record.irs.wrapping_sub(300)),
    |c| peer_numbers(c, c.record.irs - c.record.irs / 2),
    |c| endpoints(c, true),
    |c| endpoints(c, false),
    |c| c.record.passive = 0,
    |c| c.record.passive = c.record.passive.min(2),
    |c| c.record.state = c.record.state.min(5),
    |c| c.record.rcvwnd = c.record.rcvwnd.min(1),
    |c| c.record.rcvwnd /= 2,
    |c| c.record.rcvwnd = c.record.rcvwnd.min(4096),
];

fn header_of(call: &mut Call) -> Option<&mut Header> {
    match call {
        Call::Arrive { segment, .. } => Some(&mut segment.header),
        _ => None,
    }
}

fn own_numbers(c: &mut Case, by: u32) {
    for n in [&mut c.record.iss, &mut c.record.una, &mut c.record.nxt] {
        *n = n.wrapping_sub(by);
    }
    if let Some(h) = header_of(&mut c.call) {
        h.ack = h.ack.wrapping_sub(by);
    }
}

fn peer_numbers(c: &mut Case, by: u32) {
    for n in [&mut c.record.irs, &mut c.record.rcvnxt] {
        *n = n.wrapping_sub(by);
    }
    if let Some(h) = header_of(&mut c.call) {
        h.seq = h.seq.wrapping_sub(by);
    }
}

/// All endpoints zero, the segment's only if it is of this connection.
fn endpoints(c: &mut Case, segment_too: bool) {
    (c.record.own, c.record.peer, c.record.ownport, c.record.peerport) = (0, 0, 0, 0);
    if let (true, Call::Arrive { segment, .. }) = (segment_too, &mut c.call) {
        (
            segment.src,
            segment.dst,
            segment.header.source,
            segment.header.destination,
        ) = (0, 0, 0, 0);
    }
    if let (true, Call::Octets { src, dst, octets, .. }) = (segment_too, &mut c.call) {
        (*src, *dst) = (0, 0);
        octets.iter_mut().take(4).for_each(|o| *o = 0);
        seal(0, 0, octets);
    }
}
