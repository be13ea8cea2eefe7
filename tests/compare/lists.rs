//! Kind `lists`: two stations, their links, and a list of events.

use crate::codec::{Put, Take};
use crate::kind::{bit_label, bit_table, every, mark_bits, number, pair, pair_table, refusal_table};
use crate::kind::{sent_number, sent_table, Kind, Seen, Table, ALL_PAIRS};
use crate::rng::Rng;
use crate::stations::{any_record, any_segment, spoil};
use crate::tabor::{self, Link, Model, Played, Record, Segment};
use crate::{map, words};
use paper::{Event, Paper, Side, State};

/// The events stay octets: octets that are no list are a case too.
#[derive(Clone)]
pub struct Case {
    pub model: Model,
    pub events: Vec<u8>,
}

/// Octets of one event.
pub const SIZE: usize = 10;
/// The boundary's answer to octets that are no list of events.
pub const NO_LIST: u8 = 255;
const SLOTS: usize = 32;

// the tables, by their place; those of events are also the first of `shorts`
const EVENTS: usize = 0;
const STEPS: usize = 1;
const SENT: usize = 2;
const KINDS: usize = 3;
const PLACES: usize = 4;
const DRAWN: usize = 5;
const MOMENTS: usize = 6;
pub const EVENT_TABLES: usize = 7;
const WHOLE: usize = 7;
const SIZES: usize = 8;
const SPECIAL: usize = 9;
const TOTALS: usize = 10;

const KIND_NAMES: [&str; 8] = [
    "open",
    "listen",
    "abort",
    "resend",
    "power cut",
    "deliver",
    "copy",
    "lose",
];
const LINK_EVENTS: [&str; 3] = ["deliver", "copy", "lose"];
const DRAWERS: [&str; 2] = ["open", "deliver"];
const MOMENT_NAMES: [&str; 3] = ["a segment turned away", "both established", "a full link"];
/// Every length up to the limit and one more is played, or refused with 12.
const LENGTHS: usize = 4098;
/// Lists longer than this come by turns, shorter ones also by chance.
const SHORTER: usize = 140;
const SPECIALS: [&str; 5] = [
    "255 with a faulty model",
    "1 with more than 4,096 events",
    "slots past the count not zero at the end",
    "255 with more than 4,096 events",
    "12 for 32,768 events and more",
];

/// What events reach, played or offered alone.
pub fn event_tables() -> Vec<Table> {
    vec![
        refusal_table("events", &[0, 5, 6, 7, 8, 9, 11]),
        pair_table(&ALL_PAIRS),
        sent_table(&[0, 1, 2, 3, 4, 5]),
        Table::new("kinds of event taken", 8, every(8), |v| KIND_NAMES[v].to_string()),
        place_table(),
        drawn_table(),
        Table::new(
            "moments with",
            MOMENT_NAMES.len(),
            every(MOMENT_NAMES.len()),
            |v| MOMENT_NAMES[v].to_string(),
        ),
    ]
}

/// Places that are not on the link, though cut to fewer bits they are.
pub fn place_table() -> Table {
    bit_table(
        "no such place, but one if cut below a bit",
        &[5..32, 5..32, 5..32],
        |v| bit_label(&LINK_EVENTS, v),
    )
}

pub fn drawn_table() -> Table {
    bit_table("bits on in numbers drawn", &[0..32, 0..32], |v| {
        bit_label(&DRAWERS, v)
    })
}

pub struct Lists;

impl Kind for Lists {
    const NAME: &'static str = "lists";
    const UNIT: &'static str = "played events";
    type Case = Case;
    type Answer = Played;
    type Ground = ();
    const SHARED: u64 = 4;

    fn tables() -> Vec<Table> {
        let mut tables = event_tables();
        tables.extend([
            refusal_table("lists", &[0, 1, 12, 255]),
            Table::new("list lengths", LENGTHS, every(LENGTHS), number),
            Table::new("special", SPECIALS.len(), every(SPECIALS.len()), |v| {
                SPECIALS[v].to_string()
            }),
            bit_table("bits on in totals", &[0..13, 0..13, 0..13], |v| {
                bit_label(&["taken", "refused", "turned away"], v)
            }),
        ]);
        tables
    }

    fn ground(_: &mut Rng, _: u64) {}

    fn make(rng: &mut Rng, _: &(), index: u64) -> Case {
        if index % 50 == 11 {
            let model = sound_model(rng);
            let longer = index as usize / 50 % (4094 - SHORTER);
            let events = aimed_events(rng, &model, SHORTER + 1 + longer);
            return Case { model, events };
        }
        let turn = index % 400;
        let length = list_length(rng, index);
        let mut model = starting_model(rng);
        // the lists above the limit are also tried on faulty models: 1 before 12
        if turn == 3 && rng.one_in(2) {
            spoil_model(rng, &mut model);
        }
        let mut events = if turn < 2 && rng.one_in(4) {
            again_and_again(rng, &mut model, length)
        } else {
            aimed_events(rng, &model, length)
        };
        // the lists above the limit too, and behind it: 255 comes before 12
        if rng.one_in(16) || (turn == 2 && rng.one_in(3)) {
            make_no_list(rng, &mut events);
        }
        Case { model, events }
    }

    fn library(case: &Case) -> Played {
        tabor::play(case.model, &case.events)
    }

    fn paper(paper: &Paper, case: &Case, seen: &mut Seen) -> Played {
        let played = independent(paper, case, seen);
        note_list(case, &played, seen);
        played
    }

    fn smaller(case: &Case) -> Box<dyn Iterator<Item = Case> + '_> {
        Box::new(
            fewer_events(case)
                .chain(smaller_links(case))
                .chain(smaller_stations(case).into_iter())
                .chain(smaller_events(case)),
        )
    }

    fn words(case: &Case) -> Vec<String> {
        let mut lines = model_words(&case.model);
        match decode(&case.events) {
            None => lines.push(format!("no list: {}", words::octets(&case.events))),
            Some(events) => lines.extend(event_lines(&events)),
        }
        lines
    }

    fn answer_words(p: &Played) -> Vec<String> {
        let mut lines = vec![
            words::refusal(p.refusal),
            format!(
                "taken {}, refused {}, turned away {}",
                p.taken, p.refused, p.turned
            ),
        ];
        lines.extend(model_words(&p.model));
        lines
    }

    fn to_octets(case: &Case) -> Vec<u8> {
        let mut put = Put::default();
        put.model(&case.model).octets(&case.events);
        put.0
    }

    fn from_octets(octets: &[u8]) -> Option<Case> {
        let mut take = Take(octets);
        Some(Case {
            model: take.model()?,
            events: take.rest(),
        })
    }
}

pub fn model_words(m: &Model) -> Vec<String> {
    let mut lines = vec![
        format!("A: {}", words::record(&m.a)),
        format!("B: {}", words::record(&m.b)),
    ];
    lines.extend(words::link("to A", &m.toa));
    lines.extend(words::link("to B", &m.tob));
    lines
}

// ---- events and octets

fn side(octet: u8) -> Option<Side> {
    match octet {
        0 => Some(Side::A),
        1 => Some(Side::B),
        _ => None,
    }
}

fn decode_one(octets: &[u8]) -> Option<Event> {
    let side = side(octets[1])?;
    let four = |i: usize| u32::from_be_bytes([octets[i], octets[i + 1], octets[i + 2], octets[i + 3]]);
    let (place, number) = (four(2) as u64, four(6));
    Some(match octets[0] {
        0 => Event::Open(side, number),
        1 => Event::Listen(side),
        2 => Event::Abort(side),
        3 => Event::Resend(side),
        4 => Event::PowerCut(side),
        5 => Event::Deliver(side, place, number),
        6 => Event::Copy(side, place),
        7 => Event::Lose(side, place),
        _ => return None,
    })
}

/// `None` where the octets are no list of events, wherever the fault lies.
pub fn decode(octets: &[u8]) -> Option<Vec<Event>> {
    if octets.len() % SIZE != 0 {
        return None;
    }
    octets.chunks(SIZE).map(decode_one).collect()
}

/// What a kind does not use is not looked at: `unused` lies there.
pub fn encode(event: &Event, unused: u32) -> [u8; SIZE] {
    let (kind, side, place, number) = match *event {
        Event::Open(side, n) => (0, side, unused, n),
        Event::Listen(side) => (1, side, unused, unused),
        Event::Abort(side) => (2, side, unused, unused),
        Event::Resend(side) => (3, side, unused, unused),
        Event::PowerCut(side) => (4, side, unused, unused),
        Event::Deliver(side, place, n) => (5, side, place as u32, n),
        Event::Copy(side, place) => (6, side, place as u32, unused),
        Event::Lose(side, place) => (7, side, place as u32, unused),
    };
    let mut octets = [0; SIZE];
    octets[0] = kind;
    octets[1] = (side == Side::B) as u8;
    octets[2..6].copy_from_slice(&place.to_be_bytes());
    octets[6..10].copy_from_slice(&number.to_be_bytes());
    octets
}

fn letter(side: Side) -> &'static str {
    match side {
        Side::A => "A",
        Side::B => "B",
    }
}

pub fn event_words(event: &Event) -> String {
    match *event {
        Event::Open(s, n) => format!("{} opens with {n}", letter(s)),
        Event::Listen(s) => format!("{} listens", letter(s)),
        Event::Abort(s) => format!("{} aborts", letter(s)),
        Event::Resend(s) => format!("{} resends", letter(s)),
        Event::PowerCut(s) => format!("{} loses power", letter(s)),
        Event::Deliver(s, p, n) => format!("place {p} is delivered to {}, fresh number {n}", letter(s)),
        Event::Copy(s, p) => format!("place {p} on the link to {} is copied", letter(s)),
        Event::Lose(s, p) => format!("place {p} on the link to {} is lost", letter(s)),
    }
}

fn event_lines(events: &[Event]) -> Vec<String> {
    const SHOWN: usize = 60;
    let mut lines = vec![format!("{} events", events.len())];
    for (i, event) in events.iter().take(SHOWN).enumerate() {
        lines.push(format!("{}: {}", i + 1, event_words(event)));
    }
    if events.len() > SHOWN {
        lines.push(format!("and {} more", events.len() - SHOWN));
    }
    lines
}

// ---- the independent side, and the boundary's rules above it

fn refused(case: &Case, refusal: u8) -> Played {
    Played {
        model: case.model,
        refusal,
        ..Played::default()
    }
}

pub fn independent(paper: &Paper, case: &Case, seen: &mut Seen) -> Played {
    // the boundary: no list is 255, before everything else
    let Some(events) = decode(&case.events) else {
        return refused(case, NO_LIST);
    };
    // the boundary: a state or a mark that is none is refusal 1
    let Some(start) = map::model(&case.model) else {
        return refused(case, 1);
    };
    let mut end = start;
    let totals = match paper::play(paper, &mut end, &events) {
        Ok(totals) => totals,
        Err(refusal) => return refused(case, refusal),
    };
    let tails = follow(paper, case, start, &events, &end, seen);
    Played {
        model: Model {
            a: map::record_back(&end.a),
            b: map::record_back(&end.b),
            toa: whole_link(&end.toa, &tails[0]),
            tob: whole_link(&end.tob, &tails[1]),
        },
        taken: totals.taken as usize,
        refused: totals.refused as usize,
        turned: totals.turned as usize,
        refusal: 0,
    }
}

/// The slots past the count, by the boundary's rule: when a place is freed
/// those behind move up, past the count too, and slot 31 becomes zero; a
/// segment put on the link takes the first of them. So they are a line: it
/// loses its first slot to each segment, and gets a zero slot at each place
/// freed.
pub struct Tail {
    line: std::collections::VecDeque<Segment>,
}

impl Tail {
    pub fn new(link: &Link) -> Tail {
        Tail {
            line: link.slots[link.count.min(SLOTS)..].iter().copied().collect(),
        }
    }

    pub fn follow(&mut self, before: u64, after: u64) {
        for _ in before..after {
            self.line.pop_front();
        }
        for _ in after..before {
            self.line.push_back(Segment::default());
        }
    }
}

pub fn whole_link(link: &paper::Link, tail: &Tail) -> Link {
    let mut whole = Link {
        count: link.count as usize,
        ..Link::default()
    };
    let line = link
        .segments()
        .iter()
        .map(map::segment_back)
        .chain(tail.line.iter().copied());
    for (slot, segment) in whole.slots.iter_mut().zip(line) {
        *slot = segment;
    }
    whole
}

/// The list once more, event by event: for the slots past the count, and to
/// see what was reached. The player tells neither.
fn follow(
    paper: &Paper,
    case: &Case,
    mut now: paper::Model,
    events: &[Event],
    end: &paper::Model,
    seen: &mut Seen,
) -> [Tail; 2] {
    let mut tails = [Tail::new(&case.model.toa), Tail::new(&case.model.tob)];
    for event in events {
        let (toa, tob) = (now.toa.count, now.tob.count);
        let side = side_of(event);
        let (state, count) = (now.station(side).state, now.link_to(side).count);
        let told = paper::step(paper, &mut now, *event);
        tails[0].follow(toa, now.toa.count);
        tails[1].follow(tob, now.tob.count);
        note_event(event, state, count, &told, &now, seen);
    }
    assert!(
        now == *end,
        "the independent player and its single steps do not agree"
    );
    tails
}

pub fn side_of(event: &Event) -> Side {
    match *event {
        Event::Open(s, _) | Event::Listen(s) | Event::Abort(s) | Event::Resend(s) => s,
        Event::PowerCut(s) | Event::Deliver(s, ..) | Event::Copy(s, _) | Event::Lose(s, _) => s,
    }
}

/// `state` and `count` are those of the event's station and of the link to
/// it, before the event.
fn note_event(
    event: &Event,
    state: State,
    count: u64,
    told: &Result<paper::Told, u8>,
    now: &paper::Model,
    seen: &mut Seen,
) {
    seen.units += 1;
    let told = match told {
        Err(refusal) => {
            seen.mark(EVENTS, *refusal as usize);
            return note_place(event, count, *refusal, seen, PLACES);
        }
        Ok(told) => told,
    };
    seen.mark(EVENTS, 0);
    let kind = encode(event, 0)[0] as usize;
    seen.mark(KINDS, kind);
    if kind < 6 {
        let to = now.station(side_of(event)).state;
        seen.mark(STEPS, pair(state.number(), to.number()));
        seen.mark(SENT, sent_number(told.sent.map(|g| g.header.control)));
    }
    note_drawn(event, told.drawn, seen, DRAWN);
    if told.turned {
        seen.mark(MOMENTS, 0);
    }
    if now.a.state == State::Established && now.b.state == State::Established {
        seen.mark(MOMENTS, 1);
    }
    if now.toa.count == SLOTS as u64 || now.tob.count == SLOTS as u64 {
        seen.mark(MOMENTS, 2);
    }
}

/// A place refused with 9 that would be one of the link's if its bits from
/// some bit on were not looked at: marked for each such bit.
pub fn note_place(event: &Event, count: u64, refusal: u8, seen: &mut Seen, table: usize) {
    let (which, place) = match *event {
        Event::Deliver(_, place, _) => (0, place),
        Event::Copy(_, place) => (1, place),
        Event::Lose(_, place) => (2, place),
        _ => return,
    };
    if refusal == 9 {
        let cut = (5..32).filter(|bit| place & ((1 << bit) - 1) < count);
        mark_bits(seen, table, which, cut.map(|bit| 1 << bit).sum());
    }
}

pub fn note_drawn(event: &Event, drawn: bool, seen: &mut Seen, table: usize) {
    match *event {
        Event::Open(_, n) if drawn => mark_bits(seen, table, 0, n as u64),
        Event::Deliver(_, _, n) if drawn => mark_bits(seen, table, 1, n as u64),
        _ => {}
    }
}

pub fn faulty(m: &Model) -> bool {
    let mut copy = match map::model(m) {
        None => return true,
        Some(copy) => copy,
    };
    paper::play(&Paper::RIGHT, &mut copy, &[]).is_err()
}

fn note_list(case: &Case, played: &Played, seen: &mut Seen) {
    let events = case.events.len() / SIZE;
    seen.mark(WHOLE, played.refusal as usize);
    if [0, 12].contains(&played.refusal) {
        seen.mark(SIZES, events);
    }
    let m = &played.model;
    let past = |link: &Link| {
        link.slots
            .iter()
            .skip(link.count)
            .any(|g| *g != Segment::default())
    };
    let (taken, no_list) = (played.refusal == 0, played.refusal == NO_LIST);
    let special = [
        no_list && faulty(&case.model),
        played.refusal == 1 && events > 4096,
        taken && (past(&m.toa) || past(&m.tob)),
        no_list && events > 4096,
        played.refusal == 12 && events >= 32_768,
    ];
    for (v, _) in special.iter().enumerate().filter(|(_, reached)| **reached) {
        seen.mark(SPECIAL, v);
    }
    for (which, total) in [played.taken, played.refused, played.turned]
        .into_iter()
        .enumerate()
    {
        mark_bits(seen, TOTALS, which, total as u64);
    }
}

// ---- making cases

/// Mostly short lists; the limits, and more than them, come round by turns.
/// 32,768 events are 5 times 65,536 octets, and 65,536 events 10 times.
fn list_length(rng: &mut Rng, index: u64) -> usize {
    if index % 20_000 == 6 {
        return rng.pick(&[32_768, 32_769, 65_536, 65_537, 65_600]);
    }
    match index % 400 {
        0 => 4095,
        1 => 4096,
        2 => 4097,
        3 => rng.pick(&[4098, 5000, 6553, 8192]),
        4 => 0,
        5..=60 => 1,
        _ => rng.between(1, SHORTER),
    }
}

pub fn starting_model(rng: &mut Rng) -> Model {
    let mut m = sound_model(rng);
    if rng.one_in(12) {
        spoil_model(rng, &mut m);
    }
    m
}

fn sound_model(rng: &mut Rng) -> Model {
    let mut m = Model::default();
    let (a, b) = match rng.below(3) {
        0 => (0, 0),
        _ => (rng.below(5), rng.below(5)),
    };
    m.a = any_record(rng, a);
    m.b = any_record(rng, b);
    mirror(&mut m);
    if rng.one_in(2) {
        agree(&mut m);
    }
    let counts = [any_count(rng), any_count(rng)];
    fill_links(rng, &mut m, counts);
    m
}

fn any_count(rng: &mut Rng) -> usize {
    let some = rng.between(0, SLOTS);
    rng.pick(&[0, 0, 0, 1, 3, some, 30, 31, 32])
}

pub fn mirror(m: &mut Model) {
    (m.b.own, m.b.ownport) = (m.a.peer, m.a.peerport);
    (m.b.peer, m.b.peerport) = (m.a.own, m.a.ownport);
}

/// Where both have received something, each holds the other's number.
pub fn agree(m: &mut Model) {
    if m.a.state >= 2 && m.b.state >= 3 {
        m.b.irs = m.a.iss;
        m.b.rcvnxt = m.b.irs.wrapping_add(1);
    }
    if m.b.state >= 2 && m.a.state >= 3 {
        m.a.irs = m.b.iss;
        m.a.rcvnxt = m.a.irs.wrapping_add(1);
    }
}

/// So many segments on the link to A and on the link to B.
pub fn fill_links(rng: &mut Rng, m: &mut Model, counts: [usize; 2]) {
    m.toa = any_link(rng, &m.a, counts[0]);
    m.tob = any_link(rng, &m.b, counts[1]);
}

/// Segments aimed at the receiver; some of them are foreign, have FIN or text.
fn any_link(rng: &mut Rng, receiver: &Record, count: usize) -> Link {
    let mut link = Link {
        count,
        ..Link::default()
    };
    let garbage = rng.one_in(2);
    for i in 0..SLOTS {
        if i < link.count || garbage {
            let turn = rng.below(256);
            link.slots[i] = any_segment(rng, receiver, turn);
        }
    }
    link
}

fn spoil_model(rng: &mut Rng, m: &mut Model) {
    let turn = rng.below(64);
    let (wide, narrow) = (1 << rng.below(32), 1 << rng.below(16));
    match rng.below(14) {
        0 | 1 => spoil(rng, &mut m.a, turn),
        2 | 3 => spoil(rng, &mut m.b, turn),
        4 => m.toa.count = too_many(rng),
        5 => m.tob.count = too_many(rng),
        6 => m.a.own ^= wide,
        7 => m.a.peer ^= wide,
        8 => m.a.ownport ^= narrow,
        9 => m.a.peerport ^= narrow,
        10 => m.b.own ^= wide,
        11 => m.b.peer ^= wide,
        12 => std::mem::swap(&mut m.a.own, &mut m.a.peer),
        _ => std::mem::swap(&mut m.b.ownport, &mut m.b.peerport),
    }
}

/// A count above 32; cut to fewer bits, most would be counts.
fn too_many(rng: &mut Rng) -> usize {
    if rng.one_in(4) {
        return rng.pick(&[33, 34, 63, usize::MAX]);
    }
    rng.between(0, SLOTS) + (1 << rng.between(6, 63))
}

/// Weights of the eight kinds, and of an event that drives the opening on;
/// each list has its own, so that some fill links and some open and reset.
const MANNERS: [[usize; 9]; 6] = [
    [2, 2, 1, 2, 1, 12, 2, 1, 12],
    [4, 4, 3, 4, 3, 16, 3, 2, 6],
    [2, 2, 1, 10, 1, 4, 20, 1, 2],
    [6, 6, 6, 6, 6, 6, 6, 6, 2],
    [1, 1, 0, 14, 0, 10, 8, 0, 4],
    [3, 2, 2, 2, 2, 24, 6, 4, 10],
];

/// Events chosen beside a run of the independent player, so that they meet
/// the model as it will be then.
pub fn aimed_events(rng: &mut Rng, model: &Model, length: usize) -> Vec<u8> {
    let manner = rng.pick(&MANNERS);
    let mut beside = map::model(model);
    let mut octets = Vec::with_capacity(length * SIZE);
    for _ in 0..length {
        let event = match &beside {
            Some(m) => aimed_event(rng, m, &manner),
            None => decode_one(&any_event_octets(rng)).expect("kind and side are right"),
        };
        if let Some(m) = beside.as_mut() {
            // on a faulty model every event is refused; that is as good
            let _ = paper::step(&Paper::RIGHT, m, event);
        }
        octets.extend(encode(&event, unused(rng)));
    }
    octets
}

/// One event all the time: all are taken and turned away, all taken, or all
/// refused.
fn again_and_again(rng: &mut Rng, m: &mut Model, length: usize) -> Vec<u8> {
    let s = any_side(rng);
    let event = match rng.below(3) {
        0 => {
            m.a = any_record(rng, 2);
            m.b = any_record(rng, 3);
            mirror(m);
            fill_links(rng, m, [SLOTS, SLOTS]);
            Event::Resend(s)
        }
        1 => Event::PowerCut(s),
        _ => Event::Copy(s, SLOTS as u64),
    };
    encode(&event, unused(rng)).repeat(length)
}

/// What lies where a kind of event does not look.
pub fn unused(rng: &mut Rng) -> u32 {
    if rng.one_in(2) {
        0
    } else {
        rng.number()
    }
}

fn any_event_octets(rng: &mut Rng) -> [u8; SIZE] {
    let mut octets: [u8; SIZE] = rng.octets(SIZE).try_into().expect("ten");
    octets[0] %= 8;
    octets[1] %= 2;
    octets
}

fn any_side(rng: &mut Rng) -> Side {
    rng.pick(&[Side::A, Side::B])
}

/// Mostly a place that is there, mostly the last or the first.
fn any_place(rng: &mut Rng, count: u64) -> u64 {
    if rng.one_in(8) {
        return high_place(rng, count);
    }
    if count == 0 || rng.one_in(12) {
        return rng.pick(&[count, count + 1, 31, 32, 33, 0x7fff_ffff, 0xffff_ffff]);
    }
    match rng.below(4) {
        0 => 0,
        1 => rng.below(count as usize) as u64,
        _ => count - 1,
    }
}

/// A place that is there (0 where there is none) with bits on above its own:
/// of 32 bits, no place of the link; of fewer, perhaps one.
pub fn high_place(rng: &mut Rng, count: u64) -> u64 {
    let low = rng.below(count.max(1) as usize) as u64;
    let any = rng.between(5, 31);
    let bit = rng.pick(&[8, 16, 24, 31, any, any, any, any]);
    let more = if rng.one_in(2) { 0 } else { rng.next() as u32 };
    low + (((1 | more) << bit) as u64)
}

/// An event of this kind at this side, the link to which holds so many.
pub fn any_event(rng: &mut Rng, kind: usize, s: Side, count: u64) -> Event {
    let count = count.min(SLOTS as u64);
    match kind {
        0 => Event::Open(s, rng.number()),
        1 => Event::Listen(s),
        2 => Event::Abort(s),
        3 => Event::Resend(s),
        4 => Event::PowerCut(s),
        5 => Event::Deliver(s, any_place(rng, count), rng.number()),
        6 => Event::Copy(s, any_place(rng, count)),
        _ => Event::Lose(s, any_place(rng, count)),
    }
}

fn aimed_event(rng: &mut Rng, m: &paper::Model, manner: &[usize; 9]) -> Event {
    let s = any_side(rng);
    let mut chance = rng.below(manner.iter().sum());
    let mut kind = 0;
    while chance >= manner[kind] {
        chance -= manner[kind];
        kind += 1;
    }
    match kind {
        8 => onward(rng, m, s),
        _ => any_event(rng, kind, s, m.link_to(s).count),
    }
}

/// What drives an opening on: the segment just sent is delivered, a closed
/// station listens or opens.
fn onward(rng: &mut Rng, m: &paper::Model, s: Side) -> Event {
    let s = if m.link_to(s).count == 0 { s.other() } else { s };
    let count = m.link_to(s).count;
    if count > 0 && m.station(s).state != State::Closed {
        return Event::Deliver(s, count - 1, rng.number());
    }
    if m.station(s).state == State::Closed && m.station(s.other()).state != State::Listen {
        return Event::Listen(s);
    }
    match m.station(s.other()).state {
        State::Closed => Event::Open(s.other(), rng.number()),
        State::SynSent | State::SynReceived => Event::Resend(s.other()),
        _ => Event::Open(s, rng.number()),
    }
}

/// A size that is no multiple of ten, a kind above 7, a side above 1.
pub fn make_no_list(rng: &mut Rng, events: &mut Vec<u8>) {
    let n = events.len() / SIZE;
    let at = if n == 0 || rng.one_in(2) {
        n.saturating_sub(1)
    } else {
        rng.below(n)
    };
    match rng.below(4) {
        0 => events.truncate(events.len().saturating_sub(rng.between(1, 9))),
        1 => {
            let more = rng.between(1, 9);
            events.extend(rng.octets(more).iter().map(|o| o % 2));
        }
        2 if n > 0 => events[at * SIZE] = rng.between(8, 255) as u8,
        _ if n > 0 => events[at * SIZE + 1] = rng.between(2, 255) as u8,
        _ => events.push(0),
    }
}

// ---- making a case smaller

/// Halves first, then quarters, down to single events.
fn fewer_events(case: &Case) -> impl Iterator<Item = Case> + '_ {
    let n = case.events.len() / SIZE;
    let sizes = std::iter::successors(Some(n), |k| (*k > 1).then_some(k / 2)).filter(|k| *k > 0);
    sizes.flat_map(move |k| {
        (0..n.div_ceil(k)).rev().map(move |i| {
            let mut events = case.events.clone();
            events.drain(i * k * SIZE..((i + 1) * k).min(n) * SIZE);
            Case {
                model: case.model,
                events,
            }
        })
    })
}

/// Each event with its place and number zero, smaller, or the same event
/// with what it does not use zero.
fn smaller_events(case: &Case) -> impl Iterator<Item = Case> + '_ {
    (0..case.events.len() / SIZE).flat_map(move |i| {
        let at = i * SIZE;
        [(2, 8), (2, 4), (6, 4)].into_iter().map(move |(from, octets)| {
            let mut events = case.events.clone();
            events[at + from..at + from + octets].fill(0);
            Case {
                model: case.model,
                events,
            }
        })
    })
}

/// Links emptied, slots taken out or made zero.
fn smaller_links(case: &Case) -> impl Iterator<Item = Case> + '_ {
    let empty = [true, false]
        .into_iter()
        .map(move |toa| changed(case, toa, |l| *l = Link::default()));
    let cleared = [true, false].into_iter().map(move |toa| {
        changed(case, toa, |l| {
            let past = l.count.min(SLOTS);
            l.slots[past..].fill(Segment::default());
        })
    });
    let out = (0..2 * SLOTS).map(move |i| changed(case, i < SLOTS, |l| take_out(l, i % SLOTS)));
    let zero =
        (0..2 * SLOTS).map(move |i| changed(case, i < SLOTS, |l| l.slots[i % SLOTS] = Segment::default()));
    let fields = (0..2 * SLOTS).flat_map(move |i| {
        SMALLER_SEGMENT
            .iter()
            .map(move |f| changed(case, i < SLOTS, |l| f(&mut l.slots[i % SLOTS])))
    });
    empty.chain(cleared).chain(out).chain(zero).chain(fields)
}

const SMALLER_SEGMENT: [fn(&mut Segment); 7] = [
    |g| g.header.urgent = 0,
    |g| g.header.window = 0,
    |g| g.header.ack = 0,
    |g| g.header.seq = 0,
    |g| g.text = 0,
    |g| g.header.control &= 0x17,
    |g| g.header.control = 0,
];

fn changed(case: &Case, toa: bool, change: impl Fn(&mut Link)) -> Case {
    let mut case = case.clone();
    change(if toa {
        &mut case.model.toa
    } else {
        &mut case.model.tob
    });
    case
}

fn take_out(link: &mut Link, place: usize) {
    if place < link.count && link.count <= SLOTS {
        link.slots.copy_within(place + 1.., place);
        link.slots[SLOTS - 1] = Segment::default();
        link.count -= 1;
    }
}

/// Stations closed, windows and numbers small, endpoints zero everywhere.
fn smaller_stations(case: &Case) -> Vec<Case> {
    let mut cases = Vec::new();
    let mut put = |change: &dyn Fn(&mut Model)| {
        let mut changed = case.clone();
        change(&mut changed.model);
        cases.push(changed);
    };
    put(&|m| m.a = closed(&m.a));
    put(&|m| m.b = closed(&m.b));
    put(&|m| m.a.rcvwnd = m.a.rcvwnd.min(4096));
    put(&|m| m.b.rcvwnd = m.b.rcvwnd.min(4096));
    put(&|m| m.a.rcvwnd = m.a.rcvwnd.min(1));
    put(&|m| m.b.rcvwnd = m.b.rcvwnd.min(1));
    put(&|m| m.a.passive = 0);
    put(&|m| m.b.passive = 0);
    put(&no_endpoints);
    for small in [0, 100] {
        put(&|m| shift(m, m.a.iss.wrapping_sub(small), 0));
        put(&|m| shift(m, 0, m.b.iss.wrapping_sub(small)));
        put(&|m| shift(m, m.b.irs.wrapping_sub(small), 0));
        put(&|m| shift(m, 0, m.a.irs.wrapping_sub(small)));
    }
    cases
}

fn closed(r: &Record) -> Record {
    Record {
        rcvwnd: r.rcvwnd,
        own: r.own,
        peer: r.peer,
        ownport: r.ownport,
        peerport: r.peerport,
        ..Record::default()
    }
}

fn no_endpoints(m: &mut Model) {
    for r in [&mut m.a, &mut m.b] {
        (r.own, r.peer, r.ownport, r.peerport) = (0, 0, 0, 0);
    }
    for g in m.toa.slots.iter_mut().chain(m.tob.slots.iter_mut()) {
        (g.src, g.dst, g.header.source, g.header.destination) = (0, 0, 0, 0);
    }
}

/// A's numbers and B's numbers moved down everywhere they are held.
fn shift(m: &mut Model, a: u32, b: u32) {
    for (r, own, peer) in [(&mut m.a, a, b), (&mut m.b, b, a)] {
        if r.state >= 2 {
            for n in [&mut r.iss, &mut r.una, &mut r.nxt] {
                *n = n.wrapping_sub(own);
            }
        }
        if r.state >= 3 {
            for n in [&mut r.irs, &mut r.rcvnxt] {
                *n = n.wrapping_sub(peer);
            }
        }
    }
    for (link, own, peer) in [(&mut m.toa, a, b), (&mut m.tob, b, a)] {
        for g in link.slots.iter_mut().filter(|g| **g != Segment::default()) {
            g.header.seq = g.header.seq.wrapping_sub(peer);
            g.header.ack = g.header.ack.wrapping_sub(own);
        }
    }
}
