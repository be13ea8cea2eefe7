//! Kind `shorts`: short lists of events, millions of them. A fault that one
//! list in a million shows is not met by the long lists, of which there are
//! too few.
//!
//! Every other list comes from going through all lists of one to three
//! letters, a letter being a kind of event, a side and a place; that on every
//! shape, a shape being the forms of A and B and how full the links are. The
//! others have four to six events, chosen beside a run. All numbers are by
//! chance, so that hardly a list comes twice.

use crate::kind::{every, number, Kind, Seen, Table};
use crate::lists::{self, Case, Lists, EVENT_TABLES, SIZE};
use crate::rng::Rng;
use crate::stations::any_record;
use crate::tabor::{Model, Played, Record};
use paper::{Event, Paper, Side};

// the tables, by their place, after those of events
const LENGTHS: usize = EVENT_TABLES;
const LISTS: usize = EVENT_TABLES + 1;
const SHAPES_SEEN: usize = EVENT_TABLES + 2;

/// CLOSED, LISTEN, SYN-SENT, and SYN-RECEIVED and ESTABLISHED with either mark.
const FORMS: usize = 7;
const FILLINGS: [&str; 4] = ["empty", "one or two", "31", "full"];
const SHAPES: usize = FORMS * FORMS * FILLINGS.len();

/// Five kinds without a place, three with one of three places; two sides.
const PLACES: usize = 3;
const LETTERS: usize = (5 + 3 * PLACES) * 2;
/// Lists of one, two and three letters.
const OF_LETTERS: usize = LETTERS + LETTERS * LETTERS + LETTERS * LETTERS * LETTERS;

/// Lists on one model, half of them of letters.
const ON_A_MODEL: usize = 64;
/// Models of each shape until every list of letters was there.
const MODELS: usize = OF_LETTERS.div_ceil(ON_A_MODEL / 2);
/// All lists of letters on all shapes, and as many others.
pub const WHOLE: u64 = (SHAPES * MODELS * ON_A_MODEL) as u64;

pub struct Ground {
    model: Model,
    /// The first of its lists of letters.
    list: usize,
}

pub struct Shorts;

impl Kind for Shorts {
    const NAME: &'static str = "shorts";
    const UNIT: &'static str = "played events";
    type Case = Case;
    type Answer = Played;
    type Ground = Ground;
    const SHARED: u64 = ON_A_MODEL as u64;

    fn tables() -> Vec<Table> {
        let mut tables = lists::event_tables();
        tables.extend([
            Table::new("list lengths", 7, (1..7).collect(), number),
            Table::new("lists of letters", OF_LETTERS, every(OF_LETTERS), number),
            Table::new("shapes", SHAPES, every(SHAPES), shape_label),
        ]);
        tables
    }

    /// The shapes in turn, in an order that mixes them, since a short run
    /// should meet various ones; so with the lists.
    fn ground(rng: &mut Rng, number: u64) -> Ground {
        let number = number as usize;
        let model = model_of_shape(rng, number * 89 % SHAPES);
        let list = number / SHAPES * 251 % MODELS * (ON_A_MODEL / 2);
        Ground { model, list }
    }

    fn make(rng: &mut Rng, ground: &Ground, index: u64) -> Case {
        let model = ground.model;
        let turn = index as usize % ON_A_MODEL;
        let events = if turn % 2 == 0 {
            let list = (ground.list + turn / 2) % OF_LETTERS;
            letters(list)
                .iter()
                .flat_map(|l| event_of(rng, &model, *l))
                .collect()
        } else {
            let length = rng.between(4, 6);
            lists::aimed_events(rng, &model, length)
        };
        Case { model, events }
    }

    fn library(case: &Case) -> Played {
        Lists::library(case)
    }

    fn paper(paper: &Paper, case: &Case, seen: &mut Seen) -> Played {
        seen.mark(LENGTHS, case.events.len() / SIZE);
        if let Some(list) = list_number(case) {
            seen.mark(LISTS, list);
        }
        seen.mark(SHAPES_SEEN, shape(&case.model));
        lists::independent(paper, case, seen)
    }

    fn smaller(case: &Case) -> Box<dyn Iterator<Item = Case> + '_> {
        Lists::smaller(case)
    }

    fn words(case: &Case) -> Vec<String> {
        Lists::words(case)
    }

    fn answer_words(played: &Played) -> Vec<String> {
        Lists::answer_words(played)
    }

    fn to_octets(case: &Case) -> Vec<u8> {
        Lists::to_octets(case)
    }

    fn from_octets(octets: &[u8]) -> Option<Case> {
        Lists::from_octets(octets)
    }
}

// ---- shapes

/// A form as a number: its state, above SYN-SENT with its mark.
fn form(r: &Record) -> usize {
    match r.state as usize {
        state @ 0..=2 => state,
        state => 2 * state - 3 + r.passive as usize,
    }
}

fn record_of_form(rng: &mut Rng, form: usize) -> Record {
    if form < 3 {
        return any_record(rng, form);
    }
    Record {
        passive: (form % 2 == 0) as u8,
        ..any_record(rng, form.div_ceil(2) + 1)
    }
}

fn filling(m: &Model) -> usize {
    match m.toa.count.max(m.tob.count) {
        0 => 0,
        1 | 2 => 1,
        31 => 2,
        _ => 3,
    }
}

fn shape(m: &Model) -> usize {
    (filling(m) * FORMS + form(&m.a)) * FORMS + form(&m.b)
}

fn shape_label(v: usize) -> String {
    let forms = [
        "CLOSED",
        "LISTEN",
        "SYN-SENT",
        "SYN-RECEIVED",
        "SYN-RECEIVED, mark",
        "ESTABLISHED",
        "ESTABLISHED, mark",
    ];
    let (a, b) = (forms[v / FORMS % FORMS], forms[v % FORMS]);
    format!("A {a}, B {b}, links {}", FILLINGS[v / FORMS / FORMS])
}

/// Every other model's stations hold each other's numbers where they can.
fn model_of_shape(rng: &mut Rng, shape: usize) -> Model {
    let mut m = Model {
        a: record_of_form(rng, shape / FORMS % FORMS),
        b: record_of_form(rng, shape % FORMS),
        ..Model::default()
    };
    lists::mirror(&mut m);
    if rng.one_in(2) {
        lists::agree(&mut m);
    }
    let counts = match shape / FORMS / FORMS {
        0 => [0, 0],
        1 => rng.pick(&[[1, 1], [1, 2], [2, 1], [2, 2], [0, 1], [1, 0]]),
        2 => rng.pick(&[[31, 31], [31, 30], [30, 31], [31, 0], [0, 31]]),
        _ => rng.pick(&[[32, 32], [32, 31], [31, 32], [32, 0], [0, 32]]),
    };
    lists::fill_links(rng, &mut m, counts);
    m
}

// ---- letters

/// The letters of list number `list`: first the lists of one letter, then
/// those of two, then those of three.
fn letters(list: usize) -> Vec<usize> {
    let (mut rest, mut length, mut lists) = (list, 1, LETTERS);
    while rest >= lists {
        rest -= lists;
        length += 1;
        lists *= LETTERS;
    }
    let mut letters = Vec::with_capacity(length);
    for _ in 0..length {
        letters.push(rest % LETTERS);
        rest /= LETTERS;
    }
    letters
}

/// The first place, the last that was there when the list began (1 where
/// fewer than two were), and one that is not there.
fn last_place(m: &Model, side: Side) -> u64 {
    let link = if side == Side::A { &m.toa } else { &m.tob };
    link.count.max(2) as u64 - 1
}

fn event_of(rng: &mut Rng, m: &Model, letter: usize) -> [u8; SIZE] {
    let side = if letter % 2 == 0 { Side::A } else { Side::B };
    let (n, last) = (rng.number(), last_place(m, side));
    let which = letter / 2;
    let kind = if which < 5 {
        which
    } else {
        5 + (which - 5) / PLACES
    };
    let place = match which.wrapping_sub(5) % PLACES {
        0 => 0,
        1 => last,
        _ => lists::high_place(rng, last + 1),
    };
    let event = match kind {
        0 => Event::Open(side, n),
        1 => Event::Listen(side),
        2 => Event::Abort(side),
        3 => Event::Resend(side),
        4 => Event::PowerCut(side),
        5 => Event::Deliver(side, place, n),
        6 => Event::Copy(side, place),
        _ => Event::Lose(side, place),
    };
    lists::encode(&event, rng.next() as u32)
}

/// The letter of ten octets, `None` where the place is no letter's.
fn letter_of(m: &Model, octets: &[u8]) -> Option<usize> {
    let kind = octets[0] as usize;
    let side = if octets[1] == 0 { Side::A } else { Side::B };
    let place = u32::from_be_bytes([octets[2], octets[3], octets[4], octets[5]]) as u64;
    let which = if kind < 5 {
        kind
    } else if place == 0 {
        5 + (kind - 5) * PLACES
    } else if place == last_place(m, side) {
        6 + (kind - 5) * PLACES
    } else if place >= 32 {
        7 + (kind - 5) * PLACES
    } else {
        return None;
    };
    Some(2 * which + octets[1] as usize)
}

/// `None` where the list is not one of letters.
fn list_number(case: &Case) -> Option<usize> {
    let length = case.events.len() / SIZE;
    if length == 0 || length > 3 {
        return None;
    }
    let (mut number, mut first, mut lists) = (0, 0, LETTERS);
    for octets in case.events.chunks(SIZE).rev() {
        number = number * LETTERS + letter_of(&case.model, octets)?;
    }
    for _ in 1..length {
        first += lists;
        lists *= LETTERS;
    }
    Some(first + number)
}
