//! Kind `steps`: one event offered alone. The player only counts what it
//! refuses; here the number of each refusal is seen, and what was sent.

use crate::kind::{bit_label, bit_table, control_label, every, mark_bits, mark_one_bit, pair, pair_table};
use crate::kind::{refusal_table, sent_number, sent_table, size_table, Kind, Seen, Table, ALL_PAIRS};
use crate::lists::{self, Case, Lists, Tail};
use crate::rng::Rng;
use crate::tabor::{self, Link, Model, Stepped};
use crate::{map, sizes, words};
use paper::{Event, Paper, Side};

// the tables, by their place
const REFUSALS: usize = 0;
const STEPS: usize = 1;
const SENT: usize = 2;
const PLACES: usize = 3;
const DRAWN: usize = 4;
const TEXTS: usize = 5;
const COUNTS: usize = 6;
const MIRROR: usize = 7;
const SIZES: usize = 8;
const KIND_OCTETS: usize = 9;
const SIDE_OCTETS: usize = 10;
const TAKEN: usize = 11;
const SPECIAL: usize = 12;

const LINKS: [&str; 2] = ["to A", "to B"];
const ENDPOINTS: [&str; 4] = ["A's address", "B's address", "A's port", "B's port"];
const SPECIALS: [&str; 3] = [
    "a segment turned away",
    "9 on a full link",
    "255 with a faulty model",
];

/// Kinds of event tried on a model, each at both sides; what a delivery does
/// depends on the segment, so several places are delivered.
const TRIED: [usize; 12] = [0, 1, 2, 3, 4, 5, 5, 5, 5, 6, 6, 7];

pub struct Steps;

impl Kind for Steps {
    const NAME: &'static str = "steps";
    const UNIT: &'static str = "events";
    type Case = Case;
    type Answer = Stepped;
    type Ground = Model;
    const SHARED: u64 = 2 * TRIED.len() as u64;

    fn tables() -> Vec<Table> {
        vec![
            refusal_table("events", &[0, 1, 5, 6, 7, 8, 9, 11, 255]),
            pair_table(&ALL_PAIRS),
            sent_table(&[0, 1, 2, 3, 4, 5]),
            lists::place_table(),
            lists::drawn_table(),
            bit_table("6 for a text of one bit", &[0..32], |v| bit_label(&["text"], v)),
            bit_table("1 for a count above 32 in one bit", &[6..64, 6..64], |v| {
                bit_label(&LINKS, v)
            }),
            bit_table(
                "1 for endpoints that differ in one bit",
                &[0..32, 0..32, 0..16, 0..16],
                |v| bit_label(&ENDPOINTS, v),
            ),
            size_table("sizes of an event"),
            Table::new("first octets of ten", 256, every(256), control_label),
            Table::new("second octets of ten", 256, every(256), control_label),
            Table::new("places delivered, copied, lost", 3 * 32, every_place(), |v| {
                format!("{} of place {}", ["delivery", "copy", "loss"][v / 32], v % 32)
            }),
            Table::new("special", SPECIALS.len(), every(SPECIALS.len()), |v| {
                SPECIALS[v].to_string()
            }),
        ]
    }

    fn ground(rng: &mut Rng, _: u64) -> Model {
        lists::starting_model(rng)
    }

    fn make(rng: &mut Rng, model: &Model, index: u64) -> Case {
        let side = if index % 2 == 0 { Side::A } else { Side::B };
        let kind = TRIED[(index / 2) as usize % TRIED.len()];
        let event = lists::any_event(rng, kind, side, link_to(model, side).count as u64);
        let mut events = lists::encode(&event, lists::unused(rng)).to_vec();
        match rng.below(24) {
            0 => lists::make_no_list(rng, &mut events),
            1 => {
                // the event again and again, or not all of it
                let size = sizes::in_turn(rng.next() as usize, 64);
                events = events.iter().cycle().take(size).copied().collect();
            }
            _ => {}
        }
        Case {
            model: *model,
            events,
        }
    }

    fn library(case: &Case) -> Stepped {
        tabor::step(case.model, &case.events)
    }

    fn paper(paper: &Paper, case: &Case, seen: &mut Seen) -> Stepped {
        seen.units += 1;
        let stepped = independent(paper, case, seen);
        note(case, &stepped, seen);
        stepped
    }

    fn smaller(case: &Case) -> Box<dyn Iterator<Item = Case> + '_> {
        Lists::smaller(case)
    }

    fn words(case: &Case) -> Vec<String> {
        Lists::words(case)
    }

    fn answer_words(s: &Stepped) -> Vec<String> {
        let mut lines = vec![
            words::refusal(s.refusal),
            format!("sent {}, drawn {}, turned away {}", s.sent, s.drawn, s.turned),
            words::segment(&s.segment),
        ];
        lines.extend(lists::model_words(&s.model));
        lines
    }

    fn to_octets(case: &Case) -> Vec<u8> {
        Lists::to_octets(case)
    }

    fn from_octets(octets: &[u8]) -> Option<Case> {
        Lists::from_octets(octets)
    }
}

/// All 32, but no copy of place 31: the link is full then.
fn every_place() -> Vec<usize> {
    (0..3 * 32).filter(|v| *v != 32 + 31).collect()
}

fn refused(case: &Case, refusal: u8) -> Stepped {
    Stepped {
        model: case.model,
        refusal,
        ..Stepped::default()
    }
}

fn link_to(m: &Model, side: Side) -> &Link {
    match side {
        Side::A => &m.toa,
        Side::B => &m.tob,
    }
}

fn independent(paper: &Paper, case: &Case, seen: &mut Seen) -> Stepped {
    // the boundary: what is no event is 255, before everything else
    let event = match lists::decode(&case.events).as_deref() {
        Some([event]) => *event,
        _ => return refused(case, lists::NO_LIST),
    };
    // the boundary: a state or a mark that is none is refusal 1
    let Some(before) = map::model(&case.model) else {
        return refused(case, 1);
    };
    let mut now = before;
    let told = match paper::step(paper, &mut now, event) {
        Ok(told) => told,
        Err(refusal) => {
            note_refused(case, &event, refusal, seen);
            return refused(case, refusal);
        }
    };
    if case.events[0] < 6 {
        let side = lists::side_of(&event);
        let (from, to) = (before.station(side).state, now.station(side).state);
        seen.mark(STEPS, pair(from.number(), to.number()));
        seen.mark(SENT, sent_number(told.sent.map(|g| g.header.control)));
    }
    lists::note_drawn(&event, told.drawn, seen, DRAWN);
    if let Event::Deliver(_, p, _) | Event::Copy(_, p) | Event::Lose(_, p) = event {
        seen.mark(TAKEN, (case.events[0] as usize - 5) * 32 + p as usize);
    }
    let mut tails = [Tail::new(&case.model.toa), Tail::new(&case.model.tob)];
    tails[0].follow(before.toa.count, now.toa.count);
    tails[1].follow(before.tob.count, now.tob.count);
    Stepped {
        model: Model {
            a: map::record_back(&now.a),
            b: map::record_back(&now.b),
            toa: lists::whole_link(&now.toa, &tails[0]),
            tob: lists::whole_link(&now.tob, &tails[1]),
        },
        segment: told.sent.as_ref().map(map::segment_back).unwrap_or_default(),
        refusal: 0,
        sent: told.sent.is_some() as u8,
        drawn: told.drawn as u8,
        turned: told.turned as u8,
    }
}

/// What was refused for one bit.
fn note_refused(case: &Case, event: &Event, refusal: u8, seen: &mut Seen) {
    let m = &case.model;
    let link = link_to(m, lists::side_of(event));
    match (refusal, event) {
        (1, _) => {
            let (a, b) = (&m.a, &m.b);
            for (which, count) in [m.toa.count, m.tob.count].into_iter().enumerate() {
                // a count of 0 to 32, and one bit above
                if count % 64 <= 32 && (count - count % 64).is_power_of_two() {
                    mark_bits(seen, COUNTS, which, (count - count % 64) as u64);
                }
            }
            let ports = [a.ownport ^ b.peerport, a.peerport ^ b.ownport].map(u32::from);
            mark_one_bit(
                seen,
                MIRROR,
                &[a.own ^ b.peer, a.peer ^ b.own, ports[0], ports[1]],
            );
        }
        (6, Event::Deliver(_, place, _)) => {
            let g = &link.slots[*place as usize];
            if g.header.control & paper::FIN == 0 {
                mark_one_bit(seen, TEXTS, &[g.text]);
            }
        }
        _ => lists::note_place(event, link.count as u64, refusal, seen, PLACES),
    }
}

fn note(case: &Case, stepped: &Stepped, seen: &mut Seen) {
    seen.mark(REFUSALS, stepped.refusal as usize);
    seen.mark(SIZES, sizes::number(case.events.len()));
    if let [kind, side, ..] = case.events[..] {
        if case.events.len() == lists::SIZE {
            seen.mark(KIND_OCTETS, kind as usize);
            seen.mark(SIDE_OCTETS, side as usize);
        }
    }
    if stepped.turned == 1 {
        seen.mark(SPECIAL, 0);
    }
    let m = &case.model;
    if stepped.refusal == 9 && (m.toa.count == 32 || m.tob.count == 32) {
        seen.mark(SPECIAL, 1);
    }
    if stepped.refusal == lists::NO_LIST && lists::faulty(m) {
        seen.mark(SPECIAL, 2);
    }
}
