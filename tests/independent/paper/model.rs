//! Two stations and their links.

use crate::octets::Segment;
use crate::station::{abort, arrive, listen, of_the_forms, open, power_cut, resend};
use crate::station::{Record, Taken};
use crate::wrong::{Paper, Wrong};

#[derive(Clone, Copy, PartialEq, Eq, Debug)]
pub enum Side {
    A,
    B,
}

impl Side {
    pub fn other(self) -> Side {
        match self {
            Side::A => Side::B,
            Side::B => Side::A,
        }
    }
}

/// "Each link holds up to 32 segments in the order sent."
pub const PLACES: usize = 32;

/// A link: the first `count` places are on it. A count above 32 can be
/// written down, and is refused with 1. Two links are equal when their counts
/// are and the places that count are.
#[derive(Clone, Copy, Debug)]
pub struct Link {
    pub places: [Segment; PLACES],
    pub count: u64,
}

impl Link {
    pub fn empty() -> Link {
        Link { places: [Segment::default(); PLACES], count: 0 }
    }

    /// The count is the number given; beyond 32 the segments are not kept.
    pub fn of(segments: &[Segment]) -> Link {
        let mut link = Link::empty();
        link.count = segments.len() as u64;
        for (place, segment) in link.places.iter_mut().zip(segments) {
            *place = *segment;
        }
        link
    }

    /// What is on the link, in the order sent.
    pub fn segments(&self) -> &[Segment] {
        &self.places[..(self.count.min(PLACES as u64)) as usize]
    }

    fn full(&self) -> bool {
        self.count >= PLACES as u64
    }

    /// Refusal 9: "no such place on the link".
    fn at(&self, place: u64) -> Result<Segment, u8> {
        if place >= self.count {
            return Err(9);
        }
        Ok(self.places[place as usize])
    }

    /// Only asked when not full.
    fn push(&mut self, segment: Segment) {
        self.places[self.count as usize] = segment;
        self.count += 1;
    }

    /// "It leaves the link, those behind move up."
    fn remove(&mut self, place: u64) {
        let last = self.count as usize - 1;
        for i in place as usize..last {
            self.places[i] = self.places[i + 1];
        }
        self.count -= 1;
    }
}

impl PartialEq for Link {
    fn eq(&self, other: &Link) -> bool {
        self.count == other.count && self.segments() == other.segments()
    }
}

impl Eq for Link {}

/// Two stations with a link each way: `toa` leads to A, `tob` to B.
#[derive(Clone, Copy, PartialEq, Eq, Debug)]
pub struct Model {
    pub a: Record,
    pub b: Record,
    pub toa: Link,
    pub tob: Link,
}

/// In the three link events the side names the station the link leads to;
/// the u64 is the place, the u32 of a delivery its fresh number.
#[derive(Clone, Copy, PartialEq, Eq, Debug)]
pub enum Event {
    Open(Side, u32),
    Listen(Side),
    Abort(Side),
    Resend(Side),
    PowerCut(Side),
    Deliver(Side, u64, u32),
    Copy(Side, u64),
    Lose(Side, u64),
}

/// What an event taken did: the segment sent or none, whether its number was
/// drawn, whether the segment sent was turned away.
#[derive(Clone, Copy, PartialEq, Eq, Debug)]
pub struct Told {
    pub sent: Option<Segment>,
    pub drawn: bool,
    pub turned: bool,
}

/// "The player tells how many events were taken, refused, and how many
/// segments turned away."
#[derive(Clone, Copy, PartialEq, Eq, Debug, Default)]
pub struct Totals {
    pub taken: u64,
    pub refused: u64,
    pub turned: u64,
}

impl Model {
    pub fn station(&self, side: Side) -> &Record {
        match side {
            Side::A => &self.a,
            Side::B => &self.b,
        }
    }

    pub fn link_to(&self, side: Side) -> &Link {
        match side {
            Side::A => &self.toa,
            Side::B => &self.tob,
        }
    }

    fn station_mut(&mut self, side: Side) -> &mut Record {
        match side {
            Side::A => &mut self.a,
            Side::B => &mut self.b,
        }
    }

    fn link_to_mut(&mut self, side: Side) -> &mut Link {
        match side {
            Side::A => &mut self.toa,
            Side::B => &mut self.tob,
        }
    }

    /// The step is stored; what was sent goes onto the link to the peer. "A
    /// segment sent into a full link is turned away."
    fn store(&mut self, paper: &Paper, side: Side, taken: Taken) -> Told {
        *self.station_mut(side) = taken.next;
        let mut turned = false;
        if let Some(segment) = taken.sent {
            let link = self.link_to_mut(side.other());
            if link.full() {
                turned = true;
                if paper.is(Wrong::FullDropsFirst) {
                    link.remove(0);
                    link.push(segment);
                }
            } else {
                link.push(segment);
            }
        }
        Told { sent: taken.sent, drawn: taken.drawn, turned }
    }
}

/// Refusal 1: "record not of the forms above; a link count above 32; the two
/// stations' endpoints do not mirror each other".
fn test_1(paper: &Paper, model: &Model) -> Result<(), u8> {
    let (a, b) = (&model.a, &model.b);
    let forms = of_the_forms(paper, a) && of_the_forms(paper, b);
    let counts = model.toa.count <= PLACES as u64 && model.tob.count <= PLACES as u64;
    let mirror = a.own == b.peer
        && a.ownport == b.peerport
        && a.peer == b.own
        && a.peerport == b.ownport;
    if !(forms && counts && mirror) {
        return Err(1);
    }
    Ok(())
}

/// "A model event offered alone tests 1 first." "A refused event changes
/// nothing."
pub fn step(paper: &Paper, model: &mut Model, event: Event) -> Result<Told, u8> {
    test_1(paper, model)?;
    match event {
        Event::Open(side, n) => {
            let taken = open(paper, *model.station(side), n)?;
            Ok(model.store(paper, side, taken))
        }
        Event::Listen(side) => {
            let taken = listen(paper, *model.station(side))?;
            Ok(model.store(paper, side, taken))
        }
        Event::Abort(side) => {
            let taken = abort(paper, *model.station(side))?;
            Ok(model.store(paper, side, taken))
        }
        Event::Resend(side) => {
            let taken = resend(paper, *model.station(side))?;
            Ok(model.store(paper, side, taken))
        }
        Event::PowerCut(side) => {
            let taken = power_cut(paper, *model.station(side))?;
            Ok(model.store(paper, side, taken))
        }
        Event::Deliver(side, place, fresh) => deliver(paper, model, side, place, fresh),
        Event::Copy(side, place) => copy(paper, model, side, place),
        Event::Lose(side, place) => lose(paper, model, side, place),
    }
}

/// "Deliver place n (it leaves the link, those behind move up)." "A model
/// delivery 9, then 5, then 6"; "one that is refused stays on its link".
fn deliver(
    paper: &Paper,
    model: &mut Model,
    side: Side,
    place: u64,
    fresh: u32,
) -> Result<Told, u8> {
    let segment = model.link_to(side).at(place)?;
    let taken = match arrive(paper, *model.station(side), segment, fresh) {
        Ok(taken) => taken,
        Err(number) => {
            if paper.is(Wrong::RefusedLeaves) {
                model.link_to_mut(side).remove(place);
            }
            return Err(number);
        }
    };
    model.link_to_mut(side).remove(place);
    Ok(model.store(paper, side, taken))
}

const NOTHING_SENT: Told = Told { sent: None, drawn: false, turned: false };

/// "Copy place n to the end." Refusal 11: "copy onto a full link (9 first)".
fn copy(paper: &Paper, model: &mut Model, side: Side, place: u64) -> Result<Told, u8> {
    let link = model.link_to_mut(side);
    if paper.is(Wrong::FullBeforePlace) && link.full() {
        return Err(11);
    }
    let segment = link.at(place)?;
    if link.full() {
        return Err(11);
    }
    if paper.is(Wrong::CopyMoves) {
        link.remove(place);
    }
    link.push(segment);
    Ok(NOTHING_SENT)
}

/// "Lose place n."
fn lose(paper: &Paper, model: &mut Model, side: Side, place: u64) -> Result<Told, u8> {
    let link = model.link_to_mut(side);
    link.at(place)?;
    if paper.is(Wrong::LoseSwaps) {
        let last = link.count as usize - 1;
        link.places[place as usize] = link.places[last];
        link.count -= 1;
        return Ok(NOTHING_SENT);
    }
    link.remove(place);
    Ok(NOTHING_SENT)
}

/// "A list has up to 4,096 events. A refused event changes nothing and the
/// next is tried." Refusals 1, then 12, and then nothing is played.
pub fn play(paper: &Paper, model: &mut Model, events: &[Event]) -> Result<Totals, u8> {
    test_1(paper, model)?;
    if events.len() > 4_096 || (paper.is(Wrong::ListShort) && events.len() == 4_096) {
        return Err(12);
    }
    let mut totals = Totals::default();
    for event in events {
        match step(paper, model, *event) {
            Ok(told) => {
                totals.taken += 1;
                if told.turned && !paper.is(Wrong::TurnedUncounted) {
                    totals.turned += 1;
                }
            }
            Err(_) => totals.refused += 1,
        }
    }
    Ok(totals)
}
