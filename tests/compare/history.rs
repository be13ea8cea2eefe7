//! A history of two stations, and the claims of demand 3 about it.

use crate::lists::encode;
use crate::map;
use crate::tabor::{self, Model, Record};
use paper::{Event, Paper, Side};

/// The endpoints of every history: A's and B's mirror each other.
fn closed(window: u16, own: (u32, u16), peer: (u32, u16)) -> Record {
    Record {
        rcvwnd: window,
        own: own.0,
        ownport: own.1,
        peer: peer.0,
        peerport: peer.1,
        ..Record::default()
    }
}

/// Two closed stations with mirrored endpoints and empty links.
pub fn two_closed(windows: [u16; 2]) -> Model {
    let (a, b) = ((0x0a00_0001, 1024), (0x0a00_0002, 2000));
    Model {
        a: closed(windows[0], a, b),
        b: closed(windows[1], b, a),
        ..Model::default()
    }
}

/// What a claim needs to know of a station.
#[derive(Clone, Copy, PartialEq, Eq)]
pub struct End {
    pub state: u8,
    pub iss: u32,
    pub irs: u32,
}

pub const CLOSED: u8 = 0;
pub const LISTEN: u8 = 1;
pub const SYN_RECEIVED: u8 = 3;
pub const ESTABLISHED: u8 = 4;

impl End {
    /// It has taken a number of its peer's.
    fn has_met(&self) -> bool {
        self.state >= SYN_RECEIVED
    }
}

/// Taken or refused, and the number that was drawn.
pub struct Step {
    pub taken: bool,
    pub drawn: Option<u32>,
}

/// Somebody who plays events: the proved player, or the independent one with
/// a rule made wrong.
pub trait Player: Clone {
    fn play(&mut self, event: &Event) -> Step;
    fn end(&self, side: Side) -> End;
    /// Segments on the link to this side.
    fn count(&self, side: Side) -> usize;
}

pub fn side_number(side: Side) -> usize {
    (side == Side::B) as usize
}

// ---- the proved player

#[derive(Clone)]
pub struct Proved(pub Model);

impl Player for Proved {
    /// One event offered alone. By 01 "only an open that is taken and a LISTEN
    /// that takes a SYN" draws; what the library tells is held to that.
    fn play(&mut self, event: &Event) -> Step {
        let stepped = tabor::step(self.0, &encode(event, 0));
        assert!(
            stepped.refusal != 1 && stepped.refusal != tabor::NO_LIST,
            "a model of a history was refused with {}",
            stepped.refusal
        );
        let before = self.clone();
        self.0 = stepped.model;
        let taken = stepped.refusal == 0;
        let drawn = match *event {
            Event::Open(_, n) if taken => Some(n),
            Event::Deliver(side, _, n)
                if before.end(side).state == LISTEN && self.end(side).state == SYN_RECEIVED =>
            {
                Some(n)
            }
            _ => None,
        };
        assert!(
            drawn.is_some() == (stepped.drawn == 1),
            "a number is drawn, or none, as 01 says"
        );
        Step { taken, drawn }
    }

    fn end(&self, side: Side) -> End {
        let r = if side == Side::A { &self.0.a } else { &self.0.b };
        End {
            state: r.state,
            iss: r.iss,
            irs: r.irs,
        }
    }

    fn count(&self, side: Side) -> usize {
        if side == Side::A {
            self.0.toa.count
        } else {
            self.0.tob.count
        }
    }
}

// ---- the independent player, with a rule made wrong

#[derive(Clone)]
pub struct ByPaper {
    pub paper: Paper,
    pub model: paper::Model,
}

impl ByPaper {
    pub fn new(paper: Paper, start: &Model) -> ByPaper {
        ByPaper {
            paper,
            model: map::model(start).expect("two closed stations are a model"),
        }
    }
}

impl Player for ByPaper {
    fn play(&mut self, event: &Event) -> Step {
        match paper::step(&self.paper, &mut self.model, *event) {
            Err(_) => Step {
                taken: false,
                drawn: None,
            },
            Ok(told) => {
                let number = match *event {
                    Event::Open(_, n) | Event::Deliver(_, _, n) => Some(n),
                    _ => None,
                };
                Step {
                    taken: true,
                    drawn: number.filter(|_| told.drawn),
                }
            }
        }
    }

    fn end(&self, side: Side) -> End {
        let r = self.model.station(side);
        End {
            state: r.state.number(),
            iss: r.iss,
            irs: r.irs,
        }
    }

    fn count(&self, side: Side) -> usize {
        self.model.link_to(side).count as usize
    }
}

// ---- what happened so far

/// Numbers drawn by each station, and which number of its peer's each had
/// recorded under which number of its own.
#[derive(Clone, Default)]
pub struct History {
    pub drawn: [Vec<u32>; 2],
    pub met: [Vec<(u32, u32)>; 2],
}

/// What can be broken. The first three are demand 3; the last is 01's remark
/// on keeping ISS, "one number then meets two peers".
#[derive(Clone, Copy, PartialEq, Eq, Debug)]
pub enum Claim {
    PeersNumber,
    BothAgree,
    NineSteps,
    OnePeer,
}

pub const CLAIMS: [Claim; 4] = [
    Claim::PeersNumber,
    Claim::BothAgree,
    Claim::NineSteps,
    Claim::OnePeer,
];

impl Claim {
    pub fn name(self) -> &'static str {
        match self {
            Claim::PeersNumber => "S1",
            Claim::BothAgree => "S2",
            Claim::NineSteps => "nine steps",
            Claim::OnePeer => "one number, one peer",
        }
    }
}

pub struct Broken {
    pub claim: Claim,
    pub how: String,
}

/// At least 65,536 apart, either way round the circle.
pub fn spaced(n: u32, from: u32) -> bool {
    let ahead = n.wrapping_sub(from);
    ahead.min(ahead.wrapping_neg()) >= 65_536
}

impl History {
    /// One event played and written down.
    pub fn play<P: Player>(&mut self, player: &mut P, event: &Event) -> Step {
        let step = player.play(event);
        if let Some(n) = step.drawn {
            let side = match *event {
                Event::Open(side, _) | Event::Deliver(side, ..) => side,
                _ => unreachable!("only these two draw"),
            };
            self.drawn[side_number(side)].push(n);
        }
        for side in [Side::A, Side::B] {
            let end = player.end(side);
            let met = &mut self.met[side_number(side)];
            if end.has_met() && met.last() != Some(&(end.iss, end.irs)) {
                met.push((end.iss, end.irs));
            }
        }
        step
    }

    /// The history keeps the spacing of demand 3, or at least has no number twice.
    pub fn keeps(&self, apart: fn(u32, u32) -> bool) -> bool {
        self.drawn.iter().all(|d| {
            d.iter()
                .enumerate()
                .all(|(i, n)| d[..i].iter().all(|m| apart(*n, *m)))
        })
    }

    /// The claims that are looked at, after an event.
    pub fn check<P: Player>(&self, player: &P, look_at: &[Claim]) -> Option<Broken> {
        let ends = [player.end(Side::A), player.end(Side::B)];
        let checks: [(Claim, fn(&History, &[End; 2]) -> Option<String>); 3] = [
            (Claim::PeersNumber, History::peers_number),
            (Claim::BothAgree, History::both_agree),
            (Claim::OnePeer, History::one_peer),
        ];
        for (claim, check) in checks {
            if look_at.contains(&claim) {
                if let Some(how) = check(self, &ends) {
                    return Some(Broken { claim, how });
                }
            }
        }
        None
    }

    /// S1: an established station holds as its peer's number one which that
    /// peer drew, and under which the peer had recorded this station's current
    /// number. The newest are looked at first: that is where they mostly are.
    fn peers_number(&self, ends: &[End; 2]) -> Option<String> {
        for (me, name) in [(0, "A"), (1, "B")] {
            let end = ends[me];
            let peer_drew = self.drawn[1 - me].iter().rev().any(|n| *n == end.irs);
            let peer_met = self.met[1 - me].iter().rev().any(|m| *m == (end.irs, end.iss));
            if end.state == ESTABLISHED && !(peer_drew && peer_met) {
                return Some(s1_words(name, end, peer_drew));
            }
        }
        None
    }

    /// S2: if both are established, each holds the other's current number.
    fn both_agree(&self, ends: &[End; 2]) -> Option<String> {
        let [a, b] = ends;
        let both = a.state == ESTABLISHED && b.state == ESTABLISHED;
        if both && (a.irs != b.iss || b.irs != a.iss) {
            let (on, with) = (a.iss, a.irs);
            return Some(format!(
                "both established, A on {on} with {with}, B on {} with {}",
                b.iss, b.irs
            ));
        }
        None
    }

    /// Not of demand 3: a number drawn meets one number of the peer's only.
    fn one_peer(&self, ends: &[End; 2]) -> Option<String> {
        for (me, name) in [(0, "A"), (1, "B")] {
            let end = ends[me];
            if end.has_met() && self.met[me].iter().any(|m| m.0 == end.iss && m.1 != end.irs) {
                return Some(format!(
                    "{name}'s number {} has met two numbers of its peer",
                    end.iss
                ));
            }
        }
        None
    }
}

fn s1_words(name: &str, end: End, peer_drew: bool) -> String {
    let what = if peer_drew {
        "under which its peer never recorded that number"
    } else {
        "which its peer never drew"
    };
    format!(
        "{name} is established on {} and holds {}, {what}",
        end.iss, end.irs
    )
}
