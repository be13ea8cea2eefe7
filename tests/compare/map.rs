//! The two sides' types, each put into the other's.
//!
//! The rules of the boundary that 01 does not have live here and in `lists`,
//! above the independent side, which only knows 01.

use crate::tabor;
use paper::State;

/// `None` where the record has a state or a mark that is none: the boundary
/// answers those with refusal 1, and the independent side cannot hold them.
pub fn record(r: &tabor::Record) -> Option<paper::Record> {
    if r.passive > 1 {
        return None;
    }
    Some(paper::Record {
        state: State::from_number(r.state)?,
        passive: r.passive == 1,
        iss: r.iss,
        una: r.una,
        nxt: r.nxt,
        irs: r.irs,
        rcvnxt: r.rcvnxt,
        rcvwnd: r.rcvwnd,
        own: r.own,
        ownport: r.ownport,
        peer: r.peer,
        peerport: r.peerport,
    })
}

pub fn record_back(r: &paper::Record) -> tabor::Record {
    tabor::Record {
        state: r.state.number(),
        passive: r.passive as u8,
        iss: r.iss,
        una: r.una,
        nxt: r.nxt,
        irs: r.irs,
        rcvnxt: r.rcvnxt,
        rcvwnd: r.rcvwnd,
        own: r.own,
        ownport: r.ownport,
        peer: r.peer,
        peerport: r.peerport,
    }
}

pub fn header(h: &tabor::Header) -> paper::Header {
    paper::Header {
        source: h.source,
        destination: h.destination,
        seq: h.seq,
        ack: h.ack,
        control: h.control,
        window: h.window,
        urgent: h.urgent,
    }
}

pub fn header_back(h: &paper::Header) -> tabor::Header {
    tabor::Header {
        source: h.source,
        destination: h.destination,
        seq: h.seq,
        ack: h.ack,
        control: h.control,
        window: h.window,
        urgent: h.urgent,
    }
}

pub fn segment(g: &tabor::Segment) -> paper::Segment {
    paper::Segment {
        header: header(&g.header),
        src: g.src,
        dst: g.dst,
        text: g.text,
    }
}

pub fn segment_back(g: &paper::Segment) -> tabor::Segment {
    tabor::Segment {
        header: header_back(&g.header),
        src: g.src,
        dst: g.dst,
        text: g.text,
    }
}

/// What a refused call tells: the record that came in, and zero.
pub fn refused(came_in: tabor::Record, refusal: u8) -> tabor::Told {
    tabor::Told {
        next: came_in,
        refusal,
        ..tabor::Told::default()
    }
}

/// What a call tells, from what the independent side says of it.
pub fn told(came_in: tabor::Record, answer: Result<paper::Taken, u8>) -> tabor::Told {
    match answer {
        Err(refusal) => refused(came_in, refusal),
        Ok(taken) => tabor::Told {
            next: record_back(&taken.next),
            segment: taken.sent.as_ref().map(segment_back).unwrap_or_default(),
            refusal: 0,
            sent: taken.sent.is_some() as u8,
            drawn: taken.drawn as u8,
        },
    }
}

/// Only the slots that count go over: what lies past the count is no
/// business of the independent side.
fn link(link: &tabor::Link) -> paper::Link {
    let mut to = paper::Link::empty();
    to.count = link.count as u64;
    for i in 0..link.count.min(32) {
        to.places[i] = segment(&link.slots[i]);
    }
    to
}

pub fn model(m: &tabor::Model) -> Option<paper::Model> {
    Some(paper::Model {
        a: record(&m.a)?,
        b: record(&m.b)?,
        toa: link(&m.toa),
        tob: link(&m.tob),
    })
}
