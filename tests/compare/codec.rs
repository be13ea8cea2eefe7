//! A case as octets, and octets as hexadecimal, so that a difference can be
//! repeated from a command line.

use crate::tabor::{Header, Link, Model, Record, Segment};

#[derive(Default)]
pub struct Put(pub Vec<u8>);

impl Put {
    pub fn u8(&mut self, n: u8) -> &mut Put {
        self.0.push(n);
        self
    }

    pub fn u16(&mut self, n: u16) -> &mut Put {
        self.octets(&n.to_be_bytes())
    }

    pub fn u32(&mut self, n: u32) -> &mut Put {
        self.octets(&n.to_be_bytes())
    }

    pub fn octets(&mut self, octets: &[u8]) -> &mut Put {
        self.0.extend_from_slice(octets);
        self
    }

    /// Octets with their size in front, for those that are not the last part.
    pub fn sized(&mut self, octets: &[u8]) -> &mut Put {
        self.u32(octets.len() as u32).octets(octets)
    }

    pub fn header(&mut self, h: &Header) -> &mut Put {
        self.u16(h.source).u16(h.destination).u32(h.seq).u32(h.ack);
        self.u8(h.control).u16(h.window).u16(h.urgent)
    }

    pub fn segment(&mut self, g: &Segment) -> &mut Put {
        self.header(&g.header).u32(g.src).u32(g.dst).u32(g.text)
    }

    pub fn record(&mut self, r: &Record) -> &mut Put {
        self.u8(r.state).u8(r.passive);
        self.u32(r.iss)
            .u32(r.una)
            .u32(r.nxt)
            .u32(r.irs)
            .u32(r.rcvnxt)
            .u16(r.rcvwnd);
        self.u32(r.own).u16(r.ownport).u32(r.peer).u16(r.peerport)
    }

    /// All 32 slots: those past the count are part of a case too.
    pub fn link(&mut self, link: &Link) -> &mut Put {
        self.octets(&(link.count as u64).to_be_bytes());
        for slot in &link.slots {
            self.segment(slot);
        }
        self
    }

    pub fn model(&mut self, m: &Model) -> &mut Put {
        self.record(&m.a).record(&m.b).link(&m.toa).link(&m.tob)
    }
}

/// Reads what `Put` wrote; `None` where octets are missing.
pub struct Take<'a>(pub &'a [u8]);

impl<'a> Take<'a> {
    pub fn octets(&mut self, n: usize) -> Option<&'a [u8]> {
        if n > self.0.len() {
            return None;
        }
        let (front, rest) = self.0.split_at(n);
        self.0 = rest;
        Some(front)
    }

    pub fn rest(&mut self) -> Vec<u8> {
        std::mem::take(&mut self.0).to_vec()
    }

    pub fn u8(&mut self) -> Option<u8> {
        Some(self.octets(1)?[0])
    }

    pub fn u16(&mut self) -> Option<u16> {
        Some(u16::from_be_bytes(self.octets(2)?.try_into().ok()?))
    }

    pub fn u32(&mut self) -> Option<u32> {
        Some(u32::from_be_bytes(self.octets(4)?.try_into().ok()?))
    }

    pub fn u64(&mut self) -> Option<u64> {
        Some(u64::from_be_bytes(self.octets(8)?.try_into().ok()?))
    }

    pub fn sized(&mut self) -> Option<Vec<u8>> {
        let n = self.u32()? as usize;
        Some(self.octets(n)?.to_vec())
    }

    pub fn header(&mut self) -> Option<Header> {
        Some(Header {
            source: self.u16()?,
            destination: self.u16()?,
            seq: self.u32()?,
            ack: self.u32()?,
            control: self.u8()?,
            window: self.u16()?,
            urgent: self.u16()?,
        })
    }

    pub fn segment(&mut self) -> Option<Segment> {
        Some(Segment {
            header: self.header()?,
            src: self.u32()?,
            dst: self.u32()?,
            text: self.u32()?,
        })
    }

    pub fn record(&mut self) -> Option<Record> {
        Some(Record {
            state: self.u8()?,
            passive: self.u8()?,
            iss: self.u32()?,
            una: self.u32()?,
            nxt: self.u32()?,
            irs: self.u32()?,
            rcvnxt: self.u32()?,
            rcvwnd: self.u16()?,
            own: self.u32()?,
            ownport: self.u16()?,
            peer: self.u32()?,
            peerport: self.u16()?,
        })
    }

    pub fn link(&mut self) -> Option<Link> {
        let mut link = Link {
            count: self.u64()? as usize,
            ..Link::default()
        };
        for slot in link.slots.iter_mut() {
            *slot = self.segment()?;
        }
        Some(link)
    }

    pub fn model(&mut self) -> Option<Model> {
        Some(Model {
            a: self.record()?,
            b: self.record()?,
            toa: self.link()?,
            tob: self.link()?,
        })
    }
}

/// Hexadecimal; a run of more than four equal octets is written `00*123.`,
/// because shrunk cases are mostly zeroes and a command line is not endless.
pub fn to_hex(octets: &[u8]) -> String {
    let mut hex = String::new();
    let mut at = 0;
    while at < octets.len() {
        let run = octets[at..].iter().take_while(|o| **o == octets[at]).count();
        if run > 4 {
            hex.push_str(&format!("{:02x}*{}.", octets[at], run));
            at += run;
        } else {
            hex.push_str(&format!("{:02x}", octets[at]));
            at += 1;
        }
    }
    hex
}

pub fn from_hex(hex: &str) -> Option<Vec<u8>> {
    let mut octets = Vec::new();
    let mut rest = hex.trim();
    while !rest.is_empty() {
        let octet = u8::from_str_radix(rest.get(..2)?, 16).ok()?;
        rest = &rest[2..];
        let mut run = 1;
        if let Some(counted) = rest.strip_prefix('*') {
            let (count, after) = counted.split_once('.')?;
            run = count.parse::<usize>().ok().filter(|n| *n <= 1 << 24)?;
            rest = after;
        }
        octets.resize(octets.len() + run, octet);
    }
    Some(octets)
}
