//! How a stray is made: octets that have no business with our connection. Where it can be, they are such that
//! an end which does not look closely takes them: they have the numbers that the end waits for, in each kind
//! of segment.

use crate::wire::{hex, ip_around, ip_summed, octets_sum, tcp_summed, End, ACK, IP_SIZE, RST, SYN, TCP};
use std::fmt;

pub const ICMP: u8 = 1;
pub const UDP: u8 = 17;
/// A protocol for experiments, which nobody has.
pub const UNKNOWN: u8 = 253;
/// The option of the IP header that does nothing.
pub const NOP: u8 = 1;

/// Kinds of segment: one of them is acceptable in each state that accepts any.
pub const KINDS: [u8; 4] = [SYN, SYN | ACK, ACK, RST | ACK];

/// Octets, and what becomes of them.
pub struct Stray<T> {
    pub name: String,
    pub octets: Vec<u8>,
    pub then: T,
}

pub fn stray<T>(name: impl Into<String>, octets: Vec<u8>, then: T) -> Stray<T> {
    Stray { name: name.into(), octets, then }
}

impl<T> fmt::Display for Stray<T> {
    fn fmt(&self, f: &mut fmt::Formatter) -> fmt::Result {
        write!(f, "{} ({})", self.name, hex(&self.octets))
    }
}

/// Where a stray would go if it had any business there: the ends of the connection, from the sender's to the
/// receiver's, and the numbers that the receiver waits for.
#[derive(Clone, Copy)]
pub struct Aim {
    pub from: End,
    pub to: End,
    pub seq: u32,
    pub ack: u32,
}

impl Aim {
    /// A segment with text, its checksum right.
    pub fn segment(&self, control: u8, text: &[u8]) -> Vec<u8> {
        let mut tcp = [self.from.1.to_be_bytes(), self.to.1.to_be_bytes()].concat();
        tcp.extend(self.seq.to_be_bytes());
        tcp.extend(if control & ACK != 0 { self.ack } else { 0 }.to_be_bytes());
        tcp.extend([0x50, control, 0x10, 0, 0, 0, 0, 0]);
        tcp.extend(text);
        self.summed(tcp)
    }

    /// A segment with its checksum written anew.
    pub fn summed(&self, mut tcp: Vec<u8>) -> Vec<u8> {
        tcp_summed(self.from.0, self.to.0, &mut tcp);
        tcp
    }

    pub fn datagram(&self, control: u8) -> Vec<u8> {
        self.around(TCP, &self.segment(control, &[]))
    }

    pub fn around(&self, protocol: u8, part: &[u8]) -> Vec<u8> {
        ip_around(self.from.0, self.to.0, protocol, part)
    }

    /// The other way.
    pub fn back(&self) -> Aim {
        Aim { from: self.to, to: self.from, ..*self }
    }

    /// The same with an end that is not of the connection.
    pub fn astray(&self) -> Vec<(&'static str, Aim)> {
        let (from, to) = (self.from, self.to);
        vec![
            ("another source port", Aim { from: (from.0, from.1 + 1), ..*self }),
            ("another destination port", Aim { to: (to.0, to.1 + 1), ..*self }),
            ("the ports exchanged", Aim { from: (from.0, to.1), to: (to.0, from.1), ..*self }),
            ("another source address", Aim { from: ([10, 0, 0, 3], from.1), ..*self }),
        ]
    }

    /// The same to an address that is not the receiver's.
    pub fn elsewhere(&self) -> Vec<(&'static str, Aim)> {
        vec![
            ("another destination address", Aim { to: ([10, 0, 0, 9], self.to.1), ..*self }),
            ("the ends exchanged", self.back()),
        ]
    }

    /// An echo request.
    pub fn echo(&self) -> Vec<u8> {
        self.around(ICMP, &icmp(8, 0, b"\0\x07\0\x01milk"))
    }

    /// The news that a datagram, of which the first octets come back, has met a port where nobody is.
    pub fn unreachable(&self, datagram: &[u8]) -> Vec<u8> {
        self.around(ICMP, &icmp(3, 3, &[&[0; 4], &datagram[..28]].concat()))
    }

    pub fn udp(&self) -> Vec<u8> {
        self.around(UDP, &udp(self.from.1, self.to.1, b"milk"))
    }

    /// A datagram of UDP in two fragments.
    pub fn udp_in_two(&self, identification: u16) -> [Vec<u8>; 2] {
        let (head, part) = (self.around(UDP, &[]), udp(self.from.1, self.to.1, &[7; 24]));
        let first = fragment(&head, identification, 0, &part[..16], true);
        [first, fragment(&head, identification, 2, &part[16..], false)]
    }
}

/// A datagram with its IP header of 5 words edited and summed again.
pub fn edited(octets: &[u8], edit: impl Fn(&mut [u8])) -> Vec<u8> {
    let mut octets = octets.to_vec();
    edit(&mut octets);
    ip_summed(&mut octets[..IP_SIZE]);
    octets
}

/// Octets with some bits of one of them turned over.
pub fn damaged(octets: &[u8], at: usize, bits: u8) -> Vec<u8> {
    let mut octets = octets.to_vec();
    octets[at] ^= bits;
    octets
}

/// A datagram with octets of options in its IP header, whole words of them.
pub fn with_options(octets: &[u8], options: &[u8]) -> Vec<u8> {
    let head = IP_SIZE + options.len();
    let mut all = [&octets[..IP_SIZE], options, &octets[IP_SIZE..]].concat();
    all[0] = 0x40 | (head / 4) as u8;
    let total = all.len() as u16;
    all[2..4].copy_from_slice(&total.to_be_bytes());
    ip_summed(&mut all[..head]);
    all
}

/// A part of a datagram as a fragment: so many units of 8 octets before it, and more behind it or not.
pub fn fragment(octets: &[u8], identification: u16, units: u16, part: &[u8], more: bool) -> Vec<u8> {
    let fragment = [&octets[..IP_SIZE], part].concat();
    let (total, field) = (fragment.len() as u16, units | (more as u16) << 13);
    edited(&fragment, |o| {
        o[2..4].copy_from_slice(&total.to_be_bytes());
        o[4..6].copy_from_slice(&identification.to_be_bytes());
        o[6..8].copy_from_slice(&field.to_be_bytes());
    })
}

fn icmp(kind: u8, code: u8, rest: &[u8]) -> Vec<u8> {
    let mut part = [&[kind, code, 0, 0], rest].concat();
    let checksum = 0xffff - octets_sum(&part);
    part[2..4].copy_from_slice(&checksum.to_be_bytes());
    part
}

/// Without a checksum, which UDP allows.
fn udp(from: u16, to: u16, text: &[u8]) -> Vec<u8> {
    let size = (8 + text.len()) as u16;
    [&from.to_be_bytes(), &to.to_be_bytes(), &size.to_be_bytes(), &[0, 0], text].concat()
}
