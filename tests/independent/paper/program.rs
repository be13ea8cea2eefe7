//! The program: back-to-back IPv4 datagrams in, datagrams out.

use crate::octets::{fold, four, two, write_header, Segment};
use crate::station::{arrive_octets, Record, State};
use crate::wrong::{Paper, Wrong};

/// "It reads up to 65,535 octets."
pub const LIMIT: usize = 65_535;

/// "Station: 10.0.0.2 port 2000, peer 10.0.0.1 port 1024, window 4,096, in
/// LISTEN."
pub const STATION: Record = Record {
    state: State::Listen,
    passive: true,
    iss: 0,
    una: 0,
    nxt: 0,
    irs: 0,
    rcvnxt: 0,
    rcvwnd: 4_096,
    own: 0x0a00_0002,
    ownport: 2_000,
    peer: 0x0a00_0001,
    peerport: 1_024,
};

/// The program on its way: the station, how many numbers it has drawn, and
/// the octets written so far.
#[derive(Clone, Debug)]
pub struct Barn {
    pub paper: Paper,
    pub station: Record,
    pub drawn: u32,
    pub out: Vec<u8>,
}

impl Barn {
    pub fn new(paper: &Paper) -> Barn {
        Barn { paper: *paper, station: STATION, drawn: 0, out: Vec::new() }
    }

    /// "The k-th number drawn is 65,536 times k": the number offered now.
    pub fn fresh(&self) -> u32 {
        let k = self.drawn.wrapping_add(1);
        if self.paper.is(Wrong::NotSpaced) {
            return k;
        }
        k.wrapping_mul(65_536)
    }

    /// The datagram at the front of `rest`. Tells how many octets it had, or
    /// none where the program stops: "at a version other than 4, an IP header
    /// length below 5 words, a total length below the header's or above
    /// 1,500, or missing octets".
    pub fn datagram(&mut self, rest: &[u8]) -> Option<usize> {
        if rest.len() < 20 {
            return None;
        }
        let version = rest[0] >> 4;
        let header = (rest[0] & 0x0f) as usize * 4;
        let total = two(rest, 2) as usize;
        if version != 4 || header < 20 || total < header {
            return None;
        }
        if total > 1_500 && !self.paper.is(Wrong::LongDatagram) {
            return None;
        }
        if total > rest.len() {
            return None;
        }
        if !self.taken(&rest[..total], header) && self.paper.is(Wrong::RefusedStops) {
            return None;
        }
        Some(total)
    }

    /// "A refused datagram, or a protocol other than 6, is skipped; IP
    /// checksum and fragments are not examined." Tells if not refused.
    fn taken(&mut self, datagram: &[u8], header: usize) -> bool {
        let paper = self.paper;
        if datagram[9] != 6 && !paper.is(Wrong::ProtocolUnseen) {
            return true;
        }
        if paper.is(Wrong::FragmentsSkipped) && two(datagram, 6) & 0x3fff != 0 {
            return true;
        }
        let begin = if paper.is(Wrong::IpOptionsUnseen) { 20 } else { header };
        let (src, dst) = (four(datagram, 12), four(datagram, 16));
        let tcp = &datagram[begin..];
        let fresh = self.fresh();
        if paper.is(Wrong::AlwaysDrawn) {
            self.drawn += 1;
        }
        match arrive_octets(&paper, self.station, src, dst, tcp, fresh) {
            Err(_) => false,
            Ok(taken) => {
                self.station = taken.next;
                if taken.drawn && !paper.is(Wrong::AlwaysDrawn) {
                    self.drawn += 1;
                }
                if let Some(segment) = taken.sent {
                    self.out.extend_from_slice(&written(&paper, &segment));
                }
                true
            }
        }
    }
}

/// "Each sent segment is written as a datagram: type 0, identification 0, DF
/// on, TTL 64, checksum."
fn written(paper: &Paper, segment: &Segment) -> [u8; 40] {
    let mut datagram = [0u8; 40];
    datagram[0] = 0x45;
    datagram[3] = 40;
    datagram[6] = 0x40;
    datagram[8] = 64;
    datagram[9] = 6;
    datagram[12..16].copy_from_slice(&segment.src.to_be_bytes());
    datagram[16..20].copy_from_slice(&segment.dst.to_be_bytes());
    let sum = ip_checksum(&datagram[..20]);
    datagram[10..12].copy_from_slice(&sum.to_be_bytes());
    write_header(paper, segment.src, segment.dst, segment.header, &mut datagram[20..])
        .expect("a segment sent has no FIN, and 20 octets are there");
    datagram
}

/// RFC 791: "the 16 bit one's complement of the one's complement sum of all
/// 16 bit words in the header", the checksum itself as zero.
pub fn ip_checksum(header: &[u8]) -> u16 {
    let mut total = 0u64;
    let mut at = 0;
    while at + 1 < header.len() {
        if at != 10 {
            total += two(header, at) as u64;
        }
        at += 2;
    }
    65_535 - fold(total)
}

/// The whole program: what is written to standard output for this input.
pub fn program(paper: &Paper, input: &[u8]) -> Vec<u8> {
    let mut read = &input[..input.len().min(LIMIT)];
    if paper.is(Wrong::ReadsOn) {
        read = input;
    }
    let mut barn = Barn::new(paper);
    let mut place = 0;
    while let Some(octets) = barn.datagram(&read[place..]) {
        place += octets;
    }
    barn.out
}
