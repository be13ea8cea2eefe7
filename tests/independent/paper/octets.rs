//! Octets of a segment: the fixed header read and written, and the checksum.

use crate::wrong::{Paper, Wrong};

// "8 control bits (CWR, ECE, URG, ACK, PSH, RST, SYN, FIN, high to low)"
pub const CWR: u8 = 0x80;
pub const ECE: u8 = 0x40;
pub const URG: u8 = 0x20;
pub const ACK: u8 = 0x10;
pub const PSH: u8 = 0x08;
pub const RST: u8 = 0x04;
pub const SYN: u8 = 0x02;
pub const FIN: u8 = 0x01;

/// A header's fields; header length, reserved bits and checksum are not kept.
#[derive(Clone, Copy, PartialEq, Eq, Debug, Default)]
pub struct Header {
    pub source: u16,
    pub destination: u16,
    pub seq: u32,
    pub ack: u32,
    pub control: u8,
    pub window: u16,
    pub urgent: u16,
}

impl Header {
    /// Is this control bit on?
    pub fn on(&self, bit: u8) -> bool {
        self.control & bit != 0
    }
}

/// "Each is a header's fields, two addresses and a length of text."
#[derive(Clone, Copy, PartialEq, Eq, Debug, Default)]
pub struct Segment {
    pub header: Header,
    pub src: u32,
    pub dst: u32,
    pub text: u32,
}

pub fn two(octets: &[u8], at: usize) -> u16 {
    u16::from_be_bytes([octets[at], octets[at + 1]])
}

pub fn four(octets: &[u8], at: usize) -> u32 {
    u32::from_be_bytes([octets[at], octets[at + 1], octets[at + 2], octets[at + 3]])
}

/// "Carries beyond 16 bits are added back in until none are left."
pub fn fold(mut total: u64) -> u16 {
    while total > 0xffff {
        total = (total >> 16) + (total & 0xffff);
    }
    total as u16
}

/// "Add as 16-bit words the two addresses, 6, the TCP length, and all octets",
/// the checksum's two octets counted or taken as zero.
fn total(paper: &Paper, src: u32, dst: u32, octets: &[u8], counted: bool) -> u16 {
    let length = octets.len() as u64;
    let mut total: u64 = 0;
    total += (src >> 16) as u64 + (src & 0xffff) as u64;
    total += (dst >> 16) as u64 + (dst & 0xffff) as u64;
    total += 6;
    total += (length >> 16) + (length & 0xffff);
    let mut at = 0;
    while at < octets.len() {
        if at == 16 && !counted {
            // the checksum as zero
        } else if at + 1 < octets.len() {
            total += two(octets, at) as u64;
        } else if paper.is(Wrong::OddOctetLow) {
            total += octets[at] as u64;
        } else {
            // "an odd last octet is padded with a zero"
            total += (octets[at] as u64) << 8;
        }
        at += 2;
    }
    fold(total)
}

/// "The checksum is 65,535 minus that", the sum with the checksum as zero.
pub fn checksum(src: u32, dst: u32, octets: &[u8]) -> u16 {
    65_535 - total(&Paper::RIGHT, src, dst, octets, false)
}

/// "The same sum with the checksum counted."
pub fn sum(src: u32, dst: u32, octets: &[u8]) -> u16 {
    total(&Paper::RIGHT, src, dst, octets, true)
}

/// "A reader accepts when the same sum with the checksum counted is 65,535."
/// Only asked of 20 octets or more.
pub(crate) fn checksum_right(paper: &Paper, src: u32, dst: u32, octets: &[u8]) -> bool {
    if paper.is(Wrong::FfffRefused) {
        return two(octets, 16) == 65_535 - total(paper, src, dst, octets, false);
    }
    if paper.is(Wrong::ZeroAbsent) && two(octets, 16) == 0 {
        return true;
    }
    total(paper, src, dst, octets, true) == 65_535
}

/// Refusal 2: "fewer than 20 or more than 65,515 octets".
pub(crate) fn test_2(octets: &[u8]) -> Result<(), u8> {
    if octets.len() < 20 || octets.len() > 65_515 {
        return Err(2);
    }
    Ok(())
}

/// Refusal 3: "header length below 5 words or beyond the octets". Otherwise
/// the header's length in octets is told.
pub(crate) fn test_3(paper: &Paper, octets: &[u8]) -> Result<usize, u8> {
    let words = (octets[12] >> 4) as usize;
    if words < 5 || words * 4 > octets.len() {
        return Err(3);
    }
    if paper.is(Wrong::ReservedRefused) && octets[12] & 0x0f != 0 {
        return Err(3);
    }
    Ok(words * 4)
}

/// Refusal 4: "checksum wrong".
pub(crate) fn test_4(paper: &Paper, src: u32, dst: u32, octets: &[u8]) -> Result<(), u8> {
    if !checksum_right(paper, src, dst, octets) {
        return Err(4);
    }
    Ok(())
}

/// Refusal 6: "FIN on, or text present".
pub(crate) fn test_6(paper: &Paper, header: &Header, text: u32) -> Result<(), u8> {
    if header.on(FIN) {
        return Err(6);
    }
    if text != 0 && !paper.is(Wrong::TextRead) {
        return Err(6);
    }
    Ok(())
}

/// "In order, high octet first." Option octets and reserved bits are skipped.
pub(crate) fn fields(octets: &[u8]) -> Header {
    Header {
        source: two(octets, 0),
        destination: two(octets, 2),
        seq: four(octets, 4),
        ack: four(octets, 8),
        control: octets[13],
        window: two(octets, 14),
        urgent: two(octets, 18),
    }
}

/// The fields and the length of text, after refusals 2, 3, 4.
pub(crate) fn read_segment(
    paper: &Paper,
    src: u32,
    dst: u32,
    octets: &[u8],
) -> Result<Segment, u8> {
    test_2(octets)?;
    if paper.is(Wrong::ChecksumBeforeLength) {
        test_4(paper, src, dst, octets)?;
    }
    let length = test_3(paper, octets)?;
    test_4(paper, src, dst, octets)?;
    Ok(Segment { header: fields(octets), src, dst, text: (octets.len() - length) as u32 })
}

/// "A header read 2, 3, 4, 6."
pub fn read_header(paper: &Paper, src: u32, dst: u32, octets: &[u8]) -> Result<Header, u8> {
    let segment = read_segment(paper, src, dst, octets)?;
    test_6(paper, &segment.header, segment.text)?;
    Ok(segment.header)
}

/// "A header write 6 (FIN on), then 10." "A write fills the first 20 octets
/// and no others." "The writer makes 20 octets, length 5", reserved bits zero.
pub fn write_header(
    paper: &Paper,
    src: u32,
    dst: u32,
    header: Header,
    out: &mut [u8],
) -> Result<(), u8> {
    if header.on(FIN) {
        return Err(6);
    }
    if out.len() < 20 {
        return Err(10);
    }
    let mut made = [0u8; 20];
    made[0..2].copy_from_slice(&header.source.to_be_bytes());
    made[2..4].copy_from_slice(&header.destination.to_be_bytes());
    made[4..8].copy_from_slice(&header.seq.to_be_bytes());
    made[8..12].copy_from_slice(&header.ack.to_be_bytes());
    made[12] = if paper.is(Wrong::LengthLow) { 0x05 } else { 0x50 };
    made[13] = header.control;
    made[14..16].copy_from_slice(&header.window.to_be_bytes());
    made[18..20].copy_from_slice(&header.urgent.to_be_bytes());
    if paper.is(Wrong::UrgentDropped) && !header.on(URG) {
        made[18..20].copy_from_slice(&[0, 0]);
    }
    let sum = checksum(src, dst, &made);
    made[16..18].copy_from_slice(&sum.to_be_bytes());
    out[0..20].copy_from_slice(&made);
    if paper.is(Wrong::ClearsOutput) {
        out[20..].fill(0);
    }
    Ok(())
}
