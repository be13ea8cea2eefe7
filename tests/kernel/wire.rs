//! Datagrams as they stand on the wire, read here without the library: what the rig sees must not
//! depend on the code it tests.

use std::fmt;

/// An address and a port.
pub type End = ([u8; 4], u16);

/// The kernel's end, and the station's: peer and station of 01's program.
pub const KERNEL: End = ([10, 0, 0, 1], 1024);
pub const OURS: End = ([10, 0, 0, 2], 2000);

pub const SYN: u8 = 2;
pub const RST: u8 = 4;
pub const ACK: u8 = 16;

pub const IP_SIZE: usize = 20;
pub const TCP: u8 = 6;
const TCP_SIZE: usize = 20;

/// What a segment says: all its control bits and its two numbers.
#[derive(Clone, Copy, Debug, PartialEq, Eq)]
pub struct Said {
    pub control: u8,
    pub seq: u32,
    pub ack: u32,
}

pub fn said(control: u8, seq: u32, ack: u32) -> Said {
    Said { control, seq, ack }
}

impl fmt::Display for Said {
    fn fmt(&self, f: &mut fmt::Formatter) -> fmt::Result {
        write!(f, "{} {}", bits(self.control), self.seq)?;
        // Without ACK the acknowledgment is 0; another one is told too.
        if self.control & ACK != 0 || self.ack != 0 {
            write!(f, " ack {}", self.ack)?;
        }
        Ok(())
    }
}

/// What several segments say.
pub fn in_words(all: &[Said]) -> String {
    let all: Vec<String> = all.iter().map(|said| said.to_string()).collect();
    if all.is_empty() {
        return "nothing".into();
    }
    all.join("; ")
}

/// The control bits by name.
pub fn bits(control: u8) -> String {
    let names = ["FIN", "SYN", "RST", "PSH", "ACK", "URG", "ECE", "CWR"];
    let on: Vec<&str> = (0..8).filter(|bit| control >> bit & 1 == 1).map(|bit| names[bit]).collect();
    if on.is_empty() {
        return "no bits".into();
    }
    on.join(",")
}

/// An IPv4 datagram with a TCP segment: its octets, and what they hold.
#[derive(Clone, Debug, PartialEq, Eq)]
pub struct Datagram {
    pub octets: Vec<u8>,
    pub src: [u8; 4],
    pub dst: [u8; 4],
    pub source: u16,
    pub destination: u16,
    pub said: Said,
    pub window: u16,
    pub urgent: u16,
    pub reserved: u8,
    /// Octets of options.
    pub options: usize,
    /// Octets of text.
    pub text: usize,
}

impl Datagram {
    /// Reads a datagram; None where it is no TCP over IPv4, which the rig has no business with.
    pub fn read(octets: &[u8]) -> Result<Option<Datagram>, String> {
        if octets.len() < IP_SIZE || octets[0] >> 4 != 4 || octets[9] != TCP {
            return Ok(None);
        }
        let head = 4 * (octets[0] & 15) as usize;
        let total = get16(octets, 2) as usize;
        if head < IP_SIZE || total != octets.len() || total < head + TCP_SIZE {
            return Err(format!("a datagram whose lengths do not fit: {}", hex(octets)));
        }
        if ip_sum(&octets[..head]) != 0xffff {
            return Err(format!("a datagram with a wrong IP checksum: {}", hex(octets)));
        }
        let tcp = &octets[head..];
        let words = (tcp[12] >> 4) as usize;
        if words < 5 || 4 * words > tcp.len() {
            return Err(format!("a segment whose header length does not fit: {}", hex(tcp)));
        }
        Ok(Some(Datagram {
            octets: octets.to_vec(),
            src: [octets[12], octets[13], octets[14], octets[15]],
            dst: [octets[16], octets[17], octets[18], octets[19]],
            source: get16(tcp, 0),
            destination: get16(tcp, 2),
            said: said(tcp[13], get32(tcp, 4), get32(tcp, 8)),
            window: get16(tcp, 14),
            urgent: get16(tcp, 18),
            reserved: tcp[12] & 15,
            options: 4 * words - TCP_SIZE,
            text: tcp.len() - 4 * words,
        }))
    }

    /// A segment as a datagram in the way of 01, "The program": type 0, identification 0, DF, TTL 64.
    pub fn around(src: [u8; 4], dst: [u8; 4], tcp: &[u8]) -> Datagram {
        let octets = ip_around(src, dst, TCP, tcp);
        Datagram::read(&octets).expect("whole").expect("TCP over IPv4")
    }

    /// The TCP part.
    pub fn tcp(&self) -> &[u8] {
        &self.octets[self.head()..]
    }

    fn head(&self) -> usize {
        4 * (self.octets[0] & 15) as usize
    }

    pub fn from(&self) -> End {
        (self.src, self.source)
    }

    pub fn to(&self) -> End {
        (self.dst, self.destination)
    }

    /// Whether a reader accepts both checksums: each sum with its checksum counted is 65,535.
    pub fn is_whole(&self) -> bool {
        ip_sum(&self.octets[..self.head()]) == 0xffff && tcp_sum(self.src, self.dst, self.tcp()) == 0xffff
    }

    /// What in a datagram that a station sends is not as 01 has it written, by "The program" (the IP header),
    /// "Octets of a segment" (lengths, reserved bits, checksum) and "Arrival" (the last paragraph, on what is
    /// sent); None where all is.
    pub fn fault(&self, from: End, to: End, window: u16) -> Option<&'static str> {
        let (ip, tcp) = self.octets.split_at(IP_SIZE);
        let reset = self.said.control & RST != 0;
        let sent = [SYN, SYN | ACK, ACK, RST, RST | ACK];
        let faults = [
            (ip[0] != 0x45, "its version or IP header length"),
            (ip[1] != 0, "its type"),
            (get16(ip, 2) as usize != self.octets.len(), "its total length"),
            (get16(ip, 4) != 0, "its identification"),
            (get16(ip, 6) != 0x4000, "its fragment field"),
            (ip[8] != 64, "its TTL"),
            (ip[9] != TCP, "its protocol"),
            (get16(ip, 10) != ip_checksum(ip), "its IP checksum"),
            (self.from() != from || self.to() != to, "its addresses or ports"),
            (tcp.len() != TCP_SIZE || tcp[12] != 0x50, "its header length or reserved bits"),
            (!sent.contains(&self.said.control), "its control bits"),
            (self.said.control & ACK == 0 && self.said.ack != 0, "its acknowledgment without ACK"),
            (self.window != if reset { 0 } else { window }, "its window"),
            (get16(tcp, 16) != tcp_checksum(self.src, self.dst, tcp), "its TCP checksum"),
            (self.urgent != 0, "its urgent pointer"),
        ];
        faults.into_iter().find(|(is, _)| *is).map(|(_, what)| what)
    }
}

impl fmt::Display for Datagram {
    fn fmt(&self, f: &mut fmt::Formatter) -> fmt::Result {
        write!(f, "{} > {}: {} window {}", shown(self.from()), shown(self.to()), self.said, self.window)?;
        if self.options != 0 {
            write!(f, ", {} octets of options", self.options)?;
        }
        if self.text != 0 {
            write!(f, ", {} octets of text", self.text)?;
        }
        Ok(())
    }
}

/// An end as text; the port is told where it is none of the two.
fn shown((address, port): End) -> String {
    let dots = address.map(|octet| octet.to_string()).join(".");
    if [KERNEL, OURS].contains(&(address, port)) {
        return dots;
    }
    format!("{dots} port {port}")
}

/// Octets in a datagram, the header as 01's program writes it.
pub fn ip_around(src: [u8; 4], dst: [u8; 4], protocol: u8, part: &[u8]) -> Vec<u8> {
    let total = (IP_SIZE + part.len()) as u16;
    let mut octets = vec![0x45, 0, 0, 0, 0, 0, 0x40, 0, 64, protocol, 0, 0];
    octets[2..4].copy_from_slice(&total.to_be_bytes());
    octets.extend(src);
    octets.extend(dst);
    ip_summed(&mut octets);
    octets.extend(part);
    octets
}

/// Writes the checksum into an IP header.
pub fn ip_summed(header: &mut [u8]) {
    let checksum = ip_checksum(header);
    header[10..12].copy_from_slice(&checksum.to_be_bytes());
}

/// Writes the checksum into a TCP segment.
pub fn tcp_summed(src: [u8; 4], dst: [u8; 4], tcp: &mut [u8]) {
    let checksum = tcp_checksum(src, dst, tcp);
    tcp[16..18].copy_from_slice(&checksum.to_be_bytes());
}

/// Octets in hexadecimal, the first of them if they are many.
pub fn hex(octets: &[u8]) -> String {
    let first: String = octets.iter().take(80).map(|octet| format!("{octet:02x}")).collect();
    let more = if octets.len() > 80 { format!(" and {} more", octets.len() - 80) } else { String::new() };
    first + &more
}

/// An address as the library takes it.
pub fn number(address: [u8; 4]) -> u32 {
    u32::from_be_bytes(address)
}

pub fn get16(octets: &[u8], at: usize) -> u16 {
    u16::from_be_bytes([octets[at], octets[at + 1]])
}

fn get32(octets: &[u8], at: usize) -> u32 {
    u32::from_be_bytes([octets[at], octets[at + 1], octets[at + 2], octets[at + 3]])
}

/// What a writer puts as checksum: 65,535 minus the sum without the one that stands there.
fn ip_checksum(header: &[u8]) -> u16 {
    0xffff - folded(words(header) - get16(header, 10) as u32)
}

fn tcp_checksum(src: [u8; 4], dst: [u8; 4], tcp: &[u8]) -> u16 {
    0xffff - folded(tcp_words(src, dst, tcp) - get16(tcp, 16) as u32)
}

/// The sums with the checksum counted; 65,535 where it is right.
fn ip_sum(header: &[u8]) -> u16 {
    octets_sum(header)
}

pub fn tcp_sum(src: [u8; 4], dst: [u8; 4], tcp: &[u8]) -> u16 {
    folded(tcp_words(src, dst, tcp))
}

/// The sum of octets that have no header of their own to add.
pub fn octets_sum(octets: &[u8]) -> u16 {
    folded(words(octets))
}

/// The two addresses, 6, the TCP length, and all octets.
fn tcp_words(src: [u8; 4], dst: [u8; 4], tcp: &[u8]) -> u32 {
    words(&src) + words(&dst) + TCP as u32 + tcp.len() as u32 + words(tcp)
}

/// Octets added as 16-bit words; an odd last one is padded with a zero.
fn words(octets: &[u8]) -> u32 {
    octets.chunks(2).map(|word| (word[0] as u32) << 8 | *word.get(1).unwrap_or(&0) as u32).sum()
}

/// Carries beyond 16 bits added back in until none are left.
fn folded(mut sum: u32) -> u16 {
    while sum > 0xffff {
        sum = (sum & 0xffff) + (sum >> 16);
    }
    sum as u16
}
