//! The captures in tests/captures. A segment stands in a capture where it arrives, since the order of
//! arrival is what a station meets; one that never arrives is not in it. Between two library stations the
//! time of a packet is the number of the event that delivers it, in milliseconds: the calls and power cuts
//! are the gaps. Those with the kernel are kept as they were made, since its numbers are its own.

use crate::checks::must;
use crate::compare::with_checksum;
use crate::opening::opened_by_kernel;
use crate::pcap::{self, Packet};
use crate::recovery::our_power_cut;
use crate::station::{closed_record, written, Station, CLOSED, ESTABLISHED, SYN_SENT};
use crate::sys::NoRig;
use crate::tabor::{self, Header, Link, Model, Segment};
use crate::wire::{Datagram, KERNEL, OURS, SYN};
use crate::world::World;
use std::fs;
use std::io::Write;
use std::path::Path;

const A: u8 = 0;
const B: u8 = 1;

/// The kinds of event that the library's player reads.
const OPEN: u8 = 0;
const LISTENS: u8 = 1;
const RESEND: u8 = 3;
const POWER_CUT: u8 = 4;
const DELIVER: u8 = 5;
const COPY: u8 = 6;

/// Two library stations, A at 10.0.0.1 and B at 10.0.0.2, and what has arrived so far.
struct Story {
    model: Model,
    events: u32,
    packets: Vec<Packet>,
}

impl Story {
    fn begin() -> Story {
        let (a, b) = (closed_record(KERNEL, OURS), closed_record(OURS, KERNEL));
        let model = Model { a, b, toa: Link::default(), tob: Link::default() };
        Story { model, events: 0, packets: Vec::new() }
    }

    /// One event, which must be taken.
    fn event(&mut self, kind: u8, side: u8, place: u32, number: u32) {
        let mut octets = vec![kind, side];
        octets.extend(place.to_be_bytes());
        octets.extend(number.to_be_bytes());
        let played = tabor::play(self.model, &octets);
        assert_eq!((played.taken, played.turned, played.refusal), (1, 0, 0), "event {} is taken", self.events + 1);
        self.model = played.model;
        self.events += 1;
    }

    fn call(&mut self, kind: u8, side: u8, number: u32) {
        self.event(kind, side, 0, number);
    }

    fn copy(&mut self, side: u8, place: u32) {
        self.event(COPY, side, place, 0);
    }

    /// A delivery, with the number that a LISTEN draws; the segment is written down as it arrives.
    fn deliver(&mut self, side: u8, place: u32, fresh: u32) {
        let link = if side == A { &self.model.toa } else { &self.model.tob };
        let octets = datagram_of(&link.slots[place as usize]).octets;
        self.event(DELIVER, side, place, fresh);
        self.packets.push(Packet { milliseconds: self.events, octets });
    }

    /// The end of a story: both established, each on these numbers (own ISS, and the peer's as it holds it).
    fn ends(&self, a: (u32, u32), b: (u32, u32)) {
        let states = (self.model.a.state, self.model.b.state);
        assert_eq!(states, (ESTABLISHED, ESTABLISHED), "both are established");
        assert_eq!((self.model.a.iss, self.model.a.irs), a, "A's numbers");
        assert_eq!((self.model.b.iss, self.model.b.irs), b, "B's numbers");
    }
}

fn datagram_of(segment: &Segment) -> Datagram {
    written(segment.src.to_be_bytes(), segment.dst.to_be_bytes(), segment.header)
}

/// Two opens that cross.
fn opens() -> Vec<Packet> {
    let mut s = Story::begin();
    s.call(OPEN, A, 100_000);
    s.call(OPEN, B, 200_000);
    s.deliver(B, 0, 0); // SYN of A
    s.deliver(A, 0, 0); // SYN of B
    s.deliver(A, 0, 0); // SYN,ACK of B: draws an ACK
    s.deliver(B, 0, 0); // SYN,ACK of A: draws an ACK
    s.deliver(B, 0, 0); // ACK of A: B is established
    s.deliver(A, 0, 0); // ACK of B: A is established
    s.ends((100_000, 200_000), (200_000, 100_000));
    s.packets
}

/// docs/INCIDENT.md, row by row: the packet at 0.008 s is the delivery of its eighth row.
fn incident() -> Vec<Packet> {
    let mut s = Story::begin();
    s.call(OPEN, A, 100_000);
    s.copy(B, 0);
    s.call(LISTENS, B, 0);
    s.deliver(B, 0, 200_000);
    s.call(POWER_CUT, B, 0);
    s.call(LISTENS, B, 0);
    s.deliver(B, 0, 300_000);
    s.deliver(A, 1, 0); // the newer SYN,ACK; the older one is held back
    s.call(POWER_CUT, A, 0);
    s.call(OPEN, A, 100_000); // the same number again
    s.deliver(A, 0, 0); // the late SYN,ACK
    s.deliver(B, 0, 0); // the late ACK
    s.ends((100_000, 200_000), (300_000, 100_000));
    s.packets
}

/// A plain opening by A, a power cut at B, and 01's nine steps.
fn recovery() -> Vec<Packet> {
    let mut s = Story::begin();
    s.call(LISTENS, B, 0);
    s.call(OPEN, A, 100_000);
    s.deliver(B, 0, 200_000);
    s.deliver(A, 0, 0);
    s.deliver(B, 0, 0);
    s.ends((100_000, 200_000), (200_000, 100_000));
    s.call(POWER_CUT, B, 0);
    s.call(OPEN, B, 400_000);
    s.deliver(A, 0, 0); // SYN: A's ACK
    s.deliver(B, 0, 0); // ACK: B's RST
    s.deliver(A, 0, 0); // RST: A is closed
    assert_eq!(s.model.a.state, CLOSED, "A is closed");
    s.call(LISTENS, A, 0);
    s.call(RESEND, B, 0);
    s.deliver(A, 0, 300_000); // SYN
    s.deliver(B, 0, 0); // SYN,ACK
    s.deliver(A, 0, 0); // ACK
    s.ends((300_000, 400_000), (400_000, 300_000));
    s.packets
}

/// P12: the input's SYN with window 8fac, once with checksum 0000 and once with ffff.
fn p12() -> Vec<Packet> {
    let (source, destination) = (KERNEL.1, OURS.1);
    let header = Header { seq: 100, source, destination, window: 0x8fac, control: SYN, ..Header::default() };
    let zero = written(KERNEL.0, OURS.0, header);
    let ones = with_checksum(&zero, 0xffff);
    [zero, ones].into_iter().zip(1..).map(|(d, milliseconds)| Packet { milliseconds, octets: d.octets }).collect()
}

type Made = (&'static str, Vec<u8>);

/// The captures of the library alone: the same octets each time.
fn library_only() -> Vec<Made> {
    vec![
        ("opens.pcap", pcap::write(&opens())),
        ("incident.pcap", pcap::write(&incident())),
        ("recovery.pcap", pcap::write(&recovery())),
        ("p12.pcap", pcap::write(&p12())),
    ]
}

/// The captures with the kernel, in a world of its own each.
const WITH_KERNEL: [&str; 2] = ["handshake.pcap", "recovery-kernel.pcap"];

fn with_kernel(name: &str) -> Result<Vec<u8>, NoRig> {
    let mut world = World::new()?;
    let made = match name {
        "handshake.pcap" => opened_by_kernel(&mut world).map(|_| ()),
        _ => our_power_cut(&mut world).map(|_| ()),
    };
    let made = made.and(world.miscounted().map_or(Ok(()), Err));
    made.map_err(|e| NoRig::Broken(format!("{name}: {e}")))?;
    let packets = world.passed.iter().zip(1..);
    let packets = packets.map(|(d, milliseconds)| Packet { milliseconds, octets: d.octets.clone() });
    Ok(pcap::write(&packets.collect::<Vec<_>>()))
}

/// Makes the captures: the library's always, those with the kernel where they are missing.
pub fn make(dir: &Path) -> Result<(), NoRig> {
    for (name, file) in library_only() {
        keep(dir, name, &file)?;
    }
    for name in WITH_KERNEL {
        if dir.join(name).exists() {
            println!("captures: {name}: kept");
        } else {
            keep(dir, name, &with_kernel(name)?)?;
        }
    }
    Ok(())
}

fn keep(dir: &Path, name: &str, file: &[u8]) -> Result<(), NoRig> {
    fs::write(dir.join(name), file).map_err(|e| NoRig::Broken(format!("{name}: {e}")))?;
    println!("captures: {name}: {} octets", file.len());
    Ok(())
}

/// Makes the library's captures again, octet for octet, and our station's half of those with the kernel.
pub fn check(dir: &Path) -> Result<(), String> {
    for (name, made) in library_only() {
        let kept = fs::read(dir.join(name)).map_err(|e| format!("{name}: {e}"))?;
        if made != kept {
            return Err(format!("{name} is not what the library makes"));
        }
        println!("captures: {name}: ok (made again, octet for octet)");
    }
    for name in WITH_KERNEL {
        let answered = replay(&datagrams(&dir.join(name))?).map_err(|e| format!("{name}: {e}"))?;
        println!("captures: {name}: ok (our station's {answered} datagrams made again from the kernel's)");
    }
    Ok(())
}

/// What the kernel sent is given to our station again. It must have sent what stands in the capture: its
/// answers, and where it had nothing to answer its SYN, anew after a power cut or again.
fn replay(datagrams: &[Datagram]) -> Result<usize, String> {
    let mut ours = Station::closed();
    ours.listen()?;
    let mut answer = None;
    let mut answered = 0;
    for datagram in datagrams {
        if datagram.dst == OURS.0 {
            answer = ours.arrive(datagram)?;
            continue;
        }
        let sent = match answer.take() {
            Some(sent) => sent,
            None => syn_of(&mut ours)?,
        };
        if sent.octets != datagram.octets {
            return Err(format!("the library sends {sent}, the capture has {datagram}"));
        }
        answered += 1;
    }
    ours.must_be(ESTABLISHED)?;
    Ok(answered)
}

fn syn_of(ours: &mut Station) -> Result<Datagram, String> {
    if ours.record.state == SYN_SENT {
        return ours.resend();
    }
    ours.power_cut()?;
    ours.open()
}

fn datagrams(path: &Path) -> Result<Vec<Datagram>, String> {
    read_datagrams(path).map_err(|e| format!("{}: {e}", path.display()))
}

fn read_datagrams(path: &Path) -> Result<Vec<Datagram>, String> {
    let file = fs::read(path).map_err(|e| e.to_string())?;
    let packets = pcap::read(&file)?;
    packets.iter().map(|packet| whole(&packet.octets)).collect()
}

/// A packet, whose checksums must be right.
fn whole(octets: &[u8]) -> Result<Datagram, String> {
    let datagram = Datagram::read(octets)?.ok_or("a packet that is no TCP over IPv4")?;
    must(datagram.is_whole(), format!("a packet with a wrong checksum: {datagram}"))?;
    Ok(datagram)
}

/// The datagrams of a capture that are addressed to 10.0.0.2, back to back: input for 01's program.
pub fn stream(path: &Path) -> Result<(), String> {
    let datagrams = datagrams(path)?;
    let to_us = datagrams.iter().filter(|d| d.dst == OURS.0);
    let octets: Vec<u8> = to_us.flat_map(|d| d.octets.clone()).collect();
    std::io::stdout().write_all(&octets).map_err(|e| format!("standard output: {e}"))
}

/// A capture as text, one packet in a line.
pub fn show(path: &Path) -> Result<(), String> {
    for datagram in datagrams(path)? {
        println!("{datagram}");
    }
    Ok(())
}
