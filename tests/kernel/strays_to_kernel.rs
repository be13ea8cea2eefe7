//! Strays to the kernel, and what it counts for each.

use crate::bridge::Chance;
use crate::counts::{Counts, CHECKSUM, IP_ADDRESS, IP_HEADER, NONE, SEGMENT};
use crate::strays::{damaged, fragment, stray, with_options, Aim, Stray, KINDS, NOP, UNKNOWN};
use crate::wire::{IP_SIZE, KERNEL, OURS, RST, SYN, TCP};

type Strays = Vec<Stray<Counts>>;

/// Aimed at the kernel, which waits for these numbers.
pub fn aim(seq: u32, ack: u32) -> Aim {
    Aim { from: OURS, to: KERNEL, seq, ack }
}

/// Fragments of one identification belong together.
pub fn all(aim: &Aim, identification: u16) -> Strays {
    let mut strays = other_protocols(aim);
    strays.extend(fragments(aim, identification));
    for kind in KINDS {
        strays.extend(of_other_ends(aim, kind));
        strays.extend(cut_or_damaged(aim, kind));
    }
    strays
}

/// Most of them are answered: an echo, a port or a protocol that is not there.
fn other_protocols(aim: &Aim) -> Strays {
    let of_another_port = aim.astray()[0].1.back().datagram(SYN);
    vec![
        stray("an ICMP echo request", aim.echo(), NONE),
        stray("ICMP, another port is unreachable", aim.unreachable(&of_another_port), NONE),
        stray("UDP", aim.udp(), NONE),
        stray("an unknown protocol", aim.around(UNKNOWN, &aim.segment(RST, &[])), NONE),
    ]
}

/// A whole datagram in two, and a first fragment to which the rest never comes.
fn fragments(aim: &Aim, identification: u16) -> Strays {
    let [first, last] = aim.udp_in_two(identification);
    let segment = aim.segment(RST, &[7; 40]);
    let alone = fragment(&aim.around(TCP, &[]), identification, 0, &segment[..24], true);
    vec![
        stray("the last fragment of UDP", last, NONE),
        stray("the first fragment of UDP", first, NONE),
        stray("a first fragment alone", alone, NONE),
    ]
}

fn of_other_ends(aim: &Aim, kind: u8) -> Strays {
    let mut strays = Vec::new();
    for (name, astray) in aim.astray() {
        let datagram = astray.datagram(kind);
        strays.push(stray(format!("{name}, an IP header of 15 words"), with_options(&datagram, &[NOP; 40]), NONE));
        strays.push(stray(name, datagram, NONE));
    }
    for (name, astray) in aim.elsewhere() {
        strays.push(stray(name, astray.datagram(kind), IP_ADDRESS));
    }
    strays
}

/// A segment that is cut is passed over without a count.
fn cut_or_damaged(aim: &Aim, kind: u8) -> Strays {
    let (datagram, segment) = (aim.datagram(kind), aim.segment(kind, &[]));
    let header = (1..IP_SIZE).map(|at| stray(format!("octet {at} damaged"), damaged(&datagram, at, 0x40), IP_HEADER));
    let places = [4, 13, 16].map(|at| IP_SIZE + at).into_iter();
    let tcp = places.map(|at| stray(format!("octet {at} damaged"), damaged(&datagram, at, 0x80), CHECKSUM));
    let four_words = aim.summed(damaged(&segment, 12, 0x50 ^ 0x40));
    let others = [
        stray("a TCP header of 4 words", aim.around(TCP, &four_words), SEGMENT),
        stray("19 octets of a segment", aim.around(TCP, &segment[..19]), NONE),
    ];
    header.chain(tcp).chain(others).collect()
}

/// Octets by chance that claim to be IPv4, whose header is then wrong, or IPv6; the device takes no others.
pub fn nonsense(chance: &mut Chance, count: usize) -> Strays {
    let by_chance = |_| {
        let mut octets = chance.octets(80);
        let (version, error) = if chance.below(4) == 0 { (6, NONE) } else { (4, IP_HEADER) };
        octets[0] = version << 4 | octets[0] & 15;
        stray("nonsense", octets, error)
    };
    (0..count).map(by_chance).collect()
}
