//! Strays to our station, and what becomes of each by 01: "The program" for what is skipped, the refusal
//! numbers for the rest.

use crate::bridge::Chance;
use crate::station::{Received, Skip};
use crate::strays::{damaged, edited, fragment, stray, with_options, Aim, Stray, KINDS, UNKNOWN};
use crate::wire::{get16, tcp_sum, End, ACK, IP_SIZE, KERNEL, OURS, RST, SYN, TCP};
use Received::{Refused, Skipped};

const FIN: u8 = 1;

type Strays = Vec<Stray<Received>>;

/// Aimed at our station, which waits for these numbers.
pub fn aim(seq: u32, ack: u32) -> Aim {
    Aim { from: KERNEL, to: OURS, seq, ack }
}

pub fn all(aim: &Aim) -> Strays {
    let mut strays = other_protocols(aim);
    for kind in KINDS {
        strays.extend(segment_in_other_protocols(aim, kind));
        strays.extend(where_the_program_stops(aim, kind));
        strays.extend(cut_or_damaged(aim, kind));
        strays.extend(of_other_ends(aim, kind));
        strays.extend(with_fin_or_text(aim, kind));
    }
    strays.extend(long(aim));
    strays.extend(behind_options(aim));
    strays.extend(fragments(aim));
    strays
}

fn other_protocols(aim: &Aim) -> Strays {
    let skipped = |name: &str, octets| stray(name, octets, Skipped(Skip::Protocol));
    let [first, last] = aim.udp_in_two(7);
    vec![
        skipped("an ICMP echo request", aim.echo()),
        skipped("ICMP, our port is unreachable", aim.unreachable(&aim.back().datagram(SYN))),
        skipped("UDP", aim.udp()),
        skipped("the first fragment of UDP", first),
        skipped("the last fragment of UDP", last),
    ]
}

fn segment_in_other_protocols(aim: &Aim, kind: u8) -> Strays {
    let segment = aim.segment(kind, &[]);
    let protocols = [0, TCP - 1, TCP + 1, UNKNOWN, 255].into_iter();
    let skipped = Skipped(Skip::Protocol);
    protocols.map(|p| stray(format!("a segment in protocol {p}"), aim.around(p, &segment), skipped.clone())).collect()
}

/// Version, IP header length, total length, missing octets.
fn where_the_program_stops(aim: &Aim, kind: u8) -> Strays {
    let whole = aim.datagram(kind);
    let versions = [0, 5, 6, 15].into_iter();
    let versions = versions.map(|n: u8| (format!("version {n}"), edited(&whole, |o| o[0] = n << 4 | 5)));
    let words = [0, 4].into_iter();
    let words = words.map(|n: u8| (format!("an IP header of {n} words"), edited(&whole, |o| o[0] = 0x40 | n)));
    let totals = [0, 19, 41, 1501].into_iter();
    let totals = totals.map(|n: u16| {
        let octets = edited(&whole, |o| o[2..4].copy_from_slice(&n.to_be_bytes()));
        (format!("a total length of {n} over 40 octets"), octets)
    });
    let sizes = [1, 19, 39].into_iter();
    let sizes = sizes.map(|n| (format!("{n} octets of a datagram"), whole[..n].to_vec()));
    let all = versions.chain(words).chain(totals).chain(sizes);
    all.map(|(name, octets)| stray(name, octets, Skipped(Skip::Stop))).collect()
}

/// Refusals 2, 3 and 4.
fn cut_or_damaged(aim: &Aim, kind: u8) -> Strays {
    let segment = aim.segment(kind, &[]);
    let short = [0, 1, 19].into_iter().map(|n| (format!("{n} octets of a segment"), segment[..n].to_vec(), 2));
    let words = [0, 4, 6, 15].into_iter().map(|n: u8| {
        let wrong = aim.summed(damaged(&segment, 12, 0x50 ^ n << 4));
        (format!("a TCP header of {n} words in 20 octets"), wrong, 3)
    });
    let places = [4, 13, 16].into_iter();
    let damage = places.map(|at| (format!("octet {at} of a segment damaged"), damaged(&segment, at, 0x80), 4));
    let all = short.chain(words).chain(damage);
    all.map(|(name, tcp, number)| stray(name, aim.around(TCP, &tcp), Refused(number))).collect()
}

/// Refusal 5, also where 6 would come after it, the IP checksum is wrong, or octets follow the datagram.
fn of_other_ends(aim: &Aim, kind: u8) -> Strays {
    let mut strays = Vec::new();
    for (name, astray) in aim.astray().into_iter().chain(aim.elsewhere()) {
        let whole = astray.datagram(kind);
        let mut refused = |what: &str, octets| strays.push(stray(format!("{name}{what}"), octets, Refused(5)));
        refused(", a FIN", astray.datagram(kind | FIN));
        refused(", text", astray.around(TCP, &astray.segment(kind, b"hay")));
        refused(", the IP checksum wrong", damaged(&whole, 10, 0xff));
        refused(", octets behind it", [&whole[..], &[7; 6]].concat());
        refused("", whole);
    }
    strays
}

/// Refusal 6.
fn with_fin_or_text(aim: &Aim, kind: u8) -> Strays {
    let text = |text: &[u8]| aim.around(TCP, &aim.segment(kind, text));
    vec![
        stray("a FIN", aim.datagram(kind | FIN), Refused(6)),
        stray("text, 3 octets", text(b"hay"), Refused(6)),
        stray("text, 4 octets", text(b"milk"), Refused(6)),
    ]
}

/// The program's frame holds 1,500 octets.
fn long(aim: &Aim) -> Strays {
    let datagram = |text: &[u8]| aim.around(TCP, &aim.segment(ACK, text));
    vec![
        stray("a datagram of 1,500 octets", datagram(&[0; 1460]), Refused(6)),
        stray("a datagram of 1,501 octets", datagram(&[0; 1461]), Skipped(Skip::Stop)),
    ]
}

/// Options of the IP header are skipped. In them stands a header that would be taken for the segment's.
fn behind_options(aim: &Aim) -> Strays {
    let other = aim.astray()[0].1.datagram(RST | ACK);
    let wrong = damaged(&aim.datagram(RST | ACK), IP_SIZE + 16, 1);
    let behind = |words: usize, octets: &[u8], number: u8| {
        let options: Vec<u8> = aim.segment(RST | ACK, &[]).into_iter().cycle().take(4 * words - IP_SIZE).collect();
        stray(format!("an IP header of {words} words"), with_options(octets, &options), Refused(number))
    };
    (6..=15).flat_map(|words| [behind(words, &other, 5), behind(words, &wrong, 4)]).collect()
}

/// Fragments are not examined: a part of a segment is met like a whole one, and refused.
fn fragments(aim: &Aim) -> Strays {
    let segment = aim.segment(RST | ACK, &[7; 40]);
    let whole = aim.around(TCP, &segment);
    let part = |units: u16, part: &[u8], more| fragment(&whole, 7, units, part, more);
    vec![
        stray("a first fragment, 16 octets", part(0, &segment[..16], true), Refused(2)),
        stray("a first fragment, 24 octets", part(0, &segment[..24], true), Refused(4)),
        stray("a last fragment, 12 octets", part(6, &segment[48..], false), Refused(2)),
        stray("a last fragment, 36 octets", part(3, &segment[24..], false), Refused(3)),
    ]
}

/// Octets by chance: random ones, and segments that would be taken with some octets changed or cut off. What
/// is to become of them is read here, in the words of 01 and without the library; what would be taken is none.
pub fn nonsense(aim: &Aim, chance: &mut Chance, count: usize) -> Strays {
    let mut strays = Vec::new();
    while strays.len() < count {
        let octets = by_chance(aim, chance);
        if let Some(then) = expected(aim, &octets) {
            strays.push(stray("nonsense", octets, then));
        }
    }
    strays
}

fn by_chance(aim: &Aim, chance: &mut Chance) -> Vec<u8> {
    if chance.below(3) == 0 {
        return chance.octets(80);
    }
    let mut octets = aim.datagram(KINDS[chance.below(KINDS.len())]);
    for _ in 0..chance.below(4) {
        let place = chance.below(octets.len());
        octets[place] = chance.below(256) as u8;
    }
    if chance.below(4) == 0 {
        octets.truncate(1 + chance.below(octets.len()));
    }
    octets
}

/// 01, "The program" and "Refusal numbers"; None where the segment is taken.
fn expected(aim: &Aim, octets: &[u8]) -> Option<Received> {
    if octets.len() < IP_SIZE || octets[0] >> 4 != 4 {
        return Some(Skipped(Skip::Stop));
    }
    let (head, total) = (4 * (octets[0] & 15) as usize, get16(octets, 2) as usize);
    if head < IP_SIZE || total < head || total > 1500 || total > octets.len() {
        return Some(Skipped(Skip::Stop));
    }
    if octets[9] != TCP {
        return Some(Skipped(Skip::Protocol));
    }
    let address = |at: usize| [octets[at], octets[at + 1], octets[at + 2], octets[at + 3]];
    expected_of_tcp(aim, address(12), address(16), &octets[head..total]).map(Refused)
}

fn expected_of_tcp(aim: &Aim, src: [u8; 4], dst: [u8; 4], tcp: &[u8]) -> Option<u8> {
    if tcp.len() < 20 {
        return Some(2);
    }
    let head = 4 * (tcp[12] >> 4) as usize;
    let ends: [End; 2] = [(src, get16(tcp, 0)), (dst, get16(tcp, 2))];
    let tests = [
        (head < 20 || head > tcp.len(), 3),
        (tcp_sum(src, dst, tcp) != 0xffff, 4),
        (ends != [aim.from, aim.to], 5),
        (tcp[13] & FIN != 0 || tcp.len() > head, 6),
    ];
    tests.into_iter().find(|(is, _)| *is).map(|(_, number)| number)
}
