//! Segments of older openings that arrive late, as in the incident. Openings follow one another, ours on
//! numbers 65,536 apart: the kernel opens, we open, and of each the bridge keeps a copy of every segment.
//! In the opening after them one of the copies, or all, arrive before one of its acts. Whatever they draw,
//! both ends must end established on numbers of that opening, and no end may ever be established on an older one
//! (`Pair::look`, after each delivery).

use crate::acts::{call_the_rest, for_each_act, play};
use crate::checks::{must, surely, Outcome};
use crate::pair::{to_kernel, First, Opener, Pair, Revived};
use crate::runner::Scenario;
use crate::station::{arriving, closed_record, ESTABLISHED, LISTEN, SYN_RECEIVED, SYN_SENT};
use crate::tabor::Record;
use crate::wire::{bits, in_words, said, Datagram, Said, ACK, KERNEL, OURS, RST, SYN};
use crate::world::{kernel_state, World};

/// Kinds of segment that the two older openings leave: SYN, SYN,ACK, ACK and a reset to each end.
const KINDS: usize = 8;

pub fn all() -> Vec<(String, Scenario)> {
    for_each_act("late from older openings", at_act)
}

/// Each older segment alone, and all of them; what they draw arrives before what was on the way, or after.
fn at_act(world: &mut World, opener: Opener, acts: usize) -> Outcome {
    let mut pair = Pair::new(world, opener);
    let mut drawn = Vec::new();
    let mut all = Revived::default();
    let mut openings = 0;
    for first in [First::Newest, First::Oldest] {
        for which in 0..=KINDS {
            pair.world.begin();
            let kept = older_openings(&mut pair)?;
            let late = if which < KINDS { &kept[which..which + 1] } else { &kept[..] };
            pair.revived = Revived::default();
            let answers = one_opening(&mut pair, opener, acts, late, first)?;
            all.add(pair.revived);
            if first == First::Newest && which < KINDS {
                drawn.push(answers);
            }
            openings += 1;
        }
    }
    let told = format!("{openings} openings, both ESTABLISHED on current numbers: {}", all.line());
    Ok(vec![told, drawn.join("; ")])
}

/// The kernel opens and resets, we open and abort; a copy of each kind of segment, by end.
fn older_openings(pair: &mut Pair) -> Result<Vec<Datagram>, String> {
    pair.begin(Opener::Kernel);
    pair.complete(First::Oldest)?;
    pair.closed_by_kernel()?;
    pair.begin(Opener::We);
    pair.complete(First::Oldest)?;
    pair.closed_by_us()?;
    let mut kept: Vec<Datagram> = Vec::new();
    for datagram in &pair.world.passed {
        let same = |k: &Datagram| to_kernel(k) == to_kernel(datagram) && k.said.control == datagram.said.control;
        if !kept.iter().any(same) {
            kept.push(datagram.clone());
        }
    }
    must(kept.len() == KINDS, format!("{KINDS} kinds of segment expected, {} were kept", kept.len()))?;
    Ok(kept)
}

/// An opening in which these arrive late after so many acts; what the first drew at once, in words.
fn one_opening(
    pair: &mut Pair,
    opener: Opener,
    acts: usize,
    late: &[Datagram],
    first: First,
) -> Result<String, String> {
    pair.begin(opener);
    play(pair, acts)?;
    let drew = match late {
        [one] => arrives_late(pair, one)?,
        all => all.iter().try_for_each(|datagram| pair.hand_over(datagram)).map(|_| String::new())?,
    };
    if first == First::Oldest {
        call_the_rest(pair, acts)?;
    }
    pair.complete(first)?;
    pair.closed_by_kernel()?;
    Ok(drew)
}

/// An older segment arrives. Only a SYN where one is waited for changes anything: elsewhere its numbers are
/// out of the window, or not those of this opening.
fn arrives_late(pair: &mut Pair, datagram: &Datagram) -> Result<String, String> {
    let (record, kernel) = (pair.ours.record, kernel_state()?);
    let (on_the_way, passed) = (pair.way.len(), pair.world.passed.len());
    let at_kernel = record_at_kernel(pair, kernel);
    pair.world.note("late from an older opening:");
    pair.hand_over(datagram)?;
    let state = if to_kernel(datagram) { kernel } else { record.state };
    let waited_for = datagram.said.control == SYN && matches!(state, LISTEN | SYN_SENT);
    let unchanged = pair.ours.record == record && kernel_state()? == kernel;
    let (bits_of_it, end) = (bits(datagram.said.control), end(datagram));
    surely(waited_for || unchanged, format!("late, {bits_of_it} has changed {end}: {datagram}"))?;
    let answers = if to_kernel(datagram) {
        // The first to have passed is the late one itself.
        let answers = pair.news(passed + 1);
        as_01_or_listed(at_kernel, datagram, &answers)?;
        answers
    } else {
        pair.way[on_the_way..].iter().map(|d| d.said).collect()
    };
    let drawn: Vec<String> = answers.iter().map(|said| bits(said.control)).collect();
    let drawn = if drawn.is_empty() { "nothing".into() } else { drawn.join(" and ") };
    Ok(format!("{bits_of_it} to {end} draws {drawn}"))
}

/// The record that a station of 01 has at the kernel's end in this state of this opening.
fn record_at_kernel(pair: &Pair, state: u8) -> Record {
    let synchronized = matches!(state, SYN_RECEIVED | ESTABLISHED);
    let iss = if synchronized || state == SYN_SENT { pair.kernel_number().unwrap_or_default() } else { 0 };
    let nxt = iss.wrapping_add((iss != 0) as u32);
    let irs = if synchronized { pair.ours.record.iss } else { 0 };
    let passive = state == LISTEN || synchronized && pair.opener == Opener::We;
    Record {
        state,
        passive: passive as u8,
        iss,
        una: if state == ESTABLISHED { nxt } else { iss },
        nxt,
        irs,
        rcvnxt: irs.wrapping_add(synchronized as u32),
        ..closed_record(KERNEL, OURS)
    }
}

/// The kernel answers a late segment as 01 does, but for one difference that the scripts list: in a passive
/// SYN-RECEIVED it looks at the acknowledgment first, and resets.
fn as_01_or_listed(record: Record, datagram: &Datagram, seen: &[Said]) -> Result<(), String> {
    let fresh = seen.first().map_or(7, |said| said.seq);
    let (told, by_01) = arriving(record, datagram, fresh)?;
    must(told.refusal == 0, format!("the library's station in {record:?} refused {datagram}"))?;
    let by_01: Vec<Said> = by_01.iter().map(|d| d.said).collect();
    let half_open = record.state == SYN_RECEIVED && record.passive == 1 && datagram.said.control & (ACK | RST) == ACK;
    let listed = half_open && seen == [said(RST, datagram.said.ack, 0)];
    let differ = format!("to {datagram} 01 answers {}, the kernel {}", in_words(&by_01), in_words(seen));
    must(seen == by_01 || listed, differ)
}

fn end(datagram: &Datagram) -> &'static str {
    if to_kernel(datagram) {
        "the kernel"
    } else {
        "us"
    }
}
