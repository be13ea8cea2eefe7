//! An opening over a quiet bridge, act by act: the calls and deliveries of each opener, and the states of
//! both ends after each.

use crate::checks::{kernel_must_be, must, Outcome};
use crate::pair::{Opener, Pair};
use crate::runner::Scenario;
use crate::station::{state_name, CLOSED, ESTABLISHED, LISTEN, SYN_RECEIVED, SYN_SENT};
use crate::world::{kernel_state, World};
use Act::{Deliver, KernelConnects, KernelListens, WeListen, WeOpen};

#[derive(Clone, Copy, PartialEq, Eq)]
enum Act {
    WeListen,
    WeOpen,
    KernelListens,
    KernelConnects,
    /// The oldest segment on the way arrives.
    Deliver,
}

/// An act, in words too, and the states of our station and of the kernel after it.
type Stage = (Act, &'static str, u8, u8);

const BY_KERNEL: [Stage; 5] = [
    (WeListen, "our station listens", LISTEN, CLOSED),
    (KernelConnects, "the kernel connects", LISTEN, SYN_SENT),
    (Deliver, "the SYN arrives", SYN_RECEIVED, SYN_SENT),
    (Deliver, "our SYN,ACK arrives", SYN_RECEIVED, ESTABLISHED),
    (Deliver, "the ACK arrives", ESTABLISHED, ESTABLISHED),
];

const BY_US: [Stage; 5] = [
    (KernelListens, "the kernel listens", CLOSED, LISTEN),
    (WeOpen, "our station opens", SYN_SENT, LISTEN),
    (Deliver, "our SYN arrives", SYN_SENT, SYN_RECEIVED),
    (Deliver, "the SYN,ACK arrives", ESTABLISHED, SYN_RECEIVED),
    (Deliver, "our ACK arrives", ESTABLISHED, ESTABLISHED),
];

/// The kernel takes our SYN,ACK as RFC 793 draws it; our station waits for an ACK, and so gets two.
const CROSSING: [Stage; 8] = [
    (KernelConnects, "the kernel connects", CLOSED, SYN_SENT),
    (WeOpen, "our station opens", SYN_SENT, SYN_SENT),
    (Deliver, "the SYN arrives", SYN_RECEIVED, SYN_SENT),
    (Deliver, "our SYN arrives", SYN_RECEIVED, SYN_RECEIVED),
    (Deliver, "our SYN,ACK arrives", SYN_RECEIVED, ESTABLISHED),
    (Deliver, "the SYN,ACK arrives", SYN_RECEIVED, ESTABLISHED),
    (Deliver, "the ACK arrives", ESTABLISHED, ESTABLISHED),
    (Deliver, "our ACK arrives", ESTABLISHED, ESTABLISHED),
];

const OPENERS: [(Opener, &str); 3] =
    [(Opener::Kernel, "the kernel connects"), (Opener::We, "our station opens"), (Opener::Both, "both open")];

fn stages(opener: Opener) -> &'static [Stage] {
    match opener {
        Opener::Kernel => &BY_KERNEL,
        Opener::We => &BY_US,
        Opener::Both => &CROSSING,
    }
}

/// How many acts an opening has.
pub fn count(opener: Opener) -> usize {
    stages(opener).len()
}

/// Whether a segment is on the way after so many acts: a SYN has left, and something is still to arrive.
pub fn on_the_way(opener: Opener, acts: usize) -> bool {
    let left = stages(opener)[..acts].iter().any(|(act, ..)| matches!(act, WeOpen | KernelConnects));
    left && acts < count(opener)
}

/// A scenario for each opener.
pub fn for_each_opener(what: &str, run: fn(&mut World, Opener) -> Outcome) -> Vec<(String, Scenario)> {
    let scenario = |(opener, who): (Opener, &str)| {
        let scenario: Scenario = Box::new(move |world| run(world, opener));
        (format!("{what}, {who}"), scenario)
    };
    OPENERS.into_iter().map(scenario).collect()
}

/// A scenario before each act of each opener, and one after the last.
pub fn for_each_act(what: &str, run: fn(&mut World, Opener, usize) -> Outcome) -> Vec<(String, Scenario)> {
    let acts = OPENERS.into_iter().flat_map(|(opener, who)| (0..=count(opener)).map(move |n| (opener, who, n)));
    let scenario = |(opener, who, acts): (Opener, &str, usize)| {
        let scenario: Scenario = Box::new(move |world| run(world, opener, acts));
        (format!("{what}, {who}, {}", standing(opener, acts)), scenario)
    };
    acts.map(scenario).collect()
}

/// Where the two ends stand after so many acts, in words.
fn standing(opener: Opener, acts: usize) -> String {
    let stages = stages(opener);
    let (ours, kernel) = if acts == 0 { (CLOSED, CLOSED) } else { (stages[acts - 1].2, stages[acts - 1].3) };
    let before = stages.get(acts).map_or("at the end".into(), |stage| format!("before {}", stage.1));
    format!("{before} (ours {}, the kernel {})", state_name(ours), state_name(kernel))
}

/// The first acts of an opening, so many of them.
pub fn play(pair: &mut Pair, acts: usize) -> Result<(), String> {
    (0..acts).try_for_each(|place| play_one(pair, place))
}

/// The act at this place, after which both are in the states that it leads to.
pub fn play_one(pair: &mut Pair, place: usize) -> Result<(), String> {
    let (act, _, ours, kernel) = stages(pair.opener)[place];
    match act {
        Deliver => deliver(pair, ours, kernel)?,
        _ => call(pair, act)?,
    }
    pair.ours.must_be(ours)?;
    kernel_must_be(kernel)
}

/// The calls that are left of an opening after so many acts; what is delivered when is another matter.
pub fn call_the_rest(pair: &mut Pair, acts: usize) -> Result<(), String> {
    stages(pair.opener)[acts..].iter().try_for_each(|(act, ..)| call(pair, *act))
}

fn call(pair: &mut Pair, act: Act) -> Result<(), String> {
    match act {
        WeListen => pair.we_listen(),
        WeOpen => pair.we_open(),
        KernelListens => pair.kernel_listens(),
        KernelConnects => pair.kernel_connects(),
        Deliver => Ok(()),
    }
}

/// One delivery. Where the machine has held the rig up, what the kernel's timer has sent again may come first,
/// and more than one is needed.
fn deliver(pair: &mut Pair, ours: u8, kernel: u8) -> Result<(), String> {
    loop {
        pair.collect()?;
        must(!pair.way.is_empty(), "nothing is on the way")?;
        pair.deliver(0)?;
        let there = pair.ours.record.state == ours && kernel_state()? == kernel;
        if there || !pair.world.is_late() {
            return Ok(());
        }
    }
}
