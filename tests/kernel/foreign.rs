//! Foreign traffic between the acts of an opening, to either end: our station skips or refuses it as 01 says,
//! its record as it was, and the kernel counts what is wrong in it; the opening goes on as if nothing had been.

use crate::acts::{count, for_each_opener, play_one};
use crate::bridge::Chance;
use crate::checks::{must, surely, Outcome};
use crate::counts::Counts;
use crate::pair::{First, Opener, Pair};
use crate::runner::Scenario;
use crate::station::{Received, Skip};
use crate::strays::{Aim, Stray};
use crate::wire::{hex, in_words};
use crate::world::{World, DEVICE, PATIENCE};
use crate::{strays_to_kernel, strays_to_us, sys};
use std::time::Duration;

/// So that datagrams of more than 1,500 octets get through.
const LARGEST: i32 = 2000;
/// Strays by chance before each act.
const NONSENSE: usize = 60;

pub fn all() -> Vec<(String, Scenario)> {
    let mut all = for_each_opener("foreign traffic to our station", to_us);
    all.extend(for_each_opener("nonsense to our station", nonsense_to_us));
    all.extend(for_each_opener("foreign traffic to the kernel", to_kernel));
    all
}

/// An opening with something before each act and after the last; how many strays there were.
fn opening(
    world: &mut World,
    opener: Opener,
    mut between: impl FnMut(&mut Pair, usize) -> Result<usize, String>,
) -> Result<usize, String> {
    let mut pair = Pair::new(world, opener);
    let mut strays = 0;
    for act in 0..count(opener) {
        strays += between(&mut pair, act)?;
        play_one(&mut pair, act)?;
    }
    strays += between(&mut pair, count(opener))?;
    pair.complete(First::Oldest)?;
    must(pair.revived.called == 0 && pair.revived.resent == 0, "an owner had to call or resend")?;
    Ok(strays)
}

fn to_us(world: &mut World, opener: Opener) -> Outcome {
    sys::set_largest(DEVICE, LARGEST)?;
    let strays = opening(world, opener, |pair, _| meet_all(pair, strays_to_us::all(&aimed_at_us(pair))))?;
    Ok(met(world, strays))
}

fn nonsense_to_us(world: &mut World, opener: Opener) -> Outcome {
    let mut chance = Chance(opener as u64 + 1);
    let strays = opening(world, opener, |pair, _| {
        let strays = strays_to_us::nonsense(&aimed_at_us(pair), &mut chance, NONSENSE);
        meet_all(pair, strays)
    })?;
    Ok(met(world, strays))
}

fn met(world: &World, strays: usize) -> Vec<String> {
    let seen = format!("{strays} skipped or refused with their number, our record stays; both ESTABLISHED");
    let not_so = world.no_device().map(|reason| format!("SKIPPED: they did not go through the device: {reason}"));
    [seen].into_iter().chain(not_so).collect()
}

fn aimed_at_us(pair: &Pair) -> Aim {
    strays_to_us::aim(pair.ours.record.rcvnxt, pair.ours.record.nxt)
}

fn meet_all(pair: &mut Pair, strays: Vec<Stray<Received>>) -> Result<usize, String> {
    pair.world.note(format!("{} strays to our station", strays.len()));
    strays.iter().try_for_each(|stray| meet(pair, stray))?;
    Ok(strays.len())
}

/// A stray goes through the device, comes out of it, and meets our station.
fn meet(pair: &mut Pair, stray: &Stray<Received>) -> Result<(), String> {
    pair.world.send_octets(&stray.octets)?;
    let record = pair.ours.record;
    loop {
        let octets = pair.world.stray_within(PATIENCE)?.ok_or("the stray did not come out of the device")?;
        let received = pair.ours.receive(&octets)?;
        let met = format!("{} expected for {stray}: {received}, {:?}", stray.then, pair.ours.record);
        surely(pair.ours.record == record, format!("our record has changed: {met}"))?;
        if octets == stray.octets {
            return surely(received == stray.then, met);
        }
        met_of_kernel(&octets, received)?;
    }
}

/// What the kernel says of its own, or of a stray, is skipped, or is a segment of other ports.
fn met_of_kernel(octets: &[u8], received: Received) -> Result<(), String> {
    let passed_over = matches!(received, Received::Skipped(_) | Received::Refused(5));
    surely(passed_over, format!("skipped or refused with 5 expected: {received}: {}", hex(octets)))
}

fn to_kernel(world: &mut World, opener: Opener) -> Outcome {
    let mut answered = Answered::default();
    let mut chance = Chance(opener as u64 + 1);
    let strays = opening(world, opener, |pair, act| {
        let its_next = pair.kernel_number().unwrap_or_default().wrapping_add(1);
        let aim = strays_to_kernel::aim(pair.ours.record.nxt, its_next);
        let mut strays = strays_to_kernel::all(&aim, act as u16);
        strays.extend(strays_to_kernel::nonsense(&mut chance, NONSENSE));
        put_all(pair, &strays, &mut answered)?;
        Ok(strays.len())
    })?;
    answered.must_be_some()?;
    Ok(vec![format!(
        "{strays}, the wrong ones counted; its {} answers skipped and {} refused with 5; both ESTABLISHED",
        answered.skipped, answered.refused
    )])
}

/// What the kernel answered to strays, by what our station made of it.
#[derive(Default)]
struct Answered {
    skipped: usize,
    refused: usize,
}

impl Answered {
    /// A kernel that answers nothing has not been reached.
    fn must_be_some(&self) -> Result<(), String> {
        must(self.skipped > 0 && self.refused > 0, "the kernel answered no ICMP or no other port")
    }
}

/// Strays reach the kernel, which counts each that is wrong; of our connection it says nothing.
fn put_all(pair: &mut Pair, strays: &[Stray<Counts>], answered: &mut Answered) -> Result<(), String> {
    pair.world.note(format!("{} strays to the kernel", strays.len()));
    let passed = pair.world.passed.len();
    for stray in strays {
        pair.world.put_octets(&stray.octets, stray.then)?;
        let wrong = pair.world.miscounted();
        surely(wrong.is_none(), format!("{stray}: {}", wrong.unwrap_or_default()))?;
    }
    pair.settle()?;
    let answers = pair.news(passed);
    must(answers.is_empty(), format!("the kernel says of our connection: {}", in_words(&answers)))?;
    while let Some(octets) = pair.world.stray_within(Duration::ZERO)? {
        let received = pair.ours.receive(&octets)?;
        answered.skipped += (received == Received::Skipped(Skip::Protocol)) as usize;
        answered.refused += (received == Received::Refused(5)) as usize;
        met_of_kernel(&octets, received)?;
    }
    Ok(())
}
