//! Our power is cut before every act of an opening, whoever opens: before a segment leaves (it is then lost),
//! before it arrives (it then meets what is left), and after the opening. The owners call again, each in
//! its own way, until both are established on numbers that our station drew after the cut.

use crate::acts::{for_each_act, on_the_way, play};
use crate::checks::{surely, Outcome};
use crate::pair::{First, Opener, Pair, Revived};
use crate::runner::Scenario;
use crate::wire::Datagram;
use crate::world::World;

/// What becomes of the segments that are on the way when the power is cut.
#[derive(Clone, Copy)]
enum Fate {
    /// They never left, or never arrive.
    Lost,
    /// They arrive while our box is still closed.
    Closed,
    /// They arrive after our box has called again.
    Later,
}

pub fn all() -> Vec<(String, Scenario)> {
    for_each_act("our power is cut", at_act)
}

/// How the owners go on: our box listens and the kernel connects, our box opens as in the nine steps, or
/// both open. A kernel that listens goes on listening.
fn ways_on(opener: Opener) -> &'static [Opener] {
    match opener {
        Opener::We => &[Opener::We],
        Opener::Kernel | Opener::Both => &[Opener::Kernel, Opener::We, Opener::Both],
    }
}

/// What is not on the way has no fate: it is then as if it were lost.
fn fates(opener: Opener, acts: usize) -> &'static [Fate] {
    if on_the_way(opener, acts) {
        &[Fate::Lost, Fate::Closed, Fate::Later]
    } else {
        &[Fate::Lost]
    }
}

fn at_act(world: &mut World, opener: Opener, acts: usize) -> Outcome {
    let mut pair = Pair::new(world, opener);
    let mut all = Revived::default();
    let mut recoveries = 0;
    for way_on in ways_on(opener) {
        for fate in fates(opener, acts) {
            pair.world.begin();
            all.add(one_cut(&mut pair, opener, acts, *way_on, *fate)?);
            recoveries += 1;
        }
    }
    Ok(vec![format!("recovered {recoveries} times, both ESTABLISHED on new numbers: {}", all.line())])
}

/// An opening, the cut, and what it took to come back.
fn one_cut(pair: &mut Pair, opener: Opener, acts: usize, way_on: Opener, fate: Fate) -> Result<Revived, String> {
    pair.opener = opener;
    play(pair, acts)?;
    pair.power_cut()?;
    pair.opener = way_on;
    let anew = pair.ours.next_number();
    let before: Vec<Datagram> = pair.world.passed.clone();
    pair.revived = Revived::default();
    match fate {
        Fate::Lost => pair.lose_all(),
        Fate::Closed => pair.flow(First::Oldest)?,
        Fate::Later => pair.revive()?,
    }
    pair.complete(First::Oldest)?;
    surely(pair.ours.record.iss >= anew, format!("{anew} or later expected, ours is {:?}", pair.ours.record))?;
    let revived = pair.revived;
    once_more(pair, &before)?;
    pair.closed_by_kernel()?;
    Ok(revived)
}

/// All that passed before the cut arrives once more, and both ends stay as they are.
fn once_more(pair: &mut Pair, before: &[Datagram]) -> Result<(), String> {
    let record = pair.ours.record;
    pair.world.note("what passed before the cut arrives once more");
    before.iter().try_for_each(|datagram| pair.hand_over(datagram))?;
    pair.complete(First::Oldest)?;
    surely(pair.ours.record == record, format!("{record:?} has become {:?}", pair.ours.record))
}
