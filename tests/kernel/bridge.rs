//! Openings over a bridge that holds segments back, copies, loses and reorders them, as the radio bridge
//! of the papers does. There is no netem in the kernel at hand, and the rig's own bridge can be repeated:
//! a seed decides each event, as long as the kernel answers before the rig takes it for silent. Its
//! numbers and timers are its own.

use crate::checks::{must, Outcome};
use crate::pair::{to_kernel, Opener, Pair};
use crate::world::World;

/// What happened on a bridge.
#[derive(Clone, Copy, Default)]
pub struct Tally {
    pub delivered: u32,
    pub overtaken: u32,
    pub copied: u32,
    pub lost: u32,
    pub resent: u32,
    pub awaited: u32,
}

impl Tally {
    pub fn add(&mut self, other: Tally) {
        self.delivered += other.delivered;
        self.overtaken += other.overtaken;
        self.copied += other.copied;
        self.lost += other.lost;
        self.resent += other.resent;
        self.awaited += other.awaited;
    }

    pub fn line(&self) -> String {
        format!(
            "{} delivered, {} of them past others, {} copied, {} lost, {} resent by us, {} waits for its timer",
            self.delivered, self.overtaken, self.copied, self.lost, self.resent, self.awaited
        )
    }
}

/// splitmix64: small, and the same on every machine.
pub struct Chance(pub u64);

impl Chance {
    pub fn below(&mut self, bound: usize) -> usize {
        self.0 = self.0.wrapping_add(0x9e37_79b9_7f4a_7c15);
        let mut z = self.0;
        z = (z ^ (z >> 30)).wrapping_mul(0xbf58_476d_1ce4_e5b9);
        z = (z ^ (z >> 27)).wrapping_mul(0x94d0_49bb_1331_11eb);
        ((z ^ (z >> 31)) % bound as u64) as usize
    }

    /// At least one octet, and at most so many.
    pub fn octets(&mut self, most: usize) -> Vec<u8> {
        (0..1 + self.below(most)).map(|_| self.below(256) as u8).collect()
    }
}

struct Bridge<'a> {
    pair: Pair<'a>,
    chance: Chance,
    tally: Tally,
}

/// One opening by the kernel over a bridge.
pub fn kernel_opens(world: &mut World, seed: u64) -> Result<(Vec<String>, Tally), String> {
    let mut pair = Pair::new(world, Opener::Kernel);
    pair.we_listen()?;
    pair.kernel_connects()?;
    over_bridge(pair, seed)
}

/// One opening by us over a bridge.
pub fn we_open(world: &mut World, seed: u64) -> Result<(Vec<String>, Tally), String> {
    let mut pair = Pair::new(world, Opener::We);
    pair.kernel_listens()?;
    pair.we_open()?;
    over_bridge(pair, seed)
}

fn over_bridge(pair: Pair, seed: u64) -> Result<(Vec<String>, Tally), String> {
    let mut bridge = Bridge { pair, chance: Chance(seed), tally: Tally::default() };
    let seen = bridge.run()?;
    Ok((seen, bridge.tally))
}

impl Bridge<'_> {
    /// Until both are established and the bridge is empty: late segments must leave both as they are.
    fn run(&mut self) -> Outcome {
        for _ in 0..1000 {
            self.pair.collect()?;
            if !self.pair.way.is_empty() {
                self.event()?;
            } else if self.pair.is_done()? {
                return self.checked();
            } else {
                self.pair.revive()?;
            }
            self.tally.resent = self.pair.revived.resent;
            self.tally.awaited = self.pair.revived.awaited;
        }
        Err("no end after 1,000 events".into())
    }

    fn checked(&self) -> Outcome {
        self.pair.must_agree()?;
        must(self.pair.revived.called == 0, "an owner had to call again")?;
        Ok(vec![format!("both ESTABLISHED on the same numbers: {}", self.tally.line())])
    }

    /// One event. Losses, copies and resends are few, so that each run ends soon.
    fn event(&mut self) -> Result<(), String> {
        let place = self.chance.below(self.pair.way.len());
        match self.chance.below(10) {
            0 | 1 if self.tally.copied < 6 => self.copy(place),
            2 | 3 if self.tally.lost < 3 => self.lose(place),
            4 if self.tally.resent < 4 && self.pair.can_resend() => self.pair.resend(),
            _ => self.deliver(place),
        }
    }

    fn copy(&mut self, place: usize) -> Result<(), String> {
        let copy = self.pair.way[place].clone();
        self.pair.world.note(format!("the bridge copies {}", copy.said));
        self.pair.way.push(copy);
        self.tally.copied += 1;
        Ok(())
    }

    fn lose(&mut self, place: usize) -> Result<(), String> {
        let lost = self.pair.way.remove(place);
        self.pair.world.note(format!("the bridge loses {}", lost.said));
        self.tally.lost += 1;
        Ok(())
    }

    fn deliver(&mut self, place: usize) -> Result<(), String> {
        let link = to_kernel(&self.pair.way[place]);
        self.tally.delivered += 1;
        self.tally.overtaken += self.pair.way[..place].iter().any(|d| to_kernel(d) == link) as u32;
        self.pair.deliver(place)
    }
}

/// Over all seeds each kind of event has been met; otherwise the runs have shown less than they say.
pub fn all_met(tally: Tally) -> Result<(), String> {
    let counts = [tally.delivered, tally.overtaken, tally.copied, tally.lost, tally.resent, tally.awaited];
    must(counts.iter().all(|count| *count > 0), format!("not every kind of event was met: {}", tally.line()))
}
