//! Our station and the kernel at the two ends of a bridge that is in the rig's hands, each with an owner
//! who calls again where an opening has come to nothing. What the kernel's timer sends again is one more
//! segment on the way.

use crate::checks::{kernel_must_be, must, must_agree, surely};
use crate::station::{closed_record, Station, APART, CLOSED, ESTABLISHED, LISTEN, SYN_RECEIVED, SYN_SENT};
use crate::sys;
use crate::wire::{Datagram, Said, KERNEL, OURS, SYN};
use crate::world::{self, accepted, World};
use std::net::{TcpListener, TcpStream};
use std::time::Duration;

/// Kernel timers start at one second and double.
const KERNEL_TIMER: Duration = Duration::from_secs(5);
/// The kernel's numbers for one pair of ends grow by one in 64 ns, so by 65,536 in 4.2 ms. After this long
/// two of them are as far apart as demand 3 asks, also where the rig has chosen one in between.
const PAUSE: Duration = Duration::from_millis(10);
/// So many deliveries without a call, or calls, and there is no end.
const DELIVERIES: usize = 200;
const CALLS: usize = 30;

/// Who opens; the other end listens.
#[derive(Clone, Copy, Debug, PartialEq, Eq)]
pub enum Opener {
    Kernel,
    We,
    /// Both, and the SYNs may cross.
    Both,
}

/// Which of the segments on the way arrives first.
#[derive(Clone, Copy, Debug, PartialEq, Eq)]
pub enum First {
    Oldest,
    Newest,
}

/// How often the owners had to do something so that an opening came to its end.
#[derive(Clone, Copy, Default)]
pub struct Revived {
    pub called: u32,
    pub resent: u32,
    pub awaited: u32,
}

pub struct Pair<'a> {
    pub world: &'a mut World,
    pub ours: Station,
    pub opener: Opener,
    listener: Option<TcpListener>,
    stream: Option<TcpStream>,
    /// What is on the way, oldest first.
    pub way: Vec<Datagram>,
    /// The numbers that the kernel has drawn, oldest first.
    drawn: Vec<u32>,
    /// How many numbers of the kernel, and which of ours, belong to openings that are over.
    over: (usize, u32),
    pub revived: Revived,
}

pub fn to_kernel(datagram: &Datagram) -> bool {
    datagram.dst == KERNEL.0
}

impl Revived {
    pub fn add(&mut self, other: Revived) {
        self.called += other.called;
        self.resent += other.resent;
        self.awaited += other.awaited;
    }

    pub fn line(&self) -> String {
        let Revived { called, resent, awaited } = self;
        format!("owners called {called} times, we resent {resent}, waits for its timer {awaited}")
    }
}

impl Pair<'_> {
    pub fn new(world: &mut World, opener: Opener) -> Pair<'_> {
        Pair {
            world,
            ours: Station::closed(),
            opener,
            listener: None,
            stream: None,
            way: Vec::new(),
            drawn: Vec::new(),
            over: (0, 0),
            revived: Revived::default(),
        }
    }

    /// Another opening begins: no end may be established on a number from before.
    pub fn begin(&mut self, opener: Opener) {
        self.opener = opener;
        self.over = (self.drawn.len(), self.ours.next_number());
    }

    pub fn we_listen(&mut self) -> Result<(), String> {
        self.world.note("our station listens");
        self.ours.listen()
    }

    pub fn we_open(&mut self) -> Result<(), String> {
        self.world.pause(PAUSE);
        let syn = self.ours.open()?;
        self.send(syn, "our station opens");
        Ok(())
    }

    pub fn kernel_listens(&mut self) -> Result<(), String> {
        self.world.note("the kernel listens");
        self.listener = Some(world::kernel_listens()?);
        Ok(())
    }

    /// The kernel connects, after the first time with a number that is as near to its last one as may be.
    pub fn kernel_connects(&mut self) -> Result<(), String> {
        self.world.pause(PAUSE);
        self.world.note("the kernel connects");
        let stream = match self.drawn.last() {
            None => world::kernel_connects()?,
            Some(last) => world::kernel_connects_under(last.wrapping_add(APART))?,
        };
        sys::reset_on_close(&stream)?;
        self.stream = Some(stream);
        self.collect()
    }

    /// Our power is cut: the record is a closed one, endpoints and window stay.
    pub fn power_cut(&mut self) -> Result<(), String> {
        self.world.note("our power is cut");
        self.ours.power_cut()?;
        let closed = self.ours.record == closed_record(OURS, KERNEL);
        surely(closed, format!("a power cut has left {:?}", self.ours.record))
    }

    /// What our station sends goes on the way.
    pub fn send(&mut self, datagram: Datagram, what: &str) {
        self.world.note(format!("{what}: {}", datagram.said));
        self.way.push(datagram);
    }

    /// What is on the way never arrives.
    pub fn lose_all(&mut self) {
        let lost: Vec<String> = self.way.drain(..).map(|d| d.said.to_string()).collect();
        self.world.note(format!("lost: {}", lost.join("; ")));
    }

    /// What the kernel has sent, and whether it has accepted.
    pub fn collect(&mut self) -> Result<(), String> {
        while let Some(datagram) = self.world.waiting()? {
            self.sent_by_kernel(datagram)?;
        }
        self.accept()
    }

    /// The same, until the kernel is silent: an answer that comes late must not change the run.
    pub fn settle(&mut self) -> Result<(), String> {
        while let Some(datagram) = self.world.answer()? {
            self.sent_by_kernel(datagram)?;
        }
        self.accept()
    }

    /// A new number of the kernel must keep demand 3's distance from its others.
    fn sent_by_kernel(&mut self, datagram: Datagram) -> Result<(), String> {
        let number = datagram.said.seq;
        if datagram.said.control & SYN != 0 && !self.drawn.contains(&number) {
            let apart = |old: &u32| number.wrapping_sub(*old).min(old.wrapping_sub(number)) >= APART;
            must(self.drawn.iter().all(apart), format!("the kernel drew {number} after {:?}", self.drawn))?;
            self.drawn.push(number);
        }
        self.way.push(datagram);
        Ok(())
    }

    /// The number that the kernel drew last.
    pub fn kernel_number(&self) -> Option<u32> {
        self.drawn.last().copied()
    }

    /// What the kernel has said since so many segments had passed, but for what its timer has sent again.
    pub fn news(&self, passed_before: usize) -> Vec<Said> {
        let passed = &self.world.passed;
        let before = |place: usize, d: &Datagram| passed[..place].iter().any(|p| p.said == d.said && p.src == d.src);
        let again = |place: usize, d: &Datagram| d.said.control & SYN != 0 && before(place, d);
        let since = passed.iter().enumerate().skip(passed_before);
        since.filter(|(place, d)| !to_kernel(d) && !again(*place, d)).map(|(_, d)| d.said).collect()
    }

    fn accept(&mut self) -> Result<(), String> {
        let Some(listener) = &self.listener else { return Ok(()) };
        if let Some(stream) = accepted(listener)? {
            sys::reset_on_close(&stream)?;
            self.stream = Some(stream);
        }
        Ok(())
    }

    /// What is at this place on the way arrives.
    pub fn deliver(&mut self, place: usize) -> Result<(), String> {
        let datagram = self.way.remove(place);
        self.hand_over(&datagram)
    }

    /// A segment arrives, from the way or from long ago.
    pub fn hand_over(&mut self, datagram: &Datagram) -> Result<(), String> {
        if to_kernel(datagram) {
            self.world.put(datagram)?;
            self.settle()?;
        } else {
            self.world.note(format!("arrives at our station: {}", datagram.said));
            if let Some(answer) = self.ours.arrive(datagram)? {
                self.send(answer, "our station answers");
            }
        }
        self.look()
    }

    /// The kernel's SND.NXT and RCV.NXT, where it is established.
    fn kernel_numbers(&self) -> Result<Option<(u32, u32)>, String> {
        match &self.stream {
            Some(stream) if sys::info_state(stream)? == sys::INFO_ESTABLISHED => sys::numbers(stream).map(Some),
            _ => Ok(None),
        }
    }

    /// Whatever has arrived: an established end is on numbers of this opening, and two are on each other's.
    fn look(&self) -> Result<(), String> {
        let kernel = self.kernel_numbers()?;
        let record = &self.ours.record;
        let established = record.state == ESTABLISHED;
        if established {
            let current = self.drawn[self.over.0..].contains(&record.irs) && record.iss >= self.over.1;
            surely(current, format!("our station is established on an older number: {record:?}"))?;
        }
        if let Some((next, expected)) = kernel {
            let iss = self.drawn[self.over.0..].contains(&next.wrapping_sub(1));
            let irs = expected.wrapping_sub(1) >= self.over.1 && self.ours.drew(expected.wrapping_sub(1));
            surely(iss && irs, format!("the kernel is established on an older number: {next}, {expected}"))?;
            let agree = !established || (next, expected) == (record.rcvnxt, record.nxt);
            surely(agree, format!("both are established, the kernel on {next}, {expected}, ours is {record:?}"))?;
        }
        Ok(())
    }

    /// Delivers until nothing is on the way.
    pub fn flow(&mut self, first: First) -> Result<(), String> {
        for _ in 0..DELIVERIES {
            self.collect()?;
            let place = match first {
                _ if self.way.is_empty() => return Ok(()),
                First::Oldest => 0,
                First::Newest => self.way.len() - 1,
            };
            self.deliver(place)?;
        }
        Err(format!("no end after {DELIVERIES} deliveries"))
    }

    /// Delivers, and has the owners call again, until both are established on the same numbers and nothing
    /// is on the way.
    pub fn complete(&mut self, first: First) -> Result<(), String> {
        for _ in 0..CALLS {
            self.flow(first)?;
            self.settle()?;
            if self.way.is_empty() && self.is_done()? {
                return self.must_agree();
            }
            if self.way.is_empty() {
                self.revive()?;
            }
        }
        Err(format!("no end after {CALLS} calls"))
    }

    pub fn is_done(&self) -> Result<bool, String> {
        Ok(self.ours.record.state == ESTABLISHED && self.kernel_numbers()?.is_some())
    }

    pub fn must_agree(&self) -> Result<(), String> {
        let stream = self.stream.as_ref().ok_or("the kernel has no socket")?;
        must_agree(&self.ours, stream)
    }

    /// Nothing is on the way and the opening not complete: the owners do what there is to do.
    pub fn revive(&mut self) -> Result<(), String> {
        if self.call_again()? {
            self.revived.called += 1;
            return Ok(());
        }
        if self.can_resend() {
            return self.resend();
        }
        // The kernel is established with a station that is not there any more, and will not say a word.
        if self.ours.record.state == LISTEN && self.kernel_numbers()?.is_some() {
            self.revived.called += 1;
            return self.kernel_gives_up();
        }
        self.revived.awaited += 1;
        let again = self.world.next_within(KERNEL_TIMER)?;
        self.sent_by_kernel(again.ok_or("the kernel did not send again")?)
    }

    /// Who is closed and should not be opens or listens; whether there was one.
    fn call_again(&mut self) -> Result<bool, String> {
        let (ours, kernel) = (self.ours.record.state == CLOSED, self.kernel_is_closed()?);
        if ours {
            if self.opener == Opener::Kernel { self.we_listen() } else { self.we_open() }?;
        }
        if kernel {
            if self.opener == Opener::We { self.kernel_listens() } else { self.kernel_connects() }?;
        }
        Ok(ours || kernel)
    }

    fn kernel_is_closed(&mut self) -> Result<bool, String> {
        if let Some(stream) = &self.stream {
            if sys::info_state(stream)? != sys::INFO_CLOSED {
                return Ok(false);
            }
            self.stream = None;
        }
        Ok(self.listener.is_none())
    }

    pub fn can_resend(&self) -> bool {
        matches!(self.ours.record.state, SYN_SENT | SYN_RECEIVED)
    }

    pub fn resend(&mut self) -> Result<(), String> {
        self.revived.resent += 1;
        let again = self.ours.resend()?;
        self.send(again, "our station resends");
        Ok(())
    }

    /// The kernel's owner ends its connection; the reset goes on the way.
    pub fn kernel_gives_up(&mut self) -> Result<(), String> {
        self.world.note("the kernel's owner closes with a reset");
        self.stream = None;
        self.settle()
    }

    /// The end of an opening by the kernel's reset, or by ours; both ends are then closed and the way is empty.
    pub fn closed_by_kernel(&mut self) -> Result<(), String> {
        self.kernel_gives_up()?;
        self.all_closed()
    }

    pub fn closed_by_us(&mut self) -> Result<(), String> {
        let reset = self.ours.abort()?;
        self.send(reset, "our station aborts");
        self.all_closed()
    }

    fn all_closed(&mut self) -> Result<(), String> {
        self.listener = None;
        self.flow(First::Oldest)?;
        self.stream = None;
        self.ours.must_be(CLOSED)?;
        kernel_must_be(CLOSED)
    }
}
