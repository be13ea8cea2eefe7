//! A world of its own for each scenario: a network namespace in which the kernel is 10.0.0.1 and the
//! wire to 10.0.0.2 ends in the rig's hands.

use crate::checks::surely;
use crate::counts::{Counts, NONE, SEGMENT};
use crate::station::ESTABLISHED;
use crate::sys::{self, Device, NoRig};
use crate::wire::{hex, Datagram, KERNEL, OURS, RST, SYN};
use std::collections::VecDeque;
use std::fs::{self, File};
use std::io::{Read, Write};
use std::net::{Ipv4Addr, TcpListener, TcpStream};
use std::time::{Duration, Instant};

/// For an answer that must come.
pub const PATIENCE: Duration = Duration::from_secs(2);
/// For one that should not. The kernel answers within the write that hands it a datagram but for rare
/// cases on a busy machine, so this is long enough to see what it says.
const SILENCE: Duration = Duration::from_millis(20);

/// The kernel sends a SYN,ACK or SYN again after one second.
const KERNEL_TIMER: Duration = Duration::from_millis(800);

/// The device at whose other end the rig sits.
pub const DEVICE: &str = "t0";

pub struct World {
    wire: File,
    /// The way into the device for strays, once it was asked for; or why there is none.
    device: Option<Result<Device, String>>,
    /// What was read from the wire and not asked for yet: segments between the two ends, and the rest.
    segments: VecDeque<Datagram>,
    strays: VecDeque<Vec<u8>>,
    /// Octets that the rig has sent through the device to our station; they need not be datagrams.
    sent_strays: Vec<Vec<u8>>,
    /// Every segment that passed the wire, in order: what a capture keeps.
    pub passed: Vec<Datagram>,
    /// What happened, a line each: what a failure shows.
    story: Vec<String>,
    /// The errors that the kernel must have counted by now, each sent on purpose.
    on_purpose: Counts,
    /// When the scenario began, and how long it has waited for the kernel since.
    begun: Instant,
    waited: Duration,
}

impl World {
    /// Moves the calling thread into a new world.
    pub fn new() -> Result<World, NoRig> {
        sys::own_network()?;
        small_tables_from_here();
        sys::own_network()?;
        let wire = sys::tun(DEVICE)?;
        sys::bring_up("lo", None)?;
        sys::bring_up(DEVICE, Some((KERNEL.0, OURS.0)))?;
        answer_every_time().map_err(NoRig::Refused)?;
        Ok(World {
            wire,
            device: None,
            segments: VecDeque::new(),
            strays: VecDeque::new(),
            sent_strays: Vec::new(),
            passed: Vec::new(),
            story: Vec::new(),
            on_purpose: NONE,
            begun: Instant::now(),
            waited: Duration::ZERO,
        })
    }

    /// Another scenario begins in this world.
    pub fn begin(&mut self) {
        self.passed.clear();
        self.story.clear();
        self.begun = Instant::now();
        self.waited = Duration::ZERO;
    }

    /// Whether the kernel's timer may have run out between two steps: the scenario has taken so long beyond
    /// what it waited for the kernel. That is a few milliseconds, unless the machine was busy elsewhere.
    pub fn is_late(&self) -> bool {
        self.begun.elapsed().saturating_sub(self.waited) > KERNEL_TIMER
    }

    /// A line of the story.
    pub fn note(&mut self, line: impl Into<String>) {
        self.story.push(line.into());
    }

    pub fn story(&self) -> &[String] {
        &self.story
    }

    /// Hands the kernel a segment, whose checksums are right. The kernel counts a SYN that meets an
    /// established connection as an error (and answers it as RFC 5961 says).
    pub fn put(&mut self, datagram: &Datagram) -> Result<(), String> {
        surely(datagram.is_whole(), format!("a wrong checksum: {}", hex(&datagram.octets)))?;
        let syn = datagram.said.control & (SYN | RST) == SYN;
        let error = if syn && kernel_state() == Ok(ESTABLISHED) { SEGMENT } else { NONE };
        self.passed.push(datagram.clone());
        self.note(format!("{datagram}"));
        self.put_octets(&datagram.octets, error)
    }

    /// Hands the kernel any octets, and says what it must count for them.
    pub fn put_octets(&mut self, octets: &[u8], error: Counts) -> Result<(), String> {
        self.on_purpose += error;
        self.wire.write_all(octets).map_err(|e| format!("write to the wire: {e}"))
    }

    /// What the kernel has counted otherwise than was sent on purpose, if anything.
    pub fn miscounted(&self) -> Option<String> {
        match Counts::now() {
            Ok(now) if now == self.on_purpose => None,
            Ok(now) => Some(format!("the kernel counts {now}; on purpose: {}", self.on_purpose)),
            Err(reason) => Some(reason),
        }
    }

    /// Sends octets through the device to our station, as anything on the kernel's machine might. Where the
    /// machine has no way into the device, they are laid where they would have come out.
    pub fn send_octets(&mut self, octets: &[u8]) -> Result<(), String> {
        if self.device.get_or_insert_with(|| Device::open(DEVICE)).is_err() {
            self.strays.push_back(octets.to_vec());
            return Ok(());
        }
        self.sent_strays.push(octets.to_vec());
        self.device.iter().flatten().try_for_each(|device| device.send(octets))
    }

    /// Why strays did not go through the device, if they did not.
    pub fn no_device(&self) -> Option<&String> {
        self.device.as_ref()?.as_ref().err()
    }

    /// The next of what stands on the wire and is no segment between the two ends, if any comes in time.
    pub fn stray_within(&mut self, time: Duration) -> Result<Option<Vec<u8>>, String> {
        self.first_within(time, |world| world.strays.pop_front())
    }

    /// The next segment from the kernel, if one comes in time. What else it says, of its own (IPv6
    /// solicitations on a new device) or of what it was sent, stays with the strays.
    pub fn next_within(&mut self, time: Duration) -> Result<Option<Datagram>, String> {
        self.first_within(time, |world| world.segments.pop_front())
    }

    fn first_within<T>(
        &mut self,
        time: Duration,
        first: impl Fn(&mut World) -> Option<T>,
    ) -> Result<Option<T>, String> {
        let end = Instant::now() + time;
        loop {
            if let Some(found) = first(self) {
                return Ok(Some(found));
            }
            if !self.readable(end.saturating_duration_since(Instant::now())) {
                return Ok(None);
            }
            self.read_one()?;
        }
    }

    /// Lets the kernel's clock go on.
    pub fn pause(&mut self, time: Duration) {
        std::thread::sleep(time);
        self.waited += time;
    }

    fn readable(&mut self, time: Duration) -> bool {
        let begun = Instant::now();
        let readable = sys::readable(&self.wire, time.as_millis() as i32);
        self.waited += begun.elapsed().min(time);
        readable
    }

    /// Reads the wire once.
    fn read_one(&mut self) -> Result<(), String> {
        let mut octets = [0; 2048];
        let size = self.wire.read(&mut octets).map_err(|e| format!("read from the wire: {e}"))?;
        let octets = &octets[..size];
        if let Some(place) = self.sent_strays.iter().position(|sent| sent == octets) {
            self.strays.push_back(self.sent_strays.remove(place));
            return Ok(());
        }
        match Datagram::read(octets)? {
            Some(datagram) if datagram.from() == KERNEL && datagram.to() == OURS => self.segment(datagram),
            _ => {
                self.strays.push_back(octets.to_vec());
                Ok(())
            }
        }
    }

    fn segment(&mut self, datagram: Datagram) -> Result<(), String> {
        surely(datagram.is_whole(), format!("the kernel's checksum is wrong: {}", hex(&datagram.octets)))?;
        self.passed.push(datagram.clone());
        self.note(format!("{datagram}"));
        self.segments.push_back(datagram);
        Ok(())
    }

    /// The next datagram from the kernel, which must come.
    pub fn next(&mut self, what: &str) -> Result<Datagram, String> {
        self.next_within(PATIENCE)?.ok_or(format!("{what} did not come"))
    }

    /// What the kernel has said by now, if anything.
    pub fn waiting(&mut self) -> Result<Option<Datagram>, String> {
        self.next_within(Duration::ZERO)
    }

    /// What the kernel answers, if it does not stay silent.
    pub fn answer(&mut self) -> Result<Option<Datagram>, String> {
        self.next_within(SILENCE)
    }

    /// The kernel must stay silent.
    pub fn silent(&mut self) -> Result<(), String> {
        match self.answer()? {
            Some(datagram) => Err(format!("silence expected, seen: {datagram}")),
            None => Ok(()),
        }
    }
}

/// The kernel sends at most one ACK for an unacceptable segment in 500 ms (tcp_invalid_ratelimit). With 0
/// it answers each of them, so that what is seen does not hang on the rig's speed. Of this world only.
fn answer_every_time() -> Result<(), String> {
    let path = "/proc/sys/net/ipv4/tcp_invalid_ratelimit";
    fs::write(path, "0").map_err(|e| format!("{path}: {e}"))
}

/// The kernel's table of connections is one for all namespaces, and `kernel_state` reads all of it, in 9 ms.
/// A namespace made from one with this setting has a table of its own, which is read in 0.2 ms. A kernel
/// older than 6.1 does not have the setting: the rig is slower there.
fn small_tables_from_here() {
    let _ = fs::write("/proc/sys/net/ipv4/tcp_child_ehash_entries", "64");
}

/// A kernel listener at 10.0.0.1 port 1024. The standard library sets SO_REUSEADDR.
pub fn kernel_listens() -> Result<TcpListener, String> {
    let listener = TcpListener::bind((Ipv4Addr::from(KERNEL.0), KERNEL.1)).map_err(|e| format!("listen: {e}"))?;
    listener.set_nonblocking(true).map_err(|e| format!("listen: {e}"))?;
    Ok(listener)
}

/// A kernel connect under way, from 10.0.0.1 port 1024 to our station.
pub fn kernel_connects() -> Result<TcpStream, String> {
    sys::connecting(KERNEL, OURS, None)
}

/// The same under a number that the rig chooses.
pub fn kernel_connects_under(iss: u32) -> Result<TcpStream, String> {
    sys::connecting(KERNEL, OURS, Some(iss))
}

/// What the kernel has accepted, if anything.
pub fn accepted(listener: &TcpListener) -> Result<Option<TcpStream>, String> {
    match listener.accept() {
        Ok((stream, _)) => Ok(Some(stream)),
        Err(e) if e.kind() == std::io::ErrorKind::WouldBlock => Ok(None),
        Err(e) => Err(format!("accept: {e}")),
    }
}

/// The kernel's state at its end of our connection, in the library's numbers. Its table has the
/// connection if there is one, also half open ones, and the listener if there is one.
pub fn kernel_state() -> Result<u8, String> {
    let path = "/proc/thread-self/net/tcp";
    let table = fs::read_to_string(path).map_err(|e| format!("{path}: {e}"))?;
    let (own, peer) = (table_end(KERNEL.0, KERNEL.1), table_end(OURS.0, OURS.1));
    let state_with = |remote: &str| {
        let columns = table.lines().map(|line| line.split_whitespace().collect::<Vec<_>>());
        columns.filter(|c| c.len() > 3 && c[1] == own && c[2] == remote).map(|c| c[3].to_string()).next()
    };
    match state_with(&peer).or(state_with("00000000:0000")).as_deref() {
        None | Some("07") => Ok(0),
        Some("0A") => Ok(1),
        Some("02") => Ok(2),
        Some("03") => Ok(3),
        Some("01") => Ok(4),
        Some(other) => Err(format!("the kernel is in a state that 01 does not have: {other}")),
    }
}

fn table_end(address: [u8; 4], port: u16) -> String {
    format!("{:08X}:{port:04X}", u32::from_ne_bytes(address))
}
