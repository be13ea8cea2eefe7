//! Checks that the scenarios share.

use crate::station::{state_name, Station, ESTABLISHED};
use crate::sys;
use crate::wire::{Datagram, Said};
use crate::world::kernel_state;
use std::cell::RefCell;
use std::net::TcpStream;

/// What a scenario tells: what was seen, in one line or more, or what went wrong.
pub type Outcome = Result<Vec<String>, String>;

thread_local! {
    /// What has failed on this thread, and so in this scenario, that a busy machine cannot have caused.
    static FAULTS: RefCell<Vec<String>> = const { RefCell::new(Vec::new()) };
}

/// The faults of this thread so far. A scenario that has one has failed, whatever it tells, and is not run
/// again.
pub fn take_faults() -> Vec<String> {
    FAULTS.take()
}

pub fn must(holds: bool, what: impl Into<String>) -> Result<(), String> {
    holds.then_some(()).ok_or(what.into())
}

/// As `must`, of what holds however late anything comes: not holding is a fault.
pub fn surely(holds: bool, what: impl Into<String>) -> Result<(), String> {
    must(holds, what).inspect_err(|fault| FAULTS.with_borrow_mut(|faults| faults.push(fault.clone())))
}

pub fn must_say(datagram: &Datagram, expected: Said) -> Result<(), String> {
    must(datagram.said == expected, format!("{expected} expected, seen: {datagram}"))
}

pub fn kernel_must_be(state: u8) -> Result<(), String> {
    let now = kernel_state()?;
    must(now == state, format!("the kernel: {} expected, it is {}", state_name(state), state_name(now)))
}

/// Both ends are established, and each on the other's numbers: the kernel's own record is asked. What our
/// station sent to come here is what 01's program sends.
pub fn must_agree(ours: &Station, kernel: &TcpStream) -> Result<(), String> {
    ours.must_be(ESTABLISHED)?;
    let state = sys::info_state(kernel)?;
    must(state == sys::INFO_ESTABLISHED, format!("the kernel's socket is not established, but {state}"))?;
    must(socket_error(kernel)?.is_none(), "the kernel's socket has an error")?;
    let (next, expected) = sys::numbers(kernel)?;
    let record = &ours.record;
    let agree = next == record.rcvnxt && expected == record.nxt;
    surely(agree, format!("the kernel has SND.NXT {next}, RCV.NXT {expected}; ours is {record:?}"))?;
    ours.as_program()
}

/// SO_ERROR: the number of the error that waits at a socket.
pub fn socket_error(kernel: &TcpStream) -> Result<Option<i32>, String> {
    let error = kernel.take_error().map_err(|e| format!("SO_ERROR: {e}"))?;
    Ok(error.and_then(|e| e.raw_os_error()))
}
