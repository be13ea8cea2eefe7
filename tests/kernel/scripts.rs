//! The segments that `compare` gives to both ends, state by state, and every difference that is expected.
//! P1 to P10 and P12 are those of 01; where 01's example has a fresh number, the kernel's own stands for
//! it (`Iss(1)` is its ISS + 1). A connect's number can be chosen, so P5 to P8 have 01's.
//!
//! "In the window" is 1,000 past RCV.NXT, "beyond" is 200,000: so for our 4,096 and the kernel's 64,240.

use crate::compare::Begin::{Closed, Connecting, Listening};
use crate::compare::Number::{Iss, Plain};
use crate::compare::{Begin, Listed, Number, Script, Step};
use crate::station::{ESTABLISHED, LISTEN, SYN_RECEIVED};
use crate::wire::{ACK, RST, SYN};

/// Why the kernel does otherwise. 01 follows RFC 9293 without what that takes from RFC 5961, and document
/// 000 for a SYN in the window.
const RESET_EXACT: &str = "RFC 5961, 3: a reset in the window that is not at RCV.NXT draws an ACK";
const SYN_CHALLENGED: &str = "RFC 5961, 4: a SYN in the window draws an ACK";
const OLD_ACK: &str = "RFC 5961, 5: an acknowledgment older than SND.UNA by more than a window draws an ACK";
const OLD_ACK_SHARPER: &str = "RFC 5961, 5, and sharper: Linux takes no acknowledgment of octets it never sent";
const BACK_TO_LISTEN: &str =
    "RFC 9293, 3.10.7.4: a SYN sends a passive opening back to LISTEN; 01 has CLOSED, as document 000";
const SYN_AGAIN: &str = "Linux takes the same SYN for one sent again and sends its SYN,ACK again";
const ACK_FIRST: &str = "Linux looks at a half open connection's acknowledgment before its sequence number";
const CROSSING: &str = "Linux takes the SYN,ACK of crossing opens as RFC 793 draws it; 01 waits for an ACK";
const UNA_TAKEN: &str = "RFC 793: SEG.ACK = SND.UNA is taken in SYN-RECEIVED; RFC 9293 and 01 do not";
const LARGER_WINDOW: &str = "the kernel's window is larger than 4,096: 4197 is in it, and RFC 5961, 3 applies";

fn segment(control: u8, seq: u32, ack: Number) -> Step {
    Step { control, seq, ack, window: 4096, checksum: None, listed: None }
}

fn syn(seq: u32) -> Step {
    segment(SYN, seq, Plain(0))
}

fn syn_ack(seq: u32, ack: Number) -> Step {
    segment(SYN | ACK, seq, ack)
}

fn ack(seq: u32, ack: Number) -> Step {
    segment(ACK, seq, ack)
}

fn rst(seq: u32) -> Step {
    segment(RST, seq, Plain(0))
}

fn rst_ack(seq: u32, ack: Number) -> Step {
    segment(RST | ACK, seq, ack)
}

fn no_bits(seq: u32) -> Step {
    segment(0, seq, Plain(0))
}

/// P12's segment: P11's with window 8fac, so that the sum without the checksum is 65,535. Its ends are the
/// other way round, which leaves the sum as it is.
fn p12(checksum: u16) -> Step {
    Step { window: 0x8fac, checksum: Some(checksum), ..syn(100) }
}

impl Step {
    /// The kernel is expected to answer this instead, and to be in this state.
    fn but(self, answer: Option<(u8, Number, u32)>, state: u8, why: &'static str) -> Step {
        Step { listed: Some(Listed { answer, state, why }), ..self }
    }

    /// The kernel is expected to answer with an ACK and to stay, at RCV.NXT 101.
    fn challenged(self, state: u8, why: &'static str) -> Step {
        self.but(Some((ACK, Iss(1), 101)), state, why)
    }
}

fn script(name: &'static str, begin: Begin, steps: &[Step]) -> Script {
    Script { name, begin, steps: steps.to_vec() }
}

/// After P1: SYN-RECEIVED with the mark, RCV.NXT 101.
fn received(name: &'static str, steps: &[Step]) -> Script {
    Script { name, begin: Listening, steps: [&[syn(100)], steps].concat() }
}

/// After P2: ESTABLISHED, RCV.NXT 101.
fn established(name: &'static str, steps: &[Step]) -> Script {
    Script { name, begin: Listening, steps: [&[syn(100), ack(101, Iss(1))], steps].concat() }
}

/// After P6: SYN-RECEIVED without the mark, ISS 100, RCV.NXT 301.
fn crossed(name: &'static str, steps: &[Step]) -> Script {
    Script { name, begin: Connecting(100), steps: [&[syn(300)], steps].concat() }
}

pub fn all() -> Vec<Script> {
    [at_closed(), at_listen(), at_sent(), at_received(), at_crossed(), at_established()].into_iter().flatten().collect()
}

fn at_closed() -> Vec<Script> {
    vec![
        script("P10, SYN 4,294,967,295 at CLOSED", Closed, &[syn(4_294_967_295)]),
        script("an ACK at CLOSED", Closed, &[ack(300, Plain(101))]),
        script("a SYN,ACK at CLOSED", Closed, &[syn_ack(300, Plain(101))]),
        script("resets at CLOSED", Closed, &[rst(300), rst_ack(300, Plain(101))]),
        script("no bits at CLOSED", Closed, &[no_bits(300)]),
    ]
}

fn at_listen() -> Vec<Script> {
    vec![
        script("P1", Listening, &[syn(100)]),
        script("P12 with checksum 0000", Listening, &[p12(0)]),
        script("P12 with checksum ffff", Listening, &[p12(0xffff)]),
        script("resets at LISTEN", Listening, &[rst(100), rst_ack(100, Plain(5)), segment(SYN | RST, 100, Plain(0))]),
        script("an ACK and a SYN,ACK at LISTEN", Listening, &[ack(100, Plain(5)), syn_ack(100, Plain(6))]),
        script("no bits at LISTEN", Listening, &[no_bits(100)]),
    ]
}

fn at_sent() -> Vec<Script> {
    vec![
        script("P5", Connecting(100), &[syn_ack(300, Plain(101))]),
        script("P6", Connecting(100), &[syn(300)]),
        script("P7, and then the right SYN,ACK", Connecting(400), &[ack(300, Plain(101)), syn_ack(300, Plain(401))]),
        script("P8", Connecting(4_294_967_295), &[syn_ack(300, Plain(0))]),
        script("a right ACK at SYN-SENT", Connecting(100), &[ack(300, Plain(101))]),
        script("a reset without ACK at SYN-SENT", Connecting(100), &[rst(300)]),
        script("a reset with the right ACK at SYN-SENT", Connecting(100), &[rst_ack(300, Plain(101))]),
        script("a reset with a wrong ACK at SYN-SENT", Connecting(100), &[rst_ack(300, Plain(102))]),
        script("SYN,ACKs one off at SYN-SENT", Connecting(100), &[syn_ack(300, Plain(100)), syn_ack(300, Plain(102))]),
        script("no bits at SYN-SENT", Connecting(100), &[no_bits(300)]),
    ]
}

fn at_received() -> Vec<Script> {
    let (right, again) = (ack(101, Iss(1)), (SYN | ACK, Iss(0), 101));
    vec![
        received("P2", &[right]),
        received("P3, and then the right ACK", &[ack(101, Iss(0)), right]),
        received("P4, and then the right ACK", &[ack(101, Iss(2)), right]),
        received("an ACK in the window at SYN-RECEIVED", &[ack(1101, Iss(1))]),
        received("right ACKs out of the window at SYN-RECEIVED", &[ack(100, Iss(1)), ack(200_000, Iss(1)), right]),
        received(
            "a wrong ACK out of the window at SYN-RECEIVED",
            &[ack(200_000, Iss(5)).but(Some((RST, Iss(5), 0)), SYN_RECEIVED, ACK_FIRST), right],
        ),
        received("the same SYN at SYN-RECEIVED", &[syn(100).but(Some(again), SYN_RECEIVED, SYN_AGAIN), right]),
        received("stray SYNs out of the window at SYN-RECEIVED", &[syn(200_000), syn_ack(100, Iss(1)), right]),
        received(
            "a stray SYN in the window at SYN-RECEIVED",
            &[syn(1101).but(Some((RST | ACK, Plain(0), 1102)), LISTEN, BACK_TO_LISTEN)],
        ),
        received(
            "a stray SYN,ACK in the window at SYN-RECEIVED",
            &[syn_ack(1101, Iss(1)).but(Some((RST, Iss(1), 0)), LISTEN, BACK_TO_LISTEN)],
        ),
        received("an exact reset at SYN-RECEIVED, and P1 again", &[rst(101), syn(100)]),
        received("an exact reset with a wrong ACK at SYN-RECEIVED", &[rst_ack(101, Iss(5))]),
        received("a reset in the window at SYN-RECEIVED", &[rst(1101).challenged(SYN_RECEIVED, RESET_EXACT)]),
        received("resets out of the window at SYN-RECEIVED", &[rst(100), rst(200_000), right]),
        received("no bits at SYN-RECEIVED", &[no_bits(101), right]),
    ]
}

fn at_crossed() -> Vec<Script> {
    let challenge = Some((ACK, Plain(101), 301));
    vec![
        crossed("crossing opens, the ACK", &[ack(301, Plain(101))]),
        crossed("crossing opens, the SYN,ACK", &[syn_ack(300, Plain(101)).but(challenge, ESTABLISHED, CROSSING)]),
        crossed("crossing opens, the SYN again", &[syn(300)]),
        crossed("crossing opens, ACK of ISS", &[ack(301, Plain(100)).but(None, ESTABLISHED, UNA_TAKEN)]),
        crossed("crossing opens, ACK of ISS + 2", &[ack(301, Plain(102))]),
        crossed("crossing opens, an exact reset", &[rst(301)]),
        crossed("crossing opens, a reset in the window", &[rst(1301).but(challenge, SYN_RECEIVED, RESET_EXACT)]),
        crossed("crossing opens, a SYN in the window", &[syn(1301).but(challenge, SYN_RECEIVED, SYN_CHALLENGED)]),
    ]
}

fn at_established() -> Vec<Script> {
    vec![
        established("P9, RST 100 and one beyond", &[rst(100), rst(200_000)]),
        established("P9, RST 4196", &[rst(4196).challenged(ESTABLISHED, RESET_EXACT)]),
        established("P9, RST 4197", &[rst(4197).challenged(ESTABLISHED, LARGER_WINDOW)]),
        established("an exact reset at ESTABLISHED", &[rst(101)]),
        established("a SYN in the window at ESTABLISHED", &[syn(1101).challenged(ESTABLISHED, SYN_CHALLENGED)]),
        established("SYNs out of the window at ESTABLISHED", &[syn(100), syn(200_000)]),
        established("ACKs of NXT and past it at ESTABLISHED", &[ack(101, Iss(1)), ack(101, Iss(2))]),
        established("an ACK of ISS at ESTABLISHED", &[ack(101, Iss(0)).challenged(ESTABLISHED, OLD_ACK_SHARPER)]),
        established("an old ACK at ESTABLISHED", &[ack(101, Iss(-100_000)).challenged(ESTABLISHED, OLD_ACK)]),
        established("ACKs out of the window at ESTABLISHED", &[ack(100, Iss(1)), ack(200_000, Iss(1))]),
        established("no bits at ESTABLISHED", &[no_bits(101)]),
    ]
}
