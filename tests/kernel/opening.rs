//! Plain openings, from either side, and what our station refuses from a kernel.

use crate::checks::{must, must_agree, must_say, surely, Outcome};
use crate::counts::{CHECKSUM, IP_HEADER};
use crate::station::{Received, Station, CLOSED, ESTABLISHED, SYN_RECEIVED};
use crate::strays::damaged;
use crate::sys;
use crate::wire::{said, Datagram, ACK, IP_SIZE, RST, SYN};
use crate::world::{accepted, kernel_connects, kernel_listens, World};
use std::io::Write;
use std::net::{TcpListener, TcpStream};

/// The kernel connects to our listening station.
pub fn kernel_opens(w: &mut World) -> Outcome {
    let (mut ours, kernel) = opened_by_kernel(w)?;
    must_agree(&ours, &kernel)?;
    let seen = format!("both ESTABLISHED: kernel {}, ours {}", ours.record.irs, ours.record.iss);
    let options = w.passed[0].options;
    must(options > 0, "the kernel's SYN has no options: our reader has skipped nothing")?;
    closes_with_reset(w, &mut ours, kernel)?;
    Ok(vec![format!("{seen}; {options} octets of options skipped; the kernel's reset closes ours")])
}

/// SYN, SYN,ACK and ACK between a connecting kernel and our station, each checked.
pub fn opened_by_kernel(w: &mut World) -> Result<(Station, TcpStream), String> {
    let mut ours = Station::closed();
    ours.listen()?;
    let iss = ours.next_number();
    let kernel = kernel_connects()?;
    let syn = w.next("the kernel's SYN")?;
    let irs = syn.said.seq;
    must_say(&syn, said(SYN, irs, 0))?;
    let syn_ack = ours.answer(&syn)?;
    must_say(&syn_ack, said(SYN | ACK, iss, irs.wrapping_add(1)))?;
    ours.must_be(SYN_RECEIVED)?;
    w.put(&syn_ack)?;
    let ack = w.next("the kernel's ACK")?;
    must_say(&ack, said(ACK, irs.wrapping_add(1), iss + 1))?;
    must(ours.arrive(&ack)?.is_none(), "our station answered the ACK")?;
    w.silent()?;
    Ok((ours, kernel))
}

/// Our station opens to a kernel listener.
pub fn we_open(w: &mut World) -> Outcome {
    let listener = kernel_listens()?;
    let mut ours = Station::closed();
    let syn = ours.open()?;
    must_say(&syn, said(SYN, 65_536, 0))?;
    let kernel = opening_completes(w, &mut ours, &syn, &listener)?;
    must_agree(&ours, &kernel)?;
    let seen = format!("both ESTABLISHED, accept returned: kernel {}, ours {}", ours.record.irs, ours.record.iss);
    closes_with_reset(w, &mut ours, kernel)?;
    Ok(vec![format!("{seen}; the kernel's reset closes ours")])
}

/// Our SYN, the kernel's SYN,ACK and our ACK, each checked; the socket that the kernel then has.
fn opening_completes(
    w: &mut World,
    ours: &mut Station,
    syn: &Datagram,
    listener: &TcpListener,
) -> Result<TcpStream, String> {
    let iss = syn.said.seq;
    w.put(syn)?;
    let syn_ack = w.next("the kernel's SYN,ACK")?;
    let irs = syn_ack.said.seq;
    must_say(&syn_ack, said(SYN | ACK, irs, iss + 1))?;
    let ack = ours.answer(&syn_ack)?;
    must_say(&ack, said(ACK, iss + 1, irs.wrapping_add(1)))?;
    must(accepted(listener)?.is_none(), "the kernel accepted before our ACK")?;
    w.put(&ack)?;
    w.silent()?;
    accepted(listener)?.ok_or("the kernel did not accept".into())
}

/// Both open, and the SYNs cross. By 01 a SYN,ACK draws an ACK, and the ACK establishes; the kernel takes
/// our SYN,ACK at once, and its ACK, which it sends all the same, establishes our station.
pub fn crossing(w: &mut World) -> Outcome {
    let mut ours = Station::closed();
    let kernel = kernel_connects()?;
    let its_syn = w.next("the kernel's SYN")?;
    let our_syn = ours.open()?;
    let (irs, iss) = (its_syn.said.seq, our_syn.said.seq);
    w.put(&our_syn)?;
    let its_syn_ack = w.next("the kernel's SYN,ACK")?;
    must_say(&its_syn_ack, said(SYN | ACK, irs, iss + 1))?;
    let our_syn_ack = ours.answer(&its_syn)?;
    must_say(&our_syn_ack, said(SYN | ACK, iss, irs.wrapping_add(1)))?;
    w.put(&our_syn_ack)?;
    let its_ack = w.next("the kernel's ACK")?;
    must_say(&its_ack, said(ACK, irs.wrapping_add(1), iss + 1))?;
    let our_ack = ours.answer(&its_syn_ack)?;
    must_say(&our_ack, said(ACK, iss + 1, irs.wrapping_add(1)))?;
    ours.must_be(SYN_RECEIVED)?;
    must(ours.arrive(&its_ack)?.is_none(), "our station answered the ACK")?;
    w.put(&our_ack)?;
    w.silent()?;
    must_agree(&ours, &kernel)?;
    Ok(vec![format!("both ESTABLISHED: kernel {irs}, ours {iss}; ours by the kernel's ACK")])
}

/// The kernel closes with SO_LINGER {1, 0}: its reset closes our station.
pub fn closes_with_reset(w: &mut World, ours: &mut Station, kernel: TcpStream) -> Result<(), String> {
    sys::reset_on_close(&kernel)?;
    drop(kernel);
    let reset = w.next("the kernel's reset")?;
    must(reset.said.control & RST != 0, format!("a reset expected, seen: {reset}"))?;
    must(ours.arrive(&reset)?.is_none(), "our station answered a reset")?;
    ours.must_be(CLOSED)
}

/// Text and FIN of the kernel are refused with 6, and our record stays.
pub fn text_and_fin(w: &mut World) -> Outcome {
    let (mut ours, mut kernel) = opened_by_kernel(w)?;
    kernel.write_all(b"milk").map_err(|e| format!("write: {e}"))?;
    let text = w.next("the kernel's text")?;
    must(text.text == 4, format!("four octets of text expected, seen: {text}"))?;
    ours.refuses(&text, 6)?;
    drop(kernel);
    let fin = w.next("the kernel's FIN")?;
    must(fin.said.control & 1 != 0, format!("a FIN expected, seen: {fin}"))?;
    ours.refuses(&fin, 6)?;
    ours.must_be(ESTABLISHED)?;
    Ok(vec!["both refused with 6, our record stays".into()])
}

/// A datagram with one wrong octet, each in its turn, is passed over by the kernel, which counts them all;
/// a segment with one wrong octet is refused with 4 by our station.
pub fn damage(w: &mut World) -> Outcome {
    let _listener = kernel_listens()?;
    let mut ours = Station::closed();
    let syn = ours.open()?;
    for at in 0..syn.octets.len() {
        let error = if at < IP_SIZE { IP_HEADER } else { CHECKSUM };
        w.put_octets(&damaged(&syn.octets, at, 1), error)?;
    }
    w.silent()?;
    w.put(&syn)?;
    let syn_ack = w.next("the kernel's SYN,ACK to the whole SYN")?;
    for at in IP_SIZE..syn_ack.octets.len() {
        let received = ours.receive(&damaged(&syn_ack.octets, at, 1))?;
        surely(received == Received::Refused(4), format!("octet {at} damaged, refusal 4 expected: {received}"))?;
    }
    let (sent, met) = (syn.octets.len(), syn_ack.octets.len() - IP_SIZE);
    Ok(vec![format!("the kernel passes {sent} damaged SYNs over, our station refuses {met} damaged SYN,ACKs with 4")])
}
