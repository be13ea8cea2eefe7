//! Openings whose own segments come wrapped in other ways: behind options of the IP header, and as fragments
//! or under a wrong IP checksum. Our reader skips options and examines neither of the others, as 01 says of the
//! program; the kernel puts fragments together again.

use crate::checks::{must, must_agree, Outcome};
use crate::counts::NONE;
use crate::opening::closes_with_reset;
use crate::station::{Received, Station, ESTABLISHED};
use crate::strays::{fragment, with_options, NOP};
use crate::sys;
use crate::wire::{Datagram, IP_SIZE, KERNEL, OURS};
use crate::world::{accepted, kernel_connects, kernel_listens, World};
use std::net::TcpStream;

/// Openings by the kernel, every datagram of either side with an IP header of 6 to 15 words.
pub fn behind_options(w: &mut World) -> Outcome {
    (6..=15).try_for_each(|words| opened_behind(w, words))?;
    Ok(vec!["10 openings with IP headers of 6 to 15 words both ways, both ESTABLISHED".into()])
}

fn opened_behind(w: &mut World, words: usize) -> Result<(), String> {
    w.begin();
    let options = vec![NOP; 4 * words - IP_SIZE];
    let mut ours = Station::closed();
    ours.listen()?;
    let kernel = connects_behind(&options)?;
    let syn_ack = ours.answer(&next_behind(w, words)?)?;
    let wrapped = with_options(&syn_ack.octets, &options);
    w.put(&Datagram::read(&wrapped)?.ok_or("no TCP over IPv4")?)?;
    let ack = next_behind(w, words)?;
    must(ours.arrive(&ack)?.is_none(), "our station answered the ACK")?;
    w.silent()?;
    must_agree(&ours, &kernel)?;
    closes_with_reset(w, &mut ours, kernel)
}

fn connects_behind(options: &[u8]) -> Result<TcpStream, String> {
    let socket = sys::bound(KERNEL)?;
    sys::send_with_ip_options(&socket, options)?;
    sys::connect_to(socket, OURS)
}

fn next_behind(w: &mut World, words: usize) -> Result<Datagram, String> {
    let datagram = w.next("a segment of the kernel")?;
    let seen = (datagram.octets[0] & 15) as usize;
    must(seen == words, format!("an IP header of {words} words expected, seen: {seen}: {datagram}"))?;
    Ok(datagram)
}

/// The kernel opens, and we open: what we send goes in fragments of 8 octets, the last first; what the kernel
/// sends arrives as if it were a fragment, under a wrong IP checksum.
pub fn in_fragments(w: &mut World) -> Outcome {
    kernel_opens_in_fragments(w)?;
    w.begin();
    we_open_in_fragments(w)?;
    Ok(vec!["opened by the kernel and by us; ours in 3 fragments each, its own not examined".into()])
}

fn kernel_opens_in_fragments(w: &mut World) -> Result<(), String> {
    let mut ours = Station::closed();
    ours.listen()?;
    let kernel = kernel_connects()?;
    let syn = w.next("the kernel's SYN")?;
    let syn_ack = taken(&mut ours, &syn)?.ok_or("our station did not answer the SYN")?;
    put_in_fragments(w, &syn_ack, 1)?;
    let ack = w.next("the kernel's ACK")?;
    must(taken(&mut ours, &ack)?.is_none(), "our station answered the ACK")?;
    w.silent()?;
    must_agree(&ours, &kernel)?;
    closes_with_reset(w, &mut ours, kernel)
}

fn we_open_in_fragments(w: &mut World) -> Result<(), String> {
    let listener = kernel_listens()?;
    let mut ours = Station::closed();
    let syn = ours.open()?;
    put_in_fragments(w, &syn, 2)?;
    let syn_ack = w.next("the kernel's SYN,ACK")?;
    let ack = taken(&mut ours, &syn_ack)?.ok_or("our station did not answer the SYN,ACK")?;
    ours.must_be(ESTABLISHED)?;
    put_in_fragments(w, &ack, 3)?;
    w.silent()?;
    let kernel = accepted(&listener)?.ok_or("the kernel did not accept")?;
    must_agree(&ours, &kernel)
}

fn put_in_fragments(w: &mut World, datagram: &Datagram, identification: u16) -> Result<(), String> {
    w.note(format!("in fragments: {datagram}"));
    let parts: Vec<&[u8]> = datagram.tcp().chunks(8).collect();
    for (place, part) in parts.iter().enumerate().rev() {
        let more = place + 1 < parts.len();
        let octets = fragment(&datagram.octets, identification, place as u16, part, more);
        w.put_octets(&octets, NONE)?;
    }
    Ok(())
}

/// A segment arrives as if it were a fragment, under a wrong IP checksum, and is taken.
fn taken(ours: &mut Station, datagram: &Datagram) -> Result<Option<Datagram>, String> {
    let mut octets = datagram.octets.clone();
    octets[6..8].copy_from_slice(&0x2001u16.to_be_bytes());
    octets[10] ^= 0xff;
    match ours.receive(&octets)? {
        Received::Taken(answer) => Ok(answer),
        other => Err(format!("not taken: {other}: {datagram}")),
    }
}
