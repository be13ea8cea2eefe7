//! Power cuts and the nine steps of 01: "A established and B closed: B opens; its SYN is delivered; A's
//! ACK is delivered; B's RST is delivered and A is closed; A listens; B resends; SYN, SYN,ACK and ACK are
//! delivered." Once the kernel is A, once it is B. Each segment is checked where it passes.

use crate::checks::{kernel_must_be, must, must_agree, must_say, socket_error, Outcome};
use crate::opening::opened_by_kernel;
use crate::station::{Station, CLOSED, ESTABLISHED, LISTEN, SYN_RECEIVED, SYN_SENT};
use crate::sys;
use crate::wire::{said, Datagram, Said, ACK, RST, SYN};
use crate::world::{accepted, kernel_connects, kernel_listens, World};
use std::net::TcpStream;
use std::time::Duration;

const ECONNRESET: i32 = 104;

/// Numbers of one opening: what A and B have drawn.
struct Old {
    a: u32,
    b: u32,
}

/// The power of our box is cut. A is the kernel, B our box.
pub fn our_power_cut(w: &mut World) -> Outcome {
    // The kernel connects, so that no listener of its own stands by: "A listens" is then a step.
    let (mut ours, kernel) = opened_by_kernel(w)?;
    let old = Old { a: ours.record.irs, b: ours.record.iss };
    ours.power_cut()?;
    let mut steps = vec![format!("kernel A {}, our box B {} before the power cut", old.a, old.b)];
    let kernel = we_reset_it(w, &mut ours, kernel, old, &mut steps)?;
    drop(kernel);
    we_open_anew(w, &mut ours, &mut steps)?;
    Ok(steps)
}

/// Steps 1 to 4: our SYN meets the old connection, whose ACK we answer with a reset.
fn we_reset_it(
    w: &mut World,
    ours: &mut Station,
    kernel: TcpStream,
    old: Old,
    steps: &mut Vec<String>,
) -> Result<TcpStream, String> {
    let iss = ours.next_number();
    let syn = ours.open()?;
    step(steps, "B opens", &syn, said(SYN, iss, 0))?;
    w.put(&syn)?;
    let ack = w.next("the kernel's ACK")?;
    step(steps, "SYN delivered, A answers", &ack, said(ACK, old.a.wrapping_add(1), old.b + 1))?;
    kernel_must_be(ESTABLISHED)?;
    let reset = ours.answer(&ack)?;
    step(steps, "ACK delivered, B answers", &reset, said(RST, old.b + 1, 0))?;
    ours.must_be(SYN_SENT)?;
    w.put(&reset)?;
    w.silent()?;
    kernel_must_be(CLOSED)?;
    let error = socket_error(&kernel)?;
    must(error == Some(ECONNRESET), format!("ECONNRESET expected at the kernel's socket, found {error:?}"))?;
    steps.push("4. RST delivered, A is closed (ECONNRESET at the kernel's socket)".into());
    Ok(kernel)
}

/// Steps 5 to 9: a kernel listener takes the place, and the resent SYN opens on new numbers.
fn we_open_anew(w: &mut World, ours: &mut Station, steps: &mut Vec<String>) -> Result<(), String> {
    let listener = kernel_listens()?;
    kernel_must_be(LISTEN)?;
    steps.push("5. A listens (listen() on port 1024)".into());
    let iss = ours.record.iss;
    let syn = ours.resend()?;
    step(steps, "B resends", &syn, said(SYN, iss, 0))?;
    w.put(&syn)?;
    let syn_ack = w.next("the kernel's SYN,ACK")?;
    let irs = syn_ack.said.seq;
    step(steps, "SYN delivered, A answers", &syn_ack, said(SYN | ACK, irs, iss + 1))?;
    let ack = ours.answer(&syn_ack)?;
    step(steps, "SYN,ACK delivered, B answers", &ack, said(ACK, iss + 1, irs.wrapping_add(1)))?;
    w.put(&ack)?;
    w.silent()?;
    let kernel = accepted(&listener)?.ok_or("the kernel did not accept")?;
    must_agree(ours, &kernel)?;
    steps.push(format!("9. ACK delivered, both ESTABLISHED: A {irs}, B {iss}"));
    Ok(())
}

/// The kernel loses its connection without a word. A is our station, B the kernel.
pub fn kernel_power_cut(w: &mut World) -> Outcome {
    let (mut ours, kernel) = opened_by_kernel(w)?;
    let old = Old { a: ours.record.iss, b: ours.record.irs };
    kernel_falls_silent(w, kernel)?;
    ours.must_be(ESTABLISHED)?;
    let mut steps = vec![format!("our station A {}, kernel B {} before the power cut", old.a, old.b)];
    // The kernel's numbers for one pair of ends grow by one in 64 ns. After 10 ms the new one is 65,536
    // and more past the old one, as demand 3 asks, and so beyond our window.
    w.pause(Duration::from_millis(10));
    let kernel = kernel_connects()?;
    let iss = it_resets_us(w, &mut ours, old, &mut steps)?;
    it_opens_anew(w, &mut ours, iss, &mut steps)?;
    must_agree(&ours, &kernel)?;
    Ok(steps)
}

/// A power cut sends nothing. A kernel cannot drop a socket so: its reset is lost on the way.
fn kernel_falls_silent(w: &mut World, kernel: TcpStream) -> Result<(), String> {
    sys::reset_on_close(&kernel)?;
    drop(kernel);
    let lost = w.next("the reset that is lost")?;
    must(lost.said.control & RST != 0, format!("a reset expected, seen: {lost}"))?;
    w.passed.pop();
    w.note("it is lost");
    kernel_must_be(CLOSED)
}

/// Steps 1 to 4: the kernel's SYN meets our old connection, whose ACK it answers with a reset.
fn it_resets_us(w: &mut World, ours: &mut Station, old: Old, steps: &mut Vec<String>) -> Result<u32, String> {
    let syn = w.next("the kernel's new SYN")?;
    let iss = syn.said.seq;
    step(steps, "B opens", &syn, said(SYN, iss, 0))?;
    let apart = iss.wrapping_sub(old.b);
    must(apart >= 65_536 && apart.wrapping_neg() >= 65_536, format!("the kernel's numbers are {apart} apart"))?;
    let ack = ours.answer(&syn)?;
    step(steps, "SYN delivered, A answers", &ack, said(ACK, old.a + 1, old.b.wrapping_add(1)))?;
    ours.must_be(ESTABLISHED)?;
    w.put(&ack)?;
    let reset = w.next("the kernel's RST")?;
    step(steps, "ACK delivered, B answers", &reset, said(RST, old.b.wrapping_add(1), 0))?;
    must(ours.arrive(&reset)?.is_none(), "our station answered a reset")?;
    ours.must_be(CLOSED)?;
    steps.push("4. RST delivered, A is closed".into());
    Ok(iss)
}

/// Steps 5 to 9: our station listens, and the kernel's own timer resends its SYN.
fn it_opens_anew(w: &mut World, ours: &mut Station, iss: u32, steps: &mut Vec<String>) -> Result<(), String> {
    ours.listen()?;
    ours.must_be(LISTEN)?;
    steps.push("5. A listens".into());
    let fresh = ours.next_number();
    let syn = w.next("the kernel's SYN again")?;
    step(steps, "B resends (the kernel's timer)", &syn, said(SYN, iss, 0))?;
    let syn_ack = ours.answer(&syn)?;
    step(steps, "SYN delivered, A answers", &syn_ack, said(SYN | ACK, fresh, iss.wrapping_add(1)))?;
    ours.must_be(SYN_RECEIVED)?;
    w.put(&syn_ack)?;
    let ack = w.next("the kernel's ACK")?;
    step(steps, "SYN,ACK delivered, B answers", &ack, said(ACK, iss.wrapping_add(1), fresh + 1))?;
    must(ours.arrive(&ack)?.is_none(), "our station answered the ACK")?;
    steps.push(format!("9. ACK delivered, both ESTABLISHED: A {fresh}, B {iss}"));
    Ok(())
}

/// The next of the nine steps, with the segment it sends.
fn step(steps: &mut Vec<String>, what: &str, datagram: &Datagram, expected: Said) -> Result<(), String> {
    must_say(datagram, expected).map_err(|e| format!("{what}: {e}; so far: {}", steps.join("; ")))?;
    steps.push(format!("{}. {what}: {}", steps.len(), datagram.said));
    Ok(())
}
