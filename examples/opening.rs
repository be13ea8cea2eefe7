//! An opening between two records, by octets: the office opens, the box listens. It prints examples/opening.expected.
//!
//!     (cd crates/boundary && rt lib)
//!     rustc --edition 2021 -O -L native=crates/boundary/out examples/opening.rs -o opening
//!     ./opening
#[path = "../crates/boundary/tabor.rs"]
mod tabor;

use std::process::{exit, ExitCode};
use tabor::{Record, Told};

const OFFICE: u32 = 0x0a000001;
const BOX: u32 = 0x0a000002;
const SIZE: usize = 20;
const WORDS: [&str; 5] = ["CLOSED", "LISTEN", "SYN-SENT", "SYN-RECEIVED", "ESTABLISHED"];
const ESTABLISHED: u8 = 4;

fn print_record(name: &str, r: &Record) {
    println!(
        "  {name:<6}  {:<12}  ISS {}  SND.UNA {}  SND.NXT {}  IRS {}  RCV.NXT {}",
        WORDS.get(r.state as usize).unwrap_or(&"no state"),
        r.iss,
        r.una,
        r.nxt,
        r.irs,
        r.rcvnxt
    );
}

/// What happened, the octets sent, and both records.
fn print_step(what: &str, sent: Option<&[u8; SIZE]>, office: &Record, the_box: &Record) {
    let octets = match sent {
        Some(octets) => octets.map(|o| format!("{o:02x}")).join(" "),
        None => "nothing".into(),
    };
    println!("{what}\n  sent    {octets}");
    print_record("box", the_box);
    print_record("office", office);
}

/// Ends the program where an answer is not the one due at this step.
fn due(what: &str, t: &Told, refusal: u8, sent: u8, drawn: u8) {
    if (t.refusal, t.sent, t.drawn) != (refusal, sent, drawn) {
        eprintln!("{what}: refusal {}, sent {}, drawn {}", t.refusal, t.sent, t.drawn);
        exit(1);
    }
}

/// Octets arrive, and a reply has 20 octets to go to (below that is refusal 10, even where nothing is sent).
/// The line brings what it likes, so a refusal is an answer like others: `next` is then the record as it
/// was, the reply is untouched, and the octets are dropped. So `next` is stored in any case, and the reply
/// goes out only where `sent` is 1.
fn arrives(r: &mut Record, src: u32, octets: &[u8], fresh: u32, reply: &mut [u8; SIZE]) -> Told {
    let t = tabor::arrive_octets(*r, src, r.own, octets, fresh, reply);
    *r = t.next;
    t
}

fn main() -> ExitCode {
    let mut the_box = Record { own: BOX, ownport: 2000, peer: OFFICE, peerport: 1024, rcvwnd: 4096, ..Record::default() };
    let mut office = Record { own: OFFICE, ownport: 1024, peer: BOX, peerport: 2000, rcvwnd: 4096, ..Record::default() };
    let (mut syn, mut syn_ack, mut ack, mut none) = ([0; SIZE], [0; SIZE], [0; SIZE], [0; SIZE]);

    let t = tabor::listen(the_box);
    due("listen", &t, 0, 0, 0);
    the_box = t.next;
    print_step("The box listens.", None, &office, &the_box);

    // A number that a station draws must lie 65,536 or more from all it drew before, also across a power
    // cut: docs/INCIDENT.md tells what happens otherwise. `drawn` says that the number offered is used up.
    let t = tabor::open(office, 100);
    due("open", &t, 0, 1, 1);
    office = t.next;
    let refusal = tabor::write(t.segment.src, t.segment.dst, t.segment.header, &mut syn);
    if refusal != 0 {
        eprintln!("write: refusal {refusal}");
        return ExitCode::FAILURE;
    }
    print_step("The office opens with 100: SYN.", Some(&syn), &office, &the_box);

    syn[19] ^= 1;
    let t = arrives(&mut the_box, OFFICE, &syn, 65536, &mut syn_ack);
    due("damaged SYN", &t, 4, 0, 0);
    print_step("The SYN arrives with one bit wrong: refusal 4, checksum wrong.", None, &office, &the_box);

    // 65,536 was not drawn, so it is offered again.
    syn[19] ^= 1;
    let t = arrives(&mut the_box, OFFICE, &syn, 65536, &mut syn_ack);
    due("SYN", &t, 0, 1, 1);
    print_step("The SYN arrives at the box, which draws 65536: SYN,ACK.", Some(&syn_ack), &office, &the_box);

    // Of arrivals only a LISTEN that takes a SYN draws, so any number may be offered here.
    let t = arrives(&mut office, BOX, &syn_ack, 0, &mut ack);
    due("SYN,ACK", &t, 0, 1, 0);
    print_step("The SYN,ACK arrives at the office: ACK.", Some(&ack), &office, &the_box);

    let t = arrives(&mut the_box, OFFICE, &ack, 131072, &mut none);
    due("ACK", &t, 0, 0, 0);
    print_step("The ACK arrives at the box.", None, &office, &the_box);

    if the_box.state == ESTABLISHED && office.state == ESTABLISHED { ExitCode::SUCCESS } else { ExitCode::FAILURE }
}
