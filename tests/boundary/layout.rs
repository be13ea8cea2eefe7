//! Where tabor.rs lays every field: the lines of layout.c, which has the numbers written by hand.
#[path = "../../crates/boundary/tabor.rs"]
mod tabor;

use core::mem::{align_of, offset_of, size_of, size_of_val};
use tabor::{Header, Link, Model, Played, Reading, Record, Segment, Stepped, Told};

macro_rules! lines {
    ($name:literal, $t:ty: $($field:ident)*) => {
        println!("{} {} {}", $name, size_of::<$t>(), align_of::<$t>());
        let one = <$t>::default();
        $(println!("{}.{} {} {}", $name, stringify!($field), offset_of!($t, $field), size_of_val(&one.$field));)*
    };
}

// A slot's place, seen from the start of its link.
fn slot(i: usize) {
    let one = Link::default();
    let start = &one as *const Link as usize;
    let place = &one.slots[i] as *const Segment as usize;
    println!("link.slots[{i}] {} {}", place - start, size_of_val(&one.slots[i]));
}

fn main() {
    lines!("record", Record: iss una nxt irs rcvnxt own peer rcvwnd ownport peerport state passive);
    lines!("header", Header: seq ack source destination window urgent control);
    lines!("segment", Segment: header src dst text);
    lines!("told", Told: next segment refusal sent drawn);
    lines!("reading", Reading: header refusal);
    println!("link {} {}", size_of::<Link>(), align_of::<Link>());
    println!("link.slots {} {}", offset_of!(Link, slots), size_of_val(&Link::default().slots));
    slot(1);
    slot(31);
    println!("link.count {} {}", offset_of!(Link, count), size_of_val(&Link::default().count));
    lines!("model", Model: a b toa tob);
    lines!("stepped", Stepped: model segment refusal sent drawn turned);
    lines!("played", Played: model taken refused turned refusal);
}
