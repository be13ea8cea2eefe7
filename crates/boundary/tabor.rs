//! The proved TCP station for Rust: what `tabor.h` says for C, declared again.
//! Include it as a module and link `crates/boundary/out/libboundary.a`.
//! Addresses, ports and sequence numbers are plain numbers: 10.0.0.1 is 0x0a000001.
#![allow(dead_code)]

pub const CLOSED: u8 = 0;
pub const LISTEN: u8 = 1;
pub const SYN_SENT: u8 = 2;
pub const SYN_RECEIVED: u8 = 3;
pub const ESTABLISHED: u8 = 4;

pub const FIN: u8 = 1;
pub const SYN: u8 = 2;
pub const RST: u8 = 4;
pub const PSH: u8 = 8;
pub const ACK: u8 = 16;
pub const URG: u8 = 32;
pub const ECE: u8 = 64;
pub const CWR: u8 = 128;

pub const EVENT_OPEN: u8 = 0;
pub const EVENT_LISTEN: u8 = 1;
pub const EVENT_ABORT: u8 = 2;
pub const EVENT_RESEND: u8 = 3;
pub const EVENT_POWER_CUT: u8 = 4;
pub const EVENT_DELIVER: u8 = 5;
pub const EVENT_COPY: u8 = 6;
pub const EVENT_LOSE: u8 = 7;
pub const EVENT_SIZE: usize = 10;
pub const EVENTS: usize = 4096;
pub const NO_LIST: u8 = 255;

#[repr(C)]
#[derive(Clone, Copy, Debug, Default, PartialEq, Eq)]
pub struct Record {
    pub iss: u32,
    pub una: u32,
    pub nxt: u32,
    pub irs: u32,
    pub rcvnxt: u32,
    pub own: u32,
    pub peer: u32,
    pub rcvwnd: u16,
    pub ownport: u16,
    pub peerport: u16,
    pub state: u8,
    pub passive: u8,
}

#[repr(C)]
#[derive(Clone, Copy, Debug, Default, PartialEq, Eq)]
pub struct Header {
    pub seq: u32,
    pub ack: u32,
    pub source: u16,
    pub destination: u16,
    pub window: u16,
    pub urgent: u16,
    pub control: u8,
}

#[repr(C)]
#[derive(Clone, Copy, Debug, Default, PartialEq, Eq)]
pub struct Segment {
    pub header: Header,
    pub src: u32,
    pub dst: u32,
    pub text: u32,
}

#[repr(C)]
#[derive(Clone, Copy, Debug, Default, PartialEq, Eq)]
pub struct Told {
    pub next: Record,
    pub segment: Segment,
    pub refusal: u8,
    pub sent: u8,
    pub drawn: u8,
}

#[repr(C)]
#[derive(Clone, Copy, Debug, Default, PartialEq, Eq)]
pub struct Reading {
    pub header: Header,
    pub refusal: u8,
}

#[repr(C)]
#[derive(Clone, Copy, Debug, Default, PartialEq, Eq)]
pub struct Link {
    pub slots: [Segment; 32],
    pub count: usize,
}

#[repr(C)]
#[derive(Clone, Copy, Debug, Default, PartialEq, Eq)]
pub struct Model {
    pub a: Record,
    pub b: Record,
    pub toa: Link,
    pub tob: Link,
}

#[repr(C)]
#[derive(Clone, Copy, Debug, Default, PartialEq, Eq)]
pub struct Stepped {
    pub model: Model,
    pub segment: Segment,
    pub refusal: u8,
    pub sent: u8,
    pub drawn: u8,
    pub turned: u8,
}

#[repr(C)]
#[derive(Clone, Copy, Debug, Default, PartialEq, Eq)]
pub struct Played {
    pub model: Model,
    pub taken: usize,
    pub refused: usize,
    pub turned: usize,
    pub refusal: u8,
}

mod c {
    use super::*;
    #[link(name = "boundary", kind = "static")]
    extern "C" {
        pub fn tabor_open(r: Record, n: u32) -> Told;
        pub fn tabor_listen(r: Record) -> Told;
        pub fn tabor_abort(r: Record) -> Told;
        pub fn tabor_resend(r: Record) -> Told;
        pub fn tabor_power_cut(r: Record) -> Told;
        pub fn tabor_arrive(r: Record, g: Segment, fresh: u32) -> Told;
        pub fn tabor_arrive_octets(r: Record, src: u32, dst: u32, octets: *const u8, size: usize, fresh: u32, out: *mut u8, out_size: usize) -> Told;
        pub fn tabor_read(src: u32, dst: u32, octets: *const u8, size: usize) -> Reading;
        pub fn tabor_write(src: u32, dst: u32, h: Header, out: *mut u8, out_size: usize) -> u8;
        pub fn tabor_checksum(src: u32, dst: u32, octets: *const u8, size: usize) -> u16;
        pub fn tabor_step(m: Model, octets: *const u8, size: usize) -> Stepped;
        pub fn tabor_play(m: Model, octets: *const u8, size: usize) -> Played;
        pub fn tabor_run(input: *const u8, size: usize, out: *mut u8) -> usize;
    }
}

// Every function below is safe: the library takes any numbers, and a slice carries its own size.

pub fn open(r: Record, n: u32) -> Told {
    unsafe { c::tabor_open(r, n) }
}

pub fn listen(r: Record) -> Told {
    unsafe { c::tabor_listen(r) }
}

pub fn abort(r: Record) -> Told {
    unsafe { c::tabor_abort(r) }
}

pub fn resend(r: Record) -> Told {
    unsafe { c::tabor_resend(r) }
}

pub fn power_cut(r: Record) -> Told {
    unsafe { c::tabor_power_cut(r) }
}

pub fn arrive(r: Record, g: Segment, fresh: u32) -> Told {
    unsafe { c::tabor_arrive(r, g, fresh) }
}

pub fn arrive_octets(r: Record, src: u32, dst: u32, octets: &[u8], fresh: u32, out: &mut [u8]) -> Told {
    unsafe { c::tabor_arrive_octets(r, src, dst, octets.as_ptr(), octets.len(), fresh, out.as_mut_ptr(), out.len()) }
}

pub fn read(src: u32, dst: u32, octets: &[u8]) -> Reading {
    unsafe { c::tabor_read(src, dst, octets.as_ptr(), octets.len()) }
}

pub fn write(src: u32, dst: u32, h: Header, out: &mut [u8]) -> u8 {
    unsafe { c::tabor_write(src, dst, h, out.as_mut_ptr(), out.len()) }
}

pub fn checksum(src: u32, dst: u32, octets: &[u8]) -> u16 {
    unsafe { c::tabor_checksum(src, dst, octets.as_ptr(), octets.len()) }
}

pub fn step(m: Model, octets: &[u8]) -> Stepped {
    unsafe { c::tabor_step(m, octets.as_ptr(), octets.len()) }
}

pub fn play(m: Model, octets: &[u8]) -> Played {
    unsafe { c::tabor_play(m, octets.as_ptr(), octets.len()) }
}

pub fn run(input: &[u8], out: &mut [u8; 65535]) -> usize {
    unsafe { c::tabor_run(input.as_ptr(), input.len(), out.as_mut_ptr()) }
}
