//! Seeded inputs for the program. The same seed gives the same octets.
//!
//! The maker runs the paper's own station beside itself (`Barn`), so that the
//! segments it makes are aimed at the record the program will have then.

use crate::octets::{checksum, ACK, FIN, PSH, RST, SYN, URG};
use crate::program::{ip_checksum, Barn, LIMIT, STATION};
use crate::station::{Record, State};
use crate::wrong::Paper;

/// One input for the program, and what kind it is.
#[derive(Clone, PartialEq, Eq, Debug)]
pub struct Stream {
    pub kind: &'static str,
    pub octets: Vec<u8>,
}

/// Every kind; seed s makes a stream of kind s modulo their number.
pub const KINDS: [&str; 43] = [
    "opening",
    "openings",
    "late",
    "repeated",
    "window-edges",
    "window-edges-round",
    "acknowledgments",
    "stray",
    "closed",
    "foreign",
    "options",
    "header-length-lies",
    "text",
    "fin",
    "controls",
    "reserved",
    "damaged-bit",
    "damaged-octet",
    "wrong-checksum",
    "zero-and-ffff",
    "protocols",
    "ip-options",
    "ip-version",
    "ip-header-low",
    "total-small",
    "total-below-header",
    "total-above-1500",
    "total-beyond",
    "not-examined",
    "cut",
    "cut-ip-header",
    "cut-tcp-header",
    "empty",
    "long",
    "straddle",
    "reset-loop",
    "full-1500",
    "tail",
    "random-octets",
    "random-datagrams",
    "aimed",
    "answered",
    "everything",
];

pub fn stream(seed: u64) -> Stream {
    let kind = KINDS[(seed % KINDS.len() as u64) as usize];
    let mut m = Maker::new(seed);
    m.make(kind);
    Stream { kind, octets: m.octets }
}

/// splitmix64.
#[derive(Clone, Copy, Debug)]
pub struct Rng(pub u64);

impl Rng {
    pub fn next(&mut self) -> u64 {
        self.0 = self.0.wrapping_add(0x9e37_79b9_7f4a_7c15);
        let mut z = self.0;
        z = (z ^ (z >> 30)).wrapping_mul(0xbf58_476d_1ce4_e5b9);
        z = (z ^ (z >> 27)).wrapping_mul(0x94d0_49bb_1331_11eb);
        z ^ (z >> 31)
    }

    /// 0 to n - 1; n is not 0.
    pub fn below(&mut self, n: u64) -> u64 {
        self.next() % n
    }

    /// low to high, both included.
    pub fn between(&mut self, low: u64, high: u64) -> u64 {
        low + self.below(high - low + 1)
    }

    /// Once in n times.
    pub fn one_in(&mut self, n: u64) -> bool {
        self.below(n) == 0
    }

    pub fn pick<T: Copy>(&mut self, among: &[T]) -> T {
        among[self.below(among.len() as u64) as usize]
    }

    pub fn octets(&mut self, n: usize) -> Vec<u8> {
        (0..n).map(|_| self.next() as u8).collect()
    }
}

/// How the checksum field is filled.
#[derive(Clone, Copy)]
enum Sum {
    Right,
    Plus(u16),
    Given(u16),
}

/// A datagram before it is octets. `None` stands for the true value.
#[derive(Clone)]
struct Datagram {
    version: u8,
    ip_words: Option<u8>,
    kind: u8,
    total: Option<u16>,
    identification: u16,
    fragment: u16,
    ttl: u8,
    protocol: u8,
    ip_sum: Sum,
    src: u32,
    dst: u32,
    ip_options: Vec<u8>,
    source: u16,
    destination: u16,
    seq: u32,
    ack: u32,
    words: Option<u8>,
    reserved: u8,
    control: u8,
    window: u16,
    sum: Sum,
    urgent: u16,
    options: Vec<u8>,
    text: Vec<u8>,
}

impl Datagram {
    /// From the peer to the station.
    fn new(control: u8, seq: u32, ack: u32) -> Datagram {
        Datagram {
            version: 4,
            ip_words: None,
            kind: 0,
            total: None,
            identification: 0,
            fragment: 0x4000,
            ttl: 64,
            protocol: 6,
            ip_sum: Sum::Right,
            src: STATION.peer,
            dst: STATION.own,
            ip_options: Vec::new(),
            source: STATION.peerport,
            destination: STATION.ownport,
            seq,
            ack,
            words: None,
            reserved: 0,
            control,
            window: 4_096,
            sum: Sum::Right,
            urgent: 0,
            options: Vec::new(),
            text: Vec::new(),
        }
    }

    fn tcp(&self) -> Vec<u8> {
        let mut t = Vec::new();
        t.extend(self.source.to_be_bytes());
        t.extend(self.destination.to_be_bytes());
        t.extend(self.seq.to_be_bytes());
        t.extend(self.ack.to_be_bytes());
        let words = self.words.unwrap_or((5 + self.options.len() / 4) as u8);
        t.push(words << 4 | self.reserved & 0x0f);
        t.push(self.control);
        t.extend(self.window.to_be_bytes());
        t.extend([0, 0]);
        t.extend(self.urgent.to_be_bytes());
        t.extend(&self.options);
        t.extend(&self.text);
        let right = checksum(self.src, self.dst, &t);
        let sum = match self.sum {
            Sum::Right => right,
            Sum::Plus(n) => right.wrapping_add(n),
            Sum::Given(n) => n,
        };
        t[16..18].copy_from_slice(&sum.to_be_bytes());
        t
    }

    fn octets(&self) -> Vec<u8> {
        let tcp = self.tcp();
        let header = 20 + self.ip_options.len();
        let words = self.ip_words.unwrap_or((header / 4) as u8);
        let total = self.total.unwrap_or((header + tcp.len()) as u16);
        let mut d = vec![self.version << 4 | words & 0x0f, self.kind];
        d.extend(total.to_be_bytes());
        d.extend(self.identification.to_be_bytes());
        d.extend(self.fragment.to_be_bytes());
        d.extend([self.ttl, self.protocol, 0, 0]);
        d.extend(self.src.to_be_bytes());
        d.extend(self.dst.to_be_bytes());
        d.extend(&self.ip_options);
        let right = ip_checksum(&d);
        let sum = match self.ip_sum {
            Sum::Right => right,
            Sum::Plus(n) => right.wrapping_add(n),
            Sum::Given(n) => n,
        };
        d[10..12].copy_from_slice(&sum.to_be_bytes());
        d.extend(tcp);
        d
    }

    /// Give the window the value with which the sum is 65,535, as in P12.
    fn make_sum_65535(&mut self) {
        self.window = 0;
        self.sum = Sum::Right;
        let tcp = self.tcp();
        self.window = u16::from_be_bytes([tcp[16], tcp[17]]);
    }
}

struct Maker {
    rng: Rng,
    /// How many of this kind the seeds before have made: what a kind must
    /// come to goes by turns.
    turn: u64,
    octets: Vec<u8>,
    /// Every datagram put so far.
    put: Vec<Vec<u8>>,
    barn: Barn,
    place: usize,
}

impl Maker {
    fn new(seed: u64) -> Maker {
        Maker {
            rng: Rng(seed ^ 0x5eed_0f0c_7e75_0001),
            turn: seed / KINDS.len() as u64,
            octets: Vec::new(),
            put: Vec::new(),
            barn: Barn::new(&Paper::RIGHT),
            place: 0,
        }
    }

    fn station(&self) -> Record {
        self.barn.station
    }

    /// Put octets at the end, and let the station beside us take what there is.
    fn put_octets(&mut self, octets: Vec<u8>) {
        self.octets.extend(&octets);
        self.put.push(octets);
        let read = self.octets.len().min(LIMIT);
        while self.place <= read {
            match self.barn.datagram(&self.octets[self.place..read]) {
                Some(n) => self.place += n,
                None => break,
            }
        }
    }

    fn put(&mut self, d: &Datagram) {
        self.put_octets(d.octets());
    }

    fn segment(&mut self, control: u8, seq: u32, ack: u32) {
        self.put(&Datagram::new(control, seq, ack));
    }

    /// A number near the places where something changes.
    fn number(&mut self) -> u32 {
        let r = self.rng.next() as u32;
        let near = self.rng.pick(&[0, 1, 2, 0xffff_fffe, 0xffff_ffff, 100, 0x7fff_ffff, 0x8000_0000]);
        if self.rng.one_in(3) {
            near
        } else {
            r
        }
    }

    /// A sequence number aimed at the record's window.
    fn aimed_seq(&mut self) -> u32 {
        let r = self.station();
        let wnd = r.rcvwnd as u32;
        let inside = self.rng.below(wnd as u64) as u32;
        let from = self.rng.pick(&[
            0,
            0,
            0,
            0xffff_ffff,
            0xffff_fffe,
            1,
            wnd - 1,
            wnd,
            wnd + 1,
            inside,
            inside,
            wnd + inside,
            0u32.wrapping_sub(inside),
            0x7fff_ffff,
            0x8000_0000,
            0x8000_0001,
        ]);
        if r.state == State::Listen || r.state == State::Closed || self.rng.one_in(12) {
            return self.number();
        }
        r.rcvnxt.wrapping_add(from)
    }

    /// An acknowledgment aimed at the record's numbers.
    fn aimed_ack(&mut self) -> u32 {
        let r = self.station();
        let ago = self.rng.between(1, 8) as u32 * 65_536;
        let from = self.rng.pick(&[
            0,
            0,
            0,
            0xffff_ffff,
            0xffff_fffe,
            1,
            2,
            4_096,
            65_536,
            0u32.wrapping_sub(ago),
            ago,
            0x7fff_fffe,
            0x7fff_ffff,
            0x8000_0000,
            0x8000_0001,
        ]);
        if self.rng.one_in(12) {
            return self.number();
        }
        r.nxt.wrapping_add(from)
    }

    /// Control bits that mean something here, sometimes any but FIN.
    fn aimed_control(&mut self) -> u8 {
        let usual = self.rng.pick(&[
            SYN,
            SYN,
            ACK,
            ACK,
            ACK,
            SYN | ACK,
            RST,
            RST,
            RST | ACK,
            0,
            SYN | RST,
            ACK | PSH,
            SYN | URG,
            ACK | SYN | RST,
        ]);
        if self.rng.one_in(6) {
            return self.rng.next() as u8 & !FIN;
        }
        usual
    }

    fn aimed(&mut self) -> Datagram {
        let control = self.aimed_control();
        let seq = self.aimed_seq();
        let ack = if control & ACK == 0 && !self.rng.one_in(8) { 0 } else { self.aimed_ack() };
        let mut d = Datagram::new(control, seq, ack);
        if self.rng.one_in(4) {
            d.window = self.rng.next() as u16;
        }
        if self.rng.one_in(8) {
            d.urgent = self.rng.next() as u16;
        }
        d
    }

    /// A segment that is answered, mostly unlike any before: with a reset of
    /// its own numbers, now and then with an ACK or a SYN,ACK.
    fn answered(&mut self) -> Datagram {
        let r = self.station();
        let (seq, ack) = (self.rng.next() as u32, self.rng.next() as u32);
        match r.state {
            State::Listen if self.rng.one_in(100) => Datagram::new(SYN, seq, 0),
            State::Closed if self.rng.one_in(2) => Datagram::new(SYN, seq, 0),
            State::Listen | State::Closed => Datagram::new(ACK, seq, ack),
            // to CLOSED
            State::SynReceived if self.rng.one_in(200) => Datagram::new(SYN | ACK, r.rcvnxt, ack),
            State::SynReceived if !self.rng.one_in(20) => {
                Datagram::new(ACK, r.rcvnxt, r.nxt.wrapping_add(ack | 1))
            }
            // before the window
            _ => Datagram::new(ACK, r.rcvnxt.wrapping_sub(1), r.nxt),
        }
    }

    /// Mostly towards an opening: SYN in LISTEN, the right ACK in
    /// SYN-RECEIVED.
    fn onward(&mut self) -> Datagram {
        let r = self.station();
        match r.state {
            State::Listen => {
                let seq = self.number();
                Datagram::new(SYN, seq, 0)
            }
            State::SynReceived => Datagram::new(ACK, r.rcvnxt, r.nxt),
            _ => Datagram::new(ACK, r.rcvnxt, r.nxt),
        }
    }

    /// Bring the station from LISTEN into a state, by chance.
    fn begin(&mut self) {
        match self.rng.below(4) {
            0 => {}
            1 => self.open_half(),
            2 => self.open_whole(),
            _ => {
                for _ in 0..self.rng.between(1, 4) {
                    self.open_half();
                    self.back_to_listen();
                }
                self.open_half();
                if self.rng.one_in(2) {
                    self.answer();
                }
            }
        }
    }

    fn open_half(&mut self) {
        let seq = self.number();
        self.segment(SYN, seq, 0);
    }

    fn answer(&mut self) {
        let r = self.station();
        self.segment(ACK, r.rcvnxt, r.nxt);
    }

    fn open_whole(&mut self) {
        self.open_half();
        self.answer();
    }

    /// A reset in the window: SYN-RECEIVED goes back to LISTEN.
    fn back_to_listen(&mut self) {
        let r = self.station();
        let inside = self.rng.below(r.rcvwnd as u64) as u32;
        let from = self.rng.pick(&[0, 0, 1, r.rcvwnd as u32 - 1, inside]);
        let control = self.rng.pick(&[RST, RST | ACK]);
        self.segment(control, r.rcvnxt.wrapping_add(from), r.nxt);
    }

    /// A few segments by which the state the program is in shows.
    fn probe(&mut self) {
        for _ in 0..self.rng.between(1, 4) {
            let d = if self.rng.one_in(2) { self.onward() } else { self.aimed() };
            self.put(&d);
        }
    }

    /// Datagrams that are skipped, of exactly this many octets together (20
    /// or more).
    fn fill(&mut self, mut octets: usize) {
        while octets > 0 {
            let mut n = self.rng.between(20, 1_500) as usize;
            if octets <= 1_500 {
                n = octets;
            } else if octets - n < 20 {
                n -= 20;
                if n < 20 {
                    n = 20;
                }
            }
            let mut d = Datagram::new(SYN, 0, 0).octets();
            d.truncate(n);
            while d.len() < n {
                d.push(self.rng.next() as u8);
            }
            d[2..4].copy_from_slice(&(n as u16).to_be_bytes());
            d[9] = self.rng.pick(&[17, 1, 0, 7, 5, 255]);
            self.put_octets(d);
            octets -= n;
        }
    }

    /// Change one datagram in one of the ways the other kinds do.
    fn spoil(&mut self, d: &mut Datagram) {
        match self.rng.below(16) {
            0 => d.src ^= 1 << self.rng.below(32),
            1 => d.dst ^= 1 << self.rng.below(32),
            2 => d.source ^= 1 << self.rng.below(16),
            3 => d.destination ^= 1 << self.rng.below(16),
            4 => d.options = self.some_options(),
            5 => d.words = Some(self.rng.below(16) as u8),
            6 => d.text = self.some_text(),
            7 => d.control |= FIN,
            8 => d.reserved = self.rng.between(1, 15) as u8,
            9 => d.sum = Sum::Plus(self.rng.between(1, 65_534) as u16),
            10 => d.protocol = self.rng.next() as u8,
            11 => d.ip_options = self.some_ip_options(),
            12 => d.fragment = self.rng.next() as u16,
            13 => d.ip_sum = Sum::Given(self.rng.next() as u16),
            14 => {
                d.make_sum_65535();
                d.sum = Sum::Given(self.rng.pick(&[0, 0xffff]));
            }
            _ => {
                d.kind = self.rng.next() as u8;
                d.ttl = self.rng.next() as u8;
                d.identification = self.rng.next() as u16;
            }
        }
    }

    fn some_options(&mut self) -> Vec<u8> {
        let words = self.rng.between(1, 10) as usize;
        match self.rng.below(4) {
            0 => vec![0; words * 4],
            1 => vec![1; words * 4],
            2 => {
                let mut o = vec![2, 4, 5, 0xb4];
                o.resize(words * 4, 0);
                o
            }
            _ => self.rng.octets(words * 4),
        }
    }

    fn some_text(&mut self) -> Vec<u8> {
        let n = self.rng.pick(&[1, 1, 2, 3, 4, 5, 7, 40, 511, 1_000]);
        if self.rng.one_in(4) {
            return vec![0; n];
        }
        self.rng.octets(n)
    }

    fn some_ip_options(&mut self) -> Vec<u8> {
        let words = self.rng.between(1, 10) as usize;
        match self.rng.below(3) {
            0 => vec![0; words * 4],
            1 => vec![1; words * 4],
            _ => self.rng.octets(words * 4),
        }
    }

    fn some(&mut self, low: u64, high: u64, each: fn(&mut Maker)) {
        for _ in 0..self.rng.between(low, high) {
            each(self);
        }
    }

    fn make(&mut self, kind: &str) {
        match kind {
            "opening" => {
                self.open_whole();
                if self.rng.one_in(2) {
                    self.probe();
                }
            }
            "openings" => {
                self.some(1, 12, |m| {
                    m.open_half();
                    m.back_to_listen();
                });
                self.open_whole();
                self.probe();
            }
            "late" => {
                // old segments of earlier openings, all kept back and sent late
                self.some(2, 8, |m| {
                    m.open_half();
                    let r = m.station();
                    if m.rng.one_in(2) {
                        // an ACK of an opening that is gone by when it comes
                        let d = Datagram::new(ACK, r.rcvnxt, r.nxt).octets();
                        m.put.push(d);
                    }
                    m.back_to_listen();
                });
                if self.rng.one_in(2) {
                    self.open_half();
                }
                self.some(4, 30, |m| {
                    let old = m.rng.below(m.put.len() as u64) as usize;
                    let d = m.put[old].clone();
                    m.put_octets(d);
                });
                self.probe();
            }
            "repeated" => {
                self.some(3, 12, |m| {
                    let d = if m.rng.one_in(3) { m.aimed() } else { m.onward() };
                    for _ in 0..m.rng.between(1, 3) {
                        m.put(&d);
                    }
                });
            }
            "window-edges" | "window-edges-round" => {
                // "round": the window lies across 2^32
                let near = self.rng.between(0, 4_097) as u32;
                let irs = if kind == "window-edges" {
                    self.number()
                } else {
                    0u32.wrapping_sub(near)
                };
                self.segment(SYN, irs, 0);
                if self.rng.one_in(2) {
                    self.answer();
                }
                self.some(4, 24, |m| {
                    let r = m.station();
                    let wnd = r.rcvwnd as u32;
                    let from = m.rng.pick(&[
                        0,
                        1,
                        wnd - 1,
                        wnd,
                        wnd + 1,
                        0xffff_ffff,
                        0xffff_fffe,
                        0x7fff_ffff,
                        0x8000_0000,
                    ]);
                    let seq = r.rcvnxt.wrapping_add(from);
                    let ack = m.rng.pick(&[r.nxt, r.nxt, r.iss, r.nxt.wrapping_add(1)]);
                    let control = if from < wnd && !m.rng.one_in(4) {
                        m.rng.pick(&[ACK, 0, PSH | ACK])
                    } else {
                        m.aimed_control()
                    };
                    m.segment(control, seq, ack);
                });
            }
            "acknowledgments" => {
                self.open_half();
                let r = self.station();
                let mut at = vec![];
                for from in [0u32, 1, 2, 0x7fff_fffe, 0x7fff_ffff, 0x8000_0000, 0x8000_0001] {
                    at.push(r.nxt.wrapping_add(from));
                    at.push(r.nxt.wrapping_sub(from));
                }
                at.extend([0, 1, 0xffff_ffff, r.iss, 300]);
                if self.rng.one_in(2) {
                    self.answer();
                }
                for _ in 0..at.len() {
                    let ack = self.rng.pick(&at);
                    let r = self.station();
                    self.segment(ACK, r.rcvnxt, ack);
                }
                self.probe();
            }
            "stray" => {
                self.some(1, 12, |m| {
                    let control = m.rng.pick(&[ACK, RST, RST | ACK, SYN | ACK, 0, PSH, URG]);
                    let (seq, ack) = (m.number(), m.number());
                    m.segment(control, seq, ack);
                });
                self.begin();
                self.some(1, 8, |m| {
                    let control = m.rng.pick(&[ACK, RST, RST | ACK, SYN | ACK, 0]);
                    let (seq, ack) = (m.aimed_seq(), m.aimed_ack());
                    m.segment(control, seq, ack);
                });
            }
            "closed" => {
                // into CLOSED by RST or SYN, and what CLOSED answers
                self.open_half();
                let r = self.station();
                let inside = self.rng.below(r.rcvwnd as u64) as u32;
                if self.rng.one_in(2) {
                    self.answer();
                    let control = self.rng.pick(&[RST, SYN, SYN | ACK, RST | ACK]);
                    self.segment(control, r.rcvnxt.wrapping_add(inside), r.nxt);
                } else {
                    let control = self.rng.pick(&[SYN, SYN | ACK]);
                    self.segment(control, r.rcvnxt.wrapping_add(inside), r.nxt);
                }
                self.some(2, 16, |m| {
                    let d = m.aimed();
                    m.put(&d);
                });
                self.segment(SYN, 0xffff_ffff, 0);
            }
            "foreign" => {
                self.begin();
                self.some(2, 12, |m| {
                    let mut d = if m.rng.one_in(3) { m.aimed() } else { m.onward() };
                    match m.rng.below(7) {
                        0 => d.src ^= 1 << m.rng.below(32),
                        1 => d.dst ^= 1 << m.rng.below(32),
                        2 => d.source ^= 1 << m.rng.below(16),
                        3 => d.destination ^= 1 << m.rng.below(16),
                        4 => std::mem::swap(&mut d.src, &mut d.dst),
                        5 => std::mem::swap(&mut d.source, &mut d.destination),
                        _ => {}
                    }
                    m.put(&d);
                });
                self.probe();
            }
            "options" => {
                self.some(2, 12, |m| {
                    let mut d = if m.rng.one_in(3) { m.aimed() } else { m.onward() };
                    d.options = m.some_options();
                    m.put(&d);
                });
                self.probe();
            }
            "header-length-lies" => {
                self.begin();
                self.some(2, 12, |m| {
                    let mut d = m.onward();
                    if m.rng.one_in(2) {
                        d.options = m.some_options();
                    }
                    d.words = Some(m.rng.below(16) as u8);
                    m.put(&d);
                });
                self.probe();
            }
            "text" => {
                self.some(2, 10, |m| {
                    let mut d = m.onward();
                    d.text = m.some_text();
                    if m.rng.one_in(4) {
                        d.options = m.some_options();
                    }
                    m.put(&d);
                    if m.rng.one_in(3) {
                        let d = m.onward();
                        m.put(&d);
                    }
                });
                self.probe();
            }
            "fin" => {
                self.some(2, 10, |m| {
                    let mut d = if m.rng.one_in(3) { m.aimed() } else { m.onward() };
                    d.control |= FIN;
                    m.put(&d);
                    if m.rng.one_in(3) {
                        let d = m.onward();
                        m.put(&d);
                    }
                });
                self.probe();
            }
            "controls" => {
                // every control octet, in an order by chance
                self.begin();
                let mut all: Vec<u8> = (0..=255).collect();
                for i in (1..all.len()).rev() {
                    let j = self.rng.below(i as u64 + 1) as usize;
                    all.swap(i, j);
                }
                // with SYN out of the window, so that the state lasts
                let lasting = self.rng.one_in(2);
                for control in all {
                    let r = self.station();
                    let mut seq = self.aimed_seq();
                    if lasting && r.state != State::Listen && control & (SYN | RST) != 0 {
                        seq = r.rcvnxt.wrapping_sub(1);
                    }
                    let ack = self.aimed_ack();
                    self.segment(control, seq, ack);
                }
            }
            "reserved" => {
                self.some(2, 15, |m| {
                    let mut d = if m.rng.one_in(3) { m.aimed() } else { m.onward() };
                    d.reserved = m.rng.between(1, 15) as u8;
                    m.put(&d);
                });
                self.probe();
            }
            "damaged-bit" | "damaged-octet" => {
                self.begin();
                self.probe();
                self.probe();
                if self.octets.is_empty() {
                    self.open_whole();
                }
                let at = self.rng.below(self.octets.len() as u64) as usize;
                if kind == "damaged-bit" {
                    self.octets[at] ^= 1 << self.rng.below(8);
                } else {
                    self.octets[at] = self.rng.next() as u8;
                }
            }
            "wrong-checksum" => {
                self.some(2, 12, |m| {
                    let mut d = m.onward();
                    let right = d.tcp();
                    let right = u16::from_be_bytes([right[16], right[17]]);
                    d.sum = match m.rng.below(7) {
                        0 => Sum::Plus(1),
                        1 => Sum::Plus(0xffff),
                        2 => Sum::Given(0),
                        3 => Sum::Given(0xffff),
                        4 => Sum::Given(!right),
                        5 => Sum::Given(right.swap_bytes()),
                        _ => Sum::Plus(m.rng.between(1, 65_535) as u16),
                    };
                    m.put(&d);
                    if m.rng.one_in(3) {
                        let d = m.onward();
                        m.put(&d);
                    }
                });
                self.probe();
            }
            "zero-and-ffff" => {
                self.some(2, 10, |m| {
                    let mut d = if m.rng.one_in(3) { m.aimed() } else { m.onward() };
                    if m.rng.one_in(4) {
                        d.options = m.some_options();
                    }
                    if !m.rng.one_in(5) {
                        d.make_sum_65535();
                    }
                    d.sum = Sum::Given(m.rng.pick(&[0, 0xffff, 0, 0xffff, 1, 0xfffe]));
                    m.put(&d);
                });
                self.probe();
            }
            "protocols" => {
                self.some(2, 12, |m| {
                    let mut d = m.onward();
                    d.protocol = m.rng.pick(&[6, 17, 1, 0, 5, 7, 22, 70, 134, 255]);
                    if m.rng.one_in(4) {
                        d.protocol = m.rng.next() as u8;
                    }
                    if m.rng.one_in(4) {
                        d.text = m.some_text();
                    }
                    m.put(&d);
                });
                self.probe();
            }
            "ip-options" => {
                self.some(2, 12, |m| {
                    let mut d = if m.rng.one_in(3) { m.aimed() } else { m.onward() };
                    d.ip_options = m.some_ip_options();
                    if m.rng.one_in(3) {
                        d.options = m.some_options();
                    }
                    m.put(&d);
                });
                self.probe();
            }
            "ip-version" => {
                self.begin();
                let mut d = self.onward();
                d.version = self.rng.below(16) as u8;
                self.put(&d);
                self.probe();
            }
            "ip-header-low" => {
                self.begin();
                let mut d = self.onward();
                d.ip_words = Some(self.rng.pick(&[0, 1, 2, 3, 4, 4, 5, 6]));
                self.put(&d);
                self.probe();
            }
            "total-small" => {
                // at least the header's, but less than is there
                self.begin();
                let mut d = self.onward();
                if self.rng.one_in(3) {
                    d.ip_options = self.some_ip_options();
                }
                let header = 20 + d.ip_options.len() as u64;
                d.total = Some(self.rng.between(header, header + 19) as u16);
                if self.rng.one_in(2) {
                    // what is left over is no part of the next datagram
                    let mut octets = d.octets();
                    octets.truncate(d.total.unwrap_or(0) as usize);
                    self.put_octets(octets);
                } else {
                    self.put(&d);
                }
                self.probe();
            }
            "total-below-header" => {
                self.begin();
                let mut d = self.onward();
                if self.rng.one_in(2) {
                    d.ip_options = self.some_ip_options();
                }
                let header = 20 + d.ip_options.len() as u64;
                d.total = Some(self.rng.pick(&[0, 1, header - 1, header - 2, header - 4]) as u16);
                self.put(&d);
                self.probe();
            }
            "total-above-1500" => {
                self.begin();
                let mut d = self.onward();
                let total = self.rng.pick(&[1_501, 1_501, 1_502, 1_536, 2_000, 9_000, 65_535]);
                d.total = Some(total);
                if self.rng.one_in(2) {
                    d.protocol = 17;
                }
                let mut octets = d.octets();
                if !self.rng.one_in(4) {
                    // all its octets are there
                    octets.resize(total as usize, 0);
                }
                self.put_octets(octets);
                self.probe();
            }
            "total-beyond" => {
                self.begin();
                let mut d = self.onward();
                let more = self.rng.pick(&[1, 2, 4, 20, 40, 41, 60, 80, 1_000, 1_459, 1_460]);
                d.total = Some(40 + more);
                self.put(&d);
                if self.rng.one_in(2) {
                    self.probe();
                    self.probe();
                }
            }
            "not-examined" => {
                self.some(2, 12, |m| {
                    let mut d = if m.rng.one_in(3) { m.aimed() } else { m.onward() };
                    match m.rng.below(4) {
                        0 => d.fragment = m.rng.next() as u16,
                        1 => d.fragment = m.rng.pick(&[0x2000, 0x0001, 0x1fff, 0x8000, 0x6000, 0]),
                        2 => d.ip_sum = Sum::Given(m.rng.next() as u16),
                        _ => {
                            d.kind = m.rng.next() as u8;
                            d.identification = m.rng.next() as u16;
                            d.ttl = m.rng.pick(&[0, 1, 64, 255]);
                            d.ip_sum = Sum::Plus(m.rng.below(2) as u16);
                        }
                    }
                    m.put(&d);
                });
                self.probe();
            }
            "cut" => {
                self.begin();
                self.probe();
                self.probe();
                let keep = self.rng.below(self.octets.len() as u64 + 1) as usize;
                self.octets.truncate(keep);
            }
            "cut-ip-header" | "cut-tcp-header" => {
                self.begin();
                let keep = if kind == "cut-ip-header" {
                    self.rng.between(0, 19)
                } else {
                    self.rng.between(20, 39)
                };
                let mut octets = self.onward().octets();
                octets.truncate(keep as usize);
                self.put_octets(octets);
            }
            "empty" => {
                // every other one begins with a datagram that has no octets of TCP
                if self.rng.one_in(2) {
                    let mut octets = self.onward().octets();
                    octets.truncate(20);
                    octets[3] = 20;
                    self.put_octets(octets);
                    self.probe();
                }
            }
            "long" => {
                let beyond = self.rng.between(0, 2_000) as usize;
                let rare = self.rng.pick(&[30, 100, 1_000, 10_000]);
                while self.octets.len() < LIMIT + beyond {
                    let d = if self.station().state == State::Closed && !self.rng.one_in(8) {
                        let n = self.rng.between(400, 1_500) as usize;
                        self.fill(n);
                        continue;
                    } else if self.rng.one_in(rare) {
                        self.aimed()
                    } else {
                        let r = self.station();
                        match r.state {
                            State::Listen => self.onward(),
                            // stay away from what closes
                            _ => {
                                let control = self.rng.pick(&[ACK, 0, PSH, ACK | PSH]);
                                let (seq, ack) = (self.aimed_seq(), self.aimed_ack());
                                Datagram::new(control, seq, ack)
                            }
                        }
                    };
                    self.put(&d);
                }
            }
            "straddle" => {
                // the last datagram, which would be answered, ends a little
                // before, at, or beyond 65,535
                self.begin();
                let last = self.answered();
                let ends = [0, 1, -1, 2, 5, 20, 21, 39, 40, -20, -40];
                let begin = LIMIT as i64 - 40 + ends[(self.turn % ends.len() as u64) as usize];
                let gap = begin - self.octets.len() as i64;
                self.fill(gap as usize);
                self.put(&last);
                self.probe();
            }
            "reset-loop" => {
                // many numbers drawn, sometimes as many as there can be
                let some = self.rng.between(200, 800);
                let most = (LIMIT / 80) as u64;
                for _ in 0..self.rng.pick(&[some, some, some, most]) {
                    self.open_half();
                    self.back_to_listen();
                }
                self.open_whole();
                self.probe();
            }
            "full-1500" => {
                self.begin();
                let n = self.rng.pick(&[1_500u16, 1_500, 1_499, 1_480, 1_501]);
                let mut d = self.onward();
                match self.rng.below(3) {
                    0 => d.protocol = 17,
                    1 => d.ip_options = self.some_ip_options(),
                    _ => d.options = self.some_options(),
                }
                let now = d.octets().len();
                d.text = self.rng.octets(n as usize - now);
                self.put(&d);
                self.probe();
                self.probe();
            }
            "tail" => {
                self.begin();
                self.probe();
                let n = self.rng.between(1, 19) as usize;
                let mut tail = self.rng.octets(n);
                if self.rng.one_in(2) {
                    tail[0] = 0x45;
                }
                self.put_octets(tail);
            }
            "random-octets" => {
                let n = self.rng.pick(&[1, 19, 20, 39, 40, 41, 100, 2_000]);
                let mut octets = self.rng.octets(n);
                if self.rng.one_in(2) {
                    octets[0] = 0x45;
                }
                self.put_octets(octets);
            }
            "random-datagrams" => {
                // the program walks over them; what they hold is random
                self.begin();
                self.some(3, 40, |m| {
                    let words = m.rng.between(5, 15) as usize;
                    let n = m.rng.between(words as u64 * 4, words as u64 * 4 + 60) as usize;
                    let mut d = m.rng.octets(n);
                    d[0] = 0x40 | words as u8;
                    d[2..4].copy_from_slice(&(n as u16).to_be_bytes());
                    if !m.rng.one_in(4) {
                        d[9] = 6;
                    }
                    if !m.rng.one_in(4) {
                        d[12..16].copy_from_slice(&STATION.peer.to_be_bytes());
                        d[16..20].copy_from_slice(&STATION.own.to_be_bytes());
                    }
                    let tcp = words * 4;
                    if n >= tcp + 20 && !m.rng.one_in(4) {
                        let (src, dst) = (crate::octets::four(&d, 12), crate::octets::four(&d, 16));
                        if !m.rng.one_in(3) {
                            d[tcp..tcp + 2].copy_from_slice(&STATION.peerport.to_be_bytes());
                            d[tcp + 2..tcp + 4].copy_from_slice(&STATION.ownport.to_be_bytes());
                            d[tcp + 12] = (((n - tcp) / 4) as u8) << 4 | d[tcp + 12] & 15;
                            d[tcp + 13] &= !FIN;
                        }
                        let sum = checksum(src, dst, &d[tcp..]);
                        d[tcp + 16..tcp + 18].copy_from_slice(&sum.to_be_bytes());
                    }
                    m.put_octets(d);
                });
                self.probe();
            }
            "aimed" => {
                self.begin();
                self.some(5, 60, |m| {
                    let d = if m.rng.one_in(4) { m.onward() } else { m.aimed() };
                    m.put(&d);
                });
            }
            "answered" => {
                // every datagram answered; every other time as many as are
                // read, and then more
                let most = self.rng.pick(&[LIMIT, LIMIT, 20_000, 4_000]);
                while self.octets.len() + 40 <= most {
                    let d = self.answered();
                    self.put(&d);
                }
                if self.rng.one_in(2) {
                    self.probe();
                }
            }
            _ => {
                // everything
                self.some(5, 60, |m| {
                    if m.rng.one_in(10) && !m.put.is_empty() {
                        let old = m.rng.below(m.put.len() as u64) as usize;
                        let d = m.put[old].clone();
                        return m.put_octets(d);
                    }
                    if m.station().state == State::SynReceived && m.rng.one_in(3) {
                        return m.back_to_listen();
                    }
                    let mut d = if m.rng.one_in(2) { m.onward() } else { m.aimed() };
                    while m.rng.one_in(3) {
                        m.spoil(&mut d);
                    }
                    if d.text.len() + d.options.len() + d.ip_options.len() > 1_400 {
                        d.text.clear();
                    }
                    let mut octets = d.octets();
                    if m.rng.one_in(20) {
                        let at = m.rng.below(octets.len() as u64) as usize;
                        octets[at] ^= 1 << m.rng.below(8);
                    }
                    m.put_octets(octets);
                });
            }
        }
    }
}
