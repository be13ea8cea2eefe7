//! `paper program < in > out`, `paper streams SEED COUNT DIR`, `paper check`.
//! `paper wrong` lists the wrong versions; `paper program NAME` runs one.

use paper::*;
use std::io::{Read, Write};
use std::process::exit;

fn main() {
    let args: Vec<String> = std::env::args().skip(1).collect();
    let args: Vec<&str> = args.iter().map(|a| a.as_str()).collect();
    match args[..] {
        ["program"] => run_program(&Paper::RIGHT),
        ["program", name] => match Wrong::from_name(name) {
            Some(wrong) => run_program(&Paper { wrong }),
            None => usage(),
        },
        ["streams", seed, count, dir] => match (seed.parse(), count.parse()) {
            (Ok(seed), Ok(count)) => write_streams(seed, count, dir),
            _ => usage(),
        },
        ["wrong"] => {
            for wrong in Wrong::ALL {
                println!("{:26} {}", wrong.name(), wrong.description());
            }
        }
        ["check"] => check(),
        _ => usage(),
    }
}

fn usage() {
    eprintln!("paper program [WRONG] < in > out | paper streams SEED COUNT DIR | paper wrong | paper check");
    exit(2);
}

fn run_program(paper: &Paper) {
    let mut input = Vec::new();
    let read = std::io::stdin().take(70_000).read_to_end(&mut input);
    read.expect("standard input");
    let out = program(paper, &input);
    std::io::stdout().write_all(&out).expect("standard output");
}

fn write_streams(seed: u64, count: u64, dir: &str) {
    std::fs::create_dir_all(dir).expect("directory");
    let mut index = String::new();
    for i in 0..count {
        let s = stream(seed.wrapping_add(i));
        let out = program(&Paper::RIGHT, &s.octets);
        index += &format!("{:04} {} {} {}\n", i, s.kind, s.octets.len(), out.len());
        std::fs::write(format!("{dir}/{i:04}.in"), &s.octets).expect("stream");
        std::fs::write(format!("{dir}/{i:04}.out"), &out).expect("answer");
    }
    std::fs::write(format!("{dir}/index"), index).expect("index");
}

// ------------------------------------------------------------------ check

struct Check {
    good: u32,
    bad: u32,
    part: u32,
}

impl Check {
    fn part(&mut self, name: &str) {
        self.tell();
        println!("{name}");
    }

    fn tell(&mut self) {
        if self.part > 0 {
            println!("    {} checked", self.part);
        }
        self.part = 0;
    }

    fn same<T: PartialEq + std::fmt::Debug>(&mut self, name: &str, got: T, want: T) {
        self.part += 1;
        if got == want {
            self.good += 1;
        } else {
            self.bad += 1;
            println!("  WRONG {name}\n    got  {got:?}\n    want {want:?}");
        }
    }
}

const P: Paper = Paper::RIGHT;

const EXAMPLE_IN: [u8; 40] = [
    0x45, 0x00, 0x00, 0x28, 0x00, 0x00, 0x40, 0x00, 0x40, 0x06, 0x26, 0xce, 0x0a, 0x00, 0x00, 0x01,
    0x0a, 0x00, 0x00, 0x02, 0x04, 0x00, 0x07, 0xd0, 0x00, 0x00, 0x00, 0x64, 0x00, 0x00, 0x00, 0x00,
    0x50, 0x02, 0x10, 0x00, 0x7f, 0xac, 0x00, 0x00,
];
const EXAMPLE_OUT: [u8; 40] = [
    0x45, 0x00, 0x00, 0x28, 0x00, 0x00, 0x40, 0x00, 0x40, 0x06, 0x26, 0xce, 0x0a, 0x00, 0x00, 0x02,
    0x0a, 0x00, 0x00, 0x01, 0x07, 0xd0, 0x04, 0x00, 0x00, 0x01, 0x00, 0x00, 0x00, 0x00, 0x00, 0x65,
    0x50, 0x12, 0x10, 0x00, 0x7f, 0x9a, 0x00, 0x00,
];

const OWN: u32 = 0x0a00_0002;
const PEER: u32 = 0x0a00_0001;

/// A record of 10.0.0.2 port 2000 with window 4,096, all numbers given.
fn rec(state: State, passive: bool, n: [u32; 5]) -> Record {
    Record {
        state,
        passive,
        iss: n[0],
        una: n[1],
        nxt: n[2],
        irs: n[3],
        rcvnxt: n[4],
        rcvwnd: 4_096,
        own: OWN,
        ownport: 2_000,
        peer: PEER,
        peerport: 1_024,
    }
}

fn closed() -> Record {
    rec(State::Closed, false, [0, 0, 0, 0, 0])
}
fn listening() -> Record {
    rec(State::Listen, true, [0, 0, 0, 0, 0])
}
fn syn_sent_100() -> Record {
    rec(State::SynSent, false, [100, 100, 101, 0, 0])
}
/// SYN-RECEIVED with ISS 300 and IRS 100.
fn syn_received(passive: bool) -> Record {
    rec(State::SynReceived, passive, [300, 300, 301, 100, 101])
}
/// ESTABLISHED with ISS 300 and IRS 100.
fn established(passive: bool) -> Record {
    rec(State::Established, passive, [300, 301, 301, 100, 101])
}

/// A segment of the peer's.
fn seg(control: u8, seq: u32, ack: u32) -> Segment {
    Segment {
        header: Header {
            source: 1_024,
            destination: 2_000,
            seq,
            ack,
            control,
            window: 777,
            urgent: 0,
        },
        src: PEER,
        dst: OWN,
        text: 0,
    }
}

/// A segment the station sends.
fn sent(control: u8, seq: u32, ack: u32, window: u16) -> Segment {
    Segment {
        header: Header {
            source: 2_000,
            destination: 1_024,
            seq,
            ack,
            control,
            window,
            urgent: 0,
        },
        src: OWN,
        dst: PEER,
        text: 0,
    }
}

fn taken(next: Record, sent: Option<Segment>, drawn: bool) -> Result<Taken, u8> {
    Ok(Taken { next, sent, drawn })
}

/// A segment in words.
fn words(s: &Segment) -> String {
    let h = s.header;
    let mut names = Vec::new();
    for (bit, name) in [
        (CWR, "CWR"),
        (ECE, "ECE"),
        (URG, "URG"),
        (PSH, "PSH"),
        (RST, "RST"),
        (SYN, "SYN"),
        (FIN, "FIN"),
        (ACK, "ACK"),
    ] {
        if h.control & bit != 0 {
            names.push(name);
        }
    }
    let mut w = format!("{} {}", names.join(","), h.seq);
    if h.control & ACK != 0 || h.ack != 0 {
        w += &format!(" ack {}", h.ack);
    }
    w += &format!(" w{}", h.window);
    if h.urgent != 0 || s.text != 0 {
        w += " and more";
    }
    w
}

/// A step in words: state (with * for the mark) ISS/IRS, segment sent, drawn.
fn short(answer: Result<Taken, u8>) -> String {
    let t = match answer {
        Err(number) => return format!("refused {number}"),
        Ok(t) => t,
    };
    let name = match t.next.state {
        State::Closed => "CLOSED",
        State::Listen => "LISTEN",
        State::SynSent => "SYN-SENT",
        State::SynReceived => "SYN-RECEIVED",
        State::Established => "ESTABLISHED",
    };
    let mark = if t.next.passive { "*" } else { "" };
    let mut w = format!("{name}{mark} {}/{}", t.next.iss, t.next.irs);
    if let Some(s) = t.sent {
        w += &format!(", {}", words(&s));
    }
    if t.drawn {
        w += ", drawn";
    }
    if !of_the_forms(&P, &t.next) {
        w += ", NOT OF THE FORMS";
    }
    w
}

fn tcp(window: [u8; 2], sum: [u8; 2]) -> [u8; 20] {
    let mut t = [0u8; 20];
    t.copy_from_slice(&EXAMPLE_IN[20..]);
    t[14..16].copy_from_slice(&window);
    t[16..18].copy_from_slice(&sum);
    t
}

fn check() {
    let mut c = Check { good: 0, bad: 0, part: 0 };
    check_p(&mut c);
    check_octets(&mut c);
    check_forms(&mut c);
    check_calls(&mut c);
    check_arrival(&mut c);
    check_refusals(&mut c);
    check_model(&mut c);
    check_nine(&mut c);
    check_program(&mut c);
    check_streams(&mut c);
    check_wrong(&mut c);
    check_demand_3(&mut c);
    c.tell();
    println!("{} as written, {} not", c.good, c.bad);
    if c.bad > 0 {
        exit(1);
    }
}

fn check_p(c: &mut Check) {
    c.part("P1 to P12, every field by hand");
    c.same(
        "P1",
        arrive(&P, listening(), seg(SYN, 100, 0), 300),
        taken(
            rec(State::SynReceived, true, [300, 300, 301, 100, 101]),
            Some(sent(SYN | ACK, 300, 101, 4_096)),
            true,
        ),
    );
    let p2 = rec(State::SynReceived, true, [300, 300, 301, 100, 101]);
    c.same(
        "P2",
        arrive(&P, p2, seg(ACK, 101, 301), 0),
        taken(rec(State::Established, true, [300, 301, 301, 100, 101]), None, false),
    );
    c.same(
        "P3",
        arrive(&P, p2, seg(ACK, 101, 300), 0),
        taken(p2, Some(sent(RST, 300, 0, 0)), false),
    );
    c.same(
        "P4",
        arrive(&P, p2, seg(ACK, 101, 302), 0),
        taken(p2, Some(sent(RST, 302, 0, 0)), false),
    );
    c.same(
        "P5",
        arrive(&P, syn_sent_100(), seg(SYN | ACK, 300, 101), 9),
        taken(
            rec(State::Established, false, [100, 101, 101, 300, 301]),
            Some(sent(ACK, 101, 301, 4_096)),
            false,
        ),
    );
    c.same(
        "P6",
        arrive(&P, syn_sent_100(), seg(SYN, 300, 0), 9),
        taken(
            rec(State::SynReceived, false, [100, 100, 101, 300, 301]),
            Some(sent(SYN | ACK, 100, 301, 4_096)),
            false,
        ),
    );
    let p7 = rec(State::SynSent, false, [400, 400, 401, 0, 0]);
    c.same(
        "P7",
        arrive(&P, p7, seg(ACK, 300, 101), 9),
        taken(p7, Some(sent(RST, 101, 0, 0)), false),
    );
    let p8 = rec(State::SynSent, false, [0xffff_ffff, 0xffff_ffff, 0, 0, 0]);
    c.same(
        "P8",
        arrive(&P, p8, seg(SYN | ACK, 300, 0), 9),
        taken(
            rec(State::Established, false, [0xffff_ffff, 0, 0, 300, 301]),
            Some(sent(ACK, 0, 301, 4_096)),
            false,
        ),
    );
    let p9 = rec(State::Established, false, [300, 301, 301, 100, 101]);
    c.same("P9 4196", arrive(&P, p9, seg(RST, 4_196, 0), 9), taken(closed(), None, false));
    c.same("P9 4197", arrive(&P, p9, seg(RST, 4_197, 0), 9), taken(p9, None, false));
    c.same("P9 100", arrive(&P, p9, seg(RST, 100, 0), 9), taken(p9, None, false));
    c.same(
        "P10",
        arrive(&P, closed(), seg(SYN, 0xffff_ffff, 0), 9),
        taken(closed(), Some(sent(RST | ACK, 0, 0, 0)), false),
    );
    c.same("P11", checksum(PEER, OWN, &EXAMPLE_IN[20..]), 0x7fac);
    let p12 = Header {
        source: 1_024,
        destination: 2_000,
        seq: 100,
        ack: 0,
        control: SYN,
        window: 0x8fac,
        urgent: 0,
    };
    c.same("P12 0000", read_header(&P, PEER, OWN, &tcp([0x8f, 0xac], [0, 0])), Ok(p12));
    c.same("P12 ffff", read_header(&P, PEER, OWN, &tcp([0x8f, 0xac], [255, 255])), Ok(p12));
    let mut out = [0xeeu8; 20];
    c.same("P12 write", write_header(&P, PEER, OWN, p12, &mut out), Ok(()));
    c.same("P12 written", out, tcp([0x8f, 0xac], [0, 0]));
}

fn check_octets(c: &mut Check) {
    c.part("octets of a segment");
    // every field in its place
    let h = Header {
        source: 0x0102,
        destination: 0x0304,
        seq: 0x0506_0708,
        ack: 0x090a_0b0c,
        control: CWR | ECE | URG | ACK | PSH | RST | SYN,
        window: 0x0d0e,
        urgent: 0x0f10,
    };
    let mut out = [0xeeu8; 24];
    c.same("write", write_header(&P, 0, 0, h, &mut out), Ok(()));
    c.same(
        "written, and the rest left",
        out,
        [
            1, 2, 3, 4, 5, 6, 7, 8, 9, 10, 11, 12, 0x50, 0xfe, 13, 14, //
            // 0102+0304+0506+0708+090a+0b0c = 242a, +50fe+0d0e+0f10 = 9146,
            // + 6 + 14 (the length) = 9160, and ffff - 9160 = 6e9f
            0x6e, 0x9f, 15, 16, 0xee, 0xee, 0xee, 0xee,
        ],
    );
    c.same("read back", read_header(&P, 0, 0, &out[..20]), Ok(h));
    c.same("sum", sum(0, 0, &out[..20]), 0xffff);
    c.same("sum of nothing", sum(0, 0, &[]), 6);
    c.same("checksum of nothing", checksum(0, 0, &[]), 0xfff9);
    c.same("addresses by halves", sum(0x0001_0002, 0x0004_0008, &[]), 6 + 15);
    c.same("odd octet behind", sum(0, 0, &[1]), 0x0107);
    c.same("three octets", sum(0, 0, &[1, 2, 3]), 0x0102 + 0x0300 + 3 + 6);
    // 17 octets: the last is half of the checksum
    c.same("half a checksum", checksum(0, 0, &[0xff; 17]), 0xffff - 17 - 6);
    c.same("half a checksum counted", sum(0, 0, &[0xff; 17]), 0xff00 + 17 + 6);
    c.same("carry twice", sum(0xffff_ffff, 0, &[]), 6);
    // 65,536 octets of zero: length 1 and 0
    c.same("length above 65,535", sum(0, 0, &vec![0; 65_536]), 7);
    c.same("length 65,537", sum(0, 0, &vec![0; 65_537]), 8);
    for control in 0..=255u8 {
        let h = Header { control, ..h };
        let mut out = [0xeeu8; 20];
        let answer = write_header(&P, PEER, OWN, h, &mut out);
        if control & 1 == 1 {
            c.same("FIN not written", (answer, out), (Err(6), [0xee; 20]));
        } else {
            c.same("control written", (answer, out[13]), (Ok(()), control));
            c.same("control read", read_header(&P, PEER, OWN, &out), Ok(h));
        }
    }
    // by chance: read back as written, written as read, the rest left alone
    let mut rng = paper::streams::Rng(1);
    let mut good = true;
    for _ in 0..100_000 {
        let (src, dst) = (rng.next() as u32, rng.next() as u32);
        let h = Header {
            source: rng.next() as u16,
            destination: rng.next() as u16,
            seq: rng.next() as u32,
            ack: rng.next() as u32,
            control: rng.next() as u8 & !FIN,
            window: rng.next() as u16,
            urgent: rng.next() as u16,
        };
        let mut out = [0xee; 25];
        good &= write_header(&P, src, dst, h, &mut out) == Ok(());
        good &= out[20..] == [0xee; 5] && out[12] == 0x50 && out[16..18] != [0xff, 0xff];
        good &= read_header(&P, src, dst, &out[..20]) == Ok(h);
        let mut again = [0; 20];
        good &= write_header(&P, src, dst, h, &mut again) == Ok(()) && again == out[..20];
        // any one bit of the 20 octets flipped is noticed
        again[rng.below(20) as usize] ^= 1 << rng.below(8);
        good &= matches!(read_header(&P, src, dst, &again), Err(3 | 4));
    }
    c.same("100,000 headers by chance", good, true);
    // reserved bits are ignored: 5f02 in place of 5002, 7fac - 0f00 = 70ac
    let mut t = tcp([0x10, 0], [0x70, 0xac]);
    t[12] = 0x5f;
    let read = read_header(&P, PEER, OWN, &t);
    c.same("reserved bits", read, read_header(&P, PEER, OWN, &EXAMPLE_IN[20..]));
    // options are skipped: length 15, 40 octets of ff: each word ffff adds
    // nothing; a002 more for the length bits, 28 more for the length
    let mut t = EXAMPLE_IN[20..].to_vec();
    t.extend([0xff; 40]);
    t[12] = 0xf0;
    // 8053 + a000 + 28 = 12 07b -> 207c; checksum df83
    t[16..18].copy_from_slice(&[0xdf, 0x83]);
    c.same("options", read_header(&P, PEER, OWN, &t), read);
}

fn check_forms(c: &mut Check) {
    c.part("the forms of a record, and what is none");
    use State::*;
    let m = u32::MAX;
    let good = [
        (Closed, false, [0, 0, 0, 0, 0]),
        (Listen, true, [0, 0, 0, 0, 0]),
        (SynSent, false, [5, 5, 6, 0, 0]),
        (SynSent, false, [m, m, 0, 0, 0]),
        (SynReceived, false, [5, 5, 6, 7, 8]),
        (SynReceived, true, [m, m, 0, m, 0]),
        (Established, false, [5, 6, 6, 7, 8]),
        (Established, true, [m, 0, 0, m, 0]),
    ];
    for (state, passive, n) in good {
        c.same("a form", of_the_forms(&P, &rec(state, passive, n)), true);
        let mut zero = rec(state, passive, n);
        zero.rcvwnd = 0;
        c.same("window 0", of_the_forms(&P, &zero), false);
        for i in 0..5 {
            let mut other = n;
            other[i] = other[i].wrapping_add(1);
            c.same("one number off", of_the_forms(&P, &rec(state, passive, other)), false);
        }
        let either = state == SynReceived || state == Established;
        c.same("the other mark", of_the_forms(&P, &rec(state, !passive, n)), either);
    }
    for (i, state) in State::ALL.iter().enumerate() {
        c.same("number of a state", state.number() as usize, i);
    }
}

fn check_calls(c: &mut Check) {
    c.part("calls and power, in every state");
    let five =
        [closed(), listening(), syn_sent_100(), syn_received(true), established(false)];
    let opened = "SYN-SENT 900/0, SYN 900 w4096, drawn";
    let want: [[&str; 5]; 5] = [
        // open, listen, abort, resend, power cut
        [opened, "LISTEN* 0/0", "refused 8", "refused 8", "CLOSED 0/0"],
        [opened, "refused 7", "CLOSED 0/0", "refused 8", "CLOSED 0/0"],
        ["refused 7", "refused 7", "CLOSED 0/0", "SYN-SENT 100/0, SYN 100 w4096", "CLOSED 0/0"],
        [
            "refused 7",
            "refused 7",
            "CLOSED 0/0, RST 301 w0",
            "SYN-RECEIVED* 300/100, SYN,ACK 300 ack 101 w4096",
            "CLOSED 0/0",
        ],
        ["refused 7", "refused 7", "CLOSED 0/0, RST 301 w0", "refused 8", "CLOSED 0/0"],
    ];
    for (r, want) in five.into_iter().zip(want) {
        let got =
            [open(&P, r, 900), listen(&P, r), abort(&P, r), resend(&P, r), power_cut(&P, r)];
        for (got, want) in got.into_iter().zip(want) {
            c.same(&format!("{:?}", r.state), short(got).as_str(), want);
        }
    }
    let r = syn_received(false);
    let want = "SYN-RECEIVED 300/100, SYN,ACK 300 ack 101 w4096";
    c.same("resend, mark no", short(resend(&P, r)).as_str(), want);
    c.same("abort, mark no", short(abort(&P, r)).as_str(), "CLOSED 0/0, RST 301 w0");
    let cut = power_cut(&P, established(true)).map(|t| t.next);
    c.same("endpoints and window stay", cut, Ok(closed()));
}

fn check_arrival(c: &mut Check) {
    c.part("arrival, check by check");
    let ss = syn_sent_100();
    let (sr, srm) = (syn_received(false), syn_received(true));
    let (es, esm) = (established(false), established(true));
    let half = 0x8000_0000u32;
    let ack = "ESTABLISHED 300/100, ACK 301 ack 101 w4096";
    let still = "ESTABLISHED 300/100";
    let table: Vec<(Record, Segment, &str)> = vec![
        (closed(), seg(RST, 1, 0), "CLOSED 0/0"),
        (closed(), seg(RST | ACK, 1, 2), "CLOSED 0/0"),
        (closed(), seg(RST | SYN, 1, 2), "CLOSED 0/0"),
        (closed(), seg(SYN, 7, 0), "CLOSED 0/0, RST,ACK 0 ack 8 w0"),
        (closed(), seg(0, 7, 0), "CLOSED 0/0, RST,ACK 0 ack 7 w0"),
        (closed(), seg(PSH | URG, 7, 5), "CLOSED 0/0, RST,ACK 0 ack 7 w0"),
        (closed(), seg(ACK, 7, 9), "CLOSED 0/0, RST 9 w0"),
        (closed(), seg(SYN | ACK, 7, 9), "CLOSED 0/0, RST 9 w0"),
        (listening(), seg(RST, 1, 0), "LISTEN* 0/0"),
        (listening(), seg(RST | ACK | SYN, 1, 0), "LISTEN* 0/0"),
        (listening(), seg(ACK, 1, 9), "LISTEN* 0/0, RST 9 w0"),
        (listening(), seg(SYN | ACK, 1, 9), "LISTEN* 0/0, RST 9 w0"),
        (listening(), seg(0, 1, 9), "LISTEN* 0/0"),
        (listening(), seg(PSH | URG | ECE | CWR, 1, 9), "LISTEN* 0/0"),
        (
            listening(),
            seg(SYN | PSH | URG | ECE | CWR, 1, 9),
            "SYN-RECEIVED* 70000/1, SYN,ACK 70000 ack 2 w4096, drawn",
        ),
        (
            listening(),
            seg(SYN, u32::MAX, 0),
            "SYN-RECEIVED* 70000/4294967295, SYN,ACK 70000 ack 0 w4096, drawn",
        ),
        (ss, seg(ACK, 1, 101), "SYN-SENT 100/0"),
        (ss, seg(ACK, 1, 100), "SYN-SENT 100/0, RST 100 w0"),
        (ss, seg(ACK, 1, 102), "SYN-SENT 100/0, RST 102 w0"),
        (ss, seg(SYN | ACK, 1, 100), "SYN-SENT 100/0, RST 100 w0"),
        (ss, seg(RST | ACK, 1, 100), "SYN-SENT 100/0"),
        (ss, seg(RST | ACK, 1, 102), "SYN-SENT 100/0"),
        (ss, seg(RST | ACK, 1, 101), "CLOSED 0/0"),
        (ss, seg(RST | SYN | ACK, 1, 101), "CLOSED 0/0"),
        (ss, seg(RST, 0, 101), "SYN-SENT 100/0"),
        (ss, seg(RST | SYN, 0, 0), "SYN-SENT 100/0"),
        (ss, seg(0, 1, 101), "SYN-SENT 100/0"),
        (ss, seg(SYN, u32::MAX, 5), "SYN-RECEIVED 100/4294967295, SYN,ACK 100 ack 0 w4096"),
        // (a)
        (sr, seg(ACK, 100, 301), "SYN-RECEIVED 300/100, ACK 301 ack 101 w4096"),
        (sr, seg(SYN, 100, 0), "SYN-RECEIVED 300/100, ACK 301 ack 101 w4096"),
        (sr, seg(0, 4_197, 0), "SYN-RECEIVED 300/100, ACK 301 ack 101 w4096"),
        (sr, seg(RST, 100, 0), "SYN-RECEIVED 300/100"),
        (sr, seg(RST | ACK | SYN, 4_197, 301), "SYN-RECEIVED 300/100"),
        (es, seg(SYN | ACK, 100, 301), ack),
        (es, seg(0, 101 + half, 0), ack),
        (es, seg(SYN, 4_197, 0), ack),
        // (b)
        (sr, seg(RST, 101, 0), "CLOSED 0/0"),
        (srm, seg(RST, 4_196, 0), "LISTEN* 0/0"),
        (srm, seg(RST | ACK | SYN, 101, 5), "LISTEN* 0/0"),
        (es, seg(RST, 101, 0), "CLOSED 0/0"),
        (esm, seg(RST | ACK, 102, 5), "CLOSED 0/0"),
        // (c)
        (sr, seg(SYN, 101, 0), "CLOSED 0/0, RST,ACK 0 ack 102 w0"),
        (srm, seg(SYN, 4_196, 0), "CLOSED 0/0, RST,ACK 0 ack 4197 w0"),
        (srm, seg(SYN | ACK, 101, 301), "CLOSED 0/0, RST 301 w0"),
        (es, seg(SYN, 101, 0), "CLOSED 0/0, RST,ACK 0 ack 102 w0"),
        (esm, seg(SYN | ACK, 4_196, 8), "CLOSED 0/0, RST 8 w0"),
        // (d)
        (srm, seg(0, 101, 301), "SYN-RECEIVED* 300/100"),
        (es, seg(PSH | URG, 4_196, 302), still),
        // (e)
        (srm, seg(ACK, 4_196, 301), "ESTABLISHED* 300/100"),
        (sr, seg(ACK | PSH, 101, 301), "ESTABLISHED 300/100"),
        (sr, seg(ACK, 101, 0), "SYN-RECEIVED 300/100, RST 0 w0"),
        (es, seg(ACK, 101, 301), still),
        (es, seg(ACK, 101, 300), still),
        (es, seg(ACK, 101, 302), ack),
        (es, seg(ACK, 101, 301 + half - 1), ack),
        (es, seg(ACK, 101, 301 + half), still),
        (es, seg(ACK, 101, 301 + half + 1), still),
    ];
    for (r, s, want) in table {
        let got = short(arrive(&P, r, s, 70_000));
        c.same(&format!("{:?} {}", r.state, words(&s)), got.as_str(), want);
    }
    // across 2^32: RCV.NXT 2^32 - 1, window 4,096
    let m = u32::MAX;
    let round = rec(State::Established, false, [m, 0, 0, m - 1, m]);
    c.same("RST 4094 round", short(arrive(&P, round, seg(RST, 4_094, 0), 0)).as_str(), "CLOSED 0/0");
    let stays = "ESTABLISHED 4294967295/4294967294";
    c.same("RST 4095 round", short(arrive(&P, round, seg(RST, 4_095, 0), 0)).as_str(), stays);
    let mut wide = established(false);
    wide.rcvwnd = 65_535;
    let wide_ack = "ESTABLISHED 300/100, ACK 301 ack 101 w65535";
    c.same("window 65,535", short(arrive(&P, wide, seg(0, 101 + 65_534, 0), 0)).as_str(), still);
    c.same("beyond it", short(arrive(&P, wide, seg(0, 101 + 65_535, 0), 0)).as_str(), wide_ack);
    let mut one = established(false);
    one.rcvwnd = 1;
    c.same("window 1", short(arrive(&P, one, seg(RST, 101, 0), 0)).as_str(), "CLOSED 0/0");
    c.same("window 1 beyond", short(arrive(&P, one, seg(RST, 102, 0), 0)).as_str(), still);
}

fn check_refusals(c: &mut Check) {
    c.part("refusals 1 to 12, and their order");
    let good = &EXAMPLE_IN[20..];
    let mut off = listening();
    off.iss = 1;
    let mut wrong_sum = good.to_vec();
    wrong_sum[16] ^= 1;
    let mut words_4 = good.to_vec();
    words_4[12] = 0x42;
    let mut words_6 = good.to_vec();
    words_6[12] = 0x60;
    // source port 1025, 7fac - 1
    let mut foreign = good.to_vec();
    foreign[1] = 1;
    foreign[17] = 0xab;
    // FIN and SYN, 7fac - 1
    let mut fin = good.to_vec();
    fin[13] = 3;
    fin[17] = 0xab;
    // two octets of text, 0: length 22, 7fac - 2
    let mut text = good.to_vec();
    text.extend([0, 0]);
    text[17] = 0xaa;
    // FIN from a foreign port, 7fac - 2
    let mut foreign_fin = foreign.clone();
    foreign_fin[13] = 3;
    foreign_fin[17] = 0xaa;
    // a foreign port and a wrong checksum
    let mut foreign_sum = foreign.clone();
    foreign_sum[16] ^= 1;
    let arrives = |r: Record, o: &[u8]| short(arrive_octets(&P, r, PEER, OWN, o, 300));
    c.same("good", arrives(listening(), good).as_str(), "SYN-RECEIVED* 300/100, SYN,ACK 300 ack 101 w4096, drawn");
    c.same("1", arrives(off, &[]).as_str(), "refused 1");
    c.same("2 below", arrives(listening(), &good[..19]).as_str(), "refused 2");
    c.same("2 empty", arrives(listening(), &[]).as_str(), "refused 2");
    c.same("2 above", arrives(listening(), &vec![0x55; 65_516]).as_str(), "refused 2");
    c.same("not 2", arrives(listening(), &vec![0x55; 65_515]).as_str(), "refused 4");
    c.same("3 below, before 4", arrives(listening(), &words_4).as_str(), "refused 3");
    c.same("3 beyond, before 4", arrives(listening(), &words_6).as_str(), "refused 3");
    c.same("4", arrives(listening(), &wrong_sum).as_str(), "refused 4");
    c.same("4 before 5", arrives(listening(), &foreign_sum).as_str(), "refused 4");
    c.same("5", arrives(listening(), &foreign).as_str(), "refused 5");
    c.same("5 before 6", arrives(listening(), &foreign_fin).as_str(), "refused 5");
    c.same("6 FIN", arrives(listening(), &fin).as_str(), "refused 6");
    c.same("6 text", arrives(listening(), &text).as_str(), "refused 6");
    c.same("5 addresses", short(arrive_octets(&P, listening(), OWN, PEER, good, 1)).as_str(), "refused 5");
    c.same("read 2", read_header(&P, PEER, OWN, &good[..19]), Err(2));
    c.same("read 2 above", read_header(&P, PEER, OWN, &vec![0; 65_516]), Err(2));
    c.same("read 3", read_header(&P, PEER, OWN, &words_4), Err(3));
    c.same("read 4", read_header(&P, PEER, OWN, &wrong_sum), Err(4));
    c.same("read no 5", read_header(&P, PEER, OWN, &foreign).is_ok(), true);
    c.same("read 6", read_header(&P, PEER, OWN, &fin), Err(6));
    c.same("read 6 text", read_header(&P, PEER, OWN, &text), Err(6));
    let f = Header { control: FIN, ..seg(0, 0, 0).header };
    let mut out = [0xee; 19];
    c.same("write 6 before 10", write_header(&P, PEER, OWN, f, &mut out), Err(6));
    c.same("write 10", write_header(&P, PEER, OWN, seg(0, 0, 0).header, &mut out), Err(10));
    c.same("unchanged", out, [0xee; 19]);
    // a segment arriving: 1, 5, 6
    let mut s = seg(FIN, 0, 0);
    s.src = 9;
    c.same("segment 1", short(arrive(&P, off, s, 0)).as_str(), "refused 1");
    c.same("segment 5", short(arrive(&P, listening(), s, 0)).as_str(), "refused 5");
    c.same("segment 6", short(arrive(&P, listening(), seg(FIN, 0, 0), 0)).as_str(), "refused 6");
    for i in 0..4 {
        let mut s = seg(SYN, 0, 0);
        match i {
            0 => s.src ^= 1,
            1 => s.dst ^= 1,
            2 => s.header.source ^= 1,
            _ => s.header.destination ^= 1,
        }
        c.same("each endpoint", short(arrive(&P, closed(), s, 0)).as_str(), "refused 5");
    }
    let mut s = seg(ACK, 0, 0);
    s.text = 1;
    c.same("segment 6 text", short(arrive(&P, listening(), s, 0)).as_str(), "refused 6");
    // calls: 1 before 7 and 8
    let mut bad = established(false);
    bad.rcvwnd = 0;
    let calls = [open(&P, bad, 1), listen(&P, bad), abort(&P, bad), resend(&P, bad), power_cut(&P, bad)];
    for got in calls {
        c.same("calls 1", short(got).as_str(), "refused 1");
    }
    c.same("7", short(open(&P, established(true), 1)).as_str(), "refused 7");
    c.same("7 listen", short(listen(&P, listening())).as_str(), "refused 7");
    c.same("8", short(abort(&P, closed())).as_str(), "refused 8");
    c.same("8 resend", short(resend(&P, established(true))).as_str(), "refused 8");
    // the model: 9, 11, 12 below and 1 here
    let refused = |m: &Model, e: Event| {
        let mut after = *m;
        let answer = step(&P, &mut after, e).map(|_| ());
        (answer, after == *m)
    };
    let m = model();
    c.same("9", refused(&m, Event::Deliver(Side::A, 0, 1)), (Err(9), true));
    c.same("9 copy", refused(&m, Event::Copy(Side::B, 0)), (Err(9), true));
    c.same("9 lose", refused(&m, Event::Lose(Side::B, u64::MAX)), (Err(9), true));
    let mut full = m;
    full.toa = Link::of(&[seg(FIN, 0, 0); 32]);
    c.same("11", refused(&full, Event::Copy(Side::A, 31)), (Err(11), true));
    c.same("9 before 11", refused(&full, Event::Copy(Side::A, 32)), (Err(9), true));
    c.same("delivery 6", refused(&full, Event::Deliver(Side::A, 0, 1)), (Err(6), true));
    let mut s = seg(FIN, 0, 0);
    s.dst ^= 1;
    full.toa = Link::of(&[s; 32]);
    c.same("delivery 5", refused(&full, Event::Deliver(Side::A, 31, 1)), (Err(5), true));
    c.same("delivery 9", refused(&full, Event::Deliver(Side::A, 32, 1)), (Err(9), true));
    full.toa = Link::of(&[s; 33]);
    c.same("1 count", refused(&full, Event::Copy(Side::A, 99)), (Err(1), true));
    let mut odd = m;
    odd.b.peerport = 1;
    c.same("1 endpoints", refused(&odd, Event::Abort(Side::A)), (Err(1), true));
    let mut odd = m;
    odd.b.nxt = 1;
    c.same("1 the other record", refused(&odd, Event::Open(Side::A, 5)), (Err(1), true));
    let events = vec![Event::Open(Side::A, 5); 4_097];
    let mut after = odd;
    c.same("list 1 before 12", play(&P, &mut after, &events), Err(1));
    let mut after = m;
    c.same("list 12", play(&P, &mut after, &events), Err(12));
    c.same("nothing played", after, m);
    let totals = play(&P, &mut after, &events[..4_096]);
    c.same("list of 4,096", totals, Ok(Totals { taken: 1, refused: 4_095, turned: 0 }));
}

/// A is 10.0.0.2 port 2000, B is 10.0.0.1 port 1024, closed, links empty.
fn model() -> Model {
    let a = closed();
    let b = Record {
        own: a.peer,
        ownport: a.peerport,
        peer: a.own,
        peerport: a.ownport,
        ..a
    };
    Model { a, b, toa: Link::empty(), tob: Link::empty() }
}

fn check_model(c: &mut Check) {
    c.part("two stations and their links");
    let seqs = |l: &Link| l.segments().iter().map(|s| s.header.seq).collect::<Vec<_>>();
    let mut m = model();
    m.tob = Link::of(&[seg(0, 1, 0), seg(0, 2, 0), seg(0, 3, 0)]);
    c.same("copy", step(&P, &mut m, Event::Copy(Side::B, 1)).is_ok(), true);
    c.same("copied to the end", seqs(&m.tob), vec![1, 2, 3, 2]);
    c.same("lose", step(&P, &mut m, Event::Lose(Side::B, 0)).is_ok(), true);
    c.same("moved up", seqs(&m.tob), vec![2, 3, 2]);
    c.same("the other link", seqs(&m.toa), vec![]);
    // a segment sent into a full link is turned away
    let mut m = model();
    m.tob = Link::of(&[sent(RST, 1, 0, 0); 32]);
    let told = step(&P, &mut m, Event::Open(Side::A, 700));
    let syn = sent(SYN, 700, 0, 4_096);
    c.same("turned", told, Ok(Told { sent: Some(syn), drawn: true, turned: true }));
    c.same("its record", (m.a.state, m.a.iss), (State::SynSent, 700));
    c.same("its link", (m.tob.count, m.tob.segments()[31].header.seq), (32, 1));
    let events = [
        Event::Resend(Side::A),         // turned
        Event::Listen(Side::A),         // refused 7
        Event::Deliver(Side::B, 31, 0), // dropped, taken
        Event::Resend(Side::A),         // taken
        Event::Copy(Side::B, 0),        // refused 11
        Event::Lose(Side::A, 0),        // refused 9
    ];
    let totals = play(&P, &mut m, &events);
    c.same("totals", totals, Ok(Totals { taken: 3, refused: 3, turned: 1 }));
    c.same("the SYN went behind", (m.tob.count, m.tob.segments()[31]), (32, syn));
    // opening, and RFC 793's crossing opens
    let mut m = model();
    let events = [
        Event::Open(Side::A, 100),
        Event::Open(Side::B, 300),
        Event::Deliver(Side::B, 0, 0), // SYN 100: B to SYN-RECEIVED, SYN,ACK 300 ack 101
        Event::Deliver(Side::A, 0, 0), // SYN 300: A to SYN-RECEIVED, SYN,ACK 100 ack 301
    ];
    c.same("crossing", play(&P, &mut m, &events).map(|t| t.taken), Ok(4));
    c.same("both received", (m.a.state, m.b.state), (State::SynReceived, State::SynReceived));
    let told = step(&P, &mut m, Event::Deliver(Side::A, 0, 0));
    c.same("only an ACK", told.map(|t| t.sent), Ok(Some(sent(ACK, 101, 301, 4_096))));
    c.same("not yet", m.a.state, State::SynReceived);
    c.same("the ACK", step(&P, &mut m, Event::Deliver(Side::B, 1, 0)).map(|t| t.sent), Ok(None));
    c.same("establishes", m.b.state, State::Established);
}

fn check_nine(c: &mut Check) {
    c.part("the nine steps");
    // A established (on 300, holding 100), B closed
    let mut m = model();
    m.a = established(true);
    let b = |control, seq, ack, window| {
        let mut s = seg(control, seq, ack);
        s.header.window = window;
        Some(s)
    };
    let steps: [(Event, Option<Segment>, State, State); 9] = [
        (Event::Open(Side::B, 65_636), b(SYN, 65_636, 0, 4_096), State::Established, State::SynSent),
        (Event::Deliver(Side::A, 0, 0), Some(sent(ACK, 301, 101, 4_096)), State::Established, State::SynSent),
        (Event::Deliver(Side::B, 0, 0), b(RST, 101, 0, 0), State::Established, State::SynSent),
        (Event::Deliver(Side::A, 0, 0), None, State::Closed, State::SynSent),
        (Event::Listen(Side::A), None, State::Listen, State::SynSent),
        (Event::Resend(Side::B), b(SYN, 65_636, 0, 4_096), State::Listen, State::SynSent),
        (Event::Deliver(Side::A, 0, 65_836), Some(sent(SYN | ACK, 65_836, 65_637, 4_096)), State::SynReceived, State::SynSent),
        (Event::Deliver(Side::B, 0, 0), b(ACK, 65_637, 65_837, 4_096), State::SynReceived, State::Established),
        (Event::Deliver(Side::A, 0, 0), None, State::Established, State::Established),
    ];
    for (i, (event, want, a, b)) in steps.into_iter().enumerate() {
        let told = step(&P, &mut m, event);
        c.same(&format!("step {}", i + 1), told.map(|t| (t.sent, t.turned)), Ok((want, false)));
        c.same(&format!("states after step {}", i + 1), (m.a.state, m.b.state), (a, b));
    }
    c.same("A", (m.a.iss, m.a.irs), (65_836, 65_636));
    c.same("B", (m.b.iss, m.b.irs), (65_636, 65_836));
    c.same("links empty", (m.toa.count, m.tob.count), (0, 0));
}

/// The example's SYN with some octets changed.
fn datagram(changes: &[(usize, u8)]) -> Vec<u8> {
    let mut d = EXAMPLE_IN.to_vec();
    for (at, octet) in changes {
        d[*at] = *octet;
    }
    d
}

/// A datagram of n octets that is skipped.
fn skipped(n: u16) -> Vec<u8> {
    let mut d = vec![0u8; n as usize];
    d[0] = 0x45;
    d[2..4].copy_from_slice(&n.to_be_bytes());
    d[9] = 17;
    d
}

/// 65,520 octets, all skipped.
fn nearly_all() -> Vec<u8> {
    let mut all = Vec::new();
    for _ in 0..43 {
        all.extend(skipped(1_500));
    }
    all.extend(skipped(1_020));
    all
}

fn check_program(c: &mut Check) {
    c.part("the program");
    c.same("example", program(&P, &EXAMPLE_IN), EXAMPLE_OUT.to_vec());
    let out = |parts: &[Vec<u8>]| program(&P, &parts.concat()).len();
    let good = || EXAMPLE_IN.to_vec();
    c.same("empty", out(&[]), 0);
    c.same("cut", out(&[good()[..39].to_vec()]), 0);
    c.same("cut in the second", out(&[good(), good()[..39].to_vec()]), 40);
    c.same("version 5", out(&[datagram(&[(0, 0x55)]), good()]), 0);
    c.same("words 4", out(&[datagram(&[(0, 0x44)]), good()]), 0);
    c.same("total 19", out(&[datagram(&[(3, 19)]), good()]), 0);
    c.same("total 20 is skipped", out(&[datagram(&[(3, 20)])[..20].to_vec(), good()]), 40);
    c.same("1,500", out(&[skipped(1_500), good()]), 40);
    c.same("1,501", out(&[skipped(1_501), good()]), 0);
    c.same("protocol 17", out(&[datagram(&[(9, 17)]), good()]), 40);
    c.same("refused is skipped", out(&[datagram(&[(36, 0)]), good()]), 40);
    c.same("IP checksum", out(&[datagram(&[(10, 0)])]), 40);
    c.same("fragment", out(&[datagram(&[(6, 0x20), (7, 1)])]), 40);
    c.same("up to 65,535", out(&[nearly_all(), good()]), 0);
    let mut all = nearly_all();
    all.truncate(65_520 - 1_020);
    all.extend(skipped(995));
    c.same("65,495", all.len(), 65_495);
    c.same("exactly to 65,535", out(&[all.clone(), good()]), 40);
    all.truncate(64_500);
    c.same("one octet less read", out(&[all, skipped(996), good()]), 0);
    // the SYN again is before the window: ACK with NXT 65,537
    let second = program(&P, &[good(), good()].concat());
    let mut want = EXAMPLE_OUT.to_vec();
    want[27] = 1;
    want[33] = 0x10;
    // seq + 1, SYN off: 7f9a - 1 + 2
    want[37] = 0x9b;
    c.same("repeated SYN", second[40..].to_vec(), want);
    // RST 101 back to LISTEN, SYN again: the second number is 131,072
    // RST 101: sequence 65, control 04: 7fac - 1 - 2 = 7fa9
    let reset = datagram(&[(27, 0x65), (33, 0x04), (37, 0xa9)]);
    let three = program(&P, &[good(), reset, good()].concat());
    let mut want = EXAMPLE_OUT.to_vec();
    want[25] = 2;
    want[37] = 0x99;
    c.same("second number", three[40..].to_vec(), want);
    // the right ACK: sequence 65, ack 00010001, control 10: 7fac - 1 - 2 - e = 7f9b
    let ack = datagram(&[(27, 0x65), (29, 1), (31, 1), (33, 0x10), (37, 0x9b)]);
    c.same("opening", out(&[good(), ack.clone()]), 40);
    // then RST 101 closes, and the SYN meets CLOSED: RST,ACK 0 ack 101
    let reset = datagram(&[(27, 0x65), (33, 0x04), (37, 0xa9)]);
    let closed = program(&P, &[good(), ack, reset, good()].concat());
    let mut want = EXAMPLE_OUT.to_vec();
    // 00010000 to 0, control 12 to 14, window 1000 to 0: 7f9a + 1 - 2 + 1000 = 8f99
    want[25] = 0;
    want[33] = 0x14;
    want[34] = 0;
    want[36] = 0x8f;
    want[37] = 0x99;
    c.same("reset in CLOSED", closed[40..].to_vec(), want);
}

fn check_streams(c: &mut Check) {
    c.part("streams: the same each time, every kind, and sometimes answered");
    let kinds = paper::streams::KINDS;
    let mut answered = vec![0u64; kinds.len()];
    for seed in 0..kinds.len() as u64 * 10 {
        let s = stream(seed);
        let i = (seed % kinds.len() as u64) as usize;
        c.same("kind", s.kind, kinds[i]);
        if seed < kinds.len() as u64 {
            c.same("again", stream(seed) == s, true);
        }
        answered[i] += program(&P, &s.octets).len() as u64 / 40;
    }
    for (kind, n) in kinds.iter().zip(answered) {
        if !kind.starts_with("random-octets") {
            c.same(&format!("{kind} has answers"), n > 0, true);
        }
    }
}

// ---- each wrong version changes the answer to an example

type Example = (Wrong, fn(&Paper) -> String, &'static str, &'static str);

fn hex(octets: &[u8]) -> String {
    octets.iter().map(|o| format!("{o:02x}")).collect()
}

fn reads(p: &Paper, octets: &[u8]) -> String {
    match read_header(p, PEER, OWN, octets) {
        Ok(_) => "read".to_string(),
        Err(n) => format!("refused {n}"),
    }
}

fn writes(p: &Paper) -> [u8; 22] {
    let mut h = seg(ACK, 1, 2).header;
    h.urgent = 5;
    let mut out = [0xee; 22];
    write_header(p, PEER, OWN, h, &mut out).expect("written");
    out
}

fn gets(p: &Paper, r: Record, s: Segment) -> String {
    short(arrive(p, r, s, 70_000))
}

fn out_octets(p: &Paper, parts: &[Vec<u8>]) -> String {
    format!("{} octets", program(p, &parts.concat()).len())
}

fn link_seqs(p: &Paper, event: Event) -> String {
    let mut m = model();
    m.toa = Link::of(&[seg(0, 1, 0), seg(0, 2, 0), seg(0, 3, 0)]);
    step(p, &mut m, event).expect("taken");
    format!("{:?}", m.toa.segments().iter().map(|s| s.header.seq).collect::<Vec<_>>())
}

fn examples() -> Vec<Example> {
    let still = "ESTABLISHED 300/100";
    let ack = "ESTABLISHED 300/100, ACK 301 ack 101 w4096";
    vec![
        (
            Wrong::PlainIntegers,
            |p| {
                let p8 = rec(State::SynSent, false, [u32::MAX, u32::MAX, 0, 0, 0]);
                gets(p, p8, seg(SYN | ACK, 300, 0))
            },
            "ESTABLISHED 4294967295/300, ACK 0 ack 301 w4096",
            "SYN-SENT 4294967295/0, RST 0 w0",
        ),
        (
            Wrong::SynReopens,
            |p| gets(p, established(false), seg(SYN, 9_000, 0)),
            ack,
            "SYN-RECEIVED* 70000/9000, SYN,ACK 70000 ack 9001 w4096, drawn",
        ),
        (
            Wrong::KeepsIss,
            |p| {
                let back = arrive(p, syn_received(true), seg(RST, 101, 0), 1).expect("taken").next;
                gets(p, back, seg(SYN, 500, 0))
            },
            "SYN-RECEIVED* 70000/500, SYN,ACK 70000 ack 501 w4096, drawn",
            "SYN-RECEIVED* 300/500, SYN,ACK 300 ack 501 w4096",
        ),
        (Wrong::NotSpaced, |p| hex(&program(p, &EXAMPLE_IN)[24..28]), "00010000", "00000001"),
        (
            Wrong::ReservedRefused,
            |p| {
                let mut t = tcp([0x10, 0], [0x7e, 0xac]);
                t[12] = 0x51;
                reads(p, &t)
            },
            "read",
            "refused 3",
        ),
        (
            Wrong::OddOctetLow,
            |p| {
                let mut t = tcp([0x10, 0], [0x7e, 0xab]).to_vec();
                t.push(1);
                reads(p, &t)
            },
            "refused 6",
            "refused 4",
        ),
        (Wrong::FfffRefused, |p| reads(p, &tcp([0x8f, 0xac], [255, 255])), "read", "refused 4"),
        (Wrong::ZeroAbsent, |p| reads(p, &tcp([0x10, 0], [0, 0])), "refused 4", "read"),
        (
            Wrong::ChecksumBeforeLength,
            |p| {
                let mut t = tcp([0x10, 0], [0x7f, 0xac]);
                t[12] = 0x40;
                reads(p, &t)
            },
            "refused 3",
            "refused 4",
        ),
        (
            Wrong::TextRead,
            |p| {
                let mut t = tcp([0x10, 0], [0x7f, 0xaa]).to_vec();
                t.extend([0, 0]);
                reads(p, &t)
            },
            "refused 6",
            "read",
        ),
        (Wrong::UrgentDropped, |p| hex(&writes(p)[18..20]), "0005", "0000"),
        (Wrong::LengthLow, |p| hex(&writes(p)[12..13]), "50", "05"),
        (Wrong::ClearsOutput, |p| hex(&writes(p)[20..]), "eeee", "0000"),
        (Wrong::WindowEdge, |p| gets(p, established(false), seg(RST, 4_197, 0)), still, "CLOSED 0/0"),
        (Wrong::WindowSigned, |p| gets(p, established(false), seg(RST, 100, 0)), still, "CLOSED 0/0"),
        (
            Wrong::ResetAlwaysAck,
            |p| gets(p, closed(), seg(ACK, 5, 9)),
            "CLOSED 0/0, RST 9 w0",
            "CLOSED 0/0, RST,ACK 0 ack 5 w0",
        ),
        (
            Wrong::ResetSynUncounted,
            |p| gets(p, closed(), seg(SYN, u32::MAX, 0)),
            "CLOSED 0/0, RST,ACK 0 ack 0 w0",
            "CLOSED 0/0, RST,ACK 0 ack 4294967295 w0",
        ),
        (
            Wrong::ResetWindow,
            |p| gets(p, closed(), seg(SYN, u32::MAX, 0)),
            "CLOSED 0/0, RST,ACK 0 ack 0 w0",
            "CLOSED 0/0, RST,ACK 0 ack 0 w4096",
        ),
        (
            Wrong::UnaAccepted,
            |p| gets(p, syn_received(true), seg(ACK, 101, 300)),
            "SYN-RECEIVED* 300/100, RST 300 w0",
            "ESTABLISHED* 300/100",
        ),
        (Wrong::MarkIgnored, |p| gets(p, syn_received(false), seg(RST, 101, 0)), "CLOSED 0/0", "LISTEN* 0/0"),
        (Wrong::RstNeverListens, |p| gets(p, syn_received(true), seg(RST, 101, 0)), "LISTEN* 0/0", "CLOSED 0/0"),
        (
            Wrong::SynToListen,
            |p| gets(p, syn_received(true), seg(SYN, 101, 0)),
            "CLOSED 0/0, RST,ACK 0 ack 102 w0",
            "LISTEN* 0/0",
        ),
        (
            Wrong::ChallengeAck,
            |p| gets(p, established(false), seg(SYN, 101, 0)),
            "CLOSED 0/0, RST,ACK 0 ack 102 w0",
            ack,
        ),
        (Wrong::RstExact, |p| gets(p, established(false), seg(RST, 4_196, 0)), "CLOSED 0/0", ack),
        (Wrong::BareRstCloses, |p| gets(p, syn_sent_100(), seg(RST, 0, 0)), "SYN-SENT 100/0", "CLOSED 0/0"),
        (
            Wrong::ListenTakesAck,
            |p| gets(p, listening(), seg(SYN | ACK, 100, 7)),
            "LISTEN* 0/0, RST 7 w0",
            "SYN-RECEIVED* 70000/100, SYN,ACK 70000 ack 101 w4096, drawn",
        ),
        (
            Wrong::CrossingEstablishes,
            |p| {
                let r = rec(State::SynReceived, false, [100, 100, 101, 300, 301]);
                gets(p, r, seg(SYN | ACK, 300, 101))
            },
            "SYN-RECEIVED 100/300, ACK 101 ack 301 w4096",
            "ESTABLISHED 100/300",
        ),
        (Wrong::LaterHalf, |p| gets(p, established(false), seg(ACK, 101, 2_147_483_949)), still, ack),
        (Wrong::LateAckAnswered, |p| gets(p, established(false), seg(ACK, 101, 300)), still, ack),
        (
            Wrong::EndpointsBeforeChecksum,
            |p| {
                let mut t = tcp([0x10, 0], [0, 1]);
                t[0] = 9;
                short(arrive_octets(p, listening(), PEER, OWN, &t, 1))
            },
            "refused 4",
            "refused 5",
        ),
        (
            Wrong::FinBeforeEndpoints,
            |p| {
                let mut s = seg(FIN, 1, 0);
                s.src = 0;
                gets(p, listening(), s)
            },
            "refused 5",
            "refused 6",
        ),
        (
            Wrong::OpenNotFromListen,
            |p| short(open(p, listening(), 100)),
            "SYN-SENT 100/0, SYN 100 w4096, drawn",
            "refused 7",
        ),
        (
            Wrong::ResendSyn,
            |p| short(resend(p, syn_received(true))),
            "SYN-RECEIVED* 300/100, SYN,ACK 300 ack 101 w4096",
            "SYN-RECEIVED* 300/100, SYN 300 w4096",
        ),
        (Wrong::AbortSilent, |p| short(abort(p, syn_received(true))), "CLOSED 0/0, RST 301 w0", "CLOSED 0/0"),
        (Wrong::PowerCutKeepsListen, |p| short(power_cut(p, listening())), "CLOSED 0/0", "LISTEN* 0/0"),
        (
            Wrong::FullBeforePlace,
            |p| {
                let mut m = model();
                m.toa = Link::of(&[seg(SYN, 1, 0); 32]);
                format!("{:?}", step(p, &mut m, Event::Copy(Side::A, 32)).map(|_| ()))
            },
            "Err(9)",
            "Err(11)",
        ),
        (Wrong::CopyMoves, |p| link_seqs(p, Event::Copy(Side::A, 0)), "[1, 2, 3, 1]", "[2, 3, 1]"),
        (Wrong::LoseSwaps, |p| link_seqs(p, Event::Lose(Side::A, 0)), "[2, 3]", "[3, 2]"),
        (
            Wrong::RefusedLeaves,
            |p| {
                let mut m = model();
                m.toa = Link::of(&[seg(FIN, 1, 0)]);
                let answer = step(p, &mut m, Event::Deliver(Side::A, 0, 1)).map(|_| ());
                format!("{:?}, {} left", answer, m.toa.count)
            },
            "Err(6), 1 left",
            "Err(6), 0 left",
        ),
        (
            Wrong::FullDropsFirst,
            |p| {
                let mut m = model();
                m.tob = Link::of(&[sent(RST, 1, 0, 0); 32]);
                step(p, &mut m, Event::Open(Side::A, 700)).expect("taken");
                format!("{}", m.tob.segments()[31].header.seq)
            },
            "1",
            "700",
        ),
        (
            Wrong::TurnedUncounted,
            |p| {
                let mut m = model();
                m.tob = Link::of(&[sent(RST, 1, 0, 0); 32]);
                let totals = play(p, &mut m, &[Event::Open(Side::A, 700)]).expect("played");
                format!("{} {} {}", totals.taken, totals.refused, totals.turned)
            },
            "1 0 1",
            "1 0 0",
        ),
        (
            Wrong::ListShort,
            |p| format!("{:?}", play(p, &mut model(), &[Event::PowerCut(Side::A); 4_096]).map(|t| t.taken)),
            "Ok(4096)",
            "Err(12)",
        ),
        (Wrong::LongDatagram, |p| out_octets(p, &[skipped(1_501), datagram(&[])]), "0 octets", "40 octets"),
        (Wrong::ProtocolUnseen, |p| out_octets(p, &[datagram(&[(9, 17)])]), "0 octets", "40 octets"),
        (
            Wrong::IpOptionsUnseen,
            |p| {
                let mut d = datagram(&[(0, 0x46), (3, 44)]);
                d.splice(20..20, [1, 1, 1, 0]);
                out_octets(p, &[d])
            },
            "40 octets",
            "0 octets",
        ),
        (Wrong::FragmentsSkipped, |p| out_octets(p, &[datagram(&[(6, 0x20)])]), "40 octets", "0 octets"),
        (Wrong::RefusedStops, |p| out_octets(p, &[datagram(&[(36, 0)]), datagram(&[])]), "40 octets", "0 octets"),
        (
            Wrong::AlwaysDrawn,
            |p| hex(&program(p, &[datagram(&[(36, 0)]), datagram(&[])].concat())[24..28]),
            "00010000",
            "00020000",
        ),
        (Wrong::ReadsOn, |p| out_octets(p, &[nearly_all(), datagram(&[])]), "0 octets", "40 octets"),
    ]
}

fn check_wrong(c: &mut Check) {
    c.part("each wrong version: its example answered rightly by the paper, wrongly by it");
    let examples = examples();
    for wrong in Wrong::ALL {
        c.same("name", Wrong::from_name(wrong.name()), Some(wrong));
        let of = examples.iter().filter(|e| e.0 == wrong).count();
        c.same(&format!("{} has an example", wrong.name()), of, 1);
    }
    c.same("none", Wrong::from_name("none"), Some(Wrong::None));
    c.same("no such", Wrong::from_name("no-such"), None);
    for (wrong, ask, right, other) in examples {
        c.same(&format!("{}, right", wrong.name()), ask(&P).as_str(), right);
        c.same(&format!("{}, wrong", wrong.name()), ask(&Paper { wrong }).as_str(), other);
    }
    // how many of 840 streams each changes; those not seen by the program are 0
    let streams: Vec<Stream> = (0..840).map(stream).collect();
    let right: Vec<Vec<u8>> = streams.iter().map(|s| program(&P, &s.octets)).collect();
    print!("    of 840 streams, changed by:");
    for wrong in Wrong::ALL {
        let p = Paper { wrong };
        let n = streams.iter().zip(&right).filter(|(s, r)| program(&p, &s.octets) != **r).count();
        print!(" {} {n};", wrong.name());
    }
    println!();
}

// ---- demand 3, by chance

/// Plays lists by chance with spaced numbers and looks after each event
/// whether what demand 3 says holds. Tells how often it did not.
fn demand_3(p: &Paper, spacing: u32, lists: u64) -> (u64, u64) {
    let mut rng = paper::streams::Rng(3);
    let (mut broken, mut both) = (0, 0);
    for _ in 0..lists {
        let mut m = model();
        // for each side: every number drawn, with every number of the peer's
        // that was recorded under it
        let mut drawn: [Vec<u32>; 2] = [Vec::new(), Vec::new()];
        let mut recorded: [Vec<(u32, u32)>; 2] = [Vec::new(), Vec::new()];
        let mut was_broken = false;
        for _ in 0..300 {
            let side = rng.pick(&[Side::A, Side::B]);
            let i = side as usize;
            let next = (drawn[i].len() as u32 + 1).wrapping_mul(spacing).wrapping_add(i as u32 * 7);
            let place = rng.below(4);
            let event = match rng.below(40) {
                0..=3 => Event::Open(side, next),
                4..=7 => Event::Listen(side),
                8 => Event::Abort(side),
                9..=11 => Event::Resend(side),
                12 => Event::PowerCut(side),
                13..=15 => Event::Copy(side, place),
                16 => Event::Lose(side, place),
                _ => Event::Deliver(side, place, next),
            };
            if let Ok(told) = step(p, &mut m, event) {
                if told.drawn {
                    drawn[i].push(next);
                }
            }
            for side in [Side::A, Side::B] {
                let r = m.station(side);
                if r.state == State::SynReceived || r.state == State::Established {
                    let pair = (r.iss, r.irs);
                    if !recorded[side as usize].contains(&pair) {
                        recorded[side as usize].push(pair);
                    }
                }
            }
            let (a, b) = (&m.a, &m.b);
            let mut holds = true;
            for (side, r) in [(Side::A, a), (Side::B, b)] {
                if r.state == State::Established {
                    let other = side.other() as usize;
                    holds &= drawn[other].contains(&r.irs);
                    holds &= recorded[other].contains(&(r.irs, r.iss));
                }
            }
            if a.state == State::Established && b.state == State::Established {
                both += 1;
                holds &= a.irs == b.iss && b.irs == a.iss;
            }
            was_broken |= !holds;
        }
        broken += was_broken as u64;
    }
    (broken, both)
}

fn check_demand_3(c: &mut Check) {
    c.part("demand 3 by chance: 4,000 lists of 300 events");
    let (broken, both) = demand_3(&P, 65_536, 4_000);
    c.same("never broken", broken, 0);
    c.same("and both established often", both > 1_000, true);
    let (close, _) = demand_3(&P, 1, 4_000);
    println!("    numbers 1 apart: {close} lists of 4,000 break it");
    for wrong in [Wrong::SynReopens, Wrong::KeepsIss, Wrong::UnaAccepted] {
        let (n, _) = demand_3(&Paper { wrong }, 65_536, 4_000);
        println!("    {}: {n} lists of 4,000 break it", wrong.name());
    }
}
