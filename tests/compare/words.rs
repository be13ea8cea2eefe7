//! Cases and answers in words.

use crate::tabor::{Header, Link, Record, Segment, Told};

pub const STATES: [&str; 5] = ["CLOSED", "LISTEN", "SYN-SENT", "SYN-RECEIVED", "ESTABLISHED"];

/// 12345678 as 12,345,678.
pub fn thousands(n: u64) -> String {
    let digits = n.to_string();
    let mut text = String::new();
    for (i, digit) in digits.chars().enumerate() {
        if i > 0 && (digits.len() - i) % 3 == 0 {
            text.push(',');
        }
        text.push(digit);
    }
    text
}

pub fn state(number: u8) -> String {
    match STATES.get(number as usize) {
        Some(name) => name.to_string(),
        None => format!("state {number}"),
    }
}

pub fn address(a: u32) -> String {
    let [w, x, y, z] = a.to_be_bytes();
    format!("{w}.{x}.{y}.{z}")
}

pub fn control(bits: u8) -> String {
    const NAMES: [&str; 8] = ["CWR", "ECE", "URG", "ACK", "PSH", "RST", "SYN", "FIN"];
    let on: Vec<&str> = (0..8)
        .filter(|i| bits & (0x80 >> i) != 0)
        .map(|i| NAMES[i])
        .collect();
    if on.is_empty() {
        return "no bits".to_string();
    }
    on.join(",")
}

pub fn record(r: &Record) -> String {
    let mark = match r.passive {
        0 => "mark no".to_string(),
        1 => "mark yes".to_string(),
        n => format!("mark {n}"),
    };
    format!(
        "{}, {}, ISS {}, UNA {}, NXT {}, IRS {}, RCV.NXT {}, RCV.WND {}, own {}:{}, peer {}:{}",
        state(r.state),
        mark,
        r.iss,
        r.una,
        r.nxt,
        r.irs,
        r.rcvnxt,
        r.rcvwnd,
        address(r.own),
        r.ownport,
        address(r.peer),
        r.peerport
    )
}

pub fn header(h: &Header) -> String {
    format!(
        "{} seq {} ack {} window {} urgent {} ports {} to {}",
        control(h.control),
        h.seq,
        h.ack,
        h.window,
        h.urgent,
        h.source,
        h.destination
    )
}

pub fn segment(g: &Segment) -> String {
    format!(
        "{}, {} to {}, text {}",
        header(&g.header),
        address(g.src),
        address(g.dst),
        g.text
    )
}

pub fn octets(octets: &[u8]) -> String {
    if octets.is_empty() {
        return "none".to_string();
    }
    format!("{} octets: {}", octets.len(), crate::codec::to_hex(octets))
}

pub fn refusal(number: u8) -> String {
    match number {
        0 => "not refused".to_string(),
        n => format!("refusal {n}"),
    }
}

pub fn told(t: &Told) -> Vec<String> {
    let sent = if t.sent == 0 && t.segment == Segment::default() {
        "sent none".to_string()
    } else {
        format!("sent ({}) {}", t.sent, segment(&t.segment))
    };
    vec![
        refusal(t.refusal),
        format!("next {}", record(&t.next)),
        sent,
        format!("drawn {}", t.drawn),
    ]
}

/// The slots that count in full; of those past the count only what is not zero.
pub fn link(name: &str, link: &Link) -> Vec<String> {
    let mut lines = vec![format!("{name}: count {}", link.count)];
    for (i, slot) in link.slots.iter().enumerate() {
        if i < link.count {
            lines.push(format!("{name}, place {i}: {}", segment(slot)));
        } else if *slot != Segment::default() {
            lines.push(format!("{name}, slot {i} past the count: {}", segment(slot)));
        }
    }
    lines
}
