//! Draws the pictures of docs/pictures: `draw REPO_ROOT OUT_DIR` (docs/pictures/make builds and calls it).
//!
//! Three histories are played through the static library, one event at a time. Every record and every segment
//! that is drawn is read off the model that `tabor_play` answers; an event that is refused ends the program. The
//! fourth picture has the crates of crates.txt.
#[path = "../../crates/boundary/tabor.rs"]
mod tabor;

use std::fmt::Write as _;
use std::process::exit;
use std::{env, fs};
use tabor::{Link, Model, Record, Segment};

const INK: &str = "#1a1a1a";
const PALE: &str = "#8a8a8a";
const LATE: &str = "#c2410c";

const STATES: [&str; 5] = ["CLOSED", "LISTEN", "SYN-SENT", "SYN-RECEIVED", "ESTABLISHED"];
const LISTEN: u8 = 1;
const SYN_RECEIVED: u8 = 3;
const ESTABLISHED: u8 = 4;

fn main() {
    let arguments: Vec<String> = env::args().collect();
    if arguments.len() != 3 {
        fail("usage: draw REPO_ROOT OUT_DIR");
    }
    let list = format!("{}/crates.txt", arguments[1]);
    let crates = fs::read_to_string(&list).unwrap_or_else(|e| fail(&format!("{list}: {e}")));
    for (name, picture) in [
        ("opening.svg", drawn(&plain())),
        ("incident.svg", drawn(&incident())),
        ("nine-steps.svg", drawn(&nine_steps())),
        ("crates.svg", crates_drawn(&crates)),
    ] {
        let path = format!("{}/{name}", arguments[2]);
        fs::write(&path, picture).unwrap_or_else(|e| fail(&format!("{path}: {e}")));
    }
}

fn fail(why: &str) -> ! {
    eprintln!("draw: {why}");
    exit(1)
}

// ---- the histories

#[derive(Clone, Copy, PartialEq, Eq)]
enum Side {
    A,
    B,
}
use Side::{A, B};

#[derive(Clone, Copy)]
#[allow(dead_code)] // a history may have any event of the model
enum Event {
    Open(Side, u32),
    Listen(Side),
    Abort(Side),
    Resend(Side),
    PowerCut(Side),
    Deliver(Side, u32, u32),
    Copied(Side, u32),
    Lose(Side, u32),
}
use Event::{Abort, Copied, Deliver, Listen, Lose, Open, PowerCut, Resend};

/// The events of one picture: those that led to its beginning, those shown before the count begins, and the rest.
struct History {
    title: &'static str,
    words: &'static [&'static str],
    names: [&'static str; 2],
    before: Vec<Event>,
    first: Vec<Event>,
    events: Vec<Event>,
}

fn plain() -> History {
    History {
        title: "A plain opening",
        words: &["B listens, A opens with 100, B draws 300."],
        names: ["Station A", "Station B"],
        before: vec![],
        first: vec![],
        events: vec![Listen(B), Open(A, 100), Deliver(B, 0, 300), Deliver(A, 0, 0), Deliver(B, 0, 0)],
    }
}

/// `story` of crates/opening/specs/Runs.antt, which docs/INCIDENT.md tells.
fn incident() -> History {
    History {
        title: "The incident",
        words: &[
            "A draws 100,000 twice. The rows are those of the table in docs/INCIDENT.md.",
            "In colour: a segment that arrives after its sender's power was cut.",
        ],
        names: ["A, the barn box", "B, the office"],
        before: vec![],
        first: vec![],
        events: vec![
            Open(A, 100000),
            Copied(B, 0),
            Listen(B),
            Deliver(B, 0, 200000),
            PowerCut(B),
            Listen(B),
            Deliver(B, 0, 300000),
            Deliver(A, 1, 0),
            PowerCut(A),
            Open(A, 100000),
            Deliver(A, 0, 0),
            Deliver(B, 0, 0),
        ],
    }
}

/// `plain`, `cut` and `recovery` of crates/opening/specs/Runs.antt.
fn nine_steps() -> History {
    History {
        title: "The nine steps",
        words: &["A is established, and B is closed after a power cut. B opens with 400,000, A draws 600,000."],
        names: ["Station A", "Station B"],
        before: vec![Listen(A), Open(B, 100), Deliver(A, 0, 200000), Deliver(B, 0, 0), Deliver(A, 0, 0)],
        first: vec![PowerCut(B)],
        events: vec![
            Open(B, 400000),
            Deliver(A, 0, 1),
            Deliver(B, 0, 2),
            Deliver(A, 0, 3),
            Listen(A),
            Resend(B),
            Deliver(A, 0, 600000),
            Deliver(B, 0, 4),
            Deliver(A, 0, 5),
        ],
    }
}

// ---- playing

/// Both closed, the links empty: `barn` of crates/opening/specs/Runs.antt.
fn start() -> Model {
    let a = Record { own: 0x0a000001, ownport: 1024, peer: 0x0a000002, peerport: 2000, rcvwnd: 4096, ..Record::default() };
    let b = Record { own: a.peer, ownport: a.peerport, peer: a.own, peerport: a.ownport, ..a };
    Model { a, b, ..Model::default() }
}

/// Ten octets: kind, side, place, number.
fn octets(e: Event) -> [u8; 10] {
    let (kind, side, place, number) = match e {
        Open(x, n) => (0, x, 0, n),
        Listen(x) => (1, x, 0, 0),
        Abort(x) => (2, x, 0, 0),
        Resend(x) => (3, x, 0, 0),
        PowerCut(x) => (4, x, 0, 0),
        Deliver(x, p, n) => (5, x, p, n),
        Copied(x, p) => (6, x, p, 0),
        Lose(x, p) => (7, x, p, 0),
    };
    let mut o = [0; 10];
    o[0] = kind;
    o[1] = side as u8;
    o[2..6].copy_from_slice(&place.to_be_bytes());
    o[6..10].copy_from_slice(&number.to_be_bytes());
    o
}

/// The model after one event, which is taken and has nothing turned away.
fn played(m: Model, e: Event) -> Model {
    let p = tabor::play(m, &octets(e));
    if (p.refusal, p.taken, p.refused, p.turned) != (0, 1, 0, 0) {
        fail(&format!("an event is not taken: {:?}", octets(e)));
    }
    p.model
}

fn side_of(e: Event) -> Side {
    match e {
        Open(x, _) | Listen(x) | Abort(x) | Resend(x) | PowerCut(x) | Deliver(x, ..) | Copied(x, _) | Lose(x, _) => x,
    }
}

fn record_of(m: &Model, x: Side) -> &Record {
    if x == A { &m.a } else { &m.b }
}

fn toward(m: &Model, x: Side) -> &Link {
    if x == A { &m.toa } else { &m.tob }
}

fn other(x: Side) -> Side {
    if x == A { B } else { A }
}

/// Where a segment's line begins and ends. A copy begins on the line that it was copied from.
#[derive(Clone, Copy)]
enum Begin {
    Sent(usize),
    Copied(usize, usize),
}
#[derive(Clone, Copy, PartialEq, Eq)]
enum End {
    Delivered(usize),
    Lost(usize),
    OnTheWay,
}

struct Flight {
    segment: Segment,
    to: Side,
    begin: Begin,
    end: End,
    sent: usize,
    late: bool,
}

/// One event, drawn: what stands beside a lifeline, or in the channel.
struct Row {
    event: Event,
    number: String,
    words: Vec<(String, bool)>,
    replies: bool,
    y: f64,
}

fn commas(n: u32) -> String {
    let digits = n.to_string();
    let mut s = String::new();
    for (i, c) in digits.chars().enumerate() {
        if i > 0 && (digits.len() - i) % 3 == 0 {
            s.push(',');
        }
        s.push(c);
    }
    s
}

/// "SYN,ACK 300 ack 101"
fn segment_words(g: &Segment) -> String {
    let h = g.header;
    let bits = [(2, "SYN"), (4, "RST"), (16, "ACK")];
    let names: Vec<&str> = bits.iter().filter(|(b, _)| h.control & b != 0).map(|(_, name)| *name).collect();
    let ack = if h.control & 16 != 0 { format!(" ack {}", commas(h.ack)) } else { String::new() };
    format!("{} {}{ack}", names.join(","), commas(h.seq))
}

/// The state, and ISS and IRS as far as the state has them.
fn record_words(r: &Record) -> Vec<(String, bool)> {
    let mut lines = vec![(STATES[r.state as usize].to_string(), true)];
    match r.state {
        0 | LISTEN => {}
        2 => lines.push((format!("ISS {}", commas(r.iss)), false)),
        _ => lines.push((format!("ISS {}, IRS {}", commas(r.iss), commas(r.irs)), false)),
    }
    lines
}

fn event_words(e: Event, before: &Record, after: &Record, sent: bool) -> Vec<(String, bool)> {
    let call = match e {
        Open(_, n) => format!("opens with {}", commas(n)),
        Listen(_) => "listens".into(),
        Abort(_) => "aborts".into(),
        Resend(_) => "resends".into(),
        PowerCut(_) => "power cut".into(),
        Deliver(..) if (before.state, after.state) == (LISTEN, SYN_RECEIVED) => format!("draws {}", commas(after.iss)),
        Deliver(..) if before == after => if sent { "the record stays" } else { "dropped" }.into(),
        Copied(..) => return vec![("the bridge copies it".into(), false)],
        Lose(..) => return vec![("lost".into(), false)],
        Deliver(..) => String::new(),
    };
    let mut lines = if call.is_empty() { vec![] } else { vec![(call, false)] };
    if before != after {
        lines.extend(record_words(after));
    }
    lines
}

/// The rows and the flights of a history, and the models at its beginning and end.
fn told(h: &History) -> (Model, Model, Vec<Row>, Vec<Flight>) {
    let begin = h.before.iter().fold(start(), |m, e| played(m, *e));
    if begin.toa.count + begin.tob.count != 0 {
        fail("segments are on the way where the picture begins");
    }
    let mut m = begin;
    let mut rows: Vec<Row> = vec![];
    let mut flights: Vec<Flight> = vec![];
    // which flight is at which place of the link towards A and of the link towards B
    let mut places: [Vec<usize>; 2] = [vec![], vec![]];
    for (i, e) in h.first.iter().chain(&h.events).enumerate() {
        let (x, e) = (side_of(*e), *e);
        let next = played(m, e);
        match e {
            Deliver(_, p, _) => {
                let f = places[x as usize].remove(p as usize);
                flights[f].end = End::Delivered(i);
                let sent = flights[f].sent;
                flights[f].late = rows[sent..].iter().any(|r| matches!(r.event, PowerCut(y) if y == other(x)));
            }
            Lose(_, p) => {
                let f = places[x as usize].remove(p as usize);
                flights[f].end = End::Lost(i);
            }
            Copied(_, p) => {
                let f = places[x as usize][p as usize];
                let Flight { segment, to, sent, .. } = flights[f];
                places[x as usize].push(flights.len());
                flights.push(Flight { segment, to, begin: Begin::Copied(f, i), end: End::OnTheWay, sent, late: false });
            }
            _ => {}
        }
        let (back, to) = (toward(&next, other(x)), other(x));
        let sent = back.count > places[to as usize].len();
        if sent {
            let segment = back.slots[back.count - 1];
            places[to as usize].push(flights.len());
            flights.push(Flight { segment, to, begin: Begin::Sent(i), end: End::OnTheWay, sent: i, late: false });
        }
        // what is drawn on the way is what the model has on its links
        for y in [A, B] {
            let link = toward(&next, y);
            let on_the_way: Vec<Segment> = places[y as usize].iter().map(|f| flights[*f].segment).collect();
            if link.slots[..link.count] != on_the_way[..] {
                fail("the links are not as drawn");
            }
        }
        let number = if i < h.first.len() { String::new() } else { (i + 1 - h.first.len()).to_string() };
        let words = event_words(e, record_of(&m, x), record_of(&next, x), sent);
        rows.push(Row { event: e, number, words, replies: sent && matches!(e, Deliver(..)), y: 0.0 });
        m = next;
    }
    (begin, m, rows, flights)
}

// ---- drawing

struct Svg {
    body: String,
}

impl Svg {
    fn text(&mut self, x: f64, y: f64, anchor: &str, more: &str, content: &str) {
        let content = content.replace('&', "&amp;").replace('<', "&lt;");
        let _ = writeln!(self.body, "<text x=\"{x:.1}\" y=\"{y:.1}\" text-anchor=\"{anchor}\"{more}>{content}</text>");
    }

    fn line(&mut self, from: Point, to: Point, more: &str) {
        let _ = writeln!(
            self.body,
            "<line x1=\"{:.1}\" y1=\"{:.1}\" x2=\"{:.1}\" y2=\"{:.1}\"{more}/>",
            from.0, from.1, to.0, to.1
        );
    }

    fn raw(&mut self, s: &str) {
        self.body.push_str(s);
        self.body.push('\n');
    }

    fn done(self, width: f64, height: f64, title: &str) -> String {
        let mut s = String::new();
        let _ = writeln!(
            s,
            "<svg xmlns=\"http://www.w3.org/2000/svg\" viewBox=\"0 0 {width:.0} {height:.0}\" width=\"{width:.0}\" height=\"{height:.0}\" \
             font-family=\"system-ui, sans-serif\" font-size=\"13\" fill=\"{INK}\" role=\"img\">"
        );
        let _ = writeln!(s, "<title>{title}</title>");
        for (id, colour) in [("ink", INK), ("late", LATE)] {
            let _ = writeln!(
                s,
                "<marker id=\"{id}\" viewBox=\"0 0 10 10\" refX=\"10\" refY=\"5\" markerWidth=\"9\" markerHeight=\"9\" \
                 markerUnits=\"userSpaceOnUse\" orient=\"auto\"><path d=\"M0 1 10 5 0 9z\" fill=\"{colour}\"/></marker>"
            );
        }
        let _ = writeln!(s, "<rect width=\"{width:.0}\" height=\"{height:.0}\" fill=\"#fff\"/>");
        s + &self.body + "</svg>\n"
    }
}

type Point = (f64, f64);

const WIDTH: f64 = 960.0;
const AT: [f64; 2] = [250.0, 730.0];
const LEADING: f64 = 17.0;

/// How far a point is from a line's nearest point.
fn distance(p: Point, (a, b): (Point, Point)) -> f64 {
    let (dx, dy) = (b.0 - a.0, b.1 - a.1);
    let t = (((p.0 - a.0) * dx + (p.1 - a.1) * dy) / (dx * dx + dy * dy)).clamp(0.0, 1.0);
    ((p.0 - a.0 - t * dx).powi(2) + (p.1 - a.1 - t * dy).powi(2)).sqrt()
}

/// How wide words of size 12 are, in a wide font.
fn width_of(words: &str) -> f64 {
    words.chars().map(|c| if ",. ".contains(c) { 3.8 } else if c.is_uppercase() { 8.4 } else { 7.4 }).sum()
}

/// The axis of a label at a share t of a line, so far beside it: two points, left to right.
fn axis(line: (Point, Point), t: f64, beside: f64, width: f64) -> (Point, Point) {
    let (l, r) = if line.0 .0 < line.1 .0 { line } else { (line.1, line.0) };
    let long = ((r.0 - l.0).powi(2) + (r.1 - l.1).powi(2)).sqrt();
    let (ux, uy) = ((r.0 - l.0) / long, (r.1 - l.1) / long);
    let share = if line.0 .0 < line.1 .0 { t } else { 1.0 - t };
    let (x, y) = (l.0 + share * (r.0 - l.0) - uy * beside, l.1 + share * (r.1 - l.1) + ux * beside);
    ((x - ux * width / 2.0, y - uy * width / 2.0), (x + ux * width / 2.0, y + uy * width / 2.0))
}

/// Points along an axis.
fn along(a: (Point, Point)) -> Vec<Point> {
    (0..=12).map(|i| f64::from(i) / 12.0).map(|t| (a.0 .0 + t * (a.1 .0 - a.0 .0), a.0 .1 + t * (a.1 .1 - a.0 .1))).collect()
}

/// Where a label is clearest of the other lines and labels: the first place that has room, or else the best.
fn place(line: (Point, Point), words: &str, lines: &[(Point, Point)], labels: &[(Point, Point)]) -> (Point, Point) {
    let mut best = (f64::MIN, axis(line, 0.5, -9.0, 0.0));
    // above the line before below it, and from the middle outwards: 0.5, 0.49, 0.51, 0.48, ..
    for beside in [-9.0, 9.0] {
        for i in 0..60 {
            let t = 0.5 + f64::from((i + 1) / 2) * if i % 2 == 0 { 0.01 } else { -0.01 };
            let a = axis(line, t, beside, width_of(words));
            let mut room: f64 = 12.0;
            for p in along(a) {
                room = room.min(p.0 - AT[0]).min(AT[1] - p.0);
                for l in lines.iter().filter(|l| **l != line) {
                    room = room.min(distance(p, *l));
                }
                for l in labels {
                    room = room.min(distance(p, *l) - 6.0);
                }
            }
            if room > best.0 + 0.01 {
                best = (room, a);
            }
        }
    }
    best.1
}

fn drawn(h: &History) -> String {
    let (begin, end, mut rows, flights) = told(h);
    let mut svg = Svg { body: String::new() };
    svg.text(24.0, 34.0, "start", " font-size=\"20\" font-weight=\"bold\"", h.title);
    let mut y = 58.0;
    for words in h.words {
        svg.text(24.0, y, "start", "", words);
        y += LEADING;
    }

    let head = y + 4.0;
    let mut at = head + 92.0;
    if begin.a.state != 0 || begin.b.state != 0 {
        at += LEADING;
    }
    for row in &mut rows {
        row.y = at;
        at += (LEADING * row.words.len() as f64 + 18.0).max(54.0);
    }

    // where each segment's line runs
    let mut lines: Vec<(Point, Point)> = vec![];
    for f in &flights {
        let (from, to) = (AT[other(f.to) as usize], AT[f.to as usize]);
        let start = match f.begin {
            Begin::Sent(i) => (from, rows[i].y + if rows[i].replies { 14.0 } else { 0.0 }),
            Begin::Copied(g, i) => {
                let ((x1, y1), (x2, y2)) = lines[g];
                (x1 + (x2 - x1) * (rows[i].y - y1) / (y2 - y1), rows[i].y)
            }
        };
        let stop = match f.end {
            End::Delivered(i) => (to, rows[i].y),
            End::Lost(i) => (from + 0.6 * (to - from), rows[i].y),
            End::OnTheWay => (start.0 + 0.62 * (to - start.0), start.1 + 130.0),
        };
        lines.push((start, stop));
    }
    let bottom = lines.iter().map(|l| l.1 .1 + 12.0).fold(at, f64::max);

    // lifelines, with what the stations are at the beginning
    for x in [A, B] {
        let (r, mid) = (record_of(&begin, x), AT[x as usize]);
        let own = r.own.to_be_bytes().map(|o| o.to_string()).join(".");
        svg.line((mid, head + 44.0), (mid, bottom), &format!(" stroke=\"{PALE}\""));
        svg.raw(&format!(
            "<rect x=\"{:.1}\" y=\"{head:.1}\" width=\"170\" height=\"44\" rx=\"4\" fill=\"#fff\" stroke=\"{INK}\"/>",
            mid - 85.0
        ));
        svg.text(mid, head + 18.0, "middle", " font-weight=\"bold\"", h.names[x as usize]);
        svg.text(mid, head + 35.0, "middle", "", &format!("{own} port {}", r.ownport));
        beside(&mut svg, x, head + 62.0, &record_words(r));
    }

    // rows
    let mut labels: Vec<(Point, Point)> = vec![];
    for (i, row) in rows.iter().enumerate() {
        let (x, mid) = (side_of(row.event), AT[side_of(row.event) as usize]);
        svg.text(24.0, row.y + 4.0, "start", &format!(" fill=\"{PALE}\""), &row.number);
        match row.event {
            Copied(..) | Lose(..) => {
                let on = flights.iter().position(|f| matches!(f.begin, Begin::Copied(_, k) if k == i) || f.end == End::Lost(i));
                let p = on.map(|f| if flights[f].end == End::Lost(i) { lines[f].1 } else { lines[f].0 }).unwrap_or((mid, row.y));
                let words = &row.words[0].0;
                if matches!(row.event, Copied(..)) {
                    svg.raw(&format!("<circle cx=\"{:.1}\" cy=\"{:.1}\" r=\"4\"/>", p.0, p.1));
                } else {
                    for d in [-6.0, 6.0] {
                        svg.line((p.0 - 6.0, p.1 - d), (p.0 + 6.0, p.1 + d), &format!(" stroke=\"{INK}\" stroke-width=\"2\""));
                    }
                }
                // above the line, which falls towards the side it leads to
                let (anchor, dx) = if x == B { ("start", 10.0) } else { ("end", -10.0) };
                svg.text(p.0 + dx, p.1 - 3.0, anchor, " font-size=\"12\" font-style=\"italic\"", words);
                let far = p.0 + dx + dx.signum() * width_of(words);
                labels.push(((far.min(p.0 + dx), p.1 - 7.0), (far.max(p.0 + dx), p.1 - 7.0)));
            }
            PowerCut(_) => {
                svg.raw(&format!("<rect x=\"{:.1}\" y=\"{:.1}\" width=\"4\" height=\"8\" fill=\"#fff\"/>", mid - 2.0, row.y - 4.0));
                for d in [-4.0, 4.0] {
                    svg.line((mid - 9.0, row.y + d), (mid + 9.0, row.y + d), &format!(" stroke=\"{INK}\" stroke-width=\"2\""));
                }
                beside(&mut svg, x, row.y, &row.words);
            }
            Deliver(..) => beside(&mut svg, x, row.y, &row.words),
            _ => {
                svg.raw(&format!("<circle cx=\"{mid:.1}\" cy=\"{:.1}\" r=\"4\"/>", row.y));
                beside(&mut svg, x, row.y, &row.words);
            }
        }
    }

    // segments, then their words above all lines
    for (f, line) in flights.iter().zip(&lines) {
        let (colour, id, wide) = if f.late { (LATE, "late", "2") } else { (INK, "ink", "1.3") };
        let tip = if matches!(f.end, End::Lost(_)) { String::new() } else { format!(" marker-end=\"url(#{id})\"") };
        let dash = if f.end == End::OnTheWay { " stroke-dasharray=\"6 4\"" } else { "" };
        svg.line(line.0, line.1, &format!(" stroke=\"{colour}\" stroke-width=\"{wide}\"{dash}{tip}"));
    }
    for (f, line) in flights.iter().zip(&lines) {
        let mut words = segment_words(&f.segment);
        if f.end == End::OnTheWay {
            words += ", still on the way";
        }
        let a = place(*line, &words, &lines, &labels);
        labels.push(a);
        let turn = (a.1 .1 - a.0 .1).atan2(a.1 .0 - a.0 .0).to_degrees();
        let (x, y) = ((a.0 .0 + a.1 .0) / 2.0, (a.0 .1 + a.1 .1) / 2.0);
        let colour = if f.late { format!(" fill=\"{LATE}\"") } else { String::new() };
        svg.text(x, y, "middle", &format!(" dy=\"4.5\" font-size=\"12\" transform=\"rotate({turn:.1} {x:.1} {y:.1})\" paint-order=\"stroke\" stroke=\"#fff\" stroke-width=\"4\"{colour}"), &words);
    }

    svg.text(24.0, bottom + 30.0, "start", " font-weight=\"bold\"", &ending(&end));
    svg.done(WIDTH, bottom + 52.0, h.title)
}

/// What both stations end with, in one sentence.
fn ending(m: &Model) -> String {
    if (m.a.state, m.b.state) != (ESTABLISHED, ESTABLISHED) {
        fail("a history does not end with both established");
    }
    if m.a.irs == m.b.iss && m.b.irs == m.a.iss {
        return "Both are established, and each holds the other's number.".into();
    }
    let mut s = String::from("Both are established.");
    for (x, y, irs, iss) in [("A", "B", m.a.irs, m.b.iss), ("B", "A", m.b.irs, m.a.iss)] {
        if irs != iss {
            let _ = write!(s, " {x} holds {} as {y}'s number, and {y}'s number is {}.", commas(irs), commas(iss));
        }
    }
    s
}

/// Lines of words outside a lifeline.
fn beside(svg: &mut Svg, x: Side, y: f64, words: &[(String, bool)]) {
    let (anchor, at) = if x == A { ("end", AT[0] - 16.0) } else { ("start", AT[1] + 16.0) };
    for (i, (line, bold)) in words.iter().enumerate() {
        let more = if *bold { " font-weight=\"bold\"" } else { "" };
        svg.text(at, y + 4.0 + LEADING * i as f64, anchor, more, line);
    }
}

// ---- the crates

/// A few words for the crates that are known.
const CRATES: [(&str, &str); 18] = [
    ("seq", "the circle of 2^32"),
    ("checksum", "the 16-bit sum"),
    ("segment", "octets and fields"),
    ("station", "one station"),
    ("lent", "a record that is lent"),
    ("owner", "lends its record"),
    ("model", "two stations, links"),
    ("opening", "demand 3"),
    ("examples", "P1 to P12"),
    ("cases", "a case for each rule"),
    ("octet_cases", "the same of octets"),
    ("datagram", "IPv4 in and out"),
    ("barn", "the program"),
    ("vectors", "header vectors"),
    ("numbers", "structs of numbers"),
    ("events", "events in octets"),
    ("telling", "what is told"),
    ("boundary", "for C and Rust"),
];

fn crates_drawn(list: &str) -> String {
    let mut names: Vec<&str> = vec![];
    let mut after: Vec<&str> = vec![];
    for line in list.lines().map(str::trim).filter(|l| !l.is_empty() && !l.starts_with('#')) {
        let Some((name, rest)) = line.split_once(':') else { fail(&format!("crates.txt: no colon in {line}")) };
        // what stands behind a name, as `staticlib`, is no part of it
        names.push(name.split_whitespace().next().unwrap_or(name));
        after.push(rest);
    }
    // what each uses, of the crates listed; those of the kit are not
    let n = names.len();
    let uses: Vec<Vec<usize>> =
        after.iter().map(|r| r.split_whitespace().filter_map(|d| names.iter().position(|c| *c == d)).collect()).collect();
    let mut reach = vec![vec![false; n]; n];
    for i in 0..n {
        for &d in &uses[i] {
            reach[i][d] = true;
        }
    }
    for k in 0..n {
        for i in 0..n {
            for j in 0..n {
                reach[i][j] |= reach[i][k] && reach[k][j];
            }
        }
    }
    if (0..n).any(|i| reach[i][i]) {
        fail("crates.txt: a crate uses itself");
    }
    // a line that a longer way replaces is left out
    let lines: Vec<(usize, usize)> = (0..n)
        .flat_map(|i| uses[i].iter().map(move |d| (i, *d)))
        .filter(|(i, d)| !uses[*i].iter().any(|k| reach[*k][*d]))
        .collect();

    // layers from below; then each crate that is used goes right under the lowest one that uses it
    let mut layer = vec![0; n];
    for _ in 0..n {
        for &(i, d) in &lines {
            layer[i] = layer[i].max(layer[d] + 1);
        }
    }
    for _ in 0..n {
        for d in 0..n {
            if let Some(lowest) = lines.iter().filter(|l| l.1 == d).map(|l| layer[l.0]).min() {
                layer[d] = lowest - 1;
            }
        }
    }
    let layers = layer.iter().max().map_or(0, |l| l + 1);
    let mut order: Vec<Vec<usize>> = (0..layers).map(|l| (0..n).filter(|i| layer[*i] == l).collect()).collect();

    // each layer in turn takes the order with the fewest crossings and the shortest lines
    let (wide, high, gap, step) = (164.0, 48.0, 30.0, 96.0);
    let width = (order.iter().map(Vec::len).max().unwrap_or(1) as f64 * (wide + gap) + gap).max(640.0);
    let xs = |order: &[Vec<usize>]| {
        let mut x = vec![0.0; n];
        for row in order {
            for (i, c) in row.iter().enumerate() {
                x[*c] = width / 2.0 + (i as f64 - (row.len() as f64 - 1.0) / 2.0) * (wide + gap);
            }
        }
        x
    };
    let cost = |order: &[Vec<usize>]| {
        let x = xs(order);
        let mut cost: f64 = lines.iter().map(|(i, d)| (x[*i] - x[*d]).abs()).sum();
        for (k, (a, b)) in lines.iter().enumerate() {
            for (c, d) in &lines[k + 1..] {
                if layer[*a] == layer[*c] && layer[*b] == layer[*d] && (x[*a] - x[*c]) * (x[*b] - x[*d]) < 0.0 {
                    cost += 10000.0;
                }
            }
        }
        cost
    };
    for _ in 0..4 {
        for l in 0..layers {
            if order[l].len() > 6 {
                continue;
            }
            let mut best = (cost(&order), order[l].clone());
            for row in permutations(&order[l]) {
                order[l] = row.clone();
                let c = cost(&order);
                if c + 0.01 < best.0 {
                    best = (c, row);
                }
            }
            order[l] = best.1;
        }
    }

    let x = xs(&order);
    let top = 92.0;
    let y: Vec<f64> = layer.iter().map(|l| top + (layers - 1 - l) as f64 * step).collect();
    let mut svg = Svg { body: String::new() };
    svg.text(24.0, 34.0, "start", " font-size=\"20\" font-weight=\"bold\"", "The crates");
    svg.text(24.0, 58.0, "start", "", "Each uses those that its arrows lead to; an arrow that a longer way replaces is left out, and so are the kit's libraries.");
    for &(i, d) in &lines {
        // lines to one crate end side by side, and so do those that leave one
        let out: Vec<usize> = sorted(lines.iter().filter(|l| l.0 == i).map(|l| l.1), &x);
        let into: Vec<usize> = sorted(lines.iter().filter(|l| l.1 == d).map(|l| l.0), &x);
        let from = (x[i] + spread(&out, d), y[i] + high);
        let to = (x[d] + spread(&into, i), y[d]);
        svg.line(from, to, &format!(" stroke=\"{INK}\" stroke-width=\"1.3\" marker-end=\"url(#ink)\""));
    }
    for i in 0..n {
        let words = CRATES.iter().find(|(name, _)| *name == names[i]).map_or("", |(_, words)| words);
        svg.raw(&format!(
            "<rect x=\"{:.1}\" y=\"{:.1}\" width=\"{wide}\" height=\"{high}\" rx=\"4\" fill=\"#fff\" stroke=\"{INK}\"/>",
            x[i] - wide / 2.0,
            y[i]
        ));
        svg.text(x[i], y[i] + if words.is_empty() { 29.0 } else { 20.0 }, "middle", " font-weight=\"bold\"", names[i]);
        if !words.is_empty() {
            svg.text(x[i], y[i] + 38.0, "middle", " font-size=\"12\"", words);
        }
    }
    svg.done(width, top + (layers as f64 - 1.0) * step + high + 24.0, "The crates")
}

fn sorted(ends: impl Iterator<Item = usize>, x: &[f64]) -> Vec<usize> {
    let mut ends: Vec<usize> = ends.collect();
    ends.sort_by(|a, b| x[*a].total_cmp(&x[*b]));
    ends
}

fn spread(ends: &[usize], which: usize) -> f64 {
    let place = ends.iter().position(|e| *e == which).unwrap_or(0);
    (place as f64 - (ends.len() as f64 - 1.0) / 2.0) * 26.0
}

fn permutations(row: &[usize]) -> Vec<Vec<usize>> {
    if row.is_empty() {
        return vec![vec![]];
    }
    let mut all = vec![];
    for i in 0..row.len() {
        let mut rest = row.to_vec();
        let first = rest.remove(i);
        for mut p in permutations(&rest) {
            p.insert(0, first);
            all.push(p);
        }
    }
    all
}
