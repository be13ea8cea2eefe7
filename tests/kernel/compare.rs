//! The kernel and the library given the same octets. The library's station stands at the kernel's end,
//! 10.0.0.1 port 1024, and draws the number that the kernel drew: then both must answer with the same
//! bits and numbers, and be in the same state, after every segment. Where the kernel differs on purpose,
//! the script lists what it does and why; it may do that or what 01 says, and nothing else.

use crate::checks::{kernel_must_be, must};
use crate::station::{arriving, closed_record, state_name, written, CLOSED, SYN_SENT};
use crate::sys;
use crate::tabor::{self, Header, Record};
use crate::wire::{said, Datagram, Said, ACK, KERNEL, OURS, RST, SYN};
use crate::world::{accepted, kernel_connects_under, kernel_listens, kernel_state, World};
use std::net::{TcpListener, TcpStream};

/// A number of a segment: a plain one, or the kernel's ISS and so many more.
#[derive(Clone, Copy)]
pub enum Number {
    Plain(u32),
    Iss(i32),
}

/// What the kernel is asked to be when a script begins.
#[derive(Clone, Copy)]
pub enum Begin {
    Closed,
    Listening,
    /// A connect under way under this ISS.
    Connecting(u32),
}

/// What the kernel does otherwise than 01: its answer (bits, sequence, acknowledgment), its state after
/// it, and the reason.
#[derive(Clone, Copy)]
pub struct Listed {
    pub answer: Option<(u8, Number, u32)>,
    pub state: u8,
    pub why: &'static str,
}

/// A segment to both, and the difference listed for it, if any.
#[derive(Clone, Copy)]
pub struct Step {
    pub control: u8,
    pub seq: u32,
    pub ack: Number,
    pub window: u16,
    /// Written in place of the checksum that the library writes.
    pub checksum: Option<u16>,
    pub listed: Option<Listed>,
}

pub struct Script {
    pub name: &'static str,
    pub begin: Begin,
    pub steps: Vec<Step>,
}

/// What stands in the header beside bits and numbers, and differs wherever the kernel speaks of it.
#[derive(Clone, Copy, Default)]
pub struct Fields {
    pub window: bool,
    pub options: bool,
}

/// What a script has shown.
#[derive(Default)]
pub struct Shown {
    pub lines: Vec<String>,
    pub differences: Vec<String>,
    pub not_seen: Vec<String>,
    pub fields: Fields,
}

/// An answer and the state after it.
#[derive(Clone, Copy, PartialEq)]
struct Reaction {
    answer: Option<Said>,
    state: u8,
}

/// Both ends under test. The kernel's sockets are kept, since a dropped one is closed.
struct Both {
    listener: Option<TcpListener>,
    stream: Option<TcpStream>,
    record: Record,
    iss: u32,
}

/// One script in a world where nothing is open, which it leaves so.
pub fn run(w: &mut World, script: &Script) -> Result<Shown, String> {
    w.begin();
    let mut both = Both::begin(w, script.begin)?;
    let mut shown = Shown::default();
    for step in &script.steps {
        both.step(w, step, &mut shown)?;
    }
    drop(both);
    clear(w)?;
    Ok(shown)
}

/// The last words of closed sockets are passed over. A half open connection outlives its listener until
/// the next segment that meets it: a reset, which is never answered.
fn clear(w: &mut World) -> Result<(), String> {
    if kernel_state()? != CLOSED {
        let (source, destination) = (OURS.1, KERNEL.1);
        w.put(&written(OURS.0, KERNEL.0, Header { source, destination, control: RST, ..Header::default() }))?;
    }
    while w.waiting()?.is_some() {}
    kernel_must_be(CLOSED)
}

impl Both {
    fn begin(w: &mut World, begin: Begin) -> Result<Both, String> {
        let record = closed_record(KERNEL, OURS);
        let mut both = Both { listener: None, stream: None, record, iss: 0 };
        match begin {
            Begin::Closed => {}
            Begin::Listening => {
                both.listener = Some(kernel_listens()?);
                both.record = tabor::listen(record).next;
            }
            Begin::Connecting(iss) => both.connect(w, iss)?,
        }
        Ok(both)
    }

    /// Both open with the same number: the two SYNs are compared like answers.
    fn connect(&mut self, w: &mut World, iss: u32) -> Result<(), String> {
        let stream = kernel_connects_under(iss)?;
        sys::reset_on_close(&stream)?;
        self.stream = Some(stream);
        let syn = w.next("the kernel's SYN")?;
        let told = tabor::open(self.record, iss);
        let expected = written(KERNEL.0, OURS.0, told.segment.header);
        must(syn.said == expected.said, format!("by 01 {expected}, by the kernel {syn}"))?;
        self.record = told.next;
        self.iss = iss;
        Ok(())
    }

    fn step(&mut self, w: &mut World, step: &Step, shown: &mut Shown) -> Result<(), String> {
        let datagram = self.datagram(step);
        w.put(&datagram)?;
        let seen = self.answer(w)?;
        must(self.answer(w)?.is_none(), format!("more than one answer to {datagram}"))?;
        self.accept()?;
        let kernel = Reaction { answer: seen.as_ref().map(|d| d.said), state: kernel_state()? };
        let paper = self.paper(&datagram, seen.as_ref())?;
        if let Some(answer) = &seen {
            self.other_fields(answer, &mut shown.fields)?;
        }
        self.judge(&datagram, paper, kernel, step.listed, shown)
    }

    /// The kernel's answer, if there is one. In SYN-SENT a SYN is none: it is the kernel's timer, which
    /// after an unacceptable ACK is set to a few milliseconds, and 01 leaves resends to the owner.
    fn answer(&self, w: &mut World) -> Result<Option<Datagram>, String> {
        loop {
            match w.answer()? {
                Some(d) if self.record.state == SYN_SENT && d.said == said(SYN, self.iss, 0) => {}
                other => return Ok(other),
            }
        }
    }

    fn number(&self, number: Number) -> u32 {
        match number {
            Number::Plain(n) => n,
            Number::Iss(more) => self.iss.wrapping_add_signed(more),
        }
    }

    fn datagram(&self, step: &Step) -> Datagram {
        let header = Header {
            seq: step.seq,
            ack: self.number(step.ack),
            source: OURS.1,
            destination: KERNEL.1,
            window: step.window,
            urgent: 0,
            control: step.control,
        };
        let datagram = written(OURS.0, KERNEL.0, header);
        match step.checksum {
            None => datagram,
            Some(checksum) => with_checksum(&datagram, checksum),
        }
    }

    /// An established connection leaves no listener behind in 01; the kernel's listener is closed too.
    fn accept(&mut self) -> Result<(), String> {
        let Some(listener) = &self.listener else { return Ok(()) };
        if let Some(stream) = accepted(listener)? {
            sys::reset_on_close(&stream)?;
            self.stream = Some(stream);
            self.listener = None;
        }
        Ok(())
    }

    /// What 01 says, by the library. The number offered is the one that the kernel has drawn.
    fn paper(&mut self, datagram: &Datagram, seen: Option<&Datagram>) -> Result<Reaction, String> {
        let drawn = seen.filter(|d| d.said.control == SYN | ACK).map(|d| d.said.seq);
        let (told, answer) = arriving(self.record, datagram, drawn.unwrap_or(7))?;
        must(told.refusal == 0, format!("the library refused {datagram} with {}", told.refusal))?;
        self.record = told.next;
        if let (1, Some(number)) = (told.drawn, drawn) {
            self.iss = number;
        }
        Ok(Reaction { answer: answer.map(|d| d.said), state: told.next.state })
    }

    /// Window and options are the kernel's own choice, but only where 01 leaves them: a reset has window 0,
    /// options stand in a SYN only, and nothing else is on.
    fn other_fields(&self, answer: &Datagram, fields: &mut Fields) -> Result<(), String> {
        let reset = answer.said.control & RST != 0;
        let syn = answer.said.control & SYN != 0;
        must(!reset || answer.window == 0, format!("a reset with a window: {answer}"))?;
        must(syn || answer.options == 0, format!("options without SYN: {answer}"))?;
        must(answer.urgent == 0 && answer.reserved == 0 && answer.text == 0, format!("more than a header: {answer}"))?;
        fields.window |= !reset && answer.window != self.record.rcvwnd;
        fields.options |= answer.options != 0;
        Ok(())
    }

    fn judge(
        &self,
        datagram: &Datagram,
        paper: Reaction,
        kernel: Reaction,
        listed: Option<Listed>,
        shown: &mut Shown,
    ) -> Result<(), String> {
        let met = format!("{}: {}", datagram.said, reaction(kernel));
        match listed {
            _ if paper == kernel => {
                shown.not_seen.extend(listed.map(|l| format!("{met}, as 01 ({})", l.why)));
                shown.lines.push(met);
            }
            Some(l) if kernel == self.reaction_of(l) => {
                shown.differences.push(format!("{met}; 01: {} ({})", reaction(paper), l.why));
                shown.lines.push(met);
            }
            _ => return Err(format!("a difference that is not listed: {met}; 01: {}", reaction(paper))),
        }
        Ok(())
    }

    fn reaction_of(&self, listed: Listed) -> Reaction {
        let answer = listed.answer.map(|(control, seq, ack)| said(control, self.number(seq), ack));
        Reaction { answer, state: listed.state }
    }
}

fn reaction(r: Reaction) -> String {
    let answer = r.answer.map_or("nothing".into(), |said| said.to_string());
    format!("{answer}, {}", state_name(r.state))
}

/// The datagram with another TCP checksum.
pub fn with_checksum(datagram: &Datagram, checksum: u16) -> Datagram {
    let mut tcp = datagram.tcp().to_vec();
    tcp[16..18].copy_from_slice(&checksum.to_be_bytes());
    Datagram::around(datagram.src, datagram.dst, &tcp)
}
