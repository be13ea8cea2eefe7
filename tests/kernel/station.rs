//! Our station, stepped only through the library. What it sends leaves as a datagram, which is read here
//! without the library; what the wire hands to it is met as 01's program meets it.

use crate::checks::surely;
use crate::tabor::{self, Header, Record, Told};
use crate::wire::{self, said, Datagram, End, Said, ACK, IP_SIZE, KERNEL, OURS, RST, SYN, TCP};
use std::fmt;

pub const CLOSED: u8 = 0;
pub const LISTEN: u8 = 1;
pub const SYN_SENT: u8 = 2;
pub const SYN_RECEIVED: u8 = 3;
pub const ESTABLISHED: u8 = 4;

/// How far apart the numbers of a station are, either way round, as demand 3 asks.
pub const APART: u32 = 65_536;

/// The program's frame, and the octets that it reads in all.
const FRAME: usize = 1_500;
const PROGRAM: usize = 65_535;

/// What stands in an output of 24 octets before a call, to see what the call has written.
const UNTOUCHED: [u8; 24] = [0xa5; 24];

pub fn state_name(state: u8) -> &'static str {
    ["CLOSED", "LISTEN", "SYN-SENT", "SYN-RECEIVED", "ESTABLISHED"].get(state as usize).unwrap_or(&"?")
}

/// A closed record between two ends, with the program's window.
pub fn closed_record(own: End, peer: End) -> Record {
    Record {
        own: wire::number(own.0),
        peer: wire::number(peer.0),
        ownport: own.1,
        peerport: peer.1,
        rcvwnd: 4096,
        ..Record::default()
    }
}

/// A segment's fields as a datagram.
pub fn written(src: [u8; 4], dst: [u8; 4], header: Header) -> Datagram {
    let mut octets = [0; 20];
    let refusal = tabor::write(wire::number(src), wire::number(dst), header, &mut octets);
    assert_eq!(refusal, 0, "a header without FIN is written");
    Datagram::around(src, dst, &octets)
}

/// What becomes of octets that the wire hands to our station.
#[derive(Clone, Debug, PartialEq, Eq)]
pub enum Received {
    Skipped(Skip),
    Refused(u8),
    Taken(Option<Datagram>),
}

impl fmt::Display for Received {
    fn fmt(&self, f: &mut fmt::Formatter) -> fmt::Result {
        match self {
            Received::Skipped(Skip::Stop) => write!(f, "skipped, as the program stops"),
            Received::Skipped(Skip::Protocol) => write!(f, "skipped for its protocol"),
            Received::Refused(number) => write!(f, "refused with {number}"),
            Received::Taken(None) => write!(f, "taken, nothing sent"),
            Received::Taken(Some(answer)) => write!(f, "taken, sent: {answer}"),
        }
    }
}

/// Why octets are passed over.
#[derive(Clone, Copy, Debug, PartialEq, Eq)]
pub enum Skip {
    /// 01's program stops here: version, IP header length, total length, missing octets. A program cannot
    /// tell where the next datagram begins; on a device the next read does, so only this one is passed over.
    Stop,
    /// A protocol other than 6.
    Protocol,
}

/// A datagram as 01's program takes it apart. IP checksum and fragments are not examined, options of the
/// IP header are skipped.
struct Part<'a> {
    whole: &'a [u8],
    src: [u8; 4],
    dst: [u8; 4],
    tcp: &'a [u8],
}

impl Part<'_> {
    fn of(octets: &[u8]) -> Result<Part<'_>, Skip> {
        if octets.len() < IP_SIZE || octets[0] >> 4 != 4 {
            return Err(Skip::Stop);
        }
        let (head, total) = (4 * (octets[0] & 15) as usize, wire::get16(octets, 2) as usize);
        if head < IP_SIZE || total < head || total > FRAME || total > octets.len() {
            return Err(Skip::Stop);
        }
        let address = |at: usize| [octets[at], octets[at + 1], octets[at + 2], octets[at + 3]];
        Ok(Part { whole: &octets[..total], src: address(12), dst: address(16), tcp: &octets[head..total] })
    }

    fn is_tcp(&self) -> bool {
        self.whole[9] == TCP
    }
}

/// What a station that has listened and met datagrams since, as 01's program does, has heard and sent.
#[derive(Default)]
struct Heard {
    octets: Vec<u8>,
    sent: Vec<u8>,
}

pub struct Station {
    pub record: Record,
    drawn: u32,
    heard: Option<Heard>,
}

impl Station {
    /// The station of 01's program, still closed.
    pub fn closed() -> Station {
        Station { record: closed_record(OURS, KERNEL), drawn: 0, heard: None }
    }

    /// The number that the station draws next: as in 01's program, the k-th is 65,536 times k. They stay
    /// spaced over a power cut, as demand 3 asks.
    pub fn next_number(&self) -> u32 {
        APART * (self.drawn + 1)
    }

    /// Whether the station has drawn a number.
    pub fn drew(&self, number: u32) -> bool {
        number % APART == 0 && (APART..self.next_number()).contains(&number)
    }

    pub fn listen(&mut self) -> Result<(), String> {
        self.called("listen", tabor::listen(self.record))?;
        self.heard = (self.drawn == 0).then(Heard::default);
        Ok(())
    }

    pub fn open(&mut self) -> Result<Datagram, String> {
        self.called("open", tabor::open(self.record, self.next_number()))?.ok_or("the open sent nothing".into())
    }

    pub fn abort(&mut self) -> Result<Datagram, String> {
        self.called("abort", tabor::abort(self.record))?.ok_or("the abort sent nothing".into())
    }

    pub fn resend(&mut self) -> Result<Datagram, String> {
        self.called("resend", tabor::resend(self.record))?.ok_or("the resend sent nothing".into())
    }

    pub fn power_cut(&mut self) -> Result<(), String> {
        self.called("power cut", tabor::power_cut(self.record)).map(|_| ())
    }

    fn called(&mut self, what: &str, told: Told) -> Result<Option<Datagram>, String> {
        surely(told.refusal == 0, format!("{what}: our station in {:?} refused with {}", self.record, told.refusal))?;
        let sent = (told.sent == 1).then(|| written(OURS.0, KERNEL.0, told.segment.header));
        sent.iter().try_for_each(|datagram| must_be_as_01(&told.next, datagram))?;
        self.took(told);
        self.heard = None;
        Ok(sent)
    }

    /// The wire hands over octets, whatever they are.
    pub fn receive(&mut self, octets: &[u8]) -> Result<Received, String> {
        let part = match Part::of(octets) {
            Ok(part) => part,
            Err(skip) => return Ok(Received::Skipped(skip)),
        };
        if let Some(heard) = &mut self.heard {
            heard.octets.extend(part.whole);
        }
        if !part.is_tcp() {
            return Ok(Received::Skipped(Skip::Protocol));
        }
        let (told, answer) = given(self.record, &part, self.next_number())?;
        if told.refusal != 0 {
            return Ok(Received::Refused(told.refusal));
        }
        self.took(told);
        if let (Some(heard), Some(datagram)) = (&mut self.heard, &answer) {
            heard.sent.extend(&datagram.octets);
        }
        Ok(Received::Taken(answer))
    }

    fn took(&mut self, told: Told) {
        self.record = told.next;
        self.drawn += told.drawn as u32;
    }

    /// A datagram arrives; what the station answers, if anything.
    pub fn arrive(&mut self, datagram: &Datagram) -> Result<Option<Datagram>, String> {
        match self.receive(&datagram.octets)? {
            Received::Taken(answer) => Ok(answer),
            other => Err(format!("our station in {:?}: {other}: {datagram}", self.record)),
        }
    }

    /// A datagram arrives that must be answered.
    pub fn answer(&mut self, datagram: &Datagram) -> Result<Datagram, String> {
        self.arrive(datagram)?.ok_or(format!("our station did not answer {datagram}"))
    }

    /// A datagram arrives that must be refused with this number; `given` sees that it changes nothing.
    pub fn refuses(&mut self, datagram: &Datagram, number: u8) -> Result<(), String> {
        let received = self.receive(&datagram.octets)?;
        let refused = received == Received::Refused(number);
        surely(refused, format!("refusal {number} expected: {received}: {datagram}"))
    }

    pub fn must_be(&self, state: u8) -> Result<(), String> {
        if self.record.state == state {
            return Ok(());
        }
        Err(format!("our station: {} expected, it is {:?}", state_name(state), self.record))
    }

    /// The program of 01, given all that this station has heard since it listened, writes what this station
    /// has sent, octet for octet. A station that was called in between is none that the program can follow.
    pub fn as_program(&self) -> Result<(), String> {
        let Some(heard) = &self.heard else { return Ok(()) };
        surely(heard.octets.len() <= PROGRAM, "our station has heard more than the program reads")?;
        let mut out = [0; PROGRAM];
        let size = tabor::run(&heard.octets, &mut out);
        let same = out[..size] == heard.sent;
        surely(same, format!("the program writes {:02x?}, our station sent {:02x?}", &out[..size], heard.sent))
    }
}

/// A datagram arrives at a record; what was told, and the datagram sent.
pub fn arriving(record: Record, datagram: &Datagram, fresh: u32) -> Result<(Told, Option<Datagram>), String> {
    let part = Part::of(&datagram.octets).map_err(|_| format!("the program stops at {datagram}"))?;
    given(record, &part, fresh)
}

/// The TCP part arrives as octets. After a refusal the record and the output are as they were.
fn given(record: Record, part: &Part, fresh: u32) -> Result<(Told, Option<Datagram>), String> {
    let mut out = UNTOUCHED;
    let (src, dst) = (wire::number(part.src), wire::number(part.dst));
    let told = tabor::arrive_octets(record, src, dst, part.tcp, fresh, &mut out);
    if told.refusal != 0 {
        let unchanged = told.next == record && (told.sent, told.drawn) == (0, 0) && out == UNTOUCHED;
        surely(unchanged, format!("a refusal changed {record:?} or its output {out:02x?}: {told:?}"))?;
    }
    surely(out[20..] == UNTOUCHED[20..], format!("more than 20 octets were written: {out:02x?}"))?;
    if told.sent == 0 {
        return Ok((told, None));
    }
    let answer = Datagram::around(part.dst, part.src, &out[..20]);
    must_be_as_01(&told.next, &answer)?;
    Ok((told, Some(answer)))
}

/// What a station sends is as 01 has it written, and fits the record that it then has.
fn must_be_as_01(next: &Record, sent: &Datagram) -> Result<(), String> {
    let own = (next.own.to_be_bytes(), next.ownport);
    let peer = (next.peer.to_be_bytes(), next.peerport);
    let fault = sent.fault(own, peer, next.rcvwnd).or((!fits(next, sent.said)).then_some("its state and numbers"));
    surely(fault.is_none(), format!("not as 01 has it, {}: {sent}, {next:?}", fault.unwrap_or_default()))
}

/// "SYN and SYN,ACK have sequence ISS; ACK has NXT; all with ACK but resets acknowledge RCV.NXT." Which of them
/// leaves no other state open; a reset does.
fn fits(next: &Record, sent: Said) -> bool {
    match next.state {
        _ if sent.control & RST != 0 => true,
        SYN_SENT => sent == said(SYN, next.iss, 0),
        SYN_RECEIVED if sent.control & SYN != 0 => sent == said(SYN | ACK, next.iss, next.rcvnxt),
        SYN_RECEIVED | ESTABLISHED => sent == said(ACK, next.nxt, next.rcvnxt),
        _ => false,
    }
}
