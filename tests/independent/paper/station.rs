//! A station's record, its calls, power, and arrival check by check.

use crate::octets::{fields, read_segment, test_2, test_3, test_6};
use crate::octets::{Header, Segment, ACK, RST, SYN};
use crate::wrong::{Paper, Wrong};

/// "States: CLOSED, LISTEN, SYN-SENT, SYN-RECEIVED, ESTABLISHED."
#[derive(Clone, Copy, PartialEq, Eq, Debug, Hash)]
#[repr(u8)]
pub enum State {
    Closed = 0,
    Listen = 1,
    SynSent = 2,
    SynReceived = 3,
    Established = 4,
}

impl State {
    pub const ALL: [State; 5] = [
        State::Closed,
        State::Listen,
        State::SynSent,
        State::SynReceived,
        State::Established,
    ];

    pub fn number(self) -> u8 {
        self as u8
    }

    pub fn from_number(number: u8) -> Option<State> {
        State::ALL.get(number as usize).copied()
    }
}

/// "State, a mark for 'opened passively', ISS, SND.UNA, SND.NXT, IRS, RCV.NXT,
/// RCV.WND (1 to 65,535), own and peer address and port."
#[derive(Clone, Copy, PartialEq, Eq, Debug)]
pub struct Record {
    pub state: State,
    pub passive: bool,
    pub iss: u32,
    pub una: u32,
    pub nxt: u32,
    pub irs: u32,
    pub rcvnxt: u32,
    pub rcvwnd: u16,
    pub own: u32,
    pub ownport: u16,
    pub peer: u32,
    pub peerport: u16,
}

/// A step taken: the next record, the segment sent or none, and whether the
/// number offered was drawn.
#[derive(Clone, Copy, PartialEq, Eq, Debug)]
pub struct Taken {
    pub next: Record,
    pub sent: Option<Segment>,
    pub drawn: bool,
}

/// "A number is later than another if it is 1 to 2^31 - 1 ahead, equal at 0,
/// otherwise earlier."
pub fn later(paper: &Paper, number: u32, than: u32) -> bool {
    if paper.is(Wrong::PlainIntegers) {
        return number > than;
    }
    let ahead = number.wrapping_sub(than);
    if paper.is(Wrong::LaterHalf) && ahead == 0x8000_0000 {
        return true;
    }
    1 <= ahead && ahead <= 0x7fff_ffff
}

/// "The only forms."
pub fn of_the_forms(paper: &Paper, r: &Record) -> bool {
    let zero = r.iss == 0 && r.una == 0 && r.nxt == 0 && r.irs == 0 && r.rcvnxt == 0;
    let syn_sent = r.una == r.iss && r.nxt == r.iss.wrapping_add(1);
    let none_received = r.irs == 0 && r.rcvnxt == 0;
    let received = r.rcvnxt == r.irs.wrapping_add(1);
    let acknowledged = r.una == r.nxt && r.nxt == r.iss.wrapping_add(1);
    // "RCV.WND (1 to 65,535)"
    if r.rcvwnd == 0 {
        return false;
    }
    match r.state {
        State::Closed => zero && !r.passive,
        State::Listen if paper.is(Wrong::KeepsIss) => {
            r.passive && (zero || (syn_sent && none_received))
        }
        State::Listen => zero && r.passive,
        State::SynSent => syn_sent && none_received && !r.passive,
        State::SynReceived => syn_sent && received,
        State::Established => acknowledged && received,
    }
}

/// Refusal 1: "record not of the forms above".
fn test_1(paper: &Paper, r: &Record) -> Result<(), u8> {
    if !of_the_forms(paper, r) {
        return Err(1);
    }
    Ok(())
}

/// Refusal 5: "addresses or ports not of this connection".
fn test_5(r: &Record, src: u32, dst: u32, header: &Header) -> Result<(), u8> {
    let ours = src == r.peer
        && dst == r.own
        && header.source == r.peerport
        && header.destination == r.ownport;
    if !ours {
        return Err(5);
    }
    Ok(())
}

// ---- records

/// CLOSED: "the five numbers are zero; mark no". Endpoints and window stay.
fn closed(r: Record) -> Record {
    Record {
        state: State::Closed,
        passive: false,
        iss: 0,
        una: 0,
        nxt: 0,
        irs: 0,
        rcvnxt: 0,
        ..r
    }
}

/// LISTEN: "the five numbers are zero", mark yes.
fn listening(r: Record) -> Record {
    Record { state: State::Listen, passive: true, ..closed(r) }
}

/// SYN-SENT: "UNA = ISS, NXT = ISS + 1, IRS and RCV.NXT zero, mark no".
fn syn_sent(r: Record, iss: u32) -> Record {
    Record {
        state: State::SynSent,
        iss,
        una: iss,
        nxt: iss.wrapping_add(1),
        ..closed(r)
    }
}

/// SYN-RECEIVED: "UNA = ISS, NXT = ISS + 1, RCV.NXT = IRS + 1, either mark".
fn syn_received(r: Record, iss: u32, irs: u32) -> Record {
    Record {
        state: State::SynReceived,
        iss,
        una: iss,
        nxt: iss.wrapping_add(1),
        irs,
        rcvnxt: irs.wrapping_add(1),
        ..r
    }
}

/// ESTABLISHED: "UNA = NXT = ISS + 1, RCV.NXT = IRS + 1, either mark".
fn established(r: Record, irs: u32) -> Record {
    Record {
        state: State::Established,
        una: r.iss.wrapping_add(1),
        nxt: r.iss.wrapping_add(1),
        irs,
        rcvnxt: irs.wrapping_add(1),
        ..r
    }
}

// ---- segments sent

/// From own to peer; "all other bits and the urgent pointer are 0".
fn segment(r: &Record, control: u8, seq: u32, ack: u32, window: u16) -> Segment {
    Segment {
        header: Header {
            source: r.ownport,
            destination: r.peerport,
            seq,
            ack,
            control,
            window,
            urgent: 0,
        },
        src: r.own,
        dst: r.peer,
        text: 0,
    }
}

/// "SYN and SYN,ACK have sequence ISS"; "acknowledgment without ACK is 0".
fn syn(r: &Record) -> Segment {
    segment(r, SYN, r.iss, 0, r.rcvwnd)
}

fn syn_ack(r: &Record) -> Segment {
    segment(r, SYN | ACK, r.iss, r.rcvnxt, r.rcvwnd)
}

/// "ACK has NXT; all with ACK but resets acknowledge RCV.NXT."
fn ack(r: &Record) -> Segment {
    segment(r, ACK, r.nxt, r.rcvnxt, r.rcvwnd)
}

/// "Window is RCV.WND, in a reset 0."
fn reset(paper: &Paper, r: &Record, control: u8, seq: u32, ack: u32) -> Segment {
    let window = if paper.is(Wrong::ResetWindow) { r.rcvwnd } else { 0 };
    segment(r, control, seq, ack, window)
}

/// "Reply reset: if ACK is on, RST with sequence SEG.ACK; otherwise RST,ACK
/// with sequence 0 and acknowledgment SEG.SEQ + SEG.LEN. SEG.LEN is 1 with
/// SYN, otherwise 0."
fn reply_reset(paper: &Paper, r: &Record, seg: &Header) -> Segment {
    let mut len = if seg.on(SYN) { 1 } else { 0 };
    if paper.is(Wrong::ResetSynUncounted) {
        len = 0;
    }
    if seg.on(ACK) && !paper.is(Wrong::ResetAlwaysAck) {
        reset(paper, r, RST, seg.ack, 0)
    } else {
        reset(paper, r, RST | ACK, 0, seg.seq.wrapping_add(len))
    }
}

// ---- steps taken

fn silent(next: Record) -> Taken {
    Taken { next, sent: None, drawn: false }
}

fn sending(next: Record, sent: Segment) -> Taken {
    Taken { next, sent: Some(sent), drawn: false }
}

// ---- calls and power

/// "Open (with a number): from CLOSED or LISTEN to SYN-SENT; send SYN."
pub fn open(paper: &Paper, r: Record, n: u32) -> Result<Taken, u8> {
    test_1(paper, &r)?;
    match r.state {
        State::Listen if paper.is(Wrong::OpenNotFromListen) => Err(7),
        State::Closed | State::Listen => {
            let next = syn_sent(r, n);
            Ok(Taken { next, sent: Some(syn(&next)), drawn: true })
        }
        _ => Err(7),
    }
}

/// "Listen: from CLOSED to LISTEN."
pub fn listen(paper: &Paper, r: Record) -> Result<Taken, u8> {
    test_1(paper, &r)?;
    match r.state {
        State::Closed => Ok(silent(listening(r))),
        _ => Err(7),
    }
}

/// "Abort: LISTEN and SYN-SENT to CLOSED, nothing sent; SYN-RECEIVED and
/// ESTABLISHED send RST with sequence NXT, then CLOSED."
pub fn abort(paper: &Paper, r: Record) -> Result<Taken, u8> {
    test_1(paper, &r)?;
    match r.state {
        State::Closed => Err(8),
        State::Listen | State::SynSent => Ok(silent(closed(r))),
        State::SynReceived if paper.is(Wrong::AbortSilent) => Ok(silent(closed(r))),
        State::SynReceived | State::Established => {
            Ok(sending(closed(r), reset(paper, &r, RST, r.nxt, 0)))
        }
    }
}

/// "Resend: SYN-SENT sends its SYN, SYN-RECEIVED its SYN,ACK; the record
/// stays."
pub fn resend(paper: &Paper, r: Record) -> Result<Taken, u8> {
    test_1(paper, &r)?;
    match r.state {
        State::SynSent => Ok(sending(r, syn(&r))),
        State::SynReceived if paper.is(Wrong::ResendSyn) => Ok(sending(r, syn(&r))),
        State::SynReceived => Ok(sending(r, syn_ack(&r))),
        _ => Err(8),
    }
}

/// "Power cut: any state to CLOSED, nothing sent; endpoints and window stay."
pub fn power_cut(paper: &Paper, r: Record) -> Result<Taken, u8> {
    test_1(paper, &r)?;
    if paper.is(Wrong::PowerCutKeepsListen) && r.state == State::Listen {
        return Ok(silent(r));
    }
    Ok(silent(closed(r)))
}

// ---- arrival

/// A segment arriving: 1, then 5, then 6.
pub fn arrive(paper: &Paper, r: Record, seg: Segment, fresh: u32) -> Result<Taken, u8> {
    test_1(paper, &r)?;
    if paper.is(Wrong::FinBeforeEndpoints) {
        test_6(paper, &seg.header, seg.text)?;
    }
    test_5(&r, seg.src, seg.dst, &seg.header)?;
    test_6(paper, &seg.header, seg.text)?;
    Ok(arrival(paper, r, &seg.header, fresh))
}

/// "Octets arriving at a station 1 to 6."
pub fn arrive_octets(
    paper: &Paper,
    r: Record,
    src: u32,
    dst: u32,
    octets: &[u8],
    fresh: u32,
) -> Result<Taken, u8> {
    test_1(paper, &r)?;
    if paper.is(Wrong::EndpointsBeforeChecksum) {
        test_2(octets)?;
        test_3(paper, octets)?;
        test_5(&r, src, dst, &fields(octets))?;
    }
    let seg = read_segment(paper, src, dst, octets)?; // 2, 3, 4
    arrive(paper, r, seg, fresh) // 5, 6
}

/// "Arrival, check by check", once nothing is refused.
fn arrival(paper: &Paper, r: Record, seg: &Header, fresh: u32) -> Taken {
    match r.state {
        State::Closed => arrival_closed(paper, r, seg),
        State::Listen => arrival_listen(paper, r, seg, fresh),
        State::SynSent => arrival_syn_sent(paper, r, seg),
        State::SynReceived | State::Established => arrival_others(paper, r, seg, fresh),
    }
}

/// "CLOSED: RST dropped; otherwise reply reset."
fn arrival_closed(paper: &Paper, r: Record, seg: &Header) -> Taken {
    if seg.on(RST) {
        return silent(r);
    }
    sending(r, reply_reset(paper, &r, seg))
}

/// "LISTEN: RST dropped; ACK gets reply reset; SYN sets ISS to the fresh
/// number and IRS to SEG.SEQ, sends SYN,ACK, goes to SYN-RECEIVED; otherwise
/// dropped."
fn arrival_listen(paper: &Paper, r: Record, seg: &Header, fresh: u32) -> Taken {
    if seg.on(RST) {
        return silent(r);
    }
    if seg.on(ACK) && !(paper.is(Wrong::ListenTakesAck) && seg.on(SYN)) {
        return sending(r, reply_reset(paper, &r, seg));
    }
    if seg.on(SYN) {
        if paper.is(Wrong::KeepsIss) && r.nxt != r.una {
            // a number was kept: it is used again and none is drawn
            let next = syn_received(r, r.iss, seg.seq);
            return sending(next, syn_ack(&next));
        }
        let next = syn_received(r, fresh, seg.seq);
        return Taken { next, sent: Some(syn_ack(&next)), drawn: true };
    }
    silent(r)
}

/// Is "SEG.ACK = ISS + 1"?
fn acknowledges_syn(paper: &Paper, r: &Record, seg: &Header) -> bool {
    if paper.is(Wrong::PlainIntegers) {
        // the RFC's ISS < SEG.ACK =< SND.NXT, without the circle
        return r.iss < seg.ack && seg.ack <= r.nxt;
    }
    seg.ack == r.iss.wrapping_add(1)
}

/// "SYN-SENT: if ACK and SEG.ACK is not ISS + 1: dropped with RST, otherwise
/// reply reset, record the same. Then RST: with ACK to CLOSED, without
/// dropped. Then SYN: IRS = SEG.SEQ; with ACK to ESTABLISHED, sending ACK;
/// without to SYN-RECEIVED, sending SYN,ACK. Otherwise dropped."
fn arrival_syn_sent(paper: &Paper, r: Record, seg: &Header) -> Taken {
    if seg.on(ACK) && !acknowledges_syn(paper, &r, seg) {
        if seg.on(RST) {
            return silent(r);
        }
        return sending(r, reply_reset(paper, &r, seg));
    }
    if seg.on(RST) {
        if seg.on(ACK) || paper.is(Wrong::BareRstCloses) {
            return silent(closed(r));
        }
        return silent(r);
    }
    if seg.on(SYN) {
        if seg.on(ACK) {
            let next = established(r, seg.seq);
            return sending(next, ack(&next));
        }
        let next = syn_received(r, r.iss, seg.seq);
        return sending(next, syn_ack(&next));
    }
    silent(r)
}

/// "(a) SEG.SEQ - RCV.NXT must be below RCV.WND."
fn in_window(paper: &Paper, r: &Record, seg: &Header) -> bool {
    let offset = seg.seq.wrapping_sub(r.rcvnxt);
    if paper.is(Wrong::PlainIntegers) {
        let end = r.rcvnxt as u64 + r.rcvwnd as u64;
        return r.rcvnxt <= seg.seq && (seg.seq as u64) < end;
    }
    if paper.is(Wrong::WindowEdge) {
        return offset <= r.rcvwnd as u32;
    }
    if paper.is(Wrong::WindowSigned) {
        return (offset as i32) < r.rcvwnd as i32;
    }
    offset < r.rcvwnd as u32
}

/// "SYN-RECEIVED and ESTABLISHED", (a) to (e).
fn arrival_others(paper: &Paper, r: Record, seg: &Header, fresh: u32) -> Taken {
    let received = r.state == State::SynReceived;

    if paper.is(Wrong::SynReopens) && !received && seg.control & (SYN | ACK | RST) == SYN {
        let next = Record { passive: true, ..syn_received(r, fresh, seg.seq) };
        return Taken { next, sent: Some(syn_ack(&next)), drawn: true };
    }
    if paper.is(Wrong::CrossingEstablishes)
        && received
        && seg.control & (SYN | ACK | RST) == (SYN | ACK)
        && seg.seq == r.irs
        && seg.ack == r.nxt
    {
        return silent(established(r, r.irs));
    }

    // (a) "otherwise send ACK, or nothing if RST"
    if !in_window(paper, &r, seg) {
        if seg.on(RST) {
            return silent(r);
        }
        return sending(r, ack(&r));
    }

    // (b) "RST: SYN-RECEIVED with the mark to LISTEN, others to CLOSED"
    if seg.on(RST) {
        if paper.is(Wrong::RstExact) && seg.seq != r.rcvnxt {
            return sending(r, ack(&r));
        }
        let mark = r.passive || paper.is(Wrong::MarkIgnored);
        if received && mark && !paper.is(Wrong::RstNeverListens) {
            let next = listening(r);
            if paper.is(Wrong::KeepsIss) {
                return silent(Record { iss: r.iss, una: r.una, nxt: r.nxt, ..next });
            }
            return silent(next);
        }
        return silent(closed(r));
    }

    // (c) "SYN: reply reset, to CLOSED"
    if seg.on(SYN) {
        if paper.is(Wrong::SynToListen) && received && r.passive {
            return silent(listening(r));
        }
        if paper.is(Wrong::ChallengeAck) {
            return sending(r, ack(&r));
        }
        return sending(closed(r), reply_reset(paper, &r, seg));
    }

    // (d) "No ACK: dropped"
    if !seg.on(ACK) {
        return silent(r);
    }

    // (e)
    if received {
        // "SEG.ACK = ISS + 1 to ESTABLISHED, otherwise reply reset and stay"
        let una = paper.is(Wrong::UnaAccepted) && seg.ack == r.una;
        if acknowledges_syn(paper, &r, seg) || una {
            return silent(established(r, r.irs));
        }
        return sending(r, reply_reset(paper, &r, seg));
    }
    // "ESTABLISHED: a SEG.ACK later than NXT is met with an ACK; otherwise
    // nothing"
    if later(paper, seg.ack, r.nxt) {
        return sending(r, ack(&r));
    }
    if paper.is(Wrong::LateAckAnswered) && seg.ack != r.nxt {
        return sending(r, ack(&r));
    }
    silent(r)
}
