//! The switch: the paper itself, or the paper with exactly one rule wrong.

/// Which paper is followed.
#[derive(Clone, Copy, PartialEq, Eq, Debug)]
pub struct Paper {
    pub wrong: Wrong,
}

impl Paper {
    /// The paper as it stands.
    pub const RIGHT: Paper = Paper { wrong: Wrong::None };

    pub fn is(&self, wrong: Wrong) -> bool {
        self.wrong == wrong
    }
}

/// One rule made wrong, in a way that looks reasonable.
#[derive(Clone, Copy, PartialEq, Eq, Debug, Hash)]
pub enum Wrong {
    None,
    // 01, "Errors that look reasonable"
    PlainIntegers,
    SynReopens,
    KeepsIss,
    NotSpaced,
    // octets: reading
    ReservedRefused,
    OddOctetLow,
    FfffRefused,
    ZeroAbsent,
    ChecksumBeforeLength,
    TextRead,
    // octets: writing
    UrgentDropped,
    LengthLow,
    ClearsOutput,
    // arrival
    WindowEdge,
    WindowSigned,
    ResetAlwaysAck,
    ResetSynUncounted,
    ResetWindow,
    UnaAccepted,
    MarkIgnored,
    RstNeverListens,
    SynToListen,
    ChallengeAck,
    RstExact,
    BareRstCloses,
    ListenTakesAck,
    CrossingEstablishes,
    LaterHalf,
    LateAckAnswered,
    EndpointsBeforeChecksum,
    FinBeforeEndpoints,
    // calls and power
    OpenNotFromListen,
    ResendSyn,
    AbortSilent,
    PowerCutKeepsListen,
    // links
    FullBeforePlace,
    CopyMoves,
    LoseSwaps,
    RefusedLeaves,
    FullDropsFirst,
    TurnedUncounted,
    ListShort,
    // the program
    LongDatagram,
    ProtocolUnseen,
    IpOptionsUnseen,
    FragmentsSkipped,
    RefusedStops,
    AlwaysDrawn,
    ReadsOn,
}

const TABLE: [(Wrong, &str, &str); 49] = [
    (Wrong::PlainIntegers, "plain-integers", "sequence numbers compared as plain integers (\"later if 1 to 2^31-1 ahead\", the window, ISS + 1)"),
    (Wrong::SynReopens, "syn-reopens", "ESTABLISHED takes a SYN (no ACK, no RST) as a new opening, before check (a)"),
    (Wrong::KeepsIss, "keeps-iss", "(b): a reset back to LISTEN keeps ISS, and the next SYN is answered under it"),
    (Wrong::NotSpaced, "not-spaced", "the program's k-th number drawn is k, not 65,536 times k"),
    (Wrong::ReservedRefused, "reserved-refused", "\"reserved bits are ignored when read\": refused with 3 instead"),
    (Wrong::OddOctetLow, "odd-octet-low", "\"an odd last octet is padded with a zero\": padded in front instead of behind"),
    (Wrong::FfffRefused, "ffff-refused", "reader compares with the checksum it would write, so 65,535 for 0 is refused"),
    (Wrong::ZeroAbsent, "zero-absent", "a checksum of 0 is read as no checksum, as in UDP"),
    (Wrong::ChecksumBeforeLength, "checksum-before-length", "refusal 4 tested before refusal 3"),
    (Wrong::TextRead, "text-read", "refusal 6: text present is not refused, only FIN"),
    (Wrong::UrgentDropped, "urgent-dropped", "writer writes the urgent pointer only when URG is on"),
    (Wrong::LengthLow, "length-low", "writer puts the header length in the low four bits, where the reserved bits are"),
    (Wrong::ClearsOutput, "clears-output", "writer fills the first 20 octets and clears the rest"),
    (Wrong::WindowEdge, "window-edge", "(a) SEG.SEQ - RCV.NXT may also equal RCV.WND"),
    (Wrong::WindowSigned, "window-signed", "(a) SEG.SEQ - RCV.NXT compared as a signed number, so what is behind is let in"),
    (Wrong::ResetAlwaysAck, "reset-always-ack", "reply reset: with ACK on also RST,ACK with sequence 0"),
    (Wrong::ResetSynUncounted, "reset-syn-uncounted", "reply reset: SEG.LEN is 0 with SYN too"),
    (Wrong::ResetWindow, "reset-window", "a reset carries RCV.WND as window, not 0"),
    (Wrong::UnaAccepted, "una-accepted", "(e) SYN-RECEIVED also takes SEG.ACK = UNA, as RFC 793"),
    (Wrong::MarkIgnored, "mark-ignored", "(b) RST leads SYN-RECEIVED to LISTEN without the mark too"),
    (Wrong::RstNeverListens, "rst-never-listens", "(b) RST leads SYN-RECEIVED to CLOSED with the mark too"),
    (Wrong::SynToListen, "syn-to-listen", "(c) SYN leads SYN-RECEIVED with the mark to LISTEN, nothing sent, as RFC 9293"),
    (Wrong::ChallengeAck, "challenge-ack", "(c) SYN in the window is met with an ACK and the record stays, as RFC 5961"),
    (Wrong::RstExact, "rst-exact", "(b) only RST with SEG.SEQ = RCV.NXT resets, others in the window draw an ACK, as RFC 5961"),
    (Wrong::BareRstCloses, "bare-rst-closes", "SYN-SENT: RST without ACK closes too"),
    (Wrong::ListenTakesAck, "listen-takes-ack", "LISTEN looks at SYN before ACK, so a SYN,ACK is taken"),
    (Wrong::CrossingEstablishes, "crossing-establishes", "the crossing SYN,ACK establishes SYN-RECEIVED at once, as RFC 793's drawing"),
    (Wrong::LaterHalf, "later-half", "a number 2^31 ahead counts as later"),
    (Wrong::LateAckAnswered, "late-ack-answered", "(e) ESTABLISHED: any SEG.ACK other than NXT is met with an ACK"),
    (Wrong::EndpointsBeforeChecksum, "endpoints-before-checksum", "refusal 5 tested before refusal 4"),
    (Wrong::FinBeforeEndpoints, "fin-before-endpoints", "refusal 6 tested before refusal 5"),
    (Wrong::OpenNotFromListen, "open-not-from-listen", "open is refused (7) from LISTEN"),
    (Wrong::ResendSyn, "resend-syn", "resend in SYN-RECEIVED sends SYN, not SYN,ACK"),
    (Wrong::AbortSilent, "abort-silent", "abort in SYN-RECEIVED sends nothing"),
    (Wrong::PowerCutKeepsListen, "power-cut-keeps-listen", "power cut leaves LISTEN as it is"),
    (Wrong::FullBeforePlace, "full-before-place", "copy tests refusal 11 before refusal 9"),
    (Wrong::CopyMoves, "copy-moves", "copy takes the segment from its place to the end"),
    (Wrong::LoseSwaps, "lose-swaps", "lose puts the last segment in the place, those behind do not move up"),
    (Wrong::RefusedLeaves, "refused-leaves", "a refused delivery leaves its link"),
    (Wrong::FullDropsFirst, "full-drops-first", "a segment sent into a full link pushes out the first one"),
    (Wrong::TurnedUncounted, "turned-uncounted", "the player's total of segments turned away stays 0"),
    (Wrong::ListShort, "list-short", "a list of exactly 4,096 events is refused with 12"),
    (Wrong::LongDatagram, "long-datagram", "the program does not stop at a total length above 1,500"),
    (Wrong::ProtocolUnseen, "protocol-unseen", "the program does not look at the protocol"),
    (Wrong::IpOptionsUnseen, "ip-options-unseen", "the program takes the TCP part from octet 20 whatever the IP header length"),
    (Wrong::FragmentsSkipped, "fragments-skipped", "the program skips fragments"),
    (Wrong::RefusedStops, "refused-stops", "the program stops at a refused datagram"),
    (Wrong::AlwaysDrawn, "always-drawn", "the program counts every number offered as drawn"),
    (Wrong::ReadsOn, "reads-on", "the program reads beyond 65,535 octets"),
];

const fn wrongs() -> [Wrong; TABLE.len()] {
    let mut all = [Wrong::None; TABLE.len()];
    let mut i = 0;
    while i < TABLE.len() {
        all[i] = TABLE[i].0;
        i += 1;
    }
    all
}

impl Wrong {
    /// Every wrong version; `Wrong::None`, the paper itself, is not among them.
    pub const ALL: [Wrong; TABLE.len()] = wrongs();

    pub fn name(self) -> &'static str {
        match TABLE.iter().find(|row| row.0 == self) {
            Some(row) => row.1,
            None => "none",
        }
    }

    pub fn description(self) -> &'static str {
        match TABLE.iter().find(|row| row.0 == self) {
            Some(row) => row.2,
            None => "the paper",
        }
    }

    pub fn from_name(name: &str) -> Option<Wrong> {
        if name == "none" {
            return Some(Wrong::None);
        }
        TABLE.iter().find(|row| row.1 == name).map(|row| row.0)
    }
}
