//! Demand 3 by walking: long histories through the proved player, the claims
//! looked at after every event, and the nine steps wherever they apply.

use crate::history::{side_number, spaced, two_closed, Broken, ByPaper, Claim, History, Player, Proved};
use crate::history::{CLAIMS, CLOSED, ESTABLISHED};
use crate::lists::{encode, event_words};
use crate::rng::{Rng, EDGES};
use crate::tabor;
use crate::words::{thousands, STATES};
use paper::{Event, Paper, Side, Wrong};
use std::time::{Duration, Instant};

/// Histories in a walk, unless told otherwise.
pub const HISTORIES: u64 = 30_000;
const THREADS: u64 = 2;
/// How long unspaced numbers are tried.
const UNSPACED_TIME: Duration = Duration::from_secs(6);
/// In how many histories each wrong rule is tried, and for how long at most.
const WRONG_HISTORIES: u64 = 12_000;
const WRONG_TIME: Duration = Duration::from_secs(8);
const SLOTS: usize = 32;

pub fn walk(seed: u64, histories: u64) -> bool {
    println!("seed {seed}");
    let begin = Instant::now();
    let good = walk_proved(seed, histories) & walk_unspaced(seed) & walk_wrongs(seed);
    let verdict = if good { "as demanded" } else { "FAILED" };
    println!(
        "compare --walk: {verdict}, {:.1} s, seed {seed}",
        begin.elapsed().as_secs_f64()
    );
    good
}

// ---- choosing numbers and events

/// How starting numbers are chosen.
#[derive(Clone, Copy, PartialEq)]
enum Numbers {
    /// At least 65,536 apart, often exactly that.
    Spaced,
    /// Only distinct, a few apart.
    Distinct,
}

impl Numbers {
    fn apart(self) -> fn(u32, u32) -> bool {
        match self {
            Numbers::Spaced => spaced,
            Numbers::Distinct => |n, m| n != m,
        }
    }
}

/// A number that keeps the distance to all drawn before by this station.
fn fresh(rng: &mut Rng, history: &History, side: Side, numbers: Numbers) -> u32 {
    let own = &history.drawn[side_number(side)];
    let other = &history.drawn[side_number(side.other())];
    loop {
        let n = candidate(rng, own, other, numbers);
        if own.iter().all(|m| numbers.apart()(n, *m)) {
            return n;
        }
    }
}

/// As near as allowed to own numbers, near to the peer's, at an edge, anywhere.
fn candidate(rng: &mut Rng, own: &[u32], other: &[u32], numbers: Numbers) -> u32 {
    let near = match numbers {
        Numbers::Spaced => 65_536 * rng.pick(&[1, 1, 1, 2, 3]) + rng.pick(&[0, 0, 1, 2]),
        Numbers::Distinct => rng.pick(&[1, 2, 3, 100]),
    };
    match rng.below(6) {
        0..=2 if !own.is_empty() => {
            let from = own[own.len() - 1 - rng.below(own.len().min(4))];
            if rng.one_in(2) {
                from.wrapping_add(near)
            } else {
                from.wrapping_sub(near)
            }
        }
        3 if !other.is_empty() => rng.pick(other).wrapping_add(rng.pick(&[0, 1, u32::MAX])),
        4 => rng.pick(&EDGES),
        5 if numbers == Numbers::Distinct => rng.below(1000) as u32,
        _ => rng.next() as u32,
    }
}

/// Weights of open, listen, abort, resend, power cut, deliver, copy, lose and
/// of driving an opening on. Each history has its own, so that histories are
/// unlike each other: some hold much back, some reopen often.
const MANNERS: [[usize; 9]; 7] = [
    [3, 3, 1, 2, 2, 10, 2, 1, 14],
    [6, 4, 3, 3, 4, 20, 4, 2, 4],
    [4, 2, 2, 6, 3, 14, 12, 1, 8],
    [5, 5, 1, 2, 5, 12, 6, 0, 12],
    [8, 1, 3, 3, 4, 24, 3, 1, 2],
    [3, 6, 2, 2, 3, 16, 3, 6, 10],
    [4, 4, 1, 8, 3, 8, 26, 0, 12],
];

fn any_place(rng: &mut Rng, count: usize) -> u64 {
    match (count, rng.below(8)) {
        (0, _) | (_, 0) => rng.between(0, SLOTS) as u64,
        (_, 1..=3) => count as u64 - 1,
        _ => rng.below(count) as u64,
    }
}

fn choose<P: Player>(
    rng: &mut Rng,
    player: &P,
    history: &History,
    manner: &[usize; 9],
    numbers: Numbers,
) -> Event {
    let side = rng.pick(&[Side::A, Side::B]);
    let count = player.count(side);
    let mut chance = rng.below(manner.iter().sum());
    let mut kind = 0;
    while chance >= manner[kind] {
        chance -= manner[kind];
        kind += 1;
    }
    match kind {
        0 => Event::Open(side, fresh(rng, history, side, numbers)),
        1 => Event::Listen(side),
        2 => Event::Abort(side),
        3 => Event::Resend(side),
        4 => Event::PowerCut(side),
        5 => Event::Deliver(side, any_place(rng, count), fresh(rng, history, side, numbers)),
        6 => Event::Copy(side, any_place(rng, count)),
        7 => Event::Lose(side, any_place(rng, count)),
        _ => onward(rng, player, history, side, numbers),
    }
}

/// The newest segment delivered, or an opening begun.
fn onward<P: Player>(rng: &mut Rng, player: &P, history: &History, side: Side, numbers: Numbers) -> Event {
    let count = player.count(side);
    if count > 0 && player.end(side).state != CLOSED {
        return Event::Deliver(side, count as u64 - 1, fresh(rng, history, side, numbers));
    }
    if player.end(side).state == CLOSED && rng.one_in(2) {
        return Event::Listen(side);
    }
    Event::Open(side, fresh(rng, history, side, numbers))
}

fn any_windows(rng: &mut Rng) -> [u16; 2] {
    let mut one = || rng.pick(&[65_535, 65_535, 65_535, 65_534, 4_096, 100, 1]);
    [one(), one()]
}

// ---- the nine steps

/// One end established, the other closed, a place free on each link: which is
/// the established one?
fn nine_steps_apply<P: Player>(player: &P) -> Option<Side> {
    let free = player.count(Side::A) < SLOTS && player.count(Side::B) < SLOTS;
    let states = (player.end(Side::A).state, player.end(Side::B).state);
    match states {
        (ESTABLISHED, CLOSED) if free => Some(Side::A),
        (CLOSED, ESTABLISHED) if free => Some(Side::B),
        _ => None,
    }
}

/// The nine steps of 01, A established and B closed. Each delivery takes the
/// segment just sent, which is the last on its link.
fn nine_steps<P: Player>(
    rng: &mut Rng,
    player: &mut P,
    history: &mut History,
    a: Side,
    look_at: &[Claim],
    played: &mut Vec<Event>,
) -> Result<(), Broken> {
    let b = a.other();
    let new_b = fresh(rng, history, b, Numbers::Spaced);
    let new_a = fresh(rng, history, a, Numbers::Spaced);
    for step in 1..=9 {
        // the numbers offered where none is drawn are any
        let any = rng.next() as u32;
        let last = |side| Event::Deliver(side, (player.count(side) as u64).wrapping_sub(1), any);
        let event = match step {
            1 => Event::Open(b, new_b),
            2 | 4 | 9 => last(a),
            3 | 8 => last(b),
            5 => Event::Listen(a),
            6 => Event::Resend(b),
            _ => Event::Deliver(a, (player.count(a) as u64).wrapping_sub(1), new_a),
        };
        let sends_to = match step {
            1 | 3 | 6 | 8 => Some(a),
            2 | 7 => Some(b),
            _ => None,
        };
        let before = sends_to.map(|side| player.count(side));
        played.push(event);
        let taken = history.play(player, &event).taken;
        if let Some(broken) = history.check(player, look_at) {
            return Err(broken);
        }
        let broken = |what: &str| {
            Err(Broken {
                claim: Claim::NineSteps,
                how: format!("step {step}: {what}"),
            })
        };
        if !taken {
            return broken("refused");
        }
        if sends_to.map(|side| player.count(side)) != before.map(|n| n + 1) {
            return broken("no segment sent");
        }
        if step == 4 && player.end(a).state != CLOSED {
            return broken("the established end is not closed");
        }
    }
    let (end_a, end_b) = (player.end(a), player.end(b));
    let both = end_a.state == ESTABLISHED && end_b.state == ESTABLISHED;
    let on_new = end_a.iss == new_a && end_a.irs == new_b && end_b.iss == new_b && end_b.irs == new_a;
    if !both || !on_new {
        let how = "not both established on the two new numbers".to_string();
        return Err(Broken {
            claim: Claim::NineSteps,
            how,
        });
    }
    Ok(())
}

// ---- one history

#[derive(Default, Clone)]
struct Counts {
    histories: u64,
    events: u64,
    lists: u64,
    established: u64,
    both: u64,
    nine: u64,
    nine_with_31: u64,
    drawn: u64,
}

impl Counts {
    fn add(&mut self, o: &Counts) {
        self.histories += o.histories;
        self.events += o.events;
        self.lists += o.lists;
        self.established += o.established;
        self.both += o.both;
        self.nine += o.nine;
        self.nine_with_31 += o.nine_with_31;
        self.drawn += o.drawn;
    }
}

/// A history: how it began, its events, those of the nine steps that were
/// tried at its end, and the claim that this breaks.
struct Walked {
    windows: [u16; 2],
    events: Vec<Event>,
    nine: Vec<Event>,
    broken: Option<Broken>,
}

/// What one history is made with.
struct Plan {
    numbers: Numbers,
    length: usize,
    windows: [u16; 2],
    manner: [usize; 9],
    /// Claims that are looked at; others are passed over.
    look_at: Vec<Claim>,
}

fn note_moment<P: Player>(player: &P, counts: &mut Counts) {
    counts.events += 1;
    let states = [player.end(Side::A).state, player.end(Side::B).state];
    counts.established += states.contains(&ESTABLISHED) as u64;
    counts.both += (states == [ESTABLISHED; 2]) as u64;
}

/// The player ends where the history ends.
fn one_history<P: Player>(rng: &mut Rng, player: &mut P, plan: &Plan, counts: &mut Counts) -> Walked {
    let mut history = History::default();
    let mut events = Vec::with_capacity(plan.length + 9);
    let walked = |events, nine, broken| Walked {
        windows: plan.windows,
        events,
        nine,
        broken,
    };
    counts.histories += 1;
    while events.len() < plan.length {
        let event = choose(rng, player, &history, &plan.manner, plan.numbers);
        events.push(event);
        history.play(player, &event);
        note_moment(player, counts);
        if let Some(broken) = history.check(player, &plan.look_at) {
            return walked(events, Vec::new(), Some(broken));
        }
        if !plan.look_at.contains(&Claim::NineSteps) {
            continue;
        }
        if let Some(a) = nine_steps_apply(player).filter(|_| rng.one_in(3)) {
            let (mut copy, mut then) = (player.clone(), history.clone());
            let mut nine = Vec::new();
            counts.nine += 1;
            counts.nine_with_31 += (player.count(Side::A).max(player.count(Side::B)) == SLOTS - 1) as u64;
            if let Err(broken) = nine_steps(rng, &mut copy, &mut then, a, &plan.look_at, &mut nine) {
                return walked(events, nine, Some(broken));
            }
            // sometimes the history goes on from there
            if rng.one_in(4) {
                (*player, history) = (copy, then);
                events.extend(nine);
            }
        }
    }
    counts.drawn += (history.drawn[0].len() + history.drawn[1].len()) as u64;
    assert!(
        history.keeps(plan.numbers.apart()),
        "the walk chose numbers too close"
    );
    walked(events, Vec::new(), None)
}

// ---- the proved player, numbers spaced

/// The events once more as lists of moderate length, one list after another:
/// the proved player must come to the same end as by single events.
fn same_as_lists(rng: &mut Rng, walked: &Walked, end: &Proved, counts: &mut Counts) -> Result<(), String> {
    let mut now = two_closed(walked.windows);
    let mut rest = &walked.events[..];
    while !rest.is_empty() {
        let (list, after) = rest.split_at(rng.between(1, 60).min(rest.len()));
        let octets: Vec<u8> = list.iter().flat_map(|e| encode(e, 0)).collect();
        let played = tabor::play(now, &octets);
        if played.refusal != 0 || played.taken + played.refused != list.len() {
            return Err(format!("a list of {} events was not played", list.len()));
        }
        now = played.model;
        counts.lists += 1;
        rest = after;
    }
    if now != end.0 {
        return Err("the lists end otherwise than the single events".to_string());
    }
    Ok(())
}

fn plan(rng: &mut Rng, numbers: Numbers) -> Plan {
    Plan {
        numbers,
        length: if rng.one_in(30) {
            2_000
        } else {
            rng.pick(&[30, 60, 120, 240])
        },
        windows: any_windows(rng),
        manner: rng.pick(&MANNERS),
        look_at: CLAIMS.to_vec(),
    }
}

/// What a thread has walked, and what it stopped at.
struct Part {
    counts: Counts,
    bad: Option<Walked>,
    problem: Option<String>,
}

fn walk_part(seed: u64, thread: u64, histories: u64) -> Part {
    let mut part = Part {
        counts: Counts::default(),
        bad: None,
        problem: None,
    };
    let mut index = thread;
    while index < histories {
        let mut rng = Rng::of_case(seed, "walk", index);
        let plan = plan(&mut rng, Numbers::Spaced);
        let mut player = Proved(two_closed(plan.windows));
        let walked = one_history(&mut rng, &mut player, &plan, &mut part.counts);
        if walked.broken.is_some() {
            part.bad = Some(walked);
            return part;
        }
        if let Err(how) = same_as_lists(&mut rng, &walked, &player, &mut part.counts) {
            part.problem = Some(format!("history {index}: {how}"));
            return part;
        }
        index += THREADS;
    }
    part
}

fn walk_proved(seed: u64, histories: u64) -> bool {
    let begin = Instant::now();
    let parts: Vec<Part> = std::thread::scope(|scope| {
        let threads: Vec<_> = (0..THREADS)
            .map(|t| scope.spawn(move || walk_part(seed, t, histories)))
            .collect();
        threads
            .into_iter()
            .map(|t| t.join().expect("a walking thread ended early"))
            .collect()
    });
    let mut counts = Counts::default();
    parts.iter().for_each(|part| counts.add(&part.counts));
    println!(
        "the proved player, numbers at least 65,536 apart, {:.1} s:",
        begin.elapsed().as_secs_f64()
    );
    tell_counts(&counts);
    let mut good = true;
    for part in parts {
        if let Some(bad) = part.bad {
            good = false;
            let start = Proved(two_closed(bad.windows));
            tell_history(
                "A CLAIM IS BROKEN",
                &start,
                &shortened(&start, bad, Numbers::Spaced),
            );
        }
        if let Some(problem) = part.problem {
            good = false;
            println!("  FAILED: {problem}");
        }
    }
    good & reached_enough(&counts)
}

fn tell_counts(c: &Counts) {
    println!(
        "  {} histories, {} events, {} numbers drawn",
        thousands(c.histories),
        thousands(c.events),
        thousands(c.drawn)
    );
    println!("  the same as {} lists, to the same ends", thousands(c.lists));
    println!(
        "  {} moments with one end established at least, {} with both",
        thousands(c.established),
        thousands(c.both)
    );
    println!(
        "  {} runs of the nine steps, {} of them with only one place free on a link",
        thousands(c.nine),
        thousands(c.nine_with_31)
    );
}

/// A walk that never came to what it is about has shown nothing.
fn reached_enough(c: &Counts) -> bool {
    let few = c.established == 0 || c.both == 0 || c.nine == 0 || c.nine_with_31 == 0;
    if few {
        println!("  FAILED: the walk did not reach what it is about");
    }
    !few
}

// ---- telling and shortening a history

fn tell_history<P: Player>(title: &str, start: &P, walked: &Walked) {
    println!(
        "  {title}, windows {} and {}, {} events:",
        walked.windows[0],
        walked.windows[1],
        walked.events.len()
    );
    let mut player = start.clone();
    for (i, event) in walked.events.iter().chain(&walked.nine).enumerate() {
        if i == walked.events.len() {
            println!("    now the nine steps:");
        }
        let told = if player.play(event).taken {
            ""
        } else {
            " (refused)"
        };
        let (a, b) = (end_words(&player, Side::A), end_words(&player, Side::B));
        println!("    {}: {}{told}; A {a}, B {b}", i + 1, event_words(event));
    }
    if let Some(broken) = &walked.broken {
        println!("    {}: {}", broken.claim.name(), broken.how);
    }
}

fn end_words<P: Player>(player: &P, side: Side) -> String {
    let end = player.end(side);
    let name = STATES[end.state as usize];
    match end.state {
        0 | 1 => name.to_string(),
        2 => format!("{name} {}", end.iss),
        _ => format!("{name} {} with {}", end.iss, end.irs),
    }
}

/// Plays a history again: does it break the same claim, at its last event or
/// before, and does it keep the distances?
fn breaks<P: Player>(start: &P, again: &Walked, claim: Claim, numbers: Numbers) -> Option<Walked> {
    let (mut player, mut history) = (start.clone(), History::default());
    let walked = |length: usize, nine, broken| Walked {
        windows: again.windows,
        events: again.events[..length].to_vec(),
        nine,
        broken: Some(broken),
    };
    for (i, event) in again.events.iter().enumerate() {
        history.play(&mut player, event);
        if let Some(broken) = history.check(&player, &[claim]) {
            return history
                .keeps(numbers.apart())
                .then(|| walked(i + 1, Vec::new(), broken));
        }
    }
    if claim != Claim::NineSteps || !history.keeps(numbers.apart()) {
        return None;
    }
    // the nine steps are tried at the end, with new numbers that keep the spacing
    let mut nine = Vec::new();
    let a = nine_steps_apply(&player)?;
    let tried = nine_steps(
        &mut Rng::new(0),
        &mut player,
        &mut history,
        a,
        &[claim],
        &mut nine,
    );
    tried.err().map(|broken| walked(again.events.len(), nine, broken))
}

/// Events left out one by one and two by two, and places made smaller, as
/// long as the same claim breaks.
fn shortened<P: Player>(start: &P, mut walked: Walked, numbers: Numbers) -> Walked {
    let Some(claim) = walked.broken.as_ref().map(|b| b.claim) else {
        return walked;
    };
    if claim == Claim::NineSteps && walked.nine.is_empty() {
        return walked;
    }
    while let Some(better) = shorter(start, &walked, claim, numbers) {
        walked = better;
    }
    walked
}

fn shorter<P: Player>(start: &P, walked: &Walked, claim: Claim, numbers: Numbers) -> Option<Walked> {
    let events = &walked.events;
    let attempt = |events: Vec<Event>| {
        let candidate = Walked {
            windows: walked.windows,
            events,
            nine: Vec::new(),
            broken: None,
        };
        breaks(start, &candidate, claim, numbers)
    };
    let n = events.len();
    for i in 0..n {
        if let Some(better) = attempt(without(events, &[i])) {
            return Some(better);
        }
    }
    for i in 0..n {
        for j in i + 1..n.min(i + 40) {
            if let Some(better) = attempt(without(events, &[i, j])) {
                return Some(better);
            }
        }
    }
    for i in 0..n {
        for smaller in with_smaller_place(&events[i]) {
            let mut candidate = events.to_vec();
            candidate[i] = smaller;
            if let Some(better) = attempt(candidate) {
                return Some(better);
            }
        }
    }
    None
}

fn without(events: &[Event], places: &[usize]) -> Vec<Event> {
    let kept = events.iter().enumerate().filter(|(i, _)| !places.contains(i));
    kept.map(|(_, event)| *event).collect()
}

fn with_smaller_place(event: &Event) -> Vec<Event> {
    match *event {
        Event::Deliver(side, place, n) => (0..place).map(|p| Event::Deliver(side, p, n)).collect(),
        Event::Copy(side, place) => (0..place).map(|p| Event::Copy(side, p)).collect(),
        Event::Lose(side, place) => (0..place).map(|p| Event::Lose(side, p)).collect(),
        _ => Vec::new(),
    }
}

// ---- the proved player, numbers not spaced

/// Numbers only distinct: 01 says that this is not enough, so a history that
/// breaks a claim must be found, and it must break under the proved player.
/// The search itself runs on the independent player, which is faster.
fn walk_unspaced(seed: u64) -> bool {
    println!("the proved player, numbers only distinct and close:");
    let end = Instant::now() + UNSPACED_TIME;
    let claims = [Claim::PeersNumber, Claim::BothAgree];
    let found: Vec<(Option<Walked>, u64)> = std::thread::scope(|scope| {
        let search = |claim: Claim| scope.spawn(move || shortest_unspaced(seed, claim, end));
        let threads = claims.map(search);
        threads
            .map(|t| t.join().expect("a walking thread ended early"))
            .into()
    });
    let mut good = true;
    for ((walked, histories), claim) in found.into_iter().zip(claims) {
        good &= tell_unspaced(walked, thousands(histories), claim);
    }
    good
}

fn tell_unspaced(walked: Option<Walked>, histories: String, claim: Claim) -> bool {
    let name = claim.name();
    let Some(walked) = walked else {
        println!("  FAILED: {name} was not broken in {histories} histories, so the walk would not see it");
        return false;
    };
    let start = Proved(two_closed(walked.windows));
    match breaks(&start, &walked, claim, Numbers::Distinct) {
        None => {
            tell_history("FAILED: broken by the independent player only", &start, &walked);
            false
        }
        Some(walked) => {
            let by_hand = if claim == Claim::BothAgree {
                " and one written by hand"
            } else {
                ""
            };
            let title = format!("{name} broken, the shortest of {histories} histories{by_hand}");
            tell_history(&title, &start, &walked);
            true
        }
    }
}

/// 01: "an ACK from another opening falls in the window, and both ends can be
/// established on different numbers". Chance hardly comes to it, so this is
/// one, written by hand: A's openings 100 and 103, B's 307 and 300. An ACK of
/// B's 307 establishes A with 300, an ACK of A's 103 establishes B with 100.
fn both_on_different_numbers() -> Walked {
    use Side::{A, B};
    let events = vec![
        Event::Open(A, 100),
        Event::PowerCut(A),
        Event::Open(A, 103),
        Event::Listen(B),
        Event::Copy(B, 1),
        // B takes SYN 103 under 307, and answers its copy with an ACK
        Event::Deliver(B, 1, 307),
        Event::Deliver(B, 1, 0),
        Event::PowerCut(B),
        Event::Open(B, 300),
        // A takes SYN 300; B takes the held-back SYN 100
        Event::Deliver(A, 2, 0),
        Event::Deliver(B, 0, 0),
        // B's SYN,ACK draws an ACK from A's 103, and that establishes B
        Event::Deliver(A, 2, 0),
        Event::Deliver(B, 1, 0),
        // the held-back ACK of B's 307 establishes A
        Event::Deliver(A, 1, 0),
    ];
    Walked {
        windows: [4096, 4096],
        events,
        nine: Vec::new(),
        broken: None,
    }
}

fn shortest_unspaced(seed: u64, claim: Claim, end: Instant) -> (Option<Walked>, u64) {
    let start = |windows: [u16; 2]| ByPaper::new(Paper::RIGHT, &two_closed(windows));
    let short = |walked: Walked| shortened(&start(walked.windows), walked, Numbers::Distinct);
    let mut best = None;
    if claim == Claim::BothAgree {
        let by_hand = both_on_different_numbers();
        best = breaks(&start(by_hand.windows), &by_hand, claim, Numbers::Distinct).map(short);
    }
    let mut counts = Counts::default();
    while Instant::now() < end {
        let mut rng = Rng::of_case(seed, claim.name(), counts.histories);
        let mut plan = plan(&mut rng, Numbers::Distinct);
        plan.length = plan.length.min(240);
        plan.look_at = vec![claim];
        let walked = one_history(&mut rng, &mut start(plan.windows), &plan, &mut counts);
        if walked.broken.is_none() {
            continue;
        }
        let walked = short(walked);
        if best
            .as_ref()
            .is_none_or(|b: &Walked| walked.events.len() < b.events.len())
        {
            best = Some(walked);
        }
    }
    (best, counts.histories)
}

// ---- the independent player with one rule wrong, numbers spaced

/// Rules that cannot show in a history: those of octets, of text and of the
/// program, and what the player counts.
const NOT_IN_A_HISTORY: [Wrong; 20] = [
    Wrong::NotSpaced,
    Wrong::ReservedRefused,
    Wrong::OddOctetLow,
    Wrong::FfffRefused,
    Wrong::ZeroAbsent,
    Wrong::ChecksumBeforeLength,
    Wrong::TextRead,
    Wrong::UrgentDropped,
    Wrong::LengthLow,
    Wrong::ClearsOutput,
    Wrong::EndpointsBeforeChecksum,
    Wrong::TurnedUncounted,
    Wrong::ListShort,
    Wrong::LongDatagram,
    Wrong::ProtocolUnseen,
    Wrong::IpOptionsUnseen,
    Wrong::FragmentsSkipped,
    Wrong::RefusedStops,
    Wrong::AlwaysDrawn,
    Wrong::ReadsOn,
];

/// 01 names these two as errors with consequences: they must break something.
const MUST_BREAK: [Wrong; 2] = [Wrong::SynReopens, Wrong::KeepsIss];

/// What one wrong rule broke, and in how many histories it was looked for.
struct Verdict {
    wrong: Wrong,
    histories: u64,
    events: u64,
    broken: Vec<Walked>,
}

/// Each claim is looked for until it breaks once or the time is over.
fn try_wrong(seed: u64, wrong: Wrong) -> Verdict {
    let paper = Paper { wrong };
    let end = Instant::now() + WRONG_TIME;
    let mut counts = Counts::default();
    let mut look_at = CLAIMS.to_vec();
    let mut broken = Vec::new();
    let mut index = 0;
    while !look_at.is_empty() && index < WRONG_HISTORIES && Instant::now() < end {
        let mut rng = Rng::of_case(seed, wrong.name(), index);
        index += 1;
        let mut plan = plan(&mut rng, Numbers::Spaced);
        plan.look_at = look_at.clone();
        let start = ByPaper::new(paper, &two_closed(plan.windows));
        let walked = one_history(&mut rng, &mut start.clone(), &plan, &mut counts);
        if let Some(found) = &walked.broken {
            look_at.retain(|claim| *claim != found.claim);
            broken.push(shortened(&start, walked, Numbers::Spaced));
        }
    }
    Verdict {
        wrong,
        histories: counts.histories,
        events: counts.events,
        broken,
    }
}

fn walk_wrongs(seed: u64) -> bool {
    println!("the independent player with one rule wrong, numbers at least 65,536 apart:");
    // the paper itself goes first: nothing of it may break
    let mut wrongs = vec![Wrong::None];
    wrongs.extend(Wrong::ALL.iter().filter(|w| !NOT_IN_A_HISTORY.contains(w)));
    let part = |thread: usize| -> Vec<Verdict> {
        wrongs
            .iter()
            .skip(thread)
            .step_by(THREADS as usize)
            .map(|w| try_wrong(seed, *w))
            .collect()
    };
    let part = &part;
    let mut verdicts: Vec<Verdict> = std::thread::scope(|scope| {
        let threads: Vec<_> = (0..THREADS as usize)
            .map(|t| scope.spawn(move || part(t)))
            .collect();
        threads
            .into_iter()
            .flat_map(|t| t.join().expect("a walking thread ended early"))
            .collect()
    });
    verdicts.sort_by_key(|v| wrongs.iter().position(|w| *w == v.wrong));
    verdicts.iter().for_each(tell_verdict);
    println!(
        "  not tried, because no history shows them: {}",
        NOT_IN_A_HISTORY.map(|w| w.name()).join(", ")
    );
    let mut good = true;
    for verdict in &verdicts {
        if verdict.wrong == Wrong::None && !verdict.broken.is_empty() {
            println!("  FAILED: the paper itself breaks a claim");
            good = false;
        }
        if MUST_BREAK.contains(&verdict.wrong) {
            good &= tell_must_break(verdict);
        }
    }
    good
}

fn tell_verdict(verdict: &Verdict) {
    let each: Vec<String> = CLAIMS
        .iter()
        .map(|claim| format!("{} {}", claim.name(), fate(verdict, *claim)))
        .collect();
    let looked = format!(
        "{} histories, {} events",
        thousands(verdict.histories),
        thousands(verdict.events)
    );
    println!("  {:24} {} | {looked}", verdict.wrong.name(), each.join(" | "));
}

fn fate(verdict: &Verdict, claim: Claim) -> String {
    let walked = verdict
        .broken
        .iter()
        .find(|w| w.broken.as_ref().is_some_and(|b| b.claim == claim));
    match walked {
        None => "held".to_string(),
        Some(w) if claim == Claim::NineSteps => {
            format!(
                "BROKEN after {} events ({})",
                w.events.len(),
                w.broken.as_ref().map_or("", |b| b.how.as_str())
            )
        }
        Some(w) => format!("BROKEN in {} events", w.events.len()),
    }
}

fn tell_must_break(verdict: &Verdict) -> bool {
    let name = verdict.wrong.name();
    if verdict.broken.is_empty() {
        println!("  FAILED: {name} broke nothing");
        return false;
    }
    for walked in &verdict.broken {
        let start = ByPaper::new(Paper { wrong: verdict.wrong }, &two_closed(walked.windows));
        let claim = walked.broken.as_ref().map_or("", |b| b.claim.name());
        if walked.events.len() <= 40 {
            tell_history(&format!("{name} breaks: {claim}"), &start, walked);
        }
    }
    true
}
