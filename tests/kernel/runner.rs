//! Runs the scenarios side by side, each on a thread in a world of its own, so that the waits for the
//! kernel's timers overlap, and prints what they tell in a fixed order.

use crate::bridge::{self, Tally};
use crate::checks::{take_faults, Outcome};
use crate::compare::{self, Fields, Script, Shown};
use crate::sys::NoRig;
use crate::world::World;
use crate::{cuts, foreign, older, opening, recovery, scripts, wrapped};
use std::thread::{self, JoinHandle};

const SEEDS: u64 = 20;
/// Worlds among which the scripts are dealt out.
const HANDS: usize = 4;

/// Lines of a story that a failure shows.
const SHOWN: usize = 100;
/// How often something is run that a busy machine has held up.
const TRIES: usize = 3;

/// What is run in a world of its own.
pub type Scenario = Box<dyn Fn(&mut World) -> Outcome + Send>;

/// Why a run has failed, and whether a busy machine may be the cause.
struct Failed {
    reason: String,
    held_up: bool,
}

/// What one line of the report comes from.
struct Line {
    name: String,
    outcome: Outcome,
    /// Why it was run again, if it was.
    again: Vec<String>,
}

pub fn run() -> Result<(), NoRig> {
    // Whether there is a rig at all is found out once, on a thread, so that this one stays where it is.
    joined(thread::spawn(|| World::new().map(|_| ())))?;
    let plain = begun(plain_scenarios());
    let bridges = bridge_runs();
    let pairs = begun([older::all(), cuts::all(), foreign::all()].into_iter().flatten().collect());
    let compared = thread::spawn(compared_all);
    let mut told: Vec<Line> = plain.into_iter().map(joined).collect();
    told.extend(bridges_told(bridges));
    told.extend(pairs.into_iter().map(joined));
    told.extend(compared_told(joined(compared)));
    let failed = told.iter().filter(|line| !printed(line)).count();
    let again: usize = told.iter().map(|line| line.again.len()).sum();
    if again > 0 {
        println!("kernel: {again} times something was run again, since the machine had held it up");
    }
    println!("kernel: {} ok, {failed} failed", told.len() - failed);
    if failed > 0 {
        return Err(NoRig::Broken(format!("{failed} failed")));
    }
    Ok(())
}

/// A thread ends by itself or by a panic, which is a fault of the rig and ends it.
fn joined<T>(thread: JoinHandle<T>) -> T {
    thread.join().unwrap_or_else(|_| panic!("a scenario panicked"))
}

fn printed(line: &Line) -> bool {
    match &line.outcome {
        Ok(seen) => {
            println!("kernel: {}: ok ({})", line.name, seen[0]);
            seen[1..].iter().for_each(|more| println!("    {more}"));
        }
        Err(reason) => println!("kernel: {}: FAILED: {reason}", line.name),
    }
    line.again.iter().for_each(|reason| println!("    run again, held up: {reason}"));
    line.outcome.is_ok()
}

fn plain_scenarios() -> Vec<(String, Scenario)> {
    let scenarios: [(&str, fn(&mut World) -> Outcome); 9] = [
        ("the kernel connects to our station", opening::kernel_opens),
        ("our station opens to a kernel listener", opening::we_open),
        ("both open and the SYNs cross", opening::crossing),
        ("text and FIN of the kernel", opening::text_and_fin),
        ("damaged segments", opening::damage),
        ("behind options of the IP header", wrapped::behind_options),
        ("in fragments", wrapped::in_fragments),
        ("nine steps, our power is cut, the kernel is A", recovery::our_power_cut),
        ("nine steps, the kernel's power is cut, we are A", recovery::kernel_power_cut),
    ];
    scenarios.into_iter().map(|(name, scenario)| (name.into(), Box::new(scenario) as Scenario)).collect()
}

/// Scenarios, each on a thread of its own.
fn begun(scenarios: Vec<(String, Scenario)>) -> Vec<JoinHandle<Line>> {
    let line = |(name, scenario): (String, Scenario)| {
        let (outcome, again) = unless_held_up(|| in_new_world(&scenario));
        Line { name, outcome, again }
    };
    scenarios.into_iter().map(|scenario| thread::spawn(move || line(scenario))).collect()
}

fn in_new_world<T>(scenario: impl Fn(&mut World) -> Result<T, String>) -> Result<T, Failed> {
    let mut world = World::new().map_err(|e| Failed { reason: e.reason(), held_up: false })?;
    let result = scenario(&mut world);
    judged(result, &world)
}

/// What a scenario tells, unless it has met a fault or the kernel has counted an error that was not sent on
/// purpose: then it has failed, and no timing is the cause.
fn judged<T>(result: Result<T, String>, world: &World) -> Result<T, Failed> {
    let held_up = world.is_late();
    let mut faults = take_faults();
    faults.extend(world.miscounted());
    if faults.is_empty() {
        return result.map_err(|e| Failed { reason: with_story(e, world), held_up });
    }
    faults.extend(result.err());
    faults.dedup();
    Err(Failed { reason: with_story(faults.join("; "), world), held_up: false })
}

/// A failure with all that passed, or the last of it where that is much.
fn with_story(error: String, world: &World) -> String {
    let story = world.story();
    let left_out = story.len().saturating_sub(SHOWN);
    let left_out_line = (left_out > 0).then(|| format!("({left_out} lines before)"));
    let lines = left_out_line.iter().chain(&story[left_out..]);
    lines.fold(error, |text, line| format!("{text}\n    {line}"))
}

/// On a machine so busy that the kernel's timer runs out between two steps, its resends come in between.
/// What the rig itself was too late for is run again, and the report says so. What fails otherwise has failed,
/// also where it has waited in vain for what the kernel did not take.
fn unless_held_up<T>(mut run: impl FnMut() -> Result<T, Failed>) -> (Result<T, String>, Vec<String>) {
    let mut again = Vec::new();
    loop {
        match run() {
            Err(failed) if failed.held_up && again.len() + 1 < TRIES => again.push(failed.reason),
            result => return (result.map_err(|failed| failed.reason), again),
        }
    }
}

/// What a run over a bridge has shown, and why it was run again, if it was.
type BridgeRun = JoinHandle<(String, Result<(Vec<String>, Tally), String>, Vec<String>)>;

fn bridge_runs() -> Vec<BridgeRun> {
    let kernel = (1..=SEEDS).map(|seed| bridge_run("the kernel connects", seed, bridge::kernel_opens));
    let ours = (1..=SEEDS).map(|seed| bridge_run("our station opens", seed, bridge::we_open));
    kernel.chain(ours).collect()
}

fn bridge_run(who: &str, seed: u64, run: fn(&mut World, u64) -> Result<(Vec<String>, Tally), String>) -> BridgeRun {
    let name = format!("{who} over a bridge, seed {seed}");
    thread::spawn(move || {
        let (result, again) = unless_held_up(|| in_new_world(|world| run(world, seed)));
        (name, result, again)
    })
}

/// A line for each run, and one for what was met in all of them.
fn bridges_told(runs: Vec<BridgeRun>) -> Vec<Line> {
    let mut all = Tally::default();
    let mut told = Vec::new();
    for (name, result, again) in runs.into_iter().map(joined) {
        let outcome = result.map(|(lines, tally)| {
            all.add(tally);
            lines
        });
        told.push(Line { name, outcome, again });
    }
    let outcome = bridge::all_met(all).map(|_| vec![all.line()]);
    told.push(Line { name: format!("{} openings over a bridge", told.len()), outcome, again: Vec::new() });
    told
}

/// A script, what it has shown, and why it was run again, if it was.
type Compared = (Script, Result<Shown, String>, Vec<String>);

/// The scripts, dealt out among a few worlds, back in their order.
fn compared_all() -> Vec<Compared> {
    let mut hands: Vec<Vec<(usize, Script)>> = (0..HANDS).map(|_| Vec::new()).collect();
    for (place, script) in scripts::all().into_iter().enumerate() {
        hands[place % HANDS].push((place, script));
    }
    let threads: Vec<_> = hands.into_iter().map(|hand| thread::spawn(|| compared_hand(hand))).collect();
    let mut compared: Vec<_> = threads.into_iter().flat_map(joined).collect();
    compared.sort_by_key(|(place, _)| *place);
    compared.into_iter().map(|(_, compared)| compared).collect()
}

fn compared_hand(hand: Vec<(usize, Script)>) -> Vec<(usize, Compared)> {
    let mut world = World::new().map_err(NoRig::reason);
    let compared = hand.into_iter().map(|(place, script)| {
        let (result, again) = unless_held_up(|| compared_one(&mut world, &script));
        (place, (script, result, again))
    });
    compared.collect()
}

/// What a failed script has left open must not fail the next one, which gets another world.
fn compared_one(world: &mut Result<World, String>, script: &Script) -> Result<Shown, Failed> {
    let here = world.as_mut().map_err(|reason| Failed { reason: reason.clone(), held_up: false })?;
    let result = judged(compare::run(here, script), here);
    if result.is_err() {
        *world = World::new().map_err(NoRig::reason);
    }
    result
}

fn compared_told(compared: Vec<Compared>) -> Vec<Line> {
    let mut fields = Fields::default();
    let mut told = Vec::new();
    for (script, result, again) in compared {
        let outcome = result.map(|shown| {
            fields.window |= shown.fields.window;
            fields.options |= shown.fields.options;
            script_lines(shown)
        });
        told.push(Line { name: format!("as 01: {}", script.name), outcome, again });
    }
    let outcome = Ok(field_lines(fields));
    told.push(Line { name: "as 01: the other fields".into(), outcome, again: Vec::new() });
    told
}

fn script_lines(shown: Shown) -> Vec<String> {
    let mut lines = vec![shown.lines.join("; ")];
    lines.extend(shown.differences.iter().map(|d| format!("listed difference: {d}")));
    lines.extend(shown.not_seen.iter().map(|d| format!("listed difference not seen: {d}")));
    lines
}

/// Two differences stand in the header itself, whatever the script.
fn field_lines(fields: Fields) -> Vec<String> {
    let line = |seen: bool, what: &str| format!("listed difference{}: {what}", if seen { "" } else { " not seen" });
    vec![
        "urgent pointer, reserved bits and text as 01, and window 0 in a reset".into(),
        line(fields.window, "the window is the kernel's own buffer, and not 4,096 (but 0 in a reset)"),
        line(fields.options, "the kernel's SYN and SYN,ACK carry options"),
    ]
}
