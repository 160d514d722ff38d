//! For each way to get the rules wrong: after how many random steps the checker of demand 3 sees it,
//! which sentence fails, and how long the shortest list is that shows it; after how many random interleavings the
//! promise of the first read from memory is broken; and after how many steps of runs begun with zero counts the read
//! counters are not what the replies say. Those that demand 3 should not see are
//! tried on as many steps again of lists that crowd the places for requests.

use std::process::ExitCode;

use calls::KINDS;
use model::codec::session_text;
use model::faults::{Fault, NoFault};
use model::interleavings::Interleavings;
use model::trial::{search, search_counters, search_crowded};

/// The seed with which all are found within 1,900,000 steps; another one as the first argument.
const SEED: u64 = 1;

/// The interleavings on which a fault is tried that does not break the promise.
const UNBROKEN: usize = 10_000;

/// The steps of runs on which a fault is tried that leaves the read counters what the replies say.
const COUNTED: usize = 10_000;

/// On how many steps and interleavings a fault is tried that breaks neither demand 3 nor the first read from memory: few
/// where it is of the read counters, on which no reply of a step depends.
fn unbroken(fault: Fault) -> (usize, usize) {
    match fault.is_of_counters() {
        true => (20_000, UNBROKEN / 10),
        false => (200_000, UNBROKEN),
    }
}

/// After how many it was seen, of so many.
fn after(found: Option<usize>, most: usize) -> String {
    match found {
        Some(after) => after.to_string(),
        None => format!("not in {most}"),
    }
}

fn main() -> ExitCode {
    let seed = std::env::args().nth(1).and_then(|text| text.parse().ok());
    let seed = seed.unwrap_or(SEED);
    let (mut passed, mut failed) = (0, 0);
    let mut lists = Vec::new();
    println!("| Fault | Seen after steps | Sentence that fails | Shortest list | First read broken after | Counters wrong after |");
    println!("|---|---|---|---|---|---|");
    for fault in Fault::ALL {
        let (few_steps, few_interleavings) = unbroken(fault);
        let (most, breaks) = match fault.breaks_demand_3() {
            true => (40_000_000, true),
            false => (few_steps, false),
        };
        let mut found = search(seed, most, &fault);
        if found.is_none() && !breaks {
            found = search_crowded(seed, most, &fault);
        }
        let (most_played, breaks_first_read) = match fault.breaks_first_read() {
            true => (1_000_000, true),
            false => (few_interleavings, false),
        };
        let broken = Interleavings::new(seed, KINDS).search(most_played, &fault);
        let (most_counted, breaks_counters) = match fault.breaks_counter_law() {
            true => (1_000_000, true),
            false => (COUNTED, false),
        };
        let counted = search_counters(seed, most_counted, &fault);
        let seen = (found.is_some(), broken.is_some(), counted.is_some());
        if seen == (breaks, breaks_first_read, breaks_counters) {
            passed += 1;
        } else {
            failed += 1;
        }
        let broken = after(broken.map(|broken| broken.after), most_played);
        let counted = after(counted, most_counted);
        match found {
            Some(found) => {
                let sentence = found.violation.sentence;
                let steps = found.steps.len();
                let after = found.after;
                println!("| {fault:?} | {after} | {sentence:?} | {steps} | {broken} | {counted} |");
                lists.push((fault, session_text(&found.steps)));
            }
            None => println!("| {fault:?} | not in {most} | none | | {broken} | {counted} |"),
        }
    }
    let seen = search(seed, 400_000, &NoFault).is_some();
    let broken = Interleavings::new(seed, KINDS)
        .search(UNBROKEN, &NoFault)
        .is_some();
    let counted = search_counters(seed, COUNTED, &NoFault).is_some();
    if !seen && !broken && !counted {
        passed += 1;
        println!(
            "| the right rules | not in 400000 | none | | not in {UNBROKEN} | not in {COUNTED} |"
        );
    } else {
        failed += 1;
        println!("| the right rules | seen: {seen} | | | broken: {broken} | wrong: {counted} |");
    }
    println!();
    for (fault, text) in lists {
        println!("{fault:?}: {text}");
    }
    println!("{passed} passed, {failed} failed");
    if failed == 0 {
        ExitCode::SUCCESS
    } else {
        ExitCode::FAILURE
    }
}
