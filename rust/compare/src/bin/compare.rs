//! Compares a library with the model. See `docs/TESTING.md`.

use std::process::ExitCode;
use std::time::Instant;

use calls::Library;
use compare::cells::Counts;
use compare::suites::{run_all, Plan};
use compare::wrong::try_all;

const USAGE: &str = "usage: compare library|port|wrong [--steps N] [--seed S]
library  compares the proved library with the model (built with --features library)
port     compares the port with the model
wrong    compares libraries that are wrong in one point each: every one must be caught";

/// All groups, and the table of what was seen; the last line is `N passed, M failed`.
fn compare(library: &impl Library, plan: Plan) -> ExitCode {
    let begun = Instant::now();
    let mut counts = Counts::default();
    let (mut passed, mut failed) = (0, 0);
    for outcome in run_all(library, plan, &mut counts) {
        println!(
            "{}: {} cases, {} steps",
            outcome.name, outcome.cases, outcome.steps
        );
        match outcome.failure {
            None => passed += 1,
            Some(text) => {
                failed += 1;
                println!("FAILED. The smallest case found:\n{text}");
            }
        }
    }
    let (table, wrong, good) = counts.table(library.kinds());
    print!("{table}");
    for line in &wrong {
        println!("FAILED: {line}");
    }
    println!(
        "{} steps, {} damaged, cut, over-long or random sessions, seed {}, {:.0} s",
        counts.steps,
        counts.damaged,
        plan.seed,
        begun.elapsed().as_secs_f64()
    );
    println!("{} passed, {} failed", passed + good, failed + wrong.len());
    if failed + wrong.len() == 0 {
        ExitCode::SUCCESS
    } else {
        ExitCode::FAILURE
    }
}

/// Every wrong library, the group that caught it and the smallest case.
fn wrong(plan: Plan) -> ExitCode {
    let (mut passed, mut failed) = (0, 0);
    try_all(plan, |tried| match tried.caught {
        Some(outcome) => {
            passed += 1;
            let text = outcome.failure.unwrap_or_default();
            println!(
                "{}: caught by \"{}\", case {}\n{text}",
                tried.name, outcome.name, outcome.cases
            );
        }
        None => {
            failed += 1;
            println!("FAILED: {} is not caught", tried.name);
        }
    });
    println!("{passed} passed, {failed} failed");
    if failed == 0 {
        ExitCode::SUCCESS
    } else {
        ExitCode::FAILURE
    }
}

fn main() -> ExitCode {
    let mut words = std::env::args().skip(1);
    let which = words.next().unwrap_or_default();
    let mut plan = Plan::DEFAULT;
    if which == "wrong" {
        // A tenth is enough to catch all of them.
        plan.steps /= 10;
    }
    while let Some(word) = words.next() {
        let number = words.next().and_then(|text| text.parse().ok());
        match (word.as_str(), number) {
            ("--steps", Some(steps)) => plan.steps = steps,
            ("--seed", Some(seed)) => plan.seed = seed,
            _ => {
                eprintln!("{USAGE}");
                return ExitCode::FAILURE;
            }
        }
    }
    match which.as_str() {
        #[cfg(feature = "library")]
        "library" => compare(&proved::Proved, plan),
        "port" => compare(&port::Port, plan),
        "wrong" => wrong(plan),
        _ => {
            eprintln!("{USAGE}");
            ExitCode::FAILURE
        }
    }
}
