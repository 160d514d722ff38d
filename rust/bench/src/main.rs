//! Times of the library beside the model and the port, measured in one run. See
//! `docs/PERFORMANCE.md`; `tools/bench` adds instruction counts.

mod stack;
mod works;

use std::hint::black_box;
use std::process::ExitCode;
use std::time::Instant;

use calls::Library;
use compare::oracle::RIGHT;
use model::tables::{PLAYERS_WORDS, STORE_WORDS};
use port::Port;

use works::Work;

/// What is measured, the library first where it is linked.
fn libraries() -> Vec<(&'static str, &'static dyn Library)> {
    vec![
        #[cfg(feature = "library")]
        ("library", &proved::Proved),
        ("model", &RIGHT),
        ("port", &Port),
    ]
}

fn works() -> Vec<Work> {
    let mut works = works::kinds();
    works.extend(works::sessions());
    works.extend(works::calls());
    works
}

/// How long a batch of a work is at least, in nanoseconds.
const BATCH: f64 = 300_000.0;
/// Repetitions of each, taken in turn.
const REPETITIONS: usize = 41;

/// Nanoseconds of the work, the best of a batch: what interrupts it is not counted, nor is restoring
/// the tables.
fn once(work: &Work, library: &dyn Library, empty: bool) -> f64 {
    let mut lent = work.lent();
    let mut spent = 0.0;
    let mut best = f64::MAX;
    while spent < BATCH {
        work.restore(&mut lent);
        let begun = Instant::now();
        black_box(work.run(black_box(library), black_box(&mut lent), empty));
        let took = begun.elapsed().as_nanos() as f64;
        spent += took;
        best = best.min(took);
    }
    best
}

fn median(mut figures: Vec<f64>) -> f64 {
    figures.sort_by(f64::total_cmp);
    figures[figures.len() / 2]
}

/// Medians over repetitions that are taken in turn, so that what else the machine does hits all
/// alike. None for a library that does not know a kind of the work.
fn medians(work: &Work) -> Vec<Option<f64>> {
    let libraries = libraries();
    let mut figures: Vec<Vec<f64>> = vec![Vec::new(); libraries.len()];
    for _ in 0..REPETITIONS {
        for ((_, library), figures) in libraries.iter().zip(&mut figures) {
            if !work.is_known(*library) {
                continue;
            }
            let whole = once(work, *library, false);
            let empty = match work.less_empty() {
                true => once(work, *library, true),
                false => 0.0,
            };
            figures.push((whole - empty) / f64::from(work.each));
        }
    }
    let known = figures.into_iter().map(|f| (!f.is_empty()).then_some(f));
    known.map(|figures| figures.map(median)).collect()
}

/// One line: the figures, and the first one's ratio to each other; a dash where there is none.
fn line(name: &str, figures: &[Option<f64>]) {
    let show = |figure: Option<f64>, digits: usize| match figure {
        Some(figure) => print!("{figure:>11.digits$}"),
        None => print!("{:>11}", "-"),
    };
    print!("{name:<40}");
    for &figure in figures {
        show(figure, 1);
    }
    for &other in &figures[1..] {
        show(figures[0].zip(other).map(|(own, other)| own / other), 2);
    }
    println!();
}

fn header(title: &str, ratios: bool) {
    print!("{title:<40}");
    for (name, _) in libraries() {
        print!("{name:>11}");
    }
    for (name, _) in libraries().iter().skip(1).filter(|_| ratios) {
        print!("{:>11}", format!("/ {name}"));
    }
    println!();
}

/// One pass over the words of both tables, with an exit at the first that is above a limit.
#[inline(never)]
fn plain_pass(store: &[u32], players: &[u32], limit: u32) -> bool {
    let below = |words: &[u32]| words.iter().all(|&word| word <= limit);
    below(store) && below(players)
}

/// One pass over the words that adds them up, which the compiler may do eight at a time.
#[inline(never)]
fn adding_pass<const COPY: u32>(store: &[u32], players: &[u32]) -> u32 {
    let sum = |words: &[u32]| words.iter().fold(COPY, |sum, &word| sum.wrapping_add(word));
    sum(store).wrapping_add(sum(players))
}

/// Copies of [`adding_pass`], of which the fastest counts: the same code takes up to half as long again
/// with its place in memory.
const ADDING: [fn(&[u32], &[u32]) -> u32; 6] = [
    adding_pass::<0>,
    adding_pass::<1>,
    adding_pass::<2>,
    adding_pass::<3>,
    adding_pass::<4>,
    adding_pass::<5>,
];

/// The test of the tables beside passes over the same words.
fn passes() {
    println!();
    println!(
        "test of the tables beside one pass over the same {} words, ns",
        STORE_WORDS + PLAYERS_WORDS
    );
    for work in works::calls()
        .iter()
        .filter(|work| matches!(work.act, works::Act::Check))
    {
        let (store, players) = work.tables();
        let mut lent = work.lent();
        let mut figures: Vec<Vec<f64>> = vec![Vec::new(); libraries().len() + 1 + ADDING.len()];
        let time = |action: &mut dyn FnMut()| {
            let begun = Instant::now();
            for _ in 0..50 {
                action();
            }
            begun.elapsed().as_nanos() as f64 / 50.0
        };
        for _ in 0..REPETITIONS {
            for (at, (_, library)) in libraries().iter().enumerate() {
                figures[at].push(time(&mut || {
                    black_box(work.run(black_box(*library), &mut lent, false));
                }));
            }
            let at = libraries().len();
            figures[at].push(time(&mut || {
                black_box(plain_pass(
                    black_box(store),
                    black_box(players),
                    black_box(u32::MAX),
                ));
            }));
            for (copy, adding) in ADDING.iter().enumerate() {
                figures[at + 1 + copy].push(time(&mut || {
                    black_box(adding(black_box(store), black_box(players)));
                }));
            }
        }
        let figures: Vec<f64> = figures.into_iter().map(median).collect();
        let pass = figures[libraries().len()];
        let adding = figures[libraries().len() + 1..]
            .iter()
            .copied()
            .fold(f64::MAX, f64::min);
        println!("{}:", work.name);
        for ((name, _), figure) in libraries().iter().zip(&figures) {
            let (stopping, whole) = (figure / pass, figure / adding);
            println!(
                "    {name:<12}{figure:>9.0}   {whole:.2} of adding up, {stopping:.2} of one pass"
            );
        }
        println!("    {:<12}{adding:>9.0}", "adding up");
        println!("    {:<12}{pass:>9.0}", "one pass");
    }
}

/// Bytes of stack.
fn stacks() {
    println!();
    header("bytes of stack touched", false);
    let show = |bytes: Option<usize>| bytes.map_or("-".to_string(), |bytes| bytes.to_string());
    let row = |name: &str, works: &[Work]| {
        print!("{name:<40}");
        for (_, library) in libraries() {
            let known = works.iter().filter(|work| work.is_known(library));
            let deepest = known.map(|work| {
                let mut lent = work.lent();
                stack::used(|| {
                    work.restore(&mut lent);
                    black_box(work.run(library, &mut lent, false));
                })
            });
            print!("{:>11}", show(deepest.max().flatten()));
        }
        println!();
    };
    let (mut checks, mut shares) = (works::calls(), works::calls());
    checks.retain(|work| matches!(work.act, works::Act::Check));
    shares.retain(|work| matches!(work.act, works::Act::Share(_)));
    let mut runs = works::kinds();
    let by_calls = |act| runs.iter().map(|run| run.by_calls(act)).collect();
    let steps: Vec<Work> = by_calls(works::Act::Steps);
    let previews: Vec<Work> = by_calls(works::Act::Previews);
    runs.extend(works::sessions());
    let run_previews: Vec<Work> = runs.iter().filter_map(Work::preview).collect();
    row("check", &checks);
    row("share", &shares);
    row("step, all kinds above", &steps);
    row("run, all sessions above", &runs);
    row("preview, all kinds above", &previews);
    row("preview of a run, all sessions above", &run_previews);
    print!("{:<40}", "fresh");
    for (_, library) in libraries() {
        let (mut store, mut players) = (vec![0; STORE_WORDS], vec![0; PLAYERS_WORDS]);
        let bytes = stack::used(|| {
            black_box(library.fresh(&mut store, &mut players));
        });
        print!("{:>11}", show(bytes));
    }
    println!();
}

/// The library and the work of these names; none where the library does not know a kind of the work.
fn named(library: &str, work: &str) -> Option<(&'static dyn Library, Work)> {
    let (_, library) = libraries().into_iter().find(|(name, _)| *name == library)?;
    let work = works().into_iter().find(|other| other.name == work)?;
    work.is_known(library).then_some((library, work))
}

/// Does one work once, for a tool that counts instructions.
fn do_once(library: &str, work: &str, empty: bool) -> ExitCode {
    let Some((library, work)) = named(library, work) else {
        return ExitCode::FAILURE;
    };
    black_box(work.run(library, &mut work.lent(), empty));
    ExitCode::SUCCESS
}

fn main() -> ExitCode {
    let words: Vec<String> = std::env::args().skip(1).collect();
    let words: Vec<&str> = words.iter().map(String::as_str).collect();
    match words[..] {
        [] => {}
        // For tools/bench: the names, whether a library knows a work, and one work done once.
        ["works"] => {
            for work in works() {
                println!(
                    "{}\t{}\t{}",
                    work.each,
                    u32::from(work.less_empty()),
                    work.name
                );
            }
            return ExitCode::SUCCESS;
        }
        ["libraries"] => {
            for (name, _) in libraries() {
                println!("{name}");
            }
            return ExitCode::SUCCESS;
        }
        ["knows", library, work] => {
            return match named(library, work) {
                Some(_) => ExitCode::SUCCESS,
                None => ExitCode::FAILURE,
            };
        }
        ["once", library, work] => return do_once(library, work, false),
        ["empty", library, work] => return do_once(library, work, true),
        _ => {
            eprintln!("usage: bench");
            return ExitCode::FAILURE;
        }
    }
    header("ns for each step in a run", true);
    for work in works::kinds() {
        line(&work.name, &medians(&work));
    }
    println!();
    header("ns for a whole run", true);
    for work in works::sessions() {
        line(&work.name, &medians(&work));
    }
    println!();
    header("ns for a call that tests the tables", true);
    for work in works::calls() {
        line(&work.name, &medians(&work));
    }
    passes();
    stacks();
    ExitCode::SUCCESS
}
