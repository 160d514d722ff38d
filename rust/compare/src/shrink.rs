//! A failing case made small, and printed as a session file.

use calls::{Library, Step};
use model::codec::{self, MARK};
use model::shrink::{shrink as shrink_steps, Outcome};
use model::state::State;
use model::{rules, store_calls, tables};

use crate::case::{Act, Case, Difference};
use crate::cells::Counts;

/// What the model says of the start tables; a smaller case keeps it, so that it fails for a like
/// reason.
fn class(case: &Case) -> u32 {
    match case.act {
        Act::Store(_) => store_calls::check(&case.store).code,
        _ => tables::check(&case.store, &case.players).code,
    }
}

fn difference(case: &Case, library: &impl Library) -> Option<Difference> {
    case.differs(library, &mut Counts::default())
}

/// The smallest failing case that is found by leaving out steps, bytes and words of the start
/// tables; and what differs there.
pub fn shrink(case: &Case, library: &impl Library) -> (Case, Option<Difference>) {
    let before = class(case);
    let fails = |other: &Case| class(other) == before && difference(other, library).is_some();
    let mut best = case.clone();
    // From fresh tables, if that fails too.
    let fresh = Case::fresh(case.act.clone());
    if !matches!(case.act, Act::Store(_)) && fails(&fresh) {
        best = fresh;
    }
    for _ in 0..2 {
        match best.act.clone() {
            Act::Steps(steps) => {
                let after = difference(&best, library).map_or(steps.len(), |found| found.after);
                best.act = Act::Steps(fewer_steps(&steps[..after], &best, &fails, Act::Steps));
            }
            Act::Run {
                session,
                budget,
                list,
            } => best = smaller_run(&session, budget, list, best, &fails),
            _ => {}
        }
        fewer_words(&mut best, &fails);
    }
    let found = difference(&best, library);
    (best, found)
}

/// Leaves out steps and makes their numbers smaller.
fn fewer_steps(
    steps: &[Step],
    case: &Case,
    fails: &impl Fn(&Case) -> bool,
    act: impl Fn(Vec<Step>) -> Act,
) -> Vec<Step> {
    let start = tables::decode(&case.store, &case.players).unwrap_or_else(|_| State::fresh());
    shrink_steps(steps, |list| {
        let mut state = start.clone();
        let mut attempt = case.clone();
        attempt.act = act(list.to_vec());
        Outcome {
            failed: fails(&attempt),
            replies: list
                .iter()
                .map(|&step| rules::step(&mut state, step))
                .collect(),
        }
    })
}

/// The steps of a session, if all its records are good.
fn steps_of(session: &[u8]) -> Option<Vec<Step>> {
    let mut rest = session.strip_prefix(&MARK)?;
    let mut steps = Vec::new();
    while !rest.is_empty() {
        let (step, length) = codec::decode(rest).ok()?;
        steps.push(step);
        rest = &rest[length..];
    }
    Some(steps)
}

fn smaller_run(
    session: &[u8],
    budget: u32,
    list: usize,
    case: Case,
    fails: &impl Fn(&Case) -> bool,
) -> Case {
    let run = |session: Vec<u8>, budget, list| Act::Run {
        session,
        budget,
        list,
    };
    let mut best = case;
    let mut bytes = session.to_vec();
    if let Some(steps) = steps_of(session) {
        let as_run = |steps: Vec<Step>| run(codec::session(&steps), budget, list);
        let steps = fewer_steps(&steps, &best, fails, as_run);
        let mut attempt = best.clone();
        attempt.act = as_run(steps.clone());
        if fails(&attempt) {
            bytes = codec::session(&steps);
        }
    }
    let mut attempt = best.clone();
    leave_out(&mut bytes, |bytes| {
        attempt.act = run(bytes.to_vec(), budget, list);
        fails(&attempt)
    });
    let smaller = [0, 1, 2, 3, 4, 6, 9, 12, 17, 30, 51, 100, 300, 1_000];
    let mut least = (budget, list);
    for words in smaller.into_iter().filter(|&words| words < list) {
        attempt.act = run(bytes.clone(), budget, words);
        if fails(&attempt) {
            least.1 = words;
            break;
        }
    }
    for most in smaller.into_iter().filter(|&most| (most as u32) < budget) {
        attempt.act = run(bytes.clone(), most as u32, least.1);
        if fails(&attempt) {
            least.0 = most as u32;
            break;
        }
    }
    best.act = run(bytes, least.0, least.1);
    best
}

/// Leaves out ever smaller parts of a list as long as it fails without them.
fn leave_out<T: Clone>(items: &mut Vec<T>, mut fails: impl FnMut(&[T]) -> bool) {
    let mut size = items.len().div_ceil(2);
    while size > 0 {
        let mut begin = 0;
        while begin < items.len() {
            let end = (begin + size).min(items.len());
            let mut candidate = items[..begin].to_vec();
            candidate.extend_from_slice(&items[end..]);
            if fails(&candidate) {
                *items = candidate;
            } else {
                begin = end;
            }
        }
        size /= 2;
    }
}

/// Makes words of the start tables what they are in fresh ones.
fn fewer_words(case: &mut Case, fails: &impl Fn(&Case) -> bool) {
    let strange = strange_words(case);
    let mut kept: Vec<(bool, usize, u32)> = strange.clone();
    let mut attempt = case.clone();
    let set = |case: &mut Case, words: &[(bool, usize, u32)]| {
        let (store, players) = tables::fresh_tables();
        for &(in_store, at, _) in &strange {
            if in_store {
                case.store[at] = store[at];
            } else {
                case.players[at] = players[at];
            }
        }
        for &(in_store, at, word) in words {
            if in_store {
                case.store[at] = word;
            } else {
                case.players[at] = word;
            }
        }
    };
    leave_out(&mut kept, |words| {
        set(&mut attempt, words);
        fails(&attempt)
    });
    set(case, &kept);
}

/// The words that are not as in fresh tables: whether in the store's, where, and the word.
fn strange_words(case: &Case) -> Vec<(bool, usize, u32)> {
    let (store, players) = tables::fresh_tables();
    let differ = |in_store: bool, words: &[u32], fresh: &[u32]| {
        let mut found = Vec::new();
        if words.len() == fresh.len() {
            for (at, (&word, &other)) in words.iter().zip(fresh).enumerate() {
                if word != other {
                    found.push((in_store, at, word));
                }
            }
        }
        found
    };
    let mut words = differ(true, &case.store, &store);
    words.extend(differ(false, &case.players, &players));
    words
}

/// The case as a session file with comments, and what differs.
pub fn print(case: &Case, found: Option<&Difference>) -> String {
    let mut text = String::new();
    let (fresh_store, fresh_players) = tables::fresh_tables();
    if case.store.len() != fresh_store.len() {
        text.push_str(&format!(
            "# a store's table of {} words\n",
            case.store.len()
        ));
    }
    if case.players.len() != fresh_players.len() && !matches!(case.act, Act::Store(_)) {
        text.push_str(&format!(
            "# a players' table of {} words\n",
            case.players.len()
        ));
    }
    let strange = strange_words(case);
    if !strange.is_empty() {
        text.push_str("# fresh tables, but for these words:\n");
    }
    for (in_store, at, word) in strange {
        let table = if in_store { "store" } else { "players" };
        text.push_str(&format!("#   {table} {at} = {word}\n"));
    }
    match &case.act {
        Act::Steps(steps) => {
            text.push_str("# each record a call of step\n");
            text.push_str(&session_lines(&codec::session(steps)));
        }
        Act::Run {
            session,
            budget,
            list,
        } => {
            text.push_str(&format!("# a run, budget {budget}, list of {list} words\n"));
            text.push_str(&session_lines(session));
        }
        other => text.push_str(&format!("# {other:02X?}\n")),
    }
    match found {
        Some(found) => text.push_str(&format!("# {}\n", found.what)),
        None => text.push_str("# it does not fail again\n"),
    }
    text
}

fn hex(bytes: &[u8]) -> String {
    let digits: Vec<String> = bytes.iter().map(|byte| format!("{byte:02X}")).collect();
    digits.join(" ")
}

/// A session in hexadecimal, a line for each record, with the step as a comment.
fn session_lines(session: &[u8]) -> String {
    let lines = |bytes: &[u8]| -> String {
        bytes
            .chunks(32)
            .map(|line| format!("{}\n", hex(line)))
            .collect()
    };
    let Some(mut rest) = session.strip_prefix(&MARK) else {
        return lines(session);
    };
    let mut text = format!("{}\n", hex(&MARK));
    let mut ordinal = 1;
    while let Ok((step, length)) = codec::decode(rest) {
        text.push_str(&format!(
            "{:<26} # {ordinal:>2} {step:?}\n",
            hex(&rest[..length])
        ));
        rest = &rest[length..];
        ordinal += 1;
    }
    text + &lines(rest)
}
