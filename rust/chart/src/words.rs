//! What a row says: the step and the reply in the library's words, and what the tables show besides.

use famdrize::{Reply, BARRED, OPEN_GUARD, SESSION_BYTES};

use crate::flight::{End, Flight, Outcome, Purpose, Sender};
use crate::layout::Rows;
use crate::story::{Deed, Event, Memory, Story};
use crate::strip::Entries;

/// The most characters of a refusal's words that stand in its row; longer ones stand below the chart alone.
const SHORT_WORDS: usize = 40;

/// How many of the bytes that were not read are shown.
const BYTES: usize = 16;

/// The title of a chart.
pub fn title(story: &Story) -> String {
    let records = story.events.len();
    let noun = if records == 1 { "record" } else { "records" };
    // of one that is too long, no more was read than shows it
    let bytes = match story.length > SESSION_BYTES {
        true => format!("more than {SESSION_BYTES}"),
        false => story.length.to_string(),
    };
    format!("A session of {bytes} bytes: {records} {noun}")
}

/// What stands below the title: which records are shown, if not all, and the report.
pub fn subtitle(story: &Story, rows: &Rows) -> String {
    let (first, last) = (*rows.start(), *rows.end());
    let part = match story.events.len() {
        records if first > 1 || last < records => format!("Records {first} to {last}. "),
        _ => String::new(),
    };
    let told = story.report.to_string();
    let mut letters = told.chars();
    let capital = letters.next().into_iter().flat_map(char::to_uppercase);
    let capital: String = capital.collect();
    format!("{part}{capital}{}.", letters.as_str())
}

/// What stands below the rows: the end as a listing has it and, where there is damage, the bytes that were not read; or that the session
/// goes on.
pub fn below(story: &Story, rows: &Rows) -> Vec<String> {
    let last = *rows.end();
    if last < story.events.len() {
        return vec![format!("Record {} comes next.", last + 1)];
    }
    let mut lines = vec![format!("{} · {}", end(story), story.report.why)];
    if story.is_damaged() {
        lines.push(unread(story));
    }
    lines
}

/// The last line of the listing.
pub fn end(story: &Story) -> String {
    let report = story.report;
    let why = report.why.number();
    format!("end {why} {} {}", report.records, report.place)
}

/// The bytes that were not read, or the first of them.
fn unread(story: &Story) -> String {
    let place = story.report.place;
    if story.rest.is_empty() {
        return format!("No byte stands at place {place}.");
    }
    let shown = story.rest.iter().take(BYTES);
    let shown: Vec<String> = shown.map(|byte| format!("{byte:02X}")).collect();
    let more = match story.rest.len().saturating_sub(BYTES) {
        0 => String::new(),
        _ if story.length > SESSION_BYTES => " and more".to_string(),
        more => format!(" and {more} more"),
    };
    format!("Not read, from byte {place} on: {}{more}", shown.join(" "))
}

/// The step of a row.
pub fn step(event: &Event) -> String {
    match event.step {
        Some(step) => step.to_string(),
        None => event.fields.to_string(),
    }
}

/// The reply of a row, as a listing has it, and in words what came of the step.
pub fn reply(story: &Story, event: &Event) -> String {
    let [code, a, b] = event.reply.numbers();
    let mut said = notes(story, event);
    let words = match event.reply {
        Reply::Refused(refusal) if refusal.words().len() > SHORT_WORDS => "refused".to_string(),
        Reply::Refused(refusal) => format!("refused: {}", refusal.words()),
        reply => reply.to_string(),
    };
    // what was done says more than that it was done
    if event.reply != Reply::Done || said.is_empty() {
        said.insert(0, words);
    }
    format!("{code} {a} {b} · {}", said.join("; "))
}

/// What the tables show of a step beside its reply.
fn notes(story: &Story, event: &Event) -> Vec<String> {
    let ordinal = event.ordinal;
    match event.deed {
        Deed::Asked(serial) => {
            let crossed = serials(story, |flight| flight.crossed == Some(ordinal));
            let crossed = crossed.map(|serials| format!("overlapped: {serials}"));
            let carried = carried(story.flight(serial));
            carried.into_iter().chain(crossed).collect()
        }
        Deed::Arrived(serial) => vec![arrived(story.flight(serial))],
        Deed::Answered(serial, memory) => {
            let remembered = remembered(story.flight(serial), memory);
            remembered.into_iter().map(str::to_string).collect()
        }
        Deed::GivenUp(serial) => vec![match story.flight(serial).end {
            End::Dropped(at) if at == ordinal => "its answer will not be taken".to_string(),
            _ => "it may still arrive".to_string(),
        }],
        Deed::PlayerRestarted => {
            let given_up = serials(story, |flight| {
                flight.given_up == Some(ordinal) || flight.end == End::Dropped(ordinal)
            });
            let told = given_up.map(|serials| format!("gives up {serials}"));
            told.into_iter().collect()
        }
        _ => Vec::new(),
    }
}

/// The serials of the requests for which a test holds, if there are any.
fn serials(story: &Story, test: impl Fn(&Flight) -> bool) -> Option<String> {
    let found = story.flights.iter().filter(|flight| test(flight));
    let serials: Vec<String> = found.map(|flight| flight.serial.to_string()).collect();
    (!serials.is_empty()).then(|| serials.join(", "))
}

/// The guard that a read or write carries.
fn carried(flight: &Flight) -> Option<String> {
    match flight.purpose {
        Purpose::Guard { .. } => None,
        _ if flight.guard == 0 => Some("carries no guard".to_string()),
        _ => Some(format!("carries guard {}", flight.guard)),
    }
}

/// What came of a request that arrived.
fn arrived(flight: &Flight) -> String {
    let (_, outcome) = flight.arrived.expect("it has arrived");
    let serial = flight.serial;
    let told = match (outcome, flight.purpose) {
        (Outcome::GuardSet, Purpose::Guard { range }) => {
            format!("guard {serial} is set over {range}")
        }
        (Outcome::Found { version, value }, _) => format!("finds version {version}, value {value}"),
        (Outcome::Committed { guard: OPEN_GUARD }, _) => "commits: the entry is open".to_string(),
        (Outcome::Committed { guard }, _) => format!("commits under guard {guard}"),
        (Outcome::TurnedBack { guard }, Purpose::Write { entry, .. }) => {
            let carries = carried(flight).expect("a write carries something or nothing");
            format!("turned back: {carries}, entry {entry} {}", has_guard(guard))
        }
        _ => "no guard is set".to_string(),
    };
    match flight.given_up {
        Some(_) => format!("though given up, {told}"),
        None => told,
    }
}

/// What became of an answer in the player's memory.
fn remembered(flight: &Flight, memory: Option<Memory>) -> Option<&'static str> {
    match (flight.sender, memory?) {
        (Sender::Loader, _) => None,
        (_, Memory::Remembered) => Some("remembered"),
        (_, Memory::AsBefore) => Some("in memory already"),
        (_, Memory::NotRemembered) => Some("not remembered"),
    }
}

/// The guard that the store has for an entry.
fn has_guard(guard: u32) -> String {
    match guard {
        OPEN_GUARD => "is open".to_string(),
        BARRED => "is barred".to_string(),
        guard => format!("has guard {guard}"),
    }
}

/// Neighbouring entries as the head of a lane, or in a few characters.
pub fn lane(entries: &Entries) -> String {
    let (first, last) = (entries.start, entries.end - 1);
    match first == last {
        true => first.to_string(),
        false => format!("{first}–{last}"),
    }
}

/// A step by its ordinal, or the session's end.
pub fn step_or_end(step: Option<usize>) -> String {
    step.map_or("end".to_string(), |step| step.to_string())
}

/// A request in one sentence, with the steps that it went through.
pub fn flight(flight: &Flight) -> String {
    let (serial, sender) = (flight.serial, flight.sender);
    let purpose = match flight.purpose {
        Purpose::Guard { range } => format!("a guard over {range}"),
        Purpose::Read { entry } => format!("a read of entry {entry}"),
        Purpose::Write { entry, value } => format!("a write of {value} to entry {entry}"),
    };
    let mut told = format!("request {serial} of {sender}, {purpose}");
    if let Some(carried) = carried(flight) {
        told += &format!(", {carried}");
    }
    told += &format!(": asked at step {}", flight.asked);
    if let Some(at) = flight.given_up {
        told += &format!(", given up at {at}");
    }
    if let Some((at, _)) = flight.arrived {
        told += &format!(", arrived at {at}");
    }
    match flight.end {
        End::Answered(at) => told += &format!(", answered at {at}"),
        End::Dropped(at) => told += &format!(", given up at {at}"),
        End::Lost(at) => told += &format!(", lost at {at}"),
        End::Gone => {}
        End::InFlight => told += ", in flight at the end",
    }
    told
}

/// A list in words: `a`, `a and b`, `a, b and c`.
pub fn list(parts: &[String]) -> String {
    match parts {
        [] => "nobody".to_string(),
        [one] => one.clone(),
        [before @ .., last] => format!("{} and {last}", before.join(", ")),
    }
}
