//! What a row should say of a reply: the listing's three numbers, the library's words for them, and what the model's states show besides.

use calls::{Reply, Step};
use model::numbers::{BARRED, LOADER, OPEN};
use model::rules;
use model::state::{Operation, Request, State};

/// The text of a row's reply.
pub fn said(step: Step, reply: Reply, before: &State, after: &State) -> String {
    let Reply { code, a, b } = reply;
    let told = famdrize::Reply::from_numbers([code, a, b]).expect("a reply");
    let words = match told {
        famdrize::Reply::Refused(refusal) if refusal.words().len() > 40 => "refused".to_string(),
        famdrize::Reply::Refused(refusal) => format!("refused: {}", refusal.words()),
        told => told.to_string(),
    };
    let mut parts = vec![words];
    if !reply.is_refusal() {
        parts.extend(notes(step, reply, before, after));
    }
    if code == 0 && parts.len() > 1 {
        parts.remove(0);
    }
    format!("{code} {a} {b} · {}", parts.join("; "))
}

fn notes(step: Step, reply: Reply, before: &State, after: &State) -> Vec<String> {
    match step {
        Step::Read { .. } | Step::Write { .. } | Step::Load { .. } | Step::RequestGuard { .. }
            if reply.code == 1 =>
        {
            let sent = request(after, reply.a);
            let crossed = serials(after, |now| {
                let known = before
                    .requests
                    .iter()
                    .find(|known| known.serial == now.serial);
                is_overlapped(now) && !known.is_some_and(is_overlapped)
            });
            let crossed = (!crossed.is_empty()).then(|| format!("overlapped: {crossed}"));
            carried(sent).into_iter().chain(crossed).collect()
        }
        Step::Deliver { serial } => vec![arrived(request(before, serial), after)],
        Step::Respond { serial } => {
            let memory = memory(request(before, serial), reply, before, after);
            memory.into_iter().map(str::to_string).collect()
        }
        Step::Abandon { serial } => vec![match request(before, serial).is_delivered() {
            true => "its answer will not be taken".to_string(),
            false => "it may still arrive".to_string(),
        }],
        Step::RestartPlayer { player } => {
            let given_up = serials(before, |known| known.player == player && known.is_pending());
            let told = (!given_up.is_empty()).then(|| format!("gives up {given_up}"));
            told.into_iter().collect()
        }
        _ => Vec::new(),
    }
}

/// The request in flight of this serial.
pub fn request(state: &State, serial: u32) -> &Request {
    let mut requests = state.requests.iter();
    requests
        .find(|request| request.serial == serial)
        .expect("a request in flight")
}

/// The serials of the requests for which a test holds.
fn serials(state: &State, test: impl Fn(&Request) -> bool) -> String {
    let found = state.requests.iter().filter(|request| test(request));
    let serials: Vec<String> = found.map(|request| request.serial.to_string()).collect();
    serials.join(", ")
}

fn is_overlapped(request: &Request) -> bool {
    match request.operation {
        Operation::Guard { .. } => false,
        Operation::Read { overlapped, .. } | Operation::Write { overlapped, .. } => overlapped,
    }
}

fn carried(request: &Request) -> Option<String> {
    match request.operation {
        Operation::Guard { .. } => None,
        Operation::Read { guard: 0, .. } | Operation::Write { guard: 0, .. } => {
            Some("carries no guard".to_string())
        }
        Operation::Read { guard, .. } | Operation::Write { guard, .. } => {
            Some(format!("carries guard {guard}"))
        }
    }
}

fn arrived(request: &Request, after: &State) -> String {
    let serial = request.serial;
    let store = &after.store;
    let told = match request.operation {
        Operation::Guard { range, .. } if store.guards[usize::from(range.low)] == serial => {
            let (first, last) = (u16::from(range.low), range.high - 1);
            match first == last {
                true => format!("guard {serial} is set over entry {first}"),
                false => format!("guard {serial} is set over entries {first} to {last}"),
            }
        }
        Operation::Guard { .. } => "no guard is set".to_string(),
        Operation::Read { entry, .. } => {
            let entry = usize::from(entry);
            format!(
                "finds version {}, value {}",
                store.versions[entry], store.values[entry]
            )
        }
        Operation::Write { entry, guard, .. } if store.versions[usize::from(entry)] == serial => {
            match guard {
                0 => "commits: the entry is open".to_string(),
                guard => format!("commits under guard {guard}"),
            }
        }
        Operation::Write { entry, .. } => {
            let has = match store.guards[usize::from(entry)] {
                OPEN => "is open".to_string(),
                BARRED => "is barred".to_string(),
                guard => format!("has guard {guard}"),
            };
            let carries = carried(request).expect("a write");
            format!("turned back: {carries}, entry {entry} {has}")
        }
    };
    match request.abandoned {
        true => format!("though given up, {told}"),
        false => told,
    }
}

/// What became of an answer in the memory of its player: by reads that are tried before and after it.
pub fn memory(
    request: &Request,
    reply: Reply,
    before: &State,
    after: &State,
) -> Option<&'static str> {
    let player = request.player;
    let entry = match request.operation {
        Operation::Read { entry, .. } | Operation::Write { entry, .. } => entry,
        Operation::Guard { .. } => return None,
    };
    if player == LOADER || reply.code == 5 {
        return None;
    }
    let told = Reply::new(2, reply.a, reply.b);
    let tried =
        |state: &State| rules::step(&mut state.clone(), Step::Read { player, entry }) == told;
    Some(match (tried(before), tried(after)) {
        (false, true) => "remembered",
        (true, true) => "in memory already",
        (_, false) => "not remembered",
    })
}
