//! The steps on a state that keeps the table rules: those of document 01, and kinds 14 and 15 of
//! document 02.
//!
//! "For a step: 21, 22, 28, 29, 30, 31, 32, 35, 33, 34.", where by document 02 §5 38 "takes 33's place".
//! The first two belong to the tables of words (see `tables`); the others are tested here in this order,
//! and a refused step changes nothing.

use calls::{bit, Fields, Range, Reply, Step, KINDS};

use crate::counters::{self, ReadCounter};
use crate::faults::{Fault, NoFault, Switches};
use crate::numbers::{Entries, BARRED, ENTRIES, LOADER, MAX_SERIAL, NOBODY, OPEN, PLAYERS};
use crate::reply::{code, Refusal};
use crate::shares;
use crate::state::{Cached, Operation, Request, State};
use crate::store::{GuardOutcome, Versioned, WriteOutcome};

/// One step by the right rules.
pub fn step(state: &mut State, step: Step) -> Reply {
    step_with(state, step, &NoFault)
}

/// One step by the rules with these faults.
pub fn step_with(state: &mut State, step: Step, faults: &impl Switches) -> Reply {
    perform(state, step, faults).unwrap_or_else(Reply::from)
}

/// What each kind of step can reply, kind 1 first, but for 21 and 22: "Step 1 to 5 give 1 unless
/// read from memory; 7 gives 3 to 8; the rest 0", and "Who can cause a refusal"; of kinds 14 and 15,
/// document 02 §1 and §2; 38 "takes 33's place", document 02 §5.
pub const REPLIES: [&[u32]; KINDS as usize] = [
    // "1 assign, 2 release: take a serial": 1; 28 player, range; 34. They test no owner.
    &[1, 28, 34],
    &[1, 28, 34],
    // "29 not owner of every entry (steps 3, 5)"; "31 ... (step 3)"; a row is needed: 38; 34.
    &[1, 28, 29, 31, 34, 38],
    // "Any player may read": no 29; from memory 2.
    &[1, 2, 28, 34, 38],
    // "30 no live guard (step 5)".
    &[1, 28, 29, 30, 34, 38],
    // "32 no row that this step fits (6 not arrived; 7 arrived and waiting; 8 waiting; 9 given up)".
    &[0, 32],
    &[3, 4, 5, 6, 7, 8, 32],
    &[0, 32],
    &[0, 32],
    // "28 ... split or merge at entry 0"; "35 split at a border, merge where none is".
    &[0, 28, 35],
    &[0, 28, 35],
    &[0],
    &[0, 28],
    // Document 02 §1: "replies 9 with first and last entry". Every entry has a guard, open, barred or a serial.
    &[9],
    // Document 02 §2: "a load, reply 1: a row"; "needing no ownership", so no 29.
    &[1, 34, 38],
];

fn perform(state: &mut State, step: Step, faults: &impl Switches) -> Result<Reply, Refusal> {
    if step == (Step::RestartPlayer { player: LOADER }) && faults.has(Fault::LoaderRestarts) {
        give_up(state, LOADER, faults);
        return Ok(Reply::DONE);
    }
    test_numbers(step)?;
    match step {
        Step::Assign { player, range } => set_owner(state, player, range, faults),
        Step::Release { range } => set_owner(state, NOBODY, range, faults),
        Step::RequestGuard { player, range } => request_guard(state, player, range, faults),
        Step::Read { player, entry } => read(state, player, entry, faults),
        Step::Write {
            player,
            entry,
            value,
        } => write(state, player, entry, value, faults),
        Step::Deliver { serial } => deliver(state, serial, faults),
        Step::Respond { serial } => respond(state, serial, faults),
        Step::Abandon { serial } => abandon(state, serial, faults),
        Step::Lose { serial } => lose(state, serial),
        Step::Split { entry } => state.store.split(entry, faults).map(|()| Reply::DONE),
        Step::Merge { entry } => state.store.merge(entry).map(|()| Reply::DONE),
        Step::RestartTablet { entry } => {
            state.store.restart(entry, faults);
            if faults.has(Fault::RestartTabletClearsHeld) {
                let tablet = state.store.tablet(entry);
                clear_all(state, tablet, |_| true);
            }
            Ok(Reply::DONE)
        }
        Step::RestartPlayer { player } => Ok(restart_player(state, player, faults)),
        Step::FindInterval { entry } => Ok(find_interval(state, entry, faults)),
        Step::Load { entry, value } => load(state, entry, value, faults),
    }
}

/// "28 player above 7, low not below high, high above 256, or split or merge at entry 0".
fn test_numbers(step: Step) -> Result<(), Refusal> {
    let fields = Fields::from(step);
    let has = |bit: u8| step.map() & bit != 0;
    let good = (!has(bit::PLAYER) || is_player(fields.player))
        && (!has(bit::HIGH) || Range::new(fields.entry, fields.high).is_valid())
        && !matches!(step, Step::Split { entry: 0 } | Step::Merge { entry: 0 });
    good.then_some(()).ok_or(Refusal::Number)
}

fn is_player(player: u8) -> bool {
    usize::from(player) < PLAYERS
}

/// The serial that is issued next; "34 a serial is needed and none is left".
fn next_serial(state: &State, faults: &impl Switches) -> Result<u32, Refusal> {
    let last = match faults.has(Fault::LastSerialUnused) {
        true => MAX_SERIAL - 1,
        false => MAX_SERIAL,
    };
    if state.last_serial >= last {
        return Err(Refusal::SerialsSpent);
    }
    Ok(state.last_serial + 1)
}

/// The serial of the next request of this player, or of the loader. Document 02 §5: 38 "takes 33's place", so
/// it comes before 34.
fn next_request(state: &State, sender: u8, faults: &impl Switches) -> Result<u32, Refusal> {
    if faults.has(Fault::SerialBeforePlace) && sender != LOADER {
        next_serial(state, faults)?;
    }
    if shares::is_turned_away(&state.requests, sender, faults) {
        return Err(match faults.has(Fault::OldNumber) {
            true => Refusal::RequestsFull,
            false => Refusal::NoPlaceLeft,
        });
    }
    next_serial(state, faults)
}

/// Puts a new request last: its serial is the highest, so the serials keep rising.
fn send(state: &mut State, serial: u32, player: u8, operation: Operation) -> Reply {
    state.last_serial = state.last_serial.max(serial);
    state.requests.push(Request {
        serial,
        player,
        abandoned: false,
        operation,
    });
    Reply::new(code::ISSUED, serial, 0)
}

/// "1 assign, 2 release: take a serial, set owner (8 for release) and period over the range."
fn set_owner(
    state: &mut State,
    owner: u8,
    range: Range,
    faults: &impl Switches,
) -> Result<Reply, Refusal> {
    let serial = next_serial(state, faults)?;
    state.last_serial = serial;
    state.owners[range.entries()].fill(owner);
    state.epochs[range.entries()].fill(serial);
    if faults.has(Fault::AssignSetsEveryEpoch) {
        state.epochs.fill(serial);
    }
    Ok(Reply::new(code::ISSUED, serial, 0))
}

fn owns(state: &State, player: u8, range: Range) -> bool {
    state.owners[range.entries()]
        .iter()
        .all(|&owner| owner == player)
}

/// "A player's guard for an entry is *live* when it is not 0, the player owns the entry, and the
/// entry's period is below the guard." The guard if it is live.
fn live_guard(state: &State, player: u8, entry: u8, faults: &impl Switches) -> Option<u32> {
    let at = usize::from(entry);
    let guard = state.held[usize::from(player)][at];
    let current = state.epochs[at] < guard || faults.has(Fault::LateGuardGranted);
    (guard != 0 && state.owners[at] == player && current).then_some(guard)
}

/// "Clearing a guard empties that cell too."
fn clear(state: &mut State, player: u8, entry: usize) {
    state.held[usize::from(player)][entry] = 0;
    state.cached[usize::from(player)][entry] = Cached::EMPTY;
}

/// For faults: clears the guards of these players at these entries.
fn clear_all(state: &mut State, entries: std::ops::Range<usize>, players: impl Fn(u8) -> bool) {
    for player in (0..PLAYERS as u8).filter(|&player| players(player)) {
        for entry in entries.clone() {
            clear(state, player, entry);
        }
    }
}

/// "every entry where the player has that guard is cleared". Reading 12: all 256 entries, owned
/// or not, live or not.
fn clear_guard(state: &mut State, player: u8, guard: u32) {
    for entry in 0..ENTRIES {
        if state.held[usize::from(player)][entry] == guard {
            clear(state, player, entry);
        }
    }
}

/// "3 ask for a guard: the player must own every entry of the range. Its guards there are cleared.
/// The row's serial is the guard number."
fn request_guard(
    state: &mut State,
    player: u8,
    range: Range,
    faults: &impl Switches,
) -> Result<Reply, Refusal> {
    if !owns(state, player, range) {
        return Err(Refusal::NotOwner);
    }
    let shares = |request: &Request| {
        (request.player == player || faults.has(Fault::AnyGuardRequestShares))
            && request.is_pending()
            && matches!(request.operation, Operation::Guard { range: other, .. } if other.shares(range))
    };
    if state.requests.iter().any(shares) && !faults.has(Fault::SharedGuardRequests) {
        return Err(Refusal::GuardRequestPending);
    }
    let mut serial = next_request(state, player, faults)?;
    if faults.has(Fault::GuardRequestResent) {
        serial = abandoned_guard(state, player, range).unwrap_or(serial);
    }
    if !faults.has(Fault::RequestKeepsGuards) {
        for entry in range.entries() {
            clear(state, player, entry);
        }
    }
    let operation = Operation::Guard {
        range,
        outcome: None,
    };
    Ok(send(state, serial, player, operation))
}

/// For [`Fault::GuardRequestResent`]: the number under which this request was sent before.
fn abandoned_guard(state: &State, player: u8, range: Range) -> Option<u32> {
    let resent = |request: &&Request| {
        request.player == player
            && request.abandoned
            && matches!(request.operation, Operation::Guard { range: other, .. } if other == range)
    };
    state.requests.iter().find(resent).map(|r| r.serial)
}

/// "4 read: if the cell is full, its guard equals the player's guard and that is live, the reply
/// comes from memory and nothing is altered. Otherwise a row, carrying the live guard or 0,
/// overlapped if a write by this player on this entry waits. Any player may read." Since document 02 §7 a
/// read from memory is counted, and nothing else is altered.
fn read(
    state: &mut State,
    player: u8,
    entry: u8,
    faults: &impl Switches,
) -> Result<Reply, Refusal> {
    let cached = state.cached[usize::from(player)][usize::from(entry)];
    let held = state.held[usize::from(player)][usize::from(entry)];
    let live = live_guard(state, player, entry, faults);
    let is_replaced = state.store.guards[usize::from(entry)] != held;
    let usable = (live.is_some() || faults.has(Fault::CacheHitIgnoresLiveness))
        && !(is_replaced && faults.has(Fault::MemoryReadAsksStore));
    if cached.guard != 0 && cached.guard == held && usable {
        if faults.has(Fault::MemoryReadNeedsPlace)
            && shares::is_turned_away(&state.requests, player, faults)
        {
            return Err(Refusal::NoPlaceLeft);
        }
        counters::from_memory(state, player, faults);
        return Ok(Reply::new(code::FROM_MEMORY, cached.version, cached.value));
    }
    let serial = next_request(state, player, faults)
        .inspect_err(|_| counters::mistaken(state, player, Fault::RefusedReadCounted, faults))?;
    counters::mistaken(state, player, Fault::SentReadCounted, faults);
    let crosses = |r: &Request| !r.is_load() && r.is_pending() && r.writes(entry);
    let beside = write_pending(state, player, entry, faults)
        || faults.has(Fault::AnyWriteOverlapsReads) && state.requests.iter().any(crosses);
    let operation = Operation::Read {
        entry,
        guard: live.unwrap_or(0),
        overlapped: beside && !faults.has(Fault::ReadBesideWriteCached),
        outcome: None,
    };
    Ok(send(state, serial, player, operation))
}

/// "5 write: needs ownership and a live guard, which it carries. Empties the cell; marks this
/// player's waiting reads and writes on the entry overlapped; is itself overlapped if one of them
/// was a write."
fn write(
    state: &mut State,
    player: u8,
    entry: u8,
    value: u32,
    faults: &impl Switches,
) -> Result<Reply, Refusal> {
    if state.owners[usize::from(entry)] != player {
        return Err(Refusal::NotOwner);
    }
    let guard = match live_guard(state, player, entry, faults) {
        Some(guard) => guard,
        None if faults.has(Fault::UnguardedWrite) => 0,
        None => return Err(Refusal::NoLiveGuard),
    };
    let serial = next_request(state, player, faults)?;
    if !faults.has(Fault::WriteKeepsCachedValue) {
        state.cached[usize::from(player)][usize::from(entry)] = Cached::EMPTY;
    }
    let crosses = write_pending(state, player, entry, faults);
    let its = |r: &Request| r.player == player || r.is_load() && faults.has(Fault::WriteMarksLoads);
    mark_overlapped(state, its, entry, faults);
    let operation = Operation::Write {
        entry,
        value,
        guard,
        overlapped: crosses && !faults.has(Fault::CrossingWriteCached),
        outcome: None,
    };
    Ok(send(state, serial, player, operation))
}

/// Whether "a write by this player on this entry waits". A load is by no player.
fn write_pending(state: &State, player: u8, entry: u8, faults: &impl Switches) -> bool {
    let its =
        |r: &Request| r.player == player || r.is_load() && faults.has(Fault::LoadOverlapsRequests);
    state
        .requests
        .iter()
        .any(|r| its(r) && r.is_pending() && r.writes(entry))
}

/// Marks waiting "reads and writes on the entry overlapped", of "this player".
fn mark_overlapped(
    state: &mut State,
    its: impl Fn(&Request) -> bool,
    on: u8,
    faults: &impl Switches,
) {
    let pending = |r: &&mut Request| its(r) && r.is_pending();
    for request in state.requests.iter_mut().filter(pending) {
        match &mut request.operation {
            Operation::Read {
                entry, overlapped, ..
            } if *entry == on => {
                *overlapped |= !faults.has(Fault::CrossedReadCached);
            }
            Operation::Write {
                entry, overlapped, ..
            } if *entry == on => {
                *overlapped |= !faults.has(Fault::CrossedWriteCached);
            }
            _ => {}
        }
    }
}

/// The place of the request that a step fits, else "32 no row that this step fits". Serials are
/// unique; only [`Fault::GuardRequestResent`] makes two alike, and then the later one is taken.
fn find(state: &State, serial: u32, fits: impl Fn(&Request) -> bool) -> Result<usize, Refusal> {
    state
        .requests
        .iter()
        .rposition(|request| request.serial == serial && fits(request))
        .ok_or(Refusal::NoRequest)
}

/// "6 arrive at the store." A row "6 not arrived" is needed. "A given-up row then leaves."
fn deliver(state: &mut State, serial: u32, faults: &impl Switches) -> Result<Reply, Refusal> {
    let fits = |r: &Request| !r.is_delivered() || faults.has(Fault::DeliveredTwice);
    let place = find(state, serial, fits)?;
    let mut request = state.requests[place];
    match &mut request.operation {
        Operation::Guard { range, outcome } => {
            *outcome = Some(state.store.set_guard(*range, serial, faults));
            if faults.has(Fault::SetGuardClearsOthers) && *outcome == Some(GuardOutcome::Set) {
                clear_all(state, range.entries(), |player| player != request.player);
            }
        }
        Operation::Read { entry, outcome, .. } => {
            let mut held = state.store.read(*entry);
            if faults.has(Fault::ReadMissesWrite) && find(state, held.version, |_| true).is_ok() {
                held = Versioned {
                    version: 0,
                    value: 0,
                };
            }
            *outcome = Some(held);
        }
        Operation::Write {
            entry,
            value,
            guard,
            outcome,
            ..
        } => {
            *outcome = Some(state.store.write(*entry, serial, *value, *guard, faults));
        }
    }
    if !request.abandoned {
        state.requests[place] = request;
    } else if !faults.has(Fault::AbandonedDeliveredTwice) {
        state.requests.remove(place);
    }
    Ok(Reply::DONE)
}

/// "7 answer reaches the player; the row leaves." A row "7 arrived and waiting" is needed. Since document 02 §7
/// the answer to a read is counted.
fn respond(state: &mut State, serial: u32, faults: &impl Switches) -> Result<Reply, Refusal> {
    let place = find(state, serial, |r| r.is_delivered() && r.is_pending())?;
    let Request {
        player, operation, ..
    } = state.requests.remove(place);
    match operation {
        Operation::Guard {
            range,
            outcome: Some(outcome),
        } => Ok(respond_guard(state, player, serial, range, outcome, faults)),
        Operation::Read {
            entry,
            guard,
            overlapped,
            outcome: Some(Versioned { version, value }),
        } => {
            let answer = Cached {
                guard,
                version,
                value,
            };
            cache(state, player, entry, overlapped, answer, faults);
            counters::from_store(state, player, entry, faults);
            Ok(Reply::new(code::FROM_STORE, version, value))
        }
        Operation::Write {
            entry,
            value,
            guard,
            overlapped,
            outcome: Some(outcome),
        } => {
            let answer = Cached {
                guard,
                version: serial,
                value,
            };
            match outcome {
                // Document 02 §2, of a load: "Its answer is 4 or 5 and no guard or cell follows from
                // it."
                _ if player == LOADER => mistaken_load(state, entry, answer, outcome, faults),
                WriteOutcome::Committed => {
                    cache(state, player, entry, overlapped, answer, faults);
                    counters::mistaken(state, player, Fault::WriteAnswerCounted, faults);
                }
                WriteOutcome::Rejected if faults.has(Fault::RejectedKeepsGuards) => {}
                WriteOutcome::Rejected => clear_guard(state, player, guard),
            }
            match outcome {
                WriteOutcome::Rejected if !faults.has(Fault::RejectedAnsweredCommitted) => {
                    Ok(Reply::new(code::REJECTED, serial, 0))
                }
                _ => Ok(Reply::new(code::COMMITTED, serial, value)),
            }
        }
        Operation::Guard { outcome: None, .. }
        | Operation::Read { outcome: None, .. }
        | Operation::Write { outcome: None, .. } => Err(Refusal::NoRequest),
    }
}

/// "Guard: if the player owns every entry with period below the serial, success sets its guards
/// there, layout changed is said so; if not, 'not held', whatever the outcome."
fn respond_guard(
    state: &mut State,
    player: u8,
    serial: u32,
    range: Range,
    outcome: GuardOutcome,
    faults: &impl Switches,
) -> Reply {
    let current = state.epochs[range.entries()]
        .iter()
        .all(|&epoch| epoch < serial)
        || faults.has(Fault::LateGuardGranted)
        || faults.has(Fault::GrantIgnoresEpochs);
    let is_set = |entry: usize| state.store.guards[entry] == serial;
    let replaced = faults.has(Fault::GrantAsksStore)
        && outcome == GuardOutcome::Set
        && !range.entries().all(is_set);
    if !(owns(state, player, range) && current) || replaced {
        return Reply::new(code::NOT_HELD, serial, 0);
    }
    if outcome == GuardOutcome::LayoutChanged && !faults.has(Fault::GrantAfterLayoutChanged) {
        return Reply::new(code::LAYOUT_CHANGED, serial, 0);
    }
    let mut entries = range.entries();
    entries.end -= usize::from(faults.has(Fault::GrantMissesLastEntry));
    state.held[usize::from(player)][entries].fill(serial);
    Reply::new(code::GRANTED, serial, 0)
}

/// "Read, and write that committed: remembered if the carried guard is not 0, is the player's
/// present guard, is live, and the row is not overlapped." Reading 9: an answer that is not cached
/// leaves the cached value as it is.
fn cache(
    state: &mut State,
    player: u8,
    entry: u8,
    overlapped: bool,
    answer: Cached,
    faults: &impl Switches,
) {
    let live = live_guard(state, player, entry, faults);
    let present = answer.guard != 0 && live == Some(answer.guard);
    if present && !overlapped && !faults.has(Fault::NeverCaches) {
        state.cached[usize::from(player)][usize::from(entry)] = answer;
    }
}

/// What faults make follow, for the entry's owner, from the answer to a load.
fn mistaken_load(
    state: &mut State,
    entry: u8,
    answer: Cached,
    outcome: WriteOutcome,
    faults: &impl Switches,
) {
    let at = usize::from(entry);
    let owner = state.owners[at];
    if owner == NOBODY {
        return;
    }
    let guard = state.held[usize::from(owner)][at];
    match outcome {
        WriteOutcome::Committed if faults.has(Fault::LoadCached) && guard != 0 => {
            state.cached[usize::from(owner)][at] = Cached { guard, ..answer };
        }
        WriteOutcome::Rejected if faults.has(Fault::RejectedLoadClears) => clear(state, owner, at),
        _ => {}
    }
}

/// "8 give up: an arrived row leaves, another is marked. For a write the clearing is the same." A
/// row "8 waiting" is needed. Document 02 §2: from a load "no guard or cell follows", so giving it up
/// clears nothing.
fn abandon(state: &mut State, serial: u32, faults: &impl Switches) -> Result<Reply, Refusal> {
    let place = find(state, serial, Request::is_pending)?;
    let request = state.requests[place];
    if request.is_delivered() {
        state.requests.remove(place);
    } else {
        state.requests[place].abandoned = true;
    }
    match request.operation {
        Operation::Write { entry, .. } if request.is_load() => {
            let owner = state.owners[usize::from(entry)];
            if owner != NOBODY && faults.has(Fault::AbandonedLoadClears) {
                clear(state, owner, usize::from(entry));
            }
        }
        Operation::Write { guard, .. } if !faults.has(Fault::AbandonKeepsGuards) => {
            clear_guard(state, request.player, guard);
        }
        Operation::Read { outcome, .. } if outcome.is_some() => {
            counters::mistaken(state, request.player, Fault::AbandonedReadCounted, faults);
        }
        _ => {}
    }
    Ok(Reply::DONE)
}

/// "9 lose: a given-up row leaves." A row "9 given up" is needed.
fn lose(state: &mut State, serial: u32) -> Result<Reply, Refusal> {
    let place = find(state, serial, |r| r.abandoned)?;
    state.requests.remove(place);
    Ok(Reply::DONE)
}

/// "13 player restart: its guards and cells are cleared, its waiting rows given up as in step 8."
fn restart_player(state: &mut State, player: u8, faults: &impl Switches) -> Reply {
    if !faults.has(Fault::RestartPlayerKeepsGuards) {
        for entry in 0..ENTRIES {
            clear(state, player, entry);
        }
    }
    if faults.has(Fault::RestartZeroesCounters) {
        state.counters[usize::from(player)] = ReadCounter::ZERO;
    }
    give_up(state, player, faults);
    Reply::DONE
}

/// "its waiting rows given up as in step 8": those of this player, and no load.
fn give_up(state: &mut State, player: u8, faults: &impl Switches) {
    let kept = |r: &Request| {
        matches!(r.operation, Operation::Write { .. })
            && faults.has(Fault::RestartPlayerKeepsWrites)
    };
    let its = |r: &Request| {
        r.player == player
            || r.is_load() && faults.has(Fault::RestartPlayerAbandonsLoads)
            || !r.is_load() && faults.has(Fault::RestartPlayerAbandonsAll)
    };
    let given_up = |r: &Request| its(r) && r.is_pending() && !kept(r);
    state
        .requests
        .retain(|r| !(given_up(r) && r.is_delivered()));
    for request in &mut state.requests {
        request.abandoned |= given_up(request);
    }
}

/// Document 02 §1: "A step of kind 14, map 05, replies 9 with first and last entry and alters
/// nothing."
fn find_interval(state: &mut State, entry: u8, faults: &impl Switches) -> Reply {
    let found = state.store.find_interval(entry, faults);
    if faults.has(Fault::IntervalTakesSerial) {
        state.last_serial = next_serial(state, faults).unwrap_or(MAX_SERIAL);
    }
    Reply::new(code::INTERVAL, found.first as u32, found.last as u32)
}

/// Document 02 §2: "Kind 15 (entry and value, map 15 hexadecimal) is a load, reply 1: a row of kind 5
/// whose player is 8, carrying 0, needing no ownership. It is never overlapped and marks no row." So
/// it is refused for want of a place or a serial alone: 38, then 34.
fn load(
    state: &mut State,
    entry: u8,
    value: u32,
    faults: &impl Switches,
) -> Result<Reply, Refusal> {
    mistaken_test(state, entry, faults)?;
    let serial = next_request(state, LOADER, faults)?;
    let mut operation = Operation::Write {
        entry,
        value,
        guard: OPEN,
        overlapped: false,
        outcome: None,
    };
    mistaken_sending(state, &mut operation, faults);
    Ok(send(state, serial, LOADER, operation))
}

/// What faults test before a load is sent.
fn mistaken_test(state: &State, entry: u8, faults: &impl Switches) -> Result<(), Refusal> {
    let at = usize::from(entry);
    // The loader's number taken for an owner's: it owns what nobody does.
    if faults.has(Fault::LoadNeedsOwnership) && state.owners[at] != LOADER {
        return Err(Refusal::NotOwner);
    }
    if faults.has(Fault::LoadNeedsOpenGuard) && state.store.guards[at] != OPEN {
        return Err(Refusal::NoLiveGuard);
    }
    if faults.has(Fault::LoadSerialFirst) {
        next_serial(state, faults)?;
    }
    Ok(())
}

/// What faults make of a load that is sent, and of what stands beside it.
fn mistaken_sending(state: &mut State, load: &mut Operation, faults: &impl Switches) {
    let Operation::Write {
        entry,
        guard,
        overlapped,
        ..
    } = load
    else {
        return;
    };
    let at = usize::from(*entry);
    if faults.has(Fault::LoadCarriesGuard) && state.store.guards[at] != BARRED {
        *guard = state.store.guards[at];
    }
    if faults.has(Fault::LoadOverlapped) {
        let crossed = |r: &Request| r.is_pending() && r.writes(*entry);
        *overlapped = state.requests.iter().any(crossed);
    }
    if faults.has(Fault::LoadMarksRequests) {
        mark_overlapped(state, |r| !r.is_load(), *entry, faults);
    }
    if faults.has(Fault::LoadEmptiesCells) {
        for cached in &mut state.cached {
            cached[at] = Cached::EMPTY;
        }
    }
}
