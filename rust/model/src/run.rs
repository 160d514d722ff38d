//! A run over a session.

use calls::{Reply, Report, Step};

use crate::codec::{decode, MARK, MAX_SESSION};
use crate::counters::ReadCounter;
use crate::faults::{Fault, NoFault, Switches};
use crate::numbers::PLAYERS;
use crate::reply::Refusal;
use crate::rules;
use crate::state::State;
use crate::tables;

/// "Why: 0 at the end"
pub const AT_END: u32 = 0;
/// "9 when the budget or the list's whole places are spent"
pub const SPENT: u32 = 9;

/// "a list for replies, three 32-bit numbers each"
pub const REPLY_WORDS: usize = 3;

/// One step on the tables of words: 21 and 22, then the rules of `rules` with these faults.
pub fn step_tables(
    store: &mut [u32],
    players: &mut [u32],
    step: Step,
    faults: &impl Switches,
) -> Reply {
    let mut state = match tables::decode_with(store, players, faults) {
        Ok(state) => state,
        Err(error) => return Reply::from(error.refusal()),
    };
    let reply = rules::step_with(&mut state, step, faults);
    tables::encode(&state, store, players);
    reply
}

/// "A run takes tables, session, a budget and a list for replies". "It reports why it stopped, the
/// number of records taken, and the byte place just after them": place 4 if none was taken, 0 for a
/// refused run. "For a run: 21, 22, 37, 23." A refused run changes neither the tables nor the list.
pub fn run(
    store: &mut [u32],
    players: &mut [u32],
    session: &[u8],
    budget: u32,
    list: &mut [u32],
) -> Report {
    run_with(store, players, session, budget, list, &NoFault)
}

/// The same with a fault.
pub fn run_with(
    store: &mut [u32],
    players: &mut [u32],
    session: &[u8],
    budget: u32,
    list: &mut [u32],
    faults: &impl Switches,
) -> Report {
    let begin = tables::decode_with(store, players, faults)
        .map_err(|error| error.refusal())
        .and_then(|state| test_session(session).map(|()| state));
    match begin {
        Ok(mut state) => {
            let counters = state.counters;
            if faults.has(Fault::RunBeginsAtZero) {
                state.counters = [ReadCounter::ZERO; PLAYERS];
            }
            let report = take_records(&mut state, session, budget, list, faults);
            if faults.has(Fault::RunLeavesCounters) {
                state.counters = counters;
            }
            tables::encode(&state, store, players);
            report
        }
        Err(refusal) => Report::refused(refusal.number()),
    }
}

/// "37 longer than 16,384 bytes; 23 mark wrong or missing"
fn test_session(session: &[u8]) -> Result<(), Refusal> {
    if session.len() > MAX_SESSION {
        return Err(Refusal::SessionLong);
    }
    if !session.starts_with(&MARK) {
        return Err(Refusal::SessionMark);
    }
    Ok(())
}

/// Takes the records of a session that [`test_session`] lets by. "That last refuses no run: earlier steps
/// keep their effect. A refused step is taken and replied to; the run goes on."
fn take_records(
    state: &mut State,
    session: &[u8],
    budget: u32,
    list: &mut [u32],
    faults: &impl Switches,
) -> Report {
    let mut replies = list.chunks_exact_mut(REPLY_WORDS);
    let mut rest = session.get(MARK.len()..).unwrap_or(&[]);
    let mut records = 0;
    let mut place = MARK.len() as u32;
    let why = loop {
        if rest.is_empty() {
            break AT_END;
        }
        if records == budget {
            break SPENT;
        }
        let Some(words) = replies.next() else {
            break SPENT;
        };
        let (step, length) = match decode(rest) {
            Ok(record) => record,
            Err(refusal) => break refusal.number(),
        };
        let Reply { code, a, b } = rules::step_with(state, step, faults);
        words.copy_from_slice(&[code, a, b]);
        rest = rest.get(length..).unwrap_or(&[]);
        records += 1;
        place += length as u32;
    };
    Report {
        why,
        records,
        place,
    }
}
