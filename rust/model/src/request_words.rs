//! A request in its twelve words.

use calls::Range;

use crate::numbers::{Entries, LOADER, OPEN};
use crate::state::{Operation, Request};
use crate::store::{GuardOutcome, Versioned, WriteOutcome};
use crate::table_rules::{bit, require, TableRule};

/// Words of a request.
pub const REQUEST_WORDS: usize = 12;

/// A place of the requests, word for word.
#[derive(Clone, Copy, Debug, Default, PartialEq, Eq)]
#[allow(missing_docs)]
pub struct RequestWords {
    pub serial: u32,
    pub player: u32,
    pub kind: u32,
    pub low: u32,
    pub high: u32,
    pub value: u32,
    pub guard: u32,
    pub overlapped: u32,
    pub delivered: u32,
    pub abandoned: u32,
    pub outcome: [u32; 2],
}

impl RequestWords {
    /// The record of [`REQUEST_WORDS`] words, none for another number of them.
    pub fn from_slice(words: &[u32]) -> Option<RequestWords> {
        let words: [u32; REQUEST_WORDS] = words.try_into().ok()?;
        Some(RequestWords {
            serial: words[0],
            player: words[1],
            kind: words[2],
            low: words[3],
            high: words[4],
            value: words[5],
            guard: words[6],
            overlapped: words[7],
            delivered: words[8],
            abandoned: words[9],
            outcome: [words[10], words[11]],
        })
    }

    /// Its words.
    pub fn words(self) -> [u32; REQUEST_WORDS] {
        [
            self.serial,
            self.player,
            self.kind,
            self.low,
            self.high,
            self.value,
            self.guard,
            self.overlapped,
            self.delivered,
            self.abandoned,
            self.outcome[0],
            self.outcome[1],
        ]
    }
}

/// A word that is a player's number, or the loader's.
fn player_number(word: u32) -> Result<u8, TableRule> {
    match u8::try_from(word) {
        Ok(player) if player <= LOADER => Ok(player),
        _ => Err(TableRule::RequestPlayer),
    }
}

/// The request in a used place: "serial (at least 1), player, kind (3, 4 or 5), entry or range,
/// value, guard carried, marks (overlapped, which kind 3 lacks, arrived, given up), outcome".
pub(crate) fn decode_request(words: RequestWords, last_serial: u32) -> Result<Request, TableRule> {
    require(words.serial <= last_serial, TableRule::RequestSerial)?;
    let player = player_number(words.player)?;
    require(
        words.guard == 0 || words.guard < words.serial,
        TableRule::CarriedGuard,
    )?;
    let overlapped = bit(words.overlapped, TableRule::RequestMark)?;
    let delivered = bit(words.delivered, TableRule::RequestMark)?;
    let abandoned = bit(words.abandoned, TableRule::RequestMark)?;
    require(!(abandoned && delivered), TableRule::AbandonedDelivered)?;
    require(
        delivered || words.outcome == [0, 0],
        TableRule::OutcomeEarly,
    )?;
    let is_load = player == LOADER;
    let operation = match words.kind {
        3 | 4 if is_load => return Err(TableRule::LoadKind),
        3 => {
            let range = decode_range(words)?;
            require(words.value == 0, TableRule::RequestValue)?;
            require(words.guard == 0, TableRule::RequestGuard)?;
            require(!overlapped, TableRule::GuardOverlapped)?;
            let outcome = decode_outcome(
                delivered,
                words,
                GuardOutcome::Set,
                GuardOutcome::LayoutChanged,
            )?;
            Operation::Guard { range, outcome }
        }
        4 => {
            let entry = decode_entry(words)?;
            require(words.value == 0, TableRule::RequestValue)?;
            let [version, value] = words.outcome;
            require(version <= last_serial, TableRule::OutcomeSerial)?;
            Operation::Read {
                entry,
                guard: words.guard,
                overlapped,
                outcome: delivered.then_some(Versioned { version, value }),
            }
        }
        5 => {
            let entry = decode_entry(words)?;
            if is_load {
                require(words.guard == OPEN, TableRule::LoadGuard)?;
                require(!overlapped, TableRule::LoadOverlapped)?;
            } else {
                require(words.guard != 0, TableRule::WriteGuard)?;
            }
            let outcome = decode_outcome(
                delivered,
                words,
                WriteOutcome::Committed,
                WriteOutcome::Rejected,
            )?;
            Operation::Write {
                entry,
                value: words.value,
                guard: words.guard,
                overlapped,
                outcome,
            }
        }
        _ => return Err(TableRule::RequestKind),
    };
    Ok(Request {
        serial: words.serial,
        player,
        abandoned,
        operation,
    })
}

fn decode_range(words: RequestWords) -> Result<Range, TableRule> {
    let low = u8::try_from(words.low).map_err(|_| TableRule::RequestRange)?;
    let high = u16::try_from(words.high).map_err(|_| TableRule::RequestRange)?;
    let range = Range::new(low, high);
    require(range.is_valid(), TableRule::RequestRange)?;
    Ok(range)
}

/// Reading 4: "Reads and writes keep the entry in low and have high 0."
fn decode_entry(words: RequestWords) -> Result<u8, TableRule> {
    require(words.high == 0, TableRule::RequestHigh)?;
    u8::try_from(words.low).map_err(|_| TableRule::RequestEntry)
}

/// "An outcome is 1 or 2 (set or layout changed; committed or turned back)".
fn decode_outcome<T>(
    delivered: bool,
    words: RequestWords,
    one: T,
    two: T,
) -> Result<Option<T>, TableRule> {
    if !delivered {
        return Ok(None);
    }
    let [number, second] = words.outcome;
    require(second == 0, TableRule::OutcomeSecond)?;
    match number {
        1 => Ok(Some(one)),
        2 => Ok(Some(two)),
        _ => Err(TableRule::OutcomeNumber),
    }
}

/// A request's words.
pub(crate) fn encode_request(request: &Request) -> RequestWords {
    let mut words = RequestWords {
        serial: request.serial,
        player: u32::from(request.player),
        delivered: u32::from(request.is_delivered()),
        abandoned: u32::from(request.abandoned),
        ..RequestWords::default()
    };
    match request.operation {
        Operation::Guard { range, outcome } => {
            words.kind = 3;
            words.low = u32::from(range.low);
            words.high = u32::from(range.high);
            words.outcome[0] = outcome.map_or(0, |outcome| outcome as u32);
        }
        Operation::Read {
            entry,
            guard,
            overlapped,
            outcome,
        } => {
            words.kind = 4;
            words.low = u32::from(entry);
            words.guard = guard;
            words.overlapped = u32::from(overlapped);
            words.outcome = outcome.map_or([0, 0], |held| [held.version, held.value]);
        }
        Operation::Write {
            entry,
            value,
            guard,
            overlapped,
            outcome,
        } => {
            words.kind = 5;
            words.low = u32::from(entry);
            words.value = value;
            words.guard = guard;
            words.overlapped = u32::from(overlapped);
            words.outcome[0] = outcome.map_or(0, |outcome| outcome as u32);
        }
    }
    words
}
