//! The state that the two tables hold, in the types a Rust program would choose.

use calls::Range;

use crate::counters::ReadCounter;
use crate::numbers::{ENTRIES, LOADER, NOBODY, PLAYERS};
use crate::store::{GuardOutcome, Store, Versioned, WriteOutcome};

/// "a remembered cell (guard, stamp, value), guard 0 meaning empty and then all zeros"
#[derive(Clone, Copy, Debug, PartialEq, Eq)]
pub struct Cached {
    /// The guard under which the value was cached, 0 if there is none.
    pub guard: u32,
    /// The cached value's version.
    pub version: u32,
    /// The cached value.
    pub value: u32,
}

impl Cached {
    /// "guard 0 meaning empty and then all zeros"
    pub const EMPTY: Cached = Cached {
        guard: 0,
        version: 0,
        value: 0,
    };
}

/// What a request asks of the store, with the outcome once it is delivered.
///
/// "An outcome is 1 or 2 (set or layout changed; committed or turned back), a read's is stamp and
/// value."
#[derive(Clone, Copy, Debug, PartialEq, Eq)]
#[allow(missing_docs)]
pub enum Operation {
    /// Kind 3. "The row's serial is the guard number."
    Guard {
        range: Range,
        outcome: Option<GuardOutcome>,
    },
    /// Kind 4. The guard carried may be 0.
    Read {
        entry: u8,
        guard: u32,
        overlapped: bool,
        outcome: Option<Versioned>,
    },
    /// Kind 5. "A write's carried guard is not 0"; a load's is (document 02 §2), and a load is not
    /// overlapped.
    Write {
        entry: u8,
        value: u32,
        guard: u32,
        overlapped: bool,
        outcome: Option<WriteOutcome>,
    },
}

/// A request in flight (document 01's row).
#[derive(Clone, Copy, Debug, PartialEq, Eq)]
pub struct Request {
    /// "serial (at least 1)"
    pub serial: u32,
    /// The player that sent it, or [`LOADER`].
    pub player: u8,
    /// Whether it is given up. "A given-up row has not arrived."
    pub abandoned: bool,
    /// What it asks.
    pub operation: Operation,
}

impl Request {
    /// Whether it has arrived at the store.
    pub fn is_delivered(&self) -> bool {
        match self.operation {
            Operation::Guard { outcome, .. } => outcome.is_some(),
            Operation::Read { outcome, .. } => outcome.is_some(),
            Operation::Write { outcome, .. } => outcome.is_some(),
        }
    }

    /// "*Waiting* means in flight and not given up." Reading 10: delivered ones too.
    pub fn is_pending(&self) -> bool {
        !self.abandoned
    }

    /// Document 02 §2: "a load ...: a row of kind 5 whose player is 8".
    pub fn is_load(&self) -> bool {
        self.player == LOADER
    }

    /// Whether it is a write on this entry, a load too.
    pub fn writes(&self, on: u8) -> bool {
        matches!(self.operation, Operation::Write { entry, .. } if entry == on)
    }
}

/// What both tables hold.
#[derive(Clone, Debug, PartialEq, Eq)]
pub struct State {
    /// The store's side.
    pub store: Store,
    /// The last serial issued.
    pub last_serial: u32,
    /// For each entry its owner, or [`NOBODY`].
    pub owners: [u8; ENTRIES],
    /// For each entry its epoch, "the serial of the last assignment or release over it".
    pub epochs: [u32; ENTRIES],
    /// For each player and entry the held guard, 0 for none.
    pub held: [[u32; ENTRIES]; PLAYERS],
    /// For each player and entry the cached value.
    pub cached: [[Cached; ENTRIES]; PLAYERS],
    /// The requests in flight, in rising serial, at most [`MAX_REQUESTS`](crate::numbers::MAX_REQUESTS).
    pub requests: Vec<Request>,
    /// For each player its read counter (document 02 §7).
    pub counters: [ReadCounter; PLAYERS],
}

impl State {
    /// "Fresh tables have owner 8, one tablet, guard 0 everywhere, and zeros elsewhere."
    pub fn fresh() -> State {
        State {
            store: Store::fresh(),
            last_serial: 0,
            owners: [NOBODY; ENTRIES],
            epochs: [0; ENTRIES],
            held: [[0; ENTRIES]; PLAYERS],
            cached: [[Cached::EMPTY; ENTRIES]; PLAYERS],
            requests: Vec::new(),
            counters: [ReadCounter::ZERO; PLAYERS],
        }
    }
}
