//! The rules that a table of words keeps, each with its name.

use crate::reply::Refusal;

/// A rule of "The tables hold", or of the sentences after it. Breaking one is 22.
#[derive(Clone, Copy, Debug, PartialEq, Eq, Hash)]
pub enum TableRule {
    /// "borders: 1 where a tablet begins, else 0"
    BoundaryBit,
    /// "entry 0's is 1"
    FirstBoundary,
    /// "guards as stretches of neighbouring entries, the first at entry 0"
    FirstInterval,
    /// "rising"
    IntervalOrder,
    /// An interval begins at an entry, 0 to 255.
    IntervalEntry,
    /// "neighbours never equal"
    IntervalNeighbours,
    /// "Unused places are zero." Of the interval columns.
    IntervalUnused,
    /// "No serial in a table exceeds the last one issued." Of the store's guards, which may be barred
    /// too (document 02 §2).
    GuardSerial,
    /// "No serial in a table exceeds the last one issued." Of the versions.
    VersionSerial,
    /// "last usable 4,000,000"
    LastSerial,
    /// "its owner (0 to 7, or 8 for nobody)"
    Owner,
    /// "No serial in a table exceeds the last one issued." Of the epochs.
    EpochSerial,
    /// The same of the held guards.
    HeldSerial,
    /// The same of the cached guards.
    CachedGuardSerial,
    /// The same of the cached versions.
    CachedVersionSerial,
    /// "guard 0 meaning empty and then all zeros"
    CachedEmpty,
    /// "Unused places are zero." Of the requests.
    RequestUnused,
    /// "the used places first"
    RequestGap,
    /// "in rising serial"
    RequestOrder,
    /// "No serial in a table exceeds the last one issued." Of the requests' serials.
    RequestSerial,
    /// A request's player is one of "eight players (0 to 7)", or the loader: document 02 §2, "a row ...
    /// whose player is 8".
    RequestPlayer,
    /// "kind (3, 4 or 5)"
    RequestKind,
    /// Reading 4: "A guard request's range has low < high ≤ 256."
    RequestRange,
    /// "entry or range": a read's or write's entry is 0 to 255.
    RequestEntry,
    /// "Fields a kind lacks are zero": high, of a read or write.
    RequestHigh,
    /// The same: the value, of a guard request or read.
    RequestValue,
    /// The same: the guard carried, of a guard request.
    RequestGuard,
    /// "A write's carried guard is not 0"
    WriteGuard,
    /// "every carried guard is below the row's serial"
    CarriedGuard,
    /// Reading 4: "Marks and boundaries other than 0 and 1 are 22."
    RequestMark,
    /// "marks (overlapped, which kind 3 lacks, arrived, given up)"
    GuardOverlapped,
    /// "A given-up row has not arrived."
    AbandonedDelivered,
    /// "Fields a kind lacks are zero, as is the outcome before arrival."
    OutcomeEarly,
    /// "An outcome is 1 or 2"
    OutcomeNumber,
    /// Reading 4: "For kinds 3 and 5 the second outcome number is 0."
    OutcomeSecond,
    /// "No serial in a table exceeds the last one issued." Of a delivered read's version.
    OutcomeSerial,
    /// Document 02 §2: a load is "a row of kind 5".
    LoadKind,
    /// "carrying 0"
    LoadGuard,
    /// "It is never overlapped"
    LoadOverlapped,
    /// Document 02 §5: "Tables breaking these shares are 22."
    RequestShares,
    /// Document 02 §7: "A tally with more reads from memory than answered reads ... is 22."
    CounterHits,
    /// The same: "or a count above that limit".
    CounterLimit,
}

impl TableRule {
    /// Every rule.
    pub const ALL: [TableRule; 42] = [
        TableRule::BoundaryBit,
        TableRule::FirstBoundary,
        TableRule::FirstInterval,
        TableRule::IntervalOrder,
        TableRule::IntervalEntry,
        TableRule::IntervalNeighbours,
        TableRule::IntervalUnused,
        TableRule::GuardSerial,
        TableRule::VersionSerial,
        TableRule::LastSerial,
        TableRule::Owner,
        TableRule::EpochSerial,
        TableRule::HeldSerial,
        TableRule::CachedGuardSerial,
        TableRule::CachedVersionSerial,
        TableRule::CachedEmpty,
        TableRule::RequestUnused,
        TableRule::RequestGap,
        TableRule::RequestOrder,
        TableRule::RequestSerial,
        TableRule::RequestPlayer,
        TableRule::RequestKind,
        TableRule::RequestRange,
        TableRule::RequestEntry,
        TableRule::RequestHigh,
        TableRule::RequestValue,
        TableRule::RequestGuard,
        TableRule::WriteGuard,
        TableRule::CarriedGuard,
        TableRule::RequestMark,
        TableRule::GuardOverlapped,
        TableRule::AbandonedDelivered,
        TableRule::OutcomeEarly,
        TableRule::OutcomeNumber,
        TableRule::OutcomeSecond,
        TableRule::OutcomeSerial,
        TableRule::LoadKind,
        TableRule::LoadGuard,
        TableRule::LoadOverlapped,
        TableRule::RequestShares,
        TableRule::CounterHits,
        TableRule::CounterLimit,
    ];
}

/// Why tables are refused.
#[derive(Clone, Copy, Debug, PartialEq, Eq)]
pub enum TableError {
    /// "21 a table of the wrong length"
    Length,
    /// "22 a table that breaks a rule above"
    Rule(TableRule),
}

impl TableError {
    /// The refusal's number in document 01.
    pub fn refusal(self) -> Refusal {
        match self {
            TableError::Length => Refusal::TableLength,
            TableError::Rule(_) => Refusal::TableRule,
        }
    }
}

impl From<TableRule> for TableError {
    fn from(rule: TableRule) -> TableError {
        TableError::Rule(rule)
    }
}

/// Ok if it holds, else the rule that is broken.
pub(crate) fn require(holds: bool, rule: TableRule) -> Result<(), TableRule> {
    holds.then_some(()).ok_or(rule)
}

/// A word that is 0 or 1.
pub(crate) fn bit(word: u32, rule: TableRule) -> Result<bool, TableRule> {
    match word {
        0 => Ok(false),
        1 => Ok(true),
        _ => Err(rule),
    }
}
