//! Replies and refusals.

use calls::Reply;

/// The codes of the section "Replies", and of document 02.
pub mod code {
    /// "0: done, zeros."
    pub const DONE: u32 = 0;
    /// "1: serial issued, 0."
    pub const ISSUED: u32 = 1;
    /// "2: read from memory, stamp, value."
    pub const FROM_MEMORY: u32 = 2;
    /// "3: read from the store, stamp, value."
    pub const FROM_STORE: u32 = 3;
    /// "4: committed, serial, value."
    pub const COMMITTED: u32 = 4;
    /// "5: turned back, serial, 0."
    pub const REJECTED: u32 = 5;
    /// "6: guard granted", with serial, 0.
    pub const GRANTED: u32 = 6;
    /// "7: not held", with serial, 0.
    pub const NOT_HELD: u32 = 7;
    /// "8: layout changed", with serial, 0.
    pub const LAYOUT_CHANGED: u32 = 8;
    /// Document 02 §1: "9 with first and last entry".
    pub const INTERVAL: u32 = 9;
}

/// "Who can cause a refusal": the listed numbers.
#[derive(Clone, Copy, Debug, PartialEq, Eq, Hash, PartialOrd, Ord)]
pub enum Refusal {
    /// "21 a table of the wrong length"
    TableLength = 21,
    /// "22 a table that breaks a rule above"
    TableRule = 22,
    /// "23 mark wrong or missing"
    SessionMark = 23,
    /// "24 record cut short, or no byte"
    RecordCut = 24,
    /// "25 bit 6 or 7 set"
    RecordBits = 25,
    /// Document 02 §1: "From here on 26 means a kind not in force."
    RecordKind = 26,
    /// "27 kind missing, or other fields than the kind's"
    RecordFields = 27,
    /// "28 player above 7, low not below high, high above 256, or split or merge at entry 0";
    /// for the store used alone also "a request's or write's serial of 0 or above" 4,000,000
    Number = 28,
    /// "29 not owner of every entry (steps 3, 5)"
    NotOwner = 29,
    /// "30 no live guard (step 5)"
    NoLiveGuard = 30,
    /// "31 a waiting guard request of this player shares an entry (step 3)"
    GuardRequestPending = 31,
    /// "32 no row that this step fits"
    NoRequest = 32,
    /// "33 a row is needed and all 64 are taken". Document 02 §5: 38 "takes 33's place", so no call gives
    /// it any more, but for one fault.
    RequestsFull = 33,
    /// "34 a serial is needed and none is left"
    SerialsSpent = 34,
    /// "35 split at a border, merge where none is"
    Boundary = 35,
    /// "36 a buffer shorter than the record to be written"
    BufferShort = 36,
    /// "37 longer than 16,384 bytes"
    SessionLong = 37,
    /// Document 02 §5: "38 when the player has 6 rows or more, or is the loader, and the 16 common rows
    /// are in use"
    NoPlaceLeft = 38,
    /// Document 02 §7: "39 when the player has no answered read"
    NoAnsweredRead = 39,
}

impl Refusal {
    /// The refusal's number.
    pub const fn number(self) -> u32 {
        self as u32
    }
}

/// "A refusal gives its number and two zeros."
impl From<Refusal> for Reply {
    fn from(refusal: Refusal) -> Reply {
        Reply::refused(refusal.number())
    }
}
