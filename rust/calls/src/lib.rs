//! The calls that the library exports, as a trait over plain slices.
//!
//! What implements it can be compared with the model (`compare`) and measured (`bench`): the proved
//! library behind its `extern "C"` calls, and the port of its code to Rust. Numbers are those of
//! documents 01 and 02; `docs/FORMATS.md` gives the tables to the word.

#![forbid(unsafe_code)]
#![warn(missing_docs)]

mod step;

pub use step::{bit, has, Fields, Range, Step, KINDS, MAPS, UNKNOWN_KIND, WRONG_FIELDS};

/// A code and two numbers.
#[derive(Clone, Copy, Debug, Default, PartialEq, Eq, Hash)]
#[allow(missing_docs)]
pub struct Reply {
    pub code: u32,
    pub a: u32,
    pub b: u32,
}

impl Reply {
    /// "0: done, zeros."
    pub const DONE: Reply = Reply::new(0, 0, 0);

    /// The reply with this code and these two numbers.
    pub const fn new(code: u32, a: u32, b: u32) -> Reply {
        Reply { code, a, b }
    }

    /// A refusal: its number and two zeros.
    pub const fn refused(number: u32) -> Reply {
        Reply::new(number, 0, 0)
    }

    /// Whether the code is that of a refusal: the least is "21 a table of the wrong length".
    pub const fn is_refusal(self) -> bool {
        self.code >= 21
    }
}

/// What a run reports: why it stopped, the number of records taken, and the byte place just after
/// them.
#[derive(Clone, Copy, Debug, Default, PartialEq, Eq)]
#[allow(missing_docs)]
pub struct Report {
    pub why: u32,
    pub records: u32,
    pub place: u32,
}

impl Report {
    /// The report of a refused run: its number and two zeros.
    pub const fn refused(number: u32) -> Report {
        Report {
            why: number,
            records: 0,
            place: 0,
        }
    }
}

/// What stands at the start of some bytes: code 0 with the record's length and fields, or a
/// refusal's number with zeros.
#[derive(Clone, Copy, Debug, Default, PartialEq, Eq)]
#[allow(missing_docs)]
pub struct Decoded {
    pub code: u32,
    pub length: u32,
    pub kind: u32,
    pub player: u32,
    pub entry: u32,
    pub high: u32,
    pub value: u32,
    pub serial: u32,
}

impl Decoded {
    /// A refusal: its number, and zeros.
    pub fn refused(code: u32) -> Decoded {
        Decoded {
            code,
            ..Decoded::default()
        }
    }

    /// A record of this length, with the step's fields.
    pub fn record(length: usize, step: Step) -> Decoded {
        let fields = Fields::from(step);
        Decoded {
            code: 0,
            length: length as u32,
            kind: u32::from(fields.kind),
            player: u32::from(fields.player),
            entry: u32::from(fields.entry),
            high: u32::from(fields.high),
            value: fields.value,
            serial: fields.serial,
        }
    }
}

/// What is found of an entry in the store used alone: code 0 with its guard, and the first and the
/// last entry of its guard interval; or a refusal's number with zeros.
#[derive(Clone, Copy, Debug, Default, PartialEq, Eq)]
#[allow(missing_docs)]
pub struct Interval {
    pub code: u32,
    pub guard: u32,
    pub first: u32,
    pub last: u32,
}

impl Interval {
    /// A refusal: its number, and zeros.
    pub fn refused(code: u32) -> Interval {
        Interval {
            code,
            ..Interval::default()
        }
    }
}

/// One place of the lent list of requests. Its marks are numbers: a mark stands where its number is
/// not 0.
#[derive(Clone, Copy, Debug, Default, PartialEq, Eq)]
#[allow(missing_docs)]
pub struct Request {
    pub serial: u32,
    pub player: u8,
    pub kind: u8,
    pub low: u8,
    pub high: u16,
    pub value: u32,
    pub guard: u32,
    pub overlapped: u8,
    pub delivered: u8,
    pub abandoned: u8,
    pub first: u32,
    pub second: u32,
}

/// The most records that the default of [`Library::preview_run`] takes.
const PREVIEW_RECORDS: u32 = 16;

/// The calls. Slices of any length and contents are taken.
pub trait Library {
    /// The kinds that it knows are 1 up to this one; a later kind is 26 to it.
    fn kinds(&self) -> u8 {
        KINDS
    }

    /// Makes both tables fresh.
    fn fresh(&self, store: &mut [u32], players: &mut [u32]) -> Reply;
    /// Whether both tables keep the rules.
    fn check(&self, store: &[u32], players: &[u32]) -> Reply;
    /// One step. A kind that is not in force is 26, a field that the kind lacks and that is not 0 is
    /// 27; both come before the tests of the tables.
    fn step(&self, store: &mut [u32], players: &mut [u32], step: Fields) -> Reply;
    /// A run over a session.
    fn run(
        &self,
        store: &mut [u32],
        players: &mut [u32],
        session: &[u8],
        budget: u32,
        replies: &mut [u32],
    ) -> Report;
    /// The reply that [`Library::step`] would give, and both tables kept. The default takes the step on
    /// copies of them.
    fn preview(&self, store: &[u32], players: &[u32], step: Fields) -> Reply {
        self.step(&mut store.to_vec(), &mut players.to_vec(), step)
    }
    /// The report and the replies of [`Library::run`], where a budget above 16 counts as 16, and both
    /// tables kept. The default runs on copies of them.
    fn preview_run(
        &self,
        store: &[u32],
        players: &[u32],
        session: &[u8],
        budget: u32,
        replies: &mut [u32],
    ) -> Report {
        let (mut store, mut players) = (store.to_vec(), players.to_vec());
        let budget = budget.min(PREVIEW_RECORDS);
        self.run(&mut store, &mut players, session, budget, replies)
    }
    /// The share of a player's reads from memory in thousandths: the quotient of 1,000 times those by its answered
    /// reads, and the remainder.
    fn share(&self, store: &[u32], players: &[u32], player: u8) -> Reply;
    /// The record that stands at the start of the bytes.
    fn decode(&self, part: &[u8]) -> Decoded;
    /// Writes a step's record: 26 and 27 as in [`Library::step`], then 36.
    fn encode(&self, step: Fields, out: &mut [u8]) -> Reply;
    /// Writes the session's mark.
    fn put_mark(&self, out: &mut [u8]) -> Reply;
    /// Whether a session begins with the mark.
    fn marked(&self, session: &[u8]) -> bool;
    /// How many pending requests of the player stand in a lent list.
    fn waiting(&self, list: &[Request], player: u8) -> Reply;

    /// Makes the table of a fresh store.
    fn store_fresh(&self, store: &mut [u32]) -> Reply;
    /// Whether a store's table keeps the rules.
    fn store_check(&self, store: &[u32]) -> Reply;
    /// The same, where `last` is the last serial issued.
    fn store_check_at(&self, store: &[u32], last: u32) -> Reply;
    /// The version and value of an entry.
    fn store_read(&self, store: &[u32], entry: u8) -> Reply;
    /// The guard of an entry, and the first and last entry of its guard interval. A library that does
    /// not know kind 14 has no such call, and is not asked.
    fn store_find_interval(&self, _store: &[u32], _entry: u8) -> Interval {
        unimplemented!("a library of the kinds 1 to {}", self.kinds())
    }
    /// A write that carries a guard, which is any number; 0 is that of a load.
    fn store_write(
        &self,
        store: &mut [u32],
        entry: u8,
        value: u32,
        serial: u32,
        guard: u32,
    ) -> Reply;
    /// Sets a guard, numbered by its serial, over a range.
    fn store_set_guard(&self, store: &mut [u32], low: u8, high: u16, serial: u32) -> Reply;
    /// A boundary before an entry.
    fn store_split(&self, store: &mut [u32], entry: u8) -> Reply;
    /// The boundary before an entry removed.
    fn store_merge(&self, store: &mut [u32], entry: u8) -> Reply;
    /// The entries of the tablet that holds an entry are barred.
    fn store_restart(&self, store: &mut [u32], entry: u8) -> Reply;
}
