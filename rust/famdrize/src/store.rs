//! The store used alone, without any player: its table, lent.

use crate::reply::accepted;
use crate::{raw, Range, Refusal, Serial};

/// Words of the store's table.
pub const STORE_WORDS: usize = 1280;

/// The guard of an open entry, and what a load carries: a write that carries it commits there. An entry once guarded or [barred](BARRED) is
/// never open again.
pub const OPEN_GUARD: u32 = 0;

/// The guard of a barred entry, in a tablet that restarted: no write commits there, whatever it carries, until a guard is set.
pub const BARRED: u32 = 4_294_967_295;

/// A store's table, lent by the caller, which keeps its rules: the store used alone, without heap. The same write handed in twice may commit
/// twice.
///
/// While it stands, nothing else changes the words. They stay when it goes, and [`StoreMut::check`] takes them up again.
///
/// ```
/// use famdrize::{GuardOutcome, Range, Serial, StoreMut, WriteOutcome, STORE_WORDS};
///
/// let mut words = [0; STORE_WORDS];
/// let mut store = StoreMut::fresh(&mut words);
/// let range = Range::try_from(40..60)?;
/// assert_eq!(store.set_guard(range, Serial::try_from(2)?), GuardOutcome::Set);
/// assert_eq!(store.write(45, 7, Serial::try_from(3)?, 2), WriteOutcome::Committed);
/// assert_eq!(store.write(45, 8, Serial::try_from(4)?, 1), WriteOutcome::Rejected);
/// let cell = StoreMut::check(&mut words)?.read(45);
/// assert_eq!((cell.version, cell.value), (3, 7));
/// # Ok::<(), famdrize::Refusal>(())
/// ```
#[derive(Debug, PartialEq, Eq)]
pub struct StoreMut<'a> {
    words: &'a mut [u32; STORE_WORDS],
}

/// An entry's value, and the serial of the write that made it, 0 if none did.
#[derive(Clone, Copy, Debug, PartialEq, Eq, Hash)]
#[non_exhaustive]
pub struct Versioned {
    /// The serial of the write.
    pub version: u32,
    /// The value.
    pub value: u32,
}

/// An entry's guard, and how far it reaches: the longest row of neighbouring entries, that entry among them, that have one guard. Boundaries
/// do not end it.
///
/// ```
/// use famdrize::{GuardOutcome, Range, Serial, StoreMut, BARRED, OPEN_GUARD, STORE_WORDS};
///
/// let mut words = [0; STORE_WORDS];
/// let mut store = StoreMut::fresh(&mut words);
/// let range = Range::try_from(40..60)?;
/// assert_eq!(store.set_guard(range, Serial::try_from(2)?), GuardOutcome::Set);
/// let found = store.find_interval(45);
/// assert_eq!((found.guard, found.first, found.last), (2, 40, 59));
/// let found = store.find_interval(60);
/// assert_eq!((found.guard, found.first, found.last), (OPEN_GUARD, 60, 255));
/// store.restart(45);
/// let found = store.find_interval(45);
/// assert_eq!((found.guard, found.first, found.last), (BARRED, 0, 255));
/// # Ok::<(), famdrize::Refusal>(())
/// ```
#[derive(Clone, Copy, Debug, PartialEq, Eq, Hash)]
#[non_exhaustive]
pub struct Interval {
    /// The guard: a serial, [`OPEN_GUARD`] or [`BARRED`].
    pub guard: u32,
    /// The first entry.
    pub first: u8,
    /// The last entry.
    pub last: u8,
}

/// What becomes of a guard that is to be set.
#[derive(Clone, Copy, Debug, PartialEq, Eq, Hash)]
#[non_exhaustive]
#[must_use = "the guard may not be set"]
pub enum GuardOutcome {
    /// It is set over the range.
    Set,
    /// The range does not lie in one tablet, and nothing is set.
    LayoutChanged,
}

/// What becomes of a write.
#[derive(Clone, Copy, Debug, PartialEq, Eq, Hash)]
#[non_exhaustive]
#[must_use = "the write may be turned back"]
pub enum WriteOutcome {
    /// It carries the entry's guard, which is not [`BARRED`], and its serial and value become the entry's.
    Committed,
    /// What it carries does not match the entry's guard: it is turned back.
    Rejected,
}

impl<'a> StoreMut<'a> {
    /// Makes the table fresh, whatever it held.
    pub fn fresh(words: &'a mut [u32; STORE_WORDS]) -> StoreMut<'a> {
        // SAFETY: an array with its length, lent to be changed.
        let reply = unsafe { raw::famdrize_store_fresh(words.as_mut_ptr(), words.len()) };
        accepted(reply);
        StoreMut { words }
    }

    /// The table as it is, which is tested.
    ///
    /// # Errors
    ///
    /// 22 where a rule is broken.
    pub fn check(words: &'a mut [u32; STORE_WORDS]) -> Result<StoreMut<'a>, Refusal> {
        // SAFETY: an array with its length; the call does not change it.
        let reply = unsafe { raw::famdrize_store_check(words.as_ptr(), words.len()) };
        Refusal::of_code(reply.code)?;
        Ok(StoreMut { words })
    }

    /// A table that keeps its rules already: that of the owning form.
    #[cfg(feature = "alloc")]
    pub(crate) fn kept(words: &'a mut [u32; STORE_WORDS]) -> StoreMut<'a> {
        StoreMut { words }
    }

    /// The words of the table, as docs/FORMATS.md lays them out.
    #[must_use]
    pub fn words(&self) -> &[u32] {
        self.words
    }

    /// The entry's version and value.
    #[must_use]
    pub fn read(&self, entry: u8) -> Versioned {
        read(self.words, entry)
    }

    /// The entry's guard, and the first and the last entry of its guard interval.
    #[must_use]
    pub fn find_interval(&self, entry: u8) -> Interval {
        find_interval(self.words, entry)
    }

    /// Sets a guard, numbered by its serial, over a range that lies in one tablet.
    pub fn set_guard(&mut self, range: Range, serial: Serial) -> GuardOutcome {
        // SAFETY: an array with its length, lent to be changed.
        let reply = unsafe {
            raw::famdrize_store_set_guard(
                self.words.as_mut_ptr(),
                self.words.len(),
                range.low(),
                range.high(),
                serial.number(),
            )
        };
        match accepted(reply) {
            [1, 0] => GuardOutcome::Set,
            [2, 0] => GuardOutcome::LayoutChanged,
            _ => unreachable!("a guard with a serial over a range is set or not: {reply:?}"),
        }
    }

    /// A write that carries a guard, which may be any number; a load carries [`OPEN_GUARD`].
    pub fn write(&mut self, entry: u8, value: u32, serial: Serial, guard: u32) -> WriteOutcome {
        // SAFETY: an array with its length, lent to be changed.
        let reply = unsafe {
            raw::famdrize_store_write(
                self.words.as_mut_ptr(),
                self.words.len(),
                entry,
                value,
                serial.number(),
                guard,
            )
        };
        match accepted(reply) {
            [1, 0] => WriteOutcome::Committed,
            [2, 0] => WriteOutcome::Rejected,
            _ => unreachable!("a write with a serial commits or not: {reply:?}"),
        }
    }

    /// A tablet begins at the entry.
    ///
    /// # Errors
    ///
    /// 28 at entry 0, 35 where one does already.
    pub fn split(&mut self, entry: u8) -> Result<(), Refusal> {
        // SAFETY: an array with its length, lent to be changed.
        let reply =
            unsafe { raw::famdrize_store_split(self.words.as_mut_ptr(), self.words.len(), entry) };
        Refusal::of_code(reply.code)
    }

    /// No tablet begins at the entry any more.
    ///
    /// # Errors
    ///
    /// 28 at entry 0, 35 where none does.
    pub fn merge(&mut self, entry: u8) -> Result<(), Refusal> {
        // SAFETY: an array with its length, lent to be changed.
        let reply =
            unsafe { raw::famdrize_store_merge(self.words.as_mut_ptr(), self.words.len(), entry) };
        Refusal::of_code(reply.code)
    }

    /// The entries of the tablet that holds the entry are [`BARRED`].
    pub fn restart(&mut self, entry: u8) {
        // SAFETY: an array with its length, lent to be changed.
        let reply = unsafe {
            raw::famdrize_store_restart(self.words.as_mut_ptr(), self.words.len(), entry)
        };
        accepted(reply);
    }
}

/// The entry's version and value, of a table that keeps its rules.
pub(crate) fn read(words: &[u32; STORE_WORDS], entry: u8) -> Versioned {
    // SAFETY: an array with its length, lent to be read.
    let reply = unsafe { raw::famdrize_store_read(words.as_ptr(), words.len(), entry) };
    let [version, value] = accepted(reply);
    Versioned { version, value }
}

/// The entry's guard and its interval, of a table that keeps its rules.
pub(crate) fn find_interval(words: &[u32; STORE_WORDS], entry: u8) -> Interval {
    // SAFETY: an array with its length, lent to be read.
    let found = unsafe { raw::famdrize_store_find_interval(words.as_ptr(), words.len(), entry) };
    let raw::Interval {
        code,
        guard,
        first,
        last,
    } = found;
    let [first, last] = accepted(raw::Reply {
        code,
        a: first,
        b: last,
    });
    let entry = |number: u32| u8::try_from(number).expect("an interval's ends are entries");
    Interval {
        guard,
        first: entry(first),
        last: entry(last),
    }
}

#[cfg(test)]
mod tests {
    use super::*;

    fn serial(number: u32) -> Serial {
        Serial::new(number).unwrap()
    }

    fn range(low: u8, high: u16) -> Range {
        Range::new(low, high).unwrap()
    }

    #[test]
    fn a_lent_table_is_made_fresh() {
        let mut words = [5; STORE_WORDS];
        let store = StoreMut::fresh(&mut words);
        assert_eq!(store.words()[0], 1);
        assert_eq!(store.words()[1..], [0; STORE_WORDS - 1]);
    }

    #[test]
    fn a_lent_table_is_tested_and_kept() {
        let mut words = [0; STORE_WORDS];
        assert_eq!(StoreMut::check(&mut words), Err(Refusal::TableRules));
        assert_eq!(words, [0; STORE_WORDS]);
        words[0] = 1;
        let fresh = words;
        assert!(StoreMut::check(&mut words).is_ok());
        assert_eq!(words, fresh);
        // a version above the last serial
        words[768] = 4_000_001;
        assert_eq!(StoreMut::check(&mut words), Err(Refusal::TableRules));
    }

    #[test]
    fn a_write_to_a_lent_table_commits_under_the_entrys_guard_alone() {
        let mut words = [0; STORE_WORDS];
        let mut store = StoreMut::fresh(&mut words);
        let guard = store.set_guard(range(40, 60), serial(2));
        assert_eq!(guard, GuardOutcome::Set);
        assert_eq!(store.write(45, 7, serial(3), 2), WriteOutcome::Committed);
        assert_eq!(store.write(45, 8, serial(4), 1), WriteOutcome::Rejected);
        assert_eq!(store.write(60, 8, serial(5), 2), WriteOutcome::Rejected);
        assert_eq!(store.write(45, 8, serial(5), 0), WriteOutcome::Rejected);
        // it stays when it goes, and is taken up again
        let mut store = StoreMut::check(&mut words).unwrap();
        let told = |cell: Versioned| (cell.version, cell.value);
        assert_eq!(told(store.read(45)), (3, 7));
        assert_eq!(told(store.read(60)), (0, 0));
        store.restart(200);
        assert_eq!(store.write(45, 9, serial(6), 2), WriteOutcome::Rejected);
        assert_eq!(told(store.read(45)), (3, 7));
    }

    #[test]
    fn open_and_barred_entries_of_a_lent_table() {
        let mut words = [0; STORE_WORDS];
        let mut store = StoreMut::fresh(&mut words);
        assert_eq!(store.split(128), Ok(()));
        assert_eq!(store.set_guard(range(40, 60), serial(2)), GuardOutcome::Set);
        store.restart(200);
        let (committed, rejected) = (WriteOutcome::Committed, WriteOutcome::Rejected);
        for (entry, carried, outcome) in [
            (39, OPEN_GUARD, committed),
            (39, 2, rejected),
            (39, BARRED, rejected),
            (45, OPEN_GUARD, rejected),
            (45, 2, committed),
            (45, BARRED, rejected),
            (127, OPEN_GUARD, committed),
            (128, OPEN_GUARD, rejected),
            (128, 2, rejected),
            (128, BARRED, rejected),
        ] {
            let given = store.write(entry, 7, serial(3), carried);
            assert_eq!(given, outcome, "{entry}, {carried}");
        }
        // barred stands in the column of guards, and in no other
        assert_eq!(store.words()[512..517], [0, 2, 0, BARRED, 0]);
        words[512 + 1] = BARRED;
        assert!(StoreMut::check(&mut words).is_ok());
        words[512 + 1] = BARRED - 1;
        assert_eq!(StoreMut::check(&mut words), Err(Refusal::TableRules));
        words[512 + 1] = 2;
        words[768] = BARRED;
        assert_eq!(StoreMut::check(&mut words), Err(Refusal::TableRules));
    }

    #[test]
    fn a_guard_of_a_lent_table_reaches_to_both_ends_of_its_interval() {
        let mut words = [0; STORE_WORDS];
        let mut store = StoreMut::fresh(&mut words);
        let found = |store: &StoreMut, entry: u8| {
            let Interval { guard, first, last } = store.find_interval(entry);
            (guard, first, last)
        };
        for entry in [0, 45, 255] {
            assert_eq!(found(&store, entry), (0, 0, 255));
        }
        for (low, high, number) in [(40, 60, 2), (0, 1, 3), (250, 256, 4)] {
            let guard = store.set_guard(range(low, high), serial(number));
            assert_eq!(guard, GuardOutcome::Set);
        }
        // a boundary inside an interval, with a guard or without
        assert_eq!(store.split(50), Ok(()));
        assert_eq!(store.split(100), Ok(()));
        let before = *store.words;
        for (entries, interval) in [
            ([0, 0, 0], (3, 0, 0)),
            ([1, 20, 39], (0, 1, 39)),
            ([40, 50, 59], (2, 40, 59)),
            ([60, 99, 249], (0, 60, 249)),
            ([250, 254, 255], (4, 250, 255)),
        ] {
            for entry in entries {
                assert_eq!(found(&store, entry), interval, "{entry}");
            }
        }
        assert_eq!(*store.words, before);
        // the second tablet is barred, up to the third
        store.restart(50);
        assert_eq!(found(&store, 49), (2, 40, 49));
        assert_eq!(found(&store, 50), (BARRED, 50, 99));
        assert_eq!(found(&store, 100), (OPEN_GUARD, 100, 249));
    }

    #[test]
    fn tablets_of_a_lent_table_are_split_and_merged() {
        let mut words = [0; STORE_WORDS];
        let mut store = StoreMut::fresh(&mut words);
        assert_eq!(store.split(128), Ok(()));
        let before = *store.words;
        assert_eq!(store.split(128), Err(Refusal::WrongBoundary));
        assert_eq!(store.split(0), Err(Refusal::OutOfRange));
        assert_eq!(store.merge(0), Err(Refusal::OutOfRange));
        assert_eq!(store.merge(127), Err(Refusal::WrongBoundary));
        assert_eq!(
            store.set_guard(range(120, 130), serial(1)),
            GuardOutcome::LayoutChanged
        );
        assert_eq!(*store.words, before);
        assert_eq!(
            store.set_guard(range(128, 256), serial(1)),
            GuardOutcome::Set
        );
        // the guard is that of the other tablet
        store.restart(127);
        assert_eq!(store.write(128, 9, serial(2), 1), WriteOutcome::Committed);
        assert_eq!(store.merge(128), Ok(()));
        store.restart(127);
        assert_eq!(store.write(128, 9, serial(3), 1), WriteOutcome::Rejected);
    }
}
