//! The store used alone, owning its table.

use alloc::boxed::Box;
use alloc::vec::Vec;

use super::{array, zeros};
use crate::store::{find_interval, read};
use crate::STORE_WORDS;
use crate::{GuardOutcome, Interval, Range, Refusal, Serial, StoreMut, Versioned, WriteOutcome};

/// A store's table, which keeps its rules. The same write handed in twice may commit twice. [`StoreMut`] is the same over a lent table.
#[derive(Clone, Debug, PartialEq, Eq)]
pub struct Store {
    words: Box<[u32; STORE_WORDS]>,
}

impl Store {
    /// Words of the table.
    pub const WORDS: usize = STORE_WORDS;

    /// A fresh store.
    #[must_use]
    pub fn fresh() -> Store {
        let mut words = zeros();
        StoreMut::fresh(&mut words);
        Store { words }
    }

    /// The store of these words, which are tested.
    ///
    /// # Errors
    ///
    /// 21 for a wrong length, 22 where a rule is broken.
    pub fn from_words(words: Vec<u32>) -> Result<Store, Refusal> {
        let mut words = array(words)?;
        StoreMut::check(&mut words)?;
        Ok(Store { words })
    }

    /// The lent form of the same store.
    #[must_use]
    pub fn lend(&mut self) -> StoreMut<'_> {
        StoreMut::kept(&mut self.words)
    }

    /// The words of the table, as docs/FORMATS.md lays them out.
    #[must_use]
    pub fn words(&self) -> &[u32] {
        &*self.words
    }

    /// The entry's version and value.
    #[must_use]
    pub fn read(&self, entry: u8) -> Versioned {
        read(&self.words, entry)
    }

    /// The entry's guard, and the first and the last entry of its guard interval.
    #[must_use]
    pub fn find_interval(&self, entry: u8) -> Interval {
        find_interval(&self.words, entry)
    }

    /// Sets a guard, numbered by its serial, over a range that lies in one tablet.
    pub fn set_guard(&mut self, range: Range, serial: Serial) -> GuardOutcome {
        self.lend().set_guard(range, serial)
    }

    /// A write that carries a guard, which may be any number; a load carries [`OPEN_GUARD`](crate::OPEN_GUARD).
    pub fn write(&mut self, entry: u8, value: u32, serial: Serial, guard: u32) -> WriteOutcome {
        self.lend().write(entry, value, serial, guard)
    }

    /// A tablet begins at the entry.
    ///
    /// # Errors
    ///
    /// 28 at entry 0, 35 where one does already.
    pub fn split(&mut self, entry: u8) -> Result<(), Refusal> {
        self.lend().split(entry)
    }

    /// No tablet begins at the entry any more.
    ///
    /// # Errors
    ///
    /// 28 at entry 0, 35 where none does.
    pub fn merge(&mut self, entry: u8) -> Result<(), Refusal> {
        self.lend().merge(entry)
    }

    /// The entries of the tablet that holds the entry are [`BARRED`](crate::BARRED).
    pub fn restart(&mut self, entry: u8) {
        self.lend().restart(entry);
    }
}

impl Default for Store {
    fn default() -> Store {
        Store::fresh()
    }
}

#[cfg(test)]
mod tests {
    use super::*;
    use crate::BARRED;
    use alloc::vec;

    fn serial(number: u32) -> Serial {
        Serial::new(number).unwrap()
    }

    #[test]
    fn a_fresh_store_has_its_words() {
        let mut words = vec![0; 1280];
        words[0] = 1;
        assert_eq!(Store::fresh().words(), words);
        assert_eq!(Store::from_words(words), Ok(Store::fresh()));
    }

    #[test]
    fn other_tables_are_refused() {
        assert_eq!(Store::from_words(vec![]), Err(Refusal::TableLength));
        assert_eq!(Store::from_words(vec![0; 1281]), Err(Refusal::TableLength));
        assert_eq!(Store::from_words(vec![0; 1280]), Err(Refusal::TableRules));
    }

    #[test]
    fn a_write_commits_under_the_entrys_guard_alone() {
        let mut store = Store::fresh();
        assert_eq!(store.write(45, 6, serial(1), 0), WriteOutcome::Committed);
        assert_eq!(
            store.set_guard(Range::new(40, 60).unwrap(), serial(2)),
            GuardOutcome::Set
        );
        assert_eq!(store.write(45, 7, serial(3), 2), WriteOutcome::Committed);
        assert_eq!(store.write(45, 8, serial(4), 1), WriteOutcome::Rejected);
        assert_eq!(store.write(60, 8, serial(5), 2), WriteOutcome::Rejected);
        assert_eq!(store.write(45, 8, serial(5), 0), WriteOutcome::Rejected);
        assert_eq!(
            store.read(45),
            Versioned {
                version: 3,
                value: 7
            }
        );
        assert_eq!(
            store.read(60),
            Versioned {
                version: 0,
                value: 0
            }
        );
        store.restart(45);
        for guard in [0, 2, BARRED] {
            assert_eq!(store.write(45, 9, serial(6), guard), WriteOutcome::Rejected);
        }
    }

    #[test]
    fn a_guard_reaches_to_both_ends_of_its_interval() {
        let mut store = Store::fresh();
        let interval = |guard, first, last| Interval { guard, first, last };
        assert_eq!(store.find_interval(45), interval(0, 0, 255));
        assert_eq!(
            store.set_guard(Range::new(40, 60).unwrap(), serial(2)),
            GuardOutcome::Set
        );
        assert_eq!(store.find_interval(39), interval(0, 0, 39));
        assert_eq!(store.find_interval(40), interval(2, 40, 59));
        assert_eq!(store.find_interval(59), interval(2, 40, 59));
        assert_eq!(store.find_interval(60), interval(0, 60, 255));
        // a boundary does not end it
        assert_eq!(store.split(50), Ok(()));
        assert_eq!(store.find_interval(45), interval(2, 40, 59));
        store.restart(55);
        assert_eq!(store.find_interval(45), interval(2, 40, 49));
        assert_eq!(store.find_interval(55), interval(BARRED, 50, 255));
    }

    #[test]
    fn tablets_are_split_and_merged() {
        let mut store = Store::fresh();
        assert_eq!(store.split(128), Ok(()));
        assert_eq!(store.split(128), Err(Refusal::WrongBoundary));
        assert_eq!(store.split(0), Err(Refusal::OutOfRange));
        assert_eq!(
            store.set_guard(Range::new(120, 130).unwrap(), serial(1)),
            GuardOutcome::LayoutChanged
        );
        assert_eq!(store.merge(128), Ok(()));
        assert_eq!(store.merge(128), Err(Refusal::WrongBoundary));
        assert_eq!(store.merge(0), Err(Refusal::OutOfRange));
        assert_eq!(
            store.set_guard(Range::new(120, 130).unwrap(), serial(1)),
            GuardOutcome::Set
        );
    }

    #[test]
    fn both_forms_make_the_same_of_the_same_calls() {
        let mut words = [0; STORE_WORDS];
        let mut lent = StoreMut::fresh(&mut words);
        let mut owned = Store::default();
        let range = |low: u8| Range::new(low, u16::from(low) + 7).unwrap();
        for number in 1..1000 {
            let (entry, serial) = ((number * 7 % 61) as u8, serial(number));
            let guard = number.saturating_sub(number % 5);
            match number % 6 {
                0 => assert_eq!(
                    lent.set_guard(range(entry), serial),
                    owned.set_guard(range(entry), serial)
                ),
                1 => assert_eq!(lent.split(entry), owned.split(entry)),
                2 => assert_eq!(lent.merge(entry), owned.merge(entry)),
                3 if entry == 3 => {
                    lent.restart(entry);
                    owned.restart(entry);
                }
                _ => assert_eq!(
                    lent.write(entry, number, serial, guard),
                    owned.write(entry, number, serial, guard)
                ),
            }
            assert_eq!(lent.words(), owned.words());
            assert_eq!(lent.read(entry), owned.read(entry));
            assert_eq!(lent.find_interval(entry), owned.find_interval(entry));
            assert_eq!(owned.lend(), lent);
        }
        assert_ne!(owned, Store::fresh());
    }
}
