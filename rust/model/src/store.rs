//! The store's side: "borders, guards, stamps and values, with what step 6 does to them and steps
//! 10 to 12"; how far a guard reaches (document 02 §1); open and barred guards (document 02 §2).

use calls::Range;

use crate::faults::{Fault, Switches};
use crate::numbers::{Entries, BARRED, ENTRIES, OPEN};
use crate::reply::Refusal;

/// An entry's version and value.
#[derive(Clone, Copy, Debug, PartialEq, Eq)]
pub struct Versioned {
    /// "the serial of the write that made it", 0 if there was none.
    pub version: u32,
    /// The value.
    pub value: u32,
}

/// An entry's guard, and its guard interval's ends. Document 02 §1: "Finding an entry's guard must
/// also give its stretch's first and last entry".
#[derive(Clone, Copy, Debug, PartialEq, Eq)]
pub struct Interval {
    /// The guard: a serial, [`OPEN`] or [`BARRED`].
    pub guard: u32,
    /// The first entry.
    pub first: usize,
    /// The last entry.
    pub last: usize,
}

/// A guard request's outcome, "1 or 2 (set or layout changed...)".
#[derive(Clone, Copy, Debug, PartialEq, Eq)]
pub enum GuardOutcome {
    /// The guard is set over the range.
    Set = 1,
    /// The range does not lie in one tablet; nothing is set.
    LayoutChanged = 2,
}

/// A write's outcome, "1 or 2 (...committed or turned back)".
#[derive(Clone, Copy, Debug, PartialEq, Eq)]
pub enum WriteOutcome {
    /// The value took effect.
    Committed = 1,
    /// The guard carried does not match the entry's; nothing is changed.
    Rejected = 2,
}

/// Boundaries, guards, versions and values.
///
/// The guards are kept entry by entry. Guard intervals with "neighbours never equal" and a first
/// one at entry 0 are in one-to-one correspondence with such a list; `tables` converts.
#[derive(Clone, Debug, PartialEq, Eq)]
pub struct Store {
    /// "borders: 1 where a tablet begins, else 0; entry 0's is 1"
    pub boundaries: [bool; ENTRIES],
    /// For each entry the guard of the interval that has it: a serial, [`OPEN`] or [`BARRED`].
    pub guards: [u32; ENTRIES],
    /// "for each entry a stamp"
    pub versions: [u32; ENTRIES],
    /// "and value"
    pub values: [u32; ENTRIES],
}

impl Store {
    /// "one tablet, guard 0 everywhere, and zeros elsewhere"
    pub fn fresh() -> Store {
        let mut boundaries = [false; ENTRIES];
        boundaries[0] = true;
        Store {
            boundaries,
            guards: [OPEN; ENTRIES],
            versions: [0; ENTRIES],
            values: [0; ENTRIES],
        }
    }

    /// Reading 14: "In one tablet" means no boundary strictly inside (low, high).
    pub fn in_one_tablet(&self, range: Range) -> bool {
        !range.entries().skip(1).any(|entry| self.boundaries[entry])
    }

    /// The entries of the tablet containing the entry.
    pub fn tablet(&self, entry: u8) -> std::ops::Range<usize> {
        let entry = usize::from(entry);
        let begin = (0..=entry).rev().find(|&e| self.boundaries[e]);
        let end = (entry + 1..ENTRIES).find(|&e| self.boundaries[e]);
        begin.unwrap_or(0)..end.unwrap_or(ENTRIES)
    }

    /// The longest row of neighbouring entries, this one among them, that have one guard, be it open,
    /// a serial or barred: document 02 §2, barred "forms stretches like a guard". Tablets do not cut
    /// it.
    pub fn find_interval(&self, entry: u8, faults: &impl Switches) -> Interval {
        let entry = usize::from(entry);
        let guard = self.guards[entry];
        let (mut first, mut last) = (entry, entry);
        while first > 0 && self.guards[first - 1] == guard {
            first -= 1;
        }
        while last + 1 < ENTRIES && self.guards[last + 1] == guard {
            last += 1;
        }
        self.mistaken(entry, Interval { guard, first, last }, faults)
    }

    /// What the faults of guard intervals make of a right one.
    fn mistaken(&self, entry: usize, mut found: Interval, faults: &impl Switches) -> Interval {
        let several = found.first < found.last;
        if faults.has(Fault::IntervalCutToTablet) {
            let tablet = self.tablet(entry as u8);
            found.first = found.first.max(tablet.start);
            found.last = found.last.min(tablet.end - 1);
        }
        if faults.has(Fault::IntervalBeginsLate) && several {
            found.first += 1;
        }
        if faults.has(Fault::IntervalEndsEarly) && several {
            found.last -= 1;
        }
        if faults.has(Fault::IntervalEndsBehind) {
            found.last += 1;
        }
        let alone = faults.has(Fault::OpenAlone) && found.guard == OPEN
            || faults.has(Fault::BarredAlone) && found.guard == BARRED;
        if alone {
            (found.first, found.last) = (entry, entry);
        }
        if faults.has(Fault::IntervalWithoutGuard) {
            found.guard = OPEN;
        }
        found
    }

    /// "Guard request: if the range lies in one tablet the guard is set over it, else the outcome
    /// is 'layout changed' and nothing is set."
    pub fn set_guard(&mut self, range: Range, guard: u32, faults: &impl Switches) -> GuardOutcome {
        let at_low = self.boundaries[usize::from(range.low)];
        let divided = !self.in_one_tablet(range)
            || at_low && range.low > 0 && faults.has(Fault::BoundaryAtLowDivides);
        if !divided || faults.has(Fault::GuardSetAcrossBoundary) {
            self.guards[range.entries()].fill(guard);
            return GuardOutcome::Set;
        }
        if faults.has(Fault::GuardCutToTablet) {
            let end = range.entries().end.min(self.tablet(range.low).end);
            self.guards[usize::from(range.low)..end].fill(guard);
            return GuardOutcome::Set;
        }
        GuardOutcome::LayoutChanged
    }

    /// "Read: outcome is stamp and value."
    pub fn read(&self, entry: u8) -> Versioned {
        Versioned {
            version: self.versions[usize::from(entry)],
            value: self.values[usize::from(entry)],
        }
    }

    /// Document 02 §2: "guard 0 is open and matches a carried 0, and a restart sets a new mark, barred,
    /// that matches nothing"; not even the same number, handed to the store used alone.
    fn matches(&self, carried: u32, entry: usize, faults: &impl Switches) -> bool {
        let guard = self.guards[entry];
        let fails = carried == BARRED && !faults.has(Fault::BarredMatches)
            || carried == OPEN && faults.has(Fault::OpenMatchesNothing);
        let mistaken = faults.has(Fault::StoreIgnoresGuard)
            || faults.has(Fault::BarredMatchesOpen) && (carried, guard) == (OPEN, BARRED);
        carried == guard && !fails || mistaken
    }

    /// "Write: commits if the carried guard equals the entry's guard, ... else is turned back." What
    /// stands between, "which 0 never does", document 02 §2 replaces: see [`Store::matches`].
    pub fn write(
        &mut self,
        entry: u8,
        serial: u32,
        value: u32,
        guard: u32,
        faults: &impl Switches,
    ) -> WriteOutcome {
        let entry = usize::from(entry);
        if !self.matches(guard, entry, faults) {
            return WriteOutcome::Rejected;
        }
        self.versions[entry] = serial;
        self.values[entry] = value;
        WriteOutcome::Committed
    }

    /// "10 split, 11 merge: a border before the entry is set or removed; guards stay." "35 split
    /// at a border".
    pub fn split(&mut self, entry: u8, faults: &impl Switches) -> Result<(), Refusal> {
        if self.boundaries[usize::from(entry)] {
            return Err(Refusal::Boundary);
        }
        if faults.has(Fault::SplitRestartsTablet) {
            let tablet = self.tablet(entry);
            self.guards[tablet].fill(BARRED);
        }
        self.boundaries[usize::from(entry)] = true;
        Ok(())
    }

    /// "10 split, 11 merge: a border before the entry is set or removed; guards stay." "35 ...
    /// merge where none is".
    pub fn merge(&mut self, entry: u8) -> Result<(), Refusal> {
        if !self.boundaries[usize::from(entry)] {
            return Err(Refusal::Boundary);
        }
        self.boundaries[usize::from(entry)] = false;
        Ok(())
    }

    /// "12 tablet restart: the guards of the tablet containing the entry become 0." Document 02 §2: "a
    /// restart sets a new mark, barred", in place of 0, whatever the guards were.
    pub fn restart(&mut self, entry: u8, faults: &impl Switches) {
        if faults.has(Fault::RestartTabletKeepsGuards) {
            return;
        }
        let tablet = self.tablet(entry);
        for guard in &mut self.guards[tablet] {
            *guard = match *guard {
                OPEN if faults.has(Fault::RestartKeepsOpen) => OPEN,
                _ if faults.has(Fault::RestartOpens) => OPEN,
                _ => BARRED,
            };
        }
    }
}
