//! The store: its calls with the test of the table, and (module `steps`) without.

use calls::{Range, Reply};

use crate::words::{are_zero, at_most};
use crate::{answer, BARRED, SERIALS, STORE};

/// Makes the table of a fresh store.
pub fn fresh(store: &mut [u32]) -> Reply {
    if store.len() != STORE {
        return Reply::refused(21);
    }
    store.fill(0);
    store[0] = 1;
    Reply::DONE
}

/// Whether all places from `k` on are 0.
fn unused(starts: &[u32], guards: &[u32], k: usize) -> bool {
    are_zero(&starts[k..]) & are_zero(&guards[k..])
}

/// How many places are used: all before the first one, after place 0, whose start is 0.
fn used(starts: &[u32]) -> usize {
    let behind = starts.iter().skip(1).position(|&start| start == 0);
    behind.map_or(starts.len(), |at| at + 1)
}

/// Whether a guard is a serial up to `last`, or 0, or barred.
fn guard_holds(guard: u32, last: u32) -> bool {
    (guard <= last) | (guard == BARRED)
}

/// Whether an interval may follow another one.
fn follows(start: u32, guard: u32, next: u32, other: u32, last: u32) -> bool {
    (start < next) & (next < 256) & (other != guard) & guard_holds(other, last)
}

/// Whether the intervals after the first rise, differ from their neighbours and have guards that hold.
fn rising_holds(starts: &[u32], guards: &[u32], last: u32) -> bool {
    let n = used(starts);
    let (before, behind) = (0..n - 1, 1..n);
    let intervals = starts[before.clone()].iter().zip(&guards[before]);
    let pairs = intervals.zip(starts[behind.clone()].iter().zip(&guards[behind]));
    let good = pairs.fold(true, |good, ((&start, &guard), (&next, &other))| {
        good & follows(start, guard, next, other, last)
    });
    good & unused(starts, guards, n)
}

fn intervals_hold(starts: &[u32], guards: &[u32], last: u32) -> bool {
    starts[0] == 0 && guard_holds(guards[0], last) && rising_holds(starts, guards, last)
}

fn table_holds(store: &[u32], last: u32) -> bool {
    store[0] == 1
        && at_most(&store[..256], 1)
        && intervals_hold(&store[256..512], &store[512..768], last)
        && at_most(&store[768..1024], last)
}

/// Whether a table keeps the rules, where `last` is the last serial issued.
pub fn check_at(store: &[u32], last: u32) -> Reply {
    if store.len() != STORE {
        return Reply::refused(21);
    }
    if !table_holds(store, last) {
        return Reply::refused(22);
    }
    Reply::DONE
}

/// Whether a table keeps the rules.
pub fn check(store: &[u32]) -> Reply {
    check_at(store, SERIALS)
}

fn bad_serial(serial: u32) -> bool {
    serial == 0 || serial > SERIALS
}

/// A call behind the test of the table.
fn tested(store: &mut [u32], call: impl FnOnce(&mut [u32]) -> Reply) -> Reply {
    let tested = check(store);
    if tested.code != 0 {
        return tested;
    }
    call(store)
}

/// Sets a guard, numbered by its serial, over a range that lies in one tablet.
pub fn set_guard(store: &mut [u32], range: Range, serial: u32) -> Reply {
    tested(store, |store| {
        if bad_serial(serial) {
            return Reply::refused(28);
        }
        unchecked::install(store, range, serial)
    })
}

/// The version and value of an entry.
pub fn read(store: &[u32], entry: u8) -> Reply {
    let tested = check(store);
    if tested.code != 0 {
        return tested;
    }
    unchecked::read(store, entry)
}

/// A write that commits if the guard it carries is the entry's, and not barred.
pub fn write(store: &mut [u32], entry: u8, value: u32, serial: u32, guard: u32) -> Reply {
    tested(store, |store| {
        if bad_serial(serial) {
            return Reply::refused(28);
        }
        unchecked::commit(store, entry, value, serial, guard)
    })
}

/// A boundary before an entry.
pub fn split(store: &mut [u32], entry: u8) -> Reply {
    tested(store, |store| unchecked::split(store, entry))
}

/// The boundary before an entry removed.
pub fn merge(store: &mut [u32], entry: u8) -> Reply {
    tested(store, |store| unchecked::merge(store, entry))
}

/// The entries of the tablet that holds an entry are barred.
pub fn restart(store: &mut [u32], entry: u8) -> Reply {
    tested(store, |store| unchecked::restart(store, entry))
}

/// The store's operations on a table that is known to keep the rules: only the length is tested.
pub mod unchecked {
    use super::*;
    use crate::{ends, guards, tablets};

    /// Sets a guard over a range that lies in one tablet.
    pub fn install(store: &mut [u32], range: Range, guard: u32) -> Reply {
        if store.len() != STORE {
            return Reply::refused(21);
        }
        let Some((low, high)) = ends(range) else {
            return Reply::refused(28);
        };
        if !tablets::one_tablet(&store[..256], low, high) {
            return answer(2);
        }
        guards::set_over(store, low, high, guard);
        answer(1)
    }

    /// The version and value of an entry.
    pub fn read(store: &[u32], entry: u8) -> Reply {
        if store.len() != STORE {
            return Reply::refused(21);
        }
        let e = usize::from(entry);
        Reply {
            code: 0,
            a: store[768 + e],
            b: store[1024 + e],
        }
    }

    /// A write that commits if the guard it carries is the entry's, and not barred.
    pub fn commit(store: &mut [u32], entry: u8, value: u32, serial: u32, guard: u32) -> Reply {
        if store.len() != STORE {
            return Reply::refused(21);
        }
        if guard == BARRED {
            return answer(2);
        }
        if guards::find_guard(&store[256..512], &store[512..768], u32::from(entry)) != guard {
            return answer(2);
        }
        let e = usize::from(entry);
        store[768 + e] = serial;
        store[1024 + e] = value;
        answer(1)
    }

    /// A boundary before an entry.
    pub fn split(store: &mut [u32], entry: u8) -> Reply {
        if store.len() != STORE {
            return Reply::refused(21);
        }
        let e = usize::from(entry);
        if e == 0 {
            return Reply::refused(28);
        }
        if store[e] == 1 {
            return Reply::refused(35);
        }
        store[e] = 1;
        Reply::DONE
    }

    /// The boundary before an entry removed.
    pub fn merge(store: &mut [u32], entry: u8) -> Reply {
        if store.len() != STORE {
            return Reply::refused(21);
        }
        let e = usize::from(entry);
        if e == 0 {
            return Reply::refused(28);
        }
        if store[e] == 0 {
            return Reply::refused(35);
        }
        store[e] = 0;
        Reply::DONE
    }

    /// The entries of the tablet that holds an entry are barred.
    pub fn restart(store: &mut [u32], entry: u8) -> Reply {
        if store.len() != STORE {
            return Reply::refused(21);
        }
        let e = usize::from(entry);
        let low = tablets::tablet_start(&store[..256], e);
        let high = tablets::tablet_limit(&store[..256], e);
        guards::set_over(store, low, high, BARRED);
        Reply::DONE
    }
}
