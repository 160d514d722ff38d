//! The store used alone: its calls on a table of 1,280 words.
//!
//! Reading 20: "The store used alone tests 21, 22, 28, 35 in that order. A write's carried guard
//! is not tested (0 or a strange number is turned back). Setting a guard replies 0, outcome, 0; a
//! read 0, version, value; a write 0, outcome, 0." By document 02 §2 a carried 0 matches an open guard;
//! the number of barred is a strange one. Document 02 §1 adds a guard interval, which has its own four
//! numbers.

use calls::{Interval, Range, Reply};

use crate::faults::{NoFault, Switches};
use crate::numbers::{Entries, MAX_SERIAL};
use crate::reply::{code, Refusal};
use crate::store::Store;
use crate::tables::{decode_store, encode_store, STORE_WORDS};

/// "Making tables fresh tests 21 only."
pub fn fresh(words: &mut [u32]) -> Reply {
    if words.len() != STORE_WORDS {
        return Reply::from(Refusal::TableLength);
    }
    encode_store(&Store::fresh(), words);
    Reply::DONE
}

/// Tests 21 and 22; "there 4,000,000 stands for the last serial issued".
pub fn check(words: &[u32]) -> Reply {
    check_at(words, MAX_SERIAL)
}

/// Tests 21 and 22 for a last serial.
pub fn check_at(words: &[u32], last_serial: u32) -> Reply {
    match decode_store(words, last_serial) {
        Ok(_) => Reply::DONE,
        Err(error) => Reply::from(error.refusal()),
    }
}

/// Tests 21 and 22, then 28, then does the call on the store and puts it back unless refused.
fn on_store(
    words: &mut [u32],
    numbers_good: bool,
    call: impl FnOnce(&mut Store) -> Result<Reply, Refusal>,
) -> Reply {
    let mut store = match decode_store(words, MAX_SERIAL) {
        Ok(store) => store,
        Err(error) => return Reply::from(error.refusal()),
    };
    if !numbers_good {
        return Reply::from(Refusal::Number);
    }
    let result = call(&mut store);
    if result.is_ok() {
        encode_store(&store, words);
    }
    result.unwrap_or_else(Reply::from)
}

/// "a request's or write's serial of 0 or above that is 28"
fn serial_good(serial: u32) -> bool {
    (1..=MAX_SERIAL).contains(&serial)
}

/// What step 6 does for a guard request.
pub fn set_guard(words: &mut [u32], range: Range, serial: u32) -> Reply {
    on_store(words, range.is_valid() && serial_good(serial), |store| {
        let outcome = store.set_guard(range, serial, &NoFault);
        Ok(Reply::new(code::DONE, outcome as u32, 0))
    })
}

/// What step 6 does for a read.
pub fn read(words: &[u32], entry: u8) -> Reply {
    match decode_store(words, MAX_SERIAL) {
        Ok(store) => {
            let held = store.read(entry);
            Reply::new(code::DONE, held.version, held.value)
        }
        Err(error) => Reply::from(error.refusal()),
    }
}

/// Document 02 §1: "Finding an entry's guard must also give its stretch's first and last entry". It
/// is 0 with the three, or 21, 22.
pub fn find_interval(words: &[u32], entry: u8) -> Interval {
    find_interval_with(words, entry, &NoFault)
}

/// The same with a fault.
pub fn find_interval_with(words: &[u32], entry: u8, faults: &impl Switches) -> Interval {
    match decode_store(words, MAX_SERIAL) {
        Ok(store) => {
            let found = store.find_interval(entry, faults);
            Interval {
                code: code::DONE,
                guard: found.guard,
                first: found.first as u32,
                last: found.last as u32,
            }
        }
        Err(error) => Interval::refused(error.refusal().number()),
    }
}

/// What step 6 does for a write. "the same write handed in twice may commit twice"
pub fn write(words: &mut [u32], entry: u8, serial: u32, value: u32, guard: u32) -> Reply {
    write_with(words, entry, serial, value, guard, &NoFault)
}

/// The same with a fault.
pub fn write_with(
    words: &mut [u32],
    entry: u8,
    serial: u32,
    value: u32,
    guard: u32,
    faults: &impl Switches,
) -> Reply {
    on_store(words, serial_good(serial), |store| {
        let outcome = store.write(entry, serial, value, guard, faults);
        Ok(Reply::new(code::DONE, outcome as u32, 0))
    })
}

/// Step 10: "split or merge at entry 0" is 28, "split at a border" is 35.
pub fn split(words: &mut [u32], entry: u8) -> Reply {
    on_store(words, entry != 0, |store| {
        store.split(entry, &NoFault).map(|()| Reply::DONE)
    })
}

/// Step 11: "split or merge at entry 0" is 28, "merge where none is" is 35.
pub fn merge(words: &mut [u32], entry: u8) -> Reply {
    on_store(words, entry != 0, |store| {
        store.merge(entry).map(|()| Reply::DONE)
    })
}

/// Step 12.
pub fn restart(words: &mut [u32], entry: u8) -> Reply {
    on_store(words, true, |store| {
        store.restart(entry, &NoFault);
        Ok(Reply::DONE)
    })
}
