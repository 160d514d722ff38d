//! The code of `crates/*/src` in Rust, as it was before it was rewritten (`docs/DECISIONS.md`, 207):
//! the same tables changed in place, the same tests in the same order, the passes over the words that
//! it had then.
//!
//! It is a translation of the proved code and no evidence by itself: what is wrong there would be
//! wrong here. It serves as the baseline of `bench`, and stands in where the static library is not
//! built. It knows the kinds 1 to 13, and refuses every later one with 26; loads that a table has in
//! flight it takes as any request. The modules are those that the crates had.

#![forbid(unsafe_code)]
#![warn(missing_docs)]

mod cells;
mod counters;
mod exports;
mod fields;
mod guards;
mod issuing;
mod leaving;
mod ownership;
mod places;
mod players;
mod records;
mod region;
mod responding;
mod run;
mod shares;
mod steps;
mod store;
mod store_steps;
mod tablets;
mod words;

pub use exports::Port;

use calls::{Range, Reply, UNKNOWN_KIND};

/// Words of the store's table.
const STORE: usize = 1_280;
/// Words of the players' table.
const PLAYERS: usize = 9_489;
/// The last serial.
const SERIALS: u32 = 4_000_000;
/// The last kind.
const KINDS: u8 = 13;
/// The number of the loader, in place of a request's player.
const LOADER: u8 = 8;
/// The guard of an entry that no write matches.
const BARRED: u32 = 4_294_967_295;

/// Tests a kind: 26 where the port does not know it.
fn known(kind: u8) -> Result<(), u32> {
    if (1..=KINDS).contains(&kind) {
        Ok(())
    } else {
        Err(UNKNOWN_KIND)
    }
}

/// What is done, with its outcome.
fn answer(outcome: u32) -> Reply {
    Reply::new(0, outcome, 0)
}

/// The reply of a step that takes a serial.
fn issued(serial: u32) -> Reply {
    Reply::new(1, serial, 0)
}

/// Both ends of a range as indices, or none where 28 refuses it.
fn ends(range: Range) -> Option<(usize, usize)> {
    let (low, high) = (usize::from(range.low), usize::from(range.high));
    (low < high && high <= 256).then_some((low, high))
}
