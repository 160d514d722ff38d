//! Safe calls of the proved library: a store of 256 versioned entries, eight players with a cache each, the messages between them, and
//! the sessions that record every step.
//!
//! The library is written in Rattle and proved against its contracts; `tools/library` makes the archive that this crate links. Its
//! rules are in docs/RULES.md of the repository, its tables and records in docs/FORMATS.md. The types here leave out what the library would
//! refuse: tables have their lengths and keep their rules, a [`Player`] is 0 to 7, a [`Range`] is not empty.
//!
#![cfg_attr(feature = "alloc", doc = "```")]
#![cfg_attr(not(feature = "alloc"), doc = "```ignore")]
//! use famdrize::{Player, Range, Reply, Step, Tables};
//!
//! let player = Player::new(0).unwrap();
//! let range = Range::new(40, 60).unwrap();
//! let mut tables = Tables::fresh();
//! assert_eq!(tables.step(Step::Assign { player, range }), Reply::Issued { serial: 1 });
//! assert_eq!(tables.step(Step::Read { player, entry: 45 }), Reply::Issued { serial: 2 });
//! assert_eq!(tables.step(Step::Deliver { serial: 2 }), Reply::Done);
//! assert_eq!(tables.step(Step::Respond { serial: 2 }), Reply::StoreRead { version: 0, value: 0 });
//! ```
//!
//! # Owned and lent
//!
//! `Tables`, `Store` and `Session` own their words and bytes, on the heap: they need the feature `alloc`, which is on by default.
//! [`TablesMut`], [`StoreMut`] and [`SessionMut`] have the same calls over arrays and buffers that the caller lends, and need no heap; the
//! crate is `no_std`. The words of a table change by calls alone in either form, so they keep their rules.
//!
//! # Trying a step first
//!
//! [`TablesMut::preview`] gives the reply that a step would get, [`TablesMut::preview_run`] the report and the replies of a run, of its first
//! [`PREVIEW_RECORDS`] records; `Tables` has both. They alter nothing but the list for the replies, and take about 44 KB of stack, for copies
//! of the tables.
//!
//! # Looking at the tables
//!
//! [`TablesMut::owner`], [`epoch`](TablesMut::epoch), [`held_guard`](TablesMut::held_guard), [`begins_tablet`](TablesMut::begins_tablet),
//! [`find_interval`](TablesMut::find_interval) and [`read_store`](TablesMut::read_store) tell what stands in them; `Tables` has the same.
//!
//! # Share of reads from memory
//!
//! A step counts the read that it answers, for the player who asked: [`TablesMut::counts`] tells how many there were and how many of them came
//! from memory, [`TablesMut::share`] the [`Share`] of these in thousandths, or [`Refusal::NoAnsweredRead`]; `Tables` has both. Previews count
//! nothing.
//!
//! # Places for requests
//!
//! At most [`REQUESTS`] requests are in flight. Each player has [`OWN_PLACES`] places of its own, so that one player's delayed writes do not
//! keep another from asking; the loader, and a player that has as many already, take one of the [`COMMON_PLACES`], and are refused
//! ([`Refusal::NoPlaceLeft`]) where these are taken.
//!
#![cfg_attr(feature = "alloc", doc = "```")]
#![cfg_attr(not(feature = "alloc"), doc = "```ignore")]
//! use famdrize::{Player, Refusal, Reply, Step, Tables, COMMON_PLACES, OWN_PLACES};
//!
//! let mut tables = Tables::fresh();
//! let mut read = |player: u8| {
//!     let player = Player::new(player).unwrap();
//!     tables.step(Step::Read { player, entry: 45 })
//! };
//! for _ in 0..OWN_PLACES + COMMON_PLACES {
//!     assert!(read(0).into_result().is_ok());
//! }
//! assert_eq!(read(0), Reply::Refused(Refusal::NoPlaceLeft));
//! assert_eq!(read(1), Reply::Issued { serial: 23 });
//! ```
//!
//! # Refusals
//!
//! A call that can be refused gives a [`Refusal`], and alters nothing then. A refused step is a [`Reply`] like another, since a session holds
//! it and a run goes on after it; [`Reply::into_result`] makes an error of it.
//!
//! # Later versions
//!
//! Kinds of steps, replies, refusals and words of the players' table will be added. So the enums are `non_exhaustive`, and the lengths are to
//! be named: [`STORE_WORDS`], [`PLAYERS_WORDS`].
#![no_std]
#![warn(missing_docs, clippy::undocumented_unsafe_blocks)]

#[cfg(feature = "alloc")]
extern crate alloc;
#[cfg(test)]
extern crate std;

pub mod raw;

mod counters;
mod look;
mod numbers;
#[cfg(feature = "alloc")]
mod owned;
mod preview;
mod reply;
mod report;
mod requests;
mod session;
mod step;
mod store;
mod tables;

pub use counters::{Counts, Share, LAST_COUNT};
pub use numbers::{Player, Range, Serial};
#[cfg(feature = "alloc")]
pub use owned::{Session, Store, Tables};
pub use preview::PREVIEW_RECORDS;
pub use reply::{Refusal, Reply};
pub use report::{Report, Why};
pub use requests::{pending, Request, COMMON_PLACES, LOADER, OWN_PLACES, REQUESTS};
pub use session::{decode, encode, is_marked, put_mark, Record, SessionMut};
pub use session::{MOST_RECORDS, RECORD_BYTES, SESSION_BYTES};
pub use step::{Fields, Step};
pub use store::{GuardOutcome, Interval, StoreMut, Versioned, WriteOutcome};
pub use store::{BARRED, OPEN_GUARD, STORE_WORDS};
pub use tables::{TablesMut, PLAYERS_WORDS};

/// The programs of the README, which are tested as they stand there.
#[cfg(all(doctest, feature = "alloc"))]
#[doc = include_str!("../README.md")]
struct Readme;
