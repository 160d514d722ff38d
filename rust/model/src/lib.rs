//! An independent model of document 01, "Guards, players and cached reads in a reel store", and of the
//! requests of document 02 that are in force: §1, how far a guard reaches; §2, loading before opening;
//! §4, trying a step first; §5, rows for everyone; §6, the first read from memory; §7, share of reads from
//! memory.
//!
//! It is written from the text of the documents alone, so that the proved library can be compared
//! with it: reply for reply, and word for word of both tables. Sentences of document 01 stand in
//! quotation marks beside the code that does what they say, those of document 02 with their
//! paragraph; "reading n" is an item of the written readings of document 01.
//!
//! | document 01 | here |
//! |---|---|
//! | border, stretch | boundary, guard interval |
//! | stamp, period | version, epoch |
//! | a player's guard, remembered cell | held guard, cached value |
//! | row in flight, waiting | request, pending |
//! | arrived, given up, turned back | delivered, abandoned, rejected |
//! | the line | linearization order |
//! | tally (document 02) | read counter |

#![forbid(unsafe_code)]
#![warn(missing_docs)]

pub mod broken;
pub mod claim;
pub mod codec;
pub mod counter_law;
pub mod counters;
pub mod faults;
pub mod first_read;
pub mod generate;
pub mod interleavings;
pub mod ledger;
pub mod lent;
pub mod listing;
pub mod numbers;
pub mod preview;
pub mod prng;
pub mod reply;
pub mod request_words;
pub mod rules;
pub mod run;
pub mod shares;
pub mod shrink;
pub mod state;
pub mod states;
pub mod store;
pub mod store_calls;
pub mod table_rules;
pub mod tables;
pub mod trial;
