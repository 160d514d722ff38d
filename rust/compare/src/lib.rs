//! Compares any [`calls::Library`] with the model of the rules: every reply, and every word of both
//! tables, buffers and lists, on random and hand-made cases.
//!
//! | Module | Holds |
//! |---|---|
//! | `oracle` | the model as a library, also with one of its faults |
//! | `case` | one case: start tables and what is called; how library and model differ on it |
//! | `shrink` | a failing case made small, and printed as a session file |
//! | `cells` | which replies each call can give, written down from the documents, and counts of them |
//! | `situations`, `shares`, `first_reads`, `counters` | what else must occur: sorts of guards and guard intervals, loads, shares of places, first reads from memory, reads counted and their shares, broken tables, ends of previews |
//! | `suites` | the cases, in groups |
//! | `wrong`, `wrong_previews`, `wrong_counters` | libraries that are wrong in one point each, to show that the comparison sees it |

#![forbid(unsafe_code)]
#![warn(missing_docs)]

pub mod case;
pub mod cells;
pub mod counters;
pub mod first_reads;
pub mod oracle;
pub mod shares;
pub mod shrink;
pub mod situations;
pub mod suites;
pub mod wrong;
pub mod wrong_counters;
pub mod wrong_previews;
