//! Tests of the model. What is expected is taken from the documents, never from the model's output.

mod claim;
mod codec;
mod counters;
mod edges;
mod faults;
mod first_read;
mod intervals;
mod lent;
mod listing;
mod loads;
mod previews;
mod random;
mod run;
mod shares;
mod shrink;
mod steps;
mod store;
mod support;
mod tables;
