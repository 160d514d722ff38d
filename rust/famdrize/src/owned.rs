//! The forms that own their words and bytes, on the heap; each is thin over its lent form.

mod session;
mod store;
mod tables;

pub use session::Session;
pub use store::Store;
pub use tables::Tables;

use alloc::boxed::Box;
use alloc::vec;
use alloc::vec::Vec;

use crate::Refusal;

/// Words that are 0.
fn zeros<const WORDS: usize>() -> Box<[u32; WORDS]> {
    array(vec![0; WORDS]).expect("as many words as asked for")
}

/// The same words as an array: 21 if there are more or fewer.
fn array<const WORDS: usize>(words: Vec<u32>) -> Result<Box<[u32; WORDS]>, Refusal> {
    words.try_into().map_err(|_| Refusal::TableLength)
}
