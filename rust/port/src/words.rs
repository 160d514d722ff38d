//! Words of a table. Bits are gathered, and no word ends a loop early, so that the compiler can test
//! several at once.

/// All bits where the word is above `n`, else none.
pub fn above(word: u32, n: u32) -> u32 {
    if word > n {
        u32::MAX
    } else {
        0
    }
}

/// Whether each word of `part` is at most `n`.
pub fn at_most(part: &[u32], n: u32) -> bool {
    part.iter().fold(0, |bits, &word| bits | above(word, n)) == 0
}

/// Whether each word of `part` is 0.
pub fn are_zero(part: &[u32]) -> bool {
    part.iter().fold(0, |bits, &word| bits | word) == 0
}
