//! The fields of a request, read from the words of its place.

/// A word cut to 8 bits.
pub fn byte(word: u32) -> u8 {
    (word % 256) as u8
}

/// A word cut to 16 bits.
pub fn half(word: u32) -> u16 {
    (word % 65536) as u16
}

/// A mark.
pub fn flag(word: u32) -> bool {
    word == 1
}

/// Whose request place `k` holds.
pub fn player(region: &[u32], k: usize) -> u8 {
    byte(region[k * 12 + 1])
}

/// Its kind.
pub fn kind(region: &[u32], k: usize) -> u8 {
    byte(region[k * 12 + 2])
}

/// Its entry, or the first of its range.
pub fn low(region: &[u32], k: usize) -> u8 {
    byte(region[k * 12 + 3])
}

/// The end of its range.
pub fn high(region: &[u32], k: usize) -> u16 {
    half(region[k * 12 + 4])
}

/// Whether it is abandoned.
pub fn abandoned(region: &[u32], k: usize) -> bool {
    flag(region[k * 12 + 9])
}
