//! Whose the places for requests are: 6 of each player's own, and 16 that are common to the players and the
//! loader. The requests are counted by player in one number, seven bits for each and for the loader, that a
//! pass over them adds up.

use crate::LOADER;

/// The places that each player has of its own.
const OWN: u64 = 6;
/// The places that are common to the players and the loader.
const COMMON: u64 = 16;

/// What one request of the player adds to the counts, 2 to the power of 7 times its number, which compiles
/// to a table of nine words; a number above the loader's has no count.
pub fn unit(player: u8) -> u64 {
    match player {
        0 => 1,
        1 => 0x80,
        2 => 0x4000,
        3 => 0x20_0000,
        4 => 0x1000_0000,
        5 => 0x8_0000_0000,
        6 => 0x400_0000_0000,
        7 => 0x2_0000_0000_0000,
        LOADER => 0x100_0000_0000_0000,
        _ => 0,
    }
}

/// The count of the player, or of the loader.
fn count_in(counts: u64, player: u8) -> u64 {
    (counts >> (7 * u32::from(player))) % 128
}

/// The common places in use: the loader's requests, and each player's above its own places.
fn common(counts: u64) -> u64 {
    let above_own = |player| count_in(counts, player).saturating_sub(OWN);
    count_in(counts, LOADER) + (0..LOADER).map(above_own).sum::<u64>()
}

/// Whether no more common places are in use than there are.
pub fn are_kept(counts: u64) -> bool {
    common(counts) <= COMMON
}

/// Whether it is a player, and has a place of its own left.
fn has_own_place(counts: u64, player: u8) -> bool {
    player < LOADER && count_in(counts, player) < OWN
}

/// Whether no place is left for one more request of the player, where these are the counts of the requests
/// in flight.
pub fn is_full(counts: u64, player: u8) -> bool {
    !has_own_place(counts, player) && common(counts) >= COMMON
}
