//! What the players have for each entry: the guards that they hold, and the values that they have
//! cached.

/// The guard that the player holds for the entry if it is live, else 0.
pub fn live_guard(players: &[u32], player: u8, entry: u8) -> u32 {
    let e = usize::from(entry);
    let guard = players[513 + usize::from(player) * 256 + e];
    if guard == 0 || players[1 + e] != u32::from(player) || players[257 + e] >= guard {
        return 0;
    }
    guard
}

/// Whether what the player has cached for the entry may be read.
pub fn is_hit(players: &[u32], player: u8, entry: u8) -> bool {
    let guard = players[2561 + usize::from(player) * 256 + usize::from(entry)];
    guard != 0 && live_guard(players, player, entry) == guard
}

/// Whether each word is `v`.
pub fn all_are(words: &[u32], v: u32) -> bool {
    words.iter().all(|&word| word == v)
}

/// Caches a value in cell `i`, or empties it.
pub fn cache(players: &mut [u32], i: usize, guard: u32, version: u32, value: u32) {
    players[2561 + i] = guard;
    players[4609 + i] = version;
    players[6657 + i] = value;
}

/// Clears the guards of cells `low` up to `high`, each with what is cached under it.
pub fn clear(players: &mut [u32], low: usize, high: usize) {
    for column in [513, 2561, 4609, 6657] {
        players[column + low..column + high].fill(0);
    }
}

/// Clears each guard of the player that is `guard`, with what is cached under it.
pub fn drop_guard(players: &mut [u32], player: u8, guard: u32) {
    let low = usize::from(player) * 256;
    for i in low..low + 256 {
        if players[513 + i] == guard {
            players[513 + i] = 0;
            cache(players, i, 0, 0, 0);
        }
    }
}
