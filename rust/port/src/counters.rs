//! The read counters: for each player two words, its answered reads, and those of them from memory.

use calls::Reply;

use crate::players;
use crate::words::above;

/// The highest count.
const LIMIT: u32 = 4_000_000_000;

/// One more answered read of the player, of which `hits` came from memory: 1 or 0. Where that is above the limit both
/// counts stay; those from memory are never more than all, so that one test does.
pub fn count(counters: &mut [u32], player: u8, hits: u32) {
    let i = usize::from(player) * 2;
    if counters[i] < LIMIT {
        counters[i] += 1;
        counters[i + 1] += hits;
    }
}

/// Whether each counter keeps the rules.
pub fn hold(counters: &[u32]) -> bool {
    let flaws = counters.chunks_exact(2).fold(0, |flaws, counter| {
        flaws | above(counter[0], LIMIT) | above(counter[1], counter[0])
    });
    flaws == 0
}

/// The share of the player's reads from memory, in thousandths.
pub fn share(store: &[u32], players: &[u32], player: u8) -> Reply {
    let tested = players::check(store, players);
    if tested.code != 0 {
        return tested;
    }
    if player > 7 {
        return Reply::refused(28);
    }
    let i = 9473 + usize::from(player) * 2;
    let (answered, hits) = (u64::from(players[i]), u64::from(players[i + 1]));
    if answered == 0 {
        return Reply::refused(39);
    }
    let product = hits * 1000;
    Reply::new(0, (product / answered) as u32, (product % answered) as u32)
}
