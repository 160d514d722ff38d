//! The players' table: fresh, and the test of its rules.

use calls::Reply;

use crate::words::{above, at_most};
use crate::{counters, region, store, PLAYERS, SERIALS, STORE};

/// Makes both tables fresh.
pub fn fresh(store: &mut [u32], players: &mut [u32]) -> Reply {
    if store.len() != STORE || players.len() != PLAYERS {
        return Reply::refused(21);
    }
    players.fill(0);
    players[1..257].fill(8);
    store::fresh(store)
}

/// The bits that stand beside a guard of 0, where none may stand.
fn unguarded(guard: u32, bits: u32) -> u32 {
    if guard == 0 {
        bits
    } else {
        0
    }
}

/// No bits where a cached value keeps the rules, else some.
fn flaw(last: u32, guard: u32, version: u32, value: u32) -> u32 {
    above(guard, last) | above(version, last) | unguarded(guard, version | value)
}

/// Whether each cached value keeps the rules. The library carries player and entry along, which leave
/// nothing in its machine code; here they would be unused.
fn values_hold(players: &[u32]) -> bool {
    let last = players[0];
    let (guards, versions) = (&players[2561..4609], &players[4609..6657]);
    let values = &players[6657..8705];
    let cells = guards.iter().zip(versions).zip(values);
    let flaws = cells.fold(0, |flaws, ((&guard, &version), &value)| {
        flaws | flaw(last, guard, version, value)
    });
    flaws == 0
}

/// Whether a players' table keeps the rules.
fn players_hold(players: &[u32]) -> bool {
    let last = players[0];
    last <= SERIALS
        && at_most(&players[1..257], 8)
        && at_most(&players[257..513], last)
        && at_most(&players[513..2561], last)
        && values_hold(players)
        && region::holds(&players[8705..9473], last)
        && counters::hold(&players[9473..])
}

/// Whether both tables keep the rules.
pub fn check(store: &[u32], players: &[u32]) -> Reply {
    if store.len() != STORE || players.len() != PLAYERS {
        return Reply::refused(21);
    }
    if store::check_at(store, players[0]).code != 0 || !players_hold(players) {
        return Reply::refused(22);
    }
    Reply::DONE
}
