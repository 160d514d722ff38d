//! Step 7: responses that reach the player.

use calls::{Reply, Request};

use crate::places::is_load;
use crate::{cells, counters, region};

/// Whether the player owns each entry from `low` up to `high` with an epoch below the serial; false
/// where that is no range.
fn still_owned(players: &[u32], r: Request) -> bool {
    let (low, high) = (usize::from(r.low), usize::from(r.high));
    if low >= high || high > 256 {
        return false;
    }
    let owners = &players[1 + low..1 + high];
    let epochs = &players[257 + low..257 + high];
    owners
        .iter()
        .zip(epochs)
        .all(|(&owner, &epoch)| owner == u32::from(r.player) && epoch < r.serial)
}

/// Caches a value for the entry if the guard carried is the player's live one, and no write crossed
/// it.
fn remember(players: &mut [u32], r: Request, version: u32, value: u32) {
    if r.guard == 0 || r.overlapped != 0 || cells::live_guard(players, r.player, r.low) != r.guard {
        return;
    }
    let i = usize::from(r.player) * 256 + usize::from(r.low);
    cells::cache(players, i, r.guard, version, value);
}

/// A guard request: granted, or the layout changed, or no longer held.
fn respond_guard_request(players: &mut [u32], r: Request) -> Reply {
    let said = |code| Reply::new(code, r.serial, 0);
    if !still_owned(players, r) {
        return said(7);
    }
    if r.first != 1 {
        return said(8);
    }
    let i = 513 + usize::from(r.player) * 256;
    players[i + usize::from(r.low)..i + usize::from(r.high)].fill(r.serial);
    said(6)
}

/// A read: its outcome, cached if it may be, and counted for the player that sent it.
fn respond_read(players: &mut [u32], r: Request) -> Reply {
    remember(players, r, r.first, r.second);
    counters::count(&mut players[9473..9489], r.player, 0);
    Reply::new(3, r.first, r.second)
}

/// A load: committed or rejected, and nothing follows.
fn respond_load(r: Request) -> Reply {
    if r.first != 1 {
        return Reply::new(5, r.serial, 0);
    }
    Reply::new(4, r.serial, r.value)
}

/// A write: committed, and cached if it may be; or rejected, and the guard carried is dropped.
fn respond_write(players: &mut [u32], r: Request) -> Reply {
    if r.first != 1 {
        cells::drop_guard(players, r.player, r.guard);
        return Reply::new(5, r.serial, 0);
    }
    remember(players, r, r.serial, r.value);
    Reply::new(4, r.serial, r.value)
}

/// Step 7: the request leaves, and its outcome takes effect at the player.
pub fn respond(players: &mut [u32], serial: u32) -> Reply {
    let Some((place, request)) = region::find(&players[8705..9473], serial) else {
        return Reply::refused(32);
    };
    if request.delivered == 0 || request.abandoned != 0 {
        return Reply::refused(32);
    }
    region::remove(&mut players[8705..9473], place);
    if is_load(request) {
        return respond_load(request);
    }
    match request.kind {
        3 => respond_guard_request(players, request),
        4 => respond_read(players, request),
        _ => respond_write(players, request),
    }
}
