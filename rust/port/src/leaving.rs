//! Steps 8, 9 and 13: requests that are given up, or lost.

use calls::Reply;

use crate::places::is_load;
use crate::{cells, region};

/// Step 8: a delivered request leaves, another is marked; the guard that a player's write carries is
/// dropped.
pub fn abandon(players: &mut [u32], serial: u32) -> Reply {
    let Some((place, request)) = region::find(&players[8705..9473], serial) else {
        return Reply::refused(32);
    };
    if request.abandoned != 0 {
        return Reply::refused(32);
    }
    if request.delivered != 0 {
        region::remove(&mut players[8705..9473], place);
    } else {
        region::abandon(&mut players[8705..9473], place);
    }
    if request.kind == 5 && !is_load(request) {
        cells::drop_guard(players, request.player, request.guard);
    }
    Reply::DONE
}

/// Step 9: an abandoned request leaves.
pub fn lose(players: &mut [u32], serial: u32) -> Reply {
    let Some((place, request)) = region::find(&players[8705..9473], serial) else {
        return Reply::refused(32);
    };
    if request.abandoned == 0 {
        return Reply::refused(32);
    }
    region::remove(&mut players[8705..9473], place);
    Reply::DONE
}

/// Step 13: the player's guards are cleared, each with what is cached under it, and its pending
/// requests are given up.
pub fn restart_player(players: &mut [u32], player: u8) -> Reply {
    if player > 7 {
        return Reply::refused(28);
    }
    let i = usize::from(player) * 256;
    cells::clear(players, i, i + 256);
    region::restart(&mut players[8705..9473], player);
    Reply::DONE
}
