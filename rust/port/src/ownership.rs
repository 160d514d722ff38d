//! Steps 1 and 2: who owns the entries.

use calls::{Range, Reply};

use crate::{ends, issued, SERIALS};

/// A serial is taken; owner (8 for nobody) and epoch are set over the range.
fn set_owner(players: &mut [u32], owner: u8, range: Range) -> Reply {
    let Some((low, high)) = ends(range) else {
        return Reply::refused(28);
    };
    let last = players[0];
    if last >= SERIALS {
        return Reply::refused(34);
    }
    let serial = last + 1;
    players[0] = serial;
    players[1 + low..1 + high].fill(u32::from(owner));
    players[257 + low..257 + high].fill(serial);
    issued(serial)
}

/// Step 1: the player owns the range.
pub fn assign(players: &mut [u32], player: u8, range: Range) -> Reply {
    if player > 7 {
        return Reply::refused(28);
    }
    set_owner(players, player, range)
}

/// Step 2: nobody owns the range.
pub fn release(players: &mut [u32], range: Range) -> Reply {
    set_owner(players, 8, range)
}
