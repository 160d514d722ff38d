//! Steps 3, 4 and 5: requests that are issued.

use calls::{Range, Reply, Request};

use crate::{cells, counters, ends, issued, region, shares, SERIALS};

/// Adds a request at place `k`, the first that is not used; its serial is the last one issued.
fn add(players: &mut [u32], k: usize, r: Request) {
    players[0] = r.serial;
    region::put(&mut players[8705..9473], k, r);
}

/// Step 3: the player must own every entry of the range, and its guards there are cleared.
pub fn request_guard(players: &mut [u32], player: u8, range: Range) -> Reply {
    if player > 7 {
        return Reply::refused(28);
    }
    let Some((low, high)) = ends(range) else {
        return Reply::refused(28);
    };
    if !cells::all_are(&players[1 + low..1 + high], u32::from(player)) {
        return Reply::refused(29);
    }
    let scan = region::scan_requesting(&players[8705..9473], player, range);
    if scan.hit {
        return Reply::refused(31);
    }
    if shares::is_full(scan.counts, player) {
        return Reply::refused(38);
    }
    let last = players[0];
    if last >= SERIALS {
        return Reply::refused(34);
    }
    let i = usize::from(player) * 256;
    cells::clear(players, i + low, i + high);
    let request = Request {
        serial: last + 1,
        player,
        kind: 3,
        low: range.low,
        high: range.high,
        ..Request::default()
    };
    add(players, scan.used, request);
    issued(last + 1)
}

/// Step 4: from the cache if it holds a live value, which is counted, else a request.
pub fn read(players: &mut [u32], player: u8, entry: u8) -> Reply {
    if player > 7 {
        return Reply::refused(28);
    }
    let i = usize::from(player) * 256 + usize::from(entry);
    if cells::is_hit(players, player, entry) {
        counters::count(&mut players[9473..9489], player, 1);
        return Reply::new(2, players[4609 + i], players[6657 + i]);
    }
    let scan = region::scan_writing(&players[8705..9473], player, entry);
    if shares::is_full(scan.counts, player) {
        return Reply::refused(38);
    }
    let last = players[0];
    if last >= SERIALS {
        return Reply::refused(34);
    }
    let guard = cells::live_guard(players, player, entry);
    let request = Request {
        serial: last + 1,
        player,
        kind: 4,
        low: entry,
        guard,
        overlapped: u8::from(scan.hit),
        ..Request::default()
    };
    add(players, scan.used, request);
    issued(last + 1)
}

/// Step 5: needs ownership and a live guard, which the request carries.
pub fn write(players: &mut [u32], player: u8, entry: u8, value: u32) -> Reply {
    if player > 7 {
        return Reply::refused(28);
    }
    let e = usize::from(entry);
    if players[1 + e] != u32::from(player) {
        return Reply::refused(29);
    }
    let guard = cells::live_guard(players, player, entry);
    if guard == 0 {
        return Reply::refused(30);
    }
    let scan = region::scan_using(&players[8705..9473], player, entry);
    if shares::is_full(scan.counts, player) {
        return Reply::refused(38);
    }
    let last = players[0];
    if last >= SERIALS {
        return Reply::refused(34);
    }
    cells::cache(players, usize::from(player) * 256 + e, 0, 0, 0);
    let overlapped = scan.hit && region::cross(&mut players[8705..9473], player, entry);
    let request = Request {
        serial: last + 1,
        player,
        kind: 5,
        low: entry,
        value,
        guard,
        overlapped: u8::from(overlapped),
        ..Request::default()
    };
    add(players, scan.used, request);
    issued(last + 1)
}
