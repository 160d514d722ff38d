//! The calls on the requests region. One that is not whole, of 768 words, has no requests and stays
//! as it is.

use calls::{Range, Request};

use crate::places::{
    carry, close, is_requesting, is_used, is_using, is_writing, overlap, places_hold, put_request,
    request_at,
};
use crate::{fields, shares};

const REGION: usize = 768;

/// What a pass over the requests tells: how many there are, whether one is of those that are looked for, and
/// how many each player has (`shares::is_full`).
pub struct Scan {
    pub used: usize,
    pub hit: bool,
    pub counts: u64,
}

/// Whether a region keeps the rules, where `last` is the last serial issued.
pub fn holds(region: &[u32], last: u32) -> bool {
    region.len() == REGION && places_hold(region, last)
}

/// The request with a serial, and its place.
pub fn find(region: &[u32], serial: u32) -> Option<(usize, Request)> {
    if region.len() != REGION {
        return None;
    }
    for k in 0..64 {
        match region[k * 12] {
            0 => return None,
            next if next == serial => return Some((k, request_at(region, k))),
            _ => {}
        }
    }
    None
}

/// A pass over all requests, compiled once for each of the three tests below.
fn scan(region: &[u32], test: impl Fn(usize) -> bool) -> Scan {
    let (mut used, mut hit, mut counts) = (0, false, 0);
    if region.len() == REGION {
        while is_used(region, used) {
            hit |= test(used);
            counts += shares::unit(fields::player(region, used));
            used += 1;
        }
    }
    Scan { used, hit, counts }
}

/// Step 3 looks for a pending guard request of the player that shares an entry with the range.
pub fn scan_requesting(region: &[u32], player: u8, range: Range) -> Scan {
    scan(region, |k| is_requesting(region, k, player, range))
}

/// Step 4 looks for a pending write of the player on the entry.
pub fn scan_writing(region: &[u32], player: u8, entry: u8) -> Scan {
    scan(region, |k| is_writing(region, k, player, entry))
}

/// Step 5 looks for a pending read or write of the player on the entry.
pub fn scan_using(region: &[u32], player: u8, entry: u8) -> Scan {
    scan(region, |k| is_using(region, k, player, entry))
}

/// Makes place `k` hold `r`.
pub fn put(region: &mut [u32], k: usize, r: Request) {
    if region.len() == REGION && k < 64 {
        put_request(region, k, r);
    }
}

/// The request of place `k` is abandoned.
pub fn abandon(region: &mut [u32], k: usize) {
    if region.len() == REGION && k < 64 {
        region[k * 12 + 9] = 1;
    }
}

/// The request of place `k` is delivered, with an outcome.
pub fn deliver(region: &mut [u32], k: usize, first: u32, second: u32) {
    if region.len() == REGION && k < 64 {
        region[k * 12 + 8] = 1;
        region[k * 12 + 10] = first;
        region[k * 12 + 11] = second;
    }
}

/// Takes place `k` out.
pub fn remove(region: &mut [u32], k: usize) {
    if region.len() == REGION && k < 64 {
        close(region, k);
    }
}

/// Marks the player's pending reads and writes on the entry as overlapped; whether a write is among them.
pub fn cross(region: &mut [u32], player: u8, entry: u8) -> bool {
    let mut hit = false;
    if region.len() == REGION {
        let mut k = 0;
        while is_used(region, k) {
            hit |= is_writing(region, k, player, entry);
            overlap(region, k, player, entry);
            k += 1;
        }
    }
    hit
}

/// Gives up the player's pending requests: those delivered leave, the others are abandoned.
pub fn restart(region: &mut [u32], player: u8) {
    if region.len() != REGION {
        return;
    }
    let (mut j, mut k) = (0, 0);
    while is_used(region, k) {
        j = carry(region, j, k, player);
        k += 1;
    }
    region[j * 12..k * 12].fill(0);
}
