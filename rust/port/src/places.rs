//! One place of the requests region: 12 words, which hold a request; and tests of one request, by its place,
//! of which most end at the first word that they read, or once it has been read.

use calls::{Range, Request};

use crate::words::are_zero;
use crate::{fields, shares, LOADER};

/// The request of place `k`.
pub fn request_at(region: &[u32], k: usize) -> Request {
    let words = &region[k * 12..k * 12 + 12];
    Request {
        serial: words[0],
        player: fields::byte(words[1]),
        kind: fields::byte(words[2]),
        low: fields::byte(words[3]),
        high: fields::half(words[4]),
        value: words[5],
        guard: words[6],
        overlapped: u8::from(fields::flag(words[7])),
        delivered: u8::from(fields::flag(words[8])),
        abandoned: u8::from(fields::flag(words[9])),
        first: words[10],
        second: words[11],
    }
}

/// Whether there is a place `k`, and it is used.
pub fn is_used(region: &[u32], k: usize) -> bool {
    k < 64 && region[k * 12] != 0
}

/// Makes place `k` hold `r`.
pub fn put_request(region: &mut [u32], k: usize, r: Request) {
    region[k * 12..k * 12 + 12].copy_from_slice(&[
        r.serial,
        u32::from(r.player),
        u32::from(r.kind),
        u32::from(r.low),
        u32::from(r.high),
        r.value,
        r.guard,
        u32::from(r.overlapped),
        u32::from(r.delivered),
        u32::from(r.abandoned),
        r.first,
        r.second,
    ]);
}

/// Takes place `k` out: later places move down by one, and the last becomes unused.
pub fn close(region: &mut [u32], k: usize) {
    region.copy_within(k * 12 + 12.., k * 12);
    region[756..768].fill(0);
}

/// Marks the request of place `k` as overlapped if it is a pending read or write of the player on the entry.
pub fn overlap(region: &mut [u32], k: usize, player: u8, entry: u8) {
    if is_using(region, k, player, entry) {
        region[k * 12 + 7] = 1;
    }
}

/// Carries the request of place `k` over to place `j` if it remains when the player restarts. The
/// place for the next one.
pub fn carry(region: &mut [u32], j: usize, k: usize, player: u8) -> usize {
    let r = request_at(region, k);
    if !remains(r, player) {
        return j;
    }
    if j != k {
        region.copy_within(k * 12..k * 12 + 12, j * 12);
    }
    if r.player == player {
        region[j * 12 + 9] = 1;
    }
    j + 1
}

/// Whether place `k` holds a pending guard request of the player that shares an entry with the range.
pub fn is_requesting(region: &[u32], k: usize, player: u8, range: Range) -> bool {
    fields::player(region, k) == player
        && fields::kind(region, k) == 3
        && !fields::abandoned(region, k)
        && u16::from(fields::low(region, k)) < range.high
        && u16::from(range.low) < fields::high(region, k)
}

/// Whether place `k` holds a pending write of the player on the entry.
pub fn is_writing(region: &[u32], k: usize, player: u8, entry: u8) -> bool {
    fields::low(region, k) == entry
        && fields::player(region, k) == player
        && fields::kind(region, k) == 5
        && !fields::abandoned(region, k)
}

/// Whether place `k` holds a pending read or write of the player on the entry.
pub fn is_using(region: &[u32], k: usize, player: u8, entry: u8) -> bool {
    fields::low(region, k) == entry
        && fields::player(region, k) == player
        && fields::kind(region, k) != 3
        && !fields::abandoned(region, k)
}

/// Whether a request remains when the player restarts: all but those of its pending ones that are
/// delivered.
fn remains(r: Request, player: u8) -> bool {
    r.player != player || r.abandoned != 0 || r.delivered == 0
}

/// Whether a request is a load: it has the loader's number in place of a player's.
pub fn is_load(r: Request) -> bool {
    r.player == LOADER
}

/// Whether the fields that a load has keep the rules.
fn load_holds(r: Request) -> bool {
    r.kind == 5 && r.high == 0 && r.guard == 0 && r.overlapped == 0
}

/// Whether the fields that a request's kind has, and those that it lacks, keep the rules.
fn fields_hold(r: Request) -> bool {
    if is_load(r) {
        return load_holds(r);
    }
    match r.kind {
        3 => {
            u16::from(r.low) < r.high
                && r.high <= 256
                && r.value == 0
                && r.guard == 0
                && r.overlapped == 0
        }
        4 => r.high == 0 && r.value == 0,
        5 => r.high == 0 && r.guard != 0,
        _ => false,
    }
}

/// Whether a request's outcome keeps the rules.
fn outcome_holds(r: Request, last: u32) -> bool {
    if r.delivered == 0 {
        return r.first == 0 && r.second == 0;
    }
    if r.abandoned != 0 {
        return false;
    }
    if r.kind == 4 {
        return r.first <= last;
    }
    (1..=2).contains(&r.first) && r.second == 0
}

/// Whether a request keeps the rules.
fn request_holds(r: Request, last: u32) -> bool {
    r.serial <= last
        && r.player <= LOADER
        && r.guard < r.serial
        && fields_hold(r)
        && outcome_holds(r, last)
}

/// Whether the words of a place fit their fields.
fn words_fit(words: &[u32]) -> bool {
    (words[1] <= u32::from(LOADER))
        & (words[2] <= 255)
        & (words[3] <= 255)
        & (words[4] <= 65535)
        & (words[7] <= 1)
        & (words[8] <= 1)
        & (words[9] <= 1)
}

/// Whether the 64 places keep the rules, and the players their shares of them.
pub fn places_hold(region: &[u32], last: u32) -> bool {
    let mut counts = 0;
    let mut serial = 0;
    let mut k = 0;
    while is_used(region, k) {
        let words = &region[k * 12..k * 12 + 12];
        let r = request_at(region, k);
        if r.serial <= serial || !words_fit(words) || !request_holds(r, last) {
            return false;
        }
        counts += shares::unit(r.player);
        serial = r.serial;
        k += 1;
    }
    are_zero(&region[k * 12..]) && shares::are_kept(counts)
}
