//! Counting a player's pending requests in the lent list.

use calls::Request;
use model::lent::{pending_requests, records};
use model::tables::{tables_of, REQUESTS};

use crate::support::*;

fn record(serial: u32, player: u8, abandoned: u8) -> Request {
    Request {
        serial,
        player,
        abandoned,
        ..Request::default()
    }
}

/// "21 unless 64 places, then 28; nothing else is tested"
#[test]
fn refusals() {
    for length in [0, 1, 63, 65] {
        let list = vec![Request::default(); length];
        assert_eq!(pending_requests(&list, 8), refused(21));
        assert_eq!(pending_requests(&list, 0), refused(21));
    }
    let list = vec![Request::default(); 64];
    assert_eq!(pending_requests(&list, 8), refused(28));
    assert_eq!(pending_requests(&list, u8::MAX), refused(28));
    assert_eq!(pending_requests(&list, 7), reply(0, 0, 0));
}

/// Reading 19: a place counts when its serial is not 0, its mark is not set, and its player is the
/// one asked; the places may stand in any order.
#[test]
fn counts() {
    let mut list = vec![record(0, 2, 0); 64];
    list[5] = record(9, 2, 0);
    list[6] = record(8, 2, 1);
    list[7] = record(8, 3, 0);
    list[63] = record(u32::MAX, 2, 0);
    assert_eq!(pending_requests(&list, 2), reply(0, 2, 0));
    assert_eq!(pending_requests(&list, 3), reply(0, 1, 0));
    assert_eq!(pending_requests(&list, 4), reply(0, 0, 0));
    assert_eq!(pending_requests(&[record(1, 7, 0); 64], 7), reply(0, 64, 0));
}

/// A mark stands where its number is not 0; of the three only that of a request given up is looked at.
#[test]
fn marks_of_any_number() {
    for mark in 0..=u8::MAX {
        let mut list = vec![record(1, 2, mark); 64];
        list[0].abandoned = 0;
        for request in &mut list {
            (request.overlapped, request.delivered) = (mark, !mark);
        }
        let count = if mark == 0 { 64 } else { 1 };
        assert_eq!(pending_requests(&list, 2), reply(0, count, 0), "{mark}");
    }
}

/// Document 02 §2: a load is no player's; the loader's own are not counted, 28.
#[test]
fn loads_are_no_players() {
    let (_, players) = tables_of(&state_after(&[load(9, 5), read(0, 9), load(9, 6)]));
    let list = records(&players).expect("the table has its length");
    let loads: Vec<u8> = list[..3].iter().map(|r| r.player).collect();
    assert_eq!(loads, [8, 0, 8]);
    assert_eq!(pending_requests(&list, 0), reply(0, 1, 0));
    for player in 1..8 {
        assert_eq!(pending_requests(&list, player), reply(0, 0, 0));
    }
    assert_eq!(pending_requests(&list, 8), refused(28));
}

/// "*Waiting* means in flight and not given up": delivered requests count.
#[test]
fn of_a_table() {
    let steps = [
        read(0, 1),
        read(0, 2),
        read(1, 3),
        read(0, 4),
        deliver(1),
        abandon(4),
    ];
    let (_, players) = tables_of(&state_after(&steps));
    let list = records(&players).expect("the table has its length");
    assert_eq!(pending_requests(&list, 0), reply(0, 2, 0));
    assert_eq!(pending_requests(&list, 1), reply(0, 1, 0));
    assert_eq!((list[0].delivered, list[3].abandoned), (1, 1));
    assert_eq!(records(&players[1..]), None);
    let mut players = players;
    players[REQUESTS + 9] = 256;
    assert_eq!(records(&players), None);
}
