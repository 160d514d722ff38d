//! Every case of "At the edges".

use model::codec::decode;
use model::numbers::MAX_SERIAL;
use model::reply::Refusal;
use model::rules;
use model::state::State;

use crate::support::*;

/// "Fresh, assign player 7, 0 to 256: 1 1 0."
#[test]
fn assign_everything() {
    assert_eq!(last_reply(&[assign(7, 0, 256)]), reply(1, 1, 0));
}

/// "Player 8, low 5 high 5, high 257: each 28."
#[test]
fn bad_numbers() {
    assert_eq!(last_reply(&[assign(8, 0, 256)]), refused(28));
    assert_eq!(last_reply(&[assign(7, 5, 5)]), refused(28));
    assert_eq!(last_reply(&[assign(7, 0, 257)]), refused(28));
}

/// "Ask by a non-owner: 29."
#[test]
fn ask_by_a_non_owner() {
    assert_eq!(last_reply(&[ask(0, 0, 1)]), refused(29));
    assert_eq!(last_reply(&[assign(0, 0, 9), ask(1, 0, 9)]), refused(29));
    assert_eq!(last_reply(&[assign(0, 0, 9), ask(0, 0, 10)]), refused(29));
}

/// "Write by an owner without guard: 30."
#[test]
fn write_without_a_guard() {
    let steps = [assign(0, 0, 9), write(0, 3, 1)];
    assert_eq!(last_reply(&steps), refused(30));
}

/// "Split at 128: 0; again: 35; at 0: 28."
#[test]
fn split_and_split_again() {
    let given = replies(&[split(128), split(128), split(0)]);
    assert_eq!(given, [reply(0, 0, 0), refused(35), refused(28)]);
}

/// "Split 50, assign and ask 40 to 60, arrive, answer: 8 2 0."
#[test]
fn ask_across_a_boundary() {
    let steps = [
        split(50),
        assign(0, 40, 60),
        ask(0, 40, 60),
        deliver(2),
        respond(2),
    ];
    assert_eq!(last_reply(&steps), reply(8, 2, 0));
}

/// "Arriving twice: 32."
#[test]
fn deliver_twice() {
    let given = replies(&[read(0, 0), deliver(1), deliver(1)]);
    assert_eq!(given[1..], [reply(0, 0, 0), refused(32)]);
}

/// "Unowned read, answered, read again: code 1, not 2."
#[test]
fn unowned_read_is_not_cached() {
    let given = replies(&[read(0, 0), deliver(1), respond(1), read(0, 0)]);
    assert_eq!(given[2], reply(3, 0, 0));
    assert_eq!(given[3], reply(1, 2, 0));
}

/// "Records: none 24; 40: 25; 02 00: 27; 01 C8: 26; 03 04 00: 27; 07 04 00: 24."
#[test]
fn bad_records() {
    let cases: [(&[u8], Refusal); 6] = [
        (&[], Refusal::RecordCut),
        (&[0x40], Refusal::RecordBits),
        (&[0x02, 0x00], Refusal::RecordFields),
        (&[0x01, 0xC8], Refusal::RecordKind),
        (&[0x03, 0x04, 0x00], Refusal::RecordFields),
        (&[0x07, 0x04, 0x00], Refusal::RecordCut),
    ];
    for (bytes, refusal) in cases {
        assert_eq!(decode(bytes), Err(refusal), "{bytes:02X?}");
    }
    let numbers: Vec<u32> = cases.iter().map(|(_, r)| r.number()).collect();
    assert_eq!(numbers, [24, 25, 27, 26, 27, 24]);
}

/// "Serial 4,000,000 issued, then assign: 34."
#[test]
fn no_serial_left() {
    let mut state = State::fresh();
    state.last_serial = MAX_SERIAL - 1;
    let last = rules::step(&mut state, assign(0, 0, 1));
    assert_eq!(last, reply(1, 4_000_000, 0));
    assert_eq!(rules::step(&mut state, assign(0, 0, 1)), refused(34));
}

/// "The 65th row: 33; give up and lose one, then it goes in." Document 02 §5: "The case of the 65th row
/// becomes one player's 23rd, with 38."
#[test]
fn no_place_left() {
    let mut steps = vec![read(0, 0); 23];
    assert_eq!(replies(&steps)[21], reply(1, 22, 0));
    assert_eq!(last_reply(&steps), refused(38));
    steps.extend([abandon(9), read(0, 0), lose(9), read(0, 0)]);
    assert_eq!(
        replies(&steps)[23..],
        [reply(0, 0, 0), refused(38), reply(0, 0, 0), reply(1, 23, 0)]
    );
}
