//! Document 02 §1, "How far a guard reaches": step 14 from fresh tables.

use model::numbers::MAX_SERIAL;
use model::rules;

use crate::support::*;

/// The replies to step 14 at these entries, after other steps: first and last entry of each.
fn found(before: &[calls::Step], entries: &[u8]) -> Vec<(u32, u32)> {
    let mut state = state_after(before);
    let mut ends = Vec::new();
    for &entry in entries {
        let given = rules::step(&mut state, find_interval(entry));
        assert_eq!(given.code, 9);
        ends.push((given.a, given.b));
    }
    ends
}

/// Guard 0 everywhere is one interval.
#[test]
fn fresh_tables() {
    for entry in [0, 1, 45, 254, 255] {
        assert_eq!(last_reply(&[find_interval(entry)]), reply(9, 0, 255));
    }
}

/// "replies 9 with first and last entry": guard 2 over 40 to 60, and open entries on both sides of it.
#[test]
fn three_intervals() {
    let given = found(&guarded(), &[0, 39, 40, 45, 59, 60, 255]);
    let [below, own, above] = [(0, 39), (40, 59), (60, 255)];
    assert_eq!(given, [below, below, own, own, own, above, above]);
}

/// Intervals that begin at entry 0 and that end at entry 255.
#[test]
fn at_both_ends() {
    let steps = [
        assign(0, 0, 10),
        ask(0, 0, 10),
        deliver(2),
        assign(1, 250, 256),
        ask(1, 250, 256),
        deliver(4),
    ];
    let given = found(&steps, &[0, 9, 10, 249, 250, 255]);
    let [first, between, last] = [(0, 9), (10, 249), (250, 255)];
    assert_eq!(given, [first, first, between, between, last, last]);
    let steps = [assign(0, 0, 256), ask(0, 0, 256), deliver(2)];
    assert_eq!(found(&steps, &[0, 128, 255]), [(0, 255); 3]);
}

/// Intervals of one entry: the first, one between, the last.
#[test]
fn of_one_entry() {
    let steps = [
        assign(0, 0, 256),
        ask(0, 0, 1),
        deliver(2),
        ask(0, 45, 46),
        deliver(3),
        ask(0, 255, 256),
        deliver(4),
    ];
    let given = found(&steps, &[0, 1, 44, 45, 46, 254, 255]);
    let expected = [
        (0, 0),
        (1, 44),
        (1, 44),
        (45, 45),
        (46, 254),
        (46, 254),
        (255, 255),
    ];
    assert_eq!(given, expected);
}

/// It is a row of neighbours: the same guard beyond another one is another interval.
#[test]
fn one_guard_twice() {
    let given = found(&then(&[ask(0, 45, 50), deliver(3)]), &[44, 45, 49, 50]);
    assert_eq!(given, [(40, 44), (45, 49), (45, 49), (50, 59)]);
}

/// Tablets do not cut it: a guard set before the split, and open entries on both sides of a boundary.
#[test]
fn across_a_boundary() {
    let given = found(&then(&[split(50)]), &[40, 49, 50, 59]);
    assert_eq!(given, [(40, 59); 4]);
    assert_eq!(found(&[split(128)], &[127, 128]), [(0, 255); 2]);
    // The restart of the second tablet, 50 to 255, leaves the guard in the first.
    let steps = then(&[split(50), restart_tablet(55)]);
    let given = found(&steps, &[39, 40, 49, 50, 60]);
    assert_eq!(given, [(0, 39), (40, 49), (40, 49), (50, 255), (50, 255)]);
    // After that of the first, both sides of the boundary are barred.
    let steps = then(&[split(50), restart_tablet(55), restart_tablet(45)]);
    assert_eq!(found(&steps, &[0, 49, 50, 255]), [(0, 255); 4]);
    // Two boundaries inside one interval.
    let steps = then(&[split(45), split(50)]);
    assert_eq!(found(&steps, &[44, 45, 49, 50]), [(40, 59); 4]);
}

/// It is the store's guard that reaches: not one that is only asked for, and also where no player has
/// it any more.
#[test]
fn the_stores_guard() {
    let asked = [assign(0, 40, 60), ask(0, 40, 60)];
    assert_eq!(found(&asked, &[45]), [(0, 255)]);
    let steps = then(&[restart_player(0), release(40, 60)]);
    assert_eq!(found(&steps, &[45]), [(40, 59)]);
}

/// "and alters nothing": no serial is taken, no place is needed, and 28 to 35 and 38 do not occur.
#[test]
fn nothing_is_altered() {
    let mut state = state_after(&then(&[read(0, 45), write(0, 46, 7), deliver(3)]));
    let before = state.clone();
    for entry in 0..=255 {
        assert_eq!(rules::step(&mut state, find_interval(entry)).code, 9);
        assert_eq!(state, before);
    }
    assert_eq!(rules::step(&mut state, assign(0, 0, 1)), reply(1, 5, 0));
    for _ in 0..20 {
        assert_eq!(rules::step(&mut state, read(0, 50)).code, 1);
    }
    state.last_serial = MAX_SERIAL;
    assert_eq!(rules::step(&mut state, read(0, 50)), refused(38));
    assert_eq!(rules::step(&mut state, assign(0, 0, 1)), refused(34));
    let before = state.clone();
    let given = rules::step(&mut state, find_interval(45));
    assert_eq!(given, reply(9, 40, 59));
    assert_eq!(state, before);
}
