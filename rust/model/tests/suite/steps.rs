//! The thirteen steps of document 01, sentence by sentence, with its readings. (What document 02 §2
//! makes of the store's guards is in `loads`; a restart bars here too.)

use model::numbers::{BARRED, MAX_SERIAL, NOBODY};
use model::rules;
use model::state::{Cached, Operation};
use model::store::{Versioned, WriteOutcome};

use crate::support::*;

/// "1 assign, 2 release: take a serial, set owner (8 for release) and period over the range."
#[test]
fn assign_and_release() {
    let state = state_after(&[assign(3, 10, 20), release(15, 18)]);
    assert_eq!((state.owners[9], state.epochs[9]), (NOBODY, 0));
    assert_eq!((state.owners[10], state.epochs[10]), (3, 1));
    assert_eq!((state.owners[15], state.epochs[15]), (NOBODY, 2));
    assert_eq!((state.owners[18], state.epochs[18]), (3, 1));
    assert_eq!((state.owners[20], state.epochs[20]), (NOBODY, 0));
    assert_eq!(state.last_serial, 2);
}

/// Reading 8: they clear no guard and no cached value, and end liveness, also for the same player.
#[test]
fn assigning_again_ends_liveness() {
    let steps = then(&[read(0, 45), deliver(3), respond(3), assign(0, 40, 60)]);
    let mut state = state_after(&steps);
    assert_eq!(state.held[0][45], 2);
    assert_eq!(state.cached[0][45].guard, 2);
    assert_eq!(rules::step(&mut state, write(0, 45, 1)), refused(30));
    assert_eq!(rules::step(&mut state, read(0, 45)), reply(1, 5, 0));
    let sent = state.requests[0].operation;
    assert!(matches!(sent, Operation::Read { guard: 0, .. }));
    assert_eq!(state.cached[0][45].guard, 2, "reading 9");
}

/// "Its guards there are cleared." "Clearing a guard empties that cell too."
#[test]
fn asking_clears() {
    let steps = then(&[read(0, 45), deliver(3), respond(3), ask(0, 45, 46)]);
    let state = state_after(&steps);
    assert_eq!((state.held[0][44], state.held[0][45]), (2, 0));
    assert_eq!(state.cached[0][45], Cached::EMPTY);
}

/// "31 a waiting guard request of this player shares an entry". Reading 10: also a delivered one.
#[test]
fn shared_guard_requests() {
    let mut state = state_after(&[assign(0, 0, 20), ask(0, 5, 10)]);
    assert_eq!(rules::step(&mut state, ask(0, 9, 12)), refused(31));
    assert_eq!(rules::step(&mut state, ask(0, 0, 6)), refused(31));
    assert_eq!(rules::step(&mut state, ask(0, 10, 12)), reply(1, 3, 0));
    assert_eq!(rules::step(&mut state, deliver(2)), reply(0, 0, 0));
    assert_eq!(rules::step(&mut state, ask(0, 9, 10)), refused(31));
    assert_eq!(rules::step(&mut state, assign(1, 0, 20)), reply(1, 4, 0));
    assert_eq!(rules::step(&mut state, ask(1, 9, 12)), reply(1, 5, 0));
    assert_eq!(rules::step(&mut state, abandon(5)), reply(0, 0, 0));
    assert_eq!(rules::step(&mut state, ask(1, 9, 12)), reply(1, 6, 0));
}

/// "if the cell is full, its guard equals the player's guard and that is live, the reply comes
/// from memory and nothing is altered", but for the read counter (document 02 §7).
#[test]
fn read_from_memory() {
    let steps = then(&[
        write(0, 45, 7),
        deliver(3),
        respond(3),
        read(0, 46),
        deliver(4),
        respond(4),
    ]);
    let mut state = state_after(&steps);
    let mut expected = state.clone();
    assert_eq!(rules::step(&mut state, read(0, 45)), reply(2, 3, 7));
    assert_eq!(rules::step(&mut state, read(0, 46)), reply(2, 0, 0));
    expected.counters[0] = counter(3, 2);
    assert_eq!(state, expected);
    assert_eq!(rules::step(&mut state, read(0, 47)), reply(1, 5, 0));
    assert_eq!(rules::step(&mut state, read(1, 45)), reply(1, 6, 0));
}

/// Reading 6: a read from memory needs neither place nor serial.
#[test]
fn read_from_memory_when_full() {
    let mut state = state_after(&then(&[read(0, 45), deliver(3), respond(3)]));
    state.last_serial = MAX_SERIAL;
    assert_eq!(rules::step(&mut state, read(0, 45)), reply(2, 0, 0));
    assert_eq!(rules::step(&mut state, read(0, 46)), refused(34));
    state.last_serial = 3;
    for serial in 4..26 {
        assert_eq!(rules::step(&mut state, read(0, 46)), reply(1, serial, 0));
    }
    assert_eq!(rules::step(&mut state, read(0, 45)), reply(2, 0, 0));
    assert_eq!(rules::step(&mut state, read(0, 46)), refused(38));
    state.last_serial = MAX_SERIAL;
    assert_eq!(rules::step(&mut state, read(0, 45)), reply(2, 0, 0));
    assert_eq!(rules::step(&mut state, read(0, 46)), refused(38), "38, 34");
}

/// "overlapped if a write by this player on this entry waits". Reading 10: also a delivered one.
#[test]
fn read_beside_a_write() {
    let steps = then(&[write(0, 45, 1), read(0, 45), read(0, 46), read(1, 45)]);
    let state = state_after(&steps);
    let expected = [(3, false), (4, true), (5, false), (6, false)];
    assert_eq!(marks(&state), expected);
    let steps = then(&[write(0, 45, 1), deliver(3), read(0, 45)]);
    assert_eq!(marks(&state_after(&steps)), [(3, false), (4, true)]);
    let steps = then(&[
        write(0, 45, 1),
        abandon(3),
        ask(0, 40, 60),
        deliver(4),
        respond(4),
        read(0, 45),
    ]);
    assert_eq!(marks(&state_after(&steps)), [(3, false), (5, false)]);
}

/// "Empties the cell; marks this player's waiting reads and writes on the entry overlapped; is
/// itself overlapped if one of them was a write." Reading 11: a read does not overlap the write.
#[test]
fn write_marks() {
    let steps = then(&[
        read(0, 45),
        deliver(3),
        respond(3),
        read(0, 46),
        read(1, 45),
        write(0, 46, 1),
        write(0, 46, 2),
        write(0, 45, 3),
    ]);
    let state = state_after(&steps);
    let expected = [(4, true), (5, false), (6, true), (7, true), (8, false)];
    assert_eq!(marks(&state), expected);
    assert_eq!(state.cached[0][45], Cached::EMPTY);
    // A read that carries 0 is marked too: sent before the guard was granted.
    let steps = [
        assign(0, 45, 46),
        read(0, 45),
        ask(0, 45, 46),
        deliver(3),
        respond(3),
        write(0, 45, 1),
    ];
    assert_eq!(marks(&state_after(&steps)), [(2, true), (4, false)]);
}

/// "5 write: needs ownership and a live guard": 29, then 30; then 38, 34.
#[test]
fn write_refusals() {
    let mut state = state_after(&guarded());
    assert_eq!(rules::step(&mut state, write(8, 45, 1)), refused(28));
    assert_eq!(rules::step(&mut state, write(1, 45, 1)), refused(29));
    assert_eq!(rules::step(&mut state, write(0, 60, 1)), refused(29));
    state.last_serial = MAX_SERIAL;
    assert_eq!(rules::step(&mut state, write(0, 45, 1)), refused(34));
    state.held[0][45] = 0;
    assert_eq!(rules::step(&mut state, write(0, 45, 1)), refused(30));
}

/// "Write: commits if the carried guard equals the entry's guard, ... else is turned back."
#[test]
fn writes_at_the_store() {
    let state = state_after(&then(&[write(0, 45, 7), deliver(3)]));
    assert_eq!((state.store.versions[45], state.store.values[45]), (3, 7));
    let steps = then(&[write(0, 45, 7), restart_tablet(45), deliver(3)]);
    let mut state = state_after(&steps);
    assert_eq!((state.store.versions[45], state.store.values[45]), (0, 0));
    let delivered = state.requests[0].operation;
    assert!(matches!(
        delivered,
        Operation::Write {
            outcome: Some(WriteOutcome::Rejected),
            ..
        }
    ));
    assert_eq!(rules::step(&mut state, respond(3)), reply(5, 3, 0));
    assert_eq!(state.held[0], [0; 256], "every entry with guard 2");
}

/// "A given-up row then leaves." It still takes effect (reading 15 for a guard request).
#[test]
fn abandoned_requests_arrive() {
    let state = state_after(&then(&[write(0, 45, 7), abandon(3), deliver(3)]));
    assert_eq!((state.store.versions[45], state.store.values[45]), (3, 7));
    assert!(state.requests.is_empty());
    let steps = [assign(0, 1, 3), ask(0, 1, 3), abandon(2), deliver(2)];
    let state = state_after(&steps);
    assert_eq!(state.store.guards[..4], [0, 2, 2, 0]);
    assert!(state.requests.is_empty());
}

/// "if the player owns every entry with period below the serial, success sets its guards there,
/// layout changed is said so; if not, 'not held', whatever the outcome."
#[test]
fn guard_answers() {
    let start = [assign(0, 40, 60), ask(0, 40, 60), deliver(2)];
    let answered = |more: &[_]| {
        let steps = [&start[..], more, &[respond(2)]].concat();
        last_reply(&steps)
    };
    assert_eq!(answered(&[]), reply(6, 2, 0));
    assert_eq!(answered(&[assign(1, 50, 51)]), reply(7, 2, 0));
    assert_eq!(answered(&[assign(0, 50, 51)]), reply(7, 2, 0));
    assert_eq!(answered(&[release(59, 60)]), reply(7, 2, 0));
    assert_eq!(answered(&[release(60, 61)]), reply(6, 2, 0));
    // Reading 15: whatever happened to the store's guard since.
    assert_eq!(answered(&[restart_tablet(45)]), reply(6, 2, 0));
    let lost = [
        split(50),
        assign(0, 40, 60),
        ask(0, 40, 60),
        deliver(2),
        release(40, 41),
        respond(2),
    ];
    assert_eq!(last_reply(&lost), reply(7, 2, 0));
    let state = state_after(&lost);
    assert_eq!(state.held[0], [0; 256]);
    assert_eq!(state.store.guards, [0; 256]);
}

/// "remembered if the carried guard is not 0, is the player's present guard, is live, and the row
/// is not overlapped"
#[test]
fn what_is_cached() {
    let cached = |steps: &[_]| state_after(&then(steps)).cached[0][45];
    let value = |guard, version, value| Cached {
        guard,
        version,
        value,
    };
    let answered = cached(&[read(0, 45), deliver(3), respond(3)]);
    assert_eq!(answered, value(2, 0, 0));
    let answered = cached(&[write(0, 45, 7), deliver(3), respond(3)]);
    assert_eq!(answered, value(2, 3, 7));
    // Overlapped.
    let answered = cached(&[
        write(0, 45, 7),
        read(0, 45),
        deliver(3),
        respond(3),
        deliver(4),
        respond(4),
    ]);
    assert_eq!(answered, value(2, 3, 7), "the write's answer");
    let answered = cached(&[write(0, 45, 7), read(0, 45), deliver(4), respond(4)]);
    assert_eq!(answered, Cached::EMPTY);
    // Another present guard.
    let answered = cached(&[
        read(0, 45),
        ask(0, 45, 46),
        deliver(4),
        respond(4),
        deliver(3),
        respond(3),
    ]);
    assert_eq!(answered, Cached::EMPTY);
    // Not live.
    let answered = cached(&[read(0, 45), assign(0, 45, 46), deliver(3), respond(3)]);
    assert_eq!(answered, Cached::EMPTY);
}

/// "8 give up: an arrived row leaves, another is marked. For a write the clearing is the same."
/// Reading 12: also for a delivered committed write, and at all entries with the guard.
#[test]
fn abandoning() {
    let state = state_after(&then(&[write(0, 45, 7), abandon(3)]));
    assert!(state.requests[0].abandoned);
    assert_eq!(state.held[0], [0; 256]);
    let state = state_after(&then(&[write(0, 45, 7), deliver(3), abandon(3)]));
    assert!(state.requests.is_empty());
    assert_eq!(state.held[0], [0; 256]);
    // Owned or not, live or not; another player's equal guard stays.
    let mut state = state_after(&then(&[write(0, 45, 7), assign(1, 50, 60)]));
    state.held[0][200] = 1;
    state.held[1][45] = 2;
    assert_eq!(state.held[0][55], 2);
    assert_eq!(rules::step(&mut state, abandon(3)), reply(0, 0, 0));
    assert!(state.held[0][40..60].iter().all(|&guard| guard == 0));
    assert_eq!((state.held[0][200], state.held[1][45]), (1, 2));
    let state = state_after(&then(&[read(0, 45), abandon(3)]));
    assert!(state.requests[0].abandoned);
    assert_eq!(state.held[0][45], 2, "only a write clears");
}

/// "32 no row that this step fits (6 not arrived; 7 arrived and waiting; 8 waiting; 9 given up)"
#[test]
fn requests_that_fit() {
    let sent = [read(0, 1)];
    let delivered = [read(0, 1), deliver(1)];
    let abandoned = [read(0, 1), abandon(1)];
    let steps = [deliver(1), respond(1), abandon(1), lose(1)];
    let expected = [
        (&sent[..], [true, false, true, false]),
        (&delivered[..], [false, true, true, false]),
        (&abandoned[..], [true, false, false, true]),
        (&[][..], [false, false, false, false]),
    ];
    for (before, fits) in expected {
        for (step, fits) in steps.into_iter().zip(fits) {
            let given = last_reply(&[before, &[step]].concat());
            assert_eq!(given != refused(32), fits, "{before:?} {step:?}");
        }
    }
    // Reading 7.
    for serial in [0, MAX_SERIAL + 1, u32::MAX] {
        for step in [
            deliver(serial),
            respond(serial),
            abandon(serial),
            lose(serial),
        ] {
            assert_eq!(last_reply(&[read(0, 1), step]), refused(32));
        }
    }
}

/// "10 split, 11 merge: a border before the entry is set or removed; guards stay."
#[test]
fn boundaries() {
    let mut state = state_after(&then(&[split(50)]));
    assert_eq!(state.store.guards[49..51], [2, 2]);
    assert!(state.store.boundaries[50]);
    assert_eq!(rules::step(&mut state, merge(0)), refused(28));
    assert_eq!(rules::step(&mut state, merge(51)), refused(35));
    assert_eq!(rules::step(&mut state, merge(50)), reply(0, 0, 0));
    assert!(!state.store.boundaries[50]);
    assert_eq!(state.store.guards[49..51], [2, 2]);
}

/// "12 tablet restart: the guards of the tablet containing the entry become 0"; document 02 §2: "a
/// restart sets a new mark, barred". Reading 14: at a boundary the tablet that begins there.
#[test]
fn tablet_restarts() {
    let guards = |entry| {
        let state = state_after(&then(&[split(45), split(50), restart_tablet(entry)]));
        [44, 45, 49, 50].map(|e| state.store.guards[e])
    };
    assert_eq!(guards(0), [BARRED, 2, 2, 2]);
    assert_eq!(guards(44), [BARRED, 2, 2, 2]);
    assert_eq!(guards(45), [2, BARRED, BARRED, 2]);
    assert_eq!(guards(49), [2, BARRED, BARRED, 2]);
    assert_eq!(guards(50), [2, 2, 2, BARRED]);
    assert_eq!(guards(255), [2, 2, 2, BARRED]);
}

/// "13 player restart: its guards and cells are cleared, its waiting rows given up as in step 8."
#[test]
fn player_restarts() {
    let steps = then(&[
        read(0, 45),
        deliver(3),
        respond(3),
        read(0, 46),
        deliver(4),
        write(0, 47, 1),
        read(1, 45),
        read(0, 48),
        abandon(7),
        assign(0, 100, 110),
        ask(0, 100, 110),
        restart_player(0),
    ]);
    let state = state_after(&steps);
    assert_eq!(state.held[0], [0; 256]);
    assert_eq!(state.cached[0], [Cached::EMPTY; 256]);
    let left: Vec<(u32, bool)> = state
        .requests
        .iter()
        .map(|r| (r.serial, r.abandoned))
        .collect();
    assert_eq!(left, [(5, true), (6, false), (7, true), (9, true)]);
    assert_eq!(last_reply(&[restart_player(8)]), refused(28));
}

/// "For a step: 21, 22, 28, 29, 30, 31, 32, 35, 33, 34", where 38 "takes 33's place": 28 before 29, 29
/// before 30 and 31, these before 38, 38 before 34.
#[test]
fn refusal_order() {
    let mut state = state_after(&[assign(0, 0, 20), ask(0, 5, 10)]);
    for _ in 0..21 {
        assert_eq!(rules::step(&mut state, read(0, 50)).code, 1);
    }
    state.held[0][0] = 2;
    state.last_serial = MAX_SERIAL;
    let before = state.clone();
    let given = [
        (ask(8, 5, 5), 28),
        (ask(1, 5, 10), 29),
        (ask(0, 5, 21), 29),
        (ask(0, 5, 10), 31),
        (ask(0, 10, 20), 38),
        (write(8, 0, 7), 28),
        (write(0, 20, 7), 29),
        (write(0, 1, 7), 30),
        (write(0, 0, 7), 38),
        (load(0, 7), 38),
        (read(1, 0), 34),
        (assign(0, 0, 1), 34),
        (release(0, 1), 34),
        (release(1, 1), 28),
        (release(0, 257), 28),
        (read(8, 0), 28),
        (read(0, 0), 38),
        (merge(0), 28),
        (merge(1), 35),
        (lose(1), 32),
    ];
    for (step, number) in given {
        assert_eq!(rules::step(&mut state, step), refused(number), "{step:?}");
        assert_eq!(state, before, "a refused step changes nothing");
    }
}

/// "Read: outcome is stamp and value."
#[test]
fn reads_at_the_store() {
    let steps = then(&[write(0, 45, 7), deliver(3), read(5, 45), deliver(4)]);
    let mut state = state_after(&steps);
    let delivered = state.requests[1].operation;
    let held = Versioned {
        version: 3,
        value: 7,
    };
    assert!(matches!(delivered, Operation::Read { outcome: Some(o), .. } if o == held));
    assert_eq!(rules::step(&mut state, respond(4)), reply(3, 3, 7));
    assert_eq!(rules::step(&mut state, respond(3)), reply(4, 3, 7));
}
