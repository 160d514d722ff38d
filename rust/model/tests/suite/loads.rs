//! Document 02 §2, "Loading before opening": step 15, open and barred guards, from fresh tables.

use calls::Step;
use model::numbers::{BARRED, LOADER, MAX_SERIAL, NOBODY};
use model::rules;
use model::state::{Cached, Operation, State};
use model::store::{Versioned, WriteOutcome};

use crate::support::*;

/// The replies to steps, and the state after them.
fn taken(state: &mut State, steps: &[Step]) -> Vec<calls::Reply> {
    steps.iter().map(|&step| rules::step(state, step)).collect()
}

/// Version and value of an entry in the store.
fn held(state: &State, entry: u8) -> (u32, u32) {
    let Versioned { version, value } = state.store.read(entry);
    (version, value)
}

/// The reply to a load of 7 to an entry after other steps, once it has arrived and is answered.
fn loaded(before: &[Step], entry: u8) -> u32 {
    let mut state = state_after(before);
    let serial = state.last_serial + 1;
    let given = taken(
        &mut state,
        &[load(entry, 7), deliver(serial), respond(serial)],
    );
    assert_eq!(given[..2], [reply(1, serial, 0), reply(0, 0, 0)]);
    match given[2].code {
        4 => assert_eq!(given[2], reply(4, serial, 7)),
        _ => assert_eq!(given[2], reply(5, serial, 0)),
    }
    given[2].code
}

/// "guard 0 is open and matches a carried 0": a load commits, and its serial and value are the entry's.
#[test]
fn an_open_entry_is_loaded() {
    let steps = [
        load(9, 5),
        deliver(1),
        respond(1),
        read(3, 9),
        deliver(2),
        respond(2),
    ];
    let expected = [
        reply(1, 1, 0),
        reply(0, 0, 0),
        reply(4, 1, 5),
        reply(1, 2, 0),
        reply(0, 0, 0),
        reply(3, 1, 5),
    ];
    assert_eq!(replies(&steps), expected);
    let state = state_after(&steps);
    assert_eq!(state.store.guards, [0; 256]);
    assert_eq!(held(&state, 9), (1, 5));
    // Again, and any value.
    let steps = [
        load(9, 5),
        load(9, 0),
        deliver(2),
        deliver(1),
        load(255, u32::MAX),
        deliver(3),
    ];
    let state = state_after(&steps);
    assert_eq!(held(&state, 9), (1, 5), "in the order of arrival");
    assert_eq!(held(&state, 255), (3, u32::MAX));
}

/// "a row of kind 5 whose player is 8, carrying 0"
#[test]
fn a_load_is_a_write_of_player_8() {
    let state = state_after(&[load(9, 5)]);
    let request = state.requests[0];
    assert_eq!((request.serial, request.player), (1, LOADER));
    assert!(request.is_pending() && !request.is_delivered());
    let sent = Operation::Write {
        entry: 9,
        value: 5,
        guard: 0,
        overlapped: false,
        outcome: None,
    };
    assert_eq!(request.operation, sent);
}

/// "needing no ownership": nobody's entry, and a player's; and no owner is set.
#[test]
fn any_entry_may_be_loaded() {
    let state = state_after(&[assign(3, 10, 20), load(9, 1), load(10, 1)]);
    assert_eq!((state.owners[9], state.owners[10]), (NOBODY, 3));
    assert_eq!((state.epochs[9], state.epochs[10]), (0, 1));
    assert_eq!(loaded(&[assign(3, 10, 20)], 10), 4);
    // Nobody, as an owner, has the loader's number: releasing what is loaded is not giving it up.
    let state = state_after(&[load(10, 1), assign(3, 10, 20), release(10, 20)]);
    assert!(state.requests[0].is_pending());
}

/// 38, then 34, and no other: the loader has the 16 common places alone.
#[test]
fn refusals() {
    let mut state = State::fresh();
    for serial in 1..=15 {
        assert_eq!(rules::step(&mut state, load(9, 1)), reply(1, serial, 0));
    }
    let mut one_left = state.clone();
    one_left.last_serial = MAX_SERIAL;
    let before = one_left.clone();
    assert_eq!(rules::step(&mut one_left, load(9, 1)), refused(34));
    assert_eq!(one_left, before);
    one_left.last_serial = MAX_SERIAL - 1;
    let given = taken(&mut one_left, &[load(9, 1), load(9, 1)]);
    assert_eq!(given, [reply(1, 4_000_000, 0), refused(38)]);
    assert_eq!(rules::step(&mut state, load(9, 1)), reply(1, 16, 0));
    assert_eq!(rules::step(&mut state, load(9, 1)), refused(38));
    // A player has places of its own.
    for serial in 17..=22 {
        assert_eq!(rules::step(&mut state, read(0, 9)), reply(1, serial, 0));
    }
    assert_eq!(rules::step(&mut state, read(0, 9)), refused(38));
}

/// "It is never overlapped and marks no row": before and after it, a read, a write, another load.
#[test]
fn loads_and_requests_of_players_do_not_overlap() {
    let mut state = state_after(&then(&[read(0, 45), load(45, 1), load(45, 2), read(0, 45)]));
    let none =
        |serials: &[u32]| -> Vec<(u32, bool)> { serials.iter().map(|&s| (s, false)).collect() };
    assert_eq!(marks(&state), none(&[3, 4, 5, 6]));
    // A write marks its player's reads, before and after the loads, and no load.
    assert_eq!(rules::step(&mut state, write(0, 45, 3)), reply(1, 7, 0));
    let expected = [(3, true), (4, false), (5, false), (6, true), (7, false)];
    assert_eq!(marks(&state), expected);
    // A write while loads wait, and loads while it waits.
    let steps = then(&[
        load(45, 1),
        write(0, 45, 2),
        load(45, 3),
        deliver(4),
        load(45, 4),
    ]);
    let mut state = state_after(&steps);
    assert_eq!(marks(&state), none(&[3, 4, 5, 6]));
    // So its answer is remembered.
    let given = taken(&mut state, &[respond(4), read(0, 45)]);
    assert_eq!(given, [reply(4, 4, 2), reply(2, 4, 2)]);
    // A load empties no cell.
    let given = taken(&mut state, &[load(45, 5), read(0, 45)]);
    assert_eq!(given, [reply(1, 7, 0), reply(2, 4, 2)]);
}

/// "Its answer is 4 or 5 and no guard or cell follows from it": 5. Player 0 has guard 2 and remembers
/// entry 45.
#[test]
fn an_answer_5_clears_nothing() {
    let steps = then(&[read(0, 45), deliver(3), respond(3), load(45, 9), deliver(4)]);
    let mut state = state_after(&steps);
    let delivered = state.requests[0].operation;
    let rejected = Some(WriteOutcome::Rejected);
    assert!(matches!(delivered, Operation::Write { outcome, .. } if outcome == rejected));
    let before = state.clone();
    assert_eq!(rules::step(&mut state, respond(4)), reply(5, 4, 0));
    assert_eq!((state.held, state.cached), (before.held, before.cached));
    assert_eq!(state.store, before.store);
    assert!(state.requests.is_empty());
    assert_eq!(rules::step(&mut state.clone(), read(0, 45)), reply(2, 0, 0));
    // Not even where a player without a guard remembers something, which no list of steps leads to.
    let mut state = before;
    state.cached[0][200] = Cached {
        guard: 1,
        version: 0,
        value: 3,
    };
    let cached = state.cached;
    assert_eq!(rules::step(&mut state, respond(4)), reply(5, 4, 0));
    assert_eq!(state.cached, cached);
}

/// The same: 4. The entry is loaded, then guarded for player 0, and the answer comes last.
#[test]
fn an_answer_4_is_remembered_by_nobody() {
    let mut state = State::fresh();
    let given = taken(
        &mut state,
        &[
            load(45, 9),
            deliver(1),
            assign(0, 40, 60),
            ask(0, 40, 60),
            deliver(3),
            respond(3),
            respond(1),
        ],
    );
    assert_eq!(given[5..], [reply(6, 3, 0), reply(4, 1, 9)]);
    assert_eq!(state.cached, [[Cached::EMPTY; 256]; 8]);
    assert_eq!((state.held[0][39], state.held[0][45]), (0, 3));
    let given = taken(
        &mut state,
        &[read(0, 45), deliver(4), respond(4), read(0, 45)],
    );
    let expected = [
        reply(1, 4, 0),
        reply(0, 0, 0),
        reply(3, 1, 9),
        reply(2, 1, 9),
    ];
    assert_eq!(given, expected);
}

/// Step 8 and what comes after it: a load that is given up arrives and commits, arrives and is turned
/// back, or is lost; one that is delivered leaves. No guard or cell follows.
#[test]
fn a_load_is_given_up() {
    let state = state_after(&[load(9, 5), abandon(1), deliver(1)]);
    assert!(state.requests.is_empty());
    assert_eq!(held(&state, 9), (1, 5));
    let before = then(&[read(0, 45), deliver(3), respond(3), load(45, 9)]);
    let mut state = state_after(&before);
    let (guards, cells) = (state.held, state.cached);
    assert_eq!(rules::step(&mut state, abandon(4)), reply(0, 0, 0));
    assert!(state.requests[0].abandoned);
    assert_eq!((state.held, state.cached), (guards, cells));
    let mut lost = state.clone();
    let given = taken(
        &mut state,
        &[abandon(4), respond(4), deliver(4), deliver(4)],
    );
    let expected = [refused(32), refused(32), reply(0, 0, 0), refused(32)];
    assert_eq!(given, expected);
    assert_eq!(held(&state, 45), (0, 0));
    assert!(state.requests.is_empty());
    let given = taken(&mut lost, &[lose(4), deliver(4), read(0, 45)]);
    assert_eq!(given, [reply(0, 0, 0), refused(32), reply(2, 0, 0)]);
    let mut state = state_after(&before);
    let given = taken(&mut state, &[lose(4), deliver(4), abandon(4), read(0, 45)]);
    assert_eq!(
        given,
        [refused(32), reply(0, 0, 0), reply(0, 0, 0), reply(2, 0, 0)]
    );
    assert!(state.requests.is_empty());
}

/// The loader is no player: it does not restart, and no player's restart gives a load up.
#[test]
fn player_restarts_leave_loads() {
    let mut state = state_after(&[
        load(9, 5),
        load(10, 6),
        deliver(2),
        read(0, 9),
        load(11, 7),
        abandon(4),
    ]);
    for player in 0..8 {
        assert_eq!(
            rules::step(&mut state, restart_player(player)),
            reply(0, 0, 0)
        );
    }
    let left: Vec<(u32, bool, bool)> = state
        .requests
        .iter()
        .map(|r| (r.serial, r.is_delivered(), r.abandoned))
        .collect();
    let expected = [
        (1, false, false),
        (2, true, false),
        (3, false, true),
        (4, false, true),
    ];
    assert_eq!(left, expected);
    let before = state.clone();
    assert_eq!(rules::step(&mut state, restart_player(8)), refused(28));
    assert_eq!(state, before);
    assert_eq!(rules::step(&mut state, respond(2)), reply(4, 2, 6));
}

/// Player 8 is no player in any other step either.
#[test]
fn the_loader_takes_no_step_of_a_player() {
    for step in [assign(8, 0, 1), ask(8, 0, 1), read(8, 0), write(8, 0, 1)] {
        assert_eq!(last_reply(&[step]), refused(28), "{step:?}");
    }
}

/// "an entry once guarded or restarted is never open again". Guarded means set at the store.
#[test]
fn never_open_again() {
    let asked = [assign(0, 40, 60), ask(0, 40, 60)];
    assert_eq!(loaded(&asked, 45), 4, "not set yet");
    let set = [assign(0, 40, 60), ask(0, 40, 60), deliver(2)];
    assert_eq!(loaded(&set, 45), 5, "set, and not granted");
    assert_eq!((loaded(&set, 39), loaded(&set, 60)), (4, 4));
    let given_up = [assign(0, 40, 60), ask(0, 40, 60), abandon(2), deliver(2)];
    assert_eq!(loaded(&given_up, 45), 5, "set for nobody");
    let lost = [assign(0, 40, 60), ask(0, 40, 60), abandon(2), lose(2)];
    assert_eq!(loaded(&lost, 45), 4, "never set");
    let divided = [split(50), assign(0, 40, 60), ask(0, 40, 60), deliver(2)];
    assert_eq!(
        (loaded(&divided, 40), loaded(&divided, 59)),
        (4, 4),
        "layout changed"
    );
    // Whatever comes after.
    let after = [
        release(40, 60),
        restart_player(0),
        split(50),
        merge(50),
        restart_tablet(0),
        assign(1, 0, 256),
    ];
    for (at, _) in after.iter().enumerate() {
        let steps = then(&after[..=at]);
        assert_eq!(loaded(&steps, 45), 5, "{:?}", after[at]);
    }
}

/// "a restart sets a new mark, barred, that matches nothing": over the whole tablet, open entries too.
#[test]
fn a_restart_bars_the_tablet() {
    let steps = [split(128), restart_tablet(200)];
    let state = state_after(&steps);
    assert_eq!(state.store.guards[..128], [0; 128]);
    assert_eq!(state.store.guards[128..], [BARRED; 128]);
    assert_eq!(
        (
            loaded(&steps, 127),
            loaded(&steps, 128),
            loaded(&steps, 255)
        ),
        (4, 5, 5)
    );
    // A load that was sent before it comes too late.
    let steps = [load(9, 5), restart_tablet(9), deliver(1), respond(1)];
    assert_eq!(last_reply(&steps), reply(5, 1, 0));
    // A guard is set over barred entries, and a player's write under it commits.
    let steps = [
        restart_tablet(0),
        assign(0, 40, 60),
        ask(0, 40, 60),
        deliver(2),
        respond(2),
        write(0, 45, 7),
        deliver(3),
        respond(3),
    ];
    assert_eq!(last_reply(&steps), reply(4, 3, 7));
    let state = state_after(&steps);
    assert_eq!(state.store.guards[39..41], [BARRED, 2]);
    assert_eq!(state.store.guards[59..61], [2, BARRED]);
}

/// "and forms stretches like a guard": barred and open entries beside each other, and barred ones on
/// both sides of a boundary.
#[test]
fn barred_entries_form_intervals() {
    let ends = |before: &[Step], entry: u8| {
        let given = last_reply(&[before, &[find_interval(entry)]].concat());
        (given.a, given.b)
    };
    let steps = [split(100), split(128), restart_tablet(110)];
    let [open, barred, above] = [(0, 99), (100, 127), (128, 255)];
    for (entry, expected) in [
        (0, open),
        (99, open),
        (100, barred),
        (127, barred),
        (128, above),
    ] {
        assert_eq!(ends(&steps, entry), expected, "{entry}");
    }
    let steps = [
        split(100),
        split(128),
        restart_tablet(110),
        restart_tablet(128),
    ];
    for entry in [100, 127, 128, 255] {
        assert_eq!(ends(&steps, entry), (100, 255), "{entry}");
    }
    let steps = then(&[split(40), split(60), restart_tablet(60)]);
    assert_eq!((ends(&steps, 59), ends(&steps, 60)), ((40, 59), (60, 255)));
}
