//! Document 02 §5, "Rows for everyone": 6 places of each player's own, and 16 that are common to the
//! players and the loader.

use calls::{Step, KINDS};
use model::broken::{crowded, Crowd};
use model::claim;
use model::faults::NoFault;
use model::generate::{step_for, Profile};
use model::numbers::{LOADER, MAX_SERIAL};
use model::prng::Prng;
use model::rules;
use model::shares::{common_in_use, counts};
use model::state::State;
use model::states::any_state;
use model::table_rules::{TableError, TableRule};
use model::tables::{check, decode, fresh_tables, tables_of, REQUESTS};
use model::trial::crowded_list;

use crate::support::*;

/// So many reads of entry 9 by a player.
fn reads(player: u8, count: usize) -> Vec<Step> {
    vec![read(player, 9); count]
}

/// So many loads of entry 9.
fn loads(count: usize) -> Vec<Step> {
    vec![load(9, 1); count]
}

/// The state after all these, none of them refused.
fn after(parts: &[Vec<Step>]) -> State {
    state_after(&parts.concat())
}

/// The number that a step would be replied to with; the state stays.
fn next(state: &State, step: Step) -> u32 {
    rules::step(&mut state.clone(), step).code
}

/// The common places in use.
fn common(state: &State) -> usize {
    common_in_use(&counts(&state.requests))
}

/// "Each of the eight players now has 6 rows of its own; the other 16 are common to the players and the
/// loader": 64 in flight, and the next of anyone is refused.
#[test]
fn all_places_are_taken() {
    let own: Vec<Step> = (0..8).flat_map(|player| reads(player, 6)).collect();
    for common in [reads(3, 16), loads(16), [reads(7, 9), loads(7)].concat()] {
        let mut state = after(&[own.clone(), common]);
        assert_eq!(state.requests.len(), 64);
        let before = state.clone();
        for step in (0..8).map(|player| read(player, 9)).chain([load(9, 1)]) {
            assert_eq!(rules::step(&mut state, step), refused(38));
            assert_eq!(state, before);
        }
    }
}

/// "Common rows in use are the loader's rows plus each player's above 6".
#[test]
fn common_places_in_use() {
    assert_eq!(common(&after(&[])), 0);
    assert_eq!(common(&after(&[reads(0, 6), reads(1, 6)])), 0);
    assert_eq!(common(&after(&[reads(0, 7), reads(1, 6)])), 1);
    assert_eq!(common(&after(&[reads(0, 9), reads(7, 8), reads(2, 5)])), 5);
    assert_eq!(common(&after(&[loads(1)])), 1);
    assert_eq!(common(&after(&[reads(0, 9), loads(4), reads(4, 1)])), 7);
    assert_eq!(common(&after(&[reads(5, 22)])), 16);
}

/// "38 when the player has 6 rows or more, or is the loader, and the 16 common rows are in use": a player by
/// itself, which has 6 of its own and 16 common places.
#[test]
fn one_player_alone() {
    let state = after(&[reads(0, 21)]);
    assert_eq!(next(&state, read(0, 9)), 1);
    assert_eq!(next(&state, load(9, 1)), 1);
    let state = after(&[reads(0, 22)]);
    assert_eq!(next(&state, read(0, 9)), 38);
    assert_eq!(next(&state, load(9, 1)), 38);
    // The others have their own.
    for player in 1..8 {
        let state = after(&[reads(0, 22), reads(player, 5)]);
        assert_eq!(next(&state, read(player, 9)), 1);
        let state = after(&[reads(0, 22), reads(player, 6)]);
        assert_eq!(next(&state, read(player, 9)), 38);
    }
}

/// The loader by itself: it has the common places alone.
#[test]
fn the_loader_alone() {
    assert_eq!(next(&after(&[loads(15)]), load(9, 1)), 1);
    let state = after(&[loads(16)]);
    assert_eq!(next(&state, load(9, 1)), 38);
    for player in 0..8 {
        let state = after(&[loads(16), reads(player, 5)]);
        assert_eq!(next(&state, read(player, 9)), 1);
        let state = after(&[loads(16), reads(player, 6)]);
        assert_eq!(next(&state, read(player, 9)), 38);
    }
}

/// The last common place, by whoever comes: a player's 7th request, and a load.
#[test]
fn the_last_common_place() {
    for taken in [
        reads(0, 21),
        loads(15),
        [reads(0, 14), reads(2, 13)].concat(),
        [reads(0, 14), loads(7)].concat(),
    ] {
        let state = after(&[taken.clone(), reads(1, 6)]);
        assert_eq!(common(&state), 15);
        assert_eq!(next(&state, read(1, 9)), 1);
        assert_eq!(next(&state, load(9, 1)), 1);
        for last in [read(1, 9), load(9, 1)] {
            let mut state = after(&[taken.clone(), reads(1, 6), vec![last]]);
            assert_eq!(common(&state), 16);
            assert_eq!(next(&state, read(1, 9)), 38);
            assert_eq!(next(&state, load(9, 1)), 38);
            assert_eq!(next(&state, read(4, 9)), 1);
            // "A player with fewer than 6 rows is never turned away for want of one."
            for _ in 0..6 {
                assert_eq!(rules::step(&mut state, read(4, 9)).code, 1);
            }
            assert_eq!(next(&state, read(4, 9)), 38);
        }
    }
}

/// "given up or not", and delivered or not: all 22 requests of a player, and all 16 loads, in each state.
#[test]
fn every_request_in_flight_counts() {
    type Mark = fn(u32) -> Step;
    let marks: [&[Mark]; 4] = [&[], &[deliver], &[abandon], &[deliver, abandon]];
    for sent in [reads(0, 22), loads(16)] {
        let serials = 1..=sent.len() as u32;
        let next_one = sent[0];
        for marked in marks {
            let mut state = after(std::slice::from_ref(&sent));
            // Each in turn, so that a delivered one is not given up.
            for (serial, &mark) in serials.clone().zip(marked.iter().cycle()) {
                assert_eq!(rules::step(&mut state, mark(serial)), reply(0, 0, 0));
            }
            assert_eq!(next(&state, next_one), 38);
        }
    }
    // The player's own too: 6 that are given up, or delivered, where the loader has the common places.
    for mark in [deliver, abandon] {
        let mut state = after(&[reads(0, 6), loads(16)]);
        for serial in 1..=6 {
            assert_eq!(rules::step(&mut state, mark(serial)), reply(0, 0, 0));
        }
        assert_eq!(next(&state, read(0, 9)), 38);
    }
}

/// A request that leaves makes room, in each way that there is: for its player, for another, for the loader.
#[test]
fn leaving_makes_room() {
    let ways: [&[Step]; 5] = [
        &[deliver(9), respond(9)],
        &[deliver(9), abandon(9)],
        &[abandon(9), deliver(9)],
        &[abandon(9), lose(9)],
        &[deliver(9), restart_player(0)],
    ];
    for way in ways {
        let mut state = after(&[reads(0, 22), reads(1, 6)]);
        for &step in way {
            for next_one in [read(0, 9), read(1, 9), load(9, 1)] {
                assert_eq!(next(&state, next_one), 38, "{way:?}");
            }
            assert_ne!(rules::step(&mut state, step).code, 32);
        }
        for next_one in [read(0, 9), read(1, 9), load(9, 1)] {
            let mut state = state.clone();
            assert_eq!(rules::step(&mut state, next_one), reply(1, 29, 0));
            assert_eq!(next(&state, read(0, 9)), 38);
        }
    }
    // One of a player's own 6 makes room for that player alone.
    let mut state = after(&[loads(16), reads(0, 6), reads(1, 6)]);
    for step in [deliver(17), respond(17)] {
        assert_eq!(next(&state, read(0, 9)), 38);
        assert!(!rules::step(&mut state, step).is_refusal());
    }
    assert_eq!(next(&state, read(0, 9)), 1);
    assert_eq!(next(&state, read(1, 9)), 38);
    assert_eq!(next(&state, load(9, 1)), 38);
}

/// All three kinds of a player's requests need a place; 29, 30 and 31 come before 38, and 34 after it.
#[test]
fn each_kind_and_the_order() {
    let start = [assign(0, 40, 60), ask(0, 40, 50), deliver(2), respond(2)];
    let taken = [ask(0, 55, 60)];
    let mut state = after(&[start.to_vec(), taken.to_vec(), reads(0, 21)]);
    for last in [state.last_serial, MAX_SERIAL] {
        state.last_serial = last;
        assert_eq!(next(&state, ask(0, 39, 40)), 29);
        assert_eq!(next(&state, write(0, 39, 7)), 29);
        assert_eq!(next(&state, write(0, 52, 7)), 30);
        assert_eq!(next(&state, ask(0, 50, 56)), 31);
        for step in [ask(0, 50, 55), read(0, 45), write(0, 45, 7), load(45, 7)] {
            assert_eq!(next(&state, step), 38, "{step:?}");
        }
    }
    assert_eq!(next(&state, read(1, 45)), 34, "a place of its own");
    assert_eq!(next(&state, assign(0, 0, 1)), 34, "no place is needed");
    // With one that leaves, each goes in.
    for step in [abandon(3), lose(3)] {
        assert_eq!(rules::step(&mut state, step), reply(0, 0, 0));
    }
    assert_eq!(next(&state, read(0, 45)), 34);
    state.last_serial = 24;
    for step in [ask(0, 50, 55), read(0, 45), write(0, 45, 7), load(45, 7)] {
        assert_eq!(next(&state, step), 1, "{step:?}");
    }
}

/// A refused write empties no cell and marks nothing, a refused request for a guard clears nothing; and a
/// read from memory needs no place.
#[test]
fn a_refusal_leaves_all() {
    let remembered = [read(0, 45), deliver(3), respond(3), read(0, 46)];
    let mut state = after(&[then(&remembered), reads(0, 21)]);
    assert_eq!(common(&state), 16);
    let before = state.clone();
    for step in [write(0, 45, 7), write(0, 46, 7), ask(0, 40, 60)] {
        assert_eq!(rules::step(&mut state, step), refused(38));
        assert_eq!(state, before);
    }
    assert_eq!(rules::step(&mut state, read(0, 45)), reply(2, 0, 0));
    assert_eq!(state.requests, before.requests);
    assert_eq!(state.cached, before.cached);
}

/// Tables with so many requests of players, reads on entry 9, and so many loads, in rising serial; the last
/// `abandoned` of each are given up. By hand, word for word.
fn words(senders: &[(u8, usize)], abandoned: usize) -> (Vec<u32>, Vec<u32>) {
    let (store, mut players) = fresh_tables();
    players[0] = 64;
    let mut places = players[REQUESTS..].chunks_exact_mut(12);
    let mut serial = 1;
    for &(player, count) in senders {
        let kind = if player == LOADER { 5 } else { 4 };
        for left in (0..count).rev() {
            let mark = u32::from(left < abandoned);
            let request = [
                serial,
                u32::from(player),
                kind,
                9,
                0,
                0,
                0,
                0,
                0,
                mark,
                0,
                0,
            ];
            places.next().expect("a place").copy_from_slice(&request);
            serial += 1;
        }
    }
    (store, players)
}

/// "Tables breaking these shares are 22."
#[test]
fn tables_that_break_the_shares() {
    let tried = |senders: &[(u8, usize)]| {
        let given = [0, 1, 6].map(|abandoned| {
            let (store, players) = words(senders, abandoned);
            check(&store, &players)
        });
        assert!(
            given.iter().all(|other| *other == given[0]),
            "given up or not"
        );
        given[0]
    };
    let eight: Vec<(u8, usize)> = (0..8).map(|player| (player, 6)).collect();
    // 16 common places in use.
    assert_eq!(tried(&[(0, 22)]), reply(0, 0, 0));
    assert_eq!(tried(&[(7, 22)]), reply(0, 0, 0));
    assert_eq!(tried(&[(LOADER, 16)]), reply(0, 0, 0));
    assert_eq!(tried(&[(0, 15), (1, 13)]), reply(0, 0, 0));
    assert_eq!(tried(&[(0, 14), (LOADER, 8)]), reply(0, 0, 0));
    assert_eq!(
        tried(&[&eight[..], &[(LOADER, 16)]].concat()),
        reply(0, 0, 0)
    );
    assert_eq!(tried(&[&eight[..], &[(5, 16)]].concat()), reply(0, 0, 0));
    // 17.
    assert_eq!(tried(&[(0, 23)]), refused(22));
    assert_eq!(tried(&[(7, 23)]), refused(22));
    assert_eq!(tried(&[(LOADER, 17)]), refused(22));
    assert_eq!(tried(&[(0, 15), (1, 14)]), refused(22));
    assert_eq!(tried(&[(0, 14), (LOADER, 9)]), refused(22));
    assert_eq!(tried(&[&eight[1..], &[(LOADER, 17)]].concat()), refused(22));
    assert_eq!(tried(&[&eight[1..], &[(5, 17)]].concat()), refused(22));
    // As many as there are places.
    assert_eq!(tried(&[(0, 64)]), refused(22));
    assert_eq!(tried(&[(LOADER, 64)]), refused(22));
}

/// The same with any requests, delivered ones and guard requests among them.
#[test]
fn random_tables_at_the_limit() {
    let mut rng = Prng::new(51);
    for crowd in Crowd::ALL {
        for _ in 0..40 * scale() {
            let (store, players) = crowded(&mut rng, crowd, 16);
            let state = decode(&store, &players).expect("it keeps the rules");
            assert_eq!(common(&state), 16, "{crowd:?}");
            let (store, players) = crowded(&mut rng, crowd, 17);
            let broken = TableError::Rule(TableRule::RequestShares);
            assert_eq!(decode(&store, &players), Err(broken), "{crowd:?}");
            assert_eq!(check(&store, &players), refused(22));
        }
    }
}

/// The player of a step that sends a request, where it is a player's.
fn sender(step: Step) -> Option<u8> {
    match step {
        Step::RequestGuard { player, .. }
        | Step::Read { player, .. }
        | Step::Write { player, .. } => Some(player),
        _ => None,
    }
}

/// Takes a step, and tests what document 02 §5 says of it: "A player with fewer than 6 rows is never turned
/// away for want of one", and who is. The shares are kept, so that at most 64 requests are in flight; 33
/// does not occur.
fn taken(state: &mut State, step: Step) -> u32 {
    let before = state.clone();
    let counted = counts(&before.requests);
    let code = rules::step(state, step).code;
    assert_ne!(code, 33);
    if code == 38 {
        assert_eq!(common(&before), 16, "{step:?}");
        match sender(step) {
            Some(player) => assert!(counted[usize::from(player)] >= 6, "{step:?}"),
            None => assert!(matches!(step, Step::Load { .. }), "{step:?}"),
        }
    }
    assert!(common(state) <= 16, "{step:?}");
    assert!(state.requests.len() <= 64, "{step:?}");
    code
}

/// From any state that keeps the rules.
#[test]
fn any_state_keeps_the_shares() {
    let mut rng = Prng::new(52);
    let (mut full, mut at_limit, mut turned_away, mut fewer) = (0, 0, 0, 0);
    for _ in 0..5_000 * scale() {
        let mut state = any_state(&mut rng);
        full += u32::from(state.requests.len() == 64);
        at_limit += u32::from(common(&state) == 16);
        for _ in 0..5 {
            let step = step_for(&mut rng, &state, KINDS);
            turned_away += u32::from(taken(&mut state, step) == 38);
        }
        // Every player in turn: those with fewer than 6 are let in, or read from memory, where a serial is left.
        let is_at_limit = common(&state) == 16;
        for player in 0..8 {
            let few = counts(&state.requests)[usize::from(player)] < 6;
            match next(&state, read(player, 200)) {
                1 | 2 => {}
                34 => assert_eq!(state.last_serial, MAX_SERIAL),
                code => assert!(code == 38 && !few && is_at_limit, "{code}"),
            }
            fewer += u32::from(few && is_at_limit);
        }
        let (store, players) = tables_of(&state);
        assert_eq!(check(&store, &players), reply(0, 0, 0));
    }
    for seen in [full, at_limit, turned_away, fewer] {
        assert!(seen > 100, "{full} {at_limit} {turned_away} {fewer}");
    }
}

/// On lists that crowd the places, from fresh tables: senders with 5, 6, 7, 21 and 22 requests are let in and
/// turned away as the shares say, those that were turned away are let in again, and demand 3 holds.
#[test]
fn crowded_lists() {
    let mut rng = Prng::new(53);
    let mut let_in = [0; 23];
    let mut turned_away = [0; 23];
    let (mut loads_turned_away, mut again) = (0, 0);
    for _ in 0..400 * scale() {
        let mut profile = Profile::crowded(&mut rng, KINDS);
        let mut state = State::fresh();
        let mut waits = [false; 9];
        for _ in 0..150 {
            let step = profile.next_step(&mut rng, &state);
            let counted = counts(&state.requests);
            let was_full = common(&state) == 16;
            let code = taken(&mut state, step);
            let from = match step {
                Step::Load { .. } => Some(LOADER),
                _ => sender(step).filter(|&player| player < LOADER),
            };
            let Some(from) = from.map(usize::from) else {
                continue;
            };
            match code {
                38 if from == 8 => loads_turned_away += 1,
                38 => turned_away[counted[from]] += 1,
                1 if from < 8 && was_full => let_in[counted[from]] += 1,
                1 if from < 8 => let_in[counted[from]] += u32::from(counted[from] >= 6),
                _ => {}
            }
            again += u32::from(code == 1 && waits[from]);
            waits[from] = code == 38 || waits[from] && code != 1;
        }
    }
    // let in: with 5 while the common places are taken; with 6 and more while they are not
    for count in [0, 5, 6, 7, 21] {
        assert!(let_in[count] > 10, "{count}: {let_in:?}");
    }
    for count in [6, 7, 21, 22] {
        assert!(turned_away[count] > 10, "{count}: {turned_away:?}");
    }
    assert_eq!(turned_away[..6], [0; 6]);
    assert_eq!(let_in[22], 0);
    assert!(loads_turned_away > 100 && again > 100);
    for _ in 0..200 * scale() {
        let (history, state) = crowded_list(&mut rng, &NoFault);
        assert_eq!(claim::check(&history, &state.store), Ok(()));
    }
}
