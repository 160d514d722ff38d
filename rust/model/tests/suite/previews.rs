//! Trying a step first: previews of steps and of runs, which alter nothing but the list for replies.

use calls::Report;
use model::codec::session;
use model::faults::{Fault, NoFault};
use model::numbers::MAX_SERIAL;
use model::preview;
use model::run::{run, step_tables};
use model::state::State;
use model::tables::{fresh_tables, tables_of};

use crate::support::*;

/// "gives that reply, for every kind and refusal": each step is previewed twice and then taken, and its
/// reply is the same three times.
#[test]
fn every_kind() {
    let (mut store, mut players) = fresh_tables();
    for (step, expected) in [
        (find_interval(45), reply(9, 0, 255)),
        (assign(0, 40, 60), reply(1, 1, 0)),
        (ask(1, 40, 60), refused(29)),
        (write(0, 45, 7), refused(30)),
        (ask(0, 40, 60), reply(1, 2, 0)),
        (ask(0, 45, 46), refused(31)),
        (respond(2), refused(32)),
        (deliver(2), reply(0, 0, 0)),
        (respond(2), reply(6, 2, 0)),
        (read(0, 45), reply(1, 3, 0)),
        (deliver(3), reply(0, 0, 0)),
        (respond(3), reply(3, 0, 0)),
        (read(0, 45), reply(2, 0, 0)),
        (write(0, 45, 7), reply(1, 4, 0)),
        (deliver(4), reply(0, 0, 0)),
        (respond(4), reply(4, 4, 7)),
        (load(9, 5), reply(1, 5, 0)),
        (abandon(5), reply(0, 0, 0)),
        (lose(5), reply(0, 0, 0)),
        (split(0), refused(28)),
        (split(50), reply(0, 0, 0)),
        (split(50), refused(35)),
        (ask(0, 40, 60), reply(1, 6, 0)),
        (deliver(6), reply(0, 0, 0)),
        (respond(6), reply(8, 6, 0)),
        (merge(50), reply(0, 0, 0)),
        (ask(0, 40, 60), reply(1, 7, 0)),
        (release(40, 60), reply(1, 8, 0)),
        (deliver(7), reply(0, 0, 0)),
        (respond(7), reply(7, 7, 0)),
        (restart_tablet(45), reply(0, 0, 0)),
        (load(45, 6), reply(1, 9, 0)),
        (deliver(9), reply(0, 0, 0)),
        (respond(9), reply(5, 9, 0)),
        (restart_player(0), reply(0, 0, 0)),
        (restart_player(8), refused(28)),
    ] {
        for _ in 0..2 {
            let given = preview::step(&store, &players, step, &NoFault);
            assert_eq!(given, expected, "the preview of {step:?}");
        }
        let given = step_tables(&mut store, &mut players, step, &NoFault);
        assert_eq!(given, expected, "{step:?}");
    }
}

/// "For a step: 21, 22, 28, 29, 30, 31, 32, 35, 33, 34.", 38 in 33's place: also those of the tables, and of
/// a place and a serial, which a preview does not take.
#[test]
fn tables_places_and_serials() {
    let given = |store: &[u32], players: &[u32]| {
        [assign(8, 0, 1), load(9, 5)].map(|step| preview::step(store, players, step, &NoFault))
    };
    let (store, mut players) = fresh_tables();
    players[1] = 9;
    assert_eq!(given(&store[1..], &players), [refused(21); 2]);
    assert_eq!(given(&store, &players[1..]), [refused(21); 2]);
    assert_eq!(given(&store, &players), [refused(22); 2]);
    let mut state = state_after(&[read(0, 9); 21]);
    let of = |state: &State| {
        let (store, players) = tables_of(state);
        given(&store, &players)
    };
    assert_eq!(of(&state), [refused(28), reply(1, 22, 0)]);
    state.last_serial = MAX_SERIAL;
    assert_eq!(of(&state), [refused(28), refused(34)]);
    let full = state_after(&[read(0, 9); 22]);
    assert_eq!(of(&full), [refused(28), refused(38)]);
}

/// A preview has the faults that the step has.
#[test]
fn faults_show() {
    let (store, players) = tables_of(&state_after(&[assign(0, 40, 60)]));
    let given = |fault| preview::step(&store, &players, write(0, 45, 7), &fault);
    assert_eq!(given(Fault::NeverCaches), refused(30));
    assert_eq!(given(Fault::UnguardedWrite), reply(1, 2, 0));
}

/// The records of so many reads by player 0, of 4 bytes each. From fresh tables the first gets 1 1 0, the
/// next 1 2 0 and so on.
fn reads(records: u8) -> Vec<u8> {
    session(&Vec::from_iter((0..records).map(|entry| read(0, entry))))
}

/// The list of so many words after so many of these reads: what is not filled keeps 77.
fn list_after(taken: usize, words: usize) -> Vec<u32> {
    let mut list: Vec<u32> = (1..)
        .flat_map(|serial| [1, serial, 0])
        .take(words)
        .collect();
    list[3 * taken..].fill(77);
    list
}

/// The preview of a run on fresh tables over a list filled with 77: the report and the list. A second one
/// into the same list says the same and changes nothing.
fn preview_fresh(bytes: &[u8], budget: u32, words: usize) -> (Report, Vec<u32>) {
    let (store, players) = fresh_tables();
    let mut list = vec![77; words];
    let given = preview::run(&store, &players, bytes, budget, &mut list);
    let mut again = list.clone();
    let second = preview::run(&store, &players, bytes, budget, &mut again);
    assert_eq!((second, &again), (given, &list));
    (given, list)
}

/// "with its report and replies, a budget above 16 counting as 16": 0 at the end, else 9.
#[test]
fn budgets_and_lists() {
    for records in 15..=18 {
        for (budget, counts_as) in [(0, 0), (1, 1), (15, 15), (16, 16), (17, 16), (u32::MAX, 16)] {
            for words in [0, 2, 3, 44, 45, 47, 48, 50, 51, 54, 60] {
                let taken = counts_as.min(words / 3).min(usize::from(records));
                let why = if taken == usize::from(records) { 0 } else { 9 };
                let (given, list) = preview_fresh(&reads(records), budget, words);
                let expected = report(why, taken as u32, 4 + 4 * taken as u32);
                assert_eq!(given, expected, "{records} {budget} {words}");
                assert_eq!(list, list_after(taken, words), "{records} {budget} {words}");
            }
        }
    }
}

/// Of a run that takes no more than 16 records, the report and the replies are those of its preview.
#[test]
fn a_preview_and_its_run() {
    for (records, budget) in [(3, 9), (3, 2), (16, u32::MAX), (17, 16), (90, 16)] {
        let (mut store, mut players) = fresh_tables();
        let mut list = vec![77; 60];
        let bytes = reads(records);
        let given = run(&mut store, &mut players, &bytes, budget, &mut list);
        assert_eq!(preview_fresh(&bytes, budget, 60), (given, list));
    }
}

/// "A refused step is taken and replied to; the run goes on", on what the records before it left.
#[test]
fn refused_steps() {
    let steps = then(&[write(1, 45, 7), read(0, 45), deliver(9), deliver(3)]);
    let (given, list) = preview_fresh(&session(&steps), u32::MAX, 27);
    assert_eq!((given.why, given.records), (0, 8));
    let replies = [
        [1, 1, 0],
        [1, 2, 0],
        [0, 0, 0],
        [6, 2, 0],
        [29, 0, 0],
        [1, 3, 0],
        [32, 0, 0],
        [0, 0, 0],
        [77, 77, 77],
    ];
    assert_eq!(list, replies.concat());
}

/// A bad record ends it with its number as the 16th; as the 17th it is not read, and 9 comes first.
#[test]
fn bad_records() {
    let cases = [
        ("40 050A05", 25),
        ("02 00 050A05", 27),
        ("01 C8", 26),
        ("03 04 00", 27),
        ("05 0A", 24),
    ];
    for (record, why) in cases {
        let after = |records| [reads(records), hex(record)].concat();
        let (given, list) = preview_fresh(&after(15), u32::MAX, 60);
        assert_eq!(given, report(why, 15, 64), "{record}");
        assert_eq!(list, list_after(15, 60));
        for budget in [16, 17, u32::MAX] {
            let (given, list) = preview_fresh(&after(16), budget, 60);
            assert_eq!(given, report(9, 16, 68), "{record}");
            assert_eq!(list, list_after(16, 60));
        }
    }
}

/// "For a run: 21, 22, 37, 23." A refused one leaves the list as it was.
#[test]
fn refused_runs() {
    let (store, players) = fresh_tables();
    let mut broken = players.clone();
    broken[1] = 9;
    let long = vec![0; 16_385];
    for (store, players, bytes, why) in [
        (&store[1..], &broken[..], &long, 21),
        (&store, &players[1..], &reads(3), 21),
        (&store, &broken, &long, 22),
        (&store, &broken, &reads(3), 22),
        (&store, &players, &long, 37),
        (&store, &players, &reads(3)[1..].to_vec(), 23),
        (&store, &players, &vec![], 23),
    ] {
        for budget in [0, 9, 16, 17] {
            let mut list = [77; 30];
            let given = preview::run(store, players, bytes, budget, &mut list);
            assert_eq!(given, report(why, 0, 0));
            assert_eq!(list, [77; 30]);
        }
    }
}
