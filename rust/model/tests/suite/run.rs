//! A run: budgets and lists of every small size, marks, lengths, bad records, refused runs.

use calls::Report;
use model::broken::damage;
use model::codec::session;
use model::faults::NoFault;
use model::prng::Prng;
use model::run::{run, step_tables};
use model::tables::{check, fresh_tables, PLAYERS_WORDS, STORE_WORDS};

use crate::support::*;

/// Three records of 3 bytes each: split 5 (0), split 5 (35), split 0 (28).
const SESSION: &str = "52534C31 050A05 050A05 050A00";

const REPLIES: [u32; 9] = [0, 0, 0, 35, 0, 0, 28, 0, 0];

/// A run on fresh tables over a list filled with 77: the report and the list.
fn run_fresh(bytes: &[u8], budget: u32, words: usize) -> (Report, Vec<u32>) {
    let (mut store, mut players) = fresh_tables();
    let mut list = vec![77; words];
    let report = run(&mut store, &mut players, bytes, budget, &mut list);
    (report, list)
}

/// "Why: 0 at the end, else 9 when the budget or the list's whole places are spent". "list places
/// not filled keep what they had". "A refused step is taken and replied to; the run goes on."
#[test]
fn budgets_and_lists() {
    for budget in 0..6 {
        for words in 0..16 {
            let taken = budget.min(words / 3).min(3);
            let why = if taken == 3 { 0 } else { 9 };
            let (given, list) = run_fresh(&hex(SESSION), budget as u32, words);
            let place = 4 + 3 * taken as u32;
            assert_eq!(given, report(why, taken as u32, place));
            assert_eq!(list[..3 * taken], REPLIES[..3 * taken]);
            assert_eq!(list[3 * taken..], vec![77; words - 3 * taken]);
        }
    }
}

/// Reading 18: "At the session's end it reports 0 even with budget 0; 9 comes before a bad
/// record's number." "A run that takes no record reports place 4."
#[test]
fn order_of_reasons() {
    assert_eq!(run_fresh(&hex("52534C31"), 0, 0).0, report(0, 0, 4));
    assert_eq!(run_fresh(&hex("52534C31 40"), 0, 3).0, report(9, 0, 4));
    assert_eq!(run_fresh(&hex("52534C31 40"), 1, 2).0, report(9, 0, 4));
    assert_eq!(run_fresh(&hex("52534C31 40"), 1, 3).0, report(25, 0, 4));
}

/// "else the record's refusal. That last refuses no run: earlier steps keep their effect."
#[test]
fn bad_records() {
    let cases = [
        ("40", 25),
        ("02 00", 27),
        ("01 C8", 26),
        ("03 04 00", 27),
        ("07 04 00", 24),
        ("05 0A", 24),
    ];
    for (record, why) in cases {
        let (mut store, mut players) = fresh_tables();
        let mut list = [77; 30];
        let bytes = [hex("52534C31 050A05"), hex(record)].concat();
        let given = run(&mut store, &mut players, &bytes, 9, &mut list);
        assert_eq!(given, report(why, 1, 7), "{record}");
        assert_eq!(list[..4], [0, 0, 0, 77]);
        assert_eq!(store[5], 1, "the split keeps its effect");
    }
}

/// "For a run: 21, 22, 37, 23." A refused run changes neither tables nor list.
#[test]
fn refused_runs() {
    let good = hex(SESSION);
    let marks = ["", "52", "52534C", "52534C30", "00534C31 050A05"];
    let long = [good.clone(), vec![0; 16_384]].concat();
    let unmarked_long = vec![0; 16_385];
    let test = |store_words: usize, bad: bool, bytes: &[u8], why: u32| {
        let (mut store, mut players) = fresh_tables();
        store.resize(store_words, 0);
        if bad {
            players[1] = 9;
        }
        let before = (store.clone(), players.clone());
        let mut list = [77; 30];
        let given = run(&mut store, &mut players, bytes, 9, &mut list);
        assert_eq!(given, report(why, 0, 0));
        assert_eq!((store, players), before);
        assert_eq!(list, [77; 30]);
    };
    test(STORE_WORDS - 1, true, &unmarked_long, 21);
    test(STORE_WORDS, true, &unmarked_long, 22);
    test(STORE_WORDS, true, &good, 22);
    test(STORE_WORDS, false, &unmarked_long, 37);
    test(STORE_WORDS, false, &long, 37);
    for mark in marks {
        test(STORE_WORDS, false, &hex(mark), 23);
    }
}

/// 16,384 bytes are not too long.
#[test]
fn longest_session() {
    let bytes = [hex("52534C31"), hex("030D00").repeat(5_460)].concat();
    assert_eq!(bytes.len(), 16_384);
    let (given, _) = run_fresh(&bytes, u32::MAX, 16_380);
    assert_eq!(given, report(0, 5_460, 16_384));
    let (given, _) = run_fresh(&bytes, u32::MAX, 16_379);
    assert_eq!(given, report(9, 5_459, 16_381));
}

/// A step on tables tests 21, then 22, then the step; a refusal changes no word.
#[test]
fn steps_on_tables() {
    let (mut store, mut players) = fresh_tables();
    let given = step_tables(&mut store, &mut players[1..], assign(8, 0, 1), &NoFault);
    assert_eq!(given, refused(21));
    players[OWNER] = 9;
    let given = step_tables(&mut store, &mut players, assign(8, 0, 1), &NoFault);
    assert_eq!(given, refused(22));
    players[OWNER] = 8;
    let given = step_tables(&mut store, &mut players, assign(8, 0, 1), &NoFault);
    assert_eq!(given, refused(28));
    assert_eq!((store.clone(), players.clone()), fresh_tables());
    let given = step_tables(&mut store, &mut players, assign(7, 0, 256), &NoFault);
    assert_eq!(given, reply(1, 1, 0));
    assert_eq!(players[..2], [1, 7]);
    assert_eq!(players[1..257], [7; 256]);
    assert_eq!(players[257..513], [1; 256]);
    assert_eq!(players[513..PLAYERS_WORDS], [0; PLAYERS_WORDS - 513]);
}

const OWNER: usize = 1 + 200;

/// A run does what its steps do one by one, with the same replies and tables.
#[test]
fn runs_and_steps() {
    let steps = then(&[write(0, 45, 7), assign(9, 0, 1), deliver(3), respond(3)]);
    let (mut store, mut players) = fresh_tables();
    let mut list = vec![77; 3 * steps.len()];
    let bytes = session(&steps);
    let given = run(&mut store, &mut players, &bytes, 99, &mut list);
    let end = bytes.len() as u32;
    assert_eq!(given, report(0, steps.len() as u32, end));
    let (mut one_store, mut one_players) = fresh_tables();
    for (step, words) in steps.into_iter().zip(list.chunks(3)) {
        let given = step_tables(&mut one_store, &mut one_players, step, &NoFault);
        assert_eq!([given.code, given.a, given.b], words);
    }
    assert_eq!((store, players), (one_store, one_players));
}

/// Damaged and random sessions come to an end, keep the tables' rules, and report the place that
/// their records reach.
#[test]
fn damaged_sessions() {
    let mut rng = Prng::new(5);
    let steps = then(&[write(0, 45, 7), split(50), deliver(3), respond(3), lose(3)]);
    for _ in 0..500 * scale() {
        let mut bytes = session(&steps);
        damage(&mut rng, &mut bytes);
        let (mut store, mut players) = fresh_tables();
        let mut list = vec![77; 60];
        let given = run(&mut store, &mut players, &bytes, 20, &mut list);
        assert_eq!(check(&store, &players), reply(0, 0, 0));
        match given.why {
            23 => assert!(!bytes.starts_with(&hex("52534C31"))),
            0 => assert_eq!(given.place as usize, bytes.len()),
            9 | 24..=27 => assert!((given.place as usize) < bytes.len()),
            why => panic!("{why}"),
        }
        let filled = 3 * given.records as usize;
        assert_eq!(list[filled..], vec![77; 60 - filled]);
    }
}
