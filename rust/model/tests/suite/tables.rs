//! The two tables: fresh ones, what is allowed, and each rule broken alone.

use model::broken::{bar, break_rule, rich_state, SERIAL_RULES};
use model::numbers::{BARRED, MAX_SERIAL};
use model::prng::Prng;
use model::state::{Cached, State};
use model::states::{any_state, full_state};
use model::table_rules::{TableError, TableRule};
use model::tables::*;

use crate::support::*;

/// "Fresh tables have owner 8, one tablet, guard 0 everywhere, and zeros elsewhere."
#[test]
fn fresh() {
    let (store, players) = fresh_tables();
    assert_eq!((store.len(), players.len()), (1_280, 9_489));
    for (at, &word) in store.iter().enumerate() {
        assert_eq!(word, u32::from(at == 0), "store {at}");
    }
    for (at, &word) in players.iter().enumerate() {
        let owner = (1..257).contains(&at);
        assert_eq!(word, if owner { 8 } else { 0 }, "players {at}");
    }
    assert_eq!(check(&store, &players), reply(0, 0, 0));
    let mut used = (vec![7; 1_280], vec![7; 9_489]);
    let given = model::tables::fresh(&mut used.0, &mut used.1);
    assert_eq!(given, reply(0, 0, 0));
    assert_eq!(used, (store, players));
}

/// "Making tables fresh tests 21 only." A refusal alters nothing.
#[test]
fn fresh_of_the_wrong_length() {
    for (store, players) in [
        (1_279, 9_489),
        (1_281, 9_489),
        (1_280, 9_488),
        (1_280, 9_473),
        (0, 0),
    ] {
        let mut tables = (vec![7; store], vec![7; players]);
        let given = model::tables::fresh(&mut tables.0, &mut tables.1);
        assert_eq!(given, refused(21));
        assert_eq!(tables, (vec![7; store], vec![7; players]));
    }
}

/// 21 comes before 22, for either table.
#[test]
fn lengths_first() {
    let (store, players) = fresh_tables();
    let bad_store = vec![2; STORE_WORDS];
    let bad_players = vec![u32::MAX; PLAYERS_WORDS];
    assert_eq!(check(&store[1..], &players), refused(21));
    assert_eq!(check(&store, &players[1..]), refused(21));
    assert_eq!(check(&bad_store, &players[1..]), refused(21));
    assert_eq!(check(&store[1..], &bad_players), refused(21));
    assert_eq!(check(&bad_store, &players), refused(22));
    assert_eq!(check(&store, &bad_players), refused(22));
}

/// The words of the worked session's tables after its fifth step, by hand.
#[test]
fn words_by_hand() {
    let state = state_after(&then(&[write(0, 45, 7)]));
    let (store, players) = tables_of(&state);
    let (mut expected_store, mut expected) = fresh_tables();
    expected_store[256..259].copy_from_slice(&[0, 40, 60]);
    expected_store[512..515].copy_from_slice(&[0, 2, 0]);
    expected[0] = 3;
    expected[1 + 40..1 + 60].fill(0);
    expected[257 + 40..257 + 60].fill(1);
    expected[513 + 40..513 + 60].fill(2);
    expected[8_705..8_717].copy_from_slice(&[3, 0, 5, 45, 0, 7, 2, 0, 0, 0, 0, 0]);
    assert_eq!(store, expected_store);
    assert_eq!(players, expected);
}

/// Document 02 §2, by hand: a load that arrived at an open entry, one that is given up, and one that
/// arrived at a barred entry; "a row of kind 5 whose player is 8, carrying 0".
#[test]
fn words_of_loads_by_hand() {
    let state = state_after(&[
        load(9, 5),
        deliver(1),
        load(255, 6),
        abandon(2),
        split(128),
        restart_tablet(200),
        load(200, 7),
        deliver(3),
    ]);
    let (store, players) = tables_of(&state);
    let (mut expected_store, mut expected) = fresh_tables();
    expected_store[128] = 1;
    expected_store[257] = 128;
    expected_store[513] = 4_294_967_295;
    expected_store[768 + 9] = 1;
    expected_store[1_024 + 9] = 5;
    expected[0] = 3;
    let requests = [
        [1, 8, 5, 9, 0, 5, 0, 0, 1, 0, 1, 0],
        [2, 8, 5, 255, 0, 6, 0, 0, 0, 1, 0, 0],
        [3, 8, 5, 200, 0, 7, 0, 0, 1, 0, 2, 0],
    ];
    expected[8_705..8_741].copy_from_slice(requests.as_flattened());
    assert_eq!(store, expected_store);
    assert_eq!(players, expected);
    assert_eq!(check(&store, &players), reply(0, 0, 0));
}

/// "neighbours never equal (so 1 to 256 of them)": 256 intervals fill both columns.
#[test]
fn most_intervals() {
    let mut state = State::fresh();
    state.last_serial = 2;
    for (entry, guard) in state.store.guards.iter_mut().enumerate() {
        *guard = 1 + entry as u32 % 2;
    }
    let (store, players) = tables_of(&state);
    for entry in 0..256 {
        assert_eq!(store[256 + entry], entry as u32);
        assert_eq!(store[512 + entry], 1 + entry as u32 % 2);
    }
    assert_eq!(decode(&store, &players), Ok(state));
}

/// Each rule broken alone gives 22, and it is that rule.
#[test]
fn each_rule_broken_alone() {
    let mut rng = Prng::new(22);
    for rule in TableRule::ALL {
        for _ in 0..40 * scale() {
            let (store, players) = break_rule(&mut rng, rule);
            assert_eq!(decode(&store, &players), Err(TableError::Rule(rule)));
            assert_eq!(check(&store, &players), refused(22));
        }
    }
}

/// Document 02 §2: barred is a mark of the store's guards; where another serial may stand it is 22.
#[test]
fn barred_stands_in_the_stores_guards_alone() {
    let mut rng = Prng::new(26);
    for rule in SERIAL_RULES {
        for _ in 0..10 * scale() {
            let (store, players) = bar(&mut rng, rule);
            assert_eq!(decode(&store, &players), Err(TableError::Rule(rule)));
            assert_eq!(check(&store, &players), refused(22));
        }
    }
    // By hand: each word that may be a serial.
    let (mut store, mut players) = fresh_tables();
    players[0] = 9;
    players[CACHED_GUARDS + 7] = 1;
    players[REQUESTS..REQUESTS + 24].copy_from_slice(
        [
            [5, 0, 4, 2, 0, 0, 3, 0, 1, 0, 4, 77],
            [6, 0, 5, 2, 0, 0, 3, 0, 0, 0, 0, 0],
        ]
        .as_flattened(),
    );
    assert_eq!(check(&store, &players), reply(0, 0, 0));
    let places = [
        LAST_SERIAL,
        EPOCHS,
        EPOCHS + 255,
        HELD_GUARDS,
        HELD_GUARDS + 2_047,
        CACHED_GUARDS,
        CACHED_VERSIONS + 7,
        REQUESTS + 6,
        REQUESTS + 10,
        REQUESTS + 12,
        REQUESTS + 12 + 6,
    ];
    for at in places {
        let mut players = players.clone();
        players[at] = BARRED;
        assert_eq!(check(&store, &players), refused(22), "players {at}");
    }
    for at in [VERSIONS, VERSIONS + 255] {
        let mut store = store.clone();
        store[at] = BARRED;
        assert_eq!(check(&store, &players), refused(22), "store {at}");
    }
    store[INTERVAL_GUARDS] = BARRED;
    assert_eq!(check(&store, &players), reply(0, 0, 0));
    for guard in [10, MAX_SERIAL, MAX_SERIAL + 1, BARRED - 1] {
        store[INTERVAL_GUARDS] = guard;
        assert_eq!(check(&store, &players), refused(22), "{guard}");
    }
}

/// Document 02 §2: a request of player 8 is "of kind 5", "carrying 0", "never overlapped"; one of a
/// player still carries a guard where it writes.
#[test]
fn requests_of_the_loader() {
    let good = |request: [u32; 12]| {
        let (store, mut players) = fresh_tables();
        players[0] = 9;
        players[REQUESTS..REQUESTS + 12].copy_from_slice(&request);
        check(&store, &players) == reply(0, 0, 0)
    };
    assert!(good([5, 8, 5, 2, 0, u32::MAX, 0, 0, 0, 0, 0, 0]));
    assert!(good([5, 8, 5, 2, 0, 7, 0, 0, 0, 1, 0, 0]));
    assert!(good([5, 8, 5, 255, 0, 7, 0, 0, 1, 0, 1, 0]));
    assert!(good([5, 8, 5, 2, 0, 7, 0, 0, 1, 0, 2, 0]));
    assert!(
        !good([5, 8, 3, 2, 9, 0, 0, 0, 0, 0, 0, 0]),
        "a guard request"
    );
    assert!(!good([5, 8, 4, 2, 0, 0, 0, 0, 0, 0, 0, 0]), "a read");
    assert!(!good([5, 8, 5, 2, 0, 7, 1, 0, 0, 0, 0, 0]), "a guard");
    assert!(!good([5, 8, 5, 2, 0, 7, BARRED, 0, 0, 0, 0, 0]), "barred");
    assert!(!good([5, 8, 5, 2, 0, 7, 0, 1, 0, 0, 0, 0]), "overlapped");
    assert!(!good([5, 8, 5, 2, 0, 7, 0, 0, 1, 0, 3, 0]), "an outcome");
    assert!(!good([5, 9, 5, 2, 0, 7, 0, 0, 0, 0, 0, 0]), "player 9");
    assert!(
        !good([5, 7, 5, 2, 0, 7, 0, 0, 0, 0, 0, 0]),
        "a player's write"
    );
    assert!(good([5, 7, 5, 2, 0, 7, 1, 1, 0, 0, 0, 0]));
    assert!(good([5, 7, 4, 2, 0, 0, 0, 1, 0, 0, 0, 0]));
}

/// The tables that [`break_rule`] begins with keep all rules.
#[test]
fn unbroken() {
    let mut rng = Prng::new(23);
    for _ in 0..100 * scale() {
        let state = rich_state(&mut rng);
        let (store, players) = tables_of(&state);
        assert_eq!(check(&store, &players), reply(0, 0, 0));
        assert_eq!(decode(&store, &players), Ok(state));
    }
}

/// Random states: encode, check and decode give the state back.
#[test]
fn round_trip() {
    let mut rng = Prng::new(24);
    for _ in 0..500 * scale() {
        let state = any_state(&mut rng);
        let (store, players) = tables_of(&state);
        assert_eq!(decode(&store, &players), Ok(state));
    }
}

/// The state that leaves no word unused: no boundary, interval after the first, version, value, epoch,
/// cell or count is 0, and every place has a request.
#[test]
fn full() {
    let state = full_state();
    let (store, players) = tables_of(&state);
    let used = |words: &[u32]| words.iter().all(|&word| word != 0);
    assert!(used(&store[..INTERVAL_STARTS]) && used(&store[INTERVAL_STARTS + 1..]));
    assert!(used(&players[EPOCHS..REQUESTS]));
    let mut places = players[REQUESTS..COUNTERS].chunks(12);
    assert!(places.all(|place| place[0] != 0));
    assert!(used(&players[COUNTERS..]));
    assert_eq!(check(&store, &players), reply(0, 0, 0));
    assert_eq!(decode(&store, &players), Ok(state));
}

/// Tables of random words that pass the check are those that encoding gives back: no second table
/// holds the same state. Changing one word of a good table does both.
#[test]
fn one_table_for_a_state() {
    let mut rng = Prng::new(25);
    let mut passed = 0;
    for _ in 0..500 * scale() {
        let (mut store, mut players) = tables_of(&any_state(&mut rng));
        let word = rng.word();
        if rng.chance(30) {
            store[rng.index(STORE_WORDS)] = word;
        } else {
            players[rng.index(PLAYERS_WORDS)] = word;
        }
        if let Ok(state) = decode(&store, &players) {
            passed += 1;
            assert_eq!(tables_of(&state), (store, players));
        }
    }
    assert!(passed > 50, "values may be any number");
}

/// Readings 1 and 2: what is allowed though no list of steps leads there.
#[test]
fn allowed() {
    let mut state = State::fresh();
    state.last_serial = 9;
    state.store.values[3] = 5;
    state.owners[4] = 7;
    state.cached[2][5] = Cached {
        guard: 3,
        version: 0,
        value: 8,
    };
    state.held[0][6] = 4;
    state.held[1][6] = 4;
    state.store.versions[7] = 9;
    let (store, mut players) = tables_of(&state);
    // A delivered read whose version is above its own serial, and two guard requests that share.
    let requests = [
        [1, 0, 3, 2, 9, 0, 0, 0, 0, 0, 0, 0],
        [2, 0, 3, 2, 9, 0, 0, 0, 1, 0, 1, 0],
        [3, 1, 4, 255, 0, 0, 0, 1, 1, 0, 9, 77],
        [4, 7, 5, 0, 0, u32::MAX, 3, 1, 0, 1, 0, 0],
    ];
    players[REQUESTS..REQUESTS + 48].copy_from_slice(requests.as_flattened());
    assert_eq!(check(&store, &players), reply(0, 0, 0));
    let held = decode(&store, &players).expect("it keeps the rules");
    assert_eq!(tables_of(&held), (store, players));
}

/// The greatest numbers that the rules allow, and one more.
#[test]
fn greatest_numbers() {
    let good = |at: usize, word: u32| {
        let (store, mut players) = fresh_tables();
        players[0] = MAX_SERIAL;
        players[at] = word;
        check(&store, &players) == reply(0, 0, 0)
    };
    assert!(good(0, MAX_SERIAL));
    assert!(!good(0, MAX_SERIAL + 1));
    for at in [EPOCHS, EPOCHS + 255, HELD_GUARDS, HELD_GUARDS + 2_047] {
        assert!(good(at, MAX_SERIAL));
        assert!(!good(at, MAX_SERIAL + 1));
    }
    for at in [OWNERS, OWNERS + 255] {
        assert!(good(at, 8));
        assert!(!good(at, 9));
    }
}
