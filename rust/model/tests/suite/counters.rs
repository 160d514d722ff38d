//! Document 02 §7, "Share of reads from memory": what is counted and for whom, the limit, the rule of the tables, and
//! the share.

use calls::{Reply, Step, KINDS};
use model::broken::break_counter;
use model::claim::Event;
use model::codec::{session, MAX_SESSION};
use model::counter_law::counters_after;
use model::counters::{share, ReadCounter};
use model::faults::NoFault;
use model::generate::step_for;
use model::numbers::PLAYERS;
use model::prng::Prng;
use model::run::{run, step_tables};
use model::state::{Operation, State};
use model::states::any_state;
use model::table_rules::{TableError, TableRule};
use model::tables::{check, counters, decode, fresh_tables, tables_of};
use model::trial::ZeroRun;
use model::{preview, rules};

use crate::support::*;

/// The limit of the document, by hand.
const LIMIT: u32 = 4_000_000_000;

/// Player 0 has entry 45 in its memory after one answered read; the next serial is 4.
fn remembered() -> Vec<Step> {
    then(&[read(0, 45), deliver(3), respond(3)])
}

/// The state after [`remembered`], where this is player 0's counter.
fn with_counter(own: ReadCounter) -> State {
    let mut state = state_after(&remembered());
    state.counters[0] = own;
    state
}

/// Read counters that are zero but for those of the first players.
fn first(own: &[ReadCounter]) -> [ReadCounter; PLAYERS] {
    let mut counters = [counter(0, 0); PLAYERS];
    counters[..own.len()].copy_from_slice(own);
    counters
}

/// Fresh tables with this read counter of a player, by hand.
fn tables_with(player: usize, own: ReadCounter) -> (Vec<u32>, Vec<u32>) {
    let (store, mut players) = fresh_tables();
    players[9_473 + 2 * player] = own.answered;
    players[9_473 + 2 * player + 1] = own.hits;
    (store, players)
}

/// "answered reads equals its replies 2 and 3 to that player, and reads from memory its replies 2": player 0 gets 3 and
/// two 2, player 1 one 3.
#[test]
fn replies_2_and_3_are_counted() {
    let steps = then(&[
        read(0, 45),
        deliver(3),
        respond(3),
        read(0, 45),
        read(0, 45),
        read(1, 45),
        deliver(4),
        respond(4),
    ]);
    let codes: Vec<u32> = replies(&steps)[4..].iter().map(|r| r.code).collect();
    assert_eq!(codes, [1, 0, 3, 2, 2, 1, 0, 3]);
    let state = state_after(&steps);
    assert_eq!(state.counters, first(&[counter(3, 2), counter(1, 0)]));
    // Where they stand in the players' table.
    let (store, players) = tables_of(&state);
    let mut words = [0; 16];
    words[..3].copy_from_slice(&[3, 2, 1]);
    assert_eq!(players[9_473..], words);
    assert_eq!(share(&store, &players, 0), reply(0, 666, 2));
    assert_eq!(share(&store, &players, 1), reply(0, 0, 0));
    assert_eq!(share(&store, &players, 2), refused(39));
}

/// A reply 3 is to the player that sent the read, whoever owns the entry: here player 7, and then 5, which own nothing.
#[test]
fn a_reply_3_is_the_senders() {
    let steps = [
        assign(2, 0, 256),
        read(7, 9),
        read(5, 9),
        deliver(3),
        deliver(2),
        respond(2),
    ];
    let mut state = state_after(&steps);
    let mut expected = [counter(0, 0); PLAYERS];
    expected[7] = counter(1, 0);
    assert_eq!(state.counters, expected);
    assert_eq!(rules::step(&mut state, respond(3)), reply(3, 0, 0));
    expected[5] = counter(1, 0);
    assert_eq!(state.counters, expected);
}

/// Nothing else counts: reads that are sent, refused, given up or lost; guard requests, writes and loads, with every
/// answer.
#[test]
fn nothing_else_is_counted() {
    let mut state = state_after(&guarded());
    for (step, expected) in [
        // Reads: sent, given up before and after they arrived, arrived then, and lost.
        (read(0, 45), reply(1, 3, 0)),
        (read(0, 45), reply(1, 4, 0)),
        (read(0, 45), reply(1, 5, 0)),
        (deliver(3), reply(0, 0, 0)),
        (abandon(3), reply(0, 0, 0)),
        (abandon(4), reply(0, 0, 0)),
        (deliver(4), reply(0, 0, 0)),
        (abandon(5), reply(0, 0, 0)),
        (lose(5), reply(0, 0, 0)),
        (respond(5), refused(32)),
        (read(8, 45), refused(28)),
        // Writes: committed, and turned back.
        (write(0, 45, 7), reply(1, 6, 0)),
        (write(0, 46, 7), reply(1, 7, 0)),
        (deliver(6), reply(0, 0, 0)),
        (respond(6), reply(4, 6, 7)),
        (restart_tablet(45), reply(0, 0, 0)),
        (deliver(7), reply(0, 0, 0)),
        (respond(7), reply(5, 7, 0)),
        // Guard requests: granted, layout changed, not held.
        (ask(0, 40, 60), reply(1, 8, 0)),
        (deliver(8), reply(0, 0, 0)),
        (respond(8), reply(6, 8, 0)),
        (split(50), reply(0, 0, 0)),
        (ask(0, 40, 60), reply(1, 9, 0)),
        (deliver(9), reply(0, 0, 0)),
        (respond(9), reply(8, 9, 0)),
        (ask(0, 40, 50), reply(1, 10, 0)),
        (release(40, 41), reply(1, 11, 0)),
        (deliver(10), reply(0, 0, 0)),
        (respond(10), reply(7, 10, 0)),
        // Loads: committed, turned back.
        (load(200, 5), reply(1, 12, 0)),
        (deliver(12), reply(0, 0, 0)),
        (respond(12), reply(5, 12, 0)),
        (find_interval(45), reply(9, 40, 49)),
        (restart_player(0), reply(0, 0, 0)),
    ] {
        assert_eq!(rules::step(&mut state, step), expected, "{step:?}");
        assert_eq!(state.counters, first(&[]), "{step:?}");
    }
    let loaded = state_after(&[load(9, 5), deliver(1), respond(1)]);
    assert_eq!(loaded.counters, first(&[]));
    // Reads that find no place, or no serial.
    for _ in 0..22 {
        assert_eq!(rules::step(&mut state, read(0, 9)).code, 1);
    }
    assert_eq!(rules::step(&mut state, read(0, 9)), refused(38));
    state.last_serial = 4_000_000;
    assert_eq!(rules::step(&mut state, read(1, 9)), refused(34));
    assert_eq!(state.counters, first(&[]));
}

/// What is counted stays: a restart of the player or of a tablet, a new owner and a lost guard leave it.
#[test]
fn counts_outlast_guards_and_restarts() {
    let mut state = with_counter(counter(9, 4));
    for step in [
        restart_player(0),
        restart_tablet(45),
        release(40, 60),
        assign(1, 40, 60),
        split(45),
        merge(45),
    ] {
        assert!(!rules::step(&mut state, step).is_refusal());
        assert_eq!(state.counters, first(&[counter(9, 4)]), "{step:?}");
    }
}

/// "A read that would carry a count above 4,000,000,000 leaves both counts as they were." The reply is what it was.
#[test]
fn the_limit_leaves_both_counts() {
    // Before; after a read from memory; after one from the store.
    let cases = [
        (
            counter(LIMIT - 2, 7),
            counter(LIMIT - 1, 8),
            counter(LIMIT - 1, 7),
        ),
        (counter(LIMIT - 1, 7), counter(LIMIT, 8), counter(LIMIT, 7)),
        (
            counter(LIMIT - 1, LIMIT - 1),
            counter(LIMIT, LIMIT),
            counter(LIMIT, LIMIT - 1),
        ),
        (counter(LIMIT, 0), counter(LIMIT, 0), counter(LIMIT, 0)),
        (counter(LIMIT, 7), counter(LIMIT, 7), counter(LIMIT, 7)),
        (
            counter(LIMIT, LIMIT - 1),
            counter(LIMIT, LIMIT - 1),
            counter(LIMIT, LIMIT - 1),
        ),
        (
            counter(LIMIT, LIMIT),
            counter(LIMIT, LIMIT),
            counter(LIMIT, LIMIT),
        ),
    ];
    for (before, hit, miss) in cases {
        let mut state = with_counter(before);
        state.counters[1] = counter(5, 3);
        let others = |own| first(&[own, counter(5, 3)]);
        for step in [read(0, 46), deliver(4)] {
            assert!(!rules::step(&mut state, step).is_refusal());
        }
        let mut other = state.clone();
        assert_eq!(rules::step(&mut state, read(0, 45)), reply(2, 0, 0));
        assert_eq!(state.counters, others(hit), "{before:?}");
        assert_eq!(rules::step(&mut other, respond(4)), reply(3, 0, 0));
        assert_eq!(other.counters, others(miss), "{before:?}");
        assert_eq!(other.cached[0][46].guard, 2, "the step takes place");
        // Both tables keep the rules.
        for state in [state, other] {
            let (store, players) = tables_of(&state);
            assert_eq!(check(&store, &players), reply(0, 0, 0));
        }
    }
}

/// "A tally with more reads from memory than answered reads, or a count above that limit, is 22", of each player: from
/// every call on the tables, which alters nothing.
#[test]
fn tables_that_break_the_rule() {
    let broken = [
        counter(0, 1),
        counter(1, 2),
        counter(LIMIT - 1, LIMIT),
        counter(LIMIT, LIMIT + 1),
        counter(LIMIT + 1, 0),
        counter(LIMIT + 1, LIMIT),
        counter(LIMIT + 1, LIMIT + 1),
        counter(u32::MAX, 0),
        counter(u32::MAX, u32::MAX),
        counter(0, u32::MAX),
    ];
    let kept = [
        counter(0, 0),
        counter(1, 0),
        counter(1, 1),
        counter(LIMIT, 0),
        counter(LIMIT, LIMIT - 1),
        counter(LIMIT, LIMIT),
    ];
    let bytes = session(&[read(0, 9)]);
    for player in 0..8 {
        for own in kept {
            let (store, players) = tables_with(player, own);
            assert_eq!(check(&store, &players), reply(0, 0, 0), "{own:?}");
            let state = decode(&store, &players).expect("it keeps the rules");
            assert_eq!(state.counters[player], own);
            assert_eq!(tables_of(&state), (store, players));
        }
        for own in broken {
            let (mut store, mut players) = tables_with(player, own);
            let before = (store.clone(), players.clone());
            assert_eq!(check(&store, &players), refused(22), "{player} {own:?}");
            let given = step_tables(&mut store, &mut players, read(0, 9), &NoFault);
            assert_eq!(given, refused(22));
            let given = preview::step(&store, &players, read(0, 9), &NoFault);
            assert_eq!(given, refused(22));
            let mut list = [77; 3];
            let given = run(&mut store, &mut players, &bytes, 9, &mut list);
            assert_eq!((given, list), (report(22, 0, 0), [77; 3]));
            let given = preview::run(&store, &players, &bytes, 9, &mut list);
            assert_eq!((given, list), (report(22, 0, 0), [77; 3]));
            // Whoever is asked for, 8 too, which is 28 where the tables keep the rules.
            for asked in 0..=8 {
                assert_eq!(share(&store, &players, asked), refused(22));
            }
            assert_eq!((store, players), before);
        }
    }
}

/// The two rules by random numbers, each broken alone, for the first player, the last and one between.
#[test]
fn each_rule_of_each_counter() {
    let mut rng = Prng::new(71);
    for rule in [TableRule::CounterHits, TableRule::CounterLimit] {
        for player in [0, 3, 7] {
            for _ in 0..40 * scale() {
                let (store, players) = break_counter(&mut rng, rule, player);
                assert_eq!(decode(&store, &players), Err(TableError::Rule(rule)));
                assert_eq!(check(&store, &players), refused(22));
                let mended = {
                    let mut players = players.clone();
                    players[9_473 + 2 * player..9_475 + 2 * player].fill(0);
                    players
                };
                assert_eq!(check(&store, &mended), reply(0, 0, 0));
            }
        }
    }
}

/// "The share in thousandths is code 0 with the quotient and remainder of 1,000 × reads from memory by answered reads."
#[test]
fn shares_by_hand() {
    for (own, quotient, remainder) in [
        (counter(1, 0), 0, 0),
        (counter(1, 1), 1_000, 0),
        (counter(3, 1), 333, 1),
        (counter(3, 2), 666, 2),
        (counter(7, 3), 428, 4),
        (counter(8, 1), 125, 0),
        (counter(1_000, 1), 1, 0),
        (counter(1_001, 1), 0, 1_000),
        (counter(1_001, 1_000), 999, 1),
        (counter(LIMIT, 0), 0, 0),
        (counter(LIMIT, 1), 0, 1_000),
        (counter(LIMIT, LIMIT), 1_000, 0),
        (counter(LIMIT, LIMIT - 1), 999, 3_999_999_000),
        // The product has more than 32 bits.
        (counter(LIMIT, 4_294_968), 1, 294_968_000),
        (counter(4_294_968, 4_294_968), 1_000, 0),
        (counter(5_000_000, 4_294_968), 858, 4_968_000),
    ] {
        for player in [0, 4, 7] {
            let (store, players) = tables_with(player, own);
            let given = share(&store, &players, player as u8);
            assert_eq!(given, reply(0, quotient, remainder), "{own:?}");
        }
    }
}

/// What quotient and remainder are, of any counters: 1,000 exactly where all reads came from memory.
#[test]
fn shares_of_any_counters() {
    let mut rng = Prng::new(72);
    let (mut none, mut all, mut some) = (0, 0, 0);
    for _ in 0..300 * scale() {
        let state = any_state(&mut rng);
        let (store, players) = tables_of(&state);
        for (player, own) in (0..).zip(state.counters) {
            let Reply { code, a, b } = share(&store, &players, player);
            if own.answered == 0 {
                assert_eq!((code, a, b), (39, 0, 0));
                none += 1;
                continue;
            }
            assert_eq!(code, 0);
            let (answered, hits) = (u128::from(own.answered), u128::from(own.hits));
            assert_eq!(u128::from(a) * answered + u128::from(b), 1_000 * hits);
            assert!(b < own.answered && a <= 1_000);
            assert_eq!(a == 1_000, own.hits == own.answered);
            all += u32::from(a == 1_000);
            some += u32::from((1..1_000).contains(&a));
        }
    }
    for seen in [none, all, some] {
        assert!(seen > 100, "{none} {all} {some}");
    }
}

/// The share tests 21, 22, 28, 39: "39 when the player has no answered read, after 28."
#[test]
fn the_order_of_refusals() {
    let (store, players) = fresh_tables();
    let mut broken = players.clone();
    broken[1] = 9;
    let mut broken_store = store.clone();
    broken_store[0] = 0;
    for asked in [0, 7, 8, 255] {
        assert_eq!(share(&store[1..], &broken, asked), refused(21));
        assert_eq!(share(&broken_store, &players[1..], asked), refused(21));
        assert_eq!(share(&store, &players[..9_473], asked), refused(21));
        assert_eq!(share(&[], &[], asked), refused(21));
        assert_eq!(share(&store, &broken, asked), refused(22));
        assert_eq!(share(&broken_store, &players, asked), refused(22));
        let expected = if asked < 8 { 39 } else { 28 };
        assert_eq!(share(&store, &players, asked), refused(expected));
    }
    // Others' reads do not help.
    let (store, players) = tables_with(3, counter(2, 1));
    assert_eq!(share(&store, &players, 3), reply(0, 500, 0));
    assert_eq!(share(&store, &players, 2), refused(39));
    assert_eq!(share(&store, &players, 4), refused(39));
    assert_eq!(share(&store, &players, 8), refused(28));
    // Another player's counter that breaks the rule.
    let (store, mut players) = tables_with(0, counter(3, 1));
    assert_eq!(share(&store, &players, 0), reply(0, 333, 1));
    players[9_488] = 1;
    assert_eq!(share(&store, &players, 0), refused(22));
    players[9_487] = 1;
    assert_eq!(share(&store, &players, 0), reply(0, 333, 1));
}

/// Previews, refused steps and refused runs leave the counters; so does a share, which is lent the tables for reading.
#[test]
fn what_leaves_the_counters() {
    let (mut store, mut players) = tables_of(&with_counter(counter(5, 2)));
    let before = players.clone();
    let given = preview::step(&store, &players, read(0, 45), &NoFault);
    assert_eq!(given, reply(2, 0, 0));
    let bytes = session(&[read(0, 45), read(0, 45)]);
    let mut list = [77; 6];
    let given = preview::run(&store, &players, &bytes, 9, &mut list);
    assert_eq!((given, list), (report(0, 2, 12), [2, 0, 0, 2, 0, 0]));
    assert_eq!(players, before);
    let given = step_tables(&mut store, &mut players, respond(9), &NoFault);
    assert_eq!(given, refused(32));
    let long = [bytes.clone(), vec![0; MAX_SESSION]].concat();
    for (bytes, why) in [(&long[..], 37), (&bytes[1..], 23)] {
        let given = run(&mut store, &mut players, bytes, 9, &mut list);
        assert_eq!(given, report(why, 0, 0));
    }
    assert_eq!(share(&store, &players, 0), reply(0, 400, 0));
    assert_eq!(players, before);
    // Then they count.
    let given = step_tables(&mut store, &mut players, read(0, 45), &NoFault);
    assert_eq!(given, reply(2, 0, 0));
    assert_eq!(counters(&players)[0], counter(6, 3));
    let given = run(&mut store, &mut players, &bytes, 9, &mut list);
    assert_eq!(given, report(0, 2, 12));
    assert_eq!(counters(&players), first(&[counter(8, 5)]));
}

/// A run that ends at a spent budget or a bad record has counted the records that it took, on what there was before.
#[test]
fn a_run_counts_what_it_took() {
    let steps = [read(0, 45), read(0, 45), read(0, 45)];
    let cut = [session(&steps), vec![0x40]].concat();
    for (budget, why, taken) in [(0, 9, 0), (1, 9, 1), (2, 9, 2), (3, 9, 3), (4, 25, 3)] {
        let (mut store, mut players) = tables_of(&with_counter(counter(5, 2)));
        let mut list = [77; 30];
        let given = run(&mut store, &mut players, &cut, budget, &mut list);
        assert_eq!(given, report(why, taken, 4 + 4 * taken));
        assert_eq!(counters(&players)[0], counter(5 + taken, 2 + taken));
    }
    // At the limit within a run.
    let (mut store, mut players) = tables_of(&with_counter(counter(LIMIT - 2, 2)));
    let mut list = [77; 9];
    let given = run(&mut store, &mut players, &cut, 3, &mut list);
    assert_eq!((given.records, list), (3, [2, 0, 0, 2, 0, 0, 2, 0, 0]));
    assert_eq!(counters(&players)[0], counter(LIMIT, 4));
}

/// The law of a run begun with zero counts tells whose a reply 3 is by the read's serial: one that the run sent, and one
/// that stood in the tables.
#[test]
fn the_law_by_hand() {
    let start = state_after(&[read(6, 1), deliver(1), load(9, 5)]);
    let event = |step, reply| Event { step, reply };
    let history = [
        event(read(2, 9), reply(1, 3, 0)),
        event(respond(1), reply(3, 0, 0)),
        event(respond(3), refused(32)),
        event(deliver(3), reply(0, 0, 0)),
        event(respond(3), reply(3, 0, 0)),
        event(respond(3), refused(32)),
        event(respond(2), reply(4, 2, 5)),
        event(read(5, 9), reply(2, 7, 7)),
        event(read(5, 9), reply(2, 7, 7)),
        event(read(5, 9), refused(38)),
        event(respond(4), reply(6, 4, 0)),
    ];
    let mut expected = [counter(0, 0); PLAYERS];
    expected[6] = counter(1, 0);
    expected[2] = counter(1, 0);
    expected[5] = counter(2, 2);
    assert_eq!(counters_after(&start, &history), expected);
    assert_eq!(counters_after(&start, &[]), first(&[]));
}

/// "After a run begun with zero counts, answered reads equals its replies 2 and 3 to that player, and reads from memory
/// its replies 2": random runs, from fresh tables and any others.
#[test]
fn runs_begun_with_zero_counts() {
    let mut rng = Prng::new(73);
    let mut total = [counter(0, 0); PLAYERS];
    let mut of_start = 0;
    for _ in 0..4_000 * scale() {
        let run = ZeroRun::draw(&mut rng, &NoFault);
        assert!(run.keeps_law(), "{:?}", run.history);
        for (sum, own) in total.iter_mut().zip(run.counters) {
            assert!(own.hits <= own.answered);
            sum.answered += own.answered;
            sum.hits += own.hits;
        }
        // Answers to reads that stood in the tables at the start.
        let last = run.start.last_serial;
        let answered = |event: &&Event| {
            event.reply.code == 3
                && matches!(event.step, Step::Respond { serial } if serial <= last)
        };
        of_start += run.history.iter().filter(answered).count();
    }
    for sum in total {
        assert!(sum.hits > 100 && sum.answered > sum.hits + 100, "{sum:?}");
    }
    assert!(of_start > 1_000, "{of_start}");
}

/// What a step does to the counters of any state: one answered read more for a reply 2 or 3 where that is no more than
/// the limit, and nothing else.
#[test]
fn steps_on_any_state() {
    let mut rng = Prng::new(74);
    // Reads from memory and from the store, below the limit, and at it.
    let mut seen = [[0; 2]; 2];
    for _ in 0..20_000 * scale() {
        let before = any_state(&mut rng);
        // Often the owner of an entry reads it, of whom many have it in their memory.
        let entry = rng.below(2) as u8;
        let step = match rng.chance(30) {
            true => read(before.owners[usize::from(entry)], entry),
            false => step_for(&mut rng, &before, KINDS),
        };
        let mut state = before.clone();
        let code = rules::step(&mut state, step).code;
        let of_request = |serial: u32| {
            let mut requests = before.requests.iter();
            let its = requests.find(|r| r.serial == serial).expect("a request");
            assert!(matches!(its.operation, Operation::Read { .. }));
            its.player
        };
        let reader = match (step, code) {
            (Step::Read { player, .. }, 2) => Some(player),
            (Step::Respond { serial }, 3) => Some(of_request(serial)),
            _ => None,
        };
        let mut expected = before.counters;
        if let Some(player) = reader {
            let own = &mut expected[usize::from(player)];
            let at_limit = own.answered == LIMIT;
            if !at_limit {
                own.answered += 1;
                own.hits += u32::from(code == 2);
            }
            seen[usize::from(code == 3)][usize::from(at_limit)] += 1;
        }
        assert_eq!(state.counters, expected, "{step:?}");
    }
    for count in seen.as_flattened() {
        assert!(*count > 100, "{seen:?}");
    }
}
