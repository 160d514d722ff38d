//! Every fault is caught: by demand 3 on a generated list, or, where demand 3 lets it by, only by
//! comparison with the right rules.

use calls::{Range, Reply, Step, KINDS};
use model::broken::{crowded, Crowd};
use model::claim::Sentence;
use model::codec::session_text;
use model::counters::{share, share_with, ReadCounter};
use model::faults::{Fault, NoFault};
use model::generate::Profile;
use model::interleavings::Interleavings;
use model::numbers::{BARRED, MAX_SERIAL};
use model::prng::Prng;
use model::rules::{step, step_with};
use model::state::State;
use model::store_calls;
use model::tables::{check_with, fresh_tables, tables_of, COUNTERS, REQUESTS, STORE_WORDS};
use model::trial::{
    crowded_list, play, random_list, search, search_counters, search_crowded, ZeroRun,
};

use crate::support::*;

/// The seed of the random lists: `FAMDRIZE_SEED`, 1 if not set. With 1 every fault that breaks
/// demand 3 is found within 1,900,000 steps, all but the rarest within 400,000.
fn seed() -> u64 {
    std::env::var("FAMDRIZE_SEED")
        .ok()
        .and_then(|text| text.parse().ok())
        .unwrap_or(1)
}

/// The faults that break demand 3, each with the number of random steps it took, the sentence that
/// fails and the shortest list found, printed as a session.
#[test]
fn caught_by_demand_3() {
    for fault in Fault::ALL.into_iter().filter(|f| f.breaks_demand_3()) {
        let found = search(seed(), 40_000_000, &fault);
        let found = found.unwrap_or_else(|| panic!("{fault:?} is not caught"));
        println!(
            "{fault:?}: {:?} fails after {} steps, shortest list {} steps\n    {}",
            found.violation.sentence,
            found.after,
            found.steps.len(),
            session_text(&found.steps)
        );
        let (right, state) = play(&found.steps, &NoFault);
        assert_eq!(model::claim::check(&right, &state.store), Ok(()));
    }
}

/// The faults that demand 3 lets by: no list breaks it, be it one that crowds the places for requests, and
/// some list gives another reply or other tables than the right rules do.
#[test]
fn caught_by_comparison_only() {
    for fault in Fault::ALL.into_iter().filter(|f| !f.breaks_demand_3()) {
        // Those of the read counters change no reply of a step: see `counters_change_no_reply`.
        if !fault.is_of_counters() {
            assert!(search(seed(), 200_000 * scale(), &fault).is_none());
            assert!(search_crowded(seed(), 200_000 * scale(), &fault).is_none());
        }
        if is_unseen_from_fresh(fault) {
            continue;
        }
        let after = differs_after(fault).unwrap_or_else(|| panic!("{fault:?} changes nothing"));
        println!("{fault:?}: differs from the right rules after {after} steps");
    }
}

/// Only the store used alone shows the first two, only tables with no serial left, or one, the next three, and
/// only the test of tables the three after them; those of the read counters from `RunLeavesCounters` on only runs,
/// counts at the limit, the test of tables, or the share.
fn is_unseen_from_fresh(fault: Fault) -> bool {
    fault >= Fault::RunLeavesCounters
        || matches!(
            fault,
            Fault::BarredMatches
                | Fault::IntervalWithoutGuard
                | Fault::LoadSerialFirst
                | Fault::SerialBeforePlace
                | Fault::LastSerialUnused
                | Fault::SharesUntested
                | Fault::FullSharesRefused
                | Fault::SharesOfPendingAlone
        )
}

/// Crowded lists come to the places, so that demand 3 is tried where a fault of the shares does something: on
/// lists that get other replies than by the right rules. A read from memory where its player has no place left
/// is the rarest.
#[test]
fn crowded_lists_show_the_shares() {
    let all = Fault::ALL.into_iter();
    let shares = all
        .skip_while(|&fault| fault != Fault::AbandonedUncounted)
        .take_while(|&fault| fault != Fault::SharesUntested);
    for fault in shares.filter(|&fault| !is_unseen_from_fresh(fault)) {
        let mut rng = Prng::new(seed());
        let (mut lists, mut others) = (0, 0);
        while others < 10 * scale() {
            assert!(lists < 20_000 * scale(), "{fault:?}: {others} lists");
            lists += 1;
            let (history, state) = crowded_list(&mut rng, &fault);
            let steps: Vec<Step> = history.iter().map(|event| event.step).collect();
            if play(&steps, &NoFault).0 != history {
                others += 1;
                assert_eq!(model::claim::check(&history, &state.store), Ok(()));
            }
        }
        println!("{fault:?}: {others} of {lists} crowded lists get other replies");
    }
}

/// Plays random lists by the right rules and with the fault, every second one such as crowds the places for
/// requests, until a reply or the state differs.
fn differs_after(fault: Fault) -> Option<usize> {
    let mut rng = Prng::new(seed());
    let mut played = 0;
    while played < 1_000_000 {
        let mut profile = match played / 100 % 2 {
            0 => Profile::draw(&mut rng, KINDS),
            _ => Profile::crowded(&mut rng, KINDS),
        };
        let (mut right, mut wrong) = (State::fresh(), State::fresh());
        for _ in 0..100 {
            let next = profile.next_step(&mut rng, &right);
            played += 1;
            let replies = (step(&mut right, next), step_with(&mut wrong, next, &fault));
            if replies.0 != replies.1 || right != wrong {
                return Some(played);
            }
        }
    }
    None
}

/// No reply of a step depends on a read counter: with a fault of these, lists get the replies of the right rules, and
/// lead to the same tables but for the counters. So demand 3 and the first read from memory are what they are.
#[test]
fn counters_change_no_reply() {
    for fault in Fault::ALL.into_iter().filter(|f| f.is_of_counters()) {
        let mut rng = Prng::new(seed());
        for list in 0..200 * scale() {
            let (history, mut state) = match list % 2 {
                0 => random_list(&mut rng, &fault),
                _ => crowded_list(&mut rng, &fault),
            };
            let steps: Vec<Step> = history.iter().map(|event| event.step).collect();
            let (right, expected) = play(&steps, &NoFault);
            assert_eq!(history, right, "{fault:?}");
            state.counters = expected.counters;
            assert!(state == expected, "{fault:?}");
        }
    }
}

/// The faults that break what document 02 §7 says of a run begun with zero counts, each with the number of random steps
/// it took; the others break it on no run.
#[test]
fn caught_by_the_counter_law() {
    for fault in Fault::ALL {
        if !fault.breaks_counter_law() {
            let found = search_counters(seed(), 10_000 * scale(), &fault);
            assert_eq!(found, None, "{fault:?}");
            continue;
        }
        let found = search_counters(seed(), 1_000_000, &fault);
        let found = found.unwrap_or_else(|| panic!("{fault:?} is not caught"));
        println!("{fault:?}: the counters are wrong after {found} steps");
    }
}

/// The faults that break the promise of the first read from memory, each with the number of random interleavings it
/// took, at most 109 with the default seed; the others break it on none.
#[test]
fn caught_by_the_first_read() {
    for fault in Fault::ALL.into_iter().filter(|f| !f.is_of_counters()) {
        let mut interleavings = Interleavings::new(seed(), KINDS);
        if !fault.breaks_first_read() {
            let found = interleavings.search(10_000 * scale(), &fault);
            assert!(found.is_none(), "{fault:?}: {found:?}");
            continue;
        }
        let found = interleavings.search(200_000, &fault);
        let found = found.unwrap_or_else(|| panic!("{fault:?} is not caught"));
        println!("{fault:?}: broken after {} interleavings", found.after);
    }
}

/// What open and barred guards match at the store used alone, by hand: the tablet from 128 on is
/// barred. No step sends a write that carries barred, so `BarredMatches` is seen here only.
#[test]
fn mistaken_matches_at_the_store() {
    let outcome = |entry: u8, carried: u32, faults: Option<Fault>| {
        let mut words = vec![0; STORE_WORDS];
        store_calls::fresh(&mut words);
        store_calls::split(&mut words, 128);
        store_calls::restart(&mut words, 128);
        let given = store_calls::write_with(&mut words, entry, 1, 7, carried, &faults);
        assert_eq!((given.code, given.b), (0, 0));
        given.a
    };
    let cases = [
        // entry, carried, outcome, and the fault that has the other one
        (3, 0, 1, Fault::OpenMatchesNothing),
        (200, 0, 2, Fault::BarredMatchesOpen),
        (200, BARRED, 2, Fault::BarredMatches),
    ];
    for (entry, carried, right, fault) in cases {
        assert_eq!(outcome(entry, carried, None), right);
        assert_eq!(outcome(entry, carried, Some(fault)), 3 - right, "{fault:?}");
    }
    assert_eq!(outcome(3, BARRED, Some(Fault::BarredMatches)), 2);
}

/// The faults of step 15 that demand 3 lets by, each on the shortest list that shows it: the reply to its
/// last step by the right rules, and with the fault.
#[test]
fn mistaken_loads() {
    let remembered = [read(0, 45), deliver(3), respond(3)];
    let after = |more: &[Step]| then(&[&remembered[..], more].concat());
    let cases: [(Fault, Vec<Step>, Reply, Reply); 9] = [
        (
            Fault::LoadNeedsOwnership,
            vec![assign(0, 9, 10), load(9, 5)],
            reply(1, 2, 0),
            refused(29),
        ),
        (
            Fault::LoadNeedsOpenGuard,
            vec![restart_tablet(9), load(9, 5)],
            reply(1, 1, 0),
            refused(30),
        ),
        (
            Fault::LoadMarksRequests,
            then(&[
                read(0, 45),
                load(45, 5),
                deliver(3),
                respond(3),
                read(0, 45),
            ]),
            reply(2, 0, 0),
            reply(1, 5, 0),
        ),
        (
            Fault::LoadOverlapsRequests,
            then(&[
                load(45, 5),
                read(0, 45),
                deliver(4),
                respond(4),
                read(0, 45),
            ]),
            reply(2, 0, 0),
            reply(1, 5, 0),
        ),
        (
            Fault::LoadEmptiesCells,
            after(&[load(45, 5), read(0, 45)]),
            reply(2, 0, 0),
            reply(1, 5, 0),
        ),
        (
            Fault::RejectedLoadClears,
            after(&[load(45, 5), deliver(4), respond(4), read(0, 45)]),
            reply(2, 0, 0),
            reply(1, 5, 0),
        ),
        (
            Fault::AbandonedLoadClears,
            after(&[load(45, 5), abandon(4), read(0, 45)]),
            reply(2, 0, 0),
            reply(1, 5, 0),
        ),
        (
            Fault::RestartPlayerAbandonsLoads,
            vec![load(9, 5), deliver(1), restart_player(3), respond(1)],
            reply(4, 1, 5),
            refused(32),
        ),
        (
            Fault::LoaderRestarts,
            vec![load(9, 5), deliver(1), restart_player(8), respond(1)],
            reply(4, 1, 5),
            refused(32),
        ),
    ];
    for (fault, steps, right, wrong) in cases {
        assert!(!fault.breaks_demand_3());
        assert_eq!(last_reply(&steps), right, "{fault:?}");
        let (history, state) = play(&steps, &fault);
        assert_eq!(history[steps.len() - 1].reply, wrong, "{fault:?}");
        assert_eq!(model::claim::check(&history, &state.store), Ok(()));
    }
    // These two leave a mark, from which nothing follows.
    let marked = |fault: Fault, steps: &[Step]| {
        assert!(marks(&state_after(steps)).iter().all(|mark| !mark.1));
        let (_, state) = play(steps, &fault);
        marks(&state)
    };
    let steps = [load(9, 5), load(9, 6)];
    let expected = [(1, false), (2, true)];
    assert_eq!(marked(Fault::LoadOverlapped, &steps), expected);
    let steps = then(&[load(45, 5), write(0, 45, 7)]);
    let expected = [(3, true), (4, false)];
    assert_eq!(marked(Fault::WriteMarksLoads, &steps), expected);
    // And one takes another refusal, of two that apply.
    let mut full = state_after(&[load(9, 5); 16]);
    full.last_serial = MAX_SERIAL;
    assert_eq!(step(&mut full, load(9, 5)), refused(38));
    let given = step_with(&mut full, load(9, 5), &Fault::LoadSerialFirst);
    assert_eq!(given, refused(34));
}

/// The faults of §5 that a list of steps shows: the reply to its last step by the right rules, and with the
/// fault. Reads and loads are of entry 9, and the first request has serial 1.
#[test]
fn mistaken_shares() {
    let reads = |player: u8, count: usize| vec![read(player, 9); count];
    let loads = |count: usize| vec![load(9, 5); count];
    let each = |serials: std::ops::RangeInclusive<u32>, step: fn(u32) -> Step| {
        Vec::from_iter(serials.map(step))
    };
    let let_in = |serial: u32| reply(1, serial, 0);
    // Steps, how the right rules reply to the last one, and how with the fault.
    let cases: [(Fault, Vec<Step>, Reply, Reply); 21] = [
        (
            Fault::AbandonedUncounted,
            [reads(0, 22), vec![abandon(9)], reads(0, 1)].concat(),
            refused(38),
            let_in(23),
        ),
        // Of the player's own 6 as well.
        (
            Fault::AbandonedUncounted,
            [reads(0, 6), loads(16), vec![abandon(1)], reads(0, 1)].concat(),
            refused(38),
            let_in(23),
        ),
        (
            Fault::DeliveredUncounted,
            [reads(0, 22), vec![deliver(9)], reads(0, 1)].concat(),
            refused(38),
            let_in(23),
        ),
        (
            Fault::OnlyUnderwayCounted,
            [loads(16), vec![deliver(9)], loads(1)].concat(),
            refused(38),
            let_in(17),
        ),
        (
            Fault::OnlyUnderwayCounted,
            [loads(16), each(1..=8, abandon), loads(1)].concat(),
            refused(38),
            let_in(17),
        ),
        (
            Fault::LoaderHasOwnPlaces,
            loads(17),
            refused(38),
            let_in(17),
        ),
        (
            Fault::LoaderHasOwnPlaces,
            [reads(0, 22), loads(1)].concat(),
            refused(38),
            let_in(23),
        ),
        (
            Fault::LoadsUncounted,
            [loads(16), reads(0, 7)].concat(),
            refused(38),
            let_in(23),
        ),
        (
            Fault::OthersUncounted,
            [reads(0, 22), reads(1, 7)].concat(),
            refused(38),
            let_in(29),
        ),
        (
            Fault::OthersUncounted,
            [reads(0, 22), loads(1)].concat(),
            refused(38),
            let_in(23),
        ),
        (
            Fault::SeventeenthLetIn,
            reads(0, 23),
            refused(38),
            let_in(23),
        ),
        (Fault::SeventeenthLetIn, loads(17), refused(38), let_in(17)),
        (
            Fault::SixteenthTurnedAway,
            reads(0, 22),
            let_in(22),
            refused(38),
        ),
        (
            Fault::SixteenthTurnedAway,
            loads(16),
            let_in(16),
            refused(38),
        ),
        (
            Fault::SixthTurnedAway,
            [reads(0, 22), reads(1, 6)].concat(),
            let_in(28),
            refused(38),
        ),
        (
            Fault::SevenOwnPlaces,
            [loads(16), reads(1, 7)].concat(),
            refused(38),
            let_in(23),
        ),
        (
            Fault::AllTurnedAway,
            [reads(0, 22), reads(1, 1)].concat(),
            let_in(23),
            refused(38),
        ),
        (Fault::OwnPlacesAlone, reads(0, 7), let_in(7), refused(38)),
        (Fault::OwnPlacesAlone, loads(1), let_in(1), refused(38)),
        (Fault::NoShares, reads(0, 23), refused(38), let_in(23)),
        (Fault::OldNumber, reads(0, 23), refused(38), refused(33)),
    ];
    for (fault, steps, right, wrong) in cases {
        assert!(!fault.breaks_demand_3());
        assert_eq!(last_reply(&steps), right, "{fault:?}");
        let (history, state) = play(&steps, &fault);
        assert_eq!(history[steps.len() - 1].reply, wrong, "{fault:?}");
        assert_eq!(model::claim::check(&history, &state.store), Ok(()));
    }
    // Player 0 has entry 45 in its memory, and 22 requests.
    let remembered = then(&[read(0, 45), deliver(3), respond(3)]);
    let mut full = state_after(&[remembered, reads(0, 22)].concat());
    assert_eq!(step(&mut full, read(0, 45)), reply(2, 0, 0));
    let given = step_with(&mut full, read(0, 45), &Fault::MemoryReadNeedsPlace);
    assert_eq!(given, refused(38));
    // No serial is left: two refusals apply.
    full.last_serial = MAX_SERIAL;
    for next in [read(0, 9), write(0, 46, 7), ask(0, 40, 60)] {
        assert_eq!(step(&mut full, next), refused(38));
        let given = step_with(&mut full, next, &Fault::SerialBeforePlace);
        assert_eq!(given, refused(34));
    }
}

/// The faults of §5 in the test of the tables: 22 requests of player 0 and 23, with and without one that is
/// given up, by hand; and any tables with 16 and with 17 common places in use.
#[test]
fn mistaken_shares_of_tables() {
    let tables = |requests: usize, abandoned: u32| {
        let (store, mut players) = fresh_tables();
        players[0] = 23;
        let places = players[REQUESTS..].chunks_exact_mut(12);
        for (serial, place) in (1..).zip(places.take(requests)) {
            let mark = u32::from(serial == abandoned);
            place.copy_from_slice(&[serial, 0, 4, 9, 0, 0, 0, 0, 0, mark, 0, 0]);
        }
        (store, players)
    };
    // The fault, and what it gives for 22, 23, and 23 of which one is given up.
    let cases = [
        (None, [0, 22, 22]),
        (Some(Fault::SharesUntested), [0, 0, 0]),
        (Some(Fault::FullSharesRefused), [22, 22, 22]),
        (Some(Fault::SharesOfPendingAlone), [0, 22, 0]),
    ];
    for (fault, expected) in cases {
        let given = [(22, 0), (23, 0), (23, 9)].map(|(requests, abandoned)| {
            let (store, players) = tables(requests, abandoned);
            check_with(&store, &players, &fault).code
        });
        assert_eq!(given, expected, "{fault:?}");
    }
    let mut rng = Prng::new(seed());
    for crowd in Crowd::ALL {
        let abandoned = matches!(crowd, Crowd::PlayerAbandoned | Crowd::LoaderAbandoned);
        for (fault, common, wrong) in [
            (Fault::SharesUntested, 17, 0),
            (Fault::FullSharesRefused, 16, 22),
            (
                Fault::SharesOfPendingAlone,
                17,
                if abandoned { 0 } else { 22 },
            ),
        ] {
            let (store, players) = crowded(&mut rng, crowd, common);
            let given = check_with(&store, &players, &fault).code;
            assert_eq!(given, wrong, "{fault:?}, {crowd:?}");
        }
    }
}

/// The faults of §2 that demand 3 sees, each on a list worked out by hand.
#[test]
fn loads_that_break_demand_3() {
    let cases = [
        (
            Fault::OpenMatchesNothing,
            vec![load(9, 5), deliver(1), respond(1)],
            Sentence::RejectedNever,
        ),
        (
            Fault::BarredMatchesOpen,
            vec![restart_tablet(0), load(9, 5), deliver(1), respond(1)],
            Sentence::CommittedOnce,
        ),
        (
            Fault::LoadCarriesGuard,
            then(&[load(45, 5), deliver(3), respond(3)]),
            Sentence::CommittedOnce,
        ),
        (
            Fault::RestartOpens,
            vec![restart_tablet(0)],
            Sentence::NeverOpenAgain,
        ),
        (
            Fault::RestartKeepsOpen,
            vec![restart_tablet(0)],
            Sentence::NeverOpenAgain,
        ),
        // The owner has written 7 since, and remembers what was loaded when the answer comes.
        (
            Fault::LoadCached,
            vec![
                load(45, 5),
                deliver(1),
                assign(0, 45, 46),
                ask(0, 45, 46),
                deliver(3),
                respond(3),
                write(0, 45, 7),
                deliver(4),
                respond(4),
                respond(1),
                read(0, 45),
            ],
            Sentence::MemoryRead,
        ),
    ];
    for (fault, steps, sentence) in cases {
        assert!(fault.breaks_demand_3());
        let (history, state) = play(&steps, &fault);
        let violation = model::claim::check(&history, &state.store).unwrap_err();
        assert_eq!(violation.sentence, sentence, "{fault:?}");
        let (history, state) = play(&steps, &NoFault);
        assert_eq!(model::claim::check(&history, &state.store), Ok(()));
    }
}

/// What runs count with each fault that the law of the counters sees, by hand. In the first player 0 gets 3 and 2 on entry
/// 45, 3 on entry 9, which nobody owns, and 4; it gives up a read that arrived; player 1 gets 3 on entry 45, and
/// restarts. In the second a read of player 1 gets 38.
#[test]
fn mistaken_counts() {
    let steps = then(&[
        read(0, 45),
        deliver(3),
        respond(3),
        read(0, 45),
        read(0, 9),
        deliver(4),
        respond(4),
        write(0, 46, 7),
        deliver(5),
        respond(5),
        read(0, 47),
        deliver(6),
        abandon(6),
        read(1, 45),
        deliver(7),
        respond(7),
        restart_player(1),
    ]);
    let full = [vec![load(9, 5); 16], vec![read(1, 9); 7]].concat();
    // The counters of players 0 and 1 after the first run.
    let right = [counter(3, 1), counter(1, 0)];
    let cases = [
        (Fault::StoreReadUncounted, [counter(1, 1), counter(0, 0)]),
        (Fault::StoreReadAsHit, [counter(3, 3), counter(1, 1)]),
        // Nobody's for entry 9, and player 0's for that of player 1.
        (Fault::StoreReadOfOwner, [counter(3, 1), counter(0, 0)]),
        (Fault::StoreReadOfPlayer0, [counter(4, 1), counter(0, 0)]),
        (Fault::MemoryReadUncounted, [counter(2, 0), counter(1, 0)]),
        (Fault::MemoryReadUnanswered, [counter(2, 1), counter(1, 0)]),
        (Fault::MemoryReadAsMiss, [counter(3, 0), counter(1, 0)]),
        // Four reads are sent, three of them by player 0.
        (Fault::SentReadCounted, [counter(6, 1), counter(2, 0)]),
        (Fault::RefusedReadCounted, right),
        (Fault::AbandonedReadCounted, [counter(4, 1), counter(1, 0)]),
        (Fault::WriteAnswerCounted, [counter(4, 1), counter(1, 0)]),
        (Fault::RestartZeroesCounters, [counter(3, 1), counter(0, 0)]),
        (Fault::RunLeavesCounters, [counter(0, 0), counter(0, 0)]),
    ];
    let counted = |steps: &[Step], faults: Option<Fault>| {
        let run = ZeroRun::new(State::fresh(), steps, &faults);
        assert_eq!(run.history.len(), steps.len());
        assert_eq!(run.history, play(steps, &NoFault).0);
        (run.counters, run.keeps_law())
    };
    let (given, keeps_law) = counted(&steps, None);
    assert_eq!((&given[..2], keeps_law), (&right[..], true));
    for (fault, expected) in cases {
        assert!(fault.breaks_counter_law());
        let (given, keeps_law) = counted(&steps, Some(fault));
        assert_eq!(given[..2], expected, "{fault:?}");
        assert_eq!(keeps_law, expected == right, "{fault:?}");
    }
    assert_eq!(replies(&full)[22], refused(38));
    assert_eq!(counted(&full, None).0[1], counter(0, 0));
    let (given, keeps_law) = counted(&full, Some(Fault::RefusedReadCounted));
    assert_eq!((given[1], keeps_law), (counter(1, 0), false));
    // All that the law sees stand here.
    let seen = Fault::ALL.into_iter().filter(|f| f.breaks_counter_law());
    assert!(seen.eq(cases.map(|(fault, _)| fault)));
    // And what a run begun with other counts does.
    let counters = |faults: Option<Fault>| {
        let mut start = State::fresh();
        start.counters[0] = counter(5, 4);
        ZeroRun::new(start, &steps, &faults).counters[0]
    };
    assert_eq!(counters(None), counter(8, 5));
    assert_eq!(counters(Some(Fault::RunBeginsAtZero)), counter(3, 1));
}

/// The faults of the limit, by hand: what a read from memory, and one from the store, leaves of counts at 4,000,000,000 and
/// one below.
#[test]
fn mistaken_limits() {
    const LIMIT: u32 = 4_000_000_000;
    let after = |before: ReadCounter, faults: Option<Fault>| {
        let steps = then(&[read(0, 45), deliver(3), respond(3), read(0, 46), deliver(4)]);
        let mut state = state_after(&steps);
        state.counters[0] = before;
        [read(0, 45), respond(4)].map(|next| {
            let mut state = state.clone();
            assert!(!step_with(&mut state, next, &faults).is_refusal());
            state.counters[0]
        })
    };
    let (at, below) = (counter(LIMIT, 7), counter(LIMIT - 1, 7));
    let reached = [counter(LIMIT, 8), counter(LIMIT, 7)];
    let above = [counter(LIMIT + 1, 8), counter(LIMIT + 1, 7)];
    let cases = [
        (None, [at; 2], reached),
        (Some(Fault::HitsGoOn), [counter(LIMIT, 8), at], reached),
        (Some(Fault::AnsweredGoesOn), [above[1]; 2], reached),
        (Some(Fault::CountStopsEarly), [at; 2], [below; 2]),
        (Some(Fault::CountStopsLate), above, reached),
        (Some(Fault::CountUnlimited), above, reached),
    ];
    for (fault, of_full, of_last) in cases {
        assert_eq!(after(at, fault), of_full, "{fault:?}");
        assert_eq!(after(below, fault), of_last, "{fault:?}");
    }
    let above = [counter(LIMIT + 1, 0), counter(LIMIT + 2, 0)];
    assert_eq!(after(above[0], Some(Fault::CountStopsLate))[1], above[0]);
    assert_eq!(after(above[0], Some(Fault::CountUnlimited))[1], above[1]);
}

/// The faults in the test of the tables' counters, by hand.
#[test]
fn mistaken_counters_of_tables() {
    const LIMIT: u32 = 4_000_000_000;
    let tried = [
        counter(1, 2),
        counter(LIMIT + 1, 0),
        counter(LIMIT + 2, 0),
        counter(2, 2),
        counter(LIMIT, 0),
    ];
    let given = |player: usize, faults: Option<Fault>| {
        tried.map(|own| {
            let (store, mut players) = fresh_tables();
            players[COUNTERS + 2 * player] = own.answered;
            players[COUNTERS + 2 * player + 1] = own.hits;
            check_with(&store, &players, &faults).code
        })
    };
    let right = [22, 22, 22, 0, 0];
    for (fault, of_player_0, of_player_7) in [
        (None, right, right),
        (
            Some(Fault::HitsUntested),
            [0, 22, 22, 0, 0],
            [0, 22, 22, 0, 0],
        ),
        (
            Some(Fault::CountLimitUntested),
            [22, 0, 0, 0, 0],
            [22, 0, 0, 0, 0],
        ),
        (
            Some(Fault::CountStopsLate),
            [22, 0, 22, 0, 0],
            [22, 0, 22, 0, 0],
        ),
        (
            Some(Fault::EqualCountsRefused),
            [22, 22, 22, 22, 0],
            [22, 22, 22, 22, 0],
        ),
        (
            Some(Fault::FullCounterRefused),
            [22, 22, 22, 0, 22],
            [22, 22, 22, 0, 22],
        ),
        (Some(Fault::LastCounterUntested), right, [0; 5]),
    ] {
        assert_eq!(given(0, fault), of_player_0, "{fault:?}");
        assert_eq!(given(7, fault), of_player_7, "{fault:?}");
    }
}

/// The faults of the share, by hand: with the counters of player 0, asked for player 0 or 8, what the right rules give, and
/// what the fault does.
#[test]
fn mistaken_shares_of_reads() {
    const LIMIT: u32 = 4_000_000_000;
    let cases = [
        (
            Fault::ShareInHundredths,
            counter(3, 1),
            0,
            [0, 333, 1],
            [0, 33, 1],
        ),
        (
            Fault::ShareRemainderOfHits,
            counter(3, 2),
            0,
            [0, 666, 2],
            [0, 666, 2],
        ),
        (
            Fault::ShareRemainderOfHits,
            counter(7, 3),
            0,
            [0, 428, 4],
            [0, 428, 3],
        ),
        (
            Fault::ShareRounded,
            counter(3, 2),
            0,
            [0, 666, 2],
            [0, 667, 2],
        ),
        (
            Fault::ShareRounded,
            counter(3, 1),
            0,
            [0, 333, 1],
            [0, 333, 1],
        ),
        (
            Fault::ShareOfStoreReads,
            counter(4, 1),
            0,
            [0, 250, 0],
            [0, 750, 0],
        ),
        (
            Fault::ShareWraps,
            counter(LIMIT, 4_294_968),
            0,
            [0, 1, 294_968_000],
            [0, 0, 704],
        ),
        (
            Fault::ShareSaturates,
            counter(LIMIT, LIMIT),
            0,
            [0, 1_000, 0],
            [0, 1, 294_967_295],
        ),
        (
            Fault::NoReadShareZero,
            counter(0, 0),
            0,
            [39, 0, 0],
            [0, 0, 0],
        ),
        (Fault::NoHitRefused, counter(9, 0), 0, [0, 0, 0], [39, 0, 0]),
        (
            Fault::NoReadBeforePlayer,
            counter(9, 1),
            8,
            [28, 0, 0],
            [39, 0, 0],
        ),
        (
            Fault::PlayerBeforeTables,
            counter(1, 2),
            8,
            [22, 0, 0],
            [28, 0, 0],
        ),
        (
            Fault::PlayerBeforeTables,
            counter(1, 2),
            0,
            [22, 0, 0],
            [22, 0, 0],
        ),
        (
            Fault::AskedCounterAlone,
            counter(1, 2),
            1,
            [22, 0, 0],
            [39, 0, 0],
        ),
        (
            Fault::AskedCounterAlone,
            counter(1, 2),
            0,
            [22, 0, 0],
            [22, 0, 0],
        ),
    ];
    for (fault, own, asked, right, wrong) in cases {
        let (store, mut players) = fresh_tables();
        players[COUNTERS..COUNTERS + 2].copy_from_slice(&[own.answered, own.hits]);
        let [code, a, b] = right;
        assert_eq!(share(&store, &players, asked), reply(code, a, b), "{own:?}");
        let [code, a, b] = wrong;
        let given = share_with(&store, &players, asked, &fault);
        assert_eq!(given, reply(code, a, b), "{fault:?}");
    }
}

/// The faults of step 14 and of the store's guard intervals, by hand: guard 2 over 40 to 60, and a
/// boundary at 50.
#[test]
fn mistaken_intervals() {
    let cases = [
        (None, [(0, 39), (40, 59), (40, 59)]),
        (
            Some(Fault::IntervalCutToTablet),
            [(0, 39), (40, 49), (50, 59)],
        ),
        (
            Some(Fault::IntervalBeginsLate),
            [(1, 39), (41, 59), (41, 59)],
        ),
        (
            Some(Fault::IntervalEndsEarly),
            [(0, 38), (40, 58), (40, 58)],
        ),
        (
            Some(Fault::IntervalEndsBehind),
            [(0, 40), (40, 60), (40, 60)],
        ),
        (Some(Fault::OpenAlone), [(39, 39), (40, 59), (40, 59)]),
        (Some(Fault::BarredAlone), [(0, 39), (40, 59), (40, 59)]),
    ];
    let (store, _) = tables_of(&state_after(&then(&[split(50)])));
    for (fault, expected) in cases {
        for (entry, (first, last)) in [39, 49, 50].into_iter().zip(expected) {
            let steps = then(&[split(50), find_interval(entry)]);
            let (history, _) = play(&steps, &fault);
            assert_eq!(history[5].reply, reply(9, first, last), "{fault:?}");
            let found = store_calls::find_interval_with(&store, entry, &fault);
            assert_eq!((found.first, found.last), (first, last), "{fault:?}");
        }
    }
    // Barred, from 50 on.
    let steps = then(&[split(50), restart_tablet(50), find_interval(60)]);
    assert_eq!(last_reply(&steps), reply(9, 50, 255));
    let (history, _) = play(&steps, &Fault::BarredAlone);
    assert_eq!(history[6].reply, reply(9, 60, 60));
    let guard = |fault: Option<Fault>| {
        let found = store_calls::find_interval_with(&store, 45, &fault);
        (found.guard, found.first, found.last)
    };
    assert_eq!(guard(None), (2, 40, 59));
    assert_eq!(guard(Some(Fault::IntervalWithoutGuard)), (0, 40, 59));
    let steps = then(&[find_interval(45), assign(0, 0, 1)]);
    let (history, _) = play(&steps, &Fault::IntervalTakesSerial);
    assert_eq!(history[4].reply, reply(9, 40, 59));
    assert_eq!(history[5].reply, reply(1, 4, 0));
    assert_eq!(last_reply(&steps), reply(1, 3, 0));
}

/// The four of "What students build", each on the list that shows it.
#[test]
fn what_students_build() {
    let stale = |fault: Fault, steps: &[_], stale_reply| {
        let (history, state) = play(steps, &fault);
        assert_eq!(history[steps.len() - 1].reply, stale_reply, "{fault:?}");
        assert!(model::claim::check(&history, &state.store).is_err());
        let right = last_reply(steps);
        assert_ne!(right.code, 2, "{fault:?}: the right rules ask the store");
    };
    // "A read begun while a write waits, and then remembered."
    let steps = then(&[
        write(0, 45, 7),
        read(0, 45),
        deliver(4),
        respond(4),
        deliver(3),
        read(0, 45),
    ]);
    stale(Fault::ReadBesideWriteCached, &steps, reply(2, 0, 0));
    // "A guard granted late to a player that lost the range and has it back."
    let steps = [
        assign(0, 40, 60),
        ask(0, 40, 60),
        deliver(2),
        assign(1, 40, 60),
        ask(1, 40, 60),
        deliver(4),
        respond(4),
        write(1, 45, 7),
        assign(0, 40, 60),
        respond(2),
        read(0, 45),
        deliver(7),
        respond(7),
        deliver(5),
        read(0, 45),
    ];
    stale(Fault::LateGuardGranted, &steps, reply(2, 0, 0));
    // "Guards cleared on a turned-back write but left after a given-up one."
    let steps = then(&[
        write(0, 45, 7),
        abandon(3),
        read(0, 45),
        deliver(4),
        respond(4),
        deliver(3),
        read(0, 45),
    ]);
    stale(Fault::AbandonKeepsGuards, &steps, reply(2, 0, 0));
    // "A write answer remembered though a second write crossed it."
    let steps = then(&[
        write(0, 45, 7),
        write(0, 45, 8),
        deliver(3),
        deliver(4),
        respond(3),
        read(0, 45),
    ]);
    stale(Fault::CrossedWriteCached, &steps, reply(2, 3, 7));
}

/// The case that 31 is for: two guard requests of one player on an entry, delivered in one order
/// and granted in the other, let a read be cached beside an abandoned write that still commits.
#[test]
fn shared_guard_requests() {
    let range = Range::new(45, 46);
    let steps = [
        assign(0, 45, 46),
        ask(0, range.low, range.high),
        ask(0, range.low, range.high),
        deliver(3),
        deliver(2),
        respond(2),
        write(0, 45, 7),
        abandon(4),
        respond(3),
        read(0, 45),
        deliver(5),
        respond(5),
        deliver(4),
        read(0, 45),
    ];
    let (history, state) = play(&steps, &Fault::SharedGuardRequests);
    assert_eq!(history[13].reply, reply(2, 0, 0));
    assert_eq!((state.store.versions[45], state.store.values[45]), (4, 7));
    assert!(model::claim::check(&history, &state.store).is_err());
    assert_eq!(replies(&steps)[2], refused(31));
}
