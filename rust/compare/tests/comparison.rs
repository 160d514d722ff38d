//! The port agrees with the model, every cell is filled, and the comparison sees every wrong library.

use calls::{Fields, Library, Step, KINDS};
use compare::cells::{Call, Counts, FIND_INTERVAL, LOAD};
use compare::oracle::{Model, RIGHT};
use compare::suites::{run_all, Plan};
use compare::wrong::{try_all, Point, Wrong};
use compare::wrong_counters::CounterPoint;
use model::codec;
use model::faults::Fault;
use model::generate::{step_for, Profile};
use model::numbers::MAX_REQUESTS;
use model::prng::Prng;
use model::rules;
use model::states::{any_state, remembering_state};
use model::tables::{tables_of, COUNTERS};
use port::Port;

/// A tenth of what the program `compare` does.
#[test]
fn port_agrees() {
    let plan = Plan {
        steps: 100_000,
        seed: 3,
    };
    let mut counts = Counts::default();
    for outcome in run_all(&Port, plan, &mut counts) {
        assert_eq!(outcome.failure, None, "{}", outcome.name);
        assert!(outcome.cases > 0);
    }
    let (_, wrong, _) = counts.table(Port.kinds());
    assert!(wrong.is_empty(), "{wrong:?}");
    assert!(counts.seen(Call::Step(4), 2) > 100);
    assert!(counts.seen(Call::Step(4), 38) > 100);
}

/// All that can occur occurs, of the kinds that the port does not know too. The model stands beside itself, so only the cells are a test.
#[test]
fn every_cell_is_filled() {
    let plan = Plan {
        steps: 100_000,
        seed: 3,
    };
    let mut counts = Counts::default();
    run_all(&RIGHT, plan, &mut counts);
    let (_, wrong, cells) = counts.table(KINDS);
    assert!(wrong.is_empty(), "{wrong:?}");
    assert_eq!(cells, 545);
    assert!(counts.seen(Call::Step(FIND_INTERVAL), 9) > 1_000);
    assert!(counts.seen(Call::Step(LOAD), 1) > 1_000);
    assert!(counts.seen(Call::Step(LOAD), 38) > 100);
    assert!(counts.seen(Call::PreviewRun, 9) > 1_000);
    assert!(counts.seen(Call::Share, 0) > 300);
    assert!(counts.seen(Call::Share, 39) > 100);
}

/// Every library that is wrong in one point is caught, and the case is printed.
#[test]
fn wrong_libraries_are_caught() {
    let plan = Plan {
        steps: 20_000,
        seed: 1,
    };
    let mut tried = 0;
    try_all(plan, |library| {
        let outcome = library.caught;
        let outcome = outcome.unwrap_or_else(|| panic!("{} is not caught", library.name));
        let text = outcome.failure.unwrap_or_default();
        assert!(text.contains("library"), "{}: {text}", library.name);
        let of_preview = library.name.starts_with("preview: ");
        assert!(!of_preview || text.contains("preview, "), "{text}");
        tried += 1;
    });
    assert_eq!(tried, 264);
}

/// The wrong libraries that count some requests not are wrong in that alone: where the right one has no place
/// for a request, they do what the model does with the same fault, marks and all.
#[test]
fn uncounted_requests_get_their_marks() {
    let pairs = [
        (Point::OnePlaceMore, Fault::SeventeenthLetIn),
        (Point::NoShares, Fault::NoShares),
        (Point::AbandonedUncounted, Fault::AbandonedUncounted),
        (Point::DeliveredUncounted, Fault::DeliveredUncounted),
        (Point::LoadsUncounted, Fault::LoadsUncounted),
    ];
    let mut rng = Prng::new(7);
    let mut let_in = [0; 5];
    for _ in 0..30_000 {
        let state = any_state(&mut rng);
        let step = Fields::from(step_for(&mut rng, &state, Port.kinds()));
        let start = tables_of(&state);
        let (mut store, mut players) = start.clone();
        let right = Port.step(&mut store, &mut players, step);
        if right.code != 38 || state.requests.len() == MAX_REQUESTS {
            continue;
        }
        for ((point, fault), let_in) in pairs.into_iter().zip(&mut let_in) {
            let (mut wrong, mut model) = (start.clone(), start.clone());
            let given = Wrong::In(point).step(&mut wrong.0, &mut wrong.1, step);
            let expected = Model(fault).step(&mut model.0, &mut model.1, step);
            assert_eq!(given, expected, "{point:?}, {step:?}");
            assert!(wrong == model, "{point:?}, {step:?}");
            *let_in += u32::from(given.code == 1);
        }
    }
    assert!(let_in.iter().all(|&count| count > 50), "{let_in:?}");
}

/// The wrong libraries of the read counters do, with a step, a run and a share, what the model does with the same fault, and
/// so are wrong in that alone; each is wrong now and then.
#[test]
fn wrong_counters_are_wrong_in_that_alone() {
    let pairs = [
        (CounterPoint::CountsForStep, Fault::StoreReadOfPlayer0),
        (CounterPoint::CountsForOwner, Fault::StoreReadOfOwner),
        (CounterPoint::StoreReadUncounted, Fault::StoreReadUncounted),
        (
            CounterPoint::MemoryReadUncounted,
            Fault::MemoryReadUncounted,
        ),
        (CounterPoint::MemoryReadAsMiss, Fault::MemoryReadAsMiss),
        (CounterPoint::HitsGoOn, Fault::HitsGoOn),
        (CounterPoint::AnsweredGoesOn, Fault::AnsweredGoesOn),
        (CounterPoint::RefusedReadCounted, Fault::RefusedReadCounted),
        (CounterPoint::RestartZeroes, Fault::RestartZeroesCounters),
        (CounterPoint::RunLeavesCounters, Fault::RunLeavesCounters),
        (CounterPoint::RunBeginsAtZero, Fault::RunBeginsAtZero),
        (
            CounterPoint::ShareRemainderOfHits,
            Fault::ShareRemainderOfHits,
        ),
        (CounterPoint::ShareInHundredths, Fault::ShareInHundredths),
        (CounterPoint::ShareWraps, Fault::ShareWraps),
        (CounterPoint::ShareAskedAlone, Fault::AskedCounterAlone),
        (CounterPoint::ShareNoReadZero, Fault::NoReadShareZero),
        (CounterPoint::ShareNoReadFirst, Fault::NoReadBeforePlayer),
        (CounterPoint::SharePlayerFirst, Fault::PlayerBeforeTables),
    ];
    let mut rng = Prng::new(8);
    let mut wrong = [0; 18];
    for _ in 0..1_500 {
        let state = remembering_state(&mut rng);
        let mut profile = Profile::reading(&mut rng, Port.kinds());
        let mut left = state.clone();
        let steps: Vec<Step> = (0..12)
            .map(|_| {
                let step = profile.next_step(&mut rng, &left);
                rules::step(&mut left, step);
                step
            })
            .collect();
        let session = codec::session(&steps);
        let player = rng.below(9) as u8;
        let start = tables_of(&state);
        // Now and then a counter that breaks a rule.
        let mut asked = start.clone();
        if rng.chance(30) {
            asked.1[COUNTERS + rng.index(16)] = u32::MAX;
        }
        let of = |library: &dyn Library, is_run: bool| {
            let ((mut store, mut players), mut list) = (start.clone(), vec![0; 36]);
            let mut replies = Vec::new();
            if is_run {
                library.run(&mut store, &mut players, &session, 12, &mut list);
            } else {
                let step = Fields::from(steps[0]);
                replies.push(library.step(&mut store, &mut players, step));
            }
            replies.push(library.share(&asked.0, &asked.1, player));
            (replies, list, store, players)
        };
        for ((point, fault), wrong) in pairs.into_iter().zip(&mut wrong) {
            let is_run = matches!(fault, Fault::RunLeavesCounters | Fault::RunBeginsAtZero);
            let given = of(&Wrong::InCounters(point), is_run);
            assert!(given == of(&Model(fault), is_run), "{point:?}, {steps:?}");
            *wrong += u32::from(given != of(&Port, is_run));
        }
    }
    assert!(wrong.iter().all(|&count| count > 10), "{wrong:?}");
}
