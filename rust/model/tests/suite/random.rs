//! Random lists by the right rules: demand 3, the table rules after every step, refusals that
//! change nothing, and every reply code that can occur.

use std::collections::BTreeSet;

use calls::KINDS;
use model::claim::check;
use model::faults::NoFault;
use model::generate::{step_for, Profile};
use model::prng::Prng;
use model::rules;
use model::rules::REPLIES;
use model::state::State;
use model::states::any_state;
use model::tables;
use model::trial::{random_list, search};

use crate::support::scale;

/// Demand 3 holds on every list.
#[test]
fn demand_3() {
    assert!(search(31, 400_000 * scale(), &NoFault).is_none());
}

/// Demand 3 holds after every step of a list: each beginning of a list is a list.
#[test]
fn demand_3_after_every_step() {
    let mut rng = Prng::new(32);
    for _ in 0..20 * scale() {
        let mut profile = Profile::draw(&mut rng, KINDS);
        let mut state = State::fresh();
        let mut history = Vec::new();
        for _ in 0..150 {
            let step = profile.next_step(&mut rng, &state);
            let reply = rules::step(&mut state, step);
            history.push(model::claim::Event { step, reply });
            assert_eq!(check(&history, &state.store), Ok(()), "{history:?}");
        }
    }
}

/// Encode, check and decode give the state back after every step, and a refused step changes no
/// word.
#[test]
fn tables_stay_valid() {
    let mut rng = Prng::new(33);
    for _ in 0..30 * scale() {
        let mut profile = Profile::draw(&mut rng, KINDS);
        let mut state = State::fresh();
        let mut before = tables::fresh_tables();
        for _ in 0..100 {
            let step = profile.next_step(&mut rng, &state);
            let reply = rules::step(&mut state, step);
            let after = tables::tables_of(&state);
            assert_eq!(tables::decode(&after.0, &after.1).as_ref(), Ok(&state));
            if reply.is_refusal() {
                assert_eq!((reply.a, reply.b), (0, 0));
                assert_eq!(after, before, "{step:?}");
            }
            before = after;
        }
    }
}

/// The same from any state that keeps the rules, near the last serial and with full places too.
#[test]
fn steps_from_any_state() {
    let mut rng = Prng::new(34);
    for _ in 0..1_500 * scale() {
        let mut state = any_state(&mut rng);
        let before = tables::tables_of(&state);
        let step = step_for(&mut rng, &state, KINDS);
        let reply = rules::step(&mut state, step);
        let after = tables::tables_of(&state);
        assert_eq!(tables::decode(&after.0, &after.1).as_ref(), Ok(&state));
        if reply.is_refusal() {
            assert_eq!((reply.a, reply.b), (0, 0));
            assert_eq!(after, before, "{step:?}");
        }
    }
}

/// All replies that a kind can give occur, and no other.
#[test]
fn replies_of_each_kind() {
    let mut seen = REPLIES.map(|_| BTreeSet::new());
    let mut rng = Prng::new(35);
    for _ in 0..1_000 * scale() {
        let (history, _) = random_list(&mut rng, &NoFault);
        for event in history {
            seen[usize::from(event.step.kind()) - 1].insert(event.reply.code);
        }
    }
    for _ in 0..20_000 * scale() {
        let mut state = any_state(&mut rng);
        let step = step_for(&mut rng, &state, KINDS);
        let reply = rules::step(&mut state, step);
        seen[usize::from(step.kind()) - 1].insert(reply.code);
    }
    for (kind, (seen, expected)) in (1..).zip(seen.iter().zip(REPLIES)) {
        assert!(seen.iter().eq(expected), "kind {kind}: {seen:?}");
    }
}

/// Steps can be drawn of the first kinds alone, and each of these is drawn.
#[test]
fn the_first_kinds_alone() {
    let mut rng = Prng::new(36);
    let mut seen = BTreeSet::new();
    for _ in 0..100 * scale() {
        let mut profile = Profile::draw(&mut rng, 9);
        let mut state = State::fresh();
        for _ in 0..100 {
            let step = profile.next_step(&mut rng, &state);
            rules::step(&mut state, step);
            seen.insert(step.kind());
        }
    }
    assert!(seen.into_iter().eq(1..=9));
}
