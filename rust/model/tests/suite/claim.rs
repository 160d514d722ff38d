//! The checker of demand 3: it lets right histories by, and each sentence fails on a history made
//! to break it.

use calls::{Reply, Step};
use model::claim::{check, Event, Sentence, Violation};
use model::faults::NoFault;
use model::ledger::{Ledger, OperationId};
use model::store::Store;
use model::trial::play;

use crate::support::*;

/// A history by the right rules, in which the reply to some steps is another.
fn altered(steps: &[Step], changes: &[(usize, Reply)]) -> Result<(), Violation> {
    let (mut history, state) = play(steps, &NoFault);
    for &(at, reply) in changes {
        history[at].reply = reply;
    }
    check(&history, &state.store)
}

fn broken(sentence: Sentence, step: usize) -> Result<(), Violation> {
    Err(Violation { sentence, step })
}

#[test]
fn right_histories() {
    let steps = then(&[
        write(0, 45, 7),
        read(1, 45),
        deliver(3),
        deliver(4),
        respond(4),
        respond(3),
        read(0, 45),
        assign(8, 0, 1),
    ]);
    let (history, state) = play(&steps, &NoFault);
    assert_eq!(history[8].reply, reply(3, 3, 7));
    assert_eq!(history[10].reply, reply(2, 3, 7));
    assert_eq!(check(&history, &state.store), Ok(()));
    assert_eq!(check(&[], &Store::fresh()), Ok(()));
}

/// "each answered read stands in the line once": here it is answered and was never delivered.
#[test]
fn read_stands_once() {
    let steps = [read(0, 1), respond(1)];
    let given = altered(&steps, &[(1, reply(3, 0, 0))]);
    assert_eq!(given, broken(Sentence::ReadStandsOnce, 1));
}

/// "its reply has the two numbers it has there"
#[test]
fn read_reply() {
    let steps = [read(0, 1), deliver(1), respond(1)];
    let given = altered(&steps, &[(2, reply(3, 0, 1))]);
    assert_eq!(given, broken(Sentence::ReadReply, 2));
    let given = altered(&steps, &[(2, reply(3, 1, 0))]);
    assert_eq!(given, broken(Sentence::ReadReply, 2));
}

/// "A write answered as committed stands there once": a rejected one answered so.
#[test]
fn committed_once() {
    let steps = then(&[write(0, 45, 7), restart_tablet(45), deliver(3), respond(3)]);
    let given = altered(&steps, &[(7, reply(4, 3, 7))]);
    assert_eq!(given, broken(Sentence::CommittedOnce, 7));
    // Delivered a second time, with reply 0.
    let steps = then(&[write(0, 45, 7), deliver(3), deliver(3), respond(3)]);
    let given = altered(&steps, &[(6, reply(0, 0, 0))]);
    assert_eq!(given, broken(Sentence::CommittedOnce, 7));
}

/// "one turned back never"
#[test]
fn rejected_never() {
    let steps = then(&[write(0, 45, 7), deliver(3), respond(3)]);
    let given = altered(&steps, &[(6, reply(5, 3, 0))]);
    assert_eq!(given, broken(Sentence::RejectedNever, 6));
}

/// "an answered write has reply 4, with its serial and value"
#[test]
fn write_reply() {
    let steps = then(&[write(0, 45, 7), deliver(3), respond(3)]);
    for wrong in [reply(4, 3, 8), reply(4, 2, 7), reply(3, 3, 7)] {
        let given = altered(&steps, &[(6, wrong)]);
        assert_eq!(given, broken(Sentence::WriteReply, 6), "{wrong:?}");
    }
}

/// "One given up stands there at most once"
#[test]
fn abandoned_once() {
    let steps = then(&[write(0, 45, 7), abandon(3), deliver(3), deliver(3)]);
    let given = altered(&steps, &[(7, reply(0, 0, 0))]);
    assert_eq!(given, broken(Sentence::AbandonedOnce, 6));
}

/// "took effect at no step after the granting of a guard that was asked for on that entry after
/// the write began": the guard request is answered as granted before it is delivered.
#[test]
fn abandoned_after_grant() {
    let grant_early = [
        write(0, 45, 7),
        abandon(3),
        ask(0, 45, 46),
        respond(4),
        deliver(3),
    ];
    let given = altered(&then(&grant_early), &[(7, reply(6, 4, 0))]);
    assert_eq!(given, broken(Sentence::AbandonedAfterGrant, 8));
    // The same for a write that player 0's restart gives up, and another player's guard.
    let grant_early = [
        write(0, 45, 7),
        restart_player(0),
        assign(1, 45, 46),
        ask(1, 45, 46),
        respond(5),
        deliver(3),
    ];
    let given = altered(&then(&grant_early), &[(8, reply(6, 5, 0))]);
    assert_eq!(given, broken(Sentence::AbandonedAfterGrant, 9));
    // Reading 22: a write that was delivered while pending and given up afterwards.
    let grant_early = [
        write(0, 45, 7),
        ask(0, 45, 46),
        respond(4),
        deliver(3),
        abandon(3),
    ];
    let given = altered(&then(&grant_early), &[(6, reply(6, 4, 0))]);
    assert_eq!(given, broken(Sentence::AbandonedAfterGrant, 7));
}

/// A guard asked for before the write began, or on other entries, forbids nothing.
#[test]
fn other_grants() {
    let steps = [
        assign(0, 40, 60),
        ask(0, 40, 60),
        deliver(2),
        respond(2),
        write(0, 45, 7),
        abandon(3),
        ask(0, 50, 60),
        deliver(4),
        respond(4),
        deliver(3),
    ];
    let (history, state) = play(&steps, &NoFault);
    assert_eq!(history[8].reply, reply(6, 4, 0));
    assert_eq!(state.store.versions[45], 3, "it takes effect");
    assert_eq!(check(&history, &state.store), Ok(()));
}

/// "A read served from memory gave what the store held at that step."
#[test]
fn memory_read() {
    let steps = then(&[write(0, 45, 7), deliver(3), read(0, 45)]);
    let given = altered(&steps, &[(6, reply(2, 0, 0))]);
    assert_eq!(given, broken(Sentence::MemoryRead, 6));
    let given = altered(&steps, &[(6, reply(2, 3, 7))]);
    assert_eq!(given, Ok(()));
}

/// "the ledger's borders, guards, stamps and values are the tables'"
#[test]
fn tables() {
    let steps = then(&[write(0, 45, 7), deliver(3), split(9)]);
    let (history, state) = play(&steps, &NoFault);
    let with = |change: fn(&mut Store)| {
        let mut store = state.store.clone();
        change(&mut store);
        check(&history, &store)
    };
    assert_eq!(with(|_| ()), Ok(()));
    let given = with(|store| store.boundaries[9] = false);
    assert_eq!(given, broken(Sentence::Boundaries, 7));
    let given = with(|store| store.guards[39] = 2);
    assert_eq!(given, broken(Sentence::Guards, 7));
    let given = with(|store| store.versions[45] = 0);
    assert_eq!(given, broken(Sentence::Versions, 7));
    let given = with(|store| store.values[45] = 0);
    assert_eq!(given, broken(Sentence::Values, 7));
}

/// "Of any two in it, one answered before the other began stands ahead." A write is answered as
/// committed before it is delivered; a read that began after that is delivered first.
#[test]
fn real_time_order() {
    let steps = then(&[
        write(0, 45, 7),
        respond(3),
        read(1, 45),
        deliver(4),
        respond(4),
        deliver(3),
    ]);
    let given = altered(&steps, &[(5, reply(4, 3, 7))]);
    assert_eq!(given, broken(Sentence::RealTimeOrder, 5));
    // Without the read in between the early answer breaks no sentence.
    let steps = then(&[write(0, 45, 7), respond(3), deliver(3)]);
    assert_eq!(altered(&steps, &[(5, reply(4, 3, 7))]), Ok(()));
}

/// Reading 23: a write never answered forces nobody behind it, however late it takes effect; "reads
/// without an answer are struck out", so it does not matter what one of them saw.
#[test]
fn without_an_answer() {
    let steps = then(&[
        write(0, 45, 7),
        read(1, 45),
        deliver(4),
        respond(4),
        read(1, 45),
        deliver(5),
        abandon(5),
        deliver(3),
        read(1, 45),
        deliver(6),
        respond(6),
    ]);
    let (history, state) = play(&steps, &NoFault);
    assert_eq!(history[7].reply, reply(3, 0, 0));
    assert_eq!(history[14].reply, reply(3, 3, 7));
    assert_eq!(check(&history, &state.store), Ok(()));
}

/// "Each read gave the stamp and value of the last write to its entry ahead of it". The ledger
/// makes it so unless serials are mixed up: here the write's serial is issued again, with value 8.
#[test]
fn last_write() {
    let event = |step, code, a, b| Event {
        step,
        reply: reply(code, a, b),
    };
    let (mut history, _) = play(&guarded(), &NoFault);
    history.extend([
        event(write(0, 45, 7), 1, 3, 0),
        event(deliver(3), 0, 0, 0),
        event(read(1, 45), 1, 4, 0),
        event(deliver(4), 0, 0, 0),
        event(write(0, 45, 8), 1, 3, 0),
        event(respond(4), 3, 3, 7),
    ]);
    let given = check(&history, &Store::fresh());
    assert_eq!(given, broken(Sentence::LastWrite, 9));
}

/// The ledger fed with a history.
fn ledger_of(history: &[Event]) -> Ledger {
    let mut ledger = Ledger::new();
    for event in history {
        ledger.feed(event.step, event.reply);
    }
    ledger
}

/// What stands in its order: which read or write, whether it is a write, and at which step it joined.
fn placed(ledger: &Ledger) -> Vec<(OperationId, bool, usize)> {
    let order = ledger.order.iter();
    order.map(|p| (p.operation, p.is_write, p.step)).collect()
}

/// Document 02 §1, of step 14: "It is neither read nor write in the line." It stands between all steps of
/// a write and a read, joins nothing, and no reply to it breaks a sentence.
#[test]
fn a_found_interval_is_neither_read_nor_write() {
    let steps = then(&[
        find_interval(45),
        write(0, 45, 7),
        find_interval(45),
        deliver(3),
        find_interval(45),
        respond(3),
        find_interval(45),
        read(0, 45),
        find_interval(45),
    ]);
    let (history, state) = play(&steps, &NoFault);
    let ledger = ledger_of(&history);
    assert_eq!(
        placed(&ledger),
        [
            (OperationId::Serial(3), true, 7),
            (OperationId::Memory(11), false, 11),
        ]
    );
    assert_eq!(ledger.store, state.store);
    assert_eq!(check(&history, &state.store), Ok(()));
    for at in [4, 6, 8, 10, 12] {
        assert_eq!(history[at].reply, reply(9, 40, 59));
        for other in [
            reply(9, 41, 59),
            reply(0, 0, 0),
            reply(1, 3, 0),
            reply(2, 9, 9),
            reply(3, 9, 9),
            reply(6, 3, 0),
            refused(32),
        ] {
            assert_eq!(altered(&steps, &[(at, other)]), Ok(()), "{at} {other:?}");
        }
    }
}

/// Document 02 §2: "In the line a load is a write like another", and carries 0: one that arrives at an
/// open entry takes effect, one at a guarded or barred entry does not.
#[test]
fn a_load_is_a_write_in_the_line() {
    let steps = [
        load(45, 5),
        read(3, 45),
        deliver(1),
        deliver(2),
        respond(2),
        respond(1),
        assign(0, 40, 60),
        load(45, 6),
        ask(0, 40, 60),
        deliver(5),
        deliver(4),
        respond(4),
        restart_tablet(45),
        load(45, 7),
        deliver(6),
        respond(6),
        read(3, 45),
        deliver(7),
        respond(7),
    ];
    let (history, state) = play(&steps, &NoFault);
    let given = |at: usize| history[at].reply;
    assert_eq!((given(4), given(5)), (reply(3, 1, 5), reply(4, 1, 5)));
    assert_eq!((given(11), given(15)), (reply(5, 4, 0), reply(5, 6, 0)));
    assert_eq!(given(18), reply(3, 1, 5));
    let ledger = ledger_of(&history);
    assert_eq!(
        placed(&ledger),
        [
            (OperationId::Serial(1), true, 2),
            (OperationId::Serial(2), false, 3),
            (OperationId::Serial(7), false, 17),
        ]
    );
    assert_eq!(ledger.store, state.store);
    assert_eq!(check(&history, &state.store), Ok(()));
    let wrong = [
        (5, reply(5, 1, 0), Sentence::RejectedNever),
        (5, reply(4, 1, 6), Sentence::WriteReply),
        (11, reply(4, 4, 6), Sentence::CommittedOnce),
        (15, reply(4, 6, 7), Sentence::CommittedOnce),
        (18, reply(3, 6, 7), Sentence::ReadReply),
    ];
    for (at, other, sentence) in wrong {
        assert_eq!(
            altered(&steps, &[(at, other)]),
            broken(sentence, at),
            "{other:?}"
        );
    }
}

/// "took effect at no step after the granting of a guard that was asked for on that entry after the
/// write began", of a load that is given up; no player's restart gives it up.
#[test]
fn an_abandoned_load_after_a_grant() {
    let steps = [
        load(45, 5),
        abandon(1),
        assign(0, 45, 46),
        ask(0, 45, 46),
        respond(3),
        deliver(1),
    ];
    let granted_early = (4, reply(6, 3, 0));
    let given = altered(&steps, &[granted_early]);
    assert_eq!(given, broken(Sentence::AbandonedAfterGrant, 5));
    for player in 0..8 {
        let mut steps = steps;
        steps[1] = restart_player(player);
        assert_eq!(altered(&steps, &[granted_early]), Ok(()));
    }
}

/// Document 02 §2: "an entry once guarded or restarted is never open again". Steps that close entry 45,
/// and steps that do not; and a store in which it is open afterwards.
#[test]
fn never_open_again() {
    let closing: [&[Step]; 3] = [
        &[assign(0, 40, 60), ask(0, 40, 60), deliver(2)],
        &[assign(0, 40, 60), ask(0, 40, 60), abandon(2), deliver(2)],
        &[split(128), restart_tablet(0)],
    ];
    for steps in closing {
        let (history, mut state) = play(steps, &NoFault);
        assert_eq!(check(&history, &state.store), Ok(()));
        state.store.guards[45] = 0;
        let given = check(&history, &state.store);
        assert_eq!(given, broken(Sentence::NeverOpenAgain, steps.len()));
    }
    let others: [&[Step]; 4] = [
        &[assign(0, 40, 60), ask(0, 40, 60)],
        &[assign(0, 40, 60), ask(0, 40, 60), abandon(2), lose(2)],
        &[split(50), assign(0, 40, 60), ask(0, 40, 60), deliver(2)],
        &[split(40), restart_tablet(0), load(45, 1), deliver(1)],
    ];
    for steps in others {
        let (history, state) = play(steps, &NoFault);
        assert_eq!(state.store.guards[45], 0);
        assert_eq!(check(&history, &state.store), Ok(()));
    }
}

/// The ledger beside the worked session: player 0's write carries guard 2 and is rejected after
/// player 1's guard 5 is set on its entry; reads join the order with zeros.
#[test]
fn ledger_of_the_worked_session() {
    let steps = then(&[
        write(0, 45, 7),
        assign(1, 40, 50),
        ask(1, 40, 50),
        deliver(5),
        respond(5),
        read(1, 45),
        deliver(6),
        respond(6),
        deliver(3),
        read(1, 45),
        respond(3),
    ]);
    let (history, state) = play(&steps, &NoFault);
    let ledger = ledger_of(&history);
    assert_eq!(
        placed(&ledger),
        [
            (OperationId::Serial(6), false, 10),
            (OperationId::Memory(13), false, 13),
        ]
    );
    assert_eq!(ledger.store, state.store);
    assert_eq!(ledger.store.guards[39..41], [0, 5]);
    assert_eq!(ledger.store.guards[49..51], [5, 2]);
    assert_eq!(check(&history, &state.store), Ok(()));
}
