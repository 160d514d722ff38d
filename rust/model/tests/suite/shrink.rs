//! The shrinker.

use calls::Step;
use model::codec::session_text;
use model::faults::Fault;
use model::shrink::{shrink, Outcome};
use model::trial::play;

use crate::support::*;

/// Fails where some write is answered as rejected.
fn rejected(steps: &[Step]) -> Outcome {
    let (history, _) = play(steps, &model::faults::NoFault);
    Outcome {
        failed: history.iter().any(|event| event.reply.code == 5),
        replies: history.iter().map(|event| event.reply).collect(),
    }
}

/// The steps that do not matter go, serials are renumbered, ranges and values become small. A write
/// can be rejected only after an assignment, a guard request delivered and granted, a write, a
/// change of the store's guard, a delivery and an answer: eight steps.
#[test]
fn shortest_rejection() {
    let steps = [
        read(3, 9),
        split(100),
        assign(0, 40, 60),
        read(2, 45),
        ask(0, 40, 60),
        deliver(4),
        deliver(1),
        respond(4),
        write(0, 46, 900),
        write(0, 45, 800),
        assign(1, 200, 210),
        restart_tablet(41),
        abandon(3),
        deliver(6),
        respond(6),
        lose(3),
    ];
    assert!(rejected(&steps).failed);
    let small = shrink(&steps, rejected);
    let expected = [
        assign(0, 45, 46),
        ask(0, 45, 46),
        deliver(2),
        respond(2),
        write(0, 45, 1),
        restart_tablet(41),
        deliver(3),
        respond(3),
    ];
    assert_eq!(small, expected);
    let text = "52534C31 0F01002D2E00 0F03002D2E00 210602000000 210702000000 1705002D01000000 \
        050C29 210603000000 210703000000";
    assert_eq!(session_text(&small), text);
}

/// A list that nothing can be left out of stays as it is.
#[test]
fn nothing_to_leave_out() {
    let steps = [split(5), merge(5)];
    let attempt = |list: &[Step]| {
        let (history, _) = play(list, &Fault::NeverCaches);
        let done = history.iter().filter(|e| e.reply.code == 0).count();
        Outcome {
            failed: done == 2,
            replies: history.iter().map(|event| event.reply).collect(),
        }
    };
    assert_eq!(shrink(&steps, attempt), steps);
}
