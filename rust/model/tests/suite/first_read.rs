//! Document 02 §6, "The first read from memory": worked out by hand, with each premise that fails alone; on
//! random interleavings.

use calls::{Reply, Step, KINDS};
use model::faults::{Fault, NoFault};
use model::first_read::{Exception, FirstRead, Played, Premise, Turn, GAPS, OWN_STEPS};
use model::interleavings::Interleavings;
use model::numbers::{Entries, COMMON_PLACES, MAX_SERIAL};
use model::rules::REPLIES;
use model::shares::{common_in_use, counts};
use model::state::{Operation, Request, State};
use model::tables::{decode, fresh_tables, tables_of, OWNERS};

use crate::support::*;

/// Player 3, its range from 40 up to 60, and entry 45.
const FIRST: FirstRead = FirstRead {
    player: 3,
    range: calls::Range::new(40, 60),
    entry: 45,
};

/// Player 3 owns 40 to 60 (serial 1).
fn owned() -> Vec<Step> {
    vec![assign(3, 40, 60)]
}

/// Others' steps in one gap, and none in the rest.
fn in_gap(gap: usize, steps: &[Step]) -> [Vec<Step>; GAPS] {
    let mut others = [const { Vec::new() }; GAPS];
    others[gap] = steps.to_vec();
    others
}

fn quiet() -> [Vec<Step>; GAPS] {
    in_gap(0, &[])
}

fn played(start: &[Step], first: FirstRead, others: &[Vec<Step>; GAPS]) -> Played {
    first.play_lists(&mut state_after(start), others, &NoFault)
}

fn codes(played: &Played) -> [u32; OWN_STEPS] {
    played.own_replies().map(|reply| reply.code)
}

/// The codes of a promise that is kept.
const KEPT: [u32; OWN_STEPS] = [1, 0, 6, 1, 0, 3, 2];

/// The six steps, and the read from memory.
#[test]
fn nobody_else() {
    let expected = |n: u32, m: u32, version: u32, value: u32| {
        [
            reply(1, n, 0),
            reply(0, 0, 0),
            reply(6, n, 0),
            reply(1, m, 0),
            reply(0, 0, 0),
            reply(3, version, value),
            reply(2, version, value),
        ]
    };
    let alone = played(&owned(), FIRST, &quiet());
    assert_eq!(alone.failing, []);
    assert_eq!(alone.own_replies(), expected(2, 3, 0, 0));
    assert!(alone.is_kept());
    // Of an entry that was loaded.
    let loaded = [load(45, 9), deliver(1), respond(1), assign(3, 40, 60)];
    let alone = played(&loaded, FIRST, &quiet());
    assert_eq!(alone.own_replies(), expected(3, 4, 1, 9));
    // From tables of words.
    let (store, players) = tables_of(&state_after(&loaded));
    let words = FIRST.play_tables(&store, &players, &quiet(), &NoFault);
    assert_eq!(words.own_replies(), expected(3, 4, 1, 9));
    // All entries, and one, at the end of the store.
    for (low, high, entry) in [(0, 256, 0), (0, 256, 255), (255, 256, 255)] {
        let first = FirstRead {
            player: 3,
            range: range(low, high),
            entry,
        };
        let alone = played(&[assign(3, low, high)], first, &quiet());
        assert_eq!(alone.own_replies(), expected(2, 3, 0, 0));
    }
}

/// Others are busy in each gap, on the entry too.
#[test]
fn busy_others() {
    let start = [
        assign(1, 30, 80),
        ask(1, 50, 60),
        assign(3, 40, 60),
        split(40),
        split(60),
        load(45, 9),
        read(5, 45),
    ];
    let others = [
        vec![
            deliver(4),
            assign(3, 100, 110),
            restart_tablet(45),
            merge(60),
            split(60),
        ],
        // Player 1's guard is set over a part of the range.
        vec![deliver(2), restart_player(1), respond(4), release(30, 40)],
        vec![
            load(45, 11),
            read(5, 45),
            write(1, 65, 3),
            write(1, 45, 3),
            find_interval(45),
        ],
        vec![deliver(9), abandon(10), deliver(5)],
        vec![respond(9), respond(5), lose(10), restart_tablet(45)],
        vec![
            restart_player(5),
            assign(2, 60, 256),
            load(45, 12),
            deliver(13),
        ],
    ];
    let done = reply(0, 0, 0);
    let expected = [
        reply(1, 6, 0),
        // gap 0
        done,
        reply(1, 7, 0),
        done,
        done,
        done,
        done,
        // gap 1
        done,
        done,
        reply(4, 4, 9),
        reply(1, 8, 0),
        reply(6, 6, 0),
        // gap 2
        reply(1, 9, 0),
        reply(1, 10, 0),
        refused(30),
        refused(29),
        reply(9, 40, 49),
        reply(1, 11, 0),
        // gap 3
        done,
        done,
        done,
        done,
        // gap 4
        reply(5, 9, 0),
        reply(3, 4, 9),
        done,
        done,
        reply(3, 4, 9),
        // gap 5
        done,
        reply(1, 12, 0),
        reply(1, 13, 0),
        done,
        reply(2, 4, 9),
    ];
    let busy = played(&start, FIRST, &others);
    let given: Vec<Reply> = busy.history.iter().map(|(_, event)| event.reply).collect();
    assert_eq!(given, expected);
    assert_eq!(busy.failing, []);
    assert!(busy.is_kept());
}

/// With two serials left the player has both; others then find none.
#[test]
fn the_last_two_serials() {
    let mut state = state_after(&owned());
    state.last_serial = MAX_SERIAL - 2;
    let others = in_gap(5, &[assign(0, 0, 1), load(45, 7), read(0, 45)]);
    let last = FIRST.play_lists(&mut state, &others, &NoFault);
    assert_eq!(last.failing, []);
    assert_eq!(codes(&last), KEPT);
    assert_eq!(last.own_replies()[3], reply(1, 4_000_000, 0));
    let given = last
        .history
        .iter()
        .filter(|(turn, _)| *turn == Turn::Others(5));
    assert!(given
        .into_iter()
        .all(|(_, event)| event.reply == refused(34)));
}

/// Each premise about the tables and the steps, where it fails and no other does: the replies are others. The
/// one about the serial at the asking never fails alone.
#[test]
fn each_premise_is_needed() {
    let case = |premise: Premise, start: &[Step], first: FirstRead, expected: [u32; OWN_STEPS]| {
        let given = played(start, first, &quiet());
        assert_eq!(given.failing, [premise]);
        assert_eq!(codes(&given), expected, "{premise:?}");
        assert!(!given.is_kept());
    };
    let nobody = FirstRead { player: 8, ..FIRST };
    case(Premise::Player, &[], nobody, [28, 32, 32, 28, 32, 32, 28]);
    // Read, and not remembered.
    let past = FirstRead {
        range: range(250, 257),
        entry: 255,
        ..FIRST
    };
    let own_all = [assign(3, 0, 256)];
    case(Premise::Range, &own_all, past, [28, 32, 32, 1, 0, 3, 1]);
    let one_less = [assign(3, 40, 60), release(59, 60)];
    case(Premise::Owner, &one_less, FIRST, [29, 32, 32, 1, 0, 3, 1]);
    let divided = [assign(3, 40, 60), split(50)];
    case(Premise::OneTablet, &divided, FIRST, [1, 0, 8, 1, 0, 3, 1]);
    let behind = FirstRead { entry: 60, ..FIRST };
    case(Premise::Entry, &own_all, behind, [1, 0, 6, 1, 0, 3, 1]);
    // A guard request of the player that waits and shares an entry.
    let asked = [assign(3, 40, 60), ask(3, 50, 55)];
    case(Premise::NoRequest, &asked, FIRST, [31, 32, 32, 1, 0, 3, 1]);
    // A write of the player that waits on the entry.
    let written = [
        assign(3, 40, 60),
        ask(3, 40, 60),
        deliver(2),
        respond(2),
        write(3, 45, 7),
    ];
    case(Premise::NoRequest, &written, FIRST, [1, 0, 6, 1, 0, 3, 1]);
    // Six requests of the player that are given up, and the common places in use.
    let six = [
        owned(),
        vec![read(3, 200); 6],
        Vec::from_iter((2..=7).map(abandon)),
        vec![load(200, 5); COMMON_PLACES],
    ];
    let six = six.concat();
    case(
        Premise::NoRequest,
        &six,
        FIRST,
        [38, 32, 32, 38, 32, 32, 38],
    );
    // Five, and the first read is the sixth.
    let five = [&six[..6], &six[7..12], &six[13..]].concat();
    assert_eq!(codes(&played(&five, FIRST, &quiet())), KEPT);
    // One serial is left, and none is.
    let at = |last: u32| {
        let mut state = state_after(&owned());
        state.last_serial = last;
        let given = FIRST.play_lists(&mut state, &quiet(), &NoFault);
        assert!(!given.is_kept());
        (given.failing.clone(), codes(&given))
    };
    let one = (vec![Premise::SerialToRead], [1, 0, 6, 34, 32, 32, 34]);
    assert_eq!(at(MAX_SERIAL - 1), one);
    let none = vec![Premise::SerialToAsk, Premise::SerialToRead];
    assert_eq!(at(MAX_SERIAL), (none, [34, 32, 32, 34, 32, 32, 34]));
}

/// Tables that break a rule, and tables of another length: every step is refused.
#[test]
fn tables_that_break_a_rule() {
    let (store, mut players) = tables_of(&state_after(&owned()));
    players[OWNERS + 200] = 9;
    let broken = FIRST.play_tables(&store, &players, &quiet(), &NoFault);
    assert_eq!(broken.failing, [Premise::Tables]);
    assert_eq!(codes(&broken), [22; OWN_STEPS]);
    let (store, _) = fresh_tables();
    let short = FIRST.play_tables(&store, &[], &quiet(), &NoFault);
    assert_eq!(short.failing, [Premise::Tables]);
    assert_eq!(codes(&short), [21; OWN_STEPS]);
    assert!(!broken.is_kept() && !short.is_kept());
}

/// What others may not do, each by itself. The guard request has serial 2, the first read 3.
#[test]
fn each_exception_is_needed() {
    use Exception::*;
    let turned_back = [1, 0, 7, 1, 0, 3, 1];
    let unguarded = [1, 0, 6, 1, 0, 3, 1];
    let cases = [
        // To another, one entry; to the player itself; released.
        (0, Assigned, vec![assign(4, 59, 60)], turned_back),
        (0, Assigned, vec![assign(3, 40, 41)], turned_back),
        (0, Released, vec![release(0, 41)], turned_back),
        (1, Assigned, vec![assign(4, 45, 46)], turned_back),
        (1, Assigned, vec![assign(3, 0, 256)], turned_back),
        (1, Released, vec![release(59, 256)], turned_back),
        // Once it is granted, the entry alone matters.
        (2, Assigned, vec![assign(4, 45, 46)], unguarded),
        (2, Assigned, vec![assign(3, 45, 46)], unguarded),
        (2, Released, vec![release(45, 46)], unguarded),
        (3, Assigned, vec![assign(3, 45, 46)], unguarded),
        (3, Released, vec![release(45, 46)], unguarded),
        (4, Assigned, vec![assign(4, 45, 46)], unguarded),
        (4, Released, vec![release(45, 46)], unguarded),
        (5, Assigned, vec![assign(3, 45, 46)], unguarded),
        (5, Released, vec![release(45, 46)], unguarded),
        // Behind the first entry, and before the last.
        (0, BoundaryInside, vec![split(41)], [1, 0, 8, 1, 0, 3, 1]),
        (0, BoundaryInside, vec![split(59)], [1, 0, 8, 1, 0, 3, 1]),
        // The request is given up, and leaves when it arrives, or at once.
        (
            0,
            Restarted,
            vec![restart_player(3)],
            [1, 0, 32, 1, 0, 3, 1],
        ),
        (
            1,
            Restarted,
            vec![restart_player(3)],
            [1, 0, 32, 1, 0, 3, 1],
        ),
        (2, Restarted, vec![restart_player(3)], unguarded),
        (
            3,
            Restarted,
            vec![restart_player(3)],
            [1, 0, 6, 1, 0, 32, 1],
        ),
        (
            4,
            Restarted,
            vec![restart_player(3)],
            [1, 0, 6, 1, 0, 32, 1],
        ),
        (5, Restarted, vec![restart_player(3)], unguarded),
        // Its requests delivered, answered, given up and lost by others.
        (0, OnItsRequest, vec![deliver(2)], [1, 32, 6, 1, 0, 3, 2]),
        (0, OnItsRequest, vec![abandon(2)], [1, 0, 32, 1, 0, 3, 1]),
        (
            0,
            OnItsRequest,
            vec![abandon(2), lose(2)],
            [1, 32, 32, 1, 0, 3, 1],
        ),
        (1, OnItsRequest, vec![respond(2)], [1, 0, 32, 1, 0, 3, 2]),
        (1, OnItsRequest, vec![abandon(2)], [1, 0, 32, 1, 0, 3, 1]),
        (3, OnItsRequest, vec![deliver(3)], [1, 0, 6, 1, 32, 3, 2]),
        (3, OnItsRequest, vec![abandon(3)], [1, 0, 6, 1, 0, 32, 1]),
        (4, OnItsRequest, vec![respond(3)], [1, 0, 6, 1, 0, 32, 2]),
        (4, OnItsRequest, vec![abandon(3)], [1, 0, 6, 1, 0, 32, 1]),
        // Its own write on the entry, and its own guard request.
        (2, ItsOwnStep, vec![write(3, 45, 7)], unguarded),
        (3, ItsOwnStep, vec![write(3, 45, 7)], unguarded),
        (4, ItsOwnStep, vec![write(3, 45, 7)], unguarded),
        (5, ItsOwnStep, vec![write(3, 45, 7)], unguarded),
        (2, ItsOwnStep, vec![ask(3, 45, 46)], unguarded),
        (5, ItsOwnStep, vec![ask(3, 45, 46)], unguarded),
        // Its own read, which is remembered before the first one is sent.
        (
            2,
            ItsOwnStep,
            vec![read(3, 45), deliver(3), respond(3)],
            [1, 0, 6, 2, 32, 32, 2],
        ),
    ];
    for (gap, exception, steps, expected) in cases {
        let given = played(&owned(), FIRST, &in_gap(gap, &steps));
        let of_others = |premise: &Premise| match *premise {
            Premise::Others(at, OnItsRequest) => at == gap,
            other => other == Premise::Others(gap, exception),
        };
        assert!(!given.failing.is_empty(), "{steps:?}");
        assert!(given.failing.iter().all(of_others), "{:?}", given.failing);
        assert_eq!(codes(&given), expected, "gap {gap}, {steps:?}");
        assert!(!given.is_kept());
    }
    // Its own reads before the guard is granted take its places: 7 with the guard request, for which a load
    // leaves. When the guard is granted another load comes, and the first read has no place.
    for gap in [0, 1] {
        let start = [owned(), vec![load(200, 5); COMMON_PLACES]].concat();
        let mut others = in_gap(gap, &[deliver(2), respond(2)]);
        others[gap].extend([read(3, 200); 6]);
        others[2].push(load(200, 5));
        let given = played(&start, FIRST, &others);
        assert_eq!(given.failing, [Premise::Others(gap, ItsOwnStep); 6]);
        assert_eq!(codes(&given), [1, 0, 6, 38, 32, 32, 38]);
    }
}

/// What others may do, though it comes near: boundaries at the ends of the range, merges, entries beside it,
/// other entries to this player, and refused steps of all sorts.
#[test]
fn what_others_may_do() {
    let near = [
        split(40),
        split(60),
        merge(40),
        assign(4, 0, 40),
        assign(3, 60, 256),
        release(0, 40),
        restart_tablet(45),
        restart_player(2),
        load(45, 7),
        read(4, 45),
        find_interval(45),
    ];
    let refused_steps = [
        assign(8, 40, 60),
        assign(4, 45, 45),
        assign(4, 45, 257),
        release(45, 300),
        split(60),
        lose(2),
        lose(3),
        write(4, 45, 7),
        ask(4, 45, 46),
        ask(3, 0, 41),
        write(3, 200, 7),
    ];
    for gap in 0..GAPS {
        let given = played(&owned(), FIRST, &in_gap(gap, &near));
        assert_eq!((given.failing.len(), given.is_kept()), (0, true), "{gap}");
        let start = [owned(), vec![split(60)]].concat();
        let given = played(&start, FIRST, &in_gap(gap, &refused_steps));
        assert_eq!((given.failing.len(), given.is_kept()), (0, true), "{gap}");
        let others = given
            .history
            .iter()
            .filter(|(turn, _)| *turn == Turn::Others(gap));
        assert!(others.clone().all(|(_, event)| event.reply.is_refusal()));
        assert_eq!(others.count(), refused_steps.len());
    }
    // A boundary inside harms no more once the guard is set.
    for gap in 1..GAPS {
        let given = played(&owned(), FIRST, &in_gap(gap, &[split(45)]));
        assert_eq!(codes(&given), KEPT);
    }
}

/// Every fault that breaks the promise, on an interleaving that shows it: the player's codes with the fault; by the
/// right rules the promise is kept.
#[test]
fn wrong_rules() {
    let forgotten = [1, 0, 6, 1, 0, 3, 1];
    let turned_away = [38, 32, 32, 38, 32, 32, 38];
    let loaded = [owned(), vec![load(45, 5)]].concat();
    let crowd = [owned(), vec![load(200, 5); COMMON_PLACES]].concat();
    let others = [0, 1, 2, 4, 5, 6, 7].map(|player| vec![read(player, 200); 6]);
    let full = [crowd.clone(), others.concat()].concat();
    // Player 1's guard request waits on the entry, and its write.
    let asked = vec![assign(1, 40, 60), ask(1, 45, 46), assign(3, 40, 60)];
    let written = vec![
        assign(1, 40, 60),
        ask(1, 40, 60),
        deliver(2),
        respond(2),
        write(1, 45, 7),
        assign(3, 40, 60),
    ];
    let cases = [
        (Fault::NeverCaches, owned(), quiet(), forgotten),
        (
            Fault::LoadMarksRequests,
            owned(),
            in_gap(3, &[load(45, 5)]),
            forgotten,
        ),
        (
            Fault::LoadOverlapsRequests,
            loaded.clone(),
            quiet(),
            forgotten,
        ),
        (
            Fault::LoadEmptiesCells,
            owned(),
            in_gap(5, &[load(45, 5)]),
            forgotten,
        ),
        // The load is remembered before the first read, which then sends nothing.
        (
            Fault::LoadCached,
            vec![load(45, 5), deliver(1), assign(3, 40, 60)],
            in_gap(2, &[respond(1)]),
            [1, 0, 6, 2, 32, 32, 2],
        ),
        (
            Fault::RejectedLoadClears,
            loaded,
            in_gap(2, &[deliver(2), respond(2)]),
            forgotten,
        ),
        (
            Fault::AbandonedLoadClears,
            owned(),
            in_gap(5, &[load(45, 5), abandon(4)]),
            forgotten,
        ),
        (Fault::AllTurnedAway, crowd, quiet(), turned_away),
        // Others have 58 requests, and take the places that the player has of its own.
        (
            Fault::NoShares,
            full,
            in_gap(2, &[read(0, 200); 6]),
            [1, 0, 6, 38, 32, 32, 38],
        ),
        (
            Fault::RestartTabletClearsHeld,
            owned(),
            in_gap(2, &[restart_tablet(45)]),
            forgotten,
        ),
        (
            Fault::AssignSetsEveryEpoch,
            owned(),
            in_gap(1, &[assign(0, 100, 101)]),
            [1, 0, 7, 1, 0, 3, 1],
        ),
        (Fault::AnyWriteOverlapsReads, written, quiet(), forgotten),
        (
            Fault::AnyGuardRequestShares,
            asked.clone(),
            quiet(),
            [31, 32, 32, 1, 0, 3, 1],
        ),
        (
            Fault::RestartPlayerAbandonsAll,
            owned(),
            in_gap(4, &[restart_player(1)]),
            [1, 0, 6, 1, 0, 32, 1],
        ),
        (
            Fault::GrantAsksStore,
            owned(),
            in_gap(1, &[restart_tablet(45)]),
            [1, 0, 7, 1, 0, 3, 1],
        ),
        (
            Fault::MemoryReadAsksStore,
            owned(),
            in_gap(5, &[restart_tablet(45)]),
            forgotten,
        ),
        (
            Fault::SetGuardClearsOthers,
            asked,
            in_gap(2, &[deliver(2)]),
            forgotten,
        ),
        (
            Fault::BoundaryAtLowDivides,
            vec![assign(3, 40, 60), split(40)],
            quiet(),
            [1, 0, 8, 1, 0, 3, 1],
        ),
    ];
    type Others = [Vec<Step>; GAPS];
    let case = |fault: Fault, state: State, first: FirstRead, others: &Others, expected| {
        assert!(fault.breaks_first_read());
        let right = first.play_lists(&mut state.clone(), others, &NoFault);
        assert_eq!((right.failing.len(), codes(&right)), (0, KEPT), "{fault:?}");
        let wrong = first.play_lists(&mut state.clone(), others, &fault);
        assert_eq!(
            (wrong.failing.len(), codes(&wrong)),
            (0, expected),
            "{fault:?}"
        );
        fault
    };
    let mut tried: Vec<Fault> = Vec::new();
    for (fault, start, others, expected) in cases {
        tried.push(case(fault, state_after(&start), FIRST, &others, expected));
    }
    let last = FirstRead { entry: 59, ..FIRST };
    let fault = Fault::GrantMissesLastEntry;
    tried.push(case(
        fault,
        state_after(&owned()),
        last,
        &quiet(),
        forgotten,
    ));
    let mut two_left = state_after(&owned());
    two_left.last_serial = MAX_SERIAL - 2;
    let spent = [1, 0, 6, 34, 32, 32, 34];
    tried.push(case(
        Fault::LastSerialUnused,
        two_left,
        FIRST,
        &quiet(),
        spent,
    ));
    let breaking = Fault::ALL.into_iter().filter(|f| f.breaks_first_read());
    assert!(tried.into_iter().eq(breaking));
}

/// What random interleavings meet.
#[derive(Default)]
struct Met {
    /// Steps of others, by gap and kind.
    accepted: [[u64; KINDS as usize]; GAPS],
    refused: [[u64; KINDS as usize]; GAPS],
    /// Steps of others that would be an exception and were refused, by gap and exception.
    spared: [[u64; Exception::ALL.len()]; GAPS],
    /// Before the first step: the common places in use; just two serials left; a boundary at the range's low,
    /// and at its high; others' requests over the range, and others' guards.
    before: [u64; 6],
    /// After the last one: the common places in use; no serial left; an entry that was written; a store in which the
    /// guard is no more the player's.
    after: [u64; 4],
}

fn count<const N: usize>(counts: &mut [u64; N], met: [bool; N]) {
    for (count, met) in counts.iter_mut().zip(met) {
        *count += u64::from(met);
    }
}

fn is_crowded(state: &State) -> bool {
    common_in_use(&counts(&state.requests)) == COMMON_PLACES
}

impl Met {
    fn before(&mut self, first: FirstRead, state: &State) {
        let FirstRead { player, range, .. } = first;
        let begins = |entry: u16| state.store.boundaries.get(usize::from(entry)) == Some(&true);
        let over = |request: &Request| match request.operation {
            Operation::Guard { range: other, .. } => other.shares(range),
            Operation::Read { entry, .. } | Operation::Write { entry, .. } => range.contains(entry),
        };
        let others = (0..8).filter(|&other| other != usize::from(player));
        let mut held = others.flat_map(|other| &state.held[other][range.entries()]);
        let met = [
            is_crowded(state),
            state.last_serial == MAX_SERIAL - 2,
            range.low > 0 && begins(u16::from(range.low)),
            begins(range.high),
            state.requests.iter().any(over),
            held.any(|&guard| guard != 0),
        ];
        count(&mut self.before, met);
    }

    fn after(&mut self, first: FirstRead, state: &State, played: &Played) {
        for (turn, event) in &played.history {
            let Turn::Others(gap) = *turn else { continue };
            let counts = match event.reply.is_refusal() {
                true => &mut self.refused,
                false => &mut self.accepted,
            };
            counts[gap][usize::from(event.step.kind()) - 1] += 1;
        }
        for &(gap, exception) in &played.refused {
            self.spared[gap][exception as usize] += 1;
        }
        let [.., answered, _] = played.own_replies();
        let at = usize::from(first.entry);
        let met = [
            is_crowded(state),
            state.last_serial == MAX_SERIAL,
            answered.a != 0,
            state.store.guards[at] != state.held[usize::from(first.player)][at],
        ];
        count(&mut self.after, met);
    }
}

/// The promise on a million interleavings, from tables of all sorts, in which others do all that they may.
#[test]
fn random_interleavings() {
    let mut met = Met::default();
    let mut tried = 0;
    for seed in 61..65 {
        let mut interleavings = Interleavings::new(seed, KINDS);
        for round in 0..250_000 * scale() {
            let (first, mut state) = interleavings.start();
            if round % 100 == 0 {
                let (store, players) = tables_of(&state);
                assert_eq!(decode(&store, &players).as_ref(), Ok(&state));
            }
            met.before(first, &state);
            let played = interleavings.play(first, &mut state, &NoFault);
            assert_eq!(played.failing, [], "{first:?}, {played:?}");
            assert!(played.is_kept(), "{first:?}, {played:?}");
            met.after(first, &state, &played);
            tried += 1;
        }
    }
    assert_eq!(tried, 1_000_000 * scale());
    for gap in 0..GAPS {
        for (kind, codes) in REPLIES.iter().enumerate() {
            assert!(
                met.accepted[gap][kind] > 500,
                "gap {gap}, kind {}",
                kind + 1
            );
            let can = codes.iter().any(|&code| Reply::refused(code).is_refusal());
            assert_eq!(
                met.refused[gap][kind] > 500,
                can,
                "gap {gap}, kind {}",
                kind + 1
            );
        }
        for exception in Exception::ALL {
            let is_its_in_flight = ![2, 5].contains(&gap);
            // The others are never refused where they are an exception.
            let can = match exception {
                Exception::Assigned | Exception::Released | Exception::ItsOwnStep => true,
                Exception::OnItsRequest => is_its_in_flight,
                Exception::BoundaryInside | Exception::Restarted => false,
            };
            let spared = met.spared[gap][exception as usize];
            assert_eq!(spared > 500, can, "gap {gap}, {exception:?}: {spared}");
            assert!(can || spared == 0);
        }
    }
    let few = met
        .before
        .iter()
        .chain(&met.after)
        .find(|&&met| met < 20_000);
    assert_eq!(few, None, "{:?}, {:?}", met.before, met.after);
}

/// With a premise dropped, an interleaving is found that meets all others and breaks the promise: so each is
/// needed. Of the two about serials the first never fails alone.
#[test]
fn each_premise_is_needed_at_random() {
    let search = |dropped: &[Premise]| {
        let found = Interleavings::without(66, KINDS, dropped).search(20_000, &NoFault);
        let found = found.unwrap_or_else(|| panic!("{dropped:?} is not needed"));
        println!("{dropped:?}: broken after {} interleavings", found.after);
        assert!(!found.played.failing.is_empty());
    };
    for premise in [
        Premise::Player,
        Premise::Range,
        Premise::Owner,
        Premise::OneTablet,
        Premise::NoRequest,
        Premise::Entry,
        Premise::SerialToRead,
    ] {
        search(&[premise]);
    }
    search(&[Premise::SerialToAsk, Premise::SerialToRead]);
    for gap in 0..GAPS {
        for exception in Exception::ALL {
            let premise = Premise::Others(gap, exception);
            let is_needed = match exception {
                // Once the guard is set, a boundary changes nothing.
                Exception::BoundaryInside => gap == 0,
                // No request of the player is in flight.
                Exception::OnItsRequest => ![2, 5].contains(&gap),
                // Before the guard is granted, the player's own steps only take places: found by hand alone.
                Exception::ItsOwnStep if gap < 2 => continue,
                _ => true,
            };
            match is_needed {
                true => search(&[premise]),
                false => {
                    let mut without = Interleavings::without(67, KINDS, &[premise]);
                    let found = without.search(20_000 * scale(), &NoFault);
                    assert!(found.is_none(), "{found:?}");
                }
            }
        }
    }
}
