//! Random interleavings for the promise of document 02 §6: tables of all sorts that are made to meet its
//! premises, and steps of others that collide with the player's.

use calls::{Range, Step};

use crate::faults::{NoFault, Switches};
use crate::first_read::{Exception, FirstRead, Played, Premise, GAPS};
use crate::generate::step_in;
use crate::numbers::{Entries, ENTRIES, LOADER, MAX_SERIAL, PLAYERS};
use crate::prng::Prng;
use crate::rules;
use crate::state::{Operation, State};
use crate::states::{any_state_at, make_live};
use crate::trial::{crowded_list, random_list};

/// So many interleavings begin with the same tables, but for what the premises ask of them.
const FROM_EACH: u32 = 16;

/// The last serial of tables whose player has just those left that its guard request and its read take.
const TWO_LEFT: u32 = MAX_SERIAL - 2;

/// A source of interleavings.
#[derive(Clone, Debug)]
pub struct Interleavings {
    rng: Prng,
    /// Others take steps of the kinds 1 up to this one.
    kinds: u8,
    /// The premises that are not cared for. Those about the tables are broken.
    dropped: Vec<Premise>,
    base: State,
    /// Interleavings that are still to begin with `base`.
    left: u32,
}

/// How many steps others take in each gap, and what they are about.
#[derive(Clone, Copy, Debug)]
struct Plan {
    left: [u32; GAPS],
    /// Whether others send reads and loads alone, which take places.
    crowd: bool,
}

/// An interleaving that meets the premises that were not dropped, and breaks the promise.
#[derive(Clone, Debug)]
pub struct Found {
    /// How many were tried, with this one.
    pub after: usize,
    /// Whom and what it is about.
    pub first: FirstRead,
    /// The steps and replies.
    pub played: Played,
}

impl Interleavings {
    /// Interleavings that meet every premise.
    pub fn new(seed: u64, kinds: u8) -> Interleavings {
        Interleavings::without(seed, kinds, &[])
    }

    /// Interleavings that meet every premise but these.
    pub fn without(seed: u64, kinds: u8, dropped: &[Premise]) -> Interleavings {
        Interleavings {
            rng: Prng::new(seed),
            kinds,
            dropped: dropped.to_vec(),
            base: State::fresh(),
            left: 0,
        }
    }

    /// Plays at most this many, until one meets the premises that were not dropped and breaks the promise.
    pub fn search(&mut self, most: usize, faults: &impl Switches) -> Option<Found> {
        for after in 1..=most {
            let (first, mut state) = self.start();
            let played = self.play(first, &mut state, faults);
            let is_met = played.failing.iter().all(|p| self.dropped.contains(p));
            if is_met && !played.is_kept() {
                return Some(Found {
                    after,
                    first,
                    played,
                });
            }
        }
        None
    }

    /// Tables that keep the rules, and a player, a range and an entry for which they meet the premises.
    pub fn start(&mut self) -> (FirstRead, State) {
        if self.left == 0 {
            self.base = any_base(&mut self.rng);
            self.left = FROM_EACH;
        }
        self.left -= 1;
        let mut state = self.base.clone();
        let first = any_first(&mut self.rng, &state);
        settle(&mut self.rng, &mut state, first);
        let first = self.dropped.iter().fold(first, |first, &premise| {
            break_premise(&mut self.rng, &mut state, first, premise)
        });
        (first, state)
    }

    /// Plays it with random steps of others.
    pub fn play(&mut self, first: FirstRead, state: &mut State, faults: &impl Switches) -> Played {
        let mut plan = self.plan();
        let others = |gap: usize, state: &State| self.next(&mut plan, first, gap, state, faults);
        first.play(state, others, faults)
    }

    fn plan(&mut self) -> Plan {
        let crowd = self.rng.chance(10);
        let most = match crowd {
            true => [0, 4, 12][self.rng.index(3)],
            false => [0, 1, 2, 4][self.rng.index(4)],
        };
        Plan {
            left: [0; GAPS].map(|_| self.rng.below(most + 1)),
            crowd,
        }
    }

    /// The next step of others in a gap; those that a premise excludes are left out.
    fn next(
        &mut self,
        plan: &mut Plan,
        first: FirstRead,
        gap: usize,
        state: &State,
        faults: &impl Switches,
    ) -> Option<Step> {
        while plan.left[gap] > 0 {
            plan.left[gap] -= 1;
            let step = match plan.crowd {
                true => self.sending(first),
                false => self.any_step(first, state),
            };
            if self.is_allowed(first, gap, state, step, faults) {
                return Some(step);
            }
        }
        None
    }

    /// Whether a step of others leaves the premises as they are. Those that are refused do; mostly they are
    /// left out too, as that is found out on a copy of the tables.
    fn is_allowed(
        &mut self,
        first: FirstRead,
        gap: usize,
        state: &State,
        step: Step,
        faults: &impl Switches,
    ) -> bool {
        let exception = first.exception(state, step);
        let premise = exception.map(|exception| Premise::Others(gap, exception));
        let excluded = premise.filter(|premise| !self.dropped.contains(premise));
        // One serial is left, which the player's first read needs.
        let last = gap < 3
            && state.last_serial + 1 == MAX_SERIAL
            && !self.dropped.contains(&Premise::SerialToRead);
        match (excluded, last) {
            (None, false) => true,
            (Some(_), _) if self.rng.chance(70) => false,
            _ => {
                let mut tried = state.clone();
                let reply = rules::step_with(&mut tried, step, faults);
                reply.is_refusal() || excluded.is_none() && tried.last_serial < MAX_SERIAL
            }
        }
    }

    /// A read of anyone, or a load if others send such.
    fn sending(&mut self, first: FirstRead) -> Step {
        let player = self.rng.below(PLAYERS as u32) as u8;
        let entry = [first.entry, self.rng.below(256) as u8][self.rng.index(2)];
        let load = Step::Load { entry, value: 7 };
        match self.kinds >= load.kind() && self.rng.chance(30) {
            true => load,
            false => Step::Read { player, entry },
        }
    }

    /// A step of anyone, near the range or anywhere, or one that is an exception if it is accepted.
    fn any_step(&mut self, first: FirstRead, state: &State) -> Step {
        let rng = &mut self.rng;
        let FirstRead {
            player,
            range,
            entry,
        } = first;
        match rng.below(16) {
            0 => exception(rng, first, state),
            // On the entry, so that it is mostly refused.
            1 => Step::Write {
                player: rng.below(PLAYERS as u32) as u8,
                entry,
                value: rng.word(),
            },
            2 => Step::Assign {
                player: [player, rng.below(9) as u8][rng.index(2)],
                range: beside(rng, range),
            },
            3 => by_owner(rng, range, state),
            _ => {
                let window = match rng.below(5) {
                    0 => Range::new(entry, u16::from(entry) + 1),
                    1 | 2 => widened(range),
                    _ => Range::new(0, ENTRIES as u16),
                };
                step_in(rng, state, self.kinds, window)
            }
        }
    }
}

/// Tables that are reached by random lists, or that are not reached at all, with two serials left at least.
fn any_base(rng: &mut Prng) -> State {
    let near = TWO_LEFT - rng.below(4);
    let mut state = match rng.below(4) {
        0 => random_list(rng, &NoFault).1,
        1 => crowded_list(rng, &NoFault).1,
        _ => {
            let last = [rng.below(4), rng.below(100), near, rng.below(TWO_LEFT)][rng.index(4)];
            any_state_at(rng, last)
        }
    };
    if rng.chance(20) {
        // Serials that nothing in the tables has.
        state.last_serial = near;
    }
    state
}

/// A player, an entry, mostly that of a request in flight or one of the first, and a range around it.
fn any_first(rng: &mut Prng, state: &State) -> FirstRead {
    let used = match rng.pick(&state.requests).map(|request| request.operation) {
        Some(Operation::Read { entry, .. } | Operation::Write { entry, .. }) => entry,
        Some(Operation::Guard { range, .. }) => range.low,
        None => 0,
    };
    let entry = [used, used, rng.below(2) as u8, rng.below(256) as u8][rng.index(4)];
    let reach = [1, 1, 2, 4, 20, 256][rng.index(6)];
    let low = u32::from(entry).saturating_sub(rng.below(reach));
    let high = (u32::from(entry) + 1 + rng.below(reach)).min(ENTRIES as u32);
    FirstRead {
        player: rng.below(PLAYERS as u32) as u8,
        range: Range::new(low as u8, high as u16),
        entry,
    }
}

/// Makes tables meet the premises, now and then with boundaries at the ends of the range, and with others' requests
/// and guards over it.
fn settle(rng: &mut Prng, state: &mut State, first: FirstRead) {
    let FirstRead {
        player,
        range,
        entry: on,
    } = first;
    state.owners[range.entries()].fill(player);
    for at in range.entries().skip(1) {
        state.store.boundaries[at] = false;
    }
    for end in [usize::from(range.low), usize::from(range.high)] {
        if end > 0 && end < ENTRIES && rng.chance(40) {
            state.store.boundaries[end] = rng.chance(70);
        }
    }
    state.requests.retain(|request| request.player != player);
    let moved = [0, 0, 30, 100][rng.index(4)];
    for request in &mut state.requests {
        if moved == 0 || !rng.chance(moved) {
            continue;
        }
        match &mut request.operation {
            Operation::Guard { range: other, .. } => *other = [range, widened(range)][rng.index(2)],
            Operation::Read { entry, .. } | Operation::Write { entry, .. } => *entry = on,
        }
    }
    if rng.chance(20) {
        let other = rng.index(PLAYERS);
        let guard = rng.below(state.last_serial + 1);
        state.held[other][range.entries()].fill(guard);
    }
    if !range.contains(behind(range)) && state.last_serial > 0 && rng.chance(40) {
        make_live(rng, state, usize::from(behind(range)));
    }
}

/// Breaks a premise about the tables, or about what is asked for.
fn break_premise(
    rng: &mut Prng,
    state: &mut State,
    first: FirstRead,
    premise: Premise,
) -> FirstRead {
    let FirstRead { player, range, .. } = first;
    let at = range.entries().start + rng.index(range.entries().len());
    match premise {
        Premise::Player => {
            let first = FirstRead {
                player: LOADER,
                ..first
            };
            settle(rng, state, first);
            return first;
        }
        Premise::Range => {
            let high = [u16::from(range.low), 257, 512][rng.index(3)];
            let first = FirstRead {
                range: Range::new(range.low, high),
                ..first
            };
            settle(rng, state, first);
            return first;
        }
        Premise::Owner => state.owners[at] = (player + rng.between(1, 8) as u8) % 9,
        Premise::OneTablet if at != usize::from(range.low) => state.store.boundaries[at] = true,
        Premise::NoRequest if state.last_serial > 0 => {
            // The last request, or the first, is the player's.
            let at = match rng.chance(50) {
                true => state.requests.len().checked_sub(1),
                false => (!state.requests.is_empty()).then_some(0),
            };
            let its = at.map(|at| &mut state.requests[at]);
            if let Some(its) = its.filter(|request| !request.is_load()) {
                its.player = player;
            }
        }
        Premise::Entry => {
            let entry = [range.low.wrapping_sub(1), rng.below(256) as u8][rng.index(2)];
            return FirstRead { entry, ..first };
        }
        Premise::SerialToAsk => state.last_serial = MAX_SERIAL,
        Premise::SerialToRead => state.last_serial = state.last_serial.max(MAX_SERIAL - 1),
        _ => {}
    }
    first
}

/// The entry behind the range; behind entry 255 it is 0.
fn behind(range: Range) -> u8 {
    (usize::from(range.high) % ENTRIES) as u8
}

/// A write or a guard request of an entry's owner, mostly behind the range.
fn by_owner(rng: &mut Prng, range: Range, state: &State) -> Step {
    let entry = match rng.chance(80) {
        true => behind(range),
        false => rng.below(256) as u8,
    };
    let player = state.owners[usize::from(entry)];
    match rng.chance(50) {
        true => Step::Write {
            player,
            entry,
            value: rng.word(),
        },
        false => Step::RequestGuard {
            player,
            range: Range::new(entry, u16::from(entry) + 1),
        },
    }
}

/// The range with an entry more at both ends, where there is one.
fn widened(range: Range) -> Range {
    let high = (range.high + 1).min(ENTRIES as u16);
    Range::new(range.low.saturating_sub(1), high)
}

/// A range that ends where this one begins, or begins where it ends; if there is none, one that is not valid.
fn beside(rng: &mut Prng, range: Range) -> Range {
    let (low, high) = (u32::from(range.low), u32::from(range.high));
    match rng.chance(50) {
        true => Range::new(rng.below(low) as u8, low as u16),
        false => Range::new(high as u8, rng.between(high + 1, ENTRIES as u32) as u16),
    }
}

/// A step that is an exception where it is accepted, and that is often refused.
fn exception(rng: &mut Prng, first: FirstRead, state: &State) -> Step {
    let FirstRead {
        player,
        range,
        entry,
    } = first;
    let past = Range::new(range.low, 257);
    let mut requests = state.requests.iter();
    let its = requests.find(|r| r.player == player).map(|r| r.serial);
    let serial = its.unwrap_or(state.last_serial);
    match Exception::ALL[rng.index(6)] {
        Exception::Assigned => Step::Assign {
            player: rng.below(10) as u8,
            range: [range, past][rng.index(2)],
        },
        Exception::Released => Step::Release {
            range: [range, past][rng.index(2)],
        },
        Exception::BoundaryInside => Step::Split { entry },
        Exception::Restarted => Step::RestartPlayer { player },
        Exception::OnItsRequest => match rng.below(4) {
            0 => Step::Deliver { serial },
            1 => Step::Respond { serial },
            2 => Step::Abandon { serial },
            _ => Step::Lose { serial },
        },
        Exception::ItsOwnStep => match rng.below(3) {
            0 => Step::RequestGuard { player, range },
            1 => Step::Read { player, entry },
            _ => Step::Write {
                player,
                entry,
                value: 9,
            },
        },
    }
}
