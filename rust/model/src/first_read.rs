//! Document 02 §6, "The first read from memory": the promise and its premises.
//!
//! "In tables that keep the rules, suppose a player owns a range inside one tablet, has no row in flight, and
//! takes just six steps: the guard asked for, arrived and answered, then an entry there read, arrived and
//! answered. Between these steps, and up to its next step, others may do anything but assign or release
//! entries of the range, put a border inside it, restart this player, or take steps on its rows. A serial must
//! be left at the asking and at the first read. Each of the six is then accepted, and the player's next step,
//! if a read of that entry, comes from memory."
//!
//! It is a promise of the steps, as demand 3 is: what the test of the tables refuses is 22 from every step.

use calls::{Range, Reply, Step};

use crate::claim::Event;
use crate::faults::Switches;
use crate::numbers::{Entries, MAX_SERIAL, PLAYERS};
use crate::reply::code;
use crate::rules;
use crate::state::State;
use crate::tables;

/// The player's steps: "just six", and "the player's next step, if a read of that entry".
pub const OWN_STEPS: usize = 7;

/// The gaps between them, in which others take steps: gap 0 is before the arrival of the guard request, gap 5
/// before the next read.
pub const GAPS: usize = OWN_STEPS - 1;

/// The place of "the first read" among the player's steps.
const FIRST_READ: usize = 3;

/// Whom and what the promise is about.
#[derive(Clone, Copy, Debug, PartialEq, Eq)]
pub struct FirstRead {
    /// "a player"
    pub player: u8,
    /// "owns a range"
    pub range: Range,
    /// "an entry there"
    pub entry: u8,
}

/// What others may not do: "anything but".
#[derive(Clone, Copy, Debug, PartialEq, Eq)]
pub enum Exception {
    /// "assign ... entries of the range", be it to this player.
    Assigned,
    /// "or release entries of the range"
    Released,
    /// "put a border inside it": not at its low, where the range begins with a tablet.
    BoundaryInside,
    /// "restart this player"
    Restarted,
    /// "or take steps on its rows"
    OnItsRequest,
    /// "takes just six steps": another step 3, 4 or 5 of this player is none of others.
    ItsOwnStep,
}

impl Exception {
    /// Every one.
    pub const ALL: [Exception; 6] = [
        Exception::Assigned,
        Exception::Released,
        Exception::BoundaryInside,
        Exception::Restarted,
        Exception::OnItsRequest,
        Exception::ItsOwnStep,
    ];
}

/// What the promise presumes.
#[derive(Clone, Copy, Debug, PartialEq, Eq)]
pub enum Premise {
    /// "In tables that keep the rules"
    Tables,
    /// "a player": 0 to 7.
    Player,
    /// "a range": not empty, and at most 256.
    Range,
    /// "a player owns a range": each of its entries.
    Owner,
    /// "inside one tablet"
    OneTablet,
    /// "has no row in flight": no given-up one either.
    NoRequest,
    /// "an entry there"
    Entry,
    /// "A serial must be left at the asking"
    SerialToAsk,
    /// "and at the first read". It contains the one before, as serials are never given back.
    SerialToRead,
    /// "others may do anything but": not this, in this gap.
    Others(usize, Exception),
}

/// Whose a step of an interleaving is.
#[derive(Clone, Copy, Debug, PartialEq, Eq)]
pub enum Turn {
    /// The player's, the first is 0.
    Own(usize),
    /// Of others, in this gap.
    Others(usize),
}

/// What came of an interleaving.
#[derive(Clone, Debug)]
pub struct Played {
    /// Every step with its reply.
    pub history: Vec<(Turn, Event)>,
    /// The premises that failed.
    pub failing: Vec<Premise>,
    /// What others tried in a gap, and was refused.
    pub refused: Vec<(usize, Exception)>,
}

impl Played {
    /// The replies to the player's steps.
    pub fn own_replies(&self) -> [Reply; OWN_STEPS] {
        let mut replies = [Reply::DONE; OWN_STEPS];
        for (turn, event) in &self.history {
            if let Turn::Own(at) = turn {
                replies[*at] = event.reply;
            }
        }
        replies
    }

    /// "Each of the six is then accepted, and the player's next step, if a read of that entry, comes from
    /// memory": the guard is granted under the number that was issued, and the two numbers of the answer are
    /// those of the read from memory.
    pub fn is_kept(&self) -> bool {
        let replies = self.own_replies();
        let [asked, _, _, read, _, answered, _] = replies;
        let expected = [
            Reply::new(code::ISSUED, asked.a, 0),
            Reply::DONE,
            Reply::new(code::GRANTED, asked.a, 0),
            Reply::new(code::ISSUED, read.a, 0),
            Reply::DONE,
            Reply::new(code::FROM_STORE, answered.a, answered.b),
            Reply::new(code::FROM_MEMORY, answered.a, answered.b),
        ];
        replies == expected
    }
}

impl FirstRead {
    /// The premises about the tables at the asking, each with whether it holds.
    fn premises_at_asking(&self, state: &State) -> [(Premise, bool); 7] {
        let FirstRead {
            player,
            range,
            entry,
        } = *self;
        let is_owned = range.entries().all(|at| state.owners[at] == player);
        let has_request = state.requests.iter().any(|r| r.player == player);
        [
            (Premise::Player, usize::from(player) < PLAYERS),
            (Premise::Range, range.is_valid()),
            (Premise::Owner, is_owned),
            (Premise::OneTablet, state.store.in_one_tablet(range)),
            (Premise::NoRequest, !has_request),
            (Premise::Entry, range.contains(entry)),
            (Premise::SerialToAsk, state.last_serial < MAX_SERIAL),
        ]
    }

    /// What of the exceptions a step would be, if it is accepted.
    pub fn exception(&self, state: &State, step: Step) -> Option<Exception> {
        let is_its = |serial: u32| {
            let mut requests = state.requests.iter();
            requests.any(|r| r.serial == serial && r.player == self.player)
        };
        let (holds, exception) = match step {
            Step::Assign { range, .. } => (range.shares(self.range), Exception::Assigned),
            Step::Release { range } => (range.shares(self.range), Exception::Released),
            Step::Split { entry } => {
                let is_inside = self.range.contains(entry) && entry != self.range.low;
                (is_inside, Exception::BoundaryInside)
            }
            Step::RestartPlayer { player } => (player == self.player, Exception::Restarted),
            Step::Deliver { serial }
            | Step::Respond { serial }
            | Step::Abandon { serial }
            | Step::Lose { serial } => (is_its(serial), Exception::OnItsRequest),
            Step::RequestGuard { player, .. }
            | Step::Read { player, .. }
            | Step::Write { player, .. } => (player == self.player, Exception::ItsOwnStep),
            Step::Merge { .. }
            | Step::RestartTablet { .. }
            | Step::FindInterval { .. }
            | Step::Load { .. } => return None,
        };
        holds.then_some(exception)
    }

    /// The player's step at this place, given the serials of its guard request and of its read: "the guard
    /// asked for, arrived and answered, then an entry there read, arrived and answered", and read again.
    fn own_step(&self, at: usize, [guard, read]: [u32; 2]) -> Step {
        let FirstRead {
            player,
            range,
            entry,
        } = *self;
        match at {
            0 => Step::RequestGuard { player, range },
            1 => Step::Deliver { serial: guard },
            2 => Step::Respond { serial: guard },
            4 => Step::Deliver { serial: read },
            5 => Step::Respond { serial: read },
            _ => Step::Read { player, entry },
        }
    }

    /// Plays the player's steps from this state on, and between them those of others, which `others` gives
    /// for a gap and the state at hand until it has no more for the gap. A step of others that is refused
    /// alters nothing, so it is none of the exceptions.
    pub fn play(
        &self,
        state: &mut State,
        mut others: impl FnMut(usize, &State) -> Option<Step>,
        faults: &impl Switches,
    ) -> Played {
        let mut history = Vec::with_capacity(16);
        let asking = self.premises_at_asking(state).into_iter();
        let failing = asking.filter(|(_, holds)| !holds);
        let mut failing: Vec<Premise> = failing.map(|(premise, _)| premise).collect();
        let mut refused = Vec::new();
        let mut serials = [0; 2];
        for at in 0..OWN_STEPS {
            if let Some(gap) = at.checked_sub(1) {
                while let Some(step) = others(gap, state) {
                    let exception = self.exception(state, step);
                    let reply = rules::step_with(state, step, faults);
                    match exception {
                        Some(exception) if reply.is_refusal() => refused.push((gap, exception)),
                        Some(exception) => failing.push(Premise::Others(gap, exception)),
                        None => {}
                    }
                    history.push((Turn::Others(gap), Event { step, reply }));
                }
            }
            if at == FIRST_READ && state.last_serial >= MAX_SERIAL {
                failing.push(Premise::SerialToRead);
            }
            let step = self.own_step(at, serials);
            let reply = rules::step_with(state, step, faults);
            match at {
                0 if reply.code == code::ISSUED => serials[0] = reply.a,
                FIRST_READ if reply.code == code::ISSUED => serials[1] = reply.a,
                _ => {}
            }
            history.push((Turn::Own(at), Event { step, reply }));
        }
        Played {
            history,
            failing,
            refused,
        }
    }

    /// The same with lists of others' steps.
    pub fn play_lists(
        &self,
        state: &mut State,
        others: &[Vec<Step>; GAPS],
        faults: &impl Switches,
    ) -> Played {
        let mut lists = others.each_ref().map(|list| list.iter().copied());
        self.play(state, |gap, _| lists[gap].next(), faults)
    }

    /// The same from tables of words, which keep the rules or not: where they do not, every step is refused.
    pub fn play_tables(
        &self,
        store: &[u32],
        players: &[u32],
        others: &[Vec<Step>; GAPS],
        faults: &impl Switches,
    ) -> Played {
        let error = match tables::decode(store, players) {
            Ok(mut state) => return self.play_lists(&mut state, others, faults),
            Err(error) => error,
        };
        let refused = |at: usize| Event {
            step: self.own_step(at, [0; 2]),
            reply: error.refusal().into(),
        };
        Played {
            history: (0..OWN_STEPS)
                .map(|at| (Turn::Own(at), refused(at)))
                .collect(),
            failing: vec![Premise::Tables],
            refused: Vec::new(),
        }
    }
}
