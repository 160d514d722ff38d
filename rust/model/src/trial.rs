//! Lists of steps from fresh tables, and the search for one that breaks demand 3; runs begun with zero counts, and
//! the search for one whose read counters are not what its replies say.

use calls::{Reply, Step, KINDS};

use crate::claim::{self, Event, Violation};
use crate::codec::session;
use crate::counter_law::counters_after;
use crate::counters::ReadCounter;
use crate::faults::Switches;
use crate::generate::Profile;
use crate::numbers::PLAYERS;
use crate::prng::Prng;
use crate::rules;
use crate::run::{run_with, REPLY_WORDS};
use crate::shrink::{shrink, Outcome};
use crate::state::State;
use crate::states::{any_state, remembering_state};
use crate::tables::{counters, tables_of};

/// Plays the steps from fresh tables: "The first gets fresh tables, each later one those the last
/// left". Gives the history and the state after it.
pub fn play(steps: &[Step], faults: &impl Switches) -> (Vec<Event>, State) {
    let mut state = State::fresh();
    let mut history = Vec::with_capacity(steps.len());
    for &step in steps {
        let reply = rules::step_with(&mut state, step, faults);
        history.push(Event { step, reply });
    }
    (history, state)
}

/// A random list of steps, each drawn for the state that the earlier ones led to.
pub fn random_list(rng: &mut Prng, faults: &impl Switches) -> (Vec<Event>, State) {
    let profile = Profile::draw(rng, KINDS);
    let length = [20, 60, 200][rng.index(3)];
    list_by(profile, State::fresh(), length, rng, faults)
}

/// The same where some senders take all the places for requests that they may have.
pub fn crowded_list(rng: &mut Prng, faults: &impl Switches) -> (Vec<Event>, State) {
    let profile = Profile::crowded(rng, KINDS);
    list_by(profile, State::fresh(), 150, rng, faults)
}

fn list_by(
    mut profile: Profile,
    mut state: State,
    length: usize,
    rng: &mut Prng,
    faults: &impl Switches,
) -> (Vec<Event>, State) {
    let mut history = Vec::with_capacity(length);
    for _ in 0..length {
        let step = profile.next_step(rng, &state);
        let reply = rules::step_with(&mut state, step, faults);
        history.push(Event { step, reply });
    }
    (history, state)
}

/// A list that breaks demand 3.
#[derive(Clone, Debug)]
pub struct Found {
    /// How many random steps were played, up to the one that shows it.
    pub after: usize,
    /// The shortest list the shrinker found.
    pub steps: Vec<Step>,
    /// What it breaks.
    pub violation: Violation,
}

/// Plays random lists with at most about this many steps until one breaks demand 3.
pub fn search<S: Switches>(seed: u64, most: usize, faults: &S) -> Option<Found> {
    search_by(random_list, seed, most, faults)
}

/// The same with lists that crowd the places for requests.
pub fn search_crowded<S: Switches>(seed: u64, most: usize, faults: &S) -> Option<Found> {
    search_by(crowded_list, seed, most, faults)
}

fn search_by<S: Switches>(
    draw: impl Fn(&mut Prng, &S) -> (Vec<Event>, State),
    seed: u64,
    most: usize,
    faults: &S,
) -> Option<Found> {
    let mut rng = Prng::new(seed);
    let mut played = 0;
    while played < most {
        let (history, state) = draw(&mut rng, faults);
        if claim::check(&history, &state.store).is_err() {
            let steps: Vec<Step> = history.iter().map(|event| event.step).collect();
            let shortest = (1..=steps.len()).find(|&n| breaks(&steps[..n], faults).is_some())?;
            let steps = shrink(&steps[..shortest], |list| outcome(list, faults));
            let violation = breaks(&steps, faults)?;
            return Some(Found {
                after: played + shortest,
                steps,
                violation,
            });
        }
        played += history.len();
    }
    None
}

fn breaks(steps: &[Step], faults: &impl Switches) -> Option<Violation> {
    let (history, state) = play(steps, faults);
    claim::check(&history, &state.store).err()
}

fn outcome(steps: &[Step], faults: &impl Switches) -> Outcome {
    let (history, state) = play(steps, faults);
    Outcome {
        failed: claim::check(&history, &state.store).is_err(),
        replies: history.iter().map(|event| event.reply).collect(),
    }
}

/// A run begun with zero counts.
#[derive(Clone, Debug)]
pub struct ZeroRun {
    /// The state at its start.
    pub start: State,
    /// Its steps and replies.
    pub history: Vec<Event>,
    /// The read counters that it leaves.
    pub counters: [ReadCounter; PLAYERS],
}

impl ZeroRun {
    /// Runs a session of these steps on the tables of a state that has zero counts.
    pub fn new(start: State, steps: &[Step], faults: &impl Switches) -> ZeroRun {
        let (mut store, mut players) = tables_of(&start);
        let mut list = vec![0; REPLY_WORDS * steps.len()];
        let bytes = session(steps);
        let report = run_with(
            &mut store,
            &mut players,
            &bytes,
            u32::MAX,
            &mut list,
            faults,
        );
        let taken = steps.iter().take(report.records as usize);
        let replies = list.chunks_exact(REPLY_WORDS);
        let event = |(&step, words): (&Step, &[u32])| Event {
            step,
            reply: Reply::new(words[0], words[1], words[2]),
        };
        ZeroRun {
            start,
            history: taken.zip(replies).map(event).collect(),
            counters: counters(&players),
        }
    }

    /// A random one: from fresh tables or any others, with steps of all sorts, such as crowd the places for requests
    /// and many reads among them.
    pub fn draw(rng: &mut Prng, faults: &impl Switches) -> ZeroRun {
        let mut start = match rng.below(3) {
            0 => State::fresh(),
            1 => any_state(rng),
            _ => remembering_state(rng),
        };
        start.counters = [ReadCounter::ZERO; PLAYERS];
        let profile = match rng.below(3) {
            0 => Profile::draw(rng, KINDS),
            1 => Profile::crowded(rng, KINDS),
            _ => Profile::reading(rng, KINDS),
        };
        let length = [10, 40, 150][rng.index(3)];
        let (history, _) = list_by(profile, start.clone(), length, rng, faults);
        let steps: Vec<Step> = history.iter().map(|event| event.step).collect();
        ZeroRun::new(start, &steps, faults)
    }

    /// Whether the counters are what the replies say.
    pub fn keeps_law(&self) -> bool {
        self.counters == counters_after(&self.start, &self.history)
    }
}

/// Plays random runs begun with zero counts, with at most about this many steps, until the counters of one are not
/// what its replies say: how many steps that took.
pub fn search_counters(seed: u64, most: usize, faults: &impl Switches) -> Option<usize> {
    let mut rng = Prng::new(seed);
    let mut played = 0;
    while played < most {
        let run = ZeroRun::draw(&mut rng, faults);
        played += run.history.len();
        if !run.keeps_law() {
            return Some(played);
        }
    }
    None
}
