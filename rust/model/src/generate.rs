//! Random steps that collide: few players and entries, serials of requests in flight, long delays,
//! many abandoned requests, restarts and splits.

use calls::{bit, has, Fields, Range, Step, KINDS};

use crate::numbers::{Entries, ENTRIES, LOADER, MAX_SERIAL, NOBODY, PLAYERS};
use crate::prng::Prng;
use crate::state::{Operation, Request, State};
use crate::states::REMEMBERED;

/// What the steps of one list are drawn from. Each list has its own profile, so that some lists
/// have long delays, some many restarts, some no splits at all.
#[derive(Clone, Debug)]
pub struct Profile {
    /// Kinds 1 up to this one.
    kinds: u8,
    /// Players 0 up to, not including, this one.
    players: u8,
    /// The entries used.
    window: Range,
    /// How often each kind is drawn, kind 1 first.
    weights: [u32; KINDS as usize],
    /// In how many of 100 cases a range is the whole window.
    whole: u32,
    /// In how many of 100 cases a step is its owner's.
    by_owner: u32,
    /// In how many of 100 cases a range with an owner is not assigned anew, and no guard is
    /// requested by a player that has one.
    steady: u32,
    /// In how many of 100 cases all numbers are drawn from everywhere.
    stray: u32,
    /// In how many of 100 cases the newest request is delivered or answered at once.
    prompt: u32,
    /// In how many of 100 cases a write or load is abandoned at once.
    timeouts: u32,
    /// In how many of 100 cases a delivery is followed by a read.
    reads: u32,
    /// Which of the requests that fit is taken.
    taken: Taken,
    /// Who crowds the places for requests; mostly nobody.
    crowd: Option<Crowd>,
    /// The longest phase; 0 for none.
    longest_phase: u32,
    phase: Phase,
    previous: Option<Step>,
}

/// Some steps in which only some kinds are drawn: orders such as "two requests, both delivered,
/// then both answered" are rare without.
#[derive(Clone, Debug)]
struct Phase {
    left: u32,
    kinds: [bool; KINDS as usize],
}

impl Phase {
    const NONE: Phase = Phase {
        left: 0,
        kinds: [true; KINDS as usize],
    };

    /// A phase of steps of the kinds 1 up to this one.
    fn draw(rng: &mut Prng, longest: u32, kinds: u8) -> Phase {
        let mut phase = Phase::NONE;
        phase.left = rng.between(1, longest);
        for kind in &mut phase.kinds[..usize::from(kinds)] {
            *kind = rng.chance(40);
        }
        phase
    }
}

/// Senders that take the places for requests, up to the last that they may have.
#[derive(Clone, Debug)]
struct Crowd {
    /// Players, and the loader.
    senders: Vec<u8>,
    /// Steps that are left until they begin: by then some have guards, and cells in their memory.
    quiet: u32,
    /// In how many of 100 cases the next step is a request of one of them.
    pace: u32,
}

impl Crowd {
    /// One player, two or three, the loader, one player and the loader, or all; those that the kinds 1 up to
    /// this one know.
    fn draw(rng: &mut Prng, kinds: u8) -> Crowd {
        let loader = (kinds >= LOAD).then_some(LOADER);
        let first = rng.below(PLAYERS as u32) as u8;
        let next = |by: u8| (first + by) % PLAYERS as u8;
        let mut senders = match rng.below(6) {
            0 | 1 => vec![first],
            2 => vec![first, next(1)],
            3 => vec![first, next(1), next(3)],
            4 => Vec::new(),
            _ => (0..PLAYERS as u8).collect(),
        };
        if senders.is_empty() || rng.chance(40) {
            senders.extend(loader);
        }
        if senders.is_empty() {
            senders.push(first);
        }
        Crowd {
            senders,
            quiet: [0, 0, 40][rng.index(3)],
            pace: [60, 80, 95][rng.index(3)],
        }
    }

    /// A request of one of the senders: a load of the loader; of a player a read, or a write or a guard request
    /// where it owns an entry of the window.
    fn step(&self, rng: &mut Prng, state: &State, window: Range) -> Option<Step> {
        let &player = rng.pick(&self.senders)?;
        let entries = window.entries();
        let entry = (entries.start + rng.index(entries.len())) as u8;
        let value = rng.between(1, 9);
        if player == LOADER {
            return Some(Step::Load { entry, value });
        }
        let mut owned = entries.filter(|&at| state.owners[at] == player);
        let step = match (rng.below(6), owned.next()) {
            (0, Some(own)) => Step::RequestGuard {
                player,
                range: Range::new(own as u8, own as u16 + 1),
            },
            (1 | 2, Some(own)) => Step::Write {
                player,
                entry: own as u8,
                value,
            },
            _ => Step::Read { player, entry },
        };
        Some(step)
    }
}

/// Which of the requests that fit is taken.
#[derive(Clone, Copy, Debug)]
enum Taken {
    Any,
    Oldest,
    Newest,
}

/// The kind that sends a load.
const LOAD: u8 = Step::Load { entry: 0, value: 0 }.kind();

/// How often each kind is drawn before a profile changes it; those after the last that stands here as often as it.
const WEIGHTS: [u32; KINDS as usize] = {
    let first = [8, 1, 20, 40, 40, 80, 80, 12, 5, 2, 3, 2, 2, 6, 12];
    let mut weights = [first[first.len() - 1]; KINDS as usize];
    let mut at = 0;
    while at < first.len() {
        weights[at] = first[at];
        at += 1;
    }
    weights
};

impl Profile {
    /// A new profile, of steps of the kinds 1 up to this one.
    pub fn draw(rng: &mut Prng, kinds: u8) -> Profile {
        let mut weights = WEIGHTS;
        for weight in &mut weights[..usize::from(kinds)] {
            *weight *= [0, 1, 1, 2, 4][rng.index(5)];
        }
        // Without these nothing happens.
        for kind in [1, 3, 4, 5, 6, 7] {
            weights[kind - 1] = weights[kind - 1].max(WEIGHTS[kind - 1]);
        }
        let width = [1, 1, 1, 2, 4, 256][rng.index(6)];
        let low = rng.below(257 - u32::from(width)) as u8;
        Profile {
            kinds,
            players: [1, 1, 2, 2, 3, 8][rng.index(6)],
            window: Range::new(low, u16::from(low) + width),
            weights,
            whole: [30, 70, 100][rng.index(3)],
            by_owner: [50, 90, 100][rng.index(3)],
            steady: [0, 80, 98][rng.index(3)],
            stray: [0, 0, 0, 2, 10][rng.index(5)],
            prompt: [0, 20, 60][rng.index(3)],
            timeouts: [0, 0, 20, 60][rng.index(4)],
            reads: [0, 10, 30][rng.index(3)],
            taken: [Taken::Any, Taken::Any, Taken::Oldest, Taken::Newest][rng.index(4)],
            crowd: None,
            longest_phase: [0, 4, 10][rng.index(3)],
            phase: Phase::NONE,
            previous: None,
        }
    }

    /// A new profile by which some senders take all the places for requests that they may have; some of
    /// their requests leave, and others come in their place.
    pub fn crowded(rng: &mut Prng, kinds: u8) -> Profile {
        Profile {
            crowd: Some(Crowd::draw(rng, kinds)),
            ..Profile::draw(rng, kinds)
        }
    }

    /// A new profile by which players keep their guards of the entries that many have in their memory
    /// ([`REMEMBERED`]), and read these and others.
    pub fn reading(rng: &mut Prng, kinds: u8) -> Profile {
        let mut weights = WEIGHTS;
        for (weight, kind) in weights.iter_mut().zip(1..) {
            *weight = match kind {
                1..=3 => *weight / 8,
                4 => 4 * *weight,
                5 => *weight / 8,
                _ => *weight,
            };
        }
        Profile {
            players: PLAYERS as u8,
            window: REMEMBERED,
            weights,
            whole: 0,
            by_owner: [60, 90][rng.index(2)],
            steady: 98,
            timeouts: 0,
            reads: 30,
            ..Profile::draw(rng, kinds)
        }
    }

    /// The next step for this state. Most steps fit something in it.
    pub fn next_step(&mut self, rng: &mut Prng, state: &State) -> Step {
        if self.longest_phase > 0 {
            match self.phase.left.checked_sub(1) {
                Some(left) => self.phase.left = left,
                None => self.phase = Phase::draw(rng, self.longest_phase, self.kinds),
            }
        }
        if rng.chance(self.stray) {
            return any_step(rng, self.kinds);
        }
        let mut step = match &mut self.crowd {
            Some(crowd) if crowd.quiet > 0 => {
                crowd.quiet -= 1;
                None
            }
            Some(crowd) if rng.chance(crowd.pace) => crowd.step(rng, state, self.window),
            _ => None,
        };
        step = step.or_else(|| self.follow_up(rng, state));
        for _ in 0..8 {
            step = step.or_else(|| self.fitting_step(rng, state));
        }
        if step.is_none() {
            self.phase = Phase::NONE;
        }
        let step = step.unwrap_or_else(|| any_step(rng, self.kinds));
        self.previous = Some(step);
        step
    }

    /// Now and then a step that follows from the one before: a write or load is abandoned at once; the
    /// player then reads, asks for a guard or gets another answer; a delivery is followed by a
    /// read; the newest request is delivered or answered.
    fn follow_up(&self, rng: &mut Prng, state: &State) -> Option<Step> {
        let newest = state.requests.last().filter(|r| r.is_pending());
        match (self.previous, newest) {
            (Some(Step::Write { .. } | Step::Load { .. }), Some(newest))
                if rng.chance(self.timeouts) =>
            {
                Some(Step::Abandon {
                    serial: newest.serial,
                })
            }
            (Some(Step::Abandon { .. } | Step::RestartPlayer { .. }), _)
                if rng.chance(self.timeouts) =>
            {
                let answerable = |r: &Request| r.is_delivered() && r.is_pending();
                match rng.below(3) {
                    0 => self.owner_reads(rng, state),
                    1 => self.owner_asks(state),
                    _ => self
                        .serial(rng, state, answerable)
                        .map(|serial| Step::Respond { serial }),
                }
            }
            (Some(Step::Deliver { .. }), _) if rng.chance(self.reads) => {
                self.owner_reads(rng, state)
            }
            (_, Some(newest)) if rng.chance(self.prompt) => {
                let serial = newest.serial;
                Some(if newest.is_delivered() {
                    Step::Respond { serial }
                } else {
                    Step::Deliver { serial }
                })
            }
            _ => None,
        }
    }

    /// The owner of an entry reads it.
    fn owner_reads(&self, rng: &mut Prng, state: &State) -> Option<Step> {
        let entry = self.entry(rng);
        let player = state.owners[usize::from(entry)];
        (player != NOBODY).then_some(Step::Read { player, entry })
    }

    /// The owner of the window asks for a guard.
    fn owner_asks(&self, state: &State) -> Option<Step> {
        let player = state.owners[usize::from(self.window.low)];
        let range = self.window;
        (player != NOBODY).then_some(Step::RequestGuard { player, range })
    }

    /// A kind drawn by weight; none if the phase has no kind with a weight.
    fn kind(&self, rng: &mut Prng) -> Option<u8> {
        let weight = |kind: u8| {
            let at = usize::from(kind) - 1;
            self.weights[at] * u32::from(self.phase.kinds[at])
        };
        let mut left = rng.below((1..=self.kinds).map(weight).sum());
        for kind in 1..=self.kinds {
            if left < weight(kind) {
                return Some(kind);
            }
            left -= weight(kind);
        }
        None
    }

    /// A step of a kind drawn by weight. None if no request fits it, and mostly none if the player
    /// lacks what the step needs.
    fn fitting_step(&self, rng: &mut Prng, state: &State) -> Option<Step> {
        let range = self.range(rng);
        let entry = self.entry(rng);
        let player = rng.below(u32::from(self.players)) as u8;
        let owner = |rng: &mut Prng, entry: u8| match state.owners[usize::from(entry)] {
            NOBODY => player,
            owner if rng.chance(self.by_owner) => owner,
            _ => player,
        };
        let owned = state.owners[usize::from(range.low)] != NOBODY;
        let unready = rng.chance(5);
        Some(match self.kind(rng)? {
            1 if owned && rng.chance(self.steady) => return None,
            3 => {
                let player = owner(rng, range.low);
                let mut owners = state.owners[range.entries()].iter();
                let all = owners.all(|&owner| owner == player);
                let held = state.held[usize::from(player)][usize::from(range.low)] != 0;
                let ready = all && !(held && rng.chance(self.steady));
                (ready || unready).then_some(Step::RequestGuard { player, range })?
            }
            4 => Step::Read {
                player: owner(rng, entry),
                entry,
            },
            5 => {
                let player = owner(rng, entry);
                let value = rng.between(1, 9);
                let guarded = state.held[usize::from(player)][usize::from(entry)] != 0;
                (guarded || unready).then_some(Step::Write {
                    player,
                    entry,
                    value,
                })?
            }
            6 => Step::Deliver {
                serial: self.serial(rng, state, |r| !r.is_delivered())?,
            },
            7 => Step::Respond {
                serial: self.serial(rng, state, |r| r.is_delivered() && r.is_pending())?,
            },
            8 => Step::Abandon {
                serial: self.serial(rng, state, Request::is_pending)?,
            },
            9 => Step::Lose {
                serial: self.serial(rng, state, |r| r.abandoned)?,
            },
            15 => Step::Load {
                entry,
                value: rng.between(1, 9),
            },
            kind => Step::of_its_fields(Fields {
                kind,
                player,
                entry: if has(kind, bit::HIGH) {
                    range.low
                } else {
                    entry
                },
                high: range.high,
                ..Fields::default()
            })?,
        })
    }

    fn entry(&self, rng: &mut Prng) -> u8 {
        let width = u32::from(self.window.high) - u32::from(self.window.low);
        self.window.low + rng.below(width) as u8
    }

    fn range(&self, rng: &mut Prng) -> Range {
        if rng.chance(self.whole) {
            return self.window;
        }
        let (one, other) = (self.entry(rng), self.entry(rng));
        Range::new(one.min(other), u16::from(one.max(other)) + 1)
    }

    /// The serial of a request that fits; now and then of one that does not, or of none.
    fn serial(
        &self,
        rng: &mut Prng,
        state: &State,
        fits: impl Fn(&Request) -> bool,
    ) -> Option<u32> {
        if rng.chance(2) {
            return Some(rng.below(state.last_serial + 2));
        }
        let all = rng.chance(2);
        let fitting: Vec<u32> = state
            .requests
            .iter()
            .filter(|request| all || fits(request))
            .map(|request| request.serial)
            .collect();
        match self.taken {
            Taken::Oldest if rng.chance(80) => fitting.first().copied(),
            Taken::Newest if rng.chance(80) => fitting.last().copied(),
            _ => rng.pick(&fitting).copied(),
        }
    }
}

/// A step of any of the kinds 1 up to this one, with any numbers.
pub fn any_step(rng: &mut Prng, kinds: u8) -> Step {
    let mut fields = Fields {
        player: small_or_any(rng, 9) as u8,
        entry: small_or_any(rng, 2) as u8,
        high: rng.below(300) as u16,
        serial: match rng.below(4) {
            0 => MAX_SERIAL - 2 + rng.below(5),
            1 => rng.word(),
            _ => rng.below(40),
        },
        kind: rng.below(u32::from(kinds)) as u8 + 1,
        value: 0,
    };
    if has(fields.kind, bit::VALUE) {
        fields.value = rng.word();
    }
    Step::of_its_fields(fields).expect("a kind in force")
}

/// Most often a number below the bound, else any byte.
fn small_or_any(rng: &mut Prng, bound: u32) -> u32 {
    if rng.chance(80) {
        rng.below(bound)
    } else {
        rng.below(256)
    }
}

/// All entries, or that of a read, write or load in flight.
fn any_window(rng: &mut Prng, state: &State) -> Range {
    let used = match rng.pick(&state.requests).map(|request| request.operation) {
        Some(Operation::Read { entry, .. } | Operation::Write { entry, .. }) => Some(entry),
        _ => None,
    };
    match used {
        Some(entry) if rng.chance(40) => Range::new(entry, u16::from(entry) + 1),
        _ => Range::new(0, ENTRIES as u16),
    }
}

/// A step of the kinds 1 up to this one for any state: the numbers are often those of the state.
pub fn step_for(rng: &mut Prng, state: &State, kinds: u8) -> Step {
    let window = any_window(rng, state);
    one_step(kinds, window, WEIGHTS).next_step(rng, state)
}

/// A step of the kinds 1 up to this one, each as often as another, with entries of this window.
pub fn step_in(rng: &mut Prng, state: &State, kinds: u8, window: Range) -> Step {
    one_step(kinds, window, [1; KINDS as usize]).next_step(rng, state)
}

/// What a single step is drawn from.
fn one_step(kinds: u8, window: Range, weights: [u32; KINDS as usize]) -> Profile {
    Profile {
        kinds,
        players: PLAYERS as u8,
        window,
        weights,
        whole: 5,
        by_owner: 80,
        steady: 50,
        stray: 20,
        prompt: 10,
        timeouts: 10,
        reads: 10,
        taken: Taken::Any,
        crowd: None,
        longest_phase: 0,
        phase: Phase::NONE,
        previous: None,
    }
}
