//! The cases, in groups.

use calls::{Fields, Library, Range, Request, Step, KINDS, MAPS};
use model::broken::{self, bar, break_counter, break_rule, damage, Crowd, SERIAL_RULES};
use model::codec::{self, MARK, MAX_SESSION, RECORD_LENGTHS};
use model::faults::NoFault;
use model::generate::{any_step, step_for, Profile};
use model::interleavings::Interleavings;
use model::numbers::{BARRED, MAX_COUNT, MAX_REQUESTS, MAX_SERIAL, OPEN, PLAYERS};
use model::preview::MOST_RECORDS;
use model::prng::Prng;
use model::reply::code;
use model::rules;
use model::state::State;
use model::states::{any_state, full_state, remembering_state};
use model::table_rules::{TableError, TableRule};
use model::tables::{self, tables_of, COUNTERS, PLAYERS_WORDS, STORE_WORDS};

use crate::case::{Act, Case, StoreCall};
use crate::cells::{Counts, FIND_INTERVAL, LOAD};
use crate::counters::{OnCounters, Watch, Way};
use crate::first_reads::OnFirstRead;
use crate::shrink::{print, shrink};
use crate::situations::{Situation, BROKEN_COUNTERS, CROWDED};

/// How much is tried, and from which seed.
#[derive(Clone, Copy, Debug)]
pub struct Plan {
    /// About so many steps one by one; all else grows with them.
    pub steps: u64,
    /// The seed of all random cases.
    pub seed: u64,
}

impl Plan {
    /// What `compare` does when it is told nothing else.
    pub const DEFAULT: Plan = Plan {
        steps: 1_000_000,
        seed: 1,
    };

    /// A number of cases that is `at_default` in the default plan.
    fn share(self, at_default: u64) -> u64 {
        (at_default * self.steps / Plan::DEFAULT.steps).max(1)
    }
}

/// What came of one group.
#[derive(Clone, Debug)]
pub struct Outcome {
    /// The group's name.
    pub name: &'static str,
    /// Cases tried.
    pub cases: u64,
    /// Steps played in them.
    pub steps: u64,
    /// The first failing case, shrunk and printed.
    pub failure: Option<String>,
}

/// One group while it runs.
struct Group<'a, L> {
    library: &'a L,
    /// The kinds that the library knows are 1 up to this one.
    kinds: u8,
    counts: &'a mut Counts,
    rng: Prng,
    plan: Plan,
    cases: u64,
    failure: Option<String>,
}

impl<L: Library> Group<'_, L> {
    /// Steps that a profile draws from a state on.
    fn drawn(&mut self, state: State, length: usize) -> Vec<Step> {
        let profile = Profile::draw(&mut self.rng, self.kinds);
        self.drawn_by(profile, state, length)
    }

    /// Steps that this profile draws from a state on.
    fn drawn_by(&mut self, mut profile: Profile, mut state: State, length: usize) -> Vec<Step> {
        let mut steps = Vec::with_capacity(length);
        for _ in 0..length {
            let step = profile.next_step(&mut self.rng, &state);
            rules::step(&mut state, step);
            steps.push(step);
        }
        steps
    }

    /// Notes what a run of these steps counts, and its preview.
    fn note_counted(&mut self, mut state: State, steps: &[Step]) {
        for (at, &step) in steps.iter().enumerate() {
            let watch = Watch::new(Way::Run, &state, step);
            let reply = rules::step(&mut state, step);
            let found = watch.map_or(Vec::new(), |watch| watch.met(reply));
            let is_answer = matches!(reply.code, code::FROM_MEMORY | code::FROM_STORE);
            let is_previewed = is_answer && at < MOST_RECORDS as usize;
            let previewed = is_previewed.then_some(OnCounters::Previewed(Way::Run));
            let found = found.into_iter().chain(previewed);
            self.counts.note_situations(found.map(Situation::Counters));
        }
    }

    /// A step of any kind with any numbers.
    fn any_step(&mut self) -> Step {
        any_step(&mut self.rng, self.kinds)
    }

    /// A read of each player, and a load if the library knows one.
    fn requests(&mut self) -> Vec<Step> {
        let entry = self.rng.below(256) as u8;
        let reads = (0..PLAYERS as u8).map(|player| Step::Read { player, entry });
        let load = Step::Load { entry, value: 7 };
        reads.chain((self.kinds >= LOAD).then_some(load)).collect()
    }

    /// A call on both tables.
    fn any_act(&mut self) -> Act {
        match self.rng.below(5) {
            0 => Act::Check,
            1 => run_of(codec::session(&[self.any_step(), self.any_step()]), 9, 9),
            2 => self.any_share(),
            _ => Act::Steps(vec![self.any_step()]),
        }
    }

    /// The share of any player, be it none.
    fn any_share(&mut self) -> Act {
        let rng = &mut self.rng;
        Act::Share(match rng.below(5) {
            0 => PLAYERS as u8,
            1 => rng.below(256) as u8,
            _ => rng.below(PLAYERS as u32) as u8,
        })
    }

    /// Whether the library knows guard intervals: by step 14, and by the store's call.
    fn finds_intervals(&self) -> bool {
        self.kinds >= FIND_INTERVAL
    }

    /// A call of the store used alone.
    fn any_store_call(&mut self) -> StoreCall {
        let calls = 9 + u32::from(self.finds_intervals());
        let rng = &mut self.rng;
        let entry = if rng.chance(50) {
            rng.below(3)
        } else {
            rng.below(256)
        } as u8;
        match rng.below(calls) {
            0 => StoreCall::Check,
            1 => StoreCall::Read { entry },
            2 => StoreCall::Write {
                entry,
                value: rng.word(),
                serial: serial(rng),
                guard: serial(rng),
            },
            3 | 4 => StoreCall::SetGuard {
                low: entry,
                high: [u32::from(entry) + 1, 256, 257, rng.below(300)][rng.index(4)] as u16,
                serial: serial(rng),
            },
            5 => StoreCall::Split { entry },
            6 => StoreCall::Merge { entry },
            7 => StoreCall::Restart { entry },
            8 => StoreCall::CheckAt {
                last: [0, 1, MAX_SERIAL, MAX_SERIAL + 1, rng.word()][rng.index(5)],
            },
            _ => StoreCall::FindInterval { entry },
        }
    }

    /// Fields of any kind, also such as the kind lacks.
    fn any_fields(&mut self) -> Fields {
        let mut fields = Fields::from(self.any_step());
        let rng = &mut self.rng;
        if rng.chance(30) {
            fields.kind = [0, KINDS + 1, KINDS + 2, 255, rng.below(256) as u8][rng.index(5)];
        }
        match rng.below(7) {
            0 => fields.player = rng.below(3) as u8,
            1 => fields.entry = rng.below(3) as u8,
            2 => fields.high = [0, 1, 256, 0xFFFF][rng.index(4)],
            3 => fields.value = rng.word(),
            4 => fields.serial = rng.word(),
            _ => {}
        }
        fields
    }

    /// Tries a case; true where it fails, and then the group ends.
    fn fails(&mut self, case: Case) -> bool {
        self.cases += 1;
        if case.differs(self.library, self.counts).is_none() {
            return false;
        }
        let (small, found) = shrink(&case, self.library);
        self.failure = Some(print(&small, found.as_ref()));
        true
    }

    /// Tries calls on the same tables, each from the start.
    fn any_fails(
        &mut self,
        store: &[u32],
        players: &[u32],
        acts: impl IntoIterator<Item = Act>,
    ) -> bool {
        acts.into_iter().any(|act| {
            self.fails(Case {
                store: store.to_vec(),
                players: players.to_vec(),
                act,
            })
        })
    }
}

type Run<L> = fn(&mut Group<L>);

/// Runs all groups.
pub fn run_all<L: Library>(library: &L, plan: Plan, counts: &mut Counts) -> Vec<Outcome> {
    let all = groups().into_iter().enumerate();
    all.map(|(at, group)| run_one(library, plan, counts, at, group))
        .collect()
}

/// The groups in their order.
pub const IN_ORDER: usize = 0;
/// The groups of the read counters first, which end the order.
pub const OF_COUNTERS: usize = 23;

/// Runs the groups up to the first that fails, which it gives: from this one on, and then those before it.
pub fn run_to_failure<L: Library>(
    library: &L,
    plan: Plan,
    counts: &mut Counts,
    first: usize,
) -> Option<Outcome> {
    let mut all: Vec<_> = groups().into_iter().enumerate().collect();
    all.rotate_left(first);
    all.into_iter()
        .map(|(at, group)| run_one(library, plan, counts, at, group))
        .find(|outcome| outcome.failure.is_some())
}

fn groups<L: Library>() -> [(&'static str, Run<L>); OF_COUNTERS + 2] {
    [
        ("random sessions, step by step", sessions),
        ("near the last serial", late),
        ("all places taken", crowded),
        ("steps on any tables", any_tables),
        ("runs over random sessions", runs),
        ("runs of full length", full_runs),
        ("every small budget and list", budgets),
        ("damaged sessions", damaged),
        ("cut, over-long and random bytes", strange_bytes),
        ("each rule broken alone", broken_rules),
        ("single words changed", changed_words),
        ("wrong lengths", lengths),
        ("steps by any fields", any_fields),
        ("records read", decoding),
        ("records and marks written", encoding),
        ("the session's mark", marks),
        ("requests counted", waiting),
        ("the store alone", store_alone),
        ("each word in turn", each_word),
        ("previews of runs around 16 records", previews),
        ("places taken by a few", crowds),
        ("tables with the common places taken", crowded_tables),
        ("first reads from memory", first_reads),
        ("reads counted near the limit", counted_reads),
        ("shares of reads from memory", shares_of_reads),
    ]
}

fn run_one<L: Library>(
    library: &L,
    plan: Plan,
    counts: &mut Counts,
    at: usize,
    (name, group): (&'static str, Run<L>),
) -> Outcome {
    let before = counts.steps;
    let mut state = Group {
        library,
        kinds: library.kinds(),
        counts,
        rng: Prng::new(plan.seed.wrapping_mul(1_000).wrapping_add(at as u64)),
        plan,
        cases: 0,
        failure: None,
    };
    group(&mut state);
    Outcome {
        name,
        cases: state.cases,
        failure: state.failure,
        steps: counts.steps - before,
    }
}

fn case_from(state: &State, act: Act) -> Case {
    let (store, players) = tables_of(state);
    Case {
        store,
        players,
        act,
    }
}

fn run_of(session: Vec<u8>, budget: u32, list: usize) -> Act {
    Act::Run {
        session,
        budget,
        list,
    }
}

/// Random lists from fresh tables: few players, entries and serials, long delays, many requests
/// given up, restarts and splits.
fn sessions(group: &mut Group<impl Library>) {
    let most = group.plan.share(700_000);
    let mut played = 0;
    while played < most {
        let length = [20, 60, 200, 600][group.rng.index(4)];
        let steps = group.drawn(State::fresh(), length);
        played += length as u64;
        if group.fails(Case::fresh(Act::Steps(steps))) {
            return;
        }
    }
}

/// The same with few serials left.
fn late(group: &mut Group<impl Library>) {
    for _ in 0..group.plan.share(800) {
        let mut state = State::fresh();
        state.last_serial = MAX_SERIAL - group.rng.below(60);
        let steps = group.drawn(state.clone(), 100);
        if group.fails(case_from(&state, Act::Steps(steps))) {
            return;
        }
    }
}

/// The same after about 64 reads and loads of anyone that nothing delivers; player 0 has entry 0 in its memory,
/// and reads it then.
fn crowded(group: &mut Group<impl Library>) {
    let range = Range::new(0, 1);
    let (player, entry) = (0, 0);
    let prefix = [
        Step::Assign { player, range },
        Step::RequestGuard { player, range },
        Step::Deliver { serial: 2 },
        Step::Respond { serial: 2 },
        Step::Read { player, entry },
        Step::Deliver { serial: 3 },
        Step::Respond { serial: 3 },
    ];
    for _ in 0..group.plan.share(500) {
        let mut state = State::fresh();
        for step in prefix {
            rules::step(&mut state, step);
        }
        let mut steps = prefix.to_vec();
        for _ in 0..group.rng.between(60, 76) {
            let (player, entry) = (group.rng.below(8) as u8, group.rng.below(3) as u8);
            let step = match group.kinds >= LOAD && group.rng.chance(30) {
                true => Step::Load { entry, value: 1 },
                false => Step::Read { player, entry },
            };
            rules::step(&mut state, step);
            steps.push(step);
        }
        steps.push(Step::Read { player, entry });
        steps.extend(group.drawn(state, 60));
        if group.fails(Case::fresh(Act::Steps(steps))) {
            return;
        }
    }
}

/// Random lists in which a few, or all, take the places for requests that they may have; now and then with
/// few serials left.
fn crowds(group: &mut Group<impl Library>) {
    for _ in 0..group.plan.share(1_500) {
        let mut state = State::fresh();
        if group.rng.chance(20) {
            state.last_serial = MAX_SERIAL - group.rng.between(15, 60);
        }
        let profile = Profile::crowded(&mut group.rng, group.kinds);
        let steps = group.drawn_by(profile, state.clone(), 120);
        if group.fails(case_from(&state, Act::Steps(steps))) {
            return;
        }
    }
}

/// Tables in which a few have the 16 common places, which keep the rules, or one more, which is 22 from every
/// call on both tables.
fn crowded_tables(group: &mut Group<impl Library>) {
    for _ in 0..group.plan.share(60) {
        for crowd in Crowd::ALL {
            for common in CROWDED {
                let (store, players) = broken::crowded(&mut group.rng, crowd, common);
                let expected = match tables::decode(&store, &players) {
                    Ok(_) => common == CROWDED[0],
                    Err(error) => error == TableError::Rule(TableRule::RequestShares),
                };
                if expected {
                    let met = Situation::Crowded(crowd, common);
                    group.counts.note_situations([met]);
                }
                let acts = [Act::Check, group.any_act(), Act::Steps(group.requests())];
                if group.any_fails(&store, &players, acts) {
                    return;
                }
            }
        }
    }
}

/// A player's guard asked for, arrived and answered, an entry read, arrived and answered, and read again from
/// memory, between others' steps, from any tables that meet the premises of document 02 §6.
fn first_reads(group: &mut Group<impl Library>) {
    let mut interleavings = Interleavings::new(group.rng.bits(), group.kinds);
    for _ in 0..group.plan.share(10_000) {
        let (first, start) = interleavings.start();
        let played = interleavings.play(first, &mut start.clone(), &NoFault);
        let found = OnFirstRead::of(&start, &played).into_iter();
        group
            .counts
            .note_situations(found.map(Situation::FirstRead));
        let steps = played.history.iter().map(|(_, event)| event.step);
        if group.fails(case_from(&start, Act::Steps(steps.collect()))) {
            return;
        }
    }
}

/// Lists in which many reads are answered, from memory and from the store, from tables with counts at the limit and near
/// it: every second one step by step, the others as a run.
fn counted_reads(group: &mut Group<impl Library>) {
    for round in 0..group.plan.share(1_600) {
        let state = remembering_state(&mut group.rng);
        let profile = Profile::reading(&mut group.rng, group.kinds);
        let steps = group.drawn_by(profile, state.clone(), 60);
        let act = match round % 2 {
            0 => Act::Steps(steps),
            _ => {
                group.note_counted(state.clone(), &steps);
                run_of(codec::session(&steps), 60, 3 * 60)
            }
        };
        if group.fails(case_from(&state, act)) {
            return;
        }
    }
}

/// Shares of the eight players, and of numbers that are no player's: in fresh tables and any others; then, with other
/// calls, where a counter or any rule is broken, one count is a number at an edge of the rules, or the players' table has
/// another length.
fn shares_of_reads(group: &mut Group<impl Library>) {
    let all: Vec<Act> = (0..10).chain([255]).map(Act::Share).collect();
    let (store, players) = tables::fresh_tables();
    if group.any_fails(&store, &players, all.clone()) {
        return;
    }
    for _ in 0..group.plan.share(600) {
        let (store, players) = tables_of(&any_state(&mut group.rng));
        if group.any_fails(&store, &players, all.clone()) {
            return;
        }
        let (rule, player) = BROKEN_COUNTERS[group.rng.index(BROKEN_COUNTERS.len())];
        let counter_broken = break_counter(&mut group.rng, rule, player);
        if tables::decode(&counter_broken.0, &counter_broken.1) == Err(TableError::Rule(rule)) {
            let met = Situation::BrokenCounter(rule, player);
            group.counts.note_situations([met]);
        }
        let rng = &mut group.rng;
        let rule = TableRule::ALL[rng.index(TableRule::ALL.len())];
        let any_broken = break_rule(rng, rule);
        let mut changed = (store.clone(), players.clone());
        let count = COUNTERS + 2 * player + rng.index(2);
        changed.1[count] = COUNT_EDGES[rng.index(COUNT_EDGES.len())];
        let mut resized = (store, players);
        let words = [0, 1, COUNTERS, 9_488, 9_490, 20_000][rng.index(6)];
        resized.1.resize(words, 7);
        for (store, players) in [counter_broken, any_broken, changed, resized] {
            let acts = [
                Act::Share(player as u8),
                group.any_share(),
                Act::Check,
                Act::Fresh,
                group.any_act(),
            ];
            if group.any_fails(&store, &players, acts) {
                return;
            }
        }
    }
}

/// Steps from any tables that keep the rules, also such as no list of steps leads to.
fn any_tables(group: &mut Group<impl Library>) {
    for _ in 0..group.plan.share(10_000) {
        let state = any_state(&mut group.rng);
        let mut left = state.clone();
        let mut steps = Vec::new();
        for _ in 0..15 {
            let step = step_for(&mut group.rng, &left, group.kinds);
            rules::step(&mut left, step);
            steps.push(step);
        }
        if group.fails(case_from(&state, Act::Steps(steps))) {
            return;
        }
    }
}

/// Runs from fresh and from any tables; budget and list mostly enough.
fn runs(group: &mut Group<impl Library>) {
    for _ in 0..group.plan.share(8_000) {
        let state = start(&mut group.rng);
        let length = [5, 30, 120][group.rng.index(3)];
        let steps = group.drawn(state.clone(), length);
        let list = 3 * length + group.rng.index(8);
        let budget = length as u32 + group.rng.below(4);
        let act = run_of(codec::session(&steps), budget, list);
        if group.fails(case_from(&state, act)) {
            return;
        }
    }
}

/// Fresh tables, or any that keep the rules.
fn start(rng: &mut Prng) -> State {
    if rng.chance(60) {
        State::fresh()
    } else {
        any_state(rng)
    }
}

/// Sessions of as many bytes as one may have: up to 5,460 records.
fn full_runs(group: &mut Group<impl Library>) {
    for round in 0..group.plan.share(40) {
        let mut bytes = MARK.to_vec();
        if round % 2 == 0 {
            let mut profile = Profile::draw(&mut group.rng, group.kinds);
            let mut state = State::fresh();
            loop {
                let step = profile.next_step(&mut group.rng, &state);
                let record = codec::record(step);
                if bytes.len() + record.len() > MAX_SESSION {
                    break;
                }
                rules::step(&mut state, step);
                bytes.extend(record);
            }
        } else {
            let kinds = 4 + u32::from(group.finds_intervals());
            while bytes.len() + 3 <= MAX_SESSION {
                let step = match group.rng.below(kinds) {
                    0 => Step::Split {
                        entry: group.rng.below(5) as u8,
                    },
                    1 => Step::Merge {
                        entry: group.rng.below(5) as u8,
                    },
                    2 => Step::RestartTablet {
                        entry: group.rng.below(256) as u8,
                    },
                    3 => Step::RestartPlayer {
                        player: group.rng.below(9) as u8,
                    },
                    _ => Step::FindInterval {
                        entry: group.rng.below(256) as u8,
                    },
                };
                bytes.extend(codec::record(step));
            }
        }
        if group.fails(Case::fresh(run_of(bytes, 16_384, 3 * 5_460))) {
            return;
        }
    }
}

/// Every budget and list up to more than a session needs, at every cut of the session.
fn budgets(group: &mut Group<impl Library>) {
    for _ in 0..group.plan.share(4) {
        let steps = group.drawn(State::fresh(), 3);
        let session = codec::session(&steps);
        for cut in 0..=session.len() {
            for budget in 0..=4 {
                for list in 0..=13 {
                    let act = run_of(session[..cut].to_vec(), budget, list);
                    group.counts.damaged += u64::from(cut < session.len());
                    if group.fails(Case::fresh(act)) {
                        return;
                    }
                }
            }
        }
    }
}

/// Sessions with bytes changed, put in, removed or cut off.
fn damaged(group: &mut Group<impl Library>) {
    for _ in 0..group.plan.share(50_000) {
        let state = start(&mut group.rng);
        let length = [3, 10, 30][group.rng.index(3)];
        let mut bytes = codec::session(&group.drawn(state.clone(), length));
        damage(&mut group.rng, &mut bytes);
        let list = if group.rng.chance(90) {
            100
        } else {
            group.rng.index(20)
        };
        let budget = if group.rng.chance(90) {
            100
        } else {
            group.rng.below(10)
        };
        group.counts.damaged += 1;
        if group.fails(case_from(&state, run_of(bytes, budget, list))) {
            return;
        }
    }
}

/// Sessions cut at every byte, longer than one may be, with another mark, and of random bytes.
fn strange_bytes(group: &mut Group<impl Library>) {
    for _ in 0..group.plan.share(30) {
        let session = codec::session(&group.drawn(State::fresh(), 20));
        for cut in 0..session.len() {
            group.counts.damaged += 1;
            if group.fails(Case::fresh(run_of(session[..cut].to_vec(), 100, 60))) {
                return;
            }
        }
    }
    for length in [
        16_383, 16_384, 16_385, 16_386, 20_000, 65_536, 65_540, 70_000,
    ] {
        for mark in [*b"RSL1", *b"RSL2"] {
            let mut bytes = mark.to_vec();
            while bytes.len() < length {
                bytes.extend([0x03, 0x0D, 0x00]);
            }
            bytes.truncate(length);
            group.counts.damaged += 1;
            if group.fails(Case::fresh(run_of(bytes, 16_384, 3 * 5_460))) {
                return;
            }
        }
    }
    for _ in 0..group.plan.share(10_000) {
        let length = group.rng.index(60);
        let marked = group.rng.chance(90);
        let mut bytes = if marked { MARK.to_vec() } else { Vec::new() };
        for _ in 0..length {
            // Small bytes are maps and kinds more often.
            let bound = [16, 64, 256][group.rng.index(3)];
            bytes.push(group.rng.below(bound) as u8);
        }
        group.counts.damaged += 1;
        if group.fails(Case::fresh(run_of(bytes, 100, 60))) {
            return;
        }
    }
}

/// Tables that break one rule, also by barred where a serial may stand: 22 from every call, and nothing
/// changed.
fn broken_rules(group: &mut Group<impl Library>) {
    let broken = TableRule::ALL.map(|rule| (rule, Situation::Broken(rule)));
    let barred = SERIAL_RULES.map(|rule| (rule, Situation::BarredAs(rule)));
    for _ in 0..group.plan.share(40) {
        for (rule, situation) in broken.into_iter().chain(barred) {
            let (store, players) = match situation {
                Situation::BarredAs(rule) => bar(&mut group.rng, rule),
                _ => break_rule(&mut group.rng, rule),
            };
            if tables::decode(&store, &players) == Err(TableError::Rule(rule)) {
                group.counts.note_situations([situation]);
            }
            let acts = [
                Act::Check,
                group.any_act(),
                Act::Store(StoreCall::Check),
                Act::Store(group.any_store_call()),
            ];
            if group.any_fails(&store, &players, acts) {
                return;
            }
        }
    }
}

/// Tables that keep the rules with one or two words changed to anything: some keep them still, and
/// all can be made fresh.
fn changed_words(group: &mut Group<impl Library>) {
    for _ in 0..group.plan.share(6_000) {
        let state = any_state(&mut group.rng);
        let (mut store, mut players) = tables_of(&state);
        for _ in 0..group.rng.between(1, 2) {
            let word = match group.rng.below(5) {
                0 => group.rng.below(300),
                1 => (state.last_serial + group.rng.below(3)).saturating_sub(1),
                2 => [MAX_SERIAL, MAX_COUNT][group.rng.index(2)] + group.rng.below(2),
                3 => BARRED - group.rng.below(2),
                _ => group.rng.word(),
            };
            match group.rng.below(4) {
                0 => store[group.rng.index(STORE_WORDS)] = word,
                1 => players[group.rng.index(PLAYERS_WORDS)] = word,
                2 => players[COUNTERS + group.rng.index(PLAYERS_WORDS - COUNTERS)] = word,
                _ => players[tables::REQUESTS + group.rng.index(768)] = word,
            }
        }
        let last = (state.last_serial + group.rng.below(3)).saturating_sub(1);
        let acts = [
            Act::Check,
            Act::Fresh,
            group.any_act(),
            Act::Store(StoreCall::CheckAt { last }),
            Act::Store(StoreCall::Fresh),
            Act::Store(group.any_store_call()),
        ];
        if group.any_fails(&store, &players, acts) {
            return;
        }
    }
}

/// Tables of other lengths: 21 from every call, and nothing changed.
fn lengths(group: &mut Group<impl Library>) {
    let stores = [0, 1, 256, 1_279, STORE_WORDS, 1_281, 2_560, PLAYERS_WORDS];
    let players = [0, 1, 1_280, COUNTERS, 9_488, PLAYERS_WORDS, 9_490, 20_000];
    for store_words in stores {
        for players_words in players {
            for kind in 1..=group.kinds {
                let (mut store, mut players) = tables::fresh_tables();
                store.resize(store_words, 7);
                players.resize(players_words, 7);
                let step = loop {
                    let step = group.any_step();
                    if step.kind() == kind {
                        break step;
                    }
                };
                let acts = [
                    Act::Fresh,
                    Act::Check,
                    Act::Steps(vec![step]),
                    run_of(codec::session(&[step]), 9, 9),
                    run_of(vec![0], 9, 9),
                    group.any_share(),
                    Act::Store(group.any_store_call()),
                    Act::Store(StoreCall::Fresh),
                ];
                if group.any_fails(&store, &players, acts) {
                    return;
                }
            }
        }
    }
}

/// Steps by fields: 26 and 27, also on tables that would be refused themselves. First each kind with each
/// field alone, be it one that the kind lacks or has: drawn fields seldom give one kind one field that it
/// lacks, so that a library which passes over it there (`Point::StrangeFieldsTaken`) would be let by on a
/// small plan.
fn any_fields(group: &mut Group<impl Library>) {
    for kind in 1..=group.kinds {
        let none = Fields {
            kind,
            ..Fields::default()
        };
        for fields in [
            Fields { player: 1, ..none },
            Fields { entry: 1, ..none },
            Fields { high: 1, ..none },
            Fields { value: 1, ..none },
            Fields { serial: 1, ..none },
        ] {
            if group.fails(Case::fresh(Act::Fields(fields))) {
                return;
            }
        }
    }
    for _ in 0..group.plan.share(6_000) {
        let state = start(&mut group.rng);
        let mut case = case_from(&state, Act::Fields(group.any_fields()));
        match group.rng.below(10) {
            0 => case.store.truncate(9),
            1 => case.players[0] = MAX_SERIAL + 1,
            _ => {}
        }
        if group.fails(case) {
            return;
        }
    }
}

fn no_tables(act: Act) -> Case {
    Case {
        store: Vec::new(),
        players: Vec::new(),
        act,
    }
}

/// Records: all of up to two bytes; all maps with all kinds in force and near, at each length up to two
/// more than the map's, with bytes of every sort behind.
fn decoding(group: &mut Group<impl Library>) {
    let mut parts: Vec<Vec<u8>> = vec![vec![]];
    for one in 0..=255 {
        parts.push(vec![one]);
        for two in 0..=255 {
            parts.push(vec![one, two]);
        }
    }
    for map in 0..64u8 {
        for kind in (0..=KINDS + 3).chain([0x80, 0xFF]) {
            for length in 3..=RECORD_LENGTHS[usize::from(map)] + 2 {
                for filled in [Some(0u8), Some(0xFF), None] {
                    let mut part = vec![map, kind];
                    for _ in 2..length {
                        part.push(filled.unwrap_or_else(|| group.rng.below(256) as u8));
                    }
                    parts.push(part);
                }
            }
        }
    }
    for _ in 0..group.plan.share(20_000) {
        let kind = group.rng.between(1, u32::from(group.kinds)) as u8;
        let mut part = vec![MAPS[usize::from(kind) - 1], kind];
        for _ in 0..group.rng.index(12) {
            part.push(group.rng.below(256) as u8);
        }
        parts.push(part);
    }
    for part in parts {
        if group.fails(no_tables(Act::Decode(part))) {
            return;
        }
    }
}

/// Records of all kinds and the mark, to buffers of every small size; what is behind stays.
fn encoding(group: &mut Group<impl Library>) {
    for _ in 0..group.plan.share(4_000) {
        let fields = group.any_fields();
        for bytes in (0..=10).chain([64]) {
            if group.fails(no_tables(Act::Encode(fields, bytes))) {
                return;
            }
        }
    }
    for bytes in 0..=70 {
        if group.fails(no_tables(Act::PutMark(bytes))) {
            return;
        }
    }
}

/// The mark with each byte changed to each other, and cut.
fn marks(group: &mut Group<impl Library>) {
    for length in 0..=6 {
        for at in 0..4 {
            for byte in 0..=255 {
                let mut session = MARK.to_vec();
                session[at] = byte;
                session.resize(length, 0x41);
                if group.fails(no_tables(Act::Marked(session))) {
                    return;
                }
            }
        }
    }
}

/// A mark that stands in so many of 100 cases, by any number: often 1, 2, 3 or 255.
fn mark(rng: &mut Prng, stands: u32) -> u8 {
    if rng.chance(stands) {
        [1, 1, 2, 3, 255, rng.between(1, 255) as u8][rng.index(6)]
    } else {
        0
    }
}

/// Lists of requests of several lengths with any contents, and marks of any number.
fn waiting(group: &mut Group<impl Library>) {
    for _ in 0..group.plan.share(4_000) {
        let places = [64, 64, 64, 64, 0, 1, 63, 65, 128][group.rng.index(9)];
        let used = group.rng.below(100);
        let rng = &mut group.rng;
        let list = (0..places)
            .map(|_| Request {
                serial: if rng.chance(used) { rng.word() } else { 0 },
                player: rng.below(10) as u8,
                kind: rng.below(7) as u8,
                low: rng.below(256) as u8,
                high: rng.below(300) as u16,
                value: rng.word(),
                guard: rng.word(),
                overlapped: mark(rng, 50),
                delivered: mark(rng, 50),
                abandoned: mark(rng, 30),
                first: rng.word(),
                second: rng.word(),
            })
            .collect();
        let player = [rng.below(8) as u8, 7, 8, 255, rng.below(256) as u8][rng.index(5)];
        if group.fails(no_tables(Act::Waiting(list, player))) {
            return;
        }
    }
}

/// A number that is a serial more often than not.
fn serial(rng: &mut Prng) -> u32 {
    match rng.below(8) {
        0 => 0,
        1 => MAX_SERIAL,
        2 => MAX_SERIAL + 1,
        3 => rng.word(),
        _ => rng.between(1, 100),
    }
}

/// The store used alone. First a write with each pair of a carried guard and an entry's guard, of which a small plan
/// would draw some seldom; then any call on any table. Writes often carry the entry's guard, 0 or barred.
fn store_alone(group: &mut Group<impl Library>) {
    let guards = [OPEN, 2, BARRED];
    let mut state = State::fresh();
    state.store.guards[..guards.len()].copy_from_slice(&guards);
    let (store, _) = tables_of(&state);
    let writes = guards.into_iter().flat_map(|guard| {
        (0..guards.len() as u8).map(move |entry| StoreCall::Write {
            entry,
            value: 7,
            serial: 9,
            guard,
        })
    });
    if group.any_fails(&store, &[], writes.map(Act::Store)) {
        return;
    }
    for _ in 0..group.plan.share(20_000) {
        let state = any_state(&mut group.rng);
        let (store, _) = tables_of(&state);
        let mut call = group.any_store_call();
        if let StoreCall::Write { entry, guard, .. } = &mut call {
            let own = state.store.guards[usize::from(*entry)];
            *guard = [own, own, *guard, OPEN, BARRED][group.rng.index(5)];
        }
        let case = Case {
            store,
            players: Vec::new(),
            act: Act::Store(call),
        };
        if group.fails(case) {
            return;
        }
    }
}

/// Numbers at edges of the rule of read counters, and beside the counts that tables have.
const COUNT_EDGES: [u32; 10] = [
    MAX_COUNT + 1,
    1,
    0,
    u32::MAX,
    MAX_COUNT,
    MAX_COUNT - 1,
    MAX_COUNT - 7,
    MAX_COUNT - 8,
    2,
    MAX_SERIAL,
];

/// Each word of both tables in turn made each of ten numbers at edges of the rules, a count others than another word, in a
/// smaller plan the first of them, on tables that are empty, that have one request and twelve guard intervals, and that are
/// full: the test of the tables passes over no word, also where a row of cells ends, or where several
/// words are tested at once and a few are left.
fn each_word(group: &mut Group<impl Library>) {
    let mut empty = State::fresh();
    empty.last_serial = MAX_REQUESTS as u32;
    let mut few = empty.clone();
    let (player, entry) = (0, 0);
    rules::step(&mut few, Step::Read { player, entry });
    for (entry, guard) in few.store.guards[..11].iter_mut().enumerate() {
        *guard = [BARRED, 1][entry % 2];
    }
    for state in [empty, few, full_state()] {
        let last = state.last_serial;
        let (store, players) = tables_of(&state);
        for at in 0..STORE_WORDS + PLAYERS_WORDS {
            let is_count = at >= STORE_WORDS + COUNTERS;
            let numbers = match is_count {
                true => COUNT_EDGES,
                false => [last + 1, 1, 0, BARRED, 9, 2, 8, last, 256, 65_536],
            };
            for word in numbers.into_iter().take(group.plan.share(10) as usize) {
                let (mut store, mut players) = (store.clone(), players.clone());
                match at.checked_sub(STORE_WORDS) {
                    None => store[at] = word,
                    Some(at) => players[at] = word,
                }
                let case = Case {
                    store,
                    players,
                    act: Act::Check,
                };
                if group.fails(case) {
                    return;
                }
            }
        }
    }
}

/// Sessions of about as many records as the preview of a run takes at the most, with budgets and lists for
/// about as many; now and then the last record that it takes, or the next one, is damaged.
fn previews(group: &mut Group<impl Library>) {
    let most = MOST_RECORDS as usize;
    for _ in 0..group.plan.share(5_000) {
        let state = start(&mut group.rng);
        let near = |rng: &mut Prng| most - 3 + rng.index(7);
        let length = near(&mut group.rng);
        let steps = group.drawn(state.clone(), length);
        let rng = &mut group.rng;
        let mut records: Vec<Vec<u8>> = steps.into_iter().map(codec::record).collect();
        let last = most - 1 + rng.index(2);
        if let (true, Some(record)) = (rng.chance(40), records.get_mut(last)) {
            damage(rng, record);
            group.counts.damaged += 1;
        }
        let session = [MARK.to_vec(), records.concat()].concat();
        let budget = [near(rng) as u32, MOST_RECORDS, MOST_RECORDS + 1, u32::MAX][rng.index(4)];
        let list = 3 * near(rng) + rng.index(3);
        if group.fails(case_from(&state, run_of(session, budget, list))) {
            return;
        }
    }
}
