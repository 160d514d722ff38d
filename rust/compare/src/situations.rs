//! Situations that must occur, beside the replies: what kinds of guards, guard intervals, loads, shares of
//! places, first reads from memory, read counters and broken tables a call meets, and where the preview of a run
//! ends.

use std::cmp::Ordering;

use calls::{Report, Step};
use model::broken::{Crowd, SERIAL_RULES};
use model::codec;
use model::faults::NoFault;
use model::numbers::{BARRED, COMMON_PLACES, OPEN, PLAYERS};
use model::preview::MOST_RECORDS;
use model::run::{AT_END, SPENT};
use model::state::{Operation, Request, State};
use model::store::{Store, WriteOutcome};
use model::table_rules::TableRule;

use crate::cells::{Call, FIND_INTERVAL, LOAD};
use crate::counters::{OnCounters, OnShare};
use crate::first_reads::OnFirstRead;
use crate::shares::OnShares;

/// What a guard is, of an entry or carried.
#[derive(Clone, Copy, Debug, PartialEq, Eq)]
#[allow(missing_docs)]
pub enum Guard {
    Open,
    /// Any other number.
    Serial,
    Barred,
}

impl Guard {
    const ALL: [Guard; 3] = [Guard::Open, Guard::Serial, Guard::Barred];

    fn of(number: u32) -> Guard {
        match number {
            OPEN => Guard::Open,
            BARRED => Guard::Barred,
            _ => Guard::Serial,
        }
    }

    fn of_entry(store: &Store, entry: u8) -> Guard {
        Guard::of(store.guards[usize::from(entry)])
    }
}

/// What a guard interval is like, for each call that finds one.
#[derive(Clone, Copy, Debug, PartialEq, Eq)]
pub enum Shape {
    /// It begins at entry 0.
    FromEntry0,
    /// It ends at entry 255.
    ToEntry255,
    /// The entry asked for is all of it.
    OneEntry,
    /// The entry asked for is neither its first nor its last.
    AroundEntry,
    /// It has such a guard, and a boundary inside.
    Across(Guard),
    /// It is barred, and the entry before or behind it is open.
    BarredBesideOpen,
}

impl Shape {
    const ALL: [Shape; 8] = [
        Shape::FromEntry0,
        Shape::ToEntry255,
        Shape::OneEntry,
        Shape::AroundEntry,
        Shape::Across(Guard::Open),
        Shape::Across(Guard::Serial),
        Shape::Across(Guard::Barred),
        Shape::BarredBesideOpen,
    ];

    /// Whether the interval of this entry is so.
    fn is_of(self, store: &Store, entry: u8) -> bool {
        let found = store.find_interval(entry, &NoFault);
        let guard = Guard::of(found.guard);
        match self {
            Shape::FromEntry0 => found.first == 0,
            Shape::ToEntry255 => found.last == 255,
            Shape::OneEntry => found.first == found.last,
            Shape::AroundEntry => (found.first + 1..found.last).contains(&usize::from(entry)),
            Shape::Across(own) => {
                own == guard && store.boundaries[found.first + 1..=found.last].contains(&true)
            }
            Shape::BarredBesideOpen => {
                let before = found.first.checked_sub(1).map(|at| store.guards[at]);
                let behind = store.guards.get(found.last + 1).copied();
                guard == Guard::Barred && [before, behind].contains(&Some(OPEN))
            }
        }
    }
}

/// What a step has to do with a load.
#[derive(Clone, Copy, Debug, PartialEq, Eq)]
pub enum OnLoad {
    /// Step 15, at an entry with such a guard.
    SentAt(Guard),
    /// Step 15, beside a pending read on the entry.
    SentBesideRead,
    /// Step 15, beside a pending write of a player on the entry.
    SentBesideWrite,
    /// Step 15, beside a pending load on the entry.
    SentBesideLoad,
    /// Step 4, to the store, beside a pending load on the entry.
    BesideRead,
    /// Step 5, beside a pending load on the entry.
    BesideWrite,
    /// Step 6 of a pending load, at an entry with such a guard.
    ArrivesAt(Guard),
    /// Step 6 of a load that is given up, at an entry with such a guard.
    AbandonedArrivesAt(Guard),
    /// Step 7 of a load with this outcome.
    Answered(WriteOutcome),
    /// Step 8 of a load that is not delivered.
    Abandoned,
    /// Step 8 of a load with this outcome.
    AbandonedWith(WriteOutcome),
    /// Step 9 of a load.
    Lost,
    /// Step 13, beside a pending load.
    BesidePlayerRestart,
}

impl OnLoad {
    const ALL: [OnLoad; 21] = [
        OnLoad::SentAt(Guard::Open),
        OnLoad::SentAt(Guard::Serial),
        OnLoad::SentAt(Guard::Barred),
        OnLoad::SentBesideRead,
        OnLoad::SentBesideWrite,
        OnLoad::SentBesideLoad,
        OnLoad::BesideRead,
        OnLoad::BesideWrite,
        OnLoad::ArrivesAt(Guard::Open),
        OnLoad::ArrivesAt(Guard::Serial),
        OnLoad::ArrivesAt(Guard::Barred),
        OnLoad::AbandonedArrivesAt(Guard::Open),
        OnLoad::AbandonedArrivesAt(Guard::Serial),
        OnLoad::AbandonedArrivesAt(Guard::Barred),
        OnLoad::Answered(WriteOutcome::Committed),
        OnLoad::Answered(WriteOutcome::Rejected),
        OnLoad::Abandoned,
        OnLoad::AbandonedWith(WriteOutcome::Committed),
        OnLoad::AbandonedWith(WriteOutcome::Rejected),
        OnLoad::Lost,
        OnLoad::BesidePlayerRestart,
    ];

    /// Whether it is of step 15.
    fn is_sending(self) -> bool {
        matches!(
            self,
            OnLoad::SentAt(_)
                | OnLoad::SentBesideRead
                | OnLoad::SentBesideWrite
                | OnLoad::SentBesideLoad
        )
    }

    /// What a step on this state, if it takes place, has to do with loads.
    pub fn of(state: &State, step: Step) -> Vec<OnLoad> {
        let is_pending_load = |r: &&Request| r.is_load() && r.is_pending();
        let loads = || state.requests.iter().filter(is_pending_load);
        let beside = |entry: u8, found: OnLoad| {
            let any = loads().any(|load| load.writes(entry));
            any.then_some(found).into_iter().collect()
        };
        match step {
            Step::Load { entry, .. } => sending(state, entry),
            Step::Read { entry, .. } => beside(entry, OnLoad::BesideRead),
            Step::Write { entry, .. } => beside(entry, OnLoad::BesideWrite),
            Step::RestartPlayer { .. } => {
                let any = loads().next();
                any.map(|_| OnLoad::BesidePlayerRestart)
                    .into_iter()
                    .collect()
            }
            Step::Deliver { serial }
            | Step::Respond { serial }
            | Step::Abandon { serial }
            | Step::Lose { serial } => {
                let mut requests = state.requests.iter();
                let its = requests.find(|r| r.serial == serial && r.is_load());
                its.and_then(|load| on_its_way(&state.store, load, step))
                    .into_iter()
                    .collect()
            }
            _ => Vec::new(),
        }
    }
}

/// What a load that is sent meets.
fn sending(state: &State, on: u8) -> Vec<OnLoad> {
    let beside = |request: &Request| match request.operation {
        Operation::Read { entry, .. } if entry == on => Some(OnLoad::SentBesideRead),
        Operation::Write { entry, .. } if entry == on && request.is_load() => {
            Some(OnLoad::SentBesideLoad)
        }
        Operation::Write { entry, .. } if entry == on => Some(OnLoad::SentBesideWrite),
        _ => None,
    };
    let pending = || state.requests.iter().filter(|r| r.is_pending());
    let mut found = vec![OnLoad::SentAt(Guard::of_entry(&state.store, on))];
    for one in [
        OnLoad::SentBesideRead,
        OnLoad::SentBesideWrite,
        OnLoad::SentBesideLoad,
    ] {
        if pending().any(|request| beside(request) == Some(one)) {
            found.push(one);
        }
    }
    found
}

/// What one of steps 6 to 9 does with a load in flight.
fn on_its_way(store: &Store, load: &Request, step: Step) -> Option<OnLoad> {
    let Operation::Write { entry, outcome, .. } = load.operation else {
        return None;
    };
    let guard = Guard::of_entry(store, entry);
    match step {
        Step::Deliver { .. } if load.abandoned => Some(OnLoad::AbandonedArrivesAt(guard)),
        Step::Deliver { .. } => Some(OnLoad::ArrivesAt(guard)),
        Step::Respond { .. } => outcome.map(OnLoad::Answered),
        Step::Abandon { .. } => Some(outcome.map_or(OnLoad::Abandoned, OnLoad::AbandonedWith)),
        Step::Lose { .. } => Some(OnLoad::Lost),
        _ => None,
    }
}

/// Where the preview of a run ends, which takes 16 records at the most.
#[derive(Clone, Copy, Debug, PartialEq, Eq)]
pub enum PreviewEnd {
    /// At the session's end, after fewer than 16 records.
    Before16,
    /// At the session's end, after 16 records.
    At16,
    /// After 16 records of more, with a budget above 16.
    BudgetAbove16,
    /// After 16 records of more, with a budget of 16.
    BudgetOf16,
    /// With a budget below 16 that is spent.
    BudgetBelow16,
    /// With a list that is spent before the budget, and before 16 records.
    ListSpent,
    /// After 16 records, before a bad one: 9, and not its number.
    BeforeBadRecord,
    /// At a bad record among the first 16.
    AtBadRecord,
}

impl PreviewEnd {
    const ALL: [PreviewEnd; 8] = [
        PreviewEnd::Before16,
        PreviewEnd::At16,
        PreviewEnd::BudgetAbove16,
        PreviewEnd::BudgetOf16,
        PreviewEnd::BudgetBelow16,
        PreviewEnd::ListSpent,
        PreviewEnd::BeforeBadRecord,
        PreviewEnd::AtBadRecord,
    ];

    /// Where the preview of a run over this session ended that gave this report; nowhere, if it was refused.
    pub fn of(session: &[u8], budget: u32, report: Report) -> Vec<PreviewEnd> {
        let Report {
            why,
            records,
            place,
        } = report;
        let end = match why {
            AT_END if records < MOST_RECORDS => PreviewEnd::Before16,
            AT_END => PreviewEnd::At16,
            SPENT if records < budget.min(MOST_RECORDS) => PreviewEnd::ListSpent,
            SPENT => match budget.cmp(&MOST_RECORDS) {
                Ordering::Less => PreviewEnd::BudgetBelow16,
                Ordering::Equal => PreviewEnd::BudgetOf16,
                Ordering::Greater => PreviewEnd::BudgetAbove16,
            },
            _ if place == 0 => return Vec::new(),
            _ => PreviewEnd::AtBadRecord,
        };
        let mut ends = vec![end];
        let is_next_bad = || codec::decode(&session[place as usize..]).is_err();
        if why == SPENT && records == MOST_RECORDS && is_next_bad() {
            ends.push(PreviewEnd::BeforeBadRecord);
        }
        ends
    }
}

/// A situation.
#[derive(Clone, Copy, Debug, PartialEq, Eq)]
pub enum Situation {
    /// A reply 0 of the store used alone with this first number: "An outcome is 1 or 2 (set or layout
    /// changed; committed or turned back)".
    Outcome(Call, u32),
    /// A write to the store used alone that carries the first, at an entry that has the second.
    Carried(Guard, Guard),
    /// A guard interval that a call finds.
    Interval(Call, Shape),
    /// A step on loads, or beside one.
    Load(OnLoad),
    /// A step that sends a request or makes room for one.
    Shares(OnShares),
    /// A table in which this crowd has so many common places: 16, which keeps the rules, or 17.
    Crowded(Crowd, usize),
    /// An interleaving that ends in a read from memory.
    FirstRead(OnFirstRead),
    /// A step that answers a read, or one beside it.
    Counters(OnCounters),
    /// A share that finds this.
    Share(OnShare),
    /// A table in which the counter of this player breaks this rule alone.
    BrokenCounter(TableRule, usize),
    /// The preview of a run that ends so.
    Preview(PreviewEnd),
    /// A table that breaks this rule alone.
    Broken(TableRule),
    /// A table that breaks this rule alone, as barred stands where a serial may.
    BarredAs(TableRule),
}

/// The calls that have an outcome.
const OUTCOMES: [(Call, u32); 4] = [
    (Call::StoreWrite, 1),
    (Call::StoreWrite, 2),
    (Call::StoreSetGuard, 1),
    (Call::StoreSetGuard, 2),
];

/// The common places in use of tables that keep the shares, and of tables that break them.
pub const CROWDED: [usize; 2] = [COMMON_PLACES, COMMON_PLACES + 1];

/// The rules of a read counter, each of the first player's and of the last one's.
pub const BROKEN_COUNTERS: [(TableRule, usize); 4] = [
    (TableRule::CounterHits, 0),
    (TableRule::CounterHits, PLAYERS - 1),
    (TableRule::CounterLimit, 0),
    (TableRule::CounterLimit, PLAYERS - 1),
];

/// The calls that find a guard interval.
const FINDERS: [Call; 2] = [Call::Step(FIND_INTERVAL), Call::StoreFindInterval];

impl Situation {
    /// All.
    pub fn all() -> Vec<Situation> {
        let mut all = Vec::new();
        all.extend(OUTCOMES.map(|(call, outcome)| Situation::Outcome(call, outcome)));
        for carried in Guard::ALL {
            all.extend(Guard::ALL.map(|own| Situation::Carried(carried, own)));
        }
        for call in FINDERS {
            all.extend(Shape::ALL.map(|shape| Situation::Interval(call, shape)));
        }
        all.extend(OnLoad::ALL.map(Situation::Load));
        all.extend(OnShares::ALL.map(Situation::Shares));
        for common in CROWDED {
            all.extend(Crowd::ALL.map(|crowd| Situation::Crowded(crowd, common)));
        }
        all.extend(OnFirstRead::all().into_iter().map(Situation::FirstRead));
        all.extend(OnCounters::all().into_iter().map(Situation::Counters));
        all.extend(OnShare::ALL.map(Situation::Share));
        all.extend(BROKEN_COUNTERS.map(|(rule, at)| Situation::BrokenCounter(rule, at)));
        all.extend(PreviewEnd::ALL.map(Situation::Preview));
        all.extend(TableRule::ALL.map(Situation::Broken));
        all.extend(SERIAL_RULES.map(Situation::BarredAs));
        all
    }

    /// What a write to the store used alone carries, and what the entry has.
    pub fn carried(store: &Store, entry: u8, guard: u32) -> Situation {
        Situation::Carried(Guard::of(guard), Guard::of_entry(store, entry))
    }

    /// What the interval of this entry is like, for the call that finds it.
    pub fn intervals(call: Call, store: &Store, entry: u8) -> Vec<Situation> {
        let shapes = Shape::ALL.into_iter();
        let its = shapes.filter(|shape| shape.is_of(store, entry));
        its.map(|shape| Situation::Interval(call, shape)).collect()
    }

    /// The kind that a library must know for it to occur, 0 for none.
    pub fn needs(self) -> u8 {
        match self {
            Situation::Outcome(call, _) | Situation::Interval(call, _) => call.needs(),
            Situation::FirstRead(first) => first.needs(),
            Situation::Load(load) if load.is_sending() => LOAD,
            Situation::Shares(shares) if shares.is_of_loader() => LOAD,
            _ => 0,
        }
    }
}
