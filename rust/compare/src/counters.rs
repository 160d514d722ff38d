//! Situations of the read counters and the share (document 02 §7): reads that are counted below the limit and at it, by
//! single steps and in runs, and what a share finds.

use calls::{Reply, Step};
use model::counters::ReadCounter;
use model::numbers::{MAX_COUNT, NOBODY, PLAYERS};
use model::reply::code;
use model::state::{Operation, State};
use model::table_rules::{TableError, TableRule};
use model::tables;

/// Where the answer to a read comes from.
#[derive(Clone, Copy, Debug, PartialEq, Eq)]
#[allow(missing_docs)]
pub enum Source {
    Memory,
    Store,
}

/// What takes a step.
#[derive(Clone, Copy, Debug, PartialEq, Eq)]
pub enum Way {
    /// A call for it alone.
    Step,
    /// A run.
    Run,
}

/// What a step has to do with the read counters.
#[derive(Clone, Copy, Debug, PartialEq, Eq)]
pub enum OnCounters {
    /// A read is counted, and the answered reads stay below the limit.
    Counted(Way, Source),
    /// A read carries the answered reads to the limit.
    ToLimit(Way, Source),
    /// A read finds the answered reads at the limit, and those from memory below: both stay.
    AtLimit(Way, Source),
    /// A read finds both at the limit.
    BothAtLimit(Way, Source),
    /// A read of the last player.
    LastPlayer(Way, Source),
    /// An answer from the store to a player, on an entry that another one owns.
    OfNoOwner(Way),
    /// The same on an entry that nobody owns.
    OfNobodys(Way),
    /// The preview of a step that answers a read, or of a run that has such a step.
    Previewed(Way),
    /// A player that has answered reads restarts.
    Restarted(Way),
}

impl OnCounters {
    /// All.
    pub fn all() -> Vec<OnCounters> {
        let mut all = Vec::new();
        for way in [Way::Step, Way::Run] {
            for source in [Source::Memory, Source::Store] {
                all.extend([
                    OnCounters::Counted(way, source),
                    OnCounters::ToLimit(way, source),
                    OnCounters::AtLimit(way, source),
                    OnCounters::BothAtLimit(way, source),
                    OnCounters::LastPlayer(way, source),
                ]);
            }
            all.extend([
                OnCounters::OfNoOwner(way),
                OnCounters::OfNobodys(way),
                OnCounters::Previewed(way),
                OnCounters::Restarted(way),
            ]);
        }
        all
    }
}

/// A step that may answer a read, or restarts a player: whose counter it is about, and what that is before.
#[derive(Clone, Copy, Debug)]
pub struct Watch {
    way: Way,
    player: u8,
    counter: ReadCounter,
    /// The owner of the entry that is read.
    owner: u8,
    is_restart: bool,
}

impl Watch {
    /// What a step on this state is about; none for another step.
    pub fn new(way: Way, state: &State, step: Step) -> Option<Watch> {
        let (player, entry) = match step {
            Step::Read { player, entry } => (player, Some(entry)),
            Step::RestartPlayer { player } => (player, None),
            Step::Respond { serial } => {
                let request = state.requests.iter().find(|r| r.serial == serial)?;
                match request.operation {
                    Operation::Read { entry, .. } => (request.player, Some(entry)),
                    _ => return None,
                }
            }
            _ => return None,
        };
        Some(Watch {
            way,
            player,
            counter: *state.counters.get(usize::from(player))?,
            owner: entry.map_or(NOBODY, |entry| state.owners[usize::from(entry)]),
            is_restart: entry.is_none(),
        })
    }

    /// What it has met with this reply.
    pub fn met(self, reply: Reply) -> Vec<OnCounters> {
        let Watch { way, counter, .. } = self;
        let ReadCounter { answered, hits } = counter;
        let source = match reply.code {
            code::FROM_MEMORY => Source::Memory,
            code::FROM_STORE => Source::Store,
            code::DONE if self.is_restart && answered > 0 => {
                return vec![OnCounters::Restarted(way)];
            }
            _ => return Vec::new(),
        };
        let count = match answered {
            MAX_COUNT if hits == MAX_COUNT => OnCounters::BothAtLimit(way, source),
            MAX_COUNT => OnCounters::AtLimit(way, source),
            _ if answered + 1 == MAX_COUNT => OnCounters::ToLimit(way, source),
            _ => OnCounters::Counted(way, source),
        };
        let mut found = vec![count];
        if way == Way::Step {
            found.push(OnCounters::Previewed(way));
        }
        if usize::from(self.player) + 1 == PLAYERS {
            found.push(OnCounters::LastPlayer(way, source));
        }
        match self.owner {
            _ if source == Source::Memory => {}
            NOBODY => found.push(OnCounters::OfNobodys(way)),
            owner if owner != self.player => found.push(OnCounters::OfNoOwner(way)),
            _ => {}
        }
        found
    }
}

/// What a share finds.
#[derive(Clone, Copy, Debug, PartialEq, Eq)]
pub enum OnShare {
    /// No read came from memory.
    NoHit,
    /// All reads came from memory.
    AllHits,
    /// Fewer than one in a thousand did, but some.
    BelowOne,
    /// A remainder beside a quotient.
    Remainder,
    /// No remainder, and neither none nor all came from memory.
    Exact,
    /// 1,000 times the reads from memory has more than 32 bits, and not all reads came from memory.
    LongProduct,
    /// Answered reads at the limit.
    AtLimit,
    /// Of player 0.
    OfFirst,
    /// Of player 7.
    OfLast,
    /// 39, where another player has answered reads.
    NoReadBesideOthers,
    /// 28, where no player has an answered read.
    NoPlayerNoRead,
    /// 22, as this player's counter breaks a rule.
    OwnBroken,
    /// 22, as another player's counter does.
    OtherBroken,
    /// 22, as a counter breaks a rule, for a player above 7.
    BrokenNoPlayer,
    /// 22, as another rule is broken.
    RuleBroken,
    /// 21, for a player above 7.
    LengthNoPlayer,
}

impl OnShare {
    /// All.
    pub const ALL: [OnShare; 16] = [
        OnShare::NoHit,
        OnShare::AllHits,
        OnShare::BelowOne,
        OnShare::Remainder,
        OnShare::Exact,
        OnShare::LongProduct,
        OnShare::AtLimit,
        OnShare::OfFirst,
        OnShare::OfLast,
        OnShare::NoReadBesideOthers,
        OnShare::NoPlayerNoRead,
        OnShare::OwnBroken,
        OnShare::OtherBroken,
        OnShare::BrokenNoPlayer,
        OnShare::RuleBroken,
        OnShare::LengthNoPlayer,
    ];

    /// What a share of this player finds in these tables.
    pub fn of(store: &[u32], players: &[u32], player: u8) -> Vec<OnShare> {
        let at = usize::from(player);
        let counters = match tables::decode(store, players) {
            Ok(state) => state.counters,
            Err(error) => return broken(error, players, at).into_iter().collect(),
        };
        let has_reads = |counter: &ReadCounter| counter.answered > 0;
        let Some(&ReadCounter { answered, hits }) = counters.get(at) else {
            let none = !counters.iter().any(has_reads);
            return none
                .then_some(OnShare::NoPlayerNoRead)
                .into_iter()
                .collect();
        };
        if answered == 0 {
            let others = counters.iter().any(has_reads);
            return others
                .then_some(OnShare::NoReadBesideOthers)
                .into_iter()
                .collect();
        }
        let product = 1_000 * u64::from(hits);
        let is_whole = product.is_multiple_of(u64::from(answered));
        let is_some = 0 < hits && hits < answered;
        let is_below_one = product < u64::from(answered);
        let met = [
            (hits == 0, OnShare::NoHit),
            (hits == answered, OnShare::AllHits),
            (is_some && is_below_one, OnShare::BelowOne),
            (!is_whole && !is_below_one, OnShare::Remainder),
            (is_some && is_whole, OnShare::Exact),
            (
                is_some && product > u64::from(u32::MAX),
                OnShare::LongProduct,
            ),
            (answered == MAX_COUNT, OnShare::AtLimit),
            (at == 0, OnShare::OfFirst),
            (at + 1 == PLAYERS, OnShare::OfLast),
        ];
        let its = met.into_iter().filter(|(holds, _)| *holds);
        its.map(|(_, situation)| situation).collect()
    }
}

/// What a share of this player finds in tables that are refused.
fn broken(error: TableError, players: &[u32], at: usize) -> Option<OnShare> {
    let is_player = at < PLAYERS;
    match error {
        TableError::Length if is_player => None,
        TableError::Length => Some(OnShare::LengthNoPlayer),
        TableError::Rule(TableRule::CounterHits | TableRule::CounterLimit) if is_player => {
            let ReadCounter { answered, hits } = tables::counters(players)[at];
            Some(match hits <= answered && answered <= MAX_COUNT {
                true => OnShare::OtherBroken,
                false => OnShare::OwnBroken,
            })
        }
        TableError::Rule(TableRule::CounterHits | TableRule::CounterLimit) => {
            Some(OnShare::BrokenNoPlayer)
        }
        TableError::Rule(_) => Some(OnShare::RuleBroken),
    }
}
