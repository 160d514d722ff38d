//! Read counters and shares that are wrong in one point each, over those of the port. A share that alters a table is not
//! among them: it is lent both for reading only, and no safe code can. That the proved library's does not is compared.

use calls::{Fields, Library, Reply, Report};
use model::numbers::{MAX_COUNT, PLAYERS};
use model::tables::{self, COUNTERS, OWNERS, PLAYERS_WORDS};
use port::Port;

use crate::wrong::requests;

/// What is wrong with what is counted, with the test of the counters, or with the share.
#[derive(Clone, Copy, Debug, PartialEq, Eq)]
pub enum CounterPoint {
    /// A reply 3 is counted for the player that the step names: 0, as step 7 names none.
    CountsForStep,
    /// A reply 3 is counted for the entry's owner, if it has one.
    CountsForOwner,
    /// A reply 3 is not counted.
    StoreReadUncounted,
    /// A reply 2 is not counted.
    MemoryReadUncounted,
    /// A reply 2 is counted as one from the store.
    MemoryReadAsMiss,
    /// At the limit reads from memory are counted on.
    HitsGoOn,
    /// At the limit answered reads are counted on.
    AnsweredGoesOn,
    /// A read that finds no place or serial is counted.
    RefusedReadCounted,
    /// A player's restart makes its counts zero.
    RestartZeroes,
    /// Fresh leaves the counters.
    FreshKeepsCounters,
    /// A run leaves the counters.
    RunLeavesCounters,
    /// A run makes the counts zero first.
    RunBeginsAtZero,
    /// A run that is refused for its session makes the counts zero.
    RefusedRunZeroes,
    /// `check` passes over the last counter.
    CheckMissesLastCounter,
    /// A step does not test the counters.
    StepMissesCounters,
    /// A run does not test the counters.
    RunMissesCounters,
    /// The share's remainder is that of reads from memory by answered reads.
    ShareRemainderOfHits,
    /// The share has no remainder.
    ShareNoRemainder,
    /// The share is in hundredths.
    ShareInHundredths,
    /// The share's product is cut to 32 bits.
    ShareWraps,
    /// The share is that of player 0.
    ShareOfFirst,
    /// The share passes over the other players' counters in its test of the tables.
    ShareAskedAlone,
    /// The share tests no rule but that of the counters.
    ShareCountersAlone,
    /// The share of no reads is 0.
    ShareNoReadZero,
    /// 39 before 28.
    ShareNoReadFirst,
    /// 28 before 21 and 22.
    SharePlayerFirst,
    /// A player above 7 is taken to be the one eight below it.
    SharePlayerCut,
    /// A refusal has other numbers than zeros.
    ShareRefusalNumbers,
    /// A table of the wrong length is 22.
    ShareLengthAsRule,
}

/// The two words of a player's counter.
fn words(player: usize) -> std::ops::Range<usize> {
    COUNTERS + 2 * player..COUNTERS + 2 * player + 2
}

/// The players' table with the counters of some players at zero, where it has its length.
fn without_counters(players: &[u32], is_left_out: impl Fn(usize) -> bool) -> Vec<u32> {
    let mut players = players.to_vec();
    if players.len() == PLAYERS_WORDS {
        for player in (0..PLAYERS).filter(|&player| is_left_out(player)) {
            players[words(player)].fill(0);
        }
    }
    players
}

/// The player whose read a step has answered, and the entry.
fn reader(before: &[u32], step: Fields, reply: Reply) -> Option<(usize, usize)> {
    match reply.code {
        2 => Some((usize::from(step.player), usize::from(step.entry))),
        3 => {
            let request = requests(before).find(|request| request[0] == step.serial)?;
            Some((request[1] as usize, request[3] as usize))
        }
        _ => None,
    }
}

/// One more answered read, if none is above the limit.
fn count(players: &mut [u32], player: usize, hits: u32) {
    let counter = &mut players[words(player)];
    if counter[0] < MAX_COUNT {
        counter[0] += 1;
        counter[1] += hits;
    }
}

impl CounterPoint {
    /// Every point.
    pub const ALL: [CounterPoint; 29] = [
        CounterPoint::CountsForStep,
        CounterPoint::CountsForOwner,
        CounterPoint::StoreReadUncounted,
        CounterPoint::MemoryReadUncounted,
        CounterPoint::MemoryReadAsMiss,
        CounterPoint::HitsGoOn,
        CounterPoint::AnsweredGoesOn,
        CounterPoint::RefusedReadCounted,
        CounterPoint::RestartZeroes,
        CounterPoint::FreshKeepsCounters,
        CounterPoint::RunLeavesCounters,
        CounterPoint::RunBeginsAtZero,
        CounterPoint::RefusedRunZeroes,
        CounterPoint::CheckMissesLastCounter,
        CounterPoint::StepMissesCounters,
        CounterPoint::RunMissesCounters,
        CounterPoint::ShareRemainderOfHits,
        CounterPoint::ShareNoRemainder,
        CounterPoint::ShareInHundredths,
        CounterPoint::ShareWraps,
        CounterPoint::ShareOfFirst,
        CounterPoint::ShareAskedAlone,
        CounterPoint::ShareCountersAlone,
        CounterPoint::ShareNoReadZero,
        CounterPoint::ShareNoReadFirst,
        CounterPoint::SharePlayerFirst,
        CounterPoint::SharePlayerCut,
        CounterPoint::ShareRefusalNumbers,
        CounterPoint::ShareLengthAsRule,
    ];

    /// Fresh tables.
    pub fn fresh(self, store: &mut [u32], players: &mut [u32]) -> Reply {
        let before = players.to_vec();
        let reply = Port.fresh(store, players);
        if self == CounterPoint::FreshKeepsCounters && reply.code == 0 {
            players[COUNTERS..].copy_from_slice(&before[COUNTERS..]);
        }
        reply
    }

    /// The test of the tables.
    pub fn check(self, store: &[u32], players: &[u32]) -> Reply {
        match self {
            CounterPoint::CheckMissesLastCounter => {
                Port.check(store, &without_counters(players, |at| at + 1 == PLAYERS))
            }
            _ => Port.check(store, players),
        }
    }

    /// A step.
    pub fn step(self, store: &mut [u32], players: &mut [u32], step: Fields) -> Reply {
        let before = players.to_vec();
        if self == CounterPoint::StepMissesCounters && Port.check(store, players).code == 22 {
            let mut left = without_counters(players, |_| true);
            let reply = Port.step(store, &mut left, step);
            players[..COUNTERS].copy_from_slice(&left[..COUNTERS]);
            return reply;
        }
        let reply = Port.step(store, players, step);
        let read = reader(&before, step, reply);
        if let Some((player, entry)) = read {
            self.count(&before, players, step, (player, entry, reply.code));
        }
        match self {
            CounterPoint::RefusedReadCounted if step.kind == 4 && matches!(reply.code, 34 | 38) => {
                count(players, usize::from(step.player), 0);
            }
            CounterPoint::RestartZeroes if step.kind == 13 && reply.code == 0 => {
                players[words(usize::from(step.player))].fill(0);
            }
            _ => {}
        }
        reply
    }

    /// What is counted of a read by a player of an entry that a step has answered with this code.
    fn count(
        self,
        before: &[u32],
        players: &mut [u32],
        step: Fields,
        (player, entry, code): (usize, usize, u32),
    ) {
        let own = words(player);
        let is_full = before[own.start] == MAX_COUNT;
        match (self, code) {
            (CounterPoint::CountsForStep | CounterPoint::CountsForOwner, 3) => {
                players[own.clone()].copy_from_slice(&before[own]);
                let to = match self {
                    CounterPoint::CountsForStep => usize::from(step.player),
                    _ => before[OWNERS + entry] as usize,
                };
                if to < PLAYERS {
                    count(players, to, 0);
                }
            }
            (CounterPoint::StoreReadUncounted, 3) | (CounterPoint::MemoryReadUncounted, 2) => {
                players[own.clone()].copy_from_slice(&before[own]);
            }
            (CounterPoint::MemoryReadAsMiss, 2) => players[own.start + 1] = before[own.start + 1],
            (CounterPoint::HitsGoOn, 2) if is_full => players[own.start + 1] += 1,
            (CounterPoint::AnsweredGoesOn, _) if is_full => players[own.start] += 1,
            _ => {}
        }
    }

    /// A run.
    pub fn run(
        self,
        store: &mut [u32],
        players: &mut [u32],
        session: &[u8],
        budget: u32,
        replies: &mut [u32],
    ) -> Report {
        let before = players.to_vec();
        let tested = Port.check(store, players).code;
        let is_set_aside = match self {
            CounterPoint::RunBeginsAtZero => tested == 0,
            CounterPoint::RunMissesCounters => tested == 22,
            _ => false,
        };
        let mut left = without_counters(players, |_| is_set_aside);
        let report = Port.run(store, &mut left, session, budget, replies);
        let is_refused = report.place == 0;
        let keeps_counters = match self {
            CounterPoint::RunLeavesCounters => !is_refused,
            CounterPoint::RunMissesCounters => is_set_aside && !is_refused,
            _ => false,
        };
        if self == CounterPoint::RefusedRunZeroes && matches!(report.why, 23 | 37) {
            left = without_counters(&left, |_| true);
        }
        if keeps_counters {
            left[COUNTERS..].copy_from_slice(&before[COUNTERS..]);
        }
        if !(is_set_aside && is_refused) {
            players.copy_from_slice(&left);
        }
        report
    }

    /// The share.
    pub fn share(self, store: &[u32], players: &[u32], player: u8) -> Reply {
        let right = Port.share(store, players, player);
        let at = usize::from(player);
        match self {
            CounterPoint::SharePlayerFirst if at >= PLAYERS => Reply::refused(28),
            CounterPoint::ShareNoReadFirst if right.code == 28 => Reply::refused(39),
            CounterPoint::SharePlayerCut => Port.share(store, players, player % PLAYERS as u8),
            CounterPoint::ShareOfFirst if right.code != 28 => Port.share(store, players, 0),
            CounterPoint::ShareNoReadZero if right.code == 39 => Reply::DONE,
            CounterPoint::ShareRefusalNumbers if right.code == 39 => Reply::new(39, 0, 1_000),
            CounterPoint::ShareLengthAsRule if right.code == 21 => Reply::refused(22),
            CounterPoint::ShareAskedAlone => Port.share(
                store,
                &without_counters(players, |other| other != at),
                player,
            ),
            CounterPoint::ShareCountersAlone if right.code == 22 => {
                let (store, mut fresh) = tables::fresh_tables();
                fresh[COUNTERS..].copy_from_slice(&players[COUNTERS..]);
                Port.share(&store, &fresh, player)
            }
            _ if right.code == 0 => {
                self.share_of(players[words(at).start], players[words(at).start + 1])
            }
            _ => right,
        }
    }

    /// The share of these counts, the first not zero.
    fn share_of(self, answered: u32, hits: u32) -> Reply {
        let product = match self {
            CounterPoint::ShareInHundredths => 100 * u64::from(hits),
            CounterPoint::ShareWraps => u64::from(hits.wrapping_mul(1_000)),
            _ => 1_000 * u64::from(hits),
        };
        let remainder = match self {
            CounterPoint::ShareRemainderOfHits => hits % answered,
            CounterPoint::ShareNoRemainder => 0,
            _ => (product % u64::from(answered)) as u32,
        };
        Reply::new(0, (product / u64::from(answered)) as u32, remainder)
    }
}
