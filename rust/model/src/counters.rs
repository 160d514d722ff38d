//! Document 02 §7, "Share of reads from memory": how many reads of each player were answered, how many of them from
//! memory (the document's tally), and the share of these. No step's reply depends on them.

use calls::Reply;

use crate::faults::{Fault, NoFault, Switches};
use crate::numbers::{MAX_COUNT, NOBODY, PLAYERS};
use crate::reply::{code, Refusal};
use crate::state::State;
use crate::table_rules::{require, TableRule};
use crate::tables::{self, COUNTERS, COUNTER_WORDS, PLAYERS_WORDS};

/// "per player, answered reads and those answered from memory"
#[derive(Clone, Copy, Debug, PartialEq, Eq)]
pub struct ReadCounter {
    /// Answered reads: those with reply 2 and those with reply 3.
    pub answered: u32,
    /// Those of them answered from memory, with reply 2.
    pub hits: u32,
}

impl ReadCounter {
    /// "begun with zero counts"
    pub const ZERO: ReadCounter = ReadCounter {
        answered: 0,
        hits: 0,
    };

    /// "A tally with more reads from memory than answered reads, or a count above that limit, is 22." The rule that
    /// this player's counter breaks, if any.
    pub(crate) fn test(self, player: usize, faults: &impl Switches) -> Result<(), TableRule> {
        if player + 1 == PLAYERS && faults.has(Fault::LastCounterUntested) {
            return Ok(());
        }
        let ReadCounter { answered, hits } = self;
        let is_refused = hits == answered && hits != 0 && faults.has(Fault::EqualCountsRefused);
        let holds = hits <= answered || faults.has(Fault::HitsUntested);
        require(holds && !is_refused, TableRule::CounterHits)?;
        let most = match faults.has(Fault::FullCounterRefused) {
            true => MAX_COUNT - 1,
            false => limit(faults),
        };
        let holds = answered <= most && hits <= most || faults.has(Fault::CountLimitUntested);
        require(holds, TableRule::CounterLimit)
    }

    /// One more answered read, from memory or not. "A read that would carry a count above 4,000,000,000 leaves both
    /// counts as they were."
    fn count(&mut self, is_hit: bool, faults: &impl Switches) {
        let next = ReadCounter {
            answered: self.answered + 1,
            hits: self.hits + u32::from(is_hit),
        };
        let most = match faults.has(Fault::CountStopsEarly) {
            true => MAX_COUNT - 1,
            false => limit(faults),
        };
        let fits = next.answered <= most && next.hits <= most;
        if fits || faults.has(Fault::CountUnlimited) {
            *self = next;
        } else if faults.has(Fault::HitsGoOn) {
            self.hits = next.hits;
        } else if faults.has(Fault::AnsweredGoesOn) {
            self.answered = next.answered;
        }
    }

    /// "The share in thousandths is code 0 with the quotient and remainder of 1,000 × reads from memory by answered
    /// reads." "39 when the player has no answered read".
    fn share(self, faults: &impl Switches) -> Result<Reply, Refusal> {
        let ReadCounter { answered, hits } = self;
        if answered == 0 && faults.has(Fault::NoReadShareZero) {
            return Ok(Reply::new(code::DONE, 0, 0));
        }
        if answered == 0 || hits == 0 && faults.has(Fault::NoHitRefused) {
            return Err(Refusal::NoAnsweredRead);
        }
        let product = 1_000 * u64::from(hits);
        let product = mistaken_product(self, faults).unwrap_or(product);
        let (mut quotient, mut remainder) =
            (product / u64::from(answered), product % u64::from(answered));
        if faults.has(Fault::ShareRounded) {
            quotient += u64::from(2 * remainder >= u64::from(answered));
        }
        if faults.has(Fault::ShareRemainderOfHits) {
            remainder = u64::from(hits % answered);
        }
        Ok(Reply::new(code::DONE, quotient as u32, remainder as u32))
    }
}

/// The highest that a count may be.
fn limit(faults: &impl Switches) -> u32 {
    match faults.has(Fault::CountStopsLate) {
        true => MAX_COUNT + 1,
        false => MAX_COUNT,
    }
}

/// What faults divide in place of 1,000 × reads from memory.
fn mistaken_product(counter: ReadCounter, faults: &impl Switches) -> Option<u64> {
    let ReadCounter { answered, hits } = counter;
    if faults.has(Fault::ShareInHundredths) {
        Some(100 * u64::from(hits))
    } else if faults.has(Fault::ShareOfStoreReads) {
        Some(1_000 * u64::from(answered - hits))
    } else if faults.has(Fault::ShareWraps) {
        Some(u64::from(hits.wrapping_mul(1_000)))
    } else if faults.has(Fault::ShareSaturates) {
        Some(u64::from(hits.saturating_mul(1_000)))
    } else {
        None
    }
}

/// A read of this player is answered from memory: step 4 with reply 2.
pub(crate) fn from_memory(state: &mut State, player: u8, faults: &impl Switches) {
    let counter = &mut state.counters[usize::from(player)];
    if faults.has(Fault::MemoryReadUnanswered) {
        counter.hits += u32::from(counter.hits < MAX_COUNT);
    } else if !faults.has(Fault::MemoryReadUncounted) {
        counter.count(!faults.has(Fault::MemoryReadAsMiss), faults);
    }
}

/// A read of this player on an entry is answered from the store: step 7 with reply 3. Step 7 names no player; the
/// reply is to the one that sent the read.
pub(crate) fn from_store(state: &mut State, player: u8, entry: u8, faults: &impl Switches) {
    let to = if faults.has(Fault::StoreReadOfOwner) {
        state.owners[usize::from(entry)]
    } else if faults.has(Fault::StoreReadOfPlayer0) {
        0
    } else {
        player
    };
    if to != NOBODY && !faults.has(Fault::StoreReadUncounted) {
        let counter = &mut state.counters[usize::from(to)];
        counter.count(faults.has(Fault::StoreReadAsHit), faults);
    }
}

/// For a fault that counts an answered read of a player where there is none.
pub(crate) fn mistaken(state: &mut State, player: u8, fault: Fault, faults: &impl Switches) {
    if faults.has(fault) {
        state.counters[usize::from(player)].count(false, faults);
    }
}

/// The share of a player's reads from memory: 21, 22 for either table, "39 ... after 28".
pub fn share(store: &[u32], players: &[u32], player: u8) -> Reply {
    share_with(store, players, player, &NoFault)
}

/// The same with a fault.
pub fn share_with(store: &[u32], players: &[u32], player: u8, faults: &impl Switches) -> Reply {
    let at = usize::from(player);
    if at >= PLAYERS && faults.has(Fault::PlayerBeforeTables) {
        return Reply::from(Refusal::Number);
    }
    let decoded = match faults.has(Fault::AskedCounterAlone) {
        true => tables::decode_with(store, &with_counter_alone(players, at), faults),
        false => tables::decode_with(store, players, faults),
    };
    let state = match decoded {
        Ok(state) => state,
        Err(error) => return Reply::from(error.refusal()),
    };
    match state.counters.get(at) {
        Some(counter) => counter.share(faults).unwrap_or_else(Reply::from),
        // A player that there is not has no answered read either.
        None if faults.has(Fault::NoReadBeforePlayer) => Reply::from(Refusal::NoAnsweredRead),
        None => Reply::from(Refusal::Number),
    }
}

/// For [`Fault::AskedCounterAlone`]: the players' table with the other players' counters at zero.
fn with_counter_alone(players: &[u32], player: usize) -> Vec<u32> {
    let mut players = players.to_vec();
    if players.len() == PLAYERS_WORDS {
        let counters = players[COUNTERS..].chunks_mut(COUNTER_WORDS).enumerate();
        for (_, words) in counters.filter(|(other, _)| *other != player) {
            words.fill(0);
        }
    }
    players
}
