//! What document 02 §7 says of a run begun with zero counts, told by its replies alone.

use std::collections::HashMap;

use calls::Step;

use crate::claim::Event;
use crate::counters::ReadCounter;
use crate::numbers::PLAYERS;
use crate::reply::code;
use crate::state::{Operation, Request, State};

/// What the read counters are after a run begun with zero counts: "answered reads equals its replies 2 and 3 to that
/// player, and reads from memory its replies 2."
///
/// A reply 2 is to the player that the step names. Step 7 names none: a reply 3 is to the player that sent the
/// read under this serial, in this run, where it got reply 1 with the serial, or before it, where the read is a
/// request of the tables at its start.
pub fn counters_after(start: &State, history: &[Event]) -> [ReadCounter; PLAYERS] {
    let is_read = |r: &&Request| matches!(r.operation, Operation::Read { .. });
    let earlier = start.requests.iter().filter(is_read);
    let mut readers: HashMap<u32, u8> = earlier.map(|r| (r.serial, r.player)).collect();
    let mut counters = [ReadCounter::ZERO; PLAYERS];
    for &Event { step, reply } in history {
        match (step, reply.code) {
            (Step::Read { player, .. }, code::ISSUED) => {
                readers.insert(reply.a, player);
            }
            (Step::Read { player, .. }, code::FROM_MEMORY) => {
                counters[usize::from(player)].answered += 1;
                counters[usize::from(player)].hits += 1;
            }
            (Step::Respond { serial }, code::FROM_STORE) => {
                counters[usize::from(readers[&serial])].answered += 1;
            }
            _ => {}
        }
    }
    counters
}
