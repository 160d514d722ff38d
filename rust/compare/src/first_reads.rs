//! Situations of the first read from memory (document 02 §6): what others do meanwhile, and where it begins
//! and ends.

use calls::KINDS;
use model::first_read::{Played, Turn, GAPS};
use model::numbers::{COMMON_PLACES, MAX_SERIAL};
use model::shares::{common_in_use, counts};
use model::state::State;

/// What an interleaving that meets the premises has. In each the player's next read comes from memory.
#[derive(Clone, Copy, Debug, PartialEq, Eq)]
pub enum OnFirstRead {
    /// No step of others.
    Alone,
    /// A step of others that is accepted, in this gap.
    Others(usize),
    /// A step of others that is refused, in this gap, and that they might not take if it were accepted.
    Refused(usize),
    /// A step of others of this kind that is accepted.
    Kind(u8),
    /// The common places in use at the asking.
    Crowded,
    /// Two serials left at the asking: the player takes both.
    LastSerials,
}

impl OnFirstRead {
    /// All.
    pub fn all() -> Vec<OnFirstRead> {
        let mut all = vec![OnFirstRead::Alone];
        all.extend((0..GAPS).map(OnFirstRead::Others));
        all.extend((0..GAPS).map(OnFirstRead::Refused));
        all.extend((1..=KINDS).map(OnFirstRead::Kind));
        all.extend([OnFirstRead::Crowded, OnFirstRead::LastSerials]);
        all
    }

    /// What an interleaving has that begins with this state; nothing, if the next read does not come from memory.
    pub fn of(start: &State, played: &Played) -> Vec<OnFirstRead> {
        if !played.is_kept() {
            return Vec::new();
        }
        let mut found = Vec::new();
        for (turn, event) in &played.history {
            if let (Turn::Others(gap), false) = (turn, event.reply.is_refusal()) {
                found.push(OnFirstRead::Others(*gap));
                found.push(OnFirstRead::Kind(event.step.kind()));
            }
        }
        let refused = played.refused.iter();
        found.extend(refused.map(|&(gap, _)| OnFirstRead::Refused(gap)));
        let met = [
            (found.is_empty(), OnFirstRead::Alone),
            (
                common_in_use(&counts(&start.requests)) == COMMON_PLACES,
                OnFirstRead::Crowded,
            ),
            (
                start.last_serial == MAX_SERIAL - 2,
                OnFirstRead::LastSerials,
            ),
        ];
        let its = met.into_iter().filter(|(holds, _)| *holds);
        found.extend(its.map(|(_, situation)| situation));
        found
    }

    /// The kind that a library must know for it to occur, 0 for none.
    pub fn needs(self) -> u8 {
        match self {
            OnFirstRead::Kind(kind) => kind,
            _ => 0,
        }
    }
}
