//! Who owns each entry, and under which live guard.

use famdrize::{Player, Refusal, Reply, Step, Tables};

use crate::story::Hold;

/// Who owns each entry, and whether the owner's guard is live.
pub struct Holders {
    /// For each entry the owner with its guard, and the epoch.
    keys: Vec<(Option<(Player, u32)>, u32)>,
    live: Vec<bool>,
}

impl Default for Holders {
    fn default() -> Holders {
        Holders {
            keys: vec![(None, 0); 256],
            live: vec![false; 256],
        }
    }
}

impl Holders {
    /// Takes the tables' owners, epochs and guards; whether any is another than before. Of entries for which one of them is, it is asked
    /// whether the owner's guard is live; of neighbours that have the same, once.
    pub fn look(&mut self, tables: &Tables) -> bool {
        let mut changed = false;
        let mut asked = None;
        for entry in 0..=255 {
            let owner = tables.owner(entry);
            let held = owner.map(|player| (player, tables.held_guard(player, entry)));
            let key = (held, tables.epoch(entry));
            let at = usize::from(entry);
            if self.keys[at] == key {
                asked = None;
                continue;
            }
            self.live[at] = match asked {
                Some((same, live)) if same == key => live,
                _ => owner.is_some_and(|player| is_live(tables, player, entry)),
            };
            asked = Some((key, self.live[at]));
            self.keys[at] = key;
            changed = true;
        }
        changed
    }

    pub fn hold(&self, player: Player, entry: u8) -> Hold {
        let at = usize::from(entry);
        match self.keys[at] {
            (Some((owner, guard)), _) if owner == player => match self.live[at] {
                true => Hold::Guarded(guard),
                false => Hold::Owned,
            },
            _ => Hold::Nothing,
        }
    }
}

/// Whether the player has a live guard for the entry: a write, tried and not taken, is refused without one.
fn is_live(tables: &Tables, player: Player, entry: u8) -> bool {
    let value = 0;
    let write = Step::Write {
        player,
        entry,
        value,
    };
    !matches!(
        tables.preview(write),
        Reply::Refused(Refusal::NotOwner | Refusal::NoLiveGuard)
    )
}
