//! What stands in tables that keep their rules, by name: each call reads and alters nothing.

use crate::counters::{counts, share};
use crate::store::{find_interval, read};
use crate::{Counts, Interval, Player, Refusal, Share, TablesMut, Versioned};
use crate::{PLAYERS_WORDS, STORE_WORDS};

/// The first word of each column of the players' table, as docs/FORMATS.md lays it out.
const OWNERS: usize = 1;
const EPOCHS: usize = 257;
const HELD_GUARDS: usize = 513;

/// Entries of the store, and so words of a column.
const ENTRIES: usize = 256;

/// Both tables, lent for reading.
#[derive(Clone, Copy)]
pub(crate) struct Look<'a> {
    pub store: &'a [u32; STORE_WORDS],
    pub players: &'a [u32; PLAYERS_WORDS],
}

impl Look<'_> {
    pub fn owner(self, entry: u8) -> Option<Player> {
        let number = self.players[OWNERS + usize::from(entry)];
        u8::try_from(number).ok().and_then(Player::new)
    }

    pub fn epoch(self, entry: u8) -> u32 {
        self.players[EPOCHS + usize::from(entry)]
    }

    pub fn held_guard(self, player: Player, entry: u8) -> u32 {
        let row = ENTRIES * usize::from(player.number());
        self.players[HELD_GUARDS + row + usize::from(entry)]
    }

    pub fn counts(self, player: Player) -> Counts {
        counts(self.players, player)
    }

    pub fn share(self, player: Player) -> Result<Share, Refusal> {
        share(self.store, self.players, player)
    }

    pub fn begins_tablet(self, entry: u8) -> bool {
        self.store[usize::from(entry)] != 0
    }

    pub fn find_interval(self, entry: u8) -> Interval {
        find_interval(self.store, entry)
    }

    pub fn read_store(self, entry: u8) -> Versioned {
        read(self.store, entry)
    }
}

/// The calls that look at tables, for a type that can lend both for reading.
macro_rules! looks {
    ($type:ty) => {
        /// What stands in the tables. None of these calls alters anything.
        impl $type {
            /// Who owns the entry; none if nobody does.
            #[must_use]
            pub fn owner(&self, entry: u8) -> Option<Player> {
                self.look().owner(entry)
            }

            /// The serial of the last assignment or release over the entry, 0 if there was none.
            #[must_use]
            pub fn epoch(&self, entry: u8) -> u32 {
                self.look().epoch(entry)
            }

            /// The player's guard for the entry, live or not; 0 if it has none. A write that is tried first
            /// ([`preview`](Self::preview)) is refused with [`NoLiveGuard`](crate::Refusal::NoLiveGuard) where it is not live.
            #[must_use]
            pub fn held_guard(&self, player: Player, entry: u8) -> u32 {
                self.look().held_guard(player, entry)
            }

            /// The answered reads of the player, and how many of them came from its memory.
            #[must_use]
            pub fn counts(&self, player: Player) -> Counts {
                self.look().counts(player)
            }

            /// The share of the player's answered reads that came from its memory.
            ///
            /// # Errors
            ///
            /// 39 where the player has no answered read.
            pub fn share(&self, player: Player) -> Result<Share, Refusal> {
                self.look().share(player)
            }

            /// Whether a tablet begins at the entry.
            #[must_use]
            pub fn begins_tablet(&self, entry: u8) -> bool {
                self.look().begins_tablet(entry)
            }

            /// The store's guard of the entry, and the first and the last entry of its guard interval.
            #[must_use]
            pub fn find_interval(&self, entry: u8) -> Interval {
                self.look().find_interval(entry)
            }

            /// The entry's version and value in the store.
            #[must_use]
            pub fn read_store(&self, entry: u8) -> Versioned {
                self.look().read_store(entry)
            }
        }
    };
}

looks!(TablesMut<'_>);
#[cfg(feature = "alloc")]
looks!(crate::Tables);

#[cfg(test)]
mod tests {
    use super::*;
    use crate::{Range, Reply, Step, BARRED, OPEN_GUARD};

    /// Tables after some steps: player 3 owns 40 to 59 and has guard 2 over 40 to 49, where entry 45 has version 3 and value 7, which it has
    /// read from memory; a tablet begins at 128, and restarted.
    fn stepped(tables: &mut TablesMut<'_>) {
        let player = Player::new(3).unwrap();
        let range = |low, high| Range::new(low, high).unwrap();
        let (entry, value) = (45, 7);
        let issued = |serial| Reply::Issued { serial };
        let (write, committed) = (
            Step::Write {
                player,
                entry,
                value,
            },
            Reply::Committed { serial: 3, value },
        );
        let (read, version) = (Step::Read { player, entry }, 3);
        for (step, reply) in [
            (
                Step::Assign {
                    player,
                    range: range(40, 60),
                },
                issued(1),
            ),
            (
                Step::RequestGuard {
                    player,
                    range: range(40, 50),
                },
                issued(2),
            ),
            (Step::Deliver { serial: 2 }, Reply::Done),
            (Step::Respond { serial: 2 }, Reply::Granted { serial: 2 }),
            (write, issued(3)),
            (Step::Deliver { serial: 3 }, Reply::Done),
            (Step::Respond { serial: 3 }, committed),
            (read, Reply::CacheRead { version, value }),
            (
                Step::Release {
                    range: range(255, 256),
                },
                issued(4),
            ),
            (Step::Split { entry: 128 }, Reply::Done),
            (Step::RestartTablet { entry: 255 }, Reply::Done),
        ] {
            assert_eq!(tables.step(step), reply, "{step}");
        }
    }

    #[test]
    fn what_stands_in_the_tables_is_told_by_name() {
        let (mut store, mut players) = ([0; STORE_WORDS], [0; PLAYERS_WORDS]);
        let mut tables = TablesMut::fresh(&mut store, &mut players);
        let [two, three, four] = [2, 3, 4].map(|n| Player::new(n).unwrap());
        for entry in 0..=255 {
            assert_eq!((tables.owner(entry), tables.epoch(entry)), (None, 0));
            assert_eq!(tables.begins_tablet(entry), entry == 0);
            assert!(Player::all().all(|player| tables.held_guard(player, entry) == 0));
        }
        let counted = |tables: &TablesMut<'_>, player| {
            let counts = tables.counts(player);
            (counts.answered, counts.from_memory)
        };
        assert!(Player::all().all(|player| counted(&tables, player) == (0, 0)));
        stepped(&mut tables);
        for player in Player::all() {
            let reads = u32::from(player == three);
            assert_eq!(counted(&tables, player), (reads, reads));
        }
        let owned = |entry: u8| (40..60).contains(&entry);
        let guarded = |entry: u8| (40..50).contains(&entry);
        for entry in 0..=255 {
            assert_eq!(tables.owner(entry), owned(entry).then_some(three));
            let epoch = match entry {
                255 => 4,
                _ => u32::from(owned(entry)),
            };
            assert_eq!(tables.epoch(entry), epoch);
            let guard = if guarded(entry) { 2 } else { 0 };
            assert_eq!(tables.held_guard(three, entry), guard);
            assert_eq!(tables.held_guard(two, entry), 0);
            assert_eq!(tables.held_guard(four, entry), 0);
            assert_eq!(tables.begins_tablet(entry), entry == 0 || entry == 128);
            let found = tables.find_interval(entry);
            let expected = match entry {
                0..=39 => (OPEN_GUARD, 0, 39),
                40..=49 => (2, 40, 49),
                50..=127 => (OPEN_GUARD, 50, 127),
                128..=255 => (BARRED, 128, 255),
            };
            assert_eq!((found.guard, found.first, found.last), expected);
            let stored = tables.read_store(entry);
            let expected = if entry == 45 { (3, 7) } else { (0, 0) };
            assert_eq!((stored.version, stored.value), expected);
        }
    }

    #[cfg(feature = "alloc")]
    #[test]
    fn owned_tables_tell_the_same() {
        let (mut store, mut players) = ([0; STORE_WORDS], [0; PLAYERS_WORDS]);
        let mut lent = TablesMut::fresh(&mut store, &mut players);
        stepped(&mut lent);
        let mut owned = crate::Tables::fresh();
        stepped(&mut owned.lend());
        for player in Player::all() {
            assert_eq!(owned.counts(player), lent.counts(player));
            assert_eq!(owned.share(player), lent.share(player));
        }
        for entry in 0..=255 {
            assert_eq!(owned.owner(entry), lent.owner(entry));
            assert_eq!(owned.epoch(entry), lent.epoch(entry));
            assert_eq!(owned.begins_tablet(entry), lent.begins_tablet(entry));
            assert_eq!(owned.find_interval(entry), lent.find_interval(entry));
            assert_eq!(owned.read_store(entry), lent.read_store(entry));
            for player in Player::all() {
                let guards = (
                    owned.held_guard(player, entry),
                    lent.held_guard(player, entry),
                );
                assert_eq!(guards.0, guards.1);
            }
        }
    }
}
