//! Steps, by name, by their fields and in words.

use core::fmt;

use crate::{Player, Range, Refusal};

/// A step: its kind, with that kind's fields and nothing else.
#[derive(Clone, Copy, Debug, PartialEq, Eq, Hash)]
#[non_exhaustive]
pub enum Step {
    /// 1: the player becomes owner of the range.
    Assign {
        /// The new owner.
        player: Player,
        /// The entries.
        range: Range,
    },
    /// 2: nobody owns the range.
    Release {
        /// The entries.
        range: Range,
    },
    /// 3: the player asks for a guard over a range that it owns.
    RequestGuard {
        /// Who asks.
        player: Player,
        /// The entries.
        range: Range,
    },
    /// 4: a read, from the player's memory or by a request to the store.
    Read {
        /// Who reads.
        player: Player,
        /// The entry.
        entry: u8,
    },
    /// 5: a write under the player's live guard.
    Write {
        /// Who writes.
        player: Player,
        /// The entry.
        entry: u8,
        /// The value.
        value: u32,
    },
    /// 6: the request arrives at the store.
    Deliver {
        /// The request.
        serial: u32,
    },
    /// 7: the answer reaches the player, or the loader.
    Respond {
        /// The request.
        serial: u32,
    },
    /// 8: the player, or the loader, gives the request up.
    Abandon {
        /// The request.
        serial: u32,
    },
    /// 9: a given-up request is lost on the way.
    Lose {
        /// The request.
        serial: u32,
    },
    /// 10: a tablet begins at the entry.
    Split {
        /// The entry, not 0.
        entry: u8,
    },
    /// 11: no tablet begins at the entry any more.
    Merge {
        /// The entry, not 0.
        entry: u8,
    },
    /// 12: the entries of the tablet that holds the entry are [barred](crate::BARRED).
    RestartTablet {
        /// The entry.
        entry: u8,
    },
    /// 13: the player forgets its guards and cached values, and gives its requests up.
    RestartPlayer {
        /// The player.
        player: Player,
    },
    /// 14: how far the store's guard of the entry reaches. It alters nothing.
    FindInterval {
        /// The entry.
        entry: u8,
    },
    /// 15: a write of the loader, which needs neither ownership nor a guard, and commits where the entry is [open](crate::OPEN_GUARD) when
    /// it arrives. It is a request of [`LOADER`](crate::LOADER), and nobody remembers its answer.
    Load {
        /// The entry.
        entry: u8,
        /// The value.
        value: u32,
    },
}

impl fmt::Display for Step {
    fn fmt(&self, f: &mut fmt::Formatter<'_>) -> fmt::Result {
        match *self {
            Step::Assign { player, range } => write!(f, "{player} is assigned {range}"),
            Step::Release { range } => {
                let verb = if range.low() == range.last() {
                    "is"
                } else {
                    "are"
                };
                write!(f, "{range} {verb} released")
            }
            Step::RequestGuard { player, range } => {
                write!(f, "{player} asks for a guard over {range}")
            }
            Step::Read { player, entry } => write!(f, "{player} reads entry {entry}"),
            Step::Write {
                player,
                entry,
                value,
            } => write!(f, "{player} writes {value} to entry {entry}"),
            Step::Deliver { serial } => write!(f, "request {serial} arrives at the store"),
            Step::Respond { serial } => write!(f, "request {serial} is answered"),
            Step::Abandon { serial } => write!(f, "request {serial} is given up"),
            Step::Lose { serial } => write!(f, "request {serial} is lost"),
            Step::Split { entry } => write!(f, "a tablet is split at entry {entry}"),
            Step::Merge { entry } => write!(f, "two tablets are merged at entry {entry}"),
            Step::RestartTablet { entry } => {
                write!(f, "the tablet that holds entry {entry} restarts")
            }
            Step::RestartPlayer { player } => write!(f, "{player} restarts"),
            Step::FindInterval { entry } => {
                write!(f, "it is asked how far the guard of entry {entry} reaches")
            }
            Step::Load { entry, value } => write!(f, "the loader loads {value} into entry {entry}"),
        }
    }
}

/// The fields of a step at the widths of a record: those that the kind lacks are 0. Unlike a [`Step`], they may be ones that are refused.
#[derive(Clone, Copy, Debug, Default, PartialEq, Eq, Hash)]
pub struct Fields {
    /// The kind.
    pub kind: u8,
    /// The player.
    pub player: u8,
    /// The entry, or a range's low.
    pub entry: u8,
    /// A range's high.
    pub high: u16,
    /// The value written.
    pub value: u32,
    /// The request's serial.
    pub serial: u32,
}

impl Fields {
    /// The same with 0 for each field but those of a record's map.
    fn kept(self, map: u8) -> Fields {
        let has = |bit: u8| map >> bit & 1 == 1;
        Fields {
            kind: self.kind,
            player: if has(1) { self.player } else { 0 },
            entry: if has(2) { self.entry } else { 0 },
            high: if has(3) { self.high } else { 0 },
            value: if has(4) { self.value } else { 0 },
            serial: if has(5) { self.serial } else { 0 },
        }
    }

    /// Its player, none above 7.
    fn its_player(self) -> Option<Player> {
        Player::new(self.player)
    }

    /// Its range, none where it is empty or goes past 256.
    fn its_range(self) -> Option<Range> {
        Range::new(self.entry, self.high)
    }
}

/// The six numbers: these may be no step's, so none is left out.
impl fmt::Display for Fields {
    fn fmt(&self, f: &mut fmt::Formatter<'_>) -> fmt::Result {
        let Fields {
            kind,
            player,
            entry,
            high,
            value,
            serial,
        } = self;
        write!(
            f,
            "kind {kind}, player {player}, entry {entry}, high {high}, value {value}, serial {serial}"
        )
    }
}

impl From<Step> for Fields {
    fn from(step: Step) -> Fields {
        let of = |kind: u8| Fields {
            kind,
            ..Fields::default()
        };
        let ranged = |kind: u8, range: Range| Fields {
            entry: range.low(),
            high: range.high(),
            ..of(kind)
        };
        match step {
            Step::Assign { player, range } => Fields {
                player: player.number(),
                ..ranged(1, range)
            },
            Step::Release { range } => ranged(2, range),
            Step::RequestGuard { player, range } => Fields {
                player: player.number(),
                ..ranged(3, range)
            },
            Step::Read { player, entry } => Fields {
                player: player.number(),
                entry,
                ..of(4)
            },
            Step::Write {
                player,
                entry,
                value,
            } => Fields {
                player: player.number(),
                entry,
                value,
                ..of(5)
            },
            Step::Deliver { serial } => Fields { serial, ..of(6) },
            Step::Respond { serial } => Fields { serial, ..of(7) },
            Step::Abandon { serial } => Fields { serial, ..of(8) },
            Step::Lose { serial } => Fields { serial, ..of(9) },
            Step::Split { entry } => Fields { entry, ..of(10) },
            Step::Merge { entry } => Fields { entry, ..of(11) },
            Step::RestartTablet { entry } => Fields { entry, ..of(12) },
            Step::RestartPlayer { player } => Fields {
                player: player.number(),
                ..of(13)
            },
            Step::FindInterval { entry } => Fields { entry, ..of(14) },
            Step::Load { entry, value } => Fields {
                entry,
                value,
                ..of(15)
            },
        }
    }
}

impl TryFrom<Fields> for Step {
    type Error = Refusal;

    /// The step of these fields: 26 where the kind is not in force, 27 where a field that the kind lacks is not 0, 28 where the player is
    /// above 7, or the range is empty or goes past 256.
    fn try_from(fields: Fields) -> Result<Step, Refusal> {
        // The map of the kind's record, and the step; none where its player or range is out of range.
        let (map, step): (u8, fn(Fields) -> Option<Step>) = match fields.kind {
            1 => (0x0F, |f| {
                let (player, range) = (f.its_player()?, f.its_range()?);
                Some(Step::Assign { player, range })
            }),
            2 => (0x0D, |f| {
                let range = f.its_range()?;
                Some(Step::Release { range })
            }),
            3 => (0x0F, |f| {
                let (player, range) = (f.its_player()?, f.its_range()?);
                Some(Step::RequestGuard { player, range })
            }),
            4 => (0x07, |f| {
                let (player, entry) = (f.its_player()?, f.entry);
                Some(Step::Read { player, entry })
            }),
            5 => (0x17, |f| {
                let player = f.its_player()?;
                let Fields { entry, value, .. } = f;
                Some(Step::Write {
                    player,
                    entry,
                    value,
                })
            }),
            6 => (0x21, |f| Some(Step::Deliver { serial: f.serial })),
            7 => (0x21, |f| Some(Step::Respond { serial: f.serial })),
            8 => (0x21, |f| Some(Step::Abandon { serial: f.serial })),
            9 => (0x21, |f| Some(Step::Lose { serial: f.serial })),
            10 => (0x05, |f| Some(Step::Split { entry: f.entry })),
            11 => (0x05, |f| Some(Step::Merge { entry: f.entry })),
            12 => (0x05, |f| Some(Step::RestartTablet { entry: f.entry })),
            13 => (0x03, |f| {
                let player = f.its_player()?;
                Some(Step::RestartPlayer { player })
            }),
            14 => (0x05, |f| Some(Step::FindInterval { entry: f.entry })),
            15 => (0x15, |f| {
                let Fields { entry, value, .. } = f;
                Some(Step::Load { entry, value })
            }),
            _ => return Err(Refusal::UnknownKind),
        };
        if fields.kept(map) != fields {
            return Err(Refusal::WrongFields);
        }
        step(fields).ok_or(Refusal::OutOfRange)
    }
}

#[cfg(test)]
pub(crate) mod tests {
    use super::*;
    use std::string::ToString;

    /// A step of each kind, with its fields: kind, player, entry, high, value, serial.
    fn samples() -> [(Step, [u32; 6]); 15] {
        let player = Player::new(7).unwrap();
        let range = Range::new(40, 256).unwrap();
        [
            (Step::Assign { player, range }, [1, 7, 40, 256, 0, 0]),
            (Step::Release { range }, [2, 0, 40, 256, 0, 0]),
            (Step::RequestGuard { player, range }, [3, 7, 40, 256, 0, 0]),
            (Step::Read { player, entry: 45 }, [4, 7, 45, 0, 0, 0]),
            (
                Step::Write {
                    player,
                    entry: 45,
                    value: 99,
                },
                [5, 7, 45, 0, 99, 0],
            ),
            (Step::Deliver { serial: 11 }, [6, 0, 0, 0, 0, 11]),
            (Step::Respond { serial: 11 }, [7, 0, 0, 0, 0, 11]),
            (Step::Abandon { serial: 11 }, [8, 0, 0, 0, 0, 11]),
            (Step::Lose { serial: 11 }, [9, 0, 0, 0, 0, 11]),
            (Step::Split { entry: 45 }, [10, 0, 45, 0, 0, 0]),
            (Step::Merge { entry: 45 }, [11, 0, 45, 0, 0, 0]),
            (Step::RestartTablet { entry: 45 }, [12, 0, 45, 0, 0, 0]),
            (Step::RestartPlayer { player }, [13, 7, 0, 0, 0, 0]),
            (Step::FindInterval { entry: 45 }, [14, 0, 45, 0, 0, 0]),
            (
                Step::Load {
                    entry: 45,
                    value: 99,
                },
                [15, 0, 45, 0, 99, 0],
            ),
        ]
    }

    pub(crate) fn fields(n: [u32; 6]) -> Fields {
        Fields {
            kind: n[0].try_into().unwrap(),
            player: n[1].try_into().unwrap(),
            entry: n[2].try_into().unwrap(),
            high: n[3].try_into().unwrap(),
            value: n[4],
            serial: n[5],
        }
    }

    #[test]
    fn a_step_and_its_fields_determine_each_other() {
        for (step, numbers) in samples() {
            assert_eq!(Fields::from(step), fields(numbers));
            assert_eq!(Step::try_from(fields(numbers)), Ok(step));
        }
    }

    #[test]
    fn a_field_that_the_kind_lacks_is_refused() {
        for (step, numbers) in samples() {
            for at in 1..6 {
                let mut other = numbers;
                other[at] = 1;
                // a sample has no field of its kind 0
                let lacks = numbers[at] == 0;
                assert_eq!(
                    Step::try_from(fields(other)) == Err(Refusal::WrongFields),
                    lacks,
                    "{step:?}, number {at}"
                );
            }
        }
    }

    #[test]
    fn other_kinds_players_and_ranges_are_refused() {
        for kind in [0, samples().len() as u8 + 1, 255] {
            assert_eq!(
                Step::try_from(Fields {
                    kind,
                    ..Fields::default()
                }),
                Err(Refusal::UnknownKind)
            );
        }
        let assign = fields([1, 7, 40, 60, 0, 0]);
        assert_eq!(
            Step::try_from(Fields {
                player: 8,
                ..assign
            }),
            Err(Refusal::OutOfRange)
        );
        assert_eq!(
            Step::try_from(Fields { high: 40, ..assign }),
            Err(Refusal::OutOfRange)
        );
        assert_eq!(
            Step::try_from(Fields {
                high: 257,
                ..assign
            }),
            Err(Refusal::OutOfRange)
        );
    }

    #[test]
    fn steps_are_told_in_words() {
        let texts = [
            "player 7 is assigned entries 40 to 255",
            "entries 40 to 255 are released",
            "player 7 asks for a guard over entries 40 to 255",
            "player 7 reads entry 45",
            "player 7 writes 99 to entry 45",
            "request 11 arrives at the store",
            "request 11 is answered",
            "request 11 is given up",
            "request 11 is lost",
            "a tablet is split at entry 45",
            "two tablets are merged at entry 45",
            "the tablet that holds entry 45 restarts",
            "player 7 restarts",
            "it is asked how far the guard of entry 45 reaches",
            "the loader loads 99 into entry 45",
        ];
        assert_eq!(samples().map(|(step, _)| step.to_string()), texts);
        let range = Range::of_entry(45);
        assert_eq!(Step::Release { range }.to_string(), "entry 45 is released");
    }

    #[test]
    fn fields_are_told_by_their_numbers() {
        assert_eq!(
            fields([4, 9, 45, 0, 0, 0]).to_string(),
            "kind 4, player 9, entry 45, high 0, value 0, serial 0"
        );
        assert_eq!(
            fields([200, 1, 2, 300, 4, 5]).to_string(),
            "kind 200, player 1, entry 2, high 300, value 4, serial 5"
        );
    }
}
