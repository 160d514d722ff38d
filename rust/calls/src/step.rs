//! The kinds of steps, each written down once, and a step by its fields.

/// The entries from `low` up to, not including, `high`, at the widths of a record: it may be empty,
/// or go past 256.
#[derive(Clone, Copy, Debug, PartialEq, Eq, Hash)]
#[allow(missing_docs)]
pub struct Range {
    pub low: u8,
    pub high: u16,
}

impl Range {
    /// The range from `low` up to, not including, `high`.
    pub const fn new(low: u8, high: u16) -> Range {
        Range { low, high }
    }
}

/// A step by its fields, at the widths of a record. Those that the kind lacks are 0.
#[derive(Clone, Copy, Debug, Default, PartialEq, Eq)]
#[allow(missing_docs)]
pub struct Fields {
    pub kind: u8,
    pub player: u8,
    /// The entry, or a range's low.
    pub entry: u8,
    pub high: u16,
    pub value: u32,
    pub serial: u32,
}

/// The bits of a record's map: "bit 0 kind (1 byte), 1 player (1), 2 entry or low (1), 3 high (2), 4
/// value (4), 5 serial (4)".
#[allow(missing_docs)]
pub mod bit {
    pub const KIND: u8 = 0x01;
    pub const PLAYER: u8 = 0x02;
    pub const ENTRY: u8 = 0x04;
    pub const HIGH: u8 = 0x08;
    pub const VALUE: u8 = 0x10;
    pub const SERIAL: u8 = 0x20;
}

/// The refusal of fields whose kind is not in force.
pub const UNKNOWN_KIND: u32 = 26;
/// The refusal of fields of which one that the kind lacks is not 0.
pub const WRONG_FIELDS: u32 = 27;

/// What a step can have, each by its name in the table of kinds: its bits in a record's map, and how
/// it stands in [`Fields`].
mod part {
    use super::{bit, Fields, Range};

    macro_rules! field {
        ($name:ident, $type:ty, $bits:expr) => {
            pub mod $name {
                use super::{bit, Fields};

                pub const BITS: u8 = $bits;

                pub fn get(fields: Fields) -> $type {
                    fields.$name
                }

                pub fn put(fields: &mut Fields, $name: $type) {
                    fields.$name = $name;
                }
            }
        };
    }

    field!(player, u8, bit::PLAYER);
    field!(entry, u8, bit::ENTRY);
    field!(value, u32, bit::VALUE);
    field!(serial, u32, bit::SERIAL);

    pub mod range {
        use super::{bit, Fields, Range};

        pub const BITS: u8 = bit::ENTRY | bit::HIGH;

        pub fn get(fields: Fields) -> Range {
            Range::new(fields.entry, fields.high)
        }

        pub fn put(fields: &mut Fields, range: Range) {
            (fields.entry, fields.high) = (range.low, range.high);
        }
    }
}

/// Makes [`Step`] from the table of kinds, with each step's number and map, and the way from a step
/// to its fields and back.
macro_rules! kinds {
    ($($(#[$doc:meta])* $kind:literal $name:ident { $($part:ident: $type:ty),+ })+) => {
        /// "Once read, a step is its kind with that kind's fields and nothing else."
        #[derive(Clone, Copy, Debug, PartialEq, Eq, Hash)]
        #[allow(missing_docs)]
        pub enum Step {
            $($(#[$doc])* $name { $($part: $type),+ },)+
        }

        /// The kinds in force are 1 up to this one.
        pub const KINDS: u8 = [$($kind),+].len() as u8;

        /// The map of each kind's record, that of kind 1 first.
        pub const MAPS: [u8; KINDS as usize] =
            [$(bit::KIND $(| part::$part::BITS)+),+];

        // The table has them in their order, and leaves none out.
        const _: () = {
            let kinds = [$($kind),+];
            let mut at = 0;
            while at < kinds.len() {
                assert!(kinds[at] == at + 1);
                at += 1;
            }
        };

        impl Step {
            /// The number of its kind.
            pub const fn kind(&self) -> u8 {
                match self {
                    $(Step::$name { .. } => $kind,)+
                }
            }

            /// The step of these fields' kind, with those of the fields that the kind has; none where
            /// the kind is not in force.
            pub fn of_its_fields(fields: Fields) -> Option<Step> {
                match fields.kind {
                    $($kind => Some(Step::$name { $($part: part::$part::get(fields)),+ }),)+
                    _ => None,
                }
            }
        }

        impl From<Step> for Fields {
            fn from(step: Step) -> Fields {
                let mut fields = Fields { kind: step.kind(), ..Fields::default() };
                match step {
                    $(Step::$name { $($part),+ } => {
                        $(part::$part::put(&mut fields, $part);)+
                    })+
                }
                fields
            }
        }
    };
}

kinds! {
    /// Kind 1, "assign".
    1 Assign { player: u8, range: Range }
    /// Kind 2, "release".
    2 Release { range: Range }
    /// Kind 3, "ask for a guard".
    3 RequestGuard { player: u8, range: Range }
    /// Kind 4, "read".
    4 Read { player: u8, entry: u8 }
    /// Kind 5, "write".
    5 Write { player: u8, entry: u8, value: u32 }
    /// Kind 6, "arrive at the store".
    6 Deliver { serial: u32 }
    /// Kind 7, "answer reaches the player".
    7 Respond { serial: u32 }
    /// Kind 8, "give up".
    8 Abandon { serial: u32 }
    /// Kind 9, "lose".
    9 Lose { serial: u32 }
    /// Kind 10, "split".
    10 Split { entry: u8 }
    /// Kind 11, "merge".
    11 Merge { entry: u8 }
    /// Kind 12, "tablet restart".
    12 RestartTablet { entry: u8 }
    /// Kind 13, "player restart".
    13 RestartPlayer { player: u8 }
    /// Kind 14, document 02 §1, "How far a guard reaches".
    14 FindInterval { entry: u8 }
    /// Kind 15, document 02 §2, "load".
    15 Load { entry: u8, value: u32 }
}

impl Step {
    /// The map of its record.
    pub const fn map(&self) -> u8 {
        MAPS[self.kind() as usize - 1]
    }
}

/// Whether a kind that is in force has the field of this [`bit`].
pub const fn has(kind: u8, bit: u8) -> bool {
    MAPS[kind as usize - 1] & bit != 0
}

impl TryFrom<Fields> for Step {
    /// The refusal's number.
    type Error = u32;

    /// The step of these fields: [`UNKNOWN_KIND`], then [`WRONG_FIELDS`].
    fn try_from(fields: Fields) -> Result<Step, u32> {
        let step = Step::of_its_fields(fields).ok_or(UNKNOWN_KIND)?;
        if Fields::from(step) == fields {
            Ok(step)
        } else {
            Err(WRONG_FIELDS)
        }
    }
}

#[cfg(test)]
mod tests {
    use super::*;

    /// All fields not 0.
    const FULL: Fields = Fields {
        kind: 0,
        player: 7,
        entry: 40,
        high: 256,
        value: 99,
        serial: 11,
    };

    /// A step of each kind has the fields of its map and no others, and is what they give back.
    #[test]
    fn a_step_and_its_fields_determine_each_other() {
        for kind in 1..=KINDS {
            let step = Step::of_its_fields(Fields { kind, ..FULL }).unwrap();
            let fields = Fields::from(step);
            assert_eq!((step.kind(), fields.kind), (kind, kind));
            for (bit, has) in [
                (bit::KIND, true),
                (bit::PLAYER, fields.player == FULL.player),
                (bit::ENTRY, fields.entry == FULL.entry),
                (bit::HIGH, fields.high == FULL.high),
                (bit::VALUE, fields.value == FULL.value),
                (bit::SERIAL, fields.serial == FULL.serial),
            ] {
                assert_eq!(step.map() & bit != 0, has, "kind {kind}, bit {bit:02X}");
            }
            assert_eq!(Step::try_from(fields), Ok(step));
        }
    }

    /// "From here on 26 means a kind not in force" (document 02 §1), then 27 for each field that the
    /// kind lacks.
    #[test]
    fn other_fields_are_refused() {
        for kind in 0..=u8::MAX {
            let none = Fields {
                kind,
                ..Fields::default()
            };
            let strange = [
                none,
                Fields { player: 1, ..none },
                Fields { entry: 1, ..none },
                Fields { high: 1, ..none },
                Fields { value: 1, ..none },
                Fields { serial: 1, ..none },
            ];
            for (bit, fields) in strange.into_iter().enumerate() {
                let refusal = match kind {
                    1..=KINDS if has(kind, 1 << bit) => None,
                    1..=KINDS => Some(WRONG_FIELDS),
                    _ => Some(UNKNOWN_KIND),
                };
                assert_eq!(Step::try_from(fields).err(), refusal, "{fields:?}");
            }
        }
    }
}
