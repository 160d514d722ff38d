//! Replies and refusals, by name, by number and in words.

use core::fmt;

use crate::raw;

/// What a step replies.
///
/// A refused step is a reply too; [`Reply::into_result`] makes an error of it, for `?`:
///
/// ```
/// use famdrize::{Refusal, Reply, Step, TablesMut};
/// # let (mut store, mut players) = ([0; famdrize::STORE_WORDS], [0; famdrize::PLAYERS_WORDS]);
/// # let mut tables = TablesMut::fresh(&mut store, &mut players);
///
/// let reply = tables.step(Step::Split { entry: 128 }).into_result()?;
/// assert_eq!(reply, Reply::Done);
/// let again = tables.step(Step::Split { entry: 128 }).into_result();
/// assert_eq!(again, Err(Refusal::WrongBoundary));
/// # Ok::<(), Refusal>(())
/// ```
#[derive(Clone, Copy, Debug, PartialEq, Eq, Hash)]
#[non_exhaustive]
pub enum Reply {
    /// 0: done.
    Done,
    /// 1: the step took a serial.
    Issued {
        /// The serial.
        serial: u32,
    },
    /// 2: a read from the player's memory.
    CacheRead {
        /// The serial of the write that made the value, 0 if none did.
        version: u32,
        /// The value.
        value: u32,
    },
    /// 3: the answer to a read, from the store.
    StoreRead {
        /// The serial of the write that made the value, 0 if none did.
        version: u32,
        /// The value.
        value: u32,
    },
    /// 4: the answer to a write that committed.
    Committed {
        /// The write's serial.
        serial: u32,
        /// The value written.
        value: u32,
    },
    /// 5: the answer to a write that was turned back.
    Rejected {
        /// The write's serial.
        serial: u32,
    },
    /// 6: the answer to a guard request: granted.
    Granted {
        /// The request's serial, which is the guard.
        serial: u32,
    },
    /// 7: the answer to a guard request whose range the player no longer holds.
    NotHeld {
        /// The request's serial.
        serial: u32,
    },
    /// 8: the answer to a guard request whose range did not lie in one tablet.
    LayoutChanged {
        /// The request's serial.
        serial: u32,
    },
    /// 9: how far a guard of the store reaches.
    Interval {
        /// The first entry of the guard interval.
        first: u8,
        /// The last entry.
        last: u8,
    },
    /// A refusal's number: the step is refused, and nothing is altered.
    Refused(Refusal),
}

impl Reply {
    /// The reply of these numbers; none if no reply has them.
    #[must_use]
    pub fn from_numbers(numbers: [u32; 3]) -> Option<Reply> {
        Some(match numbers {
            [0, 0, 0] => Reply::Done,
            [1, serial, 0] => Reply::Issued { serial },
            [2, version, value] => Reply::CacheRead { version, value },
            [3, version, value] => Reply::StoreRead { version, value },
            [4, serial, value] => Reply::Committed { serial, value },
            [5, serial, 0] => Reply::Rejected { serial },
            [6, serial, 0] => Reply::Granted { serial },
            [7, serial, 0] => Reply::NotHeld { serial },
            [8, serial, 0] => Reply::LayoutChanged { serial },
            [9, first, last] => Reply::Interval {
                first: first.try_into().ok()?,
                last: last.try_into().ok()?,
            },
            [code, 0, 0] => Reply::Refused(Refusal::from_number(code)?),
            _ => return None,
        })
    }

    /// Its code and two numbers.
    #[must_use]
    pub const fn numbers(self) -> [u32; 3] {
        match self {
            Reply::Done => [0, 0, 0],
            Reply::Issued { serial } => [1, serial, 0],
            Reply::CacheRead { version, value } => [2, version, value],
            Reply::StoreRead { version, value } => [3, version, value],
            Reply::Committed { serial, value } => [4, serial, value],
            Reply::Rejected { serial } => [5, serial, 0],
            Reply::Granted { serial } => [6, serial, 0],
            Reply::NotHeld { serial } => [7, serial, 0],
            Reply::LayoutChanged { serial } => [8, serial, 0],
            Reply::Interval { first, last } => [9, first as u32, last as u32],
            Reply::Refused(refusal) => [refusal.number(), 0, 0],
        }
    }

    /// What its code says, without its numbers.
    #[must_use]
    pub const fn words(self) -> &'static str {
        match self {
            Reply::Done => "done",
            Reply::Issued { .. } => "serial issued",
            Reply::CacheRead { .. } => "read from memory",
            Reply::StoreRead { .. } => "read from the store",
            Reply::Committed { .. } => "committed",
            Reply::Rejected { .. } => "turned back",
            Reply::Granted { .. } => "guard granted",
            Reply::NotHeld { .. } => "not held",
            Reply::LayoutChanged { .. } => "layout changed",
            Reply::Interval { .. } => "guard interval",
            Reply::Refused(refusal) => refusal.words(),
        }
    }

    /// The reply to a step that is not refused.
    ///
    /// # Errors
    ///
    /// The refusal of a refused step.
    pub const fn into_result(self) -> Result<Reply, Refusal> {
        match self {
            Reply::Refused(refusal) => Err(refusal),
            reply => Ok(reply),
        }
    }

    /// A step's reply, which has one of the codes above by the library's contract.
    pub(crate) fn of_step(numbers: [u32; 3]) -> Reply {
        Reply::from_numbers(numbers).expect("a step's reply has the code of a reply or a refusal")
    }
}

impl fmt::Display for Reply {
    fn fmt(&self, f: &mut fmt::Formatter<'_>) -> fmt::Result {
        let words = self.words();
        match *self {
            Reply::Done => f.write_str(words),
            Reply::Issued { serial } => write!(f, "serial {serial} issued"),
            Reply::CacheRead { version, value } | Reply::StoreRead { version, value } => {
                write!(f, "{words}: version {version}, value {value}")
            }
            Reply::Committed { serial, value } => {
                write!(f, "{words}: serial {serial}, value {value}")
            }
            Reply::Rejected { serial }
            | Reply::Granted { serial }
            | Reply::NotHeld { serial }
            | Reply::LayoutChanged { serial } => write!(f, "{words}: serial {serial}"),
            Reply::Interval { first, last } if first == last => {
                write!(f, "{words}: entry {first}")
            }
            Reply::Interval { first, last } => write!(f, "{words}: entries {first} to {last}"),
            Reply::Refused(refusal) => write!(f, "refused: {refusal}"),
        }
    }
}

/// The refusals, each declared once: its name, its number and what that says.
macro_rules! refusals {
    ($($name:ident = $number:literal, $words:literal;)*) => {
        /// Why a call is refused.
        #[derive(Clone, Copy, Debug, PartialEq, Eq, Hash)]
        #[non_exhaustive]
        #[repr(u32)]
        pub enum Refusal {
            $(
                #[doc = concat!($number, ": ", $words, ".")]
                $name = $number,
            )*
        }

        impl Refusal {
            /// All, in the order of their numbers.
            pub const ALL: &'static [Refusal] = &[$(Refusal::$name),*];

            /// What its number says.
            #[must_use]
            pub const fn words(self) -> &'static str {
                match self {
                    $(Refusal::$name => $words,)*
                }
            }
        }
    };
}

refusals! {
    TableLength = 21, "a table of the wrong length";
    TableRules = 22, "a table that breaks a rule";
    NoMark = 23, "the session's mark is wrong or missing";
    CutShort = 24, "a record cut short, or no byte";
    UnknownField = 25, "bit 6 or 7 of a record's map stands";
    UnknownKind = 26, "a kind of step not in force";
    WrongFields = 27, "the kind is missing, or other fields than the kind's";
    OutOfRange = 28, "player above 7, an empty range or one past 256, split or merge at entry 0, or a serial out of range";
    NotOwner = 29, "not owner of every entry";
    NoLiveGuard = 30, "no live guard";
    AlreadyRequested = 31, "a pending guard request of this player shares an entry";
    NoSuchRequest = 32, "no request that this step fits";
    PlacesTaken = 33, "not in force since 0.6.0: all 64 places for requests were taken";
    NoSerialLeft = 34, "the last serial, 4,000,000, was issued";
    WrongBoundary = 35, "split at a boundary, or merge where none is";
    BufferShort = 36, "a buffer shorter than what is to be written";
    SessionTooLong = 37, "a session of more than 16,384 bytes";
    NoPlaceLeft = 38, "the 16 common places for requests are taken, and the player has 6 requests or more or is the loader";
    NoAnsweredRead = 39, "the player has no answered read";
}

impl Refusal {
    /// Its number.
    #[must_use]
    pub const fn number(self) -> u32 {
        self as u32
    }

    /// The refusal of this number; none if no refusal has it.
    #[must_use]
    pub fn from_number(number: u32) -> Option<Refusal> {
        let mut all = Refusal::ALL.iter().copied();
        all.find(|refusal| refusal.number() == number)
    }

    /// The code of a call that can only be done or refused: 0, or the refusal's number by the library's contract.
    pub(crate) fn of_code(code: u32) -> Result<(), Refusal> {
        if code == 0 {
            return Ok(());
        }
        Err(Refusal::from_number(code).expect("a code other than 0 is a refusal's number"))
    }
}

/// The two numbers of a call that is not refused, by the library's contract: its tables have their lengths and keep their rules.
pub(crate) fn accepted(reply: raw::Reply) -> [u32; 2] {
    assert_eq!(reply.code, 0, "tables that keep their rules are accepted");
    [reply.a, reply.b]
}

impl fmt::Display for Refusal {
    fn fmt(&self, f: &mut fmt::Formatter<'_>) -> fmt::Result {
        write!(f, "{} ({})", self.words(), self.number())
    }
}

impl core::error::Error for Refusal {}

#[cfg(test)]
mod tests {
    use super::*;
    use std::format;
    use std::string::ToString;

    #[test]
    fn refusals_have_their_numbers() {
        for (i, refusal) in Refusal::ALL.iter().enumerate() {
            assert_eq!(refusal.number(), 21 + i as u32);
            assert_eq!(Refusal::from_number(refusal.number()), Some(*refusal));
        }
        assert_eq!(Refusal::NoMark.number(), 23);
        assert_eq!(Refusal::NotOwner.number(), 29);
        assert_eq!(Refusal::SessionTooLong.number(), 37);
        assert_eq!(Refusal::NoPlaceLeft.number(), 38);
        assert_eq!(Refusal::NoAnsweredRead.number(), 39);
        for number in [0, 1, 9, 20, 40, u32::MAX] {
            assert_eq!(Refusal::from_number(number), None);
        }
    }

    #[test]
    fn replies_and_their_numbers() {
        let replies = [
            (Reply::Done, [0, 0, 0]),
            (Reply::Issued { serial: 7 }, [1, 7, 0]),
            (
                Reply::CacheRead {
                    version: 3,
                    value: 9,
                },
                [2, 3, 9],
            ),
            (
                Reply::StoreRead {
                    version: 3,
                    value: 9,
                },
                [3, 3, 9],
            ),
            (
                Reply::Committed {
                    serial: 7,
                    value: 9,
                },
                [4, 7, 9],
            ),
            (Reply::Rejected { serial: 7 }, [5, 7, 0]),
            (Reply::Granted { serial: 7 }, [6, 7, 0]),
            (Reply::NotHeld { serial: 7 }, [7, 7, 0]),
            (Reply::LayoutChanged { serial: 7 }, [8, 7, 0]),
            (Reply::Interval { first: 0, last: 0 }, [9, 0, 0]),
            (
                Reply::Interval {
                    first: 60,
                    last: 255,
                },
                [9, 60, 255],
            ),
            (Reply::Refused(Refusal::NoSuchRequest), [32, 0, 0]),
            (Reply::Refused(Refusal::NoAnsweredRead), [39, 0, 0]),
        ];
        for (reply, numbers) in replies {
            assert_eq!(reply.numbers(), numbers);
            assert_eq!(Reply::from_numbers(numbers), Some(reply));
        }
        for numbers in [
            [0, 1, 0],
            [1, 7, 1],
            [9, 0, 256],
            [9, 256, 256],
            [9, u32::MAX, 0],
            [10, 0, 0],
            [20, 0, 0],
            [32, 1, 0],
            [38, 1, 0],
            [39, 0, 1],
            [40, 0, 0],
        ] {
            assert_eq!(Reply::from_numbers(numbers), None);
        }
    }

    #[test]
    fn a_refusal_says_its_number() {
        assert_eq!(Refusal::NoLiveGuard.to_string(), "no live guard (30)");
    }

    #[test]
    fn refusals_have_their_words() {
        let told = [
            (21, "a table of the wrong length"),
            (22, "a table that breaks a rule"),
            (23, "the session's mark is wrong or missing"),
            (24, "a record cut short, or no byte"),
            (25, "bit 6 or 7 of a record's map stands"),
            (26, "a kind of step not in force"),
            (27, "the kind is missing, or other fields than the kind's"),
            (28, "player above 7, an empty range or one past 256, split or merge at entry 0, or a serial out of range"),
            (29, "not owner of every entry"),
            (30, "no live guard"),
            (31, "a pending guard request of this player shares an entry"),
            (32, "no request that this step fits"),
            (33, "not in force since 0.6.0: all 64 places for requests were taken"),
            (34, "the last serial, 4,000,000, was issued"),
            (35, "split at a boundary, or merge where none is"),
            (36, "a buffer shorter than what is to be written"),
            (37, "a session of more than 16,384 bytes"),
            (38, "the 16 common places for requests are taken, and the player has 6 requests or more or is the loader"),
            (39, "the player has no answered read"),
        ];
        assert_eq!(told.len(), Refusal::ALL.len());
        for (refusal, (number, words)) in Refusal::ALL.iter().zip(told) {
            assert_eq!((refusal.number(), refusal.words()), (number, words));
            assert_eq!(refusal.to_string(), format!("{words} ({number})"));
        }
    }

    #[test]
    fn replies_are_told_in_words() {
        for (numbers, words, text) in [
            ([0, 0, 0], "done", "done"),
            ([1, 2, 0], "serial issued", "serial 2 issued"),
            (
                [2, 3, 7],
                "read from memory",
                "read from memory: version 3, value 7",
            ),
            (
                [3, 0, 0],
                "read from the store",
                "read from the store: version 0, value 0",
            ),
            ([4, 3, 7], "committed", "committed: serial 3, value 7"),
            ([5, 3, 0], "turned back", "turned back: serial 3"),
            ([6, 2, 0], "guard granted", "guard granted: serial 2"),
            ([7, 2, 0], "not held", "not held: serial 2"),
            ([8, 2, 0], "layout changed", "layout changed: serial 2"),
            (
                [9, 40, 59],
                "guard interval",
                "guard interval: entries 40 to 59",
            ),
            ([9, 45, 45], "guard interval", "guard interval: entry 45"),
            ([30, 0, 0], "no live guard", "refused: no live guard (30)"),
        ] {
            let reply = Reply::from_numbers(numbers).unwrap();
            assert_eq!((reply.words(), reply.to_string().as_str()), (words, text));
        }
    }

    #[test]
    fn a_refused_reply_alone_is_an_error() {
        for code in 0..=100 {
            let Some(reply) = Reply::from_numbers([code, 0, 0]) else {
                continue;
            };
            match reply.into_result() {
                Ok(same) => assert_eq!((same, code < 10), (reply, true)),
                Err(refusal) => {
                    assert_eq!((Reply::Refused(refusal), code > 20), (reply, true));
                }
            }
        }
        let reply = Reply::CacheRead {
            version: 3,
            value: 9,
        };
        assert_eq!(reply.into_result(), Ok(reply));
    }
}
