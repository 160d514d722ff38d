//! Numbers that are in their range by construction.

use core::fmt;
use core::ops;

use crate::Refusal;

/// A player, 0 to 7.
///
/// ```
/// use famdrize::{Player, Refusal};
///
/// let player: Player = 7.try_into()?;
/// assert_eq!(player.to_string(), "player 7");
/// assert_eq!(Player::try_from(8), Err(Refusal::OutOfRange));
/// # Ok::<(), Refusal>(())
/// ```
#[derive(Clone, Copy, Debug, PartialEq, Eq, PartialOrd, Ord, Hash)]
pub struct Player(u8);

impl Player {
    /// The player of this number; none above 7.
    #[must_use]
    pub const fn new(number: u8) -> Option<Player> {
        if number < 8 {
            Some(Player(number))
        } else {
            None
        }
    }

    /// Its number.
    #[must_use]
    pub const fn number(self) -> u8 {
        self.0
    }

    /// All eight.
    pub fn all() -> impl Iterator<Item = Player> {
        (0..8).map(Player)
    }
}

impl TryFrom<u8> for Player {
    type Error = Refusal;

    /// The player of this number: 28 above 7.
    fn try_from(number: u8) -> Result<Player, Refusal> {
        Player::new(number).ok_or(Refusal::OutOfRange)
    }
}

impl From<Player> for u8 {
    fn from(player: Player) -> u8 {
        player.number()
    }
}

impl fmt::Display for Player {
    fn fmt(&self, f: &mut fmt::Formatter<'_>) -> fmt::Result {
        write!(f, "player {}", self.0)
    }
}

/// The entries from `low` up to, not including, `high`: at least one, and none past 255.
///
/// ```
/// use famdrize::{Range, Refusal};
///
/// let range = Range::try_from(40..60)?;
/// assert_eq!(range, Range::try_from(40..=59)?);
/// assert_eq!(range.to_string(), "entries 40 to 59");
/// assert_eq!(Range::try_from(40..40), Err(Refusal::OutOfRange));
/// # Ok::<(), Refusal>(())
/// ```
#[derive(Clone, Copy, Debug, PartialEq, Eq, Hash)]
pub struct Range {
    low: u8,
    high: u16,
}

impl Range {
    /// The range from `low` up to, not including, `high`; none if it is empty or goes past 256.
    #[must_use]
    pub const fn new(low: u8, high: u16) -> Option<Range> {
        if (low as u16) < high && high <= 256 {
            Some(Range { low, high })
        } else {
            None
        }
    }

    /// One entry.
    #[must_use]
    pub const fn of_entry(entry: u8) -> Range {
        Range {
            low: entry,
            high: entry as u16 + 1,
        }
    }

    /// All 256 entries.
    #[must_use]
    pub const fn all() -> Range {
        Range { low: 0, high: 256 }
    }

    /// The first entry.
    #[must_use]
    pub const fn low(self) -> u8 {
        self.low
    }

    /// The number after the last entry, 1 to 256.
    #[must_use]
    pub const fn high(self) -> u16 {
        self.high
    }

    /// The last entry.
    #[must_use]
    pub const fn last(self) -> u8 {
        // `high` is 1 to 256
        (self.high - 1) as u8
    }
}

impl TryFrom<ops::Range<u16>> for Range {
    type Error = Refusal;

    /// The same entries: 28 if there is none, or one past 255.
    fn try_from(entries: ops::Range<u16>) -> Result<Range, Refusal> {
        let low = u8::try_from(entries.start).map_err(|_| Refusal::OutOfRange)?;
        Range::new(low, entries.end).ok_or(Refusal::OutOfRange)
    }
}

impl TryFrom<ops::RangeInclusive<u8>> for Range {
    type Error = Refusal;

    /// The same entries: 28 if there is none.
    fn try_from(entries: ops::RangeInclusive<u8>) -> Result<Range, Refusal> {
        if entries.is_empty() {
            return Err(Refusal::OutOfRange);
        }
        Ok(Range {
            low: *entries.start(),
            high: u16::from(*entries.end()) + 1,
        })
    }
}

impl From<Range> for ops::Range<u16> {
    fn from(range: Range) -> ops::Range<u16> {
        u16::from(range.low)..range.high
    }
}

impl From<Range> for ops::RangeInclusive<u8> {
    fn from(range: Range) -> ops::RangeInclusive<u8> {
        range.low..=range.last()
    }
}

impl fmt::Display for Range {
    fn fmt(&self, f: &mut fmt::Formatter<'_>) -> fmt::Result {
        if self.low == self.last() {
            write!(f, "entry {}", self.low)
        } else {
            write!(f, "entries {} to {}", self.low, self.last())
        }
    }
}

/// A serial that can be issued, 1 to 4,000,000.
///
/// ```
/// use famdrize::{Refusal, Serial};
///
/// let serial: Serial = 2.try_into()?;
/// assert_eq!(serial.to_string(), "serial 2");
/// assert_eq!(Serial::try_from(0), Err(Refusal::OutOfRange));
/// # Ok::<(), Refusal>(())
/// ```
#[derive(Clone, Copy, Debug, PartialEq, Eq, PartialOrd, Ord, Hash)]
pub struct Serial(u32);

impl Serial {
    /// The serial of this number; none at 0 or above 4,000,000.
    #[must_use]
    pub const fn new(number: u32) -> Option<Serial> {
        if number != 0 && number <= 4_000_000 {
            Some(Serial(number))
        } else {
            None
        }
    }

    /// Its number.
    #[must_use]
    pub const fn number(self) -> u32 {
        self.0
    }
}

impl TryFrom<u32> for Serial {
    type Error = Refusal;

    /// The serial of this number: 28 at 0 or above 4,000,000.
    fn try_from(number: u32) -> Result<Serial, Refusal> {
        Serial::new(number).ok_or(Refusal::OutOfRange)
    }
}

impl From<Serial> for u32 {
    fn from(serial: Serial) -> u32 {
        serial.number()
    }
}

impl fmt::Display for Serial {
    fn fmt(&self, f: &mut fmt::Formatter<'_>) -> fmt::Result {
        write!(f, "serial {}", self.0)
    }
}

#[cfg(test)]
mod tests {
    use super::*;
    use std::string::ToString;
    use std::vec::Vec;

    #[test]
    fn players_are_0_to_7() {
        assert_eq!(Player::new(0).map(Player::number), Some(0));
        assert_eq!(Player::new(7).map(Player::number), Some(7));
        assert_eq!(Player::new(8), None);
        assert_eq!(Player::new(255), None);
        assert_eq!(
            Player::all().map(Player::number).collect::<Vec<u8>>(),
            [0, 1, 2, 3, 4, 5, 6, 7]
        );
    }

    #[test]
    fn ranges_are_not_empty_and_end_at_256() {
        assert_eq!(Range::new(5, 5), None);
        assert_eq!(Range::new(6, 5), None);
        assert_eq!(Range::new(0, 0), None);
        assert_eq!(Range::new(0, 257), None);
        assert_eq!(Range::new(0, 256), Some(Range::all()));
        assert_eq!(Range::new(255, 256), Some(Range::of_entry(255)));
        let range = Range::new(40, 60).unwrap();
        assert_eq!((range.low(), range.high()), (40, 60));
    }

    #[test]
    fn serials_are_1_to_4000000() {
        assert_eq!(Serial::new(0), None);
        assert_eq!(Serial::new(1).map(Serial::number), Some(1));
        assert_eq!(Serial::new(4_000_000).map(Serial::number), Some(4_000_000));
        assert_eq!(Serial::new(4_000_001), None);
    }

    #[test]
    fn a_range_has_a_last_entry() {
        assert_eq!(Range::new(40, 60).map(Range::last), Some(59));
        assert_eq!(Range::of_entry(0).last(), 0);
        assert_eq!(Range::all().last(), 255);
    }

    #[test]
    fn a_player_is_made_of_a_number_and_gives_it_back() {
        for number in 0..8 {
            assert_eq!(Player::try_from(number).map(u8::from), Ok(number));
        }
        for number in 8..=u8::MAX {
            assert_eq!(Player::try_from(number), Err(Refusal::OutOfRange));
        }
    }

    #[test]
    fn a_range_is_made_of_entries_and_gives_them_back() {
        for low in 0..=258 {
            for high in 0..=258 {
                let range = Range::try_from(low..high);
                if low < high && high <= 256 {
                    let range = range.unwrap();
                    assert_eq!(
                        (u16::from(range.low()), range.high()),
                        (low, high),
                        "{range:?}"
                    );
                    assert_eq!(ops::Range::from(range), low..high);
                    let inclusive = ops::RangeInclusive::<u8>::from(range);
                    assert_eq!(Range::try_from(inclusive), Ok(range));
                } else {
                    assert_eq!(range, Err(Refusal::OutOfRange), "{low}..{high}");
                }
            }
        }
        for (low, high) in [(u16::MAX, 1), (256, 257), (0, u16::MAX)] {
            assert_eq!(Range::try_from(low..high), Err(Refusal::OutOfRange));
        }
    }

    #[test]
    fn a_range_is_made_of_entries_with_the_last() {
        assert_eq!(
            Range::try_from(40..=59).ok(),
            Some(Range::new(40, 60).unwrap())
        );
        assert_eq!(Range::try_from(0..=255), Ok(Range::all()));
        assert_eq!(Range::try_from(255..=255), Ok(Range::of_entry(255)));
        let (low, last) = (60, 59);
        assert_eq!(Range::try_from(low..=last), Err(Refusal::OutOfRange));
        // one that was walked to its end has no entry left
        let mut walked = 7..=7;
        assert_eq!(walked.next(), Some(7));
        assert_eq!(Range::try_from(walked), Err(Refusal::OutOfRange));
    }

    #[test]
    fn a_serial_is_made_of_a_number_and_gives_it_back() {
        for number in [1, 2, 3_999_999, 4_000_000] {
            assert_eq!(Serial::try_from(number).map(u32::from), Ok(number));
        }
        for number in [0, 4_000_001, u32::MAX] {
            assert_eq!(Serial::try_from(number), Err(Refusal::OutOfRange));
        }
    }

    #[test]
    fn numbers_are_told_in_words() {
        assert_eq!(Player::new(0).unwrap().to_string(), "player 0");
        assert_eq!(Range::new(40, 60).unwrap().to_string(), "entries 40 to 59");
        assert_eq!(Range::new(45, 47).unwrap().to_string(), "entries 45 to 46");
        assert_eq!(Range::of_entry(45).to_string(), "entry 45");
        assert_eq!(Range::of_entry(255).to_string(), "entry 255");
        assert_eq!(Range::all().to_string(), "entries 0 to 255");
        assert_eq!(
            Serial::new(4_000_000).unwrap().to_string(),
            "serial 4000000"
        );
    }
}
