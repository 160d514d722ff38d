//! The numbers of documents 01 and 02, and the entries of a range.

use calls::Range;

/// "There are 256 entries, 0 to 255."
pub const ENTRIES: usize = 256;
/// "eight players (0 to 7)"
pub const PLAYERS: usize = 8;
/// "its owner (0 to 7, or 8 for nobody)"
pub const NOBODY: u8 = 8;
/// Document 02 §2: "a row of kind 5 whose player is 8". As a request's player 8 is the loader, as an
/// owner it is nobody: an entry that nobody owns is not the loader's.
pub const LOADER: u8 = 8;
/// "up to 64 rows in flight"
pub const MAX_REQUESTS: usize = 64;
/// Document 02 §5: "Each of the eight players now has 6 rows of its own".
pub const OWN_PLACES: usize = 6;
/// Document 02 §5: "the other 16 are common to the players and the loader".
pub const COMMON_PLACES: usize = 16;
/// "One count of serials, 0 when fresh, last usable 4,000,000"
pub const MAX_SERIAL: u32 = 4_000_000;
/// Document 02 §7: "A read that would carry a count above 4,000,000,000".
pub const MAX_COUNT: u32 = 4_000_000_000;
/// Document 02 §2: "guard 0 is open and matches a carried 0".
pub const OPEN: u32 = 0;
/// Document 02 §2: "a restart sets a new mark, barred, that matches nothing. Barred differs from 0 and
/// from every serial". It stands in the store's guards alone.
pub const BARRED: u32 = 4_294_967_295;

/// "Ranges run from low up to, not including, high (1 to 256)." The fields have the widths of a
/// record, so a range that is read may break that rule; [`Entries::is_valid`] tells.
pub trait Entries {
    /// Not "low not below high, high above 256".
    fn is_valid(&self) -> bool;
    /// The entries, as indices.
    fn entries(&self) -> std::ops::Range<usize>;
    /// Whether this entry is among them.
    fn contains(&self, entry: u8) -> bool;
    /// Whether another range shares an entry.
    fn shares(&self, other: Range) -> bool;
}

impl Entries for Range {
    fn is_valid(&self) -> bool {
        u16::from(self.low) < self.high && usize::from(self.high) <= ENTRIES
    }

    fn entries(&self) -> std::ops::Range<usize> {
        usize::from(self.low)..usize::from(self.high).min(ENTRIES)
    }

    fn contains(&self, entry: u8) -> bool {
        self.low <= entry && u16::from(entry) < self.high
    }

    fn shares(&self, other: Range) -> bool {
        u16::from(self.low) < other.high && u16::from(other.low) < self.high
    }
}

// "the other 16": the players' own places and the common ones are all.
const _: () = assert!(PLAYERS * OWN_PLACES + COMMON_PLACES == MAX_REQUESTS);
