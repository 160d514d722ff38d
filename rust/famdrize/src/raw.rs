//! The C interface, as `include/famdrize.h` declares it. The rest of this crate offers them as safe calls.
//!
//! A lent slice is passed as two arguments, a pointer and the number of its elements. The pointer is not null and is aligned as the
//! elements are, also where the number is 0: what `as_ptr` of a Rust slice gives is right as it stands. Two slices of one call do not
//! overlap unless both are shared. A call keeps nothing, allocates nothing, has no global state, and ends on all inputs.

/// A code and two numbers.
#[repr(C)]
#[derive(Clone, Copy, Debug, PartialEq, Eq)]
pub struct Reply {
    /// What became of the call: 0 to 9, or the number of a refusal.
    pub code: u32,
    /// The first number.
    pub a: u32,
    /// The second number.
    pub b: u32,
}

/// Code 0, the record's length in bytes and the step by its fields, those that its kind lacks 0; or the code of a refusal and zeros.
#[repr(C)]
#[derive(Clone, Copy, Debug, PartialEq, Eq)]
pub struct Decoded {
    /// 0, or the number of a refusal.
    pub code: u32,
    /// Bytes of the record, 3 to 8.
    pub length: u32,
    /// The kind of step.
    pub kind: u32,
    /// The player.
    pub player: u32,
    /// The entry, or a range's low.
    pub entry: u32,
    /// A range's high.
    pub high: u32,
    /// The value written.
    pub value: u32,
    /// The request's serial.
    pub serial: u32,
}

/// Why a run stopped, the number of records taken, and the byte place just after them.
#[repr(C)]
#[derive(Clone, Copy, Debug, PartialEq, Eq)]
pub struct Report {
    /// 0 at the end, 9 where budget or list is spent, or the number of a refusal.
    pub why: u32,
    /// The number of records taken.
    pub records: u32,
    /// The byte place just after them.
    pub place: u32,
}

/// Code 0, the guard of an entry, and the first and the last entry of its guard interval; or the code of a refusal and zeros.
#[repr(C)]
#[derive(Clone, Copy, Debug, PartialEq, Eq)]
pub struct Interval {
    /// 0, or the number of a refusal.
    pub code: u32,
    /// The guard: a serial, [`OPEN_GUARD`](crate::OPEN_GUARD) or [`BARRED`](crate::BARRED).
    pub guard: u32,
    /// The first entry.
    pub first: u32,
    /// The last entry.
    pub last: u32,
}

/// A request in flight; a place that is not used has serial 0. A mark stands where its number is not 0.
#[repr(C)]
#[derive(Clone, Copy, Debug, Default, PartialEq, Eq)]
pub struct Request<Mark = u8> {
    /// Its serial, 0 where the place is not used.
    pub serial: u32,
    /// Whose it is: a player's, 0 to 7, or [`LOADER`](crate::LOADER) of a load.
    pub player: u8,
    /// 3 guard request, 4 read, 5 write or load.
    pub kind: u8,
    /// The entry of a read or write, the first entry of a guard request.
    pub low: u8,
    /// The number after the last entry of a guard request, else 0.
    pub high: u16,
    /// The value of a write, else 0.
    pub value: u32,
    /// The guard carried, 0 of a load.
    pub guard: u32,
    /// Whether a write of the same player on the entry crossed it.
    pub overlapped: Mark,
    /// Whether it arrived at the store.
    pub delivered: Mark,
    /// Whether its player gave it up.
    pub abandoned: Mark,
    /// The outcome: 1 or 2 and 0, of a read its version and value.
    pub first: u32,
    /// The second number of the outcome.
    pub second: u32,
}

extern "C" {
    /// Makes both tables fresh: 0 0 0, or 21.
    pub fn famdrize_fresh(
        store: *mut u32,
        store_words: usize,
        players: *mut u32,
        players_words: usize,
    ) -> Reply;
    /// Whether both tables keep the rules: 0 0 0, or 21, 22.
    pub fn famdrize_check(
        store: *const u32,
        store_words: usize,
        players: *const u32,
        players_words: usize,
    ) -> Reply;
    /// Takes the step of this kind with these fields: 26, 27, then what the step replies.
    pub fn famdrize_step(
        store: *mut u32,
        store_words: usize,
        players: *mut u32,
        players_words: usize,
        kind: u8,
        player: u8,
        entry: u8,
        high: u16,
        value: u32,
        serial: u32,
    ) -> Reply;
    /// Takes the steps of a session, and puts their replies into the list, three words each.
    pub fn famdrize_run(
        store: *mut u32,
        store_words: usize,
        players: *mut u32,
        players_words: usize,
        session: *const u8,
        session_bytes: usize,
        budget: u32,
        replies: *mut u32,
        replies_words: usize,
    ) -> Report;
    /// What [`famdrize_step`] would reply; neither table is altered. It takes about 44 KB of stack.
    pub fn famdrize_preview(
        store: *const u32,
        store_words: usize,
        players: *const u32,
        players_words: usize,
        kind: u8,
        player: u8,
        entry: u8,
        high: u16,
        value: u32,
        serial: u32,
    ) -> Reply;
    /// What [`famdrize_run`] would report and reply, where a budget above 16 counts as 16; only the list is written. It takes about 44 KB of
    /// stack.
    pub fn famdrize_preview_run(
        store: *const u32,
        store_words: usize,
        players: *const u32,
        players_words: usize,
        session: *const u8,
        session_bytes: usize,
        budget: u32,
        replies: *mut u32,
        replies_words: usize,
    ) -> Report;
    /// The share of the player's answered reads that came from its memory, in thousandths: 0, quotient, remainder; or 21, 22, 28, 39. Neither
    /// table is altered.
    pub fn famdrize_share(
        store: *const u32,
        store_words: usize,
        players: *const u32,
        players_words: usize,
        player: u8,
    ) -> Reply;

    /// The record at the start of these bytes.
    pub fn famdrize_decode(part: *const u8, part_bytes: usize) -> Decoded;
    /// Writes a record to the start of the buffer: 0, its length, 0; or 26, 27, 36.
    pub fn famdrize_encode(
        kind: u8,
        player: u8,
        entry: u8,
        high: u16,
        value: u32,
        serial: u32,
        out: *mut u8,
        out_bytes: usize,
    ) -> Reply;
    /// Writes the session's mark to the start of the buffer: 0 4 0, or 36.
    pub fn famdrize_put_mark(out: *mut u8, out_bytes: usize) -> Reply;
    /// Whether the session begins with the mark.
    pub fn famdrize_marked(session: *const u8, session_bytes: usize) -> bool;

    /// How many pending requests of the player the list holds: 0, count, 0; or 21, 28.
    pub fn famdrize_waiting(requests: *const Request, requests_places: usize, player: u8) -> Reply;

    /// Makes the table of a store used alone fresh: 0 0 0, or 21.
    pub fn famdrize_store_fresh(store: *mut u32, store_words: usize) -> Reply;
    /// Whether the table keeps the rules: 0 0 0, or 21, 22.
    pub fn famdrize_store_check(store: *const u32, store_words: usize) -> Reply;
    /// The same, where `last` is the last serial issued.
    pub fn famdrize_store_check_at(store: *const u32, store_words: usize, last: u32) -> Reply;
    /// Sets a guard: 0 1 0; 0 2 0 where the range does not lie in one tablet; or 21, 22, 28.
    pub fn famdrize_store_set_guard(
        store: *mut u32,
        store_words: usize,
        low: u8,
        high: u16,
        serial: u32,
    ) -> Reply;
    /// The entry's version and value: 0, version, value; or 21, 22.
    pub fn famdrize_store_read(store: *const u32, store_words: usize, entry: u8) -> Reply;
    /// The guard of the entry, and the first and the last entry of its guard interval: code 0; or 21, 22 and zeros.
    pub fn famdrize_store_find_interval(
        store: *const u32,
        store_words: usize,
        entry: u8,
    ) -> Interval;
    /// A write that carries a guard: 0 1 0 where it commits, else 0 2 0; or 21, 22, 28.
    pub fn famdrize_store_write(
        store: *mut u32,
        store_words: usize,
        entry: u8,
        value: u32,
        serial: u32,
        guard: u32,
    ) -> Reply;
    /// Sets a boundary before the entry: 0 0 0; or 21, 22, 28, 35.
    pub fn famdrize_store_split(store: *mut u32, store_words: usize, entry: u8) -> Reply;
    /// Removes the boundary before the entry: 0 0 0; or 21, 22, 28, 35.
    pub fn famdrize_store_merge(store: *mut u32, store_words: usize, entry: u8) -> Reply;
    /// The entries of the tablet that holds the entry are barred: 0 0 0; or 21, 22.
    pub fn famdrize_store_restart(store: *mut u32, store_words: usize, entry: u8) -> Reply;
}
