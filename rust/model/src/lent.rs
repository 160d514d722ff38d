//! "The rows in flight are also offered as a lent list of records".

use calls::{Reply, Request};

use crate::numbers::{MAX_REQUESTS, PLAYERS};
use crate::reply::{code, Refusal};
use crate::request_words::{RequestWords, REQUEST_WORDS};
use crate::tables::{COUNTERS, PLAYERS_WORDS, REQUESTS};

/// A place of the table as a record; none if a word is too large for its field.
fn record(place: &[u32]) -> Option<Request> {
    let words = RequestWords::from_slice(place)?;
    let byte = |word: u32| u8::try_from(word).ok();
    Some(Request {
        serial: words.serial,
        player: byte(words.player)?,
        kind: byte(words.kind)?,
        low: byte(words.low)?,
        high: u16::try_from(words.high).ok()?,
        value: words.value,
        guard: words.guard,
        overlapped: byte(words.overlapped)?,
        delivered: byte(words.delivered)?,
        abandoned: byte(words.abandoned)?,
        first: words.outcome[0],
        second: words.outcome[1],
    })
}

/// The 64 places of a players' table as records. None if the table has another length, or a word that
/// is too large for its field.
pub fn records(players: &[u32]) -> Option<Vec<Request>> {
    if players.len() != PLAYERS_WORDS {
        return None;
    }
    let places = players[REQUESTS..COUNTERS].chunks_exact(REQUEST_WORDS);
    places.map(record).collect()
}

/// "one thin call counts a player's waiting rows (21 unless 64 places, then 28; nothing else is
/// tested)". Reading 19: "a place counts when its serial is not 0, its given-up mark is not set
/// and its player is the one asked; reply 0, count, 0". A mark is set where its number is not 0.
pub fn pending_requests(list: &[Request], player: u8) -> Reply {
    if list.len() != MAX_REQUESTS {
        return Reply::from(Refusal::TableLength);
    }
    if usize::from(player) >= PLAYERS {
        return Reply::from(Refusal::Number);
    }
    let counts = |r: &&Request| r.serial != 0 && r.abandoned == 0 && r.player == player;
    let count = list.iter().filter(counts).count();
    Reply::new(code::DONE, count as u32, 0)
}
