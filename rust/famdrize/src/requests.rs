//! The requests in flight as a lent list of records.

use core::array;

use crate::{raw, Player, Refusal, PLAYERS_WORDS};

/// Places for requests in flight: [`OWN_PLACES`] of each player's own, and [`COMMON_PLACES`].
pub const REQUESTS: usize = 64;

/// Places for requests of a player's own: a player with fewer requests in flight is never refused for want of a place.
pub const OWN_PLACES: usize = 6;

/// Places for requests that are common to the players and the loader. Those in use are the loader's requests and each player's above
/// [`OWN_PLACES`], given up or not.
pub const COMMON_PLACES: usize = 16;

// The players' own and the common ones are all.
const _: () = assert!(8 * OWN_PLACES + COMMON_PLACES == REQUESTS);

/// What stands in place of a player's number in a request that is a load. (As the owner of an entry, in the words of a table, the same number
/// is nobody.)
pub const LOADER: u8 = 8;

/// The first word of the requests region in the players' table, and the words of a place of it.
const REGION: usize = 8705;
const PLACE_WORDS: usize = 12;

/// A request in flight, with marks that stand or do not; a place that is not used has serial 0.
pub type Request = raw::Request<bool>;

/// The places for requests of a players' table that keeps its rules.
pub(crate) fn in_table(players: &[u32; PLAYERS_WORDS]) -> [Request; REQUESTS] {
    array::from_fn(|i| Request::from_words(&players[REGION + PLACE_WORDS * i..][..PLACE_WORDS]))
}

impl Request {
    /// The request of a place of the players' table: 12 words of a table that keeps its rules, so each fits its field.
    fn from_words(words: &[u32]) -> Request {
        let byte =
            |at: usize| u8::try_from(words[at]).expect("a word of a table that keeps its rules");
        Request {
            serial: words[0],
            player: byte(1),
            kind: byte(2),
            low: byte(3),
            high: u16::try_from(words[4]).expect("a word of a table that keeps its rules"),
            value: words[5],
            guard: words[6],
            overlapped: words[7] != 0,
            delivered: words[8] != 0,
            abandoned: words[9] != 0,
            first: words[10],
            second: words[11],
        }
    }
}

/// How many pending requests of the player stand in a list. Nothing but its length is tested.
///
/// # Errors
///
/// 21 unless the list has [`REQUESTS`] places.
pub fn pending(requests: &[Request], player: Player) -> Result<u32, Refusal> {
    // SAFETY: a slice with its length, of a type laid out as the library's: a bool is one byte, 0 or 1. Bytes between fields are not read.
    let reply =
        unsafe { raw::famdrize_waiting(requests.as_ptr().cast(), requests.len(), player.number()) };
    Refusal::of_code(reply.code)?;
    Ok(reply.a)
}

#[cfg(test)]
mod tests {
    use super::*;
    use std::mem::{align_of, offset_of, size_of};
    use std::vec;

    /// Size, alignment, and the offset of each field.
    fn layout<Mark>() -> [usize; 14] {
        type Of<Mark> = raw::Request<Mark>;
        [
            size_of::<Of<Mark>>(),
            align_of::<Of<Mark>>(),
            offset_of!(Of<Mark>, serial),
            offset_of!(Of<Mark>, player),
            offset_of!(Of<Mark>, kind),
            offset_of!(Of<Mark>, low),
            offset_of!(Of<Mark>, high),
            offset_of!(Of<Mark>, value),
            offset_of!(Of<Mark>, guard),
            offset_of!(Of<Mark>, overlapped),
            offset_of!(Of<Mark>, delivered),
            offset_of!(Of<Mark>, abandoned),
            offset_of!(Of<Mark>, first),
            offset_of!(Of<Mark>, second),
        ]
    }

    #[test]
    fn a_request_is_laid_out_as_c_does() {
        let as_c = [32, 4, 0, 4, 5, 6, 8, 12, 16, 20, 21, 22, 24, 28];
        assert_eq!((layout::<u8>(), layout::<bool>()), (as_c, as_c));
    }

    #[test]
    fn pending_ones_of_the_player_are_counted() {
        let mut list = [Request::default(); 64];
        for (i, place) in list.iter_mut().enumerate().take(9) {
            *place = Request {
                serial: i as u32 + 1,
                player: (i % 3) as u8,
                kind: 4,
                abandoned: i == 3,
                ..Request::default()
            };
        }
        let count = |n| pending(&list, Player::new(n).unwrap());
        assert_eq!(
            [count(0), count(1), count(2), count(3)],
            [Ok(2), Ok(3), Ok(3), Ok(0)]
        );
        // a place in use is told by its serial alone
        list[63] = Request {
            serial: u32::MAX,
            player: 7,
            ..Request::default()
        };
        assert_eq!(pending(&list, Player::new(7).unwrap()), Ok(1));
    }

    #[test]
    fn a_mark_stands_where_its_number_is_not_0() {
        for (mark, count) in [(0, 64), (1, 0), (2, 0), (3, 0), (128, 0), (255, 0)] {
            let request = raw::Request {
                serial: 1,
                overlapped: 255 - mark,
                delivered: 255 - mark,
                abandoned: mark,
                ..raw::Request::default()
            };
            let list = [request; 64];
            // SAFETY: a slice with its length.
            let reply = unsafe { raw::famdrize_waiting(list.as_ptr(), list.len(), 0) };
            assert_eq!((reply.code, reply.a, reply.b), (0, count, 0), "{mark}");
        }
    }

    #[test]
    fn a_list_of_another_length_is_refused() {
        let player = Player::new(0).unwrap();
        for places in [0, 1, 63, 65] {
            assert_eq!(
                pending(&vec![Request::default(); places], player),
                Err(Refusal::TableLength)
            );
        }
    }
}
