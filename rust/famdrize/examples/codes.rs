//! The words for every code of a reply or refusal, and for every reason for which a run stops; the
//! numbers that the crate names. codes.txt is what it prints.

use famdrize::{Reply, Why, BARRED, COMMON_PLACES, LAST_COUNT, LOADER, MOST_RECORDS, OPEN_GUARD};
use famdrize::{
    OWN_PLACES, PLAYERS_WORDS, PREVIEW_RECORDS, RECORD_BYTES, REQUESTS, SESSION_BYTES, STORE_WORDS,
};

fn main() {
    println!("codes of replies and refusals");
    for code in 0..=255 {
        // both numbers are 0 in some reply of each code
        if let Some(reply) = Reply::from_numbers([code, 0, 0]) {
            println!("{code} {}", reply.words());
        }
    }
    println!("reasons of a run");
    for number in 0..=255 {
        if let Some(why) = Why::from_number(number) {
            println!("{number} {}", why.words());
        }
    }
    println!("numbers");
    println!("words of the store's table: {STORE_WORDS}");
    println!("words of the players' table: {PLAYERS_WORDS}");
    println!("places for requests: {REQUESTS}");
    println!("places of a player's own: {OWN_PLACES}");
    println!("common places: {COMMON_PLACES}");
    println!("bytes of the longest session: {SESSION_BYTES}");
    println!("bytes of the longest record: {RECORD_BYTES}");
    println!("most records of a session: {MOST_RECORDS}");
    println!("most records of a preview: {PREVIEW_RECORDS}");
    println!("highest count of reads: {LAST_COUNT}");
    println!("an open guard: {OPEN_GUARD}");
    println!("barred: {BARRED}");
    println!("the loader: {LOADER}");
}
