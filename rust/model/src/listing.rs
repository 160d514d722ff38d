//! The text of the listing program.

use crate::run::{run, REPLY_WORDS};
use crate::tables::fresh_tables;

/// "begins fresh with a budget of 16,384 and 5,460 list places"
pub const BUDGET: u32 = 16_384;
/// See [`BUDGET`].
pub const LIST_PLACES: usize = 5_460;

/// "Lines, each closed by one line feed: step ordinal and reply; last, why, records taken, place.
/// For a refused run only the header and an end line: its number, 0, 0."
pub fn listing(session: &[u8]) -> String {
    let (mut store, mut players) = fresh_tables();
    let mut list = vec![0; LIST_PLACES * REPLY_WORDS];
    let report = run(&mut store, &mut players, session, BUDGET, &mut list);
    let mut text = String::from("step code a b\n");
    for (ordinal, reply) in (1..=report.records).zip(list.chunks_exact(REPLY_WORDS)) {
        text.push_str(&format!(
            "{ordinal} {} {} {}\n",
            reply[0], reply[1], reply[2]
        ));
    }
    text.push_str(&format!(
        "end {} {} {}\n",
        report.why, report.records, report.place
    ));
    text
}
