//! A run over a session.

use calls::Report;

use crate::records::{decode, marked};
use crate::{players, steps};

/// A run: the tables and the session are tested once, then each record is taken.
pub fn run(
    store: &mut [u32],
    players: &mut [u32],
    session: &[u8],
    budget: u32,
    replies: &mut [u32],
) -> Report {
    let tested = players::check(store, players);
    if tested.code != 0 {
        return Report::refused(tested.code);
    }
    if session.len() > 16_384 {
        return Report::refused(37);
    }
    if !marked(session) {
        return Report::refused(23);
    }
    let mut places = replies.chunks_exact_mut(3);
    let mut records = 0;
    let mut place = 4;
    let why = loop {
        if place == session.len() {
            break 0;
        }
        if records == budget {
            break 9;
        }
        let Some(reply) = places.next() else {
            break 9;
        };
        match decode(&session[place..]) {
            Err(number) => break number,
            Ok((step, length)) => {
                let said = steps::apply(store, players, step);
                reply.copy_from_slice(&[said.code, said.a, said.b]);
                records += 1;
                place += length;
            }
        }
    };
    Report {
        why,
        records,
        place: place as u32,
    }
}
