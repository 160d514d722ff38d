//! The calls as the library exports them.

use calls::{Decoded, Fields, Library, Range, Reply, Report, Request, Step};

use crate::{answer, counters, known, players, records, run, steps, store, KINDS};

/// The port as a library.
#[derive(Clone, Copy, Debug, Default)]
pub struct Port;

/// The step of these fields: 26 for a kind that the port does not know, then 27.
fn step_of(fields: Fields) -> Result<Step, u32> {
    known(fields.kind)?;
    Step::try_from(fields)
}

impl Library for Port {
    fn kinds(&self) -> u8 {
        KINDS
    }

    fn fresh(&self, store: &mut [u32], players: &mut [u32]) -> Reply {
        players::fresh(store, players)
    }

    fn check(&self, store: &[u32], players: &[u32]) -> Reply {
        players::check(store, players)
    }

    fn step(&self, store: &mut [u32], players: &mut [u32], step: Fields) -> Reply {
        match step_of(step) {
            Ok(step) => steps::step(store, players, step),
            Err(number) => Reply::refused(number),
        }
    }

    fn run(
        &self,
        store: &mut [u32],
        players: &mut [u32],
        session: &[u8],
        budget: u32,
        replies: &mut [u32],
    ) -> Report {
        run::run(store, players, session, budget, replies)
    }

    fn share(&self, store: &[u32], players: &[u32], player: u8) -> Reply {
        counters::share(store, players, player)
    }

    fn decode(&self, part: &[u8]) -> Decoded {
        match records::decode(part) {
            Err(code) => Decoded::refused(code),
            Ok((step, length)) => Decoded::record(length, step),
        }
    }

    fn encode(&self, step: Fields, out: &mut [u8]) -> Reply {
        match step_of(step) {
            Ok(step) => records::encode(step, out),
            Err(number) => Reply::refused(number),
        }
    }

    fn put_mark(&self, out: &mut [u8]) -> Reply {
        records::put_mark(out)
    }

    fn marked(&self, session: &[u8]) -> bool {
        records::marked(session)
    }

    fn waiting(&self, list: &[Request], player: u8) -> Reply {
        if list.len() != 64 {
            return Reply::refused(21);
        }
        if player > 7 {
            return Reply::refused(28);
        }
        let counts = |r: &&Request| r.serial != 0 && r.player == player && r.abandoned == 0;
        answer(list.iter().filter(counts).count() as u32)
    }

    fn store_fresh(&self, store: &mut [u32]) -> Reply {
        store::fresh(store)
    }

    fn store_check(&self, store: &[u32]) -> Reply {
        store::check(store)
    }

    fn store_check_at(&self, store: &[u32], last: u32) -> Reply {
        store::check_at(store, last)
    }

    fn store_read(&self, store: &[u32], entry: u8) -> Reply {
        store::read(store, entry)
    }

    fn store_write(
        &self,
        store: &mut [u32],
        entry: u8,
        value: u32,
        serial: u32,
        guard: u32,
    ) -> Reply {
        store::write(store, entry, value, serial, guard)
    }

    fn store_set_guard(&self, store: &mut [u32], low: u8, high: u16, serial: u32) -> Reply {
        store::set_guard(store, Range::new(low, high), serial)
    }

    fn store_split(&self, store: &mut [u32], entry: u8) -> Reply {
        store::split(store, entry)
    }

    fn store_merge(&self, store: &mut [u32], entry: u8) -> Reply {
        store::merge(store, entry)
    }

    fn store_restart(&self, store: &mut [u32], entry: u8) -> Reply {
        store::restart(store, entry)
    }
}
