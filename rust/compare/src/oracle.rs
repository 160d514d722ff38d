//! The model of the rules as a library.

use calls::{Decoded, Fields, Interval, Library, Range, Reply, Report, Request, Step};
use model::faults::{NoFault, Switches};
use model::{codec, counters, lent, preview, run, store_calls, tables};

/// The model; with a fault in place of [`NoFault`] it is wrong in that point.
#[derive(Clone, Copy, Debug)]
pub struct Model<S>(pub S);

/// The model by the right rules.
pub const RIGHT: Model<NoFault> = Model(NoFault);

impl<S: Switches> Library for Model<S> {
    fn fresh(&self, store: &mut [u32], players: &mut [u32]) -> Reply {
        tables::fresh(store, players)
    }

    fn check(&self, store: &[u32], players: &[u32]) -> Reply {
        tables::check_with(store, players, &self.0)
    }

    fn step(&self, store: &mut [u32], players: &mut [u32], step: Fields) -> Reply {
        match Step::try_from(step) {
            Ok(step) => run::step_tables(store, players, step, &self.0),
            Err(number) => Reply::refused(number),
        }
    }

    fn run(
        &self,
        store: &mut [u32],
        players: &mut [u32],
        session: &[u8],
        budget: u32,
        replies: &mut [u32],
    ) -> Report {
        run::run_with(store, players, session, budget, replies, &self.0)
    }

    fn preview(&self, store: &[u32], players: &[u32], step: Fields) -> Reply {
        match Step::try_from(step) {
            Ok(step) => preview::step(store, players, step, &self.0),
            Err(number) => Reply::refused(number),
        }
    }

    /// By the right rules. (What a fault does to the replies of a run is seen in [`Library::run`].)
    fn preview_run(
        &self,
        store: &[u32],
        players: &[u32],
        session: &[u8],
        budget: u32,
        replies: &mut [u32],
    ) -> Report {
        preview::run(store, players, session, budget, replies)
    }

    fn share(&self, store: &[u32], players: &[u32], player: u8) -> Reply {
        counters::share_with(store, players, player, &self.0)
    }

    fn decode(&self, part: &[u8]) -> Decoded {
        match codec::decode(part) {
            Err(refusal) => Decoded::refused(refusal.number()),
            Ok((step, length)) => Decoded::record(length, step),
        }
    }

    fn encode(&self, step: Fields, out: &mut [u8]) -> Reply {
        match Step::try_from(step) {
            Ok(step) => codec::encode(step, out),
            Err(number) => Reply::refused(number),
        }
    }

    fn put_mark(&self, out: &mut [u8]) -> Reply {
        codec::encode_mark(out)
    }

    fn marked(&self, session: &[u8]) -> bool {
        session.starts_with(&codec::MARK)
    }

    fn waiting(&self, list: &[Request], player: u8) -> Reply {
        lent::pending_requests(list, player)
    }

    fn store_fresh(&self, store: &mut [u32]) -> Reply {
        store_calls::fresh(store)
    }

    fn store_check(&self, store: &[u32]) -> Reply {
        store_calls::check(store)
    }

    fn store_check_at(&self, store: &[u32], last: u32) -> Reply {
        store_calls::check_at(store, last)
    }

    fn store_read(&self, store: &[u32], entry: u8) -> Reply {
        store_calls::read(store, entry)
    }

    fn store_find_interval(&self, store: &[u32], entry: u8) -> Interval {
        store_calls::find_interval_with(store, entry, &self.0)
    }

    fn store_write(
        &self,
        store: &mut [u32],
        entry: u8,
        value: u32,
        serial: u32,
        guard: u32,
    ) -> Reply {
        store_calls::write_with(store, entry, serial, value, guard, &self.0)
    }

    fn store_set_guard(&self, store: &mut [u32], low: u8, high: u16, serial: u32) -> Reply {
        store_calls::set_guard(store, Range::new(low, high), serial)
    }

    fn store_split(&self, store: &mut [u32], entry: u8) -> Reply {
        store_calls::split(store, entry)
    }

    fn store_merge(&self, store: &mut [u32], entry: u8) -> Reply {
        store_calls::merge(store, entry)
    }

    fn store_restart(&self, store: &mut [u32], entry: u8) -> Reply {
        store_calls::restart(store, entry)
    }
}
