//! The proved library behind its exported calls (`include/famdrize.h`), as a [`Library`].
//!
//! The declarations are those of the crate `famdrize`, which links `target/staticlib/libfamdrize.a`; its safe
//! types are passed by here, as the comparison also hands in what they leave out.

#![warn(missing_docs)]

use calls::{Decoded, Fields, Interval, Library, Reply, Report, Request};
use famdrize::raw;

fn reply(said: raw::Reply) -> Reply {
    Reply {
        code: said.code,
        a: said.a,
        b: said.b,
    }
}

fn report(told: raw::Report) -> Report {
    Report {
        why: told.why,
        records: told.records,
        place: told.place,
    }
}

fn request(request: &Request) -> raw::Request {
    raw::Request {
        serial: request.serial,
        player: request.player,
        kind: request.kind,
        low: request.low,
        high: request.high,
        value: request.value,
        guard: request.guard,
        overlapped: request.overlapped,
        delivered: request.delivered,
        abandoned: request.abandoned,
        first: request.first,
        second: request.second,
    }
}

/// The proved library.
#[derive(Clone, Copy, Debug, Default)]
pub struct Proved;

// SAFETY, for every call below: pointer and length are those of one slice, which is valid for the
// call, not null, aligned, and overlaps no other slice that is written; the call keeps nothing.
impl Library for Proved {
    fn fresh(&self, s: &mut [u32], p: &mut [u32]) -> Reply {
        reply(unsafe { raw::famdrize_fresh(s.as_mut_ptr(), s.len(), p.as_mut_ptr(), p.len()) })
    }

    fn check(&self, s: &[u32], p: &[u32]) -> Reply {
        reply(unsafe { raw::famdrize_check(s.as_ptr(), s.len(), p.as_ptr(), p.len()) })
    }

    fn step(&self, s: &mut [u32], p: &mut [u32], step: Fields) -> Reply {
        reply(unsafe {
            raw::famdrize_step(
                s.as_mut_ptr(),
                s.len(),
                p.as_mut_ptr(),
                p.len(),
                step.kind,
                step.player,
                step.entry,
                step.high,
                step.value,
                step.serial,
            )
        })
    }

    fn run(
        &self,
        s: &mut [u32],
        p: &mut [u32],
        session: &[u8],
        budget: u32,
        replies: &mut [u32],
    ) -> Report {
        report(unsafe {
            raw::famdrize_run(
                s.as_mut_ptr(),
                s.len(),
                p.as_mut_ptr(),
                p.len(),
                session.as_ptr(),
                session.len(),
                budget,
                replies.as_mut_ptr(),
                replies.len(),
            )
        })
    }

    fn preview(&self, s: &[u32], p: &[u32], step: Fields) -> Reply {
        reply(unsafe {
            raw::famdrize_preview(
                s.as_ptr(),
                s.len(),
                p.as_ptr(),
                p.len(),
                step.kind,
                step.player,
                step.entry,
                step.high,
                step.value,
                step.serial,
            )
        })
    }

    fn preview_run(
        &self,
        s: &[u32],
        p: &[u32],
        session: &[u8],
        budget: u32,
        replies: &mut [u32],
    ) -> Report {
        report(unsafe {
            raw::famdrize_preview_run(
                s.as_ptr(),
                s.len(),
                p.as_ptr(),
                p.len(),
                session.as_ptr(),
                session.len(),
                budget,
                replies.as_mut_ptr(),
                replies.len(),
            )
        })
    }

    fn share(&self, s: &[u32], p: &[u32], player: u8) -> Reply {
        reply(unsafe { raw::famdrize_share(s.as_ptr(), s.len(), p.as_ptr(), p.len(), player) })
    }

    fn decode(&self, part: &[u8]) -> Decoded {
        let found = unsafe { raw::famdrize_decode(part.as_ptr(), part.len()) };
        Decoded {
            code: found.code,
            length: found.length,
            kind: found.kind,
            player: found.player,
            entry: found.entry,
            high: found.high,
            value: found.value,
            serial: found.serial,
        }
    }

    fn encode(&self, step: Fields, out: &mut [u8]) -> Reply {
        reply(unsafe {
            raw::famdrize_encode(
                step.kind,
                step.player,
                step.entry,
                step.high,
                step.value,
                step.serial,
                out.as_mut_ptr(),
                out.len(),
            )
        })
    }

    fn put_mark(&self, out: &mut [u8]) -> Reply {
        reply(unsafe { raw::famdrize_put_mark(out.as_mut_ptr(), out.len()) })
    }

    fn marked(&self, session: &[u8]) -> bool {
        unsafe { raw::famdrize_marked(session.as_ptr(), session.len()) }
    }

    fn waiting(&self, list: &[Request], player: u8) -> Reply {
        let list: Vec<raw::Request> = list.iter().map(request).collect();
        reply(unsafe { raw::famdrize_waiting(list.as_ptr(), list.len(), player) })
    }

    fn store_fresh(&self, s: &mut [u32]) -> Reply {
        reply(unsafe { raw::famdrize_store_fresh(s.as_mut_ptr(), s.len()) })
    }

    fn store_check(&self, s: &[u32]) -> Reply {
        reply(unsafe { raw::famdrize_store_check(s.as_ptr(), s.len()) })
    }

    fn store_check_at(&self, s: &[u32], last: u32) -> Reply {
        reply(unsafe { raw::famdrize_store_check_at(s.as_ptr(), s.len(), last) })
    }

    fn store_read(&self, s: &[u32], entry: u8) -> Reply {
        reply(unsafe { raw::famdrize_store_read(s.as_ptr(), s.len(), entry) })
    }

    fn store_find_interval(&self, s: &[u32], entry: u8) -> Interval {
        let found = unsafe { raw::famdrize_store_find_interval(s.as_ptr(), s.len(), entry) };
        Interval {
            code: found.code,
            guard: found.guard,
            first: found.first,
            last: found.last,
        }
    }

    fn store_write(&self, s: &mut [u32], entry: u8, value: u32, serial: u32, guard: u32) -> Reply {
        reply(unsafe {
            raw::famdrize_store_write(s.as_mut_ptr(), s.len(), entry, value, serial, guard)
        })
    }

    fn store_set_guard(&self, s: &mut [u32], low: u8, high: u16, serial: u32) -> Reply {
        reply(unsafe { raw::famdrize_store_set_guard(s.as_mut_ptr(), s.len(), low, high, serial) })
    }

    fn store_split(&self, s: &mut [u32], entry: u8) -> Reply {
        reply(unsafe { raw::famdrize_store_split(s.as_mut_ptr(), s.len(), entry) })
    }

    fn store_merge(&self, s: &mut [u32], entry: u8) -> Reply {
        reply(unsafe { raw::famdrize_store_merge(s.as_mut_ptr(), s.len(), entry) })
    }

    fn store_restart(&self, s: &mut [u32], entry: u8) -> Reply {
        reply(unsafe { raw::famdrize_store_restart(s.as_mut_ptr(), s.len(), entry) })
    }
}
