//! Step 6, which reads or writes the store's table.

use calls::{Range, Reply, Request};

use crate::region;
use crate::store::unchecked;

/// What the store does with a request that is delivered. The reply's two numbers are the outcome.
fn perform(store: &mut [u32], r: Request) -> Reply {
    match r.kind {
        3 => {
            let range = Range {
                low: r.low,
                high: r.high,
            };
            unchecked::install(store, range, r.serial)
        }
        4 => unchecked::read(store, r.low),
        _ => unchecked::commit(store, r.low, r.value, r.serial, r.guard),
    }
}

/// Step 6: a request that is not delivered yet reaches the store. If it is abandoned, it leaves.
pub fn deliver(store: &mut [u32], players: &mut [u32], serial: u32) -> Reply {
    let region = &mut players[8705..9473];
    let Some((place, request)) = region::find(region, serial) else {
        return Reply::refused(32);
    };
    if request.delivered != 0 {
        return Reply::refused(32);
    }
    let outcome = perform(store, request);
    if request.abandoned != 0 {
        region::remove(region, place);
    } else {
        region::deliver(region, place, outcome.a, outcome.b);
    }
    Reply::DONE
}
