//! Document 02 §4, "Trying a step first": the reply of a step, and the report and replies of a run, before
//! they are taken.

use calls::{Reply, Report, Step};

use crate::faults::Switches;
use crate::{rules, run, tables};

/// "a budget above 16 counting as 16"
pub const MOST_RECORDS: u32 = 16;

/// "A preview takes tables and a step, alters nothing and gives that reply, for every kind and refusal":
/// for 21 and 22 too, which the step tests first.
pub fn step(store: &[u32], players: &[u32], step: Step, faults: &impl Switches) -> Reply {
    match tables::decode_with(store, players, faults) {
        Ok(mut state) => rules::step_with(&mut state, step, faults),
        Err(error) => Reply::from(error.refusal()),
    }
}

/// "A run can be previewed likewise, with its report and replies, a budget above 16 counting as 16; only
/// the list for replies is written." Where 16 records are taken and another is left it is 9, as with any
/// budget that is spent; a refused run leaves the list too.
pub fn run(
    store: &[u32],
    players: &[u32],
    session: &[u8],
    budget: u32,
    list: &mut [u32],
) -> Report {
    let (mut store, mut players) = (store.to_vec(), players.to_vec());
    let budget = budget.min(MOST_RECORDS);
    run::run(&mut store, &mut players, session, budget, list)
}
