//! The steps, on the store's table and the players'.

use calls::{Reply, Step, UNKNOWN_KIND};

use crate::{issuing, leaving, ownership, players, responding, store, store_steps, PLAYERS, STORE};

/// A step on tables that are known to keep the rules: their lengths alone are tested.
pub fn apply(store: &mut [u32], players: &mut [u32], next: Step) -> Reply {
    if store.len() != STORE || players.len() != PLAYERS {
        return Reply::refused(21);
    }
    match next {
        Step::Assign { player, range } => ownership::assign(players, player, range),
        Step::Release { range } => ownership::release(players, range),
        Step::RequestGuard { player, range } => issuing::request_guard(players, player, range),
        Step::Read { player, entry } => issuing::read(players, player, entry),
        Step::Write {
            player,
            entry,
            value,
        } => issuing::write(players, player, entry, value),
        Step::Deliver { serial } => store_steps::deliver(store, players, serial),
        Step::Respond { serial } => responding::respond(players, serial),
        Step::Abandon { serial } => leaving::abandon(players, serial),
        Step::Lose { serial } => leaving::lose(players, serial),
        Step::Split { entry } => store::unchecked::split(store, entry),
        Step::Merge { entry } => store::unchecked::merge(store, entry),
        Step::RestartTablet { entry } => store::unchecked::restart(store, entry),
        Step::RestartPlayer { player } => leaving::restart_player(players, player),
        // A later kind; `known` refuses it before it comes here.
        #[allow(unreachable_patterns)]
        _ => Reply::refused(UNKNOWN_KIND),
    }
}

/// A step: the tables are tested first.
pub fn step(store: &mut [u32], players: &mut [u32], next: Step) -> Reply {
    let tested = players::check(store, players);
    if tested.code != 0 {
        return tested;
    }
    apply(store, players, next)
}
