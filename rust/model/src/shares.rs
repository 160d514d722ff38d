//! Document 02 §5, "Rows for everyone": whose the places for requests are. A sender is a player, or the
//! loader.

use crate::faults::{Fault, Switches};
use crate::numbers::{COMMON_PLACES, LOADER, MAX_REQUESTS, OWN_PLACES, PLAYERS};
use crate::state::Request;

/// How many requests each player has in flight and, last, how many the loader has.
pub type Counts = [usize; PLAYERS + 1];

/// Counts the requests of each sender: "given up or not", and delivered or not, as all are in flight.
pub fn counts<'a>(requests: impl IntoIterator<Item = &'a Request>) -> Counts {
    let mut counts = [0; PLAYERS + 1];
    for request in requests {
        counts[usize::from(request.player)] += 1;
    }
    counts
}

/// "Common rows in use are the loader's rows plus each player's above 6, given up or not."
pub fn common_in_use(counts: &Counts) -> usize {
    let above = |count: &usize| count.saturating_sub(OWN_PLACES);
    let players: usize = counts[..PLAYERS].iter().map(above).sum();
    counts[usize::from(LOADER)] + players
}

/// Whether a request that this sender would send gets 38.
pub fn is_turned_away(requests: &[Request], sender: u8, faults: &impl Switches) -> bool {
    let counted = requests.iter().filter(|r| is_counted(r, faults));
    is_without_place(&counts(counted), sender, faults)
}

/// "38 when the player has 6 rows or more, or is the loader, and the 16 common rows are in use"
pub fn is_without_place(counts: &Counts, sender: u8, faults: &impl Switches) -> bool {
    if faults.has(Fault::NoShares) {
        return counts.iter().sum::<usize>() >= MAX_REQUESTS;
    }
    let own = own_places(sender, faults);
    counts[usize::from(sender)] >= own && is_common_taken(counts, sender, faults)
}

/// Whether the requests of a table keep the shares: "Tables breaking these shares are 22."
pub fn are_kept(requests: &[Request], faults: &impl Switches) -> bool {
    let counted = |r: &&Request| r.is_pending() || !faults.has(Fault::SharesOfPendingAlone);
    let common = common_in_use(&counts(requests.iter().filter(counted)));
    let most = match faults.has(Fault::FullSharesRefused) {
        true => COMMON_PLACES - 1,
        false => COMMON_PLACES,
    };
    common <= most || faults.has(Fault::SharesUntested)
}

/// Every request is counted; faults pass some over.
fn is_counted(request: &Request, faults: &impl Switches) -> bool {
    let passed_over = request.abandoned && faults.has(Fault::AbandonedUncounted)
        || request.is_delivered() && faults.has(Fault::DeliveredUncounted)
        || (request.abandoned || request.is_delivered()) && faults.has(Fault::OnlyUnderwayCounted);
    !passed_over
}

/// "Each of the eight players now has 6 rows of its own", and the loader has none.
fn own_places(sender: u8, faults: &impl Switches) -> usize {
    match sender {
        LOADER if faults.has(Fault::LoaderHasOwnPlaces) => OWN_PLACES,
        LOADER => 0,
        _ if faults.has(Fault::AllTurnedAway) => 0,
        _ if faults.has(Fault::SixthTurnedAway) => OWN_PLACES - 1,
        _ if faults.has(Fault::SevenOwnPlaces) => OWN_PLACES + 1,
        _ => OWN_PLACES,
    }
}

/// Whether "the 16 common rows are in use".
fn is_common_taken(counts: &Counts, sender: u8, faults: &impl Switches) -> bool {
    let counts = mistaken_counts(*counts, sender, faults);
    let places = if faults.has(Fault::SeventeenthLetIn) {
        COMMON_PLACES + 1
    } else if faults.has(Fault::SixteenthTurnedAway) {
        COMMON_PLACES - 1
    } else {
        COMMON_PLACES
    };
    common_in_use(&counts) >= places || faults.has(Fault::OwnPlacesAlone)
}

/// What faults make of the counts, before the common ones are told from them.
fn mistaken_counts(mut counts: Counts, sender: u8, faults: &impl Switches) -> Counts {
    let (players, loader) = counts.split_at_mut(PLAYERS);
    for (player, count) in (0..).zip(players) {
        if faults.has(Fault::OthersUncounted) && player != sender {
            *count = 0;
        }
        if faults.has(Fault::SevenOwnPlaces) {
            *count = count.saturating_sub(1);
        }
    }
    for count in loader {
        if faults.has(Fault::LoadsUncounted) {
            *count = 0;
        }
        if faults.has(Fault::LoaderHasOwnPlaces) {
            *count = count.saturating_sub(OWN_PLACES);
        }
    }
    counts
}
