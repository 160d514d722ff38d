//! Situations of the shares of places (document 02 §5): who has how many requests when another one is sent,
//! and what makes room.

use calls::{Reply, Step};
use model::faults::{Fault, NoFault};
use model::numbers::{COMMON_PLACES, LOADER, MAX_SERIAL, OWN_PLACES, PLAYERS};
use model::reply::{code, Refusal};
use model::rules;
use model::shares::{common_in_use, counts, is_turned_away, Counts};
use model::state::State;

/// Who sends a request.
#[derive(Clone, Copy, Debug, PartialEq, Eq)]
#[allow(missing_docs)]
pub enum Sender {
    Player,
    Loader,
}

impl Sender {
    fn of(number: u8) -> Sender {
        match number {
            LOADER => Sender::Loader,
            _ => Sender::Player,
        }
    }
}

/// What a step has to do with the shares.
#[derive(Clone, Copy, Debug, PartialEq, Eq)]
pub enum OnShares {
    /// A player with so many requests, fewer than 6, is let in while the common places are taken.
    OwnPlace(usize),
    /// A sender with so many requests takes the last common place.
    LastCommon(Sender, usize),
    /// A sender with so many requests gets 38.
    TurnedAway(Sender, usize),
    /// A sender gets 38, and would be let in if no request were given up.
    ForAbandoned(Sender),
    /// A sender gets 38, and would be let in if none were delivered.
    ForDelivered(Sender),
    /// A player with 6 requests gets 38, where other players have all the common places.
    ForPlayers,
    /// The same where the loader has them.
    ForLoads,
    /// A sender gets 38 where no serial is left: 34 would come after it.
    BeforeSerials(Sender),
    /// A player gets this refusal, which comes before 38, where 38 would be next.
    After(Refusal),
    /// A player reads from memory where its request would get 38.
    FromMemory,
    /// A sender that got 38 is let in.
    Again(Sender),
    /// A step of this kind frees a common place where all were taken.
    FreedBy(u8),
}

impl OnShares {
    /// All.
    pub const ALL: [OnShares; 33] = [
        OnShares::OwnPlace(0),
        OnShares::OwnPlace(5),
        OnShares::LastCommon(Sender::Player, 6),
        OnShares::LastCommon(Sender::Player, 7),
        OnShares::LastCommon(Sender::Player, 21),
        OnShares::LastCommon(Sender::Loader, 0),
        OnShares::LastCommon(Sender::Loader, 15),
        OnShares::TurnedAway(Sender::Player, 6),
        OnShares::TurnedAway(Sender::Player, 7),
        OnShares::TurnedAway(Sender::Player, 21),
        OnShares::TurnedAway(Sender::Player, 22),
        OnShares::TurnedAway(Sender::Loader, 0),
        OnShares::TurnedAway(Sender::Loader, 15),
        OnShares::TurnedAway(Sender::Loader, 16),
        OnShares::ForAbandoned(Sender::Player),
        OnShares::ForAbandoned(Sender::Loader),
        OnShares::ForDelivered(Sender::Player),
        OnShares::ForDelivered(Sender::Loader),
        OnShares::ForPlayers,
        OnShares::ForLoads,
        OnShares::BeforeSerials(Sender::Player),
        OnShares::BeforeSerials(Sender::Loader),
        OnShares::After(Refusal::NotOwner),
        OnShares::After(Refusal::NoLiveGuard),
        OnShares::After(Refusal::GuardRequestPending),
        OnShares::FromMemory,
        OnShares::Again(Sender::Player),
        OnShares::Again(Sender::Loader),
        OnShares::FreedBy(6),
        OnShares::FreedBy(7),
        OnShares::FreedBy(8),
        OnShares::FreedBy(9),
        OnShares::FreedBy(13),
    ];

    /// Whether it is of a load that is sent.
    pub fn is_of_loader(self) -> bool {
        matches!(
            self,
            OnShares::LastCommon(Sender::Loader, _)
                | OnShares::TurnedAway(Sender::Loader, _)
                | OnShares::ForAbandoned(Sender::Loader)
                | OnShares::ForDelivered(Sender::Loader)
                | OnShares::BeforeSerials(Sender::Loader)
                | OnShares::Again(Sender::Loader)
        )
    }
}

/// Takes steps by the model, and tells which situations of the shares they meet.
#[derive(Clone, Debug, Default)]
pub struct Watch {
    /// The senders that got 38 and have not been let in since.
    turned_away: [bool; PLAYERS + 1],
}

impl Watch {
    /// The next step.
    pub fn step(&mut self, state: &mut State, step: Step) -> (Reply, Vec<OnShares>) {
        let before = counts(&state.requests);
        let reply = rules::step(state, step);
        let found = match sender(step) {
            Some(sender) if reply.code == code::ISSUED => self.let_in(&before, sender),
            // A refused step, and a read from memory, leave the requests as they were.
            Some(sender) if is_turned_away(&state.requests, sender, &NoFault) => {
                self.turned_away[usize::from(sender)] |= reply == Refusal::NoPlaceLeft.into();
                without_place(state, sender, reply)
            }
            Some(_) => Vec::new(),
            None => freed(&before, state, step).into_iter().collect(),
        };
        (reply, found)
    }

    /// A sender is let in.
    fn let_in(&mut self, before: &Counts, sender: u8) -> Vec<OnShares> {
        let at = usize::from(sender);
        let count = before[at];
        let is_own = sender != LOADER && count < OWN_PLACES;
        let mut found = Vec::new();
        match common_in_use(before) {
            COMMON_PLACES => found.push(OnShares::OwnPlace(count)),
            in_use if in_use + 1 == COMMON_PLACES && !is_own => {
                found.push(OnShares::LastCommon(Sender::of(sender), count));
            }
            _ => {}
        }
        if std::mem::take(&mut self.turned_away[at]) {
            found.push(OnShares::Again(Sender::of(sender)));
        }
        found
    }
}

/// Who sends a request by this step.
fn sender(step: Step) -> Option<u8> {
    match step {
        Step::RequestGuard { player, .. }
        | Step::Read { player, .. }
        | Step::Write { player, .. } => Some(player).filter(|&player| player < LOADER),
        Step::Load { .. } => Some(LOADER),
        _ => None,
    }
}

/// A sender that finds no place gets this reply.
fn without_place(state: &State, number: u8, reply: Reply) -> Vec<OnShares> {
    let sender = Sender::of(number);
    let refused = |refusal: Refusal| reply == refusal.into();
    if reply.code == code::FROM_MEMORY {
        return vec![OnShares::FromMemory];
    }
    if !refused(Refusal::NoPlaceLeft) {
        let before = [
            Refusal::NotOwner,
            Refusal::NoLiveGuard,
            Refusal::GuardRequestPending,
        ];
        let its = before.into_iter().find(|&refusal| refused(refusal));
        return its.map(OnShares::After).into_iter().collect();
    }
    let counts = counts(&state.requests);
    let count = counts[usize::from(number)];
    let loads = counts[usize::from(LOADER)];
    let has_own_alone = sender == Sender::Player && count == OWN_PLACES;
    let let_in_by = |fault: Fault| !is_turned_away(&state.requests, number, &fault);
    let met = [
        (true, OnShares::TurnedAway(sender, count)),
        (
            let_in_by(Fault::AbandonedUncounted),
            OnShares::ForAbandoned(sender),
        ),
        (
            let_in_by(Fault::DeliveredUncounted),
            OnShares::ForDelivered(sender),
        ),
        (has_own_alone && loads == 0, OnShares::ForPlayers),
        (has_own_alone && loads == COMMON_PLACES, OnShares::ForLoads),
        (
            state.last_serial == MAX_SERIAL,
            OnShares::BeforeSerials(sender),
        ),
    ];
    let its = met.into_iter().filter(|(holds, _)| *holds);
    its.map(|(_, situation)| situation).collect()
}

/// Whether a step has freed a common place where all were taken.
fn freed(before: &Counts, state: &State, step: Step) -> Option<OnShares> {
    let after = counts(&state.requests);
    let is_freed = common_in_use(before) == COMMON_PLACES && common_in_use(&after) < COMMON_PLACES;
    is_freed.then_some(OnShares::FreedBy(step.kind()))
}
