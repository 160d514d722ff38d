//! Libraries that are wrong in one point each. They show what the comparison sees: every one of them
//! must be caught, and the case it is caught on shrunk.
//!
//! Five sorts: the port behind a call that is wrong in a point ([`Point`]), behind a preview that is
//! ([`PreviewPoint`]), or behind read counters or a share that are ([`CounterPoint`]), the port with a test of the
//! tables that misses one rule, and the model with one of its faults.

use calls::{Decoded, Fields, Library, Reply, Report, Request, KINDS};
use model::faults::Fault;
use model::numbers::{COMMON_PLACES, LOADER, MAX_REQUESTS, OWN_PLACES, PLAYERS};
use model::shares::{self, common_in_use};
use model::table_rules::{TableError, TableRule};
use model::tables;
use port::Port;

use crate::cells::Counts;
use crate::oracle::Model;
use crate::suites::{run_to_failure, Outcome, Plan, IN_ORDER, OF_COUNTERS};
use crate::wrong_counters::CounterPoint;
use crate::wrong_previews::PreviewPoint;

/// What is wrong.
#[derive(Clone, Copy, Debug, PartialEq, Eq)]
pub enum Point {
    /// "a store that refuses each step"
    RefusesEachStep,
    /// "one that replies 1 to all"
    RepliesOneToAll,
    /// "one that replies rightly and sets nothing"
    SetsNothing,
    /// "a run that takes the first record and echoes its reply"
    RunEchoesFirst,
    /// "a run with an invented record count"
    RunInventsCount,
    /// "one reporting 9 with budget and list left"
    RunSpentEarly,
    /// A run takes one record more than its budget.
    RunOverBudget,
    /// A refused run puts its number into the list.
    RefusedRunWritesList,
    /// List places not filled become 0.
    RunClearsList,
    /// The mark is tested before the length.
    RunMarkFirst,
    /// A run ends at a refused step.
    RunStopsAtRefusedStep,
    /// The place is that of the last record taken, not the one after it.
    RunPlaceBefore,
    /// A run does not test the tables' rules.
    RunTablesUntested,
    /// A players' table of the wrong length is 22.
    PlayersLengthAsRule,
    /// `check` passes over the first cell of each player but player 0.
    CheckMissesRowStarts,
    /// `check` passes over the last cell of the last player.
    CheckMissesLastCell,
    /// Fresh leaves the last word of the players' table.
    FreshMissesLastWord,
    /// A refused step takes a serial.
    RefusedTakesSerial,
    /// 38 with one common place left.
    OnePlaceFewer,
    /// 38 from the 18th common request on.
    OnePlaceMore,
    /// 34 with one serial left.
    OneSerialFewer,
    /// A read from memory is refused where its player finds no place.
    CacheReadNeedsPlace,
    /// 34 before 38.
    SerialsBeforePlaces,
    /// 33, which 38 has replaced.
    OldNumber,
    /// 38 to a player with 5 requests.
    SixthTurnedAway,
    /// 38 to every player once the common places are taken.
    AllTurnedAway,
    /// 38 from a player's 7th request on.
    OwnPlacesAlone,
    /// All 64 places are anyone's.
    NoShares,
    /// Requests that are given up take no place.
    AbandonedUncounted,
    /// Requests that are delivered take no place.
    DeliveredUncounted,
    /// Loads take no place.
    LoadsUncounted,
    /// Others' requests, loads among them, take no place.
    OthersUncounted,
    /// `check` refuses tables that have all common places taken.
    FullSharesRefused,
    /// `check` passes over requests that are given up when it counts the common places.
    SharesOfPendingAlone,
    /// A request that leaves last stays in the words of its place, but for its serial.
    LeavesWords,
    /// A new write is overlapped by a pending read too.
    ReadOverlapsWrite,
    /// Barred entries of neighbouring intervals are not joined at a tablet restart.
    NeighboursNotJoined,
    /// Fields that a kind lacks are passed over.
    StrangeFieldsTaken,
    /// Bits 6 and 7 of a map are passed over.
    HighBitsIgnored,
    /// The kind is tested before the length.
    KindBeforeLength,
    /// A kind's own map is not tested.
    AnyMapTaken,
    /// The high byte of a range's high is lost.
    HighCut,
    /// A record is written with a zero behind it.
    EncodesZeroBehind,
    /// A buffer that is too short gets the bytes that fit.
    EncodesWhatFits,
    /// The mark's last byte is not tested.
    MarkThreeBytes,
    /// The mark needs a byte more than it has.
    MarkNeedsFive,
    /// Requests that are given up are counted.
    CountsAbandoned,
    /// A request whose mark has the number 2 is not taken as given up.
    CountsMarkTwo,
    /// Unused places are counted.
    CountsUnused,
    /// The player is tested before the list's length.
    PlayerBeforePlaces,
    /// Player 8 is not refused: loads are counted.
    CountsLoads,
    /// The store used alone takes serial 0.
    StoreSerialZero,
    /// The store used alone takes serials above 4,000,000.
    StoreSerialAbove,
    /// A guard ends an entry early at 256.
    StoreGuardEndsEarly,
    /// 35 before 28.
    StoreBoundaryFirst,
    /// A restart takes the next tablet too.
    StoreRestartsTwo,
}

impl Point {
    /// Every point.
    pub const ALL: [Point; 56] = [
        Point::RefusesEachStep,
        Point::RepliesOneToAll,
        Point::SetsNothing,
        Point::RunEchoesFirst,
        Point::RunInventsCount,
        Point::RunSpentEarly,
        Point::RunOverBudget,
        Point::RefusedRunWritesList,
        Point::RunClearsList,
        Point::RunMarkFirst,
        Point::RunStopsAtRefusedStep,
        Point::RunPlaceBefore,
        Point::RunTablesUntested,
        Point::PlayersLengthAsRule,
        Point::CheckMissesRowStarts,
        Point::CheckMissesLastCell,
        Point::FreshMissesLastWord,
        Point::RefusedTakesSerial,
        Point::OnePlaceFewer,
        Point::OnePlaceMore,
        Point::OneSerialFewer,
        Point::CacheReadNeedsPlace,
        Point::SerialsBeforePlaces,
        Point::OldNumber,
        Point::SixthTurnedAway,
        Point::AllTurnedAway,
        Point::OwnPlacesAlone,
        Point::NoShares,
        Point::AbandonedUncounted,
        Point::DeliveredUncounted,
        Point::LoadsUncounted,
        Point::OthersUncounted,
        Point::FullSharesRefused,
        Point::SharesOfPendingAlone,
        Point::LeavesWords,
        Point::ReadOverlapsWrite,
        Point::NeighboursNotJoined,
        Point::StrangeFieldsTaken,
        Point::HighBitsIgnored,
        Point::KindBeforeLength,
        Point::AnyMapTaken,
        Point::HighCut,
        Point::EncodesZeroBehind,
        Point::EncodesWhatFits,
        Point::MarkThreeBytes,
        Point::MarkNeedsFive,
        Point::CountsAbandoned,
        Point::CountsMarkTwo,
        Point::CountsUnused,
        Point::PlayerBeforePlaces,
        Point::CountsLoads,
        Point::StoreSerialZero,
        Point::StoreSerialAbove,
        Point::StoreGuardEndsEarly,
        Point::StoreBoundaryFirst,
        Point::StoreRestartsTwo,
    ];
}

/// The port, wrong in a point, or with a test of the tables that misses a rule.
#[derive(Clone, Copy, Debug)]
pub enum Wrong {
    /// Wrong in a point. Its previews are right.
    In(Point),
    /// Wrong in a point of its previews.
    InPreview(PreviewPoint),
    /// Wrong in a point of its read counters or its share. Its previews are right.
    InCounters(CounterPoint),
    /// The test of the tables lets a table by that breaks this rule.
    Misses(TableRule),
}

impl Wrong {
    fn is(self, point: Point) -> bool {
        matches!(self, Wrong::In(own) if own == point)
    }

    /// Whether the tables break the rule that is missed.
    fn lets_by(self, store: &[u32], players: &[u32]) -> bool {
        matches!((self, tables::decode(store, players)),
            (Wrong::Misses(rule), Err(TableError::Rule(broken))) if broken == rule)
    }
}

/// The players' table with some cells emptied, by their running numbers.
fn without_cells(players: &[u32], numbers: impl IntoIterator<Item = usize>) -> Vec<u32> {
    let mut players = players.to_vec();
    for at in numbers {
        for column in [
            tables::CACHED_GUARDS,
            tables::CACHED_VERSIONS,
            tables::CACHED_VALUES,
        ] {
            players[column + at] = 0;
        }
    }
    players
}

/// The requests of a players' table, 12 words each.
pub(crate) fn requests(players: &[u32]) -> impl Iterator<Item = &[u32]> {
    let places = players[tables::REQUESTS..tables::COUNTERS].chunks(12);
    places.take_while(|place| place[0] != 0)
}

/// The number of requests of a players' table.
fn used(players: &[u32]) -> usize {
    requests(players).count()
}

/// The players' table with these requests, at most 64, in place of its own.
fn with_requests(players: &[u32], requests: &[&[u32]]) -> Vec<u32> {
    let mut players = players.to_vec();
    let places = &mut players[tables::REQUESTS..tables::COUNTERS];
    places.fill(0);
    for (place, request) in places.chunks_mut(12).zip(requests) {
        place.copy_from_slice(request);
    }
    players
}

/// A step where some requests take no place, if one of the 64 is left: they are set aside for it, and get the
/// marks that it would have given them. The tables may break the shares then, and the next call refuses such
/// (22).
fn let_in(
    store: &mut [u32],
    players: &mut [u32],
    step: Fields,
    is_set_aside: impl Fn(&[u32]) -> bool,
) -> Reply {
    if used(players) == MAX_REQUESTS {
        return Reply::refused(38);
    }
    let before = players.to_vec();
    let (aside, kept): (Vec<&[u32]>, Vec<&[u32]>) =
        requests(&before).partition(|request| is_set_aside(request));
    let mut left = with_requests(players, &kept);
    let reply = Port.step(store, &mut left, step);
    let mut all: Vec<&[u32]> = requests(&left).chain(aside).collect();
    all.sort_by_key(|request| request[0]);
    players.copy_from_slice(&with_requests(&left, &all));
    if reply.code == 1 && step.kind != 3 {
        mark_overlapped(players, step);
    }
    reply
}

/// The marks that belong to the read or write sent last: a pending write of its player on the entry overlaps
/// it, and a write overlaps the pending reads and writes.
fn mark_overlapped(players: &mut [u32], step: Fields) {
    let last = 12 * (used(players) - 1);
    let (earlier, sent) = players[tables::REQUESTS..].split_at_mut(last);
    for request in earlier.chunks_mut(12) {
        let [_, player, kind, low, .., abandoned, _, _] = *request else {
            continue;
        };
        let is_pending = kind != 3 && abandoned == 0;
        if is_pending && (player, low) == (u32::from(step.player), u32::from(step.entry)) {
            sent[7] |= u32::from(kind == 5);
            request[7] |= u32::from(step.kind == 5);
        }
    }
}

/// The requests of each player and of the loader, by the words of a players' table that keeps the rules.
fn counted(players: &[u32]) -> shares::Counts {
    let mut counts = [0; PLAYERS + 1];
    for request in requests(players) {
        counts[request[1] as usize] += 1;
    }
    counts
}

impl Library for Wrong {
    fn kinds(&self) -> u8 {
        Port.kinds()
    }

    fn fresh(&self, store: &mut [u32], players: &mut [u32]) -> Reply {
        if let Wrong::InCounters(point) = self {
            return point.fresh(store, players);
        }
        let kept = players.last().copied();
        let reply = Port.fresh(store, players);
        if let (true, Some(kept), Some(last)) = (
            self.is(Point::FreshMissesLastWord),
            kept,
            players.last_mut(),
        ) {
            *last = kept;
        }
        reply
    }

    fn check(&self, store: &[u32], players: &[u32]) -> Reply {
        if let Wrong::InCounters(point) = self {
            return point.check(store, players);
        }
        let reply = Port.check(store, players);
        if self.lets_by(store, players) {
            return Reply::refused(0);
        }
        if reply.code == 21 && store.len() == 1_280 && self.is(Point::PlayersLengthAsRule) {
            return Reply::refused(22);
        }
        if reply.code == 22 && self.is(Point::CheckMissesRowStarts) {
            return Port.check(store, &without_cells(players, (256..2_048).step_by(256)));
        }
        if reply.code == 22 && self.is(Point::CheckMissesLastCell) {
            return Port.check(store, &without_cells(players, [2_047]));
        }
        if reply.code == 0 && self.is(Point::FullSharesRefused) {
            let full = common_in_use(&counted(players)) == COMMON_PLACES;
            return Reply::refused(if full { 22 } else { 0 });
        }
        if reply.code == 22 && self.is(Point::SharesOfPendingAlone) {
            if let Err(TableError::Rule(TableRule::RequestShares)) = tables::decode(store, players)
            {
                let pending: Vec<&[u32]> = requests(players).filter(|r| r[9] == 0).collect();
                return Port.check(store, &with_requests(players, &pending));
            }
        }
        reply
    }

    fn step(&self, store: &mut [u32], players: &mut [u32], mut step: Fields) -> Reply {
        if let Wrong::InCounters(point) = self {
            return point.step(store, players, step);
        }
        if self.is(Point::StrangeFieldsTaken) && step.kind == 13 {
            step.serial = 0;
        }
        let before = (store.to_vec(), players.to_vec());
        let reply = Port.step(store, players, step);
        let Wrong::In(point) = *self else {
            return reply;
        };
        if reply.code == 21 || reply.code == 22 || reply.code == 26 || reply.code == 27 {
            return reply;
        }
        let undone = |store: &mut [u32], players: &mut [u32], reply: Reply| {
            store.copy_from_slice(&before.0);
            players.copy_from_slice(&before.1);
            reply
        };
        let last = before.1[0];
        let counts = counted(&before.1);
        let common = common_in_use(&counts);
        let number = u32::from(step.player);
        let own = counts[usize::from(step.player).min(PLAYERS)];
        let sent = reply.code == 1 && matches!(step.kind, 3..=5);
        match point {
            Point::RefusesEachStep => undone(store, players, Reply::refused(32)),
            Point::RepliesOneToAll => undone(store, players, Reply::new(1, last + 1, 0)),
            Point::SetsNothing => undone(store, players, reply),
            Point::RefusedTakesSerial if reply.code >= 28 => {
                players[0] += 1;
                reply
            }
            Point::OnePlaceFewer if sent && own >= OWN_PLACES && common + 1 == COMMON_PLACES => {
                undone(store, players, Reply::refused(38))
            }
            Point::SixthTurnedAway if sent && own + 1 == OWN_PLACES && common == COMMON_PLACES => {
                undone(store, players, Reply::refused(38))
            }
            Point::AllTurnedAway if sent && common == COMMON_PLACES => {
                undone(store, players, Reply::refused(38))
            }
            Point::OwnPlacesAlone if sent && own >= OWN_PLACES => {
                undone(store, players, Reply::refused(38))
            }
            Point::OldNumber if reply.code == 38 => Reply::refused(33),
            Point::OnePlaceMore if reply.code == 38 => {
                let oldest = requests(&before.1).find(|r| r[1] == number);
                let oldest = oldest.map_or(0, |request| request[0]);
                let_in(store, players, step, |r| r[0] == oldest)
            }
            Point::NoShares if reply.code == 38 => let_in(store, players, step, |_| true),
            Point::AbandonedUncounted if reply.code == 38 => {
                let_in(store, players, step, |r| r[9] == 1)
            }
            Point::DeliveredUncounted if reply.code == 38 => {
                let_in(store, players, step, |r| r[8] == 1)
            }
            Point::LoadsUncounted if reply.code == 38 => {
                let_in(store, players, step, |r| r[1] == u32::from(LOADER))
            }
            Point::OthersUncounted if reply.code == 38 => {
                let_in(store, players, step, |r| r[1] != number)
            }
            Point::OneSerialFewer if reply.code == 1 && players[0] == 4_000_000 => {
                undone(store, players, Reply::refused(34))
            }
            Point::CacheReadNeedsPlace
                if reply.code == 2 && own >= OWN_PLACES && common == COMMON_PLACES =>
            {
                undone(store, players, Reply::refused(38))
            }
            Point::SerialsBeforePlaces if reply.code == 38 && last == 4_000_000 => {
                Reply::refused(34)
            }
            Point::LeavesWords if used(players) < used(&before.1) => {
                let at = tables::REQUESTS + 12 * used(players) + 1;
                players[at] = before.1[at];
                reply
            }
            Point::ReadOverlapsWrite if reply.code == 1 && step.kind == 5 => {
                let crosses = requests(&before.1).any(|place| {
                    place[1] == u32::from(step.player)
                        && place[2] == 4
                        && place[3] == u32::from(step.entry)
                        && place[9] == 0
                });
                if crosses {
                    players[tables::REQUESTS + 12 * (used(players) - 1) + 7] = 1;
                }
                reply
            }
            Point::NeighboursNotJoined if step.kind == 12 => {
                let (starts, guards) = (tables::INTERVAL_STARTS, tables::INTERVAL_GUARDS);
                if before.0[starts + 1] != 0 && store[starts + 1] == 0 {
                    store[starts + 1] = before.0[starts + 1];
                    store[guards + 1] = store[guards];
                }
                reply
            }
            _ => reply,
        }
    }

    fn run(
        &self,
        store: &mut [u32],
        players: &mut [u32],
        session: &[u8],
        mut budget: u32,
        replies: &mut [u32],
    ) -> Report {
        let point = match *self {
            Wrong::In(point) => point,
            Wrong::InCounters(point) => return point.run(store, players, session, budget, replies),
            _ => return Port.run(store, players, session, budget, replies),
        };
        match point {
            Point::RunOverBudget => budget = budget.saturating_add(1),
            Point::RunSpentEarly => budget = budget.saturating_sub(1),
            Point::RunEchoesFirst => {
                let report = Port.run(store, players, session, budget.min(1), replies);
                for at in 3..replies.len() {
                    replies[at] = replies[at - 3];
                }
                return report;
            }
            Point::RunMarkFirst
                if Port.check(store, players).code == 0 && !Port.marked(session) =>
            {
                return Report::refused(23);
            }
            Point::RunTablesUntested if Port.check(store, players).code == 22 => {
                return Report {
                    why: 0,
                    records: 0,
                    place: 4,
                };
            }
            _ => {}
        }
        let mut report = Port.run(store, players, session, budget, replies);
        let refused_run = report.place == 0;
        let taken = report.records as usize;
        match point {
            Point::RunInventsCount if report.why == 0 => report.records = session.len() as u32 / 4,
            Point::RefusedRunWritesList if refused_run => {
                replies
                    .iter_mut()
                    .take(1)
                    .for_each(|word| *word = report.why);
            }
            Point::RunClearsList => replies
                .iter_mut()
                .skip(3 * taken)
                .for_each(|word| *word = 0),
            Point::RunPlaceBefore if taken > 0 => report.place -= 1,
            Point::RunStopsAtRefusedStep => {
                let refused = replies.chunks_exact(3).take(taken).position(|r| r[0] >= 28);
                if let Some(at) = refused {
                    report.records = at as u32 + 1;
                    report.why = 9;
                }
            }
            _ => {}
        }
        report
    }

    fn preview(&self, store: &[u32], players: &[u32], step: Fields) -> Reply {
        match self {
            Wrong::InPreview(point) => point.step(store, players, step),
            _ => Port.preview(store, players, step),
        }
    }

    fn preview_run(
        &self,
        store: &[u32],
        players: &[u32],
        session: &[u8],
        budget: u32,
        replies: &mut [u32],
    ) -> Report {
        match self {
            Wrong::InPreview(point) => point.run(store, players, session, budget, replies),
            _ => Port.preview_run(store, players, session, budget, replies),
        }
    }

    fn share(&self, store: &[u32], players: &[u32], player: u8) -> Reply {
        match self {
            Wrong::InCounters(point) => point.share(store, players, player),
            _ => Port.share(store, players, player),
        }
    }

    fn decode(&self, part: &[u8]) -> Decoded {
        let mut part = part.to_vec();
        if self.is(Point::HighBitsIgnored) {
            part.iter_mut().take(1).for_each(|map| *map &= 0x3F);
        }
        let mut decoded = Port.decode(&part);
        let kind = part.get(1).copied().unwrap_or(1);
        if self.is(Point::KindBeforeLength) && decoded.code == 24 && kind > KINDS {
            decoded.code = 26;
        }
        if self.is(Point::AnyMapTaken) && decoded.code == 27 && part[0] % 2 == 1 {
            decoded.code = 0;
        }
        if self.is(Point::HighCut) {
            decoded.high %= 256;
        }
        decoded
    }

    fn encode(&self, step: Fields, out: &mut [u8]) -> Reply {
        let reply = Port.encode(step, out);
        if self.is(Point::EncodesZeroBehind) && reply.code == 0 {
            let behind = out.iter_mut().skip(reply.a as usize);
            behind.take(1).for_each(|byte| *byte = 0);
        }
        if self.is(Point::EncodesWhatFits) && reply.code == 36 {
            out.iter_mut().take(1).for_each(|byte| *byte = 0x0F);
        }
        reply
    }

    fn put_mark(&self, out: &mut [u8]) -> Reply {
        if self.is(Point::MarkNeedsFive) && out.len() == 4 {
            return Reply::refused(36);
        }
        Port.put_mark(out)
    }

    fn marked(&self, session: &[u8]) -> bool {
        if self.is(Point::MarkThreeBytes) && session.len() > 3 {
            return session.starts_with(b"RSL");
        }
        Port.marked(session)
    }

    fn waiting(&self, list: &[Request], player: u8) -> Reply {
        if self.is(Point::PlayerBeforePlaces) && player > 7 {
            return Reply::refused(28);
        }
        let mut list = list.to_vec();
        if self.is(Point::CountsLoads) && player == 8 {
            for request in &mut list {
                request.player = if request.player == 8 { 0 } else { 8 };
            }
            return Port.waiting(&list, 0);
        }
        for request in &mut list {
            let passed_over = self.is(Point::CountsAbandoned)
                || self.is(Point::CountsMarkTwo) && request.abandoned == 2;
            if passed_over {
                request.abandoned = 0;
            }
            request.serial |= u32::from(self.is(Point::CountsUnused));
        }
        Port.waiting(&list, player)
    }

    fn store_fresh(&self, store: &mut [u32]) -> Reply {
        Port.store_fresh(store)
    }

    fn store_check(&self, store: &[u32]) -> Reply {
        Port.store_check(store)
    }

    fn store_check_at(&self, store: &[u32], last: u32) -> Reply {
        Port.store_check_at(store, last)
    }

    fn store_read(&self, store: &[u32], entry: u8) -> Reply {
        Port.store_read(store, entry)
    }

    fn store_write(
        &self,
        store: &mut [u32],
        entry: u8,
        value: u32,
        mut serial: u32,
        guard: u32,
    ) -> Reply {
        if self.is(Point::StoreSerialAbove) {
            serial = serial.min(4_000_000);
        }
        Port.store_write(store, entry, value, serial, guard)
    }

    fn store_set_guard(&self, store: &mut [u32], low: u8, mut high: u16, mut serial: u32) -> Reply {
        if self.is(Point::StoreSerialZero) {
            serial = serial.max(1);
        }
        if self.is(Point::StoreGuardEndsEarly) && high == 256 && low < 255 {
            high = 255;
        }
        Port.store_set_guard(store, low, high, serial)
    }

    fn store_split(&self, store: &mut [u32], entry: u8) -> Reply {
        let reply = Port.store_split(store, entry);
        if self.is(Point::StoreBoundaryFirst) && reply.code == 28 {
            return Reply::refused(35);
        }
        reply
    }

    fn store_merge(&self, store: &mut [u32], entry: u8) -> Reply {
        Port.store_merge(store, entry)
    }

    fn store_restart(&self, store: &mut [u32], entry: u8) -> Reply {
        let reply = Port.store_restart(store, entry);
        if self.is(Point::StoreRestartsTwo) && reply.code == 0 {
            let next = (usize::from(entry) + 1..256).find(|&at| store[at] == 1);
            if let Some(next) = next {
                return Port.store_restart(store, next as u8);
            }
        }
        reply
    }
}

/// A wrong library, and what came of comparing it.
pub struct Tried {
    /// What is wrong.
    pub name: String,
    /// The group that caught it, with the smallest case, if one did.
    pub caught: Option<Outcome>,
}

/// Compares every wrong library until a group catches it.
pub fn try_all(plan: Plan, mut tell: impl FnMut(Tried)) {
    let mut counts = Counts::default();
    for point in Point::ALL {
        tell(Tried {
            name: format!("{point:?}"),
            caught: run_to_failure(&Wrong::In(point), plan, &mut counts, IN_ORDER),
        });
    }
    for point in PreviewPoint::ALL {
        tell(Tried {
            name: format!("preview: {point:?}"),
            caught: run_to_failure(&Wrong::InPreview(point), plan, &mut counts, IN_ORDER),
        });
    }
    for point in CounterPoint::ALL {
        tell(Tried {
            name: format!("counters: {point:?}"),
            caught: run_to_failure(&Wrong::InCounters(point), plan, &mut counts, OF_COUNTERS),
        });
    }
    // The group that breaks each rule alone sees these at once.
    let short = Plan {
        steps: plan.steps / 20,
        ..plan
    };
    for rule in TableRule::ALL {
        tell(Tried {
            name: format!("the test misses {rule:?}"),
            caught: run_to_failure(&Wrong::Misses(rule), short, &mut counts, IN_ORDER),
        });
    }
    for fault in Fault::ALL {
        let first = match fault.is_of_counters() {
            true => OF_COUNTERS,
            false => IN_ORDER,
        };
        tell(Tried {
            name: format!("the model with {fault:?}"),
            caught: run_to_failure(&Model(fault), plan, &mut counts, first),
        });
    }
}
