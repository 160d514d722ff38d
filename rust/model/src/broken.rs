//! Tables that break one rule alone, and damaged sessions.

use calls::Range;

use crate::numbers::{
    BARRED, COMMON_PLACES, LOADER, MAX_COUNT, MAX_SERIAL, OPEN, OWN_PLACES, PLAYERS,
};
use crate::prng::Prng;
use crate::request_words::{RequestWords, REQUEST_WORDS};
use crate::state::{Cached, Operation, Request, State};
use crate::states::any_state;
use crate::store::{GuardOutcome, Versioned, WriteOutcome};
use crate::table_rules::TableRule;
use crate::tables::{
    tables_of, BOUNDARIES, CACHED_GUARDS, CACHED_VALUES, CACHED_VERSIONS, COUNTERS, COUNTER_WORDS,
    EPOCHS, HELD_GUARDS, INTERVAL_GUARDS, INTERVAL_STARTS, LAST_SERIAL, OWNERS, REQUESTS, VERSIONS,
};

/// The places of the requests in [`rich_state`].
const GUARD: usize = 0;
const GUARD_DELIVERED: usize = 1;
const READ: usize = 2;
const READ_DELIVERED: usize = 3;
const WRITE: usize = 4;
const WRITE_DELIVERED: usize = 5;
const LOAD: usize = 6;
const LOAD_DELIVERED: usize = 7;
const USED: usize = 8;

/// The guard intervals of [`rich_state`].
const INTERVALS: usize = 3;

/// The entry whose cached value is full for player 0 in [`rich_state`]; the next one's is empty.
const CACHED_ENTRY: usize = 7;

/// A state in which every rule has something to apply to: three guard intervals, each kind of
/// request and a load undelivered and delivered, a full and an empty cached value, serials left.
pub fn rich_state(rng: &mut Prng) -> State {
    let mut state = any_state(rng);
    let last = rng.between(1_000, MAX_SERIAL - 1_000);
    state = State {
        last_serial: last,
        requests: rich_requests(rng, last),
        ..state
    };
    for serial in state
        .epochs
        .iter_mut()
        .chain(state.store.versions.iter_mut())
        .chain(state.held.as_flattened_mut())
    {
        *serial = (*serial).min(last);
    }
    for cached in state.cached.as_flattened_mut() {
        cached.guard = cached.guard.min(last);
        cached.version = cached.version.min(last);
    }
    state.cached[0][CACHED_ENTRY] = Cached {
        guard: rng.between(1, last),
        version: rng.below(last),
        value: rng.word(),
    };
    state.cached[0][CACHED_ENTRY + 1] = Cached::EMPTY;
    let guard = rng.between(3, last);
    let (second, third) = (rng.between(2, 100) as usize, rng.between(101, 255) as usize);
    state.store.guards[..second].fill(guard);
    state.store.guards[second..third].fill(guard - 1);
    let last_guard = [guard - 2, OPEN, BARRED][rng.index(3)];
    state.store.guards[third..].fill(last_guard);
    state
}

fn rich_requests(rng: &mut Prng, last: u32) -> Vec<Request> {
    let range = Range::new(rng.below(100) as u8, rng.between(101, 256) as u16);
    let entry = rng.below(256) as u8;
    let guard = rng.between(1, 300);
    let overlapped = rng.chance(50);
    let value = rng.word();
    let read = |outcome| Operation::Read {
        entry,
        guard,
        overlapped,
        outcome,
    };
    let write = |outcome| Operation::Write {
        entry,
        value,
        guard,
        overlapped,
        outcome,
    };
    let load = |outcome| Operation::Write {
        entry,
        value,
        guard: OPEN,
        overlapped: false,
        outcome,
    };
    let held = Versioned {
        version: rng.below(last),
        value,
    };
    let operations: [Operation; USED] = [
        Operation::Guard {
            range,
            outcome: None,
        },
        Operation::Guard {
            range,
            outcome: Some(GuardOutcome::Set),
        },
        read(None),
        read(Some(held)),
        write(None),
        write(Some(WriteOutcome::Rejected)),
        load(None),
        load(Some(WriteOutcome::Committed)),
    ];
    let mut serial = rng.between(301, 400);
    let mut requests = Vec::with_capacity(USED);
    for (at, operation) in operations.into_iter().enumerate() {
        let player = rng.below(8) as u8;
        requests.push(Request {
            serial,
            player: if at < LOAD { player } else { LOADER },
            abandoned: false,
            operation,
        });
        serial += rng.between(1, 50);
    }
    requests
}

/// Tables that break this rule and no other. A serial that is too high is so by little, or is the
/// number below that of barred.
pub fn break_rule(rng: &mut Prng, rule: TableRule) -> (Vec<u32>, Vec<u32>) {
    let (more, by_much) = (rng.below(3), rng.chance(25));
    break_by(rng, rule, |most| match by_much {
        true => BARRED - 1,
        false => most + 1 + more,
    })
}

/// The rules of every place where a serial may stand, but for the store's guards.
pub const SERIAL_RULES: [TableRule; 9] = [
    TableRule::VersionSerial,
    TableRule::LastSerial,
    TableRule::EpochSerial,
    TableRule::HeldSerial,
    TableRule::CachedGuardSerial,
    TableRule::CachedVersionSerial,
    TableRule::RequestSerial,
    TableRule::CarriedGuard,
    TableRule::OutcomeSerial,
];

/// Tables that break one of [`SERIAL_RULES`] and no other: barred, which document 02 §2 sets in the
/// store's guards alone, stands where a serial may.
pub fn bar(rng: &mut Prng, rule: TableRule) -> (Vec<u32>, Vec<u32>) {
    break_by(rng, rule, |_| BARRED)
}

/// Tables that break this rule and no other; `above` gives a number above the highest that a serial
/// may be.
fn break_by(rng: &mut Prng, rule: TableRule, above: impl Fn(u32) -> u32) -> (Vec<u32>, Vec<u32>) {
    let state = rich_state(rng);
    let (mut store, mut players) = tables_of(&state);
    let too_high = above(state.last_serial);
    let any_entry = rng.index(256);
    let any_cell = rng.index(2_048);
    let cached = CACHED_ENTRY;
    let empty = CACHED_ENTRY + 1;
    match rule {
        TableRule::BoundaryBit => {
            store[BOUNDARIES + rng.between(1, 255) as usize] = too_high.max(2);
        }
        TableRule::FirstBoundary => store[BOUNDARIES] = 0,
        TableRule::FirstInterval => store[INTERVAL_STARTS] = 1,
        TableRule::IntervalOrder => store[INTERVAL_STARTS + 2] = store[INTERVAL_STARTS + 1],
        TableRule::IntervalEntry => {
            store[INTERVAL_STARTS + INTERVALS - 1] = 256 + rng.below(3);
        }
        TableRule::IntervalNeighbours => store[INTERVAL_GUARDS + 1] = store[INTERVAL_GUARDS],
        TableRule::IntervalUnused => {
            let place = rng.between(INTERVALS as u32 + 1, 255) as usize;
            let column = [INTERVAL_STARTS, INTERVAL_GUARDS][rng.index(2)];
            store[column + place] = [rng.between(1, 255), BARRED][rng.index(2)];
        }
        TableRule::GuardSerial => store[INTERVAL_GUARDS + rng.index(INTERVALS)] = too_high,
        TableRule::VersionSerial => store[VERSIONS + any_entry] = too_high,
        TableRule::LastSerial => players[LAST_SERIAL] = above(MAX_SERIAL),
        TableRule::Owner => players[OWNERS + any_entry] = 9 + rng.below(300),
        TableRule::EpochSerial => players[EPOCHS + any_entry] = too_high,
        TableRule::HeldSerial => players[HELD_GUARDS + any_cell] = too_high,
        TableRule::CachedGuardSerial => players[CACHED_GUARDS + any_cell] = too_high,
        TableRule::CachedVersionSerial => players[CACHED_VERSIONS + cached] = too_high,
        TableRule::CachedEmpty => {
            let column = [CACHED_VERSIONS, CACHED_VALUES][rng.index(2)];
            players[column + empty] = 1;
        }
        TableRule::RequestUnused => {
            let word = rng.between(1, REQUEST_WORDS as u32 - 1) as usize;
            players[REQUESTS + rng.between(USED as u32, 63) as usize * REQUEST_WORDS + word] = 1;
        }
        TableRule::RequestGap => {
            let last = request(&players, USED - 1);
            change(&mut players, USED - 1, |r| *r = RequestWords::default());
            change(&mut players, USED, |r| *r = last);
        }
        TableRule::RequestOrder => {
            let serial = request(&players, GUARD).serial + rng.below(2);
            change(&mut players, GUARD, |r| r.serial = serial);
            let second = serial - rng.below(2);
            change(&mut players, GUARD_DELIVERED, |r| r.serial = second);
        }
        TableRule::RequestSerial => change(&mut players, USED - 1, |r| r.serial = too_high),
        TableRule::RequestPlayer => {
            let player = [9, 9 + rng.below(300), 256 + 8][rng.index(3)];
            change(&mut players, rng.index(USED), |r| r.player = player);
        }
        TableRule::RequestKind => {
            let kind = [0, 1, 2, 6, 7, 256 + 4][rng.index(6)];
            change(&mut players, rng.index(USED), |r| r.kind = kind);
        }
        TableRule::RequestRange => {
            let (low, high) =
                [(5, 5), (6, 5), (0, 0), (0, 257), (256, 257), (0, 65_537)][rng.index(6)];
            change(&mut players, rng.index(2), |r| {
                (r.low, r.high) = (low, high)
            });
        }
        TableRule::RequestEntry => {
            let place = rng.between(READ as u32, LOAD_DELIVERED as u32) as usize;
            change(&mut players, place, |r| r.low = 256);
        }
        TableRule::RequestHigh => {
            let place = rng.between(READ as u32, LOAD_DELIVERED as u32) as usize;
            change(&mut players, place, |r| r.high = r.low + 1);
        }
        TableRule::RequestValue => {
            let place = [GUARD, GUARD_DELIVERED, READ, READ_DELIVERED][rng.index(4)];
            change(&mut players, place, |r| r.value = 1);
        }
        TableRule::RequestGuard => change(&mut players, rng.index(2), |r| r.guard = 1),
        TableRule::WriteGuard => {
            // A player's write that carries 0; a load's words with a player's number.
            let place = [WRITE, WRITE_DELIVERED, LOAD, LOAD_DELIVERED][rng.index(4)];
            let player = rng.below(8);
            change(&mut players, place, |r| (r.player, r.guard) = (player, 0));
        }
        TableRule::CarriedGuard => {
            let place = [READ, READ_DELIVERED, WRITE, WRITE_DELIVERED][rng.index(4)];
            change(&mut players, place, |r| r.guard = above(r.serial - 1));
        }
        TableRule::RequestMark => match rng.below(4) {
            0 => change(&mut players, READ, |r| r.overlapped = 2),
            1 => change(&mut players, READ_DELIVERED, |r| r.delivered = 2),
            2 => change(&mut players, LOAD, |r| r.abandoned = 2),
            _ => change(&mut players, WRITE, |r| r.abandoned = 2),
        },
        TableRule::GuardOverlapped => change(&mut players, rng.index(2), |r| r.overlapped = 1),
        TableRule::AbandonedDelivered => {
            let delivered = [
                GUARD_DELIVERED,
                READ_DELIVERED,
                WRITE_DELIVERED,
                LOAD_DELIVERED,
            ];
            change(&mut players, delivered[rng.index(4)], |r| r.abandoned = 1);
        }
        TableRule::OutcomeEarly => {
            let place = [GUARD, READ, WRITE, LOAD][rng.index(4)];
            let number = rng.index(2);
            change(&mut players, place, |r| r.outcome[number] = 1);
        }
        TableRule::OutcomeNumber => {
            let place = [GUARD_DELIVERED, WRITE_DELIVERED, LOAD_DELIVERED][rng.index(3)];
            let number = [0, 3, 257][rng.index(3)];
            change(&mut players, place, |r| r.outcome[0] = number);
        }
        TableRule::OutcomeSecond => {
            let place = [GUARD_DELIVERED, WRITE_DELIVERED, LOAD_DELIVERED][rng.index(3)];
            change(&mut players, place, |r| r.outcome[1] = 1);
        }
        TableRule::OutcomeSerial => {
            change(&mut players, READ_DELIVERED, |r| r.outcome[0] = too_high);
        }
        TableRule::LoadKind => {
            let place = [GUARD, GUARD_DELIVERED, READ, READ_DELIVERED][rng.index(4)];
            change(&mut players, place, |r| {
                (r.player, r.guard, r.overlapped) = (8, 0, 0);
            });
        }
        TableRule::LoadGuard => {
            // A load that carries a guard; a player's write with the loader's number.
            let place = [WRITE, WRITE_DELIVERED, LOAD, LOAD_DELIVERED][rng.index(4)];
            change(&mut players, place, |r| {
                (r.player, r.guard, r.overlapped) = (8, r.guard.max(1), 0);
            });
        }
        TableRule::LoadOverlapped => {
            let place = [LOAD, LOAD_DELIVERED][rng.index(2)];
            change(&mut players, place, |r| r.overlapped = 1);
        }
        TableRule::RequestShares => {
            let crowd = Crowd::ALL[rng.index(Crowd::ALL.len())];
            return crowded(rng, crowd, COMMON_PLACES + 1);
        }
        TableRule::CounterHits | TableRule::CounterLimit => {
            let player = [0, PLAYERS - 1, rng.index(PLAYERS)][rng.index(3)];
            return break_counter(rng, rule, player);
        }
    }
    (store, players)
}

/// Tables in which the read counter of this player breaks a rule of counters, and that are right otherwise: more reads
/// from memory than answered reads, both at most the limit; or a count above it, and no more reads from memory.
pub fn break_counter(rng: &mut Prng, rule: TableRule, player: usize) -> (Vec<u32>, Vec<u32>) {
    let (store, mut players) = tables_of(&rich_state(rng));
    let [answered, hits] = match rule {
        TableRule::CounterHits => {
            let answered = [0, rng.below(9), MAX_COUNT - 1, rng.below(MAX_COUNT)][rng.index(4)];
            let any = rng.between(answered + 1, MAX_COUNT);
            [answered, [answered + 1, any, MAX_COUNT][rng.index(3)]]
        }
        _ => {
            let above = MAX_COUNT + 1;
            let answered = [above, rng.between(above, u32::MAX), u32::MAX][rng.index(3)];
            let any = rng.below(answered);
            [answered, [0, any, MAX_COUNT, answered][rng.index(4)]]
        }
    };
    let at = COUNTERS + COUNTER_WORDS * player;
    players[at..at + COUNTER_WORDS].copy_from_slice(&[answered, hits]);
    (store, players)
}

/// Who has the common places.
#[derive(Clone, Copy, Debug, PartialEq, Eq)]
pub enum Crowd {
    /// One player.
    Player,
    /// The loader.
    Loader,
    /// Two players.
    TwoPlayers,
    /// A player and the loader.
    PlayerAndLoader,
    /// One player, with requests that are given up.
    PlayerAbandoned,
    /// The loader, with loads that are given up.
    LoaderAbandoned,
}

impl Crowd {
    /// Every one.
    pub const ALL: [Crowd; 6] = [
        Crowd::Player,
        Crowd::Loader,
        Crowd::TwoPlayers,
        Crowd::PlayerAndLoader,
        Crowd::PlayerAbandoned,
        Crowd::LoaderAbandoned,
    ];

    /// How many requests each sender has, so that this many common places are in use. Of two, the first has
    /// 8 of them: with 17, two players have 6 + 8 and 6 + 9 requests.
    fn shares(self, rng: &mut Prng, common: usize) -> Vec<(u8, usize)> {
        let first = rng.below(PLAYERS as u32) as u8;
        let second = (first + rng.between(1, PLAYERS as u32 - 1) as u8) % PLAYERS as u8;
        let half = COMMON_PLACES / 2;
        match self {
            Crowd::Player | Crowd::PlayerAbandoned => vec![
                (first, OWN_PLACES + common),
                (second, rng.index(OWN_PLACES + 1)),
            ],
            Crowd::Loader | Crowd::LoaderAbandoned => {
                vec![(LOADER, common), (second, rng.index(OWN_PLACES + 1))]
            }
            Crowd::TwoPlayers => vec![
                (first, OWN_PLACES + half),
                (second, OWN_PLACES + common - half),
            ],
            Crowd::PlayerAndLoader => vec![(first, OWN_PLACES + half), (LOADER, common - half)],
        }
    }
}

/// Tables in which this crowd has so many of the common places: with 16 they keep the rules, with 17 they break
/// the shares and no other rule.
pub fn crowded(rng: &mut Prng, crowd: Crowd, common: usize) -> (Vec<u32>, Vec<u32>) {
    let mut state = rich_state(rng);
    let first_serial = state.requests[0].serial;
    let mut requests = Vec::new();
    for (player, count) in crowd.shares(rng, common) {
        for _ in 0..count {
            let drawn = rich_requests(rng, state.last_serial);
            let at = match player {
                LOADER => LOAD + rng.index(USED - LOAD),
                _ => rng.index(LOAD),
            };
            requests.push(Request {
                player,
                ..drawn[at]
            });
        }
    }
    if matches!(crowd, Crowd::PlayerAbandoned | Crowd::LoaderAbandoned) {
        // Its first request is given up, and others.
        let drawn = rich_requests(rng, state.last_serial);
        requests[0].operation = match requests[0].player {
            LOADER => drawn[LOAD].operation,
            _ => drawn[READ].operation,
        };
        for request in requests.iter_mut().filter(|r| !r.is_delivered()) {
            request.abandoned = true;
        }
    }
    rng.shuffle(&mut requests);
    for (serial, request) in (first_serial..).zip(&mut requests) {
        request.serial = serial;
    }
    state.requests = requests;
    tables_of(&state)
}

fn place(at: usize) -> std::ops::Range<usize> {
    REQUESTS + at * REQUEST_WORDS..REQUESTS + (at + 1) * REQUEST_WORDS
}

fn request(players: &[u32], at: usize) -> RequestWords {
    RequestWords::from_slice(&players[place(at)]).unwrap_or_default()
}

fn change(players: &mut [u32], at: usize, change: impl FnOnce(&mut RequestWords)) {
    let mut words = request(players, at);
    change(&mut words);
    players[place(at)].copy_from_slice(&words.words());
}

/// Damages a session: changes, removes or puts in a few bytes, or cuts it.
pub fn damage(rng: &mut Prng, session: &mut Vec<u8>) {
    for _ in 0..rng.between(1, 3) {
        let place = rng.index(session.len());
        match rng.below(5) {
            0 => session.truncate(place),
            1 => session.insert(place, rng.below(256) as u8),
            2 if !session.is_empty() => drop(session.remove(place)),
            _ => {
                if let Some(byte) = session.get_mut(place) {
                    *byte ^= 1 << rng.below(8);
                }
            }
        }
    }
}
