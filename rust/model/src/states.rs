//! States that keep the table rules: random ones, and one that leaves no word unused.

use calls::{Range, Step};

use crate::counters::ReadCounter;
use crate::faults::NoFault;
use crate::numbers::{
    Entries, BARRED, ENTRIES, LOADER, MAX_COUNT, MAX_REQUESTS, MAX_SERIAL, OPEN, PLAYERS,
};
use crate::prng::Prng;
use crate::rules;
use crate::shares;
use crate::state::{Cached, Operation, Request, State};
use crate::store::{GuardOutcome, Versioned, WriteOutcome};

/// The entries of many requests.
const COMMON_ENTRIES: [u8; 2] = [0, 1];

/// A few serials that a table may hold: 0, the last one and some between.
fn serial_pool(rng: &mut Prng, last_serial: u32) -> [u32; 8] {
    let mut pool = [0; 8];
    for serial in &mut pool[2..] {
        *serial = rng.below(last_serial + 1);
    }
    pool[1] = last_serial;
    pool
}

/// Fills some random ranges with values that are drawn anew for each.
fn fill_ranges<T: Copy>(rng: &mut Prng, items: &mut [T], mut draw: impl FnMut(&mut Prng) -> T) {
    let times = [0, 1, 3, 10, 300][rng.index(5)];
    for _ in 0..times {
        let longest = if times > 10 { 2 } else { items.len() as u32 };
        let low = rng.index(items.len());
        let high = (low + 1 + rng.below(longest) as usize).min(items.len());
        let item = draw(rng);
        items[low..high].fill(item);
    }
}

/// Any state that keeps the table rules: also such as no list of steps leads to, all common places
/// taken, serials near the last one, 1 to 256 guard intervals, open and barred ones among them, loads,
/// counts at the limit and near it.
pub fn any_state(rng: &mut Prng) -> State {
    let last_serial = match rng.below(5) {
        0 => rng.below(4),
        1 => rng.below(100),
        2 => MAX_SERIAL - rng.below(4),
        3 => MAX_SERIAL,
        _ => rng.below(MAX_SERIAL + 1),
    };
    let mut state = any_state_at(rng, last_serial);
    for entry in COMMON_ENTRIES {
        if rng.chance(50) {
            fill_cell(rng, &mut state, usize::from(entry));
        }
    }
    state.counters = any_counters(rng);
    state
}

/// The entries that are in a player's memory in many states of [`remembering_state`].
pub const REMEMBERED: Range = Range::new(0, 8);

/// Any such state in which most of the first entries are in their owner's memory.
pub fn remembering_state(rng: &mut Prng) -> State {
    let mut state = any_state(rng);
    for entry in REMEMBERED.entries() {
        if rng.chance(80) && state.last_serial > 0 {
            make_live(rng, &mut state, entry);
            fill_cell(rng, &mut state, entry);
        }
    }
    state
}

/// Any such state with this last serial, and with zero counts.
pub fn any_state_at(rng: &mut Prng, last_serial: u32) -> State {
    let pool = serial_pool(rng, last_serial);
    let serial = |rng: &mut Prng| pool[rng.index(pool.len())];
    let mut state = State::fresh();
    state.last_serial = last_serial;
    let boundaries = [0, 1, 10, 60][rng.index(4)];
    for boundary in &mut state.store.boundaries[1..] {
        *boundary = rng.chance(boundaries);
    }
    fill_ranges(rng, &mut state.store.guards, |rng| match rng.below(3) {
        0 => BARRED,
        _ => serial(rng),
    });
    fill_ranges(rng, &mut state.store.versions, serial);
    fill_ranges(rng, &mut state.store.values, Prng::word);
    fill_ranges(rng, &mut state.owners, |rng| rng.below(9) as u8);
    fill_ranges(rng, &mut state.epochs, serial);
    for player in 0..PLAYERS {
        fill_ranges(rng, &mut state.held[player], serial);
        fill_ranges(rng, &mut state.cached[player], |rng| {
            any_cached(rng, serial)
        });
    }
    for entry in COMMON_ENTRIES {
        if rng.chance(50) && last_serial > 0 {
            make_live(rng, &mut state, usize::from(entry));
        }
    }
    let count = REQUESTS[rng.index(REQUESTS.len())];
    let serials = request_serials(rng, count, last_serial);
    for (own, sender) in serials.iter().zip(senders(rng, serials.len())) {
        let request = any_request(rng, *own, sender, serial);
        state.requests.push(request);
    }
    state
}

/// Any read counters that keep the rules: zeros, few reads, any number, and counts at the limit or a few reads below it.
fn any_counters(rng: &mut Prng) -> [ReadCounter; PLAYERS] {
    [ReadCounter::ZERO; PLAYERS].map(|_| {
        let few = rng.below(4);
        let numbers = [0, few, MAX_COUNT - few, MAX_COUNT, rng.below(MAX_COUNT)];
        let answered = numbers[rng.index(numbers.len())];
        let few = few.min(answered);
        let shares = [0, few, answered / 2, answered - few, answered];
        let any = rng.below(answered);
        let hits = shares.get(rng.index(6)).copied().unwrap_or(any);
        ReadCounter { answered, hits }
    })
}

/// How many requests a state has: with 16 loads, or 22 requests of one player, all common places are taken;
/// with 64, all places.
const REQUESTS: [u32; 10] = [0, 2, 10, 16, 21, 22, 40, 63, 64, 64];

/// Senders of so many requests, at most 64, that keep the shares: any, or mostly one of them, or two.
fn senders(rng: &mut Prng, count: usize) -> Vec<u8> {
    let any = |rng: &mut Prng| rng.below(u32::from(LOADER) + 1) as u8;
    let most = [any(rng), any(rng)];
    let (mostly, two) = ([0, 80, 100][rng.index(3)], rng.index(2));
    let mut senders: Vec<u8> = Vec::with_capacity(count);
    let mut counts = [0; PLAYERS + 1];
    while senders.len() < count {
        let mut sender = match rng.chance(mostly) {
            true => most[rng.index(1 + two)],
            false => any(rng),
        };
        // Another one, as the common places are taken: a player that has some of its own left.
        while shares::is_without_place(&counts, sender, &NoFault) {
            sender = any(rng);
        }
        counts[usize::from(sender)] += 1;
        senders.push(sender);
    }
    rng.shuffle(&mut senders);
    senders
}

/// A state that leaves no word unused: every player has a guard and a cached value for every entry, there
/// are 64 requests of every kind, six of each player and 16 loads, some delivered, some given up, and 256
/// guard intervals, every entry begins a tablet and is owned, and every read counter is full.
pub fn full_state() -> State {
    let mut state = State::fresh();
    state.last_serial = 1;
    for entry in 0..ENTRIES {
        let player = entry % PLAYERS;
        state.owners[entry] = player as u8;
        state.held[player][entry] = 1;
    }
    for at in 0..MAX_REQUESTS {
        let player = (at / 8) as u8;
        let entry = player + 8 * (at % 8) as u8;
        let range = Range::new(entry, u16::from(entry) + 1);
        let value = u32::MAX;
        let step = match at % 8 {
            0 => Step::RequestGuard { player, range },
            1 | 4 => Step::Write {
                player,
                entry,
                value,
            },
            2 | 6 => Step::Load { entry, value },
            _ => Step::Read { player, entry },
        };
        let serial = rules::step(&mut state, step).a;
        match at % 8 {
            0..=3 => rules::step(&mut state, Step::Deliver { serial }),
            4 | 5 => rules::step(&mut state, Step::Abandon { serial }),
            _ => continue,
        };
    }
    let last = state.last_serial;
    state.store.boundaries.fill(true);
    state.store.versions.fill(last);
    state.store.values.fill(u32::MAX);
    state.epochs.fill(last);
    for (entry, guard) in state.store.guards.iter_mut().enumerate() {
        *guard = [last, BARRED][entry % 2];
    }
    for player in 0..PLAYERS {
        state.held[player].fill(last);
        state.cached[player].fill(Cached {
            guard: last,
            version: last,
            value: u32::MAX,
        });
        state.counters[player] = ReadCounter {
            answered: MAX_COUNT,
            hits: MAX_COUNT - player as u32,
        };
    }
    state
}

/// A player owns the entry, and its guard is live; a serial is issued.
pub(crate) fn make_live(rng: &mut Prng, state: &mut State, entry: usize) {
    let player = rng.below(PLAYERS as u32) as u8;
    let guard = rng.between(1, state.last_serial);
    state.owners[entry] = player;
    state.epochs[entry] = rng.below(guard);
    state.held[usize::from(player)][entry] = guard;
}

/// Where the entry's owner holds a guard, it has a value in its memory under it.
fn fill_cell(rng: &mut Prng, state: &mut State, entry: usize) {
    let owner = usize::from(state.owners[entry]);
    let held = state.held.get(owner).map(|held| held[entry]);
    if let Some(guard) = held.filter(|&guard| guard != 0) {
        state.cached[owner][entry] = Cached {
            guard,
            version: rng.below(state.last_serial + 1),
            value: rng.word(),
        };
    }
}

fn any_cached(rng: &mut Prng, serial: impl Fn(&mut Prng) -> u32) -> Cached {
    match serial(rng) {
        0 => Cached::EMPTY,
        guard => Cached {
            guard,
            version: serial(rng),
            value: rng.word(),
        },
    }
}

/// Rising serials of at most this many requests, none above the last one issued.
fn request_serials(rng: &mut Prng, count: u32, last_serial: u32) -> Vec<u32> {
    let count = count.min(last_serial);
    let spread = rng.between(1, (last_serial / count.max(1)).clamp(1, 1_000));
    let mut serials: Vec<u32> = Vec::new();
    let mut serial = last_serial;
    while serials.len() < count as usize && serial > 0 {
        serials.push(serial);
        serial = serial.saturating_sub(rng.between(1, spread));
    }
    serials.reverse();
    serials
}

/// A request of this sender, with this serial of its own.
fn any_request(rng: &mut Prng, own: u32, player: u8, serial: impl Fn(&mut Prng) -> u32) -> Request {
    let low = rng.below(256);
    let range = Range::new(low as u8, rng.between(low + 1, 256) as u16);
    let [one, other] = COMMON_ENTRIES;
    let entry = [low as u8, one, other][rng.index(3)];
    let below = |number: u32| if number < own { number } else { own - 1 };
    let guard = below(serial(rng));
    let overlapped = rng.chance(30);
    let delivered = rng.chance(50);
    let write_outcome =
        delivered.then_some([WriteOutcome::Committed, WriteOutcome::Rejected][rng.index(2)]);
    let operation = match rng.below(3) {
        _ if player == LOADER => Operation::Write {
            entry,
            value: rng.word(),
            guard: OPEN,
            overlapped: false,
            outcome: write_outcome,
        },
        0 => Operation::Guard {
            range,
            outcome: delivered
                .then_some([GuardOutcome::Set, GuardOutcome::LayoutChanged][rng.index(2)]),
        },
        1 if guard != 0 => Operation::Write {
            entry,
            value: rng.word(),
            guard,
            overlapped,
            outcome: write_outcome,
        },
        _ => Operation::Read {
            entry,
            guard,
            overlapped,
            outcome: delivered.then_some(Versioned {
                version: serial(rng),
                value: rng.word(),
            }),
        },
    };
    Request {
        serial: own,
        player,
        abandoned: !delivered && rng.chance(30),
        operation,
    }
}
