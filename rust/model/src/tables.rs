//! The two tables of words: conversion in both directions, and the test of every table rule.
//!
//! The store's table is laid out as docs/FORMATS.md says, the players' table in nine parts (the
//! constants below). [`decode`] tests a rule where it reads the words under it, so a table that is
//! decoded keeps all rules, and [`TableRule`] names the first one broken.

use calls::Reply;

use crate::counters::ReadCounter;
use crate::faults::{NoFault, Switches};
use crate::numbers::{BARRED, ENTRIES, MAX_REQUESTS, MAX_SERIAL, NOBODY, PLAYERS};
use crate::reply::Refusal;
use crate::request_words::{decode_request, encode_request, RequestWords, REQUEST_WORDS};
use crate::shares;
use crate::state::{Cached, Request, State};
use crate::store::Store;
use crate::table_rules::{bit, require, TableError, TableRule};

/// Words of the store's table.
pub const STORE_WORDS: usize = 1_280;
/// Words of the players' table.
pub const PLAYERS_WORDS: usize = 9_489;

/// Where the boundaries begin in the store's table.
pub const BOUNDARIES: usize = 0;
/// Where the first entries of the guard intervals begin.
pub const INTERVAL_STARTS: usize = 256;
/// Where the guards of the intervals begin.
pub const INTERVAL_GUARDS: usize = 512;
/// Where the versions begin.
pub const VERSIONS: usize = 768;
/// Where the values begin.
pub const VALUES: usize = 1_024;

/// Where the last serial issued stands in the players' table.
pub const LAST_SERIAL: usize = 0;
/// Where the owners begin.
pub const OWNERS: usize = 1;
/// Where the epochs begin.
pub const EPOCHS: usize = 257;
/// Where the held guards begin, player * 256 + entry.
pub const HELD_GUARDS: usize = 513;
/// Where the guards of the cached values begin.
pub const CACHED_GUARDS: usize = 2_561;
/// Where the versions of the cached values begin.
pub const CACHED_VERSIONS: usize = 4_609;
/// Where the cached values begin.
pub const CACHED_VALUES: usize = 6_657;
/// Where the requests begin, 64 places of [`REQUEST_WORDS`] words.
pub const REQUESTS: usize = 8_705;
/// Where the read counters begin, [`COUNTER_WORDS`] words for each player.
pub const COUNTERS: usize = 9_473;

/// Words of a read counter: answered reads, and those of them answered from memory.
pub const COUNTER_WORDS: usize = 2;

/// The 256 words that begin at a place of a table.
fn column(words: &[u32], begin: usize) -> Result<[u32; ENTRIES], TableError> {
    words
        .get(begin..begin + ENTRIES)
        .and_then(|part| part.try_into().ok())
        .ok_or(TableError::Length)
}

/// The same, where "No serial in a table exceeds the last one issued."
fn serials(
    words: &[u32],
    begin: usize,
    last_serial: u32,
    rule: TableRule,
) -> Result<[u32; ENTRIES], TableError> {
    let serials = column(words, begin)?;
    require(serials.iter().all(|&serial| serial <= last_serial), rule)?;
    Ok(serials)
}

/// The store that a table of words holds, for a last serial issued.
pub fn decode_store(words: &[u32], last_serial: u32) -> Result<Store, TableError> {
    if words.len() != STORE_WORDS {
        return Err(TableError::Length);
    }
    let mut boundaries = [false; ENTRIES];
    for (boundary, word) in boundaries.iter_mut().zip(column(words, BOUNDARIES)?) {
        *boundary = bit(word, TableRule::BoundaryBit)?;
    }
    require(boundaries[0], TableRule::FirstBoundary)?;
    let starts = column(words, INTERVAL_STARTS)?;
    let interval_guards = column(words, INTERVAL_GUARDS)?;
    // Document 02 §2: "Barred differs from 0 and from every serial", so it is above the last one.
    let valid = |&guard: &u32| guard <= last_serial || guard == BARRED;
    require(interval_guards.iter().all(valid), TableRule::GuardSerial)?;
    Ok(Store {
        boundaries,
        guards: decode_intervals(&starts, &interval_guards)?,
        versions: serials(words, VERSIONS, last_serial, TableRule::VersionSerial)?,
        values: column(words, VALUES)?,
    })
}

/// "guards as stretches of neighbouring entries, the first at entry 0, rising, neighbours never
/// equal (so 1 to 256 of them)". As a start of 0 stands only in the first place, the first 0 after
/// it ends the intervals in use.
fn decode_intervals(
    starts: &[u32; ENTRIES],
    guards: &[u32; ENTRIES],
) -> Result<[u32; ENTRIES], TableRule> {
    require(starts[0] == 0, TableRule::FirstInterval)?;
    let used = starts[1..]
        .iter()
        .position(|&start| start == 0)
        .map_or(ENTRIES, |place| place + 1);
    let unused_zero = |column: &[u32; ENTRIES]| column[used..].iter().all(|&word| word == 0);
    require(
        unused_zero(starts) && unused_zero(guards),
        TableRule::IntervalUnused,
    )?;
    let (starts, guards) = (&starts[..used], &guards[..used]);
    require(
        starts.windows(2).all(|pair| pair[0] < pair[1]),
        TableRule::IntervalOrder,
    )?;
    require(
        starts.iter().all(|&start| (start as usize) < ENTRIES),
        TableRule::IntervalEntry,
    )?;
    require(
        guards.windows(2).all(|pair| pair[0] != pair[1]),
        TableRule::IntervalNeighbours,
    )?;
    let mut by_entry = [0; ENTRIES];
    for (&start, &guard) in starts.iter().zip(guards) {
        by_entry[start as usize..].fill(guard);
    }
    Ok(by_entry)
}

/// Writes the store into a table of [`STORE_WORDS`] words.
pub(crate) fn encode_store(store: &Store, words: &mut [u32]) {
    words.fill(0);
    for entry in 0..ENTRIES {
        words[BOUNDARIES + entry] = u32::from(store.boundaries[entry]);
        words[VERSIONS + entry] = store.versions[entry];
        words[VALUES + entry] = store.values[entry];
    }
    let begins = |entry: &usize| *entry == 0 || store.guards[entry - 1] != store.guards[*entry];
    for (place, entry) in (0..ENTRIES).filter(begins).enumerate() {
        words[INTERVAL_STARTS + place] = entry as u32;
        words[INTERVAL_GUARDS + place] = store.guards[entry];
    }
}

/// "up to 64 rows in flight, in rising serial, the used places first", which keep the shares of document
/// 02 §5.
fn decode_requests(
    words: &[u32],
    last_serial: u32,
    faults: &impl Switches,
) -> Result<Vec<Request>, TableError> {
    let mut requests: Vec<Request> = Vec::new();
    let mut ended = false;
    for place in words.chunks(REQUEST_WORDS) {
        let place = RequestWords::from_slice(place).ok_or(TableError::Length)?;
        if place.serial == 0 {
            require(place == RequestWords::default(), TableRule::RequestUnused)?;
            ended = true;
            continue;
        }
        require(!ended, TableRule::RequestGap)?;
        let rises = requests.last().is_none_or(|r| r.serial < place.serial);
        require(rises, TableRule::RequestOrder)?;
        requests.push(decode_request(place, last_serial)?);
    }
    let kept = shares::are_kept(&requests, faults);
    require(kept, TableRule::RequestShares)?;
    Ok(requests)
}

/// The read counters of a players' table, whatever they hold.
pub fn counters(players: &[u32]) -> [ReadCounter; PLAYERS] {
    let mut counters = [ReadCounter::ZERO; PLAYERS];
    let places = players[COUNTERS..].chunks_exact(COUNTER_WORDS);
    for (counter, words) in counters.iter_mut().zip(places) {
        *counter = ReadCounter {
            answered: words[0],
            hits: words[1],
        };
    }
    counters
}

/// Tests the rule of each read counter.
fn decode_counters(
    players: &[u32],
    faults: &impl Switches,
) -> Result<[ReadCounter; PLAYERS], TableRule> {
    let counters = counters(players);
    for (player, counter) in (0..).zip(counters) {
        counter.test(player, faults)?;
    }
    Ok(counters)
}

/// The state that the two tables hold: 21 for either, then 22 for either.
pub fn decode(store: &[u32], players: &[u32]) -> Result<State, TableError> {
    decode_with(store, players, &NoFault)
}

/// The same with a fault.
pub fn decode_with(
    store: &[u32],
    players: &[u32],
    faults: &impl Switches,
) -> Result<State, TableError> {
    if store.len() != STORE_WORDS || players.len() != PLAYERS_WORDS {
        return Err(TableError::Length);
    }
    let last_serial = players[LAST_SERIAL];
    require(last_serial <= MAX_SERIAL, TableRule::LastSerial)?;
    let mut owners = [NOBODY; ENTRIES];
    for (owner, word) in owners.iter_mut().zip(column(players, OWNERS)?) {
        require(word <= u32::from(NOBODY), TableRule::Owner)?;
        *owner = word as u8;
    }
    let mut held = [[0; ENTRIES]; PLAYERS];
    let mut cached = [[Cached::EMPTY; ENTRIES]; PLAYERS];
    for player in 0..PLAYERS {
        let at = |begin| begin + player * ENTRIES;
        held[player] = serials(players, at(HELD_GUARDS), last_serial, TableRule::HeldSerial)?;
        cached[player] = decode_cached(players, at(0), last_serial)?;
    }
    Ok(State {
        store: decode_store(store, last_serial)?,
        last_serial,
        owners,
        epochs: serials(players, EPOCHS, last_serial, TableRule::EpochSerial)?,
        held,
        cached,
        requests: decode_requests(&players[REQUESTS..COUNTERS], last_serial, faults)?,
        counters: decode_counters(players, faults)?,
    })
}

/// The cached values of the player whose words begin `offset` words after a column's beginning.
fn decode_cached(
    players: &[u32],
    offset: usize,
    last_serial: u32,
) -> Result<[Cached; ENTRIES], TableError> {
    let guards = serials(
        players,
        CACHED_GUARDS + offset,
        last_serial,
        TableRule::CachedGuardSerial,
    )?;
    let versions = serials(
        players,
        CACHED_VERSIONS + offset,
        last_serial,
        TableRule::CachedVersionSerial,
    )?;
    let values = column(players, CACHED_VALUES + offset)?;
    let mut cached = [Cached::EMPTY; ENTRIES];
    for entry in 0..ENTRIES {
        cached[entry] = Cached {
            guard: guards[entry],
            version: versions[entry],
            value: values[entry],
        };
        let empty = cached[entry].guard == 0;
        require(
            !empty || cached[entry] == Cached::EMPTY,
            TableRule::CachedEmpty,
        )?;
    }
    Ok(cached)
}

/// Writes the state into tables of [`STORE_WORDS`] and [`PLAYERS_WORDS`] words.
pub(crate) fn encode(state: &State, store: &mut [u32], players: &mut [u32]) {
    encode_store(&state.store, store);
    players.fill(0);
    players[LAST_SERIAL] = state.last_serial;
    for entry in 0..ENTRIES {
        players[OWNERS + entry] = u32::from(state.owners[entry]);
        players[EPOCHS + entry] = state.epochs[entry];
    }
    for player in 0..PLAYERS {
        for entry in 0..ENTRIES {
            let at = player * ENTRIES + entry;
            let cached = state.cached[player][entry];
            players[HELD_GUARDS + at] = state.held[player][entry];
            players[CACHED_GUARDS + at] = cached.guard;
            players[CACHED_VERSIONS + at] = cached.version;
            players[CACHED_VALUES + at] = cached.value;
        }
    }
    let (requests, counters) = players[REQUESTS..].split_at_mut(COUNTERS - REQUESTS);
    let places = requests.chunks_exact_mut(REQUEST_WORDS);
    for (place, request) in places.zip(&state.requests) {
        place.copy_from_slice(&encode_request(request).words());
    }
    let places = counters.chunks_exact_mut(COUNTER_WORDS);
    for (place, counter) in places.zip(&state.counters) {
        place.copy_from_slice(&[counter.answered, counter.hits]);
    }
}

/// The two tables of a state.
pub fn tables_of(state: &State) -> (Vec<u32>, Vec<u32>) {
    let mut store = vec![0; STORE_WORDS];
    let mut players = vec![0; PLAYERS_WORDS];
    encode(state, &mut store, &mut players);
    (store, players)
}

/// "Making tables fresh tests 21 only."
pub fn fresh(store: &mut [u32], players: &mut [u32]) -> Reply {
    if store.len() != STORE_WORDS || players.len() != PLAYERS_WORDS {
        return Reply::from(Refusal::TableLength);
    }
    encode(&State::fresh(), store, players);
    Reply::DONE
}

/// Fresh tables.
pub fn fresh_tables() -> (Vec<u32>, Vec<u32>) {
    tables_of(&State::fresh())
}

/// The test of both tables: 0, 21 or 22.
pub fn check(store: &[u32], players: &[u32]) -> Reply {
    check_with(store, players, &NoFault)
}

/// The same with a fault.
pub fn check_with(store: &[u32], players: &[u32], faults: &impl Switches) -> Reply {
    match decode_with(store, players, faults) {
        Ok(_) => Reply::DONE,
        Err(error) => Reply::from(error.refusal()),
    }
}

// The read counters stand behind the requests, and fill the table to its end.
const _: () = assert!(REQUESTS + MAX_REQUESTS * REQUEST_WORDS == COUNTERS);
const _: () = assert!(COUNTERS + PLAYERS * COUNTER_WORDS == PLAYERS_WORDS);
