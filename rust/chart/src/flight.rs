//! Requests on their way: read off the tables that each step leaves, from the step that asked to the one after which they are gone.

use std::fmt;

use famdrize::{Player, Range, Request, Step, Tables, LOADER};

/// Who sends a request.
#[derive(Clone, Copy, Debug, PartialEq, Eq, PartialOrd, Ord)]
pub enum Sender {
    Player(Player),
    Loader,
}

impl Sender {
    /// The sender of a request of the tables.
    fn of(request: &Request) -> Sender {
        match Player::new(request.player) {
            Some(player) => Sender::Player(player),
            None => {
                assert_eq!(
                    request.player, LOADER,
                    "a request has a player or is a load"
                );
                Sender::Loader
            }
        }
    }
}

impl fmt::Display for Sender {
    fn fmt(&self, f: &mut fmt::Formatter<'_>) -> fmt::Result {
        match self {
            Sender::Player(player) => player.fmt(f),
            Sender::Loader => f.write_str("the loader"),
        }
    }
}

/// What a request is for.
#[derive(Clone, Copy, Debug, PartialEq, Eq)]
pub enum Purpose {
    Guard { range: Range },
    Read { entry: u8 },
    Write { entry: u8, value: u32 },
}

impl Purpose {
    /// That of a request of the tables, whose kind is that of the step that sent it (a load is a write).
    fn of(request: &Request) -> Purpose {
        let (entry, value) = (request.low, request.value);
        match request.kind {
            3 => Purpose::Guard {
                range: Range::new(entry, request.high).expect("a guard request has a range"),
            },
            4 => Purpose::Read { entry },
            5 => Purpose::Write { entry, value },
            kind => unreachable!("a request of kind {kind}"),
        }
    }
}

/// What came of a request at the store.
#[derive(Clone, Copy, Debug, PartialEq, Eq)]
pub enum Outcome {
    GuardSet,
    GuardNotSet,
    Found {
        version: u32,
        value: u32,
    },
    /// With the guard that the store has for the entry; so below.
    Committed {
        guard: u32,
    },
    TurnedBack {
        guard: u32,
    },
}

impl Outcome {
    /// That of a request that has arrived, by the tables that the step left. One that was given up has left them, and what it did is seen
    /// in the store: a guard and a version have their request's number.
    fn of(flight: &Flight, arrived: Option<&Request>, tables: &Tables) -> Outcome {
        let done = |seen: bool| arrived.map_or(seen, |request| request.first == 1);
        match flight.purpose {
            Purpose::Guard { range } => {
                match done(tables.find_interval(range.low()).guard == flight.serial) {
                    true => Outcome::GuardSet,
                    false => Outcome::GuardNotSet,
                }
            }
            Purpose::Read { entry } => {
                let stored = tables.read_store(entry);
                let (version, value) = arrived.map_or((stored.version, stored.value), |request| {
                    (request.first, request.second)
                });
                Outcome::Found { version, value }
            }
            Purpose::Write { entry, .. } => {
                let guard = tables.find_interval(entry).guard;
                match done(tables.read_store(entry).version == flight.serial) {
                    true => Outcome::Committed { guard },
                    false => Outcome::TurnedBack { guard },
                }
            }
        }
    }
}

/// How a request ended. Steps are given by their ordinals.
#[derive(Clone, Copy, Debug, PartialEq, Eq)]
pub enum End {
    /// Its answer reached the sender.
    Answered(usize),
    /// It had arrived, and was given up before its answer came.
    Dropped(usize),
    /// It was lost before it arrived.
    Lost(usize),
    /// It had been given up when it arrived, and left there.
    Gone,
    /// It is in flight when the session ends.
    InFlight,
}

/// A request, from the step that asked on. Steps are given by their ordinals.
#[derive(Clone, Copy, Debug, PartialEq, Eq)]
pub struct Flight {
    pub serial: u32,
    pub sender: Sender,
    pub purpose: Purpose,
    /// The guard that it carries.
    pub guard: u32,
    pub asked: usize,
    /// The step that marked it overlapped.
    pub crossed: Option<usize>,
    /// The step at which it was given up before it arrived.
    pub given_up: Option<usize>,
    pub arrived: Option<(usize, Outcome)>,
    pub end: End,
}

impl Flight {
    /// A new one, by its first appearance in the tables.
    fn new(request: &Request, step: usize) -> Flight {
        Flight {
            serial: request.serial,
            sender: Sender::of(request),
            purpose: Purpose::of(request),
            guard: request.guard,
            asked: step,
            crossed: request.overlapped.then_some(step),
            given_up: None,
            arrived: None,
            end: End::InFlight,
        }
    }
}

/// All requests of a session, in rising serial, and the places of the tables as they are now.
#[derive(Default)]
pub struct Flights {
    all: Vec<Flight>,
    now: Vec<Request>,
}

impl Flights {
    /// Takes up what a step that was not refused changed.
    pub fn follow(&mut self, ordinal: usize, step: Step, tables: &Tables) {
        let mut now = tables.requests();
        now.retain(|request| request.serial != 0);
        let before = std::mem::replace(&mut self.now, now);
        for request in &before {
            if find(&self.now, request.serial).is_none() {
                self.leave(request.serial, ordinal, step, tables);
            }
        }
        for at in 0..self.now.len() {
            let request = self.now[at];
            let known = find(&before, request.serial);
            let Some(known) = known else {
                self.all.push(Flight::new(&request, ordinal));
                continue;
            };
            let flight = self.flight_mut(request.serial);
            if request.overlapped && !known.overlapped {
                flight.crossed = Some(ordinal);
            }
            if request.abandoned && !known.abandoned {
                flight.given_up = Some(ordinal);
            }
            if request.delivered && !known.delivered {
                flight.arrived = Some((ordinal, Outcome::of(flight, Some(&request), tables)));
            }
        }
    }

    /// The request of this serial left the tables: which step that was tells how.
    fn leave(&mut self, serial: u32, ordinal: usize, step: Step, tables: &Tables) {
        let flight = self.flight_mut(serial);
        flight.end = match step {
            Step::Respond { .. } => End::Answered(ordinal),
            Step::Lose { .. } => End::Lost(ordinal),
            Step::Deliver { .. } => {
                flight.arrived = Some((ordinal, Outcome::of(flight, None, tables)));
                End::Gone
            }
            _ => End::Dropped(ordinal),
        };
    }

    /// The request of this serial, if there ever was one.
    pub fn get(&self, serial: u32) -> Option<&Flight> {
        let at = self.place(serial)?;
        Some(&self.all[at])
    }

    fn flight_mut(&mut self, serial: u32) -> &mut Flight {
        let at = self.place(serial).expect("a request that was seen before");
        &mut self.all[at]
    }

    fn place(&self, serial: u32) -> Option<usize> {
        self.all
            .binary_search_by_key(&serial, |flight| flight.serial)
            .ok()
    }

    /// All of them, in rising serial.
    pub fn into_all(self) -> Vec<Flight> {
        self.all
    }
}

/// The request of this serial, of some in rising serial.
fn find(requests: &[Request], serial: u32) -> Option<&Request> {
    let at = requests
        .binary_search_by_key(&serial, |request| request.serial)
        .ok()?;
    Some(&requests[at])
}
