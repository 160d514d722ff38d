//! What happened in a session: its records with the library's replies, and what the tables held after each of them.

use famdrize::{Fields, Player, Refusal, Reply, Report, Step, Why};

use crate::flight::{Flight, Sender};
use crate::strip::History;

/// A session, told.
pub struct Story {
    /// The session's bytes.
    pub length: usize,
    /// The run's report.
    pub report: Report,
    /// The records that were taken, in their order.
    pub events: Vec<Event>,
    /// The requests, in rising serial.
    pub flights: Vec<Flight>,
    /// For each player, what it has of each entry.
    pub holds: Vec<History<Hold>>,
    /// The store's guard of each entry.
    pub guards: History<u32>,
    /// The boundaries that stood after entry 0, for as long as they did.
    pub boundaries: Vec<Boundary>,
    /// The bytes that were not read.
    pub rest: Vec<u8>,
}

/// A record that was taken.
pub struct Event {
    /// Its ordinal, from 1 on.
    pub ordinal: usize,
    /// Its fields.
    pub fields: Fields,
    /// Its step; none where the fields are no step's, which is then refused.
    pub step: Option<Step>,
    /// The reply.
    pub reply: Reply,
    /// What was done.
    pub deed: Deed,
    /// Where it was done.
    pub at: At,
}

/// What a step did, as far as it is drawn in a way of its own.
#[derive(Clone, Copy, Debug, PartialEq, Eq)]
pub enum Deed {
    Refused(Refusal),
    Assigned,
    Released,
    /// The request of this serial is sent; so below.
    Asked(u32),
    FromMemory,
    Arrived(u32),
    /// With what the player remembers of the entry then, where the answer told a version and a value.
    Answered(u32, Option<Memory>),
    GivenUp(u32),
    Lost(u32),
    Split,
    Merged,
    TabletRestarted,
    PlayerRestarted,
    /// The first and the last entry of a guard interval.
    Reached(u8, u8),
    /// A step of a kind that has no sign of its own.
    Other,
}

/// What became of an answer's version and value in the player's memory.
#[derive(Clone, Copy, Debug, PartialEq, Eq)]
pub enum Memory {
    /// They can be read from memory now, and could not before.
    Remembered,
    /// They could be read from memory before, and still can.
    AsBefore,
    /// They cannot be read from memory.
    NotRemembered,
}

/// Where a step stands in the picture.
#[derive(Clone, Copy, Debug, PartialEq, Eq)]
pub enum At {
    Sender(Sender),
    Store,
    /// Between the sender of this request and the store.
    Way(u32),
    /// Beside all lifelines.
    Margin,
}

/// What a player has of an entry.
#[derive(Clone, Copy, Debug, PartialEq, Eq)]
pub enum Hold {
    Nothing,
    /// It is the owner, without a live guard.
    Owned,
    /// It is the owner, with this live guard.
    Guarded(u32),
}

/// A boundary, from the step that set it to the one that removed it.
#[derive(Clone, Copy, Debug, PartialEq, Eq)]
pub struct Boundary {
    pub entry: u8,
    pub from: usize,
    pub to: Option<usize>,
}

impl Story {
    /// Whether the run, or a record, is refused.
    pub fn is_damaged(&self) -> bool {
        matches!(self.report.why, Why::Refused(_))
    }

    /// The request of this serial, which there was.
    pub fn flight(&self, serial: u32) -> &Flight {
        let found = self
            .flights
            .binary_search_by_key(&serial, |flight| flight.serial);
        &self.flights[found.expect("a request of the session")]
    }

    /// What a player has of the entries.
    pub fn holds_of(&self, player: Player) -> &History<Hold> {
        &self.holds[usize::from(player.number())]
    }

    /// The players that occur, and the loader if it does: those who took part in a step or sent a request.
    pub fn senders(&self) -> Vec<Sender> {
        let taking_part = self.events.iter().filter_map(|event| match event.at {
            At::Sender(sender) => Some(sender),
            _ => None,
        });
        let mut senders: Vec<Sender> = taking_part.collect();
        senders.extend(self.flights.iter().map(|flight| flight.sender));
        senders.sort_unstable();
        senders.dedup();
        senders
    }
}
