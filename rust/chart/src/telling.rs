//! Takes a session's records with the library, and reads off its tables what each did.
//!
//! The rules are not written here again (docs/DECISIONS.md, 150, names the two things that are taken for granted). Replies and the report are
//! those of one run over the session, as a listing has them; then each record is taken by itself, and what it did is read off the tables that it
//! left. Whether a guard is live, or a value is remembered, is asked of the library too: by a write, or a read, that is tried and not taken.

use famdrize::{decode, Fields, Player, Reply, Report, Step, Tables};

use crate::flight::{Flights, Purpose, Sender};
use crate::holders::Holders;
use crate::story::{At, Boundary, Deed, Event, Hold, Memory, Story};
use crate::strip::History;

/// Bytes of the session's mark, before its first record.
const MARK_BYTES: usize = 4;

impl Story {
    /// That of a session's bytes, from fresh tables, as far as its run goes.
    pub fn of(session: &[u8]) -> Story {
        let mut end = Tables::fresh();
        let (report, replies) = end.run_all(session);
        let mut teller = Teller::new();
        let mut place = if replies.is_empty() { 0 } else { MARK_BYTES };
        for reply in replies {
            let record = decode(&session[place..]).expect("the run took this record");
            place += record.length;
            let taken = teller.take(record.fields);
            assert_eq!(taken, reply, "a step replies as it does in a run");
        }
        assert!(teller.tables == end, "steps leave what a run leaves");
        let rest = session[report.place as usize..].to_vec();
        teller.finish(session.len(), report, rest)
    }
}

/// Takes the records one by one, and keeps what is seen meanwhile.
struct Teller {
    tables: Tables,
    events: Vec<Event>,
    flights: Flights,
    holders: Holders,
    holds: Vec<History<Hold>>,
    guards: History<u32>,
    /// The words of the store's table when its guards and boundaries were last looked at.
    store: Vec<u32>,
    /// For each entry the step that set the boundary which stands there.
    standing: Vec<Option<usize>>,
    boundaries: Vec<Boundary>,
}

impl Teller {
    fn new() -> Teller {
        let tables = Tables::fresh();
        let guards = History::new(guards(&tables));
        let store = tables.store_words().to_vec();
        Teller {
            tables,
            events: Vec::new(),
            flights: Flights::default(),
            holders: Holders::default(),
            holds: Player::all()
                .map(|_| History::new(|_| Hold::Nothing))
                .collect(),
            guards,
            store,
            standing: vec![None; 256],
            boundaries: Vec::new(),
        }
    }

    /// Takes the record of these fields.
    fn take(&mut self, fields: Fields) -> Reply {
        let ordinal = self.events.len() + 1;
        let step = Step::try_from(fields).ok();
        let before = self.remembered(step);
        let reply = self.tables.step_fields(fields);
        if let (Some(step), Ok(_)) = (step, reply.into_result()) {
            self.flights.follow(ordinal, step, &self.tables);
            self.look(ordinal);
        }
        let after = self.remembered(step);
        let deed = deed(step, reply, before, after);
        let at = self.place(step, deed);
        self.events.push(Event {
            ordinal,
            fields,
            step,
            reply,
            deed,
            at,
        });
        reply
    }

    /// Looks at owners, guards and boundaries after a step.
    fn look(&mut self, ordinal: usize) {
        if self.holders.look(&self.tables) {
            for (player, holds) in Player::all().zip(&mut self.holds) {
                holds.put(ordinal, |entry| self.holders.hold(player, entry));
            }
        }
        if self.store == self.tables.store_words() {
            return;
        }
        self.store.copy_from_slice(self.tables.store_words());
        self.guards.put(ordinal, guards(&self.tables));
        for entry in 1..=255 {
            let stands = self.tables.begins_tablet(entry);
            let standing = &mut self.standing[usize::from(entry)];
            if stands && standing.is_none() {
                *standing = Some(ordinal);
            } else if !stands {
                if let Some(from) = standing.take() {
                    let to = Some(ordinal);
                    self.boundaries.push(Boundary { entry, from, to });
                }
            }
        }
    }

    /// Of an answer to a player's read or write: the version and value that the player can read of the entry from memory, if it can. A read
    /// is tried and not taken.
    fn remembered(&self, step: Option<Step>) -> Option<(u32, u32)> {
        let Some(Step::Respond { serial }) = step else {
            return None;
        };
        let flight = self.flights.get(serial)?;
        let (Sender::Player(player), Purpose::Read { entry } | Purpose::Write { entry, .. }) =
            (flight.sender, flight.purpose)
        else {
            return None;
        };
        match self.tables.preview(Step::Read { player, entry }) {
            Reply::CacheRead { version, value } => Some((version, value)),
            _ => None,
        }
    }

    /// Where the step stands.
    fn place(&self, step: Option<Step>, deed: Deed) -> At {
        let sender = |serial| match self.flights.get(serial) {
            Some(flight) => At::Sender(flight.sender),
            None => At::Margin,
        };
        match step {
            Some(
                Step::Assign { player, .. }
                | Step::RequestGuard { player, .. }
                | Step::Read { player, .. }
                | Step::Write { player, .. }
                | Step::RestartPlayer { player },
            ) => At::Sender(Sender::Player(player)),
            Some(Step::Load { .. }) => At::Sender(Sender::Loader),
            Some(Step::Respond { serial } | Step::Abandon { serial }) => sender(serial),
            Some(Step::Lose { serial }) if deed == Deed::Lost(serial) => At::Way(serial),
            Some(Step::Lose { serial }) => sender(serial),
            Some(
                Step::Deliver { .. }
                | Step::Split { .. }
                | Step::Merge { .. }
                | Step::RestartTablet { .. }
                | Step::FindInterval { .. },
            ) => At::Store,
            _ => At::Margin,
        }
    }

    /// The story, once all records are taken.
    fn finish(mut self, length: usize, report: Report, rest: Vec<u8>) -> Story {
        for (entry, standing) in (0..=255).zip(self.standing) {
            if let Some(from) = standing {
                let to = None;
                self.boundaries.push(Boundary { entry, from, to });
            }
        }
        Story {
            length,
            report,
            events: self.events,
            flights: self.flights.into_all(),
            holds: self.holds,
            guards: self.guards,
            boundaries: self.boundaries,
            rest,
        }
    }
}

/// What a step did, by its reply, and by what the player remembered before and after an answer.
fn deed(
    step: Option<Step>,
    reply: Reply,
    before: Option<(u32, u32)>,
    after: Option<(u32, u32)>,
) -> Deed {
    let memory = |told: (u32, u32)| match (before == Some(told), after == Some(told)) {
        (_, false) => Memory::NotRemembered,
        (false, true) => Memory::Remembered,
        (true, true) => Memory::AsBefore,
    };
    match (step, reply) {
        (_, Reply::Refused(refusal)) => Deed::Refused(refusal),
        (Some(Step::Assign { .. }), _) => Deed::Assigned,
        (Some(Step::Release { .. }), _) => Deed::Released,
        (
            Some(
                Step::RequestGuard { .. }
                | Step::Read { .. }
                | Step::Write { .. }
                | Step::Load { .. },
            ),
            Reply::Issued { serial },
        ) => Deed::Asked(serial),
        (Some(Step::Read { .. }), Reply::CacheRead { .. }) => Deed::FromMemory,
        (Some(Step::Deliver { serial }), _) => Deed::Arrived(serial),
        (Some(Step::Respond { serial }), Reply::StoreRead { version, value }) => {
            Deed::Answered(serial, Some(memory((version, value))))
        }
        (Some(Step::Respond { serial }), Reply::Committed { value, .. }) => {
            Deed::Answered(serial, Some(memory((serial, value))))
        }
        (Some(Step::Respond { serial }), _) => Deed::Answered(serial, None),
        (Some(Step::Abandon { serial }), _) => Deed::GivenUp(serial),
        (Some(Step::Lose { serial }), _) => Deed::Lost(serial),
        (Some(Step::Split { .. }), _) => Deed::Split,
        (Some(Step::Merge { .. }), _) => Deed::Merged,
        (Some(Step::RestartTablet { .. }), _) => Deed::TabletRestarted,
        (Some(Step::RestartPlayer { .. }), _) => Deed::PlayerRestarted,
        (Some(Step::FindInterval { .. }), Reply::Interval { first, last }) => {
            Deed::Reached(first, last)
        }
        _ => Deed::Other,
    }
}

/// The store's guard of each entry.
fn guards(tables: &Tables) -> impl Fn(u8) -> u32 {
    let mut guards = [0; 256];
    let mut first = 0;
    while first < guards.len() {
        let interval = tables.find_interval(first as u8);
        let end = usize::from(interval.last) + 1;
        guards[first..end].fill(interval.guard);
        first = end;
    }
    move |entry| guards[usize::from(entry)]
}
