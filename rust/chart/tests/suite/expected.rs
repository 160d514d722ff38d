//! What a picture should show, by the model of the rules and by the replies alone: written from the documents' sentences and not from the code
//! that draws.

use std::collections::BTreeMap;

use calls::{Fields, Reply, Step};
use model::codec;
use model::numbers::{BARRED, ENTRIES, LOADER, NOBODY, OPEN};
use model::rules;
use model::run::{AT_END, REPLY_WORDS};
use model::state::{Operation, State};

use super::said::{memory, request, said};

/// What a session's picture should show.
pub struct Expected {
    pub events: Vec<Event>,
    pub requests: BTreeMap<u32, Request>,
    /// What the bars should show before the first step, and after each.
    pub sights: Vec<Sight>,
    /// Why the run stopped, the records, and the place after them.
    pub end: (u32, u32, u32),
    /// The names of the lifelines.
    pub lifelines: Vec<String>,
}

/// What the bars should show at a step.
pub struct Sight {
    /// For each entry what the store's bar says, and whether a boundary stands there.
    pub guards: Vec<u32>,
    pub boundaries: Vec<bool>,
    /// For each entry its owner, if it has one, with the live guard, or 0 without.
    pub holders: Vec<Option<(u8, u32)>>,
}

impl Sight {
    /// "A player's guard for an entry is *live* when it is not 0, the player owns the entry, and the entry's period is below the guard."
    fn of(state: &State) -> Sight {
        let holder = |entry: usize| {
            let owner = state.owners[entry];
            if owner == NOBODY {
                return None;
            }
            let guard = state.held[usize::from(owner)][entry];
            let live = guard != 0 && state.epochs[entry] < guard;
            Some((owner, if live { guard } else { 0 }))
        };
        Sight {
            guards: state.store.guards.to_vec(),
            boundaries: state.store.boundaries.to_vec(),
            holders: (0..ENTRIES).map(holder).collect(),
        }
    }

    /// What the store's bar says of an entry.
    pub fn of_store(&self, entry: usize) -> Option<String> {
        Some(match self.guards[entry] {
            OPEN => "open".to_string(),
            BARRED => "barred".to_string(),
            guard => format!("guard {guard}"),
        })
    }

    /// What a player's bar says of an entry; none where it is not the owner.
    pub fn of_player(&self, player: u8, entry: usize) -> Option<String> {
        match self.holders[entry] {
            Some((owner, 0)) if owner == player => Some("no guard".to_string()),
            Some((owner, guard)) if owner == player => Some(format!("guard {guard}")),
            _ => None,
        }
    }
}

/// A step that was taken.
pub struct Event {
    pub step: Step,
    pub reply: Reply,
    /// What its row says of the reply.
    pub said: String,
    pub sign: &'static str,
    pub place: String,
    /// The place of its record in the session.
    pub byte: usize,
}

/// A request, by the steps and replies that name it.
#[derive(Clone, Debug)]
pub struct Request {
    /// The lifeline of its sender.
    pub sender: String,
    pub asked: usize,
    pub arrived: Option<usize>,
    pub given_up: Option<usize>,
    pub lost: Option<usize>,
    pub answered: Option<usize>,
    /// The step that marked it overlapped.
    pub crossed: Option<usize>,
}

/// A player's lifeline.
pub fn player(number: u8) -> String {
    match number {
        LOADER => "the loader".to_string(),
        number => format!("player {number}"),
    }
}

impl Expected {
    /// That of any bytes.
    pub fn of(session: &[u8]) -> Expected {
        let (mut store, mut players) = model::tables::fresh_tables();
        let mut list = vec![0; 5460 * REPLY_WORDS];
        let report = model::run::run(&mut store, &mut players, session, u32::MAX, &mut list);
        let mut expected = Expected {
            events: Vec::new(),
            requests: BTreeMap::new(),
            sights: vec![Sight::of(&State::fresh())],
            end: (report.why, report.records, report.place),
            lifelines: Vec::new(),
        };
        let mut now = State::fresh();
        let mut byte = codec::MARK.len();
        for words in list.chunks(REPLY_WORDS).take(report.records as usize) {
            let (step, length) = codec::decode(&session[byte..]).expect("a record that was taken");
            let reply = Reply::new(words[0], words[1], words[2]);
            expected.take(&mut now, step, reply, byte);
            byte += length;
        }
        let senders = expected
            .requests
            .values()
            .map(|request| request.sender.clone());
        let places = expected.events.iter().map(|event| event.place.clone());
        let mut names: Vec<String> = senders.chain(places).collect();
        names.retain(|name| name.starts_with("player") || name == "the loader");
        names.push("the store".to_string());
        names.sort_unstable();
        names.dedup();
        expected.lifelines = names;
        expected
    }

    /// Whether the run came to the session's end.
    pub fn is_whole(&self) -> bool {
        self.end.0 == AT_END
    }

    fn take(&mut self, now: &mut State, step: Step, reply: Reply, byte: usize) {
        let before = now.clone();
        assert_eq!(rules::step(now, step), reply);
        let after = &*now;
        let ordinal = self.events.len() + 1;
        if !reply.is_refusal() {
            self.note(ordinal, step, reply);
            self.note_crossed(ordinal, after);
        }
        let said = said(step, reply, &before, after);
        let sign = sign(step, reply, &before, after);
        let place = self.place(step, sign);
        self.sights.push(Sight::of(after));
        self.events.push(Event {
            step,
            reply,
            said,
            sign,
            place,
            byte,
        });
    }

    /// What a step and its reply say of a request: "A read or write begins at its reply 1 and is answered at reply 3, 4 or 5 ... It is given up
    /// when step 8 with reply 0 names it, or step 13 its player while it is neither answered nor given up."
    fn note(&mut self, ordinal: usize, step: Step, reply: Reply) {
        match step {
            Step::RequestGuard { player, .. }
            | Step::Read { player, .. }
            | Step::Write { player, .. }
                if reply.code == 1 =>
            {
                self.send(reply.a, player, ordinal);
            }
            Step::Load { .. } => self.send(reply.a, LOADER, ordinal),
            Step::Deliver { serial } => self.sent(serial).arrived = Some(ordinal),
            Step::Respond { serial } => self.sent(serial).answered = Some(ordinal),
            Step::Abandon { serial } => self.sent(serial).given_up = Some(ordinal),
            Step::Lose { serial } => self.sent(serial).lost = Some(ordinal),
            Step::RestartPlayer { player: restarted } => {
                let waiting = self.requests.values_mut().filter(|request| {
                    request.sender == player(restarted)
                        && request.answered.is_none()
                        && request.given_up.is_none()
                });
                waiting.for_each(|request| request.given_up = Some(ordinal));
            }
            _ => {}
        }
    }

    fn sent(&mut self, serial: u32) -> &mut Request {
        let request = self.requests.get_mut(&serial);
        request.expect("a request that was sent")
    }

    fn send(&mut self, serial: u32, sender: u8, asked: usize) {
        let request = Request {
            sender: player(sender),
            asked,
            arrived: None,
            given_up: None,
            lost: None,
            answered: None,
            crossed: None,
        };
        self.requests.insert(serial, request);
    }

    /// The marks "overlapped" of the model's requests.
    fn note_crossed(&mut self, ordinal: usize, after: &State) {
        for request in &after.requests {
            let overlapped = match request.operation {
                Operation::Guard { .. } => false,
                Operation::Read { overlapped, .. } | Operation::Write { overlapped, .. } => {
                    overlapped
                }
            };
            if overlapped {
                self.sent(request.serial).crossed.get_or_insert(ordinal);
            }
        }
    }

    /// The lifeline, or other place, at which a step's sign stands.
    fn place(&self, step: Step, sign: &str) -> String {
        let fields = Fields::from(step);
        let sender = |serial: u32| match self.requests.get(&serial) {
            Some(request) => request.sender.clone(),
            None => "margin".to_string(),
        };
        match step {
            _ if !is_in_range(step) => "margin".to_string(),
            Step::Release { .. } => "margin".to_string(),
            Step::Respond { serial } | Step::Abandon { serial } => sender(serial),
            Step::Lose { .. } if sign == "lost" => "way".to_string(),
            Step::Lose { serial } => sender(serial),
            Step::Load { .. } => player(LOADER),
            Step::Assign { .. }
            | Step::RequestGuard { .. }
            | Step::Read { .. }
            | Step::Write { .. }
            | Step::RestartPlayer { .. } => player(fields.player),
            Step::Deliver { .. }
            | Step::Split { .. }
            | Step::Merge { .. }
            | Step::RestartTablet { .. }
            | Step::FindInterval { .. } => "the store".to_string(),
        }
    }
}

/// Whether a step's player and range are such: one with another player or range stands beside all lifelines.
fn is_in_range(step: Step) -> bool {
    let range = |range: calls::Range| u16::from(range.low) < range.high && range.high <= 256;
    match step {
        Step::Assign { player, range: r } | Step::RequestGuard { player, range: r } => {
            player < 8 && range(r)
        }
        Step::Release { range: r } => range(r),
        Step::Read { player, .. } | Step::Write { player, .. } | Step::RestartPlayer { player } => {
            player < 8
        }
        _ => true,
    }
}

/// The sign of a step.
fn sign(step: Step, reply: Reply, before: &State, after: &State) -> &'static str {
    if reply.is_refusal() {
        return "refused";
    }
    match step {
        Step::Assign { .. } => "assigned",
        Step::Release { .. } => "released",
        Step::Read { .. } if reply.code == 2 => "from-memory",
        Step::RequestGuard { .. } | Step::Read { .. } | Step::Write { .. } | Step::Load { .. } => {
            "asked"
        }
        Step::Deliver { serial } => arrival(serial, before, after),
        Step::Respond { serial } => answer(serial, reply, before, after),
        Step::Abandon { .. } => "gives-up",
        Step::Lose { .. } => "lost",
        Step::Split { .. } => "split",
        Step::Merge { .. } => "merged",
        Step::RestartTablet { .. } | Step::RestartPlayer { .. } => "restarted",
        Step::FindInterval { .. } => "reached",
    }
}

/// "if the range lies in one tablet the guard is set over it"; "commits if the carried guard equals the entry's guard".
fn arrival(serial: u32, before: &State, after: &State) -> &'static str {
    match request(before, serial).operation {
        Operation::Guard { range, .. } if after.store.guards[usize::from(range.low)] == serial => {
            "guard-done"
        }
        Operation::Guard { .. } => "guard-not-done",
        Operation::Read { .. } => "found",
        Operation::Write { entry, .. } if after.store.versions[usize::from(entry)] == serial => {
            "committed"
        }
        Operation::Write { .. } => "turned-back",
    }
}

/// What came of an answer.
fn answer(serial: u32, reply: Reply, before: &State, after: &State) -> &'static str {
    match reply.code {
        6 => "guard-done",
        7 | 8 => "guard-not-done",
        5 => "turned-back",
        _ => match memory(request(before, serial), reply, before, after) {
            Some("remembered") => "remembered",
            _ => "not-remembered",
        },
    }
}
