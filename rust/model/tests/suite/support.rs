//! Short names for steps and replies, and what several tests share.

use calls::{Range, Reply, Report, Step};
use model::counters::ReadCounter;
use model::faults::NoFault;
use model::state::{Operation, State};
use model::trial::play;

/// How many times the default number of random cases is run: `FAMDRIZE_SCALE`, 1 if not set.
pub fn scale() -> usize {
    std::env::var("FAMDRIZE_SCALE")
        .ok()
        .and_then(|text| text.parse().ok())
        .unwrap_or(1)
}

/// The bytes of a text in hexadecimal; spaces are skipped.
pub fn hex(text: &str) -> Vec<u8> {
    let digits: Vec<u32> = text.chars().filter_map(|c| c.to_digit(16)).collect();
    digits
        .chunks(2)
        .map(|pair| (pair[0] * 16 + pair[1]) as u8)
        .collect()
}

/// The replies to steps from fresh tables.
pub fn replies(steps: &[Step]) -> Vec<Reply> {
    let (history, _) = play(steps, &NoFault);
    history.iter().map(|event| event.reply).collect()
}

/// The last reply to steps from fresh tables.
pub fn last_reply(steps: &[Step]) -> Reply {
    replies(steps)[steps.len() - 1]
}

/// The state after steps from fresh tables, none of them refused.
pub fn state_after(steps: &[Step]) -> State {
    let (history, state) = play(steps, &NoFault);
    for event in history {
        assert!(!event.reply.is_refusal(), "{event:?}");
    }
    state
}

/// The serial of each request, and whether it is overlapped.
pub fn marks(state: &State) -> Vec<(u32, bool)> {
    let overlapped = |operation: &Operation| match *operation {
        Operation::Guard { .. } => false,
        Operation::Read { overlapped, .. } | Operation::Write { overlapped, .. } => overlapped,
    };
    state
        .requests
        .iter()
        .map(|r| (r.serial, overlapped(&r.operation)))
        .collect()
}

pub fn reply(code: u32, a: u32, b: u32) -> Reply {
    Reply::new(code, a, b)
}

pub fn refused(number: u32) -> Reply {
    Reply::new(number, 0, 0)
}

pub fn report(why: u32, records: u32, place: u32) -> Report {
    Report {
        why,
        records,
        place,
    }
}

/// A read counter: answered reads, and those of them from memory.
pub fn counter(answered: u32, hits: u32) -> ReadCounter {
    ReadCounter { answered, hits }
}

pub fn range(low: u8, high: u16) -> Range {
    Range::new(low, high)
}

pub fn assign(player: u8, low: u8, high: u16) -> Step {
    let range = Range::new(low, high);
    Step::Assign { player, range }
}

pub fn release(low: u8, high: u16) -> Step {
    let range = Range::new(low, high);
    Step::Release { range }
}

pub fn ask(player: u8, low: u8, high: u16) -> Step {
    let range = Range::new(low, high);
    Step::RequestGuard { player, range }
}

pub fn read(player: u8, entry: u8) -> Step {
    Step::Read { player, entry }
}

pub fn write(player: u8, entry: u8, value: u32) -> Step {
    Step::Write {
        player,
        entry,
        value,
    }
}

pub fn deliver(serial: u32) -> Step {
    Step::Deliver { serial }
}

pub fn respond(serial: u32) -> Step {
    Step::Respond { serial }
}

pub fn abandon(serial: u32) -> Step {
    Step::Abandon { serial }
}

pub fn lose(serial: u32) -> Step {
    Step::Lose { serial }
}

pub fn split(entry: u8) -> Step {
    Step::Split { entry }
}

pub fn merge(entry: u8) -> Step {
    Step::Merge { entry }
}

pub fn restart_tablet(entry: u8) -> Step {
    Step::RestartTablet { entry }
}

pub fn restart_player(player: u8) -> Step {
    Step::RestartPlayer { player }
}

pub fn find_interval(entry: u8) -> Step {
    Step::FindInterval { entry }
}

pub fn load(entry: u8, value: u32) -> Step {
    Step::Load { entry, value }
}

/// Player 0 owns 40 to 60 (serial 1) and holds guard 2 there; the next serial is 3.
pub fn guarded() -> Vec<Step> {
    vec![assign(0, 40, 60), ask(0, 40, 60), deliver(2), respond(2)]
}

/// [`guarded`], then more steps.
pub fn then(more: &[Step]) -> Vec<Step> {
    let mut steps = guarded();
    steps.extend_from_slice(more);
    steps
}
