//! Which replies each call can give, and how often each was seen.
//!
//! The lists are written down from document 01 ("Replies" and "Who can cause a refusal"; those of
//! each kind of step stand in the model) and document 02, and for the fields of a step from the
//! header of the exported calls (26, and 27 for a field that the kind lacks).

use calls::{Step, KINDS};
use model::rules::REPLIES;

use crate::situations::Situation;

/// The kind that finds a guard interval. A library that knows it has the store's call too.
pub const FIND_INTERVAL: u8 = Step::FindInterval { entry: 0 }.kind();

/// The kind that sends a load.
pub const LOAD: u8 = Step::Load { entry: 0, value: 0 }.kind();

/// A call, for a step also its kind.
#[derive(Clone, Copy, Debug, PartialEq, Eq)]
#[allow(missing_docs)]
pub enum Call {
    /// A step of this kind; 0 stands for those not in force.
    Step(u8),
    /// The preview of such a step.
    Preview(u8),
    Run,
    PreviewRun,
    Decode,
    /// A record of this kind written; 0 stands for those not in force.
    Encode(u8),
    PutMark,
    Marked,
    Waiting,
    Fresh,
    Check,
    Share,
    StoreFresh,
    StoreCheck,
    StoreCheckAt,
    StoreRead,
    StoreFindInterval,
    StoreWrite,
    StoreSetGuard,
    StoreSplit,
    StoreMerge,
    StoreRestart,
}

impl Call {
    /// The kind that a library must know to have this call, 0 for none.
    pub fn needs(self) -> u8 {
        match self {
            Call::Step(kind) | Call::Preview(kind) | Call::Encode(kind) => kind,
            Call::StoreFindInterval => FIND_INTERVAL,
            _ => 0,
        }
    }
}

/// What a step of each kind, and its preview, can reply beside what its rules give: the tests of the
/// tables, and 27.
const OF_EVERY_STEP: [u32; 3] = [21, 22, 27];

/// "36 a buffer shorter than the record to be written", and 27.
const OF_EVERY_RECORD: [u32; 3] = [0, 27, 36];

/// "Why: 0 at the end, else 9 ..., else the record's refusal"; "For a run: 21, 22, 37, 23".
const OF_EVERY_RUN: &[u32] = &[0, 9, 21, 22, 23, 24, 25, 26, 27, 37];

/// What each other call can reply. A run's reply is why it stopped; [`Call::Marked`] gives 0 or 1;
/// the two of `store_write` and `store_set_guard` that differ in the first number are situations.
const OTHERS: &[(Call, &[u32])] = &[
    // Document 02 §1: "26 means a kind not in force".
    (Call::Step(0), &[26]),
    (Call::Preview(0), &[26]),
    (Call::Encode(0), &[26]),
    (Call::Run, OF_EVERY_RUN),
    // Document 02 §4: "previewed likewise, with its report and replies".
    (Call::PreviewRun, OF_EVERY_RUN),
    // "For a record: 24 if empty, 25, 24, 27 if kind is missing, 26, 27."
    (Call::Decode, &[0, 24, 25, 26, 27]),
    (Call::PutMark, &[0, 36]),
    (Call::Marked, &[0, 1]),
    // "21 unless 64 places, then 28; nothing else is tested".
    (Call::Waiting, &[0, 21, 28]),
    // "Making tables fresh tests 21 only."
    (Call::Fresh, &[0, 21]),
    (Call::Check, &[0, 21, 22]),
    // Document 02 §7: "39 when the player has no answered read, after 28."
    (Call::Share, &[0, 21, 22, 28, 39]),
    (Call::StoreFresh, &[0, 21]),
    (Call::StoreCheck, &[0, 21, 22]),
    (Call::StoreCheckAt, &[0, 21, 22]),
    (Call::StoreRead, &[0, 21, 22]),
    // Document 02 §1: every entry has a guard and its interval.
    (Call::StoreFindInterval, &[0, 21, 22]),
    // "a request's or write's serial of 0 or above that is 28".
    (Call::StoreWrite, &[0, 21, 22, 28]),
    (Call::StoreSetGuard, &[0, 21, 22, 28]),
    (Call::StoreSplit, &[0, 21, 22, 28, 35]),
    (Call::StoreMerge, &[0, 21, 22, 28, 35]),
    (Call::StoreRestart, &[0, 21, 22]),
];

/// Numbers of replies are below this.
const CODES: usize = 64;

/// What a call can reply, and how often it gave each reply.
#[derive(Clone, Debug)]
struct Row {
    call: Call,
    can: Vec<u32>,
    seen: [u64; CODES],
}

impl Row {
    fn new(call: Call, can: Vec<u32>) -> Row {
        Row {
            call,
            can,
            seen: [0; CODES],
        }
    }
}

/// How often each reply and each situation was seen.
#[derive(Clone, Debug)]
pub struct Counts {
    rows: Vec<Row>,
    situations: Vec<(Situation, u64)>,
    /// Steps played, one by one or in runs.
    pub steps: u64,
    /// Runs over damaged, cut, over-long or random bytes.
    pub damaged: u64,
}

impl Default for Counts {
    fn default() -> Counts {
        // Document 02 §4: a preview "gives that reply, for every kind and refusal".
        let steps = [Call::Step, Call::Preview].into_iter().flat_map(|call| {
            (1..).zip(REPLIES).map(move |(kind, replies)| {
                let can = [replies, &OF_EVERY_STEP].concat();
                Row::new(call(kind), can)
            })
        });
        let records =
            (1..=KINDS).map(|kind| Row::new(Call::Encode(kind), OF_EVERY_RECORD.to_vec()));
        let others = OTHERS
            .iter()
            .map(|&(call, can)| Row::new(call, can.to_vec()));
        Counts {
            rows: steps.chain(records).chain(others).collect(),
            situations: Situation::all().into_iter().map(|s| (s, 0)).collect(),
            steps: 0,
            damaged: 0,
        }
    }
}

impl Counts {
    /// The place of a call's row.
    fn row(&self, call: Call) -> Option<usize> {
        match call {
            // The steps stand first and then their previews, so that the row is found at once.
            Call::Step(kind @ 1..=KINDS) => Some(usize::from(kind) - 1),
            Call::Preview(kind @ 1..=KINDS) => Some(usize::from(KINDS + kind) - 1),
            other => self.rows.iter().position(|row| row.call == other),
        }
    }

    /// A reply of a call.
    pub fn note(&mut self, call: Call, code: u32) {
        let row = self.row(call).map(|at| &mut self.rows[at]);
        if let Some(count) = row.and_then(|row| row.seen.get_mut(code as usize)) {
            *count += 1;
        }
    }

    /// Situations; those that need not occur are passed over.
    pub fn note_situations(&mut self, found: impl IntoIterator<Item = Situation>) {
        for situation in found {
            let mut all = self.situations.iter_mut();
            if let Some((_, count)) = all.find(|(other, _)| *other == situation) {
                *count += 1;
            }
        }
    }

    /// How often a call gave this reply.
    pub fn seen(&self, call: Call, code: u32) -> u64 {
        self.row(call)
            .map_or(0, |at| self.rows[at].seen[code as usize])
    }

    /// The table of counts, and what is wrong with it: cells that can occur and stayed empty, and
    /// replies that no sentence gives. The third is the number of cells that are as they should be.
    /// Kinds after `kinds`, and calls that came with them, are left out.
    pub fn table(&self, kinds: u8) -> (String, Vec<String>, usize) {
        let mut text = String::from("call              reply: count ...\n");
        let mut wrong = Vec::new();
        let mut good = 0;
        for Row { call, can, seen } in &self.rows {
            if call.needs() > kinds {
                continue;
            }
            text.push_str(&format!("{:<17}", name(*call)));
            for code in 0..CODES as u32 {
                let count = seen[code as usize];
                match (can.contains(&code), count) {
                    (true, 0) => wrong.push(format!("{} never gave {code}", name(*call))),
                    (false, 1..) => wrong.push(format!(
                        "{} gave {code} {count} times, and no sentence of the documents says so",
                        name(*call)
                    )),
                    (true, _) => good += 1,
                    (false, 0) => continue,
                }
                text.push_str(&format!(" {code}: {count} "));
            }
            text.push('\n');
        }
        text.push_str("situation: count\n");
        for (situation, count) in &self.situations {
            if situation.needs() > kinds {
                continue;
            }
            text.push_str(&format!("{situation:?}: {count}\n"));
            if *count == 0 {
                wrong.push(format!("{situation:?} never occurred"));
            } else {
                good += 1;
            }
        }
        (text, wrong, good)
    }
}

/// A call's name in the table.
pub fn name(call: Call) -> String {
    match call {
        Call::Step(0) => "step of no kind".into(),
        Call::Step(kind) => format!("step {kind}"),
        Call::Preview(0) => "preview no kind".into(),
        Call::Preview(kind) => format!("preview {kind}"),
        Call::Encode(0) => "encode no kind".into(),
        Call::Encode(kind) => format!("encode {kind}"),
        other => format!("{other:?}"),
    }
}
