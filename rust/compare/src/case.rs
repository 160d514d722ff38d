//! One case: start tables and what is called; and how library and model differ on it.

use calls::{Fields, Library, Reply, Report, Request, Step, KINDS};
use model::codec::{self, MARK};
use model::numbers::MAX_SERIAL;
use model::reply::code;
use model::state::State;
use model::tables::{self, decode_store, tables_of};

use crate::cells::{Call, Counts, FIND_INTERVAL};
use crate::counters::{self, OnShare, Way};
use crate::oracle::RIGHT;
use crate::shares::Watch;
use crate::situations::{OnLoad, PreviewEnd, Situation};

/// What is called.
#[derive(Clone, Debug)]
#[allow(missing_docs)]
pub enum Act {
    Fresh,
    Check,
    /// Steps one after the other, each previewed and then taken; both tables are compared after each call.
    Steps(Vec<Step>),
    /// One step by any fields, previewed and then taken.
    Fields(Fields),
    /// A run with a list of this many words, previewed twice and then taken.
    Run {
        session: Vec<u8>,
        budget: u32,
        list: usize,
    },
    Decode(Vec<u8>),
    /// A record written to a buffer of this many bytes.
    Encode(Fields, usize),
    PutMark(usize),
    Marked(Vec<u8>),
    Waiting(Vec<Request>, u8),
    /// The share of a player's reads from memory.
    Share(u8),
    Store(StoreCall),
}

impl Act {
    /// Whether it has no kind in force but the first ones, 1 up to `kinds`.
    fn is_known(&self, kinds: u8) -> bool {
        let known = |kind: u8| kind <= kinds || kind > KINDS;
        // The kind of the record that stands at the start of the bytes, 0 where there is none.
        let kind_at = |part: &[u8]| match part {
            [map, kind, ..] if map % 2 == 1 => *kind,
            _ => 0,
        };
        match self {
            Act::Steps(steps) => steps.iter().all(|step| known(step.kind())),
            Act::Fields(fields) | Act::Encode(fields, _) => known(fields.kind),
            Act::Decode(part) => known(kind_at(part)),
            Act::Run { session, .. } => {
                let mut rest = session.get(MARK.len()..).unwrap_or(&[]);
                while let (true, Ok((_, length))) = (known(kind_at(rest)), codec::decode(rest)) {
                    rest = &rest[length..];
                }
                known(kind_at(rest))
            }
            Act::Store(StoreCall::FindInterval { .. }) => known(FIND_INTERVAL),
            _ => true,
        }
    }
}

/// The kind if it is in force, else 0.
fn in_force(kind: u8) -> u8 {
    if kind <= KINDS {
        kind
    } else {
        0
    }
}

/// A call of the store used alone.
#[derive(Clone, Copy, Debug, PartialEq, Eq)]
#[allow(missing_docs)]
pub enum StoreCall {
    Fresh,
    Check,
    CheckAt {
        last: u32,
    },
    Read {
        entry: u8,
    },
    FindInterval {
        entry: u8,
    },
    Write {
        entry: u8,
        value: u32,
        serial: u32,
        guard: u32,
    },
    SetGuard {
        low: u8,
        high: u16,
        serial: u32,
    },
    Split {
        entry: u8,
    },
    Merge {
        entry: u8,
    },
    Restart {
        entry: u8,
    },
}

/// Start tables and what is called.
#[derive(Clone, Debug)]
#[allow(missing_docs)]
pub struct Case {
    pub store: Vec<u32>,
    pub players: Vec<u32>,
    pub act: Act,
}

/// Where library and model differ.
#[derive(Clone, Debug, PartialEq, Eq)]
pub struct Difference {
    /// Of steps, how many were played with the one that shows it.
    pub after: usize,
    /// What differs.
    pub what: String,
}

/// What a word that must not be written holds before.
const POISON: u32 = 0xA5A5_0000;

fn poisoned_words(words: usize) -> Vec<u32> {
    (0..words).map(|at| POISON + at as u32).collect()
}

fn poisoned_bytes(bytes: usize) -> Vec<u8> {
    (0..bytes).map(|at| 0xA5 ^ at as u8).collect()
}

/// The first place where two buffers differ.
fn first_difference<T: PartialEq + std::fmt::Display>(
    what: &str,
    library: &[T],
    model: &[T],
) -> Option<String> {
    if library == model {
        return None;
    }
    let at = library
        .iter()
        .zip(model)
        .position(|(one, other)| one != other)?;
    Some(format!(
        "{what} {at}: library {}, model {}",
        library[at], model[at]
    ))
}

fn numbers(reply: Reply) -> Vec<u32> {
    vec![reply.code, reply.a, reply.b]
}

fn numbers_differ(library: &[u32], model: &[u32]) -> Option<String> {
    let show = |numbers: &[u32]| {
        let texts: Vec<String> = numbers.iter().map(u32::to_string).collect();
        texts.join(" ")
    };
    (library != model).then(|| format!("reply: library {}, model {}", show(library), show(model)))
}

fn replies_differ(library: Reply, model: Reply) -> Option<String> {
    if library == model {
        return None;
    }
    numbers_differ(&numbers(library), &numbers(model))
}

/// What a run, or its preview, reports and leaves of its list.
fn runs_differ(told: Report, report: Report, said: &[u32], expected: &[u32]) -> Option<String> {
    (told != report)
        .then(|| format!("report: library {told:?}, model {report:?}"))
        .or_else(|| first_difference("list of replies, word", said, expected))
}

fn tables_differ(lent: (&[u32], &[u32]), right: (&[u32], &[u32])) -> Option<String> {
    first_difference("store's table, word", lent.0, right.0)
        .or_else(|| first_difference("players' table, word", lent.1, right.1))
}

fn of_preview(what: String) -> String {
    format!("preview, {what}")
}

impl Case {
    /// A case that begins with fresh tables.
    pub fn fresh(act: Act) -> Case {
        let (store, players) = tables::fresh_tables();
        Case {
            store,
            players,
            act,
        }
    }

    /// How library and model differ on this case, if they do. The model's replies are counted. A case
    /// with a kind in force that the library does not know, or a call that came with it, is passed
    /// over.
    pub fn differs(&self, library: &impl Library, counts: &mut Counts) -> Option<Difference> {
        if !self.act.is_known(library.kinds()) {
            return None;
        }
        let (after, what) = match &self.act {
            Act::Steps(steps) => return self.steps_differ(steps, library, counts),
            _ => (0, self.call_differs(library, counts)?),
        };
        Some(Difference { after, what })
    }

    /// Steps one after the other: of each one and of its preview the reply and both tables.
    fn steps_differ(
        &self,
        steps: &[Step],
        library: &impl Library,
        counts: &mut Counts,
    ) -> Option<Difference> {
        let (mut store, mut players) = (self.store.clone(), self.players.clone());
        let mut state = tables::decode(&self.store, &self.players);
        let mut right = (self.store.clone(), self.players.clone());
        let mut watch = Watch::default();
        for (at, &step) in steps.iter().enumerate() {
            let previewed = library.preview(&store, &players, step.into());
            let altered = tables_differ((&store, &players), (&right.0, &right.1));
            let model = match &mut state {
                Ok(state) => {
                    let (reply, found) = right_step(state, step, &mut watch);
                    counts.note_situations(found);
                    if !reply.is_refusal() {
                        right = tables_of(state);
                    }
                    reply
                }
                Err(error) => Reply::from(error.refusal()),
            };
            counts.note(Call::Preview(step.kind()), model.code);
            counts.note(Call::Step(step.kind()), model.code);
            counts.steps += 1;
            let preview = replies_differ(previewed, model).or(altered);
            let what = preview.map(of_preview).or_else(|| {
                let said = library.step(&mut store, &mut players, step.into());
                replies_differ(said, model)
                    .or_else(|| tables_differ((&store, &players), (&right.0, &right.1)))
            });
            if let Some(what) = what {
                return Some(Difference {
                    after: at + 1,
                    what: format!("step {}: {what}", at + 1),
                });
            }
        }
        None
    }

    /// The preview of a step by its fields, or of a run: what it gives, and that it alters neither of the
    /// lent tables. Once more into the same list, that of a run changes nothing.
    fn preview_differs(
        &self,
        library: &impl Library,
        lent: (&[u32], &[u32]),
        counts: &mut Counts,
    ) -> Option<String> {
        let model = RIGHT;
        let (store, players) = (&self.store[..], &self.players[..]);
        let altered = || tables_differ(lent, (store, players));
        let what = match &self.act {
            Act::Fields(fields) => {
                let expected = model.preview(store, players, *fields);
                counts.note(Call::Preview(in_force(fields.kind)), expected.code);
                let said = library.preview(lent.0, lent.1, *fields);
                replies_differ(said, expected).or_else(altered)
            }
            Act::Run {
                session,
                budget,
                list,
            } => {
                let (mut said, mut expected) = (poisoned_words(*list), poisoned_words(*list));
                let report = model.preview_run(store, players, session, *budget, &mut expected);
                counts.note(Call::PreviewRun, report.why);
                let ends = PreviewEnd::of(session, *budget, report);
                counts.note_situations(ends.into_iter().map(Situation::Preview));
                (0..2).find_map(|_| {
                    let told = library.preview_run(lent.0, lent.1, session, *budget, &mut said);
                    runs_differ(told, report, &said, &expected).or_else(altered)
                })
            }
            _ => None,
        };
        what.map(of_preview)
    }

    /// One call, after its preview if it has one: what it gives, and what it leaves of all it is lent.
    fn call_differs(&self, library: &impl Library, counts: &mut Counts) -> Option<String> {
        let model = RIGHT;
        let (mut store, mut players) = (self.store.clone(), self.players.clone());
        let preview = self.preview_differs(library, (&store, &players), counts);
        if preview.is_some() {
            return preview;
        }
        let mut right = (self.store.clone(), self.players.clone());
        let what = match &self.act {
            Act::Steps(_) => None,
            Act::Fresh => {
                let expected = model.fresh(&mut right.0, &mut right.1);
                counts.note(Call::Fresh, expected.code);
                replies_differ(library.fresh(&mut store, &mut players), expected)
            }
            Act::Check => {
                let expected = model.check(&right.0, &right.1);
                counts.note(Call::Check, expected.code);
                replies_differ(library.check(&store, &players), expected)
            }
            Act::Fields(fields) => {
                let expected = model.step(&mut right.0, &mut right.1, *fields);
                counts.note(Call::Step(in_force(fields.kind)), expected.code);
                counts.steps += 1;
                replies_differ(library.step(&mut store, &mut players, *fields), expected)
            }
            Act::Run {
                session,
                budget,
                list,
            } => {
                let (mut said, mut expected) = (poisoned_words(*list), poisoned_words(*list));
                let report = model.run(&mut right.0, &mut right.1, session, *budget, &mut expected);
                counts.note(Call::Run, report.why);
                counts.steps += u64::from(report.records);
                let told = library.run(&mut store, &mut players, session, *budget, &mut said);
                runs_differ(told, report, &said, &expected)
            }
            Act::Decode(part) => {
                let expected = model.decode(part);
                counts.note(Call::Decode, expected.code);
                let said = library.decode(part);
                (said != expected).then(|| format!("library {said:?}, model {expected:?}"))
            }
            Act::Encode(fields, bytes) => {
                let (mut said, mut expected) = (poisoned_bytes(*bytes), poisoned_bytes(*bytes));
                let reply = model.encode(*fields, &mut expected);
                counts.note(Call::Encode(in_force(fields.kind)), reply.code);
                replies_differ(library.encode(*fields, &mut said), reply)
                    .or_else(|| first_difference("buffer, byte", &said, &expected))
            }
            Act::PutMark(bytes) => {
                let (mut said, mut expected) = (poisoned_bytes(*bytes), poisoned_bytes(*bytes));
                let reply = model.put_mark(&mut expected);
                counts.note(Call::PutMark, reply.code);
                replies_differ(library.put_mark(&mut said), reply)
                    .or_else(|| first_difference("buffer, byte", &said, &expected))
            }
            Act::Marked(session) => {
                let expected = model.marked(session);
                counts.note(Call::Marked, u32::from(expected));
                let said = library.marked(session);
                (said != expected).then(|| format!("library {said}, model {expected}"))
            }
            Act::Waiting(list, player) => {
                let expected = model.waiting(list, *player);
                counts.note(Call::Waiting, expected.code);
                replies_differ(library.waiting(list, *player), expected)
            }
            Act::Share(player) => {
                let expected = model.share(&right.0, &right.1, *player);
                counts.note(Call::Share, expected.code);
                let found = OnShare::of(&right.0, &right.1, *player);
                counts.note_situations(found.into_iter().map(Situation::Share));
                replies_differ(library.share(&store, &players, *player), expected)
            }
            Act::Store(call) => {
                let (name, expected) = on_store(&model, &mut right.0, *call);
                counts.note(name, expected[0]);
                if expected[0] == 0 {
                    counts.note_situations([Situation::Outcome(name, expected[1])]);
                    counts.note_situations(met(&self.store, *call));
                }
                numbers_differ(&on_store(library, &mut store, *call).1, &expected)
            }
        };
        what.or_else(|| tables_differ((&store, &players), (&right.0, &right.1)))
    }
}

/// The model's step, and the situations that it meets: but for those of the shares and the read counters, of a step
/// that takes place. (A read from memory sends nothing.)
fn right_step(state: &mut State, step: Step, watch: &mut Watch) -> (Reply, Vec<Situation>) {
    let mut found: Vec<Situation> = match step {
        Step::FindInterval { entry } => {
            Situation::intervals(Call::Step(step.kind()), &state.store, entry)
        }
        _ => OnLoad::of(state, step)
            .into_iter()
            .map(Situation::Load)
            .collect(),
    };
    let counted = counters::Watch::new(Way::Step, state, step);
    let (reply, shares) = watch.step(state, step);
    if reply.is_refusal() || reply.code == code::FROM_MEMORY {
        found.clear();
    }
    found.extend(shares.into_iter().map(Situation::Shares));
    let counted = counted.map_or(Vec::new(), |watch| watch.met(reply));
    found.extend(counted.into_iter().map(Situation::Counters));
    (reply, found)
}

/// The situations that a call of the store used alone meets on a table that keeps the rules.
fn met(store: &[u32], call: StoreCall) -> Vec<Situation> {
    match (call, decode_store(store, MAX_SERIAL)) {
        (StoreCall::FindInterval { entry }, Ok(store)) => {
            Situation::intervals(Call::StoreFindInterval, &store, entry)
        }
        (StoreCall::Write { entry, guard, .. }, Ok(store)) => {
            vec![Situation::carried(&store, entry, guard)]
        }
        _ => Vec::new(),
    }
}

/// The call, and the numbers that it gives.
fn on_store(library: &impl Library, store: &mut [u32], call: StoreCall) -> (Call, Vec<u32>) {
    let (name, reply) = match call {
        StoreCall::FindInterval { entry } => {
            let found = library.store_find_interval(store, entry);
            let numbers = vec![found.code, found.guard, found.first, found.last];
            return (Call::StoreFindInterval, numbers);
        }
        StoreCall::Fresh => (Call::StoreFresh, library.store_fresh(store)),
        StoreCall::Check => (Call::StoreCheck, library.store_check(store)),
        StoreCall::CheckAt { last } => (Call::StoreCheckAt, library.store_check_at(store, last)),
        StoreCall::Read { entry } => (Call::StoreRead, library.store_read(store, entry)),
        StoreCall::Write {
            entry,
            value,
            serial,
            guard,
        } => (
            Call::StoreWrite,
            library.store_write(store, entry, value, serial, guard),
        ),
        StoreCall::SetGuard { low, high, serial } => (
            Call::StoreSetGuard,
            library.store_set_guard(store, low, high, serial),
        ),
        StoreCall::Split { entry } => (Call::StoreSplit, library.store_split(store, entry)),
        StoreCall::Merge { entry } => (Call::StoreMerge, library.store_merge(store, entry)),
        StoreCall::Restart { entry } => (Call::StoreRestart, library.store_restart(store, entry)),
    };
    (name, numbers(reply))
}

#[cfg(test)]
mod tests {
    use super::*;

    /// A library that knows the kinds 1 to 9 is compared on those, and on kinds that are not in force.
    #[test]
    fn the_first_kinds_alone() {
        let [lose, split] = [Step::Lose { serial: 1 }, Step::Split { entry: 1 }];
        let fields = |kind| Fields {
            kind,
            ..Fields::default()
        };
        let run = |session: Vec<u8>| Act::Run {
            session,
            budget: 9,
            list: 9,
        };
        let mut behind_damage = codec::session(&[lose]);
        behind_damage.push(0x40);
        behind_damage.extend(codec::record(split));
        for act in [
            Act::Check,
            Act::Steps(vec![lose]),
            Act::Fields(fields(9)),
            Act::Fields(fields(KINDS + 1)),
            Act::Encode(fields(0), 8),
            Act::Decode(codec::record(lose)),
            Act::Decode(vec![0x02, 10]),
            run(vec![]),
            run(codec::session(&[lose, lose])),
            run(behind_damage),
            Act::Store(StoreCall::Restart { entry: 1 }),
        ] {
            assert!(act.is_known(9), "{act:?}");
        }
        for act in [
            Act::Steps(vec![lose, split]),
            Act::Fields(fields(10)),
            Act::Encode(fields(KINDS), 8),
            Act::Decode(vec![0x01, 10]),
            run(codec::session(&[lose, split])),
            run(codec::session(&[split])[..6].to_vec()),
            Act::Store(StoreCall::FindInterval { entry: 1 }),
        ] {
            assert!(!act.is_known(9), "{act:?}");
            assert!(act.is_known(KINDS), "{act:?}");
        }
    }
}
