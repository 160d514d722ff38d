//! Demand 3, tested on a finished history: every sentence of it, every sentence of the closing
//! paragraph of "The line", and what document 02 §2 says of all histories.

use std::collections::BTreeMap;

use calls::{Range, Reply, Step};

use crate::ledger::{Ledger, OperationId, Placed};
use crate::numbers::{Entries, ENTRIES, LOADER, OPEN};
use crate::reply::code;
use crate::store::{Store, Versioned};

/// A step with its reply.
#[derive(Clone, Copy, Debug, PartialEq, Eq)]
pub struct Event {
    /// The step.
    pub step: Step,
    /// Its reply.
    pub reply: Reply,
}

/// A sentence of demand 3, of the closing paragraph of "The line", or of document 02 §2.
#[derive(Clone, Copy, Debug, PartialEq, Eq, Hash, PartialOrd, Ord)]
pub enum Sentence {
    /// "All its answered reads and all its writes that took effect stand in one line"; "each
    /// answered read stands in the line once".
    ReadStandsOnce,
    /// "and its reply has the two numbers it has there"
    ReadReply,
    /// "Of any two in it, one answered before the other began stands ahead."
    RealTimeOrder,
    /// "Each read gave the stamp and value of the last write to its entry ahead of it, or zeros if
    /// there is none."
    LastWrite,
    /// "A write answered as committed stands there once"
    CommittedOnce,
    /// "one turned back never"
    RejectedNever,
    /// "an answered write has reply 4, with its serial and value, exactly when it stands there,
    /// else 5"
    WriteReply,
    /// "One given up stands there at most once"
    AbandonedOnce,
    /// "and took effect at no step after the granting of a guard that was asked for on that entry
    /// after the write began"
    AbandonedAfterGrant,
    /// "A read served from memory gave what the store held at that step."
    MemoryRead,
    /// Document 02 §2: "an entry once guarded or restarted is never open again".
    NeverOpenAgain,
    /// "the ledger's borders, guards, stamps and values are the tables'": the boundaries.
    Boundaries,
    /// The same: the guards.
    Guards,
    /// The same: the versions.
    Versions,
    /// The same: the values.
    Values,
}

/// A sentence that fails, and where.
#[derive(Clone, Copy, Debug, PartialEq, Eq)]
pub struct Violation {
    /// The sentence.
    pub sentence: Sentence,
    /// The step that shows it, counted from 0; for the tables the number of steps.
    pub step: usize,
}

/// "A read or write begins at its reply 1 and is answered at reply 3, 4 or 5; reply 2 is both."
struct ReadOrWrite {
    id: OperationId,
    player: u8,
    entry: u8,
    /// The value to write, none for a read.
    writes: Option<u32>,
    began: usize,
    answer: Option<(usize, Reply)>,
    /// "It is given up when step 8 with reply 0 names it, or step 13 its player while it is
    /// neither answered nor given up."
    abandoned: bool,
    /// Where it stands in the linearization order.
    places: Vec<usize>,
}

/// A guard granted: "A guard is granted at reply 6."
struct Grant {
    range: Range,
    asked: usize,
    granted: usize,
}

/// What is gathered from a history.
struct Gathered {
    operations: Vec<ReadOrWrite>,
    by_id: BTreeMap<OperationId, usize>,
    guard_requests: BTreeMap<u32, (Range, usize)>,
    grants: Vec<Grant>,
    /// The step at which each entry was first guarded or restarted.
    closed: [Option<usize>; ENTRIES],
    ledger: Ledger,
}

/// Tests the claim for a list of steps from fresh tables, given the store that the tables held
/// after the last step.
pub fn check(history: &[Event], store: &Store) -> Result<(), Violation> {
    let mut gathered = gather(history)?;
    let order = place(&mut gathered);
    check_answered(&gathered.operations, &order)?;
    check_real_time(&gathered, &order)?;
    check_last_write(&gathered, &order)?;
    check_abandoned(&gathered, &order)?;
    check_closed(&gathered, &order, store, history.len())?;
    check_tables(&gathered.ledger.store, store, history.len())
}

fn require(holds: bool, sentence: Sentence, step: usize) -> Result<(), Violation> {
    holds.then_some(()).ok_or(Violation { sentence, step })
}

/// Feeds the ledger and gathers beginnings, answers, grants and abandonments.
fn gather(history: &[Event]) -> Result<Gathered, Violation> {
    let mut gathered = Gathered {
        operations: Vec::new(),
        by_id: BTreeMap::new(),
        guard_requests: BTreeMap::new(),
        grants: Vec::new(),
        closed: [None; ENTRIES],
        ledger: Ledger::new(),
    };
    for (at, &Event { step, reply }) in history.iter().enumerate() {
        match step {
            Step::RequestGuard { range, .. } if reply.code == code::ISSUED => {
                gathered.guard_requests.insert(reply.a, (range, at));
            }
            Step::Read { player, entry } if reply.code == code::ISSUED => {
                gathered.begin(OperationId::Serial(reply.a), player, entry, None, at);
            }
            Step::Write {
                player,
                entry,
                value,
            } if reply.code == code::ISSUED => {
                let id = OperationId::Serial(reply.a);
                gathered.begin(id, player, entry, Some(value), at);
            }
            // Document 02 §2: "In the line a load is a write like another".
            Step::Load { entry, value } if reply.code == code::ISSUED => {
                let id = OperationId::Serial(reply.a);
                gathered.begin(id, LOADER, entry, Some(value), at);
            }
            Step::Deliver { serial } if reply.code == code::DONE => gathered.guard(serial, at),
            Step::RestartTablet { entry } if reply.code == code::DONE => {
                gathered.close(gathered.ledger.store.tablet(entry), at);
            }
            Step::Read { player, entry } if reply.code == code::FROM_MEMORY => {
                let held = gathered.ledger.store.read(entry);
                require(numbers(reply) == held, Sentence::MemoryRead, at)?;
                let operation = gathered.begin(OperationId::Memory(at), player, entry, None, at);
                operation.answer = Some((at, reply));
            }
            Step::Respond { serial } => gathered.answer(serial, reply, at)?,
            Step::Abandon { serial } if reply.code == code::DONE => {
                if let Some(&index) = gathered.by_id.get(&OperationId::Serial(serial)) {
                    gathered.operations[index].abandoned = true;
                }
            }
            Step::RestartPlayer { player } if reply.code == code::DONE => {
                let its = |o: &&mut ReadOrWrite| o.player == player && o.answer.is_none();
                for operation in gathered.operations.iter_mut().filter(its) {
                    operation.abandoned = true;
                }
            }
            _ => {}
        }
        gathered.ledger.feed(step, reply);
    }
    Ok(gathered)
}

impl Gathered {
    fn begin(
        &mut self,
        id: OperationId,
        player: u8,
        entry: u8,
        writes: Option<u32>,
        began: usize,
    ) -> &mut ReadOrWrite {
        let index = self.operations.len();
        self.by_id.insert(id, index);
        self.operations.push(ReadOrWrite {
            id,
            player,
            entry,
            writes,
            began,
            answer: None,
            abandoned: false,
            places: Vec::new(),
        });
        &mut self.operations[index]
    }

    /// A request that arrives: the entries of a guard request in one tablet are guarded.
    fn guard(&mut self, serial: u32, at: usize) {
        if let Some(&(range, _)) = self.guard_requests.get(&serial) {
            if self.ledger.store.in_one_tablet(range) {
                self.close(range.entries(), at);
            }
        }
    }

    /// These entries are guarded or restarted at this step.
    fn close(&mut self, entries: std::ops::Range<usize>, at: usize) {
        for closed in &mut self.closed[entries] {
            closed.get_or_insert(at);
        }
    }

    /// Replies 3 to 5 answer a read or write, reply 6 grants a guard.
    fn answer(&mut self, serial: u32, reply: Reply, at: usize) -> Result<(), Violation> {
        match reply.code {
            code::FROM_STORE | code::COMMITTED | code::REJECTED => {
                let sentence = if reply.code == code::FROM_STORE {
                    Sentence::ReadStandsOnce
                } else {
                    Sentence::WriteReply
                };
                let index = self.by_id.get(&OperationId::Serial(serial)).copied();
                let operation = index.and_then(|index| self.operations.get_mut(index));
                let operation = operation.ok_or(Violation { sentence, step: at })?;
                operation.answer.get_or_insert((at, reply));
            }
            code::GRANTED => {
                if let Some(&(range, asked)) = self.guard_requests.get(&serial) {
                    self.grants.push(Grant {
                        range,
                        asked,
                        granted: at,
                    });
                }
            }
            _ => {}
        }
        Ok(())
    }

    fn operation(&self, placed: &Placed) -> Option<&ReadOrWrite> {
        let index = self.by_id.get(&placed.operation)?;
        self.operations.get(*index)
    }
}

fn numbers(reply: Reply) -> Versioned {
    Versioned {
        version: reply.a,
        value: reply.b,
    }
}

/// The linearization order: "At the end, reads without an answer are struck out." Notes for each
/// read and write where it stands.
fn place(gathered: &mut Gathered) -> Vec<Placed> {
    let mut order = Vec::new();
    for placed in &gathered.ledger.order {
        let index = gathered.by_id.get(&placed.operation);
        let Some(operation) = index.and_then(|&index| gathered.operations.get_mut(index)) else {
            continue;
        };
        if placed.is_write || operation.answer.is_some() {
            operation.places.push(order.len());
            order.push(*placed);
        }
    }
    order
}

/// "each answered read stands in the line once and its reply has the two numbers it has there; an
/// answered write has reply 4, with its serial and value, exactly when it stands there, else 5".
/// "A write answered as committed stands there once, one turned back never."
fn check_answered(operations: &[ReadOrWrite], order: &[Placed]) -> Result<(), Violation> {
    for operation in operations {
        let Some((at, reply)) = operation.answer else {
            continue;
        };
        let Some(value) = operation.writes else {
            let &[place] = operation.places.as_slice() else {
                return Err(Violation {
                    sentence: Sentence::ReadStandsOnce,
                    step: at,
                });
            };
            let is_read = matches!(reply.code, code::FROM_MEMORY | code::FROM_STORE);
            let equal = numbers(reply) == order[place].held;
            require(is_read && equal, Sentence::ReadReply, at)?;
            continue;
        };
        match reply.code {
            code::COMMITTED => {
                require(operation.places.len() == 1, Sentence::CommittedOnce, at)?;
                let own = operation.id == OperationId::Serial(reply.a) && reply.b == value;
                require(own, Sentence::WriteReply, at)?;
            }
            code::REJECTED => require(operation.places.is_empty(), Sentence::RejectedNever, at)?,
            _ => require(false, Sentence::WriteReply, at)?,
        }
    }
    Ok(())
}

/// "Of any two in it, one answered before the other began stands ahead." So nothing in the order
/// was answered before something ahead of it began.
fn check_real_time(gathered: &Gathered, order: &[Placed]) -> Result<(), Violation> {
    let mut latest_begun = 0;
    for operation in order.iter().filter_map(|placed| gathered.operation(placed)) {
        if let Some((answered, _)) = operation.answer {
            require(answered >= latest_begun, Sentence::RealTimeOrder, answered)?;
        }
        latest_begun = latest_begun.max(operation.began);
    }
    Ok(())
}

/// "Each read gave the stamp and value of the last write to its entry ahead of it, or zeros if
/// there is none."
fn check_last_write(gathered: &Gathered, order: &[Placed]) -> Result<(), Violation> {
    let none = Versioned {
        version: 0,
        value: 0,
    };
    let mut last = [none; ENTRIES];
    for placed in order {
        let Some(operation) = gathered.operation(placed) else {
            continue;
        };
        let entry = usize::from(operation.entry);
        match (operation.writes, operation.id, operation.answer) {
            (Some(value), OperationId::Serial(version), _) => {
                last[entry] = Versioned { version, value };
            }
            (None, _, Some((at, reply))) => {
                require(numbers(reply) == last[entry], Sentence::LastWrite, at)?;
            }
            _ => {}
        }
    }
    Ok(())
}

/// "One given up stands there at most once, and took effect at no step after the granting of a
/// guard that was asked for on that entry after the write began." Reading 22: the guard may be any
/// player's; the write may have been delivered before it was abandoned.
fn check_abandoned(gathered: &Gathered, order: &[Placed]) -> Result<(), Violation> {
    let abandoned = |o: &&ReadOrWrite| o.abandoned && o.writes.is_some();
    for write in gathered.operations.iter().filter(abandoned) {
        let Some(&place) = write.places.first() else {
            continue;
        };
        let effect = order[place].step;
        require(write.places.len() == 1, Sentence::AbandonedOnce, effect)?;
        let later = |grant: &Grant| {
            grant.range.contains(write.entry) && grant.asked > write.began && grant.granted < effect
        };
        let too_late = gathered.grants.iter().any(later);
        require(!too_late, Sentence::AbandonedAfterGrant, effect)?;
    }
    Ok(())
}

/// Document 02 §2: "an entry once guarded or restarted is never open again": the tables have another
/// guard for it, and no load takes effect on it any more. By the ledger's boundaries alone, not by its
/// guards.
fn check_closed(
    gathered: &Gathered,
    order: &[Placed],
    tables: &Store,
    steps: usize,
) -> Result<(), Violation> {
    for placed in order {
        let load = gathered
            .operation(placed)
            .is_some_and(|o| o.player == LOADER);
        let closed = gathered.closed[usize::from(placed.entry)];
        let after = closed.is_some_and(|closed| closed < placed.step);
        require(!(load && after), Sentence::NeverOpenAgain, placed.step)?;
    }
    let mut entries = gathered.closed.iter().zip(tables.guards);
    let open = entries.any(|(closed, guard)| closed.is_some() && guard == OPEN);
    require(!open, Sentence::NeverOpenAgain, steps)
}

/// "the ledger's borders, guards, stamps and values are the tables'"
fn check_tables(ledger: &Store, tables: &Store, steps: usize) -> Result<(), Violation> {
    require(
        ledger.boundaries == tables.boundaries,
        Sentence::Boundaries,
        steps,
    )?;
    require(ledger.guards == tables.guards, Sentence::Guards, steps)?;
    require(
        ledger.versions == tables.versions,
        Sentence::Versions,
        steps,
    )?;
    require(ledger.values == tables.values, Sentence::Values, steps)
}
