//! The ledger of "The line".
//!
//! "A ledger is kept beside it, fed each step with its reply and blind to the tables." It takes
//! replies from anywhere, so it can stand beside the model or beside another library.

use std::collections::BTreeMap;

use calls::{Range, Reply, Step};

use crate::faults::NoFault;
use crate::numbers::{Entries, ENTRIES, OPEN, PLAYERS};
use crate::reply::code;
use crate::store::{Store, Versioned, WriteOutcome};

/// "Steps 3, 4 and 5 with reply 1 are noted under their serial", and loads as writes (document 02 §2).
#[derive(Clone, Copy, Debug, PartialEq, Eq)]
enum Note {
    Guard { player: u8, range: Range },
    Read { entry: u8 },
    Write { entry: u8, value: u32, guard: u32 },
}

/// A read or write in the linearization order.
#[derive(Clone, Copy, Debug, PartialEq, Eq)]
pub struct Placed {
    /// The read or write.
    pub operation: OperationId,
    /// Its entry.
    pub entry: u8,
    /// A read's version and value; a write's serial and value.
    pub held: Versioned,
    /// Whether it is a write.
    pub is_write: bool,
    /// The step at which it joined, counted from 0.
    pub step: usize,
}

/// How a read or write is named.
#[derive(Clone, Copy, Debug, PartialEq, Eq, Hash, PartialOrd, Ord)]
pub enum OperationId {
    /// One with a serial.
    Serial(u32),
    /// A read from memory, by its step, counted from 0.
    Memory(usize),
}

/// "It has borders, a guard, stamp and value for each entry, all as when fresh, and the line,
/// empty at first."
#[derive(Clone, Debug)]
pub struct Ledger {
    /// Its boundaries, guards, versions and values.
    pub store: Store,
    /// The linearization order, reads without an answer included.
    pub order: Vec<Placed>,
    notes: BTreeMap<u32, Note>,
    granted: Vec<[u32; ENTRIES]>,
    steps: usize,
}

impl Default for Ledger {
    fn default() -> Ledger {
        Ledger::new()
    }
}

impl Ledger {
    /// The ledger before the first step.
    pub fn new() -> Ledger {
        Ledger {
            store: Store::fresh(),
            order: Vec::new(),
            notes: BTreeMap::new(),
            granted: vec![[0; ENTRIES]; PLAYERS],
            steps: 0,
        }
    }

    /// Takes one step with its reply.
    pub fn feed(&mut self, step: Step, reply: Reply) {
        let done = reply.code == code::DONE;
        match step {
            Step::RequestGuard { .. }
            | Step::Read { .. }
            | Step::Write { .. }
            | Step::Load { .. }
                if reply.code == code::ISSUED =>
            {
                self.note(step, reply.a);
            }
            // "Step 4 with reply 2 puts a read at the line's end, with the entry's stamp and
            // value."
            Step::Read { entry, .. } if reply.code == code::FROM_MEMORY => {
                self.place_read(OperationId::Memory(self.steps), entry);
            }
            Step::Deliver { serial } if done => self.deliver(serial),
            Step::Respond { .. } if reply.code == code::GRANTED => self.grant(reply.a),
            // "Steps 10 to 12 change borders and guards by their rules." Only a wrong library
            // answers 0 where the rule refuses; the ledger then keeps what it has.
            Step::Split { entry } if done => self.store.split(entry, &NoFault).unwrap_or(()),
            Step::Merge { entry } if done => self.store.merge(entry).unwrap_or(()),
            Step::RestartTablet { entry } if done => self.store.restart(entry, &NoFault),
            // "All else, and every refused step, changes nothing."
            _ => {}
        }
        self.steps += 1;
    }

    /// "Steps 3, 4 and 5 with reply 1 are noted under their serial, a write with the guard it
    /// carries: the serial of the last reply 6 to its player for a range with that entry, 0 if
    /// none." Document 02 §2: "In the line a load is a write like another", "carrying 0".
    fn note(&mut self, step: Step, serial: u32) {
        let note = match step {
            Step::RequestGuard { player, range } => Note::Guard { player, range },
            Step::Read { entry, .. } => Note::Read { entry },
            Step::Write {
                player,
                entry,
                value,
            } => Note::Write {
                entry,
                value,
                guard: self
                    .granted
                    .get(usize::from(player))
                    .map_or(0, |granted| granted[usize::from(entry)]),
            },
            Step::Load { entry, value } => Note::Write {
                entry,
                value,
                guard: OPEN,
            },
            _ => return,
        };
        self.notes.insert(serial, note);
    }

    /// A reply 6 with this serial. Reading 21: the note is still there, with player and range.
    fn grant(&mut self, serial: u32) {
        if let Some(&Note::Guard { player, range }) = self.notes.get(&serial) {
            if let Some(granted) = self.granted.get_mut(usize::from(player)) {
                granted[range.entries()].fill(serial);
            }
        }
    }

    /// "Step 6 takes up the note of its serial. A guard request is set or not, a write commits or
    /// not, by the rule of step 6 on the ledger's borders and guards. A write that commits *takes
    /// effect*: its serial and value become the entry's stamp and value, and it joins the line's
    /// end. A read joins it with the entry's stamp and value."
    fn deliver(&mut self, serial: u32) {
        match self.notes.get(&serial) {
            Some(&Note::Guard { range, .. }) => {
                self.store.set_guard(range, serial, &NoFault);
            }
            Some(&Note::Read { entry }) => self.place_read(OperationId::Serial(serial), entry),
            Some(&Note::Write {
                entry,
                value,
                guard,
            }) => {
                let outcome = self.store.write(entry, serial, value, guard, &NoFault);
                if outcome == WriteOutcome::Committed {
                    self.order.push(Placed {
                        operation: OperationId::Serial(serial),
                        entry,
                        held: self.store.read(entry),
                        is_write: true,
                        step: self.steps,
                    });
                }
            }
            None => {}
        }
    }

    fn place_read(&mut self, operation: OperationId, entry: u8) {
        self.order.push(Placed {
            operation,
            entry,
            held: self.store.read(entry),
            is_write: false,
            step: self.steps,
        });
    }
}
