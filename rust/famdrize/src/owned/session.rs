//! A session that owns its bytes.

use alloc::vec::Vec;

use crate::{put_mark, Fields, Refusal, SessionMut, RECORD_BYTES, SESSION_BYTES};

/// A session that is written: the mark, then a record for each step. [`SessionMut`] is the same in a lent buffer.
#[derive(Clone, Debug, PartialEq, Eq)]
pub struct Session {
    bytes: Vec<u8>,
}

impl Session {
    /// Bytes of the longest session.
    pub const MOST_BYTES: usize = SESSION_BYTES;

    /// A session without a record.
    #[must_use]
    pub fn new() -> Session {
        Session {
            bytes: mark().to_vec(),
        }
    }

    /// Adds the record of a step, or of fields; a step that would be refused can be added.
    ///
    /// # Errors
    ///
    /// 26 and 27 for fields that are no step's, 37 if the session would be too long; the session is kept then.
    pub fn push(&mut self, step: impl Into<Fields>) -> Result<(), Refusal> {
        // the caller's part first: what comes after it does not panic
        let fields: Fields = step.into();
        let length = self.bytes.len();
        self.bytes.resize(length + RECORD_BYTES, 0);
        let mut session = SessionMut::kept(&mut self.bytes, length);
        let pushed = session.push(fields);
        let length = session.bytes().len();
        self.bytes.truncate(length);
        pushed
    }

    /// Its bytes.
    #[must_use]
    pub fn bytes(&self) -> &[u8] {
        &self.bytes
    }
}

/// The mark.
fn mark() -> [u8; 4] {
    let mut mark = [0; 4];
    put_mark(&mut mark).expect("four bytes hold the mark");
    mark
}

impl Default for Session {
    fn default() -> Session {
        Session::new()
    }
}

#[cfg(test)]
mod tests {
    use super::*;
    use crate::{is_marked, Step};

    #[test]
    fn a_session_is_the_mark_and_its_records() {
        let mut session = Session::new();
        assert_eq!(session.bytes(), [0x52, 0x53, 0x4C, 0x31]);
        assert_eq!(session.push(Step::Split { entry: 128 }), Ok(()));
        assert_eq!(session.push(Step::Deliver { serial: 2 }), Ok(()));
        assert_eq!(
            session.bytes(),
            [0x52, 0x53, 0x4C, 0x31, 0x05, 0x0A, 0x80, 0x21, 0x06, 2, 0, 0, 0]
        );
        assert!(is_marked(session.bytes()));
    }

    #[test]
    fn a_session_ends_at_16384_bytes() {
        let mut session = Session::new();
        for _ in 0..5460 {
            assert_eq!(session.push(Step::Split { entry: 1 }), Ok(()));
        }
        assert_eq!(session.bytes().len(), 16_384);
        assert_eq!(
            session.push(Step::Split { entry: 1 }),
            Err(Refusal::SessionTooLong)
        );
        assert_eq!(session.bytes().len(), 16_384);
    }

    #[test]
    fn both_forms_write_the_same_bytes() {
        let mut buffer = [0; SESSION_BYTES];
        let mut lent = SessionMut::new(&mut buffer).unwrap();
        let mut owned = Session::default();
        assert_eq!(owned.bytes(), lent.bytes());
        // every kind, and fields that are no step's
        for kind in (0..15).cycle().take(4000) {
            for map in [0x0F, 0x0D, 0x07, 0x17, 0x21, 0x05, 0x03] {
                let field = |bit: u8, number: u32| if map >> bit & 1 == 1 { number } else { 0 };
                let fields = Fields {
                    kind,
                    player: field(1, 9) as u8,
                    entry: field(2, 45) as u8,
                    high: field(3, 300) as u16,
                    value: field(4, 7),
                    serial: field(5, 11),
                };
                assert_eq!(owned.push(fields), lent.push(fields), "{fields}");
                assert_eq!(owned.bytes().len(), lent.bytes().len(), "{fields}");
            }
        }
        assert_eq!(owned.bytes(), lent.bytes());
        assert!(owned.bytes().len() > SESSION_BYTES - RECORD_BYTES);
    }
}
