//! Records, and sessions made of them in a lent buffer.

use crate::{raw, Fields, Refusal};

/// Bytes of the longest session.
pub const SESSION_BYTES: usize = 16_384;

/// Bytes of the longest record.
pub const RECORD_BYTES: usize = 8;

/// The most records that a session holds: 16,380 bytes of three each.
pub const MOST_RECORDS: usize = 5460;

/// What stands at a place of a session.
#[derive(Clone, Copy, Debug, PartialEq, Eq, Hash)]
#[non_exhaustive]
pub struct Record {
    /// The step by its fields. A record may hold a step that is refused; [`Step::try_from`](crate::Step) tells.
    pub fields: Fields,
    /// Its bytes, 3 to 8.
    pub length: usize,
}

/// The record at the start of these bytes; bytes after it are ignored.
///
/// # Errors
///
/// The first that applies: 24 if there is no byte, 25, 24 if the record is cut short, 27 if the kind is missing, 26, 27.
pub fn decode(part: &[u8]) -> Result<Record, Refusal> {
    // SAFETY: a slice with its length, lent to be read.
    let r = unsafe { raw::famdrize_decode(part.as_ptr(), part.len()) };
    Refusal::of_code(r.code)?;
    Ok(Record::of_decoded(r))
}

impl Record {
    /// The record of these numbers, which have the widths of their fields by the library's contract.
    fn of_decoded(r: raw::Decoded) -> Record {
        let byte = |number: u32| u8::try_from(number).expect("a field of one byte");
        Record {
            fields: Fields {
                kind: byte(r.kind),
                player: byte(r.player),
                entry: byte(r.entry),
                high: u16::try_from(r.high).expect("a field of two bytes"),
                value: r.value,
                serial: r.serial,
            },
            length: r.length as usize,
        }
    }
}

/// Writes the record of a step, or of fields, to the start of the buffer, keeps what follows, and tells its length. A step that would be
/// refused can be written.
///
/// # Errors
///
/// 26 and 27 for fields that are no step's, 36 for a buffer that is shorter; the buffer is kept then.
pub fn encode(step: impl Into<Fields>, out: &mut [u8]) -> Result<usize, Refusal> {
    let fields: Fields = step.into();
    // SAFETY: a slice with its length, lent to be changed.
    let reply = unsafe {
        raw::famdrize_encode(
            fields.kind,
            fields.player,
            fields.entry,
            fields.high,
            fields.value,
            fields.serial,
            out.as_mut_ptr(),
            out.len(),
        )
    };
    Refusal::of_code(reply.code)?;
    Ok(reply.a as usize)
}

/// Writes the session's mark to the start of the buffer, keeps what follows, and tells its length, 4.
///
/// # Errors
///
/// 36 for a buffer that is shorter, which is kept.
pub fn put_mark(out: &mut [u8]) -> Result<usize, Refusal> {
    // SAFETY: a slice with its length, lent to be changed.
    let reply = unsafe { raw::famdrize_put_mark(out.as_mut_ptr(), out.len()) };
    Refusal::of_code(reply.code)?;
    Ok(reply.a as usize)
}

/// Whether the session begins with the mark.
#[must_use]
pub fn is_marked(session: &[u8]) -> bool {
    // SAFETY: a slice with its length, lent to be read.
    unsafe { raw::famdrize_marked(session.as_ptr(), session.len()) }
}

/// A session that is written to a lent buffer: the mark, then a record for each step.
///
/// ```
/// use famdrize::{SessionMut, Step};
///
/// let mut buffer = [0; 64];
/// let mut session = SessionMut::new(&mut buffer)?;
/// session.push(Step::Split { entry: 128 })?;
/// assert_eq!(session.bytes(), [0x52, 0x53, 0x4C, 0x31, 0x05, 0x0A, 0x80]);
/// # Ok::<(), famdrize::Refusal>(())
/// ```
#[derive(Debug)]
pub struct SessionMut<'a> {
    buffer: &'a mut [u8],
    length: usize,
}

impl<'a> SessionMut<'a> {
    /// A session without a record, at the start of the buffer. [`SESSION_BYTES`] are enough for any.
    ///
    /// # Errors
    ///
    /// 36 for a buffer shorter than the mark, which is kept.
    pub fn new(buffer: &'a mut [u8]) -> Result<SessionMut<'a>, Refusal> {
        let length = put_mark(buffer)?;
        Ok(SessionMut { buffer, length })
    }

    /// The session that fills the buffer up to `length`: that of the owning form.
    #[cfg(feature = "alloc")]
    pub(crate) fn kept(buffer: &'a mut [u8], length: usize) -> SessionMut<'a> {
        SessionMut { buffer, length }
    }

    /// Adds the record of a step, or of fields; a step that would be refused can be added.
    ///
    /// # Errors
    ///
    /// 26 and 27 for fields that are no step's, 37 if the session would be too long, 36 if it would not fit the buffer; the buffer is kept
    /// then.
    pub fn push(&mut self, step: impl Into<Fields>) -> Result<(), Refusal> {
        let mut record = [0; RECORD_BYTES];
        let end = self.length + encode(step, &mut record)?;
        if end > SESSION_BYTES {
            return Err(Refusal::SessionTooLong);
        }
        let place = self.buffer.get_mut(self.length..end);
        let place = place.ok_or(Refusal::BufferShort)?;
        place.copy_from_slice(&record[..place.len()]);
        self.length = end;
        Ok(())
    }

    /// Its bytes.
    #[must_use]
    pub fn bytes(&self) -> &[u8] {
        &self.buffer[..self.length]
    }

    /// Its bytes, for as long as the buffer is lent.
    #[must_use]
    pub fn into_bytes(self) -> &'a [u8] {
        &self.buffer[..self.length]
    }
}

#[cfg(test)]
mod tests {
    use super::*;
    use crate::{Player, Range, Step};
    use std::vec;
    use std::vec::Vec;

    #[test]
    fn empty_slices_are_passed_with_length_0() {
        assert_eq!(decode(&[]), Err(Refusal::CutShort));
        assert_eq!(
            encode(Step::Split { entry: 1 }, &mut []),
            Err(Refusal::BufferShort)
        );
        assert_eq!(put_mark(&mut []), Err(Refusal::BufferShort));
        assert!(!is_marked(&[]));
        assert!(!is_marked(&Vec::new()));
    }

    #[test]
    fn a_slice_is_passed_with_its_own_length() {
        let bytes = [0x05, 0x0A, 0x80, 0x52, 0x53, 0x4C, 0x31, 0x05];
        assert_eq!(decode(&bytes[..2]), Err(Refusal::CutShort));
        assert_eq!(decode(&bytes[..3]).map(|r| r.length), Ok(3));
        assert_eq!(decode(&bytes[7..]), Err(Refusal::CutShort));
        assert_eq!(decode(&bytes[8..]), Err(Refusal::CutShort));
        assert!(is_marked(&bytes[3..]));
        assert!(is_marked(&bytes[3..7]));
        assert!(!is_marked(&bytes[3..6]));
    }

    #[test]
    fn records_are_refused_in_their_order() {
        // "Records: none 24; 40: 25; 02 00: 27; 01 C8: 26; 03 04 00: 27; 07 04 00: 24."
        assert_eq!(decode(&[0x40]), Err(Refusal::UnknownField));
        assert_eq!(decode(&[0x02, 0x00]), Err(Refusal::WrongFields));
        assert_eq!(decode(&[0x01, 0xC8]), Err(Refusal::UnknownKind));
        assert_eq!(decode(&[0x03, 0x04, 0x00]), Err(Refusal::WrongFields));
        assert_eq!(decode(&[0x07, 0x04, 0x00]), Err(Refusal::CutShort));
    }

    /// A step of each map, with its bytes.
    fn samples() -> [(Step, &'static [u8]); 7] {
        let player = Player::new(1).unwrap();
        let range = Range::new(40, 256).unwrap();
        [
            (
                Step::Assign { player, range },
                &[0x0F, 1, 1, 40, 0x00, 0x01],
            ),
            (Step::Release { range }, &[0x0D, 2, 40, 0x00, 0x01]),
            (Step::Read { player, entry: 45 }, &[0x07, 4, 1, 45]),
            (
                Step::Write {
                    player,
                    entry: 45,
                    value: 0x0403_0201,
                },
                &[0x17, 5, 1, 45, 1, 2, 3, 4],
            ),
            (
                Step::Respond {
                    serial: 0x0403_0201,
                },
                &[0x21, 7, 1, 2, 3, 4],
            ),
            (Step::Merge { entry: 45 }, &[0x05, 11, 45]),
            (Step::RestartPlayer { player }, &[0x03, 13, 1]),
        ]
    }

    #[test]
    fn a_record_is_written_and_reads_back() {
        for (step, bytes) in samples() {
            let mut out = [0xEE; 10];
            assert_eq!(encode(step, &mut out), Ok(bytes.len()));
            assert_eq!(&out[..bytes.len()], bytes);
            assert!(out[bytes.len()..].iter().all(|&b| b == 0xEE));
            assert_eq!(
                decode(&out),
                Ok(Record {
                    fields: step.into(),
                    length: bytes.len()
                })
            );
            let mut short = vec![0xEE; bytes.len() - 1];
            assert_eq!(encode(step, &mut short), Err(Refusal::BufferShort));
            assert!(short.iter().all(|&b| b == 0xEE));
        }
    }

    #[test]
    fn fields_that_are_no_steps_are_not_written() {
        let mut out = [0xEE; 8];
        let fields = Fields {
            kind: 10,
            entry: 45,
            ..Fields::default()
        };
        assert_eq!(
            encode(
                Fields {
                    kind: 255,
                    ..fields
                },
                &mut out
            ),
            Err(Refusal::UnknownKind)
        );
        assert_eq!(
            encode(Fields { value: 1, ..fields }, &mut out),
            Err(Refusal::WrongFields)
        );
        assert_eq!(out, [0xEE; 8]);
        // a player of 9 can be written and read, and is no step
        let read = Fields {
            kind: 4,
            player: 9,
            entry: 45,
            ..Fields::default()
        };
        assert_eq!(encode(read, &mut out), Ok(4));
        assert_eq!(decode(&out).map(|r| r.fields), Ok(read));
        assert_eq!(Step::try_from(read), Err(Refusal::OutOfRange));
    }

    #[test]
    fn the_library_has_the_kinds_and_fields_of_the_steps() {
        for kind in 0..=u8::MAX {
            let none = Fields {
                kind,
                ..Fields::default()
            };
            for fields in [
                none,
                Fields { player: 1, ..none },
                Fields { entry: 1, ..none },
                Fields { high: 1, ..none },
                Fields { value: 1, ..none },
                Fields { serial: 1, ..none },
            ] {
                // a step that would be refused can be written
                let refused = Step::try_from(fields).err();
                let refused = refused.filter(|&refusal| refusal != Refusal::OutOfRange);
                assert_eq!(encode(fields, &mut [0; 8]).err(), refused, "{fields:?}");
            }
        }
    }

    #[test]
    fn a_session_is_written_to_a_lent_buffer() {
        let mut buffer = [0xEE; 16];
        let mut session = SessionMut::new(&mut buffer).unwrap();
        assert_eq!(session.bytes(), [0x52, 0x53, 0x4C, 0x31]);
        assert_eq!(session.push(Step::Split { entry: 128 }), Ok(()));
        assert_eq!(session.push(Step::Deliver { serial: 2 }), Ok(()));
        let bytes = [
            0x52, 0x53, 0x4C, 0x31, 0x05, 0x0A, 0x80, 0x21, 0x06, 2, 0, 0, 0,
        ];
        assert_eq!(session.bytes(), bytes);
        assert!(is_marked(session.bytes()));
        // three bytes are left
        assert_eq!(
            session.push(Step::Deliver { serial: 3 }),
            Err(Refusal::BufferShort)
        );
        assert_eq!(session.bytes(), bytes);
        assert_eq!(session.push(Step::Merge { entry: 128 }), Ok(()));
        assert_eq!(
            session.push(Step::Merge { entry: 128 }),
            Err(Refusal::BufferShort)
        );
        assert_eq!(session.bytes().len(), 16);
        assert_eq!(&buffer[..13], bytes);
        assert_eq!(buffer[13..], [0x05, 0x0B, 0x80]);
    }

    #[test]
    fn the_bytes_outlive_what_wrote_them() {
        fn written(buffer: &mut [u8]) -> Result<&[u8], Refusal> {
            let mut session = SessionMut::new(buffer)?;
            session.push(Step::Split { entry: 128 })?;
            Ok(session.into_bytes())
        }
        assert_eq!(
            written(&mut [0xEE; 9]).unwrap(),
            [0x52, 0x53, 0x4C, 0x31, 0x05, 0x0A, 0x80]
        );
        assert_eq!(written(&mut [0xEE; 6]), Err(Refusal::BufferShort));
    }

    #[test]
    fn a_buffer_shorter_than_the_mark_is_refused_and_kept() {
        for length in 0..4 {
            let mut buffer = [0xEE; 4];
            let part = &mut buffer[..length];
            assert_eq!(SessionMut::new(part).err(), Some(Refusal::BufferShort));
            assert_eq!(buffer, [0xEE; 4]);
        }
        let mut buffer = [0xEE; 4];
        let mut session = SessionMut::new(&mut buffer).unwrap();
        assert_eq!(
            session.push(Step::Split { entry: 1 }),
            Err(Refusal::BufferShort)
        );
        assert_eq!(session.bytes(), [0x52, 0x53, 0x4C, 0x31]);
    }

    #[test]
    fn a_lent_buffer_keeps_what_follows_the_session() {
        let mut buffer = [0xEE; 12];
        let mut session = SessionMut::new(&mut buffer).unwrap();
        assert_eq!(session.push(Step::Split { entry: 1 }), Ok(()));
        assert_eq!(
            session.push(Step::Lose { serial: 1 }),
            Err(Refusal::BufferShort)
        );
        assert_eq!(buffer[7..], [0xEE; 5]);
    }

    #[test]
    fn a_session_in_a_longer_buffer_ends_at_16384_bytes() {
        for room in [0, 1, 100] {
            let mut buffer = vec![0xEE; SESSION_BYTES + room];
            let mut session = SessionMut::new(&mut buffer).unwrap();
            for _ in 1..MOST_RECORDS {
                assert_eq!(session.push(Step::Split { entry: 1 }), Ok(()));
            }
            // three bytes are left, and a read has four
            let player = Player::new(0).unwrap();
            let read = Step::Read { player, entry: 1 };
            assert_eq!(session.push(read), Err(Refusal::SessionTooLong));
            assert_eq!(session.push(Step::Split { entry: 1 }), Ok(()));
            assert_eq!(session.bytes().len(), SESSION_BYTES);
            assert_eq!(
                session.push(Step::Split { entry: 1 }),
                Err(Refusal::SessionTooLong)
            );
            assert_eq!(session.bytes().len(), SESSION_BYTES);
            assert!(buffer[SESSION_BYTES..].iter().all(|&b| b == 0xEE));
        }
    }

    #[test]
    fn fields_are_added_as_they_are() {
        let mut buffer = [0; 32];
        let mut session = SessionMut::new(&mut buffer).unwrap();
        // a player of 9 can be written, and is no step
        let read = Fields {
            kind: 4,
            player: 9,
            entry: 45,
            ..Fields::default()
        };
        assert_eq!(session.push(read), Ok(()));
        assert_eq!(session.bytes()[4..], [0x07, 4, 9, 45]);
        let other = Fields { kind: 255, ..read };
        assert_eq!(session.push(other), Err(Refusal::UnknownKind));
        let other = Fields { value: 1, ..read };
        assert_eq!(session.push(other), Err(Refusal::WrongFields));
        assert_eq!(session.bytes().len(), 8);
    }
}
