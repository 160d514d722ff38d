//! Session records: bytes to steps and back.

use calls::{Fields, Reply, Step};

use crate::reply::{code, Refusal};

/// "Its first four bytes are 52 53 4C 31."
pub const MARK: [u8; 4] = [0x52, 0x53, 0x4C, 0x31];

/// "37 longer than 16,384 bytes"
pub const MAX_SESSION: usize = 16_384;

/// "bit 0 kind (1 byte), 1 player (1), 2 entry or low (1), 3 high (2), 4 value (4), 5 serial (4)":
/// the bytes of the field at each bit.
const FIELD_BYTES: [usize; 6] = [1, 1, 1, 2, 4, 4];

/// "Record lengths are a table over the 64 maps." The map's own byte is counted.
pub const RECORD_LENGTHS: [usize; 64] = record_lengths();

const fn record_lengths() -> [usize; 64] {
    let mut lengths = [1; 64];
    let mut map = 0;
    while map < 64 {
        let mut bit = 0;
        while bit < 6 {
            if map >> bit & 1 == 1 {
                lengths[map] += FIELD_BYTES[bit];
            }
            bit += 1;
        }
        map += 1;
    }
    lengths
}

/// Takes the next `N` bytes when the map's bit stands, else none; "little-endian".
struct Cursor<'a> {
    map: u8,
    rest: &'a [u8],
}

impl Cursor<'_> {
    fn take<const N: usize>(&mut self, bit: u8) -> Result<[u8; N], Refusal> {
        if self.map >> bit & 1 == 0 {
            return Ok([0; N]);
        }
        let (field, rest) = self
            .rest
            .split_first_chunk::<N>()
            .ok_or(Refusal::RecordCut)?;
        self.rest = rest;
        Ok(*field)
    }
}

/// "a bit map, then only the fields whose bit stands, little-endian"
fn read_fields(map: u8, rest: &[u8]) -> Result<Fields, Refusal> {
    let mut cursor = Cursor { map, rest };
    Ok(Fields {
        kind: u8::from_le_bytes(cursor.take(0)?),
        player: u8::from_le_bytes(cursor.take(1)?),
        entry: u8::from_le_bytes(cursor.take(2)?),
        high: u16::from_le_bytes(cursor.take(3)?),
        value: u32::from_le_bytes(cursor.take(4)?),
        serial: u32::from_le_bytes(cursor.take(5)?),
    })
}

/// Reads the record that begins the bytes; gives the step and the record's length. Reading 16:
/// bytes beyond the record are ignored.
///
/// "For a record: 24 if empty, 25, 24, 27 if kind is missing, 26, 27."
pub fn decode(bytes: &[u8]) -> Result<(Step, usize), Refusal> {
    let (&map, rest) = bytes.split_first().ok_or(Refusal::RecordCut)?;
    let length = *RECORD_LENGTHS
        .get(usize::from(map))
        .ok_or(Refusal::RecordBits)?;
    if bytes.len() < length {
        return Err(Refusal::RecordCut);
    }
    let fields = read_fields(map, rest)?;
    if map & 1 == 0 {
        return Err(Refusal::RecordFields);
    }
    let step = Step::of_its_fields(fields).ok_or(Refusal::RecordKind)?;
    if step.map() != map {
        return Err(Refusal::RecordFields);
    }
    Ok((step, length))
}

/// The record of a step.
pub fn record(step: Step) -> Vec<u8> {
    let fields = Fields::from(step);
    let map = step.map();
    let parts: [&[u8]; 6] = [
        &fields.kind.to_le_bytes(),
        &fields.player.to_le_bytes(),
        &fields.entry.to_le_bytes(),
        &fields.high.to_le_bytes(),
        &fields.value.to_le_bytes(),
        &fields.serial.to_le_bytes(),
    ];
    let mut bytes = vec![map];
    for (bit, part) in parts.iter().enumerate() {
        if map >> bit & 1 == 1 {
            bytes.extend_from_slice(part);
        }
    }
    bytes
}

/// Puts bytes at the buffer's beginning. Reading 17: 36 leaves the buffer as it was; bytes beyond
/// are kept; "the reply is 0, its length, 0".
fn put(bytes: &[u8], buffer: &mut [u8]) -> Reply {
    match (buffer.get_mut(..bytes.len()), u32::try_from(bytes.len())) {
        (Some(place), Ok(length)) => {
            place.copy_from_slice(bytes);
            Reply::new(code::DONE, length, 0)
        }
        _ => Reply::from(Refusal::BufferShort),
    }
}

/// Writes the step's record. "36 a buffer shorter than the record to be written."
pub fn encode(step: Step, buffer: &mut [u8]) -> Reply {
    put(&record(step), buffer)
}

/// Writes the session's mark, in the same way.
pub fn encode_mark(buffer: &mut [u8]) -> Reply {
    put(&MARK, buffer)
}

/// The session of these steps: the mark, then their records.
pub fn session(steps: &[Step]) -> Vec<u8> {
    let mut bytes = MARK.to_vec();
    for &step in steps {
        bytes.extend(record(step));
    }
    bytes
}

/// The same in hexadecimal, a space before each record, as document 01 prints a session.
pub fn session_text(steps: &[Step]) -> String {
    let hex = |bytes: &[u8]| bytes.iter().map(|b| format!("{b:02X}")).collect::<String>();
    let mut text = hex(&MARK);
    for &step in steps {
        text.push(' ');
        text.push_str(&hex(&record(step)));
    }
    text
}
