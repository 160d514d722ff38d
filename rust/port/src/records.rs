//! Records, and the session's mark.

use calls::{Fields, Range, Reply, Step};

use crate::{answer, known};

/// The length of a record with each map.
const LENGTHS: [u8; 64] = [
    1, 2, 2, 3, 2, 3, 3, 4, 3, 4, 4, 5, 4, 5, 5, 6, 5, 6, 6, 7, 6, 7, 7, 8, 7, 8, 8, 9, 8, 9, 9,
    10, 5, 6, 6, 7, 6, 7, 7, 8, 7, 8, 8, 9, 8, 9, 9, 10, 9, 10, 10, 11, 10, 11, 11, 12, 11, 12, 12,
    13, 12, 13, 13, 14,
];

/// The map of each kind, from 0, which is no kind.
const MAPS: [u8; 14] = [
    0x00, 0x0F, 0x0D, 0x0F, 0x07, 0x17, 0x21, 0x21, 0x21, 0x21, 0x05, 0x05, 0x05, 0x03,
];

/// The session's first four bytes.
const MARK: [u8; 4] = *b"RSL1";

/// The byte at a place, 0 past the end.
fn byte_at(part: &[u8], at: usize) -> u8 {
    part.get(at).copied().unwrap_or(0)
}

fn word16(part: &[u8], at: usize) -> u16 {
    u16::from_le_bytes([byte_at(part, at), byte_at(part, at + 1)])
}

fn word32(part: &[u8], at: usize) -> u32 {
    u32::from(word16(part, at)) | u32::from(word16(part, at + 2)) << 16
}

fn range_at(part: &[u8], at: usize) -> Range {
    Range::new(byte_at(part, at), word16(part, at + 1))
}

/// The step of a kind whose fields stand in the part.
fn step_of(kind: u8, part: &[u8]) -> Step {
    match kind {
        1 => Step::Assign {
            player: byte_at(part, 2),
            range: range_at(part, 3),
        },
        2 => Step::Release {
            range: range_at(part, 2),
        },
        3 => Step::RequestGuard {
            player: byte_at(part, 2),
            range: range_at(part, 3),
        },
        4 => Step::Read {
            player: byte_at(part, 2),
            entry: byte_at(part, 3),
        },
        5 => Step::Write {
            player: byte_at(part, 2),
            entry: byte_at(part, 3),
            value: word32(part, 4),
        },
        6 => Step::Deliver {
            serial: word32(part, 2),
        },
        7 => Step::Respond {
            serial: word32(part, 2),
        },
        8 => Step::Abandon {
            serial: word32(part, 2),
        },
        9 => Step::Lose {
            serial: word32(part, 2),
        },
        10 => Step::Split {
            entry: byte_at(part, 2),
        },
        11 => Step::Merge {
            entry: byte_at(part, 2),
        },
        12 => Step::RestartTablet {
            entry: byte_at(part, 2),
        },
        _ => Step::RestartPlayer {
            player: byte_at(part, 2),
        },
    }
}

/// The record that stands at the start of the part: its step and length, or a refusal's number.
pub fn decode(part: &[u8]) -> Result<(Step, usize), u32> {
    let &map = part.first().ok_or(24u32)?;
    let size = usize::from(*LENGTHS.get(usize::from(map)).ok_or(25u32)?);
    if part.len() < size {
        return Err(24);
    }
    if map % 2 != 1 {
        return Err(27);
    }
    let kind = byte_at(part, 1);
    known(kind)?;
    if map != MAPS[usize::from(kind)] {
        return Err(27);
    }
    Ok((step_of(kind, part), size))
}

/// The bytes of a step's record, in the first places, and their number.
fn bytes_of(step: Step) -> ([u8; 8], usize) {
    let f = Fields::from(step);
    let (kind, player, entry) = (f.kind, f.player, f.entry);
    let map = MAPS[usize::from(kind)];
    let [h, i] = f.high.to_le_bytes();
    let [v, w, x, y] = f.value.to_le_bytes();
    let [s, t, u, z] = f.serial.to_le_bytes();
    match kind {
        1 | 3 => ([map, kind, player, entry, h, i, 0, 0], 6),
        2 => ([map, kind, entry, h, i, 0, 0, 0], 5),
        4 => ([map, kind, player, entry, 0, 0, 0, 0], 4),
        5 => ([map, kind, player, entry, v, w, x, y], 8),
        6..=9 => ([map, kind, s, t, u, z, 0, 0], 6),
        10..=12 => ([map, kind, entry, 0, 0, 0, 0, 0], 3),
        _ => ([map, kind, player, 0, 0, 0, 0, 0], 3),
    }
}

/// Writes bytes to the start of the buffer: 0 and their number, or 36 where the buffer is shorter.
fn put(bytes: &[u8], out: &mut [u8]) -> Reply {
    let Some(place) = out.get_mut(..bytes.len()) else {
        return Reply::refused(36);
    };
    place.copy_from_slice(bytes);
    answer(bytes.len() as u32)
}

/// Writes the record of a step to the start of the buffer.
pub fn encode(step: Step, out: &mut [u8]) -> Reply {
    let (bytes, size) = bytes_of(step);
    put(&bytes[..size], out)
}

/// Writes the mark to the start of the buffer.
pub fn put_mark(out: &mut [u8]) -> Reply {
    put(&MARK, out)
}

/// Whether the session begins with the mark.
pub fn marked(session: &[u8]) -> bool {
    session.starts_with(&MARK)
}
