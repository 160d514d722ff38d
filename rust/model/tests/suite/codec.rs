//! Records: round trips, the order of refusals, the session's mark.

use calls::{Step, KINDS};
use model::codec::*;
use model::generate::any_step;
use model::prng::Prng;
use model::reply::Refusal;

use crate::support::*;

/// A step of each kind with its record. "Maps: 0F for kinds 1 and 3; 0D for 2; 07 for 4; 17 for 5; 21
/// for 6 to 9; 05 for 10 to 12; 03 for 13." Document 02 §1: "kind 14, map 05"; §2: "Kind 15 (entry and
/// value, map 15 hexadecimal)". Little-endian, fields in the order of their bits.
fn by_hand() -> [(Step, &'static str); KINDS as usize] {
    [
        (assign(1, 2, 0x103), "0F 01 01 02 0301"),
        (release(2, 3), "0D 02 02 0300"),
        (ask(9, 2, 0xFFFF), "0F 03 09 02 FFFF"),
        (read(1, 255), "07 04 01 FF"),
        (write(255, 2, 0x04030201), "17 05 FF 02 01020304"),
        (deliver(0x08070605), "21 06 05060708"),
        (respond(1), "21 07 01000000"),
        (abandon(u32::MAX), "21 08 FFFFFFFF"),
        (lose(0), "21 09 00000000"),
        (split(0), "05 0A 00"),
        (merge(1), "05 0B 01"),
        (restart_tablet(2), "05 0C 02"),
        (restart_player(3), "03 0D 03"),
        (find_interval(4), "05 0E 04"),
        (load(9, 0x04030201), "15 0F 09 01020304"),
    ]
}

#[test]
fn records_by_hand() {
    for (kind, (step, text)) in (1..).zip(by_hand()) {
        let bytes = hex(text);
        assert_eq!((step.kind(), bytes[1]), (kind, kind));
        assert_eq!(record(step), bytes);
        assert_eq!(decode(&bytes), Ok((step, bytes.len())));
    }
}

/// "Record lengths are a table over the 64 maps."
#[test]
fn record_lengths() {
    let cases = [
        (0x00, 1),
        (0x01, 2),
        (0x03, 3),
        (0x05, 3),
        (0x07, 4),
        (0x08, 3),
        (0x0D, 5),
        (0x0F, 6),
        (0x10, 5),
        (0x15, 7),
        (0x17, 8),
        (0x20, 5),
        (0x21, 6),
        (0x3F, 14),
    ];
    for (map, length) in cases {
        assert_eq!(RECORD_LENGTHS[map], length, "{map:02X}");
    }
    let sum: usize = RECORD_LENGTHS.iter().sum();
    assert_eq!(sum, 64 + 32 * (1 + 1 + 1 + 2 + 4 + 4));
}

/// All inputs of no byte, one byte and two bytes, against the order "24 if empty, 25, 24, 27 if
/// kind is missing, 26, 27". Maps 00, 01, 02 and 04 alone have records that short.
#[test]
fn short_inputs() {
    assert_eq!(decode(&[]), Err(Refusal::RecordCut));
    for map in 0..=255 {
        let expected = match map {
            0x40.. => Refusal::RecordBits,
            0x00 => Refusal::RecordFields,
            _ => Refusal::RecordCut,
        };
        assert_eq!(decode(&[map]), Err(expected), "{map:02X}");
        for next in 0..=255 {
            let expected = match (map, next) {
                (0x40.., _) => Refusal::RecordBits,
                (0x00 | 0x02 | 0x04, _) => Refusal::RecordFields,
                (0x01, 1..=KINDS) => Refusal::RecordFields,
                (0x01, _) => Refusal::RecordKind,
                _ => Refusal::RecordCut,
            };
            assert_eq!(decode(&[map, next]), Err(expected), "{map:02X} {next:02X}");
        }
    }
}

/// For every map and kind with all other bytes there: only the kind's own map is read.
#[test]
fn every_map_and_kind() {
    let maps = by_hand().map(|(_, text)| hex(text)[0]);
    for map in 0..=255_u8 {
        for kind in 0..=255_u8 {
            let mut bytes = vec![map];
            if map & 1 == 1 {
                bytes.push(kind);
            }
            bytes.resize(20, 0x11);
            let own = maps.get(usize::from(kind).wrapping_sub(1));
            match decode(&bytes) {
                Ok((step, length)) => {
                    assert_eq!((Some(&map), step.kind()), (own, kind));
                    assert_eq!(record(step), bytes[..length]);
                }
                Err(refusal) if map >= 0x40 => assert_eq!(refusal, Refusal::RecordBits),
                Err(refusal) if map & 1 == 0 => assert_eq!(refusal, Refusal::RecordFields),
                Err(refusal) if own.is_none() => assert_eq!(refusal, Refusal::RecordKind),
                Err(refusal) => {
                    assert_ne!(Some(&map), own);
                    assert_eq!(refusal, Refusal::RecordFields);
                }
            }
        }
    }
}

/// Document 02 §1: "From here on 26 means a kind not in force." The kinds 0 and 23 are none, whatever the
/// map; kinds 14 and 15 with another map than their own are 27.
#[test]
fn kinds_not_in_force() {
    let cases = [
        ("05 17 04", Refusal::RecordKind),
        ("05 00 04", Refusal::RecordKind),
        ("01 17", Refusal::RecordKind),
        ("07 17 01 04", Refusal::RecordKind),
        ("01 0E", Refusal::RecordFields),
        ("03 0E 04", Refusal::RecordFields),
        ("07 0E 01 04", Refusal::RecordFields),
        ("05 0F 04", Refusal::RecordFields),
        ("17 0F 08 04 07000000", Refusal::RecordFields),
        ("0D 0F 04 0700", Refusal::RecordFields),
        ("15 0E 04 07000000", Refusal::RecordFields),
        ("15 0F 04 070000", Refusal::RecordCut),
        ("55 0F 04 07000000", Refusal::RecordBits),
        ("04 04", Refusal::RecordFields),
        ("05 0E", Refusal::RecordCut),
        ("05 17", Refusal::RecordCut),
        ("45 0E 04", Refusal::RecordBits),
    ];
    for (text, refusal) in cases {
        assert_eq!(decode(&hex(text)), Err(refusal), "{text}");
    }
}

/// Every record cut at every place is 24; with more bytes behind it, it is the same record.
#[test]
fn cut_records() {
    let mut rng = Prng::new(3);
    for _ in 0..300 * scale() {
        let step = any_step(&mut rng, KINDS);
        let bytes = record(step);
        for length in 0..bytes.len() {
            assert_eq!(decode(&bytes[..length]), Err(Refusal::RecordCut));
        }
        let mut longer = bytes.clone();
        longer.push(rng.below(256) as u8);
        assert_eq!(decode(&longer), Ok((step, bytes.len())));
    }
}

/// "the bytes accepted for a step are the only ones for it": what is read from random bytes is
/// written back as the same bytes.
#[test]
fn random_bytes() {
    let mut rng = Prng::new(4);
    let mut accepted = 0;
    for _ in 0..20_000 * scale() {
        let mut bytes: Vec<u8> = (0..16).map(|_| rng.below(256) as u8).collect();
        bytes[0] = [0x0F, 0x0D, 0x07, 0x17, 0x21, 0x05, 0x03, 0x15, bytes[0]][rng.index(9)];
        bytes[1] %= 18;
        if let Ok((step, length)) = decode(&bytes) {
            accepted += 1;
            assert_eq!(record(step), bytes[..length]);
        }
    }
    assert!(accepted > 1_000);
}

/// Reading 17: 36 leaves the buffer as it was, bytes beyond are kept, the reply is 0, length, 0.
#[test]
fn buffers() {
    let step: Step = write(9, 2, 0x04030201);
    for length in 0..12 {
        let mut buffer = vec![0xEE; length];
        let given = encode(step, &mut buffer);
        if length < 8 {
            assert_eq!(given, refused(36));
            assert_eq!(buffer, vec![0xEE; length]);
        } else {
            assert_eq!(given, reply(0, 8, 0));
            assert_eq!(buffer[..8], hex("17 05 09 02 01020304"));
            assert_eq!(buffer[8..], vec![0xEE; length - 8]);
        }
        let mut buffer = vec![0xEE; length];
        let given = encode_mark(&mut buffer);
        if length < 4 {
            assert_eq!(given, refused(36));
            assert_eq!(buffer, vec![0xEE; length]);
        } else {
            assert_eq!(given, reply(0, 4, 0));
            assert_eq!(buffer[..4], hex("52534C31"));
            assert_eq!(buffer[4..], vec![0xEE; length - 4]);
        }
    }
}

/// A session is printed as document 01 prints one.
#[test]
fn session_as_text() {
    let steps = [assign(0, 40, 60), deliver(2)];
    assert_eq!(session_text(&steps), "52534C31 0F0100283C00 210602000000");
    assert_eq!(session(&steps), hex("52534C31 0F0100283C00 210602000000"));
}
