//! Pictures of all sorts of sessions.

use std::collections::BTreeSet;
use std::fs;
use std::path::{Path, PathBuf};

use calls::Step;
use chart::Chart;
use model::broken::damage;
use model::codec;
use model::faults::NoFault;
use model::prng::Prng;
use model::trial::{crowded_list, random_list};

use super::check::{check, check_whole};
use super::expected::Expected;

/// How many times the default number of random sessions is drawn: `FAMDRIZE_SCALE`, 1 if not set.
fn scale() -> usize {
    let set = std::env::var("FAMDRIZE_SCALE").ok();
    set.and_then(|text| text.parse().ok()).unwrap_or(1)
}

/// Draws a session and tests the picture; twice, for the same bytes give the same picture.
fn drawn(name: &str, session: &[u8]) -> String {
    let text = Chart::of(session).draw();
    assert_eq!(text, Chart::of(session).draw(), "{name}: two pictures");
    if let Err(told) = check_whole(session, &text) {
        panic!("{name}: {told}\n{session:02X?}");
    }
    text
}

/// The bytes of a text of sessions/, without its comments.
pub fn bytes(text: &str) -> Vec<u8> {
    let lines = text
        .lines()
        .map(|line| line.split('#').next().unwrap_or(""));
    let digits: Vec<u32> = lines
        .flat_map(str::chars)
        .filter_map(|c| c.to_digit(16))
        .collect();
    digits
        .chunks(2)
        .map(|pair| (pair[0] * 16 + pair[1]) as u8)
        .collect()
}

/// The sessions of sessions/, by their names.
pub fn sessions() -> Vec<(String, Vec<u8>)> {
    let folder = Path::new(env!("CARGO_MANIFEST_DIR")).join("../../sessions");
    let files = fs::read_dir(folder).expect("the folder of sessions");
    let files = files.map(|file| file.expect("a file").path());
    let mut files: Vec<PathBuf> = files
        .filter(|file| file.extension().is_some_and(|e| e == "hex"))
        .collect();
    files.sort();
    let read = |file: PathBuf| {
        let name = file
            .file_stem()
            .expect("a name")
            .to_string_lossy()
            .into_owned();
        (name, bytes(&fs::read_to_string(&file).expect("a text")))
    };
    files.into_iter().map(read).collect()
}

/// A random session: every other one with lists that crowd the places for requests.
fn random(rng: &mut Prng) -> Vec<u8> {
    let (history, _) = match rng.chance(50) {
        true => random_list(rng, &NoFault),
        false => crowded_list(rng, &NoFault),
    };
    let steps: Vec<Step> = history.iter().map(|event| event.step).collect();
    codec::session(&steps)
}

/// Records up to the longest session that there is.
fn filled(mut records: impl FnMut() -> Vec<u8>) -> Vec<u8> {
    let mut session = codec::MARK.to_vec();
    loop {
        let record = records();
        if session.len() + record.len() > codec::MAX_SESSION {
            return session;
        }
        session.extend(record);
    }
}

#[test]
fn every_session_of_the_repository() {
    let sessions = sessions();
    assert!(sessions.len() >= 19);
    for (name, session) in sessions {
        drawn(&name, &session);
    }
}

/// All signs, but that of a kind of step that has none.
const SIGNS: [&str; 18] = [
    "asked",
    "assigned",
    "committed",
    "found",
    "from-memory",
    "gives-up",
    "guard-done",
    "guard-not-done",
    "lost",
    "merged",
    "not-remembered",
    "reached",
    "refused",
    "released",
    "remembered",
    "restarted",
    "split",
    "turned-back",
];

#[test]
fn random_sessions_in_which_every_sign_occurs() {
    let mut rng = Prng::new(1);
    let mut signs = BTreeSet::new();
    let mut places = BTreeSet::new();
    for at in 0..400 * scale() {
        let session = random(&mut rng);
        drawn(&format!("random {at}"), &session);
        for event in Expected::of(&session).events {
            signs.insert(event.sign);
            places.insert(event.place);
        }
    }
    assert!(signs.into_iter().eq(SIGNS));
    // eight players, the loader, the store, the way, the margin
    assert_eq!(places.len(), 12);
}

#[test]
fn damaged_sessions() {
    let mut rng = Prng::new(2);
    for at in 0..1000 * scale() {
        let mut session = random(&mut rng);
        session.truncate(4 + rng.index(200));
        damage(&mut rng, &mut session);
        drawn(&format!("damaged {at}"), &session);
    }
}

#[test]
fn any_bytes() {
    let mut rng = Prng::new(3);
    for at in 0..1000 * scale() {
        let most = [5, 40, 400][rng.index(3)];
        let length = rng.index(most);
        let mut session: Vec<u8> = (0..length).map(|_| rng.below(256) as u8).collect();
        if rng.chance(80) {
            session.splice(0..0, codec::MARK);
        }
        drawn(&format!("bytes {at}"), &session);
    }
}

#[test]
fn the_longest_sessions() {
    let mut rng = Prng::new(4);
    // restarts alone, as many records as a session may have
    let restarts = filled(|| vec![0x03, 0x0D, 0x00]);
    assert_eq!(restarts.len(), 16_384);
    drawn("restarts", &restarts);
    // a boundary at every entry, set and removed
    let mut at = 0u32;
    let boundaries = filled(|| {
        at += 1;
        vec![0x05, 0x0A + (at / 256 % 2) as u8, (at * 7 % 256) as u8]
    });
    drawn("boundaries", &boundaries);
    // owners that change at every entry, then ranges of all lengths
    let mut at = 0u16;
    let owners = filled(|| {
        at += 1;
        let (low, high) = match at {
            0..=256 => (at - 1, at),
            _ => (at * 5 % 128, 129 + at * 11 % 128),
        };
        let [one, two] = high.to_le_bytes();
        vec![0x0F, 0x01, (at % 8) as u8, low as u8, one, two]
    });
    drawn("owners", &owners);
    let mut lists = Vec::new();
    let random = filled(|| {
        if lists.is_empty() {
            lists = random_list(&mut rng, &NoFault).0;
        }
        codec::record(lists.remove(0).step)
    });
    drawn("random", &random);
    // one byte more: the run is refused, and no record is drawn
    let mut long = restarts;
    long.push(0);
    let text = drawn("too long", &long);
    assert!(!text.contains("class=\"row\""));
    assert!(text.contains("more than 16384 bytes"));
}

#[test]
fn parts_of_sessions() {
    let mut rng = Prng::new(5);
    for at in 0..150 * scale() {
        let session = random(&mut rng);
        let chart = Chart::of(&session);
        let expected = Expected::of(&session);
        let records = expected.events.len();
        for _ in 0..4 {
            let first = 1 + rng.index(records);
            let last = first + rng.index(records + 1 - first);
            let text = chart.draw_rows(first..=last).expect("these rows are there");
            if let Err(told) = check(&session, &expected, (first, last), &text) {
                panic!("part {at}, {first} to {last}: {told}");
            }
        }
        // no row is beyond the last, and none before the first
        for last in [records, records + 1, usize::MAX] {
            assert_eq!(chart.draw_rows(1..=last), Some(chart.draw()));
        }
        for (first, last) in [(0, 1), (2, 1), (records + 1, records + 1)] {
            assert_eq!(chart.draw_rows(first..=last), None);
        }
    }
}
