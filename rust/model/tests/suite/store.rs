//! The store used alone.

use calls::{Interval, Range, Reply};
use model::broken::break_rule;
use model::numbers::BARRED;
use model::prng::Prng;
use model::store_calls::*;
use model::table_rules::TableRule;
use model::tables::STORE_WORDS;

use crate::support::{range, refused, reply, scale};

fn fresh_store() -> Vec<u32> {
    let mut words = vec![7; STORE_WORDS];
    assert_eq!(fresh(&mut words), reply(0, 0, 0));
    words
}

/// Guards, writes and reads with the replies of reading 20.
#[test]
fn guards_and_writes() {
    let mut words = fresh_store();
    assert_eq!(words[0], 1);
    assert_eq!(words[1..], [0; STORE_WORDS - 1]);
    assert_eq!(set_guard(&mut words, range(40, 60), 2), reply(0, 1, 0));
    assert_eq!(words[256..260], [0, 40, 60, 0]);
    assert_eq!(words[512..516], [0, 2, 0, 0]);
    assert_eq!(write(&mut words, 45, 3, 7, 2), reply(0, 1, 0));
    assert_eq!(read(&words, 45), reply(0, 3, 7));
    assert_eq!(write(&mut words, 45, 4, 8, 1), reply(0, 2, 0));
    assert_eq!(read(&words, 45), reply(0, 3, 7));
    // "the same write handed in twice may commit twice"
    assert_eq!(write(&mut words, 45, 3, 7, 2), reply(0, 1, 0));
    // A guard carried is not tested.
    assert_eq!(write(&mut words, 45, 6, 9, 4_000_001), reply(0, 2, 0));
    assert_eq!(restart(&mut words, 200), reply(0, 0, 0));
    assert_eq!(words[256..260], [0; 4]);
    assert_eq!(words[512..514], [4_294_967_295, 0]);
    assert_eq!(write(&mut words, 45, 6, 9, 2), reply(0, 2, 0));
    assert_eq!(read(&words, 45), reply(0, 3, 7));
    assert_eq!(check(&words), reply(0, 0, 0));
}

/// Document 02 §2: "guard 0 is open and matches a carried 0, and a restart sets a new mark, barred, that
/// matches nothing". Guard 2 over 40 to 60, and the tablet from 128 on restarted.
#[test]
fn open_and_barred() {
    let mut words = fresh_store();
    assert_eq!(set_guard(&mut words, range(40, 60), 2), reply(0, 1, 0));
    assert_eq!(split(&mut words, 128), reply(0, 0, 0));
    assert_eq!(restart(&mut words, 200), reply(0, 0, 0));
    let cases = [
        // entry, carried, outcome
        (39, 0, 1),
        (39, 2, 2),
        (39, BARRED, 2),
        (40, 0, 2),
        (40, 2, 1),
        (40, BARRED, 2),
        (127, 0, 1),
        (128, 0, 2),
        (128, 2, 2),
        (128, BARRED, 2),
        (255, BARRED, 2),
    ];
    for (entry, carried, outcome) in cases {
        let mut words = words.clone();
        let given = write(&mut words, entry, 9, 7, carried);
        assert_eq!(given, reply(0, outcome, 0), "{entry} {carried}");
        let held = if outcome == 1 { (9, 7) } else { (0, 0) };
        assert_eq!(read(&words, entry), reply(0, held.0, held.1));
    }
    // A guard may be set at a barred entry, and is as any other then.
    assert_eq!(set_guard(&mut words, range(200, 201), 8), reply(0, 1, 0));
    assert_eq!(write(&mut words, 200, 7, 1, 8), reply(0, 1, 0));
    assert_eq!(find_interval(&words, 199), interval(BARRED, 128, 199));
    assert_eq!(find_interval(&words, 200), interval(8, 200, 200));
    assert_eq!(find_interval(&words, 201), interval(BARRED, 201, 255));
    assert_eq!(find_interval(&words, 127), interval(0, 60, 127));
    assert_eq!(words[256..262], [0, 40, 60, 128, 200, 201]);
    assert_eq!(words[512..518], [0, 2, 0, BARRED, 8, BARRED]);
    // Barred is no serial: it cannot be asked for, and stands in no other column.
    assert_eq!(set_guard(&mut words, range(0, 1), BARRED), refused(28));
    assert_eq!(write(&mut words, 0, BARRED, 7, 0), refused(28));
    assert_eq!(check_at(&words, 0), refused(22));
    assert_eq!(check_at(&words, 8), reply(0, 0, 0));
    words[513] = BARRED - 1;
    assert_eq!(check(&words), refused(22));
    words[513] = BARRED;
    assert_eq!(check(&words), reply(0, 0, 0));
    words[768] = BARRED;
    assert_eq!(check(&words), refused(22));
}

/// "if the range lies in one tablet the guard is set over it, else the outcome is 'layout changed'
/// and nothing is set"
#[test]
fn tablets() {
    let mut words = fresh_store();
    assert_eq!(split(&mut words, 50), reply(0, 0, 0));
    assert_eq!(split(&mut words, 50), refused(35));
    let before = words.clone();
    assert_eq!(set_guard(&mut words, range(49, 51), 1), reply(0, 2, 0));
    assert_eq!(words, before);
    assert_eq!(set_guard(&mut words, range(50, 256), 1), reply(0, 1, 0));
    assert_eq!(set_guard(&mut words, range(0, 50), 1), reply(0, 1, 0));
    assert_eq!(words[256..258], [0, 0], "neighbours never equal");
    assert_eq!(merge(&mut words, 51), refused(35));
    assert_eq!(merge(&mut words, 50), reply(0, 0, 0));
    assert_eq!(merge(&mut words, 50), refused(35));
}

fn interval(guard: u32, first: u32, last: u32) -> Interval {
    Interval {
        code: 0,
        guard,
        first,
        last,
    }
}

/// Document 02 §1: "Finding an entry's guard must also give its stretch's first and last entry".
#[test]
fn intervals() {
    let mut words = fresh_store();
    assert_eq!(find_interval(&words, 7), interval(0, 0, 255));
    assert_eq!(set_guard(&mut words, range(40, 60), 2), reply(0, 1, 0));
    assert_eq!(find_interval(&words, 39), interval(0, 0, 39));
    for entry in [40, 45, 59] {
        assert_eq!(find_interval(&words, entry), interval(2, 40, 59));
    }
    assert_eq!(find_interval(&words, 60), interval(0, 60, 255));
    // A boundary does not end it.
    assert_eq!(split(&mut words, 50), reply(0, 0, 0));
    assert_eq!(find_interval(&words, 49), interval(2, 40, 59));
    assert_eq!(find_interval(&words, 50), interval(2, 40, 59));
    // One entry at either end, and the last serial for a guard.
    let highest = set_guard(&mut words, range(255, 256), 4_000_000);
    assert_eq!(highest, reply(0, 1, 0));
    assert_eq!(find_interval(&words, 255), interval(4_000_000, 255, 255));
    assert_eq!(find_interval(&words, 254), interval(0, 60, 254));
    assert_eq!(set_guard(&mut words, range(0, 1), 3), reply(0, 1, 0));
    assert_eq!(find_interval(&words, 0), interval(3, 0, 0));
    assert_eq!(find_interval(&words, 1), interval(0, 1, 39));
}

/// "there 4,000,000 stands for the last serial issued, and a request's or write's serial of 0 or
/// above that is 28"
#[test]
fn numbers() {
    let mut words = fresh_store();
    let before = words.clone();
    for serial in [0, 4_000_001, u32::MAX] {
        let given = set_guard(&mut words, range(0, 1), serial);
        assert_eq!(given, refused(28));
        assert_eq!(write(&mut words, 0, serial, 1, 1), refused(28));
    }
    for bad in [range(5, 5), range(6, 5), range(0, 257)] {
        assert_eq!(set_guard(&mut words, bad, 1), refused(28));
    }
    assert_eq!(split(&mut words, 0), refused(28));
    assert_eq!(merge(&mut words, 0), refused(28));
    assert_eq!(words, before);
    let highest = set_guard(&mut words, range(0, 256), 4_000_000);
    assert_eq!(highest, reply(0, 1, 0));
    let given = write(&mut words, 255, 4_000_000, 5, 4_000_000);
    assert_eq!(given, reply(0, 1, 0));
    assert_eq!(check(&words), reply(0, 0, 0));
    assert_eq!(check_at(&words, 3_999_999), refused(22));
    assert_eq!(check_at(&words, 4_000_000), reply(0, 0, 0));
    words[1_023] = 4_000_001;
    assert_eq!(check(&words), refused(22));
}

type Call = fn(&mut [u32]) -> Reply;

/// The calls with numbers that are 28 where they can be.
const CALLS: [Call; 8] = [
    |words| check(words),
    |words| set_guard(words, Range::new(5, 5), 0),
    |words| read(words, 0),
    |words| {
        let found = find_interval(words, 0);
        assert_eq!(found, Interval::refused(found.code));
        Reply::refused(found.code)
    },
    |words| write(words, 0, 0, 0, 0),
    |words| split(words, 0),
    |words| merge(words, 0),
    |words| restart(words, 0),
];

/// 21, then 22, before all else; no word is changed.
#[test]
fn lengths_and_rules() {
    let rules = [
        TableRule::BoundaryBit,
        TableRule::FirstBoundary,
        TableRule::FirstInterval,
        TableRule::IntervalOrder,
        TableRule::IntervalEntry,
        TableRule::IntervalNeighbours,
        TableRule::IntervalUnused,
    ];
    let mut rng = Prng::new(6);
    for call in CALLS {
        for length in [0, STORE_WORDS - 1, STORE_WORDS + 1] {
            let mut words = vec![9; length];
            assert_eq!(call(&mut words), refused(21));
            assert_eq!(words, vec![9; length]);
        }
        for rule in rules {
            for _ in 0..10 * scale() {
                let (mut words, _) = break_rule(&mut rng, rule);
                let before = words.clone();
                assert_eq!(call(&mut words), refused(22), "{rule:?}");
                assert_eq!(words, before);
            }
        }
    }
    assert_eq!(fresh(&mut [0; 3]), refused(21));
}
