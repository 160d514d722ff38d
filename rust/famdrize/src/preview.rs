//! What a step would reply, and a run, on tables that stay as they are.

use crate::{raw, Fields, Reply, Report, PLAYERS_WORDS, STORE_WORDS};

/// The most records that the preview of a run takes: a budget above it counts as it.
pub const PREVIEW_RECORDS: usize = 16;

/// What the step of these fields would reply.
pub(crate) fn of_fields(
    store: &[u32; STORE_WORDS],
    players: &[u32; PLAYERS_WORDS],
    fields: Fields,
) -> Reply {
    // SAFETY: two arrays, each with its length; the call changes neither.
    let reply = unsafe {
        raw::famdrize_preview(
            store.as_ptr(),
            store.len(),
            players.as_ptr(),
            players.len(),
            fields.kind,
            fields.player,
            fields.entry,
            fields.high,
            fields.value,
            fields.serial,
        )
    };
    Reply::of_step([reply.code, reply.a, reply.b])
}

/// What a run over this session would report, and the replies of its records.
pub(crate) fn of_run(
    store: &[u32; STORE_WORDS],
    players: &[u32; PLAYERS_WORDS],
    session: &[u8],
    budget: u32,
    replies: &mut [[u32; 3]],
) -> Report {
    let replies = replies.as_flattened_mut();
    // SAFETY: a slice lent to be changed and three to be read, so that none overlaps it; each with its length.
    let report = unsafe {
        raw::famdrize_preview_run(
            store.as_ptr(),
            store.len(),
            players.as_ptr(),
            players.len(),
            session.as_ptr(),
            session.len(),
            budget,
            replies.as_mut_ptr(),
            replies.len(),
        )
    };
    Report::of_run(report)
}

#[cfg(test)]
pub(crate) mod tests {
    use super::*;
    use crate::step::tests::fields;
    use crate::{Player, Refusal, SessionMut, Step, TablesMut, Why};
    use std::thread;

    /// Fresh tables.
    pub(crate) fn fresh() -> ([u32; STORE_WORDS], [u32; PLAYERS_WORDS]) {
        let (mut store, mut players) = ([0; STORE_WORDS], [0; PLAYERS_WORDS]);
        TablesMut::fresh(&mut store, &mut players);
        (store, players)
    }

    /// Steps on fresh tables, by kind, player, entry, high, value and serial, and their replies: every kind, every reply, and every refusal
    /// that checked tables can give but 34 and 38.
    const STEPS: [([u32; 6], [u32; 3]); 39] = [
        ([14, 0, 45, 0, 0, 0], [9, 0, 255]),
        ([0, 0, 0, 0, 0, 0], [26, 0, 0]),
        ([14, 0, 45, 0, 0, 1], [27, 0, 0]),
        ([1, 8, 40, 60, 0, 0], [28, 0, 0]),
        ([1, 0, 40, 60, 0, 0], [1, 1, 0]),
        ([3, 1, 40, 60, 0, 0], [29, 0, 0]),
        ([5, 0, 45, 0, 7, 0], [30, 0, 0]),
        ([3, 0, 40, 60, 0, 0], [1, 2, 0]),
        ([3, 0, 45, 46, 0, 0], [31, 0, 0]),
        ([7, 0, 0, 0, 0, 2], [32, 0, 0]),
        ([6, 0, 0, 0, 0, 2], [0, 0, 0]),
        ([7, 0, 0, 0, 0, 2], [6, 2, 0]),
        ([4, 0, 45, 0, 0, 0], [1, 3, 0]),
        ([6, 0, 0, 0, 0, 3], [0, 0, 0]),
        ([7, 0, 0, 0, 0, 3], [3, 0, 0]),
        ([4, 0, 45, 0, 0, 0], [2, 0, 0]),
        ([5, 0, 45, 0, 7, 0], [1, 4, 0]),
        ([6, 0, 0, 0, 0, 4], [0, 0, 0]),
        ([7, 0, 0, 0, 0, 4], [4, 4, 7]),
        ([15, 0, 9, 0, 5, 0], [1, 5, 0]),
        ([8, 0, 0, 0, 0, 5], [0, 0, 0]),
        ([9, 0, 0, 0, 0, 5], [0, 0, 0]),
        ([10, 0, 0, 0, 0, 0], [28, 0, 0]),
        ([10, 0, 50, 0, 0, 0], [0, 0, 0]),
        ([10, 0, 50, 0, 0, 0], [35, 0, 0]),
        ([3, 0, 40, 60, 0, 0], [1, 6, 0]),
        ([6, 0, 0, 0, 0, 6], [0, 0, 0]),
        ([7, 0, 0, 0, 0, 6], [8, 6, 0]),
        ([11, 0, 50, 0, 0, 0], [0, 0, 0]),
        ([3, 0, 40, 60, 0, 0], [1, 7, 0]),
        ([2, 0, 40, 60, 0, 0], [1, 8, 0]),
        ([6, 0, 0, 0, 0, 7], [0, 0, 0]),
        ([7, 0, 0, 0, 0, 7], [7, 7, 0]),
        ([12, 0, 45, 0, 0, 0], [0, 0, 0]),
        ([15, 0, 45, 0, 6, 0], [1, 9, 0]),
        ([6, 0, 0, 0, 0, 9], [0, 0, 0]),
        ([7, 0, 0, 0, 0, 9], [5, 9, 0]),
        ([13, 0, 0, 0, 0, 0], [0, 0, 0]),
        ([13, 8, 0, 0, 0, 0], [28, 0, 0]),
    ];

    #[test]
    fn a_preview_gives_the_reply_of_the_step_and_alters_nothing() {
        let (mut store, mut players) = fresh();
        for (numbers, expected) in STEPS {
            let fields = fields(numbers);
            let before = (store, players);
            let tables = TablesMut::check(&mut store, &mut players).unwrap();
            let previewed = tables.preview_fields(fields);
            assert_eq!(previewed.numbers(), expected, "{fields}");
            if let Ok(step) = Step::try_from(fields) {
                assert_eq!(tables.preview(step), previewed, "{fields}");
            }
            assert_eq!((store, players), before, "{fields}");
            let mut tables = TablesMut::check(&mut store, &mut players).unwrap();
            assert_eq!(tables.step_fields(fields), previewed, "{fields}");
        }
    }

    #[test]
    fn a_preview_is_refused_for_want_of_a_place_or_a_serial() {
        let load = Step::Load { entry: 9, value: 5 };
        let (mut store, mut players) = fresh();
        let mut tables = TablesMut::check(&mut store, &mut players).unwrap();
        for serial in 1..=16 {
            assert_eq!(tables.preview(load), Reply::Issued { serial });
            assert_eq!(tables.step(load), Reply::Issued { serial });
        }
        let refused = Reply::Refused(Refusal::NoPlaceLeft);
        assert_eq!(tables.preview(load), refused);
        // a player has places of its own
        let player = Player::new(3).unwrap();
        let read = Step::Read { player, entry: 9 };
        for serial in 17..=22 {
            assert_eq!(tables.preview(read), Reply::Issued { serial });
            assert_eq!(tables.step(read), Reply::Issued { serial });
        }
        assert_eq!(tables.preview(read), refused);
        let (mut store, mut players) = fresh();
        players[0] = 4_000_000;
        let tables = TablesMut::check(&mut store, &mut players).unwrap();
        let refused = Reply::Refused(Refusal::NoSerialLeft);
        assert_eq!(tables.preview(load), refused);
    }

    /// A session of so many reads, at most 18, and its bytes: 4 for the mark and 4 for each. On fresh tables each takes the next serial.
    fn reads(records: usize) -> ([u8; 76], usize) {
        let mut buffer = [0; 76];
        let mut session = SessionMut::new(&mut buffer).unwrap();
        let player = Player::new(0).unwrap();
        for _ in 0..records {
            session.push(Step::Read { player, entry: 9 }).unwrap();
        }
        (buffer, 4 + 4 * records)
    }

    #[test]
    fn a_preview_of_a_run_takes_16_records_at_most_and_alters_the_list_alone() {
        let (mut store, mut players) = fresh();
        let before = (store, players);
        for records in 15..=18 {
            let (buffer, bytes) = reads(records);
            for (budget, counts_as) in
                [(0, 0), (1, 1), (15, 15), (16, 16), (17, 16), (u32::MAX, 16)]
            {
                for places in [0, 1, 15, 16, 17, 18] {
                    let taken = records.min(counts_as).min(places);
                    let why = if taken == records {
                        Why::End
                    } else {
                        Why::Spent
                    };
                    let tables = TablesMut::check(&mut store, &mut players).unwrap();
                    let mut replies = [[5; 3]; 18];
                    // once more into the same list nothing changes
                    for _ in 0..2 {
                        let list = &mut replies[..places];
                        let report = tables.preview_run(&buffer[..bytes], budget, list);
                        let told = (report.why, report.records as usize, report.place as usize);
                        assert_eq!(
                            told,
                            (why, taken, 4 + 4 * taken),
                            "{records} {budget} {places}"
                        );
                        for (serial, reply) in (1..).zip(&replies[..taken]) {
                            assert_eq!(*reply, [1, serial, 0]);
                        }
                        assert!(replies[taken..].iter().all(|reply| *reply == [5; 3]));
                    }
                    assert_eq!((store, players), before);
                }
            }
        }
        assert_eq!(PREVIEW_RECORDS, 16);
    }

    #[test]
    fn a_bad_record_is_told_before_the_17th() {
        let (mut store, mut players) = fresh();
        let tables = TablesMut::check(&mut store, &mut players).unwrap();
        let told = |records| {
            let (mut buffer, bytes) = reads(records);
            buffer[bytes] = 0x40;
            let report = tables.preview_run(&buffer, u32::MAX, &mut [[5; 3]; 18]);
            (report.why, report.records, report.place)
        };
        let refused = Why::Refused(Refusal::UnknownField);
        assert_eq!(told(15), (refused, 15, 64));
        assert_eq!(told(16), (Why::Spent, 16, 68));
    }

    #[test]
    fn a_refused_preview_of_a_run_leaves_the_list() {
        let (mut store, mut players) = fresh();
        let tables = TablesMut::check(&mut store, &mut players).unwrap();
        let mut replies = [[5; 3]; 3];
        let long = [0; crate::SESSION_BYTES + 1];
        for (session, refusal) in [
            (&long[..], Refusal::SessionTooLong),
            (&long[..9], Refusal::NoMark),
            (&[], Refusal::NoMark),
        ] {
            let report = tables.preview_run(session, 9, &mut replies);
            let told = (report.why, report.records, report.place);
            assert_eq!(told, (Why::Refused(refusal), 0, 0));
        }
        assert_eq!(replies, [[5; 3]; 3]);
    }

    #[test]
    fn previews_fit_a_stack_of_64_kilobytes() {
        let (mut store, mut players) = fresh();
        let tables = TablesMut::check(&mut store, &mut players).unwrap();
        let (buffer, _) = reads(18);
        let previews = || {
            let reply = tables.preview(Step::Load { entry: 9, value: 5 });
            let mut replies = [[5; 3]; PREVIEW_RECORDS];
            let report = tables.preview_run(&buffer, u32::MAX, &mut replies);
            (reply, report.why, replies[15])
        };
        let told = thread::scope(|scope| {
            let small = thread::Builder::new().stack_size(64 * 1024);
            small.spawn_scoped(scope, previews).unwrap().join().unwrap()
        });
        assert_eq!(told, (Reply::Issued { serial: 1 }, Why::Spent, [1, 16, 0]));
    }
}
