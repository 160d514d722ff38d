//! The read counters of the players, and the share of the reads that came from memory.

use core::fmt;

use crate::{raw, Player, Refusal, PLAYERS_WORDS, STORE_WORDS};

/// The highest count of a read counter: a read that would carry one of its player's counts above it leaves both as they are.
pub const LAST_COUNT: u32 = 4_000_000_000;

/// The first word of the counters in the players' table: of each player the answered reads, and the word after it those from memory.
const REGION: usize = 9473;

/// The answered reads of a player, since the tables were made fresh. A step counts them, alone or in a run; a player's restart leaves them.
#[derive(Clone, Copy, Debug, PartialEq, Eq, Hash)]
#[non_exhaustive]
pub struct Counts {
    /// Its answered reads: those from memory, and those that the store answered.
    pub answered: u32,
    /// How many of them came from memory, which is at most as many.
    pub from_memory: u32,
}

/// The share of a player's answered reads that came from its memory: quotient and remainder of 1,000 × reads from memory by answered reads.
///
/// It is shown in per cent, cut off after the first place: two reads of three are `66.6 %`. Players are compared by their thousandths, since a
/// remainder says nothing without the answered reads that it is of ([`Counts::answered`]).
///
/// ```
/// use famdrize::{Player, Refusal, Step, TablesMut};
/// # let (mut store, mut players) = ([0; famdrize::STORE_WORDS], [0; famdrize::PLAYERS_WORDS]);
/// # let mut tables = TablesMut::fresh(&mut store, &mut players);
///
/// let player = Player::try_from(0)?;
/// assert_eq!(tables.share(player), Err(Refusal::NoAnsweredRead));
/// for step in [
///     Step::Read { player, entry: 45 },
///     Step::Deliver { serial: 1 },
///     Step::Respond { serial: 1 },
/// ] {
///     tables.step(step).into_result()?;
/// }
/// let share = tables.share(player)?;
/// assert_eq!((share.thousandths, share.remainder), (0, 0));
/// assert_eq!(share.to_string(), "0.0 %");
/// # Ok::<(), Refusal>(())
/// ```
#[derive(Clone, Copy, Debug, PartialEq, Eq, Hash)]
#[non_exhaustive]
pub struct Share {
    /// The quotient, 0 to 1,000: 1,000 only where every read came from memory.
    pub thousandths: u32,
    /// The remainder, below the answered reads; where it is not 0, the share is more than its thousandths, by less than one.
    pub remainder: u32,
}

impl fmt::Display for Share {
    fn fmt(&self, f: &mut fmt::Formatter<'_>) -> fmt::Result {
        write!(f, "{}.{} %", self.thousandths / 10, self.thousandths % 10)
    }
}

/// The counts of the player in a players' table.
pub(crate) fn counts(players: &[u32; PLAYERS_WORDS], player: Player) -> Counts {
    let first = REGION + 2 * usize::from(player.number());
    Counts {
        answered: players[first],
        from_memory: players[first + 1],
    }
}

/// The share of the player, of tables that keep their rules: 39 where it has no answered read.
pub(crate) fn share(
    store: &[u32; STORE_WORDS],
    players: &[u32; PLAYERS_WORDS],
    player: Player,
) -> Result<Share, Refusal> {
    // SAFETY: two arrays, each with its length; the call changes neither.
    let reply = unsafe {
        raw::famdrize_share(
            store.as_ptr(),
            store.len(),
            players.as_ptr(),
            players.len(),
            player.number(),
        )
    };
    Refusal::of_code(reply.code)?;
    Ok(Share {
        thousandths: reply.a,
        remainder: reply.b,
    })
}

#[cfg(test)]
mod tests {
    use super::*;
    use crate::preview::tests::fresh;
    use crate::{Range, Reply, SessionMut, Step, TablesMut, Why};
    use std::string::ToString;

    fn player(number: u8) -> Player {
        Player::new(number).unwrap()
    }

    /// The counts of a player, answered reads and those from memory, and its share, thousandths and remainder.
    fn told(tables: &TablesMut<'_>, number: u8) -> ((u32, u32), Result<(u32, u32), Refusal>) {
        let counts = tables.counts(player(number));
        let share = tables.share(player(number));
        (
            (counts.answered, counts.from_memory),
            share.map(|share| (share.thousandths, share.remainder)),
        )
    }

    /// What is told of a player without an answered read.
    const NONE: ((u32, u32), Result<(u32, u32), Refusal>) = ((0, 0), Err(Refusal::NoAnsweredRead));

    /// Takes steps, each with the reply that it gets.
    fn take<const STEPS: usize>(tables: &mut TablesMut<'_>, steps: [(Step, Reply); STEPS]) {
        for (step, reply) in steps {
            assert_eq!(tables.step(step), reply, "{step}");
        }
    }

    fn issued(serial: u32) -> Reply {
        Reply::Issued { serial }
    }

    /// A read of entry 45, which holds nothing written, answered by the store: request `serial`.
    fn read_store(tables: &mut TablesMut<'_>, number: u8, serial: u32) {
        let (player, entry) = (player(number), 45);
        let (version, value) = (0, 0);
        take(
            tables,
            [
                (Step::Read { player, entry }, issued(serial)),
                (Step::Deliver { serial }, Reply::Done),
                (
                    Step::Respond { serial },
                    Reply::StoreRead { version, value },
                ),
            ],
        );
    }

    /// The same from memory.
    fn read_memory(tables: &mut TablesMut<'_>, number: u8) {
        let (player, entry) = (player(number), 45);
        let (version, value) = (0, 0);
        let reply = Reply::CacheRead { version, value };
        take(tables, [(Step::Read { player, entry }, reply)]);
    }

    /// Fresh tables get an owner of entries 40 to 59, with a guard there: the last serial is 2.
    fn guarded(tables: &mut TablesMut<'_>, number: u8) {
        let (player, range) = (player(number), Range::new(40, 60).unwrap());
        take(
            tables,
            [
                (Step::Assign { player, range }, issued(1)),
                (Step::RequestGuard { player, range }, issued(2)),
                (Step::Deliver { serial: 2 }, Reply::Done),
                (Step::Respond { serial: 2 }, Reply::Granted { serial: 2 }),
            ],
        );
    }

    #[test]
    fn answered_reads_are_counted_and_those_from_memory_beside_them() {
        let (mut store, mut players) = fresh();
        let mut tables = TablesMut::check(&mut store, &mut players).unwrap();
        guarded(&mut tables, 3);
        for number in 0..8 {
            assert_eq!(told(&tables, number), NONE);
        }
        read_store(&mut tables, 3, 3);
        assert_eq!(told(&tables, 3), ((1, 0), Ok((0, 0))));
        read_memory(&mut tables, 3);
        assert_eq!(told(&tables, 3), ((2, 1), Ok((500, 0))));
        read_memory(&mut tables, 3);
        assert_eq!(told(&tables, 3), ((3, 2), Ok((666, 2))));
        // player 4 owns nothing, and remembers nothing
        read_store(&mut tables, 4, 4);
        read_store(&mut tables, 4, 5);
        assert_eq!(told(&tables, 4), ((2, 0), Ok((0, 0))));
        assert_eq!(told(&tables, 3), ((3, 2), Ok((666, 2))));
        for number in [0, 1, 2, 5, 6, 7] {
            assert_eq!(told(&tables, number), NONE);
        }
    }

    #[test]
    fn one_read_of_three_is_333_thousandths_and_a_remainder() {
        let (mut store, mut players) = fresh();
        let mut tables = TablesMut::check(&mut store, &mut players).unwrap();
        guarded(&mut tables, 0);
        read_store(&mut tables, 0, 3);
        read_memory(&mut tables, 0);
        // without its guard it asks the store, and goes on counting
        let restart = Step::RestartPlayer { player: player(0) };
        take(&mut tables, [(restart, Reply::Done)]);
        assert_eq!(told(&tables, 0), ((2, 1), Ok((500, 0))));
        read_store(&mut tables, 0, 4);
        assert_eq!(told(&tables, 0), ((3, 1), Ok((333, 1))));
        assert_eq!(tables.share(player(0)).unwrap().to_string(), "33.3 %");
    }

    #[test]
    fn what_is_no_answered_read_is_not_counted() {
        let (mut store, mut players) = fresh();
        let mut tables = TablesMut::check(&mut store, &mut players).unwrap();
        let (player, entry, value) = (player(0), 45, 7);
        let read = Step::Read { player, entry };
        let write = Step::Write {
            player,
            entry,
            value,
        };
        take(
            &mut tables,
            [
                (Step::Load { entry, value }, issued(1)),
                (Step::Deliver { serial: 1 }, Reply::Done),
                (
                    Step::Respond { serial: 1 },
                    Reply::Committed { serial: 1, value },
                ),
                // asked for and delivered, then given up; given up, then delivered
                (read, issued(2)),
                (Step::Deliver { serial: 2 }, Reply::Done),
                (Step::Abandon { serial: 2 }, Reply::Done),
                (read, issued(3)),
                (Step::Abandon { serial: 3 }, Reply::Done),
                (Step::Deliver { serial: 3 }, Reply::Done),
                (
                    Step::Respond { serial: 3 },
                    Reply::Refused(Refusal::NoSuchRequest),
                ),
                (write, Reply::Refused(Refusal::NotOwner)),
            ],
        );
        assert_eq!(told(&tables, 0), NONE);

        let (mut store, mut players) = fresh();
        let mut tables = TablesMut::check(&mut store, &mut players).unwrap();
        guarded(&mut tables, 0);
        take(
            &mut tables,
            [
                (write, issued(3)),
                (Step::Deliver { serial: 3 }, Reply::Done),
                (
                    Step::Respond { serial: 3 },
                    Reply::Committed { serial: 3, value },
                ),
            ],
        );
        assert_eq!(told(&tables, 0), NONE);
        // what was written is remembered: a preview does not count the read, the read itself does
        let reply = Reply::CacheRead { version: 3, value };
        assert_eq!(tables.preview(read), reply);
        assert_eq!(told(&tables, 0), NONE);
        take(&mut tables, [(read, reply)]);
        assert_eq!(told(&tables, 0), ((1, 1), Ok((1000, 0))));
        assert_eq!(tables.share(player).unwrap().to_string(), "100.0 %");
    }

    #[test]
    fn a_run_counts_and_its_preview_does_not() {
        let (mut store, mut players) = fresh();
        let mut tables = TablesMut::check(&mut store, &mut players).unwrap();
        guarded(&mut tables, 0);
        let read = Step::Read {
            player: player(0),
            entry: 45,
        };
        let mut buffer = [0; 64];
        let mut session = SessionMut::new(&mut buffer).unwrap();
        for step in [
            read,
            Step::Deliver { serial: 3 },
            Step::Respond { serial: 3 },
            read,
            read,
        ] {
            session.push(step).unwrap();
        }
        let mut replies = [[5; 3]; 5];
        let report = tables.preview_run(session.bytes(), u32::MAX, &mut replies);
        assert_eq!((report.why, report.records), (Why::End, 5));
        assert_eq!(
            replies,
            [[1, 3, 0], [0, 0, 0], [3, 0, 0], [2, 0, 0], [2, 0, 0]]
        );
        assert_eq!(told(&tables, 0), NONE);
        let report = tables.run(session.bytes(), 4, &mut replies);
        assert_eq!((report.why, report.records), (Why::Spent, 4));
        assert_eq!(told(&tables, 0), ((2, 1), Ok((500, 0))));
        // a refused run leaves the counts
        let report = tables.run(&[], 4, &mut replies);
        assert_eq!(report.why, Why::Refused(Refusal::NoMark));
        assert_eq!(told(&tables, 0).0, (2, 1));
    }

    #[test]
    fn shares_are_worked_out_of_any_counts() {
        let most = LAST_COUNT;
        for (number, (answered, from_memory), expected, text) in [
            (0, (1, 0), (0, 0), "0.0 %"),
            (1, (1, 1), (1000, 0), "100.0 %"),
            (2, (2, 1), (500, 0), "50.0 %"),
            (3, (3, 1), (333, 1), "33.3 %"),
            (4, (7, 4), (571, 3), "57.1 %"),
            (5, (1000, 1), (1, 0), "0.1 %"),
            (6, (1001, 1), (0, 1000), "0.0 %"),
            (7, (1001, 1000), (999, 1), "99.9 %"),
            // 1,000 times a count does not fit a word
            (0, (4_294_968, 4_294_968), (1000, 0), "100.0 %"),
            (1, (most, 0), (0, 0), "0.0 %"),
            (2, (most, 1), (0, 1000), "0.0 %"),
            (3, (most, most / 2), (500, 0), "50.0 %"),
            (4, (most, most - 1), (999, 3_999_999_000), "99.9 %"),
            (7, (most, most), (1000, 0), "100.0 %"),
        ] {
            let (mut store, mut players) = fresh();
            players[9473 + 2 * number] = answered;
            players[9473 + 2 * number + 1] = from_memory;
            let (store_before, players_before) = (store, players);
            let tables = TablesMut::check(&mut store, &mut players).unwrap();
            for other in 0..8 {
                if usize::from(other) != number {
                    assert_eq!(told(&tables, other), NONE);
                    continue;
                }
                let counts = (answered, from_memory);
                assert_eq!(told(&tables, other), (counts, Ok(expected)));
                assert_eq!(tables.share(player(other)).unwrap().to_string(), text);
            }
            assert_eq!((store, players), (store_before, players_before));
        }
    }

    #[test]
    fn a_read_that_would_carry_a_count_above_the_last_leaves_both() {
        let (mut store, mut players) = fresh();
        let mut tables = TablesMut::check(&mut store, &mut players).unwrap();
        guarded(&mut tables, 0);
        // two below the last: one read from the store and one from memory go in, and no more
        players[9473..9475].copy_from_slice(&[3_999_999_998, 5]);
        let mut tables = TablesMut::check(&mut store, &mut players).unwrap();
        read_store(&mut tables, 0, 3);
        assert_eq!(told(&tables, 0).0, (3_999_999_999, 5));
        read_memory(&mut tables, 0);
        assert_eq!(told(&tables, 0).0, (4_000_000_000, 6));
        read_memory(&mut tables, 0);
        assert_eq!(told(&tables, 0).0, (4_000_000_000, 6));
        take(
            &mut tables,
            [(Step::RestartPlayer { player: player(0) }, Reply::Done)],
        );
        read_store(&mut tables, 0, 4);
        assert_eq!(told(&tables, 0).0, (4_000_000_000, 6));
        assert_eq!(LAST_COUNT, 4_000_000_000);
    }

    #[test]
    fn tables_with_broken_counters_are_refused() {
        let most = LAST_COUNT;
        for first in (9473..9489).step_by(2) {
            for (counts, kept) in [
                ([0, 1], false),
                ([1, 1], true),
                ([1, 2], false),
                ([most, most], true),
                ([most, most + 1], false),
                ([most + 1, 0], false),
                ([most + 1, most + 1], false),
                ([u32::MAX, 0], false),
                ([0, 0], true),
            ] {
                let (mut store, mut players) = fresh();
                players[first..first + 2].copy_from_slice(&counts);
                let before = players;
                let checked = TablesMut::check(&mut store, &mut players).map(|_| ());
                let expected = if kept {
                    Ok(())
                } else {
                    Err(Refusal::TableRules)
                };
                assert_eq!(checked, expected, "{first}: {counts:?}");
                assert_eq!(players, before);
            }
        }
    }
}
