//! The two tables, lent, and the steps on them.

use crate::look::Look;
use crate::reply::accepted;
use crate::requests::in_table;
use crate::{pending, preview, raw, Fields, Player, Refusal, Reply, Report, Request, Step};
use crate::{REQUESTS, STORE_WORDS};

/// Words of the players' table.
pub const PLAYERS_WORDS: usize = 9489;

/// The store's table and the players', lent by the caller, which keep their rules: the whole state, without heap.
///
/// While it stands, nothing else changes the words. They stay when it goes, and [`TablesMut::check`] takes them up again.
///
/// ```
/// use famdrize::{Player, Reply, Step, TablesMut, PLAYERS_WORDS, STORE_WORDS};
///
/// let (mut store, mut players) = ([0; STORE_WORDS], [0; PLAYERS_WORDS]);
/// let mut tables = TablesMut::fresh(&mut store, &mut players);
/// let player = Player::new(0).unwrap();
/// assert_eq!(tables.step(Step::Read { player, entry: 45 }), Reply::Issued { serial: 1 });
///
/// let tables = TablesMut::check(&mut store, &mut players)?;
/// assert_eq!(tables.last_serial(), 1);
/// assert_eq!(tables.pending(player), 1);
/// # Ok::<(), famdrize::Refusal>(())
/// ```
#[derive(Debug, PartialEq, Eq)]
pub struct TablesMut<'a> {
    store: &'a mut [u32; STORE_WORDS],
    players: &'a mut [u32; PLAYERS_WORDS],
}

impl<'a> TablesMut<'a> {
    /// Makes the tables fresh, whatever they held.
    pub fn fresh(
        store: &'a mut [u32; STORE_WORDS],
        players: &'a mut [u32; PLAYERS_WORDS],
    ) -> TablesMut<'a> {
        // SAFETY: two arrays, lent to be changed, so they do not overlap; each with its length.
        let reply = unsafe {
            raw::famdrize_fresh(
                store.as_mut_ptr(),
                store.len(),
                players.as_mut_ptr(),
                players.len(),
            )
        };
        accepted(reply);
        TablesMut { store, players }
    }

    /// The tables as they are, which are tested.
    ///
    /// # Errors
    ///
    /// 22 where a rule is broken.
    pub fn check(
        store: &'a mut [u32; STORE_WORDS],
        players: &'a mut [u32; PLAYERS_WORDS],
    ) -> Result<TablesMut<'a>, Refusal> {
        // SAFETY: two arrays, each with its length; the call changes neither.
        let reply = unsafe {
            raw::famdrize_check(store.as_ptr(), store.len(), players.as_ptr(), players.len())
        };
        Refusal::of_code(reply.code)?;
        Ok(TablesMut { store, players })
    }

    /// Tables that keep their rules already: those of the owning form.
    #[cfg(feature = "alloc")]
    pub(crate) fn kept(
        store: &'a mut [u32; STORE_WORDS],
        players: &'a mut [u32; PLAYERS_WORDS],
    ) -> TablesMut<'a> {
        TablesMut { store, players }
    }

    /// Both tables, for reading.
    pub(crate) fn look(&self) -> Look<'_> {
        let (store, players) = (&*self.store, &*self.players);
        Look { store, players }
    }

    /// The words of the store's table, as docs/FORMATS.md lays them out.
    #[must_use]
    pub fn store_words(&self) -> &[u32] {
        self.store
    }

    /// The words of the players' table.
    #[must_use]
    pub fn players_words(&self) -> &[u32] {
        self.players
    }

    /// Takes a step.
    #[must_use = "the step may be refused"]
    pub fn step(&mut self, step: Step) -> Reply {
        self.step_fields(step.into())
    }

    /// Takes the step of these fields, which may be refused with 26, 27 or 28.
    #[must_use = "the step may be refused"]
    pub fn step_fields(&mut self, fields: Fields) -> Reply {
        // SAFETY: two arrays, lent to be changed, so they do not overlap; each with its length.
        let reply = unsafe {
            raw::famdrize_step(
                self.store.as_mut_ptr(),
                self.store.len(),
                self.players.as_mut_ptr(),
                self.players.len(),
                fields.kind,
                fields.player,
                fields.entry,
                fields.high,
                fields.value,
                fields.serial,
            )
        };
        Reply::of_step([reply.code, reply.a, reply.b])
    }

    /// Takes the steps of a session's records, at most `budget` of them and at most as many as there are places for their replies: each
    /// reply's numbers are put into its place, and places not filled keep what they had. A refused step is taken and replied to, and the
    /// run goes on. [`MOST_RECORDS`](crate::MOST_RECORDS) places are enough for any session.
    pub fn run(&mut self, session: &[u8], budget: u32, replies: &mut [[u32; 3]]) -> Report {
        let replies = replies.as_flattened_mut();
        // SAFETY: three slices lent to be changed and one to be read, so none overlaps another; each with its length.
        let report = unsafe {
            raw::famdrize_run(
                self.store.as_mut_ptr(),
                self.store.len(),
                self.players.as_mut_ptr(),
                self.players.len(),
                session.as_ptr(),
                session.len(),
                budget,
                replies.as_mut_ptr(),
                replies.len(),
            )
        };
        Report::of_run(report)
    }

    /// What a step would reply. Nothing is altered; it takes about 44 KB of stack, for copies of the tables.
    ///
    /// ```
    /// use famdrize::{Refusal, Reply, Step, TablesMut};
    /// # let (mut store, mut players) = ([0; famdrize::STORE_WORDS], [0; famdrize::PLAYERS_WORDS]);
    /// # let mut tables = TablesMut::fresh(&mut store, &mut players);
    ///
    /// let split = Step::Split { entry: 128 };
    /// assert_eq!(tables.preview(split), Reply::Done);
    /// assert_eq!(tables.step(split), Reply::Done);
    /// assert_eq!(tables.preview(split), Reply::Refused(Refusal::WrongBoundary));
    /// ```
    #[must_use = "a preview alters nothing"]
    pub fn preview(&self, step: Step) -> Reply {
        self.preview_fields(step.into())
    }

    /// What the step of these fields would reply, in the same way.
    #[must_use = "a preview alters nothing"]
    pub fn preview_fields(&self, fields: Fields) -> Reply {
        preview::of_fields(self.store, self.players, fields)
    }

    /// What [`TablesMut::run`] would report, and reply to the records that it would take, where a budget above
    /// [`PREVIEW_RECORDS`](crate::PREVIEW_RECORDS) counts as that many: with more records it is [`Why::Spent`](crate::Why). Nothing but the
    /// list for the replies is altered, and where the run would be refused not even that. It takes about 44 KB of stack, for copies of the
    /// tables.
    ///
    /// ```
    /// use famdrize::{SessionMut, Step, TablesMut, Why};
    /// # let (mut store, mut players) = ([0; famdrize::STORE_WORDS], [0; famdrize::PLAYERS_WORDS]);
    /// # let tables = TablesMut::fresh(&mut store, &mut players);
    ///
    /// let mut buffer = [0; 64];
    /// let mut session = SessionMut::new(&mut buffer)?;
    /// for _ in 0..2 {
    ///     session.push(Step::Split { entry: 128 })?;
    /// }
    /// let mut replies = [[0; 3]; 2];
    /// let report = tables.preview_run(session.bytes(), u32::MAX, &mut replies);
    /// assert_eq!(report.why, Why::End);
    /// assert_eq!(replies, [[0, 0, 0], [35, 0, 0]]);
    /// assert_eq!(tables.store_words()[128], 0);
    /// # Ok::<(), famdrize::Refusal>(())
    /// ```
    pub fn preview_run(&self, session: &[u8], budget: u32, replies: &mut [[u32; 3]]) -> Report {
        preview::of_run(self.store, self.players, session, budget, replies)
    }

    /// The last serial issued, 0 if none was.
    #[must_use]
    pub fn last_serial(&self) -> u32 {
        last_serial(self.players)
    }

    /// The places for requests in flight, as records: those in use first, in rising serial.
    #[must_use]
    pub fn requests(&self) -> [Request; REQUESTS] {
        in_table(self.players)
    }

    /// How many pending requests the player has.
    #[must_use]
    pub fn pending(&self, player: Player) -> u32 {
        pending_in(self.players, player)
    }
}

/// The last serial issued of a players' table.
pub(crate) fn last_serial(players: &[u32; PLAYERS_WORDS]) -> u32 {
    players[0]
}

/// How many pending requests of the player stand in a players' table that keeps its rules.
pub(crate) fn pending_in(players: &[u32; PLAYERS_WORDS], player: Player) -> u32 {
    pending(&in_table(players), player).expect("the table has all places")
}

#[cfg(test)]
mod tests {
    use super::*;
    use crate::{Range, SessionMut, Why, BARRED, LOADER, OPEN_GUARD};

    /// Words of both tables that no call has made.
    fn lent() -> ([u32; STORE_WORDS], [u32; PLAYERS_WORDS]) {
        ([5; STORE_WORDS], [5; PLAYERS_WORDS])
    }

    fn player(number: u8) -> Player {
        Player::new(number).unwrap()
    }

    fn read(number: u8, entry: u8) -> Step {
        let player = player(number);
        Step::Read { player, entry }
    }

    fn assign(number: u8, range: Range) -> Step {
        let player = player(number);
        Step::Assign { player, range }
    }

    fn issued(serial: u32) -> Reply {
        Reply::Issued { serial }
    }

    #[test]
    fn lent_tables_are_made_fresh() {
        let (mut store, mut players) = lent();
        let tables = TablesMut::fresh(&mut store, &mut players);
        assert_eq!(tables.store_words()[0], 1);
        assert_eq!(tables.store_words()[1..], [0; STORE_WORDS - 1]);
        assert_eq!(tables.players_words()[0], 0);
        assert_eq!(tables.players_words()[1..257], [8; 256]);
        assert_eq!(tables.players_words()[257..], [0; PLAYERS_WORDS - 257]);
    }

    #[test]
    fn lent_tables_are_tested_and_kept() {
        let (mut store, mut players) = lent();
        let refused = Err(Refusal::TableRules);
        assert_eq!(TablesMut::check(&mut store, &mut players), refused);
        assert_eq!((store, players), lent());
        TablesMut::fresh(&mut store, &mut players);
        let (fresh_store, fresh_players) = (store, players);
        assert!(TablesMut::check(&mut store, &mut players).is_ok());
        players[1] = 9;
        assert_eq!(TablesMut::check(&mut store, &mut players), refused);
        players[1] = 8;
        store[0] = 0;
        assert_eq!(TablesMut::check(&mut store, &mut players), refused);
        store[0] = 1;
        assert!(TablesMut::check(&mut store, &mut players).is_ok());
        assert_eq!((store, players), (fresh_store, fresh_players));
    }

    #[test]
    fn a_guard_interval_is_found_and_nothing_is_altered() {
        let (mut store, mut players) = lent();
        let mut tables = TablesMut::fresh(&mut store, &mut players);
        let find = |entry| Step::FindInterval { entry };
        let found = |first, last| Reply::Interval { first, last };
        assert_eq!(tables.step(find(45)), found(0, 255));
        let (player, range) = (player(0), Range::new(40, 60).unwrap());
        assert_eq!(tables.step(assign(0, range)), issued(1));
        assert_eq!(tables.step(Step::RequestGuard { player, range }), issued(2));
        assert_eq!(tables.step(find(45)), found(0, 255));
        assert_eq!(tables.step(Step::Deliver { serial: 2 }), Reply::Done);
        // a boundary does not end it
        assert_eq!(tables.step(Step::Split { entry: 50 }), Reply::Done);
        let (store_before, players_before) = (store, players);
        let mut tables = TablesMut::check(&mut store, &mut players).unwrap();
        assert_eq!(tables.step(find(0)), found(0, 39));
        assert_eq!(tables.step(find(45)), found(40, 59));
        assert_eq!(tables.step(find(55)), found(40, 59));
        assert_eq!(tables.step(find(255)), found(60, 255));
        assert_eq!((store, players), (store_before, players_before));
        let mut tables = TablesMut::check(&mut store, &mut players).unwrap();
        assert_eq!(tables.step(assign(0, range)), issued(3));
    }

    #[test]
    fn an_open_entry_is_loaded_and_a_barred_one_is_not() {
        let (mut store, mut players) = lent();
        let mut tables = TablesMut::fresh(&mut store, &mut players);
        let load = |entry, value| Step::Load { entry, value };
        let (deliver, respond) = (
            |serial| Step::Deliver { serial },
            |serial| Step::Respond { serial },
        );
        assert_eq!(tables.step(load(9, 5)), issued(1));
        let sent = Request {
            serial: 1,
            player: LOADER,
            kind: 5,
            low: 9,
            value: 5,
            ..Request::default()
        };
        assert_eq!(tables.requests()[0], sent);
        assert!(Player::all().all(|player| tables.pending(player) == 0));
        assert_eq!(tables.step(deliver(1)), Reply::Done);
        let committed = Reply::Committed {
            serial: 1,
            value: 5,
        };
        assert_eq!(tables.step(respond(1)), committed);
        // entry 9 has version 1 and value 5, and is open still
        let words = tables.store_words();
        assert_eq!((words[768 + 9], words[1024 + 9]), (1, 5));
        assert_eq!((words[256 + 1], words[512]), (0, OPEN_GUARD));
        assert_eq!(tables.step(Step::Split { entry: 9 }), Reply::Done);
        assert_eq!(tables.step(Step::RestartTablet { entry: 9 }), Reply::Done);
        let words = tables.store_words();
        assert_eq!((words[256 + 1], words[512 + 1]), (9, BARRED));
        assert_eq!(tables.step(load(9, 6)), issued(2));
        assert_eq!(tables.step(deliver(2)), Reply::Done);
        assert_eq!(tables.step(respond(2)), Reply::Rejected { serial: 2 });
        assert_eq!(tables.step(load(8, 7)), issued(3));
        assert_eq!(tables.step(deliver(3)), Reply::Done);
        assert_eq!(tables.step(Step::Abandon { serial: 3 }), Reply::Done);
        let words = tables.store_words();
        assert_eq!((words[768 + 8], words[1024 + 8]), (3, 7));
        assert_eq!((words[768 + 9], words[1024 + 9]), (1, 5));
        assert_eq!(tables.requests(), [Request::default(); REQUESTS]);
        // the loader is no player
        let restart = Fields {
            kind: 13,
            player: LOADER,
            ..Fields::default()
        };
        let refused = Reply::Refused(Refusal::OutOfRange);
        assert_eq!(tables.step_fields(restart), refused);
    }

    #[test]
    fn steps_change_lent_tables_and_refusals_do_not() {
        let (mut store, mut players) = lent();
        let mut tables = TablesMut::fresh(&mut store, &mut players);
        assert_eq!(tables.step(assign(7, Range::all())), issued(1));
        assert_eq!(tables.last_serial(), 1);
        assert_eq!(tables.players_words()[1..257], [7; 256]);
        // they stay when it goes, and are taken up again
        let (store_before, players_before) = (store, players);
        let mut tables = TablesMut::check(&mut store, &mut players).unwrap();
        let none = Fields::default();
        let refused = [
            (none, Refusal::UnknownKind),
            (Fields { kind: 255, ..none }, Refusal::UnknownKind),
            (
                Fields {
                    kind: 13,
                    serial: 1,
                    ..none
                },
                Refusal::WrongFields,
            ),
            (
                Fields {
                    kind: 13,
                    player: 8,
                    ..none
                },
                Refusal::OutOfRange,
            ),
            (Step::Split { entry: 0 }.into(), Refusal::OutOfRange),
            (Step::Merge { entry: 9 }.into(), Refusal::WrongBoundary),
            (Step::Deliver { serial: 1 }.into(), Refusal::NoSuchRequest),
        ];
        for (fields, refusal) in refused {
            let reply = tables.step_fields(fields);
            assert_eq!(reply, Reply::Refused(refusal), "{fields}");
        }
        assert_eq!((store, players), (store_before, players_before));
    }

    #[test]
    fn requests_of_lent_tables_are_offered_as_records() {
        let (mut store, mut players) = lent();
        let mut tables = TablesMut::fresh(&mut store, &mut players);
        assert_eq!(tables.requests(), [Request::default(); REQUESTS]);
        assert_eq!(tables.step(read(1, 9)), issued(1));
        assert_eq!(tables.step(read(1, 10)), issued(2));
        assert_eq!(tables.step(Step::Abandon { serial: 1 }), Reply::Done);
        assert_eq!(tables.step(Step::Deliver { serial: 2 }), Reply::Done);
        let requests = tables.requests();
        let first = Request {
            serial: 1,
            player: 1,
            kind: 4,
            low: 9,
            abandoned: true,
            ..Request::default()
        };
        let second = Request {
            serial: 2,
            player: 1,
            kind: 4,
            low: 10,
            delivered: true,
            ..Request::default()
        };
        assert_eq!(requests[..2], [first, second]);
        assert_eq!(requests[2..], [Request::default(); REQUESTS - 2]);
        assert_eq!(tables.pending(player(1)), 1);
        assert_eq!(tables.pending(player(2)), 0);
        assert_eq!(tables.last_serial(), 2);
    }

    #[test]
    fn all_places_are_offered() {
        let (mut store, mut players) = lent();
        let mut tables = TablesMut::fresh(&mut store, &mut players);
        // player 3 has 6 places of its own and takes the 16 common ones, the others have 6 each
        for serial in 1..=22 {
            assert_eq!(tables.step(read(3, 9)), issued(serial));
        }
        let full = Reply::Refused(Refusal::NoPlaceLeft);
        assert_eq!(tables.step(read(3, 9)), full);
        let mut serial = 22;
        for other in [0, 1, 2, 4, 5, 6, 7] {
            for _ in 0..6 {
                serial += 1;
                assert_eq!(tables.step(read(other, 9)), issued(serial));
            }
            assert_eq!(tables.step(read(other, 9)), full);
            assert_eq!(tables.pending(player(other)), 6);
        }
        assert_eq!(tables.pending(player(3)), 22);
        for (serial, request) in (1..).zip(tables.requests()) {
            assert_eq!(request.serial, serial);
        }
        assert_eq!(tables.requests()[63].serial, 64);
    }

    #[test]
    fn a_request_given_up_keeps_its_place() {
        let (mut store, mut players) = lent();
        let mut tables = TablesMut::fresh(&mut store, &mut players);
        for serial in 1..=22 {
            assert_eq!(tables.step(read(3, 9)), issued(serial));
        }
        let full = Reply::Refused(Refusal::NoPlaceLeft);
        let load = Step::Load { entry: 9, value: 5 };
        assert_eq!(tables.step(Step::Abandon { serial: 9 }), Reply::Done);
        assert_eq!(tables.step(read(3, 9)), full);
        assert_eq!(tables.step(load), full);
        assert_eq!(tables.step(Step::Lose { serial: 9 }), Reply::Done);
        assert_eq!(tables.step(load), issued(23));
        assert_eq!(tables.step(read(3, 9)), full);
        assert_eq!(tables.step(Step::Deliver { serial: 23 }), Reply::Done);
        assert_eq!(tables.step(read(3, 9)), full);
        let answer = Reply::Committed {
            serial: 23,
            value: 5,
        };
        assert_eq!(tables.step(Step::Respond { serial: 23 }), answer);
        assert_eq!(tables.step(read(3, 9)), issued(24));
    }

    #[test]
    fn tables_that_break_the_shares_are_refused() {
        // 16 common places are in use, then 17: 22 requests of a player, then 23; 16 loads, then 17
        for (player, kind, most) in [(3, 4, 22), (8, 5, 16)] {
            let (mut store, mut players) = lent();
            TablesMut::fresh(&mut store, &mut players);
            players[0] = 64;
            for place in 0..=most {
                let first = 8705 + 12 * place;
                assert!(TablesMut::check(&mut store, &mut players).is_ok());
                let serial = place as u32 + 1;
                players[first..first + 4].copy_from_slice(&[serial, player, kind, 9]);
            }
            let refused = TablesMut::check(&mut store, &mut players).map(|_| ());
            assert_eq!(refused, Err(Refusal::TableRules));
        }
    }

    #[test]
    fn a_session_is_run_on_lent_tables() {
        // player 7 gets entry 9, reads it, and the read arrives; the last byte is no record
        let mut buffer = [0; 32];
        let mut session = SessionMut::new(&mut buffer).unwrap();
        for step in [
            assign(7, Range::of_entry(9)),
            read(7, 9),
            Step::Deliver { serial: 2 },
        ] {
            session.push(step).unwrap();
        }
        assert_eq!(session.bytes().len(), 20);
        buffer[20] = 0x40;
        let (mut store, mut players) = lent();
        let mut run = |session: &[u8], budget, places: usize| {
            let mut tables = TablesMut::fresh(&mut store, &mut players);
            let mut replies = [[5; 3]; 4];
            let report = tables.run(session, budget, &mut replies[..places]);
            let told = (report.why, report.records, report.place);
            (told, tables.last_serial(), replies)
        };
        let kept = [5; 3];
        let [one, two, done] = [[1, 1, 0], [1, 2, 0], [0, 0, 0]];
        assert_eq!(
            run(&buffer[..20], 3, 3),
            ((Why::End, 3, 20), 2, [one, two, done, kept])
        );
        assert_eq!(
            run(&buffer[..20], 1, 3),
            ((Why::Spent, 1, 10), 1, [one, kept, kept, kept])
        );
        assert_eq!(
            run(&buffer[..20], 9, 2),
            ((Why::Spent, 2, 14), 2, [one, two, kept, kept])
        );
        assert_eq!(run(&buffer, 9, 0), ((Why::Spent, 0, 4), 0, [kept; 4]));
        assert_eq!(
            run(&buffer[..21], 9, 4),
            (
                (Why::Refused(Refusal::UnknownField), 3, 20),
                2,
                [one, two, done, kept]
            )
        );
        let refused = |refusal| ((Why::Refused(refusal), 0, 0), 0, [kept; 4]);
        assert_eq!(run(&[], 9, 4), refused(Refusal::NoMark));
        assert_eq!(run(&buffer[1..], 9, 4), refused(Refusal::NoMark));
        let long = [0; crate::SESSION_BYTES + 1];
        assert_eq!(run(&long, 9, 4), refused(Refusal::SessionTooLong));
    }
}
