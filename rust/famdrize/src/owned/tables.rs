//! The two tables, owned, and the steps on them.

use alloc::boxed::Box;
use alloc::vec;
use alloc::vec::Vec;

use super::{array, zeros};
use crate::look::Look;
use crate::requests::in_table;
use crate::tables::{last_serial, pending_in};
use crate::{preview, Fields, Player, Refusal, Reply, Report, Request, Step, TablesMut};
use crate::{MOST_RECORDS, PLAYERS_WORDS, STORE_WORDS};

/// The store's table and the players', which keep their rules: the whole state. [`TablesMut`] is the same over lent tables.
///
/// ```
/// use famdrize::{Player, Reply, Step, Tables};
///
/// let mut tables = Tables::fresh();
/// let player = Player::try_from(0)?;
/// let reply = tables.step(Step::Read { player, entry: 45 }).into_result()?;
/// assert_eq!(reply, Reply::Issued { serial: 1 });
/// assert_eq!(tables.pending(player), 1);
/// # Ok::<(), famdrize::Refusal>(())
/// ```
#[derive(Clone, Debug, PartialEq, Eq)]
pub struct Tables {
    store: Box<[u32; STORE_WORDS]>,
    players: Box<[u32; PLAYERS_WORDS]>,
}

impl Tables {
    /// Words of the store's table.
    pub const STORE_WORDS: usize = STORE_WORDS;
    /// Words of the players' table.
    pub const PLAYERS_WORDS: usize = PLAYERS_WORDS;
    /// The most records that a session holds.
    pub const MOST_RECORDS: usize = MOST_RECORDS;

    /// Fresh tables.
    #[must_use]
    pub fn fresh() -> Tables {
        let (mut store, mut players) = (zeros(), zeros());
        TablesMut::fresh(&mut store, &mut players);
        Tables { store, players }
    }

    /// The tables of these words, which are tested.
    ///
    /// # Errors
    ///
    /// 21 for a wrong length, 22 where a rule is broken.
    pub fn from_words(store: Vec<u32>, players: Vec<u32>) -> Result<Tables, Refusal> {
        let (mut store, mut players) = (array(store)?, array(players)?);
        TablesMut::check(&mut store, &mut players)?;
        Ok(Tables { store, players })
    }

    /// The lent form of the same tables.
    #[must_use]
    pub fn lend(&mut self) -> TablesMut<'_> {
        TablesMut::kept(&mut self.store, &mut self.players)
    }

    /// Both tables, for reading.
    pub(crate) fn look(&self) -> Look<'_> {
        let (store, players) = (&*self.store, &*self.players);
        Look { store, players }
    }

    /// The words of the store's table, as docs/FORMATS.md lays them out.
    #[must_use]
    pub fn store_words(&self) -> &[u32] {
        &*self.store
    }

    /// The words of the players' table.
    #[must_use]
    pub fn players_words(&self) -> &[u32] {
        &*self.players
    }

    /// Takes a step.
    #[must_use = "the step may be refused"]
    pub fn step(&mut self, step: Step) -> Reply {
        self.lend().step(step)
    }

    /// Takes the step of these fields, which may be refused with 26, 27 or 28.
    #[must_use = "the step may be refused"]
    pub fn step_fields(&mut self, fields: Fields) -> Reply {
        self.lend().step_fields(fields)
    }

    /// Takes the steps of a session's records, at most `budget` of them and at most as many as there are places for their replies: each
    /// reply's numbers are put into its place, and places not filled keep what they had. A refused step is taken and replied to, and the
    /// run goes on.
    pub fn run(&mut self, session: &[u8], budget: u32, replies: &mut [[u32; 3]]) -> Report {
        self.lend().run(session, budget, replies)
    }

    /// A run with a budget and places for any session; the replies to the records taken.
    pub fn run_all(&mut self, session: &[u8]) -> (Report, Vec<Reply>) {
        let mut numbers = vec![[0; 3]; MOST_RECORDS];
        let report = self.run(session, u32::MAX, &mut numbers);
        let taken = numbers.into_iter().take(report.records as usize);
        (report, taken.map(Reply::of_step).collect())
    }

    /// What a step would reply. Nothing is altered; it takes about 44 KB of stack, for copies of the tables.
    ///
    /// ```
    /// use famdrize::{Player, Reply, Step, Tables};
    ///
    /// let mut tables = Tables::fresh();
    /// let player = Player::try_from(0)?;
    /// let read = Step::Read { player, entry: 45 };
    /// assert_eq!(tables.preview(read), Reply::Issued { serial: 1 });
    /// assert_eq!(tables.last_serial(), 0);
    /// assert_eq!(tables.step(read), Reply::Issued { serial: 1 });
    /// # Ok::<(), famdrize::Refusal>(())
    /// ```
    #[must_use = "a preview alters nothing"]
    pub fn preview(&self, step: Step) -> Reply {
        self.preview_fields(step.into())
    }

    /// What the step of these fields would reply, in the same way.
    #[must_use = "a preview alters nothing"]
    pub fn preview_fields(&self, fields: Fields) -> Reply {
        preview::of_fields(&self.store, &self.players, fields)
    }

    /// What [`Tables::run`] would report, and reply to the records that it would take, where a budget above
    /// [`PREVIEW_RECORDS`](crate::PREVIEW_RECORDS) counts as that many: with more records it is [`Why::Spent`](crate::Why). Nothing but the
    /// list for the replies is altered, and where the run would be refused not even that. It takes about 44 KB of stack, for copies of the
    /// tables.
    pub fn preview_run(&self, session: &[u8], budget: u32, replies: &mut [[u32; 3]]) -> Report {
        preview::of_run(&self.store, &self.players, session, budget, replies)
    }

    /// The last serial issued, 0 if none was.
    #[must_use]
    pub fn last_serial(&self) -> u32 {
        last_serial(&self.players)
    }

    /// The 64 places for requests in flight, as records: those in use first, in rising serial.
    #[must_use]
    pub fn requests(&self) -> Vec<Request> {
        in_table(&self.players).to_vec()
    }

    /// How many pending requests the player has.
    #[must_use]
    pub fn pending(&self, player: Player) -> u32 {
        pending_in(&self.players, player)
    }
}

impl Default for Tables {
    fn default() -> Tables {
        Tables::fresh()
    }
}

#[cfg(test)]
mod tests {
    use super::*;
    use crate::{Range, Session, Why, COMMON_PLACES, OWN_PLACES, PREVIEW_RECORDS};

    fn stopped(why: Why, records: u32, place: u32) -> Report {
        Report {
            why,
            records,
            place,
        }
    }

    fn issued(serial: u32) -> Reply {
        Reply::Issued { serial }
    }

    fn read(player: Player, entry: u8) -> Step {
        Step::Read { player, entry }
    }

    #[test]
    fn fresh_tables_have_their_words() {
        let tables = Tables::fresh();
        let mut store = vec![0; 1280];
        store[0] = 1;
        let mut players = vec![0; 9489];
        players[1..257].fill(8);
        assert_eq!(tables.store_words(), store);
        assert_eq!(tables.players_words(), players);
        assert_eq!(Tables::from_words(store, players), Ok(tables));
    }

    #[test]
    fn other_tables_are_refused() {
        let fresh = Tables::fresh();
        let (store, players) = (fresh.store.to_vec(), fresh.players.to_vec());
        assert_eq!(
            Tables::from_words(vec![], players.clone()),
            Err(Refusal::TableLength)
        );
        assert_eq!(
            Tables::from_words(store.clone(), vec![]),
            Err(Refusal::TableLength)
        );
        // one word more; as many as before the read counters
        for words in [9490, 9473] {
            let mut other = players.clone();
            other.resize(words, 0);
            assert_eq!(
                Tables::from_words(store.clone(), other),
                Err(Refusal::TableLength)
            );
        }
        let mut owners = players.clone();
        owners[1] = 9;
        assert_eq!(
            Tables::from_words(store.clone(), owners),
            Err(Refusal::TableRules)
        );
        let mut counters = players.clone();
        counters[9474] = 1;
        assert_eq!(
            Tables::from_words(store.clone(), counters),
            Err(Refusal::TableRules)
        );
        let mut boundaries = store;
        boundaries[0] = 0;
        assert_eq!(
            Tables::from_words(boundaries, players),
            Err(Refusal::TableRules)
        );
    }

    #[test]
    fn steps_change_the_tables_and_refusals_do_not() {
        let mut tables = Tables::fresh();
        let player = Player::new(7).unwrap();
        assert_eq!(
            tables.step(Step::Assign {
                player,
                range: Range::all()
            }),
            issued(1)
        );
        assert_eq!(tables.last_serial(), 1);
        assert_eq!(tables.players_words()[1..257], [7; 256]);
        let before = tables.clone();
        assert_eq!(
            tables.step(Step::Deliver { serial: 1 }),
            Reply::Refused(Refusal::NoSuchRequest)
        );
        assert_eq!(
            tables.step(Step::Split { entry: 0 }),
            Reply::Refused(Refusal::OutOfRange)
        );
        assert_eq!(
            tables.step_fields(Fields {
                kind: 255,
                ..Fields::default()
            }),
            Reply::Refused(Refusal::UnknownKind)
        );
        assert_eq!(
            tables.step_fields(Fields {
                kind: 13,
                serial: 1,
                ..Fields::default()
            }),
            Reply::Refused(Refusal::WrongFields)
        );
        assert_eq!(
            tables.step_fields(Fields {
                kind: 13,
                player: 8,
                ..Fields::default()
            }),
            Reply::Refused(Refusal::OutOfRange)
        );
        assert_eq!(tables, before);
    }

    #[test]
    fn requests_are_offered_as_records() {
        let mut tables = Tables::fresh();
        let [one, two] = [1, 2].map(|n| Player::new(n).unwrap());
        assert_eq!(tables.step(read(one, 9)), issued(1));
        assert_eq!(tables.step(read(one, 10)), issued(2));
        assert_eq!(tables.step(Step::Abandon { serial: 1 }), Reply::Done);
        let requests = tables.requests();
        assert_eq!(requests.len(), 64);
        assert_eq!(
            requests[0],
            Request {
                serial: 1,
                player: 1,
                kind: 4,
                low: 9,
                abandoned: true,
                ..Request::default()
            }
        );
        assert_eq!(
            requests[1],
            Request {
                serial: 2,
                player: 1,
                kind: 4,
                low: 10,
                ..Request::default()
            }
        );
        assert_eq!(requests[2..], [Request::default(); 62]);
        assert_eq!(tables.pending(one), 1);
        assert_eq!(tables.pending(two), 0);
    }

    /// A session of three steps: player 7 gets entry 9, reads it, and the read arrives.
    fn session() -> Session {
        let player = Player::new(7).unwrap();
        let mut session = Session::new();
        for step in [
            Step::Assign {
                player,
                range: Range::of_entry(9),
            },
            read(player, 9),
            Step::Deliver { serial: 2 },
        ] {
            session.push(step).unwrap();
        }
        session
    }

    #[test]
    fn a_run_takes_the_steps_of_a_session() {
        let mut stepped = Tables::fresh();
        let player = Player::new(7).unwrap();
        assert_eq!(
            stepped.step(Step::Assign {
                player,
                range: Range::of_entry(9)
            }),
            issued(1)
        );
        assert_eq!(stepped.step(read(player, 9)), issued(2));
        assert_eq!(stepped.step(Step::Deliver { serial: 2 }), Reply::Done);
        let mut tables = Tables::fresh();
        let (report, replies) = tables.run_all(session().bytes());
        assert_eq!(report, stopped(Why::End, 3, 20));
        assert_eq!(replies, [issued(1), issued(2), Reply::Done]);
        assert_eq!(tables, stepped);
    }

    #[test]
    fn a_run_stops_with_its_budget_and_its_places() {
        let mut tables = Tables::fresh();
        let mut replies = [[5; 3]; 3];
        assert_eq!(
            tables.run(session().bytes(), 1, &mut replies),
            stopped(Why::Spent, 1, 10)
        );
        assert_eq!(replies, [[1, 1, 0], [5; 3], [5; 3]]);
        let mut tables = Tables::fresh();
        assert_eq!(
            tables.run(session().bytes(), 9, &mut replies[..2]),
            stopped(Why::Spent, 2, 14)
        );
        assert_eq!(replies, [[1, 1, 0], [1, 2, 0], [5; 3]]);
        let mut tables = Tables::fresh();
        assert_eq!(
            tables.run(session().bytes(), 9, &mut []),
            stopped(Why::Spent, 0, 4)
        );
        assert_eq!(tables, Tables::fresh());
    }

    #[test]
    fn a_refused_run_alters_nothing() {
        let mut tables = Tables::fresh();
        let mut replies = [[5; 3]; 3];
        let refused = |refusal| stopped(Why::Refused(refusal), 0, 0);
        assert_eq!(tables.run(&[], 9, &mut replies), refused(Refusal::NoMark));
        assert_eq!(
            tables.run(&session().bytes()[1..], 9, &mut replies),
            refused(Refusal::NoMark)
        );
        let mut long = session().bytes().to_vec();
        long.resize(16_385, 0);
        assert_eq!(
            tables.run(&long, 9, &mut replies),
            refused(Refusal::SessionTooLong)
        );
        assert_eq!((tables, replies), (Tables::fresh(), [[5; 3]; 3]));
    }

    #[test]
    fn a_run_is_previewed_and_the_tables_stay() {
        let tables = Tables::fresh();
        let mut replies = [[5; 3]; 4];
        assert_eq!(
            tables.preview_run(session().bytes(), u32::MAX, &mut replies),
            stopped(Why::End, 3, 20)
        );
        assert_eq!(replies, [[1, 1, 0], [1, 2, 0], [0, 0, 0], [5; 3]]);
        assert_eq!(
            tables.preview_run(session().bytes(), 1, &mut replies[1..]),
            stopped(Why::Spent, 1, 10)
        );
        assert_eq!(replies, [[1, 1, 0], [1, 1, 0], [0, 0, 0], [5; 3]]);
        assert_eq!(
            tables.preview_run(&[], 9, &mut replies),
            stopped(Why::Refused(Refusal::NoMark), 0, 0)
        );
        assert_eq!(replies[3], [5; 3]);
        assert_eq!(tables, Tables::fresh());
    }

    #[test]
    fn a_refused_record_stops_the_run() {
        let mut bytes = session().bytes().to_vec();
        bytes.push(0x40);
        let mut tables = Tables::fresh();
        let (report, replies) = tables.run_all(&bytes);
        assert_eq!(report, stopped(Why::Refused(Refusal::UnknownField), 3, 20));
        assert_eq!(replies.len(), 3);
        assert_eq!(tables.last_serial(), 2);
    }

    /// What a player does on tables whose last serial is `last`: from fresh ones it gets every reply.
    fn script(player: Player, last: u32) -> [Step; 29] {
        let (entry, range) = (40, Range::new(40, 44).unwrap());
        let ask = Step::RequestGuard { player, range };
        let read = Step::Read { player, entry };
        let value = last;
        let write = Step::Write {
            player,
            entry,
            value,
        };
        let deliver = |after| Step::Deliver {
            serial: last + after,
        };
        let respond = |after| Step::Respond {
            serial: last + after,
        };
        [
            Step::RestartPlayer { player },
            Step::Assign { player, range },
            ask,
            deliver(2),
            respond(2),
            Step::FindInterval { entry },
            read,
            deliver(3),
            respond(3),
            read,
            write,
            deliver(4),
            respond(4),
            Step::RestartTablet { entry },
            write,
            deliver(5),
            respond(5),
            Step::Split { entry: 41 },
            ask,
            deliver(6),
            respond(6),
            Step::Merge { entry: 41 },
            ask,
            deliver(7),
            Step::Release { range },
            respond(7),
            Step::Load { entry, value },
            deliver(9),
            respond(9),
        ]
    }

    #[test]
    fn the_script_gets_every_reply() {
        let mut tables = Tables::fresh();
        let steps = script(Player::new(0).unwrap(), 0);
        let codes = steps.map(|step| tables.step(step).numbers()[0]);
        let expected = [
            0, 1, 1, 0, 6, 9, 1, 0, 3, 2, 1, 0, 4, 0, 1, 0, 5, 0, 1, 0, 8, 0, 1, 0, 1, 7, 1, 0, 5,
        ];
        assert_eq!(codes, expected);
    }

    /// Six numbers that may fit the state: few players and entries, the serials of requests in flight.
    fn drawn(seed: &mut u64, requests: &[Request]) -> Fields {
        let mut below = |limit: u8| {
            *seed = seed.wrapping_mul(6_364_136_223_846_793_005).wrapping_add(1);
            u8::try_from((*seed >> 33) % u64::from(limit)).unwrap()
        };
        let none = Fields {
            kind: below(17),
            ..Fields::default()
        };
        let entry = 40 + below(4);
        let high = u16::from(entry + below(4));
        let player = below(9);
        let value = below(2).into();
        let serial = requests[usize::from(below(64))].serial;
        match none.kind {
            1 | 3 => Fields {
                player,
                entry,
                high,
                ..none
            },
            2 => Fields {
                entry,
                high,
                ..none
            },
            4 => Fields {
                player,
                entry,
                ..none
            },
            5 => Fields {
                player,
                entry,
                value,
                ..none
            },
            6..=9 => Fields { serial, ..none },
            15 => Fields {
                entry,
                value,
                ..none
            },
            10..=12 | 14 => Fields { entry, ..none },
            // with a field that it lacks, now and then
            13 => Fields {
                player,
                value,
                ..none
            },
            _ => none,
        }
    }

    #[test]
    fn both_forms_take_the_same_steps() {
        let (mut store, mut players) = ([0; STORE_WORDS], [0; PLAYERS_WORDS]);
        let mut lent = TablesMut::fresh(&mut store, &mut players);
        let mut owned = Tables::fresh();
        let mut session = Session::new();
        let (mut seed, mut codes) = (7, [false; 64]);
        let mut replies = vec![];
        // answered reads of each player, and those from memory, by the replies
        let mut reads = [[0; 2]; 8];
        let mut take = |owned: &mut Tables, fields: Fields| {
            let before = owned.clone();
            let previewed = owned.preview_fields(fields);
            assert_eq!(lent.preview_fields(fields), previewed, "{fields}");
            assert_eq!(*owned, before);
            let reply = owned.step_fields(fields);
            assert_eq!(reply, previewed, "{fields}");
            assert_eq!(lent.step_fields(fields), reply, "{fields}");
            let (reader, counts) = match reply {
                Reply::CacheRead { .. } => (fields.player, [1, 1]),
                Reply::StoreRead { .. } => {
                    let mut sent = before.requests().into_iter();
                    let read = sent.find(|request| request.serial == fields.serial);
                    (read.unwrap().player, [1, 0])
                }
                _ => (0, [0, 0]),
            };
            for (read, count) in reads[usize::from(reader)].iter_mut().zip(counts) {
                *read += count;
            }
            assert_eq!(lent.store_words(), owned.store_words());
            assert_eq!(lent.players_words(), owned.players_words());
            assert_eq!(lent.requests()[..], owned.requests());
            assert_eq!(lent.last_serial(), owned.last_serial());
            for player in Player::all() {
                assert_eq!(lent.pending(player), owned.pending(player));
                assert_eq!(lent.share(player), owned.share(player));
                for counts in [lent.counts(player), owned.counts(player)] {
                    let counted = [counts.answered, counts.from_memory];
                    assert_eq!(counted, reads[usize::from(player.number())], "{fields}");
                }
            }
            assert_eq!(owned.lend(), lent);
            codes[reply.numbers()[0] as usize] = true;
            if session.push(fields).is_ok() {
                replies.push(reply.numbers());
            }
        };
        for _ in 0..3 {
            for player in Player::all() {
                for step in script(player, owned.last_serial()) {
                    take(&mut owned, step.into());
                }
                for _ in 0..50 {
                    let fields = drawn(&mut seed, &owned.requests());
                    take(&mut owned, fields);
                }
            }
        }
        // one request more than a player may have
        let read = Fields {
            kind: 4,
            entry: 200,
            ..Fields::default()
        };
        for _ in 0..OWN_PLACES + COMMON_PLACES + 1 {
            take(&mut owned, read);
        }
        for code in [26, 27, 28, 29, 30, 31, 32, 35, 38] {
            assert!(codes[code], "{code} was not seen");
        }
        // of every player the store answered some, and from memory came some of somebody's
        assert!(reads.iter().all(|[answered, hits]| hits < answered));
        assert!(reads.iter().any(|[_, hits]| *hits > 0));

        // by a run too
        let (mut store, mut players) = ([0; STORE_WORDS], [0; PLAYERS_WORDS]);
        let mut again = TablesMut::fresh(&mut store, &mut players);
        let mut numbers = [[0; 3]; MOST_RECORDS];
        let previewed = again.preview_run(session.bytes(), u32::MAX, &mut numbers);
        assert_eq!(previewed.records as usize, PREVIEW_RECORDS);
        assert_eq!(numbers[..PREVIEW_RECORDS], replies[..PREVIEW_RECORDS]);
        assert_eq!(numbers[PREVIEW_RECORDS], [0; 3]);
        let report = again.run(session.bytes(), u32::MAX, &mut numbers);
        assert_eq!(report.why, Why::End);
        assert_eq!(numbers[..report.records as usize], replies);
        assert_eq!(again, lent);
        let mut tables = Tables::fresh();
        let (same, told) = tables.run_all(session.bytes());
        assert_eq!(same, report);
        assert!(told.into_iter().map(Reply::numbers).eq(replies));
        assert_eq!(tables, owned);
    }
}
