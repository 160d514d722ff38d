//! What is measured: start tables, and a session or a call on them.

use calls::{Fields, Library, Range, Reply, Step};
use model::codec::{self, MARK, MAX_SESSION};
use model::faults::NoFault;
use model::generate::Profile;
use model::prng::Prng;
use model::reply::Refusal;
use model::rules;
use model::state::State;
use model::states::full_state;
use model::tables::tables_of;
use model::trial::play;
use port::Port;

/// One piece of work on a copy of its start tables.
pub struct Work {
    /// Its name in the table.
    pub name: String,
    /// What is done.
    pub act: Act,
    /// The figure is given for one of so many.
    pub each: u32,
    store: Vec<u32>,
    players: Vec<u32>,
}

/// What is done.
pub enum Act {
    /// A run. With `less_empty` the figure is what it takes beyond a run over no record.
    Run { session: Vec<u8>, less_empty: bool },
    /// The preview of a run.
    PreviewRun(Vec<u8>),
    /// Calls of step, which test the tables each time.
    Steps(Vec<Fields>),
    /// Previews of steps, which do so too.
    Previews(Vec<Fields>),
    /// The test of the tables.
    Check,
    /// The share of this player's reads from memory.
    Share(u8),
}

/// The lent slices of one call, made once.
pub struct Lent {
    store: Vec<u32>,
    players: Vec<u32>,
    list: Vec<u32>,
}

impl Work {
    /// The slices of this work.
    pub fn lent(&self) -> Lent {
        Lent {
            store: self.store.clone(),
            players: self.players.clone(),
            list: vec![0; 3 * 5_460],
        }
    }

    /// Makes the lent tables what they are at the start.
    pub fn restore(&self, lent: &mut Lent) {
        lent.store.copy_from_slice(&self.store);
        lent.players.copy_from_slice(&self.players);
    }

    /// Does the work; with `empty` a run over no record in its place. (Its name is what tools/bench
    /// counts the instructions of.)
    #[inline(never)]
    pub fn run(&self, library: &dyn Library, lent: &mut Lent, empty: bool) -> u32 {
        let Lent {
            store,
            players,
            list,
        } = lent;
        match &self.act {
            Act::Run { session, .. } => {
                let session = if empty { &MARK[..] } else { session };
                library.run(store, players, session, 16_384, list).records
            }
            Act::PreviewRun(session) => {
                let report = library.preview_run(store, players, session, 16_384, list);
                report.records
            }
            Act::Steps(steps) => codes(steps, |step| library.step(store, players, step)),
            Act::Previews(steps) => codes(steps, |step| library.preview(store, players, step)),
            Act::Check => library.check(store, players).code,
            Act::Share(player) => library.share(store, players, *player).a,
        }
    }

    /// The start tables.
    pub fn tables(&self) -> (&[u32], &[u32]) {
        (&self.store, &self.players)
    }

    /// Its steps, by their fields.
    fn steps(&self) -> Vec<Fields> {
        match &self.act {
            Act::Run { session, .. } | Act::PreviewRun(session) => {
                let mut steps = Vec::new();
                let mut rest = &session[MARK.len()..];
                while let Ok((step, length)) = codec::decode(rest) {
                    steps.push(Fields::from(step));
                    rest = &rest[length..];
                }
                steps
            }
            Act::Steps(steps) | Act::Previews(steps) => steps.clone(),
            Act::Check | Act::Share(_) => Vec::new(),
        }
    }

    /// Whether the library knows all its kinds; another one is not measured by it.
    pub fn is_known(&self, library: &dyn Library) -> bool {
        let kinds = library.kinds();
        self.steps().iter().all(|step| step.kind <= kinds)
    }

    /// Another act on the same tables.
    fn with(&self, act: Act, each: u32) -> Work {
        Work {
            name: self.name.clone(),
            each,
            act,
            store: self.store.clone(),
            players: self.players.clone(),
        }
    }

    /// The first steps of a run's session, each by a call: [`Act::Steps`] or [`Act::Previews`].
    pub fn by_calls(&self, act: fn(Vec<Fields>) -> Act) -> Work {
        let mut steps = self.steps();
        steps.truncate(64);
        let each = steps.len() as u32;
        self.with(act(steps), each)
    }

    /// The preview of a run; none where the work is no run.
    pub fn preview(&self) -> Option<Work> {
        match &self.act {
            Act::Run { session, .. } => Some(self.with(Act::PreviewRun(session.clone()), 1)),
            _ => None,
        }
    }

    /// Whether the figure is what the work takes beyond a run over no record.
    pub fn less_empty(&self) -> bool {
        matches!(
            self.act,
            Act::Run {
                less_empty: true,
                ..
            }
        )
    }

    fn new(name: &str, state: &State, act: Act, each: u32) -> Work {
        let (store, players) = tables_of(state);
        Work {
            name: name.to_string(),
            act,
            each,
            store,
            players,
        }
    }

    /// Records of one kind, on the tables after other steps.
    fn kind(name: &str, before: &[Step], steps: &[Step]) -> Work {
        let (_, state) = play(before, &NoFault);
        let act = Act::Run {
            session: codec::session(steps),
            less_empty: true,
        };
        Work::new(name, &state, act, steps.len() as u32)
    }
}

/// Something that takes all the codes into account.
fn codes(steps: &[Fields], mut call: impl FnMut(Fields) -> Reply) -> u32 {
    steps.iter().fold(0, |sum, &step| sum ^ call(step).code)
}

fn assign(player: u8, low: u8, high: u16) -> Step {
    let range = Range::new(low, high);
    Step::Assign { player, range }
}

fn ask(player: u8, low: u8, high: u16) -> Step {
    let range = Range::new(low, high);
    Step::RequestGuard { player, range }
}

fn deliver(serial: u32) -> Step {
    Step::Deliver { serial }
}

fn respond(serial: u32) -> Step {
    Step::Respond { serial }
}

/// The player that sends the request of this number, 0 to 63, where all places are taken: player 0 the first 22,
/// for which it has 6 places of its own and the 16 common ones, and each other player 6 in turn.
fn sender(at: u8) -> u8 {
    match at {
        0..=21 => 0,
        _ => 1 + (at - 22) / 6,
    }
}

/// 64 of something, by these players, for entries 0, 4, 8 and so on.
fn each_fourth(step: impl Fn(u8, u8) -> Step) -> Vec<Step> {
    (0..64).map(|at| step(sender(at), 4 * at)).collect()
}

/// The assignments of all entries to the players by which [`each_fourth`] goes: 88 to player 0, and 24 to each
/// other one. They take the serials 1 to 8.
fn shared_out() -> Vec<Step> {
    let others = (1..8).map(|player| {
        let low = 64 + 24 * player;
        assign(player, low, u16::from(low) + 24)
    });
    [assign(0, 0, 88)].into_iter().chain(others).collect()
}

/// The first serial after [`shared_out`].
const FIRST: u32 = 9;

/// Steps over the serials of 64 requests.
fn serials(first: u32, step: impl Fn(u32) -> Step) -> Vec<Step> {
    (first..first + 64).map(step).collect()
}

fn joined(parts: &[&[Step]]) -> Vec<Step> {
    parts.concat()
}

/// The steps by which the players get 64 guards on entries that they own, by the serials from [`FIRST`] on.
fn granted(asks: &[Step]) -> Vec<Step> {
    let mut steps = shared_out();
    for (serial, &step) in (FIRST..).zip(asks) {
        steps.extend([step, deliver(serial), respond(serial)]);
    }
    steps
}

/// Every kind, most with 64 requests in flight at the start or the end: 22 of player 0 and then 6 of each other
/// player, each on an entry that its player owns ([`sender`]). Loads are at most 16: of those that arrive each
/// stands behind three reads, 6 of each player, so that there are 64 too, and those that are sent find 24 reads, 3
/// of each player, in flight. A player's restart gives up the 6 reads that it has, and after that finds them so.
pub fn kinds() -> Vec<Work> {
    let owned = shared_out();
    let asks = each_fourth(|player, entry| ask(player, entry, u16::from(entry) + 4));
    // 64 guard intervals, each with its own guard.
    let guarded = granted(&asks);
    // As many, each behind an open one.
    let between = granted(&each_fourth(|player, entry| {
        ask(player, entry + 2, u16::from(entry) + 4)
    }));
    let reads = each_fourth(|player, entry| Step::Read { player, entry });
    let writes = each_fourth(|player, entry| Step::Write {
        player,
        entry,
        value: 7,
    });
    // Those of all players but player 0, and as many writes as it may send, of one entry.
    let others = &reads[22..];
    let crossing = [writes[0]; 22];
    let finds = each_fourth(|_, entry| Step::FindInterval { entry });
    let load = |at: u8| Step::Load {
        entry: 16 * at,
        value: 7,
    };
    let loads: Vec<Step> = (0..16).map(load).collect();
    let read_by = |at: u8| Step::Read {
        player: at % 8,
        entry: 4 * at,
    };
    let few: Vec<Step> = (0..24).map(read_by).collect();
    let every_fourth_a_load: Vec<Step> = (0..16)
        .flat_map(|at| {
            [
                read_by(3 * at),
                read_by(3 * at + 1),
                read_by(3 * at + 2),
                load(at),
            ]
        })
        .collect();
    let restarted: Vec<Step> = vec![Step::RestartTablet { entry: 0 }];
    let sent = FIRST + 64;
    let memory = joined(&[&guarded, &reads[..1], &[deliver(sent), respond(sent)]]);
    let splits: Vec<Step> = (1..=255).map(|entry| Step::Split { entry }).collect();
    let merges: Vec<Step> = (1..=255).map(|entry| Step::Merge { entry }).collect();
    let after_asks = joined(&[&owned, &asks]);
    let after_reads = joined(&[&guarded, &reads]);
    let after_writes = joined(&[&guarded, &writes]);
    let delivered = serials(sent, deliver);
    let given_up = serials(sent, |serial| Step::Abandon { serial });
    let answered = serials(sent, respond);
    let loads_delivered: Vec<Step> = delivered.iter().copied().skip(3).step_by(4).collect();
    vec![
        Work::kind("1 assign, 20 entries", &[], &vec![assign(0, 40, 60); 2_000]),
        Work::kind(
            "2 release, 20 entries",
            &[],
            &vec![
                Step::Release {
                    range: Range::new(40, 60)
                };
                2_000
            ],
        ),
        Work::kind("3 ask for a guard", &owned, &asks),
        Work::kind("4 read, to the store", &guarded, &reads),
        Work::kind("4 read, from memory", &memory, &vec![reads[0]; 4_000]),
        Work::kind("5 write", &guarded, &writes),
        Work::kind(
            "5 write, crossing requests of its own",
            &joined(&[&guarded, others]),
            &crossing,
        ),
        Work::kind(
            "6 arrive, guard request",
            &after_asks,
            &serials(FIRST, deliver),
        ),
        Work::kind("6 arrive, read", &after_reads, &delivered),
        Work::kind("6 arrive, write", &after_writes, &delivered),
        Work::kind(
            "6 arrive, load",
            &joined(&[&between, &every_fourth_a_load]),
            &loads_delivered,
        ),
        Work::kind(
            "7 answer, guard granted",
            &joined(&[&after_asks, &serials(FIRST, deliver)]),
            &serials(FIRST, respond),
        ),
        Work::kind(
            "7 answer, read",
            &joined(&[&after_reads, &delivered]),
            &answered,
        ),
        Work::kind(
            "7 answer, committed",
            &joined(&[&after_writes, &delivered]),
            &answered,
        ),
        Work::kind(
            "7 answer, turned back",
            &joined(&[&after_writes, &restarted, &delivered]),
            &answered,
        ),
        Work::kind("8 give up, read", &after_reads, &given_up),
        Work::kind("8 give up, write", &after_writes, &given_up),
        Work::kind(
            "9 lose",
            &joined(&[&after_reads, &given_up]),
            &serials(sent, |serial| Step::Lose { serial }),
        ),
        Work::kind("10 split", &[], &splits),
        Work::kind("11 merge", &splits, &merges),
        Work::kind("12 tablet restart", &guarded, &restarted.repeat(1_000)),
        Work::kind(
            "13 player restart",
            &after_reads,
            &vec![Step::RestartPlayer { player: 1 }; 1_000],
        ),
        Work::kind("14 how far a guard reaches", &guarded, &finds.repeat(16)),
        Work::kind("15 load", &joined(&[&guarded, &few]), &loads),
    ]
}

/// Full sessions: as many records as a session can have, and as many bytes of all kinds that the port
/// knows. In the second every request finds a place, so that it gets the same replies from a library in
/// which all 64 places are anyone's.
pub fn sessions() -> Vec<Work> {
    let mut rng = Prng::new(1);
    let mut longest = Vec::new();
    for _ in 0..5_460 {
        let entry = rng.below(256) as u8;
        longest.push(match rng.below(4) {
            0 => Step::Split { entry },
            1 => Step::Merge { entry },
            2 => Step::RestartTablet { entry },
            _ => Step::RestartPlayer {
                player: rng.below(8) as u8,
            },
        });
    }
    let mut mixed = Vec::new();
    let mut state = State::fresh();
    let mut bytes = MARK.len();
    'full: loop {
        let mut profile = Profile::draw(&mut rng, Port.kinds());
        for _ in 0..200 {
            let step = profile.next_step(&mut rng, &state);
            if rules::step(&mut state, step) == Refusal::NoPlaceLeft.into() {
                continue;
            }
            bytes += codec::record(step).len();
            if bytes > MAX_SESSION {
                break 'full;
            }
            mixed.push(step);
        }
    }
    let run = |steps: &[Step]| Act::Run {
        session: codec::session(steps),
        less_empty: false,
    };
    let name = format!("session of {} records, kinds 1 to 13", mixed.len());
    vec![
        Work::new(
            "session of 5460 records, kinds 10 to 13",
            &State::fresh(),
            run(&longest),
            1,
        ),
        Work::new(&name, &State::fresh(), run(&mixed), 1),
    ]
}

/// Single calls that test the tables; a preview behind what it is the preview of.
pub fn calls() -> Vec<Work> {
    let reads = each_fourth(|player, _| Step::Read { player, entry: 0 });
    let (_, full) = play(&reads, &NoFault);
    let (player, entry) = (0, 0);
    let read = Step::Read { player, entry };
    let memory = [
        assign(0, 0, 1),
        ask(0, 0, 1),
        deliver(2),
        respond(2),
        read,
        deliver(3),
        respond(3),
    ];
    let (_, cached) = play(&memory, &NoFault);
    // Two of three reads came from memory.
    let (_, counted) = play(&joined(&[&memory, &[read, read]]), &NoFault);
    let split = Step::Split { entry: 9 };
    let merge = Step::Merge { entry: 9 };
    // A preview leaves the boundary where it is, so that it has another one to remove.
    let (_, divided) = play(&joined(&[&memory, &[Step::Split { entry: 10 }]]), &NoFault);
    let previewed = [split, Step::Merge { entry: 10 }];
    let value = 7;
    let write = Step::Write {
        player,
        entry,
        value,
    };
    let restart = Step::RestartPlayer { player: 1 };
    let more = [
        read,
        write,
        deliver(4),
        respond(4),
        read,
        split,
        merge,
        restart,
        read,
    ];
    let run = Work::new(
        "run of 16 records",
        &State::fresh(),
        Act::Run {
            session: codec::session(&joined(&[&memory, &more])),
            less_empty: false,
        },
        1,
    );
    let run_preview = Work {
        name: "preview of a run of 16 records".to_string(),
        ..run.preview().expect("a run")
    };
    let ten = |name: &str, state: &State, steps: &[Step], act: fn(Vec<Fields>) -> Act| {
        let steps = steps.iter().cycle().take(10);
        let fields = steps.map(|&step| Fields::from(step)).collect();
        Work::new(name, state, act(fields), 10)
    };
    let (steps, previews) = (Act::Steps, Act::Previews);
    let refused = [respond(3)];
    vec![
        ten("step: 4 read, from memory", &cached, &[read], steps),
        ten("preview: 4 read, from memory", &cached, &[read], previews),
        ten(
            "step: 10 split and 11 merge",
            &cached,
            &[split, merge],
            steps,
        ),
        ten(
            "preview: 10 split and 11 merge",
            &divided,
            &previewed,
            previews,
        ),
        ten("step: 7 answer, refused", &cached, &refused, steps),
        ten("preview: 7 answer, refused", &cached, &refused, previews),
        run,
        run_preview,
        Work::new(
            "share of reads from memory",
            &counted,
            Act::Share(player),
            1,
        ),
        Work::new("check, fresh tables", &State::fresh(), Act::Check, 1),
        Work::new("check, 64 requests", &full, Act::Check, 1),
        Work::new("check, full tables", &full_state(), Act::Check, 1),
    ]
}

#[cfg(test)]
mod tests {
    use super::*;
    use compare::oracle::RIGHT;
    use model::faults::Fault;
    use model::tables::decode;

    /// The state of a work's start tables.
    fn start(work: &Work) -> State {
        decode(&work.store, &work.players).expect("tables that keep the rules")
    }

    /// Every step of every kind is taken, none refused; and most works have 64 requests at the start or the end.
    #[test]
    fn every_step_is_taken() {
        let mut crowded = 0;
        for work in kinds() {
            let mut state = start(&work);
            let before = state.requests.len();
            let steps = work.steps();
            assert_eq!(steps.len(), work.each as usize, "{}", work.name);
            for fields in steps {
                let step = Step::try_from(fields).expect("a kind in force");
                let reply = rules::step(&mut state, step);
                assert!(!reply.is_refusal(), "{}: {step:?}: {reply:?}", work.name);
            }
            crowded += u32::from(before.max(state.requests.len()) == 64);
        }
        assert_eq!(crowded, 16);
    }

    /// No session has a request that finds no place, with or without shares.
    #[test]
    fn sessions_find_their_places() {
        for work in sessions() {
            let steps = work.steps();
            let steps = steps.iter().map(|&fields| Step::try_from(fields));
            let steps: Vec<Step> = steps.collect::<Result<_, _>>().expect("kinds in force");
            let (history, state) = play(&steps, &NoFault);
            let (before, same) = play(&steps, &Fault::NoShares);
            assert!(history.iter().all(|event| event.reply.code != 38));
            assert!(history == before && state == same, "{}", work.name);
        }
    }

    /// The share that is measured is one of reads of which some came from memory.
    #[test]
    fn the_share_is_no_refusal() {
        let mut works = calls().into_iter();
        let work = works.find(|work| matches!(work.act, Act::Share(_)));
        let work = work.expect("a share");
        for library in [&Port as &dyn Library, &RIGHT] {
            assert_eq!(work.run(library, &mut work.lent(), false), 666);
        }
    }

    /// The tables of the tests have as many requests as their names say.
    #[test]
    fn full_tables_are_full() {
        let places = |name: &str| {
            let work = calls().into_iter().find(|work| work.name == name);
            start(&work.expect("a work of this name")).requests.len()
        };
        assert_eq!(places("check, fresh tables"), 0);
        assert_eq!(places("check, 64 requests"), 64);
        assert_eq!(places("check, full tables"), 64);
    }
}
