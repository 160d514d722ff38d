//! Without heap: tables, session and replies are static arrays, lent to the calls, so it needs no
//! feature of the crate. Prints each step and its reply; borrowed.txt is what it prints.

use std::sync::Mutex;

use famdrize::{Player, Range, Refusal, Reply, SessionMut, Step, TablesMut};
use famdrize::{PLAYERS_WORDS, STORE_WORDS};

static STORE: Mutex<[u32; STORE_WORDS]> = Mutex::new([0; STORE_WORDS]);
static PLAYERS: Mutex<[u32; PLAYERS_WORDS]> = Mutex::new([0; PLAYERS_WORDS]);
static SESSION: Mutex<[u8; 64]> = Mutex::new([0; 64]);
static REPLIES: Mutex<[[u32; 3]; 8]> = Mutex::new([[0; 3]; 8]);

fn main() -> Result<(), Refusal> {
    let mut store = STORE.lock().expect("one thread");
    let mut players = PLAYERS.lock().expect("one thread");
    let mut buffer = SESSION.lock().expect("one thread");
    let mut replies = REPLIES.lock().expect("one thread");

    let (player, entry) = (Player::try_from(0)?, 45);
    let range = Range::try_from(40..60)?;
    let read = Step::Read { player, entry };
    let steps = [
        Step::Assign { player, range },
        Step::RequestGuard { player, range },
        Step::Deliver { serial: 2 },
        Step::Respond { serial: 2 },
        read,
        Step::Deliver { serial: 3 },
        Step::Respond { serial: 3 },
        read,
    ];
    let mut session = SessionMut::new(&mut *buffer)?;
    for step in steps {
        session.push(step)?;
    }

    let mut tables = TablesMut::fresh(&mut store, &mut players);
    let report = tables.run(session.bytes(), u32::MAX, &mut *replies);
    for (step, numbers) in steps.iter().zip(*replies) {
        let reply = Reply::from_numbers(numbers).expect("a step's reply");
        println!("{step} -> {reply}");
    }
    println!("{report}");

    // the words stay when `tables` goes, and are tested when they are taken up again
    let mut tables = TablesMut::check(&mut store, &mut players)?;
    let value = 7;
    let write = Step::Write {
        player,
        entry,
        value,
    };
    let reply = tables.step(write).into_result()?;
    println!("{write} -> {reply}");
    let (last, pending) = (tables.last_serial(), tables.pending(player));
    println!("last serial {last}, pending requests of {player}: {pending}");
    Ok(())
}
