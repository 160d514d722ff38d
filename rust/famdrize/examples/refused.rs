//! Runs a session and prints every refused step: its ordinal, what it was and why it was refused;
//! last, why the run stopped. The session is the file named as an argument, or else the one below;
//! refused.txt is what that one prints.

use std::error::Error;
use std::{env, fs};

use famdrize::{decode, Fields, Player, Range, Refusal, Reply, Session, Step, Tables};

/// A player writes under its guard and reads from its memory; half of the steps are out of place.
fn built_in() -> Result<Session, Refusal> {
    let [player, other] = [Player::try_from(0)?, Player::try_from(1)?];
    let (entry, value) = (45, 7);
    let range = Range::try_from(40..=59)?;
    let part = Range::of_entry(entry);
    let ask = |player, range| Step::RequestGuard { player, range };
    let write = Step::Write {
        player,
        entry,
        value,
    };
    let deliver = |serial| Step::Deliver { serial };
    let respond = |serial| Step::Respond { serial };
    let split = Step::Split { entry: 128 };

    let mut session = Session::new();
    for step in [
        Step::Assign { player, range }, // serial 1
        ask(other, range),              // 29: it owns nothing
        write,                          // 30: it has no guard yet
        ask(player, range),             // serial 2
        ask(player, part),              // 31: request 2 is pending
        respond(2),                     // 32: it has not arrived
        deliver(2),
        deliver(2), // 32: it has arrived
        respond(2), // guard 2 is granted
        write,      // serial 3
        deliver(3),
        respond(3),                   // committed, and remembered
        Step::Read { player, entry }, // from memory, so no serial 4
        deliver(4),                   // 32
        split,
        split,                    // 35: there is a boundary
        Step::Merge { entry: 0 }, // 28
    ] {
        session.push(step)?;
    }
    // a record may hold what is no step: a read by player 9, 28
    session.push(Fields {
        kind: 4,
        player: 9,
        entry,
        ..Fields::default()
    })?;
    Ok(session)
}

fn main() -> Result<(), Box<dyn Error>> {
    let session = match env::args_os().nth(1) {
        Some(file) => fs::read(file)?,
        None => built_in()?.bytes().to_vec(),
    };
    let (report, replies) = Tables::fresh().run_all(&session);

    // the records that were taken, one after the other behind the mark
    let mut place = 4;
    let (mut refused, mut from_memory) = (0, 0);
    for (ordinal, reply) in (1..).zip(&replies) {
        let record = decode(&session[place..])?;
        place += record.length;
        match reply {
            Reply::Refused(refusal) => {
                refused += 1;
                match Step::try_from(record.fields) {
                    Ok(step) => println!("{ordinal} {step}: {refusal}"),
                    Err(_) => println!("{ordinal} {}: {refusal}", record.fields),
                }
            }
            Reply::CacheRead { .. } => from_memory += 1,
            _ => {}
        }
    }
    println!("steps refused: {refused}; reads from memory: {from_memory}");
    println!("{report}");
    Ok(())
}
