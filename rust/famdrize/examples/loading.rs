//! Entries are loaded before they are opened to a player: the loader writes them without a guard, as
//! long as none is set there. Prints each step and its reply; loading.txt is what it prints.

use famdrize::{Player, Range, Refusal, Step, Tables};

fn main() -> Result<(), Refusal> {
    let player = Player::try_from(0)?;
    let range = Range::try_from(40..60)?;
    let load = |entry, value| Step::Load { entry, value };
    let deliver = |serial| Step::Deliver { serial };
    let respond = |serial| Step::Respond { serial };
    let read = Step::Read { player, entry: 40 };

    let mut tables = Tables::fresh();
    for step in [
        load(40, 7),
        deliver(1),
        respond(1), // the entry was open
        load(41, 8),
        // the entries are opened to player 0, while request 2 is on its way
        Step::Assign { player, range },
        Step::RequestGuard { player, range },
        deliver(4), // guard 4 is set
        respond(4),
        deliver(2), // too late
        respond(2),
        read,
        deliver(5),
        respond(5), // what was loaded, and remembered by now
        read,
        // barred, no entry is open again
        Step::RestartTablet { entry: 40 },
        load(39, 9),
        deliver(6),
        respond(6),
    ] {
        let reply = tables.step(step).into_result()?;
        println!("{step} -> {reply}");
    }
    Ok(())
}
