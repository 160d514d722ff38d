//! Asked beforehand: whether a write would be let in, and what the next records of a session would get.
//! Nothing is altered by that. Prints each step and its reply; preview.txt is what it prints.

use famdrize::{Player, Range, Refusal, Reply, Session, Step, Tables, PREVIEW_RECORDS};

fn main() -> Result<(), Refusal> {
    let (player, entry) = (Player::try_from(0)?, 45);
    let range = Range::try_from(40..60)?;
    let value = 7;
    let write = Step::Write {
        player,
        entry,
        value,
    };
    let read = Step::Read { player, entry };

    let mut tables = Tables::fresh();
    let assign = Step::Assign { player, range };
    let reply = tables.step(assign).into_result()?;
    println!("{assign} -> {reply}");
    println!("beforehand: {write} -> {}", tables.preview(write));

    // it would be refused, so the player asks for a guard first
    for step in [
        Step::RequestGuard { player, range },
        Step::Deliver { serial: 2 },
        Step::Respond { serial: 2 },
    ] {
        let reply = tables.step(step).into_result()?;
        println!("{step} -> {reply}");
    }
    println!("beforehand: {write} -> {}", tables.preview(write));

    // the next records of a session, each on what those before it would leave
    let steps = [
        write,
        Step::Deliver { serial: 3 },
        Step::Respond { serial: 3 },
        read,
    ];
    let mut session = Session::new();
    for step in steps {
        session.push(step)?;
    }
    let mut replies = [[0; 3]; PREVIEW_RECORDS];
    let report = tables.preview_run(session.bytes(), u32::MAX, &mut replies);
    for (step, numbers) in steps.iter().zip(replies) {
        let reply = Reply::from_numbers(numbers).expect("a step's reply");
        println!("beforehand: {step} -> {reply}");
    }
    println!("beforehand: {report}");

    // 24 records: no more than 16 are looked at
    for _ in 0..20 {
        session.push(read)?;
    }
    let report = tables.preview_run(session.bytes(), u32::MAX, &mut replies);
    println!("beforehand: {report}");

    // the write was never sent
    println!("last serial {}", tables.last_serial());
    Ok(())
}
