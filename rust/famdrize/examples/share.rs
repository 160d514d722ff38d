//! How often a player spares the store: of three reads the first is answered by the store and the others
//! come from memory. Prints each read and, after each answer, the share; share.txt is what it prints.

use famdrize::{Player, Range, Refusal, Step, Tables};

/// Prints how many of a player's reads came from memory.
fn print_share(tables: &Tables, player: Player) {
    let counts = tables.counts(player);
    let (from_memory, answered) = (counts.from_memory, counts.answered);
    match tables.share(player) {
        Ok(share) => println!("{player}: {from_memory} of {answered} from memory, {share}"),
        Err(refusal) => println!("{player}: {refusal}"),
    }
}

fn main() -> Result<(), Refusal> {
    let [player, other] = [Player::try_from(0)?, Player::try_from(1)?];
    let range = Range::try_from(40..60)?;
    let read = Step::Read { player, entry: 45 };

    // only what is read under a live guard is remembered
    let mut tables = Tables::fresh();
    for step in [
        Step::Assign { player, range },
        Step::RequestGuard { player, range },
        Step::Deliver { serial: 2 },
        Step::Respond { serial: 2 },
    ] {
        tables.step(step).into_result()?;
    }
    print_share(&tables, player);

    // a read counts when it is answered
    let from_store = [
        read,
        Step::Deliver { serial: 3 },
        Step::Respond { serial: 3 },
    ];
    for steps in [&from_store[..], &[read], &[read]] {
        for step in steps {
            let reply = tables.step(*step).into_result()?;
            println!("{step} -> {reply}");
        }
        print_share(&tables, player);
    }

    // the numbers behind it: 2,000 by 3
    let share = tables.share(player)?;
    let (thousandths, remainder) = (share.thousandths, share.remainder);
    println!("{thousandths} thousandths, remainder {remainder}");
    print_share(&tables, other);
    Ok(())
}
