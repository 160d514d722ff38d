//! A player writes under its guard and reads from its memory, until a tablet restart takes the
//! guard from the store. Prints each reply as a listing does; cache.txt is what it prints.

use famdrize::{Player, Range, Refusal, Reply, Session, Step, Tables, Why};

fn main() {
    let [player, other] = [0, 1].map(|number| Player::new(number).expect("a player"));
    let range = Range::new(40, 60).expect("a range");
    let entry = 45;

    let request_guard = |player| Step::RequestGuard { player, range };
    let read = Step::Read { player, entry };
    let write = |value| Step::Write {
        player,
        entry,
        value,
    };
    let deliver = |serial| Step::Deliver { serial };
    let respond = |serial| Step::Respond { serial };
    let issued = |serial| Reply::Issued { serial };
    let (version, value) = (3, 7);

    let steps = [
        (Step::Assign { player, range }, issued(1)),
        (request_guard(player), issued(2)),
        (deliver(2), Reply::Done),
        (respond(2), Reply::Granted { serial: 2 }),
        (write(value), issued(version)),
        (deliver(3), Reply::Done),
        (respond(3), Reply::Committed { serial: 3, value }),
        (read, Reply::CacheRead { version, value }),
        // the store's entries are barred: what the player remembers stays right, and its next
        // write is turned back
        (Step::RestartTablet { entry }, Reply::Done),
        (read, Reply::CacheRead { version, value }),
        (write(8), issued(4)),
        (deliver(4), Reply::Done),
        (respond(4), Reply::Rejected { serial: 4 }),
        // that cleared the player's guard, so it reads from the store
        (read, issued(5)),
        (deliver(5), Reply::Done),
        (respond(5), Reply::StoreRead { version, value }),
        (write(9), Reply::Refused(Refusal::NoLiveGuard)),
        (request_guard(other), Reply::Refused(Refusal::NotOwner)),
    ];

    // step by step, and written as a session
    let mut tables = Tables::fresh();
    let mut session = Session::new();
    for (number, (step, expected)) in (1..).zip(steps) {
        let reply = tables.step(step);
        assert_eq!(reply, expected, "step {number}, {step:?}");
        session.push(step).expect("a short session");
        let [code, a, b] = reply.numbers();
        println!("{number} {code} {a} {b}");
    }
    assert_eq!(tables.pending(player), 0);

    // the session's run on fresh tables gives the same replies and tables
    let mut again = Tables::fresh();
    let (report, replies) = again.run_all(session.bytes());
    assert_eq!(report.why, Why::End);
    assert_eq!(replies, steps.map(|(_, expected)| expected));
    assert_eq!(again, tables);
    let (records, place) = (report.records, report.place);
    println!("end {} {records} {place}", report.why.number());
}
