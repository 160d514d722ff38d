use famdrize::{Player, Range, Reply, Step, Tables};

fn main() {
    let player = Player::new(0).expect("0 to 7");
    let range = Range::new(40, 60).expect("not empty");
    let mut tables = Tables::fresh();
    let reply = tables.step(Step::Assign { player, range });
    assert_eq!(reply, Reply::Issued { serial: 1 });
    println!("{:?}", reply.numbers());
}
