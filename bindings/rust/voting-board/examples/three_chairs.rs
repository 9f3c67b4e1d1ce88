//! Three chairs with 50, 49 and 1 votes: at one majority, at all, by a register and by a replay; and two refusals.
use std::error::Error;
use voting_board::{indices, indices_of_all, replay, Majority, Register};

fn main() -> Result<(), Box<dyn Error>> {
    let board = indices(&[50, 49, 1], Majority::Half)?;
    println!("{} votes win, {} of {} coalitions", board.quota, board.omega, board.coalitions);
    for it in &board.chairs {
        let share = it.share.map_or("none".to_string(), |share| share.to_string());
        println!("chair {}: weight {}, swings {}, share {share}", it.chair, it.weight, it.swings);
    }

    for it in indices_of_all(&[50, 49, 1])? {
        println!("{}: {} votes, {} coalitions win", it.majority, it.quota, it.omega);
    }

    let mut register = Register::new([("AAA", 50), ("BBB", 49), ("CCC", 1)])?;
    register.submit("open,1\nopen,2\nopen,3\nmove,AAA,1\nmove,BBB,2\nmove,CCC,3\npublish\n")?;
    let mut other = register.try_clone()?;
    other.move_to("CCC", Some(2))?;
    for it in [&register, &other] {
        let shares: Vec<_> = it.indices(Majority::Half)?.chairs.iter().filter_map(|it| it.share).collect();
        println!("{} commands: shares {shares:?}", it.accepted());
    }

    let run = replay(register.script() + "open,1\nread,1,half\n")?;
    let fault = run.fault().cloned();
    println!("{} outcomes, fault {fault:?}", run.count());

    for why in [register.open(1).err(), "HALF".parse::<Majority>().err()].iter().flatten() {
        println!("{} {}: {why}", why.name(), why.number());
    }
    Ok(())
}
