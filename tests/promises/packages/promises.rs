//! What the crate promises: it prints printed.txt, as the programs of the other packages do. Its word is the script
//! replayed.csv.
use std::error::Error;
use voting_board::{
    indices_of_many, indices_of_members, replay_file, replay_text, Board, Command, Fraction, Indices, Majority,
    MemberRow, Register,
};

const WEIGHTS: [(&str, u64); 3] = [("North", 50), ("South", 49), ("East", 1)];
type Done = Result<(), Box<dyn Error>>;

fn row(code: &str, votes: u64, chair: Option<u8>, name: Option<&str>, suspended: bool) -> MemberRow {
    MemberRow { chair, chair_name: name.map(Into::into), suspended, ..MemberRow::new(code, votes) }
}

fn members() -> Vec<MemberRow> {
    vec![
        row("AAA", 50, Some(1), Some("North"), false),
        row("BBB", 40, Some(2), Some("South"), false),
        row("CCC", 9, Some(2), Some("South"), true),
        row("DDD", 7, None, None, false),
    ]
}

fn shown(index: Option<Fraction>) -> String {
    index.map_or("-".into(), |it| it.to_string())
}

/// A board by a majority.
fn show(board: &Indices) {
    println!("{}: {} and {} of {}, {} cast", board.majority, board.quota, board.least_size, board.total, board.cast);
    println!("  {} of {} win", board.omega, board.coalitions);
    for it in &board.chairs {
        let name = it.name.as_deref().unwrap_or("-");
        let [share, prevent] = [it.share, it.prevent].map(shown);
        print!("  {} {name} {} {} {} {share} ", it.chair, it.weight, it.swings, it.banzhaf);
        println!("{prevent} {}", it.initiate);
    }
}

fn swings(board: &Indices) -> String {
    board.chairs.iter().map(|it| it.swings.to_string()).collect::<Vec<_>>().join(" ")
}

fn counts() -> Done {
    for board in &Board::named(WEIGHTS).indices_of_all()? {
        show(board);
    }
    show(&Board::named(WEIGHTS).total(1000).indices(Majority::EightyFive)?);
    show(&indices_of_members(&members(), &[], Majority::Half)?);
    let many = indices_of_many(&[[50, 49, 1], [1, 1, 1]].map(Board::new), &[Majority::Half])?;
    println!("many: {} {}", swings(&many[0][0]), swings(&many[1][0]));
    Ok(())
}

fn register() -> Done {
    let mut board = Register::new(members())?;
    println!("start: {} accepted, {} published", board.accepted(), board.published());
    println!("open: {}", board.open_named(3, "East")?);
    println!("submit: {}", board.submit("move,DDD,3\nvotes,AAA,60\nadmit,EEE,1\n")?);
    println!("publish: {}", board.publish()?);
    println!("withdraw: {}", board.withdraw("EEE")?);
    for command in ["open,1", "close,2", "move,CCC,1", "admit,DDD,1"] {
        let why = board.check(&command.parse::<Command>()?).unwrap_err();
        println!("check {command}: {} {}", why.number(), why.name());
    }
    let why = board.submit("suspend,AAA\nsuspend,AAA").unwrap_err();
    println!("submit: {} {}, and {} accepted", why.number(), why.name(), board.accepted());
    let mut other = board.try_clone()?;
    println!("what if: {}", other.move_to("DDD", Some(1))?);
    show(&other.indices(Majority::Half)?);
    println!("undo: {}", board.undo()?);
    board.rename(2, "West")?;
    let names: Vec<String> = board.chair_names().iter().map(|(chair, name)| format!("{chair} {name}")).collect();
    println!("names: {}", names.join(" "));
    show(&board.read(Majority::Half)?);
    print!("{}", board.script());
    Ok(())
}

fn replays(script: &str) -> Done {
    let (text, fault) = replay_text(std::fs::read(script)?)?;
    print!("{text}");
    let fault = fault.ok_or("no fault")?;
    println!("fault: record {}, {} {}", fault.record().unwrap_or(0), fault.number(), fault.name());
    for it in replay_file(script)?.readings() {
        let it = it?;
        println!("reading: record {}, {} {}", it.record, it.indices.majority, swings(&it.indices));
    }
    for why in replay_file(script)?.refused() {
        let why = why?;
        let (record, command) = (why.record().unwrap_or(0), why.command().unwrap_or(""));
        println!("refused: record {record}, {} {}: {command}", why.number(), why.name());
    }
    Ok(())
}

fn main() -> Done {
    assert_eq!(Majority::ALL.map(Majority::name), ["half", "70", "85", "quorum"]);
    counts()?;
    register()?;
    replays(&std::env::args().nth(1).ok_or("replayed.csv is the word")?)
}
