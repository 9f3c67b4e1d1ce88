//! The answers of the program, in the folder that BOARD_ANSWERS names, and those of this crate.
use std::path::Path;
use std::{env, fs};
use voting_board::*;

fn text_of(name: &str) -> String {
    let folder =
        env::var("BOARD_ANSWERS").expect("BOARD_ANSWERS names the folder that tests/packages/answers.py writes");
    fs::read_to_string(Path::new(&folder).join(name)).unwrap()
}

fn bytes_of(digits: &str) -> Vec<u8> {
    (0..digits.len()).step_by(2).map(|at| u8::from_str_radix(&digits[at..at + 2], 16).unwrap()).collect()
}

/// A fraction as the program prints it, not reduced, from its numerator and its denominator; it must be `wanted`.
fn printed(numerator: u64, denominator: u64, wanted: Option<Fraction>) -> String {
    assert_eq!(Fraction::new(numerator, denominator), wanted);
    wanted.map_or("-".into(), |_| format!("{numerator}/{denominator}"))
}

fn chair_line(it: &Chair, board: &Indices) -> String {
    let swings = board.chairs.iter().map(|it| it.swings).sum();
    let fractions = [
        printed(it.swings, board.coalitions / 2, Some(it.banzhaf)),
        printed(it.swings, swings, it.share),
        printed(it.swings, board.omega, it.prevent),
        printed(it.swings, board.coalitions - board.omega, Some(it.initiate)),
    ];
    format!("chair,{},{},{},{}\n", it.chair, it.weight, it.swings, fractions.join(","))
}

/// The line of the counts from the majority on, and the lines of the chairs.
fn lines_of(it: &Indices) -> String {
    assert_eq!(Fraction::new(it.omega, it.coalitions), Some(it.act));
    let Indices { majority, quota, cast, total, omega, coalitions, .. } = it;
    let rows: String = it.chairs.iter().map(|chair| chair_line(chair, it)).collect();
    format!("{majority},{},{quota},{cast},{total},{omega},{coalitions}\n{rows}", it.chairs.len())
}

fn reading_lines(it: &Reading) -> String {
    format!("reading,{},{},{}", it.reader, it.front, lines_of(&it.indices))
}

fn outcome_lines(outcome: &Outcome) -> String {
    match outcome {
        Outcome::Accepted { number, .. } => format!("accepted,{number}\n"),
        Outcome::Published { number, .. } => format!("published,{number}\n"),
        Outcome::Refused(why) => format!("refused,{},{}\n", why.number(), why.name()),
        Outcome::Reading(it) => reading_lines(it),
        _ => unreachable!("there are no other outcomes"),
    }
}

fn fault_line(fault: Option<&Refused>) -> String {
    fault.map_or(String::new(), |it| format!("fault,{},{}\n", it.record().unwrap_or(0), it.name()))
}

/// Each board of the file with its total and its weights.
fn boards(text: &str) -> Vec<(u64, Vec<u64>)> {
    let lines = text.lines().filter_map(|it| it.strip_prefix("board,"));
    let numbers = lines.map(|it| it.split(',').map(|it| it.parse().unwrap()).collect::<Vec<u64>>());
    numbers.map(|it| (it[0], it[1..].to_vec())).collect()
}

/// The board by its members: each chair has two of them and a suspended one, and one sits in no chair.
fn by_members(total: u64, weights: &[u64]) -> Vec<MemberRow> {
    let mut rows = vec![MemberRow::new("", total - weights.iter().sum::<u64>())];
    for (chair, weight) in (1..).zip(weights) {
        for (votes, suspended) in [(weight / 3, false), (u64::MAX, true), (weight - weight / 3, false)] {
            rows.push(MemberRow { votes, chair: Some(chair), suspended, ..MemberRow::default() });
        }
    }
    rows
}

#[test]
fn boards_are_counted_as_by_the_program() {
    let wanted = text_of("boards.txt");
    let boards = boards(&wanted);
    assert!(!boards.is_empty());
    let given: Vec<Board> = boards.iter().map(|(total, weights)| Board::new(&weights[..]).total(*total)).collect();
    let many = indices_of_many(&given, &Majority::ALL).unwrap();
    let mut got = String::new();
    for (((total, weights), board), many) in boards.iter().zip(&given).zip(&many) {
        let all = board.indices_of_all().unwrap();
        assert!(all.iter().eq(many));
        assert_eq!(*all, Majority::ALL.map(|it| board.indices(it).unwrap()));
        let members = by_members(*total, weights);
        assert_eq!(*all, Majority::ALL.map(|it| indices_of_members(&members, &[], it).unwrap()));
        if weights.iter().sum::<u64>() == *total {
            assert_eq!(all, indices_of_all(weights).unwrap());
            assert_eq!(all[Majority::Half], indices(weights, Majority::Half).unwrap());
        }
        let numbers: Vec<String> = [*total].iter().chain(weights).map(u64::to_string).collect();
        got += &format!("board,{}\n", numbers.join(","));
        got.extend(all.iter().map(lines_of));
    }
    assert!(got == wanted, "the counts differ");
}

#[test]
fn scripts_are_replayed_as_by_the_program() {
    let scripts = text_of("scripts.txt");
    let (mut faults, mut refused) = (0, 0);
    for script in scripts.lines() {
        let fields: Vec<&str> = script.split(',').collect();
        let limits = Limits::new().readers(fields[0].parse().unwrap()).journal(fields[1].parse().unwrap());
        let (input, wanted) = (bytes_of(fields[3]), bytes_of(fields[4]));
        let (text, fault) = limits.replay_text(&input).unwrap();
        assert_eq!(text.as_bytes(), wanted);
        let run = limits.replay(&input).unwrap();
        assert_eq!((fault.as_ref(), fault.is_some()), (run.fault(), fields[2] == "1"));
        let outcomes: Vec<Outcome> = run.map(Result::unwrap).collect();
        let lines: String = outcomes.iter().map(outcome_lines).collect();
        assert_eq!(lines + &fault_line(fault.as_ref()), text);
        assert!(outcomes.windows(2).all(|it| it[0].record() < it[1].record()));
        faults += usize::from(fault.is_some());
        refused += outcomes.iter().filter(|it| matches!(it, Outcome::Refused(_))).count();
        check_rest(limits, &input, &outcomes, fault);
    }
    let many = scripts.lines().count();
    assert!(4 * faults > many && 4 * refused > many, "{many} {faults} {refused}");
}

/// The shortcuts of a replay have the same outcomes, and its register has its commands.
fn check_rest(limits: Limits, input: &[u8], outcomes: &[Outcome], fault: Option<Refused>) {
    let run = || limits.replay(input).unwrap();
    let readings = run().readings().map(|it| Outcome::Reading(it.unwrap()));
    let refused = run().refused().map(|it| Outcome::Refused(it.unwrap()));
    let is = |want: bool, it: &&Outcome| matches!(it, Outcome::Reading(_)) == want;
    assert!(readings.eq(outcomes.iter().filter(|it| is(true, it)).cloned()));
    assert!(refused.eq(outcomes.iter().filter(|it| matches!(it, Outcome::Refused(_))).cloned()));
    match run().register() {
        Ok(register) => {
            let accepted = outcomes.iter().filter(|it| matches!(it, Outcome::Accepted { .. })).count();
            assert_eq!(register.accepted() as usize, accepted);
            let again = Register::from_script_with_limits(limits, register.script()).unwrap();
            assert_same(&again, &register);
        }
        Err(why) => assert_eq!((Some(why), outcomes.len()), (fault, 0)),
    }
}

fn assert_same(one: &Register, other: &Register) {
    assert_eq!(one.members(), other.members());
    assert_eq!(one.opening(), other.opening());
    assert_eq!(one.chairs(), other.chairs());
    assert_eq!((one.accepted(), one.published()), (other.accepted(), other.published()));
    assert!(one.journal().eq(other.journal()));
}

/// The opening of the register's script, and its records.
fn register_script() -> (Vec<(String, u64)>, Vec<String>) {
    let text = text_of("register.csv");
    let (opening, script) = text.split_once("\nscript\n").unwrap();
    let pair = |it: &str| it.split_once(',').map(|(code, votes)| (code.to_string(), votes.parse().unwrap())).unwrap();
    (opening.lines().skip(1).map(pair).collect(), script.lines().map(String::from).collect())
}

/// A way to carry out the record of a command.
type Way = fn(&mut Register, &str) -> Result<u32, Refused>;

/// A command by the method of its kind.
fn by_method(register: &mut Register, record: &str) -> Result<u32, Refused> {
    let fields: Vec<&str> = record.split(',').collect();
    match fields[..] {
        ["open", chair] => register.open(chair.parse().unwrap()),
        ["close", chair] => register.close(chair.parse().unwrap()),
        ["move", code, chair] => register.move_to(code, chair.parse().ok()),
        ["votes", code, votes] => register.set_votes(code, votes.parse().unwrap()),
        ["suspend", code] => register.suspend(code),
        ["restore", code] => register.restore(code),
        ["admit", code, votes] => register.admit(code, votes.parse().unwrap()),
        ["withdraw", code] => register.withdraw(code),
        _ => register.submit(record),
    }
}

/// The lines of a record.
fn lines_by(register: &mut Register, record: &str, way: Way) -> String {
    if record == "publish" {
        return format!("published,{}\n", register.publish().unwrap());
    }
    if let Some(majority) = record.strip_prefix("read,1,") {
        let majority = majority.parse().unwrap();
        let seen = register.read(majority).unwrap();
        assert_eq!(seen, register.indices(majority).unwrap());
        assert_eq!(seen, register.indices_of_all().unwrap()[majority]);
        return format!("reading,1,{},{}", register.published(), lines_of(&seen));
    }
    let before = format!("{register:?}");
    match way(register, record) {
        Ok(number) => format!("accepted,{number}\n"),
        Err(why) => {
            assert_eq!((why.command(), before), (Some(record), format!("{register:?}")));
            format!("refused,{},{}\n", why.number(), why.name())
        }
    }
}

#[test]
fn a_register_carries_out_commands_as_the_program() {
    let wanted = text_of("register.txt");
    let (members, records) = register_script();
    let by_command = |register: &mut Register, record: &str| {
        let command: Command = record.parse().unwrap();
        assert_eq!(command.to_string(), record);
        let checked = register.check(&command);
        let result = register.apply(&command);
        assert_eq!(checked.err(), result.as_ref().err().cloned());
        result
    };
    let by_text = |register: &mut Register, record: &str| register.submit(record);
    let mut ends = Vec::new();
    for way in [by_method as Way, by_command, by_text] {
        let mut register = Register::new(members.clone()).unwrap();
        let mut got = String::new();
        for record in &records {
            got += &lines_by(&mut register, record, way);
        }
        assert!(got == wanted, "the lines differ");
        let again = Register::from_script(register.script()).unwrap();
        assert_same(&again, &register);
        ends.push(register);
    }
    let run = replay(text_of("register.csv")).unwrap().register().unwrap();
    ends.iter().for_each(|it| assert_same(it, &run));
}

#[test]
fn a_register_takes_its_accepted_commands_as_one_text_and_one_list() {
    let (members, _) = register_script();
    let whole = replay(text_of("register.csv")).unwrap().register().unwrap();
    let commands: Vec<Command> = whole.journal().collect();
    let text: String = commands.iter().map(|it| format!("{it}\n")).collect();
    for way in [0, 1] {
        let mut register = Register::new(members.clone()).unwrap();
        let accepted = if way == 0 { register.submit(&text) } else { register.apply_all(&commands) };
        assert_eq!(accepted, Ok(whole.accepted()));
        assert_eq!((register.members(), register.published()), (whole.members(), 0));
        let kept = commands.len() / 2;
        register.undo_to(kept as u32).unwrap();
        assert!(register.journal().eq(commands[..kept].iter().copied()));
    }
}
