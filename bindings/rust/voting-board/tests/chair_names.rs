//! Names of chairs, by the table that all packages and the page read.
use std::collections::BTreeMap;
use std::path::Path;
use std::{env, fs};
use voting_board::*;

type Names = BTreeMap<u8, String>;

fn names_in(text: &str) -> Names {
    let pairs = text.split(';').filter_map(|it| it.split_once('='));
    pairs.map(|(chair, name)| (chair.parse().unwrap(), name.to_string())).collect()
}

fn names_of(board: &Indices) -> Names {
    board.chairs.iter().filter_map(|it| Some((it.chair, it.name.clone()?))).collect()
}

fn started(steps: &[&str]) -> Register {
    let rows = steps.iter().filter_map(|it| it.strip_prefix("table,")).map(|row| {
        let cells: Vec<&str> = row.split(',').collect();
        let (chair, name) = (cells[2].parse().ok(), Some(cells[3].to_string()).filter(|it| !it.is_empty()));
        MemberRow { chair, chair_name: name, ..MemberRow::new(cells[0], cells[1].parse().unwrap()) }
    });
    Register::new(rows).unwrap()
}

/// Carries out a step that changes the register.
fn changed(register: &mut Register, kind: &str, given: &str) -> Result<(), Refused> {
    let (chair, name) = given.split_once(',').unwrap_or((given, ""));
    let chair = || chair.parse().unwrap();
    match kind {
        "submit" => register.submit(given.replace(';', "\n")).map(drop),
        "open" => register.open_named(chair(), name).map(drop),
        "rename" => register.rename(chair(), Some(name).filter(|it| !it.is_empty())),
        _ => register.undo_to(given.parse().unwrap()).map(drop),
    }
}

fn state(it: &Register) -> (String, Names, [Names; 2]) {
    let counted = [it.indices(Majority::Half), it.read(Majority::Half)];
    (it.script(), it.chair_names(), counted.map(|it| names_of(&it.unwrap())))
}

fn refused(register: &mut Register, step: &str) {
    let fields: Vec<&str> = step.splitn(3, ',').collect();
    let before = state(register);
    let why = changed(register, fields[1], fields[2]).unwrap_err();
    assert_eq!((why.number().to_string(), state(register)), (fields[0].to_string(), before), "{step}");
}

fn check(it: &Register, given: &str) {
    let wanted = names_in(given);
    let all = it.indices_of_all().unwrap();
    let found = [it.chair_names(), names_of(&it.indices(Majority::Quorum).unwrap()), names_of(&all[Majority::Half])];
    assert!(found.iter().all(|it| *it == wanted), "{given}: {found:?}");
    assert!((1..=32).all(|chair| it.chair_name(chair) == wanted.get(&chair).map(String::as_str)));
}

fn follow(steps: &[&str]) {
    let mut register = started(steps);
    let mut first = None;
    for step in steps {
        let (kind, given) = step.split_once(',').unwrap_or((step, ""));
        match kind {
            "table" => {}
            "refused" => refused(&mut register, given),
            "copy" => {
                let copy = register.try_clone().unwrap();
                let before = state(&register);
                first = Some((std::mem::replace(&mut register, copy), before));
            }
            "keep" => register = register.try_clone().unwrap(),
            "save" => {
                let names = register.chair_names();
                register = Register::from_script(register.script()).unwrap().with_names(names).unwrap();
            }
            "names" => check(&register, given),
            "read" => assert_eq!(names_of(&register.read(Majority::Half).unwrap()), names_in(given), "{step}"),
            _ => changed(&mut register, kind, given).unwrap(),
        }
    }
    assert!(first.map_or(true, |(register, before)| state(&register) == before));
}

// Catches: a name that outlives its chair, is lost with `undo` or a copy, or comes from a refused call.
#[test]
fn names_belong_to_the_command_that_opened_their_chair() {
    let folder =
        env::var("BOARD_ANSWERS").expect("BOARD_ANSWERS names the folder that tests/packages/answers.py writes");
    let table = fs::read_to_string(Path::new(&folder).join("chair_names.txt")).unwrap();
    let cases: Vec<&str> = table.split("\n\n").skip(1).collect();
    assert!(cases.len() > 10);
    for case in cases {
        println!("{case}");
        follow(&case.lines().skip(1).collect::<Vec<_>>());
    }
}

// Catches: openings that are found wrongly where some of the journal was looked at before.
#[test]
fn chairs_that_are_opened_and_closed_in_turn() {
    let mut register = Register::new([("AAA", 5)]).unwrap();
    let mut expected = Names::new();
    for number in 3..200_u32 {
        let chair = 2 + (number * 7 % 30) as u8;
        if register.chairs().contains_key(&chair) {
            register.close(chair).unwrap();
            expected.remove(&chair);
        } else if number % 3 == 0 {
            register.open(chair).unwrap();
        } else {
            register.open_named(chair, format!("name {number}")).unwrap();
            expected.insert(chair, format!("name {number}"));
        }
        if number % 5 == 0 {
            assert_eq!(register.chair_names(), expected);
        }
    }
}

// Catches: a name of a closed chair that is taken.
#[test]
fn a_closed_chair_has_no_name() {
    let register = Register::from_script("member,votes\nscript\nopen,1\n").unwrap();
    let why = register.with_names([(1, "North"), (2, "South")]).map(drop).unwrap_err();
    assert_eq!(why.to_string(), "no name for chair 2: ChairNotOpen (2), the chair is not open");
}
