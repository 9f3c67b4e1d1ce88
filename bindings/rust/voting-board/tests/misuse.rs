//! Values that are refused, each with its message.
use voting_board::*;

const MOST: u64 = 1 << 48;

/// The number, the name and the message of a refusal.
#[track_caller]
fn assert_refused<T: std::fmt::Debug>(result: Result<T, Refused>, refusal: Refusal, message: &str) {
    let why = result.unwrap_err();
    assert_eq!((why.refusal(), why.to_string().as_str()), (refusal, message));
    assert_eq!((why.number(), why.name()), (refusal.number(), refusal.name()));
}

fn half(board: &Board) -> Result<Indices, Refused> {
    let one = board.indices(Majority::Half);
    assert_eq!(one.as_ref().err(), board.indices_of_all().as_ref().err());
    one
}

fn seated(code: &str, votes: u64, chair: u8) -> MemberRow {
    MemberRow { chair: Some(chair), ..MemberRow::new(code, votes) }
}

#[test]
fn weights_and_totals() {
    let bad = |weights: &[u64], total: Option<u64>, message: &str| {
        let board = Board::new(weights);
        let board = total.map_or(board.clone(), |it| board.total(it));
        assert_refused(half(&board), Refusal::BadSheet, message);
    };
    bad(&[1; 33], None, "33 weights: a board has at most 32 chairs");
    bad(&[1; 300], Some(0), "300 weights: a board has at most 32 chairs");
    bad(&[50, 49, 1], Some(99), "the total is 99: at least the sum of the weights, 100");
    bad(&[1], Some(MOST + 1), "the total is 281474976710657: at most 281474976710656");
    bad(&[MOST, 1], None, "the total is 281474976710657: at most 281474976710656");
    bad(&[u64::MAX, u64::MAX], None, "the total is 36893488147419103230: at most 281474976710656");
    bad(&[u64::MAX], Some(1), "the total is 1: at least the sum of the weights, 18446744073709551615");
    let names = (0..40).map(|it| (it.to_string(), 1));
    assert_refused(half(&Board::named(names)), Refusal::BadSheet, "40 weights: a board has at most 32 chairs");
    assert_eq!(half(&Board::new([MOST])).unwrap().total, MOST);
    assert_eq!(half(&Board::new([])).unwrap().chairs, []);
}

#[test]
fn many_boards() {
    let boards = vec![Board::new([1]), Board::new([1; 32]), Board::new([2]).total(1), Board::new([1; 33])];
    let why = indices_of_many(&boards, &[Majority::Half]).unwrap_err();
    assert_eq!(why.row(), Some(3));
    assert_eq!(why.to_string(), "board 3: the total is 1: at least the sum of the weights, 2");
    assert_eq!(indices_of_many(&[], &Majority::ALL), Ok(vec![]));
    assert_eq!(indices_of_many(&boards[..1], &[]), Ok(vec![vec![]]));
}

#[test]
fn many_boards_are_refused_with_the_first_one_whatever_thread_sees_it() {
    let boards: Vec<Board> = (0..200).map(|at| Board::new(vec![1; if at < 90 { 18 } else { 33 }])).collect();
    for _ in 0..20 {
        assert_eq!(indices_of_many(&boards, &Majority::ALL).unwrap_err().row(), Some(91));
    }
}

#[test]
fn majorities() {
    for name in ["HALF", " half", "70%", "", "0", "50"] {
        let message = format!("no majority '{name}': half, 70, 85 or quorum");
        assert_refused(name.parse::<Majority>(), Refusal::BadRecord, &message);
    }
    for it in Majority::ALL {
        assert_eq!(it.name().parse(), Ok(it));
        assert!(!it.meaning().is_empty());
    }
}

#[test]
fn tables_of_a_board() {
    let bad = |rows: &[MemberRow], open: &[u8], message: &str| {
        assert_refused(indices_of_members(rows, open, Majority::Half), Refusal::BadSheet, message);
    };
    let seat = "a chair is a whole number from 1 to 32, or None for no chair";
    for chair in [0, 33, 255] {
        let rows = [MemberRow::new("AAA", 1), seated("BBB", 1, chair)];
        bad(&rows, &[], &format!("row 2: the chair is {chair}: {seat}"));
        bad(&[], &[1, chair], &format!("open chair 2 is {chair}: a chair is a whole number from 1 to 32"));
    }
    let two = [seated("", u64::MAX, 1), MemberRow::new("", u64::MAX)];
    bad(&two, &[], "the total is 36893488147419103230: at most 281474976710656");
    let named = |chair, name: &str| MemberRow { chair_name: Some(name.into()), ..seated("", 1, chair) };
    let names = [named(1, "North"), named(2, "South"), named(1, "West")];
    bad(&names, &[], "row 3: the name of chair 1 is 'West': it is 'North' in row 1");
    let board = indices_of_members(&names[..2], &[5], Majority::Half).unwrap();
    let found: Vec<_> = board.chairs.iter().map(|it| (it.chair, it.name.as_deref())).collect();
    assert_eq!(found, [(1, Some("North")), (2, Some("South")), (5, None)]);
    let suspended = MemberRow { suspended: true, ..seated("", u64::MAX, 7) };
    assert_eq!(indices_of_members(&[suspended], &[], Majority::Half).unwrap().total, 0);
    assert_eq!(indices_of_members(&[], &[], Majority::Quorum).unwrap().chairs, []);
}

#[test]
fn tables_of_a_register() {
    let first = || MemberRow::new("AAA", 1);
    let bad = |row: MemberRow, refusal, message: &str| {
        let why = Register::new([first(), row.clone()]).unwrap_err();
        assert_eq!(why.row(), Some(2));
        assert_refused(Register::new(&[first(), row]), refusal, message);
    };
    for code in ["aaa", "", "AAAA", "A1A", "ÄA", "AAA\0"] {
        let message = format!("row 2: the code is '{code}': a code is three ASCII capitals");
        bad(MemberRow::new(code, 1), Refusal::BadMember, &message);
    }
    let votes = "votes are whole numbers from 0 to 1099511627776";
    let message = format!("row 2: the votes are 1099511627777: {votes}");
    bad(MemberRow::new("BBB", (1 << 40) + 1), Refusal::VotesTooLarge, &message);
    for chair in [0, 33, 255] {
        let seat = "a chair is a whole number from 1 to 32, or None for no chair";
        bad(seated("BBB", 1, chair), Refusal::BadChair, &format!("row 2: the chair is {chair}: {seat}"));
    }
    bad(first(), Refusal::DuplicateMember, "row 2: the code 'AAA' is there already, in row 1");
    let name = |code: &str, name: &str| MemberRow { chair_name: Some(name.into()), ..seated(code, 1, 9) };
    let message = "row 2: the name of chair 9 is 'South': it is 'North' in row 1";
    assert_refused(Register::new([name("AAA", "North"), name("BBB", "South")]), Refusal::BadChair, message);
    let letter = |it: u32| char::from_u32('A' as u32 + it).unwrap();
    let many = (0..257).map(|it| (format!("A{}{}", letter(it / 26), letter(it % 26)), 1));
    let message = "TooManyMembers (12), there are more than 256 members";
    assert_refused(Register::new(many.clone()), Refusal::TooManyMembers, message);
    assert_eq!(Register::new(many.take(256)).unwrap().members().len(), 256);
}

#[test]
fn limits() {
    for (number, limits) in [0, 1_000_001, u32::MAX].map(|it| (it, Limits::new().journal(it))) {
        let message = format!("the journal is {number}: a whole number from 1 to 1000000");
        assert_refused(Register::with_limits(limits, [("AAA", 1)]), Refusal::BadLimit, &message);
        assert_refused(limits.replay(""), Refusal::BadLimit, &message);
        assert_refused(limits.replay_text(""), Refusal::BadLimit, &message);
        assert_refused(Register::from_script_with_limits(limits, ""), Refusal::BadLimit, &message);
    }
    for readers in [0, 5, u32::MAX] {
        let message = format!("the number of readers is {readers}: a whole number from 1 to 4");
        assert_refused(Limits::new().readers(readers).replay(""), Refusal::BadLimit, &message);
        assert_refused(Limits::new().readers(readers).replay_text(""), Refusal::BadLimit, &message);
    }
    let mut register = Register::with_limits(Limits::new().journal(1), [("AAA", 1)]).unwrap();
    register.open(1).unwrap();
    let message = "refused 'open,2': JournalFull (9), as many commands as the journal limit were accepted";
    assert_refused(register.open(2), Refusal::JournalFull, message);
    let message = "refused 'open,2': JournalFull (9), as many commands as the journal limit were accepted";
    let table = [seated("AAA", 1, 1), seated("BBB", 1, 2)];
    assert_refused(Register::with_limits(Limits::new().journal(1), &table), Refusal::JournalFull, message);
}

#[test]
fn commands_out_of_range() {
    let mut register = Register::new([("AAA", 1)]).unwrap();
    let chair = "a chair is a whole number from 1 to 32";
    for number in [0, 33, 255] {
        let message = format!("the chair is {number}: {chair}");
        assert_refused(register.open(number), Refusal::BadChair, &message);
        assert_refused(register.close(number), Refusal::BadChair, &message);
        assert_refused(register.check(&Command::Open { chair: number }), Refusal::BadChair, &message);
        let message = format!("{message}, or None for no chair");
        assert_refused(register.move_to("AAA", Some(number)), Refusal::BadChair, &message);
    }
    let votes = "votes are whole numbers from 0 to 1099511627776";
    let message = format!("the votes of AAA are 1099511627777: {votes}");
    assert_refused(register.set_votes("AAA", (1 << 40) + 1), Refusal::VotesTooLarge, &message);
    let message = format!("the votes of BBB are 18446744073709551615: {votes}");
    assert_refused(register.admit("BBB", u64::MAX), Refusal::VotesTooLarge, &message);
    let message = "the code is 'aaa': a code is three ASCII capitals";
    assert_refused(register.suspend("aaa"), Refusal::BadMember, message);
    assert_refused(register.move_to("aaa", None), Refusal::BadMember, message);
    assert_refused(Code::new("aaa"), Refusal::BadMember, message);
    assert_refused("aaa".parse::<Code>(), Refusal::BadMember, message);
    assert_eq!((register.accepted(), register.member("aaa")), (0, None));
}

#[test]
fn texts_that_are_no_commands() {
    let texts = ["", "open", "open,33", "Open,1", "open,1\nopen,2", "publish", "read,1,half", "script", "votes,AAA,-1"];
    for text in texts {
        assert_refused(text.parse::<Command>(), Refusal::BadRecord, &format!("'{text}' is no record of a command"));
    }
    for (text, command) in [("\"open\",\"01\"", "open,1"), ("\n\nmove,AAA,none\r\n", "move,AAA,none")] {
        assert_eq!(text.parse::<Command>().unwrap().to_string(), command);
    }
}

#[test]
fn texts_that_a_register_refuses() {
    let mut register = Register::new([("AAA", 50)]).unwrap();
    register.submit("open,1\n").unwrap();
    let before = format!("{register:?}");
    let mut bad = |text: &str, refusal, record, message: &str| {
        let why = register.submit(text).unwrap_err();
        assert_eq!((why.refusal(), why.record(), why.to_string().as_str()), (refusal, Some(record), message));
        assert_eq!(format!("{register:?}"), before);
    };
    let message = "record 3: refused 'open,2': ChairOpen (1), the chair is open already";
    bad("open,2\n\nmove,AAA,2\nopen,2\nopen,3\n", Refusal::ChairOpen, 3, message);
    bad(
        "publish\nopen,1",
        Refusal::ChairOpen,
        2,
        "record 2: refused 'open,1': ChairOpen (1), the chair is open already",
    );
    bad("publish\nopen,2\npublish\nopen,2", Refusal::ChairOpen, 4, &message.replace("record 3", "record 4"));
    let message = "record 2: BadRecord (17), a record is not well formed, after byte 6";
    bad("open,2\nclose\n", Refusal::BadRecord, 2, message);
    let first = "record 2: refused 'open,1': ChairOpen (1), the chair is open already";
    bad("publish\nopen,1\nclose\n", Refusal::ChairOpen, 2, first);
    bad("open,2\npublish\nclose\n", Refusal::BadRecord, 3, &message.replace("record 2", "record 3").replace("6", "14"));
    bad("open,2\npublish\nread,1,85\n", Refusal::BadRecord, 3, "record 3: 'read,1,85' is no command");
    bad("open,2\nread,1,\"half\"\n", Refusal::BadRecord, 2, "record 2: 'read,1,\"half\"' is no command");
    bad("member,votes\n", Refusal::BadRecord, 1, "record 1: BadRecord (17), a record is not well formed, after byte 0");
    // Catches: a text that is refused in other words than the call of its kind.
    let message = "record 1: BadRecord (17), a record is not well formed, after byte 0: ";
    for (text, field) in [
        ("open,99", "the chair is 99: a chair is a whole number from 1 to 32"),
        ("open,999", "the chair is 999: a chair is a whole number from 1 to 32"),
        ("move,AAA,x", "the chair is x: a chair is a whole number from 1 to 32, or None for no chair"),
        ("suspend,aaa", "the code is 'aaa': a code is three ASCII capitals"),
        ("votes,AAA,-5", "the votes of AAA are -5: votes are whole numbers from 0 to 1099511627776"),
    ] {
        bad(text, Refusal::BadRecord, 1, &format!("{message}{field}"));
    }
    assert_eq!(register.submit(""), Ok(1));
    assert_eq!(register.submit(b"open,2\r\n\"open\",\"3\""), Ok(3));
}

#[test]
fn lists_that_a_register_refuses() {
    let mut register = Register::new([("AAA", 50)]).unwrap();
    let open = |chair| Command::Open { chair };
    let message = "record 3: refused 'open,1': ChairOpen (1), the chair is open already";
    assert_refused(register.apply_all(&[open(1), open(2), open(1)]), Refusal::ChairOpen, message);
    let message = "record 2: the chair is 0: a chair is a whole number from 1 to 32";
    assert_refused(register.apply_all(&[open(1), open(0)]), Refusal::BadChair, message);
    assert_eq!((register.accepted(), register.chairs().len()), (0, 0));
    assert_eq!(register.apply_all(&[]), Ok(0));
    let message = "the length is 1: a whole number from 0 to the number of accepted commands";
    assert_refused(register.undo_to(1), Refusal::BadIndex, message);
}

#[test]
fn scripts_that_make_no_register() {
    let bad = |text: &str, refusal, record| {
        let why = Register::from_script(text).unwrap_err();
        assert_eq!((why.refusal(), why.record()), (refusal, record), "{why}");
    };
    bad("", Refusal::BadHeader, None);
    bad("member,votes\nAAA,1\n", Refusal::NoScript, None);
    bad("member,votes\nAAA,1\nAAA,2\nscript\n", Refusal::DuplicateMember, None);
    bad("member,votes\naaa,1\nscript\n", Refusal::BadRecord, Some(2));
    bad("member,votes\nAAA,1\nscript\nopen,1\nopen,1\n", Refusal::ChairOpen, Some(5));
    bad("member,votes\nAAA,1\nscript\nopen,1\nopen,1\nclose\n", Refusal::ChairOpen, Some(5));
    bad("member,votes\nAAA,1\nscript\nclose\n", Refusal::BadRecord, Some(4));
    bad("member,votes\nAAA,1\nscript\nopen,1\nread,5,half\n", Refusal::BadReader, Some(5));
    let hint = "BadHeader (21), the first record is not 'member,votes'; replay_file replays the file of a path";
    assert_refused(Register::from_script("board.csv"), Refusal::BadHeader, hint);
    assert_eq!(replay("board.csv").unwrap().fault().unwrap().to_string(), hint);
    let why = replay_file("no-such-file.csv").unwrap_err();
    assert_eq!(why.refusal(), Refusal::ReadFault);
    assert!(why.to_string().starts_with("no-such-file.csv can't be read: "), "{why}");
}

#[test]
fn refusals_have_the_numbers_of_the_documents() {
    assert_eq!((Refusal::ChairOpen.number(), Refusal::BadIndex.number(), Refusal::Trapped.number()), (1, 35, 255));
    assert_eq!(Refusal::BadSheet.to_string(), "BadSheet");
    assert_eq!(Refusal::NoScript.reason(), "the input ends before the record 'script'");
    let refused: &(dyn std::error::Error + Send + Sync) = &Code::new("").unwrap_err();
    assert_eq!(refused.to_string(), "the code is '': a code is three ASCII capitals");
}
