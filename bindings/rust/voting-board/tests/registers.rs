//! Registers: copies, names, long scripts and threads.
use std::collections::hash_map::DefaultHasher;
use std::hash::{Hash, Hasher};
use std::thread;
use voting_board::*;

fn three() -> Register {
    let seat = |(chair, (code, votes))| MemberRow { chair: Some(chair), ..MemberRow::new(code, votes) };
    Register::new((1..).zip([("AAA", 50), ("BBB", 49), ("CCC", 1)]).map(seat)).unwrap()
}

fn omega(register: &Register) -> u64 {
    register.indices(Majority::Half).unwrap().omega
}

#[test]
fn three_chairs() {
    let board = three().indices(Majority::Half).unwrap();
    let numbers = (board.quota, board.least_size, board.cast, board.total, board.omega, board.coalitions);
    assert_eq!(numbers, (51, 0, 100, 100, 3, 8));
    assert_eq!(board, indices(&[50, 49, 1], Majority::Half).unwrap());
    let Chair { banzhaf, share, prevent, initiate, .. } = board.chair(1).unwrap().clone();
    let fractions = [Some(banzhaf), share, prevent, Some(initiate), Some(board.act)].map(|it| it.unwrap().to_string());
    assert_eq!(fractions, ["3/4", "3/5", "1", "3/5", "3/8"]);
    let nobody = indices(&[0, 0], Majority::Half).unwrap().chairs[1].clone();
    assert_eq!((nobody.share, nobody.prevent, nobody.banzhaf.numerator()), (None, None, 0));
}

#[test]
fn a_table_opens_moves_and_suspends() {
    let row = |code: &str, chair, suspended| MemberRow { chair, suspended, ..MemberRow::new(code, 5) };
    let rows =
        [row("CCC", Some(9), true), row("BBB", None, true), row("AAA", Some(2), false), row("DDD", Some(9), false)];
    let register = Register::new(&rows).unwrap();
    let records: Vec<String> = register.journal().map(|it| it.to_string()).collect();
    let wanted = ["open,2", "open,9", "move,CCC,9", "move,AAA,2", "move,DDD,9", "suspend,CCC", "suspend,BBB"];
    assert_eq!(records, wanted);
    assert_eq!(register.chairs()[&9], ["CCC", "DDD"]);
    assert_eq!(register.read(Majority::Half).unwrap().chairs, []);
    let seen = register.member("CCC").unwrap();
    assert_eq!((seen.votes, seen.chair, seen.suspended), (5, Some(9), true));
}

#[test]
fn members_are_rows_of_a_table() {
    let mut register = three();
    register.suspend("BBB").unwrap();
    let again = Register::new(register.members()).unwrap();
    assert_eq!((again.members(), again.script()), (register.members(), register.script()));
    let rows: Vec<MemberRow> = register.members().into_iter().map(MemberRow::from).collect();
    let counted = indices_of_members(&rows, &[], Majority::Seventy).unwrap();
    assert_eq!(counted, register.indices(Majority::Seventy).unwrap());
}

#[test]
fn names_of_chairs_are_kept() {
    let row = MemberRow { chair: Some(3), chair_name: Some("North".into()), ..MemberRow::new("AAA", 5) };
    let mut register = Register::new([row]).unwrap();
    register.open(4).unwrap();
    register.publish().unwrap();
    let copy = register.try_clone().unwrap();
    for it in [&register, &copy] {
        assert_eq!((it.chair_name(3), it.chair_name(4)), (Some("North"), None));
        let seen = [it.indices(Majority::Half), it.read(Majority::Half)].map(|it| it.unwrap().chairs[0].name.clone());
        assert_eq!(seen, [Some("North".to_string()), Some("North".to_string())]);
        assert!(it.indices_of_all().unwrap().iter().all(|it| it.chairs[0].name.is_some()));
    }
}

#[test]
fn a_copy_shares_nothing() {
    let mut register = three();
    let mut copy = register.try_clone().unwrap();
    copy.move_to("CCC", Some(2)).unwrap();
    register.set_votes("AAA", 0).unwrap();
    assert_eq!((omega(&copy), omega(&register), omega(&three())), (4 - 2, 2 + 2, 3));
    drop(register);
    assert_eq!(copy.members()[2].chair, Some(2));
}

#[test]
fn undo_keeps_what_was_published() {
    let mut register = three();
    register.publish().unwrap();
    register.open(4).unwrap();
    assert_eq!(register.undo().unwrap(), register.accepted());
    assert_eq!((register.accepted(), register.published(), register.chairs().len()), (6, 6, 3));
    register.undo_to(2).unwrap();
    assert_eq!((register.accepted(), register.published(), register.chairs().len()), (2, 2, 2));
    // Catches: readers that see commands that were taken back, or none of those that stay.
    assert_eq!(register.read(Majority::Half), register.indices(Majority::Half));
    register.undo_to(0).unwrap();
    assert_eq!((register.members(), register.chairs().len()), (register.opening(), 0));
    assert_eq!(register.undo().unwrap_err().to_string(), "there is no command to take back");
}

#[test]
fn what_is_printed() {
    let mut register = Register::new([("BBB", 5), ("AAA", 7)]).unwrap();
    register.submit("open,2\nmove,AAA,2\npublish\nopen,1\n").unwrap();
    assert_eq!(format!("{register:?}"), "Register { members: 2, chairs: 2, accepted: 3, published: 2 }");
    assert_eq!(register.to_string(), "2 members and 2 open chairs: 3 commands accepted, 2 published");
    assert_eq!(format!("{:?}", Fraction::new(2, 4)), "Some(1/2)");
    let board = Board::named([("North", 50), ("", 49)]).indices(Majority::Quorum).unwrap();
    let printed = board.to_string();
    let lines: Vec<_> = printed.lines().map(|it| it.split_whitespace().collect::<Vec<_>>().join(" ")).collect();
    assert_eq!(lines[0], "Majority quorum: 50 of 99 votes of 2 chairs or more win, 1 of 4 coalitions do");
    let rest = "1 swings banzhaf 0.500000 share 0.500000 prevent 1.000000 initiate 0.333333";
    assert_eq!(lines[1..], [format!("1 North 50 votes {rest}"), format!("2 49 votes {rest}")]);
}

#[test]
fn fractions_are_numbers() {
    let of = |numerator, denominator| Fraction::new(numerator, denominator).unwrap();
    let hash = |it: Fraction| {
        let mut hasher = DefaultHasher::new();
        it.hash(&mut hasher);
        hasher.finish()
    };
    assert_eq!((of(1, 2), hash(of(1, 2))), (of(2, 4), hash(of(2, 4))));
    let mut sorted = [of(2, 3), of(u64::MAX, 1), of(0, 9), of(1, 2), of(u64::MAX - 1, u64::MAX)];
    sorted.sort();
    assert_eq!(format!("{sorted:?}"), "[0, 1/2, 2/3, 18446744073709551614/18446744073709551615, 18446744073709551615]");
    assert_eq!((f64::from(of(3, 4)), format!("{:>6}", of(3, 4))), (0.75, "   3/4".to_string()));
    // Pairs of small numbers, against the products.
    for (one, other) in (0..40u64).flat_map(|one| (1..40u64).map(move |other| (one, other))) {
        let it = of(one, other);
        assert_eq!(it.numerator() * other, one * it.denominator());
        assert!((2..=other).all(|by| it.numerator() % by > 0 || it.denominator() % by > 0));
        assert_eq!(it.cmp(&of(other, 7)), (one * 7).cmp(&(other * other)));
    }
}

/// A script of a million commands, and of more than 4 MiB.
#[test]
fn a_million_commands() {
    let most = COMMANDS as usize;
    let records: String = (0..most).map(|it| format!("votes,AAA,{}\n", 1_000_000 + it)).collect();
    assert!(records.len() > 4 * INPUT_BYTES);
    let mut register = Register::new([("AAA", 50)]).unwrap();
    assert_eq!(register.submit(&records), Ok(COMMANDS));
    assert_eq!(register.submit("open,1").unwrap_err().refusal(), Refusal::JournalFull);
    assert!((1_000_000..)
        .zip(register.journal())
        .all(|(votes, it)| it == Command::Votes { code: Code::new("AAA").unwrap(), votes }));
    register.publish().unwrap();
    let script = register.script();
    let again = Register::from_script(&script).unwrap();
    assert_eq!((again.accepted(), again.published(), again.members()), (COMMANDS, COMMANDS, register.members()));
    assert!(again.script() == script);
    let why = Register::from_script(script.replace("votes,AAA,1999999\n", "votes,AAB,1\n")).unwrap_err();
    assert_eq!((why.refusal(), why.record()), (Refusal::UnknownMember, Some(1_000_003)));
    let bad = records.replace("1700000", "x");
    let why = Register::new([("AAA", 50)]).unwrap().submit(bad).unwrap_err();
    assert_eq!((why.refusal(), why.record()), (Refusal::BadRecord, Some(700_001)));
}

/// However a text is cut into pieces, it has the same records: blank lines shift the cuts by a byte each. In the gate
/// they do so by three, which cuts each record, and not beside each of its ends.
#[test]
fn pieces_cut_no_record() {
    let records = "open,1\r\n\"close\",\"1\"\n\nvotes,AAA,12\nvotes,AAA,345\n\rpublish\n";
    let fill = "\n".repeat(INPUT_BYTES - 120);
    let step = if std::env::var("DEEP").unwrap_or_default().is_empty() { 3 } else { 1 };
    let mut whole = Register::new([("AAA", 50)]).unwrap();
    whole.submit(records.repeat(3)).unwrap();
    for shift in (0..110).step_by(step) {
        let text = format!("{}{}{}", "\n".repeat(shift), fill, records.repeat(3));
        let mut register = Register::new([("AAA", 50)]).unwrap();
        register.submit(&text).unwrap();
        assert!(register.journal().eq(whole.journal()), "{shift}");
        assert_eq!(register.published(), 12);
        let late = format!("{text}open,0\n");
        let why = register.submit(late).unwrap_err();
        assert_eq!((why.record(), why.refusal()), (Some(16), Refusal::BadRecord), "{shift}");
    }
    for shift in (0..30).step_by(step) {
        let fill = "\n".repeat(INPUT_BYTES - 30 - shift);
        let script = format!("member,votes\nAAA,50\nscript\n{fill}{records}open,1\n");
        assert_eq!(Register::from_script(&script).unwrap().accepted(), 5, "{shift}");
        let why = Register::from_script(format!("{script}open,1\n")).unwrap_err();
        assert_eq!((why.record(), why.refusal()), (Some(10), Refusal::ChairOpen), "{shift}");
    }
}

#[test]
fn a_record_longer_than_an_input() {
    let long = format!("votes,AAA,{}1\nopen,1\n", "0".repeat(INPUT_BYTES));
    let why = Register::new([("AAA", 50)]).unwrap().submit(long).unwrap_err();
    assert_eq!((why.refusal(), why.record()), (Refusal::BadRecord, Some(1)));
}

/// Random batches of records: each is carried out whole, or changes nothing.
#[test]
fn batches_are_all_or_nothing() {
    let mut lot = 20_261_128_u64;
    let mut next = |below: u64| {
        lot = lot.wrapping_mul(6_364_136_223_846_793_005).wrapping_add(1_442_695_040_888_963_407);
        (lot >> 33) % below
    };
    let mut register = three();
    let (mut carried, mut refused) = (0, 0);
    for _ in 0..3000 {
        let batch: Vec<String> = (0..next(5)).map(|_| record(&mut next)).collect();
        let before = (register.script(), format!("{register:?}"));
        let mut single = register.try_clone().unwrap();
        let single: Result<Vec<u32>, Refused> = batch.iter().map(|it| single.submit(it)).collect();
        match register.submit(batch.join("\n")) {
            Ok(accepted) => {
                carried += 1;
                assert!(single.is_ok() && accepted == register.accepted());
            }
            Err(why) => {
                refused += 1;
                assert_eq!((register.script(), format!("{register:?}")), before);
                assert_eq!(why.command(), single.unwrap_err().command());
                assert_eq!(why.command(), Some(batch[why.record().unwrap() as usize - 1].as_str()));
            }
        }
    }
    assert!(carried > 500 && refused > 500, "{carried} {refused}");
}

fn record(next: &mut dyn FnMut(u64) -> u64) -> String {
    let (code, chair) = (["AAA", "BBB", "CCC", "DDD"][next(4) as usize], next(3) + 1);
    match next(9) {
        0 => format!("open,{chair}"),
        1 => format!("close,{chair}"),
        2 | 3 => format!("move,{code},{chair}"),
        4 => format!("move,{code},none"),
        5 => "publish".to_string(),
        6 => format!("suspend,{code}"),
        7 => format!("restore,{code}"),
        _ => format!("votes,{code},{}", next(100)),
    }
}

#[test]
fn threads() {
    fn sent<T: Send>(it: T) -> T {
        it
    }
    assert_eq!(sent(replay("").unwrap()).count(), 0);
    let wanted = three().indices(Majority::Half).unwrap();
    let spawned: Vec<_> = (0..8u64)
        .map(|it| {
            let mut register = three();
            thread::spawn(move || {
                for votes in 0..200 {
                    register.set_votes("AAA", votes + it).unwrap();
                    register.indices(Majority::Quorum).unwrap();
                }
                register.set_votes("AAA", 50).unwrap();
                (register, indices(&[it; 20], Majority::Half).unwrap())
            })
        })
        .collect();
    for (it, thread) in (0..).zip(spawned) {
        let (register, other) = thread.join().unwrap();
        assert_eq!((register.indices(Majority::Half).unwrap(), other.cast), (wanted.clone(), 20 * it));
    }
}

/// A count while a thread ends, when its room is gone.
#[test]
fn a_count_at_the_end_of_a_thread() {
    struct Late;
    impl Drop for Late {
        fn drop(&mut self) {
            assert_eq!(indices(&[1], Majority::Half).unwrap().omega, 1);
        }
    }
    thread_local!(static LATE: Late = const { Late });
    thread::spawn(|| {
        LATE.with(|_| ());
        indices(&[1], Majority::Half).unwrap();
    })
    .join()
    .unwrap();
}

#[test]
fn a_small_stack_is_enough() {
    let small = thread::Builder::new().stack_size(512 * 1024);
    let count = || {
        let register = Register::from_script(three().script()).unwrap();
        (
            register.indices_of_all().unwrap()[Majority::Quorum].omega,
            replay_text(register.script()).unwrap().0.lines().count(),
        )
    };
    assert_eq!(small.spawn(count).unwrap().join().unwrap(), (4, 6));
}
