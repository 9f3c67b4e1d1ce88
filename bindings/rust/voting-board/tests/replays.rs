//! Replays as data and as text.
use std::{env, fs, process};
use voting_board::*;

const OPENING: &str = "member,votes\nAAA,50\nBBB,49\nscript\n";

fn outcomes(text: &str) -> Vec<Outcome> {
    replay(text).unwrap().collect::<Result<_, _>>().unwrap()
}

/// Also where the byte order mark, blank lines and quotes shift it, and where the mark is quoted in part.
#[test]
fn each_outcome_has_its_record() {
    let opening = OPENING.replace("script", "\"scr\"ipt");
    let outcomes = outcomes(&format!("\u{FEFF}\n{opening}open,1\r\n\n\"op\"en,1\npublish\n\"rea\"d,1,half\n"));
    assert_eq!(outcomes.iter().map(Outcome::record).collect::<Vec<_>>(), [5, 6, 7, 8]);
    assert!(matches!(&outcomes[1], Outcome::Refused(why) if why.command() == Some("open,1")));
    assert!(matches!(&outcomes[2], Outcome::Published { number: 1, .. }));
    assert!(
        matches!(&outcomes[3], Outcome::Reading(it) if (it.reader, it.front, it.indices.chairs.len()) == (1, 1, 1))
    );
}

#[test]
fn a_fault_is_known_at_once() {
    let run = replay(format!("{OPENING}open,1\nread,2,half\nopen,2\n")).unwrap();
    assert_eq!(run.fault().unwrap().to_string(), "record 6: BadReader (22), there is no reader of this number");
    assert_eq!(run.size_hint(), (0, Some(1)));
    assert_eq!(run.count(), 1);
    for (text, refusal) in [
        ("", Refusal::BadHeader),
        ("member,votes\nAAA,1\nAAA,2\nscript\nopen,1\n", Refusal::DuplicateMember),
        ("member,votes\n", Refusal::NoScript),
    ] {
        let run = replay(text).unwrap();
        assert_eq!(run.fault().unwrap().refusal(), refusal);
        assert_eq!(format!("{run:?}").matches("left: 0").count(), 1);
        assert_eq!(run.count(), 0);
        assert_eq!(replay(text).unwrap().register().unwrap_err().refusal(), refusal);
        let (lines, fault) = replay_text(text).unwrap();
        assert_eq!((lines, fault.unwrap().refusal()), (format!("fault,0,{refusal}\n"), refusal));
    }
    let long = "\n".repeat(INPUT_BYTES + 1);
    assert_eq!(replay(&long).unwrap().fault().unwrap().refusal(), Refusal::TooLong);
    assert_eq!(replay_text(&long).unwrap().0, "fault,0,TooLong\n");
}

#[test]
fn an_unfinished_run_leaves_its_register() {
    let text = format!("{OPENING}open,1\nopen,1\nmove,AAA,1\npublish\nread,1,half\nopen,2\n");
    let mut run = replay(&text).unwrap();
    assert!(matches!(run.next(), Some(Ok(Outcome::Accepted { record: 5, number: 1 }))));
    let register = run.register().unwrap();
    assert_eq!((register.accepted(), register.published()), (3, 2));
    assert_eq!(register.member("AAA").unwrap().chair, Some(1));
}

#[test]
fn a_reading_sees_what_is_published() {
    let (first, second) = ("open,1\nmove,AAA,1\n", "open,2\nmove,BBB,2\n");
    let read = "read,1,half\n";
    let text = format!("{OPENING}{first}{read}publish\n{read}{second}{read}publish\n{read}");
    let readings: Vec<Reading> = replay(text).unwrap().readings().map(Result::unwrap).collect();
    let seen: Vec<_> = readings.iter().map(|it| (it.front, it.indices.chairs.len(), it.indices.cast)).collect();
    assert_eq!(seen, [(0, 0, 0), (2, 1, 50), (2, 1, 50), (4, 2, 99)]);
}

/// 4 MiB of readings of 32 chairs. They are counted once, and each is dropped before the next is made.
#[test]
fn readings_take_no_memory() {
    let chairs: String = (1..=32).map(|it| format!("open,{it}\n")).collect();
    let mut text = format!("{OPENING}{chairs}publish\n");
    let many = (INPUT_BYTES - text.len()) / "read,1,70\n".len();
    text += &"read,1,70\n".repeat(many);
    let before = peak();
    let run = replay(&text).unwrap();
    assert!(run.fault().is_none());
    assert_eq!(run.readings().filter(|it| it.as_ref().unwrap().indices.chairs.len() == 32).count(), many);
    assert!(peak() - before < 100_000, "{} KiB", peak() - before);
}

/// The most memory that this process has had so far, in KiB.
fn peak() -> u64 {
    let status = fs::read_to_string("/proc/self/status").unwrap_or_default();
    let line = status.lines().find_map(|it| it.strip_prefix("VmHWM:"));
    line.and_then(|it| it.trim().trim_end_matches(" kB").parse().ok()).unwrap_or(0)
}

#[test]
fn a_text_longer_than_its_input() {
    let chairs: String = (1..=32).map(|it| format!("open,{it}\n")).collect();
    let text = format!("{OPENING}{chairs}publish\n{}", "\"re\"ad,1,half\n".repeat(3000));
    let (lines, fault) = replay_text(&text).unwrap();
    assert_eq!((lines.lines().count(), fault), (33 + 33 * 3000, None));
    assert_eq!(replay(&text).unwrap().readings().count(), 3000);
}

#[test]
fn a_file_is_replayed() {
    let path = env::temp_dir().join(format!("voting-board-{}.csv", process::id()));
    fs::write(&path, format!("{OPENING}open,1\n")).unwrap();
    let count = replay_file(&path).map(Iterator::count);
    fs::remove_file(&path).unwrap();
    assert_eq!(count, Ok(1));
    assert_eq!(replay_file(&path).unwrap_err().refusal(), Refusal::ReadFault);
}

#[test]
fn readers_and_the_journal_are_limited() {
    let text = format!("{OPENING}open,1\nopen,2\nread,3,half\n");
    let limits = Limits::new().readers(3).journal(1);
    let run = limits.replay(&text).unwrap();
    assert!(run.fault().is_none());
    let refused: Vec<Refused> = run.refused().map(Result::unwrap).collect();
    assert_eq!(refused[0].refusal(), Refusal::JournalFull);
    assert!(limits.replay_text(&text).unwrap().0.starts_with("accepted,1\nrefused,9,JournalFull\nreading,3,0,half"));
}
