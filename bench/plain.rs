//! The same work as the library and the program, in plain Rust with no proof, to measure against.
//!
//!     plain indices              times the indices of five boards
//!     plain records COUNT EVERY  prints the input of a long replay, COUNT records in all, one in EVERY a reading
//!     plain replay READERS LIMIT the replay of the input, each line written as it is made
mod counting;

use counting::Board;
use std::collections::HashMap;
use std::fmt::Write as _;
use std::io::{self, Read, Write};
use std::time::Instant;

// ---------------------------------------------------------------- indices

type Words = [u64; 34];
type Fraction = (u64, u64);

#[derive(Clone, Copy, PartialEq)]
enum Majority {
    Half,
    Seventy,
    EightyFive,
    Quorum,
}

const ALL: [Majority; 4] = [Majority::Half, Majority::Seventy, Majority::EightyFive, Majority::Quorum];

struct ChairPower {
    chair: usize,
    weight: u64,
    swings: u64,
    banzhaf: Fraction,
    share: Option<Fraction>,
    prevent: Option<Fraction>,
    initiate: Fraction,
}

struct Indices {
    quota: u64,
    cast: u64,
    winning: u64,
    coalitions: u64,
    rows: Vec<ChairPower>,
}

fn cast_of(words: &Words) -> u64 {
    words[..32].iter().map(|word| word.saturating_sub(1)).sum()
}

fn quota_of(majority: Majority, words: &Words) -> u64 {
    match majority {
        Majority::Half => cast_of(words) / 2 + 1,
        Majority::Seventy => (7 * words[32]).div_ceil(10).max(1),
        Majority::EightyFive => (17 * words[32]).div_ceil(20).max(1),
        Majority::Quorum => words[32].div_ceil(2),
    }
}

fn least_size_of(majority: Majority, chairs: usize) -> usize {
    match majority {
        Majority::Quorum => chairs / 2 + 1,
        _ => 0,
    }
}

/// A sheet, and the lists of its halves.
struct Evaluator {
    words: Words,
    board: Board,
}

impl Evaluator {
    fn new() -> Evaluator {
        Evaluator { words: [0; 34], board: Board::new() }
    }

    fn set(&mut self, words: &Words) {
        self.board.set(&std::array::from_fn(|place| words[place].checked_sub(1)));
        self.words = *words;
    }

    fn evaluate(&mut self, majority: Majority) -> Indices {
        let quota = quota_of(majority, &self.words);
        let open: Vec<usize> = (0..32).filter(|&place| self.words[place] > 0).collect();
        let (winning, with_chair) = self.board.count(quota, least_size_of(majority, open.len()));
        let swings = |place: usize| match with_chair[place] {
            0 => 0,
            with => 2 * with - winning,
        };
        let all: u64 = open.iter().map(|&place| swings(place)).sum();
        let coalitions = 1 << open.len();
        let some = |num, den| (den > 0).then_some((num, den));
        let row = |&place: &usize| ChairPower {
            chair: place + 1,
            weight: self.words[place] - 1,
            swings: swings(place),
            banzhaf: (swings(place), coalitions / 2),
            share: some(swings(place), all),
            prevent: some(swings(place), winning),
            initiate: (swings(place), coalitions - winning),
        };
        Indices { quota, cast: cast_of(&self.words), winning, coalitions, rows: open.iter().map(row).collect() }
    }
}

// ---------------------------------------------------------------- timing of the indices

/// Sheets recounted in turn, so that branch prediction can't learn them, and rounds through all of them.
const SHEETS: usize = 16;
const ROUNDS: usize = 12;

/// Numbers by xorshift (Marsaglia 2003), the same ones in both programs.
struct Numbers(u64);

impl Numbers {
    fn next(&mut self) -> u64 {
        self.0 ^= self.0 << 13;
        self.0 ^= self.0 >> 7;
        self.0 ^= self.0 << 17;
        self.0
    }

    /// Words of `chairs` chairs, numbered from 1, with weights from `base` on, `span` of them.
    fn words(&mut self, chairs: usize, base: u64, span: u64) -> Words {
        let mut words = [0; 34];
        for word in &mut words[..chairs] {
            *word = 1 + base + self.next() % span;
        }
        totalled(words)
    }
}

fn totalled(mut words: Words) -> Words {
    words[32] = cast_of(&words);
    words
}

fn digest(indices: &Indices) -> u64 {
    let step = |digest: u64, row: &ChairPower| digest.wrapping_mul(31).wrapping_add(row.swings);
    indices.rows.iter().fold(indices.winning, step)
}

/// The least nanoseconds of one sheet's recount by some majorities, over rounds through all sheets, and what was
/// counted. If there is another sheet, the evaluator is given that before each recount, which isn't timed.
fn least(sheets: &[Words], by: &[Majority], before: impl Fn(usize) -> Option<Words>) -> (u128, u64) {
    let mut evaluator = Evaluator::new();
    let (mut least, mut sum) = (u128::MAX, 0u64);
    for _ in 0..ROUNDS {
        let mut nanos = 0;
        for (place, sheet) in sheets.iter().enumerate() {
            if let Some(other) = before(place) {
                evaluator.set(&other);
            }
            let start = Instant::now();
            evaluator.set(sheet);
            for &majority in by {
                sum = sum.wrapping_add(digest(&evaluator.evaluate(majority)));
            }
            nanos += start.elapsed().as_nanos();
        }
        least = least.min(nanos / sheets.len() as u128);
    }
    (least, sum)
}

fn print_counts(name: &str, words: &Words) {
    let mut evaluator = Evaluator::new();
    evaluator.set(words);
    let indices = evaluator.evaluate(Majority::Half);
    print!("{name} counts {} {}", indices.quota, indices.winning);
    let rows = indices.rows.iter();
    rows.for_each(|row| print!(" {}", row.swings));
    println!();
}

/// Times the recounts of sheets of `chairs` chairs, numbered from 1: all new; held; held, by the quorum; and with one
/// chair's votes changed, by all four majorities.
fn time_sheets(name: &str, chairs: usize, base: u64, span: u64) {
    let mut numbers = Numbers(0x9E37_79B9_7F4A_7C15);
    let sheets: Vec<Words> = (0..SHEETS).map(|turn| numbers.words(chairs, base + turn as u64, span)).collect();
    let mut moved = sheets.clone();
    for (turn, moved) in moved.iter_mut().enumerate() {
        moved[turn * 5 % chairs] += 1;
        *moved = totalled(*moved);
    }
    print_counts(name, &sheets[0]);
    let print = |part: &str, (nanos, sum): (u128, u64)| println!("{name} {part} {nanos} {sum}");
    let half = [Majority::Half];
    print("full", least(&sheets, &half, |_| None));
    print("none", least(&sheets, &half, |place| Some(sheets[place])));
    print("quorum", least(&sheets, &[Majority::Quorum], |place| Some(sheets[place])));
    print("one", least(&moved, &ALL, |place| Some(sheets[place])));
}

fn indices() {
    time_sheets("equal32", 32, 1, 1);
    time_sheets("random32", 32, 1, (1 << 40) - 1);
    time_sheets("votes24", 24, 1, 408_000);
    time_sheets("votes25", 25, 1, 408_000);
    time_sheets("votes3", 3, 1, 408_000);
}

// ---------------------------------------------------------------- the input of a long replay

fn code(member: u64) -> String {
    let letter = |n: u64| (b'A' + (n % 26) as u8) as char;
    [letter(member / 676), letter(member / 26), letter(member)].iter().collect()
}

/// A member list of 200, 32 chairs, and commands at random, with a publication and a reading every `every` records.
fn records(count: usize, every: usize) {
    let mut numbers = Numbers(0x9E37_79B9_7F4A_7C15);
    let mut lines = vec!["member,votes".to_string()];
    lines.extend((0..200).map(|m| format!("{},{}", code(m), 1 + numbers.next() % 1_000_000)));
    lines.push("script".to_string());
    lines.extend((1..=32).map(|chair| format!("open,{chair}")));
    while lines.len() < count {
        let line = match every - lines.len() % every {
            2 => "publish".to_string(),
            1 => format!("read,1,{}", ["half", "70", "85"][(numbers.next() % 3) as usize]),
            _ => command(&mut numbers),
        };
        lines.push(line);
    }
    println!("{}", lines.join("\n"));
}

fn command(numbers: &mut Numbers) -> String {
    let member = code(numbers.next() % 202);
    let number = numbers.next();
    match numbers.next() % 16 {
        0..=5 => format!("move,{member},{}", 1 + number % 32),
        6 => format!("move,{member},none"),
        7..=10 => format!("votes,{member},{}", 1 + number % 1_000_000),
        11 | 12 => format!("suspend,{member}"),
        13 | 14 => format!("restore,{member}"),
        _ if number % 2 == 0 => format!("open,{}", 1 + number / 2 % 32),
        _ => format!("close,{}", 1 + number / 2 % 32),
    }
}

// ---------------------------------------------------------------- replay

type Code = [u8; 3];

#[derive(Clone, Copy)]
enum Command {
    Open(usize),
    Close(usize),
    Move(Code, Option<usize>),
    SetVotes(Code, u64),
    Suspend(Code),
    Restore(Code),
}

type Refusal = (u8, &'static str);

const CHAIR_OPEN: Refusal = (1, "ChairOpen");
const CHAIR_NOT_OPEN: Refusal = (2, "ChairNotOpen");
const CHAIR_HAS_MEMBERS: Refusal = (3, "ChairHasMembers");
const UNKNOWN_MEMBER: Refusal = (4, "UnknownMember");
const MEMBER_SUSPENDED: Refusal = (5, "MemberSuspended");
const ALREADY_THERE: Refusal = (6, "AlreadyThere");
const ALREADY_SUSPENDED: Refusal = (7, "AlreadySuspended");
const NOT_SUSPENDED: Refusal = (8, "NotSuspended");
const JOURNAL_FULL: Refusal = (9, "JournalFull");

struct Member {
    votes: u64,
    chair: Option<usize>,
    suspended: bool,
}

struct Register {
    members: HashMap<Code, Member>,
    words: Words,
    seated: [u32; 32],
    journal: Vec<Command>,
    limit: usize,
}

impl Register {
    fn apply(&mut self, command: Command) -> Result<usize, Refusal> {
        self.check(command)?;
        if self.journal.len() == self.limit {
            return Err(JOURNAL_FULL);
        }
        self.journal.push(command);
        self.carry_out(command);
        self.words[33] += 1;
        Ok(self.journal.len())
    }

    fn member(&self, code: Code) -> Result<&Member, Refusal> {
        self.members.get(&code).ok_or(UNKNOWN_MEMBER)
    }

    fn check(&self, command: Command) -> Result<(), Refusal> {
        let is_open = |chair: usize| self.words[chair - 1] > 0;
        let unless = |bad: bool, why: Refusal| if bad { Err(why) } else { Ok(()) };
        match command {
            Command::Open(chair) => unless(is_open(chair), CHAIR_OPEN),
            Command::Close(chair) => {
                unless(!is_open(chair), CHAIR_NOT_OPEN).and(unless(self.seated[chair - 1] > 0, CHAIR_HAS_MEMBERS))
            }
            Command::Move(code, to) => {
                let member = self.member(code)?;
                unless(member.suspended, MEMBER_SUSPENDED)?;
                unless(to.is_some_and(|chair| !is_open(chair)), CHAIR_NOT_OPEN)?;
                unless(member.chair == to, ALREADY_THERE)
            }
            Command::SetVotes(code, _) => self.member(code).map(|_| ()),
            Command::Suspend(code) => unless(self.member(code)?.suspended, ALREADY_SUSPENDED),
            Command::Restore(code) => unless(!self.member(code)?.suspended, NOT_SUSPENDED),
        }
    }

    fn carry_out(&mut self, command: Command) {
        match command {
            Command::Open(chair) => self.words[chair - 1] = 1,
            Command::Close(chair) => self.words[chair - 1] = 0,
            Command::Move(code, to) => self.update(code, |member| member.chair = to),
            Command::SetVotes(code, votes) => self.update(code, |member| member.votes = votes),
            Command::Suspend(code) => self.update(code, |member| member.suspended = true),
            Command::Restore(code) => self.update(code, |member| member.suspended = false),
        }
    }

    /// Takes a member's votes out, changes the member, and enters its new votes.
    fn update(&mut self, code: Code, change: impl FnOnce(&mut Member)) {
        let Some(member) = self.members.get_mut(&code) else {
            return;
        };
        let votes = |member: &Member| if member.suspended { 0 } else { member.votes };
        self.words[32] -= votes(member);
        if let Some(chair) = member.chair {
            self.words[chair - 1] -= votes(member);
            self.seated[chair - 1] -= 1;
        }
        change(member);
        self.words[32] += votes(member);
        if let Some(chair) = member.chair {
            self.words[chair - 1] += votes(member);
            self.seated[chair - 1] += 1;
        }
    }
}

/// The fields of a record that are looked at: a record with more is not one of the formats.
const FIELDS: usize = 4;

/// One record, in room that is reused for the next.
#[derive(Default)]
struct Row {
    bytes: Vec<u8>,
    ends: Vec<usize>,
}

impl Row {
    fn clear(&mut self) {
        self.bytes.clear();
        self.ends.clear();
    }

    fn end_field(&mut self) {
        self.ends.push(self.bytes.len());
    }

    /// The fields, up to one more than is looked at.
    fn fields<'a>(&'a self, room: &'a mut [&'a [u8]; FIELDS + 1]) -> &'a [&'a [u8]] {
        let mut start = 0;
        let mut count = 0;
        for (place, &end) in room.iter_mut().zip(&self.ends) {
            *place = &self.bytes[start..end];
            start = end;
            count += 1;
        }
        &room[..count]
    }
}

/// The records of an input one by one, cut as `csv` cuts them: commas, double quotes, LF or CRLF, no empty lines.
struct Cutter<'a> {
    input: &'a [u8],
    at: usize,
    number: usize,
}

impl Cutter<'_> {
    /// Cuts the next record into the row, if there is one.
    fn next(&mut self, row: &mut Row) -> bool {
        row.clear();
        let (mut quoted, mut begun, mut start) = (false, false, 0);
        while let Some(&byte) = self.input.get(self.at) {
            self.at += 1;
            match byte {
                b'"' if quoted && self.input.get(self.at) == Some(&b'"') => {
                    row.bytes.push(b'"');
                    self.at += 1;
                }
                b'"' if quoted => quoted = false,
                _ if quoted => row.bytes.push(byte),
                b'"' if row.bytes.len() == start => (quoted, begun) = (true, true),
                b',' => {
                    row.end_field();
                    (start, begun) = (row.bytes.len(), true);
                }
                b'\n' | b'\r' if begun => break,
                b'\n' | b'\r' => {}
                _ => {
                    row.bytes.push(byte);
                    begun = true;
                }
            }
        }
        if begun {
            row.end_field();
            self.number += 1;
        }
        begun
    }
}

fn number(field: &[u8]) -> Option<u64> {
    let all_digits = (1..=20).contains(&field.len()) && field.iter().all(u8::is_ascii_digit);
    all_digits.then(|| std::str::from_utf8(field).ok()?.parse().ok())?
}

fn chair(field: &[u8]) -> Option<usize> {
    number(field).filter(|n| (1..=32).contains(n)).map(|n| n as usize)
}

fn votes(field: &[u8]) -> Option<u64> {
    number(field).filter(|&n| n <= 1 << 40)
}

fn member(field: &[u8]) -> Option<Code> {
    let code: Code = field.try_into().ok()?;
    code.iter().all(u8::is_ascii_uppercase).then_some(code)
}

fn majority(field: &[u8]) -> Option<(Majority, &'static str)> {
    match field {
        b"half" => Some((Majority::Half, "half")),
        b"70" => Some((Majority::Seventy, "70")),
        b"85" => Some((Majority::EightyFive, "85")),
        _ => None,
    }
}

enum Record {
    Submit(Command),
    Publish,
    Read(u64, (Majority, &'static str)),
}

fn record(fields: &[&[u8]]) -> Option<Record> {
    Some(match fields {
        [b"open", c] => Record::Submit(Command::Open(chair(c)?)),
        [b"close", c] => Record::Submit(Command::Close(chair(c)?)),
        [b"move", m, b"none"] => Record::Submit(Command::Move(member(m)?, None)),
        [b"move", m, c] => Record::Submit(Command::Move(member(m)?, Some(chair(c)?))),
        [b"votes", m, v] => Record::Submit(Command::SetVotes(member(m)?, votes(v)?)),
        [b"suspend", m] => Record::Submit(Command::Suspend(member(m)?)),
        [b"restore", m] => Record::Submit(Command::Restore(member(m)?)),
        [b"publish"] => Record::Publish,
        [b"read", r, m] => Record::Read(number(r)?, majority(m)?),
        _ => return None,
    })
}

/// A fault's place and name, or a write that failed.
enum Fault {
    Reported(usize, &'static str),
    Write,
}

impl From<io::Error> for Fault {
    fn from(_: io::Error) -> Fault {
        Fault::Write
    }
}

/// The lines, each written as it is made.
struct Lines<W> {
    out: W,
    line: String,
}

impl<W: Write> Lines<W> {
    fn put(&mut self, text: std::fmt::Arguments) -> io::Result<()> {
        self.line.clear();
        let _ = self.line.write_fmt(text);
        self.line.push('\n');
        self.out.write_all(self.line.as_bytes())
    }
}

struct Shown(Option<Fraction>);

impl std::fmt::Display for Shown {
    fn fmt(&self, f: &mut std::fmt::Formatter) -> std::fmt::Result {
        match self.0 {
            Some((num, den)) => write!(f, "{num}/{den}"),
            None => f.write_str("-"),
        }
    }
}

/// The members, up to the mark.
fn opening(cutter: &mut Cutter, row: &mut Row) -> Result<Vec<(Code, u64)>, Fault> {
    if !cutter.next(row) || row.fields(&mut [&[]; FIELDS + 1]) != [&b"member"[..], b"votes"] {
        return Err(Fault::Reported(0, "BadHeader"));
    }
    let mut members = Vec::new();
    while cutter.next(row) {
        let mut room = [&[][..]; FIELDS + 1];
        let fields = row.fields(&mut room);
        if fields == [b"script"] {
            return Ok(members);
        }
        if members.len() == 256 {
            return Err(Fault::Reported(0, "TooManyMembers"));
        }
        let read = match fields {
            [m, v] => member(m).zip(votes(v)),
            _ => None,
        };
        members.push(read.ok_or(Fault::Reported(cutter.number, "BadRecord"))?);
    }
    Err(Fault::Reported(0, "NoScript"))
}

fn started(list: &[(Code, u64)], limit: usize) -> Result<Register, Fault> {
    let mut register =
        Register { members: HashMap::new(), words: [0; 34], seated: [0; 32], journal: Vec::new(), limit };
    for &(code, votes) in list {
        let member = Member { votes, chair: None, suspended: false };
        if register.members.insert(code, member).is_some() {
            return Err(Fault::Reported(0, "DuplicateMember"));
        }
        register.words[32] += votes;
    }
    Ok(register)
}

fn put_indices<W: Write>(
    lines: &mut Lines<W>,
    reader: u64,
    evaluator: &mut Evaluator,
    by: (Majority, &str),
) -> io::Result<()> {
    let indices = evaluator.evaluate(by.0);
    let words = evaluator.words;
    lines.put(format_args!(
        "reading,{reader},{},{},{},{},{},{},{},{}",
        words[33],
        by.1,
        indices.rows.len(),
        indices.quota,
        indices.cast,
        words[32],
        indices.winning,
        indices.coalitions
    ))?;
    for row in &indices.rows {
        lines.put(format_args!(
            "chair,{},{},{},{},{},{},{}",
            row.chair,
            row.weight,
            row.swings,
            Shown(Some(row.banzhaf)),
            Shown(row.share),
            Shown(row.prevent),
            Shown(Some(row.initiate))
        ))?;
    }
    Ok(())
}

fn run<W: Write>(input: &[u8], lines: &mut Lines<W>, readers: u64, limit: usize) -> Result<(), Fault> {
    if !(1..=4).contains(&readers) || !(1..=1_000_000).contains(&limit) {
        return Err(Fault::Reported(0, "BadLimit"));
    }
    if input.len() > 4_194_304 {
        return Err(Fault::Reported(0, "TooLong"));
    }
    let (mut cutter, mut row) = (Cutter { input, at: 0, number: 0 }, Row::default());
    let members = opening(&mut cutter, &mut row)?;
    let mut register = started(&members, limit)?;
    let mut published = register.words;
    let mut evaluator = Evaluator::new();
    while cutter.next(&mut row) {
        let mut room = [&[][..]; FIELDS + 1];
        match record(row.fields(&mut room)).ok_or(Fault::Reported(cutter.number, "BadRecord"))? {
            Record::Submit(command) => match register.apply(command) {
                Ok(accepted) => lines.put(format_args!("accepted,{accepted}"))?,
                Err((code, name)) => lines.put(format_args!("refused,{code},{name}"))?,
            },
            Record::Publish => {
                published = register.words;
                lines.put(format_args!("published,{}", published[33]))?;
            }
            Record::Read(reader, _) if !(1..=readers).contains(&reader) => {
                return Err(Fault::Reported(cutter.number, "BadReader"));
            }
            Record::Read(reader, by) => {
                evaluator.set(&published);
                put_indices(lines, reader, &mut evaluator, by)?;
            }
        }
    }
    Ok(())
}

fn replay(readers: u64, limit: usize) -> bool {
    let mut lines = Lines { out: io::stdout().lock(), line: String::new() };
    let mut input = Vec::new();
    let read = io::stdin().take(4_194_305).read_to_end(&mut input);
    let done = match read {
        Ok(_) => run(&input, &mut lines, readers, limit),
        Err(_) => Err(Fault::Reported(0, "ReadFault")),
    };
    match done {
        Ok(()) => true,
        Err(Fault::Reported(place, name)) => {
            let _ = lines.put(format_args!("fault,{place},{name}"));
            eprintln!("board: {name}");
            false
        }
        Err(Fault::Write) => {
            eprintln!("board: WriteFault");
            false
        }
    }
}

fn main() {
    let words: Vec<String> = std::env::args().skip(1).collect();
    let words: Vec<&str> = words.iter().map(String::as_str).collect();
    let number = |word: &str| word.parse::<usize>().expect("a number");
    match words[..] {
        ["indices"] => indices(),
        ["records", count, every] => records(number(count), number(every)),
        ["replay", readers, limit] => {
            let done = replay(number(readers) as u64, number(limit));
            std::process::exit(i32::from(!done));
        }
        _ => eprintln!("plain indices | plain records COUNT EVERY | plain replay READERS LIMIT"),
    }
}
