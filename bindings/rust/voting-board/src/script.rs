//! Texts with records, which the library reads.
use crate::command::wrong_field;
use crate::library::{self, Script};
use crate::names::{INPUT_BYTES, READERS};
use crate::{Refusal, Refused};
use voting_board_sys as sys;

/// What stands before records that have no opening of their own: an opening without members. Its records are 2.
const OPENING: &[u8] = b"member,votes\nscript\n";
const OPENING_RECORDS: u32 = 2;

/// The number of the mark's record: after the header and the members.
pub(crate) fn mark(members: &[sys::board_entry]) -> u32 {
    OPENING_RECORDS + members.len() as u32
}

/// A record of a script: its command, its number, and where it stands in the text.
pub(crate) struct Record {
    pub(crate) command: sys::board_command,
    pub(crate) number: u32,
    pub(crate) from: usize,
    pub(crate) to: usize,
}

/// A fault of a text.
#[derive(Clone, Copy)]
pub(crate) struct Fault {
    pub(crate) refusal: Refusal,
    /// The number of its record, or 0.
    pub(crate) record: u32,
    /// The offset after the record before it, if it is known.
    pub(crate) after: Option<usize>,
}

impl Fault {
    /// The fault as a value. A text of one line without a line end may be the name of a file.
    pub(crate) fn refused(self, text: &[u8]) -> Refused {
        let mut message = format!("{} ({}), {}", self.refusal, self.refusal.number(), self.refusal.reason());
        if let Some(offset) = self.after {
            message += &format!(", after byte {offset}");
            let field = (self.refusal == Refusal::BadRecord).then(|| wrong_field(line_at(text, offset))).flatten();
            message += &field.map_or(String::new(), |why| format!(": {why}"));
        }
        if self.refusal == Refusal::BadHeader && !text.contains(&b'\n') {
            message += "; replay_file replays the file of a path";
        }
        let refused = Refused::new(self.refusal, message);
        if self.record > 0 {
            refused.in_record(self.record)
        } else {
            refused
        }
    }
}

/// The first line from an offset of a text on that isn't empty; empty if it isn't UTF-8.
fn line_at(text: &[u8], offset: usize) -> &str {
    let is_end = |it: &u8| matches!(it, b'\r' | b'\n');
    let line = text[offset..].split(is_end).find(|it| !it.is_empty()).unwrap_or_default();
    std::str::from_utf8(line).unwrap_or_default()
}

/// The members, the records and the fault of a text.
#[derive(Default)]
pub(crate) struct Text {
    pub(crate) members: Vec<sys::board_entry>,
    pub(crate) records: Vec<Record>,
    pub(crate) fault: Option<Fault>,
    is_whole: bool,
}

/// Reads records of a script, without an opening, of any length.
pub(crate) fn read_records(text: &[u8]) -> Result<Text, Refused> {
    read(text, OPENING)
}

/// Reads a whole input, of any length.
pub(crate) fn read_script(text: &[u8]) -> Result<Text, Refused> {
    read(text, b"")
}

/// Reads a text piece by piece, since the library reads at most 4,194,304 bytes at once.
fn read(text: &[u8], mut opening: &[u8]) -> Result<Text, Refused> {
    let mut found = Text::default();
    let mut at = 0;
    loop {
        let end = text.len().min(at + INPUT_BYTES - opening.len());
        let (mut piece, len) = read_piece(&text[at..end], opening, end == text.len())?;
        let rest = if at + len < text.len() { cut(&mut piece, opening.len(), len) } else { None };
        found.add(piece, at, opening.len());
        match rest {
            Some(len) => at += len,
            None => return Ok(found),
        }
        opening = OPENING;
    }
}

/// Reads a piece, and returns its length. Where its first record has a fault, which the cut at its end may make, half
/// of the piece is read: if that is blank, it is the piece. Otherwise the record has half of a piece, and more than a
/// sound one needs.
fn read_piece(text: &[u8], opening: &[u8], is_last: bool) -> Result<(Script, usize), Refused> {
    let read = |len: usize| library::script(&[opening, &text[..len]].concat(), READERS);
    let piece = read(text.len())?;
    if !is_last && piece.fault.is_some() && piece.items.is_empty() {
        let half = read(text.len() / 2)?;
        if half.fault.is_none() && half.items.is_empty() {
            return Ok((half, text.len() / 2));
        }
    }
    Ok((piece, text.len()))
}

/// Takes from a piece its last record, which may be cut, or the fault of that record. Returns how many bytes of the
/// text are read, or nothing if the piece has a fault of its own.
fn cut(piece: &mut Script, opening: usize, len: usize) -> Option<usize> {
    match (piece.fault, piece.items.last().copied()) {
        (Some(_), None) => None,
        (Some(_), Some(last)) => {
            piece.fault = None;
            Some(last.to as usize - opening)
        }
        (None, None) => Some(len),
        (None, Some(last)) => {
            piece.items.pop();
            let read = last.from as usize - opening;
            piece.fault = (read == 0).then_some((Refusal::TooLong, last.number));
            (read > 0).then_some(read)
        }
    }
}

impl Text {
    /// Adds what a piece has that begins at an offset of the text, after an opening of this length.
    fn add(&mut self, piece: Script, at: usize, opening: usize) {
        let (before, skipped) = match opening {
            0 => (0, 0),
            _ => (self.last_record(), OPENING_RECORDS),
        };
        let number = |it: u32| it - skipped + before;
        let place = |it: u32| at + it as usize - opening;
        if opening == 0 {
            self.members = piece.members;
            self.is_whole = true;
        }
        for it in &piece.items {
            let (from, to) = (place(it.from), place(it.to));
            self.records.push(Record { command: it.command, number: number(it.number), from, to });
        }
        let after = self.records.last().map_or(0, |it| it.to);
        self.fault = piece.fault.map(|(refusal, record)| {
            let after = (record > 0).then_some(after);
            Fault { refusal, record: if record > 0 { number(record) } else { 0 }, after }
        });
    }

    /// The number of the last record so far.
    fn last_record(&self) -> u32 {
        let opening = if self.is_whole { mark(&self.members) } else { 0 };
        self.records.last().map_or(opening, |it| it.number)
    }
}
