use crate::names::REFUSALS;
use crate::Refusal;
use std::error::Error;
use std::fmt;

impl Refusal {
    /// Its number in docs/FORMATS.md; 255 for [`Refusal::Trapped`].
    pub fn number(self) -> u8 {
        self as u8
    }

    /// Its name in docs/FORMATS.md, such as `ChairOpen`.
    pub fn name(self) -> &'static str {
        self.row().1
    }

    /// Its reason, such as `the chair is open already`.
    pub fn reason(self) -> &'static str {
        self.row().2
    }

    fn row(self) -> &'static (Self, &'static str, &'static str) {
        let at = REFUSALS.iter().position(|it| it.0 == self);
        &REFUSALS[at.unwrap_or(REFUSALS.len() - 1)]
    }

    /// The refusal of a result of the library that isn't 0. The library returns no number without a name.
    pub(crate) fn of_number(number: u8) -> Self {
        REFUSALS.iter().map(|it| it.0).find(|it| it.number() == number).unwrap_or(Refusal::Trapped)
    }
}

impl fmt::Display for Refusal {
    fn fmt(&self, to: &mut fmt::Formatter<'_>) -> fmt::Result {
        to.pad(self.name())
    }
}

/// The error of this crate: a value, a command or an input is refused, and nothing has changed.
///
/// Its text says where the value stands, what it is, and what is allowed.
///
/// ```
/// use voting_board::{Refusal, Register};
///
/// let mut register = Register::new([("AAA", 50)])?;
/// let why = register.move_to("AAA", Some(3)).unwrap_err();
/// assert_eq!((why.refusal(), why.number(), why.name()), (Refusal::ChairNotOpen, 2, "ChairNotOpen"));
/// assert_eq!(why.command(), Some("move,AAA,3"));
/// assert_eq!(why.to_string(), "refused 'move,AAA,3': ChairNotOpen (2), the chair is not open");
/// # Ok::<(), voting_board::Refused>(())
/// ```
#[derive(Clone, Debug, PartialEq, Eq)]
#[cfg_attr(feature = "serde", derive(serde::Serialize, serde::Deserialize))]
pub struct Refused {
    refusal: Refusal,
    message: String,
    command: Option<String>,
    record: Option<u32>,
    row: Option<usize>,
}

impl Refused {
    pub(crate) fn new(refusal: Refusal, message: String) -> Self {
        Self { refusal, message, command: None, record: None, row: None }
    }

    /// A refusal without a value of the caller's: its reason is the whole message.
    pub(crate) fn by(refusal: Refusal) -> Self {
        Self::new(refusal, why(refusal))
    }

    /// The refusal of a command, whose record is `text`.
    pub(crate) fn command_refused(refusal: Refusal, text: String) -> Self {
        let message = format!("refused '{text}': {}", why(refusal));
        Self { command: Some(text), ..Self::new(refusal, message) }
    }

    /// The refusal of a record that is no command.
    pub(crate) fn no_command(text: String) -> Self {
        let message = format!("'{text}' is no command");
        Self { command: Some(text), ..Self::new(Refusal::BadRecord, message) }
    }

    /// The same, of the record of this number.
    pub(crate) fn in_record(self, record: u32) -> Self {
        Self { message: format!("record {record}: {}", self.message), record: Some(record), ..self }
    }

    /// The same, in a row of a table, counted from 1.
    pub(crate) fn in_row(self, row: usize) -> Self {
        Self { message: format!("row {row}: {}", self.message), row: Some(row), ..self }
    }

    /// The same, of a board of many, counted from 1.
    pub(crate) fn of_board(self, row: usize) -> Self {
        Self { message: format!("board {row}: {}", self.message), row: Some(row), ..self }
    }

    /// Why it is refused.
    pub fn refusal(&self) -> Refusal {
        self.refusal
    }

    /// The number of the refusal in docs/FORMATS.md.
    pub fn number(&self) -> u8 {
        self.refusal.number()
    }

    /// The name of the refusal in docs/FORMATS.md.
    pub fn name(&self) -> &'static str {
        self.refusal.name()
    }

    /// The record of the command that the register refused, as text, if it is one.
    pub fn command(&self) -> Option<&str> {
        self.command.as_deref()
    }

    /// The number of the record in its text, counted from 1 by the library, if the refusal is of one.
    pub fn record(&self) -> Option<u32> {
        self.record
    }

    /// The row of the table, or the board of many, counted from 1, if the refusal is of one.
    pub fn row(&self) -> Option<usize> {
        self.row
    }
}

/// The name, the number and the reason of a refusal.
fn why(refusal: Refusal) -> String {
    format!("{refusal} ({}), {}", refusal.number(), refusal.reason())
}

impl From<Refusal> for Refused {
    fn from(refusal: Refusal) -> Self {
        Self::by(refusal)
    }
}

impl fmt::Display for Refused {
    fn fmt(&self, to: &mut fmt::Formatter<'_>) -> fmt::Result {
        to.pad(&self.message)
    }
}

impl Error for Refused {}
