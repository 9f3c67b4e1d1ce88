use crate::names::{allowed, COMMANDS, READERS};
use crate::{Refusal, Refused};

/// The limits of a register and of a replay: how many commands a journal accepts, and how many readers a replay has.
///
/// ```
/// use voting_board::{Limits, Refusal, Register};
///
/// let mut register = Register::with_limits(Limits::new().journal(1), [("AAA", 50)])?;
/// register.open(1)?;
/// assert_eq!(register.open(2).unwrap_err().refusal(), Refusal::JournalFull);
///
/// let text = "member,votes\nAAA,50\nscript\nread,2,half\n";
/// assert!(Limits::new().readers(2).replay(text)?.fault().is_none());
/// # Ok::<(), voting_board::Refused>(())
/// ```
#[derive(Clone, Copy, Debug, PartialEq, Eq)]
pub struct Limits {
    pub(crate) readers: u32,
    pub(crate) journal: u32,
}

impl Default for Limits {
    fn default() -> Self {
        Self { readers: 1, journal: COMMANDS }
    }
}

impl Limits {
    /// One reader, and a journal of [`COMMANDS`] commands.
    pub fn new() -> Self {
        Self::default()
    }

    /// The same with this many readers, from 1 to [`READERS`]. Others are refused as [`Refusal::BadLimit`] when a
    /// replay starts.
    #[must_use]
    pub fn readers(self, readers: u32) -> Self {
        Self { readers, ..self }
    }

    /// The same with a journal that accepts at most this many commands, from 1 to [`COMMANDS`]. Others are refused as
    /// [`Refusal::BadLimit`] when a register or a replay starts.
    #[must_use]
    pub fn journal(self, journal: u32) -> Self {
        Self { journal, ..self }
    }

    pub(crate) fn check(self) -> Result<(), Refused> {
        check("the number of readers", self.readers, READERS, allowed::READERS)?;
        check("the journal", self.journal, COMMANDS, allowed::JOURNAL)
    }
}

fn check(place: &str, value: u32, most: u32, sentence: &str) -> Result<(), Refused> {
    if (1..=most).contains(&value) {
        return Ok(());
    }
    Err(Refused::new(Refusal::BadLimit, format!("{place} is {value}: {sentence}")))
}
