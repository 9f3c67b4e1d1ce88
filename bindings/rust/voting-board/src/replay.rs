use crate::library::{self, Handle};
use crate::script::{mark, Fault, Record};
use crate::{Indices, Limits, Majority, Refusal, Refused, Register};
use std::path::Path;
use std::{fmt, fs, vec};
use voting_board_sys as sys;
use voting_board_sys::board_item;

/// A reading: what a reader sees of the register.
#[derive(Clone, Debug, PartialEq, Eq, Hash)]
#[cfg_attr(feature = "serde", derive(serde::Serialize, serde::Deserialize))]
#[non_exhaustive]
pub struct Reading {
    /// The number of the record.
    pub record: u32,
    /// The reader, from 1.
    pub reader: u32,
    /// How many commands were published.
    pub front: u32,
    /// The counts of the published board.
    #[cfg_attr(feature = "serde", serde(flatten))]
    pub indices: Indices,
}

/// The outcome of a record of a replay.
#[derive(Clone, Debug, PartialEq, Eq)]
#[cfg_attr(feature = "serde", derive(serde::Serialize, serde::Deserialize))]
#[cfg_attr(feature = "serde", serde(tag = "outcome", rename_all = "lowercase"))]
#[non_exhaustive]
pub enum Outcome {
    /// A command was accepted.
    Accepted {
        /// The number of the record.
        record: u32,
        /// The number of accepted commands.
        number: u32,
    },
    /// A command was refused, and changed nothing.
    Refused(Refused),
    /// The accepted commands were published.
    Published {
        /// The number of the record.
        record: u32,
        /// The number of published commands.
        number: u32,
    },
    /// A reader read what is published.
    Reading(Reading),
}

impl Outcome {
    /// The number of the record, counted from 1 over all of the input by the library.
    pub fn record(&self) -> u32 {
        match self {
            Self::Accepted { record, .. } | Self::Published { record, .. } => *record,
            Self::Refused(why) => why.record().unwrap_or(0),
            Self::Reading(it) => it.record,
        }
    }
}

/// Replays an input as data, record by record: docs/FORMATS.md has its records, and [`Limits`] more readers.
///
/// Refused commands and the fault that ends a run are part of the answer. The text is that of a script, and not the
/// name of a file, which [`replay_file`] takes.
///
/// ```
/// use voting_board::{replay, Outcome, Refusal};
///
/// let run = replay("member,votes\nAAA,50\nscript\nopen,1\nopen,1\nmove,AAA,1\npublish\nread,1,half\nclose\n")?;
/// let fault = run.fault().unwrap();
/// assert_eq!((fault.record(), fault.refusal()), (Some(9), Refusal::BadRecord));
/// for outcome in run {
///     match outcome? {
///         Outcome::Accepted { record, number } => assert!(number < record),
///         Outcome::Refused(why) => assert_eq!((why.record(), why.command()), (Some(5), Some("open,1"))),
///         Outcome::Reading(it) => assert_eq!((it.record, it.front, it.indices.omega), (8, 2, 1)),
///         _ => {}
///     }
/// }
/// # Ok::<(), voting_board::Refused>(())
/// ```
pub fn replay(text: impl AsRef<[u8]>) -> Result<Replay, Refused> {
    Limits::new().replay(text)
}

/// Replays a file. One that can't be read is refused as [`Refusal::ReadFault`].
pub fn replay_file(path: impl AsRef<Path>) -> Result<Replay, Refused> {
    Limits::new().replay_file(path)
}

/// The lines of a replay as `board replay` prints them, and the fault that ended it, if one did.
///
/// ```
/// use voting_board::replay_text;
///
/// let (text, fault) = replay_text("member,votes\nAAA,50\nscript\nopen,1\nopen,1\n")?;
/// assert_eq!((text.as_str(), fault), ("accepted,1\nrefused,1,ChairOpen\n", None));
/// # Ok::<(), voting_board::Refused>(())
/// ```
pub fn replay_text(text: impl AsRef<[u8]>) -> Result<(String, Option<Refused>), Refused> {
    Limits::new().replay_text(text)
}

impl Limits {
    /// Replays an input with these limits: see [`replay`](crate::replay()).
    pub fn replay(self, text: impl AsRef<[u8]>) -> Result<Replay, Refused> {
        self.check()?;
        let text = text.as_ref();
        let read = library::script(text, self.readers)?;
        let fault = read.fault.map(|(refusal, record)| Fault { refusal, record, after: None });
        let register = match fault {
            Some(it) if it.record <= mark(&read.members) => Err(it.refused(text)),
            _ => Ok(Register::of_handle(Handle::start(&read.members, self.journal)?)),
        };
        let fault = fault.map(|it| it.refused(text));
        Ok(Replay { register, items: read.items.into_iter(), fault, read: Default::default() })
    }

    /// Replays a file with these limits: see [`replay_file`].
    pub fn replay_file(self, path: impl AsRef<Path>) -> Result<Replay, Refused> {
        let path = path.as_ref();
        let unread = |why| Refused::new(Refusal::ReadFault, format!("{} can't be read: {why}", path.display()));
        self.replay(fs::read(path).map_err(unread)?)
    }

    /// The lines of a replay with these limits: see [`replay_text`].
    pub fn replay_text(self, text: impl AsRef<[u8]>) -> Result<(String, Option<Refused>), Refused> {
        self.check()?;
        let text = text.as_ref();
        let (lines, fault) = library::replay(text, self.readers, self.journal)?;
        let lines = String::from_utf8(lines).map_err(|_| Refusal::Trapped)?;
        Ok((lines, fault.map(|(refusal, record)| Fault { refusal, record, after: None }.refused(text))))
    }
}

/// A replay, which carries out a record each time that it is asked for the next outcome.
///
/// An outcome is an error only where memory runs out, or as [`Refusal::Trapped`]; the iteration then ends. Readings of
/// the same published board and majority are counted once.
pub struct Replay {
    /// The register, or the fault of its opening.
    register: Result<Register, Refused>,
    items: vec::IntoIter<board_item>,
    fault: Option<Refused>,
    /// The counts of what is published, by those majorities by which it was read.
    read: [Option<Indices>; Majority::ALL.len()],
}

impl Replay {
    /// The fault that ends the run, if one does. It is known before the first outcome.
    pub fn fault(&self) -> Option<&Refused> {
        self.fault.as_ref()
    }

    /// The readings alone.
    ///
    /// ```
    /// use voting_board::replay;
    ///
    /// let run = replay("member,votes\nAAA,50\nscript\nopen,1\nmove,AAA,1\npublish\nread,1,85\nread,1,quorum\n")?;
    /// let omegas = run.readings().map(|it| Ok(it?.indices.omega)).collect::<Result<Vec<_>, voting_board::Refused>>()?;
    /// assert_eq!(omegas, [1, 1]);
    /// # Ok::<(), voting_board::Refused>(())
    /// ```
    pub fn readings(self) -> impl Iterator<Item = Result<Reading, Refused>> {
        self.filter_map(|it| match it {
            Ok(Outcome::Reading(it)) => Some(Ok(it)),
            Ok(_) => None,
            Err(why) => Some(Err(why)),
        })
    }

    /// The refused commands alone.
    pub fn refused(self) -> impl Iterator<Item = Result<Refused, Refused>> {
        self.filter_map(|it| match it {
            Ok(Outcome::Refused(why)) => Some(Ok(why)),
            Ok(_) => None,
            Err(why) => Some(Err(why)),
        })
    }

    /// Carries out the records that are left, and returns the register as the run leaves it. A fault of the
    /// opening refuses it.
    pub fn register(self) -> Result<Register, Refused> {
        let mut register = self.register?;
        for item in self.items.filter(|it| it.command.kind != sys::BOARD_READ) {
            match register.carry_out(&record_of(&item)) {
                Err(why) if why.command().is_none() => return Err(why),
                _ => {}
            }
        }
        Ok(register)
    }

    fn outcome(&mut self, item: &board_item) -> Result<Outcome, Refused> {
        let record = item.number;
        if item.command.kind == sys::BOARD_READ {
            return self.reading(item).map(Outcome::Reading);
        }
        let register = self.register.as_mut().map_err(|why| why.clone())?;
        let result = register.carry_out(&record_of(item));
        if item.command.kind == sys::BOARD_PUBLISH {
            self.read = Default::default();
            return result.map(|number| Outcome::Published { record, number });
        }
        match result {
            Ok(number) => Ok(Outcome::Accepted { record, number }),
            Err(why) if why.command().is_some() => Ok(Outcome::Refused(why)),
            Err(why) => Err(why),
        }
    }

    fn reading(&mut self, item: &board_item) -> Result<Reading, Refused> {
        let register = self.register.as_ref().map_err(Refused::clone)?;
        let majority = Majority::ALL[item.majority as usize];
        let kept = &mut self.read[majority as usize];
        let indices = match kept {
            Some(indices) => indices.clone(),
            None => kept.insert(register.read(majority)?).clone(),
        };
        Ok(Reading { record: item.number, reader: item.reader, front: register.published(), indices })
    }
}

fn record_of(item: &board_item) -> Record {
    Record { command: item.command, number: item.number, from: item.from as usize, to: item.to as usize }
}

impl Iterator for Replay {
    type Item = Result<Outcome, Refused>;

    fn next(&mut self) -> Option<Self::Item> {
        let item = self.items.next()?;
        let outcome = self.outcome(&item);
        if outcome.is_err() {
            self.items = Vec::new().into_iter();
        }
        Some(outcome)
    }

    fn size_hint(&self) -> (usize, Option<usize>) {
        (0, Some(self.items.len()))
    }
}

impl fmt::Debug for Replay {
    fn fmt(&self, to: &mut fmt::Formatter<'_>) -> fmt::Result {
        let left = self.items.len();
        to.debug_struct("Replay")
            .field("register", &self.register)
            .field("left", &left)
            .field("fault", &self.fault)
            .finish()
    }
}
