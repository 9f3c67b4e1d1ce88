use crate::names::{allowed, CHAIRS, KINDS, MEMBER_VOTES};
use crate::{script, Code, Refusal, Refused};
use std::fmt;
use std::str::FromStr;
use voting_board_sys as sys;

/// A command of a register. Its text is the record of a script.
///
/// A chair is a number from 1 to 32, and votes are at most 2^40; a register refuses any others.
///
/// ```
/// use voting_board::{Code, Command};
///
/// let command = Command::Move { code: Code::new("AAA")?, chair: None };
/// assert_eq!(command.to_string(), "move,AAA,none");
/// assert_eq!("move,AAA,none".parse(), Ok(command));
/// # Ok::<(), voting_board::Refused>(())
/// ```
#[derive(Clone, Copy, Debug, PartialEq, Eq, Hash)]
#[cfg_attr(feature = "serde", derive(serde::Serialize, serde::Deserialize))]
#[cfg_attr(feature = "serde", serde(try_from = "String", into = "String"))]
#[non_exhaustive]
pub enum Command {
    /// Opens a closed chair.
    Open {
        /// The chair, from 1 to 32.
        chair: u8,
    },
    /// Closes an open chair without members.
    Close {
        /// The chair, from 1 to 32.
        chair: u8,
    },
    /// Moves a member to an open chair, or to none.
    Move {
        /// The member.
        code: Code,
        /// The chair, from 1 to 32, or none.
        chair: Option<u8>,
    },
    /// Sets the votes of a member.
    Votes {
        /// The member.
        code: Code,
        /// Its votes, at most 2^40.
        votes: u64,
    },
    /// Suspends the votes of a member.
    Suspend {
        /// The member.
        code: Code,
    },
    /// Ends the suspension of a member.
    Restore {
        /// The member.
        code: Code,
    },
    /// Adds a member, in no chair.
    Admit {
        /// The member.
        code: Code,
        /// Its votes, at most 2^40.
        votes: u64,
    },
    /// Removes a member that is in no chair.
    Withdraw {
        /// The member.
        code: Code,
    },
}

impl Command {
    /// The command as the library takes it. A chair or votes out of range are refused.
    pub(crate) fn checked(&self) -> Result<sys::board_command, Refused> {
        match *self {
            Self::Open { chair } | Self::Close { chair } => check_chair("the chair", Some(chair), allowed::CHAIR)?,
            Self::Move { chair, .. } => check_chair("the chair", chair, allowed::SEAT)?,
            Self::Votes { code, votes } | Self::Admit { code, votes } => {
                check_votes(&format_args!("the votes of {code}"), votes)?
            }
            _ => {}
        }
        Ok(self.raw())
    }

    fn raw(&self) -> sys::board_command {
        let command = sys::board_command::default();
        let of = |kind, code: Code| sys::board_command { kind, code: code.bytes(), ..command };
        match *self {
            Self::Open { chair } => sys::board_command { kind: sys::BOARD_OPEN, chair: chair.into(), ..command },
            Self::Close { chair } => sys::board_command { kind: sys::BOARD_CLOSE, chair: chair.into(), ..command },
            Self::Move { code, chair } => {
                sys::board_command { chair: chair.unwrap_or(0).into(), ..of(sys::BOARD_MOVE, code) }
            }
            Self::Votes { code, votes } => sys::board_command { votes, ..of(sys::BOARD_VOTES, code) },
            Self::Suspend { code } => of(sys::BOARD_SUSPEND, code),
            Self::Restore { code } => of(sys::BOARD_RESTORE, code),
            Self::Admit { code, votes } => sys::board_command { votes, ..of(sys::BOARD_ADMIT, code) },
            Self::Withdraw { code } => of(sys::BOARD_WITHDRAW, code),
        }
    }

    /// The command that the library wrote, or none if its kind is that of another record.
    pub(crate) fn of_raw(raw: &sys::board_command) -> Option<Self> {
        let (code, votes) = (Code::of_bytes(raw.code), raw.votes);
        let chair = raw.chair as u8;
        Some(match raw.kind {
            sys::BOARD_OPEN => Self::Open { chair },
            sys::BOARD_CLOSE => Self::Close { chair },
            sys::BOARD_MOVE => Self::Move { code, chair: (chair > 0).then_some(chair) },
            sys::BOARD_VOTES => Self::Votes { code, votes },
            sys::BOARD_SUSPEND => Self::Suspend { code },
            sys::BOARD_RESTORE => Self::Restore { code },
            sys::BOARD_ADMIT => Self::Admit { code, votes },
            sys::BOARD_WITHDRAW => Self::Withdraw { code },
            _ => return None,
        })
    }
}

pub(crate) fn check_chair(place: &str, chair: Option<u8>, sentence: &str) -> Result<(), Refused> {
    match chair {
        Some(number) if number == 0 || usize::from(number) > CHAIRS => {
            Err(Refused::new(Refusal::BadChair, format!("{place} is {number}: {sentence}")))
        }
        _ => Ok(()),
    }
}

/// What is wrong with a field of a record, in the words of the call of its kind; none where it is no field.
pub(crate) fn wrong_field(record: &str) -> Option<Refused> {
    let fields: Vec<&str> = record.split(',').collect();
    match fields[..] {
        ["open" | "close", chair] => chair_in(chair, allowed::CHAIR).err(),
        ["move", code, chair] => Code::new(code).err().or_else(|| match chair {
            "none" => None,
            _ => chair_in(chair, allowed::SEAT).err(),
        }),
        ["votes" | "admit", code, votes] => Code::new(code).and_then(|_| votes_in(code, votes)).err(),
        ["suspend" | "restore" | "withdraw", code] => Code::new(code).err(),
        _ => None,
    }
}

fn chair_in(field: &str, sentence: &str) -> Result<(), Refused> {
    let number =
        field.parse().map_err(|_| Refused::new(Refusal::BadChair, format!("the chair is {field}: {sentence}")));
    check_chair("the chair", Some(number?), sentence)
}

fn votes_in(code: &str, field: &str) -> Result<(), Refused> {
    let place = format!("the votes of {code}");
    let message = || format!("{place} are {field}: {}", allowed::VOTES);
    check_votes(&place, field.parse().map_err(|_| Refused::new(Refusal::BadRecord, message()))?)
}

pub(crate) fn check_votes(place: &dyn fmt::Display, votes: u64) -> Result<(), Refused> {
    if votes > MEMBER_VOTES {
        return Err(Refused::new(Refusal::VotesTooLarge, format!("{place} are {votes}: {}", allowed::VOTES)));
    }
    Ok(())
}

impl fmt::Display for Command {
    fn fmt(&self, to: &mut fmt::Formatter<'_>) -> fmt::Result {
        let kind = KINDS[self.raw().kind as usize];
        match *self {
            Self::Open { chair } | Self::Close { chair } => write!(to, "{kind},{chair}"),
            Self::Move { code, chair: Some(chair) } => write!(to, "{kind},{code},{chair}"),
            Self::Move { code, chair: None } => write!(to, "{kind},{code},none"),
            Self::Votes { code, votes } | Self::Admit { code, votes } => write!(to, "{kind},{code},{votes}"),
            Self::Suspend { code } | Self::Restore { code } | Self::Withdraw { code } => write!(to, "{kind},{code}"),
        }
    }
}

impl FromStr for Command {
    type Err = Refused;

    /// The command of a record, which the library reads. Any other text is refused as [`Refusal::BadRecord`].
    fn from_str(text: &str) -> Result<Self, Refused> {
        let refused = || Refused::new(Refusal::BadRecord, format!("'{text}' is no record of a command"));
        let read = script::read_records(text.as_bytes())?;
        match (read.fault, read.records.as_slice()) {
            (None, [record]) => Self::of_raw(&record.command).ok_or_else(refused),
            _ => Err(refused()),
        }
    }
}
