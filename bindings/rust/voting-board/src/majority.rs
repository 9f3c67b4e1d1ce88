use crate::names::{allowed, MAJORITIES};
use crate::{Refusal, Refused};
use std::fmt;
use std::str::FromStr;

/// The majority by which coalitions win. It is always given: no call has a usual one.
///
/// ```
/// use voting_board::Majority;
///
/// assert_eq!("70".parse(), Ok(Majority::Seventy));
/// assert_eq!(Majority::ALL.map(|it| it.to_string()), ["half", "70", "85", "quorum"]);
/// assert_eq!("HALF".parse::<Majority>().unwrap_err().to_string(), "no majority 'HALF': half, 70, 85 or quorum");
/// ```
#[derive(Clone, Copy, Debug, PartialEq, Eq, PartialOrd, Ord, Hash)]
#[cfg_attr(feature = "serde", derive(serde::Serialize, serde::Deserialize))]
#[cfg_attr(feature = "serde", serde(try_from = "String", into = "String"))]
pub enum Majority {
    /// `half`: more than half of the votes cast, if all open chairs vote.
    Half,
    /// `70`: at least one vote, and at least 70 per cent of the total.
    Seventy,
    /// `85`: at least one vote, and at least 85 per cent of the total.
    EightyFive,
    /// `quorum`: more than half of the open chairs, with at least half of the total.
    Quorum,
}

impl Majority {
    /// All majorities, in the order of the library's numbers.
    pub const ALL: [Self; 4] = [Self::Half, Self::Seventy, Self::EightyFive, Self::Quorum];

    /// Its word in a record: `half`, `70`, `85` or `quorum`.
    pub fn name(self) -> &'static str {
        MAJORITIES[self as usize].0
    }

    /// What wins by it, in a sentence.
    pub fn meaning(self) -> &'static str {
        MAJORITIES[self as usize].1
    }
}

impl fmt::Display for Majority {
    fn fmt(&self, to: &mut fmt::Formatter<'_>) -> fmt::Result {
        to.pad(self.name())
    }
}

impl FromStr for Majority {
    type Err = Refused;

    /// The majority of a word. Any other text is refused as [`Refusal::BadRecord`].
    fn from_str(name: &str) -> Result<Self, Refused> {
        let refused = || Refused::new(Refusal::BadRecord, format!("no majority '{name}': {}", allowed::MAJORITY));
        Self::ALL.into_iter().find(|it| it.name() == name).ok_or_else(refused)
    }
}
