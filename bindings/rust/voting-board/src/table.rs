use crate::command::{check_chair, check_votes};
use crate::names::allowed;
use crate::{Code, Refusal, Refused};
use std::collections::BTreeMap;

/// A row of a table of members, with which a board or a register is given.
///
/// ```
/// use voting_board::MemberRow;
///
/// let row = MemberRow { chair: Some(1), chair_name: Some("North".into()), ..MemberRow::new("AAA", 50) };
/// assert_eq!((row.code.as_str(), row.votes, row.suspended), ("AAA", 50, false));
/// ```
#[derive(Clone, Debug, Default, PartialEq, Eq, Hash)]
#[cfg_attr(feature = "serde", derive(serde::Serialize, serde::Deserialize))]
#[cfg_attr(feature = "serde", serde(deny_unknown_fields))]
pub struct MemberRow {
    /// Its code: three ASCII capitals. [`indices_of_members`](crate::indices_of_members) doesn't look at it.
    #[cfg_attr(feature = "serde", serde(default))]
    pub code: String,
    /// Its votes. In a register at most 2^40.
    pub votes: u64,
    /// Its chair, from 1 to 32, or none.
    #[cfg_attr(feature = "serde", serde(default))]
    pub chair: Option<u8>,
    /// The name of its chair. A chair has one name.
    #[cfg_attr(feature = "serde", serde(default))]
    pub chair_name: Option<String>,
    /// Whether its votes are suspended.
    #[cfg_attr(feature = "serde", serde(default))]
    pub suspended: bool,
}

impl MemberRow {
    /// A member in no chair, whose votes aren't suspended.
    pub fn new(code: impl Into<String>, votes: u64) -> Self {
        Self { code: code.into(), votes, ..Self::default() }
    }

    /// Its code, if it and its votes are those of a register's member.
    pub(crate) fn check(&self) -> Result<Code, Refused> {
        let code = Code::new(&self.code)?;
        check_votes(&"the votes", self.votes)?;
        check_chair("the chair", self.chair, allowed::SEAT)?;
        Ok(code)
    }
}

impl<Text: Into<String>> From<(Text, u64)> for MemberRow {
    fn from((code, votes): (Text, u64)) -> Self {
        Self::new(code, votes)
    }
}

impl From<&MemberRow> for MemberRow {
    fn from(row: &MemberRow) -> Self {
        row.clone()
    }
}

/// The names of the chairs of a table. A second name of a chair is refused by this refusal.
pub(crate) fn names_of(rows: &[MemberRow], refusal: Refusal) -> Result<BTreeMap<u8, String>, Refused> {
    let mut names: BTreeMap<u8, (usize, &str)> = BTreeMap::new();
    for (row, it) in (1..).zip(rows) {
        if let (Some(chair), Some(name)) = (it.chair, it.chair_name.as_deref()) {
            let (first, known) = *names.entry(chair).or_insert((row, name));
            if known != name {
                let message = format!("the name of chair {chair} is '{name}': it is '{known}' in row {first}");
                return Err(Refused::new(refusal, message).in_row(row));
            }
        }
    }
    Ok(names.into_iter().map(|(chair, (_, name))| (chair, name.to_string())).collect())
}
