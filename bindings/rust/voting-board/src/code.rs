use crate::names::allowed;
use crate::{Refusal, Refused};
use std::fmt;
use std::str::FromStr;

/// The code of a member: three ASCII capitals.
///
/// ```
/// use voting_board::Code;
///
/// let code = Code::new("AAA")?;
/// assert_eq!((code.as_str(), code.to_string()), ("AAA", "AAA".to_string()));
/// assert!(code == "AAA" && code < Code::new("AAB")?);
/// assert_eq!(Code::new("aaa").unwrap_err().to_string(), "the code is 'aaa': a code is three ASCII capitals");
/// # Ok::<(), voting_board::Refused>(())
/// ```
#[derive(Clone, Copy, PartialEq, Eq, PartialOrd, Ord, Hash)]
#[cfg_attr(feature = "serde", derive(serde::Serialize, serde::Deserialize))]
#[cfg_attr(feature = "serde", serde(try_from = "String", into = "String"))]
pub struct Code([u8; 3]);

impl Code {
    /// The code of a text. Any text that isn't three ASCII capitals is refused as [`Refusal::BadMember`].
    pub fn new(text: &str) -> Result<Self, Refused> {
        let refused = || Refused::new(Refusal::BadMember, format!("the code is '{text}': {}", allowed::CODE));
        Self::checked(text).ok_or_else(refused)
    }

    pub(crate) fn checked(text: &str) -> Option<Self> {
        let letters = <[u8; 3]>::try_from(text.as_bytes()).ok()?;
        letters.iter().all(u8::is_ascii_uppercase).then_some(Self(letters))
    }

    /// The code of the bytes of a struct of the library.
    pub(crate) fn of_bytes(bytes: [u8; 4]) -> Self {
        Self([bytes[0], bytes[1], bytes[2]])
    }

    /// Its bytes in a struct of the library: three capitals and a 0.
    pub(crate) fn bytes(self) -> [u8; 4] {
        [self.0[0], self.0[1], self.0[2], 0]
    }

    /// Its three letters.
    pub fn as_str(&self) -> &str {
        std::str::from_utf8(&self.0).unwrap_or_default()
    }
}

impl AsRef<str> for Code {
    fn as_ref(&self) -> &str {
        self.as_str()
    }
}

impl PartialEq<str> for Code {
    fn eq(&self, other: &str) -> bool {
        self.as_str() == other
    }
}

impl PartialEq<&str> for Code {
    fn eq(&self, other: &&str) -> bool {
        self.as_str() == *other
    }
}

impl FromStr for Code {
    type Err = Refused;

    fn from_str(text: &str) -> Result<Self, Refused> {
        Self::new(text)
    }
}

impl TryFrom<&str> for Code {
    type Error = Refused;

    fn try_from(text: &str) -> Result<Self, Refused> {
        Self::new(text)
    }
}

impl fmt::Display for Code {
    fn fmt(&self, to: &mut fmt::Formatter<'_>) -> fmt::Result {
        to.pad(self.as_str())
    }
}

impl fmt::Debug for Code {
    fn fmt(&self, to: &mut fmt::Formatter<'_>) -> fmt::Result {
        to.pad(self.as_str())
    }
}
