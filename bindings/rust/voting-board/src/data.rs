//! Values as data of serde: a fraction by its two numbers; majorities, codes and commands as their text.
use crate::{Code, Command, Fraction, Majority, Refused};

/// The numbers of a fraction.
#[derive(serde::Serialize, serde::Deserialize)]
pub(crate) struct Parts {
    numerator: u64,
    denominator: u64,
}

impl From<Fraction> for Parts {
    fn from(it: Fraction) -> Self {
        Self { numerator: it.numerator(), denominator: it.denominator() }
    }
}

impl TryFrom<Parts> for Fraction {
    type Error = &'static str;

    fn try_from(it: Parts) -> Result<Self, Self::Error> {
        Fraction::new(it.numerator, it.denominator).ok_or("the denominator of a fraction is 0")
    }
}

/// Conversions from a text and into one.
macro_rules! as_text {
    ($($name:ident)*) => {$(
        impl TryFrom<String> for $name {
            type Error = Refused;

            fn try_from(text: String) -> Result<Self, Refused> {
                text.parse()
            }
        }

        impl From<$name> for String {
            fn from(it: $name) -> String {
                it.to_string()
            }
        }
    )*};
}

as_text!(Majority Code Command);
