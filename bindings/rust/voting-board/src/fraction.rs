use std::cmp::Ordering;
use std::fmt;

/// An exact fraction of whole numbers, in lowest terms. Fractions are equal, and ordered, as numbers. As text a whole
/// number has no denominator.
///
/// ```
/// use voting_board::Fraction;
///
/// let half = Fraction::new(2, 4).unwrap();
/// assert_eq!((half.numerator(), half.denominator()), (1, 2));
/// assert_eq!(half, Fraction::new(1, 2).unwrap());
/// assert!(half > Fraction::new(1, 3).unwrap());
/// assert_eq!(half.to_string(), "1/2");
/// assert_eq!(f64::from(half), 0.5);
/// assert_eq!(Fraction::new(1, 0), None);
/// ```
#[derive(Clone, Copy, PartialEq, Eq, Hash)]
#[cfg_attr(feature = "serde", derive(serde::Serialize, serde::Deserialize))]
#[cfg_attr(feature = "serde", serde(try_from = "crate::data::Parts", into = "crate::data::Parts"))]
pub struct Fraction {
    numerator: u64,
    denominator: u64,
}

impl Fraction {
    /// The fraction of two numbers, or none if the second is 0.
    pub fn new(numerator: u64, denominator: u64) -> Option<Self> {
        (denominator > 0).then(|| Self::reduced(numerator, denominator))
    }

    /// The fraction of a number and one above 0, in lowest terms.
    pub(crate) fn reduced(numerator: u64, denominator: u64) -> Self {
        let divisor = common_divisor(numerator, denominator);
        Self { numerator: numerator / divisor, denominator: denominator / divisor }
    }

    /// The number above the line.
    pub fn numerator(self) -> u64 {
        self.numerator
    }

    /// The number below the line, from 1.
    pub fn denominator(self) -> u64 {
        self.denominator
    }
}

/// The greatest common divisor, by Stein's algorithm; 0 if both numbers are 0.
fn common_divisor(one: u64, other: u64) -> u64 {
    if one == 0 || other == 0 {
        return one | other;
    }
    let twos = (one | other).trailing_zeros();
    let (mut low, mut high) = (one >> one.trailing_zeros(), other >> other.trailing_zeros());
    while low != high {
        let apart = low.abs_diff(high);
        low = low.min(high);
        high = apart >> apart.trailing_zeros();
    }
    low << twos
}

impl Ord for Fraction {
    fn cmp(&self, other: &Self) -> Ordering {
        let product = |one: u64, other: u64| u128::from(one) * u128::from(other);
        product(self.numerator, other.denominator).cmp(&product(other.numerator, self.denominator))
    }
}

impl PartialOrd for Fraction {
    fn partial_cmp(&self, other: &Self) -> Option<Ordering> {
        Some(self.cmp(other))
    }
}

impl From<Fraction> for f64 {
    fn from(it: Fraction) -> f64 {
        it.numerator as f64 / it.denominator as f64
    }
}

impl fmt::Display for Fraction {
    fn fmt(&self, to: &mut fmt::Formatter<'_>) -> fmt::Result {
        match self.denominator {
            1 => to.pad(&self.numerator.to_string()),
            denominator => to.pad(&format!("{}/{denominator}", self.numerator)),
        }
    }
}

impl fmt::Debug for Fraction {
    fn fmt(&self, to: &mut fmt::Formatter<'_>) -> fmt::Result {
        fmt::Display::fmt(self, to)
    }
}
