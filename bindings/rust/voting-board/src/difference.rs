use crate::Fraction;
use std::cmp::Ordering;
use std::fmt;
use std::ops::Sub;

/// The exact difference of two fractions, in lowest terms: a gain or, below 0, a loss. Differences are equal, and
/// ordered, as numbers. As text a whole number has no denominator.
///
/// ```
/// use voting_board::{indices, Majority};
///
/// let share = |weights: &[u64]| indices(weights, Majority::Half).unwrap().chairs[0].share.unwrap();
/// let gain = share(&[50, 50, 1]) - share(&[50, 49, 1]);
/// assert_eq!(gain.to_string(), "-4/15");
/// assert!(gain.is_negative());
/// assert_eq!((gain.numerator(), gain.denominator()), (4, 15));
/// assert_eq!(f64::from(gain), -4.0 / 15.0);
/// ```
#[derive(Clone, Copy, PartialEq, Eq, Hash)]
pub struct Difference {
    is_negative: bool,
    numerator: u128,
    denominator: u128,
}

impl Difference {
    /// Whether it is below 0.
    pub fn is_negative(self) -> bool {
        self.is_negative
    }

    /// The number above the line, without its sign.
    pub fn numerator(self) -> u128 {
        self.numerator
    }

    /// The number below the line, from 1.
    pub fn denominator(self) -> u128 {
        self.denominator
    }
}

impl Sub for Fraction {
    type Output = Difference;

    /// The numbers of a fraction have 64 bits, so no product overflows.
    fn sub(self, other: Self) -> Difference {
        let product = |one: u64, other: u64| u128::from(one) * u128::from(other);
        let (more, less) =
            (product(self.numerator(), other.denominator()), product(other.numerator(), self.denominator()));
        let (numerator, denominator) = (more.abs_diff(less), product(self.denominator(), other.denominator()));
        let divisor = common_divisor(numerator, denominator);
        Difference { is_negative: more < less, numerator: numerator / divisor, denominator: denominator / divisor }
    }
}

/// The greatest common divisor of a number and one above 0.
fn common_divisor(mut rest: u128, mut divisor: u128) -> u128 {
    while rest > 0 {
        (rest, divisor) = (divisor % rest, rest);
    }
    divisor
}

/// Compares two fractions, each of a number over one above 0, by their whole parts, then by what is left, upside down.
fn compared(one: (u128, u128), other: (u128, u128)) -> Ordering {
    let whole = (one.0 / one.1).cmp(&(other.0 / other.1));
    match (whole, one.0 % one.1, other.0 % other.1) {
        (Ordering::Equal, 0, rest) => 0.cmp(&rest),
        (Ordering::Equal, _, 0) => Ordering::Greater,
        (Ordering::Equal, rest, other_rest) => compared((other.1, other_rest), (one.1, rest)),
        _ => whole,
    }
}

impl Ord for Difference {
    fn cmp(&self, other: &Self) -> Ordering {
        let size = compared((self.numerator, self.denominator), (other.numerator, other.denominator));
        match (self.is_negative, other.is_negative) {
            (true, true) => size.reverse(),
            (false, false) => size,
            (is_negative, _) => other.is_negative.cmp(&is_negative),
        }
    }
}

impl PartialOrd for Difference {
    fn partial_cmp(&self, other: &Self) -> Option<Ordering> {
        Some(self.cmp(other))
    }
}

impl From<Difference> for f64 {
    fn from(it: Difference) -> f64 {
        let size = it.numerator as f64 / it.denominator as f64;
        if it.is_negative {
            -size
        } else {
            size
        }
    }
}

impl fmt::Display for Difference {
    fn fmt(&self, to: &mut fmt::Formatter<'_>) -> fmt::Result {
        let sign = if self.is_negative { "-" } else { "" };
        match self.denominator {
            1 => to.pad(&format!("{sign}{}", self.numerator)),
            denominator => to.pad(&format!("{sign}{}/{denominator}", self.numerator)),
        }
    }
}

impl fmt::Debug for Difference {
    fn fmt(&self, to: &mut fmt::Formatter<'_>) -> fmt::Result {
        fmt::Display::fmt(self, to)
    }
}

#[cfg(test)]
mod tests {
    use super::*;

    fn fractions() -> Vec<Fraction> {
        let numbers = [0, 1, 2, 3, 7, u64::MAX - 1, u64::MAX];
        let pair = |one| numbers.iter().filter_map(move |&other| Fraction::new(one, other));
        numbers.iter().flat_map(|&it| pair(it)).collect()
    }

    // Catches: products that wrap, a sign of the wrong side, and an order that isn't that of the numbers.
    #[test]
    fn differences_are_exact_and_ordered() {
        let fractions = fractions();
        for &one in &fractions {
            for &other in &fractions {
                let gain = one - other;
                assert_eq!(gain.is_negative(), one < other);
                assert_eq!(gain.numerator() == 0, one == other);
                let back = other - one;
                assert_eq!((back.numerator(), back.denominator()), (gain.numerator(), gain.denominator()));
                for &third in &fractions {
                    assert_eq!((one - third).cmp(&(other - third)), one.cmp(&other));
                    assert_eq!((third - one).cmp(&(third - other)), other.cmp(&one));
                }
            }
        }
    }
}
