use crate::{Fraction, Majority};
use std::collections::BTreeMap;
use std::ops::{Deref, Index};
use std::{array, fmt, slice};
use voting_board_sys::{board_chair, board_counts};

/// An open chair and its voting power.
#[derive(Clone, Debug, PartialEq, Eq, Hash)]
#[cfg_attr(feature = "serde", derive(serde::Serialize, serde::Deserialize))]
#[non_exhaustive]
pub struct Chair {
    /// Its number, from 1 to 32.
    pub chair: u8,
    /// Its name, if it was given one.
    pub name: Option<String>,
    /// The votes that it casts as one block.
    pub weight: u64,
    /// Its swings: coalitions of the other chairs that lose, and that win once it is added.
    pub swings: u64,
    /// The Banzhaf measure: its swings over all coalitions of the other chairs.
    pub banzhaf: Fraction,
    /// The normalised Banzhaf index: its swings over those of all chairs; none if no chair has one.
    pub share: Option<Fraction>,
    /// The power to prevent action: its swings over the coalitions that win; none if none wins.
    pub prevent: Option<Fraction>,
    /// The power to initiate action: its swings over the coalitions that lose, of which the empty one is always one.
    pub initiate: Fraction,
}

/// The winning coalitions of a board by a majority, and the voting power of its chairs.
///
/// The counts are the library's, which are proved; the fractions are made from them by this crate.
#[derive(Clone, Debug, PartialEq, Eq, Hash)]
#[cfg_attr(feature = "serde", derive(serde::Serialize, serde::Deserialize))]
#[non_exhaustive]
pub struct Indices {
    /// The majority by which it is counted.
    pub majority: Majority,
    /// The least weight that can win, in votes.
    pub quota: u64,
    /// The least number of chairs that can win; 0 if the majority requires none.
    pub least_size: u64,
    /// The votes of all open chairs together.
    pub cast: u64,
    /// The total voting power, in votes.
    pub total: u64,
    /// The number of winning coalitions.
    pub omega: u64,
    /// The number of all coalitions: 2 to the power of the number of open chairs.
    pub coalitions: u64,
    /// Coleman's power of the board to act: `omega` over `coalitions`.
    pub act: Fraction,
    /// The open chairs by number.
    pub chairs: Vec<Chair>,
}

/// The counts of a board by each majority, which is their index. They are also an array, in the order of
/// [`Majority::ALL`].
///
/// ```
/// use voting_board::{indices_of_all, Majority};
///
/// let all = indices_of_all(&[50, 49, 1])?;
/// assert_eq!(all[Majority::EightyFive].quota, 85);
/// assert_eq!(all.iter().map(|it| it.quota).collect::<Vec<_>>(), [51, 70, 85, 50]);
/// # Ok::<(), voting_board::Refused>(())
/// ```
#[derive(Clone, Debug, PartialEq, Eq, Hash)]
#[cfg_attr(feature = "serde", derive(serde::Serialize, serde::Deserialize))]
pub struct ByMajority([Indices; Majority::ALL.len()]);

impl Index<Majority> for ByMajority {
    type Output = Indices;

    fn index(&self, majority: Majority) -> &Indices {
        &self.0[majority as usize]
    }
}

impl Deref for ByMajority {
    type Target = [Indices; Majority::ALL.len()];

    fn deref(&self) -> &Self::Target {
        &self.0
    }
}

impl IntoIterator for ByMajority {
    type Item = Indices;
    type IntoIter = array::IntoIter<Indices, { Majority::ALL.len() }>;

    fn into_iter(self) -> Self::IntoIter {
        self.0.into_iter()
    }
}

impl<'a> IntoIterator for &'a ByMajority {
    type Item = &'a Indices;
    type IntoIter = slice::Iter<'a, Indices>;

    fn into_iter(self) -> Self::IntoIter {
        self.0.iter()
    }
}

/// The names of chairs by number.
pub(crate) type Names = BTreeMap<u8, String>;

impl Indices {
    pub(crate) fn new(majority: Majority, counts: &board_counts, names: &Names) -> Self {
        let rows = &counts.rows[..counts.chairs as usize];
        let swings = rows.iter().map(|row| row.swings).sum();
        let board_counts { quota, least_size, cast, total, omega, coalitions, .. } = *counts;
        let chairs = rows.iter().map(|row| Chair::new(row, swings, counts, names)).collect();
        let act = Fraction::reduced(omega, coalitions);
        Self { majority, quota, least_size, cast, total, omega, coalitions, act, chairs }
    }

    /// The counts by each majority, in the order of `Majority::ALL`.
    pub(crate) fn of_all(counts: &[board_counts; Majority::ALL.len()], names: &Names) -> ByMajority {
        ByMajority(Majority::ALL.map(|it| Self::new(it, &counts[it as usize], names)))
    }

    /// The open chair of this number.
    ///
    /// ```
    /// use voting_board::{indices, Majority};
    ///
    /// let board = indices(&[50, 49, 1], Majority::Half)?;
    /// assert_eq!(board.chair(1).map(|it| it.swings), Some(3));
    /// assert_eq!(board.chair(4), None);
    /// # Ok::<(), voting_board::Refused>(())
    /// ```
    pub fn chair(&self, chair: u8) -> Option<&Chair> {
        self.chairs.iter().find(|it| it.chair == chair)
    }
}

/// What wins in a line, then a table of the chairs, with indices to six decimals.
impl fmt::Display for Indices {
    fn fmt(&self, to: &mut fmt::Formatter<'_>) -> fmt::Result {
        let size = if self.least_size > 0 { format!(" of {} chairs or more", self.least_size) } else { String::new() };
        let Self { majority, quota, total, omega, coalitions, .. } = self;
        write!(to, "Majority {majority}: {quota} of {total} votes{size} win, {omega} of {coalitions} coalitions do")?;
        let name = |it: &Chair| it.name.clone().unwrap_or_default();
        let width = self.chairs.iter().map(|it| name(it).chars().count()).max().unwrap_or(0);
        for it in &self.chairs {
            let [banzhaf, share, prevent, initiate] =
                [Some(it.banzhaf), it.share, it.prevent, Some(it.initiate)].map(|it| it.map_or("-".into(), decimals));
            write!(to, "\n{:>2} {:width$}{:>16} votes {:>11} swings", it.chair, name(it), it.weight, it.swings)?;
            write!(to, "  banzhaf {banzhaf:>8}  share {share:>8}  prevent {prevent:>8}  initiate {initiate:>8}")?;
        }
        Ok(())
    }
}

fn decimals(it: Fraction) -> String {
    format!("{:.6}", f64::from(it))
}

impl Chair {
    fn new(row: &board_chair, all_swings: u64, counts: &board_counts, names: &Names) -> Self {
        let board_chair { chair, weight, swings } = *row;
        let chair = chair as u8;
        Self {
            chair,
            name: names.get(&chair).cloned(),
            weight,
            swings,
            banzhaf: Fraction::reduced(swings, counts.coalitions / 2),
            share: Fraction::new(swings, all_swings),
            prevent: Fraction::new(swings, counts.omega),
            initiate: Fraction::reduced(swings, counts.coalitions - counts.omega),
        }
    }
}
