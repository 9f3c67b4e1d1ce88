use crate::command::check_chair;
use crate::indices::Names;
use crate::names::{allowed, CHAIRS, TOTAL_VOTES};
use crate::table::names_of;
use crate::{library, ByMajority, Indices, Majority, MemberRow, Refusal, Refused};
use std::sync::atomic::{AtomicUsize, Ordering};
use std::thread;
use voting_board_sys::{board_member, BOARD_SHEET_WORDS};

/// A board without a register: the weights of its chairs in votes, perhaps their names, and perhaps a total.
///
/// ```
/// use voting_board::{Board, Majority};
///
/// let board = Board::named([("North", 50), ("South", 49), ("West", 1)]).total(120);
/// let counted = board.indices(Majority::Half)?;
/// assert_eq!((counted.cast, counted.total, counted.omega), (100, 120, 3));
/// assert_eq!(counted.chairs[0].name.as_deref(), Some("North"));
/// # Ok::<(), voting_board::Refused>(())
/// ```
#[derive(Clone, Debug, Default, PartialEq, Eq)]
pub struct Board {
    weights: Vec<u64>,
    names: Names,
    total: Option<u64>,
}

impl Board {
    /// A board with these weights of its chairs 1, 2 and so on. The total is their sum.
    pub fn new(weights: impl Into<Vec<u64>>) -> Self {
        Self { weights: weights.into(), ..Self::default() }
    }

    /// A board with these names and weights of its chairs 1, 2 and so on.
    pub fn named<Name: Into<String>>(chairs: impl IntoIterator<Item = (Name, u64)>) -> Self {
        let (names, weights): (Vec<Name>, Vec<u64>) = chairs.into_iter().unzip();
        let names = (1..=u8::MAX).zip(names).map(|(chair, name)| (chair, name.into()));
        Self { weights, names: names.collect(), total: None }
    }

    /// The same with another total voting power, in votes: at least the sum of the weights, and at most 2^48.
    #[must_use]
    pub fn total(self, total: u64) -> Self {
        Self { total: Some(total), ..self }
    }

    /// The counts by a majority.
    ///
    /// Refused as [`Refusal::BadSheet`] are more than 32 weights, and a total that is out of range.
    pub fn indices(&self, majority: Majority) -> Result<Indices, Refused> {
        let total = self.checked_total()?;
        let counts = library::counts_of_weights(&self.weights, total, majority)?;
        Ok(Indices::new(majority, &counts, &self.names))
    }

    /// The counts by each majority, refused likewise. It takes less time than a
    /// count by each.
    pub fn indices_of_all(&self) -> Result<ByMajority, Refused> {
        let total = self.checked_total()?;
        let mut words = [0; BOARD_SHEET_WORDS];
        for (word, weight) in words.iter_mut().zip(&self.weights) {
            *word = weight + 1;
        }
        words[CHAIRS] = total;
        let counts = library::all_counts_of_sheet(&words)?;
        Ok(Indices::of_all(&counts, &self.names))
    }

    /// The total, if it and the weights are a board's.
    fn checked_total(&self) -> Result<u64, Refused> {
        let many = self.weights.len();
        if many > CHAIRS {
            return Err(bad_sheet(format!("{many} weights: {}", allowed::WEIGHTS)));
        }
        let sum = self.weights.iter().copied().map(u128::from).sum();
        let total = checked_total(self.total.map_or(sum, u128::from))?;
        if u128::from(total) < sum {
            return Err(bad_sheet(format!("the total is {total}: {}, {sum}", allowed::TOTAL_LEAST)));
        }
        Ok(total)
    }
}

fn bad_sheet(message: String) -> Refused {
    Refused::new(Refusal::BadSheet, message)
}

/// A total of votes that is at most 2^48.
fn checked_total(total: u128) -> Result<u64, Refused> {
    let within = u64::try_from(total).ok().filter(|&it| it <= TOTAL_VOTES);
    within.ok_or_else(|| bad_sheet(format!("the total is {total}: {}", allowed::TOTAL_MOST)))
}

/// The counts of a board by the weights of its chairs 1, 2 and so on, whose total is their sum. [`Board`] has names of
/// chairs and another total.
///
/// Refused as [`Refusal::BadSheet`] are more than 32 weights, and a sum above 2^48.
///
/// ```
/// use voting_board::{indices, Majority};
///
/// let board = indices(&[50, 49, 1], Majority::Half)?;
/// assert_eq!((board.quota, board.omega, board.coalitions), (51, 3, 8));
/// let shares: Vec<_> = board.chairs.iter().map(|it| it.share.unwrap().to_string()).collect();
/// assert_eq!(shares, ["3/5", "1/5", "1/5"]);
/// # Ok::<(), voting_board::Refused>(())
/// ```
///
/// Votes are whole numbers from 0, and the majority is always given:
///
/// ```compile_fail
/// voting_board::indices(&[50, -1], voting_board::Majority::Half);
/// ```
///
/// ```compile_fail
/// voting_board::indices(&[0.5], voting_board::Majority::Half);
/// ```
///
/// ```compile_fail
/// voting_board::indices(&[50]);
/// ```
pub fn indices(weights: &[u64], majority: Majority) -> Result<Indices, Refused> {
    Board::new(weights).indices(majority)
}

/// The counts of such a board by each majority, refused likewise.
///
/// ```
/// use voting_board::{indices_of_all, Majority};
///
/// let all = indices_of_all(&[50, 49, 1])?;
/// assert!(all.iter().map(|it| it.majority).eq(Majority::ALL));
/// assert_eq!(all[Majority::Quorum].quota, 50);
/// # Ok::<(), voting_board::Refused>(())
/// ```
pub fn indices_of_all(weights: &[u64]) -> Result<ByMajority, Refused> {
    Board::new(weights).indices_of_all()
}

/// The counts of a board that is given by its members, in any order. A chair is open if a member sits in it, suspended
/// or not, or if `open_chairs` has its number. Its weight is the votes of its members that aren't suspended, and the
/// total is the votes of all members that aren't suspended, in a chair or in none.
///
/// Refused as [`Refusal::BadSheet`] are a chair that isn't from 1 to 32, a chair with two names, and a total above
/// 2^48.
///
/// ```
/// use voting_board::{indices_of_members, Majority, MemberRow};
///
/// let seated = |code: &str, votes, chair| MemberRow { chair: Some(chair), ..MemberRow::new(code, votes) };
/// let members = [seated("AAA", 50, 1), seated("BBB", 49, 2), seated("CCC", 1, 2), MemberRow::new("DDD", 7)];
/// let board = indices_of_members(&members, &[3], Majority::Half)?;
/// let weights: Vec<_> = board.chairs.iter().map(|it| (it.chair, it.weight)).collect();
/// assert_eq!((weights, board.total), (vec![(1, 50), (2, 50), (3, 0)], 107));
/// # Ok::<(), voting_board::Refused>(())
/// ```
pub fn indices_of_members(members: &[MemberRow], open_chairs: &[u8], majority: Majority) -> Result<Indices, Refused> {
    let as_sheet = |why: Refused| bad_sheet(why.to_string());
    let mut mask = 0;
    for (at, &chair) in (1..).zip(open_chairs) {
        check_chair(&format!("open chair {at}"), Some(chair), allowed::CHAIR).map_err(as_sheet)?;
        mask |= 1 << (chair - 1);
    }
    for (row, it) in (1..).zip(members) {
        check_chair("the chair", it.chair, allowed::SEAT).map_err(|why| as_sheet(why).in_row(row))?;
    }
    let names = names_of(members, Refusal::BadSheet)?;
    let voting = members.iter().filter(|it| !it.suspended);
    checked_total(voting.map(|it| u128::from(it.votes)).sum())?;
    let raw = |it: &MemberRow| {
        let (chair, suspended) = (it.chair.unwrap_or(0).into(), it.suspended.into());
        board_member { votes: it.votes, chair, suspended }
    };
    let rows: Vec<board_member> = members.iter().map(raw).collect();
    let counts = library::counts_of_members(&rows, mask, majority)?;
    Ok(Indices::new(majority, &counts, &names))
}

/// The counts of many boards, each by these majorities, on all processors. The result has a row for each board, with
/// the counts in the order of the majorities.
///
/// The first board that is refused refuses the whole, and [`Refused::row`] counts it from 1.
///
/// ```
/// use voting_board::{indices_of_many, Board, Majority};
///
/// let boards = [[50, 49, 1], [40, 40, 20]].map(Board::new);
/// let many = indices_of_many(&boards, &[Majority::Half, Majority::EightyFive])?;
/// assert_eq!((many[1][0].omega, many[1][1].omega), (4, 1));
/// # Ok::<(), voting_board::Refused>(())
/// ```
pub fn indices_of_many(boards: &[Board], majorities: &[Majority]) -> Result<Vec<Vec<Indices>>, Refused> {
    let taken = AtomicUsize::new(0);
    let threads = thread::available_parallelism().map_or(1, usize::from).min(boards.len());
    let parts: Vec<Part> = thread::scope(|scope| {
        // Where the system starts no further thread, those that there are count all boards.
        let start = |_| thread::Builder::new().spawn_scoped(scope, || count_some(boards, majorities, &taken)).ok();
        let others: Vec<_> = (1..threads).map_while(start).collect();
        let own = count_some(boards, majorities, &taken);
        let join = |it: thread::ScopedJoinHandle<'_, Part>| it.join().expect("a count doesn't panic");
        [own].into_iter().chain(others.into_iter().map(join)).collect()
    });
    let mut rows: Part = parts.into_iter().flatten().collect();
    rows.sort_by_key(|row| row.0);
    rows.into_iter().map(|(at, found)| found.map_err(|why| why.of_board(at + 1))).collect()
}

/// The counts of some boards, with their places.
type Part = Vec<(usize, Result<Vec<Indices>, Refused>)>;

/// Counts one board after another that no other thread has taken, until all are taken or one is refused.
fn count_some(boards: &[Board], majorities: &[Majority], taken: &AtomicUsize) -> Part {
    let mut part = Part::new();
    let next = || {
        let at = taken.fetch_add(1, Ordering::Relaxed);
        Some((at, boards.get(at)?))
    };
    while let Some((at, board)) = next() {
        let found = board.by_each(majorities);
        if found.is_err() {
            // The boards before this one are all taken, and no other is counted.
            taken.store(boards.len(), Ordering::Relaxed);
        }
        part.push((at, found));
    }
    part
}

impl Board {
    /// The counts by these majorities.
    fn by_each(&self, majorities: &[Majority]) -> Result<Vec<Indices>, Refused> {
        // One call by all four takes less time than four, and more than three.
        if majorities.len() < Majority::ALL.len() {
            return majorities.iter().map(|&it| self.indices(it)).collect();
        }
        let all = self.indices_of_all()?;
        Ok(majorities.iter().map(|&it| all[it].clone()).collect())
    }
}
