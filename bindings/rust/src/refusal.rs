//! The refusal numbers, 1 to 18.

use std::fmt;

/// Why a call refused. The variants are in the order of their numbers, 1 to 18. No call returns another refusal number.
///
/// ```
/// use belfrywool::{root, Refusal};
///
/// let refusal = root(-1.0).unwrap_err();
/// assert_eq!(refusal, Refusal::Root);
/// assert_eq!(refusal.number(), 11);
/// assert_eq!(refusal.to_string(), "refusal 11: a root of a negative number, or of one that is not finite");
/// ```
#[derive(Clone, Copy, Debug, PartialEq, Eq, Hash, PartialOrd, Ord)]
pub enum Refusal {
    /// 1: the book does not pass.
    Book = 1,
    /// 2: the step length is not allowed.
    Step,
    /// 3: a moment or its universal time is out of range.
    Moment,
    /// 4: a coefficient, J, A, K, DUT or the rule of the hour angle is not allowed.
    Setting,
    /// 5: the target is before the state, or not a whole number of steps away.
    Target,
    /// 6: a used body has no cover.
    Cover,
    /// 7: a given state or a result is not finite.
    NotFinite,
    /// 8: no such date from 1950 to 2049.
    Date,
    /// 9: c3 is zero.
    Parabola,
    /// 10: n(C) is zero.
    StraightLine,
    /// 11: root of a negative or non-finite number.
    Root,
    /// 12: an angle is out of range.
    Angle,
    /// 13: programs that read listings: not of the form.
    Listing,
    /// 14: the centre is not a body that the setting uses.
    Centre,
    /// 15: a run: the stored acceleration is not the rule's.
    Stored,
    /// 16: a repair: an input or output of fewer than 8 bytes.
    Short,
    /// 17: the program that writes tables: a magnitude of 10^12 or more.
    Large,
    /// 18: a state for the pane: about another centre, or not later.
    NotNext,
}

const ALL: [Refusal; 18] = [
    Refusal::Book,
    Refusal::Step,
    Refusal::Moment,
    Refusal::Setting,
    Refusal::Target,
    Refusal::Cover,
    Refusal::NotFinite,
    Refusal::Date,
    Refusal::Parabola,
    Refusal::StraightLine,
    Refusal::Root,
    Refusal::Angle,
    Refusal::Listing,
    Refusal::Centre,
    Refusal::Stored,
    Refusal::Short,
    Refusal::Large,
    Refusal::NotNext,
];

const MEANINGS: [&str; 18] = [
    "the book does not pass",
    "the step length is not an even number of milliseconds from 2 to 86,400,000",
    "a moment or its universal time is out of range",
    "a coefficient, J, A, K, DUT or the rule of the hour angle is not allowed",
    "the target is before the state, or not a whole number of steps away",
    "a used body has no record in the book that covers the moment",
    "a given state or a result is not finite",
    "there is no such date from 1950 to 2049",
    "the orbit is a parabola: c3 is zero",
    "the orbit is a straight line",
    "a root of a negative number, or of one that is not finite",
    "an angle is out of range",
    "the listing is not of the form",
    "the centre is not a body that the setting uses",
    "the acceleration stored with the state is not the one that the rule gives",
    "the input or the output has fewer than 8 bytes",
    "a magnitude of 10^12 or more has no place in the table",
    "the state is about another centre than the newer one, or not later",
];

const OTHERS: [&str; 5] = [
    "the budget is spent short of the target",
    "the run was refused, and the pane is as it was",
    "the moment is past the newer state",
    "the pane has fewer than two states, or the moment is before the older one",
    "the second book does not hold every entry of the first",
];

/// The meaning of a number that a call returned, in a plain sentence, as `belfry_meaning` of the C library gives it.
///
/// ```
/// use belfrywool::{calls, meaning};
///
/// assert_eq!(meaning(0), "the call has answered");
/// assert_eq!(meaning(6), "a used body has no record in the book that covers the moment");
/// assert_eq!(meaning(calls::LATE), "the moment is past the newer state");
/// assert_eq!(meaning(19), "no call returns this number");
/// ```
pub fn meaning(number: u64) -> &'static str {
    let other = || OTHERS.get(usize::try_from(number.checked_sub(crate::calls::GOING)?).ok()?).copied();
    match Refusal::of_number(number) {
        Some(refusal) => refusal.meaning(),
        None if number == 0 => "the call has answered",
        None => other().unwrap_or("no call returns this number"),
    }
}

impl Refusal {
    /// The refusal with this number, if there is one.
    ///
    /// ```
    /// use belfrywool::Refusal;
    ///
    /// assert_eq!(Refusal::of_number(6), Some(Refusal::Cover));
    /// assert_eq!(Refusal::of_number(0), None);
    /// assert_eq!(Refusal::of_number(19), None);
    /// ```
    pub fn of_number(number: u64) -> Option<Refusal> {
        let place = usize::try_from(number.checked_sub(1)?).ok()?;
        ALL.get(place).copied()
    }

    /// All of them, in the order of their numbers.
    ///
    /// ```
    /// use belfrywool::Refusal;
    ///
    /// let numbers: Vec<u64> = Refusal::all().iter().map(|refusal| refusal.number()).collect();
    /// assert_eq!(numbers, (1..=18).collect::<Vec<u64>>());
    /// ```
    pub fn all() -> [Refusal; 18] {
        ALL
    }

    /// The number, 1 to 18, as documents 01 and 02 give it.
    ///
    /// ```
    /// assert_eq!(belfrywool::Refusal::NotNext.number(), 18);
    /// ```
    pub fn number(self) -> u64 {
        self as u64
    }

    /// What it means, in a plain sentence without the number.
    ///
    /// ```
    /// assert_eq!(belfrywool::Refusal::Book.meaning(), "the book does not pass");
    /// ```
    pub fn meaning(self) -> &'static str {
        MEANINGS[self as usize - 1]
    }
}

impl fmt::Display for Refusal {
    fn fmt(&self, f: &mut fmt::Formatter<'_>) -> fmt::Result {
        write!(f, "refusal {}: {}", self.number(), self.meaning())
    }
}

impl std::error::Error for Refusal {}

/// The refusal for a number that a call returned. The proofs say that it is 1 to 18. Another number means that the library is not
/// the one that this crate is made for, and its answers cannot be used.
pub(crate) fn refused(number: u64) -> Refusal {
    Refusal::of_number(number).unwrap_or_else(|| panic!("the library returned {number}: it does not belong to this crate"))
}

pub(crate) fn answer<T>(number: u64, value: T) -> Result<T, Refusal> {
    match number {
        0 => Ok(value),
        number => Err(refused(number)),
    }
}
