//! The repair of a damaged book.

use crate::calls;
use crate::refusal::answer;
use crate::Refusal;

/// The greatest length of a book in bytes; a repair writes no more.
pub const MOST_BYTES: usize = 61_440;

/// The fate of an entry of a damaged book.
#[derive(Clone, Copy, Debug, PartialEq, Eq)]
pub enum Fate {
    /// Its number in the new book, counted from 0.
    Kept(u16),
    /// Dropped: fields that are not allowed.
    Fields,
    /// Dropped: its block lies outside the input.
    Block,
    /// Dropped: a coefficient is not finite.
    Coefficient,
    /// Dropped: it overlaps the last kept entry of its body.
    Overlap,
    /// Dropped: the output has no room for it.
    Room,
}

impl Fate {
    fn of_number(number: u16) -> Fate {
        match number {
            3001 => Fate::Fields,
            3002 => Fate::Block,
            3003 => Fate::Coefficient,
            3004 => Fate::Overlap,
            3005 => Fate::Room,
            kept => Fate::Kept(kept),
        }
    }

    /// What it means, in a few words.
    ///
    /// ```
    /// assert_eq!(belfrywool::Fate::Block.meaning(), "its block lies outside the input");
    /// ```
    pub fn meaning(self) -> &'static str {
        match self {
            Fate::Kept(_) => "kept",
            Fate::Fields => "its fields are not allowed",
            Fate::Block => "its block lies outside the input",
            Fate::Coefficient => "a coefficient is not finite",
            Fate::Overlap => "it overlaps the last kept entry of its body",
            Fate::Room => "the output has no room for it",
        }
    }
}

/// What a repair changed besides the entries that it dropped.
#[derive(Clone, Copy, Debug, PartialEq, Eq)]
pub struct Changed {
    pub total: bool,
    pub count: bool,
    pub order: bool,
    pub offsets: bool,
}

/// The report of a repair.
#[derive(Clone, Debug, PartialEq, Eq)]
pub struct Repair {
    /// One for each entry that was looked at, in the order of the input.
    pub fates: Vec<Fate>,
    /// How many of them are kept.
    pub kept: usize,
    /// How many bytes of the output are the new book.
    pub written: usize,
    pub changed: Changed,
}

/// Saves what can be saved of a damaged book: writes a book that passes to the output. It uses at most 61,440 bytes, and bytes after
/// the new book stay unchanged. Refusals: 16, 1; then nothing is written.
///
/// ```
/// use belfrywool::{repair, Book, Refusal};
///
/// // Its total says 0, which is wrong.
/// let (damaged, mut output) = ([0; 8], [7; 9]);
/// let report = repair(&damaged, &mut output)?;
/// assert!(report.changed.total && report.fates.is_empty());
/// assert_eq!((&output[..report.written], output[8]), (Book::EMPTY.bytes(), 7));
/// assert_eq!(repair(&damaged, &mut [0; 7]), Err(Refusal::Short));
/// # Ok::<(), Refusal>(())
/// ```
pub fn repair(input: &[u8], output: &mut [u8]) -> Result<Repair, Refusal> {
    let (mut fates, mut report) = ([0; calls::ENTRIES], [0; 7]);
    let number = unsafe {
        calls::belfry_repair(input.as_ptr(), input.len(), output.as_mut_ptr(), output.len(), &mut fates, &mut report)
    };
    let [looked, kept, written, total, count, order, offsets] = report;
    let fates = fates[..looked as usize].iter().map(|fate| Fate::of_number(*fate)).collect();
    let changed = Changed { total: total == 1, count: count == 1, order: order == 1, offsets: offsets == 1 };
    answer(number, Repair { fates, kept: kept as usize, written: written as usize, changed })
}
