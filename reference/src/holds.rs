//! Request R-12 as a question: does a second book hold every entry of a first one with the same coefficients?

use crate::book::{bytes_at, check, count, entry, Entry};

/// The bits of an entry's coefficients: n for X, then Y, then Z.
fn coefficients(book: &[u8], e: &Entry) -> Vec<Option<u64>> {
    (0..3 * usize::from(e.n)).map(|k| bytes_at(book, e.offset as usize + 8 * k).map(u64::from_le_bytes)).collect()
}

/// Same body, count, start, span and bits of each coefficient.
fn same(first: &[u8], a: &Entry, second: &[u8], b: &Entry) -> bool {
    (a.body, a.n, a.start, a.span) == (b.body, b.n, b.start, b.span) && coefficients(first, a) == coefficients(second, b)
}

/// The number of the first entry of the first book that the second does not hold, if there is one; 1 if one of the books does not pass.
pub fn missing(first: &[u8], second: &[u8]) -> Result<Option<usize>, u64> {
    check(first)?;
    check(second)?;
    let entries = |book| (0..count(book) as usize).map_while(move |i| entry(book, i));
    Ok(entries(first).position(|a| !entries(second).any(|b| same(first, &a, second, &b))))
}
