//! The ephemeris book: its check, the search for cover, position and velocity.

use crate::hour::END;
use crate::vector::{finite, Vector};

/// The greatest length of a book.
pub const LIMIT: usize = 61_440;
/// Bytes before the contents.
pub const HEAD: usize = 8;
/// Bytes of one entry of the contents.
pub const ENTRY: usize = 24;

/// One entry of the contents.
#[derive(Clone, Copy, Debug, PartialEq, Eq)]
pub struct Entry {
    pub body: u16,
    pub n: u16,
    pub offset: u32,
    pub start: u64,
    pub span: u64,
}

/// N bytes at a place, if they are there.
pub fn bytes_at<const N: usize>(book: &[u8], at: usize) -> Option<[u8; N]> {
    book.get(at..at.checked_add(N)?)?.try_into().ok()
}

pub fn float_at(book: &[u8], at: usize) -> Option<f64> {
    bytes_at(book, at).map(f64::from_le_bytes)
}

/// The stated number of entries.
pub fn count(book: &[u8]) -> u32 {
    bytes_at(book, 4).map_or(0, u32::from_le_bytes)
}

/// Entry i of the contents, counted from 0.
pub fn entry(book: &[u8], i: usize) -> Option<Entry> {
    let at = i.checked_mul(ENTRY)?.checked_add(HEAD)?;
    Some(Entry {
        body: u16::from_le_bytes(bytes_at(book, at)?),
        n: u16::from_le_bytes(bytes_at(book, at + 2)?),
        offset: u32::from_le_bytes(bytes_at(book, at + 4)?),
        start: u64::from_le_bytes(bytes_at(book, at + 8)?),
        span: u64::from_le_bytes(bytes_at(book, at + 16)?),
    })
}

/// Body, n, start and span of one entry are allowed.
pub fn entry_passes(e: Entry) -> bool {
    let end = u128::from(e.start) + u128::from(e.span);
    (2..=6).contains(&e.body) && (2..=16).contains(&e.n) && e.span >= 1 && end <= u128::from(END)
}

/// Whether one passing entry may come before another: bodies ascend, no overlap within one.
pub fn follows(before: Entry, after: Entry) -> bool {
    after.body > before.body
        || (after.body == before.body && after.start >= before.start.saturating_add(before.span))
}

/// The check of a book; 1 if it does not pass.
pub fn check(book: &[u8]) -> Result<(), u64> {
    let total = bytes_at(book, 0).map(u32::from_le_bytes).ok_or(1u64)?;
    let entries = bytes_at(book, 4).map(u32::from_le_bytes).ok_or(1u64)?;
    if book.len() > LIMIT || book.len() as u64 != u64::from(total) {
        return Err(1);
    }
    // Where the next block must begin.
    let mut place = HEAD as u64 + ENTRY as u64 * u64::from(entries);
    if place > book.len() as u64 {
        return Err(1);
    }
    let mut before: Option<Entry> = None;
    for i in 0..entries as usize {
        let e = entry(book, i).ok_or(1u64)?;
        let in_order = before.is_none_or(|b| follows(b, e));
        if !entry_passes(e) || !in_order || u64::from(e.offset) != place {
            return Err(1);
        }
        place += 24 * u64::from(e.n);
        before = Some(e);
    }
    if place != book.len() as u64 {
        return Err(1);
    }
    coefficients_finite(book, HEAD + ENTRY * entries as usize)
}

/// Every float from a place to the end is finite; else 1.
pub fn coefficients_finite(book: &[u8], from: usize) -> Result<(), u64> {
    for at in (from..book.len()).step_by(8) {
        if !float_at(book, at).is_some_and(f64::is_finite) {
            return Err(1);
        }
    }
    Ok(())
}

/// s <= t < s + L
pub fn covers(e: Entry, t: u64) -> bool {
    e.start <= t && u128::from(t) < u128::from(e.start) + u128::from(e.span)
}

/// The entry of a body that covers t, read from the front of the contents.
pub fn find(book: &[u8], body: u64, t: u64) -> Option<usize> {
    (0..count(book) as usize)
        .map_while(|i| entry(book, i).map(|e| (i, e)))
        .find(|&(_, e)| u64::from(e.body) == body && covers(e, t))
        .map(|(i, _)| i)
}

/// The position of a body, in km, and its velocity, in km/s.
#[derive(Clone, Copy, Debug, PartialEq)]
pub struct Motion {
    pub place: Vector,
    pub speed: Vector,
}

impl Motion {
    /// Place and then speed, as they are printed.
    pub fn six(&self) -> [f64; 6] {
        let (p, v) = (self.place, self.speed);
        [p[0], p[1], p[2], v[0], v[1], v[2]]
    }
}

/// Value and slope of a Chebyshev series by Clenshaw over n floats at a place. With b as in
/// document 01, d(k) = ((2 b(k+1) + (2w) d(k+1)) - d(k+2)).
pub fn series(book: &[u8], at: usize, n: usize, w: f64) -> Option<(f64, f64)> {
    let (mut b1, mut b2) = (0.0, 0.0);
    let (mut d1, mut d2) = (0.0, 0.0);
    for k in (1..n).rev() {
        let b = ((2.0 * w) * b1 - b2) + float_at(book, at + 8 * k)?;
        let d = (2.0 * b1 + (2.0 * w) * d1) - d2;
        (b2, b1) = (b1, b);
        (d2, d1) = (d1, d);
    }
    let value = (w * b1 - b2) + float_at(book, at)?;
    let slope = (b1 + w * d1) - d2;
    Some((value, slope))
}

/// Position and velocity at t by a covering entry; 7 if one of them is not finite.
pub fn motion(book: &[u8], i: usize, t: u64) -> Result<Motion, u64> {
    let e = entry(book, i).ok_or(6u64)?;
    let twice = 2 * (i128::from(t) - i128::from(e.start)) - i128::from(e.span);
    let w = twice as f64 / e.span as f64;
    let (at, n) = (e.offset as usize, usize::from(e.n));
    let (mut place, mut speed) = ([0.0; 3], [0.0; 3]);
    for axis in 0..3 {
        let (value, slope) = series(book, at + 8 * n * axis, n, w).ok_or(1u64)?;
        place[axis] = value;
        speed[axis] = slope * 2000.0 / e.span as f64;
    }
    if !finite(place) || !finite(speed) {
        return Err(7);
    }
    Ok(Motion { place, speed })
}

/// The body position call: 1, 3, 6, 7 (position), 7 (velocity).
pub fn body(book: &[u8], number: u64, t: u64) -> Result<Motion, u64> {
    check(book)?;
    if t >= END {
        return Err(3);
    }
    let i = find(book, number, t).ok_or(6u64)?;
    motion(book, i, t)
}
