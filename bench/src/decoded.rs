//! A book read once: the entries of each body with their coefficients as floats, X, Y and Z side by side.

use reference::book::{count, entry, float_at, Entry};
use reference::vector::Vector;

/// Below this no position and no velocity overflows, with at most 16 coefficients and a span of at least a millisecond.
const CALM: f64 = 1e250;

pub struct Piece {
    start: u64,
    span: u64,
    terms: Vec<Vector>,
}

pub struct Decoded {
    bodies: [Vec<Piece>; 7],
    /// The number of a body's first entry in the contents.
    first: [usize; 7],
}

impl Piece {
    fn new(book: &[u8], e: Entry) -> Option<Piece> {
        let (at, n) = (e.offset as usize, usize::from(e.n));
        let term = |k: usize| {
            let axis = |a: usize| float_at(book, at + 8 * (n * a + k)).filter(|c| c.abs() < CALM);
            Some([axis(0)?, axis(1)?, axis(2)?])
        };
        Some(Piece { start: e.start, span: e.span, terms: (0..n).map(term).collect::<Option<Vec<Vector>>>()? })
    }

    fn covers(&self, t: u64) -> bool {
        self.start <= t && t - self.start < self.span
    }

    /// The three series in one loop, without their slopes: in a calm book those are finite.
    pub fn place(&self, t: u64) -> Vector {
        let w = (2 * (t - self.start) as i64 - self.span as i64) as f64 / self.span as f64;
        let (mut b1, mut b2) = ([0.0; 3], [0.0; 3]);
        for c in self.terms[1..].iter().rev() {
            let b = [0, 1, 2].map(|a| ((2.0 * w) * b1[a] - b2[a]) + c[a]);
            (b2, b1) = (b1, b);
        }
        [0, 1, 2].map(|a| (w * b1[a] - b2[a]) + self.terms[0][a])
    }
}

impl Decoded {
    /// Requires a book that passes; None if it has a coefficient that is not calm.
    pub fn new(book: &[u8]) -> Option<Decoded> {
        let mut decoded = Decoded { bodies: Default::default(), first: [0; 7] };
        for i in 0..count(book) as usize {
            let e = entry(book, i)?;
            let body = usize::from(e.body);
            if decoded.bodies[body].is_empty() {
                decoded.first[body] = i;
            }
            decoded.bodies[body].push(Piece::new(book, e)?);
        }
        Some(decoded)
    }

    /// The entry of a body at a moment: the guess, then the next, then by halving. The guess becomes the entry found.
    pub fn find(&self, body: usize, t: u64, guess: &mut usize) -> Option<&Piece> {
        let pieces = &self.bodies[body];
        let near = [*guess, *guess + 1].into_iter().find(|&i| pieces.get(i).is_some_and(|p| p.covers(t)));
        *guess = near.or_else(|| pieces.partition_point(|p| p.start <= t).checked_sub(1))?;
        pieces.get(*guess).filter(|p| p.covers(t))
    }

    /// The number in the contents.
    pub fn number(&self, body: usize, guess: usize) -> u64 {
        (self.first[body] + guess) as u64
    }
}
