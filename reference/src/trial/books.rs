//! Books that pass, built from pieces.

use super::chance::Chance;
use crate::book::{Entry, ENTRY, HEAD};
use crate::hour::END;

/// One entry with its coefficients: n for X, n for Y, n for Z.
#[derive(Clone, Debug)]
pub struct Piece {
    pub body: u16,
    pub start: u64,
    pub span: u64,
    pub coefficients: Vec<f64>,
}

impl Piece {
    pub fn n(&self) -> u16 {
        (self.coefficients.len() / 3) as u16
    }
}

/// The bytes of a book with these pieces, whether it passes or not.
pub fn build(pieces: &[Piece]) -> Vec<u8> {
    let blocks: usize = pieces.iter().map(|p| 8 * p.coefficients.len()).sum();
    let mut place = HEAD + ENTRY * pieces.len();
    let mut book = Vec::new();
    book.extend(((place + blocks) as u32).to_le_bytes());
    book.extend((pieces.len() as u32).to_le_bytes());
    for p in pieces {
        book.extend(p.body.to_le_bytes());
        book.extend(p.n().to_le_bytes());
        book.extend((place as u32).to_le_bytes());
        book.extend(p.start.to_le_bytes());
        book.extend(p.span.to_le_bytes());
        place += 8 * p.coefficients.len();
    }
    for x in pieces.iter().flat_map(|p| &p.coefficients) {
        book.extend(x.to_le_bytes());
    }
    book
}

/// The pieces of a book that passes.
pub fn taken_apart(book: &[u8]) -> Vec<Piece> {
    let coefficient = |at: usize| f64::from_le_bytes(book[at..at + 8].try_into().expect("eight bytes"));
    let piece = |e: Entry| {
        let coefficients = (0..3 * usize::from(e.n)).map(|k| coefficient(e.offset as usize + 8 * k)).collect();
        Piece { body: e.body, start: e.start, span: e.span, coefficients }
    };
    entries(book).into_iter().map(piece).collect()
}

/// All entries of a book that passes.
pub fn entries(book: &[u8]) -> Vec<Entry> {
    let count = crate::book::count(book) as usize;
    (0..count).map_while(|i| crate::book::entry(book, i)).collect()
}

/// Coefficients as a body has them; one time in `others`, other ones.
pub fn coefficients(c: &mut Chance, n: u16, others: u64) -> Vec<f64> {
    let style = if c.one_in(others) { c.below(5) } else { 5 };
    let size = c.pick(&[2e5, 4e5, 1e8, 5e8]);
    let mut list = Vec::new();
    for _ in 0..3 {
        for k in 0..n {
            list.push(match style {
                0 => 0.0,
                1 => c.pick(&[1e308, -1e308, 1.7e308, 1.0]),
                2 => c.sized(-400, 400),
                3 => c.pick(&[0.0, -0.0, 1.0, -2.0, 4.0]),
                4 => f64::from_bits(c.any_length(52)),
                _ => c.within(size / 8f64.powi(i32::from(k))),
            });
        }
    }
    list
}

/// Cuts of a window into at most `most` spans, some followed by a gap.
pub fn spans(c: &mut Chance, first: u64, width: u64, most: u64) -> Vec<(u64, u64)> {
    let mut cuts = vec![first, first + width];
    for _ in 1..c.between(1, most) {
        cuts.push(first + c.below(width));
    }
    cuts.sort_unstable();
    cuts.dedup();
    let mut list = Vec::new();
    for pair in cuts.windows(2) {
        let length = pair[1] - pair[0];
        let gap = match c.below(3) {
            0 => c.below(length),
            1 => c.below(length.min(20)),
            _ => 0,
        };
        list.push((pair[0], length - gap));
    }
    list
}

/// A window of time: at the front, at the end or anywhere.
pub fn window(c: &mut Chance) -> (u64, u64) {
    let width = c.any_length(36).max(12);
    let first = match c.below(5) {
        0 => 0,
        1 => END - width,
        _ => c.below(END - width),
    };
    (first, width)
}

/// Pieces of a random passing book.
pub fn pieces(c: &mut Chance) -> Vec<Piece> {
    let (first, width) = window(c);
    let bodies = c.between(1, 31);
    let others = c.pick(&[4, 20, 1000, 1000]);
    let mut list = Vec::new();
    for body in 2..=6u16 {
        if bodies & (1 << (body - 2)) == 0 {
            continue;
        }
        for (start, span) in spans(c, first, width, 6) {
            let n = c.between(2, 16) as u16;
            list.push(Piece { body, start, span, coefficients: coefficients(c, n, others) });
        }
    }
    list
}

/// At least two bodies; the first has two entries that touch.
pub fn sturdy(c: &mut Chance) -> Vec<Piece> {
    let start = c.between(1000, END / 2);
    let mut list = Vec::new();
    for (body, at) in [(2, 0), (2, 1), (2, 2), (3, 0), (5, 0), (5, 2)] {
        let n = c.between(3, 7) as usize;
        let coefficients = (0..3 * n).map(|_| c.within(1e6)).collect();
        list.push(Piece { body, start: start + at * 100_000, span: 100_000, coefficients });
    }
    list
}

/// A book with a given number of units of 24 bytes after its head, all of one body.
pub fn long(c: &mut Chance, units: usize) -> Vec<Piece> {
    let (mut left, mut list) = (units, Vec::new());
    while left >= 3 {
        // An entry takes n + 1 units; a rest of 1 or 2 must not remain.
        let n = if left <= 17 { left - 1 } else if left - 17 < 3 { 13 } else { 16 };
        let coefficients = (0..3 * n).map(|_| c.within(4e5)).collect();
        list.push(Piece { body: 2, start: 1000 * list.len() as u64, span: 1000, coefficients });
        left -= n + 1;
    }
    list
}

/// Coefficients of zero, each with either sign.
pub fn zeros(c: &mut Chance) -> Vec<Piece> {
    let signs = |c: &mut Chance, n: u64| (0..3 * n).map(|_| c.pick(&[0.0, -0.0])).collect();
    let piece = |c: &mut Chance, i: u64| {
        let coefficients = signs(c, 2 + i % 3);
        Piece { body: 2 + (i / 6) as u16, start: 1000 * (i % 6), span: 1000, coefficients }
    };
    (0..30).map(|i| piece(c, i)).collect()
}

/// A body with entries of two milliseconds. At the middle of each its position is ordinary. In some its velocity overflows there,
/// in others it only just does not.
pub fn fast(body: u16) -> Vec<Piece> {
    let slope = |i: u64| match i % 6 {
        2 => 1e306,
        5 => -8e304,
        _ => 1.0,
    };
    let axes = |i| vec![4e5, slope(i), 2e5, 0.5, 1e5, if i == 8 { -slope(i) } else { -1.0 }];
    (0..30).map(|i| Piece { body, start: 2 * i, span: 2, coefficients: axes(i) }).collect()
}

/// The Moon and Venus as far out as floats reach, the Sun on the other side: a difference of two may overflow.
pub fn far_apart() -> Vec<Piece> {
    let at = |body, x: f64| Piece { body, start: 0, span: 10_000_000, coefficients: vec![x, 0.0, x, 0.0, 4e5, 1.0] };
    vec![at(2, 1.7e308), at(3, -1.7e308), at(4, 1.7e308)]
}

/// The Moon and the Sun at the greatest speed, in opposite directions, with entries of a millisecond.
pub fn fast_apart() -> Vec<Piece> {
    let at = |body, i, slope: f64| Piece { body, start: i, span: 1, coefficients: vec![4e5, slope, 2e5, 1.0, 1e5, -slope] };
    [(2, 8.5e304), (3, -8.5e304)].iter().flat_map(|&(body, slope)| (0..40).map(move |i| at(body, i, slope))).collect()
}

/// The Moon all the time, and the Sun on the centre of the Earth for half of it.
pub fn sun_at_home() -> Vec<Piece> {
    let moon = vec![3e5, 1e4, 2e5, -1e4, 1e5, 1e3];
    let piece = |body, span, coefficients| Piece { body, start: 0, span, coefficients };
    vec![piece(2, 10_000_000, moon), piece(3, 5_000_000, vec![0.0; 6])]
}

/// Special books that pass.
pub fn special(c: &mut Chance) -> Vec<(&'static str, Vec<u8>)> {
    let whole = Piece { body: 6, start: 0, span: END, coefficients: coefficients(c, 16, 1000) };
    let last = Piece { body: 2, start: END - 1, span: 1, coefficients: vec![4.0; 6] };
    let centre = Piece { body: 2, start: 0, span: 10_000_000, coefficients: vec![0.0; 6] };
    let huge = Piece { body: 4, start: 0, span: 10_000_000, coefficients: vec![1.7e308; 9] };
    let later = Piece { body: 3, start: 5_000_000, span: 5_000_000, coefficients: vec![1e8; 6] };
    let near = Piece { body: 5, start: 0, span: 5_000_000, coefficients: vec![4e7; 6] };
    let gone = Piece { start: 5_000_000, coefficients: vec![1.7e308; 6], ..near.clone() };
    vec![
        ("no entries", build(&[])),
        ("Mars, then beyond the floats", build(&[near, gone])),
        ("Moon too fast", build(&fast(2))),
        ("Jupiter too fast", build(&fast(6))),
        ("Moon and Sun far apart", build(&far_apart())),
        ("Sun on the Earth's centre for a while", build(&sun_at_home())),
        ("Moon and Sun fast apart", build(&fast_apart())),
        ("one entry over all time", build(&[whole])),
        ("one entry, the last millisecond", build(&[last])),
        ("zeros of either sign", build(&zeros(c))),
        ("the longest that passes", build(&long(c, 2559))),
        ("Moon on the Earth's centre, Sun later, Venus beyond the floats", build(&[centre, later, huge])),
    ]
}
