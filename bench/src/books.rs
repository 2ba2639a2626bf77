//! Books for the bench, by document 01's rules.

use reference::trial::books::{build, taken_apart, Piece};

/// A passing book whose entries are the last. Before them come enough others to cover each body for that many milliseconds: its own
/// blocks repeated, back in time.
pub fn preceded(book: &[u8], cover: u64) -> Option<Vec<u8>> {
    let old = taken_apart(book);
    let mut all = Vec::new();
    for body in 2..=6 {
        let own: Vec<&Piece> = old.iter().filter(|piece| piece.body == body).collect();
        let (Some(first), Some(last)) = (own.first(), own.last()) else { continue };
        let (mut start, end) = (first.start, last.start + last.span);
        all.extend(own.iter().map(|piece| Piece::clone(piece)));
        for piece in own.iter().rev().cycle() {
            if end - start >= cover {
                break;
            }
            start = start.checked_sub(piece.span)?;
            all.push(Piece { start, ..Piece::clone(piece) });
        }
    }
    all.sort_by_key(|piece| (piece.body, piece.start));
    Some(build(&all))
}

/// Places of a body that goes round a circle of a radius once in a cover: the series of the entry i of so many, with its first two
/// coefficients along the chord and the others far smaller.
fn coefficients(radius: f64, i: usize, entries: usize, n: usize) -> Vec<f64> {
    let angle = |i: usize| i as f64 / entries as f64 * std::f64::consts::TAU;
    let place = |i| [radius * angle(i).cos(), radius * angle(i).sin(), 0.1 * radius];
    let (from, to) = (place(i), place(i + 1));
    let coefficient = |axis: usize, k: usize| match k {
        0 => (from[axis] + to[axis]) / 2.0,
        1 => (to[axis] - from[axis]) / 2.0,
        k => radius * 1e-9 / k as f64,
    };
    (0..3 * n).map(|at| coefficient(at / n, at % n)).collect()
}

/// The entries of one body: so many, one after the other from a moment on, each of n coefficients.
fn chain(body: u16, radius: f64, entries: usize, n: usize, start: u64, cover: u64) -> impl Iterator<Item = Piece> {
    let span = cover / entries as u64;
    (0..entries).map(move |i| Piece { body, start: start + i as u64 * span, span, coefficients: coefficients(radius, i, entries, n) })
}

/// A book of the Moon and the Sun, two entries of the Moon for each of the Sun, each of n coefficients.
pub fn made(entries: usize, n: usize, start: u64, cover: u64) -> Vec<u8> {
    let suns = entries / 3;
    let moon = chain(2, 384_400.0, entries - suns, n, start, cover);
    build(&moon.chain(chain(3, 149_600_000.0, suns, n, start, cover)).collect::<Vec<Piece>>())
}
