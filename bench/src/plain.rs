//! Document 01's walk, literally: at every stage each body is looked up from the front of the contents, for its position only. The
//! reference also has request R-5's velocity in every lookup, and refuses one that is not finite.

use reference::book::{entry, find, float_at};
use reference::motion::{start_checks, step_by, walk_by, Outcome, Ran};
use reference::rule::{looked_up, slope_under, Setting, State};
use reference::vector::{finite, Vector};

/// Chebyshev series by Clenshaw over n floats at a place.
fn series(book: &[u8], at: usize, n: usize, w: f64) -> Option<f64> {
    let (mut b1, mut b2) = (0.0, 0.0);
    for k in (1..n).rev() {
        let b = ((2.0 * w) * b1 - b2) + float_at(book, at + 8 * k)?;
        (b2, b1) = (b1, b);
    }
    Some((w * b1 - b2) + float_at(book, at)?)
}

/// Position at t by a covering entry.
fn place(book: &[u8], i: usize, t: u64) -> Option<Vector> {
    let e = entry(book, i)?;
    let w = (2 * (t - e.start) as i64 - e.span as i64) as f64 / e.span as f64;
    let (at, n) = (e.offset as usize, usize::from(e.n));
    let axis = |a| series(book, at + 8 * n * a, n, w);
    Some([axis(0)?, axis(1)?, axis(2)?])
}

/// Positions of the bodies looked up in rising number: 6, then 7, body by body.
fn lookups(book: &[u8], setting: &Setting, t: u64) -> Result<[Vector; 7], u64> {
    let mut places = [[0.0; 3]; 7];
    for body in looked_up(setting) {
        let i = find(book, body as u64, t).ok_or(6u64)?;
        places[body] = place(book, i, t).filter(|p| finite(*p)).ok_or(7u64)?;
    }
    Ok(places)
}

pub fn step(book: &[u8], setting: &Setting, s: &State, h: u32) -> Result<State, u64> {
    step_by(|t, p| slope_under(&lookups(book, setting, t)?, setting, s.centre, p), s, h)
}

/// The run call without guesses, which this walk neither uses nor returns.
pub fn run(book: &[u8], setting: &Setting, state: &State, h: u32, target: u64, budget: u32) -> Ran {
    let guesses = [0; 5];
    if let Err(number) = start_checks(book, setting, state, h, target) {
        return Ran { outcome: Outcome::Refused(number), steps: 0, state: *state, guesses };
    }
    let (outcome, steps, state) = walk_by(|s| step(book, setting, s, h), state, target, budget);
    Ran { outcome, steps, state, guesses }
}
