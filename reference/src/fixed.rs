//! The Earth-fixed turn: precession from 1950.0 to the mean equator of date, then the turn.

use crate::hour::{allowed, sidereal, universal, DAY};
use crate::rule::{State, EARTH};
use crate::sine::{sine_cosine, C};
use crate::vector::{finite, Vector};

/// The three rows of the turn.
pub fn turn(sine: f64, cosine: f64) -> [Vector; 3] {
    [[cosine, sine, 0.0], [-sine, cosine, 0.0], [0.0, 0.0, 1.0]]
}

/// (m1·X + m2·Y) + m3·Z for each row.
pub fn turned(rows: [Vector; 3], v: Vector) -> Vector {
    rows.map(|m| (m[0] * v[0] + m[1] * v[1]) + m[2] * v[2])
}

/// Whole milliseconds from the epoch 1950.0 to moment 0: DELTJD is -0.076643 day.
pub const SINCE_1950_0: u64 = 6_621_955;

/// Document 000's table from 1950.0 to the mean equator of date, section ROTEQ; t in centuries.
pub fn precession_by(t: f64) -> [Vector; 3] {
    let series = |c: [f64; 4]| ((c[3] * t + c[2]) * t + c[1]) * t + c[0];
    let a11 = series([1.0, 0.0, -0.00029697, -0.00000013]);
    let a12 = series([0.0, -0.02234988, -0.00000676, 0.00000221]);
    let a13 = series([0.0, -0.00971711, 0.00000207, 0.00000096]);
    let a22 = series([1.0, 0.0, -0.00024976, -0.00000015]);
    let a23 = series([0.0, 0.0, -0.00010859, -0.00000003]);
    let a33 = series([1.0, 0.0, -0.00004721, 0.00000002]);
    [[a11, a12, a13], [-a12, a22, a23], [-a13, a23, a33]]
}

/// At a moment of ephemeris time.
pub fn precession(moment: u64) -> [Vector; 3] {
    precession_by((moment + SINCE_1950_0) as f64 / 3_155_760_000_000.0)
}

/// Each element is (first + second) + third: rows of the left table by columns of the right.
pub fn product(left: [Vector; 3], right: [Vector; 3]) -> [Vector; 3] {
    let element = |row: Vector, j: usize| (row[0] * right[0][j] + row[1] * right[1][j]) + row[2] * right[2][j];
    left.map(|row| [element(row, 0), element(row, 1), element(row, 2)])
}

/// The turn's rate on a day of UT.
pub fn rate(day: u64) -> f64 {
    (0.00417807417 / (1.0 + 0.000000000000521 * day as f64)) * C
}

/// The Earth-fixed call: 4 (DUT, rule), 14 (a centre other than the Earth), 3, 7 (state, then result).
pub fn earth_fixed(rule: u64, dut: u32, s: &State) -> Result<(Vector, Vector), u64> {
    allowed(rule, dut)?;
    if s.centre != EARTH {
        return Err(14);
    }
    let angle = sidereal(rule, s.moment, dut)?;
    let ut = universal(s.moment, dut)?;
    s.finite()?;
    let (sine, cosine) = sine_cosine(angle)?;
    let rows = product(turn(sine, cosine), precession(s.moment));
    let p = turned(rows, s.position);
    let mut v = turned(rows, s.velocity);
    let w = rate(ut / DAY);
    v[0] += w * p[1];
    v[1] -= w * p[0];
    if finite(p) && finite(v) {
        Ok((p, v))
    } else {
        Err(7)
    }
}
