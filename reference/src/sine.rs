//! Sine and cosine of an angle in parts.

use crate::hour::CIRCLE;

/// Parts of an eighth of a circle.
pub const OCTANT: u64 = 450_000_000_000;
/// One degree in radians.
pub const C: f64 = 0.017453292519943295;

/// (-1)^k over the factorial of `of`, one float quotient.
pub fn coefficient(k: u64, of: u64) -> f64 {
    let factorial: f64 = (1..=of).map(|i| i as f64).product();
    let sign = if k % 2 == 0 { 1.0 } else { -1.0 };
    sign / factorial
}

/// Horner in z from the highest k: odd factorials if `odd` is 1, even ones if it is 0.
pub fn horner(z: f64, highest: u64, odd: u64) -> f64 {
    let mut sum = coefficient(highest, 2 * highest + odd);
    for k in (0..highest).rev() {
        sum = sum * z + coefficient(k, 2 * k + odd);
    }
    sum
}

/// Sine and cosine; 12 for a circle or more.
pub fn sine_cosine(parts: u64) -> Result<(f64, f64), u64> {
    if parts >= CIRCLE {
        return Err(12);
    }
    let (q, r) = (parts / OCTANT, parts % OCTANT);
    let x = if q % 2 == 0 { r } else { OCTANT - r };
    let a = (x as f64 / 10_000_000_000.0) * C;
    let z = a * a;
    let s = a * horner(z, 6, 1);
    let c = horner(z, 7, 0);
    Ok(match q {
        0 => (s, c),
        1 => (c, s),
        2 => (c, -s),
        3 => (s, -c),
        4 => (-s, -c),
        5 => (-c, -s),
        6 => (-c, s),
        _ => (-s, c),
    })
}
