//! Conic figures.

use crate::rule::{State, CENTRES};
use crate::root::root;
use crate::vector::{cross, n};

#[derive(Clone, Copy, Debug, PartialEq)]
pub enum Kind {
    Ellipse { a: f64, e: f64, p: f64, q: f64, far: f64 },
    Hyperbola { a: f64, e: f64, p: f64, q: f64, v: f64 },
}

/// The centre's body number and the figures.
#[derive(Clone, Copy, Debug, PartialEq)]
pub struct Conic {
    pub centre: u64,
    pub kind: Kind,
}

/// A figure that must be finite; else 7.
pub fn figure(x: f64) -> Result<f64, u64> {
    if x.is_finite() {
        Ok(x)
    } else {
        Err(7)
    }
}

/// A finite figure that must not be zero; else the number given.
pub fn not_zero(x: f64, number: u64) -> Result<f64, u64> {
    if figure(x)? == 0.0 {
        return Err(number);
    }
    Ok(x)
}

/// The conic call for centre coefficient m: 4, 14 (a centre outside 1 to 6), 7, and then figure by figure.
pub fn conic(m: f64, s: &State) -> Result<Conic, u64> {
    if !m.is_finite() || m <= 0.0 {
        return Err(4);
    }
    if !CENTRES.contains(&s.centre) {
        return Err(14);
    }
    s.finite()?;
    let State { centre, position, velocity, .. } = *s;
    let r = root(not_zero(n(position), 7)?)?;
    let v2 = figure(n(velocity))?;
    let c3 = not_zero(v2 - (2.0 * m) / r, 9)?;
    let nc = not_zero(n(cross(position, velocity)), 10)?;
    let p = figure(nc / m)?;
    let e2 = figure(1.0 + (p * c3) / m)?;
    let e = if e2 < 0.0 { 0.0 } else { figure(root(e2)?)? };
    let a = figure(-(m / c3))?;
    let q = figure(p / (1.0 + e))?;
    let kind = if c3 < 0.0 {
        Kind::Ellipse { a, e, p, q, far: figure(a * (1.0 + e))? }
    } else {
        Kind::Hyperbola { a, e, p, q, v: figure(root(c3)?)? }
    };
    Ok(Conic { centre, kind })
}
